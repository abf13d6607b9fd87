//! The lists of a pool, read off its words as include/flourscoop.h has them.

/// The entries of each tile, of a sound pool of either edition.
pub fn lists_in(words: &[u32]) -> Vec<Vec<u32>> {
    let [tiles_at, blocks_at] = [6, 7].map(|word| words[word] as usize);
    let block_words = if tiles_at == 8 { 32 } else { words[8] as usize };
    let list = |tile: &[u32]| {
        let (count, mut link, mut entries) = (tile[0] as usize, tile[1] as usize, Vec::new());
        while link != 0 {
            let block = &words[blocks_at + (link - 1) * block_words..][..block_words];
            entries.extend(&block[..block_words - 1]);
            link = block[block_words - 1] as usize;
        }
        entries.truncate(count);
        entries
    };
    words[tiles_at..blocks_at].chunks(4).map(list).collect()
}

/// How many entries all lists have.
pub fn entries_in(words: &[u32]) -> usize {
    lists_in(words).iter().map(Vec::len).sum()
}
