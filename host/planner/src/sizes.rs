//! What is told of the tiles that a list's shapes overlap: a row for each total, and a column for each s.

use flourscoop::Overlaps;

use crate::overlaps::{Counted, Size};

/// What stands where nothing was counted.
const NOTHING: &str = "-";

fn row(name: &str, cells: impl IntoIterator<Item = String>) -> String {
    cells.into_iter().fold(format!("{name:<21}"), |row, cell| row + &format!(" {cell:>11}"))
}

/// A part of a whole in hundredths, to the nearest tenth of one.
fn share(part: u64, whole: u64) -> String {
    match whole {
        0 => NOTHING.into(),
        _ => {
            let tenths = (2000 * part + whole) / (2 * whole);
            format!("{}.{} %", tenths / 10, tenths % 10)
        }
    }
}

/// The line of the first shape that touches most tiles, where there is a shape.
fn line(totals: &Overlaps, lines: &[usize]) -> String {
    match totals.shapes {
        0 => NOTHING.into(),
        _ => lines[totals.place as usize].to_string(),
    }
}

/// All that is told.
pub fn text(counted: &Counted) -> String {
    let Counted { sizes, lines, refused } = counted;
    let mut told: Vec<String> = refused.iter().map(|(line, refusal)| format!("line {line}: {refusal}")).collect();
    if !told.is_empty() {
        told.push(String::new());
    }
    let total = |name: &str, total: &dyn Fn(&Overlaps) -> String| {
        row(name, sizes.iter().map(|size| size.totals.as_ref().map_or(NOTHING.into(), total)))
    };
    told.extend([
        row("", sizes.iter().map(|size| format!("s = {}", size.s))),
        row("tiles of the screen", sizes.iter().map(|size| size.tiles.to_string())),
        total("shapes", &|totals| totals.shapes.to_string()),
        total("out of range", &|totals| totals.out_of_range.to_string()),
        total("tiles by box", &|totals| totals.box_tiles.to_string()),
        total("tiles by touching", &|totals| totals.touched_tiles.to_string()),
        total("difference", &|totals| totals.difference.to_string()),
        total("  of those by box", &|totals| share(totals.difference, totals.box_tiles)),
        total("largest of one shape", &|totals| totals.largest.to_string()),
        total("  its place", &|totals| totals.place.to_string()),
        total("  its line", &|totals| line(totals, lines)),
    ]);
    let too_many: Vec<&Size> = sizes.iter().filter(|size| size.totals.is_none()).collect();
    if !too_many.is_empty() {
        told.push(String::new());
    }
    let more = |size: &&Size| {
        format!("s = {} is refused: {} tiles are more than the 4096 that a screen may have.", size.s, size.tiles)
    };
    told.extend(too_many.iter().map(more));
    told.join("\n") + "\n"
}

#[cfg(test)]
mod tests {
    use super::share;

    #[test]
    fn a_share_is_to_the_nearest_tenth_of_a_hundredth() {
        let shares = [(0, 7), (1, 3), (2, 3), (1, 8), (1, 2000), (1, 2001), (999, 1000), (1 << 32, 1 << 32), (0, 0)];
        let told = ["0.0 %", "33.3 %", "66.7 %", "12.5 %", "0.1 %", "0.0 %", "99.9 %", "100.0 %", "-"];
        assert_eq!(shares.map(|(part, whole)| share(part, whole)), told);
    }
}
