/* Every call by include/flourscoop.h, from C or C++: document 01's pool case, one answer and one refusal of each, marks, and
   the blocks that they ask for, tiles wholly covered, walks with their tests, draw calls, and lists and frames read at once,
   all in both editions; tiles that the screen cuts; maps; lists of shapes; shapes inside shapes; the header's rooms, texts and
   version. */
#include <float.h>
#include <math.h>
#include <stdio.h>
#include <string.h>

#include "flourscoop.h"

enum { WIDTH = 64, HEIGHT = 32, S = 4, BLOCKS = 2, MOST_WORDS = FLOURSCOOP_ROOM_TWO(WIDTH, HEIGHT, S, BLOCKS, 64) };
enum { CUT_WORDS = FLOURSCOOP_ROOM(4095, 9, 3, 1) };

/* The layouts of a pool: words in the header and to a block, and the room and the header of the pool case. */
static const struct layout {
    uint32_t header, block_words;
    size_t room;
    uint32_t opened[10];
} layouts[] = {
    {8, 32, FLOURSCOOP_ROOM(WIDTH, HEIGHT, S, BLOCKS), {64, 32, 4, 2, 2, 1, 8, 40}},
    {10, 32, FLOURSCOOP_ROOM_TWO(WIDTH, HEIGHT, S, BLOCKS, 32), {64, 32, 4, 2, 2, 1, 10, 42, 32, 0}},
    {10, 64, FLOURSCOOP_ROOM_TWO(WIDTH, HEIGHT, S, BLOCKS, 64), {64, 32, 4, 2, 2, 1, 10, 42, 64, 0}},
};

/* The layout at hand, its words of the pool case, and the words that these should be. */
static const struct layout *layout;
static size_t room;
static uint32_t pool[MOST_WORDS], kept[MOST_WORDS];

static uint32_t cut[CUT_WORDS];

/* The list of the header's example, its totals in the order of the call, and the totals of a refusal. */
enum { LISTED = 5, LIST_WORDS = LISTED * FLOURSCOOP_SHAPE_WORDS };
static const int32_t listed[LIST_WORDS] = {
    FLOURSCOOP_POINT, 262144, 10, 0, 0, 0, 0,
    FLOURSCOOP_LINE, 0, 0, 512, 512, 0, 0,
    FLOURSCOOP_TRIANGLE, 0, 0, 1024, 0, 0, 512,
    FLOURSCOOP_TRIANGLE, 0, 0, 0, 512, 1024, 0,
    FLOURSCOOP_POINT, 1025, 10, 0, 0, 0, 0,
};
static const uint64_t listed_totals[7] = {4, 1, 22, 19, 3, 7, 2}, no_totals[7] = {0};

/* The draw call of the header's example, its answers, and the entries of each tile afterwards, which are all above 0. */
enum { DRAWN = 8, DRAWN_WORDS = DRAWN * FLOURSCOOP_BIN_WORDS, DRAWN_BLOCKS = 4, SPARE = 3 };
enum { DRAW_ROOM = FLOURSCOOP_ROOM_TWO(WIDTH, HEIGHT, S, DRAWN_BLOCKS, 64) };
static const int32_t drawn[DRAWN_WORDS] = {
    FLOURSCOOP_POINT, 0, 0, 0, 0, 0, 0, 7,
    FLOURSCOOP_TRIANGLE, 0, 0, 1024, 0, 0, 512, 8,
    FLOURSCOOP_POINT, 256, 256, 0, 0, 0, 0, 9,
    FLOURSCOOP_LINE, 0, 0, 512, 512, 0, 0, 10,
    FLOURSCOOP_POINT, 5, 5, 0, 0, 0, 0, -1,
    FLOURSCOOP_POINT, 5, 262144, 0, 0, 0, 0, 11,
    FLOURSCOOP_LINE, 100, 100, 300, 100, 0, 0, 12,
    FLOURSCOOP_TRIANGLE, 0, -129, 0, 385, 511, 128, 13,
};
static const uint8_t drawn_answers[DRAWN] = {FLOURSCOOP_DONE, FLOURSCOOP_NO_ROOM, FLOURSCOOP_DONE, FLOURSCOOP_NO_ROOM,
                                             FLOURSCOOP_ID, FLOURSCOOP_OUT_OF_RANGE, FLOURSCOOP_DONE, FLOURSCOOP_DONE};
static const uint32_t drawn_lists[8][5] = {{7, 9, 12, FLOURSCOOP_WHOLE + 13}, {9, 12, 13}, {0}, {0}, {9, 13}, {9, 13},
                                           {0}, {0}};
static uint32_t draw_pool[DRAW_ROOM], single_pool[DRAW_ROOM];
static size_t draw_room;

/* The frame of that pool: where each list starts, and the entries of all. */
enum { TILES = FLOURSCOOP_ACROSS(WIDTH, S) * FLOURSCOOP_ACROSS(HEIGHT, S), DRAWN_ENTRIES = 11 };
static const uint32_t drawn_starts[TILES + 1] = {0, 4, 7, 7, 7, 9, 11, 11, 11};
static const uint32_t drawn_entries[DRAWN_ENTRIES] = {7, 9, 12, FLOURSCOOP_WHOLE + 13, 9, 12, 13, 9, 13, 9, 13};

/* The words lent to read lists into, with words on either side that are not lent; and what they should be afterwards. */
enum { MOST_STARTS = TILES + 1 + SPARE, MOST_ENTRIES = 2048 * 63, BETWEEN = 3 };
static uint32_t starts_lent[BETWEEN + MOST_STARTS + BETWEEN], starts_right[BETWEEN + MOST_STARTS + BETWEEN];
static uint32_t entries_lent[BETWEEN + MOST_ENTRIES + BETWEEN], entries_right[BETWEEN + MOST_ENTRIES + BETWEEN];

/* Points of tile 0, one more than a list may have. */
static int32_t points[(FLOURSCOOP_MOST_SHAPES + 1) * FLOURSCOOP_BIN_WORDS];

/* The totals of a call, with words beside each that it should leave. */
struct totals {
    uint32_t beside_0, shapes, beside_1, out_of_range;
    uint64_t beside_2, box_tiles, beside_3, touched_tiles, beside_4, difference, beside_5;
    uint32_t largest, beside_6, place, beside_7;
};

static uint32_t value, other, made;
static int passed, failed;

#ifdef __cplusplus
static const char language[] = "C++";
#else
static const char language[] = "C";
#endif

/* Counts a bin with the number, tiles, blocks and tests that it should have given. */
static void expect_bin(const char *name, uint32_t number, uint32_t wanted, uint32_t tiles, uint32_t blocks, uint32_t tests)
{
    if (number == wanted && value == tiles && other == blocks && made == tests) {
        passed++;
    } else {
        failed++;
        printf("%s: number %u, values %u %u %u; expected %u, %u %u %u\n", name, number, value, other, made, wanted, tiles,
               blocks, tests);
    }
    value = other = made = 0;
}

/* Counts a call with the number and values that it should have given. */
static void expect(const char *name, uint32_t number, uint32_t wanted, uint32_t wanted_value, uint32_t wanted_other)
{
    expect_bin(name, number, wanted, wanted_value, wanted_other, 0);
}

/* Makes values that a call has to write. */
static void unwritten(void) { value = other = made = 0xAAAAAAAA; }

/* Counts something that should hold. */
static void expect_that(int holds, const char *what)
{
    if (holds) {
        passed++;
    } else {
        failed++;
        printf("this does not hold: %s\n", what);
    }
}

/* Counts a comparison of the pool with the words that are kept. */
static void expect_kept(const char *what)
{
    expect_that(memcmp(pool, kept, room * sizeof *pool) == 0, what);
}

/* Opens a pool in the layout at hand, by the call of its edition. */
static uint32_t open_pool(uint32_t *words, size_t length, uint32_t width, uint32_t height, uint32_t s, uint32_t blocks)
{
    return layout->header == 8 ? flourscoop_open(words, length, width, height, s, blocks)
                               : flourscoop_open_two(words, length, width, height, s, blocks, layout->block_words);
}

/* Keeps the words of the pool case as they are after the opening. */
static void keep_opened(void)
{
    uint32_t *blocks = kept + layout->header + 32;
    memset(kept, 0, sizeof kept);
    memcpy(kept, layout->opened, layout->header * sizeof *kept);
    for (size_t place = 0; place < layout->block_words - 1; place++)
        blocks[place] = blocks[layout->block_words + place] = 0xDEADBEEF;
    blocks[layout->block_words - 1] = 2;
}

/* Keeps the words of the pool case as they are after the bin of id 7. */
static void keep_binned(void)
{
    uint32_t *tile = kept + layout->header, *blocks = tile + 32;
    keep_opened();
    kept[4] = 1;
    kept[5] = 2;
    tile[0] = tile[1] = tile[2] = tile[3] = 1;
    blocks[0] = 7;
    blocks[layout->block_words - 1] = 0;
}

/* Bins a list, and counts its number and its answers, those of the draw call or none; all other bytes should stay. */
static void expect_answers(const char *name, uint32_t *words, size_t length, const int32_t *list, size_t list_words,
                           size_t answer_bytes, uint32_t wanted, const uint8_t *wanted_answers)
{
    uint8_t answers[DRAWN + SPARE], right[DRAWN + SPARE];
    memset(answers, 0xAA, sizeof answers);
    memset(right, 0xAA, sizeof right);
    if (wanted_answers != NULL)
        memcpy(right, wanted_answers, DRAWN);
    expect(name, flourscoop_bin_list(words, length, list, list_words, answer_bytes == 0 ? NULL : answers, answer_bytes),
           wanted, 0, 0);
    expect_that(memcmp(answers, right, sizeof right) == 0, name);
}

/* Bins a list that should be refused with this number, and change no word and no byte. */
static void expect_no_answers(const char *name, uint32_t *words, size_t length, const int32_t *list, size_t list_words,
                              size_t answer_bytes, uint32_t wanted)
{
    static uint32_t before[DRAW_ROOM];
    memcpy(before, draw_pool, sizeof before);
    expect_answers(name, words, length, list, list_words, answer_bytes, wanted, NULL);
    expect_that(memcmp(before, draw_pool, sizeof before) == 0, name);
}

/* Reads a place of a tile's list; zeros are written where it is refused. */
static void expect_read(const char *name, const uint32_t *words, size_t length, uint32_t tile, uint32_t place,
                        uint32_t wanted, uint32_t id, uint32_t whole)
{
    value = other = 0xAAAAAAAA;
    expect(name, flourscoop_read(words, length, tile, place, &value, &other), wanted, id, whole);
}

/* Asks for a mark; zero is written where it is refused. */
static void expect_mark(const uint32_t *words, size_t length, uint32_t tile, uint32_t wanted, uint32_t mark)
{
    value = 0xAAAAAAAA;
    expect("high_water", flourscoop_high_water(words, length, tile, &value), wanted, mark, 0);
}

/* Fills words that are lent, and those that they should be afterwards: with these words in the first that are lent. */
static void fill(uint32_t *lent, uint32_t *right, size_t words, uint32_t filling, const uint32_t *read, size_t count)
{
    for (size_t at = 0; at < words + 2 * BETWEEN; at++)
        lent[at] = right[at] = filling + (uint32_t)at;
    if (count > 0)
        memcpy(right + BETWEEN, read, count * sizeof *right);
}

/* What stands in the words before they are lent, and rises from there: small numbers, poison, and the last numbers. */
static const uint32_t fillings[] = {0, 0xDEADBEEF, 0xFFFFFF00};
enum { FILLINGS = sizeof fillings / sizeof *fillings };

/* Reads a tile's list into so many words, and counts its number, how many entries it tells and the entries, these or none;
   all other words should stay. */
static void expect_list(const char *name, const uint32_t *words, size_t length, uint32_t tile, size_t list_room,
                        uint32_t wanted, const uint32_t *list, uint32_t count)
{
    for (size_t at = 0; at < FILLINGS; at++) {
        fill(entries_lent, entries_right, list_room, fillings[at], list, count);
        value = 0xAAAAAAAA;
        expect(name,
               flourscoop_read_list(words, length, tile, list_room == 0 ? NULL : entries_lent + BETWEEN, list_room, &value),
               wanted, count, 0);
        expect_that(memcmp(entries_lent, entries_right, (list_room + 2 * BETWEEN) * sizeof *entries_lent) == 0, name);
    }
}

/* Reads all lists into so many words for the starts and for the entries, likewise: these, or none. */
static void expect_frame(const char *name, const uint32_t *words, size_t length, size_t starts_room, size_t entries_room,
                         uint32_t wanted, const uint32_t *starts, const uint32_t *entries, uint32_t count)
{
    for (size_t at = 0; at < FILLINGS; at++) {
        fill(starts_lent, starts_right, starts_room, fillings[at], starts, starts == NULL ? 0 : TILES + 1);
        fill(entries_lent, entries_right, entries_room, fillings[at], entries, count);
        value = 0xAAAAAAAA;
        expect(name,
               flourscoop_read_all(words, length, starts_room == 0 ? NULL : starts_lent + BETWEEN, starts_room,
                                   entries_room == 0 ? NULL : entries_lent + BETWEEN, entries_room, &value),
               wanted, count, 0);
        expect_that(memcmp(starts_lent, starts_right, (starts_room + 2 * BETWEEN) * sizeof *starts_lent) == 0, name);
        expect_that(memcmp(entries_lent, entries_right, (entries_room + 2 * BETWEEN) * sizeof *entries_lent) == 0, name);
    }
}

/* Counts what a pool has; zeros are written where it is refused. */
static void expect_counts(const char *name, const uint32_t *words, size_t length, uint32_t wanted, uint32_t tiles,
                          uint32_t blocks, uint32_t free_blocks, uint32_t entries)
{
    uint32_t told[4] = {0xAAAAAAAA, 0xAAAAAAAA, 0xAAAAAAAA, 0xAAAAAAAA};
    const uint32_t number = flourscoop_counts(words, length, &told[0], &told[1], &told[2], &told[3]);
    expect_that(number == wanted && told[0] == tiles && told[1] == blocks && told[2] == free_blocks && told[3] == entries,
                name);
}

/* Each call on these words answers 4 and changes none. */
static void expect_unsound(uint32_t *words, size_t length, const char *what)
{
    uint32_t before[MOST_WORDS];
    memcpy(before, words, length * sizeof *words);
    expect("audit", flourscoop_audit(words, length), FLOURSCOOP_UNSOUND, 0, 0);
    unwritten();
    expect("bin", flourscoop_bin_point(words, length, 1, 0, 0, &value, &other, &made), FLOURSCOOP_UNSOUND, 0, 0);
    unwritten();
    expect("bin", flourscoop_bin_pixels_point(words, length, 1, 0, 0, &value, &other, &made), FLOURSCOOP_UNSOUND, 0, 0);
    expect_answers("bin_list", words, length, drawn, DRAWN_WORDS, DRAWN, FLOURSCOOP_UNSOUND, NULL);
    expect_read("read", words, length, 0, 0, FLOURSCOOP_UNSOUND, 0, 0);
    expect_list("read_list", words, length, 0, 9, FLOURSCOOP_UNSOUND, NULL, 0);
    expect_list("read_list of no tile in no words", words, length, TILES, 0, FLOURSCOOP_UNSOUND, NULL, 0);
    expect_frame("read_all", words, length, TILES + 1, 9, FLOURSCOOP_UNSOUND, NULL, NULL, 0);
    expect_frame("read_all in no words", words, length, 0, 0, FLOURSCOOP_UNSOUND, NULL, NULL, 0);
    expect_counts("counts", words, length, FLOURSCOOP_UNSOUND, 0, 0, 0, 0);
    expect_mark(words, length, 0, FLOURSCOOP_UNSOUND, 0);
    expect("release", flourscoop_release(words, length, 0, &value), FLOURSCOOP_UNSOUND, 0, 0);
    expect_that(memcmp(words, before, length * sizeof *words) == 0, what);
}

/* The words of a pool of edition one with three to a tile, as versions before 0.3.0 wrote them. */
static void expect_old_refused(void)
{
    enum { OLD_WORDS = 96 };
    uint32_t old[OLD_WORDS];
    memcpy(old, pool, 7 * sizeof *old);
    old[7] = 32;
    for (size_t tile = 0; tile < 8; tile++)
        memcpy(old + 8 + 3 * tile, pool + 8 + 4 * tile, 3 * sizeof *old);
    memcpy(old + 32, pool + 40, 64 * sizeof *old);
    expect_unsound(old, OLD_WORDS, "the words with three to a tile stay");
}

/* The pool with a word changed, which is then changed back. */
static void expect_changed_refused(size_t place, uint32_t word)
{
    const uint32_t before = pool[place];
    pool[place] = word;
    expect_unsound(pool, room, "the words with one changed stay");
    pool[place] = before;
    expect("audit", flourscoop_audit(pool, room), FLOURSCOOP_DONE, 0, 0);
}

/* The words that tell the layout. */
static void expect_other_layouts_refused(void)
{
    expect_changed_refused(6, layout->header == 8 ? 10 : 8);
    if (layout->header == 8) {
        expect_old_refused();
        return;
    }
    expect_changed_refused(8, 96 - layout->block_words);
    expect_changed_refused(8, 48);
    expect_changed_refused(9, 1);
}

/* Reads the pool case at once, in which tile 0 has id 7 or, as all other tiles, no entry. */
static void read_pool_case(uint32_t entries)
{
    static const uint32_t starts[2][TILES + 1] = {{0}, {0, 1, 1, 1, 1, 1, 1, 1, 1}};
    static const uint32_t id = 7;
    expect_counts("counts", pool, room, FLOURSCOOP_DONE, TILES, BLOCKS, BLOCKS - entries, entries);
    for (size_t spare = 0; spare <= SPARE; spare++) {
        expect_list("tile 0", pool, room, 0, entries + spare, FLOURSCOOP_DONE, &id, entries);
        expect_list("tile 7", pool, room, 7, spare, FLOURSCOOP_DONE, NULL, 0);
        expect_list("no tile", pool, room, TILES, spare, FLOURSCOOP_NO_TILE, NULL, 0);
        expect_frame("all", pool, room, TILES + 1, entries + spare, FLOURSCOOP_DONE, starts[entries], &id, entries);
    }
    expect_kept("the words after the reads");
}

/* The pool case, word by word. */
static void pool_case(void)
{
    expect("open", open_pool(pool, room, WIDTH, HEIGHT, S, BLOCKS), FLOURSCOOP_DONE, 0, 0);
    keep_opened();
    expect_kept("the words after the opening");
    read_pool_case(0);
    expect_other_layouts_refused();
    expect("audit", flourscoop_audit(pool, room), FLOURSCOOP_DONE, 0, 0);

    expect_bin("bin (0,0)", flourscoop_bin_point(pool, room, 7, 0, 0, &value, &other, &made), FLOURSCOOP_DONE, 1, 1, 1);
    keep_binned();
    expect_kept("the words after the bin");
    expect_other_layouts_refused();
    expect_read("read", pool, room, 0, 0, FLOURSCOOP_DONE, 7, 0);
    read_pool_case(1);
    expect_mark(pool, room, 0, FLOURSCOOP_DONE, 1);
    unwritten();
    expect("bin (256,256)", flourscoop_bin_point(pool, room, 9, 256, 256, &value, &other, &made), FLOURSCOOP_NO_ROOM, 0, 0);
    expect_kept("the words after the refusal");

    expect("release", flourscoop_release(pool, room, 0, &value), FLOURSCOOP_DONE, 1, 0);
    keep_opened();
    kept[layout->header + 3] = 1; /* the mark of tile 0 */
    expect_kept("the words after the release");
    read_pool_case(0);
}

/* Marks of the pool case after its release, and of words that are no sound pool. */
static void marks(void)
{
    uint32_t *mark = pool + layout->header + 3, most = BLOCKS * (layout->block_words - 1);
    expect_mark(pool, room, 0, FLOURSCOOP_DONE, 1);
    expect_mark(pool, room, 1, FLOURSCOOP_DONE, 0);
    expect_mark(pool, room, 7, FLOURSCOOP_DONE, 0);
    expect_mark(pool, room, 8, FLOURSCOOP_NO_TILE, 0);
    expect_mark(pool, room, UINT32_MAX, FLOURSCOOP_NO_TILE, 0);
    expect_mark(pool, room - 1, 8, FLOURSCOOP_UNSOUND, 0);
    expect_mark(NULL, 0, 0, FLOURSCOOP_UNSOUND, 0);
    /* as many entries as both blocks hold, and one more */
    *mark = most;
    expect_mark(pool, room, 0, FLOURSCOOP_DONE, most);
    *mark = most + 1;
    expect_mark(pool, room, 0, FLOURSCOOP_UNSOUND, 0);
    *mark = 1;
    expect_kept("the words after the marks");
}

/* The blocks that the marks of a pool ask for, as the header has it. */
static uint32_t blocks_by_marks(const uint32_t *words, size_t length)
{
    uint32_t tile, mark, blocks = 0, ids = (words[6] == 8 ? 32 : words[8]) - 1;
    for (tile = 0; flourscoop_high_water(words, length, tile, &mark) == FLOURSCOOP_DONE; tile++)
        blocks += (mark + ids - 1) / ids;
    return blocks;
}

/* Bins in tile 0 a point more than a block holds, and one in tile 1, and answers how many were refused for room. */
static int refused_in(uint32_t *words, size_t length, uint32_t blocks)
{
    const uint32_t in_tile_0 = layout->block_words;
    int refused = 0;
    expect("open", open_pool(words, length, WIDTH, HEIGHT, S, blocks), FLOURSCOOP_DONE, 0, 0);
    for (uint32_t id = 0; id <= in_tile_0; id++)
        refused += flourscoop_bin_point(words, length, id, id < in_tile_0 ? 10 : 300, 10, &value, &other, &made) ==
                   FLOURSCOOP_NO_ROOM;
    value = other = made = 0;
    return refused;
}

/* As many blocks as the marks ask for are enough, and here one less is not. */
static void blocks_for_marks(void)
{
    static uint32_t large[FLOURSCOOP_ROOM_TWO(WIDTH, HEIGHT, S, 2048, 64)];
    const size_t length = sizeof large / sizeof *large;
    expect_that(refused_in(large, length, 2048) == 0 && blocks_by_marks(large, length) == 3, "the marks ask for 3 blocks");
    expect_that(refused_in(large, length, 3) == 0, "3 blocks are enough");
    expect_that(refused_in(large, length, 2) == 1, "2 blocks are not");
}

/* The shapes in units and in pixels; each is listed in tile 0 and 1, and released. */
static void shapes(void)
{
    for (int kind = 0; kind < 6; kind++) {
        uint32_t number = 0;
        switch (kind) {
        case 0: number = flourscoop_bin_point(pool, room, 1, 256, 100, &value, &other, &made); break;
        case 1: number = flourscoop_bin_line(pool, room, 1, 100, 100, 300, 100, &value, &other, &made); break;
        case 2: number = flourscoop_bin_triangle(pool, room, 1, 100, 100, 300, 100, 200, 200, &value, &other, &made); break;
        case 3: number = flourscoop_bin_pixels_point(pool, room, 1, 16, 6.25f, &value, &other, &made); break;
        case 4: number = flourscoop_bin_pixels_line(pool, room, 1, 6, 6, 19, 6, &value, &other, &made); break;
        default: number = flourscoop_bin_pixels_triangle(pool, room, 1, 6, 6, 19, 6, 12, 12, &value, &other, &made); break;
        }
        expect_bin("bin", number, FLOURSCOOP_DONE, 2, 2, 2);
        kept[layout->header + 7] = 1; /* the mark of tile 1 */
        /* in this order, so that the free chain rises again */
        expect("release 1", flourscoop_release(pool, room, 1, &value), FLOURSCOOP_DONE, 1, 0);
        expect("release 0", flourscoop_release(pool, room, 0, &value), FLOURSCOOP_DONE, 1, 0);
        expect_kept("the words after both releases");
    }
}

/* M9 with the last id, in units, in pixels and by a draw call: it covers tiles 0 and 1 wholly, and touches five more. */
static void covered(void)
{
    static const int32_t shape[FLOURSCOOP_BIN_WORDS] = {FLOURSCOOP_TRIANGLE, 0, 0, 1024, 0, 0, 512, 16777215};
    const size_t length = layout->header + 32 + 7 * layout->block_words;
    static uint32_t words[FLOURSCOOP_ROOM_TWO(WIDTH, HEIGHT, S, 7, 64)];
    uint32_t *entry = words + layout->header + 32;
    uint8_t answer = 0xAA;
    expect("open", open_pool(words, length, WIDTH, HEIGHT, S, 7), FLOURSCOOP_DONE, 0, 0);
    expect_bin("units", flourscoop_bin_triangle(words, length, 16777215, 0, 0, 1024, 0, 0, 512, &value, &other, &made),
               FLOURSCOOP_DONE, 7, 7, 7);
    expect_bin("pixels", flourscoop_bin_pixels_triangle(words, length, 16777215, 0, 0, 64, 0, 0, 32, &value, &other, &made),
               FLOURSCOOP_DONE, 7, 0, 7);
    expect("list", flourscoop_bin_list(words, length, shape, FLOURSCOOP_BIN_WORDS, &answer, 1), FLOURSCOOP_DONE, 0, 0);
    expect_that(answer == FLOURSCOOP_DONE, "the shape of the list is done");
    for (uint32_t tile = 0; tile < 7; tile++)
        for (uint32_t place = 0; place < 3; place++) {
            const uint32_t whole = tile < 2 ? 1 : 0;
            expect_read("read", words, length, tile, place, FLOURSCOOP_DONE, 16777215, whole);
            expect_that(entry[tile * layout->block_words + place] == 16777215 + whole * FLOURSCOOP_WHOLE, "the entry");
        }
    unwritten();
    expect("5", flourscoop_bin_triangle(words, length, FLOURSCOOP_WHOLE, 0, 0, 1024, 0, 0, 512, &value, &other, &made),
           FLOURSCOOP_ID, 0, 0);
    /* the last entry that there can be is 33,554,431 */
    *entry = 33554431;
    expect_read("read", words, length, 0, 0, FLOURSCOOP_DONE, 16777215, 1);
    *entry = FLOURSCOOP_WHOLE;
    expect_read("read", words, length, 0, 0, FLOURSCOOP_DONE, 0, 1);
    *entry = 33554432;
    expect_read("read", words, length, 0, 0, FLOURSCOOP_UNSOUND, 0, 0);
    expect("audit", flourscoop_audit(words, length), FLOURSCOOP_UNSOUND, 0, 0);
}

/* Bins the shape of eight words by a call of its own. */
static uint32_t bin_alone(uint32_t *words, size_t length, const int32_t *shape)
{
    const uint32_t id = (uint32_t)shape[7];
    const int32_t *v = shape + 1;
    unwritten();
    switch (shape[0]) {
    case FLOURSCOOP_POINT: return flourscoop_bin_point(words, length, id, v[0], v[1], &value, &other, &made);
    case FLOURSCOOP_LINE: return flourscoop_bin_line(words, length, id, v[0], v[1], v[2], v[3], &value, &other, &made);
    default:
        return flourscoop_bin_triangle(words, length, id, v[0], v[1], v[2], v[3], v[4], v[5], &value, &other, &made);
    }
}

/* The same in pixels. */
static uint32_t bin_alone_in_pixels(uint32_t *words, size_t length, const int32_t *shape)
{
    const uint32_t id = (uint32_t)shape[7];
    float v[6];
    for (size_t at = 0; at < 6; at++)
        v[at] = (float)shape[1 + at] / 16;
    unwritten();
    switch (shape[0]) {
    case FLOURSCOOP_POINT: return flourscoop_bin_pixels_point(words, length, id, v[0], v[1], &value, &other, &made);
    case FLOURSCOOP_LINE:
        return flourscoop_bin_pixels_line(words, length, id, v[0], v[1], v[2], v[3], &value, &other, &made);
    default:
        return flourscoop_bin_pixels_triangle(words, length, id, v[0], v[1], v[2], v[3], v[4], v[5], &value, &other, &made);
    }
}

/* The walks of the header's examples, in units and in pixels; and no tests where the bin is refused. */
static void walks(void)
{
    static const struct {
        int32_t shape[FLOURSCOOP_BIN_WORDS];
        uint32_t tests, tiles;
    } examples[] = {
        {{FLOURSCOOP_TRIANGLE, 10, 10, 1000, 200, 900, 500, 1}, 8, 7},
        {{FLOURSCOOP_LINE, 300, 500, 1000, 10, 0, 0, 1}, 6, 4},
        {{FLOURSCOOP_POINT, 256, 256, 0, 0, 0, 0, 1}, 5, 4},
        {{FLOURSCOOP_POINT, 1024, 512, 0, 0, 0, 0, 1}, 1, 1},
        {{FLOURSCOOP_TRIANGLE, 0, -1, 1024, 0, 0, 512, 1}, 0, 7},
    };
    static uint32_t words[FLOURSCOOP_ROOM_TWO(WIDTH, HEIGHT, S, 7, 64)];
    const size_t length = layout->header + 32 + 7 * layout->block_words;
    for (size_t at = 0; at < sizeof examples / sizeof *examples; at++) {
        const int32_t *shape = examples[at].shape;
        const uint32_t tests = examples[at].tests, tiles = examples[at].tiles;
        expect("open", open_pool(words, length, WIDTH, HEIGHT, S, 7), FLOURSCOOP_DONE, 0, 0);
        expect_bin("walk", bin_alone(words, length, shape), FLOURSCOOP_DONE, tiles, tiles, tests);
        expect_bin("walk in pixels", bin_alone_in_pixels(words, length, shape), FLOURSCOOP_DONE, tiles, 0, tests);
        expect("open", open_pool(words, length, WIDTH, HEIGHT, S, tiles - 1), FLOURSCOOP_DONE, 0, 0);
        expect_bin("no walk", bin_alone(words, length, shape), FLOURSCOOP_NO_ROOM, 0, 0, 0);
        expect_bin("no walk in pixels", bin_alone_in_pixels(words, length, shape), FLOURSCOOP_NO_ROOM, 0, 0, 0);
    }
}

/* Expects something of a list with a wrong word at a place: a kind, or a word that the kind does not use. */
static void expect_each_wrong(const int32_t *list, size_t shapes, size_t words, void (*expect_wrong)(size_t, int32_t))
{
    for (size_t shape = 0; shape < shapes; shape++) {
        const size_t first = shape * words;
        expect_wrong(first, 0);
        expect_wrong(first, 4);
        expect_wrong(first, INT32_MIN);
        for (size_t unused = 1 + 2 * (size_t)list[first]; unused < FLOURSCOOP_SHAPE_WORDS; unused++) {
            expect_wrong(first + unused, 1);
            expect_wrong(first + unused, INT32_MIN);
        }
    }
}

/* The draw call with one word changed. */
static void expect_wrong_draw(size_t place, int32_t word)
{
    int32_t wrong[DRAWN_WORDS];
    memcpy(wrong, drawn, sizeof wrong);
    wrong[place] = word;
    expect_no_answers("a wrong word is found", draw_pool, draw_room, wrong, DRAWN_WORDS, DRAWN, FLOURSCOOP_LIST);
    expect_no_answers("and before the bytes", draw_pool, draw_room, wrong, DRAWN_WORDS, DRAWN - 1, FLOURSCOOP_LIST);
    expect_no_answers("and after the pool", draw_pool, draw_room - 1, wrong, DRAWN_WORDS, 0, FLOURSCOOP_UNSOUND);
}

/* What refuses a draw call as a whole, alone and with the causes that come after it. */
static void refused_draw_calls(void)
{
    for (size_t bytes = 0; bytes < DRAWN; bytes++) {
        expect_no_answers("too few bytes", draw_pool, draw_room, drawn, DRAWN_WORDS, bytes, FLOURSCOOP_BUFFER);
        expect_no_answers("no pool", NULL, 0, drawn, DRAWN_WORDS, bytes, FLOURSCOOP_UNSOUND);
    }
    for (size_t words = 1; words < DRAWN_WORDS; words++)
        if (words % FLOURSCOOP_BIN_WORDS != 0) {
            expect_no_answers("a part of a shape", draw_pool, draw_room, drawn, words, DRAWN, FLOURSCOOP_LIST);
            expect_no_answers("a part of a shape", draw_pool, draw_room, drawn, words, 0, FLOURSCOOP_LIST);
        }
    expect_each_wrong(drawn, DRAWN, FLOURSCOOP_BIN_WORDS, expect_wrong_draw);
    expect_answers("no list and no bytes", draw_pool, draw_room, NULL, 0, 0, FLOURSCOOP_DONE, NULL);
    expect_answers("no list and bytes", draw_pool, draw_room, NULL, 0, DRAWN, FLOURSCOOP_DONE, NULL);
    expect_no_answers("no list and no pool", NULL, 0, NULL, 0, 0, FLOURSCOOP_UNSOUND);
}

/* The header's example, with bytes to spare and with none; the same shapes one by one; and what is refused as a whole. */
static void draw_calls(void)
{
    uint8_t singly[DRAWN];
    draw_room = layout->header + 32 + DRAWN_BLOCKS * layout->block_words;
    for (size_t spare = 0; spare <= SPARE; spare++) {
        expect("open", open_pool(draw_pool, draw_room, WIDTH, HEIGHT, S, DRAWN_BLOCKS), FLOURSCOOP_DONE, 0, 0);
        expect_answers("the draw call", draw_pool, draw_room, drawn, DRAWN_WORDS, DRAWN + spare, FLOURSCOOP_DONE,
                       drawn_answers);
    }
    expect("open", open_pool(single_pool, draw_room, WIDTH, HEIGHT, S, DRAWN_BLOCKS), FLOURSCOOP_DONE, 0, 0);
    for (size_t place = 0; place < DRAWN; place++)
        singly[place] = (uint8_t)bin_alone(single_pool, draw_room, drawn + FLOURSCOOP_BIN_WORDS * place);
    value = other = made = 0;
    expect_that(memcmp(singly, drawn_answers, sizeof singly) == 0, "the answers are those of single bins");
    expect_that(memcmp(draw_pool, single_pool, draw_room * sizeof *draw_pool) == 0, "and so are the words");
    for (uint32_t tile = 0; tile < 8; tile++)
        for (uint32_t place = 0; place < 5; place++) {
            const uint32_t entry = drawn_lists[tile][place];
            expect_read("read", draw_pool, draw_room, tile, place, entry == 0 ? FLOURSCOOP_NO_PLACE : FLOURSCOOP_DONE,
                        entry % FLOURSCOOP_WHOLE, entry / FLOURSCOOP_WHOLE);
        }
    refused_draw_calls();
    expect_that(memcmp(draw_pool, single_pool, draw_room * sizeof *draw_pool) == 0, "the words stay");
}

/* The frame of the draw call: the lists and all of them in words of every number, and what is refused. */
static void frames(void)
{
    expect_counts("counts", draw_pool, draw_room, FLOURSCOOP_DONE, TILES, DRAWN_BLOCKS, 0, DRAWN_ENTRIES);
    for (uint32_t tile = 0; tile < TILES; tile++) {
        const uint32_t count = drawn_starts[tile + 1] - drawn_starts[tile];
        for (size_t list_room = 0; list_room <= DRAWN_ENTRIES; list_room++)
            if (list_room < count)
                expect_list("too few words", draw_pool, draw_room, tile, list_room, FLOURSCOOP_BUFFER, NULL, 0);
            else
                expect_list("a list", draw_pool, draw_room, tile, list_room, FLOURSCOOP_DONE,
                            drawn_entries + drawn_starts[tile], count);
        expect_list("no pool", NULL, 0, tile, count, FLOURSCOOP_UNSOUND, NULL, 0);
        expect_list("no pool and no words", NULL, 0, tile, 0, FLOURSCOOP_UNSOUND, NULL, 0);
    }
    for (size_t starts_room = 0; starts_room <= MOST_STARTS; starts_room++)
        for (size_t entries_room = 0; entries_room <= DRAWN_ENTRIES + SPARE; entries_room++)
            if (starts_room <= TILES || entries_room < DRAWN_ENTRIES)
                expect_frame("too few words", draw_pool, draw_room, starts_room, entries_room, FLOURSCOOP_BUFFER, NULL, NULL,
                             0);
            else
                expect_frame("a frame", draw_pool, draw_room, starts_room, entries_room, FLOURSCOOP_DONE, drawn_starts,
                             drawn_entries, DRAWN_ENTRIES);
    expect_list("no tile and no words", draw_pool, draw_room, TILES, 0, FLOURSCOOP_NO_TILE, NULL, 0);
    expect_list("no tile", draw_pool, draw_room, UINT32_MAX, 9, FLOURSCOOP_NO_TILE, NULL, 0);
    expect_frame("no pool", NULL, 0, TILES + 1, DRAWN_ENTRIES, FLOURSCOOP_UNSOUND, NULL, NULL, 0);
    expect_frame("no pool and no words", NULL, 0, 0, 0, FLOURSCOOP_UNSOUND, NULL, NULL, 0);
    expect_counts("no pool", NULL, 0, FLOURSCOOP_UNSOUND, 0, 0, 0, 0);
    expect_list("a pool without its last word", draw_pool, draw_room - 1, TILES, 0, FLOURSCOOP_UNSOUND, NULL, 0);
    expect_frame("a pool without its last word", draw_pool, draw_room - 1, 0, 0, FLOURSCOOP_UNSOUND, NULL, NULL, 0);
    expect_counts("a pool without its last word", draw_pool, draw_room - 1, FLOURSCOOP_UNSOUND, 0, 0, 0, 0);
    expect_that(memcmp(draw_pool, single_pool, draw_room * sizeof *draw_pool) == 0, "the words stay");
}

/* Lays out the points, so many words each. */
static void make_points(size_t words)
{
    memset(points, 0, sizeof points);
    for (size_t shape = 0; shape <= FLOURSCOOP_MOST_SHAPES; shape++)
        points[shape * words] = FLOURSCOOP_POINT;
}

/* A draw call of as many shapes as there may be: two blocks of 31 ids are filled, and the rest have no room. */
static void longest_draw_call(void)
{
    static uint8_t answers[FLOURSCOOP_MOST_SHAPES + 1];
    const size_t length = FLOURSCOOP_ROOM(WIDTH, HEIGHT, S, BLOCKS);
    const size_t most = FLOURSCOOP_MOST_SHAPES * FLOURSCOOP_BIN_WORDS, more = most + FLOURSCOOP_BIN_WORDS;
    size_t done = 0, no_room = 0;
    make_points(FLOURSCOOP_BIN_WORDS);
    memset(answers, 0xAA, sizeof answers);
    expect("open", flourscoop_open(pool, length, WIDTH, HEIGHT, S, BLOCKS), FLOURSCOOP_DONE, 0, 0);
    expect("1,048,577 shapes", flourscoop_bin_list(pool, length, points, more, answers, sizeof answers), FLOURSCOOP_LIST, 0,
           0);
    expect("1,048,575 bytes", flourscoop_bin_list(pool, length, points, most, answers, FLOURSCOOP_MOST_SHAPES - 1),
           FLOURSCOOP_BUFFER, 0, 0);
    for (size_t place = 0; place < sizeof answers; place++)
        done += answers[place] != 0xAA;
    expect_that(done == 0, "no answer is written by a refusal");
    expect("1,048,576 shapes", flourscoop_bin_list(pool, length, points, most, answers, sizeof answers), FLOURSCOOP_DONE, 0,
           0);
    while (done < sizeof answers && answers[done] == FLOURSCOOP_DONE)
        done++;
    while (done + no_room < sizeof answers && answers[done + no_room] == FLOURSCOOP_NO_ROOM)
        no_room++;
    expect_that(done == 62 && no_room == FLOURSCOOP_MOST_SHAPES - 62, "62 shapes are done, and the rest have no room");
    expect_that(answers[FLOURSCOOP_MOST_SHAPES] == 0xAA, "the byte past the shapes stays");
}

/* The longest list that there is, 2,048 blocks of 63 entries in one tile; and the same an entry shorter. */
static void longest_list(void)
{
    static uint32_t words[FLOURSCOOP_ROOM_TWO(8, 8, 3, 2048, 64)];
    static uint8_t answers[MOST_ENTRIES];
    static uint32_t list[MOST_ENTRIES];
    const size_t length = sizeof words / sizeof *words;
    make_points(FLOURSCOOP_BIN_WORDS);
    for (uint32_t id = 0; id < MOST_ENTRIES; id++) {
        list[id] = id;
        points[id * FLOURSCOOP_BIN_WORDS + FLOURSCOOP_SHAPE_WORDS] = (int32_t)id;
    }
    for (uint32_t count = MOST_ENTRIES - 1; count <= MOST_ENTRIES; count++) {
        expect("open", flourscoop_open_two(words, length, 8, 8, 3, 2048, 64), FLOURSCOOP_DONE, 0, 0);
        expect("bin_list", flourscoop_bin_list(words, length, points, count * FLOURSCOOP_BIN_WORDS, answers, count),
               FLOURSCOOP_DONE, 0, 0);
        expect_counts("counts", words, length, FLOURSCOOP_DONE, 1, 2048, 0, count);
        expect_list("the longest list", words, length, 0, MOST_ENTRIES, FLOURSCOOP_DONE, list, count);
        expect_list("a word too few", words, length, 0, count - 1, FLOURSCOOP_BUFFER, NULL, 0);
    }
}

/* Units of document 01's table, and where the range and the floats end. */
static void units(void)
{
    static const struct {
        float v;
        uint32_t number;
        int32_t unit;
        const char *text;
    } cases[] = {
        {0.09375f, FLOURSCOOP_DONE, 2, "the unit of 0.09375 is 2"},
        {-0.15625f, FLOURSCOOP_DONE, -2, "the unit of -0.15625 is -2"},
        {-0.0f, FLOURSCOOP_DONE, 0, "the unit of the zero below zero is 0"},
        {FLT_MIN / 4, FLOURSCOOP_DONE, 0, "the unit of a subnormal is 0"},
        {16383.9375f, FLOURSCOOP_DONE, 262143, "the unit of 16383.9375 is 262,143"},
        {16383.96875f, FLOURSCOOP_OUT_OF_RANGE, 0, "16383.96875 is refused with 7"},
        {-16384.03125f, FLOURSCOOP_DONE, -262144, "the unit of -16384.03125 is -262,144"},
        {-16384.033203125f, FLOURSCOOP_OUT_OF_RANGE, 0, "the next float below it is refused with 7"},
        {FLT_MAX, FLOURSCOOP_OUT_OF_RANGE, 0, "the largest float is refused with 7"},
        {INFINITY, FLOURSCOOP_NOT_FINITE, 0, "an infinity is refused with 6"},
        {NAN, FLOURSCOOP_NOT_FINITE, 0, "what is no number is refused with 6"},
    };
    for (size_t at = 0; at < sizeof cases / sizeof cases[0]; at++) {
        int32_t unit = 1;
        uint32_t number = flourscoop_unit(cases[at].v, &unit);
        expect_that(number == cases[at].number && unit == cases[at].unit, cases[at].text);
    }
}

/* Box and corner of M11's triangle, its long side and its first vertex, at tile 6. */
static void questions(void)
{
    expect("box", flourscoop_box_point(WIDTH, HEIGHT, S, 6, 700, 0, &value), FLOURSCOOP_DONE, 0, 0);
    expect("box", flourscoop_box_line(WIDTH, HEIGHT, S, 6, 700, 0, 1024, 300, &value), FLOURSCOOP_DONE, 1, 0);
    expect("box", flourscoop_box_triangle(WIDTH, HEIGHT, S, 6, 700, 0, 1024, 0, 1024, 300, &value), FLOURSCOOP_DONE, 1,
           0);
    expect("corner", flourscoop_corner_point(WIDTH, HEIGHT, S, 2, 700, 0, &value), FLOURSCOOP_DONE, FLOURSCOOP_PARTLY, 0);
    expect("corner", flourscoop_corner_line(WIDTH, HEIGHT, S, 6, 700, 0, 1024, 300, &value), FLOURSCOOP_DONE,
           FLOURSCOOP_APART, 0);
    expect("corner", flourscoop_corner_triangle(WIDTH, HEIGHT, S, 6, 700, 0, 1024, 0, 1024, 300, &value),
           FLOURSCOOP_DONE, FLOURSCOOP_APART, 0);
}

/* Asks how a triangle covers a tile, with its vertices in two orders, one of each winding. */
static void expect_cover(const char *name, uint32_t width, uint32_t height, uint32_t tile, const int32_t *shape,
                         uint32_t cover)
{
    const int32_t *a = shape, *b = shape + 2, *c = shape + 4;
    value = 0xAAAAAAAA;
    expect(name, flourscoop_corner_triangle(width, height, S, tile, a[0], a[1], b[0], b[1], c[0], c[1], &value),
           FLOURSCOOP_DONE, cover, 0);
    value = 0xAAAAAAAA;
    expect(name, flourscoop_corner_triangle(width, height, S, tile, c[0], c[1], b[0], b[1], a[0], a[1], &value),
           FLOURSCOOP_DONE, cover, 0);
}

/* How M8, M9, M11 and M12 cover the tiles, and triangles up to the end of a screen that ends inside its last tiles. */
static void covers(void)
{
    static const struct {
        const char *name;
        uint32_t width, height;
        int32_t shape[6];
        uint32_t covers[8];
    } cases[] = {
        {"M8", WIDTH, HEIGHT, {0, 0, 512, 512, 256, 256}, {1, 1, 0, 0, 1, 1, 1, 0}},
        {"M9", WIDTH, HEIGHT, {0, 0, 1024, 0, 0, 512}, {2, 2, 1, 1, 1, 1, 1, 0}},
        {"M9 less a unit", WIDTH, HEIGHT, {0, 0, 1023, 0, 0, 512}, {2, 1, 1, 1, 1, 1, 0, 0}},
        {"M11", WIDTH, HEIGHT, {700, 0, 1024, 0, 1024, 300}, {0, 0, 1, 1, 0, 0, 0, 1}},
        {"M12", WIDTH, HEIGHT, {-1000, -1000, 5000, -1000, -1000, 5000}, {2, 2, 2, 2, 2, 2, 2, 2}},
        {"to the end", 60, HEIGHT, {960, -512, 960, 512, -960, 512}, {2, 2, 2, 2, 2, 2, 2, 2}},
        {"a unit less", 60, HEIGHT, {959, -512, 959, 512, -961, 512}, {2, 2, 2, 1, 2, 2, 2, 1}},
    };
    for (size_t at = 0; at < sizeof cases / sizeof *cases; at++)
        for (uint32_t tile = 0; tile < 8; tile++)
            expect_cover(cases[at].name, cases[at].width, cases[at].height, tile, cases[at].shape, cases[at].covers[tile]);
    expect("corner of no tile", flourscoop_corner_triangle(WIDTH, HEIGHT, S, 8, 0, 0, 1024, 0, 0, 512, &value),
           FLOURSCOOP_NO_TILE, 0, 0);
}

/* A point, by both questions and binned in units and in pixels: it should touch this tile alone, or none. */
static void point_at(uint32_t width, uint32_t height, uint32_t s, uint32_t tile, int32_t x, int32_t y, uint32_t touches)
{
    const float x_pixels = (float)x / 16.0f, y_pixels = (float)y / 16.0f;
    const uint32_t read = touches ? FLOURSCOOP_DONE : FLOURSCOOP_NO_PLACE;
    /* of the tile to the left, as this one is the last of its row */
    const uint32_t tests = FLOURSCOOP_ACROSS(width, s) > 1 ? touches : 0;
    char name[64];
    snprintf(name, sizeof name, "(%d,%d) on %u by %u with s = %u", x, y, width, height, s);
    expect(name, flourscoop_box_point(width, height, s, tile, x, y, &value), FLOURSCOOP_DONE, touches, 0);
    expect(name, flourscoop_corner_point(width, height, s, tile, x, y, &value), FLOURSCOOP_DONE, touches, 0);
    expect(name, flourscoop_open(cut, CUT_WORDS, width, height, s, 1), FLOURSCOOP_DONE, 0, 0);
    expect_bin(name, flourscoop_bin_point(cut, CUT_WORDS, 5, x, y, &value, &other, &made), FLOURSCOOP_DONE, touches,
               touches, tests);
    expect_read(name, cut, CUT_WORDS, tile, 0, read, 5 * touches, 0);
    expect_bin(name, flourscoop_bin_pixels_point(cut, CUT_WORDS, 6, x_pixels, y_pixels, &value, &other, &made),
               FLOURSCOOP_DONE, touches, 0, tests);
    expect_read(name, cut, CUT_WORDS, tile, 1, read, 6 * touches, 0);
}

/* The last tile ends where the screen ends: points there, and a unit past it along each axis. */
static void end_at(uint32_t width, uint32_t height, uint32_t s, uint32_t last_tile)
{
    const int32_t right = 16 * (int32_t)width, bottom = 16 * (int32_t)height;
    point_at(width, height, s, last_tile, right, bottom, 1);
    point_at(width, height, s, last_tile, right + 1, bottom, 0);
    point_at(width, height, s, last_tile, right, bottom + 1, 0);
}

/* Screens that end inside their last tiles. */
static void ends(void)
{
    point_at(60, 32, S, 3, 960, 10, 1);
    point_at(60, 32, S, 3, 1000, 10, 0);
    point_at(60, 28, S, 7, 1000, 500, 0);
    end_at(60, 28, S, 7);
    for (uint32_t s = 3; s <= 6; s++)
        end_at(1, 1, s, 0);
    end_at(4095, 9, 3, 1023);
    /* a pixel less than whole tiles, and a pixel more */
    end_at(63, 31, S, 7);
    end_at(65, 33, S, 14);

    /* 960.5 units go to 960, which is even, and 961 lie past the end */
    expect("open", flourscoop_open(cut, CUT_WORDS, 60, 28, S, 1), FLOURSCOOP_DONE, 0, 0);
    expect_bin("60.03125", flourscoop_bin_pixels_point(cut, CUT_WORDS, 1, 60.03125f, 28, &value, &other, &made),
               FLOURSCOOP_DONE, 1, 1, 1);
    expect_bin("60.0625", flourscoop_bin_pixels_point(cut, CUT_WORDS, 1, 60.0625f, 28, &value, &other, &made),
               FLOURSCOOP_DONE, 0, 0, 0);
    /* a line through the corner, and one a unit past it, whose box the tile meets */
    expect("line", flourscoop_corner_line(60, 28, S, 7, 952, 456, 968, 440, &value), FLOURSCOOP_DONE, 1, 0);
    expect("line", flourscoop_bin_line(cut, CUT_WORDS, 1, 952, 456, 968, 440, &value, &other, &made), FLOURSCOOP_DONE, 1,
           0);
    expect("line", flourscoop_box_line(60, 28, S, 7, 953, 456, 969, 440, &value), FLOURSCOOP_DONE, 1, 0);
    expect("line", flourscoop_corner_line(60, 28, S, 7, 953, 456, 969, 440, &value), FLOURSCOOP_DONE, 0, 0);
    expect("line", flourscoop_bin_line(cut, CUT_WORDS, 1, 953, 456, 969, 440, &value, &other, &made), FLOURSCOOP_DONE, 0,
           0);
    /* a triangle in what the screen cuts off */
    expect("triangle", flourscoop_bin_triangle(cut, CUT_WORDS, 1, 970, 300, 1020, 300, 970, 500, &value, &other, &made),
           FLOURSCOOP_DONE, 0, 0);
}

/* The bytes of the header's maps, and those lent for one, with bytes on either side that are not lent. */
enum { MAP_BYTES = FLOURSCOOP_ACROSS(WIDTH, S) * FLOURSCOOP_ACROSS(HEIGHT, S), BESIDE = 5 };
static uint8_t lent[BESIDE + 4096 + BESIDE], lent_before[BESIDE + 4096 + BESIDE];

/* Makes the map of a shape of seven words. */
static uint32_t map_of(uint32_t width, uint32_t height, uint32_t s, const int32_t *shape, uint8_t *map, size_t bytes)
{
    const int32_t *v = shape + 1;
    switch (shape[0]) {
    case FLOURSCOOP_POINT: return flourscoop_map_point(width, height, s, v[0], v[1], map, bytes);
    case FLOURSCOOP_LINE: return flourscoop_map_line(width, height, s, v[0], v[1], v[2], v[3], map, bytes);
    default: return flourscoop_map_triangle(width, height, s, v[0], v[1], v[2], v[3], v[4], v[5], map, bytes);
    }
}

/* Makes a map in so many bytes, all of them alike before it, and counts its number and its bytes, those wanted or none; all
   other bytes should stay. */
static void expect_map(const char *name, uint32_t width, uint32_t height, uint32_t s, const int32_t *shape, size_t bytes,
                       uint8_t before, uint32_t wanted, const uint8_t *map, size_t tiles)
{
    memset(lent, before, sizeof lent);
    memset(lent_before, before, sizeof lent_before);
    if (map != NULL)
        memcpy(lent_before + BESIDE, map, tiles);
    expect(name, map_of(width, height, s, shape, bytes == 0 ? NULL : lent + BESIDE, bytes), wanted, 0, 0);
    expect_that(memcmp(lent, lent_before, sizeof lent) == 0, name);
}

/* A map that should be refused, and write no byte. */
static void expect_no_map(const char *name, uint32_t s, const int32_t *shape, size_t bytes, uint32_t wanted)
{
    expect_map(name, WIDTH, HEIGHT, s, shape, bytes, 0xAA, wanted, NULL, 0);
}

/* What refuses a map, alone and with the causes that come after it: each coordinate of a shape a unit out of range. */
static void refused_maps(const int32_t *shape)
{
    for (size_t bytes = 0; bytes < MAP_BYTES; bytes++) {
        expect_no_map("too few bytes", S, shape, bytes, FLOURSCOOP_BUFFER);
        expect_no_map("no screen and too few bytes", 7, shape, bytes, FLOURSCOOP_SCREEN);
    }
    expect_no_map("no screen", 2, shape, MAP_BYTES, FLOURSCOOP_SCREEN);
    for (size_t at = 1; at <= 2 * (size_t)shape[0]; at++) {
        int32_t far[FLOURSCOOP_SHAPE_WORDS];
        memcpy(far, shape, sizeof far);
        for (int end = 0; end < 2; end++) {
            far[at] = end == 0 ? -262145 : 262144;
            expect_no_map("out of range", S, far, MAP_BYTES, FLOURSCOOP_OUT_OF_RANGE);
            expect_no_map("out of range and too few bytes", S, far, MAP_BYTES - 1, FLOURSCOOP_OUT_OF_RANGE);
            expect_no_map("out of range and no bytes", S, far, 0, FLOURSCOOP_OUT_OF_RANGE);
            expect_no_map("no screen and out of range", 7, far, MAP_BYTES, FLOURSCOOP_SCREEN);
            expect_no_map("all three", 7, far, 0, FLOURSCOOP_SCREEN);
        }
    }
}

/* The maps of the header's examples, with bytes to spare and with none; those of the largest screens; and what is refused. */
static void maps(void)
{
    static const struct {
        int32_t shape[FLOURSCOOP_SHAPE_WORDS];
        uint8_t map[MAP_BYTES];
    } examples[] = {
        {{FLOURSCOOP_TRIANGLE, 700, 0, 1024, 0, 1024, 300}, {0, 0, 1, 1, 0, 0, 0, 1}},
        {{FLOURSCOOP_TRIANGLE, 10, 10, 1000, 200, 900, 500}, {1, 1, 1, 1, 0, 1, 1, 1}},
        {{FLOURSCOOP_TRIANGLE, 0, 0, 1536, 0, 0, 1536}, {1, 1, 1, 1, 1, 1, 1, 1}},
        {{FLOURSCOOP_LINE, 300, 500, 1000, 10, 0, 0}, {0, 0, 1, 1, 0, 1, 1, 0}},
        {{FLOURSCOOP_POINT, 256, 256, 0, 0, 0, 0}, {1, 1, 0, 0, 1, 1, 0, 0}},
        {{FLOURSCOOP_POINT, 1025, 10, 0, 0, 0, 0}, {0, 0, 0, 0, 0, 0, 0, 0}},
    };
    static const int32_t over_all[] = {FLOURSCOOP_TRIANGLE, -262144, -262144, 262143, -262144, 0, 262143};
    static const int32_t along_the_top[] = {FLOURSCOOP_LINE, 0, 5, 65536, 5, 0, 0};
    static const int32_t last_corner[] = {FLOURSCOOP_POINT, 65536, 65536, 0, 0, 0, 0};
    static const int32_t past_60[] = {FLOURSCOOP_POINT, 1000, 10, 0, 0, 0, 0};
    static const uint8_t before[] = {0, 1, 0x80, 0xFF};
    static uint8_t ones[4096], none[4096];
    for (size_t at = 0; at < sizeof examples / sizeof *examples; at++) {
        for (size_t spare = 0; spare <= SPARE; spare++)
            for (size_t k = 0; k < sizeof before; k++)
                expect_map("a map", WIDTH, HEIGHT, S, examples[at].shape, MAP_BYTES + spare, before[k], FLOURSCOOP_DONE,
                           examples[at].map, MAP_BYTES);
        refused_maps(examples[at].shape);
    }
    memset(ones, 1, sizeof ones);
    /* the screen ends inside its last tiles */
    expect_map("60 by 28", 60, 28, S, over_all, MAP_BYTES, 9, FLOURSCOOP_DONE, ones, MAP_BYTES);
    expect_map("past 60 by 28", 60, 28, S, past_60, MAP_BYTES, 9, FLOURSCOOP_DONE, none, MAP_BYTES);
    expect_map("4,096 tiles", 4096, 4096, 6, over_all, 4096, 9, FLOURSCOOP_DONE, ones, 4096);
    expect_map("512 by 8 tiles", 4096, 64, 3, over_all, 4096, 9, FLOURSCOOP_DONE, ones, 4096);
    expect_map("4,095 bytes", 4096, 4096, 6, over_all, 4095, 9, FLOURSCOOP_BUFFER, NULL, 0);
    expect_map("too many tiles", 4096, 65, 3, over_all, 4096, 9, FLOURSCOOP_SCREEN, NULL, 0);
    expect_map("a row of 512", 4096, 8, 3, along_the_top, 512, 9, FLOURSCOOP_DONE, ones, 512);
    expect_map("a column of 512", 8, 4096, 3, over_all, 512, 9, FLOURSCOOP_DONE, ones, 512);
    expect_map("off a row of 512", 4096, 8, 3, last_corner, 512, 9, FLOURSCOOP_DONE, none, 512);
    none[4095] = 1;
    expect_map("the last tile", 4096, 4096, 6, last_corner, 4096, 9, FLOURSCOOP_DONE, none, 4096);
}

/* Counts a call with the number and the totals that it should have given. */
static void expect_totals(const char *name, const int32_t *list, size_t words, uint32_t s, uint32_t wanted,
                          const uint64_t *values)
{
    struct totals written, right;
    uint32_t number;
    memset(&written, 0xAA, sizeof written);
    right = written;
    right.shapes = (uint32_t)values[0];
    right.out_of_range = (uint32_t)values[1];
    right.box_tiles = values[2];
    right.touched_tiles = values[3];
    right.difference = values[4];
    right.largest = (uint32_t)values[5];
    right.place = (uint32_t)values[6];
    number = flourscoop_overlaps(list, words, WIDTH, HEIGHT, s, &written.shapes, &written.out_of_range,
                                 &written.box_tiles, &written.touched_tiles, &written.difference, &written.largest,
                                 &written.place);
    expect_that(number == wanted && memcmp(&written, &right, sizeof right) == 0, name);
}

/* The example with one word changed. */
static void expect_wrong_word(size_t place, int32_t word)
{
    int32_t wrong[LIST_WORDS];
    memcpy(wrong, listed, sizeof wrong);
    wrong[place] = word;
    expect_totals("a wrong word is found", wrong, LIST_WORDS, S, FLOURSCOOP_LIST, no_totals);
    expect_totals("a wrong word comes after the screen", wrong, LIST_WORDS, 7, FLOURSCOOP_SCREEN, no_totals);
}

/* Lists of shapes: the header's example, no list, faults, and as many shapes as there may be. */
static void lists_of_shapes(void)
{
    static const uint64_t all[7] = {FLOURSCOOP_MOST_SHAPES, 0, FLOURSCOOP_MOST_SHAPES, FLOURSCOOP_MOST_SHAPES, 0, 1, 0};
    const size_t most = FLOURSCOOP_MOST_SHAPES * FLOURSCOOP_SHAPE_WORDS;
    expect_totals("the example", listed, LIST_WORDS, S, FLOURSCOOP_DONE, listed_totals);
    expect_totals("the example on no screen", listed, LIST_WORDS, 7, FLOURSCOOP_SCREEN, no_totals);
    expect_totals("no list", NULL, 0, S, FLOURSCOOP_DONE, no_totals);
    expect_totals("no list on no screen", NULL, 0, 2, FLOURSCOOP_SCREEN, no_totals);
    for (size_t words = 1; words < LIST_WORDS; words++)
        if (words % FLOURSCOOP_SHAPE_WORDS != 0)
            expect_totals("a part of a shape", listed, words, S, FLOURSCOOP_LIST, no_totals);
    expect_each_wrong(listed, LISTED, FLOURSCOOP_SHAPE_WORDS, expect_wrong_word);
    make_points(FLOURSCOOP_SHAPE_WORDS);
    expect_totals("1,048,576 shapes", points, most, S, FLOURSCOOP_DONE, all);
    expect_totals("1,048,577 shapes", points, most + FLOURSCOOP_SHAPE_WORDS, S, FLOURSCOOP_LIST, no_totals);
    points[most - 1] = 1;
    expect_totals("their last word", points, most, S, FLOURSCOOP_LIST, no_totals);
}

/* Asks whether the shape of one list is inside that of another; zero is written where it is refused. */
static void expect_inside(const char *name, const int32_t *first, size_t first_words, const int32_t *second,
                          size_t second_words, uint32_t wanted, uint32_t inside)
{
    value = 0xAAAAAAAA;
    expect(name, flourscoop_inside(first, first_words, second, second_words, &value), wanted, inside, 0);
}

/* Two lists of seven words. */
static void expect_pair(const char *name, const int32_t *first, const int32_t *second, uint32_t wanted, uint32_t inside)
{
    expect_inside(name, first, FLOURSCOOP_SHAPE_WORDS, second, FLOURSCOOP_SHAPE_WORDS, wanted, inside);
}

/* The same with the vertices of both in each order that turns or reverses them. */
static void expect_turned(const char *name, const int32_t *first, const int32_t *second, uint32_t inside)
{
    const size_t of_first = (size_t)first[0], of_second = (size_t)second[0];
    for (size_t turn = 0; turn < 2 * of_first * of_second; turn++) {
        int32_t one[FLOURSCOOP_SHAPE_WORDS] = {first[0]}, two[FLOURSCOOP_SHAPE_WORDS] = {second[0]};
        for (size_t at = 0; at < of_first; at++)
            memcpy(one + 1 + 2 * at, first + 1 + 2 * ((at + turn) % of_first), 2 * sizeof *one);
        for (size_t at = 0; at < of_second; at++) {
            const size_t to = turn < of_first * of_second ? at : of_second - 1 - at;
            memcpy(two + 1 + 2 * to, second + 1 + 2 * ((at + turn / of_first) % of_second), 2 * sizeof *two);
        }
        expect_pair(name, one, two, FLOURSCOOP_DONE, inside);
    }
}

/* A shape of each kind, inside those after it, three times in a row with a word behind them. */
enum { KINDS = 3, PAST = 3 * FLOURSCOOP_SHAPE_WORDS + 1 };
static const int32_t kinds[KINDS][PAST] = {
    {FLOURSCOOP_POINT, 5, 5, 0, 0, 0, 0, FLOURSCOOP_POINT, 5, 5, 0, 0, 0, 0, FLOURSCOOP_POINT, 5, 5, 0, 0, 0, 0, 1},
    {FLOURSCOOP_LINE, 0, 0, 5, 5, 0, 0, FLOURSCOOP_LINE, 0, 0, 5, 5, 0, 0, FLOURSCOOP_LINE, 0, 0, 5, 5, 0, 0, 1},
    {FLOURSCOOP_TRIANGLE, 0, 0, 10, 0, 0, 10, FLOURSCOOP_TRIANGLE, 0, 0, 10, 0, 0, 10, FLOURSCOOP_TRIANGLE, 0, 0, 10, 0, 0,
     10, 1},
};

/* A list that is refused with 15, or with 7 where the other is not, as the first, as the second and as both. */
static void expect_no_inside(const char *name, const int32_t *list, size_t words, uint32_t wanted)
{
    static const int32_t far[FLOURSCOOP_SHAPE_WORDS] = {FLOURSCOOP_TRIANGLE, 0, 0, 0, 0, 0, 262144};
    for (size_t kind = 0; kind < KINDS; kind++) {
        expect_inside(name, list, words, kinds[kind], FLOURSCOOP_SHAPE_WORDS, wanted, 0);
        expect_inside(name, kinds[kind], FLOURSCOOP_SHAPE_WORDS, list, words, wanted, 0);
        expect_inside("no list beside it", list, words, kinds[kind], 6, FLOURSCOOP_LIST, 0);
        expect_inside("no list before it", kinds[kind], 8, list, words, FLOURSCOOP_LIST, 0);
    }
    expect_inside("out of range beside it", list, words, far, FLOURSCOOP_SHAPE_WORDS, wanted, 0);
    expect_inside("out of range before it", far, FLOURSCOOP_SHAPE_WORDS, list, words, wanted, 0);
    expect_inside("the same", list, words, list, words, wanted, 0);
    expect_inside("nothing beside it", list, words, NULL, 0, FLOURSCOOP_LIST, 0);
    expect_inside("nothing before it", NULL, 0, list, words, FLOURSCOOP_LIST, 0);
}

/* What refuses a pair: every length but that of one shape, each wrong word, and each coordinate a unit out of range. */
static void refused_insides(void)
{
    expect_inside("nothing twice", NULL, 0, NULL, 0, FLOURSCOOP_LIST, 0);
    for (size_t kind = 0; kind < KINDS; kind++) {
        int32_t wrong[FLOURSCOOP_SHAPE_WORDS];
        for (size_t words = 0; words <= PAST; words++)
            if (words != FLOURSCOOP_SHAPE_WORDS)
                expect_no_inside("a length", words == 0 ? NULL : kinds[kind], words, FLOURSCOOP_LIST);
        for (size_t at = 0; at < FLOURSCOOP_SHAPE_WORDS; at++) {
            const int used = at <= 2 * (size_t)kinds[kind][0];
            const int32_t words[] = {at == 0 ? 0 : -262145, at == 0 ? 4 : 262144, INT32_MIN, INT32_MAX,
                                     16777216 + kinds[kind][0]};
            for (size_t word = 0; word < sizeof words / sizeof *words; word++) {
                memcpy(wrong, kinds[kind], sizeof wrong);
                wrong[at] = words[word];
                expect_no_inside("a wrong word", wrong, FLOURSCOOP_SHAPE_WORDS,
                                 at > 0 && used ? FLOURSCOOP_OUT_OF_RANGE : FLOURSCOOP_LIST);
            }
            if (at > 0 && !used) {
                wrong[at] = 1;
                expect_no_inside("a word not used", wrong, FLOURSCOOP_SHAPE_WORDS, FLOURSCOOP_LIST);
                wrong[1] = 262144;
                expect_no_inside("and out of range", wrong, FLOURSCOOP_SHAPE_WORDS, FLOURSCOOP_LIST);
            }
        }
    }
}

/* The pairs of the header's examples; each kind in each; the ends of the range; lists that overlap; and what is refused. */
static void insides(void)
{
    static const struct {
        int32_t first[FLOURSCOOP_SHAPE_WORDS], second[FLOURSCOOP_SHAPE_WORDS];
        uint32_t inside;
    } examples[] = {
        {{FLOURSCOOP_TRIANGLE, 100, 100, 400, 50, 300, 200}, {FLOURSCOOP_TRIANGLE, 0, 0, 1024, 0, 0, 512}, 1},
        {{FLOURSCOOP_TRIANGLE, 0, 0, 0, 512, 1024, 0}, {FLOURSCOOP_TRIANGLE, 0, 0, 1024, 0, 0, 512}, 1},
        {{FLOURSCOOP_POINT, 512, 256, 0, 0, 0, 0}, {FLOURSCOOP_TRIANGLE, 0, 0, 1024, 0, 0, 512}, 1},
        {{FLOURSCOOP_POINT, 512, 257, 0, 0, 0, 0}, {FLOURSCOOP_TRIANGLE, 0, 0, 1024, 0, 0, 512}, 0},
        {{FLOURSCOOP_LINE, -1, 10, 900, 10, 0, 0}, {FLOURSCOOP_TRIANGLE, 0, 0, 1024, 0, 0, 512}, 0},
        {{FLOURSCOOP_TRIANGLE, 0, 0, 512, 512, 256, 256}, {FLOURSCOOP_LINE, 0, 0, 512, 512, 0, 0}, 1},
        {{FLOURSCOOP_LINE, 0, 0, 512, 512, 0, 0}, {FLOURSCOOP_TRIANGLE, 0, 0, 512, 512, 256, 256}, 1},
        {{FLOURSCOOP_LINE, 5, 5, 5, 5, 0, 0}, {FLOURSCOOP_POINT, 5, 5, 0, 0, 0, 0}, 1},
        {{FLOURSCOOP_LINE, 5, 5, 5, 6, 0, 0}, {FLOURSCOOP_POINT, 5, 5, 0, 0, 0, 0}, 0},
        /* the ends of the range: (0,-1) is on the long side, and (0,0) a unit past it */
        {{FLOURSCOOP_TRIANGLE, -262144, 262143, 262143, -262144, 0, -1},
         {FLOURSCOOP_TRIANGLE, -262144, -262144, 262143, -262144, -262144, 262143}, 1},
        {{FLOURSCOOP_POINT, 0, 0, 0, 0, 0, 0},
         {FLOURSCOOP_TRIANGLE, -262144, -262144, 262143, -262144, -262144, 262143}, 0},
        {{FLOURSCOOP_POINT, 0, -1, 0, 0, 0, 0}, {FLOURSCOOP_LINE, -262144, 262143, 262143, -262144, 0, 0}, 1},
        {{FLOURSCOOP_POINT, 1, -1, 0, 0, 0, 0}, {FLOURSCOOP_LINE, -262144, 262143, 262143, -262144, 0, 0}, 0},
        /* one vertex, of each place, is out */
        {{FLOURSCOOP_TRIANGLE, 11, 0, 0, 0, 0, 10}, {FLOURSCOOP_TRIANGLE, 0, 0, 10, 0, 0, 10}, 0},
        {{FLOURSCOOP_TRIANGLE, 10, 0, 0, -1, 0, 10}, {FLOURSCOOP_TRIANGLE, 0, 0, 10, 0, 0, 10}, 0},
        {{FLOURSCOOP_TRIANGLE, 10, 0, 0, 0, 6, 5}, {FLOURSCOOP_TRIANGLE, 0, 0, 10, 0, 0, 10}, 0},
    };
    /* (1,0), (0,0) and (0,0) from the first word on, and from the second on the point (0,0) */
    static const int32_t overlapping[] = {FLOURSCOOP_TRIANGLE, FLOURSCOOP_POINT, 0, 0, 0, 0, 0, 0};
    for (size_t at = 0; at < sizeof examples / sizeof *examples; at++) {
        expect_pair("a pair", examples[at].first, examples[at].second, FLOURSCOOP_DONE, examples[at].inside);
        expect_turned("a pair, turned", examples[at].first, examples[at].second, examples[at].inside);
        expect_turned("a shape in itself", examples[at].first, examples[at].first, 1);
        expect_turned("a shape in itself", examples[at].second, examples[at].second, 1);
    }
    for (size_t first = 0; first < KINDS; first++)
        for (size_t second = 0; second < KINDS; second++)
            expect_pair("a kind in a kind", kinds[first], kinds[second], FLOURSCOOP_DONE, first <= second);
    expect_pair("lists that overlap", overlapping + 1, overlapping, FLOURSCOOP_DONE, 1);
    expect_pair("lists that overlap", overlapping, overlapping + 1, FLOURSCOOP_DONE, 0);
    refused_insides();
}

/* One refusal of each number. */
static void refusals(void)
{
    static const uint32_t sizes[] = {0, 1, 31, 33, 48, 63, 65, 128, UINT32_MAX};
    expect("1", open_pool(pool, room, WIDTH, HEIGHT, 7, BLOCKS), FLOURSCOOP_SCREEN, 0, 0);
    expect("2", open_pool(pool, room, WIDTH, HEIGHT, S, 2049), FLOURSCOOP_BLOCKS, 0, 0);
    for (size_t at = 0; at < sizeof sizes / sizeof *sizes; at++) {
        expect("1", flourscoop_open_two(pool, 0, WIDTH, HEIGHT, 7, 0, sizes[at]), FLOURSCOOP_SCREEN, 0, 0);
        expect("2", flourscoop_open_two(pool, 0, WIDTH, HEIGHT, S, 0, sizes[at]), FLOURSCOOP_BLOCKS, 0, 0);
        expect("2", flourscoop_open_two(pool, room, WIDTH, HEIGHT, S, BLOCKS, sizes[at]), FLOURSCOOP_BLOCKS, 0, 0);
    }
    expect("3", open_pool(pool, room - 1, WIDTH, HEIGHT, S, BLOCKS), FLOURSCOOP_SHORT, 0, 0);
    expect("4", flourscoop_audit(NULL, 0), FLOURSCOOP_UNSOUND, 0, 0);
    unwritten();
    expect("5", flourscoop_bin_point(pool, room, 16777216, 0, 0, &value, &other, &made), FLOURSCOOP_ID, 0, 0);
    unwritten();
    expect("6", flourscoop_bin_pixels_point(pool, room, 1, INFINITY, 0, &value, &other, &made), FLOURSCOOP_NOT_FINITE, 0, 0);
    unwritten();
    expect("7", flourscoop_bin_point(pool, room, 1, 262144, 0, &value, &other, &made), FLOURSCOOP_OUT_OF_RANGE, 0, 0);
    expect("9", flourscoop_release(pool, room, 8, &value), FLOURSCOOP_NO_TILE, 0, 0);
    expect("9", flourscoop_high_water(pool, room, 8, &value), FLOURSCOOP_NO_TILE, 0, 0);
    expect_read("9", pool, room, 8, 0, FLOURSCOOP_NO_TILE, 0, 0);
    expect_read("10", pool, room, 0, 0, FLOURSCOOP_NO_PLACE, 0, 0);
    expect_kept("the words after the refusals");
}

/* Adds up the rooms of both editions. */
#define BOTH_ROOMS(width, height, s, blocks, block_words) \
    (FLOURSCOOP_ROOM(width, height, s, blocks) + FLOURSCOOP_ROOM_TWO(width, height, s, blocks, block_words))

static size_t rooms_of_sizes(size_t width, size_t height, size_t s, size_t blocks, size_t block_words)
{
    return BOTH_ROOMS(width, height, s, blocks, block_words);
}

static size_t rooms_of_words(uint32_t width, uint32_t height, uint32_t s, uint32_t blocks, uint32_t block_words)
{
    return BOTH_ROOMS(width, height, s, blocks, block_words);
}

static size_t rooms_of_ints(int width, int height, int s, int blocks, int block_words)
{
    return BOTH_ROOMS(width, height, s, blocks, block_words);
}

/* The rooms are the same for constants and for each type of the arguments. */
static void rooms(void)
{
    expect_that(FLOURSCOOP_ROOM(WIDTH, HEIGHT, S, BLOCKS) == 104, "the pool case has 104 words");
    expect_that(FLOURSCOOP_ROOM_TWO(WIDTH, HEIGHT, S, BLOCKS, 32) == 106, "and 106 in edition two");
    expect_that(sizeof pool == 170 * sizeof *pool, "and 170 with blocks of 64 words");
    expect_that(FLOURSCOOP_ROOM(4096, 4096, 6, 2048) == 81928, "the largest pool of edition one has 81,928 words");
    expect_that(FLOURSCOOP_ROOM_TWO(4096, 4096, 6, 2048, 64) == 147466, "the largest of edition two has 147,466");
    expect_that(rooms_of_sizes(60, 31, 4, 2, 64) == 104 + 170, "rooms of size_t");
    expect_that(rooms_of_words(60, 31, 4, 2, 64) == 104 + 170, "rooms of uint32_t");
    expect_that(rooms_of_ints(60, 31, 4, 2, 64) == 104 + 170, "rooms of int");
}

/* Each number has a text of its own, and so have all others together; the version is said twice alike. */
static void texts(void)
{
    static const uint32_t numbers[] = {0, 1, 2, 3, 4, 5, 6, 7, 8, 9, 10, 11, 13, 15};
    static const uint32_t unknown[] = {12, 14, 16, UINT32_MAX};
    char version[32];
    for (size_t at = 0; at < sizeof numbers / sizeof *numbers; at++)
        for (size_t before = 0; before < at; before++)
            expect_that(strcmp(flourscoop_number_text(numbers[before]), flourscoop_number_text(numbers[at])) != 0,
                        flourscoop_number_text(numbers[at]));
    for (size_t at = 0; at < sizeof unknown / sizeof *unknown; at++)
        expect_that(flourscoop_number_text(unknown[at]) == flourscoop_number_text(13), "the text of an unknown number");
    snprintf(version, sizeof version, "%d.%d.%d", FLOURSCOOP_VERSION_MAJOR, FLOURSCOOP_VERSION_MINOR,
             FLOURSCOOP_VERSION_PATCH);
    expect_that(strcmp(version, FLOURSCOOP_VERSION) == 0, "the version and its parts agree");
}

int main(void)
{
    for (size_t at = 0; at < sizeof layouts / sizeof *layouts; at++) {
        layout = &layouts[at];
        room = layout->room;
        pool_case();
        marks();
        shapes();
        refusals();
        blocks_for_marks();
        covered();
        walks();
        draw_calls();
        frames();
    }
    longest_draw_call();
    longest_list();
    units();
    questions();
    covers();
    ends();
    maps();
    lists_of_shapes();
    insides();
    rooms();
    texts();
    printf("%s: %d passed, %d failed\n", language, passed, failed);
    return failed != 0;
}
