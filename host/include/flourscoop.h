/*
 * Flourscoop: finds the tiles of a screen that points, lines and triangles touch, and keeps for each tile the list of
 * the ids of its shapes, each with whether the shape covers the tile wholly, in one pool of 32-bit words that the caller
 * lends. Or it tells the tiles of one shape in a map, a byte for each, or whether one shape lies inside another. Link
 * libflourscoop.a.
 *
 * WHAT EVERY CALL KEEPS TO
 *   - Any argument is safe as long as each pointer is: nothing is assumed of the numbers or of the words in the pool.
 *   - It returns one of the numbers below. 0 means done; any other is a refusal. A refusal changes no word of the pool.
 *   - What a pointer at the end of the arguments names is always written: the value on 0, zero on a refusal. The answers to
 *     a list, the bytes of a map and the entries and starts of a frame are not one value: they are written on 0 alone.
 *   - It always returns. It uses no heap, no global data and no operating system; of the C library it needs memset.
 *   - No call writes a word past the pool's room, and what stands there does not matter to any answer.
 *
 * POINTERS
 *   pool, words   a slice: its first word and how many words it has. Aligned as a uint32_t is, to 4 bytes. Where words is
 *                 0, pool may be null.
 *   list          likewise with words or list_words, of int32_t; it is only read.
 *   first, second likewise with first_words and second_words, of int32_t; they are only read, and may overlap or be the same.
 *   answers       likewise with answer_bytes, of bytes, at any address.
 *   map           likewise with bytes, of bytes, at any address.
 *   entries       of read_list and read_all: likewise with room or entries_room, of uint32_t.
 *   starts        likewise with starts_room, of uint32_t.
 *   the others    each to one uint32_t, int32_t or uint64_t, aligned as that is, a uint64_t to 8 bytes. Not null, not in the
 *                 pool, a list, the entries or the starts, no two the same.
 *   Pool, list, answers, entries and starts of a call do not overlap.
 *
 * THREADS AND INTERRUPTS
 *   Calls on different pools are independent and may run at the same time. Calls on one pool must not overlap; two calls
 *   of which each only audits, reads, counts or asks for a mark may, each with entries and starts of its own. Calls that take
 *   no pool may always run, those that write a map as long as nothing else reads or writes that map. Several calls may take
 *   one list of shapes, as long as nothing writes to that.
 *
 * STACK, in bytes, as measured, on Arm in an emulator; of those of bin, bin_list and overlaps, 16,384 list the touched
 * tiles; that of map is for a grid of 512 columns or rows, and less for a smaller one
 *               bin     bin_list  overlaps  map    audit  read   read_list  read_all  counts
 *     x86-64    18,928  18,800    16,976    3,216  2,288  2,336  2,352      2,384     2,352
 *     Arm       18,912  18,800    16,912    2,304  2,272  2,320  2,320      2,352     2,336
 *               high_water  release  corner  inside  box  open, open_two  unit
 *     x86-64    2,320       2,368    448     224     240  144             16
 *     Arm       2,304       2,304    320     112     224  144             32
 *
 * SCREEN AND UNITS
 *   A screen has a width and a height of 1 to 4,096 pixels. A tile is a square of 2^s by 2^s pixels, s from 3 to 6, cut
 *   off where the screen ends. Columns are the width divided by 2^s, rounded up; rows likewise with the height. There are
 *   at most 4,096 tiles, numbered from 0, row by row from the top left.
 *   A unit is a sixteenth of a pixel; x to the right, y down. A vertex has x and y from -262,144 to 262,143 units, so it
 *   may lie off the screen. With T = 16 * 2^s, the tile in column c and row r is the closed rectangle from c*T to the
 *   lesser of (c+1)*T and 16*width, and from r*T to the lesser of (r+1)*T and 16*height: a shape that only meets a side or
 *   a corner touches the tile. The tiles cover the screen, from 0 to 16*width and from 0 to 16*height, ends included, and
 *   nothing past it: a shape that has no point there is accepted and listed nowhere.
 *   A coordinate in pixels goes to its unit by a product and a sum in float. The processor is to round these to the
 *   nearest, a half to the even one, as it does unless a program has changed its mode; in another mode a unit may be one
 *   off. Where it flushes subnormal numbers to zero, no answer changes.
 *   Vertices may come in any order and may coincide; a triangle without area is its longest side, a line without length
 *   its point.
 *   A shape covers a tile wholly exactly where all four corners of the tile's rectangle are points of it, its edges and
 *   vertices included. A point, a line and a triangle without area never do.
 *
 * A LIST OF SHAPES
 *   It is lent to flourscoop_overlaps and flourscoop_inside with seven words to a shape: its kind and six coordinates in
 *   units. Those that the kind does not use are 0. It is lent to flourscoop_bin_list with eight: the id comes after them.
 *     1, x1, y1, 0, 0, 0, 0            a point
 *     2, x1, y1, x2, y2, 0, 0          a line
 *     3, x1, y1, x2, y2, x3, y3        a triangle
 *     3, x1, y1, x2, y2, x3, y3, id    a triangle with its id
 *   The shapes stand one after the other, at most 1,048,576 of them; there may be none. Their places count from 0. Each of
 *   the two lists of inside has just one. A coordinate and an id may be any int32_t. Where a coordinate is out of range,
 *   overlaps counts the shape apart, and it adds nothing else; inside is refused. Where a coordinate or the id is, bin_list
 *   refuses that shape, and goes on with the next.
 *
 *   An example of totals, on a screen of 64 by 32 with s = 4, which has four columns and two rows of tiles:
 *     place 0    1, 262144, 10, 0, 0, 0, 0       out of range
 *     place 1    2, 0, 0, 512, 512, 0, 0         its box meets 6 tiles, of which it touches 5
 *     place 2    3, 0, 0, 1024, 0, 0, 512        8, and 7
 *     place 3    3, 0, 0, 0, 512, 1024, 0        8, and 7
 *     place 4    1, 1025, 10, 0, 0, 0, 0         none: it is off the screen
 *     totals     shapes 4, out of range 1, tiles by box 22, by touching 19, difference 3, largest 7, its place 2
 *
 *   An example of a draw call, on the same screen, in a pool of 4 blocks that was just opened; each shape has its answer:
 *     shape 0    1, 0, 0, 0, 0, 0, 0, 7             0   in tile 0, which takes a block; 3 are free
 *     shape 1    3, 0, 0, 1024, 0, 0, 512, 8        8   6 of the 7 tiles that it touches are empty, and need a block each
 *     shape 2    1, 256, 256, 0, 0, 0, 0, 9         0   in tiles 0, 1, 4 and 5, of which three take a block; none is free
 *     shape 3    2, 0, 0, 512, 512, 0, 0, 10        8   one of the 5 tiles that it touches is empty
 *     shape 4    1, 5, 5, 0, 0, 0, 0, -1            5   the id is below 0
 *     shape 5    1, 5, 262144, 0, 0, 0, 0, 11       7   out of range
 *     shape 6    2, 100, 100, 300, 100, 0, 0, 12    0   in tiles 0 and 1, whose blocks have places left
 *     shape 7    3, 0, -129, 0, 385, 511, 128, 13   0   in tiles 0, 1, 4 and 5, of which it covers tile 0 wholly
 *   The call returns 0. With * behind the id of a shape that covers the tile wholly, tile 0 has the list 7, 9, 12, 13*,
 *   tile 1 has 9, 12, 13, and tiles 4 and 5 have 9, 13.
 *
 * THE POOL
 *   It is of one of two editions, and every call reads either. With a header of H words and B words to a block, it needs
 *   H + 4*tiles + B*blocks words.
 *                    opened by             H    B          words needed
 *     edition one    flourscoop_open        8   32         FLOURSCOOP_ROOM
 *     edition two    flourscoop_open_two   10   32 or 64   FLOURSCOOP_ROOM_TWO
 *   The words are these. A link is a block's number plus 1, or 0 for none. Blocks are numbered from 0.
 *     word 0, 1, 2    width, height, s
 *     word 3          blocks, 0 to 2,048
 *     word 4          free blocks
 *     word 5          link to the first free block
 *     word 6          where the tiles start: H, which tells the edition
 *     word 7          where the blocks start: H + 4*tiles
 *     word 8, 9       in edition two alone: B, 0
 *   Then four words for each tile, tile t from word H + 4*t: entries, link to its first block, link to its last block, and
 *   its mark, the most entries that it had since the opening. A tile that never had an entry has 0, 0, 0, 0, a released one
 *   0, 0, 0 and its mark. A mark is at least the tile's entries and at most (B-1)*blocks.
 *   Then B words for each block, block b from word (word 7) + B*b: B-1 places for entries, then the link to the next block.
 *   A tile with q entries has a chain of q/(B-1) blocks, rounded up; its list is the first q places along the chain. The
 *   free blocks are a chain as well. Every block stands in one of these chains, once. An entry is a shape's id, 0 to
 *   16,777,215, plus a flag, FLOURSCOOP_WHOLE, 16,777,216, where the shape covers the tile wholly; so it is at most
 *   33,554,431. Each place without an entry, those of free blocks too, holds poison, 0xDEADBEEF.
 *   Open chains the free blocks in rising order and sets each mark to 0. Bin takes the head of the free chain for a tile
 *   exactly where its number of entries is a multiple of B-1, zero included; where the entries pass the mark, the mark
 *   rises with them. Release gives the blocks back in the order of their chain, each poisoned and made the new head of the
 *   free chain, so that the last of them is taken first. It keeps the mark.
 *   A pool that version 0.3.0 wrote is one of edition one. Words with three to a tile, as versions before that wrote them,
 *   are not a sound pool: calls on them answer 4. Calls of a version before 0.4.0 answer 4 on a pool of edition two. Those of
 *   a version before 0.7.0 answer 4 on a pool with an entry above 16,777,215, and wrote none themselves.
 *
 *   An example: a screen of 64 by 32 with s = 4 has 8 tiles; with 2 blocks it needs 104 words in edition one. Opened, and
 *   then id 7 binned as the point (0,0), which touches tile 0 alone:
 *     word  0 to   7   64 32 4 2 1 2 8 40            block 1 is the one free block
 *     word  8 to  11   1 1 1 1                       tile 0: one entry; block 0 is its first and last; its mark is 1
 *     word 12 to  39   0, each                       the other tiles never had an entry
 *     word 40 to  71   7, 30 times poison, 0         block 0: id 7, and no next block
 *     word 72 to 103   31 times poison, 0            block 1: free, and no next block
 *   Then id 9 as the point (256,256) touches tiles 0, 1, 4 and 5, of which three are empty and need a block each: it is
 *   refused with 8, and no word changes. A release of tile 0 brings back the opened pool but for word 11, the mark, which
 *   stays 1. In edition two with B = 64 it needs 170 words, and all answers are the same. Opened, and then id 7 binned:
 *     word   0 to   9   64 32 4 2 1 2 10 42 64 0
 *     word  10 to  13   1 1 1 1
 *     word  14 to  41   0, each
 *     word  42 to 105   7, 62 times poison, 0
 *     word 106 to 169   63 times poison, 0
 *   In a tile that its shape covers wholly, the entry of id 7 is 16777223.
 *
 * READING A FRAME
 *   flourscoop_read gives one entry, and audits the pool for it. flourscoop_read_list writes all entries of one tile's list,
 *   and flourscoop_read_all those of all lists, with one audit each. They write an entry as it stands in the pool: the id,
 *   plus FLOURSCOOP_WHOLE where the shape covers the tile wholly.
 *   By flourscoop_read_all the list of tile t stands in entries from starts[t] on and before starts[t + 1]: starts[0] is 0,
 *   starts[tiles] is the number of all entries, and an empty tile starts where the next one does. So a frame needs tiles + 1
 *   words for the starts, and as many for the entries as all lists have; flourscoop_counts tells both. 4,097 and 129,024 do
 *   for every pool: it has at most 4,096 tiles, and no more entries than (B-1)*blocks.
 *     for (tile = 0; tile < tiles; tile++)
 *         for (at = starts[tile]; at < starts[tile + 1]; at++)
 *             draw(tile, entries[at] % FLOURSCOOP_WHOLE, entries[at] / FLOURSCOOP_WHOLE);
 *
 *   An example, the pool of 4 blocks after its draw call above:
 *     frame counts     tiles 8, blocks 4, free 0, entries 11
 *     frame starts     0 4 7 7 7 9 11 11 11
 *     frame entries    7 9 12 16777229 9 12 13 9 13 9 13
 *   and flourscoop_read_list writes for each tile, with the number that it returns:
 *     list 0    0   7 9 12 16777229, count 4
 *     list 1    0   9 12 13, count 3
 *     list 2    0   none, count 0
 *     list 5    0   9 13, count 2
 *     list 8    9   none, count 0
 *
 * TESTS
 *   A bin finds the tiles of a shape by tests, each of which says of one tile whether the shape touches it, and tells how
 *   many it made. Where all vertices are on the screen, with x from 0 to 16*width and y from 0 to 16*height, they are those
 *   of this walk:
 *     - It starts in the tile of the topmost vertex, of several the leftmost: in column x/T, rounded down, and row y/T,
 *       rounded up, less one, each held to the grid. The shape touches that tile; it is not tested.
 *     - From there it tests to the right until a miss or the grid's edge, and then to the left likewise. The tiles without
 *       a miss are the run of this row.
 *     - In the next row it tests the tiles below that run, from left to right, until one is touched. From that one it goes
 *       to the right and to the left as before.
 *     - It ends with the last row that the shape touches.
 *   A tile may be tested twice, and each test counts. They are at most twice the tiles listed, plus one for each row with
 *   such a tile. How full the pool is does not matter to them.
 *   Where a vertex is off the screen, the tiles are found in another way, and the number is 0; as is that of a refusal.
 *   flourscoop_bin_list finds the tiles of its shapes likewise, and tells no tests.
 *   In versions before 0.8.0 a bin told no tests, and had no pointer for them: a program made with an older header has to be
 *   compiled anew.
 *
 *   Examples, on a screen of 64 by 32 with s = 4, whose tiles are 0 to 3 and below them 4 to 7. Each has the tile where the
 *   walk starts and those that it tests, in order and with - behind a miss:
 *     walk 0    3, 10, 10, 1000, 200, 900, 500    from 0: 1 2 3 4- 5 6 7 4-; tests 8, tiles 7, rows 2
 *     walk 1    2, 300, 500, 1000, 10, 0, 0       from 3: 2 1- 6 7- 5 4-; tests 6, tiles 4, rows 2
 *     walk 2    1, 256, 256, 0, 0, 0, 0           from 1: 2- 0 4 5 6-; tests 5, tiles 4, rows 2
 *     walk 3    1, 1024, 512, 0, 0, 0, 0          from 7: 6-; tests 1, tiles 1, rows 1
 *     walk 4    3, 0, -1, 1024, 0, 0, 512         off the screen: tests 0, tiles 7
 *
 * MAPS
 *   A map tells of one shape, without a pool, which tiles it touches: a byte for each tile, in the order of their numbers, 1
 *   where the shape touches the tile, partly or wholly covered, and 0 elsewhere. These are the tiles in which a bin lists the
 *   shape. A map needs FLOURSCOOP_ACROSS(width, s) * FLOURSCOOP_ACROSS(height, s) bytes; 4,096 do for every screen.
 *   It is made by quarters. The smallest square of tiles, its side a power of two, that holds the grid is split into four, and
 *   so is each of these, until single tiles are reached. A square means those of its tiles that are on the grid, each cut off
 *   where the screen ends. Where there are none, or the shape touches none of them, the square is left out; where the shape
 *   covers all of them wholly, it is filled without another test. So a triangle over the whole screen takes one test, that of
 *   the first square, and a shape of few tiles some for each time that the square around them is split. The bytes do not tell
 *   how they were found.
 *
 *   Examples, on a screen of 64 by 32 with s = 4, whose tiles are 0 to 3 and below them 4 to 7. Each has its eight bytes:
 *     map 0    3, 700, 0, 1024, 0, 1024, 300      0 0 1 1 0 0 0 1
 *     map 1    3, 10, 10, 1000, 200, 900, 500     1 1 1 1 0 1 1 1
 *     map 2    3, 0, 0, 1536, 0, 0, 1536          1 1 1 1 1 1 1 1
 *     map 3    2, 300, 500, 1000, 10, 0, 0        0 0 1 1 0 1 1 0
 *     map 4    1, 256, 256, 0, 0, 0, 0            1 1 0 0 1 1 0 0
 *     map 5    1, 1025, 10, 0, 0, 0, 0            0 0 0 0 0 0 0 0
 *
 * A SHAPE INSIDE A SHAPE
 *   A shape is inside another exactly where every vertex of it is a point of the other, edges and vertices included. That is:
 *   for each vertex (x,y) of the first there are whole weights, one for each vertex of the second, none negative and not all 0,
 *   by which the weighted sum of the second's x's is the sum of the weights times x, and that of its y's likewise with y.
 *   Any kind may be inside any kind: a shape is inside itself, a point inside each line that it lies on, and a triangle without
 *   area inside a line that has its three vertices. No screen and no pool is needed to tell.
 *   On every screen the outer shape then touches each tile that the inner one touches, and covers wholly each tile that the
 *   inner one covers wholly. So culling may replace the inner shape by the outer one, and a cluster of triangles by one
 *   triangle that they all are inside: no tile is lost.
 *   Where both are binned in one pool, in either order, the lists show it. Take a tile that was not released since the earlier
 *   of the two bins. Where the entry of the inner shape stands in its list, that of the outer one stands there too, each at the
 *   place where the list ended when the shape was binned; and it has the flag where the inner one's has it. A shape in pixels
 *   counts as the one in units that it goes to. A tile that was released after the bin of the outer shape and before that of
 *   the inner one may have the inner one alone.
 *
 *   Examples, each with a first shape, a second one, and 1 where the first is inside the second, else 0:
 *     inside 0    3, 100, 100, 400, 50, 300, 200   3, 0, 0, 1024, 0, 0, 512      1   all vertices are between the edges
 *     inside 1    3, 0, 0, 0, 512, 1024, 0         3, 0, 0, 1024, 0, 0, 512      1   the same shape, turned round
 *     inside 2    1, 512, 256, 0, 0, 0, 0          3, 0, 0, 1024, 0, 0, 512      1   on the long side
 *     inside 3    1, 512, 257, 0, 0, 0, 0          3, 0, 0, 1024, 0, 0, 512      0   a unit past it
 *     inside 4    2, -1, 10, 900, 10, 0, 0         3, 0, 0, 1024, 0, 0, 512      0   one end is a unit past an edge
 *     inside 5    3, 0, 0, 512, 512, 256, 256      2, 0, 0, 512, 512, 0, 0       1   a triangle without area in its long side
 *     inside 6    2, 0, 0, 512, 512, 0, 0          3, 0, 0, 512, 512, 256, 256   1   that side in the triangle
 *     inside 7    2, 5, 5, 5, 5, 0, 0              1, 5, 5, 0, 0, 0, 0           1   a line without length in its point
 *     inside 8    2, 5, 5, 5, 6, 0, 0              1, 5, 5, 0, 0, 0, 0           0   a line with length
 *
 * HOW MANY BLOCKS
 *   The marks tell. Open a pool with blocks to spare, make the calls of a frame, and add up the blocks that the marks need:
 *     uint32_t tile, mark, blocks = 0, ids = (pool[6] == 8 ? 32 : pool[8]) - 1;
 *     for (tile = 0; flourscoop_high_water(pool, words, tile, &mark) == FLOURSCOOP_DONE; tile++)
 *         blocks += (mark + ids - 1) / ids;
 *   Where no call, and no shape of a list, was refused with 8, a pool for the same screen with the same H and B and at least
 *   so many blocks gives each of these calls the same answer. Where one was, the marks do not count it: make the calls again
 *   in a pool with more blocks. Where tiles are released between bins, one can take the blocks that another gave back, and
 *   for the very same calls fewer do: the most that were in use at once, word 3 less word 4.
 */
#ifndef FLOURSCOOP_H
#define FLOURSCOOP_H

#include <stddef.h>
#include <stdint.h>

#ifdef __cplusplus
extern "C" {
#endif

/* The version of this header, and of the archive that goes with it. */
#define FLOURSCOOP_VERSION_MAJOR 0
#define FLOURSCOOP_VERSION_MINOR 11
#define FLOURSCOOP_VERSION_PATCH 0
#define FLOURSCOOP_VERSION "0.11.0"

/* The numbers; their texts follow. Where several causes apply, each call's comment has the order of looking for them. */
#define FLOURSCOOP_DONE 0u
#define FLOURSCOOP_SCREEN 1u
#define FLOURSCOOP_BLOCKS 2u
#define FLOURSCOOP_SHORT 3u
#define FLOURSCOOP_UNSOUND 4u
#define FLOURSCOOP_ID 5u
#define FLOURSCOOP_NOT_FINITE 6u
#define FLOURSCOOP_OUT_OF_RANGE 7u
#define FLOURSCOOP_NO_ROOM 8u
#define FLOURSCOOP_NO_TILE 9u
#define FLOURSCOOP_NO_PLACE 10u
#define FLOURSCOOP_BUFFER 11u
#define FLOURSCOOP_LIST 15u
/* What versions before 0.10.0 called 11, when it was for bytes alone. */
#define FLOURSCOOP_BYTES FLOURSCOOP_BUFFER

/* What a number means, in a text that is never to be freed. A number that no call returns has one too. */
static inline const char *flourscoop_number_text(uint32_t number)
{
    switch (number) {
    case FLOURSCOOP_DONE: return "done";
    case FLOURSCOOP_SCREEN: return "the screen or s is outside the rules";
    case FLOURSCOOP_BLOCKS: return "more than 2,048 blocks, or blocks of neither 32 nor 64 words";
    case FLOURSCOOP_SHORT: return "the slice is shorter than the room needed";
    case FLOURSCOOP_UNSOUND: return "the words are not a sound pool";
    case FLOURSCOOP_ID: return "the id is below 0 or above 16,777,215";
    case FLOURSCOOP_NOT_FINITE: return "a coordinate is infinite or no number";
    case FLOURSCOOP_OUT_OF_RANGE: return "a coordinate in units is outside -262,144 to 262,143";
    case FLOURSCOOP_NO_ROOM: return "the shape needs more blocks than are free";
    case FLOURSCOOP_NO_TILE: return "there is no such tile";
    case FLOURSCOOP_NO_PLACE: return "the place is at or past the tile's number of entries";
    case FLOURSCOOP_BUFFER: return "a buffer that was lent to be written is too short";
    case FLOURSCOOP_LIST: return "the list is too long or not of whole shapes, or a kind or an unused word is wrong";
    default: return "no call returns this number";
    }
}

/*
 * The words that a pool of edition one or two needs, as a size_t, for a screen within the rules and any whole-number types
 * of the arguments; a constant expression where they are.
 */
#define FLOURSCOOP_ACROSS(extent, s) (((size_t)(extent) + ((size_t)1 << (s)) - 1u) >> (s))
#define FLOURSCOOP_TABLE(width, height, s) (4u * FLOURSCOOP_ACROSS(width, s) * FLOURSCOOP_ACROSS(height, s))
#define FLOURSCOOP_ROOM(width, height, s, blocks) \
    (8u + FLOURSCOOP_TABLE(width, height, s) + 32u * (size_t)(blocks))
#define FLOURSCOOP_ROOM_TWO(width, height, s, blocks, block_words) \
    (10u + FLOURSCOOP_TABLE(width, height, s) + (size_t)(block_words) * (size_t)(blocks))

/* The words of a shape in a list, without its id and with it; the most shapes that a list may have, and their kinds. */
#define FLOURSCOOP_SHAPE_WORDS 7u
#define FLOURSCOOP_BIN_WORDS 8u
#define FLOURSCOOP_MOST_SHAPES 1048576u
#define FLOURSCOOP_POINT 1
#define FLOURSCOOP_LINE 2
#define FLOURSCOOP_TRIANGLE 3

/* The flag of an entry: what its word in the pool has beside the id where the shape covers the tile wholly. */
#define FLOURSCOOP_WHOLE 16777216u

/* How a shape covers a tile. */
#define FLOURSCOOP_APART 0u
#define FLOURSCOOP_PARTLY 1u
#define FLOURSCOOP_WHOLLY 2u

/*
 * Opens a pool of edition one: all tiles empty, all marks 0, all blocks free. What stood in the words before does not
 * matter.
 * Returns 0; or 1, 2, 3, in this order.
 */
uint32_t flourscoop_open(uint32_t *pool, size_t words, uint32_t width, uint32_t height, uint32_t s, uint32_t blocks);

/*
 * The same of edition two, in which a block has block_words words, 32 or 64. Another number of words is a cause of 2, as are
 * too many blocks.
 * Returns 0; or 1, 2, 3, in this order.
 */
uint32_t flourscoop_open_two(uint32_t *pool, size_t words, uint32_t width, uint32_t height, uint32_t s, uint32_t blocks,
                             uint32_t block_words);

/*
 * Says whether the words are a sound pool: header, chains, counts, marks and entries in range, poison in every unused
 * place. It does not detect an entry or a mark in the place of another that could stand there. Every call on a pool does
 * this first.
 * Returns 0 for yes, 4 for no.
 */
uint32_t flourscoop_audit(const uint32_t *pool, size_t words);

/*
 * Appends id to the list of each tile that the shape touches, with whether it covers the tile wholly: to all of them or,
 * where there is no room, to none.
 * Writes the number of those tiles, of the blocks taken, and of the tests that it took to find the tiles, as TESTS has it. A
 * shape off the screen is done with 0 tiles, 0 blocks and 0 tests.
 * Coordinates are in units.
 * Returns 0; or 4, 5, 7, 8, in this order.
 */
uint32_t flourscoop_bin_point(uint32_t *pool, size_t words, uint32_t id,
                              int32_t x1, int32_t y1,
                              uint32_t *tiles, uint32_t *blocks, uint32_t *tests);
uint32_t flourscoop_bin_line(uint32_t *pool, size_t words, uint32_t id,
                             int32_t x1, int32_t y1, int32_t x2, int32_t y2,
                             uint32_t *tiles, uint32_t *blocks, uint32_t *tests);
uint32_t flourscoop_bin_triangle(uint32_t *pool, size_t words, uint32_t id,
                                 int32_t x1, int32_t y1, int32_t x2, int32_t y2, int32_t x3, int32_t y3,
                                 uint32_t *tiles, uint32_t *blocks, uint32_t *tests);

/*
 * The same with coordinates in pixels. Each goes to its unit, as by flourscoop_unit.
 * Returns 0; or 4, 5, then the first of 6 and 7 that the vertices in order, x before y, give, then 8.
 */
uint32_t flourscoop_bin_pixels_point(uint32_t *pool, size_t words, uint32_t id,
                                     float x1, float y1,
                                     uint32_t *tiles, uint32_t *blocks, uint32_t *tests);
uint32_t flourscoop_bin_pixels_line(uint32_t *pool, size_t words, uint32_t id,
                                    float x1, float y1, float x2, float y2,
                                    uint32_t *tiles, uint32_t *blocks, uint32_t *tests);
uint32_t flourscoop_bin_pixels_triangle(uint32_t *pool, size_t words, uint32_t id,
                                        float x1, float y1, float x2, float y2, float x3, float y3,
                                        uint32_t *tiles, uint32_t *blocks, uint32_t *tests);

/*
 * Bins a draw call at a time: the shapes of a list with their ids, one after the other. It audits the pool once. The pool
 * and the answers are then exactly as from single bins: answers[k] is the number that flourscoop_bin_* returns for the
 * shape at place k, 0, 5, 7 or 8, and an id below 0 is a cause of 5. A shape that is refused is passed over, and the rest go
 * on. Bytes past the list's shapes stay as they are. An empty list is done, whatever the answers.
 * Returns 0; or 4, 15, 11, in this order, and then writes no word and no byte.
 */
uint32_t flourscoop_bin_list(uint32_t *pool, size_t words, const int32_t *list, size_t list_words, uint8_t *answers,
                             size_t answer_bytes);

/*
 * Writes the unit of a coordinate in pixels: the whole number nearest to 16 times it, a half to the even one.
 * Returns 0; or 6, 7.
 */
uint32_t flourscoop_unit(float v, int32_t *unit);

/*
 * Writes the id at a place of a tile's list, without its flag, and 1 where it has the flag, since the shape covers the tile
 * wholly, else 0. Places count from 0, in the order in which the ids were binned.
 * Returns 0; or 4, 9, 10, in this order.
 */
uint32_t flourscoop_read(const uint32_t *pool, size_t words, uint32_t tile, uint32_t place, uint32_t *id, uint32_t *whole);

/*
 * Writes the entries of a tile's list, in its order, each as READING A FRAME has it, and how many they are. Words of entries
 * past them stay as they are. An empty list is done, whatever the room.
 * Returns 0; or 4, 9, 11, in this order, and then writes no word of entries. It is 11 where the list has more than room.
 */
uint32_t flourscoop_read_list(const uint32_t *pool, size_t words, uint32_t tile, uint32_t *entries, size_t room,
                              uint32_t *count);

/*
 * Writes the entries of all lists, those of a tile behind those of the tiles before it, and where each list starts, as
 * READING A FRAME has it; and how many entries they are. It audits the pool once. Words of starts past the first tiles + 1,
 * and of entries past those of the lists, stay as they are.
 * Returns 0; or 4, 11, in this order, and then writes no word of either. It is 11 where starts_room is below tiles + 1, or
 * entries_room below the entries of all lists.
 */
uint32_t flourscoop_read_all(const uint32_t *pool, size_t words, uint32_t *starts, size_t starts_room, uint32_t *entries,
                             size_t entries_room, uint32_t *count);

/*
 * Writes how many tiles and blocks the pool has, how many of the blocks are free, and how many entries all lists have
 * together.
 * Returns 0 or 4.
 */
uint32_t flourscoop_counts(const uint32_t *pool, size_t words, uint32_t *tiles, uint32_t *blocks, uint32_t *free,
                           uint32_t *entries);

/*
 * Writes the most entries that a tile's list had since the opening. A release does not lower it.
 * Returns 0; or 4, 9, in this order.
 */
uint32_t flourscoop_high_water(const uint32_t *pool, size_t words, uint32_t tile, uint32_t *entries);

/*
 * Empties a tile's list and gives its blocks back; its mark stays. Writes how many they were; an empty tile gives 0 back
 * and changes nothing.
 * Returns 0; or 4, 9, in this order.
 */
uint32_t flourscoop_release(uint32_t *pool, size_t words, uint32_t tile, uint32_t *blocks);

/*
 * Says whether the bounding box of a shape, in units, meets a tile of a screen. Writes 1 for yes, 0 for no. It says yes
 * for each tile that the shape touches, and for some that it does not.
 * Returns 0; or 1, 9, 7, in this order.
 */
uint32_t flourscoop_box_point(uint32_t width, uint32_t height, uint32_t s, uint32_t tile,
                              int32_t x1, int32_t y1,
                              uint32_t *touches);
uint32_t flourscoop_box_line(uint32_t width, uint32_t height, uint32_t s, uint32_t tile,
                             int32_t x1, int32_t y1, int32_t x2, int32_t y2,
                             uint32_t *touches);
uint32_t flourscoop_box_triangle(uint32_t width, uint32_t height, uint32_t s, uint32_t tile,
                                 int32_t x1, int32_t y1, int32_t x2, int32_t y2, int32_t x3, int32_t y3,
                                 uint32_t *touches);

/*
 * Says how a shape, in units, covers a tile of a screen, by the corners of the tile. Writes 0 where it does not touch the
 * tile, which is FLOURSCOOP_APART; 2 where it covers the tile wholly, FLOURSCOOP_WHOLLY; and else 1, FLOURSCOOP_PARTLY.
 * Returns 0; or 1, 9, 7, in this order.
 */
uint32_t flourscoop_corner_point(uint32_t width, uint32_t height, uint32_t s, uint32_t tile,
                                 int32_t x1, int32_t y1,
                                 uint32_t *cover);
uint32_t flourscoop_corner_line(uint32_t width, uint32_t height, uint32_t s, uint32_t tile,
                                int32_t x1, int32_t y1, int32_t x2, int32_t y2,
                                uint32_t *cover);
uint32_t flourscoop_corner_triangle(uint32_t width, uint32_t height, uint32_t s, uint32_t tile,
                                    int32_t x1, int32_t y1, int32_t x2, int32_t y2, int32_t x3, int32_t y3,
                                    uint32_t *cover);

/*
 * Writes the map of a shape, in units, on a screen: map[t] is 1 where the shape touches tile t and 0 where it does not,
 * whatever stood there before. Bytes past the screen's tiles stay as they are.
 * Returns 0; or 1, 7, 11, in this order, and then writes no byte.
 */
uint32_t flourscoop_map_point(uint32_t width, uint32_t height, uint32_t s,
                              int32_t x1, int32_t y1,
                              uint8_t *map, size_t bytes);
uint32_t flourscoop_map_line(uint32_t width, uint32_t height, uint32_t s,
                             int32_t x1, int32_t y1, int32_t x2, int32_t y2,
                             uint8_t *map, size_t bytes);
uint32_t flourscoop_map_triangle(uint32_t width, uint32_t height, uint32_t s,
                                 int32_t x1, int32_t y1, int32_t x2, int32_t y2, int32_t x3, int32_t y3,
                                 uint8_t *map, size_t bytes);

/*
 * Counts the tiles of a screen that the shapes of a list overlap; made for each s, it tells a planner which to choose.
 * Writes how many shapes have all their coordinates in range, and how many have not. Over those in range it writes
 *   - the sum of the tiles that meet a shape's bounding box, and of those that the shape touches, partly or wholly covered,
 *     as flourscoop_box_* and flourscoop_corner_* say of each tile; and their difference, the false overlaps;
 *   - the largest number of tiles that one shape touches, and the first place of one that touches so many. Places count all
 *     shapes of the list. With no shape in range both are 0.
 * Returns 0; or 1, 15, in this order.
 */
uint32_t flourscoop_overlaps(const int32_t *list, size_t words, uint32_t width, uint32_t height, uint32_t s,
                             uint32_t *shapes, uint32_t *out_of_range,
                             uint64_t *box_tiles, uint64_t *touched_tiles, uint64_t *difference,
                             uint32_t *largest, uint32_t *place);

/*
 * Says whether the shape of one list is inside that of another, as A SHAPE INSIDE A SHAPE has it. Writes 1 for yes, 0 for no.
 * Returns 0; or 15, 7, in this order, whichever of the two has the cause. It is 15 where one of them is not a list of just one
 * shape, and 7 where a coordinate of one is out of range.
 */
uint32_t flourscoop_inside(const int32_t *first, size_t first_words, const int32_t *second, size_t second_words,
                           uint32_t *inside);

#ifdef __cplusplus
}
#endif

#endif
