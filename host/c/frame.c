/* Bins a frame, reads it at once, and prints each tile's ids, with a star where the shape covers the tile wholly. */
#include <stdio.h>
#include <stdlib.h>

#include "flourscoop.h"

enum { WIDTH = 64, HEIGHT = 32, S = 4, BLOCKS = 10, WORDS = FLOURSCOOP_ROOM(WIDTH, HEIGHT, S, BLOCKS), SHAPES = 4 };
enum { STARTS = FLOURSCOOP_ACROSS(WIDTH, S) * FLOURSCOOP_ACROSS(HEIGHT, S) + 1, ENTRIES = 31 * BLOCKS };

/* Ends the program where a call, or a shape of a list, is refused. */
static void done(uint32_t number)
{
    if (number == FLOURSCOOP_DONE)
        return;
    fprintf(stderr, "refused with %u: %s\n", number, flourscoop_number_text(number));
    exit(1);
}

int main(void)
{
    static const int32_t shapes[SHAPES * FLOURSCOOP_BIN_WORDS] = {
        FLOURSCOOP_TRIANGLE, 0, 0, 1024, 0, 0, 512, 7,
        FLOURSCOOP_LINE, 300, 500, 1000, 10, 0, 0, 8,
        FLOURSCOOP_POINT, 1000, 10, 0, 0, 0, 0, 9,
        FLOURSCOOP_TRIANGLE, 512, -512, 512, 255, 1024, 255, 10,
    };
    static uint32_t pool[WORDS], starts[STARTS], entries[ENTRIES];
    uint8_t answers[SHAPES];
    uint32_t tiles, blocks, free_blocks, count, tile, at;

    done(flourscoop_open(pool, WORDS, WIDTH, HEIGHT, S, BLOCKS));
    done(flourscoop_bin_list(pool, WORDS, shapes, SHAPES * FLOURSCOOP_BIN_WORDS, answers, SHAPES));
    for (at = 0; at < SHAPES; at++)
        done(answers[at]);
    done(flourscoop_counts(pool, WORDS, &tiles, &blocks, &free_blocks, &count));
    printf("%u tiles, %u blocks, %u free, %u entries\n", tiles, blocks, free_blocks, count);
    done(flourscoop_read_all(pool, WORDS, starts, STARTS, entries, ENTRIES, &count));
    for (tile = 0; tile < tiles; tile++) {
        printf("tile %u:", tile);
        for (at = starts[tile]; at < starts[tile + 1]; at++)
            printf(" %u%s", entries[at] % FLOURSCOOP_WHOLE, entries[at] >= FLOURSCOOP_WHOLE ? "*" : "");
        printf("\n");
        done(flourscoop_release(pool, WORDS, tile, &blocks));
    }
    done(flourscoop_counts(pool, WORDS, &tiles, &blocks, &free_blocks, &count));
    printf("%u free\n", free_blocks);
    return 0;
}
