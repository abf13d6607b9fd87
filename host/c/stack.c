/* The stack that each call uses, to the next 16 bytes, on a pool of edition one or two, whichever is more: it is run on a
   stack filled with a pattern, and what it reaches is counted, less what a run without a call reaches. */
#include <stdint.h>
#include <stdio.h>
#include <stdlib.h>
#include <string.h>
#include <ucontext.h>

#include "flourscoop.h"

enum { STACK = 1 << 20, PATTERN = 0xA5 };
enum { WIDTH = 800, HEIGHT = 480, S = 4, BLOCKS = 2048, BLOCK_WORDS = 64 };
enum {
    WORDS_ONE = FLOURSCOOP_ROOM(WIDTH, HEIGHT, S, BLOCKS),
    WORDS_TWO = FLOURSCOOP_ROOM_TWO(WIDTH, HEIGHT, S, BLOCKS, BLOCK_WORDS)
};

static unsigned char stack[STACK] __attribute__((aligned(16)));
static uint32_t one[WORDS_ONE], two[WORDS_TWO];
static uint32_t *pool;
static size_t words;
static uint32_t number, value, other, made;
static int32_t units;
static const int32_t list[] = {
    FLOURSCOOP_TRIANGLE, 0, 0, 12800, 0, 0, 7680,
    FLOURSCOOP_LINE, 0, 0, 12800, 7680, 0, 0,
    FLOURSCOOP_POINT, 256, 256, 0, 0, 0, 0,
};
static const int32_t bins[] = {
    FLOURSCOOP_TRIANGLE, 0, 0, 12800, 0, 0, 7680, 1,
    FLOURSCOOP_LINE, 0, 0, 12800, 7680, 0, 0, 2,
    FLOURSCOOP_POINT, 256, 256, 0, 0, 0, 0, 3,
};
static uint8_t answers[3];
static uint32_t told[4];
static uint64_t totals[3];
static uint8_t map[4096];
static uint32_t starts[4097], entries[BLOCKS * (BLOCK_WORDS - 1)];

static void nothing(void) { number = FLOURSCOOP_DONE; }
static void open_one(void) { number = flourscoop_open(one, WORDS_ONE, WIDTH, HEIGHT, S, BLOCKS); }
static void open_two(void) { number = flourscoop_open_two(two, WORDS_TWO, WIDTH, HEIGHT, S, BLOCKS, BLOCK_WORDS); }
static void audit(void) { number = flourscoop_audit(pool, words); }
static void bin_point(void) { number = flourscoop_bin_point(pool, words, 1, 256, 256, &value, &other, &made); }
static void bin_line(void) { number = flourscoop_bin_line(pool, words, 1, 0, 0, 12800, 7680, &value, &other, &made); }
static void bin_triangle(void)
{
    number = flourscoop_bin_triangle(pool, words, 1, 0, 0, 12800, 0, 0, 7680, &value, &other, &made);
}
static void pixels_point(void) { number = flourscoop_bin_pixels_point(pool, words, 1, 16, 16, &value, &other, &made); }
static void pixels_line(void) { number = flourscoop_bin_pixels_line(pool, words, 1, 0, 0, 800, 480, &value, &other, &made); }
static void pixels_triangle(void)
{
    number = flourscoop_bin_pixels_triangle(pool, words, 1, 0, 0, 800, 0, 0, 480, &value, &other, &made);
}
static void bin_list(void)
{
    number = flourscoop_bin_list(pool, words, bins, sizeof bins / sizeof *bins, answers, sizeof answers);
}
static void unit(void) { number = flourscoop_unit(-900.3f, &units); }
static void read_entry(void) { number = flourscoop_read(pool, words, 0, 1, &value, &other); }
static void read_list(void)
{
    number = flourscoop_read_list(pool, words, 0, entries, sizeof entries / sizeof *entries, &value);
}
static void read_all(void)
{
    number = flourscoop_read_all(pool, words, starts, sizeof starts / sizeof *starts, entries,
                                 sizeof entries / sizeof *entries, &value);
}
static void counts(void) { number = flourscoop_counts(pool, words, &told[0], &told[1], &told[2], &told[3]); }
static void high_water(void) { number = flourscoop_high_water(pool, words, 0, &value); }
static void release(void) { number = flourscoop_release(pool, words, 0, &value); }
static void box_point(void) { number = flourscoop_box_point(WIDTH, HEIGHT, S, 0, 9, 9, &value); }
static void box_line(void) { number = flourscoop_box_line(WIDTH, HEIGHT, S, 0, 0, 0, 99, 99, &value); }
static void box_triangle(void) { number = flourscoop_box_triangle(WIDTH, HEIGHT, S, 700, 0, 0, 12800, 0, 0, 7680, &value); }
static void corner_point(void) { number = flourscoop_corner_point(WIDTH, HEIGHT, S, 0, 9, 9, &value); }
static void corner_line(void) { number = flourscoop_corner_line(WIDTH, HEIGHT, S, 0, 0, 0, 99, 99, &value); }
static void corner_triangle(void)
{
    number = flourscoop_corner_triangle(WIDTH, HEIGHT, S, 700, 0, 0, 12800, 0, 0, 7680, &value);
}
/* Maps on the same screen, and on a row of 512 tiles, since the square that holds that one is split most often. */
static void map_point(void)
{
    number = flourscoop_map_point(WIDTH, HEIGHT, S, 256, 256, map, sizeof map);
    if (number == FLOURSCOOP_DONE)
        number = flourscoop_map_point(4096, 8, 3, 65535, 9, map, sizeof map);
}
static void map_line(void)
{
    number = flourscoop_map_line(WIDTH, HEIGHT, S, 0, 0, 12800, 7680, map, sizeof map);
    if (number == FLOURSCOOP_DONE)
        number = flourscoop_map_line(4096, 8, 3, 0, 9, 65536, 9, map, sizeof map);
}
static void map_triangle(void)
{
    number = flourscoop_map_triangle(WIDTH, HEIGHT, S, 0, 0, 12800, 0, 0, 7680, map, sizeof map);
    if (number == FLOURSCOOP_DONE)
        number = flourscoop_map_triangle(4096, 8, 3, 0, 9, 65536, 9, 0, 99, map, sizeof map);
}
static void overlaps(void)
{
    number = flourscoop_overlaps(list, sizeof list / sizeof *list, WIDTH, HEIGHT, S, &told[0], &told[1], &totals[0],
                                 &totals[1], &totals[2], &told[2], &told[3]);
}

/* A triangle in itself, and a line in a triangle without area. */
static void inside(void)
{
    static const int32_t flat[FLOURSCOOP_SHAPE_WORDS] = {FLOURSCOOP_TRIANGLE, 0, 0, 12800, 7680, 6400, 3840};
    number = flourscoop_inside(list, FLOURSCOOP_SHAPE_WORDS, list, FLOURSCOOP_SHAPE_WORDS, &value);
    if (number == FLOURSCOOP_DONE)
        number = flourscoop_inside(list + FLOURSCOOP_SHAPE_WORDS, FLOURSCOOP_SHAPE_WORDS, flat, FLOURSCOOP_SHAPE_WORDS,
                                   &value);
}

/* How many bytes from the top of the stack a run of the call reaches. */
static size_t reach(void (*call)(void))
{
    static ucontext_t here, there;
    size_t untouched = 0;
    memset(stack, PATTERN, STACK);
    getcontext(&there);
    there.uc_stack.ss_sp = stack;
    there.uc_stack.ss_size = STACK;
    there.uc_link = &here;
    makecontext(&there, call, 0);
    swapcontext(&here, &there);
    while (untouched < STACK && stack[untouched] == PATTERN)
        untouched++;
    return STACK - untouched;
}

int main(void)
{
    static const struct {
        const char *name;
        void (*call)(void);
    } calls[] = {
        {"open", open_one},
        {"open_two", open_two},
        {"audit", audit},
        {"bin_point", bin_point},
        {"bin_line", bin_line},
        {"bin_triangle", bin_triangle},
        {"bin_pixels_point", pixels_point},
        {"bin_pixels_line", pixels_line},
        {"bin_pixels_triangle", pixels_triangle},
        {"bin_list", bin_list},
        {"unit", unit},
        {"read", read_entry},
        {"read_list", read_list},
        {"read_all", read_all},
        {"counts", counts},
        {"high_water", high_water},
        {"release", release},
        {"box_point", box_point},
        {"box_line", box_line},
        {"box_triangle", box_triangle},
        {"corner_point", corner_point},
        {"corner_line", corner_line},
        {"corner_triangle", corner_triangle},
        {"map_point", map_point},
        {"map_line", map_line},
        {"map_triangle", map_triangle},
        {"overlaps", overlaps},
        {"inside", inside},
    };
    size_t least = reach(nothing);
    puts("| call | stack, bytes |\n|---|---|");
    for (size_t k = 0; k < sizeof calls / sizeof *calls; k++) {
        size_t most = least;
        for (int edition = 1; edition <= 2; edition++) {
            pool = edition == 1 ? one : two;
            words = edition == 1 ? WORDS_ONE : WORDS_TWO;
            const size_t reached = reach(calls[k].call);
            most = reached > most ? reached : most;
            if (number != FLOURSCOOP_DONE) {
                printf("%s was refused with %u in edition %d\n", calls[k].name, number, edition);
                return 1;
            }
        }
        printf("| %s | %zu |\n", calls[k].name, (most - least + 15) / 16 * 16);
    }
    return 0;
}
