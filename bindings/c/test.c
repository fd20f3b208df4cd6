/* SPDX-License-Identifier: MIT OR Apache-2.0 */
/*
 * Calls with wrong arguments, buffers that lie beside and over each other, buffers of every size
 * round a symbol's, and allocations that fail one after the other: linked with
 * --wrap=malloc,--wrap=realloc,--wrap=free. With SEES_BORDER it is also linked with --wrap of the
 * proved functions, and looks at what sicklespan.c passes to them. The last line is 'N passed, M
 * failed'.
 */
#include "sicklespan.h"

#include <stdio.h>
#include <stdlib.h>
#include <string.h>

static int faults;

static void expect(int holds, const char *what, int line) {
    if (!holds) {
        faults++;
        printf("test.c:%d: %s\n", line, what);
    }
}

#define EXPECT(holds) expect((holds), #holds, __LINE__)

/* Allocations since a call began, the one that fails, and blocks that are alive. */
static long allocations, failing, alive;

void *__real_malloc(size_t size);
void *__real_realloc(void *block, size_t size);
void __real_free(void *block);

void *__wrap_malloc(size_t size) {
    if (++allocations == failing) return NULL;
    void *block = __real_malloc(size);
    alive += block != NULL;
    return block;
}

void *__wrap_realloc(void *block, size_t size) {
    if (++allocations == failing) return NULL;
    void *grown = __real_realloc(block, size);
    alive += block == NULL && grown != NULL;
    return grown;
}

void __wrap_free(void *block) {
    alive -= block != NULL;
    __real_free(block);
}

#ifdef SEES_BORDER
#include "test_border.h"
#endif

/* The buffers of the calls lie in one block, so that a test can place others before and behind
 * them. */
enum { BEFORE = 64, BEHIND = 64 };
static union {
    max_align_t aligned;
    uint8_t bytes[BEFORE + SICKLESPAN_MAX_SIZE + BEHIND];
} block;
static uint8_t *const modules = block.bytes + BEFORE;
static _Alignas(max_align_t) sicklespan_shape shape;

static const uint8_t word[] = "hello";
static const sicklespan_shape untouched = {-1, -1, -1, false, -1};

enum { GREATEST = SICKLESPAN_MAX_SIZE };

static void clear(void) {
    memset(block.bytes, 0xab, sizeof block.bytes);
    shape = untouched;
}

/* Nothing was written before the modules, nor from a place on, and where that is 0 nothing to the
 * shape. */
static int is_kept_from(size_t place) {
    for (size_t i = 0; i < sizeof block.bytes; i++) {
        if ((i < BEFORE || i >= BEFORE + place) && block.bytes[i] != 0xab) return 0;
    }
    return place > 0 || (shape.width == -1 && shape.version == -1 && shape.mask == -1 &&
                         !shape.micro && shape.level == -1);
}

static int32_t symbol(const void *bytes, size_t length, int32_t level, size_t room) {
    clear();
    return sicklespan_symbol(bytes, length, level, modules, room, &shape);
}

static int32_t part(const size_t *cuts, size_t cut_count, int32_t level, int32_t max_version,
                    size_t index) {
    clear();
    return sicklespan_part_symbol(word, 5, cuts, cut_count, level, max_version, index, modules,
                                  GREATEST, &shape);
}

/* A call with a buffer of 441 or more bytes for the modules, all else as it is given. */
static int32_t beside(const void *bytes, size_t length, uint8_t *out, size_t room, void *to) {
    clear();
    return sicklespan_symbol(bytes, length, SICKLESPAN_LEVEL_L, out, room, to);
}

/* A call with two parts, where the cuts, the modules and the shape lie anywhere. */
static int32_t part_beside(const void *cuts, size_t cut_count, uint8_t *out, size_t room,
                           void *to) {
    clear();
    return sicklespan_part_symbol(word, 5, cuts, cut_count, SICKLESPAN_LEVEL_L, 40, 0, out, room,
                                  to);
}

/* Whether a call refused its pointers, and wrote nothing. */
static int is_refused(int32_t status) {
    return status == SICKLESPAN_INVALID_POINTER && is_kept_from(0);
}

static void test_pointers(void) {
    const size_t empty = 0;
    EXPECT(symbol(NULL, 0, SICKLESPAN_LEVEL_L, GREATEST) == SICKLESPAN_OK && shape.width == 21);
    EXPECT(symbol(NULL, 1, SICKLESPAN_LEVEL_L, GREATEST) == SICKLESPAN_INVALID_POINTER &&
           is_kept_from(0));
    EXPECT(symbol(word, SIZE_MAX, SICKLESPAN_LEVEL_L, GREATEST) == SICKLESPAN_INVALID_POINTER &&
           is_kept_from(0));
    EXPECT(symbol(modules + 3, 1, SICKLESPAN_LEVEL_L, GREATEST) == SICKLESPAN_INVALID_POINTER &&
           is_kept_from(0));
    EXPECT(symbol(&shape.mask, 1, SICKLESPAN_LEVEL_L, GREATEST) == SICKLESPAN_INVALID_POINTER &&
           is_kept_from(0));
    EXPECT(sicklespan_symbol(word, 5, 0, NULL, 441, &shape) == SICKLESPAN_INVALID_POINTER &&
           is_kept_from(0));
    EXPECT(sicklespan_symbol(word, 5, 0, NULL, 0, &shape) == SICKLESPAN_SHORT_BUFFER &&
           is_kept_from(0));
    EXPECT(sicklespan_symbol(word, 5, 0, modules, 441, NULL) == SICKLESPAN_INVALID_POINTER &&
           is_kept_from(0));
    EXPECT(sicklespan_micro_symbol(NULL, 1, 0, modules, 441, &shape) ==
               SICKLESPAN_INVALID_POINTER &&
           is_kept_from(0));
    clear();
    EXPECT(sicklespan_part_symbol(NULL, 0, &empty, 1, 0, 40, 0, modules, 441, &shape) ==
           SICKLESPAN_OK);
    EXPECT(part_beside(&empty, 1, NULL, 0, &shape) == SICKLESPAN_SHORT_BUFFER && is_kept_from(0));
    EXPECT(is_refused(part_beside(&empty, 1, NULL, 441, &shape)));
    EXPECT(is_refused(part_beside(&empty, 1, modules, 441, NULL)));
    clear();
    EXPECT(is_refused(sicklespan_part_symbol(NULL, 1, &empty, 1, 0, 40, 0, modules, 441, &shape)));
    EXPECT(part(NULL, 1, SICKLESPAN_LEVEL_L, 40, 0) == SICKLESPAN_INVALID_POINTER &&
           is_kept_from(0));
    EXPECT(part(NULL, 0, SICKLESPAN_LEVEL_L, 40, 0) == SICKLESPAN_INVALID_PART_COUNT &&
           is_kept_from(0));
    EXPECT(part((const size_t *)word, SIZE_MAX, 0, 40, 0) == SICKLESPAN_INVALID_POINTER &&
           is_kept_from(0));
}

/* Each pair of buffers, where one is written: the last byte of the one is the first byte of the
 * other, either way round. */
static void test_overlaps(void) {
    uint8_t *const end = modules + 444, *const word_at = modules - 4;
    const size_t of_shape = sizeof shape, of_cut = sizeof(size_t);
    EXPECT(is_refused(beside(end - 1, 5, modules, 444, &shape)));
    EXPECT(is_refused(beside(word_at, 5, modules, 444, &shape)));
    EXPECT(is_refused(beside(modules, 444, modules, 444, &shape)));
    EXPECT(is_refused(beside(word, 5, modules, 444, end - 4)));
    EXPECT(is_refused(beside(word, 5, modules, 444, modules - of_shape + 4)));
    EXPECT(is_refused(beside(word, 5, modules, 444, modules + 16)));
    EXPECT(is_refused(beside((uint8_t *)&shape + of_shape - 1, 1, modules, 444, &shape)));
    EXPECT(is_refused(beside(modules + 500, 5, modules, 444, modules + 504)));
    EXPECT(is_refused(beside(modules + 500, 1, modules, 444, modules + 500)));
    EXPECT(is_refused(beside(modules + 500 + of_shape - 1, 1, modules, 444, modules + 500)));
    EXPECT(is_refused(part_beside(modules + 440, 1, modules, 441, &shape)));
    EXPECT(is_refused(part_beside(modules - of_cut, 2, modules, 441, &shape)));
    EXPECT(is_refused(part_beside(modules, 1, modules, 441, &shape)));
    EXPECT(is_refused(part_beside(&shape, 1, modules, 441, &shape)));
    EXPECT(is_refused(part_beside((size_t *)&shape + 1, 1, modules, 441, &shape)));
    EXPECT(is_refused(part_beside(modules + 496, 2, modules, 441, modules + 504)));
    clear();
    EXPECT(
        is_refused(sicklespan_part_symbol(end - 1, 5, &of_cut, 1, 0, 40, 0, modules, 444, &shape)));
    EXPECT(is_refused(sicklespan_part_symbol((uint8_t *)&shape + 3, 5, &of_cut, 1, 0, 40, 0,
                                             modules, 444, &shape)));
    EXPECT(is_refused(sicklespan_part_symbol(word, 5, (size_t[]){2}, 1, 0, 40, 0, modules, 444,
                                             (void *)(end - 4))));
    EXPECT(is_refused(sicklespan_micro_symbol(word, 5, 0, modules, 444, (void *)(end - 4))));
    EXPECT(is_refused(sicklespan_micro_symbol(end - 1, 5, 0, modules, 444, &shape)));
}

/* Buffers that end where the next one begins, and empty ones anywhere: they do not overlap. */
static void test_neighbours(void) {
    uint8_t *const end = modules + 444;
    const size_t of_shape = sizeof shape;
    EXPECT(beside(end, 5, modules, 444, &shape) == SICKLESPAN_OK && is_kept_from(441));
    EXPECT(beside(modules - 5, 5, modules, 444, &shape) == SICKLESPAN_OK && is_kept_from(441));
    EXPECT(beside(word, 5, modules, 444, end) == SICKLESPAN_OK &&
           memcmp(end, &(int32_t){21}, 4) == 0);
    EXPECT(beside(word, 5, modules, 444, modules - of_shape) == SICKLESPAN_OK &&
           modules[440] != 0xab);
    EXPECT(beside(end + of_shape, 5, modules, 444, end) == SICKLESPAN_OK);
    EXPECT(beside(end + 3, 1, modules, 444, end + 4) == SICKLESPAN_OK);
    EXPECT(beside(modules + 3, 0, modules, 444, &shape) == SICKLESPAN_OK && is_kept_from(441));
    EXPECT(beside(&shape.mask, 0, modules, 444, &shape) == SICKLESPAN_OK && is_kept_from(441));
    EXPECT(beside(modules, 5, modules + 2, 0, &shape) == SICKLESPAN_SHORT_BUFFER &&
           is_kept_from(0));
    EXPECT(beside(word, 5, (uint8_t *)&shape + 2, 0, &shape) == SICKLESPAN_SHORT_BUFFER &&
           is_kept_from(0));
    EXPECT(beside(modules + GREATEST, 5, modules, SIZE_MAX, &shape) == SICKLESPAN_OK &&
           is_kept_from(441));
    EXPECT(is_refused(beside(modules + GREATEST - 1, 5, modules, SIZE_MAX, &shape)));
    /* The cuts are what clear() writes, and fall behind the end. */
    EXPECT(part_beside(modules + 448, 1, modules, 448, &shape) == SICKLESPAN_INVALID_CUTS &&
           is_kept_from(0));
    EXPECT(part_beside(modules - 16, 2, modules, 448, &shape) == SICKLESPAN_INVALID_CUTS &&
           is_kept_from(0));
    EXPECT(part_beside(modules + 464, 1, modules, 448, modules + 448) == SICKLESPAN_INVALID_CUTS &&
           is_kept_from(0));
    EXPECT(part_beside(modules, 0, modules, 448, &shape) == SICKLESPAN_INVALID_PART_COUNT &&
           is_kept_from(0));
    EXPECT(part_beside(&shape, 0, modules, 448, &shape) == SICKLESPAN_INVALID_PART_COUNT &&
           is_kept_from(0));
    EXPECT(part_beside((size_t[]){2}, 1, modules, SIZE_MAX, &shape) == SICKLESPAN_OK &&
           is_kept_from(441));
    EXPECT(part_beside(modules + 448, 1, modules, 448, modules + 456) == SICKLESPAN_INVALID_CUTS &&
           is_kept_from(0));
    uint8_t *const past = modules + (GREATEST + 7) / 8 * 8;
    EXPECT(part_beside(past, 1, modules, SIZE_MAX, &shape) == SICKLESPAN_INVALID_CUTS &&
           is_kept_from(0));
}

/* Lengths that no buffer has. */
static void test_lengths(void) {
    const size_t too_long = (size_t)PTRDIFF_MAX + 1, many_cuts = SIZE_MAX / sizeof(size_t);
    /* These lie above the other buffers or below them, so that the length alone is wrong. */
    uint8_t local[1] = {0};
    EXPECT(is_refused(beside(local, too_long, modules, 441, &shape)));
    EXPECT(is_refused(beside(word, too_long, modules, 441, &shape)));
    EXPECT(is_refused(part_beside(local, many_cuts + 2, modules, 441, &shape)));
    EXPECT(is_refused(part_beside(local, many_cuts + 1, modules, 441, &shape)));
    EXPECT(is_refused(part_beside(local, many_cuts, modules, 441, &shape)));
    EXPECT(is_refused(part_beside(local, PTRDIFF_MAX / sizeof(size_t) + 1, modules, 441, &shape)));
    clear();
    EXPECT(is_refused(
        sicklespan_part_symbol(local, too_long, (size_t[]){2}, 1, 0, 40, 0, modules, 441, &shape)));
    EXPECT(is_refused(sicklespan_micro_symbol(local, too_long, 0, modules, 441, &shape)));
}

static void test_asks(void) {
    const int32_t no_levels[] = {-1, 4, 256, INT32_MIN, INT32_MAX};
    for (size_t i = 0; i < sizeof no_levels / sizeof *no_levels; i++) {
        EXPECT(symbol(word, 5, no_levels[i], GREATEST) == SICKLESPAN_INVALID_LEVEL &&
               is_kept_from(0));
        EXPECT(part((const size_t[]){2}, 1, no_levels[i], 40, 0) == SICKLESPAN_INVALID_LEVEL &&
               is_kept_from(0));
    }
    clear();
    EXPECT(sicklespan_micro_symbol(word, 5, SICKLESPAN_LEVEL_H, modules, GREATEST, &shape) ==
           SICKLESPAN_INVALID_LEVEL);
    EXPECT(sicklespan_micro_symbol(word, 5, 4, modules, GREATEST, &shape) ==
           SICKLESPAN_INVALID_LEVEL);
    static const uint8_t many[2954];
    EXPECT(symbol(many, sizeof many, SICKLESPAN_LEVEL_L, GREATEST) == SICKLESPAN_DATA_TOO_LONG &&
           is_kept_from(0));

    const size_t falling[] = {3, 2}, behind[] = {6}, many_cuts[16] = {0}, good[] = {2};
    EXPECT(part(falling, 2, SICKLESPAN_LEVEL_L, 40, 0) == SICKLESPAN_INVALID_CUTS &&
           is_kept_from(0));
    EXPECT(part(behind, 1, SICKLESPAN_LEVEL_L, 40, 0) == SICKLESPAN_INVALID_CUTS &&
           is_kept_from(0));
    EXPECT(part(good, 1, SICKLESPAN_LEVEL_L, 40, 2) == SICKLESPAN_INVALID_INDEX && is_kept_from(0));
    EXPECT(part(good, 1, SICKLESPAN_LEVEL_L, 40, SIZE_MAX) == SICKLESPAN_INVALID_INDEX &&
           is_kept_from(0));
    EXPECT(part(many_cuts, 16, SICKLESPAN_LEVEL_L, 40, 0) == SICKLESPAN_INVALID_PART_COUNT &&
           is_kept_from(0));
    const int32_t no_versions[] = {0, 41, -1, 65536 + 1, INT32_MIN};
    for (size_t i = 0; i < sizeof no_versions / sizeof *no_versions; i++) {
        EXPECT(part(good, 1, SICKLESPAN_LEVEL_L, no_versions[i], 0) ==
                   SICKLESPAN_INVALID_MAX_VERSION &&
               is_kept_from(0));
    }
    EXPECT(part(good, 1, SICKLESPAN_LEVEL_L, 1, 1) == SICKLESPAN_OK && shape.version == 1 &&
           is_kept_from(441));
}

static void test_room(void) {
    EXPECT(symbol(word, 5, SICKLESPAN_LEVEL_L, 440) == SICKLESPAN_SHORT_BUFFER && is_kept_from(0));
    EXPECT(symbol(word, 5, SICKLESPAN_LEVEL_L, 441) == SICKLESPAN_OK && is_kept_from(441) &&
           modules[440] != 0xab);
    EXPECT(symbol(word, 5, SICKLESPAN_LEVEL_L, SIZE_MAX) == SICKLESPAN_OK && is_kept_from(441));
    clear();
    EXPECT(sicklespan_micro_symbol((const uint8_t *)"12345", 5, 0, modules, 120, &shape) ==
           SICKLESPAN_SHORT_BUFFER);
    EXPECT(is_kept_from(0));
    EXPECT(sicklespan_micro_symbol((const uint8_t *)"12345", 5, 0, modules, 121, &shape) ==
           SICKLESPAN_OK);
    EXPECT(shape.width == 11 && shape.version == 1 && shape.mask == 2 && shape.micro &&
           is_kept_from(121));
    EXPECT(sicklespan_greatest_size() == SICKLESPAN_MAX_SIZE);
}

/* Lets each allocation of a call fail in turn: it says so, writes nothing, and leaves no block. */
static void fail_allocations(int32_t (*call)(void)) {
    for (failing = 1;; failing++) {
        clear();
        allocations = 0, alive = 0;
        int32_t status = call();
        EXPECT(alive == 0);
        if (allocations < failing) {
            EXPECT(status == SICKLESPAN_OK);
            break;
        }
        EXPECT(status == SICKLESPAN_OUT_OF_MEMORY && is_kept_from(0));
    }
    EXPECT(failing > 5);
    failing = 0;
}

static int32_t draw_symbol(void) {
    return sicklespan_symbol((const uint8_t *)"HELLO world 1234", 16, SICKLESPAN_LEVEL_M, modules,
                             GREATEST, &shape);
}

static int32_t draw_micro_symbol(void) {
    return sicklespan_micro_symbol((const uint8_t *)"AB12c", 5, SICKLESPAN_LEVEL_L, modules,
                                   GREATEST, &shape);
}

static int32_t draw_part(void) {
    const size_t cuts[] = {1, 3};
    return sicklespan_part_symbol(word, 5, cuts, 2, SICKLESPAN_LEVEL_Q, 40, 1, modules, GREATEST,
                                  &shape);
}

static void test_allocations(void) {
    fail_allocations(draw_symbol);
    fail_allocations(draw_micro_symbol);
    fail_allocations(draw_part);
}

#include "test_asked.h"
#include "test_check.h"
#include "test_gs1.h"
#include "test_picture.h"
#include "test_sequences.h"
#include "test_texts.h"
#include "test_words.h"
#include "test_worked.h"

/* clang-format off */
static void (*const tests[])(void) = {
    test_pointers, test_overlaps, test_neighbours, test_lengths, test_asks, test_room, test_words,
    test_allocations, test_asked_pointers, test_asked_overlaps, test_options, test_contents,
    test_micro, test_asked_allocations, test_cuts, test_sequence, test_text_cuts,
    test_text_sequence, test_picture_room, test_picture_pointers, test_settings,
    test_picture_allocations, test_check, test_check_long, test_check_pointers, test_check_memory,
    test_wrong_setting, test_quiet_zones, test_auto, test_table, test_faults, test_reasons,
    test_together, test_links, test_link_pointers, test_smallest_text, test_micro_text,
    test_text_allocations, test_without_kanji, test_without_kanji_allocations,
    test_worked_symbols, test_worked_options,
    test_worked_elements, test_worked_links, test_worked_sequences, test_worked_lengths,
    test_worked_texts, test_worked_pictures, test_worked_settings,
};
/* clang-format on */

int main(void) {
    int passed = 0, failed = 0;
    /* What a row prints is not lost where the next call ends the program. */
    setbuf(stdout, NULL);
    for (size_t i = 0; i < sizeof tests / sizeof *tests; i++) {
        faults = 0;
        tests[i]();
        if (faults == 0)
            passed++;
        else
            failed++;
    }
    printf("%d passed, %d failed\n", passed, failed);
    return failed > 0;
}
