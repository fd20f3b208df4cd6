/* SPDX-License-Identifier: MIT OR Apache-2.0 */
/* Messages and texts in several symbols, and where they are cut, a part of test.c. */

/* Cuts, in a block with places before and behind them. */
enum { CUTS_BEFORE = 4 };
static size_t places[CUTS_BEFORE + SICKLESPAN_MAX_CUTS + 4], *const cuts = places + CUTS_BEFORE;
static size_t cut_count;
static uint8_t long_message[4000];

/* A call, after all places are set to a value. */
static int32_t cuts_of(const void *message, size_t length, int32_t level, int32_t max_version,
                       size_t *to, size_t room, size_t *count) {
    for (size_t i = 0; i < sizeof places / sizeof *places; i++) places[i] = 77;
    cut_count = 88;
    return sicklespan_cuts(message, length, level, max_version, to, room, count);
}

/* No place is written, and the number of cuts may be. */
enum { NO_CUT = -1 };

/* Nothing was written but the first places, and where there are none no number either. */
static int are_kept_from(int place) {
    for (int i = 0; i < (int)(sizeof places / sizeof *places); i++) {
        const bool is_cut = i >= CUTS_BEFORE && i < CUTS_BEFORE + place;
        if (!is_cut && places[i] != 77) return 0;
    }
    return place != 0 || cut_count == 88;
}

static int32_t find_cuts(void) {
    clear();
    return cuts_of(long_message, 6, SICKLESPAN_LEVEL_H, 1, cuts, SICKLESPAN_MAX_CUTS, &cut_count);
}

static void test_cuts(void) {
    enum { MOST = SICKLESPAN_MAX_CUTS };
    memset(long_message, 'a', sizeof long_message);
    /* After 20 bits of a header, version 1 holds 5 bytes at H, and version 40 2951 at L. */
    EXPECT(find_cuts() == SICKLESPAN_OK && cut_count == 1 && cuts[0] == 5 && are_kept_from(1));
    EXPECT(cuts_of(long_message, 80, 3, 1, cuts, MOST, &cut_count) == SICKLESPAN_OK);
    EXPECT(cut_count == 15 && cuts[14] == 75 && are_kept_from(15));
    EXPECT(cuts_of(long_message, 80, 3, 1, cuts, SIZE_MAX, &cut_count) == SICKLESPAN_OK);
    EXPECT(cuts_of(long_message, 80, 3, 1, cuts, 14, &cut_count) == SICKLESPAN_SHORT_BUFFER &&
           cut_count == 15 && are_kept_from(NO_CUT));
    EXPECT(cuts_of(long_message, 80, 3, 1, NULL, 0, &cut_count) == SICKLESPAN_SHORT_BUFFER &&
           cut_count == 15 && are_kept_from(NO_CUT));
    EXPECT(cuts_of(long_message, 80, 3, 1, cuts, 15, &cut_count) == SICKLESPAN_OK &&
           cut_count == 15 && cuts[0] == 5 && cuts[13] == 70 && are_kept_from(15));
    EXPECT(cuts_of(long_message, 81, 3, 1, cuts, MOST, &cut_count) == SICKLESPAN_DATA_TOO_LONG &&
           are_kept_from(0));
    EXPECT(cuts_of(long_message, 2951, 0, 40, NULL, 0, &cut_count) == SICKLESPAN_OK &&
           cut_count == 0);
    EXPECT(cuts_of(long_message, 2952, 0, 40, cuts, 1, &cut_count) == SICKLESPAN_OK &&
           cut_count == 1 && are_kept_from(1));
    EXPECT(cuts_of(word, 4, 4, 0, cuts, MOST, &cut_count) == SICKLESPAN_INVALID_LEVEL);
    EXPECT(cuts_of(word, 4, 0, 0, cuts, MOST, &cut_count) == SICKLESPAN_INVALID_MAX_VERSION);
    EXPECT(cuts_of(word, 4, 0, 41, cuts, MOST, &cut_count) == SICKLESPAN_INVALID_MAX_VERSION);
    EXPECT(cuts_of(NULL, 0, 0, 1, cuts, MOST, &cut_count) == SICKLESPAN_OK && cut_count == 0);

    const int32_t refused = SICKLESPAN_INVALID_POINTER;
    EXPECT(cuts_of(NULL, 1, 0, 1, cuts, MOST, &cut_count) == refused && are_kept_from(0));
    EXPECT(cuts_of(word, (size_t)PTRDIFF_MAX + 1, 0, 1, cuts, MOST, &cut_count) == refused);
    EXPECT(cuts_of(word, 5, 0, 1, NULL, 1, &cut_count) == refused && are_kept_from(0));
    EXPECT(cuts_of(word, 5, 0, 1, cuts, MOST, NULL) == refused && are_kept_from(0));
    EXPECT(cuts_of(word, 5, 0, 1, cuts, SIZE_MAX, cuts + MOST - 1) == refused && are_kept_from(0));
    EXPECT(cuts_of(word, 5, 0, 1, cuts, SIZE_MAX, cuts + MOST) == SICKLESPAN_OK && cuts[MOST] == 0);
    EXPECT(cuts_of((uint8_t *)(cuts + 2) - 1, 1, 0, 1, cuts, 2, &cut_count) == refused);
    EXPECT(cuts_of(cuts + 2, 8, 0, 1, cuts, 2, &cut_count) == SICKLESPAN_OK && cut_count == 0);
    EXPECT(cuts_of((uint8_t *)(&cut_count + 1) - 1, 1, 0, 1, cuts, 2, &cut_count) == refused);
    fail_allocations(find_cuts);
}

/* Sequences: the shapes lie in the block of the modules, or apart. */
static sicklespan_shape shapes[16];

static int32_t all_parts(const void *message, size_t length, const void *at, size_t count,
                         uint8_t *out, size_t room, void *to) {
    clear();
    for (size_t i = 0; i < 16; i++) shapes[i] = untouched;
    return sicklespan_sequence(message, length, at, count, SICKLESPAN_LEVEL_L, 1, out, room, to);
}

static const size_t in_two[] = {2};

static int32_t draw_sequence(void) {
    return all_parts(word, 5, in_two, 1, modules, GREATEST, shapes);
}

static int no_shape_is_written(void) {
    for (size_t i = 0; i < 16; i++) {
        if (shapes[i].width != -1 || shapes[i].level != -1) return 0;
    }
    return 1;
}

static void test_sequence(void) {
    static uint8_t drawn[882];
    EXPECT(draw_sequence() == SICKLESPAN_OK && is_kept_from(882));
    EXPECT(shapes[0].width == 21 && shapes[1].width == 21 && shapes[2].width == -1);
    memcpy(drawn, modules, sizeof drawn);
    for (size_t i = 0; i < 2; i++) {
        clear();
        EXPECT(sicklespan_part_symbol(word, 5, in_two, 1, SICKLESPAN_LEVEL_L, 1, i, modules, 441,
                                      &shape) == SICKLESPAN_OK);
        EXPECT(memcmp(drawn + 441 * i, modules, 441) == 0 && shape.mask == shapes[i].mask);
    }
    EXPECT(all_parts(word, 5, in_two, 1, modules, 881, shapes) == SICKLESPAN_SHORT_BUFFER);
    EXPECT(is_kept_from(0) && no_shape_is_written());
    EXPECT(all_parts(word, 5, in_two, 1, modules, 882, shapes) == SICKLESPAN_OK);
    EXPECT(all_parts(word, 5, in_two, 1, NULL, 0, shapes) == SICKLESPAN_SHORT_BUFFER);
    EXPECT(all_parts(NULL, 0, (size_t[]){0}, 1, modules, 882, shapes) == SICKLESPAN_OK);
    EXPECT(all_parts(word, 5, NULL, 0, modules, 882, shapes) == SICKLESPAN_INVALID_PART_COUNT);
    const size_t many[40] = {0}, falling[] = {3, 2};
    EXPECT(all_parts(word, 5, many, 16, modules, 882, shapes) == SICKLESPAN_INVALID_PART_COUNT);
    EXPECT(all_parts(word, 5, many, 15, modules, 16 * 441, shapes) == SICKLESPAN_OK &&
           shapes[15].width == 21 && is_kept_from(16 * 441));
    EXPECT(all_parts(word, 5, falling, 2, modules, 882, shapes) == SICKLESPAN_INVALID_CUTS);
    EXPECT(sicklespan_sequence(word, 5, in_two, 1, 4, 0, modules, 882, shapes) ==
           SICKLESPAN_INVALID_LEVEL);
    EXPECT(sicklespan_sequence(word, 5, in_two, 1, 0, 41, modules, 882, shapes) ==
           SICKLESPAN_INVALID_MAX_VERSION);
    EXPECT(all_parts(long_message, 19, in_two, 1, modules, 882, shapes) ==
               SICKLESPAN_DATA_TOO_LONG &&
           is_kept_from(0) && no_shape_is_written());

    EXPECT(is_refused(all_parts(NULL, 1, in_two, 1, modules, 882, shapes)));
    EXPECT(is_refused(all_parts(word, 5, NULL, 1, modules, 882, shapes)));
    EXPECT(is_refused(all_parts(word, 5, in_two, 1, NULL, 882, shapes)));
    EXPECT(is_refused(all_parts(word, 5, in_two, 1, modules, 882, NULL)));
    EXPECT(is_refused(
        all_parts(word, 5, in_two, SIZE_MAX / sizeof(size_t) + 2, modules, 882, shapes)));
    EXPECT(is_refused(all_parts(modules + 3, 5, in_two, 1, modules, 882, shapes)));
    EXPECT(is_refused(all_parts(word, 5, modules + 880, 1, modules, 882, shapes)));
    EXPECT(is_refused(all_parts(word, 5, modules - 8, 2, modules, 882, shapes)));
    EXPECT(is_refused(all_parts(word, 5, (size_t *)shapes + 3, 1, modules, 882, shapes)));
    EXPECT(is_refused(all_parts(word, 5, in_two, 1, modules, 888, modules + 884)));
    EXPECT(is_refused(all_parts(word, 5, in_two, 1, modules, 888, modules - 20)));
    EXPECT(is_refused(all_parts((uint8_t *)(shapes + 2) - 1, 1, in_two, 1, modules, 882, shapes)));
    EXPECT(all_parts((uint8_t *)(shapes + 2), 1, (size_t[]){0}, 1, modules, 882, shapes) ==
           SICKLESPAN_OK);
    EXPECT(all_parts(word, 5, in_two, 1, modules, 888, modules + 888) == SICKLESPAN_OK);
    EXPECT(all_parts(word, 5, many, 40, modules, 882, shapes) == SICKLESPAN_INVALID_PART_COUNT);
    fail_allocations(draw_sequence);
}

/* Two characters of two bytes each, and a byte that begins one. */
static const char eacute[] = "\xC3\xA9\xC3\xA9\xC3";

static int32_t text_parts(const char *text, size_t length, const size_t *at, size_t count) {
    clear();
    for (size_t i = 0; i < 16; i++) shapes[i] = untouched;
    return sicklespan_text_sequence(text, length, at, count, SICKLESPAN_LEVEL_L, 1, modules,
                                    GREATEST, shapes);
}

static int32_t draw_text_sequence(void) { return text_parts(eacute, 4, in_two, 1); }

static void test_text_sequence(void) {
    static uint8_t drawn[882];
    EXPECT(draw_text_sequence() == SICKLESPAN_OK && is_kept_from(882));
    EXPECT(shapes[0].width == 21 && shapes[1].width == 21 && shapes[2].width == -1);
    memcpy(drawn, modules, sizeof drawn);
    /* The symbols of bytes do not say that they are UTF-8. */
    EXPECT(all_parts(eacute, 4, in_two, 1, modules, 882, shapes) == SICKLESPAN_OK &&
           memcmp(drawn, modules, 882) != 0);
    EXPECT(text_parts(eacute, 4, (size_t[]){1}, 1) == SICKLESPAN_INVALID_CUTS && is_kept_from(0) &&
           no_shape_is_written());
    EXPECT(text_parts(eacute, 4, (size_t[]){5}, 1) == SICKLESPAN_INVALID_CUTS);
    EXPECT(text_parts(eacute, 4, (size_t[]){2, 0}, 2) == SICKLESPAN_INVALID_CUTS);
    EXPECT(text_parts(eacute, 4, (size_t[]){0, 4, 4}, 3) == SICKLESPAN_OK &&
           shapes[3].width == 21 && is_kept_from(4 * 441));
    EXPECT(text_parts(eacute, 5, (size_t[]){1}, 1) == SICKLESPAN_INVALID_TEXT && is_kept_from(0) &&
           no_shape_is_written());
    EXPECT(text_parts(eacute, 4, NULL, 0) == SICKLESPAN_INVALID_PART_COUNT);
    EXPECT(sicklespan_text_sequence(eacute, 5, in_two, 1, 4, 0, modules, 882, shapes) ==
           SICKLESPAN_INVALID_LEVEL);
    EXPECT(sicklespan_text_sequence(eacute, 4, in_two, 1, 0, 0, modules, 882, shapes) ==
           SICKLESPAN_INVALID_MAX_VERSION);
    EXPECT(sicklespan_text_sequence(eacute, 4, in_two, 1, 0, 1, modules, 881, shapes) ==
           SICKLESPAN_SHORT_BUFFER);
    EXPECT(is_refused(text_parts(NULL, 1, in_two, 1)));
    fail_allocations(draw_text_sequence);
}

static int32_t text_cuts_of(const char *text, size_t length, int32_t max_version) {
    clear();
    for (size_t i = 0; i < sizeof places / sizeof *places; i++) places[i] = 77;
    cut_count = 88;
    return sicklespan_text_cuts(text, length, SICKLESPAN_LEVEL_H, max_version, cuts,
                                SICKLESPAN_MAX_CUTS, &cut_count);
}

static int32_t find_text_cuts(void) { return text_cuts_of(eacute, 4, 1); }

static void test_text_cuts(void) {
    /* Version 1 holds 72 bits at H: 20 of the header, 12 that say UTF-8, 12 before the bytes. */
    EXPECT(find_text_cuts() == SICKLESPAN_OK && cut_count == 1 && cuts[0] == 2 && are_kept_from(1));
    EXPECT(text_cuts_of(eacute, 2, 1) == SICKLESPAN_OK && cut_count == 0);
    EXPECT(text_cuts_of(eacute, 5, 1) == SICKLESPAN_INVALID_TEXT && are_kept_from(0));
    EXPECT(text_cuts_of(eacute, 5, 0) == SICKLESPAN_INVALID_TEXT && are_kept_from(0));
    EXPECT(text_cuts_of(eacute, 4, 0) == SICKLESPAN_INVALID_MAX_VERSION && are_kept_from(0));
    EXPECT(text_cuts_of(NULL, 0, 1) == SICKLESPAN_OK && cut_count == 0);
    EXPECT(text_cuts_of(NULL, 1, 1) == SICKLESPAN_INVALID_POINTER && are_kept_from(0));
    fail_allocations(find_text_cuts);
}
