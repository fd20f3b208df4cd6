/* SPDX-License-Identifier: MIT OR Apache-2.0 */
/* The smallest symbols of texts, and bytes without the Kanji mode, a part of test.c. */

/* The versions at level M, by the tables of ISO/IEC 18004:2006: version 1 holds 128 bits, of which
 * 8 + 4 come before the Kanji, each of 13 bits, and 12 + 8 + 4 before the bytes of a part of
 * ISO/IEC 8859 or of UTF-8. */
static void test_smallest_text(void) {
    const struct {
        const char *text;
        int32_t version;
    } rows[] = {{KANJI_5, 1},
                {"Gr\xc3\xbc\xc3\x9f"
                 "e an K\xc3\xb6ln",
                 1},
                {"Gr\xc3\xbc\xc3\x9f"
                 "e aus K\xc3\xb6ln",
                 2},
                {EMOJI " OK " EMOJI, 1},
                {"\xce\x9e\xce\xb5\xcf\x83\xce\xba\xce\xb5\xcf\x80\xce\xac\xce\xb6\xcf\x89", 1},
                {"Hello, world!", 1},
                {"", 1}};
    for (size_t i = 0; i < sizeof rows / sizeof *rows; i++) {
        const size_t side = (size_t)(17 + 4 * rows[i].version);
        EXPECT(asked(of_smallest_text, rows[i].text, NULL) == SICKLESPAN_OK &&
               is_kept_from(side * side));
        EXPECT(shape.version == rows[i].version && shape.level == SICKLESPAN_LEVEL_M &&
               !shape.micro);
    }
    /* In UTF-8 the Kanji need version 2. */
    EXPECT(asked(of_text, KANJI_5, NULL) == SICKLESPAN_OK && shape.version == 2);
    /* Version 1 holds 104 and 72 bits at Q and H. */
    const sicklespan_options strongest = {SICKLESPAN_LEVEL_L, 1, 40, 1};
    EXPECT(asked(of_smallest_text, KANJI_5, &strongest) == SICKLESPAN_OK && shape.version == 1 &&
           shape.level == SICKLESPAN_LEVEL_Q);
    const sicklespan_options first = {SICKLESPAN_LEVEL_H, 1, 1, 0}, third = {0, 3, 40, 0};
    EXPECT(asked(of_smallest_text, KANJI_5, &first) == SICKLESPAN_DATA_TOO_LONG && is_kept_from(0));
    EXPECT(asked(of_smallest_text, KANJI_5, &third) == SICKLESPAN_OK && shape.version == 3);
    const sicklespan_options no_level = {4, 0, 40, 0}, no_versions = {0, 0, 40, 0};
    EXPECT(asked(of_smallest_text, "\xff", &no_level) == SICKLESPAN_INVALID_LEVEL &&
           is_kept_from(0));
    EXPECT(asked(of_smallest_text, "\xff", &no_versions) == SICKLESPAN_INVALID_VERSIONS &&
           is_kept_from(0));
    const char *const no_texts[] = {"\xff", "a\xc3", "\xed\xa0\x80", "\xc0\x80"};
    for (size_t i = 0; i < sizeof no_texts / sizeof *no_texts; i++) {
        EXPECT(asked(of_smallest_text, no_texts[i], NULL) == SICKLESPAN_INVALID_TEXT &&
               is_kept_from(0));
    }
}

static int32_t micro_text(const char *text, int32_t level, size_t room) {
    clear();
    return sicklespan_micro_text(text, strlen(text), level, modules, room, &shape);
}

/* M3 holds 84 and 68 bits at L and M; five Kanji take 2 + 3 + 65 of them, and 3 + 4 + 65 in M4. */
static void test_micro_text(void) {
    EXPECT(micro_text(KANJI_5, SICKLESPAN_LEVEL_L, 225) == SICKLESPAN_OK && is_kept_from(225));
    EXPECT(shape.micro && shape.version == 3 && shape.width == 15 && shape.level == 0);
    EXPECT(micro_text(KANJI_5, SICKLESPAN_LEVEL_M, SIZE_MAX) == SICKLESPAN_OK &&
           shape.version == 4 && shape.level == SICKLESPAN_LEVEL_M && is_kept_from(289));
    EXPECT(micro_text("12345", SICKLESPAN_LEVEL_L, 121) == SICKLESPAN_OK && shape.version == 1);
    EXPECT(micro_text(KANJI_5, SICKLESPAN_LEVEL_L, 224) == SICKLESPAN_SHORT_BUFFER &&
           is_kept_from(0));
    const int32_t no_levels[] = {-1, SICKLESPAN_LEVEL_H, 4, 256, INT32_MIN, INT32_MAX};
    for (size_t i = 0; i < sizeof no_levels / sizeof *no_levels; i++) {
        EXPECT(micro_text("\xff", no_levels[i], GREATEST) == SICKLESPAN_INVALID_LEVEL &&
               is_kept_from(0));
    }
    EXPECT(micro_text(KANJI_5 "\xff", SICKLESPAN_LEVEL_L, GREATEST) == SICKLESPAN_INVALID_TEXT &&
           is_kept_from(0));
    const char *const unwritable[] = {"\xc3\xa9", EMOJI, "~" KANJI_5, KANJI_5 "\\"};
    for (size_t i = 0; i < sizeof unwritable / sizeof *unwritable; i++) {
        EXPECT(micro_text(unwritable[i], SICKLESPAN_LEVEL_L, GREATEST) ==
                   SICKLESPAN_UNWRITABLE_TEXT &&
               is_kept_from(0));
    }
    EXPECT(micro_text("~\\a", SICKLESPAN_LEVEL_L, GREATEST) == SICKLESPAN_OK);
    EXPECT(micro_text(KANJI_5 KANJI_5, SICKLESPAN_LEVEL_L, GREATEST) == SICKLESPAN_DATA_TOO_LONG &&
           is_kept_from(0));

    clear();
    EXPECT(is_refused(sicklespan_micro_text(NULL, 1, 0, modules, 441, &shape)));
    EXPECT(is_refused(sicklespan_micro_text((const char *)modules, 1, 0, modules, 441, &shape)));
    EXPECT(
        is_refused(sicklespan_micro_text("1", (size_t)PTRDIFF_MAX + 1, 0, modules, 441, &shape)));
    EXPECT(is_refused(sicklespan_micro_text("1", 1, 0, NULL, 441, &shape)));
    EXPECT(is_refused(sicklespan_micro_text("1", 1, 0, modules, 441, NULL)));
    EXPECT(sicklespan_micro_text(NULL, 0, 0, modules, 441, &shape) == SICKLESPAN_OK &&
           shape.version == 1);
}

static int32_t draw_smallest_text(void) {
    return sicklespan_smallest_text(KANJI_5 "~" LATIN_6, 28, NULL, modules, GREATEST, &shape);
}

static int32_t draw_micro_text(void) {
    return sicklespan_micro_text(KANJI_5 "1234", 19, SICKLESPAN_LEVEL_L, modules, GREATEST, &shape);
}

static void test_text_allocations(void) {
    fail_allocations(draw_smallest_text);
    fail_allocations(draw_micro_text);
}

/* Two bytes that are a pair of the Kanji mode, and four times them. */
#define PAIR    "\x93_"
#define PAIRS_4 PAIR PAIR PAIR PAIR

/* Version 1 holds 152 bits at L and 72 at H, of which 4 + 8 come before the bytes, each of 8 bits,
 * and before the pairs, each of 13. */
static void test_without_kanji(void) {
    static uint8_t drawn[441];
    const sicklespan_options low = {SICKLESPAN_LEVEL_L, 1, 40, 0};
    const sicklespan_options first = {SICKLESPAN_LEVEL_H, 1, 1, 0};
    const sicklespan_options strongest = {SICKLESPAN_LEVEL_L, 1, 40, 1};
    const struct {
        const char *data;
        int32_t version;
    } rows[] = {{"", 1}, {PAIRS_4 PAIRS_4 "a", 1}, {PAIRS_4 PAIRS_4 PAIR, 2}, {"\xff\x80", 1}};
    for (size_t i = 0; i < sizeof rows / sizeof *rows; i++) {
        const size_t side = (size_t)(17 + 4 * rows[i].version);
        EXPECT(asked(of_bytes_without_kanji, rows[i].data, &low) == SICKLESPAN_OK &&
               is_kept_from(side * side) && shape.version == rows[i].version);
    }
    EXPECT(asked(of_bytes, PAIRS_4 PAIRS_4 PAIR, &low) == SICKLESPAN_OK && shape.version == 1);
    EXPECT(asked(of_bytes, PAIRS_4, &first) == SICKLESPAN_OK);
    EXPECT(asked(of_bytes_without_kanji, PAIRS_4, &first) == SICKLESPAN_DATA_TOO_LONG &&
           is_kept_from(0));
    EXPECT(asked(of_bytes_without_kanji, PAIR PAIR PAIR "a", &first) == SICKLESPAN_OK);
    EXPECT(asked(of_bytes_without_kanji, PAIR PAIR PAIR "a", &strongest) == SICKLESPAN_OK &&
           shape.version == 1 && shape.level == SICKLESPAN_LEVEL_H);
    const char *const same[] = {"hello", "0123456789", "A1:B2", "\xc3\xa9\x80"};
    for (size_t i = 0; i < sizeof same / sizeof *same; i++) {
        EXPECT(asked(of_bytes, same[i], &low) == SICKLESPAN_OK && shape.version == 1);
        memcpy(drawn, modules, sizeof drawn);
        EXPECT(asked(of_bytes_without_kanji, same[i], &low) == SICKLESPAN_OK &&
               memcmp(drawn, modules, sizeof drawn) == 0);
    }
    const sicklespan_options no_level = {4, 0, 40, 0}, no_versions = {0, 0, 40, 0};
    EXPECT(asked(of_bytes_without_kanji, "a", &no_level) == SICKLESPAN_INVALID_LEVEL &&
           is_kept_from(0));
    EXPECT(asked(of_bytes_without_kanji, "a", &no_versions) == SICKLESPAN_INVALID_VERSIONS &&
           is_kept_from(0));
    EXPECT(of_bytes_without_kanji("a", 1, NULL, modules, 440, &shape) == SICKLESPAN_SHORT_BUFFER &&
           is_kept_from(0));
    size_t good = 0;
    EXPECT(sicklespan_check(SICKLESPAN_CONTENT_BYTES_WITHOUT_KANJI, PAIRS_4, 8, &first, &good) ==
               SICKLESPAN_DATA_TOO_LONG &&
           good == 7);
}

static int32_t draw_without_kanji(void) {
    return sicklespan_bytes_without_kanji(PAIRS_4 "a1234567", 16, NULL, modules, GREATEST, &shape);
}

static void test_without_kanji_allocations(void) { fail_allocations(draw_without_kanji); }
