/* SPDX-License-Identifier: MIT OR Apache-2.0 */
/* What is said after a status, a part of test.c: how many bytes are good, and which setting is not.
 */

static size_t good_bytes;

static int32_t check(int32_t content, const void *data, size_t length,
                     const sicklespan_options *options) {
    clear();
    good_bytes = 88;
    return sicklespan_check(content, data, length, options, &good_bytes);
}

/* Of data that an options' level and the version 1 alone are asked for. */
static void expect_good(int32_t content, const char *data, int32_t level, int32_t status,
                        size_t good, int line) {
    const sicklespan_options first = {level, 1, 1, 0};
    expect(check(content, data, strlen(data), &first) == status, data, line);
    expect(good_bytes == good && is_kept_from(0), data, line);
}

#define EXPECT_GOOD(content, data, level, status, good)                                            \
    expect_good(SICKLESPAN_CONTENT_##content, data, SICKLESPAN_LEVEL_##level, SICKLESPAN_##status, \
                good, __LINE__)

/* Five characters of the Kanji mode, six of Latin letters, and one of neither. */
#define KANJI_5 "\xe5\xb8\x82\xe5\x8c\x97\xe5\x89\x8d\xe5\x80\x89\xe6\x9d\xb1"
#define LATIN_6 "\xc3\xa9\xc3\xa9\xc3\xa9\xc3\xa9\xc3\xa9\xc3\xa9"
#define EMOJI   "\xf0\x9f\x98\x80"

static void test_check(void) {
    /* Version 1 holds 17 and 7 bytes at L and H, and one less after the 12 bits of UTF-8. */
    EXPECT_GOOD(BYTES, "aaaaaaaaaaaaaaaaa", L, OK, 17);
    EXPECT_GOOD(BYTES, "aaaaaaaaaaaaaaaaaa", L, DATA_TOO_LONG, 17);
    EXPECT_GOOD(BYTES, "aaaaaaaaaaaaaaaaaaaaaaaaaaaaaaaaaaaaaaaaaaaaaaa", H, DATA_TOO_LONG, 7);
    EXPECT_GOOD(TEXT, "aaaaaaaaaaaaaaaaaaaaaaaa", L, DATA_TOO_LONG, 16);
    EXPECT_GOOD(TEXT, "\xc3\xa9\xc3\xa9\xc3\xa9\xc3\xa9", H, DATA_TOO_LONG, 6);
    EXPECT_GOOD(TEXT, "a\xc3\xa9\xc3\xa9\xc3\xa9\xc3\xa9", H, DATA_TOO_LONG, 5);
    EXPECT_GOOD(TEXT, "\xe3\x81\x93\xe3\x81\x93\xe3\x81\x93", H, DATA_TOO_LONG, 6);
    EXPECT_GOOD(TEXT, "aaa\xe3\x81\x93z", H, DATA_TOO_LONG, 6);
    EXPECT_GOOD(TEXT, "aaaa\xe3\x81\x93", H, DATA_TOO_LONG, 4);
    EXPECT_GOOD(TEXT, "aaaa\xf0\x9f\x98\x80", H, DATA_TOO_LONG, 4);
    /* What is ASCII up to a cut has no designator there. What is no text is cut anywhere. */
    EXPECT_GOOD(AUTO, "aaaaaaaa", H, DATA_TOO_LONG, 7);
    EXPECT_GOOD(AUTO, "aaaaaaa\xc3\xa9", H, DATA_TOO_LONG, 7);
    EXPECT_GOOD(AUTO, "aaaaaa\xc3\xa9", H, DATA_TOO_LONG, 6);
    EXPECT_GOOD(AUTO, "aaaaa\xc3\xa9", H, OK, 7);
    EXPECT_GOOD(AUTO, "zzzzzz\xc3zz", H, DATA_TOO_LONG, 7);
    /* Of 72 bits at H four Kanji take 64, six characters of ISO 8859 take all, and of three emoji
     * one fits in UTF-8. */
    EXPECT_GOOD(SMALLEST_TEXT, KANJI_5, H, DATA_TOO_LONG, 12);
    EXPECT_GOOD(SMALLEST_TEXT, LATIN_6, H, OK, 12);
    EXPECT_GOOD(SMALLEST_TEXT, LATIN_6 "\xc3\xa9", H, DATA_TOO_LONG, 12);
    EXPECT_GOOD(SMALLEST_TEXT, EMOJI EMOJI EMOJI, H, DATA_TOO_LONG, 4);
    EXPECT_GOOD(SMALLEST_TEXT, "aaaaaaaa", H, DATA_TOO_LONG, 7);
    /* M4 holds 128, 112 and 80 bits at L, M and Q, of which 7 come before the Kanji, and each has
     * 13. */
    EXPECT_GOOD(MICRO_TEXT, KANJI_5 "\xe6\x9d\xb1" KANJI_5, L, DATA_TOO_LONG, 27);
    EXPECT_GOOD(MICRO_TEXT, KANJI_5 KANJI_5, M, DATA_TOO_LONG, 24);
    EXPECT_GOOD(MICRO_TEXT, KANJI_5 KANJI_5, Q, DATA_TOO_LONG, 15);
    EXPECT_GOOD(MICRO_TEXT, KANJI_5, Q, OK, 15);
    EXPECT_GOOD(MICRO_TEXT, "a", H, INVALID_LEVEL, 88);
    EXPECT_GOOD(MICRO_TEXT, "aaa\xc3\xa9" KANJI_5, L, UNWRITABLE_TEXT, 3);
    EXPECT_GOOD(MICRO_TEXT, "~" KANJI_5, L, UNWRITABLE_TEXT, 1);
    EXPECT_GOOD(MICRO_TEXT, KANJI_5 KANJI_5 "~", L, UNWRITABLE_TEXT, 30);
    /* M4 holds 15, 13 and 9 bytes at L, M and Q. */
    EXPECT_GOOD(MICRO, "aaaaaaaaaaaaaaaaaaaaaaaa", L, DATA_TOO_LONG, 15);
    EXPECT_GOOD(MICRO, "aaaaaaaaaaaaaaaaaaaaaaaa", M, DATA_TOO_LONG, 13);
    EXPECT_GOOD(MICRO, "aaaaaaaaaaaaaaaaaaaaaaaa", Q, DATA_TOO_LONG, 9);
    EXPECT_GOOD(MICRO, "a", H, INVALID_LEVEL, 88);
    /* After FNC1, version 1 has 68 bits at H: ten characters of the Alphanumeric mode. */
    EXPECT_GOOD(GS1, "(91)ABCDEF(92)XYZ", H, DATA_TOO_LONG, 10);
    EXPECT_GOOD(GS1, "(91)ABCDEFGHIJKL(92)X", H, DATA_TOO_LONG, 0);
    /* The first element needs the second one, which is not asked of it alone. */
    EXPECT_GOOD(GS1, "(10)ABCDEF(01)09506000134352", H, DATA_TOO_LONG, 10);
    EXPECT_GOOD(GS1, "(10)ABCDEFGHIJKL(01)09506000134352", H, DATA_TOO_LONG, 0);
    EXPECT_GOOD(ELEMENTS, "10ABCDEF\x1dXYZ", H, DATA_TOO_LONG, 10);
    EXPECT_GOOD(ELEMENTS, "10ABCDEFG\x1dXYZ", H, DATA_TOO_LONG, 9);
    EXPECT_GOOD(ELEMENTS, "10ABC\x1dUVWXYZ", H, DATA_TOO_LONG, 10);

    /* The first fault, whether the data before it fit or not. */
    EXPECT_GOOD(TEXT, "ab\xff", L, INVALID_TEXT, 2);
    /* The byte before the text is none of it. */
    EXPECT(check(SICKLESPAN_CONTENT_TEXT,
                 "\xf0"
                 "ab\xff" +
                     1,
                 3, NULL) == SICKLESPAN_INVALID_TEXT &&
           good_bytes == 2);
    EXPECT_GOOD(TEXT, "ab\x80\x80\x80\x80", L, INVALID_TEXT, 2);
    EXPECT_GOOD(TEXT, "\xe3\x81\x93\xe3\x81", L, INVALID_TEXT, 3);
    EXPECT_GOOD(TEXT, "\xf0\x9f\x98\x80\xff", L, INVALID_TEXT, 4);
    EXPECT_GOOD(TEXT, "\xe3\x81\x93\xff", L, INVALID_TEXT, 3);
    EXPECT_GOOD(TEXT, "\xc3\xa9\xff", L, INVALID_TEXT, 2);
    EXPECT_GOOD(TEXT, "\xe3\x81\x93\xe3\x81z", L, INVALID_TEXT, 3);
    EXPECT_GOOD(TEXT, "aaaaaaaaaaaaaaaaaaaaaaaaaaaaa\xff", L, INVALID_TEXT, 29);
    EXPECT_GOOD(SMALLEST_TEXT, "\xe3\x81\x93\xe3\x81z", L, INVALID_TEXT, 3);
    EXPECT_GOOD(MICRO_TEXT, "\xe3\x81\x93\xe3\x81z", L, INVALID_TEXT, 3);
    EXPECT_GOOD(ELEMENTS, "10A B", L, INVALID_CHARACTER, 3);
    EXPECT_GOOD(ELEMENTS, "10A\x1d", L, INVALID_CHARACTER, 3);
    EXPECT_GOOD(GS1, "10ABC", L, NO_ELEMENTS, 0);
    EXPECT_GOOD(GS1, "(10)ABC", L, MISSING_ELEMENT, 88);
    EXPECT_GOOD(GS1, "(91)A(91)B", L, CONFLICTING_ELEMENT, 88);
    EXPECT_GOOD(GS1, "(91)A(91)B(05)2", L, UNKNOWN_IDENTIFIER, 10);
    EXPECT_GOOD(GS1, "(10)ABC(05)2", L, UNKNOWN_IDENTIFIER, 7);
    EXPECT_GOOD(GS1, "(10)ABC(1)2", L, INVALID_IDENTIFIER, 7);
    EXPECT_GOOD(GS1, "(10)ABC(21)(22)1", L, EMPTY_VALUE, 7);
    EXPECT_GOOD(GS1, "(10)ABC(21)1(01)09506000134353(21)7", L, WRONG_CHECK_DIGIT, 12);
    EXPECT_GOOD(GS1, "(10)ABC(01)1", L, WRONG_LENGTH, 7);
    EXPECT_GOOD(GS1, "(10)a b", L, INVALID_CHARACTER, 0);
    EXPECT_GOOD(GS1, "(10)A(10)\xff", L, INVALID_TEXT, 5);
    EXPECT_GOOD(GS1, "(10)ABC(21)D(17)261331", L, WRONG_VALUE, 12);
    EXPECT_GOOD(GS1_UNCHECKED, "(10)ABC(21)D(17)261331", L, OK, 22);
    EXPECT_GOOD(GS1_UNCHECKED, "(4399)ABCDEF(21)XYZ", H, DATA_TOO_LONG, 12);
    EXPECT_GOOD(GS1_UNCHECKED, "(4399)ABCDEFGHIJKL(21)X", H, DATA_TOO_LONG, 0);
}

static void test_check_long(void) {
    static char many[20006];
    memset(many, 'a', 20000);
    EXPECT(check(SICKLESPAN_CONTENT_BYTES, many, 20000, NULL) == SICKLESPAN_DATA_TOO_LONG &&
           good_bytes == 2331);
    for (size_t i = 0; i < 20000; i++) many[i] = "(10)A"[i % 5];
    EXPECT(check(SICKLESPAN_CONTENT_GS1, many, 20000, NULL) == SICKLESPAN_DATA_TOO_LONG &&
           good_bytes % 5 == 0 && good_bytes < 16384);
    /* After FNC1, version 40 holds 7087 digits at L, of which an element takes 4. */
    const sicklespan_options low = {SICKLESPAN_LEVEL_L, 1, 40, 0};
    for (size_t i = 0; i < 20000; i++) many[i] = "(20)12"[i % 6];
    EXPECT(check(SICKLESPAN_CONTENT_GS1_UNCHECKED, many, 19998, &low) == SICKLESPAN_DATA_TOO_LONG &&
           good_bytes == 7084 / 4 * 6);
    for (size_t i = 0; i < 20000; i++) many[i] = "(10)A"[i % 5];
    memcpy(many + 20000, "(05)2", 6);
    EXPECT(check(SICKLESPAN_CONTENT_GS1, many, 20005, NULL) == SICKLESPAN_UNKNOWN_IDENTIFIER &&
           good_bytes == 20000);
}

static void test_check_pointers(void) {
    const sicklespan_options no_level = {4, 1, 40, 0}, no_range = {0, 2, 1, 0};
    for (int32_t content = 0; content <= 9; content++) {
        const bool is_gs1 =
            content == SICKLESPAN_CONTENT_GS1 || content == SICKLESPAN_CONTENT_GS1_UNCHECKED;
        EXPECT(check(content, NULL, 0, NULL) == (is_gs1 ? SICKLESPAN_NO_ELEMENTS : SICKLESPAN_OK) &&
               good_bytes == 0);
        EXPECT(check(content, NULL, 1, NULL) == SICKLESPAN_INVALID_POINTER && good_bytes == 88);
        EXPECT(check(content, "a", 1, &no_level) == SICKLESPAN_INVALID_LEVEL && good_bytes == 88);
    }
    EXPECT(check(SICKLESPAN_CONTENT_TEXT, "a", 1, &no_range) == SICKLESPAN_INVALID_VERSIONS &&
           good_bytes == 88);
    const int32_t no_contents[] = {-1, 10, 256, INT32_MIN, INT32_MAX};
    for (size_t i = 0; i < sizeof no_contents / sizeof *no_contents; i++) {
        EXPECT(check(no_contents[i], "a", 1, NULL) == SICKLESPAN_INVALID_CONTENT &&
               good_bytes == 88);
    }
    const int32_t refused = SICKLESPAN_INVALID_POINTER, bytes = SICKLESPAN_CONTENT_BYTES;
    EXPECT(sicklespan_check(bytes, "a", 1, NULL, NULL) == refused);
    EXPECT(check(bytes, &good_bytes, 1, NULL) == refused && good_bytes == 88);
    EXPECT(check(bytes, (uint8_t *)(&good_bytes + 1) - 1, 1, NULL) == refused);
    EXPECT(check(bytes, &good_bytes, 0, NULL) == SICKLESPAN_OK && good_bytes == 0);
    union {
        sicklespan_options options;
        size_t good[2];
    } both = {SICKLESPAN_OPTIONS_INIT};
    for (size_t i = 0; i < 2; i++) {
        EXPECT(sicklespan_check(bytes, "a", 1, &both.options, &both.good[i]) == refused &&
               both.options.min_version == 1 && both.options.max_version == 40);
    }
    EXPECT(sicklespan_check(bytes, "a", 1, &both.options, &good_bytes) == SICKLESPAN_OK &&
           good_bytes == 1);
}

/* Each allocation fails in turn: the call says so, or that the data are too long, and nothing is
 * written if there was no memory. */
static void test_check_memory(void) {
    const sicklespan_options first = {SICKLESPAN_LEVEL_H, 1, 1, 0};
    long without = 0;
    for (failing = 1;; failing++) {
        allocations = 0, alive = 0;
        const int32_t status = check(SICKLESPAN_CONTENT_BYTES, "aaaaaaaaaaaa", 12, &first);
        EXPECT(alive == 0);
        if (allocations < failing) {
            EXPECT(status == SICKLESPAN_DATA_TOO_LONG && good_bytes == 7);
            break;
        }
        without += status == SICKLESPAN_OUT_OF_MEMORY;
        EXPECT(status == SICKLESPAN_OUT_OF_MEMORY ? good_bytes == 88
                                                  : status == SICKLESPAN_DATA_TOO_LONG);
    }
    EXPECT(without > 10);
    failing = 0;
}

static void expect_wrong(int32_t format, sicklespan_settings settings, const char *name, int line) {
    const char *const found = sicklespan_wrong_setting(format, &settings);
    expect(name == NULL ? found == NULL : found != NULL && strcmp(found, name) == 0,
           name ? name : "no setting", line);
}

#define EXPECT_WRONG(format, name, ...)                                                            \
    expect_wrong(SICKLESPAN_FORMAT_##format, (sicklespan_settings){__VA_ARGS__}, name, __LINE__)

static void test_wrong_setting(void) {
    EXPECT(sicklespan_wrong_setting(SICKLESPAN_FORMAT_PNG, NULL) == NULL);
    EXPECT_WRONG(PNG, NULL, -1, -1, -1, -1, 0, -1, -1);
    EXPECT_WRONG(PNG, NULL, 64, 16, -1, 2400, 0, -1, -1);
    EXPECT_WRONG(PBM, "scale", 0, 17, -1, -1, 0, -1, -1);
    EXPECT_WRONG(PBM, "scale", 65, -1, -1, -1, 0, -1, -1);
    EXPECT_WRONG(PBM, "quiet", -1, 17, -1, -1, 0, -1, -1);
    EXPECT_WRONG(SVG, "module_mm", -1, -1, 4, -1, 0, -1, -1);
    EXPECT_WRONG(PBM, "module_mm", -1, -1, 33, 300, 0, -1, -1);
    EXPECT_WRONG(PNG, "dpi", -1, -1, -1, 49, 0, -1, -1);
    EXPECT_WRONG(PNG, "dpi", -1, -1, 33, 300, 0, -1, -1);
    EXPECT_WRONG(SVG, "dpi", -1, -1, -1, 300, 0, -1, -1);
    EXPECT_WRONG(PNG, "inverted", -1, -1, -1, -1, 1, -1, -1);
    EXPECT_WRONG(TERMINAL, NULL, -1, -1, -1, -1, 1, -1, -1);
    EXPECT_WRONG(PBM, "at_x", -1, -1, -1, -1, 0, 0, -1);
    EXPECT_WRONG(ZPL, "at_x", -1, -1, -1, -1, 0, 18001, -1);
    EXPECT_WRONG(ZPL, "at_y", -1, -1, -1, -1, 0, 18000, INT32_MAX);
    EXPECT_WRONG(EPS, "at_y", -1, -1, -1, -1, 0, -1, 3);
    EXPECT(sicklespan_wrong_setting(8, &(sicklespan_settings){0, 0, 0, 0, 0, 0, 0}) == NULL);
}
