/* SPDX-License-Identifier: MIT OR Apache-2.0 */
/* The calls with options, a part of test.c: where the options lie, and what they ask for. */

typedef int32_t asked_call(const void *, size_t, const sicklespan_options *, uint8_t *, size_t,
                           void *);

/* The calls, after clear(). */
static int32_t of_bytes(const void *data, size_t length, const sicklespan_options *options,
                        uint8_t *out, size_t room, void *to) {
    clear();
    return sicklespan_bytes(data, length, options, out, room, to);
}

static int32_t of_bytes_without_kanji(const void *data, size_t length,
                                      const sicklespan_options *options, uint8_t *out, size_t room,
                                      void *to) {
    clear();
    return sicklespan_bytes_without_kanji(data, length, options, out, room, to);
}

static int32_t of_text(const void *data, size_t length, const sicklespan_options *options,
                       uint8_t *out, size_t room, void *to) {
    clear();
    return sicklespan_text(data, length, options, out, room, to);
}

static int32_t of_smallest_text(const void *data, size_t length, const sicklespan_options *options,
                                uint8_t *out, size_t room, void *to) {
    clear();
    return sicklespan_smallest_text(data, length, options, out, room, to);
}

static int32_t of_auto(const void *data, size_t length, const sicklespan_options *options,
                       uint8_t *out, size_t room, void *to) {
    clear();
    return sicklespan_auto(data, length, options, out, room, to);
}

static int32_t of_elements(const void *data, size_t length, const sicklespan_options *options,
                           uint8_t *out, size_t room, void *to) {
    clear();
    return sicklespan_elements(data, length, options, out, room, to);
}

static int32_t of_gs1(const void *data, size_t length, const sicklespan_options *options,
                      uint8_t *out, size_t room, void *to) {
    clear();
    return sicklespan_gs1(data, length, options, out, room, to);
}

static int32_t of_gs1_unchecked(const void *data, size_t length, const sicklespan_options *options,
                                uint8_t *out, size_t room, void *to) {
    clear();
    return sicklespan_gs1_unchecked(data, length, options, out, room, to);
}

static const sicklespan_options usual_options = SICKLESPAN_OPTIONS_INIT;

/* A call with the whole buffer. */
static int32_t asked(asked_call *call, const char *text, const sicklespan_options *options) {
    return call(text, strlen(text), options, modules, GREATEST, &shape);
}

static void test_asked_pointers(void) {
    asked_call *const calls[] = {
        of_bytes, of_text,          of_elements,      of_gs1,
        of_auto,  of_gs1_unchecked, of_smallest_text, of_bytes_without_kanji};
    const char *const data[] = {"hello",        "hello",     "10ABC",        "(401)1234A",
                                "h\xc3\xa9llo", "(4399)ABC", "\xe6\x9d\xb1", "\x93_"};
    static uint8_t drawn[441];
    for (size_t i = 0; i < sizeof calls / sizeof *calls; i++) {
        asked_call *const call = calls[i];
        const size_t length = strlen(data[i]);
        EXPECT(is_refused(call(NULL, 1, NULL, modules, 441, &shape)));
        EXPECT(is_refused(call(data[i], (size_t)PTRDIFF_MAX + 1, NULL, modules, 441, &shape)));
        EXPECT(is_refused(call(data[i], length, NULL, NULL, 441, &shape)));
        EXPECT(is_refused(call(data[i], length, NULL, modules, 441, NULL)));
        const bool is_gs1 = call == of_gs1 || call == of_gs1_unchecked;
        EXPECT(call(NULL, 0, NULL, NULL, 0, &shape) ==
                   (is_gs1 ? SICKLESPAN_NO_ELEMENTS : SICKLESPAN_SHORT_BUFFER) &&
               is_kept_from(0));
        EXPECT(call(data[i], length, NULL, NULL, 0, &shape) == SICKLESPAN_SHORT_BUFFER &&
               is_kept_from(0));
        EXPECT(call(data[i], length, NULL, modules, 440, &shape) == SICKLESPAN_SHORT_BUFFER &&
               is_kept_from(0));
        EXPECT(call(data[i], length, &usual_options, modules, 441, &shape) == SICKLESPAN_OK &&
               is_kept_from(441) && shape.width == 21 && shape.level == SICKLESPAN_LEVEL_M);
        memcpy(drawn, modules, 441);
        EXPECT(call(data[i], length, NULL, modules, SIZE_MAX, &shape) == SICKLESPAN_OK &&
               is_kept_from(441) && memcmp(drawn, modules, 441) == 0);
    }
    EXPECT(of_bytes(NULL, 0, NULL, modules, 441, &shape) == SICKLESPAN_OK && is_kept_from(441));
}

/* The options, the data, the modules and the shape: what is written lies beside all else. */
static void test_asked_overlaps(void) {
    const size_t of_options = sizeof(sicklespan_options), of_shape = sizeof shape;
    uint8_t *const end = modules + 448;
    EXPECT(is_refused(of_bytes(word, 5, (void *)(end - 4), modules, 448, &shape)));
    EXPECT(is_refused(of_bytes(word, 5, (void *)(modules - of_options + 4), modules, 448, &shape)));
    EXPECT(is_refused(of_bytes(word, 5, (void *)(modules + 64), modules, 448, &shape)));
    EXPECT(is_refused(of_bytes(word, 5, (void *)&shape, modules, 448, &shape)));
    EXPECT(is_refused(of_bytes(word, 5, (void *)(end + of_shape - 4), modules, 448, end)));
    EXPECT(is_refused(of_bytes(word, 5, (void *)end, modules, 448, end + of_options - 4)));
    EXPECT(is_refused(of_bytes(word, 5, NULL, modules, 448, end - 4)));
    EXPECT(is_refused(of_bytes(word, 5, NULL, modules, 448, modules - of_shape + 4)));
    EXPECT(is_refused(of_bytes(end - 1, 5, NULL, modules, 448, &shape)));
    EXPECT(is_refused(of_bytes((uint8_t *)&shape + of_shape - 1, 1, NULL, modules, 448, &shape)));
    EXPECT(is_refused(
        of_bytes(word, 5, (void *)(modules + GREATEST / 4 * 4), modules, SIZE_MAX, &shape)));
    /* The options are what clear() writes: no level. */
    EXPECT(of_bytes(word, 5, (void *)end, modules, 448, &shape) == SICKLESPAN_INVALID_LEVEL &&
           is_kept_from(0));
    EXPECT(of_bytes(word, 5, (void *)(modules - of_options), modules, 448, &shape) ==
               SICKLESPAN_INVALID_LEVEL &&
           is_kept_from(0));
    EXPECT(of_bytes(word, 5, (void *)(end + of_shape), modules, 448, end) ==
           SICKLESPAN_INVALID_LEVEL);
    uint8_t *const past = modules + (GREATEST + 3) / 4 * 4;
    EXPECT(of_bytes(word, 5, (void *)past, modules, SIZE_MAX, &shape) == SICKLESPAN_INVALID_LEVEL &&
           is_kept_from(0));
    /* What is only read may overlap. */
    EXPECT(of_bytes(&usual_options, 5, &usual_options, modules, 448, &shape) == SICKLESPAN_OK);
}

static void test_options(void) {
    const int32_t no_levels[] = {-1, 4, 256, INT32_MIN, INT32_MAX};
    for (size_t i = 0; i < sizeof no_levels / sizeof *no_levels; i++) {
        const sicklespan_options options = {no_levels[i], 0, 41, 0};
        EXPECT(asked(of_text, "\xff", &options) == SICKLESPAN_INVALID_LEVEL && is_kept_from(0));
    }
    const int32_t no_ranges[][2] = {{0, 40}, {1, 41}, {3, 2}, {-1, 5}, {65537, 40}, {1, INT32_MAX}};
    for (size_t i = 0; i < sizeof no_ranges / sizeof *no_ranges; i++) {
        const sicklespan_options options = {0, no_ranges[i][0], no_ranges[i][1], 0};
        EXPECT(asked(of_text, "\xff", &options) == SICKLESPAN_INVALID_VERSIONS && is_kept_from(0));
        EXPECT(asked(of_gs1, "10", &options) == SICKLESPAN_INVALID_VERSIONS && is_kept_from(0));
    }
    /* Version 1 holds 17, 14, 11 and 7 bytes at L, M, Q and H. */
    const int32_t truths[] = {1, -1, 256, INT32_MIN};
    for (size_t i = 0; i < sizeof truths / sizeof *truths; i++) {
        const sicklespan_options strongest = {SICKLESPAN_LEVEL_L, 1, 40, truths[i]};
        EXPECT(asked(of_bytes, "aaaaaaa", &strongest) == SICKLESPAN_OK &&
               shape.level == SICKLESPAN_LEVEL_H && shape.version == 1);
        EXPECT(asked(of_bytes, "aaaaaaaa", &strongest) == SICKLESPAN_OK &&
               shape.level == SICKLESPAN_LEVEL_Q && shape.version == 1);
    }
    const sicklespan_options weakest = {SICKLESPAN_LEVEL_L, 1, 40, 0}, third = {0, 3, 40, 0};
    EXPECT(asked(of_bytes, "aaaaaaa", &weakest) == SICKLESPAN_OK && shape.level == 0);
    EXPECT(asked(of_bytes, "aaaaaaa", &third) == SICKLESPAN_OK && shape.version == 3 &&
           is_kept_from(29 * 29));
    const sicklespan_options first = {SICKLESPAN_LEVEL_L, 1, 1, 0};
    EXPECT(asked(of_bytes, "aaaaaaaaaaaaaaaaa", &first) == SICKLESPAN_OK);
    EXPECT(asked(of_bytes, "aaaaaaaaaaaaaaaaaa", &first) == SICKLESPAN_DATA_TOO_LONG &&
           is_kept_from(0));
}

/* What each call says of its data. */
static void test_contents(void) {
    const sicklespan_options first = {SICKLESPAN_LEVEL_L, 1, 1, 0};
    /* The designator of UTF-8 has 12 bits: one byte less fits. */
    EXPECT(asked(of_text, "aaaaaaaaaaaaaaaa", &first) == SICKLESPAN_OK);
    EXPECT(asked(of_text, "aaaaaaaaaaaaaaaaa", &first) == SICKLESPAN_DATA_TOO_LONG);
    EXPECT(asked(of_text, "a\xc3", NULL) == SICKLESPAN_INVALID_TEXT && is_kept_from(0));
    EXPECT(asked(of_bytes, "a\xc3", NULL) == SICKLESPAN_OK);
    EXPECT(asked(of_elements, "10A B", NULL) == SICKLESPAN_INVALID_CHARACTER && is_kept_from(0));
    static uint8_t drawn[625];
    EXPECT(asked(of_elements,
                 "91ABC\x1d"
                 "9212",
                 NULL) == SICKLESPAN_OK);
    memcpy(drawn, modules, sizeof drawn);
    EXPECT(asked(of_gs1, "(91)ABC(92)12", NULL) == SICKLESPAN_OK);
    EXPECT(memcmp(drawn, modules, sizeof drawn) == 0);
    EXPECT(asked(of_bytes,
                 "91ABC\x1d"
                 "9212",
                 NULL) == SICKLESPAN_OK);
    EXPECT(memcmp(drawn, modules, sizeof drawn) != 0);
    const struct {
        const char *text;
        int32_t status;
    } faults[] = {{"10ABC", SICKLESPAN_NO_ELEMENTS},
                  {"(1)2", SICKLESPAN_INVALID_IDENTIFIER},
                  {"(05)2", SICKLESPAN_UNKNOWN_IDENTIFIER},
                  {"(10)", SICKLESPAN_EMPTY_VALUE},
                  {"(10)a b", SICKLESPAN_INVALID_CHARACTER},
                  {"(01)1", SICKLESPAN_WRONG_LENGTH},
                  {"(01)09506000134353", SICKLESPAN_WRONG_CHECK_DIGIT},
                  {"(10)\xff", SICKLESPAN_INVALID_TEXT}};
    for (size_t i = 0; i < sizeof faults / sizeof *faults; i++) {
        EXPECT(asked(of_gs1, faults[i].text, NULL) == faults[i].status && is_kept_from(0));
        EXPECT(asked(of_gs1_unchecked, faults[i].text, NULL) == faults[i].status &&
               is_kept_from(0));
    }
    char text[96] = "(10)";
    memset(text + 4, 'A', 91);
    EXPECT(asked(of_gs1_unchecked, text, NULL) == SICKLESPAN_VALUE_TOO_LONG && is_kept_from(0));
    text[94] = 0;
    EXPECT(asked(of_gs1_unchecked, text, NULL) == SICKLESPAN_OK);
    EXPECT(asked(of_gs1, text, NULL) == SICKLESPAN_VALUE_TOO_LONG && is_kept_from(0));
    text[24] = 0;
    EXPECT(asked(of_gs1, text, NULL) == SICKLESPAN_MISSING_ELEMENT && is_kept_from(0));
    strcpy(text + 24, "(01)09506000134352");
    EXPECT(asked(of_gs1, text, NULL) == SICKLESPAN_OK);
    /* A number sign is of one identifier by the table, and of all unchecked. */
    EXPECT(asked(of_gs1, "(8010)0614141#A(8011)1", NULL) == SICKLESPAN_OK);
    EXPECT(asked(of_gs1, "(91)A#", NULL) == SICKLESPAN_INVALID_CHARACTER && is_kept_from(0));
    EXPECT(asked(of_gs1_unchecked, "(91)A#", NULL) == SICKLESPAN_OK);
    EXPECT(asked(of_elements, "91A#", NULL) == SICKLESPAN_OK);
}

/* Which call a text is left to, by the modules that it draws. Two plans of the second row take 72
 * bits, and sicklespan_smallest_text draws the other one. */
static void test_auto(void) {
    static uint8_t drawn[441];
    const struct {
        const char *data;
        asked_call *as;
    } rows[] = {{"hello", of_bytes},
                {"6089:AB\x7f", of_bytes},
                {"gr\xc3\xbc\xc3\x9f", of_smallest_text},
                {"\xe3\x81\x93", of_smallest_text},
                {"a\xc3", of_bytes},
                {"\x80", of_bytes}};
    const sicklespan_options first = {SICKLESPAN_LEVEL_L, 1, 1, 0};
    for (size_t i = 0; i < sizeof rows / sizeof *rows; i++) {
        EXPECT(asked(rows[i].as, rows[i].data, &first) == SICKLESPAN_OK);
        memcpy(drawn, modules, sizeof drawn);
        EXPECT(asked(of_auto, rows[i].data, &first) == SICKLESPAN_OK && is_kept_from(441));
        EXPECT(memcmp(drawn, modules, sizeof drawn) == 0);
        EXPECT(asked(of_text, rows[i].data, &first) != SICKLESPAN_OK ||
               memcmp(drawn, modules, sizeof drawn) != 0);
        EXPECT(rows[i].as == of_bytes || asked(of_bytes, rows[i].data, &first) != SICKLESPAN_OK ||
               memcmp(drawn, modules, sizeof drawn) != 0);
    }
    /* Version 1 holds 17 bytes, and 16 characters after the designator of a part of ISO 8859. */
    EXPECT(asked(of_auto, "aaaaaaaaaaaaaaaaa", &first) == SICKLESPAN_OK);
    EXPECT(asked(of_auto, "aaaaaaaaaaaaaaa\xc3\xa9", &first) == SICKLESPAN_OK);
    EXPECT(asked(of_auto, "aaaaaaaaaaaaaaaa\xc3\xa9", &first) == SICKLESPAN_DATA_TOO_LONG);
    EXPECT(asked(of_auto, "aaaaaaaaaaaaaaaa\xc3", &first) == SICKLESPAN_OK);
}

static void test_micro(void) {
    clear();
    EXPECT(sicklespan_micro("12345", 5, SICKLESPAN_LEVEL_L, modules, 121, &shape) == SICKLESPAN_OK);
    EXPECT(shape.micro && shape.version == 1 && shape.mask == 2 && shape.level == 0 &&
           is_kept_from(121));
    clear();
    EXPECT(is_refused(sicklespan_micro(modules, 1, 0, modules, 121, &shape)));
    EXPECT(is_refused(sicklespan_micro(NULL, 1, 0, modules, 121, &shape)));
    EXPECT(sicklespan_micro("1", 1, SICKLESPAN_LEVEL_H, modules, 121, &shape) ==
               SICKLESPAN_INVALID_LEVEL &&
           is_kept_from(0));
}

static const sicklespan_options strongest_options = {SICKLESPAN_LEVEL_L, 1, 40, 1};

static int32_t draw_bytes(void) {
    return sicklespan_bytes(word, 5, &strongest_options, modules, GREATEST, &shape);
}

static int32_t draw_text(void) {
    return sicklespan_text("gr\xc3\xbc\xc3\x9f", 6, NULL, modules, GREATEST, &shape);
}

static int32_t draw_elements(void) {
    return sicklespan_elements("10ABC", 5, NULL, modules, GREATEST, &shape);
}

static int32_t draw_gs1(void) {
    return sicklespan_gs1("(91)ABC(92)12", 13, NULL, modules, GREATEST, &shape);
}

static void test_asked_allocations(void) {
    fail_allocations(draw_bytes);
    fail_allocations(draw_text);
    fail_allocations(draw_elements);
    fail_allocations(draw_gs1);
}
