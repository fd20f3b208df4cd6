/* SPDX-License-Identifier: MIT OR Apache-2.0 */
/* Worked values, a part of test.c: the first modules of symbols and pictures, versions, cuts,
 * links, and each status that the proved functions return, by the tables of ISO/IEC 18004:2006 and
 * by the GS1 General Specifications. */

/* The signs of a row: `#` is a dark module. */
static int begins_with_row(const char *signs) {
    for (size_t i = 0; signs[i] != 0; i++) {
        if (modules[i] != (signs[i] == '#')) return 0;
    }
    return 1;
}

static int is_shape(int32_t width, int32_t version, bool micro, int32_t level) {
    return shape.width == width && shape.version == version && shape.micro == micro &&
           shape.level == level;
}

static const sicklespan_options low_options = {SICKLESPAN_LEVEL_L, 1, 40, 0};

static void test_worked_symbols(void) {
    EXPECT(symbol(word, 5, SICKLESPAN_LEVEL_L, 442) == SICKLESPAN_OK && is_kept_from(441));
    EXPECT(is_shape(21, 1, false, 0) && begins_with_row("#######..#.##.#######"));
    clear();
    EXPECT(sicklespan_micro("12345", 5, SICKLESPAN_LEVEL_L, modules, 122, &shape) == SICKLESPAN_OK);
    EXPECT(is_shape(11, 1, true, 0) && shape.mask == 2 && begins_with_row("#######.#.#") &&
           is_kept_from(121));
    EXPECT(part((const size_t[]){3}, 1, SICKLESPAN_LEVEL_L, 1, 1) == SICKLESPAN_OK &&
           shape.width == 21 && begins_with_row("#######."));
    EXPECT(part((const size_t[]){3}, 1, SICKLESPAN_LEVEL_L, 1, 2) == SICKLESPAN_INVALID_INDEX);
    /* Version 1 holds seven bytes at H. */
    const sicklespan_options strongest = {SICKLESPAN_LEVEL_L, 1, 40, 1}, second = {0, 2, 40, 0};
    EXPECT(asked(of_bytes, "hello", &strongest) == SICKLESPAN_OK && is_shape(21, 1, false, 3));
    EXPECT(asked(of_text, "hello", &second) == SICKLESPAN_OK && is_shape(25, 2, false, 0) &&
           begins_with_row("#######.") && is_kept_from(625));
    /* 4 bits of FNC1, 74 of 18 digits and 46 of 6 characters fit the 152 bits of version 1. */
    static uint8_t drawn[441];
    EXPECT(asked(of_elements, "010950600013435210ABC123", &low_options) == SICKLESPAN_OK &&
           is_shape(21, 1, false, 0));
    memcpy(drawn, modules, sizeof drawn);
    EXPECT(asked(of_gs1, "(01)09506000134352(10)ABC123", &low_options) == SICKLESPAN_OK &&
           memcmp(drawn, modules, sizeof drawn) == 0);
    EXPECT(asked(of_gs1_unchecked, "(4399)x", &low_options) == SICKLESPAN_OK && shape.version == 1);
    EXPECT(sicklespan_greatest_size() == 31329);
}

/* A call whose buffer has 122 bytes, which is less than any symbol but M1 needs. */
static int32_t without_room(asked_call *call, const char *text, const sicklespan_options *options) {
    const int32_t status = call(text, strlen(text), options, modules, 122, &shape);
    return is_kept_from(0) ? status : -1;
}

static void test_worked_options(void) {
    const struct {
        sicklespan_options options;
        int32_t status;
    } rows[] = {{{4, 1, 40, 0}, SICKLESPAN_INVALID_LEVEL},
                {{0, 0, 40, 0}, SICKLESPAN_INVALID_VERSIONS},
                {{0, 1, 41, 0}, SICKLESPAN_INVALID_VERSIONS},
                {{0, 3, 2, 0}, SICKLESPAN_INVALID_VERSIONS},
                {{0, 1, 40, 0}, SICKLESPAN_SHORT_BUFFER}};
    for (size_t i = 0; i < sizeof rows / sizeof *rows; i++) {
        EXPECT(without_room(of_bytes, "hello", &rows[i].options) == rows[i].status);
    }
    EXPECT(without_room(of_text, "\xff", &low_options) == SICKLESPAN_INVALID_TEXT);
    EXPECT(without_room(of_elements, "1 2", &low_options) == SICKLESPAN_INVALID_CHARACTER);
}

/* Texts with their status by the table of identifiers, and unchecked, where the last status is that
 * there is no room for the symbol. */
static void test_worked_elements(void) {
    static const struct {
        const char *text;
        int32_t by_table, unchecked;
    } rows[] = {{"(10)\xff", SICKLESPAN_INVALID_TEXT, SICKLESPAN_INVALID_TEXT},
                {"10", SICKLESPAN_NO_ELEMENTS, SICKLESPAN_NO_ELEMENTS},
                {"(1)2", SICKLESPAN_INVALID_IDENTIFIER, SICKLESPAN_INVALID_IDENTIFIER},
                {"(05)2", SICKLESPAN_UNKNOWN_IDENTIFIER, SICKLESPAN_UNKNOWN_IDENTIFIER},
                {"(4399)x", SICKLESPAN_UNKNOWN_IDENTIFIER, SICKLESPAN_SHORT_BUFFER},
                {"(10)", SICKLESPAN_EMPTY_VALUE, SICKLESPAN_EMPTY_VALUE},
                {"(10)ABCDEFGHIJKLMNOPQRSTU", SICKLESPAN_VALUE_TOO_LONG, SICKLESPAN_SHORT_BUFFER},
                {"(01)095060001343521", SICKLESPAN_VALUE_TOO_LONG, SICKLESPAN_WRONG_LENGTH},
                {"(10)a b", SICKLESPAN_INVALID_CHARACTER, SICKLESPAN_INVALID_CHARACTER},
                {"(37)ABC", SICKLESPAN_INVALID_CHARACTER, SICKLESPAN_SHORT_BUFFER},
                {"(01)1", SICKLESPAN_WRONG_LENGTH, SICKLESPAN_WRONG_LENGTH},
                {"(7003)2612", SICKLESPAN_WRONG_LENGTH, SICKLESPAN_SHORT_BUFFER},
                {"(01)09506000134353", SICKLESPAN_WRONG_CHECK_DIGIT, SICKLESPAN_WRONG_CHECK_DIGIT},
                {"(8003)095060001343531", SICKLESPAN_WRONG_CHECK_DIGIT, SICKLESPAN_SHORT_BUFFER},
                {"(17)261331", SICKLESPAN_WRONG_VALUE, SICKLESPAN_SHORT_BUFFER}};
    for (size_t i = 0; i < sizeof rows / sizeof *rows; i++) {
        const char *const text = rows[i].text;
        expect(without_room(of_gs1, text, &low_options) == rows[i].by_table, text, __LINE__);
        expect(without_room(of_gs1_unchecked, text, &low_options) == rows[i].unchecked, text,
               __LINE__);
    }
}

static int32_t link_status(const char *text, const char *domain) {
    fault = (sicklespan_fault){77, 77, 77, NULL};
    return sicklespan_link_fault(text, strlen(text), domain, strlen(domain), &fault);
}

static void test_worked_links(void) {
    EXPECT(link_status("(01)09506000134352(10)A(235)B", "a.b") == SICKLESPAN_WRONG_QUALIFIER &&
           fault.element == 2 && fault.identifier == 10);
    EXPECT(link_status("(01)09506000134352(8017)095060001343520000", "a.b") ==
           SICKLESPAN_SECOND_KEY);
    EXPECT(link_status("(01)09506000134352(10)A(10)A", "a.b") == SICKLESPAN_REPEATED_ELEMENT);
    static const char text[] = "(10)A/B(01)09506000134352";
    static const char plain_link[] = "https://id.gs1.org/01/09506000134352/10/A%2FB";
    EXPECT(link_of(text, host, 46) == SICKLESPAN_OK && link_size == 45 && link[45] == '!' &&
           memcmp(link, plain_link, 45) == 0);
    EXPECT(link_of(text, host, 44) == SICKLESPAN_SHORT_BUFFER && link_size == 45 && link[0] == '!');
    static uint8_t drawn[1089];
    EXPECT(asked(of_bytes, plain_link, &low_options) == SICKLESPAN_OK && shape.width <= 33);
    const size_t size = (size_t)(shape.width * shape.width);
    memcpy(drawn, modules, sizeof drawn);
    clear();
    EXPECT(sicklespan_link(text, sizeof text - 1, host, sizeof host - 1, &low_options, modules,
                           GREATEST, &shape) == SICKLESPAN_OK &&
           memcmp(drawn, modules, size) == 0 && is_kept_from(size));
}

static void test_worked_sequences(void) {
    static uint8_t drawn[882];
    const size_t at_3[] = {3};
    EXPECT(all_parts(word, 5, at_3, 1, modules, 883, shapes) == SICKLESPAN_OK && is_kept_from(882));
    EXPECT(shapes[0].width == 21 && shapes[1].width == 21 && shapes[2].width == -1);
    memcpy(drawn, modules, sizeof drawn);
    /* The second symbol is the one that the call for one part draws. */
    EXPECT(part(at_3, 1, SICKLESPAN_LEVEL_L, 1, 1) == SICKLESPAN_OK &&
           memcmp(drawn + 441, modules, 441) == 0);
    EXPECT(text_parts(eacute, 3, (size_t[]){1}, 1) == SICKLESPAN_INVALID_TEXT && is_kept_from(0));
    /* Version 1 holds 72 bits at H: 20 of the header, 12 that say UTF-8, 12 before the bytes. */
    static const char three[] = "\xC3\xA9\xC3\xA9\xC3\xA9";
    EXPECT(text_cuts_of(three, 6, 1) == SICKLESPAN_OK && cut_count == 2 && cuts[0] == 2 &&
           cuts[1] == 4 && are_kept_from(2));
    EXPECT(text_cuts_of(three, 5, 1) == SICKLESPAN_INVALID_TEXT && are_kept_from(0));
    /* After the header, version 1 holds 5 bytes at H. */
    EXPECT(cuts_of("one and two", 11, SICKLESPAN_LEVEL_H, 1, cuts, 3, &cut_count) ==
               SICKLESPAN_OK &&
           cut_count == 2 && cuts[0] == 5 && cuts[1] == 10 && are_kept_from(2));
}

/* Bytes that fit no symbol in the Byte mode, from one more than version 40 holds at L to the most
 * digits that it holds. */
static uint8_t too_many[7089];

/* A call for the first of two parts, of which the second is empty. */
static int32_t whole_part(size_t length, int32_t max_version) {
    clear();
    const int32_t status = sicklespan_part_symbol(too_many, length, &length, 1, SICKLESPAN_LEVEL_L,
                                                  max_version, 0, modules, 122, &shape);
    return is_kept_from(0) ? status : -1;
}

static void test_worked_lengths(void) {
    memset(too_many, 'a', sizeof too_many);
    const size_t lengths[] = {2954, 5000, 7089};
    for (size_t i = 0; i < 3; i++) {
        EXPECT(symbol(too_many, lengths[i], SICKLESPAN_LEVEL_L, 122) == SICKLESPAN_DATA_TOO_LONG &&
               is_kept_from(0));
        EXPECT(sicklespan_micro(too_many, lengths[i], 0, modules, 122, &shape) ==
                   SICKLESPAN_DATA_TOO_LONG &&
               is_kept_from(0));
        EXPECT(whole_part(lengths[i], 40) == SICKLESPAN_DATA_TOO_LONG);
        EXPECT(whole_part(lengths[i], 1) == SICKLESPAN_DATA_TOO_LONG);
    }
    /* M4 holds 15 bytes at L, and version 40 holds 2953. */
    EXPECT(sicklespan_micro(too_many, 16, 0, modules, 122, &shape) == SICKLESPAN_DATA_TOO_LONG);
    EXPECT(symbol(too_many, 2953, SICKLESPAN_LEVEL_L, 122) == SICKLESPAN_SHORT_BUFFER &&
           is_kept_from(0));
    /* After the 20 bits of the header, version 40 holds 2951 bytes at L, and version 1 holds 15. */
    EXPECT(whole_part(2952, 40) == SICKLESPAN_DATA_TOO_LONG);
    EXPECT(whole_part(2951, 40) == SICKLESPAN_SHORT_BUFFER);
    EXPECT(whole_part(16, 1) == SICKLESPAN_DATA_TOO_LONG);
    EXPECT(whole_part(15, 1) == SICKLESPAN_SHORT_BUFFER);
}

/* The versions at level M: 12 bits that say a part of ISO/IEC 8859, 12 before 14 characters. */
static void test_worked_texts(void) {
    EXPECT(asked(of_smallest_text,
                 "Gr\xc3\xbc\xc3\x9f"
                 "e nach Ulm",
                 NULL) == SICKLESPAN_OK &&
           is_shape(25, 2, false, 1) && begins_with_row("#######."));
    EXPECT(asked(of_smallest_text, KANJI_5, NULL) == SICKLESPAN_OK && begins_with_row("#######."));
    const sicklespan_options second = {SICKLESPAN_LEVEL_L, 2, 40, 0};
    EXPECT(of_smallest_text(KANJI_5, 15, &second, modules, 624, &shape) ==
               SICKLESPAN_SHORT_BUFFER &&
           is_kept_from(0));
    EXPECT(asked(of_smallest_text, "\xe6\x9d", NULL) == SICKLESPAN_INVALID_TEXT && is_kept_from(0));
    /* At M the Kanji need M4. */
    EXPECT(micro_text(KANJI_5, SICKLESPAN_LEVEL_L, 226) == SICKLESPAN_OK &&
           is_shape(15, 3, true, 0) && begins_with_row("#######."));
    EXPECT(micro_text(KANJI_5, SICKLESPAN_LEVEL_M, 224) == SICKLESPAN_SHORT_BUFFER &&
           is_kept_from(0));
    EXPECT(micro_text("a", SICKLESPAN_LEVEL_L, 224) == SICKLESPAN_SHORT_BUFFER && is_kept_from(0));
    EXPECT(micro_text("12345", SICKLESPAN_LEVEL_L, 224) == SICKLESPAN_OK && shape.version == 1);
    EXPECT(micro_text("\xff", SICKLESPAN_LEVEL_L, 224) == SICKLESPAN_INVALID_TEXT);
    const char *const unwritable[] = {"\xe6\x9d\xb1~", "\xe6\x9d\xb1\\", "\xe6\x9d\xb1\xc3\xa9",
                                      "\xd7\xa9\xd7\x9c\xd7\x95\xd7\x9d"};
    for (size_t i = 0; i < sizeof unwritable / sizeof *unwritable; i++) {
        EXPECT(micro_text(unwritable[i], SICKLESPAN_LEVEL_L, 224) == SICKLESPAN_UNWRITABLE_TEXT &&
               is_kept_from(0));
    }
    /* M4 holds 35 digits. */
    EXPECT(micro_text("123456789012345678901234567890123456", SICKLESPAN_LEVEL_L, 224) ==
               SICKLESPAN_DATA_TOO_LONG &&
           is_kept_from(0));
}

/* A bitmap has a bit for each pixel, in rows of whole bytes (Netpbm, "pbm"): the first row of a
 * Micro symbol is that of a finder pattern and of a timing pattern. */
static void test_worked_pictures(void) {
    enum { PBM = SICKLESPAN_FORMAT_PBM };
    const sicklespan_settings bare = {1, 0, -1, -1, 0, -1, -1};
    static uint8_t tiny[169];
    EXPECT(sicklespan_micro("12345", 5, 0, tiny, 121, &shape) == SICKLESPAN_OK);
    EXPECT(picture(tiny, 11, PBM, &bare, modules, 32, &picture_length) == SICKLESPAN_OK &&
           picture_length == 31 && memcmp(modules, "P4\n11 11\n\xfe\xa0", 11) == 0 &&
           is_kept_from(31));
    EXPECT(picture(tiny, 11, PBM, &bare, modules, 30, &picture_length) == SICKLESPAN_SHORT_BUFFER &&
           picture_length == 31 && is_kept_from(0));
    const sicklespan_settings sized = {1, 0, -1, 300, 0, -1, -1};
    EXPECT(picture(tiny, 12, PBM, &bare, modules, 122, &picture_length) ==
               SICKLESPAN_INVALID_WIDTH &&
           is_blank());
    EXPECT(picture(tiny, 11, 8, &bare, modules, 122, &picture_length) ==
               SICKLESPAN_INVALID_FORMAT &&
           is_blank());
    EXPECT(picture(tiny, 11, -1, &bare, modules, 122, &picture_length) ==
               SICKLESPAN_INVALID_FORMAT &&
           is_blank());
    EXPECT(picture(tiny, 11, PBM, &sized, modules, 122, &picture_length) ==
               SICKLESPAN_INVALID_SETTING &&
           is_blank());
#ifdef SEES_BORDER
    /* sicklespan_picture passes width * width modules, and no other number. */
    EXPECT(__real_qrcode_c_picture(tiny, 121, 13, PBM, &bare, modules, 122, &picture_length) ==
               SICKLESPAN_INVALID_WIDTH &&
           is_blank());
#endif
}

/* A setting that a bitmap does not have, or that is out of its bounds, is refused without any
 * allocation. */
static void test_worked_settings(void) {
    const sicklespan_settings wrong[] = {{65, -1, -1, -1, 0, -1, -1}, {-1, 17, -1, -1, 0, -1, -1},
                                         {-1, -1, 33, -1, 0, -1, -1}, {-1, -1, -1, 300, 0, -1, -1},
                                         {-1, -1, -1, -1, 1, -1, -1}, {-1, -1, -1, -1, 0, 8, -1}};
    draw_hello();
    for (size_t i = 0; i < sizeof wrong / sizeof *wrong; i++) {
        failing = 1, allocations = 0;
        EXPECT(hello_as(SICKLESPAN_FORMAT_PBM, &wrong[i]) == SICKLESPAN_INVALID_SETTING &&
               is_blank() && allocations == 0);
    }
    failing = 0;
}
