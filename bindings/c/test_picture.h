/* SPDX-License-Identifier: MIT OR Apache-2.0 */
/* Pictures, a part of test.c: where the buffers lie, and what the settings ask for. The picture
 * lies in the block of the modules, and the modules apart. */

static uint8_t hello[441];
static _Alignas(max_align_t) size_t picture_length;

/* A module has one pixel, in the quiet zone of 4 modules. */
static const sicklespan_settings small = {1, 4, -1, -1, 0, -1, -1};

/* A call, after clear(). */
static int32_t picture(const void *grid, int32_t width, int32_t format, const void *settings,
                       void *to, size_t room, void *length) {
    clear();
    picture_length = 99;
    return sicklespan_picture(grid, width, format, settings, to, room, length);
}

/* A picture of `hello` with the whole buffer. */
static int32_t hello_as(int32_t format, const sicklespan_settings *settings) {
    return picture(hello, 21, format, settings, modules, GREATEST, &picture_length);
}

static void draw_hello(void) {
    EXPECT(sicklespan_bytes(word, 5, NULL, hello, sizeof hello, &shape) == SICKLESPAN_OK);
}

/* Nothing was written. */
static int is_blank(void) { return is_kept_from(0) && picture_length == 99; }

/* The buffer begins with a bitmap of 29 columns and rows, in which 1 is black, in rows of whole
 * bytes (Netpbm, "pbm"). */
static int is_bitmap(void) {
    if (memcmp(modules, "P4\n29 29\n", 9) != 0) return 0;
    for (size_t y = 0; y < 29; y++) {
        for (size_t x = 0; x < 32; x++) {
            const int inside = x >= 4 && x < 25 && y >= 4 && y < 25;
            const int dark = modules[9 + 4 * y + x / 8] >> (7 - x % 8) & 1;
            if (dark != (inside && hello[21 * (y - 4) + x - 4])) return 0;
        }
    }
    return 1;
}

/* Whether some bytes of the picture are these. */
static int contains(const char *bytes, size_t length) {
    for (size_t i = 0; i + length <= picture_length; i++) {
        if (memcmp(modules + i, bytes, length) == 0) return 1;
    }
    return 0;
}

static void test_picture_room(void) {
    enum { PBM = SICKLESPAN_FORMAT_PBM, SIZE = 9 + 29 * 4 };
    draw_hello();
    EXPECT(picture(hello, 21, PBM, &small, NULL, 0, &picture_length) == SICKLESPAN_SHORT_BUFFER &&
           is_kept_from(0) && picture_length == SIZE);
    EXPECT(picture(hello, 21, PBM, &small, modules, SIZE - 1, &picture_length) ==
               SICKLESPAN_SHORT_BUFFER &&
           is_kept_from(0) && picture_length == SIZE);
    EXPECT(picture(hello, 21, PBM, &small, modules, SIZE, &picture_length) == SICKLESPAN_OK &&
           is_kept_from(SIZE) && picture_length == SIZE && is_bitmap());
    EXPECT(hello_as(PBM, &small) == SICKLESPAN_OK && is_kept_from(SIZE) && is_bitmap());
    /* By default a module has 8 pixels: 232 a side, in 29 bytes. */
    EXPECT(hello_as(PBM, NULL) == SICKLESPAN_OK && picture_length == 11 + 232 * 29 &&
           is_kept_from(11 + 232 * 29) && memcmp(modules, "P4\n232 232\n", 11) == 0);
    /* Any byte but 0 is dark. */
    for (size_t i = 0; i < sizeof hello; i++) hello[i] = hello[i] ? (uint8_t)(2 + i % 254) : 0;
    EXPECT(hello_as(PBM, &small) == SICKLESPAN_OK && is_bitmap());
}

/* The quiet zone of a Micro symbol has 2 modules (ISO/IEC 18004, "Quiet zone"). */
static void test_quiet_zones(void) {
    enum { PBM = SICKLESPAN_FORMAT_PBM };
    const struct {
        const char *digits, *start;
        size_t length;
    } symbols[] = {{"12345", "P4\n15 15\n", 9 + 15 * 2},
                   {"12345678901234567890123456789012345", "P4\n21 21\n", 9 + 21 * 3}};
    const sicklespan_settings zone = {1, -1, -1, -1, 0, -1, -1};
    for (size_t i = 0; i < 2; i++) {
        const char *const digits = symbols[i].digits;
        EXPECT(sicklespan_micro(digits, strlen(digits), SICKLESPAN_LEVEL_L, hello, 441, &shape) ==
               SICKLESPAN_OK);
        const int32_t width = shape.width;
        EXPECT(picture(hello, width, PBM, &zone, modules, GREATEST, &picture_length) ==
               SICKLESPAN_OK);
        EXPECT(picture_length == symbols[i].length && memcmp(modules, symbols[i].start, 9) == 0);
        EXPECT(picture(hello, width, PBM, &small, modules, GREATEST, &picture_length) ==
                   SICKLESPAN_OK &&
               memcmp(modules, width == 11 ? "P4\n19 19\n" : "P4\n25 25\n", 9) == 0);
        EXPECT(picture(hello, width, PBM, NULL, modules, GREATEST, &picture_length) ==
                   SICKLESPAN_OK &&
               memcmp(modules, width == 11 ? "P4\n120 120\n" : "P4\n168 168\n", 11) == 0);
    }
    draw_hello();
    EXPECT(hello_as(PBM, &zone) == SICKLESPAN_OK && is_bitmap());
}

static void test_picture_pointers(void) {
    enum { PBM = SICKLESPAN_FORMAT_PBM };
    size_t *const length = &picture_length;
    draw_hello();
    EXPECT(is_refused(picture(NULL, 21, PBM, &small, modules, 125, length)) && is_blank());
    EXPECT(is_refused(picture(hello, 21, PBM, &small, NULL, 1, length)) && is_blank());
    EXPECT(is_refused(picture(hello, 21, PBM, &small, modules, 125, NULL)) && is_blank());
    EXPECT(is_refused(picture(hello, 21, PBM, &small, modules, (size_t)PTRDIFF_MAX + 1, length)) &&
           is_blank());
    /* Of other widths nothing is read. */
    const int32_t no_widths[] = {0,   1,  10,  12,         19,        22,       178,
                                 181, -1, -21, 65536 + 21, INT32_MIN, INT32_MAX};
    for (size_t i = 0; i < sizeof no_widths / sizeof *no_widths; i++) {
        EXPECT(picture(NULL, no_widths[i], -1, &small, modules, 125, length) ==
                   SICKLESPAN_INVALID_WIDTH &&
               is_blank());
    }
    const int32_t no_formats[] = {-1, 8, 256, INT32_MIN, INT32_MAX};
    const sicklespan_settings none = {0, -1, -1, -1, 0, -1, -1};
    for (size_t i = 0; i < sizeof no_formats / sizeof *no_formats; i++) {
        EXPECT(hello_as(no_formats[i], &none) == SICKLESPAN_INVALID_FORMAT && is_blank());
    }

    /* What is written lies beside all else. */
    uint8_t *const end = modules + 448;
    const size_t of_settings = sizeof small;
    EXPECT(is_refused(picture(end - 1, 21, PBM, &small, modules, 448, length)) && is_blank());
    EXPECT(is_refused(picture(hello, 21, PBM, &small, hello + 440, 1, length)) && is_blank());
    EXPECT(is_refused(picture(hello, 21, PBM, end - 4, modules, 448, length)) && is_blank());
    EXPECT(is_refused(picture(hello, 21, PBM, modules - of_settings + 4, modules, 448, length)) &&
           is_blank());
    EXPECT(is_refused(picture(hello, 21, PBM, &small, modules, 448, end - 8)));
    EXPECT(is_refused(picture(hello, 21, PBM, &small, modules, 448, modules - 4)));
    EXPECT(is_refused(picture(modules, 21, PBM, &small, end, 64, modules + 440)));
    EXPECT(is_refused(picture(hello, 21, PBM, end, modules, 448, end + of_settings - 4)));
    /* The modules are what clear() writes: all dark. The settings of clear() are inverted. */
    EXPECT(picture(modules, 21, PBM, &small, modules + 441, 125, length) == SICKLESPAN_OK);
    EXPECT(memcmp(modules + 441, "P4\n29 29\n\0", 10) == 0 && modules[441 + 125] == 0xab);
    EXPECT(modules[441 + 9 + 4 * 14] == 0x0f && modules[441 + 9 + 4 * 14 + 1] == 0xff);
    EXPECT(picture(hello, 21, PBM, end, modules, 448, length) == SICKLESPAN_INVALID_SETTING &&
           is_blank());
    EXPECT(picture(hello, 21, PBM, modules - of_settings, modules, 448, length) ==
               SICKLESPAN_INVALID_SETTING &&
           is_blank());
    EXPECT(picture(hello, 21, PBM, &small, modules, 448, end) == SICKLESPAN_OK &&
           memcmp(end, &(size_t){125}, sizeof(size_t)) == 0);
    EXPECT(picture(hello, 21, PBM, end + 8, modules, 448, end) == SICKLESPAN_INVALID_SETTING &&
           is_kept_from(0));
}

static void test_settings(void) {
    const struct {
        int32_t format;
        sicklespan_settings asks;
    } wrong[] = {{SICKLESPAN_FORMAT_PBM, {0, -1, -1, -1, 0, -1, -1}},
                 {SICKLESPAN_FORMAT_PBM, {65, -1, -1, -1, 0, -1, -1}},
                 {SICKLESPAN_FORMAT_PBM, {-1, 17, -1, -1, 0, -1, -1}},
                 {SICKLESPAN_FORMAT_SVG, {-1, -1, 4, -1, 0, -1, -1}},
                 {SICKLESPAN_FORMAT_EPS, {-1, -1, 1001, -1, 0, -1, -1}},
                 {SICKLESPAN_FORMAT_PBM, {-1, -1, 33, -1, 0, -1, -1}},
                 {SICKLESPAN_FORMAT_PNG, {-1, -1, -1, 49, 0, -1, -1}},
                 {SICKLESPAN_FORMAT_PNG, {-1, -1, -1, 2401, 0, -1, -1}},
                 {SICKLESPAN_FORMAT_PNG, {-1, -1, 33, 300, 0, -1, -1}},
                 {SICKLESPAN_FORMAT_SVG, {-1, -1, -1, 300, 0, -1, -1}},
                 {SICKLESPAN_FORMAT_PNG, {-1, -1, -1, -1, 1, -1, -1}},
                 {SICKLESPAN_FORMAT_PBM, {-1, -1, -1, -1, 0, 0, -1}},
                 {SICKLESPAN_FORMAT_ZPL, {-1, -1, -1, -1, 0, 18001, -1}},
                 {SICKLESPAN_FORMAT_ZPL, {-1, -1, -1, -1, 0, -1, INT32_MAX}}};
    draw_hello();
    for (size_t i = 0; i < sizeof wrong / sizeof *wrong; i++) {
        EXPECT(hello_as(wrong[i].format, &wrong[i].asks) == SICKLESPAN_INVALID_SETTING &&
               is_blank());
    }
    /* 64 * 21 = 1344 pixels are 168 bytes. */
    const sicklespan_settings large = {64, 0, -1, -1, 0, -1, -1};
    EXPECT(hello_as(SICKLESPAN_FORMAT_PBM, &large) == SICKLESPAN_SHORT_BUFFER && is_kept_from(0) &&
           picture_length == 13 + 1344 * 168);

    /* 29 modules of 0.33 mm; 300 dots in 25.4 mm are 11811 (2E23 hex) in a metre. */
    const sicklespan_settings sized = {-1, -1, 33, -1, 0, -1, -1};
    EXPECT(hello_as(SICKLESPAN_FORMAT_SVG, &sized) == SICKLESPAN_OK &&
           contains("width=\"9.57mm\"", 14));
    const sicklespan_settings dots = {2, 0, -1, 300, 0, -1, -1};
    EXPECT(hello_as(SICKLESPAN_FORMAT_PNG, &dots) == SICKLESPAN_OK &&
           memcmp(modules, "\x89PNG\r\n\x1a\n", 8) == 0 &&
           contains("pHYs\0\0\x2e\x23\0\0\x2e\x23\1", 13) &&
           contains("IHDR\0\0\0\x2a\0\0\0\x2a\1\0", 14));
    EXPECT(hello_as(SICKLESPAN_FORMAT_EPS, NULL) == SICKLESPAN_OK &&
           memcmp(modules, "%!PS-Adobe-3.0 EPSF-3.0\n", 24) == 0);
    EXPECT(hello_as(SICKLESPAN_FORMAT_ESCPOS, &small) == SICKLESPAN_OK &&
           picture_length == 8 + 29 * 4 && memcmp(modules, "\x1dv0\0\4\0\x1d\0", 8) == 0);
    const sicklespan_settings at = {1, -1, -1, -1, 0, 20, 30};
    EXPECT(hello_as(SICKLESPAN_FORMAT_ZPL, &at) == SICKLESPAN_OK &&
           contains("^XA\n^FO20,30^GFA,116,116,4,", 27));
    const sicklespan_settings below = {1, -1, -1, -1, 0, -1, 18000};
    EXPECT(hello_as(SICKLESPAN_FORMAT_ZPL, &below) == SICKLESPAN_OK && contains("^FO0,18000^", 11));
    const sicklespan_settings beside = {1, -1, -1, -1, 0, 0, -7};
    EXPECT(hello_as(SICKLESPAN_FORMAT_ZPL, &beside) == SICKLESPAN_OK && contains("^FO0,0^", 7));
    EXPECT(hello_as(SICKLESPAN_FORMAT_TERMINAL, NULL) == SICKLESPAN_OK &&
           memcmp(modules, "                             \n", 30) == 0 &&
           is_kept_from(picture_length));
    const sicklespan_settings filled = {-1, -1, -1, -1, INT32_MIN, -1, -1};
    EXPECT(hello_as(SICKLESPAN_FORMAT_TERMINAL, &filled) == SICKLESPAN_OK &&
           memcmp(modules, "\xe2\x96\x88\xe2\x96\x88", 6) == 0 && modules[87] == '\n');
}

static int32_t draw_png(void) {
    const int32_t status = hello_as(SICKLESPAN_FORMAT_PNG, &small);
    EXPECT(status == SICKLESPAN_OK || picture_length == 99);
    return status;
}

static void test_picture_allocations(void) {
    draw_hello();
    fail_allocations(draw_png);
}
