// Prints the penalties of the canvases that the tests of scores draw, by the rules of the standard
// alone (ISO/IEC 18004: function patterns, format and version information, symbol character
// placement, data masking, evaluation of data masking results). It shares nothing with the library.
//
// tools/scores compiles and runs it, and compares what it prints with the tables of
// crates/grid_tests/src/canvas_tests/tables.rt. Each line is the name of a table and its numbers.
#include <stdint.h>
#include <stdio.h>
#include <stdlib.h>
#include <string.h>

// A module is empty, a functional one, or a data module before masking.
enum module { EMPTY, LIGHT, DARK, DATA_LIGHT, DATA_DARK };

static int number, is_micro, width;  // the version, and how many modules its side has
static uint8_t canvas[177][177];     // the modules, by row and column
static int colors[177][177];         // the same after masking: 1 is dark
static long sums[8];                 // the penalty of each mask of the family, in order

static void set_version(int n, int micro) {
    number = n;
    is_micro = micro;
    width = micro ? 2 * n + 9 : 4 * n + 17;
    memset(canvas, EMPTY, sizeof canvas);
}

// The versions 1 to 40 and M1 to M4, by their places.
static void set_place(int place) {
    if (place < 40) set_version(place + 1, 0);
    else set_version(place - 39, 1);
}

// Colours a functional module. A negative coordinate counts from the far edge.
static void put(int x, int y, int dark) {
    if (x < 0) x += width;
    if (y < 0) y += width;
    canvas[y][x] = dark ? DARK : LIGHT;
}

// The data digits of a word and its check digits: as polynomials over two elements, the multiple of
// the generator that begins with the data.
static int code_word(int data, int check_digits, int generator) {
    int rest = data << check_digits;
    for (int k = 30; k >= check_digits; k--)
        if (rest >> k & 1) rest ^= generator << (k - check_digits);
    return data << check_digits | rest;
}

// ---- Function patterns

static int distance(int dx, int dy) {
    return abs(dx) > abs(dy) ? abs(dx) : abs(dy);
}

// A finder pattern around its centre, with the light separator where that lies in the symbol.
static void draw_finder(int center_x, int center_y) {
    for (int dy = -4; dy <= 4; dy++)
        for (int dx = -4; dx <= 4; dx++) {
            int x = center_x + dx, y = center_y + dy;
            if (x < 0 || y < 0 || x >= width || y >= width) continue;
            put(x, y, distance(dx, dy) == 3 || distance(dx, dy) <= 1);
        }
}

static void draw_alignment(int center_x, int center_y) {
    for (int dy = -2; dy <= 2; dy++)
        for (int dx = -2; dx <= 2; dx++) put(center_x + dx, center_y + dy, distance(dx, dy) != 1);
}

// Alignment patterns stand at each pair of the centres but the three at the finder patterns. The
// first centre is 6, the last width - 7, and the others go back from it by the least even step that
// leaves none out.
static void draw_alignments(void) {
    int count = number / 7 + 2, step = 2, centers[7];
    while ((count - 1) * step < 4 * number + 4) step += 2;
    if (number == 32) step = 26;
    centers[0] = 6;
    for (int k = 1; k < count; k++) centers[k] = width - 7 - (count - 1 - k) * step;
    for (int i = 0; i < count; i++)
        for (int j = 0; j < count; j++) {
            int at_left = i == 0, at_top = j == 0;
            int at_right = i == count - 1, at_bottom = j == count - 1;
            if ((at_left && (at_top || at_bottom)) || (at_right && at_top)) continue;
            draw_alignment(centers[i], centers[j]);
        }
}

// Both copies of the version word, high digit first.
static void draw_version_word(void) {
    int word = code_word(number, 12, 0x1F25), k = 17;
    for (int x = 5; x >= 0; x--)
        for (int y = -9; y >= -11; y--, k--) {
            put(x, y, word >> k & 1);
            put(y, x, word >> k & 1);
        }
}

// The cells of the format word, high digit first: column and row, negative from the far edge.
static const int MICRO_CELLS[15][2] = {
    {1, 8}, {2, 8}, {3, 8}, {4, 8}, {5, 8}, {6, 8}, {7, 8}, {8, 8},
    {8, 7}, {8, 6}, {8, 5}, {8, 4}, {8, 3}, {8, 2}, {8, 1}};
static const int FIRST_CELLS[15][2] = {
    {0, 8}, {1, 8}, {2, 8}, {3, 8}, {4, 8}, {5, 8}, {7, 8}, {8, 8},
    {8, 7}, {8, 5}, {8, 4}, {8, 3}, {8, 2}, {8, 1}, {8, 0}};
static const int SECOND_CELLS[15][2] = {
    {8, -1}, {8, -2}, {8, -3}, {8, -4}, {8, -5}, {8, -6}, {8, -7}, {-8, 8},
    {-7, 8}, {-6, 8}, {-5, 8}, {-4, 8}, {-3, 8}, {-2, 8}, {-1, 8}};

// The cells of the copies of the format word.
static int copies(void) {
    return is_micro ? 1 : 2;
}

static const int (*cells_of(int copy))[2] {
    return is_micro ? MICRO_CELLS : copy == 0 ? FIRST_CELLS : SECOND_CELLS;
}

// All function patterns, with light modules for the format word.
static void draw_functional(void) {
    int line = is_micro ? 0 : 6, last = is_micro ? width - 1 : width - 9;
    for (int i = 8; i <= last; i++) {
        put(i, line, i % 2 == 0);
        put(line, i, i % 2 == 0);
    }
    draw_finder(3, 3);
    if (!is_micro) {
        draw_finder(width - 4, 3);
        draw_finder(3, width - 4);
        if (number >= 2) draw_alignments();
        if (number >= 7) draw_version_word();
    }
    for (int copy = 0; copy < copies(); copy++)
        for (int k = 0; k < 15; k++) put(cells_of(copy)[k][0], cells_of(copy)[k][1], 0);
    if (!is_micro) put(8, -8, 1);
}

// ---- Data, in pairs of columns from the right, the first upwards, then downwards, and so on

static void draw_data(const uint8_t *bytes, long bits) {
    int timing = is_micro ? 0 : 6, upwards = 1;
    long k = 0;
    for (int right = width - 1; right > 0; right -= 2) {
        if (right == timing) right--;
        for (int i = 0; i < width; i++)
            for (int x = right; x > right - 2; x--) {
                int y = upwards ? width - 1 - i : i;
                if (canvas[y][x] != EMPTY || k == bits) continue;
                canvas[y][x] = bytes[k / 8] >> (7 - k % 8) & 1 ? DATA_DARK : DATA_LIGHT;
                k++;
            }
        upwards = !upwards;
    }
}

// ---- Masks

// The conditions of the masks, by their numbers. A data module is inverted where it is 0.
static int condition(int mask, int x, int y) {
    switch (mask) {
    case 0: return (x + y) % 2;
    case 1: return y % 2;
    case 2: return x % 3;
    case 3: return (x + y) % 3;
    case 4: return (y / 2 + x / 3) % 2;
    case 5: return x * y % 2 + x * y % 3;
    case 6: return (x * y % 2 + x * y % 3) % 2;
    default: return ((x + y) % 2 + x * y % 3) % 2;
    }
}

// The levels L, M, Q and H are 0 to 3.
static const int LEVEL_DIGITS[4] = {1, 0, 3, 2};
static const int MICRO_SYMBOLS[4][4] = {
    {0, -1, -1, -1}, {1, 2, -1, -1}, {3, 4, -1, -1}, {5, 6, 7, -1}};
static const int MICRO_FAMILY[4] = {1, 4, 6, 7};

static int has_level(int level) {
    return !is_micro || MICRO_SYMBOLS[number - 1][level] >= 0;
}

// The family of the version has so many masks; the one at a place of it has this number.
static int family_size(void) {
    return is_micro ? 4 : 8;
}

static int family_mask(int place) {
    return is_micro ? MICRO_FAMILY[place] : place;
}

static int format_word(int level, int place) {
    if (is_micro) {
        return code_word(MICRO_SYMBOLS[number - 1][level] << 2 | place, 10, 0x537) ^ 0x4445;
    }
    return code_word(LEVEL_DIGITS[level] << 3 | place, 10, 0x537) ^ 0x5412;
}

// Masks every module, an empty one like light data, and draws the format word and the dark module.
static void apply_mask(int level, int place) {
    int mask = family_mask(place), word = format_word(level, place);
    for (int y = 0; y < width; y++)
        for (int x = 0; x < width; x++) {
            int module = canvas[y][x], is_data = module != DARK && module != LIGHT;
            int is_dark = module == DARK || module == DATA_DARK;
            colors[y][x] = is_dark ^ (is_data && condition(mask, x, y) == 0);
        }
    for (int copy = 0; copy < copies(); copy++)
        for (int k = 0; k < 15; k++) {
            int x = cells_of(copy)[k][0], y = cells_of(copy)[k][1];
            colors[y < 0 ? y + width : y][x < 0 ? x + width : x] = word >> (14 - k) & 1;
        }
    if (!is_micro) colors[width - 8][8] = 1;
}

// ---- Penalties

// The module at a place of a row or a column. Outside the symbol all is light.
static int at(int by_columns, int line, int i) {
    if (i < 0 || i >= width) return 0;
    return by_columns ? colors[i][line] : colors[line][i];
}

// A run of n modules of one colour, five at least, counts n - 2.
static long runs(int by_columns, int line) {
    long sum = 0;
    for (int begin = 0, end; begin < width; begin = end) {
        end = begin + 1;
        while (end < width && at(by_columns, line, end) == at(by_columns, line, begin)) end++;
        if (end - begin >= 5) sum += end - begin - 2;
    }
    return sum;
}

// The row through the middle of a finder pattern, with four light modules before or after it,
// counts 40.
static long windows(int by_columns, int line) {
    static const int SHAPE[7] = {1, 0, 1, 1, 1, 0, 1};
    long sum = 0;
    for (int begin = 0; begin + 7 <= width; begin++) {
        int is_shape = 1, is_dark_before = 0, is_dark_after = 0;
        for (int k = 0; k < 7; k++) is_shape &= at(by_columns, line, begin + k) == SHAPE[k];
        for (int k = 1; k <= 4; k++) {
            is_dark_before |= at(by_columns, line, begin - k);
            is_dark_after |= at(by_columns, line, begin + 6 + k);
        }
        if (is_shape && !(is_dark_before && is_dark_after)) sum += 40;
    }
    return sum;
}

// Runs and windows of all rows and columns, 3 for each square of one colour, and how far the dark
// modules are from half of all, in two hundredths.
static long normal_penalty(void) {
    long sum = 0, dark = 0;
    for (int line = 0; line < width; line++)
        for (int by_columns = 0; by_columns < 2; by_columns++)
            sum += runs(by_columns, line) + windows(by_columns, line);
    for (int y = 0; y + 1 < width; y++)
        for (int x = 0; x + 1 < width; x++) {
            int upper = colors[y][x] + colors[y][x + 1];
            int lower = colors[y + 1][x] + colors[y + 1][x + 1];
            if (upper + lower == 0 || upper + lower == 4) sum += 3;
        }
    for (int y = 0; y < width; y++)
        for (int x = 0; x < width; x++) dark += colors[y][x];
    return sum + labs(200 * dark / (width * width) - 100);
}

// The light modules of the bottom row and of the right column, each but for its first: sixteen for
// each on the side that has more, and one for each on the other.
static long micro_penalty(void) {
    long row = 0, column = 0;
    for (int i = 1; i < width; i++) {
        row += !colors[width - 1][i];
        column += !colors[i][width - 1];
    }
    return row > column ? 16 * row + column : 16 * column + row;
}

static void find_sums(int level) {
    for (int place = 0; place < family_size(); place++) {
        apply_mask(level, place);
        sums[place] = is_micro ? micro_penalty() : normal_penalty();
    }
}

// ---- The canvases of the tests

static uint32_t next_random(uint32_t state) {
    return state * 1664525u + 1013904223u;
}

// A symbol with 4000 bytes of a fixed sequence as data and as correction.
static void draw_symbol(uint32_t seed) {
    static uint8_t bytes[8000];
    uint32_t state = seed;
    for (int i = 0; i < 4000; i++) {
        state = next_random(state);
        bytes[i] = bytes[i + 4000] = state >> 24;
    }
    draw_functional();
    draw_data(bytes, 8 * 8000);
}

// A checkerboard of squares, dark at the corner where the first is 0 and light where it is 1.
static void paint(int size, int first) {
    for (int y = 0; y < width; y++)
        for (int x = 0; x < width; x++) put(x, y, (x / size + y / size + first) % 2 == 0);
}

// Modules of all kinds in runs of a fixed sequence, by rows or by columns.
static void fill(uint32_t seed) {
    static const int RUNS[8] = {1, 1, 2, 3, 4, 5, 7, 40};
    static const uint8_t WAYS[7] = {DARK, LIGHT, DATA_DARK, DATA_LIGHT, DARK, LIGHT, EMPTY};
    uint32_t state = seed;
    int left = 0;
    for (int i = 0; i < width; i++)
        for (int j = 0; j < width; j++, left--) {
            if (left == 0) {
                state = next_random(state);
                left = RUNS[(state >> 21) % 8];
            }
            if (seed % 2 == 0) canvas[i][j] = WAYS[(state >> 24) % 7];
            else canvas[j][i] = WAYS[(state >> 24) % 7];
        }
}

// ---- What is printed

// A number made of others, in order.
static const uint32_t START = 2166136261u;

static uint32_t mixed(uint32_t mix) {
    for (int place = 0; place < family_size(); place++) {
        mix = (mix ^ (uint32_t)sums[place]) * 16777619u;
    }
    return mix;
}

static void print_sums(long less) {
    for (int place = 0; place < family_size(); place++) printf(" %ld", sums[place] - less);
}

static void print_symbols(void) {
    printf("SYMBOLS");
    for (int version = 0; version < 44; version++) {
        set_place(version);
        draw_symbol(1);
        find_sums(0);
        printf(" 0x%08X", mixed(START));
    }
    printf("\nPRINTED");
    static const int NORMAL[6] = {1, 2, 7, 14, 25, 40};
    for (int i = 0; i < 6; i++) {
        set_version(NORMAL[i], 0);
        draw_symbol(1);
        find_sums(0);
        printf(" %d", number);
        print_sums(720);
    }
    printf("\nMICRO_PRINTED");
    for (int n = 1; n <= 4; n++) {
        set_version(n, 1);
        draw_symbol(1);
        find_sums(0);
        printf(" %d", number);
        print_sums(0);
    }
    printf("\n");
}

static void print_painted(void) {
    static const int WAYS[5][2] = {{200, 0}, {200, 1}, {1, 0}, {2, 1}, {5, 1}};
    printf("PAINTED");
    for (int version = 0; version < 44; version++) {
        uint32_t mix = START;
        set_place(version);
        for (int i = 0; i < 5; i++) {
            paint(WAYS[i][0], WAYS[i][1]);
            find_sums(0);
            mix = mixed(mix);
        }
        set_place(version);
        find_sums(0);
        printf(" 0x%08X", mixed(mix));
    }
    printf("\n");
}

static void print_written(void) {
    printf("WRITTEN");
    for (int version = 0; version < 44; version++) {
        uint32_t mix = START;
        set_place(version);
        for (int seed = version; seed < 200; seed += 44) {
            fill(seed);
            find_sums(0);
            mix = mixed(mix);
        }
        printf(" 0x%08X", mix);
    }
    printf("\n");
}

// New canvases of all versions and levels.
static void print_new(void) {
    printf("NEW");
    for (int version = 0; version < 44; version++)
        for (int level = 0; level < 4; level++) {
            set_place(version);
            if (!has_level(level)) continue;
            find_sums(level);
            printf(" 0x%08X", mixed(START));
        }
    printf("\n");
}

// The symbol of the digits 12345, and a canvas of version 40 on which every module is dark.
static void print_worked(void) {
    static const uint8_t BYTES[5] = {0xA3, 0xDA, 0xD6, 0xEC, 0x70};
    set_version(1, 1);
    draw_functional();
    draw_data(BYTES, 36);
    find_sums(0);
    printf("DIGITS");
    print_sums(0);
    set_version(40, 0);
    paint(200, 0);
    find_sums(0);
    printf("\nALL_DARK");
    print_sums(0);
    printf("\n");
}

int main(void) {
    print_symbols();
    print_painted();
    print_written();
    print_new();
    print_worked();
    return 0;
}
