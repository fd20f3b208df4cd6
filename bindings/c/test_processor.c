/* SPDX-License-Identifier: MIT OR Apache-2.0 */
/*
 * Calls on a processor that lacks a part of x86-64-v2, one after the other: sicklespan.c, which is
 * compiled here, asks ask() what the processor has, and the proved functions are replaced by one
 * that counts its calls. The last line is 'N passed, M failed'.
 */
static int ask(unsigned leaf, unsigned *a, unsigned *b, unsigned *c, unsigned *d);
#define SICKLESPAN_CPUID ask
#ifndef BORDER
#define BORDER "sicklespan.c"
#endif
#include BORDER

#include <stdio.h>
#include <string.h>

/* What stands for each proved function. */
static int reached;
uint64_t reach(void);
uint64_t reach(void) {
    reached++;
    return 0;
}

#define STANDS_FOR(name) __asm__(".globl qrcode_c_" #name "\n.set qrcode_c_" #name ", reach\n");
STANDS_FOR(symbol)
STANDS_FOR(micro_symbol)
STANDS_FOR(part_symbol)
STANDS_FOR(bytes)
STANDS_FOR(bytes_without_kanji)
STANDS_FOR(text)
STANDS_FOR(smallest_text)
STANDS_FOR(micro_text)
STANDS_FOR(elements)
STANDS_FOR(gs1)
STANDS_FOR(gs1_unchecked)
STANDS_FOR(gs1_fault)
STANDS_FOR(link)
STANDS_FOR(link_text)
STANDS_FOR(link_fault)
STANDS_FOR(cuts)
STANDS_FOR(sequence)
STANDS_FOR(text_cuts)
STANDS_FOR(text_sequence)
STANDS_FOR(picture)
STANDS_FOR(greatest_size)
STANDS_FOR(version_of_width)

/* The bits of CPUID that x86-64-v2 asks for ("System V Application Binary Interface, AMD64", table
 * of micro-architecture levels): a leaf, and the bit of its ECX. */
static const struct {
    unsigned leaf, bit;
    const char *name;
} needed[] = {
    {1, 0, "SSE3"},    {1, 9, "SSSE3"},   {1, 13, "CMPXCHG16B"},           {1, 19, "SSE4.1"},
    {1, 20, "SSE4.2"}, {1, 23, "POPCNT"}, {0x80000001, 0, "LAHF and SAHF"}};
enum { NEEDED = sizeof needed / sizeof *needed, NOTHING = NEEDED };

/* What the processor lacks, and whether it has other bits; the leaf that it does not know; and how
 * often it was asked. */
static size_t lacks;
static unsigned others, unknown_leaf;
static int questions;

static int ask(unsigned leaf, unsigned *a, unsigned *b, unsigned *c, unsigned *d) {
    questions++;
    *a = *b = *c = *d = leaf == unknown_leaf ? ~0u : others;
    if (leaf == unknown_leaf) return 0;
    for (size_t i = 0; i < NEEDED; i++) {
        const unsigned bit = 1u << needed[i].bit;
        if (needed[i].leaf == leaf) *c = i == lacks ? *c & ~bit : *c | bit;
    }
    return 1;
}

static void expect(int holds, int *faults, const char *what, const char *lacking) {
    if (!holds) {
        *faults += 1;
        printf("test_processor.c: %s without %s\n", what, lacking);
    }
}

static uint8_t modules[441];
static char link_text[8];
static size_t cuts[SICKLESPAN_MAX_CUTS], number = 88;
static sicklespan_shape shapes[2];
static sicklespan_fault fault = {77, 77, 77, NULL};

/* A call by its number, or -1 where there are no more of them. */
static int32_t called(size_t index) {
    const size_t in_two[] = {2};
    const int32_t level = SICKLESPAN_LEVEL_L, bytes = SICKLESPAN_CONTENT_BYTES;
    switch (index) {
    case 0: return sicklespan_symbol(modules, 0, level, modules, 441, shapes);
    case 1: return sicklespan_micro("1", 1, level, modules, 441, shapes);
    case 2: return sicklespan_micro_text("1", 1, level, modules, 441, shapes);
    case 3: return sicklespan_micro_symbol(modules, 0, level, modules, 441, shapes);
    case 4: return sicklespan_bytes("1", 1, NULL, modules, 441, shapes);
    case 5: return sicklespan_bytes_without_kanji("1", 1, NULL, modules, 441, shapes);
    case 6: return sicklespan_text("1", 1, NULL, modules, 441, shapes);
    case 7: return sicklespan_smallest_text("1", 1, NULL, modules, 441, shapes);
    case 8: return sicklespan_auto("1", 1, NULL, modules, 441, shapes);
    case 9: return sicklespan_auto("\xc3\xa9", 2, NULL, modules, 441, shapes);
    case 10: return sicklespan_elements("10A", 3, NULL, modules, 441, shapes);
    case 11: return sicklespan_gs1("(10)A", 5, NULL, modules, 441, shapes);
    case 12: return sicklespan_gs1_unchecked("(10)A", 5, NULL, modules, 441, shapes);
    case 13: return sicklespan_gs1_fault("(10)A", 5, &fault);
    case 14: return sicklespan_link("(10)A", 5, "a.b", 3, NULL, modules, 441, shapes);
    case 15: return sicklespan_link_text("(10)A", 5, "a.b", 3, link_text, 8, &number);
    case 16: return sicklespan_link_fault("(10)A", 5, "a.b", 3, &fault);
    case 17: return sicklespan_check(bytes, "1", 1, NULL, &number);
    case 18: return sicklespan_part_symbol("one", 3, in_two, 1, level, 1, 0, modules, 441, shapes);
    case 19: return sicklespan_sequence("one", 3, in_two, 1, level, 1, modules, 441, shapes);
    case 20: return sicklespan_text_sequence("one", 3, in_two, 1, level, 1, modules, 441, shapes);
    case 21: return sicklespan_cuts("one", 3, level, 1, cuts, SICKLESPAN_MAX_CUTS, &number);
    case 22: return sicklespan_text_cuts("one", 3, level, 1, cuts, SICKLESPAN_MAX_CUTS, &number);
    case 23: return sicklespan_picture(modules, 21, 0, NULL, link_text, 8, &number);
    case 24: return sicklespan_bytes(NULL, 1, NULL, NULL, 1, NULL);
    case 25: return sicklespan_check(-1, NULL, 1, NULL, NULL);
    case 26: return sicklespan_picture(NULL, 0, -1, NULL, NULL, 1, NULL);
    case 27: return sicklespan_cuts(NULL, 1, 9, 0, NULL, 1, NULL);
    case 28: return sicklespan_sequence(NULL, 1, NULL, 99, 9, 0, NULL, 1, NULL);
    case 29: return sicklespan_link_text(NULL, 1, NULL, 1, NULL, 1, NULL);
    default: return -1;
    }
}

/* Every call says that the processor is none for it, and no proved function is called. */
static int is_refused(const char *lacking) {
    const sicklespan_settings wrong = {65, -1, -1, -1, 0, -1, -1};
    int faults = 0;
    fault.element = 77, number = 88, shapes[0].width = -1;
    atomic_store(&processor, NOT_ASKED);
    reached = 0;
    for (size_t i = 0; called(i) != -1; i++) {
        char name[16];
        snprintf(name, sizeof name, "call %d", (int)i);
        expect(called(i) == SICKLESPAN_UNSUPPORTED_PROCESSOR, &faults, name, lacking);
        atomic_store(&processor, NOT_ASKED);
    }
    expect(sicklespan_greatest_size() == 0, &faults, "a size", lacking);
    expect(sicklespan_version_of_width(21) == 0, &faults, "a version", lacking);
    expect(sicklespan_wrong_setting(0, &wrong) == NULL, &faults, "a wrong setting", lacking);
    expect(strcmp(sicklespan_version(), SICKLESPAN_VERSION) == 0, &faults, "no version", lacking);
    expect(reached == 0, &faults, "a proved function is called", lacking);
    expect(fault.element == 77 && number == 88 && shapes[0].width == -1, &faults,
           "something is written", lacking);
    /* It is not asked again. */
    questions = 0;
    (void)called(0);
    expect(questions == 0, &faults, "asked more than once", lacking);
    return faults == 0;
}

/* With all of it each call reaches a proved function, and the processor is asked once, which takes
 * two questions. */
static int is_taken(const char *lacking) {
    int faults = 0;
    atomic_store(&processor, NOT_ASKED);
    questions = 0;
    for (size_t i = 0; i < 24; i++) {
        reached = 0;
        const int32_t status = called(i);
        expect(status != SICKLESPAN_UNSUPPORTED_PROCESSOR && reached > 0, &faults,
               "no proved function is called", lacking);
    }
    reached = 0;
    (void)sicklespan_greatest_size();
    (void)sicklespan_version_of_width(21);
    expect(reached == 2, &faults, "no size", lacking);
    expect(questions == 2, &faults, "asked more than once", lacking);
    return faults == 0;
}

int main(void) {
    int passed = 0;
    const unsigned all_others[] = {0, ~0u};
    for (size_t i = 0; i < 2; i++) {
        others = all_others[i], unknown_leaf = 0;
        for (lacks = 0; lacks < NEEDED; lacks++) passed += is_refused(needed[lacks].name);
        unknown_leaf = 1;
        passed += is_refused("the leaf of SSE");
        unknown_leaf = 0x80000001;
        passed += is_refused("the leaf of LAHF");
        unknown_leaf = 0;
        passed += is_taken("nothing");
    }
    const int failed = 2 * (NEEDED + 3) - passed;
    printf("%d passed, %d failed\n", passed, failed);
    return failed > 0;
}
