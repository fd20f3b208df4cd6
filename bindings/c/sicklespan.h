/* SPDX-License-Identifier: MIT OR Apache-2.0 */
/*
 * Sicklespan: QR and Micro QR symbols by a library that is proved. Where it is installed:
 *
 *     cc program.c $(pkg-config --cflags --libs sicklespan) -o program
 *
 * Each function may be called from several threads at once, on buffers of their own. It keeps
 * nothing: all memory that it takes by malloc is freed when it returns, and the caller owns every
 * buffer that it passes. Since they call malloc, no functions but sicklespan_status_text and
 * sicklespan_version may be called from a signal handler. In the child that a process with threads
 * forks they may be called where malloc may be, as that of the GNU C library.
 *
 * The library needs a processor with x86-64-v2 (SSE4.2 and POPCNT; every one since about 2013). On
 * any other, each function that returns a status returns SICKLESPAN_UNSUPPORTED_PROCESSOR, before
 * any other status, and writes nothing.
 */
#ifndef SICKLESPAN_H
#define SICKLESPAN_H

#include <stdbool.h>
#include <stddef.h>
#include <stdint.h>

#define SICKLESPAN_VERSION "0.5.0"

#ifdef __cplusplus
extern "C" {
#endif

/* How much damage can be corrected: about 7, 15, 25 and 30 percent. */
enum sicklespan_level {
    SICKLESPAN_LEVEL_L = 0,
    SICKLESPAN_LEVEL_M = 1,
    SICKLESPAN_LEVEL_Q = 2,
    SICKLESPAN_LEVEL_H = 3
};

/* What a call returns. */
enum sicklespan_status {
    SICKLESPAN_OK = 0,
    SICKLESPAN_DATA_TOO_LONG = 1, /* the bytes fit no symbol that was asked for */
    SICKLESPAN_OUT_OF_MEMORY = 2, /* malloc found no memory */
    SICKLESPAN_INVALID_LEVEL = 3, /* the level is not 0 to 3, or it is 3 and the symbol is Micro */
    SICKLESPAN_INVALID_MAX_VERSION = 4, /* the greatest version is not 1 to 40 */
    SICKLESPAN_INVALID_PART_COUNT = 5,  /* the parts are not 2 to 16 */
    SICKLESPAN_INVALID_CUTS = 6,    /* a cut is below the one before it, above the length, or in the
                                     * middle of a character of a text */
    SICKLESPAN_INVALID_INDEX = 7,   /* there are no more parts than the index */
    SICKLESPAN_SHORT_BUFFER = 8,    /* there is not room enough for what is to be written */
    SICKLESPAN_INVALID_POINTER = 9, /* see below */
    SICKLESPAN_INVALID_TEXT = 10,   /* the text is not UTF-8 */
    SICKLESPAN_INVALID_VERSIONS = 11,   /* the versions are not 1 to 40, or not in order */
    SICKLESPAN_INVALID_CHARACTER = 12,  /* a byte is no character of a GS1 element */
    SICKLESPAN_NO_ELEMENTS = 13,        /* the text does not begin with a bracketed identifier */
    SICKLESPAN_INVALID_IDENTIFIER = 14, /* an identifier is not two to four digits in brackets */
    SICKLESPAN_UNKNOWN_IDENTIFIER = 15, /* an identifier is not assigned */
    SICKLESPAN_EMPTY_VALUE = 16,        /* an element has no value, or no bracket before it */
    SICKLESPAN_VALUE_TOO_LONG = 17,     /* a value has more characters than it may have */
    SICKLESPAN_WRONG_LENGTH = 18,       /* a value is too short, or has another length than one
                                         * that is fixed */
    SICKLESPAN_WRONG_CHECK_DIGIT = 19,  /* a check digit, or a pair of check characters, is wrong */
    SICKLESPAN_INVALID_WIDTH = 20,      /* no symbol has the width */
    SICKLESPAN_INVALID_FORMAT = 21,     /* the format is not 0 to 7 */
    SICKLESPAN_INVALID_SETTING = 22,    /* a setting is out of its bounds, or not of the format */
    SICKLESPAN_INVALID_CONTENT = 23,    /* the content is not 0 to 9 */
    SICKLESPAN_WRONG_VALUE = 24,        /* a value is wrong in another way: no such date, say */
    SICKLESPAN_WRONG_DOMAIN = 25,  /* the domain is no host name, or its port or path is wrong */
    SICKLESPAN_NO_KEY = 26,             /* no element is the key of a link, as (01) or (00) are */
    SICKLESPAN_SECOND_KEY = 27,         /* an element is a key of links, and another after it */
    SICKLESPAN_WRONG_QUALIFIER = 28,  /* a qualifier of the key may not stand beside another one */
    SICKLESPAN_REPEATED_ELEMENT = 29, /* an identifier stands twice in a link */
    SICKLESPAN_MISSING_ELEMENT = 30,  /* an element needs one that is not there */
    SICKLESPAN_CONFLICTING_ELEMENT = 31,  /* an element may not stand beside another one */
    SICKLESPAN_UNWRITABLE_TEXT = 32,      /* no Micro symbol is read as the text */
    SICKLESPAN_UNSUPPORTED_PROCESSOR = 33 /* the processor lacks x86-64-v2; see above */
};

/* What is asked of a symbol beside its data: its level, the versions that it may have, and whether
 * it is to have the greatest level that costs no module. Where a call has options, a null pointer
 * stands for those of SICKLESPAN_OPTIONS_INIT. */
typedef struct sicklespan_options {
    int32_t level;       /* a sicklespan_level; with `strongest` the least one */
    int32_t min_version; /* the least version, 1 to 40 */
    int32_t max_version; /* the greatest version, 1 to 40 */
    int32_t strongest;   /* if it is not 0: the greatest level at which the symbol is no larger */
} sicklespan_options;

/* Level M, the versions 1 to 40, not the strongest:
 *     sicklespan_options options = SICKLESPAN_OPTIONS_INIT; */
#define SICKLESPAN_OPTIONS_INIT                                                                    \
    { SICKLESPAN_LEVEL_M, 1, 40, 0 }

/* What a symbol is, beside its modules. */
typedef struct sicklespan_shape {
    int32_t width;   /* modules a side: 21 to 177, and 11 to 17 of a Micro symbol */
    int32_t version; /* 1 to 40, and 1 to 4 of a Micro symbol */
    int32_t mask;    /* the number of the mask pattern: 0 to 7, and 0 to 3 of a Micro symbol */
    bool micro;
    int8_t level; /* a sicklespan_level: that of the options, or with `strongest` a greater one */
} sicklespan_shape;

/* The largest symbol has this many modules: a buffer of as many bytes is never too short. */
#define SICKLESPAN_MAX_SIZE (177 * 177)

/*
 * The functions below write the modules of a symbol to `modules`, which has `room` bytes: a byte
 * for each of width * width modules, row by row from the upper left corner, 1 for a dark module and
 * 0 for a light one, without the quiet zone (4 modules wide, 2 around a Micro symbol). They write
 * the shape, and return SICKLESPAN_OK. On an error they write nothing. The bytes of `modules`
 * after the symbol keep their values in either case.
 *
 * A pointer may be null where its length is 0, and so may `options`. They return
 * SICKLESPAN_INVALID_POINTER, before the other statuses, where another pointer or `shape` is null,
 * where a length is above PTRDIFF_MAX, and where `shape` or the first SICKLESPAN_MAX_SIZE bytes of
 * `modules` overlap with something else that is passed. The other statuses are tested in the order
 * in which they are listed.
 */

/*
 * The best symbol of some bytes at the level of the options: in the smallest of their versions into
 * which the bytes fit, in the fewest bits, under the best mask. With `strongest` it is the best one
 * at the greatest level at which it is no larger. The bytes may be any, also none. The symbol does
 * not say which characters they are, and pairs of them go in the Kanji mode: where they are UTF-8
 * beyond ASCII, readers may show other characters.
 *
 * SICKLESPAN_INVALID_LEVEL, SICKLESPAN_INVALID_VERSIONS, SICKLESPAN_DATA_TOO_LONG (exactly where
 * they fit no version up to the greatest at the level), SICKLESPAN_OUT_OF_MEMORY,
 * SICKLESPAN_SHORT_BUFFER.
 */
int32_t sicklespan_bytes(const void *bytes, size_t length, const sicklespan_options *options,
                         uint8_t *modules, size_t room, sicklespan_shape *shape);

/*
 * The smallest symbol of some bytes in which no segment is in the Kanji mode, for readers that show
 * a pair of bytes in that mode as another character. Level, versions, `strongest` and statuses are
 * as of sicklespan_bytes, of all ways to cut the bytes into segments of the other modes.
 */
int32_t sicklespan_bytes_without_kanji(const void *bytes, size_t length,
                                       const sicklespan_options *options, uint8_t *modules,
                                       size_t room, sicklespan_shape *shape);

/*
 * The best symbol of what people write: of UTF-8 that is not all ASCII that of
 * sicklespan_smallest_text, and of all else, ASCII too, that of sicklespan_bytes. `qrlabel` does
 * the same, and so do Symbol::new of Rust and, of a str, make of Python. The statuses are those of
 * sicklespan_bytes.
 */
int32_t sicklespan_auto(const void *data, size_t length, const sicklespan_options *options,
                        uint8_t *modules, size_t room, sicklespan_shape *shape);

/*
 * The smallest symbol of a text, whose `length` bytes are UTF-8: in the modes, and after the ECI
 * designators of ISO/IEC 8859 (but parts 10 and 14), Shift JIS and UTF-8, that take the fewest
 * bits. A reader that follows the standard finds the text in it, and no symbol that is read as the
 * text, at the level, is smaller. Some readers also take ISO/IEC 8859-1 without a designator, pairs
 * in the Kanji mode after one, or other character sets, such as Big5 and GB 18030: no use is made
 * of these, with which a symbol may be smaller. Level, versions and `strongest` are as of
 * sicklespan_bytes.
 *
 * SICKLESPAN_INVALID_LEVEL, SICKLESPAN_INVALID_VERSIONS, SICKLESPAN_INVALID_TEXT,
 * SICKLESPAN_DATA_TOO_LONG (only where nothing that is read as the text fits a version up to the
 * greatest at the level), SICKLESPAN_OUT_OF_MEMORY, SICKLESPAN_SHORT_BUFFER.
 */
int32_t sicklespan_smallest_text(const char *text, size_t length, const sicklespan_options *options,
                                 uint8_t *modules, size_t room, sicklespan_shape *shape);

/*
 * What sicklespan_bytes draws, of a text in UTF-8, which the symbol says (ECI 26), so that readers
 * need not guess its script: for readers that know no other designator. This takes 12 bits: ASCII
 * is read alike without it, by sicklespan_bytes. `length` counts bytes.
 *
 * After SICKLESPAN_INVALID_VERSIONS: SICKLESPAN_INVALID_TEXT.
 */
int32_t sicklespan_text(const char *text, size_t length, const sicklespan_options *options,
                        uint8_t *modules, size_t room, sicklespan_shape *shape);

/*
 * The same of GS1 elements (FNC1 in the first position): identifiers with their values, one after
 * the other, with the byte 1D (hex) after each whose length is not fixed, but the last.
 *
 * After SICKLESPAN_INVALID_VERSIONS: SICKLESPAN_INVALID_CHARACTER.
 */
int32_t sicklespan_elements(const void *elements, size_t length, const sicklespan_options *options,
                            uint8_t *modules, size_t room, sicklespan_shape *shape);

/*
 * The same of elements as people write them: "(01)09506000134352(10)ABC123". Each element is tested
 * by the table of identifiers of the GS1 General Specifications, release 25 (January 2025): its
 * identifier is assigned, and its value has the length, the characters, the check digit, the date,
 * the country and what else the table asks for. The elements stand together: beside each are those
 * that it needs, as a batch (10) needs a trade item (01), and none that it excludes; and an
 * identifier that stands twice has one value. A value has no `(`, with which the next identifier
 * begins.
 *
 * After SICKLESPAN_INVALID_VERSIONS: SICKLESPAN_INVALID_TEXT, SICKLESPAN_NO_ELEMENTS, and of the
 * first element that has a fault the first of SICKLESPAN_INVALID_IDENTIFIER,
 * SICKLESPAN_UNKNOWN_IDENTIFIER and, of its value from the left, SICKLESPAN_EMPTY_VALUE,
 * SICKLESPAN_WRONG_LENGTH (it ends too early), SICKLESPAN_INVALID_CHARACTER,
 * SICKLESPAN_WRONG_CHECK_DIGIT, SICKLESPAN_WRONG_VALUE, SICKLESPAN_VALUE_TOO_LONG; then
 * SICKLESPAN_DATA_TOO_LONG (a text of more than 11815 bytes), and of the first that may not stand
 * beside the others SICKLESPAN_MISSING_ELEMENT, SICKLESPAN_CONFLICTING_ELEMENT.
 */
int32_t sicklespan_gs1(const char *text, size_t length, const sicklespan_options *options,
                       uint8_t *modules, size_t room, sicklespan_shape *shape);

/*
 * The same, for identifiers that are newer than the table: elements are tested for what a reader
 * needs alone. That is the number of an identifier's digits by its first two, the characters, the
 * predefined lengths (identifiers that begin with 00 to 04, 11 to 20, 31 to 36 or 41), and the
 * check digits of 00, 01, 02 and 410 to 417. What else GS1 says of a value, its greatest length,
 * say, or a date, is not tested, nor which elements stand together.
 *
 * After SICKLESPAN_INVALID_VERSIONS: SICKLESPAN_INVALID_TEXT, SICKLESPAN_NO_ELEMENTS, and of the
 * first element that has a fault SICKLESPAN_INVALID_IDENTIFIER, SICKLESPAN_UNKNOWN_IDENTIFIER,
 * SICKLESPAN_EMPTY_VALUE, SICKLESPAN_VALUE_TOO_LONG (more than 90 characters),
 * SICKLESPAN_INVALID_CHARACTER, SICKLESPAN_WRONG_LENGTH, SICKLESPAN_WRONG_CHECK_DIGIT.
 */
int32_t sicklespan_gs1_unchecked(const char *text, size_t length, const sicklespan_options *options,
                                 uint8_t *modules, size_t room, sicklespan_shape *shape);

/* Where elements as people write them have a fault. */
typedef struct sicklespan_fault {
    size_t element;     /* the number of the element, from 1; 0 where it is none of an element */
    size_t character;   /* the character of its value, from 1; 0 where it is none of a value */
    int32_t identifier; /* its identifier as a number, 1 of "(01)"; -1 where it is not known */
    const char *reason; /* what is wrong, in a few words; the text is static, and never null */
} sicklespan_fault;

/*
 * What sicklespan_gs1 finds in elements, and where: it returns the status of the first fault, or
 * SICKLESPAN_OK, and writes the fault.
 *
 * SICKLESPAN_INVALID_POINTER as above, of `fault`, with which nothing is written; the statuses of
 * sicklespan_gs1 for a fault of the text. Nothing is allocated.
 */
int32_t sicklespan_gs1_fault(const char *text, size_t length, sicklespan_fault *fault);

/*
 * The symbol of the GS1 Digital Link of elements as people write them, as sicklespan_bytes draws
 * it: of "(17)261231(10)ABC(01)09506000134352" and the domain "id.gs1.org" that of
 * "https://id.gs1.org/01/09506000134352/10/ABC?17=261231". The key comes first, then its
 * qualifiers, and the other elements as a query. The elements are tested as sicklespan_gs1 does it.
 * The domain is a host name of letters, digits, `-` and `.`, with a port or without, and with the
 * path at which the link begins or without: "example.com/shop".
 *
 * After SICKLESPAN_INVALID_VERSIONS: SICKLESPAN_INVALID_TEXT, SICKLESPAN_DATA_TOO_LONG (a text of
 * more than 11815 bytes), those of sicklespan_gs1 for a fault of the elements,
 * SICKLESPAN_WRONG_DOMAIN, SICKLESPAN_NO_KEY, and of the first element that has a fault
 * SICKLESPAN_WRONG_QUALIFIER, SICKLESPAN_SECOND_KEY, SICKLESPAN_REPEATED_ELEMENT; and of the first
 * that may not stand beside the others SICKLESPAN_MISSING_ELEMENT, SICKLESPAN_CONFLICTING_ELEMENT.
 */
int32_t sicklespan_link(const char *text, size_t length, const char *domain, size_t domain_length,
                        const sicklespan_options *options, uint8_t *modules, size_t room,
                        sicklespan_shape *shape);

/*
 * The link itself. It is written to `link`, which has `room` bytes, and the number of its bytes to
 * `size`; the bytes after it keep their values, and it ends with no 0. On an error nothing is
 * written, except that a SICKLESPAN_SHORT_BUFFER writes `size`: a call with the room 0 asks how
 * much a second one needs.
 *
 * SICKLESPAN_INVALID_POINTER as above, of the `room` bytes of `link` and of `size`; the statuses of
 * sicklespan_link for a fault of the text and the domain; SICKLESPAN_OUT_OF_MEMORY,
 * SICKLESPAN_SHORT_BUFFER.
 */
int32_t sicklespan_link_text(const char *text, size_t length, const char *domain,
                             size_t domain_length, char *link, size_t room, size_t *size);

/* What sicklespan_link finds in elements and a domain, and where, as sicklespan_gs1_fault says it
 * of sicklespan_gs1. */
int32_t sicklespan_link_fault(const char *text, size_t length, const char *domain,
                              size_t domain_length, sicklespan_fault *fault);

/*
 * The best Micro symbol of some bytes at a level, in M1 to M4. None of them has level H, which is
 * SICKLESPAN_INVALID_LEVEL. None says in which character set bytes that are not ASCII are, so that
 * readers may show other characters.
 *
 * SICKLESPAN_INVALID_LEVEL, SICKLESPAN_DATA_TOO_LONG, SICKLESPAN_OUT_OF_MEMORY,
 * SICKLESPAN_SHORT_BUFFER.
 */
int32_t sicklespan_micro(const void *bytes, size_t length, int32_t level, uint8_t *modules,
                         size_t room, sicklespan_shape *shape);

/*
 * The smallest Micro symbol of a text, whose `length` bytes are UTF-8. It has no ECI designators:
 * its characters are those of ASCII alone, or those of the Kanji mode and of ASCII but `\` and `~`,
 * for which some readers show other signs there. Every other text is SICKLESPAN_UNWRITABLE_TEXT.
 *
 * SICKLESPAN_INVALID_LEVEL, SICKLESPAN_INVALID_TEXT, SICKLESPAN_UNWRITABLE_TEXT (only where no
 * Micro symbol is read as the text), SICKLESPAN_DATA_TOO_LONG (only where nothing that is read
 * as it fits any of M1 to M4 at the level), SICKLESPAN_OUT_OF_MEMORY, SICKLESPAN_SHORT_BUFFER.
 */
int32_t sicklespan_micro_text(const char *text, size_t length, int32_t level, uint8_t *modules,
                              size_t room, sicklespan_shape *shape);

/* What data are, by the call that takes them. */
enum sicklespan_content {
    SICKLESPAN_CONTENT_BYTES = 0,         /* sicklespan_bytes */
    SICKLESPAN_CONTENT_TEXT = 1,          /* sicklespan_text */
    SICKLESPAN_CONTENT_ELEMENTS = 2,      /* sicklespan_elements */
    SICKLESPAN_CONTENT_GS1 = 3,           /* sicklespan_gs1 */
    SICKLESPAN_CONTENT_MICRO = 4,         /* sicklespan_micro, with the level of the options */
    SICKLESPAN_CONTENT_AUTO = 5,          /* sicklespan_auto */
    SICKLESPAN_CONTENT_GS1_UNCHECKED = 6, /* sicklespan_gs1_unchecked */
    SICKLESPAN_CONTENT_SMALLEST_TEXT = 7, /* sicklespan_smallest_text */
    SICKLESPAN_CONTENT_MICRO_TEXT = 8,    /* sicklespan_micro_text, with the level of the options */
    SICKLESPAN_CONTENT_BYTES_WITHOUT_KANJI = 9 /* sicklespan_bytes_without_kanji */
};

/*
 * What the call of a content returns for some data where there is room enough, and how many of
 * their first bytes are good. Of SICKLESPAN_OK these are all. After SICKLESPAN_DATA_TOO_LONG
 * `length - *good` bytes are too many: the call takes the first `*good` ones, and no more of them
 * up to the next place where they may be cut. Of the statuses that find a fault in the data, the
 * first one begins at the byte `*good`. Bytes may be cut anywhere, a text between two characters,
 * what people write of GS1 before an element; what readers find does not end with a separator. Of
 * SICKLESPAN_CONTENT_AUTO more of the first bytes may fit than `*good`, if the data are no text,
 * but a part of them is one. Which elements stand together is not asked of the first bytes.
 *
 * It takes the time of about 15 symbols, and for a fault in n bytes that of looking through them
 * log2(n) times.
 *
 * SICKLESPAN_INVALID_POINTER as above, of `good`; SICKLESPAN_INVALID_CONTENT, and the statuses of
 * the call. Only with SICKLESPAN_OK, SICKLESPAN_DATA_TOO_LONG, SICKLESPAN_INVALID_TEXT,
 * SICKLESPAN_UNWRITABLE_TEXT and those of the values of GS1 elements is `good` written, and not
 * with SICKLESPAN_MISSING_ELEMENT and SICKLESPAN_CONFLICTING_ELEMENT.
 */
int32_t sicklespan_check(int32_t content, const void *data, size_t length,
                         const sicklespan_options *options, size_t *good);

/*
 * One of the 2 to 16 symbols that carry a message together (Structured Append), the one at `index`,
 * counted from 0. Part i of the message ends at cuts[i] and the last one at its end, so there is
 * one cut less than there are parts; they may be empty. Each symbol is the best for its part in the
 * versions 1 to `max_version`, where its header takes 20 bits. The other parts are tested, and not
 * drawn.
 *
 * SICKLESPAN_INVALID_LEVEL, SICKLESPAN_INVALID_CUTS, SICKLESPAN_INVALID_INDEX,
 * SICKLESPAN_INVALID_MAX_VERSION, SICKLESPAN_INVALID_PART_COUNT, SICKLESPAN_DATA_TOO_LONG (exactly
 * where some part fits none of the versions), SICKLESPAN_OUT_OF_MEMORY, SICKLESPAN_SHORT_BUFFER.
 */
int32_t sicklespan_part_symbol(const void *message, size_t length, const size_t *cuts,
                               size_t cut_count, int32_t level, int32_t max_version, size_t index,
                               uint8_t *modules, size_t room, sicklespan_shape *shape);

/*
 * All symbols of a sequence, each drawn once: the modules of the first, then those of the second,
 * and so on, and a shape for each of the cut_count + 1 parts. `modules` needs at most
 * (17 + 4 * max_version)^2 bytes a part.
 *
 * The statuses of sicklespan_part_symbol but for SICKLESPAN_INVALID_INDEX, and
 * SICKLESPAN_INVALID_POINTER as above, of all `shapes` and of the first 16 * SICKLESPAN_MAX_SIZE
 * bytes of `modules`.
 */
int32_t sicklespan_sequence(const void *message, size_t length, const size_t *cuts,
                            size_t cut_count, int32_t level, int32_t max_version, uint8_t *modules,
                            size_t room, sicklespan_shape *shapes);

/*
 * The same of a text in UTF-8, which each symbol says (ECI 26). Each cut is between two characters,
 * so that each symbol has whole ones; another one is SICKLESPAN_INVALID_CUTS too.
 *
 * After SICKLESPAN_INVALID_LEVEL: SICKLESPAN_INVALID_TEXT.
 */
int32_t sicklespan_text_sequence(const char *text, size_t length, const size_t *cuts,
                                 size_t cut_count, int32_t level, int32_t max_version,
                                 uint8_t *modules, size_t room, sicklespan_shape *shapes);

/* The symbols of a sequence are at most 16, so that a buffer for 15 cuts is never too short. */
#define SICKLESPAN_MAX_CUTS 15

/*
 * The cuts by which sicklespan_sequence needs the fewest symbols of versions up to `max_version`.
 * They are written to `cuts`, which has `room` places, and their number to `count`; the places
 * after them keep their values. On an error nothing is written, except that a
 * SICKLESPAN_SHORT_BUFFER writes `count`: a call with the room 0 asks how many there are. A message
 * that fits one symbol after a header has no cuts, and needs no sequence. No pair of the Kanji mode
 * is cut.
 *
 * SICKLESPAN_INVALID_POINTER as above, of the first SICKLESPAN_MAX_CUTS places of `cuts` and of
 * `count`; SICKLESPAN_INVALID_LEVEL, SICKLESPAN_INVALID_MAX_VERSION, SICKLESPAN_DATA_TOO_LONG
 * (exactly where no cuts make at most 16 parts that fit), SICKLESPAN_OUT_OF_MEMORY,
 * SICKLESPAN_SHORT_BUFFER.
 */
int32_t sicklespan_cuts(const void *message, size_t length, int32_t level, int32_t max_version,
                        size_t *cuts, size_t room, size_t *count);

/*
 * The same of a text in UTF-8, for sicklespan_text_sequence: each cut is between two characters.
 *
 * After SICKLESPAN_INVALID_LEVEL: SICKLESPAN_INVALID_TEXT.
 */
int32_t sicklespan_text_cuts(const char *text, size_t length, int32_t level, int32_t max_version,
                             size_t *cuts, size_t room, size_t *count);

/* The formats of pictures. */
enum sicklespan_format {
    SICKLESPAN_FORMAT_TERMINAL = 0, /* text in half blocks of Unicode, in UTF-8 */
    SICKLESPAN_FORMAT_SVG = 1,
    SICKLESPAN_FORMAT_PNG = 2,    /* one bit a pixel */
    SICKLESPAN_FORMAT_PBM = 3,    /* a portable bitmap, in its binary form (P4 of Netpbm) */
    SICKLESPAN_FORMAT_EPS = 4,    /* Encapsulated PostScript */
    SICKLESPAN_FORMAT_ESCPOS = 5, /* raster images of ESC/POS (GS v 0), for ticket printers */
    SICKLESPAN_FORMAT_ZPL = 6,    /* a label of ZPL II (^GF), for label printers */
    SICKLESPAN_FORMAT_PDF = 7     /* a document of PDF 1.4, of one page as large as the picture */
};

/* What is asked of a picture. A number below 0 stands for the default, but for `inverted`. */
typedef struct sicklespan_settings {
    int32_t scale;     /* the width of a module in pixels, 1 to 64: 8 by default, and 1 of text */
    int32_t quiet;     /* the width of the quiet zone in modules, 0 to 16: 4 by default, and 2
                        * around a Micro symbol */
    int32_t module_mm; /* of SVG, PNG, EPS and PDF: a module in hundredths of a millimetre, 5 to
                        * 1000 */
    int32_t dpi;       /* of PNG, not beside module_mm: the pixels in an inch, 50 to 2400; of ZPL,
                        * whose labels stay the same */
    int32_t inverted;  /* of text: if it is not 0, the light pixels are filled, for a dark screen */
    int32_t at_x;      /* of ZPL: the column of the upper left corner in dots, 0 to 18000 */
    int32_t at_y;      /* of ZPL: its row; with one of both the other is 0 */
} sicklespan_settings;

/* All by default:
 *     sicklespan_settings settings = SICKLESPAN_SETTINGS_INIT; */
#define SICKLESPAN_SETTINGS_INIT                                                                   \
    { -1, -1, -1, -1, 0, -1, -1 }

/*
 * The picture of a symbol in a format, with its quiet zone, as the settings ask for it.
 *
 * `modules` are those of a symbol with this width, as the calls above write them: width * width
 * bytes, 0 for a light module and any other for a dark one. The picture is written to `picture`,
 * which has `room` bytes, and the number of its bytes to `length`; the bytes after it keep their
 * values. It ends with no 0. On an error nothing is written, except that a
 * SICKLESPAN_SHORT_BUFFER writes `length`: a call with the room 0 asks how much a second one needs.
 *
 * SICKLESPAN_INVALID_POINTER, before any other status, where `modules` is null and a symbol has the
 * width, where `picture` is null and `room` is not 0, where `length` is null, where `room` is above
 * PTRDIFF_MAX, and where `length` or the `room` bytes of `picture` overlap with something else that
 * is passed. `settings` may be null, which stands for those of SICKLESPAN_SETTINGS_INIT. Then
 * SICKLESPAN_INVALID_WIDTH, SICKLESPAN_INVALID_FORMAT, SICKLESPAN_INVALID_SETTING (also for a
 * setting that the format does not have), SICKLESPAN_OUT_OF_MEMORY, SICKLESPAN_SHORT_BUFFER.
 */
int32_t sicklespan_picture(const uint8_t *modules, int32_t width, int32_t format,
                           const sicklespan_settings *settings, void *picture, size_t room,
                           size_t *length);

/*
 * The name of the first of the settings that is out of its bounds, or that the format does not
 * have: that of a member of sicklespan_settings, as "scale". The text is static. It is a null
 * pointer where sicklespan_picture of a symbol does not return SICKLESPAN_INVALID_SETTING, and also
 * for null settings.
 */
const char *sicklespan_wrong_setting(int32_t format, const sicklespan_settings *settings);

/* SICKLESPAN_MAX_SIZE, for callers that do not read this file; 0 on a processor without x86-64-v2.
 */
size_t sicklespan_greatest_size(void);

/* The number of the version with this many modules a side: 1 to 40, or 1 to 4 for the widths 11 to
 * 17; else 0, and on a processor without x86-64-v2. */
int32_t sicklespan_version_of_width(int32_t width);

/* What a status says, in a few words. The text is static, and never null: other numbers are
 * "unknown status". */
const char *sicklespan_status_text(int32_t status);

/* SICKLESPAN_VERSION of the library, which may be another than that of this file. */
const char *sicklespan_version(void);

/*
 * Names of version 0.3, which libsicklespan.so.1 will not have. sicklespan_symbol is
 * sicklespan_bytes with a level, in the versions 1 to 40; sicklespan_micro_symbol is
 * sicklespan_micro.
 */
#define SICKLESPAN_DONE          SICKLESPAN_OK
#define SICKLESPAN_GREATEST_SIZE SICKLESPAN_MAX_SIZE
int32_t sicklespan_symbol(const uint8_t *bytes, size_t length, int32_t level, uint8_t *modules,
                          size_t room, sicklespan_shape *shape);
int32_t sicklespan_micro_symbol(const uint8_t *bytes, size_t length, int32_t level,
                                uint8_t *modules, size_t room, sicklespan_shape *shape);

#ifdef __cplusplus
}
#endif

#endif
