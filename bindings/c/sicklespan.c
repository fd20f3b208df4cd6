/* SPDX-License-Identifier: MIT OR Apache-2.0 */
/*
 * The border: what C can pass and a slice of Rattle cannot be (null, too long, overlapping) is
 * refused here, so is a processor that the proved functions cannot run on, and the texts of the
 * statuses stand here. What sicklespan_auto chooses, and what sicklespan_check and
 * sicklespan_wrong_setting find, is found here by calls of the proved functions of crates/qrcode_c,
 * which do all else.
 */
#include "sicklespan.h"

#include <stdatomic.h>

/* A test says here what another processor has. */
#ifndef SICKLESPAN_CPUID
#include <cpuid.h>
#define SICKLESPAN_CPUID __get_cpuid
#endif

int32_t qrcode_c_symbol(const uint8_t *bytes, size_t length, int32_t level, uint8_t *modules,
                        size_t room, sicklespan_shape *shape);
int32_t qrcode_c_micro_symbol(const uint8_t *bytes, size_t length, int32_t level, uint8_t *modules,
                              size_t room, sicklespan_shape *shape);
int32_t qrcode_c_bytes(const uint8_t *bytes, size_t length, const sicklespan_options *options,
                       uint8_t *modules, size_t room, sicklespan_shape *shape);
int32_t qrcode_c_bytes_without_kanji(const uint8_t *bytes, size_t length,
                                     const sicklespan_options *options, uint8_t *modules,
                                     size_t room, sicklespan_shape *shape);
int32_t qrcode_c_text(const uint8_t *text, size_t length, const sicklespan_options *options,
                      uint8_t *modules, size_t room, sicklespan_shape *shape);
int32_t qrcode_c_smallest_text(const uint8_t *text, size_t length,
                               const sicklespan_options *options, uint8_t *modules, size_t room,
                               sicklespan_shape *shape);
int32_t qrcode_c_micro_text(const uint8_t *text, size_t length, int32_t level, uint8_t *modules,
                            size_t room, sicklespan_shape *shape);
int32_t qrcode_c_elements(const uint8_t *elements, size_t length, const sicklespan_options *options,
                          uint8_t *modules, size_t room, sicklespan_shape *shape);
int32_t qrcode_c_gs1(const uint8_t *text, size_t length, const sicklespan_options *options,
                     uint8_t *modules, size_t room, sicklespan_shape *shape);
int32_t qrcode_c_gs1_unchecked(const uint8_t *text, size_t length,
                               const sicklespan_options *options, uint8_t *modules, size_t room,
                               sicklespan_shape *shape);
int32_t qrcode_c_link(const uint8_t *text, size_t length, const uint8_t *domain,
                      size_t domain_length, const sicklespan_options *options, uint8_t *modules,
                      size_t room, sicklespan_shape *shape);
int32_t qrcode_c_link_text(const uint8_t *text, size_t length, const uint8_t *domain,
                           size_t domain_length, uint8_t *link, size_t room, size_t *size);
/* The reason is a number from 1, or 0 where it is that of the status. */
struct element_fault {
    size_t element, character;
    int32_t identifier, reason;
};
int32_t qrcode_c_gs1_fault(const uint8_t *text, size_t length, struct element_fault *fault);
int32_t qrcode_c_link_fault(const uint8_t *text, size_t length, const uint8_t *domain,
                            size_t domain_length, struct element_fault *fault);
int32_t qrcode_c_part_symbol(const uint8_t *message, size_t length, const size_t *cuts,
                             size_t cut_count, int32_t level, int32_t max_version, size_t index,
                             uint8_t *modules, size_t room, sicklespan_shape *shape);
int32_t qrcode_c_cuts(const uint8_t *message, size_t length, int32_t level, int32_t max_version,
                      size_t *cuts, size_t room, size_t *count);
int32_t qrcode_c_sequence(const uint8_t *message, size_t length, const size_t *cuts,
                          size_t cut_count, int32_t level, int32_t max_version, uint8_t *modules,
                          size_t room, sicklespan_shape *shapes, size_t places);
int32_t qrcode_c_text_cuts(const uint8_t *text, size_t length, int32_t level, int32_t max_version,
                           size_t *cuts, size_t room, size_t *count);
int32_t qrcode_c_text_sequence(const uint8_t *text, size_t length, const size_t *cuts,
                               size_t cut_count, int32_t level, int32_t max_version,
                               uint8_t *modules, size_t room, sicklespan_shape *shapes,
                               size_t places);
int32_t qrcode_c_picture(const uint8_t *modules, size_t size, size_t width, int32_t format,
                         const sicklespan_settings *settings, uint8_t *picture, size_t room,
                         size_t *length);
size_t qrcode_c_greatest_size(void);
int32_t qrcode_c_version_of_width(size_t width);

/* Whether the processor has all of x86-64-v2, for which the proved functions are compiled. */
static bool has_v2(void) {
    /* SSE3, SSSE3, CMPXCHG16B, SSE4.1, SSE4.2 and POPCNT; LAHF and SAHF. */
    const unsigned basic = 1u | 1u << 9 | 1u << 13 | 1u << 19 | 1u << 20 | 1u << 23, extended = 1;
    unsigned a = 0, b = 0, c = 0, d = 0;
    if (!SICKLESPAN_CPUID(1, &a, &b, &c, &d) || (c & basic) != basic) return false;
    return SICKLESPAN_CPUID(0x80000001, &a, &b, &c, &d) && (c & extended) == extended;
}

enum { NOT_ASKED, IS_SUPPORTED, IS_UNSUPPORTED };
static atomic_int processor = NOT_ASKED;

/* Whether no proved function may be called. The processor is asked once; threads that ask at the
 * same time find the same. */
static bool is_unsupported(void) {
    int found = atomic_load_explicit(&processor, memory_order_relaxed);
    if (found == NOT_ASKED) {
        found = has_v2() ? IS_SUPPORTED : IS_UNSUPPORTED;
        atomic_store_explicit(&processor, found, memory_order_relaxed);
    }
    return found == IS_UNSUPPORTED;
}

/* A part of the caller's memory. */
struct span {
    const void *at;
    size_t size;
};

/* What stands for a null pointer: nothing is read or written there. */
static size_t nowhere;

static bool is_span(struct span it) {
    return it.size <= PTRDIFF_MAX && (it.at != NULL || it.size == 0);
}

static bool overlap(struct span a, struct span b) {
    uintptr_t x = (uintptr_t)a.at, y = (uintptr_t)b.at;
    return a.size > 0 && b.size > 0 && (x <= y ? y - x < a.size : x - y < b.size);
}

/* Whether the pointers are good, and what is written, modules and shape, overlaps with nothing. */
static bool are_good(struct span bytes, struct span rest, struct span modules, struct span shape) {
    return is_span(bytes) && is_span(rest) && is_span(modules) && shape.at != NULL &&
           !overlap(modules, bytes) && !overlap(modules, rest) && !overlap(modules, shape) &&
           !overlap(shape, bytes) && !overlap(shape, rest);
}

static size_t least(size_t a, size_t b) { return a < b ? a : b; }

typedef int32_t draw(const uint8_t *, size_t, int32_t, uint8_t *, size_t, sicklespan_shape *);

static int32_t drawn(draw *by, const uint8_t *bytes, size_t length, int32_t level, uint8_t *modules,
                     size_t room, sicklespan_shape *shape) {
    if (is_unsupported()) return SICKLESPAN_UNSUPPORTED_PROCESSOR;
    room = least(room, SICKLESPAN_MAX_SIZE);
    struct span none = {NULL, 0}, input = {bytes, length};
    struct span output = {modules, room}, about = {shape, sizeof *shape};
    if (!are_good(input, none, output, about)) return SICKLESPAN_INVALID_POINTER;
    if (bytes == NULL) bytes = (const uint8_t *)&nowhere;
    if (modules == NULL) modules = (uint8_t *)&nowhere;
    return by(bytes, length, level, modules, room, shape);
}

int32_t sicklespan_symbol(const uint8_t *bytes, size_t length, int32_t level, uint8_t *modules,
                          size_t room, sicklespan_shape *shape) {
    return drawn(qrcode_c_symbol, bytes, length, level, modules, room, shape);
}

int32_t sicklespan_micro(const void *bytes, size_t length, int32_t level, uint8_t *modules,
                         size_t room, sicklespan_shape *shape) {
    return drawn(qrcode_c_micro_symbol, bytes, length, level, modules, room, shape);
}

int32_t sicklespan_micro_text(const char *text, size_t length, int32_t level, uint8_t *modules,
                              size_t room, sicklespan_shape *shape) {
    return drawn(qrcode_c_micro_text, (const uint8_t *)text, length, level, modules, room, shape);
}

int32_t sicklespan_micro_symbol(const uint8_t *bytes, size_t length, int32_t level,
                                uint8_t *modules, size_t room, sicklespan_shape *shape) {
    return sicklespan_micro(bytes, length, level, modules, room, shape);
}

static const sicklespan_options usual = SICKLESPAN_OPTIONS_INIT;

typedef int32_t draw_asked(const uint8_t *, size_t, const sicklespan_options *, uint8_t *, size_t,
                           sicklespan_shape *);

static int32_t asked(draw_asked *by, const void *data, size_t length,
                     const sicklespan_options *options, uint8_t *modules, size_t room,
                     sicklespan_shape *shape) {
    if (is_unsupported()) return SICKLESPAN_UNSUPPORTED_PROCESSOR;
    room = least(room, SICKLESPAN_MAX_SIZE);
    if (options == NULL) options = &usual;
    struct span input = {data, length}, asks = {options, sizeof *options};
    struct span output = {modules, room}, about = {shape, sizeof *shape};
    if (!are_good(input, asks, output, about)) return SICKLESPAN_INVALID_POINTER;
    if (data == NULL) data = &nowhere;
    if (modules == NULL) modules = (uint8_t *)&nowhere;
    return by(data, length, options, modules, room, shape);
}

int32_t sicklespan_bytes(const void *bytes, size_t length, const sicklespan_options *options,
                         uint8_t *modules, size_t room, sicklespan_shape *shape) {
    return asked(qrcode_c_bytes, bytes, length, options, modules, room, shape);
}

int32_t sicklespan_bytes_without_kanji(const void *bytes, size_t length,
                                       const sicklespan_options *options, uint8_t *modules,
                                       size_t room, sicklespan_shape *shape) {
    return asked(qrcode_c_bytes_without_kanji, bytes, length, options, modules, room, shape);
}

int32_t sicklespan_text(const char *text, size_t length, const sicklespan_options *options,
                        uint8_t *modules, size_t room, sicklespan_shape *shape) {
    return asked(qrcode_c_text, text, length, options, modules, room, shape);
}

int32_t sicklespan_smallest_text(const char *text, size_t length, const sicklespan_options *options,
                                 uint8_t *modules, size_t room, sicklespan_shape *shape) {
    return asked(qrcode_c_smallest_text, text, length, options, modules, room, shape);
}

static bool is_ascii(const uint8_t *bytes, size_t length) {
    for (size_t i = 0; i < length; i++) {
        if (bytes[i] >= 0x80) return false;
    }
    return true;
}

int32_t sicklespan_auto(const void *data, size_t length, const sicklespan_options *options,
                        uint8_t *modules, size_t room, sicklespan_shape *shape) {
    int32_t status = SICKLESPAN_INVALID_TEXT;
    if (is_span((struct span){data, length}) && !is_ascii(data, length)) {
        status = sicklespan_smallest_text(data, length, options, modules, room, shape);
    }
    if (status != SICKLESPAN_INVALID_TEXT) return status;
    return sicklespan_bytes(data, length, options, modules, room, shape);
}

int32_t sicklespan_elements(const void *elements, size_t length, const sicklespan_options *options,
                            uint8_t *modules, size_t room, sicklespan_shape *shape) {
    return asked(qrcode_c_elements, elements, length, options, modules, room, shape);
}

int32_t sicklespan_gs1(const char *text, size_t length, const sicklespan_options *options,
                       uint8_t *modules, size_t room, sicklespan_shape *shape) {
    return asked(qrcode_c_gs1, text, length, options, modules, room, shape);
}

int32_t sicklespan_gs1_unchecked(const char *text, size_t length, const sicklespan_options *options,
                                 uint8_t *modules, size_t room, sicklespan_shape *shape) {
    return asked(qrcode_c_gs1_unchecked, text, length, options, modules, room, shape);
}

/* What is wrong with a value, by the number of the reason. */
static const char *const reasons[] = {
    NULL,
    "the value is too short",
    "the value is too long",
    "a character that is not allowed there",
    "wrong check digit",
    "wrong pair of check characters",
    "the key begins with no GS1 Company Prefix",
    "no such month",
    "no such day",
    "no such hour",
    "no such minute",
    "no such second",
    "no such country",
    "no such currency",
    "neither 0 nor 1",
    "no piece of this total",
    "no direction of winding",
    "not zero",
    "only zeros",
    "a zero before other digits",
    "a percent sign without two hexadecimal digits",
    "no such latitude",
    "no such longitude",
    "not a minus sign",
    "no such media type",
    "no such sex",
    "no place in a sequence",
    "wrong bank account number",
    "no importer index",
};

/* Writes where a fault is, and what it is by its reason or by the status. */
static int32_t told(int32_t status, struct element_fault found, sicklespan_fault *fault) {
    const bool is_of_status = found.reason == 0 || status == SICKLESPAN_EMPTY_VALUE;
    const char *const reason =
        is_of_status ? sicklespan_status_text(status) : reasons[found.reason];
    *fault = (sicklespan_fault){found.element, found.character, found.identifier, reason};
    return status;
}

static const struct element_fault no_place = {0, 0, -1, 0};

/* What stands for a null text. */
static const uint8_t *text_at(const void *text) { return text != NULL ? text : &nowhere; }

int32_t sicklespan_gs1_fault(const char *text, size_t length, sicklespan_fault *fault) {
    if (is_unsupported()) return SICKLESPAN_UNSUPPORTED_PROCESSOR;
    struct span input = {text, length}, none = {NULL, 0}, place = {fault, sizeof *fault};
    if (!are_good(input, none, none, place)) return SICKLESPAN_INVALID_POINTER;
    struct element_fault found = no_place;
    const int32_t status = qrcode_c_gs1_fault(text_at(text), length, &found);
    return told(status, found, fault);
}

int32_t sicklespan_link(const char *text, size_t length, const char *domain, size_t domain_length,
                        const sicklespan_options *options, uint8_t *modules, size_t room,
                        sicklespan_shape *shape) {
    if (is_unsupported()) return SICKLESPAN_UNSUPPORTED_PROCESSOR;
    if (options == NULL) options = &usual;
    room = least(room, SICKLESPAN_MAX_SIZE);
    struct span input = {text, length}, host = {domain, domain_length};
    struct span wish = {options, sizeof *options}, drawn_to = {modules, room};
    struct span about = {shape, sizeof *shape};
    if (!are_good(input, wish, drawn_to, about)) return SICKLESPAN_INVALID_POINTER;
    if (!are_good(host, wish, drawn_to, about)) return SICKLESPAN_INVALID_POINTER;
    uint8_t *const to = modules == NULL ? (uint8_t *)&nowhere : modules;
    return qrcode_c_link(text_at(text), length, text_at(domain), domain_length, options, to, room,
                         shape);
}

int32_t sicklespan_link_text(const char *text, size_t length, const char *domain,
                             size_t domain_length, char *link, size_t room, size_t *size) {
    if (is_unsupported()) return SICKLESPAN_UNSUPPORTED_PROCESSOR;
    struct span input = {text, length}, host = {domain, domain_length};
    struct span written = {link, room}, number = {size, sizeof *size};
    if (!are_good(input, host, written, number)) return SICKLESPAN_INVALID_POINTER;
    uint8_t *const to = link == NULL ? (uint8_t *)&nowhere : (uint8_t *)link;
    return qrcode_c_link_text(text_at(text), length, text_at(domain), domain_length, to, room,
                              size);
}

int32_t sicklespan_link_fault(const char *text, size_t length, const char *domain,
                              size_t domain_length, sicklespan_fault *fault) {
    if (is_unsupported()) return SICKLESPAN_UNSUPPORTED_PROCESSOR;
    struct span input = {text, length}, host = {domain, domain_length};
    struct span none = {NULL, 0}, place = {fault, sizeof *fault};
    if (!are_good(input, host, none, place)) return SICKLESPAN_INVALID_POINTER;
    struct element_fault found = no_place;
    const int32_t status =
        qrcode_c_link_fault(text_at(text), length, text_at(domain), domain_length, &found);
    return told(status, found, fault);
}

/* What a call returns; SICKLESPAN_SHORT_BUFFER stands for success, as there is no room. */
static int32_t tried(int32_t content, const void *data, size_t length,
                     const sicklespan_options *options) {
    sicklespan_shape shape;
    switch (content) {
    case SICKLESPAN_CONTENT_BYTES: return sicklespan_bytes(data, length, options, NULL, 0, &shape);
    case SICKLESPAN_CONTENT_TEXT: return sicklespan_text(data, length, options, NULL, 0, &shape);
    case SICKLESPAN_CONTENT_ELEMENTS:
        return sicklespan_elements(data, length, options, NULL, 0, &shape);
    case SICKLESPAN_CONTENT_GS1: return sicklespan_gs1(data, length, options, NULL, 0, &shape);
    case SICKLESPAN_CONTENT_GS1_UNCHECKED:
        return sicklespan_gs1_unchecked(data, length, options, NULL, 0, &shape);
    case SICKLESPAN_CONTENT_MICRO:
        return sicklespan_micro(data, length, options->level, NULL, 0, &shape);
    case SICKLESPAN_CONTENT_AUTO: return sicklespan_auto(data, length, options, NULL, 0, &shape);
    case SICKLESPAN_CONTENT_SMALLEST_TEXT:
        return sicklespan_smallest_text(data, length, options, NULL, 0, &shape);
    case SICKLESPAN_CONTENT_MICRO_TEXT:
        return sicklespan_micro_text(data, length, options->level, NULL, 0, &shape);
    case SICKLESPAN_CONTENT_BYTES_WITHOUT_KANJI:
        return sicklespan_bytes_without_kanji(data, length, options, NULL, 0, &shape);
    default: return SICKLESPAN_INVALID_CONTENT;
    }
}

/* The end of the whole characters of UTF-8 before a place. */
static size_t end_of_characters(const uint8_t *text, size_t place) {
    for (size_t back = 1; back <= 3 && back <= place; back++) {
        const uint8_t byte = text[place - back];
        if (byte >= 0xc0) {
            const size_t size = byte >= 0xf0 ? 4 : byte >= 0xe0 ? 3 : 2;
            return size > back ? place - back : place;
        }
    }
    return place;
}

/* Whether data are cut between two characters of UTF-8. */
static bool are_characters(int32_t content) {
    return content == SICKLESPAN_CONTENT_TEXT || content == SICKLESPAN_CONTENT_SMALLEST_TEXT ||
           content == SICKLESPAN_CONTENT_MICRO_TEXT;
}

/* The last place at which data may be cut, up to one that is before their end. */
static size_t cut_up_to(int32_t content, const uint8_t *data, size_t place) {
    if (are_characters(content)) return end_of_characters(data, place);
    if (content == SICKLESPAN_CONTENT_ELEMENTS) {
        while (place > 0 && data[place - 1] == 0x1d) place--;
    }
    if (content == SICKLESPAN_CONTENT_GS1 || content == SICKLESPAN_CONTENT_GS1_UNCHECKED) {
        while (place > 0 && data[place] != '(') place--;
    }
    return place;
}

/* Whether a status finds a fault in the data, which their first bytes need not have. */
static bool is_of_data(int32_t status) {
    return status == SICKLESPAN_DATA_TOO_LONG || status == SICKLESPAN_INVALID_TEXT ||
           status == SICKLESPAN_WRONG_VALUE || status == SICKLESPAN_UNWRITABLE_TEXT ||
           (status >= SICKLESPAN_INVALID_CHARACTER && status <= SICKLESPAN_WRONG_CHECK_DIGIT);
}

/* Whether the first bytes of data are good, by what a call returns for them. */
static bool are_good_first(int32_t found, bool is_long) {
    return found == SICKLESPAN_SHORT_BUFFER || found == SICKLESPAN_MISSING_ELEMENT ||
           found == SICKLESPAN_CONFLICTING_ELEMENT ||
           (found == SICKLESPAN_DATA_TOO_LONG && !is_long);
}

int32_t sicklespan_check(int32_t content, const void *data, size_t length,
                         const sicklespan_options *options, size_t *good) {
    if (is_unsupported()) return SICKLESPAN_UNSUPPORTED_PROCESSOR;
    if (options == NULL) options = &usual;
    struct span input = {data, length}, asks = {options, sizeof *options};
    struct span none = {NULL, 0}, number = {good, sizeof *good};
    if (!are_good(input, asks, none, number)) return SICKLESPAN_INVALID_POINTER;
    const int32_t status = tried(content, data, length, options);
    if (status == SICKLESPAN_SHORT_BUFFER) {
        *good = length;
        return SICKLESPAN_OK;
    }
    if (!is_of_data(status)) return status;
    /* What is no text is cut anywhere. */
    const bool is_text =
        content == SICKLESPAN_CONTENT_AUTO &&
        tried(SICKLESPAN_CONTENT_TEXT, data, length, options) != SICKLESPAN_INVALID_TEXT;
    const int32_t cut = is_text ? SICKLESPAN_CONTENT_TEXT : content;
    /* The first `low` bytes are good, and the first `high` ones are not. No symbol holds the
     * elements of 16384 bytes, nor that many bytes. */
    const bool is_long = status == SICKLESPAN_DATA_TOO_LONG;
    /* The first of elements that stand together may need later ones. */
    if (is_long && content == SICKLESPAN_CONTENT_GS1) content = SICKLESPAN_CONTENT_GS1_UNCHECKED;
    size_t low = 0, high = is_long ? least(length, 16384) : length;
    while (high - low > 1) {
        const size_t middle = low + (high - low) / 2, end = cut_up_to(cut, data, middle);
        const int32_t found =
            end > 0 ? tried(content, data, end, options) : SICKLESPAN_SHORT_BUFFER;
        if (found == SICKLESPAN_OUT_OF_MEMORY) return found;
        if (are_good_first(found, is_long)) {
            low = middle;
        } else {
            high = middle;
        }
    }
    *good = low > 0 ? cut_up_to(cut, data, low) : 0;
    return status;
}

int32_t sicklespan_part_symbol(const void *message, size_t length, const size_t *cuts,
                               size_t cut_count, int32_t level, int32_t max_version, size_t index,
                               uint8_t *modules, size_t room, sicklespan_shape *shape) {
    if (is_unsupported()) return SICKLESPAN_UNSUPPORTED_PROCESSOR;
    room = least(room, SICKLESPAN_MAX_SIZE);
    if (cut_count > PTRDIFF_MAX / sizeof *cuts) return SICKLESPAN_INVALID_POINTER;
    struct span input = {message, length}, at = {cuts, cut_count * sizeof *cuts};
    struct span output = {modules, room}, about = {shape, sizeof *shape};
    if (!are_good(input, at, output, about)) return SICKLESPAN_INVALID_POINTER;
    if (message == NULL) message = &nowhere;
    if (cuts == NULL) cuts = &nowhere;
    if (modules == NULL) modules = (uint8_t *)&nowhere;
    return qrcode_c_part_symbol(message, length, cuts, cut_count, level, max_version, index,
                                modules, room, shape);
}

typedef int32_t draw_all(const uint8_t *, size_t, const size_t *, size_t, int32_t, int32_t,
                         uint8_t *, size_t, sicklespan_shape *, size_t);

static int32_t spread(draw_all *by, const void *message, size_t length, const size_t *cuts,
                      size_t cut_count, int32_t level, int32_t max_version, uint8_t *modules,
                      size_t room, sicklespan_shape *shapes) {
    if (is_unsupported()) return SICKLESPAN_UNSUPPORTED_PROCESSOR;
    const size_t most = PTRDIFF_MAX / sizeof *cuts;
    if (cut_count > most) return SICKLESPAN_INVALID_POINTER;
    /* With more parts than 16 nothing is written. */
    const size_t places = least(cut_count, SICKLESPAN_MAX_CUTS) + 1;
    room = least(room, 16 * SICKLESPAN_MAX_SIZE);
    struct span input = {message, length}, ends = {cuts, sizeof *cuts * cut_count};
    struct span all = {modules, room}, about_all = {shapes, places * sizeof *shapes};
    if (!are_good(input, ends, all, about_all)) return SICKLESPAN_INVALID_POINTER;
    if (modules == NULL) modules = (uint8_t *)&nowhere;
    if (message == NULL) message = &nowhere;
    const size_t *const at = cuts != NULL ? cuts : &nowhere;
    return by(message, length, at, cut_count, level, max_version, modules, room, shapes, places);
}

int32_t sicklespan_sequence(const void *message, size_t length, const size_t *cuts,
                            size_t cut_count, int32_t level, int32_t max_version, uint8_t *modules,
                            size_t room, sicklespan_shape *shapes) {
    return spread(qrcode_c_sequence, message, length, cuts, cut_count, level, max_version, modules,
                  room, shapes);
}

int32_t sicklespan_text_sequence(const char *text, size_t length, const size_t *cuts,
                                 size_t cut_count, int32_t level, int32_t max_version,
                                 uint8_t *modules, size_t room, sicklespan_shape *shapes) {
    return spread(qrcode_c_text_sequence, text, length, cuts, cut_count, level, max_version,
                  modules, room, shapes);
}

typedef int32_t find_cuts(const uint8_t *, size_t, int32_t, int32_t, size_t *, size_t, size_t *);

static int32_t found_cuts(find_cuts *by, const void *message, size_t length, int32_t level,
                          int32_t max_version, size_t *cuts, size_t room, size_t *count) {
    if (is_unsupported()) return SICKLESPAN_UNSUPPORTED_PROCESSOR;
    const size_t most = least(room, SICKLESPAN_MAX_CUTS);
    struct span input = {message, length}, nothing = {NULL, 0};
    struct span found = {cuts, most * sizeof *cuts}, number = {count, sizeof *count};
    if (!are_good(input, nothing, found, number)) return SICKLESPAN_INVALID_POINTER;
    const void *const from = message == NULL ? &nowhere : message;
    size_t places[SICKLESPAN_MAX_CUTS], needed = 0;
    const int32_t status =
        by(from, length, level, max_version, places, SICKLESPAN_MAX_CUTS, &needed);
    if (status != SICKLESPAN_OK) return status;
    *count = needed;
    if (needed > room) return SICKLESPAN_SHORT_BUFFER;
    for (size_t i = 0; i < needed; i++) cuts[i] = places[i];
    return SICKLESPAN_OK;
}

int32_t sicklespan_cuts(const void *message, size_t length, int32_t level, int32_t max_version,
                        size_t *cuts, size_t room, size_t *count) {
    return found_cuts(qrcode_c_cuts, message, length, level, max_version, cuts, room, count);
}

int32_t sicklespan_text_cuts(const char *text, size_t length, int32_t level, int32_t max_version,
                             size_t *cuts, size_t room, size_t *count) {
    return found_cuts(qrcode_c_text_cuts, text, length, level, max_version, cuts, room, count);
}

static const sicklespan_settings plain = SICKLESPAN_SETTINGS_INIT;

int32_t sicklespan_picture(const uint8_t *modules, int32_t width, int32_t format,
                           const sicklespan_settings *settings, void *picture, size_t room,
                           size_t *length) {
    if (is_unsupported()) return SICKLESPAN_UNSUPPORTED_PROCESSOR;
    /* No symbol is wider, and of another width nothing is read. */
    const size_t side = sicklespan_version_of_width(width) != 0 ? (size_t)width : 0;
    const size_t size = side * side;
    if (settings == NULL) settings = &plain;
    struct span grid = {modules, size}, look = {settings, sizeof *settings};
    struct span shown = {picture, room}, needed = {length, sizeof *length};
    if (!are_good(grid, look, shown, needed)) return SICKLESPAN_INVALID_POINTER;
    const uint8_t *const from = modules == NULL ? (const uint8_t *)&nowhere : modules;
    uint8_t *const to = picture == NULL ? (uint8_t *)&nowhere : picture;
    sicklespan_settings asked = *settings;
    if (asked.quiet < 0 && side < 21) asked.quiet = 2;
    return qrcode_c_picture(from, size, side, format, &asked, to, room, length);
}

const char *sicklespan_wrong_setting(int32_t format, const sicklespan_settings *settings) {
    static const char *const names[] = {"scale",    "quiet", "module_mm", "dpi",
                                        "inverted", "at_x",  "at_y"};
    /* Of a symbol of the version M1. */
    static const uint8_t modules[11 * 11];
    if (settings == NULL) return NULL;
    sicklespan_settings some = plain;
    int32_t *const members[] = {&some.scale,    &some.quiet, &some.module_mm, &some.dpi,
                                &some.inverted, &some.at_x,  &some.at_y};
    const int32_t given[] = {settings->scale, settings->quiet,    settings->module_mm,
                             settings->dpi,   settings->inverted, settings->at_x,
                             settings->at_y};
    for (size_t i = 0; i < sizeof names / sizeof *names; i++) {
        size_t length;
        *members[i] = given[i];
        if (sicklespan_picture(modules, 11, format, &some, NULL, 0, &length) ==
            SICKLESPAN_INVALID_SETTING) {
            return names[i];
        }
    }
    return NULL;
}

size_t sicklespan_greatest_size(void) { return is_unsupported() ? 0 : qrcode_c_greatest_size(); }

int32_t sicklespan_version_of_width(int32_t width) {
    /* A number below 0 becomes one that is greater than every width. */
    return is_unsupported() ? 0 : qrcode_c_version_of_width((size_t)width);
}

const char *sicklespan_status_text(int32_t status) {
    switch (status) {
    case SICKLESPAN_OK: return "done";
    case SICKLESPAN_DATA_TOO_LONG: return "the data are too long";
    case SICKLESPAN_OUT_OF_MEMORY: return "out of memory";
    case SICKLESPAN_INVALID_LEVEL:
        return "there is no such level, of which Micro symbols have L, M and Q";
    case SICKLESPAN_INVALID_MAX_VERSION: return "the greatest version is not 1 to 40";
    case SICKLESPAN_INVALID_PART_COUNT: return "the parts are not 2 to 16";
    case SICKLESPAN_INVALID_CUTS: return "a cut is none of the message, or out of order";
    case SICKLESPAN_INVALID_INDEX: return "there is no part at the index";
    case SICKLESPAN_SHORT_BUFFER: return "the buffer is too short";
    case SICKLESPAN_INVALID_POINTER: return "a pointer is null, or buffers overlap";
    case SICKLESPAN_INVALID_TEXT: return "the text is not UTF-8";
    case SICKLESPAN_INVALID_VERSIONS: return "the versions are not 1 to 40, in order";
    case SICKLESPAN_INVALID_CHARACTER: return "a character is none of a GS1 element";
    case SICKLESPAN_NO_ELEMENTS: return "the text does not begin with a bracketed identifier";
    case SICKLESPAN_INVALID_IDENTIFIER:
        return "an identifier is not two to four digits in brackets";
    case SICKLESPAN_UNKNOWN_IDENTIFIER: return "an identifier is unknown";
    case SICKLESPAN_EMPTY_VALUE: return "a value is empty, or a bracket is not closed";
    case SICKLESPAN_VALUE_TOO_LONG: return "a value is too long";
    case SICKLESPAN_WRONG_LENGTH: return "the length of a value is wrong";
    case SICKLESPAN_WRONG_CHECK_DIGIT: return "a check digit is wrong";
    case SICKLESPAN_INVALID_WIDTH: return "no symbol has the width";
    case SICKLESPAN_INVALID_FORMAT: return "there is no such format";
    case SICKLESPAN_INVALID_SETTING: return "a setting is out of bounds, or not of the format";
    case SICKLESPAN_INVALID_CONTENT: return "there is no such content";
    case SICKLESPAN_WRONG_VALUE: return "a value is none that its identifier allows";
    case SICKLESPAN_WRONG_DOMAIN: return "the domain is no host name, or its port or path is wrong";
    case SICKLESPAN_NO_KEY: return "no element is the key of a link, as (01), (00) or (414) are";
    case SICKLESPAN_SECOND_KEY: return "a link has one key, and there is another";
    case SICKLESPAN_WRONG_QUALIFIER:
        return "a qualifier of the key may not stand beside another one";
    case SICKLESPAN_REPEATED_ELEMENT: return "an identifier stands twice in a link";
    case SICKLESPAN_MISSING_ELEMENT: return "an element that has to stand beside it is missing";
    case SICKLESPAN_CONFLICTING_ELEMENT: return "an element may not stand beside another one";
    case SICKLESPAN_UNWRITABLE_TEXT: return "no Micro symbol is read as the text";
    case SICKLESPAN_UNSUPPORTED_PROCESSOR:
        return "the processor lacks x86-64-v2, which the library needs";
    default: return "unknown status";
    }
}

const char *sicklespan_version(void) { return SICKLESPAN_VERSION; }
