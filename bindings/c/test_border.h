/* SPDX-License-Identifier: MIT OR Apache-2.0 */
/* What sicklespan.c passes to the proved functions, a part of test.c. */

/* What is passed to a proved function is no null pointer, and no longer than a slice may be. */
static void expect_slice(const void *at, size_t length, size_t size, int line) {
    expect(at != NULL && length <= PTRDIFF_MAX / size, "a slice that cannot be", line);
}

#define EXPECT_SLICE(at, length) expect_slice((at), (length), sizeof *(at), __LINE__)

int32_t __real_qrcode_c_symbol(const uint8_t *, size_t, int32_t, uint8_t *, size_t,
                               sicklespan_shape *);
int32_t __real_qrcode_c_micro_symbol(const uint8_t *, size_t, int32_t, uint8_t *, size_t,
                                     sicklespan_shape *);
/* The same of the calls with options. */
#define SEES_ASKED(name)                                                                           \
    int32_t __real_##name(const uint8_t *, size_t, const sicklespan_options *, uint8_t *, size_t,  \
                          sicklespan_shape *);                                                     \
    int32_t __wrap_##name(const uint8_t *data, size_t length, const sicklespan_options *options,   \
                          uint8_t *out, size_t room, sicklespan_shape *to) {                       \
        EXPECT_SLICE(data, length);                                                                \
        EXPECT_SLICE(options, 1);                                                                  \
        EXPECT_SLICE(out, room);                                                                   \
        return __real_##name(data, length, options, out, room, to);                                \
    }

/* The same of the calls for cuts. */
#define SEES_CUTS(name)                                                                            \
    int32_t __real_##name(const uint8_t *, size_t, int32_t, int32_t, size_t *, size_t, size_t *);  \
    int32_t __wrap_##name(const uint8_t *message, size_t length, int32_t level,                    \
                          int32_t max_version, size_t *cuts, size_t room, size_t *count) {         \
        EXPECT_SLICE(message, length);                                                             \
        EXPECT_SLICE(cuts, room);                                                                  \
        EXPECT_SLICE(count, 1);                                                                    \
        return __real_##name(message, length, level, max_version, cuts, room, count);              \
    }

/* The same of the calls for all symbols of a message. */
#define SEES_PARTS(name)                                                                           \
    int32_t __real_##name(const uint8_t *, size_t, const size_t *, size_t, int32_t, int32_t,       \
                          uint8_t *, size_t, sicklespan_shape *, size_t);                          \
    int32_t __wrap_##name(const uint8_t *message, size_t length, const size_t *cuts,               \
                          size_t cut_count, int32_t level, int32_t max_version, uint8_t *out,      \
                          size_t room, sicklespan_shape *to, size_t places) {                      \
        EXPECT_SLICE(message, length);                                                             \
        EXPECT_SLICE(cuts, cut_count);                                                             \
        EXPECT_SLICE(out, room);                                                                   \
        EXPECT_SLICE(to, places);                                                                  \
        expect(places == (cut_count < 15 ? cut_count : 15) + 1, "shapes of other parts",           \
               __LINE__);                                                                          \
        return __real_##name(message, length, cuts, cut_count, level, max_version, out, room, to,  \
                             places);                                                              \
    }

SEES_CUTS(qrcode_c_cuts)
SEES_CUTS(qrcode_c_text_cuts)
SEES_PARTS(qrcode_c_sequence)
SEES_PARTS(qrcode_c_text_sequence)

int32_t __real_qrcode_c_picture(const uint8_t *, size_t, size_t, int32_t,
                                const sicklespan_settings *, uint8_t *, size_t, size_t *);

int32_t __wrap_qrcode_c_picture(const uint8_t *grid, size_t size, size_t width, int32_t format,
                                const sicklespan_settings *settings, uint8_t *out, size_t room,
                                size_t *length) {
    EXPECT_SLICE(grid, size);
    EXPECT_SLICE(settings, 1);
    EXPECT_SLICE(out, room);
    EXPECT_SLICE(length, 1);
    expect(size == width * width && (width == 0 || sicklespan_version_of_width((int32_t)width) > 0),
           "modules of another width", __LINE__);
    return __real_qrcode_c_picture(grid, size, width, format, settings, out, room, length);
}

SEES_ASKED(qrcode_c_bytes)
SEES_ASKED(qrcode_c_bytes_without_kanji)
SEES_ASKED(qrcode_c_text)
SEES_ASKED(qrcode_c_smallest_text)
SEES_ASKED(qrcode_c_elements)
SEES_ASKED(qrcode_c_gs1)
SEES_ASKED(qrcode_c_gs1_unchecked)

int32_t __real_qrcode_c_link(const uint8_t *, size_t, const uint8_t *, size_t,
                             const sicklespan_options *, uint8_t *, size_t, sicklespan_shape *);

int32_t __wrap_qrcode_c_link(const uint8_t *text, size_t length, const uint8_t *domain,
                             size_t domain_length, const sicklespan_options *options, uint8_t *out,
                             size_t room, sicklespan_shape *to) {
    EXPECT_SLICE(text, length);
    EXPECT_SLICE(domain, domain_length);
    EXPECT_SLICE(options, 1);
    EXPECT_SLICE(out, room);
    return __real_qrcode_c_link(text, length, domain, domain_length, options, out, room, to);
}

int32_t __real_qrcode_c_link_text(const uint8_t *, size_t, const uint8_t *, size_t, uint8_t *,
                                  size_t, size_t *);

int32_t __wrap_qrcode_c_link_text(const uint8_t *text, size_t length, const uint8_t *domain,
                                  size_t domain_length, uint8_t *link, size_t room, size_t *size) {
    EXPECT_SLICE(text, length);
    EXPECT_SLICE(domain, domain_length);
    EXPECT_SLICE(link, room);
    return __real_qrcode_c_link_text(text, length, domain, domain_length, link, room, size);
}

int32_t __real_qrcode_c_part_symbol(const uint8_t *, size_t, const size_t *, size_t, int32_t,
                                    int32_t, size_t, uint8_t *, size_t, sicklespan_shape *);

int32_t __wrap_qrcode_c_symbol(const uint8_t *bytes, size_t length, int32_t level, uint8_t *out,
                               size_t room, sicklespan_shape *to) {
    EXPECT_SLICE(bytes, length);
    EXPECT_SLICE(out, room);
    return __real_qrcode_c_symbol(bytes, length, level, out, room, to);
}

int32_t __wrap_qrcode_c_micro_symbol(const uint8_t *bytes, size_t length, int32_t level,
                                     uint8_t *out, size_t room, sicklespan_shape *to) {
    EXPECT_SLICE(bytes, length);
    EXPECT_SLICE(out, room);
    return __real_qrcode_c_micro_symbol(bytes, length, level, out, room, to);
}

int32_t __real_qrcode_c_micro_text(const uint8_t *, size_t, int32_t, uint8_t *, size_t,
                                   sicklespan_shape *);

int32_t __wrap_qrcode_c_micro_text(const uint8_t *text, size_t length, int32_t level, uint8_t *out,
                                   size_t room, sicklespan_shape *to) {
    EXPECT_SLICE(text, length);
    EXPECT_SLICE(out, room);
    return __real_qrcode_c_micro_text(text, length, level, out, room, to);
}

int32_t __wrap_qrcode_c_part_symbol(const uint8_t *message, size_t length, const size_t *cuts,
                                    size_t cut_count, int32_t level, int32_t max_version,
                                    size_t index, uint8_t *out, size_t room, sicklespan_shape *to) {
    EXPECT_SLICE(message, length);
    EXPECT_SLICE(cuts, cut_count);
    EXPECT_SLICE(out, room);
    return __real_qrcode_c_part_symbol(message, length, cuts, cut_count, level, max_version, index,
                                       out, room, to);
}
