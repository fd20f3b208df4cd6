/* SPDX-License-Identifier: MIT OR Apache-2.0 */
/* The texts of the statuses, and the versions of widths, a part of test.c. */

static void test_words(void) {
    static const char *const texts[] = {
        [SICKLESPAN_OK] = "done",
        [SICKLESPAN_DATA_TOO_LONG] = "the data are too long",
        [SICKLESPAN_OUT_OF_MEMORY] = "out of memory",
        [SICKLESPAN_INVALID_LEVEL] =
            "there is no such level, of which Micro symbols have L, M and Q",
        [SICKLESPAN_INVALID_MAX_VERSION] = "the greatest version is not 1 to 40",
        [SICKLESPAN_INVALID_PART_COUNT] = "the parts are not 2 to 16",
        [SICKLESPAN_INVALID_CUTS] = "a cut is none of the message, or out of order",
        [SICKLESPAN_INVALID_INDEX] = "there is no part at the index",
        [SICKLESPAN_SHORT_BUFFER] = "the buffer is too short",
        [SICKLESPAN_INVALID_POINTER] = "a pointer is null, or buffers overlap",
        [SICKLESPAN_INVALID_TEXT] = "the text is not UTF-8",
        [SICKLESPAN_INVALID_VERSIONS] = "the versions are not 1 to 40, in order",
        [SICKLESPAN_INVALID_CHARACTER] = "a character is none of a GS1 element",
        [SICKLESPAN_NO_ELEMENTS] = "the text does not begin with a bracketed identifier",
        [SICKLESPAN_INVALID_IDENTIFIER] = "an identifier is not two to four digits in brackets",
        [SICKLESPAN_UNKNOWN_IDENTIFIER] = "an identifier is unknown",
        [SICKLESPAN_EMPTY_VALUE] = "a value is empty, or a bracket is not closed",
        [SICKLESPAN_VALUE_TOO_LONG] = "a value is too long",
        [SICKLESPAN_WRONG_LENGTH] = "the length of a value is wrong",
        [SICKLESPAN_WRONG_CHECK_DIGIT] = "a check digit is wrong",
        [SICKLESPAN_INVALID_WIDTH] = "no symbol has the width",
        [SICKLESPAN_INVALID_FORMAT] = "there is no such format",
        [SICKLESPAN_INVALID_SETTING] = "a setting is out of bounds, or not of the format",
        [SICKLESPAN_INVALID_CONTENT] = "there is no such content",
        [SICKLESPAN_WRONG_VALUE] = "a value is none that its identifier allows",
        [SICKLESPAN_WRONG_DOMAIN] = "the domain is no host name, or its port or path is wrong",
        [SICKLESPAN_NO_KEY] = "no element is the key of a link, as (01), (00) or (414) are",
        [SICKLESPAN_SECOND_KEY] = "a link has one key, and there is another",
        [SICKLESPAN_WRONG_QUALIFIER] = "a qualifier of the key may not stand beside another one",
        [SICKLESPAN_REPEATED_ELEMENT] = "an identifier stands twice in a link",
        [SICKLESPAN_MISSING_ELEMENT] = "an element that has to stand beside it is missing",
        [SICKLESPAN_CONFLICTING_ELEMENT] = "an element may not stand beside another one",
        [SICKLESPAN_UNWRITABLE_TEXT] = "no Micro symbol is read as the text",
        [SICKLESPAN_UNSUPPORTED_PROCESSOR] =
            "the processor lacks x86-64-v2, which the library needs",
        "unknown status",
    };
    for (int32_t status = 0; status < (int32_t)(sizeof texts / sizeof *texts); status++) {
        EXPECT(strcmp(sicklespan_status_text(status), texts[status]) == 0);
    }
    EXPECT(strcmp(sicklespan_status_text(-1), "unknown status") == 0);
    EXPECT(strcmp(sicklespan_version(), SICKLESPAN_VERSION) == 0);
    for (int32_t width = -200; width < 200; width++) {
        int32_t version = sicklespan_version_of_width(width);
        bool is_normal = width >= 21 && width <= 177 && width % 4 == 1,
             is_micro = width >= 11 && width <= 17 && width % 2;
        EXPECT(version == (is_normal ? (width - 17) / 4 : is_micro ? (width - 9) / 2 : 0));
    }
    EXPECT(sicklespan_version_of_width(INT32_MIN) == 0 &&
           sicklespan_version_of_width(INT32_MAX) == 0);
}
