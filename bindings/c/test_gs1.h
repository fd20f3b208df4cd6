/* SPDX-License-Identifier: MIT OR Apache-2.0 */
/* GS1 elements by the table of identifiers, their faults and their links, a part of test.c. */

/* What the table of identifiers refuses, and a reader of elements does not need. */
static const struct {
    const char *text;
    int32_t status;
    int32_t identifier;
    size_t character;
    const char *reason;
} by_table[] = {
    {"(10)ABCDEFGHIJKLMNOPQRSTUVWXYZ1234", SICKLESPAN_VALUE_TOO_LONG, 10, 21,
     "the value is too long"},
    {"(21)ABCDEFGHIJKLMNOPQRSTU", SICKLESPAN_VALUE_TOO_LONG, 21, 21, "the value is too long"},
    {"(37)ABC", SICKLESPAN_INVALID_CHARACTER, 37, 1, "a character that is not allowed there"},
    {"(30)123456789", SICKLESPAN_VALUE_TOO_LONG, 30, 9, "the value is too long"},
    {"(8003)09506000134353", SICKLESPAN_WRONG_CHECK_DIGIT, 8003, 14, "wrong check digit"},
    {"(253)9506000134353", SICKLESPAN_WRONG_CHECK_DIGIT, 253, 13, "wrong check digit"},
    {"(7003)2612", SICKLESPAN_WRONG_LENGTH, 7003, 5, "the value is too short"},
    {"(17)261331", SICKLESPAN_WRONG_VALUE, 17, 3, "no such month"},
    {"(421)999A", SICKLESPAN_WRONG_VALUE, 421, 1, "no such country"},
    {"(4399)x", SICKLESPAN_UNKNOWN_IDENTIFIER, 4399, 0, "an identifier is unknown"},
    {"(8099)x", SICKLESPAN_UNKNOWN_IDENTIFIER, 8099, 0, "an identifier is unknown"},
    {"(249)x", SICKLESPAN_UNKNOWN_IDENTIFIER, 249, 0, "an identifier is unknown"},
    {"(7299)a", SICKLESPAN_UNKNOWN_IDENTIFIER, 7299, 0, "an identifier is unknown"},
};

enum { ROWS = sizeof by_table / sizeof *by_table };

static sicklespan_fault fault;

static int32_t fault_of(const char *text) {
    fault = (sicklespan_fault){77, 77, 77, NULL};
    return sicklespan_gs1_fault(text, strlen(text), &fault);
}

static int is_fault(size_t element, size_t character, int32_t identifier, const char *reason) {
    return fault.element == element && fault.character == character &&
           fault.identifier == identifier && fault.reason != NULL &&
           strcmp(fault.reason, reason) == 0;
}

static void test_table(void) {
    char text[64];
    for (size_t i = 0; i < ROWS; i++) {
        const char *const row = by_table[i].text;
        expect(asked(of_gs1, row, NULL) == by_table[i].status && is_kept_from(0), row, __LINE__);
        expect(asked(of_gs1_unchecked, row, NULL) == SICKLESPAN_OK, row, __LINE__);
        snprintf(text, sizeof text, "(10)A%s", row);
        expect(fault_of(text) == by_table[i].status &&
                   is_fault(2, by_table[i].character, by_table[i].identifier, by_table[i].reason),
               row, __LINE__);
    }
}

/* A text for each reason that is not among those above. */
static void test_reasons(void) {
    static const char *const rows[][2] = {
        {"(8013)1987654Ad4X4bL5ttr2310c2X", "wrong pair of check characters"},
        {"(401)ABC1", "the key begins with no GS1 Company Prefix"},
        {"(17)260231", "no such day"},
        {"(7003)2612312400", "no such hour"},
        {"(7003)2612310060", "no such minute"},
        {"(8008)261231000060", "no such second"},
        {"(3912)00012", "no such currency"},
        {"(4321)2", "neither 0 nor 1"},
        {"(8006)095060001343520302", "no piece of this total"},
        {"(8001)00010000100150", "no direction of winding"},
        {"(8003)19506000134352", "not zero"},
        {"(8001)00000000100110", "only zeros"},
        {"(8011)012", "a zero before other digits"},
        {"(4300)A%2", "a percent sign without two hexadecimal digits"},
        {"(4309)18000000010000000000", "no such latitude"},
        {"(4309)00000000003600000001", "no such longitude"},
        {"(4330)001234A", "not a minus sign"},
        {"(7241)11", "no such media type"},
        {"(7252)3", "no such sex"},
        {"(7258)3/2", "no place in a sequence"},
        {"(8007)GB82WEST12345698765433", "wrong bank account number"},
        {"(7040)1AB+", "no importer index"},
    };
    for (size_t i = 0; i < sizeof rows / sizeof *rows; i++) {
        (void)fault_of(rows[i][0]);
        expect(fault.element == 1 && strcmp(fault.reason, rows[i][1]) == 0, rows[i][0], __LINE__);
    }
}

static void test_faults(void) {
    EXPECT(fault_of("(01)09506000134352(10)ABC") == SICKLESPAN_OK && is_fault(0, 0, -1, "done"));
    EXPECT(fault_of("10") == SICKLESPAN_NO_ELEMENTS &&
           is_fault(0, 0, -1, "the text does not begin with a bracketed identifier"));
    EXPECT(fault_of("(10)\xff") == SICKLESPAN_INVALID_TEXT &&
           is_fault(0, 0, -1, "the text is not UTF-8"));
    /* Month 13 stands at the third character of the second element. */
    EXPECT(fault_of("(10)ABC(17)261331") == SICKLESPAN_WRONG_VALUE &&
           is_fault(2, 3, 17, "no such month"));
    EXPECT(fault_of("(10)A(1)2") == SICKLESPAN_INVALID_IDENTIFIER &&
           is_fault(2, 0, -1, "an identifier is not two to four digits in brackets"));
    EXPECT(fault_of("(10") == SICKLESPAN_EMPTY_VALUE &&
           is_fault(1, 1, 10, "a value is empty, or a bracket is not closed"));
    EXPECT(fault_of("(00)106141412345678909") == SICKLESPAN_WRONG_CHECK_DIGIT &&
           is_fault(1, 18, 0, "wrong check digit"));
    /* Nothing is written where a pointer is refused. */
    fault.element = 77;
    EXPECT(sicklespan_gs1_fault(NULL, 1, &fault) == SICKLESPAN_INVALID_POINTER &&
           fault.element == 77);
    EXPECT(sicklespan_gs1_fault(NULL, 0, &fault) == SICKLESPAN_NO_ELEMENTS && fault.element == 0);
    EXPECT(sicklespan_gs1_fault("(10)A", 5, NULL) == SICKLESPAN_INVALID_POINTER);
    EXPECT(sicklespan_gs1_fault((const char *)&fault, 1, &fault) == SICKLESPAN_INVALID_POINTER);
    /* Nothing is allocated. */
    failing = 1, allocations = 0;
    EXPECT(fault_of("(91)A") == SICKLESPAN_OK && is_fault(0, 0, -1, "done"));
    EXPECT(fault_of("(10") == SICKLESPAN_EMPTY_VALUE);
    failing = 0;
}

/* Elements that may not stand together. */
static void test_together(void) {
    static const char missing[] = "an element that has to stand beside it is missing";
    static const char conflicting[] = "an element may not stand beside another one";
    const struct {
        const char *text;
        int32_t status;
        size_t element;
        int32_t identifier;
    } rows[] = {{"(10)ABC", SICKLESPAN_MISSING_ELEMENT, 1, 10},
                {"(91)A(02)09506000134352", SICKLESPAN_MISSING_ELEMENT, 2, 2},
                {"(01)09506000134352(3922)2172", SICKLESPAN_MISSING_ELEMENT, 2, 3922},
                {"(01)09506000134352(255)9506000134352", SICKLESPAN_CONFLICTING_ELEMENT, 1, 1},
                {"(01)09506000134352(10)A(10)B", SICKLESPAN_CONFLICTING_ELEMENT, 2, 10},
                {"(01)09506000134352(10)A(10)A", SICKLESPAN_OK, 0, -1}};
    for (size_t i = 0; i < sizeof rows / sizeof *rows; i++) {
        const char *const row = rows[i].text;
        const int32_t status = rows[i].status;
        expect(fault_of(row) == status &&
                   is_fault(rows[i].element, 0, rows[i].identifier,
                            status == SICKLESPAN_OK                ? "done"
                            : status == SICKLESPAN_MISSING_ELEMENT ? missing
                                                                   : conflicting),
               row, __LINE__);
        expect(asked(of_gs1, row, NULL) == status && (status == SICKLESPAN_OK || is_kept_from(0)),
               row, __LINE__);
        expect(asked(of_gs1_unchecked, row, NULL) == SICKLESPAN_OK, row, __LINE__);
    }
    /* Elements of more than 11815 bytes are looked at one by one alone. */
    static char many[11825];
    for (size_t i = 0; i < sizeof many; i++) many[i] = "(91)A"[i % 5];
    EXPECT(sicklespan_gs1_fault(many, 11815, &fault) == SICKLESPAN_OK);
    EXPECT(sicklespan_gs1_fault(many, 11820, &fault) == SICKLESPAN_DATA_TOO_LONG &&
           is_fault(0, 0, -1, "the data are too long"));
}

static const char trade_item[] = "(17)261231(10)A/B(01)09506000134352";
static const char host[] = "id.gs1.org";
static const char trade_link[] = "https://id.gs1.org/01/09506000134352/10/A%2FB?17=261231";

static char link[64];
static size_t link_size;

static int32_t link_of(const char *text, const char *domain, size_t room) {
    memset(link, '!', sizeof link);
    link_size = 88;
    return sicklespan_link_text(text, strlen(text), domain, strlen(domain), link, room, &link_size);
}

static int32_t draw_link(void) {
    return sicklespan_link(trade_item, sizeof trade_item - 1, host, sizeof host - 1, NULL, modules,
                           GREATEST, &shape);
}

static void test_links(void) {
    const size_t size = sizeof trade_link - 1;
    EXPECT(link_of(trade_item, host, sizeof link) == SICKLESPAN_OK && link_size == size &&
           memcmp(link, trade_link, size) == 0 && link[size] == '!');
    EXPECT(link_of(trade_item, host, size) == SICKLESPAN_OK && link[size] == '!');
    EXPECT(link_of(trade_item, host, size - 1) == SICKLESPAN_SHORT_BUFFER && link_size == size &&
           link[0] == '!');
    static uint8_t drawn[1225];
    EXPECT(asked(of_bytes, trade_link, NULL) == SICKLESPAN_OK && shape.width <= 35);
    const int32_t width = shape.width;
    memcpy(drawn, modules, sizeof drawn);
    clear();
    EXPECT(draw_link() == SICKLESPAN_OK && shape.width == width &&
           memcmp(drawn, modules, (size_t)(width * width)) == 0);
    fail_allocations(draw_link);
    static const char at_path[] = "https://a.b/c/01/09506000134352";
    EXPECT(link_of("(01)09506000134352", "a.b/c", sizeof link) == SICKLESPAN_OK &&
           link_size == sizeof at_path - 1 && memcmp(link, at_path, link_size) == 0);
    const struct {
        const char *text, *domain;
        int32_t status;
        size_t element;
        int32_t identifier;
    } rows[] = {
        {"(01)09506000134353", "", SICKLESPAN_WRONG_CHECK_DIGIT, 1, 1},
        {"(01)09506000134352", "", SICKLESPAN_WRONG_DOMAIN, 0, -1},
        {"(01)09506000134352", "\xff", SICKLESPAN_WRONG_DOMAIN, 0, -1},
        {"(01)09506000134352", "a//b", SICKLESPAN_WRONG_DOMAIN, 0, -1},
        {"(10)A", host, SICKLESPAN_NO_KEY, 0, -1},
        {"(01)09506000134352(00)106141412345678908", host, SICKLESPAN_SECOND_KEY, 1, -1},
        {"(01)09506000134352(10)A(235)B", host, SICKLESPAN_WRONG_QUALIFIER, 2, 10},
        {"(10)A(01)09506000134352(10)A", host, SICKLESPAN_REPEATED_ELEMENT, 1, 10},
        {"(01)09506000134352(3922)2172", host, SICKLESPAN_MISSING_ELEMENT, 2, 3922},
        {"(00)106141412345678908(420)1(421)0361", host, SICKLESPAN_CONFLICTING_ELEMENT, 2, 420},
        {"(01)09506000134352(10)\xff", host, SICKLESPAN_INVALID_TEXT, 0, -1},
        {"(01)09506000134352", "a.b/c", SICKLESPAN_OK, 0, -1},
        {"(01)09506000134352", "a.b:80", SICKLESPAN_OK, 0, -1}};
    for (size_t i = 0; i < sizeof rows / sizeof *rows; i++) {
        const char *const text = rows[i].text, *const domain = rows[i].domain;
        const size_t length = strlen(text), domain_length = strlen(domain);
        const int32_t status = rows[i].status;
        fault = (sicklespan_fault){77, 77, 77, NULL};
        expect(sicklespan_link_fault(text, length, domain, domain_length, &fault) == status &&
                   fault.element == rows[i].element && fault.identifier == rows[i].identifier,
               text, __LINE__);
        if (status == SICKLESPAN_OK) continue;
        expect(link_of(text, domain, sizeof link) == status && link_size == 88 && link[0] == '!',
               text, __LINE__);
        clear();
        expect(sicklespan_link(text, length, domain, domain_length, NULL, modules, GREATEST,
                               &shape) == status &&
                   is_kept_from(0),
               text, __LINE__);
    }
}

/* A link of a trade item whose text or domain, modules and shape lie anywhere. */
static int32_t link_beside(const char *text, const char *domain, const void *options, uint8_t *out,
                           size_t room, void *to) {
    clear();
    return sicklespan_link(text, 5, domain, 5, options, out, room, to);
}

static void test_link_pointers(void) {
    EXPECT(is_refused(link_beside(NULL, host, NULL, modules, 448, &shape)));
    EXPECT(is_refused(link_beside(trade_item, NULL, NULL, modules, 448, &shape)));
    EXPECT(is_refused(link_beside(trade_item, host, NULL, NULL, 448, &shape)));
    EXPECT(is_refused(link_beside(trade_item, host, NULL, modules, 448, NULL)));
    EXPECT(is_refused(link_beside((char *)modules, host, NULL, modules, 448, &shape)));
    EXPECT(is_refused(link_beside(trade_item, (char *)modules, NULL, modules, 448, &shape)));
    EXPECT(is_refused(link_beside(trade_item, (char *)&shape, NULL, modules, 448, &shape)));
    EXPECT(is_refused(link_beside(trade_item, host, &shape, modules, 448, &shape)));
    /* A room that is longer than what lies there is that of the largest symbol. */
    clear();
    EXPECT(sicklespan_link(trade_item, sizeof trade_item - 1, host, sizeof host - 1, &usual_options,
                           modules, SIZE_MAX, &shape) == SICKLESPAN_OK);
    clear();
    EXPECT(sicklespan_link(NULL, 0, NULL, 0, NULL, NULL, 0, &shape) == SICKLESPAN_NO_ELEMENTS &&
           is_kept_from(0));
    const int32_t refused = SICKLESPAN_INVALID_POINTER;
    fault.element = 77, link_size = 88;
    EXPECT(sicklespan_link_fault(NULL, 1, host, 5, &fault) == refused && fault.element == 77);
    EXPECT(sicklespan_link_fault(trade_item, 5, NULL, 5, &fault) == refused);
    EXPECT(sicklespan_link_fault(trade_item, 5, host, 5, NULL) == refused);
    EXPECT(sicklespan_link_fault(trade_item, 5, (char *)&fault, 5, &fault) == refused);
    EXPECT(sicklespan_link_text(NULL, 1, host, 5, link, 5, &link_size) == refused);
    EXPECT(sicklespan_link_text(trade_item, 5, NULL, 5, link, 5, &link_size) == refused);
    EXPECT(sicklespan_link_text(trade_item, 5, host, 5, NULL, 5, &link_size) == refused);
    EXPECT(sicklespan_link_text(trade_item, 5, host, 5, link, 5, NULL) == refused);
    EXPECT(sicklespan_link_text(trade_item, 5, link, 5, link, 5, &link_size) == refused);
    EXPECT(sicklespan_link_text(trade_item, 5, (char *)(&link_size + 1) - 1, 1, link, 5,
                                &link_size) == refused);
    EXPECT(sicklespan_link_text(trade_item, sizeof trade_item - 1, host, 10, NULL, 0, &link_size) ==
               SICKLESPAN_SHORT_BUFFER &&
           link_size == sizeof trade_link - 1);
}
