//! Symbols through the library: sizes by the standard's table of capacities, grids by those of the
//! original crate.
use answers::Answer;
use sicklespan::{
    best_cuts, best_text_cuts, link_text, Error, Fault, Format, Level, Options, Settings, Symbol,
    Version,
};

mod answers;

const LEVELS: [Level; 4] = [Level::L, Level::M, Level::Q, Level::H];

/// How many bytes the versions 1 to 40 hold in Byte mode (ISO/IEC 18004, "Data capacity for all
/// versions"), by level.
const BYTES: [[usize; 40]; 4] = [
    [
        17, 32, 53, 78, 106, 134, 154, 192, 230, 271, 321, 367, 425, 458, 520, 586, 644, 718, 792,
        858, 929, 1003, 1091, 1171, 1273, 1367, 1465, 1528, 1628, 1732, 1840, 1952, 2068, 2188,
        2303, 2431, 2563, 2699, 2809, 2953,
    ],
    [
        14, 26, 42, 62, 84, 106, 122, 152, 180, 213, 251, 287, 331, 362, 412, 450, 504, 560, 624,
        666, 711, 779, 857, 911, 997, 1059, 1125, 1190, 1264, 1370, 1452, 1538, 1628, 1722, 1809,
        1911, 1989, 2099, 2213, 2331,
    ],
    [
        11, 20, 32, 46, 60, 74, 86, 108, 130, 151, 177, 203, 241, 258, 292, 322, 364, 394, 442,
        482, 509, 565, 611, 661, 715, 751, 805, 868, 908, 982, 1030, 1112, 1168, 1228, 1283, 1351,
        1423, 1499, 1579, 1663,
    ],
    [
        7, 14, 24, 34, 44, 58, 64, 84, 98, 119, 137, 155, 177, 194, 220, 250, 280, 310, 338, 382,
        403, 439, 461, 511, 535, 593, 625, 658, 698, 742, 790, 842, 898, 958, 983, 1051, 1093,
        1139, 1219, 1273,
    ],
];

/// How many digits each Micro version holds at each level that it has (the same table).
const DIGITS: [(u8, Level, usize); 8] = [
    (1, Level::L, 5),
    (2, Level::L, 10),
    (2, Level::M, 8),
    (3, Level::L, 23),
    (3, Level::M, 18),
    (4, Level::L, 35),
    (4, Level::M, 30),
    (4, Level::Q, 21),
];

#[test]
fn draws_all_versions_and_levels() {
    for (level, row) in LEVELS.into_iter().zip(BYTES) {
        let mut least = 1;
        for (number, most) in (1..).zip(row) {
            for count in [least, most] {
                let symbol = Symbol::bytes(&vec![b'a'; count], level).unwrap();
                let width = 17 + 4 * usize::from(number);
                assert_eq!(symbol.version(), Version::Normal(number), "{count} bytes at {level:?}");
                assert_eq!((symbol.width(), symbol.modules().len()), (width, width * width));
                assert_eq!(symbol.rows().count(), width);
                assert_eq!(Version::of_width(width), Some(symbol.version()));
                assert!(symbol.mask() < 8);
            }
            least = most + 1;
        }
        assert_eq!(Symbol::bytes(&vec![b'a'; least], level), Err(too_long(1)));
    }
}

#[test]
fn draws_all_micro_versions_and_levels() {
    for (number, level, most) in DIGITS {
        let symbol = Symbol::micro(&vec![b'7'; most], level).unwrap();
        assert_eq!(
            (symbol.version(), symbol.width()),
            (Version::Micro(number), 9 + 2 * usize::from(number))
        );
        assert_eq!(Version::of_width(symbol.width()), Some(symbol.version()));
        assert!(symbol.mask() < 4);
        let next = DIGITS.iter().find(|(other, at, _)| *other > number && *at == level);
        let answer = Symbol::micro(&vec![b'7'; most + 1], level).map(|symbol| symbol.version());
        assert_eq!(answer, next.map(|(other, ..)| Version::Micro(*other)).ok_or(too_long(1)));
    }
    // Worked by hand from the standard's steps.
    assert_eq!(Symbol::micro(b"12345", Level::L).unwrap().mask(), 2);
}

/// That of data of which some bytes are too many.
fn too_long(count: usize) -> Error {
    Error::DataTooLong { too_many: Some(count) }
}

const PART_TOO_LONG: Error = Error::DataTooLong { too_many: None };

#[test]
fn tells_how_many_are_too_many() {
    // Version 1 holds 17 bytes at level L, and 16 after the 12 bits of the ECI designator.
    let first = Options::new(Level::L).max_version(1);
    let error = Symbol::bytes_with(&[b'a'; 20], &first).unwrap_err();
    assert_eq!((error, error.to_string()), (too_long(3), said("by 3 bytes")));
    let error = Symbol::bytes_with(&[b'a'; 18], &first).unwrap_err();
    assert_eq!((error, error.to_string()), (too_long(1), said("by 1 byte")));
    // A character is not cut.
    assert_eq!(Symbol::text_with(&format!("a{}", "é".repeat(8)), &first), Err(too_long(2)));
    assert_eq!(Symbol::micro(&[b'a'; 20], Level::L), Err(too_long(5)));
    assert_eq!(Symbol::auto_with(&"a".repeat(20), &first), Err(too_long(3)));
    // After a designator of ISO 8859, 16 characters: some characters of two bytes are too many.
    assert_eq!(Symbol::auto_with(&"é".repeat(18), &first), Err(too_long(4)));
    assert_eq!(PART_TOO_LONG.to_string(), "the data are too long");
}

/// Texts beyond ASCII, with the version at level M and in UTF-8: version 1 holds 128 bits, of which
/// 12 come before Kanji of 13 bits, and 24 before the bytes of a part of ISO/IEC 8859 or of UTF-8.
const TEXTS: [(&str, u8, u8); 5] = [
    ("市北前倉東", 1, 2),
    ("Grüße an Köln", 1, 2),
    ("Grüße aus Köln", 2, 2),
    ("Ξεσκεπάζω την ψυχοφθόρα", 2, 4),
    ("😀 OK 😀", 1, 1),
];

#[test]
fn draws_smallest_texts() {
    for (text, least, of_utf8) in TEXTS {
        let symbol = Symbol::smallest_text(text, Level::M).unwrap();
        assert_eq!(symbol.version(), Version::Normal(least), "{text}");
        assert_eq!(Symbol::new(text, Level::M).as_ref(), Ok(&symbol));
        assert_ne!(Symbol::bytes(text.as_bytes(), Level::M).as_ref(), Ok(&symbol));
        assert_eq!(Symbol::auto(text, Level::M), Ok(symbol));
        let symbol = Symbol::text(text, Level::M).unwrap();
        assert_eq!(symbol.version(), Version::Normal(of_utf8), "{text}");
    }
    assert_eq!(Symbol::new("hello", Level::M), Symbol::bytes(b"hello", Level::M));
    // Version 1 holds 104 and 72 bits at Q and H, and five Kanji take 77.
    let strongest = Options::new(Level::L).strongest();
    let symbol = Symbol::smallest_text_with(TEXTS[0].0, &strongest).unwrap();
    assert_eq!((symbol.version(), symbol.level()), (Version::Normal(1), Level::Q));
    let first = Options::new(Level::H).max_version(1);
    assert_eq!(Symbol::smallest_text_with(TEXTS[0].0, &first), Err(too_long(3)));
    let no_versions = Options::new(Level::H).max_version(0);
    let error = Symbol::smallest_text_with(TEXTS[0].0, &no_versions);
    assert_eq!(error, Err(Error::InvalidVersions));
}

#[test]
fn draws_bytes_without_kanji() {
    // Version 1 holds 152 bits at L and 72 at H, of which 12 come before the bytes, of 8 bits, and
    // before the pairs of the Kanji mode, of 13.
    let pairs = [0x93, 0x5f].repeat(9);
    let version = |symbol: Result<Symbol, Error>| symbol.unwrap().version();
    assert_eq!(version(Symbol::bytes(&pairs, Level::L)), Version::Normal(1));
    assert_eq!(version(Symbol::bytes_without_kanji(&pairs, Level::L)), Version::Normal(2));
    assert_eq!(version(Symbol::bytes_without_kanji(&pairs[..17], Level::L)), Version::Normal(1));
    for data in ["hello", "0123456789", "é"] {
        let symbol = Symbol::bytes_without_kanji(data.as_bytes(), Level::M);
        assert_eq!(symbol, Symbol::bytes(data.as_bytes(), Level::M));
    }
    let first = Options::new(Level::H).max_version(1);
    assert!(Symbol::bytes_with(&pairs[..8], &first).is_ok());
    assert_eq!(Symbol::bytes_without_kanji_with(&pairs[..8], &first), Err(too_long(1)));
    let strongest = Options::new(Level::L).strongest();
    let symbol = Symbol::bytes_without_kanji_with(&pairs[..7], &strongest).unwrap();
    assert_eq!((symbol.version(), symbol.level()), (Version::Normal(1), Level::H));
}

#[test]
fn draws_micro_texts() {
    // M3 holds 84 and 68 bits at L and M, of which five Kanji take 2 + 3 + 65.
    for (level, number) in [(Level::L, 3), (Level::M, 4), (Level::Q, 4)] {
        let symbol = Symbol::micro_text("市北前倉東", level).unwrap();
        assert_eq!((symbol.version(), symbol.level()), (Version::Micro(number), level));
    }
    assert_eq!(Symbol::micro_text("12345", Level::L), Symbol::micro(b"12345", Level::L));
    assert_eq!(Symbol::micro_text("é", Level::H), Err(Error::InvalidLevel));
    for (text, place) in [("é", 0), ("東é", 3), ("東~", 3), ("~東", 1), ("東😀", 3)] {
        let error = Symbol::micro_text(text, Level::L).unwrap_err();
        assert_eq!(error, Error::UnwritableText { place }, "{text}");
        let said = format!("no Micro symbol is read as the text, at byte {place}");
        assert_eq!(error.to_string(), said);
    }
    // Nine Kanji take 3 + 4 + 117 of the 128 bits of M4.
    assert_eq!(Symbol::micro_text(&"東".repeat(11), Level::L), Err(too_long(6)));
}

fn said(what: &str) -> String {
    format!("the data are too long, {what}")
}

/// The inputs of the rows in `answers`, by kind and length.
fn input(kind: usize, count: usize) -> Vec<u8> {
    let signs = b"0123456789ABCDEFGHIJKLMNOPQRSTUVWXYZ $%*+-./:";
    (0..count)
        .map(|i| match kind {
            0 => b'0' + ((i * 7 + 3) % 256 % 10) as u8,
            1 => signs[(i * 11 + 15) % 45],
            2 => (i * 37 + 161) as u8,
            3 if i % 2 == 0 => 0x89 + (i / 2 % 6) as u8,
            3 => 0x40 + (i * 5 % 60) as u8,
            4 => match (i / 9 % 4, i % 2) {
                (0, _) => b'0' + (i % 10) as u8,
                (1, _) => b'A' + (i % 26) as u8,
                (2, _) => b'a' + (i % 26) as u8,
                (_, 0) => 0x93,
                _ => 0x5f,
            },
            5 => b'a',
            6 if i % 2 == 0 => b'A',
            6 => b'1',
            _ => (i * i * 31 + i * 17 + 5) as u8,
        })
        .collect()
}

/// FNV-1a, a byte for each module.
fn hash(modules: &[bool]) -> u32 {
    modules.iter().fold(0x811c_9dc5, |sum, dark| (sum ^ u32::from(*dark)).wrapping_mul(0x0100_0193))
}

#[test]
fn answers_as_the_original() {
    for answer in answers::answers() {
        let (bytes, level) = (input(answer.kind, answer.count), LEVELS[answer.level]);
        let drawn =
            if answer.micro { Symbol::micro(&bytes, level) } else { Symbol::bytes(&bytes, level) };
        let got = match drawn {
            Ok(symbol) => (symbol.modules().len(), hash(symbol.modules())),
            Err(Error::DataTooLong { too_many: Some(_) }) => (1, 0),
            Err(Error::InvalidLevel) => (2, 0),
            Err(error) => panic!("{error}"),
        };
        let Answer { kind, count, micro, .. } = answer;
        assert_eq!(
            got,
            (answer.modules, answer.hash),
            "kind {kind}, {count} bytes, {level:?}, {micro}"
        );
    }
}

#[test]
fn draws_sequences() {
    let message = b"0123456789abcdefghijklmnopqrstuvwxyz";
    let symbols = Symbol::sequence(message, &[10, 10, 36], Level::Q, 5).unwrap();
    assert_eq!(symbols.len(), 4);
    assert!(symbols.iter().all(|symbol| symbol.version() <= Version::Normal(5)));
    assert!(symbols.windows(2).all(|pair| pair[0] != pair[1]));
    assert_eq!(Symbol::sequence(message, &[5, 4], Level::L, 40), Err(Error::InvalidCuts));
    assert_eq!(Symbol::sequence(message, &[37], Level::L, 40), Err(Error::InvalidCuts));
    assert_eq!(Symbol::sequence(message, &[5], Level::L, 0), Err(Error::InvalidMaxVersion));
    assert_eq!(Symbol::sequence(message, &[5], Level::L, 41), Err(Error::InvalidMaxVersion));
    assert_eq!(Symbol::sequence(message, &[], Level::L, 40), Err(Error::InvalidPartCount));
    assert_eq!(Symbol::sequence(message, &[0; 16], Level::L, 40), Err(Error::InvalidPartCount));
    assert_eq!(Symbol::sequence(message, &[0], Level::L, 1), Err(PART_TOO_LONG));
}

#[test]
fn draws_sequences_of_text() {
    let symbols = Symbol::text_sequence("éé", &[2], Level::H, 1).unwrap();
    assert_eq!(symbols.len(), 2);
    assert_ne!(symbols, Symbol::sequence("éé".as_bytes(), &[2], Level::H, 1).unwrap());
    assert_eq!(Symbol::text_sequence("éé", &[1], Level::H, 1), Err(Error::InvalidCuts));
    assert_eq!(Symbol::text_sequence("éé", &[], Level::H, 1), Err(Error::InvalidPartCount));
    // Version 1 holds 72 bits at H: 20 of the header, 12 that say UTF-8, 12 before the bytes.
    assert_eq!(best_text_cuts("éé", Level::H, 1), Ok(vec![2]));
    assert_eq!(best_text_cuts("é", Level::H, 1), Ok(vec![]));
    assert_eq!(best_text_cuts(&"é".repeat(17), Level::H, 1), Err(PART_TOO_LONG));
    assert_eq!(best_text_cuts("é", Level::H, 0), Err(Error::InvalidMaxVersion));
}

#[test]
fn finds_cuts() {
    // After the 20 bits of a header, version 40 holds 2951 bytes at level L, and version 1 holds 5
    // at level H.
    let message = vec![b'a'; 16 * 2951];
    for (count, cuts) in [(2951, 0), (2952, 1), (2 * 2951 + 1, 2), (16 * 2951, 15)] {
        let found = best_cuts(&message[..count], Level::L, 40).unwrap();
        assert_eq!(found, (1..=cuts).map(|i| i * 2951).collect::<Vec<_>>());
    }
    assert_eq!(best_cuts(&message[..80], Level::H, 1).unwrap().len(), 15);
    assert_eq!(best_cuts(&message[..81], Level::H, 1), Err(PART_TOO_LONG));
    assert_eq!(best_cuts(b"a", Level::H, 0), Err(Error::InvalidMaxVersion));
    assert_eq!(best_cuts(b"a", Level::H, 41), Err(Error::InvalidMaxVersion));
}

#[test]
fn draws_as_asked() {
    // Version 1 holds 17, 14, 11 and 7 bytes at L, M, Q and H, and one less after the 12 bits of
    // the ECI designator.
    for (level, count) in LEVELS.into_iter().zip([17, 14, 11, 7]) {
        let bytes = vec![b'a'; count];
        let strongest = Symbol::bytes_with(&bytes, &Options::new(Level::L).strongest()).unwrap();
        assert_eq!((strongest.width(), strongest.level()), (21, level));
        assert_eq!(Symbol::bytes(&bytes, level), Ok(strongest));
        let text = "a".repeat(count);
        assert_eq!(Symbol::text(&text, level).unwrap().version(), Version::Normal(2));
        assert_eq!(Symbol::text(&text[1..], level).unwrap().version(), Version::Normal(1));
        let options = Options::new(level).max_version(1);
        assert_eq!(Symbol::text_with(&text, &options), Err(too_long(1)));
        let options = Options::new(level).min_version(3);
        assert_eq!(Symbol::text_with(&text, &options).unwrap().version(), Version::Normal(3));
    }
    assert_eq!(Options::default(), Options::new(Level::M));
    for (least, most) in [(0, 40), (1, 41), (3, 2)] {
        let options = Options::new(Level::L).min_version(least).max_version(most);
        assert_eq!(Symbol::bytes_with(b"a", &options), Err(Error::InvalidVersions));
        assert_eq!(Symbol::gs1_with("(10)a", &options), Err(Error::InvalidVersions));
    }
}

#[test]
fn draws_elements() {
    let symbol = Symbol::gs1("(10)ABC(01)09506000134352(21)7", Level::Q).unwrap();
    let bytes = b"10ABC\x1d0109506000134352217";
    assert_eq!(Symbol::elements(bytes, Level::Q), Ok(symbol.clone()));
    assert_ne!(Symbol::bytes(bytes, Level::Q), Ok(symbol));
    let options = Options::new(Level::Q).min_version(4);
    assert_eq!(Symbol::elements_with(bytes, &options).unwrap().version(), Version::Normal(4));
    assert_eq!(Symbol::elements(b"10A B", Level::Q), Err(Error::InvalidCharacter { place: 3 }));
    assert_eq!(Symbol::gs1("10ABC", Level::Q), Err(Error::NoElements));
    let error = Error::InvalidCharacter { place: 3 };
    assert_eq!(error.to_string(), "a character is none of a GS1 element, at byte 3");
}

/// What is said of elements that are refused, and of them unchecked.
#[test]
fn refuses_elements() {
    for (text, said, unchecked) in [
        (
            "(1)2",
            "element 1: an identifier is not two to four digits in brackets",
            "element 1: an identifier is not two to four digits in brackets",
        ),
        (
            "(21)A(05)2",
            "element 2 (05): an identifier is unknown",
            "element 2: an identifier is unknown",
        ),
        (
            "(10",
            "element 1 (10), character 1: a value is empty, or a bracket is not closed",
            "element 1: a value is empty, or a bracket is not closed",
        ),
        (
            "(21)A(10)a b",
            "element 2 (10), character 2: a character that is not allowed there",
            "element 2: a character is none of a GS1 element",
        ),
        (
            "(21)A(10)B(01)1",
            "element 3 (01), character 2: the value is too short",
            "element 3: the length of a value is wrong",
        ),
        (
            "(01)09506000134353(10)A",
            "element 1 (01), character 14: wrong check digit",
            "element 1: a check digit is wrong",
        ),
    ] {
        assert_eq!(Symbol::gs1(text, Level::Q).unwrap_err().to_string(), said);
        assert_eq!(Symbol::gs1_unchecked(text, Level::Q).unwrap_err().to_string(), unchecked);
    }
}

/// What the table of identifiers refuses, and a reader of elements does not need.
#[test]
fn refuses_elements_by_the_table() {
    let fault = |identifier, character, reason| Fault {
        element: 2,
        identifier: Some(identifier),
        character,
        reason,
    };
    let long = |identifier, character| fault(identifier, Some(character), "the value is too long");
    let unknown = |number| fault(number, None, "an identifier is unknown");
    let digit = |number, character| fault(number, Some(character), "wrong check digit");
    let character = fault(37, Some(1), "a character that is not allowed there");
    for (text, error) in [
        ("(10)ABCDEFGHIJKLMNOPQRSTUVWXYZ1234", Error::ValueTooLong(long(10, 21))),
        ("(21)ABCDEFGHIJKLMNOPQRSTU", Error::ValueTooLong(long(21, 21))),
        ("(37)ABC", Error::WrongCharacter(character)),
        ("(30)123456789", Error::ValueTooLong(long(30, 9))),
        ("(8003)09506000134353", Error::WrongCheckDigit(digit(8003, 14))),
        ("(253)9506000134353", Error::WrongCheckDigit(digit(253, 13))),
        ("(7003)2612", Error::WrongLength(fault(7003, Some(5), "the value is too short"))),
        ("(17)261331", Error::WrongValue(fault(17, Some(3), "no such month"))),
        ("(4399)x", Error::UnknownIdentifier(unknown(4399))),
        ("(8099)x", Error::UnknownIdentifier(unknown(8099))),
        ("(249)x", Error::UnknownIdentifier(unknown(249))),
        ("(7299)a", Error::UnknownIdentifier(unknown(7299))),
    ] {
        let text = format!("(99)A{text}");
        assert_eq!(Symbol::gs1(&text, Level::M), Err(error));
        assert!(Symbol::gs1_unchecked(&text, Level::M).is_ok());
    }
}

/// What may not stand together, and is drawn unchecked.
#[test]
fn refuses_elements_that_stand_apart() {
    let fault = |element, number, reason| Fault {
        element,
        identifier: Some(number),
        character: None,
        reason,
    };
    let missing = "an element that has to stand beside it is missing";
    let conflicting = "an element may not stand beside another one";
    for (text, error) in [
        ("(10)ABC", Error::MissingElement(fault(1, 10, missing))),
        ("(91)A(02)09506000134352", Error::MissingElement(fault(2, 2, missing))),
        ("(01)09506000134352(10)A(10)B", Error::ConflictingElement(fault(2, 10, conflicting))),
        (
            "(01)09506000134352(255)9506000134352",
            Error::ConflictingElement(fault(1, 1, conflicting)),
        ),
    ] {
        assert_eq!(Symbol::gs1(text, Level::M), Err(error));
        assert!(Symbol::gs1_unchecked(text, Level::M).is_ok());
    }
    let first = Options::new(Level::H).max_version(1);
    let error = Symbol::gs1_with("(10)ABCDEF(01)09506000134352", &first).unwrap_err();
    assert_eq!(error, too_long(18));
}

/// A number sign is of one identifier by the table, and of all unchecked.
#[test]
fn draws_number_signs() {
    let symbol = Symbol::gs1("(8010)0614141#A(8011)1", Level::M);
    assert!(symbol.is_ok());
    assert_eq!(Symbol::elements(b"80100614141#A\x1d80111", Level::M), symbol);
    assert!(Symbol::gs1("(91)A#", Level::M).is_err());
    assert!(Symbol::gs1_unchecked("(91)A#", Level::M).is_ok());
}

#[test]
fn draws_links() {
    let text = "(17)261231(10)A/B(01)09506000134352";
    let link = "https://id.gs1.org/01/09506000134352/10/A%2FB?17=261231";
    assert_eq!(link_text(text, "id.gs1.org").as_deref(), Ok(link));
    assert_eq!(
        Symbol::link(text, "id.gs1.org", Level::Q),
        Symbol::bytes(link.as_bytes(), Level::Q)
    );
    let options = Options::new(Level::L).max_version(1);
    assert_eq!(
        Symbol::link_with(text, "id.gs1.org", &options),
        Err(Error::DataTooLong { too_many: None })
    );
    assert_eq!(link_text("(01)09506000134352", "a//b"), Err(Error::WrongDomain));
    let link = "https://a.b/c/01/09506000134352";
    assert_eq!(link_text("(01)09506000134352", "a.b/c").as_deref(), Ok(link));
    assert_eq!(link_text("(10)A", "a.b"), Err(Error::NoKey));
    for (text, said) in [
        ("(01)09506000134353", "element 1 (01), character 14: wrong check digit"),
        (
            "(01)09506000134352(00)106141412345678908",
            "element 1: a link has one key, and there is another",
        ),
        (
            "(01)09506000134352(10)A(235)B",
            "element 2 (10): a qualifier of the key may not stand beside another one",
        ),
        ("(10)A(01)09506000134352(10)A", "element 1 (10): an identifier stands twice in a link"),
    ] {
        assert_eq!(link_text(text, "a.b").unwrap_err().to_string(), said);
        assert_eq!(Symbol::link(text, "a.b", Level::M).unwrap_err().to_string(), said);
    }
}

/// A text without the escape sequences that it has where standard output is a terminal.
fn plain(symbol: &Symbol) -> String {
    symbol.to_string().replace("\x1b[38;5;16;48;5;231m", "").replace("\x1b[0m", "")
}

#[test]
fn prints_half_blocks() {
    let symbol = Symbol::micro(b"1", Level::L).unwrap();
    let text = plain(&symbol);
    let lines: Vec<&str> = text.lines().collect();
    assert_eq!(lines.len(), 8);
    assert!(lines.iter().all(|line| line.chars().count() == 15));
    // The upper left finder pattern, a ring of seven modules and a square of three, behind a quiet
    // zone of two modules.
    let finder = [
        "  \u{2588}\u{2580}\u{2580}\u{2580}\u{2580}\u{2580}\u{2588}",
        "  \u{2588} \u{2588}\u{2588}\u{2588} \u{2588}",
        "  \u{2588} \u{2580}\u{2580}\u{2580} \u{2588}",
        "  \u{2580}\u{2580}\u{2580}\u{2580}\u{2580}\u{2580}\u{2580}",
    ];
    for (line, start) in lines[1..].iter().zip(finder) {
        assert!(line.starts_with(start), "{line}");
    }
    assert_eq!((lines[0].trim(), lines[7].trim()), ("", ""));
    // Where light is filled, no dark module is, nor anything below the last row.
    let inverted = format!("{symbol:#}");
    let opposite = |block: char| match block {
        ' ' => '\u{2588}',
        '\u{2580}' => '\u{2584}',
        '\u{2584}' => '\u{2580}',
        '\u{2588}' => ' ',
        other => other,
    };
    assert_eq!(inverted, text.chars().map(opposite).collect::<String>());
}

/// The bits of a bitmap are the modules in a quiet zone, in rows of whole bytes (Netpbm, "pbm").
#[test]
fn draws_bitmaps() {
    for (symbol, zone) in [
        (Symbol::new("hello", Level::M).unwrap(), 4),
        (Symbol::micro(b"12345", Level::L).unwrap(), 2),
        (Symbol::bytes(&[7; 2953], Level::L).unwrap(), 4),
    ] {
        let side = symbol.width() + 2 * zone;
        let bytes = symbol.picture(Format::Pbm, &Settings::new().scale(1)).unwrap();
        let head = format!("P4\n{side} {side}\n");
        assert!(bytes.starts_with(head.as_bytes()));
        let row = (side + 7) / 8;
        assert_eq!(bytes.len(), head.len() + side * row);
        for (y, line) in bytes[head.len()..].chunks_exact(row).enumerate() {
            for x in 0..8 * row {
                let is_dark = symbol.is_dark(x.wrapping_sub(zone), y.wrapping_sub(zone));
                assert_eq!(line[x / 8] >> (7 - x % 8) & 1 == 1, is_dark);
            }
        }
    }
}

#[test]
fn draws_in_each_format() {
    let symbol = Symbol::new("hello", Level::M).unwrap();
    let text = symbol.picture(Format::Terminal, &Settings::new()).unwrap();
    assert_eq!(text, plain(&symbol).as_bytes());
    let inverted = symbol.picture(Format::Terminal, &Settings::new().inverted()).unwrap();
    assert_eq!(inverted, format!("{symbol:#}").as_bytes());
    // 29 modules of 8 pixels, and of 0.33 mm.
    assert!(symbol.to_svg().unwrap().contains("width=\"232\" height=\"232\""));
    let sized = symbol.picture(Format::Svg, &Settings::new().module_mm(33)).unwrap();
    assert!(String::from_utf8(sized).unwrap().contains("width=\"9.57mm\""));
    // The signature, and a head with the sides.
    let png = symbol.to_png().unwrap();
    assert!(png.starts_with(b"\x89PNG\r\n\x1a\n\0\0\0\x0dIHDR\0\0\0\xe8\0\0\0\xe8\x01\0"));
    // 300 dots in 25.4 mm are 11811 in a metre.
    let dots = symbol.picture(Format::Png, &Settings::new().dpi(300)).unwrap();
    let mark = b"pHYs\0\0\x2e\x23\0\0\x2e\x23\x01";
    assert!(dots.windows(mark.len()).any(|bytes| bytes == mark));
    let eps = symbol.picture(Format::Eps, &Settings::new()).unwrap();
    assert!(eps.starts_with(b"%!PS-Adobe-3.0 EPSF-3.0\n"));
    let ticket = symbol.picture(Format::EscPos, &Settings::new().scale(1)).unwrap();
    assert_eq!(ticket[..8], *b"\x1dv0\0\x04\0\x1d\0");
    let label = symbol.picture(Format::Zpl, &Settings::new().scale(1).at(20, 30)).unwrap();
    assert!(label.starts_with(b"^XA\n^FO20,30^GFA,116,116,4,"));
    for (format, settings, name) in [
        (Format::Svg, Settings::new().scale(0), "scale"),
        (Format::Svg, Settings::new().scale(65), "scale"),
        (Format::Svg, Settings::new().quiet(17), "quiet"),
        (Format::Svg, Settings::new().module_mm(4), "module_mm"),
        (Format::Svg, Settings::new().dpi(300), "dpi"),
        (Format::Svg, Settings::new().inverted(), "inverted"),
        (Format::Svg, Settings::new().at(0, 0), "at"),
        (Format::Zpl, Settings::new().at(0, 18001), "at"),
        (Format::Png, Settings::new().dpi(300).module_mm(33), "dpi"),
    ] {
        assert_eq!(symbol.picture(format, &settings), Err(Error::InvalidSetting { name }));
    }
}

#[test]
fn errors_have_texts() {
    let error: Box<dyn std::error::Error> = Box::new(PART_TOO_LONG);
    assert_eq!(error.to_string(), "the data are too long");
    assert_eq!(
        Error::InvalidSetting { name: "dpi" }.to_string(),
        "a setting is out of bounds, or not of the format: dpi"
    );
    assert_eq!(Error::InvalidCuts.to_string(), "a cut is none of the message, or out of order");
    let said = "the processor lacks x86-64-v2, which the library needs";
    assert_eq!(Error::UnsupportedProcessor.to_string(), said);
}

#[test]
fn eight_threads_draw_the_same() {
    let inputs: Vec<Vec<u8>> = (0..6).map(|kind| input(kind, 40 + 90 * kind)).collect();
    let draw = || inputs.iter().map(|bytes| Symbol::bytes(bytes, Level::M)).collect::<Vec<_>>();
    let wanted = draw();
    std::thread::scope(|scope| {
        for _ in 0..8 {
            scope.spawn(|| (0..20).for_each(|_| assert_eq!(draw(), wanted)));
        }
    });
}
