//! What a symbol is beside its calls: a grid that is indexed and gone over, names that are written
//! and read, files and streams; and that each public item has an example.
use sicklespan::{Error, Fault, Format, Level, Options, Settings, Symbol, Version};
use std::fs;
use std::io::{self, ErrorKind, Write};
use std::panic::catch_unwind;
use std::path::PathBuf;

/// A symbol of each kind, and the largest.
fn symbols() -> [Symbol; 3] {
    [
        Symbol::new("hello", Level::M).unwrap(),
        Symbol::micro(b"12345", Level::L).unwrap(),
        Symbol::bytes(&[7; 2953], Level::L).unwrap(),
    ]
}

#[test]
fn indexes_columns_and_rows() {
    for symbol in &symbols() {
        let width = symbol.width();
        for (y, row) in symbol.rows().enumerate() {
            for (x, module) in row.iter().enumerate() {
                assert_eq!(symbol[(x, y)], *module);
                assert_eq!(symbol[(x, y)], symbol.is_dark(x, y));
            }
        }
        // A finder pattern is in the upper left corner; x counts to the right, and y down.
        assert!(symbol[(6, 0)] && symbol[(0, 6)] && !symbol[(7, 0)] && !symbol[(0, 7)]);
        // The first two are places of the list of modules.
        for (x, y) in [(width, 0), (width + 1, 1), (0, width), (usize::MAX, 0), (0, usize::MAX)] {
            let panic = catch_unwind(|| symbol[(x, y)]).unwrap_err();
            let said =
                format!("index out of bounds: the width is {width} but the index is ({x}, {y})");
            assert_eq!(panic.downcast_ref::<String>(), Some(&said));
            assert!(!symbol.is_dark(x, y));
        }
    }
}

#[test]
fn goes_over_rows() {
    for symbol in &symbols() {
        let mut modules = Vec::new();
        for row in symbol {
            assert_eq!(row.len(), symbol.width());
            modules.extend_from_slice(row);
        }
        assert_eq!(modules, symbol.modules());
        assert_eq!(symbol.into_iter().len(), symbol.width());
        assert!(symbol.into_iter().rev().eq(symbol.rows().rev()));
    }
}

#[test]
fn writes_and_reads_levels() {
    for (level, name) in [(Level::L, "L"), (Level::M, "M"), (Level::Q, "Q"), (Level::H, "H")] {
        assert_eq!((level.to_string().as_str(), name.parse()), (name, Ok(level)));
        assert_eq!(name.to_lowercase().parse(), Ok(level));
        assert_eq!(format!("{level:>3}"), format!("  {name}"));
    }
    for wrong in ["", "X", "LM", " L", "L\n", "0", "\u{130}", "low"] {
        assert_eq!(wrong.parse::<Level>(), Err(Error::InvalidLevel), "{wrong:?}");
    }
    assert_eq!(Options::default(), Options::new(Level::default()));
}

#[test]
fn writes_and_reads_versions() {
    for number in 0..=u8::MAX {
        let version = Version::try_from(number);
        if (1..=40).contains(&number) {
            assert_eq!(version, Ok(Version::Normal(number)));
            assert_eq!(version.map(|version| version.to_string()), Ok(number.to_string()));
        } else {
            assert_eq!(version, Err(Error::InvalidVersions));
        }
        assert_eq!(number.to_string().parse::<Version>(), version);
    }
    for number in 1..=4 {
        let version = Version::Micro(number);
        assert_eq!(version.to_string(), format!("M{number}"));
        assert_eq!(version.to_string().parse(), Ok(version));
    }
    assert_eq!(format!("{:>4}|{:<4}", Version::Micro(3), Version::Normal(7)), "  M3|7   ");
    for wrong in ["", "M", "M0", "M5", "m1", "M01", "01", "+1", "-1", " 1", "1 ", "1.0", "4\u{663}"]
    {
        assert_eq!(wrong.parse::<Version>(), Err(Error::InvalidVersions), "{wrong:?}");
    }
}

/// The formats by their names, which are the endings of files too.
const FORMATS: [(&str, Format); 8] = [
    ("terminal", Format::Terminal),
    ("svg", Format::Svg),
    ("png", Format::Png),
    ("pbm", Format::Pbm),
    ("eps", Format::Eps),
    ("escpos", Format::EscPos),
    ("zpl", Format::Zpl),
    ("pdf", Format::Pdf),
];

#[test]
fn writes_and_reads_formats() {
    for (name, format) in FORMATS {
        assert_eq!((format.to_string().as_str(), name.parse()), (name, Ok(format)));
        assert_eq!(name.to_uppercase().parse(), Ok(format));
    }
    for wrong in ["", ".png", "png ", "gif", "txt", "\u{17f}vg"] {
        assert_eq!(wrong.parse::<Format>(), Err(Error::InvalidFormat), "{wrong:?}");
    }
    assert_eq!(Error::InvalidFormat.to_string(), "there is no such format");
}

/// The path of a file that is not there, in the folder that cargo has for tests.
fn path(name: &str) -> PathBuf {
    let path = PathBuf::from(env!("CARGO_TARGET_TMPDIR")).join(name);
    let _ = fs::remove_file(&path);
    path
}

/// The error of the crate within one of writing.
fn inner(error: &io::Error) -> Option<&Error> {
    error.get_ref().and_then(|inner| inner.downcast_ref())
}

#[test]
fn saves_by_the_ending() {
    let symbol = &symbols()[0];
    for (ending, format) in FORMATS.into_iter().chain([("txt", Format::Terminal)]) {
        for name in [format!("a.b.{ending}"), format!("a.{}", ending.to_uppercase())] {
            let path = path(&name);
            symbol.save(&path).unwrap();
            let picture = symbol.picture(format, &Settings::new()).unwrap();
            assert_eq!(fs::read(&path).unwrap(), picture, "{name}");
            // A longer file is replaced as a whole.
            fs::write(&path, vec![0; picture.len() + 1]).unwrap();
            let settings = Settings::new().scale(3).quiet(1);
            symbol.save_with(&path, &settings).unwrap();
            let picture = symbol.picture(format, &settings).unwrap();
            assert_eq!(fs::read(&path).unwrap(), picture, "{name}");
            fs::remove_file(path).unwrap();
        }
    }
}

#[test]
fn saves_nothing_on_an_error() {
    let symbol = &symbols()[0];
    for name in ["symbol", "symbol.", ".svg", "symbol.gif", "symbol.png ", "png"] {
        let path = path(name);
        let error = symbol.save(&path).unwrap_err();
        assert_eq!(error.kind(), ErrorKind::InvalidInput);
        assert_eq!(inner(&error), Some(&Error::InvalidFormat), "{name}");
        assert!(!path.exists());
    }
    let kept = path("kept.svg");
    fs::write(&kept, "kept").unwrap();
    for settings in [Settings::new().scale(0), Settings::new().dpi(300), Settings::new().at(0, 0)] {
        let error = symbol.save_with(&kept, &settings).unwrap_err();
        assert_eq!(error.kind(), ErrorKind::InvalidInput);
        assert_eq!(inner(&error), symbol.picture(Format::Svg, &settings).err().as_ref());
        assert!(matches!(inner(&error), Some(Error::InvalidSetting { .. })));
    }
    assert_eq!(fs::read(&kept).unwrap(), b"kept");
    fs::remove_file(kept).unwrap();
    let error = symbol.save(path("no folder").join("symbol.svg")).unwrap_err();
    assert_eq!((error.kind(), inner(&error)), (ErrorKind::NotFound, None));
}

/// A stream that takes some bytes, and then no more.
struct Full(usize);

impl Write for Full {
    fn write(&mut self, bytes: &[u8]) -> io::Result<usize> {
        self.0 = self.0.checked_sub(bytes.len()).ok_or(ErrorKind::BrokenPipe)?;
        Ok(bytes.len())
    }

    fn flush(&mut self) -> io::Result<()> {
        Ok(())
    }
}

#[test]
fn writes_to_streams() {
    let symbol = &symbols()[1];
    for (_, format) in FORMATS {
        let settings = Settings::new().scale(2);
        let picture = symbol.picture(format, &settings).unwrap();
        let mut out = b"before".to_vec();
        symbol.write_to(&mut out, format, &settings).unwrap();
        let stream: &mut dyn Write = &mut out;
        symbol.write_to(stream, format, &settings).unwrap();
        assert_eq!(out, [&b"before"[..], &picture, &picture].concat());
    }
    let mut out = Vec::new();
    let error = symbol.write_to(&mut out, Format::Png, &Settings::new().inverted()).unwrap_err();
    assert_eq!(inner(&error), Some(&Error::InvalidSetting { name: "inverted" }));
    assert!(out.is_empty());
    let error = symbol.write_to(Full(10), Format::Png, &Settings::new()).unwrap_err();
    assert_eq!((error.kind(), inner(&error)), (ErrorKind::BrokenPipe, None));
}

#[test]
fn errors_of_writing_have_a_kind() {
    for (error, kind) in [
        (Error::OutOfMemory, ErrorKind::OutOfMemory),
        (Error::UnsupportedProcessor, ErrorKind::Unsupported),
        (Error::DataTooLong { too_many: Some(1) }, ErrorKind::InvalidInput),
    ] {
        let written = io::Error::from(error);
        assert_eq!((written.kind(), inner(&written)), (kind, Some(&error)));
        assert_eq!(written.to_string(), error.to_string());
    }
}

/// What may go from thread to thread, be shared by several, and outlive what it was made of.
const fn is_shared<T: Send + Sync + Unpin + 'static>() {}

const _: () = {
    is_shared::<Symbol>();
    is_shared::<Error>();
    is_shared::<Fault>();
    is_shared::<Level>();
    is_shared::<Version>();
    is_shared::<Options>();
    is_shared::<Settings>();
    is_shared::<Format>();
};

/// The lines before each public item of a source, with its name.
fn items(source: &str) -> Vec<(String, String)> {
    let (mut found, mut above) = (Vec::new(), String::new());
    for line in source.lines().map(str::trim_start) {
        let mut words = line.split(|c: char| !c.is_alphanumeric() && c != '_');
        if line.starts_with("///") || line.starts_with("#[") {
            above.push_str(line);
            continue;
        }
        if words.next() == Some("pub") && ["fn", "enum", "struct"].contains(&words.next().unwrap())
        {
            found.push((words.next().unwrap().to_string(), above.clone()));
        }
        above.clear();
    }
    found
}

#[test]
fn each_public_item_has_an_example() {
    let mut count = 0;
    for entry in fs::read_dir(concat!(env!("CARGO_MANIFEST_DIR"), "/src")).unwrap() {
        let path = entry.unwrap().path();
        if path.ends_with("ffi.rs") {
            continue;
        }
        for (name, above) in items(&fs::read_to_string(&path).unwrap()) {
            assert!(above.contains("```"), "{} of {} has no example", name, path.display());
            count += 1;
        }
    }
    assert!(count > 50, "{count} items alone");
}
