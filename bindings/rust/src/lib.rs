//! QR and Micro QR symbols by a library that is proved. The data are cut into runs of digits,
//! capital letters, Kanji pairs and other bytes. In whichever way neighbouring runs are written
//! together, none fits a smaller symbol or takes fewer bits. The mask is the first of least penalty.
//!
//! ```
//! use sicklespan::{Level, Symbol, Version};
//!
//! let symbol = Symbol::new("Grüße", Level::L)?;
//! assert_eq!((symbol.width(), symbol.version()), (21, Version::Normal(1)));
//! println!("{symbol}");
//! # Ok::<(), sicklespan::Error>(())
//! ```
//!
//! `Symbol::new` is for what people write: a reader that follows the standard shows the text as it
//! was written, in any script. `Symbol::bytes` is for data that are no text.
//!
//! The crate needs a processor with x86-64-v2 (SSE4.2 and POPCNT; every one since about 2013): on
//! any other, each call returns `Error::UnsupportedProcessor`. Calls may be made from several
//! threads at once, and not from a signal handler, since they call `malloc`.
#![deny(unsafe_code)]
#![warn(missing_docs)]

mod error;
mod ffi;
mod gs1;
mod micro;
mod modules;
mod names;
mod options;
mod picture;
mod sequences;
mod terminal;

pub use error::{Error, Fault};
pub use gs1::link_text;
pub use names::{Level, Version};
pub use options::Options;
pub use picture::{Format, Settings};
pub use sequences::{best_cuts, best_text_cuts};

/// The version of the library that is linked.
///
/// ```
/// assert_eq!(sicklespan::version(), env!("CARGO_PKG_VERSION"));
/// ```
pub fn version() -> &'static str {
    ffi::version()
}

/// A symbol, which does not change. `Display` writes it for a terminal, an index is a column and a
/// row, and a loop goes over the rows from the top.
///
/// ```
/// # use sicklespan::{Level, Symbol};
/// let symbol = Symbol::new("hello", Level::M)?;
/// // The finder patterns are in three corners.
/// assert!(symbol[(0, 0)] && symbol[(20, 0)] && symbol[(0, 20)]);
/// let mut dark = 0;
/// for row in &symbol {
///     dark += row.iter().filter(|module| **module).count();
/// }
/// assert_eq!(dark, symbol.modules().iter().filter(|module| **module).count());
/// # Ok::<(), sicklespan::Error>(())
/// ```
#[derive(Clone, Debug, PartialEq, Eq, Hash)]
pub struct Symbol {
    width: usize,
    version: Version,
    level: Level,
    mask: u8,
    modules: Vec<bool>,
}

impl Symbol {
    /// Returns the best symbol of a text at a level, in the smallest of the versions 1 to 40 into
    /// which it fits: of ASCII that of `bytes`, and of other text that of `smallest_text`. `qrlabel`
    /// does the same.
    ///
    /// ```
    /// # use sicklespan::{Level, Symbol};
    /// assert_eq!(Symbol::new("hello", Level::M), Symbol::bytes(b"hello", Level::M));
    /// assert_eq!(Symbol::new("Grüße", Level::M), Symbol::smallest_text("Grüße", Level::M));
    /// ```
    ///
    /// # Errors
    ///
    /// `DataTooLong` only where nothing that is read as the text fits a version at the level;
    /// `OutOfMemory`.
    pub fn new(text: &str, level: Level) -> Result<Symbol, Error> {
        Symbol::auto(text, level)
    }

    /// Returns what `new` returns, by the name that the call has in C.
    ///
    /// ```
    /// # use sicklespan::{Level, Symbol};
    /// assert_eq!(Symbol::auto("hello", Level::M), Symbol::new("hello", Level::M));
    /// ```
    ///
    /// # Errors
    ///
    /// As `new`.
    pub fn auto(text: &str, level: Level) -> Result<Symbol, Error> {
        Symbol::auto_with(text, &Options::new(level))
    }

    /// Returns the best symbol of some bytes at a level, in the smallest of the versions 1 to 40
    /// into which they fit. It does not say which characters they are, and pairs of them go in the
    /// Kanji mode: where they are UTF-8 beyond ASCII, readers may show other characters. `new` is
    /// for a text.
    ///
    /// ```
    /// # use sicklespan::{Error, Level, Symbol};
    /// // Version 40 holds 2953 bytes at level L.
    /// assert_eq!(Symbol::bytes(&[0xff; 2953], Level::L)?.width(), 177);
    /// let error = Error::DataTooLong { too_many: Some(1) };
    /// assert_eq!(Symbol::bytes(&[0xff; 2954], Level::L), Err(error));
    /// # Ok::<(), Error>(())
    /// ```
    ///
    /// # Errors
    ///
    /// `DataTooLong` exactly where they fit no version at the level; `OutOfMemory`.
    pub fn bytes(bytes: &[u8], level: Level) -> Result<Symbol, Error> {
        Symbol::bytes_with(bytes, &Options::new(level))
    }

    /// Returns the smallest symbol of some bytes at a level in which no segment is in the Kanji
    /// mode, for readers that show a pair of bytes in that mode as another character.
    ///
    /// ```
    /// # use sicklespan::{Level, Symbol};
    /// let bytes = [0x93, 0x5f];
    /// assert_ne!(Symbol::bytes(&bytes, Level::M), Symbol::bytes_without_kanji(&bytes, Level::M));
    /// assert_eq!(Symbol::bytes(b"ab", Level::M), Symbol::bytes_without_kanji(b"ab", Level::M));
    /// ```
    ///
    /// # Errors
    ///
    /// As `bytes`.
    pub fn bytes_without_kanji(bytes: &[u8], level: Level) -> Result<Symbol, Error> {
        Symbol::bytes_without_kanji_with(bytes, &Options::new(level))
    }

    /// Returns the smallest symbol of a text at a level: in the modes, and after the ECI
    /// designators of ISO/IEC 8859 (but parts 10 and 14), Shift JIS and UTF-8, that take the fewest
    /// bits. A reader that follows the standard finds the text in it, and no symbol that is read as
    /// the text, at the level, is smaller.
    ///
    /// ```
    /// # use sicklespan::{Level, Symbol, Version};
    /// let text = "\u{5e02}\u{5317}\u{524d}\u{5009}\u{6771}";
    /// assert_eq!(Symbol::smallest_text(text, Level::M)?.version(), Version::Normal(1));
    /// assert_eq!(Symbol::text(text, Level::M)?.version(), Version::Normal(2));
    /// # Ok::<(), sicklespan::Error>(())
    /// ```
    ///
    /// # Errors
    ///
    /// `DataTooLong` only where nothing that is read as the text fits a version at the level;
    /// `OutOfMemory`.
    pub fn smallest_text(text: &str, level: Level) -> Result<Symbol, Error> {
        Symbol::smallest_text_with(text, &Options::new(level))
    }

    /// Returns the best symbol of a text at a level, which says that it is in UTF-8 (ECI 26), so
    /// that readers need not guess its script: for readers that know no other designator. This
    /// takes 12 bits: ASCII is read alike without it, by `new`.
    ///
    /// ```
    /// # use sicklespan::{Level, Symbol};
    /// assert_eq!(Symbol::text("Gr\u{fc}\u{df}e", Level::M)?.width(), 21);
    /// # Ok::<(), sicklespan::Error>(())
    /// ```
    ///
    /// # Errors
    ///
    /// As `bytes`.
    pub fn text(text: &str, level: Level) -> Result<Symbol, Error> {
        Symbol::text_with(text, &Options::new(level))
    }

    /// Returns the symbol of some bytes that the options ask for.
    ///
    /// ```
    /// # use sicklespan::{Level, Options, Symbol};
    /// let options = Options::new(Level::L).strongest();
    /// // Version 1 holds 7 bytes at level H, too.
    /// assert_eq!(Symbol::bytes_with(b"7 bytes", &options)?.level(), Level::H);
    /// # Ok::<(), sicklespan::Error>(())
    /// ```
    ///
    /// # Errors
    ///
    /// `InvalidVersions`; then as `bytes`, for the versions of the options.
    pub fn bytes_with(bytes: &[u8], options: &Options) -> Result<Symbol, Error> {
        Symbol::asked(ffi::Content::Bytes, bytes, options)
    }

    /// Returns the symbol of some bytes without the Kanji mode that the options ask for, as
    /// `bytes_without_kanji` says.
    ///
    /// ```
    /// # use sicklespan::{Level, Options, Symbol, Version};
    /// let options = Options::new(Level::M).min_version(3);
    /// let symbol = Symbol::bytes_without_kanji_with(&[0x93, 0x5f], &options)?;
    /// assert_eq!(symbol.version(), Version::Normal(3));
    /// # Ok::<(), sicklespan::Error>(())
    /// ```
    ///
    /// # Errors
    ///
    /// As `bytes_with`.
    pub fn bytes_without_kanji_with(bytes: &[u8], options: &Options) -> Result<Symbol, Error> {
        Symbol::asked(ffi::Content::BytesWithoutKanji, bytes, options)
    }

    /// Returns the symbol of a text that the options ask for, as `auto` says.
    ///
    /// ```
    /// # use sicklespan::{Level, Options, Symbol, Version};
    /// let options = Options::new(Level::M).min_version(2).max_version(5);
    /// assert_eq!(Symbol::auto_with("Grüße", &options)?.version(), Version::Normal(2));
    /// # Ok::<(), sicklespan::Error>(())
    /// ```
    ///
    /// # Errors
    ///
    /// `InvalidVersions`; then as `auto`.
    pub fn auto_with(text: &str, options: &Options) -> Result<Symbol, Error> {
        Symbol::asked(ffi::Content::Auto, text.as_bytes(), options)
    }

    /// Returns the symbol of a text that the options ask for, as `smallest_text` says.
    ///
    /// ```
    /// # use sicklespan::{Level, Options, Symbol};
    /// let options = Options::new(Level::L).strongest();
    /// // Version 1 holds 104 bits at level Q, and five Kanji take 77.
    /// let symbol = Symbol::smallest_text_with("市北前倉東", &options)?;
    /// assert_eq!((symbol.width(), symbol.level()), (21, Level::Q));
    /// # Ok::<(), sicklespan::Error>(())
    /// ```
    ///
    /// # Errors
    ///
    /// `InvalidVersions`; then as `smallest_text`, for the versions of the options.
    pub fn smallest_text_with(text: &str, options: &Options) -> Result<Symbol, Error> {
        Symbol::asked(ffi::Content::SmallestText, text.as_bytes(), options)
    }

    /// Returns the symbol of a text that the options ask for, as `text` says.
    ///
    /// ```
    /// # use sicklespan::{Error, Level, Options, Symbol};
    /// // Version 1 holds 16 bytes at level L after the 12 bits that say UTF-8.
    /// let options = Options::new(Level::L).max_version(1);
    /// assert!(Symbol::text_with("sixteen letters.", &options).is_ok());
    /// let error = Error::DataTooLong { too_many: Some(1) };
    /// assert_eq!(Symbol::text_with("seventeen letters", &options), Err(error));
    /// ```
    ///
    /// # Errors
    ///
    /// `InvalidVersions`; then as `text`.
    pub fn text_with(text: &str, options: &Options) -> Result<Symbol, Error> {
        Symbol::asked(ffi::Content::Text, text.as_bytes(), options)
    }

    /// Returns the number of modules on a side.
    ///
    /// ```
    /// # use sicklespan::{Level, Symbol};
    /// assert_eq!(Symbol::new("hello", Level::M)?.width(), 21);
    /// # Ok::<(), sicklespan::Error>(())
    /// ```
    pub fn width(&self) -> usize {
        self.width
    }

    /// Returns the version.
    ///
    /// ```
    /// # use sicklespan::{Level, Symbol};
    /// // Version 1 holds 14 bytes at level M.
    /// assert_eq!(Symbol::bytes(&[0xff; 14], Level::M)?.version().to_string(), "1");
    /// assert_eq!(Symbol::bytes(&[0xff; 15], Level::M)?.version().to_string(), "2");
    /// # Ok::<(), sicklespan::Error>(())
    /// ```
    pub fn version(&self) -> Version {
        self.version
    }

    /// Returns the level: the one that was asked for, or a greater one of the strongest symbol.
    ///
    /// ```
    /// # use sicklespan::{Level, Options, Symbol};
    /// assert_eq!(Symbol::new("hello", Level::L)?.level(), Level::L);
    /// let strongest = Options::new(Level::L).strongest();
    /// assert_eq!(Symbol::auto_with("hello", &strongest)?.level(), Level::H);
    /// # Ok::<(), sicklespan::Error>(())
    /// ```
    pub fn level(&self) -> Level {
        self.level
    }

    /// Returns the number of the mask pattern: 0 to 7, or 0 to 3 of a Micro symbol.
    ///
    /// ```
    /// # use sicklespan::{Level, Symbol};
    /// assert_eq!(Symbol::micro(b"12345", Level::L)?.mask(), 2);
    /// # Ok::<(), sicklespan::Error>(())
    /// ```
    pub fn mask(&self) -> u8 {
        self.mask
    }

    /// The symbol that a call with options draws.
    fn asked(content: ffi::Content, data: &[u8], options: &Options) -> Result<Symbol, Error> {
        let options = options.numbers();
        Symbol::drawn(content, data, &options, |modules, shape| {
            ffi::symbol(content, data, &options, modules, shape)
        })
    }

    /// What a call draws of some data.
    fn drawn(
        content: ffi::Content,
        data: &[u8],
        options: &ffi::Options,
        call: impl FnOnce(&mut [u8], &mut ffi::Shape) -> i32,
    ) -> Result<Symbol, Error> {
        let mut bytes = vec![0; ffi::greatest_size()];
        let mut shape = ffi::Shape::default();
        let status = call(&mut bytes, &mut shape);
        if status != 0 {
            return Err(Error::of_data(status, content, data, options));
        }
        Ok(Symbol::of(&bytes[..(shape.width * shape.width) as usize], &shape))
    }

    /// The symbol of some modules and their shape.
    fn of(modules: &[u8], shape: &ffi::Shape) -> Symbol {
        let number = shape.version as u8;
        Symbol {
            width: shape.width as usize,
            version: if shape.micro { Version::Micro(number) } else { Version::Normal(number) },
            level: Level::ALL[shape.level as usize],
            mask: shape.mask as u8,
            modules: modules.iter().map(|byte| *byte == 1).collect(),
        }
    }
}
