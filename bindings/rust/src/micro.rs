//! Micro symbols.
use crate::{ffi, Error, Level, Options, Symbol};

impl Symbol {
    /// Returns the best Micro symbol of some bytes, in the smallest of M1 to M4 into which they
    /// fit. It does not say in which character set they are: of bytes that are not ASCII readers
    /// may show other characters.
    ///
    /// ```
    /// # use sicklespan::{Error, Level, Symbol, Version};
    /// assert_eq!(Symbol::micro(b"12345", Level::L)?.version(), Version::Micro(1));
    /// assert_eq!(Symbol::micro(b"12345", Level::H), Err(Error::InvalidLevel));
    /// # Ok::<(), Error>(())
    /// ```
    ///
    /// # Errors
    ///
    /// `InvalidLevel` for level H; then `DataTooLong` exactly where they fit none of them, and
    /// `OutOfMemory`.
    pub fn micro(bytes: &[u8], level: Level) -> Result<Symbol, Error> {
        Symbol::drawn_micro(ffi::Content::Micro, bytes, level)
    }

    /// Returns the smallest Micro symbol of a text. It has no ECI designators: its characters are
    /// those of ASCII alone, or those of the Kanji mode and of ASCII but `\` and `~`, for which
    /// some readers show other signs there.
    ///
    /// ```
    /// # use sicklespan::{Error, Level, Symbol, Version};
    /// let text = "\u{5e02}\u{5317}\u{524d}\u{5009}\u{6771}";
    /// assert_eq!(Symbol::micro_text(text, Level::L)?.version(), Version::Micro(3));
    /// let error = Error::UnwritableText { place: 3 };
    /// assert_eq!(Symbol::micro_text("caf\u{e9}", Level::L), Err(error));
    /// # Ok::<(), Error>(())
    /// ```
    ///
    /// # Errors
    ///
    /// `InvalidLevel` for level H; then `UnwritableText` only where no Micro symbol is read as
    /// the text; then `DataTooLong` only where nothing that is read as it fits any of M1 to M4
    /// at the level, and `OutOfMemory`.
    pub fn micro_text(text: &str, level: Level) -> Result<Symbol, Error> {
        Symbol::drawn_micro(ffi::Content::MicroText, text.as_bytes(), level)
    }

    /// The Micro symbol of bytes or of a text.
    fn drawn_micro(content: ffi::Content, data: &[u8], level: Level) -> Result<Symbol, Error> {
        let options = Options::new(level).numbers();
        Symbol::drawn(content, data, &options, |modules, shape| {
            ffi::micro(content, data, level as i32, modules, shape)
        })
    }
}
