//! What is asked of a symbol beside its data.
use crate::{ffi, Level};

/// What is asked of a symbol beside its data: its level, the versions that it may have, and whether
/// it is to have the greatest level that costs no module.
///
/// ```
/// use sicklespan::{Level, Options, Symbol, Version};
///
/// let options = Options::new(Level::L).min_version(2).max_version(10).strongest();
/// let symbol = Symbol::bytes_with(b"hello", &options)?;
/// assert_eq!((symbol.version(), symbol.level()), (Version::Normal(2), Level::H));
/// # Ok::<(), sicklespan::Error>(())
/// ```
#[derive(Clone, Copy, Debug, PartialEq, Eq, Hash)]
pub struct Options {
    level: Level,
    min_version: u8,
    max_version: u8,
    strongest: bool,
}

impl Options {
    /// Returns the options of a level, with the versions 1 to 40.
    ///
    /// ```
    /// # use sicklespan::{Level, Options};
    /// assert_eq!(Options::new(Level::M), Options::default());
    /// ```
    pub fn new(level: Level) -> Options {
        Options { level, min_version: 1, max_version: 40, strongest: false }
    }

    /// Returns the same options with another least version, 1 to 40.
    ///
    /// ```
    /// # use sicklespan::{Error, Level, Options, Symbol};
    /// let options = Options::new(Level::M).min_version(5);
    /// assert_eq!(Symbol::auto_with("hello", &options)?.width(), 37);
    /// let none = options.min_version(0);
    /// assert_eq!(Symbol::auto_with("hello", &none), Err(Error::InvalidVersions));
    /// # Ok::<(), Error>(())
    /// ```
    pub fn min_version(self, min_version: u8) -> Options {
        Options { min_version, ..self }
    }

    /// Returns the same options with another greatest version, 1 to 40.
    ///
    /// ```
    /// # use sicklespan::{Error, Level, Options, Symbol};
    /// // Version 1 holds 14 bytes at level M.
    /// let options = Options::new(Level::M).max_version(1);
    /// let error = Error::DataTooLong { too_many: Some(2) };
    /// assert_eq!(Symbol::auto_with("sixteen letters.", &options), Err(error));
    /// ```
    pub fn max_version(self, max_version: u8) -> Options {
        Options { max_version, ..self }
    }

    /// Returns the same options, with the greatest level at which the symbol is no larger.
    ///
    /// ```
    /// # use sicklespan::{Level, Options, Symbol};
    /// let symbol = Symbol::auto_with("hello", &Options::new(Level::L).strongest())?;
    /// assert_eq!((symbol.width(), symbol.level()), (21, Level::H));
    /// # Ok::<(), sicklespan::Error>(())
    /// ```
    pub fn strongest(self) -> Options {
        Options { strongest: true, ..self }
    }

    pub(crate) fn numbers(self) -> ffi::Options {
        ffi::Options {
            level: self.level as i32,
            min_version: self.min_version.into(),
            max_version: self.max_version.into(),
            strongest: self.strongest.into(),
        }
    }
}

impl Default for Options {
    /// Returns the options of level M.
    fn default() -> Options {
        Options::new(Level::M)
    }
}
