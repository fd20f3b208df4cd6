//! Levels and versions, and these and formats as people write them.
use crate::{ffi, Error, Format};
use std::fmt;
use std::str::FromStr;

/// How much damage can be corrected: about 7, 15, 25 and 30 percent of a symbol. `Display` writes
/// the letter, and `FromStr` reads it.
///
/// ```
/// # use sicklespan::{Error, Level};
/// assert_eq!(Level::Q.to_string(), "Q");
/// assert_eq!("q".parse(), Ok(Level::Q));
/// assert_eq!("X".parse::<Level>(), Err(Error::InvalidLevel));
/// assert!(Level::default() == Level::M && Level::M < Level::H);
/// ```
#[derive(Clone, Copy, Debug, Default, PartialEq, Eq, PartialOrd, Ord, Hash)]
pub enum Level {
    /// Low.
    L = 0,
    /// Medium, the default.
    #[default]
    M = 1,
    /// Quartile.
    Q = 2,
    /// High; no Micro symbol has it.
    H = 3,
}

impl Level {
    pub(crate) const ALL: [Level; 4] = [Level::L, Level::M, Level::Q, Level::H];
}

/// Which symbol it is by its size. `Display` writes the number, with M before that of a Micro
/// symbol, and `FromStr` reads it.
///
/// ```
/// # use sicklespan::{Error, Version};
/// assert_eq!(Version::try_from(7), Ok(Version::Normal(7)));
/// assert_eq!(Version::try_from(41), Err(Error::InvalidVersions));
/// assert_eq!(Version::Micro(2).to_string(), "M2");
/// assert_eq!("M2".parse(), Ok(Version::Micro(2)));
/// ```
#[derive(Clone, Copy, Debug, PartialEq, Eq, PartialOrd, Ord, Hash)]
pub enum Version {
    /// M1 to M4, of 11, 13, 15 and 17 modules a side.
    Micro(u8),
    /// 1 to 40, of 21, 25 and so on to 177 modules a side.
    Normal(u8),
}

impl Version {
    /// The version whose symbols have this many modules a side, if there is one.
    ///
    /// ```
    /// # use sicklespan::Version;
    /// assert_eq!(Version::of_width(177), Some(Version::Normal(40)));
    /// assert_eq!(Version::of_width(11), Some(Version::Micro(1)));
    /// assert_eq!(Version::of_width(12), None);
    /// ```
    pub fn of_width(width: usize) -> Option<Version> {
        match ffi::version_of_width(width) {
            0 => None,
            number if width < 21 => Some(Version::Micro(number as u8)),
            number => Some(Version::Normal(number as u8)),
        }
    }
}

impl fmt::Display for Level {
    /// Writes the letter.
    fn fmt(&self, f: &mut fmt::Formatter<'_>) -> fmt::Result {
        f.pad(match self {
            Level::L => "L",
            Level::M => "M",
            Level::Q => "Q",
            Level::H => "H",
        })
    }
}

impl FromStr for Level {
    type Err = Error;

    /// Reads the letter, in capitals or not.
    ///
    /// # Errors
    ///
    /// `InvalidLevel` for anything else.
    fn from_str(text: &str) -> Result<Level, Error> {
        match text {
            "L" | "l" => Ok(Level::L),
            "M" | "m" => Ok(Level::M),
            "Q" | "q" => Ok(Level::Q),
            "H" | "h" => Ok(Level::H),
            _ => Err(Error::InvalidLevel),
        }
    }
}

impl fmt::Display for Version {
    /// Writes the number, with M before that of a Micro symbol.
    fn fmt(&self, f: &mut fmt::Formatter<'_>) -> fmt::Result {
        match self {
            Version::Micro(number) => f.pad(&format!("M{number}")),
            Version::Normal(number) => f.pad(&number.to_string()),
        }
    }
}

impl FromStr for Version {
    type Err = Error;

    /// Reads `1` to `40`, or `M1` to `M4`.
    ///
    /// # Errors
    ///
    /// `InvalidVersions` for anything else.
    fn from_str(text: &str) -> Result<Version, Error> {
        let micro = (1..=4).map(Version::Micro);
        let mut all = micro.chain((1..=40).map(Version::Normal));
        all.find(|version| version.to_string() == text).ok_or(Error::InvalidVersions)
    }
}

impl TryFrom<u8> for Version {
    type Error = Error;

    /// Returns the version 1 to 40 of the number; that of a Micro symbol is `Version::Micro`.
    ///
    /// # Errors
    ///
    /// `InvalidVersions` for any other number.
    fn try_from(number: u8) -> Result<Version, Error> {
        match number {
            1..=40 => Ok(Version::Normal(number)),
            _ => Err(Error::InvalidVersions),
        }
    }
}

/// The names of the formats, which are the endings of files.
const FORMATS: [(&str, Format); 8] = [
    ("terminal", Format::Terminal),
    ("svg", Format::Svg),
    ("png", Format::Png),
    ("pbm", Format::Pbm),
    ("eps", Format::Eps),
    ("escpos", Format::EscPos),
    ("zpl", Format::Zpl),
    ("pdf", Format::Pdf),
];

impl fmt::Display for Format {
    /// Writes the name: `terminal`, `svg`, `png`, `pbm`, `eps`, `escpos`, `zpl` or `pdf`.
    fn fmt(&self, f: &mut fmt::Formatter<'_>) -> fmt::Result {
        f.pad(FORMATS[*self as usize].0)
    }
}

impl FromStr for Format {
    type Err = Error;

    /// Reads the name, in capitals or not.
    ///
    /// # Errors
    ///
    /// `InvalidFormat` for anything else.
    fn from_str(text: &str) -> Result<Format, Error> {
        let found = FORMATS.iter().find(|(name, _)| name.eq_ignore_ascii_case(text));
        found.map(|(_, format)| *format).ok_or(Error::InvalidFormat)
    }
}
