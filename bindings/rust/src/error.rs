//! Why there is no symbol, or no picture.
use crate::ffi::{self, Content};
use std::{fmt, io};

/// Where an element of a GS1 text has a fault, and what it is.
///
/// ```
/// use sicklespan::{Error, Level, Symbol};
///
/// match Symbol::gs1("(10)ABC(17)261331", Level::M) {
///     Err(Error::WrongValue(fault)) => {
///         assert_eq!((fault.element, fault.identifier, fault.character), (2, Some(17), Some(3)));
///         assert_eq!(fault.to_string(), "element 2 (17), character 3: no such month");
///     }
///     other => panic!("{other:?}"),
/// }
/// ```
#[derive(Clone, Copy, Debug, PartialEq, Eq, Hash)]
pub struct Fault {
    /// The number of the element, from 1.
    pub element: usize,
    /// The identifier as a number, 1 of `(01)`, where it is known: not of unchecked elements, nor
    /// of one that is not two to four digits.
    pub identifier: Option<u16>,
    /// The character of the value, from 1, where the fault is one of a value and known.
    pub character: Option<usize>,
    /// What is wrong, in a few words.
    pub reason: &'static str,
}

impl fmt::Display for Fault {
    fn fmt(&self, f: &mut fmt::Formatter<'_>) -> fmt::Result {
        write!(f, "element {}", self.element)?;
        if let Some(identifier) = self.identifier {
            write!(f, " ({identifier:02})")?;
        }
        if let Some(character) = self.character {
            write!(f, ", character {character}")?;
        }
        write!(f, ": {}", self.reason)
    }
}

/// Why there is no symbol, or no picture. Its text is that of the library, with what its fields
/// say.
///
/// ```
/// use sicklespan::{Error, Level, Options, Symbol};
///
/// // Version 1 holds 7 bytes at level H.
/// let options = Options::new(Level::H).max_version(1);
/// let error = Symbol::bytes_with(b"ten bytes.", &options).unwrap_err();
/// assert_eq!(error, Error::DataTooLong { too_many: Some(3) });
/// assert_eq!(error.to_string(), "the data are too long, by 3 bytes");
///
/// let error = Symbol::gs1("(10)ABC(01)1", Level::M).unwrap_err();
/// assert_eq!(error.to_string(), "element 2 (01), character 2: the value is too short");
/// ```
#[derive(Clone, Copy, Debug, PartialEq, Eq, Hash)]
#[non_exhaustive]
pub enum Error {
    /// The data fit no symbol that was asked for.
    DataTooLong {
        /// How many bytes are too many: without the last ones, up to the next place where they may
        /// be cut, the data fit. Of the parts of a sequence, and of a link, it is not known.
        too_many: Option<usize>,
    },
    /// The C library found no memory.
    OutOfMemory,
    /// A Micro symbol was asked for at level H, or a text names no level.
    InvalidLevel,
    /// The greatest version of a sequence is not 1 to 40.
    InvalidMaxVersion,
    /// The parts of a sequence are not 2 to 16.
    InvalidPartCount,
    /// A cut is below the one before it, or above the length of the message.
    InvalidCuts,
    /// The versions are not 1 to 40, or the least is above the greatest; or a text names none.
    InvalidVersions,
    /// A byte of elements as readers find them is no character of a GS1 element.
    InvalidCharacter {
        /// The place of the byte, from 0.
        place: usize,
    },
    /// No Micro symbol is read as the text.
    UnwritableText {
        /// The place of the first character that a Micro symbol cannot have after those before it,
        /// in bytes from 0.
        place: usize,
    },
    /// The text does not begin with a bracketed identifier.
    NoElements,
    /// An identifier is not two to four digits in brackets.
    InvalidIdentifier(Fault),
    /// An identifier is not assigned.
    UnknownIdentifier(Fault),
    /// An element has no value, or no bracket before it.
    EmptyValue(Fault),
    /// A value has more characters than it may have.
    ValueTooLong(Fault),
    /// A value is too short, or has another length than one that is fixed.
    WrongLength(Fault),
    /// A character is none that stands at this place of a value.
    WrongCharacter(Fault),
    /// A check digit, or a pair of check characters, is wrong.
    WrongCheckDigit(Fault),
    /// A value is wrong in another way: no such date, say.
    WrongValue(Fault),
    /// The domain of a link is no host name, with or without a port and a path.
    WrongDomain,
    /// No element is the key of a link, as (01), (00) or (414) are.
    NoKey,
    /// An element is a key of links, and there is another after it.
    SecondKey(Fault),
    /// A qualifier of the key may not stand beside another one.
    WrongQualifier(Fault),
    /// The identifier of an element stands once more after it.
    RepeatedElement(Fault),
    /// An element needs one that is not there.
    MissingElement(Fault),
    /// An element may not stand beside another one.
    ConflictingElement(Fault),
    /// The processor lacks x86-64-v2, which the library needs.
    UnsupportedProcessor,
    /// A setting of a picture is out of its bounds, or the format does not have it.
    InvalidSetting {
        /// The name of the setting, which is that of its method in `Settings`.
        name: &'static str,
    },
    /// A text, or the ending of a file's name, names no format of pictures.
    InvalidFormat,
}

impl Error {
    /// The error of a status of the header. Those that are not here come only of pointers, of texts
    /// that are not UTF-8, of unknown widths and formats, none of which the crate passes, and of
    /// short buffers.
    fn from(status: i32, fault: Fault) -> Error {
        match status {
            1 => Error::DataTooLong { too_many: None },
            2 => Error::OutOfMemory,
            3 => Error::InvalidLevel,
            4 => Error::InvalidMaxVersion,
            5 => Error::InvalidPartCount,
            6 => Error::InvalidCuts,
            11 => Error::InvalidVersions,
            12 => Error::WrongCharacter(fault),
            13 => Error::NoElements,
            14 => Error::InvalidIdentifier(fault),
            15 => Error::UnknownIdentifier(fault),
            16 => Error::EmptyValue(fault),
            17 => Error::ValueTooLong(fault),
            18 => Error::WrongLength(fault),
            19 => Error::WrongCheckDigit(fault),
            24 => Error::WrongValue(fault),
            25 => Error::WrongDomain,
            26 => Error::NoKey,
            27 => Error::SecondKey(fault),
            28 => Error::WrongQualifier(fault),
            29 => Error::RepeatedElement(fault),
            30 => Error::MissingElement(fault),
            31 => Error::ConflictingElement(fault),
            33 => Error::UnsupportedProcessor,
            _ => unreachable!("a status that a slice of full size can have"),
        }
    }

    /// The error of a status that says nothing of data.
    pub(crate) fn of(status: i32) -> Error {
        let reason = ffi::status_text(status);
        Error::from(status, Fault { element: 0, identifier: None, character: None, reason })
    }

    /// The error of a status of a call with data.
    pub(crate) fn of_data(
        status: i32,
        content: Content,
        data: &[u8],
        options: &ffi::Options,
    ) -> Error {
        if ![1, 24, 30, 31, 32].contains(&status) && !(12..=19).contains(&status) {
            return Error::of(status);
        }
        if content == Content::Gs1 && status != 1 {
            return Error::of_fault(ffi::gs1_fault(data));
        }
        let (found, good) = ffi::check(content, data, options);
        // The status of the data is the same, unless there is no memory now.
        match found {
            1 => Error::DataTooLong { too_many: Some(data.len() - good) },
            12 if content == Content::Elements => Error::InvalidCharacter { place: good },
            32 => Error::UnwritableText { place: good },
            _ => {
                let element = data[..good].iter().filter(|byte| **byte == b'(').count() + 1;
                let reason = ffi::status_text(found);
                Error::from(found, Fault { element, identifier: None, character: None, reason })
            }
        }
    }

    /// The error of a status of a link.
    pub(crate) fn of_link(status: i32, text: &str, domain: &str) -> Error {
        if (12..=19).contains(&status) || (24..=31).contains(&status) {
            return Error::of_fault(ffi::link_fault(text.as_bytes(), domain.as_bytes()));
        }
        Error::of(status)
    }

    /// The error of a status and of the fault that comes with it.
    fn of_fault((status, fault): (i32, ffi::Fault)) -> Error {
        let identifier = u16::try_from(fault.identifier).ok();
        let character = if fault.character > 0 { Some(fault.character) } else { None };
        let reason = ffi::static_text(fault.reason);
        Error::from(status, Fault { element: fault.element, identifier, character, reason })
    }

    /// Returns where an element of a GS1 text has the fault, if it is one of an element.
    ///
    /// ```
    /// # use sicklespan::{Level, Symbol};
    /// let error = Symbol::gs1("(01)09506000134353", Level::M).unwrap_err();
    /// assert_eq!(error.fault().map(|fault| fault.reason), Some("wrong check digit"));
    /// ```
    pub fn fault(&self) -> Option<&Fault> {
        match self {
            Error::InvalidIdentifier(fault)
            | Error::UnknownIdentifier(fault)
            | Error::EmptyValue(fault)
            | Error::ValueTooLong(fault)
            | Error::WrongLength(fault)
            | Error::WrongCharacter(fault)
            | Error::WrongCheckDigit(fault)
            | Error::WrongValue(fault)
            | Error::SecondKey(fault)
            | Error::WrongQualifier(fault)
            | Error::RepeatedElement(fault)
            | Error::MissingElement(fault)
            | Error::ConflictingElement(fault) => Some(fault),
            _ => None,
        }
    }

    /// The number of the status.
    fn status(self) -> i32 {
        match self {
            Error::DataTooLong { .. } => 1,
            Error::OutOfMemory => 2,
            Error::InvalidLevel => 3,
            Error::InvalidMaxVersion => 4,
            Error::InvalidPartCount => 5,
            Error::InvalidCuts => 6,
            Error::InvalidVersions => 11,
            Error::InvalidCharacter { .. } | Error::WrongCharacter(_) => 12,
            Error::NoElements => 13,
            Error::InvalidIdentifier(_) => 14,
            Error::UnknownIdentifier(_) => 15,
            Error::EmptyValue(_) => 16,
            Error::ValueTooLong(_) => 17,
            Error::WrongLength(_) => 18,
            Error::WrongCheckDigit(_) => 19,
            Error::InvalidFormat => 21,
            Error::InvalidSetting { .. } => 22,
            Error::WrongValue(_) => 24,
            Error::WrongDomain => 25,
            Error::NoKey => 26,
            Error::SecondKey(_) => 27,
            Error::WrongQualifier(_) => 28,
            Error::RepeatedElement(_) => 29,
            Error::MissingElement(_) => 30,
            Error::ConflictingElement(_) => 31,
            Error::UnwritableText { .. } => 32,
            Error::UnsupportedProcessor => 33,
        }
    }
}

impl fmt::Display for Error {
    fn fmt(&self, f: &mut fmt::Formatter<'_>) -> fmt::Result {
        if let Some(fault) = self.fault() {
            return write!(f, "{fault}");
        }
        let text = ffi::status_text(self.status());
        match self {
            Error::DataTooLong { too_many: Some(1) } => write!(f, "{text}, by 1 byte"),
            Error::DataTooLong { too_many: Some(count) } => write!(f, "{text}, by {count} bytes"),
            Error::InvalidCharacter { place } | Error::UnwritableText { place } => {
                write!(f, "{text}, at byte {place}")
            }
            Error::InvalidSetting { name } => write!(f, "{text}: {name}"),
            _ => f.write_str(text),
        }
    }
}

impl std::error::Error for Error {}

impl From<Error> for io::Error {
    /// Returns the error of a call that writes a picture, within which this one is.
    ///
    /// ```
    /// use sicklespan::{Error, Level, Settings, Symbol};
    /// use std::io::ErrorKind;
    ///
    /// let symbol = Symbol::new("hello", Level::M)?;
    /// let error = symbol.save_with("hello.svg", &Settings::new().dpi(300)).unwrap_err();
    /// assert_eq!(error.kind(), ErrorKind::InvalidInput);
    /// let inner = error.get_ref().and_then(|inner| inner.downcast_ref::<Error>());
    /// assert_eq!(inner, Some(&Error::InvalidSetting { name: "dpi" }));
    /// # Ok::<(), Error>(())
    /// ```
    fn from(error: Error) -> io::Error {
        let kind = match error {
            Error::OutOfMemory => io::ErrorKind::OutOfMemory,
            Error::UnsupportedProcessor => io::ErrorKind::Unsupported,
            _ => io::ErrorKind::InvalidInput,
        };
        io::Error::new(kind, error)
    }
}
