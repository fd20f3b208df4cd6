//! GS1 elements and their links.
use crate::error::Error;
use crate::{ffi, Level, Options, Symbol};

/// Returns the GS1 Digital Link of elements as people write them, at a domain: the key comes first,
/// then its qualifiers, and the other elements as a query. The elements are tested as `Symbol::gs1`
/// does it. The domain is a host name of letters, digits, `-` and `.`, with a port or without, and
/// with the path at which the link begins or without: `example.com/shop`.
///
/// ```
/// # use sicklespan::{link_text, Error};
/// let link = link_text("(17)261231(10)ABC(01)09506000134352", "id.gs1.org")?;
/// assert_eq!(link, "https://id.gs1.org/01/09506000134352/10/ABC?17=261231");
/// assert_eq!(link_text("(10)ABC", "id.gs1.org"), Err(Error::NoKey));
/// # Ok::<(), Error>(())
/// ```
///
/// # Errors
///
/// `DataTooLong` for a text of more than 11815 bytes; those of `Symbol::gs1` for a fault of the
/// elements; `WrongDomain`; `NoKey`; of the first element that has a fault `WrongQualifier`,
/// `SecondKey` or `RepeatedElement`; of the first that may not stand beside the others
/// `MissingElement` or `ConflictingElement`; `OutOfMemory`.
pub fn link_text(text: &str, domain: &str) -> Result<String, Error> {
    let (at, host) = (text.as_bytes(), domain.as_bytes());
    let mut size = 0;
    let mut link = Vec::new();
    loop {
        match ffi::link_text(at, host, &mut link, &mut size) {
            0 => break,
            ffi::SHORT_BUFFER => link = vec![0; size],
            status => return Err(Error::of_link(status, text, domain)),
        }
    }
    Ok(link.into_iter().map(char::from).collect())
}

impl Symbol {
    /// Returns the best symbol of GS1 elements at a level: identifiers with their values, with the
    /// byte 1D (hex) after each whose length is not fixed, but the last.
    ///
    /// ```
    /// # use sicklespan::{Error, Level, Symbol};
    /// let symbol = Symbol::elements(b"10ABC\x1d0109506000134352", Level::M)?;
    /// assert_eq!(symbol, Symbol::gs1("(10)ABC(01)09506000134352", Level::M)?);
    /// assert_eq!(Symbol::elements(b"10A B", Level::M), Err(Error::InvalidCharacter { place: 3 }));
    /// # Ok::<(), Error>(())
    /// ```
    ///
    /// # Errors
    ///
    /// `InvalidCharacter` if a byte is no character of an element, nor 1D between two; then as
    /// `bytes`.
    pub fn elements(elements: &[u8], level: Level) -> Result<Symbol, Error> {
        Symbol::elements_with(elements, &Options::new(level))
    }

    /// Returns the best symbol of GS1 elements as people write them. Each element is tested by the
    /// table of identifiers of the GS1 General Specifications, release 25 (January 2025): its
    /// identifier is assigned, and its value has the length, the characters, the check digit, the
    /// date, the country and what else the table asks for. The elements stand together: beside each
    /// are those that it needs, as a batch (10) needs a trade item (01), and none that it excludes;
    /// and an identifier that stands twice has one value.
    ///
    /// ```
    /// # use sicklespan::{Error, Level, Symbol};
    /// let written = Symbol::gs1("(01)09506000134352(10)ABC123", Level::M)?;
    /// assert_eq!(written, Symbol::elements(b"010950600013435210ABC123", Level::M)?);
    /// let error = Symbol::gs1("(01)09506000134353", Level::M).unwrap_err();
    /// assert_eq!(error.to_string(), "element 1 (01), character 14: wrong check digit");
    /// let error = Symbol::gs1("(10)ABC123", Level::M).unwrap_err();
    /// assert!(matches!(error, Error::MissingElement(fault) if fault.identifier == Some(10)));
    /// # Ok::<(), Error>(())
    /// ```
    ///
    /// # Errors
    ///
    /// `NoElements`, else of the first element that has a fault the first of `InvalidIdentifier`,
    /// `UnknownIdentifier` and, of its value from the left, `EmptyValue`, `WrongLength` (it ends
    /// too early), `WrongCharacter`, `WrongCheckDigit`, `WrongValue`, `ValueTooLong`; then
    /// `DataTooLong` for a text of more than 11815 bytes, and of the first element that may not
    /// stand beside the others `MissingElement` or `ConflictingElement`; then as `bytes`.
    pub fn gs1(text: &str, level: Level) -> Result<Symbol, Error> {
        Symbol::gs1_with(text, &Options::new(level))
    }

    /// Returns the best symbol of GS1 elements as people write them, for identifiers that are newer
    /// than the table of `gs1`: elements are tested for what a reader needs alone. That is the
    /// number of an identifier's digits by its first two, the characters, the predefined lengths
    /// (identifiers that begin with 00 to 04, 11 to 20, 31 to 36 or 41), and the check digits of
    /// 00, 01, 02 and 410 to 417. What else GS1 says of a value, its greatest length, say, or a
    /// date, is not tested, nor which elements stand together.
    ///
    /// ```
    /// # use sicklespan::{Error, Level, Symbol};
    /// assert!(matches!(Symbol::gs1("(4399)x", Level::M), Err(Error::UnknownIdentifier(_))));
    /// assert_eq!(Symbol::gs1_unchecked("(4399)x", Level::M)?.width(), 21);
    /// # Ok::<(), Error>(())
    /// ```
    ///
    /// # Errors
    ///
    /// `NoElements`, else of the first element that has a fault `InvalidIdentifier`,
    /// `UnknownIdentifier`, `EmptyValue`, `ValueTooLong` (more than 90 characters),
    /// `WrongCharacter`, `WrongLength` or `WrongCheckDigit`; then as `bytes`.
    pub fn gs1_unchecked(text: &str, level: Level) -> Result<Symbol, Error> {
        Symbol::gs1_unchecked_with(text, &Options::new(level))
    }

    /// Returns the best symbol of the GS1 Digital Link of elements as people write them, which
    /// `link_text` returns.
    ///
    /// ```
    /// # use sicklespan::{link_text, Error, Level, Symbol};
    /// let text = "(17)261231(10)ABC(01)09506000134352";
    /// let link = link_text(text, "id.gs1.org")?;
    /// let symbol = Symbol::link(text, "id.gs1.org", Level::M)?;
    /// assert_eq!(symbol, Symbol::new(&link, Level::M)?);
    /// # Ok::<(), Error>(())
    /// ```
    ///
    /// # Errors
    ///
    /// As `link_text`; then as `bytes`.
    pub fn link(text: &str, domain: &str, level: Level) -> Result<Symbol, Error> {
        Symbol::link_with(text, domain, &Options::new(level))
    }

    /// Returns the symbol of GS1 elements that the options ask for, as `elements` says.
    ///
    /// ```
    /// # use sicklespan::{Level, Options, Symbol, Version};
    /// let options = Options::new(Level::M).min_version(4);
    /// let symbol = Symbol::elements_with(b"0109506000134352", &options)?;
    /// assert_eq!(symbol.version(), Version::Normal(4));
    /// # Ok::<(), sicklespan::Error>(())
    /// ```
    ///
    /// # Errors
    ///
    /// `InvalidVersions`; then as `elements`.
    pub fn elements_with(elements: &[u8], options: &Options) -> Result<Symbol, Error> {
        Symbol::asked(ffi::Content::Elements, elements, options)
    }

    /// Returns the symbol of GS1 elements as people write them that the options ask for.
    ///
    /// ```
    /// # use sicklespan::{Level, Options, Symbol};
    /// let options = Options::new(Level::L).strongest();
    /// let symbol = Symbol::gs1_with("(01)09506000134352", &options)?;
    /// // 4 bits of FNC1, 14 and 54 of 16 digits: version 1 holds 72 at level H.
    /// assert_eq!((symbol.width(), symbol.level()), (21, Level::H));
    /// # Ok::<(), sicklespan::Error>(())
    /// ```
    ///
    /// # Errors
    ///
    /// `InvalidVersions`; then as `gs1`.
    pub fn gs1_with(text: &str, options: &Options) -> Result<Symbol, Error> {
        Symbol::asked(ffi::Content::Gs1, text.as_bytes(), options)
    }

    /// Returns the symbol of GS1 elements that the options ask for, as `gs1_unchecked` says.
    ///
    /// ```
    /// # use sicklespan::{Level, Options, Symbol, Version};
    /// let options = Options::new(Level::M).min_version(2);
    /// let symbol = Symbol::gs1_unchecked_with("(4399)x", &options)?;
    /// assert_eq!(symbol.version(), Version::Normal(2));
    /// # Ok::<(), sicklespan::Error>(())
    /// ```
    ///
    /// # Errors
    ///
    /// `InvalidVersions`; then as `gs1_unchecked`.
    pub fn gs1_unchecked_with(text: &str, options: &Options) -> Result<Symbol, Error> {
        Symbol::asked(ffi::Content::Gs1Unchecked, text.as_bytes(), options)
    }

    /// Returns the symbol of the GS1 Digital Link of elements that the options ask for.
    ///
    /// ```
    /// # use sicklespan::{link_text, Level, Options, Symbol};
    /// let options = Options::new(Level::L).strongest();
    /// let text = "(01)09506000134352(10)ABC";
    /// let link = link_text(text, "example.com/shop")?;
    /// let symbol = Symbol::link_with(text, "example.com/shop", &options)?;
    /// assert_eq!(symbol, Symbol::auto_with(&link, &options)?);
    /// # Ok::<(), sicklespan::Error>(())
    /// ```
    ///
    /// # Errors
    ///
    /// `InvalidVersions`; then as `link`.
    pub fn link_with(text: &str, domain: &str, options: &Options) -> Result<Symbol, Error> {
        let mut bytes = vec![0; ffi::greatest_size()];
        let mut shape = ffi::Shape::default();
        let (numbers, host) = (options.numbers(), domain.as_bytes());
        match ffi::link(text.as_bytes(), host, &numbers, &mut bytes, &mut shape) {
            0 => Ok(Symbol::of(&bytes[..(shape.width * shape.width) as usize], &shape)),
            status => Err(Error::of_link(status, text, domain)),
        }
    }
}
