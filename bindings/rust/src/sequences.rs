//! Messages in several symbols, and where they are cut.
use crate::{ffi, Error, Level, Symbol};

/// Returns the places at which to cut a message so that `Symbol::sequence` needs the fewest symbols
/// of versions up to the greatest: at most 15, and none where the message fits one symbol after a
/// header, and needs no sequence. No pair of the Kanji mode is cut.
///
/// ```
/// use sicklespan::{best_cuts, Level, Symbol};
///
/// // After the 20 bits of a header, version 1 holds 5 bytes at level H.
/// let cuts = best_cuts(b"one and two", Level::H, 1)?;
/// assert_eq!(cuts, [5, 10]);
/// assert_eq!(Symbol::sequence(b"one and two", &cuts, Level::H, 1)?.len(), 3);
/// # Ok::<(), sicklespan::Error>(())
/// ```
///
/// # Errors
///
/// `InvalidMaxVersion`; then `DataTooLong` exactly where no cuts make at most 16 parts that fit, and
/// `OutOfMemory`.
pub fn best_cuts(message: &[u8], level: Level, max_version: u8) -> Result<Vec<usize>, Error> {
    cuts_of(ffi::Content::Bytes, message, level, max_version)
}

/// Returns the places at which to cut a text so that `Symbol::text_sequence` needs the fewest
/// symbols, as `best_cuts` does: each is between two characters.
///
/// ```
/// use sicklespan::{best_text_cuts, Level};
///
/// // After the header and the 12 bits that say UTF-8, version 1 holds 3 bytes at level H.
/// assert_eq!(best_text_cuts("éé", Level::H, 1), Ok(vec![2]));
/// ```
///
/// # Errors
///
/// As `best_cuts`.
pub fn best_text_cuts(text: &str, level: Level, max_version: u8) -> Result<Vec<usize>, Error> {
    cuts_of(ffi::Content::Text, text.as_bytes(), level, max_version)
}

fn cuts_of(
    content: ffi::Content,
    message: &[u8],
    level: Level,
    max_version: u8,
) -> Result<Vec<usize>, Error> {
    let (mut cuts, mut count) = ([0; 15], 0);
    match ffi::cuts(content, message, level as i32, max_version.into(), &mut cuts, &mut count) {
        0 => Ok(cuts[..count].to_vec()),
        status => Err(Error::of(status)),
    }
}

impl Symbol {
    /// Returns the 2 to 16 symbols that carry a message together (Structured Append), each in a
    /// version up to the greatest. The parts lie between the start of the message, the cuts in
    /// order, and its end.
    ///
    /// ```
    /// # use sicklespan::{Error, Level, Symbol};
    /// let symbols = Symbol::sequence(b"one and two", &[4, 8], Level::M, 40)?;
    /// assert_eq!(symbols.len(), 3);
    /// assert_eq!(Symbol::sequence(b"alone", &[], Level::M, 40), Err(Error::InvalidPartCount));
    /// # Ok::<(), Error>(())
    /// ```
    ///
    /// # Errors
    ///
    /// `InvalidCuts`, `InvalidMaxVersion`, `InvalidPartCount`, `DataTooLong` exactly where some
    /// part fits none of the versions, and `OutOfMemory`.
    pub fn sequence(
        message: &[u8],
        cuts: &[usize],
        level: Level,
        max_version: u8,
    ) -> Result<Vec<Symbol>, Error> {
        Symbol::parts(ffi::Content::Bytes, message, cuts, level, max_version)
    }

    /// Returns the 2 to 16 symbols that carry a text together, as `sequence` does. Each says that
    /// it is UTF-8, and each cut is between two characters.
    ///
    /// ```
    /// # use sicklespan::{Error, Level, Symbol};
    /// assert_eq!(Symbol::text_sequence("éé", &[2], Level::M, 40)?.len(), 2);
    /// assert_eq!(Symbol::text_sequence("éé", &[1], Level::M, 40), Err(Error::InvalidCuts));
    /// # Ok::<(), Error>(())
    /// ```
    ///
    /// # Errors
    ///
    /// As `sequence`.
    pub fn text_sequence(
        text: &str,
        cuts: &[usize],
        level: Level,
        max_version: u8,
    ) -> Result<Vec<Symbol>, Error> {
        Symbol::parts(ffi::Content::Text, text.as_bytes(), cuts, level, max_version)
    }

    fn parts(
        content: ffi::Content,
        message: &[u8],
        cuts: &[usize],
        level: Level,
        max_version: u8,
    ) -> Result<Vec<Symbol>, Error> {
        let mut shapes = vec![ffi::Shape::default(); cuts.len() + 1];
        let width = 17 + 4 * usize::from(max_version.min(40));
        let mut bytes = vec![0; shapes.len().min(16) * width * width];
        let (level, limit) = (level as i32, max_version.into());
        let status = ffi::sequence(content, message, cuts, level, limit, &mut bytes, &mut shapes);
        if status != 0 {
            return Err(Error::of(status));
        }
        let mut rest = &bytes[..];
        let symbols = shapes.iter().map(|shape| {
            let (modules, behind) = rest.split_at((shape.width * shape.width) as usize);
            rest = behind;
            Symbol::of(modules, shape)
        });
        Ok(symbols.collect())
    }
}
