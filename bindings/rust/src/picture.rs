//! Pictures of symbols.
use crate::{ffi, Error, Symbol, Version};
use std::ffi::OsStr;
use std::fs;
use std::io::{self, Write};
use std::path::Path;

/// `SICKLESPAN_INVALID_SETTING`.
const INVALID_SETTING: i32 = 22;

/// A format of pictures. `Display` writes its name, and `FromStr` reads it.
///
/// ```
/// # use sicklespan::{Error, Format};
/// assert_eq!(Format::EscPos.to_string(), "escpos");
/// assert_eq!("PNG".parse(), Ok(Format::Png));
/// assert_eq!("gif".parse::<Format>(), Err(Error::InvalidFormat));
/// ```
#[derive(Clone, Copy, Debug, PartialEq, Eq, Hash)]
#[non_exhaustive]
pub enum Format {
    /// Text for a terminal, in half blocks of Unicode.
    Terminal = 0,
    /// Scalable Vector Graphics.
    Svg = 1,
    /// Portable Network Graphics, one bit a pixel.
    Png = 2,
    /// A portable bitmap, in its binary form (`P4` of Netpbm).
    Pbm = 3,
    /// Encapsulated PostScript.
    Eps = 4,
    /// Raster images of ESC/POS (`GS v 0`), for ticket printers.
    EscPos = 5,
    /// A label of ZPL II (`^GF`), for label printers.
    Zpl = 6,
    /// Portable Document Format (PDF 1.4), of one page as large as the picture.
    Pdf = 7,
}

/// What is asked of a picture. By default a module has 8 pixels, and one in text; the quiet zone
/// has 4 modules, and 2 around a Micro symbol.
///
/// ```
/// use sicklespan::{Error, Format, Level, Settings, Symbol};
///
/// let symbol = Symbol::new("hello", Level::M)?;
/// let label = symbol.picture(Format::Zpl, &Settings::new().scale(4).at(20, 30))?;
/// assert!(label.starts_with(b"^XA\n^FO20,30^GFA,"));
/// let error = symbol.picture(Format::Pbm, &Settings::new().dpi(300)).unwrap_err();
/// assert_eq!(error, Error::InvalidSetting { name: "dpi" });
/// # Ok::<(), sicklespan::Error>(())
/// ```
#[derive(Clone, Copy, Debug, Default, PartialEq, Eq, Hash)]
pub struct Settings {
    scale: Option<u16>,
    quiet: Option<u16>,
    module_mm: Option<u16>,
    dpi: Option<u16>,
    inverted: bool,
    at: Option<(u16, u16)>,
}

impl Settings {
    /// Returns the default.
    ///
    /// ```
    /// # use sicklespan::Settings;
    /// assert_eq!(Settings::new(), Settings::default());
    /// ```
    pub fn new() -> Settings {
        Settings::default()
    }

    /// Returns the same settings with another width of a module in pixels, 1 to 64.
    ///
    /// ```
    /// # use sicklespan::{Format, Level, Settings, Symbol};
    /// // 21 modules of 2 pixels, and 8 of the quiet zone.
    /// let small = Settings::new().scale(2);
    /// let picture = Symbol::new("hello", Level::M)?.picture(Format::Pbm, &small)?;
    /// assert!(picture.starts_with(b"P4\n58 58\n"));
    /// # Ok::<(), sicklespan::Error>(())
    /// ```
    pub fn scale(self, pixels: u16) -> Settings {
        Settings { scale: Some(pixels), ..self }
    }

    /// Returns the same settings with another width of the quiet zone in modules, 0 to 16.
    ///
    /// ```
    /// # use sicklespan::{Format, Level, Settings, Symbol};
    /// let bare = Settings::new().scale(1).quiet(0);
    /// let picture = Symbol::new("hello", Level::M)?.picture(Format::Pbm, &bare)?;
    /// assert!(picture.starts_with(b"P4\n21 21\n"));
    /// # Ok::<(), sicklespan::Error>(())
    /// ```
    pub fn quiet(self, modules: u16) -> Settings {
        Settings { quiet: Some(modules), ..self }
    }

    /// Returns the same settings with the width of a module in hundredths of a millimetre, 5 to
    /// 1000: of SVG, PNG, EPS and PDF.
    ///
    /// ```
    /// # use sicklespan::{Format, Level, Settings, Symbol};
    /// // 29 modules of half a millimetre.
    /// let sized = Settings::new().module_mm(50);
    /// let picture = Symbol::new("hello", Level::M)?.picture(Format::Svg, &sized)?;
    /// assert!(String::from_utf8_lossy(&picture).contains("width=\"14.50mm\""));
    /// # Ok::<(), sicklespan::Error>(())
    /// ```
    pub fn module_mm(self, hundredths: u16) -> Settings {
        Settings { module_mm: Some(hundredths), ..self }
    }

    /// Returns the same settings with the number of pixels in an inch, 50 to 2400: of PNG, and not
    /// beside `module_mm`; and of ZPL, whose labels stay the same.
    ///
    /// ```
    /// # use sicklespan::{Format, Level, Settings, Symbol};
    /// let symbol = Symbol::new("hello", Level::M)?;
    /// let picture = symbol.picture(Format::Png, &Settings::new().dpi(300))?;
    /// // The chunk of the size of a pixel, which the default picture lacks.
    /// assert!(picture.windows(4).any(|bytes| bytes == b"pHYs"));
    /// assert!(!symbol.to_png()?.windows(4).any(|bytes| bytes == b"pHYs"));
    /// # Ok::<(), sicklespan::Error>(())
    /// ```
    pub fn dpi(self, pixels: u16) -> Settings {
        Settings { dpi: Some(pixels), ..self }
    }

    /// Returns the same settings, with the light pixels filled, for a dark screen: of text.
    ///
    /// ```
    /// # use sicklespan::{Format, Level, Settings, Symbol};
    /// let symbol = Symbol::new("hello", Level::M)?;
    /// let text = symbol.picture(Format::Terminal, &Settings::new().inverted())?;
    /// assert!(String::from_utf8_lossy(&text).starts_with("\u{2588}\u{2588}\u{2588}"));
    /// # Ok::<(), sicklespan::Error>(())
    /// ```
    pub fn inverted(self) -> Settings {
        Settings { inverted: true, ..self }
    }

    /// Returns the same settings with the position of the upper left corner on the label in dots,
    /// each 0 to 18000: of ZPL.
    ///
    /// ```
    /// # use sicklespan::{Format, Level, Settings, Symbol};
    /// let symbol = Symbol::new("hello", Level::M)?;
    /// let label = symbol.picture(Format::Zpl, &Settings::new().at(20, 30))?;
    /// assert!(label.starts_with(b"^XA\n^FO20,30^"));
    /// # Ok::<(), sicklespan::Error>(())
    /// ```
    pub fn at(self, x: u16, y: u16) -> Settings {
        Settings { at: Some((x, y)), ..self }
    }

    fn numbers(self, version: Version) -> ffi::Settings {
        let number = |given: Option<u16>| given.map_or(-1, i32::from);
        let zone = if matches!(version, Version::Micro(_)) { 2 } else { 4 };
        ffi::Settings {
            scale: number(self.scale),
            quiet: self.quiet.unwrap_or(zone).into(),
            module_mm: number(self.module_mm),
            dpi: number(self.dpi),
            inverted: self.inverted.into(),
            at_x: number(self.at.map(|at| at.0)),
            at_y: number(self.at.map(|at| at.1)),
        }
    }
}

impl Symbol {
    /// Returns the picture in a format, as the settings ask for it.
    ///
    /// ```
    /// # use sicklespan::{Format, Level, Settings, Symbol};
    /// let symbol = Symbol::new("hello", Level::M)?;
    /// let picture = symbol.picture(Format::Pdf, &Settings::new().module_mm(50))?;
    /// assert!(picture.starts_with(b"%PDF-1.4\n"));
    /// # Ok::<(), sicklespan::Error>(())
    /// ```
    ///
    /// # Errors
    ///
    /// `InvalidSetting` if a setting is out of its bounds, or the format does not have it;
    /// `OutOfMemory`.
    pub fn picture(&self, format: Format, settings: &Settings) -> Result<Vec<u8>, Error> {
        let modules: Vec<u8> = self.modules().iter().map(|dark| u8::from(*dark)).collect();
        let (format, asked) = (format as i32, settings.numbers(self.version()));
        let (mut bytes, mut length) = (vec![0; 1 << 14], 0);
        loop {
            match ffi::picture(&modules, self.width(), format, &asked, &mut bytes, &mut length) {
                0 => break,
                ffi::SHORT_BUFFER => bytes.resize(length, 0),
                INVALID_SETTING => {
                    let name = ffi::wrong_setting(format, &asked);
                    // The library has a name for each part of the position.
                    let name = if name.starts_with("at_") { "at" } else { name };
                    return Err(Error::InvalidSetting { name });
                }
                status => return Err(Error::of(status)),
            }
        }
        bytes.truncate(length);
        Ok(bytes)
    }

    /// Returns the picture as SVG, with the default settings.
    ///
    /// ```
    /// # use sicklespan::{Level, Symbol};
    /// assert!(Symbol::new("hello", Level::M)?.to_svg()?.starts_with("<svg "));
    /// # Ok::<(), sicklespan::Error>(())
    /// ```
    ///
    /// # Errors
    ///
    /// `OutOfMemory`.
    pub fn to_svg(&self) -> Result<String, Error> {
        let bytes = self.picture(Format::Svg, &Settings::new())?;
        Ok(String::from_utf8(bytes).expect("SVG is text"))
    }

    /// Returns the picture as a PNG file, with the default settings.
    ///
    /// ```
    /// # use sicklespan::{Level, Symbol};
    /// assert!(Symbol::new("hello", Level::M)?.to_png()?.starts_with(b"\x89PNG\r\n"));
    /// # Ok::<(), sicklespan::Error>(())
    /// ```
    ///
    /// # Errors
    ///
    /// `OutOfMemory`.
    pub fn to_png(&self) -> Result<Vec<u8>, Error> {
        self.picture(Format::Png, &Settings::new())
    }

    /// Writes the picture in a format, as the settings ask for it, to a file or a stream.
    ///
    /// ```
    /// # use sicklespan::{Format, Level, Settings, Symbol};
    /// let symbol = Symbol::new("hello", Level::M)?;
    /// let mut label = Vec::new();
    /// symbol.write_to(&mut label, Format::Zpl, &Settings::new().scale(4))?;
    /// assert!(label.starts_with(b"^XA\n"));
    /// # Ok::<(), Box<dyn std::error::Error>>(())
    /// ```
    ///
    /// # Errors
    ///
    /// Those of `picture`, within an `std::io::Error`, and then nothing was written; else as the
    /// stream has them.
    pub fn write_to(
        &self,
        mut out: impl Write,
        format: Format,
        settings: &Settings,
    ) -> io::Result<()> {
        out.write_all(&self.picture(format, settings)?)
    }

    /// Writes the picture to a file, with the default settings, as `save_with` does.
    ///
    /// ```
    /// # use sicklespan::{Error, Level, Symbol};
    /// let path = std::env::temp_dir().join(format!("hello-{}.png", std::process::id()));
    /// let symbol = Symbol::new("hello", Level::M)?;
    /// symbol.save(&path)?;
    /// assert_eq!(std::fs::read(&path)?, symbol.to_png()?);
    /// # std::fs::remove_file(path)?;
    /// let error = symbol.save("hello.gif").unwrap_err();
    /// assert_eq!(error.to_string(), "there is no such format");
    /// # Ok::<(), Box<dyn std::error::Error>>(())
    /// ```
    ///
    /// # Errors
    ///
    /// As `save_with`.
    pub fn save(&self, path: impl AsRef<Path>) -> io::Result<()> {
        self.save_with(path, &Settings::new())
    }

    /// Writes the picture to a file, as the settings ask for it, in the format that is the ending
    /// of its name, in capitals or not: `svg`, `png`, `pbm`, `eps`, `pdf`, `escpos`, `zpl`, and
    /// `terminal` or `txt` for text. A file that is there is replaced.
    ///
    /// ```
    /// # use sicklespan::{Level, Settings, Symbol};
    /// let path = std::env::temp_dir().join(format!("hello-{}.svg", std::process::id()));
    /// let symbol = Symbol::new("hello", Level::M)?;
    /// symbol.save_with(&path, &Settings::new().module_mm(50))?;
    /// assert!(std::fs::read_to_string(&path)?.contains("width=\"14.50mm\""));
    /// # std::fs::remove_file(path)?;
    /// # Ok::<(), Box<dyn std::error::Error>>(())
    /// ```
    ///
    /// # Errors
    ///
    /// `InvalidFormat` for another ending, and those of `picture`, within an `std::io::Error`, and
    /// then the file is as it was; else as the file system has them.
    pub fn save_with(&self, path: impl AsRef<Path>, settings: &Settings) -> io::Result<()> {
        let path = path.as_ref();
        let picture = self.picture(format_of(path)?, settings)?;
        fs::write(path, picture)
    }
}

/// The format of a file by the ending of its name.
fn format_of(path: &Path) -> Result<Format, Error> {
    match path.extension().and_then(OsStr::to_str) {
        Some(ending) if ending.eq_ignore_ascii_case("txt") => Ok(Format::Terminal),
        Some(ending) => ending.parse(),
        None => Err(Error::InvalidFormat),
    }
}
