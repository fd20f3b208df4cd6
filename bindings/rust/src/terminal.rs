//! Symbols as text for a terminal.
use crate::{Symbol, Version};
use std::fmt;
use std::io::{self, stdout, IsTerminal, Write};

/// Black on white, in colors 16 and 231 of 256, and the colors of the terminal (ECMA-48, "SGR").
const BLACK_ON_WHITE: &str = "\x1b[38;5;16;48;5;231m";
const PLAIN: &str = "\x1b[0m";

impl fmt::Display for Symbol {
    /// Writes it in half blocks, two rows a line, with its quiet zone. Where standard output is a
    /// terminal, each line is black on white by escape sequences, so that readers find the symbol
    /// on a dark terminal too. With `{:#}` the light modules are filled, in place of the dark ones,
    /// and there are no escape sequences: for text that is shown light on dark.
    ///
    /// ```
    /// # use sicklespan::{Format, Level, Settings, Symbol};
    /// let symbol = Symbol::new("hello", Level::M)?;
    /// let inverted = symbol.picture(Format::Terminal, &Settings::new().inverted())?;
    /// assert_eq!(format!("{symbol:#}").as_bytes(), inverted);
    /// # Ok::<(), sicklespan::Error>(())
    /// ```
    fn fmt(&self, f: &mut fmt::Formatter<'_>) -> fmt::Result {
        let inverted = f.alternate();
        f.write_str(&self.half_blocks(inverted, !inverted && stdout().is_terminal()))
    }
}

impl Symbol {
    /// Writes it to a stream or a file as `{}` writes it to standard output: black on white where
    /// it is a terminal.
    ///
    /// ```
    /// # use sicklespan::{Level, Symbol};
    /// Symbol::new("hello", Level::M)?.terminal(std::io::stderr())?;
    /// # Ok::<(), Box<dyn std::error::Error>>(())
    /// ```
    ///
    /// # Errors
    ///
    /// As the stream has them.
    pub fn terminal(&self, mut out: impl Write + IsTerminal) -> io::Result<()> {
        let has_colors = out.is_terminal();
        out.write_all(self.half_blocks(false, has_colors).as_bytes())
    }

    fn half_blocks(&self, inverted: bool, has_colors: bool) -> String {
        let (start, end) = if has_colors { (BLACK_ON_WHITE, PLAIN) } else { ("", "") };
        let zone = if matches!(self.version(), Version::Micro(_)) { 2 } else { 4 };
        let side = self.width() + 2 * zone;
        // A place in the quiet zone above or to the left is far outside the symbol.
        let is_filled = |x: usize, y: usize| {
            self.is_dark(x.wrapping_sub(zone), y.wrapping_sub(zone)) != inverted
        };
        let mut text = String::new();
        for y in (0..side).step_by(2) {
            text.push_str(start);
            text.extend((0..side).map(|x| match (is_filled(x, y), is_filled(x, y + 1)) {
                (false, false) => ' ',
                (true, false) => '\u{2580}',
                (false, true) => '\u{2584}',
                (true, true) => '\u{2588}',
            }));
            text.push_str(end);
            text.push('\n');
        }
        text
    }
}
