//! Prints the symbol of a text for a terminal, with `-i` inverted, or with `-e` to standard error:
//! show [-e | -i] TEXT
use sicklespan::{Level, Symbol};

fn main() -> Result<(), Box<dyn std::error::Error>> {
    let mut words: Vec<String> = std::env::args().skip(1).collect();
    let text = words.pop().ok_or("usage: show [-e | -i] TEXT")?;
    let symbol = Symbol::new(&text, Level::M)?;
    match words.first().map(String::as_str) {
        Some("-e") => symbol.terminal(std::io::stderr())?,
        Some(_) => print!("{symbol:#}"),
        None => print!("{symbol}"),
    }
    Ok(())
}
