//! Prints the symbol of a text at level L, `#` dark and `.` light:  draw TEXT
use sicklespan::{Level, Symbol};

fn main() -> Result<(), Box<dyn std::error::Error>> {
    let text = std::env::args().nth(1).ok_or("usage: draw TEXT")?;
    for row in Symbol::new(&text, Level::L)?.rows() {
        println!("{}", row.iter().map(|dark| if *dark { '#' } else { '.' }).collect::<String>());
    }
    Ok(())
}
