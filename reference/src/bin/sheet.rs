//! Prints the sheet of the card on standard input.

use std::io::{Read, Write};

fn main() -> std::io::Result<()> {
    let mut card = Vec::new();
    std::io::stdin().read_to_end(&mut card)?;
    let sheet = reference::sheet::print(&reference::sheet::outcome(&card));
    std::io::stdout().write_all(sheet.as_bytes())
}
