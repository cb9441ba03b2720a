//! The plain checker as a program: a text on standard input, the printed lines on standard output.
mod reference;

use std::io::{Read, Write};

fn main() -> std::io::Result<()> {
    let mut text = Vec::new();
    std::io::stdin().read_to_end(&mut text)?;
    std::io::stdout().write_all(&reference::print(&text))
}
