//! The program as 01 describes it, by the second reader: standard input to canonical text or refusal.

use std::io::{Read, Write};

fn main() -> std::io::Result<()> {
    let mut input = Vec::new();
    std::io::stdin().read_to_end(&mut input)?;
    std::io::stdout().write_all(&second::program(&input))
}
