//! Prints the listing of one card from standard input; or, for each file that an argument names, the name and the card's listing.

use std::io::{Read, Write};
use std::os::unix::ffi::OsStrExt;

fn main() -> std::io::Result<()> {
    let mut out = std::io::stdout();
    let names: Vec<_> = std::env::args_os().skip(1).collect();
    if names.is_empty() {
        let mut card = Vec::new();
        std::io::stdin().read_to_end(&mut card)?;
        return out.write_all(&reference::listing(&card));
    }
    for name in names {
        let listing = reference::listing(&std::fs::read(&name)?);
        out.write_all(name.as_bytes())?;
        out.write_all(b"\n")?;
        out.write_all(&listing)?;
    }
    Ok(())
}
