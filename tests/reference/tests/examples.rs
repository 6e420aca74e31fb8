//! The examples of source document 000 and the well-known domains, which the program crate `examples` prints: the description makes
//! the card, and the card's listing is under its name in the file `stdout`. So both implementations print what is stored there: this
//! test holds the reference to it, `rt ci` the proved program.

use reference::examples::card;
use reference::listing;
use std::fs::{read, read_dir, read_to_string};
use std::path::Path;

#[test]
fn examples_agree() {
    let directory = Path::new(concat!(env!("CARGO_MANIFEST_DIR"), "/../../crates/examples"));
    let names = read_to_string(directory.join("args")).unwrap();
    let stdout = read_to_string(directory.join("stdout")).unwrap();
    let mut rest = stdout.as_str();
    for name in names.lines() {
        let path = directory.join("data").join(name);
        let stored = read(&path).unwrap();
        let made = card(&read_to_string(path.with_extension("txt")).unwrap()).unwrap();
        assert_eq!(made, stored, "{name}: the card of its description");
        let section = format!("{name}\n{}", String::from_utf8(listing(&stored)).unwrap());
        rest = rest.strip_prefix(&section).unwrap_or_else(|| panic!("{name}: expected here\n{section}but there is\n{rest}"));
    }
    assert_eq!(rest, "", "what follows the last example");
    let descriptions = read_dir(directory.join("data")).unwrap().filter(|entry| {
        let path = entry.as_ref().unwrap().path();
        path.extension().is_some_and(|extension| extension == "txt")
    });
    assert_eq!((names.lines().count(), descriptions.count()), (25, 25), "examples printed, and described");
}
