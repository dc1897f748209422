//! The C header's codes, which are written there by hand.

use crate::instruction::CODES;
use std::fs;
use std::path::Path;

#[test]
fn the_header_names_every_code() {
    let path = Path::new(env!("CARGO_MANIFEST_DIR")).join("../include/garvolish.h");
    let text = fs::read_to_string(path).expect("the header");
    let (_, after) = text.split_once("enum garvolish_code {").expect("the enum");
    let (inside, _) = after.split_once('}').expect("its end");
    let named: Vec<&str> = inside.split(',').map(str::trim).collect();
    let expected = CODES.map(|(code, name)| format!("GARVOLISH_{name} = {}", code as u8));
    assert_eq!(named, expected);
}
