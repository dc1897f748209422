//! The version, and the number of the block's layout.

use crate::layout::Block;
use crate::{raw, version, VERSION};
use std::mem::size_of;

#[test]
fn is_the_one_of_the_file() {
    assert_eq!(include_str!("../../../../VERSION").trim_end(), VERSION);
}

#[test]
fn is_the_one_of_the_archive() {
    let [patch, minor, low, high] = version().to_le_bytes();
    let major = u16::from_le_bytes([low, high]);
    assert_eq!(format!("{major}.{minor}.{patch}"), VERSION);
}

#[test]
fn the_archives_block_is_as_long() {
    assert_eq!(raw::block_size() as usize, size_of::<Block>());
}
