//! Fields: a one-byte tag, a two-byte length (low byte first), contents.

/// The tag of a start value.
pub const CELL_TAG: u8 = 0x01;
/// The tag of the list of turns.
pub const TURNS_TAG: u8 = 0x02;
/// The tag of a job.
pub const JOB_TAG: u8 = 0x10;
/// The tags that a session knows.
pub const TAGS: [u8; 3] = [CELL_TAG, JOB_TAG, TURNS_TAG];
/// The bytes of a tag and a length.
pub const HEAD_BYTES: usize = 3;

/// One field, its contents borrowed from the input.
#[derive(Clone, Copy, Debug, PartialEq, Eq)]
pub struct Field<'a> {
    pub tag: u8,
    pub contents: &'a [u8],
}

/// The first field and the bytes after it; none if the head or the contents run past the end.
pub fn split_field(bytes: &[u8]) -> Option<(Field<'_>, &[u8])> {
    let (head, rest) = bytes.split_at_checked(HEAD_BYTES)?;
    let length = usize::from(u16::from_le_bytes([head[1], head[2]]));
    let (contents, after) = rest.split_at_checked(length)?;
    let tag = head[0];
    Some((Field { tag, contents }, after))
}

/// The bytes of a field; none if the contents are too long for a two-byte length.
pub fn field_bytes(tag: u8, contents: &[u8]) -> Option<Vec<u8>> {
    let length = u16::try_from(contents.len()).ok()?;
    let mut bytes = vec![tag];
    bytes.extend(length.to_le_bytes());
    bytes.extend(contents);
    Some(bytes)
}
