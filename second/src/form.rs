//! The form of a house file: its fields, before any content is looked at.

use crate::refusal::Refusal;

/// The three kinds of house file.
#[derive(Clone, Copy, Debug, PartialEq, Eq)]
pub enum Kind {
    /// Tags 1 and 2.
    Sinks,
    /// Tags 1 to 3.
    Joined,
    /// Tags 1 to 5.
    Tree,
}

impl Kind {
    /// All kinds, shortest first.
    pub const ALL: [Kind; 3] = [Kind::Sinks, Kind::Joined, Kind::Tree];

    /// The last tag of a file of this kind; the first is always 1.
    fn last_tag(self) -> u8 {
        match self {
            Kind::Sinks => 2,
            Kind::Joined => 3,
            Kind::Tree => 5,
        }
    }

    /// The length in bytes of a file of `n` sinks (1 or more).
    pub fn file_length(self, n: usize) -> usize {
        match self {
            Kind::Sinks => 7 + 8 * n,
            Kind::Joined => 6 + 12 * n,
            Kind::Tree => 36 * n,
        }
    }
}

/// The only version, in tag 1.
pub(crate) const VERSION: u8 = 1;

/// Bytes of a tag and its length.
const HEADER: usize = 3;

/// The values of the tags of a file of the form, tag 1's first.
pub(crate) fn take_apart(kind: Kind, file: &[u8]) -> Result<Vec<&[u8]>, Refusal> {
    let mut values = Vec::new();
    let mut offset = 0;
    for tag in 1..=kind.last_tag() {
        let value = take_field(file, offset, tag)?;
        offset += HEADER + value.len();
        values.push(value);
    }
    if offset < file.len() {
        return Err(Refusal::NotOfTheForm(offset));
    }
    Ok(values)
}

/// The value of the field at `offset`. A wrong tag byte is found before the
/// end of the file inside the header, since the lowest offset counts.
fn take_field(file: &[u8], offset: usize, tag: u8) -> Result<&[u8], Refusal> {
    let header = &file[offset..file.len().min(offset + HEADER)];
    if header.first().map_or(false, |&found| found != tag) {
        return Err(Refusal::NotOfTheForm(offset));
    }
    if header.len() < HEADER {
        return Err(Refusal::NotOfTheForm(file.len()));
    }
    let start = offset + HEADER;
    let length = usize::from(u16::from_be_bytes([header[1], header[2]]));
    match file.get(start..start + length) {
        Some(value) if fits(tag, value) => Ok(value),
        _ => Err(Refusal::NotOfTheForm(offset)),
    }
}

/// Whether the value's length suits its tag, and the version its reader.
fn fits(tag: u8, value: &[u8]) -> bool {
    match tag {
        1 => value == [VERSION],
        2 | 4 => value.len() % 8 == 0,
        _ => value.len() % 4 == 0,
    }
}

/// Appends a field to a file under construction.
pub(crate) fn put_field(file: &mut Vec<u8>, tag: u8, value: &[u8]) {
    file.push(tag);
    // The longest value, 1,023 places, has 8,184 bytes.
    file.extend((value.len() as u16).to_be_bytes());
    file.extend(value);
}
