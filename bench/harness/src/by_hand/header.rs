//! The header of a sheet.

use super::faults::Refusal;
use super::lists::LONGEST_LIST;

/// The elements' bytes on a sheet of a kind, `WIDTH` bytes each.
pub fn parts<const WIDTH: usize>(bytes: &[u8], kind: u8) -> Result<&[[u8; WIDTH]], Refusal> {
    let [version, a, b, c, d, named, body @ ..] = bytes else {
        return Err(Refusal::SheetTooShort);
    };
    if *version != 1 {
        return Err(Refusal::VersionUnknown);
    }
    if u32::from_be_bytes([*a, *b, *c, *d]) as usize != bytes.len() - 5 {
        return Err(Refusal::CountDiffers);
    }
    if *named != kind {
        return Err(Refusal::KindNotWanted);
    }
    let (parts, rest) = body.as_chunks();
    if !rest.is_empty() || parts.len() > LONGEST_LIST {
        return Err(Refusal::BodyNotAList);
    }
    Ok(parts)
}
