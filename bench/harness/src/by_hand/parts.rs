//! The elements of a sheet, each as its bytes.

/// The number, counted from 1, of the first element that is before its predecessor, if there is one; elements stand in the order
/// of their keys. First the whole list is judged, without a branch at each element, and only one that falls is searched.
pub fn first_fall<P: Copy, K: Copy + Ord>(parts: &[P], key: impl Fn(P) -> K) -> Option<u64> {
    if never_falls(parts, &key) {
        return None;
    }
    let falls = |pair: &[P]| key(pair[1]) < key(pair[0]);
    let index = parts.windows(2).position(falls)?;
    Some(index as u64 + 2)
}

/// Whether no element is before its predecessor. Each is decoded once.
fn never_falls<P: Copy, K: Copy + Ord>(parts: &[P], key: impl Fn(P) -> K) -> bool {
    let Some(first) = parts.first() else {
        return true;
    };
    let mut last = key(*first);
    let mut never_falls = true;
    for part in parts {
        let key = key(*part);
        never_falls &= last <= key;
        last = key;
    }
    never_falls
}

/// Writes the elements into a list of as many.
pub fn fill<P: Copy, T>(parts: &[P], list: &mut [T], decode: impl Fn(P) -> T) {
    for (element, part) in list.iter_mut().zip(parts) {
        *element = decode(*part);
    }
}
