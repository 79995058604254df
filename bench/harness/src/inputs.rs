//! Random inputs: short and long, valid and damaged.

use crate::random::Random;
use crate::sheets::{self, Element};
use crate::types::Delay;

/// A sheet, and the room in the list that it is read into.
pub struct SheetInput {
    pub bytes: Vec<u8>,
    pub room: usize,
}

/// A request, and the room in both lists.
pub struct RequestInput {
    pub bytes: Vec<u8>,
    pub room_a: usize,
    pub room_b: usize,
}

/// The delays of a group, as many seats as they are parted among, and a rank.
pub struct GroupInput {
    pub delays: Vec<Delay>,
    pub seats: u32,
    pub rank: u32,
}

/// How likely a sheet is damaged, in cases of a hundred: by a fall, and by a change of its bytes.
struct Damages {
    falls: usize,
    changes: usize,
}

/// A sheet by itself.
pub fn sheet<T: Element>(random: &mut Random) -> SheetInput {
    let length = length(random, 100);
    let damages = Damages {
        falls: 30,
        changes: 45,
    };
    let bytes = damaged_sheet::<T>(random, length, &damages);
    let room = room(random, length, 25);
    SheetInput { bytes, room }
}

/// A request, in a few cases with both lists long.
pub fn request(random: &mut Random) -> RequestInput {
    let (length_a, length_b) = if random.one_in(250) {
        (long(random), long(random))
    } else {
        (length(random, 800), length(random, 800))
    };
    let damages = Damages {
        falls: 10,
        changes: 15,
    };
    let a = damaged_sheet::<Delay>(random, length_a, &damages);
    let b = damaged_sheet::<Delay>(random, length_b, &damages);
    let mut bytes = sheets::request(rank(random, length_a + length_b), &a, &b);
    if random.percent(8) {
        change(random, &mut bytes);
    }
    RequestInput {
        bytes,
        room_a: room(random, length_a, 8),
        room_b: room(random, length_b, 8),
    }
}

/// A group, in a few cases with long lists, mostly of few seats.
pub fn group(random: &mut Random) -> GroupInput {
    let (seats, each) = if random.one_in(60) {
        (random.pick(&[2, 2, 2, 2, 3, 3, 4, 16, 17]), long(random))
    } else {
        (seats(random), length(random, usize::MAX))
    };
    let parts = (seats as usize).min(33);
    let mut places: Vec<u64> = (0..parts)
        .flat_map(|_| places(random, each, Delay::HIGHEST))
        .collect();
    while each > 0 && parts > 0 && random.percent(20) {
        let start = random.below(parts) * each;
        fall(random, &mut places[start..][..each]);
    }
    // What does not make up one more element for each seat is no seat's.
    let over = random.below(parts.max(1));
    places.extend((0..over).map(|_| random.number() & Delay::HIGHEST));
    GroupInput {
        delays: sheets::list(&places),
        seats,
        rank: rank(random, each * parts),
    }
}

/// Any number, in many cases 0 or near the ends of the numbers of 32 or of 64 bits.
pub fn number(random: &mut Random) -> u64 {
    if random.percent(5) {
        return 0;
    }
    let start = random.pick(&[0, 0, u64::from(u32::MAX) - 200, u64::MAX - 200]);
    if random.percent(70) {
        start + random.below(201) as u64
    } else {
        random.number() >> random.below(64)
    }
}

/// Any number of 8 bits, in most cases from 0 to 101.
pub fn percentile(random: &mut Random) -> u8 {
    if random.percent(80) {
        random.between(0, 101) as u8
    } else {
        random.number() as u8
    }
}

/// As many seats as a group has, or now and then too few or too many.
fn seats(random: &mut Random) -> u32 {
    if random.percent(90) {
        random.between(2, 16) as u32
    } else {
        random.pick(&[0, 1, 17, 18, 33, 65_536, u32::MAX])
    }
}

/// The length of a list that is as long as lists can be, or a little longer.
fn long(random: &mut Random) -> usize {
    random.pick(&[65_535, 65_536, 65_536, 65_536, 65_537, 65_537])
}

/// The length of a list, mostly short, and long in one case of so many.
fn length(random: &mut Random, cases: usize) -> usize {
    if random.one_in(cases) {
        return long(random);
    }
    let most = random.pick(&[1, 3, 6, 20, 20, 70, 70, 200, 1_000]);
    random.between(0, most)
}

/// The room in a list: as much as is needed, or more, or in so many cases of a hundred less.
fn room(random: &mut Random, needed: usize, less: usize) -> usize {
    if random.percent(less) {
        return random.pick(&[needed.saturating_sub(1), needed / 2, 0]);
    }
    needed + random.pick(&[0, 0, 1, 5])
}

/// A rank of n elements, in many cases the first, the last or the one in the middle, or one that is out of bounds.
fn rank(random: &mut Random, n: usize) -> u32 {
    match random.below(24) {
        0 => 0,
        1 => n as u32 + 1,
        2 => random.number() as u32,
        3 => u32::MAX,
        4 => 1,
        5 => n as u32,
        6 => n.div_ceil(2) as u32,
        7 => 1 << n.max(1).ilog2(),
        _ => random.between(n.min(1), n) as u32,
    }
}

/// The places of a list in order, in one of several styles.
fn places(random: &mut Random, length: usize, highest: u64) -> Vec<u64> {
    let middle = highest / 2;
    let ends = [0, 1, middle - 1, middle, middle + 1, highest - 1, highest];
    let near = (random.number() & highest).min(highest - length as u64);
    let style = random.below(7);
    let bits = highest.count_ones() as usize;
    let mut place = |i: usize| match style {
        0 => near,
        1 => near + i as u64,
        2 => near + random.below(length / 2 + 1) as u64,
        3 => near ^ (1 << random.below(bits)),
        4 => random.pick(&ends),
        5 if random.percent(40) => random.pick(&ends),
        _ => random.number() & highest,
    };
    let mut places: Vec<u64> = (0..length).map(&mut place).collect();
    places.sort_unstable();
    places
}

/// Has a list fall near its start, in its middle, at its end or anywhere, where not all there are equal.
fn fall(random: &mut Random, places: &mut [u64]) {
    let Some(last) = places.len().checked_sub(1).filter(|last| *last > 0) else {
        return;
    };
    let near_start = random.between(1, last.min(3));
    let at = random.between(1, last);
    let at = random.pick(&[near_start, places.len() / 2, last, at]);
    let before = places[at - 1];
    match random.below(3) {
        0 => places.swap(at - 1, at),
        1 => places[at] = before.saturating_sub(1),
        _ => places[at] = random.number() % before.max(1),
    }
}

/// A sheet, damaged or not.
fn damaged_sheet<T: Element>(random: &mut Random, length: usize, damages: &Damages) -> Vec<u8> {
    let mut places = places(random, length, T::HIGHEST);
    let mut falls = damages.falls;
    while random.percent(falls) {
        fall(random, &mut places);
        falls = 20;
    }
    let mut bytes = sheets::sheet(&sheets::list::<T>(&places));
    let mut changes = damages.changes;
    while random.percent(changes) {
        change(random, &mut bytes);
        changes = 20;
    }
    bytes
}

/// Changes the bytes of a sheet or of a request in one of several ways.
fn change(random: &mut Random, bytes: &mut Vec<u8>) {
    let length = bytes.len();
    match random.below(10) {
        0 => bytes.truncate(random.between(0, length)),
        1 => bytes.truncate(random.between(0, length.min(7))),
        2 => bytes.truncate(length.saturating_sub(random.between(1, 9))),
        3 => append(random, bytes),
        4 | 5 => {
            append(random, bytes);
            sheets::set_count(bytes);
        }
        6 => change_count(random, bytes),
        7 => set(bytes, 0, random.pick(&[0, 2, 255])),
        8 => set(bytes, 5, random.pick(&[0, 1, 2, 3, 255])),
        _ => set(bytes, random.below(length.max(1)), random.number() as u8),
    }
}

/// Sets a byte, where there is one.
fn set(bytes: &mut [u8], index: usize, value: u8) {
    if let Some(byte) = bytes.get_mut(index) {
        *byte = value;
    }
}

/// Appends a few bytes.
fn append(random: &mut Random, bytes: &mut Vec<u8>) {
    let more = random.between(1, 9);
    bytes.extend(random.number().to_be_bytes().iter().cycle().take(more));
}

/// Sets the count of a sheet to another number, in most cases near the right one.
fn change_count(random: &mut Random, bytes: &mut [u8]) {
    let right = bytes.len() as u32;
    let count = match random.below(8) {
        0 => 0,
        1 => u32::MAX,
        2 => random.number() as u32,
        _ => right.wrapping_sub(random.between(0, 12) as u32),
    };
    sheets::write_count(bytes, count);
}
