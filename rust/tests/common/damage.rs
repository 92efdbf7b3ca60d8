//! Changes of bytes: what may become of a message on its way, and what an attacker would write.

use super::random::Random;

/// The bytes of a word.
const WORD: usize = 8;

/// Numbers at the edges of what a half of a word can say.
const EDGES: [u32; 8] = [
    0,
    1,
    0x7fff_ffff,
    0x8000_0000,
    0xffff_fffe,
    0xffff_ffff,
    0x2000_0000,
    0x1fff_ffff,
];

/// Bytes with one change or more.
pub fn damaged(random: &mut Random, bytes: &[u8]) -> Vec<u8> {
    let mut changed = bytes.to_vec();
    change(random, &mut changed);
    while random.once_in(2) {
        change(random, &mut changed);
    }
    changed
}

/// Makes one change.
fn change(random: &mut Random, bytes: &mut Vec<u8>) {
    if bytes.is_empty() {
        bytes.push(random.next() as u8);
        return;
    }
    match random.below(16) {
        0..=3 => flip(random, bytes),
        4 | 5 => {
            let place = random.below(bytes.len());
            bytes[place] = random.next() as u8;
        }
        6 => bytes.truncate(random.below(bytes.len())),
        7 => bytes.truncate(random.below(bytes.len()) / WORD * WORD),
        8 => zero_run(random, bytes),
        9 => set_edge(random, bytes),
        _ => change_words(random, bytes),
    }
    if random.once_in(2) {
        fit_table(bytes);
    }
}

/// Makes the table of a message of one segment say how long that is, so that what stands in it is looked at.
fn fit_table(bytes: &mut [u8]) {
    let words = (bytes.len() / WORD).saturating_sub(1) as u32;
    if bytes.len() >= WORD && bytes[..4] == [0; 4] {
        bytes[4..WORD].copy_from_slice(&words.to_le_bytes());
    }
}

/// Flips one to three bits.
fn flip(random: &mut Random, bytes: &mut [u8]) {
    for _ in 0..1 + random.below(3) {
        let place = random.below(bytes.len());
        bytes[place] ^= 1 << random.below(8);
    }
}

/// Makes some bytes zero.
fn zero_run(random: &mut Random, bytes: &mut [u8]) {
    let start = random.below(bytes.len());
    let length = 1 + random.below(2 * WORD);
    let end = bytes.len().min(start + length);
    bytes[start..end].fill(0);
}

/// Sets half a word to a number at an edge.
fn set_edge(random: &mut Random, bytes: &mut [u8]) {
    let half = WORD / 2;
    if bytes.len() >= half {
        let start = random.below(bytes.len() / half) * half;
        bytes[start..start + half].copy_from_slice(&random.one_of(&EDGES).to_le_bytes());
    }
}

/// Swaps, doubles, takes away or replaces words.
fn change_words(random: &mut Random, bytes: &mut Vec<u8>) {
    let count = bytes.len() / WORD;
    if count == 0 {
        return;
    }
    let place = random.below(count) * WORD;
    let other = random.below(count) * WORD;
    let word: [u8; WORD] = std::array::from_fn(|index| bytes[place + index]);
    match random.below(8) {
        0 => {
            bytes.copy_within(other..other + WORD, place);
            bytes[other..other + WORD].copy_from_slice(&word);
        }
        1 => {
            bytes.splice(place..place, word);
        }
        2 => {
            bytes.drain(place..place + WORD);
        }
        3 => bytes[other..other + WORD].copy_from_slice(&word),
        _ => bytes[place..place + WORD].copy_from_slice(&pointer(random, count).to_le_bytes()),
    }
}

/// A pointer that may lead somewhere in a message of so many words, or just past it.
fn pointer(random: &mut Random, words: usize) -> u64 {
    let offset = random.below(2 * words + 2) as i64 - words as i64;
    let away = (offset as u64 & 0x3fff_ffff) << 2;
    match random.below(8) {
        0 => 0,
        1 => u64::MAX,
        2 | 3 => away | section(random) << 32 | section(random) << 48,
        4 | 5 => away | 1 | (random.below(8) as u64) << 32 | count(random, words) << 35,
        6 => far(random, words),
        _ => random.next(),
    }
}

/// The length of a struct's section: mostly short.
fn section(random: &mut Random) -> u64 {
    if random.once_in(12) {
        0xffff
    } else {
        random.below(5) as u64
    }
}

/// The length of a list: mostly no longer than a message of so many words.
fn count(random: &mut Random, words: usize) -> u64 {
    match random.below(16) {
        0 => 0x1fff_ffff,
        1 => 8 * words as u64,
        _ => random.below(words + 2) as u64,
    }
}

/// A far pointer, or a capability's.
fn far(random: &mut Random, words: usize) -> u64 {
    let segment = if random.once_in(8) {
        u64::from(u32::MAX)
    } else {
        random.below(9) as u64
    };
    let kind = if random.once_in(6) { 3 } else { 2 };
    kind | (random.below(2) as u64) << 2 | (random.below(words + 1) as u64) << 3 | segment << 32
}
