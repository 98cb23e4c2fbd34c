//! Damaged copies of sheets.

use oracle::random::Random;

/// Bytes that break text, ids and counts, or stand at an edge.
const EDGES: [u8; 16] = [
    0x00, 0x01, 0x7f, 0x80, 0xbf, 0xc0, 0xc1, 0xc2, 0xe0, 0xed, 0xef, 0xf0, 0xf4, 0xf5, 0xfe, 0xff,
];

/// The bytes, damaged one to three times in one of three cases.
pub(super) fn perhaps(random: &mut Random, mut bytes: Vec<u8>) -> Vec<u8> {
    if random.once_in(3) {
        for _ in 0..1 + random.below(3) / 2 {
            once(random, &mut bytes);
        }
    }
    bytes
}

/// One damage: a flipped bit, a cut, an insertion, appended bytes, a changed count, an edge,
/// a byte taken out, or a part doubled.
pub(super) fn once(random: &mut Random, bytes: &mut Vec<u8>) {
    let at = random.below(bytes.len() + 1);
    let kind = random.below(12);
    match kind {
        0 => bytes.truncate(at),
        1 => {
            let byte = any(random);
            bytes.insert(at, byte);
        }
        2 => (0..=random.below(3)).for_each(|_| bytes.push(any(random))),
        3 => drop(bytes.drain(at.saturating_sub(1)..at)),
        4 => {
            let end = bytes.len().min(at + random.below(9));
            let part = bytes[at..end].to_vec();
            bytes.splice(at..at, part);
        }
        5 | 6 => count(random, bytes, at),
        7 | 8 => replace(bytes, at, |_| any(random)),
        _ => replace(bytes, at, |byte| byte ^ (1 << random.below(8))),
    }
}

fn any(random: &mut Random) -> u8 {
    match random.once_in(3) {
        true => random.byte(),
        false => random.pick(&EDGES),
    }
}

fn replace(bytes: &mut [u8], at: usize, change: impl FnOnce(u8) -> u8) {
    if let Some(byte) = bytes.get_mut(at) {
        *byte = change(*byte);
    }
}

/// Takes the two bytes at a place for a count and changes it.
fn count(random: &mut Random, bytes: &mut [u8], at: usize) {
    let Some([low, high]) = bytes.get_mut(at..at + 2) else {
        return;
    };
    let count = u16::from_le_bytes([*low, *high]);
    let changed = match random.below(4) {
        0 => 0,
        1 => count.wrapping_add(1),
        2 => count.wrapping_sub(1),
        _ => u16::MAX,
    };
    [*low, *high] = changed.to_le_bytes();
}

#[cfg(test)]
mod tests {
    use super::*;

    #[test]
    fn damage_is_total_on_short_bytes() {
        let mut random = Random::new(5);
        for length in 0..4 {
            for _ in 0..2000 {
                once(&mut random, &mut vec![0; length]);
            }
        }
    }
}
