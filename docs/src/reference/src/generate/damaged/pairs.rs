//! Damage to the count of pairs and to the pairs, for questions 2 and 3.

use super::super::Random;
use super::add_to_u32;
use crate::layout::{pair_at, pair_count, FEWEST_PAIRS, MOST_PAIRS};

/// Question 2: a count that is not admitted, or one above the least in a file that ends before its pairs
/// do.
pub fn change_count(random: &mut Random, bytes: &mut Vec<u8>) {
    let greatest = MOST_PAIRS as u16;
    let mut count =
        random.pick(&[0, 1, 2, 3, 4, greatest + 1, greatest + 2, 5 << 8, 6 << 8, 7 << 8, u16::MAX]);
    if random.once_in(3) {
        count = random.pick(&[6, greatest, greatest]);
        let end = pair_at(count.into()).min(bytes.len());
        bytes.truncate(random.from_to(pair_at(FEWEST_PAIRS), end - 1));
    }
    bytes[..2].copy_from_slice(&count.to_le_bytes());
}

/// Question 3: tables that overlap, leave a gap, begin where another number of pairs would end, end
/// before or after the file, or lengths whose sums come out right only if they wrap at 2^32.
pub fn part_tables(random: &mut Random, bytes: &mut Vec<u8>) {
    let pairs = pair_count(bytes);
    let table = random.below(pairs);
    match random.below(6) {
        0 => add_to_u32(bytes, pair_at(table), random.pick(&[1, 8, u32::MAX, 1 << 31])),
        1 => add_to_u32(bytes, pair_at(table) + 4, random.pick(&[1, 8, u32::MAX, 1 << 31])),
        2 => bytes.push(0),
        3 => {
            bytes.truncate(bytes.len() - 1);
        }
        4 => begin_elsewhere(random, bytes, pairs),
        _ => wrap_tables(random, bytes, pairs),
    }
}

/// Everything well laid out, but that the first table begins where another number of pairs would end:
/// some bytes after the last pair, or at one of the last pairs, which is then a part of that table.
fn begin_elsewhere(random: &mut Random, bytes: &mut Vec<u8>, pairs: usize) {
    let others: Vec<_> = (FEWEST_PAIRS..=MOST_PAIRS).filter(|&other| other != pairs).collect();
    let other = random.pick(&others);
    if other < pairs {
        let nearer = (pair_at(pairs) - pair_at(other)) as u32;
        add_to_u32(bytes, pair_at(0), nearer.wrapping_neg());
        return add_to_u32(bytes, pair_at(0) + 4, nearer);
    }
    let farther = pair_at(other) - pair_at(pairs);
    bytes.splice(pair_at(pairs)..pair_at(pairs), vec![0; farther]);
    for pair in 0..pairs {
        add_to_u32(bytes, pair_at(pair), farther as u32);
    }
}

/// Offsets and lengths, each next offset the wrapped sum of the last, the last sum the file's size.
fn wrap_tables(random: &mut Random, bytes: &mut [u8], pairs: usize) {
    let size = bytes.len() as u32;
    let mut offset = pair_at(pairs) as u32;
    for table in 0..pairs {
        let length = if table == 0 {
            u32::MAX - random.below(40) as u32
        } else if table + 1 == pairs {
            size.wrapping_sub(offset)
        } else {
            random.pick(&[0, 12, 26, u32::MAX, 1 << 31])
        };
        let at = pair_at(table);
        bytes[at..at + 4].copy_from_slice(&offset.to_le_bytes());
        bytes[at + 4..at + 8].copy_from_slice(&length.to_le_bytes());
        offset = offset.wrapping_add(length);
    }
}
