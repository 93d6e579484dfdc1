//! Padded files: numbers in more bytes than they need, up to five.

use reference::file::{spell, spell_in, MOST_BYTES};

use crate::random::Random;

/// The file of these numbers, each in five bytes.
pub fn in_five_bytes(numbers: &[u32]) -> Vec<u8> {
    numbers.iter().flat_map(|&number| spell_in(number, MOST_BYTES)).collect()
}

/// The file of these numbers: about every fourth time each in five bytes, else all, half or few of them in any number of bytes from those
/// needed to five.
pub fn padded(random: &mut Random, numbers: &[u32]) -> Vec<u8> {
    if random.percent(25) {
        return in_five_bytes(numbers);
    }
    let share = *random.pick(&[100, 50, 5]);
    let mut bytes = |number: u32| {
        let needed = spell(number).len();
        if random.percent(share) {
            random.count(needed..=MOST_BYTES)
        } else {
            needed
        }
    };
    numbers.iter().flat_map(|&number| spell_in(number, bytes(number))).collect()
}

/// The bytes of each number of a file.
pub fn spellings(file: &[u8]) -> impl Iterator<Item = &[u8]> {
    file.split_inclusive(|&byte| byte < 0x80)
}

/// Whether a number has more bytes than it needs.
pub fn is_padded(spelling: &[u8]) -> bool {
    spelling.len() > 1 && spelling.ends_with(&[0])
}

/// Where the number at a place of one file stands in another file of the same numbers; or their end.
pub fn same_number(file: &[u8], place: usize, other: &[u8]) -> usize {
    let before = spellings(&file[..place]).count();
    spellings(other).take(before).map(<[u8]>::len).sum()
}
