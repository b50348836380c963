// The digits of numbers, two at a time, for the plain programs beside this directory.

// The bytes of the longest number, with a mark in front and a comma behind.
pub const LONGEST: usize = 24;

const fn pairs() -> [[u8; 2]; 100] {
    let mut pairs = [[b'0'; 2]; 100];
    let mut i = 0;
    while i < 100 {
        pairs[i] = [b'0' + (i / 10) as u8, b'0' + (i % 10) as u8];
        i += 1;
    }
    pairs
}

static PAIRS: [[u8; 2]; 100] = pairs();

// Puts the digits of a number in front of a place, and answers where they begin.
#[inline]
pub fn put_digits(bytes: &mut [u8; 2 * LONGEST], place: usize, number: u64) -> usize {
    let (mut at, mut rest) = (place, number);
    while rest >= 100 {
        at -= 2;
        bytes[at..at + 2].copy_from_slice(&PAIRS[(rest % 100) as usize]);
        rest /= 100;
    }
    if rest >= 10 {
        at -= 2;
        bytes[at..at + 2].copy_from_slice(&PAIRS[rest as usize]);
    } else {
        at -= 1;
        bytes[at] = b'0' + rest as u8;
    }
    at
}
