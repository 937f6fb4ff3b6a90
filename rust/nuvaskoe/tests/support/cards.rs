//! The library's settings card beside the independent one, and settings and cards to compare
//! on.

use super::{
    answers::{ours, refusal, theirs, written, Answer},
    boundary::{Card, Settings},
    pattern, raw, Random,
};
use std::ops::RangeInclusive;

/// The four settings in the card's order: Gmin, B, T, spacing.
pub type Fields = [u32; 4];

pub const RANGES: [RangeInclusive<u32>; 4] = [1..=255, 1..=1_024, 0..=1_024, 1..=40_000];

/// P10 of document 01.
pub const P10: &[u8; 20] = b"01600100000100040096";

pub fn in_range(fields: Fields) -> bool {
    (0..4).all(|field| RANGES[field].contains(&fields[field]))
}

pub fn random_fields(random: &mut Random) -> Fields {
    RANGES.map(|range| random.within(&range))
}

/// Reads `card` with both and gives the answer on which they agree.
pub fn read_both(card: &[u8]) -> Answer<Fields> {
    let library =
        ours(nuvaskoe::card::read(card)).map(|s| [s.gmin, s.batch, s.threshold, s.spacing]);
    let independent =
        theirs(independent::card::read(card)).map(|s| [s.gmin, s.batch, s.threshold, s.spacing]);
    assert_eq!(library, independent, "card {}", card.escape_ascii());
    let whole = Card {
        refusal: refusal(&independent),
        settings: settings(independent.unwrap_or([0; 4])),
    };
    assert_eq!(raw::card_read(card), whole, "card {}", card.escape_ascii());
    library
}

/// Writes with both into equal buffers of `length` bytes and gives the answer and the
/// buffer on which they agree.
pub fn write_both(fields: Fields, length: usize) -> (Answer<usize>, Vec<u8>) {
    let [gmin, batch, threshold, spacing] = fields;
    let (mut library_out, mut independent_out) = (pattern(length), pattern(length));
    let mut whole_out = pattern(length);
    let whole = raw::card_write(settings(fields), &mut whole_out);
    let settings = nuvaskoe::card::Settings {
        gmin,
        batch,
        threshold,
        spacing,
    };
    let library = ours(nuvaskoe::card::write(settings, &mut library_out));
    let settings = independent::card::Settings {
        gmin,
        batch,
        threshold,
        spacing,
    };
    let independent = theirs(independent::card::write(settings, &mut independent_out));
    assert_eq!(library, independent, "{settings:?}, {length} bytes");
    assert_eq!(library_out, independent_out, "{settings:?}, {length} bytes");
    assert_eq!(whole, written(&independent), "{settings:?}, {length} bytes");
    assert_eq!(whole_out, independent_out, "{settings:?}, {length} bytes");
    (library, library_out)
}

/// The settings as the boundary has them.
fn settings([gmin, batch, threshold, spacing]: Fields) -> Settings {
    Settings {
        gmin,
        batch,
        threshold,
        spacing,
    }
}

/// The card of settings in range.
pub fn card_of(fields: Fields) -> Vec<u8> {
    let (answer, card) = write_both(fields, 20);
    assert_eq!(answer, Ok(20), "{fields:?}");
    card
}

/// The ends of a range and their neighbours, and numbers that would pass if cut to a
/// byte, to 16 bits or to the field's digits.
pub fn corners(range: &RangeInclusive<u32>) -> [u32; 11] {
    let (least, most) = (*range.start(), *range.end());
    [
        0,
        least,
        least + 1,
        most - 1,
        most,
        most + 1,
        most + (1 << 8),
        most + (1 << 16),
        most + 1_000,
        most + 100_000,
        u32::MAX,
    ]
}

/// Settings of which up to two are at or past the ends of their ranges.
pub fn any_fields(random: &mut Random) -> Fields {
    let mut fields = random_fields(random);
    for _ in 0..random.below(3) {
        let field = random.below(4);
        fields[field] = random.one_of(&corners(&RANGES[field]));
    }
    fields
}

/// Any bytes, digits, and cards that are right, damaged, or right but for a setting.
pub fn any_card(random: &mut Random) -> Vec<u8> {
    let mut card = checked(random_fields(random));
    let (place, other) = (random.below(20), random.below(20));
    match random.below(10) {
        0 => return random.bytes(place + other),
        1 => card.truncate(place),
        2 => card.extend(random.digits(1 + other)),
        3 => card = random.digits(20),
        4 => card[place] = random.byte(),
        5 => card[place] = random.digit(),
        6 => card.swap(place, other),
        7 | 8 => {
            let any = [999, 99_999, 99_999, 99_999].map(|most| random.within(&(0..=most)));
            card = checked(any);
        }
        _ => {}
    }
    // 97 more or less leaves the same remainder: two cards of one setting.
    if card.len() == 20 && random.below(4) == 0 {
        card = with_other_check(card);
    }
    card
}

/// The card of fields that fit their digits, in range or not.
fn checked([gmin, batch, threshold, spacing]: Fields) -> Vec<u8> {
    let payload = format!("{gmin:03}{batch:05}{threshold:05}{spacing:05}");
    let number: u64 = payload.parse().expect("18 digits");
    let check = 98 - number % 97 * 100 % 97;
    format!("{payload}{check:02}").into_bytes()
}

/// The card with its check 97 higher or lower, where that has two digits.
fn with_other_check(mut card: Vec<u8>) -> Vec<u8> {
    let other = match &card[18..] {
        b"97" => b"00",
        b"98" => b"01",
        b"02" => b"99",
        _ => return card,
    };
    card[18..].copy_from_slice(other);
    card
}
