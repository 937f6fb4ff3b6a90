//! The library's settings card beside the independent one.

mod support;

use support::{
    cards::{
        card_of, corners, in_range, random_fields, read_both, write_both, Fields, P10, RANGES,
    },
    from_env, pattern, Random,
};

/// How many valid cards are damaged in every single place; `NUVASKOE_CARDS` overrides.
const CARDS: usize = 3_000;
/// How many payloads meet all 100 check values.
const PAYLOADS: usize = 300;
/// How many inputs each test of stray inputs draws.
const STRAYS: usize = 20_000;

const BUFFER_SHORT: (u32, usize) = (8, 0);
const CARD_DIGITS: (u32, usize) = (11, 0);
const CARD_CHECK: (u32, usize) = (12, 0);
const CARD_FIELD: (u32, usize) = (13, 0);
const SETTING: (u32, usize) = (15, 0);

/// Writes into every length up to 24, past the card's 20, and checks the refusals' order.
fn write_every_length(fields: Fields) {
    for length in 0..=24 {
        let (answer, out) = write_both(fields, length);
        let expected = match (in_range(fields), length >= 20) {
            (false, _) => Err(SETTING),
            (true, false) => Err(BUFFER_SHORT),
            (true, true) => Ok(20),
        };
        assert_eq!(answer, expected, "{fields:?}, {length} bytes");
        let written = answer.unwrap_or(0);
        let kept = &pattern(length)[written..];
        assert_eq!(&out[written..], kept, "{fields:?}, {length} bytes");
    }
}

#[test]
fn examples_p10_and_p11() {
    assert_eq!(read_both(P10), Ok([16, 100, 10, 400]));
    assert_eq!(card_of([16, 100, 10, 400]), P10);
    assert_eq!(read_both(b"01600100000010040096"), Err(CARD_CHECK));
}

#[test]
fn writing_corners() {
    let [gmins, batches, thresholds, spacings] = RANGES.map(|range| corners(&range));
    for gmin in gmins {
        for batch in batches {
            for threshold in thresholds {
                for spacing in spacings {
                    write_every_length([gmin, batch, threshold, spacing]);
                }
            }
        }
    }
}

#[test]
fn writing_random_settings() {
    let mut random = Random::new("writing_random_settings");
    for _ in 0..4_000 {
        let mut fields = random_fields(&mut random);
        write_every_length(fields);
        // Any 32 bits, or few enough of them to lie near the range.
        fields[random.below(4)] = random.draw() as u32 >> random.below(32);
        write_every_length(fields);
    }
}

#[test]
fn reading_back() {
    let mut random = Random::new("reading_back");
    for _ in 0..STRAYS {
        let fields = random_fields(&mut random);
        let card = card_of(fields);
        assert_eq!(read_both(&card), Ok(fields), "{}", card.escape_ascii());
    }
}

#[test]
fn each_value_of_each_field() {
    for (field, range) in RANGES.iter().enumerate() {
        for value in range.clone() {
            let mut fields = [16, 100, 10, 400];
            fields[field] = value;
            let card = card_of(fields);
            assert_eq!(read_both(&card), Ok(fields), "{}", card.escape_ascii());
        }
    }
}

/// The 180 changes of one digit, each of which the check finds.
fn change_each_digit(card: &[u8]) {
    let mut damaged = card.to_vec();
    for place in 0..20 {
        for digit in (b'0'..=b'9').filter(|digit| *digit != card[place]) {
            damaged[place] = digit;
            let answer = read_both(&damaged);
            assert_eq!(answer, Err(CARD_CHECK), "{}", damaged.escape_ascii());
        }
        damaged[place] = card[place];
    }
}

/// The 190 exchanges of two digits; the check finds each that changes the card.
fn exchange_each_pair(card: &[u8], fields: Fields) {
    let mut damaged = card.to_vec();
    for first in 0..20 {
        for second in first + 1..20 {
            damaged.swap(first, second);
            let expected = match card[first] == card[second] {
                true => Ok(fields),
                false => Err(CARD_CHECK),
            };
            let answer = read_both(&damaged);
            assert_eq!(answer, expected, "{}", damaged.escape_ascii());
            damaged.swap(first, second);
        }
    }
}

#[test]
fn single_changes_and_exchanges() {
    let mut random = Random::new("single_changes_and_exchanges");
    for _ in 0..from_env("NUVASKOE_CARDS", CARDS) {
        let fields = random_fields(&mut random);
        let card = card_of(fields);
        change_each_digit(&card);
        exchange_each_pair(&card, fields);
    }
}

/// Reads a payload with all 100 checks: one, from 02 to 98, is right.
fn try_every_check(fields: Fields) {
    let [gmin, batch, threshold, spacing] = fields;
    let payload = format!("{gmin:03}{batch:05}{threshold:05}{spacing:05}");
    let mut right = Vec::new();
    for check in 0..100 {
        let card = format!("{payload}{check:02}");
        let answer = read_both(card.as_bytes());
        if answer == Err(CARD_CHECK) {
            continue;
        }
        right.push(check);
        if in_range(fields) {
            assert_eq!(answer, Ok(fields), "{card}");
            assert_eq!(card_of(fields), card.as_bytes(), "{card}");
        } else {
            assert_eq!(answer, Err(CARD_FIELD), "{card}");
        }
    }
    assert_eq!(right.len(), 1, "{payload} with {right:?}");
    assert!((2..=98).contains(&right[0]), "{payload} with {right:?}");
}

#[test]
fn every_check_of_random_payloads() {
    let mut random = Random::new("every_check_of_random_payloads");
    let any = [0..=999, 0..=99_999, 0..=99_999, 0..=99_999];
    for turn in 0..PAYLOADS {
        let mut fields = random_fields(&mut random);
        let field = random.below(4);
        match turn % 3 {
            0 => {}
            1 => fields[field] = random.within(&any[field]),
            _ => fields = [0, 1, 2, 3].map(|field| random.within(&any[field])),
        }
        try_every_check(fields);
    }
}

#[test]
fn every_check_at_the_ends_of_the_ranges() {
    for (field, range) in RANGES.iter().enumerate() {
        let (least, most) = (*range.start(), *range.end());
        for value in [0, least, most, most + 1] {
            let mut fields = [16, 100, 10, 400];
            fields[field] = value;
            try_every_check(fields);
        }
    }
}

/// 97 successive payloads have each check from 02 to 98 once, so that 00, 01 and 99 each
/// meet a payload with which they leave 1.
#[test]
fn every_check_of_successive_payloads() {
    let mut checks = Vec::new();
    for spacing in 1..=97 {
        let fields = [16, 100, 10, spacing];
        try_every_check(fields);
        checks.push(card_of(fields).split_off(18));
    }
    checks.sort_unstable();
    checks.dedup();
    assert_eq!(checks.len(), 97);
}

#[test]
fn any_byte_in_any_place() {
    for place in 0..20 {
        for byte in 0..=u8::MAX {
            let mut card = *P10;
            card[place] = byte;
            let expected = match byte {
                _ if byte == P10[place] => Ok([16, 100, 10, 400]),
                b'0'..=b'9' => Err(CARD_CHECK),
                _ => Err(CARD_DIGITS),
            };
            assert_eq!(read_both(&card), expected, "{}", card.escape_ascii());
        }
    }
}

/// Reads any bytes: refusal 11 exactly where they are not twenty digits.
fn read_stray(bytes: &[u8]) {
    let twenty_digits = bytes.len() == 20 && bytes.iter().all(u8::is_ascii_digit);
    let refused = read_both(bytes) == Err(CARD_DIGITS);
    assert_eq!(refused, !twenty_digits, "{}", bytes.escape_ascii());
}

#[test]
fn stray_bytes_and_digits() {
    let mut random = Random::new("stray_bytes_and_digits");
    for _ in 0..STRAYS {
        let length = random.below(41);
        read_stray(&random.bytes(length));
        read_stray(&random.digits(length));
        read_stray(&random.digits(20));
    }
}

#[test]
fn damaged_cards() {
    let mut random = Random::new("damaged_cards");
    for _ in 0..STRAYS {
        let card = card_of(random_fields(&mut random));
        let (mut bytes, mut digits) = (card.clone(), card);
        for _ in 0..3 {
            bytes[random.below(20)] = random.byte();
            read_stray(&bytes);
            digits[random.below(20)] = random.digit();
            read_stray(&digits);
        }
    }
}

#[test]
fn cut_and_lengthened_cards() {
    let mut random = Random::new("cut_and_lengthened_cards");
    for _ in 0..STRAYS / 10 {
        let card = card_of(random_fields(&mut random));
        for length in 0..20 {
            for cut in [&card[..length], &card[20 - length..]] {
                assert_eq!(read_both(cut), Err(CARD_DIGITS), "{}", cut.escape_ascii());
            }
        }
        for extra in 1..=20 {
            let (digits, bytes) = (random.digits(extra), random.bytes(extra));
            for longer in [
                [&card[..], &digits].concat(),
                [&digits, &card[..]].concat(),
                [&card[..], &bytes].concat(),
            ] {
                let answer = read_both(&longer);
                assert_eq!(answer, Err(CARD_DIGITS), "{}", longer.escape_ascii());
            }
        }
    }
}
