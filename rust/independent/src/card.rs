//! "The settings card": Gmin (3), B (5), T (5), spacing (5), check (2).

use crate::refusal::Refusal;
use std::ops::RangeInclusive;

/// The ranges of "The trace and its figures".
pub const GMIN: RangeInclusive<u32> = 1..=255;
pub const BATCH: RangeInclusive<u32> = 1..=1_024;
pub const THRESHOLD: RangeInclusive<u32> = 0..=1_024;
pub const SPACING: RangeInclusive<u32> = 1..=40_000;

/// The four settings of a card, in the card's order.
#[derive(Debug, Clone, Copy, PartialEq, Eq)]
pub struct Settings {
    pub gmin: u32,
    pub batch: u32,
    pub threshold: u32,
    pub spacing: u32,
}

impl Settings {
    /// A card takes all four settings, so all four are checked.
    fn in_range(&self) -> bool {
        GMIN.contains(&self.gmin)
            && BATCH.contains(&self.batch)
            && THRESHOLD.contains(&self.threshold)
            && SPACING.contains(&self.spacing)
    }
}

/// Reads a card. Refusals in order: 11, 12, 13.
pub fn read(card: &[u8]) -> Result<Settings, Refusal> {
    if card.len() != 20 || !card.iter().all(u8::is_ascii_digit) {
        return Err(Refusal::CARD_DIGITS);
    }
    // 00, 01 and 99 leave the same remainder as 97, 98 and 02: each setting has one card.
    if number(card) % 97 != 1 || matches!(number(&card[18..20]), 0 | 1 | 99) {
        return Err(Refusal::CARD_CHECK);
    }
    let settings = Settings {
        gmin: number(&card[0..3]) as u32,
        batch: number(&card[3..8]) as u32,
        threshold: number(&card[8..13]) as u32,
        spacing: number(&card[13..18]) as u32,
    };
    if !settings.in_range() {
        return Err(Refusal::CARD_FIELD);
    }
    Ok(settings)
}

/// Writes the card of `settings` at the front of `out` and answers its 20 bytes.
/// Refusals in order: 15, 8.
#[inline]
pub fn write(settings: Settings, out: &mut [u8]) -> Result<usize, Refusal> {
    if !settings.in_range() {
        return Err(Refusal::SETTING);
    }
    if out.len() < 20 {
        return Err(Refusal::BUFFER_SHORT);
    }
    let payload = format!(
        "{:03}{:05}{:05}{:05}",
        settings.gmin, settings.batch, settings.threshold, settings.spacing
    );
    let check = check_of(number(payload.as_bytes()));
    out[..20].copy_from_slice(format!("{payload}{check:02}").as_bytes());
    Ok(20)
}

/// The check, from 02 to 98, with which the twenty digits leave 1 when divided by 97.
fn check_of(payload: u128) -> u128 {
    (2..=98)
        .find(|check| (payload * 100 + check) % 97 == 1)
        .expect("97 successive numbers leave every remainder")
}

/// ASCII digits as one number. Twenty of them pass u64.
fn number(digits: &[u8]) -> u128 {
    digits
        .iter()
        .fold(0, |value, digit| value * 10 + u128::from(digit - b'0'))
}

#[cfg(test)]
mod tests {
    use super::*;

    const P10: &[u8; 20] = b"01600100000100040096";
    const P10_SETTINGS: Settings = settings([16, 100, 10, 400]);

    const fn settings([gmin, batch, threshold, spacing]: [u32; 4]) -> Settings {
        Settings {
            gmin,
            batch,
            threshold,
            spacing,
        }
    }

    fn written(settings: Settings) -> [u8; 20] {
        let mut card = [0; 20];
        assert_eq!(write(settings, &mut card), Ok(20), "{settings:?}");
        card
    }

    /// A card with any fields, in range or not, and the check that makes it right.
    fn checked(fields: [u32; 4]) -> Vec<u8> {
        let [gmin, batch, threshold, spacing] = fields;
        let payload = format!("{gmin:03}{batch:05}{threshold:05}{spacing:05}");
        let check = check_of(payload.parse().unwrap());
        format!("{payload}{check:02}").into_bytes()
    }

    #[test]
    fn p10_reads_and_writes() {
        assert_eq!(read(P10), Ok(P10_SETTINGS));
        assert_eq!(&written(P10_SETTINGS), P10);
    }

    #[test]
    fn p11_is_refused_by_its_check() {
        assert_eq!(read(b"01600100000010040096"), Err(Refusal::CARD_CHECK));
    }

    #[test]
    fn refusals_have_the_table_numbers_and_place_0() {
        let table = [
            (Refusal::BUFFER_SHORT, 8),
            (Refusal::CARD_DIGITS, 11),
            (Refusal::CARD_CHECK, 12),
            (Refusal::CARD_FIELD, 13),
            (Refusal::SETTING, 15),
        ];
        for (refusal, number) in table {
            assert_eq!(refusal, Refusal { number, place: 0 });
        }
    }

    #[test]
    fn checks_00_01_and_99_are_refused_though_the_remainder_is_1() {
        let mut seen = Vec::new();
        // One more in the last field moves the check by 3, so 97 spacings meet every check.
        for spacing in 1..=97 {
            let mut card = written(settings([16, 100, 10, spacing]));
            let alias = match &card[18..] {
                b"97" => b"00",
                b"98" => b"01",
                b"02" => b"99",
                _ => continue,
            };
            card[18..].copy_from_slice(alias);
            assert_eq!(number(&card) % 97, 1, "{}", card.escape_ascii());
            let answer = read(&card);
            assert_eq!(answer, Err(Refusal::CARD_CHECK), "{}", card.escape_ascii());
            seen.push(*alias);
        }
        seen.sort_unstable();
        assert_eq!(seen, [*b"00", *b"01", *b"99"]);
    }

    #[test]
    fn each_field_at_the_ends_of_its_range() {
        let good = [16, 100, 10, 400];
        let ends = [(0, 1, 255), (1, 1, 1_024), (2, 0, 1_024), (3, 1, 40_000)];
        for (field, least, most) in ends {
            let with = |value| {
                let mut fields = good;
                fields[field] = value;
                fields
            };
            for value in [least, most] {
                let fields = with(value);
                assert_eq!(read(&written(settings(fields))), Ok(settings(fields)));
            }
            let below = (least > 0).then(|| least - 1);
            for value in below.into_iter().chain([most + 1]) {
                let fields = with(value);
                let card = checked(fields);
                assert_eq!(read(&card), Err(Refusal::CARD_FIELD), "{fields:?}");
                let answer = write(settings(fields), &mut [0; 20]);
                assert_eq!(answer, Err(Refusal::SETTING), "{fields:?}");
            }
            let answer = write(settings(with(u32::MAX)), &mut [0; 20]);
            assert_eq!(answer, Err(Refusal::SETTING), "field {field}");
        }
    }

    #[test]
    fn the_check_is_refused_before_a_field() {
        let mut card = checked([0, 0, 99_999, 0]);
        assert_eq!(read(&card), Err(Refusal::CARD_FIELD));
        card[19] = b'0' + (card[19] - b'0' + 1) % 10;
        assert_eq!(read(&card), Err(Refusal::CARD_CHECK));
    }

    #[test]
    fn anything_but_20_digits_is_refused() {
        let longer = [P10.as_slice(), b"0"].concat();
        let before = [b"0", P10.as_slice()].concat();
        for card in [&[], &P10[..19], &P10[1..], &longer, &before] {
            assert_eq!(read(card), Err(Refusal::CARD_DIGITS), "{card:?}");
        }
        for place in 0..20 {
            for byte in [b'/', b':', b' ', b'-', 0, 0xFF] {
                let mut card = *P10;
                card[place] = byte;
                assert_eq!(read(&card), Err(Refusal::CARD_DIGITS), "{card:?}");
            }
        }
    }

    #[test]
    fn a_buffer_keeps_what_is_not_the_card() {
        for length in [0, 19, 20, 30] {
            let mut out = vec![0xA5; length];
            let answer = write(P10_SETTINGS, &mut out);
            if length < 20 {
                assert_eq!(answer, Err(Refusal::BUFFER_SHORT), "length {length}");
                assert_eq!(out, vec![0xA5; length]);
            } else {
                assert_eq!(answer, Ok(20), "length {length}");
                assert_eq!(&out[..20], P10);
                assert_eq!(out[20..], vec![0xA5; length - 20]);
            }
            let mut out = vec![0xA5; length];
            let answer = write(settings([0, 100, 10, 400]), &mut out);
            assert_eq!(answer, Err(Refusal::SETTING), "length {length}");
            assert_eq!(out, vec![0xA5; length]);
        }
    }
}
