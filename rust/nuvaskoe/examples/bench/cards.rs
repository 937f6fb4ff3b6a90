//! Cards read and written.

use super::{
    print, race,
    support::cards::{card_of, read_both, Fields, P10},
};
use independent::card as theirs;
use nuvaskoe::card as ours;
use std::hint::black_box;

/// The settings of P10 of document 01, and those with the most digits that are not 0.
const SETTINGS: [(&str, Fields); 2] = [
    ("card of P10", [16, 100, 10, 400]),
    ("card of long settings", [255, 1_024, 1_023, 39_999]),
];

pub fn time() {
    for (name, fields) in SETTINGS {
        let card = card_of(fields);
        assert_eq!(read_both(&card), Ok(fields));
        time_read(name, &card);
        time_write(name, fields);
    }
    let mut damaged = *P10;
    damaged.swap(9, 11);
    assert_eq!(read_both(&damaged), Err((12, 0)));
    time_read("card with a wrong check", &damaged);
}

fn time_read(name: &str, card: &[u8]) {
    let times = race(
        || ours::read(black_box(card)),
        || theirs::read(black_box(card)),
    );
    print(name, card.len(), "read", times);
}

fn time_write(name: &str, [gmin, batch, threshold, spacing]: Fields) {
    let (mut our_card, mut their_card) = ([0; 20], [0; 20]);
    let our_settings = ours::Settings {
        gmin,
        batch,
        threshold,
        spacing,
    };
    let their_settings = theirs::Settings {
        gmin,
        batch,
        threshold,
        spacing,
    };
    let times = race(
        || ours::write(black_box(our_settings), black_box(&mut our_card)),
        || theirs::write(black_box(their_settings), black_box(&mut their_card)),
    );
    assert_eq!(our_card, their_card);
    print(name, our_card.len(), "write", times);
}
