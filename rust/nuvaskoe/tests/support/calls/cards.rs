//! Cards read and written.

use super::{call, number, Call};
use crate::support::cards::{any_card, any_fields, read_both, write_both};

pub fn calls() -> Vec<Call> {
    vec![
        call("card_read", &[11, 12, 13], any_card, |card| {
            number(&read_both(card))
        }),
        call(
            "card_write",
            &[15, 8],
            |random| {
                (
                    any_fields(random),
                    random.one_of(&[0, 1, 19, 20, 20, 21, 24]),
                )
            },
            |(fields, room)| number(&write_both(*fields, *room).0),
        ),
    ]
}
