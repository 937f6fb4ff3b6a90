use super::*;

const LISTED: [u8; 5] = [14, 17, 18, 240, 241];
/// Flag 1.
const FLAG: u8 = 0x40;

/// A body of a listed type's size whose every byte differs, with good rates.
fn body(block_type: u8) -> Vec<u8> {
    let length = 4 * words(block_type).unwrap();
    (1..=length as u8).collect()
}

fn with(block_type: u8, offset: usize, number: u16) -> Vec<u8> {
    let mut body = body(block_type);
    body[offset..offset + 2].copy_from_slice(&number.to_be_bytes());
    body
}

#[test]
fn block_14() {
    let expected = Block::Measurement(Measurement {
        source: 0x0102_0304,
        first: 0x0708,
        extended_first: 0x090A_0B0C,
        extended_last: 0x0D0E_0F10,
        interval: 0x1112_1314,
        seconds: 0x1516_1718,
        fraction: 0x191A_1B1C,
    });
    assert_eq!(read(14, 0, &body(14)), Reading::Typed(expected));
}

#[test]
fn blocks_17_and_18_with_each_flag() {
    for flag in 1..=3 {
        let loss = Block::Loss(Loss {
            flag,
            source: 0x0102_0304,
            burst_rate: 0x0506,
            gap_rate: 0x0708,
            mean: 0x090A,
            variance: 0x0B0C,
        });
        assert_eq!(read(17, flag << 6, &body(17)), Reading::Typed(loss));
        let discard = Block::Discard(Discard {
            flag,
            source: 0x0102_0304,
            burst_rate: 0x0506,
            gap_rate: 0x0708,
        });
        assert_eq!(read(18, flag << 6, &body(18)), Reading::Typed(discard));
    }
}

#[test]
fn block_240_has_no_reserved_index() {
    for index in [0, 37_448, 65_533, 65_534, 65_535] {
        let expected = Block::Effective(Effective {
            source: 0x0102_0304,
            index,
        });
        let answer = read(240, 0, &with(240, 4, index));
        assert_eq!(answer, Reading::Typed(expected));
    }
}

#[test]
fn block_241() {
    let stream = TransportStream {
        source: 0x0102_0304,
        begin: 0x0506,
        end: 0x0708,
        streams: 0x090A_0B0C,
        counts: [
            0x0D0E_0F10,
            0x1112_1314,
            0x1516_1718,
            0x191A_1B1C,
            0x1D1E_1F20,
            0x2122_2324,
            0x2526_2728,
            0x292A_2B2C,
        ],
    };
    let expected = Reading::Typed(Block::TransportStream(stream));
    assert_eq!(read(241, 0, &body(241)), expected);
    let covered = |begin, end| {
        TransportStream {
            begin,
            end,
            ..stream
        }
        .packets()
    };
    assert_eq!(covered(65_535, 2), 3);
    assert_eq!(covered(7, 7), 0);
    assert_eq!(covered(0, 65_535), 65_535);
    assert_eq!(covered(1, 0), 65_535);
}

#[test]
fn another_size_is_d1() {
    for block_type in LISTED {
        for length in 0..=60 {
            let good = length == body(block_type).len();
            let answer = read(block_type, FLAG, &vec![0; length]);
            let d1 = answer == Reading::Dropped(Reason::D1);
            assert_eq!(d1, !good, "type {block_type}, {length} bytes");
        }
    }
}

#[test]
fn unlisted_types_are_unknown() {
    let unlisted = |block_type: &u8| *block_type != 1 && !LISTED.contains(block_type);
    for block_type in (0..=255).filter(unlisted) {
        for length in [0, 1, 8, 12, 28, 44] {
            let answer = read(block_type, 0, &vec![0xFF; length]);
            assert_eq!(answer, Reading::Unknown, "type {block_type}");
        }
    }
}

/// Its chunks are for the tests of `rle`.
#[test]
fn type_1_is_a_kind_of_its_own() {
    let mut body = vec![1, 2, 3, 4, 5, 6, 5, 9];
    // A run of two lost packets, then one of received ones past the end.
    body.extend([0x00, 0x02, 0x40, 0x09]);
    let rle = LossRle {
        source: 0x0102_0304,
        begin: 0x0506,
        end: 0x0509,
        lost: 2,
    };
    assert_eq!(read(1, 0, &body), Reading::Rle(rle));
    assert_eq!(rle.packets(), 3);
    assert_eq!(words(1), None);
    assert_eq!(read(1, 0, &body[..7]), Reading::Dropped(Reason::D1));
    assert_eq!(read(1, 1, &body), Reading::Dropped(Reason::D2));
    assert_eq!(read(1, 0, &body[..8]), Reading::Dropped(Reason::D5));
}

#[test]
fn verdicts() {
    let effective = Effective {
        source: 0,
        index: 0,
    };
    let rle = LossRle {
        source: 0,
        begin: 0,
        end: 0,
        lost: 0,
    };
    let table = [
        (Reading::Typed(Block::Effective(effective)), 0),
        (Reading::Dropped(Reason::D1), 1),
        (Reading::Dropped(Reason::D2), 2),
        (Reading::Dropped(Reason::D3), 3),
        (Reading::Dropped(Reason::D4), 4),
        (Reading::Dropped(Reason::D5), 5),
        (Reading::Rle(rle), 254),
        (Reading::Unknown, 255),
    ];
    for (reading, verdict) in table {
        assert_eq!(reading.verdict(), verdict);
    }
}

#[test]
fn rates_at_their_limits() {
    let rates = [
        (0, true),
        (32_767, true),
        (32_768, true),
        (32_769, false),
        (65_533, false),
        (65_534, false),
        (65_535, true),
    ];
    for block_type in [17, 18] {
        for offset in [4, 6] {
            for (rate, good) in rates {
                let answer = read(block_type, FLAG, &with(block_type, offset, rate));
                let d3 = answer == Reading::Dropped(Reason::D3);
                assert_eq!(d3, !good, "type {block_type}, rate {rate} at {offset}");
            }
        }
    }
}

#[test]
fn mean_and_variance_are_never_dropped() {
    for number in [0, 32_769, 65_533, 65_534, 65_535] {
        let Reading::Typed(Block::Loss(loss)) = read(17, FLAG, &with(17, 8, number)) else {
            panic!("mean {number}");
        };
        assert_eq!((loss.mean, loss.variance), (number, 0x0B0C));
        let Reading::Typed(Block::Loss(loss)) = read(17, FLAG, &with(17, 10, number)) else {
            panic!("variance {number}");
        };
        assert_eq!((loss.mean, loss.variance), (0x090A, number));
    }
}

#[test]
fn d1_then_d2_then_d3() {
    for block_type in [17, 18] {
        let bad_rate = with(block_type, 4, 40_000);
        let mut longer = bad_rate.clone();
        longer.extend([0; 4]);
        let dropped = |specific, body| read(block_type, specific, body);
        assert_eq!(dropped(0x3F, &longer), Reading::Dropped(Reason::D1));
        assert_eq!(dropped(0x3F, &bad_rate), Reading::Dropped(Reason::D2));
        assert_eq!(dropped(FLAG, &bad_rate), Reading::Dropped(Reason::D3));
    }
}

#[test]
fn reserved_bits_are_ignored() {
    for block_type in LISTED {
        let body = body(block_type);
        for specific in 0..=255 {
            // Only the flag of a 17 or 18 counts.
            let meant = match block_type {
                17 | 18 => specific & 0xC0,
                _ => 0,
            };
            let answer = read(block_type, specific, &body);
            assert_eq!(answer, read(block_type, meant, &body), "{specific}");
        }
    }
    for bits in [0, 1, 0x8000, 0xFFFF] {
        assert_eq!(read(14, 0, &with(14, 4, bits)), read(14, 0, &body(14)));
        assert_eq!(read(240, 0, &with(240, 6, bits)), read(240, 0, &body(240)));
    }
}
