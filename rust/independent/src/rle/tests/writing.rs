//! Adding a trace to a packet, reading it back, and the refusals.

use super::*;

/// A buffer of `length` bytes 0xA5 with a packet of `words` words of one unknown block after its
/// header at the front.
fn holding(words: u16, length: usize) -> Vec<u8> {
    let mut buffer = vec![0xA5; length];
    compose::new_packet(1, &mut buffer).unwrap();
    buffer[2..4].copy_from_slice(&(1 + words).to_be_bytes());
    if words > 0 {
        buffer[8..10].copy_from_slice(&[2, 0]);
        buffer[10..12].copy_from_slice(&(words - 1).to_be_bytes());
    }
    buffer
}

/// A refused call changes no byte.
fn not_added(buffer: &[u8], trace: &[u8], refusal: Refusal) {
    let mut lent = buffer.to_vec();
    assert_eq!(add(&mut lent, 5, 9, trace), Err(refusal));
    assert_eq!(lent, buffer);
}

/// The bytes of the block that adding to a packet of `words` words gives; it reads back as the
/// trace, and all else is as it was.
fn added(words: u16, source: u32, begin: u16, trace: &[u8]) -> Vec<u8> {
    let size = 8 + 4 * usize::from(words);
    let before = holding(words, size + 9_000);
    let mut buffer = before.clone();
    let new_size = add(&mut buffer, source, begin, trace).unwrap();
    assert_eq!(buffer[..2], before[..2]);
    assert_eq!(buffer[4..size], before[4..size]);
    assert_eq!(buffer[new_size..], before[new_size..]);
    // Room to the byte.
    let mut exact = before[..new_size].to_vec();
    assert_eq!(add(&mut exact, source, begin, trace), Ok(new_size));
    assert_eq!(exact, buffer[..new_size]);
    not_added(&before[..new_size - 1], trace, Refusal::BUFFER_SHORT);
    let packet = &buffer[..new_size];
    let index = usize::from(words > 0);
    assert_eq!(packet::read(packet), Ok((1, index + 1)));
    let rle = LossRle {
        source,
        begin,
        end: begin.wrapping_add(trace.len() as u16),
        lost: losses(trace) as u16,
    };
    assert_eq!(packet::block(packet, index), Ok((1, Reading::Rle(rle))));
    let mut out = vec![0xA5; trace.len() + 3];
    assert_eq!(read_out(packet, index, &mut out), Ok(trace.len()));
    assert_eq!(out, [trace, &[0xA5; 3]].concat());
    packet[size..].to_vec()
}

#[test]
fn by_hand() {
    assert_eq!(
        added(0, 0x0102_0304, 0x0506, &trace("010")),
        [1, 0, 0, 3, 1, 2, 3, 4, 5, 6, 5, 9, 0xD0, 0, 0, 0]
    );
    // Two vectors need no null: the second has only its first bit.
    assert_eq!(
        added(3, 5, 65_535, &trace("1000000000000010")),
        [1, 0, 0, 3, 0, 0, 0, 5, 0xFF, 0xFF, 0, 15, 0xBF, 0xFE, 0xC0, 0]
    );
    // Lost packets alone: a vector without ones is no null.
    assert_eq!(
        added(1, 0, 0, &[1; 15])[12..],
        [0x80, 0, 0, 0],
        "a vector, then the null"
    );
    assert_eq!(added(0, 0, 0, &[0; 15])[12..], [0xFF, 0xFF, 0, 0]);
    assert_eq!(added(0, 0, 0, &[1])[12..], [0x80, 0, 0, 0]);
    assert_eq!(added(0, 0, 0, &[0])[12..], [0xC0, 0, 0, 0]);
}

/// The chunks are vectors, bit by bit, with zeros where no packet is and a null where their
/// count is odd.
fn chunks_of(trace: &[u8]) -> Vec<u8> {
    let mut chunks = Vec::new();
    for packets in trace.chunks(15) {
        let mut chunk = 0x8000;
        for (packet, byte) in packets.iter().enumerate() {
            if *byte == 0 {
                chunk |= 1 << (14 - packet);
            }
        }
        chunks.push(chunk);
    }
    if chunks.len() % 2 == 1 {
        chunks.push(0);
    }
    bytes(&chunks)
}

#[test]
fn every_short_trace() {
    for length in 1..=8 {
        for number in 0..1_u32 << length {
            let trace: Vec<u8> = (0..length)
                .map(|packet| (number >> packet & 1) as u8)
                .collect();
            assert_eq!(added(0, 7, number as u16, &trace)[12..], chunks_of(&trace));
        }
    }
}

/// Each length, with one packet unlike the others or with none.
#[test]
fn lengths_about_whole_vectors() {
    for length in 1..=95 {
        for packet in 0..=length {
            for byte in [0, 1] {
                let mut trace = vec![byte; length];
                if let Some(other) = trace.get_mut(packet) {
                    *other = 1 - byte;
                }
                let block = added(2, u32::MAX, 65_530, &trace);
                assert_eq!(block[12..], chunks_of(&trace));
                assert_eq!(block.len(), 12 + 4 * length.div_ceil(30));
            }
        }
    }
}

#[test]
fn random_traces() {
    let mut numbers = Numbers(0x9E37_79B9_7F4A_7C15);
    for round in 0..1_000 {
        let length = match round % 100 {
            0 => 60_000 + numbers.below(5_533),
            _ => 1 + numbers.below(400),
        };
        let rate = numbers.one_of(&[1, 10, 50, 90, 99]);
        let trace: Vec<u8> = (0..length)
            .map(|_| u8::from(numbers.below(100) < rate))
            .collect();
        let (words, begin) = (numbers.below(9) as u16, numbers.half());
        let block = added(words, round, begin, &trace);
        assert_eq!(block[12..], chunks_of(&trace));
    }
}

#[test]
fn up_to_65_533_packets() {
    for byte in [0, 1] {
        for begin in [0, 3, 65_535] {
            let block = added(0, 5, begin, &vec![byte; 65_533]);
            assert_eq!(block.len(), 12 + 2 * 4_370);
        }
    }
    for length in [0, 65_534, 65_535, 65_536, 65_537, 131_073] {
        not_added(&holding(0, 20_000), &vec![0; length], Refusal::TRACE_LENGTH);
    }
}

/// "9 with 2 counted as bad", at the first such byte.
#[test]
fn bytes_above_1() {
    let buffer = holding(0, 100);
    for byte in 2..=255 {
        for (place, packets) in [(0, 1), (2, 5), (14, 15), (15, 40), (39, 40)] {
            let mut trace = vec![1; packets];
            trace[place] = byte;
            not_added(&buffer, &trace, Refusal::trace_byte(place));
            trace[place..].fill(byte);
            not_added(&buffer, &trace, Refusal::trace_byte(place));
        }
    }
    let mut longest = vec![1; 65_533];
    longest[65_532] = 2;
    not_added(&buffer, &longest, Refusal::trace_byte(65_532));
}

/// Faults put in from the last to the first: each hides those that come after it.
#[test]
fn refusals_in_order() {
    let bad = [0, 1, 2];
    // The length field would pass 65,535, in a buffer with no room either.
    let full = holding(65_534, 262_144);
    assert_eq!(packet::read(&full), Ok((1, 1)));
    not_added(&full, &[0], Refusal::PACKET_FULL);
    not_added(&full, &bad, Refusal::trace_byte(2));
    not_added(&full, &[], Refusal::TRACE_LENGTH);
    not_added(&full, &vec![2; 65_534], Refusal::TRACE_LENGTH);
    let mut buffer = holding(2, 31);
    not_added(&buffer, &[0], Refusal::BUFFER_SHORT);
    not_added(&buffer, &bad, Refusal::trace_byte(2));
    not_added(&buffer, &[], Refusal::TRACE_LENGTH);
    buffer[11] = 2;
    not_added(&buffer, &[], Refusal::block_past_end(8));
    buffer[0] |= 0x20;
    not_added(&buffer, &bad, Refusal::PADDING);
    for length in [0, 7, 8, 65_535_u16] {
        buffer[2..4].copy_from_slice(&length.to_be_bytes());
        not_added(&buffer, &[], Refusal::PACKET_LENGTH);
    }
    buffer[1] = 206;
    not_added(&buffer, &bad, Refusal::PACKET_TYPE);
    buffer[0] = 0x60;
    not_added(&buffer, &[], Refusal::VERSION);
    for length in 0..8 {
        not_added(&buffer[..length], &bad, Refusal::PACKET_SHORT);
    }
}

#[test]
fn up_to_a_length_of_65_535() {
    // Four words more make the length field 65,535.
    let mut buffer = holding(65_530, 300_000);
    assert_eq!(add(&mut buffer, 5, 9, &[1; 30]), Ok(262_144));
    assert_eq!(packet::read(&buffer[..262_144]), Ok((1, 2)));
    reads_out(&buffer[..262_144], 1, &[1; 30]);
    not_added(&buffer, &[1], Refusal::PACKET_FULL);
    let buffer = holding(65_530, 300_000);
    not_added(&buffer, &[1; 31], Refusal::PACKET_FULL);
    not_added(&holding(65_531, 300_000), &[1], Refusal::PACKET_FULL);
    // 17 comes before 8, which comes alone where the length fits.
    not_added(&buffer[..262_143], &[1; 31], Refusal::PACKET_FULL);
    not_added(&buffer[..262_143], &[1; 30], Refusal::BUFFER_SHORT);
    let longest = vec![0; 65_533];
    let mut buffer = holding(65_534 - 2_188, 262_144);
    assert_eq!(add(&mut buffer, 5, 9, &longest), Ok(262_144));
    let buffer = holding(65_535 - 2_188, 262_144);
    not_added(&buffer, &longest, Refusal::PACKET_FULL);
}

/// Beside blocks of other kinds, added before and after it.
#[test]
fn in_one_packet_with_others() {
    let effective = crate::block::Block::Effective(crate::block::Effective {
        source: 5,
        index: 37_448,
    });
    let mut buffer = vec![0; 200];
    compose::new_packet(1, &mut buffer).unwrap();
    // Reserved bits of byte 0 are not the call's to change.
    buffer[0] |= 0x1F;
    compose::add(&mut buffer, &effective).unwrap();
    add(&mut buffer, 5, 9, &trace("110")).unwrap();
    compose::add(&mut buffer, &effective).unwrap();
    let size = add(&mut buffer, 6, 9, &trace("0001")).unwrap();
    assert_eq!(buffer[0], 0x9F);
    let packet = &buffer[..size];
    let listed = packet::list(packet).unwrap();
    assert_eq!(listed, [(8, 0), (20, 254), (36, 0), (48, 254)]);
    reads_out(packet, 1, &trace("110"));
    reads_out(packet, 3, &trace("0001"));
    refused(packet, 2, Refusal::NO_SUCH_BLOCK);
}
