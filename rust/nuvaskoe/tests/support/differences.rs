//! The library's comparison of two packets beside the independent one, and what holds of every
//! list of differences.

use super::{
    answers::{ours, refusal, theirs, Answer},
    boundary::{Compared, DIFFERENCE_NUMBERS},
    compare::shown,
    raw,
};
use nuvaskoe::packet::Difference;

/// "Five an entry: kind, block, field, both readings, unused ones 0."
pub type Entry = [u32; DIFFERENCE_NUMBERS];

/// Compares with both into equal lists of `numbers` numbers, and gives the answer and the list
/// on which they agree. Numbers after the last entry, and all where refused, keep what they held.
pub fn compare_both(first: &[u8], second: &[u8], numbers: usize) -> (Answer<usize>, Vec<u32>) {
    let before: Vec<u32> = (0..numbers as u32).map(|index| !index).collect();
    let (mut library_out, mut independent_out) = (before.clone(), before.clone());
    let mut whole_out = before.clone();
    let whole = raw::packet_compare(first, second, &mut whole_out);
    let library = nuvaskoe::packet::compare(first, second, &mut library_out);
    let library = ours(library);
    let independent = independent::compare::compare(first, second, &mut independent_out);
    let independent = theirs(independent);
    let pair = || format!("{numbers} numbers, {} and {}", shown(first), shown(second));
    assert_eq!(library, independent, "{}", pair());
    assert!(library_out == independent_out, "{}", pair());
    assert_eq!(whole, compared(&independent), "{}", pair());
    assert!(whole_out == independent_out, "{}", pair());
    let written = DIFFERENCE_NUMBERS * library.unwrap_or(0);
    assert!(library_out[written..] == before[written..], "{}", pair());
    (library, library_out)
}

/// The whole answer of the boundary.
fn compared(answer: &Answer<usize>) -> Compared {
    Compared {
        refusal: refusal(answer),
        differences: answer.unwrap_or(0),
    }
}

/// The numbers that are always enough: `5 * (3 * longer / 8)`, `longer` being the bytes of the
/// longer packet; two for each of its bytes are more than that.
pub fn enough(first: &[u8], second: &[u8]) -> usize {
    DIFFERENCE_NUMBERS * (3 * first.len().max(second.len()) / 8)
}

/// How many numbers the list of two packets takes; 0 where one is refused.
pub fn needed(first: &[u8], second: &[u8]) -> usize {
    let mut out = vec![0; enough(first, second)];
    let count = independent::compare::compare(first, second, &mut out);
    DIFFERENCE_NUMBERS * count.unwrap_or(0)
}

/// The entries of two packets, the same into a list with room for all that there might be,
/// into one that they fill, and by name. A number less is refused.
pub fn entries(first: &[u8], second: &[u8]) -> Answer<Vec<Entry>> {
    let (answer, out) = compare_both(first, second, enough(first, second));
    let named = ours(nuvaskoe::packet::differences(first, second));
    let named = named.map(|all| all.iter().map(entry).collect::<Vec<_>>());
    let listed = answer.map(|count| {
        let numbers = &out[..DIFFERENCE_NUMBERS * count];
        let full = compare_both(first, second, numbers.len());
        assert_eq!(full, (Ok(count), numbers.to_vec()));
        if let Some(short) = numbers.len().checked_sub(1) {
            assert_eq!(compare_both(first, second, short).0, Err((8, 0)));
        }
        let entries = numbers.chunks_exact(DIFFERENCE_NUMBERS);
        entries.map(|some| some.try_into().unwrap()).collect()
    });
    assert_eq!(named, listed, "{} and {}", shown(first), shown(second));
    listed
}

/// The same of two good packets, with what holds of them: exchanged they have the same
/// entries, exchanged, and each has none with itself.
pub fn lawful_entries(first: &[u8], second: &[u8]) -> Vec<Entry> {
    let found = entries(first, second).expect("two good packets");
    let exchanged = found.iter().copied().map(exchanged).collect();
    assert_eq!(entries(second, first), Ok(exchanged));
    for packet in [first, second] {
        assert_eq!(entries(packet, packet), Ok(Vec::new()));
    }
    check_order(&found);
    found
}

/// The entry of the same two packets in the other order.
fn exchanged([kind, block, field, first, second]: Entry) -> Entry {
    let kind = match kind {
        3 => 4,
        4 => 3,
        kind => kind,
    };
    [kind, block, field, second, first]
}

/// "The sender comes first, then blocks, then fields in layout order": no entry stands twice,
/// and a block that has one for all of it has no other.
fn check_order(entries: &[Entry]) {
    for pair in entries.windows(2) {
        let [kind, block, field, ..] = pair[0];
        let [next_kind, next_block, next_field, ..] = pair[1];
        let fields = (kind, next_kind) == (1, 1) && block == next_block && field < next_field;
        let ordered = kind == 0 || block < next_block || fields;
        assert!(ordered && next_kind != 0, "{pair:?}");
    }
    for [kind, block, field, first, second] in entries {
        match kind {
            0 => assert!((*block, *field) == (0, 0) && first != second),
            1 => assert_ne!(first, second),
            2..=4 => assert_eq!((*field, *first, *second), (0, 0, 0)),
            kind => panic!("kind {kind}"),
        }
    }
}

/// A difference in the numbers of a list.
fn entry(difference: &Difference) -> Entry {
    match *difference {
        Difference::Sender { first, second } => [0, 0, 0, first, second],
        Difference::Field {
            block,
            field,
            first,
            second,
        } => [1, block as u32, field as u32, first, second],
        Difference::Block { block } => [2, block as u32, 0, 0, 0],
        Difference::OnlyFirst { block } => [3, block as u32, 0, 0, 0],
        Difference::OnlySecond { block } => [4, block as u32, 0, 0, 0],
        other => unreachable!("{other:?}"),
    }
}
