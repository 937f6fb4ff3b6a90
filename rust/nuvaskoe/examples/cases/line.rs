//! A line of worked cases taken apart: a word, its numbers and its data.

/// The most bytes, packets or entries of a case: the bytes of the longest packet.
const MOST: u32 = 262_144;

/// What follows the numbers. The last number is the size of bytes, of words and of a trace; the last
/// two are those of two packets, or of bytes and a trace, which a space parts.
#[derive(Clone, Copy, PartialEq)]
enum Data {
    Nothing,
    Bytes,
    Words,
    Pair,
    BytesAndTrace,
    Trace,
    Text,
}

/// Each word, how many numbers it takes, which of them are sizes, and its data.
const WORDS: [(&str, usize, &[usize], Data); 33] = [
    ("read", 1, &[0], Data::Bytes),
    ("block", 2, &[1], Data::Bytes),
    ("body", 2, &[1], Data::Bytes),
    ("list", 2, &[0, 1], Data::Bytes),
    ("compare", 3, &[0, 1, 2], Data::Pair),
    ("alone", 3, &[2], Data::Bytes),
    ("panel", 2, &[1], Data::Bytes),
    ("panelalone", 3, &[2], Data::Bytes),
    ("panel17", 6, &[], Data::Nothing),
    ("panel18", 4, &[], Data::Nothing),
    ("new", 2, &[1], Data::Nothing),
    ("add14", 8, &[7], Data::Bytes),
    ("add17", 7, &[6], Data::Bytes),
    ("add18", 5, &[4], Data::Bytes),
    ("add240", 3, &[2], Data::Bytes),
    ("add241", 13, &[12], Data::Bytes),
    ("add1", 4, &[2, 3], Data::BytesAndTrace),
    ("rle", 3, &[1, 2], Data::Bytes),
    ("card", 0, &[], Data::Text),
    ("write", 5, &[4], Data::Nothing),
    ("figures", 4, &[3], Data::Trace),
    ("loss17", 5, &[4], Data::Trace),
    ("discard18", 5, &[4], Data::Trace),
    ("tally", 4, &[3], Data::Trace),
    ("close", 13, &[], Data::Nothing),
    ("tallyblock", 15, &[], Data::Nothing),
    ("take", 14, &[], Data::Nothing),
    ("loss", 4, &[3], Data::Trace),
    ("plan", 5, &[3, 4], Data::Trace),
    ("pack", 3, &[1, 2], Data::Trace),
    ("unpack", 3, &[1, 2], Data::Words),
    ("packedloss", 4, &[3], Data::Words),
    ("packedplan", 5, &[3, 4], Data::Words),
];

/// The bytes of a word, the highest first.
pub const WORD: usize = 8;

impl Data {
    /// The bytes of a text, as many as the numbers say.
    fn read(self, text: &[u8], numbers: &[u32]) -> Option<Vec<u8>> {
        Some(match (self, numbers) {
            (Data::Bytes, [.., size]) => sized(hexadecimal(text)?, *size)?,
            (Data::Words, [.., count]) => words(hexadecimal(text)?, *count)?,
            (Data::Trace, [.., size]) => sized(trace(text)?, *size)?,
            (Data::Pair, [.., size, other]) => {
                let (first, second) = two(text)?;
                let (first, second) = (hexadecimal(first)?, hexadecimal(second)?);
                [sized(first, *size)?, sized(second, *other)?].concat()
            }
            (Data::BytesAndTrace, [.., size, packets]) => {
                let (bytes, packet) = two(text)?;
                let (bytes, packet) = (hexadecimal(bytes)?, trace(packet)?);
                [sized(bytes, *size)?, sized(packet, *packets)?].concat()
            }
            _ => text.to_vec(),
        })
    }
}

/// A case, or none where the line is none.
pub struct Case {
    pub word: &'static str,
    pub numbers: Vec<u32>,
    pub data: Vec<u8>,
}

impl Case {
    pub fn read(line: &[u8]) -> Option<Case> {
        let (front, mut rest) = cut(line);
        let known = WORDS.iter().find(|(word, ..)| word.as_bytes() == front);
        let &(word, count, sizes, kind) = known?;
        let mut numbers = Vec::new();
        for place in 0..count {
            let (digits, behind) = cut(rest?);
            let number = decimal(digits)?;
            if sizes.contains(&place) && number > MOST {
                return None;
            }
            numbers.push(number);
            rest = behind;
        }
        if rest.is_some_and(|text| text.is_empty() || kind == Data::Nothing) {
            return None;
        }
        let text = rest.unwrap_or_default();
        let data = kind.read(text, &numbers)?;
        Some(Case {
            word,
            numbers,
            data,
        })
    }
}

/// Two texts, of which both or the second may be left out.
fn two(text: &[u8]) -> Option<(&[u8], &[u8])> {
    match cut(text) {
        (front, None) => Some((front, &[])),
        (front, Some(back)) => (!front.is_empty() && !back.is_empty()).then_some((front, back)),
    }
}

/// Data of this size: zero bytes follow what there is, which may not be more.
fn sized(mut data: Vec<u8>, size: u32) -> Option<Vec<u8>> {
    let size = size as usize;
    let fits = data.len() <= size;
    data.resize(size, 0);
    fits.then_some(data)
}

/// Whole words, as many as this: zero words follow in the same way.
fn words(data: Vec<u8>, count: u32) -> Option<Vec<u8>> {
    let is_whole = data.len() % WORD == 0;
    is_whole.then(|| sized(data, WORD as u32 * count))?
}

/// The text before the first space, and what follows it.
fn cut(text: &[u8]) -> (&[u8], Option<&[u8]>) {
    match text.iter().position(|byte| *byte == b' ') {
        Some(at) => (&text[..at], Some(&text[at + 1..])),
        None => (text, None),
    }
}

fn decimal_digit(digit: u8) -> Option<u8> {
    digit.is_ascii_digit().then(|| digit - b'0')
}

fn decimal(digits: &[u8]) -> Option<u32> {
    let mut number = 0u32;
    for digit in digits {
        let digit = decimal_digit(*digit)?.into();
        number = number.checked_mul(10)?.checked_add(digit)?;
    }
    (!digits.is_empty()).then_some(number)
}

/// A digit a packet.
fn trace(text: &[u8]) -> Option<Vec<u8>> {
    text.iter().map(|digit| decimal_digit(*digit)).collect()
}

/// Two lower-case digits a byte.
fn hexadecimal(text: &[u8]) -> Option<Vec<u8>> {
    let digit = |byte: u8| match byte {
        b'a'..=b'f' => Some(byte - b'a' + 10),
        _ => decimal_digit(byte),
    };
    let pairs = text.chunks(2).map(|pair| match *pair {
        [high, low] => Some(digit(high)? * 16 + digit(low)?),
        _ => None,
    });
    pairs.collect()
}
