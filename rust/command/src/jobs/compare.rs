//! Two packets compared: a line for each difference, and the statuses of `diff`.

use super::Job;
use crate::{
    answer::{not_refused, shown, Answer, Failure, One},
    arguments::{Arguments, Takes, JSON},
    input,
    json::{object, Object},
    listing,
};
use nuvaskoe::{
    packet::{self, Difference, PacketBlock},
    Refusal,
};
use std::ffi::OsStr;

pub const COMPARE: Job = Job {
    name: "compare",
    usage: "A B",
    purpose: "two report packets, a line for each difference",
    words: "\
A and B are files with one packet each. Their blocks are paired by number, and
each difference is a line in the words of the job `list`: what A has, `and`,
what B has. A block of one packet alone is `only in FILE`, and two blocks that
these words do not tell apart are `in both, the bytes differ`. The eight counts
of `ts` have names here. Blocks of two types, and blocks that are unknown,
dropped or `rle`, are compared as a whole; of all others the reserved bits are
left out. A file of over 262,144 bytes is no packet.

The exit status is that of diff: 0 where nothing differs, and nothing is then
printed; 1 where something does; 2 for a refusal, for wrong usage or for a file
that cannot be read.
",
    options: &[JSON],
    takes: Takes {
        least: 2,
        most: 2,
        files: 2,
        fewer: "two files are needed",
    },
    example: "\
$ printf '\\200\\317\\0\\4\\0\\0\\0\\1\\360\\0\\0\\2\\0\\0\\0\\2\\222\\110\\0\\0' > east.xr
$ printf '\\200\\317\\0\\4\\0\\0\\0\\7\\360\\0\\0\\2\\0\\0\\0\\2\\222\\111\\0\\0' > west.xr
$ nuvaskoe compare east.xr west.xr || echo \"status $?\"
sender 00000001 and 00000007
block 0 eli index 37448 and 37449
status 1
",
    run,
};

/// The status of an answer with differences.
const DIFFERENT: u8 = 1;

fn run(arguments: &Arguments) -> Result<Answer<'_>, Failure> {
    let [first, second] = arguments.words() else {
        return Err(arguments.usage(COMPARE.takes.fewer));
    };
    let (one, other) = (input::packet(first)?, input::packet(second)?);
    // The library does not say whose refusal it is, but the first packet's comes first.
    let refused = |refusal| {
        let file = match packet::read(&one) {
            Err(_) => first.clone(),
            Ok(_) => second.clone(),
        };
        Failure::OneOfTwo { refusal, file }
    };
    let differences = packet::differences(&one, &other).map_err(refused)?;
    let pair = Pair {
        first: Side::new(first, &one).map_err(refused)?,
        second: Side::new(second, &other).map_err(refused)?,
    };
    let status = if differences.is_empty() { 0 } else { DIFFERENT };
    // Whichever is asked for: there may be thousands.
    let (words, numbers) = match arguments.is_json() {
        true => (String::new(), pair.numbers(&differences)),
        false => (pair.lines(&differences), Object::default()),
    };
    Ok(Answer::One(One {
        words,
        numbers,
        status,
        ..One::default()
    }))
}

/// The two packets.
struct Pair<'a> {
    first: Side<'a>,
    second: Side<'a>,
}

/// One of them: its file and its blocks.
struct Side<'a> {
    file: &'a OsStr,
    blocks: Vec<PacketBlock<'a>>,
}

impl<'a> Side<'a> {
    fn new(file: &'a OsStr, packet: &'a [u8]) -> Result<Side<'a>, Refusal> {
        let blocks = packet::blocks(packet)?.collect();
        Ok(Side { file, blocks })
    }

    /// What a block is, in the words of a listing.
    fn kind(&self, block: usize) -> String {
        let block = self.blocks.get(block);
        block.map(listing::kind).unwrap_or_default()
    }

    /// The name of a field of a block.
    fn name(&self, block: usize, field: usize) -> &'static str {
        let block = self.blocks.get(block);
        let name = block.and_then(|block| listing::name(block, field));
        name.unwrap_or_default()
    }

    /// The type of a block and the name of its field.
    fn field(&self, block: usize, field: usize) -> Object {
        let name = self.name(block, field);
        let block = self.blocks.get(block);
        let block_type = block.map_or(0, |block| block.reading.block_type);
        object([("block_type", block_type.into()), ("name", name.into())])
    }

    /// A block as `list` has it.
    fn numbers(&self, block: usize) -> Object {
        let block = self.blocks.get(block);
        block.map(listing::block_numbers).unwrap_or_default()
    }
}

impl Pair<'_> {
    /// For people: a line for each difference.
    fn lines(&self, differences: &[Difference]) -> String {
        let lines = differences.iter().map(|difference| self.line(difference));
        lines.map(|line| line + "\n").collect()
    }

    fn line(&self, difference: &Difference) -> String {
        let Pair { first, second } = self;
        let only = |side: &Side<'_>, block| {
            let (kind, file) = (side.kind(block), shown(side.file));
            format!("block {block} {kind} only in {file}")
        };
        match *difference {
            Difference::Sender { first, second } => format!("sender {first:08x} and {second:08x}"),
            Difference::Field {
                block,
                field,
                first: reading,
                second: other,
            } => {
                let (kind, name) = (first.kind(block), first.name(block, field));
                let [reading, other] = [reading, other].map(|number| listing::shown(name, number));
                let word = listing::word(name);
                format!("block {block} {kind} {word} {reading} and {other}")
            }
            Difference::Block { block } => match (first.kind(block), second.kind(block)) {
                (kind, other) if kind == other => {
                    format!("block {block} {kind} in both, the bytes differ")
                }
                (kind, other) => format!("block {block} {kind} and {other}"),
            },
            Difference::OnlyFirst { block } => only(first, block),
            Difference::OnlySecond { block } => only(second, block),
            _ => "another difference".into(),
        }
    }

    /// For scripts: as `nuvaskoe_compared`, and a list of the differences.
    fn numbers(&self, differences: &[Difference]) -> Object {
        let files = [self.first.file, self.second.file];
        let files = files.iter().map(|file| file.to_string_lossy().into_owned());
        let list = differences.iter().map(|difference| self.entry(difference));
        let answer = object([
            ("differences", differences.len().into()),
            ("list", list.collect()),
        ]);
        object([("files", files.collect())])
            .and(not_refused())
            .and(answer)
    }

    /// The five numbers of a difference, those that its kind does not use being 0; then the type
    /// and the name of a field, or the whole block of each packet that has it.
    fn entry(&self, difference: &Difference) -> Object {
        let (kind, block, field, first, second) = match *difference {
            Difference::Sender { first, second } => (0, 0, 0, first, second),
            Difference::Field {
                block,
                field,
                first,
                second,
            } => (1, block, field, first, second),
            Difference::Block { block } => (2, block, 0, 0, 0),
            Difference::OnlyFirst { block } => (3, block, 0, 0, 0),
            Difference::OnlySecond { block } => (4, block, 0, 0, 0),
            _ => return Object::default(),
        };
        let numbers = object([
            ("kind", u32::into(kind)),
            ("block", block.into()),
            ("field", field.into()),
            ("first", first.into()),
            ("second", second.into()),
        ]);
        let of_first = || object([("first_block", self.first.numbers(block).into())]);
        let of_second = || object([("second_block", self.second.numbers(block).into())]);
        numbers.and(match difference {
            Difference::Field { .. } => self.first.field(block, field),
            Difference::Block { .. } => of_first().and(of_second()),
            Difference::OnlyFirst { .. } => of_first(),
            Difference::OnlySecond { .. } => of_second(),
            _ => Object::default(),
        })
    }
}
