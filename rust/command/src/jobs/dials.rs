//! A block on the front panel: where its needles stand, in words and drawn.

use super::Job;
use crate::{
    answer::{not_refused, plain, shown, Answer, Failure, One},
    arguments::{Arguments, Opt, Takes, JSON},
    drawing, input,
    json::{object, Object, Value},
    listing, output, words,
};
use nuvaskoe::{
    block::{Block, Verdict},
    packet::{self, PacketBlock},
    panel::{self, Needle, Panel},
    Refusal,
};

const OUT: Opt = output::option("the panel drawn, an SVG; - is standard output");

pub const DIALS: Job = Job {
    name: "dials",
    usage: "FILE [K] [-o FILE.svg]",
    purpose: "a block on the front panel: its two needles and the lamp",
    words: "\
FILE holds one packet, and K is the number of a block, from 0; without K it is
the first block 17 or 18 that is not dropped. The needles stand at its burst and
its gap rate, as fractions from 0 to 1. One whose rate could not be measured is
dark, and so are both for a block that is dropped or of another type. The lamp
is on when at least one needle is lit.

The drawing of -o is one that a browser shows. A dark needle rests at its pin,
below the 0, in grey. A packet that is refused, or has no block K, leaves both
needles dark and is drawn so: no older drawing is left to be taken for it.
",
    options: &[OUT, JSON],
    takes: Takes {
        least: 1,
        most: 2,
        files: 1,
        fewer: "FILE is missing",
    },
    example: "\
$ printf '\\200\\317\\0\\14\\0\\0\\0\\1\\16\\0\\0\\7\\0\\0\\0\\2' > hall.xr
$ head -c 24 /dev/zero >> hall.xr
$ printf '\\22\\100\\0\\2\\0\\0\\0\\2\\40\\0\\377\\377' >> hall.xr
$ nuvaskoe dials hall.xr
hall.xr, block 1 discard source 00000002 i 1 burst 8192 gap none
  burst needle  lit at 0.25
  gap needle    dark
  lamp          on
",
    run,
};

fn run(arguments: &Arguments) -> Result<Answer<'_>, Failure> {
    let file = arguments.word();
    let asked = arguments.words().get(1);
    let index = asked
        .map(|word| arguments.numbered("K", word))
        .transpose()?;
    let packet = input::packet(file)?;
    let chosen = chosen(&packet, index);
    let (at, numbers) = match &chosen {
        Ok(Some(block)) => (
            format!("block {} {}", block.index, listing::line(block)),
            not_refused().and(listing::numbered(block)),
        ),
        Ok(None) => ("no block 17 or 18 to show".into(), not_refused()),
        Err(_) => ("no block to show".into(), Object::default()),
    };
    let panel = match (&chosen, index) {
        (Ok(Some(block)), _) => panel::of_packet(&packet, block.index),
        (_, Some(index)) => panel::of_packet(&packet, index),
        (_, None) => Panel::DARK,
    };
    let failure = chosen.err().map(|refusal| {
        let block = asked.map(|word| format!(", block {}", plain(&word.to_string_lossy())));
        Failure::refused(refusal, shown(file) + &block.unwrap_or_default())
    });
    let refusal = failure.as_ref().map(Failure::numbers);
    let one = One {
        words: format!("{}, {at}\n{}", shown(file), lines(&panel)),
        numbers: object([("file", file.to_string_lossy().as_ref().into())])
            .and(refusal.unwrap_or_default())
            .and(numbers)
            .and(of_panel(&panel)),
        failure,
        ..One::default()
    };
    let drawing = drawing::svg(&panel).into_bytes();
    Ok(Answer::One(output::with(arguments, one, drawing)))
}

/// The block with this number, or the first that has needles.
fn chosen(packet: &[u8], index: Option<usize>) -> Result<Option<PacketBlock<'_>>, Refusal> {
    let mut blocks = packet::blocks(packet)?;
    match index {
        Some(index) => {
            packet::block(packet, index)?;
            Ok(blocks.nth(index))
        }
        None => Ok(blocks.find(has_needles)),
    }
}

fn has_needles(block: &PacketBlock<'_>) -> bool {
    let verdict = block.reading.verdict;
    matches!(verdict, Verdict::Typed(Block::Loss(_) | Block::Discard(_)))
}

/// For people.
fn lines(panel: &Panel) -> String {
    let [burst, gap] = [panel.burst, panel.gap].map(|needle| {
        let lit = if needle.is_lit() { "lit at " } else { "" };
        format!("{lit}{}", words::needle(needle))
    });
    let lamp = words::lamp(panel);
    format!("  burst needle  {burst}\n  gap needle    {gap}\n  lamp          {lamp}\n")
}

/// For scripts: as `nuvaskoe_panel`.
fn of_panel(panel: &Panel) -> Object {
    let [burst, gap] = [panel.burst, panel.gap].map(|needle| {
        let (lit, position) = match needle {
            Needle::Lit(position) => (1_u8, position),
            Needle::Dark => (0, 0.0),
        };
        Value::from(object([("lit", lit.into()), ("position", position.into())]))
    });
    let lamp = u8::from(panel.lamp());
    object([("burst", burst), ("gap", gap), ("lamp", lamp.into())])
}
