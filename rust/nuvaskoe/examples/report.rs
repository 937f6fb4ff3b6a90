//! A report on a measured trace: settings from a card, figures and effective loss in a packet,
//! the packet's blocks listed, and how many packets to resend. It asserts what it prints.

use nuvaskoe::block::{Block, Effective, Measurement, Verdict};
use nuvaskoe::{card, effective, figures, packet, resend, trace::Event, Refusal};

const CARD: &[u8] = b"00200003000010100094";
const TRACE: [u8; 16] = [0, 1, 1, 0, 1, 0, 1, 0, 0, 2, 0, 0, 0, 0, 0, 0];
const SOURCE: u32 = 2;
/// A block 17 or 18 is dropped without such a block for its source.
const SPAN: Block = Block::Measurement(Measurement {
    source: SOURCE,
    first: 100,
    extended_first: 100,
    extended_last: 115,
    interval: 1_048,
    seconds: 0,
    fraction: 68_719_477,
});
const REPORT: &str = "\
0 at 8: type 14, 28 bytes
1 at 40: loss burst 21845 gap 0 mean 6 var 0
2 at 56: discard burst none gap 2048
3 at 68: effective loss 18724
resend 2
";

fn main() -> Result<(), Refusal> {
    let card = card::read(CARD)?;
    let lost = figures::loss_of_trace(&TRACE, card.gmin, card.spacing, SOURCE, 3)?;
    let discarded = figures::discard_of_trace(&TRACE, card.gmin, card.spacing, SOURCE, 3)?;
    let loss = effective::effective_loss(&TRACE, card.batch, card.threshold, Event::Lost)?;
    let blocks = [
        SPAN,
        Block::Loss(lost),
        Block::Discard(discarded),
        Block::Effective(Effective {
            source: SOURCE,
            index: loss.index,
        }),
    ];
    let mut buffer = [0; 128];
    let mut size = packet::new(1, &mut buffer)?;
    for block in blocks {
        size = packet::add(&mut buffer, &block)?;
    }
    let mut report: String = packet::blocks(&buffer[..size])?.map(line).collect();
    let mut plan = [0; TRACE.len()];
    let marks = resend::plan(&TRACE, card.batch, card.threshold, Event::Lost, &mut plan)?;
    report += &format!("resend {marks}\n");
    print!("{report}");
    assert_eq!(report, REPORT);
    Ok(())
}

fn line(block: packet::PacketBlock<'_>) -> String {
    let words = match block.reading.verdict {
        Verdict::Typed(Block::Loss(loss)) => {
            let (burst, gap, mean) = (loss.burst_rate, loss.gap_rate, loss.mean);
            let variance = loss.variance;
            format!("loss burst {burst} gap {gap} mean {mean} var {variance}")
        }
        Verdict::Typed(Block::Discard(discard)) => {
            let (burst, gap) = (discard.burst_rate, discard.gap_rate);
            format!("discard burst {burst} gap {gap}")
        }
        Verdict::Typed(Block::Effective(loss)) => format!("effective loss {}", loss.index),
        Verdict::Dropped(reason) => format!("dropped, {}", reason.meaning()),
        _ => {
            let (block_type, bytes) = (block.reading.block_type, block.body.len());
            format!("type {block_type}, {bytes} bytes")
        }
    };
    format!("{} at {}: {words}\n", block.index, block.offset)
}
