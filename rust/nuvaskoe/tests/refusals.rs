//! Refusals and reasons in words, numbers and places put in.

use nuvaskoe::{block::Reason, Refusal, RefusalKind};
use std::collections::BTreeSet;

/// Every kind says something of its own.
#[test]
fn words() {
    let meanings: BTreeSet<_> = RefusalKind::ALL.iter().map(|k| k.meaning()).collect();
    let advice: BTreeSet<_> = RefusalKind::ALL.iter().map(|k| k.advice()).collect();
    assert_eq!(meanings.len(), RefusalKind::ALL.len());
    assert_eq!(advice.len(), RefusalKind::ALL.len());
    assert!(!meanings.contains("") && !advice.contains(""));
    let meanings: BTreeSet<_> = Reason::ALL.iter().map(|r| r.meaning()).collect();
    let advice: BTreeSet<_> = Reason::ALL.iter().map(|r| r.advice()).collect();
    assert!(meanings.len() == 5 && !meanings.contains(""));
    assert!(advice.len() == 5 && !advice.contains(""));
}

#[test]
fn numbers() {
    for (place, kind) in RefusalKind::ALL.iter().enumerate() {
        assert_eq!(kind.number() as usize, place + 1);
        assert_eq!(RefusalKind::numbered(kind.number()), Some(*kind));
    }
    let none = RefusalKind::ALL.len() as u32 + 1;
    for number in [0, none, 255, 256, 257, u32::MAX] {
        assert_eq!(RefusalKind::numbered(number), None, "{number}");
    }
    // D1 to D5.
    let reasons = [
        Reason::BadSize,
        Reason::BadFlag,
        Reason::BadRate,
        Reason::Unmeasured,
        Reason::BadChunks,
    ];
    assert_eq!(Reason::ALL, reasons);
    for (place, reason) in reasons.iter().enumerate() {
        assert_eq!(reason.number() as usize, place + 1);
        assert_eq!(Reason::numbered(reason.number()), Some(*reason));
    }
    // 254 and 255 are verdicts, but no reasons.
    for number in [0, 6, 254, 255, u32::MAX] {
        assert_eq!(Reason::numbered(number), None, "{number}");
    }
}

/// What a caller reads.
#[test]
fn shown() {
    let shown = |kind, place| Refusal { kind, place }.to_string();
    assert_eq!(
        shown(RefusalKind::BlockPastEnd, 20),
        "refused 6 at 20: a block runs past the end; \
         the packet was damaged: nothing of it is read"
    );
    for kind in RefusalKind::ALL {
        let (number, meaning, advice) = (kind.number(), kind.meaning(), kind.advice());
        let expected = format!("refused {number} at 7: {meaning}; {advice}");
        assert_eq!(shown(*kind, 7), expected);
    }
    let refusal: Box<dyn std::error::Error> = nuvaskoe::card::read(b"").unwrap_err().into();
    assert!(refusal.to_string().starts_with("refused 11 at 0: "));
}
