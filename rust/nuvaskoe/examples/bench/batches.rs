//! Effective loss and the resend plan of the longest trace.

use super::{
    print, race,
    support::{
        batches::{bursty_losses, loss_both, plan_into, random_losses, LONGEST},
        events::library_event,
        Random,
    },
};
use independent::{effective, resend, trace::Event};
use std::hint::black_box;

/// Batch lengths, and a threshold that batches of that length often pass and often do not where 5 % are lost.
const SETTINGS: [(u32, u32); 3] = [(1, 0), (100, 5), (1_024, 52)];

pub fn time() {
    let mut random = Random::new("bench");
    let traces = [
        ("5 % lost", random_losses(&mut random, LONGEST, 5, 0)),
        ("bursty", bursty_losses(&mut random, LONGEST)),
        ("all lost", vec![1; LONGEST]),
        ("none lost", vec![0; LONGEST]),
    ];
    for (name, trace) in &traces {
        for settings in SETTINGS {
            time_plan(name, trace, settings, Event::Lost);
        }
        time_longest_plan(name, trace);
    }
    for (name, trace) in &traces {
        for settings in SETTINGS {
            time_loss(name, trace, settings, Event::Lost);
        }
        time_longest_loss(name, trace);
    }
}

pub fn time_plan(name: &str, trace: &[u8], (batch, threshold): (u32, u32), event: Event) {
    let (mut ours, mut theirs) = (vec![7; LONGEST], vec![7; LONGEST]);
    let (answer, plan) = plan_into(trace, (batch, threshold), event, &ours);
    answer.expect("an accepted trace");
    let (b, t, choice) = (u64::from(batch), u64::from(threshold), library_event(event));
    let times = race(
        || {
            let out = black_box(&mut ours);
            nuvaskoe::resend::plan(black_box(trace), batch, threshold, choice, out)
        },
        || resend::plan(black_box(trace), b, t, event, black_box(&mut theirs)),
    );
    assert!(ours == plan && theirs == plan);
    let name = format!("{name}, B {batch}, T {threshold}");
    print(&name, LONGEST, "plan", times);
}

/// Our plan with the longest batch beside ours with the shortest.
fn time_longest_plan(name: &str, trace: &[u8]) {
    let [shortest, _, longest] = SETTINGS;
    let (mut first, mut second) = (vec![0; LONGEST], vec![0; LONGEST]);
    let lost = library_event(Event::Lost);
    let times = race(
        || nuvaskoe::resend::plan(black_box(trace), longest.0, longest.1, lost, &mut first),
        || nuvaskoe::resend::plan(black_box(trace), shortest.0, shortest.1, lost, &mut second),
    );
    print(&by_name(name), LONGEST, "plan", times);
}

fn by_name(name: &str) -> String {
    let [(shortest, _), _, (longest, _)] = SETTINGS;
    format!("{name}, B {longest} by B {shortest}")
}

pub fn time_loss(name: &str, trace: &[u8], (batch, threshold): (u32, u32), event: Event) {
    loss_both(trace, batch, threshold, event).expect("an accepted trace");
    let (b, t, choice) = (u64::from(batch), u64::from(threshold), library_event(event));
    let times = race(
        || nuvaskoe::effective::effective_loss(black_box(trace), batch, threshold, choice),
        || effective::running_effective_loss(black_box(trace), b, t, event),
    );
    let name = format!("{name}, B {batch}, T {threshold}");
    print(&name, LONGEST, "loss", times);
}

/// Our effective loss with the longest batch beside ours with the shortest.
fn time_longest_loss(name: &str, trace: &[u8]) {
    let [shortest, _, longest] = SETTINGS;
    let lost = library_event(Event::Lost);
    let times = race(
        || nuvaskoe::effective::effective_loss(black_box(trace), longest.0, longest.1, lost),
        || nuvaskoe::effective::effective_loss(black_box(trace), shortest.0, shortest.1, lost),
    );
    print(&by_name(name), LONGEST, "loss", times);
}
