//! Numbers of answers in words.

use nuvaskoe::{
    panel::{Needle, Panel},
    values::{EffectiveIndex, Figure, Rate, Value},
};

/// The longest line of a list of packets.
const WIDTH: usize = 96;

pub fn packets(number: u32) -> String {
    counted(number, "packet", "packets")
}

pub fn losses(number: u32) -> String {
    counted(number, "loss", "losses")
}

pub fn microseconds(number: u32) -> String {
    counted(number, "microsecond", "microseconds")
}

fn counted(number: u32, one: &str, many: &str) -> String {
    match number {
        1 => format!("1 {one}"),
        u32::MAX => format!("{number} or more {many}"),
        _ => format!("{number} {many}"),
    }
}

/// A rate in words: how many of these packets met this event. It is rounded down, so that 0 need not be none.
pub fn rate(rate: Rate, packets: &str, event: &str) -> String {
    let Some(fraction) = rate.fraction() else {
        return format!("could not be measured: there were no {packets}");
    };
    let per_cent = match rate {
        Rate(0) => format!("{}, fewer than 1 in {},", per_cent(fraction), Rate::ALL.0),
        _ => per_cent(fraction),
    };
    format!("{per_cent} of the {packets} were {event}")
}

/// A mean or variance in words.
pub fn figure(figure: Figure, unit: &str) -> String {
    match figure.value() {
        Value::Measured(number) => format!("{number} {unit}"),
        Value::OverRange => "too large to send".into(),
        Value::Unavailable => "could not be measured: there was no burst".into(),
    }
}

/// The index of so many batches over the threshold, in words.
pub fn index(index: EffectiveIndex, over: usize) -> String {
    match (index, over) {
        (EffectiveIndex(0), 1..) => "under 0.002 %".into(),
        _ => per_cent(index.fraction()),
    }
}

/// Where a needle stands, written out in full: fifteen decimal places are always enough.
pub fn needle(needle: Needle) -> String {
    match needle {
        Needle::Lit(position) => f64::from(position).to_string(),
        Needle::Dark => "dark".into(),
    }
}

pub fn lamp(panel: &Panel) -> &'static str {
    match panel.lamp() {
        true => "on",
        false => "off",
    }
}

/// Three digits tell any two rates and any two indices apart, so that only 0 is 0.000 %.
fn per_cent(fraction: f64) -> String {
    format!("{:.3} %", 100.0 * fraction)
}

/// A run of so many packets, by the numbers of its first and last.
pub fn run(first: usize, length: u32) -> String {
    match length.saturating_sub(1) as usize {
        0 => format!("packet {first}"),
        further => format!("packets {first} to {}", first.saturating_add(further)),
    }
}

/// Rising numbers in lines: a number, or the first and last of a range.
pub fn lines(numbers: impl Iterator<Item = usize>) -> String {
    let (mut lines, mut line) = (String::new(), String::from(" "));
    for (first, last) in ranges(numbers) {
        let range = match first == last {
            true => first.to_string(),
            false => format!("{first}-{last}"),
        };
        if line.len().saturating_add(range.len()) >= WIDTH {
            lines += &format!("{line}\n");
            line = String::from(" ");
        }
        line += &format!(" {range}");
    }
    lines + &line + "\n"
}

/// Rising numbers as the first and last of each range.
fn ranges(numbers: impl Iterator<Item = usize>) -> Vec<(usize, usize)> {
    let mut ranges: Vec<(usize, usize)> = Vec::new();
    for number in numbers {
        match ranges.last_mut() {
            Some((_, last)) if last.checked_add(1) == Some(number) => *last = number,
            _ => ranges.push((number, number)),
        }
    }
    ranges
}
