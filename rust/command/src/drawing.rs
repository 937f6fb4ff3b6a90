//! The front panel drawn: an SVG that a browser shows as it is.
//!
//! Two round dials, each with marks at 0, 1/4, 1/2, 3/4 and 1 over three quarters of a circle, from
//! the lower left to the lower right; needles turned about the middle of their dials; a lamp between
//! them. A dark needle rests at its pin, below the 0, so that it is not taken for one at 0.

use crate::words;
use nuvaskoe::panel::{Needle, Panel};

// Angles are degrees, clockwise from above.

/// Where the mark 0 stands.
const FIRST: f64 = -135.0;
/// How far a needle turns from there to the mark 1.
const TURN: f64 = 270.0;
/// Where a dark needle rests.
const PIN: f64 = -155.0;

const MARKS: [(&str, f64); 5] = [
    ("0", 0.0),
    ("1/4", 0.25),
    ("1/2", 0.5),
    ("3/4", 0.75),
    ("1", 1.0),
];

const LIT: &str = "#b3261e";
const GREY: &str = "#a8a8a8";
const LAMP_ON: &str = "#f2a900";
const LAMP_OFF: &str = "#4a4a4a";

/// The drawing of a panel.
pub fn svg(panel: &Panel) -> String {
    let fill = if panel.lamp() { LAMP_ON } else { LAMP_OFF };
    let [burst, gap] = [panel.burst, panel.gap].map(words::needle);
    let lamp = words::lamp(panel);
    [
        "<svg xmlns=\"http://www.w3.org/2000/svg\" viewBox=\"0 0 560 300\" width=\"560\" height=\"300\" ".into(),
        "font-family=\"sans-serif\" font-size=\"14\" text-anchor=\"middle\">\n".into(),
        format!("<title>burst {burst}, gap {gap}, lamp {lamp}</title>\n"),
        "<rect width=\"560\" height=\"300\" rx=\"12\" fill=\"#e9e4d8\"/>\n".into(),
        dial("burst", 140, panel.burst),
        dial("gap", 420, panel.gap),
        format!("<circle id=\"lamp\" cx=\"280\" cy=\"40\" r=\"16\" fill=\"{fill}\" stroke=\"#222222\" stroke-width=\"3\"/>\n"),
        format!("<text x=\"280\" y=\"76\">lamp {lamp}</text>\n"),
        "</svg>\n".into(),
    ]
    .concat()
}

/// A dial with its middle at x, and its needle.
fn dial(name: &str, x: u32, needle: Needle) -> String {
    let (angle, stroke) = match needle {
        Needle::Lit(position) => (angle(position.into()), LIT),
        Needle::Dark => (PIN, GREY),
    };
    let said = words::needle(needle);
    [
        format!("<g id=\"{name}\" transform=\"translate({x} 140)\">\n"),
        "<circle r=\"120\" fill=\"#ffffff\" stroke=\"#222222\" stroke-width=\"4\"/>\n".into(),
        MARKS.map(mark).concat(),
        format!("<circle cy=\"-69\" r=\"4\" fill=\"#222222\" transform=\"rotate({PIN})\"/>\n"),
        format!("<text y=\"144\">{name} {said}</text>\n"),
        format!("<line id=\"{name}-needle\" y1=\"16\" y2=\"-62\" stroke=\"{stroke}\" stroke-width=\"5\" "),
        format!("stroke-linecap=\"round\" transform=\"rotate({angle})\"/>\n"),
        "<circle r=\"8\" fill=\"#222222\"/>\n</g>\n".into(),
    ]
    .concat()
}

/// A mark and its label, which stands upright beside it.
fn mark((label, position): (&str, f64)) -> String {
    let angle = angle(position);
    let upright = 0.0 - angle; // and no -0
    [
        format!("<g transform=\"rotate({angle})\"><line y1=\"-116\" y2=\"-100\" stroke=\"#222222\" stroke-width=\"3\"/>"),
        format!("<text transform=\"translate(0 -84) rotate({upright})\" dy=\"5\">{label}</text></g>\n"),
    ]
    .concat()
}

/// The angle of a position, exact: 270 is whole, and a position a whole number of 32,768ths.
fn angle(position: f64) -> f64 {
    FIRST + TURN * position
}
