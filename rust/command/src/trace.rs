//! Trace files: a byte 0, 1 or 2 for each packet, or the digits 0, 1 and 2 with white space anywhere.

use crate::{
    answer::{not_refused, shown, Failure, One},
    arguments::{Arguments, Opt, Takes},
    input,
    json::{object, Object},
    settings::Settings,
};
use nuvaskoe::{Refusal, RefusalKind};
use std::{
    ffi::OsStr,
    fmt,
    io::{BufRead, BufReader, Read},
};

/// Which of the two forms a file has.
pub const FORM: Opt = Opt {
    name: "--form",
    value: Some("FORM"),
    words: "take TRACE as bytes or as digits, whatever it looks like",
};

/// What that option takes.
pub const FORMS: [&str; 2] = ["bytes", "digits"];

/// A job on one trace.
pub const ONE: Takes = Takes {
    least: 1,
    most: 1,
    files: 1,
    fewer: "TRACE is missing",
};

/// How trace files are written.
pub const WORDS: &str = "\
A TRACE is a file with a character for each packet: 0 received, 1 lost, 2
discarded. They are bytes of these values, or digits with white space anywhere;
the first tells which, and it is said which was taken. A trace has 1 to 65,536
packets, which are numbered from 0. It can be packed into a bit for each: the
job `pack` says how.
";

/// The most packets of a trace. One more is read, enough for the library to refuse it.
pub const MOST: usize = 65_536;
/// The packets of a line that is written.
const LINE: usize = 60;
/// What the library is handed for a character that is no packet: it refuses a byte above 2.
const NO_PACKET: u8 = u8::MAX;

#[derive(Clone, Copy)]
enum Form {
    Bytes,
    Digits,
}

/// What was read for a trace.
pub struct Head {
    /// The file's name, for people and for scripts.
    pub name: String,
    file: String,
    /// What it was taken as.
    form: &'static str,
    /// How many packets it has.
    count: usize,
}

/// A trace as it was read.
pub struct Trace {
    pub head: Head,
    /// One byte a packet, as the library takes them.
    pub packets: Vec<u8>,
    /// The first character that is no packet, and where it stands.
    unfit: Option<String>,
}

/// The trace in a file that a job is given.
pub fn read(arguments: &Arguments, name: &OsStr) -> Result<Trace, Failure> {
    let form = given_form(arguments)?;
    let mut file = input::open(name)?;
    let front = input::front(name, &mut file, MOST.saturating_add(1))?;
    let form = form.unwrap_or_else(|| form_of(&front));
    let (packets, unfit) = match form {
        Form::Bytes => {
            let unfit = front.iter().enumerate().find(|(_, byte)| **byte > 2);
            let unfit = unfit.map(|(offset, byte)| format!("byte {byte:02x} at offset {offset}"));
            (front, unfit)
        }
        Form::Digits => digits(name, BufReader::new(front.chain(file)))?,
    };
    Ok(Trace {
        head: Head::new(name, form.name(), packets.len()),
        packets,
        unfit,
    })
}

fn given_form(arguments: &Arguments) -> Result<Option<Form>, Failure> {
    match arguments.text(&FORM).map(OsStr::to_str) {
        None => Ok(None),
        Some(Some("bytes")) => Ok(Some(Form::Bytes)),
        Some(Some("digits")) => Ok(Some(Form::Digits)),
        Some(_) => Err(arguments.bad(&FORM, "is neither bytes nor digits")),
    }
}

/// The form of the first byte that is a packet in one of them.
fn form_of(front: &[u8]) -> Form {
    let mut forms = front.iter().filter_map(|byte| match byte {
        0..=2 => Some(Form::Bytes),
        b'0'..=b'2' => Some(Form::Digits),
        _ => None,
    });
    forms.next().unwrap_or(Form::Digits)
}

/// The packets of a file of digits, and the first character that is none.
fn digits(name: &OsStr, file: impl BufRead) -> Result<(Vec<u8>, Option<String>), Failure> {
    let (mut packets, mut unfit) = (Vec::new(), None);
    let (mut line, mut character) = (1_u64, 0_u64);
    for byte in file.bytes() {
        let byte = byte.map_err(|error| Failure::file(name, error))?;
        character = character.saturating_add(1);
        match byte {
            b'\n' => (line, character) = (line.saturating_add(1), 0),
            b' ' | b'\t' | b'\r' | 0x0b | 0x0c => {}
            b'0' => packets.push(0),
            b'1' => packets.push(1),
            b'2' => packets.push(2),
            _ => {
                let what = || format!("byte {byte:02x}, character {character} of line {line},");
                unfit = unfit.or_else(|| Some(what()));
                packets.push(NO_PACKET);
            }
        }
        if packets.len() > MOST {
            break;
        }
    }
    Ok((packets, unfit))
}

/// A trace in digits, in lines of 60.
pub fn in_digits(packets: &[u8]) -> String {
    let mut digits = String::new();
    for line in packets.chunks(LINE) {
        digits.extend(line.iter().map(|packet| match packet {
            0 => '0',
            1 => '1',
            _ => '2',
        }));
        digits.push('\n');
    }
    digits
}

impl Head {
    pub fn new(name: &OsStr, form: &'static str, count: usize) -> Head {
        Head {
            name: shown(name),
            file: name.to_string_lossy().into(),
            form,
            count,
        }
    }

    /// For scripts: what was read.
    pub fn numbers(&self) -> Object {
        object([
            ("file", self.file.as_str().into()),
            ("form", self.form.into()),
            ("packets", self.count.into()),
        ])
    }

    /// What the library answered for this trace under these settings.
    pub fn answer(&self, settings: &dyn Settings, words: &str, numbers: Object) -> One {
        let settings_numbers = object([("settings", settings.numbers().into())]);
        One {
            words: format!("{self}\n{settings}\n\n{words}"),
            numbers: self
                .numbers()
                .and(settings_numbers)
                .and(not_refused())
                .and(numbers),
            ..One::default()
        }
    }
}

impl Trace {
    /// What the library said of this trace under these settings.
    pub fn refused(&self, refusal: Refusal, settings: impl fmt::Display) -> Failure {
        let head = &self.head;
        let what = match (refusal.kind, &self.unfit) {
            (RefusalKind::TraceByte, Some(unfit)) => {
                let (name, form) = (&head.name, head.form);
                format!("{name}, taken as {form}: {unfit} is no packet")
            }
            _ => format!("{head}; {settings}"),
        };
        Failure::refused(refusal, what)
    }
}

impl fmt::Display for Head {
    fn fmt(&self, f: &mut fmt::Formatter<'_>) -> fmt::Result {
        let (name, form) = (&self.name, self.form);
        match self.count {
            1 => write!(f, "{name}: 1 packet, taken as {form}"),
            count if count > MOST => write!(f, "{name}: over {MOST} packets, taken as {form}"),
            count => write!(f, "{name}: {count} packets, taken as {form}"),
        }
    }
}

impl Form {
    fn name(self) -> &'static str {
        match self {
            Form::Bytes => "bytes",
            Form::Digits => "digits",
        }
    }
}
