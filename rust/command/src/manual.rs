//! The manual page and the completion of words, from the same texts as help.

use crate::{
    count::{COUNT, COUNTS},
    help::{form, ANSWERS, EXAMPLE, PURPOSE, REFUSED, STATUS},
    jobs::{Job, JOBS},
    trace::{self, FORM},
};
use nuvaskoe::{block::Reason, RefusalKind};

/// The manual page in roff.
pub fn page() -> String {
    let version = env!("CARGO_PKG_VERSION");
    let synopsis = JOBS.map(|job| format!("nuvaskoe {} {}\n", job.name, job.usage));
    let refusals = RefusalKind::ALL.iter().map(|kind| {
        let words = format!("{}: {}.", kind.meaning(), kind.advice());
        item(&kind.number().to_string(), &words)
    });
    let reasons = Reason::ALL.iter().map(|reason| {
        let words = format!("{}: {}.", reason.meaning(), reason.advice());
        item(&format!("D{}", reason.number()), &words)
    });
    [
        format!(".TH NUVASKOE 1 \"\" \"nuvaskoe {version}\"\n"),
        section("NAME", &escaped(&format!("nuvaskoe - {PURPOSE}\n"))),
        section("SYNOPSIS", &verbatim(&synopsis.concat())),
        section("DESCRIPTION", &escaped(&format!("{ANSWERS}\n{REFUSED}"))),
        section("TRACES", &escaped(trace::WORDS)),
        section("JOBS", &JOBS.map(job).concat()),
        section("EXIT STATUS", &escaped(STATUS)),
        section("REFUSALS", &refusals.collect::<String>()),
        section("REASONS OF DROPPED BLOCKS", &reasons.collect::<String>()),
        section("EXAMPLE", &verbatim(EXAMPLE)),
    ]
    .concat()
}

fn job(job: &Job) -> String {
    let (name, purpose) = (escaped(job.name), escaped(&capital(job.purpose)));
    let options = job
        .options
        .iter()
        .map(|option| item(&form(option), option.words));
    [
        format!(".SS {name}\n{purpose}.\n"),
        format!(".PP\n{}", escaped(job.words)),
        options.collect(),
        verbatim(job.example),
    ]
    .concat()
}

fn section(name: &str, text: &str) -> String {
    format!(".SH {name}\n{text}")
}

fn item(name: &str, words: &str) -> String {
    format!(".TP\n.B {}\n{}\n", escaped(name), escaped(words))
}

fn verbatim(text: &str) -> String {
    format!(".PP\n.nf\n{}.fi\n", escaped(text))
}

fn capital(text: &str) -> String {
    let mut characters = text.chars();
    let first = characters.next().map(|first| first.to_ascii_uppercase());
    first.into_iter().chain(characters).collect()
}

/// Text that roff takes as it stands; an empty line begins a paragraph.
fn escaped(text: &str) -> String {
    let text = text
        .replace('\\', "\\e")
        .replace('-', "\\-")
        .replace('`', "\\(ga")
        .replace('\'', "\\(aq");
    let lines = text
        .split_inclusive('\n')
        .map(|line| match line.chars().next() {
            Some('.') => format!("\\&{line}"),
            Some('\n') => ".PP\n".into(),
            _ => line.into(),
        });
    lines.collect()
}

/// A script for bash that completes jobs, their options, the values of some, and files.
pub fn completion() -> String {
    let mut first = Vec::from(JOBS.map(Job::first));
    first.dedup();
    let jobs = first.join(" ");
    let values = [
        (FORM.name, trace::FORMS.join(" ")),
        (COUNT.name, COUNTS.map(|count| count.name).join(" ")),
    ];
    [
        "# Completion of nuvaskoe for bash.\n_nuvaskoe() {\n".into(),
        "    local word=\"${COMP_WORDS[COMP_CWORD]}\" words=\"\"\n".into(),
        "    local job=\"${COMP_WORDS[1]-} ${COMP_WORDS[2]-}\"\n".into(),
        "    case \"$COMP_CWORD $job\" in\n".into(),
        format!("    \"1 \"* | \"2 help \"*) words=\"{jobs}\" ;;\n"),
        first.iter().map(|first| second(first)).collect(),
        "    esac\n    if [[ $word == -* ]]; then\n        case \"$job\" in\n".into(),
        JOBS.map(options).concat(),
        "        esac\n    else\n        case \"${COMP_WORDS[COMP_CWORD - 1]}\" in\n".into(),
        values
            .map(|(name, values)| format!("        {name}) words=\"{values}\" ;;\n"))
            .concat(),
        "        esac\n    fi\n".into(),
        "    COMPREPLY=($(compgen -W \"$words\" -- \"$word\" || true))\n}\n".into(),
        "complete -o default -F _nuvaskoe nuvaskoe\n".into(),
    ]
    .concat()
}

/// What completes the second word of jobs that have one.
fn second(first: &str) -> String {
    let names = JOBS.iter().filter_map(|job| job.name.split_once(' '));
    let second = names.filter(|name| name.0 == first).map(|name| name.1);
    let second: Vec<&str> = second.collect();
    match second.is_empty() {
        true => String::new(),
        false => format!("    \"2 {first} \"*) words=\"{}\" ;;\n", second.join(" ")),
    }
}

/// What completes an option of a job.
fn options(job: &Job) -> String {
    let options: Vec<&str> = job.options.iter().map(|option| option.name).collect();
    let pattern = match job.name.contains(' ') {
        true => format!("\"{}\"", job.name),
        false => format!("\"{} \"*", job.name),
    };
    format!("        {pattern}) words=\"{}\" ;;\n", options.join(" "))
}
