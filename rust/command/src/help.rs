//! What the command says of itself.

use crate::{
    answer::{Answer, Failure},
    arguments::{Arguments, Opt, Run, Takes},
    jobs::{self, card, Job, JOBS},
    manual, trace,
};

const MANUAL: Opt = Opt {
    name: "--manual",
    value: None,
    words: "the manual page, for man",
};
const COMPLETION: Opt = Opt {
    name: "--completion",
    value: None,
    words: "completion of jobs and options, for bash",
};

pub const HELP: Job = Job {
    name: "help",
    usage: "[JOB]",
    purpose: "this page, or a job's own",
    words: "\
The page of a job has its options, and an example that works as it is printed.
",
    options: &[MANUAL, COMPLETION],
    takes: Takes {
        least: 0,
        most: 2,
        files: 0,
        fewer: "",
    },
    example: "\
$ nuvaskoe help --completion | tail -n 1
complete -o default -F _nuvaskoe nuvaskoe
",
    run: help,
};

/// `--version`, which stands in no list of jobs.
pub const VERSION: Job = Job {
    name: "--version",
    usage: "",
    purpose: "the version",
    words: "",
    options: &[],
    takes: Takes {
        least: 0,
        most: 0,
        files: 0,
        fewer: "",
    },
    example: "",
    run: version,
};

/// What stands at the head of the page.
pub const PURPOSE: &str = "reports, loss figures and resend plans for the people at the set";

/// What settings, files and answers have in common.
pub const ANSWERS: &str = "\
Settings come from a card of twenty digits (--card), or from --gmin, --batch,
--threshold and --spacing; beside a card these stand in place of the card's. A
job looks at the settings that it needs. A file named - is standard input.
";
pub const REFUSED: &str = "\
What cannot be answered is refused: standard error then says `refused N at P`,
what that means and what to do, and no file is written but the dark panel of the
job `dials`. With --json the answer or the refusal is one object on standard
output, by the names of nuvaskoe.h.
";
pub const STATUS: &str = "\
The exit status is 0 for an answer, 1 for a refusal, and 2 for wrong usage or a
file that cannot be read or written; of several inputs the highest counts. The
job `compare` has 1 for differences, and 2 for a refusal.
";

/// The page of a job, asked for by `--help`.
pub fn of(job: &Job) -> (Run, Arguments) {
    let words = job.name.split(' ').map(Into::into).collect();
    (help, Arguments::of(&HELP, words))
}

fn version(_: &Arguments) -> Result<Answer<'_>, Failure> {
    let version = env!("CARGO_PKG_VERSION");
    Ok(Answer::words(format!("nuvaskoe {version}\n")))
}

fn help(arguments: &Arguments) -> Result<Answer<'_>, Failure> {
    if arguments.text(&MANUAL).is_some() {
        return Ok(Answer::words(manual::page()));
    }
    if arguments.text(&COMPLETION).is_some() {
        return Ok(Answer::words(manual::completion()));
    }
    let words = arguments.words();
    let name: Vec<_> = words.iter().map(|word| word.to_string_lossy()).collect();
    let name = name.join(" ");
    let named = JOBS
        .iter()
        .filter(|job| job.name == name || job.first() == name);
    let pages: Vec<String> = named.map(|job| page(job)).collect();
    match (words.is_empty(), pages.is_empty()) {
        (true, _) => Ok(Answer::words(whole())),
        (false, false) => Ok(Answer::words(pages.join("\n"))),
        (false, true) => Err(Failure::Usage(jobs::unknown(&name))),
    }
}

/// The page of all jobs.
fn whole() -> String {
    let width = JOBS
        .iter()
        .map(|job| job.name.len())
        .max()
        .unwrap_or_default();
    let jobs = JOBS.map(|job| format!("  {:<width$}  {}\n", job.name, job.purpose));
    [
        format!("nuvaskoe: {PURPOSE}\n\nusage: nuvaskoe JOB ..\n\n"),
        jobs.concat(),
        format!("\n{ANSWERS}\n{}\n{REFUSED}\n{STATUS}\n", trace::WORDS),
        "`nuvaskoe help JOB` says what a job takes, `nuvaskoe --version` the version.\n".into(),
        "\nAn example:\n\n".into(),
        indented(EXAMPLE),
    ]
    .concat()
}

/// The page of one job.
fn page(job: &Job) -> String {
    let (name, purpose, usage) = (job.name, job.purpose, job.usage);
    let options = job.options.iter().map(|option| {
        let form = form(option);
        format!("  {form:<20} {}\n", option.words)
    });
    let options: String = options.collect();
    [
        format!(
            "nuvaskoe {name}: {purpose}\n\nusage: nuvaskoe {name} {usage}\n\n{}\n",
            job.words
        ),
        options,
        "\nAn example:\n\n".into(),
        indented(job.example),
    ]
    .concat()
}

/// An option as it is written.
pub fn form(option: &Opt) -> String {
    match option.value {
        Some(value) => format!("{} {value}", option.name),
        None => option.name.into(),
    }
}

/// The lines of an example.
pub fn indented(example: &str) -> String {
    let lines = example.lines().map(|line| match line {
        "" => "\n".into(),
        _ => format!("    {line}\n"),
    });
    lines.collect()
}

/// The example of the page of all jobs.
pub const EXAMPLE: &str = card::READ.example;
