//! Runs the worked cases of standard input over the library, and writes each with its answer:
//! docs/CASES.md has the format.

mod answers;
mod line;
mod shown;

use std::io::{self, BufRead, Write};

fn main() -> io::Result<()> {
    let mut out = io::BufWriter::new(io::stdout().lock());
    for line in io::stdin().lock().split(b'\n') {
        let line = line?;
        out.write_all(&line)?;
        out.write_all(b"\n")?;
        if !line.is_empty() && !line.starts_with(b"#") {
            let answer = line::Case::read(&line).and_then(|case| answers::answer(&case));
            writeln!(out, "  {}", answer.as_deref().unwrap_or("no case"))?;
        }
    }
    out.flush()
}
