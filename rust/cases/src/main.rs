//! Answers the cases of a file, a line each. Usage: cases FILE [ROWS] ('-': standard input)
//! ROWS: of how many certificates at most what is read of them is noted; without it, of all. The answers are the same.
use std::fs::File;
use std::io::{self, BufRead, BufReader, BufWriter, Write};
use std::process::ExitCode;

fn run(file: &str, rows: usize) -> io::Result<()> {
    let text: Box<dyn BufRead> = match file {
        "-" => Box::new(io::stdin().lock()),
        _ => Box::new(BufReader::with_capacity(1 << 20, File::open(file)?)),
    };
    let mut out = BufWriter::new(io::stdout().lock());
    let mut written = Ok(());
    cases::case::each(text, |case| {
        let line = case.map_or_else(|wrong| format!("{wrong} | BAD CASE"), |case| cases::answer_in(&case, rows));
        if written.is_ok() {
            written = writeln!(out, "{line}");
        }
    });
    written.and_then(|()| out.flush())
}

fn main() -> ExitCode {
    let arguments: Vec<String> = std::env::args().skip(1).collect();
    let (file, rows) = match arguments.as_slice() {
        [file] => (file, Ok(usize::MAX)),
        [file, rows] => (file, rows.parse()),
        _ => {
            eprintln!("usage: cases FILE [ROWS] ('-': standard input)");
            return ExitCode::from(2);
        }
    };
    let Ok(rows) = rows else {
        eprintln!("cases: ROWS is a number");
        return ExitCode::from(2);
    };
    match run(file, rows) {
        Ok(()) => ExitCode::SUCCESS,
        Err(e) => {
            eprintln!("cases: {file}: {e}");
            ExitCode::FAILURE
        }
    }
}
