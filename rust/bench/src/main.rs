//! Times decisions. Usage: `cargo run --release --offline -p bench -- [ORACLE_DIR]`
//! With the folder in which oracle/make put the oracle, rustls-webpki is timed in the same run, and docs/PERFORMANCE.md and docs/performance.svg
//! are written; without it, Pathjudge is timed alone, and nothing is written.
mod measure;
mod oracle;
mod ours;
mod plot;

use cases::case::{self, Case};
use measure::Timed;
use oracle::Oracle;
use ours::Ready;
use std::path::{Path, PathBuf};
use std::{env, fs};

/// What is timed of a case.
#[derive(Clone, Copy, PartialEq)]
pub enum What {
    /// The end entity's certificate is read.
    Parse,
    /// The whole decision, from the bytes on.
    Decide,
}

/// A row of the table: its words, the case, and what of it is timed.
pub struct Row {
    pub words: &'static str,
    pub case: &'static str,
    pub what: What,
}

const ROWS: [Row; 9] = [
    Row { words: "read a certificate, small", case: "small-chain", what: What::Parse },
    Row { words: "read a certificate, real-sized", case: "real-chain", what: What::Parse },
    Row { words: "chain of three, small", case: "small-chain", what: What::Decide },
    Row { words: "chain of three, real-sized", case: "real-chain", what: What::Decide },
    Row { words: "the same behind a forest of 40, small", case: "small-forest", what: What::Decide },
    Row { words: "the same behind a forest of 40, real-sized", case: "real-forest", what: What::Decide },
    Row { words: "100 signatures asked (all that are allowed)", case: "signatures", what: What::Decide },
    Row { words: "2,000 extensions of the path (of 200,000)", case: "extensions", what: What::Decide },
    Row { words: "250,000 comparisons (all that are allowed)", case: "comparisons", what: What::Decide },
];

/// The rows that the first bar is for, and the bar: at most so many times as long as rustls-webpki.
const BAR_ROWS: [usize; 2] = [2, 3];
const BAR: f64 = 1.5;

fn repository() -> PathBuf {
    PathBuf::from(env!("CARGO_MANIFEST_DIR")).join("../..")
}

fn main() {
    let file = repository().join("rust/bench/cases.txt");
    let mut all: Vec<Case> = vec![];
    case::each(fs::read(&file).expect("rust/bench/cases.txt").as_slice(), |case| all.push(case.expect("a case")));
    let mut oracle = env::args().nth(1).map(|folder| Oracle::new(Path::new(&folder), &file));
    if let Some(oracle) = &oracle {
        let ours: Vec<String> = all.iter().map(cases::answer).collect();
        assert_eq!(ours, oracle.answers, "two that decide otherwise are not worth timing");
    }
    let timed: Vec<Timed> = ROWS
        .iter()
        .map(|row| {
            let case = all.iter().find(|case| case.name == row.case).expect("a case for each row");
            let timed = measure::alternate(row, &Ready::of(case), oracle.as_mut());
            eprintln!("{}", table_line(row, &timed));
            timed
        })
        .collect();
    let report = report(&timed);
    println!("{report}");
    if oracle.is_some() {
        fs::write(repository().join("docs/performance.svg"), plot::svg(&ROWS, &timed)).expect("docs/performance.svg");
        write_report(&repository().join("docs/PERFORMANCE.md"), &report);
    }
}

fn table_line(row: &Row, timed: &Timed) -> String {
    let (theirs, ratio) = match &timed.theirs {
        Some(theirs) => (plot::duration(theirs.median), format!("{:.2}", theirs.ratio)),
        None => ("-".into(), "-".into()),
    };
    format!("| {} | {} | {theirs} | {ratio} |", row.words, plot::duration(timed.ours))
}

fn report(timed: &[Timed]) -> String {
    let mut lines = vec!["| | Pathjudge | rustls-webpki | ratio |".to_string(), "|---|---:|---:|---:|".to_string()];
    lines.extend(ROWS.iter().zip(timed).map(|(row, timed)| table_line(row, timed)));
    for row in BAR_ROWS {
        if let Some(theirs) = &timed[row].theirs {
            let verdict = if theirs.ratio <= BAR { "met" } else { "not met" };
            lines.push(format!("\nThe bar for \"{}\" is {BAR} times rustls-webpki: {verdict}.", ROWS[row].words));
        }
    }
    lines.join("\n")
}

/// Puts the report between the two marks of the document.
fn write_report(file: &Path, report: &str) {
    const MARKS: [&str; 2] = ["<!-- table: begin -->\n", "<!-- table: end -->"];
    let text = fs::read_to_string(file).expect("docs/PERFORMANCE.md");
    let (before, rest) = text.split_once(MARKS[0]).expect("the mark where the table begins");
    let (_, after) = rest.split_once(MARKS[1]).expect("the mark where it ends");
    fs::write(file, format!("{before}{}{report}\n{}{after}", MARKS[0], MARKS[1])).expect("docs/PERFORMANCE.md");
}
