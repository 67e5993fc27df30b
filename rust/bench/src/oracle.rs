//! The original, timed by the oracle's own program: it is told what to run, and answers with the time that it took.
use crate::{Row, What};
use std::io::{BufRead, BufReader, Write};
use std::path::Path;
use std::process::{Child, ChildStdin, ChildStdout, Command, Stdio};
use std::time::Duration;

pub struct Oracle {
    program: Child,
    orders: Option<ChildStdin>,
    times: BufReader<ChildStdout>,
    /// Its answers to the cases.
    pub answers: Vec<String>,
}

impl Oracle {
    pub fn new(folder: &Path, cases: &Path) -> Self {
        let program = folder.join("oracle");
        let asked = Command::new(&program).arg(cases).output().unwrap_or_else(|e| panic!("{}: {e}", program.display()));
        assert!(asked.status.success(), "{}: {}", program.display(), asked.status);
        let answers = String::from_utf8(asked.stdout).expect("text").lines().map(String::from).collect();
        let mut program = Command::new(&program)
            .arg("--batches")
            .arg(cases)
            .stdin(Stdio::piped())
            .stdout(Stdio::piped())
            .spawn()
            .expect("it was started a moment ago");
        let orders = program.stdin.take();
        let times = BufReader::new(program.stdout.take().expect("piped"));
        Self { program, orders, times, answers }
    }

    /// So many in a row, and how long they took.
    pub fn batch(&mut self, row: &Row, count: u32) -> Duration {
        let what = match row.what {
            What::Parse => "parse",
            What::Decide => "decide",
        };
        let orders = self.orders.as_mut().expect("open until it is dropped");
        writeln!(orders, "{} {what} {count}", row.case).expect("the oracle listens");
        let mut line = String::new();
        self.times.read_line(&mut line).expect("the oracle answers");
        Duration::from_nanos(line.trim().parse().expect("nanoseconds"))
    }
}

impl Drop for Oracle {
    /// It ends where its orders end.
    fn drop(&mut self) {
        drop(self.orders.take());
        let _ = self.program.wait();
    }
}
