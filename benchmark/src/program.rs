//! A program that ticks in another language; tick.c tells what it is handed and what it says.
use std::fs;
use std::io::{BufRead, BufReader, Write};
use std::process::{Child, ChildStdin, ChildStdout, Command, Stdio};

const PLAN: &str = "target/tick.plan";
const REPORTS: &str = "target/tick.reports";

pub struct Program {
    child: Child,
    asked: ChildStdin,
    says: BufReader<ChildStdout>,
}

impl Program {
    pub fn begin(command: &mut Command, text: &[u8], reports: &[u64]) -> Program {
        let lines: String = reports.iter().map(|report| format!("{report}\n")).collect();
        fs::write(PLAN, text).expect("target/ can be written to");
        fs::write(REPORTS, lines).expect("target/ can be written to");
        let command = command.args([PLAN, REPORTS]).stdin(Stdio::piped()).stdout(Stdio::piped());
        let mut child = command.spawn().expect("a program that can be run");
        let asked = child.stdin.take().expect("its standard input");
        let says = BufReader::new(child.stdout.take().expect("its standard output"));
        Program { child, asked, says }
    }

    fn line(&mut self) -> String {
        let mut line = String::new();
        self.says.read_line(&mut line).expect("a line of text");
        assert_eq!(line.pop(), Some('\n'), "the program ended before its time");
        line
    }

    /// The answers of its first run.
    pub fn answers(&mut self) -> Vec<String> {
        let mut lines = Vec::new();
        loop {
            match self.line() {
                line if line.is_empty() => return lines,
                line => lines.push(line),
            }
        }
    }

    /// The nanoseconds of one tick, from one more round.
    pub fn round(&mut self) -> f64 {
        self.asked.write_all(b"\n").expect("a program that listens");
        self.line().parse().expect("nanoseconds")
    }

    pub fn end(mut self) {
        drop(self.asked);
        assert!(self.child.wait().expect("a program that ends").success());
    }
}
