//! Reads cases on standard input and writes dfu-core's answers.

use std::io::{self, BufRead, Write};

use oracle::answer::answer;
use oracle::grammar::{self, LONGEST_LINE};

fn main() -> io::Result<()> {
    oracle::prepare();
    let mut input = io::BufReader::with_capacity(1 << 16, io::stdin().lock());
    let mut output = io::BufWriter::with_capacity(1 << 16, io::stdout().lock());
    let mut line = Vec::new();
    let mut lines = String::new();
    while input.read_until(b'\n', &mut line)? > 0 {
        answer_line(line.strip_suffix(b"\n").unwrap_or(&line), &mut lines);
        output.write_all(lines.as_bytes())?;
        line.clear();
        lines.clear();
    }
    output.flush()
}

fn answer_line(line: &[u8], out: &mut String) {
    let passed_over = line.is_empty() || line[0] == b'#';
    if line.len() <= LONGEST_LINE && passed_over {
        return;
    }
    match grammar::read(line) {
        // that there is none is said in the answer's words
        Some(case) if line.len() <= LONGEST_LINE => answer(&case, out).unwrap_or(()),
        _ => out.push_str("bad-line\n"),
    }
}
