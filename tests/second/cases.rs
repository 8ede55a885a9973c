//! Reads the table of cases (cases.txt says its form): the inputs as a framed stream, the expected lines as its outcome.

use crate::tables::*;
use std::io::Write;

pub fn stream(out: &mut impl Write, text: &str) -> std::io::Result<()> {
    cases(text).iter().try_for_each(|c| write_frame(out, &c.0))
}

pub fn expected(text: &str) -> String {
    cases(text).iter().map(|c| c.1.clone() + ".\n").collect()
}

/// Input and expected lines of every case.
fn cases(text: &str) -> Vec<(Vec<u8>, String)> {
    let lines: Vec<&str> = text.lines().filter(|l| !l.starts_with('#') && !l.is_empty()).collect();
    lines.split(|l| l.starts_with("case ")).skip(1).map(one).collect()
}

fn one(lines: &[&str]) -> (Vec<u8>, String) {
    let mut pair = Pair::default();
    let mut edits = Vec::new();
    let mut expected = String::new();
    for line in lines {
        let words: Vec<&str> = line.split_whitespace().collect();
        let n: Vec<usize> = words[1..].iter().filter_map(|w| w.parse().ok()).collect();
        let task = |kind| {
            let v = |k: usize| *n.get(k).unwrap_or(&0) as u32;
            Task { kind, number: v(0), t: v(1), d: v(2), c: v(3), priority: v(4), y: v(5) }
        };
        match words[0] {
            "modes" => pair.modes = [n[0] as u32, n[1] as u32],
            "completed" => pair.old.push(task(COMPLETED)),
            "aborted" => pair.old.push(task(ABORTED)),
            "new" => pair.new.push(task(NEW)),
            "set" | "mend" | "length" => edits.push((words[0], n)),
            _ => expected += &format!("{line}\n"),
        }
    }
    let mut input = pair.bytes();
    for (edit, n) in edits {
        match edit {
            "set" => input[n[0]] = n[1] as u8,
            "mend" => input.chunks_exact_mut(BLOCK).for_each(mend),
            _ => input.resize(n[0], 0),
        }
    }
    (input, expected)
}
