//! The second program: document 01 once more, written from its text alone and sharing nothing with the proved code.
//! It tries every phase, and every t of a window while that is affordable. Modes:
//!
//!   second print                            as the printing program: an input on standard input, its lines out
//!   second batch | read | write | analyse   a framed stream in, for each input the outcome and a line `.`
//!   second generate SEED COUNT [KIND]       a framed stream of random inputs; KIND as the four above
//!   second cases in|out FILE                a framed stream of the file's cases, or the outcomes it expects
//!   second differ STREAM ONE OTHER          the first input whose outcomes differ, if any
//!   second faults KIND                      the planted faults that a comparison of this kind has to find
//!
//! A frame is a length (4 bytes, little-endian) and that many bytes: for `batch` an input of the printing program; for
//! `read` side (1 byte), list length (2), block; for `write` side (1), mode number (2), block length (2), list (4 each);
//! for `analyse` report length (2), length of the old block (2), old block, new block. Lent lists, blocks and reports
//! are filled beforehand (LENT) and shown whole. `--fault N` as last words plants fault N, for the tests' own test.

mod cases;
mod generate;
mod tables;

use std::io::{stdin, stdout, BufReader, BufWriter, Read, Write};
use tables::*;

const LENT: u32 = 0xEEEE_EEEE;

/// The planted faults by number, from 1, each with the kind of stream that has to show it.
const FAULTS: [(&str, &str); 32] = [
    ("batch", "floor for ceil in the completed terms of a phase"),
    ("batch", "t for m: completed tasks go on releasing after the request"),
    ("batch", "the aborted term without its min"),
    ("batch", "at equal priorities new above old"),
    ("batch", "of equal windows the larger phase is kept"),
    ("batch", "late only after D + 1"),
    ("batch", "w in the row without subtracting Y"),
    ("batch", "check over 126 words"),
    ("batch", "only numbers are compared for duplicates"),
    ("batch", "unused room from one byte later"),
    ("batch", "phase 1 only"),
    ("batch", "C below D asked"),
    ("batch", "code 6 looked for before 5"),
    ("batch", "offsets forgotten in the phase windows"),
    ("batch", "aborted tasks add C from the request"),
    ("batch", "phases up to D - 1 only"),
    ("batch", "input beyond 1,024 bytes cut off"),
    ("batch", "the request window judged before the steady one"),
    ("batch", "aborted tasks forgotten in the steady window"),
    ("batch", "code 7 looked for before 5 and 6"),
    ("batch", "a new job already counted at t = x + Y"),
    ("batch", "unused room ends a byte early"),
    ("batch", "completed tasks add nothing from the request"),
    ("batch", "of aborted tasks only whole periods counted at a phase"),
    ("read", "a bad wanted side refused before length, check and mark"),
    ("read", "a list one number short accepted"),
    ("read", "the list filled before a refusal"),
    ("write", "a number cut to its field"),
    ("write", "list length judged after side and count"),
    ("analyse", "a late task named before a short report"),
    ("analyse", "the report cleared past the last row"),
    ("analyse", "offsets forgotten in the request window"),
];

#[derive(Clone, Copy, Debug)]
struct Answer([u32; 4]);

impl std::fmt::Display for Answer {
    fn fmt(&self, f: &mut std::fmt::Formatter) -> std::fmt::Result {
        let [code, side, record, detail] = self.0;
        write!(f, "{code} {side} {record} {detail}")
    }
}

fn refuse<T>(code: u32, side: u32, record: usize, detail: u32) -> Result<T, Answer> {
    Err(Answer([code, side, record as u32, detail]))
}

const DONE: Answer = Answer([0, 2, 0, 0]);

/// The least t from 1 to `limit` at which the demand is at most t: t by t, or, where that would take hours, climbing
/// from demand to demand.
fn least(limit: u32, climb: bool, demand: impl Fn(u32) -> u32) -> Option<u32> {
    let mut t = 1;
    while t <= limit {
        let d = demand(t);
        if d <= t {
            return Some(t);
        }
        t = if climb { d } else { t + 1 };
    }
    None
}

/// The program, with a planted fault unless that is 0.
#[derive(Clone, Copy)]
struct Second {
    fault: usize,
}

const PLAIN: Second = Second { fault: 0 };

impl Second {
    // The block.

    /// Whether a task breaks a rule of its own or a number of it does not fit its field.
    fn breaks(&self, side: u32, v: &Task) -> bool {
        let kind = if side == 0 { v.kind == COMPLETED || v.kind == ABORTED } else { v.kind == NEW };
        let c = v.c >= 1 && if self.fault == 12 { v.c < v.d } else { v.c <= v.d };
        !(kind && v.fits() && v.t >= 1 && c && v.d <= v.t && (side == 1 || v.y == 0))
    }

    /// The first record that bears a number or priority of an earlier one.
    fn doubled(&self, tasks: &[Task]) -> Option<usize> {
        let same = |a: &Task, b: &Task| a.number == b.number || (a.priority == b.priority && self.fault != 9);
        (0..tasks.len()).find(|&k| tasks[..k].iter().any(|e| same(e, &tasks[k])))
    }

    /// Codes 1 to 7; the tasks and the mode number of a block that passes.
    fn block(&self, b: &[u8], wanted: u32) -> Result<(Vec<Task>, u32), Answer> {
        let side = wanted.min(2);
        let two = |at: usize| b[at] as u32 + 256 * b[at + 1] as u32;
        if side == 2 && self.fault == 25 {
            return refuse(4, 2, 0, 0);
        }
        if b.len() != BLOCK {
            return refuse(1, side, 0, 0);
        }
        if sum(b, CHECK / 4 - (self.fault == 8) as usize) != two(CHECK) + 65_536 * two(CHECK + 2) {
            return refuse(2, side, 0, 0);
        }
        if b[..2] != MARK {
            return refuse(3, side, 0, 0);
        }
        if side == 2 || b[2] as u32 != wanted || b[3] as usize > MOST || two(6) != 0 {
            return refuse(4, side, 0, 0);
        }
        let records = b[HEAD..].chunks(RECORD).take(b[3] as usize);
        let tasks: Vec<Task> = records.clone().map(Task::of_record).collect();
        let zeros = |part: &[u8]| part.iter().all(|&byte| byte == 0);
        let broken = tasks.iter().zip(records).position(|(v, r)| self.breaks(side, v) || !zeros(&r[ZEROS.0..ZEROS.1]));
        let room = HEAD + RECORD * tasks.len() + (self.fault == 10) as usize;
        let dirty = !zeros(&b[room..CHECK - (self.fault == 22) as usize]);
        let mut found = [(5, broken), (6, self.doubled(&tasks)), (7, dirty.then_some(0))];
        match self.fault {
            13 => found.swap(0, 1),
            20 => found.rotate_right(1),
            _ => (),
        }
        match found.iter().find_map(|&(code, place)| Some((code, place?))) {
            Some((code, record)) => refuse(code, side, record, 0),
            None => Ok((tasks, two(4))),
        }
    }

    fn read(&self, b: &[u8], wanted: u32, list: &mut [u32]) -> Answer {
        let (tasks, mode) = match self.block(b, wanted) {
            Ok(read) => read,
            Err(answer) => {
                if self.fault == 27 {
                    list.iter_mut().take(1).for_each(|v| *v = 0);
                }
                return answer;
            }
        };
        if ENTRY * tasks.len() > list.len() + (self.fault == 26) as usize {
            return Answer([8, 2, 0, 0]);
        }
        list.iter_mut().zip(tasks.iter().flat_map(Task::list)).for_each(|(to, v)| *to = v);
        Answer([0, wanted, tasks.len() as u32, mode])
    }

    fn write(&self, side: u32, mode: u32, list: &[u32], block: &mut [u8]) -> Answer {
        let refusal = |code: u32, side: u32| Answer([code, side, 0, 0]);
        if block.len() != BLOCK {
            return refusal(1, side.min(2));
        }
        let odd = list.len() % ENTRY != 0;
        if odd && self.fault != 29 {
            return refusal(11, 2);
        }
        if side > 1 || list.len() / ENTRY > MOST {
            return refusal(4, side.min(2));
        }
        if odd {
            return refusal(11, 2);
        }
        let cut = |v: &[u32]| if self.fault == 28 { v.iter().map(|n| n % 65_536).collect() } else { v.to_vec() };
        let tasks: Vec<Task> = list.chunks(ENTRY).map(|v| Task::of_list(&cut(v))).collect();
        if let Some(k) = tasks.iter().position(|v| self.breaks(side, v)) {
            return Answer([5, side, k as u32, 0]);
        }
        if let Some(k) = self.doubled(&tasks) {
            return Answer([6, side, k as u32, 0]);
        }
        block.copy_from_slice(&encode(side, mode, &tasks));
        DONE
    }

    // The windows.

    fn above(&self, a: &Task, i: &Task) -> bool {
        let equal = if self.fault == 4 { a.kind == NEW && i.kind != NEW } else { a.kind != NEW && i.kind == NEW };
        a.priority < i.priority || (a.priority == i.priority && equal)
    }

    fn steady(&self, i: &Task, above: &[Task], t: u32) -> u32 {
        let counts = |v: &&Task| self.fault != 19 || v.kind != ABORTED;
        i.c + above.iter().filter(counts).map(|v| t.div_ceil(v.t) * v.c).sum::<u32>()
    }

    fn phase(&self, i: &Task, above: &[Task], x: u32, t: u32) -> u32 {
        let m = t.min(x);
        let term = |v: &Task| match v.kind {
            COMPLETED if self.fault == 1 => m / v.t * v.c,
            COMPLETED if self.fault == 2 => t.div_ceil(v.t) * v.c,
            COMPLETED => m.div_ceil(v.t) * v.c,
            ABORTED if self.fault == 3 => m / v.t * v.c + m % v.t,
            ABORTED if self.fault == 24 => m / v.t * v.c,
            ABORTED => m / v.t * v.c + v.c.min(m % v.t),
            _ => {
                let first = x + if self.fault == 14 { 0 } else { v.y };
                let early = (self.fault == 21 && t == first) as u32;
                (t.saturating_sub(first).div_ceil(v.t) + early) * v.c
            }
        };
        i.c + above.iter().map(term).sum::<u32>()
    }

    fn request(&self, i: &Task, above: &[Task], t: u32) -> u32 {
        let term = |v: &Task| match v.kind {
            COMPLETED => v.c * (self.fault != 23) as u32,
            ABORTED => v.c * (self.fault == 15) as u32,
            _ => t.saturating_sub(if self.fault == 32 { 0 } else { v.y }).div_ceil(v.t) * v.c,
        };
        i.c + above.iter().map(term).sum::<u32>()
    }

    /// Rows of two tables that keep the rules, or the first late task.
    fn rows(&self, old: &[Task], new: &[Task]) -> Result<Vec<Row>, Answer> {
        let over = |i: &Task, of: &[Task]| -> Vec<Task> { of.iter().filter(|v| self.above(v, i)).copied().collect() };
        let both = |i: &Task| [over(i, old), over(i, new)].concat();
        let limit = |d: u32| d + (self.fault == 6) as u32;
        let large = |tries: u32, to: u32, above: &[Task]| tries as u64 * to as u64 * above.len() as u64 > 1 << 20;
        let mut rows = Vec::new();
        for (k, i) in old.iter().enumerate() {
            let mates = over(i, old);
            let steady = least(limit(i.d), large(1, i.d, &mates), |t| self.steady(i, &mates, t));
            if i.kind == ABORTED {
                match steady {
                    Some(s) => rows.push([s, 0, s]),
                    None => return refuse(9, 0, k, 0),
                }
                continue;
            }
            let above = both(i);
            let climb = large(i.d, i.d, &above);
            let (mut worst, mut at) = (0, 0);
            let phases = match self.fault {
                11 => 1,
                16 => i.d.max(2) - 1,
                _ => i.d,
            };
            for x in 1..=phases {
                match least(limit(i.d), climb, |t| self.phase(i, &above, x, t)) {
                    Some(t) if t > worst || (t == worst && self.fault == 5) => (worst, at) = (t, x),
                    Some(_) => (),
                    None => return refuse(9, 0, k, x),
                }
            }
            // Document 01 gives no refusal for a steady window that stays open here: the last phase shuts it out.
            assert!(steady.is_some() || self.fault > 0, "every phase closes, the steady window does not");
            rows.push([worst, at, steady.unwrap_or(0)]);
        }
        for (k, i) in new.iter().enumerate() {
            let (mates, above) = (over(i, new), both(i));
            let steady = least(limit(i.d), large(1, i.d, &mates), |t| self.steady(i, &mates, t));
            let w = least(i.y + limit(i.d), large(1, i.y + i.d, &above), |t| self.request(i, &above, t));
            match (steady, w) {
                (Some(s), Some(w)) => rows.push([s.max(w.saturating_sub(if self.fault == 7 { 0 } else { i.y })), w, s]),
                (_, None) if self.fault == 18 => return refuse(10, 1, k, 1),
                (None, _) => return refuse(10, 1, k, 0),
                (_, None) => return refuse(10, 1, k, 1),
            }
        }
        Ok(rows)
    }

    fn analyse(&self, old: &[u8], new: &[u8], report: &mut [u32]) -> Result<Pair, Answer> {
        let (old, one) = self.block(old, 0)?;
        let (new, other) = self.block(new, 1)?;
        let pair = Pair { old, new, modes: [one, other] };
        let short = report.len() < ROW * pair.tasks().len();
        if short && self.fault != 30 {
            return refuse(8, 2, 0, 0);
        }
        let rows = self.rows(&pair.old, &pair.new)?;
        if short {
            return refuse(8, 2, 0, 0);
        }
        if self.fault == 31 {
            report.fill(0);
        }
        report.iter_mut().zip(rows.iter().flatten()).for_each(|(to, v)| *to = *v);
        Ok(pair)
    }

    // The outcomes as text.

    fn print(&self, input: &[u8]) -> String {
        let (old, mut new) = input.split_at(input.len().min(BLOCK));
        if self.fault == 17 {
            new = &new[..new.len().min(BLOCK)];
        }
        let mut report = [LENT; ROW * 2 * MOST];
        match self.analyse(old, new, &mut report) {
            Err(answer) => format!("refused {answer}\n"),
            Ok(pair) => {
                let mut text = format!("change {} {}\n", pair.modes[0], pair.modes[1]);
                for (v, row) in pair.tasks().iter().zip(report.chunks(ROW)) {
                    let side = ["o", "a", "n"][v.kind as usize];
                    text += &format!("{side} {} {}\n", v.number, words(row));
                }
                text
            }
        }
    }

    fn outcome(&self, kind: &str, input: &[u8]) -> String {
        let two = |at: usize| input[at] as u32 + 256 * input[at + 1] as u32;
        match kind {
            "batch" => self.print(input),
            "read" => {
                let mut list = vec![LENT; two(1) as usize];
                let answer = self.read(&input[3..], input[0] as u32, &mut list);
                format!("{answer}\n{}\n", words(&list))
            }
            "write" => {
                let list: Vec<u32> = input[5..].chunks(4).map(|w| u32::from_le_bytes(w.try_into().unwrap())).collect();
                let mut block = vec![LENT as u8; two(3) as usize];
                let answer = self.write(input[0] as u32, two(1), &list, &mut block);
                format!("{answer}\n{}\n", hex(&block))
            }
            "analyse" => {
                let mut report = vec![LENT; two(0) as usize];
                let (old, new) = input[4..].split_at(two(2) as usize);
                let answer = self.analyse(old, new, &mut report).map_or_else(|refusal| refusal, |_| DONE);
                format!("{answer}\n{}\n", words(&report))
            }
            _ => usage(),
        }
    }
}

fn words(numbers: &[u32]) -> String {
    numbers.iter().map(u32::to_string).collect::<Vec<_>>().join(" ")
}

fn hex(bytes: &[u8]) -> String {
    bytes.iter().map(|b| format!("{b:02x}")).collect()
}

/// The first input of the stream whose two outcomes differ, shown with both; None if there is none.
fn differ(stream: &[u8], one: &str, other: &str) -> Option<String> {
    let (mut stream, mut one, mut other) = (stream, one, other);
    let next = |text: &mut &str| {
        let end = text.find("\n.\n").map_or(text.len(), |at| at + 3);
        let outcome = text[..end].to_string();
        *text = &text[end..];
        outcome
    };
    let mut place = 0;
    while let Some(input) = read_frame(&mut stream) {
        let (a, b) = (next(&mut one), next(&mut other));
        if a != b || a.is_empty() {
            return Some(format!("input {place}, {} bytes: {}\n--- one\n{a}--- other\n{b}", input.len(), hex(&input)));
        }
        place += 1;
    }
    (!one.is_empty() || !other.is_empty()).then(|| format!("outcomes after the last of {place} inputs"))
}

fn usage() -> ! {
    eprintln!("usage: see the head of second.rs");
    std::process::exit(2)
}

fn main() -> std::io::Result<()> {
    let words: Vec<String> = std::env::args().skip(1).collect();
    let mut args: Vec<&str> = words.iter().map(String::as_str).collect();
    let mut second = PLAIN;
    if let [.., "--fault", n] = args[..] {
        second.fault = n.parse().ok().filter(|n| (1..=FAULTS.len()).contains(n)).unwrap_or_else(|| usage());
        args.truncate(args.len() - 2);
    }
    let number = |text: &str| text.parse::<u64>().unwrap_or_else(|_| usage());
    let mut out = BufWriter::new(stdout().lock());
    match args[..] {
        ["print"] => {
            let mut input = Vec::new();
            stdin().lock().take(1_025).read_to_end(&mut input)?;
            out.write_all(second.print(&input).as_bytes())?;
        }
        [kind @ ("batch" | "read" | "write" | "analyse")] => {
            let mut from = BufReader::new(stdin().lock());
            while let Some(input) = read_frame(&mut from) {
                let outcome = second.outcome(kind, &input) + ".\n";
                if out.write_all(outcome.as_bytes()).is_err() {
                    std::process::exit(1); // the reader has seen enough
                }
            }
        }
        ["generate", seed, count] => generate::stream(&mut out, number(seed), number(count), "batch")?,
        ["generate", seed, count, kind] => generate::stream(&mut out, number(seed), number(count), kind)?,
        ["cases", "in", file] => cases::stream(&mut out, &std::fs::read_to_string(file)?)?,
        ["cases", "out", file] => out.write_all(cases::expected(&std::fs::read_to_string(file)?).as_bytes())?,
        ["differ", stream, one, other] => {
            let text = |file: &str| std::fs::read(file).map(|b| String::from_utf8_lossy(&b).into_owned());
            if let Some(shown) = differ(&std::fs::read(stream)?, &text(one)?, &text(other)?) {
                println!("{}", shown.trim_end());
                std::process::exit(1);
            }
        }
        ["faults", kind] => {
            for (n, fault) in FAULTS.iter().enumerate().filter(|f| f.1 .0 == kind) {
                writeln!(out, "{} {}", n + 1, fault.1)?;
            }
        }
        _ => usage(),
    }
    out.flush()
}
