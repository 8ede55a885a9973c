//! Plays legal runs of accepted pairs tick by tick, by the words of demand 3 alone, and compares every response with the
//! rows. Nothing of the analysis is used here.
//!
//!   play pairs SEED COUNT                    a framed stream of random pairs
//!   play run SEED COUNT RUNS ROWS [RULE]     at least RUNS runs of those pairs, whose outcomes stand in the file ROWS;
//!                                            with RULE a wrong rule, for the test's own test
//!   play rules                               the wrong rules
//!
//! Exit status: 0 no violation, 1 a violation.

#[allow(dead_code)]
#[path = "../second/tables.rs"]
mod tables;

use std::io::{BufWriter, Write};
use tables::*;

/// The wrong rules by number, from 1.
const RULES: [&str; 9] = [
    "jobs closer than a period",
    "jobs of C + 1 ticks",
    "old jobs released at the request and later",
    "aborted jobs stay at the request",
    "the lowest pending job runs",
    "new jobs before their offset",
    "an idle tick now and then while jobs are pending",
    "at equal priorities new before old",
    "aborted jobs vanish a tick late",
];

/// Small pairs with offsets that a run reaches soon.
fn pairs(seed: u64, count: u64) -> Vec<Pair> {
    let mut r = Random::new(seed);
    let mut one = || {
        let mut shape = small(&mut r);
        shape.load = shape.load * 2 / 3;
        let mut pair = random_pair(&mut r, shape);
        pair.new.iter_mut().for_each(|v| v.y %= 40);
        pair
    };
    (0..count).map(|_| one()).collect()
}

/// The rows in an outcome of the printing program, if it accepts the pair.
fn rows(pair: &Pair, outcome: &str) -> Option<Vec<Row>> {
    let mut lines = outcome.lines();
    if lines.next()?.starts_with("refused ") {
        return None;
    }
    let row = |v: &Task| {
        let words: Vec<&str> = lines.next().expect("a row is missing").split(' ').collect();
        let n: Vec<u32> = words[1..].iter().map(|w| w.parse().expect("a number")).collect();
        assert!(words[0] == ["o", "a", "n"][v.kind as usize] && n[0] == v.number, "a row of another task");
        n[1..].try_into().expect("a row's numbers")
    };
    Some(pair.tasks().iter().map(row).collect())
}

/// How a run is to go: the request's tick, for each task the first tick at which it may release and its chance (of 256)
/// to do so at each legal tick from there on, the last tick of releases, and the chance that a job needs its whole C.
#[derive(Debug)]
struct Plan {
    q: u32,
    start: Vec<u32>,
    chance: Vec<u32>,
    end: u32,
    full: u32,
}

impl Plan {
    /// Everything at once at tick s and as often as is legal from there on, the request x ticks later.
    fn together(tasks: &[Task], s: u32, x: u32) -> Plan {
        let longest = tasks.iter().map(|v| v.y + 2 * v.t).max().unwrap_or(0);
        Plan { q: s + x, start: vec![s; tasks.len()], chance: vec![256; tasks.len()], end: s + x + longest, full: 100 }
    }

    /// As together, with the releases of some tasks moved, thinned or shortened.
    fn random(r: &mut Random, tasks: &[Task]) -> Plan {
        let longest = tasks.iter().map(|v| v.t).max().unwrap_or(1);
        let (s, x) = (r.below(8), r.range(0, 2 * longest));
        let mut plan = Plan::together(tasks, s, x);
        let (moved, thinned) = (r.pick(&[0, 30, 60, 100]), r.pick(&[0, 20, 60]));
        plan.full = r.pick(&[100, 80, 30]);
        for (k, v) in tasks.iter().enumerate() {
            let from = if v.kind == NEW { plan.q + v.y } else { s };
            if r.percent(moved) {
                plan.start[k] = from + r.range(0, v.t.max(x));
            }
            if r.percent(thinned) {
                plan.chance[k] = r.pick(&[128, 40, 10]);
            }
        }
        plan
    }
}

struct Job {
    task: usize,
    release: u32,
    left: u32,
}

/// The jobs that ended in a run, as task and response, in the order of their ends.
fn play(r: &mut Random, tasks: &[Task], plan: &Plan, rule: usize) -> Vec<(usize, u32)> {
    let mut ended = Vec::new();
    let mut pending: Vec<Job> = Vec::new();
    let mut last: Vec<Option<u32>> = vec![None; tasks.len()];
    let vanish = plan.q + (rule == 9) as u32;
    let mut tick = 0;
    while tick <= plan.end || !pending.is_empty() {
        if tick == vanish && rule != 4 {
            pending.retain(|j| tasks[j.task].kind != ABORTED);
        }
        for (k, v) in tasks.iter().enumerate() {
            let apart = if rule == 1 { v.t.max(2) - 1 } else { v.t };
            let legal = last[k].is_none_or(|l| tick >= l + apart)
                && match v.kind {
                    NEW if rule == 6 => tick >= plan.q,
                    NEW => tick >= plan.q + v.y,
                    _ => tick < plan.q || rule == 3,
                };
            if legal && tick >= plan.start[k] && tick <= plan.end && r.below(256) < plan.chance[k] {
                let need = if r.percent(plan.full) { v.c + (rule == 2) as u32 } else { r.range(1, v.c) };
                pending.push(Job { task: k, release: tick, left: need });
                last[k] = Some(tick);
            }
        }
        let order = |j: &Job| {
            let v = &tasks[j.task];
            (v.priority, (v.kind == NEW) != (rule == 8), j.release)
        };
        let places = 0..pending.len();
        let highest = if rule == 5 {
            places.max_by_key(|&p| order(&pending[p]))
        } else {
            places.min_by_key(|&p| order(&pending[p]))
        };
        if let Some(p) = highest.filter(|_| rule != 7 || r.percent(90)) {
            pending[p].left -= 1;
            if pending[p].left == 0 {
                let job = pending.remove(p);
                ended.push((job.task, tick + 1 - job.release));
            }
        }
        tick += 1;
    }
    ended
}

/// What was played and found.
#[derive(Default)]
struct Tally {
    runs: u64,
    responses: u64,
    exact: u64,
    late: u64,
    missed: u64,
}

impl Tally {
    /// Shows the first violation.
    fn show(&self, what: &str, tasks: &[Task], rows: &[Row], plan: &Plan) {
        if self.late + self.missed == 1 {
            println!("{what}\n{plan:?}");
            tasks.iter().zip(rows).for_each(|(v, row)| println!("{v:?} row {row:?}"));
        }
    }

    /// Plays a run; no response may pass its row. With `reach` the first job of that task has to need just that long.
    fn run(
        &mut self,
        r: &mut Random,
        tasks: &[Task],
        rows: &[Row],
        plan: &Plan,
        rule: usize,
        reach: Option<(usize, u32)>,
    ) {
        let ended = play(r, tasks, plan, rule);
        self.runs += 1;
        self.responses += ended.len() as u64;
        if let Some(&(k, response)) = ended.iter().find(|e| e.1 > rows[e.0][0]) {
            self.late += 1;
            self.show(&format!("a job of row {k} took {response} ticks"), tasks, rows, plan);
        }
        if let Some((k, wanted)) = reach {
            self.exact += 1;
            let first = ended.iter().find(|e| e.0 == k).map(|e| e.1);
            if first != Some(wanted) {
                self.missed += 1;
                self.show(&format!("row {k}: {wanted} wanted, the first job took {first:?}"), tasks, rows, plan);
            }
        }
    }

    /// Runs that aim at the worst case of each task, reaching the numbers that a run can reach.
    fn aimed(&mut self, r: &mut Random, tasks: &[Task], rows: &[Row], rule: usize) {
        let (d, y) = tasks.iter().fold((0, 0), |m, v| (v.d.max(m.0), v.y.max(m.1)));
        for (k, v) in tasks.iter().enumerate() {
            let s = r.below(5);
            // The steady window: no request while the old job is pending; no old job before the new ones.
            let steady = if v.kind == NEW { Plan::together(tasks, y, 0) } else { Plan::together(tasks, s, d + 1) };
            let steady = if v.kind == NEW { Plan { q: 0, ..steady } } else { steady };
            self.run(r, tasks, rows, &steady, rule, Some((k, rows[k][2])));
            let aborted = tasks.iter().any(|a| a.kind == ABORTED && a.priority < v.priority);
            let reach = (v.kind == COMPLETED && !aborted).then_some((k, rows[k][0]));
            let x = if v.kind == COMPLETED { rows[k][1] } else { 1 };
            self.run(r, tasks, rows, &Plan::together(tasks, s, x), rule, reach);
            let x = r.range(1, v.d);
            self.run(r, tasks, rows, &Plan::together(tasks, s, x), rule, None);
        }
    }
}

fn run(seed: u64, count: u64, runs: u64, outcomes: &str, rule: usize) -> bool {
    let pairs = pairs(seed, count);
    let mut outcomes = outcomes.split_inclusive("\n.\n");
    let mut accepted = Vec::new();
    for pair in &pairs {
        if let Some(rows) = rows(pair, outcomes.next().expect("an outcome is missing")) {
            accepted.push((pair.tasks(), rows));
        }
    }
    assert!(outcomes.next().is_none(), "more outcomes than pairs");
    let mut r = Random::new(seed + 1);
    let mut tally = Tally::default();
    for (tasks, rows) in &accepted {
        tally.aimed(&mut r, tasks, rows, rule);
    }
    let aimed = tally.runs;
    while tally.runs < runs.max(2 * aimed) && !accepted.is_empty() {
        let (tasks, rows) = &accepted[tally.runs as usize % accepted.len()];
        let plan = Plan::random(&mut r, tasks);
        tally.run(&mut r, tasks, rows, &plan, rule, None);
    }
    let Tally { runs: all, responses, exact, late, missed } = tally;
    println!("{} of {count} pairs accepted, {all} runs ({aimed} aimed), {responses} responses", accepted.len());
    println!("responses above their row in {late} runs, {missed} of {exact} numbers not reached");
    // A wrong rule has to show in the responses.
    all >= runs && late == 0 && (missed == 0 || rule > 0)
}

fn main() -> std::io::Result<()> {
    let words: Vec<String> = std::env::args().skip(1).collect();
    let number = |k: usize| words[k].parse::<u64>().expect("a number");
    match words.iter().map(String::as_str).collect::<Vec<_>>()[..] {
        ["pairs", _, _] => {
            let mut out = BufWriter::new(std::io::stdout().lock());
            pairs(number(1), number(2)).iter().try_for_each(|pair| write_frame(&mut out, &pair.bytes()))?;
            out.flush()?;
        }
        ["run", _, _, _, rows] | ["run", _, _, _, rows, _] => {
            let rule = if words.len() > 5 { number(5) as usize } else { 0 };
            if !run(number(1), number(2), number(3), &std::fs::read_to_string(rows)?, rule) {
                std::process::exit(1);
            }
        }
        ["rules"] => RULES.iter().enumerate().for_each(|(n, rule)| println!("{} {rule}", n + 1)),
        _ => {
            eprintln!("usage: see the head of play.rs");
            std::process::exit(2);
        }
    }
    Ok(())
}
