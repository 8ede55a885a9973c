//! What the second program, its generator and the run player share: a task, a pair of tables with its bytes,
//! the framed stream and a source of random numbers. Written from document 01 alone.

use std::io::{Read, Write};

// The house format: a block's mark, its most tasks, and sizes and places in bytes.

pub const MARK: [u8; 2] = [0x4D, 0x54];
pub const MOST: usize = 30;
pub const HEAD: usize = 8;
pub const RECORD: usize = 16;
pub const CHECK: usize = 508;
pub const BLOCK: usize = 512;

/// The fields of a record: where each starts and where it ends.
pub type Field = (usize, usize);
pub const KIND: Field = (0, 1);
pub const PRIORITY: Field = (1, 2);
pub const NUMBER: Field = (2, 4);
pub const PERIOD: Field = (4, 6);
pub const DEADLINE: Field = (6, 8);
pub const EXECUTION: Field = (8, 10);
pub const OFFSET: Field = (10, 12);
/// The rest of a record is zero.
pub const ZEROS: Field = (12, RECORD);

/// A task's numbers in a list, in this order.
pub const ENTRY: usize = 7;
pub const FIELDS: [Field; ENTRY] = [KIND, PRIORITY, NUMBER, PERIOD, DEADLINE, EXECUTION, OFFSET];

/// A task's numbers in a report.
pub const ROW: usize = 3;
pub type Row = [u32; ROW];

pub const COMPLETED: u32 = 0;
pub const ABORTED: u32 = 1;
pub const NEW: u32 = 2;

/// A task's numbers, in the list's order.
#[derive(Clone, Copy, Debug, Default)]
pub struct Task {
    pub kind: u32,
    pub priority: u32,
    pub number: u32,
    pub t: u32,
    pub d: u32,
    pub c: u32,
    pub y: u32,
}

impl Task {
    pub fn of_list(v: &[u32]) -> Task {
        Task { kind: v[0], priority: v[1], number: v[2], t: v[3], d: v[4], c: v[5], y: v[6] }
    }

    pub fn list(&self) -> [u32; ENTRY] {
        [self.kind, self.priority, self.number, self.t, self.d, self.c, self.y]
    }

    /// The task that a record's bytes say.
    pub fn of_record(r: &[u8]) -> Task {
        Task::of_list(&FIELDS.map(|(from, to)| r[from..to].iter().rev().fold(0, |v, &b| 256 * v + b as u32)))
    }

    /// The bytes of its record, numbers cut to their fields.
    pub fn record(&self) -> [u8; RECORD] {
        let mut r = [0; RECORD];
        for ((from, to), v) in FIELDS.iter().zip(self.list()) {
            r[*from..*to].copy_from_slice(&v.to_le_bytes()[..to - from]);
        }
        r
    }

    /// Whether each number fits its field.
    pub fn fits(&self) -> bool {
        FIELDS.iter().zip(self.list()).all(|((from, to), v)| v < 1 << (8 * (to - from)))
    }
}

/// The sum of the first `words` little-endian words of a block.
pub fn sum(block: &[u8], words: usize) -> u32 {
    block.chunks(4).take(words).fold(0u32, |s, w| s.wrapping_add(u32::from_le_bytes([w[0], w[1], w[2], w[3]])))
}

pub fn mend(block: &mut [u8]) {
    let check = sum(block, CHECK / 4);
    block[CHECK..BLOCK].copy_from_slice(&check.to_le_bytes());
}

/// A block's bytes. Nothing is checked here: numbers are cut to their fields, records past the thirtieth left out.
pub fn encode(side: u32, mode: u32, tasks: &[Task]) -> Vec<u8> {
    let mut b = vec![0u8; BLOCK];
    b[..2].copy_from_slice(&MARK);
    b[2] = side as u8;
    b[3] = tasks.len() as u8;
    b[4..6].copy_from_slice(&(mode as u16).to_le_bytes());
    b[HEAD..].chunks_mut(RECORD).zip(tasks.iter().take(MOST)).for_each(|(r, v)| r.copy_from_slice(&v.record()));
    mend(&mut b);
    b
}

/// Two tables and their mode numbers.
#[derive(Clone, Default)]
pub struct Pair {
    pub old: Vec<Task>,
    pub new: Vec<Task>,
    pub modes: [u32; 2],
}

impl Pair {
    pub fn bytes(&self) -> Vec<u8> {
        let mut b = encode(0, self.modes[0], &self.old);
        b.extend(encode(1, self.modes[1], &self.new));
        b
    }

    /// Old tasks in block order, then new ones.
    pub fn tasks(&self) -> Vec<Task> {
        self.old.iter().chain(&self.new).copied().collect()
    }
}

pub fn write_frame(out: &mut impl Write, input: &[u8]) -> std::io::Result<()> {
    out.write_all(&(input.len() as u32).to_le_bytes())?;
    out.write_all(input)
}

pub fn read_frame(from: &mut impl Read) -> Option<Vec<u8>> {
    let mut length = [0u8; 4];
    from.read_exact(&mut length).ok()?;
    let mut input = vec![0u8; u32::from_le_bytes(length) as usize];
    from.read_exact(&mut input).expect("a frame is cut short");
    Some(input)
}

/// xorshift64*; a seed gives the same numbers everywhere.
pub struct Random(u64);

impl Random {
    pub fn new(seed: u64) -> Random {
        let mut r = Random(seed.wrapping_mul(0x9E37_79B9_7F4A_7C15) ^ 0xD1B5_4A32_D192_ED03);
        r.0 |= (r.0 == 0) as u64;
        (0..8).for_each(|_| _ = r.next());
        r
    }

    pub fn next(&mut self) -> u64 {
        self.0 ^= self.0 >> 12;
        self.0 ^= self.0 << 25;
        self.0 ^= self.0 >> 27;
        self.0.wrapping_mul(0x2545_F491_4F6C_DD1D)
    }

    pub fn below(&mut self, n: u32) -> u32 {
        ((self.next() >> 32) * n as u64 >> 32) as u32
    }

    /// From `a` to `b`, both included.
    pub fn range(&mut self, a: u32, b: u32) -> u32 {
        a + self.below(b - a + 1)
    }

    pub fn percent(&mut self, p: u32) -> bool {
        self.below(100) < p
    }

    pub fn pick<T: Copy>(&mut self, from: &[T]) -> T {
        from[self.below(from.len() as u32) as usize]
    }
}

/// What a random pair is to look like; loads and shares in percent.
#[derive(Clone, Copy)]
pub struct Shape {
    pub count: [u32; 2],
    pub period: (u32, u32),
    pub deadline: u32,
    pub load: u32,
    pub aborted: u32,
    pub priorities: u32,
}

/// Small tables: up to five tasks a side, priorities from a range so narrow that sides often share one.
pub fn small(r: &mut Random) -> Shape {
    let count = [r.range(0, 5), r.range(0, 5)];
    let period = r.pick(&[(1, 12), (4, 30), (10, 60)]);
    let priorities = r.pick(&[6, 10, 256]);
    Shape { count, period, deadline: 65_535, load: r.range(20, 90), aborted: 30, priorities }
}

/// A pair whose records keep every rule; nothing is said on whether they are in time.
pub fn random_pair(r: &mut Random, s: Shape) -> Pair {
    let modes = [r.range(0, 65_535), r.range(0, 65_535)];
    Pair { old: random_side(r, s, 0), new: random_side(r, s, 1), modes }
}

fn random_side(r: &mut Random, s: Shape, side: usize) -> Vec<Task> {
    let count = s.count[side];
    let mut tasks: Vec<Task> = Vec::new();
    let mut priorities: Vec<u32> = Vec::new();
    let range = if r.percent(10) { 65_535 } else { s.period.1 };
    for _ in 0..count {
        let t = r.range(s.period.0, s.period.1);
        let c = (t.min(s.deadline) * s.load / 100 / count).max(1);
        let c = r.range(c.div_ceil(3), c * 5 / 3).clamp(1, t.min(s.deadline));
        let d = if r.percent(60) { t } else { r.range(c, t) }.min(s.deadline);
        let kind = if side == 1 { NEW } else { r.percent(s.aborted) as u32 };
        let y = if side == 0 || r.percent(35) { 0 } else { r.range(0, range) };
        let mut number = r.range(0, 65_535);
        while tasks.iter().any(|o| o.number == number) {
            number = r.range(0, 65_535);
        }
        let mut priority = r.below(s.priorities);
        while priorities.contains(&priority) {
            priority = r.below(s.priorities);
        }
        priorities.push(priority);
        tasks.push(Task { kind, priority, number, t, d, c, y });
    }
    if r.percent(70) {
        // Shorter deadlines higher: more of such tables are in time.
        priorities.sort();
        let mut order: Vec<usize> = (0..tasks.len()).collect();
        order.sort_by_key(|&k| tasks[k].d);
        order.iter().zip(&priorities).for_each(|(&k, &p)| tasks[k].priority = p);
    }
    tasks
}
