//! Random inputs for the second program and whatever is compared with it. Written from document 01 alone.

use crate::tables::*;
use crate::PLAIN;
use std::io::Write;

pub fn stream(out: &mut impl Write, seed: u64, count: u64, kind: &str) -> std::io::Result<()> {
    let mut r = Random::new(seed);
    for _ in 0..count {
        let input = match kind {
            "batch" => program_input(&mut r),
            "read" => reader_input(&mut r),
            "write" => writer_input(&mut r),
            "analyse" => analysis_input(&mut r),
            _ => crate::usage(),
        };
        write_frame(out, &input)?;
    }
    Ok(())
}

fn program_input(r: &mut Random) -> Vec<u8> {
    let s = small(r);
    let mut counts = |old: (u32, u32), new: (u32, u32)| [r.range(old.0, old.1), r.range(new.0, new.1)];
    let equal = Shape { priorities: 5, count: counts((3, 5), (3, 5)), ..s };
    let aborted = Shape { aborted: 75, count: counts((2, 6), (0, 2)), ..s };
    let medium = Shape { count: counts((6, 30), (6, 30)), period: (20, 400), deadline: 200, priorities: 256, ..s };
    match r.below(200) {
        0..=44 => settled(r, s).bytes(),
        45..=84 => near(r, s).bytes(),
        85..=99 => random_pair(r, Shape { load: s.load + 60, ..s }).bytes(),
        100..=114 => settled(r, equal).bytes(),
        115..=134 => near(r, aborted).bytes(),
        135..=169 => damaged(r, s),
        170..=184 => lengths(r, s),
        185..=191 => noise(r),
        192..=197 => settled(r, medium).bytes(),
        _ => maximal(r).bytes(),
    }
}

/// A random pair, its execution times lowered until it is in time (nearly always reached).
fn settled(r: &mut Random, s: Shape) -> Pair {
    let mut pair = random_pair(r, s);
    for _ in 0..12 {
        if PLAIN.rows(&pair.old, &pair.new).is_ok() {
            break;
        }
        pair.old.iter_mut().chain(&mut pair.new).for_each(|v| v.c = (v.c * 3 / 4).max(1));
    }
    pair
}

/// As settled, then one deadline put at the task's own first number, or one tick to either side of it.
fn near(r: &mut Random, s: Shape) -> Pair {
    let mut pair = settled(r, s);
    if let Ok(rows) = PLAIN.rows(&pair.old, &pair.new) {
        if !rows.is_empty() {
            let k = r.below(rows.len() as u32) as usize;
            let split = pair.old.len();
            let v = if k < split { &mut pair.old[k] } else { &mut pair.new[k - split] };
            v.d = (rows[k][0] + r.below(3) - 1).clamp(v.c, v.t);
        }
    }
    pair
}

/// Thirty tasks a side; seldom with deadlines up to the largest, since those take seconds.
fn maximal(r: &mut Random) -> Pair {
    let deadline = match r.below(100) {
        0..=2 => 65_535,
        3..=10 => 6_000,
        _ => 1_500,
    };
    let (period, load) = ((deadline / 2, 65_535), r.range(15, 40));
    let mut pair = random_pair(r, Shape { count: [30, 30], period, deadline, load, aborted: 20, priorities: 256 });
    pair.old.iter_mut().chain(&mut pair.new).for_each(|v| v.d = v.d.max(v.t.min(deadline) / 2));
    pair
}

/// One to three damages to either block, mostly with the check mended after them.
fn damaged(r: &mut Random, s: Shape) -> Vec<u8> {
    let mut input = settled(r, s).bytes();
    for _ in 0..r.pick(&[1, 1, 2, 3]) {
        let side = r.below(2) as usize;
        damage(r, &mut input[BLOCK * side..BLOCK * (side + 1)]);
    }
    input
}

fn damage(r: &mut Random, b: &mut [u8]) {
    let n = b[3].min(MOST as u8) as u32;
    let free = HEAD + RECORD * n as usize;
    let any = r.range(0, 255) as u8;
    let byte = r.pick(&[1, 2, 31, 128, 255, any]);
    let record = |r: &mut Random| HEAD + RECORD * r.below(n.max(1)) as usize;
    let within = |r: &mut Random, (from, to): Field| r.range(from as u32, to as u32 - 1) as usize;
    match r.below(14) {
        0 => b[r.below(2) as usize] ^= byte,
        1 => b[2] = r.pick(&[0, 1, 2, byte]),
        2 => b[3] = r.pick(&[n as u8 + 1, n.max(1) as u8 - 1, 30, 31, 255]),
        3 => b[4 + r.below(2) as usize] = byte,
        4 => b[6 + r.below(2) as usize] = byte,
        5 => b[record(r)] = r.pick(&[0, 1, 2, 3, byte]),
        6 => b[record(r) + within(r, (1, RECORD))] = byte,
        7 => b[record(r) + within(r, ZEROS)] = byte,
        8 => {
            // An edge of a rule: T, D, C or Y becomes 0, 1, or a neighbour of T or D of the record.
            let p = record(r);
            let field = p + r.pick(&[PERIOD, DEADLINE, EXECUTION, OFFSET]).0;
            let near = p + r.pick(&[PERIOD, DEADLINE]).0;
            let near = u16::from_le_bytes([b[near], b[near + 1]]);
            let v = r.pick(&[0, 1, near.wrapping_sub(1), near, near.wrapping_add(1)]);
            b[field..field + 2].copy_from_slice(&v.to_le_bytes());
        }
        9 | 10 => {
            // A number or a priority doubled, by the later or the earlier record.
            let (p, q) = (record(r), record(r));
            let (from, to) = r.pick(&[PRIORITY, NUMBER]);
            (from..to).for_each(|j| b[p + j] = b[q + j]);
        }
        11 => b[r.pick(&[free, free + 1, CHECK - 1, CHECK - 2]).min(CHECK - 1)] = byte,
        12 => b[within(r, (free, CHECK))] = byte,
        _ => b[within(r, (CHECK, BLOCK))] ^= byte,
    }
    if r.percent(85) {
        mend(b);
    }
}

/// A good or damaged input cut or lengthened.
fn lengths(r: &mut Random, s: Shape) -> Vec<u8> {
    let mut input = if r.percent(80) { settled(r, s).bytes() } else { damaged(r, s) };
    let edge = r.pick(&[0, 1, 511, 512, 513, 1_023, 1_024, 1_025, 1_026, 1_100]);
    let length = if r.percent(50) { edge } else { r.range(0, 1_100) };
    let fill = r.pick(&[0, 0xFF]);
    input.resize(length as usize, fill);
    input
}

fn noise(r: &mut Random) -> Vec<u8> {
    let any = r.range(0, 1_100);
    let length = r.pick(&[1_024, 1_024, any]);
    let mut input: Vec<u8> = (0..length).map(|_| r.next() as u8).collect();
    for (side, b) in input.chunks_exact_mut(BLOCK).take(2).enumerate() {
        if r.percent(50) {
            // Noise behind a good head and a good check.
            b[..2].copy_from_slice(&MARK);
            b[2] = side as u8;
            b[3] %= MOST as u8 + 1;
            b[6..8].fill(0);
            mend(b);
        }
    }
    input
}

/// Lent room: what is needed, a number less or more, what is always enough, none, or any.
fn room(r: &mut Random, need: u32, enough: usize) -> u16 {
    let any = r.range(0, enough as u32 + 10);
    r.pick(&[need, need, need.max(1) - 1, need + 1, enough as u32, 0, any]) as u16
}

fn reader_input(r: &mut Random) -> Vec<u8> {
    let input = program_input(r);
    let side = r.below(2);
    let (old, new) = input.split_at(input.len().min(BLOCK));
    let block = [old, new][side as usize];
    let wanted = r.pick(&[side, side, side, side, side, 1 - side, 2, 255]);
    let need = ENTRY as u32 * block.get(3).map_or(0, |&n| n as u32);
    let room = room(r, need, ENTRY * MOST);
    [&[wanted as u8][..], &room.to_le_bytes(), block].concat()
}

fn writer_input(r: &mut Random) -> Vec<u8> {
    let mut s = small(r);
    if r.percent(10) {
        s = Shape { count: [r.range(28, 32), r.range(28, 32)], priorities: 256, ..s };
    }
    let pair = random_pair(r, s);
    let side = r.below(2);
    let tasks = if side == 0 { &pair.old } else { &pair.new };
    let mut list: Vec<u32> = tasks.iter().flat_map(Task::list).collect();
    let places = list.len() as u32;
    if places > 0 {
        for _ in 0..r.pick(&[0, 0, 1, 1, 2]) {
            let (p, q) = (r.below(places) as usize, r.below(places) as usize);
            let v = list[p];
            list[p] = r.pick(&[
                0,
                1,
                2,
                3,
                v.wrapping_sub(1),
                v + 1,
                v + 65_536,
                255,
                256,
                65_535,
                65_536,
                u32::MAX,
                list[q],
            ]);
            // A number or a priority doubled.
            let same = q / ENTRY * ENTRY + p % ENTRY;
            if r.percent(30) {
                list[same] = list[p];
            }
        }
    }
    if r.percent(8) {
        list.resize(r.range(0, (ENTRY * MOST) as u32 + 20) as usize, 1);
    }
    let side = r.pick(&[side, side, side, side, side, side, 1 - side, 2, 255]) as u8;
    let (any, whole) = (r.range(0, 600), BLOCK as u32);
    let room = r.pick(&[whole, whole, whole, whole, whole, whole, whole - 1, whole + 1, 0, any]) as u16;
    let mut input = [&[side][..], &(pair.modes[0] as u16).to_le_bytes(), &room.to_le_bytes()].concat();
    list.iter().for_each(|v| input.extend(v.to_le_bytes()));
    input
}

fn analysis_input(r: &mut Random) -> Vec<u8> {
    let input = program_input(r);
    let count = |at: usize| input.get(at).map_or(0, |&n| n as u32);
    let room = room(r, ROW as u32 * (count(3) + count(BLOCK + 3)), ROW * 2 * MOST);
    let split = input.len().min(BLOCK) as u16;
    [&room.to_le_bytes()[..], &split.to_le_bytes(), &input].concat()
}
