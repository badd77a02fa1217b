//! Fitting a rule, from draft to plan: the proved library beside the same algorithm in plain Rust, alternating in one process.
//! Ends with status 1 where the two do not answer the same.
mod plain;

use std::hint::black_box;
use std::process::exit;
use std::time::Instant;

// ---- the library's functions

#[repr(C)]
#[derive(Clone, Copy, Debug, PartialEq)]
struct Told {
    number: u8,
    states: usize,
    moves: usize,
    last: u8,
}

#[repr(C)]
#[derive(Clone, Copy, Debug, PartialEq)]
struct Planned {
    number: u8,
    cost: u64,
    behind: usize,
    nodes: usize,
    top: u16,
    live: u32,
    safe: u32,
    starts: u32,
    release: u32,
}

#[repr(C)]
#[derive(Clone, Copy, Debug, PartialEq)]
struct FlatNode {
    line: u8,
    on: u16,
    off: u16,
    set: u32,
}

extern "C" {
    fn rattle_check(file: *const u8, len: usize) -> Told;
    fn rattle_read(file: *const u8, len: usize) -> Told;
    fn rattle_plan(file: *const u8, len: usize) -> Planned;
    fn rattle_nodes(file: *const u8, len: usize, costs: &mut [u64; 32], tops: &mut [u16; 32], nodes: *mut FlatNode, nodes_len: usize) -> u8;
}

const BLANK: FlatNode = FlatNode { line: 6, on: 0, off: 0, set: 0 };

/// What fitting leaves: a refusal's number, the costs, the tops and the nodes.
#[derive(Debug, PartialEq)]
struct Fitted {
    number: u8,
    costs: [u64; 32],
    tops: [u16; 32],
    nodes: Vec<FlatNode>,
}

fn proved_check(file: &[u8]) -> Told {
    unsafe { rattle_check(file.as_ptr(), file.len()) }
}

fn proved_read(file: &[u8]) -> Told {
    unsafe { rattle_read(file.as_ptr(), file.len()) }
}

fn proved_plan(file: &[u8]) -> Planned {
    unsafe { rattle_plan(file.as_ptr(), file.len()) }
}

fn proved_fit(file: &[u8]) -> Fitted {
    let mut fitted = Fitted { number: 0, costs: [0; 32], tops: [0; 32], nodes: vec![BLANK; plain::MOST] };
    fitted.number = unsafe {
        rattle_nodes(file.as_ptr(), file.len(), &mut fitted.costs, &mut fitted.tops, fitted.nodes.as_mut_ptr(), fitted.nodes.len())
    };
    fitted
}

// ---- the same in plain Rust

#[inline(never)]
fn plain_check(file: &[u8]) -> Told {
    let mut states = [plain::NO_STATE; plain::STATES];
    let mut moves = [plain::NO_MOVE; plain::MOVES];
    match plain::check_rule(file, &mut states, &mut moves) {
        Ok((n, m)) => Told { number: 0, states: n, moves: m, last: moves[plain::MOVES - 1].to },
        Err(fault) => Told { number: fault.number, states: 0, moves: 0, last: 0 },
    }
}

#[inline(never)]
fn plain_read(file: &[u8]) -> Told {
    let mut states = [plain::NO_STATE; plain::STATES];
    let mut moves = [plain::NO_MOVE; plain::MOVES];
    if let Err(fault) = plain::check_rule(file, &mut states, &mut moves) {
        return Told { number: fault.number, states: 0, moves: 0, last: 0 };
    }
    let draft = plain::make_draft(file, &states, &moves).expect("the records are the file's");
    Told { number: 0, states: draft.states.len(), moves: draft.moves.len(), last: moves[plain::MOVES - 1].to }
}

#[inline(never)]
fn plain_plan(file: &[u8]) -> Planned {
    let mut states = [plain::NO_STATE; plain::STATES];
    let mut moves = [plain::NO_MOVE; plain::MOVES];
    if let Err(fault) = plain::check_rule(file, &mut states, &mut moves) {
        return Planned { number: fault.number, cost: 0, behind: 0, nodes: 0, top: 0, live: 0, safe: 0, starts: 0, release: 0 };
    }
    let draft = plain::make_draft(file, &states, &moves).expect("the records are the file's");
    let mut nodes = [plain::Node::Leaf { set: 0 }; plain::MOST];
    let told = plain::fit(&plain::Expected, &draft, &mut nodes).expect("there is room");
    // the draft again, since the library's export makes it twice too
    let draft = plain::make_draft(file, &states, &moves).expect("the records are the file's");
    let plan = plain::make_plan(&plain::Expected, draft, &nodes).expect("the nodes are as fitting leaves them");
    Planned {
        number: 0,
        cost: told.costs[0],
        behind: told.behind,
        nodes: plan.nodes.len(),
        top: plan.tops[31],
        live: plan.live,
        safe: plan.safe,
        starts: plan.starts,
        release: plan.release,
    }
}

fn plain_fit(file: &[u8]) -> Fitted {
    let mut fitted = Fitted { number: 0, costs: [0; 32], tops: [0; 32], nodes: vec![BLANK; plain::MOST] };
    let mut states = [plain::NO_STATE; plain::STATES];
    let mut moves = [plain::NO_MOVE; plain::MOVES];
    if let Err(fault) = plain::check_rule(file, &mut states, &mut moves) {
        fitted.number = fault.number;
        return fitted;
    }
    let draft = plain::make_draft(file, &states, &moves).expect("the records are the file's");
    let mut nodes = [plain::Node::Leaf { set: 0 }; plain::MOST];
    let told = plain::fit(&plain::Expected, &draft, &mut nodes).expect("there is room");
    fitted.costs = told.costs;
    fitted.tops = told.tops;
    for (flat, node) in fitted.nodes.iter_mut().zip(nodes) {
        *flat = match node {
            plain::Node::Fork { line, on, off } => FlatNode { line, on, off, set: 0 },
            plain::Node::Leaf { set } => FlatNode { set, ..BLANK },
        };
    }
    fitted
}

// ---- rules

/// A small generator of numbers, always the same from the same seed.
struct Random(u64);

impl Random {
    fn below(&mut self, n: u64) -> u64 {
        self.0 ^= self.0 << 13;
        self.0 ^= self.0 >> 7;
        self.0 ^= self.0 << 17;
        (self.0.wrapping_mul(0x2545_F491_4F6C_DD1D) >> 11) % n
    }
}

fn put(file: &mut Vec<u8>, number: usize) {
    let mut rest = number;
    while rest >= 128 {
        file.push((rest % 128 + 128) as u8);
        rest /= 128;
    }
    file.push(rest as u8);
}

/// The bytes of a rule whose cards have no names.
fn encode(lines: &[(usize, usize); 6], flags: &[usize], moves: &mut Vec<(usize, usize, usize)>) -> Vec<u8> {
    moves.sort_unstable();
    moves.dedup();
    let mut file = vec![1];
    for &(cost, chance) in lines {
        put(&mut file, cost);
        put(&mut file, chance);
        put(&mut file, 0);
    }
    put(&mut file, flags.len());
    for &flag in flags {
        put(&mut file, flag);
        put(&mut file, 0);
    }
    put(&mut file, moves.len());
    for &(from, cell, to) in moves.iter() {
        put(&mut file, from);
        put(&mut file, cell);
        put(&mut file, to);
    }
    file
}

/// The cell that covers one event alone.
fn cell_of(event: usize) -> usize {
    (0..6).map(|line| if event >> line & 1 == 1 { 1 } else { 2 } * 3usize.pow(line)).sum()
}

fn lines_of(r: &mut Random) -> [(usize, usize); 6] {
    std::array::from_fn(|_| (1 + r.below(1000) as usize, r.below(101) as usize))
}

/// The largest rule: 32 states, each with 32 moves, to a random state on each event with an even (or an odd) count of lines that are on. Neighbouring
/// events then never have the same set, so that every tree has all 127 nodes.
fn largest(r: &mut Random) -> Vec<u8> {
    let lines = lines_of(r);
    let flags: Vec<usize> = (0..32).map(|q| if q == 0 { 3 } else { 2 }).collect();
    let mut moves = Vec::new();
    for q in 0..32 {
        let odd = r.below(2) as u32;
        for event in (0..64usize).filter(|e| e.count_ones() % 2 == odd) {
            moves.push((q, cell_of(event), r.below(32) as usize));
        }
    }
    encode(&lines, &flags, &mut moves)
}

/// A rule of random moves: each cell fixes each line with a chance of two in three, up to `fixed` lines.
fn random_rule(r: &mut Random, states: u64, count: u64, fixed: usize) -> Vec<u8> {
    let lines = lines_of(r);
    let flags: Vec<usize> = (0..states).map(|q| if q == 0 { 1 + 2 * r.below(2) as usize } else { r.below(4) as usize }).collect();
    let mut moves = Vec::new();
    for _ in 0..count {
        let (mut cell, mut left) = (0, fixed);
        for line in 0..6 {
            let digit = r.below(3) as usize;
            if digit != 0 && left > 0 {
                cell += digit * 3usize.pow(line);
                left -= 1;
            }
        }
        moves.push((r.below(states) as usize, cell, r.below(states) as usize));
    }
    encode(&lines, &flags, &mut moves)
}

/// A rule of 12 states and 96 moves, or a few less where two are the same.
fn middling(r: &mut Random) -> Vec<u8> {
    random_rule(r, 12, 96, 3)
}

// ---- agreement

/// Ends the program where the two sides do not answer the same.
fn agree(name: &str, file: &[u8]) -> Fitted {
    let checked = (proved_check(file), plain_check(file));
    let told = (proved_read(file), plain_read(file));
    let planned = (proved_plan(file), plain_plan(file));
    let fitted = (proved_fit(file), plain_fit(file));
    if checked.0 != checked.1 || told.0 != told.1 || checked.0 != told.0 || planned.0 != planned.1 || fitted.0 != fitted.1 {
        eprintln!("{name}: the answers differ");
        eprintln!("  proved: {:?} {:?} {:?}", checked.0, told.0, planned.0);
        eprintln!("  Rust:   {:?} {:?} {:?}", checked.1, told.1, planned.1);
        let (a, b) = fitted;
        if let Some(q) = (0..32).find(|&q| (a.costs[q], a.tops[q]) != (b.costs[q], b.tops[q])) {
            eprintln!("  state {q}: cost and top {} {}, in Rust {} {}", a.costs[q], a.tops[q], b.costs[q], b.tops[q]);
        }
        if let Some(i) = (0..a.nodes.len()).find(|&i| a.nodes[i] != b.nodes[i]) {
            eprintln!("  place {i}: {:?}, in Rust {:?}", a.nodes[i], b.nodes[i]);
        }
        exit(1);
    }
    fitted.0
}

/// Rules of all sizes, and each of them with one byte changed or cut short.
fn agree_on_many(r: &mut Random) {
    let (mut good, mut refused) = (0, 0);
    for i in 0..600 {
        let file = if i % 20 == 0 {
            largest(r)
        } else {
            let states = 1 + r.below(32);
            let count = r.below(1 + 10 * states);
            let fixed = r.below(7) as usize;
            random_rule(r, states, count, fixed)
        };
        let mut turned = file.clone();
        let at = r.below(file.len() as u64) as usize;
        turned[at] = r.below(256) as u8;
        for file in [&file[..], &turned, &file[..at]] {
            if agree("a random rule", file).number == 0 { good += 1 } else { refused += 1 }
        }
    }
    println!("answers: {good} rules with the same costs, tops and nodes, {refused} files with the same refusal");
}

// ---- times

/// How many rounds run before the first that counts.
const WARM: usize = 20;

/// The middle one and the least of some times, in microseconds.
#[derive(Clone, Copy)]
struct Summary {
    mid: f64,
    min: f64,
}

fn summary(mut times: Vec<f64>) -> Summary {
    times.sort_by(f64::total_cmp);
    Summary { mid: times[times.len() / 2], min: times[0] }
}

fn timed<T: PartialEq>(file: &[u8], run: fn(&[u8]) -> T, expected: &T) -> f64 {
    let begin = Instant::now();
    let answer = black_box(run(black_box(file)));
    let time = begin.elapsed().as_secs_f64() * 1e6;
    if answer != *expected {
        eprintln!("an answer changed between rounds");
        exit(1);
    }
    time
}

fn compare(name: &str, file: &[u8], rounds: usize) {
    let fitted = agree(name, file);
    let (told, planned) = (plain_read(file), plain_plan(file));
    if told.number != 0 {
        eprintln!("{name}: refused with {}", told.number);
        exit(1);
    }
    println!("{name}: {} states, {} moves, {} nodes, {} bytes, cost of state 0: {}", told.states, told.moves, planned.behind, file.len(), fitted.costs[0]);
    // 0: proved, 1: plain; the one that begins changes from round to round
    let mut checks = [Vec::new(), Vec::new()];
    let mut reads = [Vec::new(), Vec::new()];
    let mut plans = [Vec::new(), Vec::new()];
    for round in 0..rounds + WARM {
        for i in 0..2 {
            let side = (round + i) % 2;
            let (check, read, plan) = if side == 0 {
                (timed(file, proved_check, &told), timed(file, proved_read, &told), timed(file, proved_plan, &planned))
            } else {
                (timed(file, plain_check, &told), timed(file, plain_read, &told), timed(file, plain_plan, &planned))
            };
            if round >= WARM {
                checks[side].push(check);
                reads[side].push(read);
                plans[side].push(plan);
            }
        }
    }
    let checks = checks.map(summary);
    let reads = reads.map(summary);
    let plans = plans.map(summary);
    // a plan takes a check, two makings of the draft, and the way from draft to plan; the differences are of the figures, not of single rounds, so that
    // a round in which another process had the processor spoils none
    let fits = [0, 1].map(|side| {
        let way = |plan: f64, read: f64, check: f64| plan - read - (read - check);
        Summary {
            mid: way(plans[side].mid, reads[side].mid, checks[side].mid),
            min: way(plans[side].min, reads[side].min, checks[side].min),
        }
    });
    println!("  {:16} {:>12} {:>12} {:>12} {:>12} {:>10} {:>10}", "microseconds", "proved, mid", "proved, min", "Rust, mid", "Rust, min", "ratio, mid", "ratio, min");
    for (what, [proved, plain]) in [("file to draft", reads), ("draft to plan", fits)] {
        println!(
            "  {what:16} {:12.1} {:12.1} {:12.1} {:12.1} {:10.3} {:10.3}",
            proved.mid, proved.min, plain.mid, plain.min, proved.mid / plain.mid, proved.min / plain.min
        );
    }
}

/// One side alone, for a profile: `bench profile proved 100`.
fn profile(side: &str, rounds: usize, file: &[u8]) {
    let run = if side == "proved" { proved_plan } else { plain_plan };
    let mut sum = 0u64;
    for _ in 0..rounds {
        sum = sum.wrapping_add(black_box(run(black_box(file))).cost);
    }
    println!("{side}: {rounds} rounds, {sum}");
}

fn main() {
    let mut r = Random(88_172_645_463_325_252);
    let largest = largest(&mut r);
    let middling = middling(&mut r);
    let args: Vec<String> = std::env::args().skip(1).collect();
    if let [word, side, rounds] = &args[..] {
        if word == "profile" {
            return profile(side, rounds.parse().unwrap_or(1), &largest);
        }
    }
    let rounds = args.first().and_then(|a| a.parse().ok()).unwrap_or(200).max(1);
    agree_on_many(&mut r);
    let planned = plain_plan(&largest);
    if planned.behind != plain::MOST || proved_read(&largest) != (Told { number: 0, states: 32, moves: 1024, last: plain_check(&largest).last }) {
        eprintln!("the largest rule is not the largest: {planned:?}");
        exit(1);
    }
    println!("{rounds} rounds, the two sides in turn; ratios are proved over Rust");
    compare("largest rule", &largest, rounds);
    compare("middling rule", &middling, rounds);
}
