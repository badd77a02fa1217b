//! Reading a rule, fitting it and making its plan in plain safe Rust: the algorithm of the proved crates, loop for loop and table for table,
//! written as a Rust programmer would. It is the other side of the comparison, and nothing else uses it.

pub const LINES: usize = 6;
pub const EVENTS: usize = 64;
pub const STATES: usize = 32;
pub const MOVES: usize = 1024;
pub const CELLS: usize = 729;
/// How many nodes suffice for every rule: 127 for each of 32 states.
pub const MOST: usize = 4064;

const WEIGHTS: [u16; LINES] = [1, 3, 9, 27, 81, 243];
const HUNDREDS: [u64; LINES + 1] = [1, 100, 10_000, 1_000_000, 100_000_000, 10_000_000_000, 1_000_000_000_000];

const fn covered() -> [u64; CELLS] {
    let mut table = [0; CELLS];
    let mut cell = 0;
    while cell < CELLS {
        let mut event = 0;
        while event < EVENTS {
            let (mut rest, mut line, mut agrees) = (cell, 0, true);
            while line < LINES {
                let on = event >> line & 1 == 1;
                agrees = agrees && match rest % 3 { 0 => true, 1 => on, _ => !on };
                rest /= 3;
                line += 1;
            }
            if agrees {
                table[cell] |= 1 << event;
            }
            event += 1;
        }
        cell += 1;
    }
    table
}

/// The events that each cell covers, bit e for the event e.
static COVERED: [u64; CELLS] = covered();

// ---- records

#[derive(Clone, Copy, Debug, PartialEq)]
pub struct Line {
    pub cost: u16,
    pub chance: u8,
}

#[derive(Clone, Copy, Debug, PartialEq)]
pub struct Name {
    pub at: usize,
    pub len: usize,
}

#[derive(Clone, Copy, Debug, PartialEq)]
pub struct LineRecord {
    pub line: Line,
    pub name: Name,
}

#[derive(Clone, Copy, Debug, PartialEq)]
pub struct StateRecord {
    pub start: bool,
    pub accepting: bool,
    pub name: Name,
}

#[derive(Clone, Copy, Debug, PartialEq)]
pub struct Move {
    pub from: u8,
    pub cell: u16,
    pub to: u8,
}

pub const NO_LINE: LineRecord = LineRecord { line: Line { cost: 1, chance: 0 }, name: Name { at: 0, len: 0 } };
pub const NO_STATE: StateRecord = StateRecord { start: false, accepting: false, name: Name { at: 0, len: 0 } };
pub const NO_MOVE: Move = Move { from: 0, cell: 0, to: 0 };

#[derive(Clone, Copy, Debug, PartialEq)]
pub enum Node {
    Fork { line: u8, on: u16, off: u16 },
    Leaf { set: u32 },
}

// ---- reading

/// Why a file is refused: a number, and the place that it is about.
#[derive(Clone, Copy, Debug, PartialEq)]
pub struct Fault {
    pub number: u8,
    pub place: usize,
}

fn fault<T>(number: u8, place: usize) -> Result<T, Fault> {
    Err(Fault { number, place })
}

/// The number that begins at `at`, in one to three bytes, and the place behind it.
fn read_number(file: &[u8], at: usize) -> Result<(u32, usize), Fault> {
    let Some(&first) = file.get(at) else { return fault(11, file.len()) };
    if first < 128 {
        return Ok((u32::from(first), at + 1));
    }
    let Some(&second) = file.get(at + 1) else { return fault(11, file.len()) };
    if second == 0 {
        return fault(12, at);
    }
    let low = u32::from(first) - 128 + 128 * (u32::from(second) % 128);
    if second < 128 {
        return Ok((low, at + 2));
    }
    let Some(&third) = file.get(at + 2) else { return fault(11, file.len()) };
    if third == 0 || third >= 128 {
        return fault(12, at);
    }
    Ok((low + 16384 * u32::from(third), at + 3))
}

fn read_field(file: &[u8], at: usize, low: u32, high: u32) -> Result<(u32, usize), Fault> {
    let (value, next) = read_number(file, at)?;
    if value < low || high < value {
        return fault(13, at);
    }
    Ok((value, next))
}

fn read_name(file: &[u8], at: usize) -> Result<(Name, usize), Fault> {
    let (len, start) = read_field(file, at, 0, 16)?;
    let len = len as usize;
    for place in start..start + len {
        match file.get(place) {
            None => return fault(11, file.len()),
            Some(33..=126) => {}
            Some(_) => return fault(14, place),
        }
    }
    Ok((Name { at: start, len }, start + len))
}

fn read_line(file: &[u8], at: usize) -> Result<(LineRecord, usize), Fault> {
    let (cost, next) = read_field(file, at, 1, 1000)?;
    let (chance, next) = read_field(file, next, 0, 100)?;
    let (name, next) = read_name(file, next)?;
    Ok((LineRecord { line: Line { cost: cost as u16, chance: chance as u8 }, name }, next))
}

fn read_state(file: &[u8], at: usize) -> Result<(StateRecord, usize), Fault> {
    let (flags, next) = read_field(file, at, 0, 3)?;
    let (name, next) = read_name(file, next)?;
    Ok((StateRecord { start: flags % 2 == 1, accepting: 2 <= flags, name }, next))
}

/// The next move, which stands above the last one.
fn read_move(file: &[u8], at: usize, states: u32, last: Option<Move>) -> Result<(Move, usize), Fault> {
    let (from, next) = read_field(file, at, 0, states - 1)?;
    let (cell, next) = read_field(file, next, 0, 728)?;
    let (to, next) = read_field(file, next, 0, states - 1)?;
    let read = Move { from: from as u8, cell: cell as u16, to: to as u8 };
    if let Some(last) = last {
        if (last.from, last.cell, last.to) >= (read.from, read.cell, read.to) {
            return fault(15, at);
        }
    }
    Ok((read, next))
}

/// Where a good file's parts lie.
struct Outline {
    lines: [LineRecord; LINES],
    states: u32,
    states_at: usize,
    moves: u32,
    moves_at: usize,
}

/// The first pass over a file, which writes nothing.
fn scan(file: &[u8]) -> Result<Outline, Fault> {
    let (_, mut next) = read_field(file, 0, 1, 1)?;
    let mut lines = [NO_LINE; LINES];
    for line in lines.iter_mut() {
        (*line, next) = read_line(file, next)?;
    }
    let counted_at = next;
    let (states, states_at) = read_field(file, next, 1, STATES as u32)?;
    next = states_at;
    let mut start = false;
    for _ in 0..states {
        let (state, after) = read_state(file, next)?;
        start |= state.start;
        next = after;
    }
    if !start {
        return fault(17, counted_at);
    }
    let (moves, moves_at) = read_field(file, next, 0, MOVES as u32)?;
    next = moves_at;
    let mut last = None;
    for _ in 0..moves {
        let (read, after) = read_move(file, next, states, last)?;
        last = Some(read);
        next = after;
    }
    if next < file.len() {
        return fault(16, next);
    }
    Ok(Outline { lines, states, states_at, moves, moves_at })
}

/// Checks the file, writes its states and moves over the fronts of the lists, and answers how many there are.
pub fn check_rule(file: &[u8], states: &mut [StateRecord; STATES], moves: &mut [Move; MOVES]) -> Result<(usize, usize), Fault> {
    let outline = scan(file)?;
    let mut next = outline.states_at;
    for state in &mut states[..outline.states as usize] {
        (*state, next) = read_state(file, next)?;
    }
    let mut last = None;
    next = outline.moves_at;
    for m in &mut moves[..outline.moves as usize] {
        (*m, next) = read_move(file, next, outline.states, last)?;
        last = Some(*m);
    }
    Ok((outline.states as usize, outline.moves as usize))
}

/// What reading a good file gives.
pub struct Draft<'a> {
    pub lines: [LineRecord; LINES],
    pub states: &'a [StateRecord],
    pub moves: &'a [Move],
}

/// The draft of a good file whose records the lists begin with; else none.
pub fn make_draft<'a>(file: &[u8], states: &'a [StateRecord], moves: &'a [Move]) -> Option<Draft<'a>> {
    let outline = scan(file).ok()?;
    let states = states.get(..outline.states as usize)?;
    let moves = moves.get(..outline.moves as usize)?;
    let mut next = outline.states_at;
    for state in states {
        let (read, after) = read_state(file, next).ok()?;
        if *state != read {
            return None;
        }
        next = after;
    }
    let mut last = None;
    next = outline.moves_at;
    for m in moves {
        let (read, after) = read_move(file, next, outline.states, last).ok()?;
        if *m != read {
            return None;
        }
        last = Some(read);
        next = after;
    }
    Some(Draft { lines: outline.lines, states, moves })
}

// ---- pruning

pub struct Pruning<'d> {
    moves: &'d [Move],
    pub live: u32,
    pub safe: u32,
}

/// The states from which moves, or none, lead into the set.
fn reaching(edges: &[u32; STATES], seed: u32) -> u32 {
    let mut set = seed;
    loop {
        let mut next = 0;
        for (q, targets) in edges.iter().enumerate() {
            if set >> q & 1 == 1 || targets & set != 0 {
                next |= 1 << q;
            }
        }
        if next == set {
            return set;
        }
        set = next;
    }
}

fn live_states(draft: &Draft) -> u32 {
    let mut edges = [0u32; STATES];
    for m in draft.moves {
        edges[usize::from(m.from)] |= 1 << m.to;
    }
    let mut turning = 0;
    for (q, state) in draft.states.iter().enumerate() {
        if state.accepting && edges[q] & reaching(&edges, 1 << q) != 0 {
            turning |= 1 << q;
        }
    }
    reaching(&edges, turning)
}

fn safe_states(moves: &[Move], live: u32) -> u32 {
    let mut set = live;
    loop {
        let mut next = 0;
        for q in 0..STATES {
            if set >> q & 1 == 0 {
                continue;
            }
            let mut events = 0;
            for m in moves {
                if usize::from(m.from) == q && set >> m.to & 1 == 1 {
                    events |= COVERED[usize::from(m.cell)];
                }
            }
            if events == u64::MAX {
                next |= 1 << q;
            }
        }
        if next == set {
            return set;
        }
        set = next;
    }
}

impl<'d> Pruning<'d> {
    pub fn of(draft: &Draft<'d>) -> Pruning<'d> {
        let live = live_states(draft);
        let safe = safe_states(draft.moves, live);
        Pruning { moves: draft.moves, live, safe }
    }

    pub fn release(&self) -> u32 {
        self.safe & self.safe.wrapping_neg()
    }

    /// The pruned sets of a state, by event: one pass over the moves.
    pub fn sets(&self, state: u8) -> [u32; EVENTS] {
        if self.safe >> state & 1 == 1 {
            return [(1 << state) & self.release(); EVENTS];
        }
        let mut sets = [0; EVENTS];
        if self.live >> state & 1 == 0 {
            return sets;
        }
        for m in self.moves {
            if m.from != state || self.live >> m.to & 1 == 0 {
                continue;
            }
            let target = if self.safe >> m.to & 1 == 1 { self.release() } else { 1 << m.to };
            let mut rest = COVERED[usize::from(m.cell)];
            while rest != 0 {
                sets[rest.trailing_zeros() as usize] |= target;
                rest &= rest - 1;
            }
        }
        sets
    }
}

// ---- fitting

fn is_constant(sets: &[u32; EVENTS], cell: u16) -> bool {
    let mut rest = COVERED[usize::from(cell)];
    let first = sets[rest.trailing_zeros() as usize];
    while rest != 0 {
        if sets[rest.trailing_zeros() as usize] != first {
            return false;
        }
        rest &= rest - 1;
    }
    true
}

/// What a fork is priced at.
pub trait Measure {
    fn price(&self, line: Line, unpolled: u8, on: u64, off: u64) -> u64;
}

pub struct Expected;

impl Measure for Expected {
    fn price(&self, line: Line, unpolled: u8, on: u64, off: u64) -> u64 {
        let p = u64::from(line.chance);
        u64::from(line.cost) * HUNDREDS[usize::from(unpolled)] + p * on + (100 - p) * off
    }
}

fn is_free(cell: u16, line: u8) -> bool {
    cell / WEIGHTS[usize::from(line)] % 3 == 0
}

fn free_lines(cell: u16) -> u8 {
    let (mut rest, mut count) = (cell, 0);
    for _ in 0..LINES {
        if rest % 3 == 0 {
            count += 1;
        }
        rest /= 3;
    }
    count
}

/// The lowest free line whose fork has the least price, and that price.
fn best_fork<M: Measure>(measure: &M, lines: &[Line; LINES], costs: &[u64; CELLS], cell: u16) -> (u8, u64) {
    let unpolled = free_lines(cell);
    let mut best = (LINES as u8, 0);
    for line in 0..LINES as u8 {
        if is_free(cell, line) {
            let weight = WEIGHTS[usize::from(line)];
            let on = costs[usize::from(cell + weight)];
            let off = costs[usize::from(cell + 2 * weight)];
            let price = measure.price(lines[usize::from(line)], unpolled, on, off);
            if best.0 == LINES as u8 || price < best.1 {
                best = (line, price);
            }
        }
    }
    best
}

fn write_tree(chosen: &[u8; CELLS], sets: &[u32; EVENTS], cell: u16, nodes: &mut [Node], place: usize) -> usize {
    let line = chosen[usize::from(cell)];
    if usize::from(line) >= LINES {
        nodes[place] = Node::Leaf { set: sets[COVERED[usize::from(cell)].trailing_zeros() as usize] };
        return place + 1;
    }
    let weight = WEIGHTS[usize::from(line)];
    let off = write_tree(chosen, sets, cell + weight, nodes, place + 1);
    let end = write_tree(chosen, sets, cell + 2 * weight, nodes, off);
    nodes[place] = Node::Fork { line, on: (place + 1) as u16, off: off as u16 };
    end
}

/// Writes the best tree of a state from a place on; answers the place behind it, and its cost.
fn fit_state<M: Measure>(measure: &M, lines: &[Line; LINES], sets: &[u32; EVENTS], nodes: &mut [Node], place: usize) -> (usize, u64) {
    let mut costs = [0; CELLS];
    let mut chosen = [0; CELLS];
    for cell in (0..CELLS as u16).rev() {
        let (line, cost) = if is_constant(sets, cell) { (LINES as u8, 0) } else { best_fork(measure, lines, &costs, cell) };
        costs[usize::from(cell)] = cost;
        chosen[usize::from(cell)] = line;
    }
    (write_tree(&chosen, sets, 0, nodes, place), costs[0])
}

pub struct Fitting {
    pub costs: [u64; STATES],
    pub tops: [u16; STATES],
    pub states: usize,
    pub behind: usize,
}

/// Fits the states of a draft, in their order, from place 0 on.
pub fn fit<M: Measure>(measure: &M, draft: &Draft, nodes: &mut [Node]) -> Option<Fitting> {
    if nodes.len() < MOST {
        return None;
    }
    let pruning = Pruning::of(draft);
    let lines = draft.lines.map(|record| record.line);
    let mut told = Fitting { costs: [0; STATES], tops: [0; STATES], states: draft.states.len(), behind: 0 };
    for q in 0..told.states {
        told.tops[q] = told.behind as u16;
        let sets = pruning.sets(q as u8);
        (told.behind, told.costs[q]) = fit_state(measure, &lines, &sets, nodes, told.behind);
    }
    Some(told)
}

// ---- plans

#[allow(dead_code)] // a watch would read the draft and the lines
pub struct Plan<'a> {
    pub draft: Draft<'a>,
    pub nodes: &'a [Node],
    pub tops: [u16; STATES],
    pub lines: [Line; LINES],
    pub live: u32,
    pub safe: u32,
    pub starts: u32,
    pub release: u32,
}

/// The plan of a draft over nodes that are as fitting leaves them; else none. It fits again, and compares.
pub fn make_plan<'a, M: Measure>(measure: &M, draft: Draft<'a>, nodes: &'a [Node]) -> Option<Plan<'a>> {
    let mut scratch = [Node::Leaf { set: 0 }; MOST];
    let told = fit(measure, &draft, &mut scratch)?;
    if scratch[..told.behind] != *nodes.get(..told.behind)? {
        return None;
    }
    let pruning = Pruning::of(&draft);
    let mut starts = 0;
    for (q, state) in draft.states.iter().enumerate() {
        if state.start {
            starts |= 1 << q;
        }
    }
    let lines = draft.lines.map(|record| record.line);
    let (live, safe, release) = (pruning.live, pruning.safe, pruning.release());
    Some(Plan { draft, nodes, tops: told.tops, lines, live, safe, starts, release })
}
