//! The labeller in plain Rust: the same tables, the same checks and the same steps as the crates of this repository.

pub const MODE_LIMIT: u8 = 64;
pub const COMMAND_LIMIT: u8 = 16;
pub const FLAG_LIMIT: u8 = 16;
pub const ROW_LIMIT: usize = 48;

/// The bytes of a set: a bit for each of 64 modes.
const SET_BYTES: usize = 8;

/// A set of modes for each of 64 modes: the arcs of one command, or the block of one row.
const BLOCK_BYTES: usize = MODE_LIMIT as usize * SET_BYTES;

/// Where a graph's arcs begin, after a set of modes for each flag.
const ARCS_START: usize = FLAG_LIMIT as usize * SET_BYTES;

/// The bytes of a graph's table.
pub const GRAPH_BYTES: usize = ARCS_START + COMMAND_LIMIT as usize * BLOCK_BYTES;

/// The bytes of a label table.
pub const LABEL_BYTES: usize = ROW_LIMIT * BLOCK_BYTES;

/// Why nothing is labelled.
#[derive(Clone, Copy)]
pub enum Refusal {
    NoRows,
    MemoryShort,
    Unfit,
    LimitBroken,
}

impl Refusal {
    pub fn number(self) -> u8 {
        match self {
            Refusal::NoRows => 1,
            Refusal::MemoryShort => 9,
            Refusal::Unfit => 14,
            Refusal::LimitBroken => 16,
        }
    }
}

/// One row of a sheet. Its parts are rows before it, by their numbers.
#[derive(Clone, Copy)]
pub enum Row {
    Never,
    Flag(u8),
    Not(u8),
    Both(u8, u8),
    Either(u8, u8),
    Implies(u8, u8),
    Box(u8, u8),
    Diamond(u8, u8),
    Command(u8),
    Sequence(u8, u8),
    Choice(u8, u8),
    Repetition(u8),
    Converse(u8),
    Test(u8),
}

impl Row {
    fn from_bytes(letter: u8, x: u8, y: u8) -> Option<Row> {
        Some(match letter {
            b'O' => Row::Never,
            b'P' => Row::Flag(x),
            b'N' => Row::Not(x),
            b'K' => Row::Both(x, y),
            b'A' => Row::Either(x, y),
            b'C' => Row::Implies(x, y),
            b'L' => Row::Box(x, y),
            b'M' => Row::Diamond(x, y),
            b'd' => Row::Command(x),
            b's' => Row::Sequence(x, y),
            b'u' => Row::Choice(x, y),
            b'r' => Row::Repetition(x),
            b'b' => Row::Converse(x),
            b't' => Row::Test(x),
            _ => return None,
        })
    }

    fn is_formula(self) -> bool {
        matches!(
            self,
            Row::Never
                | Row::Flag(_)
                | Row::Not(_)
                | Row::Both(..)
                | Row::Either(..)
                | Row::Implies(..)
                | Row::Box(..)
                | Row::Diamond(..)
        )
    }
}

/// The rows that bytes mean, three for each.
fn rows_of(bytes: &[u8]) -> Result<Vec<Row>, Refusal> {
    let mut rows = Vec::with_capacity(ROW_LIMIT);
    let mut rest = bytes;
    while let [letter, x, y, others @ ..] = rest {
        let row = Row::from_bytes(*letter, *x, *y).ok_or(Refusal::NoRows)?;
        if rows.len() == ROW_LIMIT {
            return Err(Refusal::NoRows);
        }
        rows.push(row);
        rest = others;
    }
    if rest.is_empty() {
        Ok(rows)
    } else {
        Err(Refusal::NoRows)
    }
}

/// Whether mode v is in the set that begins at byte `at`.
fn contains(bytes: &[u8], at: usize, v: u8) -> bool {
    (bytes[at + usize::from(v / 8)] >> (v % 8)) & 1 == 1
}

/// Puts mode v into the set that begins at byte `at`.
fn insert(bytes: &mut [u8], at: usize, v: u8) {
    bytes[at + usize::from(v / 8)] |= 1 << (v % 8);
}

/// Joins the set at `from` to the set at `to`.
fn join(bytes: &mut [u8], to: usize, from: usize) {
    let mut set = [0; SET_BYTES];
    set.copy_from_slice(&bytes[from..from + SET_BYTES]);
    for (byte, more) in bytes[to..to + SET_BYTES].iter_mut().zip(set) {
        *byte |= more;
    }
}

/// The bytes of two sets, side by side.
fn pairs(bytes: &[u8], a: usize, b: usize) -> impl Iterator<Item = (&u8, &u8)> {
    bytes[a..a + SET_BYTES].iter().zip(&bytes[b..b + SET_BYTES])
}

/// Whether every mode of the first set is in the second.
fn is_subset(bytes: &[u8], a: usize, b: usize) -> bool {
    pairs(bytes, a, b).all(|(x, y)| x | y == *y)
}

/// Whether some mode is in both sets.
fn meets(bytes: &[u8], a: usize, b: usize) -> bool {
    pairs(bytes, a, b).any(|(x, y)| x & y != 0)
}

/// A graph of modes over the bytes of a table.
pub struct ListGraph<'a> {
    bytes: &'a [u8],
    modes: u8,
    commands: u8,
    flags: u8,
}

impl<'a> ListGraph<'a> {
    pub fn new(
        bytes: &'a [u8],
        modes: u8,
        commands: u8,
        flags: u8,
    ) -> Result<ListGraph<'a>, Refusal> {
        if bytes.len() < GRAPH_BYTES {
            return Err(Refusal::MemoryShort);
        }
        if !(1..=MODE_LIMIT).contains(&modes)
            || !(1..=COMMAND_LIMIT).contains(&commands)
            || flags > FLAG_LIMIT
        {
            return Err(Refusal::LimitBroken);
        }
        Ok(ListGraph {
            bytes,
            modes,
            commands,
            flags,
        })
    }

    fn has_flag(&self, p: u8, u: u8) -> bool {
        p < self.flags && u < self.modes && contains(self.bytes, usize::from(p) * SET_BYTES, u)
    }

    fn joins(&self, a: u8, u: u8, v: u8) -> bool {
        a < self.commands
            && u < self.modes
            && v < self.modes
            && contains(
                self.bytes,
                ARCS_START + usize::from(a) * BLOCK_BYTES + usize::from(u) * SET_BYTES,
                v,
            )
    }

    fn next_target(&self, a: u8, u: u8, start: u8) -> Option<u8> {
        (start..self.modes).find(|&v| self.joins(a, u, v))
    }
}

/// Whether the parts of each row are rows before it, each of the right sort, and the graph has what each row names.
fn fits(graph: &ListGraph, rows: &[Row]) -> bool {
    rows.iter().enumerate().all(|(i, &row)| {
        let before = &rows[..i];
        let formula = |j: u8| before.get(usize::from(j)).is_some_and(|r| r.is_formula());
        let program = |j: u8| before.get(usize::from(j)).is_some_and(|r| !r.is_formula());
        match row {
            Row::Never => true,
            Row::Flag(p) => p < graph.flags,
            Row::Command(a) => a < graph.commands,
            Row::Not(x) | Row::Test(x) => formula(x),
            Row::Both(x, y) | Row::Either(x, y) | Row::Implies(x, y) => formula(x) && formula(y),
            Row::Box(r, x) | Row::Diamond(r, x) => program(r) && formula(x),
            Row::Sequence(r, s) | Row::Choice(r, s) => program(r) && program(s),
            Row::Repetition(r) | Row::Converse(r) => program(r),
        }
    })
}

/// A label table: for each of 48 rows a set of modes for each of 64 modes.
struct Labels<'a> {
    bytes: &'a mut [u8],
}

/// Where the set of row r for mode u begins. A formula row has its modes in the set for mode 0.
fn set_of(r: u8, u: u8) -> usize {
    usize::from(r) * BLOCK_BYTES + usize::from(u) * SET_BYTES
}

impl Labels<'_> {
    fn is_true(&self, x: u8, u: u8) -> bool {
        contains(self.bytes, set_of(x, 0), u)
    }

    fn is_joined(&self, r: u8, u: u8, v: u8) -> bool {
        contains(self.bytes, set_of(r, u), v)
    }

    fn add_mode(&mut self, q: u8, u: u8, v: u8) {
        insert(self.bytes, set_of(q, u), v);
    }

    fn add_set(&mut self, q: u8, u: u8, r: u8, w: u8) {
        join(self.bytes, set_of(q, u), set_of(r, w));
    }

    fn label_row(&mut self, graph: &ListGraph, q: u8, row: Row) {
        if row.is_formula() {
            for u in 0..graph.modes {
                if self.says_true(graph, row, u) {
                    self.add_mode(q, 0, u);
                }
            }
        } else {
            for u in 0..graph.modes {
                self.add_steps(graph, q, u, row);
            }
            if let Row::Repetition(_) = row {
                self.close(q, graph.modes);
            }
        }
    }

    fn says_true(&self, graph: &ListGraph, row: Row, u: u8) -> bool {
        match row {
            Row::Flag(p) => graph.has_flag(p, u),
            Row::Not(x) => !self.is_true(x, u),
            Row::Both(x, y) => self.is_true(x, u) && self.is_true(y, u),
            Row::Either(x, y) => self.is_true(x, u) || self.is_true(y, u),
            Row::Implies(x, y) => !self.is_true(x, u) || self.is_true(y, u),
            Row::Box(r, x) => is_subset(self.bytes, set_of(r, u), set_of(x, 0)),
            Row::Diamond(r, x) => meets(self.bytes, set_of(r, u), set_of(x, 0)),
            _ => false,
        }
    }

    /// Adds the modes to which the program leads from u; of a repetition, by at most one step.
    fn add_steps(&mut self, graph: &ListGraph, q: u8, u: u8, row: Row) {
        match row {
            Row::Command(a) => {
                let mut start = 0;
                while let Some(v) = graph.next_target(a, u, start) {
                    self.add_mode(q, u, v);
                    start = v + 1;
                }
            }
            Row::Sequence(r, s) => {
                for w in 0..graph.modes {
                    if self.is_joined(r, u, w) {
                        self.add_set(q, u, s, w);
                    }
                }
            }
            Row::Choice(r, s) => {
                self.add_set(q, u, r, u);
                self.add_set(q, u, s, u);
            }
            Row::Repetition(r) => {
                self.add_set(q, u, r, u);
                self.add_mode(q, u, u);
            }
            Row::Converse(r) => {
                for v in 0..graph.modes {
                    if self.is_joined(r, v, u) {
                        self.add_mode(q, u, v);
                    }
                }
            }
            Row::Test(x) => {
                if self.is_true(x, u) {
                    self.add_mode(q, u, u);
                }
            }
            _ => {}
        }
    }

    /// Closes row q's pairs under walks, by letting in one mode after the other between two others.
    fn close(&mut self, q: u8, n: u8) {
        for k in 0..n {
            for u in 0..n {
                if u != k && self.is_joined(q, u, k) {
                    self.add_set(q, u, q, k);
                }
            }
        }
    }
}

/// Labels the rows over the graph.
pub fn label(graph: &ListGraph, rows: &[Row], memory: &mut [u8]) -> Result<(), Refusal> {
    let Some(bytes) = memory.get_mut(..LABEL_BYTES) else {
        return Err(Refusal::MemoryShort);
    };
    if !fits(graph, rows) {
        return Err(Refusal::Unfit);
    }
    bytes.fill(0);
    let mut labels = Labels { bytes };
    for (q, &row) in rows.iter().enumerate() {
        labels.label_row(graph, q as u8, row);
    }
    Ok(())
}

fn label_all(
    table: &[u8],
    modes: u8,
    commands: u8,
    flags: u8,
    rows: &[u8],
    memory: &mut [u8],
) -> Result<(), Refusal> {
    let graph = ListGraph::new(table, modes, commands, flags)?;
    let rows = rows_of(rows)?;
    label(&graph, &rows, memory)
}

/// Labels rows over a table, and answers 0, or the number of a refusal. It is kept apart, as a call into an archive is.
#[inline(never)]
pub fn label_rows_over_table(
    table: &[u8],
    modes: u8,
    commands: u8,
    flags: u8,
    rows: &[u8],
    memory: &mut [u8],
) -> u8 {
    match label_all(table, modes, commands, flags, rows, memory) {
        Ok(()) => 0,
        Err(refusal) => refusal.number(),
    }
}
