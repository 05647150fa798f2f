//! Graphs and sheets to label: random ones for the comparison, and large ones for the clock.

use crate::labeller::{COMMAND_LIMIT, FLAG_LIMIT, GRAPH_BYTES, LABEL_BYTES, MODE_LIMIT, ROW_LIMIT};

/// A small generator of numbers (splitmix64), so that a seed gives the same cases everywhere.
pub struct Random {
    state: u64,
}

impl Random {
    pub fn new(seed: u64) -> Random {
        Random { state: seed }
    }

    pub fn next(&mut self) -> u64 {
        self.state = self.state.wrapping_add(0x9e37_79b9_7f4a_7c15);
        let mut z = self.state;
        z = (z ^ (z >> 30)).wrapping_mul(0xbf58_476d_1ce4_e5b9);
        z = (z ^ (z >> 27)).wrapping_mul(0x94d0_49bb_1331_11eb);
        z ^ (z >> 31)
    }

    /// A number below `limit`, which is not 0.
    pub fn below(&mut self, limit: usize) -> usize {
        (self.next() % limit as u64) as usize
    }

    /// Yes, `percent` times of a hundred.
    pub fn chance(&mut self, percent: usize) -> bool {
        self.below(100) < percent
    }
}

/// A graph as plain lists of truths.
pub struct Model {
    pub modes: usize,
    pub commands: usize,
    pub flags: usize,
    /// stands[p][u]: flag p stands at mode u
    pub stands: Vec<Vec<bool>>,
    /// arcs[a][u][v]: command a joins mode u to mode v
    pub arcs: Vec<Vec<Vec<bool>>>,
}

impl Model {
    fn empty(modes: usize, commands: usize, flags: usize) -> Model {
        Model {
            modes,
            commands,
            flags,
            stands: vec![vec![false; modes]; flags],
            arcs: vec![vec![vec![false; modes]; modes]; commands],
        }
    }

    /// A graph with so many arcs and flags of a hundred that could be.
    pub fn random(
        random: &mut Random,
        modes: usize,
        commands: usize,
        flags: usize,
        percent: usize,
    ) -> Model {
        let mut model = Model::empty(modes, commands, flags);
        for stands in model.stands.iter_mut().flatten() {
            *stands = random.chance(50);
        }
        for joined in model.arcs.iter_mut().flatten().flatten() {
            *joined = random.chance(percent);
        }
        model
    }

    /// The largest graph in which command a leads from each mode to the one a + 1 further on; the last modes are stuck.
    pub fn path() -> Model {
        let mut model = Model::empty(
            usize::from(MODE_LIMIT),
            usize::from(COMMAND_LIMIT),
            usize::from(FLAG_LIMIT),
        );
        for (a, arcs) in model.arcs.iter_mut().enumerate() {
            for (u, targets) in arcs.iter_mut().enumerate() {
                if let Some(joined) = targets.get_mut(u + a + 1) {
                    *joined = true;
                }
            }
        }
        model
    }

    /// The graph in the bytes of a table.
    pub fn bytes(&self) -> Vec<u8> {
        let mut bytes = vec![0; GRAPH_BYTES];
        for (p, modes) in self.stands.iter().enumerate() {
            for u in (0..self.modes).filter(|&u| modes[u]) {
                bytes[8 * p + u / 8] |= 1 << (u % 8);
            }
        }
        for (a, arcs) in self.arcs.iter().enumerate() {
            for (u, targets) in arcs.iter().enumerate() {
                for v in (0..self.modes).filter(|&v| targets[v]) {
                    bytes[128 + 512 * a + 8 * u + v / 8] |= 1 << (v % 8);
                }
            }
        }
        bytes
    }

    /// Sets bits that are beyond the counts, and mean nothing.
    fn scribble(&self, random: &mut Random, bytes: &mut [u8]) {
        for _ in 0..200 {
            let u = random.below(64);
            let v = random.below(64);
            let p = random.below(16);
            if p >= self.flags || u >= self.modes {
                bytes[8 * p + u / 8] |= 1 << (u % 8);
            }
            if p >= self.commands || u >= self.modes || v >= self.modes {
                bytes[128 + 512 * p + 8 * u + v / 8] |= 1 << (v % 8);
            }
        }
    }
}

/// A row in bytes: its letter and its two numbers.
pub type RowBytes = [u8; 3];

pub const FORMULAS: &[u8] = b"OPNKACLM";
pub const PROGRAMS: &[u8] = b"dsurbt";

/// Random rows that fit the graph: each part is a row before, of the right sort.
pub fn random_rows(random: &mut Random, model: &Model, count: usize) -> Vec<RowBytes> {
    let mut rows: Vec<RowBytes> = Vec::new();
    while rows.len() < count {
        let letters = if random.chance(50) {
            FORMULAS
        } else {
            PROGRAMS
        };
        let letter = letters[random.below(letters.len())];
        if let Some(row) = row_with(random, model, &rows, letter) {
            rows.push(row);
        }
    }
    rows
}

/// A row of this letter with random parts, if there are any that it can have.
fn row_with(random: &mut Random, model: &Model, rows: &[RowBytes], letter: u8) -> Option<RowBytes> {
    let mut part = |letters: &[u8]| {
        let fitting: Vec<usize> = (0..rows.len())
            .filter(|&i| letters.contains(&rows[i][0]))
            .collect();
        (!fitting.is_empty()).then(|| fitting[random.below(fitting.len())] as u8)
    };
    Some(match letter {
        b'O' => [letter, 0, 0],
        b'P' if model.flags == 0 => return None,
        b'P' => [letter, random.below(model.flags) as u8, 0],
        b'd' => [letter, random.below(model.commands) as u8, 0],
        b'N' | b't' => [letter, part(FORMULAS)?, 0],
        b'K' | b'A' | b'C' => [letter, part(FORMULAS)?, part(FORMULAS)?],
        b'L' | b'M' => [letter, part(PROGRAMS)?, part(FORMULAS)?],
        b's' | b'u' => [letter, part(PROGRAMS)?, part(PROGRAMS)?],
        _ => [letter, part(PROGRAMS)?, 0],
    })
}

/// One call of a labeller.
pub struct Case {
    pub model: Model,
    pub table: Vec<u8>,
    pub modes: u8,
    pub commands: u8,
    pub flags: u8,
    pub rows: Vec<u8>,
    pub memory: Vec<u8>,
}

impl Case {
    fn new(model: Model, rows: Vec<RowBytes>) -> Case {
        Case {
            table: model.bytes(),
            modes: model.modes as u8,
            commands: model.commands as u8,
            flags: model.flags as u8,
            rows: rows.concat(),
            memory: vec![0; LABEL_BYTES],
            model,
        }
    }

    /// A random case: mostly one that is labelled, and at times one with something wrong.
    pub fn random(random: &mut Random) -> Case {
        let modes = 1 + random.below(usize::from(MODE_LIMIT));
        let commands = 1 + random.below(usize::from(COMMAND_LIMIT));
        let flags = random.below(usize::from(FLAG_LIMIT) + 1);
        let percent = [0, 1, 2, 5, 20, 50, 90, 100][random.below(8)];
        let model = Model::random(random, modes, commands, flags, percent);
        let count = random.below(ROW_LIMIT + 1);
        let rows = random_rows(random, &model, count);
        let mut case = Case::new(model, rows);
        if random.chance(30) {
            case.model.scribble(random, &mut case.table);
        }
        let behind = if random.chance(30) {
            random.below(2000)
        } else {
            0
        };
        case.memory.resize(LABEL_BYTES + behind, 0);
        for byte in &mut case.memory {
            *byte = random.next() as u8;
        }
        if random.chance(20) {
            case.spoil(random);
        }
        case
    }

    /// Breaks one thing, or leaves the case as it is where there is nothing to break.
    fn spoil(&mut self, random: &mut Random) {
        let row = random.below(self.rows.len() / 3 + 1);
        let place = |k: usize| Some(3 * row + k);
        let spoiled = match random.below(9) {
            0 => place(1),
            1 => place(2),
            2 => place(0),
            3 => {
                self.rows.push(b'O');
                None
            }
            4 => {
                while self.rows.len() <= 3 * ROW_LIMIT {
                    self.rows.extend([b'O', 0, 0]);
                }
                None
            }
            5 => {
                self.memory.truncate(LABEL_BYTES - 1 - random.below(100));
                None
            }
            6 => {
                self.table.truncate(GRAPH_BYTES - 1 - random.below(100));
                None
            }
            7 => {
                self.modes = [0, 65, 255][random.below(3)];
                None
            }
            _ => {
                self.commands = [0, 17, 255][random.below(3)];
                self.flags = [0, 17, 255][random.below(3)];
                None
            }
        };
        let value = if random.chance(50) {
            random.below(64) as u8
        } else {
            let letters = [FORMULAS, PROGRAMS].concat();
            letters[random.below(letters.len())]
        };
        if let Some(byte) = spoiled.and_then(|i| self.rows.get_mut(i)) {
            *byte = value;
        }
    }
}

/// Rows from the first ones and then a rule that makes each next row from its number.
fn rows_by(first: &[RowBytes], next: impl Fn(u8) -> RowBytes) -> Vec<RowBytes> {
    let mut rows = first.to_vec();
    while rows.len() < ROW_LIMIT {
        rows.push(next(rows.len() as u8));
    }
    rows
}

/// The cases for the clock: the largest graph, with as many rows as a sheet has room for.
pub fn timed(random: &mut Random) -> Vec<(&'static str, Case)> {
    let largest = |random: &mut Random, percent| {
        Model::random(
            random,
            usize::from(MODE_LIMIT),
            usize::from(COMMAND_LIMIT),
            usize::from(FLAG_LIMIT),
            percent,
        )
    };
    let repetitions = || rows_by(&[[b'd', 0, 0]], |q| [b'r', q - 1, 0]);
    let repeated_commands = || {
        rows_by(&[], |q| match q % 2 {
            0 => [b'd', q / 2 % 16, 0],
            _ => [b'r', q - 1, 0],
        })
    };
    let sequences = || rows_by(&[[b'd', 0, 0], [b'd', 1, 0]], |q| [b's', q - 1, q - 2]);
    let modal = || {
        rows_by(
            &[
                [b'd', 0, 0],
                [b'r', 0, 0],
                [b'P', 0, 0],
                [b'P', 1, 0],
                [b'O', 0, 0],
                [b'N', 4, 0],
            ],
            |q| {
                [
                    if q % 2 == 0 { b'L' } else { b'M' },
                    q / 2 % 2,
                    2 + q / 4 % 4,
                ]
            },
        )
    };
    let commands = || rows_by(&[], |q| [b'd', q % 16, 0]);
    let converses = || rows_by(&[[b'd', 0, 0]], |q| [b'b', q - 1, 0]);
    let choices = || {
        rows_by(&[[b'P', 0, 0], [b't', 0, 0], [b'd', 0, 0]], |q| {
            match q % 4 {
                0 => [b't', 0, 0],
                _ => [b'u', q - 1, q - 2],
            }
        })
    };
    let plain = || {
        rows_by(&[[b'P', 0, 0], [b'P', 1, 0]], |q| match q % 5 {
            0 => [b'P', q % 16, 0],
            1 => [b'N', q - 1, 0],
            2 => [b'K', q - 1, q - 2],
            3 => [b'A', q - 1, q - 2],
            _ => [b'C', q - 1, q - 2],
        })
    };
    let mix = largest(random, 10);
    let mixed = random_rows(random, &mix, ROW_LIMIT);
    vec![
        (
            "repetitions, dense",
            Case::new(largest(random, 50), repetitions()),
        ),
        ("repetitions, path", Case::new(Model::path(), repetitions())),
        (
            "a repetition each, path",
            Case::new(Model::path(), repeated_commands()),
        ),
        (
            "a repetition each, sparse",
            Case::new(largest(random, 2), repeated_commands()),
        ),
        (
            "sequences, dense",
            Case::new(largest(random, 50), sequences()),
        ),
        (
            "sequences, sparse",
            Case::new(largest(random, 2), sequences()),
        ),
        (
            "boxes and diamonds, dense",
            Case::new(largest(random, 50), modal()),
        ),
        (
            "boxes and diamonds, path",
            Case::new(Model::path(), modal()),
        ),
        (
            "commands, dense",
            Case::new(largest(random, 50), commands()),
        ),
        (
            "commands, sparse",
            Case::new(largest(random, 2), commands()),
        ),
        (
            "converses, dense",
            Case::new(largest(random, 50), converses()),
        ),
        (
            "choices and tests",
            Case::new(largest(random, 50), choices()),
        ),
        ("plain formulas", Case::new(largest(random, 50), plain())),
        ("a random mix", Case::new(mix, mixed)),
    ]
}
