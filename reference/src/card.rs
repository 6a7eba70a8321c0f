//! The reader: the layout of a card, refusals 15, 1 and 2, and the parts of a card that has none of them.

/// A refusal with its two values, as the sheet prints them.
#[derive(Clone, Copy, Debug, PartialEq, Eq)]
pub struct Refusal {
    pub n: u64,
    pub a: u64,
    pub b: u64,
}

impl Refusal {
    pub const fn new(n: u64, a: u64, b: u64) -> Self {
        Self { n, a, b }
    }
}

pub const MOST_WORDS: usize = 8192;
pub const MOST_D: usize = 16;
pub const MOST_EFFECTS: usize = 16;
pub const MOST_GATES: usize = 8;
pub const MOST_RECORDS: usize = 200;
pub const MOST_COORDINATES: usize = 64;
pub const MOST_LENGTH: usize = 64;
pub const MOST_ITERATIONS: u64 = 65_535;
pub const MOST_BACKTRACKS: u64 = 255;

/// Word 0, field by field.
#[derive(Clone, Copy, Debug, Default, PartialEq, Eq)]
pub struct Head {
    pub kind: u8,
    pub n: usize,
    pub d: usize,
    pub effects: usize,
    pub gates: usize,
    pub records: usize,
    pub coordinates: usize,
    pub rest: u8,
}

impl Head {
    pub fn of(word: u64) -> Self {
        let field = |low: u32, width: u32| (word >> low & ((1 << width) - 1)) as usize;
        Head {
            kind: field(60, 4) as u8,
            n: field(56, 4),
            d: field(48, 8),
            effects: field(40, 8),
            gates: field(32, 8),
            records: field(16, 16),
            coordinates: field(8, 8),
            rest: field(0, 8) as u8,
        }
    }

    /// The word again. Each field must fit.
    pub fn word(&self) -> u64 {
        (self.kind as u64) << 60
            | (self.n as u64) << 56
            | (self.d as u64) << 48
            | (self.effects as u64) << 40
            | (self.gates as u64) << 32
            | (self.records as u64) << 16
            | (self.coordinates as u64) << 8
            | self.rest as u64
    }

    /// The kind's limit on n, where it has this field.
    pub fn most_qubits(&self) -> Option<usize> {
        match self.kind {
            1 => Some(3),
            3 | 4 => Some(2),
            _ => None,
        }
    }

    /// Refusal 1's condition.
    pub fn n_at_fault(&self) -> bool {
        self.most_qubits().is_some_and(|most| self.n == 0 || self.n > most)
    }

    /// Refusal 15 at place 0. A faulty n is none where the kind has the field.
    fn at_fault(&self) -> bool {
        let (d, effects, gates, records, coordinates) = match self.kind {
            1 | 3 | 4 => (0, 0, 0, 0, 0),
            2 => (MOST_D, 0, 0, 0, 0),
            5 => (MOST_D, MOST_EFFECTS, MOST_GATES, MOST_RECORDS, MOST_COORDINATES),
            6 => (MOST_D, MOST_EFFECTS, MOST_GATES, 0, 0),
            7 => (MOST_D, MOST_EFFECTS, MOST_GATES, MOST_RECORDS, 0),
            _ => return true,
        };
        (self.most_qubits().is_none() && self.n != 0)
            || (self.kind == 2 && self.d == 0)
            || self.d > d
            || self.effects > effects
            || self.gates > gates
            || self.records > records
            || self.coordinates > coordinates
            || self.rest != 0
    }
}

/// What a word of the layout is.
#[derive(Clone, Copy, Debug, PartialEq, Eq)]
pub enum Role {
    Head,
    Number,
    Rotations { most: u64 },
    Iterations,
    Backtracks,
    Name,
    Length,
    /// Word 0 to 3 of a record's gate indices.
    Indices(usize),
    Count,
    Coordinate,
}

/// The role of every word of the card, word 0 included. The head must have no fault.
pub fn layout(head: &Head) -> Vec<Role> {
    let mut roles = vec![Role::Head];
    let four = 1usize << (2 * head.n);
    let numbers = |roles: &mut Vec<Role>, count: usize| roles.resize(roles.len() + count, Role::Number);
    match head.kind {
        1 => numbers(&mut roles, 1 + four),
        2 => {
            numbers(&mut roles, 1);
            roles.push(Role::Rotations { most: 64 * (head.d * head.d) as u64 });
            numbers(&mut roles, 2 * head.d * head.d);
        }
        3 => numbers(&mut roles, 1 + 2 * four * four),
        4 => {
            numbers(&mut roles, 1);
            roles.push(Role::Rotations { most: 64 * (four * four) as u64 });
            numbers(&mut roles, four * four);
        }
        5 => {
            roles.push(Role::Iterations);
            numbers(&mut roles, 5);
            roles.push(Role::Backtracks);
            numbers(&mut roles, 1);
            push_model(&mut roles, head);
            push_records(&mut roles, head);
            roles.resize(roles.len() + head.coordinates, Role::Coordinate);
        }
        6 => {
            push_model(&mut roles, head);
            numbers(&mut roles, head.d * head.d);
        }
        7 => {
            numbers(&mut roles, 1);
            push_model(&mut roles, head);
            push_records(&mut roles, head);
        }
        kind => unreachable!("kind {kind} has no layout"),
    }
    roles
}

fn push_model(roles: &mut Vec<Role>, head: &Head) {
    roles.resize(roles.len() + head.d + head.effects * head.d, Role::Number);
    for _ in 0..head.gates {
        roles.push(Role::Name);
        roles.resize(roles.len() + head.d * head.d, Role::Number);
    }
}

fn push_records(roles: &mut Vec<Role>, head: &Head) {
    for _ in 0..head.records {
        roles.push(Role::Length);
        roles.extend((0..4).map(Role::Indices));
        roles.resize(roles.len() + head.effects, Role::Count);
    }
}

/// The word at `place` breaks its role's rule.
fn word_at_fault(words: &[u64], place: usize, role: Role) -> bool {
    let word = words[place];
    match role {
        Role::Head => Head::of(word).at_fault(),
        Role::Number | Role::Name | Role::Count => false,
        Role::Rotations { most } => word > most,
        Role::Iterations => word > MOST_ITERATIONS,
        Role::Backtracks => word > MOST_BACKTRACKS,
        Role::Length => word >> 56 > MOST_LENGTH as u64 || word << 8 != 0,
        Role::Indices(k) => {
            // A length above its limit stands at a lower place, so it does not matter what it gives here.
            let length = (words[place - 1 - k] >> 56) as usize;
            let used = length.saturating_sub(16 * k).min(16) as u32;
            used < 16 && word << (4 * used) != 0
        }
        Role::Coordinate => {
            let [kind, which, row, _] = coordinate_fields(word);
            match kind {
                1 => which != 0 || row != 0,
                2 => row != 0,
                3 => false,
                _ => true,
            }
        }
    }
}

/// Kind, outcome or gate, row, index or column.
fn coordinate_fields(word: u64) -> [usize; 4] {
    [
        (word >> 60) as usize,
        (word >> 48 & 0xfff) as usize,
        (word >> 24 & 0xff_ffff) as usize,
        (word & 0xff_ffff) as usize,
    ]
}

/// The lowest place at fault, of the size and of the words that are there and have a place in the layout.
fn lowest_fault(bytes: &[u8], words: &[u64]) -> Option<usize> {
    let mut places = Vec::new();
    if bytes.is_empty() {
        places.push(0);
    }
    if bytes.len() > 8 * MOST_WORDS {
        places.push(MOST_WORDS);
    }
    if !bytes.len().is_multiple_of(8) {
        places.push(bytes.len() / 8);
    }
    if let Some(&first) = words.first() {
        let head = Head::of(first);
        if head.at_fault() {
            places.push(0);
        } else if !head.n_at_fault() {
            let faulty = layout(&head)
                .into_iter()
                .take(words.len())
                .enumerate()
                .find(|&(place, role)| word_at_fault(words, place, role));
            places.extend(faulty.map(|(place, _)| place));
        }
    }
    places.into_iter().min()
}

/// The whole words of the card; a last word that is cut is left out.
pub fn whole_words(bytes: &[u8]) -> Vec<u64> {
    bytes
        .chunks_exact(8)
        .map(|chunk| u64::from_be_bytes(chunk.try_into().expect("eight bytes")))
        .collect()
}

pub fn bytes_of(words: &[u64]) -> Vec<u8> {
    words.iter().flat_map(|word| word.to_be_bytes()).collect()
}

#[derive(Clone, Debug)]
pub struct Model {
    pub d: usize,
    pub state: Vec<f64>,
    pub effects: Vec<Vec<f64>>,
    /// Name words and matrices.
    pub gates: Vec<(u64, Vec<f64>)>,
}

#[derive(Clone, Debug)]
pub struct Record {
    pub sequence: Vec<usize>,
    pub counts: Vec<u64>,
}

#[derive(Clone, Copy, Debug, PartialEq, Eq)]
pub enum Coordinate {
    State { index: usize },
    Effect { outcome: usize, index: usize },
    Gate { gate: usize, row: usize, column: usize },
}

#[derive(Clone, Copy, Debug)]
pub struct Controls {
    pub max_iterations: usize,
    pub initial_step: f64,
    pub finite_difference_step: f64,
    pub gradient_tolerance: f64,
    pub objective_tolerance: f64,
    pub probability_tolerance: f64,
    pub max_backtracks: usize,
    pub anchor_strength: f64,
}

/// The parts of an accepted card, by kind.
#[derive(Clone, Debug)]
pub enum Job {
    Density { n: usize, tolerance: f64, expectations: Vec<f64> },
    Projection { d: usize, tolerance: f64, rotations: usize, estimate: Vec<(f64, f64)> },
    Process { n: usize, tolerance: f64, inputs: Vec<Vec<f64>>, outputs: Vec<Vec<f64>> },
    Physical { n: usize, tolerance: f64, rotations: usize, values: Vec<f64> },
    Fit { controls: Controls, model: Model, records: Vec<Record>, coordinates: Vec<Coordinate> },
    Gauge { model: Model, transform: Vec<f64> },
    Diagnostics { tolerance: f64, model: Model, records: Vec<Record> },
}

impl Job {
    pub fn kind(&self) -> u8 {
        match self {
            Job::Density { .. } => 1,
            Job::Projection { .. } => 2,
            Job::Process { .. } => 3,
            Job::Physical { .. } => 4,
            Job::Fit { .. } => 5,
            Job::Gauge { .. } => 6,
            Job::Diagnostics { .. } => 7,
        }
    }
}

/// Reads the words of an accepted card in their order.
struct Cursor<'a> {
    words: core::slice::Iter<'a, u64>,
}

impl Cursor<'_> {
    fn word(&mut self) -> u64 {
        *self.words.next().expect("an accepted card has every word of its layout")
    }

    fn number(&mut self) -> f64 {
        f64::from_bits(self.word())
    }

    fn numbers(&mut self, count: usize) -> Vec<f64> {
        (0..count).map(|_| self.number()).collect()
    }

    fn vectors(&mut self, count: usize, length: usize) -> Vec<Vec<f64>> {
        (0..count).map(|_| self.numbers(length)).collect()
    }

    fn model(&mut self, head: &Head) -> Model {
        let d = head.d;
        Model {
            d,
            state: self.numbers(d),
            effects: self.vectors(head.effects, d),
            gates: (0..head.gates).map(|_| (self.word(), self.numbers(d * d))).collect(),
        }
    }

    fn record(&mut self, effects: usize) -> Record {
        let length = (self.word() >> 56) as usize;
        let indices: Vec<u64> = (0..4).map(|_| self.word()).collect();
        Record {
            sequence: (0..length).map(|k| (indices[k / 16] >> (60 - 4 * (k % 16)) & 15) as usize).collect(),
            counts: (0..effects).map(|_| self.word()).collect(),
        }
    }

    fn records(&mut self, head: &Head) -> Vec<Record> {
        (0..head.records).map(|_| self.record(head.effects)).collect()
    }

    fn coordinate(&mut self) -> Coordinate {
        match coordinate_fields(self.word()) {
            [1, _, _, index] => Coordinate::State { index },
            [2, outcome, _, index] => Coordinate::Effect { outcome, index },
            [3, gate, row, column] => Coordinate::Gate { gate, row, column },
            _ => unreachable!("an accepted card has coordinates of kinds 1 to 3"),
        }
    }

    fn job(&mut self) -> Job {
        let head = Head::of(self.word());
        let (n, d) = (head.n, head.d);
        let four = 1usize << (2 * n);
        match head.kind {
            1 => Job::Density { n, tolerance: self.number(), expectations: self.numbers(four) },
            2 => Job::Projection {
                d,
                tolerance: self.number(),
                rotations: self.word() as usize,
                estimate: (0..d * d).map(|_| (self.number(), self.number())).collect(),
            },
            3 => Job::Process {
                n,
                tolerance: self.number(),
                inputs: self.vectors(four, four),
                outputs: self.vectors(four, four),
            },
            4 => Job::Physical {
                n,
                tolerance: self.number(),
                rotations: self.word() as usize,
                values: self.numbers(four * four),
            },
            5 => Job::Fit {
                controls: Controls {
                    max_iterations: self.word() as usize,
                    initial_step: self.number(),
                    finite_difference_step: self.number(),
                    gradient_tolerance: self.number(),
                    objective_tolerance: self.number(),
                    probability_tolerance: self.number(),
                    max_backtracks: self.word() as usize,
                    anchor_strength: self.number(),
                },
                model: self.model(&head),
                records: self.records(&head),
                coordinates: (0..head.coordinates).map(|_| self.coordinate()).collect(),
            },
            6 => Job::Gauge { model: self.model(&head), transform: self.numbers(d * d) },
            7 => Job::Diagnostics {
                tolerance: self.number(),
                model: self.model(&head),
                records: self.records(&head),
            },
            kind => unreachable!("kind {kind} is refused"),
        }
    }
}

/// The card's parts, or the reader's refusal: 15, then 1, then 2.
pub fn read(bytes: &[u8]) -> Result<Job, Refusal> {
    let words = whole_words(bytes);
    if let Some(place) = lowest_fault(bytes, &words) {
        return Err(Refusal::new(15, place as u64, 0));
    }
    let head = Head::of(words[0]);
    if head.n_at_fault() {
        return Err(Refusal::new(1, 0, 0));
    }
    let wanted = layout(&head).len();
    if words.len() != wanted {
        return Err(Refusal::new(2, wanted as u64, words.len() as u64));
    }
    Ok(Cursor { words: words.iter() }.job())
}
