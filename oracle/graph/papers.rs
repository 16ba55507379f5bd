// The customer's documents 01 and 02 by definition, on letters. A k-mer is a text of A, C, G, T: texts of one length order as their
// numbers do. A table has eight counts or signs for each canonical k-mer. Written from the papers, with nothing of the original and nothing packed.
// Tables are grown from empty, so none is unfit (refusal 5) and a walk's next vertex is always stored (8).
use std::collections::{BTreeMap, BTreeSet};

// What a table keeps of the sightings of an edge.
#[derive(Clone, Copy, PartialEq)]
pub enum Kind {
    // Document 01: how many there were, stopping at 15.
    Counts,
    // whether there was one.
    Presence,
}

impl Kind {
    fn sighted(self, kept: u8) -> u8 {
        match self {
            Kind::Counts => 15.min(kept + 1),
            Kind::Presence => 1,
        }
    }

    // Four bits a count, Front A lowest; one bit a sign, Front A at bit 3.
    fn word(self, eight: &Counts) -> u32 {
        match self {
            Kind::Counts => eight.iter().rev().fold(0, |word, count| 16 * word + *count as u32),
            Kind::Presence => 8 * eight.iter().rev().fold(0, |word, sign| 2 * word + *sign as u32),
        }
    }
}

// When the predecessor of a window is not counted.
#[derive(Clone, Copy)]
pub enum Mode {
    // Document 01: the window before has the same canonical k-mer.
    SameCanonical,
    // the window is the reverse complement of the one before and differs from it.
    Reversed,
}

impl Mode {
    fn skips(self, before: &[u8], window: &[u8]) -> bool {
        match self {
            Mode::SameCanonical => canonical(window) == canonical(before),
            Mode::Reversed => window == reverse_complement(before) && window != before,
        }
    }
}

#[derive(Clone, Copy, PartialEq)]
enum Side {
    Front,
    Back,
}

impl Side {
    fn opposite(self) -> Side {
        if self == Side::Front { Side::Back } else { Side::Front }
    }
}

// Front A, C, G, T, then Back A, C, G, T; a sign is 0 or 1.
type Counts = [u8; 8];

// What is returned, 0 or a refusal, and the figures beside it.
pub type Answer = (u32, Vec<u64>);

pub struct Table {
    k: usize,
    kind: Kind,
    mode: Mode,
    capacity: usize,
    vertices: BTreeMap<Vec<u8>, Counts>,
}

// What contraction and the FASTA leave in lent memory.
#[derive(PartialEq)]
pub struct List {
    pub labels: Vec<u8>,
    pub starts: Vec<u32>,
    pub lengths: Vec<u32>,
    pub marks: Vec<u8>,
    pub fasta: Vec<u8>,
}

// The letter that a byte is read as, if it is a base.
fn base(byte: u8) -> Option<u8> {
    match byte {
        b'A' | b'a' => Some(b'A'),
        b'C' | b'c' => Some(b'C'),
        b'G' | b'g' => Some(b'G'),
        b'T' | b't' | b'U' | b'u' => Some(b'T'),
        _ => None,
    }
}

fn complement(byte: u8) -> u8 {
    match base(byte) {
        Some(b'A') => b'T',
        Some(b'C') => b'G',
        Some(b'G') => b'C',
        Some(_) => b'A',
        None => b'N',
    }
}

pub fn reverse_complement(text: &[u8]) -> Vec<u8> {
    text.iter().rev().map(|b| complement(*b)).collect()
}

pub fn canonical(text: &[u8]) -> Vec<u8> {
    text.to_vec().min(reverse_complement(text))
}

fn code(letter: u8) -> usize {
    b"ACGT".iter().position(|b| *b == letter).unwrap()
}

fn slot(side: Side, letter: u8) -> usize {
    code(letter) + if side == Side::Front { 0 } else { 4 }
}

// The bases on a side whose count is at least the cutoff.
fn retained(counts: &Counts, side: Side, cutoff: u32) -> Vec<u8> {
    b"ACGT".iter().copied().filter(|b| counts[slot(side, *b)] as u32 >= cutoff).collect()
}

fn isolated(counts: &Counts, cutoff: u32) -> bool {
    retained(counts, Side::Front, cutoff).is_empty() && retained(counts, Side::Back, cutoff).is_empty()
}

impl Table {
    pub fn new(kind: Kind, mode: Mode, k: usize, capacity: usize) -> Table {
        Table { k, kind, mode, capacity, vertices: BTreeMap::new() }
    }

    pub fn stored(&self) -> u64 {
        self.vertices.len() as u64
    }

    // As the caller's keys and counts hold it.
    pub fn cells(&self) -> (Vec<u64>, Vec<u32>) {
        let (mut keys, mut counts) = (vec![], vec![]);
        for (vertex, eight) in &self.vertices {
            let number = vertex.iter().fold(0u128, |n, b| 4 * n + code(*b) as u128);
            keys.extend([number as u64, (number >> 64) as u64]);
            counts.push(self.kind.word(eight));
        }
        (keys, counts)
    }

    pub fn add(&mut self, label: &[u8]) -> Answer {
        if !(1..=63).contains(&self.k) {
            return (1, vec![self.k as u64]);
        }
        if label.len() > 4096 {
            return (4, vec![label.len() as u64]);
        }
        if label.len() < self.k {
            return (0, vec![0, self.stored()]);
        }
        if let Some(place) = label.iter().position(|b| base(*b).is_none()) {
            return (3, vec![place as u64, label[place] as u64]);
        }
        let letters: Vec<u8> = label.iter().filter_map(|b| base(*b)).collect();
        let windows: Vec<&[u8]> = letters.windows(self.k).collect();
        let new: BTreeSet<Vec<u8>> = windows.iter().map(|w| canonical(w)).filter(|v| !self.vertices.contains_key(v)).collect();
        if self.vertices.len() + new.len() > self.capacity {
            return (6, vec![]);
        }
        for (i, window) in windows.iter().enumerate() {
            let skipped = i == 0 || self.mode.skips(windows[i - 1], window);
            let predecessor = if skipped { None } else { Some(letters[i - 1]) };
            self.sight(window, predecessor, letters.get(i + self.k).copied());
        }
        (0, vec![(label.len() - self.k) as u64, self.stored()])
    }

    fn sight(&mut self, window: &[u8], predecessor: Option<u8>, successor: Option<u8>) {
        let vertex = canonical(window);
        let (front, back) =
            if vertex == window { (predecessor, successor) } else { (successor.map(complement), predecessor.map(complement)) };
        let counts = self.vertices.entry(vertex).or_default();
        for (side, neighbour) in [(Side::Front, front), (Side::Back, back)] {
            if let Some(letter) = neighbour {
                let count = &mut counts[slot(side, letter)];
                *count = self.kind.sighted(*count);
            }
        }
    }

    // A walk from an anchor by one of its sides: its letters, and whether it closed a cycle.
    fn walk(&self, anchor: &[u8], start: Side, cutoff: u32, visited: &mut BTreeSet<Vec<u8>>) -> (Vec<u8>, bool) {
        let mut seen = if start == Side::Back { anchor.to_vec() } else { reverse_complement(anchor) };
        let mut letters = seen.clone();
        let mut side = start;
        loop {
            let vertex = canonical(&seen);
            let edges = retained(&self.vertices[&vertex], side, cutoff);
            visited.insert(vertex);
            let [edge] = edges[..] else { return (letters, false) };
            let step = if side == Side::Front { complement(edge) } else { edge };
            seen.remove(0);
            seen.push(step);
            let next = canonical(&seen);
            let entrance = if seen == next { Side::Front } else { Side::Back };
            if retained(&self.vertices[&next], entrance, cutoff).len() > 1 {
                return (letters, false);
            }
            if visited.contains(&next) {
                return (letters, next == anchor && entrance == start.opposite());
            }
            letters.push(step);
            side = entrance.opposite();
        }
    }

    fn label(&self, anchor: &[u8], cutoff: u32, visited: &mut BTreeSet<Vec<u8>>) -> Vec<u8> {
        let (back, closed) = self.walk(anchor, Side::Back, cutoff, visited);
        if closed {
            return canonical(&back);
        }
        let (front, _) = self.walk(anchor, Side::Front, cutoff, visited);
        canonical(&[&reverse_complement(&front), &back[self.k..]].concat())
    }

    pub fn contract(&self, cutoff: u32) -> Result<List, Answer> {
        if !(1..=63).contains(&self.k) {
            return Err((1, vec![self.k as u64]));
        }
        if self.kind == Kind::Presence && cutoff != 1 {
            return Err((15, vec![]));
        }
        let (mut visited, mut labels) = (BTreeSet::new(), vec![]);
        for (anchor, counts) in &self.vertices {
            if !visited.contains(anchor) && !isolated(counts, cutoff) {
                labels.push(self.label(anchor, cutoff, &mut visited));
            }
        }
        let marks = self.vertices.keys().map(|v| visited.contains(v) as u8).collect();
        Ok(listed(&labels, marks))
    }
}

// Labels in the order of their anchors, put down and listed.
fn listed(labels: &[Vec<u8>], marks: Vec<u8>) -> List {
    let mut entries: Vec<(&Vec<u8>, u32)> = vec![];
    let mut start = 0;
    for label in labels {
        entries.push((label, start));
        start += label.len() as u32;
    }
    entries.sort();
    List {
        labels: labels.concat(),
        starts: entries.iter().map(|e| e.1).collect(),
        lengths: entries.iter().map(|e| e.0.len() as u32).collect(),
        marks,
        fasta: entries.iter().flat_map(|e| [b">0\n", &e.0[..], b"\n"].concat()).collect(),
    }
}
