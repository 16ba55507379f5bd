// Compares the calls of this library, linked through its C interface, with the original, case by case: the answer to each label and the table
// after it, the same by one call for all labels up to the first that is refused, then contraction's totals, label bytes, index and marks, and the
// FASTA. Each case is tried with counts at its cutoff and with presence bits at cutoff 1, both against the original's counters; presence bits are
// also tried at other cutoffs and with a bit that is none of theirs, which they refuse. `compare FIRST NUMBER` tries NUMBER cases of each sort from
// FIRST on, prints how many were tried and each that differs, and exits with 1 if one did.
use crate::cases::{self, Table};
use crate::judge::{self, File};
use crate::library::*;
use crate::uncolored::{Contracted, Graph, Vertices};
use std::path::{Path, PathBuf};

// What stands in cells that no call may touch. No table of presence bits may hold such a word; behind its last vertex it is nothing.
const FREE: u8 = 0xd9;
const FREE_KEY: u64 = u64::from_le_bytes([FREE; 8]);
const FREE_COUNT: u32 = u32::from_le_bytes([FREE; 4]);

// Numbers that mean presence bits, and bits that are none of theirs: a case takes one of each by its number.
const PRESENCE: [u32; 4] = [1, 2, 256, u32::MAX];
const STRAY: [u32; 5] = [0, 1, 2, 11, 31];

// Counts, and presence bits by the number that the case takes.
fn kinds(i: usize) -> [u32; 2] {
    [0, PRESENCE[i % PRESENCE.len()]]
}

// The word that a kind keeps where the original has these counters.
fn word_of(kind: u32, counters: u32) -> u32 {
    let present = |j: u32| ((counters >> (4 * j) & 15 != 0) as u32) << (3 + j);
    if kind == 0 { counters } else { (0..8).map(present).sum() }
}

// What a contraction returns and leaves.
struct Left {
    r: u32,
    figures: [u64; 2],
    labels: Vec<u8>,
    starts: Vec<u32>,
    lengths: Vec<u32>,
    marks: Vec<u8>,
}

impl Left {
    // No label, entry or figure is written.
    fn unwritten(&self) -> bool {
        self.labels.iter().all(|b| *b == FREE) && self.starts.iter().chain(&self.lengths).all(|n| *n == 7) && self.figures == [FREE_KEY; 2]
    }
}

// A table of this library, of the kind of that number.
#[derive(Clone, PartialEq)]
struct Ours {
    kind: u32,
    k: usize,
    n: usize,
    keys: Vec<u64>,
    counts: Vec<u32>,
}

impl Ours {
    fn new(kind: u32, k: usize, capacity: usize) -> Ours {
        Ours { kind, k, n: 0, keys: vec![FREE_KEY; 2 * capacity], counts: vec![FREE_COUNT; capacity] }
    }

    fn of(kind: u32, k: usize, vertices: &Vertices) -> Ours {
        let mut ours = Ours::new(kind, k, vertices.len());
        ours.n = vertices.len();
        for (i, &(x, word)) in vertices.iter().enumerate() {
            (ours.keys[2 * i], ours.keys[2 * i + 1], ours.counts[i]) = (x as u64, (x >> 64) as u64, word_of(kind, word));
        }
        ours
    }

    fn add(&mut self, label: &[u8]) -> (u32, [u64; 2]) {
        let mut figures = [0; 2];
        let r = unsafe {
            lash_add_label(
                self.kind, 0, self.k, self.n, self.keys.as_mut_ptr(), self.keys.len(), self.counts.as_mut_ptr(), self.counts.len(),
                label.as_ptr(), label.len(), figures.as_mut_ptr(), 2,
            )
        };
        if r == 0 {
            self.n = figures[1] as usize;
        }
        (r, figures)
    }

    // Labels by one call, a byte that is no base before each: what is returned, the totals and the figures. The last one's entry is longer by `past`.
    fn add_all(&mut self, labels: &[Vec<u8>], past: u32) -> (u32, [u64; 2], [u64; 2]) {
        let (mut text, mut starts, mut lengths) = (vec![], vec![], vec![]);
        for label in labels {
            text.push(FREE);
            starts.push(text.len() as u32);
            lengths.push(label.len() as u32);
            text.extend(label);
        }
        if let Some(last) = lengths.last_mut() {
            *last += past;
        }
        let (mut totals, mut figures) = ([0; 2], [0; 2]);
        let r = unsafe {
            lash_add_labels(
                self.kind, 0, self.k, self.n, self.keys.as_mut_ptr(), self.keys.len(), self.counts.as_mut_ptr(), self.counts.len(),
                text.as_ptr(), text.len(), starts.as_ptr(), starts.len(), lengths.as_ptr(), lengths.len(), labels.len(), totals.as_mut_ptr(), 2,
                figures.as_mut_ptr(), 2,
            )
        };
        self.n = totals[1] as usize;
        (r, totals, figures)
    }

    // The table, and that every cell behind it is as it was.
    fn holds(&self, vertices: &Vertices) -> bool {
        let key = |i: usize| self.keys[2 * i] as u128 | (self.keys[2 * i + 1] as u128) << 64;
        let same = |i: usize| key(i) == vertices[i].0 && self.counts[i] == word_of(self.kind, vertices[i].1);
        self.n == vertices.len()
            && (0..self.n).all(same)
            && self.keys[2 * self.n..].iter().all(|w| *w == FREE_KEY)
            && self.counts[self.n..].iter().all(|w| *w == FREE_COUNT)
    }

    fn contract(&self, cutoff: u32, room: usize, entries: usize, marks: usize) -> Left {
        let (mut labels, mut starts, mut lengths) = (vec![FREE; room], vec![7u32; entries], vec![7u32; entries]);
        let (mut marks, mut figures) = (vec![FREE; marks], [FREE_KEY; 2]);
        let r = unsafe {
            lash_contract(
                self.kind, self.k, cutoff, self.n, self.keys.as_ptr(), self.keys.len(), self.counts.as_ptr(), self.counts.len(),
                labels.as_mut_ptr(), room, starts.as_mut_ptr(), entries, lengths.as_mut_ptr(), entries, marks.as_mut_ptr(), marks.len(),
                figures.as_mut_ptr(), 2,
            )
        };
        Left { r, figures, labels, starts, lengths, marks }
    }

    // Contraction in the given rooms, and what it has to leave where the original found this.
    fn contracts(&self, cutoff: u32, room: usize, entries: usize, rust: &Option<Contracted>) -> bool {
        let mut left = self.contract(cutoff, room, entries, self.n + 1);
        let past = left.marks.pop() == Some(FREE);
        let cleared = left.unwritten() && left.marks.iter().all(|m| *m == 0);
        let Some(c) = rust else { return past && left.r == 8 && cleared };
        let (text, s, l) = judge::index(c);
        if text.len() > room || s.len() > entries {
            return past && left.r == 9 && cleared;
        }
        let Left { r, figures, labels, starts, lengths, marks } = left;
        let rest = labels[text.len()..].iter().all(|b| *b == FREE) && starts[s.len()..].iter().chain(&lengths[s.len()..]).all(|n| *n == 7);
        past && rest
            && r == 0
            && figures == [s.len() as u64, text.len() as u64]
            && labels[..text.len()] == text
            && starts[..s.len()] == s
            && lengths[..s.len()] == l
            && marks == c.marks
            && fasta(&labels, &starts, &lengths, s.len(), &c.fasta)
    }

    // The same in ample rooms, in rooms that just suffice, and in such with one base and with one entry less.
    fn contracts_in_rooms(&self, cutoff: u32, rust: &Option<Contracted>) -> bool {
        let bases = rust.as_ref().map_or(0, |c| c.labels.iter().map(|l| l.len()).sum::<usize>());
        let labels = rust.as_ref().map_or(0, |c| c.labels.len());
        let rooms = [(bases + 9, labels + 3), (bases, labels), (bases.saturating_sub(1), labels), (bases, labels.saturating_sub(1))];
        rooms.iter().all(|&(room, entries)| self.contracts(cutoff, room, entries, rust))
    }

    // Contraction refuses with that number before it tests the marks, which may be too few, and leaves them too as they were.
    fn refuses(&self, cutoff: u32, number: u32) -> bool {
        [self.n + 1, self.n.saturating_sub(1)].iter().all(|marks| {
            let left = self.contract(cutoff, 99, 9, *marks);
            left.r == number && left.unwritten() && left.marks.iter().all(|m| *m == FREE)
        })
    }

    // With that bit in one of its words the table is unfit, also for a label and a cutoff that would be refused themselves, and no call changes it.
    fn unfit_with(mut self, bit: u32, place: usize) -> bool {
        self.counts[place] |= 1 << bit;
        let before = self.clone();
        let labels = [vec![], vec![b'A'; self.k + 1], vec![b'N'; self.k], vec![b'A'; 4097]];
        let mut adds = |label: &Vec<u8>| {
            self.add(label) == (5, [0; 2])
                && self.add_all(&[label.clone()], 0) == (5, [0, before.n as u64], [0; 2])
                && self == before
        };
        labels.iter().all(|label| adds(label)) && before.refuses(1, 5) && before.refuses(2, 5)
    }

    // What presence bits refuse: every cutoff but 1, and a bit that is none of theirs.
    fn keeps_to_presence(&self, i: usize, cutoff: u32) -> bool {
        [0, 2, cutoff].iter().all(|c| *c == 1 || self.refuses(*c, 15))
            && (self.n == 0 || self.clone().unfit_with(STRAY[i % STRAY.len()], i % self.n))
    }
}

// The FASTA in a slice that just holds it, in one byte more and in one byte less.
fn fasta(labels: &[u8], starts: &[u32], lengths: &[u32], count: usize, expected: &[u8]) -> bool {
    let write = |room: usize| {
        let (mut out, mut figures) = (vec![FREE; room], [0u64; 1]);
        let r = unsafe {
            lash_write_fasta(
                labels.as_ptr(), labels.len(), starts.as_ptr(), starts.len(), lengths.as_ptr(), lengths.len(), count, out.as_mut_ptr(),
                out.len(), figures.as_mut_ptr(), 1,
            )
        };
        (r, figures[0] as usize, out)
    };
    let n = expected.len();
    let (r, m, out) = write(n + 1);
    let loose = r == 0 && m == n && out[..n] == *expected && out[n] == FREE;
    let (r, m, out) = write(n);
    let tight = r == 0 && m == n && out == expected;
    loose && tight && (n == 0 || write(n - 1) == (11, 0, vec![FREE; n - 1]))
}

// The original's answer to a label, which it adds unless it is refused, and the figures.
fn answer<const K: usize>(graph: &mut Graph<K>, label: &[u8], capacity: usize) -> (u32, [u64; 2]) {
    match judge::refused(graph, label, capacity) {
        None => (0, [graph.add(label).unwrap(), graph.len() as u64]),
        Some(3) => {
            let place = label.iter().position(|b| !b"ACGTUacgtu".contains(b)).unwrap();
            (3, [place as u64, label[place] as u64])
        }
        Some(4) => (4, [label.len() as u64, 0]),
        Some(n) => (n as u32, [0, 0]),
    }
}

// Whether each kind does as the original with all labels in one call: they are added up to the first that is refused, and none is where the last
// entry lies past the text.
fn together<const K: usize>(kinds: &[u32], file: &File, capacity: usize) -> Vec<bool> {
    let mut graph = Graph::<K>::new(file.cutoff);
    let (mut added, mut last) = (0, (0, [0; 2]));
    for label in &file.labels {
        last = answer(&mut graph, label, capacity);
        if last.0 != 0 {
            break;
        }
        added += 1;
    }
    let vertices = graph.vertices();
    let same = |kind: &u32| {
        let mut ours = Ours::new(*kind, K, capacity);
        let past = file.labels.is_empty() || ours.add_all(&file.labels, 1) == (12, [0; 2], [0; 2]) && ours.holds(&vec![]);
        past && ours.add_all(&file.labels, 0) == (last.0, [added, vertices.len() as u64], last.1) && ours.holds(&vertices)
    };
    kinds.iter().map(same).collect()
}

// Whether each kind does as the original; a table that has differed is not lent again.
fn file_k<const K: usize>(kinds: &[u32], i: usize, file: &File, capacity: usize, scratch: &Path) -> Vec<bool> {
    let mut same = together::<K>(kinds, file, capacity);
    let mut tables: Vec<Ours> = kinds.iter().map(|kind| Ours::new(*kind, K, capacity)).collect();
    let (mut graph, mut at_one) = (Graph::<K>::new(file.cutoff), Graph::<K>::new(1));
    for label in &file.labels {
        let expected = answer(&mut graph, label, capacity);
        if expected.0 == 0 {
            at_one.add(label);
        }
        let vertices = graph.vertices();
        for (ours, same) in tables.iter_mut().zip(&mut same) {
            *same = *same && ours.add(label) == expected && ours.holds(&vertices);
        }
    }
    let rust = graph.contract(scratch);
    let rust_at_one = if file.cutoff == 1 || kinds == [0] { &rust } else { &at_one.contract(scratch) };
    for (ours, same) in tables.iter().zip(&mut same) {
        *same = *same
            && match ours.kind {
                0 => ours.contracts_in_rooms(file.cutoff, &rust),
                _ => ours.contracts_in_rooms(1, rust_at_one) && ours.keeps_to_presence(i, file.cutoff),
            };
    }
    same
}

// A file's records as calls, whatever becomes of them in the program.
fn same_file(kinds: &[u32], i: usize, bytes: &[u8], capacity: usize, scratch: &Path) -> Vec<bool> {
    let unsupported = |kind: u32, k: usize| {
        let left = Ours::new(kind, k, capacity).contract(2, 99, 9, 1);
        Ours::new(kind, k, capacity).add(b"ACGT") == (1, [k as u64, 0])
            && Ours::new(kind, k, capacity).add_all(&[b"ACGT".to_vec()], 0) == (1, [0; 2], [k as u64, 0])
            && (left.r, left.figures, left.marks) == (1, [k as u64, FREE_KEY], vec![FREE])
    };
    match judge::records(bytes) {
        Err(_) => vec![true; kinds.len()],
        Ok(file) if !(1..=63).contains(&file.k) => kinds.iter().map(|kind| unsupported(*kind, file.k)).collect(),
        Ok(file) => with_k!(file.k, file_k(kinds, i, &file, capacity, scratch)),
    }
}

fn table_k<const K: usize>(i: usize, t: &Table, scratch: &Path) -> Vec<bool> {
    let rust_at = |cutoff: u32| Graph::<K>::of(cutoff, &t.vertices).contract(scratch);
    let rust = rust_at(t.cutoff);
    let rust_at_one = if t.cutoff == 1 { &rust } else { &rust_at(1) };
    let [counts, presence] = kinds(i).map(|kind| Ours::of(kind, K, &t.vertices));
    vec![
        counts.contracts(t.cutoff, t.room, t.entries, &rust),
        presence.contracts(1, t.room, t.entries, rust_at_one) && presence.keeps_to_presence(i, t.cutoff),
    ]
}

pub fn main() {
    std::panic::set_hook(Box::new(|_| {}));
    let argument = |i: usize| std::env::args().nth(i).and_then(|s| s.parse::<usize>().ok()).expect("compare FIRST NUMBER");
    let (first, number) = (argument(1), argument(2));
    let scratch: PathBuf = std::env::temp_dir().join(format!("list-{}", std::process::id()));
    let mut differ = 0;
    let mut tried = |sort: &str, cases: &mut dyn Iterator<Item = (usize, Vec<bool>)>| {
        let mut found = [(0, vec![]), (0, vec![])];
        for (i, same) in cases {
            for (same, (compared, bad)) in same.into_iter().zip(&mut found) {
                *compared += 1;
                bad.extend((!same).then_some(i));
            }
        }
        for (kind, (compared, bad)) in ["counts", "presence bits"].iter().zip(found) {
            println!("{sort}, {kind}: {compared} compared, {} differ {:?}", bad.len(), &bad[..bad.len().min(10)]);
            differ += bad.len();
        }
    };
    let small = (1..=4)
        .flat_map(|k| (0..4).flat_map(move |cutoff| (0..cases::texts_up_to(if k < 3 { 6 } else { 7 })).map(move |i| (k, cutoff, i))))
        .enumerate();
    tried(
        "every label of up to 6 (K 1, 2) or 7 (K 3, 4) letters (counts at cutoffs 0 to 3)",
        &mut small.map(|(i, (k, cutoff, text))| {
            // The cutoff makes no other table of presence bits.
            let kinds = &kinds(i)[..if cutoff == 1 { 2 } else { 1 }];
            (i, same_file(kinds, i, &cases::file(k, cutoff, &[cases::text(text)]), 64, &scratch))
        }),
    );
    let range = first..first + number;
    let file = |i: usize, bytes: Vec<u8>, capacity: usize| (i, same_file(&kinds(i), i, &bytes, capacity, &scratch));
    tried("random files", &mut range.clone().map(|i| file(i, cases::random_file(i), 1024)));
    tried("random files, small tables", &mut range.clone().map(|i| file(i, cases::random_file(i), 1 + i % 40)));
    tried("large files", &mut (first..first + number / 100).map(|i| file(i, cases::large_file(i), 1024)));
    tried("hand-made tables", &mut range.clone().map(|i| (i, cases::table(i))).map(|(i, t)| (i, with_k!(t.k, table_k(i, &t, &scratch)))));
    std::fs::remove_file(&scratch).unwrap();
    std::process::exit((differ > 0) as i32);
}
