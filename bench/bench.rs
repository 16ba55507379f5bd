// bench VERTICES [KIND [judging]]: times this library and the Rust original side by side, in one process, on the same labels, and prints the ratio of times:
// below 1 this library is faster. Lent buffers are made and filled with ones before the clock starts. Each time is the least of several runs. The lists
// are compared byte by byte. KIND is that of the library's tables: 0, as where none is given, counts; 1 presence bits, with the cases of cutoff 1 alone.
// The original's graph is its counted one for both. A process times one kind, since of two the one that runs more often would read faster.
// With a third word it times instead how long judging a contraction's list takes beside that contraction, which the original has not.
use crate::cases::{turned, Dice};
use crate::library::*;
use crate::uncolored::Graph;
use std::time::Instant;

// All cases are run in several rounds, so that a host that is slow for a while is not slow for a case, and in a round several times, the two sides in turn.
const ROUNDS: usize = 5;
const TURNS: usize = 4;

struct Case {
    name: &'static str,
    kind: u32,
    k: usize,
    n: usize,
    cutoff: u32,
    labels: Vec<Vec<u8>>,
}

fn random(dice: &mut Dice, length: usize) -> Vec<u8> {
    (0..length).map(|_| b"ACGT"[dice.below(4)]).collect()
}

// Texts of `length` letters until they have n windows in all.
fn texts(dice: &mut Dice, k: usize, n: usize, length: usize, mut text: impl FnMut(&mut Dice, usize) -> Vec<u8>) -> Vec<Vec<u8>> {
    let (mut labels, mut left) = (vec![], n);
    while left > 0 {
        let windows = left.min(length - k + 1);
        labels.push(text(dice, windows + k - 1));
        left -= windows;
    }
    labels
}

// Reads of 150 letters on either strand, one letter in a hundred wrong, until they have n different k-mers or nearly so.
fn reads(dice: &mut Dice, k: usize, n: usize) -> Vec<Vec<u8>> {
    let genome = random(dice, n / 4 + 150);
    let mut seen = std::collections::HashSet::new();
    let mut labels = vec![];
    loop {
        let from = dice.below(genome.len() - 149);
        let mut read = genome[from..from + 150].to_vec();
        for letter in &mut read {
            if dice.below(100) == 0 {
                *letter = dice.pick(b"ACGT");
            }
        }
        if dice.below(2) == 0 {
            read = turned(&read);
        }
        let other = turned(&read);
        let windows: Vec<Vec<u8>> = (0..=150 - k).map(|i| read[i..i + k].to_vec().min(other[150 - k - i..150 - i].to_vec())).collect();
        if seen.len() + windows.iter().filter(|w| !seen.contains(*w)).count() > n {
            return labels;
        }
        seen.extend(windows);
        labels.push(read);
    }
}

// Each step of one random text as a label of its own.
fn edges(dice: &mut Dice, k: usize, n: usize) -> Vec<Vec<u8>> {
    random(dice, n + k - 1).windows(k + 1).map(|w| w.to_vec()).collect()
}

fn cases(kind: u32, k: usize, n: usize) -> Vec<Case> {
    let dice = &mut Dice::new((k * n) as u64);
    let case = |name, cutoff, labels| Case { name, kind, k, n, cutoff, labels };
    let skewed = |dice: &mut Dice, length: usize| -> Vec<u8> {
        match dice.below(3) {
            0 => (0..length).map(|_| if dice.below(10) == 0 { dice.pick(b"CG") } else { dice.pick(b"AT") }).collect(),
            1 => (0..length).map(|i| if i % 7 == 0 { dice.pick(b"ACGT") } else { b'A' }).collect(),
            _ => {
                let unit = random(dice, 40);
                (0..length).map(|i| if dice.below(20) == 0 { dice.pick(b"ACGT") } else { unit[i % 40] }).collect()
            }
        }
    };
    let mut all = vec![
        case("random, 400 windows", 1, texts(dice, k, n, k + 399, random)),
        case("reads", 1, reads(dice, k, n)),
        case("labels of 4,096", 1, texts(dice, k, n, 4096, random)),
        case("labels of K+1", 1, edges(dice, k, n)),
        case("unitigs of two vertices", 1, texts(dice, k, n, k + 1, random)),
        case("random, cutoff 0", 0, texts(dice, k, n, k + 399, random)),
        case("skewed", 1, texts(dice, k, n, k + 399, skewed)),
    ];
    // Presence bits answer for cutoff 1 alone.
    all.retain(|c| kind == 0 || c.cutoff == 1);
    all
}

// Nanoseconds of adding and of contraction, the FASTA, and nanoseconds of adding by one call.
type Timed = (f64, f64, Vec<u8>, f64);

fn rust<const K: usize>(c: &Case) -> Timed {
    let begin = Instant::now();
    let mut graph = Graph::<K>::new(c.cutoff);
    for label in &c.labels {
        graph.add(label).unwrap();
    }
    let added = begin.elapsed();
    let begin = Instant::now();
    let list = graph.list();
    let contracted = begin.elapsed();
    let fasta = list.iter().flat_map(|l| [b">0\n", &l[..], b"\n"].concat()).collect();
    (added.as_nanos() as f64, contracted.as_nanos() as f64, fasta, added.as_nanos() as f64)
}

struct Table {
    keys: Vec<u64>,
    counts: Vec<u32>,
    n: usize,
}

// The table of a case by a call for each label, and the nanoseconds of adding.
fn grown(c: &Case) -> (Table, f64) {
    let (mut keys, mut counts, mut n, mut figures) = (vec![1u64; 2 * c.n], vec![1u32; c.n], 0, [0u64; 2]);
    let begin = Instant::now();
    for label in &c.labels {
        let r = unsafe {
            lash_add_label(c.kind, 0, c.k, n, keys.as_mut_ptr(), keys.len(), counts.as_mut_ptr(), counts.len(), label.as_ptr(), label.len(), figures.as_mut_ptr(), 2)
        };
        assert_eq!(r, 0);
        n = figures[1] as usize;
    }
    let added = begin.elapsed();
    (Table { keys, counts, n }, added.as_nanos() as f64)
}

// The table of a case by one call for all labels, and the nanoseconds of adding.
fn grown_by_one_call(c: &Case) -> (Table, f64) {
    let (mut keys, mut counts, mut totals) = (vec![1u64; 2 * c.n], vec![1u32; c.n], [0u64; 2]);
    let text = c.labels.concat();
    let lengths: Vec<u32> = c.labels.iter().map(|l| l.len() as u32).collect();
    let starts: Vec<u32> = lengths.iter().scan(0, |end, n| Some(std::mem::replace(end, *end + n))).collect();
    let begin = Instant::now();
    let r = unsafe {
        lash_add_labels(
            c.kind, 0, c.k, 0, keys.as_mut_ptr(), keys.len(), counts.as_mut_ptr(), counts.len(), text.as_ptr(), text.len(), starts.as_ptr(), starts.len(),
            lengths.as_ptr(), lengths.len(), lengths.len(), totals.as_mut_ptr(), 2, [0u64; 2].as_mut_ptr(), 2,
        )
    };
    let added = begin.elapsed();
    assert_eq!((r, totals[0]), (0, c.labels.len() as u64));
    (Table { keys, counts, n: totals[1] as usize }, added.as_nanos() as f64)
}

// The nanoseconds of adding all labels by one call, which has to come to the same table.
fn grown_at_once(c: &Case, t: &Table) -> f64 {
    let (table, added) = grown_by_one_call(c);
    assert!(table.n == t.n && table.keys == t.keys && table.counts == t.counts, "the tables differ: K {}, {}, {}", c.k, c.n, c.name);
    added
}

// Nanoseconds of contraction, and the FASTA.
fn contracted(c: &Case, t: &Table) -> (f64, Vec<u8>) {
    let (mut labels, mut out) = (vec![1u8; c.n * c.k], vec![1u8; c.n * (c.k + 4)]);
    let (mut starts, mut lengths, mut marks, mut figures) = (vec![1u32; c.n], vec![1u32; c.n], vec![1u8; c.n], [0u64; 2]);
    let begin = Instant::now();
    let r = unsafe {
        lash_contract(
            c.kind, c.k, c.cutoff, t.n, t.keys.as_ptr(), t.keys.len(), t.counts.as_ptr(), t.counts.len(), labels.as_mut_ptr(), labels.len(),
            starts.as_mut_ptr(), starts.len(), lengths.as_mut_ptr(), lengths.len(), marks.as_mut_ptr(), marks.len(), figures.as_mut_ptr(), 2,
        )
    };
    let took = begin.elapsed();
    assert_eq!(r, 0);
    let count = figures[0] as usize;
    let r = unsafe {
        lash_write_fasta(
            labels.as_ptr(), labels.len(), starts.as_ptr(), starts.len(), lengths.as_ptr(), lengths.len(), count, out.as_mut_ptr(), out.len(),
            figures.as_mut_ptr(), 1,
        )
    };
    assert_eq!(r, 0);
    out.truncate(figures[0] as usize);
    (took.as_nanos() as f64, out)
}

fn lesser(a: Timed, b: Timed) -> Timed {
    (a.0.min(b.0), a.1.min(b.1), b.2, a.3.min(b.3))
}

// A case, its table once there is one, and the least times of both sides so far.
struct Row {
    case: Case,
    table: Option<(Table, f64, f64)>,
    least: Option<(Timed, Timed)>,
}

impl Row {
    // Many labels, of which each takes as long as the test of a large table: these are added once.
    fn is_dear(&self) -> bool {
        self.case.labels[0].len() == self.case.k + 1 && self.case.n > 20000
    }

    // One run of each side.
    fn run(&mut self) {
        let (k, c) = (self.case.k, &self.case);
        let theirs = with_k!(k, rust(c));
        let (table, added, at_once) = match self.table.take() {
            Some(grown) if self.is_dear() => grown,
            _ => {
                let (table, added) = grown(c);
                let at_once = grown_at_once(c, &table);
                (table, added, at_once)
            }
        };
        let (took, fasta) = contracted(c, &table);
        assert!(fasta == theirs.2, "the lists differ: K {k}, {}, {}", c.n, c.name);
        let mine = (added, took, fasta, at_once);
        self.table = Some((table, added, at_once));
        self.least = Some(match self.least.take() {
            None => (theirs, mine),
            Some(least) => (lesser(least.0, theirs), lesser(least.1, mine)),
        });
    }

    fn print(&self) {
        let Some((theirs, mine)) = &self.least else { return };
        let c = &self.case;
        let windows: usize = c.labels.iter().map(|l| l.len() + 1 - c.k).sum();
        println!(
            "| {} | {} | {} | {:.2} | {:.2} | {:.2} | {:.2} | {:.0}, {:.0} |",
            c.k, c.n, c.name, mine.0 / theirs.0, mine.3 / theirs.3, mine.1 / theirs.1, (mine.0 + mine.1) / (theirs.0 + theirs.1), theirs.0 / windows as f64, theirs.1 / c.n as f64
        );
    }
}

// Nanoseconds of judging a list that gets yes.
fn judged(c: &Case, t: &Table, fasta: &[u8]) -> f64 {
    let (mut marks, mut figures) = (vec![1u8; t.n], [1u64; 2]);
    let begin = Instant::now();
    let r = unsafe {
        lash_judge(
            c.kind, c.k, c.cutoff, t.n, t.keys.as_ptr(), t.keys.len(), t.counts.as_ptr(), t.counts.len(), fasta.as_ptr(), fasta.len(),
            marks.as_mut_ptr(), marks.len(), figures.as_mut_ptr(), 2,
        )
    };
    let took = begin.elapsed();
    assert_eq!((r, figures), (0, [0, 0]));
    took.as_nanos() as f64
}

// For each case the least times of contraction and of judging its list, in turn.
fn print_judging(all: impl Iterator<Item = Case>) {
    let mut rows: Vec<(Case, Table, f64, f64)> = vec![];
    for case in all {
        let (table, _) = grown_by_one_call(&case);
        rows.push((case, table, f64::MAX, f64::MAX));
    }
    for _ in 0..ROUNDS {
        for (case, table, contraction, judging) in &mut rows {
            for _ in 0..TURNS {
                let (took, fasta) = contracted(case, table);
                *contraction = contraction.min(took);
                *judging = judging.min(judged(case, table, &fasta));
            }
        }
    }
    println!("| K | vertices | labels | judging / contraction | contraction, judging: ns a vertex |");
    println!("|---|---|---|---|---|");
    for (c, t, contraction, judging) in &rows {
        let [each, other] = [contraction, judging].map(|took| took / t.n as f64);
        println!("| {} | {} | {} | {:.2} | {each:.0}, {other:.0} |", c.k, c.n, c.name, judging / contraction);
    }
}

pub fn main() {
    let most: usize = std::env::args().nth(1).and_then(|s| s.parse().ok()).unwrap_or(65536);
    let kind: u32 = std::env::args().nth(2).map_or(0, |s| s.parse().unwrap());
    let sizes = [1024, 16384, 65536].into_iter().filter(|n| *n <= most);
    let all = sizes.flat_map(|n| [15, 31, 33, 63].into_iter().flat_map(move |k| cases(kind, k, n)));
    if std::env::args().nth(3).is_some() {
        return print_judging(all);
    }
    let mut rows: Vec<Row> = all.map(|case| Row { case, table: None, least: None }).collect();
    for _ in 0..ROUNDS {
        for row in &mut rows {
            for _ in 0..TURNS {
                row.run();
            }
        }
    }
    println!("| K | vertices | labels | adding | by one call | contraction | both | Rust: ns a window, ns a vertex |");
    println!("|---|---|---|---|---|---|---|---|");
    for row in &rows {
        row.print();
    }
}
