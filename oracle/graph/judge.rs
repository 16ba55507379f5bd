// What document 01 asks for, with the original's answers: the limits and the order of refusals are written here from the paper, everything else is
// what the original computes.
pub use crate::records::{File, records};
use crate::uncolored::{Contracted, Graph, Vertices};
use std::path::Path;

pub const VERTICES: usize = 1024;
pub const ENTRIES: usize = 1024;
pub const ROOM: usize = 8192;

// One call for each K from 1 to 63, since the original takes K as a constant.
#[macro_export]
macro_rules! with_k {
    ($k:expr, $f:ident ( $($arg:expr),* )) => {
        $crate::with_k!(@ $k, $f, ($($arg),*),
            1 2 3 4 5 6 7 8 9 10 11 12 13 14 15 16 17 18 19 20 21 22 23 24 25 26 27 28 29 30 31 32
            33 34 35 36 37 38 39 40 41 42 43 44 45 46 47 48 49 50 51 52 53 54 55 56 57 58 59 60 61 62 63)
    };
    (@ $k:expr, $f:ident, $args:tt, $($n:literal)*) => {
        match $k { $($n => $crate::with_k!(! $f, $n, $args),)* _ => unreachable!() }
    };
    (! $f:ident, $n:literal, ($($arg:expr),*)) => { $f::<$n>($($arg),*) };
}

// What the buffers hold after a run, and what is printed.
#[derive(Default)]
pub struct Run {
    pub printed: Vec<u8>,
    pub vertices: Vertices,
    pub labels: Vec<u8>,
    pub starts: Vec<u32>,
    pub lengths: Vec<u32>,
    pub marks: Vec<u8>,
}

fn refusal(n: usize, p: usize) -> Vec<u8> {
    format!("R {n} {p}\n").into_bytes()
}

fn is_base(b: u8) -> bool {
    b"ACGTUacgtu".contains(&b)
}

// The refusal of a label that the original would take in part, or for which there is no room: 4, then 3, then 6.
pub fn refused<const K: usize>(graph: &Graph<K>, label: &[u8], capacity: usize) -> Option<usize> {
    if label.len() > 4096 {
        return Some(4);
    }
    if label.len() < K {
        return None;
    }
    if !label.iter().all(|&b| is_base(b)) {
        return Some(3);
    }
    let mut grown = Graph::<K>::of(1, &graph.vertices());
    grown.add(label).unwrap();
    (grown.len() > capacity).then_some(6)
}

// Where the labels of a contraction stand in the buffer, in the order of the list.
pub fn index(c: &Contracted) -> (Vec<u8>, Vec<u32>, Vec<u32>) {
    let (mut starts, mut lengths) = (vec![], vec![]);
    for label in &c.list {
        let i = c.labels.iter().position(|l| l == label).unwrap();
        starts.push(c.labels[..i].iter().map(|l| l.len() as u32).sum());
        lengths.push(label.len() as u32);
    }
    (c.labels.concat(), starts, lengths)
}

fn run_k<const K: usize>(file: &File, scratch: &Path) -> Run {
    let mut graph = Graph::<K>::new(file.cutoff);
    for (i, label) in file.labels.iter().enumerate() {
        if let Some(n) = refused(&graph, label, VERTICES) {
            let vertices = graph.vertices();
            return Run { printed: refusal(n, i + 1), marks: vec![0; vertices.len()], vertices, ..Run::default() };
        }
        graph.add(label).unwrap();
    }
    let vertices = graph.vertices();
    let records = file.labels.len() + 1;
    let c = graph.contract(scratch).unwrap();
    let blank = Run { marks: vec![0; vertices.len()], vertices: vertices.clone(), ..Run::default() };
    let (labels, starts, lengths) = index(&c);
    if labels.len() > ROOM || starts.len() > ENTRIES {
        return Run { printed: refusal(9, records), ..blank };
    }
    let printed = if c.fasta.len() > ROOM { refusal(11, records) } else { c.fasta };
    Run { printed, vertices, labels, starts, lengths, marks: c.marks }
}

// The whole program.
pub fn run(bytes: &[u8], scratch: &Path) -> Run {
    match records(bytes) {
        Err(record) => Run { printed: refusal(13, record), ..Run::default() },
        Ok(file) if !(1..=63).contains(&file.k) => Run { printed: refusal(1, 0), ..Run::default() },
        Ok(file) => with_k!(file.k, run_k(&file, scratch)),
    }
}
