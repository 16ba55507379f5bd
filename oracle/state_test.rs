// Answers the questions of crates/state_test by the Rust original: oracle/record builds it and writes crates/state_test/stdout.
// state.rs asks its crate for three things: dna.rs, `Side` (of lib.rs, written out here) and a hash that no counter uses.
// With presence bits the original guards its cutoff and its edges by debug_assert alone, so this is built with these assertions on.
#![allow(dead_code)]

extern crate self as xxhash_rust;

#[path = "SOURCE/dna.rs"]
mod dna;
#[path = "SOURCE/state.rs"]
mod state;

pub mod xxh3 {
    pub fn xxh3_64(_: &[u8]) -> u64 {
        unreachable!()
    }
}

#[derive(Debug, Clone, Copy, PartialEq, Eq, Hash)]
pub enum Side {
    Front = 0,
    Back = 1,
}

use dna::Base;
use state::{Counted, EdgeFrequency, Presence, VertexState};
use std::panic::{catch_unwind, AssertUnwindSafe};

const BASES: [Base; 6] = [Base::A, Base::C, Base::G, Base::T, Base::N, Base::E];
const SIDES: [Side; 2] = [Side::Front, Side::Back];

// The counters as EdgeFrequency keeps them, and as a vertex does; the second is grown by `update_edges` alone.
#[derive(Clone, Copy)]
struct Both {
    edges: EdgeFrequency,
    vertex: VertexState<Counted>,
}

// The word of counters, which only the debug text shows.
fn word(shown: &dyn std::fmt::Debug) -> u32 {
    let text = format!("{:?}", shown);
    let from = text.find("packed: ").unwrap() + 8;
    text[from..].split(' ').next().unwrap().parse().unwrap()
}

impl Both {
    fn new() -> Both {
        Both { edges: EdgeFrequency::default(), vertex: VertexState::EMPTY }
    }

    fn add(&mut self, side: Side, edge: Base) {
        self.edges.add_edge(side, edge);
        match side {
            Side::Front => self.vertex.update_edges(edge, Base::E),
            Side::Back => self.vertex.update_edges(Base::E, edge),
        }
        assert_eq!(word(&self.edges), word(&self.vertex));
    }

    fn print(&self) {
        print!("word {:08x}", word(&self.edges));
        for slot in 0..8 {
            print!(" {}", self.edges.frequency(SIDES[slot / 4], slot as u32 % 4));
        }
        println!();
        for cutoff in [0, 1, 2, 15, 16, u32::MAX] {
            print!("cutoff {}", cutoff);
            for side in SIDES {
                let at = self.edges.edge_at(side, cutoff);
                assert_eq!(at, self.vertex.edge_at(side, cutoff));
                print!(
                    " {} {} {} {}",
                    self.edges.edge_count(side, cutoff),
                    at.bits(),
                    self.vertex.is_branching_side(side, cutoff) as u8,
                    self.vertex.is_empty_side(side, cutoff) as u8
                );
            }
            println!(" {}", self.vertex.is_isolated(cutoff) as u8);
        }
    }
}

// Counter `slot` raised n times, with `others` in each other counter.
fn raised(slot: usize, n: u32, others: u32) -> Both {
    let mut both = Both::new();
    for other in 0..8 {
        let times = if other == slot { n } else { others };
        for _ in 0..times {
            both.add(SIDES[other / 4], BASES[other % 4]);
        }
    }
    both
}

// An assertion of the original is refusal 10.
fn call(f: impl Fn() -> u32 + std::panic::UnwindSafe) {
    match catch_unwind(f) {
        Ok(word) => println!(" {:08x}", word),
        Err(_) => println!(" R10"),
    }
}

// A vertex of presence bits, whose word is all that it holds.
fn present(flags: u32) -> VertexState<Presence> {
    unsafe { std::mem::transmute(flags) }
}

fn flags(vertex: VertexState<Presence>) -> u32 {
    unsafe { std::mem::transmute(vertex) }
}

// How many of a side's bases are in the word: the original has no edge_count for presence bits, but its other answers have to agree.
fn edge_count(word: u32, side: usize) -> u32 {
    let bases: Vec<usize> = (0..4).filter(|base| word & 8 << (4 * side + base) != 0).collect();
    let (vertex, side) = (present(word), SIDES[side]);
    let at = match bases[..] {
        [] => Base::E,
        [base] => BASES[base],
        _ => Base::N,
    };
    assert_eq!(vertex.edge_at(side, 1), at);
    assert_eq!(vertex.is_branching_side(side, 1), bases.len() > 1);
    assert_eq!(vertex.is_empty_side(side, 1), bases.is_empty());
    bases.len() as u32
}

// An assertion of the original is refusal 15. At cutoff 0 it has none and answers as at 1; document 02 refuses every cutoff but 1.
fn ask(cutoff: u32, question: impl Fn(u32) -> u32) {
    let answer = catch_unwind(AssertUnwindSafe(|| question(cutoff))).ok();
    match cutoff {
        0 => assert_eq!(answer, Some(question(1))),
        1 => assert!(answer.is_some()),
        _ => assert_eq!(answer, None),
    }
    match answer {
        Some(n) if cutoff == 1 => print!(" {}", n),
        _ => print!(" R15"),
    }
}

fn show_present(word: u32) {
    let vertex = present(word);
    let counts = [edge_count(word, 0), edge_count(word, 1)];
    assert_eq!(vertex.is_isolated(1), counts == [0, 0]);
    println!("presence {:08x}", word);
    for cutoff in [0, 1, 2, 16] {
        print!("cutoff {}", cutoff);
        for (side, count) in SIDES.into_iter().zip(counts) {
            // The count is refused where the base is.
            ask(cutoff, |c| {
                vertex.edge_at(side, c);
                count
            });
            ask(cutoff, |c| vertex.edge_at(side, c).bits() as u32);
            ask(cutoff, |c| vertex.is_branching_side(side, c) as u32);
            ask(cutoff, |c| vertex.is_empty_side(side, c) as u32);
        }
        ask(cutoff, |c| vertex.is_isolated(c) as u32);
        println!();
    }
}

// The original marks edges by update_edges alone, where E is a missing one: that a single edge may not be E is its counters' assertion.
fn mark_from(word: u32) {
    println!("presence {:08x}", word);
    for side in 0..2 {
        for code in 0..6 {
            print!("add {} {}", side, code);
            call(move || {
                EdgeFrequency::default().add_edge(SIDES[side], BASES[code]);
                let mut vertex = present(word);
                match SIDES[side] {
                    Side::Front => vertex.update_edges(BASES[code], Base::E),
                    Side::Back => vertex.update_edges(Base::E, BASES[code]),
                }
                flags(vertex)
            });
        }
    }
    for front in 0..6 {
        for back in 0..6 {
            print!("update {} {}", front, back);
            call(move || {
                let mut vertex = present(word);
                vertex.update_edges(BASES[front], BASES[back]);
                flags(vertex)
            });
        }
    }
}

fn main() {
    assert!(cfg!(debug_assertions), "build with -C debug-assertions=on");
    std::panic::set_hook(Box::new(|_| {}));
    for others in [0, 2, 15] {
        for n in [0, 1, 15, 16] {
            for slot in 0..8 {
                raised(slot, n, others).print();
            }
        }
    }
    let start = raised(1, 14, 3);
    for side in 0..2 {
        for code in 0..6 {
            print!("add {} {}", side, code);
            call(move || {
                let mut edges = start.edges;
                edges.add_edge(SIDES[side], BASES[code]);
                word(&edges)
            });
        }
    }
    for front in 0..6 {
        for back in 0..6 {
            print!("update {} {}", front, back);
            call(move || {
                let mut vertex = start.vertex;
                vertex.update_edges(BASES[front], BASES[back]);
                word(&vertex)
            });
        }
    }
    for word in (0..256).map(|bits| bits << 3) {
        show_present(word);
    }
    for word in [0x7f9, 0x807, 0x80000000, 0xfffff807, 0xfffffaaf, 0xffffffff] {
        show_present(word);
    }
    for word in [0, 0x128, 0x7f8, 0x807, 0xfffff807, 0xffffffff] {
        mark_from(word);
    }
}
