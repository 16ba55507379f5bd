// Answers the questions of crates/colours_test by the Rust original: oracle/record builds it and writes
// crates/colours_test/stdout. The original has no reader of run lists: document 02's rules stand in, over its words
// (graph/runs.rs). state.rs asks its crate for three things: dna.rs, `Side` (of lib.rs, written out here) and a hash
// that no colour uses here.
#![allow(dead_code)]

extern crate self as xxhash_rust;

#[path = "SOURCE/dna.rs"]
mod dna;
#[path = "HERE/graph/runs.rs"]
mod runs;
#[path = "SOURCE/state.rs"]
mod state;

pub mod xxh3 {
    pub fn xxh3_64(_: &[u8]) -> u64 {
        unreachable!()
    }
}

#[derive(Debug, Clone, Copy, PartialEq, Eq, Hash)]
pub enum Side {
    Front = 0,
    Back = 1,
}

use runs::{color, coordinate_of, is_sound, run_of};
use state::{ColorCoordinate, UnitigColor};
use std::panic::catch_unwind;

const FREE: u64 = 0xeeee;
const CELLS: usize = 9;

// R22 where the original asserts.
fn parts(c: ColorCoordinate) {
    match catch_unwind(|| c.as_u40()) {
        Ok(value) => print!(" {value}"),
        Err(_) => print!(" R22"),
    }
    match runs::parts(c) {
        Some((worker, index)) => print!(" {worker} {index}"),
        None => print!(" R22 R22"),
    }
    if c.is_in_process() {
        print!(" in process");
    }
}

fn coordinate(made: std::thread::Result<ColorCoordinate>) {
    match made {
        Ok(c) => parts(c),
        Err(_) => print!(" R22"),
    }
    println!();
}

fn discovered(worker: u64, index: u64) {
    print!("discovered {worker} {index}:");
    coordinate(catch_unwind(|| ColorCoordinate::discovered(worker, index)));
}

fn from_u40(value: u64) {
    print!("from {value}:");
    coordinate(catch_unwind(|| ColorCoordinate::from_u40(value)));
}

fn held(value: u64) {
    print!("held {value}:");
    coordinate(Ok(coordinate_of(value)));
}

fn run(offset: u32, value: u64) {
    print!("run {offset} {value}:");
    match catch_unwind(|| UnitigColor::new(offset, coordinate_of(value))) {
        Ok(r) => println!(" {} {} {}", r.raw(), r.offset(), r.coordinate()),
        Err(_) => println!(" R22"),
    }
}

fn list(words: &[u64], kmers: u64) {
    let runs: Vec<UnitigColor> = words.iter().map(|w| run_of(*w)).collect();
    let sound = is_sound(&runs, kmers);
    print!("list {} {} {}:", runs.len(), kmers, if sound { "sound" } else { "R23" });
    for vertex in (0..10).chain([0xfffffe, 0xffffff, 0x1000000, 0xffffffff]) {
        if !sound {
            print!(" R23");
        } else if vertex >= kmers {
            print!(" R24");
        } else {
            print!(" {}", color(&runs, vertex));
        }
    }
    let mut cells = [FREE; CELLS];
    if !sound {
        print!("; R23");
    } else if kmers > CELLS as u64 {
        print!("; R9");
    } else {
        print!("; {kmers}");
        (0..kmers).for_each(|vertex| cells[vertex as usize] = color(&runs, vertex));
    }
    println!("{}", cells.map(|c| format!(" {c}")).concat());
}

fn coordinates() {
    discovered(0, 0);
    discovered(7, 3);
    discovered(255, 0);
    discovered(0, 0xffffffff);
    discovered(255, 0xffffffff);
    discovered(256, 0);
    discovered(0, 0x100000000);
    discovered(u64::MAX, u64::MAX);
    from_u40(0);
    from_u40(775);
    from_u40(0xffffffffff);
    from_u40(0x10000000000);
    from_u40(1 << 63);
    held(0xffffffffff);
    held(0x10000000000);
    held(1 << 63);
    held((1 << 63) + 775);
    held(u64::MAX);
}

fn packed() {
    run(0, 0);
    run(5, 775);
    run(0xffffff, 0xffffffffff);
    run(0x1000000, 0);
    run(0xffffffff, 0);
    run(0, 0x10000000000);
    run(0, (1 << 63) + 1);
    run(5, (1 << 63) + 775);
}

fn main() {
    std::panic::set_hook(Box::new(|_| {}));
    coordinates();
    packed();
    list(&[], 8);
    list(&[0x4000000], 8);
    list(&[0x4000000], 1);
    list(&[0x4000000], 0);
    list(&[0x4000001], 8);
    list(&[0x4000000, 0x9000003, 0x4000007], 10);
    list(&[0x4000000, 0x9000003, 0x4000007], 8);
    list(&[0x4000000, 0x9000003, 0x4000007], 7);
    list(&[0x4000000, 0x9000003, 0x4000003], 8);
    list(&[0x4000000, 0x9000003, 0x4000002], 8);
    list(&[0x1000000, 0x2000001, 0x3000002, 0x4000003, 0x5000004, 0x6000005, 0x7000006, 0x8000007], 9);
    list(&[0xffffffffff000000, 0xffffff], 0xffffff);
    list(&[0xffffffffff000000, 0xffffff], 0x1000000);
    list(&[0xffffffffff000000, 0xffffff], 0xffffffff);
    list(&[0xffffffffff000000, 0xffffff], 0x100000000);
}
