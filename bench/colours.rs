// Times the library's calls on a label's run list beside the same written plainly in Rust, on the same lists, in one
// process: the colours of all vertices, beside a test of the list and a fill for each run; the test of a list alone;
// and the colour at one vertex after another, beside the test and a binary search. Prints millions a second, of
// vertices, of runs and of calls. Each time is the least of several, and the answers are compared in each.
#![allow(dead_code)]

#[path = "../oracle/graph/cases.rs"]
mod cases;
#[path = "../oracle/graph/library.rs"]
mod library;

use cases::Dice;
use library::{lash_check_runs, lash_color_at, lash_write_colors};
use std::hint::black_box;
use std::time::Instant;

const ROUNDS: usize = 15;

fn offset(run: u64) -> usize {
    (run & 0xffffff) as usize
}

fn is_sound(runs: &[u64], kmers: usize) -> bool {
    !runs.is_empty()
        && offset(runs[0]) == 0
        && runs.windows(2).all(|w| offset(w[0]) < offset(w[1]))
        && offset(runs[runs.len() - 1]) < kmers
}

fn plain_colors(runs: &[u64], kmers: usize, out: &mut [u64]) -> bool {
    if !is_sound(runs, kmers) || out.len() < kmers {
        return false;
    }
    for (i, run) in runs.iter().enumerate() {
        let end = runs.get(i + 1).map_or(kmers, |next| offset(*next));
        out[offset(*run)..end].fill(run >> 24);
    }
    true
}

fn plain_color(runs: &[u64], kmers: usize, vertex: usize) -> Option<u64> {
    (is_sound(runs, kmers) && vertex < kmers).then(|| runs[runs.partition_point(|r| offset(*r) <= vertex) - 1] >> 24)
}

// The least time of several for each side, in nanoseconds.
fn least(mut sides: [&mut dyn FnMut(); 2]) -> [f64; 2] {
    let mut least = [f64::MAX; 2];
    for _ in 0..ROUNDS {
        for (side, least) in sides.iter_mut().zip(&mut least) {
            let begin = Instant::now();
            side();
            *least = least.min(begin.elapsed().as_nanos() as f64);
        }
    }
    least
}

fn row(name: &str, number: usize, what: &str, took: [f64; 2]) {
    let [ours, plain] = took.map(|took| number as f64 * 1e3 / took);
    let digits = if ours < 10.0 { 1 } else { 0 };
    println!("| {name} | {what} | {ours:.digits$} | {plain:.digits$} |");
}

// A list of runs of up to so many vertices.
fn case(name: &str, vertices: usize, most: usize) {
    let dice = &mut Dice::new(most as u64);
    let mut runs = vec![];
    let mut at = 0;
    while at < vertices {
        runs.push((dice.next() << 24) | at as u64);
        at += 1 + dice.below(most);
    }
    let (mut ours, mut plain, mut figure) = (vec![7; vertices], vec![7; vertices], 0);
    let (runs, words, count) = (&runs[..], runs.as_ptr(), runs.len());
    let took = least([
        &mut || {
            let out = black_box(&mut ours).as_mut_ptr();
            assert_eq!(0, unsafe { lash_write_colors(words, count, vertices, out, vertices, &mut figure, 1) });
        },
        &mut || assert!(plain_colors(runs, vertices, black_box(&mut plain))),
    ]);
    assert!(ours == plain, "the colours differ: {name}");
    row(name, vertices, "vertices coloured", took);
    let took = least([
        &mut || assert_eq!(0, unsafe { lash_check_runs(black_box(words), count, vertices) }),
        &mut || assert!(is_sound(black_box(runs), vertices)),
    ]);
    row(name, count, "runs tested", took);
}

// The colour at 1,024 vertices of a list of so many runs of three, one call for each.
fn asked(name: &str, count: usize) {
    let dice = &mut Dice::new(count as u64);
    let runs: Vec<u64> = (0..count as u64).map(|i| (dice.next() << 24) | 3 * i).collect();
    let vertices: Vec<u32> = (0..1024).map(|_| dice.below(3 * count) as u32).collect();
    let (mut ours, mut plain) = (vec![0; 1024], vec![0; 1024]);
    let took = least([
        &mut || {
            for (vertex, cell) in vertices.iter().zip(black_box(&mut ours)) {
                assert_eq!(0, unsafe { lash_color_at(runs.as_ptr(), runs.len(), 3 * count, *vertex, cell, 1) });
            }
        },
        &mut || {
            for (vertex, cell) in vertices.iter().zip(black_box(&mut plain)) {
                *cell = plain_color(black_box(&runs), 3 * count, *vertex as usize).unwrap();
            }
        },
    ]);
    assert!(ours == plain, "the colours differ: {name}");
    row(name, 1024, "calls for one vertex", took);
}

fn main() {
    println!("| list | millions a second | library | plainly |");
    println!("|---|---|---|---|");
    case("65,536 vertices in one run", 65536, 65536 * 65536);
    case("65,536 vertices, runs of up to 1,000", 65536, 1000);
    case("65,536 vertices, runs of up to 30", 65536, 30);
    case("65,536 vertices, runs of up to 3", 65536, 3);
    case("65,536 vertices, runs of one", 65536, 1);
    case("2^23 vertices, runs of up to 30", 1 << 23, 30);
    asked("3 vertices in one run", 1);
    asked("30 vertices in ten runs", 10);
    asked("3,000 vertices in 1,000 runs", 1000);
}
