// Compares the library's calls on colours with the original's `ColorCoordinate` and `UnitigColor`: the number returned,
// the figures and every lent cell; 22 is wanted where the original asserts. It has no reader of run lists: of these,
// document 02's rules stand in, over its words (runs.rs). `colours FIRST NUMBER` tries NUMBER cases of each sort from
// FIRST on, prints how many calls were compared, which cases differ, and how often each answer was given, and exits
// with 1 if a case differs.
#[path = "runs.rs"]
mod runs;

use crate::cases::Dice;
use crate::library::*;
use crate::state::{ColorCoordinate, UnitigColor};
use runs::{color, coordinate_of, is_sound, parts, run_of, value};
use std::collections::{BTreeMap, BTreeSet};
use std::panic::{UnwindSafe, catch_unwind};

// What stands in cells that no call may touch.
const FREE: u64 = 0xd9d9d9d9d9d9d9d9;

// A refusal, or the figures.
type Said = Result<Vec<u64>, u32>;

// By the original: 22 where it asserts.
fn asked(figure: impl FnOnce() -> u64 + UnwindSafe) -> Said {
    catch_unwind(figure).map(|f| vec![f]).map_err(|_| 22)
}

#[derive(Default)]
struct Tally {
    calls: usize,
    answers: BTreeMap<String, usize>,
    differ: BTreeSet<usize>,
}

impl Tally {
    // Compares one call that has room for so many figures.
    fn compare(&mut self, i: usize, name: &str, wanted: Said, room: usize, call: impl FnOnce(*mut u64, usize) -> u32) {
        let (mut figures, mut noted) = (vec![FREE; room], vec![FREE; room]);
        let number = call(figures.as_mut_ptr(), room);
        if let Ok(values) = &wanted {
            noted.iter_mut().zip(values).for_each(|(cell, value)| *cell = *value);
        }
        let refusal = wanted.err().unwrap_or(0);
        self.same(i, (number, figures), (refusal, noted));
        self.calls += 1;
        *self.answers.entry(format!("{name} {refusal}")).or_default() += 1;
    }

    fn same<T: PartialEq>(&mut self, i: usize, got: T, wanted: T) {
        if got != wanted {
            self.differ.insert(i);
        }
    }

    fn report(&self, name: &str) {
        println!("{name}: {} calls, {} cases differ", self.calls, self.differ.len());
        for i in self.differ.iter().take(10) {
            println!("    case {i} differs");
        }
        let answers: Vec<String> = self.answers.iter().map(|(what, times)| format!("{what}: {times}")).collect();
        println!("    {}", answers.join(", "));
    }
}

// Mostly a number of so many bits, and often one at the limit, on either side of it.
fn near(dice: &mut Dice, bits: u32) -> u64 {
    let top = 1u64 << bits;
    match dice.below(6) {
        0 => dice.pick(&[0, 1, top / 2, top - 2, top - 1]),
        1 => dice.pick(&[top, top + 1, 2 * top - 1, 1 << 63, u64::MAX]),
        2 => dice.next() >> dice.below(64),
        _ => dice.next() % top,
    }
}

fn words(tally: &mut Tally, i: usize, dice: &mut Dice) {
    let (worker, index, run) = (near(dice, 8), near(dice, 32), dice.next());
    let (offset, in_process) = (near(dice, 24) as u32, dice.below(8) == 0);
    let coordinate = near(dice, 40) | (in_process as u64) << 63;
    let room = dice.below(4);
    let wanted = asked(|| value(ColorCoordinate::discovered(worker, index)));
    tally.compare(i, "coordinate", wanted, room, |f, n| unsafe { lash_pack_coordinate(worker, index, f, n) });

    let c = coordinate_of(coordinate);
    let wanted = parts(c).map(|(worker, index)| vec![worker, index]).ok_or(22);
    tally.compare(i, "its parts", wanted, room, |f, n| unsafe { lash_unpack_coordinate(coordinate, f, n) });

    let wanted = asked(|| UnitigColor::new(offset, c).raw());
    tally.compare(i, "run", wanted, room, |f, n| unsafe { lash_pack_run(offset, coordinate, f, n) });

    let r = run_of(run);
    let wanted = Ok(vec![r.offset() as u64, r.coordinate()]);
    tally.compare(i, "parts of a run", wanted, room, |f, n| unsafe { lash_unpack_run(run, f, n) });
}

// A run list of a label with so many k-mers: its words, and as the original has them.
struct List {
    words: Vec<u64>,
    runs: Vec<UnitigColor>,
    kmers: usize,
}

// A list that mostly keeps the rules; offsets up to 24 bits, and labels that are longer.
fn any_list(dice: &mut Dice) -> List {
    let spread = dice.pick(&[1, 2, 5, 100, 5000]);
    let mut offset = 0;
    let mut run = |dice: &mut Dice| {
        let run = dice.next() << 24 | offset;
        offset += 1 + dice.below(spread) as u64;
        run
    };
    let mut words: Vec<u64> = (0..1 + dice.below(40)).map(|_| run(dice)).collect();
    let last = (words[words.len() - 1] & 0xffffff) as usize;
    let mut kmers = last + 1 + dice.below(spread);
    let (a, b) = (dice.below(words.len()), dice.below(words.len()));
    match dice.below(20) {
        0 => words.clear(),
        1 => kmers = dice.pick(&[0, last, last / 2]),
        2 => words[0] |= 1 << dice.below(24),
        3 | 4 => words.swap(a, b),
        5 => words[a] = (words[a] >> 24 << 24) | (words[b] & 0xffffff),
        6 => {
            words.push(dice.next() | 0xffffff);
            kmers = dice.pick(&[0xffffff, 0x1000000, 0x1000001, 0xffffffff, 1 << 32, usize::MAX]);
        }
        _ => {}
    }
    List { runs: words.iter().map(|w| run_of(*w)).collect(), words, kmers }
}

impl List {
    fn any_vertex(&self, dice: &mut Dice) -> u32 {
        let end = self.kmers;
        match dice.below(5) {
            0 => dice.pick(&[0, end.wrapping_sub(1), end, end.wrapping_add(1)]) as u32,
            4 => dice.pick(&[0xfffffe, 0xffffff, 0x1000000, 0xffffffff]),
            1 if !self.runs.is_empty() => dice.pick(&self.runs).offset().wrapping_sub(dice.below(2) as u32),
            _ => dice.below(self.kmers.clamp(1, 1 << 32)) as u32,
        }
    }

    // The colours of all vertices.
    fn colors(&self) -> Vec<u64> {
        let mut cells = vec![FREE; self.kmers];
        for (r, run) in self.runs.iter().enumerate() {
            let end = self.runs.get(r + 1).map_or(self.kmers, |next| next.offset() as usize);
            cells[run.offset() as usize..end].fill(run.coordinate());
        }
        cells
    }
}

fn lists(tally: &mut Tally, i: usize, dice: &mut Dice) {
    let list = any_list(dice);
    let (words, count, kmers) = (list.words.as_ptr(), list.words.len(), list.kmers);
    let sound = is_sound(&list.runs, kmers as u64);
    let passed = if sound { Ok(vec![]) } else { Err(23) };
    tally.compare(i, "check", passed, 0, |_, _| unsafe { lash_check_runs(words, count, kmers) });

    for _ in 0..6 {
        let vertex = list.any_vertex(dice);
        let wanted = match sound {
            false => Err(23),
            true if vertex as usize >= kmers => Err(24),
            true => Ok(vec![color(&list.runs, vertex as u64)]),
        };
        let room = dice.below(3);
        tally.compare(i, "colour", wanted, room, |f, n| unsafe { lash_color_at(words, count, kmers, vertex, f, n) });
    }

    // Labels of more vertices have too few cells.
    let few = kmers > 250_000 || dice.below(6) == 0;
    let cells = if few { dice.below(kmers.clamp(1, 5000)) } else { kmers + dice.below(3) };
    let (mut out, mut expected, mut wanted) = (vec![FREE; cells], vec![FREE; cells], Err(if sound { 9 } else { 23 }));
    if sound && kmers <= cells {
        expected[..kmers].copy_from_slice(&list.colors());
        wanted = Ok(vec![kmers as u64]);
        for vertex in [0, dice.below(kmers), kmers - 1] {
            assert_eq!(expected[vertex], color(&list.runs, vertex as u64));
        }
    }
    let to = out.as_mut_ptr();
    tally.compare(i, "colours", wanted, dice.below(3), |f, n| unsafe {
        lash_write_colors(words, count, kmers, to, cells, f, n)
    });
    tally.same(i, out, expected);
}

pub fn main() {
    let argument = |i: usize| std::env::args().nth(i).and_then(|s| s.parse().ok()).expect("colours FIRST NUMBER");
    let (first, number): (usize, usize) = (argument(1), argument(2));
    std::panic::set_hook(Box::new(|_| {}));
    let mut differ = 0;
    let sorts: [(&str, fn(&mut Tally, usize, &mut Dice)); 2] = [("coordinates and runs", words), ("run lists", lists)];
    for (name, try_one) in sorts {
        let mut tally = Tally::default();
        for i in first..first + number {
            try_one(&mut tally, i, &mut Dice::new((i as u64).rotate_left(24)));
        }
        tally.report(name);
        differ += tally.differ.len();
    }
    std::process::exit((differ > 0) as i32);
}
