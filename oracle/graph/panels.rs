// Compares lash_panel with document 02's rules, counted anew at every start: the number returned, the figure and
// every lent cell. Labels are bytes of any kind under any index, and the library's own lists of generated reads; of
// those also that no two answers use a common k-mer, on either strand, and that no answer uses one twice. `panels
// FIRST NUMBER` tries NUMBER calls of each sort from FIRST on, prints how many calls and labels were compared, which
// calls differ, and how often each answer was given, and exits with 1 if a call differs.
#![allow(dead_code)]

mod cases;
mod library;

use cases::{Dice, turned};
use library::*;
use std::collections::{BTreeMap, BTreeSet};

const NONE: u32 = u32::MAX;
// What stands in cells that no call may touch.
const FREE: u32 = 0xd9d9d9d9;

// A call: the arguments and what is lent.
#[derive(Clone)]
struct Call {
    k: usize,
    cutoff: u32,
    probe: usize,
    least: usize,
    most: usize,
    labels: Vec<u8>,
    starts: Vec<u32>,
    lengths: Vec<u32>,
    count: usize,
    room: usize,
}

// A refusal, or the starts.
type Said = Result<Vec<u32>, u32>;

impl Call {
    fn label(&self, i: usize) -> &[u8] {
        &self.labels[self.starts[i] as usize..][..self.lengths[i] as usize]
    }

    // By the paper.
    fn wanted(&self) -> Said {
        if self.k % 2 == 0 || !(15..=31).contains(&self.k) || !(2..=15).contains(&self.cutoff) || !(self.k..=63).contains(&self.probe) {
            return Err(26);
        }
        if self.least > self.most || self.most > self.probe {
            return Err(27);
        }
        let past = |i: usize| self.starts[i] as u128 + self.lengths[i] as u128 > self.labels.len() as u128;
        if self.count > self.starts.len() || self.count > self.lengths.len() || (0..self.count).any(past) {
            return Err(12);
        }
        if self.count > self.room {
            return Err(28);
        }
        let bounds = self.least..=self.most;
        let has = |part: &[u8]| bounds.contains(&part.iter().filter(|b| b"GC".contains(*b)).count());
        Ok((0..self.count).map(|i| self.label(i).windows(self.probe).position(has).map_or(NONE, |start| start as u32)).collect())
    }

    // By the library, with room for so many figures: what is said, all cells and all figures.
    fn got(&self, figures: usize) -> (u32, Vec<u32>, Vec<u64>) {
        let (mut out, mut noted) = (vec![FREE; self.room], vec![FREE as u64; figures]);
        let r = unsafe {
            lash_panel(
                self.k, self.cutoff, self.probe, self.least, self.most, self.labels.as_ptr(), self.labels.len(), self.starts.as_ptr(),
                self.starts.len(), self.lengths.as_ptr(), self.lengths.len(), self.count, out.as_mut_ptr(), out.len(), noted.as_mut_ptr(), figures,
            )
        };
        (r, out, noted)
    }
}

#[derive(Default)]
struct Tally {
    calls: usize,
    labels: usize,
    answers: BTreeMap<String, usize>,
    differ: BTreeSet<usize>,
}

impl Tally {
    fn count(&mut self, what: &str, times: usize) {
        *self.answers.entry(what.to_string()).or_default() += times;
    }

    // Compares one call; whether it was answered as it should be.
    fn compare(&mut self, i: usize, call: &Call, figures: usize) -> bool {
        let wanted = call.wanted();
        let (mut cells, mut noted) = (vec![FREE; call.room], vec![FREE as u64; figures]);
        if let Ok(starts) = &wanted {
            cells[..call.count].copy_from_slice(starts);
            noted.iter_mut().take(1).for_each(|figure| *figure = call.count as u64);
        }
        let number = *wanted.as_ref().err().unwrap_or(&0);
        let same = call.got(figures) == (number, cells, noted);
        if !same {
            self.differ.insert(i);
        }
        self.calls += 1;
        match &wanted {
            Err(refusal) => self.count(&format!("refusal {refusal}"), 1),
            Ok(starts) => {
                self.labels += call.count;
                let none = starts.iter().filter(|s| **s == NONE).count();
                self.count("no probe", none);
                self.count("a probe at 0", starts.iter().filter(|s| **s == 0).count());
                self.count("a probe behind 0", starts.iter().filter(|s| **s != 0 && **s != NONE).count());
            }
        }
        same && wanted.is_ok()
    }

    // No k-mer stands twice in the answers, on either strand.
    fn unshared(&mut self, i: usize, call: &Call) {
        let (mut seen, mut used) = (BTreeSet::new(), 0);
        for (label, start) in (0..call.count).map(|i| call.label(i)).zip(call.got(1).1).filter(|(_, start)| *start != NONE) {
            let probe = &label[start as usize..][..call.probe];
            for window in probe.windows(call.k) {
                seen.insert(window.to_vec().min(turned(window)));
                used += 1;
            }
        }
        if seen.len() < used {
            self.differ.insert(i);
        }
        self.count("k-mers in probes", used);
    }

    fn report(&self, name: &str) {
        println!("{name}: {} calls, {} labels, {} differ", self.calls, self.labels, self.differ.len());
        for i in self.differ.iter().take(10) {
            println!("    call {i} differs");
        }
        let answers: Vec<String> = self.answers.iter().map(|(what, times)| format!("{what} {times}")).collect();
        println!("    {}", answers.join(", "));
    }
}

// Arguments within the profile.
fn asked(dice: &mut Dice) -> (usize, u32, usize, usize, usize) {
    let k = 15 + 2 * dice.below(9);
    let probe = k + dice.below(64 - k);
    let most = dice.below(probe + 1);
    let least = if dice.below(3) == 0 { most } else { dice.below(most + 1) };
    (k, 2 + dice.below(14) as u32, probe, least, most)
}

// Any text, poor or rich in G and C, also in small letters and other bytes, and any index over it; mostly bounds that
// some part may meet.
fn any(dice: &mut Dice) -> Call {
    let (k, cutoff, probe, mut least, mut most) = asked(dice);
    let rich = dice.below(11);
    let length = dice.below(500);
    let labels: Vec<u8> = (0..length)
        .map(|_| match dice.below(40) {
            0 => dice.next() as u8,
            1 => dice.pick(b"gcatNSn"),
            _ if dice.below(10) < rich => dice.pick(b"GC"),
            _ => dice.pick(b"AT"),
        })
        .collect();
    if dice.below(2) == 0 {
        let middle = (probe * rich / 10 + dice.below(9)).saturating_sub(4).min(probe);
        least = middle.saturating_sub(dice.below(2));
        most = (middle + dice.below(2)).min(probe);
    }
    let count = dice.below(12);
    let starts: Vec<u32> = (0..count).map(|_| dice.below(length + 1) as u32).collect();
    let lengths = starts.iter().map(|s| dice.below(length - *s as usize + 1) as u32).collect();
    Call { k, cutoff, probe, least, most, labels, starts, lengths, count, room: count + dice.below(3) }
}

// One to three reasons to be refused.
fn refused(dice: &mut Dice) -> Call {
    let mut call = any(dice);
    for _ in 0..1 + dice.below(3) {
        match dice.below(12) {
            0 => call.k = dice.pick(&[0, 1, 13, 14, 16, 30, 32, 33, 63, usize::MAX]),
            1 => call.cutoff = dice.pick(&[0, 1, 16, 17, u32::MAX]),
            2 => call.probe = dice.pick(&[0, call.k.wrapping_sub(1), 64, 65, usize::MAX]),
            3 => (call.least, call.most) = (call.most + 1, call.least),
            4 => call.most = dice.pick(&[call.probe.wrapping_add(1), 64, usize::MAX]),
            5 => call.least = dice.pick(&[call.most.wrapping_add(1), usize::MAX]),
            6 => call.count = dice.pick(&[call.starts.len() + 1, usize::MAX]),
            7 => drop(call.starts.pop()),
            8 => drop(call.lengths.pop()),
            9 => call.room = dice.below(call.count.clamp(1, 20)),
            10 if call.count <= call.starts.len() && call.count > 0 => {
                let i = dice.below(call.count);
                call.starts[i] = dice.pick(&[call.labels.len() as u32 + 1, u32::MAX]);
            }
            _ if call.count <= call.lengths.len() && call.count > 0 => {
                let i = dice.below(call.count);
                call.lengths[i] = dice.pick(&[call.labels.len() as u32 + 1, u32::MAX]);
            }
            _ => call.cutoff = 1,
        }
    }
    call
}

// The library's own list of reads on either strand of a genome and a second one like it, each place read several
// times, some letters wrong.
fn own(dice: &mut Dice) -> Option<Call> {
    let (k, _, mut probe, mut least, mut most) = asked(dice);
    let cutoff = 2 + dice.below(3) as u32;
    let length = 100 + dice.below(600);
    let genome: Vec<u8> = (0..length).map(|_| dice.pick(b"ACGT")).collect();
    let other: Vec<u8> = genome.iter().map(|b| if dice.below(60) == 0 { dice.pick(b"ACGT") } else { *b }).collect();
    let (mut text, mut starts, mut lengths) = (vec![], vec![], vec![]);
    for _ in 0..length / 4 {
        let strain = if dice.below(2) == 0 { &genome } else { &other };
        let from = dice.below(length - 60);
        let end = length.min(from + 60 + dice.below(60));
        let mut read: Vec<u8> = strain[from..end].iter().map(|b| if dice.below(200) == 0 { dice.pick(b"ACGT") } else { *b }).collect();
        if dice.below(2) == 0 {
            read = turned(&read);
        }
        starts.push(text.len() as u32);
        lengths.push(read.len() as u32);
        text.extend(read);
    }
    let capacity = 16384;
    let (mut keys, mut counts, mut totals, mut figures) = (vec![0u64; 2 * capacity], vec![0u32; capacity], [0u64; 2], [0u64; 2]);
    let r = unsafe {
        lash_add_labels(
            0, dice.below(2) as u32, k, 0, keys.as_mut_ptr(), keys.len(), counts.as_mut_ptr(), capacity, text.as_ptr(), text.len(), starts.as_ptr(),
            starts.len(), lengths.as_ptr(), lengths.len(), starts.len(), totals.as_mut_ptr(), 2, figures.as_mut_ptr(), 2,
        )
    };
    assert_eq!(r, 0, "the reads are not added");
    let n = totals[1] as usize;
    let (mut labels, mut starts, mut lengths, mut marks) = (vec![0u8; n * k], vec![0u32; n], vec![0u32; n], vec![0u8; n]);
    let r = unsafe {
        lash_contract(
            0, k, cutoff, n, keys.as_ptr(), keys.len(), counts.as_ptr(), capacity, labels.as_mut_ptr(), labels.len(), starts.as_mut_ptr(), n,
            lengths.as_mut_ptr(), n, marks.as_mut_ptr(), n, figures.as_mut_ptr(), 2,
        )
    };
    assert_eq!(r, 0, "the table is not contracted");
    if dice.below(4) > 0 {
        probe = k + dice.below(8);
        (least, most) = (probe / 2 - dice.below(5), probe / 2 + dice.below(5));
    }
    let count = figures[0] as usize;
    (count > 0).then(|| Call { k, cutoff, probe, least, most, labels, starts, lengths, count, room: count + dice.below(2) })
}

pub fn main() {
    let argument = |i: usize| std::env::args().nth(i).and_then(|s| s.parse::<usize>().ok()).expect("panels FIRST NUMBER");
    let (first, number) = (argument(1), argument(2));
    let mut differ = 0;
    let mut sort = |name: &str, try_one: &mut dyn FnMut(&mut Tally, usize, &mut Dice)| {
        let mut tally = Tally::default();
        for i in first..first + number {
            try_one(&mut tally, i, &mut Dice::new((i as u64).rotate_left(24)));
        }
        tally.report(name);
        differ += tally.differ.len();
    };
    sort("any labels", &mut |tally, i, dice| _ = tally.compare(i, &any(dice), dice.below(3)));
    sort("calls to be refused", &mut |tally, i, dice| _ = tally.compare(i, &refused(dice), dice.below(3)));
    sort("lists of reads", &mut |tally, i, dice| {
        if let Some(call) = own(dice) {
            if tally.compare(i, &call, 1) {
                tally.unshared(i, &call);
            }
        }
    });
    std::process::exit((differ > 0) as i32);
}
