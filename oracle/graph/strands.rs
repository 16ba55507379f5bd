// Compares the calls of this library with the papers' own computation (`papers.rs`) with counts and presence bits, in both modes of adding, case
// by case: the answer to each label and the table after it, the same by one call for all labels up to the first that is refused, then contraction's
// totals, label bytes, index and marks, and the FASTA. Each case is tried once more with some labels replaced by their reverse complements: in the
// mode of Q-3 and for odd K that must leave the same tables and the same list. And presence bits must give the answers, keys and, at cutoff 1, the
// list that counts give. `strands FIRST NUMBER` tries NUMBER cases of each sort from FIRST on, prints how many were compared and each that differs,
// and exits with 1 if one did.
#![allow(dead_code)]

mod cases;
mod library;
mod papers;
mod records;

use cases::Dice;
use library::*;
use papers::{Answer, Kind, List, Mode, Table};
use records::File;
use std::collections::{BTreeMap, BTreeSet};

// What stands in cells that no call may touch.
const FREE: u8 = 0xd9;
const FREE_KEY: u64 = u64::from_le_bytes([FREE; 8]);
const FREE_COUNT: u32 = u32::from_le_bytes([FREE; 4]);

// The figures that a call has written.
fn written(figures: [u64; 3]) -> Vec<u64> {
    figures.into_iter().take_while(|f| *f != FREE_KEY).collect()
}

// A kind and a mode, each with a number that means it.
#[derive(Clone, Copy)]
struct Way {
    kind: (Kind, u32),
    mode: (Mode, u32),
}

// A table of this library, grown in a way.
struct Ours {
    way: Way,
    k: usize,
    n: usize,
    keys: Vec<u64>,
    counts: Vec<u32>,
}

impl Ours {
    fn new(way: Way, k: usize, capacity: usize) -> Ours {
        Ours { way, k, n: 0, keys: vec![FREE_KEY; 2 * capacity], counts: vec![FREE_COUNT; capacity] }
    }

    fn add(&mut self, label: &[u8]) -> Answer {
        let mut figures = [FREE_KEY; 3];
        let r = unsafe {
            lash_add_label(
                self.way.kind.1, self.way.mode.1, self.k, self.n, self.keys.as_mut_ptr(), self.keys.len(), self.counts.as_mut_ptr(),
                self.counts.len(), label.as_ptr(), label.len(), figures.as_mut_ptr(), 3,
            )
        };
        if r == 0 {
            self.n = figures[1] as usize;
        }
        (r, written(figures))
    }

    // Labels by one call, a byte that is no base before each: what is returned with its figures, and the totals.
    fn add_all(&mut self, labels: &[Vec<u8>]) -> (Answer, Vec<u64>) {
        let (mut text, mut starts, mut lengths) = (vec![], vec![], vec![]);
        for label in labels {
            text.push(FREE);
            starts.push(text.len() as u32);
            lengths.push(label.len() as u32);
            text.extend(label);
        }
        let (mut totals, mut figures) = ([FREE_KEY; 3], [FREE_KEY; 3]);
        let r = unsafe {
            lash_add_labels(
                self.way.kind.1, self.way.mode.1, self.k, self.n, self.keys.as_mut_ptr(), self.keys.len(), self.counts.as_mut_ptr(),
                self.counts.len(), text.as_ptr(), text.len(), starts.as_ptr(), starts.len(), lengths.as_ptr(), lengths.len(), labels.len(),
                totals.as_mut_ptr(), 3, figures.as_mut_ptr(), 3,
            )
        };
        self.n = totals[1] as usize;
        ((r, written(figures)), written(totals))
    }

    fn cells(&self) -> (Vec<u64>, Vec<u32>) {
        (self.keys[..2 * self.n].to_vec(), self.counts[..self.n].to_vec())
    }

    // The table, and that every cell behind it is as it was.
    fn holds(&self, table: &Table) -> bool {
        self.n as u64 == table.stored()
            && self.cells() == table.cells()
            && self.keys[2 * self.n..].iter().all(|w| *w == FREE_KEY)
            && self.counts[self.n..].iter().all(|w| *w == FREE_COUNT)
    }

    // The list, or the refusal; 0 where a call has written past its cells, a refusal has changed one, or the FASTA is not of its length.
    fn contract(&self, cutoff: u32) -> Result<List, Answer> {
        let (room, entries) = (self.n * self.k + 9, self.n + 3);
        let (mut labels, mut starts, mut lengths) = (vec![FREE; room], vec![FREE_COUNT; entries], vec![FREE_COUNT; entries]);
        let (mut marks, mut figures) = (vec![FREE; self.n + 1], [FREE_KEY; 3]);
        let r = unsafe {
            lash_contract(
                self.way.kind.1, self.k, cutoff, self.n, self.keys.as_ptr(), self.keys.len(), self.counts.as_ptr(), self.counts.len(),
                labels.as_mut_ptr(), room, starts.as_mut_ptr(), entries, lengths.as_mut_ptr(), entries, marks.as_mut_ptr(), marks.len(),
                figures.as_mut_ptr(), 3,
            )
        };
        if r != 0 {
            let changed = labels.iter().chain(&marks).any(|b| *b != FREE) || starts.iter().chain(&lengths).any(|n| *n != FREE_COUNT);
            return Err(if changed { (0, vec![]) } else { (r, written(figures)) });
        }
        let [count, bases] = [figures[0] as usize, figures[1] as usize];
        let mut fasta = vec![FREE; bases + 4 * count + 1];
        let mut length = [FREE_KEY; 2];
        let f = unsafe {
            lash_write_fasta(
                labels.as_ptr(), bases, starts.as_ptr(), count, lengths.as_ptr(), count, count, fasta.as_mut_ptr(), fasta.len(),
                length.as_mut_ptr(), 2,
            )
        };
        let past = figures[2] == FREE_KEY
            && marks.pop() == Some(FREE)
            && labels.split_off(bases).iter().all(|b| *b == FREE)
            && starts.split_off(count).iter().chain(&lengths.split_off(count)).all(|n| *n == FREE_COUNT)
            && fasta.pop() == Some(FREE)
            && (f, length) == (0, [fasta.len() as u64, FREE_KEY]);
        if past { Ok(List { labels, starts, lengths, marks, fasta }) } else { Err((0, vec![])) }
    }
}

// What a list of labels leaves: the answer to each, the table after each, and the list at each cutoff that was tried.
struct Grown {
    answers: Vec<Answer>,
    tables: Vec<(Vec<u64>, Vec<u32>)>,
    lists: BTreeMap<u32, Result<List, Answer>>,
}

// All labels by one call, up to the first that is refused.
fn together(way: Way, file: &File, capacity: usize) -> bool {
    let (mut table, mut ours) = (Table::new(way.kind.0, way.mode.0, file.k, capacity), Ours::new(way, file.k, capacity));
    let (mut added, mut last) = (0, (0, vec![0, 0]));
    for label in &file.labels {
        last = table.add(label);
        if last.0 != 0 {
            break;
        }
        added += 1;
    }
    ours.add_all(&file.labels) == (last, vec![added, table.stored()]) && ours.holds(&table)
}

// This library's, if it is the computation's. Presence bits are contracted at cutoff 1, and refused at the file's if that is another, at 0 and at 2.
fn grown(way: Way, file: &File, capacity: usize) -> Option<Grown> {
    let (mut table, mut ours) = (Table::new(way.kind.0, way.mode.0, file.k, capacity), Ours::new(way, file.k, capacity));
    let (mut answers, mut tables) = (vec![], vec![]);
    for label in &file.labels {
        let answer = ours.add(label);
        if answer != table.add(label) || !ours.holds(&table) {
            return None;
        }
        answers.push(answer);
        tables.push(ours.cells());
    }
    let cutoffs = BTreeSet::from(if way.kind.0 == Kind::Counts { [file.cutoff; 4] } else { [0, 1, 2, file.cutoff] });
    let lists: BTreeMap<u32, Result<List, Answer>> = cutoffs.into_iter().map(|cutoff| (cutoff, ours.contract(cutoff))).collect();
    let same = lists.iter().all(|(cutoff, list)| *list == table.contract(*cutoff)) && together(way, file, capacity);
    same.then_some(Grown { answers, tables, lists })
}

// A label's reverse complement in one of its spellings.
fn turned(dice: &mut Dice, label: &[u8]) -> Vec<u8> {
    let mut other = papers::reverse_complement(label);
    match dice.below(4) {
        0 => other.make_ascii_lowercase(),
        1 => other.iter_mut().filter(|b| **b == b'T').for_each(|b| *b = b'U'),
        _ => {}
    }
    other
}

// The same file with labels turned, at least one if there is one.
fn some_turned(dice: &mut Dice, file: &File) -> File {
    let mut labels = file.labels.clone();
    let always = dice.below(labels.len().max(1));
    for (i, label) in labels.iter_mut().enumerate() {
        if i == always || dice.below(2) == 0 {
            *label = turned(dice, label);
        }
    }
    File { k: file.k, cutoff: file.cutoff, labels }
}

// No table after a label, no answer to a label that is accepted, and no list tells one from the other.
fn alike(one: &Grown, other: &Grown) -> bool {
    let same = |(a, b): (&Answer, &Answer)| a.0 == b.0 && (a.0 != 0 || a == b);
    one.tables == other.tables && one.answers.iter().zip(&other.answers).all(same) && one.lists == other.lists
}

// The same answers, the same keys after each label, a bit for each counter that is not 0, and the same list at cutoff 1 where both were contracted.
fn agree(counts: &Grown, presence: &Grown) -> bool {
    let present = |word: &u32| (0..8).filter(|j| word >> (4 * j) & 15 != 0).map(|j| 8 << j).sum::<u32>();
    let bits = counts.tables.iter().map(|(keys, words)| (keys.clone(), words.iter().map(present).collect()));
    counts.answers == presence.answers
        && bits.collect::<Vec<_>>() == presence.tables
        && counts.lists.get(&1).is_none_or(|list| Some(list) == presence.lists.get(&1))
}

// What is counted over the cases of a sort, with one kind of table.
#[derive(Default)]
struct Tally {
    compared: usize,
    differ: Vec<usize>,
    // The modes leave different tables, different lists.
    tables: usize,
    lists: usize,
    // The strand claim was tried, and would not have held in the mode of document 01.
    odd: usize,
    told: usize,
}

impl Tally {
    // A file's records as calls, whatever becomes of them in the program: what the file leaves in both modes, that of Q-3 first.
    fn take(&mut self, kind: Kind, i: usize, bytes: &[u8], capacity: usize) -> Option<[Grown; 2]> {
        let file = records::records(bytes).ok()?;
        let dice = &mut Dice::new((i as u64).rotate_left(40));
        let new = (Mode::Reversed, dice.pick(&[1, 2, 7, u32::MAX]));
        let old = (Mode::SameCanonical, 0);
        let other = some_turned(dice, &file);
        let kind = (kind, if kind == Kind::Counts { 0 } else { dice.pick(&[1, 2, 256, u32::MAX]) });
        self.compared += 1;
        let four = [(new, &file), (new, &other), (old, &file), (old, &other)].map(|(mode, file)| grown(Way { kind, mode }, file, capacity));
        let [Some(here), Some(there), Some(old_here), Some(old_there)] = four else {
            self.differ.push(i);
            return None;
        };
        self.tables += (here.tables.last() != old_here.tables.last()) as usize;
        self.lists += (here.lists != old_here.lists) as usize;
        if file.k % 2 == 1 && file.k < 64 && !file.labels.is_empty() {
            self.odd += 1;
            self.told += (old_here.tables.last() != old_there.tables.last()) as usize;
            if !alike(&here, &there) {
                self.differ.push(i);
                return None;
            }
        }
        Some([here, old_here])
    }

    fn report(&self, sort: &str) {
        println!("{sort}: {} compared, {} differ {:?}", self.compared, self.differ.len(), &self.differ[..self.differ.len().min(10)]);
        println!("    the modes leave different tables in {}, different lists in {}", self.tables, self.lists);
        println!("    odd K and a label turned in {}; document 01's mode leaves another table then in {}", self.odd, self.told);
    }
}

pub fn main() {
    let argument = |i: usize| std::env::args().nth(i).and_then(|s| s.parse::<usize>().ok()).expect("strands FIRST NUMBER");
    let (first, number) = (argument(1), argument(2));
    let mut differ = 0;
    let mut tried = |sort: &str, cases: &mut dyn Iterator<Item = (usize, Vec<u8>, usize, bool)>| {
        let (mut counts, mut presence) = (Tally::default(), Tally::default());
        for (i, bytes, capacity, both) in cases {
            let counted = counts.take(Kind::Counts, i, &bytes, capacity);
            let present = if both { presence.take(Kind::Presence, i, &bytes, capacity) } else { None };
            if let (Some(counted), Some(present)) = (counted, present)
                && !counted.iter().zip(&present).all(|(one, other)| agree(one, other))
            {
                presence.differ.push(i);
            }
        }
        for (kind, tally) in [("counts", counts), ("presence bits", presence)] {
            tally.report(&format!("{sort}, {kind}"));
            differ += tally.differ.len();
        }
    };
    let small = (1..=4)
        .flat_map(|k| (0..4).flat_map(move |cutoff| (0..cases::texts_up_to(if k < 3 { 6 } else { 7 })).map(move |i| (k, cutoff, i))))
        .enumerate();
    // The cutoff makes no other table of presence bits.
    tried(
        "every label of up to 6 (K 1, 2) or 7 (K 3, 4) letters (counts at cutoffs 0 to 3)",
        &mut small.map(|(i, (k, cutoff, text))| (i, cases::file(k, cutoff, &[cases::text(text)]), 64, cutoff == 1)),
    );
    let range = first..first + number;
    tried("random files", &mut range.clone().map(|i| (i, cases::random_file(i), 1024, true)));
    tried("random files, small tables", &mut range.clone().map(|i| (i, cases::random_file(i), 1 + i % 40, true)));
    tried("large files", &mut (first..first + number / 100).map(|i| (i, cases::large_file(i), 1024, true)));
    std::process::exit((differ > 0) as i32);
}
