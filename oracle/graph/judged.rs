// Compares lash_judge with the papers' own verdict (`verdict.rs`): the number returned, the figures and the marks, and that nothing else
// that is lent has changed. Tables are grown by this library or made by hand, of both kinds; lists are the library's own, others that are
// right, and such as are altered in one place or several. The library's own list over a grown table of odd K must get yes, also behind other
// headers and with its cycles begun elsewhere. `judged FIRST NUMBER` tries NUMBER tables of each sort from FIRST on, prints how many lists
// were compared, which tables have one that differs, and how often each verdict was given, and exits with 1 if a list differs.
#![allow(dead_code)]

mod cases;
mod library;
mod papers;
mod records;
mod verdict;

use cases::{Dice, turned};
use library::*;
use papers::{Answer, canonical};
use std::collections::{BTreeMap, BTreeSet};
use verdict::{Asked, parts, verdict};

// What stands in figures that no call may touch.
const FREE: u64 = 0xd9d9d9d9d9d9d9d9;

type List = Vec<Vec<u8>>;

// A table as it is lent.
#[derive(Clone)]
struct Lent {
    kind: u32,
    k: usize,
    cutoff: u32,
    n: usize,
    keys: Vec<u64>,
    counts: Vec<u32>,
}

impl Lent {
    fn asked<'a>(&'a self, text: &'a [u8], marks: usize) -> Asked<'a> {
        Asked { kind: self.kind, k: self.k, cutoff: self.cutoff, n: self.n, keys: &self.keys, counts: &self.counts, text, marks }
    }

    fn of(kind: u32, k: usize, cutoff: u32, vertices: &BTreeMap<u128, u32>) -> Lent {
        let keys = vertices.keys().flat_map(|x| [*x as u64, (*x >> 64) as u64]).collect();
        Lent { kind, k, cutoff, n: vertices.len(), keys, counts: vertices.values().copied().collect() }
    }

    fn number(&self, i: usize) -> u128 {
        (self.keys[2 * i + 1] as u128) << 64 | self.keys[2 * i] as u128
    }

    // Labels that are refused are left out.
    fn grown(kind: u32, mode: u32, k: usize, cutoff: u32, labels: &[Vec<u8>], capacity: usize) -> Lent {
        let mut lent = Lent { kind, k, cutoff, n: 0, keys: vec![FREE; 2 * capacity], counts: vec![FREE as u32; capacity] };
        for label in labels {
            let mut figures = [0u64; 2];
            let r = unsafe {
                lash_add_label(
                    kind, mode, k, lent.n, lent.keys.as_mut_ptr(), lent.keys.len(), lent.counts.as_mut_ptr(), capacity, label.as_ptr(),
                    label.len(), figures.as_mut_ptr(), 2,
                )
            };
            if r == 0 {
                lent.n = figures[1] as usize;
            }
        }
        lent
    }

    // The library's own list, unless contraction is refused.
    fn own(&self) -> Option<List> {
        let (n, room) = (self.n, self.n * self.k);
        let (mut labels, mut starts, mut lengths) = (vec![0u8; room], vec![0u32; n], vec![0u32; n]);
        let (mut marks, mut figures) = (vec![0u8; n], [0u64; 2]);
        let r = unsafe {
            lash_contract(
                self.kind, self.k, self.cutoff, n, self.keys.as_ptr(), self.keys.len(), self.counts.as_ptr(), self.counts.len(),
                labels.as_mut_ptr(), room, starts.as_mut_ptr(), n, lengths.as_mut_ptr(), n, marks.as_mut_ptr(), n, figures.as_mut_ptr(), 2,
            )
        };
        let label = |i: usize| labels[starts[i] as usize..][..lengths[i] as usize].to_vec();
        (r == 0).then(|| (0..figures[0] as usize).map(label).collect())
    }
}

// How often each verdict was given, under its name.
#[derive(Default)]
struct Tally {
    lists: usize,
    differ: BTreeSet<usize>,
    verdicts: BTreeMap<(u32, u64), usize>,
    // Rule 2 with the number of labels; lists of the library that had to get yes, and those among them with a cycle begun elsewhere.
    missing: usize,
    own: usize,
    begun_elsewhere: usize,
}

impl Tally {
    // The computation's answer, which the library has to give, with figures, marks and all that is lent as they have to be.
    fn compare(&mut self, dice: &mut Dice, i: usize, lent: &Lent, text: &[u8], marks_len: usize) -> Answer {
        let wanted = verdict(&lent.asked(text, marks_len));
        let (keys, counts, letters) = (lent.keys.clone(), lent.counts.clone(), text.to_vec());
        let content = dice.next();
        let mut marks: Vec<u8> = (0..marks_len + 2).map(|j| (content >> (j % 57)) as u8).collect();
        let room = dice.below(4);
        let mut figures = [FREE; 4];
        let (mut marks_wanted, mut figures_wanted) = (marks.clone(), figures);
        if wanted.0 == 0 {
            marks_wanted[..lent.n].fill(0);
        }
        figures_wanted[..room].iter_mut().zip(&wanted.1).for_each(|(cell, figure)| *cell = *figure);
        let r = unsafe {
            lash_judge(
                lent.kind, lent.k, lent.cutoff, lent.n, keys.as_ptr(), keys.len(), counts.as_ptr(), counts.len(), letters.as_ptr(),
                letters.len(), marks.as_mut_ptr(), marks_len, figures.as_mut_ptr(), room,
            )
        };
        let same = r == wanted.0 && figures == figures_wanted && marks == marks_wanted;
        let kept = keys == lent.keys && counts == lent.counts && letters == text;
        self.lists += 1;
        if !(same && kept) {
            if self.differ.len() < 3 {
                println!("differs: {i}: kind {} K {} cutoff {} n {}", lent.kind, lent.k, lent.cutoff, lent.n);
                if lent.n < 50 && text.len() < 2000 {
                    println!("    keys {:x?} counts {:x?}\n    text {:?}", lent.keys, lent.counts, String::from_utf8_lossy(text));
                }
                println!("    {marks_len} marks, {room} figures: {r} {figures:?} {marks:?}, not {wanted:?}; the rest kept: {kept}");
            }
            self.differ.insert(i);
        }
        let rule = if wanted.0 == 0 { wanted.1[0] } else { 0 };
        *self.verdicts.entry((wanted.0, rule)).or_default() += 1;
        self.missing += (rule == 2 && wanted.1[1] as usize == text.iter().filter(|b| **b == b'\n').count() / 2) as usize;
        wanted
    }

    fn must_be_yes(&mut self, i: usize, answer: Answer) {
        self.own += 1;
        if answer != (0, vec![0, 0]) {
            println!("should get yes: {i}: {answer:?}");
            self.differ.insert(i);
        }
    }

    fn report(&self, sort: &str) {
        let some: Vec<&usize> = self.differ.iter().take(10).collect();
        println!("{sort}: {} lists compared, {} tables with one that differs {some:?}", self.lists, self.differ.len());
        let given = |r: u32, rule: u64| self.verdicts.get(&(r, rule)).copied().unwrap_or(0);
        let rules: Vec<String> = (1..=4).map(|rule| format!("{rule}: {}", given(0, rule))).collect();
        println!("    yes {}, no by rule {} ({} of 2 only missing)", given(0, 0), rules.join(", "), self.missing);
        let refused: Vec<String> = [1, 5, 15, 7, 16, 17].iter().map(|r| format!("{r}: {}", given(*r, 0))).collect();
        println!("    refused {}", refused.join(", "));
        println!("    had to get yes, as the library's own: {}, of which with a cycle begun elsewhere: {}", self.own, self.begun_elsewhere);
    }
}

// A list as text: each header `>0`, or any bytes.
fn text_of(dice: &mut Dice, list: &[Vec<u8>]) -> Vec<u8> {
    let plain = dice.below(3) == 0;
    let mut text = vec![];
    for label in list {
        text.push(b'>');
        if plain {
            text.push(b'0');
        } else {
            let length = if dice.below(40) == 0 { dice.below(3000) } else { dice.below(9) };
            let header = (0..length).map(|_| if dice.below(2) == 0 { dice.pick(b">ACGT \r\0\xff") } else { dice.next() as u8 });
            text.extend(header.filter(|b| *b != b'\n'));
        }
        text.push(b'\n');
        text.extend(label);
        text.push(b'\n');
    }
    text
}

fn in_order(list: &mut List) {
    list.iter_mut().for_each(|label| *label = canonical(label));
    list.sort();
}

fn random(dice: &mut Dice, length: usize) -> Vec<u8> {
    (0..length).map(|_| b"ACGT"[dice.below(4)]).collect()
}

// Labels along edges that join, each begun at a k-mer taken by chance and led on both ways; one step in `stop`, if not 0, is not gone.
fn walked(dice: &mut Dice, k: usize, due: &[Vec<u8>], edges: &BTreeSet<Vec<u8>>, stop: usize) -> List {
    let mut left: BTreeSet<Vec<u8>> = due.iter().cloned().collect();
    let mut list = vec![];
    while let Some(first) = left.first().cloned() {
        let from = due[dice.below(due.len())].clone();
        let mut label = if left.remove(&from) { from } else { left.take(&first).unwrap() };
        for _ in 0..2 {
            loop {
                let leaves = |base: &u8| edges.contains(&[&label[label.len() - k..], &[*base]].concat());
                let Some(base) = b"ACGT".iter().find(|base| leaves(base)) else { break };
                if stop > 0 && dice.below(stop) == 0 {
                    break;
                }
                label.push(*base);
                if !left.remove(&canonical(&label[label.len() - k..])) {
                    label.pop();
                    break;
                }
            }
            label = turned(&label);
        }
        list.push(label);
    }
    in_order(&mut list);
    list
}

// Whether a label's last k-mer leads to its first by an edge that joins.
fn is_cycle(k: usize, edges: &BTreeSet<Vec<u8>>, label: &[u8]) -> bool {
    let closing = || [&label[label.len() - k..], &[label[k - 1]]].concat();
    label.len() > k && label[..k - 1] == label[label.len() + 1 - k..] && edges.contains(&closing())
}

// A cycle begun elsewhere.
fn begun_elsewhere(dice: &mut Dice, k: usize, label: &[u8]) -> Vec<u8> {
    let around = label.len() + 1 - k;
    let from = dice.below(around);
    (0..label.len()).map(|i| label[(from + i) % around]).collect()
}

// Two labels that overlap by K - 1 letters, on either strand, made one, if there are such.
fn join_some(dice: &mut Dice, k: usize, list: &mut List) {
    let n = list.len();
    let (first, second) = (dice.below(n), dice.below(n));
    for i in (0..n.min(300)).map(|i| (first + i) % n).filter(|i| list[*i].len() >= k) {
        for one in [list[i].clone(), turned(&list[i])] {
            for j in (0..n).map(|j| (second + j) % n).filter(|j| *j != i && list[*j].len() >= k) {
                for other in [list[j].clone(), turned(&list[j])] {
                    if other[..k - 1] == one[one.len() + 1 - k..] {
                        list[i] = [&one, &other[k - 1..]].concat();
                        list.remove(j);
                        return;
                    }
                }
            }
        }
    }
}

// One alteration of a list. A label that is too short for one is left as it is.
fn alter(dice: &mut Dice, k: usize, list: &mut List, stored: &[Vec<u8>]) {
    let sort = dice.below(19);
    if list.is_empty() && ![7, 8].contains(&sort) {
        return;
    }
    let i = dice.below(list.len().max(1));
    let label = list.get(i).cloned().unwrap_or_default();
    let at = dice.below(label.len().max(1));
    match sort {
        0 => list[i][at] = dice.pick(b"ACGT"),
        // Split, every k-mer kept; with one lost; with one in both.
        1 | 2 | 15 | 16 if label.len() > k => {
            let at = dice.below(label.len() - k);
            list[i] = label[..at + k].to_vec();
            list.insert(i + dice.below(2), label[at + 1..].to_vec());
        }
        3 if label.len() > k => {
            let at = k + dice.below(label.len() - k);
            list[i] = label[..at].to_vec();
            list.insert(i + 1, label[at - dice.below(k + 1)..].to_vec());
        }
        4 | 5 | 17 => join_some(dice, k, list),
        6 => drop(list.remove(i)),
        // A k-mer of the table, and any k-mer.
        7 if !stored.is_empty() => list.insert(dice.below(list.len() + 1), dice.pick(&stored.iter().collect::<Vec<_>>()).clone()),
        8 => list.insert(dice.below(list.len() + 1), canonical(&random(dice, k))),
        9 => list.insert(dice.below(list.len() + 1), label),
        10 => {
            let j = dice.below(list.len());
            list.swap(i, j);
        }
        11 => list[i] = turned(&label),
        // Two labels made one with any overlap.
        12 => {
            let other = list[dice.below(list.len())].clone();
            list[i].extend(&other[dice.below(k.min(other.len()) + 1)..]);
        }
        13 if dice.below(2) == 0 => list[i].insert(at, dice.pick(b"ACGT")),
        13 if label.len() > k => drop(list[i].remove(at)),
        14 if label.len() >= k => list[i] = begun_elsewhere(dice, k, &label),
        // Between a k-mer and its reverse complement only the middle tells a label from its own.
        18 if label.len() >= k => {
            let length = dice.below(4);
            list[i] = [&label[..k], &random(dice, length), &turned(&label[..k])].concat();
        }
        _ => {}
    }
}

// A text that is mostly no list.
fn damage(dice: &mut Dice, k: usize, text: &mut Vec<u8>) {
    let sort = dice.below(13);
    if sort == 0 {
        *text = (0..dice.below(14)).map(|_| dice.pick(b">>AACGT\n\n\n\r")).collect();
        return;
    }
    let ends: Vec<usize> = (0..text.len()).filter(|i| text[*i] == b'\n').collect();
    if ends.is_empty() {
        *text = dice.pick(&[&b"\n"[..], b">", b">\n", b"A\n", b">\n\n", b">0\nACG"]).to_vec();
        return;
    }
    let label = 2 * dice.below(ends.len() / 2) + 1;
    let (start, end) = (ends[label - 1] + 1, ends[label]);
    let place = start + dice.below((end - start).max(1));
    let at = dice.below(text.len());
    match sort {
        1 => drop(text.pop()),
        2 => text.insert(dice.pick(&[end, end + 1, start, text.len()]), b'\n'),
        3 => text[place] = text[place].to_ascii_lowercase(),
        4 => text.insert(end, b'\r'),
        5 => text.insert(place, dice.pick(b"\r\n >NUacgt\0@BSHD[`")),
        6 => drop(text.drain((start + k - 1).min(end)..end)),
        7 => text[if label == 1 { 0 } else { ends[label - 2] + 1 }] = dice.pick(b"A;@\n <?"),
        8 => drop(text.drain(if label == 1 { 0 } else { ends[label - 2] + 1 }..start)),
        9 => text.truncate(at),
        10 => drop(text.remove(at)),
        11 => text[at] = dice.next() as u8,
        _ => text[place] = dice.pick(b"BDEFHIJKLMNOPQRSUVWXYZ\x81\xc1"),
    }
}

// A table that is mostly not fit.
fn unfit(dice: &mut Dice, k: usize, lent: &mut Lent) {
    let n = lent.n;
    if n == 0 || dice.below(4) == 0 {
        match dice.below(4) {
            0 => lent.n = (lent.keys.len() / 2).min(lent.counts.len()) + 1,
            1 => lent.n = dice.pick(&[usize::MAX, usize::MAX / 2 + 1, 65537, 1 << 32]),
            2 => lent.keys.truncate((2 * n).saturating_sub(1)),
            _ => lent.counts.truncate(n.saturating_sub(1)),
        }
        return;
    }
    let (i, j) = (dice.below(n), dice.below(n));
    let put = |lent: &mut Lent, x: u128| [lent.keys[2 * i], lent.keys[2 * i + 1]] = [x as u64, (x >> 64) as u64];
    let x = lent.number(i);
    match dice.below(5) {
        0 => {
            let y = lent.number(j);
            put(lent, y)
        }
        1 => put(lent, (0..k).fold(0, |y, place| y << 2 | (3 - (x >> (2 * place) & 3)))),
        2 => put(lent, x | 1 << (2 * k)),
        3 => put(lent, x ^ 1 << dice.below(128)),
        _ => lent.counts[i] ^= 1 << dice.pick(&[0, 1, 2, 11, 12, 20, 31]),
    }
}

// A call with one or several reasons to be refused.
fn trouble(dice: &mut Dice, lent: &mut Lent, text: &mut Vec<u8>, marks: &mut usize) {
    let which = 1 + dice.below(63);
    let k = lent.k;
    if which & 1 != 0 && dice.below(2) == 0 {
        lent.k = dice.pick(&[0, 64, 65, 127, 256, usize::MAX, 1 << 32 | 3]);
    }
    if which & 2 != 0 && dice.below(2) == 0 {
        unfit(dice, k, lent);
    }
    if which & 4 != 0 && lent.kind != 0 {
        lent.cutoff = dice.pick(&[0, 2, 3, 257, u32::MAX]);
    }
    if which & 8 != 0 && lent.n > 0 {
        *marks = dice.below(lent.n.min(70000));
    }
    // An empty table is fit for any K.
    if which & 16 != 0 && (lent.n == 0 || dice.below(4) == 0) {
        lent.n = 0;
        lent.k = dice.pick(&[2, 4, 32, 62, 64]);
    }
    if which & 32 != 0 {
        damage(dice, k, text);
    }
}

// Any number but 0 names presence bits.
fn kind_of(dice: &mut Dice, presence: bool) -> u32 {
    if presence { dice.pick(&[1, 2, 256, u32::MAX]) } else { 0 }
}

// Mostly odd.
fn odd(dice: &mut Dice, k: usize) -> usize {
    if k % 2 == 1 || dice.below(12) == 0 { k } else if k > 63 { 63 } else { (k + 1 - 2 * dice.below(2)).max(1) }
}

// Labels of a random file as a table, in room for up to 300 k-mers.
fn grown(dice: &mut Dice, i: usize, presence: bool) -> Option<Lent> {
    let file = records::records(&cases::random_file(i)).ok()?;
    let (kind, k) = (kind_of(dice, presence), odd(dice, file.k));
    let cutoff = match dice.below(24) {
        0 => dice.pick(&[256, 257, 65536, 1 << 31 | 1]),
        1 => file.cutoff,
        _ => if presence { 1 } else { file.cutoff },
    };
    Some(Lent::grown(kind, dice.pick(&[0, 0, 1, 7]), k, cutoff, &file.labels, dice.pick(&[8, 40, 300, 300])))
}

// A table that nothing has grown: any counts, or a grown one from which k-mers are taken and in which counts are changed.
fn made(dice: &mut Dice, i: usize, presence: bool) -> Option<Lent> {
    let mut vertices = BTreeMap::new();
    let (mut k, mut cutoff) = (3, 1);
    if dice.below(3) == 0 {
        let table = cases::table(i);
        vertices.extend(table.vertices.iter().copied());
        (k, cutoff) = (table.k, table.cutoff);
    }
    if vertices.is_empty() || k % 2 == 0 {
        let table = grown(dice, i, false)?;
        (k, cutoff) = (table.k, table.cutoff);
        vertices = (0..table.n).map(|j| (table.number(j), table.counts[j])).collect();
        let (taken, changed) = (dice.below(12), dice.below(12));
        vertices.retain(|_, _| taken == 0 || dice.below(4 + 2 * taken) > 0);
        for word in vertices.values_mut() {
            if changed > 0 && dice.below(1 + changed) == 0 {
                let slot = 4 * dice.below(8);
                *word = *word & !(15 << slot) | dice.pick(&[0, 0, 1, 2, 15]) << slot;
            }
        }
    }
    if presence {
        let bits = |word: u32| (0..8).filter(|slot| word >> (4 * slot) & 15 >= cutoff.clamp(1, 3)).map(|slot| 8 << slot).sum();
        vertices.values_mut().for_each(|word| *word = bits(*word));
        cutoff = if dice.below(12) == 0 { cutoff } else { 1 };
    }
    Some(Lent::of(kind_of(dice, presence), k, cutoff, &vertices))
}

// A text of `length` letters with parts that come again, on either strand, in pieces that share K letters: its k-mers nearly all have edges.
fn long(dice: &mut Dice, kind: u32, k: usize, length: usize) -> Lent {
    let mut whole = random(dice, length / 2);
    while whole.len() < length {
        let from = dice.below(whole.len());
        let mut part = whole[from..].iter().take(k / 2 + dice.below(3 * k)).copied().collect::<Vec<u8>>();
        if dice.below(2) == 0 {
            part = turned(&part);
        }
        whole.extend(part);
        let fresh = 1 + dice.below(length / 8);
        whole.extend(random(dice, fresh));
    }
    whole.truncate(length);
    if dice.below(2) == 0 {
        let again = whole[..k].to_vec();
        whole.extend(again);
    }
    let pieces: List = (0..whole.len()).step_by(4096 - k).map(|from| whole[from..whole.len().min(from + 4096)].to_vec()).collect();
    Lent::grown(kind, 1, k, 1, &pieces, whole.len())
}

// Room behind the table with anything in it.
fn with_room(dice: &mut Dice, lent: &mut Lent) {
    lent.keys.truncate(2 * lent.n);
    lent.counts.truncate(lent.n);
    let (keys, counts) = (dice.below(5), dice.below(3));
    lent.keys.extend((0..keys).map(|_| dice.next()));
    lent.counts.extend((0..counts).map(|_| dice.next() as u32));
}

// Lists over one table.
fn tried(tally: &mut Tally, i: usize, mut lent: Lent, is_grown: bool) {
    let dice = &mut Dice::new((i as u64).rotate_left(24) ^ lent.kind as u64);
    with_room(dice, &mut lent);
    let k = lent.k;
    let marks = |dice: &mut Dice, lent: &Lent| lent.n + dice.below(3);
    if !(1..=63).contains(&k) {
        let most = marks(dice, &lent);
        tally.compare(dice, i, &lent, b">0\nACCC\n", most);
        return;
    }
    let own = lent.own();
    let is_asked = k % 2 == 1 && (lent.kind == 0 || lent.cutoff == 1);
    let (due, edges) = if is_asked { parts(&lent.asked(b"", lent.n)) } else { (vec![], BTreeSet::new()) };
    let letters = |x: u128| (0..k).rev().map(|place| b"ACGT"[(x >> (2 * place) & 3) as usize]).collect();
    let stored: List = (0..lent.n).map(|j| letters(lent.number(j))).collect();
    if let Some(list) = &own {
        let (text, most) = (text_of(dice, list), marks(dice, &lent));
        let answer = tally.compare(dice, i, &lent, &text, most);
        if is_grown && is_asked {
            tally.must_be_yes(i, answer);
            let mut other = list.clone();
            let cycles: Vec<usize> = (0..list.len()).filter(|j| is_cycle(k, &edges, &list[*j])).collect();
            cycles.iter().for_each(|j| other[*j] = begun_elsewhere(dice, k, &list[*j]));
            in_order(&mut other);
            if other != *list {
                tally.begun_elsewhere += 1;
                let text = text_of(dice, &other);
                let answer = tally.compare(dice, i, &lent, &text, most);
                tally.must_be_yes(i, answer);
            }
        }
    }
    for _ in 0..if due.len() < 2 { 3 } else { 8 } {
        let mut list = match dice.below(6) {
            0 => walked(dice, k, &due, &edges, 0),
            1 => {
                let stop = 1 + dice.below(9);
                walked(dice, k, &due, &edges, stop)
            }
            2 if dice.below(3) == 0 => {
                let some = 1 + dice.below(4);
                stored.iter().filter(|_| dice.below(some + 1) < some).cloned().collect()
            }
            _ => own.clone().unwrap_or_else(|| walked(dice, k, &due, &edges, 0)),
        };
        for _ in 0..dice.pick(&[0, 1, 1, 1, 1, 2, 2, 3, 5]) {
            alter(dice, k, &mut list, &stored);
        }
        if dice.below(3) > 0 {
            in_order(&mut list);
        }
        let (mut text, mut most) = (text_of(dice, &list), marks(dice, &lent));
        match dice.below(12) {
            0 => damage(dice, k, &mut text),
            1 | 2 => {
                let mut other = lent.clone();
                trouble(dice, &mut other, &mut text, &mut most);
                tally.compare(dice, i, &other, &text, most);
                continue;
            }
            _ => {}
        }
        tally.compare(dice, i, &lent, &text, most);
    }
}

// Every table of presence bits at K = 1, with every list of labels that holds no k-mer twice, and some that do.
fn every_bit(tally: &mut Tally) {
    let lists: [&[u8]; 10] = [
        b"", b">\nA\n", b">\nC\n", b">\nA\n>\nC\n", b">\nAC\n", b">\nAG\n", b">\nCA\n", b">\nGA\n", b">\nAA\n", b">\nA\n>\nAC\n",
    ];
    for bits in 0..1 << 16 {
        let dice = &mut Dice::new(bits as u64);
        let vertices = BTreeMap::from([(0, (bits & 255) << 3), (1, (bits >> 8) << 3)]);
        let lent = Lent::of(1, 1, 1, &vertices);
        for list in lists {
            tally.compare(dice, bits as usize, &lent, list, 2);
        }
    }
}

// Every label of up to 6 letters: the list, the label itself as a list, and the k-mers as a list.
fn every_label(tally: &mut Tally, presence: bool) {
    let ways = [(1, 0), (1, 1), (3, 0), (3, 1), (5, 0), (5, 1)];
    for (i, (k, mode)) in (0..cases::texts_up_to(6)).flat_map(|i| ways.map(|way| (i, way))) {
        let dice = &mut Dice::new((6 * i + k) as u64);
        let label = cases::text(i);
        let lent = Lent::grown(presence as u32, mode, k, 1, &[label.clone()], 8);
        let own = lent.own().unwrap();
        let text = text_of(dice, &own);
        let answer = tally.compare(dice, i, &lent, &text, lent.n);
        tally.must_be_yes(i, answer);
        let kmers: BTreeSet<Vec<u8>> = label.windows(k).map(canonical).collect();
        for list in [vec![canonical(&label)], kmers.into_iter().collect()] {
            let text = text_of(dice, &list);
            tally.compare(dice, i, &lent, &text, lent.n);
        }
    }
}

// As many vertices as a table holds, and one more; and a table of nearly as many with edges: its list, and with its longest label split, and
// led on at either end.
fn fullest(tally: &mut Tally) {
    let dice = &mut Dice::new(65536);
    let vertices: BTreeMap<u128, u32> = (0..65537).map(|x| (x, 0)).collect();
    for (kind, cutoff, take) in [(0, 1, 65536), (1, 1, 65536), (0, 0, 65536), (0, 1, 65537), (1, 1, 65537)] {
        let lent = Lent::of(kind, 31, cutoff, &vertices.iter().take(take).map(|(x, word)| (*x, *word)).collect());
        let list = lent.own().unwrap_or_default();
        let text = text_of(dice, &list);
        tally.compare(dice, take, &lent, &text, take);
        tally.compare(dice, take, &lent, b"", take);
    }
    let (k, lent) = (31, long(dice, 0, 31, 65000));
    let list = lent.own().unwrap();
    let text = text_of(dice, &list);
    let answer = tally.compare(dice, 0, &lent, &text, lent.n);
    tally.must_be_yes(0, answer);
    let longest = list.iter().max_by_key(|label| label.len()).unwrap();
    let others: List = list.iter().filter(|label| *label != longest).cloned().collect();
    let mut changed = vec![[others.clone(), vec![longest[..2 * k].to_vec(), longest[k + 1..].to_vec()]].concat()];
    for one in [longest.clone(), turned(longest)] {
        let follows = |label: &List| label[0][..k - 1] == one[one.len() + 1 - k..];
        let ways = others.iter().enumerate().flat_map(|(j, label)| [(j, vec![label.clone()]), (j, vec![turned(label)])]);
        if let Some((j, other)) = ways.into_iter().find(|(_, label)| follows(label)) {
            let mut list = others.clone();
            list[j] = [&one, &other[0][k - 1..]].concat();
            changed.push(list);
        }
    }
    for mut list in changed {
        in_order(&mut list);
        let text = text_of(dice, &list);
        tally.compare(dice, 0, &lent, &text, lent.n);
    }
}

pub fn main() {
    let argument = |i: usize| std::env::args().nth(i).and_then(|s| s.parse::<usize>().ok()).expect("judged FIRST NUMBER");
    let (first, number) = (argument(1), argument(2));
    let mut differ = 0;
    let mut sort = |name: &str, lists: &mut dyn FnMut(&mut Tally)| {
        let mut tally = Tally::default();
        lists(&mut tally);
        tally.report(name);
        differ += tally.differ.len();
    };
    sort("every table of presence bits at K 1", &mut every_bit);
    for (presence, kind) in [(false, "counts"), (true, "presence bits")] {
        sort(&format!("every label of up to 6 letters at K 1, 3, 5, {kind}"), &mut |tally| every_label(tally, presence));
        sort(&format!("grown tables, {kind}"), &mut |tally| {
            for i in first..first + number {
                if let Some(lent) = grown(&mut Dice::new((i as u64).rotate_left(40)), i, presence) {
                    tried(tally, i, lent, true);
                }
            }
        });
        sort(&format!("tables made by hand, {kind}"), &mut |tally| {
            for i in first..first + number {
                if let Some(lent) = made(&mut Dice::new((i as u64).rotate_left(48)), i, presence) {
                    tried(tally, i, lent, false);
                }
            }
        });
        sort(&format!("large tables, {kind}"), &mut |tally| {
            for i in first..first + number / 200 {
                let dice = &mut Dice::new((i as u64).rotate_left(56));
                let (kind, k) = (kind_of(dice, presence), dice.pick(&[5, 7, 9, 15, 31, 33, 63]));
                let length = 1000 + dice.below(if i % 8 == 0 { 12000 } else { 2000 });
                tried(tally, i, long(dice, kind, k, length), true);
            }
        });
    }
    // A table this large takes the computation half a minute a list.
    if number >= 10000 {
        sort("full tables", &mut fullest);
    }
    std::process::exit((differ > 0) as i32);
}
