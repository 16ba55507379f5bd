// The judgement of a list (document 02, Q-4) by definition, on letters, over any lent table. Written from documents 01 and 02, with nothing
// of this library's code. An edge is the K + 1 letters that are read when it is left at one end; at its other end it is left by their reverse
// complement. For odd K no k-mer is its own reverse complement, so that the first K letters tell the side.
use crate::papers::{Answer, canonical, reverse_complement};
use std::collections::{BTreeMap, BTreeSet};

// What is asked. Of the marks only their number matters.
pub struct Asked<'a> {
    pub kind: u32,
    pub k: usize,
    pub cutoff: u32,
    pub n: usize,
    pub keys: &'a [u64],
    pub counts: &'a [u32],
    pub text: &'a [u8],
    pub marks: usize,
}

// A stored k-mer with the edges retained on each side, as they are left there.
struct Vertex {
    letters: Vec<u8>,
    front: Vec<Vec<u8>>,
    back: Vec<Vec<u8>>,
}

impl Vertex {
    fn is_isolated(&self) -> bool {
        self.front.is_empty() && self.back.is_empty()
    }

    fn is_one_base(&self) -> bool {
        self.letters.iter().all(|b| *b == self.letters[0])
    }

    // The edges that are the only retained ones on their side.
    fn only(&self) -> Vec<&Vec<u8>> {
        [&self.front, &self.back].into_iter().filter(|edges| edges.len() == 1).flatten().collect()
    }
}

fn letters(k: usize, number: u128) -> Vec<u8> {
    (0..k).rev().map(|place| b"ACGT"[(number >> (2 * place) & 3) as usize]).collect()
}

// How often an edge was seen, as far as the word tells: Front A, C, G, T are slots 0 to 3, Back 4 to 7.
fn seen(kind: u32, word: u32, slot: usize) -> u32 {
    if kind == 0 { word >> (4 * slot) & 15 } else { word >> (3 + slot) & 1 }
}

fn vertex(asked: &Asked, number: u128, word: u32) -> Vertex {
    let letters = letters(asked.k, number);
    let retained = |first: usize| (0..4).filter(move |base| seen(asked.kind, word, first + base) >= asked.cutoff).map(|base| b"ACGT"[base]);
    let front = retained(0).map(|base| reverse_complement(&[&[base], &letters[..]].concat())).collect();
    let back = retained(4).map(|base| [&letters[..], &[base]].concat()).collect();
    Vertex { letters, front, back }
}

// The table, if it is fit.
fn table(asked: &Asked) -> Option<Vec<Vertex>> {
    if asked.n > (asked.keys.len() / 2).min(asked.counts.len()).min(65536) {
        return None;
    }
    let mut vertices: Vec<Vertex> = vec![];
    for i in 0..asked.n {
        let number = (asked.keys[2 * i + 1] as u128) << 64 | asked.keys[2 * i] as u128;
        let vertex = vertex(asked, number, asked.counts[i]);
        let ascends = vertices.last().is_none_or(|before| before.letters < vertex.letters);
        let is_word = asked.kind == 0 || (0..32).all(|bit| (3..=10).contains(&bit) || asked.counts[i] >> bit & 1 == 0);
        if number >= 1 << (2 * asked.k) || vertex.letters != canonical(&vertex.letters) || !ascends || !is_word {
            return None;
        }
        vertices.push(vertex);
    }
    Some(vertices)
}

// The labels of a text, if it is a list: every line is ended, so that nothing is left behind the last newline.
fn labels(k: usize, text: &[u8]) -> Option<Vec<&[u8]>> {
    let parts: Vec<&[u8]> = text.split(|b| *b == b'\n').collect();
    let (rest, lines) = parts.split_last()?;
    let label = |line: &&[u8]| line.len() >= k && line.iter().all(|b| b"ACGT".contains(b));
    let is_record = |record: &[&[u8]]| record.len() == 2 && record[0].first() == Some(&b'>') && label(&record[1]);
    (rest.is_empty() && lines.chunks(2).all(is_record)).then(|| lines.iter().skip(1).step_by(2).copied().collect())
}

// A table and a list over it, judged rule by rule: each gives the lowest label concerned, and is asked where those before it hold.
struct Case<'a> {
    k: usize,
    vertices: BTreeMap<Vec<u8>, Vertex>,
    labels: Vec<&'a [u8]>,
}

impl Case<'_> {
    fn disordered(&self) -> Option<usize> {
        let labels = &self.labels;
        (0..labels.len()).find(|i| labels[*i] > &reverse_complement(labels[*i])[..] || (0..*i).any(|before| labels[before] >= labels[*i]))
    }

    fn not_once(&self) -> Option<usize> {
        let due: BTreeSet<&Vec<u8>> = self.vertices.values().filter(|v| !v.is_isolated()).map(|v| &v.letters).collect();
        let mut times: BTreeMap<Vec<u8>, usize> = BTreeMap::new();
        for (i, label) in self.labels.iter().enumerate() {
            for window in label.windows(self.k) {
                let kmer = canonical(window);
                let stands = times.entry(kmer.clone()).or_default();
                *stands += 1;
                if *stands > 1 || !due.contains(&kmer) {
                    return Some(i);
                }
            }
        }
        due.iter().any(|kmer| !times.contains_key(*kmer)).then_some(self.labels.len())
    }

    // Whether an edge is the only retained one on its side at both ends.
    fn joins(&self, edge: &[u8]) -> bool {
        let only_at = |edge: &[u8]| self.vertices.get(&canonical(&edge[..self.k])).is_some_and(|v| v.only().iter().any(|e| **e == edge));
        only_at(edge) && only_at(&reverse_complement(edge))
    }

    fn badly_stepped(&self) -> Option<usize> {
        self.labels.iter().position(|label| label.windows(self.k + 1).any(|step| !self.joins(step)))
    }

    // Over all pairs of stored k-mers. Those that are joined are not isolated, so that each stands in one place.
    fn not_joined(&self) -> Option<usize> {
        let mut places: BTreeMap<Vec<u8>, (usize, usize)> = BTreeMap::new();
        for (i, label) in self.labels.iter().enumerate() {
            places.extend(label.windows(self.k).enumerate().map(|(place, window)| (canonical(window), (i, place))));
        }
        let ways: Vec<(&Vec<u8>, Vec<&Vec<u8>>, Vec<Vec<u8>>)> = self
            .vertices
            .values()
            .filter(|v| !v.is_one_base())
            .map(|v| (&v.letters, v.only(), v.only().iter().map(|edge| reverse_complement(edge)).collect()))
            .collect();
        let mut lowest: Option<usize> = None;
        for (i, (x, leaving, _)) in ways.iter().enumerate() {
            for (y, _, coming) in &ways[..i] {
                if !leaving.iter().any(|edge| coming.contains(edge)) {
                    continue;
                }
                let ((label, place), (other, there)) = (places[*x], places[*y]);
                let last = self.labels[label].len() - self.k;
                let are_ends = (place.min(there), place.max(there)) == (0, last);
                if label != other || !(place.abs_diff(there) == 1 || are_ends) {
                    lowest = Some(lowest.unwrap_or(usize::MAX).min(label.min(other)));
                }
            }
        }
        lowest
    }
}

fn named(vertices: Vec<Vertex>) -> BTreeMap<Vec<u8>, Vertex> {
    vertices.into_iter().map(|v| (v.letters.clone(), v)).collect()
}

// 0 with the rule and the label, both 0 for yes; or the refusal and its figures.
pub fn verdict(asked: &Asked) -> Answer {
    if !(1..=63).contains(&asked.k) {
        return (1, vec![asked.k as u64]);
    }
    let Some(vertices) = table(asked) else { return (5, vec![]) };
    if asked.kind != 0 && asked.cutoff != 1 {
        return (15, vec![]);
    }
    if asked.marks < asked.n {
        return (7, vec![]);
    }
    if asked.k % 2 == 0 {
        return (16, vec![]);
    }
    let Some(labels) = labels(asked.k, asked.text) else { return (17, vec![]) };
    let case = Case { k: asked.k, vertices: named(vertices), labels };
    let rules = [Case::disordered, Case::not_once, Case::badly_stepped, Case::not_joined];
    for (rule, broken) in (1..).zip(rules) {
        if let Some(label) = broken(&case) {
            return (0, vec![rule, label as u64]);
        }
    }
    (0, vec![0, 0])
}

// For making lists over a fit table: its k-mers that are not isolated, and every edge that is the only retained one on its side at both
// ends, as it is left at each.
pub fn parts(asked: &Asked) -> (Vec<Vec<u8>>, BTreeSet<Vec<u8>>) {
    let case = Case { k: asked.k, vertices: named(table(asked).unwrap()), labels: vec![] };
    let due = case.vertices.values().filter(|v| !v.is_isolated()).map(|v| v.letters.clone()).collect();
    let edges = case.vertices.values().flat_map(|v| v.only().into_iter().cloned()).filter(|edge| case.joins(edge)).collect();
    (due, edges)
}
