// Writes the answers that crates/replay compares: four files of cases, numbers low byte first.
//   files:  a label file, what is printed, and what the buffers hold afterwards
//   labels: labels added one after another, the edges of each and the table after each
//   tables: hand-made tables, and what contraction leaves
//   kmers:  a k-mer of every K, and what is asked of it
// A text or a list stands behind its length in two bytes; a key is 16 bytes, a count 4.
use crate::cases::{self, Dice};
use crate::dna::Base;
use crate::judge::{self, Run};
use crate::kmer::Kmer;
use crate::uncolored::{Graph, Vertices};
use std::fs;
use std::path::{Path, PathBuf};

#[derive(Default)]
struct Data {
    bytes: Vec<u8>,
    cases: usize,
}

impl Data {
    fn short(&mut self, n: usize) {
        self.bytes.extend(u16::try_from(n).unwrap().to_le_bytes());
    }

    fn text(&mut self, s: &[u8]) {
        self.short(s.len());
        self.bytes.extend(s);
    }

    fn vertices(&mut self, vertices: &Vertices) {
        self.short(vertices.len());
        vertices.iter().for_each(|(x, _)| self.bytes.extend(x.to_le_bytes()));
        vertices.iter().for_each(|(_, word)| self.bytes.extend(word.to_le_bytes()));
    }

    fn index(&mut self, starts: &[u32], lengths: &[u32]) {
        self.short(starts.len());
        starts.iter().chain(lengths).for_each(|n| self.bytes.extend((*n as u16).to_le_bytes()));
    }

    fn run(&mut self, file: &[u8], run: &Run) {
        self.text(file);
        self.text(&run.printed);
        self.vertices(&run.vertices);
        self.bytes.extend(&run.marks);
        self.text(&run.labels);
        self.index(&run.starts, &run.lengths);
        self.cases += 1;
    }

    fn save(&self, folder: &Path, name: &str) {
        fs::write(folder.join(name), &self.bytes).unwrap();
        println!("{name}: {} cases, {} bytes", self.cases, self.bytes.len());
    }
}

fn files(scratch: &Path) -> Data {
    let mut data = Data::default();
    let mut take = |file: Vec<u8>| data.run(&file, &judge::run(&file, scratch));
    for k in 1..=3 {
        for i in 0..cases::texts_up_to(3) {
            take(cases::file(k, 1, &[cases::text(i)]));
        }
    }
    for i in 0..120 {
        let dice = &mut Dice::new(i);
        let labels = [cases::text(dice.below(5000)), cases::text(dice.below(5000))];
        take(cases::file(1 + dice.below(4), dice.below(4) as u32, &labels));
    }
    (0..600).for_each(|i| take(cases::random_file(i)));
    (0..40).for_each(|i| take(cases::large_file(i)));
    (0..300).for_each(|i| take(cases::damaged_file(i)));
    take(vec![]);
    take(vec![b'K'; 16385]);
    data
}

fn labels_k<const K: usize>(data: &mut Data, labels: &[Vec<u8>]) {
    let mut graph = Graph::<K>::new(1);
    data.bytes.push(K as u8);
    data.short(labels.len());
    for label in labels {
        data.text(label);
        data.short(graph.add(label).unwrap() as usize);
        data.vertices(&graph.vertices());
    }
    data.cases += 1;
}

fn labels() -> Data {
    let mut data = Data::default();
    for i in 0.. {
        if data.cases == 200 {
            break;
        }
        if let Ok(file) = judge::records(&cases::random_file(i + 5000)) {
            let fair = |l: &Vec<u8>| l.iter().all(|b| b"ACGTUacgtu".contains(b));
            if (1..=63).contains(&file.k) && !file.labels.is_empty() && file.labels.len() < 5 && file.labels.iter().all(fair) {
                with_k!(file.k, labels_k(&mut data, &file.labels));
            }
        }
    }
    data
}

fn table_k<const K: usize>(data: &mut Data, t: &cases::Table, scratch: &Path) {
    data.bytes.push(K as u8);
    data.bytes.extend(t.cutoff.to_le_bytes());
    data.vertices(&t.vertices);
    data.short(t.room);
    data.short(t.entries);
    let none = vec![0; t.vertices.len()];
    let (refusal, labels, starts, lengths, marks) = match Graph::<K>::of(t.cutoff, &t.vertices).contract(scratch) {
        None => (8, vec![], vec![], vec![], none),
        Some(c) => {
            let (labels, starts, lengths) = judge::index(&c);
            if labels.len() > t.room || starts.len() > t.entries { (9, vec![], vec![], vec![], none) } else { (0, labels, starts, lengths, c.marks) }
        }
    };
    data.bytes.push(refusal);
    data.bytes.extend(marks);
    data.text(&labels);
    data.index(&starts, &lengths);
    data.cases += 1;
}

fn tables(scratch: &Path) -> Data {
    let mut data = Data::default();
    for i in 0..600 {
        let t = cases::table(i);
        with_k!(t.k, table_k(&mut data, &t, scratch));
    }
    data
}

// K letters, one more to roll in, the place to be read, a second k-mer; then every answer of the original.
fn kmer_k<const K: usize>(data: &mut Data, dice: &mut Dice) {
    let letters: Vec<u8> = (0..K).map(|_| dice.pick(b"ACGTUacgtu")).collect();
    let other: Vec<u8> = if dice.below(3) == 0 { letters.clone() } else { (0..K).map(|_| dice.pick(b"ACGT")).collect() };
    let (code, place) = (dice.below(4), dice.below(K));
    let base = [Base::A, Base::C, Base::G, Base::T][code];
    let x = Kmer::<K>::from_ascii(&letters).unwrap();
    let y = Kmer::<K>::from_ascii(&other).unwrap();
    data.bytes.push(K as u8);
    data.bytes.extend(&letters);
    data.bytes.extend(&other);
    data.bytes.extend([code as u8, place as u8]);
    for z in [x, x.reverse_complement(), x.canonical(), x.roll_forward(base), x.roll_backward(base)] {
        z.words().iter().for_each(|w| data.bytes.extend(w.to_le_bytes()));
    }
    data.bytes.extend([x.get(place).bits(), x.front().bits(), x.back().bits(), x.is_canonical() as u8, (x < y) as u8]);
    data.bytes.extend(x.to_ascii_string().bytes());
    data.cases += 1;
}

fn kmers() -> Data {
    let mut data = Data::default();
    let dice = &mut Dice::new(63);
    for k in 1..=63 {
        (0..16).for_each(|_| with_k!(k, kmer_k(&mut data, dice)));
    }
    data
}

pub fn main() {
    std::panic::set_hook(Box::new(|_| {}));
    let folder = PathBuf::from(std::env::args().nth(1).unwrap());
    let scratch = std::env::temp_dir().join(format!("list-{}", std::process::id()));
    files(&scratch).save(&folder, "files");
    labels().save(&folder, "labels");
    tables(&scratch).save(&folder, "tables");
    kmers().save(&folder, "kmers");
    fs::remove_file(&scratch).unwrap();
}
