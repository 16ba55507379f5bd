// Times lash_panel beside two scans written plainly in Rust, on the same labels, in one process: one that keeps the
// number of G and C up from start to start, and one that counts anew at each start. Prints millions of bases a second,
// those up to the end of the first probe, of labels without one all, and of labels shorter than a probe, at which no
// base is looked at, none. Each time is the least of several runs, and the answers are compared in each.
#![allow(dead_code)]

#[path = "../oracle/graph/cases.rs"]
mod cases;
#[path = "../oracle/graph/library.rs"]
mod library;

use cases::Dice;
use library::lash_panel;
use std::hint::black_box;
use std::time::Instant;

const NONE: u32 = u32::MAX;
const ROUNDS: usize = 15;

struct Case {
    name: &'static str,
    text: Vec<u8>,
    starts: Vec<u32>,
    lengths: Vec<u32>,
    probe: usize,
    least: usize,
    most: usize,
}

fn case(name: &'static str, lengths: Vec<u32>, probe: usize, least: usize, most: usize) -> Case {
    let dice = &mut Dice::new(lengths.len() as u64);
    let starts = lengths.iter().scan(0, |end, n| Some(std::mem::replace(end, *end + n))).collect();
    let text = (0..lengths.iter().sum()).map(|_| dice.pick(b"ACGT")).collect();
    Case { name, text, starts, lengths, probe, least, most }
}

fn is_gc(byte: &u8) -> bool {
    *byte == b'G' || *byte == b'C'
}

fn kept_up(label: &[u8], probe: usize, least: usize, most: usize) -> u32 {
    if label.len() < probe {
        return NONE;
    }
    let mut held = label[..probe].iter().filter(|b| is_gc(b)).count();
    for (at, (out, behind)) in label.iter().zip(&label[probe..]).enumerate() {
        if (least..=most).contains(&held) {
            return at as u32;
        }
        held = held + is_gc(behind) as usize - is_gc(out) as usize;
    }
    if (least..=most).contains(&held) { (label.len() - probe) as u32 } else { NONE }
}

fn anew(label: &[u8], probe: usize, least: usize, most: usize) -> u32 {
    let has = |part: &[u8]| (least..=most).contains(&part.iter().filter(|b| is_gc(b)).count());
    label.windows(probe).position(has).map_or(NONE, |at| at as u32)
}

impl Case {
    fn library(&self, out: &mut [u32]) {
        let count = self.starts.len();
        let r = unsafe {
            lash_panel(
                15, 2, self.probe, self.least, self.most, self.text.as_ptr(), self.text.len(), self.starts.as_ptr(), count, self.lengths.as_ptr(), count,
                count, out.as_mut_ptr(), count, [0u64].as_mut_ptr(), 1,
            )
        };
        assert_eq!(r, 0);
    }

    fn plainly(&self, out: &mut [u32], scan: impl Fn(&[u8], usize, usize, usize) -> u32) {
        for (i, cell) in out.iter_mut().enumerate() {
            let label = &self.text[self.starts[i] as usize..][..self.lengths[i] as usize];
            *cell = scan(label, self.probe, self.least, self.most);
        }
    }

    fn print(&self) {
        let mut answers: [Vec<u32>; 3] = std::array::from_fn(|_| vec![7; self.starts.len()]);
        let mut least = [f64::MAX; 3];
        for _ in 0..ROUNDS {
            for side in 0..3 {
                let begin = Instant::now();
                match side {
                    0 => self.library(black_box(&mut answers[0])),
                    1 => self.plainly(black_box(&mut answers[1]), kept_up),
                    _ => self.plainly(black_box(&mut answers[2]), anew),
                }
                least[side] = least[side].min(begin.elapsed().as_nanos() as f64);
            }
            assert!(answers[0] == answers[1] && answers[0] == answers[2], "the answers differ: {}", self.name);
        }
        let looked_at = |(start, n): (&u32, &u32)| match *start {
            NONE if (*n as usize) < self.probe => 0,
            NONE => *n as usize,
            start => start as usize + self.probe,
        };
        let bases: usize = answers[0].iter().zip(&self.lengths).map(looked_at).sum();
        let [ours, kept, counted] = least.map(|took| bases as f64 * 1e3 / took);
        println!("| {} | {} | {ours:.0} | {kept:.0} | {counted:.0} |", self.name, self.probe);
    }
}

fn main() {
    let dice = &mut Dice::new(1);
    let unitigs: Vec<u32> = (0..65536).map(|_| 31 + dice.below(70) as u32).collect();
    println!("| labels | probe | library | kept up | anew |");
    println!("|---|---|---|---|---|");
    for probe in [31, 63] {
        case("one of 2^24 bases, no probe", vec![1 << 24], probe, probe, probe).print();
        case("4,096 of 1,000, no probe", vec![1000; 4096], probe, probe, probe).print();
        case("65,536 of 31 to 100, no probe", unitigs.clone(), probe, probe, probe).print();
        case("65,536 of 31 to 100, half G and C", unitigs.clone(), probe, probe / 2, probe / 2).print();
    }
}
