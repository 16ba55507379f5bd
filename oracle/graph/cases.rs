// Label files and tables to be tried: the i-th of each kind is the same on every machine.

pub struct Dice(u64);

impl Dice {
    pub fn new(seed: u64) -> Dice {
        Dice(seed)
    }

    // splitmix64
    pub fn next(&mut self) -> u64 {
        self.0 = self.0.wrapping_add(0x9e3779b97f4a7c15);
        let mut z = self.0;
        z = (z ^ (z >> 30)).wrapping_mul(0xbf58476d1ce4e5b9);
        z = (z ^ (z >> 27)).wrapping_mul(0x94d049bb133111eb);
        z ^ (z >> 31)
    }

    pub fn below(&mut self, n: usize) -> usize {
        (self.next() % n as u64) as usize
    }

    pub fn pick<T: Copy>(&mut self, from: &[T]) -> T {
        from[self.below(from.len())]
    }
}

pub fn file(k: usize, cutoff: u32, labels: &[Vec<u8>]) -> Vec<u8> {
    let mut bytes = b"KC".to_vec();
    bytes.push(k as u8);
    bytes.extend(cutoff.to_le_bytes());
    for label in labels {
        bytes.extend(b"LB");
        bytes.extend((label.len() as u16).to_le_bytes());
        bytes.extend(label);
    }
    bytes
}

// The texts of A, C, G, T in order: A, C, G, T, AA, AC, ..
pub fn text(mut i: usize) -> Vec<u8> {
    let mut length = 1;
    while i >= 1 << (2 * length) {
        i -= 1 << (2 * length);
        length += 1;
    }
    (0..length).map(|j| b"ACGT"[i >> (2 * (length - 1 - j)) & 3]).collect()
}

pub fn texts_up_to(length: usize) -> usize {
    (1..=length).map(|n| 1 << (2 * n)).sum()
}

fn random(dice: &mut Dice, length: usize) -> Vec<u8> {
    (0..length).map(|_| b"ACGT"[dice.below(4)]).collect()
}

pub fn turned(label: &[u8]) -> Vec<u8> {
    label.iter().rev().map(|b| match b { b'A' => b'T', b'C' => b'G', b'G' => b'C', _ => b'A' }).collect()
}

// A label in one of the shapes that walks are hard on.
fn shaped(dice: &mut Dice, k: usize) -> Vec<u8> {
    let n = dice.below(3 * k + 20) + 1;
    let s = random(dice, n);
    match dice.below(10) {
        0 => vec![dice.pick(b"ACGT"); n],
        1 => [s.clone(), turned(&s)].concat(),
        2 => [turned(&s), s].concat(),
        3 => {
            let length = 1 + dice.below(6);
            let unit = random(dice, length);
            unit.iter().cycle().take(n + k).copied().collect()
        }
        4 => s.iter().cycle().take(n + k).copied().collect(),
        5 => (0..n).map(|_| dice.pick(b"AT")).collect(),
        6 => [vec![dice.pick(b"ACGT"); k], s, vec![dice.pick(b"ACGT"); k]].concat(),
        7 => s.iter().map(|b| if dice.below(4) == 0 { b.to_ascii_lowercase() } else { *b }).collect(),
        8 => s.iter().map(|b| if *b == b'T' { dice.pick(b"TUtu") } else { *b }).collect(),
        _ => s,
    }
}

// Labels from one text: its parts, on either strand, some of them changed in a letter, some of them again and again.
fn related(dice: &mut Dice, k: usize) -> Vec<Vec<u8>> {
    let length = k + 1 + dice.below(4 * k + 30);
    let whole = if dice.below(3) == 0 { shaped(dice, k) } else { random(dice, length) };
    let mut labels = vec![];
    for _ in 0..dice.below(8) {
        let from = dice.below(whole.len());
        let to = from + dice.below(whole.len() - from + 1);
        let mut part = whole[from..to].to_vec();
        if dice.below(3) == 0 && !part.is_empty() {
            let i = dice.below(part.len());
            part[i] = dice.pick(b"ACGT");
        }
        if dice.below(2) == 0 && part.iter().all(|b| b"ACGT".contains(b)) {
            part = turned(&part);
        }
        for _ in 0..if dice.below(8) == 0 { 1 + dice.below(17) } else { 1 } {
            labels.push(part.clone());
        }
    }
    labels
}

pub fn hard_k(dice: &mut Dice) -> usize {
    match dice.below(4) {
        0 => 1 + dice.below(5),
        1 => dice.pick(&[15, 31, 32, 33, 63]),
        2 => 1 + dice.below(63),
        _ => 1 + dice.below(9),
    }
}

fn hard_cutoff(dice: &mut Dice) -> u32 {
    match dice.below(6) {
        0 => dice.below(18) as u32,
        1 => dice.pick(&[0, 2, 3, 15, 16, u32::MAX]),
        2 => 2,
        _ => 1,
    }
}

// A whole file of random labels.
pub fn random_file(i: usize) -> Vec<u8> {
    let dice = &mut Dice::new(i as u64);
    let k = hard_k(dice);
    let cutoff = hard_cutoff(dice);
    let mut labels = if dice.below(2) == 0 { related(dice, k) } else { (0..dice.below(6)).map(|_| shaped(dice, k)).collect() };
    match dice.below(25) {
        0 if !labels.is_empty() => {
            let at = dice.below(labels.len());
            if !labels[at].is_empty() {
                let place = dice.below(labels[at].len());
                labels[at][place] = dice.pick(b"NnR$ \n\0\xff>");
            }
        }
        1 => labels.push(vec![]),
        _ => {}
    }
    let k = if dice.below(60) == 0 { dice.pick(&[0, 64, 65, 200, 255]) } else { k };
    file(k, cutoff, &labels)
}

// A long text of few k-mers.
fn repeated(dice: &mut Dice, length: usize) -> Vec<u8> {
    let unit = 1 + dice.below(40);
    random(dice, unit).iter().cycle().take(length).copied().collect()
}

// Labels with so many windows in all, most of them new.
fn windows(dice: &mut Dice, k: usize, most: usize) -> Vec<Vec<u8>> {
    let (mut labels, mut left) = (vec![], most);
    while left > 0 {
        let n = (1 + dice.below(300)).min(left);
        labels.push(random(dice, n + k - 1));
        left -= n;
    }
    labels
}

// Files near a room's end: 1,024 vertices, 8,192 bytes of labels or of FASTA, 4,096 bytes of a label, 16,384 of the file.
pub fn large_file(i: usize) -> Vec<u8> {
    let dice = &mut Dice::new(!(i as u64));
    let near = dice.below(5);
    match i % 5 {
        0 => {
            let k = dice.pick(&[6, 7, 12, 15, 33]);
            file(k, dice.pick(&[0, 1, 2]), &windows(dice, k, 1022 + near))
        }
        1 => {
            let k = dice.pick(&[31, 33, 63]);
            file(k, 0, &windows(dice, k, 8192 / k + near - 2))
        }
        2 => {
            let k = dice.pick(&[15, 31, 32, 63]);
            file(k, 0, &windows(dice, k, 8192 / (k + 4) + near - 2))
        }
        3 => {
            let k = hard_k(dice);
            let labels = [repeated(dice, 4094 + near), repeated(dice, 4096)];
            file(k, dice.pick(&[0, 1, 2]), &labels)
        }
        _ => {
            let k = hard_k(dice);
            let labels = [repeated(dice, 4096), repeated(dice, 4096), repeated(dice, 4096), repeated(dice, 16384 - 7 - 16 - 3 * 4096 + near - 2)];
            file(k, dice.pick(&[0, 1, 2]), &labels)
        }
    }
}

// A file with some of its bytes changed, cut off or put in.
pub fn damaged_file(i: usize) -> Vec<u8> {
    let dice = &mut Dice::new((i as u64).rotate_left(32));
    let mut bytes = random_file(dice.below(1 << 20));
    for _ in 0..1 + dice.below(2) {
        let at = dice.below(bytes.len() + 1);
        match dice.below(6) {
            0 => bytes.truncate(at),
            1 if at < bytes.len() => bytes[at] = dice.next() as u8,
            2 if at < bytes.len() => bytes[at] = dice.pick(b"KCLBA"),
            3 => bytes.insert(at, dice.pick(b"KCLB\0")),
            4 if at < bytes.len() => drop(bytes.remove(at)),
            _ => {
                let again = bytes[..7.min(bytes.len())].to_vec();
                bytes.splice(at..at, again);
            }
        }
    }
    bytes
}

// A table that nothing has grown: fit keys, any counts.
pub struct Table {
    pub k: usize,
    pub cutoff: u32,
    pub vertices: Vec<(u128, u32)>,
    pub room: usize,
    pub entries: usize,
}

fn turn(k: usize, x: u128) -> u128 {
    (0..k).fold(0, |y, i| y << 2 | (3 - (x >> (2 * i) & 3)))
}

pub fn table(i: usize) -> Table {
    let dice = &mut Dice::new((i as u64) << 20);
    let k = if dice.below(3) == 0 { hard_k(dice) } else { 1 + dice.below(4) };
    let bound = if k == 64 { u128::MAX } else { (1u128 << (2 * k)) - 1 };
    let mut keys = std::collections::BTreeSet::new();
    let mut x = (dice.next() as u128) << 64 | dice.next() as u128;
    for _ in 0..1 + dice.below(24) {
        x = if dice.below(3) == 0 { (dice.next() as u128) << 64 | dice.next() as u128 } else { x << 2 | dice.below(4) as u128 } & bound;
        keys.insert(x.min(turn(k, x)));
    }
    let cutoff = hard_cutoff(dice);
    let dense = dice.below(5);
    let vertices = keys
        .into_iter()
        .map(|x| {
            let mut word = 0u32;
            for slot in 0..8 {
                let count = if dice.below(6) > dense { 0 } else { dice.pick(&[1, 1, 2, 3, 15]) };
                word |= count << (4 * slot);
            }
            (x, word)
        })
        .collect();
    let (room, entries) = match dice.below(6) {
        0 => (dice.below(60), 40),
        1 => (4000, dice.below(8)),
        _ => (4000, 40),
    };
    Table { k, cutoff, vertices, room, entries }
}
