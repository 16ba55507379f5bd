// Answers the questions of crates/dna_test by the Rust original: oracle/record builds it and writes crates/dna_test/stdout.
#![allow(dead_code)]

#[path = "SOURCE/dna.rs"]
mod dna;

use dna::*;

fn bits(b: Option<u8>) -> String {
    b.map_or("-".to_string(), |x| x.to_string())
}

fn label_line(label: &[u8]) {
    let text = |s: Vec<u8>| String::from_utf8(s).unwrap();
    println!(
        "label {} {} {} {}",
        String::from_utf8_lossy(label),
        text(reverse_complement_label(label)),
        least_rotation_start(label),
        text(minimal_rotation(label))
    );
}

fn main() {
    for b in 0..=255u8 {
        println!(
            "byte {} {} {} {} {} {} {}",
            b,
            Base::from_ascii(b).bits(),
            is_dna_ascii(b) as u8,
            complement_ascii(b),
            bits(ascii_base_bits(b)),
            valid_ascii_base_bits(b),
            bits(ascii_complement_bits(b))
        );
    }
    for b in [Base::A, Base::C, Base::G, Base::T, Base::N, Base::E] {
        println!("base {} {} {} {}", b.bits(), b.to_ascii(), b.complement().bits(), b.is_dna() as u8);
    }
    for len in 0..=5 {
        for w in 0..3usize.pow(len) {
            let letters = (0..len).map(|i| b"ACT"[w / 3usize.pow(i) % 3]).collect::<Vec<u8>>();
            label_line(&letters);
        }
    }
    label_line(b"acgtuACGTUNRYn-");
    label_line(b"GATTACAGATTACA");
    label_line(b"TTTTTTTTTTTTTTTTTTTTTTTTTTTTTTTTTTTTTTTA");
    label_line(b"CAACAACAACAACAACAACAACAACAACAACAACAACAAC");
}
