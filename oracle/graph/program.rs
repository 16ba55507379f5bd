// Compares the program `unitigs` with the original, file by file: `program FIRST NUMBER COMMAND..` runs COMMAND on NUMBER random, NUMBER damaged and a
// tenth as many large label files from FIRST on, and on a few by hand, and prints how many were tried and each that prints something else.
use crate::{cases, judge};
use std::io::Write;
use std::path::Path;
use std::process::{Command, Stdio};

fn printed(command: &[String], file: &[u8]) -> Vec<u8> {
    let mut child = Command::new(&command[0]).args(&command[1..]).stdin(Stdio::piped()).stdout(Stdio::piped()).spawn().unwrap();
    let mut input = child.stdin.take().unwrap();
    let _ = input.write_all(file);
    drop(input);
    child.wait_with_output().unwrap().stdout
}

pub fn main() {
    std::panic::set_hook(Box::new(|_| {}));
    let words: Vec<String> = std::env::args().collect();
    let (first, number): (usize, usize) = (words[1].parse().unwrap(), words[2].parse().unwrap());
    let command = &words[3..];
    let scratch = std::env::temp_dir().join(format!("list-{}", std::process::id()));
    let same = |file: &[u8], scratch: &Path| printed(command, file) == judge::run(file, scratch).printed;
    let mut differ = 0;
    let mut report = |kind: &str, tried: usize, bad: Vec<usize>| {
        println!("{kind}: {tried} compared, {} differ {:?}", bad.len(), &bad[..bad.len().min(10)]);
        differ += bad.len();
    };
    let by_hand: Vec<Vec<u8>> = vec![
        vec![], b"K".to_vec(), b"KC".to_vec(), cases::file(3, 1, &[]), cases::file(0, 1, &[]), cases::file(64, 1, &[]), vec![b'K'; 16384], vec![b'K'; 16385],
        vec![b'L'; 40000], cases::file(3, 1, &[b"ACCCC".to_vec()]),
    ];
    report("by hand", by_hand.len(), (0..by_hand.len()).filter(|i| !same(&by_hand[*i], &scratch)).collect());
    let range = first..first + number;
    report("random files", number, range.clone().filter(|i| !same(&cases::random_file(*i), &scratch)).collect());
    report("damaged files", number, range.clone().filter(|i| !same(&cases::damaged_file(*i), &scratch)).collect());
    report("large files", number / 10, (first..first + number / 10).filter(|i| !same(&cases::large_file(*i), &scratch)).collect());
    let _ = std::fs::remove_file(&scratch);
    std::process::exit((differ > 0) as i32);
}
