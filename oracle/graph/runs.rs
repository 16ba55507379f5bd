// The original's coordinates and runs from words, and document 02's rules of a run list over its `offset` and
// `coordinate`, since it reads no list.
use crate::state::{ColorCoordinate, UnitigColor};
use std::panic::catch_unwind;

// A coordinate of any word: the original has no call that makes one from 2^40 on.
pub fn coordinate_of(word: u64) -> ColorCoordinate {
    let c: ColorCoordinate = unsafe { std::mem::transmute(word) };
    assert_eq!(value(c), word);
    c
}

// The word of a coordinate, which only the debug text shows from 2^40 on.
pub fn value(c: ColorCoordinate) -> u64 {
    format!("{c:?}").trim_matches(|c: char| !c.is_ascii_digit()).parse().unwrap()
}

// The worker and the index of a coordinate, or none where the original asserts, which it does if it is in process. Of
// another from 2^40 on, which it never makes, it answers some of the bits: there its `as_u40` decides.
pub fn parts(c: ColorCoordinate) -> Option<(u64, u64)> {
    let both = catch_unwind(|| (c.worker() as u64, c.index() as u64)).ok()?;
    assert_eq!(both, (value(c) & 0xff, value(c) >> 8 & 0xffffffff));
    catch_unwind(|| c.as_u40()).ok().map(|_| both)
}

// A run from its word: the original makes one from an offset and a coordinate only.
pub fn run_of(word: u64) -> UnitigColor {
    let r = UnitigColor::new((word & 0xffffff) as u32, ColorCoordinate::from_u40(word >> 24));
    assert_eq!(r.raw(), word);
    r
}

pub fn is_sound(runs: &[UnitigColor], kmers: u64) -> bool {
    !runs.is_empty()
        && runs[0].offset() == 0
        && runs.windows(2).all(|w| w[0].offset() < w[1].offset())
        && runs.iter().all(|r| (r.offset() as u64) < kmers)
}

// The last run at or before a vertex, looked for from the end.
pub fn color(runs: &[UnitigColor], vertex: u64) -> u64 {
    runs.iter().rev().find(|r| r.offset() as u64 <= vertex).unwrap().coordinate()
}
