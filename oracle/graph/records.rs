// A label file's records, as document 01 has them.
pub struct File {
    pub k: usize,
    pub cutoff: u32,
    pub labels: Vec<Vec<u8>>,
}

// The records of a file, or the number of the first bad one.
pub fn records(bytes: &[u8]) -> Result<File, usize> {
    if bytes.len() > 16384 || bytes.len() < 7 || &bytes[..2] != b"KC" {
        return Err(0);
    }
    let cutoff = u32::from_le_bytes(bytes[3..7].try_into().unwrap());
    let mut file = File { k: bytes[2] as usize, cutoff, labels: vec![] };
    let mut rest = &bytes[7..];
    while !rest.is_empty() {
        let bad = Err(file.labels.len() + 1);
        if rest.len() < 4 || &rest[..2] != b"LB" {
            return bad;
        }
        let length = u16::from_le_bytes([rest[2], rest[3]]) as usize;
        if rest.len() < 4 + length {
            return bad;
        }
        file.labels.push(rest[4..4 + length].to_vec());
        rest = &rest[4 + length..];
    }
    Ok(file)
}
