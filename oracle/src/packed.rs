//! A program's buffer as it is stored: its parts that are not zero, each with its place and its
//! length in 2 bytes each before it.

use crate::program_bytes::SIZE;

/// Fewer zeros than these between two bytes do not end a part.
const GAP: usize = 4;

pub fn packed(program: &[u8]) -> Vec<u8> {
    let mut out = Vec::new();
    let mut at = 0;
    while let Some(first) = (at..program.len()).find(|i| program[*i] != 0) {
        let mut end = first + 1;
        while let Some(next) = (end..program.len().min(end + GAP)).find(|i| program[*i] != 0) {
            end = next + 1;
        }
        out.extend((first as u16).to_be_bytes());
        out.extend(((end - first) as u16).to_be_bytes());
        out.extend(&program[first..end]);
        at = end;
    }
    out
}

pub fn unpacked(parts: &[u8]) -> Result<Vec<u8>, String> {
    let mut out = vec![0; SIZE];
    let mut rest = parts;
    while !rest.is_empty() {
        let cut = || String::from("a part of a program is cut off");
        let (head, tail) = rest.split_at_checked(4).ok_or_else(cut)?;
        let at = usize::from(head[0]) * 256 + usize::from(head[1]);
        let length = usize::from(head[2]) * 256 + usize::from(head[3]);
        let (part, tail) = tail.split_at_checked(length).ok_or_else(cut)?;
        out.get_mut(at..at + length).ok_or_else(cut)?.copy_from_slice(part);
        rest = tail;
    }
    Ok(out)
}
