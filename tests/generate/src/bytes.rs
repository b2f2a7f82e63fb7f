//! Edits of bytes, for jobs, books and listings alike.

use crate::Random;

/// Bytes that stand next to the good ones, or that others take for a line's end or a digit.
const NEAR: &[u8] = b"\n\r \t\0-/:@GFA09afg*U[]\x7F\x80\xFF";

/// Changes a few bytes: bits flipped, bytes replaced, put in, taken out, the end cut off, a piece repeated.
pub fn mutate(random: &mut Random, bytes: &mut Vec<u8>) {
    for _ in 0..random.pick(&[1, 1, 1, 2, 4]) {
        mutate_once(random, bytes);
    }
}

fn mutate_once(random: &mut Random, bytes: &mut Vec<u8>) {
    let any = if random.once_in(2) { random.byte() } else { random.pick(NEAR) };
    if bytes.is_empty() {
        return bytes.push(any);
    }
    let at = random.below(bytes.len());
    match random.below(8) {
        0 | 1 => bytes[at] ^= 1 << random.below(8),
        2 => bytes[at] = any,
        3 => bytes.insert(random.below(bytes.len() + 1), any),
        4 => {
            bytes.remove(at);
        }
        5 => bytes.truncate(at),
        6 => {
            bytes.pop();
        }
        _ => {
            let end = (at + 1 + random.below(20)).min(bytes.len());
            let piece = bytes[at..end].to_vec();
            let to = random.below(bytes.len() + 1);
            bytes.splice(to..to, piece);
        }
    }
}

/// Changes lines as a whole: one taken out, repeated, or exchanged with another; newlines lost or doubled.
pub fn mutate_lines(random: &mut Random, bytes: &mut Vec<u8>) {
    let mut lines: Vec<Vec<u8>> = bytes.split_inclusive(|&byte| byte == b'\n').map(<[u8]>::to_vec).collect();
    if lines.is_empty() {
        return;
    }
    let at = random.below(lines.len());
    match random.below(6) {
        0 => {
            lines.remove(at);
        }
        1 => lines.insert(at, lines[at].clone()),
        2 => {
            let other = random.below(lines.len());
            lines.swap(at, other);
        }
        3 => {
            lines[at].pop();
        }
        4 => lines[at].push(b'\n'),
        _ => {
            let end = random.pick(&[&b" \n"[..], b"\r\n", b"-\n", b"0\n", b" 00\n"]);
            lines[at].pop();
            lines[at].extend_from_slice(end);
        }
    }
    *bytes = lines.concat();
}

/// Every byte put over or into every place of a model, every byte taken out, every front.
pub fn all_edits(model: &[u8]) -> Vec<Vec<u8>> {
    let mut edited = vec![];
    for at in 0..=model.len() {
        for byte in 0..=255 {
            let mut put_in = model.to_vec();
            put_in.insert(at, byte);
            edited.push(put_in);
            if at < model.len() {
                let mut over = model.to_vec();
                over[at] = byte;
                edited.push(over);
            }
        }
        edited.push(model[..at].to_vec());
        if at < model.len() {
            let mut without = model.to_vec();
            without.remove(at);
            edited.push(without);
        }
    }
    edited
}
