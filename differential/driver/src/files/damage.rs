// Damage of setup files.

use super::written::Written;
use crate::random::Random;

// Patterns of doubles: NaNs of several payloads and both signs, infinities, zeros, denormals, the least and the greatest.
pub const PATTERNS: [u64; 20] = [
    0x7ff8_0000_0000_0000, 0xfff8_0000_0000_0000, 0x7ff0_0000_0000_0001, 0xfff0_0000_0000_0001, 0x7fff_ffff_ffff_ffff, 0xffff_ffff_ffff_ffff,
    0x7ff4_0000_0000_0000, 0x7ff0_0000_0001_0000, 0xfff0_1234_0000_0000, 0x7ff0_0000_0000_0000, 0xfff0_0000_0000_0000, 0x0000_0000_0000_0000,
    0x8000_0000_0000_0000, 0x0000_0000_0000_0001, 0x8000_0000_0000_0001, 0x000f_ffff_ffff_ffff, 0x0010_0000_0000_0000, 0x7fef_ffff_ffff_ffff,
    0x3ff0_0000_0000_0000, 0xbff0_0000_0000_0000,
];

const KINDS: [u8; 14] = [0, 1, 2, 3, 4, 5, 6, 7, 8, 9, 127, 128, 254, 255];

// Some record, most often not one of the many numbers.
fn record(random: &mut Random, w: &Written) -> usize {
    match random.below(4) {
        0 => random.below(w.starts.len()),
        1 => random.below(4),
        _ => {
            let kind = random.one_of(&[1, 2, 3, 4, 5, 6, 7, 255]);
            let all = w.of_kind(kind);
            match all.len() {
                0 => random.below(w.starts.len()),
                // the first and the last of a kind more often than others
                n => {
                    let any = random.below(n);
                    all[random.one_of(&[0, n - 1, any, any])]
                }
            }
        }
    }
}

fn lay(file: &mut [u8], at: usize, bytes: &[u8]) {
    for (place, &b) in file.iter_mut().skip(at).zip(bytes) {
        *place = b;
    }
}

// The file from its records, in another order, some of them twice or not at all.
fn joined(w: &Written, records: &[usize]) -> Vec<u8> {
    records.iter().flat_map(|&k| w.part(k).to_vec()).collect()
}

fn records_moved(random: &mut Random, w: &Written) -> (String, Vec<u8>) {
    let (a, b) = (record(random, w), record(random, w));
    let mut all: Vec<usize> = (0..w.starts.len()).collect();
    let what = match random.below(4) {
        0 => {
            all.swap(a, b);
            format!("records {a} and {b} swapped")
        }
        1 => {
            let next = (a + 1).min(all.len() - 1);
            all.swap(a, next);
            format!("records {a} and {next} swapped")
        }
        2 => {
            all.insert(a, a);
            format!("record {a} doubled")
        }
        _ => {
            all.remove(a);
            format!("record {a} removed")
        }
    };
    (what, joined(w, &all))
}

fn cut(random: &mut Random, w: &Written, file: &mut Vec<u8>) -> String {
    let n = match random.below(3) {
        0 => random.below(file.len() + 1),
        _ => {
            let k = record(random, w);
            let (at, length) = (w.starts[k], w.part(k).len());
            let any = random.below(length);
            at + random.one_of(&[0, 1, length - 1, any])
        }
    };
    file.truncate(n);
    format!("cut to {n} bytes")
}

fn number_set(random: &mut Random, w: &Written, file: &mut [u8]) -> String {
    let all = w.doubles_of(record(random, w));
    if all.is_empty() {
        return "nothing set".to_string();
    }
    let at = random.one_of(&all);
    let bits = match random.below(4) {
        0 => random.bits(),
        1 => 0x7ff0_0000_0000_0000 | 1 << random.below(52),
        _ => random.one_of(&PATTERNS),
    };
    lay(file, at, &bits.to_le_bytes());
    // of a pair both parts, so that a zero is one
    if all.len() == 2 && random.once_in(2) {
        all.iter().for_each(|&at| lay(file, at, &bits.to_le_bytes()));
    }
    format!("{bits:016x} at {at}")
}

fn word_set(random: &mut Random, w: &Written, file: &mut [u8]) -> String {
    let end = w.starts.len() - 1;
    let choice = w.of_kind(6)[0];
    match random.below(6) {
        0..3 => {
            let (axis, n) = (random.below(3), random.one_of(&[0u16, 1, 2, 3, 16, 17, 63, 64, 65, 66, 255, 256, 257, 512, 16384, 65535]));
            lay(file, 1 + 2 * axis, &n.to_le_bytes());
            format!("{n} cells on axis {axis}")
        }
        3 => {
            let cells = random.one_of(&[[64u16, 64, 2], [17, 16, 16], [64, 64, 1], [16, 16, 16], [64, 64, 64], [4, 4, 1], [17, 1, 1], [65, 0, 65]]);
            (0..3).for_each(|axis| lay(file, 1 + 2 * axis, &cells[axis].to_le_bytes()));
            format!("{cells:?} cells")
        }
        4 => {
            let any = random.below(256) as u8;
            let b = random.one_of(&[0, 1, 2, 3, 128, 254, 255, any]);
            lay(file, w.starts[choice] + 1, &[b]);
            format!("choice {b}")
        }
        _ if choice + 1 < end => {
            let k = random.from_to(choice + 1, end - 1);
            let any = random.below(200) as u32;
            let edge = random.one_of(&[0, 1, 255, 256, 65536, u32::MAX, 1 << 31, any]);
            lay(file, w.starts[k] + 1, &edge.to_le_bytes());
            format!("edge {edge} in record {k}")
        }
        _ => {
            let any = random.below(100) as u32;
            let n = random.one_of(&[0, 1, 12, 256, 65536, u32::MAX, any]);
            lay(file, w.starts[choice] + 2, &n.to_le_bytes());
            format!("coarsest {n}")
        }
    }
}

fn behind(random: &mut Random, w: &Written, before: &Written, file: &mut Vec<u8>) -> String {
    match random.below(4) {
        0 => {
            file.extend(&before.bytes);
            "with another file behind it".to_string()
        }
        1 => {
            file.extend(&w.bytes);
            "with itself behind it".to_string()
        }
        _ => {
            let n = random.from_to(1, 30);
            let b = random.one_of(&KINDS);
            file.extend((0..n).map(|k| if k == 0 { b } else { random.below(256) as u8 }));
            format!("with {n} bytes behind it")
        }
    }
}

// One damage of a file whose records were those of `w`.
fn once(random: &mut Random, w: &Written, before: &Written, file: &mut Vec<u8>) -> String {
    if file.is_empty() {
        return "nothing left".to_string();
    }
    match random.below(10) {
        0 => {
            let (at, bit) = (random.below(file.len()), random.below(8));
            file[at] ^= 1 << bit;
            format!("bit {bit} of byte {at} turned")
        }
        1 => {
            let k = record(random, w);
            let at = w.starts[k] + random.below(w.part(k).len());
            let any = random.below(256) as u8;
            let b = random.one_of(&[0, 1, 0x7f, 0x80, 0xff, 0xf0, any]);
            lay(file, at, &[b]);
            format!("byte {at} set to {b}")
        }
        2 => {
            let at = w.starts[record(random, w)];
            let b = if random.once_in(3) { random.below(256) as u8 } else { random.one_of(&KINDS) };
            lay(file, at, &[b]);
            format!("kind byte at {at} set to {b}")
        }
        3 => cut(random, w, file),
        4 | 5 => number_set(random, w, file),
        6 | 7 => word_set(random, w, file),
        8 => behind(random, w, before, file),
        _ => {
            // bytes put in or taken out
            let (at, n) = (random.below(file.len()), random.from_to(1, 20));
            if random.once_in(2) {
                file.drain(at..(at + n).min(file.len()));
                return format!("{n} bytes taken out at {at}");
            }
            let b = random.one_of(&KINDS);
            file.splice(at..at, std::iter::repeat_n(b, n));
            format!("{n} bytes {b} put in at {at}")
        }
    }
}

// A damaged file, and what was done to it. `before`: another file.
pub fn damaged(random: &mut Random, w: &Written, before: &Written) -> (String, Vec<u8>) {
    match random.below(40) {
        0 => return ("an empty file".to_string(), Vec::new()),
        1 => {
            // the front of one file, the rest of another
            let (a, b) = (record(random, w), record(random, before));
            return (format!("{a} records of it, and another's from {b} on"), [&w.bytes[..w.starts[a]], &before.bytes[before.starts[b]..]].concat());
        }
        _ => {}
    }
    let (mut what, mut file) = if random.once_in(4) { records_moved(random, w) } else { (String::new(), w.bytes.clone()) };
    let times = if what.is_empty() { random.one_of(&[1, 1, 1, 1, 2, 3]) } else { random.below(2) };
    for _ in 0..times {
        let more = once(random, w, before, &mut file);
        what = if what.is_empty() { more } else { format!("{what}; {more}") };
    }
    (format!("a file, {what}"), file)
}
