// How much stack a call uses: it runs in a thread whose stack is a block of memory that was painted, and afterwards the lowest byte that has changed is
// looked for.

use crate::bench::{VALUE, bloch, lists, reached};
use crate::case::Case;
use crate::lent::words;
use crate::ours;
use num_complex::Complex64 as c64;
use std::ffi::{c_int, c_void};

// glibc's and musl's attributes of a thread fit into eight words.
#[repr(C, align(16))]
struct Attributes([u64; 8]);

unsafe extern "C" {
    fn pthread_attr_init(attributes: *mut Attributes) -> c_int;
    fn pthread_attr_setstack(attributes: *mut Attributes, stack: *mut c_void, size: usize) -> c_int;
    fn pthread_create(thread: *mut usize, attributes: *const Attributes, start: extern "C" fn(*mut c_void) -> *mut c_void, arg: *mut c_void) -> c_int;
    fn pthread_join(thread: usize, result: *mut *mut c_void) -> c_int;
}

const PAINT: u8 = 0xa7;
const SIZE: usize = 64 << 20;

// What the thread calls, and where its stack stood just before.
struct Task<'a> {
    call: &'a mut dyn FnMut(),
    from: usize,
}

extern "C" fn start(task: *mut c_void) -> *mut c_void {
    let here = 0u128;
    // SAFETY: the task outlives the thread, which nothing else runs beside.
    let task = unsafe { &mut *(task as *mut Task) };
    task.from = &raw const here as usize;
    (task.call)();
    std::ptr::null_mut()
}

// The bytes of stack that a call uses, or none where there is no such thread.
fn used(call: &mut dyn FnMut()) -> Option<usize> {
    let mut block = vec![u128::from_ne_bytes([PAINT; 16]); SIZE / 16];
    let base = block.as_mut_ptr() as *mut u8;
    let mut task = Task { call, from: 0 };
    let mut attributes = Attributes([0; 8]);
    let mut thread = 0;
    // SAFETY: the block is as long as it is said to be, aligned, and lives until the thread has ended.
    let ran = unsafe {
        pthread_attr_init(&mut attributes) == 0
            && pthread_attr_setstack(&mut attributes, base as *mut c_void, SIZE) == 0
            && pthread_create(&mut thread, &attributes, start, &raw mut task as *mut c_void) == 0
            && pthread_join(thread, std::ptr::null_mut()) == 0
    };
    if !ran {
        return None;
    }
    // SAFETY: the same block, which nobody writes to any more.
    let bytes = unsafe { std::slice::from_raw_parts(base, SIZE) };
    let lowest = bytes.iter().position(|&b| b != PAINT)?;
    task.from.checked_sub(base as usize + lowest)
}

// 16 x 16 x 16 cells with 12 levels: along x the first cells double in length, the others are too long to be joined.
fn deep() -> Option<Case> {
    let n = 16;
    (3..n).rev().find_map(|doubling| {
        let mut c = bloch([n; 3]);
        for m in 0..n {
            let length = if m < doubling { 1.5 * 2f64.powi(m.saturating_sub(1) as i32) } else { 1e9 };
            c.set_number(1, m, c64::new(length, 0.0));
        }
        let levels = source::level_lines(&c.lattice(), &source::Options { coarsest: c.coarsest })?;
        if levels.len() == 12 { Some(c) } else { None }
    })
}

// 16 x 16 x 16 cells with 12 levels, their lengths powers of 2: of some hundred such lattices, tried at random, the one with the edge whose change reaches the
// most numbers, and that edge.
fn wide() -> (Case, usize) {
    let powers = [
        [6, 6, 9, 6, 6, 3, 3, 6, 0, 0, 6, 3, 9, 3, 9, 9],
        [7, 6, 5, 4, 3, 2, 1, 0, 1, 2, 3, 4, 5, 6, 7, 9],
        [11, 9, 8, 6, 6, 4, 4, 3, 1, 1, 1, 3, 4, 4, 6, 6],
    ];
    let mut c = bloch([16; 3]);
    for (axis, powers) in powers.into_iter().enumerate() {
        for (m, power) in powers.into_iter().enumerate() {
            c.set_number(2 * axis + 1, m, c64::new(1.5 * 2f64.powi(power), 0.0));
        }
    }
    (c, 10120)
}

fn line(name: &str, c: &Case, choice: usize, edge: usize) {
    let mut asked = [2, 12, 37].map(words);
    let needs = used(&mut || ours::needs(c, choice, &mut asked));
    let mut s = lists(c, choice);
    let setup = used(&mut || ours::setup(c, choice, &mut s));
    let levels = if s.out[0] == 0 { s.out[1].to_string() } else { format!("refused {} {}", s.out[0], s.out[1]) };
    let change = used(&mut || ours::change(c, choice, edge, VALUE, &mut s));
    let told = |n: Option<usize>| n.map_or("?".to_string(), |n| n.to_string());
    let name = format!("{name}, {}", ["Galerkin", "rediscretized"][choice]);
    println!("{name:<36} {levels:>6} {:>10} {:>10} {:>10} {:>10}", told(setup), told(needs), told(change), reached(c, choice, edge));
    if s.out[0] != 0 {
        println!("the change was refused: {:?}", &s.out[..2]);
    }
}

// Bytes; of a change of one edge, and how many stored numbers stand in the rows that it reaches.
pub fn run() -> Result<(), String> {
    println!("{:<36} {:>6} {:>10} {:>10} {:>10} {:>10}", "cells, choice", "levels", "setup", "needs", "change", "reached");
    for choice in 0..2 {
        for (name, cells) in [("16x16x16", [16, 16, 16]), ("64x64x1", [64, 64, 1]), ("64x8x8", [64, 8, 8])] {
            line(name, &bloch(cells), choice, 0);
        }
        match deep() {
            // the last edge along x
            Some(c) => line("16x16x16, long cells", &c, choice, 15),
            None => println!("no lattice of 12 levels was found"),
        }
        let (c, edge) = wide();
        line("16x16x16, powers of 2", &c, choice, edge);
    }
    Ok(())
}
