//! How much stack a call of the library takes: the stack below the caller is painted, and after the
//! call the lowest byte that has changed is looked for.

use reference::generate::case::Case;

use crate::call::{MOST_ROOM, fold, fold_until_steady, measure, on_stack};
use crate::inputs::{Class, groups, repeated};

/// The thread's stack; of it so much is painted below the caller.
const STACK_BYTES: usize = 32 << 20;
const PAINTED: usize = 24 << 20;
/// Left to the functions that paint and look.
const NEAR: usize = 1024;
const PAINT: u8 = 0xa5;

/// A call on a file, with an output for those that fold. The returned number.
type Call = fn(&[u8], &mut [u8]) -> u64;

const CALLS: [(&str, Call); 3] = [
    ("wsf_fold", |file, output| fold(file, output).number),
    ("wsf_fold_until_steady", |file, output| fold_until_steady(file, output).number),
    ("wsf_measure", |file, _| measure(file).number),
];

pub fn print_all() {
    for (name, call) in CALLS {
        println!("bytes of stack below the caller of {name}, the most of a group");
        for (what, classes) in groups().into_iter().chain([("until steady", repeated())]) {
            let most = classes.iter().map(|class| (most_of(call, class), &class.what)).max();
            let (bytes, which) = most.expect("no group is empty");
            println!("{what}: {bytes} ({which})");
        }
    }
}

fn most_of(call: Call, class: &Class) -> usize {
    let used = |case: &Case| on_stack(STACK_BYTES, || used_by(call, &case.file, case.room));
    class.cases.iter().map(used).max().unwrap_or(0)
}

fn used_by(call: Call, file: &[u8], room: usize) -> usize {
    let mut output = vec![0; MOST_ROOM];
    let here = &raw const output as usize;
    paint(here);
    call(file, &mut output[..room]);
    here - lowest_change(here)
}

/// The painted bytes, which all lie within the thread's stack and below what is in use.
fn painted(here: usize) -> impl Iterator<Item = usize> {
    here - PAINTED..here - NEAR
}

#[inline(never)]
fn paint(here: usize) {
    for at in painted(here) {
        // SAFETY: the thread's stack reaches further down, and nothing below this frame is in use.
        unsafe { (at as *mut u8).write_volatile(PAINT) };
    }
}

#[inline(never)]
fn lowest_change(here: usize) -> usize {
    // SAFETY: as above; the bytes were painted.
    let changed = |&at: &usize| unsafe { (at as *const u8).read_volatile() } != PAINT;
    painted(here).find(changed).unwrap_or(here - NEAR)
}
