//! Calls the lazies and the cells of plain Rust over and over, as `lazy_calls.rt.txt` does those of `lazy_cells`.
//!
//!     rust KIND CALLS      KIND is one of those that `main` names, or `sizes`
//!
//! There are a thousand cells, and each is called in turn, so that no call is left out or moved out of the loop. With
//! `--cfg once_cell` and `--cfg static_init` the lazies of once_cell and of static_init are there too.

use std::cell::{LazyCell, RefCell};
use std::env;
use std::mem::size_of;
use std::process::ExitCode;

#[cfg(once_cell)]
use once_cell::unsync;
#[cfg(static_init)]
use static_init::{UnSyncLazy, UnSyncLockedLazy};

type Make = fn() -> u64;

fn one() -> u64 {
    1
}

const CELLS: u64 = 1000;

/// So many calls, a multiple of a thousand. What they give is added, so that each is needed.
#[inline(always)]
fn calls<C>(make: impl Fn() -> C, count: u64, call: impl Fn(&mut C) -> u64) -> u64 {
    let mut cells: Vec<C> = (0..CELLS).map(|_| make()).collect();
    let mut sum = 0u64;
    for _ in 0..count / CELLS {
        for cell in &mut cells {
            sum = sum.wrapping_add(call(cell));
        }
    }
    sum
}

fn added(value: &mut u64) -> u64 {
    *value = value.wrapping_add(1);
    *value
}

fn sizes() {
    println!("std LazyCell {}", size_of::<LazyCell<u64, Make>>());
    println!("std RefCell {}", size_of::<RefCell<u64>>());
    #[cfg(once_cell)]
    println!("once_cell Lazy {}", size_of::<unsync::Lazy<u64, Make>>());
    #[cfg(static_init)]
    println!("static_init UnSyncLazy {}", size_of::<UnSyncLazy<u64, Make>>());
    #[cfg(static_init)]
    println!("static_init UnSyncLockedLazy {}", size_of::<UnSyncLockedLazy<u64, Make>>());
}

fn main() -> ExitCode {
    let words: Vec<String> = env::args().collect();
    let count: u64 = words.get(2).map_or(0, |word| word.parse().unwrap());
    let sum = match words[1].as_str() {
        "sizes" => {
            sizes();
            return ExitCode::SUCCESS;
        }
        "number" => calls(|| 1, count, added),
        "LazyCell force" => calls(|| LazyCell::new(one as Make), count, |cell| **cell),
        "RefCell borrow" => calls(|| RefCell::new(1), count, |cell| *cell.borrow()),
        "RefCell borrow_mut" => calls(|| RefCell::new(1), count, |cell| added(&mut cell.borrow_mut())),
        #[cfg(once_cell)]
        "once_cell Lazy force" => calls(|| unsync::Lazy::new(one as Make), count, |cell| **cell),
        #[cfg(static_init)]
        "UnSyncLazy get" => calls(|| UnSyncLazy::from_generator(one as Make), count, |cell| *UnSyncLazy::get(cell)),
        #[cfg(static_init)]
        "UnSyncLockedLazy read" => calls(|| UnSyncLockedLazy::from_generator(one as Make), count, |cell| *cell.read()),
        #[cfg(static_init)]
        "UnSyncLockedLazy write" => {
            calls(|| UnSyncLockedLazy::from_generator(one as Make), count, |cell| added(&mut cell.write()))
        }
        _ => return ExitCode::from(1),
    };
    ExitCode::from(if sum < count { 2 } else { 0 })
}
