//! What is freed of keys and states is overwritten: an allocator looks at each block of memory that is given back.

use luossavin::halves::{Half, HashKey};
use luossavin::pieces::{Ctr, Opens, Seal};
use luossavin::{Direction, Key};
use std::alloc::{GlobalAlloc, Layout, System};
use std::cell::Cell;

struct Watching;

// Each thread looks at its own, since those of the test's surroundings give back memory too.
thread_local! {
    /// The size of the records that are watched for.
    static SIZE: Cell<usize> = const { Cell::new(0) };
    /// How many of that size were given back, with zeros throughout and with anything else.
    static GIVEN_BACK: Cell<(usize, usize)> = const { Cell::new((0, 0)) };
}

// SAFETY: every call is the system's own; memory is looked at before it is given back.
unsafe impl GlobalAlloc for Watching {
    unsafe fn alloc(&self, layout: Layout) -> *mut u8 {
        System.alloc(layout)
    }

    unsafe fn dealloc(&self, memory: *mut u8, layout: Layout) {
        if layout.size() == SIZE.with(|cell| cell.get()) {
            let is_clean = (0..layout.size()).all(|at| memory.add(at).read_volatile() == 0);
            let (clean, dirty) = GIVEN_BACK.with(|cell| cell.get());
            GIVEN_BACK.with(|cell| cell.set(if is_clean { (clean + 1, dirty) } else { (clean, dirty + 1) }));
        }
        System.dealloc(memory, layout);
    }
}

#[global_allocator]
static WATCHING: Watching = Watching;

/// Drops something that holds a record of this size, and says how many such records were given back clean and dirty.
fn dropped<T>(size: usize, owner: T) -> (usize, usize) {
    GIVEN_BACK.with(|cell| cell.set((0, 0)));
    SIZE.with(|cell| cell.set(size));
    drop(owner);
    SIZE.with(|cell| cell.set(0));
    GIVEN_BACK.with(|cell| cell.get())
}

#[test]
fn what_is_dropped_is_overwritten() {
    let key = || Key::new(&[7; 16], 9).unwrap();
    assert_eq!(dropped(136, vec![1u8; 136]), (0, 1), "what nobody overwrites is seen");
    // the sizes are the header's; `ffi` holds them to it
    assert_eq!(dropped(136, key()), (1, 0));
    assert_eq!(dropped(136, key().retire()), (1, 0));
    let mut ctr = Ctr::start(&key(), Direction::Encrypt, &[1; 16]).unwrap();
    ctr.piece(b"text", &mut [0; 4]).unwrap();
    assert_eq!(dropped(192, ctr), (1, 0));
    let mut seal = Seal::start(&key(), b"label", &[1; 12]).unwrap();
    seal.piece(b"text", &mut [0; 4]).unwrap();
    assert_eq!(dropped(256, seal), (1, 0));
    let mut opens = Opens::start(&key(), b"label", &[1; 12]).unwrap();
    opens.piece(b"text").unwrap();
    assert_eq!(dropped(96, opens), (1, 0));
    assert_eq!(dropped(16, HashKey::of(&key()).unwrap()), (1, 0));
    assert_eq!(dropped(16, Half::from_parts([3; 16], 1)), (1, 0));
}
