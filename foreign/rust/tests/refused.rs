//! Checks that a set reports a failed allocation, does not leak, and stays usable. (The file has a single test, because
//! the file's `malloc` replaces the `malloc` of the whole program, except for Rust's own memory.)

use std::alloc::{GlobalAlloc, Layout};
use std::cell::Cell;
use std::ffi::c_void;
use std::ptr::null_mut;

use listset::{Added, Fault, List, Refused, Shared};

const LISTS: [List; 5] = [List::Coarse, List::Fine, List::Optimistic, List::Lazy, List::LockFree];

extern "C" {
    fn aligned_alloc(alignment: usize, size: usize) -> *mut c_void;
    fn __libc_malloc(size: usize) -> *mut c_void;
    fn __libc_realloc(block: *mut c_void, size: usize) -> *mut c_void;
    fn __libc_free(block: *mut c_void);
}

/// An allocator for Rust that does not use `malloc`.
struct Own;

// SAFETY: the C library allocates blocks with the alignment in `layout`, and frees them.
unsafe impl GlobalAlloc for Own {
    unsafe fn alloc(&self, layout: Layout) -> *mut u8 {
        aligned_alloc(layout.align(), layout.size()).cast()
    }

    unsafe fn dealloc(&self, block: *mut u8, _: Layout) {
        __libc_free(block.cast())
    }
}

#[global_allocator]
static OWN: Own = Own;

// For each thread: the number of allocations so far, the number of the allocation that fails (0: none), and the number
// of blocks that are not freed yet.
thread_local! {
    static ASKED: Cell<usize> = const { Cell::new(0) };
    static REFUSED: Cell<usize> = const { Cell::new(0) };
    static BLOCKS: Cell<isize> = const { Cell::new(0) };
}

fn is_refused() -> bool {
    ASKED.with(|it| it.set(it.get() + 1));
    ASKED.with(Cell::get) == REFUSED.with(Cell::get)
}

#[no_mangle]
unsafe extern "C" fn malloc(size: usize) -> *mut c_void {
    let block = if is_refused() { null_mut() } else { __libc_malloc(size) };
    BLOCKS.with(|it| it.set(it.get() + isize::from(!block.is_null())));
    block
}

#[no_mangle]
unsafe extern "C" fn realloc(block: *mut c_void, size: usize) -> *mut c_void {
    if is_refused() {
        null_mut()
    } else {
        __libc_realloc(block, size)
    }
}

#[no_mangle]
unsafe extern "C" fn free(block: *mut c_void) {
    BLOCKS.with(|it| it.set(it.get() - isize::from(!block.is_null())));
    __libc_free(block)
}

/// The first step that failed while a set was opened, used and closed.
#[derive(PartialEq)]
enum Told {
    Open,
    Close,
    Nothing,
}

/// Opens, uses and closes a set with three seats (one for each thread). Allocation number `refused` fails.
fn life(list: List, refused: usize) -> Told {
    ASKED.with(|it| it.set(0));
    BLOCKS.with(|it| it.set(0));
    REFUSED.with(|it| it.set(refused));
    let set = match Shared::open(list, 3, 4, &[5, 9]) {
        Ok(set) => set,
        Err(fault) => {
            assert_eq!(fault, Fault::Memory);
            return Told::Open;
        }
    };
    assert_eq!(set.add(7), Added::True);
    let (keys, told) = match set.close() {
        Ok(keys) => (keys, Told::Nothing),
        Err(Refused { back: mut seat, fault }) => {
            assert_eq!((fault, seat.contains(7), seat.add(7)), (Fault::Memory, true, Added::False));
            (seat.close().unwrap(), Told::Close)
        }
    };
    assert_eq!(keys, [5, 7, 9]);
    told
}

#[test]
fn a_set_is_freed_and_usable_after_a_failed_allocation() {
    for list in LISTS {
        let (mut opens, mut closes) = (0, 0);
        for refused in 1.. {
            let told = life(list, refused);
            assert_eq!(BLOCKS.with(Cell::get), 0, "blocks kept, where call {refused} is refused");
            (opens, closes) = (opens + usize::from(told == Told::Open), closes + usize::from(told == Told::Close));
            if ASKED.with(Cell::get) < refused {
                break;
            }
        }
        assert!(opens > 2 && closes > 0, "{list:?}: {opens} and {closes} refusals told");
    }
}
