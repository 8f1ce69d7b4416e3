//! Each allocation of the binding itself refused in turn, and those that are too large: it is told, and nothing aborts.

use cbor_edn_verified::{convert, show, Command, Error, ErrorKind, Options};
use std::alloc::{GlobalAlloc, Layout, System};
use std::cell::Cell;

/// The system's allocator, which refuses this thread what it was told to. The library takes no memory from it.
struct Refusing;

thread_local! {
    static REFUSED: Cell<usize> = const { Cell::new(usize::MAX) };
    static LARGEST: Cell<usize> = const { Cell::new(usize::MAX) };
    static MADE: Cell<usize> = const { Cell::new(0) };
}

fn is_refused(size: usize) -> bool {
    let number = MADE.with(|made| made.replace(made.get() + 1));
    number == REFUSED.with(Cell::get) || size > LARGEST.with(Cell::get)
}

// SAFETY: each block is the system's, or there is none.
unsafe impl GlobalAlloc for Refusing {
    unsafe fn alloc(&self, layout: Layout) -> *mut u8 {
        if is_refused(layout.size()) {
            return std::ptr::null_mut();
        }
        System.alloc(layout)
    }

    unsafe fn realloc(&self, block: *mut u8, layout: Layout, size: usize) -> *mut u8 {
        if is_refused(size) {
            return std::ptr::null_mut();
        }
        System.realloc(block, layout, size)
    }

    unsafe fn dealloc(&self, block: *mut u8, layout: Layout) {
        System.dealloc(block, layout)
    }
}

#[global_allocator]
static ALLOCATOR: Refusing = Refusing;

type Answer = Result<Vec<u8>, Error>;

/// Calls where the allocation of a number is refused, and each of more bytes than the largest. Answers how many were asked for, too.
fn refuse(number: usize, largest: usize, call: &dyn Fn() -> Answer) -> (Answer, usize) {
    MADE.with(|made| made.set(0));
    REFUSED.with(|refused| refused.set(number));
    LARGEST.with(|bytes| bytes.set(largest));
    let answer = call();
    REFUSED.with(|refused| refused.set(usize::MAX));
    LARGEST.with(|bytes| bytes.set(usize::MAX));
    (answer, MADE.with(Cell::get))
}

fn nested(depth: usize) -> Vec<u8> {
    let mut bytes = vec![0x81; depth];
    bytes.push(0x80);
    bytes
}

#[test]
fn each_allocation_for_an_output() {
    let (short, deep) = (nested(1), nested(100));
    let rows: [(&dyn Fn() -> Answer, usize); 4] = [
        (&|| convert(Command::Cbor2Diag, &short, &Options::cbor2diag()), 1),
        (&|| convert(Command::Cbor2Diag, &deep, &Options::cbor2diag()), 2),
        (&|| convert(Command::Diag2Cbor, b"1", &Options::diag2cbor()), 1),
        (&|| show(&deep).map(String::into_bytes), 2),
    ];
    for (call, allocations) in rows {
        let (wanted, made) = refuse(usize::MAX, usize::MAX, call);
        assert!(wanted.is_ok());
        assert_eq!(made, allocations);
        for number in 0..made {
            let error = refuse(number, usize::MAX, call).0.unwrap_err();
            assert_eq!(error.kind(), ErrorKind::OutOfMemory);
            assert_eq!((error.place(), error.offset()), (None, None));
            assert_eq!(error.to_string(), "Out of memory");
        }
    }
}

/// 512 arrays become 1 MB of text, for which there is no room; all else has less than 2 kB.
#[test]
fn an_output_that_is_too_large() {
    let deep = nested(511);
    let call = || convert(Command::Cbor2Diag, &deep, &Options::cbor2diag());
    assert!(refuse(usize::MAX, 2_000_000, &call).0.unwrap().len() > 1_000_000);
    assert_eq!(
        refuse(usize::MAX, 2_000, &call).0.unwrap_err().kind(),
        ErrorKind::OutOfMemory
    );
}

#[test]
fn the_message_of_a_fault() {
    let call = || convert(Command::Diag2Cbor, b"[1,\n  2x]", &Options::diag2cbor());
    let (wanted, made) = refuse(usize::MAX, usize::MAX, &call);
    let wanted = wanted.unwrap_err();
    assert_eq!(made, 2);
    assert_eq!(
        refuse(0, usize::MAX, &call).0.unwrap_err().kind(),
        ErrorKind::OutOfMemory
    );
    let error = refuse(1, usize::MAX, &call).0.unwrap_err();
    assert_eq!(
        (error.kind(), error.place(), error.offset()),
        (wanted.kind(), wanted.place(), wanted.offset())
    );
    assert_eq!(error.to_string(), "The text is no EDN");
}
