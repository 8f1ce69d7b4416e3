//! Each allocation of some calls refused in turn: it is told, and nothing is left behind.

use cbor_edn_verified::{convert, Command, ErrorKind, Options};

// Of the library for tests, `bindings/c/tests/refusing.h`.
extern "C" {
    fn cbor_edn_refuse(number: i64);
    fn cbor_edn_allocations() -> i64;
    fn cbor_edn_blocks_left() -> i64;
}

fn refuse(number: i64) {
    // SAFETY: it sets a number, and this program has no other thread that calls the library.
    unsafe { cbor_edn_refuse(number) }
}

fn allocations() -> i64 {
    // SAFETY: it reads a number.
    unsafe { cbor_edn_allocations() }
}

fn blocks_left() -> i64 {
    // SAFETY: it reads a number.
    unsafe { cbor_edn_blocks_left() }
}

const TEXT: &[u8] = b"{4: 1(0), 8: {4: {3: -17}}} , [_ h'00', <<dt'1970-01-01T00:00:23Z'>>]";

const BYTES: &[u8] = b"\xa2\x04\xc1\x00\x08\xa1\x04\xa1\x03\x30\x9f\x41\x00\xc2\x49\x01\0\0\0\0\0\0\0\0\xff";

fn refuse_for_outputs() {
    let rows = [
        (Command::Diag2Cbor, TEXT, Options::diag2cbor()),
        (
            Command::Cbor2Diag,
            BYTES,
            Options {
                annotate_ccs: true,
                ..Options::cbor2diag()
            },
        ),
        (
            Command::Diag2Diag,
            TEXT,
            Options {
                annotate_tags: true,
                ..Options::diag2diag()
            },
        ),
    ];
    for (command, input, options) in rows {
        refuse(-1);
        let wanted = convert(command, input, &options).unwrap();
        let last = allocations();
        let mut told = 0;
        for number in 0..last {
            refuse(number);
            let result = convert(command, input, &options);
            assert_eq!(blocks_left(), 0, "allocation {number} of {command:?}");
            match result {
                // A collection that asked for more than it needs at once does with less.
                Ok(output) => assert_eq!(output, wanted, "allocation {number} of {command:?}"),
                Err(error) => {
                    assert_eq!(
                        error.kind(),
                        ErrorKind::OutOfMemory,
                        "allocation {number} of {command:?}"
                    );
                    told += 1;
                }
            }
        }
        assert!(
            last > 0 && 2 * told > last,
            "{told} of {last} allocations of {command:?} were told"
        );
    }
}

fn refuse_for_places() {
    let rows: [(Command, &[u8], Options, ErrorKind); 2] = [
        (
            Command::Diag2Cbor,
            b"[1, <<dt'1970-01-01T00:00:23Z', 1.5>>]",
            Options::diag2cbor(),
            ErrorKind::NoEncoding,
        ),
        (
            Command::Cbor2Diag,
            b"\x82\x9f\x01\xf8\x18",
            Options::cbor2diag(),
            ErrorKind::InvalidCbor,
        ),
    ];
    for (command, input, options, kind) in rows {
        refuse(-1);
        let wanted = convert(command, input, &options).unwrap_err();
        let last = allocations();
        for number in 0..last {
            refuse(number);
            let error = convert(command, input, &options).unwrap_err();
            assert_eq!(blocks_left(), 0, "allocation {number} of {command:?}");
            let place = (error.place(), error.offset());
            assert!(
                error.kind() == ErrorKind::OutOfMemory
                    || error.kind() == kind && (place == (None, None) || place == (wanted.place(), wanted.offset())),
                "allocation {number} of {command:?}: {error:?}"
            );
        }
        assert!(last > 1 && wanted.offset().is_some());
    }
}

// One behind the other, since the number of the allocation is one for all threads.
#[test]
fn each_allocation_refused() {
    refuse_for_outputs();
    refuse_for_places();
}
