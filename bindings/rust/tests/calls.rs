//! What each option does, what is told of faults, and eight threads at once.

use cbor_edn_verified::{
    cbor2diag, cbor2diag_with, convert, diag2cbor, diag2cbor_with, diag2diag, diag2diag_with, show, show_with, Command,
    Error, ErrorKind, Options, ShowOptions, NESTING_LIMIT,
};

const BIGNUM: &[u8] = b"\xc2\x49\x01\0\0\0\0\0\0\0\0";

// Of each option, alone: a command, an input, what it gives with the option, and without.
type Row = (fn(&mut Options), Command, &'static [u8], &'static [u8], &'static [u8]);

const ROWS: &[Row] = &[
    (
        |o| o.hex = true,
        Command::Diag2Cbor,
        b"[1, 0x1f, []]",
        b"8301181f80\n",
        b"\x83\x01\x18\x1f\x80",
    ),
    (|o| o.hex = true, Command::Cbor2Diag, b"30", b"-17\n", b"-20,\n-17\n"),
    (
        |o| o.annotate_tags = true,
        Command::Cbor2Diag,
        b"\xc1\x00",
        b"DT'1970-01-01T00:00:00+00:00'\n",
        b"1(0)\n",
    ),
    (
        |o| o.remove_comments = true,
        Command::Diag2Diag,
        b"[1 /c/, 2]\n",
        b"[1, 2]\n",
        b"[1/c/, 2]\n",
    ),
    (
        |o| o.aol_to_item = true,
        Command::Diag2Diag,
        b"dt'1970-01-01T00:00:23Z'",
        b"23\n",
        b"dt'1970-01-01T00:00:23Z'\n",
    ),
    (
        |o| o.annotate_ccs = true,
        Command::Diag2Diag,
        b"{4: 1700000000}",
        b"{4/ exp /: dt'2023-11-14T22:13:20+00:00'}\n",
        b"{4: 1700000000}\n",
    ),
    (
        |o| o.bignum_from_tags = true,
        Command::Cbor2Diag,
        BIGNUM,
        b"18446744073709551616\n",
        b"2(h'010000000000000000')\n",
    ),
    (
        |o| o.apply_999 = true,
        Command::Diag2Diag,
        b"foo'bar'",
        b"999([\"foo\", \"bar\"])\n",
        b"foo'bar'\n",
    ),
    (
        |o| o.preserve_space = true,
        Command::Diag2Diag,
        b"[1 /one/,2]",
        b"[1 /one/,2]",
        b"[1/one/, 2]\n",
    ),
];

fn off() -> Options {
    Options {
        bignum_from_tags: false,
        ..Options::diag2diag()
    }
}

#[test]
fn each_option() {
    for (set, command, input, with, without) in ROWS {
        let mut options = off();
        assert_eq!(convert(*command, input, &options).unwrap(), *without);
        set(&mut options);
        assert_eq!(convert(*command, input, &options).unwrap(), *with);
    }
}

#[test]
fn what_commands_do_by_themselves() {
    assert_eq!(diag2cbor("[1, 0x1f, []]").unwrap(), b"\x83\x01\x18\x1f\x80");
    assert_eq!(
        diag2cbor("ip'192.0.2.1', 0x1f").unwrap(),
        b"\x44\xc0\x00\x02\x01\x18\x1f"
    );
    assert_eq!(cbor2diag(b"\x83\x01\x18\x1f\x80").unwrap(), "[1, 31, []]\n");
    assert_eq!(cbor2diag(b"\xc1\x00").unwrap(), "DT'1970-01-01T00:00:00+00:00'\n");
    assert_eq!(cbor2diag(BIGNUM).unwrap(), "18446744073709551616\n");
    assert_eq!(diag2diag("2(h'010000000000000000')").unwrap(), "18446744073709551616\n");
    assert_eq!(diag2diag("[1 /one/,2]").unwrap(), "[1/one/, 2]\n");
    assert_eq!(diag2cbor("").unwrap(), b"");
    assert_eq!(cbor2diag(b"").unwrap(), "");
}

#[test]
fn shows() {
    assert_eq!(show(b"\x43\xa1\x01\x26").unwrap(), "<<{1: -7}>>\n");
    assert_eq!(show(b"\xd1\x80").unwrap(), "17([])\n/ COSE_Mac0 /\n");
    assert_eq!(show(BIGNUM).unwrap(), "18446744073709551616\n");
    assert_eq!(show(b"").unwrap(), "");
    let plain = ShowOptions {
        hex: true,
        levels: 0,
        names: false,
        bignum_from_tags: false,
        annotate_ccs: true,
        limit: 1,
    };
    let rows = [
        ("43a10126", "h'a10126'\n"),
        ("d180", "17([])\n"),
        ("c240", "2(h'')\n"),
        ("a10400", "{4/ exp /: dt'1970-01-01T00:00:00+00:00'}\n"),
    ];
    for (digits, wanted) in rows {
        let options = if digits == "d180" {
            ShowOptions { limit: 2, ..plain }
        } else {
            plain
        };
        assert_eq!(show_with(digits.as_bytes(), &options).unwrap(), wanted);
    }
    assert_eq!(show_with(b"d180", &plain).unwrap_err().kind(), ErrorKind::TooDeep);
    let deep = ShowOptions {
        levels: 255,
        ..ShowOptions::default()
    };
    assert_eq!(
        show_with(b"\x45\x81\x43\x81\x41\x07", &deep).unwrap(),
        "<<[<<[h'07']>>]>>\n"
    );
    let above = ShowOptions {
        limit: NESTING_LIMIT + 1,
        ..deep
    };
    assert_eq!(show_with(b"1", &above).unwrap_err().kind(), ErrorKind::InvalidLimit);
}

#[test]
fn more_room_than_was_guessed() {
    let mut bytes = vec![0x58, 253];
    bytes.resize(255, 0xab);
    assert_eq!(cbor2diag(&bytes).unwrap(), format!("h'{}'\n", "ab".repeat(253)));
    let deep = "[".repeat(NESTING_LIMIT) + &"]".repeat(NESTING_LIMIT);
    let wide = diag2diag(&deep).unwrap();
    assert!(wide.len() > 100 * deep.len());
    let mut nested = vec![0x81; NESTING_LIMIT - 1];
    nested.push(0x80);
    assert_eq!(diag2cbor(&wide).unwrap(), nested);
}

// The kind, the offset, the line and the column, and the message.
type Fault = (ErrorKind, Option<usize>, Option<(usize, usize)>, String);

fn fault(result: Result<Vec<u8>, Error>) -> Fault {
    let error = result.unwrap_err();
    assert!(error.place().iter().all(|place| Some(place.offset) == error.offset()));
    let location = error.place().map(|place| (place.line, place.column));
    (error.kind(), error.offset(), location, error.to_string())
}

#[test]
fn faults() {
    let digits = Options { hex: true, ..off() };
    let flat = Options { limit: 0, ..off() };
    let text = |result: Result<String, Error>| fault(result.map(String::into_bytes));
    let limit = Options {
        limit: NESTING_LIMIT + 1,
        ..off()
    };
    let rows = [
        (
            fault(diag2cbor("[1,\n  2x]")),
            ErrorKind::InvalidText,
            Some(7),
            Some((2, 4)),
            "Error parsing input data: Invalid EDN in line 2 column 4 (byte 7)",
        ),
        (
            fault(diag2cbor_with("[]", &flat)),
            ErrorKind::TooDeep,
            Some(0),
            Some((1, 1)),
            "Error parsing input data: EDN nested too deeply in line 1 column 1 (byte 0)",
        ),
        (
            text(cbor2diag(b"\x83\x01")),
            ErrorKind::InvalidCbor,
            Some(2),
            None,
            "Error decoding input data: Expected item, out of data",
        ),
        (
            text(cbor2diag_with(b"01 82\n01 f818", &digits)),
            ErrorKind::InvalidCbor,
            Some(3),
            None,
            "Error decoding input data: Invalid simple value",
        ),
        (
            text(cbor2diag_with(b"\x01\x80", &flat)),
            ErrorKind::TooDeep,
            Some(1),
            None,
            "Error decoding input data: Nested too deeply",
        ),
        (
            text(show(b"\x82\x00\x1c")),
            ErrorKind::InvalidCbor,
            Some(2),
            None,
            "Error decoding input data: Reserved header byte",
        ),
        (
            text(cbor2diag_with(b"123", &digits)),
            ErrorKind::InvalidHex,
            None,
            None,
            "Error decoding hexadecimal input",
        ),
        (
            fault(diag2cbor("[\"\u{e9}\",\n {2: <<1.5>>}]")),
            ErrorKind::NoEncoding,
            Some(14),
            Some((2, 8)),
            "Error encoding output data: Number has no encoding",
        ),
        (
            fault(convert(Command::Diag2Diag, b"\xff", &off())),
            ErrorKind::NotUtf8,
            None,
            None,
            "Error processing input file",
        ),
        (
            text(diag2diag_with("1", &limit)),
            ErrorKind::InvalidLimit,
            None,
            None,
            "The limit is above 512",
        ),
    ];
    for ((kind, offset, location, message), wanted_kind, wanted_offset, wanted_location, wanted) in &rows {
        assert_eq!(
            (kind, offset, location, message.as_str()),
            (wanted_kind, wanted_offset, wanted_location, *wanted)
        );
    }
}

#[test]
fn eight_threads_at_once() {
    std::thread::scope(|scope| {
        for _ in 0..8 {
            scope.spawn(|| {
                for _ in 0..2000 {
                    assert_eq!(diag2cbor("[1, 0x1f, []]").unwrap(), b"\x83\x01\x18\x1f\x80");
                    assert_eq!(diag2cbor("[1, ").unwrap_err().place().unwrap().column, 5);
                }
            });
        }
    });
}

// Each kind of nesting: what opens, stands inside and closes.
const NESTED: &[(&str, &str, &str)] = &[
    ("[_ ", "1", "]"),
    ("{", "1", ": 2}"),
    ("{_ 2: ", "1", "}"),
    ("6(", "1", ")"),
    ("<<2, ", "1", ", 3>>"),
    ("(_ 'a', 'b' + <<", "1", ">>, 'c')"),
];

/// A stack of 1 MB, or of `CBOR_EDN_STACK` bytes, where that is in the environment.
#[test]
fn the_deepest_nesting_in_a_small_stack() {
    let stack = std::env::var("CBOR_EDN_STACK").map_or(1 << 20, |bytes| bytes.parse().unwrap());
    for (open, inside, close) in NESTED {
        let text = open.repeat(NESTING_LIMIT) + inside + &close.repeat(NESTING_LIMIT);
        let work = move || {
            let bytes = diag2cbor(&text).unwrap();
            let shown = cbor2diag(&bytes).unwrap();
            assert_eq!(diag2cbor(&shown).unwrap(), bytes);
        };
        std::thread::Builder::new()
            .stack_size(stack)
            .spawn(work)
            .unwrap()
            .join()
            .unwrap();
    }
}
