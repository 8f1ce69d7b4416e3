//! Encodings of another implementation go to text and come back.

use cbor_edn_verified::{cbor2diag_with, diag2cbor, Options};
use std::{env, fs};

fn bytes_of(line: &str) -> Vec<u8> {
    (0..line.len() / 2)
        .map(|at| u8::from_str_radix(&line[2 * at..2 * at + 2], 16).unwrap())
        .collect()
}

#[test]
#[ignore = "CBOR_EDN_VALUES names the file of encodings, one a line in hexadecimal digits"]
fn encodings_come_back() {
    let values = fs::read_to_string(env::var_os("CBOR_EDN_VALUES").expect("CBOR_EDN_VALUES")).unwrap();
    assert!(values.lines().count() > 0);
    let plain = Options {
        annotate_tags: false,
        bignum_from_tags: false,
        ..Options::cbor2diag()
    };
    let claims = Options {
        annotate_ccs: true,
        ..Options::cbor2diag()
    };
    let resolved = Options {
        aol_to_item: true,
        ..Options::cbor2diag()
    };
    for line in values.lines() {
        let bytes = bytes_of(line);
        for options in [Options::cbor2diag(), plain, claims, resolved] {
            let text = cbor2diag_with(&bytes, &options).unwrap();
            assert_eq!(diag2cbor(&text).unwrap(), bytes, "{options:?}: {line}");
        }
    }
}
