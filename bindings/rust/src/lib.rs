//! The Extended Diagnostic Notation (EDN) of CBOR, into CBOR and back, by a library that is proved to meet its contracts.
//!
//! ```
//! use cbor_edn_verified::{cbor2diag, diag2cbor};
//!
//! assert_eq!(diag2cbor("[1, 0x1f, []]").unwrap(), [0x83, 1, 0x18, 0x1f, 0x80]);
//! assert_eq!(cbor2diag(&[0x83, 1, 0x18, 0x1f, 0x80]).unwrap(), "[1, 31, []]\n");
//!
//! let place = diag2cbor("[1,\n  2x]").unwrap_err().place().unwrap();
//! assert_eq!((place.line, place.column, place.offset), (2, 4, 7));
//! ```
//!
//! Each call takes a stack of 1 MB at most, which a main thread and a thread of `std` have, unless a builder gave less.
#![deny(missing_docs, unsafe_op_in_unsafe_fn)]

mod call;

use std::fmt;

/// How deep items may nest at most.
pub const NESTING_LIMIT: usize = 512;

/// What is turned into what.
#[derive(Clone, Copy, Debug, PartialEq, Eq)]
pub enum Command {
    /// A sequence of items in EDN into their encodings in CBOR.
    Diag2Cbor,
    /// Encodings in CBOR into the items in EDN.
    Cbor2Diag,
    /// A sequence of items in EDN into the same with other spaces.
    Diag2Diag,
}

/// What a call does. Each option holds for each command, but `hex` says nothing to `Diag2Diag`.
///
/// Begin with what the program `cbor-edn` does without flags:
///
/// ```
/// use cbor_edn_verified::{cbor2diag_with, Options};
///
/// let options = Options { annotate_ccs: true, ..Options::cbor2diag() };
/// let text = cbor2diag_with(&[0xa1, 0x04, 0x1a, 0x65, 0x53, 0xf1, 0x00], &options).unwrap();
/// assert_eq!(text, "{4/ exp /: dt'2023-11-14T22:13:20+00:00'}\n");
/// ```
#[derive(Clone, Copy, Debug, PartialEq, Eq)]
pub struct Options {
    /// CBOR stands in hexadecimal digits, in the output of `Diag2Cbor` and in the input of `Cbor2Diag`.
    pub hex: bool,
    /// Tags of addresses and times become literals, as `IP'192.0.2.1'` in the place of `52(h'c0000201')`.
    pub annotate_tags: bool,
    /// Comments are left out.
    pub remove_comments: bool,
    /// Literals of addresses and times become what they stand for, as `23` in the place of `dt'1970-01-01T00:00:23Z'`.
    pub aol_to_item: bool,
    /// Each item of the sequence that is a map is taken for the claims set of a CWT, and gets comments.
    pub annotate_ccs: bool,
    /// Bignums become integers, as `18446744073709551616` in the place of `2(h'010000000000000000')`.
    pub bignum_from_tags: bool,
    /// Literals with other prefixes become tags, as `999(["foo", "bar"])` in the place of `foo'bar'`.
    pub apply_999: bool,
    /// Spaces stay as they are, where else items are indented.
    pub preserve_space: bool,
    /// How deep items may nest, at most [`NESTING_LIMIT`].
    pub limit: usize,
}

const OFF: Options = Options {
    hex: false,
    annotate_tags: false,
    remove_comments: false,
    aol_to_item: false,
    annotate_ccs: false,
    bignum_from_tags: false,
    apply_999: false,
    preserve_space: false,
    limit: NESTING_LIMIT,
};

impl Options {
    /// What `cbor-edn diag2cbor` does without flags.
    pub const fn diag2cbor() -> Options {
        Options {
            aol_to_item: true,
            ..OFF
        }
    }

    /// What `cbor-edn cbor2diag` does without flags.
    pub const fn cbor2diag() -> Options {
        Options {
            annotate_tags: true,
            bignum_from_tags: true,
            ..OFF
        }
    }

    /// What `cbor-edn diag2diag` does without flags.
    pub const fn diag2diag() -> Options {
        Options {
            bignum_from_tags: true,
            ..OFF
        }
    }
}

/// How CBOR is shown.
///
/// Begin with what the program `cbor-edn show` does without flags:
///
/// ```
/// use cbor_edn_verified::{show_with, ShowOptions};
///
/// let options = ShowOptions { levels: 1, ..ShowOptions::default() };
/// let text = show_with(&[0x45, 0x81, 0x43, 0x81, 0x41, 0x07], &options).unwrap();
/// assert_eq!(text, "<<[h'814107']>>\n");
/// ```
#[derive(Clone, Copy, Debug, PartialEq, Eq)]
pub struct ShowOptions {
    /// The input is hexadecimal digits of CBOR.
    pub hex: bool,
    /// To how many levels byte strings that hold CBOR are shown, as `<<{1: -7}>>` in the place of `h'a10126'`.
    pub levels: u8,
    /// COSE messages get their names as comments, and those of their parts, header parameters and algorithms.
    pub names: bool,
    /// Bignums become integers, as `18446744073709551616` in the place of `2(h'010000000000000000')`.
    pub bignum_from_tags: bool,
    /// Each item of the sequence that is a map is taken for the claims set of a CWT, and so is a map that is shown as the payload of a
    /// COSE message: both get comments.
    pub annotate_ccs: bool,
    /// How deep items may nest, at most [`NESTING_LIMIT`].
    pub limit: usize,
}

impl Default for ShowOptions {
    fn default() -> ShowOptions {
        ShowOptions {
            hex: false,
            levels: 8,
            names: true,
            bignum_from_tags: true,
            annotate_ccs: false,
            limit: NESTING_LIMIT,
        }
    }
}

/// What is at fault.
#[derive(Clone, Copy, Debug, PartialEq, Eq)]
#[non_exhaustive]
pub enum ErrorKind {
    /// The limit is above [`NESTING_LIMIT`].
    InvalidLimit,
    /// The text is no UTF-8.
    NotUtf8,
    /// The text is no EDN.
    InvalidText,
    /// The bytes are no CBOR that is read here.
    InvalidCbor,
    /// A character is no digit and no space, or there is an odd number of digits.
    InvalidHex,
    /// What the text says has no encoding.
    NoEncoding,
    /// Memory was refused, to the library or for the output.
    OutOfMemory,
    /// Items nest deeper than the limit.
    TooDeep,
}

impl fmt::Display for ErrorKind {
    fn fmt(&self, f: &mut fmt::Formatter<'_>) -> fmt::Result {
        f.write_str(match self {
            ErrorKind::InvalidLimit => "The limit is above 512",
            ErrorKind::NotUtf8 => "The text is no UTF-8",
            ErrorKind::InvalidText => "The text is no EDN",
            ErrorKind::InvalidCbor => "The bytes are no CBOR",
            ErrorKind::InvalidHex => "The digits are no hexadecimal digits",
            ErrorKind::NoEncoding => "The text has no encoding",
            ErrorKind::OutOfMemory => "Out of memory",
            ErrorKind::TooDeep => "Items nest too deep",
        })
    }
}

/// Where a text is refused: the first item that has no encoding while all in it has one, or what is no EDN or nests too deep.
#[derive(Clone, Copy, Debug, PartialEq, Eq)]
pub struct Place {
    /// In bytes, from 0.
    pub offset: usize,
    /// From 1.
    pub line: usize,
    /// In characters, from 1.
    pub column: usize,
}

/// Why an input has no output.
#[derive(Clone, Debug, PartialEq, Eq)]
pub struct Error {
    kind: ErrorKind,
    offset: Option<usize>,
    place: Option<Place>,
    // Empty where the kind says it all.
    message: String,
}

impl Error {
    /// What is at fault.
    pub fn kind(&self) -> ErrorKind {
        self.kind
    }

    /// Where a text is refused, at [`ErrorKind::InvalidText`], [`ErrorKind::NoEncoding`] and [`ErrorKind::TooDeep`] alone.
    pub fn place(&self) -> Option<Place> {
        self.place
    }

    /// At which byte the input is refused, from 0: that of its place in a text. In CBOR, at [`ErrorKind::InvalidCbor`] and
    /// [`ErrorKind::TooDeep`], that of a head, or the end where an item is missing; of digits it is a byte that they stand for.
    pub fn offset(&self) -> Option<usize> {
        self.offset
    }
}

impl fmt::Display for Error {
    fn fmt(&self, f: &mut fmt::Formatter<'_>) -> fmt::Result {
        if self.message.is_empty() {
            return self.kind.fmt(f);
        }
        f.write_str(&self.message)
    }
}

impl std::error::Error for Error {}

fn text(bytes: Vec<u8>) -> String {
    String::from_utf8(bytes).expect("a text that the library writes is UTF-8")
}

/// Turns an input into an output, as a run of the program does.
pub fn convert(command: Command, input: &[u8], options: &Options) -> Result<Vec<u8>, Error> {
    call::convert(command, options, input)
}

/// The CBOR that a text means: the encodings of its items, one behind the other.
pub fn diag2cbor(edn: &str) -> Result<Vec<u8>, Error> {
    diag2cbor_with(edn, &Options::diag2cbor())
}

/// The same by other options. With `hex` the output is digits in lines.
pub fn diag2cbor_with(edn: &str, options: &Options) -> Result<Vec<u8>, Error> {
    convert(Command::Diag2Cbor, edn.as_bytes(), options)
}

/// The text of what bytes encode, item by item, each on one line where that is less than 80 bytes wide.
pub fn cbor2diag(cbor: &[u8]) -> Result<String, Error> {
    cbor2diag_with(cbor, &Options::cbor2diag())
}

/// The same by other options. With `hex` the input is digits.
pub fn cbor2diag_with(cbor: &[u8], options: &Options) -> Result<String, Error> {
    convert(Command::Cbor2Diag, cbor, options).map(text)
}

/// The same items with other spaces.
pub fn diag2diag(edn: &str) -> Result<String, Error> {
    diag2diag_with(edn, &Options::diag2diag())
}

/// The same by other options.
pub fn diag2diag_with(edn: &str, options: &Options) -> Result<String, Error> {
    convert(Command::Diag2Diag, edn.as_bytes(), options).map(text)
}

/// The text of what bytes encode, with the CBOR in its byte strings and the names of COSE.
pub fn show(cbor: &[u8]) -> Result<String, Error> {
    show_with(cbor, &ShowOptions::default())
}

/// The same by other options. With `hex` the input is digits.
pub fn show_with(cbor: &[u8], options: &ShowOptions) -> Result<String, Error> {
    call::show(options, cbor).map(text)
}
