//! The one call of the library.

use crate::{Command, Error, ErrorKind, Options, Place, ShowOptions};
use std::collections::TryReserveError;

// As in `cbor_edn.h`.
#[repr(C)]
#[derive(Default)]
struct Report {
    output_len: usize,
    message_len: usize,
    offset: usize,
    line: usize,
    column: usize,
}

extern "C" {
    fn cbor_edn_convert(
        command: u32,
        flags: u32,
        limit: usize,
        input: *const u8,
        input_len: usize,
        output: *mut u8,
        output_capacity: usize,
        message: *mut u8,
        message_capacity: usize,
        report: *mut Report,
    ) -> u32;
}

const DONE: u32 = 0;
const NO_ROOM: u32 = 1;

// Memory to find the place ran out.
const NO_OFFSET: usize = usize::MAX;

// Takes each message.
const MESSAGE_ROOM: usize = 160;

fn number_of(command: Command) -> u32 {
    match command {
        Command::Diag2Cbor => 0,
        Command::Cbor2Diag => 1,
        Command::Diag2Diag => 2,
    }
}

const SHOW: u32 = 3;

// The first flag is the lowest bit.
fn sum(flags: &[bool]) -> u32 {
    (0..).zip(flags).map(|(bit, flag)| u32::from(*flag) << bit).sum()
}

fn flags_of(options: &Options) -> u32 {
    sum(&[
        options.hex,
        options.annotate_tags,
        options.remove_comments,
        options.aol_to_item,
        options.annotate_ccs,
        options.bignum_from_tags,
        options.apply_999,
        options.preserve_space,
    ])
}

fn show_flags_of(options: &ShowOptions) -> u32 {
    let flags = sum(&[
        options.hex,
        false,
        false,
        false,
        options.annotate_ccs,
        options.bignum_from_tags,
        false,
        false,
        options.names,
    ]);
    flags + 512 * u32::from(options.levels)
}

fn kind_of(status: u32) -> ErrorKind {
    match status {
        2 => ErrorKind::InvalidLimit,
        3 => ErrorKind::NotUtf8,
        4 => ErrorKind::InvalidText,
        5 => ErrorKind::InvalidCbor,
        6 => ErrorKind::InvalidHex,
        7 => ErrorKind::NoEncoding,
        8 => ErrorKind::OutOfMemory,
        9 => ErrorKind::TooDeep,
        _ => unreachable!("status {status}"),
    }
}

// Lines count from 1.
fn place_of(report: &Report) -> Option<Place> {
    (report.line > 0).then_some(Place {
        offset: report.offset,
        line: report.line,
        column: report.column,
    })
}

// CBOR has no lines.
fn offset_of(kind: ErrorKind, report: &Report) -> Option<usize> {
    let is_told = report.line > 0 || matches!(kind, ErrorKind::InvalidCbor | ErrorKind::TooDeep);
    (is_told && report.offset != NO_OFFSET).then_some(report.offset)
}

// None where memory for it is refused: then the words of the kind are shown.
fn message_of(bytes: &[u8]) -> String {
    let shown = std::str::from_utf8(bytes).unwrap_or_default();
    let mut message = String::new();
    if message.try_reserve_exact(shown.len()).is_ok() {
        message.push_str(shown);
    }
    message
}

fn error_of(status: u32, report: &Report, message: &[u8]) -> Error {
    let kind = kind_of(status);
    Error {
        kind,
        offset: offset_of(kind, report),
        place: place_of(report),
        message: message_of(&message[..report.message_len.min(message.len())]),
    }
}

fn out_of_memory(_: TryReserveError) -> Error {
    Error {
        kind: ErrorKind::OutOfMemory,
        offset: None,
        place: None,
        message: String::new(),
    }
}

pub fn convert(command: Command, options: &Options, input: &[u8]) -> Result<Vec<u8>, Error> {
    call(number_of(command), flags_of(options), options.limit, input)
}

pub fn show(options: &ShowOptions, input: &[u8]) -> Result<Vec<u8>, Error> {
    call(SHOW, show_flags_of(options), options.limit, input)
}

/// Calls once, and again where the output is longer than was guessed.
fn call(command: u32, flags: u32, limit: usize, input: &[u8]) -> Result<Vec<u8>, Error> {
    let mut output: Vec<u8> = Vec::new();
    output
        .try_reserve_exact(input.len().saturating_mul(2).saturating_add(16))
        .map_err(out_of_memory)?;
    let mut message = [0; MESSAGE_ROOM];
    let mut report = Report::default();
    loop {
        // SAFETY: each pointer and length are of one value, which is borrowed or owned here until the call ends, and is `isize::MAX`
        // bytes at most. No two of them overlap, and `report` is aligned. The library writes `output` and never reads it, so its
        // capacity may stand for its length.
        let status = unsafe {
            cbor_edn_convert(
                command,
                flags,
                limit,
                input.as_ptr(),
                input.len(),
                output.as_mut_ptr(),
                output.capacity(),
                message.as_mut_ptr(),
                message.len(),
                &mut report,
            )
        };
        match status {
            DONE => {
                assert!(report.output_len <= output.capacity());
                // SAFETY: at this status so many bytes were written, and no more than there is room for.
                unsafe { output.set_len(report.output_len) };
                return Ok(output);
            }
            NO_ROOM => {
                assert!(report.output_len > output.capacity());
                output.try_reserve_exact(report.output_len).map_err(out_of_memory)?;
            }
            fault => return Err(error_of(fault, &report, &message)),
        }
    }
}
