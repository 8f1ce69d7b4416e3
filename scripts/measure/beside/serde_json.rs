//! Reads a JSON text from standard input as a tree and writes the tree, indented, to standard output: what `scripts/measure/bench.py --beside`
//! times beside `cbor-edn diag2diag`.

use std::error::Error;
use std::io::{self, Read, Write};

use serde_json::Value;

fn main() -> Result<(), Box<dyn Error>> {
    let mut text = Vec::new();
    io::stdin().lock().read_to_end(&mut text)?;
    let value: Value = serde_json::from_slice(&text)?;
    io::stdout().write_all(&serde_json::to_vec_pretty(&value)?)?;
    Ok(())
}
