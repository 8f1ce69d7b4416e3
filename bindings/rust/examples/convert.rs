use cbor_edn_verified::{diag2cbor, Error};

fn main() -> Result<(), Error> {
    let bytes = diag2cbor("[1, 0x1f, []]")?;
    for byte in bytes {
        print!("{byte:02x}");
    }
    println!();
    Ok(())
}
