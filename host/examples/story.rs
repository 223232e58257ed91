//! A photo of two tiles is re-encoded while a page reads it; the host hands each call its numbers itself (docs/HOST.md).
//! Run it: `cargo run --release --offline --example story` in this folder, after host/build.

use sockhurdle::{Refusal, Snapshot, Stamp, Table, Txid};

/// The maker of the old tiles.
const OLD: Txid = Txid(1);

/// Whose tile a page reads: the new one if it may, else the old one if it may, else none.
fn read(seen: &Snapshot, new: Txid) -> Result<u64, Refusal> {
    for maker in [new, OLD] {
        if seen.settled(maker)? {
            return Ok(maker.0);
        }
    }
    Ok(0)
}

fn main() -> Result<(), Refusal> {
    let mut table = Table::fresh();
    let first = table.begin(Stamp(OLD.0))?;
    table.finish(first, Stamp(2))?;

    // The re-encode begins, then the page. It asks for its top tile before the re-encode is done, for its bottom tile after.
    let encode = table.begin(Stamp(3))?;
    let page = table.begin(Stamp(4))?;
    let seen = table.transaction_snapshot(page, 5, 5)?;
    print!("page: top={}", read(&seen, encode.id)?);
    let (line, holder) = table.vacuum(5, 5)?;
    print!(" line={line}, held by {holder};");
    table.finish(encode, Stamp(5))?;
    let (line, holder) = table.vacuum(6, 6)?;
    print!(
        " bottom={} line={line}, held by {holder};",
        read(&seen, encode.id)?
    );
    table.end(page)?;
    let (line, holder) = table.vacuum(6, 6)?;
    println!(" line={line}, held by {holder}");

    // The next page is not registered, and pins its snapshot.
    let (pin, seen) = table.pin(6, 6)?;
    println!("next page: top and bottom={}", read(&seen, encode.id)?);
    table.unpin(pin)?;
    match table.unpin(pin) {
        Err(refusal) => println!("{refusal}"),
        Ok(()) => println!("released twice"),
    }
    Ok(())
}
