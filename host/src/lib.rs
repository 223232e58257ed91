//! The proved table, settled test, usable test and table check of Sockhurdle, for a host in Rust.
//!
//! A [`Table`] is one run of words in the host's memory; each of the ten calls works there, in place. [`Shared`] has one behind a lock,
//! with the clock, for many threads:
//!
//! ```
//! use sockhurdle::{Refusal, Shared};
//!
//! let shared = Shared::fresh();
//! let mut encode = shared.begin()?; // a re-encode marks what it makes by its id
//! encode.on_abort(|id| { /* remove what `id` made, and strike it out as ender */ });
//! let new = encode.id();
//! let page = shared.pin()?; // a page asks of its snapshot
//! encode.finish()?;
//! assert!(!page.settled(new)?); // and sees nothing half
//! let (line, _) = shared.vacuum(); // what an id below the line replaced may go
//! assert!(new.0 >= line); // the page still reads what `new` replaced
//! # Ok::<(), Refusal>(())
//! ```
//!
//! A reader in another process, or over other memory, holds a [`SnapshotRef`]: xmax, and the ids that were in flight. It asks which versions it may use:
//!
//! ```
//! use sockhurdle::{Refusal, SnapshotRef, Txid};
//!
//! let in_flight = [5, 9];
//! let seen = SnapshotRef::of_ids(12, &in_flight);
//! assert_eq!(seen.settled(Txid(7)), Ok(true));
//! assert_eq!(seen.settled(Txid(9)), Ok(false)); // in flight
//! assert_eq!(seen.settled(Txid(12)), Ok(false)); // begun later
//! assert_eq!(seen.usable(Txid(9), Some(Txid(9))), Ok(true)); // the reader's own
//! assert_eq!(seen.settled(Txid(0)), Err(Refusal::ZeroTxid));
//! ```
//!
//! A host that finds a table in shared memory checks its image before it trusts it:
//!
//! ```
//! use sockhurdle::{Refusal, Slot, Image, check_image};
//!
//! let mut table = Image::fresh();
//! table.slots[3] = Slot { txid: 7, snapshot_xmin: 5 };
//! table.clock = 8;
//! let mut image = table.bytes();
//! assert_eq!(check_image(&image), Ok(true));
//! assert_eq!(Image::of_bytes(&image), Ok(Some(table)));
//!
//! image[3 * 16] = 8; // the txid is now the clock, which nobody has taken yet
//! assert_eq!(check_image(&image), Ok(false));
//! assert_eq!(check_image(&image[1..]), Err(Refusal::BadImage));
//! ```
//!
//! Every call and every question is one call of the proved library, and any words and bytes are answered. What is proved of it, and
//! what is not, stands in docs/SPEC.md (18, 20) and docs/TRUST.md of the repository; the rest of this crate is plain Rust: the lines that
//! make the calls, [`Shared`] with its guards, [`Image::bytes`] and [`Image::of_bytes`].

mod batch;
mod capture;
mod guards;
mod image;
mod raw;
mod refusal;
mod shared;
mod snapshot;
mod table;

pub use batch::{Version, batch};
pub use guards::{Pin, Transaction};
pub use image::{IMAGE_LEN, Image, PINS, SLOTS, Slot, check_image};
pub use refusal::Refusal;
pub use shared::Shared;
pub use snapshot::{Snapshot, SnapshotRef, Txid};
pub use table::{Holder, PinNo, Registration, SlotNo, Stamp, Table};

/// An answer of the library: 0 for no, 1 for yes, else a refusal's number.
fn answer(number: u64) -> Result<bool, Refusal> {
    match number {
        0 => Ok(false),
        1 => Ok(true),
        refused => Err(Refusal::of(refused)),
    }
}
