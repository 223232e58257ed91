use crate::{Refusal, Txid, raw};

/// A version of a tile as a vacuum is told it: who made it, and who replaced it.
#[repr(C)]
#[derive(Clone, Copy, Debug, PartialEq, Eq, Hash)]
pub struct Version {
    maker: u64,
    ender: u64,
}

impl Version {
    /// Of its maker, and of its ender where it has one. An ender that was given up is none.
    pub fn new(maker: Txid, ender: Option<Txid>) -> Self {
        Version {
            maker: maker.0,
            ender: ender.map_or(0, |id| id.0),
        }
    }
}

/// Decides which versions a vacuum may remove by a line: 1 in the place of each that may go, else 0. Decisions past the versions stay.
/// Nobody whom the line respects needs one that may go; of the line of [`Shared::vacuum`](crate::Shared::vacuum) that is proved.
///
/// ```
/// use sockhurdle::{Refusal, Txid, Version, batch};
///
/// let versions = [
///     Version::new(Txid(1), Some(Txid(4))), // replaced by an id below the line
///     Version::new(Txid(4), Some(Txid(9))), // .. by the line itself
///     Version::new(Txid(9), None),          // alive
/// ];
/// let mut may_go = [0; 3];
/// batch(9, &versions, &mut may_go)?;
/// assert_eq!(may_go, [1, 0, 0]);
///
/// let bad = [versions[0], Version::new(Txid(7), Some(Txid(6)))];
/// assert_eq!(batch(9, &bad, &mut may_go), Err(Refusal::EndedBefore { place: 1 }));
/// assert_eq!(batch(9, &versions, &mut may_go[1..]), Err(Refusal::NoRoom));
/// assert_eq!(may_go, [1, 0, 0]); // a refusal writes nothing
/// # Ok::<(), Refusal>(())
/// ```
///
/// # Errors
///
/// 12 where there are fewer decisions than versions; then of the first bad version 4, its maker is 0, or 17, its ender is below its
/// maker.
pub fn batch(line: u64, versions: &[Version], decisions: &mut [u8]) -> Result<(), Refusal> {
    let mut out = [0; 1];
    // The three runs live, apart from each other, and nobody else writes them, for as long as they are lent; a version is two numbers.
    let number = unsafe {
        raw::sockhurdle_batch(
            line,
            versions.as_ptr().cast(),
            versions.len(),
            decisions.as_mut_ptr(),
            decisions.len(),
            out.as_mut_ptr(),
            out.len(),
        )
    };
    match number {
        0 => Ok(()),
        refused => Err(Refusal::of_batch(refused, out[0] as usize)),
    }
}
