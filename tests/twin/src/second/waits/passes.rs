//! The table check of the second reading: twelve ways to fail it, one by one.

use super::WaitFault;
use super::read::PINS;
use crate::table::SLOTS;

/// What a table that passes has nowhere.
pub const CONDITIONS: [&str; 12] = [
    "sample-0",
    "sample-above-clock",
    "line-0",
    "line-above-clock",
    "empty-with-xmin",
    "xmin-0",
    "xmin-above-txid",
    "txid-from-clock",
    "txid-below-line",
    "txid-twice",
    "pin-below-line",
    "pin-above-clock",
];

pub fn passes(numbers: &[u128], fault: WaitFault) -> bool {
    let mut conditions = CONDITIONS.iter().filter(|name| !fault.leaves_out(name));
    !conditions.any(|name| has(numbers, name, fault)) && !stricter(numbers, fault)
}

fn pairs(numbers: &[u128]) -> impl Iterator<Item = (u128, u128)> {
    numbers[..2 * SLOTS]
        .chunks(2)
        .map(|pair| (pair[0], pair[1]))
}

fn taken(numbers: &[u128]) -> impl Iterator<Item = (u128, u128)> {
    pairs(numbers).filter(|pair| pair.0 > 0)
}

fn pins(numbers: &[u128]) -> impl Iterator<Item = u128> {
    let pins = &numbers[2 * SLOTS..2 * SLOTS + PINS];
    pins.iter().copied().filter(|xmin| *xmin > 0)
}

fn counters(numbers: &[u128]) -> [u128; 3] {
    [0, 1, 2].map(|place| numbers[2 * SLOTS + PINS + place])
}

fn has(numbers: &[u128], condition: &str, fault: WaitFault) -> bool {
    let [clock, sample, line] = counters(numbers);
    let mut taken = taken(numbers);
    match condition {
        "sample-0" => sample == 0,
        "sample-above-clock" => sample > clock,
        "line-0" => line == 0,
        "line-above-clock" => line > clock,
        "empty-with-xmin" => pairs(numbers).any(|(txid, xmin)| txid == 0 && xmin > 0),
        "xmin-0" => taken.any(|(_, xmin)| xmin == 0),
        "xmin-above-txid" => taken.any(|(txid, xmin)| xmin > txid),
        "txid-from-clock" => taken.any(|(txid, _)| txid >= clock),
        "txid-below-line" => taken.any(|(txid, _)| txid < line),
        "pin-below-line" => pins(numbers).any(|xmin| xmin < line),
        "pin-above-clock" => pins(numbers).any(|xmin| xmin > clock),
        _ => twice(numbers, fault),
    }
}

fn twice(numbers: &[u128], fault: WaitFault) -> bool {
    let mut ids: Vec<u128> = taken(numbers).map(|pair| pair.0).collect();
    if fault.is("twice-by-xmin") {
        ids = taken(numbers).map(|pair| pair.1).collect();
    }
    if !fault.is("twice-among-neighbours") {
        ids.sort();
    }
    ids.windows(2).any(|two| two[0] == two[1])
}

/// What a faulty check asks for besides.
fn stricter(numbers: &[u128], fault: WaitFault) -> bool {
    let [clock, sample, line] = counters(numbers);
    let least = taken(numbers).map(|pair| pair.0).min();
    let any = |bad: &dyn Fn(u128, u128) -> bool| taken(numbers).any(|(txid, xmin)| bad(txid, xmin));
    match fault {
        _ if fault.is("check-sample-below-clock") => sample == clock,
        _ if fault.is("check-line-below-clock") => line == clock,
        _ if fault.is("check-line-to-sample") => line > sample,
        _ if fault.is("check-xmin-below-txid") => any(&|txid, xmin| txid == xmin),
        _ if fault.is("check-line-below-txid") => any(&|txid, _| txid == line),
        _ if fault.is("check-line-to-xmin") => any(&|_, xmin| xmin < line),
        _ if fault.is("check-xmin-to-least") => any(&|_, xmin| Some(xmin) > least),
        _ if fault.is("check-pin-above-line") => pins(numbers).any(|xmin| xmin == line),
        _ if fault.is("check-pin-below-clock") => pins(numbers).any(|xmin| xmin == clock),
        _ if fault.is("check-pin-to-sample") => pins(numbers).any(|xmin| xmin > sample),
        _ if fault.is("check-pin-to-least") => {
            pins(numbers).any(|xmin| Some(xmin) > least.or(Some(xmin)))
        }
        _ if fault.is("check-pins-free") => pins(numbers).next().is_some(),
        _ if fault.is("check-pins-taken") => pins(numbers).count() < PINS,
        _ if fault.is("check-ids-rise") => !taken(numbers).map(|pair| pair.0).is_sorted(),
        _ => false,
    }
}
