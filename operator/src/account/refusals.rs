//! The refusals that a record can get, by number: the name and, in a few words, when it is given (SPEC 3.1).

const REFUSALS: [(u64, &str, &str); 12] = [
    (1, "NoFreeSlot", "begin, and all slots are taken"),
    (2, "InvalidSlot", "a slot number that no slot has"),
    (
        3,
        "SlotOwnershipMismatch",
        "the slot holds another id, or none",
    ),
    (4, "ZeroTxid", "the id is 0"),
    (5, "ClockExhausted", "the clock is at its end"),
    (
        6,
        "BadReservation",
        "the number is 0, below the clock, or 2^64 - 1",
    ),
    (7, "BadClock", "the clock given is below the table's"),
    (8, "BadSample", "the sample is 0, or above the clock given"),
    (
        13,
        "WildJump",
        "the number is more than 2^32 above the clock",
    ),
    (14, "NoFreePin", "all pins are taken"),
    (15, "InvalidPin", "a pin number that no pin has"),
    (16, "FreePin", "the pin is free"),
];

fn row(number: u64) -> Option<&'static (u64, &'static str, &'static str)> {
    REFUSALS.iter().find(|(known, _, _)| *known == number)
}

/// Number and name, as `3 SlotOwnershipMismatch`.
pub fn name(number: u64) -> String {
    match row(number) {
        Some((_, name, _)) => format!("{number} {name}"),
        None => number.to_string(),
    }
}

pub fn when(number: u64) -> &'static str {
    row(number).map_or("SPEC 3.1", |(_, _, when)| when)
}

#[cfg(test)]
mod tests {
    use super::*;

    /// Of the rows of SPEC 3.1 those that a record can get.
    #[test]
    fn the_names_are_those_of_the_rules() {
        let spec = include_str!("../../../docs/SPEC.md");
        let (_, rows) = spec.split_once("### 3.1").unwrap();
        let (rows, _) = rows.split_once("### 3.2").unwrap();
        let mut found = 0;
        for line in rows.lines().filter(|line| line.starts_with("| ")) {
            let cells: Vec<&str> = line.split('|').map(str::trim).collect();
            let [_, number, spoken, ..] = cells.as_slice() else {
                continue;
            };
            let Some((number, name, _)) = number.parse().ok().and_then(row) else {
                continue;
            };
            assert_eq!(spoken, name, "refusal {number}");
            found += 1;
        }
        assert!(found >= 9, "only {found} rows of SPEC 3.1 were found");
    }

    #[test]
    fn a_number_without_a_name_is_itself() {
        assert_eq!(name(3), "3 SlotOwnershipMismatch");
        assert_eq!(name(77), "77");
        assert_eq!(when(77), "SPEC 3.1");
    }
}
