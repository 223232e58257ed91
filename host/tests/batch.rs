//! The batch through the crate, against its rule in plain Rust (docs/SPEC.md, 17.1 and 17.2).

use sockhurdle::{Refusal, Txid, Version, batch};

/// Numbers from a seed, as many as are asked for.
struct Random(u64);

impl Random {
    fn below(&mut self, end: u64) -> u64 {
        self.0 ^= self.0 << 13;
        self.0 ^= self.0 >> 7;
        self.0 ^= self.0 << 17;
        self.0 % end
    }
}

/// What the rule says: the decisions in the first places, or why nothing is written.
fn expected(line: u64, versions: &[(u64, u64)], run: &[u8]) -> Result<Vec<u8>, Refusal> {
    if run.len() < versions.len() {
        return Err(Refusal::NoRoom);
    }
    for (place, &(maker, ender)) in versions.iter().enumerate() {
        if maker == 0 {
            return Err(Refusal::ZeroMaker { place });
        }
        if ender != 0 && ender < maker {
            return Err(Refusal::EndedBefore { place });
        }
    }
    let mut left = run.to_vec();
    for (decision, &(_, ender)) in left.iter_mut().zip(versions) {
        *decision = u8::from(ender != 0 && ender < line);
    }
    Ok(left)
}

#[test]
fn decides_as_the_rule_says() {
    let mut random = Random(0x5eed_7115);
    let (mut decided, mut refused) = (0, [0; 3]);
    for _ in 0..20_000 {
        let line = random.below(9);
        let length = random.below(6) as usize;
        let bad = random.below(4) == 0;
        let versions: Vec<(u64, u64)> = (0..length)
            .map(|_| {
                let maker = if bad {
                    random.below(8)
                } else {
                    1 + random.below(7)
                };
                let ender = match random.below(3) {
                    0 => 0,
                    _ if bad => random.below(9),
                    _ => maker + random.below(4),
                };
                (maker, ender)
            })
            .collect();
        let mut run = vec![7; random.below(8) as usize];
        let want = expected(line, &versions, &run);
        let told: Vec<Version> = versions
            .iter()
            .map(|&(maker, ender)| Version::new(Txid(maker), (ender != 0).then_some(Txid(ender))))
            .collect();
        let before = run.clone();
        let said = batch(line, &told, &mut run);
        match want {
            Ok(left) => {
                assert_eq!((said, run), (Ok(()), left), "{line} {versions:?}");
                decided += 1;
            }
            Err(refusal) => {
                assert_eq!((said, run), (Err(refusal), before), "{line} {versions:?}");
                refused[match refusal {
                    Refusal::NoRoom => 0,
                    Refusal::ZeroMaker { .. } => 1,
                    _ => 2,
                }] += 1;
            }
        }
    }
    assert!(
        decided > 1_000 && refused.iter().all(|&times| times > 300),
        "{decided} {refused:?}"
    );
}

#[test]
fn the_line_itself_stays() {
    let versions = [3, 4, 5].map(|ender| Version::new(Txid(1), Some(Txid(ender))));
    let mut run = [9; 4];
    assert_eq!(batch(4, &versions, &mut run), Ok(()));
    assert_eq!(run, [1, 0, 0, 9]);
}
