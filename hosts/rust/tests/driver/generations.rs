//! Random steps on generation records, from the start and from records at the extremes.

use super::alike;
use super::calls::{Generations, Rekeying};
use super::counts::Counts;
use super::random::Random;

fn number(random: &mut Random, near: u16) -> u16 {
    match random.below(5) {
        0 => random.pick(&[0, 1, 2]),
        1 => 65_535 - random.below(3) as u16,
        2 => random.word() as u16,
        _ => near
            .saturating_add(random.below(5) as u16)
            .saturating_sub(2),
    }
}

fn record(random: &mut Random) -> Generations {
    let local = number(random, 0);
    Generations {
        local,
        remote: number(random, local),
        last: number(random, local),
        fin: random.chance(15),
    }
}

/// Makes so many steps.
pub fn compare<R: Rekeying, T: Rekeying>(
    seed: u64,
    calls: usize,
    reference: &R,
    tested: &T,
) -> Result<Counts, String> {
    let mut counts = Counts::default();
    let mut random = Random::new(seed);
    let mut made = 0;
    alike(|| "start".to_string(), &reference.start(), &tested.start())?;
    while made < calls {
        let mut one = if random.chance(20) {
            reference.start()
        } else {
            record(&mut random)
        };
        let mut other = one;
        for _ in 0..random.from(1, 12) {
            made += 1;
            let before = one;
            let (what, fin) = (random.below(10), random.chance(6));
            let (data, rekey) = (random.chance(50), random.chance(60));
            let call = || format!("step {what} fin {fin} data {data} rekey {rekey} on {before:?}");
            let refused = match what {
                0..=2 => {
                    let (answer, again) =
                        (reference.send(&mut one, fin), tested.send(&mut other, fin));
                    alike(call, &answer, &again)?;
                    counts.answer(&answer);
                    answer.is_err()
                }
                3..=5 => {
                    let answer = reference.initiate(&mut one, data, fin);
                    let again = tested.initiate(&mut other, data, fin);
                    alike(call, &answer, &again)?;
                    counts.answer(&answer);
                    answer.is_err()
                }
                _ => {
                    let answer = reference.receive_frame(&mut one, rekey);
                    let again = tested.receive_frame(&mut other, rekey);
                    alike(call, &answer, &again)?;
                    counts.answer(&answer);
                    answer.is_err()
                }
            };
            alike(call, &one, &other)?;
            alike(call, &reference.owed(&one), &tested.owed(&other))?;
            if refused && one != before {
                return Err(format!("refused and changed: {}", call()));
            }
        }
        counts.meet("records");
    }
    Ok(counts)
}
