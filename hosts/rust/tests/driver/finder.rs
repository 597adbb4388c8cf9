//! Random option areas for the finder and its companion.

use super::alike;
use super::calls::{Finder, Status};
use super::counts::Counts;
use super::options::{bare, damaged, made_up, wrap};
use super::random::Random;

/// Makes so many calls.
pub fn compare<R: Finder, T: Finder>(
    seed: u64,
    calls: usize,
    reference: &R,
    tested: &T,
) -> Result<Counts, String> {
    let mut counts = Counts::default();
    let mut random = Random::new(seed);
    for _ in 0..calls {
        let option = made_up(&mut random, 0, &[]);
        let area = match random.below(10) {
            0 => bare(&mut random),
            1..=4 => damaged(&mut random, &option, &[]),
            5 => [wrap(&mut random, &option), wrap(&mut random, &[0x45, 2])].concat(),
            _ => wrap(&mut random, &option),
        };
        let syn = random.chance(50);
        let call = || format!("syn {syn} {area:02x?}");
        let status = reference.find_status(&area, syn);
        alike(call, &status, &tested.find_status(&area, syn))?;
        let parts = [
            reference.find_option(&area, syn),
            tested.find_option(&area, syn),
        ];
        if let [Some(one), Some(other)] = &parts {
            alike(call, one, other)?;
        }
        for part in parts.into_iter().flatten() {
            let found = area.get(part).is_some_and(|part| !part.is_empty());
            alike(call, &(status == Status::Found), &found)?;
        }
        counts.meet(match status {
            Status::Found => "found",
            Status::Nothing => "none",
            Status::Unreadable { .. } => "unreadable",
            Status::Refused => "refusal  2",
        });
        if let Status::Unreadable { place, .. } = status {
            counts.place(place);
        }
    }
    Ok(counts)
}
