//! Cases in full of the calls that need no unit: every ciphertext length, generation records at the limits, every short option before the judge.

use super::alike;
use super::calls::{Answer, Frames, Generations, Judging, Rekeying};
use super::counts::Counts;
use super::every::strings;

/// Every ciphertext length and some more, where a stream begins and where it ends: headers written and read, offsets.
pub fn lengths<R: Frames, T: Frames>(reference: &R, tested: &T) -> Result<Counts, String> {
    let mut counts = Counts::default();
    let most = 65_535_u64;
    for length in 0..=most + 20 {
        for offset in [0, u64::MAX - 3 - length.min(most), u64::MAX - length / 2] {
            let call = || format!("a frame of {length} at {offset}");
            let size = length as usize;
            let answer = reference.next_offset(offset, size);
            alike(call, &answer, &tested.next_offset(offset, size))?;
            counts.answer(&answer);
            for rekey in [false, true] {
                let (mut one, mut other) = ([0xee; 4], [0xee; 4]);
                let answer = reference.header_write(rekey, size, offset, &mut one);
                let again = tested.header_write(rekey, size, offset, &mut other);
                alike(call, &(answer, one), &(again, other))?;
                counts.answer(&answer);
                let [high, low] = (length as u16).to_be_bytes();
                let bytes = [0xa4 | u8::from(rekey), high, low];
                let answer = reference.header_read(&bytes, offset);
                alike(call, &answer, &tested.header_read(&bytes, offset))?;
                counts.answer(&answer);
            }
        }
    }
    Ok(counts)
}

/// A step on a generation record.
type Step<'a, G> = &'a dyn Fn(&mut Generations) -> Answer<G>;

/// Makes one step on both, and holds what it gives back and the record against each other.
fn step<G: PartialEq + std::fmt::Debug>(
    counts: &mut Counts,
    before: Generations,
    what: &str,
    steps: [Step<G>; 2],
) -> Result<(), String> {
    let [(answer, one), (again, other)] = steps.map(|step| {
        let mut record = before;
        (step(&mut record), record)
    });
    counts.answer(&answer);
    let call = || format!("{what} on {before:?}");
    alike(call, &(answer, one), &(again, other))
}

/// Every step on every record whose numbers are at the limits.
pub fn records<R: Rekeying, T: Rekeying>(reference: &R, tested: &T) -> Result<Counts, String> {
    let mut counts = Counts::default();
    let limits = [0, 1, 2, 3, 0x7fff, 0x8000, 0xfffd, 0xfffe, 0xffff];
    let flags = [false, true];
    let three = limits.into_iter().flat_map(|local| {
        let rest = limits
            .into_iter()
            .flat_map(move |remote| limits.map(|last| (remote, last)));
        rest.map(move |(remote, last)| (local, remote, last))
    });
    for ((local, remote, last), fin) in three.flat_map(|three| flags.map(|fin| (three, fin))) {
        let before = Generations {
            local,
            remote,
            last,
            fin,
        };
        let owed = (reference.owed(&before), tested.owed(&before));
        alike(|| format!("owed on {before:?}"), &owed.0, &owed.1)?;
        for one in flags {
            step(
                &mut counts,
                before,
                "send",
                [&|r| reference.send(r, one), &|r| tested.send(r, one)],
            )?;
            step(
                &mut counts,
                before,
                "receive",
                [&|r| reference.receive_frame(r, one), &|r| {
                    tested.receive_frame(r, one)
                }],
            )?;
            for data in flags {
                step(
                    &mut counts,
                    before,
                    "initiate",
                    [&|r| reference.initiate(r, data, one), &|r| {
                        tested.initiate(r, data, one)
                    }],
                )?;
            }
        }
    }
    Ok(counts)
}

/// Every option of at most two bytes after its length against options of either role, on either side.
pub fn judged<R: Judging, T: Judging>(reference: &R, tested: &T) -> Result<usize, String> {
    let against: [&[u8]; 2] = [
        &[0x45, 6, 0x21, 0x22, 0x23, 0x24],
        &[0x45, 7, 0x03, 0x24, 0x21, 0x23, 0x22],
    ];
    let mut calls = 0;
    for bytes in strings() {
        let area = [&[0x45, 2 + bytes.len() as u8][..], &bytes].concat();
        for other in against {
            for (own, peer) in [(&area[..], other), (other, &area[..])] {
                for mandatory in [false, true] {
                    let answer = reference.judge(own, peer, mandatory, None);
                    let again = tested.judge(own, peer, mandatory, None);
                    alike(|| format!("{own:02x?} {peer:02x?}"), &answer, &again)?;
                    calls += 1;
                }
            }
        }
    }
    Ok(calls)
}
