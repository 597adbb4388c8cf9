//! The unit's calls.

use std::hint::black_box;

use crate::binding::Binding;
use crate::common::cases::{cases, Case, DOORS};
use crate::common::export::Export;
use crate::driver::calls::{Reply, Unit};
use crate::plain::unit::Plain;
use crate::timing::{best, head, nothing, ns, ratio, round, row};

const ROUNDS: usize = 1000;

/// Nanoseconds for one call, and what it gave back at each door.
fn time<U: Unit>(unit: &mut U, case: &Case<U>, idle: f64) -> (f64, Vec<(Reply, [u8; 80])>) {
    let mut out = [0; 80];
    let call = black_box(case.call);
    let ready = |unit: &mut U| {
        unit.erase();
        for door in 0..DOORS {
            (case.prepare)(unit, door, &mut [0; 80]);
        }
    };
    let fastest = best(ROUNDS, || {
        ready(unit);
        round(|| {
            for door in 0..DOORS {
                black_box(call(unit, black_box(door), &mut out));
            }
        })
    });
    ready(unit);
    let told = |door| {
        let mut out = [0; 80];
        (call(unit, door, &mut out), out)
    };
    let told = (0..DOORS).map(told).collect();
    ((fastest - idle) / DOORS as f64, told)
}

pub fn run() {
    let title = format!(
        "The unit's calls, ns for each; {DOORS} calls, one for each door, best of {ROUNDS} rounds"
    );
    let columns = [
        "call",
        "exports",
        "crate",
        "plain",
        "exports to plain",
        "crate to plain",
    ];
    head(&title, &columns);
    let idle = nothing();
    let (mut export, mut safe, mut plain) = (Export::new(), Binding::new(), Plain::new());
    let measured = cases::<Export>()
        .into_iter()
        .zip(cases::<Binding>())
        .zip(cases::<Plain>());
    for ((of_export, of_safe), of_plain) in measured {
        let name = of_export.name;
        let (of_export, told) = time(&mut export, &of_export, idle);
        let (of_safe, again) = time(&mut safe, &of_safe, idle);
        let (of_plain, plainly) = time(&mut plain, &of_plain, idle);
        assert_eq!(told, again, "{name}");
        assert_eq!(told, plainly, "{name}");
        row(&[
            name.to_string(),
            ns(of_export),
            ns(of_safe),
            ns(of_plain),
            ratio(of_export, of_plain),
            ratio(of_safe, of_plain),
        ]);
    }
}
