//! Init messages, frames and generations.

use std::hint::black_box;

use door_link as link;

use crate::timing::{best, head, nothing, ns, ratio, round, row};
use crate::{ffi, plain, untyped, Enabled, Generations};

const CALLS: usize = 200;
const ROUNDS: usize = 1000;

/// Nanoseconds for one call.
fn time(idle: f64, mut call: impl FnMut()) -> f64 {
    let fastest = best(ROUNDS, || {
        round(|| {
            for _ in 0..CALLS {
                call();
            }
        })
    });
    (fastest - idle) / CALLS as f64
}

/// Measures the same call through the export, through the crate and in plain Rust, and prints a row.
macro_rules! measure {
    ($idle:expr, $name:expr, $export:expr, $crate_call:expr, $plain:expr) => {{
        let export = time($idle, || {
            black_box($export);
        });
        let safe = time($idle, || {
            let _ = black_box($crate_call);
        });
        let plain = time($idle, || {
            let _ = black_box($plain);
        });
        row(&[
            $name.to_string(),
            ns(export),
            ns(safe),
            ns(plain),
            ratio(export, plain),
            ratio(safe, plain),
        ]);
    }};
}

fn init(idle: f64) {
    let (nonce, key, long) = ([7; 32], [9; 32], [5; 56]);
    let ciphers = [0x0010, 0x0002, 0x0001];
    let own = black_box(&ciphers);
    let mut out = [0; 128];
    let enabled = Enabled {
        aes128: true,
        aes256: false,
        chacha20: false,
    };
    for (tep, name, key) in [
        (0x23, "Curve25519", &key[..]),
        (0x24, "Curve448", &long[..]),
    ] {
        let (tep, nonce, key) = (black_box(tep), black_box(&nonce), black_box(key));
        measure!(
            idle,
            format!("Init1 written, {name}, three ciphers"),
            ffi::init::init1_write(tep, own, nonce, key, &mut out),
            untyped::init1_write(tep, own, nonce, key, &mut out),
            plain::init::init1_write(tep, own, nonce, key, &mut out)
        );
        let length = untyped::init1_write(tep, own, nonce, key, &mut out).expect("a message");
        let message = out;
        let message = black_box(&message[..length]);
        let flags = black_box([true, false, false]);
        measure!(
            idle,
            format!("Init1 read, {name}"),
            ffi::init::init1_read(tep, black_box(enabled), message),
            untyped::init1_read(tep, black_box(enabled), message),
            plain::init::init1_read(tep, flags, message)
        );
        let half = black_box(&message[..40]);
        measure!(
            idle,
            format!("Init1 read, {name}, 40 bytes (9)"),
            ffi::init::init1_read(tep, black_box(enabled), half),
            untyped::init1_read(tep, black_box(enabled), half),
            plain::init::init1_read(tep, flags, half)
        );
        measure!(
            idle,
            format!("Init2 written, {name}"),
            ffi::init::init2_write(tep, black_box(1), nonce, key, &mut out),
            untyped::init2_write(tep, black_box(1), nonce, key, &mut out),
            plain::init::init2_write(tep, black_box(1), nonce, key, &mut out)
        );
        let length = untyped::init2_write(tep, 1, nonce, key, &mut out).expect("a message");
        let message = out;
        let message = black_box(&message[..length]);
        measure!(
            idle,
            format!("Init2 read, {name}"),
            ffi::init::init2_read(tep, own, message),
            untyped::init2_read(tep, own, message),
            plain::init::init2_read(tep, own, message)
        );
    }
}

fn frames(idle: f64) {
    let (offset, length) = (75, 1417);
    let mut out = [0; 1500];
    measure!(
        idle,
        "next offset",
        ffi::frame::next_offset(black_box(offset), black_box(length)),
        link::next_offset(black_box(offset), black_box(length)),
        plain::frame::next_offset(black_box(offset), black_box(length))
    );
    measure!(
        idle,
        "header written",
        ffi::frame::header_write(true, black_box(length), black_box(offset), &mut out),
        link::write_header(true, black_box(length), black_box(offset), &mut out),
        plain::frame::header_write(true, black_box(length), black_box(offset), &mut out)
    );
    let header = black_box(&[1, 5, 137][..]);
    measure!(
        idle,
        "header read",
        ffi::frame::header_read(header, black_box(offset)),
        link::read_header(header, black_box(offset)),
        plain::frame::header_read(header, black_box(offset))
    );
    measure!(
        idle,
        "frame ID",
        ffi::frame::frame_id(black_box(offset)),
        link::frame_id(black_box(offset)),
        plain::frame::frame_id(black_box(offset))
    );
    let fixed = black_box(&[0xff; 12][..]);
    measure!(
        idle,
        "nonce",
        ffi::frame::nonce(fixed, black_box(offset)),
        untyped::nonce(fixed, black_box(offset)),
        plain::frame::nonce(fixed, black_box(offset))
    );
    let data = [3; 1400];
    for length in [20, 1400] {
        let data = black_box(&data[..length]);
        let urgent = black_box(Some(5));
        measure!(
            idle,
            format!("plaintext written, {length} bytes of data"),
            ffi::frame::plaintext_write(false, false, 0, data, &mut out),
            link::write_plaintext(false, None, data, &mut out),
            plain::frame::plaintext_write(false, None, data, &mut out)
        );
        let written = link::write_plaintext(true, urgent, data, &mut out).expect("a plaintext");
        let plaintext = black_box(&out[..written]);
        measure!(
            idle,
            format!("plaintext read, {length} bytes of data, urgent"),
            ffi::frame::plaintext_read(plaintext),
            link::read_plaintext(plaintext),
            plain::frame::plaintext_read(plaintext)
        );
    }
}

fn generations(idle: f64) {
    let record = Generations {
        local: 3,
        remote: 3,
        last: 2,
        fin: false,
    };
    let even = Generations { last: 3, ..record };
    let plainly = |record: Generations| plain::generation::Record {
        local: record.local,
        remote: record.remote,
        last: record.last,
        fin: record.fin,
    };
    measure!(
        idle,
        "is a rekey frame owed",
        ffi::generation::is_owed(black_box(record)),
        black_box(record).is_owed(),
        black_box(plainly(record)).is_owed()
    );
    measure!(
        idle,
        "frame sent, a rekey",
        ffi::generation::send(black_box(record), false),
        black_box(&mut record.clone()).send(false),
        black_box(&mut plainly(record)).send(false)
    );
    measure!(
        idle,
        "generation begun",
        ffi::generation::initiate(black_box(even), true, false),
        black_box(&mut even.clone()).initiate(true, false),
        black_box(&mut plainly(even)).initiate(true, false)
    );
    measure!(
        idle,
        "generation begun while one is owed (4)",
        ffi::generation::initiate(black_box(record), true, false),
        black_box(&mut record.clone()).initiate(true, false),
        black_box(&mut plainly(record)).initiate(true, false)
    );
    measure!(
        idle,
        "frame received, a rekey",
        ffi::generation::receive_frame(black_box(record), true),
        black_box(&mut record.clone())
            .receive(true)
            .map(|frame| frame.accept()),
        black_box(&mut plainly(record)).receive(true)
    );
}

pub fn run() {
    let title = format!(
        "Init messages, frames and generations, ns for each call; {CALLS} calls, best of {ROUNDS} rounds"
    );
    let columns = [
        "call",
        "exports",
        "crate",
        "plain",
        "exports to plain",
        "crate to plain",
    ];
    head(&title, &columns);
    let idle = nothing();
    init(idle);
    frames(idle);
    generations(idle);
}
