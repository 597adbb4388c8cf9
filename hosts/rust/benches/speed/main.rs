//! How fast the library is beside plain Rust, on the same inputs: the judge, the unit's calls, Init messages, frames, generations and streams in pieces. Prints tables; it
//! is no test. Every time is the best of many short rounds, since other work may run on the machine.

// The library's exports as they are, without the crate's tests of their numbers; all `unsafe` is there.
#[allow(dead_code, unused_imports)]
#[path = "../../src/ffi/mod.rs"]
mod ffi;

#[allow(dead_code, unused_imports)]
#[path = "../../tests/driver/mod.rs"]
mod driver;
#[allow(dead_code, unused_imports)]
#[path = "../../tests/model/mod.rs"]
mod model;

#[path = "../../tests/binding/mod.rs"]
#[allow(dead_code, unused_imports)]
mod binding;
#[path = "../common/mod.rs"]
mod common;
#[allow(dead_code, unused_imports)]
#[path = "../plain/mod.rs"]
mod plain;

mod judge;
mod pieces;
mod timing;
mod unit;
mod wire;

// The exports name the crate's types by these.
#[allow(unused_imports)]
use door_link::{untyped, Enabled, Generations, DOORS, ROWS};

fn main() {
    judge::run();
    unit::run();
    wire::run();
    pieces::run();
}
