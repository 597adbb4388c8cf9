//! The model on the papers' examples, and the random comparison of the library with the model, call by call.

mod bench;
mod binding;
mod driver;
mod model;
mod wrong;

use binding::{Binding, Calls, Pieces, Plainly};
use driver::calls::{Judging, Unit};
use driver::counts::{Counts, LEAST};
use driver::links::{Links, STRANGE};
use driver::random::{calls, seed};
use driver::{every, finder, frames, generations, init, isolation, judge, limits, pieces, places};
use model::{Model, Wire};

fn good<T>(outcome: Result<T, String>) -> T {
    outcome.unwrap_or_else(|what| panic!("{what}"))
}

/// The unit's ten calls.
#[test]
fn unit_calls() {
    let mut links = Links::new(seed(), Model::new, Binding::new);
    good(links.run(calls()));
    let counts: &Counts = &links.counts;
    counts.print("unit calls");
    counts.demand([
        "reason 1",
        "reason 2",
        "reason 3",
        "reason 4",
        "reason 5",
        "reason 6",
        "reason 7",
        "resumed open as A",
        "resumed open as B",
        "crossed open",
        "freed row taken by another door",
        "result of an unreadable area",
        STRANGE,
    ]);
    counts.demand_refusals(&[1, 2, 3, 4, 5, 6, 7, 16]);
    counts.demand_places(10);
}

fn isolated<U: Unit>(title: &str, make: impl Fn() -> U) {
    let counts = good(isolation::isolation(seed(), calls(), make));
    counts.print(title);
    counts.demand([
        "pairs of lists",
        "calls compared",
        "records left and brought out",
    ]);
}

/// Demand 3 on the library.
#[test]
fn doors_learn_nothing_of_each_other() {
    isolated("pairs of lists", Binding::new);
}

/// Demand 3 on the model.
#[test]
fn doors_of_the_model_learn_nothing_of_each_other() {
    isolated("pairs of lists of the model", Model::new);
}

/// The finder's word; its part has no export.
#[test]
fn option_areas() {
    let counts = good(finder::compare(seed(), calls(), &Wire, &Calls));
    counts.print("option areas");
    counts.demand(["found", "none", "unreadable", "refusal  2"]);
    counts.demand_places(LEAST);
}

/// Every short option and area, and a full pool.
#[test]
fn small_cases_in_full() {
    let options = good(every::options(Model::new(), Binding::new()));
    options.print("short options");
    options.demand(["fresh open", "reason 3", "reason 4", "reason 5", "reason 6"]);
    println!("short areas");
    println!("  calls {}", good(every::areas(&Wire, &Calls)));
    let pool = good(every::pool(Model::new(), Binding::new()));
    pool.print("the full pool");
    assert_eq!(pool.of("records brought out"), door_link::ROWS as u64);
    assert_eq!(pool.of("resumed open"), door_link::ROWS as u64);
}

/// Every place at which an area can be unreadable, before every call that reads one.
#[test]
fn places_in_full() {
    println!("unreadable areas");
    println!("  finder {}", good(places::finder(&Wire, &Calls)));
    println!("  judge  {}", good(places::judge(&Wire, &Calls)));
    println!("  plain judge {}", good(places::judge(&Wire, &Plainly)));
    let counts = good(places::unit(Model::new(), Binding::new()));
    counts.print("unreadable areas before the unit");
    counts.demand_places(LEAST);
}

/// Every ciphertext length, generation records at the limits, every short option before the two judges.
#[test]
fn limits_in_full() {
    let lengths = good(limits::lengths(&Wire, &Calls));
    lengths.print("every ciphertext length");
    lengths.demand(["success", "refusal 11"]);
    let records = good(limits::records(&Wire, &Calls));
    records.print("records at the limits");
    records.demand_refusals(&[4, 13, 14, 15]);
    println!("short options before the judge");
    println!("  calls {}", good(limits::judged(&Wire, &Calls)));
    println!("  calls {}", good(limits::judged(&Wire, &Plainly)));
}

/// Pairs of option areas.
#[test]
fn judgements() {
    judged_as_the_model("judgements", &Calls);
}

/// The same pairs before the plain judge.
#[test]
fn plain_judgements() {
    judged_as_the_model("plain judgements", &Plainly);
}

fn judged_as_the_model(title: &str, tested: &impl Judging) {
    let counts = good(judge::compare(seed(), calls(), &Wire, tested));
    counts.print(title);
    counts.demand_refusals(&[2]);
    counts.demand_places(LEAST);
    counts.demand([
        "reason 1",
        "reason 2",
        "reason 3",
        "reason 4",
        "reason 5",
        "reason 6",
        "fresh as A",
        "fresh as B",
        "resumed as A",
        "resumed as B",
        "fresh with v = 1",
    ]);
}

/// Init messages, written and read back, and read at every prefix.
#[test]
fn init_messages() {
    let counts = good(init::compare(seed(), calls(), &Wire, &Calls));
    counts.print("Init messages");
    counts.demand_refusals(&[3, 5, 8, 9, 10]);
    counts.demand(["read back"]);
}

/// Frame headers, frame IDs, nonces and plaintexts.
#[test]
fn frames() {
    let counts = good(frames::compare(seed(), calls(), &Wire, &Calls));
    counts.print("frames");
    counts.demand_refusals(&[3, 5, 9, 11, 12]);
    counts.demand(["header read back", "plaintext read back"]);
}

/// Steps on generation records, those at the extremes included.
#[test]
fn generations() {
    let counts = good(generations::compare(seed(), calls(), &Wire, &Calls));
    counts.print("generations");
    counts.demand_refusals(&[4, 13, 14, 15]);
}

/// Streams in pieces, an Init message and frames, good and damaged.
#[test]
fn streams_in_pieces() {
    let counts = good(pieces::compare(seed(), calls(), &Wire, Pieces::new));
    counts.print("streams in pieces");
    counts.demand_refusals(&[8, 10, 11]);
    counts.demand(["Init1 told", "Init2 told", "header told", "body told"]);
}

/// A few streams, cut at every two places.
#[test]
fn every_two_cuts() {
    let counts = good(pieces::every_two_cuts(&Wire, Pieces::new));
    counts.print("every two cuts");
    counts.demand_refusals(&[11]);
    counts.demand(["Init1 told", "Init2 told", "header told", "body told"]);
}

/// Readers of any numbers and bytes, and lent memory of any length.
#[test]
fn made_up_readers() {
    let counts = good(pieces::made_up(seed(), calls() / 20, Pieces::of));
    counts.print("made-up readers of pieces");
    counts.demand_refusals(&[5, 8, 10, 11]);
    counts.demand(["header told", "body told"]);
}
