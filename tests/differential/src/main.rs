//! Runs the archive and the reference side by side on made-up calls, and stops at the first difference.
//!
//!     differential            the comparison
//!     differential faults     plants faults in the archive's answers, one after the other; each must be found
//!
//! SEED in the environment chooses other calls; TESTS=long does a hundred times as much; TELL=1 says of each fault how it was found, and of each
//! kind of enter, amend, span, seek, changed price, order of labels, level and hash how often it came.

mod archive;
mod faults;
mod labels;
mod prices;
mod rounds;
mod seeks;
mod slips;
mod steps;
mod tickets;

use archive::{Archive, Calls};
use faults::{faults, Faulty};
use rounds::{Amount, Rounds, PRICES};
use std::process::exit;
use std::time::{Duration, Instant};
use steps::{differs, script, shorten, Mismatch, Pair, Tally, GAMMAS, NUMBERS};

fn main() {
    let seed = match std::env::var("SEED") {
        Ok(text) => text.parse().expect("SEED is a number"),
        Err(_) => 1,
    };
    let long = std::env::var("TESTS").as_deref() == Ok("long");
    match std::env::args().nth(1).as_deref() {
        None => compare(seed, Amount(if long { 15_000 } else { 150 })),
        Some("faults") => plant(seed),
        Some(word) => {
            eprintln!("differential: what is {word}?");
            exit(2);
        }
    }
}

/// What a run met.
struct Met {
    tally: Tally,
    still_images: u64,
    no_images: u64,
    prices: [u64; PRICES.len()],
}

impl Met {
    /// Each kind of changed price, and how often it came.
    fn price_kinds(&self) -> impl Iterator<Item = (u64, String)> + '_ {
        let names = PRICES.iter().map(|kind| kind.to_string());
        self.prices.iter().copied().zip(names)
    }
}

fn run(tested: &mut dyn Calls, seed: u64, amount: Amount) -> (Met, Result<(), Box<Mismatch>>) {
    let mut pair = Pair::new(tested);
    let mut rounds = Rounds::new(&mut pair, seed);
    let outcome = rounds.all(amount);
    let (still_images, no_images, prices) = (rounds.still_images, rounds.no_images, rounds.prices);
    let met = Met {
        tally: pair.tally,
        still_images,
        no_images,
        prices,
    };
    (met, outcome)
}

fn compare(seed: u64, amount: Amount) {
    let start = Instant::now();
    let mut archive = Archive::default();
    let (met, outcome) = run(&mut archive, seed, amount);
    if let Err(mismatch) = outcome {
        let steps = shorten(&mut archive, mismatch.steps, Duration::from_secs(5));
        let (calls, what) = (met.tally.calls(), mismatch.what);
        eprintln!("differential: seed {seed}: after {calls} calls {what}");
        tell(&script(&steps));
        exit(1);
    }
    let missing = met.tally.missing();
    if !missing.is_empty() {
        eprintln!(
            "differential: seed {seed}: never met: {}",
            missing.join(", ")
        );
        exit(1);
    }
    if met.still_images == 0 || met.no_images == 0 {
        eprintln!("differential: seed {seed}: changed tables were all images, or all none");
        exit(1);
    }
    if met.tally.undecided == 0 {
        eprintln!("differential: seed {seed}: no descent on what is no table");
        exit(1);
    }
    let rarest_ticket = rarest(seed, met.tally.ticket_kinds(), amount.0);
    let rarest_span = rarest(seed, met.tally.span_kinds(), amount.0);
    let rarest_price = rarest(seed, met.price_kinds(), amount.0);
    let rarest_order = rarest(seed, met.tally.order_kinds(), amount.0);
    let rarest_seek = rarest(seed, met.tally.seek_kinds(), amount.0);
    let rarest_hash = rarest(seed, met.tally.hash_kinds(), amount.of_hashes());
    if std::env::var_os("TELL").is_some() {
        tell_kinds(&met);
    }
    println!(
        "differential: seed {seed}: {} calls of the archive answered and left what the reference did; every call met all its numbers in both versions; \
         of changed tables {} were none and {} still some; {} descents on what is no table kept within their outputs; \
         of enters and amends that tell their questions apart each kind came {rarest_ticket} times or more, of spans that tell rows apart \
         {rarest_span} times, of changed prices {rarest_price} times, of calls that show which label is smaller {rarest_order} times in each version, \
         of seeks that tell reserves and orders apart {rarest_seek} times, \
         of orders each level by each of {} γ and each kind of hash {rarest_hash} times; {:.0} s",
        met.tally.calls(),
        met.no_images,
        met.still_images,
        met.tally.undecided,
        GAMMAS.len(),
        start.elapsed().as_secs_f64()
    );
}

/// How often the rarest kind came, if that is not too seldom.
fn rarest(seed: u64, kinds: impl Iterator<Item = (u64, String)>, least: u32) -> u64 {
    let (rarest, kind) = kinds.min().expect("there are kinds");
    if rarest < u64::from(least) {
        eprintln!("differential: seed {seed}: met {rarest} times only: {kind}");
        exit(1);
    }
    rarest
}

/// How often each kind came.
fn tell_kinds(met: &Met) {
    let kinds = met.tally.ticket_kinds().chain(met.price_kinds());
    for (times, kind) in kinds {
        println!("{kind}: {times}");
    }
    for (times, kind) in met.tally.span_kinds() {
        println!("spans, {kind}: {times}");
    }
    for (times, kind) in met.tally.order_kinds() {
        println!("labels, {kind}: {times}");
    }
    for (times, kind) in met.tally.seek_kinds() {
        println!("seeks, {kind}: {times}");
    }
    for (times, kind) in met.tally.hash_kinds() {
        println!("orders, {kind}: {times}");
    }
}

/// The lines that replay a mismatch, in a file, and printed where they are not too many.
fn tell(script: &str) {
    let name = "build/mismatch.txt";
    match std::fs::write(name, script) {
        Ok(()) => eprintln!("differential: `build/vectors < {name}` replays it; the answers there are the reference's"),
        Err(error) => eprintln!("differential: {name} cannot be written: {error}"),
    }
    if script.len() < 20_000 {
        print!("{script}");
    }
}

/// Each fault must be found, and the script of a mismatch must still show it.
fn plant(seed: u64) {
    let start = Instant::now();
    // Each in both versions; two calls have a 14, in version 1 alone.
    let numbers: usize = NUMBERS.iter().map(|numbers| numbers.len()).sum();
    assert_eq!(Tally::default().missing().len(), 2 * numbers - 2);
    let all = faults();
    let mut slowest = (0, "");
    for (name, fault) in &all {
        let mut faulty = Faulty::new(*fault);
        let (met, outcome) = run(&mut faulty, seed, Amount(9));
        let mismatch = match outcome {
            Err(mismatch) => mismatch,
            Ok(()) => {
                eprintln!("differential: not found: {name}");
                exit(1);
            }
        };
        let calls = met.tally.calls() + 1;
        let steps = shorten(&mut faulty, mismatch.steps, Duration::from_millis(100));
        if differs(&mut faulty, &steps) != Some(steps.len() - 1) {
            eprintln!("differential: found, but lost again when replayed: {name}");
            exit(1);
        }
        if std::env::var_os("TELL").is_some() {
            let (what, left) = (mismatch.what, steps.len());
            println!("{name}: found after {calls} calls, {left} steps of them enough: {what}");
        }
        slowest = slowest.max((calls, name));
    }
    println!(
        "differential: seed {seed}: {} planted faults, each found; the last after {} calls: {}; {:.0} s",
        all.len(),
        slowest.0,
        slowest.1,
        start.elapsed().as_secs_f64()
    );
}
