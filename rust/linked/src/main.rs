//! `linked` holds the linked calls against those by hand, `rust/inblock`, and
//! tells what both cost. `linked WORK N` does one work N times, linked, for a tool that counts:
//! `round`, `scan`, `open` or `check`, on a queue as full as may be.

mod agree;
mod calls;
mod seeded;
mod stack;
mod times;
mod work;

use calls::{BY_HAND, LINKED, NAMES};
use std::process::ExitCode;
use times::{measured, Pair, TURNS};
use work::{On, Work};

const SEED: u64 = 1;

fn main() -> ExitCode {
    let arguments: Vec<String> = std::env::args().skip(1).collect();
    let arguments: Vec<&str> = arguments.iter().map(String::as_str).collect();
    let done = match arguments[..] {
        [] => all(),
        [name, times] => one(name, times),
        _ => Err("usage: linked, or linked round|scan|open|check N".to_string()),
    };
    match done {
        Ok(()) => ExitCode::SUCCESS,
        Err(wrong) => {
            eprintln!("{}", wrong);
            ExitCode::FAILURE
        }
    }
}

fn one(name: &str, times: &str) -> Result<(), String> {
    let work = match name {
        "round" => Work::Round(63),
        "scan" => Work::Scan,
        "open" => Work::Open,
        "check" => Work::Check(On::Full),
        _ => return Err(format!("{}: no such work", name)),
    };
    let times = times.parse().map_err(|_| "N is 0 to 65535".to_string())?;
    let mut block = work.block(&BY_HAND);
    println!("{}", work.repeat(&LINKED, &mut block, times));
    Ok(())
}

fn all() -> Result<(), String> {
    let tally = agree::agree(SEED)?;
    println!(
        "The linked calls and those by hand gave the same replies and left the same bytes: {} calls on blocks that calls \
         made, and {} on damaged ones, of which {} were refused with 15; {} were told a record that they clashed on, and {} \
         entries were evicted and {} cancelled.",
        tally.plain, tally.damaged, tally.refused, tally.clashed, tally.evicted, tally.cancelled
    );
    println!();
    show_times();
    println!();
    show_stack();
    Ok(())
}

fn show_times() {
    let on = [On::Held(0), On::Held(16), On::Held(63), On::Full];
    // each call with the block that it finds
    let calls = [
        (Work::Round(0), on[0]),
        (Work::Round(16), on[1]),
        (Work::Round(63), on[2]),
        (Work::Recheck(63), on[2]),
        (Work::Scan, on[3]),
    ];
    let works: Vec<Work> = calls
        .iter()
        .map(|&(call, _)| call)
        .chain(on.map(Work::Check))
        .chain(on.map(Work::Refused))
        .chain(on.map(Work::Held))
        .chain([Work::Open])
        .collect();
    let pairs = measured(&works);
    let of = |work| {
        let at = works.iter().position(|&known| known == work);
        pairs[at.expect("a measured work")]
    };
    println!("Processor time, medians of {} turns:", TURNS);
    println!();
    println!(
        "| | linked | by hand | linked, calls a second | by hand, calls a second | linked / by hand |"
    );
    println!("|---|---|---|---|---|---|");
    for work in &works {
        let Pair { linked, by_hand } = of(*work);
        println!(
            "| {} | {:.0} ns | {:.0} ns | {} | {} | {:.2} |",
            work.name(),
            linked,
            by_hand,
            a_second(linked),
            a_second(by_hand),
            linked / by_hand
        );
    }
    println!();
    println!("Of a linked call's time:");
    println!();
    println!("| | the check | decoding and encoding | the call itself |");
    println!("|---|---|---|---|");
    for (call, on) in calls {
        let whole = of(call).linked;
        let check = of(Work::Check(on)).linked;
        let refused = of(Work::Refused(on)).linked;
        let part = |part: f64| format!("{:.0} ns, {:.0} %", part, 100.0 * part / whole);
        println!(
            "| {} | {} | {} | {} |",
            call.name(),
            part(check),
            part(refused - check),
            part(whole - refused)
        );
    }
}

/// Thousands of calls a second.
fn a_second(nanoseconds: f64) -> String {
    format!("{:.0} thousand", 1e6 / nanoseconds)
}

fn show_stack() {
    let linked = stack::worst(&LINKED, SEED);
    let by_hand = stack::worst(&BY_HAND, SEED);
    println!("| the stack of | linked | by hand |");
    println!("|---|---|---|");
    for ((name, linked), by_hand) in NAMES.iter().zip(linked).zip(by_hand) {
        println!("| `{}` | {} bytes | {} bytes |", name, linked, by_hand);
    }
}
