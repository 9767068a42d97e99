//! The long files are long, good, and what their names say.

mod common;

use common::walk;
use events::long::{long, LONG};
use second::Event;

fn made(name: &str) -> Vec<u8> {
    long(name, 1).expect("a long file")
}

#[test]
fn they_are_near_the_limit_and_good() {
    for (name, _) in LONG {
        let file = made(name);
        assert!((65_480..=65_536).contains(&file.len()), "{}", name);
        assert_eq!(walk(&file, |_| ()), None, "{}", name);
        assert_eq!(file, made(name), "{}", name);
    }
    assert_eq!(long("long-naps", 1), None);
}

#[test]
fn scans_are_the_dearest() {
    for name in ["long-scans", "long-hot"] {
        let mut scans = 0;
        walk(&made(name), |step| {
            if let Event::Scan { .. } = step.event {
                assert_eq!(step.outcome.burnt, 1_089, "{}", name);
                scans += 1;
            }
        });
        assert!(scans > 16_000, "{}: {}", name, scans);
    }
}

#[test]
fn queues_are_deep_and_at_work() {
    let (mut calls, mut entries, mut leave) = (0, 0, 0);
    walk(&made("long-queues"), |step| {
        assert_eq!(step.refusal(), None);
        calls += 1;
        entries += step.after.queue.len();
        leave += usize::from(step.event.call() == "finish");
    });
    assert!(entries / calls >= 60, "{}", entries / calls);
    assert!(leave > 2_000, "{}", leave);
}

#[test]
fn picks_are_as_many_as_a_file_holds() {
    let file = made("long-picks");
    let mut calls = 0;
    walk(&file, |_| calls += 1);
    assert_eq!(file.len(), 65_536);
    assert_eq!(calls, 1 + (65_536 - 19) / 3);
}
