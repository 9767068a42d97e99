//! The calls of the proved program `direct`, made on this program's table: its
//! stored listing must be what these rules give.

use second::listing::HEADER;
use second::{apply, Event, Table};
use std::fs;

/// The listing in the making, and the table that the calls are made on.
struct Sheet {
    table: Table,
    lines: usize,
    text: String,
}

impl Sheet {
    fn new() -> Sheet {
        Sheet {
            table: Table::default(),
            lines: 0,
            text: String::from(HEADER),
        }
    }

    /// Makes a call and writes its line.
    fn call(&mut self, event: Event<'_>) {
        let outcome = apply(&mut self.table, event);
        let fuel = event.tenant().and_then(|tenant| self.table.fuel(tenant));
        let left = fuel.map_or(String::from("-"), |units| units.to_string());
        self.lines += 1;
        self.text += &format!(
            "{} {} {} {} {}\n",
            self.lines,
            event.call(),
            outcome.answer,
            outcome.burnt,
            left
        );
    }

    fn open(&mut self, shares: &[u8]) {
        self.call(Event::Open { shares });
    }

    fn grant(&mut self, tenant: u8, amount: u32) {
        self.call(Event::Grant { tenant, amount });
    }

    fn begin(&mut self, tenant: u8, awaited: u8, reads: &[u8], writes: &[u8]) {
        self.call(Event::Begin {
            tenant,
            awaited,
            reads,
            writes,
        });
    }

    fn finish(&mut self, tenant: u8, serial: u16) {
        self.call(Event::Finish { tenant, serial });
    }

    fn recheck(&mut self, tenant: u8, serial: u16) {
        self.call(Event::Recheck { tenant, serial });
    }

    fn scan(&mut self, tenant: u8) {
        self.call(Event::Scan { tenant });
    }

    fn pick(&mut self) {
        self.call(Event::Pick);
    }

    fn deliver(&mut self, tenant: u8, serial: u16) {
        self.call(Event::Deliver { tenant, serial });
    }

    fn evict(&mut self, tenant: u8, serial: u16) {
        self.call(Event::Evict { tenant, serial });
    }

    fn cancel(&mut self, tenant: u8, serial: u16) {
        self.call(Event::Cancel { tenant, serial });
    }

    /// How many records are held: written, read, and either.
    fn held(&mut self) {
        let held = self.table.held();
        self.text += &format!("held {} {} {}\n", held.written, held.read, held.either);
    }

    /// For each place of the queue, front first, the two verdicts on "nothing
    /// ahead conflicts": the map's and the plain comparison's. This program has
    /// one, a comparison pair by pair, and both must be it.
    fn verdicts(&mut self) {
        let queue = &self.table.queue;
        for (place, entry) in queue.iter().enumerate() {
            let mut ahead = queue[..place].iter();
            let held = ahead.any(|other| entry.conflicts_with(other));
            let verdict = if held { "held" } else { "clear" };
            self.text += &format!("verdict {} {} {}\n", place, verdict, verdict);
        }
    }

    /// One request of tenant 1 without records comes and goes. No line is
    /// written.
    fn round(&mut self, serial: u16) {
        self.table.begin(1, 0, &[], &[]);
        self.table.finish(1, serial);
    }
}

/// Requests that run and that are blocked: found clear by a recheck, and by a search.
fn calls(sheet: &mut Sheet) {
    sheet.open(&[2, 2, 0, 0, 0, 0, 0, 0, 0, 0, 0, 0, 0, 0, 0, 0]);
    sheet.grant(1, 40);
    sheet.grant(2, 40);
    sheet.begin(1, 0, &[], &[10]);
    sheet.begin(1, 0, &[], &[11]);
    sheet.begin(2, 0, &[], &[10, 12]);
    sheet.begin(2, 0, &[], &[12]);
    sheet.verdicts();
    sheet.held();
    sheet.recheck(2, 1);
    sheet.finish(1, 1);
    sheet.held();
    sheet.scan(2);
    sheet.recheck(2, 2);
    sheet.finish(2, 1);
    sheet.recheck(2, 2);
    sheet.finish(2, 2);
}

/// Requests that wait for remote answers, and a blocked front that is picked.
fn remote(sheet: &mut Sheet) {
    sheet.begin(1, 2, &[5], &[]);
    sheet.begin(2, 1, &[], &[5, 6]);
    sheet.verdicts();
    sheet.deliver(2, 3);
    sheet.deliver(1, 3);
    sheet.deliver(1, 3);
    sheet.pick();
    sheet.finish(1, 2);
    sheet.scan(1);
    sheet.finish(1, 3);
    sheet.pick();
    sheet.scan(2);
    sheet.pick();
}

/// Searches that their fuel cuts short, at the first entry and further on.
fn short(sheet: &mut Sheet) {
    sheet.begin(1, 0, &[], &[1, 2, 3, 4, 5, 6, 7, 8]);
    sheet.grant(3, 2);
    sheet.scan(3);
    sheet.scan(3);
    sheet.scan(3);
    sheet.grant(3, 12);
    sheet.scan(3);
    sheet.scan(1);
    sheet.grant(1, 40);
    sheet.verdicts();
    sheet.finish(2, 3);
    sheet.scan(1);
}

/// Refusals 1 and 2: no such tenant, and no fuel.
fn strangers(sheet: &mut Sheet) {
    sheet.open(&[2, 2, 1, 0, 0, 0, 0, 0, 0, 0, 0, 0, 0, 0, 0, 0]);
    sheet.grant(0, 5);
    sheet.grant(17, 5);
    sheet.grant(255, 5);
    sheet.begin(0, 0, &[], &[]);
    sheet.begin(17, 0, &[], &[9]);
    sheet.finish(255, 1);
    sheet.recheck(0, 1);
    sheet.scan(17);
    sheet.deliver(255, 1);
    sheet.begin(1, 0, &[], &[]);
    sheet.finish(1, 1);
    sheet.recheck(1, 1);
    sheet.scan(1);
}

/// Refusals 3, 4 and 6: lists of 9 and of 200 records, lists that do not rise, one of them for what is left of it, too many answers.
fn lists(sheet: &mut Sheet) {
    sheet.grant(1, 30);
    sheet.begin(1, 0, &[1, 2, 3, 4, 5, 6, 7, 8, 9], &[]);
    sheet.begin(1, 0, &[], &[1, 2, 3, 4, 5, 6, 7, 8, 9]);
    sheet.begin(1, 0, &[7; 200], &[]);
    sheet.begin(1, 0, &[], &[7; 200]);
    sheet.begin(1, 0, &[], &[7, 7]);
    sheet.begin(1, 0, &[9, 3], &[]);
    sheet.begin(1, 0, &[9, 3, 9, 1], &[9]);
    sheet.begin(1, 16, &[], &[]);
    sheet.begin(1, 255, &[], &[]);
}

/// Refusals 7, 10, 11 and 12: no place left, no such entry, an entry in another state, no answer due.
fn entries(sheet: &mut Sheet) {
    sheet.begin(1, 0, &[], &[1]);
    sheet.begin(1, 0, &[], &[1]);
    sheet.begin(1, 0, &[], &[]);
    sheet.grant(4, 1);
    sheet.begin(4, 0, &[], &[]);
    sheet.finish(1, 2);
    sheet.recheck(1, 1);
    sheet.finish(1, 9);
    sheet.recheck(1, 9);
    sheet.deliver(1, 9);
    sheet.deliver(1, 1);
}

/// Refusals 9 and 13: too little fuel, and too much.
fn poor(sheet: &mut Sheet) {
    sheet.finish(1, 1);
    sheet.begin(1, 0, &[1, 2, 3, 4], &[5, 6, 7, 8]);
    sheet.grant(3, 5);
    sheet.begin(3, 0, &[], &[1]);
    sheet.recheck(3, 1);
    sheet.recheck(3, 1);
    sheet.grant(2, 1_000_000_000);
    sheet.grant(2, 1);
    sheet.grant(2, 4_294_967_295);
}

/// Refusal 14, by shares that no file can hold too: 15 of them, 17, none, and a sum of 65.
fn openings(sheet: &mut Sheet) {
    sheet.open(&[4; 15]);
    sheet.open(&[1; 17]);
    sheet.open(&[]);
    sheet.open(&[5, 4, 4, 4, 4, 4, 4, 4, 4, 4, 4, 4, 4, 4, 4, 4]);
    sheet.grant(1, 5);
    sheet.begin(1, 0, &[], &[]);
    sheet.open(&[4; 16]);
    sheet.grant(16, 4);
    sheet.begin(16, 0, &[], &[255]);
    sheet.finish(16, 1);
}

/// All 65,535 serials of a tenant, by as many rounds, and refusal 8.
fn numbered(sheet: &mut Sheet) {
    sheet.open(&[2, 2, 0, 0, 0, 0, 0, 0, 0, 0, 0, 0, 0, 0, 0, 0]);
    sheet.grant(1, 200_000);
    for serial in 1..=65_535 {
        sheet.round(serial);
    }
    sheet.begin(1, 0, &[], &[]);
}

/// The calls go on for all others.
fn afterwards(sheet: &mut Sheet) {
    sheet.scan(1);
    sheet.begin(1, 0, &[], &[20]);
    sheet.finish(1, 65_535);
    sheet.recheck(1, 65_535);
    sheet.deliver(1, 65_535);
    sheet.pick();
    sheet.grant(2, 40);
    sheet.begin(2, 0, &[20], &[]);
    sheet.begin(2, 1, &[], &[20]);
    sheet.verdicts();
    sheet.recheck(2, 2);
    sheet.scan(2);
    sheet.finish(2, 1);
    sheet.scan(2);
    sheet.deliver(2, 2);
    sheet.finish(2, 2);
}

/// A record in both lists is written only: it is counted once, and the order of the reads is judged without it.
fn sales(sheet: &mut Sheet) {
    sheet.begin(2, 0, &[7, 7], &[7]);
    sheet.begin(2, 0, &[9, 3, 7], &[7, 9]);
    sheet.verdicts();
    sheet.recheck(2, 4);
    sheet.finish(2, 3);
    sheet.scan(2);
    sheet.finish(2, 4);
}

fn borders(sheet: &mut Sheet) {
    sheet.open(&[4, 6, 0, 0, 0, 0, 0, 0, 0, 0, 0, 0, 0, 0, 0, 0]);
    sheet.grant(1, 200);
    sheet.grant(2, 200);
    sheet.held();
    sheet.begin(1, 0, &[], &[0, 64, 128, 192]);
    sheet.begin(1, 0, &[63, 127, 191, 255], &[]);
    sheet.begin(2, 0, &[63, 255], &[]);
    sheet.begin(2, 0, &[192], &[255]);
    sheet.begin(2, 0, &[62, 63, 65], &[127, 191]);
    sheet.begin(2, 2, &[0, 1], &[2, 64]);
    sheet.held();
    sheet.deliver(2, 4);
    sheet.finish(1, 1);
    sheet.held();
    sheet.begin(1, 0, &[128], &[192]);
    sheet.finish(1, 2);
    sheet.held();
    sheet.begin(1, 0, &[62], &[63, 126]);
    sheet.scan(2);
    sheet.finish(2, 1);
    sheet.held();
}

/// A request that hung with its locks, and four behind it.
fn stuck(sheet: &mut Sheet) {
    sheet.open(&[2, 3, 1, 1, 0, 0, 0, 0, 0, 0, 0, 0, 0, 0, 0, 0]);
    sheet.grant(1, 30);
    sheet.grant(2, 60);
    sheet.grant(3, 30);
    sheet.begin(1, 0, &[30], &[10, 255]);
    sheet.begin(2, 0, &[], &[10, 20]);
    sheet.begin(3, 1, &[20], &[]);
    sheet.begin(1, 2, &[40], &[41]);
    sheet.begin(2, 0, &[255], &[]);
    sheet.held();
    sheet.cancel(0, 1);
    sheet.cancel(4, 1);
    sheet.cancel(2, 9);
    sheet.cancel(1, 1);
    sheet.cancel(1, 2);
    sheet.evict(17, 1);
    sheet.evict(3, 2);
    sheet.scan(3);
    sheet.cancel(2, 1);
    sheet.held();
    sheet.scan(3);
}

/// The front, one in the middle and the last are taken out, in each state.
fn evictions(sheet: &mut Sheet) {
    sheet.evict(1, 1);
    sheet.held();
    sheet.evict(1, 1);
    sheet.finish(1, 1);
    sheet.verdicts();
    sheet.scan(2);
    sheet.begin(2, 0, &[], &[255]);
    sheet.evict(1, 2);
    sheet.evict(2, 3);
    sheet.held();
    sheet.begin(1, 0, &[], &[41]);
    sheet.evict(3, 1);
    sheet.deliver(3, 1);
    sheet.begin(3, 0, &[], &[20]);
    sheet.evict(2, 2);
    sheet.evict(1, 3);
    sheet.finish(3, 2);
    sheet.held();
}

fn stored() -> String {
    let path = concat!(env!("CARGO_MANIFEST_DIR"), "/../../crates/direct/stdout");
    fs::read_to_string(path).expect("the stored listing can be read")
}

#[test]
fn the_proved_program_lists_the_same() {
    let mut sheet = Sheet::new();
    calls(&mut sheet);
    remote(&mut sheet);
    short(&mut sheet);
    strangers(&mut sheet);
    lists(&mut sheet);
    entries(&mut sheet);
    poor(&mut sheet);
    openings(&mut sheet);
    numbered(&mut sheet);
    afterwards(&mut sheet);
    sales(&mut sheet);
    borders(&mut sheet);
    stuck(&mut sheet);
    evictions(&mut sheet);
    assert_eq!(sheet.text, stored());
}

/// Every call and every refusal of document 01's table is in it, but for 5: "5
/// is no longer given" (Item 4).
#[test]
fn every_call_and_refusal_is_met() {
    let listed = stored();
    for call in [
        "open", "grant", "begin", "finish", "recheck", "scan", "pick", "deliver", "evict", "cancel",
    ] {
        assert!(listed.contains(&format!(" {} ", call)));
    }
    for number in 1..=14 {
        let met = listed.contains(&format!(" refused:{} ", number));
        assert_eq!(met, number != 5, "refusal {}", number);
    }
}
