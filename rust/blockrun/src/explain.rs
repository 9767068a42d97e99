//! A block in words: whether it is sound, and what stands in it, sound or not.
//!
//! The verdict is the linked check's. Which rule a block breaks is the second
//! program's reading. What stands below is read off the bytes at the places of
//! the layout, so that an unsound block is shown too.

use second::block::{Broken, CLAUSES};

const BYTES: usize = 2_176;
const TENANTS: usize = 16;
const RECORDS: usize = 256;
const PLACES: usize = 64;
const SHARES_AT: usize = 3;
const METERS_AT: usize = 22;
const METER_BYTES: usize = 6;
const CX_AT: usize = 121;
const CS_AT: usize = 380;
const COUNT_AT: usize = 639;
const ENTRIES_AT: usize = 640;
const ENTRY_BYTES: usize = 24;
const LISTS_AT: usize = 8;
const LIST_BYTES: usize = 16;

/// What is said of a block by the linked check and by the second program.
pub struct Verdict {
    /// Whether the linked check finds it sound.
    pub linked: bool,
    /// The rule that it breaks, if the second program finds one.
    pub second: Option<Broken>,
}

impl Verdict {
    pub fn differs(&self) -> bool {
        self.linked != self.second.is_none()
    }

    fn lines(&self) -> Vec<String> {
        match (self.linked, &self.second) {
            (true, None) => vec![String::from("sound")],
            (false, Some(broken)) => vec![
                format!("not sound: {}", broken),
                format!("  the rule: {}", rule(broken)),
            ],
            (true, Some(broken)) => vec![
                String::from("sound"),
                format!(
                    "  DIFFERENT: the second program finds it not sound: {}",
                    broken
                ),
                format!("  the rule: {}", rule(broken)),
            ],
            (false, None) => vec![
                String::from("not sound"),
                String::from("  DIFFERENT: the second program finds it sound"),
            ],
        }
    }
}

fn rule(broken: &Broken) -> &'static str {
    CLAUSES[broken.clause() - 1]
}

/// The block in words, as lines that each end with a line feed.
pub fn words(block: &[u8], verdict: &Verdict) -> String {
    let mut lines = verdict.lines();
    if block.len() == BYTES {
        lines.extend(tenant_lines(block));
        lines.extend(queue_lines(block));
        lines.push(counter_line("Cx", &block[CX_AT..CX_AT + RECORDS]));
        lines.push(counter_line("Cs", &block[CS_AT..CS_AT + RECORDS]));
    }
    lines.iter().map(|line| format!("{}\n", line)).collect()
}

/// A line for each tenant that has or had anything.
fn tenant_lines(block: &[u8]) -> Vec<String> {
    let mut lines = Vec::new();
    for seat in 0..TENANTS {
        let share = block[SHARES_AT + seat];
        let meter = &block[METERS_AT + seat * METER_BYTES..];
        let fuel = u32::from_be_bytes([meter[0], meter[1], meter[2], meter[3]]);
        let serials = u16::from_be_bytes([meter[4], meter[5]]);
        let tenant = seat + 1;
        let held = entries(block)
            .filter(|entry| usize::from(entry[0]) == tenant)
            .count();
        if share > 0 || fuel > 0 || serials > 0 || held > 0 {
            lines.push(format!(
                "tenant {}: share {}, places held {}, fuel {}, serials given {}",
                tenant, share, held, fuel, serials
            ));
        }
    }
    if lines.is_empty() {
        lines.push(String::from(
            "tenants: no shares, no fuel, no serials given",
        ));
    }
    lines
}

/// The entries that the count counts, front first; all of them if it counts
/// more than there are.
fn entries(block: &[u8]) -> impl Iterator<Item = &[u8]> {
    let used = usize::from(block[COUNT_AT]).min(PLACES);
    block[ENTRIES_AT..].chunks(ENTRY_BYTES).take(used)
}

fn queue_lines(block: &[u8]) -> Vec<String> {
    let mut lines = vec![match block[COUNT_AT] {
        0 => String::from("queue: empty"),
        1 => String::from("queue: 1 entry"),
        count if usize::from(count) > PLACES => {
            format!("queue: a count of {}, all {} places shown", count, PLACES)
        }
        count => format!("queue: {} entries, front first", count),
    }];
    for (at, entry) in entries(block).enumerate() {
        lines.push(format!("  {}. {}", at + 1, entry_words(entry)));
    }
    lines
}

fn entry_words(entry: &[u8]) -> String {
    let serial = u16::from_be_bytes([entry[1], entry[2]]);
    format!(
        "{}.{} {}, awaited {}, due {}, {}",
        entry[0],
        serial,
        state_word(entry[3]),
        entry[4],
        entry[5],
        lists(entry)
    )
}

fn state_word(state: u8) -> String {
    match state {
        0 => String::from("free"),
        1 => String::from("waiting"),
        2 => String::from("blocked"),
        _ => format!("state {}", state),
    }
}

/// The lists, or the record bytes as they are where the numbers of reads and
/// writes are more than those.
fn lists(entry: &[u8]) -> String {
    let (reads, writes) = (usize::from(entry[6]), usize::from(entry[7]));
    let records = &entry[LISTS_AT..];
    if reads + writes > LIST_BYTES {
        return format!(
            "{} reads and {} writes, record bytes{}",
            reads,
            writes,
            numbers(records)
        );
    }
    format!(
        "reads{}, writes{}",
        numbers(&records[..reads]),
        numbers(&records[reads..reads + writes])
    )
}

fn numbers(records: &[u8]) -> String {
    if records.is_empty() {
        return String::from(" none");
    }
    records
        .iter()
        .map(|record| format!(" {}", record))
        .collect()
}

/// The counters that are not zero, as `record=counter`.
fn counter_line(name: &str, counters: &[u8]) -> String {
    let shown: String = counters
        .iter()
        .enumerate()
        .filter(|(_, &counter)| counter > 0)
        .map(|(record, counter)| format!(" {}={}", record, counter))
        .collect();
    if shown.is_empty() {
        return format!("{}: all zero", name);
    }
    format!("{}:{}", name, shown)
}

#[cfg(test)]
mod tests {
    use super::*;
    use second::block::{read, write};
    use second::{Entry, Request, State, Table};

    fn agreed(block: &[u8]) -> String {
        let second = read(block).err();
        let linked = second.is_none();
        words(block, &Verdict { linked, second })
    }

    fn entry(tenant: u8, serial: u16, state: State, reads: &[u8], writes: &[u8]) -> Entry {
        let request = Request {
            awaited: 0,
            reads: reads.to_vec(),
            writes: writes.to_vec(),
        };
        Entry {
            tenant,
            serial,
            state,
            due: 0,
            request,
        }
    }

    fn block() -> Vec<u8> {
        let mut table = Table::default();
        table.meters[0].share = 2;
        table.meters[0].fuel = 1_000_000_000;
        table.meters[0].serials = 65_535;
        table.meters[15].share = 1;
        table.meters[15].serials = 1;
        table
            .queue
            .push(entry(1, 65_534, State::Free, &[], &[10, 255]));
        table
            .queue
            .push(entry(16, 1, State::Blocked, &[0, 10], &[]));
        table.queue[1].request.awaited = 3;
        table.queue[1].due = 2;
        write(&table).to_vec()
    }

    #[test]
    fn a_sound_block() {
        assert_eq!(
            agreed(&block()),
            "sound\n\
             tenant 1: share 2, places held 1, fuel 1000000000, serials given 65535\n\
             tenant 16: share 1, places held 1, fuel 0, serials given 1\n\
             queue: 2 entries, front first\n\
             \x20 1. 1.65534 free, awaited 0, due 0, reads none, writes 10 255\n\
             \x20 2. 16.1 blocked, awaited 3, due 2, reads 0 10, writes none\n\
             Cx: 10=1 255=1\n\
             Cs: 0=1 10=1\n"
        );
    }

    #[test]
    fn an_unsound_block_is_shown_too() {
        let mut bytes = block();
        bytes[ENTRIES_AT + 3] = 7;
        bytes[COUNT_AT + 1 + ENTRY_BYTES + 6] = 200;
        bytes[CX_AT] = 9;
        let told = agreed(&bytes);
        for line in [
            "  1. 1.65534 state 7, awaited 0, due 0, reads none, writes 10 255\n",
            "  2. 16.1 blocked, awaited 3, due 2, 200 reads and 0 writes, record bytes 0 10 0 0 ",
            "Cx: 0=9 10=1 255=1\n",
            "  the rule: states are 0 to 2\n",
        ] {
            assert!(told.contains(line), "no {:?} in:\n{}", line, told);
        }
        assert!(told.starts_with("not sound: entry 1 (1.65534) has state 7"));
    }

    #[test]
    fn a_request_that_would_never_leave() {
        let mut bytes = block();
        bytes[ENTRIES_AT + 3] = 1;
        let told = agreed(&bytes);
        assert!(told.starts_with(
            "not sound: entry 1 (1.65534) is Waiting and has no answer due\n\
             \x20 the rule: a Free entry has nothing due, a Waiting one an answer due, \
             a Blocked one n above 0\n"
        ));
    }

    /// No call stores such an entry: a record in both lists of a Begin is stored
    /// among the writes alone.
    #[test]
    fn a_record_in_both_lists() {
        let mut bytes = block();
        // 16.1 reads 0 and writes 0, where it read 0 and 10
        bytes[ENTRIES_AT + ENTRY_BYTES + 6..ENTRIES_AT + ENTRY_BYTES + 10]
            .copy_from_slice(&[1, 1, 0, 0]);
        let told = agreed(&bytes);
        assert!(told.starts_with(
            "not sound: entry 2 (16.1) has a record in both lists\n\
             \x20 the rule: lists keep refusals 3 and 4, and no record is in both\n"
        ));
        assert!(told.contains("  2. 16.1 blocked, awaited 3, due 2, reads 0, writes 0\n"));
    }

    /// Whatever the bytes are, there are words for them.
    #[test]
    fn any_bytes() {
        for byte in [0, 1, 16, 64, 65, 255] {
            let told = agreed(&vec![byte; BYTES]);
            assert!(told.starts_with("not sound: byte 0 is "), "{}", told);
            assert!(told.contains("\nqueue: "));
            for length in [0, 1, BYTES - 1, BYTES + 1] {
                let told = agreed(&vec![byte; length]);
                let first = format!("not sound: the block has {} bytes, not 2176\n", length);
                assert!(told.starts_with(&first));
                assert_eq!(told.lines().count(), 2);
            }
        }
    }

    #[test]
    fn where_the_two_differ() {
        let sound = block();
        let mut broken = sound.clone();
        broken[0] = 0;
        let told = |linked, block: &[u8]| {
            let second = read(block).err();
            let verdict = Verdict { linked, second };
            (verdict.differs(), words(block, &verdict))
        };
        assert!(!told(true, &sound).0);
        assert!(!told(false, &broken).0);
        let (differs, lines) = told(false, &sound);
        assert!(differs);
        assert!(
            lines.starts_with("not sound\n  DIFFERENT: the second program finds it sound\ntenant")
        );
        let (differs, lines) = told(true, &broken);
        assert!(differs);
        assert!(lines.starts_with(
            "sound\n  DIFFERENT: the second program finds it not sound: byte 0 is 00"
        ));
    }
}
