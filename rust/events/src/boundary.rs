//! File boundaries: one case after the other, so that consecutive seeds go
//! through all of them. No file is longer than 65,537 bytes.

use crate::encode::encode_parts;
use crate::load::mixed_sheet;
use crate::random::Random;
use crate::sheet::{Lists, Shares, Sheet};
use second::reader::{tag, HEAD_BYTES, MOST_BYTES};
use second::table::{MOST_FUEL, TENANTS};

type Case = fn(&mut Random) -> Vec<u8>;

const CASES: [Case; 24] = [
    empty,
    one_or_two_bytes,
    open_alone,
    one_or_two_bytes_left,
    body_past_the_end,
    longest_good_file,
    one_byte_too_long,
    too_long_noise,
    huge_body,
    huge_length,
    first_not_open,
    first_not_open_of_bad_length,
    second_open,
    second_open_of_bad_length,
    bad_length,
    bad_first_open,
    begin_below_three,
    begin_of_three,
    r_at_its_limit,
    unknown_tag,
    list_limits,
    share_limits,
    number_limits,
    fuel_limit,
];

pub fn boundary(seed: u64, random: &mut Random) -> Vec<u8> {
    let case = (seed % CASES.len() as u64) as usize;
    CASES[case](random)
}

/// The length that a body of each tag has; for Begin the shortest.
fn suited_length(tag: u8) -> usize {
    match tag {
        tag::OPEN => TENANTS,
        tag::GRANT => 5,
        tag::SCAN => 1,
        tag::PICK => 0,
        _ => 3,
    }
}

/// A body of that length with tenant 1, and zeros for the rest.
fn body(length: usize) -> Vec<u8> {
    let mut body = vec![0; length];
    if let Some(tenant) = body.first_mut() {
        *tenant = 1;
    }
    body
}

fn record(tag: u8, length: usize) -> Vec<u8> {
    let mut bytes = Vec::new();
    encode_parts(tag, &body(length), &mut bytes).expect("a short body fits the format");
    bytes
}

/// A short good beginning for cases that end badly.
fn good_start(random: &mut Random) -> Sheet {
    let steps = random.between(0, 12);
    mixed_sheet(random, steps, usize::MAX)
}

fn tag_but_open(random: &mut Random) -> u8 {
    random.one_of(&tag::ALL[1..])
}

fn empty(_random: &mut Random) -> Vec<u8> {
    Vec::new()
}

fn one_or_two_bytes(random: &mut Random) -> Vec<u8> {
    let first = random.one_of(&[tag::OPEN, tag::PICK, 0x00, 0xFF]);
    let mut bytes = vec![first];
    if random.chance(50) {
        bytes.push(random.one_of(&[0x00, 0xFF]));
    }
    bytes
}

fn open_alone(random: &mut Random) -> Vec<u8> {
    mixed_sheet(random, 0, 0).into_bytes()[..HEAD_BYTES + TENANTS].to_vec()
}

/// 21 for the head, even where the tag is unknown.
fn one_or_two_bytes_left(random: &mut Random) -> Vec<u8> {
    let mut file = good_start(random).into_bytes();
    file.extend(one_or_two_bytes(random));
    file
}

/// 21 for the body, by one byte or by all of it, even where the length does
/// not suit the tag.
fn body_past_the_end(random: &mut Random) -> Vec<u8> {
    let mut file = good_start(random).into_bytes();
    let tag = random.one_of(&tag::ALL);
    let length = suited_length(tag) + random.one_of(&[1, 1, 200]);
    file.extend(record(tag, length));
    let missing = random.one_of(&[1, length]);
    file.truncate(file.len() - missing);
    file
}

/// A good file of that many bytes: a mixed load up to somewhere, then Begins
/// with long lists (refusal 3) for the rest.
fn good_file_of(random: &mut Random, bytes: usize) -> Vec<u8> {
    let load = random.one_of(&[200, 3_000, bytes - 100]);
    let mut sheet = mixed_sheet(random, usize::MAX, load);
    while sheet.len() < bytes {
        let mut room = bytes - sheet.len();
        if room > 1_000 && random.chance(80) {
            room = random.between(100, room - 100);
        }
        let writes = random.bytes(room - HEAD_BYTES - 3);
        sheet.begin(random.byte_between(1, 16), 0, &Lists::writing(&writes));
    }
    sheet.into_bytes()
}

fn longest_good_file(random: &mut Random) -> Vec<u8> {
    good_file_of(random, MOST_BYTES)
}

fn one_byte_too_long(random: &mut Random) -> Vec<u8> {
    good_file_of(random, MOST_BYTES + 1)
}

fn too_long_noise(random: &mut Random) -> Vec<u8> {
    random.bytes(MOST_BYTES + 1)
}

/// The longest body that a file can hold, with no reads or as many as r tells.
fn huge_body(random: &mut Random) -> Vec<u8> {
    let mut sheet = Sheet::open([4; TENANTS]);
    sheet.grant(1, random.between(0, 2) as u32);
    let length = MOST_BYTES - sheet.len() - HEAD_BYTES;
    let mut body = body(length);
    body[2] = random.one_of(&[0, 8, 9, 255]);
    sheet.into_bytes_with(tag::BEGIN, &body)
}

/// A head that tells of far more bytes than there are.
fn huge_length(random: &mut Random) -> Vec<u8> {
    let mut file = good_start(random).into_bytes();
    let low = random.byte();
    file.extend_from_slice(&[random.one_of(&tag::ALL), 0xFF, low]);
    let count = random.between(0, 50);
    file.extend(random.bytes(count));
    file
}

fn first_not_open(random: &mut Random) -> Vec<u8> {
    let tag = tag_but_open(random);
    let mut file = record(tag, suited_length(tag));
    file.extend(good_start(random).into_bytes());
    file
}

/// 22 comes before 23.
fn first_not_open_of_bad_length(random: &mut Random) -> Vec<u8> {
    let tags = [
        tag::GRANT,
        tag::FINISH,
        tag::SCAN,
        tag::PICK,
        tag::EVICT,
        tag::CANCEL,
    ];
    let tag = random.one_of(&tags);
    let mut file = record(tag, suited_length(tag) + 1);
    file.extend(good_start(random).into_bytes());
    file
}

fn second_open(random: &mut Random) -> Vec<u8> {
    let sheet = good_start(random);
    let mut file = sheet.into_bytes_with(tag::OPEN, &body(TENANTS));
    file.extend(record(tag::PICK, 0));
    file
}

/// 22 comes before 23.
fn second_open_of_bad_length(random: &mut Random) -> Vec<u8> {
    let length = random.one_of(&[0, TENANTS - 1, TENANTS + 1]);
    good_start(random).into_bytes_with(tag::OPEN, &body(length))
}

/// One byte too many or too few, for each tag whose length is fixed.
fn bad_length(random: &mut Random) -> Vec<u8> {
    let fixed = [
        tag::GRANT,
        tag::FINISH,
        tag::RECHECK,
        tag::SCAN,
        tag::PICK,
        tag::DELIVER,
        tag::EVICT,
        tag::CANCEL,
    ];
    let tag = random.one_of(&fixed);
    let length = suited_length(tag);
    let bad = random.one_of(&[length + 1, length.saturating_sub(1), length + 256]);
    let bad = if bad == length { length + 1 } else { bad };
    let mut file = good_start(random).into_bytes_with(tag, &body(bad));
    file.extend(record(tag::PICK, 0));
    file
}

fn bad_first_open(random: &mut Random) -> Vec<u8> {
    let length = random.one_of(&[0, TENANTS - 1, TENANTS + 1, 300]);
    record(tag::OPEN, length)
}

fn begin_below_three(random: &mut Random) -> Vec<u8> {
    let length = random.below(3);
    good_start(random).into_bytes_with(tag::BEGIN, &body(length))
}

/// Both lists empty; or r = 1 with no byte for it.
fn begin_of_three(random: &mut Random) -> Vec<u8> {
    let sheet = good_start(random);
    let r = random.one_of(&[0, 1, 255]);
    sheet.into_bytes_with(tag::BEGIN, &[1, 0, r])
}

/// r at length - 3, which leaves no writes, and one above it.
fn r_at_its_limit(random: &mut Random) -> Vec<u8> {
    let mut sheet = good_start(random);
    sheet.grant(1, 100);
    let count = random.byte_between(1, 9);
    let r = random.one_of(&[count - 1, count, count + 1]);
    let mut body = vec![1, 0, r];
    body.extend(0..count);
    sheet.into_bytes_with(tag::BEGIN, &body)
}

/// Complete, or with a body past the end, where 20 still comes first. 0A stands
/// between the tags of an Evict and a Cancel.
fn unknown_tag(random: &mut Random) -> Vec<u8> {
    let drawn = random.byte_between(0x0C, 0xFF);
    let tag = random.one_of(&[0x00, 0x0A, 0x0A, 0x0C, 0xFF, drawn]);
    let sheet = good_start(random);
    let mut file = if random.chance(20) {
        Vec::new()
    } else {
        sheet.into_bytes()
    };
    file.extend(record(tag, 3));
    if random.chance(50) {
        file.truncate(file.len() - random.between(1, 3));
    }
    file
}

/// 8 and 9 reads, 8 and 9 writes, and all 16 records; then 8 that are read and
/// written, and 9 reads that are 8 without the written one: "The limits of 8
/// apply to the lists as given."
fn list_limits(random: &mut Random) -> Vec<u8> {
    let mut sheet = Sheet::open([4; TENANTS]);
    let tenant = random.byte_between(1, 16);
    sheet.grant(tenant, 200);
    let first = random.byte_between(0, 230);
    let row = |count: u8| -> Vec<u8> { (first..first + count).collect() };
    for count in [8, 9] {
        sheet.begin(tenant, 0, &Lists::reading(&row(count)));
        sheet.begin(tenant, 0, &Lists::writing(&row(count)));
    }
    let both = Lists {
        reads: row(8),
        writes: (first + 8..first + 16).collect(),
    };
    sheet.begin(tenant, 0, &both);
    let same = Lists {
        reads: row(8),
        writes: row(8),
    };
    sheet.begin(tenant, 0, &same);
    let nine = Lists {
        reads: row(9),
        writes: vec![random.one_of(&[first, first + 8])],
    };
    sheet.begin(tenant, 0, &nine);
    sheet.scan(tenant);
    sheet.into_bytes()
}

/// Shares that sum to 64, to 65, or to far more; then one Begin each.
fn share_limits(random: &mut Random) -> Vec<u8> {
    let mut shares: Shares = [4; TENANTS];
    let at = random.below(TENANTS);
    shares[at] = random.one_of(&[4, 4, 5, 255]);
    if random.chance(30) {
        shares = [0; TENANTS];
        shares[at] = random.one_of(&[64, 65]);
    }
    let mut sheet = Sheet::open(shares);
    for tenant in 1..=16 {
        sheet.grant(tenant, 10);
        sheet.begin(tenant, 0, &Lists::writing(&[random.byte()]));
    }
    sheet.into_bytes()
}

/// Tenants 0, 1, 16 and 17; awaited 15 and 16; serials 0, 1 and 65,535;
/// records 0 and 255.
fn number_limits(random: &mut Random) -> Vec<u8> {
    let mut sheet = Sheet::open([4; TENANTS]);
    let mut tenants = [0, 1, 16, 17];
    random.shuffle(&mut tenants);
    for tenant in tenants {
        sheet.grant(tenant, random.between(30, 60) as u32);
        for awaited in [15, 16] {
            sheet.begin(tenant, awaited, &Lists::writing(&[0, 255]));
        }
        for serial in [0, 1, 65_535] {
            sheet.deliver((tenant, serial));
            sheet.recheck((tenant, serial));
            sheet.finish((tenant, serial));
            sheet.cancel((tenant, serial));
        }
        sheet.scan(tenant);
        for serial in [0, random.one_of(&[1, 2]), 65_535] {
            sheet.evict((tenant, serial));
        }
    }
    sheet.into_bytes()
}

/// Fuel up to 1,000,000,000 and one unit above.
fn fuel_limit(random: &mut Random) -> Vec<u8> {
    let mut sheet = Sheet::open([4; TENANTS]);
    let tenant = random.byte_between(1, 16);
    let first = random.between(0, 1_000) as u32;
    sheet.grant(tenant, first);
    sheet.grant(tenant, MOST_FUEL - first + 1);
    sheet.grant(tenant, MOST_FUEL - first);
    sheet.grant(tenant, 1);
    sheet.grant(tenant, 0);
    sheet.begin(tenant, 0, &Lists::default());
    sheet.grant(tenant, random.between(2, 3) as u32);
    sheet.grant(tenant, u32::MAX);
    sheet.into_bytes()
}
