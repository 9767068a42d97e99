//! Refusals: a file of small scenes, each of which leads to one refusal
//! number or to the first of several. Together they reach every number that a
//! file can (8 needs more calls than a file holds, and 5 is no longer given).

use crate::random::Random;
use crate::sheet::{Lists, Name, Shares, Sheet};
use second::table::{MOST_FUEL, TENANTS};
use second::State;

/// Tenants with places and fuel.
const ORDINARY: [u8; 8] = [1, 2, 3, 4, 5, 6, 7, 8];
/// Fuel, but a share of 0.
const SHARELESS: [u8; 2] = [9, 10];
/// Holds about as much fuel as there may be.
const RICH: u8 = 11;
/// Has places, and fuel only as a scene hands it out.
const POOR: u8 = 12;
/// Has places, and never any fuel.
const DRY: [u8; 4] = [13, 14, 15, 16];
const SHARES: Shares = [5, 5, 5, 5, 5, 5, 5, 5, 0, 0, 2, 8, 1, 1, 1, 1];

type Scene = fn(&mut Random, &mut Sheet);

const SCENES: [Scene; 14] = [
    no_such_tenant,
    dry,
    too_many_records,
    not_rising,
    in_both_lists,
    awaited_too_high,
    share_held,
    fuel_below_price,
    no_such_entry,
    wrong_state,
    nothing_due,
    too_much_fuel,
    several_begin_faults,
    state_before_price,
];

pub fn refusals(random: &mut Random) -> Vec<u8> {
    let mut sheet = Sheet::open(shares(random));
    for tenant in ORDINARY.iter().chain(&SHARELESS) {
        sheet.grant(*tenant, random.between(100, 400) as u32);
    }
    for _ in 0..random.between(1, 3) {
        let mut scenes = SCENES;
        random.shuffle(&mut scenes);
        for scene in scenes {
            ordinary_begin(random, &mut sheet);
            scene(random, &mut sheet);
        }
    }
    sheet.into_bytes()
}

/// Now and then shares that sum to more than 64: refusal 14, and the whole
/// file runs on shares of 0.
fn shares(random: &mut Random) -> Shares {
    let mut shares = SHARES;
    if random.chance(12) {
        shares[random.below(TENANTS)] += random.byte_between(13, 240);
    }
    shares
}

fn ordinary_begin(random: &mut Random, sheet: &mut Sheet) {
    let tenant = random.one_of(&ORDINARY);
    let awaited = random.one_of(&[0, 0, 1, 2]);
    let lists = few_records(random);
    sheet.begin(tenant, awaited, &lists);
}

fn few_records(random: &mut Random) -> Lists {
    let pool: Vec<u8> = (0..20).collect();
    let reads = random.between(0, 2);
    Lists::drawn(random, &pool, reads, 1)
}

/// Makes one of the eight calls that name a tenant.
fn any_call(random: &mut Random, sheet: &mut Sheet, name: Name) {
    match random.below(8) {
        0 => sheet.grant(name.0, 10),
        1 => sheet.begin(name.0, 0, &few_records(random)),
        2 => sheet.finish(name),
        3 => sheet.recheck(name),
        4 => sheet.scan(name.0),
        5 => sheet.evict(name),
        6 => sheet.cancel(name),
        _ => sheet.deliver(name),
    };
}

/// 1
fn no_such_tenant(random: &mut Random, sheet: &mut Sheet) {
    for _ in 0..3 {
        let drawn = random.byte_between(17, 255);
        let tenant = random.one_of(&[0, 17, 255, drawn]);
        let serial = random.between(0, 3) as u16;
        any_call(random, sheet, (tenant, serial));
    }
}

/// 2, for Begin also where a later number would apply too.
fn dry(random: &mut Random, sheet: &mut Sheet) {
    let tenant = random.one_of(&DRY);
    let serial = random.between(0, 2) as u16;
    match random.below(6) {
        0 => sheet.begin(tenant, 0, &few_records(random)),
        1 => sheet.begin(tenant, 99, &Lists::writing(&[7, 7])),
        2 => sheet.finish((tenant, serial)),
        3 => sheet.recheck((tenant, serial)),
        4 => sheet.cancel((tenant, serial)),
        _ => sheet.scan(tenant),
    };
}

/// 3, at times with a list that does not rise either, and at times with reads
/// that would be few enough without the written ones.
fn too_many_records(random: &mut Random, sheet: &mut Sheet) {
    let count = random.one_of(&[9, 9, 9, 10, 16, 40]);
    let mut records = random.bytes(count);
    if random.chance(70) {
        records = (0..count).map(|record| record as u8).collect();
    }
    let mut lists = if random.chance(50) {
        Lists::reading(&records)
    } else {
        Lists::writing(&records)
    };
    if random.chance(20) {
        lists = few_records(random);
        lists.read_written(random, count);
    }
    sheet.begin(random.one_of(&ORDINARY), 0, &lists);
}

/// 4, at times with a record in both lists too.
fn not_rising(random: &mut Random, sheet: &mut Sheet) {
    let record = random.byte_between(1, 254);
    let below = random.byte_between(0, record - 1);
    let bad = random.one_of(&[[record, record], [record, below]]);
    let mut lists = if random.chance(50) {
        Lists::reading(&bad)
    } else {
        Lists::writing(&bad)
    };
    if random.chance(30) {
        lists = both_and_not_rising(random, &bad);
    }
    sheet.begin(random.one_of(&ORDINARY), 0, &lists);
}

/// The bad list, none of whose records is 255, as the reads that are not written,
/// or as the writes.
fn both_and_not_rising(random: &mut Random, bad: &[u8]) -> Lists {
    let mut lists = Lists {
        reads: bad.to_vec(),
        writes: vec![255],
    };
    if random.chance(50) {
        lists = Lists::writing(bad);
    }
    lists.read_written(random, bad.len() + 1);
    lists
}

/// No refusal of its own: a record in both lists counts as written only. At times
/// there are too many awaited answers.
fn in_both_lists(random: &mut Random, sheet: &mut Sheet) {
    let pool: Vec<u8> = (0..=255).collect();
    let mut lists = Lists::drawn(random, &pool, 3, 3);
    let reads = random.between(4, 8);
    lists.read_written(random, reads);
    let awaited = random.one_of(&[0, 0, 1, 16]);
    sheet.begin(random.one_of(&ORDINARY), awaited, &lists);
}

/// 6, at times for a tenant without places.
fn awaited_too_high(random: &mut Random, sheet: &mut Sheet) {
    let drawn = random.byte_between(17, 255);
    let awaited = random.one_of(&[16, 16, 255, drawn]);
    let tenants = [random.one_of(&ORDINARY), random.one_of(&SHARELESS)];
    let lists = few_records(random);
    sheet.begin(random.one_of(&tenants), awaited, &lists);
}

/// 7, for a share of 0 and for one that is used up.
fn share_held(random: &mut Random, sheet: &mut Sheet) {
    let lists = few_records(random);
    if random.chance(40) {
        sheet.begin(random.one_of(&SHARELESS), 0, &lists);
        return;
    }
    let tenant = random.one_of(&ORDINARY);
    sheet.grant(tenant, 60);
    while sheet.has_place(tenant) && sheet.fuel(tenant) >= 4 {
        sheet.begin(tenant, 0, &Lists::writing(&[random.byte()]));
    }
    sheet.begin(tenant, 0, &lists);
}

/// 9, by Begin, by Recheck and by Scan. Each part starts from a tank of at
/// most a few units.
fn fuel_below_price(random: &mut Random, sheet: &mut Sheet) {
    drain(sheet, POOR);
    sheet.grant(POOR, random.between(1, 3) as u32);
    sheet.begin(POOR, 0, &Lists::writing(&[random.byte()]));
    drain(sheet, POOR);
    if sheet.has_place(POOR) {
        // Record 200 gets a writer of tenant 1 in front, mostly.
        sheet.begin(1, 0, &Lists::writing(&[200]));
        sheet.grant(POOR, 6);
        sheet.begin(POOR, 0, &Lists::writing(&[200, 201]));
    }
    let blocked = sheet.names(|entry| entry.tenant == POOR && entry.state == State::Blocked);
    if let Some(name) = random.any_of(&blocked) {
        drain(sheet, POOR);
        sheet.grant(POOR, random.between(1, 2) as u32);
        sheet.recheck(name);
    }
    drain(sheet, POOR);
    sheet.grant(POOR, random.between(1, 9) as u32);
    sheet.scan(POOR);
}

/// Burns a few units one by one, by naming an entry that is not there.
fn drain(sheet: &mut Sheet, tenant: u8) {
    for _ in 0..sheet.fuel(tenant).min(12) {
        sheet.recheck((tenant, 0));
    }
}

/// 10: serial 0, one not given yet, one that has left.
fn no_such_entry(random: &mut Random, sheet: &mut Sheet) {
    let free = sheet.names_in(State::Free);
    let mut names = vec![
        (random.one_of(&ORDINARY), 0),
        (random.one_of(&ORDINARY), 999),
    ];
    if let Some(name) = random.any_of(&free) {
        sheet.finish(name);
        names.push(name);
    }
    let name = random.one_of(&names);
    match random.below(5) {
        0 => sheet.finish(name),
        1 => sheet.recheck(name),
        2 => sheet.evict(name),
        3 => sheet.cancel(name),
        _ => sheet.deliver(name),
    };
}

/// 11: Finish of an entry that is Waiting or Blocked, Recheck or Cancel of one
/// that is Waiting or Free.
fn wrong_state(random: &mut Random, sheet: &mut Sheet) {
    let not_free = sheet.names(|entry| entry.state != State::Free);
    if let Some(name) = random.any_of(&not_free) {
        sheet.finish(name);
    }
    let not_blocked = sheet.names(|entry| entry.state != State::Blocked);
    if let Some(name) = random.any_of(&not_blocked) {
        match random.below(2) {
            0 => sheet.recheck(name),
            _ => sheet.cancel(name),
        };
    }
}

/// 12: Deliver once more than answers are due.
fn nothing_due(random: &mut Random, sheet: &mut Sheet) {
    let few_due = sheet.names(|entry| entry.due <= 2);
    if let Some(name) = random.any_of(&few_due) {
        for _ in 0..3 {
            sheet.deliver(name);
        }
    }
}

/// 13, by one unit or by far, and a grant that just fits.
fn too_much_fuel(random: &mut Random, sheet: &mut Sheet) {
    let room = MOST_FUEL - sheet.fuel(RICH);
    let over = random.one_of(&[room + 1, u32::MAX]);
    sheet.grant(RICH, over);
    sheet.grant(RICH, room);
    sheet.grant(RICH, 1);
    sheet.begin(RICH, 0, &Lists::default());
}

/// A Begin with any of the faults 1 to 7 and 9 at once: the first must be told.
fn several_begin_faults(random: &mut Random, sheet: &mut Sheet) {
    for _ in 0..4 {
        let (ordinary, shareless) = (random.one_of(&ORDINARY), random.one_of(&SHARELESS));
        let dry = random.one_of(&DRY);
        let tenant = random.one_of(&[ordinary, shareless, POOR, dry, 17]);
        let awaited = random.one_of(&[0, 15, 16, 200]);
        let faulty: [&[u8]; 6] = [
            &[],
            &[3, 4],
            &[3, 3],
            &[4, 3],
            &[1, 2, 3, 4, 5, 6, 7, 8, 9],
            &[9, 8, 7, 6, 5, 4, 3, 2, 1],
        ];
        let lists = Lists {
            reads: random.one_of(&faulty).to_vec(),
            writes: random.one_of(&faulty).to_vec(),
        };
        sheet.begin(tenant, awaited, &lists);
    }
}

/// A Recheck on one unit of fuel: 11 for an entry that is not Blocked, though
/// its price is out of reach too, and 9 for one that is. Then calls on the
/// entry from the dry tank that is left.
fn state_before_price(random: &mut Random, sheet: &mut Sheet) {
    drain(sheet, POOR);
    sheet.grant(POOR, 4);
    let awaited = random.one_of(&[0, 0, 1]);
    sheet.begin(POOR, awaited, &Lists::writing(&[random.byte()]));
    let own = sheet.names(|entry| entry.tenant == POOR);
    if let Some(&name) = own.last() {
        sheet.grant(POOR, 1);
        sheet.recheck(name);
        sheet.recheck(name);
        sheet.finish(name);
        sheet.deliver(name);
    }
}
