//! A sale like that of `examples/sale.txt`: a shop counts its lamps while a
//! seller wants to sell one, which reads the stock and writes it back.
//! `bin/host-cargo run -p damsonpouch --example sale` runs it;
//! `examples/host/sale.c` is the same in C, and prints the same lines.

use damsonpouch::{Answer, Locks, Name, Outcome, BLOCK_LENGTH, TENANTS};

const SHOP: u8 = 1;
const SELLER: u8 = 2;
const LAMPS: u8 = 7;
const TILL: u8 = 20;
const PRICES: u8 = 21;

/// Prints what a call gave, and hands it back.
fn told(what: &str, outcome: Outcome) -> Outcome {
    println!("{:32}{}", what, outcome);
    outcome
}

/// The entry that a Begin gave.
fn entry(outcome: Outcome) -> Result<Name, Box<dyn std::error::Error>> {
    let name = outcome.answer?.name();
    name.ok_or_else(|| String::from("no entry").into())
}

fn main() -> Result<(), Box<dyn std::error::Error>> {
    // Fresh memory is no state; Open makes one of it.
    let mut block = vec![0; BLOCK_LENGTH];
    let mut locks = Locks::over(&mut block);
    let mut shares = [0; TENANTS];
    shares[..2].copy_from_slice(&[3, 1]);
    told("open", locks.open(&shares)).answer?;
    told("grant the shop 60", locks.grant(SHOP, 60)).answer?;
    told("grant the seller 60", locks.grant(SELLER, 60)).answer?;

    let count = locks.begin(SHOP, 0, &[], &[LAMPS]);
    let count = entry(told("the shop counts its lamps", count))?;
    let book = locks.begin(SHOP, 0, &[PRICES], &[TILL]);
    let book = entry(told("and books its takings", book))?;
    // The sale reads the lamps and writes them back. In both lists they count as
    // written only: two records in all.
    let sale = locks.begin(SELLER, 0, &[LAMPS, PRICES], &[LAMPS]);
    // The record behind the @ is the one that it waits for.
    let sale = entry(told("the seller sells a lamp", sale))?;
    println!("{:32}{}", "records held", locks.held()?);

    let early = told("the seller looks, too early", locks.scan(SELLER));
    assert_eq!(early.answer, Ok(Answer::Nothing));
    let refused = locks.finish(sale.tenant, sale.serial);
    let refused = told("it cannot finish yet", refused);
    assert!(refused.answer.is_err());
    let counted = locks.finish(count.tenant, count.serial);
    told("the lamps are counted", counted).answer?;
    told("the seller looks again", locks.scan(SELLER)).answer?;
    let sold = locks.finish(sale.tenant, sale.serial);
    told("the lamp is sold", sold).answer?;
    let booked = locks.finish(book.tenant, book.serial);
    told("the takings are booked", booked).answer?;
    told("nobody is left", locks.pick()).answer?;

    // Fuel stands in the block: four bytes for each tenant, the high byte
    // first, and six bytes from one tenant to the next.
    let at = 22 + 6 * (usize::from(SELLER) - 1);
    let fuel = locks.block()[at..at + 4]
        .iter()
        .fold(0, |high, &low| high << 8 | u32::from(low));
    println!("the seller has {} units left", fuel);

    // A host bug: a counter is overwritten. The calls say so, and touch
    // nothing.
    block[121 + usize::from(LAMPS)] = 1;
    let broken = Locks::over(&mut block).pick();
    let _ = told("a block with a wrong counter", broken);
    Ok(())
}
