//! The listing printed in document 01, byte for byte, with what Item 5 adds to
//! lines 6 and 7.

use events::text::to_bytes;
use second::listing;

const CALLS: &str = "
open 2 2
grant 1 40
grant 2 40
begin 1 writes 10
begin 1 writes 11
begin 2 writes 10 12
begin 2 writes 12
finish 1 1
recheck 2 1
scan 2
pick
finish 2 2
";

const LISTING: &str = "no call answer burnt left
1 open ok 0 -
2 grant ok 0 40
3 grant ok 0 40
4 begin free:1.1 4 36
5 begin free:1.2 4 32
6 begin blocked:2.1@10 6 34
7 begin blocked:2.2@12 4 30
8 finish done 0 32
9 recheck still 3 27
10 scan free:2.1 6 21
11 pick nothing 0 -
12 finish refused:11 1 20
";

#[test]
fn the_listing_of_document_01() {
    let file = to_bytes(CALLS.as_bytes()).expect("the text is right");
    assert_eq!(listing(&file), LISTING);
}

#[test]
fn the_bytes_of_those_calls() {
    let bytes = [
        &[1, 0, 16, 2, 2, 0, 0, 0, 0, 0, 0, 0, 0, 0, 0, 0, 0, 0, 0][..],
        &[2, 0, 5, 1, 0, 0, 0, 40],
        &[2, 0, 5, 2, 0, 0, 0, 40],
        &[3, 0, 4, 1, 0, 0, 10],
        &[3, 0, 4, 1, 0, 0, 11],
        &[3, 0, 5, 2, 0, 0, 10, 12],
        &[3, 0, 4, 2, 0, 0, 12],
        &[4, 0, 3, 1, 0, 1],
        &[5, 0, 3, 2, 0, 1],
        &[6, 0, 1, 2],
        &[7, 0, 0],
        &[4, 0, 3, 2, 0, 2],
    ]
    .concat();
    assert_eq!(to_bytes(CALLS.as_bytes()), Ok(bytes));
}
