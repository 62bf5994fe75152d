// Every wrapper of pointer_desk.rs, accepted and refused; the answers are those of document 01.
// A wrapper that is called nowhere here is dead code, which the compiler refuses.
#[path = "../pointer_desk.rs"]
mod pointer_desk;

use std::num::NonZeroU16;

use pointer_desk::Message::{Copy, Dec, IncDec};
use pointer_desk::{pack, read_line, run, unpack, write_line, Accepted, Answer, Book, Next, Refusal, Sheet, RUN_ROOM};
use pointer_desk::{Desk, DeskInOrder, DeskInWords, Lent, LentInOrder, LentInWords};
use pointer_desk::{MAX_POINTERS, MAX_SITES, MAX_SLOTS, ORDERED_SLOT_BYTES, SLOT_BYTES};

struct Tally {
    passed: usize,
    failed: usize,
}

impl Tally {
    fn expect(&mut self, name: &str, right: bool) {
        self.passed += right as usize;
        self.failed += !right as usize;
        if !right {
            println!("FAILED: {}", name);
        }
    }
}

fn accepted(value: u16) -> Answer {
    Ok(Accepted { value, empty: None, message: None })
}

fn posted(value: u16, message: pointer_desk::Message) -> Answer {
    Ok(Accepted { value, empty: None, message: Some(message) })
}

// An accepted make copy or delete, which tells how many slots were empty.
fn told(empty: u16, value: u16, message: pointer_desk::Message) -> Answer {
    Ok(Accepted { value, empty: NonZeroU16::new(empty), message: Some(message) })
}

// Tables of a host, to lend and to look at.
#[derive(Clone, PartialEq)]
struct Tables {
    sites: u8,
    owners: Vec<u8>,
    send: Vec<u16>,
    receive: Vec<u8>,
    pool: Vec<u8>,
}

impl Tables {
    // One pointer of owner 0, which the other sites hold as said.
    fn new<const SLOT: usize>(sites: u8, cells: &[u8], pool: &[[u8; SLOT]]) -> Tables {
        Tables { sites, owners: vec![0], send: vec![0; cells.len()], receive: cells.to_vec(), pool: pool.concat() }
    }

    fn lend(&mut self) -> Lent<'_> {
        Lent {
            sites: self.sites,
            owners: &self.owners,
            send: &mut self.send,
            receive: &mut self.receive,
            pool: &mut self.pool,
        }
    }
}

// The same with the next numbers to post and to receive (document 02, Three).
#[derive(Clone, PartialEq)]
struct InOrder {
    tables: Tables,
    to_post: Vec<u16>,
    to_receive: Vec<u16>,
}

impl InOrder {
    // All numbers are 0 but those of the pairs that are given.
    fn new(tables: Tables, to_post: &[(usize, u16)], to_receive: &[(usize, u16)]) -> InOrder {
        let numbers = |given: &[(usize, u16)]| {
            let mut all = vec![0; tables.sites as usize * tables.sites as usize];
            given.iter().for_each(|&(pair, number)| all[pair] = number);
            all
        };
        InOrder { to_post: numbers(to_post), to_receive: numbers(to_receive), tables }
    }

    fn lend(&mut self) -> LentInOrder<'_> {
        LentInOrder {
            sites: self.tables.sites,
            owners: &self.tables.owners,
            send: &mut self.tables.send,
            receive: &mut self.tables.receive,
            pool: &mut self.tables.pool,
            to_post: &mut self.to_post,
            to_receive: &mut self.to_receive,
        }
    }
}

// The same with a word a pointer in place of the receive bytes (document 02, Five).
#[derive(Clone, PartialEq)]
struct InWords {
    tables: Tables,
    words: Vec<u64>,
}

impl InWords {
    // One pointer of owner 0, which the sites of this word hold.
    fn new(sites: u8, word: u64, pool: &[[u8; SLOT_BYTES]]) -> InWords {
        let tables = Tables { send: vec![0; sites.into()], ..Tables::new(sites, &[], pool) };
        InWords { tables, words: vec![word] }
    }

    fn lend(&mut self) -> LentInWords<'_> {
        LentInWords {
            sites: self.tables.sites,
            owners: &self.tables.owners,
            send: &mut self.tables.send,
            words: &mut self.words,
            pool: &mut self.tables.pool,
        }
    }
}

// A call over tables is refused so, and every table holds what it held.
fn refused(t: &mut Tally, name: &str, tables: &Tables, call: impl Fn(&mut Lent) -> Answer, why: Refusal) {
    let mut lent = tables.clone();
    let answer = call(&mut lent.lend());
    t.expect(name, answer == Err(why) && lent == *tables);
}

fn refused_in_order(t: &mut Tally, name: &str, desk: &InOrder, call: impl Fn(&mut LentInOrder) -> Answer, why: Refusal) {
    let mut lent = desk.clone();
    let answer = call(&mut lent.lend());
    t.expect(name, answer == Err(why) && lent == *desk);
}

fn refused_in_words(t: &mut Tally, name: &str, desk: &InWords, call: impl Fn(&mut LentInWords) -> Answer, why: Refusal) {
    let mut lent = desk.clone();
    let answer = call(&mut lent.lend());
    t.expect(name, answer == Err(why) && lent == *desk);
}

// Document 01, Lines: the fourteen lines of its case, call by call.
fn fourteen(t: &mut Tally) {
    let mut tables = Tables::new(3, &[9, 9, 9], &[[9; 5]; 4]);
    let mut desk = tables.lend();
    t.expect("line 1", desk.open() == accepted(0));
    t.expect("line 2", desk.make_copy(0, 1, 0) == told(4, 0, Copy { from: 0, to: 1, pointer: 0 }));
    t.expect("line 3", desk.receive(0) == accepted(0));
    t.expect("line 4", desk.make_copy(1, 2, 0) == told(4, 0, Copy { from: 1, to: 2, pointer: 0 }));
    t.expect("line 5", desk.receive(0) == posted(0, IncDec { from: 2, to: 0, third: 1, pointer: 0 }));
    t.expect("line 6", desk.delete(2, 0) == told(3, 1, Dec { from: 2, to: 0, pointer: 0 }));
    t.expect("line 7", desk.receive(1) == Err(Refusal::Held));
    t.expect("line 8", desk.ask(0, 0) == accepted(0));
    t.expect("line 9", desk.receive(0) == posted(0, Dec { from: 0, to: 1, pointer: 0 }));
    t.expect("line 10", desk.receive(1) == accepted(1));
    t.expect("line 11", desk.receive(0) == accepted(0));
    t.expect("line 12", desk.delete(1, 0) == told(4, 0, Dec { from: 1, to: 0, pointer: 0 }));
    t.expect("line 13", desk.receive(0) == accepted(0));
    t.expect("line 14", desk.ask(0, 0) == accepted(1));
    t.expect("the tables after", tables == Tables::new(3, &[1, 0, 0], &[[0; 5]; 4]));
}

// Document 01, Why a call is turned down: the refusals of the calls.
fn refusals(t: &mut Tally) {
    let good = Tables::new(3, &[1, 1, 0], &[[0; 5], [1, 0, 2, 0, 0]]);
    let counted = |site: usize, count| {
        let mut tables = good.clone();
        tables.send[site] = count;
        tables
    };
    let with = |slot| Tables::new(3, &[1, 1, 0], &[slot]);
    refused(t, "open, S = 65", &Tables { sites: 65, ..good.clone() }, |d| d.open(), Refusal::BadShape);
    refused(t, "open, an owner of 3", &Tables { owners: vec![3], ..good.clone() }, |d| d.open(), Refusal::BadTable);
    refused(t, "copy of pointer 1", &good, |d| d.make_copy(0, 1, 1), Refusal::BadName);
    refused(t, "copy to its sender", &good, |d| d.make_copy(1, 1, 0), Refusal::SameSite);
    refused(t, "copy by site 2", &good, |d| d.make_copy(2, 1, 0), Refusal::NotHeld);
    refused(t, "copy by a full counter", &counted(0, 65535), |d| d.make_copy(0, 1, 0), Refusal::CounterFull);
    refused(t, "copy to a full pool", &with([1, 0, 2, 0, 0]), |d| d.make_copy(0, 1, 0), Refusal::PoolFull);
    refused(t, "receive of nothing", &good, |d| d.receive(0), Refusal::EmptySlot);
    refused(t, "receive of a DEC to 0", &with([2, 1, 0, 0, 0]), |d| d.receive(0), Refusal::CounterZero);
    refused(t, "delete at the owner", &good, |d| d.delete(0, 0), Refusal::IsOwner);
    refused(t, "delete while counted", &counted(1, 1), |d| d.delete(1, 0), Refusal::StillCounted);
    refused(t, "ask elsewhere", &good, |d| d.ask(1, 0), Refusal::NotOwner);
}

// Document 02, One: the count goes down to 1 with the last empty slot, and up to 1,024.
fn counts(t: &mut Tally) {
    let copy = Copy { from: 0, to: 1, pointer: 0 };
    let mut one = Tables::new(2, &[1, 0], &[[0; 5]]);
    t.expect("the last empty slot", one.lend().make_copy(0, 1, 0) == told(1, 0, copy));
    t.expect("then none", one.lend().make_copy(0, 1, 0) == Err(Refusal::PoolFull));
    let mut most = Tables::new(2, &[1, 1], &[[0; 5]; 1024]);
    t.expect("1,024 empty slots", most.lend().make_copy(0, 1, 0) == told(1024, 0, copy));
    t.expect("1,023 empty slots", most.lend().delete(1, 0) == told(1023, 1, Dec { from: 1, to: 0, pointer: 0 }));
    let mut between = Tables::new(2, &[1, 0], &[[1, 0, 1, 0, 0], [0; 5], [1, 0, 1, 0, 0], [0; 5], [1, 0, 1, 0, 0]]);
    t.expect("empty slots behind the lowest", between.lend().make_copy(0, 1, 0) == told(2, 1, copy));
}

// Document 01, Share and sheet: its own example, and a message of each kind in the column of the site whose counter it acts on (document 02, Two).
fn share_and_sheet(t: &mut Tally) {
    let mut below = Tables::new(2, &[1, 0], &[[3, 1, 0, 0, 0]]);
    t.expect("a share of minus 1", below.lend().share(1, 0) == Ok(-1));
    t.expect("a share at the owner", below.lend().share(0, 0) == Err(Refusal::IsOwner));
    let slots = [[1, 0, 1, 0, 0], [2, 1, 0, 0, 0], [3, 2, 0, 1, 0], [2, 1, 0, 0, 0]];
    let mut mixed = Tables::new(3, &[1, 1, 1], &slots);
    let mut wanted: Sheet = [[0; 64]; 3];
    wanted[0][0] = 1;
    wanted[1][0] = 2;
    wanted[2][1] = 1;
    t.expect("a sheet", mixed.lend().sheet(0) == Ok(wanted));
    t.expect("a sheet of pointer 1", mixed.lend().sheet(1) == Err(Refusal::BadName));
}

// Document 02, Three: an INC_DEC behind an older DEC of its pair. Held would turn the DEC down; in order the INC_DEC waits.
fn behind_an_older_dec(t: &mut Tally) {
    let mut lent = InOrder::new(Tables::new(3, &[9, 9, 9], &[[9; 7]; 4]), &[(1, 9)], &[(8, 9)]);
    let mut desk = lent.lend();
    t.expect("in order, it opens", desk.open() == accepted(0));
    t.expect("in order, a copy to 1", desk.make_copy(0, 1, 0) == told(4, 0, Copy { from: 0, to: 1, pointer: 0 }));
    t.expect("in order, it arrives", desk.receive(0) == accepted(0));
    t.expect("in order, a copy to 2", desk.make_copy(0, 2, 0) == told(4, 0, Copy { from: 0, to: 2, pointer: 0 }));
    t.expect("in order, it arrives too", desk.receive(0) == accepted(0));
    t.expect("in order, a delete at 1", desk.delete(1, 0) == told(4, 0, Dec { from: 1, to: 0, pointer: 0 }));
    t.expect("in order, a fresh copy to 1", desk.make_copy(2, 1, 0) == told(3, 1, Copy { from: 2, to: 1, pointer: 0 }));
    t.expect("in order, it arrives as the first", desk.receive(1) == posted(1, IncDec { from: 1, to: 0, third: 2, pointer: 0 }));
    t.expect("in order, the INC_DEC is early", desk.receive(1) == Err(Refusal::OutOfOrder));
    t.expect("in order, the DEC is not", desk.receive(0) == accepted(0));
    t.expect("in order, then the INC_DEC", desk.receive(1) == posted(1, Dec { from: 0, to: 2, pointer: 0 }));
    t.expect("in order, ask", desk.ask(0, 0) == accepted(0));
    let tables = Tables { send: vec![2, 0, 1], ..Tables::new(3, &[1, 1, 1], &[[0; 7], [2, 0, 2, 0, 0, 0, 1], [0; 7], [0; 7]]) };
    let after = InOrder::new(tables, &[(1, 1), (2, 2), (3, 2), (7, 1)], &[(1, 1), (2, 1), (3, 2), (7, 1)]);
    t.expect("in order, the tables after", lent == after);
}

// Document 02, Three: numbers wrap, and stand last in a slot, the high byte first.
fn numbers(t: &mut Tally) {
    let copy = Copy { from: 0, to: 1, pointer: 0 };
    let mut lent = InOrder::new(Tables::new(2, &[1, 0], &[[0; 7]; 2]), &[(1, 65535)], &[(1, 65535)]);
    t.expect("number 65,535", lent.lend().make_copy(0, 1, 0) == told(2, 0, copy));
    t.expect("then number 0", lent.lend().make_copy(0, 1, 0) == told(1, 1, copy));
    t.expect("as slots", lent.tables.pool == [[1, 0, 1, 0, 0, 255, 255], [1, 0, 1, 0, 0, 0, 0]].concat());
    t.expect("and the next", lent.to_post == [0, 1, 0, 0]);
    t.expect("0 waits for 65,535", lent.lend().receive(1) == Err(Refusal::OutOfOrder));
    t.expect("65,535 arrives", lent.lend().receive(0) == accepted(0));
    t.expect("then 0", lent.lend().receive(1) == posted(1, Dec { from: 1, to: 0, pointer: 0 }));
    t.expect("and the next to receive", lent.to_receive == [0, 1, 0, 0] && lent.to_post == [0, 1, 1, 0]);
}

// Document 02, Three: the refusals of the in-order desk.
fn refusals_in_order(t: &mut Tally) {
    let of = |slots: &[[u8; 7]]| InOrder::new(Tables::new(3, &[1, 1, 0], slots), &[], &[]);
    let good = of(&[[0; 7], [1, 0, 2, 0, 0, 0, 0]]);
    let short = InOrder { to_post: vec![0; 8], ..good.clone() };
    let five = InOrder { tables: Tables::new(3, &[1, 1, 0], &[[0; 5]]), ..good.clone() };
    refused_in_order(t, "in order, open, 8 numbers to post", &short, |d| d.open(), Refusal::BadShape);
    refused_in_order(t, "in order, a slot of five bytes", &five, |d| d.make_copy(0, 1, 0), Refusal::BadShape);
    refused_in_order(t, "in order, a number in an empty slot", &of(&[[0, 0, 0, 0, 0, 0, 1]]), |d| d.ask(0, 0), Refusal::BadTable);
    refused_in_order(t, "in order, copy of pointer 1", &good, |d| d.make_copy(0, 1, 1), Refusal::BadName);
    refused_in_order(t, "in order, copy to a full pool", &of(&[[1, 0, 2, 0, 0, 7, 7]]), |d| d.make_copy(0, 1, 0), Refusal::PoolFull);
    refused_in_order(t, "in order, receive of nothing", &good, |d| d.receive(0), Refusal::EmptySlot);
    refused_in_order(t, "in order, number 256 for 0", &of(&[[1, 0, 2, 0, 0, 1, 0]]), |d| d.receive(0), Refusal::OutOfOrder);
    refused_in_order(t, "in order, 21 before 4", &of(&[[1, 1, 1, 0, 0, 0, 1]]), |d| d.receive(0), Refusal::OutOfOrder);
    refused_in_order(t, "in order, 4", &of(&[[1, 1, 1, 0, 0, 0, 0]]), |d| d.receive(0), Refusal::SameSite);
    refused_in_order(t, "in order, 21 before 10", &of(&[[2, 1, 0, 0, 0, 0, 1]]), |d| d.receive(0), Refusal::OutOfOrder);
    refused_in_order(t, "in order, 10", &of(&[[2, 1, 0, 0, 0, 0, 0]]), |d| d.receive(0), Refusal::CounterZero);
    refused_in_order(t, "in order, delete at the owner", &good, |d| d.delete(0, 0), Refusal::IsOwner);
    refused_in_order(t, "in order, ask elsewhere", &good, |d| d.ask(1, 0), Refusal::NotOwner);
}

// Document 02, Three: share and sheet look at no number.
fn share_and_sheet_in_order(t: &mut Tally) {
    let mut below = InOrder::new(Tables::new(2, &[1, 0], &[[3, 1, 0, 0, 0, 1, 2]]), &[], &[]);
    t.expect("in order, a share of minus 1", below.lend().share(1, 0) == Ok(-1));
    t.expect("in order, a share at the owner", below.lend().share(0, 0) == Err(Refusal::IsOwner));
    let mut wanted: Sheet = [[0; 64]; 3];
    wanted[2][0] = 1;
    t.expect("in order, a sheet", below.lend().sheet(0) == Ok(wanted));
    t.expect("in order, a sheet of pointer 1", below.lend().sheet(1) == Err(Refusal::BadName));
}

// Document 02, Five: the fourteen lines on words, with the word after each of them that changes it.
fn fourteen_in_words(t: &mut Tally) {
    let mut lent = InWords::new(3, 9, &[[9; 5]; 4]);
    t.expect("on words, line 1", lent.lend().open() == accepted(0) && lent.words == [1]);
    t.expect("on words, line 2", lent.lend().make_copy(0, 1, 0) == told(4, 0, Copy { from: 0, to: 1, pointer: 0 }) && lent.words == [1]);
    t.expect("on words, line 3", lent.lend().receive(0) == accepted(0) && lent.words == [3]);
    t.expect("on words, line 4", lent.lend().make_copy(1, 2, 0) == told(4, 0, Copy { from: 1, to: 2, pointer: 0 }));
    let inc_dec = IncDec { from: 2, to: 0, third: 1, pointer: 0 };
    t.expect("on words, line 5", lent.lend().receive(0) == posted(0, inc_dec) && lent.words == [7]);
    t.expect("on words, line 6", lent.lend().delete(2, 0) == told(3, 1, Dec { from: 2, to: 0, pointer: 0 }) && lent.words == [3]);
    t.expect("on words, line 7", lent.lend().receive(1) == Err(Refusal::Held));
    t.expect("on words, line 8", lent.lend().ask(0, 0) == accepted(0));
    t.expect("on words, line 9", lent.lend().receive(0) == posted(0, Dec { from: 0, to: 1, pointer: 0 }));
    t.expect("on words, line 10", lent.lend().receive(1) == accepted(1));
    t.expect("on words, line 11", lent.lend().receive(0) == accepted(0));
    t.expect("on words, line 12", lent.lend().delete(1, 0) == told(4, 0, Dec { from: 1, to: 0, pointer: 0 }) && lent.words == [1]);
    t.expect("on words, line 13", lent.lend().receive(0) == accepted(0));
    t.expect("on words, line 14", lent.lend().ask(0, 0) == accepted(1));
    t.expect("on words, the tables after", lent == InWords::new(3, 1, &[[0; 5]; 4]));
}

// Document 02, Five: the refusals of the desk on words.
fn refusals_in_words(t: &mut Tally) {
    let good = InWords::new(3, 3, &[[0; 5], [1, 0, 2, 0, 0]]);
    let full = InWords::new(3, 3, &[[1, 0, 2, 0, 0]]);
    let two = InWords { words: vec![1, 1], ..good.clone() };
    refused_in_words(t, "on words, open, two words", &two, |d| d.open(), Refusal::BadShape);
    refused_in_words(t, "on words, no word", &InWords { words: vec![], ..good.clone() }, |d| d.ask(0, 0), Refusal::BadShape);
    refused_in_words(t, "on words, bit S", &InWords { words: vec![8], ..good.clone() }, |d| d.ask(0, 0), Refusal::BadTable);
    refused_in_words(t, "on words, bit 63", &InWords { words: vec![1 << 63], ..good.clone() }, |d| d.make_copy(0, 1, 0), Refusal::BadTable);
    refused_in_words(t, "on words, copy of pointer 1", &good, |d| d.make_copy(0, 1, 1), Refusal::BadName);
    refused_in_words(t, "on words, copy to its sender", &good, |d| d.make_copy(1, 1, 0), Refusal::SameSite);
    refused_in_words(t, "on words, copy by site 2", &good, |d| d.make_copy(2, 1, 0), Refusal::NotHeld);
    refused_in_words(t, "on words, copy to a full pool", &full, |d| d.make_copy(0, 1, 0), Refusal::PoolFull);
    refused_in_words(t, "on words, receive of nothing", &good, |d| d.receive(0), Refusal::EmptySlot);
    refused_in_words(t, "on words, delete at the owner", &good, |d| d.delete(0, 0), Refusal::IsOwner);
    refused_in_words(t, "on words, delete by site 2", &good, |d| d.delete(2, 0), Refusal::NotHeld);
    refused_in_words(t, "on words, ask elsewhere", &good, |d| d.ask(1, 0), Refusal::NotOwner);
}

// Document 02, Five: share and sheet, and the count of holders.
fn counts_in_words(t: &mut Tally) {
    let mut below = InWords::new(2, 1, &[[3, 1, 0, 0, 0]]);
    t.expect("on words, a share of minus 1", below.lend().share(1, 0) == Ok(-1));
    t.expect("on words, a share at the owner", below.lend().share(0, 0) == Err(Refusal::IsOwner));
    let mut wanted: Sheet = [[0; 64]; 3];
    wanted[2][0] = 1;
    t.expect("on words, a sheet", below.lend().sheet(0) == Ok(wanted));
    t.expect("on words, a sheet of pointer 1", below.lend().sheet(1) == Err(Refusal::BadName));
    let count = |sites, word, pointer| {
        let mut lent = InWords::new(sites, word, &[]);
        let counted = lent.lend().count_holders(pointer);
        (counted, lent == InWords::new(sites, word, &[]))
    };
    t.expect("a count of 7", count(3, 7, 0) == (Ok(3), true));
    t.expect("a count of 0", count(3, 0, 0) == (Ok(0), true));
    t.expect("a count of 64 sites", count(64, u64::MAX, 0) == (Ok(64), true));
    t.expect("a count with bit S", count(3, 8, 0) == (Err(Refusal::BadTable), true));
    t.expect("a count of pointer 1", count(3, 7, 1) == (Err(Refusal::BadName), true));
    t.expect("a count without sites", count(0, 0, 0) == (Err(Refusal::BadShape), true));
}

// Document 02, Five: between receive bytes and words, two pointers; after a refusal nothing is written.
fn packing(t: &mut Tally) {
    let (bytes, packed) = ([1, 0, 0, 1, 1, 1], [5, 6]);
    let (mut words, mut cells) = ([9; 2], [9; 6]);
    t.expect("a byte of 2", pack(3, &[1, 0, 0, 2, 1, 1], &mut words) == Err(Refusal::BadTable) && words == [9, 9]);
    t.expect("a byte too few", pack(3, &bytes[..5], &mut words) == Err(Refusal::BadShape) && words == [9, 9]);
    t.expect("65 sites", pack(65, &[0; 130], &mut words) == Err(Refusal::BadShape) && words == [9, 9]);
    t.expect("257 words", pack(1, &[0; 257], &mut [9; 257]) == Err(Refusal::BadShape));
    t.expect("packed", pack(3, &bytes, &mut words) == Ok(()) && words == packed);
    t.expect("bit S", unpack(3, &[5, 8], &mut cells) == Err(Refusal::BadTable) && cells == [9; 6]);
    t.expect("a word too many", unpack(3, &[5, 6, 0], &mut cells) == Err(Refusal::BadShape) && cells == [9; 6]);
    t.expect("unpacked", unpack(3, &packed, &mut cells) == Ok(()) && cells == bytes);
    let mut all = [9; 64];
    t.expect("64 sites, unpacked", unpack(64, &[u64::MAX], &mut all) == Ok(()) && all == [1; 64]);
    t.expect("64 sites, packed", pack(64, &all, &mut words[..1]) == Ok(()) && words == [u64::MAX, 6]);
}

// Document 01, The address book.
fn books(t: &mut Tally) {
    let book = Book { sites: 2, owners: &[0, 1], entries: b"\x02AB\x01C" };
    t.expect("an address", book.address(0) == Ok(b"AB"));
    t.expect("the last address", book.address(1) == Ok(b"C"));
    t.expect("an address is part of the book", book.address(1).map(|a| a.as_ptr()) == Ok(&book.entries[4]));
    t.expect("an address of pointer 2", book.address(2) == Err(Refusal::BadName));
    t.expect("a check", book.check() == accepted(0));
    t.expect("a check of twins", Book { owners: &[1, 1], entries: b"\x01C\x01C", ..book }.check() == Err(Refusal::Twins));
    t.expect("a check of a short book", Book { entries: b"\x02AB", ..book }.check() == Err(Refusal::BadBook));
    t.expect("a search", book.search(1, b"C") == accepted(1));
    t.expect("a search by another owner", book.search(0, b"C") == Err(Refusal::NotListed));
    t.expect("a search by no site", book.search(2, b"C") == Err(Refusal::BadName));
}

// Empty slices: no pointer, no slot, no entry, no address.
fn empty_slices(t: &mut Tally) {
    let none = Tables { sites: 2, owners: vec![], send: vec![], receive: vec![], pool: vec![] };
    t.expect("an empty desk opens", none.clone().lend().open() == accepted(0));
    refused(t, "an empty desk, copy", &none, |d| d.make_copy(0, 1, 0), Refusal::BadName);
    refused(t, "an empty desk, receive", &none, |d| d.receive(0), Refusal::BadName);
    refused(t, "an empty desk, delete", &none, |d| d.delete(1, 0), Refusal::BadName);
    refused(t, "an empty desk, ask", &none, |d| d.ask(0, 0), Refusal::BadName);
    t.expect("an empty desk, share", none.clone().lend().share(1, 0) == Err(Refusal::BadName));
    t.expect("an empty desk, sheet", none.clone().lend().sheet(0) == Err(Refusal::BadName));
    let numbered = InOrder::new(none.clone(), &[], &[]);
    t.expect("in order, an empty desk opens", numbered.clone().lend().open() == accepted(0));
    refused_in_order(t, "in order, an empty desk, copy", &numbered, |d| d.make_copy(0, 1, 0), Refusal::BadName);
    refused_in_order(t, "in order, an empty desk, receive", &numbered, |d| d.receive(0), Refusal::BadName);
    let none_at_all = InOrder { to_post: vec![], to_receive: vec![], tables: none };
    refused_in_order(t, "in order, no numbers", &none_at_all, |d| d.open(), Refusal::BadShape);
    let mut worded = InWords { words: vec![], tables: Tables { sites: 2, owners: vec![], send: vec![], receive: vec![], pool: vec![] } };
    refused_in_words(t, "on words, an empty desk, copy", &worded, |d| d.make_copy(0, 1, 0), Refusal::BadName);
    t.expect("on words, an empty desk opens", worded.lend().open() == accepted(0));
    t.expect("on words, an empty desk, count", worded.lend().count_holders(0) == Err(Refusal::BadName));
    t.expect("nothing is packed and unpacked", pack(1, &[], &mut []) == Ok(()) && unpack(64, &[], &mut []) == Ok(()));
    let book = Book { sites: 1, owners: &[], entries: &[] };
    t.expect("an empty book, address", book.address(0) == Err(Refusal::BadName));
    t.expect("an empty book, check", book.check() == accepted(0));
    t.expect("an empty book, search", book.search(0, &[]) == Err(Refusal::NotListed));
}

// Document 01, Lines: a call as a line, and the reader at a place.
fn lines(t: &mut Tally) {
    for call in [[1, 0, 63, 255], [2, 3, 255, 0], [3, 42, 9, 0], [4, 0, 171, 0]] {
        let mut text = *b"--------------";
        t.expect("a call is written", write_line(call, &mut text) == accepted(0));
        let digits: String = call.iter().map(|byte| format!("{:02X}", byte)).collect();
        t.expect("its line", text[..8] == *digits.as_bytes() && text[8..] == *b"\n-----");
        t.expect("and it is read", read_line(&text, 0) == Next::Line { said: Ok(call), at: 9 });
        for length in 0..9 {
            let mut short = text;
            t.expect("a short text", write_line([1, 7, 7, 7], &mut short[..length]) == Err(Refusal::BadShape));
            t.expect("stays", short == text);
        }
    }
    let refusals = [([0, 0, 0, 0], Refusal::UnknownCode), ([128, 0, 0, 0], Refusal::PrivateCode), ([2, 0, 0, 1], Refusal::BadLine)];
    for (call, why) in refusals {
        let mut text = *b"---------";
        t.expect("no call", write_line(call, &mut text) == Err(why) && text == *b"---------");
        t.expect("no call, no text", write_line(call, &mut []) == Err(why));
    }
    let text = b"00000000\n\n04000000";
    t.expect("a refused line", read_line(text, 0) == Next::Line { said: Err(Refusal::UnknownCode), at: 9 });
    t.expect("an empty line", read_line(text, 9) == Next::Line { said: Err(Refusal::BadLine), at: 10 });
    t.expect("a line without newline", read_line(text, 10) == Next::Line { said: Ok([4, 0, 0, 0]), at: 18 });
    t.expect("the end", read_line(text, 18) == Next::Ended);
    t.expect("past the end", read_line(text, usize::MAX) == Next::Ended);
    t.expect("nothing", read_line(&[], 0) == Next::Ended);
}

// Document 01, Lines: the program as a call.
fn runs(t: &mut Tally) {
    let (input, wanted) = (include_bytes!("../../cases/fourteen.in"), include_bytes!("../../cases/fourteen.out"));
    let mut output = vec![0xA5; RUN_ROOM + 1];
    t.expect("a run", run(input, &mut output) == Some(wanted));
    t.expect("a run of nothing", run(&[], &mut output) == Some(&[]));
    let mut short = vec![0xA5; RUN_ROOM - 1];
    t.expect("a run without room", run(input, &mut short).is_none() && short.iter().all(|&b| b == 0xA5));
    t.expect("a run into nothing", run(input, &mut []).is_none());
}

// The desk that owns its tables answers as the one that is lent them; its limits are those of an opening.
fn owning(t: &mut Tally) {
    let largest = (MAX_SITES as u8, [0; MAX_POINTERS], MAX_SLOTS as u16);
    t.expect("owning, the largest", Desk::new(largest.0, &largest.1, largest.2).is_ok());
    t.expect("owning, 65 sites", Desk::new(largest.0 + 1, &[0], 1) == Err(Refusal::BadShape));
    t.expect("owning, no site", Desk::new(0, &[], 0) == Err(Refusal::BadShape));
    t.expect("owning, 257 pointers", Desk::new(2, &[0; MAX_POINTERS + 1], 1) == Err(Refusal::BadShape));
    t.expect("owning, 1,025 slots", Desk::new(2, &[0], largest.2 + 1) == Err(Refusal::BadShape));
    t.expect("owning, an owner of 2", Desk::new(2, &[2], 1) == Err(Refusal::BadTable));
    let mut tables = Tables::new(3, &[9, 9, 9], &[[9; SLOT_BYTES]; 2]);
    let (mut desk, mut lent) = (Desk::new(3, &[0], 2).expect("it opens"), tables.lend());
    t.expect("owning, opened", desk.open() == lent.open());
    t.expect("owning, a copy", desk.make_copy(0, 1, 0) == lent.make_copy(0, 1, 0));
    t.expect("owning, in its slot", desk.message(0) == Some(Copy { from: 0, to: 1, pointer: 0 }) && desk.message(1).is_none() && desk.message(2).is_none());
    t.expect("owning, received", desk.receive(0) == lent.receive(0));
    t.expect("owning, a delete", desk.delete(1, 0) == lent.delete(1, 0));
    t.expect("owning, a share", desk.share(1, 0) == lent.share(1, 0));
    t.expect("owning, a sheet", desk.sheet(0) == lent.sheet(0));
    t.expect("owning, ask", desk.ask(0, 0) == lent.ask(0, 0) && desk.ask(0, 0) == accepted(0));
    t.expect("owning, refused", desk.ask(1, 0) == Err(Refusal::NotOwner));
}

// The same in order, where a message has a number too.
fn owning_in_order(t: &mut Tally) {
    t.expect("owning in order, 65 sites", DeskInOrder::new(65, &[0], 1) == Err(Refusal::BadShape));
    t.expect("owning in order, 257 pointers", DeskInOrder::new(2, &[0; 257], 1) == Err(Refusal::BadShape));
    let mut tables = InOrder::new(Tables::new(3, &[9, 9, 9], &[[9; ORDERED_SLOT_BYTES]; 2]), &[], &[]);
    let (mut desk, mut lent) = (DeskInOrder::new(3, &[0], 2).expect("it opens"), tables.lend());
    t.expect("owning in order, opened", desk.open() == lent.open());
    t.expect("owning in order, copies", desk.make_copy(0, 1, 0) == lent.make_copy(0, 1, 0) && desk.make_copy(0, 1, 0) == lent.make_copy(0, 1, 0));
    t.expect("owning in order, in its slot", desk.message(1) == Some(Copy { from: 0, to: 1, pointer: 0 }) && desk.message(2).is_none());
    t.expect("owning in order, its number", desk.number(0) == Some(0) && desk.number(1) == Some(1) && desk.number(2).is_none());
    t.expect("owning in order, early", desk.receive(1) == Err(Refusal::OutOfOrder) && lent.receive(1) == Err(Refusal::OutOfOrder));
    t.expect("owning in order, received", desk.receive(0) == lent.receive(0) && desk.number(0).is_none());
    t.expect("owning in order, a delete", desk.delete(1, 0) == lent.delete(1, 0));
    t.expect("owning in order, a share", desk.share(1, 0) == lent.share(1, 0));
    t.expect("owning in order, a sheet", desk.sheet(0) == lent.sheet(0));
    t.expect("owning in order, ask", desk.ask(0, 0) == lent.ask(0, 0) && desk.ask(0, 0) == accepted(0));
}

// The same on words, where holders are counted too.
fn owning_in_words(t: &mut Tally) {
    t.expect("owning on words, the largest", DeskInWords::new(64, &[63; MAX_POINTERS], MAX_SLOTS as u16).is_ok());
    t.expect("owning on words, 65 sites", DeskInWords::new(65, &[0], 1) == Err(Refusal::BadShape));
    t.expect("owning on words, 257 pointers", DeskInWords::new(2, &[0; 257], 1) == Err(Refusal::BadShape));
    let mut tables = InWords::new(3, 9, &[[9; SLOT_BYTES]; 2]);
    let (mut desk, mut lent) = (DeskInWords::new(3, &[0], 2).expect("it opens"), tables.lend());
    t.expect("owning on words, opened", desk.open() == lent.open());
    t.expect("owning on words, a copy", desk.make_copy(0, 1, 0) == lent.make_copy(0, 1, 0));
    t.expect("owning on words, in its slot", desk.message(0) == Some(Copy { from: 0, to: 1, pointer: 0 }) && desk.message(1).is_none());
    t.expect("owning on words, received", desk.receive(0) == lent.receive(0) && desk.count_holders(0) == Ok(2));
    t.expect("owning on words, a delete", desk.delete(1, 0) == lent.delete(1, 0) && desk.count_holders(0) == Ok(1));
    t.expect("owning on words, a share", desk.share(1, 0) == lent.share(1, 0));
    t.expect("owning on words, a sheet", desk.sheet(0) == lent.sheet(0));
    t.expect("owning on words, ask", desk.ask(0, 0) == lent.ask(0, 0) && desk.ask(0, 0) == accepted(0));
}

// A refusal in words, as any error.
fn words(t: &mut Tally) {
    let error: Box<dyn std::error::Error> = Refusal::PoolFull.into();
    t.expect("a refusal in words", error.to_string() == "7, PoolFull: no slot is empty");
    t.expect("an unlisted one", Refusal::Unlisted(99).to_string() == "99: a number that this module does not list");
}

fn main() {
    let mut t = Tally { passed: 0, failed: 0 };
    fourteen(&mut t);
    refusals(&mut t);
    counts(&mut t);
    share_and_sheet(&mut t);
    behind_an_older_dec(&mut t);
    numbers(&mut t);
    refusals_in_order(&mut t);
    share_and_sheet_in_order(&mut t);
    fourteen_in_words(&mut t);
    refusals_in_words(&mut t);
    counts_in_words(&mut t);
    packing(&mut t);
    books(&mut t);
    empty_slices(&mut t);
    lines(&mut t);
    runs(&mut t);
    owning(&mut t);
    owning_in_order(&mut t);
    owning_in_words(&mut t);
    words(&mut t);
    let listed: Vec<u8> = Refusal::LISTED.iter().map(|r| r.number()).collect();
    t.expect("the numbers are 1 to 21", listed == (1..=21).collect::<Vec<u8>>());
    println!("{} passed, {} failed", t.passed, t.failed);
    std::process::exit((t.failed != 0 || t.passed == 0) as i32);
}
