// An example host: the late copy. It prints the story, and ends with 1 where an answer is not what the story needs.
#[allow(dead_code)]
mod pointer_desk;

use std::num::NonZeroU16;

use pointer_desk::{Accepted, Answer, Lent, Message, Refusal};

const NET: u8 = 0;

// The answers that the story needs: `empty` of 0 is not told.
fn answer(value: u16, empty: u16, message: Option<Message>) -> Answer {
    Ok(Accepted { value, empty: NonZeroU16::new(empty), message })
}

fn slot(value: u16) -> Answer {
    answer(value, 0, None)
}

fn copy(value: u16, empty: u16, from: u8, to: u8) -> Answer {
    answer(value, empty, Some(Message::Copy { from, to, pointer: NET }))
}

fn dec(value: u16, empty: u16, from: u8, to: u8) -> Answer {
    answer(value, empty, Some(Message::Dec { from, to, pointer: NET }))
}

fn words(a: Answer) -> String {
    match a {
        Err(refusal) => format!("refused: {}, {:?}", refusal.number(), refusal),
        Ok(Accepted { message: None, .. }) => "accepted".to_string(),
        Ok(Accepted { value, message: Some(posted), .. }) => {
            let (kind, from, to) = match posted {
                Message::Copy { from, to, .. } => ("COPY", from, to),
                Message::Dec { from, to, .. } => ("DEC", from, to),
                Message::IncDec { from, to, .. } => ("INC_DEC", from, to),
            };
            format!("accepted: {} from {} to {} in slot {}", kind, from, to, value)
        }
    }
}

// One line of the story; another answer than the needed one ends it.
fn line(what: &str, right: bool, said: &str) {
    println!("{:<44} {}", what, if right { said } else { "NOT WHAT THE STORY NEEDS" });
    if !right {
        std::process::exit(1);
    }
}

fn tell(what: &str, given: Answer, needed: Answer) {
    line(what, given == needed, &words(given));
}

fn ask(desk: &Lent, needed: u16) {
    let said = if needed == 1 { "1: yes" } else { "0: no" };
    line("  site 0 asks: may I drop the net?", desk.ask(0, NET) == slot(needed), said);
}

fn main() {
    let (mut send, mut receive, mut pool) = ([0; 3], [0; 3], [0; 4 * 5]);
    let mut desk = Lent { sites: 3, owners: &[0], send: &mut send, receive: &mut receive, pool: &mut pool };
    println!("A motor controller's layout lies on three sites. Site 0 owns a net, and the others may point at it.\n");
    tell("the desk opens", desk.open(), slot(0));
    tell("site 0 sends site 1 a copy, and it is late", desk.make_copy(0, 1, NET), copy(0, 4, 0, 1));
    tell("site 0 sends site 2 a copy", desk.make_copy(0, 2, NET), copy(1, 3, 0, 2));
    tell("that copy arrives", desk.receive(1), slot(1));
    tell("site 2 is done and deletes its pointer", desk.delete(2, NET), dec(1, 3, 2, 0));
    tell("site 2 would still send site 1 a copy", desk.make_copy(2, 1, NET), Err(Refusal::NotHeld));
    tell("the DEC of site 2 arrives", desk.receive(1), slot(1));
    ask(&desk, 0);
    println!("\nNo other site holds the pointer now. The desk of the withdrawn report said yes here,");
    println!("and the late copy made two buses into one.\n");
    tell("the late copy arrives at site 1", desk.receive(0), slot(0));
    ask(&desk, 0);
    tell("site 1 is done and deletes its pointer", desk.delete(1, NET), dec(0, 4, 1, 0));
    ask(&desk, 0);
    tell("the DEC of site 1 arrives", desk.receive(0), slot(0));
    ask(&desk, 1);
}
