// An example host that hears of a crowded pool before a copy is turned down (document 02, One). It ends with 1 where none is.
#[allow(dead_code)]
mod pointer_desk;

use pointer_desk::{Accepted, Answer, Lent, Refusal};

// Site 0 owns a net and sends every other site a copy; nobody receives; four messages have room.
const SITES: usize = 6;
const SLOTS: usize = 4;
const NET: u8 = 0;
const FEW: u16 = 2;

// An accepted copy tells how many slots were empty before it took one.
fn words(a: Answer) -> String {
    match a {
        Err(refusal) => format!("refused: {}", refusal.number()),
        Ok(Accepted { empty: None, .. }) => "accepted, and no count told".to_string(),
        Ok(Accepted { empty: Some(empty), .. }) => {
            let warning = if empty.get() <= FEW { "  WARNING: the pool is nearly full" } else { "" };
            format!("slots left: {}{}", empty.get() - 1, warning)
        }
    }
}

fn main() {
    let (mut send, mut receive, mut pool) = ([0; SITES], [0; SITES], [0; SLOTS * 5]);
    let mut desk = Lent { sites: SITES as u8, owners: &[0], send: &mut send, receive: &mut receive, pool: &mut pool };
    let mut last = desk.open();
    for site in 1..SITES as u8 {
        if last.is_ok() {
            last = desk.make_copy(0, site, NET);
            println!("copy to site {}  {}", site, words(last));
        }
    }
    std::process::exit((last != Err(Refusal::PoolFull)) as i32);
}
