// Two sites; one pointer, which site 0 owns; room for one message.
use pointer_desk::{Desk, Refusal};

fn main() -> Result<(), Refusal> {
    let mut desk = Desk::new(2, &[0], 1)?;
    let copied = desk.make_copy(0, 1, 0)?; // from site 0 to site 1, pointer 0
    println!("{:?} in slot {}", copied.message, copied.value);
    println!("ask says {}", desk.ask(0, 0)?.value); // site 0 asks for pointer 0
    if let Err(refusal) = desk.make_copy(0, 1, 0) {
        println!("refused: {}", refusal);
    }
    Ok(())
}
