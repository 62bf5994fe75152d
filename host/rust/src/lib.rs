//! The pointer desk: tells an owner when nobody elsewhere still points at an object, so that it may be dropped.
//!
//! [`Desk`] owns its tables; [`DeskInOrder`] is the one for links that deliver in order, [`DeskInWords`] keeps who holds a pointer in one word.
//! [`Lent`], [`LentInOrder`] and [`LentInWords`] make the same calls over tables that a host keeps itself. Each call is proved to answer as the
//! documents say, for all tables and all numbers; it is refused by a [`Refusal`], and then nothing has changed. The calls keep no state,
//! allocate nothing and look at all of the tables.
// A release has the module as src/desk.rs, and not this line.
#[path = "../../pointer_desk.rs"]
mod desk;

pub use desk::*;
