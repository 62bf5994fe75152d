// The desk for Rust: pointer_desk.h, declared and wrapped. Slices in, enums out; the desk keeps nothing.
// With cargo it is the crate host/rust. Without, a host says `#[allow(dead_code)] mod pointer_desk;`, since few hosts make every call.

use std::fmt;
use std::num::NonZeroU16;

// Why a call is turned down: words, names and numbers, said once. A number that is not listed keeps its number.
macro_rules! refusals {
    ($(#[doc = $words:literal] $name:ident = $number:literal,)*) => {
        /// Why a call is turned down. After a refusal all lent memory holds what it held.
        #[derive(Clone, Copy, Debug, PartialEq, Eq, Hash)]
        pub enum Refusal {
            $(#[doc = $words] $name,)*
            /// a number that this module does not list
            Unlisted(u8),
        }

        impl Refusal {
            /// All that document 01 and the requests that have landed list.
            pub const LISTED: &'static [Refusal] = &[$(Refusal::$name,)*];

            /// Its number in document 01.
            pub fn number(self) -> u8 {
                match self {
                    $(Refusal::$name => $number,)*
                    Refusal::Unlisted(number) => number,
                }
            }

            // Its reason, as documented above.
            fn words(self) -> &'static str {
                match self {
                    $(Refusal::$name => $words,)*
                    Refusal::Unlisted(_) => " a number that this module does not list",
                }
            }

            // The refusal of a number; none for 0.
            fn of(number: u8) -> Option<Refusal> {
                match number {
                    0 => None,
                    $($number => Some(Refusal::$name),)*
                    other => Some(Refusal::Unlisted(other)),
                }
            }
        }
    };
}

refusals! {
    /// S, G, a length or the slot count is out of bounds
    BadShape = 1,
    /// an owner, a receive byte or word, or a slot is none
    BadTable = 2,
    /// a site, pointer or slot number of the call is too large
    BadName = 3,
    /// sender and receiver are the same site
    SameSite = 4,
    /// the site does not hold the pointer
    NotHeld = 5,
    /// a counter to be raised stands at 65,535
    CounterFull = 6,
    /// no slot is empty
    PoolFull = 7,
    /// the slot is empty
    EmptySlot = 8,
    /// an INC_DEC of the same sender, receiver and pointer comes first
    Held = 9,
    /// a DEC to a counter at 0
    CounterZero = 10,
    /// the site owns the pointer
    IsOwner = 11,
    /// the site's counter is not 0
    StillCounted = 12,
    /// the site does not own the pointer
    NotOwner = 13,
    /// the line breaks the form
    BadLine = 14,
    /// no call has this code
    UnknownCode = 15,
    /// the code is a private one
    PrivateCode = 16,
    /// the input is above 8,192 bytes
    TooLong = 17,
    /// the book is not exactly G entries
    BadBook = 18,
    /// two pointers have equal owner and equal address
    Twins = 19,
    /// no pointer has the wanted owner and address
    NotListed = 20,
    /// the message is not the next of its pair
    OutOfOrder = 21,
}

impl fmt::Display for Refusal {
    fn fmt(&self, f: &mut fmt::Formatter<'_>) -> fmt::Result {
        match self {
            Refusal::Unlisted(number) => write!(f, "{}:{}", number, self.words()),
            listed => write!(f, "{}, {:?}:{}", listed.number(), listed, listed.words()),
        }
    }
}

impl std::error::Error for Refusal {}

/// The largest desk that opens; an opening needs at least one site.
pub const MAX_SITES: usize = 64;
/// The most pointers of a desk.
pub const MAX_POINTERS: usize = 256;
/// The most slots of a pool.
pub const MAX_SLOTS: usize = 1_024;
/// The bytes of a slot: kind (1 COPY, 2 DEC, 3 INC_DEC), from, to, third, pointer.
pub const SLOT_BYTES: usize = 5;
/// The bytes of a slot of the in-order desk: the same, then the message's number, high byte first.
pub const ORDERED_SLOT_BYTES: usize = 7;

/// A posted message (document 01, The calls).
#[derive(Clone, Copy, Debug, PartialEq, Eq)]
pub enum Message {
    Copy { from: u8, to: u8, pointer: u8 },
    Dec { from: u8, to: u8, pointer: u8 },
    IncDec { from: u8, to: u8, third: u8, pointer: u8 },
}

/// An accepted call: its value, the message that it posted, and how many slots were empty before: make copy and delete tell it.
#[derive(Clone, Copy, Debug, PartialEq, Eq)]
pub struct Accepted {
    pub value: u16,
    pub empty: Option<NonZeroU16>,
    pub message: Option<Message>,
}

/// What a call answers.
pub type Answer = Result<Accepted, Refusal>;

/// Rows for COPY, DEC and INC_DEC, with a column for each site: the one whose counter a message acts on (document 01, Share and sheet; document 02, Two).
pub type Sheet = [[u32; 64]; 3];

/// The four bytes of a call (document 01, Lines).
pub type CallBytes = [u8; 4];

/// What a reader answers: what the line at its place says, and the place past it; or that it has ended, and stays.
#[derive(Clone, Copy, Debug, PartialEq, Eq)]
pub enum Next {
    Line { said: Result<CallBytes, Refusal>, at: usize },
    Ended,
}

/// How long the output of a run must be.
pub const RUN_ROOM: usize = 139_264;

/// What the host lends: G owners, S x G counters and cells, slots of five bytes (document 01, What the host lends).
pub struct Lent<'a> {
    pub sites: u8,
    pub owners: &'a [u8],
    pub send: &'a mut [u16],
    pub receive: &'a mut [u8],
    pub pool: &'a mut [u8],
}

/// What the host lends to the in-order desk: slots of seven bytes, and the next numbers to post and to receive, pair (a, b) at a x S + b
/// (document 02, Three). The number of a posted message is read in slot `value` of the pool.
pub struct LentInOrder<'a> {
    pub sites: u8,
    pub owners: &'a [u8],
    pub send: &'a mut [u16],
    pub receive: &'a mut [u8],
    pub pool: &'a mut [u8],
    pub to_post: &'a mut [u16],
    pub to_receive: &'a mut [u16],
}

/// What the host lends to the desk on words: in place of the receive bytes a word for each pointer, site s at bit s (document 02, Five).
pub struct LentInWords<'a> {
    pub sites: u8,
    pub owners: &'a [u8],
    pub send: &'a mut [u16],
    pub words: &'a mut [u64],
    pub pool: &'a mut [u8],
}

/// An address book, with S and the owners of its pointers (document 01, The address book).
#[derive(Clone, Copy)]
pub struct Book<'a> {
    pub sites: u8,
    pub owners: &'a [u8],
    pub entries: &'a [u8],
}

#[repr(C)]
struct CAnswer {
    number: u8,
    value: u16,
    empty: u16,
    message: [u8; 5],
}

#[repr(C)]
struct COrderedAnswer {
    number: u8,
    value: u16,
    empty: u16,
    message: [u8; 5],
}

#[repr(C)]
struct CShare {
    number: u8,
    share: i32,
}

#[repr(C)]
struct CPart {
    number: u8,
    at: usize,
    length: usize,
}

#[repr(C)]
struct CLine {
    number: u8,
    ended: u8,
    call: CallBytes,
    at: usize,
}

// The library's calls. A compiler before 1.82 knows no `unsafe extern`, and is told so: `--cfg before_1_82`, which the crate's build.rs gives.
macro_rules! library {
    ($($declared:tt)*) => {
        #[cfg(not(before_1_82))]
        #[link(name = "pointer_desk", kind = "static")]
        unsafe extern "C" {
            $($declared)*
        }

        #[cfg(before_1_82)]
        #[link(name = "pointer_desk", kind = "static")]
        extern "C" {
            $($declared)*
        }
    };
}

library! {
    fn desk_open(
        sites: u8, owners: *const u8, owners_len: usize, send: *mut u16, send_len: usize,
        receive: *mut u8, receive_len: usize, pool: *mut u8, pool_len: usize,
    ) -> CAnswer;
    fn desk_make_copy(
        sites: u8, owners: *const u8, owners_len: usize, send: *mut u16, send_len: usize,
        receive: *const u8, receive_len: usize, pool: *mut u8, pool_len: usize, from: u8, to: u8, pointer: u8,
    ) -> CAnswer;
    fn desk_receive(
        sites: u8, owners: *const u8, owners_len: usize, send: *mut u16, send_len: usize,
        receive: *mut u8, receive_len: usize, pool: *mut u8, pool_len: usize, slot: u16,
    ) -> CAnswer;
    fn desk_delete(
        sites: u8, owners: *const u8, owners_len: usize, send: *const u16, send_len: usize,
        receive: *mut u8, receive_len: usize, pool: *mut u8, pool_len: usize, site: u8, pointer: u8,
    ) -> CAnswer;
    fn desk_ask(
        sites: u8, owners: *const u8, owners_len: usize, send: *const u16, send_len: usize,
        receive: *const u8, receive_len: usize, pool: *const u8, pool_len: usize, site: u8, pointer: u8,
    ) -> CAnswer;
    fn desk_share(
        sites: u8, owners: *const u8, owners_len: usize, send: *const u16, send_len: usize,
        receive: *const u8, receive_len: usize, pool: *const u8, pool_len: usize, site: u8, pointer: u8,
    ) -> CShare;
    fn desk_sheet(
        sites: u8, owners: *const u8, owners_len: usize, send: *const u16, send_len: usize,
        receive: *const u8, receive_len: usize, pool: *const u8, pool_len: usize, pointer: u8,
        sheet: *mut u32, sheet_len: usize,
    ) -> u8;
    fn desk_ordered_open(
        sites: u8, owners: *const u8, owners_len: usize, send: *mut u16, send_len: usize,
        receive: *mut u8, receive_len: usize, pool: *mut u8, pool_len: usize,
        to_post: *mut u16, to_post_len: usize, to_receive: *mut u16, to_receive_len: usize,
    ) -> COrderedAnswer;
    fn desk_ordered_make_copy(
        sites: u8, owners: *const u8, owners_len: usize, send: *mut u16, send_len: usize,
        receive: *const u8, receive_len: usize, pool: *mut u8, pool_len: usize,
        to_post: *mut u16, to_post_len: usize, to_receive: *const u16, to_receive_len: usize, from: u8, to: u8, pointer: u8,
    ) -> COrderedAnswer;
    fn desk_ordered_receive(
        sites: u8, owners: *const u8, owners_len: usize, send: *mut u16, send_len: usize,
        receive: *mut u8, receive_len: usize, pool: *mut u8, pool_len: usize,
        to_post: *mut u16, to_post_len: usize, to_receive: *mut u16, to_receive_len: usize, slot: u16,
    ) -> COrderedAnswer;
    fn desk_ordered_delete(
        sites: u8, owners: *const u8, owners_len: usize, send: *const u16, send_len: usize,
        receive: *mut u8, receive_len: usize, pool: *mut u8, pool_len: usize,
        to_post: *mut u16, to_post_len: usize, to_receive: *const u16, to_receive_len: usize, site: u8, pointer: u8,
    ) -> COrderedAnswer;
    fn desk_ordered_ask(
        sites: u8, owners: *const u8, owners_len: usize, send: *const u16, send_len: usize,
        receive: *const u8, receive_len: usize, pool: *const u8, pool_len: usize,
        to_post: *const u16, to_post_len: usize, to_receive: *const u16, to_receive_len: usize, site: u8, pointer: u8,
    ) -> COrderedAnswer;
    fn desk_ordered_share(
        sites: u8, owners: *const u8, owners_len: usize, send: *const u16, send_len: usize,
        receive: *const u8, receive_len: usize, pool: *const u8, pool_len: usize,
        to_post: *const u16, to_post_len: usize, to_receive: *const u16, to_receive_len: usize, site: u8, pointer: u8,
    ) -> CShare;
    fn desk_ordered_sheet(
        sites: u8, owners: *const u8, owners_len: usize, send: *const u16, send_len: usize,
        receive: *const u8, receive_len: usize, pool: *const u8, pool_len: usize,
        to_post: *const u16, to_post_len: usize, to_receive: *const u16, to_receive_len: usize, pointer: u8,
        sheet: *mut u32, sheet_len: usize,
    ) -> u8;
    fn desk_words_open(
        sites: u8, owners: *const u8, owners_len: usize, send: *mut u16, send_len: usize,
        words: *mut u64, words_len: usize, pool: *mut u8, pool_len: usize,
    ) -> CAnswer;
    fn desk_words_make_copy(
        sites: u8, owners: *const u8, owners_len: usize, send: *mut u16, send_len: usize,
        words: *const u64, words_len: usize, pool: *mut u8, pool_len: usize, from: u8, to: u8, pointer: u8,
    ) -> CAnswer;
    fn desk_words_receive(
        sites: u8, owners: *const u8, owners_len: usize, send: *mut u16, send_len: usize,
        words: *mut u64, words_len: usize, pool: *mut u8, pool_len: usize, slot: u16,
    ) -> CAnswer;
    fn desk_words_delete(
        sites: u8, owners: *const u8, owners_len: usize, send: *const u16, send_len: usize,
        words: *mut u64, words_len: usize, pool: *mut u8, pool_len: usize, site: u8, pointer: u8,
    ) -> CAnswer;
    fn desk_words_ask(
        sites: u8, owners: *const u8, owners_len: usize, send: *const u16, send_len: usize,
        words: *const u64, words_len: usize, pool: *const u8, pool_len: usize, site: u8, pointer: u8,
    ) -> CAnswer;
    fn desk_words_count(
        sites: u8, owners: *const u8, owners_len: usize, send: *const u16, send_len: usize,
        words: *const u64, words_len: usize, pool: *const u8, pool_len: usize, pointer: u8,
    ) -> CAnswer;
    fn desk_words_share(
        sites: u8, owners: *const u8, owners_len: usize, send: *const u16, send_len: usize,
        words: *const u64, words_len: usize, pool: *const u8, pool_len: usize, site: u8, pointer: u8,
    ) -> CShare;
    fn desk_words_sheet(
        sites: u8, owners: *const u8, owners_len: usize, send: *const u16, send_len: usize,
        words: *const u64, words_len: usize, pool: *const u8, pool_len: usize, pointer: u8,
        sheet: *mut u32, sheet_len: usize,
    ) -> u8;
    fn desk_words_pack(sites: u8, receive: *const u8, receive_len: usize, words: *mut u64, words_len: usize) -> u8;
    fn desk_words_unpack(sites: u8, words: *const u64, words_len: usize, receive: *mut u8, receive_len: usize) -> u8;
    fn desk_book_address(
        sites: u8, owners: *const u8, owners_len: usize, book: *const u8, book_len: usize, pointer: u8,
    ) -> CPart;
    fn desk_book_check(
        sites: u8, owners: *const u8, owners_len: usize, book: *const u8, book_len: usize,
    ) -> CAnswer;
    fn desk_book_search(
        sites: u8, owners: *const u8, owners_len: usize, book: *const u8, book_len: usize,
        owner: u8, address: *const u8, address_len: usize,
    ) -> CAnswer;
    fn desk_line_write(code: u8, a: u8, b: u8, c: u8, text: *mut u8, text_len: usize) -> CAnswer;
    fn desk_line_read(text: *const u8, text_len: usize, at: usize) -> CLine;
    fn desk_run(input: *const u8, input_len: usize, output: *mut u8, output_len: usize) -> usize;
}

// A call that may write what is lent; who holds stands in the part of this name.
macro_rules! writing_with {
    ($cells:ident, $call:ident, $lent:expr $(, $argument:expr)*) => {
        // Safe: each pointer is a slice's, with that slice's own length, and `&mut` lets nobody else at it.
        unsafe {
            $call(
                $lent.sites, $lent.owners.as_ptr(), $lent.owners.len(), $lent.send.as_mut_ptr(), $lent.send.len(),
                $lent.$cells.as_mut_ptr(), $lent.$cells.len(), $lent.pool.as_mut_ptr(), $lent.pool.len(),
                $($argument),*
            )
        }
    };
}

// A call that only reads what is lent.
macro_rules! reading_with {
    ($cells:ident, $call:ident, $lent:expr $(, $argument:expr)*) => {
        // Safe: each pointer is a slice's, with that slice's own length, and the call takes the parts as const.
        unsafe {
            $call(
                $lent.sites, $lent.owners.as_ptr(), $lent.owners.len(), $lent.send.as_ptr(), $lent.send.len(),
                $lent.$cells.as_ptr(), $lent.$cells.len(), $lent.pool.as_ptr(), $lent.pool.len(),
                $($argument),*
            )
        }
    };
}

// The same of the desk of document 01, and of the desk on words.
macro_rules! writing {
    ($($call:tt)*) => { writing_with!(receive, $($call)*) };
}

macro_rules! reading {
    ($($call:tt)*) => { reading_with!(receive, $($call)*) };
}

macro_rules! writing_in_words {
    ($($call:tt)*) => { writing_with!(words, $($call)*) };
}

macro_rules! reading_in_words {
    ($($call:tt)*) => { reading_with!(words, $($call)*) };
}

// The same of the in-order desk: its tables of numbers come after the pool, each a slice and its length.
macro_rules! writing_in_order {
    ($call:ident, $lent:expr $(, $argument:expr)*) => {
        writing!(
            $call, $lent, $lent.to_post.as_mut_ptr(), $lent.to_post.len(),
            $lent.to_receive.as_mut_ptr(), $lent.to_receive.len() $(, $argument)*
        )
    };
}

macro_rules! reading_in_order {
    ($call:ident, $lent:expr $(, $argument:expr)*) => {
        reading!(
            $call, $lent, $lent.to_post.as_ptr(), $lent.to_post.len(),
            $lent.to_receive.as_ptr(), $lent.to_receive.len() $(, $argument)*
        )
    };
}

// A question to the book.
macro_rules! asking {
    ($call:ident, $book:expr $(, $argument:expr)*) => {
        // Safe: each pointer is a slice's, with that slice's own length, and the call takes the parts as const.
        unsafe {
            $call(
                $book.sites, $book.owners.as_ptr(), $book.owners.len(), $book.entries.as_ptr(), $book.entries.len(),
                $($argument),*
            )
        }
    };
}

impl Message {
    // A message of its slot bytes; none for an empty slot. The desk posts no other bytes.
    fn of(slot: [u8; 5]) -> Option<Message> {
        match slot {
            [0, 0, 0, 0, 0] => None,
            [1, from, to, 0, pointer] => Some(Message::Copy { from, to, pointer }),
            [2, from, to, 0, pointer] => Some(Message::Dec { from, to, pointer }),
            [3, from, to, third, pointer] => Some(Message::IncDec { from, to, third, pointer }),
            other => panic!("no message of document 01: {:?}", other),
        }
    }
}

// What was asked for, or why it was turned down.
fn unless_refused<T>(number: u8, asked: impl FnOnce() -> T) -> Result<T, Refusal> {
    match Refusal::of(number) {
        None => Ok(asked()),
        Some(refusal) => Err(refusal),
    }
}

// An answer of its fields.
fn answer_of(number: u8, value: u16, empty: u16, message: [u8; 5]) -> Answer {
    unless_refused(number, || Accepted { value, empty: NonZeroU16::new(empty), message: Message::of(message) })
}

fn answer(a: CAnswer) -> Answer {
    answer_of(a.number, a.value, a.empty, a.message)
}

fn answer_in_order(a: COrderedAnswer) -> Answer {
    answer_of(a.number, a.value, a.empty, a.message)
}

fn share(a: CShare) -> Result<i32, Refusal> {
    unless_refused(a.number, || a.share)
}

// A sheet that a call fills, which is given its first count and how many there are: all 3 x 64 of this array.
fn sheet(fill: impl FnOnce(*mut u32, usize) -> u8) -> Result<Sheet, Refusal> {
    let mut sheet: Sheet = [[0; 64]; 3];
    let number = fill(sheet.as_mut_ptr().cast(), 3 * 64);
    unless_refused(number, || sheet)
}

// The calls of a desk, from the macros that make them, how an answer is read, and the library's names.
macro_rules! calls {
    ($desk:ty, $writing:ident, $reading:ident, $answer:ident, $open:ident, $make_copy:ident, $receive:ident, $delete:ident, $ask:ident, $share:ident, $sheet:ident) => {
        impl $desk {
            /// Opens it: every counter 0, every cell 1 at the owner and 0 elsewhere, every slot empty. What it held is gone.
            pub fn open(&mut self) -> Answer {
                $answer($writing!($open, self))
            }

            /// Site `from` sends site `to` a copy; the value is the message's slot.
            pub fn make_copy(&mut self, from: u8, to: u8, pointer: u8) -> Answer {
                $answer($writing!($make_copy, self, from, to, pointer))
            }

            /// The message in a slot arrives; one that it posts takes the same slot.
            pub fn receive(&mut self, slot: u16) -> Answer {
                $answer($writing!($receive, self, slot))
            }

            /// A site that holds the pointer lets it go; the value is the message's slot.
            pub fn delete(&mut self, site: u8, pointer: u8) -> Answer {
                $answer($writing!($delete, self, site, pointer))
            }

            /// The value is 1 where nobody elsewhere points at it (its owner may drop it), else 0: to be accepted is no yes.
            pub fn ask(&self, site: u8, pointer: u8) -> Answer {
                $answer($reading!($ask, self, site, pointer))
            }

            /// What a site that is not the owner adds to the owner's counter.
            pub fn share(&self, site: u8, pointer: u8) -> Result<i32, Refusal> {
                share($reading!($share, self, site, pointer))
            }

            /// The messages in flight for a pointer, counted.
            pub fn sheet(&self, pointer: u8) -> Result<Sheet, Refusal> {
                sheet(|counts, len| $reading!($sheet, self, pointer, counts, len))
            }
        }
    };
}

macro_rules! calls_of {
    ($desk:ty) => {
        calls!($desk, writing, reading, answer, desk_open, desk_make_copy, desk_receive, desk_delete, desk_ask, desk_share, desk_sheet);
    };
}

macro_rules! calls_in_order {
    ($desk:ty) => {
        calls!(
            $desk, writing_in_order, reading_in_order, answer_in_order, desk_ordered_open, desk_ordered_make_copy,
            desk_ordered_receive, desk_ordered_delete, desk_ordered_ask, desk_ordered_share, desk_ordered_sheet
        );
    };
}

macro_rules! calls_in_words {
    ($desk:ty) => {
        calls!(
            $desk, writing_in_words, reading_in_words, answer, desk_words_open, desk_words_make_copy, desk_words_receive,
            desk_words_delete, desk_words_ask, desk_words_share, desk_words_sheet
        );

        impl $desk {
            /// How many sites hold the pointer, its owner among them.
            pub fn count_holders(&self, pointer: u8) -> Result<u16, Refusal> {
                answer(reading_in_words!(desk_words_count, self, pointer)).map(|a| a.value)
            }
        }
    };
}

calls_of!(Lent<'_>);
calls_of!(Desk);
calls_in_order!(LentInOrder<'_>);
calls_in_order!(DeskInOrder);
calls_in_words!(LentInWords<'_>);
calls_in_words!(DeskInWords);

// The bytes of a slot, where the pool has that slot.
fn slot_bytes(pool: &[u8], width: usize, slot: u16) -> Option<&[u8]> {
    pool.chunks_exact(width).nth(slot.into())
}

// The message in a slot, whose first five bytes it is.
fn message_in(pool: &[u8], width: usize, slot: u16) -> Option<Message> {
    let bytes = slot_bytes(pool, width, slot)?;
    Message::of([bytes[0], bytes[1], bytes[2], bytes[3], bytes[4]])
}

/// A desk that owns what it lends: safe to move and to send; what writes takes `&mut`, so threads that share it need a lock.
///
/// ```
/// # use pointer_desk::{Desk, Message, Refusal};
/// # fn main() -> Result<(), Refusal> {
/// // Two sites; one pointer, which site 0 owns; room for one message.
/// let mut desk = Desk::new(2, &[0], 1)?;
/// let copied = desk.make_copy(0, 1, 0)?;
/// assert_eq!(copied.message, Some(Message::Copy { from: 0, to: 1, pointer: 0 }));
/// assert_eq!(desk.ask(0, 0)?.value, 0); // a copy is on its way: not to be dropped
/// assert_eq!(desk.make_copy(0, 1, 0), Err(Refusal::PoolFull));
/// desk.receive(copied.value)?;
/// let deleted = desk.delete(1, 0)?;
/// desk.receive(deleted.value)?;
/// assert_eq!(desk.ask(0, 0)?.value, 1); // nobody elsewhere points at it
/// # Ok(())
/// # }
/// ```
#[derive(Clone, Debug, PartialEq, Eq)]
pub struct Desk {
    sites: u8,
    owners: Vec<u8>,
    send: Vec<u16>,
    receive: Vec<u8>,
    pool: Vec<u8>,
}

impl Desk {
    /// An opened desk of so many sites and slots, with an owner for each pointer.
    ///
    /// ```
    /// # use pointer_desk::{Desk, Refusal};
    /// assert!(Desk::new(64, &[0; 256], 1_024).is_ok());
    /// assert_eq!(Desk::new(65, &[0], 4), Err(Refusal::BadShape));
    /// assert_eq!(Desk::new(2, &[2], 4), Err(Refusal::BadTable));
    /// assert_eq!(Refusal::BadTable.to_string(), "2, BadTable: an owner, a receive byte or word, or a slot is none");
    /// ```
    pub fn new(sites: u8, owners: &[u8], slots: u16) -> Result<Desk, Refusal> {
        let cells = cells(sites, owners)?;
        let pool = vec![0; usize::from(slots) * SLOT_BYTES];
        let mut desk = Desk { sites, owners: owners.to_vec(), send: vec![0; cells], receive: vec![0; cells], pool };
        desk.open().map(|_| desk)
    }

    /// The message in a slot; none where it is empty, or where there is no such slot.
    pub fn message(&self, slot: u16) -> Option<Message> {
        message_in(&self.pool, SLOT_BYTES, slot)
    }
}

/// A desk for links that deliver in order, which owns what it lends (document 02, Three).
///
/// ```
/// # use pointer_desk::{DeskInOrder, Refusal};
/// # fn main() -> Result<(), Refusal> {
/// let mut desk = DeskInOrder::new(2, &[0], 2)?;
/// let first = desk.make_copy(0, 1, 0)?.value;
/// let second = desk.make_copy(0, 1, 0)?.value;
/// assert_eq!((desk.number(first), desk.number(second)), (Some(0), Some(1)));
/// assert_eq!(desk.receive(second), Err(Refusal::OutOfOrder));
/// desk.receive(first)?;
/// desk.receive(second)?;
/// # Ok(())
/// # }
/// ```
#[derive(Clone, Debug, PartialEq, Eq)]
pub struct DeskInOrder {
    sites: u8,
    owners: Vec<u8>,
    send: Vec<u16>,
    receive: Vec<u8>,
    pool: Vec<u8>,
    to_post: Vec<u16>,
    to_receive: Vec<u16>,
}

impl DeskInOrder {
    /// An opened desk of so many sites and slots, with an owner for each pointer.
    pub fn new(sites: u8, owners: &[u8], slots: u16) -> Result<DeskInOrder, Refusal> {
        let cells = cells(sites, owners)?;
        let pairs = usize::from(sites) * usize::from(sites);
        let pool = vec![0; usize::from(slots) * ORDERED_SLOT_BYTES];
        let (send, receive, to_post, to_receive) = (vec![0; cells], vec![0; cells], vec![0; pairs], vec![0; pairs]);
        let mut desk = DeskInOrder { sites, owners: owners.to_vec(), send, receive, pool, to_post, to_receive };
        desk.open().map(|_| desk)
    }

    /// The message in a slot; none where it is empty, or where there is no such slot.
    pub fn message(&self, slot: u16) -> Option<Message> {
        message_in(&self.pool, ORDERED_SLOT_BYTES, slot)
    }

    /// The number of the message in a slot, which a host carries with it.
    pub fn number(&self, slot: u16) -> Option<u16> {
        self.message(slot)?;
        let bytes = slot_bytes(&self.pool, ORDERED_SLOT_BYTES, slot)?;
        Some(u16::from_be_bytes([bytes[5], bytes[6]]))
    }
}

/// A desk on words, which owns what it lends: it answers as [`Desk`] does, and counts holders (document 02, Five).
///
/// ```
/// # use pointer_desk::{DeskInWords, Refusal};
/// # fn main() -> Result<(), Refusal> {
/// let mut desk = DeskInWords::new(2, &[0], 1)?;
/// assert_eq!(desk.count_holders(0)?, 1); // its owner
/// let copied = desk.make_copy(0, 1, 0)?;
/// desk.receive(copied.value)?;
/// assert_eq!(desk.count_holders(0)?, 2);
/// # Ok(())
/// # }
/// ```
#[derive(Clone, Debug, PartialEq, Eq)]
pub struct DeskInWords {
    sites: u8,
    owners: Vec<u8>,
    send: Vec<u16>,
    words: Vec<u64>,
    pool: Vec<u8>,
}

impl DeskInWords {
    /// An opened desk of so many sites and slots, with an owner for each pointer.
    pub fn new(sites: u8, owners: &[u8], slots: u16) -> Result<DeskInWords, Refusal> {
        let cells = cells(sites, owners)?;
        let pool = vec![0; usize::from(slots) * SLOT_BYTES];
        let mut desk = DeskInWords { sites, owners: owners.to_vec(), send: vec![0; cells], words: vec![0; owners.len()], pool };
        desk.open().map(|_| desk)
    }

    /// The message in a slot; none where it is empty, or where there is no such slot.
    pub fn message(&self, slot: u16) -> Option<Message> {
        message_in(&self.pool, SLOT_BYTES, slot)
    }
}

/// Receive bytes as words, site s at bit s; there are as many bytes as sites x words. After a refusal nothing is written.
///
/// ```
/// # use pointer_desk::{pack, unpack, Refusal};
/// let (mut words, mut receive) = ([0], [0; 3]);
/// assert_eq!(pack(3, &[1, 0, 1], &mut words), Ok(()));
/// assert_eq!(words, [5]);
/// assert_eq!(unpack(3, &words, &mut receive), Ok(()));
/// assert_eq!(receive, [1, 0, 1]);
/// assert_eq!(unpack(3, &[8], &mut receive), Err(Refusal::BadTable));
/// ```
pub fn pack(sites: u8, receive: &[u8], words: &mut [u64]) -> Result<(), Refusal> {
    // Safe: each pointer is a slice's, with that slice's own length, and `&mut` lets nobody else at the words.
    let number = unsafe { desk_words_pack(sites, receive.as_ptr(), receive.len(), words.as_mut_ptr(), words.len()) };
    unless_refused(number, || ())
}

/// Words as receive bytes. After a refusal nothing is written.
pub fn unpack(sites: u8, words: &[u64], receive: &mut [u8]) -> Result<(), Refusal> {
    // Safe: each pointer is a slice's, with that slice's own length, and `&mut` lets nobody else at the bytes.
    let number = unsafe { desk_words_unpack(sites, words.as_ptr(), words.len(), receive.as_mut_ptr(), receive.len()) };
    unless_refused(number, || ())
}

// How many counters and cells a desk has; no memory is taken for more pointers than any desk has.
fn cells(sites: u8, owners: &[u8]) -> Result<usize, Refusal> {
    if owners.len() > MAX_POINTERS {
        return Err(Refusal::BadShape);
    }
    Ok(usize::from(sites) * owners.len())
}

impl<'a> Book<'a> {
    /// The address of a pointer: a part of the lent entries.
    pub fn address(&self, pointer: u8) -> Result<&'a [u8], Refusal> {
        let part = asking!(desk_book_address, self, pointer);
        let entries = self.entries;
        unless_refused(part.number, || &entries[part.at..part.at + part.length])
    }

    /// Whether the book is one, without twins.
    pub fn check(&self) -> Answer {
        answer(asking!(desk_book_check, self))
    }

    /// The value is the lowest pointer that has this owner and address.
    pub fn search(&self, owner: u8, address: &[u8]) -> Answer {
        // Safe for the address too: a slice and its length.
        answer(asking!(desk_book_search, self, owner, address.as_ptr(), address.len()))
    }
}

/// A call as a line at the start of a text: eight digits and a newline.
pub fn write_line(call: CallBytes, text: &mut [u8]) -> Answer {
    let [code, a, b, c] = call;
    // Safe: the pointer is a slice's, with that slice's own length, and `&mut` lets nobody else at it.
    answer(unsafe { desk_line_write(code, a, b, c, text.as_mut_ptr(), text.len()) })
}

/// What the reader that stands at a place of a text answers.
pub fn read_line(text: &[u8], at: usize) -> Next {
    // Safe: the pointer is a slice's, with that slice's own length, and the call takes it as const.
    let line = unsafe { desk_line_read(text.as_ptr(), text.len(), at) };
    if line.ended != 0 {
        return Next::Ended;
    }
    Next::Line { said: unless_refused(line.number, || line.call), at: line.at }
}

/// The program `desk` as a call: what it wrote, or none where the output is shorter than RUN_ROOM.
pub fn run<'a>(input: &[u8], output: &'a mut [u8]) -> Option<&'a [u8]> {
    // Safe: each pointer is a slice's, with that slice's own length, and `&mut` lets nobody else at the output.
    let written = unsafe { desk_run(input.as_ptr(), input.len(), output.as_mut_ptr(), output.len()) };
    if output.len() < RUN_ROOM {
        return None;
    }
    Some(&output[..written])
}
