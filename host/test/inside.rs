// What pointer_desk.rs keeps to itself: the layouts of its five C structs, and numbers and messages that nobody lists.
#[allow(dead_code)]
mod module {
    use std::mem::{align_of, size_of};

    include!("../pointer_desk.rs");

    fn whole<T>(name: &str) {
        print!("{}: size {} align {}", name, size_of::<T>(), align_of::<T>());
    }

    fn place<T, F>(name: &str, whole: &T, field: &F) {
        print!(" {} {}", name, field as *const F as usize - whole as *const T as usize);
    }

    // The lines that layout.c prints.
    pub fn layouts() {
        let (a, o, s, p, l) = (
            CAnswer { number: 0, value: 0, empty: 0, message: [0; 5] },
            COrderedAnswer { number: 0, value: 0, empty: 0, message: [0; 5] },
            CShare { number: 0, share: 0 },
            CPart { number: 0, at: 0, length: 0 },
            CLine { number: 0, ended: 0, call: [0; 4], at: 0 },
        );
        whole::<CAnswer>("answer");
        place("number", &a, &a.number);
        place("value", &a, &a.value);
        place("empty", &a, &a.empty);
        place("message", &a, &a.message);
        println!();
        whole::<COrderedAnswer>("ordered answer");
        place("number", &o, &o.number);
        place("value", &o, &o.value);
        place("empty", &o, &o.empty);
        place("message", &o, &o.message);
        println!();
        whole::<CShare>("share");
        place("number", &s, &s.number);
        place("share", &s, &s.share);
        println!();
        whole::<CPart>("part");
        place("number", &p, &p.number);
        place("at", &p, &p.at);
        place("length", &p, &p.length);
        println!();
        whole::<CLine>("line");
        place("number", &l, &l.number);
        place("ended", &l, &l.ended);
        place("call", &l, &l.call);
        place("at", &l, &l.at);
        println!();
    }

    // Every number but 0 is a refusal that keeps its number; those above 21 are unlisted.
    pub fn numbers_are_kept() {
        assert_eq!(Refusal::of(0), None);
        for number in 1..=255 {
            let refusal = Refusal::of(number).expect("a refusal");
            assert_eq!(refusal.number(), number);
            assert_eq!(refusal == Refusal::Unlisted(number), number > 21);
            assert_eq!(Refusal::LISTED.contains(&refusal), number <= 21);
        }
    }

    // A message that document 01 does not know is not dropped.
    pub fn unknown_messages_are_told() {
        std::panic::set_hook(Box::new(|_| ()));
        for slot in [[4, 0, 0, 0, 0], [0, 0, 0, 0, 1], [1, 0, 1, 1, 0], [2, 0, 1, 1, 0]] {
            assert!(std::panic::catch_unwind(|| Message::of(slot)).is_err());
        }
        let _ = std::panic::take_hook();
    }
}

fn main() {
    module::numbers_are_kept();
    module::unknown_messages_are_told();
    module::layouts();
}
