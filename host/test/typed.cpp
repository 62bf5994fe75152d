// Every call of pointer_desk.hpp, accepted and refused, on each desk; and what its types let through.
#include <cstdio>
#include <cstring>

#include "pointer_desk.hpp"

using namespace pointer_desk;
using namespace pointer_desk::literals;

namespace {

unsigned passed, failed;

void expect(const char *what, bool right) {
    ++(right ? passed : failed);
    if (!right) std::printf("FAILED: %s\n", what);
}

bool posts(const Result<Posted> &a, Slot slot, unsigned empty, const Message &message) {
    return a.accepted() && a.value().slot == slot && a.value().empty == empty && a.value().message == message;
}

bool arrives(const Result<Received> &a, Slot slot, const std::optional<Message> &reply) {
    return a.accepted() && a.value().slot == slot && a.value().reply == reply;
}

bool says(const Result<bool> &a, bool yes) { return a.accepted() && a.value() == yes; }

template <class Kind>
BasicDesk<Kind> opened(std::size_t slots) {
    return BasicDesk<Kind>::open(3, {0_site}, slots).value();
}

// What all desks answer alike: a copy of a copy, its INC_DEC and DEC, all the way to a yes.
template <class Kind>
void round() {
    BasicDesk<Kind> desk = opened<Kind>(4);
    expect("a copy", posts(desk.make_copy(0_site, 1_site, 0_pointer), 0_slot, 4, Copy{0_site, 1_site, 0_pointer}));
    expect("is in its slot", desk.message(0_slot) == Message(Copy{0_site, 1_site, 0_pointer}));
    expect("no other is", !desk.message(1_slot) && !desk.message(4_slot));
    expect("it arrives", arrives(desk.receive(0_slot), 0_slot, std::nullopt));
    expect("a copy of it", posts(desk.make_copy(1_site, 2_site, 0_pointer), 0_slot, 4, Copy{1_site, 2_site, 0_pointer}));
    expect("an INC_DEC", arrives(desk.receive(0_slot), 0_slot, IncDec{2_site, 0_site, 1_site, 0_pointer}));
    expect("in the sheet", desk.sheet(0_pointer).value().inc_decs(1_site) == 1 && desk.sheet(0_pointer).value().inc_decs(65_site) == 0);
    expect("a share", desk.share(1_site, 0_pointer).value() == 1 && desk.share(2_site, 0_pointer).value() == 0);
    expect("a DEC", arrives(desk.receive(0_slot), 0_slot, Dec{0_site, 1_site, 0_pointer}));
    expect("in the sheet too", desk.sheet(0_pointer).value().decs(1_site) == 1 && desk.sheet(0_pointer).value().copies(1_site) == 0);
    expect("it arrives too", arrives(desk.receive(0_slot), 0_slot, std::nullopt));
    expect("ask says no", says(desk.ask(0_site, 0_pointer), false));
    expect("a delete", posts(desk.remove(1_site, 0_pointer), 0_slot, 4, Dec{1_site, 0_site, 0_pointer}));
    expect("another", posts(desk.remove(2_site, 0_pointer), 1_slot, 3, Dec{2_site, 0_site, 0_pointer}));
    expect("a DEC arrives", arrives(desk.receive(1_slot), 1_slot, std::nullopt));
    expect("and the last", arrives(desk.receive(0_slot), 0_slot, std::nullopt));
    expect("ask says yes", says(desk.ask(0_site, 0_pointer), true));
}

template <class Kind>
void refusals() {
    using Any = BasicDesk<Kind>;
    expect("no site", Any::open(0, {}, 4).refused_by(Refusal::BadShape));
    expect("the largest desk", Any::open(64, std::vector<Site>(256, 63_site), 1024).accepted());
    expect("65 sites", Any::open(65, {0_site}, 4).refused_by(Refusal::BadShape));
    expect("257 sites", Any::open(257, {0_site}, 4).refused_by(Refusal::BadShape));
    expect("257 pointers", Any::open(2, std::vector<Site>(257, 0_site), 4).refused_by(Refusal::BadShape));
    expect("1,025 slots", Any::open(2, {0_site}, 1025).refused_by(Refusal::BadShape));
    expect("65,537 slots", Any::open(2, {0_site}, 65537).refused_by(Refusal::BadShape));
    expect("an owner that is no site", Any::open(2, {2_site}, 4).refused_by(Refusal::BadTable));
    Any desk = opened<Kind>(1);
    expect("BadName", desk.make_copy(0_site, 3_site, 0_pointer).refused_by(Refusal::BadName));
    expect("SameSite", desk.make_copy(0_site, 0_site, 0_pointer).refused_by(Refusal::SameSite));
    expect("NotHeld", desk.remove(1_site, 0_pointer).refused_by(Refusal::NotHeld));
    expect("EmptySlot", desk.receive(0_slot).refused_by(Refusal::EmptySlot));
    expect("IsOwner", desk.share(0_site, 0_pointer).refused_by(Refusal::IsOwner));
    expect("NotOwner", desk.ask(1_site, 0_pointer).refused_by(Refusal::NotOwner));
    expect("a sheet of no pointer", desk.sheet(1_pointer).refused_by(Refusal::BadName));
    expect("the last slot", desk.make_copy(0_site, 1_site, 0_pointer).accepted());
    expect("PoolFull", desk.make_copy(0_site, 1_site, 0_pointer).refusal() == Refusal::PoolFull);
    Any empty = Any::open(1, {}, 0).value();
    expect("an empty desk", empty.ask(0_site, 0_pointer).refused_by(Refusal::BadName) && !empty.message(0_slot));
}

// A desk moves with all that it holds; what is left of it refuses.
template <class Kind>
void moves() {
    BasicDesk<Kind> first = opened<Kind>(2), second = opened<Kind>(1);
    expect("before it moves", first.make_copy(0_site, 1_site, 0_pointer).accepted());
    second = std::move(first);
    expect("it moves", second.message(0_slot).has_value() && says(second.ask(0_site, 0_pointer), false));
    expect("what is left refuses", first.ask(0_site, 0_pointer).refused_by(Refusal::BadShape) && !first.message(0_slot));
    first = opened<Kind>(1);
    expect("and may be given another", says(first.ask(0_site, 0_pointer), true));
}

// Document 02, Three: only in order.
void numbers() {
    OrderedDesk desk = opened<detail::InOrder>(2);
    expect("number 0", desk.make_copy(0_site, 1_site, 0_pointer).accepted() && desk.number(0_slot) == 0);
    expect("number 1", desk.make_copy(0_site, 1_site, 0_pointer).accepted() && desk.number(1_slot) == 1);
    expect("1 before 0", desk.receive(1_slot).refused_by(Refusal::OutOfOrder));
    expect("0, then 1", desk.receive(0_slot).accepted() && !desk.number(0_slot) && desk.receive(1_slot).accepted());
}

// A DEC behind an INC_DEC of its pair: on the desks that do not number.
template <class Kind>
void held() {
    BasicDesk<Kind> desk = opened<Kind>(4);
    expect("to 1", desk.make_copy(0_site, 1_site, 0_pointer).accepted() && desk.receive(0_slot).accepted());
    expect("to 2", desk.make_copy(1_site, 2_site, 0_pointer).accepted() && desk.receive(0_slot).accepted());
    expect("2 deletes", desk.remove(2_site, 0_pointer).accepted());
    expect("Held", desk.receive(1_slot).refused_by(Refusal::Held));
}

// Document 02, Five: only on words.
void holders() {
    WordDesk desk = WordDesk::open(64, {0_site, 63_site}, 2).value();
    expect("the owner holds", desk.count_holders(0_pointer).value() == 1 && desk.count_holders(1_pointer).value() == 1);
    expect("a copy to 63", desk.make_copy(0_site, 63_site, 0_pointer).accepted() && desk.count_holders(0_pointer).value() == 1);
    expect("it holds too", desk.receive(0_slot).accepted() && desk.count_holders(0_pointer).value() == 2);
    expect("it lets go", desk.remove(63_site, 0_pointer).accepted() && desk.count_holders(0_pointer).value() == 1);
    expect("a count of no pointer", desk.count_holders(2_pointer).refused_by(Refusal::BadName));
    WordDesk other = std::move(desk);
    expect("a count of what is left", desk.count_holders(0_pointer).refused_by(Refusal::BadShape) && other.count_holders(1_pointer).accepted());
}

void types() {
    static_assert(!std::is_constructible_v<Site, int> && !std::is_constructible_v<Slot, unsigned long>, "no wider number");
    static_assert(!std::is_convertible_v<std::uint8_t, Site> && !std::is_constructible_v<Site, Pointer>, "no number unasked, no other thing");
    static_assert(!std::is_constructible_v<bool, Result<bool>>, "to be accepted is no yes");
    static_assert(!std::is_copy_constructible_v<Desk> && std::is_nothrow_move_constructible_v<Desk>, "it moves");
    expect("of what fits", Site::of(255)->number() == 255 && Slot::of(1023L)->number() == 1023);
    expect("of what does not", !Site::of(256) && !Site::of(257) && !Site::of(-1) && !Site::of(static_cast<signed char>(-1)) && !Slot::of(65536));
    expect("an order", 1_slot < 2_slot && 1_site != 2_site);
    expect("a name", !std::strcmp(name(Refusal::OutOfOrder), "OutOfOrder") && number(Refusal::OutOfOrder) == 21);
}

template <class Kind>
void alike() {
    round<Kind>();
    refusals<Kind>();
    moves<Kind>();
}

} // namespace

int main() {
    alike<detail::Plain>();
    alike<detail::InOrder>();
    alike<detail::InWords>();
    numbers();
    held<detail::Plain>();
    held<detail::InWords>();
    holders();
    types();
    std::printf("%u passed, %u failed\n", passed, failed);
    return failed != 0 || passed == 0;
}
