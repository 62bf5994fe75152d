// An example host: the late copy. It prints the story, and ends with 1 where an answer is not what the story needs.
#include <cstdio>
#include <cstdlib>
#include <string>

#include "pointer_desk.hpp"

using namespace pointer_desk;
using namespace pointer_desk::literals;

namespace {

constexpr Pointer NET = 0_pointer;

std::string link(const char *kind, Site from, Site to) {
    return std::string(kind) + " from " + std::to_string(from.number()) + " to " + std::to_string(to.number());
}

// The words for each kind of message.
struct Words {
    std::string operator()(const Copy &m) const { return link("COPY", m.from, m.to); }
    std::string operator()(const Dec &m) const { return link("DEC", m.from, m.to); }
    std::string operator()(const IncDec &m) const { return link("INC_DEC", m.from, m.to); }
};

// One line of the story; another answer than the needed one ends it.
void line(const char *what, bool right, const std::string &said) {
    std::printf("%-44s %s\n", what, right ? said.c_str() : "NOT WHAT THE STORY NEEDS");
    if (!right) std::exit(1);
}

void posts(const char *what, const Result<Posted> &a, Slot slot, unsigned empty, const Message &message) {
    const bool right = a.accepted() && a.value().slot == slot && a.value().empty == empty && a.value().message == message;
    line(what, right, "accepted: " + std::visit(Words{}, message) + " in slot " + std::to_string(slot.number()));
}

void arrives(const char *what, const Result<Received> &a, Slot slot) {
    line(what, a.accepted() && a.value().slot == slot && !a.value().reply, "accepted");
}

void refuses(const char *what, const Result<Posted> &a, Refusal needed) {
    line(what, a.refused_by(needed), "refused: " + std::to_string(number(needed)) + ", " + name(needed));
}

void ask(const Desk &desk, bool needed) {
    const Result<bool> a = desk.ask(0_site, NET);
    line("  site 0 asks: may I drop the net?", a.accepted() && a.value() == needed, needed ? "1: yes" : "0: no");
}

void play(Desk &desk) {
    posts("site 0 sends site 1 a copy, and it is late", desk.make_copy(0_site, 1_site, NET), 0_slot, 4, Copy{0_site, 1_site, NET});
    posts("site 0 sends site 2 a copy", desk.make_copy(0_site, 2_site, NET), 1_slot, 3, Copy{0_site, 2_site, NET});
    arrives("that copy arrives", desk.receive(1_slot), 1_slot);
    posts("site 2 is done and deletes its pointer", desk.remove(2_site, NET), 1_slot, 3, Dec{2_site, 0_site, NET});
    refuses("site 2 would still send site 1 a copy", desk.make_copy(2_site, 1_site, NET), Refusal::NotHeld);
    arrives("the DEC of site 2 arrives", desk.receive(1_slot), 1_slot);
    ask(desk, false);
    std::puts("\nNo other site holds the pointer now. The desk of the withdrawn report said yes here,\n"
              "and the late copy made two buses into one.\n");
    arrives("the late copy arrives at site 1", desk.receive(0_slot), 0_slot);
    ask(desk, false);
    posts("site 1 is done and deletes its pointer", desk.remove(1_site, NET), 0_slot, 4, Dec{1_site, 0_site, NET});
    ask(desk, false);
    arrives("the DEC of site 1 arrives", desk.receive(0_slot), 0_slot);
    ask(desk, true);
}

} // namespace

int main() {
    std::puts("A motor controller's layout lies on three sites. Site 0 owns a net, and the others may point at it.\n");
    Result<Desk> opened = Desk::open(3, {0_site}, 4);
    line("the desk opens", opened.accepted(), "accepted");
    Desk desk = std::move(opened).value();
    play(desk);
}
