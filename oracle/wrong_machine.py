"""Wrong desks: the calls, share and sheet (desk.py)."""

from patched import mutant, swapped

ALL_CALLS = "make_copy = receive = delete = ask = "
WRAP_ALL = "make_copy, receive, delete, ask = map(wrapped, (make_copy, receive, delete, ask))\n"
INC_DEC_POSTED = "    return Message(INC_DEC, receiver, owner, sender, pointer)\n"
SENT_BACK = "        return Message(DEC, receiver, sender, 0, pointer)\n"
FROM_OWNER = "    if sender == owner:\n        return None\n"
HELD_SENDER = "        and other.sender == dec.sender\n"
HELD_RECEIVER = "        and other.receiver == dec.receiver\n"
HELD_POINTER = "        and other.pointer == dec.pointer\n"
COPY_NAMES = """        (BAD_NAME, lambda: desk.lacks_site(sender) or desk.lacks_site(receiver)
         or desk.lacks_pointer(pointer)),
"""
COPY_SAME = "        (SAME_SITE, lambda: sender == receiver),\n"
COPY_HELD = ("        (NOT_HELD, lambda: not (desk.owns(sender, pointer)"
             " or desk.holds(sender, pointer))),\n")
COPY_FULL = "        (COUNTER_FULL, lambda: desk.count(sender, pointer) == GREATEST_COUNT),\n"
POOL_FULL = "        (POOL_FULL, lambda: desk.is_full()),\n"
SITE_NAMES = "        (BAD_NAME, lambda: desk.lacks_site(site) or desk.lacks_pointer(pointer)),\n"
IS_OWNER = "        (IS_OWNER, lambda: desk.owns(site, pointer)),\n"
DELETE_HELD = "        (NOT_HELD, lambda: not desk.holds(site, pointer)),\n"
DELETE_COUNTED = "        (STILL_COUNTED, lambda: desk.count(site, pointer) != 0),\n"
NOT_OWNER = "        (NOT_OWNER, lambda: not desk.owns(site, pointer)),\n"
DEC_HELD = "        (HELD, lambda: is_held(desk, message)),\n"
DEC_ZERO = "        (COUNTER_ZERO, lambda: desk.count(message.receiver, message.pointer) == 0),\n"
TOLD = "    empty = desk.empty_slots()\n"
ASK_VALUE = "1 if desk.count(site, pointer) == 0 else 0, None)"
STORE_COUNT = "self.counts[site, pointer] = self.count(site, pointer) + step"
WRAPPED_COUNT = "self.counts[site, pointer] = (self.count(site, pointer) + step) % 65536"


def imposters():
    """Document 01, 'How much each promise must say'."""
    return [
        mutant("imposter: refuses all calls", "desk", "",
               ALL_CALLS + "lambda desk, *names: refused(POOL_FULL)\n"),
        mutant("imposter: answers 0 to all", "desk", "", ALL_CALLS + "lambda desk, *names: refused(0)\n"),
        mutant("imposter: stores nothing", "desk", "", """import copy
def wrapped(call):
    return lambda desk, *names: call(copy.deepcopy(desk), *names)
""" + WRAP_ALL),
        mutant("imposter: works until the first accepted call, then only nods", "desk", "", """
def wrapped(call):
    def nodding(desk, *names):
        if getattr(desk, "nods", False):
            return refused(0)
        answer = call(desk, *names)
        desk.nods = answer.number == 0
        return answer
    return nodding
""" + WRAP_ALL),
        mutant("imposter: makes up the counter", "desk", STORE_COUNT,
               "self.counts[site, pointer] = 1 if step > 0 else 0"),
        mutant("imposter: makes up the value of a post", "desk", "        return slot\n",
               "        return 0\n"),
        mutant("imposter: makes up the value of a receive", "desk",
               "return Answer(ACCEPTED, slot, posted)", "return Answer(ACCEPTED, 0, posted)")]


def short_cuts():
    """Document 01, 'Short cuts that are wrong here'."""
    return [
        mutant("a DEC goes to the owner at once when a COPY came first from another site", "desk",
               INC_DEC_POSTED, "    return Message(DEC, receiver, owner, 0, pointer)\n"),
        mutant("a first COPY from another site tells nobody", "desk", INC_DEC_POSTED, "    return None\n"),
        mutant("a first COPY from another site is sent back as a DEC", "desk", INC_DEC_POSTED,
               "    return Message(DEC, receiver, sender, 0, pointer)\n"),
        mutant("Held by pointer alone", "desk", HELD_SENDER + HELD_RECEIVER, ""),
        mutant("Held by the third site as sender", "desk", HELD_SENDER,
               "        and other.third == dec.sender\n"),
        mutant("Held by the third site as receiver", "desk", HELD_RECEIVER,
               "        and other.third == dec.receiver\n"),
        mutant("Held by the third site alone", "desk", HELD_SENDER + HELD_RECEIVER,
               "        and other.third in (dec.sender, dec.receiver)\n"),
        mutant("Held only while the third site holds the pointer", "desk", HELD_POINTER,
               HELD_POINTER + "        and desk.holds(other.third, dec.pointer)\n"),
        mutant("a COPY to the owner is nothing", "desk", "    if desk.holds(receiver, pointer):\n",
               "    if receiver == owner:\n        return None\n    if desk.holds(receiver, pointer):\n"),
        mutant("ask by the sum of all counters", "desk", ASK_VALUE,
               "1 if sum(desk.count(s, pointer) for s in range(desk.sites)) == 0 else 0, None)")]


def held():
    return [
        mutant("Held never tested", "desk", DEC_HELD, ""),
        mutant("Held by sender and pointer, to any receiver", "desk", HELD_RECEIVER, ""),
        mutant("Held by receiver and pointer, from any sender", "desk", HELD_SENDER, ""),
        mutant("Held by sender and receiver, for any pointer", "desk", HELD_POINTER, ""),
        mutant("Held by an INC_DEC that goes the other way", "desk", HELD_SENDER + HELD_RECEIVER,
               "        and other.sender == dec.receiver\n        and other.receiver == dec.sender\n"),
        mutant("Held by a COPY", "desk", "other.kind == INC_DEC\n", "other.kind in (INC_DEC, COPY)\n")]


def posts():
    return [
        mutant("make copy raises no counter", "desk", "    desk.change_count(sender, pointer, +1)\n", ""),
        mutant("make copy raises the receiver's counter", "desk",
               "desk.change_count(sender, pointer, +1)", "desk.change_count(receiver, pointer, +1)"),
        mutant("a post goes to the highest empty slot", "desk", "slot = self.slots.index(None)",
               "slot = max(n for n, held in enumerate(self.slots) if held is None)"),
        mutant("a reply goes to the lowest empty slot", "desk", "    desk.slots[slot] = posted\n",
               "    desk.slots[slot] = None\n    if posted:\n        desk.post(posted)\n"),
        mutant("a received slot keeps its message where none is posted", "desk",
               "    desk.slots[slot] = posted\n", "    desk.slots[slot] = posted or message\n"),
        mutant("an answer has no message", "desk", "return Answer(ACCEPTED, slot, posted)",
               "return Answer(ACCEPTED, slot, None)")]


def arrivals():
    return [
        mutant("a COPY to a holder sends its DEC to the owner", "desk", SENT_BACK,
               "        return Message(DEC, receiver, owner, 0, pointer)\n"),
        mutant("a COPY to a holder posts nothing", "desk", SENT_BACK, "        return None\n"),
        mutant("a first COPY does not set the cell", "desk", "    desk.holders.add((receiver, pointer))\n",
               ""),
        mutant("a first COPY from the owner posts an INC_DEC too", "desk", FROM_OWNER, ""),
        mutant("a first COPY to an owner whose cell is 0 posts nothing", "desk", FROM_OWNER,
               "    if owner in (sender, receiver):\n        return None\n"),
        mutant("an INC_DEC names its receiver as third site", "desk", INC_DEC_POSTED,
               "    return Message(INC_DEC, receiver, owner, receiver, pointer)\n"),
        mutant("a COPY to its own sender is received", "desk",
               "        (SAME_SITE, lambda: message.sender == message.receiver),\n", ""),
        mutant("an INC_DEC raises nothing", "desk", "    desk.change_count(receiver, pointer, +1)\n", ""),
        mutant("an INC_DEC raises the owner's counter wherever it goes", "desk",
               "    desk.change_count(receiver, pointer, +1)\n",
               "    desk.change_count(desk.owner_of[pointer], pointer, +1)\n"),
        mutant("an INC_DEC sends its DEC to its sender", "desk",
               "    return Message(DEC, receiver, third, 0, pointer)\n",
               "    return Message(DEC, receiver, message.sender, 0, pointer)\n"),
        mutant("an INC_DEC's DEC keeps the third site's byte", "desk",
               "    return Message(DEC, receiver, third, 0, pointer)\n",
               "    return Message(DEC, receiver, third, third, pointer)\n"),
        mutant("a DEC lowers its sender's counter", "desk",
               "    desk.change_count(message.receiver, message.pointer, -1)\n",
               "    desk.change_count(message.sender, message.pointer, -1)\n",
               "desk", STORE_COUNT, WRAPPED_COUNT),
        mutant("a DEC to a counter at 0 leaves it at 0", "desk", DEC_ZERO, "", "desk", STORE_COUNT,
               "self.counts[site, pointer] = max(self.count(site, pointer) + step, 0)"),
        mutant("a DEC to a counter at 0 wraps", "desk", DEC_ZERO, "", "desk", STORE_COUNT, WRAPPED_COUNT)]


def limits():
    return [
        mutant("make copy wraps a counter at 65,535", "desk", COPY_FULL, "", "desk", STORE_COUNT,
               WRAPPED_COUNT),
        mutant("an INC_DEC wraps a counter at 65,535", "desk",
               "        (COUNTER_FULL, lambda: count == GREATEST_COUNT),\n", "",
               "desk", STORE_COUNT, WRAPPED_COUNT),
        mutant("CounterFull one too early", "desk", "GREATEST_COUNT = 65535", "GREATEST_COUNT = 65534"),
        mutant("an INC_DEC tests the owner's counter for CounterFull", "desk",
               "    count = desk.count(message.receiver, message.pointer)\n",
               "    count = desk.count(desk.owner_of[message.pointer], message.pointer)\n",
               "desk", STORE_COUNT, WRAPPED_COUNT),
        mutant("an owner whose cell is 0 may not copy", "desk", COPY_HELD,
               "        (NOT_HELD, lambda: not desk.holds(sender, pointer)),\n"),
        mutant("only the owner may copy", "desk", COPY_HELD,
               "        (NOT_HELD, lambda: not desk.owns(sender, pointer)),\n"),
        mutant("every site may copy", "desk", COPY_HELD, ""),
        mutant("a copy to a site that holds is refused", "desk", COPY_SAME,
               COPY_SAME + "        (SAME_SITE, lambda: desk.holds(receiver, pointer)),\n"),
        mutant("a slot number equal to the slot count is not BadName", "desk",
               "    if slot >= len(desk.slots):\n        return BAD_NAME\n",
               "    if slot >= len(desk.slots):\n        return EMPTY_SLOT\n"),
        mutant("a delete does not look at the counter", "desk", DELETE_COUNTED, ""),
        mutant("the owner may delete", "desk", IS_OWNER + DELETE_HELD, DELETE_HELD),
        mutant("a delete leaves the cell", "desk", "    desk.holders.remove((site, pointer))\n", ""),
        mutant("a delete sends its DEC to itself", "desk",
               "    return posted_answer(desk, Message(DEC, site, desk.owner_of[pointer], 0, pointer))\n",
               "    return posted_answer(desk, Message(DEC, site, site, 0, pointer))\n")]


def asks():
    return [
        mutant("ask by the cells of the other sites", "desk", ASK_VALUE,
               "1 if all(s == site for s, p in desk.holders if p == pointer) else 0, None)"),
        mutant("ask answers the counter", "desk", ASK_VALUE, "desk.count(site, pointer), None)"),
        mutant("ask by the low byte of the counter", "desk", ASK_VALUE,
               "1 if desk.count(site, pointer) & 255 == 0 else 0, None)"),
        mutant("ask at any site that holds", "desk", NOT_OWNER,
               "        (NOT_OWNER, lambda: not desk.holds(site, pointer)),\n")]


def swaps():
    """Two refusals in the other order, for each call."""
    return [
        swapped("make copy: 4 before 3", "desk", COPY_NAMES, COPY_SAME),
        swapped("make copy: 5 before 4", "desk", COPY_SAME, COPY_HELD),
        swapped("make copy: 6 before 5", "desk", COPY_HELD, COPY_FULL),
        swapped("make copy: 7 before 6", "desk", COPY_FULL, POOL_FULL),
        swapped("receive: 10 before 9", "desk", DEC_HELD, DEC_ZERO),
        swapped("delete: 5 before 11", "desk", IS_OWNER, DELETE_HELD),
        swapped("delete: 12 before 5", "desk", DELETE_HELD, DELETE_COUNTED),
        swapped("delete: 7 before 12", "desk", DELETE_COUNTED, POOL_FULL),
        swapped("ask: 13 before 3", "desk", SITE_NAMES, NOT_OWNER)]


def shares():
    weights = ("(DEC, site, owner): +1, ", "(COPY, owner, site): +1, ", "(INC_DEC, site, owner): -1")
    total = "    return cell + sum("
    pick = "message.kind, message.sender, message.receiver"
    return [
        mutant("share with INC_DECs as plus", "desk", weights[2], "(INC_DEC, site, owner): +1"),
        mutant("share without its receive cell", "desk", total, "    return sum("),
        mutant("share without COPYs", "desk", weights[1], ""),
        mutant("share with COPYs to the owner", "desk", weights[1], "(COPY, site, owner): +1, "),
        mutant("share with DECs to it from the owner", "desk", weights[0], "(DEC, owner, site): +1, "),
        mutant("share with INC_DECs that name it as third", "desk", pick,
               "message.kind, message.third if message.kind == INC_DEC else message.sender, message.receiver"),
        mutant("share never below 0", "desk", "return ShareAnswer(ACCEPTED, share_of(desk, site, pointer))",
               "return ShareAnswer(ACCEPTED, max(share_of(desk, site, pointer), 0))"),
        mutant("share in eleven bits", "desk",
               "return ShareAnswer(ACCEPTED, share_of(desk, site, pointer))",
               "return ShareAnswer(ACCEPTED, (share_of(desk, site, pointer) + 1024) % 2048 - 1024)"),
        mutant("share over all pointers", "desk",
               "        for message in desk.in_flight() if message.pointer == pointer)",
               "        for message in desk.in_flight())"),
        mutant("share at the owner too", "desk", SITE_NAMES + IS_OWNER + "    )\n\n\ndef share_of",
               SITE_NAMES + "    )\n\n\ndef share_of")]


def sheets():
    column, rows = "row, column = rows[message.kind], column_of(message)", "for kind in (COPY, DEC, INC_DEC) for site"
    copy_column = "    if message.kind == COPY:\n        return message.sender\n"
    other_column = "    return message.receiver if message.kind == DEC else message.third\n"

    def entered(where, site):
        return mutant("sheet entered at " + where, "desk", column, column.replace("column_of(message)", site))

    def entered_by(wrong, old, new):
        return mutant("sheet with " + wrong, "desk", old, new)
    return [
        entered("the sender, as before request Two", "message.sender"),
        entered("the receiver", "message.receiver"),
        entered("the third site", "message.third"),
        entered("the owner", "desk.owner_of[pointer]"),
        entered_by("COPYs at their receiver", copy_column, copy_column.replace("sender", "receiver")),
        entered_by("COPYs at their third site", copy_column, copy_column.replace("sender", "third")),
        entered_by("DECs at their sender", other_column, other_column.replace("receiver", "sender")),
        entered_by("DECs at their third site", other_column, other_column.replace("receiver", "third")),
        entered_by("INC_DECs at their sender", other_column, other_column.replace("third", "sender")),
        entered_by("INC_DECs at their receiver", other_column, other_column.replace("third", "receiver")),
        mutant("sheet with INC_DECs at both their receiver and third site", "desk",
               "            row[column] = row.get(column, 0) + 1\n",
               "            row[column] = row.get(column, 0) + 1\n            if message.kind == INC_DEC:\n"
               "                row[message.receiver] = row.get(message.receiver, 0) + 1\n"),
        mutant("sheet with the owner's column left 0", "desk",
               "        if message.pointer == pointer:\n            row",
               "        if message.pointer == pointer and not desk.owns(column_of(message), pointer):\n"
               "            row"),
        mutant("sheet with the rows of COPY and DEC exchanged", "desk", rows,
               "for kind in (DEC, COPY, INC_DEC) for site"),
        mutant("sheet with the rows of DEC and INC_DEC exchanged", "desk", rows,
               "for kind in (COPY, INC_DEC, DEC) for site"),
        mutant("sheet with the rows of COPY and INC_DEC exchanged", "desk", rows,
               "for kind in (INC_DEC, DEC, COPY) for site"),
        mutant("sheet over all pointers", "desk",
               "        if message.pointer == pointer:\n            row",
               "        if True:\n            row"),
        mutant("sheet by columns", "desk",
               "for kind in (COPY, DEC, INC_DEC) for site in range(SHEET_COLUMNS)]",
               "for site in range(SHEET_COLUMNS) for kind in (COPY, DEC, INC_DEC)]"),
        mutant("sheet says only whether there is one", "desk", "row[column] = row.get(column, 0) + 1",
               "row[column] = 1")]


def empty_counts():
    """Document 02, One: what is told of the empty slots."""
    def told(wrong, count):
        return mutant("empty slots: " + wrong, "desk", TOLD, "    empty = %s\n" % count)
    receive_answer, tells = "return Answer(ACCEPTED, slot, posted)", ", desk.empty_slots())"
    copy_refused = "        return refused(number)\n    desk.change_count"
    delete_refused = "        return refused(number)\n    desk.holders.remove"
    return [
        mutant("empty slots: counted after the post", "desk",
               "    return Answer(ACCEPTED, desk.post(message), message, empty)\n",
               "    return Answer(ACCEPTED, desk.post(message), message, desk.empty_slots())\n"),
        told("full slots counted", "len(desk.in_flight())"),
        told("all slots counted", "len(desk.slots)"),
        told("always 0", "0"),
        told("counted only up to the lowest empty slot", "1"),
        told("the lowest empty slot", "desk.slots.index(None)"),
        told("the slots up to the lowest empty one", "desk.slots.index(None) + 1"),
        told("the highest empty slot", "max(n for n, held in enumerate(desk.slots) if held is None)"),
        told("the slots up to the highest empty one",
             "max(n for n, held in enumerate(desk.slots) if held is None) + 1"),
        told("the slots above the lowest empty one, it included", "len(desk.slots) - desk.slots.index(None)"),
        told("counted in one byte", "desk.empty_slots() % 256"),
        told("counted in ten bits", "desk.empty_slots() % 1024"),
        told("never above 1,023", "min(desk.empty_slots(), 1023)"),
        told("told by make copy alone", "desk.empty_slots() if message.kind == COPY else 0"),
        told("told by delete alone", "desk.empty_slots() if message.kind == DEC else 0"),
        mutant("empty slots: told by a receive", "desk", receive_answer, receive_answer[:-1] + tells),
        mutant("empty slots: told by a receive that posts", "desk", receive_answer,
               receive_answer[:-1] + ", desk.empty_slots() if posted else 0)"),
        mutant("empty slots: told by an ask", "desk", ASK_VALUE, ASK_VALUE[:-1] + tells),
        mutant("empty slots: told by an opening", "tables", "    return Answer(ACCEPTED, 0, None), encode(opened)\n",
               "    return Answer(ACCEPTED, 0, None, opened.empty_slots()), encode(opened)\n"),
        mutant("empty slots: told by a refused make copy", "desk", copy_refused,
               copy_refused.replace("refused(number)", "Answer(number, 0, None, desk.empty_slots())")),
        mutant("empty slots: told by a refused delete", "desk", delete_refused,
               delete_refused.replace("refused(number)", "Answer(number, 0, None, desk.empty_slots())")),
        mutant("empty slots: a refusal tells 1", "desk", "    return Answer(number, 0, None)\n",
               "    return Answer(number, 0, None, 1)\n"),
        mutant("empty slots: a search tells the pointers found", "book", "Answer(ACCEPTED, min(found), None)",
               "Answer(ACCEPTED, min(found), None, len(found))"),
        mutant("empty slots: a check tells the pointers", "book", "    return Answer(number, 0, None)\n",
               "    return Answer(number, 0, None, 0 if number else len(owners))\n"),
        mutant("empty slots: the writer tells what is left of the text", "lent_text",
               "Answer(lines.lent_write(call.arguments, text), 0, None)",
               "Answer(lines.lent_write(call.arguments, text), 0, None, max(len(text) - 9, 0))")]


def all_mutants():
    groups = (imposters, short_cuts, held, posts, arrivals, limits, asks, swaps, shares, sheets, empty_counts)
    return [found for group in groups for found in group()]
