"""Wrong desks: the in-order variant (in_order.py, in_order_tables.py)."""

from patched import mutant

FRONT_TEST = "    if not desk.queue_of(message).is_front(slot):\n        return OUT_OF_ORDER\n"
ARRIVAL = "    return WHY_NO_ARRIVAL[message.kind](desk, message)\n"
LEAVE = "    desk.queue_of(message).leave(slot)\n"
REPLY_JOINS = "        desk.queue_of(reply).join(slot)\n"
JOIN = "        self.behind[slot] = self.joins\n        self.joins = (self.joins + 1) % NUMBERS\n"
QUEUE_OF = "        return self.queues[message.sender, message.receiver]\n"
REFUSED = "    if number:\n        return refused(number)\n    message = desk.slots[slot]\n"
POSTED = "        self.queue_of(message).join(slot)\n"
IS_FRONT = "        return self.behind[slot] == 0\n"
NEXT = "        return (self.front + self.joins) % NUMBERS\n"
FRONT_MOVES = "        self.front = (self.front + 1) % NUMBERS\n"
PLACE = "    return sender * sites + receiver\n"
OPENED = "    return Answer(ACCEPTED, 0, None), encode(opened)\n"
NUMBER_BYTES = "bytes((number >> 8, number & 255))"
READ_NUMBER = "    return 256 * slot[5] + slot[6]\n"
EMPTY_TEST = "    if slot[0] == EMPTY:\n        return any(slot)\n"
HELD = ("any(other.kind == INC_DEC and other[1:3] == message[1:3] and other.pointer == message.pointer"
        " for other in desk.in_flight())")


def tests_of_order():
    def only(kinds):
        return FRONT_TEST.replace("if not", "if message.kind in (%s) and not" % kinds)
    return [
        mutant("in order: 21 is never given", "in_order", FRONT_TEST, ""),
        mutant("in order: 21 for DECs only", "in_order", FRONT_TEST, only("DEC,")),
        mutant("in order: 21 for COPYs only", "in_order", FRONT_TEST, only("COPY,")),
        mutant("in order: no 21 for COPYs", "in_order", FRONT_TEST, only("DEC, INC_DEC")),
        mutant("in order: no 21 for DECs", "in_order", FRONT_TEST, only("COPY, INC_DEC")),
        mutant("in order: no 21 for INC_DECs", "in_order", FRONT_TEST, only("COPY, DEC")),
        mutant("in order: 9 in place of 21", "in_order", FRONT_TEST, FRONT_TEST.replace("OUT_OF_ORDER", "9")),
        mutant("in order: Held tested besides", "in_order", ARRIVAL,
               "    if message.kind == DEC and %s:\n        return 9\n" % HELD + ARRIVAL),
        mutant("in order: Held tested besides, as 21", "in_order", ARRIVAL,
               "    if message.kind == DEC and %s:\n        return 21\n" % HELD + ARRIVAL),
        mutant("in order: Held in place of order", "in_order", FRONT_TEST,
               "    if message.kind == DEC and %s:\n        return 9\n" % HELD),
        mutant("in order: an older number is taken", "in_order", IS_FRONT,
               "        return self.behind[slot] == 0 or self.behind[slot] >= 32768\n"),
        mutant("in order: a number at most the next one is taken", "in_order", IS_FRONT,
               "        return self.number_of(slot) <= self.front\n"),
        mutant("in order: the low byte of the number alone is tested", "in_order", IS_FRONT,
               "        return self.behind[slot] % 256 == 0\n"),
        mutant("in order: the oldest message in the pool is taken, whatever its number", "in_order", IS_FRONT,
               "        return self.behind[slot] == min(self.behind.values())\n"),
        mutant("in order: a receive tests the next number to post", "in_order", IS_FRONT,
               "        return self.behind[slot] == self.joins\n"),
        mutant("in order: the number that was received last is wanted", "in_order", IS_FRONT,
               "        return self.behind[slot] == NUMBERS - 1\n")]


def orders():
    def early(wrong, kind, number):
        return mutant("in order: " + wrong, "in_order", FRONT_TEST,
                      "    if message.kind == %s and WHY_NO_ARRIVAL[%s](desk, message):\n        return %d\n" % (
                          kind, kind, number) + FRONT_TEST)
    return [
        early("4 before 21", "COPY", 4), early("10 before 21", "DEC", 10), early("6 before 21", "INC_DEC", 6),
        mutant("in order: a DEC to a counter at 0 gives 21", "in_order",
               "        (COUNTER_ZERO, lambda: desk.count", "        (OUT_OF_ORDER, lambda: desk.count"),
        mutant("in order: 21 for an empty slot", "in_order", "        return EMPTY_SLOT\n",
               "        return OUT_OF_ORDER\n"),
        mutant("in order: tables: 2 before 1", "in_order_tables",
               "        (BAD_SHAPE, lambda: breaks_shape(lent)),\n        (BAD_TABLE, lambda: breaks_table(lent)),\n",
               "        (BAD_TABLE, lambda: breaks_table(lent)),\n        (BAD_SHAPE, lambda: breaks_shape(lent)),\n")]


def numberings():
    """Who numbers what."""
    return [
        mutant("in order: a numbering by pointer", "in_order", QUEUE_OF,
               "        return self.queues[message.pointer % self.sites, message.pointer % self.sites]\n"),
        mutant("in order: the oldest of its pair and pointer is taken", "in_order", FRONT_TEST,
               "    queue = desk.queue_of(message)\n"
               "    if queue.behind[slot] != min(steps for other, steps in queue.behind.items()\n"
               "                                 if desk.slots[other].pointer == message.pointer):\n"
               "        return OUT_OF_ORDER\n"),
        mutant("in order: the oldest of its pair and kind is taken", "in_order", FRONT_TEST,
               "    queue = desk.queue_of(message)\n"
               "    if queue.behind[slot] != min(steps for other, steps in queue.behind.items()\n"
               "                                 if desk.slots[other].kind == message.kind):\n"
               "        return OUT_OF_ORDER\n"),
        mutant("in order: a numbering by sender", "in_order", QUEUE_OF,
               "        return self.queues[message.sender, message.sender]\n"),
        mutant("in order: a numbering by receiver", "in_order", QUEUE_OF,
               "        return self.queues[message.receiver, message.receiver]\n"),
        mutant("in order: one numbering for all", "in_order", QUEUE_OF, "        return self.queues[0, 0]\n"),
        mutant("in order: one numbering for both directions", "in_order", QUEUE_OF,
               "        return self.queues[tuple(sorted((message.sender, message.receiver)))]\n"),
        mutant("in order: pair (b, a)", "in_order", QUEUE_OF,
               "        return self.queues[message.receiver, message.sender]\n"),
        mutant("in order: pair (a, b) at b x S + a", "in_order_tables", PLACE,
               "    return receiver * sites + sender\n"),
        mutant("in order: an INC_DEC is numbered by its third site", "in_order", QUEUE_OF,
               "        return self.queues[message.sender, message.third if message.kind == INC_DEC"
               " else message.receiver]\n"),
        mutant("in order: a post is numbered by the pair turned round", "in_order", POSTED,
               "        self.queues[message.receiver, message.sender].join(slot)\n"
               "        queue = self.queues[message.receiver, message.sender]\n"
               "        self.queue_of(message).behind[slot] = (queue.number_of(slot)"
               " - self.queue_of(message).front) % NUMBERS\n        del queue.behind[slot]\n")]


def advances():
    """What moves the two tables."""
    unmoved = REPLY_JOINS + "        desk.queue_of(reply).joins = (desk.queue_of(reply).joins - 1) % NUMBERS\n"
    numbered_by = (REPLY_JOINS.replace("reply", "message")
                   + "        queue, own = desk.queue_of(message), desk.queue_of(reply)\n"
                   "        own.behind[slot] = (queue.number_of(slot) - own.front) % NUMBERS\n"
                   "        if own is not queue:\n            del queue.behind[slot]\n")

    def refusal_moves(wrong, condition, step):
        return mutant("in order: " + wrong, "in_order", REFUSED,
                      "    if number:\n        if %s:\n            queue = desk.queue_of(desk.slots[slot])\n"
                      "            %s\n        return refused(number)\n    message = desk.slots[slot]\n" % (
                          condition, step))
    forward = ("queue.behind = {s: (n - 1) % NUMBERS for s, n in queue.behind.items()}; "
               "queue.joins = (queue.joins - 1) % NUMBERS; queue.front = (queue.front + 1) % NUMBERS")
    return [
        refusal_moves("21 advances the next number", "number == 21", forward),
        refusal_moves("a refused COPY, DEC or INC_DEC advances the next number", "number in (4, 6, 10)", forward),
        refusal_moves("21 numbers the message anew", "number == 21",
                      "queue.join(slot); queue.joins = (queue.joins - 1) % NUMBERS"),
        mutant("in order: a refused make copy advances the next to post", "in_order",
               "make_copy, delete, ask = machine.make_copy, machine.delete, machine.ask\n",
               "delete, ask = machine.delete, machine.ask\n\n\ndef make_copy(desk, sender, receiver, pointer):\n"
               "    answer = machine.make_copy(desk, sender, receiver, pointer)\n"
               "    if answer.number >= 4:\n        queue = desk.queues[sender, receiver]\n"
               "        queue.joins = (queue.joins + 1) % NUMBERS\n    return answer\n"),
        mutant("in order: a receive does not advance", "in_order", LEAVE,
               "    del desk.queue_of(message).behind[slot]\n"),
        mutant("in order: a receive advances by two", "in_order", LEAVE,
               LEAVE + "    queue = desk.queue_of(message)\n    " + forward + "\n"),
        mutant("in order: a receive also advances the next to post", "in_order", LEAVE,
               LEAVE + "    desk.queue_of(message).joins = (desk.queue_of(message).joins + 1) % NUMBERS\n"),
        mutant("in order: a DEC does not advance", "in_order", LEAVE,
               "    if message.kind == DEC:\n        del desk.queue_of(message).behind[slot]\n    else:\n    " + LEAVE),
        mutant("in order: a reply is unnumbered", "in_order", REPLY_JOINS,
               "        desk.queue_of(reply).behind[slot] = -desk.queue_of(reply).front % NUMBERS\n"),
        mutant("in order: a reply has its number but does not advance", "in_order", REPLY_JOINS, unmoved),
        mutant("in order: a reply is numbered by the handled message's pair", "in_order", REPLY_JOINS, numbered_by),
        mutant("in order: a reply keeps the handled message's number", "in_order", LEAVE,
               "    kept = desk.queue_of(message).front\n" + LEAVE, "in_order", REPLY_JOINS,
               REPLY_JOINS + "        queue = desk.queue_of(reply)\n"
               "        queue.behind[slot] = (kept - queue.front) % NUMBERS\n"),
        mutant("in order: a reply is numbered before the receive advances, by one numbering", "in_order",
               REPLY_JOINS, REPLY_JOINS + "        if desk.queue_of(reply) is desk.queue_of(message):\n"
               "            desk.queue_of(reply).behind[slot] = (desk.queue_of(reply).behind[slot] - 1) % NUMBERS\n"),
        mutant("in order: a reply is numbered when it is received", "in_order", REPLY_JOINS,
               "        desk.queue_of(reply).behind[slot] = 0\n"),
        mutant("in order: a DEC of a delete is unnumbered", "in_order", POSTED,
               "        if message.kind == DEC:\n            self.queue_of(message).behind[slot] ="
               " -self.queue_of(message).front % NUMBERS\n        else:\n    " + POSTED),
        mutant("in order: a post is numbered from 1", "in_order", POSTED,
               POSTED + "        self.queue_of(message).behind[slot] += 1\n"),
        mutant("in order: a post does not advance", "in_order", POSTED,
               POSTED + "        self.queue_of(message).joins -= 1\n")]


def wraps():
    return [
        mutant("in order: the next to post stays at 65,535", "in_order", NEXT,
               "        return 65535 if self.joined and not (self.front + self.joins) % NUMBERS else"
               " (self.front + self.joins) % NUMBERS\n", "in_order", JOIN, JOIN + "        self.joined = True\n",
               "in_order", "        self.joins = joins          #",
               "        self.joined, self.joins = False, joins  #"),
        mutant("in order: the next to receive stays at 65,535", "in_order", FRONT_MOVES,
               "        self.front = min(self.front + 1, 65535)\n"),
        mutant("in order: after 65,535 comes 1", "in_order", FRONT_MOVES,
               "        self.front = self.front % 65535 + 1\n"),
        mutant("in order: numbers wrap at 65,535", "in_order", FRONT_MOVES,
               "        self.front = (self.front + 1) % 65535\n"),
        mutant("in order: a copy at 65,535 is refused by 6", "in_order",
               "make_copy, delete, ask = machine.make_copy, machine.delete, machine.ask\n",
               "delete, ask = machine.delete, machine.ask\n\n\ndef make_copy(desk, sender, receiver, pointer):\n"
               "    number = machine.why_no_copy(desk, sender, receiver, pointer)\n"
               "    if number in (0, 7) and desk.queues[sender, receiver].next_number() == 65535:\n"
               "        return refused(6)\n    return machine.make_copy(desk, sender, receiver, pointer)\n"),
        mutant("in order: a receive at 65,535 is refused by 6", "in_order", ARRIVAL,
               "    if desk.queue_of(message).front == 65535:\n        return 6\n" + ARRIVAL),
        mutant("in order: numbers of fifteen bits", "in_order", FRONT_MOVES,
               "        self.front = (self.front + 1) % 32768\n"),
        mutant("in order: numbers of eight bits", "in_order_tables", NUMBER_BYTES, "bytes((0, number & 255))")]


def parts():
    """Slots of seven bytes, and the two tables."""
    post, get = "            or len(lent.to_post) != pairs\n", "            or len(lent.to_receive) != pairs)\n"
    return [
        mutant("in order: a number's low byte comes first", "in_order_tables", NUMBER_BYTES,
               "bytes((number & 255, number >> 8))", "in_order_tables", READ_NUMBER,
               "    return 256 * slot[6] + slot[5]\n"),
        mutant("in order: an empty slot may have a number", "in_order_tables", EMPTY_TEST,
               EMPTY_TEST.replace("any(slot)", "any(slot[:5])")),
        mutant("in order: an emptied slot keeps its number", "in_order_tables",
               "    answer = call(desk, *arguments)\n    return answer, encode(desk)\n",
               "    answer = call(desk, *arguments)\n    after, pool = encode(desk), bytearray(encode(desk).pool)\n"
               "    for at in range(0, len(pool), 7):\n        if not any(pool[at:at + 7]):\n"
               "            pool[at + 5:at + 7] = lent.pool[at + 5:at + 7]\n"
               "    return answer, after._replace(pool=bytes(pool))\n"),
        mutant("in order: a number that is not posted yet is BadTable", "in_order_tables",
               "    return (tables.breaks_owners(lent.sites, lent.owners)\n",
               "    return (tables.breaks_owners(lent.sites, lent.owners)\n"
               "            or any(slot[0] and max(slot[1:3]) < lent.sites and number_of(slot) >="
               " lent.to_post[slot[1] * lent.sites + slot[2]] for slot in slots_of(lent.pool))\n"),
        mutant("in order: a next to post below the next to receive is BadTable", "in_order_tables",
               "    return (tables.breaks_owners(lent.sites, lent.owners)\n",
               "    return (tables.breaks_owners(lent.sites, lent.owners)\n"
               "            or any(a < b for a, b in zip(lent.to_post, lent.to_receive))\n"),
        mutant("in order: slots of five bytes", "in_order_tables", "SLOT_BYTES = 7\n", "SLOT_BYTES = 5\n",
               "in_order_tables", READ_NUMBER, "    return 0\n", "in_order_tables", " + " + NUMBER_BYTES, ""),
        mutant("in order: a pool with a broken slot at its end is taken", "in_order_tables",
               "            or len(lent.pool) % SLOT_BYTES != 0 or", "            or"),
        mutant("in order: 1,025 slots are taken", "in_order_tables", "> MOST_SLOTS", "> MOST_SLOTS + 1"),
        mutant("in order: 1,024 slots are not taken", "in_order_tables", "> MOST_SLOTS", ">= MOST_SLOTS"),
        mutant("in order: a next to post that is too long is taken", "in_order_tables", post, post.replace("!=", "<")),
        mutant("in order: a next to receive that is too long is taken", "in_order_tables", get, get.replace("!=", "<")),
        mutant("in order: a next to post that is too short is taken", "in_order_tables", post, post.replace("!=", ">"),
               "in_order_tables", "for table in (lent.to_receive, lent.to_post))",
               "for table in (lent.to_receive, lent.to_post + (0,) * 4096))"),
        mutant("in order: a next to receive that is too short is taken", "in_order_tables", get, get.replace("!=", ">"),
               "in_order_tables", "for table in (lent.to_receive, lent.to_post))",
               "for table in (lent.to_receive + (0,) * 4096, lent.to_post))"),
        mutant("in order: the tables are S x G", "in_order_tables", "lent.sites * lent.sites",
               "lent.sites * len(lent.owners)")]


def openings():
    return [
        mutant("in order: opening leaves the next to post", "in_order_tables", OPENED,
               OPENED.replace("encode(opened)", "encode(opened)._replace(to_post=lent.to_post)")),
        mutant("in order: opening leaves the next to receive", "in_order_tables", OPENED,
               OPENED.replace("encode(opened)", "encode(opened)._replace(to_receive=lent.to_receive)")),
        mutant("in order: opening leaves the diagonals", "in_order_tables", OPENED,
               "    n, after = lent.sites, encode(opened)\n"
               "    kept = tuple(old if at // n == at % n else new for at, (old, new) in"
               " enumerate(zip(lent.to_post, after.to_post)))\n"
               "    return Answer(ACCEPTED, 0, None), after._replace(to_post=kept)\n"),
        mutant("in order: opening starts at 1", "in_order", "def __init__(self, front=0, joins=0)",
               "def __init__(self, front=1, joins=0)"),
        mutant("in order: opening posts from 1", "in_order", "def __init__(self, front=0, joins=0)",
               "def __init__(self, front=0, joins=1)"),
        mutant("in order: opening leaves the pool", "in_order_tables", OPENED,
               OPENED.replace("encode(opened)", "encode(opened)._replace(pool=lent.pool)")),
        mutant("in order: opening tests the pool", "in_order_tables",
               "        (BAD_TABLE, lambda: tables.breaks_owners(lent.sites, lent.owners)),\n",
               "        (BAD_TABLE, lambda: breaks_table(lent) ),\n"),
        mutant("in order: owner 255 is taken", "in_order_tables",
               "        (BAD_TABLE, lambda: tables.breaks_owners(lent.sites, lent.owners)),\n",
               "        (BAD_TABLE, lambda: tables.breaks_owners(lent.sites,"
               " lent.owners.replace(b'\\xff', b'\\0'))),\n"),
        mutant("in order: a refusal empties the tables", "in_order_tables", "        return refusal(number), lent\n",
               "        return refusal(number), lent._replace(to_post=(0,) * len(lent.to_post))\n")]


def answers():
    reply = "    return Answer(ACCEPTED, slot, reply)\n"
    return [
        mutant("in order: a reply goes to the lowest empty slot", "in_order",
               "    desk.slots[slot] = reply\n    if reply is not None:\n" + REPLY_JOINS,
               "    desk.slots[slot] = None\n    if reply is not None:\n        desk.post(reply)\n"),
        mutant("in order: a receive tells the empty slots", "in_order", reply,
               reply.replace("reply)", "reply, desk.empty_slots())")),
        mutant("in order: a receive tells the number", "in_order", reply,
               reply.replace("slot, reply", "desk.queue_of(message).front, reply")),
        mutant("in order: a receive tells no message", "in_order", reply, reply.replace("reply)", "None)")),
        mutant("in order: a share counts only what can be received", "in_order",
               "share, sheet = machine.share, machine.sheet\n",
               "sheet = machine.sheet\n\n\ndef share(desk, site, pointer):\n"
               "    kept, desk.slots = desk.slots, [m if m and desk.queue_of(m).is_front(n) else None"
               " for n, m in enumerate(desk.slots)]\n"
               "    answer = machine.share(desk, site, pointer)\n    desk.slots = kept\n    return answer\n"),
        mutant("in order: a sheet counts only what can be received", "in_order",
               "share, sheet = machine.share, machine.sheet\n",
               "share = machine.share\n\n\ndef sheet(desk, pointer):\n"
               "    kept, desk.slots = desk.slots, [m if m and desk.queue_of(m).is_front(n) else None"
               " for n, m in enumerate(desk.slots)]\n"
               "    answer = machine.sheet(desk, pointer)\n    desk.slots = kept\n    return answer\n"),
        mutant("in order: a sheet of another length is cleared", "in_order_tables",
               "return BAD_SHAPE, list(paper), lent", "return BAD_SHAPE, [0] * len(paper), lent")]


def all_mutants():
    groups = (tests_of_order, orders, numberings, advances, wraps, parts, openings, answers)
    return [found for group in groups for found in group()]
