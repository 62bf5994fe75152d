"""The in-order variant (document 02, Three): a queue for each ordered pair of sites in place of Held."""

import desk as machine
from desk import ACCEPTED, COPY, DEC, INC_DEC, Answer, Desk, refused
from refusals import BAD_NAME, COUNTER_ZERO, EMPTY_SLOT, OUT_OF_ORDER, first_refusal

NUMBERS = 65536


class Queue:
    """The messages of one pair by how far behind the front they stand; numbers are those of the front plus that."""

    def __init__(self, front=0, joins=0):
        self.front = front          # the number that is to be received next
        self.joins = joins          # how far behind the front the next message joins
        self.behind = {}            # slot -> how far behind the front its message stands

    def join(self, slot):
        self.behind[slot] = self.joins
        self.joins = (self.joins + 1) % NUMBERS

    def is_front(self, slot):
        return self.behind[slot] == 0

    def leave(self, slot):
        """The message at the front goes, and all others move up."""
        del self.behind[slot]
        self.behind = {other: (steps - 1) % NUMBERS for other, steps in self.behind.items()}
        self.joins = (self.joins - 1) % NUMBERS
        self.front = (self.front + 1) % NUMBERS

    def number_of(self, slot):
        return (self.front + self.behind[slot]) % NUMBERS

    def next_number(self):
        """What the next message to join will be numbered."""
        return (self.front + self.joins) % NUMBERS


class OrderedDesk(Desk):
    """A desk whose messages stand in queues besides their slots."""

    def __init__(self, sites, owners, slot_count):
        super().__init__(sites, owners, slot_count)
        self.queues = {(a, b): Queue() for a in range(sites) for b in range(sites)}

    def queue_of(self, message):
        return self.queues[message.sender, message.receiver]

    def post(self, message):
        """The lowest empty slot, and the end of the pair's queue."""
        slot = super().post(message)
        self.queue_of(message).join(slot)
        return slot


def open_desk(sites, owners, slot_count):
    """As in the base; every pair starts at 0."""
    desk = OrderedDesk(sites, owners, slot_count)
    desk.holders = {(site, pointer) for pointer, site in desk.owner_of.items()}
    return desk


# Receive: 3, 8, 21, then COPY 4, DEC 10, INC_DEC 6.

def why_no_dec_arrival(desk, message):
    return first_refusal(
        (COUNTER_ZERO, lambda: desk.count(message.receiver, message.pointer) == 0),
    )


WHY_NO_ARRIVAL = {COPY: machine.why_no_copy_arrival, DEC: why_no_dec_arrival,
                  INC_DEC: machine.why_no_inc_dec_arrival}


def why_no_receive(desk, slot):
    if slot >= len(desk.slots):
        return BAD_NAME
    message = desk.slots[slot]
    if message is None:
        return EMPTY_SLOT
    if not desk.queue_of(message).is_front(slot):
        return OUT_OF_ORDER
    return WHY_NO_ARRIVAL[message.kind](desk, message)


def receive(desk, slot):
    """The front of a queue is handled; a reply takes its slot and joins the queue of its own pair."""
    number = why_no_receive(desk, slot)
    if number:
        return refused(number)
    message = desk.slots[slot]
    desk.queue_of(message).leave(slot)
    reply = machine.ARRIVALS[message.kind](desk, message)
    desk.slots[slot] = reply
    if reply is not None:
        desk.queue_of(reply).join(slot)
    return Answer(ACCEPTED, slot, reply)


# The other calls are those of the base; a post is by the desk's own `post`.
make_copy, delete, ask = machine.make_copy, machine.delete, machine.ask
share, sheet = machine.share, machine.sheet
