"""The DGC-machine of the paper, Figures 7 to 9, with a true bag: the second opinion on the rules."""

from collections import Counter

COPY, DEC, INC_DEC = "COPY", "DEC", "INC_DEC"


class Machine:
    """A configuration: owners, send tables, receive tables and the bag of messages.

    A message is (name, emitter, receiver, GP), an INC_DEC has the third site behind that.
    """

    def __init__(self, owners):
        self.owners = dict(owners)
        self.send_t = Counter()
        self.rec_t = {(site, gp) for gp, site in self.owners.items()}
        self.bag = Counter()

    # Figure 8 and the side conditions of Figure 9.

    def may_make_copy(self, s1, s2, gp):
        return s1 != s2 and (s1 == self.owners[gp] or (s1, gp) in self.rec_t)

    def may_receive(self, message):
        name, s1, s2, gp = message[:4]
        if name == COPY:
            return s1 != s2
        if name == DEC:
            return not any(other[:4] == (INC_DEC, s1, s2, gp) for other in self.bag)
        return True

    def may_delete(self, s, gp):
        return self.send_t[s, gp] == 0 and (s, gp) in self.rec_t and self.owners[gp] != s

    # The transformers of Figure 9; each gives what it posted, or None.

    def post(self, *message):
        self.bag[message] += 1
        return message

    def make_copy(self, s1, s2, gp):
        self.send_t[s1, gp] += 1
        return self.post(COPY, s1, s2, gp)

    def receive(self, message):
        self.bag[message] -= 1
        if self.bag[message] == 0:
            del self.bag[message]
        name, s1, s2, gp = message[:4]
        if name == COPY:
            return self.receive_copy(s1, s2, gp)
        if name == INC_DEC:
            self.send_t[s2, gp] += 1
            return self.post(DEC, s2, message[4], gp)
        self.send_t[s2, gp] -= 1
        return None

    def receive_copy(self, s1, s2, gp):
        if (s2, gp) in self.rec_t:
            return self.post(DEC, s2, s1, gp)
        self.rec_t.add((s2, gp))
        if s1 != self.owners[gp]:
            return self.post(INC_DEC, s2, self.owners[gp], gp, s1)
        return None

    def delete(self, s, gp):
        self.rec_t.remove((s, gp))
        return self.post(DEC, s, self.owners[gp], gp)


class LinkedMachine(Machine):
    """The same machine over links that deliver in order: no number, and no condition on INC_DECs.

    A link is the list of what is on its way from one site to another, oldest first. Each message there is an
    object of its own, so that two alike are told apart.
    """

    def __init__(self, owners):
        super().__init__(owners)
        self.links = {}

    def post(self, *message):
        self.links.setdefault(message[1:3], []).append(list(message))
        return super().post(*message)

    def newest(self, message):
        """The message that was just posted, as it stands on its link."""
        return self.links[message[1:3]][-1]

    def is_oldest(self, on_link):
        return self.links[tuple(on_link[1:3])][0] is on_link

    def may_receive(self, on_link):
        return self.is_oldest(on_link) and (on_link[0] != COPY or on_link[1] != on_link[2])

    def receive(self, on_link):
        self.links[tuple(on_link[1:3])].pop(0)
        return super().receive(tuple(on_link))
