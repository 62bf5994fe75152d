"""Calls over lent tables that are the same for every seed: the document's examples and the extremes."""

from desk import COPY, DEC, INC_DEC
from lent_books import book_of
from lent_text import BookParts, LentCall
from tables import Lent

FULL = 65535
NO_SLOT = (0, 0, 0, 0, 0)


def tables_of(sites, owners, counts=(), holders=(), slots=()):
    """Good tables from few words: counts as {(site, pointer): count}, holders beside the owners."""
    pointers = len(owners)
    send = [0] * (sites * pointers)
    receive = [0] * (sites * pointers)
    for (site, pointer), count in dict(counts).items():
        send[site * pointers + pointer] = count
    for site, pointer in list(holders) + [(site, pointer) for pointer, site in enumerate(owners)]:
        receive[site * pointers + pointer] = 1
    pool = bytes(byte for slot in slots for byte in slot)
    return Lent(sites, bytes(owners), tuple(send), bytes(receive), pool)


def without_cell(lent, site, pointer):
    receive = bytearray(lent.receive)
    receive[site * len(lent.owners) + pointer] = 0
    return lent._replace(receive=bytes(receive))


def garbage(sites, pointers, slots):
    """Parts whose contents break every rule but whose lengths fit."""
    cells = sites * pointers
    return Lent(sites, bytes(pointers), (0xBEEF,) * cells, b"\xAA" * cells, b"\xFF" * (5 * slots))


def document_examples():
    """What document 01 says of lent tables of other origin."""
    minus_one = tables_of(2, [0], slots=[(INC_DEC, 1, 0, 0, 0)])
    two_sums = tables_of(2, [0], {(1, 0): 1}, [(1, 0)], [NO_SLOT])
    return [
        ("share", minus_one, (1, 0)),
        ("ask", two_sums, (0, 0)),
        ("ask", two_sums, (1, 0)),
        ("delete", without_cell(two_sums, 0, 0), (0, 0)),
    ]


def openings():
    """The largest and smallest shapes, and one step beyond each."""
    calls = [("open", garbage(*shape), ()) for shape in (
        (1, 0, 0), (1, 1, 1), (64, 1, 1), (65, 1, 1), (0, 1, 1), (0, 0, 0), (255, 0, 0),
        (2, 1, 1024), (2, 1, 1025), (64, 256, 1), (1, 256, 0), (1, 257, 0), (3, 2, 0))]
    good = garbage(3, 2, 2)
    spoilt = [
        good._replace(send=good.send[:-1]), good._replace(send=good.send + (0,)),
        good._replace(receive=good.receive[:-1]), good._replace(receive=good.receive + b"\0"),
        good._replace(pool=good.pool[:-1]), good._replace(pool=good.pool + b"\0"),
        good._replace(owners=b"\0\3"), good._replace(owners=b"\2\2"),
        good._replace(owners=b"\3"), good._replace(send=(), owners=b"\0\xff")]
    return calls + [("open", lent, ()) for lent in spoilt]


def asks():
    """3 before 13, and counters whose bytes are not both 0."""
    counted = tables_of(2, [0, 1], {(0, 0): 256, (1, 1): 255, (1, 0): 0})
    return [("ask", counted, names) for names in (
        (0, 0), (1, 1), (1, 0), (2, 0), (0, 2), (2, 2), (255, 255))] + [
            ("ask", tables_of(2, [0], {(0, 0): FULL}), (0, 0)), ("ask", tables_of(1, []), (0, 0)),
            ("ask", tables_of(1, [0]), (0, 0))]


def copies():
    """Each refusal of a make copy by itself and two at once, and the last counter below the top."""
    room = tables_of(3, [0], holders=[(1, 0)], slots=[NO_SLOT])
    full = tables_of(3, [0], {(0, 0): FULL, (1, 0): FULL}, slots=[(COPY, 0, 1, 0, 0)])
    top = tables_of(3, [0], {(0, 0): FULL, (1, 0): FULL - 1}, [(1, 0)], [NO_SLOT])
    ownerless = without_cell(room, 0, 0)
    calls = [(room, (1, 2, 0)), (room, (2, 1, 0)), (room, (2, 2, 0)), (room, (3, 3, 0)),
             (room, (0, 3, 0)), (room, (0, 1, 1)), (full, (2, 1, 0)), (full, (1, 2, 0)),
             (full, (0, 1, 0)), (top, (0, 1, 0)), (top, (1, 0, 0)), (ownerless, (0, 2, 0)),
             (tables_of(3, [0]), (0, 1, 0)), (tables_of(2, []), (0, 1, 0)),
             (tables_of(1, [0], slots=[NO_SLOT]), (0, 0, 0))]
    return [("copy", lent, names) for lent, names in calls]


def arrivals():
    """Messages that no opening leads to, and those that one does."""
    def one(message, counts=(), holders=(), more=()):
        return tables_of(4, [0, 2], counts, holders, [message, *more])
    to_owner = one((COPY, 1, 0, 0, 0))
    dec = (DEC, 1, 0, 0, 0)
    counted = {(0, 0): 1}
    lents = [
        to_owner, without_cell(to_owner, 0, 0), one((COPY, 0, 1, 0, 0)), one((COPY, 1, 3, 0, 0)),
        one((COPY, 1, 3, 0, 0), holders=[(3, 0)]), one((COPY, 1, 1, 0, 0)),
        one((COPY, 1, 1, 0, 0), holders=[(1, 0)]), without_cell(one((COPY, 0, 0, 0, 0)), 0, 0),
        one((COPY, 3, 2, 0, 0)), one((COPY, 3, 2, 0, 1)),
        one(dec), one(dec, counted), one(dec, {(0, 0): FULL}), one((DEC, 1, 1, 0, 0), {(1, 0): 9}),
        one(dec, counted, more=[(INC_DEC, 1, 0, 3, 0)]), one(dec, more=[(INC_DEC, 1, 0, 3, 0)]),
        one(dec, counted, more=[(INC_DEC, 2, 0, 1, 0)]), one(dec, counted, more=[(INC_DEC, 2, 0, 0, 0)]),
        one(dec, counted, more=[(INC_DEC, 1, 2, 0, 0)]), one(dec, counted, more=[(INC_DEC, 1, 0, 0, 1)]),
        one(dec, counted, more=[(INC_DEC, 0, 1, 1, 0)]), one(dec, counted, more=[(DEC, 1, 0, 0, 0)]),
        one(dec, counted, more=[(COPY, 1, 0, 0, 0)]), one(dec, counted, more=[(INC_DEC, 1, 0, 0, 0)]),
        one(dec, counted, more=[(INC_DEC, 1, 0, 1, 0)]),
        one((INC_DEC, 1, 0, 3, 0)), one((INC_DEC, 1, 0, 3, 0), {(0, 0): FULL}),
        one((INC_DEC, 1, 0, 3, 0), {(0, 0): FULL - 1}), one((INC_DEC, 1, 3, 2, 0)),
        one((INC_DEC, 1, 1, 1, 0)), one((INC_DEC, 1, 3, 2, 0), {(0, 0): FULL}),
        one(NO_SLOT)]
    return [("receive", lent, (0,)) for lent in lents] + [
        ("receive", one(dec, counted), (1,)), ("receive", one(dec, counted), (256,)),
        ("receive", tables_of(2, [0]), (0,)),
        ("receive", tables_of(2, [0], {(0, 0): 5}, slots=[NO_SLOT] * 1023 + [dec]), (1023,)),
        ("receive", tables_of(2, [0], {(0, 0): 5}, slots=[NO_SLOT] * 1023 + [dec]), (1024,)),
        ("receive", tables_of(2, [0], {(0, 0): 5}, slots=[NO_SLOT] * 256 + [dec]), (0,))]


def deletes():
    """Each refusal of a delete by itself and two at once."""
    room = tables_of(3, [0], {(2, 0): 1}, [(1, 0)], [(COPY, 0, 1, 0, 0), NO_SLOT])
    counted = tables_of(3, [0], {(1, 0): 1, (0, 0): 1}, [(1, 0)], [(COPY, 0, 1, 0, 0)])
    full = tables_of(3, [0], {}, [(1, 0)], [(COPY, 0, 1, 0, 0)])
    calls = [(room, (1, 0)), (room, (2, 0)), (room, (0, 0)), (room, (3, 0)), (room, (1, 1)),
             (counted, (1, 0)), (counted, (0, 0)), (full, (1, 0)), (full, (2, 0)), (full, (0, 0)),
             (without_cell(full, 0, 0), (0, 0)), (without_cell(counted, 0, 0), (0, 0))]
    return [("delete", lent, names) for lent, names in calls]


def shares_and_sheets():
    """The ends of a share, every kind beside its near misses, and a column of 1,024."""
    low = tables_of(2, [0], slots=[(INC_DEC, 1, 0, 1, 0)] * 1024)
    high = tables_of(2, [0], holders=[(1, 0)], slots=[(DEC, 1, 0, 0, 0)] * 1024)
    mixed = tables_of(4, [0, 0], holders=[(1, 0)], slots=[
        (DEC, 1, 0, 0, 0), (DEC, 1, 2, 0, 0), (DEC, 0, 1, 0, 0), (DEC, 1, 0, 0, 1),
        (COPY, 0, 1, 0, 0), (COPY, 2, 1, 0, 0), (COPY, 1, 0, 0, 0), (COPY, 0, 1, 0, 1),
        (INC_DEC, 1, 0, 2, 0), (INC_DEC, 1, 2, 0, 0), (INC_DEC, 2, 0, 1, 0), (INC_DEC, 1, 0, 2, 1)])
    bad = mixed._replace(receive=b"\2" + mixed.receive[1:])
    last_site = tables_of(64, [63], slots=[(DEC, 63, 63, 0, 0)])
    shares = [(low, (1, 0)), (high, (1, 0)), (high, (0, 0)), (mixed, (1, 0)), (mixed, (2, 0)),
              (mixed, (3, 0)), (mixed, (0, 0)), (mixed, (1, 1)), (mixed, (4, 0)), (mixed, (1, 2)),
              (bad, (0, 0)), (bad, (9, 9))]
    sheets = [(low, (0, 192)), (high, (0, 192)), (mixed, (0, 192)), (mixed, (1, 192)),
              (mixed, (2, 192)), (bad, (0, 192)), (bad, (9, 192)), (mixed, (0, 191)),
              (mixed, (0, 193)), (bad, (0, 0)), (last_site, (0, 192))]
    return ([("share", lent, names) for lent, names in shares]
            + [("sheet", lent, names) for lent, names in sheets])


def damaged_tables():
    """Each way to break the table, asked with a call that is otherwise accepted, and with a bad name."""
    good = tables_of(3, [0, 1], slots=[NO_SLOT, (INC_DEC, 1, 0, 2, 0)])
    bad_slots = [(4, 0, 0, 0, 0), (0, 1, 0, 0, 0), (0, 0, 1, 0, 0), (0, 0, 0, 1, 0), (0, 0, 0, 0, 1),
                 (COPY, 3, 0, 0, 0), (COPY, 0, 3, 0, 0), (COPY, 0, 1, 1, 0), (COPY, 0, 1, 0, 2),
                 (DEC, 3, 0, 0, 0), (DEC, 0, 3, 0, 0), (DEC, 0, 1, 2, 0), (DEC, 0, 1, 0, 2),
                 (INC_DEC, 3, 0, 0, 0), (INC_DEC, 0, 3, 0, 0), (INC_DEC, 0, 1, 3, 0),
                 (INC_DEC, 0, 1, 0, 2), (255, 255, 255, 255, 255)]
    lents = [good, good._replace(owners=b"\0\3"), good._replace(receive=b"\1\0\0\2\0\0"),
             good._replace(sites=2), good._replace(sites=0), good._replace(pool=good.pool[:-1]),
             good._replace(pool=good.pool[:-1], receive=b"\1\0\0\2\0\0"),
             good._replace(send=good.send[:-1]), good._replace(receive=good.receive + b"\0")]
    lents += [good._replace(pool=good.pool[:5] + bytes(slot)) for slot in bad_slots]
    some = lents[1:8] + [good._replace(pool=good.pool[:5] + bytes(bad_slots[0]))]
    calls = [("copy", (9, 9, 9)), ("receive", (0,)), ("receive", (9,)), ("delete", (1, 0)),
             ("delete", (9, 9)),
             ("ask", (0, 0)), ("ask", (1, 0)), ("ask", (9, 9)), ("share", (0, 0)), ("share", (9, 9)),
             ("sheet", (0, 192)), ("sheet", (9, 192))]
    return ([("copy", lent, (0, 1, 0)) for lent in lents]
            + [(name, lent, names) for name, names in calls for lent in some])


def large_tables():
    """The largest desk there is, at its last names."""
    owners = [(7 * pointer) % 64 for pointer in range(256)]
    owners[255] = 63
    last = tables_of(64, owners, {(62, 255): 3}, [(62, 255)],
                     [(INC_DEC, 62, 63, 63, 255)] + [NO_SLOT] * 1022 + [(COPY, 62, 61, 0, 255)])
    return [("copy", last, (62, 63, 255)), ("receive", last, (1023,)), ("ask", last, (63, 255)),
            ("share", last, (62, 255)), ("sheet", last, (255, 192))]


def books():
    """The form of the book, and the three questions at their edges."""
    pair = BookParts(2, b"\0\1", book_of([b"AB", b"AB"]))
    twins = BookParts(2, b"\1\1", book_of([b"AB", b"AB"]))
    apart = BookParts(2, b"\1\0\1", book_of([b"AB", b"C", b"AB"]))
    empty = BookParts(1, b"", b"")
    names = [b"%41", b"A", b"a", b"A\0", b"A\0B", b"AB", b"\xc3\xa9", b"\xe9"]
    odd = BookParts(1, bytes(len(names)), book_of(names))
    most = BookParts(64, bytes(256), book_of([bytes([number]) * 255 for number in range(256)]))
    bad = [pair._replace(book=book) for book in (
        pair.book + b"\0", pair.book + b"A", pair.book[:-1], pair.book[:3], b"\0" + pair.book, b"",
        b"\2AB\0", b"\0\2AB", b"\1A\0\1B", b"\xffAB")]
    bad += [twins._replace(book=twins.book + b"A"), empty._replace(book=b"\0"), empty._replace(book=b"\1A")]
    late = [pair._replace(sites=0), pair._replace(sites=65), pair._replace(owners=b"\0\2"),
            BookParts(1, bytes(257), book_of([b"A"] * 257)), pair._replace(owners=b"\0\2", book=b"")]
    group = [pair, twins, apart, odd, empty, most] + bad + late
    calls = [("check", parts, ()) for parts in group]
    calls += [("address", parts, (pointer,)) for parts in group for pointer in (0, 1)]
    calls += [("address", most, (255,)), ("address", bad[0], (2,)), ("address", pair, (2,))]
    calls += [("search", parts, (1, b"AB")) for parts in group]
    calls += [("search", parts, names) for parts, names in (
        (pair, (0, b"AB")), (pair, (1, b"A")), (pair, (1, b"")), (pair, (2, b"AB")), (pair, (2, b"Z")),
        (pair, (1, b"ABC")), (bad[0], (2, b"AB")), (most, (0, b"\xff" * 255)), (most, (0, b"\xff" * 256)),
        (apart, (1, b"AB")), (apart, (0, b"AB")), (pair, (255, b"AB")))]
    return calls + [("search", odd, (0, name)) for name in names + [b"\0", b"%61", b"B", b"A\0BC"]]


def empty_slots():
    """What is told of the empty slots: one, none, all of 1,024, and some in any order."""
    dec = (DEC, 1, 0, 0, 0)
    def pool(*full):
        slots = [dec if number in full else NO_SLOT for number in range(6)]
        return tables_of(2, [0], {(0, 0): 2}, [(1, 0)], slots)
    lents = [tables_of(2, [0], holders=[(1, 0)], slots=slots) for slots in (
        [], [NO_SLOT], [dec], [NO_SLOT] * 1024, [dec] * 1024, [dec] + [NO_SLOT] * 1023,
        [NO_SLOT] * 1023 + [dec], [dec] * 1023 + [NO_SLOT], [NO_SLOT] * 256, [dec] + [NO_SLOT] * 256)]
    lents += [pool(), pool(0), pool(5), pool(0, 1, 2), pool(3, 4, 5), pool(0, 2, 4), pool(1, 3, 5),
              pool(1, 2, 3, 4, 5), pool(0, 1, 2, 3, 4), pool(0, 1, 2, 3, 4, 5)]
    calls = [("copy", (0, 1, 0)), ("copy", (1, 0, 0)), ("delete", (1, 0)), ("delete", (0, 0)),
             ("copy", (0, 0, 0)), ("ask", (0, 0)), ("receive", (0,)), ("open", ())]
    return [(name, lent, names) for lent in lents for name, names in calls]


def sheet_columns():
    """The column of each kind, owner and third site included, and sums that no opening leads to."""
    inc_dec, dec = (INC_DEC, 2, 0, 1, 0), (DEC, 2, 0, 0, 0)
    lents = [
        tables_of(3, [0], {(0, 0): 1}, [(1, 0)], [NO_SLOT] * 4),
        tables_of(3, [0], {(0, 0): 1, (1, 0): 1}, [(1, 0), (2, 0)], [inc_dec] + [NO_SLOT] * 3),
        tables_of(3, [0], {(0, 0): 1, (1, 0): 1}, [(1, 0)], [inc_dec, dec, NO_SLOT, NO_SLOT]),
        tables_of(2, [0], {(1, 0): 1})]
    messages = [(COPY, 1, 2, 0, 0), (DEC, 1, 2, 0, 0), (INC_DEC, 1, 2, 3, 0), (INC_DEC, 1, 3, 1, 0),
                (INC_DEC, 1, 2, 0, 0), (INC_DEC, 0, 0, 0, 0), (COPY, 0, 3, 0, 0), (COPY, 3, 0, 0, 0),
                (DEC, 3, 0, 0, 0), (DEC, 0, 3, 0, 0), (COPY, 3, 3, 0, 0), (INC_DEC, 3, 1, 0, 1)]
    lents += [tables_of(4, [0, 2], slots=[message, NO_SLOT]) for message in messages]
    lents += [tables_of(4, [0, 2], slots=messages), tables_of(4, [3, 3], slots=messages[::-1]),
              tables_of(64, [0], slots=[(COPY, 63, 1, 0, 0), (DEC, 1, 63, 0, 0), (INC_DEC, 1, 0, 63, 0)])]
    lents += [tables_of(3, [0], slots=[message] * 1024) for message in ((COPY, 1, 2, 0, 0), dec, inc_dec)]
    return [("sheet", lent, (0, 192)) for lent in lents]


def fixed_calls():
    groups = (document_examples, openings, asks, copies, arrivals, deletes, shares_and_sheets,
              damaged_tables, books, large_tables, empty_slots, sheet_columns)
    return [LentCall(*call) for group in groups for call in group()]
