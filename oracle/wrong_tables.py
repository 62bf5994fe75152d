"""Wrong desks: the tests of lent tables (tables.py) and the address book (book.py)."""

from patched import mutant, swapped

SHAPE_TEST = "        (BAD_SHAPE, lambda: breaks_shape(lent)),\n"
TABLE_TEST = "        (BAD_TABLE, lambda: breaks_table(lent)),\n"
LENT_OWNERS_TEST = "        (BAD_TABLE, lambda: breaks_owners(lent.sites, lent.owners)),\n"
GROUP_TEST = "        (BAD_SHAPE, lambda: breaks_group(sites, owners)),\n"
OWNERS_TEST = "        (BAD_TABLE, lambda: breaks_owners(sites, owners)),\n"
OPENED = "machine.open_desk(lent.sites, lent.owners, len(lent.pool) // SLOT_BYTES)"


def early(call, names, number, condition):
    """A call that gives one of its own refusals before it has looked at the tables."""
    head = "def lent_%s(lent, %s):\n" % (call, names)
    answer = {"share": "ShareAnswer(%d, 0)", "sheet": "SheetAnswer(%d, machine.no_rows())"}.get(
        call, "refused(%d)") % number
    return mutant("%s: %d before 2" % (call.replace("_", " "), number), "tables", head,
                  head + "    if not breaks_shape(lent) and %s:\n        return %s, lent\n" % (condition,
                                                                                               answer))


def orders():
    known = "pointer < len(lent.owners)"
    return [
        swapped("calls: 2 before 1", "tables", SHAPE_TEST, TABLE_TEST),
        swapped("opening of lent parts: 2 before 1", "tables", SHAPE_TEST, LENT_OWNERS_TEST),
        swapped("opening line and book: 2 before 1", "tables", GROUP_TEST, OWNERS_TEST),
        early("make_copy", "sender, receiver, pointer", 3, "sender >= lent.sites"),
        early("receive", "slot", 3, "5 * slot >= len(lent.pool)"),
        early("delete", "site, pointer", 3, "not " + known),
        early("ask", "site, pointer", 13, known + " and lent.owners[pointer] != site"),
        early("share", "site, pointer", 11, known + " and lent.owners[pointer] == site"),
        early("sheet", "pointer", 3, "not " + known)]


def shapes():
    return [
        mutant("S = 65 is taken", "desk", "MOST_SITES, MOST_POINTERS, MOST_SLOTS = 64,",
               "MOST_SITES, MOST_POINTERS, MOST_SLOTS = 65,"),
        mutant("S = 64 is not taken", "desk", "MOST_SITES, MOST_POINTERS, MOST_SLOTS = 64,",
               "MOST_SITES, MOST_POINTERS, MOST_SLOTS = 63,"),
        mutant("S = 0 is taken", "tables", "not 1 <= sites <= MOST_SITES", "not 0 <= sites <= MOST_SITES"),
        mutant("S = 1 is not taken", "tables", "not 1 <= sites <= MOST_SITES",
               "not 2 <= sites <= MOST_SITES"),
        mutant("G = 0 is not taken", "tables", "or len(owners) > MOST_POINTERS",
               "or not 1 <= len(owners) <= MOST_POINTERS"),
        mutant("G = 256 is not taken", "tables", "or len(owners) > MOST_POINTERS",
               "or len(owners) >= MOST_POINTERS"),
        mutant("G = 257 is taken", "tables", "or len(owners) > MOST_POINTERS",
               "or len(owners) > MOST_POINTERS + 1"),
        mutant("1,025 slots are taken", "tables", "// SLOT_BYTES > MOST_SLOTS",
               "// SLOT_BYTES > MOST_SLOTS + 1"),
        mutant("1,024 slots are not taken", "tables", "// SLOT_BYTES > MOST_SLOTS",
               "// SLOT_BYTES >= MOST_SLOTS"),
        mutant("a pool with a broken slot at its end is taken", "tables",
               "            or len(lent.pool) % SLOT_BYTES != 0\n", ""),
        mutant("a send table that is too long is taken", "tables", "len(lent.send) != cells",
               "len(lent.send) < cells"),
        mutant("a receive table that is too long is taken", "tables", "len(lent.receive) != cells",
               "len(lent.receive) < cells")]


def contents():
    misnamed = "misnamed = sender >= sites or receiver >= sites or pointer >= pointers"
    return [
        mutant("owners are not tested in lent tables", "tables",
               "    return (breaks_owners(lent.sites, lent.owners)\n            or any(cell",
               "    return (any(cell"),
        mutant("an owner equal to S is taken", "tables", "any(owner >= sites for", "any(owner > sites for"),
        mutant("a receive byte above 1 is taken", "tables",
               "            or any(cell > 1 for cell in lent.receive)\n", ""),
        mutant("an empty slot may hold other bytes", "tables", "        return any(slot)\n",
               "        return False\n"),
        mutant("a kind above 3 is an empty slot", "tables", "    return True\n", "    return False\n",
               "tables", "Message(*slot) if slot[0] != EMPTY else None",
               "Message(*slot) if slot[0] in (1, 2, 3) else None"),
        mutant("the sender of a slot is not tested", "tables", misnamed,
               "misnamed = receiver >= sites or pointer >= pointers"),
        mutant("the receiver of a slot is not tested", "tables", misnamed,
               "misnamed = sender >= sites or pointer >= pointers"),
        mutant("the pointer of a slot is not tested", "tables", misnamed,
               "misnamed = sender >= sites or receiver >= sites"),
        mutant("a third site in a COPY or DEC is taken", "tables", "misnamed or third != 0", "misnamed"),
        mutant("a third site too large in an INC_DEC is taken", "tables", "misnamed or third >= sites",
               "misnamed"),
        mutant("third 0 is refused in an INC_DEC", "tables", "misnamed or third >= sites",
               "misnamed or not 0 < third < sites"),
        mutant("a COPY to its own sender is BadTable", "tables", "misnamed or third != 0",
               "misnamed or third != 0 or (kind == COPY and sender == receiver)"),
        mutant("an owner's cell at 0 is BadTable", "tables",
               "            or any(cell > 1 for cell in lent.receive)\n",
               "            or any(cell > 1 for cell in lent.receive)\n            or any(lent.receive[o * len("
               "lent.owners) + p] == 0 for p, o in enumerate(lent.owners))\n"),
        mutant("cells by pointer first", "tables", "divmod(place, pointers): count",
               "divmod(place, lent.sites)[::-1]: count", "tables", "{divmod(place, pointers)\n",
               "{divmod(place, lent.sites)[::-1]\n", "tables",
               "for site in range(desk.sites) for pointer in range(len(owners))]",
               "for pointer in range(len(owners)) for site in range(desk.sites)]")]


def openings():
    return [
        mutant("opening tests what the other parts held", "tables", LENT_OWNERS_TEST,
               TABLE_TEST.replace("(BAD", " (BAD")[1:]),
        mutant("opening leaves the counters", "tables",
               "    return Answer(ACCEPTED, 0, None), encode(opened)\n",
               "    return Answer(ACCEPTED, 0, None), encode(opened)._replace(send=lent.send)\n"),
        mutant("opening leaves the pool", "tables",
               "    return Answer(ACCEPTED, 0, None), encode(opened)\n",
               "    return Answer(ACCEPTED, 0, None), encode(opened)._replace(pool=lent.pool)\n"),
        mutant("opening sets no cell", "desk",
               "    desk.holders = {(site, pointer) for pointer, site in desk.owner_of.items()}\n", ""),
        mutant("opening sets every cell", "desk",
               "    desk.holders = {(site, pointer) for pointer, site in desk.owner_of.items()}\n",
               "    desk.holders = {(s, p) for p in desk.owner_of for s in range(sites)}\n"),
        mutant("a refusal empties the pool", "tables", "        return refusal(number), lent\n",
               "        return refusal(number), lent._replace(pool=bytes(len(lent.pool)))\n"),
        mutant("a sheet longer than 192 is taken", "tables", "    if len(paper) != SHEET_LENGTH:\n",
               "    if len(paper) < SHEET_LENGTH:\n"),
        mutant("a refused sheet is not written", "tables",
               "    return answer.number, machine.sheet_counts(answer.rows), after\n",
               "    return answer.number, list(paper) if answer.number else "
               "machine.sheet_counts(answer.rows), after\n"),
        mutant("a sheet of another length is cleared", "tables", "return BAD_SHAPE, list(paper), lent",
               "return BAD_SHAPE, [0] * len(paper), lent")]


def books():
    end = "    return parts if at == len(book) else None\n"
    return [
        mutant("book: a trailing byte is taken", "book", end,
               "    return parts if at <= len(book) else None\n"),
        mutant("book: a cut last address is taken", "book", end,
               "    return parts if at >= len(book) else None\n"),
        mutant("book: a length of 0 is taken", "book", "if at >= len(book) or book[at] == 0:",
               "if at >= len(book):"),
        mutant("book: an address stands at its length byte", "book", "parts[pointer] = (at + 1, book[at])",
               "parts[pointer] = (at, book[at])"),
        mutant("book: a part after a refusal is the whole book", "book",
               "        return Part(number, 0, 0)\n",
               "        return Part(number, 0, len(book))\n"),
    ]


def searches():
    equal = "owners[pointer] == owner and name == wanted]"
    return [
        mutant("book: search by prefix", "book", equal,
               "owners[pointer] == owner and name.startswith(wanted)]"),
        mutant("book: search by a prefix of what is wanted", "book", equal,
               "owners[pointer] == owner and wanted.startswith(name)]"),
        mutant("book: search by address alone", "book", equal, "name == wanted]"),
        mutant("book: search without regard to case", "book", equal,
               "owners[pointer] == owner and name.lower() == wanted.lower()]"),
        mutant("book: search undoes escapes", "book", equal,
               "owners[pointer] == owner and name.replace(b'%41', b'A') == wanted.replace(b'%41', b'A')]"),
        mutant("book: search ends an address at a NUL byte", "book", equal,
               "owners[pointer] == owner and name.split(b'\\0')[0] == wanted.split(b'\\0')[0]]"),
        mutant("book: search gives the highest pointer", "book", "min(found)", "max(found)")]


def book_orders():
    search_tests = ("        (BAD_NAME, lambda: owner >= sites),\n",
                    "        (NOT_LISTED, lambda: not found),\n")
    return [
        mutant("book: search also checks for twins", "book", search_tests[0], search_tests[0]
               + "        (TWINS, lambda: has_twins(owners, addresses_of(book, len(owners)))),\n"),
        mutant("book: twins without owners", "book", "{(owners[pointer], name) for", "{name for"),
        mutant("book: twins only where they are neighbours", "book",
               "    return len({(owners[pointer], name) for pointer, name in addresses.items()}) < len(addresses)",
               "    return any((owners[p], addresses[p]) == (owners[p + 1], addresses[p + 1])"
               " for p in range(len(addresses) - 1))"),
        mutant("book: twins are not looked for", "book",
               "first_refusal((TWINS, lambda: has_twins(owners, addresses)))", "0"),
        swapped("search: 20 before 3", "book", *search_tests),
        mutant("address: 3 before 18", "book",
               "    number = number or first_refusal((BAD_NAME, lambda: pointer >= len(owners)))\n",
               "    number = (BAD_NAME if pointer >= len(owners) and number in (0, BAD_BOOK) else number)\n"),
        mutant("search: 3 before 18", "book", "    number = number or first_refusal(\n        (BAD_NAME",
               "    number = BAD_NAME if number == BAD_BOOK and owner >= sites else number\n"
               "    number = number or first_refusal(\n        (BAD_NAME"),
        mutant("check: 19 before 18", "book",
               "    addresses = addresses_of(book, len(owners))\n    number = number or",
               "    addresses = addresses_of(book, len(owners))\n    twin = len(set(owners)) < len(owners)\n"
               "    number = TWINS if number == BAD_BOOK and twin else number\n    number = number or"),
        mutant("book: 18 before 1 and 2", "book",
               "    return why_no_opening(sites, owners) or first_refusal(\n"
               "        (BAD_BOOK, lambda: parts_of(book, len(owners)) is None),\n    )",
               "    return first_refusal(\n        (BAD_BOOK, lambda: parts_of(book, len(owners)) is None),\n"
               "    ) or why_no_opening(sites, owners)")]


def all_mutants():
    groups = (orders, shapes, contents, openings, books, searches, book_orders)
    return [found for group in groups for found in group()]
