"""Wrong desks: the receive table as words (word_tables.py)."""

from patched import mutant, swapped

READ_BITS = "for site, digit in enumerate(reversed(\"{:064b}\".format(word))) if digit == \"1\"}"
WRITE_BIT = "    return 2 ** site\n"
BAD_BITS = "    return any(site >= sites for site in sites_of(word))\n"
WORD_COUNT = "len(lent.words) != len(lent.owners)"
WORDS_TEST = "any(breaks_word(word, lent.sites) for word in lent.words)"
SHAPE_TEST = "        (BAD_SHAPE, lambda: breaks_shape(lent)),\n"
TABLE_TEST = "        (BAD_TABLE, lambda: breaks_table(lent)),\n"
OWNERS_TEST = "        (BAD_TABLE, lambda: tables.breaks_owners(lent.sites, lent.owners)),\n"
OPENED = "    return Answer(ACCEPTED, 0, None), encode(opened)\n"
DONE = "    answer = call(desk, *arguments)\n    return answer, encode(desk)\n"
READ_WORDS = "for pointer, word in enumerate(lent.words) for site in sites_of(word)}"
ENCODED = "words_of(desk.holders, desk.owner_of)"
HOLDERS = "    return {site for site, held in desk.holders if held == pointer}\n"
COUNTED = "    return Answer(ACCEPTED, len(holders_of(desk, pointer)), None)\n"
COUNT_NAME = "    if desk.lacks_pointer(pointer):\n        return refused(BAD_NAME)\n"
COUNT = "def lent_count(lent, pointer):\n"
PAIR_TEST = "        (BAD_SHAPE, lambda: breaks_pair(sites, receive, words)),\n"
PACK_TEST = "        (BAD_TABLE, lambda: any(cell > 1 for cell in receive)),\n"
UNPACK_TEST = "        (BAD_TABLE, lambda: any(breaks_word(word, sites) for word in words)),\n"
PAIR_SITES = "    return (not 1 <= sites <= MOST_SITES or len(words) > MOST_POINTERS\n"
PAIR_LENGTH = "            or len(receive) != sites * len(words))\n"
HELD = "    held = [divmod(place, len(words)) for place, cell in enumerate(receive) if cell == 1]\n"
PACKED = "    return ACCEPTED, words_of(held, range(len(words)))\n"
UNPACKED = "    return ACCEPTED, bytes(1 if site in of else 0 for site in range(sites) for of in named)\n"


def wrong(name, *patches):
    """A wrong desk whose patches are of word_tables: old and new by turns."""
    threes = [text for old, new in zip(patches[::2], patches[1::2]) for text in ("word_tables", old, new)]
    return mutant("words: " + name, *threes)


def bits():
    """Which bit is whose."""
    return [
        wrong("bit 63 is not read", READ_BITS, READ_BITS.replace("== \"1\"", "== \"1\" and site < 63")),
        wrong("bit 63 is not written", WRITE_BIT, "    return 2 ** site if site < 63 else 0\n"),
        wrong("bits above 31 are not read", READ_BITS, READ_BITS.replace("== \"1\"", "== \"1\" and site < 32")),
        wrong("bits above 31 are not written", WRITE_BIT, "    return 2 ** site % 2 ** 32\n"),
        wrong("a bit is written modulo 32", WRITE_BIT, "    return 2 ** (site % 32)\n"),
        wrong("sites from the top", READ_BITS, READ_BITS.replace("reversed(", "iter("),
              WRITE_BIT, "    return 2 ** (63 - site)\n"),
        wrong("sites from the top of S", READ_WORDS, "for pointer, word in enumerate(lent.words)"
              " for site in (lent.sites - 1 - bit for bit in sites_of(word))}", ENCODED,
              "words_of([(desk.sites - 1 - site, pointer) for site, pointer in desk.holders], desk.owner_of)"),
        wrong("site s at bit s + 1", READ_BITS, READ_BITS.replace("(word)))", "(word >> 1)))"),
              WRITE_BIT, "    return 2 ** (site + 1)\n"),
        wrong("the bytes of a word the other way round", READ_BITS,
              READ_BITS.replace("(word)))", "(int.from_bytes(word.to_bytes(8, 'big'), 'little'))))"),
              WRITE_BIT, "    return int.from_bytes((2 ** site).to_bytes(8, 'big'), 'little')\n"),
        wrong("the words from the last pointer down", READ_WORDS, READ_WORDS.replace("enumerate(lent.words)",
              "enumerate(lent.words[::-1])"), ENCODED, ENCODED + "[::-1]")]


def bad_bits():
    """A set bit at or above S."""
    def test(text):
        return BAD_BITS, "    return %s\n" % text
    return [
        wrong("bit S passes", *test("any(site > sites for site in sites_of(word))")),
        wrong("bits at or above S pass", *test("False")),
        wrong("bits at or above S pass and are dropped", *test("False"), READ_WORDS,
              READ_WORDS[:-1] + " if site < lent.sites}"),
        wrong("bit S minus 1 is bad", *test("any(site >= sites - 1 > 0 for site in sites_of(word))")),
        wrong("bit 63 is always bad", *test("any(site >= min(sites, 63) for site in sites_of(word))")),
        wrong("bit 63 is never bad", *test("any(sites <= site < 63 for site in sites_of(word))")),
        wrong("a shift by 64: every bit is bad at S = 64", *test("any(site >= sites % 64 for site in sites_of(word))")),
        wrong("a shift by 64: S = 64 is tested as S = 1", *test("word >> (sites % 64 or 1) != 0")),
        wrong("a shift of 32 bits", *test("any(site >= (sites - 1) % 32 + 1 for site in sites_of(word))")),
        wrong("the first word alone is tested", WORDS_TEST, WORDS_TEST.replace("lent.words)", "lent.words[:1])")),
        wrong("the last word is not tested", WORDS_TEST, WORDS_TEST.replace("lent.words)", "lent.words[:-1])")),
        wrong("bad bits give 1", SHAPE_TEST + TABLE_TEST, "        (BAD_SHAPE, lambda: breaks_shape(lent) or any("
              "breaks_word(word, lent.sites) for word in lent.words)),\n" + TABLE_TEST),
        wrong("a word without its owner is bad", WORDS_TEST, WORDS_TEST + " or any(owner not in sites_of(word)"
              " for owner, word in zip(lent.owners, lent.words))"),
        wrong("a word of 0 is bad", WORDS_TEST, WORDS_TEST + " or 0 in lent.words")]


def shapes():
    return [
        wrong("too many words are taken", WORD_COUNT, WORD_COUNT.replace("!=", "<"), READ_WORDS,
              READ_WORDS.replace("enumerate(lent.words)", "zip(range(len(lent.owners)), lent.words)")),
        wrong("too few words are taken", WORD_COUNT, WORD_COUNT.replace("!=", ">")),
        wrong("S x G words", WORD_COUNT, "len(lent.words) != lent.sites * len(lent.owners)"),
        wrong("a wrong number of words is 2", WORD_COUNT, "False", WORDS_TEST, WORDS_TEST + " or " + WORD_COUNT),
        swapped("words: 2 before 1", "word_tables", SHAPE_TEST, TABLE_TEST),
        swapped("words: opening: 2 before 1", "word_tables", SHAPE_TEST, OWNERS_TEST),
        wrong("a refusal empties the words", "        return refusal(number), lent\n",
              "        return refusal(number), lent._replace(words=(0,) * len(lent.words))\n"),
        wrong("a refusal clears the bad bits", "        return refusal(number), lent\n",
              "        good = tuple(word % 2 ** lent.sites for word in lent.words)\n"
              "        return refusal(number), lent._replace(words=good)\n")]


def openings():
    def after(words):
        return OPENED, OPENED.replace("encode(opened)", "encode(opened)._replace(words=%s)" % words)
    return [
        wrong("opening leaves the words", *after("lent.words")),
        wrong("opening sets the bits beside those that stand", *after(
            "tuple(old | new for old, new in zip(lent.words, encode(opened).words))")),
        wrong("opening leaves the bits at or above S", *after(
            "tuple(old >> lent.sites << lent.sites | new for old, new in zip(lent.words, encode(opened).words))")),
        wrong("opening writes the owner's number", *after("tuple(lent.owners)")),
        wrong("opening writes bit 0", *after("(1,) * len(lent.owners)")),
        wrong("opening sets every bit below S", *after("(2 ** lent.sites - 1,) * len(lent.owners)")),
        wrong("opening sets no bit", *after("(0,) * len(lent.owners)")),
        wrong("opening tests the words", OWNERS_TEST, "        (BAD_TABLE, lambda: tables.breaks_owners(lent.sites,"
              " lent.owners) or %s),\n" % WORDS_TEST)]


def changes():
    """What a call does to a word, or reads of it."""
    def call(name, condition, change):
        return wrong(name, DONE, "    answer = call(desk, *arguments)\n    if answer[0] == 0 and call is machine.%s:\n"
                     "        %s\n    return answer, encode(desk)\n" % (condition, change))
    of_slot = "lent.pool[5 * arguments[0] + 4]"
    return [
        call("delete clears the whole word", "delete",
             "desk.holders = {pair for pair in desk.holders if pair[1] != arguments[1]}"),
        call("delete clears the lowest bit", "delete",
             "desk.holders.add(arguments); desk.holders.remove(min(pair for pair in desk.holders"
             " if pair[1] == arguments[1]))"),
        call("delete clears the bit in every word", "delete",
             "desk.holders = {pair for pair in desk.holders if pair[0] != arguments[0]}"),
        call("delete turns the other bits", "delete", "desk.holders ^= {(site, arguments[1])"
             " for site in range(desk.sites) if site != arguments[0]}"),
        call("delete leaves the bit", "delete", "desk.holders.add(arguments)"),
        call("make copy sets the receiver's bit", "make_copy", "desk.holders.add(arguments[1:])"),
        call("make copy clears the sender's bit", "make_copy", "desk.holders.discard((arguments[0], arguments[2]))"),
        call("a first copy clears the other bits", "receive",
             "desk.holders = {pair for pair in desk.holders if pair[1] != %s or lent.pool[5 * arguments[0]] != 1"
             " or pair[0] == lent.pool[5 * arguments[0] + 2]}" % of_slot),
        call("a COPY sets every bit below it", "receive", "desk.holders |= {(site, %s) for site in range(lent.pool["
             "5 * arguments[0] + 2]) if lent.pool[5 * arguments[0]] == 1}" % of_slot),
        call("a COPY turns the bit", "receive", "desk.holders ^= {(lent.pool[5 * arguments[0] + 2], %s) for _ in [0]"
             " if lent.pool[5 * arguments[0]] == 1 and decode(lent).holds(lent.pool[5 * arguments[0] + 2], %s)}"
             % (of_slot, of_slot)),
        call("a DEC clears the sender's bit", "receive", "desk.holders -= {(lent.pool[5 * arguments[0] + 1], %s)"
             " for _ in [0] if lent.pool[5 * arguments[0]] == 2}" % of_slot),
        wrong("an ask by the word", "over_tables(lent, machine.ask, (site, pointer), refused)",
              "over_tables(lent, lambda desk, s, p: machine.ask(desk, s, p) if machine.why_no_ask(desk, s, p) else"
              " Answer(0, int(holders_of(desk, p) <= {s}), None), (site, pointer), refused)"),
        wrong("a share with the whole word", "over_tables(lent, machine.share, (site, pointer),",
              "over_tables(lent, lambda desk, s, p: machine.share(desk, s, p) if machine.why_no_share(desk, s, p) else"
              " ShareAnswer(0, machine.share(desk, s, p).share - desk.holds(s, p) + len(holders_of(desk, p))),"
              " (site, pointer),")]


def counts():
    """The count of holders."""
    def of(text):
        return HOLDERS, "    return %s\n" % text
    return [
        wrong("count without the owner", *of(
            "{site for site, held in desk.holders if held == pointer and not desk.owns(site, pointer)}")),
        wrong("count with the owner whether it holds or not", *of(
            "{site for site, held in desk.holders if held == pointer} | {desk.owner_of[pointer]}")),
        wrong("count of the next word", *of(
            "{site for site, held in desk.holders if held == (pointer + 1) % len(desk.owner_of)}")),
        wrong("count of the first word", *of("{site for site, held in desk.holders if held == 0}")),
        wrong("count of all words", *of("desk.holders")),
        wrong("count of the pointers of a site", *of("{held for site, held in desk.holders if site == pointer}")),
        wrong("count of the zeros", *of("set(range(desk.sites)) - {s for s, held in desk.holders if held == pointer}")),
        wrong("count of the low half", *of("{site for site, held in desk.holders if held == pointer and site < 32}")),
        wrong("count without bit 63", *of("{site for site, held in desk.holders if held == pointer and site < 63}")),
        wrong("count of those that have sent as well", *of(
            "{site for site, held in desk.holders if held == pointer}"
            " | {site for (site, held), count in desk.counts.items() if held == pointer and count}")),
        wrong("count of copies on their way as well", *of(
            "{site for site, held in desk.holders if held == pointer}"
            " | {m.receiver for m in desk.in_flight() if m.pointer == pointer and m.kind == 1}")),
        wrong("count: 64 is told as 0", COUNTED, COUNTED.replace("len(holders_of(desk, pointer))",
                                                                "len(holders_of(desk, pointer)) % 64")),
        wrong("count: the highest holder plus 1", COUNTED, COUNTED.replace(
            "len(holders_of(desk, pointer))", "max(holders_of(desk, pointer), default=-1) + 1")),
        wrong("count: the word as value", COUNTED, COUNTED.replace(
            "len(holders_of(desk, pointer))", "sum(map(bit_of, holders_of(desk, pointer))) % 65536")),
        wrong("count tells the empty slots", COUNTED, COUNTED.replace("None)", "None, desk.empty_slots())")),
        wrong("count: 0 for a pointer that is too large", COUNT_NAME, COUNT_NAME.replace("refused(BAD_NAME)",
                                                                                        "Answer(ACCEPTED, 0, None)")),
        wrong("count: 3 before 2", COUNT, COUNT + "    if not breaks_shape(lent) and pointer >= len(lent.owners):\n"
              "        return refused(BAD_NAME), lent\n"),
        wrong("count: 3 before 1", COUNT, COUNT + "    if pointer >= len(lent.owners):\n"
              "        return refused(BAD_NAME), lent\n"),
        wrong("count tests no slot", COUNT, COUNT + "    if not breaks_shape(lent):\n"
              "        kept = lent._replace(pool=bytes(len(lent.pool)))\n"
              "        return over_tables(kept, count_holders, (pointer,), refused)[0], lent\n"),
        wrong("count tests no owner", COUNT, COUNT + "    if not breaks_shape(lent):\n"
              "        kept = lent._replace(owners=bytes(len(lent.owners)))\n"
              "        return over_tables(kept, count_holders, (pointer,), refused)[0], lent\n"),
        wrong("count tests its own word alone", COUNT, COUNT
              + "    if not breaks_shape(lent) and pointer < len(lent.words):\n"
              "        kept = tuple(w if p == pointer else 0 for p, w in enumerate(lent.words))\n"
              "        answer, _ = over_tables(lent._replace(words=kept), count_holders, (pointer,), refused)\n"
              "        return answer, lent\n")]


def packs():
    """Bytes to words and back."""
    by_pointer = ("    held = [divmod(place, sites)[::-1] for place, cell in enumerate(receive) if cell == 1]\n")
    return [
        wrong("pack by pointer first", HELD, by_pointer),
        wrong("pack by sites from the top", PACKED, PACKED.replace(
            "held, range", "[(sites - 1 - site, of) for site, of in held], range")),
        wrong("pack by sites from bit 63", PACKED, PACKED.replace("held, range",
                                                                 "[(63 - site, of) for site, of in held], range")),
        wrong("pack by words from the last", PACKED, PACKED.replace("range(len(words)))", "range(len(words)))[::-1]")),
        wrong("pack beside the bits that stand", PACKED, PACKED.replace(
            "words_of(held, range(len(words)))",
            "tuple(old | new for old, new in zip(words, words_of(held, range(len(words)))))")),
        wrong("pack takes a byte above 1 as 1", PACK_TEST, "", HELD, HELD.replace("cell == 1", "cell")),
        wrong("pack takes the low bit of a byte", PACK_TEST, "", HELD, HELD.replace("cell == 1", "cell & 1")),
        swapped("words: pack: 2 before 1", "word_tables", PAIR_TEST, PACK_TEST),
        wrong("a refused pack empties the words", "        return number, words\n",
              "        return number, (0,) * len(words)\n"),
        wrong("unpack by pointer first", UNPACKED, UNPACKED.replace("for site in range(sites) for of in named",
                                                                  "for of in named for site in range(sites)")),
        wrong("unpack by sites from the top", UNPACKED, UNPACKED.replace("for site in range(sites)",
                                                                       "for site in range(sites)[::-1]")),
        wrong("unpack leaves bytes that are to be 0", UNPACKED, UNPACKED.replace(
            "bytes(1 if site in of else 0 for site in range(sites) for of in named)",
            "bytes(1 if sites_of(words[at % len(words)]) & {at // len(words)} else old for at, old in"
            " enumerate(receive))")),
        wrong("unpack writes 255 for 1", UNPACKED, UNPACKED.replace("1 if site", "255 if site")),
        wrong("unpack drops bits at or above S", UNPACK_TEST, ""),
        swapped("words: unpack: 2 before 1", "word_tables", PAIR_TEST, UNPACK_TEST),
        wrong("a refused unpack empties the bytes", "        return number, receive\n",
              "        return number, bytes(len(receive))\n"),
        wrong("pack and unpack take S = 0", PAIR_SITES, PAIR_SITES.replace("not 1 <=", "not 0 <=")),
        wrong("pack and unpack take S = 65", PAIR_SITES, PAIR_SITES.replace("<= MOST_SITES", "<= MOST_SITES + 1")),
        wrong("pack and unpack do not take S = 64", PAIR_SITES, PAIR_SITES.replace("<= MOST_SITES", "< MOST_SITES")),
        wrong("pack and unpack take 257 words", PAIR_SITES, PAIR_SITES.replace("MOST_POINTERS", "MOST_POINTERS + 1")),
        wrong("pack and unpack do not take 256 words", PAIR_SITES, PAIR_SITES.replace("> MOST", ">= MOST")),
        wrong("pack and unpack do not take 0 words", PAIR_SITES, PAIR_SITES.replace("or len", "or not words or len")),
        wrong("pack and unpack take too many bytes", PAIR_LENGTH, PAIR_LENGTH.replace("!=", "<"), HELD,
              HELD.replace("enumerate(receive)", "enumerate(receive[:sites * len(words)])")),
        wrong("pack and unpack take too few bytes", PAIR_LENGTH, PAIR_LENGTH.replace("!=", ">"))]


def all_mutants():
    groups = (bits, bad_bits, shapes, openings, changes, counts, packs)
    return [found for group in groups for found in group()]
