"""Calls of the desk on words beside the byte desk: the issue's examples, the extremes, lent tables, and long runs."""

from itertools import count, islice

import desk as machine
import lent_fixed
import program
import word_tables
from case_stories import FOURTEEN_IN
from desk import COPY, DEC, INC_DEC
from lent_fixed import FULL, NO_SLOT, garbage, tables_of, without_cell
from lent_tables import CALL_MAKERS, DAMAGES, a_pointer, perhaps_outside, pick, random_draft, random_sizes
from lent_text import PLAIN_CALLS, BothLent, LentCall, PackParts, UnpackParts, line_of
from lines import Ask, Delete, MakeCopy, Receive, call_of_line
from random_runs import Walk, rng_for
from word_tables import WordLent

BITS = 64
ONES = 2 ** BITS - 1
RUN_LENGTH, CALLS_BETWEEN_RUNS = 350, 150
CALL_NAMES = {MakeCopy: "words_copy", Receive: "words_receive", Delete: "words_delete", Ask: "words_ask"}
SOME_SITES = (0, 1, 31, 32, 63)


# From bytes to words and back, by the digits of a word.

def meaning(lent):
    """The receive bytes that mean the same as the words, or None."""
    columns = ["{:064b}".format(word)[::-1] for word in lent.words]
    if (lent.sites > BITS or len(columns) != len(lent.owners)
            or any("1" in column[lent.sites:] for column in columns)):
        return None
    return bytes(int(column[site]) for site in range(lent.sites) for column in columns)


def both(lent):
    """Tables on words, and beside them the bytes that mean the same."""
    return BothLent(*lent, meaning(lent))


def bit_for(sites, site, cell):
    """The bit of a byte: above 1 it stands at or above S, where there is such a bit."""
    return sites + (cell - 2) % (BITS - sites) if cell > 1 and sites < BITS else site


def words_for(lent):
    """Words for a receive table, as wrong as it is: a bit at or above S for a byte above 1, another number of words."""
    pointers, cells = len(lent.owners), lent.sites * len(lent.owners)
    words = [0] * pointers
    for place, cell in enumerate(lent.receive[:cells]):
        site, pointer = divmod(place, pointers)
        if cell and site < BITS:
            words[pointer] |= 1 << bit_for(lent.sites, site, cell)
    if len(lent.receive) > cells:
        return tuple(words + [0])
    return tuple(words[:-1] if len(lent.receive) < cells else words)


def on_words(call, words=None):
    """A call of the base over words; an opening beside bytes that it may find, whatever they are."""
    base = call.parts
    lent = WordLent(base.sites, base.owners, base.send, words_for(base) if words is None else words, base.pool)
    parts, cells = both(lent), base.sites * len(base.owners)
    fits = len(base.receive) == cells and len(lent.words) == len(base.owners)
    if call.name == "open" and parts.receive is None and fits:
        parts = parts._replace(receive=base.receive)
    return LentCall("words_" + call.name, parts, call.arguments)


# The same for every seed.

def words_of(sites, owners, words, counts=(), slots=()):
    """Tables from few words: counters, slots, and the words as they are."""
    base = tables_of(sites, owners, counts, slots=slots)
    return both(WordLent(sites, base.owners, base.send, tuple(words), base.pool))


def asked(name, parts, *arguments):
    return LentCall("words_" + name, parts, arguments)


def pack_call(sites, receive, words):
    return LentCall("words_pack", PackParts(sites, bytes(receive), tuple(words)), ())


def unpack_call(sites, words, receive):
    return LentCall("words_unpack", UnpackParts(sites, tuple(words), bytes(receive)), ())


def of_the_base():
    """What the base is asked over fixed tables."""
    groups = (lent_fixed.document_examples, lent_fixed.openings, lent_fixed.asks, lent_fixed.copies,
              lent_fixed.arrivals, lent_fixed.deletes, lent_fixed.shares_and_sheets, lent_fixed.damaged_tables,
              lent_fixed.large_tables)
    return [on_words(LentCall(*call)) for group in groups for call in group()]


def story(parts, calls):
    """Calls one after the other, each over what the one before left, and the count of holders after each."""
    made = []
    for call in calls:
        made.append(LentCall(CALL_NAMES[type(call)], parts, tuple(call)))
        _, after = PLAIN_CALLS[CALL_NAMES[type(call)]](WordLent(*parts[:5]), *call)
        parts = both(after)
        made.append(asked("count", parts, 0))
    return made


def fourteen_calls():
    return [call_of_line(line.encode()) for line in FOURTEEN_IN.split()[1:]]


def issue_examples():
    """Words 7, 8 and 0, pointer 1, two words, S = 64 all ones, and the fourteen lines."""
    calls = [asked("count", words_of(3, [0], words), 0) for words in ([7], [8], [0], [7, 7], [1], [], [15], [ONES])]
    calls += [asked("count", words_of(3, [0], words), pointer) for words in ([7], [8], [7, 7]) for pointer in (1, 255)]
    calls += [asked("count", words_of(64, [0], [ONES]), 0),
              asked("open", words_of(3, [0], [ONES], slots=[NO_SLOT] * 4))]
    return calls + story(both(word_tables.encode(machine.open_desk(3, b"\0", 4))), fourteen_calls())


def edges_of_words():
    """The last bit below S, the first at S and the highest there is, in the word asked for and in another."""
    calls = []
    for sites in (1, 3, 32, 33, 63, 64):
        for bit in sorted({sites - 1, sites, 32, 63} & set(range(BITS))):
            room, word = [NO_SLOT], 1 << bit
            alone, beside = (words_of(sites, [0], [word], slots=room), words_of(sites, [0, 0], [1, word], slots=room))
            calls += [asked("count", alone, 0), asked("count", beside, 0), asked("copy", beside, 0, int(sites > 1), 0),
                      asked("share", alone, sites - 1, 0), asked("delete", alone, sites - 1, 0), asked("open", beside),
                      asked("ask", beside, 0, 0), unpack_call(sites, (1, word), b"\xAA" * (2 * sites))]
    return calls


def each_site():
    """Sites of a desk of 64 and of smaller ones: their bit alone is read, set and cleared."""
    calls = []
    for sites in (3, 64):
        most = 2 ** sites - 1
        for site in [site for site in SOME_SITES if site < sites]:
            owner = (site + 1) % sites
            bit, others = 1 << site, most ^ (1 << site)
            for words in ([bit, others], [others, bit], [most, 0], [0, most]):
                parts = words_of(sites, [owner, owner], words, {(owner, 1): 1},
                                 [(COPY, owner, site, 0, 0), NO_SLOT, (COPY, (site + 2) % sites, site, 0, 1)])
                calls += [asked("receive", parts, 0), asked("receive", parts, 2), asked("delete", parts, site, 0),
                          asked("delete", parts, site, 1), asked("copy", parts, site, owner, 1),
                          asked("share", parts, site, 0), asked("count", parts, 0), asked("count", parts, 1)]
            calls.append(asked("open", words_of(sites, [site, owner], [ONES, 0], slots=[NO_SLOT])))
    return calls


def shapes():
    """One word too few and too many, words for cells, G of 0, 256 and 257, S of 0 and 65; 1, 2, 3 in that order."""
    lents = [words_of(3, owners, words, slots=[NO_SLOT]) for owners, words in (
        ([0, 1], [1]), ([0, 1], [1, 2, 0]), ([0, 1], []), ([0, 1], [1, 2] * 3), ([], []), ([], [0]), ([], [8]),
        ([0, 1], [1, 8]), ([0, 1], [8]), ([0, 1], [1, 2]), ([0] * 256, [1] * 256), ([0] * 256, [1] * 255),
        ([0] * 256, [1] * 257), ([0] * 257, [1] * 257), ([0] * 256, [1] * 255 + [8]))]
    good = words_of(3, [0, 1], [5, 7], slots=[(INC_DEC, 1, 0, 2, 0), NO_SLOT])
    bad = good._replace(words=(5, 15), receive=None)
    for parts in (good, bad):
        lents += [parts._replace(send=parts.send[:-1]), parts._replace(send=parts.send + (0,)),
                  parts._replace(pool=parts.pool[:-1]), parts._replace(pool=parts.pool + b"\0"),
                  parts._replace(owners=b"\0\3"), parts._replace(owners=b"\0\xff")]
        lents += [parts._replace(pool=parts.pool[:5] + slot) for slot in (b"\4\0\0\0\0", b"\0\1\0\0\0")]
    lents += [both(WordLent(sites, good.owners, (0,) * (2 * sites), words, good.pool))
              for sites in (0, 1, 2, 64, 65, 255) for words in ((5, 7), (0, 0), (ONES, ONES))]
    some = [("open",), ("copy", 0, 1, 0), ("delete", 2, 1), ("count", 0), ("count", 255)]
    more = [("receive", 0), ("ask", 0, 0), ("share", 2, 0), ("sheet", 0, 192)]
    return ([asked(name, parts, *names) for parts in lents for name, *names in some]
            + [asked(name, parts, *names) for parts in lents[7:31] for name, *names in more])


def counts_of_holders():
    """Words of every weight and place; the owner's bit counts; counters, messages and full pools do not."""
    patterns = [1 << 63, 3 << 62, 0xFFFFFFFF, 0xFFFFFFFF << 32, ONES - 1, ONES >> 1, 0x5555555555555555,
                0xAAAAAAAAAAAAAAAA, 0x8000000000000001, 0x0123456789ABCDEF, 1 << 32, 1 << 31, ONES, 0]
    calls = [asked("count", words_of(64, [63], [word]), 0) for word in patterns]
    many = words_of(64, [0, 1, 2, 3, 4], [0, 1, 3, 7, ONES], {(2, 2): FULL, (3, 3): 9},
                    [(COPY, 0, 1, 0, 2), (DEC, 1, 2, 0, 2), (INC_DEC, 5, 2, 6, 2)])
    calls += [asked("count", many, pointer) for pointer in (0, 1, 2, 3, 4, 5, 255)]
    largest = words_of(64, [pointer % 64 for pointer in range(256)],
                       [(1 << pointer % 65) - 1 for pointer in range(256)], slots=[NO_SLOT] * 1024)
    calls += [asked("count", largest, pointer) for pointer in (0, 64, 255)]
    ownerless = on_words(LentCall("ask", without_cell(tables_of(3, [1], holders=[(0, 0), (2, 0)]), 1, 0), (1, 0)))
    one = words_of(1, [0], [1])
    return calls + [ownerless, asked("count", ownerless.parts, 0), asked("count", one, 0), asked("count", one, 1),
                    asked("count", words_of(1, [0], [0]), 0), asked("count", words_of(1, [0], [2]), 0),
                    asked("open", on_words(LentCall("open", garbage(64, 256, 1024), ())).parts)]


def packs():
    """Pack and unpack: every place of small tables, the largest, bytes above 1, and each length off by one."""
    calls = []
    for sites, pointers in ((1, 1), (3, 2), (2, 3), (64, 2), (1, 0), (64, 0)):
        cells = sites * pointers
        places = range(cells) if cells < 7 else (0, 1, 63, 64, 65, 126, 127)
        for receive in [bytes(cells), b"\1" * cells] + [bytes(at) + b"\1" + bytes(cells - 1 - at) for at in places
                                                        if at < cells]:
            words = tuple(word_tables.lent_pack(sites, receive, (0,) * pointers)[1])
            calls += [pack_call(sites, receive, [ONES] * pointers), unpack_call(sites, words, b"\xAA" * cells)]
    for receive in (b"\2\0\1\0\0\1", b"\1\0\1\0\0\xff", b"\1\0\1\0\0\x81"):
        calls += [pack_call(3, receive, [9, 9]), pack_call(3, receive, [9, 9, 9]), pack_call(0, receive, [9, 9])]
    shapes_of_pairs = [(sites, pointers, sites * pointers + more)
                       for sites in (1, 3, 64) for pointers in (2, 256, 257) for more in (-1, 0, 1)]
    for sites, pointers, cells in shapes_of_pairs + [(0, 2, 0), (65, 2, 130), (255, 2, 510), (255, 0, 0), (1, 0, 1)]:
        calls.append(pack_call(sites, bytes(at % 2 for at in range(cells)), [ONES] * pointers))
        calls.append(unpack_call(sites, [at % 2 for at in range(pointers)], b"\xAA" * cells))
    calls += [unpack_call(3, words, b"\xAA" * 6) for words in ([1, 8], [8, 1], [1, 1 << 63], [7, 7], [ONES, 0])]
    return calls + [unpack_call(3, [1, 8], b"\xAA" * 5), unpack_call(3, [1, 8], b""), unpack_call(0, [8], b"")]


def fixed_calls():
    groups = (issue_examples, edges_of_words, packs, each_site, shapes, counts_of_holders, of_the_base)
    return [call for group in groups for call in group()]


# Seeded lent tables: a draft of the base on words, often with many sites.

def word_sizes(rng):
    """Small desks, those whose S is near an end of a word or a half of it, and seldom the largest."""
    if rng.random() < 0.7:
        return random_sizes(rng)
    return (rng.choice([1, 8, 31, 32, 33, 62, 63, 64, 64]), rng.choice([0, 1, 1, 2, 3]), rng.randint(0, 6))


def count_call(rng, draft):
    return "count", (perhaps_outside(rng, a_pointer(rng, draft), len(draft.owners), 255),)


WORD_CALL_MAKERS = CALL_MAKERS + ((count_call, 14),)


def damaged_words(rng, sites, words):
    """A bit at or above S, any word at all, or another number of words."""
    words, way = list(words), rng.randrange(4)
    if way < 2 and words:
        bit = rng.choice([sites, sites, sites + 1, 63, rng.randrange(BITS)])
        words[rng.randrange(len(words))] |= 1 << min(bit, 63)
    elif way == 2 and words:
        words[rng.randrange(len(words))] = rng.getrandbits(BITS)
    elif words and rng.random() < 0.5:
        words.pop()
    else:
        words.append(rng.choice([0, 1, ONES]))
    return tuple(words)


def random_words_call(rng):
    draft = random_draft(rng, word_sizes)
    name, arguments = pick(rng, WORD_CALL_MAKERS)(rng, draft)
    for _ in range(rng.choice([0, 0, 0, 0, 0, 0, 0, 0, 1, 2])):
        pick(rng, DAMAGES)(rng, draft)
    base = draft.lent()
    words = words_for(base)
    if rng.random() < 0.15:
        words = damaged_words(rng, base.sites, words)
    return on_words(LentCall(name, base, arguments), words)


def random_pack_call(rng):
    """Bytes to words or back over garbage; now and then a byte, bit, length or S that is wrong."""
    sites, pointers, _ = word_sizes(rng)
    receive = [int(rng.random() < 0.5) for _ in range(sites * pointers)]
    words = [rng.getrandbits(BITS) & (2 ** sites - 1) for _ in range(pointers)]
    for _ in range(rng.choice([0, 0, 0, 1, 2])):
        way = rng.randrange(4)
        if way == 0 and receive:
            receive[rng.randrange(len(receive))] = rng.choice([2, 3, 128, 255])
        elif way == 1:
            words = list(damaged_words(rng, sites, words))
        elif way == 2:
            receive = receive[:-1] if receive and rng.random() < 0.5 else receive + [0]
        else:
            sites = rng.choice([0, 65, 255, max(sites - 1, 0), sites + 1])
    if rng.random() < 0.5:
        return pack_call(sites, receive, [rng.getrandbits(BITS) for _ in words])
    return unpack_call(sites, words, [rng.randrange(256) for _ in receive])


def random_word_call(rng):
    return random_pack_call(rng) if rng.random() < 0.12 else random_words_call(rng)


# Long runs from an opening.

def start_of_run(rng):
    sites, pointers = rng.choice([2, 3, 3, 4, 5, 9, 33, 63, 64]), rng.choice([1, 1, 2, 3])
    owners = bytes(rng.choice([rng.randrange(sites), sites - 1]) for _ in range(pointers))
    return machine.open_desk(sites, owners, rng.choice([2, 4, 6, 9, 16]))


def questions(walk, parts):
    """What may be asked between two calls of a run."""
    pointer, pair = walk.a_pointer(), (parts.sites, parts.receive, parts.words)
    return [asked("share", parts, walk.a_site(), pointer), asked("sheet", parts, pointer, 192),
            asked("count", parts, pointer), asked("count", parts, pointer),
            pack_call(pair[0], pair[1], [ONES] * len(parts.words)),
            unpack_call(pair[0], pair[2], b"\xAA" * len(parts.receive))]


def run_calls(rng, length):
    """Calls of a run, each over what the one before left; now and then a question between them."""
    desk = start_of_run(rng)
    walk = Walk(rng, desk)
    for _ in range(length):
        parts = both(word_tables.encode(desk))
        if rng.random() < 0.1:
            yield rng.choice(questions(walk, parts))
        call = walk.next_call()
        yield LentCall(CALL_NAMES[type(call)], parts, tuple(call))
        program.answer_to(desk, call)


def all_calls(seed):
    """The fixed calls, then single calls and runs by turns, without end."""
    yield from fixed_calls()
    for number in count():
        rng = rng_for("words", seed, number)
        for _ in range(CALLS_BETWEEN_RUNS):
            yield random_word_call(rng)
        yield from run_calls(rng, RUN_LENGTH)


def word_lines(seed, wanted):
    """That many calls as lines of text."""
    for number, call in enumerate(islice(all_calls(seed), wanted)):
        rng = rng_for("word text", seed, number)
        yield line_of(call, lambda: rng.choice(["-", "null"]))
