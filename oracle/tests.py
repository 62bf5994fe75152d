"""This program's own tests; each yields what was tried and whether it held."""

import book
import case_stories
import catch
import cases_store
import claims
import every_state
import in_order_claims
import lent_tables
import lent_text
import line_calls
import lines
import ordered_calls
import program
import random_runs
import second
import soak
import tables
import word_calls
import word_tables
from case_parts import answers
from case_parts import lines as whole_lines
from desk import COPY, DEC, INC_DEC, open_desk, share_of, sheet
from lent_fixed import tables_of
from lines import Ask, Delete, Ended, MakeCopy, Reader, Receive, Refusal
from patched import Mutant, load

REDUCED = dict(inputs=3, lent_calls=590, line_calls=3700, ordered_calls=1000, word_calls=1300)
CLAIM_SEEDS = (1, 2, 3)
IN_ORDER_STATES = 3653


def test_fourteen():
    """The fourteen lines of document 01, to the byte."""
    text = whole_lines(*case_stories.FOURTEEN_IN.split())
    expected = answers(case_stories.FOURTEEN_OUT.split())
    yield "by the program", program.run(text) == expected
    yield "by the second opinion", second.transcript(text) == expected
    yield "as stored", cases_store.stored_cases()[0] == ("fourteen", text, expected)


def test_cases():
    """Every stored case, by this program and by the second opinion."""
    for name, text, expected in cases_store.stored_cases():
        yield name, program.run(text) == expected == second.transcript(text)


def test_cases_by_hand():
    """What is written by hand is what is stored, and nothing stored is unknown."""
    stored = {name: (text, output) for name, text, output in cases_store.stored_cases()}
    known = cases_store.all_cases()
    yield "same names", set(stored) == {case.name for case in known}
    for case in known:
        if case.expected is not None:
            yield case.name, stored.get(case.name) == (case.text, answers(case.expected))


def all_refusals_of_cases():
    return {int(line[:2], 16) for _, _, output in cases_store.stored_cases()
            for line in output.split(b"\n")[:-1]}


def test_reach():
    """Cases and random inputs reach every refusal that `desk` can give, and about four fifths pass."""
    reachable = {1, 2, 3, 4, 5, 7, 8, 9, 11, 12, 13, 14, 15, 16}
    yield "refusals of the cases", all_refusals_of_cases() == reachable | {0, 17}
    statistics = random_runs.Statistics()
    for number in range(64):
        text, output = random_runs.numbered_input("reach", number)
        yield "length of input %d" % number, len(text) <= 8192
        yield "second opinion on input %d" % number, second.transcript(text) == output
        statistics.add(output)
    yield "refusals of inputs", set(statistics.refusals) == reachable | {0}
    yield "four fifths", 0.74 < statistics.refusals[0] / statistics.lines < 0.86
    yield "all kinds posted", min(statistics.posted[kind] for kind in (COPY, DEC, INC_DEC)) > 100


def test_lines():
    """Every call is written and read back; the writer keeps to its text."""
    calls = [MakeCopy(1, 2, 255), Receive(0), Receive(0x1234), Receive(65535), Delete(63, 9), Ask(0, 171)]
    for call in calls:
        text = bytearray(b"." * 12)
        yield "write %s" % (call,), lines.write_line(call, text) == 0 and text[8:] == b"\n..."
        yield "read %s" % (call,), Reader(bytes(text[:9])).next_call() == call
        short = bytearray(b"." * 8)
        yield "short %s" % (call,), lines.write_line(call, short) == 1 and short == b"." * 8
    yield "exact", lines.write_line(Ask(0, 0), bytearray(9)) == 0


def test_reader():
    """A reader visits each line once, ends, and stays at the end."""
    reader = Reader(b"01000100\n\nxx\n04000000")
    expected = [(MakeCopy(0, 1, 0), 9), (Refusal(14), 10), (Refusal(14), 13), (Ask(0, 0), 21),
                (Ended(), 21), (Ended(), 21)]
    for call, position in expected:
        yield "at %d" % position, (reader.next_call(), reader.position) == (call, position)
    yield "past the end", Reader(b"01000100", 99).next_call() == Ended()
    yield "no text", Reader(b"").next_call() == Ended()


def test_lent_writer():
    """The writer of four bytes: 15, 16, 14, then 1, and nothing is written."""
    def written(four, length):
        text = bytearray(b"." * length)
        return lines.lent_write(four, text), bytes(text)
    yield "written", written((1, 0xAB, 0xCD, 0xEF), 12) == (0, b"01ABCDEF\n...")
    yield "exact", written((4, 0, 255, 0), 9) == (0, b"0400FF00\n")
    yield "short", written((4, 0, 255, 0), 8) == (1, b"." * 8)
    yield "no text", written((4, 0, 255, 0), 0) == (1, b"")
    yield "unknown", [written((code, 0, 0, 1), 3)[0] for code in (0, 5, 0x7F)] == [15] * 3
    yield "private", [written((code, 0, 0, 1), 3)[0] for code in (0x80, 0xFF)] == [16] * 2
    yield "last byte", [written((code, 0, 0, 1), 3)[0] for code in (1, 2, 3, 4)] == [1, 14, 14, 14]
    for code in range(256):
        number, text = written((code, 1, 2, 0), 9)
        expected = 0 if 1 <= code <= 4 else 16 if code >= 128 else 15
        yield "code %d" % code, number == expected and (text != b"." * 9) == (number == 0)


def test_lent_reader():
    """The reader at any place: where it stands then, and an end that is no refusal."""
    text = b"01000100\n\n04000001\n0400FF00"
    expected = {0: (0, 0, b"\1\0\1\0", 9), 1: (14, 0, bytes(4), 9), 8: (14, 0, bytes(4), 9),
                9: (14, 0, bytes(4), 10), 10: (14, 0, bytes(4), 19), 19: (0, 0, b"\4\0\xff\0", 27),
                27: (0, 1, bytes(4), 27), 28: (0, 1, bytes(4), 28), 2 ** 64 - 1: (0, 1, bytes(4), 2 ** 64 - 1)}
    for at, answer in expected.items():
        yield "at %d" % at, lines.lent_read(text, at) == answer
    yield "no text", lines.lent_read(b"", 0) == (0, 1, bytes(4), 0)
    yield "codes", [lines.lent_read(b"%02X000001" % code, 0)[0] for code in (0, 1, 2, 5, 128)] == [15, 0, 14, 15, 16]


def test_line_calls():
    """Line calls come back the same from their text; what is written is read back from any place."""
    for number, line in enumerate(line_calls.line_call_lines("test", 6000)):
        yield "call %d" % number, lent_text.judge(line) is None
    rng = random_runs.rng_for("written and read")
    for number in range(500):
        four, before = line_calls.random_four(rng), b"x" * rng.randint(0, 5)
        text = bytearray(9)
        if lines.lent_write(four, text) == 0:
            end = len(before) + 9
            yield "read back %d" % number, lines.lent_read(before + text + b"\n", len(before)) == (
                0, 0, bytes(four), end)


def test_document_numbers():
    """Single sentences of document 01 about lent tables."""
    minus_one = tables_of(2, [0], slots=[(INC_DEC, 1, 0, 0, 0)])
    yield "minus 1", tables.lent_share(minus_one, 1, 0)[0] == (0, -1)
    other = tables_of(2, [0], {(1, 0): 1})
    yield "ask by the owner's counter", tables.lent_ask(other, 0, 0)[0] == (0, 1, None, 0)
    low = tables_of(2, [0], slots=[(INC_DEC, 1, 0, 0, 0)] * 1024)
    high = tables_of(2, [0], holders=[(1, 0)], slots=[(DEC, 1, 0, 0, 0)] * 1024)
    yield "lowest share", share_of(tables.decode(low), 1, 0) == -1024
    yield "highest share", share_of(tables.decode(high), 1, 0) == 1025
    cell_zero = tables.Lent(2, b"\0", (0, 0), b"\0\0", bytes((COPY, 1, 0, 0, 0)))
    answer, after = tables.lent_receive(cell_zero, 0)
    yield "owner's cell 0", answer == (0, 0, (INC_DEC, 0, 0, 1, 0), 0) and after.receive == b"\1\0"
    opened = tables.encode(open_desk(3, b"\2\0", 2))
    yield "opening", opened == tables.Lent(3, b"\2\0", (0,) * 6, b"\0\1\0\0\1\0", bytes(10))


def test_empty_slots():
    """Document 02, One: what each answer tells of the empty slots."""
    answers_of = []
    _, desk = program.open_by_line(b"03000400")
    for line in case_stories.FOURTEEN_IN.split()[1:]:
        answers_of.append(program.answer_to(desk, lines.call_of_line(line.encode())))
    yield "the fourteen lines", [answer.empty for answer in answers_of] == [4, 0, 4, 0, 3, 0, 0, 0, 0, 0, 4, 0, 0]
    one = tables_of(2, [0], slots=[(0, 0, 0, 0, 0)])
    answer, after = tables.lent_make_copy(one, 0, 1, 0)
    yield "one slot", answer == (0, 0, (COPY, 0, 1, 0, 0), 1)
    yield "once more", tables.lent_make_copy(after, 0, 1, 0)[0] == (7, 0, None, 0)
    for slots, told in ((1024, 1024), (1023, 1023), (0, 0)):
        empty = tables_of(2, [0], slots=[(0, 0, 0, 0, 0)] * slots)
        answer = tables.lent_make_copy(empty, 0, 1, 0)[0]
        yield "%d slots" % slots, (answer.number, answer.empty) == (0 if slots else 7, told)


def test_sheet():
    """Document 02, Two: the sheet of the fourteen lines, and one whose sums no opening leads to."""
    _, desk = program.open_by_line(b"03000400")
    seen = {}
    for number, line in enumerate(case_stories.FOURTEEN_IN.split()[1:], start=2):
        program.answer_to(desk, lines.call_of_line(line.encode()))
        _, rows = sheet(desk, 0)
        counters = [desk.count(site, 0) for site in range(3)]
        seen[number] = [[rows[kind].get(site, 0) for site in range(3)] for kind in (COPY, DEC, INC_DEC)], counters
    yield "line 3", seen[3] == ([[0, 0, 0]] * 3, [1, 0, 0])
    yield "line 5", seen[5] == ([[0, 0, 0], [0, 0, 0], [0, 1, 0]], [1, 1, 0])
    yield "line 6", seen[6] == ([[0, 0, 0], [1, 0, 0], [0, 1, 0]], [1, 1, 0])
    other = tables_of(2, [0], {(1, 0): 1})
    yield "no sums on lent tables", tables.lent_sheet(other, 0)[0] == (0, {COPY: {}, DEC: {}, INC_DEC: {}})


def test_book():
    """Single sentences of document 01 about the book."""
    entries = b"\2AB\1C"
    yield "address", book.address(2, b"\0\1", entries, 1) == (0, 4, 1)
    yield "address refused", book.address(2, b"\0\1", entries, 2) == (3, 0, 0)
    yield "18 before 3", book.address(2, b"\0\1", entries + b"\1", 2) == (18, 0, 0)
    yield "search", book.search(2, b"\1\1", b"\2AB\2AB", 1, b"AB") == (0, 0, None, 0)
    yield "twins", book.check(2, b"\1\1", b"\2AB\2AB").number == 19
    yield "no twins", book.check(2, b"\1\0", b"\2AB\2AB").number == 0
    yield "not listed", book.search(2, b"\1\1", b"\2AB\2AB", 1, b"").number == 20


def test_lent():
    """Lent calls come back the same from their text, and agree with the paper's machine."""
    tally = claims.Tally()
    for number, line in enumerate(lent_tables.lent_lines("test", 1500)):
        yield "call %d" % number, lent_text.judge(line) is None
        soak.try_lent_call(lent_text.read_question(line.split(" > ")[0]), tally)
    yield "against the paper", tally.checks["paper's bag"] > 300


def test_claims():
    """The claims hold on a few seeds."""
    for seed in CLAIM_SEEDS:
        yield "seed %d" % seed, sum(claims.check_claims(seed, 8).checks.values()) > 50000


def test_every_state():
    """The claims hold in every state of small desks."""
    yield "all states", every_state.walk_small_desks(claims.Tally()) == 7266


def fails(claim_fails, check, *arguments):
    try:
        check(*arguments)
        return False
    except claim_fails:
        return True


def mutant_named(name):
    return next(found for found in catch.all_mutants() if found.wrong == name)


def claims_fail_on(name):
    """Whether the claims fail on a wrong desk of that name, both on runs and in small desks."""
    mutant = mutant_named(name)
    modules = load(mutant.patches, ("paper", "random_runs", "claims", "every_state"))
    wrong, small = modules["claims"], modules["every_state"]
    return (fails(wrong.ClaimFails, wrong.check_claims, "wrong", 20)
            and fails(wrong.ClaimFails, small.walk_every_state, 3, b"\0", 4, wrong.Tally()))


def test_claims_fail():
    """Claims that cannot fail are worth nothing: they fail on wrong desks."""
    for name in ("a DEC goes to the owner at once when a COPY came first from another site",
                 "Held never tested", "a COPY to the owner is nothing", "Held by the third site as sender",
                 "an INC_DEC raises nothing", "share with INC_DECs as plus",
                 "ask by the cells of the other sites", "a delete does not look at the counter",
                 "empty slots: counted after the post", "empty slots: told by a receive",
                 "sheet entered at the sender, as before request Two", "sheet with INC_DECs at their sender",
                 "sheet with COPYs at their receiver", "sheet with DECs at their sender"):
        yield name, claims_fail_on(name)


def test_in_order():
    """Document 02, Three: base 9 and here 0; base 0 and here 21; numbers that wrap; 21 before 4 and 10."""
    def played(lent, *calls):
        given = []
        for call in calls:
            answer, lent = lent_text.PLAIN_CALLS[ordered_calls.CALL_NAMES[type(call)]](lent, *call)
            given.append(answer.number)
        return given, lent
    calls = [lines.call_of_line(line) for line in (
        b"01000100", b"02000000", b"01000200", b"02000000", b"03010000", b"01020100", b"02000100")]
    given, lent = played(ordered_calls.opened(3, [0], 4), *calls)
    yield "slots", lent.pool == bytes.fromhex("0201000000000003010002000001") + bytes(14) and not any(given)
    yield "here 0", played(lent, Receive(0))[0] == [0]
    yield "base 9", program.run(whole_lines("03000400", *(lines.line_of_call(call).decode() for call in calls),
                                            "02000000")).split(b"\n")[-2][:2] == b"09"
    pair = ordered_calls.opened(2, [0, 0], 4)
    yield "here 21", played(pair, MakeCopy(0, 1, 0), MakeCopy(0, 1, 1), Receive(1))[0] == [0, 0, 21]
    yield "base 0", program.run(b"0200040000\n01000100\n01000101\n02000100\n").split(b"\n")[-2][:2] == b"00"
    most = ordered_calls.ordered_of(2, [0], slots=[ordered_calls.NO_SLOT] * 2, to_post={(0, 1): 65535},
                                    to_receive={(0, 1): 65535})
    given, lent = played(most, MakeCopy(0, 1, 0), MakeCopy(0, 1, 0))
    yield "wrapped", lent.pool == bytes.fromhex("0100010000FFFF01000100000000") and lent.to_post == (0, 1, 0, 0)
    yield "received", played(lent, Receive(1), Receive(0), Receive(1))[0] == [21, 0, 0]
    for message, following, number in (((COPY, 1, 1, 0, 0, 5), 0, 21), ((COPY, 1, 1, 0, 0, 5), 5, 4),
                                       ((DEC, 1, 0, 0, 0, 5), 4, 21), ((DEC, 1, 0, 0, 0, 5), 5, 10)):
        lent = ordered_calls.ordered_of(2, [0], slots=[message], to_receive={message[1:3]: following})
        yield "number %d" % number, played(lent, Receive(0)) == ([number], lent)


def test_in_order_calls():
    """Calls in order come back the same from their text, many wrap, and they are the base's but for 9 and 21."""
    wraps, tally = 0, claims.Tally()
    for number, line in enumerate(ordered_calls.ordered_lines("test", 2500)):
        question, answer = line.split(" > ")
        yield "call %d" % number, lent_text.judge(line) is None
        call = lent_text.read_question(question)
        in_order_claims.check_ordered_call(call, tally)
        after = [before if text == "=" else lent_text.read_counters(text)
                 for before, text in zip(call.parts[5:], answer.split(" ")[-2:])]
        wraps += any((old, new) == (65535, 0) for table, numbers in zip(call.parts[5:], after)
                     for old, new in zip(table, numbers)) and call.name != "ordered_open"
    yield "wraps", wraps > 50
    yield "against the base", tally.checks["as the base"] > 1000 and tally.checks["21 where it is due"] > 1000


def test_in_order_claims():
    """The claims of the in-order variant hold on a few seeds and in every state of small desks."""
    for seed in CLAIM_SEEDS:
        yield "seed %d" % seed, sum(in_order_claims.check_claims(seed, 8).checks.values()) > 50000
    yield "all states", in_order_claims.walk_small_desks(claims.Tally()) == IN_ORDER_STATES


def test_in_order_claims_fail():
    """These claims, too, fail on wrong desks."""
    for name in ("21 is never given", "21 for DECs only", "no 21 for INC_DECs", "Held tested besides", "pair (b, a)",
                 "a numbering by pointer", "21 advances the next number", "a reply is unnumbered",
                 "a reply is numbered by the handled message's pair", "after 65,535 comes 1",
                 "a post does not advance"):
        modules = load(mutant_named("in order: " + name).patches,
                       ("paper", "random_runs", "claims", "ordered_calls", "in_order_claims"))
        wrong = modules["in_order_claims"]
        yield name, fails(Exception, wrong.check_claims, "wrong", 12)


def test_mutants():
    """Every wrong desk is caught, on a reduced budget, and the true one is not."""
    evidence = catch.Evidence(**REDUCED)
    yield "the true desk", not catch.is_caught(Mutant("nothing", []), evidence)
    for mutant in catch.all_mutants():
        yield mutant.wrong, catch.is_caught(mutant, evidence)


def test_words():
    """Document 02, Five: counts of holders, the words of the fourteen lines, an opening, pack and unpack."""
    def counted(sites, words, pointer=0):
        lent = word_tables.WordLent(*word_calls.words_of(sites, [0], words)[:5])
        answer, after = word_tables.lent_count(lent, pointer)
        return answer[:2] if after == lent and answer[2:] == (None, 0) else None
    yield "word 7", counted(3, [7]) == (0, 3)
    yield "word 8", counted(3, [8]) == (2, 0)
    yield "pointer 1", counted(3, [7], 1) == (3, 0)
    yield "two words", counted(3, [7, 7]) == (1, 0)
    yield "word 0", counted(3, [0]) == (0, 0)
    yield "all ones of 64", counted(64, [2 ** 64 - 1]) == (0, 64)
    yield "1 before 2 before 3", [counted(3, words, 9) for words in ([8, 8], [8], [7])] == [(1, 0), (2, 0), (3, 0)]
    lent, seen = word_tables.encode(open_desk(3, b"\0", 4)), {}
    for number, call in enumerate(word_calls.fourteen_calls(), start=2):
        _, lent = lent_text.PLAIN_CALLS[word_calls.CALL_NAMES[type(call)]](lent, *call)
        seen[number] = lent.words[0]
    yield "the fourteen lines", [seen[number] for number in (2, 3, 5, 6, 12)] == [1, 3, 7, 3, 1]
    garbage = word_tables.WordLent(64, bytes((0, 5, 63)), (9,) * 192, (2 ** 64 - 1,) * 3, b"\xff" * 5)
    yield "opening", word_tables.lent_open(garbage)[1].words == (1, 32, 2 ** 63)
    yield "pack", word_tables.lent_pack(3, b"\1\0\0\1\1\1", (9, 9)) == (0, (5, 6))
    yield "unpack", word_tables.lent_unpack(3, (5, 6), bytes(6)) == (0, b"\1\0\0\1\1\1")
    yield "pack refused", [word_tables.lent_pack(3, cells, (9, 9)) for cells in (bytes(5), b"\2" + bytes(5))] == [
        (1, (9, 9)), (2, (9, 9))]
    yield "unpack refused", [word_tables.lent_unpack(3, words, b"\7" * 6)[0] for words in ((1,), (1, 8))] == [1, 2]


def meant_after(line):
    """Whether bytes and words of a line mean the same after its call; None where it has no bytes."""
    question, answer = line.split(" > ")
    call = lent_text.read_question(question)
    if call.name not in lent_text.WORD_CALLS or call.parts.receive is None:
        return None
    _, _, words, _, receive = answer.split(" ")[-5:]
    after = call.parts[:5] if words == "=" else call.parts._replace(words=lent_text.read_words(words))[:5]
    given = call.parts.receive if receive == "=" else lent_text.read_part(receive)
    meant = word_calls.meaning(word_tables.WordLent(*after))
    return meant == given if meant is not None else call.name == "words_open" and words == receive == "="


def test_word_calls():
    """Calls on words come back the same from their text, and on both desks what they leave means the same."""
    on_both, kinds = 0, set()
    for number, line in enumerate(word_calls.word_lines("test", 2000)):
        meant = meant_after(line)
        yield "call %d" % number, lent_text.judge(line) is None and meant is not False
        on_both += meant is not None
        kinds.add((line.split(" ")[0], line.split(" > ")[1][:2] == "00"))
    yield "on both desks", on_both > 1000
    yield "each call accepted and refused", len(kinds) == 2 * (len(lent_text.WORD_CALLS) + len(lent_text.PACK_CALLS))


def test_holders_of_runs():
    """Lemma 8 with its minus 1: where no slot names a pointer, the owner's counter is the count of holders minus 1."""
    quiet = 0
    for seed in CLAIM_SEEDS:
        for call in word_calls.run_calls(random_runs.rng_for("holders", seed), 250):
            if call.name in lent_text.PACK_CALLS:
                continue
            lent = word_tables.WordLent(*call.parts[:5])
            for pointer, owner in enumerate(lent.owners):
                holders = word_tables.lent_count(lent, pointer)[0].value
                counter = lent.send[owner * len(lent.owners) + pointer]
                named = any(slot[0] and slot[4] == pointer for slot in tables.slots_of(lent.pool))
                quiet += not named
                yield "call %s" % (call.arguments,), holders == sum(call.parts.receive[pointer::len(lent.owners)])
                yield "quiet at %s" % (call.arguments,), named or counter == holders - 1
    yield "quiet pointers", quiet > 100


def all_tests():
    return [value for name, value in sorted(globals().items()) if name.startswith("test_")]
