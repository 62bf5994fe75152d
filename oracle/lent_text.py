"""Calls over lent parts as lines of text: README.md, 'The text of a lent call'."""

from collections import namedtuple

import book
import in_order_tables
import lines
import tables
import word_tables
from desk import Answer
from in_order_tables import OrderedLent
from tables import Lent, slot_bytes
from word_tables import WordLent

UNTOUCHED_COUNT = 0xA5A5A5A5

# A call of the C boundary: its name, what is lent, and the call's own arguments.
LentCall = namedtuple("LentCall", "name parts arguments")
BookParts = namedtuple("BookParts", "sites owners book")
TextPart = namedtuple("TextPart", "text")
# Tables on words, and the receive bytes that mean the same; None where no bytes do.
BothLent = namedtuple("BothLent", WordLent._fields + ("receive",))
# What is lent to pack and to unpack, in the order of the call.
PackParts = namedtuple("PackParts", "sites receive words")
UnpackParts = namedtuple("UnpackParts", "sites words receive")

# How each argument is written: digits of a number, decimal, or a part.
ARGUMENT_FORMS = {
    "open": (), "copy": ("02X", "02X", "02X"), "receive": ("04X",), "delete": ("02X", "02X"),
    "ask": ("02X", "02X"), "share": ("02X", "02X"), "sheet": ("02X", "d"),
    "address": ("02X",), "check": (), "search": ("02X", "part"),
    "write": ("02X", "02X", "02X", "02X"), "read": ("d",)}
BOOK_CALLS = ("address", "check", "search")
LINE_CALLS = ("write", "read")
PLAIN_CALLS = {
    "open": tables.lent_open, "copy": tables.lent_make_copy, "receive": tables.lent_receive,
    "delete": tables.lent_delete, "ask": tables.lent_ask,
    "ordered_open": in_order_tables.lent_open, "ordered_copy": in_order_tables.lent_make_copy,
    "ordered_receive": in_order_tables.lent_receive, "ordered_delete": in_order_tables.lent_delete,
    "ordered_ask": in_order_tables.lent_ask,
    "words_open": word_tables.lent_open, "words_copy": word_tables.lent_make_copy,
    "words_receive": word_tables.lent_receive, "words_delete": word_tables.lent_delete,
    "words_ask": word_tables.lent_ask, "words_count": word_tables.lent_count}
SHARE_CALLS = {"share": tables.lent_share, "ordered_share": in_order_tables.lent_share,
               "words_share": word_tables.lent_share}
SHEET_CALLS = {"sheet": tables.lent_sheet_into, "ordered_sheet": in_order_tables.lent_sheet_into,
               "words_sheet": word_tables.lent_sheet_into}
TABLE_CALLS = ("open", "copy", "receive", "delete", "ask", "share", "sheet")
ORDERED_CALLS = tuple("ordered_" + name for name in TABLE_CALLS)
WORD_CALLS = tuple("words_" + name for name in TABLE_CALLS) + ("words_count",)
PACK_CALLS = ("words_pack", "words_unpack")
ARGUMENT_FORMS.update({kind + name: ARGUMENT_FORMS[name] for kind in ("ordered_", "words_") for name in TABLE_CALLS})
ARGUMENT_FORMS.update({"words_count": ("02X",), "words_pack": (), "words_unpack": ()})


def part_text(part, empty="-"):
    """Bytes as two digits each; an empty part by its mark."""
    return bytes(part).hex().upper() or empty


def counters_text(counters, empty="-"):
    """16-bit counters as four digits each, high byte first."""
    return "".join("%04X" % count for count in counters) or empty


def words_text(words, empty="-"):
    """64-bit words as sixteen digits each."""
    return "".join("%016X" % word for word in words) or empty


def read_part(text):
    return b"" if text in ("-", "null") else bytes.fromhex(text)


def read_counters(text):
    data = read_part(text)
    return tuple(256 * high + low for high, low in zip(data[::2], data[1::2]))


def read_words(text):
    data = read_part(text)
    return tuple(int.from_bytes(data[at:at + 8], "big") for at in range(0, len(data), 8))


def lent_texts(lent, empty):
    """The five texts of lent tables; `empty` gives the mark of each empty part."""
    return ["%02X" % lent.sites, part_text(lent.owners, empty()),
            counters_text(lent.send, empty()), part_text(lent.receive, empty()),
            part_text(lent.pool, empty())]


def ordered_texts(lent, empty):
    """The base's five and the two tables of numbers."""
    return lent_texts(lent, empty) + [counters_text(lent.to_post, empty()),
                                      counters_text(lent.to_receive, empty())]


def both_texts(both, empty):
    """The five of tables on words, and the bytes that mean the same."""
    return ["%02X" % both.sites, part_text(both.owners, empty()), counters_text(both.send, empty()),
            words_text(both.words, empty()), part_text(both.pool, empty()),
            "none" if both.receive is None else part_text(both.receive, empty())]


def pack_texts(parts, empty):
    """The two parts of pack or unpack, in the order of the call."""
    forms = {"receive": part_text, "words": words_text}
    return ["%02X" % parts.sites] + [forms[name](getattr(parts, name), empty()) for name in parts._fields[1:]]


def book_texts(parts, empty):
    return ["%02X" % parts.sites, part_text(parts.owners, empty()), part_text(parts.book, empty())]


def line_texts(parts, empty):
    return [part_text(parts.text, empty())]


def texts_of(call):
    """How what is lent to a call is written."""
    if call.name in LINE_CALLS:
        return line_texts
    if call.name in ORDERED_CALLS:
        return ordered_texts
    if call.name in WORD_CALLS:
        return both_texts
    if call.name in PACK_CALLS:
        return pack_texts
    return book_texts if call.name in BOOK_CALLS else lent_texts


def argument_text(form, argument, empty):
    return part_text(argument, empty()) if form == "part" else format(argument, form)


def question_text(call, empty=lambda: "-"):
    """What is lent and the call, in words of one line."""
    arguments = [argument_text(form, argument, empty)
                 for form, argument in zip(ARGUMENT_FORMS[call.name], call.arguments)]
    return " ".join([call.name] + texts_of(call)(call.parts, empty) + arguments)


def read_argument(form, text):
    if form == "part":
        return read_part(text)
    return int(text, 10 if form == "d" else 16)


def read_both(sites, texts):
    owners, send, words, pool, receive = texts
    return BothLent(sites, read_part(owners), read_counters(send), read_words(words), read_part(pool),
                    None if receive == "none" else read_part(receive))


def read_pack(name, sites, texts):
    if name == "words_pack":
        return PackParts(sites, read_part(texts[0]), read_words(texts[1]))
    return UnpackParts(sites, read_words(texts[0]), read_part(texts[1]))


def read_lent(name, words):
    """What is lent to a call, and the words behind it."""
    if name in LINE_CALLS:
        return TextPart(read_part(words[0])), words[1:]
    sites = int(words[0], 16)
    if name in BOOK_CALLS:
        return BookParts(sites, *map(read_part, words[1:3])), words[3:]
    if name in PACK_CALLS:
        return read_pack(name, sites, words[1:3]), words[3:]
    if name in WORD_CALLS:
        return read_both(sites, words[1:6]), words[6:]
    owners, send, receive, pool = words[1:5]
    lent = Lent(sites, read_part(owners), read_counters(send), read_part(receive), read_part(pool))
    if name in ORDERED_CALLS:
        return OrderedLent(*lent, *map(read_counters, words[5:7])), words[7:]
    return lent, words[5:]


def read_question(text):
    """The call that a question stands for."""
    name, *words = text.split(" ")
    parts, words = read_lent(name, words)
    return LentCall(name, parts, tuple(map(read_argument, ARGUMENT_FORMS[name], words)))


def plain_answer_text(answer):
    """Number, value, empty slots and message of an answer, as C has them."""
    return "%02X %04X %04X %s" % (answer.number, answer.value, answer.empty,
                                  part_text(slot_bytes(answer.message)))


def after_text(before, after):
    """Owners, counters, receive bytes, pool and numbers after the call; = is what it was."""
    texts = [part_text(after.owners), counters_text(after.send),
             part_text(after.receive), part_text(after.pool)] + [
                 counters_text(numbers) for numbers in after[5:]]
    return " ".join("=" if old == new else text
                    for old, new, text in zip(before[1:], after[1:], texts))


def sheet_text(before, after):
    return "=" if before == after else "".join("%04X" % count for count in after)


def answer_and_after(call):
    """The answer of a call over tables as text, and the tables after it."""
    if call.name in SHARE_CALLS:
        answer, after = SHARE_CALLS[call.name](call.parts, *call.arguments)
        return "%02X %d" % answer, after
    if call.name in SHEET_CALLS:
        pointer, length = call.arguments
        paper = [UNTOUCHED_COUNT] * length
        number, written, after = SHEET_CALLS[call.name](call.parts, pointer, paper)
        return "%02X %s" % (number, sheet_text(paper, written)), after
    answer, after = PLAIN_CALLS[call.name](call.parts, *call.arguments)
    return plain_answer_text(answer), after


def table_answer_text(call):
    """The answer of a call over tables and all lent memory after it."""
    text, after = answer_and_after(call)
    return text + " " + after_text(call.parts, after)


def byte_desk_after(both, call, answer, after):
    """The receive bytes after the same call on the byte desk, or how the two desks differ."""
    if both.receive is None or call.name == "words_count":
        return both.receive, ""
    lent = Lent(both.sites, both.owners, both.send, both.receive, both.pool)
    given, left = answer_and_after(LentCall(call.name[len("words_"):], lent, call.arguments))
    apart = given != answer or left._replace(receive=b"") != Lent(*after._replace(words=b""))
    return left.receive, " DESKS DIFFER: " + given if apart else ""


def word_answer_text(call):
    """The answer of both desks, all lent memory after it, and the bytes after it."""
    both = call.parts
    answer, after = answer_and_after(call._replace(parts=WordLent(*both[:5])))
    receive, apart = byte_desk_after(both, call, answer, after)
    texts = [part_text(after.owners), counters_text(after.send), words_text(after.words), part_text(after.pool)]
    texts = ["=" if old == new else text for old, new, text in zip(both[1:5], after[1:], texts)]
    texts.append("=" if receive == both.receive else part_text(receive))
    return " ".join([answer] + texts) + apart


def pack_answer_text(call):
    """The number of pack or unpack, and its two parts after it; the first always stays."""
    form, pack = ((words_text, word_tables.lent_pack) if call.name == "words_pack"
                  else (part_text, word_tables.lent_unpack))
    number, after = pack(*call.parts)
    return "%02X = %s" % (number, "=" if after == call.parts[2] else form(after))


def book_answer_text(call):
    """The answer of a question of the book; owners, book and a wanted address stay."""
    if call.name == "address":
        return "%02X %d %d = =" % book.address(*call.parts, *call.arguments)
    if call.name == "check":
        return plain_answer_text(book.check(*call.parts)) + " = ="
    return plain_answer_text(book.search(*call.parts, *call.arguments)) + " = = ="


def line_answer_text(call):
    """The answer of the line writer or reader, and the whole text after it."""
    if call.name == "read":
        answer = lines.lent_read(call.parts.text, *call.arguments)
        return "%02X %02X %s %d =" % (answer.number, answer.ended, part_text(answer.call), answer.at)
    text = bytearray(call.parts.text)
    answer = Answer(lines.lent_write(call.arguments, text), 0, None)
    return plain_answer_text(answer) + " " + ("=" if text == call.parts.text else part_text(text))


def answer_text(call):
    if call.name in LINE_CALLS:
        return line_answer_text(call)
    if call.name in WORD_CALLS:
        return word_answer_text(call)
    if call.name in PACK_CALLS:
        return pack_answer_text(call)
    return book_answer_text(call) if call.name in BOOK_CALLS else table_answer_text(call)


def line_of(call, empty=lambda: "-"):
    """The whole line: question, expected answer, and all memory after."""
    return question_text(call, empty) + " > " + answer_text(call)


def judge(line):
    """None where this program gives what the line expects, else what it gives."""
    question, expected = line.split(" > ")
    given = answer_text(read_question(question))
    return None if given == expected else given
