"""Lent tables whose receive part is words (document 02, Five): a word as a set of sites, and every call over them."""

from collections import namedtuple

import desk as machine
import tables
from desk import MOST_POINTERS, MOST_SITES, Answer, ShareAnswer, SheetAnswer, refused
from refusals import ACCEPTED, BAD_NAME, BAD_SHAPE, BAD_TABLE, first_refusal

# As in the base, but for words: a tuple of 64-bit numbers, one for each pointer.
WordLent = namedtuple("WordLent", "sites owners send words pool")


def sites_of(word):
    """The sites that a word names: site s by bit s."""
    return {site for site, digit in enumerate(reversed("{:064b}".format(word))) if digit == "1"}


def bit_of(site):
    """The word that names this site alone."""
    return 2 ** site


def words_of(pairs, pointers):
    """A word for each pointer, from the pairs (site, pointer) that hold."""
    words = dict.fromkeys(pointers, 0)
    for site, pointer in pairs:
        words[pointer] += bit_of(site)
    return tuple(words.values())


def beside_words(lent):
    """All that is lent but the words, as tables of the base whose receive bytes are 0."""
    return tables.Lent(lent.sites, lent.owners, lent.send, bytes(lent.sites * len(lent.owners)), lent.pool)


def breaks_shape(lent):
    """As in the base, with exactly G words."""
    return tables.breaks_shape(beside_words(lent)) or len(lent.words) != len(lent.owners)


def breaks_word(word, sites):
    """A set bit at or above S."""
    return any(site >= sites for site in sites_of(word))


def breaks_table(lent):
    """An owner, word or slot breaks the table."""
    return (tables.breaks_table(beside_words(lent))
            or any(breaks_word(word, lent.sites) for word in lent.words))


def why_no_tables(lent):
    return first_refusal(
        (BAD_SHAPE, lambda: breaks_shape(lent)),
        (BAD_TABLE, lambda: breaks_table(lent)),
    )


def decode(lent):
    """Good tables as a desk of maps."""
    desk = tables.decode(beside_words(lent))
    desk.holders = {(site, pointer) for pointer, word in enumerate(lent.words) for site in sites_of(word)}
    return desk


def encode(desk):
    """A desk of maps as the parts that hold it."""
    base = tables.encode(desk)
    return WordLent(base.sites, base.owners, base.send, words_of(desk.holders, desk.owner_of), base.pool)


def why_no_lent_opening(lent):
    return first_refusal(
        (BAD_SHAPE, lambda: breaks_shape(lent)),
        (BAD_TABLE, lambda: tables.breaks_owners(lent.sites, lent.owners)),
    )


def lent_open(lent):
    number = why_no_lent_opening(lent)
    if number:
        return refused(number), lent
    opened = machine.open_desk(lent.sites, lent.owners, len(lent.pool) // tables.SLOT_BYTES)
    return Answer(ACCEPTED, 0, None), encode(opened)


def over_tables(lent, call, arguments, refusal):
    """1 and 2 first, then the call on the maps; the answer and all lent memory after it."""
    number = why_no_tables(lent)
    if number:
        return refusal(number), lent
    desk = decode(lent)
    answer = call(desk, *arguments)
    return answer, encode(desk)


def lent_make_copy(lent, sender, receiver, pointer):
    return over_tables(lent, machine.make_copy, (sender, receiver, pointer), refused)


def lent_receive(lent, slot):
    return over_tables(lent, machine.receive, (slot,), refused)


def lent_delete(lent, site, pointer):
    return over_tables(lent, machine.delete, (site, pointer), refused)


def lent_ask(lent, site, pointer):
    return over_tables(lent, machine.ask, (site, pointer), refused)


def lent_share(lent, site, pointer):
    return over_tables(lent, machine.share, (site, pointer), lambda number: ShareAnswer(number, 0))


def lent_sheet_into(lent, pointer, paper):
    """As in the base: another length than 192 gives 1 and writes nothing."""
    if len(paper) != tables.SHEET_LENGTH:
        return BAD_SHAPE, list(paper), lent
    answer, after = over_tables(lent, machine.sheet, (pointer,),
                                lambda number: SheetAnswer(number, machine.no_rows()))
    return answer.number, machine.sheet_counts(answer.rows), after


# Count of holders: 1, 2, 3.

def holders_of(desk, pointer):
    """Every site that holds a pointer, its owner too where it does."""
    return {site for site, held in desk.holders if held == pointer}


def count_holders(desk, pointer):
    if desk.lacks_pointer(pointer):
        return refused(BAD_NAME)
    return Answer(ACCEPTED, len(holders_of(desk, pointer)), None)


def lent_count(lent, pointer):
    return over_tables(lent, count_holders, (pointer,), refused)


# Pack and unpack: 1, 2; what is written to is not read, and a refusal writes nothing.

def breaks_pair(sites, receive, words):
    """S is 1 to 64, the words at most 256, and the bytes S for each word."""
    return (not 1 <= sites <= MOST_SITES or len(words) > MOST_POINTERS
            or len(receive) != sites * len(words))


def lent_pack(sites, receive, words):
    """The number and the words after: word p names the sites whose byte s x G + p is 1."""
    number = first_refusal(
        (BAD_SHAPE, lambda: breaks_pair(sites, receive, words)),
        (BAD_TABLE, lambda: any(cell > 1 for cell in receive)),
    )
    if number:
        return number, words
    held = [divmod(place, len(words)) for place, cell in enumerate(receive) if cell == 1]
    return ACCEPTED, words_of(held, range(len(words)))


def lent_unpack(sites, words, receive):
    """The number and the bytes after."""
    number = first_refusal(
        (BAD_SHAPE, lambda: breaks_pair(sites, receive, words)),
        (BAD_TABLE, lambda: any(breaks_word(word, sites) for word in words)),
    )
    if number:
        return number, receive
    named = [sites_of(word) for word in words]
    return ACCEPTED, bytes(1 if site in of else 0 for site in range(sites) for of in named)
