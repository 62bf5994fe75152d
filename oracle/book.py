"""The address book: document 01, 'The address book'."""

from collections import namedtuple

from desk import Answer, refused
from refusals import ACCEPTED, BAD_BOOK, BAD_NAME, NOT_LISTED, TWINS, first_refusal
from tables import why_no_opening

# A part of the lent book; after a refusal it is empty and stands at 0.
Part = namedtuple("Part", "number at length")


def parts_of(book, pointers):
    """Where each pointer's address stands, or None where the book is not exactly G entries."""
    parts, at = {}, 0
    for pointer in range(pointers):
        if at >= len(book) or book[at] == 0:
            return None
        parts[pointer] = (at + 1, book[at])
        at += 1 + book[at]
    return parts if at == len(book) else None


def addresses_of(book, pointers):
    """Each pointer's address, byte for byte and never unescaped."""
    return {pointer: bytes(book[at:at + length])
            for pointer, (at, length) in (parts_of(book, pointers) or {}).items()}


def why_no_book(sites, owners, book):
    """1 and 2 as an opening gives them, then 18."""
    return why_no_opening(sites, owners) or first_refusal(
        (BAD_BOOK, lambda: parts_of(book, len(owners)) is None),
    )


def address(sites, owners, book, pointer):
    """The address of a pointer as a part of the lent book: 18, then 3."""
    number = why_no_book(sites, owners, book)
    number = number or first_refusal((BAD_NAME, lambda: pointer >= len(owners)))
    if number:
        return Part(number, 0, 0)
    return Part(ACCEPTED, *parts_of(book, len(owners))[pointer])


def has_twins(owners, addresses):
    """Two pointers have equal owner and equal address."""
    return len({(owners[pointer], name) for pointer, name in addresses.items()}) < len(addresses)


def check(sites, owners, book):
    """18, then 19."""
    number = why_no_book(sites, owners, book)
    addresses = addresses_of(book, len(owners))
    number = number or first_refusal((TWINS, lambda: has_twins(owners, addresses)))
    return Answer(number, 0, None)


def listed(owners, addresses, owner, wanted):
    """The pointers that have both the wanted owner and the whole wanted address."""
    return [pointer for pointer, name in addresses.items()
            if owners[pointer] == owner and name == wanted]


def search(sites, owners, book, owner, wanted):
    """18, then 3 for a wanted owner not below S, then the lowest pointer that has both, or 20."""
    number = why_no_book(sites, owners, book)
    found = listed(owners, addresses_of(book, len(owners)), owner, bytes(wanted))
    number = number or first_refusal(
        (BAD_NAME, lambda: owner >= sites),
        (NOT_LISTED, lambda: not found),
    )
    return refused(number) if number else Answer(ACCEPTED, min(found), None)
