"""Seeded address books, good and damaged, and the three questions over them."""

from lent_text import BookParts, LentCall

# Prefixes of each other, escapes that must not be undone, and bytes of every sort.
ADDRESSES = (b"A", b"AB", b"ABC", b"a", b"%41", b"\\n", b"\n", b"\0", b"\0\0", b"\xff", b"\x01A",
             b"B", b"BA", b"x" * 254, b"x" * 255)


def random_names(rng, pointers):
    few = rng.sample(ADDRESSES, rng.randint(1, 6))
    return [rng.choice(few) for _ in range(pointers)]


def book_of(names):
    """An entry is a length byte, then the address; pointer 0 comes first."""
    return b"".join(bytes([len(name)]) + name for name in names)


def spoilt_book(rng, book):
    way = rng.randrange(7)
    if way == 0:
        return book + bytes([rng.choice([0, 1, 65])])
    if way == 1:
        return book[:-1]
    if way == 2:
        return b"\0" + book
    if way == 3:
        return book + b"\0"
    if way == 4:
        return book + b"\1Z"
    if way == 5:
        return book[1 + book[0]:] if book else b"\1"
    return b""


def random_group(rng):
    """S and owners, now and then such as an opening refuses."""
    sites = rng.choice([1, 2, 2, 3, 3, 64])
    pointers = rng.choice([0, 1, 2, 2, 3, 3, 4, 5]) if rng.random() < 0.99 else 256
    owners = [rng.randrange(min(sites, 3)) for _ in range(pointers)]
    if rng.random() < 0.06:
        sites = rng.choice([0, 65, 255])
    if owners and rng.random() < 0.06:
        owners[rng.randrange(len(owners))] = rng.choice([min(sites, 255), 255])
    if rng.random() < 0.005:
        owners = [0] * 257
    return sites, bytes(owners)


def wanted_address(rng, names):
    """An address of the book, a part of one, a longer one, or none at all."""
    if not names or rng.random() < 0.2:
        return rng.choice(ADDRESSES + (b"", b"y" * 256, b"x" * 256))
    name = rng.choice(names)
    return rng.choice([name, name, name, name, name[:-1], name + b"\0", name + b"A", name.lower()])


def random_book_call(rng):
    sites, owners = random_group(rng)
    names = random_names(rng, len(owners))
    book = book_of(names)
    if rng.random() < 0.2:
        book = spoilt_book(rng, book)
    parts = BookParts(sites, owners, book)
    name = rng.choice(["address", "check", "search", "search"])
    if name == "check":
        return LentCall(name, parts, ())
    if name == "address":
        outside = rng.random() < 0.2
        pointer = rng.choice([min(len(owners), 255), 255]) if outside else rng.randrange(
            min(max(len(owners), 1), 256))
        return LentCall(name, parts, (pointer,))
    owner = rng.choice([min(sites, 255), 255, 0]) if rng.random() < 0.15 else rng.randrange(3)
    return LentCall(name, parts, (owner, wanted_address(rng, names)))
