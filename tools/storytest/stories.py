"""Known stories: the fourteen lines, the late copy, every refusal, in words and drawn."""

import os
import re
import tempfile

import second
import tool
from parts import case, hold, text_file
from storylib.refusals import NUMBERS


def pills(picture):
    """What the asks say, in the order of the rows."""
    found = re.findall(r'<rect class="(no|yes)" [^>]*/><text [^>]*>(\w+)<', picture)
    hold(all(said.lower() == kind for kind, said in found))
    return [said for _, said in found]


def the_fourteen():
    """The fourteen lines in words, after line 8, and drawn."""
    status, told, err = tool.process(case("fourteen")[0])
    rows = tool.rows_of(told)
    hold((status, err, len(rows)) == (0, "", 14), err)
    hold([row["owner counts"] for row in rows] == "0 1 1 1 1 1 1 1 2 1 1 1 0 0".split(), told)
    hold([row["held by"] for row in rows] == ["0", "0"] + ["0 1"] * 2 + ["0–2"] + ["0 1"] * 6 + ["0"] * 3, told)
    hold([row.get("why") for row in rows if "why" in row] == [
        "line 7: DEC 2→0 refused, 9 Held: waits for INC_DEC 2→0 (third 1) in slot 0, posted at line 5"], told)
    hold((rows[7]["answer"], rows[13]["answer"]) == ("no", "YES"), told)
    status, told, _ = tool.process(*case("fourteen"), "--at", "8")
    parts = ["+1  site 1 holds it", "-1  INC_DEC 2→0 (third 1) in slot 0, posted at line 5", "+1  DEC 2→0 in slot 1, posted at line 6"]
    why = "ask says no: the owner's counter is 1, which is made up of\n" + "".join("    %s\n" % part for part in parts)
    hold(status == 0 and told.endswith(why), told)
    picture = tool.process(case("fourteen")[0], "--svg", "-")[1]
    hold(len(tool.arrows_of(picture)) == 6 and pills(picture) == ["no", "YES"])
    hold(tool.signs_of(picture) == [1, 0, 1, 1], "one Held, no other refusal, one no, one YES")
    hold("prefers-color-scheme:dark" in picture and not list(tool.outside(picture)))


def the_late_copy():
    """The late copy, told and drawn; cut off after line 6 its COPY is dashed."""
    told = tool.process(*case("late-copy"))[1]
    rows = tool.rows_of(told)
    hold([row["why"] for row in rows if "why" in row] == [
        "line 5: delete of pointer 0 at site 1 refused, 12 StillCounted: its counter is 1, for COPY 1→2 in slot 0, posted at line 4"], told)
    picture = tool.process(*case("late-copy"), "--svg", "-")[1]
    hold(pills(picture) == ["no", "no", "no", "no", "YES"] and len(tool.arrows_of(picture)) == 6)
    cut = tool.process(*case("late-copy"), "--svg", "-", "--at", "6")[1]
    hold(tool.arrows_of(cut) == [(0, "COPY", 0, 1, 2, 3), (0, "COPY", 1, 2, 4, None)] and "in flight after line 6: 1 message: 1 COPY" in cut, cut)


# Every refusal that a call line of desk can get: the line, and the cause in words; where there is none it is accepted.
REFUSED = (
    ("03000200", None),
    ("01000300", "copy 0→3 of pointer 0 refused, 3 BadName: site 3 is named, and the sites are 0 to 2"),
    ("03000500", "delete of pointer 5 at site 0 refused, 3 BadName: pointer 5 is named, and the only pointer is 0"),
    ("02010200", "receive of slot 258 refused, 3 BadName: slot 258 is named, and the slots are 0 to 1"),
    ("01000000", "copy 0→0 of pointer 0 refused, 4 SameSite: from and to are both site 0"),
    ("01010200", "copy 1→2 of pointer 0 refused, 5 NotHeld: site 1 does not hold pointer 0, and no copy was sent to it"),
    ("02000000", "receive of slot 0 refused, 8 EmptySlot: nothing was posted into slot 0"),
    ("03000000", "delete of pointer 0 at site 0 refused, 11 IsOwner: site 0 owns pointer 0"),
    ("04010000", "ask of site 1 for pointer 0 refused, 13 NotOwner: site 0 owns pointer 0"),
    ("0100010", 'line refused, 14 BadLine: "0100010": 7 characters, and a call has 8'),
    ("", 'line refused, 14 BadLine: "": empty, and a call has 8'),
    ("01000100\r", 'line refused, 14 BadLine: "01000100\\x0D": 9 characters, and a call has 8; character 9 is a carriage return, no digit'),
    ("0100f100", 'line refused, 14 BadLine: "0100f100": character 5 is "f": lower case is no digit'),
    ("0100!100", 'line refused, 14 BadLine: "0100!100": character 5 is "!", no digit'),
    ("02000001", 'line refused, 14 BadLine: "02000001": byte 4 is 01, and code 02 has 00 there'),
    ("77000000", "line refused, 15 UnknownCode: code 77 names no call"),
    ("C0000000", "line refused, 16 PrivateCode: code C0 is private, as 80 to FF are"),
    ("01000100", None),
    ("03010000", "delete of pointer 0 at site 1 refused, 5 NotHeld: site 1 does not hold pointer 0; "
                 "on its way: COPY 0→1 in slot 0, posted at line 18"),
    ("02000000", None),
    ("02000000", "receive of slot 0 refused, 8 EmptySlot: slot 0 is empty since line 20, which received COPY 0→1"),
    ("01010200", None),
    ("03010000", "delete of pointer 0 at site 1 refused, 12 StillCounted: its counter is 1, for COPY 1→2 in slot 0, posted at line 22"),
    ("02000000", None),
    ("03020000", None),
    ("01000100", "copy 0→1 of pointer 0 refused, 7 PoolFull: 2 slots, each with a message"),
    ("02000100", "DEC 2→0 refused, 9 Held: waits for INC_DEC 2→0 (third 1) in slot 0, posted at line 24"),
    ("01020100", "copy 2→1 of pointer 0 refused, 5 NotHeld: site 2 does not hold pointer 0, it deleted it at line 25"),
)


def the_refusals():
    """Every refusal that a line of desk can get has its cause in words, and its sign in the drawing."""
    with tempfile.TemporaryDirectory() as room:
        path = text_file(room, "all.in", "".join(line + "\n" for line, _ in REFUSED))
        rows = tool.rows_of(tool.process(path)[1])
        for (_, cause), row, line in zip(REFUSED, rows, range(1, 99)):
            hold(row.get("why") == (cause and "line %d: %s" % (line, cause)), "line %d: %s" % (line, row))
        hold(len(rows) == len(REFUSED))
        given = {int(n) for row in rows for n in re.findall(r"refused, (\d+) ", row["answer"])}
        hold(given == {3, 4, 5, 7, 8, 9, 11, 12, 13, 14, 15, 16}, str(given))
        picture = tool.process(path, "--svg", "-")[1]
        refused = sum(cause is not None for _, cause in REFUSED)
        hold(tool.signs_of(picture) == [1, refused - 1, 0, 0], str(tool.signs_of(picture)))
        hold(not list(tool.outside(picture)) and len(tool.rows_drawn(picture)) == len(REFUSED))


def the_openings():
    """What a refused opening gets: 1, 2, 14 and 17."""
    long = format(os.path.getsize(case("refusal-17-too-long")[0]), ",")
    for name, cause in {
        "refusal-01-bad-shape": "1 BadShape: 65 sites and 4 slots; a desk has 1 to 64 sites and at most 1,024 slots",
        "refusal-02-bad-table": "2 BadTable: pointer 0 is owned by site 3, and the sites are 0 to 2",
        "opening-7-digits": '14 BadLine: "0300040": 7 digits, an odd count',
        "opening-crlf": '14 BadLine: "03000400\\x0D": character 9 is a carriage return, no digit',
        "refusal-17-too-long": "17 TooLong: the input has %s bytes, and desk reads at most 8,192" % long,
    }.items():
        status, told, _ = tool.within(case(name)[0])
        hold(status == 0 and "      line 1: opening refused, %s\n" % cause in told, told)
        hold(not list(tool.outside(tool.within(case(name)[0], "--svg", "-")[1])))


def the_numbers():
    """Every number of documents 01 and 02 has a name, and those of document 01 the independent program's."""
    hold(sorted(NUMBERS) == list(range(1, 28)))
    hold({number: NUMBERS[number].name for number in second.refusal_names()} == second.refusal_names())
