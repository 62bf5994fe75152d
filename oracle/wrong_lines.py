"""Wrong desks: lines (lines.py) and the program (program.py)."""

from patched import mutant, swapped

LENGTH = "        (BAD_LINE, lambda: len(line) != LINE_DIGITS),\n"
DIGITS = "        (BAD_LINE, lambda: not all_digits(line)),\n"
UNKNOWN = "        (UNKNOWN_CODE, lambda: is_unknown(parts[0])),\n"
PRIVATE = "        (PRIVATE_CODE, lambda: is_private(parts[0])),\n"
LAST = "        (BAD_LINE, lambda: parts[0] != 0x01 and parts[3] != 0x00),\n"
POSITION = "        self.position = min(end + 1, len(self.text))\n"
LINE_TEXT = "        return bytes(self.text[start:end])\n"
STOP = "    if answer.number != ACCEPTED:\n        return b\"\".join(output)\n"
ANSWERED = "        output.append(answer_line(answer_to(desk, call)))\n"
WRITTEN = "    written = line_of_call(call) + bytes([NEWLINE])\n"
SHORT = "    if len(text) < len(written):\n        return BAD_SHAPE\n"
WRITE = "    text[:len(written)] = written\n"
WRITE_CALL = "    return call.number if isinstance(call, Refusal) else write_line(call, text)\n"
READ_ENDED = "        return ReadLine(ACCEPTED, 1, NO_CALL, reader.position)\n"
READ_REFUSED = "        return ReadLine(call.number, 0, NO_CALL, reader.position)\n"
READ_CALL = "    return ReadLine(ACCEPTED, 0, bytes_of_call(call), reader.position)\n"


def characters():
    return [
        mutant("lower case is accepted", "lines",
               "    return all(character in DIGITS for character in text)",
               "    return all(character in DIGITS + b'abcdef' for character in text)",
               "lines", "    return max(DIGITS.find(character), 0)",
               "    return max(DIGITS.find(bytes([character]).upper()), 0)"),
        mutant("digits go on to G", "lines", "character in DIGITS for", "character in DIGITS + b'G' for"),
        mutant("every character is a digit", "lines", DIGITS, ""),
        mutant("spaces around a line are cut off", "lines", LINE_TEXT,
               "        return bytes(self.text[start:end]).strip(b' ')\n"),
        mutant("a carriage return at the end of a line is cut off", "lines", LINE_TEXT,
               "        return bytes(self.text[start:end]).rstrip(b'\\r')\n"),
        mutant("a NUL byte ends a line's text", "lines", LINE_TEXT,
               "        return bytes(self.text[start:end]).split(b'\\0')[0]\n"),
        mutant("a line may be longer than eight", "lines", LENGTH,
               LENGTH.replace("!=", "<"), "lines", "digits_to_bytes(line)\n    if code",
               "digits_to_bytes(line[:8])\n    if code"),
        mutant("a line may be shorter than eight", "lines", LENGTH, LENGTH.replace("!=", ">"),
               "lines", "= digits_to_bytes(line)\n    if code",
               "= digits_to_bytes(line.ljust(8, b'0'))\n    if code")]


def codes():
    return [
        mutant("code 05 is not unknown but malformed", "lines", "0x05 <= code", "0x06 <= code",
               "lines", LAST, LAST + "        (BAD_LINE, lambda: parts[0] == 0x05),\n"),
        mutant("code 7F is private", "lines", "code <= 0x7F", "code <= 0x7E", "lines", "code >= 0x80",
               "code >= 0x7F"),
        mutant("code 80 is unknown", "lines", "code <= 0x7F", "code <= 0x80"),
        mutant("code 00 is a malformed line", "lines", "    return code == 0x00 or 0x05 <= code <= 0x7F",
               "    return 0x05 <= code <= 0x7F", "lines", LENGTH, LENGTH
               + "        (BAD_LINE, lambda: parts[0] == 0),\n"),
        mutant("private codes are unknown ones", "lines", PRIVATE,
               PRIVATE.replace("PRIVATE_CODE", "UNKNOWN_CODE")),
        mutant("the last byte is not tested", "lines", LAST, ""),
        mutant("the last byte is not tested for code 04", "lines", LAST,
               LAST.replace("parts[0] != 0x01", "parts[0] in (0x02, 0x03)")),
        mutant("the last byte of a make copy is tested too", "lines", LAST,
               "        (BAD_LINE, lambda: parts[3] != 0x00),\n"),
        mutant("codes 03 and 04 are exchanged", "lines", "if code == 0x03 else Ask",
               "if code == 0x04 else Ask"),
        mutant("a slot's low byte comes first", "lines", "return Receive(256 * first + second)",
               "return Receive(256 * second + first)"),
        mutant("a slot has one byte", "lines", "return Receive(256 * first + second)",
               "return Receive(second)")]


def line_orders():
    return [
        mutant("line: code before length", "lines", LENGTH + DIGITS + UNKNOWN + PRIVATE,
               UNKNOWN + PRIVATE + LENGTH + DIGITS),
        mutant("line: code before digits", "lines", DIGITS + UNKNOWN + PRIVATE, UNKNOWN + PRIVATE + DIGITS),
        mutant("line: last byte before code", "lines", UNKNOWN + PRIVATE + LAST, LAST + UNKNOWN + PRIVATE)]


def readers():
    return [
        mutant("the position is not past a line's newline", "lines", POSITION,
               "        self.position = end if end > start else end + 1\n"),
        mutant("the position is one past the newline", "lines", POSITION,
               "        self.position = min(end + 2, len(self.text))\n"),
        mutant("after a line that is too long the rest is read as a line", "lines", POSITION,
               "        end = min(end, start + 518) if start == 0 else min(end, start + 8)\n"
               "        self.position = end + (self.text[end:end + 1] == b'\\n')\n"),
        mutant("empty lines are skipped", "lines", "        start = self.position\n",
               "        while self.text[self.position:self.position + 1] == b'\\n':\n"
               "            self.position += 1\n        start = self.position\n"),
        mutant("a last line without its newline is dropped", "lines", "            end = len(self.text)\n",
               "            return None\n"),
        mutant("the end of the text is one more empty line", "lines",
               "        return Ended() if line is None else call_of_line(line)\n",
               "        if line is None and not hasattr(self, 'told'):\n            self.told = line = b''\n"
               "        return Ended() if line is None else call_of_line(line)\n"),
        mutant("a carriage return ends a line", "lines", "end = self.text.find(b\"\\n\", start)",
               "end = self.text.replace(b'\\r', b'\\n').find(b\"\\n\", start)")]


def openings():
    return [
        mutant("goes on after a refused opening", "program", STOP,
               "    if answer.number != ACCEPTED:\n        desk = machine.open_desk(1, b'', 0)\n"),
        mutant("the next line may open after a refused opening", "program", STOP,
               "    if answer.number != ACCEPTED:\n"
               "        return b\"\".join(output) + run(text[reader.position:])\n"),
        mutant("any refusal stops the program", "program", ANSWERED, ANSWERED
               + "        if output[-1][:2] != b'00':\n            break\n"),
        mutant("an opening of 4 digits is taken", "program",
               "FEWEST_OPENING_DIGITS, MOST_OPENING_DIGITS = 6,",
               "FEWEST_OPENING_DIGITS, MOST_OPENING_DIGITS = 4,", "program",
               "sites, high, low, *owners = digits_to_bytes(line)",
               "sites, high, low, *owners = digits_to_bytes(line.ljust(6, b'0'))"),
        mutant("an opening of 6 digits is refused", "program",
               "FEWEST_OPENING_DIGITS, MOST_OPENING_DIGITS = 6,",
               "FEWEST_OPENING_DIGITS, MOST_OPENING_DIGITS = 8,"),
        mutant("an opening of 518 digits is refused", "program", "MOST_OPENING_DIGITS = 6, 518",
               "MOST_OPENING_DIGITS = 6, 516"),
        mutant("an opening of 520 digits gives 1", "program", "MOST_OPENING_DIGITS = 6, 518",
               "MOST_OPENING_DIGITS = 6, 520"),
        mutant("the last digit of an odd opening is dropped", "program",
               "        (BAD_LINE, lambda: len(line) % 2 == 1),\n", ""),
        mutant("an opening's characters are not tested", "program",
               "        (BAD_LINE, lambda: not all_digits(line)),\n", ""),
        mutant("the slot count's low byte comes first", "program", "slot_count = 256 * high + low",
               "slot_count = 256 * low + high"),
        mutant("an opening does not test the slot count", "program",
               "BAD_SHAPE if slot_count > MOST_SLOTS else why_no_opening(sites, owners)",
               "why_no_opening(sites, owners)"),
        mutant("an opening line: 2 before a slot count's 1", "program",
               "BAD_SHAPE if slot_count > MOST_SLOTS else why_no_opening(sites, owners)",
               "why_no_opening(sites, owners) or (BAD_SHAPE if slot_count > MOST_SLOTS else 0)")]


def programs():
    return [
        mutant("an answer line without its message", "program", "+ slot_bytes(answer.message)) + b\"\\n\"",
               ") + b\"\\n\""),
        mutant("an answer's value with its low byte first", "program",
               "bytes((answer.value >> 8, answer.value & 255))",
               "bytes((answer.value & 255, answer.value >> 8))"),
        mutant("an answer's value in one byte", "program", "bytes((answer.value >> 8, answer.value & 255))",
               "bytes((0, answer.value & 255))"),
        mutant("answers in lower case", "program", "slot_bytes(answer.message)) + b\"\\n\"",
               "slot_bytes(answer.message)).lower() + b\"\\n\""),
        mutant("the last answer lacks its newline", "program",
               "        call = reader.next_call()\n    return b\"\".join(output)\n",
               "        call = reader.next_call()\n    return b\"\".join(output)[:-1]\n"),
        mutant("8,192 bytes are too long", "program", "len(text) > LONGEST_INPUT",
               "len(text) >= LONGEST_INPUT"),
        mutant("8,193 bytes are not too long", "program", "len(text) > LONGEST_INPUT",
               "len(text) > LONGEST_INPUT + 1"),
        mutant("too long an input is cut and run", "program", "    if len(text) > LONGEST_INPUT:\n",
               "    text = text[:LONGEST_INPUT]\n    if len(text) > LONGEST_INPUT:\n"),
        mutant("17 comes after the other answers", "program",
               "        return answer_line(refused(TOO_LONG))\n",
               "        return run(text[:LONGEST_INPUT]) + answer_line(refused(TOO_LONG))\n"),
        mutant("empty input is an opening of 0 digits", "program", "        return b\"\"\n",
               "        return answer_line(refused(BAD_LINE))\n"),
        mutant("a refused line gets no answer", "program", ANSWERED,
               "        if not isinstance(call, Refusal):\n    " + ANSWERED)]


def lent_writers():
    """The line writer over a lent text."""
    return [
        mutant("writer: 14 for a short text", "lines", SHORT, SHORT.replace("BAD_SHAPE", "BAD_LINE")),
        mutant("writer: 1 for a short text, which is written as far as it goes", "lines", SHORT,
               "    if len(text) < len(written):\n        text[:] = written[:len(text)]\n"
               "        return BAD_SHAPE\n"),
        mutant("writer: a short text is cut off and accepted", "lines", SHORT + WRITE,
               "    text[:] = (written + text[len(written):])[:len(text)]\n"),
        mutant("writer: a short text is cleared", "lines", SHORT,
               "    if len(text) < len(written):\n        text[:] = bytes(len(text))\n"
               "        return BAD_SHAPE\n"),
        mutant("writer: the line is left without its newline", "lines", WRITTEN,
               "    written = line_of_call(call)\n"),
        mutant("writer: nine bytes are wanted, eight are written", "lines", WRITE,
               "    text[:LINE_DIGITS] = written[:LINE_DIGITS]\n"),
        mutant("writer: a carriage return before the newline", "lines", WRITTEN,
               "    written = line_of_call(call) + b'\\r\\n'\n"),
        mutant("writer: a NUL byte behind the newline", "lines", WRITTEN,
               "    written = line_of_call(call) + b'\\n\\0'\n"),
        mutant("writer: a text of nine bytes is too short", "lines", SHORT, SHORT.replace("<", "<=")),
        mutant("writer: digits in lower case", "lines", WRITTEN,
               "    written = line_of_call(call).lower() + bytes([NEWLINE])\n"),
        mutant("writer: what is past the line is cleared", "lines", WRITE,
               "    text[:] = written.ljust(len(text), b'\\0')\n"),
        mutant("writer: at the end of the text", "lines", WRITE, "    text[-len(written):] = written\n"),
        mutant("writer: 1 before 15, 16 and 14", "lines", WRITE_CALL,
               "    if len(text) <= LINE_DIGITS:\n        return BAD_SHAPE\n" + WRITE_CALL),
        mutant("writer: 1 before 14", "lines", WRITE_CALL,
               "    if len(text) <= LINE_DIGITS and call == Refusal(BAD_LINE):\n"
               "        return BAD_SHAPE\n" + WRITE_CALL),
        mutant("writer: every last byte is taken", "lines", WRITE_CALL,
               "    if call == Refusal(BAD_LINE):\n        call = call_of_line(bytes_to_digits(four[:3] + (0,)))\n"
               + WRITE_CALL),
        mutant("writer: a refused call is written", "lines", WRITE_CALL,
               "    if isinstance(call, Refusal) and len(text) > LINE_DIGITS:\n"
               "        text[:LINE_DIGITS] = bytes_to_digits(four)\n" + WRITE_CALL),
        mutant("writer: the value is how much is written", "lent_text",
               "Answer(lines.lent_write(call.arguments, text), 0, None)",
               "(lambda n: Answer(n, 0 if n else 9, None))(lines.lent_write(call.arguments, text))")]


def lent_readers():
    """The line reader at any place of a lent text."""
    stays = ", at)\n"
    return [
        mutant("reader: stays where it is after a line", "lines", READ_CALL,
               READ_CALL.replace(", reader.position)\n", stays)),
        mutant("reader: stays where it is after a refused line", "lines", READ_REFUSED,
               READ_REFUSED.replace(", reader.position)\n", stays)),
        mutant("reader: past the end it moves to the end", "lines", READ_ENDED,
               READ_ENDED.replace("reader.position", "len(text)")),
        mutant("reader: past the end it moves to the start", "lines", READ_ENDED,
               READ_ENDED.replace("reader.position", "at if at == len(text) else 0")),
        mutant("reader: past the end it goes on", "lines", READ_ENDED,
               READ_ENDED.replace("reader.position", "min(at + 1, 2 ** 64 - 1)")),
        mutant("reader: the end is told as a refusal", "lines", READ_ENDED,
               READ_ENDED.replace("ACCEPTED, 1", "BAD_LINE, 1")),
        mutant("reader: the end is told as a refused line and no end", "lines", READ_ENDED,
               READ_ENDED.replace("ACCEPTED, 1", "BAD_LINE, 0")),
        mutant("reader: the end is told as a call", "lines", READ_ENDED,
               READ_ENDED.replace("ACCEPTED, 1", "ACCEPTED, 0")),
        mutant("reader: past the end is a refusal, at the end it has ended", "lines", READ_ENDED,
               READ_ENDED.replace("ACCEPTED, 1", "BAD_SHAPE if at > len(text) else ACCEPTED, 1")),
        mutant("reader: past the end counts from the start again", "lines",
               "    reader = Reader(text, at)\n",
               "    reader = Reader(text, at % (len(text) + 1))\n"),
        mutant("reader: the last line tells the end too", "lines", READ_CALL,
               READ_CALL.replace("ACCEPTED, 0", "ACCEPTED, int(reader.position == len(text))")),
        mutant("reader: a refused last line tells the end too", "lines", READ_REFUSED,
               READ_REFUSED.replace("number, 0", "number, int(reader.position == len(text))")),
        mutant("reader: a refused line tells its bytes", "lines", READ_REFUSED,
               READ_REFUSED.replace("NO_CALL", "digits_to_bytes(text[at:at + 8]).ljust(4, b'\\0')")),
        mutant("reader: always at the start of the text", "lines", "    reader = Reader(text, at)\n",
               "    reader = Reader(text, at if at >= len(text) else 0)\n"),
        mutant("reader: at the start of the line that the place is in", "lines",
               "    reader = Reader(text, at)\n",
               "    reader = Reader(text, at if at >= len(text) else text.rfind(b'\\n', 0, at) + 1)\n"),
        mutant("reader: places in 32 bits", "lines", "    reader = Reader(text, at)\n",
               "    reader = Reader(text, at % 2 ** 32)\n"),
        mutant("reader: a text's end in the middle of a line is one past it", "lines", POSITION,
               "        self.position = end + 1\n"),
        mutant("reader: an accepted line tells its characters", "lines", READ_CALL,
               READ_CALL.replace("bytes_of_call(call)", "text[at:at + 4]"))]


def all_mutants():
    groups = (characters, codes, line_orders, readers, openings, programs, lent_writers, lent_readers)
    return [found for group in groups for found in group()]
