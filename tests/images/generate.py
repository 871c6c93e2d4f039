#!/usr/bin/env python3
"""Makes what the program `cases_passes` runs: its data/images.bin of the rows below, its data/sample.bin of the original's answers, and of the
model's to the fuller rewrite (tests/differential), and its expected output, stdout. README.md has the layout, and how to add a row or an
operation.

Every expected byte is written out by hand from documents 01 and 02, but for what `pack` makes of images that are there for other operations: that
goes by the widths below. Releases are put together of images and outcomes that are written out. A word is a cell in hexadecimal, with zeros behind
it; `CELL*N` is the cell N times, and `CELL*N@P` numbers these from 0 in the 2 bytes at P. Commands that the rows name by their bytes:

Assert 01, Call 02, ClockRead 03, ClosureCall 04, EventPost 05, GateRead 06, GateWrite 07, Jmp 08, JmpIf 09, Label 0A, PulseEmit 0B, Ret 0C,
RngNextI32 0D, RngSeed 0E, StateQuery 0F, StateUpdate 10, AddF64 11, AddFx 12, AddI32 13, BoolAnd 16, BoolNot 17, BoolOr 18, CmpEq 19,
CmpI32Le 1A, CmpI32Lt 1B, CmpU32Le 1C, CmpU32Lt 1D, AddU32 1E, SubU32 1F, MulU32 20, DivU32 21, ModU32 22, CmpNe 23, DivF64 25, DivFx 26,
DivI32 27, LoadBool 28, LoadF64 29, LoadFx 2A, LoadI32 2B, LoadQ 2C, LoadText 2D, LoadU32 2E, LoadVar 2F, MakeRecord 32, ModI32 39, MulF64 3A,
MulFx 3B, MulI32 3C, QAnd 3D, QImpl 3E, QNot 3F, QOr 40, QTruthAnd 41, QTruthImpl 42, QTruthNot 43, QTruthOr 44, StoreVar 4D, SubF64 4E,
SubFx 4F, SubI32 50.
"""
import collections
import itertools
import os
import struct
import sys

ROOT = os.path.join(os.path.dirname(os.path.abspath(__file__)), "..", "..")
CASES = os.path.join(ROOT, "crates", "cases_passes")
# The answers of the original, and of the model to the fuller rewrite; its first line says how they were made.
SAMPLE = os.path.join(ROOT, "tests", "differential", "sample.bin")

GROUP, NAME, IMAGE, OUTPUT = range(4)
IMAGE_CHECK, SITE_CHECK, CLEANUP, CRYSTALFOLD, REWRITE, FULLER, PAGES, PACK, UNPACK, REST, SEAL, RELEASE = range(16, 28)

# The commands 01 to 51 by the Rust's names, each with the widths of its operands: document 01's, in the order in which the Rust's arm names them.
COMMANDS = """
Assert:2 Call:3,2,2 ClockRead:2 ClosureCall:3,2,2 EventPost:2 GateRead:2,2,2 GateWrite:2,2,2 Jmp:2 JmpIf:2,2 Label:2 PulseEmit:2 Ret:3
RngNextI32:2,2,2 RngSeed:2,2 StateQuery:2,2 StateUpdate:2,2
AddF64:2,2,2 AddFx:2,2,2 AddI32:2,2,2 AdtGet:2,2,2,2 AdtTag:2,2,2 BoolAnd:2,2,2 BoolNot:2,2 BoolOr:2,2,2 CmpEq:2,2,2 CmpI32Le:2,2,2
CmpI32Lt:2,2,2 CmpU32Le:2,2,2 CmpU32Lt:2,2,2 AddU32:2,2,2 SubU32:2,2,2 MulU32:2,2,2 DivU32:2,2,2 ModU32:2,2,2 CmpNe:2,2,2 ConcatText:2,2,2
DivF64:2,2,2 DivFx:2,2,2 DivI32:2,2,2 LoadBool:2,1 LoadF64:2,8 LoadFx:2,4 LoadI32:2,4 LoadQ:2,1 LoadText:2,2 LoadU32:2,4 LoadVar:2,2
MakeAdt:2,2,2,4,2 MakeClosure:2,2,2 MakeRecord:2,2,2,5 MakeSequence:2,2 MakeTuple:2,2 MapContains:2,2,2 MapEmpty:2 MapGet:2,2,2,2
MapSet:2,2,2,2 ModI32:2,2,2 MulF64:2,2,2 MulFx:2,2,2 MulI32:2,2,2 QAnd:2,2,2 QImpl:2,2,2 QNot:2,2 QOr:2,2,2 QTruthAnd:2,2,2
QTruthImpl:2,2,2 QTruthNot:2,2 QTruthOr:2,2,2 RecordGet:2,2,2,2 SequenceContains:2,2,2 SequenceGet:2,2,2 SequenceIsEmpty:2,2
SequenceLen:2,2 SequencePop:2,2 SequencePrepend:2,2,2 SequencePush:2,2,2 StoreVar:2,2,5,5 SubF64:2,2,2 SubFx:2,2,2 SubI32:2,2,2
TupleGet:2,2,2
""".split()
NAMES = [command.split(":")[0] for command in COMMANDS]
# How many bytes each keeps in the packed form, its own byte among them. A head has three operands of 2 bytes, an event's have 5, 5 and 4.
KEPT = [1 + sum(map(int, command.split(":")[1].split(","))) for command in COMMANDS]
HEAD, EVENT = 7, 15

# name, image, answers by operation: a refusal (number, position, detail), or the bytes written and the count of rewrites; a check writes none.
# For `unpack` the image is a packed form, and for a release a framed one, with the bytes written to the output and to the answers.
Row = collections.namedtuple("Row", "name image answers")


def runs(data):
    """Bytes as a length and runs: how often, the place of the number, the cell. A number is so many zeros."""
    if isinstance(data, int):
        return data, [(-(-data // 16), 0, bytes(16))]
    if isinstance(data, bytes):
        pieces = [data[i:i + 16].ljust(16, b"\0") for i in range(0, len(data), 16)]
        return len(data), [(len(list(same)), 0, piece) for piece, same in itertools.groupby(pieces)]
    listed = []
    for word in data.split():
        cell, _, how = word.partition("*")
        count, _, place = how.partition("@")
        listed.append((int(count or 1), int(place or 0), bytes.fromhex(cell).ljust(16, b"\0")))
    return 16 * sum(count for count, _, _ in listed), listed


def function(code):
    """A function with no events by its instruction cells."""
    return ("F00700%02X %s" % (len(code.split()), code)).strip()


def good(name, image, cleanup=None, crystalfold=None, rewrite=None, fuller=None, rest=None):
    """An image that both checks pass; None is the image itself and no rewrite, of the fuller rewrite what the default one gives. Of the rewrite until
    it rests it is the image itself only where the default rewrite leaves that, since then its first round reports 0; else nothing is said."""
    same = (image, 0)
    answers = {CLEANUP: cleanup or same, CRYSTALFOLD: crystalfold or same, REWRITE: rewrite or same, FULLER: fuller or rewrite or same}
    if rest or not rewrite:
        answers[REST] = rest or same
    return Row(name, image, {IMAGE_CHECK: ("", 0), SITE_CHECK: ("", 0), **answers})


def cleaned(name, image, output, count):
    """Changed by cleanup alone."""
    return good(name, image, cleanup=(output, count), rewrite=(output, count))


def folded_image(name, image, output, count):
    """Changed by CrystalFold alone."""
    return good(name, image, crystalfold=(output, count), rewrite=(output, count))


def folded(name, code, output, count):
    """A function's instruction cells, changed by CrystalFold alone."""
    return folded_image(name, function(code), function(output), count)


def fuller(name, code, output, count):
    """A function's instruction cells, changed by the fuller rewrite alone."""
    return good(name, function(code), fuller=(function(output), count))


def kept(name, code):
    """A function's instruction cells, which stay."""
    return good(name, function(code))


def cleaned_twice(name, image, output, count, rest, total):
    """Changed by cleanup alone, in one round and in all."""
    return good(name, image, cleanup=(output, count), rewrite=(output, count), rest=(rest, total))


def folded_then_cleaned(name, code, output, count, rest, total):
    """A function's instruction cells, changed by CrystalFold in the first round and by cleanup in the second."""
    return good(name, function(code), crystalfold=(function(output), count), rewrite=(function(output), count), rest=(function(rest), total))


def refused(name, image, number, position, detail):
    """Refusals from 11 on are the site check's alone; the operations refuse as it does."""
    answers = dict.fromkeys((IMAGE_CHECK, SITE_CHECK, CLEANUP, CRYSTALFOLD, REWRITE, FULLER, PAGES, REST), (number, position, detail))
    if 11 <= number:
        answers[IMAGE_CHECK] = ("", 0)
    return Row(name, image, answers)


def laid(name, image, *pages):
    """An image that both checks pass, with its pages, each a list of lines as they are read."""
    lines = [line for page in pages for line in page]
    assert all(len(line) == 57 for line in lines), name
    return Row(name, image, {IMAGE_CHECK: ("", 0), SITE_CHECK: ("", 0), PAGES: ("".join(line + "\n" for line in lines).encode("ascii"), 0)})


def heading(name, page):
    return ("function %05d page %03d" % (name, page)).ljust(57)


def cell(position, name, digits=""):
    """A cell's line, by the digits up to the zeros."""
    return str(position).rjust(5) + "  " + name.ljust(18) + "  " + digits.ljust(30, "0")


def cells(first, last, name, digits=""):
    """The lines of equal cells at the positions from first to last."""
    return [cell(position, name, digits) for position in range(first, last + 1)]


def expanded(image):
    """The cells of an image."""
    for count, place, cell in runs(image)[1]:
        yield from (cell[:place] + struct.pack("<H", number) + cell[place + 2:] if place else cell for number in range(count))


def counts(image):
    """How many functions and how many cells an image has, by its heads."""
    cells = list(expanded(image))
    functions = at = 0
    while at < len(cells):
        functions, at = functions + 1, at + 1 + sum(struct.unpack_from("<HH", cells[at], 3))
    return functions, len(cells)


def behind(first, second):
    """The row of the second image behind the first, by document 02 (W12) and by what is written down of each."""
    functions, cells = counts(first.image)

    def moved(number, position, detail):
        if number == 1:
            return number, position, detail
        return number, position + functions, detail + (cells if number in (2, 3, 4) else 0)

    def answer(operation):
        one, other = first.answers[operation], second.answers[operation]
        if len(second.answers[IMAGE_CHECK]) == 3:
            return moved(*second.answers[IMAGE_CHECK])
        if len(one) == 3:
            return one
        return moved(*other) if len(other) == 3 else ((one[0] + " " + other[0]).strip(), one[1] + other[1])

    name = "%s, then %s" % (first.name, second.name)
    operations = [operation for operation in first.answers if operation in second.answers]
    return Row(name, (first.image + " " + second.image).strip(), {operation: answer(operation) for operation in operations})


def joined(one, other):
    """Two images, each by itself and joined, either way round where the image check passes the first."""
    ways = [(one, other), (other, one)]
    return [one, other] + [behind(*way) for way in ways if len(way[0].answers[IMAGE_CHECK]) == 2]


def packed(image):
    """The packed form of an image that the image check passes, by KEPT."""
    code = events = 0
    form = b""
    for cell in expanded(image):
        if code:
            size, code = KEPT[cell[0] - 1], code - 1
        elif events:
            size, events = EVENT, events - 1
        else:
            size, (code, events) = HEAD, struct.unpack_from("<HH", cell, 3)
        form += cell[:size]
    return form


def with_pack(row):
    """The row of an image with what `pack` answers, which refuses as the image check and doesn't check sites. Of long images, those of 'packed,
    longest' are enough."""
    check = row.answers.get(IMAGE_CHECK)
    if not check or PACK in row.answers or 16384 < runs(row.image)[0]:
        return row
    return row._replace(answers={**row.answers, PACK: check if len(check) == 3 else (packed(row.image), 0)})


def sealed(row, *refusal):
    """The row of an image that both checks pass with what the sealing check answers: good, or its refusal. Nothing else moves: the other operations
    accept the image."""
    return row._replace(answers={**row.answers, SEAL: refusal or ("", 0)})


def with_seal(row):
    """The row of an image with what the sealing check answers: it refuses as the site check, and an image of one function has no earlier one. Nothing
    is said of others."""
    check = row.answers.get(SITE_CHECK)
    if not check or SEAL in row.answers or (len(check) == 2 and 1 < counts(row.image)[0]):
        return row
    return sealed(row, *check) if len(check) == 3 else sealed(row)


def joined_bytes(words):
    """The bytes of words one after another; `WORD*N` is the word N times."""
    return b"".join(bytes.fromhex(word) * int(count or 1) for word, _, count in (word.partition("*") for word in words.split()))


def both_ways(name, words):
    """An image that `pack` packs, and its packed form, which `unpack` unpacks: each word has all the bytes that a cell keeps."""
    form = joined_bytes(words)
    assert packed(words) == form, name
    return [Row(name, words, {IMAGE_CHECK: ("", 0), PACK: (form, 0)}), Row(name + ", packed", form, {UNPACK: (words, 0)})]


def no_form(name, words, number, position, detail):
    """Bytes that `unpack` refuses."""
    return Row(name, joined_bytes(words), {UNPACK: (number, position, detail)})


def framed(data):
    return struct.pack("<I", len(data)) + data


def whole(image):
    """All bytes of an image."""
    return b"".join(expanded(image))[:runs(image)[0]]


def release(name, *images):
    """A release of images, each with what the default rewrite makes of it alone: the output and the count, or the refusal."""
    sent = output = answers = b""
    for image, *outcome in images:
        bad = len(outcome) == 3
        sent += framed(whole(image))
        output += framed(b"" if bad else whole(outcome[0]))
        answers += struct.pack("<III", *(outcome if bad else (0, outcome[1], 0)))
    return Row(name, sent, {RELEASE: (output, answers)})


def stays(image):
    """An image of a release that the default rewrite leaves."""
    return image, image, 0


def in_bytes(name, words, output, answers):
    """A release, its output and its answers, each with all its bytes."""
    return Row(name, joined_bytes(words), {RELEASE: (joined_bytes(output), joined_bytes(answers))})


def no_release(name, words):
    """Bytes that are no release."""
    return Row(name, joined_bytes(words), {RELEASE: (33, 0, 0)})


def released(groups):
    """Each group's images up to 2,048 bytes as one release, with the default rewrite's answers that are written down."""
    for group, rows in groups:
        images = [(row.image, *row.answers[REWRITE]) for row in rows if REWRITE in row.answers and runs(row.image)[0] <= 2048]
        if images:
            yield release("%s: %d images" % (group, len(images)), *images)


# Packed forms of 4,096 cells, four functions of 1,023 events; of 4,095; and of 4,000 with a head behind them that promises 3,072 cells.
FOUR = "F007000000FF03 000000000000000000000000000000*1023 " * 4
LAST = "F007000000FF03 000000000000000000000000000000*1023 " * 3 + "F007000000FE03 000000000000000000000000000000*1022 "
MOST = "F007000000FF03 000000000000000000000000000000*1023 " * 3 + "F0070000009F03 000000000000000000000000000000*927 F0070000080004 "

# Functions for the sealing check, of one StoreVar with an activation number and its event; of one with a write number; of a MakeRecord with one; of
# one StoreVar with both. A number has 8 digits, its first byte first.
ACTIVATION = "F00700010001 4D0000000001{0} 0001{0} "
STORED = "F00700010001 4D00000000000000000001{0} 01000000000001{0} "
MADE = "F00700010001 3200000000000001{0} 01000000000001{0} "
BOTH = "F00700010002 4D0000000001{0}01{1} 0001{0} 01000000000001{1} "
FIVE, SIX, NINE = "05000000", "06000000", "09000000"

# Images of releases: document 01's printed example, labels and a load of which one cell goes, a MakeRecord without its event, and the empty image.
EXAMPLE = ("F0070003 2B010005 13020001000100 0C010200", "F0070003 2B010005 2B02000A 0C010200", 1)
LABELS = ("F0080003 0A0100 080100 0A0100", "F0080002 0A0100 0A0100", 1)
SHORTER = ("F0090002 2B010005 28010001", "F0090001 28010001", 1)
UNMADE = ("F0070001 320000000000000105", 24, 0, 5)
NOTHING = ("", "", 0)

# A name and rows each, in the order of the document's modules: the checks, cleanup, CrystalFold, the image run; then document 02's.
GROUPS = [
    ("images, good", [
        good("no cells", "F007"),
        good("register 1,023", "F0070001 2BFF0305"),
        good("registers 255, 256 and 257", "F0070003 2BFF0005 2B000105 2B010105"),
        good("register 1,023 as dst, lhs and rhs", "F0070001 13FF03FF03FF03"),
        good("register 1,023 as src", "F0070001 4D0500FF03"),
        good("register 1,023 as cond", "F0070001 09FF030900"),
        good("register 1,023 as Assert's cond", "F0070001 01FF03"),
        good("register 1,023 as an optional dst", "F0070001 0201FF0309"),
        good("register 1,023 as an optional src", "F0070001 0C01FF03"),
        good("a label 1,024 and a name 65,535", "F0070002 0A0004 4DFFFF"),
        good("a StoreVar with its events", "F00700010002 4D0000000001090000000105 000109 0100000000000105"),
        good("a MakeRecord with two events", "F00700010002 320000000000000105 0100000000000105 0100000000000105"),
    ]),
    ("images, refusals 3 and 4", [
        refused("no command", "F0070001 00", 3, 0, 1),
        refused("command 52", "F0070001 52", 3, 0, 1),
        refused("event kind 2", "F00700000001 02", 3, 0, 1),
        refused("register 1,024", "F0070001 2B000405", 4, 0, 1),
        refused("register 1,025", "F0070001 2B010405", 4, 0, 1),
        refused("register 65,535", "F0070001 2BFFFF05", 4, 0, 1),
        refused("register 1,024 as dst", "F0070001 130004", 4, 0, 1),
        refused("register 1,024 as lhs", "F0070001 1300000004", 4, 0, 1),
        refused("register 1,024 as rhs", "F0070001 13000000000004", 4, 0, 1),
        refused("register 1,024 as src", "F0070001 4D05000004", 4, 0, 1),
        refused("register 1,024 as cond", "F0070001 090004", 4, 0, 1),
        refused("register 1,024 as Assert's cond", "F0070001 010004", 4, 0, 1),
        refused("register 1,024 as an optional dst", "F0070001 02010004", 4, 0, 1),
        refused("register 1,024 as an optional src", "F0070001 0C010004", 4, 0, 1),
        refused("an absent register 256", "F0070001 0C000001", 4, 0, 1),
        refused("presence 2", "F00700000001 0002", 4, 0, 1),
        refused("an absent site not zero", "F00700000001 000001", 4, 0, 1),
        refused("bool 2", "F0070001 28000002", 4, 0, 1),
        refused("quad 4", "F0070001 2C000004", 4, 0, 1),
        refused("a spare byte", "F0070001 0A000001", 4, 0, 1),
    ]),
    ("images, refusals 11 to 14", [
        refused("11", "F0070002 4D000000000109 4D000000000109", 11, 0, 9),
        refused("12", "F00700000001 010109", 12, 0, 9),
        refused("13", "F00700000002 000109 000109", 13, 0, 9),
        refused("14 of a command", "F0070001 4D000000000109", 14, 0, 0),
        refused("14 of an event", "F00700000001 000109", 14, 0, 0),
    ]),
    ("images, refusals 21 to 26", [
        refused("21", "F0070002 320000000000000105 320000000000000105", 21, 0, 5),
        refused("21 of two commands", "F0070002 4D0000000000000000000105 320000000000000105", 21, 0, 5),
        refused("22", "F00700000001 0000000000000105", 22, 0, 5),
        refused("23", "F00700000001 01", 23, 0, 0),
        refused("24", "F0070001 320000000000000105", 24, 0, 5),
        refused("25", "F00700010002 4D0000000000000000000105 0100000000000105 0100000000000105", 25, 0, 5),
        refused("26", "F00700000001 0100000000000105", 26, 0, 5),
    ]),
    ("images, the earlier refusal", [
        refused("4 before 3", "F0070002 2B000405 00", 4, 0, 1),
        refused("the first repeat", "F0070004 4D000000000101 4D000000000102 4D000000000102 4D000000000101", 11, 0, 2),
        refused("12 before 13", "F00700000003 010109 000108 000108", 12, 0, 9),
        refused("13 before 12", "F00700000003 000108 000108 010109", 13, 0, 8),
        refused("14 before 21", "F0070002 4D0000000001090000000105 4D0000000000000000000105", 14, 0, 0),
        refused("22 before 23", "F00700000002 0000000000000105 01", 22, 0, 5),
        refused("23 before 22", "F00700000002 01 0000000000000105", 23, 0, 0),
        refused("24 before 25", "F00700020002 320000000000000104 4D0000000000000000000105 0100000000000105 0100000000000105", 24, 0, 4),
        refused("25 before 24", "F00700020002 4D0000000000000000000105 320000000000000104 0100000000000105 0100000000000105", 25, 0, 5),
    ]),
    # a fault of the image check in function 1 comes before a site fault in function 0
    ("images, two functions", [
        refused("a fault behind a site fault", "F0070001 320000000000000105 F0070002 0A01 00", 3, 1, 4),
        refused("a site fault", "F0070001 320000000000000105 F0070002 0A01 0A01", 24, 0, 5),
        refused("a site fault in function 1", "F0070001 0A01 F0070002 320000000000000105 0A01", 24, 1, 5),
    ]),
    # 2 comes before 4 of the same head
    ("images, heads and lengths", [
        refused("a head with a spare byte", "F007000100000001 0A01 F007 F007 F007", 4, 0, 0),
        refused("2 before 4, counts", "F007000500000001 0A01 F007 F007 F007", 2, 0, 0),
        refused("2 before 4, first byte", "F107000100000001 0A01 F007 F007 F007", 2, 0, 0),
        refused("a length of 79", 79, 1, 0, 0),
        good("nothing", ""),
    ]),
    ("images, limits", [
        cleaned("2,048 instructions", "F007000008 0A01*2048", "F0070001 0A01", 2047),
        refused("2,049 instructions", "F007000108 0A01*2049", 2, 0, 0),
        good("1,024 events", "F0070000000004 00*1024"),
        refused("1,025 events", "F0070000000104 00*1025", 2, 0, 0),
        good("65,536 bytes", "F007*4096"),
        refused("2,048 sites", "F007000008 4D0000000001*2048@6 F007*2047", 14, 0, 0),
        refused("the last of 2,048 sites repeated", "F007000008 4D0000000001*2047@6 4D000000000101 F007*2047", 11, 0, 1),
        refused("65,552 bytes", "F007*4097", 1, 0, 0),
    ]),
    ("cleanup, duplicate labels", [
        cleaned("two equal labels",
                "F0070002000000 0A0100 0A0100",
                "F0070001000000 0A0100", 1),
        cleaned("five labels",
                "F0070005000000 0A0100 0A0100 0A0100 0A0200 0A0100",
                "F0070003000000 0A0100 0A0200 0A0100", 2),
        good("equal labels apart", "F0070003000000 0A0100 2F01000200 0A0100"),
        good("labels 1 and 257", "F0070002000000 0A0100 0A0101"),
    ]),
    ("cleanup, unreachable cells", [
        cleaned("behind Ret",
                "F0070003000000 0C 2F01000200 2F02000200",
                "F0070001000000 0C", 2),
        cleaned("behind Jmp, up to a label",
                "F0070004000000 080500 2F01000200 0A0200 2F01000200",
                "F0070003000000 080500 0A0200 2F01000200", 1),
        good("behind JmpIf", "F0070002000000 0901000500 2F01000200"),
        cleaned("Ret behind Ret",
                "F0070003000000 0C010200 0C 0A0100",
                "F0070002000000 0C010200 0A0100", 1),
    ]),
    ("cleanup, jumps to the next cell", [
        cleaned("Jmp to the next cell",
                "F0070002000000 080100 0A0100",
                "F0070001000000 0A0100", 1),
        good("Jmp elsewhere", "F0070002000000 080200 0A0100"),
        good("Jmp at the end", "F0070002000000 0A0100 080100"),
        good("JmpIf to the next cell", "F0070002000000 0902000100 0A0100"),
        cleaned("labels meet too late",
                "F0070003000000 0A0100 080100 0A0100",
                "F0070002000000 0A0100 0A0100", 1),
    ]),
    ("cleanup, redundant loads", [
        cleaned("LoadI32, LoadBool",
                "F0070002000000 2B010005 28010001",
                "F0070001000000 28010001", 1),
        cleaned("the same load",
                "F0070002000000 2B010005 2B010005",
                "F0070001000000 2B010005", 1),
        cleaned("the five kinds",
                "F0070005000000 2C010003 28010001 2B010005 290100000000000000F03F 2A0100E803",
                "F0070001000000 2A0100E803", 4),
        good("two registers", "F0070002000000 2B010005 2B020005"),
        good("two LoadU32", "F0070002000000 2E010005 2E010005"),
        good("LoadU32 between", "F0070003000000 2B010005 2E010005 2B010006"),
        good("LoadVar, LoadI32", "F0070002000000 2F01000200 2B010005"),
    ]),
    ("cleanup, all four sweeps", [
        cleaned("all four sweeps",
                "F007000C000000 0A0100 0A0100 2B010005 080200 2F02000100 0A0200 2B010006 2B010007 080300 0C 0A0300 0A0300",
                "F0070005000000 0A0100 2B010005 0A0200 2B010007 0A0300", 7),
        cleaned("a jump over unreachable cells",
                "F0070003000000 080100 2F01000200 0A0100",
                "F0070001000000 0A0100", 2),
        cleaned("unreachable loads",
                "F0070005000000 0C 2B010005 2B010006 0A0100 0A0100",
                "F0070002000000 0C 0A0100", 3),
        good("no cells", "F0070000000000"),
    ]),
    ("cleanup, events", [
        cleaned("both sites of a StoreVar",
                "F0070004000400 0C 4D0500010001070000000108 0A0300 4D0500010001090000000106 000107 000109 0100000000000108 0100000000000106",
                "F0070003000200 0C 0A0300 4D0500010001090000000106 000109 0100000000000106", 1),
        cleaned("three events of a MakeRecord",
                "F0070003000400 320100020003000105 0C 320100020003000109 010000000000010900000001 0100000000000105 010000000000010900000002 010000000000010900000003",
                "F0070002000100 320100020003000105 0C 0100000000000105", 1),
        cleaned("an activation site with a removed write site's number",
                "F0070004000200 0C 320100020003000107 0A0100 4D050001000107 000107 0100000000000107",
                "F0070003000100 0C 0A0100 4D050001000107 000107", 1),
        cleaned("a removed load",
                "F0070003000200 2B010005 2B010006 4D0500010001010000000102 000101 0100000000000102",
                "F0070002000200 2B010006 4D0500010001010000000102 000101 0100000000000102", 1),
        cleaned("no site, and site 0 removed",
                "F0070002000200 0C 4D05000100000000000001 00 0100000000000100",
                "F0070001000100 0C 00", 1),
    ]),
    ("cleanup, longest function", [
        cleaned("2,048 loads of one register", "F0070000080000 2B0100*2048@3", "F0070001000000 2B0100FF07", 2047),
        good("2,048 labels", "F0070000080000 0A*2048@1"),
        # Ret, then 1,024 StoreVars with write sites and 1,023 LoadVars; the Write events of the sites
        cleaned("all but the first unreachable",
                "F0070000080004 0C 4D05000100000000000001*1024@11 2F0100*1023@3 01000000000001*1024@7", "F0070001000000 0C", 2047),
    ]),
    ("fold, f64", [
        folded("f64, each command",
               "290100000000000000F83F 290200000000000000D03F 11030001000200 4E040001000200 3A050001000200 25060001000200",
               "290100000000000000F83F 290200000000000000D03F 290300000000000000FC3F 290400000000000000F43F 290500000000000000D83F 2906000000000000001840", 4),
        kept("f64, right unknown", "290100000000000000F83F 11030001000200 25030001000200 3A030001000200 4E030001000200"),
        kept("f64, left of another kind", "2B010001000000 290200000000000000F83F 11030001000200 25030001000200 3A030001000200 4E030001000200"),
        fuller("DivF64 by either zero",
               "290100000000000000F83F 2902000000000000000000 2903000000000000000080 25040001000200 25050001000300",
               "290100000000000000F83F 2902000000000000000000 2903000000000000000080 290400000000000000F07F 290500000000000000F0FF", 2),
        folded("-0.0 + 0.0 is 0.0",
               "2901000000000000000080 2902000000000000000000 11030001000200",
               "2901000000000000000080 2902000000000000000000 2903000000000000000000", 1),
        kept("x + 0.0, x unknown", "2902000000000000000000 11030001000200"),
    ]),
    # f64 1.0 is 000000000000F03F, -1.0 000000000000F0BF, -0.0 0000000000000080, infinity 000000000000F07F, -infinity 000000000000F0FF, and a computed
    # NaN 000000000000F87F; the default rewrite leaves these divisions and forgets their dst
    ("fold, f64 by zero", [
        fuller("1.0 and -1.0 by 0.0 and by -0.0",
               "290100000000000000F03F 290200000000000000F0BF 2903000000000000000000 2904000000000000000080 25050001000300 25060002000300 25070001000400 25080002000400",
               "290100000000000000F03F 290200000000000000F0BF 2903000000000000000000 2904000000000000000080 290500000000000000F07F 290600000000000000F0FF 290700000000000000F0FF 290800000000000000F07F", 4),
        fuller("infinity and -infinity by 0.0 and by -0.0",
               "290100000000000000F07F 290200000000000000F0FF 2903000000000000000000 2904000000000000000080 25050001000300 25060002000300 25070001000400 25080002000400",
               "290100000000000000F07F 290200000000000000F0FF 2903000000000000000000 2904000000000000000080 290500000000000000F07F 290600000000000000F0FF 290700000000000000F0FF 290800000000000000F07F", 4),
        fuller("the least subnormal and its negative by 0.0 and by -0.0",
               "2901000100000000000000 2902000100000000000080 2903000000000000000000 2904000000000000000080 25050001000300 25060002000300 25070001000400 25080002000400",
               "2901000100000000000000 2902000100000000000080 2903000000000000000000 2904000000000000000080 290500000000000000F07F 290600000000000000F0FF 290700000000000000F0FF 290800000000000000F07F", 4),
        fuller("0.0 and -0.0 by 0.0 and by -0.0",
               "2901000000000000000000 2902000000000000000080 2903000000000000000000 2904000000000000000080 25050001000300 25060002000300 25070001000400 25080002000400",
               "2901000000000000000000 2902000000000000000080 2903000000000000000000 2904000000000000000080 290500000000000000F87F 290600000000000000F87F 290700000000000000F87F 290800000000000000F87F", 4),
        fuller("a NaN with sign and payload, and a signalling one, by 0.0 and by -0.0",
               "290100230100000000F8FF 290200010000000000F07F 2903000000000000000000 2904000000000000000080 25050001000300 25060002000300 25070001000400 25080002000400",
               "290100230100000000F8FF 290200010000000000F07F 2903000000000000000000 2904000000000000000080 290500000000000000F87F 290600000000000000F87F 290700000000000000F87F 290800000000000000F87F", 4),
        fuller("a chain: 1.0 by 0.0 is infinity, less itself NaN, which is not equal to itself",
               "290100000000000000F03F 2902000000000000000000 25030001000200 4E040003000300 19050004000400 0C010500",
               "290100000000000000F03F 2902000000000000000000 290300000000000000F07F 290400000000000000F87F 28050000 0C010500", 3),
        fuller("one register for all",
               "2901000000000000000000 25010001000100 25010001000100",
               "2901000000000000000000 290100000000000000F87F 290100000000000000F87F", 2),
        fuller("dst is forgotten by the default rewrite",
               "290100000000000000F0BF 2902000000000000000000 25010001000200 4E030001000200",
               "290100000000000000F0BF 2902000000000000000000 290100000000000000F0FF 290300000000000000F0FF", 2),
        fuller("recorded by a StoreVar and by Ret",
               "290100000000000000F03F 2902000000000000000080 25030001000200 4D05000300 0C010300",
               "290100000000000000F03F 2902000000000000000080 290300000000000000F0FF 4D05000300 0C010300", 1),
        good("the zero itself folded by both", function("290100000000000000F03F 4E020001000100 25030001000200"),
             crystalfold=(function("290100000000000000F03F 2902000000000000000000 25030001000200"), 1),
             rewrite=(function("290100000000000000F03F 2902000000000000000000 25030001000200"), 1),
             fuller=(function("290100000000000000F03F 2902000000000000000000 290300000000000000F07F"), 2)),
        good("behind what cleanup removes", "F0070006 0A0100 0A0100 290100000000000000F03F 290100000000000000F0BF 2902000000000000000000 25030001000200",
             cleanup=("F0070004 0A0100 290100000000000000F0BF 2902000000000000000000 25030001000200", 2), rewrite=("F0070004 0A0100 290100000000000000F0BF 2902000000000000000000 25030001000200", 2),
             fuller=("F0070004 0A0100 290100000000000000F0BF 2902000000000000000000 290300000000000000F0FF", 3)),
        good("in the second function", "F0070002 2B010005 13020001000100 F0080003 290100000000000000F0BF 2902000000000000000000 25030002000200",
             crystalfold=("F0070002 2B010005 2B02000A F0080003 290100000000000000F0BF 2902000000000000000000 25030002000200", 1),
             rewrite=("F0070002 2B010005 2B02000A F0080003 290100000000000000F0BF 2902000000000000000000 25030002000200", 1),
             fuller=("F0070002 2B010005 2B02000A F0080003 290100000000000000F0BF 2902000000000000000000 290300000000000000F87F", 2)),
        kept("an operand unknown", "2902000000000000000000 25030001000200 25040002000100"),
        kept("a zero of another kind, and a dividend of another kind", "290100000000000000F03F 2B020000000000 25030001000200 2E040000000000 25050001000400 2A060000000000 25070001000600 2908000000000000000000 25090002000800"),
        kept("dst is forgotten, with a SubF64 of it", "290100000000000000F03F 2B020000000000 25010001000200 4E030001000100"),
        kept("behind a barrier", "290100000000000000F03F 2902000000000000000000 0A0100 25030001000200 290100000000000000F03F 2902000000000000000000 030500 25030001000200"),
    ]),
    ("fold, NaN", [
        folded("payload passed through, NaN folded",
               "290100010000000000F07F 11020001000100",
               "290100010000000000F07F 290200000000000000F87F", 1),
        folded("negative NaN times 1.0",
               "290100230100000000F8FF 290200000000000000F03F 3A030001000200",
               "290100230100000000F8FF 290200000000000000F03F 290300000000000000F87F", 1),
        folded("infinity less infinity",
               "290100000000000000F07F 4E020001000100",
               "290100000000000000F07F 290200000000000000F87F", 1),
        folded("1.0 divided by NaN",
               "290100000000000000F03F 290200010000000000F07F 25030001000200",
               "290100000000000000F03F 290200010000000000F07F 290300000000000000F87F", 1),
        folded("NaN equals nothing",
               "290100010000000000F07F 19020001000100 23030001000100",
               "290100010000000000F07F 28020000 28030001", 2),
    ]),
    ("fold, Fx", [
        folded("Fx, each command",
               "2A0100DC050000 2A0200F4010000 12030001000200 4F040001000200 3B050001000100 26060001000200",
               "2A0100DC050000 2A0200F4010000 2A0300D0070000 2A0400E8030000 2A0500CA080000 2A0600B80B0000", 4),
        folded("Fx, toward zero",
               "2A0100FFFFFFFF 2A020001000000 2A030030F8FFFF 3B040001000200 26050001000300",
               "2A0100FFFFFFFF 2A020001000000 2A030030F8FFFF 2A040000000000 2A050000000000", 2),
        folded("Fx, largest product",
               "2A0100FFFFFF7F 2A0200E8030000 3B030001000200",
               "2A0100FFFFFF7F 2A0200E8030000 2A0300FFFFFF7F", 1),
        kept("Fx, outside i32", "2A0100FFFFFF7F 2A0200E9030000 2A030000000080 2A040001000000 3B050001000200 12060001000400 4F070003000400 26080001000400"),
        kept("DivFx by 0", "2A0100DC050000 2A020000000000 26030001000200"),
        kept("Fx, right of another kind", "2A0100DC050000 2B0200F4010000 12030001000200 26030001000200 3B030001000200 4F030001000200"),
    ]),
    ("fold, I32", [
        folded("I32, each command",
               "2B0100F9FFFFFF 2B020002000000 13030001000200 50040001000200 3C050001000200 27060001000200 39070001000200",
               "2B0100F9FFFFFF 2B020002000000 2B0300FBFFFFFF 2B0400F7FFFFFF 2B0500F2FFFFFF 2B0600FDFFFFFF 2B0700FFFFFFFF", 5),
        folded("I32, wrapping",
               "2B0100FFFFFF7F 2B020001000000 2B030000000080 2B040000000100 13050001000200 50060003000200 3C070004000400",
               "2B0100FFFFFF7F 2B020001000000 2B030000000080 2B040000000100 2B050000000080 2B0600FFFFFF7F 2B070000000000", 3),
        kept("I32, least by -1, and by 0", "2B010000000080 2B0200FFFFFFFF 2B030000000000 27040001000200 39050001000200 27060002000300 39070002000300"),
        kept("I32, left unknown", "2B020002000000 13030001000200 27030001000200 39030001000200 3C030001000200 50030001000200"),
        kept("I32, right of another kind", "2B010002000000 2E020002000000 13030001000200 27030001000200 39030001000200 3C030001000200 50030001000200"),
    ]),
    ("fold, U32", [
        folded("U32, each command",
               "2E010007000000 2E020002000000 1E030001000200 1F040001000200 20050001000200 21060001000200 22070001000200",
               "2E010007000000 2E020002000000 2E030009000000 2E040005000000 2E05000E000000 2E060003000000 2E070001000000", 5),
        kept("U32, out of range", "2E0100FFFFFFFF 2E020001000000 2E030000000000 2E040000000100 1E050001000200 1F060003000200 20070004000400"),
        kept("U32, by 0", "2E010007000000 2E020000000000 21030001000200 22040001000200"),
        kept("U32, left of another kind", "2B010007000000 2E020002000000 1E030001000200 1F030001000200 20030001000200 21030001000200 22030001000200"),
    ]),
    # Document 02, W5: whatever the reason, what the rewrites write is as before.
    ("fold, declined", [
        kept("divisor zero where the result would leave the range too",
             "2A0100FFFFFF7F 2A020000000080 2A030000000000 26040001000300 26050002000300 2B060000000080 2B070000000000 27080006000700 39090006000700"),
        folded("I32, the least number and the one above it by 1 and by -1",
               "2B010000000080 2B020001000080 2B0300FFFFFFFF 2B040001000000 27050002000300 39060002000300 27070001000400 39080001000400 27090001000300 390A0001000300",
               "2B010000000080 2B020001000080 2B0300FFFFFFFF 2B040001000000 2B0500FFFFFF7F 2B060000000000 2B070000000080 2B080000000000 27090001000300 390A0001000300", 4),
        folded("U32, 65,535 times 65,537 and 65,536 squared; 4,294,967,294 and 4,294,967,295 plus 1; 1 less 1 and less 4,294,967,295",
               "2E0100FFFF0000 2E020001000100 2E030000000100 2E0400FEFFFFFF 2E0500FFFFFFFF 2E060001000000 20070001000200 20080003000300 1E090004000600 1E0A0005000600 1F0B0006000600 1F0C0006000500",
               "2E0100FFFF0000 2E020001000100 2E030000000100 2E0400FEFFFFFF 2E0500FFFFFFFF 2E060001000000 2E0700FFFFFFFF 20080003000300 2E0900FFFFFFFF 1E0A0005000600 2E0B0000000000 1F0C0006000500", 3),
        folded("Fx, products of 2,147,483,647,999 and one more, of -2,147,483,648,999 and one less",
               "2A01007F030100 2A02008143ED01 2A030000000040 2A0400D0070000 2A0500BF0C0000 2A060027B5C5D8 2A0700ABAAAA2A 2A080048F4FFFF 3B090001000200 3B0A0003000400 3B0B0005000600 3B0C0007000800",
               "2A01007F030100 2A02008143ED01 2A030000000040 2A0400D0070000 2A0500BF0C0000 2A060027B5C5D8 2A0700ABAAAA2A 2A080048F4FFFF 2A0900FFFFFF7F 3B0A0003000400 2A0B0000000080 3B0C0007000800", 2),
        folded("Fx, the greatest number by 1000 and by 999, the least by 1000 and by -1000",
               "2A0100FFFFFF7F 2A020000000080 2A0300E8030000 2A0400E7030000 2A050018FCFFFF 26060001000300 26070001000400 26080002000300 26090002000500",
               "2A0100FFFFFF7F 2A020000000080 2A0300E8030000 2A0400E7030000 2A050018FCFFFF 2A0600FFFFFF7F 26070001000400 2A080000000080 26090002000500", 2),
        folded("DivF64 of 1.0 by the least numbers, which are no zeros",
               "290100000000000000F03F 2902000100000000000000 2903000100000000000080 25040001000200 25050001000300",
               "290100000000000000F03F 2902000100000000000000 2903000100000000000080 290400000000000000F07F 290500000000000000F0FF", 2),
    ]),
    ("fold, Bool", [
        folded("Bool, each command",
               "28010001 28020000 16030001000200 18040001000200 1705000100 1706000200 16070001000100 18080002000200",
               "28010001 28020000 28030000 28040001 28050000 28060001 28070001 28080000", 6),
        kept("Bool, unknown", "28010001 16030001000200 18040002000100 1705000200"),
        kept("Bool, of another kind", "28010001 2B020001000000 16030001000200 18040002000100 1705000200"),
    ]),
    ("fold, quads", [
        folded("quads, each command",
               "2C010002 2C020001 2C030000 3D040001000200 40050001000200 3E060002000300 3F07000100 3F08000300",
               "2C010002 2C020001 2C030000 2C040000 2C050003 2C060002 2C070001 2C080000", 5),
        kept("quads, unknown", "2C010002 3D030001000200 40040002000100 3E050001000200 3F06000200"),
        kept("quads, of another kind", "2C010002 28020001 3D030001000200 40040002000100 3E050001000200 3F06000200"),
    ]),
    # quads N 0, F 1, T 2, S 3; the default rewrite leaves the four and forgets their dst
    ("fold, truth-order quads", [
        fuller("T and F, T impl F, not F, T or F, each with a QNot of its dst",
               "2C010002 2C020001 41010001000200 3F03000100 2C010002 42010001000200 3F03000100 2C010002 4301000200 3F03000100 2C010002 44010001000200 3F03000100",
               "2C010002 2C020001 2C010001 2C030002 2C010002 2C010001 2C030002 2C010002 2C010002 2C030001 2C010002 2C010002 2C030001", 8),
        fuller("and: N with N F T S, S with N F T S",
               "2C000000 2C010001 2C020002 2C030003 41040000000000 41050000000100 41060000000200 41070000000300 41080003000000 41090003000100 410A0003000200 410B0003000300",
               "2C000000 2C010001 2C020002 2C030003 2C040000 2C050001 2C060000 2C070001 2C080001 2C090001 2C0A0003 2C0B0003", 8),
        fuller("and: F with N F T S, T with N F T S",
               "2C000000 2C010001 2C020002 2C030003 41040001000000 41050001000100 41060001000200 41070001000300 41080002000000 41090002000100 410A0002000200 410B0002000300",
               "2C000000 2C010001 2C020002 2C030003 2C040001 2C050001 2C060001 2C070001 2C080000 2C090001 2C0A0002 2C0B0003", 8),
        fuller("or: N with N F T S, S with N F T S",
               "2C000000 2C010001 2C020002 2C030003 44040000000000 44050000000100 44060000000200 44070000000300 44080003000000 44090003000100 440A0003000200 440B0003000300",
               "2C000000 2C010001 2C020002 2C030003 2C040000 2C050000 2C060002 2C070002 2C080002 2C090003 2C0A0002 2C0B0003", 8),
        fuller("or: F with N F T S, T with N F T S",
               "2C000000 2C010001 2C020002 2C030003 44040001000000 44050001000100 44060001000200 44070001000300 44080002000000 44090002000100 440A0002000200 440B0002000300",
               "2C000000 2C010001 2C020002 2C030003 2C040000 2C050001 2C060002 2C070003 2C080002 2C090002 2C0A0002 2C0B0002", 8),
        fuller("impl: N with N F T S, S with N F T S",
               "2C000000 2C010001 2C020002 2C030003 42040000000000 42050000000100 42060000000200 42070000000300 42080003000000 42090003000100 420A0003000200 420B0003000300",
               "2C000000 2C010001 2C020002 2C030003 2C040000 2C050000 2C060002 2C070002 2C080002 2C090003 2C0A0002 2C0B0003", 8),
        fuller("impl: F with N F T S, T with N F T S",
               "2C000000 2C010001 2C020002 2C030003 42040001000000 42050001000100 42060001000200 42070001000300 42080002000000 42090002000100 420A0002000200 420B0002000300",
               "2C000000 2C010001 2C020002 2C030003 2C040002 2C050002 2C060002 2C070002 2C080000 2C090001 2C0A0002 2C0B0003", 8),
        fuller("not of N F T S",
               "2C000000 2C010001 2C020002 2C030003 4304000000 4305000100 4306000200 4307000300",
               "2C000000 2C010001 2C020002 2C030003 2C040000 2C050002 2C060001 2C070003", 4),
        fuller("a chain: T and S is S, QAnd of S and T is T, not T is F", "2C010002 2C020003 41030001000200 3D040003000100 4305000400 0C010500",
               "2C010002 2C020003 2C030003 2C040002 2C050001 0C010500", 3),
        fuller("one register for all", "2C010003 41010001000100 44010001000100 42010001000100 4301000100", "2C010003 2C010003 2C010003 2C010003 2C010003", 4),
        good("beside commands that both fold", function("2C010002 2C020001 44030001000200 3D040001000200 19050001000200"),
             crystalfold=(function("2C010002 2C020001 44030001000200 2C040000 28050000"), 2),
             rewrite=(function("2C010002 2C020001 44030001000200 2C040000 28050000"), 2),
             fuller=(function("2C010002 2C020001 2C030002 2C040000 28050000"), 3)),
        good("behind what cleanup removes", "F0070005 0A0100 0A0100 2C010001 2C010002 4302000100",
             cleanup=("F0070003 0A0100 2C010002 4302000100", 2), rewrite=("F0070003 0A0100 2C010002 4302000100", 2),
             fuller=("F0070003 0A0100 2C010002 2C020001", 3)),
        good("in the second function", "F0070002 2C010002 3F02000100 F0080002 2C010002 4302000100",
             crystalfold=("F0070002 2C010002 2C020001 F0080002 2C010002 4302000100", 1),
             rewrite=("F0070002 2C010002 2C020001 F0080002 2C010002 4302000100", 1),
             fuller=("F0070002 2C010002 2C020001 F0080002 2C010002 2C020001", 2)),
        kept("one operand unknown, though the other decides", "2C010001 41030001000200 41040002000100 2C010002 44030001000200 44040002000100 42050002000100 4306000200"),
        kept("of another kind", "2C010002 28020001 41030001000200 41040002000100 42050001000200 42060002000100 44070001000200 44080002000100 4309000200"),
        kept("dst is forgotten, each with a QNot of it", "2C010002 28020001 41010001000200 3F03000100 2C010002 42010002000100 3F03000100 2C010002 44010001000200 3F03000100 2C010002 4301000200 3F03000100"),
        kept("behind a barrier", "2C010002 0A0100 4302000100 2C010002 030500 41030001000100"),
    ]),
    ("fold, comparisons", [
        folded("I32 comparisons",
               "2B0100FFFFFFFF 2B020001000000 1B030001000200 1A040001000200 1B050001000100 1A060001000100 1A070002000100",
               "2B0100FFFFFFFF 2B020001000000 28030001 28040001 28050000 28060001 28070000", 5),
        folded("U32 comparisons",
               "2E0100FFFFFFFF 2E020001000000 1D030001000200 1C040001000200 1D050002000100 1C060001000100",
               "2E0100FFFFFFFF 2E020001000000 28030000 28040000 28050001 28060001", 4),
        kept("comparisons, of another kind", "2B010001000000 2E020002000000 1B030001000200 1A040002000100 1D050001000200 1C060002000100"),
        kept("comparisons, unknown", "2B010001000000 1B030001000200 1A040002000100 2E010001000000 1D050001000200 1C060002000100"),
        folded("equality of two kinds",
               "2B010000000000 2E020000000000 2A030000000000 19040001000200 23050001000200 19060001000300 19070001000100 23080001000100",
               "2B010000000000 2E020000000000 2A030000000000 28040000 28050001 28060000 28070001 28080000", 5),
        folded("equality of zeros, quads, bools",
               "2901000000000000000000 2902000000000000000080 2C030003 28040001 19050001000200 23060001000200 19070003000300 23080004000400",
               "2901000000000000000000 2902000000000000000080 2C030003 28040001 28050001 28060000 28070001 28080000", 4),
        kept("equality, unknown", "2B010000000000 19030001000200 19040002000100 23050001000200 23060002000100"),
    ]),
    ("fold, barriers", [
        kept("barrier Assert", "2B010005000000 010100 13030001000100"),
        kept("barrier Call", "2B010005000000 0201020003000400 13030001000100"),
        kept("barrier ClockRead", "2B010005000000 030200 13030001000100"),
        kept("barrier ClosureCall", "2B010005000000 0400000003000400 13030001000100"),
        kept("barrier EventPost", "2B010005000000 050300 13030001000100"),
        kept("barrier GateRead", "2B010005000000 06020003000400 13030001000100"),
        kept("barrier GateWrite", "2B010005000000 07030004000200 13030001000100"),
        cleaned("barrier Jmp", function("2B010005000000 080300 13030001000100"), function("2B010005000000 080300"), 1),
        kept("barrier JmpIf", "2B010005000000 0901000300 13030001000100"),
        kept("barrier Label", "2B010005000000 0A0300 13030001000100"),
        kept("barrier PulseEmit", "2B010005000000 0B0300 13030001000100"),
        cleaned("barrier Ret", function("2B010005000000 0C010100 13030001000100"), function("2B010005000000 0C010100"), 1),
        kept("barrier RngNextI32", "2B010005000000 0D020003000400 13030001000100"),
        kept("barrier RngSeed", "2B010005000000 0E02000300 13030001000100"),
        kept("barrier StateQuery", "2B010005000000 0F02000300 13030001000100"),
        kept("barrier StateUpdate", "2B010005000000 1003000200 13030001000100"),
        kept("two barriers", "2B010005000000 0A0100 0A0200 13030001000100"),
        folded("a fold, then a barrier",
               "2B010005000000 13020001000100 0A0100 13030001000200", "2B010005000000 2B02000A000000 0A0100 13030001000200", 1),
        good("63 loads, then a barrier", "F0070042 2B000005*63@1 0A0100 13640000000000 1364003E003E00"),
        good("64 loads, then a barrier", "F0070043 2B000005*64@1 0A0100 13640000000000 1364003F003F00"),
        good("65 loads, then a barrier", "F0070045 2B000005*65@1 0A0100 13640000000000 1364003F003F00 13640040004000"),
        good("255 loads, then a barrier", "F007000201 2B000005*255@1 0A0100 13640000000000 136400FE00FE00"),
        good("256 loads, then a barrier", "F007000301 2B000005*256@1 0A0100 13640000000000 136400FF00FF00"),
        good("257 loads, then a barrier", "F007000501 2B000005*257@1 0A0100 13640000000000 136400FF00FF00 13640000010001"),
        good("all registers, then a barrier", "F007000404 2B000005*1024@1 0A0100 13640000000000 13640000010001 136400FF03FF03"),
        folded_image("64 folds, then a barrier",
                     "F0070045 2B400005 13000040004000*64@1 0A0100 13640000000000 1364003F003F00 13640040004000",
                     "F0070045 2B400005 2B00000A*64@1 0A0100 13640000000000 1364003F003F00 13640040004000", 64),
        folded_image("256 folds, then a barrier",
                     "F007000501 2B000205 13000000020002*256@1 0A0100 13640000000000 136400FF00FF00 13640000020002",
                     "F007000501 2B000205 2B00000A*256@1 0A0100 13640000000000 136400FF00FF00 13640000020002", 256),
        folded_image("known again behind 65 loads and a barrier",
                     "F0070046 2B000005*65@1 0A0100 2B010005 13020001000100 0A0200 13640001000200",
                     "F0070046 2B000005*65@1 0A0100 2B010005 2B02000A 0A0200 13640001000200", 1),
        folded_image("known again behind 257 loads and a barrier",
                     "F007000601 2B000005*257@1 0A0100 2B000105 13020000010001 0A0200 13640000010200",
                     "F007000601 2B000005*257@1 0A0100 2B000105 2B02000A 0A0200 13640000010200", 1),
    ]),
    ("fold, registers and chains", [
        folded("register 1,023",
               "2BFF0305000000 13FF03FF03FF03",
               "2BFF0305000000 2BFF030A000000", 1),
        folded("registers 255, 256 and 257",
               "2BFF0001000000 2B000102000000 1301010001FF00 13000100010101 13FF0001010001",
               "2BFF0001000000 2B000102000000 2B010103000000 2B000105000000 2BFF0008000000", 3),
        folded("1 and 257 are two registers",
               "2B010005000000 2B010107000000 13020001000101 13020101010101 13030002000201",
               "2B010005000000 2B010107000000 2B02000C000000 2B02010E000000 2B03001A000000", 3),
        kept("1 is known and 257 isn't", "2B010005000000 13020001010101 13030001010100 13040001000101"),
        kept("257 is known and 1 isn't", "2B010105000000 13020001000100 13030001000101 13040001010100"),
        folded("LoadVar forgets 257 and not 1",
               "2B010005000000 2B010107000000 2F01010900 13020001000100 13030001010101",
               "2B010005000000 2B010107000000 2F01010900 2B02000A000000 13030001010101", 1),
        folded("LoadVar forgets 1 and not 257",
               "2B010005000000 2B010107000000 2F01000900 13020001000100 13030001010101",
               "2B010005000000 2B010107000000 2F01000900 13020001000100 2B03000E000000", 1),
        folded("a chain of folds",
               "2B010001000000 13020001000100 3C030002000200 50040003000100 1B050004000300 1706000500",
               "2B010001000000 2B020002000000 2B030004000000 2B040003000000 28050001 28060000", 5),
        kept("a command that stays forgets dst", "2B010001000000 2B020000000000 27010001000200 13030001000100"),
        kept("another command forgets dst", "2B010001000000 2D01000700 13030001000100"),
        folded("other registers stay known",
               "2B010001000000 2F02000700 4D07000100 13030001000100",
               "2B010001000000 2F02000700 4D07000100 2B030002000000", 1),
        folded("a load over a load",
               "2B010001000000 2E010002000000 1E030001000100",
               "2B010001000000 2E010002000000 2E030004000000", 1),
        folded("known again behind a barrier",
               "2B010001000000 0A0300 2B010002000000 13030001000100",
               "2B010001000000 0A0300 2B010002000000 2B030004000000", 1),
        kept("no cells", ""),
    ]),
    ("passes, images", [
        good("the printed example",
             "F0070003 2B010005 13020001000100 0C010200",
             crystalfold=("F0070003 2B010005 2B02000A 0C010200", 1),
             rewrite=("F0070003 2B010005 2B02000A 0C010200", 1)),
        cleaned("Label 1, Jmp 1, Label 1",
                "F0070003 0A0100 080100 0A0100",
                "F0070002 0A0100 0A0100", 1),
        cleaned("LoadI32 r1, LoadBool r1",
                "F0070002 2B010005 28010001",
                "F0070001 28010001", 1),
        good("two LoadU32 r1", "F0070002 2E010005 2E010005"),
        good("I32 2,147,483,647 + 1",
             "F0070003 2B0100FFFFFF7F 2B020001 13030001000200",
             crystalfold=("F0070003 2B0100FFFFFF7F 2B020001 2B030000000080", 1),
             rewrite=("F0070003 2B0100FFFFFF7F 2B020001 2B030000000080", 1)),
        good("I32 -2,147,483,648 / -1", "F0070003 2B010000000080 2B0200FFFFFFFF 27030001000200"),
        good("QAnd T F",
             "F0070003 2C010002 2C020001 3D030001000200",
             crystalfold=("F0070003 2C010002 2C020001 2C030000", 1),
             rewrite=("F0070003 2C010002 2C020001 2C030000", 1)),
        good("x + 0.0", "F0070002 29020000 11030001000200"),
        good("folded loads of one register stay",
             "F0070003 2B010005 13020001000100 13020001000100",
             crystalfold=("F0070003 2B010005 2B02000A 2B02000A", 2),
             rewrite=("F0070003 2B010005 2B02000A 2B02000A", 2)),
        good("Jmp at a function's end", "F0070002 0A0100 080100"),
        good("register 1,023",
             "F0070002 2BFF0307 3CFF03FF03FF03",
             crystalfold=("F0070002 2BFF0307 2BFF0331", 1),
             rewrite=("F0070002 2BFF0307 2BFF0331", 1)),
        cleaned("LoadI32 r1, LoadI32 r257, LoadI32 r257",
                "F0070003 2B010005 2B010105 2B010106",
                "F0070002 2B010005 2B010106", 1),
        good("no bytes", ""),
        good("no cells", "F0070000"),
        cleaned("events of a removed StoreVar",
                "F0070004000200 2B010005 0C 4D0500010001070000000108 0A0300 000107 0100000000000108",
                "F0070003 2B010005 0C 0A0300", 1),
        cleaned("events kept behind fewer cells",
                "F0070003000300 2B010005 2B010006 320100020003000105 0100000000000105 00 010000000000010500000002",
                "F0070002000300 2B010006 320100020003000105 0100000000000105 00 010000000000010500000002", 1),
        good("a load removed, the next one folded",
             "F0070003 2B010005 28010001 1702000100",
             cleanup=("F0070002 28010001 1702000100", 1),
             crystalfold=("F0070003 2B010005 28010001 28020000", 1),
             rewrite=("F0070002 28010001 28020000", 2)),
        good("a removed label between folds",
             "F0070005 2B010005 13020001000100 0A0100 0A0100 13030002000200",
             cleanup=("F0070004 2B010005 13020001000100 0A0100 13030002000200", 1),
             crystalfold=("F0070005 2B010005 2B02000A 0A0100 0A0100 13030002000200", 1),
             rewrite=("F0070004 2B010005 2B02000A 0A0100 13030002000200", 2)),
        good("the second function moves up",
             "F0070003 0A0100 0A0100 0C F0080003 2B010005 13020001000100 0C010200",
             cleanup=("F0070002 0A0100 0C F0080003 2B010005 13020001000100 0C010200", 1),
             crystalfold=("F0070003 0A0100 0A0100 0C F0080003 2B010005 2B02000A 0C010200", 1),
             rewrite=("F0070002 0A0100 0C F0080003 2B010005 2B02000A 0C010200", 2)),
        good("registers unknown in the next function", "F0070001 2B010005 F0080001 13020001000100"),
        good("registers unknown behind a Borrow event", "F0070001000100 2B010005 00 F0080001 13020001000100"),
        good("registers unknown behind a Write event", "F0070002000100 320100020003000105 2B010005 0100000000000105 F0080001 13020001000100"),
        good("registers unknown behind a function with no cells", "F0070001 2B010005 F000 F0080001 13020001000100"),
        folded_image("each function from its own loads",
                     "F0070002 2B010005 13020001000100 F0080003 13020001000100 2B010006 13020001000100",
                     "F0070002 2B010005 2B02000A F0080003 13020001000100 2B010006 2B02000C", 2),
        cleaned("one site in two functions",
                "F0070002000100 0C 320100020003000105 0100000000000105 F0000000 F0080001000100 320100020003000105 0100000000000105",
                "F0070001 0C F0000000 F0080001000100 320100020003000105 0100000000000105", 1),
    ]),
    ("passes, refusals", [
        refused("1 byte", 1, 1, 0, 0),
        refused("15 bytes", 15, 1, 0, 0),
        refused("17 bytes", 17, 1, 0, 0),
        refused("65,535 bytes", 65535, 1, 0, 0),
        refused("no F0", "00", 2, 0, 0),
        refused("an instruction past the end", "F0070001", 2, 0, 0),
        refused("an event past the end", "F0070000000100", 2, 0, 0),
        refused("no command", "F0070001 00", 3, 0, 1),
        refused("command 52", "F0070001 52", 3, 0, 1),
        refused("event kind 2", "F0070000000100 02", 3, 0, 1),
        refused("a spare byte of a head", "F007000000000001", 4, 0, 0),
        refused("register 1,024", "F0070001 2B0004", 4, 0, 1),
        refused("an absent value not zero", "F0070001 0C0001", 4, 0, 1),
        refused("a spare byte of an event", "F0070000000100 000000000000000000000000000000FF", 4, 0, 1),
        refused("11", "F0070002 4D000000000109 4D000000000109", 11, 0, 9),
        refused("12", "F0070000000100 010109", 12, 0, 9),
        refused("12, the largest site", "F0070000000100 0101FFFFFFFF", 12, 0, 4294967295),
        refused("13", "F0070000000200 000109 000109", 13, 0, 9),
        refused("14, no event", "F0070001 4D000000000109", 14, 0, 0),
        refused("14, no command", "F0070000000100 000109", 14, 0, 0),
        refused("21", "F0070002 320000000000000105 320000000000000105", 21, 0, 5),
        refused("22", "F0070000000100 0000000000000105", 22, 0, 5),
        refused("23", "F0070000000100 01", 23, 0, 0),
        refused("24", "F0070001 320000000000000105", 24, 0, 5),
        refused("25", "F0070001000200 4D0000000000000000000105 0100000000000105 0100000000000105", 25, 0, 5),
        refused("26", "F0070000000100 0100000000000105", 26, 0, 5),
    ]),
    # behind a function that both passes change
    ("passes, refusals behind a function", [
        refused("2 behind", "F0070003 2B010005 2B010006 13020001000100 00", 2, 1, 4),
        refused("3 behind", "F0070003 2B010005 2B010006 13020001000100 F0080001 FF", 3, 1, 5),
        refused("4 behind", "F0070003 2B010005 2B010006 13020001000100 F0080001 28010002", 4, 1, 5),
        refused("14 behind", "F0070003 2B010005 2B010006 13020001000100 F0080001 4D000000000109", 14, 1, 0),
        refused("24 behind", "F0070003 2B010005 2B010006 13020001000100 F0080001 320000000000000105", 24, 1, 5),
    ]),
    ("passes, limits", [
        good("1,024 events, each with its number", "F0070000000004 00*1024@11"),
        # a load and 2,045 additions, each of which is folded, behind 2,048 loads of one register
        good("65,536 bytes",
             "F00700000800 2B0100*2048@3 F00800FE07 2B010001 13020001000100*2045",
             cleanup=("F0070001 2B0100FF07 F00800FE07 2B010001 13020001000100*2045", 2047),
             crystalfold=("F00700000800 2B0100*2048@3 F00800FE07 2B010001 2B020002*2045", 2045),
             rewrite=("F0070001 2B0100FF07 F00800FE07 2B010001 2B020002*2045", 4092)),
        good("4,096 functions", "F0*4096@1"),
    ]),
    # Document 02, W12: each of a pair alone, then joined both ways round. One would change the other if anything were carried over.
    ("passes, joined", [
        *joined(good("the printed example", "F0070003 2B010005 13020001000100 0C010200",
                     crystalfold=("F0070003 2B010005 2B02000A 0C010200", 1), rewrite=("F0070003 2B010005 2B02000A 0C010200", 1)),
                cleaned("Label 1, Jmp 1, Label 1", "F0080003 0A0100 080100 0A0100", "F0080002 0A0100 0A0100", 1)),
        *joined(good("a load", "F0070001 2B010005"), good("a sum of its register", "F0080001 13020001000100")),
        *joined(good("Ret at the end", "F0070002 2B010005 0C010100"),
                cleaned("a load, Ret, a load", "F0080003 2B010006 0C 2B020005", "F0080002 2B010006 0C", 1)),
        *joined(good("Jmp at the end", "F0070002 010100 080100"), good("its label", "F0080002 0A0100 010100")),
        *joined(good("a label", "F0070001 0A0100"), cleaned("the same label twice", "F0080002 0A0100 0A0100", "F0080001 0A0100", 1)),
        *joined(good("a load at the end", "F0070001 2B010005"),
                cleaned("two loads of its register", "F0080002 2B010006 28010001", "F0080001 28010001", 1)),
        *joined(cleaned("sites of an unreachable StoreVar", "F0070002000200 0C 4D0500010001090000000105 000109 0100000000000105", "F0070001 0C", 1),
                good("the same sites", "F0080001000200 4D0500010001090000000105 000109 0100000000000105")),
        *joined(good("functions with no cells", "F001 F002 F0070002 0C 0A0200 F003"),
                folded_image("a fold", "F0080002 2B010005 13020001000100", "F0080002 2B010005 2B02000A", 1)),
        *joined(good("nothing", ""), cleaned("two labels", "F0080002 0A0100 0A0100", "F0080001 0A0100", 1)),
        *joined(fuller("QTruthNot", "2C010002 4302000100", "2C010002 2C020001", 1), fuller("QTruthNot of its result", "2C020001 4303000200", "2C020001 2C030002", 1)),
    ]),
    # a refusal behind two functions of three cells, and before them
    ("passes, joined, one refused", [
        row for bad in [
            refused("2, first byte", "F1", 2, 0, 0),
            refused("2, counts", "F0070001", 2, 0, 0),
            refused("3", "F0070002 0A0100 52", 3, 0, 2),
            refused("3, of an event, in function 1", "F0 F00700000001 02", 3, 1, 2),
            refused("4", "F0070001 2B0004", 4, 0, 1),
            refused("4, of a head", "F007000000000001", 4, 0, 0),
            refused("11", "F0070002 4D000000000109 4D000000000109", 11, 0, 9),
            refused("12", "F0070000000100 010109", 12, 0, 9),
            refused("13", "F0070000000200 000109 000109", 13, 0, 9),
            refused("14", "F0070001 4D000000000109", 14, 0, 0),
            refused("21", "F0070002 320000000000000105 320000000000000105", 21, 0, 5),
            refused("22", "F0070000000100 0000000000000105", 22, 0, 5),
            refused("23", "F0070000000100 01", 23, 0, 0),
            refused("24, in function 1", "F0 F0070001 320000000000000105", 24, 1, 5),
            refused("25", "F0070001000200 4D0000000000000000000105 0100000000000105 0100000000000105", 25, 0, 5),
            refused("26", "F0070000000100 0100000000000105", 26, 0, 5),
        ] for row in joined(good("two functions of three cells", "F001 F0070001 0A0100"), bad)[2:]
    ]),
    ("passes, joined, both refused", [
        behind(refused("24", "F0070001 320000000000000105", 24, 0, 5), refused("4", "F0070001 2B0004", 4, 0, 1)),
        behind(refused("24", "F0070001 320000000000000105", 24, 0, 5), refused("21", "F0070002 320000000000000105 320000000000000105", 21, 0, 5)),
    ]),
    # two halves of 32,768 bytes: a register known and loaded at the end of the one, Jmp at the end of the other
    ("passes, joined, 65,536 bytes", [
        *joined(cleaned("a sum, 2,046 loads", "F00700FF07 13020001000100 2B0100*2046@3", "F0070002 13020001000100 2B0100FD07", 2045),
                cleaned("a sum, 2,045 labels, Jmp", "F00800FF07 13030001000100 0A0100*2045 080100", "F0080003 13030001000100 0A0100 080100", 2044)),
    ]),
    # a head whose counts pass a limit, before zeros; 4,097 functions with no cells
    ("passes, past the limits", [
        refused("2,049 instructions", "F00700010800 00*2049", 2, 0, 0),
        refused("1,025 events", "F0070000000104 00*1025", 2, 0, 0),
        refused("65,535 instructions", "F00700FFFF 00*4095", 2, 0, 0),
        refused("65,552 bytes", "F0*4096@1 F0", 1, 0, 0),
    ]),
    # the printed example; heads alone; events behind instructions, whose positions go on; capital digits, all of the last 15 bytes
    # document 02, W11: what one round writes, and what is written when it rests, with the sum of the counts
    ("rest, a load overwritten by a folded one", [
        folded_then_cleaned("LoadI32 r1 5, AddI32 r1 r1 r1: three rounds", "2B010005 13010001000100", "2B010005 2B01000A", 1, "2B01000A", 2),
        folded_then_cleaned("a folded load overwritten by the next", "2B010005 13020001000100 2B020007", "2B010005 2B02000A 2B020007", 1, "2B010005 2B020007", 2),
        folded_then_cleaned("two folds into one register", "2B010005 13020001000100 13020001000100 0C010200", "2B010005 2B02000A 2B02000A 0C010200", 2,
                            "2B010005 2B02000A 0C010200", 3),
        folded_then_cleaned("a chain of three into one register", "2B010001 13010001000100 13010001000100 13010001000100", "2B010001 2B010002 2B010004 2B010008", 3,
                            "2B010008", 6),
        folded_then_cleaned("a folded load of another kind", "2B010005 19010001000100", "2B010005 28010001", 1, "28010001", 2),
        folded_then_cleaned("LoadBool, BoolNot", "28010001 1701000100", "28010001 280100", 1, "280100", 2),
        folded_then_cleaned("LoadF64, AddF64", "290100000000000000F03F 11010001000100", "290100000000000000F03F 2901000000000000000040", 1, "2901000000000000000040", 2),
        folded_then_cleaned("LoadFx, AddFx", "2A0100DC05 12010001000100", "2A0100DC05 2A0100B80B", 1, "2A0100B80B", 2),
        folded_then_cleaned("LoadQ, QNot", "2C010002 3F01000100", "2C010002 2C010001", 1, "2C010001", 2),
        folded_then_cleaned("LoadU32, AddU32, of which neither goes: two rounds", "2E010005 1E010001000100", "2E010005 2E01000A", 1, "2E010005 2E01000A", 1),
        folded_then_cleaned("LoadU32, CmpEq: the LoadU32 stays", "2E010005 19010001000100", "2E010005 28010001", 1, "2E010005 28010001", 1),
        folded_then_cleaned("LoadI32 r257, AddI32 r1: two registers", "2B010105 13010001010101", "2B010105 2B01000A", 1, "2B010105 2B01000A", 1),
        folded_then_cleaned("registers 1,023", "2BFF0305 13FF03FF03FF03", "2BFF0305 2BFF030A", 1, "2BFF030A", 2),
        folded_then_cleaned("the printed example: two rounds", "2B010005 13020001000100 0C010200", "2B010005 2B02000A 0C010200", 1, "2B010005 2B02000A 0C010200", 1),
        kept("a label between: one round", "2B010005 0A0100 13010001000100"),
        fuller("QTruthNot, which only the fuller rewrite folds: one round", "2C010002 4301000100", "2C010002 2C010001", 1),
    ]),
    ("rest, labels", [
        cleaned_twice("Label 1, Jmp 1, Label 1: three rounds", "F0070003 0A0100 080100 0A0100", "F0070002 0A0100 0A0100", 1, "F0070001 0A0100", 2),
        cleaned_twice("two such jumps", "F0070005 0A0100 080100 0A0100 080100 0A0100", "F0070003 0A0100 0A0100 0A0100", 2, "F0070001 0A0100", 4),
        cleaned_twice("what is unreachable goes in the first round", "F0070004 0A0100 080100 2B010005 0A0100", "F0070002 0A0100 0A0100", 2, "F0070001 0A0100", 3),
        cleaned_twice("other labels: two rounds", "F0070003 0A0100 080200 0A0200", "F0070002 0A0100 0A0200", 1, "F0070002 0A0100 0A0200", 1),
        cleaned_twice("a load that goes at once: two rounds", "F0070002 2B010005 28010001", "F0070001 28010001", 1, "F0070001 28010001", 1),
        good("labels and a fold", "F0070006 0A0100 080100 0A0100 2B010005 13010001000100 0C010100",
             cleanup=("F0070005 0A0100 0A0100 2B010005 13010001000100 0C010100", 1), crystalfold=("F0070006 0A0100 080100 0A0100 2B010005 2B01000A 0C010100", 1),
             rewrite=("F0070005 0A0100 0A0100 2B010005 2B01000A 0C010100", 2), rest=("F0070003 0A0100 2B01000A 0C010100", 4)),
    ]),
    ("rest, functions and events", [
        good("an event goes in the first round, and one stays", "F0070005000200 4D000000000108 2B010005 13010001000100 0C 4D000000000109 000109 000108",
             cleanup=("F0070004000100 4D000000000108 2B010005 13010001000100 0C 000108", 1),
             crystalfold=("F0070005000200 4D000000000108 2B010005 2B01000A 0C 4D000000000109 000109 000108", 1),
             rewrite=("F0070004000100 4D000000000108 2B010005 2B01000A 0C 000108", 2), rest=("F0070003000100 4D000000000108 2B01000A 0C 000108", 3)),
        good("of three functions each takes another number of rounds", "F0070002 2B010005 0C010100 F0080002 2B010005 28010001 F0090002 2B010005 13010001000100",
             cleanup=("F0070002 2B010005 0C010100 F0080001 28010001 F0090002 2B010005 13010001000100", 1),
             crystalfold=("F0070002 2B010005 0C010100 F0080002 2B010005 28010001 F0090002 2B010005 2B01000A", 1),
             rewrite=("F0070002 2B010005 0C010100 F0080001 28010001 F0090002 2B010005 2B01000A", 2),
             rest=("F0070002 2B010005 0C010100 F0080001 28010001 F0090001 2B01000A", 3)),
        good("nothing", ""),
        good("functions with no cells", "F001 F002 F003"),
        *joined(folded_then_cleaned("a load overwritten by a folded one", "2B010005 13010001000100", "2B010005 2B01000A", 1, "2B01000A", 2),
                cleaned_twice("Label 1, Jmp 1, Label 1", "F0080003 0A0100 080100 0A0100", "F0080002 0A0100 0A0100", 1, "F0080001 0A0100", 2)),
        *joined(folded_then_cleaned("a load overwritten by a folded one", "2B010005 13010001000100", "2B010005 2B01000A", 1, "2B01000A", 2),
                refused("24", "F0070001 320000000000000105", 24, 0, 5)),
    ]),
    ("rest, longest", [
        good("2,047 folds, then 2,047 loads that go", "F007000008 2B0100 13010001000100*2047", crystalfold=("F007000008 2B0100*2048", 2047),
             rewrite=("F007000008 2B0100*2048", 2047), rest=("F0070001 2B0100", 4094)),
        good("65,536 bytes", "F00700FF07 2B0100 13010001000100*2046 F00800FF07 2B0100 13010001000100*2046",
             crystalfold=("F00700FF07 2B0100*2047 F00800FF07 2B0100*2047", 4092), rewrite=("F00700FF07 2B0100*2047 F00800FF07 2B0100*2047", 4092),
             rest=("F0070001 2B0100 F0080001 2B0100", 8184)),
    ]),
    ("pages, whole", [
        laid("nothing", ""),
        laid("the printed example", "F0070003 2B010005 13020001000100 0C0102",
             ["function 00007 page 001                                  ",
              "    0  LoadI32             010005000000000000000000000000",
              "    1  AddI32              020001000100000000000000000000",
              "    2  Ret                 010200000000000000000000000000"]),
        laid("no cells", "F007",
             ["function 00007 page 001                                  "]),
        laid("four functions, three without cells", "F0FFFF F0000001 0A09 F0 F03930",
             ["function 65535 page 001                                  "],
             ["function 00000 page 001                                  ",
              "    0  Label               090000000000000000000000000000"],
             ["function 00000 page 001                                  "],
             ["function 12345 page 001                                  "]),
        laid("a StoreVar's and a MakeRecord's events",
             "F00F0002000300 4DFEFFFF0301EFCDAB890178563412 32000100AB0000010A 0001EFCDAB8900000000000F 01000000000001785634120000000F 010000000000010A000000FFFFFFFF",
             ["function 00015 page 001                                  ",
              "    0  StoreVar            FEFFFF0301EFCDAB89017856341200",
              "    1  MakeRecord          000100AB0000010A00000000000000",
              "    2  Borrow              01EFCDAB8900000000000F00000000",
              "    3  Write               000000000001785634120000000F00",
              "    4  Write               0000000000010A000000FFFFFFFF00"]),
    ]),
    # each of the 81 commands by its byte, in the Rust's order; the 49 first are on page 1
    ("pages, names", [
        laid("each command", "F0070051 " + " ".join("%02X" % byte for byte in range(1, 82)),
             [heading(7, 1)] + [cell(i, name) for i, name in enumerate(NAMES[:49])],
             [heading(7, 2)] + [cell(i, name) for i, name in enumerate(NAMES[49:], 49)]),
        laid("both kinds of events", "F0070001000200 4D0000000000000000000105 00 0100000000000105",
             [heading(7, 1), cell(0, "StoreVar", "0000000000000000000105"), cell(1, "Borrow"), cell(2, "Write", "000000000001050000")]),
    ]),
    # a page has 49 cells, instructions and events together, and the next begins where a 50th follows
    ("pages, edges of a page", [
        laid("1 cell", "F0070001 0A01", [heading(7, 1)] + cells(0, 0, "Label", "01")),
        laid("49 cells", "F0070031 0A01*49", [heading(7, 1)] + cells(0, 48, "Label", "01")),
        laid("50 cells", "F0070032 0A01*50", [heading(7, 1)] + cells(0, 48, "Label", "01"), [heading(7, 2)] + cells(49, 49, "Label", "01")),
        laid("98 cells", "F0070062 0A01*98", [heading(7, 1)] + cells(0, 48, "Label", "01"), [heading(7, 2)] + cells(49, 97, "Label", "01")),
        laid("99 cells", "F0070063 0A01*99", [heading(7, 1)] + cells(0, 48, "Label", "01"), [heading(7, 2)] + cells(49, 97, "Label", "01"),
             [heading(7, 3)] + cells(98, 98, "Label", "01")),
        laid("49 cells, twice", "F0070031 0A01*49 F0080031 0A02*49", [heading(7, 1)] + cells(0, 48, "Label", "01"), [heading(8, 1)] + cells(0, 48, "Label", "02")),
        laid("49 instructions and an event", "F0070031000100 0A01*49 00", [heading(7, 1)] + cells(0, 48, "Label", "01"), [heading(7, 2)] + cells(49, 49, "Borrow")),
        laid("48 instructions and 3 events", "F0070030000300 0A01*48 00*3",
             [heading(7, 1)] + cells(0, 47, "Label", "01") + cells(48, 48, "Borrow"), [heading(7, 2)] + cells(49, 50, "Borrow")),
        laid("50 events", "F0070000003200 00*50", [heading(7, 1)] + cells(0, 48, "Borrow"), [heading(7, 2)] + cells(49, 49, "Borrow")),
    ]),
    # 4,096 cells: functions of 3,039 and 1,055 cells give 63 and 22 pages, 4,179 lines in all, and no image has more
    ("pages, longest", [
        laid("the longest function", "F0FFFF00080004 0A01*2048 00*1024",
             *[[heading(65535, 1 + i // 49)] + [cell(k, "Label", "01") if k < 2048 else cell(k, "Borrow") for k in range(i, min(i + 49, 3072))] for i in range(0, 3072, 49)]),
        laid("4,179 lines", "F001000008DF03 0A01*2048 00*991 F002001F04 0A02*1055",
             *[[heading(1, 1 + i // 49)] + [cell(k, "Label", "01") if k < 2048 else cell(k, "Borrow") for k in range(i, min(i + 49, 3039))] for i in range(0, 3039, 49)],
             *[[heading(2, 1 + i // 49)] + cells(i, min(i + 49, 1055) - 1, "Label", "02") for i in range(0, 1055, 49)]),
        laid("4,096 functions without cells", "F007*4096", [heading(7, 1)] * 4096),
    ]),
    # document 02, W8: of each cell its first byte and its operands, an absent value's zeros too; a head 7 bytes, an event 15
    ("packed, both ways", [
        *both_ways("nothing", ""),
        *both_ways("no cells", "F0070000000000"),
        *both_ways("the printed example", "F0070003000000 2B010005000000 13020001000100 0C010200"),
        *both_ways("four functions, three without cells", "F0FFFF00000000 F0000001000000 0A0900 F0000000000000 F0393000000000"),
        *both_ways("each command, no byte at its end zero", """F0070051000000
            01FF03 0201FF0318072A09 03FF03 0401FF0318072A09 051807 06FF0318072A09 0718072A09FF03 081807 09FF031807 0A1807 0B1807 0C01FF03
            0DFF0318072A09 0EFF031807 0FFF031807 101807FF03
            11FF03FE03FD03 12FF03FE03FD03 13FF03FE03FD03 14FF03FE0318072A09 15FF03FE031807 16FF03FE03FD03 17FF03FE03 18FF03FE03FD03
            19FF03FE03FD03 1AFF03FE03FD03 1BFF03FE03FD03 1CFF03FE03FD03 1DFF03FE03FD03 1EFF03FE03FD03 1FFF03FE03FD03 20FF03FE03FD03
            21FF03FE03FD03 22FF03FE03FD03 23FF03FE03FD03 24FF03FE03FD03 25FF03FE03FD03 26FF03FE03FD03 27FF03FE03FD03
            28FF0301 29FF031122334455667788 2AFF03D1C2B3A4 2BFF03D1C2B3A4 2CFF0303 2DFF031807 2EFF03D1C2B3A4 2FFF031807
            30FF0318072A09D1C2B3A43C0B 31FF0318072A09 32FF0318072A0901A1B2C3D4 33FF031807 34FF031807 35FF0318072A09 36FF03 37FF0318072A093C0B
            38FF0318072A093C0B 39FF03FE03FD03 3AFF03FE03FD03 3BFF03FE03FD03 3CFF03FE03FD03 3DFF03FE03FD03 3EFF03FE03FD03 3FFF03FE03
            40FF03FE03FD03 41FF03FE03FD03 42FF03FE03FD03 43FF03FE03 44FF03FE03FD03 45FF03FE0318072A09 46FF0318072A09 47FF03FE031807
            48FF03FE03 49FF03FE03 4AFF03FE03 4BFF0318072A09 4CFF0318072A09 4D1807FF0301A1B2C3D401E5F60718 4EFF03FE03FD03 4FFF03FE03FD03
            50FF03FE03FD03 51FF03FE031807"""),
        *both_ways("absent registers and sites", """F0070006000000
            0200000018072A09 0400000018072A09 0C000000 32FF0318072A090000000000 4D1807FF0300000000000000000000 4D1807FF03000000000001E5F60718"""),
        *both_ways("loads of zeros", "F0070006000000 28000000 2900000000000000000000 2A000000000000 2B000000000000 2C000000 2E000000000000"),
        *both_ways("events, with each site and none", """F0070001000400
            4D1807FF0301A1B2C3D401E5F60718
            0001A1B2C3D40000000000FFFFFFFF 01000000000001E5F6071878563412 000000000000000000000001020304 010000000000000000000000000000"""),
        *both_ways("sites of no event, one twice", "F0070002000000 4D0000000001090000000000000000 4D0000000001090000000000000000"),
        *both_ways("events of no command", "F0070000000200 000109000000000000000000000000 000109000000000000000000000000"),
        *both_ways("events alone, then instructions alone", "F0010000000100 000000000000000000000000000000 F0020001000000 0A0100"),
    ]),
    # 4,096 cells are the most; 61,424 bytes are the longest packed form, with two heads and 15 bytes of each other cell
    ("packed, longest", [
        *both_ways("2,048 instructions and 1,024 events", "F0070000080004 0A0100*2048 000000000000000000000000000000*1024"),
        *both_ways("4,096 functions", "F0070000000000*4096"),
        *both_ways("4,096 cells in four functions", FOUR),
        *both_ways("61,424 bytes",
                   "F0070000080004 4D1807FF0301A1B2C3D401E5F60718*2048 000000000000000000000000000000*1024 F008000000FE03 000000000000000000000000000000*1022"),
    ]),
    ("packed, refusal 2", [
        no_form("first byte F1", "F1070000000000", 2, 0, 0),
        no_form("first byte 0", "00000000000000", 2, 0, 0),
        no_form("2,049 instructions", "F0070001080000", 2, 0, 0),
        no_form("1,025 events", "F0070000000104", 2, 0, 0),
        no_form("65,535 of both", "F00700FFFFFFFF", 2, 0, 0),
        no_form("in function 1", "F0070001000000 0A0100 F1070000000000", 2, 1, 2),
        no_form("in function 3, behind functions without cells", "F0070000000000*3 F0070001080000", 2, 3, 3),
    ]),
    ("packed, refusal 3", [
        no_form("no command", "F0070001000000 00", 3, 0, 1),
        no_form("command 52", "F0070001000000 52", 3, 0, 1),
        no_form("a head for a command", "F0070001000000 F0070000000000", 3, 0, 1),
        no_form("event kind 2", "F0070000000100 02", 3, 0, 1),
        no_form("a command for an event", "F0070000000100 0A0100", 3, 0, 1),
        no_form("event kind 255, whole", "F0070000000100 FF0000000000000000000000000000", 3, 0, 1),
        no_form("in function 1", "F0070000000000 F0080002000000 0A0100 52", 3, 1, 3),
    ]),
    ("packed, refusal 4", [
        no_form("register 1,024", "F0070001000000 2B000405000000", 4, 0, 1),
        no_form("register 1,024 as rhs", "F0070001000000 13000000000004", 4, 0, 1),
        no_form("register 1,024, present", "F0070001000000 0C010004", 4, 0, 1),
        no_form("bool 2", "F0070001000000 28000002", 4, 0, 1),
        no_form("quad 4", "F0070001000000 2C000004", 4, 0, 1),
        no_form("presence 2", "F0070001000000 0C020000", 4, 0, 1),
        no_form("an absent register not zero", "F0070001000000 0C000100", 4, 0, 1),
        no_form("an absent dst not zero", "F0070001000000 0200000118072A09", 4, 0, 1),
        no_form("an absent site of a MakeRecord not zero", "F0070001000000 320000000000000000000001", 4, 0, 1),
        no_form("an absent site of a StoreVar not zero", "F0070001000000 4D0000000000000000000000000001", 4, 0, 1),
        no_form("an absent site of an event not zero", "F0070000000100 000001000000000000000000000000", 4, 0, 1),
        no_form("presence 2 of an event", "F0070000000100 000000000000020000000000000000", 4, 0, 1),
        no_form("in function 1, behind an event", "F0070000000100 000000000000000000000000000000 F0080002000000 0A0100 28000002", 4, 1, 4),
    ]),
    ("packed, refusal 32", [
        no_form("one byte of a head", "F0", 32, 0, 0),
        no_form("six bytes of a head", "F00700000000", 32, 0, 0),
        no_form("before a promised instruction", "F0070001000000", 32, 0, 1),
        no_form("before a promised event", "F0070000000100", 32, 0, 1),
        no_form("before the second instruction", "F0070002000000 0A0100", 32, 0, 2),
        no_form("before the event behind an instruction", "F0070001000100 0A0100", 32, 0, 2),
        no_form("one byte of an instruction", "F0070001000000 2B", 32, 0, 1),
        no_form("all but one byte of an instruction", "F0070001000000 2B0100050000", 32, 0, 1),
        no_form("one byte of an event", "F0070000000100 00", 32, 0, 1),
        no_form("all but one byte of an event", "F0070000000100 0000000000000000000000000000", 32, 0, 1),
        no_form("as much as may be promised", "F0070000080004", 32, 0, 1),
        no_form("a byte left behind the last function", "F0070003000000 2B010005000000 13020001000100 0C010200 00", 32, 1, 4),
    ]),
    # past 4,096 cells, whatever is there, and where a cell is promised and nothing is there
    ("packed, refusal 1", [
        no_form("4,097 functions", "F0070000000000*4097", 1, 0, 0),
        no_form("a head behind 4,096 cells", FOUR + "F0070000000000", 1, 0, 0),
        no_form("1 before 32: one byte behind 4,096 cells", FOUR + "F0", 1, 0, 0),
        no_form("1 before 2: a wrong first byte", FOUR + "F1070000000000", 1, 0, 0),
        no_form("1 before 2: past the limits", FOUR + "F00700FFFFFFFF", 1, 0, 0),
        no_form("a promised instruction that is there", LAST + "F0070001000000 0A0100", 1, 0, 0),
        no_form("a promised instruction that is not there", LAST + "F0070001000000", 1, 0, 0),
        no_form("a promised event that is there", LAST + "F0070000000100 000000000000000000000000000000", 1, 0, 0),
        no_form("a promised event that is not there", LAST + "F0070000000100", 1, 0, 0),
        no_form("1 before 3: a promised instruction", LAST + "F0070001000000 52", 1, 0, 0),
        no_form("1 before 3: a promised event", LAST + "F0070000000100 02", 1, 0, 0),
        no_form("1 before 32: inside a promised instruction", LAST + "F0070001000000 2B", 1, 0, 0),
        no_form("1 before 4: a promised instruction", LAST + "F0070001000000 2B000405000000", 1, 0, 0),
        no_form("65,552 bytes", FOUR + "00*4144", 1, 0, 0),
    ]),
    ("packed, the earlier fault", [
        no_form("3 before 32: no byte behind the command", "F0070001000000 FF", 3, 0, 1),
        no_form("3 before 32: no byte behind the kind", "F0070000000100 02", 3, 0, 1),
        no_form("32 before 2: a head cut, its first byte wrong", "F10700000000", 32, 0, 0),
        no_form("32 before 2: a head cut, past the limits", "F00700FFFFFF", 32, 0, 0),
        no_form("32 before 4: an instruction cut behind register 1,024", "F0070001000000 2B0004", 32, 0, 1),
        no_form("32 before 4: an event cut behind presence 2", "F0070000000100 0002", 32, 0, 1),
        no_form("4, then 3", "F0070002000000 2B000405000000 00", 4, 0, 1),
        no_form("3, then 4", "F0070002000000 00 2B000405000000", 3, 0, 1),
        no_form("4, then 32", "F0070002000000 2B000405000000", 4, 0, 1),
        no_form("2, then 3", "F1070001000000 00", 2, 0, 0),
        no_form("4, then 2", "F0070001000000 28000002 F1070000000000", 4, 0, 1),
        no_form("2 in the last cell that fits", LAST + "F1070000000000", 2, 4, 4095),
        no_form("2 in the last cell that fits, past the limits", LAST + "F0070001080000", 2, 4, 4095),
        no_form("32 in the last cell that fits", "F0070000000000*4095 F00700", 32, 4095, 4095),
        no_form("3 in the last cell that fits", "F0070000000000*4094 F0070001000000 52", 3, 4094, 4095),
        no_form("4 in the last cell that fits", "F0070000000000*4094 F0070001000000 28000002", 4, 4094, 4095),
        no_form("an image, not packed", "F0070003000000000000000000000000 2B010005000000000000000000000000", 3, 0, 1),
    ]),
    # a head that promises more cells than an image has room for is no fault in itself
    ("packed, more promised than can follow", [
        no_form("nothing there", MOST, 32, 4, 4001),
        no_form("a bad command first", MOST + "0A0100 00", 3, 4, 4002),
        no_form("a bad operand first", MOST + "28000002", 4, 4, 4001),
        no_form("a cell cut first", MOST + "0A0100 0A01", 32, 4, 4002),
        no_form("94 cells, and the 95th missing", MOST + "0A0100*94", 32, 4, 4095),
        no_form("94 cells, and the 95th bad", MOST + "0A0100*94 52", 3, 4, 4095),
        no_form("95 cells, and the 96th missing", MOST + "0A0100*95", 1, 0, 0),
        no_form("96 cells", MOST + "0A0100*96", 1, 0, 0),
    ]),
    ("sealing, activation numbers", [
        sealed(good("two numbers", ACTIVATION.format(FIVE) + ACTIVATION.format(SIX))),
        sealed(good("one in both", ACTIVATION.format(FIVE) * 2), 34, 1, 5),
        sealed(good("function 2 of 3 against function 0", ACTIVATION.format(FIVE) + ACTIVATION.format(SIX) + ACTIVATION.format(FIVE)), 34, 2, 5),
        sealed(good("function 2 of 3 against function 1", ACTIVATION.format(SIX) + ACTIVATION.format(FIVE) * 2), 34, 2, 5),
        sealed(good("in all three", ACTIVATION.format(FIVE) * 3), 34, 1, 5),
        sealed(good("the first function that repeats one", ACTIVATION.format(FIVE) + ACTIVATION.format(SIX) * 2 + ACTIVATION.format(FIVE)), 34, 2, 6),
        sealed(good("functions without numbers between", "F007 " + ACTIVATION.format(FIVE) + "F007 F0070001 0A01 F007 " + ACTIVATION.format(FIVE) + "F007"), 34, 5, 5),
        sealed(good("number 0", ACTIVATION.format("00000000") * 2), 34, 1, 0),
        sealed(good("the greatest number", ACTIVATION.format("FFFFFFFF") * 2), 34, 1, 4294967295),
        sealed(good("absent sites", "F0070001 4D " * 3 + ACTIVATION.format("00000000"))),
        sealed(good("numbers that differ in one byte", "".join(map(ACTIVATION.format, ("01000000", "00000000", "01010000", "01000100", "01000001"))))),
        # the earlier function has 3, 8 and 4, in this order
        sealed(good("the first in instruction order, not the least", "F00700030003 4D000000000103 4D000000000108 4D000000000104 000104 000103 000108 "
                    "F00700030003 4D000000000109 4D000000000108 4D000000000103 000103 000108 000109"), 34, 1, 8),
        sealed(good("the first in instruction order, not the greatest", "F00700030003 4D000000000103 4D000000000108 4D000000000104 000104 000103 000108 "
                    "F00700030003 4D000000000109 4D000000000103 4D000000000108 000108 000103 000109"), 34, 1, 3),
        # behind a Ret: the rewrites leave Ret, and both images then have the number once
        sealed(cleaned("of an unreachable command", ACTIVATION.format(FIVE) + "F00700020001 0C 4D000000000105 000105",
                       ACTIVATION.format(FIVE) + "F0070001 0C", 1), 34, 1, 5),
        sealed(cleaned("of an earlier unreachable command", "F00700020001 0C 4D000000000105 000105 " + ACTIVATION.format(FIVE),
                       "F0070001 0C " + ACTIVATION.format(FIVE), 1), 34, 1, 5),
    ]),
    ("sealing, write numbers", [
        sealed(good("of StoreVars", STORED.format(NINE) * 2), 35, 1, 9),
        sealed(good("of MakeRecords", MADE.format(NINE) * 2), 35, 1, 9),
        sealed(good("of a StoreVar, then of a MakeRecord", STORED.format(NINE) + MADE.format(NINE)), 35, 1, 9),
        sealed(good("of a MakeRecord, then of a StoreVar", MADE.format(NINE) + STORED.format(NINE)), 35, 1, 9),
        sealed(good("of a MakeRecord with two events", "F00700010002 320000000000000109 0100000000000109 0100000000000109 " + MADE.format(SIX))),
        sealed(good("the same, in both", "F00700010002 320000000000000109 0100000000000109 0100000000000109 " * 2), 35, 1, 9),
        sealed(good("behind functions without cells", MADE.format(NINE) + "F007 F007 " + STORED.format(SIX) + MADE.format(SIX)), 35, 4, 6),
        sealed(good("the first in instruction order", "F00700020002 320000000000000103 4D0000000000000000000108 0100000000000108 0100000000000103 "
                    "F00700020002 4D0000000000000000000108 320000000000000103 0100000000000103 0100000000000108"), 35, 1, 8),
    ]),
    ("sealing, both", [
        sealed(good("one number in each space", ACTIVATION.format(FIVE) + MADE.format(FIVE) + STORED.format(SIX))),
        sealed(good("exchanged", BOTH.format(FIVE, SIX) + BOTH.format(SIX, FIVE))),
        sealed(good("34 and 35 of one function", BOTH.format(FIVE, NINE) * 2), 34, 1, 5),
        sealed(good("35 of an earlier function", MADE.format(NINE) * 2 + ACTIVATION.format(FIVE) * 2), 34, 3, 5),
        sealed(good("34 of an earlier function", ACTIVATION.format(FIVE) * 2 + MADE.format(NINE) * 2), 34, 1, 5),
        sealed(good("35 where 34 is none", BOTH.format(FIVE, NINE) + ACTIVATION.format(SIX) + STORED.format(NINE)), 35, 2, 9),
    ]),
    ("sealing, the site check first", [
        refused("11 of a number that stands before", ACTIVATION.format(FIVE) + "F00700020001 4D000000000105 4D000000000105 000105", 11, 1, 5),
        refused("21 of a number that stands before", MADE.format(NINE) + "F00700020001 320000000000000109 4D0000000000000000000109 0100000000000109", 21, 1, 9),
        refused("24 behind 34", ACTIVATION.format(FIVE) * 2 + "F0070001 320000000000000107", 24, 2, 7),
        refused("14 behind 35", MADE.format(NINE) * 2 + "F0070001 4D000000000107", 14, 2, 0),
        refused("4 behind 34", ACTIVATION.format(FIVE) * 2 + "F0070001 2B000405", 4, 2, 7),
    ]),
    # functions of 1,023 StoreVars and their events, numbered from 0 and from 65,536; of 1,022 with one more that ends in 1,022 (FE 03)
    ("sealing, many numbers", [
        sealed(good("2,046 numbers", "F00700FF03FF03 4D0000000001*1023@6 0001*1023@2 F00700FF03FF03 4D000000000100000100*1023@6 000100000100*1023@2")),
        sealed(good("the last repeats the last", "F00700FF03FF03 4D0000000001*1023@6 0001*1023@2 F00700FF03FF03 4D000000000100000100*1022@6 4D0000000001FE03 000100000100*1022@2 0001FE03"), 34, 1, 1022),
        sealed(good("all are repeated", "F00700FF03FF03 4D0000000001*1023@6 0001*1023@2 " * 2), 34, 1, 0),
        sealed(good("all write numbers are repeated", "F00700FF03FF03 3200000000000001*1023@8 01000000000001*1023@7 " * 2), 35, 1, 0),
        sealed(good("4,096 functions without numbers", "F007*4096")),
        sealed(good("129 cells", "F007*123 " + ACTIVATION.format(FIVE) * 2), 34, 124, 5),
        sealed(good("128 cells", "F007*122 " + ACTIVATION.format(FIVE) * 2), 34, 123, 5),
    ]),
    # document 02, W9: length, image, and so on; then the output's bytes, and for each image three numbers
    ("release, in bytes", [
        in_bytes("no image", "", "", ""),
        in_bytes("an empty image", "00000000", "00000000", "00000000 00000000 00000000"),
        in_bytes("the printed example",
                 "40000000 F0070003000000000000000000000000 2B010005000000000000000000000000 13020001000100000000000000000000 0C010200000000000000000000000000",
                 "40000000 F0070003000000000000000000000000 2B010005000000000000000000000000 2B02000A000000000000000000000000 0C010200000000000000000000000000",
                 "00000000 01000000 00000000"),
        in_bytes("a load that goes",
                 "30000000 F0070002000000000000000000000000 2B010005000000000000000000000000 28010001000000000000000000000000",
                 "20000000 F0070001000000000000000000000000 28010001000000000000000000000000",
                 "00000000 01000000 00000000"),
        in_bytes("a refused image",
                 "20000000 F0070001000000000000000000000000 32000000000000010500000000000000",
                 "00000000",
                 "18000000 00000000 05000000"),
        in_bytes("a refused one between two",
                 "10000000 F0070000000000000000000000000000 20000000 F0070001000000000000000000000000 52000000000000000000000000000000 "
                 "30000000 F0080002000000000000000000000000 0A010000000000000000000000000000 0A010000000000000000000000000000",
                 "10000000 F0070000000000000000000000000000 00000000 "
                 "20000000 F0080001000000000000000000000000 0A010000000000000000000000000000",
                 "00000000 00000000 00000000 03000000 00000000 01000000 00000000 01000000 00000000"),
        in_bytes("an image of one byte", "01000000 F0", "00000000", "01000000 00000000 00000000"),
        in_bytes("an image that looks like two empty ones", "08000000 00000000 00000000", "00000000", "01000000 00000000 00000000"),
        # 258 functions without cells, then one whose register is 1,024: 4 of function 258, cell 259
        in_bytes("a position and a cell of two bytes",
                 "40100000 F0000000000000000000000000000000*258 F0070001000000000000000000000000 2B000405000000000000000000000000",
                 "00000000",
                 "04000000 02010000 03010000"),
        in_bytes("a site of four bytes",
                 "30000000 F0070002000000000000000000000000 4D000000000101020384000000000000 4D000000000101020384000000000000",
                 "00000000",
                 "0B000000 00000000 01020384"),
        in_bytes("257 rewrites",
                 "30100000 F0070002010000000000000000000000 0A010000000000000000000000000000*258",
                 "20000000 F0070001000000000000000000000000 0A010000000000000000000000000000",
                 "00000000 01010000 00000000"),
    ]),
    ("release, one image", [
        release("that stays", stays("F0070001 2B010005")),
        release("without cells", stays("F007")),
        release("of which nothing but Ret stays", ("F0070004 0C 2F01000200 2F02000200 2F03000200", "F0070001 0C", 3)),
        release("whose events go", ("F0070002000200 0C 4D0500010001090000000105 000109 0100000000000105", "F0070001 0C", 1)),
        release("of two functions that both passes change", ("F0070002 2B010005 28010001 F0080003 2B010005 13020001000100 0C010200",
                "F0070001 28010001 F0080003 2B010005 2B02000A 0C010200", 2)),
        release("that only the fuller rewrite changes", stays("F0070002 2C010002 4302000100")),
        release("that a second round would change", ("F0070002 2B010005 13010001000100", "F0070002 2B010005 2B01000A", 1)),
        release("that the sealing check refuses", stays((ACTIVATION.format(FIVE) * 2).strip())),
        release("of 65,536 bytes", stays("F007*4096")),
        release("of 65,536 bytes, 4,092 rewrites", ("F00700FF07 2B0100 13010001000100*2046 F00800FF07 2B0100 13010001000100*2046",
                "F00700FF07 2B0100*2047 F00800FF07 2B0100*2047", 4092)),
    ]),
    ("release, several images", [
        release("the printed example twice", EXAMPLE, EXAMPLE),
        release("the printed example, then labels", EXAMPLE, LABELS),
        release("labels, then the printed example", LABELS, EXAMPLE),
        release("the first and the last shorter", SHORTER, EXAMPLE, SHORTER),
        release("the second shorter", EXAMPLE, SHORTER, EXAMPLE),
        release("an empty image first", NOTHING, EXAMPLE),
        release("an empty image between two", SHORTER, NOTHING, EXAMPLE),
        release("an empty image last", SHORTER, NOTHING),
        release("two empty images", NOTHING, NOTHING),
        release("functions without cells", stays("F001"), stays("F002 F003"), stays("F004")),
        release("forty of the printed example", *[EXAMPLE] * 40),
        # LoadI32 r1 i, AddI32 r2 r1 r1, Ret r2 in function i
        release("forty, each with a number of its own", *[
            ("F0%02X0003 2B0100%02X 13020001000100 0C010200" % (i, i), "F0%02X0003 2B0100%02X 2B0200%02X 0C010200" % (i, i, 2 * i), 1) for i in range(40)]),
        release("forty that get shorter", *[SHORTER] * 40),
        release("forty, every third refused", *[EXAMPLE, SHORTER, UNMADE] * 13, LABELS),
        release("1,000 empty images", *[NOTHING] * 1000),
        release("65,536 bytes, then three empty images", stays("F007*4096"), NOTHING, NOTHING, NOTHING),
    ]),
    ("release, refused images", [
        release("the first", UNMADE, EXAMPLE, LABELS),
        release("the second", EXAMPLE, UNMADE, LABELS),
        release("the last", EXAMPLE, LABELS, UNMADE),
        release("the first two", UNMADE, UNMADE, SHORTER),
        release("all but the second", UNMADE, SHORTER, UNMADE),
        release("the last two", SHORTER, UNMADE, UNMADE),
        release("all three", UNMADE, UNMADE, UNMADE),
        release("forty", *[UNMADE] * 40),
        release("behind an empty one", NOTHING, UNMADE, NOTHING),
        release("lengths that are no multiple of 16", (1, 1, 0, 0), EXAMPLE, (15, 1, 0, 0), (17, 1, 0, 0), SHORTER, (31, 1, 0, 0), (79, 1, 0, 0)),
        release("each number", ("F1", 2, 0, 0), EXAMPLE, ("F0070002 0A0100 52", 3, 0, 2), ("F0070001 2B0004", 4, 0, 1), LABELS,
                ("F0070002 4D000000000109 4D000000000109", 11, 0, 9), ("F0070000000100 010109", 12, 0, 9), ("F0070000000200 000109 000109", 13, 0, 9),
                ("F0070001 4D000000000109", 14, 0, 0), SHORTER, ("F0070002 320000000000000105 320000000000000105", 21, 0, 5),
                ("F0070000000100 0000000000000105", 22, 0, 5), ("F0070000000100 01", 23, 0, 0), ("F0070001 320000000000000105", 24, 0, 5), NOTHING,
                ("F0070001000200 4D0000000000000000000105 0100000000000105 0100000000000105", 25, 0, 5), ("F0070000000100 0100000000000105", 26, 0, 5), EXAMPLE),
        # behind three functions of four cells in another image: a position and a cell are counted in its own
        release("a position and a cell behind another image", stays("F001 F002 F0070001 0A0100"), ("F001 F0070001 2B0004", 4, 1, 2), ("F001 F0070001 320000000000000107", 24, 1, 7)),
        release("one longer than the others", SHORTER, ("F007*300 F1", 2, 300, 300), SHORTER),
        release("the greatest site", ("F0070000000100 0101FFFFFFFF", 12, 0, 4294967295), EXAMPLE),
    ]),
    # images of which one would change the other if anything were carried over, or if they were joined; both ways round
    ("release, neighbours", [
        release("%s%s" % (name, ", the other way round" if turn else ""), *(images[::-1] if turn else images)) for name, *images in [
            ("a load, a sum of its register", stays("F0070001 2B010005"), stays("F0080001 13020001000100")),
            ("a fold, a sum of its register", EXAMPLE, stays("F0080001 13030002000200")),
            ("known and overwritten", stays("F0070002 2B010005 2B020007"), ("F0080002 2B010006 13030001000100", "F0080002 2B010006 2B03000C", 1), stays("F0090001 13040001000200")),
            ("Ret, a load", stays("F0070002 2B010005 0C010100"), stays("F0080001 2B020006")),
            ("Jmp, its label", stays("F0070002 010100 080100"), stays("F0080002 0A0100 010100")),
            ("a label, the same label", stays("F0070001 0A0100"), stays("F0080001 0A0100")),
            ("a load, a load of its register", stays("F0070001 2B010005"), stays("F0080001 28010001")),
            ("a load, a head that promises more than there is", stays("F0070001 2B010005"), ("F0070002 2B010006", 2, 0, 0)),
            ("a head without its cell, a head", ("F0070001", 2, 0, 0), stays("F00800")),
            ("a StoreVar without its event, the event", ("F0070001 4D000000000109", 14, 0, 0), ("F0070000000100 000109", 14, 0, 0)),
            ("a MakeRecord without its event, the event", UNMADE, ("F0070000000100 0100000000000105", 26, 0, 5)),
            ("one site in both", stays((MADE.format(FIVE) + ACTIVATION.format(FIVE)).strip()), stays((ACTIVATION.format(FIVE) + MADE.format(FIVE)).strip())),
            ("sites that go, the same sites", ("F0070002000200 0C 4D0500010001090000000105 000109 0100000000000105", "F0070001 0C", 1),
             stays("F0080001000200 4D0500010001090000000105 000109 0100000000000105")),
            ("loads before a fault, a sum of their registers", ("F0070003 2B010005 2B020006 52", 3, 0, 3), stays("F0080001 13030001000200")),
            ("a long one that goes but for a load, the printed example", ("F0070028 2B0100*40@3", "F0070001 2B010027", 39), EXAMPLE),
        ] for turn in (False, True)
    ]),
    # 33, whatever is lent
    ("release, no release", [
        no_release("one byte", "00"),
        no_release("two bytes", "0000"),
        no_release("three bytes", "000000"),
        no_release("a byte behind an empty image", "00000000 00"),
        no_release("three bytes behind an empty image", "00000000 000000"),
        no_release("a byte behind a function", "10000000 F0070000000000000000000000000000 00"),
        no_release("three bytes behind a function", "10000000 F0070000000000000000000000000000 10FFFF"),
        no_release("a length of 1, and nothing", "01000000"),
        no_release("a length of 16, and 15 bytes", "10000000 F00700000000000000000000000000"),
        no_release("a length of 17, and 16 bytes", "11000000 F0070000000000000000000000000000"),
        no_release("a length of 15, and 16 bytes", "0F000000 F0070000000000000000000000000000"),
        no_release("a length of 16 with its last byte first", "00000010 F0070000000000000000000000000000"),
        no_release("a length of 65,552, and 16 bytes", "10000100 F0070000000000000000000000000000"),
        no_release("a length of 16,777,232, and 16 bytes", "10000001 F0070000000000000000000000000000"),
        no_release("a length of 2,147,483,648", "00000080 F0070000000000000000000000000000"),
        no_release("a length of 4,294,967,292", "FCFFFFFF"),
        no_release("a length of 4,294,967,292, and 16 bytes", "FCFFFFFF F0070000000000000000000000000000"),
        no_release("a length of 4,294,967,295", "FFFFFFFF"),
        no_release("a length of 4,294,967,295, and 16 bytes", "FFFFFFFF F0070000000000000000000000000000"),
        no_release("a length of 4,294,967,288 behind an empty image", "00000000 F8FFFFFF"),
        no_release("a length of 4,294,967,295 behind an empty image", "00000000 FFFFFFFF"),
        no_release("the second of three a byte short", "10000000 F0070000000000000000000000000000 10000000 F00800000000000000000000000000 10000000 F0090000000000000000000000000000"),
        no_release("the last of three a byte short", "10000000 F0070000000000000000000000000000 10000000 F0080000000000000000000000000000 10000000 F00900000000000000000000000000"),
        no_release("behind a refused image", "10000000 F1070000000000000000000000000000 11000000 F0080000000000000000000000000000"),
        no_release("behind an image that would be changed",
                   "30000000 F0070002000000000000000000000000 2B010005000000000000000000000000 28010001000000000000000000000000 04000000 000000"),
        no_release("an image without a length", "F0070000000000000000000000000000"),
        no_release("1,000 empty images and a byte", "00000000*1000 00"),
    ]),
]


def record(kind, refusal=(0, 0, 0), room=0, length=0, rewrites=0, listed=(), answers=0):
    changed = 0 < rewrites and kind != RELEASE
    head = struct.pack("<BBHIIIIBBH", kind, *refusal, room, length, rewrites, changed, 0, len(listed) or answers)
    return head + b"".join(struct.pack("<HH", count, place) + cell for count, place, cell in listed)


def bytes_record(kind, data):
    length, listed = runs(data)
    return record(kind, length=length, listed=listed)


def page_calls(image, answer):
    """The calls of `pages`: lent as much as the pages, a byte and a line more; and a byte less, as much as the image, and nothing, which refuse
    30 after all that the site check refuses."""
    n = runs(image)[0]
    if len(answer) == 3:
        yield from (record(PAGES, refusal=answer, room=room) for room in (0, n, 4000))
        return
    length = runs(answer[0])[0]
    yield bytes_record(OUTPUT, answer[0])
    yield from (record(PAGES, length=length, room=room) for room in (length, length + 1, length + 58))
    if length:
        yield from (record(PAGES, refusal=(30, 0, 0), room=room) for room in (length - 1, n, 0))


def packing_calls(operation, image, answer):
    """The calls of `pack` and of `unpack`: lent as much as the result, a byte and a cell more, for `pack` also as much as the image; and a byte
    less, and nothing, which refuse 5 after all else. Where that is refused: lent nothing, and as much as the longest image."""
    if len(answer) == 3:
        yield from (record(operation, refusal=answer, room=room) for room in (0, 65536))
        return
    length = runs(answer[0])[0]
    yield bytes_record(OUTPUT, answer[0])
    rooms = {length, length + 1, length + 16} | ({runs(image)[0]} if operation == PACK else set())
    yield from (record(operation, length=length, room=room) for room in sorted(rooms))
    if length:
        yield from (record(operation, refusal=(5, 0, 0), room=room) for room in (length - 1, 0))


def release_calls(image, answer):
    """The calls of a release, lent an output and behind it a buffer for the answers: the output as long as the release, a byte and a cell more, and a
    byte less, half, and as much as the result; 12 bytes of answers an image, a byte and 12 more, and a byte less; and nothing. Less refuses 33 before
    anything is written. Where it isn't a release: with nothing, and with more than enough."""
    def refusals(rooms):
        return [record(RELEASE, refusal=(33, 0, 0), room=out + behind, answers=behind) for out, behind in rooms]

    n = len(image)
    if len(answer) == 3:
        enough = 12 * (n // 4 + 1)
        yield from refusals([(0, 0), (n, 0), (n, enough), (n + 16, enough)])
        return
    output, answers = answer
    length, kept = len(output), len(answers)
    # for long releases, with both as short as may be and with both longer
    for more, behind in [(0, 0), (16, 12)] if 512 < n else [(0, 0), (1, 0), (16, 0), (0, 1), (0, 12), (16, 12)]:
        # the output's bytes behind what is written stay as the program marks them
        marks = bytes(at % 251 for at in range(length, n + more))
        yield bytes_record(OUTPUT, output + marks + answers)
        yield record(RELEASE, room=n + more + kept + behind, length=n + more + kept, rewrites=length, answers=kept + behind)
    if n:
        shorter = {n - 1, 0} | ({length} if length < n else set()) | ({n // 2} if length <= n // 2 else set())
        yield from refusals([(out, kept) for out in sorted(shorter)] + [(n - 1, kept + 12), (n, kept - 1), (n + 16, kept - 1), (n, 0), (0, 0)])


def calls(operation, image, answer):
    """An operation's calls on an image: a check is lent nothing; a rewrite as much as the image, a byte and a cell more, and a byte less."""
    if operation == PAGES:
        yield from page_calls(image, answer)
        return
    if operation in (PACK, UNPACK):
        yield from packing_calls(operation, image, answer)
        return
    if operation == RELEASE:
        yield from release_calls(image, answer)
        return
    n = runs(image)[0]
    rooms = [0] if operation in (IMAGE_CHECK, SITE_CHECK, SEAL) else [n, n + 1, n + 16]
    if len(answer) == 2:
        output, rewrites = answer
        length = runs(output)[0]
        yield bytes_record(OUTPUT, output)
        yield from (record(operation, room=room, length=length, rewrites=rewrites) for room in rooms)
    else:
        yield from (record(operation, refusal=answer, room=room) for room in rooms)
    # "refuse 1; then 5, a lent output shorter than the image"
    if n and len(rooms) > 1:
        yield record(operation, refusal=(1 if answer[0] == 1 else 5, 0, 0), room=n - 1)


def records(groups):
    """A file of cases, and the lines that the program writes of it."""
    data, lines = [], []
    for group, rows in groups:
        data.append(bytes_record(GROUP, group.encode()))
        answers = 0
        for row in rows:
            data += [bytes_record(NAME, row.name.encode()), bytes_record(IMAGE, row.image)]
            for operation, answer in row.answers.items():
                made = list(calls(operation, row.image, answer))
                answers += sum(head[0] == operation for head in made)
                data += made
        lines.append("%s: %d images, %d answers passed\n" % (group, len(rows), answers))
    return b"".join(data), lines


def sampled():
    """The sample's answers in groups, by operation or refusal; both checks answer by them too."""
    with open(SAMPLE, "rb") as file:
        data = file.read().split(b"\n", 1)[1]
    groups, at = collections.defaultdict(list), 2
    for number in range(struct.unpack_from("<H", data)[0]):
        operation, length = struct.unpack_from("<BH", data, at)
        image, at = data[at + 3:at + 3 + length], at + 3 + length
        if data[at] == 0:
            length, rewrites, changed = struct.unpack_from("<HIB", data, at + 1)
            assert changed == (rewrites > 0)
            answer, sites, at = (data[at + 8:at + 8 + length], rewrites), ("", 0), at + 8 + length
            group = ("the whole rewrite", "cleanup", "CrystalFold", "the fuller rewrite")[operation]
        else:
            answer = sites = struct.unpack_from("<BHI", data, at + 1)
            assert 11 <= answer[0]
            group, at = "refusal %d" % answer[0], at + 8
        operation = (REWRITE, CLEANUP, CRYSTALFOLD, FULLER)[operation]
        groups[group].append(Row("case %d" % number, image, {IMAGE_CHECK: ("", 0), SITE_CHECK: sites, operation: answer}))
    assert at == len(data)
    return [("sample, " + group, groups[group]) for group in sorted(groups, key=str.upper)]


def main():
    if sys.argv[1:]:
        print(__doc__.strip())
        sys.exit(0 if "--help" in sys.argv[1:] else 2)
    lines = []
    groups = [(group, [with_seal(with_pack(row)) for row in rows]) for group, rows in GROUPS]
    groups.append(("release, each group above", list(released(GROUPS))))
    for name, groups in (("images.bin", groups), ("sample.bin", sampled())):
        data, written = records(groups)
        with open(os.path.join(CASES, "data", name), "wb") as out:
            out.write(data)
        lines += written
    with open(os.path.join(CASES, "stdout"), "w") as out:
        out.writelines(lines)


if __name__ == "__main__":
    main()
