"""Reads calls with their answers from standard input, as rust/making/src/calls.rs writes them, makes each call from Python and compares.

Each is made twice: by the module's call, whose answer is spelled as numbers again, and by the library's function itself, on an area with some bytes
before and after it, which it must leave. Exit status: 0 all agree; 1 some do not, and standard error says which; 2 the input cannot be read.
"""

import ctypes
import sys
import zlib
from typing import Iterator, List, Optional, Tuple

import bolfrega

BESIDE = 16
BESIDE_BYTES = b"\xcc" * BESIDE
CELL = 0x5555555555555555
PATTERN = bytes(200 + at % 50 for at in range(1 << 17))

Numbers = List[int]


class Lent:
    """An area for a call, with bytes before and after it."""

    def __init__(self, contents: bytes) -> None:
        self.length = len(contents)
        self.whole = ctypes.create_string_buffer(BESIDE_BYTES + contents + BESIDE_BYTES, BESIDE + self.length + BESIDE)
        self.pointer = ctypes.addressof(self.whole) + BESIDE

    def words(self) -> "ctypes.pointer":
        return ctypes.cast(self.pointer, ctypes.POINTER(ctypes.c_uint64))

    def rows(self) -> "ctypes.pointer":
        return ctypes.cast(self.pointer, ctypes.POINTER(bolfrega._Row))

    def bytes(self) -> "ctypes.pointer":
        return ctypes.cast(self.pointer, ctypes.POINTER(ctypes.c_uint8))

    def contents(self) -> Optional[bytes]:
        """What is in it now; None if the bytes beside it have changed."""
        raw = self.whole.raw
        if raw[:BESIDE] != BESIDE_BYTES or raw[-BESIDE:] != BESIDE_BYTES:
            return None
        return raw[BESIDE:-BESIDE]


# What a check over rows works in, where each call finds what the one before has left.
CELLS = Lent(b"\x55" * 4 * bolfrega.TABLE_CELLS)
NEAR = Lent(b"\x55" * 8 * bolfrega.NEAR_WORDS)
ROW = ctypes.sizeof(bolfrega._Row)


def check_rows(file: bytes, starts: int, rows: int, budget: int, details: "ctypes.pointer") -> Tuple[int, Lent]:
    """What the function returns over this many rows, and the rows."""
    journal = Lent(CELL.to_bytes(8, "little") * (ROW // 8 * rows))
    cells = ctypes.cast(CELLS.pointer, ctypes.POINTER(ctypes.c_uint32))
    number = bolfrega._library.bolfrega_check_rows(file, len(file), starts, budget, journal.rows(), rows, cells, NEAR.words(), details)
    return number, journal


def function(name: str, file: bytes, run: bytes, given: Numbers) -> Optional[Numbers]:
    """What the library's function returns and sets, and the sum of the area; None if it wrote beside an area."""
    # The places that are set: record, and then entries, length, details, or values and the next place.
    count = {"refusal": 1, "judge": 1, "recognize": 1, "check": 8, "check_from": 9, "check_rows": 9, "step": 6}.get(name, 2)
    places = Lent(CELL.to_bytes(8, "little") * count)
    word = [ctypes.cast(places.pointer + 8 * at, ctypes.POINTER(ctypes.c_uint64)) for at in range(count)]
    call = getattr(bolfrega._library, "bolfrega_" + name)
    area = None
    if name == "refusal":
        number = call(file, len(file), word[0])
    elif name == "judge":
        number = call(file, len(file), run, len(run), word[0])
    elif name == "step":
        number = call(file, len(file), given[0], word[0], word[1], word[5])
    elif name == "moves":
        call(file, len(file), word[0], word[1])
    elif name == "check_rows":
        starts, budget, rows = given
        number, area = check_rows(file, starts, rows, budget, word[0])
    elif name == "write":
        starts, rows, budget, row, room = given
        details = (ctypes.c_uint64 * 9)()
        _, journal = check_rows(file, starts, rows, budget, details)
        area = Lent(PATTERN[:room])
        number = call(file, len(file), journal.rows(), rows, details[2], row, word[0], word[1], area.bytes(), room)
        if journal.contents() is None:
            return None
    elif name == "recognize":
        area = Lent(CELL.to_bytes(8, "little") * given[0])
        number = call(file, len(file), run, len(run), word[0], area.words(), given[0])
    elif name in ("check", "check_from"):
        *parameters, room = given
        area = Lent(PATTERN[:room])
        number = call(file, len(file), *parameters, word[0], area.bytes(), room)
    else:
        *parameters, room = given
        area = Lent(PATTERN[:room])
        number = call(file, len(file), *parameters, word[0], word[1], area.bytes(), room)
    beside = places.contents()
    contents = b"" if area is None else area.contents()
    if beside is None or contents is None or (name == "check_rows" and (CELLS.contents() is None or NEAR.contents() is None)):
        return None
    set_ = [int.from_bytes(beside[at : at + 8], "little") for at in range(0, 8 * count, 8)]
    if name == "moves":
        return set_
    return [number, *set_] + ([] if area is None else [zlib.crc32(contents)])


def members(word: int) -> List[int]:
    return [procedure for procedure in range(64) if word >> procedure & 1]


def answered(answer: bolfrega.Answer, room: int, details: int) -> Numbers:
    """A check's answer as numbers, with the sum of the buffer that has the run at its front."""
    row, pairs, length, unwritten, procedure, run = 65535, 0, 0, 0, 0, b""
    if answer.broken is not None:
        shown = answer.broken
        row, pairs, length, procedure = shown.row, shown.pairs, shown.length, shown.procedure
        unwritten, run = (10, b"") if shown.run is None else (0, shown.run)
    set_ = [0, answer.joins, answer.used, answer.pass_, row, pairs, length, unwritten, procedure][:details]
    return [answer.verdict.value, *set_, zlib.crc32(run + PATTERN[len(run) : room])]


def module(name: str, file: bytes, run: bytes, given: Numbers) -> Optional[Numbers]:
    """What the module's call says, as numbers; None where it lends another area than the line has, so that there is nothing to compare."""
    if name == "refusal":
        found = bolfrega.refusal(file)
        return [0, 0] if found is None else [int(found.number), found.record or 0]
    if name == "judge":
        return [bolfrega.judge(file, run).value, 0]
    if name == "recognize":
        if given[0] != bolfrega.CELLS:
            return None
        found = bolfrega.recognize(file, run)
        cells = b"".join(cell.to_bytes(8, "little") for cell in found.cells)
        return [112 if found.derived else 113, 0, zlib.crc32(cells)]
    if name == "list":
        if given[0] < bolfrega.LIST_BYTES:
            return None
        entries = [byte for gap in bolfrega.gaps(file) for byte in gap]
        return [114, 0, len(entries) // 3, zlib.crc32(bytes(entries) + PATTERN[len(entries) : given[0]])]
    if name == "check":
        rows, budget, room = given
        return answered(bolfrega.check(file, rows, budget, room), room, 8)
    if name == "check_from":
        starts, rows, budget, room = given
        return answered(bolfrega.check_from(file, members(starts), rows, budget, room), room, 9)
    if name == "moves":
        stretch = bolfrega.moves(file)
        return None if not stretch else [file.index(stretch), len(stretch)]
    if name == "step":
        record, at = bolfrega.step(file, given[0]), given[0]
        if record is None:
            return [120, 0, 0, 0, 0, 0, at]
        number = {bolfrega.Rule: 117, bolfrega.Move: 118, bolfrega.Finishing: 119}[type(record)]
        values = [record.procedure, len(record.body), *record.body] if number == 117 else list(record)
        return [number, 0, *values, *[0] * (4 - len(values)), at + 1]
    if name == "check_rows":
        starts, budget, rows = given
        if not 1 <= rows <= bolfrega.MOST_ROWS:
            return None
        journal = bolfrega.Journal(rows)
        ctypes.memset(journal._rows, 0x55, ROW * rows)
        answer = bolfrega.check_rows(file, members(starts), journal, budget)
        shown = [65535, 0, 0, 0, 0]
        if answer.broken is not None:
            shown = [answer.broken.row, answer.broken.pairs, answer.broken.length, 0, answer.broken.procedure]
        return [answer.verdict.value, 0, answer.joins, answer.used, answer.pass_, *shown, zlib.crc32(bytes(journal._rows))]
    if name == "write":
        starts, rows, budget, row, room = given
        if not 1 <= rows <= bolfrega.MOST_ROWS:
            return None
        journal = bolfrega.Journal(rows)
        bolfrega.check_rows(file, members(starts), journal, budget)
        result = bolfrega.write(file, journal, row, room)
        return [116, 0, len(result), zlib.crc32(result + PATTERN[len(result) : room])]
    *starts, room = given
    result = getattr(bolfrega, name)(file, *(members(word) for word in starts))
    if len(result) > room:
        return None
    return [115, 0, len(result), zlib.crc32(result + PATTERN[len(result) : room])]


def told(name: str, file: bytes, run: bytes, given: Numbers, expected: Numbers) -> bool:
    """Whether the module's call says what is expected: its answer, or the number and the record of its refusal."""
    try:
        said = module(name, file, run, given)
    except bolfrega.Refused as refused:
        named = refused.record if refused.number.names_record else 0
        said = [int(refused.number), named] + expected[2:]
    return said is None or said == expected


def cases(lines: Iterator[str]) -> Iterator[Tuple[int, str, bytes, bytes, Numbers, Numbers]]:
    file = run = b""
    for at, line in enumerate(lines, 1):
        first, _, rest = line.rstrip("\n").partition(" ")
        if first == "file":
            file = bytes.fromhex(rest)
        elif first == "run":
            run = bytes.fromhex(rest)
        else:
            given, _, expected = line.partition(" = ")
            name, *parameters = given.split()
            yield at, name, file, run, [int(word) for word in parameters], [int(word) for word in expected.split()]


def main() -> int:
    calls = failures = 0
    try:
        for at, name, file, run, given, expected in cases(sys.stdin):
            calls += 1
            if function(name, file, run, given) != expected or not told(name, file, run, given, expected):
                print("agree.py: line {} is not so: {} {}".format(at, name, given), file=sys.stderr)
                failures += 1
    except (OSError, ValueError, AttributeError) as error:
        print("agree.py: the input cannot be read: {}".format(error), file=sys.stderr)
        return 2
    if calls == 0:
        print("agree.py: there is no call", file=sys.stderr)
        return 2
    print("{} calls from Python, {} failed".format(calls, failures))
    return 0 if failures == 0 else 1


if __name__ == "__main__":
    sys.exit(main())
