"""Checks measurement plans against order sheets, by the proved library.

A plan is a context-free grammar of procedures, an order sheet a finite automaton over the same step codes. Both stand in one file of 8-byte
records, which is bytes here. check says whether the sheet accepts every run of the plan, and shows a run that is turned away if not.

>>> plan_b = bytes([
...     1, 0, 2, 129, 3,   0, 0, 0,  # 0 gives (procedure 1) 3
...     1, 1, 0, 0,   0,   0, 0, 0,  # 1 gives nothing
...     1, 1, 2, 1,   130, 0, 0, 0,  # 1 gives 1 (procedure 2)
...     1, 2, 1, 129, 0,   0, 0, 0,  # 2 gives (procedure 1)
...     1, 2, 2, 2,   129, 0, 0, 0,  # 2 gives 2 (procedure 1)
...     2, 0, 1, 1,   0,   0, 0, 0,  # from stage 0 on code 1 to stage 1
...     2, 0, 3, 2,   0,   0, 0, 0,  # from stage 0 on code 3 to stage 2
...     2, 1, 2, 0,   0,   0, 0, 0,  # from stage 1 on code 2 to stage 0
...     3, 2, 0, 0,   0,   0, 0, 0,  # stage 2 is finishing
... ])
>>> answer = check(plan_b)
>>> answer.verdict
<Verdict.BROKEN: 101>
>>> answer.broken.run
b'\\x01\\x03'
>>> print(answer)
broken 12 7 4
6 0 2
1 3

A file is bytes, a bytearray or a memoryview; a run is one of these or a sequence of step codes. A call that refuses raises Refused, with the
number and the record of documents 01 and 02. What each call promises stands in include/bolfrega.h, where it has the same name.

The library is the one that BOLFREGA_LIB names; or libbolfrega.so beside this file, in ../lib, where a release has it, or in ../target/shared,
where tools/shared makes it; or else the one that the system finds. Where there is none, importing raises ImportError. It needs Python 3.8 and nothing
else.

check_rows works over the rows of a Journal, which is there for the next file too, and write gives the run behind any of them.

Calls let other threads run. check and check_from need 1.5 MiB of stack: threads have more, unless threading.stack_size says less.

As a program, `python3 bolfrega.py FILE` checks a file as the check program does, with the same lines. Exit status: 0 holds, 1 broken, 2 no answer,
3 refused, 4 full or spent, 5 empty. A file - is standard input.
"""

import ctypes
import enum
import os
import sys
from dataclasses import dataclass
from typing import Iterable, List, NamedTuple, Optional, Sequence, Tuple, Union

__all__ = [
    "Answer", "Broken", "BrokenRow", "Derivations", "Finishing", "Gap", "Journal", "Judgement", "Move", "Refusal", "Refused", "Row", "Rule",
    "UnknownNumber", "Verdict",
    "check", "check_from", "check_rows", "gaps", "judge", "moves", "narrow", "recognize", "refusal", "step", "unfold", "unfold_from", "version",
    "widen", "write",
    "CELLS", "CODES", "FILE_BYTES", "FIRST_REMARK", "LIST_BYTES", "LONGEST_RUN", "MOST_MOVES", "MOST_RECORDS", "MOST_ROWS", "MOST_RULES",
    "MOST_STEPS", "MOST_SYMBOLS", "MOST_WIDE_SYMBOLS", "NEAR_WORDS", "PROCEDURES", "PROGRAM_BUDGET", "PROGRAM_ROOM", "PROGRAM_ROWS", "RECORD_BYTES",
    "STAGES", "TABLE_CELLS", "VERSION", "WIDE_BYTES", "WIDE_RECORD_BYTES",
]

# ---- numbers and limits, as in the header

VERSION = 3  # of the interface that this module is written for

MOST_RECORDS = 1296
MOST_RULES = 256
MOST_MOVES = 1024
MOST_SYMBOLS = 2  # in the body of an 8-byte rule
MOST_WIDE_SYMBOLS = 12  # in the body of a 16-byte rule
RECORD_BYTES = 8
WIDE_RECORD_BYTES = 16
FILE_BYTES = RECORD_BYTES * MOST_RECORDS
WIDE_BYTES = WIDE_RECORD_BYTES * MOST_RECORDS
PROCEDURES = 64
STAGES = 16
CODES = 128
FIRST_REMARK = 120  # the step codes from here on are remarks
MOST_ROWS = 4096  # of a journal
TABLE_CELLS = 45952  # that a check over lent rows works in
NEAR_WORDS = 28676  # likewise
LONGEST_RUN = 65534  # steps of a run to be judged or written
MOST_STEPS = 64  # of a run to be recognized
CELLS = 2145
LIST_BYTES = 5760

# What the check program works with: rows, joins, and bytes for a run.
PROGRAM_ROWS = 1024
PROGRAM_BUDGET = 1000000
PROGRAM_ROOM = 4096

# Answers that are no case of an enum.
_DERIVED = 112
_NOT_DERIVED = 113
_LISTED = 114
_CONVERTED = 115
_WRITTEN = 116
_STEP_RULE = 117
_STEP_MOVE = 118
_STEP_FINISHING = 119
_STEP_ENDED = 120

_ENTRY_BYTES = 3
_DETAILS = 8
_DETAILS_FROM = 9
_STEP_VALUES = 4
_NO_ROW = 65535


class Refusal(enum.IntEnum):
    """The numbers that a call refuses with.

    >>> Refusal(6).message
    'it does not exceed the record before it'
    """

    LENGTH = 1
    RECORDS = 2
    KIND = 3
    ABOVE_RANGE = 4
    UNUSED = 5
    ORDER = 6
    COUNT = 7
    JOURNAL = 8
    ROW = 9
    ROOM = 10
    RUN = 11
    REMARK = 12
    LONG_RUN = 13
    TABLE = 14
    LIST = 15
    WIDE_LENGTH = 16
    LONG_BODY = 17
    CHAINS = 18

    @property
    def message(self) -> str:
        """What is wrong, in the words of the header."""
        return _MESSAGES[self]

    @property
    def names_record(self) -> bool:
        """Whether a refusal with this number names the record at fault."""
        return Refusal.KIND <= self <= Refusal.COUNT or self == Refusal.REMARK


_MESSAGES = {
    Refusal.LENGTH: "the file's length is no multiple of 8",
    Refusal.RECORDS: "the file has more than 1,296 records",
    Refusal.KIND: "the kind is not 1, 2 or 3",
    Refusal.ABOVE_RANGE: "a used byte is above its range",
    Refusal.UNUSED: "an unused byte is not 0",
    Refusal.ORDER: "it does not exceed the record before it",
    Refusal.COUNT: "it is the 257th rule or the 1,025th move",
    Refusal.JOURNAL: "the journal has no row or more than 4,096 rows",
    Refusal.ROW: "the row is not used, or more rows are used than there are, or a row up to it is none of a check of this file",
    Refusal.ROOM: "the run has 65,535 or more steps or more than the buffer has bytes, or the output is shorter than the result",
    Refusal.RUN: "the run has more than 65,534 steps or a code above 127",
    Refusal.REMARK: "it is a move on a remark, a code of 120 or above",
    Refusal.LONG_RUN: "the run has more than 64 steps",
    Refusal.TABLE: "the table does not have 2,145 cells",
    Refusal.LIST: "the buffer for the list has fewer than 5,760 bytes",
    Refusal.WIDE_LENGTH: "the file's length is no multiple of 16",
    Refusal.LONG_BODY: "a body has more than two symbols",
    Refusal.CHAINS: "the unfolding needs procedure 64 or a 257th rule",
}


class Refused(ValueError):
    """A call refused.

    number is the Refusal; record is the number of the record at fault, from 0, or None where the refusal names none.

    >>> check(bytes([3, 0, 0, 0, 0, 0, 0, 0] * 2))
    Traceback (most recent call last):
    ...
    bolfrega.Refused: record 1: it does not exceed the record before it (6)
    """

    def __init__(self, number: Refusal, record: Optional[int] = None) -> None:
        super().__init__(number, record)
        self.number = number
        self.record = record

    def __str__(self) -> str:
        at = "" if self.record is None else "record {}: ".format(self.record)
        return "{}{} ({:d})".format(at, self.number.message, self.number)


class UnknownNumber(RuntimeError):
    """The library gave a number that this module does not know, as one of a later version might: there is no answer."""

    def __init__(self, number: int) -> None:
        super().__init__(number)
        self.number = number

    def __str__(self) -> str:
        return "an unknown number: no answer ({})".format(self.number)


# ---- answers


class Verdict(enum.Enum):
    """How a check ends; str gives the word of the check program.

    HOLDS: each starting procedure has a run, and the sheet accepts every run. BROKEN: a run is turned away. FULL: the journal had no row left.
    SPENT: the joins reached the budget. EMPTY: some starting procedure has no run, and the sheet accepts every run of the others.
    """

    HOLDS = 100
    BROKEN = 101
    FULL = 102
    SPENT = 103
    EMPTY = 104

    def __str__(self) -> str:
        return self.name.lower()

    def __bool__(self) -> bool:
        raise TypeError("a verdict is no yes or no: compare it with Verdict.HOLDS")


@dataclass(frozen=True)
class Broken:
    """The journal row at which a check was broken, and its run.

    length is that of the run, and 65,535 means that or more. run has the step codes, or is None where it has more than there was room for.
    procedure is the starting procedure whose run it is.
    """

    row: int
    pairs: int
    length: int
    run: Optional[bytes]
    procedure: int

    def __str__(self) -> str:
        run = "refused {:d}".format(Refusal.ROOM) if self.run is None else " ".join(map(str, self.run))
        return "{} {} {}\n{}".format(self.row, self.pairs, self.length, run)


@dataclass(frozen=True)
class BrokenRow:
    """The row of a Journal at which a check was broken, as in Broken; write gives its run."""

    row: int
    pairs: int
    length: int
    procedure: int

    def __str__(self) -> str:
        return "{} {} {}".format(self.row, self.pairs, self.length)


@dataclass(frozen=True)
class Answer:
    """What a check says: the verdict, the candidates formed, the journal rows used, and the pass in which it ended, from 1.

    broken is there if the verdict is BROKEN, and else None. It is a BrokenRow if it is of check_rows, and else a Broken. str gives the lines of the
    check program, the last one without its end.
    """

    verdict: Verdict
    joins: int
    used: int
    pass_: int
    broken: Union[Broken, BrokenRow, None] = None

    @property
    def holds(self) -> bool:
        """Whether the verdict is HOLDS."""
        return self.verdict is Verdict.HOLDS

    def __str__(self) -> str:
        line = "{} {} {} {}".format(self.verdict, self.joins, self.used, self.pass_)
        return line if self.broken is None else "{}\n{}".format(line, self.broken)

    def __bool__(self) -> bool:
        raise TypeError("an answer is no yes or no: ask for its verdict")


class Judgement(enum.Enum):
    """Whether a sheet accepts a run; it is true if it does."""

    ACCEPTED = 110
    TURNED_AWAY = 111

    def __str__(self) -> str:
        return self.name.lower().replace("_", " ")

    def __bool__(self) -> bool:
        return self is Judgement.ACCEPTED


@dataclass(frozen=True)
class Derivations:
    """Which procedures derive each stretch of a recorded run; it is true if procedure 0 derives the whole run.

    cells has the 2,145 words of the table: the stretches from step i up to step j with 0 <= i <= j <= 64, in rising order of i, then j.
    """

    steps: int
    cells: Tuple[int, ...]

    @property
    def derived(self) -> bool:
        """Whether procedure 0 derives the whole run."""
        return self.derives(0, 0, self.steps)

    def procedures(self, begin: int, end: int) -> int:
        """The procedures that derive the steps from begin up to end, bit p for procedure p; 0 for a stretch that is not within the run."""
        if not 0 <= begin <= end <= self.steps:
            return 0
        return self.cells[begin * (2 * MOST_STEPS + 3 - begin) // 2 + (end - begin)]

    def derives(self, procedure: int, begin: int, end: int) -> bool:
        """Whether a procedure derives the steps from begin up to end."""
        return 0 <= procedure < PROCEDURES and self.procedures(begin, end) >> procedure & 1 == 1

    def __str__(self) -> str:
        return "derived" if self.derived else "not derived"

    def __bool__(self) -> bool:
        return self.derived

    def __repr__(self) -> str:
        return "<Derivations of {} steps: {}>".format(self.steps, self)


class Gap(NamedTuple):
    """A stage and a code whose number of moves is not one: 0 for a gap, and 2 to 16 for a double."""

    stage: int
    code: int
    moves: int


class Row(NamedTuple):
    """A row of a journal.

    procedure is the one whose run it is; rule is the number of the rule, among the file's rules, that it was made by. pairs has the pairs of stages
    that the run leads from and to, rising. left and right are the rows of the rule's symbols, or None of one that is no procedure. length is that of
    the run, and 65,535 means that or more. birth is the pass in which the row was stored, from 1, and retired the one in which a smaller one took
    its place, or 0.
    """

    procedure: int
    rule: int
    pairs: Tuple[Tuple[int, int], ...]
    left: Optional[int]
    right: Optional[int]
    length: int
    birth: int
    retired: int


class Rule(NamedTuple):
    """A rule of a plan: a symbol of its body below 128 is a step code, and 128 + p is procedure p."""

    procedure: int
    body: Tuple[int, ...]


class Move(NamedTuple):
    """A move of an order sheet: from a stage, on a step code, to a stage."""

    stage: int
    code: int
    to: int


class Finishing(NamedTuple):
    """A finishing stage of an order sheet."""

    stage: int


# ---- the library

_File = [ctypes.c_char_p, ctypes.c_size_t]
_Bytes = [ctypes.POINTER(ctypes.c_uint8), ctypes.c_size_t]
_Word = ctypes.POINTER(ctypes.c_uint64)


class _Row(ctypes.Structure):
    """struct bolfrega_row."""

    _fields_ = [
        ("procedure", ctypes.c_uint64),
        ("rule", ctypes.c_uint64),
        ("effect", ctypes.c_uint64 * 4),
        ("left", ctypes.c_uint64),
        ("right", ctypes.c_uint64),
        ("length", ctypes.c_uint64),
        ("birth", ctypes.c_uint64),
        ("retired", ctypes.c_uint64),
    ]


_Rows = [ctypes.POINTER(_Row), ctypes.c_size_t]
_Cells = ctypes.POINTER(ctypes.c_uint32)

# The parameters of each function of the header, which returns a 64-bit number, unless it is one of _WITHOUT_NUMBER. A new function has a line
# here, and a call below.
_FUNCTIONS = {
    "version": [],
    "refusal": [*_File, _Word],
    "step": [*_File, ctypes.c_size_t, _Word, _Word, _Word],
    "moves": [*_File, _Word, _Word],
    "judge": [*_File, *_File, _Word],
    "recognize": [*_File, *_File, _Word, _Word, ctypes.c_size_t],
    "list": [*_File, _Word, _Word, *_Bytes],
    "widen": [*_File, _Word, _Word, *_Bytes],
    "narrow": [*_File, _Word, _Word, *_Bytes],
    "unfold": [*_File, _Word, _Word, *_Bytes],
    "unfold_from": [*_File, ctypes.c_uint64, _Word, _Word, *_Bytes],
    "check": [*_File, ctypes.c_size_t, ctypes.c_uint64, _Word, *_Bytes],
    "check_from": [*_File, ctypes.c_uint64, ctypes.c_size_t, ctypes.c_uint64, _Word, *_Bytes],
    "check_rows": [*_File, ctypes.c_uint64, ctypes.c_uint64, *_Rows, _Cells, _Word, _Word],
    "write": [*_File, *_Rows, ctypes.c_size_t, ctypes.c_size_t, _Word, _Word, *_Bytes],
}
_WITHOUT_NUMBER = {"moves"}


def _candidates() -> List[str]:
    """Where the library may be: the file that is named, or else the usual ones that are there, and what the system finds."""
    named = os.environ.get("BOLFREGA_LIB")
    if named is not None:
        return [named]
    here = os.path.dirname(os.path.abspath(__file__))
    usual = [os.path.join(here, *folder, "libbolfrega.so") for folder in ((), ("..", "lib"), ("..", "target", "shared"))]
    return [path for path in usual if os.path.exists(path)] + ["libbolfrega.so.1"]


def _load() -> ctypes.CDLL:
    """The library, with its functions declared."""
    path = _candidates()[0]
    try:
        library = ctypes.CDLL(path)
        for name, parameters in _FUNCTIONS.items():
            function = getattr(library, "bolfrega_" + name)
            function.argtypes, function.restype = parameters, None if name in _WITHOUT_NUMBER else ctypes.c_uint64
    except (OSError, AttributeError) as error:
        raise ImportError(
            "the library of bolfrega cannot be used: {}; make it with tools/shared, or let BOLFREGA_LIB name it".format(error)
        ) from error
    if library.bolfrega_version() < VERSION:
        raise ImportError("{} has version {}, and {} is needed".format(path, library.bolfrega_version(), VERSION))
    return library


try:
    _library = _load()
except ImportError as failure:
    if __name__ != "__main__":
        raise
    print("bolfrega: {}".format(failure), file=sys.stderr)
    sys.exit(2)

_Buffer = Union[bytes, bytearray, memoryview]
_Run = Union[_Buffer, Sequence[int]]


def _bytes(value: Union[_Buffer, Iterable[int]], what: str) -> bytes:
    """A file or a run as bytes. A number is none: bytes would make zeros of it."""
    if isinstance(value, bytes):
        return value
    if isinstance(value, (str, int)):
        raise TypeError("{} is bytes, and not {}".format(what, type(value).__name__))
    return bytes(value)


def _number(value: int, what: str) -> int:
    """A number that the library can take. One that does not fit into 64 bits would come to it as another."""
    if isinstance(value, bool) or not isinstance(value, int):
        raise TypeError("{} is a number, and not {}".format(what, type(value).__name__))
    if not 0 <= value < 1 << 64:
        raise ValueError("{} is {}, which is not 0 to 2**64 - 1".format(what, value))
    return value


def _room(value: int) -> "ctypes.Array[ctypes.c_uint8]":
    """A buffer of this many bytes; more than the longest run are never used."""
    return (ctypes.c_uint8 * min(_number(value, "room"), LONGEST_RUN))()


def _set(starts: Iterable[int]) -> int:
    """A set of procedures as a word, bit p for procedure p."""
    word = 0
    for procedure in starts:
        if isinstance(procedure, bool) or not isinstance(procedure, int) or not 0 <= procedure < PROCEDURES:
            raise ValueError("{!r} is no procedure: they are 0 to 63".format(procedure))
        word |= 1 << procedure
    return word


def _refused(number: int, record: int) -> Exception:
    """What is raised for a number that is no answer of the call that gave it."""
    try:
        refusal_ = Refusal(number)
    except ValueError:
        return UnknownNumber(number)
    return Refused(refusal_, record if refusal_.names_record else None)


# ---- the calls


def version() -> int:
    """The version of the library's interface, VERSION or above.

    >>> version() >= VERSION
    True
    """
    return _library.bolfrega_version()


def refusal(file: _Buffer) -> Optional[Refused]:
    """Reads a file. What refuses it, as an exception that is not raised; None if nothing does.

    >>> refusal(b"") is None
    True
    >>> found = refusal(bytes([1, 64, 0, 0, 0, 0, 0, 0]))
    >>> found.number, found.record
    (<Refusal.ABOVE_RANGE: 4>, 0)
    """
    file, record = _bytes(file, "a file"), ctypes.c_uint64()
    number = _library.bolfrega_refusal(file, len(file), record)
    if number == 0:
        return None
    found = _refused(number, record.value)
    if isinstance(found, Refused):
        return found
    raise found


def step(file: _Buffer, place: int) -> Union[Rule, Move, Finishing, None]:
    """Reads the record at a place of a file, from 0; None past the last one. The records before it are not checked again.

    >>> file = bytes([1, 0, 2, 129, 3, 0, 0, 0, 3, 2, 0, 0, 0, 0, 0, 0])
    >>> step(file, 0), step(file, 1), step(file, 2)
    (Rule(procedure=0, body=(129, 3)), Finishing(stage=2), None)
    """
    file, record, next_ = _bytes(file, "a file"), ctypes.c_uint64(), ctypes.c_uint64()
    values = (ctypes.c_uint64 * _STEP_VALUES)()
    number = _library.bolfrega_step(file, len(file), _number(place, "place"), record, values, next_)
    if number == _STEP_RULE:
        return Rule(values[0], tuple(values[2 : 2 + values[1]]))
    if number == _STEP_MOVE:
        return Move(*values[:3])
    if number == _STEP_FINISHING:
        return Finishing(values[0])
    if number == _STEP_ENDED:
        return None
    raise _refused(number, record.value)


def moves(file: _Buffer) -> bytes:
    """The bytes of a file that are its moves; none if the file is refused.

    >>> moves(bytes([2, 0, 1, 1, 0, 0, 0, 0, 3, 1, 0, 0, 0, 0, 0, 0])).hex()
    '0200010100000000'
    """
    file, offset, length = _bytes(file, "a file"), ctypes.c_uint64(), ctypes.c_uint64()
    _library.bolfrega_moves(file, len(file), offset, length)
    return file[offset.value : offset.value + length.value]


def judge(file: _Buffer, run: _Run) -> Judgement:
    """Judges a run by the order sheet in a file.

    >>> file = bytes([2, 0, 5, 1, 0, 0, 0, 0, 3, 1, 0, 0, 0, 0, 0, 0])  # on code 5 to stage 1, which is finishing
    >>> judge(file, [5]), judge(file, [5, 5])
    (<Judgement.ACCEPTED: 110>, <Judgement.TURNED_AWAY: 111>)
    >>> judge(file, [128])
    Traceback (most recent call last):
    ...
    bolfrega.Refused: the run has more than 65,534 steps or a code above 127 (11)
    """
    file, run, record = _bytes(file, "a file"), _bytes(run, "a run"), ctypes.c_uint64()
    number = _library.bolfrega_judge(file, len(file), run, len(run), record)
    try:
        return Judgement(number)
    except ValueError:
        raise _refused(number, record.value) from None


def recognize(file: _Buffer, run: _Run) -> Derivations:
    """Says which procedures derive each stretch of a recorded run of at most 64 steps.

    >>> file = bytes([1, 0, 2, 129, 3, 0, 0, 0, 1, 1, 1, 1, 0, 0, 0, 0])  # 0 gives (procedure 1) 3, and 1 gives 1
    >>> found = recognize(file, [1, 3])
    >>> found.derived, found.derives(1, 0, 1), found.derives(0, 0, 1)
    (True, True, False)
    >>> recognize(file, [3])
    <Derivations of 1 steps: not derived>
    """
    file, run, record = _bytes(file, "a file"), _bytes(run, "a run"), ctypes.c_uint64()
    table = (ctypes.c_uint64 * CELLS)()
    number = _library.bolfrega_recognize(file, len(file), run, len(run), record, table, CELLS)
    if number not in (_DERIVED, _NOT_DERIVED):
        raise _refused(number, record.value)
    return Derivations(len(run), tuple(table))


def gaps(file: _Buffer) -> List[Gap]:
    """Lists the gaps and doubles of the order sheet in a file: stages rise, then codes.

    >>> gaps(bytes([2, 0, 1, 0, 0, 0, 0, 0, 2, 0, 1, 1, 0, 0, 0, 0]))  # two moves from stage 0 on code 1, and none from stage 1
    [Gap(stage=0, code=1, moves=2), Gap(stage=1, code=1, moves=0)]
    """
    file, record, entries = _bytes(file, "a file"), ctypes.c_uint64(), ctypes.c_uint64()
    room = (ctypes.c_uint8 * LIST_BYTES)()
    number = _library.bolfrega_list(file, len(file), record, entries, room, LIST_BYTES)
    if number != _LISTED:
        raise _refused(number, record.value)
    return [Gap(*room[at : at + _ENTRY_BYTES]) for at in range(0, _ENTRY_BYTES * entries.value, _ENTRY_BYTES)]


def _converted(name: str, file: _Buffer, most: int, *starts: int) -> bytes:
    """What one of the conversions makes of a file, for which an output of most bytes always suffices."""
    file, record, length = _bytes(file, "a file"), ctypes.c_uint64(), ctypes.c_uint64()
    out = (ctypes.c_uint8 * most)()
    number = getattr(_library, "bolfrega_" + name)(file, len(file), *starts, record, length, out, most)
    if number != _CONVERTED:
        raise _refused(number, record.value)
    return ctypes.string_at(out, length.value)


def widen(file: _Buffer) -> bytes:
    """Moves a file of 8-byte records over to 16 bytes.

    >>> widen(bytes([3, 0, 0, 0, 0, 0, 0, 0])).hex()
    '03000000000000000000000000000000'
    """
    return _converted("widen", file, WIDE_BYTES)


def narrow(file: _Buffer) -> bytes:
    """Moves a file of 16-byte records back to 8 bytes. No body may have more than two symbols.

    >>> narrow(widen(bytes([3, 0, 0, 0, 0, 0, 0, 0]))).hex()
    '0300000000000000'
    """
    return _converted("narrow", file, FILE_BYTES)


def unfold(file: _Buffer) -> bytes:
    """Unfolds a file of 16-byte records to one of 8 bytes, which every other call takes.

    >>> unfold(bytes([1, 0, 3, 5, 6, 7] + 10 * [0])).hex(" ", 8)  # 0 gives 5 6 7: now 0 gives 5 (procedure 1), and 1 gives 6 7
    '0100020581000000 0101020607000000'
    """
    return _converted("unfold", file, FILE_BYTES)


def unfold_from(file: _Buffer, starts: Iterable[int]) -> bytes:
    """Unfolds a file as unfold does, for a check from the procedures of starts: none of them becomes a chain procedure.

    >>> unfold_from(bytes([1, 0, 3, 5, 6, 7] + 10 * [0]), [0, 1]).hex(" ", 8)
    '0100020582000000 0102020607000000'
    """
    return _converted("unfold_from", file, FILE_BYTES, _set(starts))


def check(file: _Buffer, rows: int = PROGRAM_ROWS, budget: int = PROGRAM_BUDGET, room: int = PROGRAM_ROOM) -> Answer:
    """Checks a file's plan, the runs of procedure 0, against its order sheet.

    rows is the number of rows of the journal, 1 to 4,096; budget is the most joins; room is the most steps of a run that is shown. They are those
    of the check program unless given.

    >>> print(check(bytes([1, 0, 0, 0, 0, 0, 0, 0, 3, 0, 0, 0, 0, 0, 0, 0])))  # 0 gives nothing, and stage 0 is finishing
    holds 2 1 2
    >>> print(check(b""))
    empty 0 0 1
    """
    file, details, run = _bytes(file, "a file"), (ctypes.c_uint64 * _DETAILS)(), _room(room)
    number = _library.bolfrega_check(file, len(file), _number(rows, "rows"), _number(budget, "budget"), details, run, len(run))
    return _answer(number, [*details, 0], run)


def check_from(
    file: _Buffer, starts: Iterable[int], rows: int = PROGRAM_ROWS, budget: int = PROGRAM_BUDGET, room: int = PROGRAM_ROOM
) -> Answer:
    """Checks a file's plan as check does, for the runs of every procedure of starts.

    >>> file = bytes([1, 3, 1, 5, 0, 0, 0, 0])  # 3 gives 5, and no stage is finishing
    >>> check_from(file, [0, 3]).broken
    Broken(row=0, pairs=0, length=1, run=b'\\x05', procedure=3)
    >>> check_from(file, [0]).verdict
    <Verdict.EMPTY: 104>
    """
    file, details, run = _bytes(file, "a file"), (ctypes.c_uint64 * _DETAILS_FROM)(), _room(room)
    number = _library.bolfrega_check_from(
        file, len(file), _set(starts), _number(rows, "rows"), _number(budget, "budget"), details, run, len(run)
    )
    return _answer(number, list(details), run)


class Journal:
    """Rows for check_rows, and what it works in. One may be used for file after file, by one thread at a time.

    rows is the number of its rows, 1 to 4,096. used is the number of rows that the last check used which was not refused.
    """

    def __init__(self, rows: int = PROGRAM_ROWS) -> None:
        if not 1 <= _number(rows, "rows") <= MOST_ROWS:
            raise Refused(Refusal.JOURNAL)
        self._rows = (_Row * rows)()
        self._cells = (ctypes.c_uint32 * TABLE_CELLS)()
        self._near = (ctypes.c_uint64 * NEAR_WORDS)()
        self.used = 0

    def __len__(self) -> int:
        return self.used

    def __getitem__(self, at: int) -> Row:
        """The row with this number, from 0; of the used ones alone."""
        if not 0 <= at < self.used:
            raise IndexError("row {} of {}".format(at, self.used))
        row = self._rows[at]
        pairs = tuple((a, b) for a in range(STAGES) for b in range(STAGES) if row.effect[a // 4] >> 16 * (a % 4) + b & 1)
        left, right = (None if other == _NO_ROW else other for other in (row.left, row.right))
        return Row(row.procedure, row.rule, pairs, left, right, row.length, row.birth, row.retired)


def check_rows(file: _Buffer, starts: Iterable[int], journal: Journal, budget: int = PROGRAM_BUDGET) -> Answer:
    """Checks a file's plan as check_from does, over the rows of a journal, which can be looked at afterwards. No run is written: write does that.

    The first rows become those of the check; all others keep their contents, and so do all of them if the call is refused.

    >>> file, journal = bytes([1, 3, 2, 5, 5, 0, 0, 0]), Journal()  # 3 gives 5 5, and no stage is finishing
    >>> check_rows(file, [3], journal).broken
    BrokenRow(row=0, pairs=0, length=2, procedure=3)
    >>> list(journal)
    [Row(procedure=3, rule=0, pairs=(), left=None, right=None, length=2, birth=1, retired=0)]
    >>> write(file, journal, 0)
    b'\\x05\\x05'
    """
    file, details = _bytes(file, "a file"), (ctypes.c_uint64 * _DETAILS_FROM)()
    number = _library.bolfrega_check_rows(
        file, len(file), _set(starts), _number(budget, "budget"), journal._rows, len(journal._rows), journal._cells, journal._near, details
    )
    answer = _answer(number, list(details), None)
    journal.used = answer.used
    return answer


def write(file: _Buffer, journal: Journal, row: int, room: int = LONGEST_RUN) -> bytes:
    """The run behind a row of a journal, if it has at most as many steps as room. The file is the one that was checked.

    It takes up to 578 KiB of stack.

    >>> write(b"", Journal(), 0)
    Traceback (most recent call last):
    ...
    bolfrega.Refused: the row is not used, or more rows are used than there are, or a row up to it is none of a check of this file (9)
    """
    file, record, length, run = _bytes(file, "a file"), ctypes.c_uint64(), ctypes.c_uint64(), _room(room)
    number = _library.bolfrega_write(
        file, len(file), journal._rows, len(journal._rows), journal.used, _number(row, "row"), record, length, run, len(run)
    )
    if number != _WRITTEN:
        raise _refused(number, record.value)
    return ctypes.string_at(run, length.value)


def _answer(number: int, details: List[int], buffer: "Optional[ctypes.Array[ctypes.c_uint8]]") -> Answer:
    """The answer with a number and nine details that the library gave, and its buffer if it had one; raises the refusal."""
    record, joins, used, pass_, row, pairs, length, unwritten, procedure = details
    try:
        verdict = Verdict(number)
    except ValueError:
        raise _refused(number, record) from None
    if verdict is not Verdict.BROKEN:
        return Answer(verdict, joins, used, pass_)
    if buffer is None:
        return Answer(verdict, joins, used, pass_, BrokenRow(row, pairs, length, procedure))
    run = None if unwritten else ctypes.string_at(buffer, length)
    return Answer(verdict, joins, used, pass_, Broken(row, pairs, length, run, procedure))


# ---- the program

_STATUS = {Verdict.HOLDS: 0, Verdict.BROKEN: 1, Verdict.FULL: 4, Verdict.SPENT: 4, Verdict.EMPTY: 5}


def _main(words: List[str]) -> int:
    """Checks the file that is named, prints the answer, and gives the exit status."""
    if len(words) != 1:
        print("usage: bolfrega.py FILE     (- for standard input)", file=sys.stderr)
        return 2
    try:
        if words[0] == "-":
            file = sys.stdin.buffer.read()
        else:
            with open(words[0], "rb") as stream:
                file = stream.read()
    except (OSError, AttributeError) as error:
        print("bolfrega: {}: {}".format(words[0], error), file=sys.stderr)
        return 2
    try:
        answer = check(file)
        text, status = str(answer), _STATUS[answer.verdict]
    except Refused as refused:
        print("bolfrega: {}".format(refused), file=sys.stderr)
        text, status = "refused {:d}".format(refused.number), 3
    except UnknownNumber as unknown:
        print("bolfrega: {}".format(unknown), file=sys.stderr)
        return 2
    try:
        _write((text + "\n").encode())
    except OSError as error:
        print("bolfrega: standard output: {}".format(error), file=sys.stderr)
        return 2
    return status


def _write(text: bytes) -> None:
    """Writes to standard output by its number, so that nothing is left for the end, where a failure would be another status."""
    while text:
        text = text[os.write(1, text) :]


if __name__ == "__main__":
    sys.exit(_main(sys.argv[1:]))
