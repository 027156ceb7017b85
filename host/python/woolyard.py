"""Woolyard from Python: compressibility roots and densities of parahydrogen, oxygen and nitrogen, hydrogen's ideal heat
capacity, the excess viscosity factor of dense gas, and state sheets.

The answers are those of a shared object made of libwoolyard.a, whose functions are proved to answer what include/woolyard.h
says of them:

    cc -shared -Wl,--whole-archive libwoolyard.a -Wl,--no-whole-archive -o libwoolyard.so

What ctypes alone would misread is refused here before it gets there: a whole number that is not from 0 to 2**64 - 1 is a
ValueError, and what is no whole number, or no bytes, a TypeError.

    >>> import woolyard
    >>> from woolyard import Fluid, Side
    >>> library = woolyard.Woolyard(path)
    >>> library.state(Fluid.OXYGEN, 120_000, 500_000)
    Answer(kind=<Kind.SPLIT: 2>, gas_root=92696, dense_root=1699, gas_density=17299, dense_density=943832)
    >>> library.side(Fluid.OXYGEN, 120_000, 500_000, Side.DENSE).density
    943832

A question that the library refuses raises the refusal, with its number and its meaning; `reply` returns it:

    >>> library.state(Fluid.OXYGEN, 55_999, 500_000)
    Traceback (most recent call last):
    woolyard.Refused: 21: temperature below the fluid's range
    >>> woolyard.reply(library.state, Fluid.OXYGEN, 55_999, 500_000).number
    21

A sheet is bytes, and its states are walked over in one pass:

    >>> [library.state(*state).gas_root for state in library.states(b"1\\n300000 1000000\\n1\\n120000 500000\\n0\\n")]
    [100474, 92696]
    >>> library.sheet(b"0\\n1\\n120000  500000\\n0\\n")
    Traceback (most recent call last):
    woolyard.RefusedSheet: 6: sheet badly formed, at byte 4: b'120000  500000'
"""
from __future__ import annotations

import ctypes
import enum
import numbers
import operator
import os
import reprlib
from ctypes import POINTER, byref, c_char, c_char_p, c_double, c_size_t, c_uint8, c_uint64
from typing import (
    TYPE_CHECKING, Any, Callable, ClassVar, Dict, Iterable, Iterator, List, NamedTuple, Optional, Sequence, SupportsIndex,
    Tuple, TypeVar, Union,
)

if TYPE_CHECKING:
    from typing_extensions import ParamSpec

    Asked = ParamSpec("Asked")

__all__ = [
    "ABI", "BOOK_BYTES", "BOOK_SLOTS", "SCALING_LEAST", "SCALING_MOST", "SCALING_NONE", "SECTION_MOST_STATES",
    "SHEET_MOST_BYTES", "WALK_ENOUGH", "Answer", "Band", "Book", "Claim", "Fluid", "Kind", "Line", "OtherAbi", "Parts",
    "Reached", "Refusal", "Refused", "RefusedClaim", "RefusedSheet", "Report", "Reporting", "SectionReport", "Side",
    "SideAnswer", "State", "Walk", "Woolyard", "reply",
]

Told = TypeVar("Told")

Whole = SupportsIndex
"""An int, or what `operator.index` makes one of, from 0 to 2**64 - 1. A bool is none."""

Data = Union[bytes, bytearray, memoryview]

ABI = 1
"""What this module is written for; a shared object says its own."""

BOOK_BYTES = 192
BOOK_SLOTS = 64
SHEET_MOST_BYTES = 65_536
SECTION_MOST_STATES = 1000

WALK_ENOUGH = 100_001
"""A limit with which no walk is cut short."""

# In thousandths: the ends of a scaling's range, and the one that changes nothing.
SCALING_LEAST = 500
SCALING_MOST = 1500
SCALING_NONE = 1000

_ANSWERED = 0
_LARGEST = 2**64 - 1
_SLOT_BYTES = BOOK_BYTES // BOOK_SLOTS

# How many numbers the header's arrays have.
_CURSOR, _PARTS, _REPORT, _REPORTING, _LINE = 3, 8, 33, 44, 9


class Fluid(enum.IntEnum):
    PARAHYDROGEN = 0
    OXYGEN = 1
    NITROGEN = 2


class Side(enum.IntEnum):
    GAS = 0
    DENSE = 1


class Kind(enum.IntEnum):
    """Of an answered state: its two roots are equal, or they differ. A refused state has none."""

    ONE = 1
    SPLIT = 2


class Refusal(enum.IntEnum):
    """The refusals by the header's names, each with its number and its meaning. The header has two names for 8 and three for
    16, which are one here."""

    meaning: str

    def __new__(cls, number: int, meaning: str) -> Refusal:
        refusal = int.__new__(cls, number)
        refusal._value_ = number
        refusal.meaning = meaning
        return refusal

    NO_SUCH_FLUID = 1, "fluid is above 2"
    NO_SUCH_SLOT = 4, "book not of 192 bytes, or slot above 63"
    HEAT_OUT_OF_RANGE = 5, "heat-capacity temperature not a number in 14 to 1000 K"
    SHEET_MALFORMED = 6, "sheet badly formed"
    SHEET_TOO_LONG = 7, "sheet longer than 65,536 bytes"
    LISTS_UNFIT = 8, "lists of unequal lengths, or one of more than 1000 numbers for a sheet"
    LENGTHS_DIFFER = LISTS_UNFIT
    TOO_MANY_DIGITS = 9, "a number of more than ten digits for a sheet"
    NO_ROOM = 10, "the sheet to be written is longer than 65,536 bytes"
    WALK_CUT_SHORT = 11, "the limit of values is below what the walk needs"
    NO_SUCH_SIDE = 12, "side is neither 0 nor 1"
    SCALING_OUT_OF_RANGE = 13, "a scaling below 500 or above 1500 thousandths, or the lower one not first"
    ROOT_DIFFERS = 14, "the root that is claimed is not the side's"
    DENSITY_OUT_OF_RANGE = 15, "reduced density below 100 or above 3000 thousandths"
    NO_SUCH_LINE = 16, "no state line of the number asked for"
    NO_MORE_LINES = NO_SUCH_LINE
    PART_USED_UP = NO_SUCH_LINE
    TEMPERATURE_TOO_LOW = 21, "temperature below the fluid's range"
    TEMPERATURE_TOO_HIGH = 22, "temperature above the fluid's range"
    PRESSURE_TOO_LOW = 31, "pressure below the range"
    PRESSURE_TOO_HIGH = 32, "pressure above the range"


_REFUSALS: Dict[int, Refusal] = {int(refusal): refusal for refusal in Refusal}


class Refused(Exception):
    """What the library refused a question with. Two are equal where they tell the same."""

    def __init__(self, number: int, *told: object) -> None:
        super().__init__(int(number), *told)
        self.number = int(number)

    @property
    def refusal(self) -> Optional[Refusal]:
        """None for a number that the header does not have."""
        return _REFUSALS.get(self.number)

    @property
    def meaning(self) -> str:
        return "the number of no refusal" if self.refusal is None else self.refusal.meaning

    def __str__(self) -> str:
        return f"{self.number}: {self.meaning}"

    def __eq__(self, other: object) -> bool:
        return isinstance(other, Refused) and (type(self), self.args) == (type(other), other.args)

    def __hash__(self) -> int:
        return hash((type(self), self.args))


class RefusedSheet(Refused):
    """A sheet is refused, by 6 or by 7."""

    def __init__(self, number: int, place: Optional[int] = None, line: Optional[bytes] = None) -> None:
        super().__init__(number, place, line)
        self.place = place
        """The first byte of the first line that can't stand there. None for a sheet that is too long."""
        self.line = line
        """That line, the very bytes of the sheet, without byte 10; empty if it is missing. None for a sheet that is too
        long, and for one in parts, whose bytes are not kept."""

    def __str__(self) -> str:
        place = "" if self.place is None else f", at byte {self.place}"
        line = "" if self.line is None else f": {reprlib.repr(self.line)}"
        return super().__str__() + place + line


class RefusedClaim(Refused):
    """The first claim of a list that does not stand."""

    def __init__(self, number: int, claim: int) -> None:
        super().__init__(number, claim)
        self.claim = claim
        """Its number in the list, from 0."""

    def __str__(self) -> str:
        return f"claim {self.claim}: {super().__str__()}"


class OtherAbi(OSError):
    """The shared object is not the one that this module is written for."""


def reply(call: Callable[Asked, Told], *arguments: Asked.args, **named: Asked.kwargs) -> Union[Told, Refused]:
    """What the call answers, or the refusal that it raises: `reply(library.state, Fluid.OXYGEN, 55_999, 500_000)`. An
    iterator raises where it is walked over, so there the walk is the call: `reply(list, library.states(sheet))`."""
    try:
        return call(*arguments, **named)
    except Refused as refused:
        # as an answer it has no need of the frames that it came through, and would keep them
        return refused.with_traceback(None)


class Answer(NamedTuple):
    """The figures of an answered state: roots in hundred-thousandths, densities in grams per cubic metre, rounded down."""

    kind: Kind
    gas_root: int
    dense_root: int
    gas_density: int
    dense_density: int

    def __str__(self) -> str:
        """As the program `sheet` prints it: the dense side too where there is one."""
        gas = f"{self.kind.name} {self.gas_root} {self.gas_density}"
        return gas if self.kind is Kind.ONE else f"{gas} {self.dense_root} {self.dense_density}"


class SideAnswer(NamedTuple):
    """The figures of one side of an answered state, as an `Answer` has them."""

    root: int
    density: int


class Walk(NamedTuple):
    gas_root: int
    values: int
    """How many values of the cubic were worked out."""


class Band(NamedTuple):
    """The gas roots at the two scalings: `lower_root` is the larger one, or they are equal."""

    lower_root: int
    upper_root: int


class State(NamedTuple):
    """A state line as written or as it is to be written, in range or not."""

    fluid: int
    millikelvin: int
    pascals: int


class Claim(NamedTuple):
    """That a root is that of a state's side."""

    fluid: int
    millikelvin: int
    pascals: int
    side: int
    root: int


class Line(NamedTuple):
    """A state line of a sheet in parts as written, and the reply to its state."""

    fluid: int
    millikelvin: int
    pascals: int
    reply: Union[Answer, Refused]


class Reached(NamedTuple):
    """A gas density that no other of its section is below, or above."""

    density: int
    line: int
    """Of the first state that reaches it, counted from 1 through the whole sheet, count lines included."""


class SectionReport(NamedTuple):
    """What the states of one fluid come to. The six counts together are the section's count."""

    one: int
    split: int
    temperature_too_low: int
    temperature_too_high: int
    pressure_too_low: int
    pressure_too_high: int
    sum: int
    """Of the gas densities of the answered states, exact."""
    smallest: Optional[Reached]
    """Of the same densities. None where no state was answered, as for the largest."""
    largest: Optional[Reached]

    @property
    def refused(self) -> int:
        return self.temperature_too_low + self.temperature_too_high + self.pressure_too_low + self.pressure_too_high

    @property
    def states(self) -> int:
        return self.one + self.split + self.refused


class Report(NamedTuple):
    """One page about a whole sheet. A fluid is also its section's index: `report[Fluid.OXYGEN]`."""

    parahydrogen: SectionReport
    oxygen: SectionReport
    nitrogen: SectionReport


def _whole(name: str, value: Whole) -> int:
    """The value as a number that 64 bits hold, since ctypes would take any int and keep its lowest 64."""
    if isinstance(value, bool) or not hasattr(type(value), "__index__"):
        raise TypeError(f"{name} is a whole number, not {reprlib.repr(value)}")
    number = operator.index(value)
    if not 0 <= number <= _LARGEST:
        # Python writes no number of thousands of digits
        told = number if number.bit_length() < 1000 else f"one of {number.bit_length()} bits"
        raise ValueError(f"{name} is from 0 to 2**64 - 1, not {told}")
    return number


def _wholes(**named: Whole) -> List[int]:
    return [_whole(name, value) for name, value in named.items()]


def _real(name: str, value: float) -> float:
    """A string that float() would read is no number here, and neither is a bool."""
    if isinstance(value, bool) or not isinstance(value, numbers.Real):
        raise TypeError(f"{name} is a real number, not {reprlib.repr(value)}")
    try:
        return float(value)
    except OverflowError:
        raise ValueError(f"{name} is a number that a double holds") from None


def _bytes(name: str, data: Data) -> bytes:
    """The data as bytes that nobody changes and whose length is their own: a class made of bytes may tell another."""
    if type(data) is bytes:
        return data
    if isinstance(data, str):
        raise TypeError(f"{name} is bytes, not str: encode it")
    if not isinstance(data, (bytes, bytearray, memoryview)):
        raise TypeError(f"{name} is bytes, a bytearray or a memoryview, not {reprlib.repr(data)}")
    view = memoryview(data)
    if view.itemsize != 1:
        raise TypeError(f"{name} is a memoryview of bytes, not of format {view.format!r}")
    return view.tobytes()


def _rows(fields: Sequence[str], rows: Iterable[Iterable[Whole]]) -> List[List[int]]:
    """The rows with each number checked under its field's name."""
    checked = []
    for place, row in enumerate(rows):
        values = tuple(row)
        if len(values) != len(fields):
            raise ValueError(f"row {place} has {len(values)} numbers, not {len(fields)}: {', '.join(fields)}")
        checked.append([_whole(f"{field} of row {place}", value) for field, value in zip(fields, values)])
    return checked


def _check(number: int) -> None:
    if number != _ANSWERED:
        raise Refused(number)


def _check_sheet(number: int, place: int, line: Optional[bytes] = None) -> None:
    if number == Refusal.SHEET_MALFORMED:
        raise RefusedSheet(number, place, line)
    if number == Refusal.SHEET_TOO_LONG:
        raise RefusedSheet(number)
    _check(number)


def _fluid(number: int) -> int:
    """By its name where it has one. Numbers that no sheet has left may tell of a section that no sheet has."""
    return Fluid(number) if number < len(Fluid) else number


def _state(told: Sequence[int]) -> State:
    fluid, millikelvin, pascals = told
    return State(_fluid(fluid), millikelvin, pascals)


def _answer(figures: Sequence[int]) -> Answer:
    kind, *roots_and_densities = figures
    return Answer._make([Kind(kind), *roots_and_densities])


def _line(told: Sequence[int]) -> Line:
    number, figures = told[3], told[4:]
    replied: Union[Answer, Refused] = _answer(figures) if number == _ANSWERED else Refused(number)
    return Line(*_state(told[:3]), replied)


def _report(told: Sequence[int]) -> Report:
    each = len(told) // len(Fluid)
    return Report._make(_section_report(told[each * fluid : each * (fluid + 1)]) for fluid in Fluid)


def _section_report(told: Sequence[int]) -> SectionReport:
    *counts_and_sum, smallest, its_line, largest, line_of_largest = told
    reached: List[Optional[Reached]] = [None, None]
    one, split = counts_and_sum[:2]
    if one + split > 0:
        reached = [Reached(smallest, its_line), Reached(largest, line_of_largest)]
    return SectionReport._make([*counts_and_sum, *reached])


def _array(values: Sequence[int]) -> ctypes.Array[c_uint64]:
    return (c_uint64 * len(values))(*values)


def _written(array: ctypes.Array[c_uint64]) -> List[int]:
    """What a call wrote there."""
    return list(array)


_STATE = [c_uint64] * 3
_LENT_BOOK = [c_uint64, c_uint8 * BOOK_BYTES, c_size_t]
_LENT_BYTES = [c_char_p, c_size_t]
_LENT_LIST = [POINTER(c_uint64), c_size_t]

# The types of each function's parameters, as the header has them. Each answers a uint64_t.
_PARAMETERS: Dict[str, List[Any]] = {
    "abi": [],
    "state": [*_STATE, c_uint64 * 5],
    "state_with_book": [*_STATE, *_LENT_BOOK, c_uint64 * 5],
    "side": [*_STATE, c_uint64, c_uint64 * 2],
    "side_with_book": [*_STATE, c_uint64, *_LENT_BOOK, c_uint64 * 2],
    "walk": [*_STATE, c_uint64, c_uint64 * 2],
    "band": [*_STATE, c_uint64, c_uint64, c_uint64 * 2],
    "claims": [*_LENT_LIST * 5, c_uint64 * 1],
    "heat": [c_double, c_double * 1],
    "heat_table": [c_uint64, c_uint64 * 1],
    "viscosity": [c_uint64, c_uint64 * 1],
    "sheet": [*_LENT_BYTES, c_uint64 * 3],
    "sheet_line": [*_LENT_BYTES, c_uint64, c_uint64 * 3],
    "sheet_next": [*_LENT_BYTES, c_uint64 * _CURSOR, c_uint64 * 3],
    "parts_take": [c_uint64 * _PARTS, *_LENT_BYTES, c_uint64 * 1, c_uint64 * _LINE],
    "parts_end": [c_uint64 * _PARTS, c_uint64 * 2],
    "report": [*_LENT_BYTES, c_uint64 * _REPORT, c_uint64 * 1],
    "report_take": [c_uint64 * _REPORTING, *_LENT_BYTES],
    "report_end": [c_uint64 * _REPORTING, c_uint64 * _REPORT, c_uint64 * 1],
    "write_sheet": [*_LENT_LIST * 6, c_char * SHEET_MOST_BYTES, c_size_t, c_uint64 * 1],
}


def _functions(path: str) -> Dict[str, Callable[..., int]]:
    """All functions of the shared object. Its ABI is asked first, as it says whether the others are what they are taken for."""
    shared = ctypes.CDLL(path)
    abi = _function(path, shared, "abi")()
    if abi != ABI:
        raise OtherAbi(f"{path} has ABI {abi}, and this module is for ABI {ABI}")
    return {name: _function(path, shared, name) for name in _PARAMETERS}


def _function(path: str, shared: ctypes.CDLL, name: str) -> Callable[..., int]:
    try:
        function = getattr(shared, f"woolyard_{name}")
    except AttributeError:
        raise OtherAbi(f"{path} has no woolyard_{name}, and this module is for ABI {ABI}") from None
    function.argtypes = _PARAMETERS[name]
    function.restype = c_uint64
    asked: Callable[..., int] = function
    return asked


class Book:
    """Starting points for `Woolyard.state` and `Woolyard.side`: 64 slots of three bytes, the lowest first, holding anything
    at all. An answered call writes the gas root into its slot. What a book holds changes how long an answer takes, never what
    it is.

        >>> book = Book()
        >>> library.state(Fluid.OXYGEN, 120_000, 500_000, book=book, slot=5).gas_density
        17299
        >>> book
        <Book {5: 92696}>
        >>> Book(bytes(book)) == book
        True
    """

    def __init__(self, content: Data = bytes(BOOK_BYTES)) -> None:
        data = _bytes("content", content)
        if len(data) != BOOK_BYTES:
            raise ValueError(f"a book has {BOOK_BYTES} bytes, not {len(data)}")
        self._lent = (c_uint8 * BOOK_BYTES).from_buffer_copy(data)

    def __bytes__(self) -> bytes:
        return bytes(self._lent)

    def __getitem__(self, slot: Whole) -> int:
        """The number that the slot holds."""
        place = _SLOT_BYTES * _whole("slot", slot)
        if place >= BOOK_BYTES:
            raise IndexError(f"slot is from 0 to {BOOK_SLOTS - 1}, not {slot}")
        return int.from_bytes(bytes(self)[place : place + _SLOT_BYTES], "little")

    def __iter__(self) -> Iterator[int]:
        return (self[slot] for slot in range(BOOK_SLOTS))

    def __eq__(self, other: object) -> bool:
        if not isinstance(other, Book):
            return NotImplemented
        return bytes(self) == bytes(other)

    def __repr__(self) -> str:
        held = {slot: number for slot, number in enumerate(self) if number != 0}
        return f"<Book {held}>"

    def __reduce__(self) -> Tuple[Callable[[bytes], Book], Tuple[bytes]]:
        # a copy has bytes of its own
        return Book, (bytes(self),)


def _lent(book: Optional[Book], slot: Optional[Whole]) -> List[Any]:
    """What a call with a book takes for it; nothing where neither is given."""
    if book is None and slot is None:
        return []
    if not isinstance(book, Book):
        raise TypeError(f"book is a Book where a slot is given, not {reprlib.repr(book)}")
    if slot is None:
        raise TypeError("slot is missing where a book is given")
    return [_whole("slot", slot), book._lent, BOOK_BYTES]


class Woolyard:
    """The library. No function keeps anything of what it is given, so several threads may call at the same time.

    A fluid, a side or any other whole number may be one that the library refuses; a refusal is raised, as a `Refused`."""

    def __init__(self, path: Union[str, os.PathLike[str]]) -> None:
        """Loads the shared object of this path; one of another ABI is an `OtherAbi`, and one that can't be loaded another
        OSError."""
        # dlopen would look for a bare name in the system's folders
        self._functions = _functions(os.path.abspath(path))

    def _call(self, name: str, *arguments: Any) -> int:
        return self._functions[name](*arguments)

    def _figures(self, name: str, count: int, *arguments: Any) -> List[int]:
        """What a function writes to its last parameter, where it answers."""
        figures = (c_uint64 * count)()
        _check(self._call(name, *arguments, figures))
        return _written(figures)

    def _figures_with(self, lent: List[Any], name: str, count: int, *arguments: Any) -> List[int]:
        """The same of a function that has a form with a book."""
        return self._figures(f"{name}_with_book" if lent else name, count, *arguments, *lent)

    def state(
        self, fluid: Whole, millikelvin: Whole, pascals: Whole, *, book: Optional[Book] = None, slot: Optional[Whole] = None
    ) -> Answer:
        """The roots and densities of a state. Refusals: 1, 21, 22, 31, 32, and with a book 4."""
        question = _wholes(fluid=fluid, millikelvin=millikelvin, pascals=pascals)
        return _answer(self._figures_with(_lent(book, slot), "state", 5, *question))

    def side(
        self, fluid: Whole, millikelvin: Whole, pascals: Whole, side: Whole, *, book: Optional[Book] = None,
        slot: Optional[Whole] = None,
    ) -> SideAnswer:
        """The root and density of one side of a state; both sides of a ONE state have the same. Whichever side is named, a book
        gets the gas root. Refusals: 1, 21, 22, 31, 32, 12, and with a book 4."""
        question = _wholes(fluid=fluid, millikelvin=millikelvin, pascals=pascals, side=side)
        return SideAnswer._make(self._figures_with(_lent(book, slot), "side", 2, *question))

    def walk(self, fluid: Whole, millikelvin: Whole, pascals: Whole, limit: Whole = WALK_ENOUGH) -> Walk:
        """The gas root found the slow way, one place after another, and how many values of the cubic that took. No more are
        worked out than the limit says. Refusals: 1, 21, 22, 31, 32, 11."""
        question = _wholes(fluid=fluid, millikelvin=millikelvin, pascals=pascals, limit=limit)
        return Walk._make(self._figures("walk", 2, *question))

    def band(self, fluid: Whole, millikelvin: Whole, pascals: Whole, lower: Whole, upper: Whole) -> Band:
        """The gas roots with the attraction scaled by so many thousandths, the lower scaling first. At every scaling between
        them the gas root lies between the two. Refusals: 1, 21, 22, 31, 32, 13."""
        question = _wholes(fluid=fluid, millikelvin=millikelvin, pascals=pascals, lower=lower, upper=upper)
        return Band._make(self._figures("band", 2, *question))

    def claims(self, rows: Iterable[Iterable[Whole]]) -> None:
        """Checks roots that other programs gave: each row is a `Claim`, or five numbers in its order. The first that does not
        stand raises a `RefusedClaim`, by 1, 21, 22, 31, 32, 12 or 14.

            >>> library.claims([(Fluid.OXYGEN, 120_000, 500_000, Side.DENSE, 92_696)])
            Traceback (most recent call last):
            woolyard.RefusedClaim: claim 0: 14: the root that is claimed is not the side's
        """
        checked = _rows(Claim._fields, rows)
        columns = [[row[place] for row in checked] for place in range(len(Claim._fields))]
        claim = (c_uint64 * 1)()
        number = self._call("claims", *_lent_lists(columns), claim)
        if number != _ANSWERED:
            raise RefusedClaim(number, claim[0])

    def heat(self, kelvin: float) -> float:
        """Hydrogen's ideal heat capacity in kJ/(kg K), bit for bit Table 4 in doubles, at a temperature in kelvin, which is
        rounded to a double. Refusal: 5."""
        heat = (c_double * 1)()
        _check(self._call("heat", _real("kelvin", kelvin), heat))
        told: float = heat[0]
        return told

    def heat_table(self, millikelvin: Whole) -> int:
        """The same in whole J/(kg K), from a table of whole kelvins and straight lines between them. Refusals: 21, 22."""
        return self._figures("heat_table", 1, *_wholes(millikelvin=millikelvin))[0]

    def viscosity(self, thousandths: Whole) -> int:
        """The excess viscosity factor in millionths, at a reduced density in thousandths. Refusal: 15."""
        return self._figures("viscosity", 1, *_wholes(thousandths=thousandths))[0]

    def sheet(self, sheet: Data) -> int:
        """How many state lines the sheet has. A refused sheet raises a `RefusedSheet`, here and wherever a whole sheet is read:
        by 6 with its place and the faulty line, or by 7."""
        data = _bytes("sheet", sheet)
        reading = (c_uint64 * 3)()
        number = self._call("sheet", data, len(data), reading)
        state_lines, place, length = _written(reading)
        _check_sheet(number, place, data[place : place + length])
        return state_lines

    def _check_whole(self, number: int, sheet: bytes) -> None:
        """For the functions that tell a fault without its place or its line: `sheet` tells it with both."""
        if number in (Refusal.SHEET_MALFORMED, Refusal.SHEET_TOO_LONG):
            self.sheet(sheet)
        _check(number)

    def sheet_line(self, sheet: Data, k: Whole) -> State:
        """State line k, counted from 0 through all sections; 16 where a good sheet has none of that number."""
        data = _bytes("sheet", sheet)
        state = (c_uint64 * 3)()
        self._check_whole(self._call("sheet_line", data, len(data), *_wholes(k=k), state), data)
        return _state(_written(state))

    def states(self, sheet: Data) -> Iterator[State]:
        """The states of a sheet as they are written, in one pass. Those before a fault come before it is raised: `sheet` tells
        it first. What becomes of a bytearray afterwards makes no difference."""
        return self._walk_over(_bytes("sheet", sheet))

    def _walk_over(self, sheet: bytes) -> Iterator[State]:
        cursor, state = (c_uint64 * _CURSOR)(), (c_uint64 * 3)()
        while True:
            number = self._call("sheet_next", sheet, len(sheet), cursor, state)
            if number == Refusal.NO_MORE_LINES:
                return
            self._check_whole(number, sheet)
            yield _state(_written(state))

    def report(self, sheet: Data) -> Report:
        """One page about a whole sheet: for each fluid what its states come to.

            >>> report = library.report(b"0\\n2\\n120000 500000\\n55999 500000\\n0\\n")
            >>> report.oxygen.split, report.oxygen.temperature_too_low, report.oxygen.largest
            (1, 1, Reached(density=17299, line=3))
        """
        data = _bytes("sheet", sheet)
        report, place = (c_uint64 * _REPORT)(), (c_uint64 * 1)()
        self._check_whole(self._call("report", data, len(data), report, place), data)
        return _report(_written(report))

    def write_sheet(self, rows: Iterable[Iterable[Whole]]) -> bytes:
        """The sheet of these rows, each a `State`, or three numbers in its order. The fluids may come in any order; the rows of
        one keep theirs. States out of range are written too. Refusals: 1, 8 for more than 1000 rows of one fluid, 9, 10.

            >>> library.write_sheet([(Fluid.OXYGEN, 120_000, 500_000), (Fluid.PARAHYDROGEN, 300_000, 1_000_000)])
            b'1\\n300000 1000000\\n1\\n120000 500000\\n0\\n'
        """
        columns: List[List[int]] = [[] for _ in range(2 * len(Fluid))]
        for fluid, millikelvin, pascals in _rows(State._fields, rows):
            # the library has a list for each fluid, and so none to refuse this by
            if fluid >= len(Fluid):
                raise Refused(Refusal.NO_SUCH_FLUID)
            columns[2 * fluid].append(millikelvin)
            columns[2 * fluid + 1].append(pascals)
        buffer, length = (c_char * SHEET_MOST_BYTES)(), (c_uint64 * 1)()
        _check(self._call("write_sheet", *_lent_lists(columns), buffer, len(buffer), length))
        return buffer.raw[: length[0]]


def _lent_lists(columns: Iterable[List[int]]) -> List[Any]:
    return [lent for column in columns for lent in (_array(column), len(column))]


class _Kept:
    """All that is kept between two parts of a sheet: numbers, which are zeros before the first byte. They may be stored and gone
    on from at any time. Any may be given, but only those that were kept of a sheet tell of one."""

    _COUNT: ClassVar[int]
    """How many numbers are kept."""

    def __init__(self, library: Woolyard, stored: Optional[Iterable[Whole]] = None) -> None:
        values = [0] * self._COUNT if stored is None else list(stored)
        if len(values) != self._COUNT:
            raise ValueError(f"{self._COUNT} numbers are kept, not {len(values)}")
        self._library = library
        self._numbers = tuple(_whole(f"number {place}", value) for place, value in enumerate(values))

    @property
    def numbers(self) -> Tuple[int, ...]:
        """To be stored."""
        return self._numbers

    def end(self) -> object:
        """What would be said of the sheet if it were over here."""
        raise NotImplementedError

    def _fault(self, number: int) -> Optional[Refused]:
        """What a part is refused for, with its place, which only the end tells."""
        if number == Refusal.PART_USED_UP:
            return None
        fault = reply(self.end)
        return fault if isinstance(fault, Refused) else Refused(number)

    def __eq__(self, other: object) -> bool:
        if not isinstance(other, type(self)):
            return NotImplemented
        return self._numbers == other._numbers

    def __repr__(self) -> str:
        return f"<{type(self).__name__} {self._numbers}>"


class Parts(_Kept):
    """A sheet that arrives in parts, whose states are answered as their lines end. However it is cut, the answers are the same,
    and so is what `end` says behind its last byte.

        >>> parts = Parts(library)
        >>> list(parts.take(b"0\\n1\\n1200"))
        []
        >>> parts = Parts(library, parts.numbers)
        >>> [line.reply.gas_root for line in parts.take(b"00 500000\\n0\\n")]
        [92696]
        >>> parts.end()
        1
    """

    _COUNT = _PARTS

    def take(self, part: Data) -> Iterator[Line]:
        """The state lines that end in the next bytes of the sheet, each with the reply to its state. Where a fault was met, in
        this part or before, it is raised behind them as a `RefusedSheet`; the lines before it stand. The part is taken at
        once, whether or not its lines are asked for."""
        data = _bytes("part", part)
        # with one byte more, since the last call may begin behind the last byte
        lent = ctypes.create_string_buffer(data, len(data) + 1)
        kept, taken, told = _array(self._numbers), (c_uint64 * 1)(), (c_uint64 * _LINE)()
        lines: List[Line] = []
        place, number = 0, _ANSWERED
        while number == _ANSWERED:
            rest = byref(c_char.from_buffer(lent, place))
            number = self._library._call("parts_take", kept, rest, len(data) - place, taken, told)
            if number == _ANSWERED:
                lines.append(_line(_written(told)))
            place += taken[0]
        self._numbers = tuple(kept)
        return _then_raised(lines, self._fault(number))

    def end(self) -> int:
        """What would be said of the sheet if it were over here: how many state lines it has, or the fault, which is then also
        a line that is missing or lacks its end. Nothing is changed, so more may be taken."""
        reading = (c_uint64 * 2)()
        number = self._library._call("parts_end", _array(self._numbers), reading)
        state_lines, place = _written(reading)
        _check_sheet(number, place)
        return state_lines


def _then_raised(lines: Iterable[Line], fault: Optional[Refused]) -> Iterator[Line]:
    yield from lines
    if fault is not None:
        raise fault


class Reporting(_Kept):
    """A sheet that arrives in parts and is reported on. However it is cut, `end` says the same behind its last byte.

        >>> reporting = Reporting(library)
        >>> reporting.take(b"0\\n1\\n1200")
        >>> reporting.take(b"00 500000\\n0\\n")
        >>> reporting.end() == library.report(b"0\\n1\\n120000 500000\\n0\\n")
        True
    """

    _COUNT = _REPORTING

    def take(self, part: Data) -> None:
        """Takes the next bytes of the sheet. Where a fault was met, in this part or before, it is raised."""
        data = _bytes("part", part)
        kept = _array(self._numbers)
        number = self._library._call("report_take", kept, data, len(data))
        self._numbers = tuple(kept)
        fault = self._fault(number)
        if fault is not None:
            raise fault

    def end(self) -> Report:
        """What would be said of the sheet if it were over here: the report, or the fault, which is then also a line that is
        missing or lacks its end. Nothing is changed, so more may be taken."""
        report, place = (c_uint64 * _REPORT)(), (c_uint64 * 1)()
        number = self._library._call("report_end", _array(self._numbers), report, place)
        _check_sheet(number, place[0])
        return _report(_written(report))
