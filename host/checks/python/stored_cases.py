"""The answers of the second implementation, as they are stored for the gate: all of them, asked through the module."""
import struct

from under_test import ROOT, Cases, library, woolyard
from woolyard import Book, Refusal, Refused, RefusedSheet, reply


class Points(Cases):
    def stored(self, name: str, beside: int = 0) -> list:
        """The lines that a program of crates/ is to write. The last is left out: it counts the others, but for those beside.
        Bytes that end lines elsewhere may stand in a faulty line."""
        *lines, last, rest = (ROOT / "crates" / name / "stdout").read_bytes().split(b"\n")
        count = int(last.split()[0])
        self.assertGreater(count, 0)
        self.assertEqual((len(lines), rest), (count + beside, b""))
        return lines

    def test_states(self) -> None:
        """With the book that begins full of misleading numbers, and without one; and each side."""
        first, *lines, last = self.stored("state_points", beside=2)
        book = book_of(first)
        for line in lines:
            fluid, millikelvin, pascals, slot, number, *figures = map(int, line.split())
            state = fluid, millikelvin, pascals
            told = reply(library.state, *state, book=book, slot=slot)
            self.assertEqual(told, Refused(number) if number else tuple(figures), line)
            # without a book no slot is refused
            if number != Refusal.NO_SUCH_SLOT:
                self.assertEqual(reply(library.state, *state), told, line)
                sides = [reply(library.side, *state, side) for side in woolyard.Side]
                _, gas_root, dense_root, gas_density, dense_density = figures
                both = [(gas_root, gas_density), (dense_root, dense_density)]
                self.assertEqual(sides, [told, told] if number else both, line)
        self.assertEqual(book, book_of(last))

    def test_heat(self) -> None:
        for line in self.stored("heat_points"):
            pattern, *answer = line.decode().split()
            told = reply(library.heat, struct.unpack(">d", bytes.fromhex(pattern))[0])
            shown = ["NO", str(told.number)] if isinstance(told, Refused) else [struct.pack(">d", told).hex()]
            self.assertEqual(shown, answer, pattern)

    def test_viscosity(self) -> None:
        for line in self.stored("viscosity_points"):
            thousandths, number, factor = map(int, line.split())
            self.assertEqual(reply(library.viscosity, thousandths), Refused(number) if number else factor, line)

    def test_sheets(self) -> None:
        """Each as a whole with its fault, and the questions for its lines, of which the last is for the largest number."""
        *sheets, rest = (ROOT / "crates" / "sheet_points" / "stdin").read_bytes().split(b"~")
        lines = self.stored("sheet_points")
        self.assertEqual((rest, len(sheets)), (b"", len(lines)))
        for sheet, line in zip(sheets, lines):
            whole, *questions = line.split(b" | ")
            number, count, place, faulty_line = whole.split(b" ", 3)
            fault = RefusedSheet(int(number), int(place), faulty_line[1:-1])
            self.assertEqual(reply(library.sheet, sheet), fault if int(number) else int(count), line)
            states = []
            for k, question in zip([*range(len(questions) - 1), 2**64 - 1], questions):
                number, *state, _ = map(int, question.split())
                expected = {0: tuple(state), 6: fault, 16: Refused(16)}[number]
                self.assertEqual(reply(library.sheet_line, sheet, k), expected, line)
                states += [tuple(state)] if number == 0 else []
            self.assertEqual(reply(list, library.states(sheet)), states if fault.number == 0 else fault, line)


def book_of(line: bytes) -> Book:
    word, *values = line.split()
    assert word == b"book"
    return Book(bytes(map(int, values)))


class Sheets(Cases):
    def test_program_sheet(self) -> None:
        """What the program `sheet` is to print of each sheet that the gate runs it on."""
        cases = [*short_sheets(), *long_sheets()]
        self.assertGreater(len(cases), 90)
        for name, sheet, expected in cases:
            self.assertEqual(printed(sheet), expected, name)

    def test_read_and_written_again(self) -> None:
        good = [sheet for _, sheet, expected in (*short_sheets(), *long_sheets()) if not expected.startswith("SHEET")]
        self.assertGreater(len(good), 10)
        for sheet in good:
            self.assertEqual(library.write_sheet(library.states(sheet)), sheet)


def short_sheets() -> list:
    """Name, sheet and text, escaped as for the shell."""
    lines = (ROOT / "host" / "checks" / "sheets" / "short.txt").read_text().splitlines()
    cases = [line.split("|") for line in lines]
    return [(name, unescaped(sheet), unescaped(expected).decode()) for name, sheet, expected in cases]


def unescaped(text: str) -> bytes:
    return text.encode().decode("unicode_escape").encode("latin-1")


def long_sheets() -> list:
    paths = sorted((ROOT / "host" / "checks" / "sheets").glob("*.in"))
    return [(path.name, path.read_bytes(), path.with_suffix(".out").read_text()) for path in paths]


def printed(sheet: bytes) -> str:
    states = reply(list, library.states(sheet))
    if isinstance(states, RefusedSheet):
        return f"SHEET {states.number} {states.place or 0}\n"
    return "".join(f"{shown(reply(library.state, *state))}\n" for state in states)


def shown(told: object) -> str:
    return f"NO {told.number}" if isinstance(told, Refused) else str(told)
