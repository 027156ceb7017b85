"""Every function, with the figures of documents 01 and 02."""
import copy
import doctest
import math
import pickle

from under_test import EXAMPLE, EXAMPLE_STATES, FAULTY, PATH, TOO_LONG, Cases, library, woolyard
from woolyard import Answer, Band, Book, Claim, Fluid, Kind, Line, Parts, Reached, Refusal, Refused, RefusedClaim, RefusedSheet
from woolyard import Reporting, SectionReport, Side, SideAnswer, State, Walk, reply

OXYGEN = (Fluid.OXYGEN, 120_000, 500_000)
OXYGEN_ANSWER = Answer(Kind.SPLIT, 92_696, 1699, 17_299, 943_832)
LARGEST = 2**64 - 1


def one(root: int, density: int) -> Answer:
    return Answer(Kind.ONE, root, root, density, density)


class Documentation(Cases):
    def test_examples_of_the_docstrings(self) -> None:
        told = []
        result = doctest.DocTestRunner(verbose=False)
        names = {**vars(woolyard), "path": PATH, "library": library}
        for test in doctest.DocTestFinder().find(woolyard, extraglobs=names):
            result.run(test, out=told.append)
        self.assertEqual("".join(told), "")
        self.assertGreater(result.tries, 20)


class States(Cases):
    def test_states(self) -> None:
        self.assertEqual(library.state(*OXYGEN), OXYGEN_ANSWER)
        self.assertEqual(library.state(Fluid.OXYGEN, 300_000, 1_000_000), one(99_286, 12_920))
        self.assertEqual(library.state(Fluid.PARAHYDROGEN, 300_000, 1_000_000), one(100_474, 804))
        self.assertEqual(library.state(Fluid.PARAHYDROGEN, 1_000_000, 10_000), one(100_001, 2))
        self.assertEqual(library.state(Fluid.NITROGEN, 300_000, 1_000_000), one(99_654, 11_269))
        self.assertEqual(library.state(2, 90_000, 300_000), Answer(Kind.SPLIT, 91_704, 1518, 12_246, 739_841))
        self.assertIs(library.state(*OXYGEN).kind, Kind.SPLIT)

    def test_text_of_an_answer(self) -> None:
        self.assertEqual(str(OXYGEN_ANSWER), "SPLIT 92696 17299 1699 943832")
        self.assertEqual(str(one(100_474, 804)), "ONE 100474 804")

    def test_refusals_of_a_state(self) -> None:
        """By every function that asks for one, in the fixed order."""
        for state, refusal in [
            ((3, 0, 0), Refusal.NO_SUCH_FLUID),
            # oxygen to whoever keeps 32 bits
            ((2**32 + 1, 0, 0), Refusal.NO_SUCH_FLUID),
            ((LARGEST, LARGEST, LARGEST), Refusal.NO_SUCH_FLUID),
            ((1, 55_999, 0), Refusal.TEMPERATURE_TOO_LOW),
            ((1, 1_000_001, 0), Refusal.TEMPERATURE_TOO_HIGH),
            ((1, 56_000, 9_999), Refusal.PRESSURE_TOO_LOW),
            ((1, 56_000, 50_000_001), Refusal.PRESSURE_TOO_HIGH),
        ]:
            self.assert_refused(refusal, library.state, *state)
            self.assert_refused(refusal, library.state, *state, book=Book(), slot=64)
            self.assert_refused(refusal, library.side, *state, 2)
            self.assert_refused(refusal, library.walk, *state, 0)
            self.assert_refused(refusal, library.band, *state, 0, 0)

    def test_sides(self) -> None:
        self.assertEqual(library.side(*OXYGEN, Side.GAS), SideAnswer(92_696, 17_299))
        self.assertEqual(library.side(*OXYGEN, Side.DENSE), SideAnswer(1699, 943_832))
        for side in (2, 2**32, LARGEST):
            self.assert_refused(Refusal.NO_SUCH_SIDE, library.side, *OXYGEN, side)
            self.assert_refused(Refusal.NO_SUCH_SIDE, library.side, *OXYGEN, side, book=Book(), slot=64)

    def test_walks(self) -> None:
        self.assertEqual(library.walk(*OXYGEN), Walk(92_696, 8411))
        self.assertEqual(library.walk(*OXYGEN, limit=8411), Walk(92_696, 8411))
        self.assert_refused(Refusal.WALK_CUT_SHORT, library.walk, *OXYGEN, 8410)
        self.assertEqual(library.walk(Fluid.OXYGEN, 56_000, 249_932), Walk(1306, 99_880))

    def test_bands(self) -> None:
        self.assertEqual(library.band(*OXYGEN, 950, 1050), Band(93_155, 92_232))
        self.assertEqual(library.band(*OXYGEN, woolyard.SCALING_LEAST, woolyard.SCALING_MOST), Band(97_086, 87_806))
        self.assertEqual(library.band(*OXYGEN, woolyard.SCALING_NONE, woolyard.SCALING_NONE), Band(92_696, 92_696))
        for scalings in ((1050, 950), (499, 1000), (1000, 1501)):
            self.assert_refused(Refusal.SCALING_OUT_OF_RANGE, library.band, *OXYGEN, *scalings)


class Books(Cases):
    def test_slots(self) -> None:
        """An answered call writes the gas root into its slot and nothing else, whichever side is named."""
        for call, answer in [
            (lambda **lent: library.state(*OXYGEN, **lent), OXYGEN_ANSWER),
            (lambda **lent: library.side(*OXYGEN, Side.DENSE, **lent), SideAnswer(1699, 943_832)),
        ]:
            for slot in (0, 5, 63):
                book = Book(b"\x07" * 192)
                self.assertEqual(call(book=book, slot=slot), answer)
                written = bytearray(b"\x07" * 192)
                written[3 * slot : 3 * slot + 3] = (0x18, 0x6A, 0x01)
                self.assertEqual(bytes(book), written)
                self.assertEqual([book[slot], list(book).count(0x070707)], [92_696, 63])
            for slot in (64, LARGEST):
                book = Book(b"\x07" * 192)
                self.assert_refused(Refusal.NO_SUCH_SLOT, call, book=book, slot=slot)
                self.assertEqual(book, Book(b"\x07" * 192))

    def test_copies(self) -> None:
        book = Book(b"\x07" * 192)
        for other in (copy.copy(book), copy.deepcopy(book), pickle.loads(pickle.dumps(book)), Book(bytes(book))):
            self.assertEqual(other, book)
            library.state(*OXYGEN, book=other, slot=0)
            self.assertEqual((book[0], other[0]), (0x070707, 92_696))
            self.assertNotEqual(other, book)


class Claims(Cases):
    STANDING = [Claim(*OXYGEN, Side.GAS, 92_696), Claim(*OXYGEN, Side.DENSE, 1699), (2, 90_000, 300_000, 1, 1518)]

    def test_claims_that_stand(self) -> None:
        for rows in (self.STANDING, [], iter(self.STANDING)):
            self.assertIsNone(library.claims(rows))

    def test_claims_that_are_refused(self) -> None:
        for claim, refusal in [
            ((3, 0, 0, 2, 0), Refusal.NO_SUCH_FLUID),
            ((1, 55_999, 0, 2, 0), Refusal.TEMPERATURE_TOO_LOW),
            ((*OXYGEN, 2, 0), Refusal.NO_SUCH_SIDE),
            ((*OXYGEN, 1, 92_696), Refusal.ROOT_DIFFERS),
        ]:
            rows = [*self.STANDING, claim, (3, 0, 0, 0, 0)]
            self.assert_refused(refusal, library.claims, rows)
            self.assertEqual(reply(library.claims, rows), RefusedClaim(refusal, 3))


class Factors(Cases):
    def test_heat(self) -> None:
        self.assertEqual(library.heat(40), 10.3121)
        self.assertEqual(library.heat(40.0), 10.3121)
        self.assertNotEqual(library.heat(40.000000000000007), 10.3121)
        for kelvin in (13.999999999999998, 1000.0000000000001, math.nan, math.inf, -math.inf, 0, -40, 2**64 + 40):
            self.assert_refused(Refusal.HEAT_OUT_OF_RANGE, library.heat, kelvin)

    def test_heat_table(self) -> None:
        told = [library.heat_table(millikelvin) for millikelvin in (14_000, 41_500, 300_000, 999_999, 1_000_000)]
        self.assertEqual(told, [10_312, 10_323, 14_842, 15_132, 15_133])
        self.assert_refused(Refusal.TEMPERATURE_TOO_LOW, library.heat_table, 13_999)
        self.assert_refused(Refusal.TEMPERATURE_TOO_HIGH, library.heat_table, 2**32 + 300_000)

    def test_viscosity(self) -> None:
        told = [library.viscosity(thousandths) for thousandths in (100, 1000, 3000)]
        self.assertEqual(told, [223_950, 4_447_135, 157_192_927])
        for thousandths in (0, 99, 3001, 2**32 + 1000, LARGEST):
            self.assert_refused(Refusal.DENSITY_OUT_OF_RANGE, library.viscosity, thousandths)


READ_WHOLE_SHEETS = (
    library.sheet,
    library.report,
    lambda sheet: library.sheet_line(sheet, 0),
    lambda sheet: list(library.states(sheet)),
)


class Sheets(Cases):
    def test_lines_of_the_example(self) -> None:
        for sheet in (EXAMPLE, bytearray(EXAMPLE), memoryview(EXAMPLE)):
            self.assertEqual(library.sheet(sheet), 4)
            self.assertEqual([library.sheet_line(sheet, k) for k in range(4)], EXAMPLE_STATES)
            self.assertEqual(list(library.states(sheet)), EXAMPLE_STATES)
            for k in (4, LARGEST):
                self.assert_refused(Refusal.NO_SUCH_LINE, library.sheet_line, sheet, k)
        self.assertIs(library.sheet_line(EXAMPLE, 3).fluid, Fluid.OXYGEN)
        self.assertEqual(list(library.states(b"0\n0\n0\n")), [])

    def test_faulty_sheets(self) -> None:
        """With the place and the very bytes of the line. The states before it are told."""
        for sheet, _, place in FAULTY:
            line = sheet[place : sheet.index(b"\n", place)]
            states = library.states(sheet)
            self.assertEqual(next(states), State(0, 7, 7))
            self.assertEqual(reply(list, states), RefusedSheet(6, place, line))
            for call in READ_WHOLE_SHEETS:
                self.assertEqual(reply(call, sheet), RefusedSheet(6, place, line))
        self.assertEqual(reply(library.sheet, b""), RefusedSheet(6, 0, b""))

    def test_too_long_sheets(self) -> None:
        for call in READ_WHOLE_SHEETS:
            self.assert_refused(Refusal.SHEET_TOO_LONG, call, TOO_LONG)
            told = reply(call, TOO_LONG)
            self.assertEqual((type(told), told.place, told.line), (RefusedSheet, None, None))
            self.assertEqual(reply(call, TOO_LONG[1:]), RefusedSheet(6, 0, TOO_LONG[1:]))

    def test_sheet_that_changes_during_the_walk(self) -> None:
        sheet = bytearray(EXAMPLE)
        states = library.states(sheet)
        told = [next(states)]
        sheet.clear()
        self.assertEqual(told + list(states), EXAMPLE_STATES)

    def test_sheets_that_are_written(self) -> None:
        hydrogen, *oxygen = EXAMPLE_STATES
        for rows in (EXAMPLE_STATES, [*oxygen, hydrogen], (tuple(row) for row in EXAMPLE_STATES)):
            self.assertEqual(library.write_sheet(rows), EXAMPLE)
        self.assertEqual(library.write_sheet([]), b"0\n0\n0\n")
        self.assertEqual(library.write_sheet([(2, 0, 9_999_999_999)]), b"0\n0\n1\n0 9999999999\n")

    def test_sheets_that_can_not_be_written(self) -> None:
        wide = (9_999_999_999, 9_999_999_999)
        for rows, refusal in [
            ([(3, 0, 0)], Refusal.NO_SUCH_FLUID),
            ([(1, 7, 0)] * 1001, Refusal.LISTS_UNFIT),
            ([(1, 10_000_000_000, 7)], Refusal.TOO_MANY_DIGITS),
            ([(1, 7, LARGEST)], Refusal.TOO_MANY_DIGITS),
            ([(fluid, *wide) for fluid in Fluid for _ in range(1000)], Refusal.NO_ROOM),
        ]:
            self.assert_refused(refusal, library.write_sheet, rows)


class SheetsInParts(Cases):
    LINES = [Line(*state, reply(library.state, *state)) for state in EXAMPLE_STATES]

    def test_sheet_cut_anywhere(self) -> None:
        """With the numbers stored between two parts."""
        for place in range(len(EXAMPLE) + 1):
            parts, reporting = Parts(library), Reporting(library)
            lines = list(parts.take(EXAMPLE[:place]))
            reporting.take(EXAMPLE[:place])
            self.assertEqual(reply(parts.end), without_line(reply(library.sheet, EXAMPLE[:place])))
            self.assertEqual(reply(reporting.end), without_line(reply(library.report, EXAMPLE[:place])))
            parts, reporting = Parts(library, parts.numbers), Reporting(library, reporting.numbers)
            lines += parts.take(EXAMPLE[place:])
            reporting.take(EXAMPLE[place:])
            self.assertEqual((lines, parts.end(), reporting.end()), (self.LINES, 4, library.report(EXAMPLE)))

    def test_faults(self) -> None:
        """At the byte where it is met, and with every part from then on."""
        for sheet, byte, place in FAULTY:
            parts, reporting = Parts(library), Reporting(library)
            self.assertEqual(len(list(parts.take(sheet[:byte]))), 1)
            reporting.take(sheet[:byte])
            for part in (sheet[byte : byte + 1], b"", EXAMPLE):
                self.assertEqual(reply(list, parts.take(part)), RefusedSheet(6, place))
                self.assertEqual(reply(reporting.take, part), RefusedSheet(6, place))
            self.assertEqual((reply(parts.end), reply(reporting.end)), (RefusedSheet(6, place), RefusedSheet(6, place)))

    def test_lines_before_a_fault_in_the_same_part(self) -> None:
        lines = Parts(library).take(EXAMPLE + b"x")
        self.assertEqual([next(lines) for _ in self.LINES], self.LINES)
        self.assertEqual(reply(list, lines), RefusedSheet(6, len(EXAMPLE)))

    def test_part_whose_lines_are_not_asked_for(self) -> None:
        parts = Parts(library)
        parts.take(EXAMPLE)
        self.assertEqual(parts.end(), 4)

    def test_too_long(self) -> None:
        """Good lines up to the byte that is one too many; but what was met before it stays."""
        widest = (b"1000\n" + b"9999999999 9999999999\n" * 1000) * 3
        lines = Parts(library).take(widest)
        self.assertEqual([next(lines).reply for _ in range(2978)], [Refused(22)] * 2978)
        self.assertEqual(reply(list, lines), RefusedSheet(7))
        self.assertEqual(reply(Reporting(library).take, widest), RefusedSheet(7))
        self.assertEqual(reply(list, Parts(library).take(TOO_LONG)), RefusedSheet(6, 0))

    def test_numbers_that_no_sheet_has_left(self) -> None:
        """A state line is wanted in a section that no sheet has; and all numbers are the largest."""
        beyond = Parts(library, [0, 0, 0, 5, 1, 0, 0, 0])
        self.assertEqual(list(beyond.take(b"300000 1000000\n")), [Line(4, 300_000, 1_000_000, Refused(1))])
        for kept in (Parts(library, [LARGEST] * 8), Reporting(library, [LARGEST] * 44)):
            self.assertEqual(kept.numbers, (LARGEST,) * len(kept.numbers))
            kept.take(EXAMPLE) if isinstance(kept, Parts) else reply(kept.take, EXAMPLE)
            reply(kept.end)

    def test_copies(self) -> None:
        for kept in (Parts(library), Reporting(library)):
            other = copy.copy(kept)
            self.assertEqual(other, kept)
            other.take(b"0\n")
            self.assertNotEqual(other, kept)
            self.assertEqual(set(kept.numbers), {0})


def without_line(told: object) -> object:
    """A fault as it is told of a sheet in parts."""
    return RefusedSheet(told.number, told.place) if isinstance(told, RefusedSheet) else told


class Reports(Cases):
    def test_report(self) -> None:
        report = library.report(EXAMPLE)
        hydrogen = SectionReport(1, 0, 0, 0, 0, 0, 804, Reached(804, 2), Reached(804, 2))
        oxygen = SectionReport(1, 1, 1, 0, 0, 0, 12_920 + 17_299, Reached(12_920, 4), Reached(17_299, 5))
        nitrogen = SectionReport(0, 0, 0, 0, 0, 0, 0, None, None)
        self.assertEqual(report, (hydrogen, oxygen, nitrogen))
        self.assertEqual([(report[fluid].refused, report[fluid].states) for fluid in Fluid], [(0, 1), (1, 3), (0, 0)])

    def test_refusals_by_their_names(self) -> None:
        report = library.report(b"1\n1000001 0\n1\n56000 9999\n2\n64000 50000001\n63999 0\n")
        names = ("temperature_too_low", "temperature_too_high", "pressure_too_low", "pressure_too_high")
        told = [[getattr(section, name) for name in names] for section in report]
        self.assertEqual(told, [[0, 1, 0, 0], [0, 0, 1, 0], [1, 0, 0, 1]])
        self.assertEqual([(section.sum, section.smallest, section.largest) for section in report], [(0, None, None)] * 3)
