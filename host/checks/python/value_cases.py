"""What goes in and is no number, no bytes or no book, by every function: nothing is misread, and nothing is asked with it."""
import array
import inspect
from fractions import Fraction

from under_test import EXAMPLE, Cases, library, woolyard
from woolyard import Book, Parts, Reporting, State

STATE = {"fluid": 1, "millikelvin": 120_000, "pascals": 500_000}

# Every function of whole numbers, with numbers that it answers; of rows, the one that has them all.
QUESTIONS = [
    (library.state, STATE),
    (library.state, {**STATE, "book": Book(), "slot": 5}),
    (library.side, {**STATE, "side": 0}),
    (library.side, {**STATE, "side": 0, "book": Book(), "slot": 5}),
    (library.walk, {**STATE, "limit": 100_001}),
    (library.band, {**STATE, "lower": 950, "upper": 1050}),
    (library.heat_table, {"millikelvin": 120_000}),
    (library.viscosity, {"thousandths": 1000}),
    (library.sheet_line, {"sheet": EXAMPLE, "k": 0}),
    (lambda **row: library.write_sheet([tuple(row.values())]), STATE),
    (lambda **row: library.claims([tuple(row.values())]), {**STATE, "side": 0, "root": 92_696}),
]

NO_WHOLE_NUMBERS = (True, False, 1.5, 120_000.0, "120000", b"1", None, [1], Fraction(1), 1j, object())
OUT_OF_RANGE = (-1, 2**64, 120_000 + 2**64, -(2**64), 2**64 + 1, 10**5000, -(10**5000))


class Index:
    """As the whole numbers of other packages are."""

    def __init__(self, number: int) -> None:
        self.number = number

    def __index__(self) -> int:
        return self.number


class WholeNumbers(Cases):
    def each(self) -> list:
        """A function with its numbers, and the name of one of them."""
        numbers = [(call, named, name) for call, named in QUESTIONS for name in named if isinstance(named[name], int)]
        self.assertGreater(len(numbers), 30)
        return numbers

    def test_no_whole_numbers(self) -> None:
        for call, named, name in self.each():
            for value in NO_WHOLE_NUMBERS:
                # a book's slot may be left out, which is told by another message
                about = "slot is missing" if (name, value) == ("slot", None) else f"{name}.* is a whole number"
                with self.assertRaisesRegex(TypeError, about):
                    call(**{**named, name: value})

    def test_out_of_range(self) -> None:
        """Above all 120000 + 2**64, which 64 bits take for 120000; the message has the name and the value."""
        for call, named, name in self.each():
            for value in OUT_OF_RANGE:
                shown = str(value) if abs(value) < 10**100 else f"one of {value.bit_length()} bits"
                with self.assertRaisesRegex(ValueError, f"^{name}.* is from 0 to .* not {shown}$"):
                    call(**{**named, name: value})

    def test_whole_numbers_of_other_types(self) -> None:
        for call, named, name in self.each():
            self.assertEqual(call(**{**named, name: Index(named[name])}), call(**named))
            with self.assertRaises(ValueError):
                call(**{**named, name: Index(named[name] + 2**64)})

    def test_largest(self) -> None:
        """2**64 - 1 is a number like others: it is asked, and refused by the library if by anyone."""
        for call, named, name in self.each():
            told = woolyard.reply(call, **{**named, name: 2**64 - 1})
            self.assertEqual(isinstance(told, woolyard.Refused), name != "limit")


class Kelvins(Cases):
    def test_no_real_numbers(self) -> None:
        for kelvin in (True, "300", b"300", None, [300.0], 300j, object()):
            with self.assertRaisesRegex(TypeError, "kelvin is a real number"):
                library.heat(kelvin)
        for kelvin in (10**400, Fraction(10**400, 3)):
            with self.assertRaisesRegex(ValueError, "kelvin is a number that a double holds"):
                library.heat(kelvin)

    def test_real_numbers(self) -> None:
        self.assertEqual(library.heat(Fraction(300)), library.heat(300.0))


class LyingBytes(bytes):
    """Has more bytes than there are, to whoever asks it."""

    def __len__(self) -> int:
        return 2**40

    def __bytes__(self) -> bytes:
        return self


TAKE_BYTES = [
    ("sheet", library.sheet),
    ("sheet", lambda sheet: library.sheet_line(sheet, 0)),
    ("sheet", library.states),
    ("sheet", library.report),
    ("part", lambda part: Parts(library).take(part)),
    ("part", lambda part: Reporting(library).take(part)),
    ("content", Book),
]


class Bytes(Cases):
    def test_no_bytes(self) -> None:
        for name, call in TAKE_BYTES:
            with self.assertRaisesRegex(TypeError, f"{name} is bytes, not str: encode it"):
                call(EXAMPLE.decode())
            for data in (None, 5, list(EXAMPLE), array.array("B", EXAMPLE), object()):
                with self.assertRaisesRegex(TypeError, f"{name} is bytes, a bytearray or a memoryview"):
                    call(data)
            with self.assertRaisesRegex(TypeError, f"{name} is a memoryview of bytes, not of format 'I'"):
                call(memoryview(array.array("I", [1, 2])))

    def test_views(self) -> None:
        """Their bytes in their order, wherever they lie."""
        self.assertEqual(library.sheet(memoryview(EXAMPLE[::-1])[::-1]), 4)
        self.assertEqual(library.sheet(memoryview(b"xx" + EXAMPLE + b"xx")[2:-2]), 4)

    def test_bytes_of_another_length_than_they_say(self) -> None:
        self.assertEqual(library.sheet(LyingBytes(EXAMPLE)), 4)
        self.assertEqual(Parts(library).take(LyingBytes(EXAMPLE)).__next__().reply.gas_root, 100_474)

    def test_bytes_that_are_no_text(self) -> None:
        """Every byte in the place of a count, and the message has it."""
        for byte in range(256):
            sheet = b"0\n" + bytes([byte]) + b"\n0\n"
            told = woolyard.reply(library.sheet, sheet)
            if byte == ord("0"):
                self.assertEqual(told, 0)
            elif byte != ord("\n") and not ord("1") <= byte <= ord("9"):
                self.assertEqual((told.place, told.line), (2, bytes([byte])))
                self.assertEqual(str(told), f"6: sheet badly formed, at byte 2: {bytes([byte])!r}")

    def test_message_about_a_long_line_is_short(self) -> None:
        self.assertLess(len(str(woolyard.reply(library.sheet, b"\xff" * 65_536))), 100)


class Books(Cases):
    def test_content(self) -> None:
        for length in (0, 64, 191, 193, 256):
            with self.assertRaisesRegex(ValueError, f"a book has 192 bytes, not {length}"):
                Book(bytes(length))

    def test_slots(self) -> None:
        for slot in (64, 2**64 - 1):
            with self.assertRaises(IndexError):
                Book()[slot]
        for slot in NO_WHOLE_NUMBERS:
            with self.assertRaises(TypeError):
                Book()[slot]
        for slot in OUT_OF_RANGE:
            with self.assertRaises(ValueError):
                Book()[slot]

    def test_no_books(self) -> None:
        for book in (bytes(192), bytearray(192), 5, object()):
            with self.assertRaisesRegex(TypeError, "book is a Book"):
                library.state(*STATE.values(), book=book, slot=5)

    def test_book_and_slot_come_together(self) -> None:
        with self.assertRaisesRegex(TypeError, "slot is missing"):
            library.state(*STATE.values(), book=Book())
        with self.assertRaisesRegex(TypeError, "book is a Book where a slot is given"):
            library.state(*STATE.values(), slot=5)

    def test_books_are_no_keys(self) -> None:
        for changing in (Book(), Parts(library), Reporting(library)):
            with self.assertRaises(TypeError):
                hash(changing)
            self.assertNotEqual(changing, 0)


class Rows(Cases):
    def test_rows_of_other_lengths(self) -> None:
        for call, fields in ((library.write_sheet, 3), (library.claims, 5)):
            for length in {0, 1, 2, 3, 4, 5, 6} - {fields}:
                with self.assertRaisesRegex(ValueError, f"row 0 has {length} numbers, not {fields}: fluid, millikelvin"):
                    call([(0,) * length])
            with self.assertRaises(TypeError):
                call([7])

    def test_row_that_is_told(self) -> None:
        with self.assertRaisesRegex(ValueError, "^pascals of row 1 is from"):
            library.write_sheet([State(1, 7, 7), State(1, 7, 2**64)])

    def test_nothing_is_asked_with_a_bad_row(self) -> None:
        book = Book()
        with self.assertRaises(ValueError):
            library.state(1, 120_000, 500_000 + 2**64, book=book, slot=5)
        self.assertEqual(book, Book())


class StoredNumbers(Cases):
    def test_stored_numbers(self) -> None:
        for kept, count in ((Parts, 8), (Reporting, 44)):
            for length in (0, count - 1, count + 1):
                with self.assertRaisesRegex(ValueError, f"{count} numbers are kept, not {length}"):
                    kept(library, [0] * length)
            for value in NO_WHOLE_NUMBERS:
                with self.assertRaisesRegex(TypeError, f"number {count - 1} is a whole number"):
                    kept(library, [*[0] * (count - 1), value])
            for value in OUT_OF_RANGE:
                with self.assertRaisesRegex(ValueError, f"number {count - 1} is from 0 to"):
                    kept(library, [*[0] * (count - 1), value])


class Annotations(Cases):
    def test_everything_is_annotated(self) -> None:
        functions = [value for value in vars(woolyard).values() if inspect.isfunction(value)]
        classes = [value for value in vars(woolyard).values() if inspect.isclass(value)]
        functions += [value for owner in classes for value in vars(owner).values() if inspect.isfunction(value)]
        own = [function for function in functions if function.__code__.co_filename == woolyard.__file__]
        self.assertGreater(len(own), 50)
        for function in own:
            signature = inspect.signature(function)
            untyped = [name for name, parameter in signature.parameters.items() if parameter.annotation is parameter.empty]
            self.assertIn(untyped, ([], ["self"], ["cls"]), function.__qualname__)
            self.assertIsNot(signature.return_annotation, signature.empty, function.__qualname__)

    def test_public_names(self) -> None:
        self.assertEqual([name for name in woolyard.__all__ if not hasattr(woolyard, name)], [])
