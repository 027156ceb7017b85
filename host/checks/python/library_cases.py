"""Shared objects that are not what they are taken for, and the example."""
import copy
import itertools
import pickle
import shutil
import subprocess
import sys
import tempfile
import unittest
from pathlib import Path
from typing import Iterator, List
from unittest import mock

from under_test import EXAMPLE, PATH, ROOT, Cases, library, woolyard
from woolyard import OtherAbi, Parts, Refusal, Refused, RefusedClaim, RefusedSheet, Reporting, reply


class Abi(Cases):
    def test_own(self) -> None:
        self.assertEqual(library._call("abi"), woolyard.ABI)

    def test_no_shared_object(self) -> None:
        for path in ("no such file", Path("no such file"), __file__):
            with self.assertRaises(OSError) as caught:
                woolyard.Woolyard(path)
            self.assertNotIsInstance(caught.exception, OtherAbi)
        with self.assertRaises(TypeError):
            woolyard.Woolyard(None)

    def test_path_is_a_path(self) -> None:
        self.assertEqual(woolyard.Woolyard(Path(PATH)).viscosity(1000), 4_447_135)

    @unittest.skipUnless(shutil.which("cc"), "a compiler makes the shared objects")
    def test_other_shared_objects(self) -> None:
        for source, about in [
            ("unsigned long long woolyard_abi(void) { return 2; }", "has ABI 2, and this module is for ABI 1"),
            # 1 to whoever keeps 32 bits
            ("unsigned long long woolyard_abi(void) { return 4294967297ull; }", "has ABI 4294967297, and this"),
            ("int nothing;", "has no woolyard_abi, and this module is for ABI 1"),
            ("unsigned long long woolyard_abi(void) { return 1; }", "has no woolyard_state, and this module"),
        ]:
            with tempfile.TemporaryDirectory() as folder:
                shared = Path(folder) / "other.so"
                subprocess.run(["cc", "-shared", "-fPIC", "-x", "c", "-", "-o", shared], input=source.encode(), check=True)
                with self.assertRaisesRegex(OtherAbi, f"other.so {about}"):
                    woolyard.Woolyard(shared)


class Faked:
    """In the place of a shared object: every function but those named answers this number, and none writes anything."""

    def __init__(self, number: int, **named: int) -> None:
        self.number = number
        self.named = {"abi": woolyard.ABI, **named}

    def __getattr__(self, name: str):
        number = self.named.get(name[len("woolyard_") :], self.number)
        return lambda *arguments: number


def faked(number: int, **named: int) -> woolyard.Woolyard:
    with mock.patch.object(woolyard.ctypes, "CDLL", return_value=Faked(number, **named)):
        return woolyard.Woolyard("faked")


def few(states: Iterator[object]) -> List[object]:
    """A library that always answers has no last state."""
    return list(itertools.islice(states, 9))


class UnknownNumbers(Cases):
    def calls(self, number: int) -> list:
        """Every function, of a library that answers this number to everything."""
        fake = faked(number)
        with_book = {"book": woolyard.Book(), "slot": 0}
        return [
            lambda: fake.state(1, 2, 3),
            lambda: fake.state(1, 2, 3, **with_book),
            lambda: fake.side(1, 2, 3, 4),
            lambda: fake.side(1, 2, 3, 4, **with_book),
            lambda: fake.walk(1, 2, 3, 4),
            lambda: fake.band(1, 2, 3, 4, 5),
            lambda: fake.claims([(1, 2, 3, 4, 5)]),
            lambda: fake.heat(300.0),
            lambda: fake.heat_table(300_000),
            lambda: fake.viscosity(1000),
            lambda: fake.sheet(EXAMPLE),
            lambda: fake.sheet_line(EXAMPLE, 0),
            lambda: few(fake.states(EXAMPLE)),
            lambda: fake.report(EXAMPLE),
            lambda: fake.write_sheet([(1, 2, 3)]),
            lambda: list(Parts(fake).take(EXAMPLE)),
            lambda: Parts(fake).end(),
            lambda: Reporting(fake).take(EXAMPLE),
            lambda: Reporting(fake).end(),
        ]

    def test_unknown_numbers(self) -> None:
        """No number but 0 is an answer: one that the header does not have is a refusal with its number."""
        for number in (2, 3, 17, 33, 2**32, 2**64 - 1):
            for call in self.calls(number):
                with self.assertRaises(Refused) as caught:
                    call()
                told = caught.exception
                self.assertEqual((told.number, told.refusal, told.meaning), (number, None, "the number of no refusal"))

    def test_known_numbers(self) -> None:
        """Whatever the function: 16 is no refusal of an iterator or of a part, and else each number is one."""
        for refusal in Refusal:
            raised = [reply(call) for call in self.calls(refusal)]
            told = [refused.number for refused in raised if isinstance(refused, Refused)]
            self.assertEqual(told, [int(refusal)] * (16 if refusal == 16 else 19))

    def test_faults_that_are_told_once(self) -> None:
        """Of a part, and not of its end; of a state, and not of its sheet."""
        for number in (6, 7, 33):
            fake = faked(number, parts_end=0, report_end=0, sheet=0)
            for call in (Parts(fake).take, fake.states):
                self.assertEqual(reply(few, call(EXAMPLE)), Refused(number))
            for call in (Reporting(fake).take, fake.report):
                self.assertEqual(reply(call, EXAMPLE), Refused(number))

    def test_kind_that_is_none(self) -> None:
        """A library that answers and writes nothing: no state is of kind 0."""
        with self.assertRaises(ValueError):
            faked(0).state(1, 2, 3)


class Refusals(Cases):
    def test_texts(self) -> None:
        for refused, text in [
            (Refused(21), "21: temperature below the fluid's range"),
            (Refused(99), "99: the number of no refusal"),
            (RefusedClaim(14, 3), "claim 3: 14: the root that is claimed is not the side's"),
            (RefusedSheet(7), "7: sheet longer than 65,536 bytes"),
            (RefusedSheet(6, 4), "6: sheet badly formed, at byte 4"),
            (RefusedSheet(6, 4, b"\xff"), "6: sheet badly formed, at byte 4: b'\\xff'"),
        ]:
            self.assertEqual(str(refused), text)

    def test_copies_and_equality(self) -> None:
        sheets = [RefusedSheet(6), RefusedSheet(6, 4), RefusedSheet(6, 4, b"")]
        all_different = [Refused(6), Refused(7), *sheets, RefusedClaim(6, 4)]
        for one, other in itertools.combinations(all_different, 2):
            self.assertNotEqual(one, other)
        for refused in all_different:
            self.assertNotEqual(refused, refused.number)
            for other in (copy.copy(refused), pickle.loads(pickle.dumps(refused))):
                self.assertEqual((other, str(other), hash(other)), (refused, str(refused), hash(refused)))

    def test_returned_form_keeps_no_frames(self) -> None:
        self.assertIsNone(reply(library.state, 3, 0, 0).__traceback__)

    def test_returned_form_passes_other_errors_on(self) -> None:
        with self.assertRaises(TypeError):
            reply(library.state, "1", 120_000, 500_000)


class Example(Cases):
    EXAMPLE = ROOT / "host" / "python" / "example.py"

    def run_example(self, *arguments: object) -> subprocess.CompletedProcess:
        command = [sys.executable, "-B", self.EXAMPLE, PATH, *arguments]
        return subprocess.run(command, stdout=subprocess.PIPE, stderr=subprocess.PIPE)

    def test_what_it_prints(self) -> None:
        expected = (ROOT / "host" / "checks" / "python" / "example.txt").read_bytes()
        told = self.run_example()
        self.assertEqual((told.returncode, told.stdout, told.stderr), (0, expected, b""))

    def test_sheet_of_a_file(self) -> None:
        sheets = ROOT / "host" / "checks" / "sheets"
        self.assertEqual(self.run_example(sheets / "sides.in").stdout, (sheets / "sides.out").read_bytes())
        told = self.run_example(sheets / "too_long.in")
        self.assertEqual((told.returncode, told.stdout), (1, b""))
        self.assertIn(b"RefusedSheet: 7: sheet longer than 65,536 bytes", told.stderr)

    def test_length(self) -> None:
        self.assertEqual(len(self.EXAMPLE.read_text().splitlines()), 10)
