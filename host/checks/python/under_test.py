"""What all cases share: where things lie, the module, the library that is asked, and sheets."""
import sys
import unittest
from pathlib import Path

ROOT = Path(__file__).resolve().parents[3]
sys.path.insert(0, str(ROOT / "host" / "python"))

import woolyard  # noqa: E402  (the line above says where it lies)
from woolyard import Refusal, Refused, State  # noqa: E402

PATH = sys.argv[1]
library = woolyard.Woolyard(PATH)

# Document 01's sheet, with nitrogen's count, and its states.
EXAMPLE = b"1\n300000 1000000\n3\n300000 1000000\n120000 500000\n55999 500000\n0\n"
EXAMPLE_STATES = [
    State(0, 300_000, 1_000_000),
    State(1, 300_000, 1_000_000),
    State(1, 120_000, 500_000),
    State(1, 55_999, 500_000),
]

# With the byte at which the fault is met where it comes in parts, and its place.
FAULTY = [
    (b"1\n7 7\n1\n120000  500000\n0\n", 22, 8),
    (b"1\n7 7\n1\n1234567890 12345678901\n0\n", 29, 8),
    (b"1\n7 7\n1001\n7 7\n0\n", 10, 6),
    (b"1\n7 7\n0\n0\n0\n", 10, 10),
    (b"1\n7 7\n0\n\xff\xfe\x00\n", 11, 8),
]

TOO_LONG = b"0" * (woolyard.SHEET_MOST_BYTES + 1)


class Cases(unittest.TestCase):
    def assert_refused(self, refusal: Refusal, call, *arguments, **named) -> None:
        """Both forms: raised, and returned."""
        with self.assertRaises(Refused) as caught:
            call(*arguments, **named)
        told = caught.exception
        self.assertEqual((told.number, told.refusal, told.meaning), (int(refusal), refusal, refusal.meaning))
        self.assertEqual(woolyard.reply(call, *arguments, **named), told)
