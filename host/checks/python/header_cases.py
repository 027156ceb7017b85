"""The module's constants and the types of its functions, beside include/woolyard.h."""
import ctypes
import re
import unittest

from under_test import ROOT, woolyard
from woolyard import Answer, Band, Fluid, Kind, Line, Refusal, Side, SideAnswer, Walk

HEADER = re.sub(r"/\*.*?\*/", "", (ROOT / "include" / "woolyard.h").read_text(), flags=re.DOTALL)

ARRAY_LENGTHS = {name: getattr(woolyard, f"_{name}") for name in ("CURSOR", "PARTS", "REPORT", "REPORTING")}

SINGLE = ("ABI", "BOOK_BYTES", "SHEET_MOST_BYTES", "SECTION_MOST_STATES", "WALK_ENOUGH")
SCALINGS = ("SCALING_LEAST", "SCALING_MOST", "SCALING_NONE")


def members(names: type, before: str = "") -> dict:
    """With the names that are one in the module."""
    return {before + name: int(member) for name, member in names.__members__.items()}


def places(fields: str) -> dict:
    return {name: place for place, name in enumerate(fields.split())}


class Header(unittest.TestCase):
    def test_constants(self) -> None:
        """All of the header's, and no other: what has a name in the module, and where the figures of a tuple lie."""
        defined = {name: int(number) for name, number in re.findall(r"#define WOOLYARD_(\w+) (\d+)", HEADER)}
        own = {name: getattr(woolyard, name) for name in SINGLE + SCALINGS}
        own.update(ARRAY_LENGTHS, ANSWERED=woolyard._ANSWERED)
        own.update(members(Refusal), **members(Fluid), **members(Side), **members(Kind, "KIND_"))
        # a refused state has no kind, and so the module has no name for it
        own.update(KIND_NONE=0)
        own.update(places("KIND GAS_ROOT DENSE_ROOT GAS_DENSITY DENSE_DENSITY"), **places("ROOT DENSITY"))
        own.update(places("WALK_ROOT WALK_VALUES"), **places("BAND_LOWER BAND_UPPER"))
        own.update(places("LINE_FLUID LINE_MILLIKELVIN LINE_PASCALS LINE_NUMBER LINE_FIGURES"))
        self.assertEqual(own, defined)

    def test_fields_lie_where_the_header_has_them(self) -> None:
        self.assertEqual(Answer._fields, ("kind", "gas_root", "dense_root", "gas_density", "dense_density"))
        self.assertEqual(SideAnswer._fields, ("root", "density"))
        self.assertEqual(Walk._fields, ("gas_root", "values"))
        self.assertEqual(Band._fields, ("lower_root", "upper_root"))
        self.assertEqual(Line._fields, ("fluid", "millikelvin", "pascals", "reply"))

    def test_functions(self) -> None:
        declared = re.findall(r"uint64_t woolyard_(\w+)\(([^)]*)\);", HEADER)
        self.assertEqual([name for name, _ in sorted(declared)], sorted(woolyard._PARAMETERS))
        for name, parameters in declared:
            with self.subTest(name):
                expected = [] if parameters == "void" else [type_of(name, text.strip()) for text in parameters.split(",")]
                self.assertEqual(woolyard._PARAMETERS[name], expected)


def type_of(function: str, parameter: str) -> type:
    """What ctypes has for it. A place that one number is written to is an array of one."""
    array = re.fullmatch(r"(?:const )?uint64_t \w+\[(?:WOOLYARD_)?(\w+)\]", parameter)
    if array:
        length = array[1]
        return ctypes.c_uint64 * (int(length) if length.isdigit() else ARRAY_LENGTHS[length])
    lent = {"book": ctypes.c_uint8 * woolyard.BOOK_BYTES, "buffer": ctypes.c_char * woolyard.SHEET_MOST_BYTES}
    kind, name = re.fullmatch(r"(.*[ *])(\w+)", parameter).groups()
    if kind == "uint8_t *":
        return lent[name]
    return {
        "uint64_t ": ctypes.c_uint64,
        "size_t ": ctypes.c_size_t,
        "double ": ctypes.c_double,
        "const uint8_t *": ctypes.c_char_p,
        "const uint64_t *": ctypes.POINTER(ctypes.c_uint64),
        "uint64_t *": ctypes.c_uint64 * 1,
        "double *": ctypes.c_double * 1,
    }[kind]
