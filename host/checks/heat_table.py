"""Prints the table of woolyard_heat_table as crates/heat_table has it in src/entries.rt: hydrogen's ideal heat capacity at each whole
kelvin from 14 to 1000, in whole J/(kg K). Each entry is the polynomial of document 01's Table 4 with its decimals as they are printed, in
exact fractions, times 1000 and rounded down. The crate's table is proved to be that; `host/checks/check` compares it with what is printed here.

    python3 host/checks/heat_table.py
"""
from fractions import Fraction
from math import floor

# The last whole kelvin of each row, and A1 to A5 as printed. The last row goes on; the table ends at 1000 K.
TABLE_4 = (
    (40, "10.3121 0 0 0 0"),
    (150, "14.759936 -0.21977388 0.32100769e-2 -0.120615002e-4 0.57121808e-8"),
    (500, "6.6557899 0.15621077 -0.86913643e-3 0.18972274e-5 -0.14418461e-8"),
    (1000, "14.4714861 -0.7176787e-3 0.18638538e-5 -0.5306547e-9 0.46649305e-13"),
)


def entry(kelvin):
    row = next(row for last, row in TABLE_4 if kelvin <= last)
    heat = sum(Fraction(coefficient) * kelvin**power for power, coefficient in enumerate(row.split()))
    return floor(1000 * heat)


kelvins = range(14, 1001)
print(f"const ENTRIES: [u16; {len(kelvins)}] = [")
for kelvin in kelvins:
    print(f"    {entry(kelvin):_}, // {kelvin} K")
print("];")
