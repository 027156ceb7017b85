"""Tests host/python/woolyard.py and its example, in the repository's root:

    python3 host/checks/python/test_woolyard.py PATH-OF-libwoolyard.so

Silent unless something fails, which is then told and ends it with status 1. Nothing is written outside of a temporary folder.
"""
import io
import sys
import unittest

# the folders of the sources stay as they are
sys.dont_write_bytecode = True

CASES = ("header_cases", "answer_cases", "stored_cases", "value_cases", "library_cases")


def main() -> int:
    if len(sys.argv) != 2:
        print("usage: test_woolyard.py PATH-OF-libwoolyard.so", file=sys.stderr)
        return 2
    told = io.StringIO()
    result = unittest.TextTestRunner(told).run(unittest.defaultTestLoader.loadTestsFromNames(CASES))
    if result.wasSuccessful() and result.testsRun > 0:
        return 0
    print(told.getvalue(), file=sys.stderr)
    return 1


if __name__ == "__main__":
    sys.exit(main())
