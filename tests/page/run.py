"""Runs the tests of the pages in the folder that PAGES names: `run.py [NAME ..]`, all of them if none is named."""

import sys
import unittest
from pathlib import Path

import pages


def main(names):
    loader = unittest.TestLoader()
    here = str(Path(__file__).parent)
    tests = loader.loadTestsFromNames(names) if names else loader.discover(here, pattern="test_*.py")
    try:
        result = unittest.TextTestRunner(verbosity=2).run(tests)
    finally:
        pages.close()
    return 0 if result.wasSuccessful() and result.testsRun > 0 else 1


if __name__ == "__main__":
    sys.exit(main(sys.argv[1:]))
