"""Runs all tests, and says what was skipped and why."""
import os
import sys
import unittest
from collections import Counter

CONTRIB = os.path.dirname(os.path.dirname(os.path.abspath(__file__)))


def main() -> int:
    tests = os.path.join(CONTRIB, "tests")
    found = unittest.defaultTestLoader.discover(tests, top_level_dir=CONTRIB)
    result = unittest.TextTestRunner().run(found)
    for reason, count in Counter(reason for _, reason in result.skipped).items():
        print("%d skipped: %s" % (count, reason))
    return 0 if result.wasSuccessful() else 1


if __name__ == "__main__":
    sys.exit(main())
