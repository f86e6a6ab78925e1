#!/usr/bin/env python3
"""Tests of case.py and of the package cases, which stand in tools/tests/case. Run it anywhere: python3 tools/test_case.py [-v] [-k NAME]"""
import os
import sys
import unittest

TOOLS = os.path.dirname(os.path.abspath(__file__))

if __name__ == "__main__":
    sys.path.insert(0, TOOLS)
    unittest.main(module=None, argv=["test_case.py", "discover", "-s", os.path.join(TOOLS, "tests", "case"), "-t", TOOLS] + sys.argv[1:])
