"""Tests of solve.py and of package solver; tools/test_solve.py runs them."""
