"""Tests of case.py and of package cases; tools/test_case.py runs them."""
