"""Tests of the tools: tools/test_case.py and tools/test_solve.py run them."""
