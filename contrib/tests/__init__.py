"""Tests of the front end. Those that need the program are skipped where there is none."""
