"""Tries the mutants of crates/*/must-fail: tests/must_fail.py says how."""
