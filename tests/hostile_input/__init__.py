"""The tests of tests/hostile, a module for each subject."""
