"""The tests of the front end, which tests/sheet runs: a module for each subject. Its `tests` returns the tests."""
