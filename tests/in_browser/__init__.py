"""Tests of the sheet in a browser, which tests/web runs: a module for each subject."""
