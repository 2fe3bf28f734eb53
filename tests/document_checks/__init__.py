"""The checks of tests/documents, a module for each subject."""
