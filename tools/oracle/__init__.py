"""A second deletion machine, in Python, for the outside cases: README.md says what it is and who uses it."""
