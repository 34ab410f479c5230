"""Random cases for `tests/differ.py`: files and words of a command, made from a random generator alone."""
