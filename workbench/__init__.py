"""The parts of brake beside the proved program: they write its files, run it, and show what it says.

No rule of bending is decided here. Each command of the table in `__main__` has a module of its own.
"""
