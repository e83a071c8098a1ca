"""The level in force, as the second program takes it: what the file LEVEL at the repository's root holds."""
import pathlib

LEVEL = str(int((pathlib.Path(__file__).resolve().parent.parent / "LEVEL").read_text()))
