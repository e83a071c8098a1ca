"""The table of crates/wsgs/specs/BadRecords.antt: records with the numbers that they get before an accepted start and after one."""
import ast
import pathlib
import re
import sys

TABLE = pathlib.Path(__file__).resolve().parent.parent / "crates/wsgs/specs/BadRecords.antt"
# how many records it has, so that none is lost
COUNT = 82
TEXT = r'"(?:[^"\\]|\\.)*"'
ASCII = re.compile(rf"ascii ({TEXT}) (\d+) (\d+)")
RAW = re.compile(rf"raw \(bytes ({TEXT}) \+\+ (?:replicate (\d+) (\d+)|\((\d+) ∷ \[\]\))\) (\d+) (\d+)")


def row(line):
    """A record with its two numbers; the program ends where the line is not understood."""
    if m := ASCII.fullmatch(line):
        return ast.literal_eval(m[1]).encode(), int(m[2]), int(m[3])
    if m := RAW.fullmatch(line):
        more = [int(m[3])] * int(m[2]) if m[2] else [int(m[4])]
        return ast.literal_eval(m[1]).encode() + bytes(more), int(m[5]), int(m[6])
    sys.exit(f"record_table: not understood: {line}")


def table():
    lines = TABLE.read_text().split("\nbad_records =\n")[1].splitlines()
    lines = [line.strip().removeprefix("∷ ") for line in lines]
    assert lines.pop() == "[]"
    rows = [row(line) for line in lines if not line.startswith("--")]
    assert len(rows) == COUNT, f"{len(rows)} records in the table"
    return rows
