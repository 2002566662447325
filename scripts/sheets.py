"""Sheets in text files, whose format reference/cases/README.md has, and the verdicts on them."""
import os
import re
import shlex
import subprocess

ROOT = os.path.dirname(os.path.dirname(os.path.abspath(__file__)))


def paragraphs(path):
    """The lines of each paragraph of a file, without remarks."""
    with open(os.path.join(ROOT, path), encoding="utf-8") as f:
        texts = f.read().split("\n\n")
    kept = ([line for line in text.split("\n") if line and not line.startswith("#")] for text in texts)
    return [lines for lines in kept if lines]


def line_bytes(line):
    times, _, repeated = line.partition(" x ")
    if repeated:
        return line_bytes(repeated) * int(times)
    text, end = (line[:-1], b"") if line.endswith("\\") else (line, b"\n")
    return re.sub(rb"\\x(..)", lambda m: bytes([int(m[1], 16)]), text.encode()) + end


def sheet(lines):
    return b"".join(map(line_bytes, lines))


def verdict(data):
    """What scripts/shelfcheck, or the command in SHELFCHECK, writes for a sheet."""
    command = shlex.split(os.environ.get("SHELFCHECK", "scripts/shelfcheck"))
    out = subprocess.run(command, input=data, stdout=subprocess.PIPE, check=True, cwd=ROOT).stdout
    return out.decode("utf-8", "backslashreplace")
