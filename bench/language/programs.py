#!/usr/bin/env python3
"""Random programs of a group of the language's forms: programs.py FOLDER GROUP COUNT SEED

Each program is a file FOLDER/N.awk, FOLDER/N.in is its standard input, and FOLDER/N.words has its other options and its
operands, one a line. The files FOLDER/files/f1 and f2 are there for all of them.
"""

import os
import sys

sys.dont_write_bytecode = True

from arrays import Arrays
from extensions import Extensions
from formats import Formats
from functions import Functions
from mixed import Mixed
from operands import Operands
from records import Records
from streams import Commands, Streams
from texts import Texts
from writer import Writer

GROUPS = {
    "control": Writer,
    "records": Records,
    "arrays": Arrays,
    "functions": Functions,
    "texts": Texts,
    "formats": Formats,
    "mixed": Mixed,
    "operands": Operands,
    "streams": Streams,
    "commands": Commands,
    "extensions": Extensions,
}


def write(folder, name, text):
    with open(os.path.join(folder, name), "w", encoding="ascii", newline="") as file:
        file.write(text)


def main(folder, group, count, seed):
    os.makedirs(os.path.join(folder, "files"), exist_ok=True)
    for name in ("f1", "f2"):
        write(folder, f"files/{name}", Writer(f"{group} {seed} {name}").input())
    for number in range(int(count)):
        writer = GROUPS[group](f"{group} {seed} {number}")
        write(folder, f"{number}.awk", writer.program())
        write(folder, f"{number}.in", writer.input())
        write(folder, f"{number}.words", "".join(f"{word}\n" for word in writer.words()))


if __name__ == "__main__":
    main(*sys.argv[1:])
