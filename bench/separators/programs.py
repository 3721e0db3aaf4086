#!/usr/bin/env python3
"""Random separators and inputs: programs.py FOLDER COUNT SEED

Each program is a file FOLDER/N.awk that prints each record with its number and its fields with theirs, and FOLDER/N.in is
its input: a short text of few bytes, so that separators stand at its ends and beside each other. FS is of every kind:
blanks, a byte, the empty text, or an ERE; RS is a byte or empty.
"""

import os
import random
import sys

FIELD_SEPARATORS = [
    " ", " ", "x", ":", ".", "|", "*", "a", "1", "", "[ ]", "ab", "ab+", "a|b", "a|ab", "[0-9]+", ", *", "x*", "(a|b)*",
    "^a", "b$", "^a|b", "a{2}", "(ab)+|b", "[[:space:]]+", ":+", "a?b", "ba*", "x|", "[^a]",
]
RECORD_SEPARATORS = ["\\n", "\\n", "", "", "", ";", "a", " "]
BYTES = "aabbx1:,;  \n\n\n"
PROGRAM = """BEGIN { FS = "%s"; RS = "%s" }
{
    print NR ": <" $0 "> " NF
    for (i = 1; i <= NF; i++) print i " <" $i ">"
}
"""


def main():
    folder, count, seed = sys.argv[1], int(sys.argv[2]), int(sys.argv[3])
    chance = random.Random(seed)
    for number in range(count):
        program = PROGRAM % (chance.choice(FIELD_SEPARATORS), chance.choice(RECORD_SEPARATORS))
        text = "".join(chance.choice(BYTES) for _ in range(chance.randrange(40)))
        with open(os.path.join(folder, f"{number}.awk"), "w") as file:
            file.write(program)
        with open(os.path.join(folder, f"{number}.in"), "w", newline="") as file:
            file.write(text)


main()
