#!/usr/bin/env python3
"""Random programs that treat each record for itself, with loops, variables and arrays, over random inputs: one run over the whole beside
runs over random pieces cut behind newlines, whose outputs are joined. Only programs are compared of which `awk-check --pieces`
says yes: some are written that break the rules. Outputs are compared byte by byte. Each that differs is printed with its program,
its input and its pieces; the last line is `N compared, M differ`, and the status is 1 where one differs. Where a piece ends with
another status than 0, nothing is said of the whole, and nothing is compared.

  bench/pieces.py [COUNT [SEED]]

With EXECUTABLE and AWK_CHECK in the environment it is these, and not those that the launchers build.
"""
import random
import sys
import tempfile

sys.dont_write_bytecode = True
from inputs import AWK, CHECK, Rules, input_of, pieces_of, run

class Writer(Rules):
    """Writes one program."""

    variables = ["s", "t", "n", "out"]
    own_arrays = ["p", "q"]

    def __init__(self, numbers):
        super().__init__(numbers)
        # (a program that breaks the rules in some places; most are refused)
        self.is_careless = self.chance(4)

    def said(self, known):
        kind = self.numbers.randrange(3)
        if kind == 0:
            return "print"
        if kind == 1:
            return f"print {', '.join(self.value(known) for _ in range(self.numbers.randint(1, 3)))}"
        return f"printf \"%s|%s\\n\", {self.value(known)}, {self.value(known)}"

    def item(self):
        kind = self.numbers.randrange(5)
        if kind == 0:
            return self.test([])
        pattern = self.test([]) + " " if kind < 3 else ""
        return pattern + self.block([], 2)

    def text(self):
        items = [self.pick(['BEGIN { FS = ":" }', 'BEGIN { limit = 2; OFS = "-" }']) for _ in range(self.numbers.randint(0, 1))]
        items += [self.item() for _ in range(self.numbers.randint(1, 3))]
        return "\n".join(items) + "\n"


def on_pieces(options, program, pieces):
    """What the runs over the pieces print, joined, or nothing where one doesn't end well."""
    joined = b""
    for piece in pieces:
        printed, status, _ = run([AWK, *options, "-f", program], piece)
        if status != 0:
            return None
        joined += printed
    return joined, 0, b""


def main():
    count, seed = (int(word) for word in (sys.argv[1:] + ["500", "7"][len(sys.argv[1:]):])[:2])
    compared = differ = 0
    with tempfile.TemporaryDirectory() as folder:
        for number in range(count):
            numbers = random.Random(f"{seed} {number}")
            text, given = Writer(numbers).text(), input_of(numbers)
            options = numbers.choice([[], [], ["-F:"], ["-v", "limit=1"], ["-v", "OFS=;"]])
            pieces = pieces_of(numbers, given)
            program = f"{folder}/program.awk"
            with open(program, "w", encoding="utf-8") as file:
                file.write(text)
            if run([CHECK, "--pieces", *options, "-f", program])[1] != 0:
                continue
            found = on_pieces(options, program, pieces)
            if found is None:
                continue
            compared += 1
            whole = run([AWK, *options, "-f", program], given)
            if found != whole:
                differ += 1
                print(f"DIFFERS {seed} {number}: {options}\n{text}\n{pieces}\none run: {whole}\non pieces: {found}")
    print(f"{compared} compared, {differ} differ")
    return 1 if differ else 0


sys.exit(main())
