#!/usr/bin/env python3
"""Random programs that sum up, in loops too, over random inputs: one run over the whole beside the two stages that `awk-check --each` and
`awk-check --all` print the programs of, over random pieces cut behind newlines. Outputs and statuses are compared byte by
byte. Each that differs is printed with its program, its input and its pieces; the last line is `N compared, M differ`, and
the status is 1 where one differs. Where a piece ends with another status than 0, nothing is said of the whole, and nothing
is compared.

  bench/merging.py [COUNT [SEED]]

With EXECUTABLE and AWK_CHECK in the environment it is these, and not those that the launchers build.
"""
import random
import sys
import tempfile

sys.dont_write_bytecode = True
from inputs import AWK, CHECK, COMMENTS, Rules, input_of, pieces_of, run

ARRAYS, SUMS = ["n", "bytes", "by_day"], ["s", "count", "m2"]


class Writer(Rules):
    """Writes one program, whose rules have loops and variables of the record."""

    variables = ["t", "out", "x1"]

    def __init__(self, numbers):
        super().__init__(numbers)
        self.arrays = numbers.sample(ARRAYS, numbers.randint(0, 3))
        self.sums = numbers.sample(SUMS, numbers.randint(0 if self.arrays else 1, 3))
        self.pairs = [name for name in self.arrays if numbers.randrange(3) == 0]

    # Rules.

    def number(self, known):
        return self.pick(["$2", "$3", "1", "NF", "length", "2 * $2", "($1 == \"a\")", "index($0, \"b\")", "-1", "$2 + limit", self.variable(known)])

    def sum_place(self, known):
        if self.arrays and (not self.sums or self.chance(2)):
            name = self.pick(self.arrays)
            key = self.value(known) + (f", {self.value(known, 1)}" if name in self.pairs else "")
            return f"{name}{self.pick(['', ' '])}[{key}]"
        return self.pick(self.sums)

    def said(self, known):
        place = self.sum_place(known)
        return self.pick([f"{place}++", f"++{place}", f"{place} += {self.number(known)}", f"{place} += {self.value(known, 1)}"])

    # END.

    def of_sums(self, depth):
        kind, less = self.numbers.randrange(10 if depth > 0 else 5), depth - 1
        if kind < 2 and self.sums:
            return self.pick(self.sums)
        if kind < 4 and self.arrays:
            return self.element(depth)
        if kind < 5:
            return self.pick(["1", '"end {"', "limit", "unset", "OFS"])
        if kind == 5:
            return f"({self.of_sums(less)} {self.pick(['+', '-', '*', '<', '=='])} {self.of_sums(less)})"
        if kind == 6:
            return f"length({self.of_sums(less)})"
        if kind == 9:
            return f"({self.of_sums(less)} {self.pick(['~', '!~'])} {self.pick(['/1/', '/^a/', '/[2-4]$/', self.of_sums(less)])})"
        if kind == 7:
            return f"sprintf(\"%5s|\", {self.of_sums(less)})"
        if self.arrays:
            return f"({self.of_sums(less)} in {self.pick(self.arrays)})"
        return f"({self.of_sums(less)} ? {self.of_sums(less)} : {self.of_sums(less)})"

    def element(self, depth):
        name = self.pick(self.arrays)
        key = self.pick(['"a"', '"b"', "1", '""']) if depth <= 0 else self.of_sums(depth - 1)
        return f"{name}[{key}]"

    def walk(self, depth):
        name, k = self.pick(self.arrays), self.pick(["k", "k"] + self.variables)
        body = self.pick([f"print {k}, {name}[{k}]", f"printf \"%s=%d;\", {k}, {name}[{k}]", f"if ({name}[{k}] > 1) print {name}[{k}]"])
        return f"for ({k} in {name}) {body}" if self.chance(2) else f"for ({k} in {name}) {{ {body}; {self.shown(depth - 1)} }}"

    def changed(self, depth):
        """What END changes, or repeats, or ends with."""
        kind, times = self.numbers.randrange(7), self.numbers.randint(0, 3)
        place = self.element(0) if self.arrays and self.chance(2) else self.pick(["x", "y"] + self.sums)
        if kind == 0 and self.arrays:
            return f"delete {self.pick([self.element(0), self.pick(self.arrays)])}"
        if kind == 1 and depth > 0:
            i, j = f"i{depth}", self.pick(self.variables)
            return self.pick([f"for ({i} = 0; {i} < {times}; {i}++) {self.all_shown(depth - 1)}", f"for ({j} = 0; {j} < {times}; {j}++) print {j}, {self.of_sums(1)}"])
        if kind == 2 and depth > 0:
            return f"{{ w{depth} = {times}; while (w{depth}-- > 0) {self.all_shown(depth - 1)} }}"
        if kind == 3 and depth > 0:
            return f"{{ d{depth} = 0; do {{ {self.shown(depth - 1)}; {self.pick(['break', 'continue', ';'])} }} while (++d{depth} < {times}) }}"
        if kind == 4:
            name = self.pick(self.variables)
            return f"{{ {name} = {self.of_sums(1)}; {name} = {name} \"-\"; print {name}, {self.of_sums(1)} }}"
        if kind == 5 and self.chance(3):
            return f"if ({self.of_sums(1)}) exit {self.pick(['', self.of_sums(1)])}"
        return self.pick([f"{place} {self.pick(['', '+', '-', '*'])}= {self.of_sums(1)}", f"{place}++", f"print --{place}, {place}"])

    def shown(self, depth):
        if self.chance(4):
            return self.changed(depth)
        kind = self.numbers.randrange(6)
        if kind == 0 and depth > 0 and self.arrays:
            return self.walk(depth)
        if kind == 1 and depth > 0:
            return f"if ({self.of_sums(1)}) {self.all_shown(depth - 1)}"
        if kind == 2:
            return f"printf \"%s %s\\n\", {self.of_sums(1)}, {self.of_sums(1)}"
        return f"print {', '.join(self.of_sums(2) for _ in range(self.numbers.randint(1, 3)))}"

    def all_shown(self, depth):
        return self.in_braces([self.shown(depth) for _ in range(self.numbers.randint(1, 3))])

    # A program.

    def item(self):
        kind = self.numbers.randrange(5)
        pattern = self.test([]) + " " if kind < 3 else ""
        return pattern + self.block([], 2)

    def begin(self):
        return "BEGIN " + self.pick(['{ FS = ":" }', '{ OFS = "-"; limit = 3 }', "{ limit = 2 + 3 }", "{ }", '{\n    OFS = "}" # {\n}'])

    def text(self):
        items = [self.begin() for _ in range(self.numbers.randint(0, 2))]
        items += [self.item() for _ in range(self.numbers.randint(1, 4))]
        # (each sum is one somewhere)
        items.append("{ " + "; ".join([f"{name}[$1{', 1' if name in self.pairs else ''}]++" for name in self.arrays] + [f"{name}++" for name in self.sums]) + " }")
        ends = ["END " + self.all_shown(2) for _ in range(self.numbers.randint(1, 2))]
        if self.arrays:
            ends[-1] = "END { " + "; ".join(f"for (k in {name}) print \"{name}\", k, {name}[k]" for name in self.arrays) + " }"
        for end in ends:
            items.insert(self.numbers.randint(0, len(items)) if self.chance(3) else len(items), end)
        text = "" if self.chance(3) else self.pick(COMMENTS) + "\n"
        for item in items:
            text += item + self.pick(["\n", "\n", "; ", " ", ";\n", f" {self.pick(COMMENTS)}\n", "\n\n", f"\n{self.pick(COMMENTS)}\n"])
        return text if self.chance(2) else text.rstrip("\n")


def derived(option, words, folder):
    """The program that the checker prints for a stage, in a file of its own, or nothing."""
    text, status, told = run([CHECK, option, *words])
    if status != 0:
        print(told.decode("utf-8", "replace"), end="")
        return None
    name = f"{folder}/{option[2:]}.awk"
    with open(name, "wb") as file:
        file.write(text)
    return name


def stages(each, all_of_them, options, pieces):
    """What the two stages print and end with, or nothing where a piece doesn't end well."""
    states = b""
    for piece in pieces:
        printed, status, _ = run([AWK, *options, "-f", each], piece)
        if status != 0:
            return None
        states += printed
    return run([AWK, *options, "-f", all_of_them], states)


def main():
    count, seed = (int(word) for word in (sys.argv[1:] + ["500", "7"][len(sys.argv[1:]):])[:2])
    compared = differ = 0
    with tempfile.TemporaryDirectory() as folder:
        for number in range(count):
            numbers = random.Random(f"{seed} {number}")
            text, given = Writer(numbers).text(), input_of(numbers)
            options = numbers.choice([[], [], ["-F:"], ["-v", "limit=1"], ["-v", "OFS=;"]])
            program = f"{folder}/program.awk"
            with open(program, "w", encoding="utf-8") as file:
                file.write(text)
            each = derived("--each", [*options, "-f", program], folder)
            all_of_them = derived("--all", [*options, "-f", program], folder)
            whole = run([AWK, *options, "-f", program], given)
            pieces = pieces_of(numbers, given)
            found = stages(each, all_of_them, options, pieces) if each and all_of_them else ("no program",)
            if found is None:
                continue
            compared += 1
            if found != whole:
                differ += 1
                print(f"DIFFERS {seed} {number}: {options}\n{text}\n{pieces}\none run: {whole}\nin two stages: {found}")
    print(f"{compared} compared, {differ} differ")
    return 1 if differ else 0


sys.exit(main())
