"""Random inputs, cut behind newlines, what is run over them, and choices of programs: read by merging.py and pieces.py."""
import os
import subprocess

ROOT = os.path.dirname(os.path.dirname(os.path.abspath(__file__)))
AWK = os.environ.get("EXECUTABLE", f"{ROOT}/awk")
CHECK = os.environ.get("AWK_CHECK", f"{ROOT}/awk-check")
WORDS = ["a", "b", "ab", "b a", "", "0", "7", "07", "-3", "12", "x:y", "\\", "%s", '"q"', "merge_what", "n", "s", "\t", "\u00e9"]
COMMENTS = ["# } a brace", "# END { print }", '# "text', "#", "# /"]


class Choices:
    """What one program is written by."""

    def __init__(self, numbers):
        self.numbers = numbers
        self.pick = numbers.choice

    def chance(self, part):
        return self.numbers.randrange(part) == 0

    def test_of(self, value, depth):
        """A test of the record, and of what `value` writes."""
        kind = self.numbers.randrange(6)
        if kind == 0:
            return self.pick(["/b/", "/[{}]/", "/\\/|a/", "!/x/", "$1 ~ /^[a-c]/"])
        if kind == 1 and depth > 0:
            return f"{self.test_of(value, depth - 1)} {self.pick(['&&', '||'])} {self.test_of(value, depth - 1)}"
        return f"{value()} {self.pick(['==', '!=', '<', '<=', '>=', '>'])} {value()}"

    def in_braces(self, texts):
        """Statements in braces, in a line or in lines."""
        if self.chance(3):
            comment = f" {self.pick(COMMENTS)}" if self.chance(3) else ""
            return "{" + comment + "\n" + "".join(f"    {text}{self.pick([';', ''])}\n" for text in texts) + "}"
        return "{ " + "; ".join(texts) + " }"


class Rules(Choices):
    """Writes the statements of rules, in loops too. What is known where a statement stands are the variables that were set
    before it; `said` writes a statement of the kind that a program is written for."""

    variables = []
    # (none: a program has no arrays of the record)
    own_arrays = []

    def __init__(self, numbers):
        super().__init__(numbers)
        self.depth = 0
        self.is_careless = False

    # What a record gives.

    def variable(self, known):
        known = [name for name in known if name not in self.own_arrays]
        return self.pick(self.variables if self.is_careless and self.chance(6) else known or ["unset"])

    def array(self, known):
        known = [name for name in known if name in self.own_arrays]
        is_any = self.own_arrays and self.is_careless and self.chance(6)
        return self.pick(self.own_arrays) if is_any else self.pick(known) if known else None

    def subscript(self, known):
        return self.pick(["1", "2", "$1", "$1, $2", "NF", '"a"', self.variable(known)])

    def filled_element(self, known):
        """An element of an array that was filled, or a field for want of one."""
        array = self.array(known)
        return f"{array}[{self.subscript(known)}]" if array else "$2"

    def asked(self, known):
        """What is asked of an array that was filled."""
        array = self.array(known)
        if array is None:
            return "NF"
        return self.pick([f"length({array})", f"({self.pick(['1', '$1', 'NF'])} in {array})", f"(($1, $2) in {array})", f"{array}[{self.subscript(known)}]"])

    def place(self, known):
        """What may be changed: not what a loop counts by."""
        if self.array(known) and self.chance(3):
            return self.filled_element(known)
        known = [name for name in known if name in self.variables]
        return self.variable(known) if known and not self.chance(3) else self.pick(["$1", "$2", "$NF", "$0", "NF"])

    def value(self, known, depth=2):
        kinds = 17 if self.own_arrays else 15
        kind, less = self.numbers.randrange(kinds if depth > 0 else 7), depth - 1
        if kind < 2:
            return f"${self.numbers.randint(0, 4)}"
        if kind < 5:
            return self.variable(known)
        if kind < 7:
            return self.pick(["NF", "2", '"k{"', "limit", "length", "$NF", '"a b"', "unset"])
        if kind == 7:
            return f"({self.value(known, less)})"
        if kind == 8:
            return f"({self.value(known, 0)} {self.pick(['+', '-', '*', ''])} {self.value(known, less)})"
        if kind == 9:
            return f"{self.pick(['length', 'toupper', 'tolower', 'int'])}({self.value(known, less)})"
        if kind == 10:
            return f"substr({self.value(known, less)}, {self.pick(['1, 2', '2'])})"
        if kind == 11:
            return f"sprintf(\"%s-%5.2s\", {self.value(known, less)}, {self.value(known, 0)})"
        if kind == 12:
            return f"({self.test(known, less)} ? {self.value(known, less)} : {self.value(known, less)})"
        if kind == 13:
            return self.exchange(known)
        if kind > 14:
            return self.asked(known)
        return self.change(known, True)

    def test(self, known, depth=1):
        return self.test_of(lambda: self.value(known, 0), depth)

    def exchange(self, known):
        target = self.pick(["", f", {self.place(known)}", f", {self.place(known)}"])
        function, pattern = self.pick(["sub", "gsub"]), self.pick(["/a/", "/[0-9]/", '"x"', "$1"])
        return f'{function}({pattern}, "{self.pick(["b", "<&>", ""])}"{target})'

    def change(self, known, in_parentheses=False):
        place = self.place(known)
        operator = self.pick(["=", "+=", "-=", "*="]) if place != "NF" else "="
        value = self.pick(["1", "3"]) if place == "NF" else self.value(known, 0)
        change = self.pick([f"{place}++", f"--{place}", f"{place} {operator} {value}"])
        return f"({change})" if in_parentheses else change

    # Statements: each gives its text and the variable that is known behind it.

    def setting(self, known):
        name = self.pick(self.variables)
        return f"{name} = {self.value(known)}", name

    def filling(self, known):
        """Also into a variable, which is set where it is known already."""
        array = self.pick(self.own_arrays)
        if self.chance(3):
            return f"delete {array}", array
        separator = self.pick(["", ', ":"', ", /[ab]/", ", $1", f", {self.value(known, 0)}"])
        call = f"split({self.value(known, 1)}, {array}{separator})"
        variables = [name for name in known if name in self.variables]
        return (f"{self.pick(variables)} = {call}" if variables and self.chance(2) else call), array

    def deleting(self, known):
        array = self.array(known)
        return f"delete {array}[{self.subscript(known)}]" if array else self.said(known)

    def loop(self, known, depth):
        """Each has a variable of its own, so that it ends."""
        self.depth += 1
        name, less = f"i{self.depth}", depth - 1
        end = self.pick(["3", "2", "NF % 4"])
        kind = self.numbers.randrange(4)
        if kind < 2:
            first, last = self.pick([("1", "++"), ("0", " += 1"), ("$1 - $1", "++")])
            head = f"for ({name} = {first}; {name} < {end}; {name}{last})"
            return head + self.body(known + [name], less, True), name
        self.depth += 1
        head, name = f"for ({name} = 0; {name} < 1; {name}++)", f"i{self.depth}"
        if kind == 2:
            inner = f"{name} = 0; while ({name}++ < {end}){self.body(known + [name], less, True)}"
        else:
            inner = f"{name} = 0; do {self.block(known + [name], less, True)} while ({name}++ < {end})"
        return (f"{head} {{ {inner} }}" if self.chance(3) else f"{{ {inner} }}"), None

    def body(self, known, depth, in_loop):
        """A statement with braces or without them, behind a head."""
        if self.chance(3):
            return self.pick([" ", "\n"]) + self.statement(known, 0, in_loop)[0] + ";"
        return " " + self.block(known, depth, in_loop)

    def statement(self, known, depth, in_loop=False):
        kind = self.numbers.randrange(12 if depth > 0 else 7)
        if self.own_arrays and self.chance(6):
            return self.filling(known)
        if self.own_arrays and self.chance(15):
            return self.deleting(known), None
        if kind < 2:
            return self.setting(known)
        if kind < 4:
            return self.said(known), None
        if kind == 4:
            return self.change(known), None
        if kind == 5:
            return self.exchange(known), None
        if kind == 6:
            return self.pick(["break", "continue"]) if in_loop else "next" if self.chance(3) else self.said(known), None
        if kind < 9:
            return self.loop(known, depth)
        if kind == 9:
            return f"if ({self.test(known)}){self.body(known, depth - 1, in_loop)}", None
        if kind == 10:
            return f"if ({self.test(known)}){self.body(known, depth - 1, in_loop)} else{self.body(known, depth - 1, in_loop)}", None
        return self.block(known, depth - 1, in_loop), None

    def block(self, known, depth, in_loop=False):
        known, texts = list(known), []
        for _ in range(self.numbers.randint(1, 4)):
            text, name = self.statement(known, depth, in_loop)
            texts.append(text)
            known += [name] if name else []
        return self.in_braces(texts)


def input_of(numbers):
    """Lines of random words, and at times none, or one without a newline."""
    lines = []
    for _ in range(numbers.choice([0, 1, 2, 5, 20, 100])):
        lines.append(numbers.choice([" ", ":", "  "]).join(numbers.choice(WORDS) for _ in range(numbers.randint(0, 5))))
    text = "".join(line + "\n" for line in lines).encode()
    return text[:-1] if numbers.randrange(3) == 0 else text


def pieces_of(numbers, text):
    """The text, cut behind some of its newlines; a piece may be empty."""
    places = [at + 1 for at, byte in enumerate(text) if byte == 10]
    cuts = sorted(numbers.choices([0] + places, k=numbers.randint(0, 6)))
    return [text[a:b] for a, b in zip([0] + cuts, cuts + [len(text)])]


def run(words, text=b""):
    """What the words print and end with."""
    told = subprocess.run(words, input=text, capture_output=True, check=False, timeout=60)
    return told.stdout, told.returncode, told.stderr
