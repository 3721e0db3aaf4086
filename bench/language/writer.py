"""What random programs of every group are made of: operators, control and records that are only read."""

import random

from operators import Operators

WORDS = ["1", "2", "a", "k3", "07", "0", "-4", "10", "b", "ab", "3b", "-"]


class Writer(Operators):
    """Writes random programs on which awks have to agree.

    Numbers are whole and stay within 31 bits, and texts stay short: what can grow in a loop grows by a sum or by a few
    bytes. A quotient is exact, or cut off by int. A field stands only where there is one, or where its text is taken,
    since awks differ on a missing field that is compared. A group adds forms to the lists of this class.
    """

    def __init__(self, seed):
        self.random = random.Random(seed)
        self.numbers = ["a", "b", "c"]
        self.texts = ["s", "t"]
        self.counters = 0
        self.in_rule = self.in_function = False

    # Choices.

    def pick(self, *choices):
        return self.random.choice(choices)

    def below(self, bound):
        return self.random.randrange(bound)

    def one_of(self, forms):
        return self.random.choice(forms)()

    def several(self, least, most, form, between=" "):
        return between.join(form() for _ in range(self.random.randint(least, most)))

    # Expressions.

    def number_name(self):
        return self.random.choice(self.numbers)

    def text_name(self):
        return self.random.choice(self.texts)

    def field(self):
        return self.pick("$1", "$2", "$0") if self.in_rule else "$0"

    def counted(self):
        return self.pick("NR", "NF", "FNR")

    def raw_field(self):
        """A field as it is, where there is one."""
        return self.pick("$1", "$2") if self.in_rule else '"7"'

    def constant(self):
        return self.pick('"a"', '"b"', '""', '"k"', '"3"', '"2b"', '"0"', '"ab"', '" "', '":"', '"-"')

    def ere(self):
        return self.pick("1", "^a", "[0-9]$", "a|2", "0*7", "-", "b+", "^$", "a?b", "k.", "(a|b)+$")

    def spelled(self, ere):
        """A regular expression as a string constant."""
        return '"' + ere.replace("\\", "\\\\") + '"'

    def number_leaves(self):
        return [
            lambda: str(self.below(10)),
            self.number_name,
            self.number_name,
            self.counted,
            lambda: f"({self.pick(self.constant(), self.field())} + 0)",
        ]

    def text_leaves(self):
        return [self.constant, self.text_name, self.field]

    def number_forms(self, height):
        number, value, place = lambda: self.number(height), lambda: self.value(height), self.number_name
        return [
            lambda: self.number(0),
            lambda: self.number(0),
            lambda: f"({number()} {self.pick('+', '-')} {number()})",
            lambda: f"({number()} % 7 * {self.below(4)})",
            lambda: "({0} * {1} / {1})".format(number(), 1 + self.below(5)),
            lambda: f"(({number()} % 3 + 3) ^ {self.below(4)})",
            lambda: f"({self.pick('-', '+')} {number()})",
            lambda: f"(! {value()})",
            lambda: f"({value()} ? {number()} : {number()})",
            lambda: self.condition(height),
            lambda: self.condition(height),
            lambda: f"({place()} = {number()} % 100)",
            lambda: f"({place()} {self.pick('+=', '-=')} {number()} % 10)",
            lambda: f"({place()} {self.pick('%=')} {1 + self.below(9)})",
            lambda: self.pick(f"{place()}++", f"{place()}--", f"++{place()}", f"--{place()}"),
            self.chain,
        ]

    def chain(self):
        """Operators without parentheses."""
        parts = [self.number(0)]
        for _ in range(self.below(4)):
            operator = self.pick("+", "-", "*", "%", "+", "-", "*")
            parts += [operator, str(1 + self.below(9)) if operator in "*%" else self.number(0)]
        if self.below(3) == 0:
            parts = [self.pick("-", "+", "!")] + parts
        if self.below(4) == 0:
            parts += [self.pick("<", "<=", "==", "!=", ">", ">="), self.number(0)]
        if self.below(4) == 0:
            parts += [self.pick("&&", "||"), self.value(0)]
        if self.below(6) == 0:
            parts += ["?", self.value(0), ":", self.value(0)]
        return f"({' '.join(parts)})"

    def condition(self, height):
        value = lambda: self.value(height)
        forms = [
            lambda: f"({value()} {self.pick('<', '<=', '==', '!=', '>', '>=')} {value()})",
            lambda: f"({value()} {self.pick('<', '<=', '==', '!=', '>', '>=')} {value()})",
            lambda: f"({value()} &&{self.pick(' ', ' ', chr(10))}{value()})",
            lambda: f"({value()} || {value()})",
            lambda: f"({value()} {self.pick('~', '!~')} /{self.ere()}/)",
            lambda: f"({value()} {self.pick('~', '!~')} {self.spelled(self.ere())})",
            lambda: self.pick(f"(/{self.ere()}/)", f"(! /{self.ere()}/)", f"(/{self.ere()}/ && {value()})"),
        ]
        return self.one_of(forms)

    def text_forms(self, height):
        text, value, leaf = lambda: self.text(height), lambda: self.value(height), lambda: self.text(0)
        return [
            leaf,
            leaf,
            lambda: f"({text()} {self.pick('', self.constant() + ' ')}{value()})",
            lambda: f"({value()} ? {text()} : {text()})",
            lambda: f"({self.text_name()} = {leaf()})",
            lambda: f"({self.text_name()} = ({leaf()} {self.constant()}))",
        ]

    def number(self, height):
        return self.one_of(self.number_forms(height - 1) if height > 0 else self.number_leaves())

    def text(self, height):
        return self.one_of(self.text_forms(height - 1) if height > 0 else self.text_leaves())

    def value(self, height):
        return self.number(height) if self.below(5) < 3 else self.text(height)

    # Statements.

    def printed(self):
        return f"({self.loose()})" if self.below(4) == 0 else self.value(2)

    def print(self):
        return f"print {self.several(1, 3, self.printed, ', ')}"

    def simple_forms(self):
        """Statements without statements in them."""
        return [self.print, self.print, lambda: self.value(2)]

    def compound_forms(self, height, in_loop):
        s, value = lambda: self.statement(height, in_loop), lambda: self.value(2)
        forms = [
            lambda: f"if ({value()}) {{ {s()} }}",
            lambda: f"if ({value()}) {{ {s()} }}{self.pick(' ', chr(10))}else {{ {s()} }}",
            lambda: f"if ({value()}) {self.print()}{self.pick('; ', chr(10))}else {self.print()}",
            lambda: f"if ({value()}) {{ {s()} }} else if ({value()}) {{ {s()} }} else {{ {s()} }}",
            lambda: f"{{ {s()}; {s()} }}",
            lambda: f"{s()}; {s()}",
        ]
        forms += [lambda: self.loop(height)] * 4
        forms += [lambda: self.pick("break", "continue")] * 2 if in_loop else []
        forms += [lambda: f"exit {self.number(1)} % 100", lambda: "exit"] if self.below(8) == 0 else []
        forms += [lambda: "next"] if self.in_rule and self.below(4) == 0 else []
        return forms

    def counter(self):
        """A name that only a loop changes."""
        self.counters += 1
        return f"i{self.counters}"

    def loop(self, height):
        i, bound, body = self.counter(), 1 + self.below(4), self.statement(height, True)
        return self.pick(
            f"for ({i} = 0; {i}++ < {bound};) {{ {body} }}",
            f"for ({i} = 0; {i} < {bound}; {i}++) {{ {body} }}",
            f"for ({i} = {bound}; {i}; {i}--) {{ {body} }}",
            f"{i} = 0; while ({i}++ < {bound}){self.pick(' ', chr(10))}{{ {body} }}",
            f"{i} = 0; do {{ {body} }} while ({i}++ < {bound})",
            f"{i} = 0; for (;;) {{ if ({i}++ >= {bound}) break; {body} }}",
        )

    def statement(self, height, in_loop=False):
        forms = self.simple_forms()
        if height > 0:
            forms = self.compound_forms(height - 1, in_loop) + forms
        return self.one_of(forms)

    # Programs, their inputs and their words.

    def block(self, in_rule=False):
        self.in_rule = in_rule
        between = self.pick("; ", "; ", "\n", " # k\n", ";\n\n")
        block = f"{{ {self.several(1, 4, lambda: self.statement(self.below(3)), between)} }}"
        self.in_rule = False
        return block

    def pattern(self, height):
        self.in_rule = True
        pattern = self.value(height)
        self.in_rule = False
        return pattern

    def items(self):
        rule = lambda: self.block(True)
        return [
            lambda: f"BEGIN {self.block()}",
            lambda: f"END {self.block()}",
            rule,
            rule,
            lambda: f"{self.pattern(2)} {rule()}",
            lambda: f"{self.pattern(2)} {rule()}",
            lambda: self.pattern(2),
            lambda: f"{self.pattern(1)}, {self.pattern(1)} {rule()}",
            lambda: f"{self.pattern(1)}, {self.pattern(1)}",
        ]

    def program(self):
        return self.several(1, 4, lambda: self.one_of(self.items()), "\n") + "\n"

    def line(self):
        return self.several(2, 4, lambda: self.random.choice(WORDS))

    def input(self):
        return "".join(f"{self.line()}\n" for _ in range(self.below(6)))

    def words(self):
        """Options and operands, which stand behind that of the program file."""
        return []
