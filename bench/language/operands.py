"""Random programs with assignments on the command line, operands that assign, and main input from files."""

from writer import Writer

VALUES = ["7", "07", " 7 ", "a", "", "-4", "b\\tk", "\\\\a", "a=b", "3b", "\\101", 'k\\"', "10"]


class Operands(Writer):
    """The files f1 and f2 and standard input, with FILENAME, FNR, ARGC, ARGV and ENVIRON.

    FILENAME isn't taken where standard input may be read without an operand, nor in BEGIN, since awks differ there.
    """

    def __init__(self, seed):
        super().__init__(seed)
        self.operands = [self.operand() for _ in range(self.below(6))]
        has_file = any(each in ("f1", "f2", "-") for each in self.operands)
        self.walks = has_file and self.below(3) == 0
        self.has_name = has_file and not self.walks

    def assignment(self):
        value = f"{self.pick('a', 'b', 's', 't', 's', 't')}={self.random.choice(VALUES)}"
        special = self.pick("FS=:", "FS=a", "FS=[ab]", "OFS=-", "ORS=;\\n", "NR=10", "unknown=7", "RS=a", "RS=\\n")
        return self.pick(value, value, special)

    def operand(self):
        return self.pick("f1", "f2", "f1", "f2", "-", "", self.assignment(), self.assignment())

    def words(self):
        option = lambda: self.pick(f"-v{self.assignment()}", f"-F{self.pick(':', ' ', 'a', '[ab]')}")
        return [option() for _ in range(self.pick(0, 0, 1, 2))] + self.operands

    def text_leaves(self):
        environ = lambda: self.pick('ENVIRON["WORD"]', 'ENVIRON["WORD"]', 'ENVIRON["NONE"]')
        return super().text_leaves() + [lambda: f"(ARGV[{1 + self.below(3)}])", environ]

    def number_leaves(self):
        return super().number_leaves() + [
            lambda: self.pick("ARGC", "FNR", '(ENVIRON["WORD"] + 0)'),
            lambda: f"({1 + self.below(5)} in ARGV)",
        ]

    def field(self):
        return "$0" if self.in_rule else '($0 "")'

    def simple_forms(self):
        forms = super().simple_forms() + [
            lambda: "print ARGC, ARGV[1], ARGV[2]",
            lambda: f"print {self.pick('getline', 'getline s')}, NR, FNR, $0, s",
            lambda: "for (k in ARGV) b++; print b",
        ]
        if self.has_name and self.in_rule:
            forms += [lambda: "print FILENAME, NR, FNR, $0"] * 3
        return forms

    def walked(self):
        """Changes what is still to be read."""
        n = 1 + self.below(4)
        return self.pick(
            f'ARGV[{n}] = "{self.pick("f1", "f2", "", "s=7", "t=b")}"',
            f"delete ARGV[{n}]",
            f"if (ARGC > {n}) ARGC = {n}",
            'ARGV[ARGC++] = "f2"',
            'ARGV[ARGC++] = "a=7"',
        )

    def program(self):
        begin = f"BEGIN {{ {self.walked()} }}\n" if self.walks else ""
        seen = f"{{ print {'FILENAME, ' if self.has_name else ''}FNR, a, b, s, t }}\n"
        return begin + super().program() + self.pick("", seen, seen)
