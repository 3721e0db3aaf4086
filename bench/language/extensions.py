"""Random programs of what awks have beside the standard: arrays that are emptied and counted, nextfile, fflush, and
records between separators of several bytes."""

from functions import Functions
from writer import WORDS

RECORD_SEPARATORS = ["\\n", "\\n", "ab", "aa", "aab", "b ", " a", "k3", "--", "b:b", "7\\n", "\\n\\n", "\\na", " 1 "]


class Extensions(Functions):
    """A record has any number of fields, so a field is taken by its text, or only where it is there.

    Each array is used as one before it is counted, since gawk takes it for a scalar else. No text that may be empty is
    flushed, and a file is read again only where it is flushed by its name, since others then flush standard output alone.
    nextfile stands in rules alone, since mawk refuses it in functions.
    """

    def __init__(self, seed):
        super().__init__(seed)
        self.separator = self.random.choice(RECORD_SEPARATORS)

    def field(self):
        return f"({self.pick('$1', '$2', '$0')} \"\")"

    def raw_field(self):
        return f'($1 != "" ? $1 : {self.pick("7", "s", self.constant())})' if self.in_rule else '"7"'

    def count(self):
        return f"length({self.array()})"

    def number_leaves(self):
        return super().number_leaves() + [self.count, self.count, self.flush]

    def flush(self):
        return self.pick("fflush()", 'fflush("/dev/stdout")', *[f'fflush("o{n}")' for n in (1, 2, 3)] * 2)

    def flushed(self):
        """A file that is read, once, while it is written."""
        file = f'"r{self.counter()[1:]}"'
        printed = self.several(1, 3, lambda: f"print {self.pick('s', 't', 'a', 'NR')} > {file}", "; ")
        read = f'while ((getline t < {file}) > 0) print "flushed", t'
        return f"if (! ({file} in once)) {{ once[{file}]; {printed}; fflush({file}); {read} }}"

    def emptied(self):
        """An array that is emptied, also while it is walked, in whatever order."""
        m, n = self.array(), self.array()
        return self.pick(
            f"delete {m}",
            f"delete {m}",
            f"delete {m}; {self.element()} = {self.assigned()}",
            f"c = 0; for (k in {m}) {{ delete {n}; c++ }} print c, length({n})",
            f"c = 0; for (k in {m}) {{ c += length({n}); delete {n}; {n}[{self.key()}] }} print c",
            f"c = 0; for (k in {m}) {{ c += length({m}); delete {m}[k] }} print c, length({m})",
            f"if (length({m}) {self.pick('>', '==', '<')} {self.below(5)}) delete {m}; else {m}[length({m})]",
            f"while (length({m}) < {self.below(6)}) {{ c = length({n}); {m}[length({m}), NR] = c }}",
        )

    def selected(self):
        """An element that is assigned where a condition says so."""
        assignment = lambda: f"{self.element()} {self.pick('=', '=', '+=', '-=')} {self.assigned()}"
        condition = self.pick(self.count, self.member, self.number_name)
        return self.pick(
            f"{condition()} {self.pick('&&', '||')} {assignment()}",
            f"{condition()} && {condition()} || {assignment()}",
            f"{condition()} ? {assignment()} : {assignment()}",
        )

    def simple_forms(self):
        return super().simple_forms() + [
            self.emptied,
            self.emptied,
            self.emptied,
            self.selected,
            self.selected,
            self.flushed,
            lambda: f"print {self.value(1)} {self.pick('>', '>>')} \"o{1 + self.below(2)}\"",
            lambda: self.pick("print {}", "{}", "if ({} < 0) print 1").format(self.flush()),
            lambda: f"print length(m), length(n), {self.count()}",
            lambda: f'RS = "{self.random.choice(RECORD_SEPARATORS)}"',
        ]

    def compound_forms(self, height, in_loop):
        forms = super().compound_forms(height, in_loop)
        skips = [lambda: f"if ({self.value(1)}) nextfile", lambda: "nextfile"] if self.in_rule else []
        return forms + (skips if self.below(3) == 0 else [])

    def program(self):
        begin = f'BEGIN {{ RS = "{self.separator}"; split("", m); split("", n) }}\n'
        seen = "{ print FNR, NR, length($0), $0, length(m) }\n"
        return begin + self.pick("", seen) + super().program() + self.pick("", seen)

    def line(self):
        return self.several(0, 4, lambda: self.random.choice(WORDS + ["aa", "aab", "b:b", "--"]), self.pick(" ", " ", ""))

    def input(self):
        end = self.separator.replace("\\n", "\n")
        return self.several(0, 6, self.line, self.pick(end, end, "\n")) + self.pick("", end, end[:1], "\n", end + "\n")

    def words(self):
        operands = self.random.sample(["f1", "f2", "f1", "-"], self.below(5))
        return operands + [f"RS={self.random.choice(RECORD_SEPARATORS)}", "f2"] * (self.below(4) == 0)
