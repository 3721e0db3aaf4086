"""Random programs over arrays: elements, several subscripts, deletion, and walks whose order doesn't show."""

from writer import Writer

ARRAYS = ["m", "n"]


class Arrays(Writer):
    """The arrays m and n are printed at the end in the order of their keys, which are few and short.

    Where an element is assigned, neither its subscript nor what it is assigned changes anything or looks into an array
    but for an element that is there, since awks differ on what is evaluated first. An element that may be
    uninitialized is neither printed as it is nor changed by sub: gawk takes it for a text from there on.
    """

    def __init__(self, seed):
        super().__init__(seed)
        self.arrays = ARRAYS

    def array(self):
        return self.random.choice(self.arrays)

    def key(self):
        """A subscript that changes nothing."""
        keys = ['"a"', '"b"', '"k"', '""', '"07"', "7", "1", "NR", "a", "b % 4", "s", "t"]
        keys += ["a, b", '1, "a"', '"", 1', "s, 2, t", '"a" SUBSEP 1']
        keys += ["$1", "$2", "$1, $2"] if self.in_rule else ['"a" 1']
        return self.random.choice(keys)

    def element(self):
        return f"{self.array()}[{self.key()}]"

    def assigned(self):
        field = self.raw_field()
        return self.pick(str(self.below(20)), self.constant(), "a % 50", "NR", "substr(s, 1, 3)", field, field)

    def member(self):
        return f"(({self.key()}) in {self.array()})"

    def number_leaves(self):
        element = self.element
        return super().number_leaves() + [
            self.member,
            lambda: f"(substr({element()}, 1, 4) + 0)",
            lambda: f"length({element()})",
        ]

    def text_leaves(self):
        return super().text_leaves() + [self.element, self.element]

    def printed(self):
        value = super().printed()
        return f'({value} "")' if value[:2] in ("m[", "n[") else value

    def exchange(self):
        element, replacement = self.element(), self.pick("", "b", "[&]")
        return f'{{ if ({element} != "") sub(/{self.ere()}/, "{replacement}", {element}) }}'

    def walk(self):
        """A walk in which each key does the same, whatever its order."""
        m, n = self.array(), self.array()
        number = self.pick("1", "length(k)", f"({m}[k] == 7)", f"(k in {n})", f"(k < {self.constant()})")
        adds = self.pick("c++", f"c += {number}", f"c += {number}")
        passed = f"k {self.pick('==', '!=', '<')} {self.constant()}"
        compared = f"(k \"\") {self.pick('<', '==', '>=')} (l \"\")"
        return self.pick(
            f"c = 0; for (k in {m}) {adds}; print c",
            f"c = 0; for (k in {m}) {{ if ({passed}) continue; {adds} }} print c",
            f"c = 0; for (k in {m}) {{ delete {m}[{self.key()}]; c++ }} print c",
            f"for (k in {m}) if (k ~ /{self.ere()}/) delete {m}[k]",
            f"for (k in {m}) delete {m}[k]",
            f"for (k in {m}) {n}[k] = substr({m}[k], 1, 3)",
            f"for (k in {m}) {n}[substr(k \"z\", 1, 3)]++" if m != n else "for (k in m) n[length(k)]++",
            "for (k in m) if (k in n) delete n[k]; else n[k]",
            f"c = 0; for (k in {m}) for (l in {n}) c += ({compared}); print c",
            "for (k in m) { split(k, p, SUBSEP); c += length(p[2]) }",
        )

    def split(self):
        text = self.pick('"a b 7"', '"b:a:07"', "s", "$0", '" 1  k "', '""', "m[1]")
        more = self.pick("", ', ":"', ', " "', ", /[ab]/", ', "b|:"')
        return self.pick(
            f"print split({text}, {self.array()}{more})",
            f"c = split({text}, {self.array()}{more})",
            f"split({text}, p{more}); print p[1] p[2], (p[1] < 5), (p[1] == p[3])",
        )

    def simple_forms(self):
        element = self.element
        return super().simple_forms() + [
            lambda: f"{element()} = {self.assigned()}",
            lambda: f"{element()} = {self.assigned()}",
            lambda: f"{element()} = {self.assigned()}",
            element,
            lambda: f"{element()} {self.pick('+=', '-=', '%=')} {1 + self.below(9)}",
            lambda: f"{element()}{self.pick('++', '--')}",
            lambda: f"{self.pick('++', '--')}{element()}",
            self.exchange,
            lambda: f"delete {element()}",
            lambda: f"delete {element()}",
            lambda: f'print {element()} "", {self.member()}',
            self.walk,
            self.walk,
            self.walk,
            self.split,
            lambda: f'SUBSEP = "{self.pick(":", "", "a", " ")}"',
        ]

    def shown(self, array):
        """Prints an array in the order of its keys."""
        later = '! (key in seen) && (least == none || (key "") < (least ""))'
        return (
            f"for (;;) {{ least = none; for (key in {array}) if ({later}) least = key; if (least == none) break; "
            f"seen[least]; print least, {array}[least] }} for (key in seen) delete seen[key]"
        )

    def program(self):
        shown = "; ".join(self.shown(array) for array in ARRAYS)
        return f'{super().program()}END {{ none = "none"; {shown} }}\n'
