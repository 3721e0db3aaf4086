"""Random programs that assign fields, NF, $0 and the separators, and that read records themselves."""

from writer import WORDS, Writer

FIELD_SEPARATORS = [" ", " ", " ", ",", ":", "\\t", "|", "a", "[,:]", ",+", "[ab]", ", *", "k|b"]
RECORD_SEPARATORS = ["\\n", "\\n", "\\n", ";", "a", ""]


class Records(Writer):
    """A record has any number of fields, so a field is taken by its text, or only where it is there.

    Where RS is empty FS is a blank or a newline, since awks differ on other values there.
    """

    def __init__(self, seed):
        super().__init__(seed)
        self.separator = self.random.choice(RECORD_SEPARATORS)
        self.field_separators = FIELD_SEPARATORS if self.separator else [" ", "\\n"]
        self.field_separator = self.random.choice(self.field_separators)

    def field(self):
        place = self.pick("$1", "$2", "$3", "$NF", "$(NF - 1 > 0)", "$(a % 3 + 3)", "$0")
        return f"({place} \"\")"

    def raw_field(self):
        """A field as it is, where there is one."""
        place = self.pick("$1", "$2", "$3", "$NF") if self.in_rule else "$1"
        return f'({place} != "" ? {place} : {self.pick("7", "s", self.constant())})'

    def text_leaves(self):
        return super().text_leaves() + [self.raw_field]

    def number_leaves(self):
        return super().number_leaves() + [
            lambda: "NF",
            lambda: f"length({self.field()})",
            lambda: f"(substr({self.field()}, 1, 4) + 0)",
        ]

    def place(self):
        """A field that may be assigned."""
        return self.pick("$1", "$2", "$3", "$4", "$(NF + ! NF)", "$(NF + 1)", "$(NF + 2)", "$(b % 3 + 3)", "$0")

    def field_value(self):
        """What a field is assigned: short, and nothing that changes a record."""
        return self.pick(
            str(self.below(20)),
            self.constant(),
            "a % 50",
            "substr($1, 1, 3)",
            "(substr($2, 1, 3) \" \" substr($1, 1, 3))",
            "$3",
            '"a,b:k 7"',
            '"7"',
            "NF",
        )

    def separation(self):
        """A separator that holds from the next record, or the next joining."""
        return self.pick(
            f'FS = "{self.random.choice(self.field_separators)}"',
            f'OFS = "{self.pick(":", "", " ", "--")}"',
            f'OFS = "{self.pick(":", "", " ", "--")}"',
            f'ORS = "{self.pick("|", "", ";")}\\n"',
        )

    def fields(self):
        """Each field, after its number."""
        i = self.counter()
        return f"for ({i} = 1; {i} <= NF; {i}++) print {i}, $({i})"

    def exchange(self):
        """A sub of a field that is there, since gawk makes one that isn't."""
        replacement, place = self.pick("", "b", "[&]", "7"), self.pick("", ", $0", ", $NF", ", $(NF > 0)")
        return f'sub(/{self.ere()}/, "{replacement}"{place})'

    def reading(self):
        """A record that an action reads."""
        return self.pick(
            "getline",
            "getline s",
            "if ((getline) > 0) print NR, FNR, NF, $0",
            "if ((getline t) > 0) print NR, FNR, NF, t, $0",
            "print getline, $0",
            "print (getline $(NF > 0)), $0, NF",
            "while ((getline s) > 0 && NR % 3) print s, $1",
        )

    def simple_forms(self):
        place = self.place
        return super().simple_forms() + [
            lambda: f"{place()} = {self.field_value()}",
            lambda: f"{place()} = {self.field_value()}",
            lambda: f"{place()} {self.pick('+=', '-=')} {self.number(0)} % 10",
            lambda: f"{place()} {self.pick('++', '--')}",
            lambda: f"{self.pick('++', '--')}{place()}",
            lambda: f"print ({place()} = {self.field_value()}), NF",
            lambda: f"NF = {self.below(6)}",
            lambda: f"NF = {self.below(6)}",
            lambda: self.pick("NF++", "if (NF > 0) NF--", "NF += 2", "if (NF > 1) NF -= 1", "NF = NF"),
            lambda: self.pick("$0 = $0", "$1 = $1"),
            self.exchange,
            self.separation,
            self.separation,
            self.fields,
            self.fields,
            self.reading,
            lambda: self.pick("print", "print NF", "print $0, NF", "print NR, FNR"),
            lambda: self.pick("NR = 10", "FNR += 5" if self.in_rule else "NR += 2"),
        ]

    def program(self):
        begin = [f'RS = "{self.separator}"']
        if self.below(4):
            begin += [f'FS = "{self.field_separator}"']
        if self.below(3) == 0:
            begin += [self.separation()]
        return f"BEGIN {{ {'; '.join(begin)} }}\n{super().program()}"

    def line(self):
        between = {" ": " ", "\\t": "\t", "a": "a", "|": "|", ":": ":"}.get(self.field_separator, ",")
        return self.several(0, 5, lambda: self.random.choice(WORDS), self.pick(between, between, between + " "))

    def input(self):
        end = {"\\n": "\n", "": self.pick("\n", "\n\n", "\n\n\n")}.get(self.separator, self.separator)
        text = self.several(0, 5, self.line, end)
        return self.pick("", "", "\n") + text + self.pick("", end, end + end, "\n")
