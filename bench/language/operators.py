"""Expressions of operators without parentheses, by the levels of the grammar, from the tightest to the loosest."""


class Operators:
    """What a writer of programs prints, too.

    In a concatenation only the first part begins with a sign or `!`, since awks read others in their own ways.
    """

    parentheses = 0

    def tight(self):
        changed = self.pick("{}++", "{}--").format(self.number_name())
        power = self.pick("{}^2", "2^{}^2", "{}^1^3").format(self.below(4))
        constant = self.pick(str(self.below(10)), self.constant(), "NF")
        if self.below(12) or self.parentheses > 1:
            return self.pick(self.number_name(), self.text_name(), self.field(), constant, constant, changed, power)
        self.parentheses += 1
        expression = f"({self.loose()})"
        self.parentheses -= 1
        return expression

    def product(self):
        sign = self.pick("", "", "", "", "-", "!", "+", "! ! ", "- -")
        factor = lambda: self.pick(" * 3", " % 5", " * 2", " % - 4", " * ! 0", " * - 2")
        return sign + self.tight() + self.several(0, 2, factor, "")

    def sum(self):
        return self.several(1, 3, self.product, self.pick(" + ", " - "))

    def joined(self):
        first, *others = [self.sum() for _ in range(self.pick(1, 1, 2, 3))]
        return " ".join([first] + [part for part in others if part[0] not in "+-!"])

    def match(self):
        forms = [
            lambda: "",
            lambda: "",
            lambda: f" {self.pick('<', '<=', '==', '!=', '>', '>=')} {self.joined()}",
            lambda: f" {self.pick('~', '!~')} /{self.ere()}/",
        ]
        return self.joined() + self.one_of(forms)

    def number_assignment(self):
        operator = self.pick("= {}", "= {}", "+= {}", "-= {}", "*= 1", "*= 0", "^= 1")
        return f"{self.number_name()} {operator.format(self.pick(self.number_name(), str(self.below(10))))}"

    def chosen(self):
        """Assignments right of `&&` and `||` and in the branches of `?:`, the last of which may take on what follows."""
        match, assignment = self.match, self.number_assignment
        forms = [
            lambda: f"{match()} {self.pick('&&', '||')} {assignment()}",
            lambda: f"{match()} && {match()} || {assignment()}",
            lambda: f"{match()} || {match()} && {assignment()}",
            lambda: f"{match()} ? {assignment()} : {self.one_of([match, assignment])}",
            lambda: f"{match()} ? {match()} : {match()} ? {assignment()} : {assignment()}",
        ]
        return self.one_of(forms) + self.pick("", "", f" {self.pick('&&', '||')} {self.one_of([match, assignment])}")

    def loose(self):
        logical = lambda: self.several(1, 3, self.match, self.pick(" && ", " || "))
        place, value = self.number_name(), self.pick(self.number_name(), str(self.below(10)))
        forms = [
            logical,
            logical,
            self.chosen,
            self.chosen,
            lambda: f"{self.match()} ? {self.match()} : {self.match()}",
            lambda: f"{self.match()} ? {self.match()} : {logical()} ? {self.match()} : {self.match()}",
            lambda: f"{place} = {self.number_name()} {self.pick('+=', '-=', '=')} {value}",
        ]
        return self.one_of(forms)
