"""Random programs of printf and sprintf, with the conversions d i o x X u c s and %%."""

from writer import Writer

LARGE = ["2147483647", "65535", "1000000", "255", "4096", "0", "8", "7"]


class Formats(Writer):
    """Each directive has its argument, and no flag stands where the standard leaves open what it does.

    Others differ on numbers past 31 bits, negative ones for o, x, X and u, %c of the empty text and of a field that is
    a number, a sign with precision 0, and # with a precision.
    """

    def flags(self, some):
        return self.several(0, 2, lambda: self.random.choice(some), "") if self.below(2) else ""

    def width(self):
        return self.pick("", "", str(1 + self.below(12)), str(1 + self.below(5)))

    def natural(self):
        constants = [self.random.choice(LARGE), str(self.below(100)), f'"{self.below(300)}"', '"12ab"', '" 7"']
        return self.pick(*constants, "NR", "NF", f"length({self.text(0)})", f"({self.number(1)}) ^ 2 % 1000")

    def whole(self):
        constants = [f"- {self.random.choice(LARGE)}", '"-12"', '"+5k"']
        return self.pick(*constants, self.natural(), self.number(2), self.text(0), self.value(1))

    def signed(self):
        """A directive of d or i, and its argument."""
        flags, letter = self.flags("-+ 0"), self.pick("d", "i", "d")
        precision = self.pick("", "", f".{1 + self.below(8)}", ".0" if "+" not in flags and " " not in flags else "")
        return f"%{flags}{self.width()}{precision}{letter}", self.whole()

    def unsigned(self):
        if self.below(3) == 0:
            return f"%{self.flags('#-0')}{self.width()}{self.pick('o', 'x', 'X')}", self.natural()
        precision, letter = self.pick("", "", f".{self.below(8)}"), self.pick("o", "x", "X", "u")
        return f"%{self.flags('-0')}{self.width()}{precision}{letter}", self.natural()

    def character(self):
        number = self.pick(str(32 + self.below(95)), f"({self.number(1)} ^ 2 % 90 + 33)")
        text = self.pick('"abc"', '"7b"', '("k" s)', '"%"', 'sprintf("%c", 65 + NF)')
        return f"%{self.flags('-')}{self.width()}c", self.pick(number, text)

    def string(self):
        precision = self.pick("", "", f".{self.below(8)}")
        return f"%{self.flags('-')}{self.width()}{precision}s", self.value(2)

    def directive(self):
        return self.one_of([self.signed, self.unsigned, self.string] * 2 + [self.character])

    def format(self):
        """A format as a string constant, and the list of its arguments."""
        text, arguments = self.pick("", "", "a ", "<"), []
        for _ in range(self.below(5)):
            directive, argument = self.directive()
            text += directive + self.pick("", "", "|", " ", "%%", "%%d", "\\t", "\\n", ">k")
            arguments.append(argument)
        return f'"{text}"', arguments + self.pick([], [], [], [self.value(1)])

    def sprintf(self):
        form, arguments = self.format()
        return f"sprintf({', '.join([form] + arguments)})"

    def printf(self):
        form, arguments = self.format()
        form = form[:-1] + '\\n"'
        listed = ", ".join([form] + arguments)
        return self.pick(
            f"printf {listed}",
            f"printf {listed}",
            f"printf({listed})",
            f"form = {form}; printf {', '.join(['form'] + arguments)}",
        )

    def text_forms(self, height):
        return super().text_forms(height) + [self.sprintf, lambda: f"substr({self.sprintf()}, 1, 9)"]

    def number_forms(self, height):
        return super().number_forms(height) + [lambda: f"length({self.sprintf()})"]

    def simple_forms(self):
        return super().simple_forms() + [self.printf] * 8 + [lambda: f"print {self.sprintf()}"] * 3
