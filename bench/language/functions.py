"""Random programs with functions: recursion, arrays by reference, arguments left out, values that are returned."""

from arrays import Arrays

# The parameters of random functions behind the depth: m and n are arrays, s and t texts, and the others numbers.
PARAMETERS = {"f": ["x", "s", "m"], "g": ["m", "x"], "h": ["s", "t"], "r": ["x", "y", "n", "m"]}

# Functions that are as they are, with calls of them that give numbers.
WRITTEN = {
    "gcd": (
        "function gcd(x, y) { return y == 0 ? x : gcd(y, x % y) }",
        lambda it: f"gcd({it.below(99)}, {it.below(99)} + ({it.number(1)}) % 9)",
    ),
    "fib": (
        "function fib(x) { if (x < 2) return x; return fib(x - 1) + fib(x - 2) }",
        lambda it: f"fib({it.number(1)} % 8)",
    ),
    "is_even": (
        "function is_even(x) { return x == 0 || is_odd(x - 1) } function is_odd(x) { return x && is_even(x - 1) }",
        lambda it: f"is_even(length({it.text(1)}))",
    ),
    "mirrored": (
        "function mirrored(s) { return length(s) < 2 ? s : mirrored(substr(s, 2)) substr(s, 1, 1) }",
        lambda it: f"({it.text(0)} < mirrored(substr({it.text(1)}, 1, 9)))",
    ),
    "sorted": (
        "function sorted(m, n, i, j, x) { for (i = 2; i <= n; i++) { x = m[i]; "
        "for (j = i - 1; j > 0 && m[j] > x; j--) m[j + 1] = m[j]; m[j + 1] = x } return n }",
        lambda it: f"sorted(m, split({it.text(1)}, m))",
    ),
    "moved": (
        "function moved(n, x, y, z) { return n == 0 ? 0 : moved(n - 1, x, z, y) + 1 + moved(n - 1, z, y, x) }",
        lambda it: f'moved({it.below(6)}, "x", {it.value(1)})',
    ),
    "deep": (
        "function deep(x, m) { m[x % 5]++; if (x > 0) deep(x - 1, m); else return length(m[0]) }",
        lambda it: f"(deep({it.below(200)}, {it.array()}) == 0)",
    ),
}


class Functions(Arrays):
    """Random functions take a depth, with which they return at 0, and give one less to those that they call.

    Each array that is a parameter is used as one, since a parameter without such a use is none.
    """

    def __init__(self, seed):
        super().__init__(seed)
        self.names = self.random.sample(sorted(PARAMETERS), self.random.randint(1, 3))
        self.written = self.random.sample(sorted(WRITTEN), self.below(3))
        self.calls = 99

    def argument(self, name):
        if name in "mn":
            return self.random.choice(self.arrays)
        return f"substr({self.text(1)}, 1, 6)" if name in "st" else f"{self.number(1)} % 20"

    def call(self):
        """A call, some with arguments left out. Two stand in a function's body, and none in its loops."""
        if self.calls == 0:
            return self.number_name()
        self.calls -= 1
        name = self.random.choice(self.names)
        given = PARAMETERS[name][: self.pick(9, 9, 9, 2, 1, 0)]
        depth = "d - 1" if self.in_function else str(self.below(4))
        return f"{name}({', '.join([depth] + [self.argument(each) for each in given])})"

    def written_call(self):
        if not self.written or self.in_function:
            return self.call()
        return WRITTEN[self.random.choice(self.written)][1](self)

    def number_forms(self, height):
        forms = [lambda: f"({self.call()} % 50)", lambda: f"({self.call()} % 50)", self.written_call]
        return super().number_forms(height) + forms

    def text_forms(self, height):
        return super().text_forms(height) + [lambda: f"substr({self.call()}, 1, 4)"]

    def simple_forms(self):
        forms = super().simple_forms() + [self.call, lambda: f"print {self.call()}, {self.value(1)}"]
        if self.in_function and self.below(3) == 0:
            forms += [lambda: f"return {self.value(1)}", lambda: "return"]
        return forms

    def loop(self, height):
        calls, self.calls = self.calls, 0 if self.in_function else self.calls
        loop = super().loop(height)
        self.calls = calls
        return loop

    def function(self, name):
        parameters = PARAMETERS[name]
        outside = self.numbers, self.texts, self.counters, self.calls
        self.numbers = ["a", "b"] + [each for each in parameters if each in "xy"] * 2
        self.in_function, self.counters, self.calls = True, 0, 2
        used = "".join(f"{each}[d]{self.pick('++', '', ' = 7')}; " for each in parameters if each in "mn")
        body = used + self.several(1, 4, lambda: self.statement(self.below(3)), "; ")
        end = self.pick(f"; return {self.value(1)}", f"; return {self.call()}", "; return", "")
        own = [f"i{number + 1}" for number in range(self.counters)]
        self.numbers, self.texts, self.counters, self.calls = outside
        self.in_function = False
        first = self.pick(*[each for each in parameters if each not in "mn"], '"z"', str(self.below(9)))
        return f"function {name}(d, {', '.join(parameters + own)}) {{ if (d <= 0) return {first}; {body}{end} }}"

    def program(self):
        functions = [self.function(name) for name in self.names] + [WRITTEN[name][0] for name in self.written]
        items = super().program()
        self.random.shuffle(functions)
        return self.pick("\n".join(functions) + "\n" + items, items + "\n".join(functions) + "\n")
