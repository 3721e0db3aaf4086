#!/usr/bin/env python3
"""Writes random awk programs, each to a file of its own: half of them spelled by the grammar, half with a token or two
taken away, put in or exchanged. None of them is meant to be run.

  bench/grammar/programs.py FOLDER COUNT SEED
"""
import random
import sys

NAMES = ["b", "x", "y", "NF", "NR"]
BINARY = ["^", "*", "/", "%", "+", "-", "", "<", "<=", "!=", "==", ">", ">=", "~", "!~", "&&", "||"]
ASSIGNMENTS = ["=", "+=", "-=", "*=", "/=", "%=", "^="]
BUILT_INS = {
    "length": (0, 1), "substr": (2, 3), "index": (2, 2), "split": (2, 3), "sub": (2, 3), "gsub": (2, 3),
    "match": (2, 2), "sprintf": (1, 3), "tolower": (1, 1), "toupper": (1, 1), "int": (1, 1), "close": (1, 1),
    "system": (1, 1), "fflush": (0, 1),
}
TOKENS = [
    "1", '"s"', "/e/", "a", "x", "f(", "$", "++", "--", "+", "-", "!", "*", "^", "<", ">", "==", "~", "in", "&&", "||",
    "?", ":", "=", "+=", ",", "(", ")", "[", "]", "{", "}", ";", "\n", "|", ">>", "getline", "print", "printf", "if",
    "else", "while", "do", "for", "next", "nextfile", "exit", "return", "break", "delete", "BEGIN", "END", "length",
    "substr", "fflush",
]


class Writer:
    """Spells one program as a list of tokens."""

    def __init__(self, numbers):
        self.numbers = numbers

    def pick(self, *kinds):
        return self.numbers.choice(kinds)(self)

    def list_of(self, depth, least, most):
        tokens = []
        for number in range(self.numbers.randint(least, most)):
            tokens += ([","] if number else []) + self.expr(depth)
        return tokens

    def place(self, depth):
        kind = self.numbers.randrange(4)
        if kind == 0:
            return ["a", "["] + self.list_of(depth - 1, 1, 2) + ["]"]
        if kind == 1:
            return ["$"] + self.leaf()
        return [self.numbers.choice(NAMES)]

    def leaf(self):
        return [self.numbers.choice(["1", "2", '"s"', "x", "y", "NF", "/e/"])]

    def expr(self, depth):
        if depth <= 0:
            return self.leaf()
        kind, less = self.numbers.randrange(16), depth - 1
        if kind < 4:
            return self.expr(less) + [self.numbers.choice(BINARY)] + self.expr(less)
        if kind == 4:
            return [self.numbers.choice(["!", "-", "+"])] + self.expr(less)
        if kind == 5:
            return ["("] + self.expr(less) + [")"]
        if kind == 6:
            return self.place(depth) + [self.numbers.choice(ASSIGNMENTS)] + self.expr(less)
        if kind == 7:
            return self.expr(less) + ["?"] + self.expr(less) + [":"] + self.expr(less)
        if kind == 8:
            return self.place(depth) + [self.numbers.choice(["++", "--"])]
        if kind == 9:
            return [self.numbers.choice(["++", "--"])] + self.place(depth)
        if kind == 10:
            name = self.numbers.choice(sorted(BUILT_INS))
            return [name, "("] + self.list_of(less, *BUILT_INS[name]) + [")"]
        if kind == 11:
            return ["f", "("] + self.list_of(less, 0, 2) + [")"]
        if kind == 12:
            return self.expr(less) + ["in", "a"]
        if kind == 13:
            return ["("] + self.list_of(less, 2, 2) + [")", "in", "a"]
        if kind == 14:
            return ["getline"] + self.numbers.choice([[], self.place(less)]) + self.numbers.choice([[], ["<"] + self.leaf()])
        return self.expr(less) + ["|", "getline"] + self.numbers.choice([[], self.place(less)])

    def printed(self, depth):
        word = self.numbers.choice(["print", "printf"])
        tokens = self.list_of(depth, word == "printf", 2)
        if self.numbers.randrange(3) == 0:
            tokens = ["("] + self.list_of(depth, 1, 3) + [")"]
        if self.numbers.randrange(3) == 0:
            tokens += [self.numbers.choice([">", ">>", "|"])] + self.leaf()
        return [word] + tokens

    def simple(self, depth):
        kind = self.numbers.randrange(8)
        if kind < 3:
            return self.expr(depth)
        if kind < 6:
            return self.printed(depth)
        if kind == 6:
            return ["delete", "a"] + self.numbers.choice([[], ["["] + self.list_of(depth - 1, 1, 2) + ["]"]])
        return self.numbers.choice([["next"], ["nextfile"], ["exit"], ["exit"] + self.expr(depth)])

    def statement(self, depth):
        kind = self.numbers.randrange(10) if depth > 0 else 0
        less = depth - 1
        if kind < 4:
            return self.simple(2) + [self.numbers.choice([";", "\n"])]
        if kind == 4:
            return ["{"] + self.statements(less) + ["}"]
        if kind == 5:
            return ["if", "("] + self.expr(2) + [")"] + self.statement(less)
        if kind == 6:
            return ["if", "("] + self.expr(1) + [")"] + self.statement(less) + ["else"] + self.statement(less)
        if kind == 7:
            return ["while", "("] + self.expr(2) + [")"] + self.numbers.choice([self.statement(less), [";"]])
        if kind == 8:
            return ["do"] + self.statement(less) + ["while", "("] + self.expr(1) + [")", ";"]
        if self.numbers.randrange(2):
            return ["for", "(", "x", "in", "a", ")"] + self.statement(less)
        return ["for", "("] + self.expr(1) + [";"] + self.expr(1) + [";"] + self.expr(1) + [")"] + self.statement(less)

    def statements(self, depth):
        return [token for _ in range(self.numbers.randint(0, 3)) for token in self.statement(depth)]

    def item(self):
        kind = self.numbers.randrange(6)
        if kind == 0:
            return self.expr(2) + ["\n"]
        if kind == 1:
            return self.expr(1) + [","] + self.expr(1) + ["{"] + self.statements(1) + ["}"]
        head = ["END"] if kind == 2 else [] if kind == 3 else self.expr(2)
        return head + ["{"] + self.statements(2) + ["}"]

    def program(self):
        tokens = [token for _ in range(self.numbers.randint(1, 2)) for token in self.item()]
        function = ["function", "f", "(", "p", ",", "q", ")", "{"] + self.statements(1) + ["}"]
        if self.numbers.randrange(2):
            for _ in range(self.numbers.randint(1, 2)):
                self.change(tokens)
        return tokens + ["\n"] + function

    def change(self, tokens):
        at = self.numbers.randrange(len(tokens))
        kind = self.numbers.randrange(3)
        if kind == 0:
            del tokens[at : at + 1]
            tokens += [] if tokens else ["1"]
        elif kind == 1:
            tokens.insert(at, self.numbers.choice(TOKENS))
        else:
            tokens[at] = self.numbers.choice(TOKENS)


def spelled(tokens):
    """Joins tokens with blanks, but for a function's name and its parenthesis."""
    text = " ".join(token for token in tokens if token)
    return text.replace("f (", "f(").replace(" \n ", "\n") + "\n"


def main():
    folder, count, seed = sys.argv[1], int(sys.argv[2]), int(sys.argv[3])
    numbers = random.Random(seed)
    for number in range(count):
        with open(f"{folder}/{number:05}.awk", "w", encoding="ascii") as file:
            file.write(spelled(Writer(numbers).program()))


main()
