"""The statements of a source, found by its words, brackets and semicolons alone: where one can be put in or taken out."""
import re
from collections import namedtuple

TOKEN = re.compile(r"(?P<comment>//[^\n]*|/\*.*?\*/)|(?P<word>\w+|&&|\|\||\.\.|\+\+|--|[^\w\s])", re.DOTALL)
NOT_SIMPLE = ("break", "continue", "return", "goto", "if", "else", "while", "do", "for", "switch", "{", "}", ";")

Token = namedtuple("Token", "text start end")

# A statement of a list: its text, and where it begins and ends. `is_simple`: it is an assignment or a call of the kernel.
Statement = namedtuple("Statement", "text start end is_simple")

# The body of a construct: the word of the construct, where its head ends, the only statement in it, where the body ends, and what is next.
Inner = namedtuple("Inner", "word head_end start statement_end end following")


class Outline:
    """Reads the statements of a source that the program takes."""

    def __init__(self, text):
        self.text = text
        self.tokens = [Token(it["word"], it.start(), it.end()) for it in TOKEN.finditer(text) if it["word"]]
        self.functions = {self.word(at + 1) for at in range(len(self.tokens)) if self.word(at) == "function"}
        # Where a statement can be put, the statements of lists, and the bodies with one statement that isn't a block.
        self.gaps, self.statements, self.bodies = [], [], []
        at = 0
        while at < len(self.tokens):
            at = self.list(at + 1) if self.word(at) == "{" else at + 1

    def word(self, at):
        return self.tokens[at].text if at < len(self.tokens) else ""

    def after(self, at, *texts):
        """The place after the next of these tokens."""
        while self.word(at) not in texts:
            at += 1
        return at + 1

    def list(self, at):
        """Reads statements up to the closing brace, and gives the place after it."""
        while self.word(at) in ("var", "static"):
            at = self.after(at, ";")
        while self.word(at) != "}":
            at = self.listed(at)
        self.gaps.append(self.tokens[at].start)
        return at + 1

    def listed(self, at):
        """Reads a statement of a list."""
        first = self.tokens[at]
        self.gaps.append(first.start)
        following = self.statement(at)
        last = self.tokens[following - 1]
        is_call_of_function = first.text in self.functions and self.word(at + 1) == "("
        is_simple = first.text not in NOT_SIMPLE and last.text == ";" and not is_call_of_function
        self.statements.append(Statement(self.text[first.start:last.end], first.start, last.end, is_simple))
        return following

    def switch(self, at):
        """Reads the cases of a switch, and gives the place after its closing brace."""
        while self.word(at) != "}":
            at = self.after(at, ":")
            while self.word(at) not in ("case", "default", "}"):
                at = self.listed(at)
            self.gaps.append(self.tokens[at].start)
        return at + 1

    def brackets(self, at):
        """The place after brackets and what is in them."""
        depth = 0
        while True:
            depth += {"(": 1, ")": -1}.get(self.word(at), 0)
            at += 1
            if depth == 0:
                return at

    def statement(self, at):
        """Reads a statement, and gives the place after it."""
        word = self.word(at)
        if word == "{":
            return self.list(at + 1)
        if word == "if":
            at = self.inner(self.brackets(at + 1), "if")
            return self.inner(at + 1, "else") if self.word(at) == "else" else at
        if word in ("while", "for"):
            return self.inner(self.brackets(at + 1), word)
        if word == "do":
            return self.after(self.inner(at + 1, "do"), ";")
        if word == "switch":
            return self.switch(self.brackets(at + 1) + 1)
        if self.word(at + 1) == ":":
            return at + 2
        return self.after(at, ";")

    def inner(self, at, word):
        """Reads the body of a construct, and gives the place after it."""
        first = len(self.statements)
        following = self.statement(at)
        head, start, end = self.tokens[at - 1], self.tokens[at], self.tokens[following - 1]
        found = Inner(word, head.end, start.start, end.end, end.end, self.word(following))
        if start.text != "{":
            self.bodies.append(found)
        elif len(self.statements) > first:
            self.bodies += self.only_one(found, start.end, end.start)
        return following

    def only_one(self, found, start, end):
        """The body, if one statement with its semicolon is all that its braces have."""
        last = self.statements[-1]
        is_alone = not self.text[start:last.start].strip() and not self.text[last.end:end].strip()
        if is_alone and last.text.endswith(";") and not last.text.startswith(("{", "if", "else", ";")):
            return [found._replace(start=last.start, statement_end=last.end)]
        return []

    def row(self, place):
        """The row of a place, from 1."""
        return self.text.count("\n", 0, place) + 1


def in_rows(text):
    """The source with each statement of a list, and each brace after one, in a row of its own."""
    for place in sorted(set(Outline(text).gaps), reverse=True):
        text = text[:place] + "\n" + text[place:]
    return text
