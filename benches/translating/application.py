"""The text of an application, as `translate` prints it: what the code of its actors does, what it declares, and its comments."""
import re
import tomllib
from collections import Counter

from automata import ENDS, FAILS, Call, Steps, Variable

STOPPED = (None, ())
OPERATION = r"(\S+)(?: ([-+*]) (\S+))?"
CALL = r"(?:(\w+) = )?(\w+)\((.*)\)(?: else (\d+))?"
COMMENTED = r'  "(.*)", +# (\d+) +source\.frc:(\d+)((?: from \d+)*)(?:: (.*))?'


class Code(Steps):
    """The code of an actor. A state is the number of the line that comes next, and the values of the actor's own variables. The lines with the
    numbers in `hidden`, and those with the text `hidden_text`, do nothing.
    """

    def __init__(self, tables, actor, hidden=(), hidden_text=None):
        self.names = {it["name"]: Variable(it["name"], it["lo"], it["hi"], it["init"]) for it in tables.get("variable", [])}
        owned = [it["name"] for it in tables.get("variable", []) if it.get("owner") == actor["name"]]
        queues = {it["name"]: (it["lo"], it["hi"]) for it in tables.get("object", []) if it["kind"] == "queue"}
        super().__init__([self.names[name] for name in owned], queues)
        self.start = (0, self.first_values())
        self.lines = [self.parsed(text) for text in actor["code"]]
        for number, text in enumerate(actor["code"]):
            if number in hidden or text == hidden_text:
                self.lines[number] = (self.nothing,)

    def operand(self, text):
        """What a word of a line is: a variable, a number, or the word itself."""
        return self.names[text] if text in self.names else int(text) if re.fullmatch(r"-?\d+", text) else text

    def parsed(self, text):
        """What a line does, as the method for its kind and what that needs to know."""
        if text == "return":
            return (self.returning,)
        if match := re.fullmatch(r"goto (\d+)", text):
            return self.going, int(match[1])
        if match := re.fullmatch(r"if (\S+) (\S+) (\S+) goto (\d+)", text):
            return self.choosing, self.operand(match[1]), match[2], self.operand(match[3]), int(match[4])
        if match := re.fullmatch(r"pick (\S+) (\S+) (\S+)", text):
            return self.picking, self.names[match[1]], int(match[2]), int(match[3])
        if match := re.fullmatch(rf"set (\S+) = {OPERATION}", text):
            return self.setting, self.names[match[1]], self.operand(match[2]), match[3], self.operand(match[4] or "0")
        match = re.fullmatch(CALL, text)
        arguments = tuple(self.operand(word) for word in match[3].split(", ") if word)
        return self.calling, Call(match[2], arguments), match[1] and self.names[match[1]], match[4] and int(match[4])

    def steps(self, state):
        line, values = state
        if line is None:
            return []
        method, *parts = self.lines[line]
        return method(line + 1, values, *parts)

    def nothing(self, following, values):
        return [(None, (following, values))]

    def returning(self, _, values):
        return [("returns", (0, values))]

    def going(self, _, values, target):
        return [(None, (target, values))]

    def choosing(self, following, values, left, sign, right, target):
        for event, holds in self.compare(left, sign, right, values):
            yield event, (target if holds else following, values)

    def picking(self, following, values, variable, low, high):
        for event, after in self.pick(variable, low, high, values):
            yield event, STOPPED if after is None else (following, after)

    def setting(self, following, values, variable, left, sign, right):
        for event, after in self.set(variable, left, sign, right, values):
            yield event, STOPPED if after is None else (following, after)

    def calling(self, following, values, call, target, failed):
        for event, answer, after in self.call(call, target, values):
            has_failed = answer == FAILS and failed is not None
            yield event, STOPPED if answer == ENDS else (failed if has_failed else following, after)


def read(text):
    """The tables of an application."""
    return tomllib.loads(text.decode("ascii"))


def declared(tables):
    """What an application declares: its objects, its shared variables, those of its actors, and the actors."""
    objects = Counter(tuple(sorted(it.items())) for it in tables.get("object", []))
    shared, owned = Counter(), Counter()
    for it in tables.get("variable", []):
        numbers = it["name"], it["lo"], it["hi"], it["init"]
        if "owner" in it:
            owned[(it["owner"], *numbers)] += 1
        else:
            shared[numbers] += 1
    return objects, shared, owned, [(it["name"], it["kind"]) for it in tables["actor"]]


def commented(text):
    """The lines of code of each actor with what their comments say: the text of the line, its number, its row in the source, the rows of the
    calls that it was written out for, and the text of the row.
    """
    actors, lines = [], None
    for row in text.decode("ascii").splitlines():
        if row == "code = [":
            lines = []
            actors.append(lines)
        elif row == "]":
            lines = None
        elif lines is not None:
            line, number, place, calls, shown = re.fullmatch(COMMENTED, row).groups()
            lines.append((line, int(number), int(place), [int(it) for it in re.findall(r"\d+", calls)], shown))
    return actors


def without_comments(source):
    """The source with blanks in place of its comments."""
    return re.sub(r"//[^\n]*|/\*.*?\*/", lambda comment: re.sub(r"[^\n]", " ", comment[0]), source, flags=re.DOTALL)


def excerpt(row):
    """What a comment shows of a row of a source without comments: its words, up to 70 characters."""
    shown = " ".join(row[:240].split())
    return shown if len(shown) <= 70 else shown[:67] + "..."


def wrong_comment(text, source):
    """What is wrong in the comments of an application, or None. Each call has to be from a row of the source that names it."""
    rows = [""] + without_comments(source).split("\n")
    for lines in commented(text):
        last = None
        for expected, (line, number, place, calls, shown) in enumerate(lines):
            if number != expected or not all(0 < it < len(rows) for it in [place, *calls]):
                return f"the comment of line {expected}, {line}, has the number {number}, and row {place}"
            if shown != (None if last == (place, calls) else excerpt(rows[place])):
                return f"the comment of line {expected}, {line}, shows {shown!r} of row {place}"
            call = re.fullmatch(CALL, line)
            if call and call[2] not in rows[place] or not all(re.search(r"\w\(\)", rows[it]) for it in calls):
                return f"line {expected}, {line}, isn't from row {place}"
            last = place, calls
    return None
