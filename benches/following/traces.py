"""Traces: reading them, writing those of random runs, and changing them."""
import re

from simulator import CALLS, MAX_DELAY

UNKNOWN = "?"


class Event:
    """One event: `kind` is enter, return, set, begin or end. What isn't known is None."""

    __slots__ = ("kind", "actor", "call", "object", "sent", "length", "time", "ticks", "result", "value", "variable")

    def __init__(self, kind, actor):
        self.kind, self.actor = kind, actor
        self.call = self.object = self.sent = self.length = self.time = self.ticks = self.result = self.value = self.variable = None

    def fits(self, line):
        """Whether the line's call can be the one that begins here, but for what a variable has that it sends."""
        return (line.call == self.call and self.object in (None, line.object) and self.length in (None, line.length)
                and self.time in (None, line.time) and self.ticks in (None, line.ticks))


class Trace:
    """The events; the calls that aren't seen; the actors whose handlers are seen; the variables that an actor marks."""

    def __init__(self):
        self.events, self.unseen, self.handlers, self.marked = [], set(), set(), set()

    def is_seen(self, actor, line):
        if line.kind == "call":
            return line.call not in self.unseen
        if line.kind == "return":
            return actor in self.handlers
        return line.kind in ("set", "pick") and (actor, line.variable) in self.marked


def number(text):
    return None if text == UNKNOWN else int(text)


def entered(event, text):
    """Puts the call into the event."""
    event.call, _, rest = text.partition("(")
    names = {"e": "sent", "n": "length", "t": "ticks"}
    for kind, word in zip(CALLS[event.call].arguments, rest[:-1].split(", ")):
        if kind == "o":
            event.object = None if word == UNKNOWN else word
        elif kind == "w":
            event.time = MAX_DELAY if word == MAX_DELAY else number(word)
        elif kind in names:
            setattr(event, names[kind], number(word))


def read(app, text):
    trace = Trace()
    for row in text.split("\n")[1:]:
        words = row.split(" ")
        if words[0] == "unseen":
            trace.unseen |= set(words[1:])
        elif row:
            event = Event(words[1], app.numbers[words[0]])
            if event.kind == "enter":
                entered(event, row.split(" ", 2)[2])
            elif event.kind == "return":
                event.result, event.value = (number(word) for word in (words[2:] + [UNKNOWN, UNKNOWN])[:2])
            elif event.kind == "set":
                event.variable, event.value = words[2], int(words[3])
                trace.marked.add((event.actor, event.variable))
            else:
                trace.handlers.add(event.actor)
            trace.events.append(event)
    return trace


def spelled(line, sent, blank):
    """A call as a trace has it; `blank` says of each argument whether it isn't recorded."""
    words = []
    for kind in line.row.arguments:
        word = {"o": line.object, "e": sent, "v": UNKNOWN, "n": line.length, "w": line.time, "t": line.ticks, "N": "NULL"}[kind]
        words.append(UNKNOWN if kind not in "vN" and blank() else str(word))
    return f"{line.call}({', '.join(words)})"


class Recorder:
    """A random run, and its trace. Which actor goes on is drawn, by weights that change now and then, so that some are slow and some fast; between
    the effect of a call and its events others can do much.
    """

    def __init__(self, chance, state, trace, blanks=0.0, failing=0.15):
        self.chance, self.state, self.trace, self.failing = chance, state, trace, failing
        self.blank = (lambda: chance.random() < blanks) if blanks else (lambda: False)
        count = len(state.app.actors)
        self.phase = ["out" if actor in trace.handlers else "between" for actor in range(count)]
        self.made = [None] * count
        self.rows = ["fr_trace 1"] + (["unseen " + " ".join(sorted(trace.unseen))] if trace.unseen else [])
        self.first = len(self.rows)

    def text(self):
        return "\n".join(self.rows) + "\n"

    def record(self, events):
        actors = range(len(self.state.app.actors))
        weights, idle, steps = [1.0] * len(actors), 0, 0
        while len(self.rows) < self.first + events and idle < 60 * len(actors) and steps < 400 * events:
            if self.chance.random() < 0.02:
                weights = [self.chance.choice((0.05, 1.0, 1.0, 3.0)) for _ in actors]
            steps += 1
            idle = 0 if self.go_on(self.chance.choices(actors, weights)[0]) else idle + 1
        return self.text()

    def put(self, actor, words):
        self.rows.append(f"{self.state.app.actors[actor]} {words}")
        return True

    def go_on(self, actor):
        """One event or step of the actor; whether there was one."""
        phase = self.phase[actor]
        if phase == "out":
            self.phase[actor] = "between"
            return self.put(actor, "begin")
        if phase == "made":
            return self.tell(actor)
        line = self.state.line(actor)
        if line is None:
            return False
        if phase == "between" and line.kind == "call" and self.trace.is_seen(actor, line):
            self.phase[actor] = "open"
            return self.put(actor, "enter " + spelled(line, self.sent(line), self.blank))
        return self.step(actor, line)

    def sent(self, line):
        """What the call is about to send. Others can still change a shared variable."""
        if line.sent is None or isinstance(line.sent, str) and not self.state.app.is_owned(line.sent):
            return UNKNOWN
        return self.state.value(line.sent)

    def step(self, actor, line):
        choices = self.state.moves(actor)
        if not choices or self.state.puts_outside(actor):
            return False
        inside = self.state.at[actor][1]
        choice = choices[0] if len(choices) == 1 or inside and self.chance.random() < self.failing else choices[-1]
        if len(choices) > 2 and self.chance.random() < 0.4 or line.kind == "pick":
            choice = self.chance.choice(choices)
        self.state.apply(actor, choice)
        if self.trace.is_seen(actor, line) and not (line.kind == "call" and line.row.has_end and not inside):
            self.made[actor], self.phase[actor] = (line, choice, self.moved(line, choice)), "made"
            if line.kind == "call" and line.row.does == "end":
                self.phase[actor] = "ended"
        return True

    def moved(self, line, choice):
        """The number that is in the variable then, where an event has it."""
        receives = line.kind == "call" and line.row.does == "receive" and choice == 1
        return self.state.values[line.to] if receives or line.kind in ("set", "pick") else None

    def tell(self, actor):
        line, choice, value = self.made[actor]
        self.phase[actor] = "between"
        if line.kind == "return":
            self.phase[actor] = "out"
            return self.put(actor, "end")
        if line.kind != "call":
            return self.put(actor, f"set {line.variable} {value}")
        words = "return"
        if line.answers:
            words += " ?" if self.blank() else f" {choice}"
            if value is not None and not self.blank():
                words += f" {value}"
        return self.put(actor, words)


def settings(chance, app, trace):
    """Draws what isn't seen, and what is marked."""
    called = sorted({line.call for code in app.codes for line in code if line.call})
    if called and chance.random() < 0.35:
        trace.unseen |= set(chance.sample(called, min(len(called), chance.randint(1, 3))))
    if chance.random() < 0.4:
        trace.handlers |= {number for number, it in enumerate(app.is_interrupt) if it and chance.random() < 0.7}
    if app.variables and chance.random() < 0.4:
        for name in chance.sample([*app.variables], chance.randint(1, min(3, len(app.variables)))):
            owner = app.variables[name].get("owner")
            trace.marked |= {(number, name) for number, it in enumerate(app.actors) if owner in (None, it) and chance.random() < 0.8}
    return trace


def name_of(row):
    return row.split(" ", 1)[0]


def kind_of(row):
    words = row.split(" ")
    return words[1] if len(words) > 1 and words[0] != "unseen" else ""


def next_of(rows, at):
    """The next row of the same actor."""
    return next((it for it in range(at + 1, len(rows)) if name_of(rows[it]) == name_of(rows[at])), None)


def dropped(chance, app, rows, at):
    """A call is dropped."""
    after = next_of(rows, at)
    if kind_of(rows[at]) == "enter" and after is not None:
        return rows[:at] + rows[at + 1:after] + rows[after + 1:]


def other_result(chance, app, rows, at):
    """A call answers something else."""
    words = rows[at].split(" ")
    if words[1] == "return" and len(words) > 2 and words[2] != UNKNOWN:
        was = int(words[2])
        words[2] = str(1 - was if was < 2 and chance.random() < 0.7 else max(0, was + chance.choice((-1, 1, 2))))
        return rows[:at] + [" ".join(words)] + rows[at + 1:]


def other_value(chance, app, rows, at):
    """Another value comes, or is marked."""
    words = rows[at].split(" ")
    if words[1] in ("return", "set") and len(words) == 4 and words[3] != UNKNOWN:
        words[3] = str(int(words[3]) + chance.choice((-1, 1)))
        return rows[:at] + [" ".join(words)] + rows[at + 1:]


def other_object(chance, app, rows, at):
    """Another object of the same kind is used."""
    if kind_of(rows[at]) == "enter" and (match := re.search(r"\((\w+)", rows[at])) and match[1] in app.objects:
        kind = app.objects[match[1]]["kind"]
        others = [name for name, it in app.objects.items() if it["kind"] == kind and name != match[1]]
        if others:
            return rows[:at] + [rows[at][:match.start(1)] + chance.choice(others) + rows[at][match.end(1):]] + rows[at + 1:]


def other_actor(chance, app, rows, at):
    """Another actor, which is in no call then, makes a call."""
    after, others = next_of(rows, at), [it for it in app.actors if it != name_of(rows[at])]
    if kind_of(rows[at]) == "enter" and after is not None and others:
        other = chance.choice(others)
        before = next((row for row in reversed(rows[:at]) if name_of(row) == other), "")
        if kind_of(before) != "enter" and all(name_of(row) != other for row in rows[at:after]):
            moved = [f"{other} {row.split(' ', 1)[1]}" for row in (rows[at], rows[after])]
            return rows[:at] + moved[:1] + rows[at + 1:after] + moved[1:] + rows[after + 1:]


def exchanged(chance, app, rows, at):
    """Two calls of an actor are exchanged."""
    mine = [at]
    while len(mine) < 4 and mine[-1] is not None:
        mine.append(next_of(rows, mine[-1]))
    if None not in mine and [kind_of(rows[it]) for it in mine] == ["enter", "return"] * 2:
        rows = rows[:]
        for one, other in ((mine[0], mine[2]), (mine[1], mine[3])):
            rows[one], rows[other] = rows[other], rows[one]
        return rows


def other_length(chance, app, rows, at):
    """Another length, block time or value that is sent."""
    numbers = [*re.finditer(r"(?<=, )-?\d+(?=[,)])|(?<=\()\d+(?=\))", rows[at])] if kind_of(rows[at]) == "enter" else []
    if numbers:
        it = chance.choice(numbers)
        return rows[:at] + [rows[at][:it.start()] + str(int(it[0]) + 1) + rows[at][it.end():]] + rows[at + 1:]


def sooner(chance, app, rows, at):
    """A return, or another event, comes sooner."""
    before = next((it for it in range(at - 1, -1, -1) if name_of(rows[it]) == name_of(rows[at])), -1)
    first = max(before + 1, 1 + kind_less(rows))
    if kind_of(rows[at]) and first < at:
        rows = rows[:]
        rows.insert(chance.randrange(first, at), rows.pop(at))
        return rows


def later(chance, app, rows, at):
    """An event comes later."""
    after = next_of(rows, at)
    after = len(rows) if after is None else after
    if kind_of(rows[at]) and at + 1 < after:
        rows = rows[:]
        row = rows.pop(at)
        rows.insert(chance.randrange(at + 1, after), row)
        return rows


def no_event(chance, app, rows, at):
    """A mark, or the begin or end of a handler, is dropped."""
    if kind_of(rows[at]) in ("set", "begin", "end"):
        return rows[:at] + rows[at + 1:]


def repeated(chance, app, rows, at):
    """A call is made twice."""
    after = next_of(rows, at)
    if kind_of(rows[at]) == "enter" and after is not None:
        return rows[:after + 1] + [rows[at], rows[after]] + rows[after + 1:]


def hidden(chance, app, rows, at):
    """Something that was recorded isn't known."""
    numbers = [*re.finditer(r"(?<=[ (])[\w-]+(?=[,)]|$)", rows[at])] if kind_of(rows[at]) in ("enter", "return") else []
    numbers = [it for it in numbers if it[0] not in ("return", "NULL")]
    if numbers:
        it = chance.choice(numbers)
        return rows[:at] + [rows[at][:it.start()] + UNKNOWN + rows[at][it.end():]] + rows[at + 1:]


def kind_less(rows):
    """How many rows the header has after the first one."""
    return sum(row.startswith("unseen") for row in rows[:2])


CHANGES = [dropped, other_result, other_value, other_object, other_actor, exchanged, other_length, sooner, later, no_event, repeated, hidden]


def changed(chance, app, text, change):
    """The trace with one change of this kind, or None."""
    rows = text.rstrip("\n").split("\n")
    order = [*range(1 + kind_less(rows), len(rows))]
    chance.shuffle(order)
    for at in order:
        found = change(chance, app, rows, at)
        if found and found != rows:
            return "\n".join(found) + "\n"
    return None
