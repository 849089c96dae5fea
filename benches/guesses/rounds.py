"""The rounds of guessing once more, slowly, from what docs/CERTIFICATE.md and the table of steps in docs/DEFINITIONS.md say.

`found(text, rounds)` is the text of the certificate for an application's text, or None where no round changes nothing.
"""
import json
import re
import tomllib

EXACT_ROUNDS = 8
MOST_ALTERNATIVES = 4
MOST_COUNT = 255
COMPARISONS = {"<": ">=", "<=": ">", ">": "<=", ">=": "<", "==": "!=", "!=": "=="}
CRITICAL_CALLS = {f"task{way}_CRITICAL{form}()" for way in ("ENTER", "EXIT") for form in ("", "_FROM_ISR")}
SUSPENSIONS = {"vTaskSuspendAll()", "xTaskResumeAll()"}
DELETES = {"vQueueDelete", "vSemaphoreDelete", "vStreamBufferDelete", "vMessageBufferDelete"}


class Line:
    """A line of code: its words, and for a call its name, arguments, result and else."""

    def __init__(self, text):
        self.text = text
        call = re.fullmatch(r"(?:(\w+) = )?(\w+)\((.*?)\)(?: else (\d+))?", text)
        self.is_call = call is not None
        self.words = text.split(" ")
        self.result, self.name, arguments, target = call.groups() if call else (None, self.words[0], "", None)
        self.arguments = arguments.split(", ") if arguments else []
        self.target = None if target is None else int(target)
        self.is_from_isr = self.name.endswith(("FromISR", "_FROM_ISR"))

    def action(self):
        """What a call of two steps does, or None where the line has one step."""
        found = re.match(r"x(Queue|Semaphore|StreamBuffer|MessageBuffer)(Send|Receive|Take|Give|Reset)", self.name)
        return found[2] if self.is_call and found else None

    def is_create(self):
        return self.is_call and "Create" in self.name

    def is_delete(self):
        return self.is_call and self.name in DELETES

    def object(self):
        return self.arguments[0]

    def can_time_out(self):
        return self.is_from_isr or self.arguments[-1] != "portMAX_DELAY"

    def is_at_once(self):
        return self.is_from_isr or self.arguments[-1] == "0"


class Application:
    def __init__(self, text):
        tables = tomllib.loads(text)
        self.variables = {it["name"]: it for it in tables.get("variable", [])}
        self.objects = {it["name"]: it for it in tables.get("object", [])}
        self.actors = tables.get("actor", [])
        self.code = [[Line(line) for line in actor["code"]] for actor in self.actors]
        self.points = []
        for actor, lines in enumerate(self.code):
            for pc, line in enumerate(lines):
                self.points.append((actor, pc, "before"))
                if line.action():
                    self.points.append((actor, pc, "inside"))

    def line(self, point):
        return self.code[point[0]][point[1]]

    def is_interrupt(self, point):
        return self.actors[point[0]]["kind"] == "interrupt"

    def declared(self, variable):
        return self.variables[variable]["lo"], self.variables[variable]["hi"]

    def kind(self, line):
        return self.objects[line.object()]["kind"]


class Alternative:
    """Held mutexes with their counts, depths, objects that are live (True) or dead (False), a range for each variable."""

    def __init__(self, held, critical, suspended, lives, ranges):
        self.held, self.critical, self.suspended = held, critical, suspended
        self.lives, self.ranges = lives, ranges

    def __eq__(self, other):
        return vars(self) == vars(other)

    def copy(self):
        return Alternative(dict(self.held), self.critical, self.suspended, dict(self.lives), dict(self.ranges))

    def can_be_one_with(self, other):
        return (self.held, self.critical, self.suspended) == (other.held, other.critical, other.suspended)

    def can_meet(self, other):
        return (
            not (self.critical and other.critical)
            and not self.held.keys() & other.held.keys()
            and all(other.lives.get(it, lives) == lives for it, lives in self.lives.items())
            and all(meet(self.ranges[it], other.ranges[it]) for it in self.ranges)
        )


class Known:
    """What is known of a state: of the actor that moves, and perhaps of another one. They share lives and ranges."""

    def __init__(self, mover, other=None):
        self.mover, self.other = mover.copy(), other and other.copy()
        if other:
            self.mover.lives.update(other.lives)
            self.mover.ranges = {it: meet(range_, other.ranges[it]) for it, range_ in mover.ranges.items()}

    def copy(self):
        known = Known.__new__(Known)
        known.mover, known.other = self.mover.copy(), self.other and self.other.copy()
        return known

    def is_other_critical(self):
        return self.other is not None and self.other.critical > 0

    def has_other(self, mutex):
        return self.other is not None and mutex in self.other.held

    def left(self, application):
        """The note of the actor that is looked at, within declared ranges; None where there is none."""
        left = (self.other or self.mover).copy()
        left.lives = dict(self.mover.lives)
        left.ranges = {it: meet(range_, application.declared(it)) for it, range_ in self.mover.ranges.items()}
        numbers = [left.critical, left.suspended, *left.held.values()]
        return left if all(left.ranges.values()) and max(numbers) <= MOST_COUNT else None


def meet(one, other):
    lo, hi = max(one[0], other[0]), min(one[1], other[1])
    return (lo, hi) if lo <= hi else None


def operand(known, word):
    return known.mover.ranges[word] if word in known.mover.ranges else (int(word), int(word))


def without(range_, number):
    """The range without a number, which is taken away where it is one of its ends."""
    lo, hi = range_[0] + (range_[0] == number), range_[1] - (range_[1] == number)
    return (lo, hi) if lo <= hi else None


def compared(one, comparison, other):
    """What a true comparison leaves of two ranges, or None where it can't be true."""
    if comparison in (">", ">="):
        left = compared(other, comparison.replace(">", "<"), one)
        return left and left[::-1]
    if comparison in ("<", "<="):
        less = comparison == "<"
        left = meet(one, (one[0], other[1] - less)), meet(other, (one[0] + less, other[1]))
    elif comparison == "==":
        left = meet(one, other), meet(one, other)
    else:
        left = (
            without(one, other[0]) if other[0] == other[1] else one,
            without(other, one[0]) if one[0] == one[1] else other,
        )
    return left if all(left) else None


def computed(one, operator, other):
    signed = [-it for it in reversed(other)] if operator == "-" else other
    values = [x * y for x in one for y in other] if operator == "*" else [one[0] + signed[0], one[1] + signed[1]]
    return min(values), max(values)


def is_unsuited(application, line):
    """Whether a call doesn't suit the kind of its semaphore."""
    if line.action() not in ("Take", "Give"):
        return False
    kind = application.kind(line)
    if line.is_from_isr:
        return kind in ("mutex", "recursive")
    return line.name.endswith("Recursive") != (kind == "recursive")


def is_given_unheld(application, line, known):
    mutex = {"xSemaphoreGive": "mutex", "xSemaphoreGiveRecursive": "recursive"}.get(line.name)
    return mutex is not None and application.kind(line) == mutex and line.object() not in known.mover.held


def is_forbidden(application, point, known):
    """Whether the actor breaks a rule before the line, by its own depths and held mutexes or by the call alone."""
    line, mover = application.line(point), known.mover
    if line.text == "return":
        return not application.is_interrupt(point) or mover.critical > 0
    if not line.is_call:
        return False
    is_critical_call = line.text in CRITICAL_CALLS
    moves_bytes = "Buffer" in line.name and line.action() in ("Send", "Receive")
    return (
        mover.critical > 0 and not (is_critical_call or (moves_bytes and line.is_at_once()))
        or mover.suspended > 0 and not (is_critical_call or line.text in SUSPENSIONS)
        or application.is_interrupt(point) and not line.is_from_isr
        or is_unsuited(application, line)
        or line.name.startswith("taskEXIT") and mover.critical == 0
        or line.name == "xTaskResumeAll" and mover.suspended == 0
        or line.name == "vTaskDelete" and bool(mover.held)
    )


def steps(application, point, known):
    """The rows by which a state in which this is known can step: the point behind, None for an end, and what is known then."""
    if point[2] == "inside":
        return list(ends(application, point, known))
    return [] if is_forbidden(application, point, known) else list(begins(application, point, known))


def knowing(known, **changes):
    """What is known, with a change of the mover's depths."""
    after = known.copy()
    vars(after.mover).update(changes)
    return after


def writing(known, variable, range_):
    after = known.copy()
    if variable:
        after.mover.ranges[variable] = range_
    return after


def living(known, it):
    """What is known, where the object is live; None where it is known to be dead."""
    after = known.copy()
    after.mover.lives[it] = True
    return after if known.mover.lives.get(it, True) else None


def begins(application, point, known):
    actor, pc, _ = point
    line, after = application.line(point), (actor, pc + 1, "before")
    words, mover = line.words, known.mover
    if not line.is_call:
        yield from plain(application, point, known)
    elif line.name.startswith("taskENTER"):
        if not known.is_other_critical():
            yield after, knowing(known, critical=mover.critical + 1)
    elif line.name.startswith("taskEXIT"):
        yield after, knowing(known, critical=mover.critical - 1)
    elif line.name == "vTaskSuspendAll":
        yield after, knowing(known, suspended=mover.suspended + 1)
    elif line.name == "xTaskResumeAll":
        yield after, knowing(known, suspended=mover.suspended - 1)
    elif line.name in ("taskYIELD", "vTaskDelay"):
        yield after, known
    elif line.name == "vTaskDelete":
        yield None, known
    elif line.is_create():
        if not mover.lives.get(line.object(), False):
            yield after, living(unknown(known, line.object()), line.object())
            yield target(line, point), dead(known, line.object())
    elif line.is_delete():
        if living(known, line.object()):
            yield after, dead(known, line.object())
    elif living(known, line.object()) and not is_given_unheld(application, line, known):
        yield (actor, pc, "inside"), living(known, line.object())


def plain(application, point, known):
    """The rows of a line that is no call."""
    actor, pc, _ = point
    words, after = application.line(point).words, (actor, pc + 1, "before")
    if words[0] == "set":
        one, operator, other = (words[3:] + ["+", "0"])[:3]
        yield after, writing(known, words[1], computed(operand(known, one), operator, operand(known, other)))
    elif words[0] == "pick":
        yield after, writing(known, words[1], (int(words[2]), int(words[3])))
    elif words[0] == "goto":
        yield (actor, int(words[1]), "before"), known
    elif words[0] == "return":
        yield (actor, 0, "before"), known
    else:
        _, one, comparison, other, _, to = words
        for way, behind in ((comparison, (actor, int(to), "before")), (COMPARISONS[comparison], after)):
            left = compared(operand(known, one), way, operand(known, other))
            if left:
                narrowed = known.copy()
                narrowed.mover.ranges.update({it: range_ for it, range_ in zip((one, other), left) if it in application.variables})
                yield behind, narrowed


def target(line, point):
    """Where a call goes on that fails."""
    return (point[0], point[1] + 1 if line.target is None else line.target, "before")


def unknown(known, it):
    after = known.copy()
    after.mover.lives.pop(it, None)
    return after


def dead(known, it):
    """What is known, where the object is dead: nobody holds it."""
    after = known.copy()
    after.mover.lives[it] = False
    for actor in (after.mover, after.other):
        if actor:
            actor.held.pop(it, None)
    return after


def holding(known, it, count):
    after = known.copy()
    after.mover.held.pop(it, None)
    if count:
        after.mover.held[it] = count
    return after


def ends(application, point, known):
    line, after = application.line(point), (point[0], point[1] + 1, "before")
    live = living(known, line.object())
    if live is None or is_unsuited(application, line) or is_given_unheld(application, line, known):
        return
    if "Buffer" in line.name and line.action() != "Reset":
        for range_ in moved(application, line):
            yield after, writing(live, line.result, range_)
        return
    worked, can_fail = finished(application, line, live)
    if worked:
        yield after, worked
    if can_fail:
        yield target(line, point), live


def moved(application, line):
    """How many bytes a call of a buffer can move, by its rows."""
    length, size = int(line.arguments[1]), application.objects[line.object()]["size"]
    if application.kind(line) == "stream":
        return [(0, min(length, size))]
    if line.action() == "Receive":
        return [(0, 0), (1, min(length, size))]
    return [(0, 0)] + [(length, length)] * (length <= size)


def finished(application, line, known):
    """What is known where another call has worked, None where it can't, and whether it can fail."""
    it, kind = line.object(), application.kind(line)
    count = known.mover.held.get(it, 0)
    is_mutex = kind in ("mutex", "recursive")
    if line.action() == "Take":
        can_work = not is_mutex or (not known.has_other(it) and (kind == "recursive" or count == 0))
        worked = holding(known, it, count + 1) if is_mutex else known
        return worked if can_work else None, line.can_time_out()
    if line.action() == "Give":
        return (holding(known, it, count - 1), False) if is_mutex else (known, True)
    if line.action() == "Reset":
        return known, True
    if line.action() == "Receive":
        values = application.objects[it]["lo"], application.objects[it]["hi"]
        return writing(known, line.arguments[1], values), line.can_time_out()
    return known, line.can_time_out()


def grown(range_, other, declared, is_exact):
    most = other if is_exact else declared
    return most[0] if other[0] < range_[0] else range_[0], most[1] if other[1] > range_[1] else range_[1]


def merge(application, note, left, is_exact):
    """Merges what a step leaves into a note."""
    for alternative in note:
        if alternative.can_be_one_with(left):
            alternative.lives = {it: lives for it, lives in alternative.lives.items() if left.lives.get(it) == lives}
            for it, range_ in alternative.ranges.items():
                alternative.ranges[it] = grown(range_, left.ranges[it], application.declared(it), is_exact)
            return
    if len(note) < MOST_ALTERNATIVES:
        note.append(left.copy())


def arriving(application, notes, number, source):
    """What the steps from a point leave for the actor of the point with this number, in their order."""
    point, mover = application.points[number], application.points[source]
    if point[0] == mover[0]:
        for alternative in notes[source]:
            yield from (known for to, known in steps(application, mover, Known(alternative)) if to == point)
        return
    for alternative in notes[source]:
        for other in notes[number]:
            if alternative.can_meet(other):
                yield from (known for _, known in steps(application, mover, Known(alternative, other)))


def next_note(application, notes, number, is_exact):
    note = [alternative.copy() for alternative in notes[number]]
    for source in range(len(notes)):
        for known in arriving(application, notes, number, source):
            left = known.left(application)
            if left:
                merge(application, note, left, is_exact)
    return note


def guess(application, rounds):
    """The first round that is the same as the one before it, or None."""
    lives = {it["name"]: it["live"] for it in application.objects.values()}
    ranges = {it["name"]: (it["init"], it["init"]) for it in application.variables.values()}
    begin = Alternative({}, 0, 0, lives, ranges)
    notes = [[begin.copy()] if point[1:] == (0, "before") else [] for point in application.points]
    for number in range(rounds):
        after = [next_note(application, notes, it, number < EXACT_ROUNDS) for it in range(len(notes))]
        if after == notes:
            return after
        notes = after
    return None


def guard(application, inside):
    """The first guard that the notes inside an end imply, and otherwise the first actor alone."""
    actors = [application.actors[actor]["name"] for actor, _ in inside]
    alternatives = [it for _, note in inside for it in note]
    if len(set(actors)) == 1:
        return {"sole": actors[0]}
    for mutex in application.objects:
        if all(mutex in it.held for it in alternatives):
            return {"mutex": mutex}
    if all(it.critical for it in alternatives):
        return "critical"
    for variable in application.variables:
        values = {}
        for actor, (_, note) in zip(actors, inside):
            values.setdefault(actor, set()).update(it.ranges[variable] for it in note)
        ranges = [range_ for found in values.values() for range_ in found]
        if all(lo == hi for lo, hi in ranges) and len(ranges) == len(values) == len(set(ranges)):
            return {"turn": variable, "values": {actor: found.pop()[0] for actor, found in sorted(values.items())}}
    return {"sole": actors[0]}


def guards(application, notes):
    for buffer, it in application.objects.items():
        for end, actions in (("writer", ("Send", "Reset")), ("reader", ("Receive", "Reset"))):
            inside = []
            for point, note in zip(application.points, notes):
                line = application.line(point)
                if point[2] == "inside" and note and line.object() == buffer and line.action() in actions:
                    inside.append((point[0], note))
            if inside and it["kind"] in ("stream", "message"):
                yield {"buffer": buffer, "end": end, "guard": guard(application, inside)}


def written_note(application, it):
    ranges = {name: list(range_) for name, range_ in sorted(it.ranges.items()) if range_ != application.declared(name)}
    lives = [name for name in application.objects if it.lives.get(name) and name not in it.held]
    note = {
        "crit": it.critical,
        "dead": [name for name in application.objects if it.lives.get(name) is False],
        "held": dict(sorted(it.held.items())),
        "live": lives,
        "range": ranges,
        "susp": it.suspended,
    }
    return {key: value for key, value in note.items() if value}


def found(text, rounds):
    application = Application(text)
    notes = guess(application, rounds)
    if notes is None:
        return None
    written = []
    for note in notes:
        alternatives = [written_note(application, it) for it in note]
        written.append("never" if not note else alternatives[0] if len(note) == 1 else alternatives)
    version = 2 if any(len(note) > 1 for note in notes) else 1
    whole = {"ends": list(guards(application, notes)), "notes": written, "version": version}
    return json.dumps(whole, separators=(",", ":"))
