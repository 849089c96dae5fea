"""States, rules, the step table, notes and guards once more, as docs/DEFINITIONS.md tells them, for one state at a time."""
import operator
import re
import tomllib
from collections import namedtuple

Held = namedtuple("Held", "holder count")
DEAD, FREE = "dead", "free"
TOKEN = re.compile(r"-\d+|\w+|[<>=!]=|[-+*<>=(),]")
ACTION = re.compile(r"x(?:Queue|Semaphore|StreamBuffer|MessageBuffer)(Send|Receive|Take|Give|Reset)")
COMPARISONS = {"<": operator.lt, "<=": operator.le, ">": operator.gt, ">=": operator.ge, "==": operator.eq, "!=": operator.ne}
SUMS = {"+": operator.add, "-": operator.sub, "*": operator.mul}
ENTERS = ("taskENTER_CRITICAL", "taskENTER_CRITICAL_FROM_ISR")
LEAVES = ("taskEXIT_CRITICAL", "taskEXIT_CRITICAL_FROM_ISR")
MUTEXES = ("mutex", "recursive")
BUFFERS = ("stream", "message")


class Line:
    """A line of code: its text with one space between words, what it does, its words, and where it can jump to."""

    def __init__(self, written):
        words = TOKEN.findall(written)
        self.result = self.target = self.action = None
        self.is_call = "(" in words
        if self.is_call:
            self.read_call(words)
            return
        words += ["+", "0"] if words[0] == "set" and len(words) == 4 else []
        self.text, self.op = " ".join(words), words[0]
        self.args = [it for it in words[1:] if it != "="]
        if self.op in ("if", "goto"):
            self.target = int(words[-1])

    def read_call(self, words):
        """Takes a call apart."""
        begin, end = words.index("("), words.index(")")
        self.op, self.args = words[begin - 1], [it for it in words[begin + 1:end] if it != ","]
        self.result = words[0] if begin == 3 else None
        self.target = int(words[-1]) if words[end + 1:] else None
        action = ACTION.match(self.op)
        self.action = action and "Create" not in self.op and action[1]
        into, otherwise = f"{self.result} = " * (begin == 3), f" else {self.target}" * (self.target is not None)
        self.text = f"{into}{self.op}({', '.join(self.args)}){otherwise}"

    def is_for_isr(self):
        return self.op.endswith(("FromISR", "_FROM_ISR"))

    def is_create(self):
        return self.is_call and "Create" in self.op

    def is_delete(self):
        return self.is_call and "Delete" in self.op and self.args != ["NULL"]

    def object(self):
        """The object that the line names, or None."""
        return self.args[0] if self.action or self.is_create() or self.is_delete() else None

    def moves_bytes(self):
        return "Buffer" in self.op and self.action in ("Send", "Receive")

    def block_time(self):
        """The block time of a call that can wait: a form for interrupts counts as 0."""
        return "0" if self.is_for_isr() else self.args[-1]

    def ends(self):
        """The ends of its buffer at which an actor inside the call is."""
        at = {"Send": ["writer"], "Receive": ["reader"], "Reset": ["writer", "reader"]}
        return at.get(self.action, []) if "Buffer" in self.op else []


class Application:
    """Variables and objects by name, the actors' names, their code and the points."""

    def __init__(self, text):
        self.text, tables = text, tomllib.loads(text)
        self.variables = {it["name"]: it for it in tables.get("variable", [])}
        self.objects = {it["name"]: it for it in tables.get("object", [])}
        self.actors = [it["name"] for it in tables.get("actor", [])]
        self.interrupts = [it["kind"] == "interrupt" for it in tables.get("actor", [])]
        self.code = [[Line(line) for line in it["code"]] for it in tables.get("actor", [])]
        self.points = [
            (actor, pc, side)
            for actor, lines in enumerate(self.code)
            for pc, line in enumerate(lines)
            for side in (["before", "inside"] if line.action else ["before"])
        ]

    def line(self, point):
        return self.code[point[0]][point[1]]

    def kind(self, name):
        return self.objects[name]["kind"]

    def declared(self, name):
        return [self.variables[name]["lo"], self.variables[name]["hi"]]

    def subjects(self):
        """What a note can speak of, in its order."""
        things = [("object", it) for it in self.objects] + [("variable", it) for it in self.variables]
        return [("critical", ""), ("suspended", "")] + things


class State:
    """Places (None is done), values, contents, (actor, depth) of the critical section or None, suspension depths."""

    def __init__(self, places, values, contents, critical, suspended):
        self.places, self.values, self.contents = list(places), dict(values), dict(contents)
        self.critical, self.suspended = critical, list(suspended)

    def copy(self):
        return State(**vars(self))

    def __eq__(self, other):
        return vars(self) == vars(other)

    def depth(self, actor):
        return self.critical[1] if self.critical and self.critical[0] == actor else 0

    def count(self, actor, name):
        """How often the actor holds the object."""
        content = self.contents[name]
        return content.count if isinstance(content, Held) and content.holder == actor else 0

    def operand(self, word):
        return self.values[word] if word in self.values else int(word)


def new(it):
    """What a new object has."""
    empty = {"queue": (), "binary": 0, "mutex": FREE, "recursive": FREE, "stream": 0, "message": ()}
    return it["first"] if it["kind"] == "counting" else empty[it["kind"]]


def start(app):
    contents = {name: new(it) if it["live"] else DEAD for name, it in app.objects.items()}
    values = {name: it["init"] for name, it in app.variables.items()}
    return State([(0, "before")] * len(app.actors), values, contents, None, [0] * len(app.actors))


def is_formed(app, name, content):
    """Whether a live object of its kind can have this."""
    it = app.objects[name]
    kind, size = it["kind"], it.get("size", 1)
    if kind in MUTEXES:
        return content == FREE or content.count == 1 or (kind == "recursive" and content.count > 1)
    if kind == "queue":
        return len(content) <= size and all(it["lo"] <= value <= it["hi"] for value in content)
    if kind == "message":
        return sum(content) <= size and all(length >= 1 for length in content)
    return 0 <= content <= size


def is_well_formed(app, state):
    places = [place is None or (actor, *place) in app.points for actor, place in enumerate(state.places)]
    contents = [content == DEAD or is_formed(app, name, content) for name, content in state.contents.items()]
    return all(places) and all(contents) and (state.critical is None or state.critical[1] >= 1)


def is_unsuited(app, line):
    """Whether a take or a give doesn't suit the kind of its semaphore."""
    if line.action not in ("Take", "Give"):
        return False
    kind = app.kind(line.object())
    return kind in MUTEXES if line.is_for_isr() else line.op.endswith("Recursive") != (kind == "recursive")


def result(state, line):
    """The value that a `set` gives."""
    _, one, sign, other = line.args
    return SUMS[sign](state.operand(one), state.operand(other))


def is_out_of_range(app, state, line, side):
    """Whether rule 12 is breached: before a `set`, or inside a queue send."""
    if line.op == "set":
        lo, hi = app.declared(line.args[0])
        return not lo <= result(state, line) <= hi
    if line.op.startswith("xQueueSend") and side == "inside":
        it = app.objects[line.object()]
        return not it["lo"] <= state.operand(line.args[1]) <= it["hi"]
    return False


def breaches(app, state, actor):
    """The rules that the actor breaches: not those about two actors, which are 1, 2 and 8 of a delete."""
    if state.places[actor] is None:
        return set()
    pc, side = state.places[actor]
    line, is_before = app.code[actor][pc], side == "before"
    it = line.object()
    depth, suspended, is_dead = state.depth(actor), state.suspended[actor], it and state.contents[it] == DEAD
    is_critical_call, is_suspension = line.op in ENTERS + LEAVES, line.op in ("vTaskSuspendAll", "xTaskResumeAll")
    gives = {"xSemaphoreGive": "mutex", "xSemaphoreGiveRecursive": "recursive"}.get(line.op)
    ends_task = line.op == "vTaskDelete"
    holds = any(state.count(actor, name) for name in app.objects)
    breached = {
        3: gives and app.kind(it) == gives and not state.count(actor, it),
        4: is_before and line.is_call and depth and not (is_critical_call or (line.moves_bytes() and line.block_time() == "0")),
        5: is_before and line.is_call and suspended and not (is_critical_call or is_suspension),
        6: is_before and line.is_call and app.interrupts[actor] and not line.is_for_isr(),
        7: is_dead and (line.is_delete() or line.action),
        8: line.is_create() and not is_dead,
        9: is_before and is_unsuited(app, line),
        10: (line.op in LEAVES and not depth) or (line.op == "xTaskResumeAll" and not suspended),
        11: (line.op == "return" and (depth or not app.interrupts[actor])) or (ends_task and (holds or depth or suspended)),
        12: is_out_of_range(app, state, line, side),
    }
    return {rule for rule, is_so in breached.items() if is_so}


def step(app, state, actor, choice):
    """The state after the actor's step by this choice and its row, "then" or "else"; None where there is no such step."""
    if state.places[actor] is None or breaches(app, state, actor) - {12}:
        return None
    pc, side = state.places[actor]
    line, after = app.code[actor][pc], state.copy()
    if side == "inside":
        row = None if is_unsuited(app, line) else end(app, after, actor, line, choice)
    elif line.action:
        row = "then" if choice == 0 else None
    else:
        row = whole(app, after, actor, line, choice)
    after.places[actor] = behind(line, pc, side, row)
    return row and (after, row)


def behind(line, pc, side, row):
    """Where the actor is behind a step by this row."""
    if line.action and side == "before":
        return pc, "inside"
    if line.op in ("return", "vTaskDelete"):
        return (0, "before") if line.op == "return" else None
    jumps = line.op == "goto" or row == ("then" if line.op == "if" else "else")
    return line.target if jumps and line.target is not None else pc + 1, "before"


def whole(app, state, actor, line, choice):
    """Makes in the state what a line of one step does. Its row, or None where it has no step by this choice."""
    if line.op == "pick":
        name, lo, hi = line.args
        state.values[name] = choice
        return "then" if int(lo) <= choice <= int(hi) else None
    if line.is_create():
        state.contents[line.object()] = new(app.objects[line.object()]) if choice == 1 else DEAD
        return {1: "then", 0: "else"}.get(choice)
    if choice != 0:
        return None
    if line.op == "if":
        one, sign, other = line.args[:3]
        return "then" if COMPARISONS[sign](state.operand(one), state.operand(other)) else "else"
    depth, suspended = state.depth(actor), state.suspended[actor]
    if line.op == "set":
        state.values[line.args[0]] = result(state, line)
    elif line.op in ENTERS:
        if state.critical and state.critical[0] != actor:
            return None
        state.critical = (actor, depth + 1)
    elif line.op in LEAVES:
        state.critical = (actor, depth - 1) if depth > 1 else None
    elif line.op in ("vTaskSuspendAll", "xTaskResumeAll"):
        state.suspended[actor] = suspended + (1 if line.op == "vTaskSuspendAll" else -1)
    elif line.is_delete():
        state.contents[line.object()] = DEAD
    return "then"


def end(app, state, actor, line, choice):
    """Makes in the state what the end of an object call does. Its row, or None."""
    name = line.object()
    content, size = state.contents[name], app.objects[name].get("size", 1)
    if line.moves_bytes():
        move = stream_end if app.kind(name) == "stream" else message_end
        row, left = move(line, content, size, choice)
        if line.result:
            state.values[line.result] = choice
    else:
        row, left = tried_end(app, state, actor, line, choice)
    state.contents[name] = left
    if row == "then" and line.op.startswith("xQueueReceive"):
        state.values[line.args[1]] = content[0]
    return row


def stream_end(line, content, size, choice):
    """The row of a stream call that moves so many bytes, and what the buffer has then."""
    sends, length = line.action == "Send", int(line.args[1])
    is_so = 0 <= choice <= min(length, size - content if sends else content)
    return "then" if is_so else None, content + choice if sends else content - choice


def message_end(line, content, size, choice):
    """The same of a message call."""
    length = int(line.args[1])
    if choice == 0:
        return "else", content
    if line.action == "Send":
        return "then" if choice == length and sum(content) + length <= size else None, content + (choice,)
    return "then" if content and choice == content[0] <= length else None, content[1:]


def tried_end(app, state, actor, line, choice):
    """The row of a call that works or fails, and what its object has then."""
    name = line.object()
    kind, content, size = app.kind(name), state.contents[name], app.objects[name].get("size", 1)
    if choice == 1:
        left = worked(app.objects[name], state, actor, line)
        return None if left is None else "then", left
    if line.action == "Give":
        fails = kind not in MUTEXES and content >= size
    else:
        fails = line.action == "Reset" or line.block_time() != "portMAX_DELAY"
    return "else" if choice == 0 and fails else None, content


def worked(it, state, actor, line):
    """What an object has where a call on it works; None where it can't."""
    content, size, count = state.contents[it["name"]], it.get("size", 1), state.count(actor, it["name"])
    if line.action == "Reset":
        return new(it)
    if line.action == "Send":
        return content + (state.operand(line.args[1]),) if len(content) < size else None
    if line.action == "Receive":
        return content[1:] if content else None
    if it["kind"] not in MUTEXES:
        after = content + (1 if line.action == "Give" else -1)
        return after if 0 <= after <= size else None
    if line.action == "Give":
        return Held(actor, count - 1) if count > 1 else FREE
    is_there = content == FREE or (it["kind"] == "recursive" and count)
    return Held(actor, count + 1) if is_there else None


def alternatives(entry):
    """The alternatives of a note as a certificate has it."""
    return [] if entry == "never" else entry if isinstance(entry, list) else [entry]


def claim(says, name):
    """What an alternative says of an object: a count that is held, or a word."""
    if name in says.get("held", {}):
        return says["held"][name]
    return "gone" if name in says.get("dead", []) else "alive" if name in says.get("live", []) else "not held"


def is_true(app, says, actor, state, subject):
    """Whether what an alternative says of a subject, for this actor, is so in the state."""
    what, name = subject
    if what == "critical":
        return state.depth(actor) == says.get("crit", 0)
    if what == "suspended":
        return state.suspended[actor] == says.get("susp", 0)
    if what == "variable":
        lo, hi = says.get("range", {}).get(name, app.declared(name))
        return lo <= state.values[name] <= hi
    said, count, is_dead = claim(says, name), state.count(actor, name), state.contents[name] == DEAD
    return is_dead if said == "gone" else count == (0 if isinstance(said, str) else said) and not (said == "alive" and is_dead)


def broken(app, says, actor, state):
    """The subjects of which what the alternative says of the actor isn't so."""
    return [it for it in app.subjects() if not is_true(app, says, actor, state, it)]


def holds(app, note, actor, state):
    return any(not broken(app, says, actor, state) for says in note)


def has_guard(guard, app, actor, state):
    """Whether the actor has the guard in the state."""
    if guard == "critical":
        return state.depth(actor) > 0
    if "sole" in guard:
        return app.actors[actor] == guard["sole"]
    if "mutex" in guard:
        return state.count(actor, guard["mutex"]) > 0
    return guard["values"].get(app.actors[actor]) == state.values[guard["turn"]]
