"""Applications, and their states: what each actor can do next, and what it does."""
import re
import tomllib
from collections import namedtuple

# What a call is: what it does, its arguments, and whether it has a begin and an end. The arguments are o, an object; e, what is sent; v, the
# variable that receives; n, a length; w, a block time; t, ticks; N, NULL.
Row = namedtuple("Row", "does arguments has_end")


def rows():
    """All calls, by name."""
    one = {
        "taskENTER_CRITICAL": "enter", "taskEXIT_CRITICAL": "exit",
        "taskENTER_CRITICAL_FROM_ISR": "enter", "taskEXIT_CRITICAL_FROM_ISR": "exit",
        "vTaskSuspendAll": "suspend", "xTaskResumeAll": "resume", "taskYIELD": "yield",
    }
    calls = {name: Row(does, "", False) for name, does in one.items()}
    calls["vTaskDelay"] = Row("yield", "t", False)
    calls["vTaskDelete"] = Row("end", "N", False)
    for name in ("xQueue", "xSemaphore:Binary", "xSemaphore:Counting", "xSemaphore:Mutex", "xSemaphore:RecursiveMutex", "xStreamBuffer", "xMessageBuffer"):
        stem, _, kind = name.partition(":")
        calls[f"{stem}Create{kind}"] = Row("create", "o", False)
    for name in ("Queue", "StreamBuffer", "MessageBuffer", "Semaphore"):
        calls[f"v{name}Delete"] = Row("delete", "o", False)
    for end, arguments in (("", "w"), ("FromISR", "")):
        calls[f"xQueueSend{end}"] = Row("send", "oe" + arguments, True)
        calls[f"xQueueReceive{end}"] = Row("receive", "ov" + arguments, True)
        calls[f"xSemaphoreTake{end}"] = Row("take", "o" + arguments, True)
        calls[f"xSemaphoreGive{end}"] = Row("give", "o", True)
        for kind in ("Stream", "Message"):
            calls[f"x{kind}BufferSend{end}"] = Row("put", "on" + arguments, True)
            calls[f"x{kind}BufferReceive{end}"] = Row("get", "on" + arguments, True)
    calls["xSemaphoreTakeRecursive"] = Row("take", "ow", True)
    calls["xSemaphoreGiveRecursive"] = Row("give", "o", True)
    calls["xStreamBufferReset"] = calls["xMessageBufferReset"] = Row("reset", "o", True)
    return calls


CALLS = rows()
CALL = re.compile(r"(?:(\w+) = )?(\w+)\((.*)\)(?: else (\d+))?")
COMPARE = {
    "<": lambda x, y: x < y, "<=": lambda x, y: x <= y, ">": lambda x, y: x > y, ">=": lambda x, y: x >= y,
    "==": lambda x, y: x == y, "!=": lambda x, y: x != y,
}
MAX_DELAY = "portMAX_DELAY"


class Line:
    """A line of code. `kind` is set, if, goto, pick, return or call. An operand is a number, or the name of a variable."""

    def __init__(self, text):
        self.text, self.kind, self.call, self.row, self.variable = text, "return", None, None, None
        self.object = self.sent = self.length = self.time = self.ticks = self.failed = None
        if match := re.fullmatch(r"goto (\d+)", text):
            self.kind, self.target = "goto", int(match[1])
        elif match := re.fullmatch(r"if (\S+) (\S+) (\S+) goto (\d+)", text):
            self.kind, self.left, self.sign, self.right, self.target = "if", operand(match[1]), match[2], operand(match[3]), int(match[4])
        elif match := re.fullmatch(r"pick (\S+) (\S+) (\S+)", text):
            self.kind, self.variable, self.lo, self.hi = "pick", match[1], int(match[2]), int(match[3])
        elif match := re.fullmatch(r"set (\S+) = (\S+)(?: ([-+*]) (\S+))?", text):
            self.kind, self.variable, self.left, self.sign, self.right = "set", match[1], operand(match[2]), match[3] or "+", operand(match[4] or "0")
        elif text != "return":
            self.read_call(CALL.fullmatch(text))

    def read_call(self, match):
        self.kind, self.variable, self.call, self.row = "call", match[1], match[2], CALLS[match[2]]
        self.failed = match[4] and int(match[4])
        self.answers = self.row.has_end or self.row.does == "create"
        for kind, text in zip(self.row.arguments, match[3].split(", ")):
            if kind == "o":
                self.object = text
            elif kind == "e":
                self.sent = operand(text)
            elif kind == "v":
                self.variable = text
            elif kind == "n":
                self.length = int(text)
            elif kind == "w":
                self.time = MAX_DELAY if text == MAX_DELAY else int(text)
            elif kind == "t":
                self.ticks = int(text)


def operand(text):
    return int(text) if re.fullmatch(r"-?\d+", text) else text


class App:
    """An application: its variables and objects by name, its actors with their lines."""

    def __init__(self, text):
        tables = tomllib.loads(text)
        self.variables = {it["name"]: it for it in tables.get("variable", [])}
        self.objects = {it["name"]: it for it in tables.get("object", [])}
        self.actors = [it["name"] for it in tables.get("actor", [])]
        self.numbers = {name: number for number, name in enumerate(self.actors)}
        self.is_interrupt = [it["kind"] == "interrupt" for it in tables.get("actor", [])]
        self.codes = [[Line(" ".join(line.split())) for line in it["code"]] for it in tables.get("actor", [])]
        self.places = {name: number for number, name in enumerate([*self.variables])}
        self.object_places = {name: number for number, name in enumerate([*self.objects])}
        for code in self.codes:
            for line in code:
                line.at = self.object_places.get(line.object)
                line.to = self.places.get(line.variable)

    def is_owned(self, variable):
        return "owner" in self.variables[variable]

    def widest_pick(self):
        return max((line.hi - line.lo for code in self.codes for line in code if line.kind == "pick"), default=0)


def new(it):
    """What a new object has: a queue its values, a message buffer its lengths, a mutex () or its holder and how often."""
    kind = it["kind"]
    return it["first"] if kind == "counting" else 0 if kind in ("binary", "stream") else ()


class State:
    """Where each actor is, (line, is inside) or None; the numbers of the variables; what each object has, None where it isn't live; the actor in
    the critical section and how deep, or None; how often each actor has suspended the scheduler.
    """

    __slots__ = ("app", "at", "values", "objects", "critical", "suspended")

    def __init__(self, app):
        self.app = app
        self.at = [(0, False)] * len(app.actors)
        self.values = [it["init"] for it in app.variables.values()]
        self.objects = [new(it) if it["live"] else None for it in app.objects.values()]
        self.critical = None
        self.suspended = [0] * len(app.actors)

    def copy(self):
        it = State.__new__(State)
        it.app, it.at, it.values, it.objects = self.app, self.at[:], self.values[:], self.objects[:]
        it.critical, it.suspended = self.critical, self.suspended[:]
        return it

    def key(self):
        return tuple(self.at), tuple(self.values), tuple(self.objects), self.critical, tuple(self.suspended)

    def line(self, actor):
        """The line of the actor, or None."""
        place = self.at[actor]
        return None if place is None else self.app.codes[actor][place[0]]

    def value(self, it):
        return it if isinstance(it, int) else self.values[self.app.places[it]]

    def kind(self, line):
        return self.app.objects[line.object]["kind"]

    def depth(self, actor):
        return self.critical[1] if self.critical is not None and self.critical[0] == actor else 0

    def is_stuck(self, actor, line, inside):
        """Whether the actor is at the breach of a rule that leaves it without a step."""
        if line.kind == "return":
            return not self.app.is_interrupt[actor] or self.depth(actor) > 0
        if line.kind != "call":
            return False
        does = line.row.does
        if not inside and self.is_forbidden(actor, line, does):
            return True
        if does == "delete" or line.row.has_end:
            if self.objects[line.at] is None:
                return True
        if does in ("take", "give"):
            return self.is_unsuited(actor, line)
        return False

    def is_forbidden(self, actor, line, does):
        at_once = does in ("put", "get") and (line.time == 0 or line.call.endswith("FromISR"))
        in_critical = does in ("enter", "exit") or at_once
        suspended = does in ("enter", "exit", "suspend", "resume")
        if self.depth(actor) and not in_critical or self.suspended[actor] and not suspended:
            return True
        if self.app.is_interrupt[actor] and not line.call.endswith(("FromISR", "_FROM_ISR")):
            return True
        if does == "exit":
            return not self.depth(actor)
        if does == "resume":
            return not self.suspended[actor]
        if does == "end":
            held = any(isinstance(it, tuple) and len(it) == 2 and it[0] == actor and kind["kind"] in ("mutex", "recursive")
                       for it, kind in zip(self.objects, self.app.objects.values()))
            return held or self.depth(actor) > 0 or self.suspended[actor] > 0
        return False

    def is_unsuited(self, actor, line):
        kind, is_recursive = self.kind(line), line.call.endswith("Recursive")
        if is_recursive != (kind == "recursive") or kind in ("mutex", "recursive") and line.call.endswith("FromISR"):
            return True
        held = self.objects[line.at]
        return line.row.does == "give" and kind in ("mutex", "recursive") and (not held or held[0] != actor)

    def moves(self, actor):
        """All choices of the actor's next step, in rising order."""
        line = self.line(actor)
        if line is None:
            return ()
        inside = self.at[actor][1]
        if self.is_stuck(actor, line, inside):
            return ()
        if line.kind == "pick":
            return range(line.lo, line.hi + 1)
        if line.kind != "call":
            return (0,)
        if inside:
            return self.ends(actor, line)
        if line.row.does == "enter":
            return (0,) if self.critical is None or self.critical[0] == actor else ()
        if line.row.does == "create":
            return (0, 1) if self.objects[line.at] is None else ()
        return (0,)

    def ends(self, actor, line):
        """The choices by which an object call can end."""
        does, it, has = line.row.does, self.app.objects[line.object], self.objects[line.at]
        if does == "reset":
            return (0, 1)
        if does == "put":
            if it["kind"] == "stream":
                return range(min(line.length, it["size"] - has) + 1)
            return (0, line.length) if sum(has) + line.length <= it["size"] else (0,)
        if does == "get":
            if it["kind"] == "stream":
                return range(min(line.length, has) + 1)
            return (0, has[0]) if has and has[0] <= line.length else (0,)
        if does == "give":
            if it["kind"] in ("mutex", "recursive"):
                return (1,)
            return (1,) if has < it.get("size", 1) else (0,)
        works = self.works(actor, does, it, has)
        can_fail = line.time != MAX_DELAY
        return (0, 1)[0 if can_fail else 1:2 if works else 1]

    @staticmethod
    def works(actor, does, it, has):
        if does == "send":
            return len(has) < it["size"]
        if does == "receive":
            return bool(has)
        if it["kind"] in ("mutex", "recursive"):
            return not has or it["kind"] == "recursive" and has[0] == actor
        return has > 0

    def puts_outside(self, actor):
        """Whether the actor's step puts a number out of its declared range."""
        line = self.line(actor)
        if line.kind == "set":
            it = self.app.variables[line.variable]
            return not it["lo"] <= self.result(line) <= it["hi"]
        if line.kind == "call" and line.row.does == "send" and self.at[actor][1]:
            it = self.app.objects[line.object]
            return not it["lo"] <= self.value(line.sent) <= it["hi"]
        return False

    def result(self, line):
        one, other = self.value(line.left), self.value(line.right)
        return one + other if line.sign == "+" else one - other if line.sign == "-" else one * other

    def apply(self, actor, choice):
        """Takes the actor's step by this choice, which is one of its moves."""
        line, (pc, inside) = self.line(actor), self.at[actor]
        following = (pc + 1, False)
        if line.kind == "set":
            self.values[line.to] = self.result(line)
        elif line.kind == "pick":
            self.values[line.to] = choice
        elif line.kind == "goto":
            following = (line.target, False)
        elif line.kind == "if":
            if COMPARE[line.sign](self.value(line.left), self.value(line.right)):
                following = (line.target, False)
        elif line.kind == "return":
            following = (0, False)
        elif inside:
            following = self.end(actor, line, choice, pc)
        elif line.row.has_end:
            following = (pc, True)
        else:
            following = self.do(actor, line, choice, pc)
        self.at[actor] = following

    def do(self, actor, line, choice, pc):
        """A call of one step; where the actor is then."""
        does = line.row.does
        if does == "enter":
            self.critical = (actor, self.depth(actor) + 1)
        elif does == "exit":
            depth = self.depth(actor) - 1
            self.critical = (actor, depth) if depth else None
        elif does == "suspend":
            self.suspended[actor] += 1
        elif does == "resume":
            self.suspended[actor] -= 1
        elif does == "end":
            return None
        elif does == "create":
            if choice == 0:
                return pc + 1 if line.failed is None else line.failed, False
            self.objects[line.at] = new(self.app.objects[line.object])
        elif does == "delete":
            self.objects[line.at] = None
        return pc + 1, False

    def end(self, actor, line, choice, pc):
        """The end of an object call; where the actor is then."""
        does, place = line.row.does, line.at
        kind, has = self.kind(line), self.objects[place]
        if does in ("put", "get"):
            self.move(does, kind, place, has, choice)
            if line.to is not None:
                self.values[line.to] = choice
        elif choice == 0:
            return pc + 1 if line.failed is None else line.failed, False
        elif does == "reset":
            self.objects[place] = new(self.app.objects[line.object])
        elif does == "send":
            self.objects[place] = has + (self.value(line.sent),)
        elif does == "receive":
            self.objects[place], self.values[line.to] = has[1:], has[0]
        elif kind in ("mutex", "recursive"):
            count = (has[1] if has else 0) + (1 if does == "take" else -1)
            self.objects[place] = (actor, count) if count else ()
        else:
            self.objects[place] = has + (1 if does == "give" else -1)
        return pc + 1, False

    def move(self, does, kind, place, has, choice):
        if kind == "stream":
            self.objects[place] = has + choice if does == "put" else has - choice
        elif choice:
            self.objects[place] = has + (choice,) if does == "put" else has[1:]
