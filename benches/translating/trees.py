"""Random sources as trees: what a source says, before it is written as a text. Two parts of a tree are equal only if they are the same one."""
from dataclasses import dataclass, field

from automata import COMPARISON, Call, Variable, answers_bytes, may_fail


class Statements(list):
    """Statements that follow each other."""
    __hash__, __eq__ = object.__hash__, object.__eq__


@dataclass(eq=False)
class Set:
    """`variable = left sign right;`, or `variable = left;` without a sign."""
    variable: Variable
    left: object
    sign: object = None
    right: object = 0


@dataclass(eq=False)
class Pick:
    """`variable = any(low, high);`"""
    variable: Variable
    low: int
    high: int


@dataclass(eq=False)
class Do:
    """A call whose answer isn't used."""
    call: Call


@dataclass(eq=False)
class Count:
    """`variable = call;`, where the call answers a number of bytes."""
    variable: Variable
    call: Call


@dataclass(eq=False)
class Keep:
    """`variable = call;`, where the call answers if it worked."""
    variable: Variable
    call: Call


@dataclass(eq=False)
class Assert:
    """`configASSERT(condition);`"""
    condition: object


@dataclass(eq=False)
class Run:
    """The call of a function."""
    function: object


@dataclass(eq=False)
class If:
    condition: object
    then: Statements
    otherwise: object


@dataclass(eq=False)
class While:
    condition: object
    body: Statements


@dataclass(eq=False)
class DoWhile:
    body: Statements
    condition: object


@dataclass(eq=False)
class For:
    """A `for`: `first` and `step` have one statement or none, and `condition` may be None."""
    first: Statements
    condition: object
    step: Statements
    body: Statements


@dataclass(eq=False)
class Switch:
    """A `switch`: each part has a value, None for `default`, and its statements."""
    variable: Variable
    parts: list


@dataclass(eq=False)
class Block:
    body: Statements


@dataclass(eq=False)
class Label:
    name: str


@dataclass(eq=False)
class Goto:
    label: object = None


@dataclass(eq=False)
class Jump:
    """`break`, `continue` or `return`."""
    word: str


@dataclass(eq=False)
class And:
    left: object
    right: object


@dataclass(eq=False)
class Or:
    left: object
    right: object


@dataclass(eq=False)
class Not:
    part: object


@dataclass(eq=False)
class Works:
    """Whether a call works."""
    call: Call


@dataclass(eq=False)
class Constant:
    holds: bool


@dataclass(eq=False)
class Compare:
    left: object
    sign: str
    right: object


@dataclass(eq=False)
class Given:
    """`(variable = ..) sign operand`: `statement` is a Pick or a Count, and `test` the comparison after it."""
    statement: object
    test: Compare


@dataclass(eq=False)
class Thing:
    """An object: its kind, the numbers in its declaration, and whether it is there at the start."""
    name: str
    kind: str
    numbers: dict = field(default_factory=dict)
    is_live: bool = True


@dataclass(eq=False)
class Body:
    """A task, an interrupt or a function."""
    name: str
    kind: str
    variables: list
    statements: Statements


@dataclass(eq=False)
class Source:
    shared: list
    things: list
    functions: list
    actors: list


SIMPLE = (Set, Pick, Do, Count, Keep, Assert, Run)
LOOPS = (While, DoWhile, For)

# Calls with their arguments: OPERAND is a number or a variable, ITEM the variable for an item of a queue.
OPERAND, ITEM = "an operand", "an item's variable"
CALLS_OF_TASKS = [
    ("xSemaphoreTake", "m", 10), ("xSemaphoreTake", "m", "portMAX_DELAY"), ("xSemaphoreGive", "m"), ("xSemaphoreCreateMutex", "m"),
    ("xSemaphoreTakeRecursive", "r", 10), ("xSemaphoreGiveRecursive", "r"), ("xSemaphoreCreateRecursiveMutex", "r"),
    ("xSemaphoreTake", "b", 0), ("xSemaphoreGive", "b"), ("xSemaphoreCreateBinary", "b"), ("vSemaphoreDelete", "b"),
    ("xSemaphoreTake", "c", 10), ("xSemaphoreGive", "c"), ("xSemaphoreCreateCounting", "c"),
    ("xQueueSend", "q", OPERAND, 10), ("xQueueSend", "q", OPERAND, "portMAX_DELAY"), ("xQueueReceive", "q", ITEM, 0), ("xQueueReceive", "q", ITEM, 10),
    ("xQueueCreate", "q"), ("vQueueDelete", "q"), ("xStreamBufferSend", "sb", 1, 0), ("xStreamBufferReceive", "sb", 2, 10),
    ("xStreamBufferReceive", "sb", 1, "portMAX_DELAY"), ("xStreamBufferCreate", "sb"), ("xStreamBufferReset", "sb"), ("vStreamBufferDelete", "sb"),
    ("xMessageBufferSend", "mb", 2, 10), ("xMessageBufferReceive", "mb", 1, 0), ("xMessageBufferCreate", "mb"), ("xMessageBufferReset", "mb"),
    ("vTaskDelay", 10), ("taskYIELD",), ("taskENTER_CRITICAL",), ("taskEXIT_CRITICAL",), ("vTaskSuspendAll",), ("xTaskResumeAll",),
]
CALLS_OF_INTERRUPTS = [
    ("xSemaphoreGiveFromISR", "b"), ("xSemaphoreTakeFromISR", "b"), ("xSemaphoreGiveFromISR", "c"), ("xQueueSendFromISR", "q", OPERAND),
    ("xQueueReceiveFromISR", "q", ITEM), ("xStreamBufferSendFromISR", "sb", 1), ("xStreamBufferReceiveFromISR", "sb", 2),
    ("xMessageBufferSendFromISR", "mb", 1), ("xMessageBufferReceiveFromISR", "mb", 2), ("taskENTER_CRITICAL_FROM_ISR",),
    ("taskEXIT_CRITICAL_FROM_ISR",), ("xSemaphoreGive", "b"), ("vTaskDelay", 10),
]
STATEMENTS = ["assignment"] * 4 + ["call"] * 4 + ["pick", "count", "keep", "assertion", "goto", "label"]
CONSTRUCTS = ["choice"] * 6 + ["while_loop", "while_loop", "do_loop", "for_loop", "switch", "block"]


class Maker:
    """Makes the statements of a body at random."""

    def __init__(self, chance, kind, calls, own, shared, functions):
        self.chance, self.kind, self.calls, self.own, self.shared, self.functions = chance, kind, calls, own, shared, functions
        self.labels, self.gotos = [], []

    def any_variable(self):
        return self.chance.choice(self.own * 2 + self.shared)

    def any_operand(self):
        return self.chance.choice(self.own + self.shared + [0, 1, 2])

    def any_call(self, suits=lambda name: True):
        """A call whose name suits."""
        name, *arguments = self.chance.choice([it for it in self.calls if suits(it[0])])
        whole = {OPERAND: self.any_operand(), ITEM: self.any_variable()}
        return Call(name, tuple(whole.get(it, it) for it in arguments))

    def assignment(self):
        while True:
            target, left = self.any_variable(), self.any_operand()
            sign, right = self.chance.choice([(None, 0), ("+", 1), ("-", 1), *((sign, self.any_operand()) for sign in "+-*")])
            used = [it for it in (left, right) if isinstance(it, Variable)]
            is_one_step = sum(it in self.shared for it in [target, *used]) < 2
            if is_one_step and len(used) == len(set(used)) and (sign != "*" or len(used) < 2):
                return Set(target, left, sign, right)

    def call(self):
        return Do(self.any_call())

    def pick(self, variables=None):
        variable = self.chance.choice(variables) if variables else self.any_variable()
        low, high = sorted(self.chance.choices(range(variable.low, variable.high + 1), k=2))
        return Pick(variable, low, high)

    def count(self, variables=None):
        while True:
            variable = self.chance.choice(variables) if variables else self.any_variable()
            call = self.any_call(answers_bytes)
            if call.arguments[1] <= variable.high:
                return Count(variable, call)

    def keep(self):
        return Keep(self.any_variable(), self.any_call(may_fail))

    def assertion(self):
        return Assert(self.condition(1))

    def simple(self):
        kinds = STATEMENTS[:-2] + ["run"] * bool(self.functions)
        return getattr(self, self.chance.choice(kinds))()

    def run(self):
        return Run(self.chance.choice(self.functions))

    def goto(self):
        self.gotos.append(Goto())
        return self.gotos[-1]

    def label(self):
        self.labels.append(Label(f"label_{len(self.labels)}"))
        return self.labels[-1]

    def comparison(self, left=None):
        while True:
            left, right = self.any_operand() if left is None else left, self.any_operand()
            if left is not right and not (left in self.shared and right in self.shared):
                return Compare(left, self.chance.choice(list(COMPARISON)), right)

    def condition(self, depth):
        kind = self.chance.random()
        if depth > 0 and kind < 0.25:
            return self.chance.choice([And, Or])(self.condition(depth - 1), self.condition(depth - 1))
        if depth > 0 and kind < 0.35:
            return Not(self.condition(depth - 1))
        if kind < 0.55:
            return Works(self.any_call(may_fail))
        if kind < 0.62:
            return Constant(self.chance.random() < 0.5)
        if kind < 0.70:
            statement = self.chance.choice([self.pick, self.count])(self.own)
            return Given(statement, self.comparison(statement.variable))
        if kind < 0.80:
            return Compare(self.any_variable(), "!=", 0)
        return self.comparison()

    def choice(self, depth, jumps):
        otherwise = self.some(depth, jumps) if self.chance.random() < 0.5 else None
        return If(self.condition(2), self.some(depth, jumps), otherwise)

    def while_loop(self, depth, jumps):
        return While(self.condition(2), self.some(depth, jumps | {"break", "continue"}))

    def do_loop(self, depth, jumps):
        return DoWhile(self.some(depth, jumps | {"break", "continue"}), self.condition(2))

    def for_loop(self, depth, jumps):
        first, step = (Statements([self.simple()] * (self.chance.random() < 0.8)) for _ in range(2))
        condition = self.condition(1) if self.chance.random() < 0.8 else None
        return For(first, condition, step, self.some(depth, jumps | {"break", "continue"}))

    def switch(self, depth, jumps):
        variable = self.chance.choice(self.own)
        values = list(range(variable.low, variable.high + 1)) + [None, variable.high + 1]
        chosen = self.chance.sample(values, self.chance.randint(1, len(values)))
        return Switch(variable, [(value, self.some(depth, jumps | {"break"})) for value in chosen])

    def block(self, depth, jumps):
        return Block(self.some(depth, jumps))

    def statement(self, depth, jumps):
        """A statement with constructs of this depth. `jumps` are the words of the jumps that are possible here."""
        kinds = STATEMENTS + CONSTRUCTS * (depth > 0) + sorted(jumps) + ["run"] * bool(self.functions)
        kind = self.chance.choice(kinds)
        if kind in jumps:
            return Jump(kind)
        make = getattr(self, kind)
        return make(depth - 1, jumps) if kind in CONSTRUCTS else make()

    def some(self, depth, jumps):
        """A few statements, now and then none."""
        count = self.chance.randint(self.chance.random() > 0.15, 4 if depth else 2)
        return Statements(self.statement(depth, jumps) for _ in range(count))

    def whole(self, depth):
        """The statements of a body."""
        statements = self.some(depth, set() if self.kind == "task" else {"return"})
        if self.kind == "task":
            if self.chance.random() < 0.4:
                statements = Statements([While(Constant(True), statements)])
            statements.append(Do(Call("vTaskDelete", ("NULL",))))
        if self.gotos and not self.labels:
            statements.insert(0, self.label())
        for goto in self.gotos:
            goto.label = self.chance.choice(self.labels)
        return statements


def own_variables(chance, begin_at_0=False):
    """The variables of a body. In each body they have the same names."""
    low = chance.choice([-1, 0, 0])
    firsts = [0, 0] if begin_at_0 else [chance.choice([0, 0, 1]), chance.choice([0, 0, low])]
    return [Variable("x", 0, 2, firsts[0]), Variable("y", low, 2, firsts[1])]


def things(chance):
    is_live = [chance.random() < 0.8 for _ in range(7)]
    size = chance.randint(1, 8)
    return [
        Thing("m", "mutex", {}, is_live[0]), Thing("r", "recursive", {}, is_live[1]), Thing("b", "binary", {}, is_live[2]),
        Thing("c", "counting", {"size": size, "first": chance.randint(0, size)}, is_live[3]),
        Thing("q", "queue", {"size": size, "lo": 0, "hi": 1}, is_live[4]), Thing("sb", "stream", {"size": size}, is_live[5]),
        Thing("mb", "message", {"size": size}, is_live[6]),
    ]


def random_source(chance, mixes_calls=False):
    """A source with two functions, of which the second may call the first, and one or two tasks or interrupts. Where there are two, the variables of
    functions begin at 0, so that they need not be static. With `mixes_calls` the functions have calls of interrupts too, which a task mustn't
    come to.
    """
    shared = [Variable("s", 0, 1, chance.choice([0, 1])), Variable("t", 0, chance.choice([1, 1, 2]))]
    kinds = chance.choice([["task"], ["task"], ["interrupt"], ["task", "task"], ["interrupt", "task"]])
    functions = []
    for name in ("f", "g"):
        own = own_variables(chance, len(kinds) == 2)
        calls = CALLS_OF_INTERRUPTS if mixes_calls or kinds == ["interrupt"] else CALLS_OF_TASKS
        functions.append(Body(name, "function", own, Maker(chance, "function", calls, own, shared, functions[:]).whole(1)))
    actors = []
    for number, kind in enumerate(kinds):
        own = own_variables(chance)
        calls = CALLS_OF_TASKS if kind == "task" else CALLS_OF_INTERRUPTS
        maker = Maker(chance, kind, calls, own, shared, functions)
        actors.append(Body(f"actor_{number}", kind, own, maker.whole(chance.choice([1, 2, 3]))))
    return Source(shared, things(chance), functions, actors)
