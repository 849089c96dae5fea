"""What a source means, worked out from its tree: there are no lines and no jumps here, only what is left to be done."""
from collections import Counter

from automata import ENDS, WORKS, Steps
from trees import (LOOPS, And, Assert, Block, Body, Constant, Count, Do, DoWhile, For, Given, Goto, If, Jump, Keep, Label, Not, Or, Pick, Run, Set,
                   Statements, Switch, Works)

STOPPED = (None, ())

# What is left to be done is a stack of these, the next one last. In a switch or a function, IN_SWITCH or IN_FUNCTION is below what is left of it.
AT = "at"                   # the statements from a place on
AGAIN = "again"             # a loop whose body is at its end, or at a `continue`
TEST = "test"               # the condition of a loop
CHOICE = "choice"           # a condition, and what is left to be done where it is true, and where it is false
PUT = "put"                 # a variable and the number that it gets
BROKEN = "broken"           # a configASSERT whose condition is false
IN_SWITCH = ("in a switch",)
IN_FUNCTION = ("in a function",)


class Meaning(Steps):
    """What an actor of a source does. A state is the stack of what is left to be done, and the values of the actor's own variables and of those
    of the functions.
    """

    def __init__(self, source, actor):
        queues = {it.name: (it.numbers["lo"], it.numbers["hi"]) for it in source.things if it.kind == "queue"}
        super().__init__([variable for body in [actor, *source.functions] for variable in body.variables], queues)
        self.actor, self.flat, self.entries, self.labels = actor, {}, {}, {}
        for body in [actor, *source.functions]:
            self.find_labels(body.statements, ())
        self.beginning = ((AT, actor.statements, 0),)
        self.start = (self.beginning, self.first_values())

    def find_labels(self, statements, stack):
        """Notes what is left to be done after each label, inside its body."""
        for place, it in enumerate(statements):
            left = stack + ((AT, statements, place + 1),)
            if isinstance(it, Label):
                self.labels[it] = left
            elif isinstance(it, If):
                self.find_labels(it.then, left)
                self.find_labels(it.otherwise or [], left)
            elif isinstance(it, LOOPS):
                self.find_labels(it.body, left + ((AGAIN, it),))
            elif isinstance(it, Switch):
                self.find_labels(self.flattened(it), left + (IN_SWITCH,))
            elif isinstance(it, Block):
                self.find_labels(it.body, left)

    def flattened(self, switch):
        """All statements of a switch, one after the other. Where each value enters them is noted."""
        self.flat[switch], self.entries[switch] = Statements(), {}
        for value, statements in switch.parts:
            self.entries[switch][value] = len(self.flat[switch])
            self.flat[switch] += statements
        return self.flat[switch]

    def entry(self, switch, value):
        """The place of the first statement of a switch for a value: that of `default` or the end, if there is no case for it."""
        entries = self.entries[switch]
        return entries.get(value, entries.get(None, len(self.flat[switch])))

    def steps(self, state):
        stack, values = state
        if stack is None:
            return []
        if not stack:
            return [("returns", (self.beginning, values))] if self.actor.kind == "interrupt" else [("comes to its end", STOPPED)]
        (what, *parts), rest = stack[-1], stack[:-1]
        if what == AT:
            return self.steps_at(rest, values, *parts)
        if what == AGAIN:
            return self.silently(self.after_body(rest, *parts), values)
        if what == TEST:
            return self.silently(self.before_body(rest, *parts), values)
        if what == CHOICE:
            return self.choose(rest, values, *parts)
        if what == PUT:
            return self.puts(rest, [self.put(*parts, values)])
        if what == BROKEN:
            return [("reads nothing; 1 isn't in the range of assertion", STOPPED)]
        return self.silently(rest, values)

    @staticmethod
    def silently(stack, values):
        return [(None, (stack, values))]

    @staticmethod
    def puts(stack, written):
        """The steps of a write: the actor stops where a number isn't in its range."""
        return [(event, STOPPED if values is None else (stack, values)) for event, values in written]

    @staticmethod
    def after_body(stack, loop):
        """What is left to be done after the body of a loop: the step of a `for`, and the test."""
        return stack + ((TEST, loop),) + (((AT, loop.step, 0),) if isinstance(loop, For) else ())

    @staticmethod
    def before_body(stack, loop):
        """What is left to be done before the body of a loop: its test."""
        body = ((AGAIN, loop), (AT, loop.body, 0))
        return stack + ((CHOICE, loop.condition, body, ()),) if loop.condition else stack + body

    def steps_at(self, rest, values, statements, place):
        """The steps of the statement at a place."""
        if place == len(statements):
            return self.silently(rest, values)
        return self.do(rest + ((AT, statements, place + 1),), values, statements[place])

    def do(self, stack, values, it):
        """The steps of a statement. `stack` is what is left to be done after it."""
        if isinstance(it, Set):
            return self.puts(stack, self.set(it.variable, it.left, it.sign, it.right, values))
        if isinstance(it, Pick):
            return self.puts(stack, self.pick(it.variable, it.low, it.high, values))
        if isinstance(it, (Do, Count, Keep)):
            return self.do_call(stack, values, it)
        if isinstance(it, Assert):
            return self.silently(stack + ((CHOICE, it.condition, (), ((BROKEN,),)),), values)
        if isinstance(it, Run):
            return self.silently(stack + (IN_FUNCTION, (AT, it.function.statements, 0)), values)
        if isinstance(it, (Jump, Goto)):
            return self.silently(self.jump(stack, it), values)
        return self.silently(self.enter(stack, values, it), values)

    def do_call(self, stack, values, it):
        """The steps of a call. A variable that keeps whether it worked gets its number in a step of its own."""
        target = it.variable if isinstance(it, Count) else None
        for event, answer, after in self.call(it.call, target, values):
            kept = ((PUT, it.variable, 1 if answer == WORKS else 0),) if isinstance(it, Keep) else ()
            yield event, STOPPED if answer == ENDS else (stack + kept, after)

    def enter(self, stack, values, it):
        """What is left to be done where a construct begins."""
        if isinstance(it, If):
            return stack + ((CHOICE, it.condition, ((AT, it.then, 0),), ((AT, it.otherwise, 0),) if it.otherwise else ()),)
        if isinstance(it, DoWhile):
            return stack + ((AGAIN, it), (AT, it.body, 0))
        if isinstance(it, For):
            return stack + ((TEST, it), (AT, it.first, 0))
        if isinstance(it, Switch):
            return stack + (IN_SWITCH, (AT, self.flat[it], self.entry(it, values[self.places[it.variable]])))
        if isinstance(it, Block):
            return stack + ((AT, it.body, 0),)
        return stack + ((TEST, it),) if isinstance(it, LOOPS) else stack

    def jump(self, stack, it):
        """What is left to be done after a jump."""
        if isinstance(it, Goto) or it.word == "return":
            while stack and stack[-1] is not IN_FUNCTION:
                stack = stack[:-1]
            return stack + self.labels[it.label] if isinstance(it, Goto) else stack[:-1]
        while stack[-1][0] != AGAIN and not (it.word == "break" and stack[-1] is IN_SWITCH):
            stack = stack[:-1]
        return stack[:-1] if it.word == "break" else stack

    def choose(self, stack, values, condition, true, false):
        """The steps of a condition: what is left to be done then is `true` or `false`."""
        if isinstance(condition, Not):
            return self.silently(stack + ((CHOICE, condition.part, false, true),), values)
        if isinstance(condition, And):
            return self.silently(stack + ((CHOICE, condition.left, ((CHOICE, condition.right, true, false),), false),), values)
        if isinstance(condition, Or):
            return self.silently(stack + ((CHOICE, condition.left, true, ((CHOICE, condition.right, true, false),)),), values)
        if isinstance(condition, Constant):
            return self.silently(stack + (true if condition.holds else false), values)
        if isinstance(condition, Works):
            return [(event, (stack + (true if answer == WORKS else false), after)) for event, answer, after in self.call(condition.call, None, values)]
        if isinstance(condition, Given):
            return self.do(stack + ((CHOICE, condition.test, true, false),), values, condition.statement)
        compared = self.compare(condition.left, condition.sign, condition.right, values)
        return [(event, (stack + (true if holds else false), values)) for event, holds in compared]


def parts_of(tree):
    """All parts of a tree. A function is among them where it is called."""
    todo = [tree]
    for it in todo:
        todo += it if isinstance(it, (list, tuple)) else getattr(it, "__dict__", {}).values()
    return todo


def own_variables(actors):
    """The variables of the actors, with their names in the application: another one than in the source, if it is there in two places."""
    bodies = {actor: list(dict.fromkeys(it for it in parts_of(actor) if isinstance(it, Body))) for actor in actors}
    names = {actor: Counter(it.name for body in bodies[actor] for it in body.variables) for actor in actors}
    for actor in actors:
        for body in bodies[actor]:
            for it in body.variables:
                name = it.name
                if sum(counts[name] for counts in names.values()) > 1:
                    is_twice = body is not actor and names[actor][name] > 1
                    name = f"{actor.name}_{body.name}_{name}" if is_twice else f"{actor.name}_{name}"
                yield actor.name, name, it.low, it.high, it.first


def declared(source):
    """What an application of this source has to declare: the same as application.declared."""
    things = [{"name": it.name, "kind": it.kind, **it.numbers, "live": it.is_live} for it in source.things]
    shared = Counter((it.name, it.low, it.high, it.first) for it in source.shared)
    if any(isinstance(it, Assert) for it in parts_of(source)):
        shared["assertion", 0, 0, 0] += 1
    actors = [(it.name, it.kind) for it in source.actors]
    return Counter(tuple(sorted(it.items())) for it in things), shared, Counter(own_variables(source.actors)), actors
