"""The words in which a state and its explanation are printed, as docs/ANSWERS.md tells them."""
import re

import model
from model import DEAD, FREE, Held

KINDS = {"binary": "binary semaphore", "counting": "counting semaphore", "recursive": "recursive mutex", "mutex": "mutex"}


class Differs(Exception):
    """What is printed isn't what the definitions say."""


class Long(Exception):
    """A state of which some values aren't written out."""


def must(is_so, what):
    if not is_so:
        raise Differs(what)


def one_match(pattern, text):
    found = re.fullmatch(pattern, text)
    must(found, f"{text!r} has another form than {pattern!r}")
    return found.groups()


def times(count):
    return "once" if count == 1 else f"{count} times"


def depth_text(name, what, depth):
    if what == "critical":
        return f"{name} is in the critical section at depth {depth}" if depth else f"{name} isn't in the critical section"
    return f"{name} has suspended the scheduler at depth {depth}" if depth else f"{name} hasn't suspended the scheduler"


def held_text(name, mutex, count):
    return f"{name} holds {mutex} {times(count)}" if count else f"{name} doesn't hold {mutex}"


def content_text(app, name, content):
    """What an object has."""
    kind = app.kind(name)
    if content in (DEAD, FREE):
        return "dead" if content == DEAD else "live, free"
    if isinstance(content, Held):
        return f"live, held by {app.actors[content.holder]}" + (f" {content.count} times" if content.count > 1 else "")
    if kind in ("binary", "counting", "stream"):
        return f"live, with {content} {'byte' if content == 1 else 'bytes'}" if kind == "stream" else f"live, at {content}"
    values = " ".join(map(str, content))
    if not content:
        return "live, empty"
    if kind == "message":
        return f"live, with {'a message' if len(content) == 1 else 'messages'} of {values} {'byte' if content == (1,) else 'bytes'}"
    return f"live, with the {'value' if len(content) == 1 else 'values'} {values}"


def content_of(app, name, text):
    """What an object has by the text; the text itself where only a count is written."""
    kind, numbers = app.kind(name), tuple(map(int, re.findall(r"-?\b\d+", text)))
    if text in ("dead", "live, free"):
        return DEAD if text == "dead" else FREE
    if "held by" in text:
        holder, count = one_match(r"live, held by (\w+)(?: (\d+) times)?", text)
        return Held(app.actors.index(holder), int(count or 1))
    if kind in ("queue", "message"):
        must(not text.endswith(("values", "messages")) or numbers[0] > 8, f"{text!r} could be written out")
        return text if text.endswith(("values", "messages")) else numbers
    return numbers[0]


def fact(app, actor, state, subject):
    what, name = subject
    if what in ("critical", "suspended"):
        return depth_text(app.actors[actor], what, state.depth(actor) if what == "critical" else state.suspended[actor])
    return f"{name} {content_text(app, name, state.contents[name])}" if what == "object" else f"{name} = {state.values[name]}"


def said(app, actor, says, subject):
    """What an alternative says of a subject."""
    what, name = subject
    who = app.actors[actor]
    if what in ("critical", "suspended"):
        return depth_text(who, what, says.get("crit" if what == "critical" else "susp", 0))
    if what == "variable":
        lo, hi = says.get("range", {}).get(name, app.declared(name))
        return f"{name} is {lo}" if lo == hi else f"{name} is from {lo} to {hi}"
    claim = model.claim(says, name)
    can_hold = app.kind(name) in model.MUTEXES and not app.interrupts[actor]
    alive = f"{name} is live, and {who} doesn't hold it" if can_hold else f"{name} is live"
    words = {"gone": f"{name} is dead", "alive": alive}
    return words.get(claim) or held_text(who, name, 0 if claim == "not held" else claim)


def otherwise(app, actor, says, state, subject):
    """What is so of a subject of which an alternative says something else."""
    what, name = subject
    if what == "variable":
        return f"{name} is {state.values[name]}"
    if what != "object":
        return fact(app, actor, state, subject)
    if state.contents[name] == DEAD:
        return f"{name} is dead"
    is_alive = model.claim(says, name) == "gone" and not state.count(actor, name)
    return f"{name} is live" if is_alive else held_text(app.actors[actor], name, state.count(actor, name))


def speaks(app, says, subject):
    """Whether an alternative says more of a subject than what is so by default."""
    return said(app, 0, says, subject) != said(app, 0, {}, subject)


def outcome_text(mover, choice, row):
    """What is told of a step that can do one thing or another."""
    line, verb = mover.line, {"Send": "sent", "Receive": "received"}.get(mover.line.action)
    if line.action and mover.point[2] == "before":
        return ": the call begins"
    if line.moves_bytes():
        count = f"{choice} {'byte' if choice == '1' else 'bytes'}"
        many = f"a message of {count} is" if "Message" in line.op else f"{count} {'is' if choice == '1' else 'are'}"
        return f": nothing is {verb}" if choice == "0" else f": {many} {verb}"
    tried = "create" if line.is_create() else line.action and line.action.lower()
    return f": the {tried} {'works' if row == 'then' else 'fails'}" if tried else ""


def reasons(app, state, site, rule):
    """What can be told of a breach of the rule."""
    name, line, it = app.actors[site.actor], site.line, site.line.object()
    depth, suspended = state.depth(site.actor), state.suspended[site.actor]
    critical, suspending = depth_text(name, "critical", depth), depth_text(name, "suspended", suspended)
    if rule == 11:
        held = [f"{name} holds {mutex}" for mutex in app.objects if state.count(site.actor, mutex)]
        if line.op == "return":
            return [critical] * (depth > 0) + [f"{name} is a task"] * (not app.interrupts[site.actor])
        return [critical] * (depth > 0) + [suspending] * (suspended > 0) + held
    if rule == 12 and line.op == "set":
        lo, hi = app.declared(line.args[0])
        return [f"{line.args[0]} would be {model.result(state, line)}, and its range is {lo} to {hi}"]
    if rule == 12:
        lo, hi = app.objects[it]["lo"], app.objects[it]["hi"]
        return [f"the value is {state.operand(line.args[1])}, and the range of {it} is {lo} to {hi}"]
    zero = suspending if line.op == "xTaskResumeAll" else critical
    told = {3: f"{name} doesn't hold it", 4: critical, 5: suspending, 6: f"{name} is an interrupt", 7: f"{it} is dead", 10: zero}
    return [told.get(rule) or (f"{it} is live" if rule == 8 else f"{it} is a {KINDS[app.kind(it)]}")]


def guard_text(app, guard, actor, state):
    """Who has a guard, and why this actor doesn't."""
    name = app.actors[actor]
    if guard == "critical":
        return "whoever is in the critical section", depth_text(name, "critical", state.depth(actor))
    if "turn" not in guard:
        sole, mutex = guard.get("sole"), guard.get("mutex")
        return (f"{sole} alone", f"{name} isn't {sole}") if sole else (f"whoever holds {mutex}", held_text(name, mutex, 0))
    turn, values = guard["turn"], guard["values"]
    turns = ", ".join(f"{who} where {turn} is {values[who]}" for who in app.actors if who in values)
    lacks = f"{turn} is {state.values[turn]}, so that it isn't the turn of {name}"
    return f"the actor whose turn it is:{' ' * bool(turns)}{turns}", lacks


def put_change(app, actor, state, told):
    """Makes so in the state what is told to have changed by a step of the actor."""
    name, what = told.split(" ", 1)
    if name in app.variables:
        state.values[name] = int(what.removeprefix("= "))
    elif name in app.objects:
        state.contents[name] = content_of(app, name, what)
    elif "critical" in what:
        depth = depth_of(told, "critical")
        state.critical = (actor, depth) if depth else None
    else:
        state.suspended[actor] = depth_of(told, "suspended")


def changed_state(app, actor, before, changed, then):
    """The state after a step of the actor, by what is told to have changed and by where the actor is then."""
    after = before.copy()
    for told in changed.split("; ") if changed else []:
        put_change(app, actor, after, told)
    after.places[actor] = place_of(f"  {then}")
    return after


def place_of(line):
    """The place in a line of `--all` of an actor."""
    pc, side = re.match(r"  \w+ (\w+) (\w+)", line).groups()
    return None if pc == "is" else (int(pc), side)


def depth_of(line, what):
    """A depth in a line of `--all` of an actor."""
    found = re.search(r"the critical section at depth (\d+)" if what == "critical" else r"the scheduler at depth (\d+)", line)
    return int(found[1]) if found else 0
