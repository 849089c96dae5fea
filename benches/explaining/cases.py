"""Applications and certificates at random, of which many get a `no`, for each of the parts of a verdict."""
import copy
import re
import tomllib

import model
from applications import DELETES, table


def put_claim(chance, app, says, name, claim):
    """Lets an alternative say of an object that it is live, dead or held, or nothing."""
    for key in ("live", "dead"):
        says[key] = [it for it in says.get(key, []) if it != name] + [name] * (claim == key)
    says["held"] = {it: count for it, count in says.get("held", {}).items() if it != name}
    if claim == "held" and app.kind(name) in model.MUTEXES:
        says["held"][name] = 1 if app.kind(name) == "mutex" else chance.choice([1, 1, 2, 255])


def change(chance, app, says):
    """Changes one thing that an alternative says: a depth or a range by one, or a claim."""
    what, name = chance.choice(app.subjects())
    if what == "object":
        put_claim(chance, app, says, name, chance.choice(["live", "dead", "held", "", ""]))
    elif what == "variable":
        lo, hi = says.get("range", {}).get(name, app.declared(name))
        says.setdefault("range", {})[name] = chance.choice([[lo, hi - 1], [lo + 1, hi], [lo - 1, hi], [lo, hi + 1], [lo, lo]])
    else:
        key = {"critical": "crit", "suspended": "susp"}[what]
        says[key] = max(0, says.get(key, 0) + chance.choice([1, 1, -1]))


def other_certificate(chance, app, certificate):
    """The certificate with some notes and guards that say something else."""
    it = {**copy.deepcopy(certificate), "version": 2}
    for number in chance.choices(range(len(it["notes"])), k=chance.choice([0, 1, 1, 2, 3])):
        note = model.alternatives(it["notes"][number])
        if chance.random() < 0.3 and 0 < len(note) < 4:
            note = note + [copy.deepcopy(chance.choice(note))]
        if note:
            change(chance, app, chance.choice(note))
        it["notes"][number] = chance.choice([note or {}] * 9 + ["never"])
    it["ends"] = [end for end in it["ends"] if chance.random() < 0.95]
    for end in it["ends"]:
        end["guard"] = chance.choice([end["guard"]] * 3 + [any_guard(chance, app)])
    return it


def any_guard(chance, app):
    mutexes = [{"mutex": it} for it in app.objects if app.kind(it) in model.MUTEXES]
    values = {who: number for number, who in enumerate(app.actors) if chance.random() < 0.8}
    turns = [{"turn": it, "values": values} for it in app.variables]
    return chance.choice([{"sole": it} for it in app.actors] + mutexes + turns + ["critical"])


def ahead(chance, actor, objects):
    """The code of an actor behind `goto 0` and a line that nobody reaches."""
    it = chance.choice(objects) if objects and actor["kind"] == "task" else None
    line = f"{DELETES.get(it['kind'], 'vSemaphoreDelete')}({it['name']})" if it else "goto 0"
    moved = [re.sub(r"(goto|else) (\d+)", lambda jump: f"{jump[1]} {int(jump[2]) + 2}", line) for line in actor["code"]]
    return ["goto 0", line] + moved


def apart(chance, text):
    """The application with code that is never reached, so that it can have any notes; now and then with wide ranges."""
    tables = tomllib.loads(text)
    for actor in tables.get("actor", []):
        actor["code"] = ahead(chance, actor, tables.get("object", []))
    for it in tables.get("variable", []):
        it["lo"], it["hi"] = chance.choice([it["lo"]] * 6 + [-(2**63)]), chance.choice([it["hi"]] * 6 + [2**63 - 1])
    for it in tables.get("object", []):
        if "size" in it:
            it["size"] = chance.choice([it["size"]] * 6 + [20, 65535])
    return "".join(f"{name} = [\n" + "".join(f"  {table(it)},\n" for it in items) + "]\n" for name, items in tables.items())


def any_claim(chance, app, line, name):
    """What could be said of an object, mostly what the line needs that names it."""
    if line.object() != name or chance.random() < 0.1:
        return chance.choice(["live", "live", "live", "dead", "", "", "held"])
    if line.is_create():
        return "dead"
    return "held" if line.action == "Give" else chance.choice(["live", "live", "live", "held"])


def any_alternative(chance, app, point):
    """An alternative that mostly says what the line at the point needs."""
    line, says = app.line(point), {"range": {}}
    says["crit"] = chance.choice([int(line.op in model.LEAVES)] * 12 + [0, 1, 2, 255])
    says["susp"] = chance.choice([int(line.op == "xTaskResumeAll")] * 16 + [0, 1, 255])
    for name in app.objects:
        put_claim(chance, app, says, name, any_claim(chance, app, line, name))
    for name in app.variables:
        lo, hi = app.declared(name)
        if chance.random() < 0.6:
            near = [it for it in (lo, lo + 1, -1, 0, 1, 2, 3, hi - 1, hi) if lo <= it <= hi]
            says["range"][name] = sorted(chance.choices(near, k=2))
    return says


def split(chance, app, note):
    """The note with one of its alternatives cut in two, at a number of a variable."""
    cut = chance.randrange(len(note))
    ranges = {it: note[cut]["range"].get(it, app.declared(it)) for it in app.variables}
    wide = [it for it, (lo, hi) in ranges.items() if lo < hi]
    if not wide or len(note) > 3:
        return note
    name = chance.choice(wide)
    lo, hi = ranges[name]
    at = chance.choice([lo, hi - 1, min(max(lo, 0), hi - 1)])
    parts = [{**note[cut], "range": {**note[cut]["range"], name: ends}} for ends in ([lo, at], [at + 1, hi])]
    return note[:cut] + parts + note[cut + 1:]


def near_by(chance, app):
    """A point, points of its actor to which its steps can lead, and some of other actors."""
    behind = [it for it in app.points if it[1] > 0]
    inside = [it for it in behind if it[2] == "inside"]
    point = chance.choice(inside if inside and chance.random() < 0.4 else behind)
    line = app.line(point)
    deletes = [it for it in behind if app.line(it).is_delete() and app.line(it).object() == line.object()]
    writes = [it for it in behind if app.line(it).op in ("pick", "set") or app.line(it).is_create()]
    ways = [model.behind(line, *point[1:], row) for row in ("then", "else")]
    lands = {(point[0], *way) for way in ways if way and chance.random() < 0.9}
    others = [chance.choice(them or behind) for them in (behind, writes, deletes)]
    return point, lands - {point}, {it for it in others if it[0] != point[0]}


def sparse(chance, app, ends):
    """A certificate with any notes at a few points that have to do with each other, by which nobody is anywhere else."""
    point, lands, others = near_by(chance, app)
    notes = {}
    for it in sorted({point} | lands | others):
        notes[it] = [any_alternative(chance, app, it) for _ in range(chance.choice([1, 1, 1, 2, 3, 4]))]
    if chance.random() < 0.6:
        less = [{**says, "live": [], "dead": [], "range": {}} for says in notes[point]]
        notes.update(dict.fromkeys(sorted(lands), less))
    for it in notes:
        notes[it] = split(chance, app, notes[it]) if chance.random() < 0.4 else notes[it]
    return {"version": 2, "ends": ends, "notes": [{} if it[1] == 0 else notes.get(it, "never") for it in app.points]}
