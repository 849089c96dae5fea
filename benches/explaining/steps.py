"""States and steps as cases of tables, which a program of its own answers by the proved step function.

The program's text is in the folder steps_program, with an ending by which the gate doesn't take it for a part of the product.
"""
import itertools
import os
import re
import shutil
import subprocess

import model
from model import DEAD, FREE, Held

HERE = os.path.dirname(os.path.abspath(__file__))
TOP = os.path.join(HERE, "..", "..")
NAME = "explaining_steps"
CRATES = ["fr_calls", "fr_rules", "fr_reader", "fr_instr", "fr_program"]
LAST = re.compile(r"(\d+) tables, (\d+) cases, (\d+) differ")
WORDS = {"binary": "count", "counting": "count", "stream": "bytes", "queue": "values", "message": "messages"}


def content_fact(app, name, content):
    """What an object has, as a fact of a state."""
    if content in (DEAD, FREE):
        return content
    if isinstance(content, Held):
        return f"held {app.actors[content.holder]} {content.count}"
    numbers = content if isinstance(content, tuple) else [content]
    return " ".join([WORDS[app.kind(name)], *map(str, numbers)])


def facts(app, state):
    """All that is so in a state, in the order in which it is written."""
    told = []
    for actor, name in enumerate(app.actors):
        place = " ".join(map(str, state.places[actor] or ["done"]))
        told += [f"actor {name} {place}", f"critical {name} {state.depth(actor)}", f"suspended {name} {state.suspended[actor]}"]
    told += [f"value {name} {value}" for name, value in state.values.items()]
    return told + [f"object {name} {content_fact(app, name, content)}" for name, content in state.contents.items()]


def state_text(app, state):
    """What is so in a state and not at the start, as a case has it and as it is answered."""
    pairs = zip(facts(app, state), facts(app, model.start(app)))
    return "; ".join(now for now, first in pairs if now != first) or "start"


def answer_by_model(app, state, actor, choice):
    """What has to be answered to a step that isn't printed, by the second writing of the definitions."""
    found = model.step(app, state, actor, choice)
    if not found:
        return "no step"
    return "out of range" if 12 in model.breaches(app, state, actor) else state_text(app, found[0])


def below():
    """The lines of crates.txt of the crates that the program uses, and of those below them."""
    with open(f"{TOP}/crates.txt", encoding="utf-8") as file:
        lines = {line.split(":")[0]: line for line in file}
    names, found = list(CRATES), {}
    while names:
        name = names.pop()
        if name in lines and name not in found:
            found[name] = lines[name]
            names += lines[name].split(":")[1].split()
    return [line for name, line in lines.items() if name in found]


def written(folder):
    """Writes the program into the folder, over copies of the crates below it, and returns the folder of its crate."""
    lines = below()
    for name in (it.split(":")[0] for it in lines):
        shutil.copytree(f"{TOP}/crates/{name}", f"{folder}/crates/{name}", ignore=shutil.ignore_patterns("out"))
    shutil.copy(f"{TOP}/HANDLES", folder)
    with open(f"{folder}/crates.txt", "w", encoding="utf-8") as file:
        file.writelines([*lines, f"{NAME}: {' '.join(CRATES)}\n"])
    crate = f"{folder}/crates/{NAME}"
    for name in sorted(os.listdir(f"{HERE}/steps_program")):
        stem = name.removesuffix(".txt")
        path = f"{crate}/src/{stem}.rt"
        if stem.startswith("invariants_of_"):
            path = f"{crate}/proofs/state_reading/{stem.removeprefix('invariants_of_')}/Invariants.antt"
        os.makedirs(os.path.dirname(path), exist_ok=True)
        shutil.copy(f"{HERE}/steps_program/{name}", path)
    return crate


def built(room):
    """The program, which is proved and built by `rt run`."""
    crate = written(f"{room}/steps")
    ran = subprocess.run(["rt", "run"], cwd=crate, stdout=subprocess.PIPE, stderr=subprocess.STDOUT, text=True, check=False)
    program = f"{crate}/out/{NAME}"
    if not os.path.exists(program):
        raise SystemExit(ran.stdout)
    return program


class Asked:
    """What is asked of the step function: cases by the text of their application, each once, and a label for each of these."""

    def __init__(self):
        self.label, self.cases, self.labels = "", {}, {}
        self.states = self.printed = self.others = 0

    def ask(self, app, state, actor, choice, answer):
        case = f"{state_text(app, state)} | {app.actors[actor]} {choice} | {answer}"
        self.cases.setdefault(app.text, {}).setdefault(case)
        self.labels.setdefault(app.text, self.label)

    def step(self, app, state, actor, choice, answer):
        """A step that is printed, with the state after it, or with why it is none."""
        self.printed += 1
        self.ask(app, state, actor, choice, answer)

    def state(self, app, state):
        """A state that is printed: the steps of each actor by the choices 0 and 1."""
        self.states += 1
        for actor, choice in itertools.product(range(len(app.actors)), (0, 1)):
            self.others += 1
            self.ask(app, state, actor, choice, answer_by_model(app, state, actor, choice))

    def write(self, room):
        """Writes a table for each application; their labels by their names."""
        labels = {}
        for number, (text, cases) in enumerate(self.cases.items()):
            name = f"{number:05}"
            labels[name] = self.labels[text]
            os.makedirs(os.path.join(room, name))
            files = {"app.toml": text, "cases": "\n".join(cases) + "\n"}
            for file, written in files.items():
                with open(os.path.join(room, name, file), "w", encoding="utf-8") as to:
                    to.write(written)
        return labels

    def hold(self, program, room):
        """Has all cases answered, prints those that get another answer, and returns how many these are."""
        labels = self.write(room)
        ran = subprocess.run([program, room], stdout=subprocess.PIPE, stderr=subprocess.STDOUT, timeout=3600, check=False)
        *told, last = ran.stdout.decode(errors="replace").splitlines() or [""]
        for line in told:
            print(f"{labels.get(line[:5], '')} {line}")
        counted, asked = LAST.fullmatch(last), sum(map(len, self.cases.values()))
        if not counted or int(counted[1]) != len(self.cases) or int(counted[2]) != asked:
            raise SystemExit(f"{program} answers {last!r} to {asked} cases of {len(self.cases)} applications")
        return int(counted[3])
