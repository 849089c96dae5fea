"""What `run`, `find`, `prove`, `tests` and `gate` beside this file share: commands of which each allocation, each thread, or each read
and write is refused in turn.

A sweep is one command with one kind of what is refused. First the command runs with nothing refused: that is the true answer, and it
tells how many there are. Then each is refused once, in a run of its own, and each answer has to be one of those that are allowed.
Sweeps are cases: the last line is `N passed, M failed`. All runs go side by side, on as many processors as there are, each in a
fresh folder; what is told is in the order of the sweeps.
"""
import concurrent.futures
import itertools
import os
import shutil
import subprocess
import sys
import tempfile

sys.dont_write_bytecode = True
HERE = os.path.dirname(os.path.abspath(__file__))
TOP = os.path.dirname(os.path.dirname(HERE))
ROWS = os.path.join(TOP, "rows")
LIMIT = 120
MEMORY, THREAD, FILE = (b"machine: memory\n", b"machine: thread\n", b"machine: file\n")
STREAM = """\
variable = [{name="n", lo=0, hi=16, init=0, owner="rx"}]
object = [{name="sb", kind="stream", size=64, live=true}, {name="m", kind="mutex", live=true}]
actor = [
 {name="tx", kind="task", code=["xSemaphoreTake(m, 10) else 0", "xStreamBufferSend(sb, 8, 10)", "xSemaphoreGive(m)", "goto 0"]},
 {name="rx", kind="task", code=["n = xStreamBufferReceive(sb, 16, portMAX_DELAY)", "goto 0"]},
]
"""


class Answer:
    """What a run printed, its exit status, and the files that it left; and how many allocations, threads, or reads and writes there
    were."""

    def __init__(self, out, err, status, left, count):
        self.out, self.err, self.status, self.left, self.count = out, err, status, left, count

    def is_same(self, other):
        return (self.out, self.err, self.status, self.left) == (other.out, other.err, other.status, other.left)

    def text(self):
        told = f"status {self.status}, {self.out.decode(errors='replace')!r}, {self.err.decode(errors='replace')!r}"
        return told + "".join(f", {name} {text.decode(errors='replace')!r}" for name, text in self.left.items())


def failed(answer, lines):
    return answer.status == 3 and answer.err in lines


def failed_at_a_file(answer):
    """Whether the machine has failed at a file; which one and why may be in a second line."""
    line, end, more = answer.err.partition(b"\n")
    return answer.status == 3 and line + end == FILE and (not more or more.startswith(b"  ") and more.find(b"\n") == len(more) - 1)


def memory(answer, truth):
    """With an allocation refused, a run ends as it does otherwise, or the machine has failed and nothing was printed before."""
    return answer.is_same(truth) or failed(answer, (MEMORY, THREAD)) and not answer.out


def late_memory(answer, truth):
    """So it is, and something may have been printed before."""
    return answer.is_same(truth) or failed(answer, (MEMORY, THREAD))


def thread(answer, _truth):
    """With a thread refused, the machine has always failed, and nothing was printed before."""
    return failed(answer, (THREAD,)) and not answer.out


def file(answer, truth):
    """With a read or a write refused, the machine has always failed. Output that was printed before isn't taken back; and the line of
    an error that can't be written is missing. A file that is written is there as a whole, or not at all."""
    if answer.left not in ({}, truth.left):
        return False
    return failed_at_a_file(answer) or answer.status == 3 and not answer.out + answer.err and truth.status in (2, 3)


def same(answer, truth):
    """Whatever is refused, the answer is the same."""
    return answer.is_same(truth)


def passes(answer, _truth):
    """A test passes whichever allocation is refused."""
    return answer.status == 0


class Sweep:
    """One command, with what is refused and which answers are allowed then. Where it `changes`, one of them has to be another than
    the true answer."""

    def __init__(self, name, kind, command, is_allowed, changes=True):
        self.name, self.kind, self.command, self.is_allowed, self.changes = name, kind, command, is_allowed, changes

    def judge(self, truth, answers):
        """What is to be told of the answers, and whether they are as they should be."""
        if truth is None or any(it is None for it in answers):
            return f"there is no answer in {LIMIT} s", False
        wrong = [f"{self.kind} {k + 1} refused: {it.text()}" for k, it in enumerate(answers) if not self.is_allowed(it, truth)]
        if self.is_allowed is passes and truth.status:
            return f"it fails with ample memory: {truth.text()}", False
        if wrong:
            return "\n    ".join(wrong[:5]), False
        changed = sum(not it.is_same(truth) for it in answers)
        if not answers or self.changes and not changed:
            return f"of all {len(answers)} refused, none changes the answer", False
        if self.is_allowed is passes:
            return f"{len(answers)} refused in turn", True
        return f"{len(answers)} refused in turn, {changed} times the answer was another one; otherwise: {truth.text()[:200]}", True


class Runs:
    """Runs in fresh folders of a room, with the library that refuses."""

    def __init__(self, room):
        self.room, self.numbers = room, itertools.count()
        self.library = os.path.join(room, "refuse.so")
        subprocess.run(["cc", "-O2", "-shared", "-fPIC", "-o", self.library, os.path.join(HERE, "refuse.c"), "-ldl"], check=True)

    def answer(self, sweep, number):
        """The answer with this one refused, or with none (0). None where there is no answer in time."""
        folder = os.path.join(self.room, str(next(self.numbers)))
        os.mkdir(folder)
        count = folder + ".count"
        with_it = {**os.environ, "REFUSE": sweep.kind, "REFUSE_AT": str(number), "REFUSE_COUNT": count, "LD_PRELOAD": self.library}
        try:
            ran = subprocess.run(sweep.command, cwd=folder, env=with_it, stdin=subprocess.DEVNULL, stdout=subprocess.PIPE,
                                 stderr=subprocess.PIPE, timeout=LIMIT, check=False)
        except subprocess.TimeoutExpired:
            return None
        left = {it: read(os.path.join(folder, it)) for it in sorted(os.listdir(folder))}
        answer = Answer(ran.stdout, ran.stderr, ran.returncode, left, int(read(count)))
        os.remove(count)
        shutil.rmtree(folder)
        return answer


def read(path):
    with open(path, "rb") as data:
        return data.read()


def hold(sweeps):
    """Runs all sweeps, tells what they count, and returns the numbers of those that passed and failed."""
    passed = 0
    with tempfile.TemporaryDirectory() as room, concurrent.futures.ThreadPoolExecutor(len(os.sched_getaffinity(0))) as pool:
        runs = Runs(room)
        truths = list(pool.map(lambda it: runs.answer(it, 0), sweeps))
        began = [[pool.submit(runs.answer, sweep, k + 1) for k in range(truth.count if truth else 0)]
                 for sweep, truth in zip(sweeps, truths)]
        for sweep, truth, answers in zip(sweeps, truths, began):
            told, is_right = sweep.judge(truth, [it.result() for it in answers])
            passed += is_right
            print(f"{'' if is_right else 'wrong: '}{sweep.name}, {sweep.kind}: {told}", flush=True)
    return passed, len(sweeps) - passed


def end(sweeps):
    """Holds the sweeps, and ends with the line of their numbers."""
    passed, wrong = hold(sweeps)
    print(f"{passed} passed, {wrong} failed")
    sys.exit(wrong > 0)


def program():
    return executable(os.environ.get("FR_CHECK", os.path.join(TOP, "bin", "fr_check")))


def executable(path):
    path = os.path.abspath(path)
    if not os.access(path, os.X_OK):
        print(f"there is no program {path}\n0 passed, 1 failed")
        sys.exit(1)
    return path


ALLOWED = {"memory": memory, "thread": thread, "file": file}


def of_words(words):
    """Each kind of sweep of a command with these words."""
    return [Sweep(" ".join(words), kind, [program(), *words], ALLOWED[kind]) for kind in ALLOWED]


def of_row(kinds, command, row, *more):
    """Sweeps of a command on the files of a row."""
    files = [os.path.join(ROWS, row, it) for it in ("app.toml", "cert.json")[:1 if command == "refute" else 2]]
    words = [program(), command, *files, *more]
    return [Sweep(" ".join([command, row, *more]), kind, words, ALLOWED[kind]) for kind in kinds.split()]


def run_sweeps():
    """Several worked rows: two tasks that write one stream buffer, with a guard; deletes after a handshake; a guard that fails;
    alternatives; a refusal; why a verdict is no; a run into a breach; and runs."""
    return [
        *of_row("memory file", "check", "writers-in-critical-sections", "--workers", "2"),
        *of_row("memory", "check", "delete-after-the-last-use", "--workers", "2"),
        *of_row("memory file", "check", "two-writers-one-end", "--workers", "1"),
        *of_row("memory", "check", "life-variable-with-alternatives", "--workers", "2"),
        *of_row("memory file", "check", "unknown-key"),
        *of_row("memory", "check", "explain-guard", "--workers", "1", "--explain"),
        *of_row("memory", "check", "explain-spoiled", "--workers", "1", "--all"),
        *of_row("memory", "run", "explain-run", "--polls", "3", "--explain"),
        *of_row("memory file", "refute", "refute-two-writers"),
        *of_row("memory file", "run", "run-queue-send", "--polls", "6", "--words", "1"),
        *of_row("thread", "check", "writers-in-critical-sections", "--workers", "4"),
        *of_row("thread", "run", "one-writer-one-reader", "--polls", "10"),
        without_progress(),
    ]


def without_progress():
    """A search that prints how far it is, without the thread that prints."""
    command = [program(), "refute", os.path.join(ROWS, "refute-with-progress", "app.toml"), "--progress"]
    return Sweep("refute --progress", "thread", command, same, changes=False)


def written(room, app):
    """The path of the application, which is a small one with a buffer, a mutex and two actors where none is named."""
    if app:
        return os.path.abspath(app)
    path = os.path.join(room, "small.toml")
    with open(path, "w", encoding="utf-8") as to:
        to.write(STREAM)
    return path


def find_sweeps(room, app=None):
    """A search for a certificate, with the one that it writes."""
    command = [program(), "find", written(room, app), "out.json"]
    return [Sweep("find", "memory", command, memory), Sweep("find", "file", command, file)]


def prove_sweeps(room, app=None):
    """A proof, with the certificate that it writes."""
    command = [program(), "prove", written(room, app), "--brief", "--certificate", "out.json", "--workers", "1"]
    return [Sweep("prove", "memory", command, late_memory), Sweep("prove", "file", command, file)]


def test_sweeps():
    """Each test of fr_tests that holds with little memory: those whose name has `memory`."""
    tests = executable(os.environ.get("FR_TESTS", os.path.join(TOP, "crates", "fr_tests", "out", "fr_tests_tests")))
    listed = subprocess.run([tests, "--list"], stdout=subprocess.PIPE, text=True, check=True).stdout.splitlines()
    names = [it.removesuffix(": test") for it in listed if it.endswith(": test") and "memory" in it]
    if not names:
        print("there is no test with memory in its name\n0 passed, 1 failed")
        sys.exit(1)
    return [Sweep(f"test {it}", "memory", [tests, it], passes, changes=False) for it in names]
