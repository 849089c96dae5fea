"""Small applications at random, of up to three actors, three variables and three objects."""
import json

KINDS = ["queue", "binary", "counting", "mutex", "recursive", "stream", "message"]
CREATES = {
    "queue": "xQueueCreate",
    "binary": "xSemaphoreCreateBinary",
    "counting": "xSemaphoreCreateCounting",
    "mutex": "xSemaphoreCreateMutex",
    "recursive": "xSemaphoreCreateRecursiveMutex",
    "stream": "xStreamBufferCreate",
    "message": "xMessageBufferCreate",
}
DELETES = {"queue": "vQueueDelete", "stream": "vStreamBufferDelete", "message": "vMessageBufferDelete"}
TASK_CALLS = ["taskENTER_CRITICAL()", "taskEXIT_CRITICAL()", "vTaskSuspendAll()", "xTaskResumeAll()", "taskYIELD()"]
INTERRUPT_CALLS = ["taskENTER_CRITICAL_FROM_ISR()", "taskEXIT_CRITICAL_FROM_ISR()"]


def variable(chance, number, actors):
    lo = chance.randint(-4, 1)
    hi = lo + chance.choice([0, 1, 2, 5, 12, 30])
    it = {"name": f"v{number}", "lo": lo, "hi": hi, "init": chance.randint(lo, hi)}
    return {**it, "owner": chance.choice(actors)["name"]} if chance.random() < 0.5 else it


def an_object(chance, number):
    kind = chance.choice(KINDS)
    it = {"name": f"o{number}", "kind": kind, "live": chance.random() < 0.75}
    if kind in ("queue", "counting"):
        it["size"] = chance.randint(1, 3)
    if kind in ("stream", "message"):
        it["size"] = chance.randint(1, 6)
    if kind == "queue":
        it["lo"] = chance.randint(-2, 1)
        it["hi"] = it["lo"] + chance.randint(0, 3)
    if kind == "counting":
        it["first"] = chance.randint(0, it["size"])
    return it


class Writer:
    """Writes the lines of one actor."""

    def __init__(self, chance, actor, variables, objects):
        self.chance, self.is_task = chance, actor["kind"] == "task"
        self.variables = [it for it in variables if it.get("owner") in (None, actor["name"])]
        self.objects = objects
        self.length = chance.randint(1, 8)
        self.shared = {it["name"] for it in variables if "owner" not in it}

    def target(self):
        return self.chance.randrange(self.length + 1)

    def failing(self):
        return f" else {self.target()}" if self.chance.random() < 0.5 else ""

    def time(self):
        return self.chance.choice(["0", "10", "portMAX_DELAY"])

    def operand(self, *others):
        """A number, or a variable that isn't there yet; at most one of all is shared."""
        is_used = any(it in self.shared for it in others)
        fit = [it["name"] for it in self.variables if it["name"] not in others[1:] and not (is_used and it["name"] in self.shared)]
        return self.chance.choice(fit) if fit and self.chance.random() < 0.6 else str(self.chance.randint(-3, 6))

    def setting(self):
        to = self.chance.choice(self.variables)["name"]
        one = self.operand(to)
        other = self.operand(to, one)
        are_variables = one.startswith("v") and other.startswith("v")
        operator = self.chance.choice("+-" if are_variables else "+-*")
        return f"set {to} = {one} {operator} {other}" if self.chance.random() < 0.7 else f"set {to} = {one}"

    def test(self):
        one = self.operand("")
        comparison = self.chance.choice(["<", "<=", ">", ">=", "==", "!="])
        return f"if {one} {comparison} {self.operand(one, one)} goto {self.target()}"

    def picking(self):
        it = self.chance.choice(self.variables)
        lo = self.chance.randint(it["lo"], it["hi"])
        return f"pick {it['name']} {lo} {self.chance.randint(lo, it['hi'])}"

    def receiver(self, lo, hi):
        fit = [it["name"] for it in self.variables if it["lo"] <= lo and hi <= it["hi"]]
        return self.chance.choice(fit) if fit and self.chance.random() < 0.6 else None

    def queue_call(self, it):
        into = self.receiver(it["lo"], it["hi"])
        name, what = ("xQueueReceive", into) if into else ("xQueueSend", self.operand(""))
        return f"{name}({it['name']}, {what}, {self.time()})" if self.is_task else f"{name}FromISR({it['name']}, {what})"

    def semaphore_call(self, it):
        name = self.chance.choice(["xSemaphoreTake", "xSemaphoreGive"])
        if not self.is_task:
            return f"{name}FromISR({it['name']})"
        form = "Recursive" if (it["kind"] == "recursive") != (self.chance.random() < 0.05) else ""
        time = f", {self.time()}" if name == "xSemaphoreTake" else ""
        return f"{name}{form}({it['name']}{time})"

    def buffer_call(self, it):
        name = "xStreamBuffer" if it["kind"] == "stream" else "xMessageBuffer"
        if self.is_task and self.chance.random() < 0.1:
            return f"{name}Reset({it['name']}){self.failing()}"
        name += self.chance.choice(["Send", "Receive"])
        length = self.chance.randint(1, 7)
        into = self.receiver(0, length)
        call = f"{name}({it['name']}, {length}, {self.time()})" if self.is_task else f"{name}FromISR({it['name']}, {length})"
        return f"{into} = {call}" if into else call

    def object_line(self):
        it = self.chance.choice(self.objects)
        way = self.chance.random()
        if way < 0.12:
            return f"{CREATES[it['kind']]}({it['name']}){self.failing()}"
        if way < 0.22:
            return f"{DELETES.get(it['kind'], 'vSemaphoreDelete')}({it['name']})"
        if it["kind"] in ("stream", "message"):
            return self.buffer_call(it)
        call = self.queue_call(it) if it["kind"] == "queue" else self.semaphore_call(it)
        return call + self.failing()

    def call(self):
        if self.is_task:
            return "vTaskDelete(NULL)" if self.chance.random() < 0.1 else self.chance.choice(TASK_CALLS)
        return self.chance.choice(INTERRUPT_CALLS) if self.chance.random() < 0.8 else "return"

    def line(self):
        way = self.chance.random()
        if way < 0.16:
            return self.test()
        if way < 0.2:
            return f"goto {self.target()}"
        if way < 0.32:
            return self.call()
        if way < 0.36 and self.is_task:
            return "vTaskDelay(1)"
        if way < 0.6 and self.variables:
            return self.setting() if self.chance.random() < 0.8 else self.picking()
        return self.object_line() if self.objects else self.test()

    def code(self):
        lines = [self.line() for _ in range(self.length)]
        ends = self.chance.random() < 0.2
        last = "vTaskDelete(NULL)" if self.is_task else "return"
        return lines + [last if ends else f"goto {self.chance.randrange(self.length)}"]


def table(it):
    return "{" + ", ".join(f"{key} = {json.dumps(value)}" for key, value in it.items()) + "}"


def application(chance):
    """The text of an application."""
    actors = [{"name": f"a{it}", "kind": chance.choice(["task"] * 4 + ["interrupt"])} for it in range(chance.randint(1, 3))]
    variables = [variable(chance, it, actors) for it in range(chance.randint(0, 3))]
    objects = [an_object(chance, it) for it in range(chance.randint(0, 3))]
    for actor in actors:
        actor["code"] = Writer(chance, actor, variables, objects).code()
    tables = {"variable": variables, "object": objects, "actor": actors}
    return "".join(f"{name} = [\n" + "".join(f"  {table(it)},\n" for it in items) + "]\n" for name, items in tables.items())
