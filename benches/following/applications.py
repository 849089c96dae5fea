"""Small applications at random, whose actors share objects and variables and mostly keep the rules, so that their runs are long."""
import json


def table(it):
    return "{" + ", ".join(f"{key} = {json.dumps(value)}" for key, value in it.items()) + "}"


class Actor:
    """Writes the lines of one actor: blocks one after another, then back to some line, or the end."""

    def __init__(self, chance, name, kind, variables, objects):
        self.chance, self.name, self.is_task = chance, name, kind == "task"
        self.variables = [it for it in variables if it.get("owner") in (None, name)]
        self.own = [it for it in self.variables if "owner" in it]
        self.objects, self.lines = objects, []

    def code(self):
        for _ in range(self.chance.randint(1, 4)):
            self.block()
        end = "return" if not self.is_task else f"goto {self.chance.choice([0, 0, self.chance.randrange(len(self.lines))])}"
        if self.is_task and self.chance.random() < 0.15:
            end = "vTaskDelete(NULL)"
        # A target after the last line is the last line.
        lines = [*self.lines, end]
        return [line.replace("@", str(min(number + 1, len(lines) - 1))) for number, line in enumerate(lines)]

    def suffix(self):
        return "" if self.is_task else "FromISR"

    def time(self):
        return f", {self.chance.choice(['0', '5', 'portMAX_DELAY'])}" if self.is_task else ""

    def failing(self):
        way = self.chance.random()
        if way < 0.5:
            return ""
        return f" else {self.chance.randrange(len(self.lines) + 1)}"

    def block(self):
        ways = [self.call, self.call, self.numbers, self.numbers, self.jump, self.critical]
        self.chance.choice(ways)()

    def call(self):
        if not self.objects or self.is_task and self.chance.random() < 0.15:
            self.lines.append(self.chance.choice(["vTaskDelay(1)", "taskYIELD()", "vTaskDelay(2)"]) if self.is_task else "goto @")
            return
        it = self.chance.choice(self.objects)
        kind, name, isr = it["kind"], it["name"], self.suffix()
        if self.is_task and self.chance.random() < 0.12:
            self.life(it)
        elif kind == "queue":
            self.queue(it)
        elif kind in ("stream", "message"):
            self.buffer(it)
        elif kind in ("mutex", "recursive") and self.is_task:
            self.mutex(it)
        elif kind in ("binary", "counting"):
            way = self.chance.random() < 0.5
            self.lines.append((f"xSemaphoreTake{isr}({name}{self.time()})" if way else f"xSemaphoreGive{isr}({name})") + self.failing())
        else:
            self.numbers()

    def life(self, it):
        creates = {"queue": "xQueueCreate", "binary": "xSemaphoreCreateBinary", "counting": "xSemaphoreCreateCounting", "mutex": "xSemaphoreCreateMutex",
                   "recursive": "xSemaphoreCreateRecursiveMutex", "stream": "xStreamBufferCreate", "message": "xMessageBufferCreate"}
        deletes = {"queue": "vQueueDelete", "stream": "vStreamBufferDelete", "message": "vMessageBufferDelete"}
        lines = [f"{creates[it['kind']]}({it['name']}){self.failing()}", f"{deletes.get(it['kind'], 'vSemaphoreDelete')}({it['name']})"]
        if it["live"]:
            lines.reverse()
        self.lines += lines if self.chance.random() < 0.8 else lines[:1]

    def queue(self, it):
        fits = [v for v in self.variables if v["lo"] <= it["lo"] and it["hi"] <= v["hi"]]
        if fits and self.chance.random() < 0.5:
            self.lines.append(f"xQueueReceive{self.suffix()}({it['name']}, {self.chance.choice(fits)['name']}{self.time()})" + self.failing())
            return
        fits = [v["name"] for v in self.variables if it["lo"] <= v["lo"] and v["hi"] <= it["hi"]]
        what = self.chance.choice(fits) if fits and self.chance.random() < 0.7 else self.chance.randint(it["lo"], it["hi"])
        self.lines.append(f"xQueueSend{self.suffix()}({it['name']}, {what}{self.time()})" + self.failing())

    def buffer(self, it):
        stem = "xStreamBuffer" if it["kind"] == "stream" else "xMessageBuffer"
        if self.is_task and self.chance.random() < 0.1:
            self.lines.append(f"{stem}Reset({it['name']})" + self.failing())
            return
        length = self.chance.randint(1, it["size"] + 1)
        fits = [v["name"] for v in self.variables if v["lo"] <= 0 and length <= v["hi"]]
        into = f"{self.chance.choice(fits)} = " if fits and self.chance.random() < 0.6 else ""
        self.lines.append(f"{into}{stem}{self.chance.choice(['Send', 'Receive'])}{self.suffix()}({it['name']}, {length}{self.time()})")

    def mutex(self, it):
        form = "Recursive" if it["kind"] == "recursive" else ""
        times = self.chance.randint(1, 2) if form else 1
        back = len(self.lines)
        for _ in range(times):
            waits = times > 1 or self.chance.random() < 0.5
            self.lines.append(f"xSemaphoreTake{form}({it['name']}, " + ("portMAX_DELAY)" if waits else f"{self.chance.choice([0, 5])}) else {back}"))
        if self.chance.random() < 0.6:
            self.chance.choice([self.numbers, self.delay])()
        self.lines += [f"xSemaphoreGive{form}({it['name']})"] * times

    def delay(self):
        self.lines.append("vTaskDelay(1)")

    def critical(self):
        isr = "" if self.is_task else "_FROM_ISR"
        self.lines.append(f"taskENTER_CRITICAL{isr}()")
        buffers = [it for it in self.objects if it["kind"] in ("stream", "message")]
        if buffers and self.chance.random() < 0.5:
            it = self.chance.choice(buffers)
            stem = ("xStreamBuffer" if it["kind"] == "stream" else "xMessageBuffer") + self.chance.choice(["Send", "Receive"]) + self.suffix()
            self.lines.append(f"{stem}({it['name']}, {self.chance.randint(1, it['size'])}" + (", 0)" if self.is_task else ")"))
        else:
            self.numbers()
        self.lines.append(f"taskEXIT_CRITICAL{isr}()")

    def numbers(self):
        """A variable gets a number, by ways that stay inside its range."""
        if not self.variables:
            self.lines.append("goto @")
            return
        it = self.chance.choice(self.variables)
        name, lo, hi = it["name"], it["lo"], it["hi"]
        way = self.chance.random()
        if way < 0.2:
            first = self.chance.randint(lo, hi)
            self.lines.append(f"pick {name} {first} {self.chance.randint(first, hi)}")
        elif way < 0.45 or "owner" not in it:
            others = [v["name"] for v in self.own if lo <= v["lo"] and v["hi"] <= hi and v is not it]
            what = self.chance.choice(others) if others and self.chance.random() < 0.6 else self.chance.randint(lo, hi)
            self.lines.append(f"set {name} = {what}")
        else:
            at = len(self.lines)
            self.lines += [f"if {name} >= {hi} goto {at + 3}", f"set {name} = {name} + 1", f"goto {at + 4}", f"set {name} = {lo}", "goto @"]

    def jump(self):
        if not self.variables:
            self.lines.append("goto @")
            return
        it = self.chance.choice(self.variables)
        sign, number = self.chance.choice(["==", "!=", "<", ">", "<=", ">="]), self.chance.randint(it["lo"], it["hi"])
        back = self.chance.random() < 0.4
        if back:
            self.lines.append(f"if {it['name']} {sign} {number} goto {self.chance.randrange(len(self.lines) + 1)}")
            return
        at = len(self.lines)
        self.lines.append("")
        self.chance.choice([self.call, self.numbers])()
        self.lines[at] = f"if {it['name']} {sign} {number} goto {len(self.lines)}"


def an_object(chance, number):
    kind = chance.choice(["queue", "queue", "queue", "binary", "counting", "mutex", "recursive", "stream", "stream", "message"])
    it = {"name": f"o{number}", "kind": kind, "live": chance.random() < 0.9}
    if kind in ("queue", "counting"):
        it["size"] = chance.randint(1, 3)
    if kind in ("stream", "message"):
        it["size"] = chance.randint(1, 4)
    if kind == "queue":
        it["lo"] = chance.randint(-1, 1)
        it["hi"] = it["lo"] + chance.randint(0, 3)
    if kind == "counting":
        it["first"] = chance.randint(0, it["size"])
    return it


def a_variable(chance, number, actors):
    lo = chance.randint(-1, 0)
    hi = lo + chance.choice([1, 2, 3, 5])
    it = {"name": f"v{number}", "lo": lo, "hi": hi, "init": chance.randint(lo, hi)}
    return {**it, "owner": chance.choice(actors)} if chance.random() < 0.6 else it


def application(chance):
    """The text of an application."""
    names = [f"a{it}" for it in range(chance.choice([1, 2, 2, 3, 3]))]
    kinds = [chance.choice(["task", "task", "interrupt"]) for _ in names]
    variables = [a_variable(chance, it, names) for it in range(chance.randint(0, 3))]
    objects = [an_object(chance, it) for it in range(chance.randint(0, 3))]
    actors = [{"name": name, "kind": kind, "code": Actor(chance, name, kind, variables, objects).code()} for name, kind in zip(names, kinds)]
    tables = {"variable": variables, "object": objects, "actor": actors}
    return "".join(f"{name} = [\n" + "".join(f"  {table(it)},\n" for it in items) + "]\n" for name, items in tables.items())
