"""Writes a tree as the text of a source: layout, brackets, comments, and the forms that mean the same are chosen at random."""
from automata import Variable
from trees import (SIMPLE, And, Assert, Block, Compare, Constant, Count, Do, DoWhile, For, Given, Goto, If, Jump, Keep, Label, Not, Or, Pick, Set,
                   Switch, While, Works)

HEAD = """const ONE = 1;
const TWO = ONE + 0x1;
const configTICK_RATE_HZ = 500 * TWO;
"""
TURNED = {"<": ">", ">": "<", "<=": ">=", ">=": "<="}
COMMENTS = ["// the next step", "/* if (x) */", "/* a comment\n with two rows */", "// gr\xc3\xb6\xc3\x9fe \xff"]
TRUE, FALSE = ["1", "true", "pdTRUE", "TWO > 1", "2", "!0", "-1 < 0"], ["0", "false", "2 < 1", "ONE == 0x2", "!ONE"]
SUCCESS, FAILURE = ["pdTRUE", "pdPASS", "true", "1"], ["pdFALSE", "pdFAIL", "false", "0", "errQUEUE_FULL", "errQUEUE_EMPTY"]


class Writer:
    """Writes statements. `unit` is the blanks by which the rows of a body are moved to the right."""

    def __init__(self, chance):
        self.chance, self.unit = chance, chance.choice(["  ", "    ", "\t"])

    def number(self, number):
        forms = [str(number)] * 6 + [f"({number + 3} - 3)", f"(2 * {number + 1} / 2 - 1)" if number >= 0 else f"(0 - {-number})"]
        forms += {0: ["0x0", "(7 % 7)"], 1: ["ONE"], 2: ["TWO", "0X02"], -1: ["-ONE"], 10: ["pdMS_TO_TICKS(10)"]}.get(number, [])
        return self.chance.choice(forms)

    def operand(self, operand):
        return operand.name if isinstance(operand, Variable) else self.number(operand)

    def call(self, call):
        words = [it if isinstance(it, str) else self.operand(it) for it in call.arguments]
        return f"{call.name}({', '.join(words)})"

    def bracketed(self, text, part=0.1):
        """The text, now and then in brackets."""
        return f"({text})" if self.chance.random() < part else text

    def set(self, statement):
        """An assignment: `x++`, `++x`, `x += 1`, `x = x + 1`, .."""
        name, left, sign, right = statement.variable.name, statement.left, statement.sign, statement.right
        if not sign:
            return f"{name} = {self.bracketed(self.operand(left))}"
        forms = [f"{name} = " + self.bracketed(f"{self.operand(left)} {sign} {self.bracketed(self.operand(right))}")]
        if left is statement.variable:
            forms.append(f"{name} {sign}= {self.operand(right)}")
            if right == 1 and sign in "+-":
                forms += [name + sign * 2, sign * 2 + name] * 2
        if left == 0 and sign == "-" and isinstance(right, Variable):
            forms.append(f"{name} = -{right.name}")
        return self.chance.choice(forms)

    def simple(self, statement):
        """A simple statement, without its semicolon."""
        if isinstance(statement, Set):
            return self.set(statement)
        if isinstance(statement, Pick):
            return f"{statement.variable.name} = any({self.number(statement.low)}, {self.number(statement.high)})"
        if isinstance(statement, Do):
            return self.call(statement.call)
        if isinstance(statement, (Count, Keep)):
            return f"{statement.variable.name} = {self.call(statement.call)}"
        if isinstance(statement, Assert):
            return f"configASSERT({self.condition(statement.condition)})"
        return f"{statement.function.name}()"

    def condition(self, condition, binds=0):
        """A condition. `binds` is 1 for a part of `&&`, and 2 after `!`."""
        kind = type(condition)
        if kind in (And, Or):
            level = 1 if kind is And else 0
            parts = [self.condition(it, level) for it in (condition.left, condition.right)]
            text = (" && " if kind is And else " || ").join(parts)
            return f"({text})" if binds > level else self.bracketed(text)
        if kind is Not:
            return self.bracketed("!" + self.condition(condition.part, 2))
        forms = {Works: self.works, Constant: self.constant, Given: self.given, Compare: self.comparison}
        text = forms[kind](condition)
        return f"({text})" if binds == 2 else self.bracketed(text)

    def works(self, condition):
        """Whether a call works, as a call or compared with what it answers."""
        call = self.bracketed(self.call(condition.call))
        is_create = "Create" in condition.call.name
        success = [] if is_create else SUCCESS
        failure = ["NULL"] if is_create else FAILURE
        same = [(sign, it) for sign, words in (("==", success), ("!=", failure)) for it in words]
        opposite = [(sign, it) for sign, words in (("!=", success), ("==", failure)) for it in words]
        sign, word = self.chance.choice(same)
        turned, other = self.chance.choice(opposite)
        return self.chance.choice([call, f"{call} {sign} {word}", f"{word} {sign} {call}", f"!({call} {turned} {other})"])

    def constant(self, condition):
        return self.chance.choice(TRUE if condition.holds else FALSE)

    def given(self, condition):
        test = condition.test
        given, other = f"({self.simple(condition.statement)})", self.operand(test.right)
        if self.chance.random() < 0.4:
            return f"{other} {TURNED.get(test.sign, test.sign)} {given}"
        return f"{given} {test.sign} {other}"

    def comparison(self, condition):
        left, sign, right = condition.left, condition.sign, condition.right
        if sign == "!=" and right == 0 and isinstance(left, Variable) and self.chance.random() < 0.7:
            return left.name
        return f"{self.operand(left)} {sign} {self.operand(right)}"

    def braced(self, statements, pad):
        if not statements and self.chance.random() < 0.5:
            return "{ }"
        return "{\n" + self.rows(statements, pad + self.unit) + pad + "}"

    def body(self, statements, pad, is_before_else=False):
        """A body after its head, with braces or without: then in the same row or in one of its own."""
        kinds = SIMPLE + (Jump, Goto) + (() if is_before_else else (If, While, DoWhile, For, Switch))
        if len(statements) == 1 and isinstance(statements[0], kinds) and self.chance.random() < 0.5:
            if self.chance.random() < 0.5:
                return " " + self.statement(statements[0], pad)
            return "\n" + pad + self.unit + self.statement(statements[0], pad + self.unit)
        return " " + self.braced(statements, pad)

    def loop_body(self, statements, pad):
        """The body of a `while` or a `for`: `;` where it is empty."""
        if not statements and self.chance.random() < 0.5:
            return self.chance.choice([" ;", "\n" + pad + self.unit + ";"])
        return self.body(statements, pad)

    def choice(self, statement, pad):
        head = f"if ({self.condition(statement.condition)})"
        if statement.otherwise is None:
            return head + self.body(statement.then, pad)
        then = self.body(statement.then, pad, True)
        between = " " if then.endswith("}") or "\n" not in then and self.chance.random() < 0.5 else "\n" + pad
        return head + then + between + "else" + self.body(statement.otherwise, pad)

    def loop(self, statement, pad):
        if isinstance(statement, While):
            return f"while ({self.condition(statement.condition)})" + self.loop_body(statement.body, pad)
        if isinstance(statement, DoWhile):
            body = self.body(statement.body, pad)
            return "do" + body + ("\n" + pad if "\n" in body else " ") + f"while ({self.condition(statement.condition)});"
        first, step = ("".join(map(self.simple, it)) for it in (statement.first, statement.step))
        condition = self.condition(statement.condition) if statement.condition else ""
        return f"for ({first}; {condition}; {step})" + self.loop_body(statement.body, pad)

    def switch(self, statement, pad):
        parts = ""
        for value, statements in statement.parts:
            head = "default" if value is None else f"case {self.number(value)}"
            parts += f"{pad}{head}:\n{self.rows(statements, pad + self.unit)}"
        return f"switch ({statement.variable.name}) {{\n{parts}{pad}}}"

    def statement(self, statement, pad):
        """A statement, of which the first row has no blanks in front."""
        if isinstance(statement, SIMPLE):
            return self.simple(statement) + ";"
        if isinstance(statement, If):
            return self.choice(statement, pad)
        if isinstance(statement, (While, DoWhile, For)):
            return self.loop(statement, pad)
        if isinstance(statement, Switch):
            return self.switch(statement, pad)
        if isinstance(statement, Block):
            return ";" if not statement.body and self.chance.random() < 0.5 else self.braced(statement.body, pad)
        if isinstance(statement, Label):
            return f"{statement.name}:"
        return f"goto {statement.label.name};" if isinstance(statement, Goto) else f"{statement.word};"

    def rows(self, statements, pad):
        """The rows of statements, each of which has these blanks in front. A simple statement may be in the row of the one before."""
        text, is_open = "", False
        for it in statements:
            shown = self.statement(it, pad)
            text += (" " if is_open and isinstance(it, SIMPLE) else "\n" * is_open + pad) + shown
            has_comment = self.chance.random() < 0.05
            is_open = not has_comment and "\n" not in shown and self.chance.random() < 0.15
            text += (" " + self.chance.choice(COMMENTS)) * has_comment + "\n" * (not is_open)
        return text + "\n" * is_open

    def variable(self, variable, word, may_begin):
        """The declaration of a variable. Of an interrupt or a function, one with a first number has to be static."""
        low, high = self.number(variable.low), self.number(variable.high)
        has_first = variable.first != 0 or not variable.low <= 0 <= variable.high or self.chance.random() < 0.2
        first = f" = {self.number(variable.first)}" if has_first else ""
        static = "static " if word == "var" and (has_first and not may_begin or self.chance.random() < 0.1) else ""
        return f"{static}{word} {variable.name} in {low}..{high}{first};\n"

    def thing(self, thing):
        numbers = {name: self.number(number) for name, number in thing.numbers.items()}
        size = f"[{numbers['size']}]" if "size" in numbers else ""
        more = f" of {numbers['lo']}..{numbers['hi']}" if "lo" in numbers else f" first {numbers['first']}" if "first" in numbers else ""
        return f"{thing.kind} {thing.name}{size}{more}{'' if thing.is_live else ' = NULL'};\n"

    def whole_body(self, body):
        head = f"{body.kind} {body.name}{'()' if body.kind == 'function' else ''} {{\n"
        variables = [self.unit + self.variable(it, "var", body.kind == "task") for it in body.variables]
        return head + "".join(variables) + self.rows(body.statements, self.unit) + "}\n"

    def source(self, source):
        parts = [HEAD] + [self.variable(it, "shared", True) for it in source.shared] + [self.thing(it) for it in source.things]
        return "".join(parts + ["\n" + self.whole_body(it) for it in source.functions + source.actors])
