"""Programs made from a number, for scripts/soak: those of the small language of docs/language.md, and texts that were changed.

The same number makes the same program. Some programs have no mistakes, and some have: wrong annotations, stops, faults and broken rules.
Loops count up to small numbers but for few, which a limit on units ends.
"""
import random

# Constants of the small language.
SMALL = [
    "0", "1", "2", "3", "5", "7", "10", "31", "48", "65", "255", "256", "1000", "0x7fffffff", "0x10000", "017", "'a'", "'\\n'",
    "2147483647",
]
# What Broken puts into a text.
BYTES = "#\"'\\/*(){}[];,@$`\x01\t\x0b\x0c\r 0x9_?:\x7f\x80\xff\x00"
TOKENS = [
    " /* ", " */ ", " // ", " ' ", " \"a\" ", " '' ", "'\\x100'", "'\\q'", "'ab'", " 09 ", " 0x ", " 1.5 ", " 1e+3 ", " 5lul ", " 5uLL ",
    " 99999999999999999999 ", " 0xffffffffffffffff ", " 2147483648 ", " switch ", " float ", " static ", " extern ", "\\\n", "\\\r\n",
    " \\\n", " ... ", " -> ", " ++", "--", " += ", " else ", " } ", " { ", " ( ", " ) ", " [ ", " ; ", " , ", " int ", " void ",
    " return ", " NULL ", " EOF ", " #", "(" * 199, "(" * 201, "{" * 190,
]
LINES = [
    "#", "# define LIMIT 31", "#define LIMIT 32", "#define A(x) x", "#define A (x) x", "#define int int", "#define p q", "#define q p",
    "#define 3 3", "#define", "#undef LIMIT", "#undef int char", "#undef", "#if 1", "#error x", "#include <a'b> // c", "#include /* d",
    "#pragma omp ' \"", "#pragma css", "#pragma css start", "#pragma css wait on(x)", "#pragma css task", "#pragma css task inout(p)",
    "#pragma css start finish", "#pragma css barrier // e", "# /* f */ pragma css start", "#pragma css \\", "  /* # */ # pragma",
    "int g;", "int h(void);", "/* a", "*/", "// \\", "%:define A 1", "#define NULL 0", "#define css omp", "#define pragma x",
    "#define barrier start", "#pragma barrier", "# 1", "'", "\"", "\\",
]
OPERATORS = "+ - * / % & | ^ << >> + - * % ^ < > <= >= == != && ||".split()


class Program:
    """A program's text and input."""

    def __init__(self, text, given):
        self.text, self.given = text, given


class Maker:
    """A text being made: the choices of one number, and lines."""

    # Of a hundred programs, those without mistakes; of a hundred divisions in the others, those whose divisor may be 0.
    tame, faults = 40, 12

    def __init__(self, profile, number):
        self.random = random.Random(f"{profile} {number}")
        self.lines, self.depth, self.names = [], 0, 0
        self.is_tame = profile == "portable" or self.chance(self.tame)

    def chance(self, percent):
        return self.random.random() * 100 < percent

    def wild(self, percent):
        """Returns whether a mistake is made here."""
        return not self.is_tame and self.chance(percent)

    def pick(self, them):
        return self.random.choice(list(them))

    def between(self, least, most):
        return self.random.randint(least, most)

    def fresh(self, head):
        self.names += 1
        return f"{head}{self.names}"

    def put(self, text):
        """Puts a line, or now and then parts it, or sets it behind the last one."""
        is_plain = not text.startswith("#") and "//" not in text and '"' not in text
        if is_plain and self.chance(3):
            words = text.split(" ")
            at = self.between(0, len(words) - 1)
            text = " ".join(words[:at]) + "\n" + " ".join(words[at:])
        if is_plain and self.lines and not self.lines[-1].lstrip().startswith("#") and self.chance(5):
            self.lines[-1] += " " + text
        else:
            self.lines.append("  " * self.depth + text)

    def directive(self, words):
        self.put(f"#pragma css {words}")

    def block(self, head, body, *rest):
        """Puts a head, a body in braces, and what stands behind the brace."""
        self.put(head + " {")
        self.depth += 1
        body()
        self.depth -= 1
        self.put("}" + "".join(rest))

    def binary(self, operator, left, right):
        if operator in "/%" and not self.wild(self.faults):
            right = f"(({right}) & 15 | 1)" if self.chance(50) else self.pick(["3", "7", "10", "255"])
        return f"{left} {operator} {right}" if self.chance(20) else f"({left} {operator} {right})"

    def text(self):
        return "\n".join(self.lines) + "\n"


class Small(Maker):
    """A program of int variables, functions of one `int *`, and tasks."""

    def made(self):
        if self.chance(30):
            self.put("#include <stdio.h>")
        if self.chance(20):
            self.put("#define LIMIT 0x1f // of some constants")
        self.tasks, self.plain = [], []
        for _ in range(self.between(1, 4)):
            self.function()
        self.main()
        return Program(self.text(), b"")

    # What functions and main share: self.read and self.written are the names that expressions and assignments take.

    def value(self, depth=3):
        if depth == 0 or self.chance(25):
            return self.atom()
        if self.chance(12):
            return f"{self.pick('+-~!')} {self.value(depth - 1)}"
        return self.binary(self.pick(OPERATORS), self.value(depth - 1), self.value(depth - 1))

    def atom(self):
        names = self.read()
        return self.pick(names if names and self.chance(65) else SMALL)

    def loop(self, body, level):
        if self.wild(2):
            return self.block(f"while ({self.value(2)})", body)
        counter = self.fresh("i")
        self.counters.append(counter)
        bound = self.pick([str(self.between(0, 9)), f"({self.value(1)} & 7)"] if level else ["1", "3", "5"])
        self.put(f"{counter} = 0;")

        def counted():
            if self.chance(50):
                self.put(f"{counter} = {counter} + 1;")
                body()
            else:
                body()
                self.put(f"{counter} = {counter} + 1;")
        return self.block(f"while ({counter} < {bound})", counted)

    def branch(self, body, other):
        self.block(f"if ({self.value(2)})", body)
        if self.chance(40):
            self.block("else", other)

    # Functions

    def function(self):
        name, self.counters = self.fresh("f"), []
        is_task = self.chance(75)
        (self.tasks if is_task else self.plain).append(name)
        self.parameter, self.locals = self.pick(["p", "q", "task", "out"]), []
        if is_task:
            self.directive(f"task inout({self.parameter})")
        self.body_of(f"void {name}(int *{self.parameter})", self.function_body)

    def body_of(self, head, body):
        """Puts a function with the counters of its loops declared first."""
        before, self.lines = self.lines, []
        self.depth += 1
        body()
        self.depth -= 1
        inside, self.lines = self.lines, before
        self.put(head + " {")
        self.lines += [f"  int {it};" for it in self.counters] + inside + ["}"]

    def element(self):
        if self.wild(4):
            return f"{self.parameter}[{self.pick(['1', '- 1', '- 2', '- 4', '2', '- 8', '0x40000000', '1 << 20', self.value(1)])}]"
        return f"{self.parameter}[{self.pick(['0', '0', '0', '1 - 1', '0 & 1'])}]"

    def function_body(self):
        self.read = lambda: self.locals + self.counters + [self.element()] * 2
        for _ in range(self.between(0, 3)):
            name = self.fresh(self.pick("abc"))
            self.put(f"int {name} = {self.value(2)};" if self.chance(70) else f"int {name};")
            self.locals.append(name)
        for _ in range(self.between(1, 4)):
            self.function_statement(2)

    def function_statement(self, level):
        kind = self.between(0, 9)
        if kind < 6 or level == 0:
            place = self.pick(self.locals) if self.locals and self.chance(40) else self.element()
            self.put(f"{place} = {self.value()};")
        elif kind < 8:
            self.loop(lambda: self.function_statement(level - 1), level)
        else:
            self.branch(lambda: self.function_statement(level - 1), lambda: self.function_statement(level - 1))

    # Main. Of a task's object nothing may be touched before a barrier or finish: self.pending has them, and mistakes don't look.

    def free(self):
        return self.locals if self.wild(6) else [it for it in self.locals if not self.is_pending(it)]

    def is_pending(self, name):
        return name in self.pending

    def main(self):
        self.locals, self.counters, self.pending, self.is_started, self.taken = [], [], set(), False, None
        self.read = lambda: self.free() + self.counters
        self.body_of(self.pick(["int main(void)", "int  main ( void )"]), self.main_body)

    def main_body(self):
        for _ in range(self.between(2, 5)):
            self.declare()
        for _ in range(self.between(4, 14)):
            self.top_statement()
        if self.is_started and self.chance(75):
            self.mark("finish")
        for it in self.locals if self.chance(90) else []:
            if not self.is_pending(it):
                for shift in (24, 16, 8, 0):
                    self.put(f"putchar({it} >> {shift});")
        if self.chance(80):
            self.put(f"return {self.value(2)};")

    def declare(self):
        name = self.fresh(self.pick(["x", "y", "start", "on", "input"]))
        self.put(f"int {name} = {self.value(2)};" if self.chance(80) else f"int {name};")
        self.locals.append(name)

    def top_statement(self):
        kind = self.between(0, 99)
        if kind < 8:
            self.declare()
        elif kind < 45 and not self.is_started or self.wild(1.5):
            self.mark("start")
        elif kind < 14 and self.is_started or self.wild(1):
            self.mark("finish")
        else:
            self.statement(2)

    def mark(self, word):
        self.directive(word)
        self.is_started = word == "start" or word == "barrier" and self.is_started
        if word != "start":
            self.pending = set()

    def statement(self, level):
        kind, free = self.between(0, 99), self.free()
        if kind < 36 and self.tasks:
            self.call()
        elif kind < 44 and self.plain and free:
            self.put(f"{self.pick(self.plain)}(&{self.pick(free)});")
        elif kind < 58 and free:
            self.put(f"{self.pick(free)} = {self.value()};")
        elif kind < 68:
            self.put(f"putchar({self.value(2)});")
        elif kind < 76:
            self.mark("barrier")
        elif kind < 86 and level:
            self.main_loop(level)
        elif kind < 94 and level:
            self.main_branch(level)
        elif kind < 96:
            self.put(self.pick([";", "{ }", "{ ; }"]))
        elif self.wild(30):
            self.put(f"if ({self.value(2)}) return {self.value(2)};")
        else:
            self.call()

    def call(self):
        if not self.tasks:
            return
        them = self.locals if self.taken is None else self.taken
        name = self.pick(them)
        self.put(f"{self.pick(self.tasks)}(&{name});")
        if self.is_started:
            self.pending.add(name)

    def main_loop(self, level):
        before, self.taken = self.taken, self.random.sample(self.locals, min(2, len(self.locals)))
        if before is not None:
            self.taken = before
        if self.is_started:
            self.pending |= set(self.taken)
        # The body may run no times, so what it waits for stays pending behind it.
        left = set(self.pending)
        self.loop(lambda: [self.statement(level - 1) for _ in range(self.between(1, 3))], level)
        self.pending = left
        self.taken = before

    def main_branch(self, level):
        before, after = set(self.pending), []

        def body():
            self.pending = set(before)
            self.statement(level - 1)
            after.append(self.pending)
        self.branch(body, body)
        self.pending = set().union(before, *after)


class Broken(Small):
    """A text of the small language in which one to three places were changed, so that it mostly breaks a static rule."""

    def made(self):
        text = super().made().text
        for _ in range(self.between(1, 3)):
            text = self.changed(text)
        return Program(text, b"")

    def changed(self, text):
        at, kind = self.between(0, len(text) - 1), self.between(0, 9)
        if kind < 2:
            return text[:at] + text[at + self.between(1, 3):]
        if kind < 4:
            return text[:at] + self.pick(BYTES) + text[at + 1:]
        if kind < 6:
            far = at + self.between(1, 12)
            return text[:far] + text[at:far] + text[far:]
        if kind < 8:
            return text[:at] + self.pick(TOKENS) + text[at:]
        lines = text.split("\n")
        at = self.between(0, len(lines) - 1)
        if kind == 8:
            lines.insert(at, self.pick(LINES))
        else:
            other = self.between(0, len(lines) - 1)
            lines[at], lines[other] = lines[other], lines[at]
        return "\n".join(lines)
