"""Programs of the whole profile of C made from a number, for scripts/soak, with tasks of several windows in all directions.

A portable one has nothing that C99 leaves open or that gcc does otherwise, and no mistakes, so that gcc answers for the same text.
"""
from programs import OPERATORS, SMALL, Maker, Program

# The integer types by one spelling, with their bits.
TYPES = {"char": 8, "signed char": 8, "short": 16, "unsigned short": 16, "int": 32, "unsigned": 32, "long": 32, "unsigned long int": 32,
         "long long": 64, "unsigned long long": 64}
# Constants of the other integer types.
WIDE = [
    "4000000000u", "0xffffffff", "1ll << 40", "0x123456789abcdef", "9223372036854775807ll", "0xffffffffffffffffu", "'\\\\'", "077u",
]


class Shape:
    """What a pointer parameter reaches: rows of so many elements of a type, and the elements from row to row."""

    def __init__(self, element, rows, width, stride):
        self.element, self.rows, self.width, self.stride = element, rows, width, stride
        self.count = rows * width
        self.kind = "tile" if stride > width else "table" if rows > 1 else "list" if width > 1 else "one"


class Object:
    """A part of main's memory of a shape: a pointer to it, its array where it is a table, and each element as a place."""

    def __init__(self, shape, pointer, table, at):
        self.shape, self.pointer, self.table, self.at = shape, pointer, table, at


class Parameter:
    """A pointer parameter of a task: its declaration, its dimensions in the directive, and each element as a place."""

    def __init__(self, name, shape, direction, declared, dims, at):
        self.name, self.shape, self.direction, self.declared, self.dims, self.at = name, shape, direction, declared, dims, at
        self.is_table = declared.endswith("]") and shape.kind == "table"


class Task:
    """A task: its name, its parameters in order (a Parameter, or of an int the numbers that it takes)."""

    def __init__(self, name, parameters):
        self.name, self.parameters = name, parameters


class Whole(Maker):
    """A program of the whole profile."""

    tame, faults = 25, 5

    def __init__(self, profile, number):
        super().__init__(profile, number)
        self.is_portable = profile == "portable"
        # The widths of long differ between machines.
        self.types = [it for it, bits in TYPES.items() if not (self.is_portable and "long" in it and bits == 32)]
        self.names_read, self.places, self.helpers, self.totals, self.tasks = [], [], [], {}, []
        self.objects, self.pending, self.is_started, self.taken, self.in_main = [], {}, False, None, False

    def made(self):
        self.put("#include <stdio.h>")
        self.put("#include <stdlib.h>")
        self.shapes = [self.shape() for _ in range(self.between(1, 3))]
        for _ in range(self.between(0, 3)):
            self.helper()
        self.has_deep = self.wild(50)
        if self.has_deep:
            self.block("void deep(int n)", lambda: [self.put("int z[600];"), self.put("z[n & 511] = n;"), self.put("if (n > 0) deep(n - 1);")])
        for it in {it.element: it for it in self.shapes if it.kind == "list"}.values():
            self.total(it)
        for _ in range(self.between(1, 4)):
            self.task()
        self.has_leaver = self.chance(40)
        if self.has_leaver:
            self.leaver()
        shared = self.memory("global")
        own = self.scoped(self.globals)
        self.block("int main(void)", lambda: self.main(shared, own))
        given = bytes(self.between(0, 255) for _ in range(self.between(0, 12)))
        return Program(self.text(), given)

    def shape(self):
        element, kind = self.pick(self.types), self.between(0, 9)
        if kind < 2:
            return Shape(element, 1, 1, 1)
        if kind < 6:
            size = self.pick([2, 3, 4, 5, 8, 16]) if self.is_portable or self.chance(96) else self.pick([4097, 9000])
            return Shape(element, 1, size, size)
        rows, width = self.between(2, 4), self.between(2, 4)
        return Shape(element, rows, width, width if kind < 8 else width + self.between(1, 5))

    # Expressions: self.names_read are the names that one may read, self.places those of locals that one may write.

    def number(self):
        if self.chance(70):
            return self.pick(SMALL)
        return self.pick(WIDE)

    def value(self, depth=3):
        if depth == 0 or self.chance(20):
            return self.atom()
        kind, inner = self.between(0, 99), lambda: self.value(depth - 1)
        if kind < 60:
            return self.two(inner)
        if kind < 70:
            return f"{self.pick('+-~!')} {inner() if self.chance(50) else self.atom()}"
        if kind < 80:
            return f"({self.pick(self.types)})({inner()})"
        if kind < 86:
            return f"({inner()} ? {inner()} : {inner()})"
        if kind < 92 and self.helpers:
            return self.helped(inner)
        if kind < 94:
            return f"(int)sizeof({self.pick(self.types)})"
        if kind < 98 and self.places and not self.is_portable:
            place = self.pick(self.places)
            return self.pick([f"{place}++", f"--{place}", f"({place} {self.pick(['=', '+=', '^=', '<<='])} {inner()})", f"({inner()}, {place})"])
        return self.atom()

    def two(self, inner):
        operator = self.pick(OPERATORS)
        if operator in ("<<", ">>") and self.is_portable:
            return f"({inner()} {operator} (({inner()}) & 15))"
        return self.binary(operator, inner(), inner())

    def helped(self, inner):
        name, count = self.pick(self.helpers)
        first = f"({inner()}) & 7"
        return f"{name}({', '.join([first] + [inner() for _ in range(count - 1)])})"

    def atom(self):
        names = self.names_read + self.elements()
        return f"{self.pick(names)}" if names and self.chance(70) else f"({self.number()})"

    def elements(self):
        """Returns some elements of objects that main may read."""
        if not self.in_main:
            return []
        free = [it for it in self.objects if self.wild(6) or self.pending.get(it) != "w"]
        return [it.at(str(self.between(0, it.shape.count - 1))) for it in self.random.sample(free, min(2, len(free)))]

    # Statements

    def scoped(self, body):
        """Runs what makes a block: names that it declares end with it."""
        read, written = list(self.names_read), list(self.places)
        found = body()
        self.names_read, self.places = read, written
        return found

    def inside(self, head, body, *rest):
        self.block(head, lambda: self.scoped(body), *rest)

    def local(self):
        name, kind = self.fresh(self.pick("abcxyz")), self.pick(self.types)
        words = self.pick(["", "", "", "const ", "register "])
        is_set = self.is_portable or words == "const " or self.chance(85)
        self.put(f"{words}{kind} {name}{' = ' + self.value(2) if is_set else ''};")
        self.names_read.append(name)
        if words != "const ":
            self.places.append(name)

    def assign(self, place):
        kind = self.between(0, 9)
        if kind < 6:
            self.put(f"{place} = {self.value()};")
        elif kind < 8:
            operator = self.pick(["+=", "-=", "*=", "&=", "|=", "^="] + ["<<=", ">>=", "/="] * (not self.is_portable and self.wild(30)))
            self.put(f"{place} {operator} {self.value(2)};")
        else:
            self.put(self.pick([f"({place})++;", f"++{place};", f"({place})--;"]))

    def over(self, count, body):
        """Puts a loop over the numbers below a count."""
        name = self.fresh("i")
        if self.chance(50):
            head = f"for (int {name} = 0; {name} < {count}; {name}++)"
        else:
            self.put(f"int {name};")
            head = f"for ({name} = 0; {name} < {count}; ++{name})"
        self.inside(head, lambda: [self.names_read.append(name), body(name)])

    def loop(self, body):
        kind, name, count = self.between(0, 9), self.fresh("k"), self.between(0, 6)
        guard = self.pick(["break", "continue"])

        def guarded(_):
            body()
            if self.chance(25):
                self.put(f"if ({self.value(2)}) {guard};")
                body()
        if self.wild(1):
            return self.inside(f"while ({self.value(2)})", body)
        if kind < 6:
            return self.over(count, guarded)
        self.put(f"int {name} = 0;")
        if kind < 8:
            return self.inside(f"while ({name}++ < {count})", lambda: guarded(name))
        return self.inside("do", lambda: guarded(name), f" while (++{name} < {count});")

    def branch(self, body):
        self.inside(f"if ({self.value(2)})", body)
        if self.chance(40):
            self.inside("else", body)

    def plain_statement(self, level, places):
        """Puts a statement that functions and tasks may have."""
        kind = self.between(0, 9)
        if kind < 2 or not places + self.places:
            self.local()
        elif kind < 7 or level == 0:
            self.assign(self.pick(places + self.places))
        elif kind < 8:
            self.loop(lambda: self.plain_statement(level - 1, places))
        else:
            self.branch(lambda: self.plain_statement(level - 1, places))

    # Helpers, which tasks may call too

    def helper(self):
        name, types = self.fresh("h"), [self.pick(self.types) for _ in range(self.between(1, 3))]
        names = [self.fresh("n") for _ in types]
        result = self.pick(self.types)
        head = f"{result} {name}({', '.join(f'{kind} {it}' for kind, it in zip(types, names))})"
        is_deep = self.chance(40)
        if is_deep and self.chance(50):
            self.put(head + ";")

        def body():
            self.names_read += names
            for _ in range(self.between(0, 3)):
                self.plain_statement(1, [])
            if is_deep:
                rest = [f"{names[0]} - 1"] + [self.value(1) for _ in names[1:]]
                self.put(f"if ({names[0]} > 0 && {names[0]} < 8) return {self.atom()} + {name}({', '.join(rest)});")
            self.put(f"return {self.value()};")
        self.inside(head, body)
        self.helpers.append((name, len(types)))

    def total(self, shape):
        """Puts a helper that adds up elements."""
        name = self.fresh("total")
        self.block(f"long long {name}({shape.element} *p, int n)", lambda: [
            self.put("long long s = 0;"), self.put("while (n-- > 0) s = s * 3 + *p++;"), self.put("return s;")])
        self.totals[shape.element] = name

    # Tasks

    def parameter(self, shape, sizes):
        """Makes a parameter; a size that the directive takes from an int parameter goes into `sizes`."""
        name, kind = self.fresh("p"), shape.element
        direction = self.pick(["input", "output", "inout"])
        count, width, rows = shape.count, shape.width, shape.rows
        flat = lambda i: f"{name}[{i}]"
        if shape.kind == "one":
            forms = [(f"{kind} *{name}", "", lambda i: f"*{name}" if i == "0" else flat(i))]
        elif shape.kind == "list":
            size = self.fresh("n")
            forms = [(f"{kind} *{name}", f"[{count}]", flat), (f"{kind} {name}[{count}]", "", flat), (f"{kind} {name}[]", f"[{count}]", flat),
                     (f"{kind} *{name}", f"[{size}]", flat), (f"{kind} *{name}", f"[{count} + 1 - sizeof(char)]", flat)]
        elif shape.kind == "table":
            rowed = lambda i: f"{name}[({i}) / {width}][({i}) % {width}]"
            forms = [(f"{kind} {name}[{rows}][{width}]", "", rowed), (f"{kind} {name}[][{width}]", f"[{rows}][{width}]", rowed),
                     (f"{kind} *{name}", f"[{rows}][{width}]", flat)]
        else:
            strided = lambda i: f"{name}[({i}) / {width} * {shape.stride} + ({i}) % {width}]"
            forms = [(f"{kind} *{name}", f"{{{rows}, {width}, {shape.stride}}}", strided)]
        declared, dims, at = self.pick(forms)
        if shape.kind == "list" and dims == f"[{size}]":
            sizes[size] = count
        return Parameter(name, shape, direction, declared, dims, at)

    def task(self):
        name, sizes = self.fresh("t"), {}
        pointers = [self.parameter(self.pick(self.shapes), sizes) for _ in range(self.between(1, 4))]
        parameters = pointers + [(it, [count]) for it, count in sizes.items()]
        parameters += [(self.fresh("v"), None) for _ in range(self.between(0, 2))]
        self.random.shuffle(parameters)
        named = [it if isinstance(it, Parameter) else it[0] for it in parameters]
        head = f"void {name}({', '.join(it.declared if isinstance(it, Parameter) else f'int {it}' for it in named)})"
        words = [f"{it.direction}({it.name}{it.dims})" for it in pointers] + ["highpriority"] * self.chance(20)
        self.random.shuffle(words)
        text = self.joined(words) if self.chance(50) else "task " + " ".join(words)
        self.directive(text)
        if self.chance(15):
            self.put(head + ";")
            if self.chance(50):
                self.directive(text)
        self.inside(head, lambda: self.task_body(pointers, [it for it in named if not isinstance(it, Parameter)]))
        self.tasks.append(Task(name, parameters))

    def joined(self, words):
        """Returns a directive with the clauses of one direction in one."""
        found = {}
        for it in words:
            direction, _, rest = it.partition("(")
            found.setdefault(direction, []).append(rest[:-1])
        return "task " + " ".join(it if it == "highpriority" else f"{it}({', '.join(rest)})" for it, rest in found.items())

    def task_body(self, pointers, numbers):
        self.names_read += numbers
        unwritten, places = [], []
        for it in pointers:
            index = str(self.between(0, it.shape.count - 1))
            if it.direction == "output":
                unwritten.append(it)
            if it.direction != "output" or self.wild(3):
                self.names_read.append(it.at(index))
            if it.direction == "inout" or it.direction == "input" and self.wild(3):
                places.append(it.at(index))
            if self.wild(3):
                places.append(it.at(str(self.pick([it.shape.count, -1, it.shape.width, it.shape.count + 3]))))
        for _ in range(self.between(0, 3)):
            self.plain_statement(2, places)
        self.uses(pointers)
        if self.has_deep and self.wild(8):
            self.put(f"deep({self.pick(numbers + ['5'])} & 15);")
        for it in unwritten:
            if self.wild(5):
                self.put(f"if ({self.value(2)}) return;")
            self.fill(it)
            self.names_read.append(it.at("0"))
        for _ in range(self.between(0, 2)):
            self.plain_statement(1, places)

    def uses(self, pointers):
        """Puts loops over what is read, and calls that add it up."""
        for it in pointers:
            if it.direction == "output" or self.chance(40):
                continue
            name = self.totals.get(it.shape.element)
            if it.shape.kind == "list" and name and it.shape.count < 100 and self.chance(50):
                sum_of = self.fresh("s")
                self.put(f"long long {sum_of} = {name}({it.name}, {it.shape.count});")
                self.names_read.append(sum_of)
            elif it.direction == "inout":
                self.fill(it)

    def fill(self, it):
        """Puts what stores each element, or now and then all but the last one."""
        count = it.shape.count - self.wild(4)
        if count < 5 and self.chance(40):
            for index in range(count):
                self.put(f"{it.at(str(index))} = {self.value(2)};")
            return
        with_old = it.direction == "inout" and self.chance(60)
        self.over(count, lambda i: self.put(f"{it.at(i)} {'+' * with_old}= {self.value(2)};"))

    # Main's memory

    def memory(self, where):
        """Declares some objects of each shape, global ones here; returns them, or of main's own what makes them."""
        found = []
        for shape in self.shapes:
            for _ in range(self.between(1, 3)):
                found += self.declared(shape, where)
        return found

    def declared(self, shape, where):
        """Declares an array, or a variable, that has objects of a shape; returns these."""
        kind, name, zero = shape.element, self.fresh("g" if where == "global" else "m"), self.is_portable and where != "global"
        start = " = { 0 }" if zero else ""
        if shape.kind == "one" and self.chance(50):
            self.put(f"{kind} {name}{' = ' + self.pick(SMALL) if self.chance(50) or zero else ''};")
            return [Object(shape, f"&{name}", None, lambda i: name)]
        if shape.kind == "table":
            rows = self.pick(["", " = { { 1, 2 }, { 3 } }"]) if not zero else " = { { 0 } }"
            self.put(f"{kind} {name}[{shape.rows}][{shape.width}]{rows};")
            at = lambda i: f"{name}[({i}) / {shape.width}][({i}) % {shape.width}]"
            return [Object(shape, self.pick([f"{name}[0]", f"&{name}[0][0]", f"({kind} *){name}"]), name, at)]
        if shape.kind == "tile":
            return self.tiles(shape, name, start)
        return self.blocks(shape, name, start, where)

    def tiles(self, shape, name, start):
        down, across = self.between(1, 2), shape.stride // shape.width
        self.put(f"{shape.element} {name}[{down * shape.rows}][{shape.stride}]{' = { { 0 } }' * bool(start)};")
        found = []
        for row in range(0, down * shape.rows, shape.rows):
            for column in range(0, across * shape.width, shape.width):
                at = lambda i, row=row, column=column: f"{name}[{row} + ({i}) / {shape.width}][{column} + ({i}) % {shape.width}]"
                found.append(Object(shape, f"&{name}[{row}][{column}]", None, at))
        return found

    def blocks(self, shape, name, start, where):
        kind, size = shape.element, shape.count
        blocks = self.between(1, 4) if size < 100 else 1
        if where != "global" and self.chance(30) and not self.is_portable:
            self.put(f"{kind} *{name} = malloc({blocks * size} * sizeof({kind}));")
        else:
            self.put(f"{kind} {name}[{blocks * size}]{start};")
        found = []
        for first in range(0, blocks * size, size):
            pointer = self.pick([f"&{name}[{first}]", f"{name} + {first}"]) if first or self.chance(50) else name
            found.append(Object(shape, pointer, None, lambda i, first=first: f"{name}[{first} + ({i})]" if first else f"{name}[{i}]"))
        return found

    def globals(self):
        found = []
        for _ in range(self.between(0, 3)):
            found.append(self.fresh("w"))
            self.put(f"{self.pick(self.types)} {found[-1]}{' = ' + self.pick(SMALL) if self.chance(60) else ''};")
        return found

    # Main. What is pending is known by object: "r" where it is only read, "w" where it is written.

    def main(self, shared, own):
        self.in_main, self.objects = True, shared
        self.names_read += own
        self.places += own
        self.objects = shared + self.memory("main")
        for _ in range(self.between(1, 3)):
            self.local()
        for it in self.objects:
            if self.chance(50) and it.shape.count < 100:
                self.over(it.shape.count, lambda i, it=it: self.put(f"{it.at(i)} = {self.value(1)};"))
        for _ in range(self.between(5, 16)):
            self.top_statement()
        if self.is_started and self.chance(75):
            self.mark("finish")
        for it in self.objects:
            if self.pending.get(it) != "w" and self.chance(80):
                self.show(it)
        self.put(f"return ({self.value(2)}) & 127;")

    def top_statement(self):
        kind = self.between(0, 99)
        if kind < 40 and not self.is_started or self.wild(1):
            self.mark("start")
        elif kind < 6 and self.is_started or self.wild(1):
            self.mark("finish")
        else:
            self.statement(2)

    def mark(self, word):
        self.directive(word)
        self.is_started = word == "start" or word == "barrier" and self.is_started
        if word != "start":
            self.pending = {}

    def statement(self, level):
        kind = self.between(0, 99)
        if kind < 40:
            self.call()
        elif kind < 46:
            self.assign(self.pick(self.places)) if self.places else self.local()
        elif kind < 54:
            self.store()
        elif kind < 64:
            self.print()
        elif kind < 70:
            self.mark("barrier")
        elif kind < 77:
            self.wait()
        elif kind < 80:
            self.show(self.pick(self.objects))
        elif kind < 83:
            self.input()
        elif kind < 91 and level:
            self.main_loop(level)
        elif kind < 97 and level:
            self.main_branch(level)
        elif self.has_leaver and self.chance(60):
            self.put("leave();")
        elif self.has_deep and self.wild(25):
            self.put(f"deep({self.pick(['20', '500'])});")
        else:
            self.local()

    def leaver(self):
        """Puts a function that calls a task with objects of its own frame, and mostly waits for them before it leaves."""
        def body():
            arguments, waited = [], []
            for it in task.parameters:
                if isinstance(it, Parameter):
                    one = self.declared(it.shape, "own")[0]
                    waited.append(one.pointer)
                    arguments.append(one.table if it.is_table else one.pointer)
                else:
                    arguments.append(str(it[1][0]) if it[1] else self.value(1))
            self.put(f"{task.name}({', '.join(arguments)});")
            if not self.wild(30):
                self.directive(f"wait on({', '.join(waited)})")
        task = self.pick(self.tasks)
        self.inside("void leave(void)", body)

    def call(self):
        task, chosen, arguments = self.pick(self.tasks), {}, []
        among = self.objects if self.taken is None else self.taken
        for it in task.parameters:
            if not isinstance(it, Parameter):
                arguments.append(self.argument(it[1]))
                continue
            fits = [o for o in among if o.shape is it.shape and (o.table or not it.is_table)]
            fits = [o for o in fits if o not in chosen or self.wild(5) or it.direction == chosen[o] == "input"]
            if not fits:
                return
            one = self.pick(fits)
            chosen[one] = it.direction
            arguments.append(one.table if it.is_table else self.pointer(one))
        self.put(f"{task.name}({', '.join(arguments)});")
        for one, direction in chosen.items() if self.is_started else ():
            self.pending[one] = "r" if direction == "input" and self.pending.get(one, "r") == "r" else "w"

    def argument(self, numbers):
        if numbers is None:
            return self.value(2)
        return str(numbers[0] if not self.wild(6) else self.pick([0, numbers[0] - 1, numbers[0] + 1, -1, 1 << 30]))

    def pointer(self, one):
        if self.wild(2):
            return self.pick(["NULL", f"{one.pointer} + 100000"] + [f"{one.pointer} + 1", f"{one.pointer} - 1"] * 3)
        return one.pointer

    def store(self):
        free = [it for it in self.objects if self.wild(6) or self.pending.get(it) != "w"]
        if not free:
            return
        it = self.pick(free)
        self.assign(it.at(str(self.between(0, it.shape.count - 1))))
        if self.taken is None or it not in self.taken:
            self.pending.pop(it, None)

    def wait(self):
        them = self.random.sample(self.objects, self.between(1, min(2, len(self.objects))))
        words = [it.pointer for it in them] + ["(char *)(1 / 0)"] * self.wild(8)
        self.directive(f"wait on({', '.join(words)})")
        for it in them:
            self.pending.pop(it, None)

    def print(self):
        kinds = {"%d": "int", "%u": "unsigned", "%x": "unsigned", "%lld": "long long", "%c": "int"}
        formats = [self.pick(kinds) for _ in range(self.between(1, 3))]
        them = [f"({kinds[it]})({self.value(2)})" for it in formats]
        text = " ".join(formats) + self.pick(["\\n", "%% ", "\\t|"])
        kind = self.between(0, 9)
        self.put(f'printf("{text}", {", ".join(them)});' if kind < 7 else f"putchar({self.value(2)});" if kind < 9 else 'puts("so far");')

    def show(self, it):
        if self.pending.get(it) == "w" and not self.wild(12) or it.shape.count > 100:
            return
        self.over(it.shape.count, lambda i: self.put(f'printf("%lld ", (long long){it.at(i)});'))

    def input(self):
        if self.places and self.chance(70):
            self.put(f"{self.pick(self.places)} = getchar();")
        else:
            name = self.fresh("c")
            self.put(f"int {name};")
            self.put(f"while (({name} = getchar()) != EOF && {name} > 127) putchar({name});")

    def main_loop(self, level):
        before = self.taken
        among = self.objects if before is None else before
        self.taken = self.random.sample(among, (len(among) + 1) // 2)
        if self.is_started:
            self.pending.update({it: "w" for it in self.taken})
        # The body may run no times, so what it waits for stays pending behind it.
        left = dict(self.pending)
        self.loop(lambda: [self.statement(level - 1) for _ in range(self.between(1, 3))])
        self.pending = left
        self.taken = before

    def main_branch(self, level):
        before, after = dict(self.pending), [dict(self.pending)]

        def body():
            self.pending = dict(before)
            self.statement(level - 1)
            after.append(self.pending)
        self.branch(body)
        self.pending = {}
        for it in after:
            self.pending.update({one: "w" if "w" in (how, self.pending.get(one)) else how for one, how in it.items()})
