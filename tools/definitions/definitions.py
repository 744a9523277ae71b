"""Evaluates the definitions of `crates/*/specs/*.antt` from their text, so that they can be tried on outside tests.

    ev = load(root)                                            # the top of the repository
    step = ev.get("typst_html_encode.specs.Reader", "step")    # takes all its arguments at once
    state = ev.get("typst_html_encode.specs.Reader", "Outside")(Con("None"))
    for c in codes("<p>"): state = step(state, c)

What a `use` line names is read from its text too: in `crates/`, and else in the toolchain's folder, KIT. A definition
becomes a Python function when it is first asked for, with all that it needs. NATIVE gives some as Python instead: what
has no clauses, and what would be slow; `load` takes more, and `definitions_check.py` compares them with their clauses.

Values: a number is an `int`, a Bool a `bool`, a list and a pair are tuples, a text is the list of its codes. A
constructor's value is a `Con` with `.tag` and `.args` (and a tuple of these two); but a type like `Plains`, with an
empty value and one of a first and a rest, is a tuple, like a list. A record has its fields as attributes (`attribute`
has their names); `ev.record(name=.., ..)` makes one, and records with the same fields are of one class. A function
among arguments, in a field or as a result takes its arguments one by one. `show` makes a value readable.

Refused once it is asked for, with a `Wrong` that names file and line: types and proofs, `where` under a clause, `open`,
`do`, `unfold .. in`, globs, operators other than `◌name◌`, their sections, numerals in patterns, infix constructors
other than `∷` in patterns, Rust's constants, a name of two things. Types are not checked, and what `rt check` refuses
may pass here. `if`, `cond`, `elim`, `&&` and `||` compute what they need, and all else its arguments. A definition that
calls itself at its end is a loop. Other recursion is Python's, of which `load` raises the limit; each step of it keeps
its values, so that a state with a long text at each of many steps takes much memory: fold over `step` instead.
"""

import re
import resource
import sys
from collections import namedtuple

from antt_text import LIBRARIES, RESERVED, Def, Library, Maker, Module, Types, Wrong, attribute, behind, pattern, split
from definitions_native import FIXITY, NATIVE, Con, codes, curry, div, get_or, mod, no_clause, show, text_of
from tail_calls import looped

NUMERAL = re.compile(r"0x[0-9a-fA-F_]+|0b[01_]+|0o[0-7_]+|[0-9][0-9_]*")
ESCAPE = re.compile(r"\\(?:x([0-9a-fA-F]{2})|u\{([0-9a-fA-F_]+)\}|(.))")


def rest_of(text):
    """Returns the list and the index of the Python `xs[i:]`."""
    found = re.fullmatch(r"(.*)\[([^\[\]]+):\]", text) if text.endswith(":]") else None
    return found and found.groups()


def following(place):
    """Returns the index after an index in a list, as Python."""
    start, plus, number = place.rpartition("+ ")
    return f"{start}{plus}{int(number) + 1}" if number.isdigit() else f"{place} + 1"


class Compiler:
    """Reads the clauses of a definition, and makes Python of them: a call, a name or what stands in brackets."""

    def __init__(self, ev, d):
        self.ev, self.d, self.module, self.names, self.toks, self.at, self.in_test = ev, d, d.module, 0, [], 0, False
        self.section = {n: f"p{i}" for i, (_, n) in enumerate(d.section)}
        self.env = dict(self.section)  # the Python of each variable

    def compile(self):
        ev, d, name, clauses = self.ev, self.d, f"d{len(self.ev.globals)}_{attribute(self.d.name)}", []
        for self.toks in d.clauses:
            left = split(self.toks, "=")[0]
            sides = split(left, d.name.strip("◌"))  # of an operator
            if left[0].text != d.name and len(sides) != 2:
                self.wrong("no clause of it")
            pats = pattern(left)[1] if left[0].text == d.name else list(map(pattern, sides))
            clauses.append((self.toks, len(left) + 1, pats))
        if len({len(pats) for _, _, pats in clauses}) != 1:
            self.wrong("no clauses, or with different numbers of arguments")
        args, lists = [*self.section.values(), *(f"a{i}" for i in range(len(clauses[0][2])))], {}
        for i, pats in enumerate(zip(*(pats for _, _, pats in clauses)), len(self.section)):
            makers = [self.find(head[0], head[1:]) for head, _ in pats if head and head != "("]
            if any(isinstance(m, Maker) and m.kind in ("cons", "()") for m in makers):
                lists[i] = f"o{i}"  # an argument that is a list comes with a place, from where on it is meant
        places = [f"{a}[{lists[i]}:]" if i in lists else a for i, a in enumerate(args)][len(self.section):]
        ev.globals[name], ev.python[d], ev.lists[d], cases = None, (len(args), name), lists, []
        try:
            for self.toks, self.at, pats in clauses:
                cases.append(self.case(zip(pats, places), self.expr))
                if self.word:
                    self.take("the end")
            names = ", ".join([*args, *["*"][:len(lists)], *(f"{place}=0" for place in lists.values())])
            text, where = f"lambda {names}: {self.choice(cases, args)}", f"{self.module.file}:{d.line}:{d.name}"
            if loop := looped(text, name) if f"{name}(" in text else None:
                exec(compile(loop, where, "exec"), ev.globals)
            else:
                made = eval(compile(text, where, "eval"), ev.globals)
                ev.globals[name] = made if args else made()
        except Exception as error:
            del ev.python[d]
            raise error if isinstance(error, Wrong) else Wrong(f"{self.module.file}:{d.line}: {d.name}: {error!r}") from error

    def wrong(self, what):
        raise Wrong(f"{self.module.file}:{self.line}: {what}, in {self.d.name}")

    @property
    def line(self): return self.toks[min(self.at, len(self.toks) - 1)].line if self.toks else self.d.line
    @property
    def word(self): return self.toks[self.at].text if self.at < len(self.toks) else ""

    def take(self, word=None):
        if not self.word or word and word != self.word:
            self.wrong(f"cannot parse {self.word or 'the end'}, where {word or 'more'} is due")
        self.at += 1
        return self.toks[self.at - 1].text

    def until(self, word):
        """Takes and returns the tokens before that word."""
        found = split(self.toks[self.at:], word)[0]
        self.at += len(found)
        self.take(word)
        return found

    def fresh(self):
        self.names += 1
        return f"x{self.names}"

    def find(self, word, fields):
        """Returns the meaning of a name that is no variable; takes the fields that lead there."""
        try:
            here = self.module.modules.get(word) if fields else None
            thing = self.ev.library.space(here) if here else self.module.lookup(word, self.d.line)
            while fields and isinstance(thing, (Types, Module)):
                thing = thing.lookup(fields.pop(0))
            return thing
        except Wrong as wrong:
            self.wrong(wrong)

    # -- patterns

    def match(self, pat, at, tests):
        """Adds the conditions for the value to match, and the meanings of the variables."""
        head, args = pat
        thing = self.find(head[0], head[1:]) if head and head != "(" else None
        if head == "(":
            inner = [f"{at}[{i}]" for i in range(len(args))]
        elif not isinstance(thing, Maker):
            if len(head) != 1 or args or NUMERAL.fullmatch(head[0]) or head[0] in RESERVED:
                self.wrong(f"cannot read the pattern {'.'.join(head)} ..")
            self.env[head[0]], inner = at, []
        elif len(args) != len(thing.types):
            self.wrong(f"{thing.tag} takes other arguments")
        else:
            base, skip = rest_of(at) or (at, "0")
            tests.append({"con": f"{at}.tag == {thing.tag!r}", "cons": f"len({base}) > {skip}", "suc": f"{at} > 0",
                          "()": f"len({base}) <= {skip}", "0": f"{at} == 0", "True": at, "False": f"not {at}"}[thing.kind])
            inner = {"cons": [f"{base}[{skip}]", f"{base}[{following(skip)}:]"], "suc": [f"({at} - 1)"]}.get(
                thing.kind, [f"{at}.args[{i}]" for i in range(len(args))])
        for part, place in zip(args, inner):
            self.match(part, place, tests)

    def case(self, pats, body):
        """Returns the result and the condition of a case, with the variables of its patterns."""
        before, tests = self.env, []
        self.env = dict(before)
        for pat, at in pats:
            self.match(pat, at, tests)
        result = body()
        self.env = before
        return result, " and ".join(tests)

    def choice(self, cases, values):
        """Returns the Python of the first case that holds."""
        out = ""
        for result, tests in cases:
            if not tests:
                return out + result
            out += f"{result} if {tests} else "
        return out + f"no_clause({f'{self.module.file}:{self.d.line}: {self.d.name}'!r}, {', '.join(values)})"

    # -- expressions

    def nested(self, in_test=False):
        """Reads an expression with an end of its own; up to the `then` of an `if`, that word is no operator."""
        before, self.in_test = self.in_test, in_test
        result = self.expr()
        self.in_test = before
        return result

    def ends(self): return self.word in RESERVED or self.word == "then" and self.in_test

    def operator(self):
        """Returns the operator that comes next, with its fixity, which its home declares."""
        name, known = f"◌{self.word}◌", self.module
        if self.ends() or name not in known.own and name not in known.uses:
            return None
        thing = self.find(name, [])
        return (thing, *thing.module.fixity[name]) if name in thing.module.fixity else None

    def expr(self, floor=0):
        left, last = self.operand(), None
        while (found := self.operator()) and found[1] >= floor:
            thing, level, way = found
            self.take()
            right = self.expr(level + (way != "infixr"))
            left = left[1:-1] if thing is last and left[0] == "(" else left
            left, last = self.call(thing, [left, right]), thing
        return left

    def operand(self):
        word = self.word
        if word == "λ":
            self.take()
            pats = pattern([self.toks[self.at - 1]] + self.until("."))[1]
            names = [self.fresh() for _ in pats]
            body = self.choice([self.case(zip(pats, names), self.expr)], names)
            return f"({''.join(f'lambda {name}: ' for name in names)}{body})"
        if word == "if":
            self.take()
            test = self.nested(in_test=True)
            self.take("then")
            yes = self.nested()
            self.take("else")
            return f"({yes} if {test} else {self.expr(6)})"
        if word in ("let", "elim"):
            return self.elim(self.take())
        thing, result = self.atom()
        args = []
        while not self.ends() and not self.operator():
            if self.word == "{":  # an implicit argument
                self.at = behind(self.toks, self.at)
            else:
                args.append(self.operand() if self.word in ("λ", "let") else self.value())
        return result + "".join(f"({a})" for a in args) if thing is None else self.call(thing, args)

    def elim(self, word):
        """Reads what is behind `elim` or `let`, which is an `elim` with one case."""
        name, cases = self.fresh(), []
        if word == "let":
            pat = pattern(split(self.until("="), ":")[0])
            value = self.nested()
            self.take("in")
            cases.append(self.case([(pat, name)], self.expr))
        else:
            value = self.value()
            if self.word == "as":
                self.at = behind(self.toks, self.at + 1)
            self.take("[")
            if self.word == "|":
                self.take()
            while self.word != "]":
                cases.append(self.case([(pattern(self.until("↦")), name)], self.nested))
                if self.word != "]":
                    self.take("|")
            self.take()
        return f"({name} := {value}, {self.choice(cases, [name])})[1]"

    def value(self):
        thing, result = self.atom()
        return result if thing is None else self.call(thing, [])

    def atom(self):
        """Returns the meaning of a name, or else the Python of an atom."""
        word, thing, result, fields = self.take(), None, None, []
        if word == "(":
            inner = [self.nested()]
            while self.word == ",":
                self.take()
                inner += [self.nested()] if self.word != ")" else []
            self.take(")")
            result = f"({', '.join(inner)})" if inner[1:] else inner[0]
        elif word == "record":
            result = self.record(None if self.word == "{" else self.value())
        elif word[0] == '"' and word[1:]:
            result = repr(codes(ESCAPE.sub(lambda m: {"n": "\n", "r": "\r", "t": "\t", "0": "\0"}.get(m[3], m[3]) or
                                           chr(int((m[1] or m[2]).replace("_", ""), 16)), word[1:-1])))
        elif NUMERAL.fullmatch(word):
            result = str(int(word.replace("_", ""), 0))
        elif word in RESERVED or word[0] in '"«»':
            self.wrong(f"cannot parse {word}")
        while self.word == "." and all(t.glued for t in self.toks[self.at:self.at + 2]):
            self.take()
            fields.append(self.take())
        if result is None and word in self.env and word != "_":
            result = self.env[word]
        elif result is None and (thing := self.find(word, fields)) is None:
            self.wrong(f"unknown name {word}")
        if fields:
            result, thing = self.call(thing, []) if thing else result, None
            result += "".join(f"[{f}]" if f.isdigit() else f".{attribute(f)}" for f in fields)
        return thing, result

    def record(self, base):
        fields = {}
        self.take("{")
        while self.word != "}":
            name = attribute(self.take())
            self.take("=")
            fields[name] = self.nested()
            if self.word != "}":
                self.take(";")
        self.take()
        if all(map(str.isdigit, fields)) and not base:  # `record { 0 = a; 1 = b }` is `(a, b)`
            return "(" + "".join(f"{fields[name]}, " for name in sorted(fields, key=int)) + ")"
        given = ", ".join(f"{name}={value}" for name, value in fields.items())
        return f"{base}._replace({given})" if base else f"{self.ev.record_class(fields)}({given})"

    def call(self, thing, args):
        if not isinstance(thing, (Def, Maker)):
            self.wrong("a type or a module as a value")
        own = thing.section if isinstance(thing, Def) and thing.module is self.module else ()
        if own and self.d.section[:len(own)] == own:  # inside a section, with its parameters
            args = [self.section[n] for _, n in own] + args
        n, code = self.ev.function(thing)
        if len(args) < n:
            return f"curry({', '.join([code, str(n), *args])})"
        return (self.ev.make(thing, args[:n]) if n else code) + "".join(f"({a})" for a in args[n:])


class Definitions:
    def __init__(self, root, native, without):
        self.library, self.records, self.python, self.lists = Library(root), {}, {}, {}
        self.globals = {f.__name__: f for f in (Con, codes, text_of, div, mod, get_or, curry, no_clause)}
        self.native = {q: code for q, code in (NATIVE | native).items() if q not in without}
        for q, f in [(q, f) for q, f in self.native.items() if callable(f)]:
            self.native[q] = f"{self.constant(f)}({', '.join(f'{{{i}}}' for i in range(f.__code__.co_argcount))})"
        if "Prim.Native.Nat" not in self.library.spaces:
            numbers = self.library.spaces["Prim.Native.Nat"] = Module("Prim.Native.Nat", None, None)
            names = [q.removeprefix("Prim.Native.Nat.") for q in NATIVE if q.startswith("Prim.Native.Nat.")]
            numbers.own = {n: [Def(numbers, n, [], (), 0)] for n in names} | {"ℕ": [Types()]}
            numbers.own |= {"zero": [Maker("zero", "0", (), numbers)], "suc": [Maker("suc", "suc", ((),), numbers)]}
            numbers.fixity = FIXITY

    def get(self, module, name):
        """Returns a definition or a constructor, as a function of all its arguments or as a value."""
        path = module.split(".")
        space = self.library.space(path if path[0] in [*LIBRARIES, "Rattle"] else ["Rattle", *path])
        thing = space.lookup(name) if space else None
        if not isinstance(thing, (Def, Maker)):
            raise Wrong(f"{module} has no definition or constructor {name}")
        n, code = self.function(thing)
        f, total = eval(code, self.globals), len(thing.types) + len(getattr(thing, "section", ()))

        def whole(*args):
            r = f(*args[:n]) if n else f
            for a in args[n:]:
                r = r(a)
            return r
        return f if n == total else whole

    def record(self, **fields): return self.globals[self.record_class(fields)](**fields)

    # -- from definitions to Python

    def constant(self, value):
        name = f"k{len(self.globals)}"
        self.globals[name] = value
        return name

    def record_class(self, fields):
        key = frozenset(fields)
        if key not in self.records:
            self.records[key] = self.constant(namedtuple("Record", fields))
        return self.records[key]

    def function(self, thing):
        """Returns the number of arguments it takes at once, and the Python of it as a function or a value."""
        if thing not in self.python and isinstance(thing, Def) and thing.full not in self.native:
            Compiler(self, thing).compile()
        elif thing not in self.python:
            n = len(thing.types) if isinstance(thing, Maker) else len(set(re.findall(r"\{\d\}", self.native[thing.full])))
            args = [f"a{i}" for i in range(n)]
            made = eval(f"lambda {', '.join(args)}: {self.make(thing, args)}", self.globals)
            self.python[thing] = n, self.constant(made if n else made())
        return self.python[thing]

    def make(self, thing, args):
        """Returns the Python of a value with all its arguments."""
        if isinstance(thing, Def) and thing.full in self.native:
            return self.native[thing.full].format(*args)
        if isinstance(thing, Def):  # a list from a place on is not cut where the function takes the place too
            cut = {i: found for i in self.lists[thing] if (found := rest_of(args[i]))}
            given = [cut[i][0] if i in cut else arg for i, arg in enumerate(args)]
            return f"{self.python[thing][1]}({', '.join(given + [f'{self.lists[thing][i]}={cut[i][1]}' for i in cut])})"
        if thing.kind == "cons":
            whole = rest_of(f"{args[0][:-1]}:]") if args[0][-1] == "]" else None  # of `x ∷ xs` that was taken apart
            if whole and args[1] == f"{whole[0]}[{following(whole[1])}:]":
                return f"{args[0][:-1]}:]"
            rest = args[1][1:] if args[1] == "()" or args[1][0] == "(" and args[1][-2:] == ",)" else f"*{args[1]},)"
            return f"({args[0]},{rest}"
        return {"con": f"Con({thing.tag!r}, ({''.join(a + ', ' for a in args)}))", "suc": f"({''.join(args)} + 1)"}.get(
            thing.kind, thing.kind)


def load(root, native={}, without=()):
    """`native`: more for NATIVE, as its texts or as functions; `without`: what is removed from it."""
    sys.setrecursionlimit(10**6)
    soft, hard = resource.getrlimit(resource.RLIMIT_STACK)
    if 0 <= soft < 10**8 and (hard < 0 or hard >= 10**8):
        resource.setrlimit(resource.RLIMIT_STACK, (10**8, hard))
    return Definitions(str(root), native, without)
