"""Compares what NATIVE of `definitions.py` has with the clauses, at small random values; names what cannot be compiled.

    definitions_check.py ROOT              each definition of NATIVE, and how the comparison went
    definitions_check.py ROOT MODULE ..    what of these modules is no type, and is refused, with the reason
"""

import sys
from random import Random

from antt_text import Def, Types, Wrong, arrows, attribute, behind, split
from definitions import NATIVE, curry, load, show


def sample(ev, toks, module, rng, depth=3):
    """Returns a small random value of a type; of an unknown one, a number."""
    while toks and toks[0].text == "(" and behind(toks, 0) == len(toks):
        toks = toks[1:-1]
    args, result = arrows(toks)
    product = split(toks, "×")
    if args:  # a function that gives the same for the same
        seed = rng.random()
        return curry(lambda *got: sample(ev, result, module, Random(f"{seed}{got!r}")), len(args))
    if len(product) > 1:
        return tuple(sample(ev, part, module, rng, depth) for part in product)
    if toks and toks[0].text == "List":
        return tuple(sample(ev, toks[1:], module, rng, depth - 1) for _ in range(rng.randrange(5)))
    kind = module.lookup(toks[0].text) if toks else None
    if isinstance(kind, Def) and not kind.types and kind.clauses:  # another name of a type
        return sample(ev, kind.clauses[0][2:], kind.module, rng, depth)
    if isinstance(kind, Types) and kind.fields:
        return ev.record(**{attribute(n): sample(ev, type_, kind.module, rng, depth - 1) for n, type_ in kind.fields})
    if not isinstance(kind, Types) or not kind:
        return rng.choice([0, 0, 1, 1, 2, 3, 32, 32, 65, 300])
    makers = sorted(kind.values(), key=lambda maker: len(maker.types))
    maker = rng.choice(makers if depth > 0 else makers[:1])
    values = [sample(ev, type_, maker.module, rng, depth - 1) for type_ in maker.types]
    made = eval(ev.function(maker)[1], ev.globals)
    return made(*values) if values else made


def check(root, full, native={}, samples=200):
    """Returns how the comparison of one definition goes; `native` as for `load`."""
    path, _, name = full.rpartition(".")
    quick, plain, rng = load(root, native), load(root, native, {full}), Random(full)
    try:
        f, g = quick.get(path, name), plain.get(path, name)
        home = plain.library.space(path.split("."))
        for _ in range(samples):
            args = [sample(plain, type_, home, rng) for type_ in home.lookup(name).types]
            if f(*args) != g(*args):
                return f"NOT THE SAME at {show(tuple(args))}: {show(f(*args))}, and by its clauses {show(g(*args))}"
    except Wrong as wrong:
        return f"not compared: {wrong}"
    return f"the same at {samples} values"


def refused(root, module):
    """Returns what is refused in a module, with the reasons, except definitions into a `Type`."""
    ev, found = load(root), {}
    for d in [d for some in ev.library.space(["Rattle", *module.split(".")]).own.values() for d in some]:
        try:
            if isinstance(d, Def) and d.result[0].text != "Type":
                ev.function(d)
        except Wrong as wrong:
            found[d.name] = str(wrong)
    return found


def main(root, *modules):
    for full in NATIVE if not modules else ():
        print(f"{full}: {check(root, full)}")
    for module in modules:
        for name, reason in refused(root, module).items():
            print(f"{module}.{name}: {reason}")


if __name__ == "__main__":
    main(*sys.argv[1:])
