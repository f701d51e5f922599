"""The passes over a parsed source, and what one finds out for the next."""
import re
import sys

from pycparser import c_ast as A
from pycparser import c_parser

from adapting.calls import Calls
from adapting.declarations import Declarations
from adapting.expressions import Expressions
from adapting.initialisers import Initialisers
from adapting.kinds import Symbol, Type, is_ours, walk, without_const
from adapting.names import Names
from adapting.output import Generator, helpers, marked
from adapting.paths import PREDECLARED
from adapting.statements import Statements
from adapting.types import Types


class Adapter(Names, Types, Expressions, Calls, Initialisers, Declarations, Statements):
    """One pass over a parsed source. `known` is what the pass before found out: see `Known`."""

    def __init__(self, tree, names, known):
        self.tree, self.used, self.known = tree, set(names), known
        self.found = Known()
        self.out, self.notes, self.faults = [], [], []
        self.scopes = [{name: Symbol("typedef", Type("int", words), name) for name, words in PREDECLARED.items()}]
        self.tags = [{}]
        self.structs = {}  # tag: members, as (name, Type)
        self.helpers, self.dispatchers, self.made = [], {}, {}
        self.function, self.result, self.at = None, None, None
        self.keep = []  # nodes whose identity is in `made`
        self.whole, self.dropped = None, set()  # the expression that is a statement; those whose values are dropped
        self.tails = {}  # what stands from a label of the function to its end
        self.result_name = None  # the parameter through which the function gives a struct
        self.before = None  # declarations that a statement needs before it
        self.bodies = {e.decl.name for e in tree.ext if isinstance(e, A.FuncDef)}

    # The whole

    def run(self):
        for node in self.tree.ext:
            self.at = getattr(node, "coord", None) or self.at
            if isinstance(node, A.FuncDef):
                self.function_definition(node)
            elif isinstance(node, (A.Decl, A.Typedef)):
                made = self.declaration(node)
                self.out += made
            elif isinstance(node, A.Pragma):
                self.do_Pragma(node)
            elif isinstance(node, A.StaticAssert):
                self.do_StaticAssert(node)
        if "main" not in self.bodies:
            self.cannot(None, "there is no main")
        return self

    def printed(self):
        generator, parts = Generator(), []
        if self.known.numbers:
            names = ", ".join(f"{n} = {i + 1}" for i, n in enumerate(self.known.numbers.values()))
            parts.append(f"\x01\nenum {{ {names} }};\n")
        if "adapt_signed" in self.helpers:
            self.need("adapt_number")
        parts += ["\x01\n" + text for name, text in helpers().items() if name in self.helpers]
        parts += [generator.external(node) for node in self.out]
        for type_, name in self.dispatchers.values():
            parts.append("\x01\n" + self.dispatcher_body(type_, name))
        return marked("".join(parts))


class Known:
    """What one pass finds out for the next: which types are passed for a void *, which functions' addresses are taken, who
    calls whom."""

    def __init__(self):
        self.first = False
        self.passed, self.taken, self.calls = {}, set(), {}
        self.given, self.why, self.numbers, self.reached, self.names = {}, {}, {}, set(), set()

    def __deepcopy__(self, memo):
        new = Known()
        new.passed = {k: list(v) for k, v in self.passed.items()}
        new.taken, new.calls = set(self.taken), {k: set(v) for k, v in self.calls.items()}
        return new

    def facts(self):
        given = {key: str(type_) for key, type_ in self.given.items()}
        return given, self.why, sorted(self.numbers), self.reached

    def call(self, caller, callee):
        self.calls.setdefault(caller, set()).add(callee)

    def settle(self, names, used):
        """What follows of what was found."""
        for key, types in self.passed.items():
            first = without_const(types[0][0])
            if first.kind == "void":
                continue
            if all(first.same(t) for t, _ in types):
                self.given[key] = first
            else:
                others = sorted({str(without_const(t)) for t, _ in types})
                self.why[key] = "calls pass " + " and ".join(others)
        for function in sorted(self.taken):
            name = f"number_of_{function}"
            while name in names:
                name += "_"
            self.numbers[function] = name
        todo = [f for f in list(self.calls) if f] + list(self.taken) + ["main"]
        users = [f for f in used if f not in self.calls]
        self.reached = set()
        todo = [f for f in todo if f in used] + users + list(self.taken)
        while todo:
            function = todo.pop()
            if function not in self.reached:
                self.reached.add(function)
                todo += self.calls.get(function, ())


def adapted(text, source):
    """The adapted text, or None; notes and faults are told."""
    parse = c_parser.CParser().parse
    tree = parse(text, source)
    names = set(re.findall(r"[A-Za-z_]\w*", text))
    used = [e.decl.name for e in tree.ext if isinstance(e, A.FuncDef) and not is_ours(e)]
    user_names = set()
    for node in tree.ext:
        if not is_ours(node):
            user_names |= {n for x in walk(node) if isinstance(x, A.IdentifierType) for n in x.names}
    known = Known()
    known.first, known.names = True, user_names
    for _ in range(8):
        adapter = Adapter(parse(text, source), names, known).run()
        found = adapter.found
        found.names = user_names
        found.settle(names, used)
        if not known.first and found.facts() == known.facts():
            break
        known = found
    for place, told in adapter.notes + adapter.faults:
        print(f"{place}: {told}", file=sys.stderr)
    return None if adapter.faults else adapter.printed()
