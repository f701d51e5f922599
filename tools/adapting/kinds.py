"""Types with their typedef names resolved, symbols, and small questions to nodes of the parser's tree."""
import copy
import os
import re

from pycparser import c_ast as A

from adapting.paths import INCLUDE

SIZES = {"char": 1, "signed char": 1, "short": 2, "unsigned short": 2,
         "int": 4, "unsigned int": 4, "long": 4, "unsigned long": 4}

COMPARISONS = ("<", ">", "<=", ">=", "==", "!=", "&&", "||")


class Type:
    """A type, with typedef names resolved. kind is void, int, bool, float, pointer, array, struct, union, function."""

    def __init__(self, kind, name=None, to=None, length=None, params=None, is_const=False, variadic=False):
        self.kind, self.name, self.to, self.length = kind, name, to, length
        self.params, self.is_const, self.variadic = params, is_const, variadic

    def same(self, other):
        """Whether both are one type, const aside."""
        if self.kind != other.kind:
            return False
        if self.kind in ("int", "struct", "union", "float"):
            return self.name == other.name
        if self.kind == "array":
            return self.length == other.length and self.to.same(other.to)
        if self.kind == "function":
            return (self.to.same(other.to) and len(self.params) == len(other.params)
                    and all(a.same(b) for a, b in zip(self.params, other.params)))
        return self.to is None or self.to.same(other.to)

    def is_arithmetic(self):
        return self.kind in ("int", "bool")

    def is_function_pointer(self):
        return self.kind == "pointer" and self.to.kind == "function"

    def is_null_type(self):
        return self.kind == "pointer" and self.to.kind == "void"

    def __str__(self):
        const = "const " if self.is_const else ""
        if self.kind == "pointer":
            return f"{self.to} *{' const' if self.is_const else ''}"
        if self.kind == "array":
            return f"{self.to} [{'' if self.length is None else self.length}]"
        if self.kind == "function":
            return f"{self.to} ({', '.join(map(str, self.params))})"
        if self.kind in ("struct", "union"):
            return f"{const}{self.kind} {self.name}"
        return const + (self.name or self.kind)


INT, UNSIGNED, CHAR, VOID = Type("int", "int"), Type("int", "unsigned int"), Type("int", "char"), Type("void")


def pointer_to(to, is_const=False):
    return Type("pointer", to=to, is_const=is_const)


def with_const(given):
    changed = copy.copy(given)
    changed.is_const = True
    return changed


def without_const(given):
    changed = copy.copy(given)
    changed.is_const = False
    return changed


class Symbol:
    def __init__(self, kind, type_, name, value=None):
        self.kind, self.type, self.name, self.value = kind, type_, name, value


def is_null(node):
    return isinstance(node, A.Constant) and node.type == "int" and node.value.rstrip("uUlL") == "0"


def is_string(node):
    return isinstance(node, A.Constant) and node.type == "string"


def string_length(node):
    """How many bytes a string has, without the zero byte."""
    return len(re.sub(r"\\([0-7]{1,3}|x[0-9a-fA-F]+|.)", "c", node.value[1:-1]).encode("latin-1", "replace"))


def is_truth(node):
    if isinstance(node, A.BinaryOp):
        return node.op in COMPARISONS
    if isinstance(node, A.UnaryOp):
        return node.op == "!"
    if isinstance(node, A.TernaryOp):
        return is_truth(node.iftrue) and is_truth(node.iffalse)
    return isinstance(node, A.Constant) and node.value in ("0", "1")


def is_ours(node):
    at = getattr(node, "coord", None)
    return bool(at and at.file and os.path.realpath(at.file).startswith(INCLUDE + os.sep))


def identifiers(node):
    found = {node.name} if isinstance(node, A.ID) else set()
    for _, child in node.children():
        found |= identifiers(child)
    return found


def chain_of(node):
    n = 0
    while isinstance(node, A.If):
        node, n = node.iffalse, n + 1
    return n


def leaves(node):
    """Whether a statement has a break or continue that leaves it."""
    if isinstance(node, (A.Break, A.Continue)):
        return True
    if isinstance(node, (A.While, A.DoWhile, A.For)):
        return False
    if isinstance(node, A.Switch):
        return any(isinstance(n, A.Continue) for n in walk(node))
    return any(leaves(child) for _, child in node.children())


def walk(node):
    yield node
    for _, child in node.children():
        yield from walk(child)


def character(text):
    inner = text[1:-1]
    if not inner.startswith("\\"):
        return ord(inner) if len(inner) == 1 else None
    simple = {"n": 10, "t": 9, "r": 13, "a": 7, "b": 8, "f": 12, "v": 11, "\\": 92, "'": 39, '"': 34, "?": 63}
    if inner[1] in simple:
        return simple[inner[1]]
    return int(inner[2:], 16) if inner[1] == "x" else int(inner[1:], 8)
