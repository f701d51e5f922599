"""What is told, names, values of constant expressions, and sizes."""
from pycparser import c_ast as A

from adapting.dry import Dry
from adapting.kinds import SIZES, character


class Names:
    """What is told, names, values of constant expressions, and sizes."""

    def note(self, node, text):
        self.tell(self.notes, node, text)

    def cannot(self, node, text):
        self.tell(self.faults, node, "cannot: " + text)

    def tell(self, place, node, text):
        at = getattr(node, "coord", None) or self.at
        line = (f"{at.file}:{at.line}" if at else "?", text)
        if line not in place:
            place.append(line)

    # Names

    def fresh(self, name):
        tried, n = name, 1
        while tried in self.used:
            n += 1
            tried = f"{name}_{n}"
        self.used.add(tried)
        return tried

    def local(self, name):
        """A name for what goes to file scope from the function that is read."""
        return self.fresh(f"{self.function}_{name}" if self.function else name)

    def look(self, name):
        for scope in reversed(self.scopes):
            if name in scope:
                return scope[name]
        return None

    def look_tag(self, tag):
        for scope in reversed(self.tags):
            if tag in scope:
                return scope[tag]
        return None

    def is_file_scope(self):
        return len(self.scopes) == 1

    # Constants and sizes

    def value(self, node):
        """The value of an integer constant expression, or None."""
        if isinstance(node, A.Constant) and node.type.endswith("int"):
            return self.number(node)
        if isinstance(node, A.Constant) and node.type == "char":
            return character(node.value)
        if isinstance(node, A.ID):
            symbol = self.look(node.name)
            return symbol.value if symbol and symbol.kind == "constant" else None
        if isinstance(node, A.UnaryOp) and node.op == "sizeof":
            if isinstance(node.expr, A.Typename):
                return self.size(self.type_of(node.expr.type))
            return self.size(Dry(self).expression(node.expr))
        if isinstance(node, A.UnaryOp):
            a = self.value(node.expr)
            return None if a is None else {"-": -a, "+": a, "~": ~a, "!": int(not a)}.get(node.op)
        if isinstance(node, A.BinaryOp):
            return self.binary_value(node)
        if isinstance(node, A.TernaryOp):
            test = self.value(node.cond)
            return None if test is None else self.value(node.iftrue if test else node.iffalse)
        if isinstance(node, A.Cast):
            return self.value(node.expr)
        return None

    def binary_value(self, node):
        a, b = self.value(node.left), self.value(node.right)
        if a is None or b is None or (node.op in "/%" and b == 0):
            return None
        return {
            "+": lambda: a + b, "-": lambda: a - b, "*": lambda: a * b, "/": lambda: int(a / b), "%": lambda: a - b * int(a / b),
            "<<": lambda: a << b, ">>": lambda: a >> b, "&": lambda: a & b, "|": lambda: a | b, "^": lambda: a ^ b,
            "<": lambda: int(a < b), ">": lambda: int(a > b), "<=": lambda: int(a <= b), ">=": lambda: int(a >= b),
            "==": lambda: int(a == b), "!=": lambda: int(a != b), "&&": lambda: int(bool(a and b)), "||": lambda: int(bool(a or b)),
        }[node.op]()

    @staticmethod
    def number(node):
        digits = node.value.lower().rstrip("ul")
        if digits.startswith("0b"):
            return int(digits[2:], 2)
        return int(digits, 16) if digits.startswith("0x") else int(digits, 8 if digits.startswith("0") else 10)

    def align(self, type_):
        if type_.kind == "array":
            return self.align(type_.to)
        if type_.kind == "struct":
            return max([self.align(t) for _, t in self.structs.get(type_.name, [])] or [1])
        return self.size(type_) or 1

    def size(self, type_):
        if type_ is None:
            return None
        if type_.kind == "int":
            return SIZES.get(type_.name)
        if type_.kind == "bool":
            return 1
        if type_.kind == "pointer":
            return 4
        if type_.kind == "array":
            each = self.size(type_.to)
            return None if each is None or type_.length is None else each * type_.length
        if type_.kind == "struct" and type_.name in self.structs:
            end, widest = 0, 1
            for _, member in self.structs[type_.name]:
                align, size = self.align(member), self.size(member)
                if size is None:
                    return None
                end, widest = -(-end // align) * align + size, max(widest, align)
            return -(-end // widest) * widest
        return None
