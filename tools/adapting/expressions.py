"""Expressions, and conversions of their values: each method gives the node in its place and its type."""
import re

from pycparser import c_ast as A

from adapting.kinds import CHAR, COMPARISONS, INT, SIZES, Symbol, Type, UNSIGNED, is_null, is_truth, pointer_to, walk, with_const, without_const

INCREMENTS = ("++", "--", "p++", "p--")


class Expressions:
    """Expressions, and conversions of their values: each method gives the node in its place and its type."""

    def expression(self, node):
        method = getattr(self, "on_" + type(node).__name__, None)
        if method is None:
            self.cannot(node, f"an expression of the kind {type(node).__name__}")
            return node, INT
        return method(node)

    def rvalue(self, node):
        new, type_ = self.expression(node)
        return new, self.decayed(type_)

    @staticmethod
    def decayed(type_):
        if type_.kind == "array":
            return pointer_to(type_.to)
        return pointer_to(type_) if type_.kind == "function" else type_

    def on_Constant(self, node):
        if node.type == "string":
            if not node.value.startswith('"'):
                self.cannot(node, "a string of wide characters")
            return node, Type("array", to=CHAR, length=None)
        if node.type == "char":
            if not node.value.startswith("'") or len(re.sub(r"\\([0-7]{1,3}|x[0-9a-fA-F]+|.)", "c", node.value)) != 3:
                self.cannot(node, f"the character constant {node.value}")
            return node, INT
        if "float" in node.type or "double" in node.type:
            self.cannot(node, f"the floating constant {node.value}")
            return node, Type("float", "float")
        return self.integer(node)

    def integer(self, node):
        text = node.value.lower()
        if "ll" in text:
            self.cannot(node, f"the constant {node.value} has 64 bits")
        value, is_unsigned = self.number(node), "u" in text
        if text.startswith("0b"):
            self.note(node, f"{node.value} is written as {hex(value)}")
            node = A.Constant(node.type, hex(value) + "".join(c for c in text[2:] if c in "ul"), node.coord)
        is_long = "l" in text
        if value > 0xFFFFFFFF or (value > 0x7FFFFFFF and not is_unsigned and not text.startswith("0")):
            self.cannot(node, f"the constant {node.value} doesn't fit into 32 bits")
        if value > 0x7FFFFFFF:
            is_unsigned = True
        return node, Type("int", ("unsigned long" if is_unsigned else "long") if is_long else "unsigned int" if is_unsigned else "int")

    def on_ID(self, node):
        if node.name == "__func__":
            return A.Constant("string", f'"{self.function}"', node.coord), Type("array", to=with_const(CHAR), length=None)
        symbol = self.look(node.name)
        if symbol is None:
            if not self.known.first:
                self.cannot(node, f"{node.name} isn't declared")
            return node, INT
        if symbol.kind == "function":
            self.found.taken.add(node.name)
            if node.name not in self.bodies:
                self.cannot(node, f"the address of {node.name}, which has no body here")
            return A.ID(self.number_name(node.name), node.coord), pointer_to(symbol.type)
        if symbol.kind == "copied":  # a struct that was a parameter
            return A.ID(symbol.name, node.coord), symbol.type
        return A.ID(symbol.name, node.coord), symbol.type

    def number_name(self, function):
        return self.known.numbers.get(function, function)

    def on_ArrayRef(self, node):
        base, type_ = self.rvalue(node.name)
        index, index_type = self.rvalue(node.subscript)
        if type_.kind != "pointer" and index_type.kind == "pointer":
            type_ = index_type
        if type_.kind != "pointer":
            return A.ArrayRef(base, index, node.coord), INT
        return A.ArrayRef(base, index, node.coord), type_.to

    def on_StructRef(self, node):
        base, type_ = self.expression(node.name)
        if node.type == "->":
            type_ = self.decayed(type_)
            type_ = type_.to if type_.kind == "pointer" else type_
        for name, member in self.structs.get(type_.name, []) if type_.kind == "struct" else []:
            if name == node.field.name:
                return A.StructRef(base, node.type, node.field, node.coord), with_const(member) if type_.is_const else member
        return A.StructRef(base, node.type, node.field, node.coord), INT

    def on_UnaryOp(self, node):
        if node.op == "sizeof":
            if isinstance(node.expr, A.Typename):
                return A.UnaryOp("sizeof", self.rewrite(node.expr), node.coord), UNSIGNED
            inner, _ = self.expression(node.expr)
            return A.UnaryOp("sizeof", inner, node.coord), UNSIGNED
        if node.op == "-" and isinstance(node.expr, A.Constant) and node.expr.value.lower().rstrip("l") == "2147483648":
            self.note(node, "-2147483648 is written as -2147483647 - 1")
            least = A.UnaryOp("-", A.Constant("int", "2147483647"))
            return A.BinaryOp("-", least, A.Constant("int", "1"), node.coord), INT
        inner, type_ = self.expression(node.expr)
        if node.op == "&":
            if type_.is_function_pointer() and isinstance(node.expr, A.ID) and self.look(node.expr.name).kind == "function":
                return inner, type_
            return A.UnaryOp("&", inner, node.coord), pointer_to(type_)
        type_ = self.decayed(type_)
        if node.op == "*":
            if type_.is_function_pointer():
                return inner, type_
            if type_.is_null_type():
                self.cannot(node, "what a void * points to")
            return A.UnaryOp("*", inner, node.coord), type_.to if type_.kind == "pointer" else INT
        if node.op in INCREMENTS:
            if type_.kind == "bool":
                self.cannot(node, f"{node.op.strip('p')} of a bool")
            return A.UnaryOp(node.op, inner, node.coord), type_
        return A.UnaryOp(node.op, inner, node.coord), INT if node.op == "!" else self.promoted(type_)

    @staticmethod
    def promoted(type_):
        if type_.kind == "bool" or (type_.kind == "int" and SIZES.get(type_.name, 4) < 4):
            return INT
        return without_const(type_)

    def on_BinaryOp(self, node):
        if node.op in ("&&", "||"):
            self.drop(node, node.right)
        left, a = self.rvalue(node.left)
        right, b = self.rvalue(node.right)
        new = A.BinaryOp(node.op, left, right, node.coord)
        if node.op in COMPARISONS:
            if a.kind == b.kind == "pointer" and not (is_null(left) or is_null(right)) and not a.to.same(b.to):
                self.cannot(node, f"a comparison of {a} with {b}")
            return new, INT
        if a.kind == "pointer" and b.kind == "pointer":
            return new, INT
        if a.kind == "pointer" or b.kind == "pointer":
            return new, a if a.kind == "pointer" else b
        if node.op in ("<<", ">>"):
            return new, self.promoted(a)
        return new, self.common(a, b)

    def common(self, a, b):
        a, b = self.promoted(a), self.promoted(b)
        order = ["int", "unsigned int", "long", "unsigned long"]
        if a.kind != "int" or b.kind != "int":
            return a
        if {a.name, b.name} == {"unsigned int", "long"}:
            return Type("int", "unsigned long")
        return a if order.index(a.name) >= order.index(b.name) else b

    def on_Assignment(self, node):
        left, a = self.expression(node.lvalue)
        if node.op == "=":
            right, _ = self.converted(node.rvalue, a)
            return A.Assignment("=", left, right, node.coord), a
        right, b = self.rvalue(node.rvalue)
        if a.kind == "bool":
            if any(isinstance(n, (A.FuncCall, A.Assignment)) or isinstance(n, A.UnaryOp) and n.op in INCREMENTS for n in walk(left)):
                self.cannot(node, f"{node.op} on a bool whose place has effects")
            value = A.BinaryOp(node.op[:-1], left, right, node.coord)
            self.note(node, f"{node.op} on a bool is written out")
            return A.Assignment("=", left, A.BinaryOp("!=", value, A.Constant("int", "0"), node.coord), node.coord), a
        return A.Assignment(node.op, left, right, node.coord), a

    def on_TernaryOp(self, node):
        self.drop(node, node.iftrue, node.iffalse)
        test, _ = self.rvalue(node.cond)
        yes, a = self.rvalue(node.iftrue)
        no, b = self.rvalue(node.iffalse)
        if a.kind == "pointer" or b.kind == "pointer":
            type_ = a if a.kind == "pointer" and not (is_null(yes) and b.kind == "pointer") else b
        elif a.is_arithmetic() and b.is_arithmetic():
            type_ = self.common(a, b)
        else:
            type_ = a
        return A.TernaryOp(test, yes, no, node.coord), type_

    def drop(self, node, *parts):
        """What is dropped where this is: its parts too."""
        if id(node) in self.dropped:
            self.dropped.update(id(part) for part in parts)

    def on_ExprList(self, node):
        self.drop(node, node.exprs[-1])
        self.dropped.update(id(e) for e in node.exprs[:-1])
        parts = [self.rvalue(e) for e in node.exprs]
        return A.ExprList([p for p, _ in parts], node.coord), parts[-1][1]

    def on_Cast(self, node):
        target = self.type_of(node.to_type)
        if target.kind == "bool":
            return self.truth(*self.rvalue(node.expr), node), INT
        if target.kind != "pointer":
            if target.kind == "void":
                self.dropped.add(id(node.expr))
            inner, type_ = self.rvalue(node.expr)
            if type_.kind == "pointer" and target.kind != "void":
                self.cannot(node, "a pointer as a number")
            return A.Cast(self.rewrite(node.to_type), inner, node.coord), target
        if target.is_function_pointer():
            inner, type_ = self.rvalue(node.expr)
            if not is_null(inner) and not type_.same(target):
                self.cannot(node, "a function as one of another type")
            return inner, target
        return self.pointer_cast(node, target)

    def pointer_cast(self, node, target):
        inner, type_ = self.rvalue(node.expr)
        if is_null(inner):
            return A.Constant("int", "0", node.coord), target
        if type_.kind != "pointer":
            address = self.value(node.expr)
            self.cannot(node, "a number as an address" + (f" ({address:#x})" if address is not None else "")
                        + ": no device stands at an address here")
            return inner, target
        if target.to.kind == "void":
            return inner, type_
        if type_.is_null_type():
            if not self.known.first:
                self.cannot(node, f"a void * as {target}")
            return inner, target
        if isinstance(inner, A.Constant) and inner.type == "string" and target.to.kind == "int" and SIZES[target.to.name] == 1:
            return self.fitted(inner, type_, target, node), target
        inner, element = self.flat(inner, type_.to, target.to.same)
        type_ = pointer_to(element)
        if not target.to.same(type_.to):
            self.cannot(node, f"a cast from {type_} to {target}: an object's bytes have one type each")
        elif type_.to.is_const and not target.to.is_const:
            self.cannot(node, f"a cast from {type_} to {target} takes the const away")
        return inner, target

    def on_CompoundLiteral(self, node):
        type_ = self.type_of(node.type)
        if self.before is None or self.is_file_scope():
            self.cannot(node, "a compound literal in this place")
            return node, type_
        name = self.fresh("literal")
        init = self.initialiser(type_, node.init)
        if type_.kind == "array" and type_.length is None:
            type_ = Type("array", to=type_.to, length=len(init.exprs))
        self.before.append(self.declared(name, type_, node.coord, init=init))
        self.note(node, f"a compound literal becomes the local {name}")
        self.scopes[-1][name] = Symbol("object", type_, name)
        return A.ID(name, node.coord), type_

    # Conversions

    def truth(self, node, type_, at):
        if type_.kind == "bool" or is_truth(node):
            return node
        return A.BinaryOp("!=", node, A.Constant("int", "0"), at.coord)

    def converted(self, node, target):
        """An expression whose value goes to an object, parameter or result of this type."""
        if target.kind == "bool":
            new, type_ = self.rvalue(node)
            return self.truth(new, type_, node), target
        new, type_ = self.rvalue(node)
        return self.fitted(new, type_, target, node), target

    def fitted(self, new, type_, target, at):
        if target.kind != "pointer":
            if type_.kind == "pointer" and target.is_arithmetic():
                self.cannot(at, "a pointer as a number")
            return new
        if is_null(new) or self.known.first or type_.kind == "float":
            return new
        if type_.kind != "pointer":
            self.cannot(at, "a number as an address: no device stands at an address here")
        elif isinstance(new, A.Constant) and new.type == "string" and not target.to.same(CHAR) and target.to.kind == "int":
            name = self.fresh("text")
            array = self.declared(name, Type("array", to=target.to), at.coord, ["static"], new)
            self.note(at, f"a string of {target.to} becomes the static array {name}")
            self.out.append(array)
            return A.ID(name, at.coord)
        elif target.to.kind == "void" or type_.to.kind == "void":
            self.cannot(at, f"{type_} where {target} is wanted: the profile has no pointers to void")
        elif not target.to.same(type_.to):
            self.cannot(at, f"{type_} where {target} is wanted")
        elif type_.to.is_const and not target.to.is_const and not isinstance(new, A.Constant):
            self.cannot(at, f"{type_} where {target} is wanted: the const would go")
        return new
