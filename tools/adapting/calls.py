"""Calls: of functions by name and by pointer, and of the library."""
import os
import re

from pycparser import c_ast as A

from adapting.dry import Dry
from adapting.kinds import CHAR, INT, Symbol, VOID, is_null, is_ours, pointer_to, walk, with_const, without_const
from adapting.output import Generator
from adapting.paths import INCLUDE

PRINTERS = ("printf", "puts", "fputs", "fputc", "putc", "fflush")


class Calls:
    """Calls: of functions by name and by pointer, and of the library."""

    def on_FuncCall(self, node):
        args = list(node.args.exprs) if node.args else []
        callee = node.name
        if isinstance(callee, A.ID):
            symbol = self.look(callee.name)
            if symbol is None or symbol.kind == "function":
                return self.direct(node, callee.name, symbol, args)
        return self.indirect(node, callee, args)

    def direct(self, node, name, symbol, args):
        if name in PRINTERS and name not in self.bodies:
            return self.printing(node, name, args), INT
        if name in ("memcpy", "memmove", "memset", "memcmp", "memchr") and self.is_library(name):
            return self.memory(node, name, args)
        if name in ("strchr", "strrchr", "strstr") and self.is_library(name) and args:
            _, type_ = Dry(self).rvalue(args[0])
            if type_.kind == "pointer" and type_.to.is_const:
                return self.of_const(node, name, args)
        if symbol is None or (name not in self.bodies and name not in ("getchar", "putchar")):
            self.cannot(node, f"{name} has no body in this source")
            return node, symbol.type.to if symbol else INT
        self.found.call(self.function, name)
        params = symbol.type.params
        new = []
        for i, arg in enumerate(args):
            new.append(self.argument(name, i, arg, params[i]) if i < len(params) else self.rvalue(arg)[0])
        if symbol.type.to.kind == "struct":
            return self.struct_call(node, symbol, new)
        return A.FuncCall(A.ID(symbol.name, node.coord), A.ExprList(new) if new else None, node.coord), symbol.type.to

    def struct_call(self, node, symbol, args):
        """A call that gives a struct: it fills a local, which is then the value."""
        if self.before is None:
            self.cannot(node, f"{symbol.name}, which gives a struct, called in this place")
            return node, symbol.type.to
        name = self.fresh("given")
        self.before.append(self.declared(name, without_const(symbol.type.to), node.coord))
        call = self.call(symbol.name, [A.UnaryOp("&", A.ID(name))] + args, node.coord)
        return A.ExprList([call, A.ID(name, node.coord)], node.coord), symbol.type.to

    def argument(self, name, i, arg, param):
        if param.is_null_type():
            new, type_ = self.rvalue(arg)
            if not is_null(new) and type_.kind == "pointer":
                self.found.passed.setdefault((name, i), []).append((type_.to, arg))
            chosen = self.known.given.get((name, i))
            if chosen is None:
                return new
            return self.fitted(new, type_, pointer_to(with_const(chosen) if param.to.is_const else chosen), arg)
        if param.kind == "struct":
            new, _ = self.expression(arg)
            if isinstance(new, A.ExprList):
                return A.ExprList(new.exprs[:-1] + [A.UnaryOp("&", new.exprs[-1])], arg.coord)
            if not isinstance(new, (A.ID, A.StructRef, A.ArrayRef)) and not (isinstance(new, A.UnaryOp) and new.op == "*"):
                self.cannot(arg, "a struct as an argument that is no object")
            return A.UnaryOp("&", new, arg.coord)
        return self.converted(arg, param)[0]

    def is_library(self, name):
        return any(isinstance(e, A.FuncDef) and e.decl.name == name and is_ours(e) for e in self.tree.ext)

    def indirect(self, node, callee, args):
        new, type_ = self.rvalue(callee)
        if not type_.is_function_pointer():
            self.cannot(node, "a call of what is no function")
            return node, INT
        function = type_.to
        if function.to.kind == "struct" or any(p.kind == "struct" for p in function.params):
            self.cannot(node, "a call through a pointer of a function with structs")
        name = self.dispatcher(function)
        self.found.call(self.function, name)
        values = [new] + [self.converted(a, p)[0] for a, p in zip(args, function.params)]
        return A.FuncCall(A.ID(name, node.coord), A.ExprList(values), node.coord), function.to

    def dispatcher(self, type_):
        """The function that calls the one of a number, for this type."""
        for other, name in self.dispatchers.values():
            if other.same(type_):
                return name
        name = self.fresh(f"call_{len(self.dispatchers) + 1}")
        self.dispatchers[name] = (type_, name)
        self.out.append(self.declared_function(name, type_))
        return name

    def declared_function(self, name, type_):
        params = [self.declared("function", INT)] + [self.declared(f"a{i}", p) for i, p in enumerate(type_.params)]
        node = A.FuncDecl(A.ParamList(params), self.spelled(type_.to))
        node.type = self.named_declarator(node.type, name)
        return A.Decl(name, [], [], ["static"], [], node, None, None)

    @staticmethod
    def named_declarator(node, name):
        inner = node
        while not isinstance(inner, A.TypeDecl):
            inner = inner.type
        inner.declname = name
        return node

    def dispatcher_body(self, type_, name):
        prototype = Generator().visit(self.declared_function(name, type_))
        lines = [prototype, "{", "    switch (function) {"]
        args = ", ".join(f"a{i}" for i in range(len(type_.params)))
        back = "" if type_.to.kind == "void" else "return "
        for function in sorted(self.known.numbers):
            symbol = self.scopes[0].get(function)
            if symbol and symbol.type.same(type_):
                lines.append(f"    case {self.known.numbers[function]}:")
                lines.append(f"        {back}{symbol.name}({args});")
                if not back:
                    lines.append("        break;")
        lines += ["    }"] + (["    return 0;"] if back else []) + ["}", ""]
        return "\n".join(lines)

    # The library

    def need(self, name):
        if name not in self.helpers:
            self.helpers.append(name)
        return name

    def call(self, name, args, coord):
        return A.FuncCall(A.ID(name, coord), A.ExprList(args), coord)

    def printing(self, node, name, args):
        self.found.call(self.function, "putchar")
        if name == "fflush":
            self.note(node, "fflush dropped")
            return A.Constant("int", "0", node.coord)
        if name in ("fputs", "fputc", "putc") and not (len(args) == 2 and isinstance(args[1], A.ID) and args[1].name == "stdout"):
            self.cannot(node, f"{name} to another stream than stdout")
            return node
        if name in ("fputc", "putc"):
            return self.call("putchar", [self.rvalue(args[0])[0]], node.coord)
        if name in ("puts", "fputs"):
            parts = [self.text(self.converted(args[0], pointer_to(with_const(CHAR)))[0], node)]
            if name == "puts":
                parts.append(self.call("putchar", [A.Constant("char", "'\\n'")], node.coord))
        else:
            parts = self.formatted(node, args)
        self.note(node, f"{name} is written as calls of functions over putchar")
        if id(node) not in self.dropped:
            self.cannot(node, f"{name} where its result is used")
        if node is not self.whole:  # an int, as an arm of ?: say
            parts.append(A.Constant("int", "0"))
        return parts[0] if len(parts) == 1 else A.ExprList(parts, node.coord)

    def text(self, node, at):
        return self.call(self.need("adapt_text"), [node], at.coord)

    def formatted(self, node, args):
        if not args or not isinstance(args[0], A.Constant) or args[0].type != "string":
            self.cannot(node, "printf with a format that is no literal")
            return [node]
        rest, parts = args[1:], []
        for piece in re.split(r"(%[-0 +#]*[0-9]*(?:\.[0-9]+)?(?:hh|h|ll|l|z|j|t)?[a-zA-Z%])", args[0].value[1:-1]):
            if not piece:
                continue
            found = re.fullmatch(r"%([-0]*)([0-9]*)(hh|h|l|z)?([diucsxX%])", piece)
            if piece[0] == "%" and not found:
                self.cannot(node, f"{piece} of printf")
            elif not found and "%" in piece:
                self.cannot(node, f"{piece} of printf")
            elif not found and re.fullmatch(r"\\?.", piece):
                parts.append(self.call("putchar", [A.Constant("char", f"'{piece}'" if piece != "'" else "'\\''")], node.coord))
            elif not found:
                parts.append(self.text(A.Constant("string", f'"{piece}"'), node))
            elif found[4] == "%":
                parts.append(self.call("putchar", [A.Constant("char", "'%'")], node.coord))
            elif not rest:
                self.cannot(node, "printf with fewer arguments than its format has")
                break
            else:
                parts.append(self.conversion(node, found, rest.pop(0)))
        return parts or [A.Constant("int", "0")]

    def conversion(self, node, found, arg):
        flags, width, kind = found[1], int(found[2] or 0), found[4]
        width_node = A.Constant("int", str(width))
        if "-" in flags and width:
            width_node = A.UnaryOp("-", width_node)
        if kind == "s":
            new, type_ = self.converted(arg, pointer_to(with_const(CHAR)))
            new = self.evaluated(node, arg, new, type_)
            if width == 0:
                return self.text(new, node)
            return self.call(self.need("adapt_padded"), [new, width_node], node.coord)
        new, type_ = self.rvalue(arg)
        new = self.evaluated(node, arg, new, self.promoted(type_))
        if not type_.is_arithmetic():
            self.cannot(node, f"{found[0]} of printf for a value of type {type_}")
        if kind == "c":
            return self.call("putchar", [new], node.coord)
        zero = A.Constant("int", "1" if "0" in flags and "-" not in flags else "0")
        base = A.Constant("int", "16" if kind in "xX" else "10")
        letter = A.Constant("char", "'A'" if kind == "X" else "'a'")
        self.need("adapt_number")
        if kind in "uxX":
            return self.call("adapt_number", [new, A.Constant("int", "0"), base, letter, width_node, zero], node.coord)
        return self.call(self.need("adapt_signed"), [new, width_node, zero], node.coord)

    def evaluated(self, node, arg, new, type_):
        """An argument with a call that may read or print is evaluated before anything is printed."""
        if not any(isinstance(n, A.FuncCall) and self.reads_or_prints(n) for n in walk(arg)):
            return new
        if node is not self.whole or self.before is None:
            self.cannot(node, "printf of a call's result, within an expression")
            return new
        name = self.fresh("value")
        self.before.append(self.declared(name, type_, node.coord, init=new))
        return A.ID(name, node.coord)

    def reads_or_prints(self, call):
        """Whether a call may come to getchar or putchar; what is called through a pointer may."""
        if not isinstance(call.name, A.ID) or (self.look(call.name.name) or Symbol("function", None, "")).kind != "function":
            return True
        todo, seen = [call.name.name], set()
        while todo:
            name = todo.pop()
            if name in ("getchar", "putchar") + PRINTERS or name.startswith("call_") and name not in self.bodies:
                return True
            if name not in seen:
                seen.add(name)
                todo += self.known.calls.get(name, ())
        return False

    def memory(self, node, name, args):
        """A function over bytes, for the type of the elements that it is given."""
        count = 2 if name in ("memcpy", "memmove", "memcmp") else 1
        if len(args) != 3:
            self.cannot(node, f"{name} of {len(args)} arguments")
            return node, INT
        pointers = [self.elements(a) for a in args[:count]]
        types = [t for _, t in pointers]
        if any(t is None for t in types):
            self.cannot(node, f"{name} of what is no array and no pointer")
            return node, INT
        if count == 2 and not types[0].same(types[1]):
            self.cannot(node, f"{name} between {types[0]} and {types[1]}: an object's bytes have one type each")
            return node, pointer_to(types[0])
        element = without_const(types[0])
        values = [n for n, _ in pointers]
        size, _ = self.rvalue(args[2])
        if count == 1:
            value, _ = self.rvalue(args[1])
        if element.same(CHAR) or element.kind == "void":
            if element.kind == "void":
                if not self.known.first:
                    self.cannot(node, f"{name} of a void *")
                return node, pointer_to(VOID)
            self.found.call(self.function, name)
            rest = [value, size] if count == 1 else [size]
            return self.call(name, values + rest, node.coord), INT if name == "memcmp" else pointer_to(element)
        return self.memory_of(node, name, element, values, None if count == 2 else args[1], size)

    def elements(self, node):
        """A pointer to the first element of what is pointed to, however deep, and the element's type."""
        if isinstance(node, A.Cast) and self.type_of(node.to_type).is_null_type():
            node = node.expr
        if isinstance(node, A.UnaryOp) and node.op == "&":
            inner, type_ = Dry(self).expression_of(node.expr)
            if type_.kind == "array":
                node = node.expr
        new, type_ = self.rvalue(node)
        if type_.kind != "pointer":
            return new, None
        return self.flat(new, type_.to, lambda element: element.kind != "array")

    @staticmethod
    def flat(new, element, is_enough):
        """A pointer to the first element of an array of arrays, as far down as is asked."""
        while element.kind == "array" and not is_enough(element):
            new, element = A.UnaryOp("*", new), element.to
        return new, element

    def memory_of(self, node, name, element, values, given, size):
        number = A.BinaryOp("/", size, A.UnaryOp("sizeof", A.Typename(None, [], None, self.spelled(element))), node.coord)
        if isinstance(size, A.UnaryOp) and size.op == "sizeof" and isinstance(node.args.exprs[2], A.UnaryOp):
            whole = self.value(node.args.exprs[2])
            if whole is not None and self.size(element):
                number = A.Constant("int", str(whole // self.size(element)))
        if name in ("memcmp", "memchr"):
            self.cannot(node, f"{name} of {element}: it compares bytes")
            return node, INT
        instance = self.instance(node, name, element, given)
        if instance is None:
            return node, pointer_to(element)
        self.note(node, f"{name} of {element} becomes {instance}, which counts elements")
        return self.call(instance, values + [number], node.coord), VOID

    def instance(self, node, name, element, given):
        suffix = re.sub(r"[^a-z0-9A-Z_]+", "_", str(element)).strip("_")
        if name == "memset":
            value = self.value(given)
            if value != 0 and not (value == 255 and element.kind == "int"):
                self.cannot(node, f"memset of {element} by another value than 0")
                return None
            suffix += "_zero" if value == 0 else "_ones"
        key = f"{name}_{suffix}"
        if key in self.made:
            return self.made[key]
        made = self.made[key] = self.fresh(key)
        text = Generator().visit(A.Typename(None, [], None, self.spelled(element)))
        if name == "memset":
            zero = "0" if element.kind in ("int", "bool", "pointer") else self.fresh("zero_" + suffix)
            if zero != "0":
                self.out.append(f"static {text} {zero};\n")
            body = f"    for (unsigned i = 0; i < n; i++)\n        to[i] = {'-1' if value else zero};\n"
            self.out.append(f"static void {made}({text} *to, unsigned n)\n{{\n{body}}}\n")
            return made
        loop = "    for (unsigned i = 0; i < n; i++)\n        to[i] = from[i];\n"
        if name == "memmove":
            loop = ("    for (unsigned i = 1; i < n; i++) {\n        if (from + i == to) {\n            while (n > 0) {\n"
                    "                n--;\n                to[n] = from[n];\n            }\n            return;\n        }\n    }\n") + loop
        self.out.append(f"static void {made}({text} *to, const {text} *from, unsigned n)\n{{\n{loop}}}\n")
        return made

    def of_const(self, node, name, args):
        made = self.made.get(name + "_const")
        if made is None:
            made = self.made[name + "_const"] = self.fresh(name + "_const")
            with open(os.path.join(INCLUDE, "string.h")) as file:
                text = re.search(rf"^static char \*{name}\(.*?^}}\n", file.read(), re.M | re.S)[0]
            text = re.sub(r"(?<!const )\bchar \*", "const char *", text).replace(f"*{name}(", f"*{made}(")
            text = text.replace("size_t", "unsigned")
            for used in ("strlen", "strncmp"):
                if used in text:
                    self.found.call(self.function, used)
            self.out.append(text)
        new = [self.rvalue(a)[0] for a in args]
        return self.call(made, new, node.coord), pointer_to(with_const(CHAR))
