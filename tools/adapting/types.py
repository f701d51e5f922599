"""The types that declarations name, and what stands in their place."""
from pycparser import c_ast as A

from adapting.kinds import INT, Symbol, Type, UNSIGNED, VOID, pointer_to, walk, with_const


class Types:
    """The types that declarations name, and what stands in their place."""

    def type_of(self, node):
        """The type that a declarator's tree stands for."""
        if isinstance(node, A.Typename):
            return self.type_of(node.type)
        if isinstance(node, A.PtrDecl):
            return pointer_to(self.type_of(node.type), "const" in (node.quals or []))
        if isinstance(node, A.ArrayDecl):
            return Type("array", to=self.type_of(node.type), length=None if node.dim is None else self.value(node.dim))
        if isinstance(node, A.FuncDecl):
            params = node.args.params if node.args else []
            kinds = [self.adjusted(self.type_of(p.type)) for p in params if not isinstance(p, A.EllipsisParam)]
            if len(kinds) == 1 and kinds[0].kind == "void":
                kinds = []
            variadic = any(isinstance(p, A.EllipsisParam) for p in params)
            return Type("function", to=self.type_of(node.type), params=kinds, variadic=variadic)
        if isinstance(node, A.TypeDecl):
            found = self.type_of(node.type)
            return with_const(found) if "const" in (node.quals or []) else found
        if isinstance(node, A.IdentifierType):
            return self.named_type(node)
        if isinstance(node, A.Enum):
            return INT
        if isinstance(node, A.Union):
            return Type("union", name=node.name or "")
        if isinstance(node, A.Struct):
            return Type("struct", name=self.look_tag(node.name) or node.name)
        return INT

    @staticmethod
    def adjusted(type_):
        if type_.kind == "array":
            return pointer_to(type_.to)
        return pointer_to(type_) if type_.kind == "function" else type_

    def named_type(self, node):
        if len(node.names) == 1:
            symbol = self.look(node.names[0])
            if symbol and symbol.kind == "typedef":
                return symbol.type
        words = sorted(w for w in node.names if w != "int")
        if "void" in words:
            return VOID
        if "_Bool" in words:
            return Type("bool", "bool")
        if "float" in words or "double" in words or "_Complex" in words:
            self.cannot(node, f"floating types ({' '.join(node.names)}): the profile has integers alone, so scale by hand")
            return Type("float", "float")
        if words.count("long") > 1:
            self.cannot(node, "integers of 64 bits: the widest have 32")
            return Type("float", "long long")
        if "char" in words:
            return Type("int", "signed char" if "signed" in words else "char")
        is_unsigned = "unsigned" in words
        for word in ("short", "long"):
            if word in words:
                return Type("int", f"unsigned {word}" if is_unsigned else word)
        if is_unsigned:
            return UNSIGNED
        if not words or words == ["signed"]:
            return INT
        self.cannot(node, f"the type {' '.join(node.names)} isn't known")
        return INT

    def spelled(self, type_, coord=None):
        """A type as nodes of a declarator without a name."""
        if type_.kind == "pointer":
            if type_.is_function_pointer():
                return self.spelled(INT, coord)
            return A.PtrDecl(["const"] if type_.is_const else [], self.spelled(type_.to, coord), coord)
        if type_.kind == "array":
            length = None if type_.length is None else A.Constant("int", str(type_.length))
            return A.ArrayDecl(self.spelled(type_.to, coord), length, [], coord)
        inner = A.Struct(type_.name, None) if type_.kind == "struct" else A.IdentifierType(
            {"void": ["void"], "bool": ["char"]}.get(type_.kind) or type_.name.split())
        return A.TypeDecl(None, ["const"] if type_.is_const else [], None, inner, coord)

    def declared(self, name, type_, coord=None, storage=(), init=None):
        node = self.spelled(type_, coord)
        inner = node
        while not isinstance(inner, A.TypeDecl):
            inner = inner.type
        inner.declname = name
        return A.Decl(name, [], [], list(storage), [], node, init, None, coord)

    def rewrite(self, node):
        """Changes the types that a declarator's tree names: words that the profile leaves out, definitions inside, pointers to
        functions, bool. Gives the tree that stands in its place."""
        if isinstance(node, A.Typename):
            self.clean(node, node)
            node.type = self.rewrite(node.type)
        elif isinstance(node, A.PtrDecl):
            self.clean(node, node)
            if isinstance(node.type, A.FuncDecl):
                return self.function_number(node)
            if isinstance(node.type, A.TypeDecl) and isinstance(node.type.type, A.IdentifierType):
                found = self.type_of(node.type)
                if found.kind == "void":
                    self.cannot(node, "void * other than a parameter: the profile has no pointers to void")
            node.type = self.rewrite(node.type)
        elif isinstance(node, A.ArrayDecl):
            node.type = self.rewrite(node.type)
            node.dim_quals = []
            if node.dim is not None:
                if self.value(node.dim) is None:
                    self.cannot(node, "an array whose length is no constant")
                node.dim = self.expression(node.dim)[0]
        elif isinstance(node, A.FuncDecl):
            node.type = self.rewrite(node.type)
            for param in node.args.params if node.args else []:
                if not isinstance(param, (A.EllipsisParam, A.ID)):
                    param.type = self.rewrite(param.type)
        elif isinstance(node, A.TypeDecl):
            self.clean(node, node)
            node.align = None
            node.type = self.specified(node.type, node)
        return node

    def function_number(self, node):
        """A pointer to a function becomes the function's number."""
        name = node.type.type
        while not isinstance(name, A.TypeDecl):
            name = name.type
        self.note(node, "a pointer to a function becomes the function's number, an int")
        return A.TypeDecl(name.declname, list(node.quals or []), None, A.IdentifierType(["int"]), node.coord)

    def clean(self, node, at):
        for word in ("volatile", "restrict", "_Atomic"):
            if word in (node.quals or []):
                node.quals = [q for q in node.quals if q != word]
                if word == "volatile":
                    self.note(at, "volatile dropped: nothing but the program itself changes memory here, no interrupt and no device")
                elif word == "restrict":
                    self.note(at, "restrict dropped")
                else:
                    self.cannot(at, "_Atomic")

    def specified(self, node, at):
        """Type words, a struct or an enum. What is defined within goes before, to file scope."""
        if isinstance(node, A.IdentifierType):
            return self.words(node)
        if isinstance(node, A.Union):
            self.cannot(node, "a union: bytes have one type each here")
            for inner in walk(node):
                if isinstance(inner, A.Decl) and inner.bitsize is not None and inner.name:
                    self.cannot(inner, f"the bit-field {inner.name}: use a mask and shifts")
            return A.IdentifierType(["int"])
        if isinstance(node, A.Struct):
            return self.struct(node, at)
        if isinstance(node, A.Enum):
            return self.enum(node, at)
        return node

    def words(self, node):
        if node.names in (["uint8_t"], ["unsigned", "char"], ["char", "unsigned"], ["_Bool"], ["uint_least8_t"]):
            return A.IdentifierType(["char"], node.coord)
        symbol = self.look(node.names[0]) if len(node.names) == 1 else None
        if symbol and symbol.kind == "typedef":
            return A.IdentifierType([symbol.name], node.coord)
        self.named_type(node)
        return node

    def tag(self, node, hint):
        """The tag under which a definition stands at file scope."""
        if self.is_file_scope() and node.name:
            self.tags[-1][node.name] = node.name
            return node.name
        name = self.local(node.name or hint or ("struct" if isinstance(node, A.Struct) else "enum"))
        if node.name:
            self.tags[-1][node.name] = name
        if not self.is_file_scope():
            self.note(node, f"{'struct' if isinstance(node, A.Struct) else 'enum'} {node.name or ''} goes to file scope as {name}")
        return name

    def struct(self, node, at):
        if id(node) in self.made:
            return A.Struct(self.made[id(node)], None, node.coord)
        if node.decls is None:
            return A.Struct(self.look_tag(node.name) or node.name, None, node.coord)
        name = self.tag(node, getattr(at, "declname", None))
        self.made[id(node)] = name
        self.keep.append(node)
        members = []
        for member in node.decls:
            if not isinstance(member, A.Decl) or member.name is None:
                self.cannot(member, "a member without a name")
                continue
            if member.bitsize is not None:
                self.cannot(member, f"the bit-field {member.name}: use a mask and shifts")
                member.bitsize = None
            type_ = self.type_of(member.type)
            if type_.kind == "array" and type_.length is None:
                self.cannot(member, "an array of no length at a struct's end")
            member.quals, member.storage, member.align = [q for q in member.quals or [] if q == "const"], [], []
            member.type = self.rewrite(member.type)
            members.append((member.name, self.type_again(type_, member.type)))
        self.structs[name] = members
        decls = [m for m in node.decls if isinstance(m, A.Decl) and m.name]
        self.out.append(A.Decl(None, [], [], [], [], A.Struct(name, decls, node.coord), None, None, node.coord))
        return A.Struct(name, None, node.coord)

    def type_again(self, type_, node):
        """A type read before its definitions were given tags is read again where that matters."""
        inner = type_
        while inner.kind in ("pointer", "array"):
            inner = inner.to
        return self.type_of(node) if inner.kind == "struct" else type_

    def enum(self, node, at):
        if id(node) in self.made:
            return A.Enum(self.made[id(node)], None, node.coord)
        if node.values is None:
            return A.Enum(self.look_tag(node.name) or node.name, None, node.coord)
        name = self.tag(node, getattr(at, "declname", None))
        self.made[id(node)] = name
        self.keep.append(node)
        last = -1
        for constant in node.values.enumerators:
            if constant.value is not None:
                value = self.value(constant.value)
                constant.value = self.expression(constant.value)[0]
                last = value if value is not None else last + 1
            else:
                last = last + 1
            new = constant.name if self.is_file_scope() else self.local(constant.name)
            self.scopes[-1][constant.name] = Symbol("constant", INT, new, last)
            constant.name = new
        self.out.append(A.Decl(None, [], [], [], [], A.Enum(name, node.values, node.coord), None, None, node.coord))
        return A.Enum(name, None, node.coord)
