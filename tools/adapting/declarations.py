"""Declarations, and functions with their parameters."""
import copy

from pycparser import c_ast as A

from adapting.calls import PRINTERS
from adapting.kinds import INT, Symbol, identifiers, is_ours, is_string, pointer_to, string_length, with_const, without_const
from adapting.paths import PREDECLARED


class Declarations:
    """Declarations, and functions with their parameters."""

    def words_of(self, node):
        """Storage and function words."""
        self.clean(node, node)
        for word in ("register", "auto"):
            if word in (node.storage or []):
                self.note(node, f"{word} dropped")
        for word in node.funcspec or []:
            if not is_ours(node):
                self.note(node, f"{word} dropped")
        node.storage = [w for w in node.storage or [] if w not in ("register", "auto", "_Thread_local")]
        node.quals = [q for q in node.quals or [] if q == "const"]
        node.funcspec, node.align = [], []

    def declaration(self, node):
        """A declaration at file scope or in a block: the nodes that stay in its place."""
        self.at = node.coord or self.at
        if isinstance(node, A.Typedef):
            return self.typedef(node)
        self.words_of(node)
        if node.name is None:
            if isinstance(node.type, (A.Struct, A.Enum, A.Union)):
                self.forward(node)
            return []
        type_ = self.type_of(node.type)
        if isinstance(node.type, A.FuncDecl):
            return self.prototype(node, type_)
        if type_.is_null_type():
            self.cannot(node, f"void *{node.name}: the profile has no pointers to void")
        node.type = self.rewrite(node.type)
        type_ = self.type_again(type_, node.type)
        if self.is_file_scope():
            self.scopes[0][node.name] = Symbol("object", type_, node.name)
            self.initialised(node, self.scopes[0][node.name])
            return [node]
        return self.local_declaration(node, type_)

    def forward(self, node):
        inner = node.type
        if isinstance(inner, A.Union):
            self.cannot(node, "a union: bytes have one type each here")
        elif isinstance(inner, A.Struct) and inner.decls is None:
            if self.is_file_scope():
                self.out.append(node)
        else:
            self.specified(inner, inner)

    def typedef(self, node):
        if node.name in PREDECLARED and self.is_file_scope():
            return []
        self.clean(node, node)
        node.quals = [q for q in node.quals or [] if q == "const"]
        type_ = self.type_of(node.type)
        if is_ours(node) and not (type_.kind in ("int", "bool") and node.name in self.known.names):
            self.scopes[-1][node.name] = Symbol("typedef", type_, node.name)
            return []
        if type_.is_null_type():
            self.cannot(node, f"the typedef {node.name} of void *")
        node.type = self.rewrite(node.type)
        type_ = self.type_again(type_, node.type)
        if self.is_file_scope():
            self.scopes[0][node.name] = Symbol("typedef", type_, node.name)
            return [node]
        name = self.local(node.name)
        self.note(node, f"the typedef {node.name} goes to file scope as {name}")
        self.scopes[-1][node.name] = Symbol("typedef", type_, name)
        node.name = name
        self.named_declarator(node.type, name)
        self.out.append(node)
        return []

    def prototype(self, node, type_):
        if node.name in PRINTERS or type_.variadic:
            if type_.variadic and node.name not in PRINTERS:
                self.cannot(node, f"{node.name} takes any number of arguments")
            self.scopes[0][node.name] = Symbol("function", type_, node.name)
            return []
        if node.name not in self.bodies and node.name not in ("getchar", "putchar"):
            self.scopes[0][node.name] = Symbol("function", type_, node.name)
            return []
        if node.name not in self.scopes[0]:
            self.scopes[0][node.name] = Symbol("function", type_, node.name)
        if is_ours(node) and node.name in ("getchar", "putchar"):
            return []
        self.parameters(node, type_, None)
        node.storage = [w for w in node.storage if w != "extern"]
        if self.is_file_scope():
            return [node]
        self.note(node, f"the declaration of {node.name} goes to file scope")
        self.out.append(node)
        return []

    def local_declaration(self, node, type_):
        if "extern" in node.storage:
            self.note(node, f"the declaration of {node.name} goes to file scope")
            self.scopes[0].setdefault(node.name, Symbol("object", type_, node.name))
            self.out.append(node)
            return []
        old, name = node.name, node.name
        if "static" in node.storage:
            name = self.local(old)
            self.note(node, f"the static {old} goes to file scope as {name}")
        elif (self.look(old) or Symbol("", None, "")).kind == "typedef":
            name = self.fresh(old + "_object")
            self.note(node, f"{old} is called {name}, since {old} is a typedef")
        node.name = name
        self.named_declarator(node.type, name)
        self.scopes[-1][old] = Symbol("object", type_, name)
        self.initialised(node, self.scopes[-1][old])
        if "static" in node.storage:
            self.out.append(node)
            return []
        return [node]

    def initialised(self, node, symbol):
        """Adapts a declaration's initialiser; an array without a length has its length by it from then on."""
        if node.init is None:
            return
        node.init = self.initialiser(symbol.type, node.init)
        if symbol.type.kind == "array" and symbol.type.length is None:
            symbol.type = copy.copy(symbol.type)
            symbol.type.length = string_length(node.init) + 1 if is_string(node.init) else len(node.init.exprs)

    # Functions

    def parameters(self, node, type_, body):
        """Changes the parameters of a function's declarator; with a body, gives the declarations that go into it."""
        declarator, first = node.type, []
        declarator.type = self.rewrite(declarator.type)
        if type_.to.is_null_type():
            self.cannot(node, f"{node.name} gives a void *")
        params = declarator.args.params if declarator.args else []
        for i, param in enumerate(params):
            if isinstance(param, A.EllipsisParam):
                self.cannot(node, f"{node.name} takes any number of arguments")
                continue
            if isinstance(param, A.ID):
                self.cannot(node, "a list of parameters without types")
                continue
            first += self.parameter(node, i, param, body)
        params = [p for p in params if not isinstance(p, A.EllipsisParam)]
        if type_.to.kind == "struct":
            params = [self.place_of_result(node, type_)] + [p for p in params if isinstance(p, A.Decl) or type_.params]
            declarator.type = self.named_declarator(A.TypeDecl(None, [], None, A.IdentifierType(["void"])), node.name)
        declarator.args = A.ParamList(params or [self.void_parameter()])
        return first

    def place_of_result(self, node, type_):
        """The parameter through which a function gives a struct."""
        self.note(node, f"{node.name} gives its struct through a pointer")
        name = self.result_name = self.fresh("result")
        return self.declared(name, pointer_to(without_const(type_.to)), node.coord)

    def void_parameter(self):
        return A.Typename(None, [], None, A.TypeDecl(None, [], None, A.IdentifierType(["void"])))

    def parameter(self, function, i, param, body):
        if isinstance(param, A.Typename):
            if self.type_of(param.type).kind == "void":
                return []
        else:
            self.words_of(param)
        type_ = self.adjusted(self.type_of(param.type))
        if type_.is_null_type():
            type_ = self.known_pointer(function, i, param, type_)
        elif type_.kind == "struct":
            return self.struct_parameter(function, param, type_, body)
        elif type_.kind == "pointer" and isinstance(param.type, A.ArrayDecl):
            param.type.dim = None if isinstance(param.type.dim, A.Constant) or param.type.dim is None else param.type.dim
            param.type = self.rewrite(param.type)
        else:
            param.type = self.rewrite(param.type)
        if body and isinstance(param, A.Decl):
            name = param.name
            if (self.look(name) or Symbol("", None, "")).kind == "typedef":
                param.name = self.fresh(name + "_object")
                self.named_declarator(param.type, param.name)
            self.scopes[-1][name] = Symbol("object", type_, param.name)
        return []

    def known_pointer(self, function, i, param, type_):
        chosen = self.known.given.get((function.name, i))
        if chosen is None:
            if not self.known.first:
                self.cannot(param, f"void *{getattr(param, 'name', '')} of {function.name}: "
                            + self.known.why.get((function.name, i), "nothing is passed for it"))
            return type_
        target = pointer_to(with_const(chosen) if type_.to.is_const else chosen)
        self.note(param, f"void *{getattr(param, 'name', '')} of {function.name} is {target}, as all calls pass it")
        param.type = self.spelled(target, param.coord)
        if isinstance(param, A.Decl):
            self.named_declarator(param.type, param.name)
        return target

    def struct_parameter(self, function, param, type_, body):
        self.note(param, f"the struct {getattr(param, 'name', '')} of {function.name} is passed by a pointer, and copied")
        param.type = self.spelled(pointer_to(with_const(type_)), param.coord)
        if not isinstance(param, A.Decl):
            return []
        name, param.name = param.name, self.fresh(f"{param.name}_given")
        self.named_declarator(param.type, param.name)
        if not body:
            return []
        self.scopes[-1][name] = Symbol("copied", type_, name)
        copied = A.UnaryOp("*", A.ID(param.name))
        return [self.declared(name, without_const(type_), param.coord, init=copied)]

    def function_definition(self, node):
        self.at = node.coord or self.at
        decl = node.decl
        self.words_of(decl)
        decl.storage = [w for w in decl.storage if w != "extern"]
        type_ = self.type_of(decl.type)
        if node.param_decls:
            self.cannot(node, "a list of parameters without types")
        self.scopes[0][decl.name] = Symbol("function", type_, decl.name)
        if is_ours(node) and not self.known.first and decl.name not in self.known.reached:
            return
        self.function, self.result = decl.name, type_.to
        if decl.name == "main":
            self.main(node, type_)
        self.scopes.append({})
        self.tags.append({})
        self.find_tails(node.body)
        first = self.parameters(decl, type_, node.body)
        node.body = self.block(node.body, first, is_body=True)
        self.scopes.pop()
        self.tags.pop()
        self.function = None
        self.out.append(node)

    def main(self, node, type_):
        if type_.to.kind == "void":
            self.note(node, "main gives an int")
            self.named_declarator(A.TypeDecl(None, [], None, A.IdentifierType(["int"])), "main")
            node.decl.type.type = self.named_declarator(A.TypeDecl(None, [], None, A.IdentifierType(["int"])), "main")
            type_.to = self.result = INT
        if type_.params:
            names = {p.name for p in node.decl.type.args.params}
            if names & identifiers(node.body):
                self.cannot(node, "main with parameters that it uses: there is no command line")
            else:
                self.note(node, "main's parameters dropped")
            node.decl.type.args = None
            type_.params = []
