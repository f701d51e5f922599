"""Statements and blocks."""
import copy

from pycparser import c_ast as A

from adapting.kinds import chain_of, identifiers, leaves

LONGEST_CHAIN = 90  # links of else-if; the profile takes up to 197 where their bodies are blocks, with nothing round them


class Statements:
    """Statements and blocks."""

    def block(self, node, first=(), is_body=False):
        if not is_body:
            self.scopes.append({})
            self.tags.append({})
        items = list(first)
        for item in node.block_items or []:
            items += self.statement(item)
        if items and isinstance(items[-1], (A.Case, A.Default)) and not items[-1].stmts:
            self.note(items[-1], "a ; is put behind the label")
            items[-1].stmts = [A.EmptyStatement(items[-1].coord)]
        if not is_body:
            self.scopes.pop()
            self.tags.pop()
        return A.Compound(items, node.coord)

    def statement(self, node):
        """The nodes that stand in a statement's or a declaration's place."""
        self.at = getattr(node, "coord", None) or self.at
        if isinstance(node, (A.Decl, A.Typedef)):
            return self.with_before(node, self.declaration, False)
        method = getattr(self, "do_" + type(node).__name__, None)
        if method is not None:
            return method(node)
        if isinstance(node, A.Compound):
            return [self.block(node)]
        self.whole, self.dropped = node, {id(node)}
        return self.with_before(node, lambda n: [self.expression(n)[0]], True)

    def with_before(self, node, make, is_block):
        outer, self.before = self.before, []
        made = make(node)
        before, self.before = self.before, outer
        if before and is_block:
            return [A.Compound(before + made, node.coord)]
        return before + made

    def one(self, node):
        """A statement that stands under another."""
        made = self.statement(node)
        if len(made) == 1 and not isinstance(made[0], (A.Decl, A.Typedef)):
            return made[0]
        return A.EmptyStatement(node.coord) if not made else A.Compound(made, node.coord)

    def test(self, node):
        return None if node is None else self.rvalue(node)[0]

    def do_EmptyStatement(self, node):
        return [node]

    def do_Pragma(self, node):
        self.note(node, "#pragma dropped")
        return []

    def do_StaticAssert(self, node):
        value = self.value(node.cond)
        if value == 0:
            self.cannot(node, "a _Static_assert that doesn't hold here")
        self.note(node, "_Static_assert dropped" + ("" if value else ", unasked"))
        return []

    def do_If(self, node):
        if chain_of(node) > LONGEST_CHAIN:
            return self.long_chain(node)
        test = self.test(node.cond)
        yes = self.one(node.iftrue)
        no = None if node.iffalse is None else self.one(node.iffalse)
        if isinstance(node.iffalse, A.If) and not isinstance(yes, A.Compound):
            yes = A.Compound([yes], node.coord)
        return [A.If(test, yes, no, node.coord)]

    def long_chain(self, node):
        """A chain of else-if that is longer than the profile's nesting becomes a row of ifs that are left by break."""
        items, link = [], node
        self.note(node, f"a chain of {chain_of(node)} ifs becomes a row of ifs in a loop that is left by break")
        while isinstance(link, A.If):
            if leaves(link.iftrue):
                self.cannot(link, "break or continue in a chain of so many ifs")
            inner = [self.one(link.iftrue), A.Break(link.coord)]
            items.append(A.If(self.test(link.cond), A.Compound(inner, link.coord), None, link.coord))
            link = link.iffalse
        if link is not None:
            if leaves(link):
                self.cannot(link, "break or continue in a chain of so many ifs")
            items += self.statement(link)
        return [A.DoWhile(A.Constant("int", "0"), A.Compound(items, node.coord), node.coord)]

    def do_While(self, node):
        return [A.While(self.test(node.cond), self.one(node.stmt), node.coord)]

    def do_DoWhile(self, node):
        body = self.one(node.stmt)
        return [A.DoWhile(self.test(node.cond), body, node.coord)]

    def do_For(self, node):
        self.scopes.append({})
        self.tags.append({})
        first = node.init
        if isinstance(first, A.DeclList):
            decls = [d for decl in first.decls for d in self.declaration(decl)]
            first = A.DeclList(decls, first.coord) if decls else None
        elif first is not None:
            self.dropped.add(id(first))
            first = self.expression(first)[0]
        self.dropped.add(id(node.next))
        test, step = self.test(node.cond), self.test(node.next)
        body = self.one(node.stmt)
        self.scopes.pop()
        self.tags.pop()
        return [A.For(first, test, step, body, node.coord)]

    def do_Switch(self, node):
        test = self.test(node.cond)
        return [A.Switch(test, self.one(node.stmt), node.coord)]

    def labelled(self, node, stmts):
        new = [s for stmt in stmts or [] for s in self.statement(stmt)]
        if new and isinstance(new[0], (A.Decl, A.Typedef)):
            self.note(node, "a ; is put behind the label")
            new.insert(0, A.EmptyStatement(node.coord))
        return new

    def do_Case(self, node):
        return [A.Case(self.expression(node.expr)[0], self.labelled(node, node.stmts), node.coord)]

    def do_Default(self, node):
        return [A.Default(self.labelled(node, node.stmts), node.coord)]

    def do_Break(self, node):
        return [node]

    do_Continue = do_Break

    def find_tails(self, body):
        """For each label directly in a function's body: its place, the statements from it to the first that surely leaves, as
        they are before any change, and the names that are declared before it."""
        self.tails, declared = {}, set()
        items = body.block_items or []
        for i, item in enumerate(items):
            if isinstance(item, A.Decl):
                declared.add(item.name)
            if isinstance(item, A.Label):
                self.tails[item.name] = (i, copy.deepcopy(until_it_leaves([item.stmt] + items[i + 1:])), set(declared))

    def do_Goto(self, node):
        """A jump on to a place further on becomes a copy of what stands from there to the end."""
        place, tail, declared = self.tails.get(node.name, (0, None, None))
        if tail is None:
            self.cannot(node, f"goto {node.name}: it leads back, or to no label of the function's own block")
            return [node]
        used = set().union(*(identifiers(item) for item in tail))
        hidden = {name for scope in self.scopes[2:] for name in scope}
        if used & hidden or (used & declared) - set(self.scopes[1]):
            self.cannot(node, f"goto {node.name}: names have another meaning there")
            return [node]
        if not isinstance(tail[-1], (A.Return, A.Goto)):
            if self.result.kind != "void":
                self.cannot(node, f"goto {node.name}: no return stands at the end")
                return [node]
            tail = tail + [A.Return(None, node.coord)]
        self.note(node, f"goto {node.name} becomes a copy of what stands from the label to the end")
        kept, self.tails = self.tails, {name: other for name, other in self.tails.items() if other[0] > place}
        copied = self.block(A.Compound(copy.deepcopy(tail), node.coord))
        self.tails = kept
        return [copied]

    def do_Label(self, node):
        self.note(node, f"the label {node.name} dropped")
        self.tails.pop(node.name, None)  # a goto behind it would lead back
        return self.statement(node.stmt)

    def do_Return(self, node):
        if node.expr is None:
            if self.function == "main":
                return [A.Return(A.Constant("int", "0"), node.coord)]
            return [node]
        if self.result is not None and self.result.kind == "void":
            self.note(node, "a value returned from a void function is evaluated before")
            return [A.Compound([self.expression(node.expr)[0], A.Return(None, node.coord)], node.coord)]
        if self.result is not None and self.result.kind == "struct":
            return self.with_before(node, self.given, True)
        return self.with_before(node, lambda n: [A.Return(self.converted(n.expr, self.result)[0], n.coord)], True)

    def given(self, node):
        """What a function does that gives a struct: it stores it, and returns."""
        stored = A.Assignment("=", A.UnaryOp("*", A.ID(self.result_name)), self.expression(node.expr)[0], node.coord)
        return [A.Compound([stored, A.Return(None, node.coord)], node.coord)]


def until_it_leaves(items):
    """Statements up to the first return or goto among them, labels aside."""
    found = []
    for item in items:
        found.append(item)
        while isinstance(item, A.Label):
            item = item.stmt
        if isinstance(item, (A.Return, A.Goto)):
            found[-1] = item
            break
    return found
