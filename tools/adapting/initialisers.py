"""Initialisers: their order, braces and zeros."""
from pycparser import c_ast as A

from adapting.dry import Dry
from adapting.kinds import SIZES, is_string


class Initialisers:
    """Initialisers: their order, braces and zeros."""

    def initialiser(self, type_, node):
        if isinstance(node, A.InitList) and self.is_braced_string(type_, node):
            return node.exprs[0]
        if type_.kind == "array" and is_string(node) or type_.kind == "union":
            return node
        if type_.kind in ("array", "struct"):
            if isinstance(node, A.CompoundLiteral):
                node = node.init
            if isinstance(node, A.InitList):
                return self.built(type_, self.braced(type_, list(node.exprs or []), node), node)
            return self.expression(node)[0]
        if isinstance(node, A.InitList):
            if not node.exprs:
                return A.Constant("int", "0", node.coord)
            node = node.exprs[0]
        return self.converted(node, type_)[0]

    @staticmethod
    def is_braced_string(type_, node):
        return (type_.kind == "array" and len(node.exprs or []) == 1 and is_string(node.exprs[0])
                and type_.to.kind == "int" and SIZES.get(type_.to.name) == 1)

    def member(self, type_, place):
        """The type of element or member number place, or None where there is none."""
        if type_.kind == "array":
            return type_.to if type_.length is None or place < type_.length else None
        members = self.structs.get(type_.name, [])
        return members[place][1] if place < len(members) else None

    def place(self, type_, designator):
        if type_.kind == "array":
            return self.value(designator)
        for i, (name, _) in enumerate(self.structs.get(type_.name, [])):
            if isinstance(designator, A.ID) and designator.name == name:
                return i
        return None

    def braced(self, type_, items, at, values=()):
        """A braced list: what is given for which element or member, as nodes and as mappings for what has parts. Some may have
        values from before (6.7.9 p19)."""
        values, place, i = dict(values), 0, 0
        while i < len(items):
            item = items[i]
            if isinstance(item, A.NamedInitializer):
                self.note(item, "an initialiser with a designator is put into its place")
                place = self.place(type_, item.name[0])
                if place is None or self.member(type_, place) is None:
                    self.cannot(item, "a designator of no constant place")
                    return values
                if len(item.name) > 1:
                    inner = self.member(type_, place)
                    old = values.get(place, {})
                    if not isinstance(old, dict):
                        self.cannot(item, "a designator into what a string or another object has initialised")
                        return values
                    values[place] = self.braced(inner, [A.NamedInitializer(item.name[1:], item.expr, item.coord)], item, old)
                    if i + 1 < len(items) and not isinstance(items[i + 1], A.NamedInitializer) and not self.is_last(inner, item.name[1:]):
                        self.cannot(items[i + 1], "an initialiser that goes on within a part that a designator names")
                    place, i = place + 1, i + 1
                    continue
                items[i] = item.expr
            inner = self.member(type_, place)
            if inner is None:
                self.cannot(item, "more initialisers than elements or members")
                return values
            values[place], i = self.part(inner, items, i)
            place += 1
        return values

    def is_last(self, type_, designators):
        """Whether nothing stands behind the part that the designators name, within this type."""
        for designator in designators:
            place = self.place(type_, designator)
            if place is None or self.member(type_, place + 1) is not None:
                return False
            type_ = self.member(type_, place)
        return True

    def part(self, type_, items, i):
        """What the next items give for one element or member."""
        item = items[i]
        if type_.kind not in ("array", "struct"):
            return (item[0] if isinstance(item, tuple) else self.initialiser(type_, item)), i + 1
        if isinstance(item, A.InitList) and not self.is_braced_string(type_, item):
            return self.braced(type_, list(item.exprs or []), item), i + 1
        if isinstance(item, A.InitList) or is_string(item) and type_.kind == "array" and type_.to.kind == "int":
            return self.initialiser(type_, item), i + 1
        if type_.kind == "struct" and not isinstance(item, (tuple, A.Constant)):
            _, found = Dry(self).expression_of(item)
            if found.kind == "struct" and found.name == type_.name:
                return self.expression(item)[0], i + 1
        self.note(item, "inner braces are put in")
        values, place = {}, 0
        while i < len(items) and not isinstance(items[i], A.NamedInitializer):
            inner = self.member(type_, place)
            if inner is None:
                break
            values[place], i = self.part(inner, items, i)
            place += 1
        return values, i

    def built(self, type_, values, at):
        if not isinstance(values, dict):
            return values
        if not values:
            return self.zero(type_)
        parts = []
        for place in range(max(values) + 1):
            inner = self.member(type_, place)
            parts.append(self.built(inner, values[place], at) if place in values else self.zero(inner))
        return A.InitList(parts, at.coord)

    def zero(self, type_):
        if type_.kind == "array":
            return A.InitList([self.zero(type_.to)])
        if type_.kind == "struct" and self.structs.get(type_.name):
            return A.InitList([self.zero(self.structs[type_.name][0][1])])
        return A.Constant("int", "0")
