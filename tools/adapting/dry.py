"""Questions to an adapter that leave nothing behind."""
import copy


class Dry:
    """Asks for an expression's type and leaves nothing behind."""

    def __init__(self, adapter):
        self.adapter = adapter

    def quietly(self, ask, node):
        a = self.adapter
        kept = (list(a.out), list(a.notes), list(a.faults), set(a.used), dict(a.made), a.before, copy.deepcopy(a.found), list(a.helpers),
                dict(a.dispatchers), list(a.scopes), [dict(s) for s in a.scopes])
        a.before = []
        try:
            return ask(copy.deepcopy(node))
        finally:
            (a.out, a.notes, a.faults, a.used, a.made, a.before, a.found, a.helpers, a.dispatchers, scopes, inner) = kept
            for scope, old in zip(scopes, inner):
                scope.clear()
                scope.update(old)
            a.scopes = scopes

    def expression(self, node):
        return self.quietly(self.adapter.expression, node)[1]

    def expression_of(self, node):
        return self.quietly(self.adapter.expression, node)

    def rvalue(self, node):
        return self.quietly(self.adapter.rvalue, node)
