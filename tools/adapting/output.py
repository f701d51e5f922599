"""How the adapted tree is printed, with line markers, and the functions over putchar that may stand before it."""
import os
import re

from pycparser import c_ast as A
from pycparser import c_generator


def helpers():
    """The functions of printing.c by their names, in their order."""
    with open(os.path.join(os.path.dirname(os.path.realpath(__file__)), "printing.c")) as file:
        return {found[1]: found[0] for found in re.finditer(r"^static void (\w+)\(.*?^}\n", file.read(), re.M | re.S)}


class Generator(c_generator.CGenerator):
    """Prints C with a mark before each statement that says where it came from; `marked` makes line markers of them."""

    def mark(self, node):
        at = getattr(node, "coord", None)
        return f"\x01{at.line}\x01{at.file}\n" if at and at.file else ""

    def _generate_stmt(self, n, add_indent=False):
        text = super()._generate_stmt(n, add_indent)
        if isinstance(n, A.Compound):
            return text
        return self.mark(n) + text

    def external(self, node):
        if isinstance(node, str):
            return "\x01\n" + node
        text = self.visit(node)
        return self.mark(node) + (text if isinstance(node, A.FuncDef) else text + ";\n")


def marked(text):
    """Line markers, or empty lines, in the place of marks."""
    lines, here = [], (None, 0)
    for line in text.split("\n"):
        if not line.strip():
            continue
        if not line.startswith("\x01"):
            lines.append(line)
            here = (here[0], here[1] + 1)
            continue
        fields = line.split("\x01")
        if len(fields) < 3:
            lines.append('# 1 "adapt"')
            here = ("adapt", 1)
            continue
        wanted = (fields[2], int(fields[1]))
        if wanted[0] == here[0] and 0 <= wanted[1] - here[1] <= 3:
            lines.extend([""] * (wanted[1] - here[1]))
        elif wanted != here:
            lines.append(f'# {wanted[1]} "{wanted[0]}"')
        here = wanted
    return "\n".join(lines) + "\n"
