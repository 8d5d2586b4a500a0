"""Writes an expression as text again, and the cases of a definition as guards and effects."""

from typing import Any, Dict, Iterator, List, Tuple

from book.expressions import Apply, Field, Fixity, If, Lambda, Let, Name, Pair, Record


class Writer:
    """Writes expressions with these operators."""

    def __init__(self, fixity: Fixity):
        self.fixity = fixity

    def text(self, tree: Any, least: int = 0) -> str:
        """Returns the text of an expression, in brackets if it binds less strongly than this."""
        text, strength = self.written(tree)
        return f"({text})" if strength < least else text

    def written(self, tree: Any) -> Tuple[str, int]:
        """Returns the text of an expression, and how strongly it binds."""
        if isinstance(tree, Name):
            return tree.word, 99
        if isinstance(tree, Apply) and getattr(tree.head, "word", "") in self.fixity:
            strength, side = self.fixity[tree.head.word]
            left, right = self.text(tree.given[0], strength + (side == "r")), self.text(tree.given[1], strength + (side != "r"))
            return f"{left} {tree.head.word} {right}", strength
        if isinstance(tree, Apply):
            return " ".join(self.text(one, 99) for one in (tree.head, *tree.given)), 98
        if isinstance(tree, Pair):
            return f"({', '.join(map(self.text, tree.parts))})", 99
        if isinstance(tree, Field):
            return ".".join([self.text(tree.base, 99), *tree.fields]), 99
        if isinstance(tree, Record):
            base = f"{self.text(tree.base, 99)} " if tree.base is not None else ""
            return f"record {base}{{ {'; '.join(f'{name} = {self.text(value)}' for name, value in tree.fields)} }}", 98
        if isinstance(tree, If):
            return f"if {self.text(tree.test)} then {self.text(tree.yes)} else {self.text(tree.no)}", 5
        if isinstance(tree, Lambda):
            return f"λ {' '.join(self.text(one, 99) for one in tree.patterns)}. {self.text(tree.body)}", 0
        if isinstance(tree, Let):
            return f"let {tree.name.word} = {self.text(tree.value)} in {self.text(tree.body)}", 0
        return "..", 99


def put_in(tree: Any, values: Dict[str, Any]) -> Any:
    """Returns an expression with other expressions for some of its names."""
    if isinstance(tree, Name):
        head, *fields = tree.word.split(".")
        value = values.get(head)
        if value is None or not fields:
            return tree if value is None else value
        return Name(".".join([value.word, *fields])) if isinstance(value, Name) else Field(value, fields)
    if not isinstance(tree, (tuple, list)):
        return tree
    parts = [put_in(part, values) for part in tree]
    made = type(tree)(*parts) if hasattr(tree, "_fields") else type(tree)(parts)
    return made.yes if isinstance(made, If) and made.test == Name("true") else made


def cases(tree: Any) -> Iterator[Tuple[List[Any], Any]]:
    """Yields the guards of each case of a chain of choices, and what it returns."""
    while isinstance(tree, If):
        for guards, value in cases(tree.yes):
            yield [tree.test, *guards], value
        tree = tree.no
    yield [], tree
