"""Finds the definitions that contracts rest on, and puts them in the order in which a reader meets them."""

import fnmatch
import os
import re
import textwrap

from book.names import Field, Library, Reading, Unresolved, is_trait
from book.sources import Definition


def contract(sources, path, name):
    """Returns what a function requires and ensures, as a definition."""
    crate, *rest = path[:-len(".rt")].split("/")
    scope = sources.scopes.get((crate, "src", ".".join(rest[1:])))
    with open(os.path.join(sources.top, "crates", path), encoding="utf-8") as file:
        source = file.read()
    found = re.search(rf"^ *pub fn {name}\b.*?(?=^ *\{{)", source, re.M | re.S)
    if not found:
        raise Unresolved(f"{path}: {name}")
    written = textwrap.dedent(found.group()).rstrip()
    return Definition("contract", name, scope, source.count("\n", 0, found.start()) + 1, "", written)


class Reach:
    """What contracts rest on: definitions and words of the kit, each with its users. Ghost members count if they are read."""

    def __init__(self, sources, contracts):
        self.sources, self.contracts = sources, contracts
        self.readings = {one: Reading(sources, one) for one in contracts}  # of each definition that is reached, traits too
        self.fields = set()  # the fields that are read
        self.users = {}
        known = -1
        while known != len(self.readings) + len(self.fields):
            known = len(self.readings) + len(self.fields)
            for user in list(self.readings):
                self.follow(user)

    def follow(self, user):
        """Adds what a definition uses."""
        targets = [use.target for use in self.readings[user].uses if use.guard is None or use.guard in self.fields]
        read = [target.name for target in targets if isinstance(target, Field)]
        self.fields.update(read)
        targets += [trait.ghosts[name] for trait in targets if is_trait(trait) for name in read if name in trait.ghosts]
        for target in targets:
            if not isinstance(target, Field) and target is not user:
                self.users.setdefault(target, {})[user] = None
            if isinstance(target, Definition) and target not in self.readings:
                self.readings[target] = Reading(self.sources, target)

    def kit(self):
        """Returns the words of the kit, by module."""
        return sorted((target for target in self.users if isinstance(target, Library)), key=lambda word: (word.module, word.name))

    def ordered(self):
        """Returns the definitions: first the statement that the first contract names, and then each after all its users but for
        those in a circle."""
        met, order, used = set(), [], {}
        for target, users in self.users.items():
            for user in users if isinstance(target, Definition) else ():
                used.setdefault(user, []).append(target)

        def visit(definition):
            first = [use.target for use in self.readings[definition].uses] + used.get(definition, [])
            for target in sorted(used.get(definition, ()), key=first.index, reverse=True):
                if target not in met:
                    met.add(target)
                    visit(target)
            order.append(definition)

        first, *others = self.contracts
        for one in [first, *reversed(others)]:
            visit(one)
        statement = next(use.target for use in self.readings[first].uses if isinstance(use.target, Definition))
        found = [definition for definition in reversed(order) if definition.kind not in ("trait", "contract")]
        return sorted(found, key=lambda definition: definition is not statement)

    def chapters(self, patterns):
        """Returns the definitions of each chapter: by the longest pattern that fits, but none in a chapter before all its users."""
        number = {}
        for definition in self.ordered():
            places = (definition.place, definition.whole_name)
            fitting = [(len(pattern), at) for at, wanted in enumerate(patterns) for pattern in wanted
                       if any(fnmatch.fnmatchcase(place, pattern) for place in places)]
            own = max(fitting)[1] if fitting else len(patterns)
            number[definition] = max(own, min(number.get(user, 0) for user in self.users[definition]))
        return [[definition for definition, at in number.items() if at == chapter] for chapter in range(len(patterns) + 1)]
