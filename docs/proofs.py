#!/usr/bin/env python3
"""Makes docs/PROOFS.md, the page of what is proved, from docs/promises.txt: docs/proofs.py [--check]
Prints what is proved of crates and calls, each clause and the mutants that it rejects: docs/proofs.py NAME ..

In docs/promises.txt a line '### NAME' begins a promise. Below its sentences are lines of these kinds:

    call: CRATE::TYPE::CALL: CLAUSE, CLAUSE    a public call, with the clauses that say so (none named: all that it has)
    theorem: CRATE::CALL                       the same of a function that does nothing, whose contract is a statement
    defined: CRATE/FILE: WORD, WORD            words of specs/FILE.antt that the clauses use

Each mutant, crates/CRATE/mutants/NAME.edit (of pp_arith must-fail/NAME.edit), has a line '# call: CRATE::TYPE::CALL', or several:
the call of its own crate whose contract rejects it. A line '# promise: NAME' before it names the promise that it breaks, if the
page has it. The text that it changes is there.

What is named and is not there is a fault: a call, a clause, a definition, a promise; so is a promise without a mutant. Faults are
printed, and then nothing is written. With --check nothing is written either, and it is a fault if the page is not what would be
made.
"""

import sys

if __name__ == "__main__" and not getattr(sys.flags, "safe_path", False):
    del sys.path[0]  # nothing beside this file is taken for a module of Python's own
import collections
import glob
import os
import re
import textwrap

TOP = os.path.dirname(os.path.dirname(os.path.abspath(__file__)))
PAGE = "docs/PROOFS.md"
TEXT = os.path.join(TOP, "docs", "promises.txt")
MADE = "<!-- docs/proofs.py makes this page from docs/promises.txt, crates/*/src and crates/*/mutants: change those. -->\n\n"
WHOLE = {"break_long_words": False, "break_on_hyphens": False}
KEY = re.compile(r"^(call|theorem|defined): (.*)\n", re.M)

# Of a promise: its calls, each with clauses and whether it is a theorem, and the definitions.
Promise = collections.namedtuple("Promise", "name calls definitions")
Call = collections.namedtuple("Call", "name clauses is_theorem")


def read(path):
    with open(path, encoding="utf-8") as file:
        return file.read()


def owners(line):
    """Returns the trait and the type of a line that opens a trait or an impl, None in place of what it has not."""
    opened = re.match(r"(?:pub )?(?:unsafe )?(impl|trait)\b(.*?)\{?$", line)
    if not opened:
        return None
    head = opened[2]
    while re.search(r"<[^<>]*>", head):
        head = re.sub(r"<[^<>]*>", "", head)
    names = [re.findall(r"\w+", part.split(" where ")[0].split(":")[0])[-1] for part in head.split(" for ")]
    return (names[0], None) if opened[1] == "trait" else (names[0] if len(names) > 1 else None, names[-1])


def contracts_of(text):
    """Yields (trait, type, function, clauses) of each function, and of each `ghost` item. A clause without a name is ''."""
    owner, function, clauses = (None, None), None, []
    for line in text.splitlines() + ["}"]:
        found = re.match(r'\s*(?:pub(?:\([^)]*\))? )?(?:const )?(?:extern "C" )?(fn|ghost) (\w+)', line)
        if function and (found or line in ("}", "    }")):
            yield (*owner, function, clauses)
            function = None
        if not line.startswith(" "):
            owner = owners(line) or ((None, None) if line == "}" else owner)
        if found and found[2] != "use":
            function, clauses = found[2], [""] if found[1] == "ghost" else []
        clause = re.match(r"\s*ensures\*?\s+(\w*)\s*\{", line)
        if clause and function:
            clauses.append(clause[1])


def contracts():
    """Returns what contracts_of yields of each crate's sources."""
    return {crate: [contract for path in sorted(glob.glob(os.path.join(TOP, "crates", crate, "src", "**", "*.rt"), recursive=True))
                    for contract in contracts_of(read(path))] for crate in sorted(os.listdir(os.path.join(TOP, "crates")))}


def clauses_of(known, call):
    """Returns the clauses of a call, CRATE::TYPE::CALL or CRATE::CALL, with those of its trait, or None if it is not there."""
    crate, *of_type, name = call.split("::")
    of_type = of_type[0] if of_type else None
    own = [found for found in known.get(crate, ()) if (found[1] or found[0]) == of_type]
    traits = {found[0] for found in own if found[0] and found[1]}
    from_traits = [found for every in known.values() for found in every if found[0] in traits and not found[1]]
    every = [clauses for *_, found, clauses in own + from_traits if found == name]
    return list(dict.fromkeys(sum(every, []))) if every else None


def defines(text, word):
    start = r"^\s*(?:abbrev |unfoldable |irreducible )?(?:pub )?(?:record |data )?"
    return re.search(start + re.escape(word) + r"(?:\s|$)", text, re.M)


def blocks(text):
    """Returns the text in parts, one a heading, each with its promise, or None if its heading is not of one."""
    found = []
    for block in re.split(r"^(?=##)", text, flags=re.M):
        keys = KEY.findall(block) if block.startswith("### ") else []
        calls = [Call(name, list(filter(None, clauses.split(", "))), key == "theorem") for key, value in keys
                 for name, _, clauses in [value.partition(": ")] if key in ("call", "theorem")]
        definitions = [value for key, value in keys if key == "defined"]
        promise = Promise(block.partition("\n")[0][len("### "):], calls, definitions) if keys else None
        found.append((KEY.sub("", block).rstrip() if keys else block.rstrip(), promise))
    return found


def edits():
    """Returns the paths of all mutants."""
    return [path for folder in ("must-fail", "mutants")
            for path in sorted(glob.glob(os.path.join(TOP, "crates", "*", folder, "*.edit")))]


def mutants():
    """Returns the crate, the name and the pairs of promise, or "", and call of each mutant."""
    found = []
    for path in edits():
        pairs, promise = [], ""
        for key, value in re.findall(r"^# (promise|call): (.*)", read(path), re.M):
            pairs += [(promise, value)] if key == "call" else []
            promise = value if key == "promise" else ""
        found.append((path[len(TOP):].split(os.sep)[2], os.path.basename(path)[:-len(".edit")], pairs))
    return found


def faults_of_edits():
    """Yields each mutant whose text is not there exactly once, as its pairs are applied one after another."""
    for path in edits():
        texts, name, old = {}, "", ""
        for key, value in re.findall(r"^(file|old|new):(?: (.*))?$", read(path), re.M):
            if key == "file":
                name = os.path.join(os.path.dirname(os.path.dirname(path)), value)
            elif key == "old":
                old = value
            elif texts.setdefault(name, read(name)).count(old) != 1:
                yield f"{path[len(TOP) + 1:]}: what it changes is {texts[name].count(old)} times in its file: {old}"
            else:
                texts[name] = texts[name].replace(old, value)


def faults_of_mutants(promises, known):
    """Yields each fault in the lines of the mutants, and each promise without a mutant."""
    named = {(promise.name, call.name) for promise in promises for call in promise.calls}
    for crate, mutant, pairs in mutants():
        for promise, call in pairs or [("", "")]:
            if promise and (promise, call) not in named:
                yield f"{crate}/{mutant}.edit: docs/promises.txt has no promise {promise} of the call {call}"
            elif not call.startswith(crate + "::") or not clauses_of(known, call):
                yield f"{crate}/{mutant}.edit: its crate has no call '{call}' with a clause"
    met = {promise for *_, pairs in mutants() for promise, _ in pairs}
    yield from (f"{promise.name}: it has no mutant" for promise in promises if promise.name not in met)


def faults_of_names(promises, known):
    """Yields each call, clause and definition of the text that is not there."""
    for promise in promises:
        for call in promise.calls:
            clauses = clauses_of(known, call.name)
            if not clauses:
                yield f"{promise.name}: there is no call {call.name} with a clause"
            lacking = [word for word in call.clauses if word not in (clauses or call.clauses)]
            yield from (f"{promise.name}: {call.name} has no clause {word}" for word in lacking)
        for place, _, words in (definition.partition(": ") for definition in promise.definitions if "/" in definition):
            path = os.path.join(TOP, "crates", place.replace("/", "/specs/", 1) + ".antt")
            text = read(path) if os.path.exists(path) else ""
            lacking = [word for word in words.split(", ") if not (defines(text, word) if word else text)]
            yield from (f"{promise.name}: {place} has no {word or 'file in specs/'}" for word in lacking)


def quoted(before, words):
    return before + ", ".join(f"`{word}`" for word in words) if words else ""


def lines_of(promise, against, known):
    """Yields the lines below a promise: its calls with their clauses and mutants, and its definitions."""
    for call in promise.calls:
        clauses = call.clauses or list(filter(None, clauses_of(known, call.name)))
        rejected = quoted(" Mutants: ", against[promise.name, call.name])
        yield f"`{call.name}`{' (theorem)' if call.is_theorem else ''}{quoted(': ', clauses)}.{rejected}{'.' if rejected else ''}"
    places = []
    for place, _, words in (definition.partition(": ") for definition in promise.definitions):
        link = f"[{place}](../crates/{place.replace('/', '/specs/', 1)}.antt)" if "/" in place else place
        places.append(link + quoted(": ", list(filter(None, words.split(", ")))))
    if places:
        yield f"Defined in {'; '.join(places)}."


def page_of(parts, known):
    against = collections.defaultdict(list)
    for _, mutant, pairs in mutants():
        for pair in pairs:
            against[pair].append(mutant)
    made = []
    for kept, promise in parts:
        lines = lines_of(promise, against, known) if promise else ()
        made.append("\n".join([kept, "", *("- " + "\n  ".join(textwrap.wrap(line, 128, **WHOLE)) for line in lines)]).rstrip()
                    + "\n")
    return MADE + "\n".join(made)


def told(name, known):
    """Yields a line for each call of a crate, or for one call: its clauses, and the mutants that they reject."""
    rejected = collections.defaultdict(list)
    for _, mutant, pairs in mutants():
        for _, call in pairs:
            rejected[call].append(mutant)
    crate = name.split("::")[0]
    for trait, of_type, call, clauses in known.get(crate, ()):
        path = "::".join(filter(None, (crate, of_type or trait, call)))
        if (path + "::").startswith(name + "::") and (clauses or rejected[path]):
            mutants_of = f"; mutants: {', '.join(rejected[path])}" if rejected[path] else ""
            yield f"{path}: {', '.join(filter(None, clauses)) or 'one clause'}{mutants_of}"


def show(names):
    """Prints what is proved of these crates and calls."""
    known = contracts()
    for name in names:
        lines = list(told(name, known))
        if not lines:
            print(f"docs/proofs.py: there is no crate or call {name} with a clause", file=sys.stderr)
            return 2
        print("\n".join(lines))
    return 0


def main():
    if sys.argv[1:] not in ([], ["--check"]):
        return show(sys.argv[1:])
    parts, known = blocks(read(TEXT)), contracts()
    promises = [promise for _, promise in parts if promise]
    faults = [*faults_of_names(promises, known), *faults_of_mutants(promises, known), *faults_of_edits()]
    path, page = os.path.join(TOP, PAGE), page_of(parts, known) if not faults else ""
    if not faults and not sys.argv[1:]:
        with open(path, "w", encoding="utf-8") as file:
            file.write(page)
    elif not faults and (not os.path.exists(path) or read(path) != page):
        faults.append(f"{PAGE} is not what docs/proofs.py makes: run docs/proofs.py")
    print("".join(fault + "\n" for fault in faults), end="")
    return 1 if faults else 0


if __name__ == "__main__":
    sys.exit(main())
