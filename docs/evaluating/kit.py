"""The words of the Rattle kit, which the definitions use and this repository does not have. Each is written here by hand.

A function among the arguments takes one argument at a time. `All` is a statement about each index in the kit, and here a test of
each element, which is the same for a list at hand.
"""

import functools
import re
from itertools import islice
from typing import Any, Dict, Tuple

from evaluating.lists import NIL, Cons, Stuck, append, drop, element, is_same, items, listed, replicate, with_element

NONE = ("None",)


def text_of(codes: Any) -> str:
    """Returns a list of character codes as a text."""
    try:
        return bytes(items(codes)).decode("utf-8", "surrogateescape")
    except (TypeError, ValueError):
        raise Stuck("the text of what is no list of bytes") from None


# ---- clap. Its definitions in the kit are some 800 lines. This is its rule for a command whose options all have a long name and
# one value, and which has one argument without a name; the command itself is the one of the definitions.

def fault_of_flag(word: str, options: Dict[str, str]) -> str:
    """Returns the fault of a word that begins with a hyphen: none if it is one of the options, or ends them."""
    option, equals, _ = word.partition("=")
    if option in options or word == "--":
        return ""
    if option == "--help" and equals:
        return "TooManyValues"
    return "DisplayHelp" if word == "--help" or word.startswith("-h") else "UnknownArgument"


def read_words(app: dict, words: Any) -> Tuple[Dict[str, Any], str]:
    """Returns the values that the words after the first give to the options, and the first fault, if any."""
    rules = list(items(app["rules"]))
    options = {"--" + text_of(rule["long"][1]): text_of(rule["id"]) for rule in rules if rule["long"] != NONE}
    unnamed = next(text_of(rule["id"]) for rule in rules if rule["long"] == NONE)
    values, has_ended = {}, False  # type: Dict[str, Any], bool
    later = iter(list(map(text_of, items(words)))[1:])
    for word in later:
        if word == "--" and not has_ended:
            has_ended = True
            continue
        name, value, fault = unnamed, word, ""
        if not has_ended and re.match("-.", word):
            option, equals, value = word.partition("=")
            name, fault = options.get(option, ""), fault_of_flag(word, options)
            value = value if equals or fault else next(later, "--")
            if not fault and not equals and re.match("-.", value):
                fault = fault_of_flag(value, options).replace("DisplayHelp", "") or "InvalidValue"
        if not fault and name in values:
            fault = "UnknownArgument" if name == unnamed else "ArgumentConflict"
        if fault:
            return values, fault
        values[name] = listed(value.encode("utf-8", "surrogateescape"))
    return values, ""


# The values of a type of the kit.
VALUES = {"ErrorKind": [(f"ErrorKind.{kind}",) for kind in
                        ("DisplayHelp", "TooManyValues", "UnknownArgument", "InvalidValue", "ArgumentConflict")]}

# ---- The words: each a function, or a text of Python in which {0}, {1} .. are the arguments.

KIT: Dict[str, Any] = {
    "zero": "0", "suc": "({0} + 1)", "+": "({0} + {1})", "-": "max({0} - {1}, 0)", "*": "({0} * {1})", "/": "({0} // {1})",
    "%": "({0} % {1})", "^": "({0} ** {1})", "min": "min({0}, {1})", "max": "max({0}, {1})",
    "bit_and": "({0} & {1})", "bit_xor": "({0} ^ {1})",
    "true": "True", "false": "False", "not": "(not {0})", "&&": "({0} and {1})", "||": "({0} or {1})", "==": "({0} == {1})",
    "nat_lt": "({0} < {1})", "nat_le": "({0} <= {1})", "is_ascii_digit": "(48 <= {0} <= 57)", "cond": "({1} if {0} else {2})",
    "⊤": "True", "⊥": "False", "Unit": "True", "tt": "True", "×": "({0} and {1})", "⊎": "({0} or {1})", "<": "({0} < {1})",
    "≤": "({0} <= {1})", "≡": "is_same({0}, {1})", "≢": "(not is_same({0}, {1}))",
    "DisplayHelp": "('ErrorKind.DisplayHelp',)",
    "IsAmong": lambda kind, kinds: kind in items(kinds),
    "Appends": lambda old, new, more: old == NONE or new != NONE and is_same(new[1], append(old[1], more)),
    "Consumes": lambda old, new, taken: old == NONE or new != NONE and is_same(old[1], append(taken, new[1])),
    "IfOk": lambda x, fact: x[0] != "Ok" or fact(x[1]),
    "IfSome": lambda x, fact: x[0] != "Some" or fact(x[1]),
    "All": lambda test, xs: all(map(test, items(xs))),
    "AllByRecursion": lambda test, xs: all(map(test, items(xs))),
    "IsTrue": "{0}",

    "[]": "NIL", "∷": "Cons({0}, {1})", "++": "append({0}, {1})", "codes": "{0}", "slice_index": "element({0}, {1}, 0)",
    "length": lambda xs: getattr(xs, "size", 0) or sum(1 for _ in items(xs)),
    "take": lambda n, xs: listed(islice(items(xs), n)),
    "drop": drop,
    "replicate": replicate,
    "range_with_len": lambda start, n: listed(range(start, start + n)),
    "reverse": lambda xs: listed(list(items(xs))[::-1]),
    "concat": lambda xs: functools.reduce(append, items(xs), NIL),
    "map": lambda f, xs: listed(map(f, items(xs))),
    "flat_map": lambda f, xs: functools.reduce(append, map(f, items(xs)), NIL),
    "fold": lambda f, start, xs: functools.reduce(lambda found, x: f(found)(x), items(xs), start),
    "position": lambda test, xs: next((("Some", i) for i, x in enumerate(items(xs)) if test(x)), NONE),
    "list_all": lambda test, xs: all(map(test, items(xs))),
    "list_any": lambda test, xs: any(map(test, items(xs))),
    "slice_index_or": element,
    "get_or": element,
    "set": with_element,
    "slice_set": with_element,
    "decimal": lambda n: listed(str(n).encode()),
    "digits_value": lambda base, digits: functools.reduce(lambda n, digit: n * base + digit - 48, items(digits), 0),
    "str_eq_ignore_ascii_case": lambda a, b: bytes(items(a)).lower() == bytes(items(b)).lower(),

    "None": "NONE", "Some": "('Some', {0})", "Ok": "('Ok', {0})", "Err": "('Err', {0})", "is_none": "({0} == NONE)",
    "option_map": lambda f, x: ("Some", f(x[1])) if x[0] == "Some" else NONE,
    "option_and_then": lambda f, x: f(x[1]) if x[0] == "Some" else NONE,
    "unwrap_or": lambda x, other: x[1] if x[0] in ("Some", "Ok") else other,
    "option_to_list": lambda x: Cons(x[1], NIL) if x[0] == "Some" else NIL,
    "result_map_both": lambda f, g, x: ("Ok", f(x[1])) if x[0] == "Ok" else ("Err", g(x[1])),

    "Set": "('Set',)",
    "new_app": lambda name: {"rules": NIL},
    "new_rule": lambda name: {"id": name, "long": NONE, "action": NONE},
    "with_rule": lambda app, rule: {"rules": append(app["rules"], Cons(rule, NIL))},
    "matches_of": lambda app, words: read_words(app, words)[0],
    "first_of": lambda name, values: ("Some", values[text_of(name)]) if text_of(name) in values else NONE,
    "fault_of": lambda app, words: listed((f"ErrorKind.{fault}",) for fault in read_words(app, words)[1:] if fault),
}
