"""The values of the definitions: lists, which share what did not change, and what is computed only when it is read.

A number is an int, a pair a tuple, a record a dict, and a constructor a tuple that begins with its name. A list is NIL, or has a
head and a tail. No definition can tell in which way a list is kept: as a pair (Cons), or in parts that were not yet read. These are
two lists that were appended, or rows, so that a memory with one new number shares all other rows with the old one.
"""

from itertools import islice
from typing import Any, Callable, Iterable, Iterator

from book.expressions import Stuck

NIL = None


def stuck(what: str, *_: Any) -> None:
    """Says that something can't be computed."""
    raise Stuck(what)


def together(*given: Any) -> tuple:
    """Returns a constructor with its arguments."""
    return given


class Cons:
    """A list with a head and a tail."""

    __slots__ = ("head", "tail")
    width = 0

    def __eq__(self, other: Any) -> bool:
        raise Stuck("`==` of lists: it compares numbers, and `≡` all else")

    __hash__ = object.__hash__

    def __init__(self, head: Any, tail: Any):
        self.head, self.tail = head, tail


class Parts(Cons):
    """A list in parts, which becomes a pair when its head or its tail is read. Rows are tuples of one width, or less at the end."""

    __slots__ = ("parts", "width", "size")

    def __init__(self, parts: tuple, width: int = 0, size: int = 0):  # pylint: disable=super-init-not-called
        self.parts, self.width, self.size = parts, width, size

    def __getattr__(self, name: str) -> Any:
        pairs = listed(items(self))
        self.head, self.tail = pairs.head, pairs.tail
        return getattr(pairs, name)


def items(xs: Any) -> Iterator[Any]:
    """Yields the elements of a list."""
    later = [xs]
    while later:
        xs = later.pop()
        while type(xs) is Cons:
            yield xs.head
            xs = xs.tail
        if type(xs) is Parts:
            later += reversed(xs.parts)
        elif xs is not NIL:
            yield from xs


def listed(elements: Iterable, end: Any = NIL) -> Any:
    """Returns a list of elements, with another list behind them."""
    for x in reversed(list(elements)):
        end = Cons(x, end)
    return end


def append(xs: Any, ys: Any) -> Any:
    """Returns one list after the other."""
    return ys if xs is NIL else xs if ys is NIL else Parts((xs, ys))


def replicate(n: int, x: Any) -> Any:
    """Returns a list of n copies."""
    width = 1 << (n.bit_length() + 1) // 2
    rows = ((x,) * width,) * (n // width)
    return Parts(rows + ((x,) * (n % width),), width, n) if n else NIL


def element(xs: Any, i: int, default: Any) -> Any:
    """Returns element i, or the default past the end."""
    if xs is not NIL and xs.width:
        return xs.parts[i // xs.width][i % xs.width] if i < xs.size else default
    return next(islice(items(xs), i, None), default)


def with_element(xs: Any, i: int, x: Any) -> Any:
    """Returns the list with element i replaced; past the end nothing changes."""
    if xs is NIL or not xs.width:
        return listed(x if k == i else y for k, y in enumerate(items(xs)))
    k, at = divmod(i, xs.width)
    if i >= xs.size:
        return xs
    row = xs.parts[k][:at] + (x,) + xs.parts[k][at + 1:]
    return Parts(xs.parts[:k] + (row,) + xs.parts[k + 1:], xs.width, xs.size)


def drop(n: int, xs: Any) -> Any:
    """Returns the list without its first n elements."""
    while n and xs is not NIL:
        n, xs = n - 1, xs.tail
    return xs


def is_same(x: Any, y: Any) -> bool:
    """Tells whether two values of data are the same."""
    if x is y:
        return True
    if callable(x) or callable(y):
        raise Stuck("whether two functions are the same")
    if x is NIL or y is NIL:
        return False
    if isinstance(x, Cons) and isinstance(y, Cons):
        x, y = tuple(items(x)), tuple(items(y))
    if type(x) is dict and type(y) is dict:
        x, y = tuple(sorted(x.items())), tuple(sorted(y.items()))
    if type(x) is tuple and type(y) is tuple:
        return len(x) == len(y) and all(map(is_same, x, y))
    return x == y


class Partial:
    """A function that waits for more arguments, which it takes one by one."""

    __slots__ = ("function", "missing", "given")

    def __init__(self, function: Callable, missing: int, *given: Any):
        self.function, self.missing, self.given = function, missing, given

    def __call__(self, x: Any) -> Any:
        given = (*self.given, x)
        return self.function(*given) if self.missing == 1 else Partial(self.function, self.missing - 1, *given)
