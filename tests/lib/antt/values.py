"""The values that definitions give, and the words of the standard library that they use.

A number is an int, a truth a bool. Every other value stands once: two that are equal are one object, so that they are
compared at once and what was worked out of one can be looked up. A function is known by its name and the values that
it has already; one that a definition writes by λ is known as itself alone.
"""

from functools import lru_cache


class Cons:
    """A list with a first element."""

    __slots__ = ("head", "tail")

    def __init__(self, head, tail):
        self.head, self.tail = head, tail


class Con:
    """A constructor with its parts."""

    __slots__ = ("tag", "args")

    def __init__(self, tag, args):
        self.tag, self.args = tag, args


class Fn:
    """A function of so many values, after those that it has."""

    __slots__ = ("arity", "code", "args")

    def __init__(self, arity, code, args=()):
        self.arity, self.code, self.args = arity, code, args


class Stuck(Exception):
    """No clause fits: such a definition isn't whole."""


NIL = Con("[]", ())
LISTS, CONSTRUCTORS, RECORDS, PARTIAL, SHAPES = {}, {}, {}, {}, {}


def cons(head, tail):
    key = (head, tail, head.__class__ is bool)
    found = LISTS.get(key)
    if found is None:
        found = LISTS[key] = Cons(head, tail)
    return found


def con(tag, *args):
    key = (tag, args, tuple(it.__class__ is bool for it in args))
    found = CONSTRUCTORS.get(key)
    if found is None:
        found = CONSTRUCTORS[key] = Con(tag, args)
    return found


def shape(names):
    """The class of the records with these fields."""
    found = SHAPES.get(names)
    if found is None:
        found = SHAPES[names] = type("Record", (), {"__slots__": names, "names": names})
    return found


def record(names, *values):
    key = (names, values, tuple(it.__class__ is bool for it in values))
    found = RECORDS.get(key)
    if found is None:
        found = shape(names)()
        for name, value in zip(names, values):
            setattr(found, name, value)
        RECORDS[key] = found
    return found


def updated(base, **changes):
    """A record with other values in some fields."""
    return record(base.names, *(changes.get(name, getattr(base, name)) for name in base.names))


def partial(name, arity, code, *args):
    """A function that has some of its values."""
    key = (name, args)
    found = PARTIAL.get(key)
    if found is None:
        found = PARTIAL[key] = Fn(arity, code, args)
    return found


def ap(fn, *args):
    """A function at so many values as are given."""
    while args:
        if len(args) == fn.arity:
            return fn.code(*fn.args, *args)
        if len(args) < fn.arity:
            return partial(fn, fn.arity - len(args), fn.code, *fn.args, *args)
        fn, args = fn.code(*fn.args, *args[: fn.arity]), args[fn.arity :]
    return fn


def stuck(name):
    raise Stuck(name)


# ---- lists of Python and back

def items(xs):
    found = []
    while xs is not NIL:
        found.append(xs.head)
        xs = xs.tail
    return found


def listed(values, tail=NIL):
    for it in reversed(values):
        tail = cons(it, tail)
    return tail


def shown(value):
    """A value as a reader can compare it: a list of codes as a text."""
    if value is NIL or isinstance(value, Cons):
        parts = items(value)
        if parts and all(it.__class__ is int and (32 <= it < 0x110000 or it == 10) for it in parts):
            return "".join(map(chr, parts)).__repr__()
        return "[" + ", ".join(map(shown, parts)) + "]"
    if isinstance(value, Con):
        return value.tag.rpartition(".")[2] + "".join(f" ({shown(it)})" if isinstance(it, Con) and it.args else f" {shown(it)}" for it in value.args)
    if isinstance(value, tuple):
        return "(" + ", ".join(map(shown, value)) + ")"
    if hasattr(value, "names"):
        return "{" + "; ".join(f"{name} = {shown(getattr(value, name))}" for name in value.names) + "}"
    return str(value)


# ---- the words of the standard library

NONE = con("Option.None")


def some(value):
    return con("Option.Some", value)


def is_none(option):
    return option is NONE


def is_some(option):
    return option is not NONE


def option_map(fn, option):
    return NONE if option is NONE else some(ap(fn, option.args[0]))


def option_and_then(fn, option):
    return NONE if option is NONE else ap(fn, option.args[0])


def unwrap_or(option, other):
    return other if option is NONE else option.args[0]


def option_or(option, other):
    return other if option is NONE else option


@lru_cache(maxsize=None)
def codes(text):
    return listed([ord(it) for it in text])


@lru_cache(maxsize=None)
def decimal(number):
    """The digits of a number, the last 64 at most."""
    return codes(str(number)[-64:])


def append(xs, ys):
    return listed(items(xs), ys)


def mapped(fn, xs):
    return listed([ap(fn, it) for it in items(xs)])


def flat_map(fn, xs):
    return listed([it for x in items(xs) for it in items(ap(fn, x))])


def kept(test, xs):
    return listed([it for it in items(xs) if ap(test, it)])


def find(test, xs):
    for it in items(xs):
        if ap(test, it):
            return some(it)
    return NONE


def list_any(test, xs):
    return any(ap(test, it) for it in items(xs))


def list_all(test, xs):
    return all(ap(test, it) for it in items(xs))


def sum_by(fn, xs):
    return sum(ap(fn, it) for it in items(xs))


def length(xs):
    return len(items(xs))


def replicate(n, it):
    return listed([it] * n)


def take(n, xs):
    found = []
    while n and xs is not NIL:
        found.append(xs.head)
        n, xs = n - 1, xs.tail
    return listed(found)


def drop(n, xs):
    while n and xs is not NIL:
        n, xs = n - 1, xs.tail
    return xs


def slice_get(xs, n):
    rest = drop(n, xs)
    return NONE if rest is NIL else some(rest.head)


def slice_index_or(xs, n, other):
    rest = drop(n, xs)
    return other if rest is NIL else rest.head


def slice_index(xs, n):
    return slice_index_or(xs, n, 0)


def bytes_eq(xs, ys):
    return xs is ys


def join_with_byte(byte, parts):
    found = []
    for at, part in enumerate(items(parts)):
        if at:
            found.append(byte)
        found += items(part)
    return listed(found)


def slice_split(test, xs):
    parts = [[]]
    for it in items(xs):
        if ap(test, it):
            parts.append([])
        else:
            parts[-1].append(it)
    return listed([listed(it) for it in parts])


def chars(xs):
    """The characters that bytes of UTF-8 spell; of other bytes what the library's word gives of them."""
    found, left, letter = [], 0, None
    for byte in items(xs):
        if left:
            left, letter = left - 1, letter * 64 + max(byte - 128, 0)
            continue
        if letter is not None:
            found.append(letter)
        left = 0 if byte < 128 else 1 if byte < 224 else 2 if byte < 240 else 3
        letter = byte - (0, 192, 224, 240)[left] if byte >= 192 or left == 0 else 0
    return listed(found + [letter] if letter is not None and not left else found)


def encode_utf8_all(xs):
    return listed(list("".join(map(chr, items(xs))).encode("utf-8")))


def days_in_month(year, month):
    if month == 2:
        return 29 if year % 4 == 0 and (year % 100 or year % 400 == 0) else 28
    return 30 if month in (4, 6, 9, 11) else 31


def less(m, n):
    return m < n


def before_first(test, xs):
    found = []
    for it in items(xs):
        if ap(test, it):
            break
        found.append(it)
    return listed(found)


def after_first(test, xs):
    its = list(items(xs))
    for at, it in enumerate(its):
        if ap(test, it):
            return listed(its[at + 1:])
    return listed([])


def at_most(m, n):
    return m <= n


def negated(truth):
    return not truth


def same(it):
    return it


# Each word: how many values it takes, and what works it out.
WORDS = {
    "is_none": (1, is_none), "is_some": (1, is_some), "option_map": (2, option_map), "option_and_then": (2, option_and_then), "unwrap_or": (2, unwrap_or), "option_or": (2, option_or),
    "codes": (1, codes), "decimal": (1, decimal), "map": (2, mapped), "flat_map": (2, flat_map), "filter": (2, kept), "find": (2, find), "list_any": (2, list_any), "list_all": (2, list_all),
    "sum_by": (2, sum_by), "length": (1, length), "replicate": (2, replicate), "take": (2, take), "drop": (2, drop), "slice_get": (2, slice_get), "slice_index_or": (3, slice_index_or),
    "slice_index": (2, slice_index), "bytes_eq": (2, bytes_eq), "join_with_byte": (2, join_with_byte), "slice_split": (2, slice_split), "chars": (1, chars), "encode_utf8_all": (1, encode_utf8_all),
    "days_in_month": (2, days_in_month), "nat_lt": (2, less), "nat_le": (2, at_most), "not": (1, negated), "min": (2, min), "before_first": (2, before_first), "after_first": (2, after_first), "max": (2, max), "pos": (1, same),
}
