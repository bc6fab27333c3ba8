"""How objects of the adapter for CPython keep their references: each way has functions of its own that lead the
collector through it.

A keeper of so many references is asked for one by its index, and given one by its index. At first each is None.
"""
from __future__ import annotations

import contextvars
import gc
import itertools
import operator
import time
import types
import weakref
from _queue import SimpleQueue
from collections import OrderedDict, defaultdict, deque, namedtuple
from functools import lru_cache, partial
from types import CellType

# Of these only types are said, and importing them takes as long as all else.
TYPE_CHECKING = False
if TYPE_CHECKING:
    from collections.abc import Callable, Iterator
    from typing import Any


class Cells:
    """References in the cells that closures have for their variables."""

    def __init__(self, count: int) -> None:
        self.cells = tuple(CellType(None) for _ in range(count))

    def __getitem__(self, index: int) -> object:
        return self.cells[index].cell_contents

    def __setitem__(self, index: int, value: object) -> None:
        self.cells[index].cell_contents = value


class Attributes:
    """References in the attributes of an instance. If their number is odd they are in its dictionary, which is made
    when it is asked for."""

    def __init__(self, count: int) -> None:
        if count % 2:
            vars(self)

    def __getitem__(self, index: int) -> object:
        return getattr(self, f"field{index}", None)

    def __setitem__(self, index: int, value: object) -> None:
        setattr(self, f"field{index}", value)


@lru_cache(None)
def with_slots(count: int) -> type:
    """A class whose instances have a slot for each reference, and no dictionary."""
    return type("WithSlots", (Attributes,), {"__slots__": tuple(f"field{index}" for index in range(count))})


class Copied:
    """References in a tuple, which is made anew for each that is stored."""

    def __init__(self, count: int) -> None:
        self.items = (None,) * count

    def __getitem__(self, index: int) -> object:
        return self.items[index]

    def __setitem__(self, index: int, value: object) -> None:
        self.items = (*self.items[:index], value, *self.items[index + 1:])


class Sets:
    """Each reference is the one member of a set."""

    def __init__(self, count: int) -> None:
        self.sets = [{None} for _ in range(count)]

    def __getitem__(self, index: int) -> object:
        return next(iter(self.sets[index]))

    def __setitem__(self, index: int, value: object) -> None:
        self.sets[index].clear()
        self.sets[index].add(value)


def variable(value: object) -> Iterator[object]:
    """Keeps a reference in a variable of its own, and gives it out. It takes another in a tuple."""
    while True:
        given = yield value
        if given:
            value, = given


class Suspended:
    """Each reference is a variable of a suspended generator."""

    def __init__(self, count: int) -> None:
        self.generators = [variable(None) for _ in range(count)]
        for generator in self.generators:
            next(generator)

    def __getitem__(self, index: int) -> object:
        return next(self.generators[index])

    def __setitem__(self, index: int, value: object) -> None:
        self.generators[index].send((value,))


class Watched:
    """References in a list, each beside a weak one. Both name one object, or the collector cleared the weak one."""

    def __init__(self, count: int) -> None:
        self.items, self.weak, self.deaths = [None] * count, [None] * count, 0

    def note_death(self, _: object) -> None:
        self.deaths += 1

    def __getitem__(self, index: int) -> object:
        weak = self.weak[index]
        return None if weak is None else weak()

    def __setitem__(self, index: int, value: object) -> None:
        self.items[index] = value
        self.weak[index] = None if value is None else weakref.ref(value, self.note_death if index % 2 else None)


class Courier:
    """Garbage that leads to itself. Its finalizer brings it back, and gives a keeper what it carries. It has to be
    called once alone: afterwards the keeper changes what it has. Objects of the script aren't garbage meanwhile, since
    Python closes the generators and clears the weak references of what a finalizer brings back."""

    def __init__(self, keeper: Revived) -> None:
        self.keeper, self.load, self.itself = keeper, {0: (keeper.items,)}, self
        keeper.sent, keeper.watch = keeper.sent + 1, weakref.ref(self, keeper.hear)
        keeper.items, keeper.meanwhile = None, tuple(keeper.items)

    def __del__(self) -> None:
        items, = self.load[0]
        self.keeper.items, self.keeper.meanwhile, self.keeper.courier = items, None, self


class Revived:
    """References in a list that is garbage from an odd store on, until a finalizer brings it back. Of each such courier
    a weak reference says once that it was garbage."""

    def __init__(self, count: int) -> None:
        self.items, self.meanwhile, self.courier, self.watch = [None] * count, None, None, None
        self.sent = self.heard = 0

    def hear(self, _: object) -> None:
        self.heard += 1

    def fetched(self) -> list[object]:
        if self.items is None:
            gc.collect()
        if self.heard != self.sent:
            raise SystemError(f"{self.heard} callbacks of {self.sent} weak references were called")
        return self.items

    def __getitem__(self, index: int) -> object:
        return self.fetched()[index]

    def __setitem__(self, index: int, value: object) -> None:
        self.fetched()[index] = value
        self.courier = None
        if index % 2:
            Courier(self)


# How a box for one reference is made, and how the reference is read. An iterator is used up by that.
Kind = namedtuple("Kind", ("make", "read", "is_used_up"), defaults=(False,))


def itself(value: object) -> object:
    return value


def raised(value: object) -> types.TracebackType | None:
    """A traceback. The frame that it leads to has the reference in a variable."""
    try:
        raise KeyError
    except KeyError as error:
        return error.__traceback__


async def waiting(value: object):
    """The frame of its generator has the reference in a variable."""
    yield value


def module(value: object) -> types.ModuleType:
    made = types.ModuleType("box")
    made.value = value
    return made


def caused(value: object) -> BaseException:
    made = KeyError()
    made.__cause__ = BaseException(value)
    return made


def queued(value: object) -> SimpleQueue:
    made = SimpleQueue()
    made.put(value)
    return made


def cached(value: object) -> Callable[[], object]:
    """A function that has its result in its cache."""
    made = lru_cache(2)(partial(itself, value))
    made()
    return made


class Row:
    """A sequence that is only indexed."""

    def __init__(self, items: tuple[object, ...]) -> None:
        self.items = items

    def __getitem__(self, index: int) -> object:
        return self.items[index]


VARIABLES = tuple(contextvars.ContextVar(str(number)) for number in range(40))


def context(value: object, count: int) -> contextvars.Context:
    """A context in which so many variables have the reference."""
    made = contextvars.Context()
    for each in VARIABLES[:count]:
        made.run(each.set, value)
    return made


def token(value: object) -> contextvars.Token:
    return context(value, 1).run(VARIABLES[0].set, None)


class Target:
    """What weak references of boxes lead to."""


TARGET = Target()
LATER = object()
# Iterators over one reference, and what of their item it is.
ITERATORS = (
    (iter, itself), (reversed, itself), (enumerate, operator.itemgetter(1)), (zip, operator.itemgetter(0)),
    (partial(map, itself), itself), (partial(filter, lambda _: True), itself), (itertools.chain, itself),
    (itertools.cycle, itself), (lambda items: itertools.islice(items, 1), itself),
    (lambda items: itertools.tee(items)[0], itself), (itertools.zip_longest, operator.itemgetter(0)),
    (lambda items: itertools.pairwise(items * 2), operator.itemgetter(0)),
    (itertools.product, operator.itemgetter(0)), (itertools.permutations, operator.itemgetter(0)),
    (lambda items: itertools.combinations(items, 1), operator.itemgetter(0)),
    (lambda items: itertools.combinations_with_replacement(items, 1), operator.itemgetter(0)),
    (lambda items: itertools.compress(items, (1,)), itself), (itertools.accumulate, itself),
    (lambda items: itertools.starmap(itself, (items,)), itself),
    (partial(itertools.takewhile, lambda _: True), itself), (partial(itertools.dropwhile, lambda _: False), itself),
    (partial(itertools.filterfalse, lambda _: False), itself), (itertools.groupby, operator.itemgetter(0)),
    (lambda items: iter(list(items)), itself), (lambda items: reversed(list(items)), itself),
    (lambda items: iter(deque(items)), itself), (lambda items: iter(set(items)), itself),
    (lambda items: iter(dict.fromkeys(items)), itself), (lambda items: iter(OrderedDict.fromkeys(items)), itself),
    (lambda items: iter({0: items[0]}.values()), itself), (lambda items: iter(Row(items)), itself),
)
ALL_BOXES = (
    Kind(lambda value: partial(print, value), lambda box: box.args[0]),
    Kind(lambda value: slice(None, value), lambda box: box.stop),
    Kind(lambda value: types.MethodType(print, value) if value else None, lambda box: box and box.__self__),
    Kind(lambda value: types.SimpleNamespace(value=value), lambda box: box.value),
    Kind(lambda value: types.MappingProxyType({0: value}), lambda box: box[0]),
    Kind(lambda value: frozenset((value,)), lambda box: next(iter(box))),
    Kind(property, lambda box: box.fget),
    Kind(partial(type(Kind.make), 0), lambda box: box.__doc__),
    Kind(staticmethod, lambda box: box.__func__),
    Kind(classmethod, lambda box: box.__func__),
    Kind(itertools.repeat, next),
    Kind(lambda value: lambda: value, lambda box: box()),
    Kind(lambda value: lambda default=value: default, lambda box: box()),
    Kind(lambda value: types.FunctionType(raised.__code__, {"value": value}), lambda box: box.__globals__["value"]),
    Kind(raised, lambda box: box.tb_frame.f_locals["value"]),
    Kind(waiting, lambda box: box.ag_frame.f_locals["value"]),
    Kind(module, lambda box: box.value),
    Kind(lambda value: type("Box", (), {"value": value}), lambda box: box.value),
    Kind(BaseException, lambda box: box.args[0]),
    Kind(caused, lambda box: box.__cause__.args[0]),
    Kind(lambda value: AttributeError(obj=value), lambda box: box.obj),
    Kind(lambda value: NameError(name=value), lambda box: box.name),
    Kind(lambda value: ImportError(name=value), lambda box: box.name),
    Kind(lambda value: OSError(1, "", value), lambda box: box.filename),
    Kind(StopIteration, lambda box: box.value),
    Kind(SystemExit, lambda box: box.code),
    Kind(lambda value: SyntaxError("", ("", 1, 1, value)), lambda box: box.text),
    Kind(lambda value: BaseExceptionGroup("box", [BaseException(value)]), lambda box: box.exceptions[0].args[0]),
    Kind(partial(context, count=1), lambda box: box[VARIABLES[0]]),
    Kind(partial(context, count=len(VARIABLES)), lambda box: box[VARIABLES[-1]]),
    Kind(token, lambda box: box.old_value),
    Kind(lambda value: contextvars.ContextVar("box", default=value), lambda box: box.get()),
    Kind(lambda value: weakref.ref(TARGET, partial(print, value)), lambda box: box.__callback__.args[0]),
    Kind(cached, lambda box: box()),
    Kind(lambda value: defaultdict(None, {0: value}), lambda box: box[0]),
    Kind(lambda value: {0: value}.values(), lambda box: next(iter(box))),
    Kind(lambda value: types.GenericAlias(list, (value,)), lambda box: box.__args__[0]),
    Kind(lambda value: list | types.GenericAlias(list, (value,)), lambda box: box.__args__[1].__args__[0]),
    Kind(lambda value: time.struct_time((value,) * 9), lambda box: box[8]),
    Kind(lambda value: value.__str__, lambda box: box.__self__),
    Kind(lambda value: [value].copy, lambda box: box.__self__[0]),
    Kind(lambda value: value and super(type(value), value), lambda box: box and box.__self__),
    Kind(lambda value: iter(partial(itself, value), LATER), next),
    Kind(operator.itemgetter, lambda box: box.__reduce__()[1][0]),
    Kind(lambda value: operator.methodcaller("box", value), lambda box: box.__reduce__()[1][1]),
    Kind(queued, lambda box: box.get(), is_used_up=True),
    *(Kind(lambda value, make=make: make((value,)), lambda box, read=read: read(next(box)), is_used_up=True)
      for make, read in ITERATORS),
)


def is_there(kind: Kind) -> bool:
    """Whether this version of Python has such boxes."""
    try:
        return kind.read(kind.make(TARGET)) is TARGET
    except (AttributeError, NameError, TypeError):
        return False


BOXES = tuple(filter(is_there, ALL_BOXES))


class Boxes:
    """Each reference in a box of its own, which is made anew for each that is stored. Kinds take turns."""

    def __init__(self, first: int, count: int) -> None:
        self.first = first
        self.boxes = [self.kind(index).make(None) for index in range(count)]

    def kind(self, index: int) -> Kind:
        return BOXES[(self.first + index) % len(BOXES)]

    def __getitem__(self, index: int) -> object:
        kind = self.kind(index)
        value = kind.read(self.boxes[index])
        if kind.is_used_up:
            self.boxes[index] = kind.make(value)
        return value

    def __setitem__(self, index: int, value: object) -> None:
        self.boxes[index] = self.kind(index).make(value)


def a_list(count: int) -> list[object]:
    return [None] * count


KEEPERS = (a_list, lambda count: dict.fromkeys(range(count)), lambda count: deque(a_list(count)),
           lambda count: OrderedDict.fromkeys(range(count)), Cells, Attributes, Copied,
           lambda count: with_slots(count)(count), Sets, Suspended, Watched, Revived)
# Of more references a list has all: the other ways are slow there.
FEW = 300


def keeper(birth: int, references: int) -> Any:
    """A keeper of so many references. The ways take turns by the object's birth."""
    turn, way = divmod(birth, len(KEEPERS) + 1)
    if references > FEW:
        return a_list(references)
    return Boxes(turn, references) if way == len(KEEPERS) else KEEPERS[way](references)
