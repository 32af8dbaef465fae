"""Attributes that are made when they are first asked for, and kept until they are forgotten."""
from __future__ import annotations

from typing import Any, Callable, Generic, TypeVar, overload

import numpy as np

T = TypeVar('T')


def sealed(made: T) -> T:
    """An array that is read-only from now on; anything else as it is."""
    if isinstance(made, np.ndarray):
        made.flags.writeable = False
    return made


class kept(Generic[T]):
    """As functools.cached_property, but without its lock, which all objects of a class share before Python 3.12: by
    that lock threads with meshes of their own would wait for one another. Arrays are read-only."""

    def __init__(self, make: Callable[[Any], T]) -> None:
        self._make, self.__doc__ = make, make.__doc__

    def __set_name__(self, owner: type, name: str) -> None:
        self._name = name

    @overload
    def __get__(self, owner: None, kind: type) -> kept[T]: ...

    @overload
    def __get__(self, owner: object, kind: type) -> T: ...

    def __get__(self, owner: object | None, kind: type) -> T | kept[T]:
        if owner is None:
            return self
        made = sealed(self._make(owner))
        owner.__dict__[self._name] = made
        return made


def forget(owner: object) -> None:
    """Lets go what is kept of an object."""
    for kind in type(owner).__mro__:
        for name, value in vars(kind).items():
            if isinstance(value, kept):
                owner.__dict__.pop(name, None)
