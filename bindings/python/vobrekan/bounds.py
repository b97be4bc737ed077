"""Numbers on their way to the library: one that its type does not hold is a ValueError here, where ctypes alone cuts it and says nothing."""
from __future__ import annotations

from ctypes import Structure, c_int32, c_size_t, c_uint8, c_uint32, c_uint64
from typing import Any, Callable

# The types of numbers, each with the least and the greatest that it holds.
BOUNDS: dict[Any, tuple[int, int]] = {
    c_uint8: (0, 2**8 - 1),
    c_uint32: (0, 2**32 - 1),
    c_uint64: (0, 2**64 - 1),
    c_size_t: (0, 2**64 - 1),
    c_int32: (-(2**31), 2**31 - 1),
}


def in_range(of: str, number: int, low: int, high: int) -> int:
    """The number, where it is in the range."""
    if not low <= number <= high:
        raise ValueError(f"{of}: {number} is not in the range from {low} to {high}")
    return number


class Numbers(Structure):
    """A struct whose fields are set to numbers that they hold. A field that it does not have is a TypeError.

    >>> from vobrekan import Device
    >>> Device(regs=2**32)
    Traceback (most recent call last):
    ValueError: regs: 4294967296 is not in the range from 0 to 4294967295
    """

    def __setattr__(self, name: str, value: Any) -> None:
        kinds: dict[str, Any] = {it[0]: it[1] for it in self._fields_}
        if name not in kinds:
            raise TypeError(f"{type(self).__name__} has no field {name}")
        if kinds[name] in BOUNDS:
            in_range(name, value, *BOUNDS[kinds[name]])
        super().__setattr__(name, value)


def checked(name: str, function: Callable[..., Any], parameters: list[Any]) -> Callable[..., Any]:
    """A call of the library that is made only where each of its numbers is in the range of its parameter."""
    bounds = [(at, *BOUNDS[kind]) for at, kind in enumerate(parameters) if kind in BOUNDS]
    if not bounds:
        return function

    def call(*given: Any) -> Any:
        for at, low, high in bounds:
            if not low <= given[at] <= high:
                in_range(name, given[at], low, high)
        return function(*given)

    return call
