#!/usr/bin/env python3
"""A hall with a touch panel and a film, scheduled through the shared library (include/kivdrag.h) with ctypes alone.

The library is the file that KIVDRAG_LIBRARY names; without it the one that `make` writes to target/lib, or else the system's.
"""
import ctypes
import ctypes.util
import os
import sys
from ctypes import POINTER, byref, c_size_t, c_uint8, c_uint32, c_uint64

PANEL, PLAYER = 1, 2
DESK, WALL = 1, 2

WORDS = POINTER(c_uint32)
RUN = [WORDS, c_size_t]
ARGUMENTS = {
    "kivdrag_start_direct": [c_uint64] * 3 + [c_uint32, WORDS] + RUN * 5,
    "kivdrag_book": [WORDS] + RUN * 2 + [c_uint64] * 3,
    "kivdrag_arrive": [WORDS] + RUN + [c_uint64] * 3,
    "kivdrag_tick_direct": [WORDS] + RUN * 5 + [POINTER(c_uint8), WORDS],
}


class Refused(Exception):
    """A call was answered with another number than 0."""


def end(message):
    """Ends the program with a line on standard error and status 2."""
    print(f"booth.py: {message}", file=sys.stderr)
    sys.exit(2)


def load():
    """The shared library, with the types of the functions in use."""
    built = os.path.join(os.path.dirname(os.path.abspath(__file__)), "..", "target", "lib", "libkivdrag.so")
    name = os.environ.get("KIVDRAG_LIBRARY") or (built if os.path.exists(built) else ctypes.util.find_library("kivdrag"))
    if name is None:
        end("no shared library found: run `make` in the repository, or set KIVDRAG_LIBRARY to the path of libkivdrag.so")
    try:
        library = ctypes.CDLL(name)
        for function, arguments in ARGUMENTS.items():
            getattr(library, function).argtypes = arguments
            getattr(library, function).restype = c_uint32
    except (OSError, AttributeError) as error:
        end(f"the shared library cannot be used: {error}; set KIVDRAG_LIBRARY to the path of libkivdrag.so")
    return library


class DirectSwitch:
    """A direct switch that books slots alone, in a plain book. Ports are numbered from 1."""

    def __init__(self, library, ports, frame):
        self.library = library
        self.clock = (c_uint32 * 5)()
        self.slots, self.rates, self.credits, self.queues = ((c_uint32 * (ports * ports))() for _ in range(4))
        self.given = (c_uint32 * ports)()
        self._call("start_direct", ports, frame, 0, 0, self.clock, *self._runs())

    def _runs(self):
        runs = (self.slots, self.rates, self.credits, self.queues, self.given)
        return [argument for run in runs for argument in (run, len(run))]

    def _call(self, function, *arguments):
        number = getattr(self.library, "kivdrag_" + function)(*arguments)
        if number != 0:
            raise Refused(f"{function} is refused with {number}; include/kivdrag.h says what it means")

    def book(self, source, target, slots):
        """Books slots of each frame from an input to an output."""
        self._call("book", self.clock, self.slots, len(self.slots), self.rates, len(self.rates), source, target, slots)

    def arrive(self, source, target, packets):
        """Puts packets from an input to an output into their queue."""
        self._call("arrive", self.clock, self.queues, len(self.queues), source, target, packets)

    def tick(self):
        """Runs a slot: its number, and a list of (input, output, whether the slot is a booked one)."""
        outputs, first_pass = (c_uint8 * 32)(), c_uint32()
        self._call("tick_direct", self.clock, *self._runs(), outputs, byref(first_pass))
        pairs = [(i + 1, output, bool(first_pass.value >> i & 1)) for i, output in enumerate(outputs) if output]
        return self.clock[2], pairs


def main():
    switch = DirectSwitch(load(), 2, 6)
    switch.book(PANEL, DESK, 2)
    switch.arrive(PLAYER, DESK, 5)
    switch.arrive(PLAYER, WALL, 5)
    print("a film from the player to the desk and the wall; the panel has 2 of 6 slots booked to the desk")
    for slot in range(1, 7):
        if slot == 3:
            switch.arrive(PANEL, DESK, 2)
            print("the panel is touched twice")
        number, pairs = switch.tick()
        said = [f"{source} to {target} ({'booked' if booked else 'left over'})" for source, target, booked in pairs]
        print(f"slot {number}: {', '.join(said) or 'idle'}")
    try:
        switch.book(PANEL, WALL, 2)
    except Refused as refusal:
        print(refusal)


if __name__ == "__main__":
    main()
