#!/usr/bin/env python3
"""A test bench in Python: a board with an AIC (003) and four devices, driven as a driver's start-up code and its nested handlers would drive it.

Each step goes to the controller and into a trace. At the end the trace is listed, which must give, line by line, what the controller answered and showed;
and the handlers must have started in the order, and with as many entries open, as the priorities want it. It prints the trace explained, and ends with 1
where something differs. docs/EMBED.md says how to start it; bench.c is the same in C.
"""
import os
import sys

sys.path.insert(0, os.path.join(os.path.dirname(os.path.abspath(__file__)), "..", "..", "python"))
from wisteria import Controller, encode, explain, listing  # noqa: E402

IVR, ISR, IECR, IDCR, ICCR, EOICR, SPU = 0x100, 0x108, 0x120, 0x124, 0x128, 0x130, 0x134  # offsets in bytes (003, 27.8)
HIGH_LEVEL, FALLING_EDGE, RISING_EDGE = 0x00, 0x20, 0x20  # SMR: an external source has the second, an internal one the others (003, 27.8.3)
TIMER, UART, ETHERNET, BUTTON, SPURIOUS = 1, 6, 16, 30, 99  # sources; the button alone is external
DEVICES = {TIMER: HIGH_LEVEL | 6, UART: HIGH_LEVEL | 2, ETHERNET: RISING_EDGE | 4, BUTTON: FALLING_EDGE | 5}  # modes, with the priority, 7 the highest


def expect(what, good):
    if not good:
        sys.exit(f"bench: {what}: not so")


class Board:
    """The bus: the controller, and what was asked of it and answered."""

    def __init__(self):
        self.aic = Controller("aic", 1 << BUTTON, 1 << BUTTON)  # the button is external, and its line is high
        self.text = [f"aic {1 << BUTTON} {1 << BUTTON}"]
        self.lines = ["AIC"]

    def _note(self, kind, statement, value=0):
        self.text.append(statement)
        self.lines.append(f"{len(self.lines)} {kind} {value:08X} {' '.join(map(str, self.aic.outputs))}")

    def read(self, offset):
        value = self.aic.read(offset)
        self._note("R", f"read {offset}", value)
        return value

    def write(self, offset, value):
        self.aic.write(offset, value)
        self._note("W", f"write {offset} {value}")

    def line(self, source, level):
        self.aic.line(source, level)
        self._note("L", f"line {source} {level}")


class Driver:
    """Start-up and handlers, with what the world does meanwhile."""

    def __init__(self, board):
        self.board = board
        self.started = []  # the vector of each handler in the order of their starts, and the entries open then
        self.handlers = {UART: self.uart, ETHERNET: self.ethernet, TIMER: self.timer, BUTTON: self.button, SPURIOUS: lambda: None}

    def start_up(self):
        self.board.write(IDCR, 0xFFFFFFFF)
        self.board.write(ICCR, 0xFFFFFFFF)
        for _ in range(8):  # as drivers do: nothing that was open before is open any more
            self.board.write(EOICR, 0)
        self.board.write(SPU, SPURIOUS)
        for source, mode in DEVICES.items():
            self.board.write(4 * source, mode)
            self.board.write(0x80 + 4 * source, source)  # its vector: the number of its source
            self.board.write(IECR, 1 << source)

    def take_interrupt(self):
        """The processor takes one interrupt: the vector is read, its handler runs, the end of interrupt is written."""
        vector = self.board.read(IVR)
        self.started.append((vector, self.board.aic.outputs[2]))
        self.handlers[vector]()
        self.board.write(EOICR, 0)

    def let_in(self):
        """Where interrupts are let in, as in a handler that has done what is urgent."""
        while self.board.aic.outputs[0]:
            self.take_interrupt()

    def uart(self):
        expect("the status register has the source", self.board.read(ISR) == UART)
        self.board.line(ETHERNET, 1)  # a frame comes in: of a higher priority
        self.let_in()
        self.board.line(UART, 0)  # its last byte is read

    def ethernet(self):
        self.board.line(ETHERNET, 0)
        self.board.line(TIMER, 1)  # the timer elapses
        self.let_in()

    def timer(self):
        self.board.line(BUTTON, 0)  # the button is pressed: of a lower priority, so that it waits
        self.let_in()
        self.board.line(TIMER, 0)

    def button(self):
        self.board.line(BUTTON, 1)


def main():
    board = Board()
    driver = Driver(board)
    driver.start_up()
    board.line(UART, 1)  # a byte comes in
    driver.let_in()
    board.line(UART, 1)  # a glitch: gone when the processor, which has seen IRQ, comes to read the vector
    board.line(UART, 0)
    driver.take_interrupt()
    expected = [(UART, 1), (ETHERNET, 2), (TIMER, 3), (BUTTON, 3), (SPURIOUS, 1)]
    expect("the handlers start in this order, with so many entries open", driver.started == expected)
    expect("nothing is open or active at the end", board.aic.outputs == (0, 0, 0))
    trace = encode("\n".join(board.text))
    expect("the listing of the trace has each step as it was answered", listing(trace).splitlines() == board.lines)
    print(explain(trace), end="")


if __name__ == "__main__":
    main()
