"""What all actors have in common: they find the row of the table for an event, and do what it says.

An actor's state is a tuple and is never changed: a step works on a copy, and answers with the new one and with what it sends. A message is
(to, kind, what it is about, the core that it names, what it carries); `to` is a core's number, HOME or CONTROLLER."""
import collections

import tasks  # noqa: F401: it finds the folder of tools/reference
from reference.signatures import inserted, joined, may_hold  # noqa: F401: core.py, homes.py and invariant.py use them

HOME, CONTROLLER = 100, 101
Node = collections.namedtuple("Node", "phase wait arrived halted task signatures cache")
Lock = collections.namedtuple("Lock", "holder queue kept")
Controller = collections.namedtuple("Controller", "phase there bad over")
# the bits of a signature of no words
EMPTY = 0


class Actor:
    """What cores, homes and the controller have in common: they find the first row that fits, and do its actions."""

    def __init__(self, world):
        self.world, self.sent, self.message = world, [], None
        self.rows = self.rows_in(world)

    @staticmethod
    def rows_in(world):
        return world.home_rows

    def fits(self, row):
        return (not row.entry or self.letter() in row.entry) and all(getattr(self, "if_" + name.replace("-", "_"))() for name in row.conditions)

    def row(self, event):
        return next((row for row in self.rows.get(event, ()) if self.fits(row)), None)

    def act(self, row):
        for action in row.actions:
            name, _, receiver = action.partition(" to ")
            if receiver:
                self.world.sender(name)(self, receiver)
            else:
                getattr(self, "do_" + name.replace("-", "_"))()
