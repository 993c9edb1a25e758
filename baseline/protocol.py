"""The protocol of the directory machine: two tables, and how a core and a home look up their rows in them and do what they say.

It is MSI or MESI as the textbooks have it, with three hops: an owner sends a line to the core that asked, and acknowledgements go to the core that
stores. A home answers at once; only in SD requests wait, for the owner that puts the line back. docs/BASELINE.md has the states as a picture."""
import collections

# `reply` is data-own or grant-own where acknowledgements are still missing, `last reply` where none is, `last inv-ack` the last that was missing.
# `KIND to WHO` sends a message; data, data-e, data-own, put-m and put-back have the words of the line. The requester is the core that a forward or
# an inv names. A row with an option in the column `if` holds with that option. A load or a store for which there is no row waits. Messages that
# wait at a line are handled as soon as its state is S, E or M.
AT_A_CORE = """
event         | state                   | if      | what happens                               | then
load          | S E M SM_AD SM_A        |         | hit                                        |
load          | IM_AD IM_A              | covered | hit                                        |
load          | I                       | room    | read to home                               | IS_D
store         | E M                     |         | write                                      | M
store         | S                       |         | own to home, buffer                        | SM_AD
store         | I                       | room    | own to home, buffer                        | IM_AD
store         | IM_AD IM_A SM_AD SM_A   | go      | buffer                                     |
evict         | S                       | silent  |                                            | I
evict         | S                       | told    | put-s to home                              | SI_A
evict         | E                       |         | put-e to home                              | EI_A
evict         | M                       |         | put-m to home                              | MI_A
data          | IS_D                    |         | fill, load-it                              | S
data          | IS_DI                   |         | fill, load-it                              | I
data-e        | IS_D                    |         | fill, load-it                              | E
data-e        | IS_DI                   |         | fill, load-it                              | E
reply         | IM_AD                   |         | fill, count-needed                         | IM_A
reply         | SM_AD                   |         | fill, count-needed                         | SM_A
last reply    | IM_AD SM_AD             |         | fill, make-stores                          | M
inv-ack       | IM_AD IM_A SM_AD SM_A   |         | count-ack                                  |
last inv-ack  | IM_A SM_A               |         | make-stores                                | M
inv           | S                       |         | inv-ack to requester                       | I
inv           | IS_D                    |         | inv-ack to requester                       | IS_DI
inv           | SM_AD                   |         | inv-ack to requester, lose-words           | IM_AD
inv           | I IS_DI IM_AD SI_A II_A |         | inv-ack to requester                       |
fwd-read      | M                       |         | data to requester, put-back to home        | S
fwd-read      | E                       |         | data to requester, put-clean to home       | S
fwd-read      | MI_A                    |         | data to requester, put-back to home        | SI_A
fwd-read      | EI_A                    |         | data to requester, put-clean to home       | SI_A
fwd-own       | M E                     |         | data-own to requester                      | I
fwd-own       | MI_A EI_A               |         | data-own to requester                      | II_A
fwd-read      | IM_AD IM_A SM_A         |         | wait                                       |
fwd-own       | IM_AD IM_A SM_A         |         | wait                                       |
put-ack       | MI_A EI_A SI_A II_A     |         |                                            | I
"""

# c is the core that a request or a put is of. A `reply` has the words of the line, and is data-own, unless c has them and is listed. In S and SD the
# list has the cores that may have copies; S with nobody listed is I.
AT_A_HOME = """
event         | state                   | if      | what happens                               | then
read          | I                       | mesi    | data-e to c, own-by-c                      | X
read          | I                       | msi     | data to c, list-c                          | S
read          | S                       |         | data to c, list-c                          | S
read          | X                       |         | fwd-read to owner, list-owner, list-c      | SD
read          | SD                      |         | wait                                       |
own           | I                       |         | reply, own-by-c                            | X
own           | S                       |         | reply, inv-to-listed, own-by-c             | X
own           | X                       |         | fwd-own to owner, own-by-c                 | X
own           | SD                      |         | wait                                       |
owner's put-m | X                       |         | memory, put-ack to c                       | I
owner's put-e | X                       |         | put-ack to c                               | I
put-m         | I S X SD                |         | unlist-c, put-ack to c                     |
put-e         | I S X SD                |         | unlist-c, put-ack to c                     |
put-s         | I S X SD                |         | unlist-c, put-ack to c                     |
put-back      | SD                      |         | memory                                     | S
put-clean     | SD                      |         |                                            | S
"""

STABLE, LEAVING = ("S", "E", "M"), ("MI_A", "EI_A", "SI_A", "II_A")
CORE_KINDS = ("instr", "evict", "arrive")
WORD_KINDS = ("read", "own", "put-m", "put-e", "put-s", "put-back", "put-clean", "data", "data-e", "data-own", "grant-own", "fwd-read", "fwd-own", "inv",
              "inv-ack", "put-ack")
KINDS = CORE_KINDS + WORD_KINDS + ("acquire", "release", "grant", "arrived", "go", "halt")
BANK_KINDS = ("read", "own", "put-m", "put-e", "put-s", "put-back", "put-clean", "acquire", "release")
WITH_A_LINE = ("data", "data-e", "data-own", "put-m", "put-back")
HEAD_BYTES, WORD_BYTES, MASK = 8, 4, 0xFFFFFFFF

Message = collections.namedtuple("Message", "kind about core words needed", defaults=(None, None, None, 0))
OPTIONS = ("mesi", "msi", "silent", "told", "go", "wait")
Row = collections.namedtuple("Row", "condition actions then name")


def ticks_by(core, bank, mail):
    """The ticks of each kind of event."""
    return {kind: core if kind in CORE_KINDS else bank if kind in BANK_KINDS else mail for kind in KINDS}


class Impossible(Exception):
    """An event came to a state that has no row for it, or the end isn't that of a run."""


def rows_of(table, actor, options):
    """The rows of a table by event and state, for the options of a machine."""
    rows = {}
    for line in table.strip().splitlines()[1:]:
        event, states, condition, actions, then = (cell.strip() for cell in line.split("|"))
        if condition in OPTIONS and condition not in options:
            continue
        asks = getattr(actor, "if_" + condition) if condition and condition not in OPTIONS else None
        does = [action_of(actor, name.strip()) for name in actions.split(",") if name]
        for state in states.split():
            rows.setdefault((event, state), []).append(Row(asks, does, then or state, "%s in %s" % (event, state)))
    return rows


def action_of(actor, name):
    """What an action's name says: to send a message, or what the actor does by itself."""
    kind, _, receiver = name.partition(" to ")
    if not receiver:
        return getattr(actor, "do_" + name.replace("-", "_"))

    def sends(self, number, line, message):
        words = self.words(number, line) if kind in WITH_A_LINE else line.state == "S" if kind == "own" else None
        self.send(self.receiver(receiver, number, line, message), kind, number, self.about(message), words)
    return sends


class Actor:
    """What a core and a home have in common: they find the row of an event, do what it says, and send messages."""

    def row(self, event, number, line):
        """The row for an event in the line's state, or None."""
        return next((row for row in self.rows.get((event, line.state), ()) if row.condition is None or row.condition(self, number, line)), None)

    def happens(self, event, number, line, message=None):
        row = self.row(event, number, line)
        if row is None:
            raise Impossible("%s in %s" % (event, line.state))
        self.machine.reached[row.name] += 1
        for action in row.actions:
            action(self, number, line, message)
        line.state = row.then

    def send(self, to, kind, *what):
        self.machine.sent.append((to, Message(kind, *what)))
