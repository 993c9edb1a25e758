"""The rules of the protocol as data: a table of rows for cores, one for homes and the barrier controller, and how a row is taken out or changed.

A row says what an actor does at an event: for a word whose entry at the core, or whose state at its home, is one of these letters, and where the
conditions hold. The first row that fits is taken. An event of a core's own without a row is disabled; a message without a row changes nothing."""
import collections

# The letters of an entry: I none, V a copy, M a copy that is touched, R registered, P registered and pending, L leaving. `KIND to WHO` sends a
# message; c is the core that the message names. `load` and `store` retire the instruction.
AT_A_CORE = """
row               | event      | entry     | if                         | what happens
load-hit          | load       | V M       |                            | load, mark-plain
load-own          | load       | R P       |                            | load
load-miss         | load       | I         | room                       | read-req to home, wait-reading
store-own         | store      | R P       |                            | store, note
store-copy        | store      | V M       |                            | store, note, pend, reg-req to home
store-miss        | store      | I         | whole room                 | store, note, pend, reg-req to home
part-store-miss   | store      | I         | part room                  | read-req to home, wait-reading
acquire           | acquire    |           |                            | acquire to home, wait-locking
release           | release    |           | none-pending               | release to home, unhold
evict-copy        | evict      | V M       | missing full same-set idle | drop
evict-own         | evict      | R         | missing full same-set idle | write-back to home, leave
arrive            | arrive     |           | over none-pending          | arrived to controller, be-arrived
reply             | data-reply | I         | reading room               | fill, wait-filled
acknowledgement   | reg-ack    | P         |                            | settle
forward-takes     | reg-fwd    | R         |                            | drop, reg-ack to c
forward-elsewhere | reg-fwd    | I V M P L |                            | reg-ack to c
read-answered     | read-fwd   | R P L     |                            | data-reply to c
read-sent-back    | read-fwd   | I V M     |                            | read-req to home
given-back        | wb-ack     | L         |                            | drop
grant             | grant      |           | locking                    | drop-signed, take-signature, hold
go                | go         |           | arrived next               | drop-written, unmark, begin
halt              | halt       |           | arrived                    | be-halted
"""

# The letters of a word at home: H the value is here, O the core that the message names is the owner, X another core is. Those of a lock: F free,
# B held by the core that the message names, K held by another core. The controller has none.
AT_A_HOME = """
row                    | event      | entry | if             | what happens
read-home              | read-req   | H     |                | data-reply to c
read-forwarded         | read-req   | O X   |                | read-fwd to owner
registration-home      | reg-req    | H     |                | own-by-c, reg-ack to c
registration-again     | reg-req    | O     |                | reg-ack to c
registration-forwarded | reg-req    | X     |                | reg-fwd to owner, own-by-c
write-back-taken       | write-back | O     |                | take-value, wb-ack to c
write-back-late        | write-back | H X   |                | wb-ack to c
acquire-free           | acquire    | F     |                | lock-by-c, grant to c
acquire-queued         | acquire    | B K   | unqueued       | queue-c
release-next           | release    | B     | queued         | join, lock-by-first, grant to holder
release-nobody         | release    | B     |                | join, unlock
arrival-last-good      | arrived    |       | new last good  | count, next-phase, go to all
arrival-last           | arrived    |       | new last       | count, end-run, halt to all
arrival-counted        | arrived    |       | new            | count
"""

Row = collections.namedtuple("Row", "name event entry conditions actions")


def rows_of(table):
    """The rows of a table, in its order."""
    rows = []
    for line in table.strip().splitlines()[1:]:
        name, event, entry, conditions, actions = (cell.strip() for cell in line.split("|"))
        rows.append(Row(name, event, tuple(entry.split()), tuple(conditions.split()), tuple(one.strip() for one in actions.split(",") if one.strip())))
    return rows


ROWS = {row.name: row for table in (AT_A_CORE, AT_A_HOME) for row in rows_of(table)}
CORE_NAMES = [row.name for row in rows_of(AT_A_CORE)]
ENTRIES = set("IVMRPL") | set("HOX") | set("FBK")
CONDITIONS = {condition for row in ROWS.values() for condition in row.conditions} | {"filled", "unfilled", "follows", "always", "room-beside-leaving", "full-beside-leaving"}


class Unknown(Exception):
    """A change names a row, or a part of a row, that isn't there."""


def column_of(part):
    return "entry" if part in ENTRIES else "conditions" if part in CONDITIONS else "actions"


def changed_row(row, change):
    """The row with one change: `out` takes it out; `-PART` takes out an entry, a condition or an action; `+PART` adds one at the end;
    `PART>OTHER` puts another in its place."""
    if change == "out":
        return None
    if change[0] == "+":
        column = column_of(change[1:])
        return row._replace(**{column: getattr(row, column) + (change[1:],)})
    old, _, new = (change[1:], "", "") if change[0] == "-" else change.partition(">")
    column = column_of(old)
    parts = getattr(row, column)
    if old not in parts:
        raise Unknown("the row %s has no %s" % (row.name, old))
    return row._replace(**{column: tuple(part for one in parts for part in ([new] if new else []) * (one == old) + [one] * (one != old))})


def changed(changes):
    """The rows of cores and those of homes by event, with changes as a text: `ROW: CHANGE, CHANGE; ROW: CHANGE`. `new NAME: EVENT | ENTRY | IF |
    ACTIONS` puts a row of cores before the others."""
    rows, first = dict(ROWS), {}
    for part in filter(None, (part.strip() for part in changes.split(";"))):
        name, _, what = (piece.strip() for piece in part.partition(":"))
        if name.startswith("new "):
            name = name[4:]
            first[name] = rows_of("head\n%s | %s" % (name, what))[0]
            continue
        if name not in rows:
            raise Unknown("no row is called %s" % name)
        for change in (piece.strip() for piece in what.split(",")):
            rows[name] = changed_row(rows[name], change)
            if rows[name] is None:
                del rows[name]
                break
    return by_event([*first.values(), *(row for row in rows.values() if row.name in CORE_NAMES)]), by_event(
        row for row in rows.values() if row.name not in CORE_NAMES)


def by_event(rows):
    found = {}
    for row in rows:
        found.setdefault(row.event, []).append(row)
    return found
