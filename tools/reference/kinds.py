"""The kinds of events, the rows of the tables of docs/PROTOCOL.md, and which of these rows a run has come to.

The parts of the machine note each row that they come to, so that the cases can tell which rows no case reaches."""

# the rows of the tables of docs/PROTOCOL.md that a run can come to, by the actor
ROWS = {
    "core": "local, end, load of a copy, load of an own word, read of a missing word, store to an own word, store to a copy, "
            "whole store to a missing word, store that a signature notes, acquire, release, eviction of a copy, "
            "eviction of an own word, arrival, bad arrival, reply, acknowledgement, forward that takes a word, "
            "forward that finds it elsewhere, read that is answered, read that is sent back, word that is given back, "
            "grant that drops copies, grant that drops none, go that drops copies, go that drops none, halt",
    "bank": "read at home, read that is forwarded, registration at home, registration that is forwarded, write-back that is "
            "taken, late write-back, acquire of a free lock, acquire that waits, release to nobody, release to the next",
    "keeper": "arrival that waits, last arrival that goes on, last arrival that halts",
}
ROWS = ["%s: %s" % (actor, row) for actor, rows in ROWS.items() for row in rows.split(", ")]
reached_rows = set()


def reach(row):
    reached_rows.add(row)


KINDS = ("instr evict arrive read-req read-fwd data-reply reg-req reg-fwd reg-ack write-back wb-ack acquire release grant "
         "arrived go halt").split()
