"""The rules, each with what is changed in the tables where it is out, and a sentence on what it is for.

A rule is a guard, a change of an actor's state, a message, or a whole row; a pair takes out two others at once. `changes` is what table.changed takes."""
import collections

Rule = collections.namedtuple("Rule", "name kind changes purpose")

# each rule: name | kind | changes | what it is for
RULES = """
# ---- a core's own events
load-hit              | row     | load-hit: out                          | a core reads its copy without a message
copy-serves-again     | change  | new load-again: load | V M | unfilled | drop, read-req to home, wait-reading | a copy serves more than one load
mark                  | change  | load-hit: -mark-plain                  | a copy that the task has read without a lock stays at the phase's end
mark-plain-alone      | guard   | load-hit: mark-plain>mark              | a copy that was read under a lock may become old in the phase, so it isn't touched
load-own              | row     | load-own: out                          | a core reads what it has stored
load-miss             | message | load-miss: out                         | a core asks the home for a word that it hasn't
read-waits            | change  | load-miss: -wait-reading               | a core asks once, and takes one answer
load-room             | guard   | load-miss: -room; part-store-miss: -room; reply: -room | a cache has no more entries than places
store-room            | guard   | store-miss: -room                      | the same for a store
load-stalls-leaving   | guard   | load-own: +L                           | a word that leaves may be another core's already, and its value old
store-stalls-leaving  | guard   | store-copy: +L                         | a write-back in flight would be taken for that of the new value
part-store-asks       | row     | part-store-miss: out; store-miss: -whole | the other bytes of the word are read first
store-own-again       | change  | store-own: -R; store-copy: +R          | a store to an own word needs no message
store-pends           | change  | store-copy: -pend; store-miss: -pend   | a core knows which of its stores the home hasn't heard of
store-registers       | message | store-copy: -reg-req to home; store-miss: -reg-req to home | the home learns who has the newest value
store-notes           | change  | store-own: -note; store-copy: -note; store-miss: -note | the next holder of the lock learns which words were written
store-notes-own       | change  | store-own: -note                       | a word that was the core's own before is written under the lock too
acquire-asks          | message | acquire: -acquire to home              | the home of a lock learns who wants it
acquire-waits         | change  | acquire: -wait-locking                 | a core goes on when it has the lock
release-waits         | guard   | release: -none-pending                 | the next holder finds all words that were written under the lock registered
release-tells         | message | release: -release to home              | the lock goes on to the next
release-signs         | change  | release: release to home>release-empty to home | a release says which words were written under the lock
evict-copy            | row     | evict-copy: out                        | a full cache makes room
evict-own             | row     | evict-own: out                         | the same where its words are registered
evict-when-needed     | guard   | evict-copy: -missing, -full; evict-own: -missing, -full | an entry goes only where its place is needed
evict-own-set         | guard   | evict-copy: -same-set; evict-own: -same-set | an entry goes only where it makes room
evict-idle            | guard   | evict-copy: idle>always; evict-own: idle>always | a copy that has come is used before it goes
evict-settled         | guard   | evict-own: +P                          | the home has heard of the registration before the word comes back
evict-leaves          | change  | evict-own: leave>drop                  | the value stays until the home has it
leaving-holds-place   | guard   | load-miss: room>room-beside-leaving; store-miss: room>room-beside-leaving; part-store-miss: room>room-beside-leaving; reply: room>room-beside-leaving; evict-copy: full>full-beside-leaving; evict-own: full>full-beside-leaving | a word that leaves has no place but that in the cache
evict-writes-back     | message | evict-own: -write-back to home         | the home gets the value
evict-own-value       | row     | evict-own: -write-back to home, leave>drop | a registered entry is the only place with the word's value
arrive-waits          | guard   | arrive: -none-pending                  | the next phase finds all words that were written registered
arrive-over           | guard   | arrive: -over                          | a phase ends when its tasks have ended
arrive-tells          | message | arrive: -arrived to controller         | the controller learns that a core is done
evict-idle-and-needed | pair    | evict-copy: idle>always, -full, -missing; evict-own: idle>always, -full, -missing | one of the two guards keeps a copy that has come
# ---- a core and its messages
reply-fills           | row     | reply: out                             | the value that was asked for is taken
reply-untouched       | change  | reply: fill>fill-marked                | a copy isn't touched before its task has read it
reply-filled          | change  | reply: wait-filled>wait-none           | a copy that has come isn't evicted before its instruction has used it
reply-awaited         | guard   | reply: -reading, wait-filled>wait-filled-if-reading | an answer that nobody waits for is dropped
reply-missing         | guard   | reply: +V, +M, +R, +P, +L              | an answer changes no entry that is there
ack-settles           | row     | acknowledgement: out                   | a registration comes to an end
forward-takes         | change  | forward-takes: out; forward-elsewhere: +R | an earlier owner gives the word up
forward-acks          | message | forward-takes: -reg-ack to c           | the earlier owner tells the new one that it has given the word up
forward-elsewhere     | row     | forward-elsewhere: out                 | an owner that has evicted the word answers too
forward-keeps-pending | guard   | forward-elsewhere: -P; forward-takes: +P | a store that isn't acknowledged yet isn't lost
forward-keeps-copies  | guard   | forward-elsewhere: -V, -M; forward-takes: +V, +M | a copy may stay at a forwarded registration
forward-keeps-leaving | guard   | forward-elsewhere: -L; forward-takes: +L | a word that leaves stays until its write-back has come
read-answers          | row     | read-answered: out; read-sent-back: +R, +P, +L | the owner has the value
read-answers-pending  | guard   | read-answered: -P; read-sent-back: +P  | an owner whose registration is open has the newest value
read-answers-leaving  | guard   | read-answered: -L; read-sent-back: +L  | the value of a word that leaves is at no home yet
read-goes-back        | row     | read-sent-back: out                    | a read that comes too late finds the word at home
copy-sends-back       | guard   | read-sent-back: -V, -M; read-answered: +V, +M | a copy answers no read of another core
none-sends-back       | guard   | read-sent-back: -I                     | a core that has nothing sends the read back
write-back-ends       | row     | given-back: out                        | a place is free when the home has its word
write-back-end-leaving | guard  | given-back: +V, +M, +R, +P             | an acknowledgement frees only a word that leaves
grant-drops           | change  | grant: -drop-signed                    | a core doesn't read what was written under the lock before
grant-drops-signed    | guard   | grant: drop-signed>drop-guarded        | copies of words that weren't written stay
grant-drops-guarded   | guard   | grant: drop-signed>drop-signed-unguarded | copies of other locks' words stay
grant-drops-touched   | guard   | grant: drop-signed>drop-signed-unmarked | a copy that is touched is of a word without a lock
grant-this-phase      | guard   | grant: drop-signed>drop-signed-ever    | what was written in an earlier phase was dropped at its end
grant-takes-signature | change  | grant: -take-signature                 | a core's signature has what was written before
grant-empties         | change  | grant: take-signature>take-signature-as-it-is | a signature is of one phase
grant-awaited         | guard   | grant: -locking                        | a grant that nobody waits for is dropped
go-drops              | change  | go: -drop-written                      | a core doesn't read what was written in the phase before
go-keeps-touched      | guard   | go: drop-written>drop-written-touched-too | a copy that the task has read is good: no other task wrote the word
go-drops-unwritten    | guard   | go: drop-written>drop-untouched        | copies of regions that weren't written stay
go-drops-guarded      | change  | go: drop-written>drop-plainly-written  | words that were written under a lock go too
go-unmarks            | change  | go: -unmark                            | a copy is touched in one phase
go-empties            | change  | go: begin>begin-with-signatures        | a signature is of one phase
go-awaited            | guard   | go: -arrived, -next                    | a phase begins where its core has ended the one before
halt-awaited          | guard   | halt: -arrived                         | a core halts when it has arrived
# ---- a home
read-at-home          | row     | read-home: out                         | the home answers with the value that it has
read-is-forwarded     | row     | read-forwarded: out                    | a read finds the owner
register-home         | change  | registration-home: -own-by-c           | the home knows who has the newest value
register-home-acks    | message | registration-home: -reg-ack to c       | the core learns that it is the owner
register-again        | row     | registration-again: out                | an owner may register once more
register-forwards     | message | registration-forwarded: -reg-fwd to owner | the earlier owner learns that it isn't the owner any more
register-changes      | change  | registration-forwarded: -own-by-c      | the home knows the new owner
register-acks-last    | change  | registration-forwarded: +reg-ack to c; forward-takes: -reg-ack to c; forward-elsewhere: out | a registration ends when the earlier owner has given the word up
write-back-taken      | change  | write-back-taken: -take-value          | the value comes home
write-back-late       | guard   | write-back-late: -X; write-back-taken: +X | a value that another core has overwritten is not taken
write-back-late-home  | guard   | write-back-late: -H; write-back-taken: +H | a value that another core has overwritten and given back is not taken
write-back-acks       | message | write-back-taken: -wb-ack to c         | the core learns that the value is at home
write-back-late-acks  | message | write-back-late: out                   | a late write-back is acknowledged too
lock-holder           | change  | acquire-free: -lock-by-c               | a lock has one holder
lock-grants           | message | acquire-free: -grant to c              | the core learns that it has the lock
lock-queues           | row     | acquire-queued: out                    | who comes to a lock that is held isn't forgotten
lock-waits            | guard   | acquire-queued: queue-c>grant to c     | who comes to a lock that is held waits
lock-queues-once      | guard   | acquire-queued: -unqueued              | a core stands in the queue once
lock-in-order         | change  | acquire-queued: queue-c>queue-c-first  | the first that asked is served first
lock-joins            | change  | release-next: -join; release-nobody: -join | a home keeps what was written under its lock
lock-joins-both       | change  | release-next: join>keep-the-second; release-nobody: join>keep-the-second | what was kept before stays in the signature
signature-both-ways   | pair    | grant: -take-signature; release-next: join>keep-the-second; release-nobody: join>keep-the-second | the signature grows at the core or at the home
lock-releases-held    | guard   | release-next: +F, +K; release-nobody: +F, +K | only the holder gives a lock up
lock-frees            | change  | release-nobody: -unlock                | a lock that nobody waits for is free
lock-goes-on          | message | release-next: -grant to holder         | the next holder learns that it has the lock
# ---- the barrier controller
barrier-all           | guard   | arrival-last-good: -last               | a phase begins when all cores have ended the one before
barrier-once          | guard   | arrival-last-good: -new; arrival-last: -new; arrival-counted: -new | a core is counted once
barrier-bad           | guard   | arrival-last-good: good>follows        | no phase follows one with a task that trapped
barrier-goes          | message | arrival-last-good: -go to all          | the cores learn that the next phase begins
barrier-halts         | message | arrival-last: -halt to all             | the cores learn that the run is over
"""


def rules():
    """The rules by name."""
    found = {}
    for line in RULES.strip().splitlines():
        if line.startswith("#"):
            continue
        name, kind, *changes, purpose = (cell.strip() for cell in line.split("|"))
        found[name] = Rule(name, kind, " | ".join(changes), purpose)
    return found
