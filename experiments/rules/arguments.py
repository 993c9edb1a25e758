"""Why a rule that nothing shows to be needed is there, or why it is redundant: an argument in words for each.

The parts are those of the invariant of docs/PROTOCOL.md, which is proved of the machine with all rules. A rule that makes no difference there has an
argument from them: the case that it excludes never comes. The others are held by no theorem."""

# what a rule that survives is: never used, for messages alone, for the cache's size, for fairness, or doubled by another rule
ARGUMENTS = {
    "copy-serves-again": ("messages", "A core that asks again gets the same value. The rule saves a request and a reply for each further load."),
    "mark": ("messages", "An untouched copy is dropped at the phase's end and asked for again. Touched bits save these reads."),
    "load-room": ("size", "No value depends on how many entries a cache has. Part 6 promises a place for each answer, and doesn't hold then."),
    "store-room": ("size", "The same for a store."),
    "store-own-again": ("messages", "The home acknowledges an owner at once (`register-again`). But part 4 says that who asks isn't the owner yet, and has to be weaker then."),
    "evict-when-needed": ("messages", "An entry that goes early is asked for or registered again."),
    "evict-own-set": ("messages", "An entry of another set that goes makes no room; its word is asked for or registered again."),
    "evict-idle": ("doubled", "While a core waits for a word it has a place for it, and a word that has come isn't missing: `evict-when-needed` says so too. Without both a copy can go before it is used."),
    "leaving-holds-place": ("size", "A word that leaves could stand in a buffer of its own. Part 6 promises a place in the set, and doesn't hold then."),
    "reply-filled": ("doubled", "A copy that has come isn't missing, so nothing may be evicted for it. The wait says only that the value has come."),
    "reply-awaited": ("never", "Part 7: an answer in flight goes to a core that waits for its word."),
    "reply-missing": ("never", "Part 6: a core that waits for a word has no entry of it."),
    "forward-keeps-pending": ("never", "Parts 4 and 7: the core that a forward names has the word pending, at most one core has, and no forward goes to the core that it names."),
    "forward-keeps-copies": ("never", "Parts 3 and 6: the receiver was the owner when the forward was sent, and nobody gets a copy while a core registers the word."),
    "read-answers-pending": ("never", "Part 6: while a core reads a word no core registers it."),
    "copy-sends-back": ("messages", "A forwarded read finds a copy where its core gave the word back and read it again. Nobody may write while the reader waits: the copy is good, and its answer would save a message."),
    "write-back-end-leaving": ("never", "Part 7: the acknowledgement of a write-back goes to a core that has the word leaving."),
    "grant-drops-signed": ("messages", "Without signatures all copies of the lock's words go at a grant, also good ones."),
    "grant-drops-guarded": ("messages", "Only a word whose two bits are those of others could show a difference: its good copy would go."),
    "grant-drops-touched": ("never", "Part 8: a touched copy is of a word that the task uses without a lock, and the check allows no word to be both in one phase."),
    "grant-this-phase": ("messages", "The words of an earlier phase were dropped at its end. Dropping what was read since costs reads."),
    "grant-takes-signature": ("doubled", "The home joins what a release brings to what it has kept (`lock-joins-both`), so nothing that was noted is lost."),
    "grant-empties": ("doubled", "A signature of an earlier phase counts as empty wherever one is read, added to or joined. Part 2 says that a core's is of its phase, and doesn't hold then."),
    "grant-awaited": ("never", "Part 7: a grant in flight goes to a core that waits for the lock."),
    "go-keeps-touched": ("messages", "A touched copy is good; without the rule it is asked for again."),
    "go-drops-unwritten": ("messages", "A copy of a region that wasn't written is good; without the rule it is asked for again."),
    "go-empties": ("doubled", "As `grant-empties`: each use of a signature compares its phase."),
    "go-awaited": ("never", "Parts 1 and 7: a Go in flight names the next phase, and its core has arrived."),
    "halt-awaited": ("never", "Part 7: a Halt in flight goes to a core that has arrived."),
    "register-again": ("never", "Part 4: a core whose request is in flight isn't the owner yet. The row would be used without `store-own-again`."),
    "lock-queues-once": ("never", "Part 2: a core that waits has one request in flight, or stands in the queue once, or its grant is in flight."),
    "lock-in-order": ("fairness", "Values and ends are the same in each order. In the order of arrival no core is overtaken again and again."),
    "lock-joins-both": ("doubled", "A core's signature has what its grant told it (`grant-takes-signature`), so the one that comes last has everything."),
    "lock-releases-held": ("never", "Part 7: a release in flight is the holder's."),
    "barrier-once": ("never", "Part 1: a core that has arrived has one Arrived in flight, or is counted, or a Go or Halt to it is in flight."),
}

GROUPS = {
    "never": "The case never comes: the proved invariant excludes it",
    "messages": "It saves messages",
    "doubled": "Another rule does the same",
    "size": "It bounds the cache",
    "fairness": "It is fair",
}
