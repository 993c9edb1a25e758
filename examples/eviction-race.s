# A race between an eviction and a registration. In phase 0 core 0 writes the word a, and is its registrant. In phase 1 it writes the
# word b, for which a cache of one place has to give up a: core 0 sends the value home, and keeps the word as leaving until the home
# has answered. In the same phase core 1 writes a, and asks the home to be its registrant.
# Look at `count evict` and `count reg-fwd`:
# - by seed 1 they are 1 and 0: the value came home first, so core 1's request found the word there;
# - by seed 2 they are 0 and 1: core 1 was first, and its request was passed on to core 0, which gave the word up and so had room;
# - by seed 4 they are 1 and 1: the value was on its way when core 1's request came home. The request was passed on to core 0, which had
#   a as leaving, kept it so, and acknowledged; the value came home late, from a core that isn't the registrant any more, and changed
#   nothing. The word a is 4, as core 1 wrote it, by each of them.
#   ./denovo --sets 1 --ways 1 --seed 1 < examples/eviction-race.s
#   ./denovo --sets 1 --ways 1 --seed 2 < examples/eviction-race.s
#   ./denovo --sets 1 --ways 1 --seed 4 < examples/eviction-race.s
# The mode trace prints the events of the run one by one, the eviction as `e 0 0`:
#   ./denovo --sets 1 --ways 1 --seed 4 --mode trace < examples/eviction-race.s
.region a, 1
.region b, 1
.phase
.task 0, fill, 9
.writes a
.phase
.task 0, next, 7
.writes b
.task 1, fill, 4
.writes a
fill: la t0, a
 sw a0, 0(t0)
 li a7, 0
 ecall
next: la t0, b
 sw a0, 0(t0)
 li a7, 0
 ecall
