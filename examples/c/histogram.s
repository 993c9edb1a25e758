# the plan of histogram.c: tools/from_c.py examples/c/histogram.c examples/c/histogram.s
.region numbers, 32
.region counts, 8
.lock sums
.phase
.task 0, fill, 0
.writes numbers, 0, 16
.task 1, fill, 16
.writes numbers, 16, 32
.phase
.task 0, count, 0
.reads numbers, 0, 16
.gwrites sums, counts
.task 1, count, 16
.reads numbers, 16, 32
.gwrites sums, counts
