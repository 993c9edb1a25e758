# A task that never ends.
# Look at `task 0 0 fuel retired 1000`: a task may retire as many instructions as the option says, so every run ends. The exit code
# is 4.
#   ./denovo --fuel 1000 < examples/endless.s
.phase
.task 0, go, 0
go: j go
