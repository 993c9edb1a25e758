"""The text that the mode work runs for a size."""


def work_text(n):
    c, w = 16 * n, 64 * n
    out = [".region a, %d" % w, ".region b, %d" % w, ".phase"]
    for core in range(4):
        out += [".task %d, init, %d" % (core, core * c), ".writes a, %d, %d" % (core * c, core * c + c)]
    for entry, source, to in (("first", "a", "b"), ("second", "b", "a")):
        out.append(".phase")
        for core in range(4):
            out += [".task %d, %s, %d" % (core, entry, core * c), ".reads " + source,
                    ".writes %s, %d, %d" % (to, core * c, core * c + c)]
    code = """init:
la t0, a
slli t1, a0, 2
add t0, t0, t1
li t2, [C]
slli t3, a0, 1
add t3, t3, a0
addi t3, t3, 1
i1:
sw t3, 0(t0)
addi t3, t3, 3
addi t0, t0, 4
addi t2, t2, -1
bnez t2, i1
li a7, 0
ecall
first:
la s0, a
la s1, b
j body
second:
la s0, b
la s1, a
body:
li t2, [C]
li t4, [W]
mv t1, a0
b1:
slli t5, t1, 2
add t6, s0, t5
lw a1, 0(t6)
addi t3, t1, 1
bne t3, t4, b2
mv t3, zero
b2:
slli a2, t3, 2
add a2, s0, a2
lw a3, 0(a2)
add a1, a1, a3
add t6, s1, t5
sw a1, 0(t6)
addi t1, t1, 1
addi t2, t2, -1
bnez t2, b1
li a7, 0
ecall
"""
    return "\n".join(out) + "\n" + code.replace("[C]", str(c)).replace("[W]", str(w))
