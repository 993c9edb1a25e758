.region a, 2048
.region b, 2048
.region c, 1
.lock k
.phase
.task 0, 0x00001000, 0x00000000
.writes a, 0, 256
.task 1, 0x00001000, 0x00000100
.writes a, 256, 512
.task 2, 0x00001000, 0x00000200
.writes a, 512, 768
.task 3, 0x00001000, 0x00000300
.writes a, 768, 1024
.task 4, 0x00001000, 0x00000400
.writes a, 1024, 1280
.task 5, 0x00001000, 0x00000500
.writes a, 1280, 1536
.task 6, 0x00001000, 0x00000600
.writes a, 1536, 1792
.task 7, 0x00001000, 0x00000700
.writes a, 1792, 2048
.phase
.task 0, 0x00001044, 0x00000000
.reads a, 0, 2048
.writes b, 0, 256
.task 1, 0x00001044, 0x00000100
.reads a, 0, 2048
.writes b, 256, 512
.task 2, 0x00001044, 0x00000200
.reads a, 0, 2048
.writes b, 512, 768
.task 3, 0x00001044, 0x00000300
.reads a, 0, 2048
.writes b, 768, 1024
.task 4, 0x00001044, 0x00000400
.reads a, 0, 2048
.writes b, 1024, 1280
.task 5, 0x00001044, 0x00000500
.reads a, 0, 2048
.writes b, 1280, 1536
.task 6, 0x00001044, 0x00000600
.reads a, 0, 2048
.writes b, 1536, 1792
.task 7, 0x00001044, 0x00000700
.reads a, 0, 2048
.writes b, 1792, 2048
.phase
.task 0, 0x00001058, 0x00000000
.reads b, 0, 2048
.writes a, 0, 256
.task 1, 0x00001058, 0x00000100
.reads b, 0, 2048
.writes a, 256, 512
.task 2, 0x00001058, 0x00000200
.reads b, 0, 2048
.writes a, 512, 768
.task 3, 0x00001058, 0x00000300
.reads b, 0, 2048
.writes a, 768, 1024
.task 4, 0x00001058, 0x00000400
.reads b, 0, 2048
.writes a, 1024, 1280
.task 5, 0x00001058, 0x00000500
.reads b, 0, 2048
.writes a, 1280, 1536
.task 6, 0x00001058, 0x00000600
.reads b, 0, 2048
.writes a, 1536, 1792
.task 7, 0x00001058, 0x00000700
.reads b, 0, 2048
.writes a, 1792, 2048
.phase
.task 0, 0x00001044, 0x00000000
.reads a, 0, 2048
.writes b, 0, 256
.task 1, 0x00001044, 0x00000100
.reads a, 0, 2048
.writes b, 256, 512
.task 2, 0x00001044, 0x00000200
.reads a, 0, 2048
.writes b, 512, 768
.task 3, 0x00001044, 0x00000300
.reads a, 0, 2048
.writes b, 768, 1024
.task 4, 0x00001044, 0x00000400
.reads a, 0, 2048
.writes b, 1024, 1280
.task 5, 0x00001044, 0x00000500
.reads a, 0, 2048
.writes b, 1280, 1536
.task 6, 0x00001044, 0x00000600
.reads a, 0, 2048
.writes b, 1536, 1792
.task 7, 0x00001044, 0x00000700
.reads a, 0, 2048
.writes b, 1792, 2048
.phase
.task 0, 0x00001058, 0x00000000
.reads b, 0, 2048
.writes a, 0, 256
.task 1, 0x00001058, 0x00000100
.reads b, 0, 2048
.writes a, 256, 512
.task 2, 0x00001058, 0x00000200
.reads b, 0, 2048
.writes a, 512, 768
.task 3, 0x00001058, 0x00000300
.reads b, 0, 2048
.writes a, 768, 1024
.task 4, 0x00001058, 0x00000400
.reads b, 0, 2048
.writes a, 1024, 1280
.task 5, 0x00001058, 0x00000500
.reads b, 0, 2048
.writes a, 1280, 1536
.task 6, 0x00001058, 0x00000600
.reads b, 0, 2048
.writes a, 1536, 1792
.task 7, 0x00001058, 0x00000700
.reads b, 0, 2048
.writes a, 1792, 2048
.phase
.task 0, 0x000010c4, 0x00000000
.reads a, 0, 256
.gwrites k, c, 0, 1
.task 1, 0x000010c4, 0x00000100
.reads a, 256, 512
.gwrites k, c, 0, 1
.task 2, 0x000010c4, 0x00000200
.reads a, 512, 768
.gwrites k, c, 0, 1
.task 3, 0x000010c4, 0x00000300
.reads a, 768, 1024
.gwrites k, c, 0, 1
.task 4, 0x000010c4, 0x00000400
.reads a, 1024, 1280
.gwrites k, c, 0, 1
.task 5, 0x000010c4, 0x00000500
.reads a, 1280, 1536
.gwrites k, c, 0, 1
.task 6, 0x000010c4, 0x00000600
.reads a, 1536, 1792
.gwrites k, c, 0, 1
.task 7, 0x000010c4, 0x00000700
.reads a, 1792, 2048
.gwrites k, c, 0, 1
lui x5, 65536
addi x5, x5, 0
slli x6, x10, 2
add x5, x5, x6
lui x7, 0
addi x7, x7, 256
slli x28, x10, 1
add x28, x28, x10
addi x28, x28, 1
sw x28, 0(x5)
addi x28, x28, 3
addi x5, x5, 4
addi x7, x7, -1
bne x7, x0, -16
lui x17, 0
addi x17, x17, 0
ecall
lui x8, 65536
addi x8, x8, 0
lui x9, 65538
addi x9, x9, 0
jal x0, 20
lui x8, 65538
addi x8, x8, 0
lui x9, 65536
addi x9, x9, 0
lui x7, 0
addi x7, x7, 256
lui x29, 1
addi x29, x29, -2048
addi x6, x10, 0
slli x30, x6, 2
add x31, x8, x30
lw x11, 0(x31)
addi x28, x6, 1
bne x28, x29, 8
addi x28, x0, 0
slli x12, x28, 2
add x12, x8, x12
lw x13, 0(x12)
add x11, x11, x13
add x31, x9, x30
sw x11, 0(x31)
addi x6, x6, 1
addi x7, x7, -1
bne x7, x0, -56
lui x17, 0
addi x17, x17, 0
ecall
lui x5, 65536
addi x5, x5, 0
slli x6, x10, 2
add x5, x5, x6
lui x7, 0
addi x7, x7, 256
addi x28, x0, 0
lw x29, 0(x5)
add x28, x28, x29
addi x5, x5, 4
addi x7, x7, -1
bne x7, x0, -16
addi x10, x0, 0
lui x17, 0
addi x17, x17, 1
ecall
lui x5, 65540
addi x5, x5, 0
lw x29, 0(x5)
add x29, x29, x28
sw x29, 0(x5)
lui x17, 0
addi x17, x17, 2
ecall
lui x17, 0
addi x17, x17, 0
ecall
