.region account, 2
.word account, 1, 50
.lock k
.phase
.task 0, take, 7
.gwrites k, account, 0, 1
.task 1, take, 8
.gwrites k, account, 0, 1
take: mv t1, a0
 li a0, 0
 li a7, 1
 ecall
 la t0, account
 sw t1, 0(t0)
 sw t1, 4(t0)
