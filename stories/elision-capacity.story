# An elision that fails on capacity. A transaction holds 32 lines (rule A1). The lock is one of them, so the critical section has 31: the
# load of the 32nd overflows, and the transaction fails at its own instruction (exact = 1). Another try would fail in the same way, so the
# handler takes the lock.
lock = line 0
table = line 1

thread 0  tbegin.
thread 0  ld r4, lock
thread 0  ld r5, table+0
thread 0  ld r5, table+16
thread 0  ld r5, table+32
thread 0  ld r5, table+48
thread 0  ld r5, table+64
thread 0  ld r5, table+80
thread 0  ld r5, table+96
thread 0  ld r5, table+112
thread 0  ld r5, table+128
thread 0  ld r5, table+144
thread 0  ld r5, table+160
thread 0  ld r5, table+176
thread 0  ld r5, table+192
thread 0  ld r5, table+208
thread 0  ld r5, table+224
thread 0  ld r5, table+240
thread 0  ld r5, table+256
thread 0  ld r5, table+272
thread 0  ld r5, table+288
thread 0  ld r5, table+304
thread 0  ld r5, table+320
thread 0  ld r5, table+336
thread 0  ld r5, table+352
thread 0  ld r5, table+368
thread 0  ld r5, table+384
thread 0  ld r5, table+400
thread 0  ld r5, table+416
thread 0  ld r5, table+432
thread 0  ld r5, table+448
thread 0  ld r5, table+464
thread 0  ld r5, table+480
overflow:
thread 0  ld r5, table+496
handler:
thread 0  mfspr r6, TEXASR
thread 0  li r7, 1
thread 0  std r7, lock
thread 0  ld r5, table+496
thread 0  li r7, 0
thread 0  std r7, lock
