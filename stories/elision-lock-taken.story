# An elision that fails on the lock. Thread 0 has read the lock in its transaction; thread 1 takes the lock by a plain store. Thread 0's
# transaction fails there, by a non-transactional conflict, and what it stored is in no memory. Its failure handler reads TEXASR and the
# lock. Only when the lock is free again does it try once more, and commits.
lock = line 0
data = line 1

thread 0  li r3, 42
try:
thread 0  tbegin.
thread 0  ld r4, lock
thread 0  std r3, data
thread 1  li r5, 1
taken:
thread 1  std r5, lock
handler:
thread 0  mfspr r6, TEXASR
thread 0  ld r4, lock         # 1: it waits
thread 1  li r5, 0
free:
thread 1  std r5, lock
thread 0  ld r4, lock         # 0
again:
thread 0  tbegin.
thread 0  ld r4, lock
thread 0  std r3, data
thread 0  tend.
