# A lock that is elided, and succeeds. Two threads run critical sections of one lock at the same time, as transactions. Both read the
# lock, and nobody takes it; each stores to a line of its own. So both commit, and the lock was never written.
lock = line 0
left = line 1
right = line 2

thread 0  li r3, 42
thread 1  li r3, 43
thread 0  tbegin.
thread 0  ld r4, lock
thread 1  tbegin.
thread 1  ld r4, lock
thread 0  std r3, left
thread 1  std r3, right
thread 1  tend.
thread 0  tend.
