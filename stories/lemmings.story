# The lemming effect. Four threads elide one lock. Thread 0 meets an instruction that a transaction does not allow, and takes the lock: the
# other three, which have only read the lock, fail with it. Each finds the lock taken and queues for it, so that each fails whoever has
# begun anew: thread 1 takes it and fails thread 2, which had begun again too early. The cure: to begin again only once the lock is free.
# Then all three run side by side and commit.
lock = line 0
a = line 1
b = line 2
c = line 3

thread 0  tbegin.
thread 0  ld r4, lock
thread 1  tbegin.
thread 1  ld r4, lock
thread 2  tbegin.
thread 2  ld r4, lock
thread 3  tbegin.
thread 3  ld r4, lock
thread 0  disallowed          # thread 0 fails alone
thread 0  li r3, 1
jump:
thread 0  std r3, lock        # and takes three with it
thread 1  ld r4, lock         # 1: taken
thread 2  ld r4, lock
thread 3  ld r4, lock
thread 0  li r3, 0
thread 0  std r3, lock
thread 2  tbegin.             # it tries again at once
thread 2  ld r4, lock
thread 1  li r3, 1
jump2:
thread 1  std r3, lock        # but thread 1 queues for the lock
thread 1  std r3, a
thread 1  li r3, 0
thread 1  std r3, lock
cure:
thread 1  tbegin.
thread 1  ld r4, lock         # 0: free
thread 2  tbegin.
thread 2  ld r4, lock
thread 3  tbegin.
thread 3  ld r4, lock
thread 1  std r3, a
thread 2  std r3, b
thread 3  std r3, c
thread 1  tend.
thread 2  tend.
thread 3  tend.
