# A rollback-only transaction, and the nested tbegin. that ends it. With R = 1 loads are not tracked: thread 1's store to what was loaded
# does no harm. A nested tbegin. with R = 0 turns ROT off (rule E1): what was loaded before stays untracked, what is loaded from there on is
# tracked, and the tend. of the inner level does not turn ROT on again. So thread 1's second store fails it.
data = line 1
other = line 2

thread 0  tbegin. R=1
thread 0  ld r4, data         # not tracked
thread 1  std r5, data        # no conflict
thread 0  tbegin. R=0         # level 2, ROT off
thread 1  std r5, data        # still none: the load came before
thread 0  ld r4, other        # tracked
thread 0  tend.               # level 1, and ROT stays off
fails:
thread 1  std r5, other
thread 0  mfspr r6, TEXASR
