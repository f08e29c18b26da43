# An interrupt handler, and rfid back. The interrupt suspends the transaction; its handler runs privileged, with TM = 0, from 0x500 on. It
# reads where it came from and goes back by rfid: the transaction goes on where it was, and commits. The second time thread 1 stores to what
# the transaction has loaded while the handler runs. The failure is recorded and nothing else: the handler goes on. Its rfid is answered 20,
# and the thread is behind its tbegin. in problem state.
data = line 1
stamp = line 8

thread 0  tbegin.
thread 0  ld r4, data
thread 0  interrupt
thread 0  mfspr r10, SRR0     # 0x8
thread 0  mfspr r11, SRR1     # T, TM = 1, PR = 1
thread 0  std r10, stamp
thread 0  rfid
thread 0  tend.
second:
thread 0  tbegin.
thread 0  ld r4, data
thread 0  interrupt
thread 0  mfspr r10, SRR0
thread 1  std r5, data        # doomed, under the handler
thread 0  std r10, stamp+1
thread 0  rfid                # handled here
thread 0  mfspr r6, TEXASR
