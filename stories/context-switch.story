# Reclaim and recheckpoint, as an operating system does at a context switch. Task B runs on thread 0 and is interrupted; the system saves
# where it was and starts task A at 0x1000. A's transaction is interrupted. The system saves SRR0 and SRR1, switches TM on, and takes the
# processor out of the transaction by treclaim. with code 0xDE, which Linux calls TM_CAUSE_RESCHED; r3 is the checkpointed one again. It
# saves that and the TM registers, and B runs. At the next interrupt the system puts A's registers back and makes them the checkpoint by
# trechkpt.: A is suspended and doomed. rfid asks for the Transactional state that A had, so the failure is handled, and A is behind its
# tbegin. with CR0 = 1010 and r3 as it was there.
b_at = line 8         # where B was, and its machine state
b_msr = b_at + 1
a_at = line 9         # A's
a_msr = a_at + 1
a_r3 = a_at + 2
a_tfhar = a_at + 3
a_tfiar = a_at + 4
a_texasr = a_at + 5
data = line 1

thread 0  li r9, 9            # B
thread 0  interrupt
save_b:
thread 0  mfspr r10, SRR0
thread 0  std r10, b_at
thread 0  mfspr r11, SRR1     # N, TM = 1, PR = 1
thread 0  std r11, b_msr
thread 0  li r10, 0x1000
thread 0  mtspr SRR0, r10
thread 0  rfid                # with B's SRR1
task_a:
thread 0  li r3, 3
thread 0  tbegin.
thread 0  li r3, 33
thread 0  std r3, data
thread 0  interrupt
save_a:
thread 0  mfspr r10, SRR0
thread 0  std r10, a_at
thread 0  mfspr r11, SRR1     # T, TM = 1, PR = 1
thread 0  std r11, a_msr
thread 0  mtmsrd TS=01, TM=1, PR=0
thread 0  li r12, 0xDE
thread 0  treclaim. r12
thread 0  std r3, a_r3        # 3
thread 0  mfspr r10, TFHAR
thread 0  std r10, a_tfhar
thread 0  mfspr r10, TFIAR
thread 0  std r10, a_tfiar
thread 0  mfspr r10, TEXASR
thread 0  std r10, a_texasr
to_b:
thread 0  ld r10, b_at
thread 0  mtspr SRR0, r10
thread 0  ld r11, b_msr
thread 0  mtspr SRR1, r11
thread 0  rfid
thread 0  li r9, 10           # B
thread 0  interrupt
to_a:
thread 0  mtmsrd TS=00, TM=1, PR=0
thread 0  ld r10, a_tfhar
thread 0  mtspr TFHAR, r10
thread 0  ld r10, a_tfiar
thread 0  mtspr TFIAR, r10
thread 0  ld r10, a_texasr
thread 0  mtspr TEXASR, r10
thread 0  ld r3, a_r3
thread 0  trechkpt.
thread 0  ld r10, a_at
thread 0  mtspr SRR0, r10
thread 0  ld r11, a_msr
thread 0  mtspr SRR1, r11
thread 0  rfid
handler:
thread 0  mfspr r6, TEXASR
