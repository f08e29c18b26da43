# A ledger transfer in 4-byte words. Two accounts stand side by side in one doubleword, 100 in the first. Thread 0 moves 30 from one to the
# other in a transaction; thread 1 audits, by plain loads, in the middle of it. The auditor reads 100 and 0, what memory holds, and fails
# the transaction, which has stored to that line. The second try commits: each word goes into its four bytes, and the auditor reads 70 and
# 30. The sum is 100 whenever it looks. A word that nobody moved, in the next doubleword, stays.
alice = line 1                # in an operand of stw or lwz, + counts bytes

thread 0  li r3, 100
thread 0  stw r3, alice
thread 0  li r5, 7
thread 0  stw r5, alice+8     # another word of the line
try:
thread 0  tbegin.
thread 0  lwz r3, alice       # 100
thread 0  addi r3, r3, -30
thread 0  stw r3, alice       # in the log: bytes 0 to 3
thread 0  lwz r4, alice+4     # 0
thread 0  addi r4, r4, 30
audit:
thread 1  lwz r3, alice       # 100, and thread 0 fails
thread 1  lwz r4, alice+4     # 0
again:
thread 0  tbegin.
thread 0  lwz r3, alice
thread 0  addi r3, r3, -30
thread 0  stw r3, alice
thread 0  lwz r4, alice+4
thread 0  addi r4, r4, 30
thread 0  stw r4, alice+4     # the same log place: bytes 0 to 7
thread 0  tend.
thread 1  lwz r3, alice       # 70
thread 1  lwz r4, alice+4     # 30
thread 1  ld r5, alice        # both, as one doubleword
