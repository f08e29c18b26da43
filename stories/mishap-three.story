# The mishap of version three: an old tape was taken for a new one, because only its length was looked at. These are 32 bytes, two records
# of edition two: a std by thread 0 of r3 to doubleword 17, and a tbegin. by thread 1. Each begins with its thread and not with 0xE3, so the
# first is refused with 7, and nothing is run. ./naszeptan convert --from 2 makes a tape of edition three of them.
bytes 00 0D 00 03 00 00 00 00 11 00 00 00 00 00 00 00
bytes 01 01 00 00 00 00 00 00 00 00 00 00 00 00 00 00
