# Two-byte fields in one region, in two, at the end of memory, and at the top of all addresses. With event index on, `ask` writes the
# next available position at used + 12 (size 1) and then reads idx; `head` reads the entry at avail + 4.
# In one region: 0x100c is place 44.
memory 64
region 0x1000 32 32
queue 1
avail 0x1008 0
used 0x1000 0
event 1
ready 1
next-avail 0xabcd
ask
dump 44 2
# In two regions that meet at 0x100d, the second before the first in the image: one byte each. What was written is read
# (by the port: scripts/differences/field-in-two-regions.ql).
memory 64
region 0x1000 13 32
region 0x100d 19 0
queue 1
avail 0x1008 0
used 0x1000 0
event 1
ready 1
next-avail 0xabcd
ask
dump 44 1
dump 0 1
u16 42 0xabce
begin
head
# At the end of memory: both bytes are there, then one of them is not, and nothing is written.
memory 14
queue 1
used 0 0
event 1
next-avail 0xabcd
ask
dump 12 2
memory 13
queue 1
used 0 0
event 1
next-avail 0xabcd
ask
dump 0 13
# At the top: the flags at 2^64 - 4 are written, idx at 2^64 - 2 is read, the entry would lie beyond.
memory 16
region 0xfffffffffffffff0 16 0
queue 1
avail 0xfffffffc 0xffffffff
used 0xfffffffc 0xffffffff
ready 1
stop
dump 12 4
begin
u16 14 2
begin
u16 14 1
begin
head
put 0 7
dump 0 16
