# Size 8, next available 65,535, idx 3: begin works, 4 heads, from places 7, 0, 1, 2.
memory 4096
queue 8
table 0 0
avail 0x400 0
used 0x800 0
ready 1
next-avail 65535
u16 0x402 3
u16 0x412 70
u16 0x404 10
u16 0x406 11
u16 0x408 12
begin
head
head
head
head
head
state
