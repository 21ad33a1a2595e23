# Size 8, next available 0, idx 9: refused, available index.
memory 4096
queue 8
table 0 0
avail 0x400 0
used 0x800 0
ready 1
next-avail 0
u16 0x402 9
begin
pop
state
