# An available ring that passes 2^64 is not valid; the crate over its stand-in says it is.
memory 64
region 0xfffffffffffffff8 8 0
region 0 48 8
queue 1
avail 0xfffffffc 0xffffffff
used 16 0
ready 1
u16 6 1
valid
begin
pop
ask
