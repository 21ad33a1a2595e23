# An available ring at address 0 is valid, but never ready.
memory 64
queue 1
table 16 0
used 32 0
ready 1
valid
begin
pop
