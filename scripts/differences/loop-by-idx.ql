# A wrong idx: pop answers none and ask answers yes for ever. Begin says why.
memory 64
queue 1
avail 32 0
used 48 0
ready 1
u16 34 2
stop
pop
ask
stop
pop
ask
begin
