# An entry outside memory: begin works, head answers none, ask answers yes for ever.
memory 64
queue 1
avail 60 0
used 32 0
ready 1
u16 62 1
begin
head
stop
pop
ask
stop
pop
ask
