# idx is further from the position than the queue has places.
memory 64
queue 2
avail 32 0
ready 1
u16 34 2
begin
u16 34 3
begin
pop
next-avail 1
begin
next-avail 4
begin
state
