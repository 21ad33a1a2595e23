# Begin is refused while the queue is not ready, and while the available ring is at address 0; pop answers none.
memory 64
queue 1
avail 32 0
begin
pop
ready 1
begin
avail 0 0
begin
reset
begin
state
