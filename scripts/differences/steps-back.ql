# Steps back are unbounded.
memory 64
queue 1
avail 32 0
ready 1
back
back
state
begin
next-avail 0
back
begin
head
head
