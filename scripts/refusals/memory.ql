# What is not in memory: idx for begin and ask, an entry for put, the flags, avail_event, used_event. Nothing is
# changed.
memory 64
queue 1
ready 1
avail 64 0
begin
used 64 0
put 0 1
stop
ask
event 1
ask
question
used 60 0
put 0 1
used 0xfffffffc 0xffffffff
put 0 1
ask
avail 0xfffffffe 0xffffffff
begin
question
state
sum
