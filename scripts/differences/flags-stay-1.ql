# Stop, then event index on: the used flags stay 1.
memory 64
queue 1
avail 32 0
used 48 0
stop
event 1
ask
dump 48 2
