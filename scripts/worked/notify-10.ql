# Next used 10, added 3, used_event 10: no (65,535 < 3 is false).
memory 4096
queue 8
table 0 0
avail 0x400 0
used 0x800 0
event 1
next-used 7
put 0 1
put 0 1
put 0 1
state
u16 1044 10
question
question
