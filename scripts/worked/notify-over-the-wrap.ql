# Next used 1, added 2, used_event 65,535: yes.
memory 4096
queue 8
table 0 0
avail 0x400 0
used 0x800 0
event 1
next-used 65535
put 0 1
put 0 1
state
u16 0x414 65535
question
