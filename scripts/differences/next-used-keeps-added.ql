# Setting the next used position keeps what was counted as added.
memory 64
queue 1
avail 32 0
used 48 0
event 1
u16 38 5
put 0 0
next-used 6
question
