# A head of the size or more is taken, has no descriptors and can not be put.
memory 64
queue 1
avail 32 0
used 48 0
ready 1
u16 36 5
u16 34 1
pop
next
put 5 0
state
