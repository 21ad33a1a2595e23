# A head of the size or more can not be put.
memory 64
queue 2
used 32 0
put 2 0
put 65535 0
state
sum
put 1 0
state
