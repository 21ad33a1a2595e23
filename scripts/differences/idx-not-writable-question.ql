# The same, seen by the question: the port answers no, the crate yes.
memory 64
region 8 56 8
queue 1
avail 32 0
used 4 0
event 1
put 0 7
question
