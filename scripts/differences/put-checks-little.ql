# Put checks neither that the head was taken nor how much was written.
memory 64
queue 2
used 32 0
put 1 0xffffffff
put 1 0
state
dump 32 20
