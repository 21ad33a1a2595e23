# A used entry that straddles the end of memory: the port writes nothing, the crate six of its bytes.
memory 22
queue 2
used 4 0
next-used 1
put 1 0x01020304
state
dump 0 22
