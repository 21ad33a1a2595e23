# A used entry that passes 2^64 is not in memory; the crate over its stand-in goes on at 0.
memory 16
region 0xfffffffffffffff8 8 0
region 0 8 8
queue 1
used 0xfffffff8 0xffffffff
put 0 0x01020304
state
dump 0 16
