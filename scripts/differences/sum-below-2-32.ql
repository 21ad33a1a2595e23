# 2^32 - 1 bytes pass.
memory 64
queue 2
desc 0 0 0xfffffffe 1 1
desc 16 0 1 0 0
chain 0
next
next
