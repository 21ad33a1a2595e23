# The specification allows a chain of 2^32 bytes in total; the crate and the port stop when the sum reaches
# 2^32.
memory 64
queue 2
desc 0 0 0xffffffff 1 1
desc 16 0 1 0 0
chain 0
next
next
