# Size 8, lengths 0xffffffff and 1: one descriptor, then none.
memory 4096
desc 0 0 0xffffffff 1 1
desc 16 0 1 0 0
queue 8
chain 0
next
next
