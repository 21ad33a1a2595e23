# Size 8, lengths 0x80000000 and 0x7fffffff: two descriptors.
memory 4096
desc 0 0 0x80000000 1 1
desc 16 0 0x7fffffff 0 0
queue 8
chain 0
next
next
next
