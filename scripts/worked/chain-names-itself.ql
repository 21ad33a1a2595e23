# Size 8, a descriptor that names itself: 8 descriptors, then none.
memory 4096
desc 0 0x1000 1 1 0
queue 8
chain 0
next
next
next
next
next
next
next
next
next
chain 0
walk
