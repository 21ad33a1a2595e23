# Size 8, a chain at places 6 and 2, the second writable. A filtered walk passes over what it does not look for.
memory 256
desc 96 0x1000 5 1 2
desc 32 0x2000 7 2 0
queue 8
chain 6
walk
chain 6
readable
readable
chain 6
writable
writable
# From a head beyond the size there are no descriptors.
chain 8
walk
