# Bad lines, in the order of the tests; each changes nothing.
memory 64
frob
Memory 64
memory
memory 1 2
queue 2 2
memory x
memory -1
memory +1
memory 0X10
memory 0x
memory 18446744073709551616
u16 0 65536
u32 0 4294967296
u64 0 18446744073709551616
bytes 0 256
bytes 0
dump 0 257
ready 2
table - -
size 4
queue 2
head
next
readable
writable
walk
table -
table x 0
table 4294967296 0
u16 63 1
u64 57 1
bytes 64 1
fill 64 1 1
fill 65 0 1
fill 64 0 1
fill 0 65 1
desc 49 0 0 0 0
dump 64 1
dump 64 0
dump 65 0
bytes 0 0x0 0x00000000000000000000000000000001 0xfF 007 # a comment
u16 2 0xABCD# a comment inside a word
dump 0 8
sum
