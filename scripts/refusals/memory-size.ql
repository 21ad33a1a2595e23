# An image has at most 1,048,576 bytes; a refused one leaves everything.
memory 16
fill 0 16 7
queue 1
memory 1048577
memory 18446744073709551615
dump 0 4
state
memory 1048576
sum
memory 0
sum
