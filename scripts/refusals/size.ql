# A size is a power of two, at most the largest, not 0.
memory 64
queue 8
size 0
size 3
size 16
state
size 4
state
