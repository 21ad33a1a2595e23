# The three addresses are multiples of 16, 2 and 4; the test is made on the whole; a half that is not given
# keeps its bits.
memory 64
queue 8
table 8 0
avail 1 0
used 2 0
state
table 16 1
table - 2
table 32 -
table 40 -
avail 2 3
avail - 4
used 4 0
used - -
state
