# The entry is in memory, idx is not. The port changes nothing; the crate had grown its numbers and written the
# entry.
memory 16
region 8 8 8
queue 1
used 4 0
put 0 7
state
dump 8 8
