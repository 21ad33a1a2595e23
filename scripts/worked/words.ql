# What is a word, a number, a command. The values go into the image, and a dump shows them.
memory 64
	u64	0	0x10	# tabs, and a comment
u64 8 0xFfff# a comment inside a word
u64 16 007
u64 24 18446744073709551615
u64 32 0xffffffffffffffff
u64 40 000000000000000000000000000001
dump 0 48
# No numbers: 2^64, no digit, a capital X, a sign, a letter.
u64 0 18446744073709551616
u64 0 0x10000000000000000
u64 0 0x
u64 0 0X10
u64 0 -1
u64 0 12a
dump 0 8
# A name is a command's whole name, in its own case; one may begin with another.
queue 8
next
next-used 7
state
stat
State
states
sta#te
