# The forty bytes. A scan came back from a device with forty bytes of another patient's at its end. The device had
# written less than the buffer holds and reported the whole buffer: the driver took what still lay there for the answer.
#
# Today nothing here stops that. Put takes any head below the size and any length: it knows neither what was taken nor
# what was written. Nor has anything tested the address and the length of a buffer against guest memory: a walk hands
# them out as the guest wrote them. The device has to count what it wrote, and to test each buffer before it touches it.
memory 4096
queue 8
table 0 0
avail 0x100 0
used 0x200 0
ready 1
valid

# the driver's buffer, 64 bytes to write at 0x800, which still holds the other patient's bytes: bb
fill 0x800 64 0xbb
desc 0 0x800 64 2 0
u16 0x102 1

# the device takes the request, writes 24 bytes of the scan, aa, and reports 64
begin
head
next
fill 0x800 24 0xaa
put 0 64

# what the driver finds: an entry of 64 bytes, and in them 24 of its own and forty of the other patient's
dump 0x200 12
dump 0x800 64

# a head that was never taken, and a length that no buffer has: ok
put 3 4294967295
dump 0x20c 8

# the only head that is refused is one that is not below the size
put 8 0
state

# a buffer that is nowhere in guest memory, and one that begins in it and ends outside: handed out like any other
desc 0 0xfffffffffffffff0 4096 3 1
desc 16 0xff0 4096 2 0
chain 0
next
next
next
