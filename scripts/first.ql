# One request, from the driver to the device and back. The guest has 4096 bytes of memory at guest address 0.
memory 4096

# The driver: a request of two buffers, one to read (16 bytes at 0x800) and one to write (32 bytes at 0x900),
# chained by NEXT (flag 1); the second is writable (flag 2). Then the available ring: entry 0 names the head, idx is 1.
desc 0 0x800 16 1 1
desc 16 0x900 32 2 0
u16 0x102 1

# The device's side is told where everything is.
queue 8
size 4
table 0 0
avail 0x100 0
used 0x200 0
ready 1
valid

# The device: a pass over the available ring, the head of a chain, its descriptors.
begin
head
next
next
next

# The request is done, 32 bytes were written; must the driver be notified?
put 0 32
question

# What is left: both positions are 1, and the used ring has idx 1 and the entry (0, 32).
state
dump 0x200 12
