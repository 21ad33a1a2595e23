# The spin. A device process once turned on one ring for a night: a processor at full load, and no request served. The
# loop was the usual one: take chains until there is none, ask for notifications, go round again if something came in.
# Such a loop has no end where the guest sets idx further ahead than the ring has places, or moves it on for ever, or
# lays a chain that leads back to itself, and nobody counts.
#
# Today: begin refuses such an idx and says why; a pass ends at the idx that it remembered, whatever the guest writes
# there meanwhile; and a chain has at most as many descriptors as the queue has places.
# Still so: pop has no reason to give. It answers none, and ask answers yes, as often as they are called: a loop of
# these two spins today too. A device takes by begin, and leaves the loop where begin is refused.
memory 4096
queue 4
table 0 0
avail 0x100 0
used 0x200 0
ready 1

# idx 5, in a ring of 4 places: refused, and the position stays 0
u16 0x102 5
begin
state

# the loop that spins: none, yes, none, yes
stop
pop
ask
stop
pop
ask

# two entries, and a pass over them; after the first the guest moves idx far ahead: the pass still has one head, not more
u16 0x102 2
bytes 0x104 0 0 1 0
begin
head
u16 0x102 65535
head
head
head
state
begin

# a chain of two descriptors that name each other: four descriptors, as many as there are places, and then none
desc 0 0x800 16 1 1
desc 16 0x810 16 1 0
chain 0
next
next
next
next
next

# the same in one command, and once more: it has ended for good
chain 0
walk
walk
