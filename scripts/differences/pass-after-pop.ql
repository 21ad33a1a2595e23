# A pass that began before a pop must not be gone on with. Begin remembers idx 1. The guest announces one entry more, and
# two pops take both: the position is 2, past the idx that the pass remembers, and the pass would end where the two are
# equal again, 65,535 heads later, round and round the ring. In the crate a pass borrows the queue, so that no pop can
# come in between; in this language a pop drops the pass.
memory 64
queue 2
avail 16 0
ready 1
bytes 20 0 0 1 0
u16 18 1
begin
u16 18 2
pop
pop
state
head

# The same queue with the pass kept: the position is set where the two pops left it. Nobody announced these heads.
next-avail 0
u16 18 1
begin
u16 18 2
next-avail 2
state
head
head
head
head
state

# and now the device is ahead of the driver
begin
