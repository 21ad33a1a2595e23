# None by the sum is not final: the guest shortens a length, and the chain goes on.
memory 64
queue 2
desc 0 0 0xffffffff 1 1
desc 16 0 1 0 0
chain 0
next
next
u32 24 0
next
