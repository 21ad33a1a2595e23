# None by memory is not final: a region is added, and the chain goes on.
memory 32
desc 0 0 0 1 1
region 0 16 0
queue 2
chain 0
next
next
region 16 16 16
next
