# A bad index and a loop end like a chain that is whole.
memory 64
queue 2
desc 0 0 4 1 2
chain 0
next
next
desc 0 0 4 1 0
chain 0
next
next
next
