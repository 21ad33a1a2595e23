# A readable descriptor after a writable one is handed out.
memory 64
queue 2
desc 0 0x1000 4 3 1
desc 16 0x2000 4 0 0
chain 0
next
next
