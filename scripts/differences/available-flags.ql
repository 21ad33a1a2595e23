# Flags 1 of the available ring advise that no notification is needed: nobody reads them.
memory 64
queue 1
avail 2 0
u16 2 1
question
