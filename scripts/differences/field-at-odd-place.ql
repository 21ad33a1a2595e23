# A region at an odd place of the image: the port reads idx, the crate does not.
memory 48
region 0 40 1
queue 1
avail 2 0
ready 1
valid
begin
