# idx lies in two regions, cut at an odd address: the port reads it, the crate does not.
memory 16
region 0 5 0
region 5 11 5
queue 1
avail 2 0
ready 1
begin
