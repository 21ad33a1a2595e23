# A region is refused with its reason, the first in this order of tests, and nothing changed: full, empty, beyond 2^64,
# beyond the image, overlap. After a refused first region the next one is still the first.
memory 64
region 0 0 0                   # no bytes
region 0xffffffffffffffff 2 0  # the second byte would be at 2^64
region 0 65 0                  # longer than the image
region 0 1 64                  # behind the image
region 0 8 0
region 7 2 0                   # the first has address 7
region 8 8 0                   # next to it, and at the same place in the image: both allowed
region 0xffffffffffffffff 1 0  # up to 2^64, but not beyond
# Several reasons at once.
region 0 0 65                  # empty, and behind the image
region 0xffffffffffffffff 65 0 # beyond 2^64, and beyond the image
region 0 65 0                  # beyond the image, and overlapping
region 0 8 0xffffffffffffffff  # beyond the image, whose end would pass 2^64, and overlapping
# Five more, and the ninth.
region 32 1 0
region 48 1 0
region 64 1 0
region 80 1 0
region 96 1 0
region 112 1 0
region 0 0 65                  # full before anything else
# The table is as it was: idx is read at address 8, which the second region put at place 0.
queue 1
avail 6 0
ready 1
u16 0 1
begin
u16 0 2
begin
