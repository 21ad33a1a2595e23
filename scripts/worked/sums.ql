# The checksum is zlib's: of nothing it is 0, of the nine bytes 123456789 it is cbf43926.
memory 0
sum
memory 9
bytes 0 0x31 0x32 0x33 0x34 0x35 0x36 0x37 0x38 0x39
sum
# A walk's checksum is that of its descriptors' bytes one after the other: here they are the image.
memory 32
desc 0 0x1000 16 1 1
desc 16 0x2000 32 2 0
sum
queue 2
chain 0
walk
walk
