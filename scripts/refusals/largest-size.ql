# A largest size is a power of two, at most 32,768. The old queue stays.
memory 64
queue 2
queue 0
queue 3
queue 65535
queue 32769
state
queue 32768
state
