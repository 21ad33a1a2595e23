# Scripts of the replay language. The crate's answers to them are kept beside this file.
# Made by: compare/fixed-list fixed-list.ql fixed-list.answers 1 20000
sum
dump 0 0
dump 0 1
fill 0 0 0
region 0 2 0
region 0 0 0
valid
put 0
u32 00002 0xFFFFFFFF
desc 9223372036854775808 0 0 0 0x00000000000000000000
valid
readable
2uB\>,xFK|WK3MKf0|=7u[<JO>uNNZ#T4:1$`e6
used 0 0x80000000
walk
bytes 0x4c7e488199b91 156 0x100 203
next-avail 0x10000
next-used 32768
size 65537
size 65534
next-used 0x0
u64 - - -
heads
table 4294967294 4294967295
desc 0 0 4294967293 0 32768
readable
queue 4
ready 1
avail 2 -
valid
begin
head
pop
put 0 0
ask
stop
chain 0
walk
readable
walk
back
question
question
desc 0 638525694140309941 2 7 0
size 0
size 0xfffe
used 0 0x80000000
ready 0
ready 0
reset
writable
walk
used 7 0
region 0x0 5 9223372036854775808
next-avail 0x00000000000000008000
memory 1336
queue 4
table 0 0
avail 0xb0 0
used 304 0
ready 1
valid
next-avail 0xe976
bytes 00178 118 233
next-used 59766
fill 231 23 0x92
put 2 1
stop
pop
u16 0xbc 59767
desc 16 171920 2147483647 3 2
a9JHX}y#
pop
question
begin
region 164 60 416
head
u16 432 2
u16 430 1
u16 430 59766
bytes 436 0 0
u16 430 59767
u16 438 2
bytes 430 120 233
begin
head
head
put 0 1
put 2 16909060
begin
head
head
u16 432 3
u16 430 59769
head
head
u16 434 0
u16 430 59770
pop
writable
next
writable
put 3 32
question
begin
back
head
next
head
put 3 0x1
put 0x00000000000000000000 0x200
state
put 00001 0x00000000000000000200
put 1 00001
put 0x0 512
put 5 0x0
put 0 16909060
put 1 16909060
put 0 0x20
put 5 0
put 00000 0x200
put 0x2 0xffffffff
pop
question
u16 0x1ae 59768
back
u16 432 32768
u16 430 0x0000000000000000e979
question
state
u16 1024 16046
pop
begin
back
u16 0x429 0x8774
head
head
back
back
put 32768 1
begin
u16 434 0x3
u16 0x1ae 59770
pop
next
put 2 0x200
question
begin
head
put 32768 16909060
state
pop
put 3 512
pop
bytes 439 0x72
bytes 438 3
pop
next
question
chain 0
writable
state #xxxxxxxxxxxxxxxxxxxxxxxxxxxxxxxxxxxxxxxxxxxxxxxxxxxxxxxxxxxxxxxxxxxxxxxxxxxxxxxxxxxxxxxxxxxxxxxxxxxxxxxxxxxxxxxxxxxxxxxxxxxxxxxxxxxxxxxxxxxxxxxxxxxxxxxxxxxxxxxxxxxxxxxxxxxxxxxxxxxxxxxxxxxxxxxxxxxxxxxxxxxxxxxxxxxxxxxxxxxxxxxxxxxxxxxxxxxxxxxxxxxxxxxxxxxxxxxxxxxxxxxxxxxxxxxxxxxxxxxxxxxxxxxxxxxxxxxxxxxxxxxxxxxxxxxxxxxxxxxxxxxxxxxxxxxxxxxxxxxxxxxxxxxxxxxxxxxxxxxxxxxxxxxxxxxxxxxxxxxxxxxxxxxxxxxxxxxxxxxxxxxxxxxxxxxxxxxxxxxxxxxxxxxxxxxxxxxxxxxxxxxxxxxxxxxxxxxxxxxxxxxxxxxxxxxxxxxxxxxxxxxxxxxxxxxxxxxxxxxxxxxxxxxxxxxxxxxxxxxxxxxxxxxxxxxxxxxxxxxxxxxxxxxxxxxxxxxxxxxxxxxxxxxxxxxxxxxxxxxxxxxxxxxxxxxxxxxxxxxxxxxxxxxxxxxxxxxxxxxxxxxxxxxxxxxxxxxxxxxxxxxxxxxxxxxxxxxxxxxxxxxxxxxxxxxxxxxxxxxxxxxxxxxxxxxxxxxxxxxxxxxxxxxxxxxxxxxxxxxxxxxxxxxxxxxxxxxxxxxxxxxxxxxxxxxxxxxxxxxxxxxxxxxxxxxxxxxxxxxxxxxxxxxxxxxxxxxxxxxxxxxxxxxxxxxxxxxxxxxxxxxxxxxxxxxxxxxxxxxxxxxxxxxxxxxxxxxxxxxxxxxxxxxxxxxxxxxxxxxxxxxxxxxxxxxxxxxxxxxxxxxxxxxxxxxxxxxxxxxxxxxxxxxxxxxxxxxxxxxxxxxxxxxxxxxxxxxxxxxxxxxxxxxxxxxxxxxxxxxxxxxxxxxxxxxxxxxxxxxxxxxxxxxxxxxxxxxxxxxxxxxxxxxxxxxxxxxxxxxxxxxxxxxxxxxxxxxxxxxxxxxxxxxxxxxxxxxxxxxxxxxxxxxxxxxxxxxxxxxxxxxxxxxxxxxxxxxxxxxxxxxxxxxxxxxxxxxxxxxxxxxxxxxxxxxxxxxxxxxxxxxxxxxxxxxxxxxxxxxxxxxxxxxxxxxxxxxxxxxxxxxxxxxxxxxxxxxxxxxxxxxxxxxxxxxxxxxxxxxxxxxxxxxxxxxxxxxxxxxxxxxxxxxxxxxxxxxxxxxxxxxxxxxxxxxxxxxxxxxxxxxxxxxxxxxxxxxxxxxxxxxxxxxxxxxxxxxxxxxxxxxxxxxxxxxxxxxxxxxxxxxxxxxxxxxxxxxxxxxxxxxxxxxxxxxxxxxxxxxxxxxxxxxxxxxxxxxxxxxxxxxxxxxxxxxxxxxxxxxxxxxxxxxxxxxxxxxxxxxxxxxxxxxxxxxxxxxxxxxxxxxxxxxxxxxxxxxxxxxxxxxxxxxxxxxxxxxxxxxxxxxxxxxxxxxxxxxxxxxxxxxxxxxxxxxxxxxxxxxxxxxxxxxxxxxxxxxxxxxxxxxxxxxxxxxxxxxxxxxxxxxxxxxxxxxxxxxxxxxxxxxxxxxxxxxxxxxxxxxxxxxxxxxxxxxxxxxxxxxxxxxxxxxxxxxxxxxxxxxxxxxxxxxxxxxxxxxxxxxxxxxxxxxxxxxxxxxxxxxxxxxxxxxxxxxxxxxxxxxxxxxxxxxxxxxxxxxxxxxxxxxxxxxxxxxxxxxxxxxxxxxxxxxxxxxxxxxxxxxxxxxxxxxxxxxxxxxxxxxxxxxxxxxxxxxxxxxxxxxxxxxxxxxxxxxxxxxxxxxxxxxxxxxxxxxxxxxxxxxxxxxxxxxxxxxxxxxxxxxxxxxxxxxxxxxxxxxxxxxxxxxxxxxxxxxxxxxxxxxxxxxxxxxxxxxxxxxxxxxxxxxxxxxxxxxxxxxxxxxxxxxxxxxxxxxxxxxxxxxxxxxxxxxxxxxxxxxxxxxxxxxxxxxxxxxxxxxxxxxxxxxxxxxxxxxxxxxxxxxxxxxxxxxxxxxxxxxxxxxxxxxxxxxxxxxxxxxxxxxxxxxxxxxxxxxxxxxxxxxxxxxxxxxxxxxxxxxxxxxxxxxxxxxxxxxxxxxxxxxxxxxxxxxxxxxxxxxxxxxxxxxxxxxxxxxxxxxxxxxxxxxxxxxxxxxxxxxxxxxxxxxxxxxxxxxxxxxxxxxxxxxxxxxxxxxxxxxxxxxxxxxxxxxxxxxxxxxxxxxxxxxxxxxxxxxxxxxxxxxxxxxxxxxxxxxxxxxxxxxxxxxxxxxxxxxxxxxxxxxxxxxxxxxxxxxxxxxxxxxxxxxxxxxxxxxxxxxxxxxxxxxxxxxxxxxxxxxxxxxxxxxxxxxxxxxxxxxxxxxxxxxxxxxxxxxxxxxxxxxxxxxxxxxxxxxxxxxxxxxxxxxxxxxxxxxxxxxxxxxxxxxxxxxxxxxxxxxxxxxxxxxxxxxxxxxxxxxxxxxxxxxxxxxxxxxxxxxxxxxxxxxxxxxxxxxxxxxxxxxxxxxxxxxxxxxxxxxxxxxxxxxxxxxxxxxxxxxxxxxxxxxxxxxxxxxxxxxxxxxxxxxxxxxxxxxxxxxxxxxxxxxxxxxxxxxxxxxxxxxxxxxxxxxxxxxxxxxxxxxxxxxxxxxxxxxxxxxxxxxxxxxxxxxxxxxxxxxxxxxxxxxxxxxxxxxxxxxxxxxxxxxxxxxxxxxxxxxxxxxxxxxxxxxxxxxxxxxxxxxxxxxxxxxxxxxxxxxxxxxxxxxxxxxxxxxxxxxxxxxxxxxxxxxxxxxxxxxxxxxxxxxxxxxxxxxxxxxxxxxxxxxxxxxxxxxxxxxxxxxxxxxxxxxxxxxxxxxxxxxxxxxxxxxxxxxxxxxxxxxxxxxxxxxxxxxxxxxxxxxxxxxxxxxxxxxxxxxxxxxxxxxxxxxxxxxxxxxxxxxxxxxxxxxxxxxxxxxxxxxxxxxxxxxxxxxxxxxxxxxxxxxxxxxxxxxxxxxxxxxxxxxxxxxxxxxxxxxxxxxxxxxxxxxxxxxxxxxxxxxxxxxxxxxxxxxxxxxxxxxxxxxxxxxxxxxxxxxxxxxxxxxxxxxxxxxxxxxxxxxxxxxxxxxxxxxxxxxxxxxxxxxxxxxxxxxxxxxxxxxxxxxxxxxxxxxxxxxxxxxxxxxxxxxxxxxxxxxxxxxxxxxxxxxxxxxxxxxxxxxxxxxxxxxxxxxxxxxxxxxxxxxxxxxxxxxxxxxxxxxxxxxxxxxxxxxxxxxxxxxxxxxxxxxxxxxxxxxxxxxxxxxxxxxxxxxxxxxxxxxxxxxxxxxxxxxxxxxxxxxxxxxxxxxxxxxxxxxxxxxxxxxxxxxxxxxxxxxxxxxxxxxxxxxxxxxxxxxxxxxxxxxxxxxxxxxxxxxxxxxxxxxxxxxxxxxxxxxxxxxxxxxxxxxxxxxxxxxxxxxxxxxxxxxxxxxxxxxxxxxxxxxxxxxxxxxxxxxxxxxxxxxxxxxxxxxxxxxxxxxxxxxxxxxxxxxxxxxxxxxxxxxxxxxxxxxxxxxxxxxxxxxxxxxxxxxxxxxxxxxxxxxxxxxxxxxxxxxxxxxxxxxxxxxxxxxxxxxxxxxxxxxxxxxxxxxxxxxxxxxxxxxxxxxxxxxxxxxxxxxxxxxxxxxxxxxxxxxxxxxxxxxxxxxxxxxxxxxxxxxxxxxxxxxxxxxxxxxxxxxxxxxxxxxxxxxxxxxxxxxxxxxxxxxxxxxxxxxxxxxxxxxxxxxxxxxxxxxxxxxxxxxxxxxxxxxxxxxxxxxxxxxxxxxxxxxxxxxxxxxxxxxxxxxxxxxxxxxxxxxxxxxxxxxxxxxxxxxxxxxxxxxxxxxxxxxxxxxxxxxxxxxxxxxxxxxxxxxxxxxxxxxxxxxxxxxxxxxxxxxxxxxxxxxxxxxxxxxxxxxxxxxxxxxxxxxxxxxxxxxxxxxxxxxxxxxxxxxxxxxxxxxxxxxxxxxxxxxxxxxxxxxxxxxxxxxxxxxxxxxxxxxxxxxxxxxxxxxxxxxxxxxxxxxxxxxxxxxxxxxxxxxxxxx
begin
next
head
back
readable
head
head
u16 436 1
u16 430 59771
put 3 32
begin
head
next
next
u16 0x000000000000000001b6 0
bytes 430 124 233
put 1 00000
pop
next
put 0 16909060
u16 432 0x00000000000000000001
u16 430 0xe97d
bytes 434 3 0
u16 00430 59774
u16 0x1B4 00000
bytes 430 0x7f 0xe9
u16 438 0xFFFF
u16 430 0xe980
begin
head
readable
bytes 431 0xd5
head
put 1 16909060
put 00003 0xffffffff
begin
begin
bytes 432 5 0
bytes 430 129 213
begin
u16 434 1
u16 0x1ae 54658
u16 436 3
u16 0x1ae 0xd583
queue
u64 1285 0x30712a47568a7c9b
state
sum
region 0x144 00034 286
u16 430 27006
bytes 430 0x7e 233
u16 0x1B4 3
u16 0x1ae 59775
pop
ask
u16 438 1
u16 430 59776
u64 620 12823761903510692861
bytes 432 2 0
u16 430 59777
begin
writable
walk
head
head
readable
fill 00153 0x6 0x00000000000000000071
walk
state
sum
memory 0x24
queue 2
table 32 0
avail 26 -
avail - 0x0
used 64 0x0
ready 1
valid
u16 30 65535
u16 28 1
begin
head
head
head
head
bytes 32 0x00000000000000000090 221 2 0
u16 0x20 0
u16 28 2
pop
put 0 32
state
stop
pop
readable
begin
head
back
head
head
head
put 0 0x1020304
pop
question
begin
head
head
head
head
bytes 34 67
writable
bytes 35 16
head
next
next
region 0x10 36 0
u16 12 2
bytes 0x20 48 0xff 0xff 255
u16 14 1
u16 12 0x3
state
valid
pop
next
put 1 512
question
pop
state
bytes 0x20 184 0xff 255 255
u16 16 1
bytes 12 00004 0
pop
next
put 1 2147483648
bytes 32 144 129 2 0
desc 16 111280 0x00000000000000010000 3 1
u16 0xE 1
u16 0xc 0x5
bytes 23 235
desc 0x10 18446744073709547601 0x0000000000007fffffff 47224 0x8000
u16 0x12 0xfffd
begin
readable
bytes 0x20 0x91
bytes 0xF 4
u16 0x10 2
u16 12 0x6
u16 14 0
u16 12 7
bytes 12 0x00000000000000000005 0x0
u16 16 2
u16 12 0x00000000000000000006
state
u64 6 0x00006dd82f77b77850da
pop
begin
readable
bytes 12 4 0
bytes 32 130 202 0xd7 0xb7
u16 14 1
u16 12 5
pop
put 1 16909060
question
begin
writable
head
next
next
next
next
head
readable
walk
next
writable
pop
next
next
bytes 22 239
fill 28 12 0x00000000000000000093
dump 16 12
desc 16 12906057224670767674 0 00003 0
state
bytes 15 216
pop
desc 16 0xa9d901715c50f1d0 0 0x1 0
u16 16 0
u16 0xc 6
stop
dump 00028 0
pop
next
next
next
put 0 32
question
bytes 32 224 79 0x00000000000000000003 0
begin
bytes 24 255 255 255 255
u16 18 32768
bytes 27 160 59 0 195 18 00177 0x68 202 195
desc 16 628960 0x1000 8619 0
bytes 32 59 40 178 0x65
desc 16 0xd0e848c45b2ce6b 1 1 0
u16 14 1
bytes 0x0000000000000000000c 7 0
state
sum
memory 1500
queue 4
size 4
table 00000 -
table - 0
avail 0x000000000000000005d6 -
avail - 0
used 80 0
ready 1
valid
next-avail 65530
u16 1496 0xfffa
next-used 65530
valid
desc 0 0xfffffffffffff26a 0x10 1 2
desc 32 709408 0 0x00000000000000000001 3
desc 48 161296 0 1 1
desc 00016 806560 0x00000000000000000000 2 0
u16 1496 65531
pop
chain 1
walk
desc 48 952224 4294967295 0x00000000000000000002 2
bytes 16 162
pop
question
bytes 24 255 255 255 255
chain 2
next
bytes 0x5F 0x2
u16 0x592 43853
ask
bytes 29 133
bytes 40 255 0xff 255 255
begin
bytes 40 0xff 255 255 0xff
head
head
head
u16 1496 0x0000000000000000fff9
pop
question
begin
u32 1129 2781383920
pop
bytes 0x5d8 0xfa 255
desc 0 0x000000000000000abbf0 4096 0x1 3
desc 48 619440 16 0 0x00000000000000000000
u16 0x000000000000000005d8 65531
bytes 0 216 123 117 112 47 0x7E 0xa3 0x84 0 0x0 0 0x0 0 0 0 00000
u16 1496 65532
desc 48 0xc8a80 4096 3 1
desc 16 12015394413320921886 16 3 2
desc 32 124016 512 0x2 0
u16 1498 3
u16 0x5D8 0xFFFD
pop
next
question
bytes 30 66
u16 0x5d8 0xfffe
bytes 1497 191
bytes 95 18
bytes 0x5d8 0xFC 0xff
bytes 0x5d 1
chain 0
writable
put 0xffff 4294967295
state
desc 0 145344 0x00000000000080000000 3 3
state
dump 0 22
u16 0x5da 32768
u16 0x000000000000000005d8 65533
bytes 0x20 0x10 161 11 0 0 0 00000 0x0 0 16 0 0 0 0 0 0
u16 1496 65534
pop
desc 32 6691494969615904993 0 1 2
begin
head
u16 444 45779
bytes 0x5db 33 138 64 0x18 17 241 203 26 64 0x70
region 0x0 01500 0
next
head
head
bytes 24 0xff 255 0xff 0xff
state
u16 0x000000000000000005d8 65535
u16 1496 32762
desc 32 584032 4096 3 3
u16 1496 65530
desc 0 746720 0x0 1 3
desc 48 18446744073709550001 0 1 1
bytes 16 158 0xD 252 29 109 105 11 0x00000000000000000095 0 2 0x0 0 0 0 00000 0
u16 0x5d8 65531
chain 5
put 0 0
fill 1162 2 169
valid
u16 1496 65530
begin
bytes 0x2f 0x00000000000000000080
u16 0x000000000000000002ac 0xaafc
bytes 59 1
dump 1494 6
desc 16 0x4e34446b2ea47389 0 0x00000000000000000003 0x2
desc 0x20 295072 0x10000 2 0
u16 0x5d8 0xFFFB
bytes 0x0 58
question
pop
question
region 28 64 0x1de
desc 16 963952 1 3 00002
bytes 32 32 0x4e 15 0 0 0 0 0 0 2 0 0 2 0 0 0
u16 01496 65532
chain 3
walk
begin
writable
writable
head
head
desc 0 1027104 2147483647 1 0
fill 127 9 41
pop
dump 1494 0x2
begin
bytes 8 1 0 0 0
bytes 58 169
back
desc 16 956384 1 3 2
region 110 6 0x000000000000000005c6
bytes 95 16
bytes 48 214
back
bytes 91 128
u16 1498 4
u16 1496 65533
bytes 0x5d8 254 255
put 3 4294967295
put 00002 0
put 1 4294967295
put 5 0x1020304
put 0 0x20
put 2 32
put 3 0
put 0x1 0x1020304
put 0 32
put 0 4294967295
put 5 4294967295
chain 5
readable
next
pop
begin
pop
readable
pop
writable
next
u16 1496 0xfff8
desc 0 691536 4096 1 0x1
desc 16 0x73d80 16 0 0
bytes 1498 0 0
u16 1496 0xfff9
state
pop
next
next
readable
put 0 32
u16 1496 32761
bytes 0x12f 209 209 0xf2 0x73 0xf1 106 219 179 0x6b 1 0x72 152
begin
state
pop
question
u16 1496 65529
desc 32 0xfffffffffffff5f9 1 0 0
u16 1496 65530
valid
bytes 104 40
bytes 00106 6
u16 1496 65528
u16 1498 32768
u16 1496 65529
begin
head
head
head
begin
u64 0x4cf 8958120838545266251
head
desc 0x30 18446744073709548794 0 3 0
desc 0 0x7d200 0x00000000000000000001 3 0x1
bytes 16 176 0xe6 12 0x0 0 00000 0 0 0x00000000000000000010 0 0 0 3 0 2 0
desc 32 18446744073709551323 0x0 2 0
u16 1496 65530
back
desc 16 8112613492550728271 4096 3 3
desc 48 18446744073709551224 16 2 00000
u16 1496 0xfffb
bytes 19 63
u16 1496 65532
pop
writable
put 0x8000 4294967295
question
begin
next
head
head
head
next
u16 1496 0xfff7
pop
question
u16 1496 65528
u16 01498 1
u16 0x5d8 65529
bytes 8 1 0 0 0
sum
desc 0 18446744073709550903 16 00000 0
u16 1496 65530
state
region 18446744073709551606 30 1034
pop
question
desc 16 3343033703778763216 4294967294 0x85a8 0xffff
put 3 0
bytes 0x5d8 234
u16 1496 65529
desc 0 0x00000000000000008530 4096 1 2
desc 32 18446744073709548742 4096 3 1
desc 0x10 5863804274742483418 00512 3 3
bytes 48 96 41 13 0 0 0x0 0 0x0 0 16 0 0x0 2 0 0 0
bytes 0x5d8 250 255
desc 0 751376 4294967295 0x9a88 1
dump 0x000000000000000005d6 2
desc 0 1034780580029449956 2147483647 0x9682 0
u16 01496 0xfffb
pop
question
state
sum
memory 0x666
region 18446744073709551568 00046 0
region 00000 1592 46
queue 2
table 0 0
avail 00080 0
used 0x8c 0
ready 1
valid
next-avail 0x2884
u16 0x80 10372
next-used 10372
bytes 130 3 0x0
u16 128 10373
bytes 48 64
begin
head
head
bytes 73 2
head
put 0x3 32
bytes 46 128 0x000000000000000000e3 00006 0 0 0x00000000000000000000 0 0 00000 16 0 0 0 0 0 0x00000000000000000000
u16 132 0
u16 128 0x2886
state
bytes 62 32 11 1 0 0 0 0 0x0 1 0 0 00000 3 0 0 0
desc 46 0xffffffffffffff55 0 2 0
u16 130 1
u16 0x80 10375
chain 0
readable
u16 0x84 1
u16 128 10376
u16 128 10373
desc 62 0x30030 1 00002 00000
bytes 132 1 0
u16 128 10374
desc 46 18446744073709548895 4096 0 00000
u16 130 0
u16 0x80 10375
dump 186 70
pop
walk
put 1 0x1
u32 0x1AE 2015048657
put 1 4294967295
u16 128 10374
desc 62 18446744073709549388 65536 3 0
desc 00046 18446744073709548665 00001 0x00000000000000000002 0
u16 0x82 1
u16 128 0x2887
pop
next
next
next
put 1 0x80000000
question
desc 62 0x954e0 0 0 0
u16 132 0x00000000000000000001
bytes 128 0x88 00040
u16 0x82 3
u16 0x80 10377
state
state
chain 1
next
readable
begin
writable
head
desc 46 0x8cdf0 4096 1 1
desc 62 0xEEC7D76541A553AB 0x10 2 0
bytes 132 0 0
u16 128 10378
head
bytes 62 0x90 40 0xf 0 0 0 0 00000 1 0 0 0 2 0 0 0
u16 0x82 1
u16 0x00000000000000000080 0x0000000000000000288b
put 3 512
bytes 1187 203 80 8 0xe2
begin
head
writable
next
writable
bytes 0x38 241
u16 0x00000000000000000535 6767
put 0 32
desc 62 0x00000000000000056c10 0 0x0 0x00000000000000000000
u16 132 1
u16 128 10380
u16 0x82 3
u16 128 10381
bytes 46 0x82
question
ask
sum
bytes 64 6
state
pop
question
valid
bytes 70 1 0 0 0
u16 128 10376
bytes 51 1
desc 62 0x0000fffffffffffff386 4096 00001 0x1
u16 130 1
u16 128 10377
stop
u16 0x80 10378
desc 46 0x000000000000000f2410 0x200 0x1 1
desc 62 134256 0x10000 00000 0
u16 130 0
u16 128 0x288b
put 0xffff 16909060
state
desc 46 0x7985f4fe6855a9c7 4294967294 1 0
state
desc 62 0xfffffffffffff46a 1 0x00000000000000000001 0
desc 46 0xcdf40 0 2 0
bytes 0x00000000000000000084 1 00000
u16 128 10380
begin
next
next
begin
next
u32 283 2094765145
head
head
u32 59 2000307340
head
head
head
desc 46 18446744073709549169 0x10 2 0
bytes 0x82 0 0x00000000000000000000
u16 128 10381
next
next
put 0 0x80000000
put 1 0
state
sum
memory 1650
queue 0x00000000000000000001
size 1
table 0 0x00000000000000000000
avail 16 0
used 24 0
ready 1
valid
next-avail 8190
u16 18 8190
next-used 65527
desc 0 0x91cb829fbeb41fcd 4294967294 0 0x00000000000000000000
desc 0 18446744073709549522 0xffffffff 0 0
u16 20 0
u16 18 8191
bytes 8 0xff 255 0xFF 0x000000000000000000ff
begin
head
head
put 00000 0x80000000
writable
begin 1
state
chain 0
next
walk
desc 0 0x326b43202a7ca600 1 00002 0
desc 0 12289317875603020757 0x1 0x1 0
chain 0
next
next
state
walk
state
next
desc 0 18446744073709549401 0xFFFFFFFE 0 0
u16 0x00000000000000000014 0
bytes 18 0 32
chain 0
next
writable
begin
back
head
head
walk
readable
head
head
put 0 512
put 0 0x200
desc 0 18446744073709548725 4294967295 00002 0
u16 20 0
u16 0x00000000000000000012 8193
chain 0
next
next
chain 0x0
writable
desc 0 972867343397015669 1 2 0
chain 0
next
walk
chain 1
walk
begin
bytes 8 0 0 0 0
chain 0
readable
chain 0
writable
chain 2
writable
readable
state
desc 0 0x52900 2147483648 2 1
state
begin
head
sum
desc 0 14231598363317160111 4294967295 0 0
u16 0x14 0
u16 18 8194
next
next
bytes 8 0x0 0 0 0
desc 0 0x7b630 2147483648 2 0
desc 0 0xFFFFFFFFFFFFF6F8 4294967295 0x1 0x0
desc 0x0 18446744073709550166 0x7fffffff 3 0x00000000000000000000
walk
next
chain 0
writable
walk
bytes 8 255 255 0xff 0xff
desc 0 13919630029217550957 2147483648 5 0
readable
chain 0
begin
bytes 1138 00226 0x7a 112 194 179 3
head
bytes 17 0x00000000000000000002
back
head
bytes 6 0x2d
head
head
put 0 0
bytes 8 1 0 0 0
desc 0 0xa7020 0 0 1
desc 0 301360 00000 3 0xffff
pop
question
desc 0 88144 4294967295 0 0
u16 20 0
u16 18 8195
chain 0
next
state
begin
head
bytes 18 4
back
head
put 0 4294967295
put 0 0x200
next
next
chain 0
pop
walk
put 0x0 16909060
desc 0 620048 0xffffffff 0 0
u16 0x14 0
u16 18 8197
pop
writable
put 00000 2147483648
desc 0 0xe9fd0 0xffffffff 0 0
bytes 20 0 0
u16 18 8198
pop
next
next
put 0 2147483648
question
desc 0 0xe69a1fd7fc7e566 2147483647 3 0
chain 0
readable
next
begin
next
head
readable
desc 0 0x553f0 0xffffffff 00002 00000
u16 20 0x0
u16 00018 0x00000000000000002007
u64 290 14969839469607523620
head
next
writable
desc 0 18446744073709549285 4294967294 3 0
chain 0x0
readable
next
chain 0
chain 00000
avail 0b1 51289884
chain 00000
next
next
begin
next
head
u32 0xbe 3886443660
head
next
walk
writable
back
bytes 8 1 0 0 0x0
head
put 00000 32
put 0 1
walk
chain 0
next
walk
desc 0 703536 0x00000000000000000000 22040 0x0000000000000000ffff
bytes 0 0xc0 150 0x00000000000000000001 0 0 0x0 0 0 0xff 0xff 255 0xff 0x00000000000000000000 0 0 0
u16 20 0
u16 00018 8200
state
walk
begin
bytes 8 0xff 255 0x000000000000000000ff 127
head
back
bytes 0x8 0 0x0 0 0
desc 0 332400 0x1000 1 0
state
chain 2
next
next
pop
walk
put 0 4294967295
question
desc 0 0xd1870 0 0 0x0
writable
sum
bytes 8 1 0x00000000000000000000 0 0
desc 0 18446744073709551085 4294967295 3 0
pop
desc 0 18446744073709548263 4294967295 0 0
u16 0x14 0x0
u16 18 8201
chain 0
next
bytes 33 251
bytes 0x8 00000 0 0 0x80
chain 0
writable
writable
writable
bytes 17 199
chain 0
next
readable
desc 0 0xfffffffffffff135 1 0 0
next
pop
next
put 0 0x00000000000000000001
bytes 8 0xff 0xff 255 0x7F
desc 0 0x300e0 4294967295 2 0
u16 0x00000000000000000014 0
u16 18 8202
pop
readable
put 0 512
chain 0
bytes 8 0xff 0xff 0xff 0x7f
chain 0x0
next
chain 0x00000000000000000000
next
writable
state
sum
memory 1400
region 0x100000094 954 0
region 4294968398 0x6a 00954
region 4294967104 290 0x424
region 4294967394 50 1350
queue 4
size 4
table 4294967104 -
table - 0
avail 4294967264 0
used 80 1
ready 1
valid
next-avail 65530
bytes 1222 250 255
next-used 65530
event 1
desc 1092 0x75140 65536 0x2 0
u16 1228 2
u16 0x4c6 0xfffb
desc 0x424 18446744073709551311 4096 1 1
desc 1076 0xb7690 4096 1 3
bytes 1108 0x00000000000000000070 34 0x7 0 0x00000000000000000000 0 0 0 16 0 0 0 0 0 0x0 0
u16 0x000000000000000004ce 0
u16 0x000000000000000004c6 0xFFFC
desc 1092 0xfffffffffffffcb6 0 1 1
desc 1076 0x47a0 4096 1 3
desc 1108 173216 1 3 0
bytes 0x424 32 20 3 0 0 0 00000 0x0 0 0 1 0 2 0 0 0
u16 1224 2
u16 1222 0xfffd
ask
u16 0x4d0 65531
desc 1076 439856 16 1 3
desc 1108 0xfffffffffffffa8e 0 3 2
bytes 0x444 240 246 0x5 0 0 0 0 0x0 1 0x00000000000000000000 0 0 0x00000000000000000003 0 0 0
desc 1060 18415933586238001659 65536 2 0
u16 1226 1
u16 1222 65534
u16 1232 65531
begin
walk
begin
next
readable
head
next
next
writable
head
bytes 1226 17
bytes 0x44d 4
bytes 1069 1
put 2 16909060
put 0 2147483648
u16 0x000000000000000004d0 65532
u16 1220 00000
pop
next
put 00002 512
begin
next
next
fill 298 23 224
question
dump 1332 4
pop
put 17 4294967295
question
put 3 0
put 00001 1
put 2 1
put 2 32
put 3 1
put 3 512
put 0 32
put 65535 2147483648
put 1 00512
put 3 0xffffffff
put 3 1
put 1 0x80000000
put 65535 0x1020304
put 2 4294967295
put 3 512
put 3 0
put 2 0
put 3 2147483648
put 1 0x1020304
desc 1060 0x0000000000000009bb10 0x1000 1 2
desc 0x444 13417410314280626747 512 1 00001
desc 0x434 6468259701595031284 4096 2 0x00000000000000000000
u16 0x000000000000000004cc 0
u16 1222 0xffff
pop
next
writable
put 0 512
question
pop
question
bytes 0x454 128 0x65 0xB 00000 0x0 0 0 0 0 16 0 0 1 0 0x2 0
desc 1092 608480 1 3 0
desc 1060 1013312 0x10000 3 1
bytes 0x434 0x60 74 2 0x00000000000000000000 0 0 0 0x0 0 00016 0 0x0 00002 00000 0 0
u16 1230 3
u16 0x4c6 0
sum
desc 1076 18446744073709551262 0x200 1 0
desc 1060 0xfffffffffffff0d2 1 00003 3
desc 0x454 0x88160 0x1000 3 2
desc 1092 18446744073709551579 0 2 0
u16 1224 1
u16 1222 1
pop
next
next
next
put 3 1
question
desc 0x434 179120 16 3 2
desc 1092 18446744073709547586 0 3 0
desc 1060 13353282654566958188 1 3 3
desc 1108 18446744073709549700 1 2 0
u16 1226 1
u16 1222 0x2
desc 1092 249264 1 0x1 3
bytes 1108 0x00000000000000000050 0x92 11 0 0 0 00000 0 16 0 0 0 3 0 1 0
desc 0x434 12009752240576981388 0 2 0
bytes 0x4cc 2 0
bytes 0x4c6 3 0
desc 0x454 0xee820 16 0 0
u16 1230 3
u16 1222 0x00000000000000000004
state
pop
next
walk
put 1 00512
begin
head
head
bytes 1109 226
head
bytes 1100 255 0x000000000000000000ff 255 127
head
head
head
next
next
put 1 16909060
put 2 0x80000000
put 0x00000000000000000003 32
put 3 0x80000000
desc 1060 0x2e190 65536 0 0
u16 0x4c8 0
u16 1222 5
question
desc 0x454 15338913700269741746 512 1 2
desc 1092 614464 0 0 0
u16 1226 3
u16 1222 6
chain 2
walk
next
desc 1092 529424 0x200 2 0
u16 0x4cc 2
u16 0x4c6 0x00000000000000000007
ask
desc 01076 14629417350601998155 16 3 3
desc 01108 18446744073709551527 00016 3 0
desc 1060 0xcd820 0x10000 0x00000000000000000002 0
u16 0x4ce 1
u16 1222 8
begin
head
head
head
bytes 1116 255 255 255 0xff
head
next
next
bytes 0x42c 0 0 0 0
head
put 0 2147483648
put 3 0x200
put 2 16909060
put 1 2147483648
begin
head
head
bytes 1084 255 00255 255 255
head
desc 0x434 0x4a640 512 3 0x00000000000000000002
desc 0x444 367152 4096 0x2 0
u16 0x4c8 1
u16 0x4c6 9
state
chain 3
next
readable
state
sum
memory 1782
region 18446744073709549818 42 00000
region 0x0000fffffffffffff924 38 0x2A
region 0xFFFFFFFFFFFFF94A 0x26 0x50
region 18446744073709549936 0x13e 0x76
region 18446744073709550254 504 0x1b4
region 0xfffffffffffffca6 0xa6 0x3ac
region 0xfffffffffffffd4c 416 1106
region 18446744073709551340 260 1522
queue 8
table 4294967200 -
table - 4294967295
avail 4294967290 4294967295
used 4294965848 -
used - 4294967295
ready 1
valid
next-avail 0x7867
next-used 0x7867
pop
question
dump 0x15e 22
pop
state
begin
u64 0x00000000000000000459 4471696019500398874
begin
desc 1766 0x3fd3e471b47ece4e 2147483648 2 4
bytes 406 190
pop
bytes 361 32
pop
next
question
begin
pop
question
pop
state
bytes 1721 32
state
pop
question
pop
question
region 0xFFFFFFFFFFFFFF94 42 0x528
state
state
u16 394 35320
pop
readable
question
ask
pop
question
question
desc 1734 1510477118203290956 0x00000000000000000000 0 65535
begin
u16 0x6BE 0x29aa
put 9 2147483648
put 1 1
put 4 1
put 0x00000000000000000000 512
put 65535 0x0
pop
question
region 0 0x6f6 0
chain 00009
pop
question
pop
pop
question
bytes 0x6be 0xab
u32 1039 0x44b4030b
begin
bytes 797 1 122
fill 184 2 200
put 6 0x80000000
chain 0
next
chain 65535
state
u32 0x433 3828526323
put 2 0x1
region 16 50 350
begin
bytes 0x18a 0xc7
pop
question
pop
readable
question
dump 350 0x46
region 0 0x6f6 0
region 0 0x6f6 0
u16 1449 37085
state
pop
begin
stop
pop
next
desc 0x6d6 6098114520486579513 4294967294 3 3
back# comment
begin
avail 2914817779 0x-1
begin
state
bytes 0x6d6 0x0 113 9 0 0 0 0 0 255 0xff 255 0x7F 227 0x1 3 0
begin
region 0 1782 0x0
u64 883 11589804434316244343
bytes 1749 127
region 18446744073709550172 1782 0
head
head
begin
state
ask
pop
u16 0x53d 0xc6b3
chain 65535
writable
begin
back
head
next
u32 0x1b8 3818790348
head
head
next
next
writable
ask
dump 0x15e 00022
begin
bytes 0x0000000000000000002f 138 0x8b 0x00000000000000000008 0xb2 00240 129 0xd8 0x00000000000000000098 19
back
back
pop
next
stop
bytes 376 16
chain 8
region 18446744073709551510 24 486
begin
sum
pop
readable
question
begin
head
put 0x7 512
state
pop
bytes 394 0x87
begin
head
head
head
head
region 0xfffffffffffffa60 48 468
head
put 0x00000000000000000000 16909060
ask
region 0 0x6f6 0x00000000000000000000
u16 987 18682
pop
question
chain 7
writable
bytes 0x3f4 3
pop
pop
chain 2
next
walk
state
begin
pop
walk
stop
bytes 0x49b 25 98 248 89 192 139 0xbb 0xd3 00195 0x72 152
begin
next
head
state
pop
next
bytes 412 0xff
state
bytes 1750 48 140 10 0 0 0 0 0 0 16 0 0 1 00000 4 0
dump 350 2
put 00004 0x80000000
put 1 0x1020304
u32 1020 0x95bbab43
pop
begin
begin
pop
chain 0
walk
region 24 1782 0
state
pop
question
state
pop
begin
readable
head
bytes 1710 255 0xff 0xff 0xff
u32 838 1903948692
head
head
state
sum
memory 0x000000000000000001d6
region 0x33195f6a2d1df0 470 0
queue 4
size 4
table 0x6a2d1df0 0x33195f
avail 0x6a2d1ea0 3348831
used 0x6a2d1f20 -
used - 0x33195f
ready 00001
valid
event 1
pop
question
u16 0xbc 65535
ask
stop
u16 178 4
put 2 0x80000000
put 4 4294967295
put 0 512
put 0x5 16909060
put 2 0xffffffff
put 2 0x0
put 3 512
put 2 0x200
put 1 0
put 3 16909060
put 0 0
put 0 00032
put 1 0x1
put 3 512
put 3 32
put 0 0x1020304
put 0 16909060
pop
put 0x0 0xffffffff
u16 188 12
ask
stop
ask
question
desc 32 17408309976035670812 16 2 0
u16 180 2
u16 0xb2 5
state
put 1 1
put 65535 0x20
state
put 65535 4294967295
question
put 3 00000
put 2 0x00000000000000000020
u16 0xbc 17
u16 0xbc 17
u16 188 20
put 1 4294967295
put 0 16909060
u16 0xb0 0
u16 188 32788
put 3 0
pop
next
readable
put 0 16909060
state
put 0 32
put 0 32
put 2 512
put 1 0
valid
pop
next
next
put 0 32
question
question
u16 188 31
put 5 0x000000000000ffffffff
put 0 4294967295
put 3 1
put 1 16909060
put 3 512
put 2 0xffffffff
put 65535 16909060
put 2 16909060
put 3 2147483648
put 0x00000000000000000001 32
put 0x0 0x0
put 1 32
put 2 2147483648
put 0 0xFFFFFFFF
put 2 32
put 00001 32
u16 176 65535
ready 1
u16 0xbc 40
put 2 4294967295
put 2 0x1020304
state
state
size 1
u16 182 32812
desc 0 0x67000 65536 0x00000000000000000000 0
u16 180 0
u16 0x000000000000000000b2 6
u16 182 0x2d
put 0 0xffffffff
u16 178 00003
put 0 32
stop
bytes 0 23 254 0x000000000000000000ff 0xff 0xff 0xff 0xff 0xff 0 0 0x0 0x0 0 0 0 0
u16 180 0
u16 0xb2 4
u16 182 45
ask
pop
next
readable
put 0 2147483648
stop
question
u16 182 50
desc 0 18446744073709548873 0x00000000000000000010 0 0
u16 180 0
u16 178 5
put 0 512
put 0 32
put 1 512
put 0x0 0x200
put 0 512
put 0 32
put 0 0x200
put 0 16909060
put 0 32
put 0xffff 1
put 0 32
put 0x2 4294967295
put 0 0xffffffff
put 0x0 512
put 0x0 1
state
sum
memory 298
region 0xfffffd90 298 0
queue 8
size 8
table 4294966672 0
avail 0xfffffda2 0
used 4294966748 0
ready 0x1
valid
next-avail 65530
u16 20 65530
next-used 65530
dump 18 0x4
begin
head
head
used 4294967259 1
table 0x76048a84 0
ready 1
state
put 4 0x80000000
table 4294966676 1
pop
question
question
event 00001
dump 76 0x00000000000000000026
state
back
dump 18 0x00000000000000000002
event 1
state
next-used 0xfffa
next-avail 2
chain 7
next
readable
bytes 26 255 255
u16 20 0x0000000000000000fffb
dump 0x4c 2
state
u16 28 7
u16 20 65532
pop
question
event 0
reset
size 8
table 4294966672 0
avail 0xfffffda2 0
used 0xfffffddc 0
ready 1
pop
event 0
size 9
begin
bytes 0x58 0 0 00000 0
u16 20 0x0
desc 112 18446744073709548050 1 1 0x1
bytes 0x00000000000000000010 00128 145 15 0 0 0x0 0 0 0 0 00000 0 1 0 4 00000
desc 64 168048 0x200 3 3
desc 48 477312 0 3 6
desc 96 0x24D80 0x00000000000000000000 3 0x2
desc 32 10014946675877305987 65536 1 5
desc 80 18446744073709548342 0x10000 3 0
desc 0 95392 0x0 0 0
u16 22 7
u16 20 1
next
next
bytes 39 202
bytes 56 0x1 0 0 0
desc 0x00000000000000000030 18446744073709549762 512 3 2
desc 0x00000000000000000020 0xd7750 16 3 6
desc 96 469104 512 3 7
desc 0x70 4803915178515131348 1 3 4
desc 00064 329648 512 1 0
desc 0x0 0x698d0 1 2 0
u16 24 3
u16 20 2
next
event 1
pop
walk
next
put 7 2147483648
avail 4294966658 -
state
avail 0 1
sum
event 1
table - 0
begin
head
head
head
head
bytes 57 41
head
next
question
ready 1
event 1
used 4294966750 4294967295
next-used 65529
used - 1
state
state
fill 2975506911477526 0x5ca6cd1b0266e 0x
used 0x0000000000000ece89d4 1
ready 1
event 0x1
event 0
used - 0x0
next-used 0
size 6
event 1
state
state
pop
question
begin
state
put 00001 0x200
table 4294966704 00000
avail - 4294967295
size 65535
state
begin
reset
size 8
table 0xfffffdb0 0
avail 0 0xffffffff
used 0xece89d4 0
ready 1
state
pop
event 0
used - 0x1
state
used - 00001
stop
begin
back
next-used 3
region 1099511627776 2 18446744073709551614
table - 0
chain 3
size 0x00000000000000000003
begin
head
head
next
next
next
next
head
bytes 81 1
head
head
bytes 112 196
u32 0x9b 3362238862
avail - 0x0
begin
begin
next-avail 0x3e88
event 0
begin
event 1
back
back
event 1
size 0x8
back
table 0 1
used 3496914553 0
chain 0x7
readable
next
chain 0
readable
valid
begin
ask
event 1
chain 00005
next
stop
state
back
ready 0x1
table - -
next-avail 44067
ask
valid
state
state
begin
head
next
head
head
next
head
head
head
state
state
sum
memory 01650
region 00180 0x1e0 0
region 0 0xb4 0x5be
queue 8
size 8
table 0 -
table - 0
avail 160 0
used 216 -
used - 00000
ready 1
valid
sum
used -1 0x8935ed4e
begin
head
head
head
head
head
desc 1486 0x83de88ce3798e9be 16 1 3
desc 1518 18446744073709551385 1 0x2 0
u16 1634 1
u16 0x660 1
walk
next
state
region 0 0 0x0
ready 0
u64 1634 0
chain 0x-1
dump 0xffffffffffffffff 0
writable
dump 18446744073709551615 0
-
desc 1486 0x39520 0x1000 1 7
desc 0x62E 745712 0 2 0
u16 1636 1
u16 1632 2
u32 0xffffffffffffffff 0
back 99999999999999999999
state
u16 1651 0x1
heads
su#m
state
ready 1
chain 0x000000000000000004d1
region 0x10000000000 2 0xFFFFFFFFFFFFFFFE
nextavail
stat
state
bytes 1518 176 64 00001 0 0 0 0 0 16 0x00000000000000000000 0 0 3 0 1 0
desc 0x5ce 155376 0x00000000000000001000 3 0x00000000000000000002
desc 0x5DE 979008 0x10000 3 6
desc 01566 84080 1 3 0
desc 1470 868720 16 3 5
desc 1550 417440 4096 2 0
u16 0x666 3
u16 1632 3
next-used 1 1
pop
next
writable
put 0 2147483648
u32 1651 0x0
u64 0x538 0xffffffffffffffff
region 64 2 40
u64 18446744073709551615 0
next-used 69631
u32 1646 0
bytes
next -
pop
writable
next
next
writable
put 1 32
question
u64 9223372036854775808 0
avail - - -
u64 0x672 0
u16 0x0000000000000000066a 1
	question	
table 681606723 4294967296
fill 1652 0xffffffffffffffff 0x7
question
head
valid
walk
state
table -
question
next-used 0x-1
desc 0 0 0 0 0 0
chain 0x10001
region 64 00002 900
state
dump 36 12
region 0 2 884
begin
next
next
bytes 1574 0 0 0 0
head
head
head
head
sum
0
state
chain 65537
	state	
chain 900
-
po#p
desc 1566 995088 512 1 0
desc 0x5be 18446744073709548024 1 00001 4
desc 1534 0x43f0 512 1 7
desc 1582 0x43f90 1 1 3
desc 1518 18446744073709549647 1 3 2
desc 1502 932448 512 2 0
u16 1640 6
u16 1632 4
bytes 0x671 00000 0
pop
put 00006 32
question
state
memory - -
chain 2920
state
state
sum
memory 196
queue 4
size 4
table 0 -
table - 0
avail 0xe 0
used 76 0
ready 0x1
valid
next-avail 9677
u16 16 0x25cd
next-used 0x25cd
bytes 140 90 3 34 41 106 41 194 0xe0 0xc3 0x99 43
bytes 8 23 1
bytes 8 6 5
u16 16 9682
u32 61 0x323ff3c7
memory 4
readable
chain 0
state
back
begin
valid
writable
pop
question
state
sum
u32 1 4138659824
u32 1 2208825627
u64 3 7
u32 4 378113434
pop
begin
sum
begin
region 1 0 1
bytes 3 114 131 0x0000000000000000003b 0x99 0x8b 249 00219 0x68 123 0x63
valid
readable
readable
u32 0 0x69b2062a
u32 0 0x14ffd004
begin
head
head
head
head
head
state
size 65535
sum
put 4 3141656890
pop
begin
u32 0xc66278f8e19a262f 1
bytes 9223372036854775808 128 128
state
pop
question
event 1
begin
next
readable
u32 1 160250733
begin
bytes 0 56 187 0xd2 0xda 0xa8
next
state
fill 2 5 0x000000000000000000bb
reset
fill 3 5 00187
u16 4 0xCBB3
bytes 00004 209 32 0x92 82 177 121 232 219 185 251
state
sum
memory 348
queue 0x400
size 8
table 0x00000000000000000000 -
table - 0x0
avail 128 0
used 0x98 0x00000000000000000000
ready 1
valid
next-avail 65535
u16 130 65535
next-used 65535
sum
event 1
begin
head
desc 0 989488 65536 1 0x4
desc 64 8282400737952147395 0x1000 3 0x3
desc 0x00000000000000000030 0x292E688286EA334C 65536 3 0x7
desc 112 310784 1 0x2 0
u16 0x92 0
u16 130 0
head
bytes 0x00000000000000000026 77
head
head
bytes 0x0000000000000000007e 0xa4
region 172 12 0x64
head
state
pop
question
question
pop
question
pop
question
put 7 2147483648
begin
pop
back
stop
pop
question
state
state
question
begin
chain 4
next
back
chain 0x6
writable
pop
next
question
pop
begin
state
question
pop
question
begin
begin
walk
head
sum
put 4 0xffffffff
put 3 0x1020304
put 5 0x200
put 00008 0xffffffff
put 2 0x0
put 0 32
put 7 512
put 00007 1
put 0x7 16909060
put 2 2147483648
put 3 0
put 4 2147483648
put 3 4294967295
put 1 0x0
put 7 1
put 7 0x200
put 3 32
put 1 2147483648
put 4 512
back
pop
question
desc 9223372036854775808 0 0 0 0
begin
begin
pop
begin
pop
question
put 65535 0x1020304
event 1
chain 8
walk
pop
question
begin
back
next
writable
head
head
head
walk
next
walk
u16 0x115 30198
head
pop
question
pop
begin
pop
question
u64 350 0
ask
pop
question
state
state
question
state
begin
state
pop
begin
head
fill 0x85 10 123
begin
put 4 32
begin
head
back
back
head
begin
state
sum
memory 1732
queue 1
table 0 0
avail 96 0
used 0xb8 0
ready 1
valid
next-avail 0x47cd
u16 98 18381
next-used 30030
event 1
desc 0 0x2d580 1 2 0
u16 0x64 0x0
u16 98 18382
state
u16 100 1
u16 0x62 0x47cf
bytes 184 185
question
dump 184 12
put 0x2 1
put 0 0x200
put 0 0x1
put 0 1
put 0 0xffffffff
put 0 0x1020304
put 0 0
put 0 1
put 0 2147483648
put 0 32
put 0 2147483648
put 0 0
begin
put 0x-1 0x0000000000001b1e6bd7
u16 100 0
u16 0x62 18384
u16 0x66 62809
begin
begin
u16 100 0
u16 98 18385
state
bytes 0x64 00045
bytes 8 0 0 0 0x0
begin
region 88 0x4 0x000000000000000000b0
state
pop
begin
head
head
next
sum
put 0 0
begin
ask
u16 718 4021
put 0 1
put 00000 0x1020304
put 65535 16909060
put 0 0
put 1 0x200
put 0 4294967295
put 0 16909060
put 0 0xffffffff
put 0 512
put 0x0 32
put 0x00000000000000000000 0
put 0 0xFFFFFFFF
put 0 32
begin
pop
pop
question
begin
head
writable
head
u64 1494 5430759592802055557
readable
writable
writable
pop
begin
writable
fill 1299 2 00010
head
state
begin
begin
begin
head
next
back
next
head
readable
put 0x00000000000000000000 0x80000000
fill 301 8 80
begin
pop
put 65535 16909060
put 0 1
put 2 2147483648
put 0 0x0
put 0 1
put 0 16909060
put 0 1
put 00000 512
put 0 1
put 0 2147483648
put 0 0
put 0 1
put 00000 32
put 0 32
put 0 16909060
put 0 2147483648
begin
begin
state
u16 0x118 06621
pop
question
state
sum
memory 0xeb
region 194 0x2 4
region 0xc4 0x3c 0x24
region 256 4 50
region 80 4 2
region 0x104 54 100
region 84 80 62
region 0xa4 8 00042
region 172 22 150
queue 1
table 0x70 0
avail 92 -
avail - 0
used 100 0x00000000000000000000
ready 1
valid
next-avail 52134
u16 72 52134
next-used 0xcba6
desc 90 0x484e0 4096 0 0
u16 74 0
bytes 72 167 0xcb
chain 0
next
next
next
pop
next
writable
put 0 512
desc 00090 488896 0x00000000000000010000 2 0
bytes 0x0000000000000000004a 0x0 00000
u16 0x48 52136
question
chain 2
bytes 87 0
begin
head
head
head
back
head
next
next
bytes 0x62 1 0 0 0
head
head
head
put 0 0
put 0 2147483648
u16 72 52137
valid
state
# back
bytes 0x57 16
state
valid
put 0 0x20
chain 0
walk
bytes 74 0 0
u16 72 52138
bytes 74 255 0xFF
u16 72 0xcbab
ask
question
u16 00076 52137
u16 72 52136
desc 0x5a 5312318228344020137 4096 2 0
u16 0x4a 0x0
u16 0x00000000000000000048 52137
desc 90 475536 4294967294 3 0
bytes 104 4
stop
bytes 0x62 0 0 0 0x80
u16 72 19368
put 0 0x200
begin
u16 72 0xcba8
desc 90 13457235492042230731 4096 2 0
u16 74 0
u16 72 0xcba9
bytes 93 00106
back
state
begin
head
head
head
bytes 98 1 0 0 0
head
u16 72 52135
desc 0x5a 0x33ca0 16 0 0
u16 74 0
u16 0x48 0xcba8
head
head
head
pop
readable
put 0 0
pop
begin
head
head
head
head
head
u16 213 0xe82a
head
head
put 0 1
put 0 2147483648
put 0xffff 4294967295
put 0x0 1
put 00000 32
put 1 2147483648
put 0 0x00000000000080000000
put 0 32
put 0 1
put 0 0x1020304
put 1 1
put 0 0x0
put 0 4294967295
put 0 0x1020304
put 0x0 0x000000000000ffffffff
put 0x00000000000000000000 0
put 0 16909060
put 0 0x1020304
put 0 32
put 0x00000000000000000000 4294967295
u16 74 65535
u16 72 52137
begin
head
put 65535 2147483648
ask
begin
bytes 98 1 0x00000000000000000000 0 0
pop
writable
u16 72 52135
begin
desc 90 5609840713376939999 4096 2 0
u16 0x4a 0x0
u16 72 52136
u16 0x48 0xcba9
desc 90 0xB5C30 00000 0 0x0
u16 74 0
bytes 72 0x000000000000000000aa 203
sum
begin
u32 192 3989299857
region 110 38 0x0000000000000000004e
next
next
u16 5 0x36b8
head
desc 0x5a 0x000000000000000d2920 0x1000 0 0
u16 0x4a 0
u16 0x48 52139
bytes 93 1
desc 0x5a 786720 1 5728 0x8000
stop
bytes 91 111
begin
head
desc 90 495824 0 0 0
u16 74 00000
u16 72 52140
head
fill 65 23 51
next
next
next
next
head
bytes 91 146
dump 0x4E 12
state
writable
u16 72 52139
desc 0x5a 448400 1 0x0 0
u16 0x4a 0
u16 0x48 52140
chain 0
bytes 96 0x9b
bytes 152 42 00144 48
bytes 104 31
bytes 00089 60
bytes 35 0x000000000000000000ab 0xb0 00017 0x72 0x99 0xd0 131 48 0x89 161 17
state
sum
memory 0x40a
queue 2
table 0 -
table - 0
avail 0x20 0x0
used 1012 0
valid
next-avail 0xfffc
u16 0x22 0xfffc
next-used 65527
bytes 16 2
region 0 1034 0
chain 2
next
bytes 1029 1
u16 34 65531
chain 1
writable
readable
bytes 10 0x00000000000000000001
put 0 1
u64 810 0xf002642d468b5d97
state
pop
question
chain 1
walk
u16 34 32764
pop
next
state
question
state
put 0x1 0x1
put 0x0 1
put 1 0
put 1 1
put 0 0
put 0 512
put 1 4294967295
bytes 1017 48
bytes 16 136 250 255 0xff 255 255 0xff 0xff 0 0 0 128 105 81 0 0
pop
next
question
bytes 8 255 255 0xff 255
desc 0 16830907441926023675 0 00000 0x00000000000000000000
u16 36 0
u16 34 0x7ffd
u16 38 3
u16 0x00000000000000000022 32766
fill 351 16 1
u16 34 0xFFFC
desc 16 18446744073709549433 0x1000 0x1 0x0
desc 0 0xfffffffffffff000 0x1000 0 0x0
u16 36 1
u16 0x22 65533
pop
state
ask x
bytes 0x15 223
pop
question
pop
readable
question
fill 0x3D4 20 64
state
pop
pop
question
region 0 0x40A 0
begin
desc 16 786560 16 1 0
desc 0 641504 0x00000000000000000200 2 0x0
u16 38 1
u16 34 65534
chain 1
next
bytes 1013 0x40
region 1012 42 166
u16 00034 0xfffa
u16 40 0xfffb
u16 34 65532
desc 16 233424 16 2 0
u16 36 1
u16 34 65533
bytes 00024 255 255 0x000000000000000000ff 255
desc 0x0 0xfffffffffffffaf0 16 00000 0
u16 38 0x00000000000000000000
u16 0x22 65534
back
region 1014 1034 0
pop
next
next
question
u16 34 65531
desc 0 828944 65536 2 0
u16 38 0
u16 34 0x0000000000000000fffc
begin
begin
next
writable
head
readable
next
back
walk
head
walk
pop
question
chain 1
next
state
bytes 1030 150
begin
dump 1012 0x00000000000000000002
u16 34 0x7ffa
u16 36 0
bytes 34 0xfb 0x7f
u16 34 65529
u16 38 32768
u16 34 65530
bytes 0 224 0x59 3 0x00000000000000000000 00000 0x0 0 0 16 0x0 0 0 0 0x00000000000000000000 0 0
u16 36 0
u16 34 0x0000000000000000fffb
put 0 0
bytes 38 0 0
u16 34 65532
sum
bytes 19 16
ask
u16 0x00000000000000000028 2
bytes 0x1d 32
bytes 24 0xdb
fill 1 1 1 1
begin
bytes 1027 4
head
head
head
bytes 29 33
back
begin
state
sum
ask
region 1036 1034 0
pop
question
pop
question
u16 36 0
u16 34 65533
pop
question
question
begin
put 0 0
u16 34 65531
u16 38 1
u16 34 0xfffc
state
u16 34 65529
desc 16 17571861559291231351 16 0 0
u16 38 1
u16 00034 65530
u16 0x00000000000000000022 65530
dump 0x3f4 0x2
bytes 24 1 0 0 0
region 1000 4 226
begin
u16 765 35487
desc 16 18446744073709547724 0 1 0
desc 0 815280 0x10 0 0x0
u16 36 1
bytes 34 0x000000000000000000fb 255
begin
begin
state
chain 0x1
walk
u16 38 3
u16 0x22 65532
bytes 8 0xff 255 0xff 127
u16 34 0xfff9
desc 0 694880 4096 0 0x0
u16 38 0
u16 34 65530
chain 1
readable
bytes 1 160
bytes 11 1
state
chain 3
walk
desc 0 18446744073709551334 0x10 3 1
desc 16 0xb8380 0x10 2 0
u16 36 0
u16 34 65531
desc 0 0x5aed0 4096 0 0
u16 00038 0x0
u16 34 65532
u16 34 65529
bytes 16 208 247 10 0 0 0 0 0 0x00000000000000000000 0 1 0 0 0 0 0
u16 38 1
u16 34 0x0000000000000000fffa
u16 36 1
u16 0x22 0xfffb
bytes 30 0xd4
begin
u64 0x24b 12038658260187758835
state
bytes 1017 166
bytes 410 137 00217 200 80 0x89 225 43 0x00000000000000000059 59 130 0x71 99
back
begin
u16 34 0xfff8
desc 16 12111812278766943373 512 2 0
u16 36 1
bytes 34 249 255
chain 1
next
next
state
state
sum
memory 0x288
region 18446744073709551120 480 0
region 18446744073709550952 8 480
region 0xFFFFFFFFFFFFFD70 122 0x1e8
region 0xFFFFFFFFFFFFFDEA 38 610
queue 2
table 0xfffffd70 -
table - 4294967295
avail 4294966672 0xffffffff
used 4294966684 4294967295
ready 00001
valid
event 1
bytes 522 3 0x00000000000000000000
begin
head
head
head
back
writable
head
head
bytes 92 24 160
ask
u16 522 65535
desc 488 0x29603756674010bd 0x200 00000 0
u16 0x20e 0
u16 522 0
begin
head
bytes 0x200 0 00000 0 128
next
next
bytes 385 40 0xc1 24 0x5a 0xc8 209 136 74 0xf1 67 104
writable
bytes 289 138 0xD0 0x31 250 0x99 0
fill 632 22 75
next
next
head
u16 0x115 470
put 0x0 32
pop
begin
head
next
head
walk
bytes 0x000000000000000000f3 2 0x10 138 16 0x19
walk
head
back
u16 0x20c 0
u16 522 1
chain 0
walk
state
stop
pop
next
put 0 2147483648
question
state
u16 282 0xC541
u16 522 00000
bytes 552 249
bytes 0x1f8 0xfe 138 00123 37 226 228 0xba 37 0 0 1 0 3 0 0 0
desc 0x1e8 1736934723350517334 16 0 0
bytes 0x20c 1 0
u16 522 00001
begin
next
head
put 1 4294967295
begin
writable
walk
dump 0x214 12
state
pop
question
dump 532 00070
begin
head
bytes 500 231
desc 504 16275782104698524208 4096 1 00000
bytes 0x1e8 0xE0 0x6 00012 0 0 0 0 0 16 0 0 0 2 0 0 0
u16 526 1
u16 0x20a 2
back
pop
next
walk
put 1 0xffffffff
question
question
u16 524 3
u16 522 3
begin
next
next
next
next
head
put 1 00032
u16 0x20a 3
question
begin
head
head
bytes 525 0x6c
head
bytes 512 0x0 0 0 00000
head
head
bytes 0x209 64
bytes 494 1
walk
pop
pop
walk
u32 162 0x0000000000004c3a8175
bytes 496 0xff 255 255 127
region 0xfffffffffffffd6c 0x288 0
begin
head
next
head
pop
bytes 542 39
begin
head
head
bytes 0x1F0 00001 0 0 0
head
bytes 504 187 242 0xff 0xFF 0xff 255 0xff 255 1 0x0 0 0 2 0 0 0
u16 526 1
u16 522 0x4
walk
next
state
u16 522 4
pop
readable
put 1 4294967295
desc 488 815840 2147483647 3 0
bytes 524 3 0
bytes 0x20a 5 0
u16 526 1
u16 0x20a 6
u16 0x20c 1
bytes 522 7 0
u16 522 0x00000000000000000004
desc 504 6396286884596534274 16 0 0
u16 0x20c 0x00000000000000000001
bytes 522 5 0
bytes 489 115
u16 0x210 7
bytes 512 0 0x00000000000000000000 0 0x80
desc 488 18446744073709550599 1 2 0
desc 488 743760 0x80000000 60833 0
u16 0x210 5
pop
next
put 1 0
question
stop
state
bytes 0x20b 0x00000000000000000001
u16 528 3
back
pop
writable
begin
bytes 0x1fa 00007
u16 522 6
region 0 648 0
sum
u16 528 5
begin
head
bytes 508 0x00000000000000000088
head
head
put 1 2147483648
put 00001 1
pop
writable
question
valid
desc 488 757248 4096 1 0
bytes 284 0xd9 186 163 9 88 178 0x52 0xf2 0x49 122 74 88
u16 528 12
u16 0x20a 7
pop
put 1 0x1020304
question
put 0 32
chain 00001
readable
dump 00532 38
u16 430 0x416f
put 0 1
chain 1
next
next
desc 0x1e8 18446744073709548515 1 0 0
u16 526 0x0
u16 522 8
desc 0x1f8 146924961420413177 4294967294 2 1
pop
writable
put 0 32
region 18446744073709551006 0x14 0x260
bytes 489 230
u16 524 0x2
u16 0x20a 9
begin
head
head
put 2 16909060
u16 528 10
pop
state
sum
memory 0x2da
queue 1
table 0 0
avail 96 0
used 716 0
ready 1
valid
event 1
chain 0
readable
state
bytes 8 1 0 00000 0
chain 0x00000000000000000002
next
desc 0 0xb6fb0 4294967295 00002 0
u16 100 0
u16 98 1
bytes 8 0 0 0 0
state
chain 0
walk
pop
walk
next
put 0 00512
desc 0x00000000000000000000 18446744073709551381 4294967295 7736 0
bytes 0x00000000000000000008 0xfe
chain 0xFFFF
next
desc 0 18446744073709551043 04096 0 0x0
heads
begin
desc 0 0x10ac0 4294967295 0x0 0
u16 100 0
u16 0x62 2
back
bytes 9 0x00000000000000000000
readable
desc 0x00000000000000000000 0x00009586501e44710f48 0x7fffffff 49818 0
desc 0 0x2e750 2147483648 3 0
chain 0xffff
next
begin
state
u16 0x62 0
desc 0 0xF9D9C3291449ECA2 4294967295 2 0
u16 0x64 00000
u16 98 1
state
bytes 0x8 0 0 0 128
chain 0x0
next
walk
begin
head
head
head
head
chain 0x0000000000000000ffff
desc 0 0xfffffffffffffc46 0xFFFFFFFF 0 0
u16 100 0
u16 98 2
pop
next
next
put 0 4294967295
question
state
desc 0x0 0x400b0 0xffffffff 2 0
u16 100 0
u16 0x62 3
state
chain 65535
begin
u64 0x65 0xb2a7317d7f9e9059
walk
bytes 8 0 0 0 128
next
begin
head
head
head
bytes 8 1 0x0 0x00000000000000000000 00000
head
back
put 22784 1
writable
dump 0x000000000000000002cc 12
bytes 8 00255 255 255 0xff
chain 0
next
writable
state
bytes 8 0 0 0x0 0
bytes 3 1
chain 0
next
writable
desc 0 852752 2147483648 2 2
chain 0
chain 0
writable
dump 0x2CC 14
chain 0
next
next
chain 0
walk
next
next
desc 0 18446744073709550753 0 0x0 0x0000000000000000ffff
desc 0 0x7fb20 4096 0 0
desc 0 3649499034127594255 4294967294 1 0
chain 0
readable
desc 0x00000000000000000000 3097949315994568587 0xFFFFFFFE 0 0
dump 0 38
walk
next
next
readable
next
walk
desc 0 0xf65128b15dacf267 0x1000 1 0
begin
head
bytes 8 0 00000 0 128
region 18446744073709551606 730 0
put 22784 2147483648
pop
bytes 729 1
chain 0
next
writable
bytes 8 255 255 255 255
chain 0
walk
chain 0
next
next
begin
region 0x2E2 730 0x0
next
head
pop
pop
chain 0
walk
begin
chain 0
writable
next
begin
readable
begin
chain 0
next
pop
question
begin
chain 0x00000000000000000000
next
chain 1
next
begin
readable
chain 0
next
chain 00000
walk
chain 0x0
next
begin
chain 1
walk
begin
begin
head
head
back
next
back
head
head
u64 495 10958520391116067979
head
head
chain 0
writable
state
writable
readable
chain 0
chain 0
readable
pop
question
chain 0
writable
walk
next
pop
chain 0
next
writable
begin
state
chain 0
chain 0
next
chain 00000
next
state
sum
memory 362
region 0 70 200
region 70 0x0000000000000000003a 280
region 0x80 00036 0x50
region 164 86 0x000000000000000000f6
region 250 00032 106
region 0x11a 0x00000000000000000050 106
queue 8
table 0 0
avail 0x00000000000000000080 0
used 00152 0
ready 1
valid
next-avail 65532
u16 82 0xfffc
next-used 65530
back
desc 0x000000000000000000d8 7859571958234510240 65536 00003 0
bytes 200 240 52 219 00249 59 36 0xf7 79 0 0 1 0 2 0x00000000000000000000 00000 0
u16 00092 0x00000000000000000001
u16 00082 65533
desc 0x142 18446744073709548986 1 1 00006
desc 306 0x000000000000000d4b30 0x200 3 4
bytes 264 183 138 8 00203 155 89
bytes 280 239 0xEA 1 0 0 0 3 0x00000000000000000000 1 0
desc 216 10786643436870392091 4096 3 0
desc 0xc8 0x33fa0 65536 3 0x00000000000000000005
desc 0x122 82000 0x200 2 0
u16 0x0000000000000000005e 7
u16 82 65534
desc 0xd8 18446744073709550668 0 1 4
bytes 264 221 0x96 109 226 0xb7 155
bytes 280 34 8 16 0 0 0 2 0 0 0
u16 96 1
u16 82 65535
begin
head
readable
head
next
next
next
put 0x00000000000000000000 0
put 1 32
pop
next
put 7 4294967295
question
state
desc 306 932240 65536 1 1
desc 0x000000000000000000d8 18446744073709549363 0x10000 0x00000000000000000001 5
desc 0x122 0xa62c0 0x200 3 7
desc 00322 9021435854323594429 0x200 3 4
bytes 0x108 32 0x8b 12 0 0 0
bytes 0x118 0x00000000000000000000 0 0x0 2 0 0 3 0 0x0 0
desc 00200 0xfffffffffffff1a2 16 3 2
desc 232 17604897920935004806 0x200 2 0
u16 98 6
u16 82 0
desc 0x132 641168 0x10 0 0
u16 0x54 6
u16 0x52 1
bytes 0x50 1 0
pop
next
next
put 1 1
state
begin
bytes 41 11 72 59 0xc0 73 161 0x49 51 121 168 0x70 57
head
readable
bytes 322 0x80 0x41 11 0 0x00000000000000000000 0 0 0 0 0x00000000000000000000 0 0 1 0 2 0
desc 232 0x810C0 0x200 0x1 3
desc 248 0xFFFFFFFFFFFFFD18 0x0 3 6
desc 0x132 0x968a0 1 2 0
u16 86 7
u16 82 2
walk
desc 0x00000000000000000142 272896 65536 0 0
u16 88 7
u16 82 3
head
put 6 0x1020304
put 6 2147483648
ask
pop
next
walk
put 7 4294967295
question
chain 0x2
walk
next
state
begin
walk
next
next
next
bytes 0x14a 255 255 255 0x7f
next
desc 0x142 0x51440 512 1 1
desc 216 0xef890 0x0 1 6
desc 306 0x1290 0x1 3 0
desc 200 191040 65536 2 0
bytes 90 7 0
u16 0x52 4
put 5 0x200
state
back
pop
readable
put 7 32
begin
bytes 0x11a 1 00000 0x00000000000000000000 0
bytes 285 0x4e
head
head
next
next
readable
next
head
put 7 0xffffffff
put 0x7 0x1
pop
desc 322 790944 00512 1 2
desc 232 166768 512 1 6
desc 306 262560 16 1 3
desc 0xf8 0x0000000000000003be60 0 1 4
bytes 264 144 0x4d 5 0x0 0 0
bytes 280 0 0 0x00000000000000000010 0 0 0 1 0 1 0
desc 00216 0x0000000000000001e5a0 1 3 0
desc 200 18446744073709550221 1 00003 5
desc 00290 926384 65536 2 0
u16 92 7
u16 82 5
ask
state
put 0x9 0x1020304
put 2 0
put 00003 2147483648
put 1 0x80000000
put 6 32
put 0x2 512
put 7 32
put 00003 0
put 9 0x20
put 0 0
put 4 00000
put 9 512
put 7 0x80000000
put 6 0xFFFFFFFF
put 0xffff 32
state
sum
memory 1690
region 7085798505282136 80 0
region 7085798505282216 876 00080
queue 32768
size 2
table 4294967248 -
table - 4294967295
avail 115047072 1649791
used 0x6db7b0c 1649791
valid
event 0x00000000000000000001
chain 0x0
walk
next
next
begin
head
head
pop
state
state
begin
u16 76 1
u16 00074 1
bytes 0x4E 1 0
u16 74 2
u16 80 65533
ask
back
state
question
chain 1
u16 80 32768
chain 0x00000000000000000001
readable
back
begin
u16 74 65534
u16 76 0
u16 0x0000000000000000004a 0x0000000000000000ffff
pop
question
u16 78 0
u16 0x4A 0
put 1 0x00000000000000000200
pop
u16 80 3
fill 755 10 115
bytes 79 1
pop
pop
writable
question
u16 74 0
chain 0
writable
next
bytes 181 4
u16 76 3
u16 74 0x1
bytes 0xc8 00064
begin
dump 72 22
u16 0x50 2
u16 0x4e 32768
u16 74 2
bytes 0x51 1
u16 0x0000000000000000004c 2
u16 74 3
bytes 74 0xFE 00255
stop
chain 00002
readable
u16 0x4c 0
u16 74 0xffff
pop
question
bytes 182 129
pop
question
put 1 0x80000000
u16 78 0x2
u16 00074 0
begin
back
head
u16 0x4a 0xfffd
u16 78 1
u16 0x4a 65534
bytes 74 255 255
begin
head
region 0x192c7f06db7a92 2 1028
bytes 01613 58 178
head
head
head
put 1 32
bytes 75 0x0000000000000000007f
sum
begin
head
readable
head
writable
writable
next
begin
begin
head
head
head
next
next
u16 0x4e 1
u16 0x4a 0x8000
head
head
head
head
bytes 0xc0 144
bytes 74 0x000000000000000000fb 0xff
u16 0x4e 0
u16 74 65532
state
dump 0xb4 2
u16 74 0
chain 1
readable
u16 0x4c 0x8000
bytes 74 1 0
begin
u16 74 0x0000000000000000fffd
u16 0x4E 0
u16 74 0xfffe
bytes 00074 190
put 0 0x00000000000000000001
put 1 512
put 0 512
put 2 32
put 0 0xffffffff
put 0 1
put 1 1
put 0x0000000000000000ffff 0x1020304
put 1 1
put 0x00000000000000000000 1
put 3 16909060
put 1 1
put 1 32
put 0 0x80000000
put 1 32
put 0x00000000000000000001 0
begin
pop
question
state
begin
head
head
pop
pop
writable
question
u16 0x4a 65533
u16 0x4e 0
u16 74 65534
dump 0x48 0x00000000000000000046
valid
begin
next
head
head
question
bytes 190 0xf4
pop
stop
state
u16 00076 2
u16 74 65535
pop
question
begin
u16 0x4e 0
u16 74 0
begin
pop
readable
writable
next
u16 0x4c 0x00000000000000000001
u16 74 1
state
sum
memory 384
region 17249258849820288 0x36 0
region 0x0000003d481c0a61deb6 0x18 54
region 17249258849820366 00020 0x4e
region 17249258849820386 0x11e 0x62
queue 0x00000000000000000004
table 0xa61de80 0x3d481c
avail 0x0000000000000a61dec0 0x3d481c
used 174186192 -
used - 0x3d481c
ready 1
valid
next-avail 0x0000000000000000a27e
u16 66 41598
next-used 25603
question
table 174186114 1
u16 76 0x6400
u16 64 0
dump 0 38
dump 64 22
put 0x1 4294967295
put 0 0
put 0 2147483648
question
state
put 2 512
put 00003 0x1020304
put 0 16909060
put 0x3 0x20
put 0 16909060
put 5 1
put 2 512
put 0xffff 16909060
put 0 0x1020304
put 1 512
put 00002 2147483648
put 0 32
put 1 32
put 0x0 2147483648
put 5 2147483648
put 0 0x200
put 00002 2147483648
state
stop
u16 0x0000000000000000004c 58388
u16 0x4c 25621
ask
put 0 0x000000000000ffffffff
state
put 2 1
stop
put 0x5 16909060
put 4 0x1
put 0x5 0x1020304
put 2 0x80000000
put 0 2147483648
put 3 32
put 1 0x80000000
put 2 1
put 0x1 0
put 2 0x20
put 1 4294967295
put 3 32
put 2 2147483648
put 0 0x80000000
put 0 0x1020304
put 0 0x0
put 1 4294967295
put 2 1
desc 48 0x36400 0x00000000000000001000 0 0
u16 72 3
u16 66 41599
question
ask
u16 0x4c 58404
size 8
put 3 512
put 2 2147483648
pop
next
walk
put 3 16909060
question
bytes 0x4c 40 100
dump 80 2
put 0x0000000000000000ffff 0
put 3 0x200
put 2 1
put 0x1 2147483648
u16 0x4c 25639
bytes 66 129 162
stop
put 2 512
put 0 32
put 2 16909060
put 1 0x00000000000001020304
put 1 0x200
ask
ask
question
state
dump 80 70
u16 76 0xe430
ask
u16 76 25644
put 0 32
sum
u16 0x4c 25646
put 1 0
state
desc 16 6496565887778044080 1 0x2 0
u16 70 1
bytes 66 0x82 162
question
question
dump 0x00000000000000000050 70
u16 76 58418
u16 0x4c 25647
u16 76 0x642e
u16 76 0x642f
dump 80 4
u16 76 25647
put 3 2147483648
u16 76 25653
put 0x00000000000000000003 00000
put 3 0x200
put 2 512
put 1 0x80000000
put 3 16909060
put 00001 0x1
put 3 0x80000000
put 4 0xffffffff
put 4 32
put 0 16909060
put 2 0x1
put 3 0x1020304
put 3 4294967295
put 0xffff 512
put 0x0 0x1020304
put 1 512
put 3 1
state
sum
memory 102
queue 1
table 0 0
avail 60 -
avail - 0x0
used 56 0
ready 1
valid
next-avail 0xfffb
u16 62 65531
next-used 0x4e48
used 58 0
table 4294967296 1566150984
pop
avail - 1
next-avail 65530
bytes 0x66 0 0
put 0x0 0x200
sum
ready 1
chain 0
next
next
sum
begin
table 0 1
begin
walk
back
writable
head
head
next
head
head
next
next
event 0x00000000000000000000
state
chain 0
next
table 4 1
begin
head
region 0x100000014 26 66
head
writable
head
head
head
region 4294967366 102 0x0
head
back
avail - -
next-avail 0x1
table - 0xFFFFFFFF
table 0x0 -
begin
question
ready 1
begin
head
head
fill 82 17 0x00000000000000000051
head
head
u64 28 2547057692967277150
writable
writable
next
back
state
event 1
table - 4294967295
ask 1
reset
next-used 0xfffe
sum
next-avail 65530
back
table 1914401843 -
avail 0 00000
event 0x1
used - 0xffffffff
sum
sum
chain 0
next
avail 8 -
sum
event 1
avail 4112565983 4294967295
event 1
sum
begin
size 0
size 0x00000000000000000006
pop
next
next
event 1
chain 65535
used 0 -
next-avail 0xfffa
state
reset
size 1
table 0x00000000000000000000 0
avail 8 0
used 0 4294967295
ready 1
size 0x00000000000000000002
used 16 -
table - 1
put 0 32
ask
size 0x8
state
table x x x
avail - 00000
event 0
valid
back
used - 0
ready 1
state
put 0 1
stop
reset
size 0x1
table 0 1
avail 0x8 0
used 16 -
used - 0
ready 1
state
size 1
sum
question
used - 1
chain 0
next
table - -
ready 00001
size 3
sum
question
size 32768
size 32768
next-used 65529
valid
pop
next
event 00000
chain 0x0
pop
ba#ck
pop
question
used - 0
next-avail 65535
used - 0x1
state
avail 836039557 0x0
event 0
sum
used 4294967237 -
sum
state
sum
memory 0x3fd
queue 2
table 0 0
avail 48 0
used 0x3e8 0
ready 1
valid
event 1
u8
bytes 0 0xc0 0xc6 11 0 0 0 0 0 0 0 0x00000000000000000001 0 1 0 1 0
desc 0x10 18446744073709550406 0 2 0
u16 52 0
u16 50 1
writable -
dump 1000 4
table 3465269922 -
table - 1375835552
u16 6802087356403968 69631
ask
u64 0x8000000000000000 0
pop
writable
put 0x0 1
region 0x10000000000 1023 0
sum
 	
next-used 65537
region 7 9223372036854775808 9223372036854775808
valid
begin
question 99999999999999999999
next-used 0000000000000000000000000000000000000000000000000000000000000000000000000000000000000000000000000000000000000000000000000000000000000000000000000000000000000000000000000000000000000000000000000000000000000000000000000000000000000000000000000000000000000000000000000000000000000000000000000000000000000000000000000000000000000000000000000000000000000000000000000000000000000000000000000000000000000000000000000000000000000000000000000000000000000000000000000000000000000000000000000000000000000000000000000000000000000000000000000000000000000000000000000000000000000000000000000000000000000000000000000000000000000000000000000000000000000000000000000000000000000000000000000000000000000000000000000000000000000000000000000000000000000000000000000000000000000000000000000000000000000000000000000000000000000000000000000000000000000000000000000000000000000000000000000000000000000000000000000000000000000000000000000000000000000000000000000000000000000000000000000000000000000000000000000000000000000000000000000000000000000000000000000000000000000000000000000000000000000000000000000000000000000000000000000000000000000000000000000000000000000000000000000000000000000000000000000000000000000000000000000000000000000000000000000000000000000000000000000000000000000000000000000000000000000000000000000000000000000000000000000000000000000000000000000000000000000000000000000000000000000000000000000000000000000000000000000000000000000000000000000000000000000000000000000000000000000000000000000000000000000000000000000000000000000000000000000000000000000000000000000000000000000000000000000000000000000000000000000000000000000000000000000000000000000000000000000000000000000000000000000000000000000000000000000000000000000000000000000000000000000000000000000000000000000000000000000000000000000000000000000000000000000000000000000000000000000000000000000000000000000000000000000000000000000000000000000000000000000000000000000000000000000000000000000000000000000000000000000000000000000000000000000000000000000000000000000000000000000000000000000000000000000000000000000000000000000000000000000000000000000000000000000000000000000000000000000000000000000000000000000000000000000000000000000000000000000000000000000000000000000000000000000000000000000000000000000000000000000000000000000000000000000000000000000000000000000000000000000000000000000000000000000000000000000000000000000000000000000000000000000000000000000000000000000000000000000000000000000000000000000000000000000000000000000000000000000000000000000000000000000000000000000000000000000000000000000000000000000000000000000000000000000000000000000000000000000000000000000000000000000000000000000000000000000000000000000000000000000000000000000000000000000000000000000000000000000000000000000000000000000000000000000000000000000000000000000000000000000000000000000000000000000000000000000000000000000000000000000000000000000000000000000000000000000000000000000000000000000000000000000000000000000000000000000000000000000000000000000000000000000000000000000000000000000000000000000000000000000000000000000000000000000000000000000000000000000000000000000000000000000000000000000000000000000000000000000000000000000000000000000000000000000000000000000000000000000000000000000000000000000000000000000000000000000000000000000000000000000000000000000000000000000000000000000000000000000000000000000000000000000000000000000000000000000000000000000000000000000000000000000000000000000000000000000000000000000000000000000000000000000000000000000000000000000000000000000000000000000000000000000000000000000000000000000000000000000000000000000000000000000000000000000000000000000000000000000000000000000000000000000000000000000000000000000000000000000000000000000000000000000000000000000000000000000000000000000000000000000000000000000000000000000000000000000000000000000000000000000000000000000000000000000000000000000000000000000000000000000000000000000000000000000000000000000000000000000000000000000000000000000000000000000000000000000000000000000000000000000000000000000000000000000000000000000000000000000000000000000000000000000000
used 0x0000000000000697f20b 4294967297
next-avail 0 0
back# comment
event 0
table 0x204 0
next-used 12a
u16 54 1
u16 50 00002
region 1617741897709824 4605775792502895 18446744073709551616
begin
next
head
bytes 49 32
u16 52 1
u16 00050 3
head
next
next
fill 0x313 2 88
put 0 512
put 1 0x0
next-used
put 8 344
state
next-used 0x10000
next
walk -
next-avail 0x10001
size 4
next-used 69631
state
walk
dump 18446744073709551615 0x0
ask
size 0b1
table 0x7de4dbcd 4294971391
dump 0X1 0xa0
# xxxxxxxxxxxxxxxxxxxxxxxxxxxxxxxxxxxxxxxxxxxxxxxxxxxxxxxxxxxxxxxxxxxxxxxxxxxxxxxxxxxxxxxxxxxxxxxxxxxxxxxxxxxxxxxxxxxxxxxxxxxxxxxxxxxxxxxxxxxxxxxxxxxxxxxxxxxxxxxxxxxxxxxxxxxxxxxxxxxxxxxxxxxxxxxxxxxxxxxxxxxxxxxxxxxxxxxxxxxxxxxxxxxxxxxxxxxxxxxxxxxxxxxxxxxxxxxxxxxxxxxxxxxxxxxxxxxxxxxxxxxxxxxxxxxxxxxxxxxxxxxxxxxxxxxxxxxxxxxxxxxxxxxxxxxxxxxxxxxxxxxxxxxxxxxxxxxxxxxxxxxxxxxxxxxxxxxxxxxxxxxxxxxxxxxxxxxxxxxxxxxxxxxxxxxxxxxxxxxxxxxxxxxxxxxxxxxxxxxxxxxxxxxxxxxxxxxxxxxxxxxxxxxxxxxxxxxxxxxxxxxxxxxxxxxxxxxxxxxxxxxxxxxxxxxxxxxxxxxxxxxxxxxxxxxxxxxxxxxxxxxxxxxxxxxxxxxxxxxxxxxxxxxxxxxxxxxxxxxxxxxxxxxxxxxxxxxxxxxxxxxxxxxxxxxxxxxxxxxxxxxxxxxxxxxxxxxxxxxxxxxxxxxxxxxxxxxxxxxxxxxxxxxxxxxxxxxxxxxxxxxxxxxxxxxxxxxxxxxxxxxxxxxxxxxxxxxxxxxxxxxxxxxxxxxxxxxxxxxxxxxxxxxxxxxxxxxxxxxxxxxxxxxxxxxxxxxxxxxxxxxxxxxxxxxxxxxxxxxxxxxxxxxxxxxxxxxxxxxxxxxxxxxxxxxxxxxxxxxxxxxxxxxxxxxxxxxxxxxxxxxxxxxxxxxxxxxxxxxxxxxxxxxxxxxxxxxxxxxxxxxxxxxxxxxxxxxxxxxxxxxxxxxxxxxxxxxxxxxxxxxxxxxxxxxxxxxxxxxxxxxxxxxxxxxxxxxxxxxxxxxxxxxxxxxxxxxxxxxxxxxxxxxxxxxxxxxxxxxxxxxxxxxxxxxxxxxxxxxxxxxxxxxxxxxxxxxxxxxxxxxxxxxxxxxxxxxxxxxxxxxxxxxxxxxxxxxxxxxxxxxxxxxxxxxxxxxxxxxxxxxxxxxxxxxxxxxxxxxxxxxxxxxxxxxxxxxxxxxxxxxxxxxxxxxxxxxxxxxxxxxxxxxxxxxxxxxxxxxxxxxxxxxxxxxxxxxxxxxxxxxxxxxxxxxxxxxxxxxxxxxxxxxxxxxxxxxxxxxxxxxxxxxxxxxxxxxxxxxxxxxxxxxxxxxxxxxxxxxxxxxxxxxxxxxxxxxxxxxxxxxxxxxxxxxxxxxxxxxxxxxxxxxxxxxxxxxxxxxxxxxxxxxxxxxxxxxxxxxxxxxxxxxxxxxxxxxxxxxxxxxxxxxxxxxxxxxxxxxxxxxxxxxxxxxxxxxxxxxxxxxxxxxxxxxxxxxxxxxxxxxxxxxxxxxxxxxxxxxxxxxxxxxxxxxxxxxxxxxxxxxxxxxxxxxxxxxxxxxxxxxxxxxxxxxxxxxxxxxxxxxxxxxxxxxxxxxxxxxxxxxxxxxxxxxxxxxxxxxxxxxxxxxxxxxxxxxxxxxxxxxxxxxxxxxxxxxxxxxxxxxxxxxxxxxxxxxxxxxxxxxxxxxxxxxxxxxxxxxxxxxxxxxxxxxxxxxxxxxxxxxxxxxxxxxxxxxxxxxxxxxxxxxxxxxxxxxxxxxxxxxxxxxxxxxxxxxxxxxxxxxxxxxxxxxxxxxxxxxxxxxxxxxxxxxxxxxxxxxxxxxxxxxxxxxxxxxxxxxxxxxxxxxxxxxxxxxxxxxxxxxxxxxxxxxxxxxxxxxxxxxxxxxxxxxxxxxxxxxxxxxxxxxxxxxxxxxxxxxxxxxxxxxxxxxxxxxxxxxxxxxxxxxxxxxxxxxxxxxxxxxxxxxxxxxxxxxxxxxxxxxxxxxxxxxxxxxxxxxxxxxxxxxxxxxxxxxxxxxxxxxxxxxxxxxxxxxxxxxxxxxxxxxxxxxxxxxxxxxxxxxxxxxxxxxxxxxxxxxxxxxxxxxxxxxxxxxxxxxxxxxxxxxxxxxxxxxxxxxxxxxxxxxxxxxxxxxxxxxxxxxxxxxxxxxxxxxxxxxxxxxxxxxxxxxxxxxxxxxxxxxxxxxxxxxxxxxxxxxxxxxxxxxxxxxxxxxxxxxxxxxxxxxxxxxxxxxxxxxxxxxxxxxxxxxxxxxxxxxxxxxxxxxxxxxxxxxxxxxxxxxxxxxxxxxxxxxxxxxxxxxxxxxxxxxxxxxxxxxxxxxxxxxxxxxxxxxxxxxxxxxxxxxxxxxxxxxxxxxxxxxxxxxxxxxxxxxxxxxxxxxxxxxxxxxxxxxxxxxxxxxxxxxxxxxxxxxxxxxxxxxxxxxxxxxxxxxxxxxxxxxxxxxxxxxxxxxxxxxxxxxxxxxxxxxxxxxxxxxxxxxxxxxxxxxxxxxxxxxxxxxxxxxxxxxxxxxxxxxxxxxxxxxxxxxxxxxxxxxxxxxxxxxxxxxxxxxxxxxxxxxxxxxxxxxxxxxxxxxxxxxxxxxxxxxxxxxxxxxxxxxxxxxxxxxxxxxxxxxxxxxxxxxxxxxxxxxxxxxxxxxxxxxxxxxxxxxxxxxxxxxxxxxxxxxxxxxxxxxxxxxxxxxxxxxxxxxxxxxxxxxxxxxxxxxxxxxxxxxxxxxxxxxxxxxxxxxxxxxxxxxxxxxxxxxxxxxxxxxxxxxxxxxxxxxxxxxxxxxxxxxxxxxxxxxxxxxxxxxxxxxxxxxxxxxxxxxxxxxxxxxxxxxxxxxxxxxxxxxxxxxxxxxxxxxxxxxxxxxxxxxxxxxxxxxxxxxxxxxxxxxxxxxxxxxxxxxxxxxxxxxxxxxxxxxxxxxxxxxxxxxxxxxxxxxxxxxxxxxxxxxxxxxxxxxxxxxxxxxxxxxxxxxxxxxxxxxxxxxxxxxxxxxxxxxxxxxxxxxxxxxxxxxxxxxxxxxxxxxxxxxxxxxxxxxxxxxxxxxxxxxxxxxxxxxxxxxxxxxxxxxxxxxxxxxxxxxxxxxxxxxxxxxxxxxxxxxxxxxxxxxxxxxxxxxxxxxxxxxxxxxxxxxxxxxxxxxxxxxxxxxxxxxxxxxxxxxxxxxxxxxxxxxxxxxxxxxxxxxxxxxxxxxxxxxxxxxxxxxxxxxxxxxxxxxxxxxxxxxxxxxxxxxxxxxxxxxxxxxxxxxxxxxxxxxxxxxxxxxxxxxxxxxxxxxxxxxxxxxxxxxxxxxxxxxxxxxxxxxxxxxxxxxxxxxxxxxxxxxxxxxxxxxxxxxxxxxxxxxxxxxxxxxxxxxxxxxxxxxxxxxxxxxxxxxxxxxxxxxxxxxxxxxxxxxxxxxxxxxxxxxxxxxxxxxxxxxxxxxxxxxxxxxxxxxxxxxxxxxxxxxxxxxxxxxxxxxxxxxxxxxxxxxxxxxxxxxxxxxxxxxxxxxxxxxxxxxxxxxxxxxxxxxxxxxxxxxxxxxxxxxxxxxxxxxxxxxxxxxxxxxxxxxxxxxxxxxxxxxxxxxxxxxxxxxxxxxxxxxxxxxxxxxxxxxxxxxxxxxxxxxxxxxxxxxxxxxxxxxxxxxxxxxxxxxxxxxxxxxxxxxxxxxxxxxxxxxxxxxxxxxxxxxxxxxxxxxxxxxxxxxxxxxxxxxxxxxxxxxxxxxxxxxxxxxxxxxxxxxxxxxxxxxxxxxxxxxxxxxxxxxxxxxxxxxxxxxxxxxxxxxxxxxxxxxxxxxxxxxxxxxxxxxxxxxxxxxxxxxxxxxxxxxxxxxxxxxxxxxxxxxxxxxxxxxxxxxxxxxxxxxxxxxxxxxxxxxxxxxxxxxxxxxxxxxxxxxxxxxxxxxxxxxxxxxxxxxxxxxxxxxxxxxxxxxxxxxxxxxxxxxxxxxxxxxxxxxxxxxxxxxxxxxxxxxxxxxxxxxxxxxxxxxxxxxxxxxxxxxxxxxxxxxxxxxxxxxxxxxxxxxxxxxxxxxxxxxxxxxxxxxxxxxxxxxxxxxxxxxxxxxxxxxxxxxxxxxxxxxxxxxxxxxxxxxxxxxxxxxxxxxxxxxxxxxxxxxxxxxxxxxxxxxxxxxxxxxxxxxxxxxxxxxxxxxxx
dump 1000 21
walk
begin
head
back
u16 1019 1
readable
table 2 4294967295
u64 1 1 1
region 0xcc05fdbc4c3c2d8 102 6
sum
state
table 99999999999999999999
region 0 0 0
state
next
u32 x x x
avail 0x00000000000000000010 4294967295
begin
u16 1017 1
u64 1013 0
back
begin
pop
question
size 0 0
valid
readable
pop
state
region 865974320336469 18446744073709555711 0x1c1f20e9593eed
walk
region 0 0 18446744073709551615
pop
I(ITF7=%MC[/
stop

fill 9223372036854775808 1 0
size 0x00000000000000000002
pop
question
state
size 0
state
u16 0x10000000000000fff 27432
put 0xc820 4294967297
u32 0x0000ffffffffffffffff 7
dump 6 0x100
u64 0x8000000000000000 0
valid -
QUEUE 8
begin
pop
question
next-used 0000000000000000000000000000000000000000000000000000000000000000000000000000000000000000000000000000000000000000000000000000000000000000000000000000000000000000000000000000000000000000000000000000000000000000000000000000000000000000000000000000000000000000000000000000000000000000000000000000000000000000000000000000000000000000000000000000000000000000000000000000000000000000000000000000000000000000000000000000000000000000000000000000000000000000000000000000000000000000000000000000000000000000000000000000000000000000000000000000000000000000000000000000000000000000000000000000000000000000000000000000000000000000000000000000000000000000000000000000000000000000000000000000000000000000000000000000000000000000000000000000000000000000000000000000000000000000000000000000000000000000000000000000000000000000000000000000000000000000000000000000000000000000000000000000000000000000000000000000000000000000000000000000000000000000000000000000000000000000000000000000000000000000000000000000000000000000000000000000000000000000000000000000000000000000000000000000000000000000000000000000000000000000000000000000000000000000000000000000000000000000000000000000000000000000000000000000000000000000000000000000000000000000000000000000000000000000000000000000000000000000000000000000000000000000000000000000000000000000000000000000000000000000000000000000000000000000000000000000000000000000000000000000000000000000000000000000000000000000000000000000000000000000000000000000000000000000000000000000000000000000000000000000000000000000000000000000000000000000000000000000000000000000000000000000000000000000000000000000000000000000000000000000000000000000000000000000000000000000000000000000000000000000000000000000000000000000000000000000000000000000000000000000000000000000000000000000000000000000000000000000000000000000000000000000000000000000000000000000000000000000000000000000000000000000000000000000000000000000000000000000000000000000000000000000000000000000000000000000000000000000000000000000000000000000000000000000000000000000000000000000000000000000000000000000000000000000000000000000000000000000000000000000000000000000000000000000000000000000000000000000000000000000000000000000000000000000000000000000000000000000000000000000000000000000000000000000000000000000000000000000000000000000000000000000000000000000000000000000000000000000000000000000000000000000000000000000000000000000000000000000000000000000000000000000000000000000000000000000000000000000000000000000000000000000000000000000000000000000000000000000000000000000000000000000000000000000000000000000000000000000000000000000000000000000000000000000000000000000000000000000000000000000000000000000000000000000000000000000000000000000000000000000000000000000000000000000000000000000000000000000000000000000000000000000000000000000000000000000000000000000000000000000000000000000000000000000000000000000000000000000000000000000000000000000000000000000000000000000000000000000000000000000000000000000000000000000000000000000000000000000000000000000000000000000000000000000000000000000000000000000000000000000000000000000000000000000000000000000000000000000000000000000000000000000000000000000000000000000000000000000000000000000000000000000000000000000000000000000000000000000000000000000000000000000000000000000000000000000000000000000000000000000000000000000000000000000000000000000000000000000000000000000000000000000000000000000000000000000000000000000000000000000000000000000000000000000000000000000000000000000000000000000000000000000000000000000000000000000000000000000000000000000000000000000000000000000000000000000000000000000000000000000000000000000000000000000000000000000000000000000000000000000000000000000000000000000000000000000000000000000000000000000000000000000000000000000000000000000000000000000000000000000000000000000000000000000000000000000000000000000000000000000000000000000000000000000000000000000000000000000000000000000000000000000000000000000000000000000000000000000000000000000000000000000000000000000000000000000000000000000000000000000000000000000000000000000000000000000000000000000
u64 0 0 0
walk
state
back 0
u64 1021 0
state
sum
memory 318
queue 0x400
size 1
table 0 0
avail 16 0
used 24 -
used - 0
ready 00001
valid
next-avail 0x2DBE
u16 18 0x2DBE
next-used 11710
desc 0 171696 4294967295 1 0
u16 0x12 11711
begin
head
head
head
head
put 0 4294967295
u16 0xffffffffffffffff 107
state
desc 00000 18446744073709549479 0 0x9d99 0x00000000000000000000
fill 0xc7 16 00217
bytes 224 82 0x73
chain 0x0
readable
readable
u32 155 3539172843
begin
bytes 23 64
head
head
u16 20 11731
put 0 0xffffffff
u16 188 0x9e01
pop
writable
question
bytes 199 225 58 26 0xaa
next
begin
head
desc 0 0x1e770 0 0x2 0
u16 20 0
u16 18 11712
head
next
head
head
head
head
next
head
begin
bytes 8 1 0x0 0 0
bytes 0x8 0 0 0 128
head
bytes 8 0 00000 0 0x80
writable
next
head
next
head
ready 1
question
begin
bytes 0x00000000000000000008 0xff 255 255 0x7f
u16 0xf3 31568
bytes 8 0 0 0 128
bytes 8 00000 0 0 0
sum
pop
pop
valid
u16 0xda 21204
desc 0 6411331568994354803 0x80000000 0x0000000000000000d621 0
u64 2 9223372036854775808
bytes 80 177 240 00032 160 0x0000000000000000000a 130
ready 1
bytes 18 194 45
pop
writable
writable
next
put 0 0x80000000
u64 4 288
next-used 0x00000000000000000115
state
u64 215 12140241966380191628
u16 18 11712
u32 173 0xe76f1934
begin
head
head
bytes 8 255 255 0x000000000000000000ff 127
bytes 24 8 0x68 240 00065 161 0xbb 9
desc 0x0 0x10a0 0x10000 0 0
u16 20 0x0
u16 18 11713
head
bytes 35 0x92
next
back
dump 24 2
writable
begin
state
begin
desc 00000 18446744073709549748 0 34306 0
chain 0x0
desc 0 0x7e900 4294967295 0x1 0
u16 0x8000000000000000 01361
next-used 0xc6
begin
u16 2 0
avail 1 0
pop
valid
bytes 64 0x0000000000000000004b
state
put 0 0xffffffff
put 1 0x20
put 0 4294967295
put 0 32
put 0 512
put 0x2 0x1020304
put 0 0
u16 18 11712
region 4 0xf7 0x137
fill 00242 0 160
chain 0
next
next
readable
u16 19 0x7f9e
state
chain 0
next
writable
u16 18 11711
pop
region 00020 0x26 112
state
u64 9 128
begin
chain 0x5
begin
begin
head
u64 0x50 10926530185949382075
head
back
region 0x00000000000000000000 318 0
head
state
put 0 512
chain 0x2
next
u32 128 0xC2542D51
dump 3 3
u16 0xdd 34560
state
u16 88 11627
begin
bytes 299 00010 00242
u64 0xE7 0x33CF5EA589D3E658
chain 0
writable
begin
avail 8 0
begin
begin
bytes 252 122 233 242 18 227 24 0x51
put 0 0
put 65533 0x62
bytes 0x00000000000000000023 0xe3 25 0xb0 83 0xa8 75
fill 114 22 0x0000000000000000007b
back
valid
chain 4
state
sum
memory 0x6a4
queue 1
table 0x0 -
table - 0
avail 48 0
used 88 0
ready 0x1
valid
next-avail 0xfffc
u16 50 65532
next-used 57654
pop
pop
begin
back
head
back
head
head
head
put 0 512
put 0 0xffffffff
begin
readable
walk
head
head
next
head
back
question
state
state
bytes 54 0x34 00225
pop
next
walk
put 0x0 0xffffffff
question
desc 0 11868109701210426584 4096 2 0
u16 52 0
u16 0x00000000000000000032 0x0000000000000000fffd
next-avail 21949
u16 0x32 21949
bytes 0 192 0x52 14 0 0 00000 0 0 0 0x10 0 0 00000 0 0 0
u16 0x00000000000000000034 0
u16 50 21950
u16 48 0
pop
walk
put 0 0
question
desc 0 4058566917926333814 1 2 0
u16 52 0
u16 50 21951
u16 0x00000000000000000036 57657
u16 54 0xe13c
begin
head
head
bytes 5 0xee
head
desc 0 10184446066398593118 1 2 0
bytes 52 0 0
u16 50 0x55c0
next
walk
bytes 8 1 0 0 0
back
next
next
put 0 512
u16 50 0x55be
desc 0 0x615349722c105ade 00001 00000 0
u16 52 0x0
u16 0x32 21951
u16 48 0x0
begin
back
region 56 1700 0
head
head
next
head
head
region 74 0x46 224
back
pop
question
question
pop
question
begin
begin
begin
state
pop
state
dump 32 22
question
dump 32 12
pop
writable
pop
question
pop
begin
question
begin
ask
stop
ask
pop
pop
pop
next
readable
avail 0 0
pop
next
writable
question
begin
begin
head
next
next
head
pop
question
chain 1
next
state
pop
question
valid
put 53920 0x-1
pop
question
question
begin
head
head
back
put 0 16909060
dump 0x20 38
begin
walk
begin
pop
question
back
ask
pop
question
pop
pop
readable
next
question
question
state
question
question
chain 0
next
chain 0
readable
state
question
pop
pop
question
pop
begin
size 32768
begin
pop
state
pop
question
state
back
begin
walk
head
walk
next
u32 1681 0x0000000000002a9fe36a
u32 0x428 2905427346
head
head
state
sum
memory 0x682
region 4294966992 1666 0
queue 2
table 4294966992 0
avail 0xffffff10 0
used 4294967100 0x0
ready 1
valid
desc 0 0xa525c97e4f50cdee 0xfffffffe 0xA51 1
state
chain 0
next
readable
pop
desc 0 0x12ca0 0x1 0 0
u16 68 0
u16 0x42 1
bytes 65 1
desc 0 942048 0x1000 00001 1
bytes 16 191 44 180 0x82 57 6 17 177 0 16 0 0 2 0 0 0
u16 70 0
u16 66 2
chain 1
next
writable
pop
next
writable
put 0 0x1020304
question
begin
desc 0 796176 0x200 0x00000000000000000001 0x1
desc 16 7853699155345360102 1 2 0
u16 68 0
u16 0x42 00003
head
put 0 16909060
u16 0x42 0
u16 1031 0x8d97
bytes 66 1 0
u16 0x46 1
u16 66 2
u16 0x48 0xfffe
pop
state
desc 0 0x00000000000000012400 2147483647 0 65535
state
ask
ask
pop
desc 16 225072 0 1 0
desc 0 18446744073709549228 1 0 0
u16 68 1
u16 66 3
put 1 32
put 0 512
put 0 1
put 0x00000000000000000000 1
put 1 00000
put 0 4294967295
put 3 0x00000000000000000020
put 1 1
question
valid
u16 72 11
bytes 0x0 0xa8
begin
head
head
next
begin
head
head
next
readable
head
state
sum
memory 00266
queue 8
size 1
table 32 0x0
avail 0 0x0
used 48 0
ready 1
valid
event 1
desc 32 17274000281726941682 0 0x0 1
bytes 40 1
u16 2 65534
chain 0
writable
state
bytes 46 2
u16 00002 0
desc 32 237776 512 0 0
u16 4 0
u16 0x2 1
u16 6 3
pop
question
state
region 0 0x0000000000000000010a 0x0
pop
question
pop
next
bytes 32 0xd2
bytes 37 0x00000000000000000008
u16 4 65535
u16 2 2
bytes 2 0 0
state
begin
desc 0x20 347328 4096 2 0
u16 0x00000000000000000004 0
u16 2 1
begin
chain 0
next
next
u16 2 1
begin
head
u16 0x79 31484
head
head
question
begin
u16 0x00000000000000000006 0x7fff
begin
next
head
bytes 60 128
next
next
bytes 40 255 0xff 255 255
desc 32 818512 2147483648 0x1 0
desc 32 18446744073709549935 0x1000 27971 0
  state
put 0 1
state
stop
pop
u16 4 0x00000000000000000000
bytes 00002 2 0
bytes 0 2
u16 4 2
u16 0x2 0x00000000000000000003
put 0 16909060
put 0 32
put 0 32
put 0 1
put 0 0x80000000
put 0 0
u16 4 32768
u16 2 4
bytes 37 0
begin
pop
question
begin
pop
question
pop
question
begin
question
u16 2 0
desc 32 0x0000000000000002f4c0 0x00000000000000000000 0 0
bytes 00004 0 0
u16 2 1
bytes 40 00000 0 0 0
pop
question
pop
question
dump 0 22
begin
pop
question
state
u16 4 0x00000000000000000000
u16 2 2
bytes 42 0x80
desc 32 18446744073709550395 512 2 0
u16 4 0
u16 2 3
ask
ask
chain 0
writable
bytes 36 0
bytes 39 251
u16 2 0
desc 32 977232 16 2 0
u16 4 0
u16 2 0x1
bytes 0x28 255 0xff 0xFF 255
bytes 45 0x1
u16 0x00000000000000000006 5
put 0 4294967295
u16 6 4
pop
writable
question
u16 0x4 0x0
u16 2 00002
begin
pop
u16 4 0
u16 2 3
dump 48 2
pop
question
state
question
u16 2 0
desc 32 766464 0x200 2 0
u16 4 0
u16 2 1
ask
desc 32 0x0000fffffffffffffca2 2147483648 1 0
bytes 40 1 0 0 0
pop
question
pop
question
u32 236 2797580627
bytes 38 0xfd
bytes 40 95
begin
head
bytes 48 128
next
next
bytes 35 0
back
head
bytes 0xa7 105 225 2 25 178 43 240 0x42
back
u16 2 0xfffe
desc 32 880512 0x1000 0 0
u16 4 0
u16 2 65535
pop
question
begin
head
head
back
head
next
readable
readable
head
head
bytes 00004 0 128
u16 2 0
begin
begin
pop
state
bytes 33 0xef
begin
pop
question
begin
pop
question
pop
back
dump 48 70
begin
u16 4 0x0
u16 2 1
valid
u16 6 32776
bytes 40 0x80
u16 2 65532
desc 32 15391689095632656536 0x1000 0 0
u16 4 0
u16 0x2 0xfffd
bytes 131 170 216 0x98 131 00098 0x79 0xe2 00033 0x6b 235 27
bytes 37 0x00000000000000000011 227
region 1099511627776 0x10c 0
pop
question
state
bytes 0x0000000000000000002c 0x00000000000000000060
begin
bytes 61 77
desc 32 0xFFFFFFFFFFFFFE3C 4294967295 0x61ea 0
bytes 42 0
chain 1
walk
pop
bytes 43 0
bytes 55 1
u16 2 65533
state
u16 6 5
u16 4 1
u16 2 65534
state
pop
ask
bytes 41 0
pop
state
pop
question
back
begin
begin
pop
question
begin
stop
bytes 0x2E 34
state
u16 2 0xfffb
desc 0x00000000000000000020 8606061298361271290 0x1000 2 0
u16 4 0
u16 2 65532
pop
question
bytes 48 0
bytes 2 0xFB 127
u16 4 65535
u16 2 32764
ask
fill 0x0000000000000000004d 0 113
bytes 35 60
pop
state
sum
memory 01078
region 54 548 0
region 4 50 0x224
region 602 384 598
region 0 00004 982
region 0x000000000000000003da 92 986
queue 8
size 2
table 0 0
avail 96 00000
used 0x420 -
used - 0
ready 1
valid
next-avail 65533
u16 44 0xFFFD
next-used 0xfffd
desc 0x230 48336 1 42227 0
state
u16 0x2C 65535
bytes 46 234
bytes 44 0
region 0x00000000000000000410 1078 0
pop
bytes 43 172
bytes 0x00000000000000000432 4
desc 560 0x32e90 16 00002 0x0
u16 46 1
u16 44 65281
region 0 1078 0
state
pop
u64 0x260 0xae1db153bee6afcd
begin
question
bytes 983 64
question
state
u16 0x2c 32765
bytes 50 0x80
u32 951 1343131223
pop
begin
bytes 0x431 1
bytes 0x3d6 0x50 215 11 0
bytes 548 0 0x00000000000000000000 00000 0 0x0 0 0 128 0x00000000000000000000 0 00002 0
pop
pop
writable
next
question
fill 0x00000000000000000302 9 73
bytes 559 1
question
begin
bytes 44 0xfd 255
desc 0x230 1510724138000256861 4096 0x00000000000000000001 0
bytes 982 80 2 12 0
bytes 548 00000 0x0 0 0x0 0x1 0 0 0 2 0 0 0
bytes 48 1 00000
u16 44 65534
desc 560 0xfffffffffffffd22 0 0 0x0
u16 46 1
u16 44 0xffff
bytes 0x434 1
dump 982 70
pop
next
next
put 1 2147483648
question
question
u16 48 2
u16 44 0
pop
put 1 32
question
fill 854 0 0xDB
bytes 45 1
state
sum
memory 1544
region 18446744073709551554 60 00000
region 0 01484 60
queue 8
table 0x00000000000000000000 0
avail 1466 0
used 216 0
ready 1
valid
event 1
pop
question
bytes 0xac 112 0xe7 2 0 0 0 00000 0x00000000000000000000 0 0x10 0 0x0 3 0 00002 0
bytes 92 63 169 24 0x00000000000000000014 224 51 0x0000000000000000006a 0x6 16 0 0 0 2 0 0 0
u16 0x5fa 7
u16 01528 0x1
desc 124 5888272508209140181 65536 1 0
desc 60 11567005232045435100 1 3 2
desc 92 859136 0 1 1
desc 0x4c 14112462378675838738 1 1 5
desc 140 7749344162370649812 1 1 6
desc 156 18446744073709550294 512 00003 3
desc 0x6c 0xD6DCA55BB5C0CEBC 65536 0 0
u16 1532 4
u16 1528 0x00000000000000000002
question
u16 1528 9
ask
chain 5
writable
u16 1532 32768
u16 0x5f8 0xa
state
begin
bytes 335 21
pop
pop
stop
begin
u16 0x5f8 0
desc 0x5c 18446744073709548499 512 1 1
desc 76 101120 16 1 3
desc 0x6c 258928 65536 1 6
desc 156 15119806388168571935 0x1 0x00000000000000000003 5
desc 00140 437040 0 1 0
bytes 60 214 250 0xff 255 255 255 0xff 00255 0 0 0x00000000000000000000 0 3 0 7 0
desc 0xAC 853200 512 0x00000000000000000001 0x4
bytes 124 0x000000000000000000c0 53 2 0x0 0 0 0 0x0 1 0 0x00000000000000000000 0 0x00000000000000000000 0 0 0
bytes 1530 2 0
bytes 1528 1 0
bytes 117 217
desc 172 0x6d0fd94ea76a1b73 1 1 5
desc 0x8c 505424 16 0x1 0x6
bytes 0x9c 0xad 248 255 0xff 255 255 255 255 0 2 0 0 1 0 1 0
desc 0x4c 595536 0x200 0x00000000000000000001 3
bytes 0x0000000000000000006c 80 0xcb 15 0 0 0 0 0 1 0 0 0 3 0 00004 0
desc 124 940336 0x200 2 0
u16 0x5FC 7
u16 0x5f8 2
sum
desc 60 0x2c6ee70fcf3ecb58 2147483648 2 4
bytes 0x0000000000000000006c 189 102 45 153 0xDC 96 153 206 1 0 0 0 0x00000000000000000000 0 0 0x0
u16 1534 3
u16 0x5f8 3
pop
readable
put 2 0x000000000000ffffffff
question
bytes 92 16 185 8 0 0 00000 0 0 1 0x00000000000000000000 0 0 0 0 0 0
bytes 0x600 2 00000
bytes 0x5F8 4 0
begin
next
head
u32 0x4aa 4171607166
desc 0x5c 0xfffffffffffff366 16 0 0
u16 0x00000000000000000602 2
u16 1528 5
bytes 148 0 0 0 128
back
next
walk
head
put 0x7 1
put 7 1
u64 275 13457429737527897704
chain 00005
walk
u16 9223372036854775808 1
bytes 0x00000000000000000143 0x00000000000000000008
chain 1
ask
region 0 1544 0
dump 276 70
chain 5
readable
put 0x1 1
begin
desc 76 128528 16 00003 3
bytes 108 97 252 255 0xff 255 0xff 255 255 0 0 1 0 1 0 7 0
desc 172 13387243880076958515 1 0 0
u16 0x604 1
u16 1528 6
head
next
writable
bytes 128 63
head
bytes 84 00255 0xff 255 255
desc 0x3C 624112 4096 0x00000000000000000003 0x3
desc 108 1570609762977071443 4096 3 7
desc 172 6029336815796663851 0x200 1 6
desc 156 18446744073709551458 16 3 4
desc 124 0xfffffffffffff98b 00000 3 5
bytes 140 32 173 0 0 0 0 0 0 00000 0 0 0 3 0 1 0
desc 76 18446744073709551331 0x1000 2 0
u16 1542 0
u16 0x5f8 7
put 3 32
pop
next
next
put 2 2147483648
ask
bytes 1538 4
stop
desc 140 18446744073709547943 65536 1 0x4
desc 124 0xfffffffffffff489 0x10000 3 3
desc 108 9297572947235157417 0x0 1 2
desc 92 1247772500934950261 0 1 1
desc 76 18446744073709551577 00512 1 7
desc 172 5938423470010259460 04096 00001 0
desc 60 2095785001152202862 0x1000 1 6
desc 156 985728 0x10000 2 0
u16 01528 8
u16 512 30195
u16 1530 8
u16 0x5F8 9
state
bytes 01531 1
dump 0x114 2
bytes 329 0x45
bytes 0x13a 1
bytes 0x7D 228
begin
writable
bytes 172 254 0x000000000000000000f3 44 1 159 52 0xd0 70 0 16 0x0 0 1 0 0 0
desc 0x3C 0x92e20 1 3 0x3
desc 108 0xd1060 0x10 0x3 6
desc 156 0xfffffffffffffa64 0 1 5
desc 140 685632 4096 0x00000000000000000003 2
desc 92 9575054240885034861 0 00002 0
u16 1532 7
u16 1528 10
head
head
next
next
next
walk
put 1 1
put 0x4 2147483648
pop
u16 01534 65535
u16 1528 11
chain 0x00000000000000000009
next
bytes 68 0x81
begin
head
bytes 00164 1 0 0 0
bytes 0x54 0 00000 0x0 0
head
desc 140 18446744073709551409 65536 3 0x7
desc 172 13614827336353794741 1 00001 2
desc 92 18446744073709551359 16 1 00004
desc 124 0xd5110 512 0x00000000000000000001 1
desc 76 0xf7250 0 0 0
u16 01536 5
u16 1528 0xc
head
head
next
head
walk
pop
pop
state
u16 1528 32775
pop
question
pop
question
pop
u16 0x5f8 32776
bytes 1529 129
u16 1528 16
bytes 57 0x60 64 249 41 115 0x93 0xc8 00075 211 3 9
u16 0x5f8 7
desc 0x7c 0x7459f4610e593589 16 1 3
desc 108 780192 0 1 1
desc 0x0000000000000000004c 1008272 16 00001 2
bytes 92 87 26 0xb4 138 0xa3 48 52 0x80 0 16 0 0 2 0 0x0 0x0
u16 1528 8
u64 0x420 12764104197999549689
sum
desc 0x9c 18446744073709548076 16 3 5
desc 140 18446744073709550096 16 3 2
desc 92 0xF72F0 16 1 0
desc 60 60512 16 1 4
desc 124 17303959011754025313 16 3 1
desc 76 0x6588d6881c3a288a 0 2 0
u16 1530 6
u16 1528 9
state
dump 1526 4
chain 1
writable
begin
head
head
u64 01270 0x8FCD4904D9F037C8
head
u32 0x382 0x37db50d
desc 0x5C 11019390174484168241 0 1 0
desc 60 9019918015620324966 4096 1 5
desc 0x0000000000000000008c 492272 1 3 6
desc 156 18446744073709551428 1 00001 7
desc 172 378144 00016 1 4
desc 0x7c 1008512 4096 3 1
desc 76 8595518163935502279 65536 3 3
desc 0x6c 914752 65536 0x0 0
u16 1532 2
u16 1528 10
bytes 0x5fe 255 255
u16 1528 11
desc 156 349872 4294967294 11338 0xFFFF
pop
state
pop
next
readable
question
stop
pop
pop
u64 1031 3602733469155096300
state
sum
memory 865
queue 1
table 00880 0x0
avail 0x70 0
used 0xd8 0
ready 1
valid
next-avail 0x1d65
u16 0x72 7525
next-used 7525
event 0x1
pop
question
chain 0
dump 112 2
begin
next
next
walk
u16 0x74 0
bytes 114 0x66 29
chain 0
readable
chain 1
next
chain 0
next
chain 0
next
pop
writable
put 0 16909060
question
chain 0
next
state
u16 116 0x00000000000000000000
u16 114 7527
valid
state
pop
next
put 0 0x80000000
question
state
next
u16 116 0
u16 0x72 7528
pop
next
put 0 32
question
u16 116 0
u16 114 7529
valid
chain 0
next
chain 0
next
chain 00000
next
pop
writable
put 0 0x00000000000080000000
writable
chain 0
next
chain 0
next
u16 116 0x00000000000000000000
u16 0x72 7530
chain 0
readable
writable
next
chain 0
next
pop
readable
put 0 32
question
chain 0
sum
chain 0x00000000000000000000
readable
next
pop
question
readable
state
bytes 0x74 0 0
u16 0x72 0x1d6b
next
begin
readable
next
head
put 00000 4294967295
begin
head
head
u16 0x74 0x0
u16 114 7532
readable
state
readable
next
chain 0
begin
readable
head
head
u16 116 0
u16 114 0x1d6d
walk
head
next
back
head
state
next
walk
readable
state
chain 2
next
chain 0
next
writable
begin
readable
next
walk
next
readable
state
sum
memory 0x750
region 13854049092633898 86 00058
region 13854049092632170 1402 144
region 13854049092633572 0x146 1546
queue 16
size 4
table 0x2addfe30 3225647
avail 719191680 -
avail - 3225647
used 0x2ADDFEA0 3225647
ready 1
valid
next-avail 65532
bytes 168 0xfc 0xff
next-used 0xa0af
event 1
bytes 144 0 0 3 0 2 0
u16 170 0
u16 168 65533
u16 172 0
u16 168 0xFFFE
u16 166 1
pop
walk
put 0x0 16909060
question
begin
head
question
pop
question
state
pop
question
pop
question
bytes 144 1 0 2 0 0 0
u16 174 0x2
u16 0xa8 65535
stop
u16 0x000000000000000000b0 0x00000000000000000002
u16 168 00000
begin
head
head
back
walk
bytes 144 1 0 2 0x0 0 0
u16 170 2
u16 0xa8 1
head
u16 172 2
u16 0xa8 0x2
head
put 2 0x0
put 2 00000
pop
put 0x2 4294967295
question
pop
next
put 2 0x00000000000000000020
question
pop
u16 174 2
u16 0xa8 3
chain 2
next
u16 0xb0 0x1
u16 168 4
bytes 144 1 0 2 0 0x0 0
u16 170 2
u16 0xa8 5
state
u16 0xac 0
bytes 0xa8 0x00000000000000000006 0
pop
next
put 2 1
u16 174 2
u16 0xa8 7
begin
walk
next
next
next
u32 75 2736171784
readable
region 13854049092632142 0x4e 448
bytes 227 16
head
head
put 1 0x00000000000000000001
stop
bytes 0x90 1 0 0 0 0x0 0
u16 00176 2
u16 168 0x8
state
event 0
bytes 170 0 00000
u16 168 9
bytes 144 0 0 0x2 0 0 0
u16 172 2
u16 0xA8 10
stop
u16 0xA8 5
bytes 144 0 0 1 0 1 0
u16 172 3
u16 0x000000000000000000a8 6
pop
next
put 3 4294967295
question
question
state
bytes 144 0x1 0 0 0 0 0
u16 174 0x3
u16 0x000000000000000000a8 7
bytes 144 0 0x0 0x1 0x00000000000000000000 0 0
u16 176 3
u16 168 8
pop
next
writable
put 3 4294967295
question
sum
pop
readable
put 3 0xffffffff
question
pop
back
begin
next
back
walk
head
put 3 2147483648
bytes 144 0 0 3 0 1 0x0
u16 170 3
u16 00168 9
begin
u16 172 1
u16 0xA8 10
head
head
head
bytes 144 0 0 3 0 1 0
u16 174 2
u16 0xa8 11
head
writable
back
head
put 3 2147483648
put 0x00000000000000000003 0
put 3 2147483648
pop
next
put 1 0x00000000000000000000
valid
bytes 144 0 0 1 0 2 0
u16 0x000000000000000000b0 00003
u16 168 12
bytes 0x90 0 0 3 0 0 0
u16 170 3
u16 168 13
put 3 0x00000000000000000200
u16 172 2
u16 0xa8 14
valid
u16 0xb2 41152
state
pop
put 2 1
pop
next
put 3 4294967295
bytes 0x00000000000000000090 0 0 00003 0 0 0
u16 174 2
u16 168 0xf
next-avail 0x2
ask
u16 0xa8 0x00000000000000000002
u16 00174 0
bytes 0xa8 0x00000000000000000003 0
pop
next
put 0 1
pop
question
dump 198 2
state
sum
memory 1084
region 9539161141682780 8 510
region 9539161141682802 0x356 96
region 0x21e3d1074e2264 14 330
region 0x21e3d1074e2250 12 1018
region 9539161141683656 196 0x300
queue 2
size 2
table 4294967264 0x000000000000ffffffff
avail 4294967288 4294967295
used 122561180 2221009
ready 1
valid
begin
begin
head
head
next
head
head
writable
head
pop
question
pop
u32 839 1019977898
bytes 158 1
region 18446744073709551574 28 646
pop
question
begin
u64 415 17161770257749878517
desc 656 1602426089504865728 0x80000000 3 00001
begin
head
pop
question
bytes 0xfe 97 0x63 122 00209 0xE1 233 00211 89 243 00227 0xD2 113
bytes 0x296 66
bytes 0x8d 15
question
begin
u32 272 0x3f68eb1a
bytes 672 169 139
chain 2
writable
readable
bytes 151 191
put 1 512
bytes 665 8
pop
bytes 672 110 107
bytes 00672 48 24
bytes 0x97 0xbb
put 0 16909060
pop
question
state
question
bytes 0x298 255 255 255 255
back
state
bytes 0x00000000000000000290 192 144 5 0 0x0 0 0 0 0 16 0 0x0 0 0x0 00000 0
pop
question
pop
put 1 00032
put 2 32
put 0 0x200
put 2 32
put 0 0
put 3 16909060
put 2 0
put 0 4294967295
put 0 32
put 2 32
pop
bytes 0x0000000000000000029b 2
put 0 0x200
back
pop
next
next
pop
next
u16 404 12683
put 1 0x000000000000ffffffff
state
ask
begin
begin
pop
question
bytes 672 240 21
bytes 155 0x5A
state
begin
begin
begin
u64 642 7534282529249473670
begin
desc 0x290 923632 2147483647 3 0
state
bytes 0x8c 225
begin
put 1 32
u64 255 10884223082238617876
pop
question
bytes 0x2a0 84 0xFC
pop
state
bytes 0x9f 1
bytes 664 0 0x0 0 0
pop
state
chain 0
begin
region 18446744073709551614 00006 94
bytes 659 164
begin
begin
head
head
head
head
head
head
u32 0x145 0x2e0baf31
next
writable
writable
readable
next
u64 464 15176424522203932718
ask
pop
pop
next
begin
state
valid
begin
valid
begin
begin
chain 0
readable
chain 0x0
next
back
begin
head
head
head
region 0x21e3d1074e22aa 72 972
head
pop
question
sum
chain 0
next
next
next
state
bytes 0x2a7 0xa8 58 26 218 0x00000000000000000090 24 64 192 249 211
ask
dump 0x290 12
pop
begin
back
pop
question
pop
question
bytes 0x9b 16
region 18446744073709551580 0x43C 0
ask
put 1 1
ask
error:
chain 1
writable
begin
head
walk
head
head
head
bytes 971 65 123 251
head
head
chain 1
next
next
begin
next
next
writable
next
next
head
head
next
readable
state
begin
state
begin
pop
question
state
writable
pop
next
question
state
sum
memory 1258
region 18446744073709551568 46 0x0
region 0 0x4bc 46
event 1
queue 32768
size 8
table 4294967248 4294967295
avail 0xa0 0
used 0xffffffdc 4294967295
ready 1
valid
next-avail 48760
u16 00208 48760
next-used 0xfff8
event 1
desc 0x0000000000000000003e 12498569310523186458 0x10000 1 3
desc 46 1031456 1 0x1 5
desc 78 0x0000fffffffffffffee7 0x10000 1 2
bytes 32 0xd0 0xa1 5 0 0 0 0 0 0 16 0 0x0 1 00000
desc 16 3035861965142866855 16 2 0
u16 0xd2 4
u16 0xd0 0xbe79
u16 226 65531
put 1 2147483648
state
dump 0xc 0x46
put 0x00000000000000000000 0
state
put 9 0xffffffff
question
u16 0xe2 65530
stop
state
question
state
put 0x8 4294967295
bytes 208 0x7c 190
desc 94 726782123567319127 00000 1 3
desc 46 3549635358620134719 4096 1 4
desc 0x0000000000000000003e 810160 0 1 5
bytes 78 0x52 243 126 0xa5 91 237 0x70 2 0x0 16 0 0 0 0 0 0
u16 218 6
u16 208 0xbe7d
question
u16 226 65529
ask
put 0 0x80000000
ask
ask
ask
state
u16 226 65533
pop
next
next
ask
u16 0xD0 48759
u16 0xd0 48761
desc 46 254048 0x200 1 00004
desc 62 18446744073709549988 1 0 0
u16 0xD4 3
u16 208 0xBE7A
stop
used 4294967256 0
bytes 0x3E 18 244 255 0x000000000000000000ff 00255 255 255 255 00016 0 0 0 2 0x0 0 0
u16 214 00004
u16 208 0xbe7b
u16 226 65534
u16 0xe2 65531
ask
question
state
desc 0 0x11330 00016 0x1 4
desc 62 0x61360 1 1 3
desc 46 22816 1 1 7
desc 0x6e 0x4b9e0 4096 1 6
desc 94 18446744073709548584 4096 3 0x00000000000000000005
desc 78 278640 512 2 0
u16 216 0
bytes 0xD0 124 0xbe
put 0 0x1020304
put 4 16909060
put 7 0xFFFFFFFF
u16 0x000000000000000000e2 65527
pop
next
put 3 0xFFFFFFFF
question
state
ask
put 00008 0
state
put 7 16909060
size 65535
state
put 0x3 0xFFFFFFFF
put 65535 32
avail - 0
pop
walk
put 4 4294967295
question
ask
bytes 46 247 181 44 0xc1 0x8d 138 0x00000000000000000077 0x45 1 0 0 0 1 0 1 0
desc 16 698816 0x1000 00003 4
desc 62 0x53E50 4096 0x3 6
desc 94 0xc50bc30490bcfafa 16 0x00000000000000000003 00005
desc 0x0000000000000000004e 18446744073709547902 1 3 2
bytes 32 0xd5 250 0xff 255 0xff 0xff 255 255 16 0 0 0 2 0
u16 00218 3
u16 00208 48765
u16 0xe2 65532
ask
put 7 1
stop
put 0x00000000000000000005 0x00000000000000000200
put 00003 1
put 9 0x1020304
put 5 0xffffffff
put 5 2147483648
put 0xffff 1
put 4 4294967295
put 0x7 0xffffffff
put 6 0x200
put 4 1
put 1 4294967295
put 3 2147483648
put 6 2147483648
u16 208 15995
pop
question
u16 208 48767
state
u16 0xd0 0xBE84
event 1
state
u16 0xe2 65530
valid
question
u16 226 65534
u16 208 48764
u16 0xce 1
put 4 1
put 6 2147483648
put 3 0
put 1 32
put 2 512
put 7 0x0
put 0 16909060
put 0 1
put 7 0x200
put 00007 0
put 2 1
u16 0xe2 0x00000000000000007ffb
u16 0xd0 0xbe7c
bytes 0xe2 251 0xff
state
question
u16 226 32763
u16 226 65529
state
u16 226 65534
u16 226 65532
u16 226 32763
state
state
sum
memory 0x68c
queue 0x8
table 0 0
avail 160 0
used 216 0x00000000000000000000
ready 00001
valid
next-avail 0xfffa
u16 162 65530
next-used 0xfffe
question
size 2
avail 2472494775 -
chain 0
readable
event 0x0
state
size 65535
pop
event 0x0
u16 0xa4 0
u16 162 65531
ready 1
put 1 0x200
put 0 512
next-used 42638
state
pop
next
writable
walk
walk
put 0 1
begin
head
region 18446744073709551606 0x68C 0
desc 0 3744588230490804963 0x200 0x2 0x00000000000000000000
u16 0x000000000000000000a6 0
u16 0xA2 65532
head
head
head
head
begin
bytes 24 0 0 0 0
head
desc 16 546816 0x200 0 0
u16 0x000000000000000000a4 1
u16 162 65533
next
writable
writable
head
next
head
head
head
put 0 0x200
question
next-used 63425
state
avail - 1
sum
state
avail 00162 00001
used 248 0
state
avail 0 4294967295
next-used 65534
avail - 1
begin
pop
next
next-used 62647
table 0 0
avail 8 0
begin
bytes 12 0x5a
head
head
dump 248 4
begin
used 4294967252 0
state
state
table 0xfffffff4 0
u16 12 1
u16 10 1
state
put 0xffff 0
dump 0 12
valid
ready 1
put 0 1
ready 1
u16 14 1
bytes 10 2 0x0
avail 00012 -
next-used 65530
chain 0
next
next
next
next
next
next
next-avail 65530
table - 0
chain 0
readable
stop
begin
pop
question
valid
valid
avail 4 -
avail 0x0 -
state
begin
u64 326 0xD12676B0CBB55313
head
bytes 24 0 0 0 0x00000000000000000080
bytes 24 0xff 255 0x000000000000000000ff 00255
begin
back
valid
next-used 16858
chain 0
writable
state
dump 0 4
reset
size 0x00000000000000000002
table 0x00000000000000000000 0
avail 0 0
used 4294967252 0
ready 1
avail 0x1 -
next-avail 0x0000000000000000ffff
u16 6 1
u16 0x2 60548
pop
question
pop
ask
next-used 0xfffe
valid
u32 18446744073709551615 0x0
back
ready 1
stop
u16 4 3
u16 2 60549
state
event 1
used 0xffffffc4 -
size 0x2
pop
reset
put 0x5 1
next-used 0xfffa
sum
put 0x6 32
u16 10 2
u16 2 65532
chain 1
next
next
event 00001
valid
state
question
state
question
state
sum
memory 0x6d2
region 4294967444 930 108
region 0x10000004a 24 0x40e
region 0x100000000 46 0x0000000000000000043c
region 0x00000000000100000062 28 1158
region 4294968482 0x230 01186
u64 0x7a 3
queue 0x8000
size 2
table 0x0 -
table - 1
avail 0x80 -
avail - 1
used 236 1
ready 1
valid
event 1
queue 1 1
state
# pop
pop
question
desc 1508 0x8000000000000000 6 9 50696
chain 0xea
u16 2 63334
dump 196 70
stop
0x
walk x
state
fill 1746 0 0
-
dump 1084 0x16
region 0x0000fffffffffffffffe 4 0x0
dump 1084 38
region 0 0 0x0
u8
memory 18446744073709551615
dump 0x2 0
event 1
size 8
memory 18446744073709551615
/WIT@M)hQ2k.UQR
state
walk
state
put:
region 0xfffffffffffffffe 4 0x0
walk
begin
size -1
dump x x x
]SgGK6ZaqsTW
queue 0xg
next-used
head 1
next-
valid# comment
pop
question
queue 5
QUEUE 8
ready 0
# sum
region 18446744073709551616 3363336275188449 491209620815451
heads
region 0 0 18446744073709551615
next-used 65527
error:
0
u16 01745 1
sum
next-
pop
question
u16 3224963364977712 0x10000
memory 1,
nothing xxxxxxxxxxxxxxxxxxxxxxxxxxxxxxxxxxxxxxxxxxxxxxxxxxxxxxxxxxxxxxxxxxxxxxxxxxxxxxxxxxxxxxxxxxxxxxxxxxxxxxxxxxxxxxxxxxxxxxxxxxxxxxxxxxxxxxxxxxxxxxxxxxxxxxxxxxxxxxxxxxxxxxxxxxxxxxxxxxxxxxxxxxxxxxxxxxxxxxxxxxxxxxxxxxxxxxxxxxxxxxxxxxxxxxxxxxxxxxxxxxxxxxxxxxxxxxxxxxxxxxxxxxxxxxxxxxxxxxxxxxxxxxxxxxxxxxxxxxxxxxxxxxxxxxxxxxxxxxxxxxxxxxxxxxxxxxxxxxxxxxxxxxxxxxxxxxxxxxxxxxxxxxxxxxxxxxxxxxxxxxxxxxxxxxxxxxxxxxxxxxxxxxxxxxxxxxxxxxxxxxxxxxxxxxxxxxxxxxxxxxxxxxxxxxxxxxxxxxxxxxxxxxxxxxxxxxxxxxxxxxxxxxxxxxxxxxxxxxxxxxxxxxxxxxxxxxxxxxxxxxxxxxxxxxxxxxxxxxxxxxxxxxxxxxxxxxxxxxxxxxxxxxxxxxxxxxxxxxxxxxxxxxxxxxxxxxxxxxxxxxxxxxxxxxxxxxxxxxxxxxxxxxxxxxxxxxxxxxxxxxxxxxxxxxxxxxxxxxxxxxxxxxxxxxxxxxxxxxxxxxxxxxxxxxxxxxxxxxxxxxxxxxxxxxxxxxxxxxxxxxxxxxxxxxxxxxxxxxxxxxxxxxxxxxxxxxxxxxxxxxxxxxxxxxxxxxxxxxxxxxxxxxxxxxxxxxxxxxxxxxxxxxxxxxxxxxxxxxxxxxxxxxxxxxxxxxxxxxxxxxxxxxxxxxxxxxxxxxxxxxxxxxxxxxxxxxxxxxxxxxxxxxxxxxxxxxxxxxxxxxxxxxxxxxxxxxxxxxxxxxxxxxxxxxxxxxxxxxxxxxxxxxxxxxxxxxxxxxxxxxxxxxxxxxxxxxxxxxxxxxxxxxxxxxxxxxxxxxxxxxxxxxxxxxxxxxxxxxxxxxxxxxxxxxxxxxxxxxxxxxxxxxxxxxxxxxxxxxxxxxxxxxxxxxxxxxxxxxxxxxxxxxxxxxxxxxxxxxxxxxxxxxxxxxxxxxxxxxxxxxxxxxxxxxxxxxxxxxxxxxxxxxxxxxxxxxxxxxxxxxxxxxxxxxxxxxxxxxxxxxxxxxxxxxxxxxxxxxxxxxxxxxxxxxxxxxxxxxxxxxxxxxxxxxxxxxxxxxxxxxxxxxxxxxxxxxxxxxxxxxxxxxxxxxxxxxxxxxxxxxxxxxxxxxxxxxxxxxxxxxxxxxxxxxxxxxxxxxxxxxxxxxxxxxxxxxxxxxxxxxxxxxxxxxxxxxxxxxxxxxxxxxxxxxxxxxxxxxxxxxxxxxxxxxxxxxxxxxxxxxxxxxxxxxxxxxxxxxxxxxxxxxxxxxxxxxxxxxxxxxxxxxxxxxxxxxxxxxxxxxxxxxxxxxxxxxxxxxxxxxxxxxxxxxxxxxxxxxxxxxxxxxxxxxxxxxxxxxxxxxxxxxxxxxxxxxxxxxxxxxxxxxxxxxxxxxxxxxxxxxxxxxxxxxxxxxxxxxxxxxxxxxxxxxxxxxxxxxxxxxxxxxxxxxxxxxxxxxxxxxxxxxxxxxxxxxxxxxxxxxxxxxxxxxxxxxxxxxxxxxxxxxxxxxxxxxxxxxxxxxxxxxxxxxxxxxxxxxxxxxxxxxxxxxxxxxxxxxxxxxxxxxxxxxxxxxxxxxxxxxxxxxxxxxxxxxxxxxxxxxxxxxxxxxxxxxxxxxxxxxxxxxxxxxxxxxxxxxxxxxxxxxxxxxxxxxxxxxxxxxxxxxxxxxxxxxxxxxxxxxxxxxxxxxxxxxxxxxxxxxxxxxxxxxxxxxxxxxxxxxxxxxxxxxxxxxxxxxxxxxxxxxxxxxxxxxxxxxxxxxxxxxxxxxxxxxxxxxxxxxxxxxxxxxxxxxxxxxxxxxxxxxxxxxxxxxxxxxxxxxxxxxxxxxxxxxxxxxxxxxxxxxxxxxxxxxxxxxxxxxxxxxxxxxxxxxxxxxxxxxxxxxxxxxxxxxxxxxxxxxxxxxxxxxxxxxxxxxxxxxxxxxxxxxxxxxxxxxxxxxxxxxxxxxxxxxxxxxxxxxxxxxxxxxxxxxxxxxxxxxxxxxxxxxxxxxxxxxxxxxxxxxxxxxxxxxxxxxxxxxxxxxxxxxxxxxxxxxxxxxxxxxxxxxxxxxxxxxxxxxxxxxxxxxxxxxxxxxxxxxxxxxxxxxxxxxxxxxxxxxxxxxxxxxxxxxxxxxxxxxxxxxxxxxxxxxxxxxxxxxxxxxxxxxxxxxxxxxxxxxxxxxxxxxxxxxxxxxxxxxxxxxxxxxxxxxxxxxxxxxxxxxxxxxxxxxxxxxxxxxxxxxxxxxxxxxxxxxxxxxxxxxxxxxxxxxxxxxxxxxxxxxxxxxxxxxxxxxxxxxxxxxxxxxxxxxxxxxxxxxxxxxxxxxxxxxxxxxxxxxxxxxxxxxxxxxxxxxxxxxxxxxxxxxxxxxxxxxxxxxxxxxxxxxxxxxxxxxxxxxxxxxxxxxxxxxxxxxxxxxxxxxxxxxxxxxxxxxxxxxxxxxxxxxxxxxxxxxxxxxxxxxxxxxxxxxxxxxxxxxxxxxxxxxxxxxxxxxxxxxxxxxxxxxxxxxxxxxxxxxxxxxxxxxxxxxxxxxxxxxxxxxxxxxxxxxxxxxxxxxxxxxxxxxxxxxxxxxxxxxxxxxxxxxxxxxxxxxxxxxxxxxxxxxxxxxxxxxxxxxxxxxxxxxxxxxxxxxxxxxxxxxxxxxxxxxxxxxxxxxxxxxxxxxxxxxxxxxxxxxxxxxxxxxxxxxxxxxxxxxxxxxxxxxxxxxxxxxxxxxxxxxxxxxxxxxxxxxxxxxxxxxxxxxxxxxxxxxxxxxxxxxxxxxxxxxxxxxxxxxxxxxxxxxxxxxxxxxxxxxxxxxxxxxxxxxxxxxxxxxxxxxxxxxxxxxxxxxxxxxxxxxxxxxxxxxxxxxxxxxxxxxxxxxxxxxxxxxxxxxxxxxxxxxxxxxxxxxxxxxxxxxxxxxxxxxxxxxxxxxxxxxxxxxxxxxxxxxxxxxxxxxxxxxxxxxxxxxxxxxxxxxxxxxxxxxxxxxxxxxxxxxxxxxxxxxxxxxxxxxxxxxxxxxxxxxxxxxxxxxxxxxxxxxxxxxxxxxxxxxxxxxxxxxxxxxxxxxxxxxxxxxxxxxxxxxxxxxxxxxxxxxxxxxxxxxxxxxxxxxxxxxxxxxxxxxxxxxxxxxxxxxxxxxxxxxxxxxxxxxxxxxxxxxxxxxxxxxxxxxxxxxxxxxxxxxxxxxxxxxxxxxxxxxxxxxxxxxxxxxxxxxxxxxxxxxxxxxxxxxxxxxxxxxxxxxxxxxxxxxxxxxxxxxxxxxxxxxxxxxxxxxxxxxxxxxxxxxxxxxxxxxxxxxxxxxxxxxxxxxxxxxxxxxxxxxxxxxxxxxxxxxxxxxxxxxxxxxxxxxxxxxxxxxxxxxxxxxxxxxxxxxxxxxxxxxxxxxxxxxxxxxxxxxxxxxxxxxxxxxxxxxxxxxxxxxxxxxxxxxxxxxxxxxxxxxxxxxxxxxxxxxxxxxxxxxxxxxxxxxxxxxxxxxxxxxxxxxxxxxxxxxxxxxxxxxxxxxxxxxxxxxxxxxxxxxxxxxxxxxxxxxxxxxxxxxxxxxxxxxxxxxxxxxxxxxxxxxxxxxxxxxxxxxxxxxxxxxxxxxxxxxxxxxxxxxxxxxxxxxxxxxxxxxxxxxxxxxxxxxxxxxxxxxxxxxxxxxxxxxxxxxxxxxxxxxxxxxxxxxxxxxxxxxxxxxxxxxxxxxxxxxxxxxxxxxxxxxxxxxxxxxxxxxxxxxxxxxxxxxxxxxxxxxxxxxxxxxxxxxxxxxxxxxxxxxxxxxxxxxxxxxxxxxxxxxxxxxxxxxxxxxxxxxxxxxxxxxxxxxxxxxxxxxxxxxxxxxxxxxxxxxxxxxxxxxxxxxxxxxxxxxxxxxxxxxxxxxxxxxxxxxxxxxxxxxxxxxxxxxxxxxxxxxxxxxxxxxxxxxxxxxxxxxxxxxxxxxxxxxxxxxxxxxxxxxxxxxxxxxxxxxxx
u32 1e3 2580294052
-GNQD"UL_OGD%~QU#+a$JEmza:`u2GYMBE3{>jP
state
readable
ask 1
begin
begin
writable
u16 x
desc 1 1 1 1
u32 0x6d0 0
chain 65536
pop
question
event 1
put 62363 4294967297
state
question -
size 0x-1
state
u16 0x6d2 1
writable
sum
u32 0x0000fffffffffffffffd 1582
dump 1084 38
size 4
pop
question
ready 0b1
begin
fill 1730 18446744073709551615 7
state
walk
region 9223372036854775808 9223372036854775808 1
pop
next
question
pop
question
pop
readable
state
region 0xffffffffffffffff 0x0 0
region 2 4 14250501785262160396
bytes 0x1317E04FEB0B0C 0x000000000000000000de 0x100 172
memory 1e3
valid
sum
size
ask
begin
u32 1747 0
u64 0 4
fill 1746 0xffffffffffffffff 7
region 1099511627776 2 0x3bc
region 1e3 3529190383290654 6151584323894655
valid 0
table 0
bytes 1746 0 0
question# comment
put 19239 0x100000fff
used 99999999999999999999 99999999999999999999 99999999999999999999
dump 0x1e4c6a8bb8dc70 0x1100
desc 0x14F4CC1C976E4F 4056169543587612 0x18d59a48 43396 x
stat
bytes 1552458420792280 168 256 120
queue x x
next-used
next 1
valid
	valid	
pop
question
state
sum
sum
u16 9223372036854775808 1
state
state
chain 0 0
pop
readable
question
dump 0x0000000000000000043c 70
pop
^1JZXif/3vM1Sn`{-R
u16 1747 1
begin
memory 2097152
pop
question
u64 1744 0
u64 0x8000000000000000 0
u32 3688856136649338 1e3
pop# comment
 	
u64 1746 0
sum
state
sum
u64 0x6ca 0
pop
dump 1084 38
begin
begin
pop
u64 18446744073709551616 0x142b4eb9f6dec3
valid
begin
u16 0x6d1 1
pop
next
question
Memory
put 65537 354231093
put:
u16 1746 1
begin
head
walk
writable
writable
u16 1223 47383
u32 0x5a 4139044693
bytes 1092 0x1 0 0x00000000000000000000 0
next x
state
valid
begin
head
head
 	
desc 1745 0 0 0 0
desc 0x6d2 0 0 0 0x0
begin
next
back
back
head
writable
next
bytes 216 18
head
bytes 01095 00008
next
readable
Fy<G_h+~#0@qpz7FDYd&
state
used 0x601 0
region 3856790617996575 0x13A018BA902BEB 0x10000000000000001
fill 0x6d0 1 0
u32 0x6d2 0
writable
	valid	
begin
Memory
state
readable -
bytes 1746 0 0
fill 0x39850fbf23bae 18446744073709551616 28
pop
next-avail 4
stop
fill 18446744073709551615 2 0x00000000000000000000
table 0x100000000 3520144725
pop
question
sum 99999999999999999999
region 0 0 0
state
sum
readable
dump 1084 22
table 1 1 1
pop
pop
next
state
sum
memory 358
region 0x2570CAC37C2A7C 24 0
region 10538590303693460 194 24
region 10538590303693296 70 0xda
region 0x2570cac37c2a36 70 288
queue 4
table 3279694320 -
table - 0x2570ca
avail 0xc37c2a30 -
avail - 2453706
used 3279694400 -
used - 2453706
ready 1
valid
next-avail 54336
u16 284 0x0000000000000000d440
next-used 54336
bytes 0x67 0x51 48 10 40 169 209 168
begin
back
ready 00001
bytes 9223372036854775808 6 0x9
begin
next
region 0x2570cac37c2a02 0x48 0x00000000000000000054
next
next
head
head
u16 0x11c 54340
desc 0xfa 253728 0xffffffff 1 0x2
pop
next
put 0 0
sum
u32 328 0x6450BC8A
state
state
bytes 14 184 00104 251
dump 298 2
readable
u32 102 2477380349
u16 278 47680
u16 284 0xd445
desc 218 0xef5850a889792104 0x0000000000007fffffff 1 0
size 8
ask
region 0xe0 0 216
u16 126 0x00000000000000003ce4
chain 0x00000000000000000000
dump 314 0xda
reset
pop
question
valid
readable
reset
chain 0x2
region 1 3 13098690099511114410
u64 00293 0x696957de22e39cb5
u16 258 0xEB9B
ask
pop
u16 3 0
begin
u16 121 2265
back
next
sum
event 1
pop
pop
next
put 0 4294967295
put 0x00000000000000000001 512
put 4 32
fill 135 23 0xf0
reset
pop
ask
state
u64 46 0x2602DC238E3CC8FA
readable
u16 88 9826
size 0x87
state
fill 9 0x00000000000000000001 254
pop
bytes 0xffffffffffffffff 9 128
u32 0x10f 897822746
pop
chain 65535
next
next
region 0 358 0
avail 4294967294 4294967295
desc 16 15421759347743187135 0 24945 1
chain 0
readable
pop
begin
u64 0xfffffffffffffffd 3
dump 6 256
u32 335 7
bytes 5 1 128
state
pop
state
pop
pop
next
stop
avail 0xfffffffe 0x000000000000ffffffff
u16 0 0x4
readable
u64 49 0x9babf90d3ac5b062
u16 0x0 2
u16 221 0x7a76
stop
chain 194
pop
u16 17 0x243a
bytes 0 5 0
pop
question
avail 7 -
avail - 00000
put 0x7c 0x00000000000000000165
u16 55 64714
begin
size 0xfffd
fill 313 4 0x00000000000000000091
next
u16 7 32768
state
sum
memory 458
queue 0x1
table 0 0
avail 16 -
avail - 00000
used 24 0
ready 1
valid
next-avail 65535
u16 18 0xFFFF
next-used 0xffff
event 1
pop
question
question
pop
pop
bytes 0 0x60 35 4 0 0x0 0x0 0 0 1 0 0 0 2 0 0 0
u16 20 0
u16 0x12 0
u16 22 65531
state
begin
head
head
head
put 0 0
put 0 512
pop
pop
question
bytes 0 0xa0 00255 255 255 255 00255 0xFF 255 0 16 0x0 0x0 0 0x00000000000000000000 0 0
u16 20 0
u16 18 1
begin
head
bytes 0x00000000000000000008 0 0 0x0 128
put 0 1
pop
chain 0
next
next
begin
bytes 8 1 0 0 00000
region 10 0x1ca 0x0
pop
bytes 0 0 0 0x00000000000000000002 0 0 0
u16 10 00000
u16 8 2
question
back
bytes 0 0x00000000000000000000 0x0 0x00000000000000000000 0 0 0
u16 10 0
u16 8 3
begin
ask
bytes 0x00000000000000000000 0 0 2 0x0 0 0
u16 10 0
u16 8 4
ask
stop
ask
begin
next
back
back
next
bytes 132 210 0x42 194 155 179 0x000000000000000000f0 130 146 0x3B
head
head
head
next
walk
next
next
pop
question
begin
begin
bytes 0 255 127
head
back
readable
u16 8 65533
bytes 0x0 1 0 2 0x0 0 0
u16 10 0
u16 8 65534
head
put 0x1 2147483648
begin
back
question
begin
begin
begin
pop
question
region 64 0x2 312
begin
stop
bytes 00008 0xfc 0x000000000000000000ff
bytes 00000 0 0x0 2 0x0 0x0 0
u16 10 0
u16 8 65533
ask
dump 00014 12
pop
readable
put 0 4294967295
question
begin
head
head
bytes 27 0x00000000000000000000
bytes 0x0 00000 0 0 0 0 0
u16 10 0
u16 8 0x0000000000000000fffe
u16 12 0x00000000000000000001
ask
dump 0xe 12
state
put 0 32
put 0 0
put 0 4294967295
put 0 32
put 0 0
state
chain 1
next
readable
begin
head
back
back
readable
walk
next
next
head
head
writable
next
writable
next
bytes 0 1 0 0 0 00000 0
u16 00010 0
u16 0x8 0xffff
put 0 0
put 0x0 0x1020304
put 0 00512
sum
begin
writable
head
bytes 0 0 0
walk
head
u64 0x22 0x7c0fcd53b80892f9
head
back
fill 00273 6 26
put 0 2147483648
dump 0x0000000000000000000e 2
begin
writable
head
put 0x00000000000000000000 16909060
begin
back
bytes 0xc 33
bytes 12 15 0
pop
next
put 0 512
dump 0xe 70
u16 12 17
state
bytes 0 0x00000000000000000000 0 0 0 0 0
u16 00010 00000
u16 8 0
u16 0xC 13
bytes 12 14 0x80
avail 16 00000
walk 1
state
state
u16 6 00000
pop
next
put 0 512
question
begin
head
head
head
head
state
dump 14 4
u16 12 14
bytes 0 1 0 0 0 0 0
u16 10 0
bytes 8 1 0
begin
writable
writable
u64 0x156 7534924502720608502
head
writable
next
next
walk
next
put 0 0x200
state
begin
next
next
next
head
writable
head
head
bytes 0 0x0 0x0 2 0 0 0
u16 10 0
u16 8 2
head
head
head
head
question
begin
head
head
head
head
head
head
head
fill 302 11 59
bytes 0 1 0 0x2 0 0 0
u16 10 0
u16 0x00000000000000000008 3
state
sum
memory 0x714
queue 8
table 0 0
avail 192 -
avail - 0
used 00280 0
ready 1
valid
event 1
u16 194 65534
state
bytes 1221 112 0x52 43 201 243 33 24 89 242 57 176
state
bytes 66 0x8
u16 0xc2 0
desc 32 799216 512 0x00000000000000000003 0x00000000000000000005
desc 0x50 18446744073709551301 65536 1 4
desc 64 18446744073709547859 0x10 1 3
desc 48 18446744073709551278 512 0 0
bytes 0xc4 2 0
u16 194 1
u16 198 3
u16 194 2
begin
bytes 53 0x0
dump 192 22
begin
bytes 342 0x20
stop
begin
head
desc 96 18446744073709549355 0x00000000000000000001 00003 3
desc 48 1037808 1 0 0x0
u16 0xc8 6
u16 0xc2 3
head
head
head
bytes 0x12a 4
next
next
put 3 4294967295
u16 0xc2 10
u64 1691 0x987f6f360d1a1746
chain 4
next
walk
pop
put 6 1
question
u16 0xc2 3
put 7 0x00000000000000000001
u16 202 1
u16 194 4
bytes 0x43F 145 64 217 0x8 00024 0x3A 0xe9 107 0x00000000000000000080 0xa9
state
pop
next
readable
put 0x00000000000000000001 512
u32 425 3690307586
u16 00204 1
u16 194 5
pop
next
put 1 16909060
desc 16 0xae60 1 5 32768
pop
next
question
desc 112 0x00004c5a8124586cdfee 65536 3 0
desc 0 18446744073709547865 0x00000000000000000200 3 1
desc 16 1046720 0x1 3 2
desc 32 0xfffffffffffff3b6 0 0x1 5
desc 80 215104 0 0 0
u16 0xce 7
u16 0xc2 6
u16 484 11536
u16 194 3
begin
head
region 0xb4 40 510
pop
put 0x4 0x20
state
state                                                                                                                                                                                                                                                                                                                                                                                                                                                                                                                                                                                                                                                                                                                                                                                                                                                                                                                                                                                                                                                                                                                                                                                                                                                                                                                                                                                                                                                                                                                                                                                                                                                                                                                                                                                                                                                                                                                                                                                                                                                                                                                                                                                                                                                                                                                                                                                                                                                                                                                                                                                                                                                                                                                                                                                                                                                                                                                                                                                                                                                                                                                                                                                                                                                                                                                                                                                                                                                                                                                                                                                                                                                                                                                                                                                                                                                                                                                                                                                                                                                                                                                                                                                                                                                           
bytes 537 1
pop
question
begin
readable
next
back
next
head
head
next
u16 542 32772
pop
question
pop
u16 0x20e 6
u16 0x20c 1
pop
question
pop
pop
next
question
chain 7
writable
begin
u16 524 12
pop
next
put 0x0 16909060
pop
next
put 256 0x00000000000000000020
begin
head
head
bytes 1130 0x9a 145 0xF0 00160 0x000000000000000000a9 0xdb 17 0x93 66 194 160
put 0 512
put 0 2147483648
chain 0x1
readable
begin
u16 534 0
u16 00524 0x0000000000000000000d
u16 0x218 0x00000000000000000000
u16 0x20c 14
begin
next
readable
head
u16 538 0x00000000000000000000
u16 524 15
put 6 32
bytes 534 1
state
chain 5
readable
state
bytes 540 7 0
bytes 524 16 0
pop
next
put 0 32
u16 524 0x00000000000000000012
pop
next
put 0 4294967295
question
question
u16 530 00009
u16 524 19
stop
u16 524 11
u16 532 2
bytes 524 12 0
pop
next
put 0x00000000000000000002 0
pop
u16 705 0x9874
pop
pop
question
u16 0x216 9
u16 524 13
u16 536 7
u16 0x0000000000000000020c 0xE
pop
readable
put 9 512
question
state
u16 0x21e 4
state
sum
memory 290
queue 1
size 1
table 0 0
avail 0x1e 0
used 16 -
used - 0
ready 1
valid
stop
bytes 0 0 45 8 0 0 0 0 0 1 0x0 0 0x0 0 0x0 0 0
bytes 34 00000 0
u16 32 1
pop
next
next
put 00000 2147483648
begin
head
head
back
bytes 0x4b 9 3 16 129 57 59 67 40 251
head
head
next
head
put 0 512
put 0 4294967295
chain 65535
next
next
ask
u16 34 0x8000
bytes 32 0x00000000000000000002 0
u16 34 32768
u16 32 3
ask
chain 2
writable
u16 200 2751
desc 0 0xfffffffffffff599 4294967295 0 00000
pop
u16 32 1
desc 0 266400 0 0x00000000000000000000 0
u16 34 0
u16 32 00002
stop
state
begin
bytes 8 0 0 0x00000000000000000000 128
head
put 0 16909060
bytes 5 2
bytes 0 255 0x5c 31 156 1 0x7a 0x4d 176 0 2 0 0 0 0x00000000000000000000 0 0
bytes 34 0 0
u16 32 3
ask
u16 34 0
u16 32 4
pop
bytes 6 140
u16 32 2
desc 0x00000000000000000000 7764822978813321063 16 0 0
u16 34 0
u16 0x20 3
put 0 32
state
pop
next
walk
readable
put 0 00032
question
desc 0 0x597a0 4294967295 0 65535
bytes 18 29
bytes 00034 0 0
u16 32 4
bytes 8 255 255 255 255
bytes 26 6
bytes 00000 64 165 8 0 0 0 0x0 0 0xff 00255 0xff 127 0x0 0 0 0
u16 0x20 4
pop
next
next
put 0 32
question
pop
question
bytes 30 4
begin
bytes 0x8 255 0xff 0xff 127
next
u64 285 12122314970733099150
head
fill 0xf6 13 251
head
head
bytes 31 69
pop
begin
region 14 290 0
bytes 16 00001
begin
u16 18 32772
begin
u16 0x00000000000000000012 4
bytes 0 0 0
u16 20 0x0
u16 18 5
back
head
back
u64 0xf5 0xb6a19ad26caccdf2
head
bytes 0x0 0 0
u16 0x00000000000000000014 0x0
u16 18 6
stop
pop
question
u16 18 2
bytes 0 0 0
u16 20 0
u16 18 3
begin
head
next
head
next
u32 0xee 0x0000000000003d1031b7
head
head
head
head
bytes 0 0 0x0
u16 20 0x0
u16 18 4
put 00000 1
chain 0
next
put 0 0
state
state
sum
memory 669
queue 8
table 0 -
table - 0
avail 144 -
avail - 0x00000000000000000000
used 600 0
ready 1
valid
next-avail 0xfffe
u16 0x00000000000000000092 0xfffe
next-used 65534
chain 8
next
next
desc 32 542208 1 3 1
u16 160 9
bytes 0x92 255 255
desc 00032 411472 0x00000000000000000010 1 4
desc 64 18446744073709549112 512 3 0x0
desc 0 8641510590947761957 16 3 7
desc 112 0x00000000000000027ae0 512 3 6
desc 0x60 14423903179993059495 65536 3 1
desc 16 705280 1 2 0
u16 162 2
u16 0x92 0
desc 80 18446744073709550626 4096 0x00000000000000000001 0x7
desc 112 18446744073709548179 65536 00002 0
u16 148 0x5
u16 146 1
back
u16 0x96 0x8000
u16 146 2
question
put 4 1
bytes 162 130
bytes 80 133 13 0x7b 48 145 74 120 111 0 16 0 0 0x3 0x0 0 0
state
bytes 49 32
desc 48 18446744073709547936 65536 3 1
desc 16 0xfffffffffffff1ef 0 3 6
desc 00096 1679628591023900036 0 3 00005
desc 80 0x1B5E6BBC02951196 512 2 0
u16 152 3
u16 146 3
begin
readable
next
walk
u16 669 0x60F
next
next
next
next
begin
head
back
head
next
writable
head
head
put 0 0x200
put 0 0x200
put 0x00000000000000000009 0x00000000000000000200
bytes 158 0x1
desc 16 105520 0 00001 2
desc 32 0x0000fffffffffffff04a 1 1 5
desc 80 10040190295518905186 16 3 4
desc 64 0x0000fe7a9be94f0f4942 4096 0x00000000000000000003 3
bytes 48 48 221 0 0 0 0x0 0 0 0 2 0 0 2 0 0 0
u16 154 1
u16 146 0x4
pop
next
next
next
next
put 5 2147483648
stop
u16 156 32768
u16 146 5
question
pop
next
put 32768 00001
begin
next
back
back
head
back
put 5 32
bytes 159 8
pop
writable
put 5 0x00000000000080000000
question
pop
next
put 0x00000000000000008000 4294967295
question
begin
head
put 3 0
bytes 661 1
bytes 92 152
bytes 00602 6
state
u16 0x92 32771
u16 154 7
u16 146 0x8004
pop
dump 600 0x45
desc 48 0xfffffffffffff77a 65536 0 0
u16 156 0x00000000000000000003
u16 146 0x8005
u16 146 0x8003
pop
state
begin
bytes 605 1
chain 4
walk
next
begin
bytes 58 176
bytes 6 63
bytes 10 1
bytes 475 48 0xbb 66 26 105 40 00178 251 0x000000000000000000f1 0x00000000000000000048
stop
put 5 2147483648
pop
desc 80 0xa9a70 1 1 7
desc 0x70 955408 16 1 1
desc 16 622784 0x200 0x1 0
desc 0 22976 00016 1 2
desc 32 68400 65536 1 3
bytes 48 242 241 255 0xff 255 255 255 255 16 0 0 0 1 0 6 0
desc 0x60 0xb5c20 0x00000000000000000010 0x3 0x4
desc 64 18446744073709547927 0x1000 2 0
u16 0x9a 5
u16 146 0x8004
u16 0x92 1
bytes 32 208 178 2 0 0 0 0x0 0 16 0 0 0 1 0 0 0
desc 0 444096 512 1 7
desc 112 933904 1 1 4
desc 64 0xb7ff0 0x200 2 0
u16 0x96 2
u16 146 00002
bytes 0x38 0x0 0 0 128
pop
pop
walk
walk
question
pop
next
bytes 48 160 233 4 00000 0 0 0x0 0 0 0 0 0x0 3 0 9 0
u16 146 3
desc 32 648304 4096 3 1
desc 0x00000000000000000010 680608 512 3 6
desc 96 0x200a0 512 0x00000000000000000003 4
desc 0x40 0x93800 4096 3 0x00000000000000000000
desc 0 9792 1 3 7
desc 0x70 806480 1 3 5
bytes 80 147 00177 241 189 11 235 20 00205 0 2 0 0x00000000000000000000 3 0x0 3 0
desc 48 0xfffffffffffffd18 0x10 2 0
bytes 154 2 0
u16 146 0x4
bytes 26 1
begin
head
fill 354 00014 98
writable
desc 16 77696 0x200 1 5
desc 0x50 902560 0 1 4
desc 64 508620254387956496 0x1000 1 6
desc 96 0x8e6e0 0 1 2
desc 32 0xdfaf0 0x10000 1 7
desc 112 17901391598348321518 4096 1 0
desc 0 411040 4096 3 3
desc 48 0x88B31135459B94C5 1 2 0
u16 0x9c 1
u16 0x92 0x5
head
head
next
next
next
next
next
next
writable
head
put 2 512
bytes 20 1
begin
head
head
put 1 2147483648
state
state
sum
memory 1838
queue 0x00000000000000000002
table 0 -
table - 0
avail 64 -
avail - 0
used 108 0
ready 1
valid
next-avail 29624
u16 66 0x73b8
next-used 29624
event 1
u32 48 1396862178
begin
bytes 0x0000000000000000007a 1
bytes 112 1
next
writable
writable
head
head
put 1 16909060
chain 3
writable
region 0 1838 0x00000000000000000000
desc 16 18446744073709547959 65536 2 0x0
u16 68 1
u16 66 29625
u16 72 29627
begin
fill 0x42c 00012 249
bytes 24 0 0 0 00000
head
head
u32 01211 0x3c3fc0ba
back
head
put 1 0
put 1 1
desc 0 0xf89d0 4294967295 0 0
question
bytes 69 1
begin
head
walk
next
head
pop
question
bytes 69 0x10
desc 00016 0xfffffffffffff210 1 0 0
u16 70 0x1
u16 0x42 29626
bytes 24 0x6d
pop
next
readable
put 1 32
question
bytes 0x7d 0xd9
pop
question
pop
question
desc 16 229360 1 2 0
u16 68 1
u16 66 29627
desc 16 531328 4096 2 0
bytes 70 0x1 0
u16 66 29628
begin
bytes 0x77 0x00000000000000000019
u16 1664 14081
bytes 0x75 1
head
back
head
next
put 1 16909060
begin
next
desc 0 18446744073709550713 1 1 1
bytes 16 0xdd 0xd8 00010 97 0x2d 3 0x3e 0x78 0x00000000000000000000 0 1 0 0 0 0 0x00000000000000000000
u16 68 0
bytes 0x42 189 00115
head
head
bytes 0x18 1
put 1 0x1020304
question
u64 56 7496487560845618636
pop
next
put 0 0xffffffff
bytes 65 0xf2
state
pop
question
bytes 70 0 0
u16 66 0x73be
chain 2
next
desc 0 1906951550836189886 4294967295 1 0
pop
put 0 4294967295
state
u16 72 29633
state
bytes 0x47 1
chain 3
bytes 0x1fe 219 0 209 51 0x23 0xE0 153 163 208 115 152 64
desc 16 1462179832449183151 16 3 0
desc 0 565712 0x1000 2 0
u16 0x44 1
u16 66 29631
put 1 0
u16 0x48 0x73c3
u16 70 0x0000000000000000ffff
u16 0x00000000000000000042 0x73c0
state                                                                                                                                                                                                                                                                                                                                                                                                                                                                                                                                                                                                                                                                                                                                                                                                                                                                                                                                                                                                                                                                                                                                                                                                                                                                                                                                                                                                                                                                                                                                                                                                                                                                                                                                                                                                                                                                                                                                                                                                                                                                                                                                                                                                                                                                                                                                                                                                                                                                                                                                                                                                                                                                                                                                                                                                                                                                                                                                                                                                                                                                                                                                                                                                                                                                                                                                                                                                                                                                                                                                                                                                                                                                                                                                                                                                                                                                                                                                                                                                                                                                                                                                                                                                                                                          
u16 72 29632
pop
next
readable
put 1 00512
question
desc 16 0x45260 0 0x00000000000000000003 0
desc 0 8898347268396123190 16 2 0
u16 68 1
u16 66 29633
begin
head
head
u64 470 0xd5ab1a504a6d0f40
next
next
next
head
next
bytes 24 255 255 0xff 0x7f
next
bytes 8 48
put 1 0
desc 00000 0x488e0 00000 0 0
u16 0x46 0
u16 66 29634
bytes 73 116
bytes 0x11 0x53
begin
next
head
region 62 24 01736
head
head
bytes 1482 0x5b 0x7a 171 66 00187 240 169 88 00161
head
head
head
put 0 4294967295
u16 00068 0x0
u16 0x00000000000000000042 29635
desc 0 394912 65536 2 0
u16 70 0
u16 66 29636
begin
walk
head
walk
head
bytes 1577 0x93 00123 74 18 120 32 0xca 152 96 137
put 0 0xFFFFFFFF
put 0 4294967295
state
back
desc 0x0 0xe76019a5de72474e 1 1 1
desc 16 294368 0x200 0 0
u16 0x44 0x0
u16 0x42 29637
bytes 773 122 10 81 42 0xd9 83 72 51 80 184
state
u16 0x46 0
u16 66 29638
u16 68 1
u16 66 0x73C7
question
state
pop
pop
begin
u16 0x46 0x8000
u16 66 0x73c8
desc 16 758832 1 3 1
bytes 0x41 243
pop
writable
bytes 0x45 1
valid
begin
u16 66 29635
bytes 16 0xd0 142 0x2 0 0 0 0 0 0 0 0 0 0 0 0 00000
u16 70 0x00000000000000000001
u16 66 29636
begin
head
back
next
next
u16 197 13103
head
head
put 1 32
put 1 0x00000000000000000200
u16 0x44 2
u16 0x00000000000000000042 0x73C5
state
sum
memory 0x3ef
chain 0x8000
queue 32768
size 0x2
table 960 0
avail 144 0
used 268 0
ready 1
valid
begin
head
head
desc 976 0xffffffffffffff83 512 1 0x00000000000000000001
u16 148 1
bytes 146 1 0
desc 960 504448 4096 1 0x1
desc 976 0x28350 1 1 00000
u16 150 0
u16 146 2
head
next
next
head
desc 976 0xfffffffffffffb00 0 0 0xffff
bytes 0x0000000000000000010c 1
chain 0
readable
writable
chain 65535
next
desc 976 18446744073709547593 0x7fffffff 65257 1
chain 0
next
next
next
pop
next
put 1 4294967295
pop
put 00000 0x80000000
question
chain 1
next
walk
desc 976 18446744073709550838 0x10000 1 00000
desc 960 0x2f79883e9f86e482 1 1 0
u16 148 1
u16 146 3
desc 960 0xFFFFFFFFFFFFF110 0x7fffffff 1 1
bytes 968 0 0 0 128
begin
next
next
readable
head
put 1 32
state
desc 976 18446744073709549043 16 1 0x1
u16 150 0x1
bytes 146 4 0
bytes 274 1
bytes 00968 255 255 255 127
chain 0
readable
next
writable
bytes 968 255 255 0xff 0x7f
desc 0x3c0 89600 04096 1 0
u16 148 0
u16 0x92 5
bytes 968 0 0 00000 0
chain 1
writable
walk
chain 0
next
next
next
chain 0
next
writable
readable
pop
readable
put 0x1 0
question
pop
next
next
put 0 0
question
begin
u64 601 0x2f12dc6c224f1c
next
head
next
head
desc 960 0xe0d92b65fa3fdc0 512 1 1
desc 976 184800 04096 3 1
u16 150 0
u16 0x92 6
next
readable
bytes 151 1
chain 1
next
next
next
chain 1
next
next
next
next
next
next
bytes 0x3c0 0 0xF8 12 0x0 00000 0x00000000000000000000 0 0 0 16 0 0 00001 0x00000000000000000000 1 0
desc 976 0xd8f70 16 3 0
u16 148 00000
u16 00146 7
walk
bytes 0x3c8 0x1 0 0 00000
chain 0
next
next
chain 1
next
next
bytes 0x3D0 74 0x31 185 146 178 155 0xa9 48 0xff 255 255 255 105 0xb9 0 0
state
desc 00960 34176 2147483647 0 0
begin
head
desc 960 13136022493931774459 0 1 1
desc 976 14765022893393403445 0x200 3 0
u16 150 0
u16 146 8
back
walk
next
put 256 512
state
pop
writable
begin
bytes 968 0xff 255 00255 127
writable
writable
readable
state
u64 0
begin
begin
chain 1
next
next
writable
begin
bytes 967 54
desc 960 0x63440 0x10000 1 0
bytes 148 0 0
u16 0x92 9
bytes 0x3c8 1 0 0 0
7vR
begin
walk
desc 0x3d0 0x53c50 0x10 3 1
u16 150 1
bytes 146 10 0
bytes 146 5 0
desc 960 0xfffffffffffffc14 0 1 1
desc 976 0x7a3b2832cc75c43b 1 3 0
u16 150 0
u16 0x92 6
bytes 0x3c0 0xaa 248 255 255 255 0xff 0x000000000000000000ff 0xff 0 16 0x00000000000000000000 0x0 0x3 0 0 0
u16 148 0
u16 146 7
state
desc 976 18446744073709550773 0x7fffffff 3 0
pop
writable
put 0 512
question
desc 960 0xece00 0 2 32768
chain 0x1
next
next
next
chain 0
desc 0x3d0 18446744073709547574 2147483648 3 0
bytes 148 4
bytes 0x3d8 0x0 0 0 128
pop
next
put 4 1
question
state
sum
memory 0x00000000000000000746
region 624 88 0
region 712 36 88
region 748 0x54 124
region 832 8 0xd0
region 0x348 0x4dc 0xd8
region 2084 00402 1460
queue 8
table 624 0
avail 0x300 0
used 808 0
ready 1
valid
next-avail 0xfffe
u16 146 0x0000000000000000fffe
next-used 65534
event 1
dump 184 70
dump 0x90 0x4
pop
desc 80 205376 2147483647 1 3
desc 48 18446744073709550892 1073741824 1 0x6
desc 96 0x15240 1 3 0
desc 0 0xbe0ec77ba3207b 0 3 7
desc 0x70 13957746671731775873 536870911 3 4
desc 64 18446744073709551198 536870912 3 2
desc 00032 583984 0 2 0
u16 160 5
u16 0x92 0xffff
state
pop
next
walk
readable
next
put 0x5 00512
desc 80 0x00000000000000054070 2147483648 1 6
desc 96 0xf7230 2147483646 1 1
desc 16 16210417258147309342 0 0 0
u16 162 5
u16 146 00000
pop
next
next
put 5 32
valid
pop
question
state
desc 96 15331262156304180288 2147483647 1 00005
desc 80 0xcebe0 2147483648 00001 2
desc 0x00000000000000000020 18446744073709550016 0 3 0
bytes 0 180 0xfe 0xFF 0xff 255 255 255 255 0 0 0 0 3 0 4 0x00000000000000000000
desc 64 18446744073709549726 0 3 00003
desc 48 9580824489800755423 0 3 00007
desc 0x70 183088 0 2 0
u16 0x00000000000000000094 0x6
u16 146 1
desc 0x70 10402199335065872545 1 1 2
desc 32 16103927876687452085 2147483648 1 1
desc 16 546288 1073741823 0x1 00005
desc 80 0xa4616cc844cff955 1073741823 0 0
u16 00150 0x7
u16 146 2
begin
back
bytes 0x00000000000000000018 0 0 0 0
bytes 72 0 0 0 0x00000000000000000080
head
head
head
walk
bytes 8 1
put 5 1
put 6 0x200
desc 0x60 0x000007d7c570634e923a 4294967295 1 2
desc 0x20 0x941f0 0 1 7
desc 112 4930491885368034618 0 1 1
desc 16 407507117641883135 0 3 5
desc 80 0xbad30 0 3 0
desc 0x0 234448 0 3 4
desc 64 18446744073709548210 0 3 3
desc 48 18446744073709548125 0 2 0
bytes 152 6 0x00000000000000000000
u16 0x92 3
begin
bytes 24 1 0 0x00000000000000000000 0
head
head
next
bytes 0x3d 18
head
put 6 512
desc 112 116880 1 1 1
desc 16 367680 0x7fffffff 1 3
desc 48 17537612968997591342 0x40000000 1 4
desc 00064 11561118601136548090 0x40000001 1 0
desc 0x0 0xddfb0 0 0x00000000000000000002 0
u16 154 7
u16 146 4
begin
bytes 104 0 0x0 0 0x80
state
desc 0x50 18446744073709548669 2147483648 0x1 3
desc 0x30 610288 2147483648 1 0
bytes 0 48 121 7 0 0 0 0 0 0 0 0 0x0 1 0x00000000000000000000 00002 0
desc 32 0xFFFFFFFFFFFFFD4E 0 0x1 0x1
desc 16 0x706b0 0 1 4
desc 64 0x000000000000000b2f50 0x00000000000000000000 0 0
u16 0x9c 00005
u16 146 5
sum
begin
head
head
next
writable
put 7 16909060
begin
head
head
next
desc 48 8637458419913184966 0 1 4
desc 64 962416 2147483647 1 00006
desc 96 0x36330 1 1 0
desc 0 578608 2147483647 0 0
u16 158 3
u16 146 0x6
pop
next
next
put 0x00000000000000000003 4294967295
pop
question
pop
desc 112 0x9da96aeefa086a48 0 1 0
desc 0 0x17fa0 2147483647 1 6
desc 96 18446744073709547562 0 3 2
bytes 32 0x2 249 0xff 255 255 255 0xff 255 0 0x0 0 128 2 0 0 0
u16 0xa0 7
u16 0x92 7
pop
walk
put 7 0x1020304
begin
head
desc 32 0xd4ed1fd6dc331be1 2147483647 1 4
desc 64 3099416963426831728 2147483648 1 3
desc 48 0xa6bd0 0 3 0x1
desc 16 2458876235998567093 0 3 6
desc 96 0x0000fffffffffffff900 0 3 0
bytes 0x00000000000000000000 93 0xac 74 228 23 00007 205 0x72 0 0x00000000000000000000 0 0 3 0 0x5 0
desc 80 18446744073709548322 0 3 0x00000000000000000007
desc 0x70 1524906716517248671 0x00000000000000000000 2 0
u16 162 2
u16 0x92 0x8
bytes 0x77 00085
head
back
desc 0 0x2ff019e52b5a7057 4294967295 0 0
u16 148 0
u16 146 9
begin
head
bytes 0x68 0x00000000000000000001 0 0 0
writable
head
head
head
head
head
head
put 7 1
put 0 0x200
pop
question
pop
question
state
pop
desc 32 931568 2147483648 1 5
desc 0x50 0xeee9b0fdc8324f36 0x40000000 1 00007
desc 0x70 0xffffffffffffffd9 0x40000000 0 0
u16 150 2
u16 0x92 0x0000000000000000000a
pop
readable
put 2 1
avail - 0
memory 0xg
state
question
state
desc 96 0x55f30 0xffffffff 1 5
desc 0x50 4074573432356469405 0 1 0x3
desc 48 0xe6a20 1 1 2
desc 32 973632 0 1 1
desc 00016 991104 0 2 0x0
u16 0x98 6
u16 0x92 11
begin
next
next
valid
bytes 0x90 255 0xff
begin
readable
head
head
walk
next
head
bytes 0x68 0 0 0 0
put 0x00000000000000000006 1
state
sum
memory 1499
region 14643686796092032 998 440
region 14643686796093030 500 840
queue 1
table 0xfffffff0 4294967295
avail 4294967292 4294967295
used 95347512 0x34065b
ready 1
valid
pop
pop
pop
question
u32 1384 2645472218
pop
dump 624 0x4
begin
begin
head
head
head
head
head
head
next
next
region 14 34 0x5b0
state
pop
pop
sum
state
pop
question
begin
begin
head
u64 978 14670597982609441177
u32 00829 0xa6d896ce
pop
region 14 00074 780
back
question
u64 1417 0x341d0650e5129aff
pop
next
state
sum
put 0x0 2147483648
pop
walk
u16 0x319 0x79c7
begin
begin
begin
question
chain 0
readable
u32 307 1423240395
question
bytes 0x274 64
u32 1407 0x8e61f71a
chain 0x0
readable
dump 0x270 00004
chain 0
next
u64 1306 3894095784674735153
pop
question
pop
next
question
pop
begin
head
walk
next
begin
state
sum
memory 0x13e
queue 8
table 0x0 0
avail 128 0
used 0x98 0
ready 1
valid
next-avail 0xa7d4
u16 130 0x0000000000000000a7d4
next-used 42964
event 1
u16 148 0xa7d2
stop
question
stop
bytes 80 0xde 0xfe 0xff 0xff 0xFF 255 0xff 255 0 0 0 0 1 0x0 1 0
bytes 00016 178 75 155 0xEA 151 249 25 39 0 0 00000 0 1 0 7 0
desc 112 0x000000000000000890b0 0x1000 1 0
desc 0 0x7f700 4096 3 6
desc 96 18446744073709549758 16 3 3
desc 0x00000000000000000030 0x73350 65536 3 4
desc 64 0x80220 0x1000 2 0
u16 140 5
u16 130 42965
put 6 1
put 7 0xffffffff
pop
writable
put 00005 0x200
state
put 3 2147483648
pop
question
put 4 32
put 1 0x00000000000000000020
stop
put 7 0x80000000
question
put 7 0x80000000
dump 00128 0x46
ask
pop
next
next
next
next
question
put 2 4294967295
u16 0x00000000000000000094 42975
bytes 148 220 39
put 2 4294967295
bytes 0x94 222 0xa7
u16 128 00000
u16 130 42974
u16 128 0x00000000000000000000
desc 112 216384 512 1 00005
desc 0x50 930288 512 0x1 0
desc 0x0 0x0000fffffffffffffa37 512 1 4
desc 64 715424 16 1 2
desc 32 11857906820941563715 16 3 0x3
desc 48 250672 0x00000000000000000001 3 6
desc 0x60 0xfffffffffffffb4d 0x1000 0x00000000000000000002 0
bytes 144 00007 0
u16 130 0xa7df
u16 0x82 0xa7d5
desc 112 18446744073709547700 512 0x1 0
bytes 0 0x0000000000000000004a 0xf1 00255 255 255 0x000000000000000000ff 255 255 0 0 1 0 1 0 1 0x00000000000000000000
desc 16 0xac190 0x1000 00001 4
desc 64 35408 1 1 0x5
bytes 0x50 240 0xbf 1 0 0 0 0 00000 0x0 16 0 0 1 0x0 0x3 0
desc 48 306576 0x10000 0 0x00000000000000000000
bytes 142 00007 0
u16 0x82 42966
used 0x88 -
pop
next
next
put 7 0x20
bytes 148 226 167
u16 130 42967
put 6 512
put 0x2 0x00000000000000000001
put 5 2147483648
put 0x5 16909060
put 0x00000000000000000001 32
put 0xffff 512
put 0x00000000000000000007 512
put 2 0x00000000000001020304
put 2 2147483648
put 0 4294967295
bytes 0x00000000000000000094 0xe4 167
u16 0x94 42985
u16 0x94 42986
u16 0x82 42970
u16 0x94 0xa7e5
question
ask
u16 148 42986
question
u16 148 42986
put 4 1
put 7 2147483648
put 00006 0x80000000
put 4 0x20
u16 130 0xa7df
pop
question
u16 148 42987
state
sum
memory 440
region 16377565761254064 440 0x00000000000000000000
back
queue 0x400
size 2
table 763114160 -
table - 3813199
avail 763114192 0x3A2F4F
used 763114204 3813199
valid
next-avail 65533
u16 00034 65533
next-used 65533
event 1
ready 1
begin
head
head
head
back
used 0x0000000000002d7c32de 1
state
event 1
question
used 4294967268 1
size 4
dump 32 38
reset
size 4
table 0x2d7c32b0 -
table - 3813199
avail 763114192 -
avail - 3813199
used 0xffffffe4 1
ready 1
u16 38 4
u16 34 65534
state
put 3 0xffffffff
avail - 1
next-used 0xfff8
size 8
ask
chain 9
next
avail 0x2d7c32d4 -
ready 1
next-used 3
begin
next
head
bytes 0x00000000000000000048 255 255 00255 127
back
state
size 0x800
state
avail - 0x0
next-used 65529
next-used 0xffff
used 0 0x0
begin
readable
bytes 96 128
begin
avail - 1
size 1024
size 0x0
put 0x401 2147483648
size 0x400
size 3
state
sum
avail 2615278991 0
dump 0x00000000000000000000 2
used - 0
pop
question
question
avail 763114204 -
size 2
ready 0
event 1
state
table 763114128 -
chain 65535
next
next
walk
event 1
table 0xfffffff9 0
back
avail 2115962565 00000
valid
chain 1
size 6
begin
back
table 0x2d7c3290 3813199
event 1
event 1
put 0x00000000000000000000 0x1020304
put 0 0xFFFFFFFF
avail 4294967236 1
state
sum
memory 1062
queue 1
table 0 0
avail 00016 0
used 00024 0
ready 00001
valid
fill 9223372036854775808 0 0
queue 99999999999999999999 99999999999999999999
writable
I1<`D)&1"Y^iv9~`:Xe
pop
state# comment
u32 0x428 0x00000000000000000000
desc 0x00000000000000000422 0 0 0 0
state
next
bytes 1054 0 0
desc 1062 0 0 0 0
begin
head
next-avail +1
writable
begin
bytes 0x1d5 88 0xba 72 0xab 19 00211 0x49 0xb2 0xba 106 240
next
walk
head
back
back
head
back
head
head
put 0 2147483648
put 0 1
put 0 1
pop
question
-
begin
head
desc 0 18446744073709550552 512 0 0
u16 20 0
u16 18 1
walk
next
readable
back
region 22 52 480
readable
head
head
state
table 0 1
u16 1
	next	
region 0x10000000000 1064 0
dump 1061 16
avail 16 0xffffffff
region 0x10000000000 2 0x426
bytes 7 0xff 128
next
sum
u16 1 1 1
desc 8128623964146976 848114627840353 461701951 0b1 0xdb91
pop
desc 0x1528befaaf1440 -1 0x36C39D84 63097 52755
u32 0x1362747e6f4ff9 0x100000fff
question
state
begin
sum
state
next-
desc 0x426 0 0 0x00000000000000000000 0
u64 0 0 0
writable
state
next
readable
-
state
writable 1
state
-
dump x
stat
next
pop
question
u64 1062 0
ZH7BN[.Er>d?^>tNPJ,'j|HQ
u32 0x427 0
desc 1061 0 0 0 0
writable
desc 1058 0 0 0 0
desc 9223372036854775808 0 0 0 0x0
heads
u32 0x424 0
	next	
u32 9223372036854775808 0
bytes 0 0 0 0 0 0 0 0 0 0 0 0 0 0 0 0 0 0 0 0 0 0 0 0 0 0 0 0 0 0 0 0 0 0 0 0 0 0 0 0 0 0 0 0 0 0 0 0 0 0 0 0 0 0 0 0 0 0 0 0 0 0 0 0 0 0 0
region 1099511627776 2 1006
state
next
bytes 9223372036854775808 255 5
region 1099511627776 0x428 0
u64 0x00000000000000000424 0
begin
head
head
next
begin
writable
next
next
u16 0x00000000000000000002 0x418f
head
state
writable
next
readable x
pop
begin
dump 1061 256
state
avail 7 -
avail - 0
begin
begin
head
head
state
ready 1
pop
question
event 1
QUEUE 8
dump 482 2
ask -
u32 0x427 0
bytes 0x63da10bf1287c 120 256 64
stat
state
state
error:
region 64 00002 1054
fill 01046 2 0
@Z5
writable

put 0 0 0
pop
question
valid
region 18446744073709551614 4 0
next-avail 1e3
u32 1058 0
	back	
u32 0x425 0
pop x
used 4294967297 230046123
head
bytes 1062 0 0
fill 1058 16 0
ready 2
dump 0x1E2 12
nothing xxxxxxxxxxxxxxxxxxxxxxxxxxxxxxxxxxxxxxxxxxxxxxxxxxxxxxxxxxxxxxxxxxxxxxxxxxxxxxxxxxxxxxxxxxxxxxxxxxxxxxxxxxxxxxxxxxxxxxxxxxxxxxxxxxxxxxxxxxxxxxxxxxxxxxxxxxxxxxxxxxxxxxxxxxxxxxxxxxxxxxxxxxxxxxxxxxxxxxxxxxxxxxxxxxxxxxxxxxxxxxxxxxxxxxxxxxxxxxxxxxxxxxxxxxxxxxxxxxxxxxxxxxxxxxxxxxxxxxxxxxxxxxxxxxxxxxxxxxxxxxxxxxxxxxxxxxxxxxxxxxxxxxxxxxxxxxxxxxxxxxxxxxxxxxxxxxxxxxxxxxxxxxxxxxxxxxxxxxxxxxxxxxxxxxxxxxxxxxxxxxxxxxxxxxxxxxxxxxxxxxxxxxxxxxxxxxxxxxxxxxxxxxxxxxxxxxxxxxxxxxxxxxxxxxxxxxxxxxxxxxxxxxxxxxxxxxxxxxxxxxxxxxxxxxxxxxxxxxxxxxxxxxxxxxxxxxxxxxxxxxxxxxxxxxxxxxxxxxxxxxxxxxxxxxxxxxxxxxxxxxxxxxxxxxxxxxxxxxxxxxxxxxxxxxxxxxxxxxxxxxxxxxxxxxxxxxxxxxxxxxxxxxxxxxxxxxxxxxxxxxxxxxxxxxxxxxxxxxxxxxxxxxxxxxxxxxxxxxxxxxxxxxxxxxxxxxxxxxxxxxxxxxxxxxxxxxxxxxxxxxxxxxxxxxxxxxxxxxxxxxxxxxxxxxxxxxxxxxxxxxxxxxxxxxxxxxxxxxxxxxxxxxxxxxxxxxxxxxxxxxxxxxxxxxxxxxxxxxxxxxxxxxxxxxxxxxxxxxxxxxxxxxxxxxxxxxxxxxxxxxxxxxxxxxxxxxxxxxxxxxxxxxxxxxxxxxxxxxxxxxxxxxxxxxxxxxxxxxxxxxxxxxxxxxxxxxxxxxxxxxxxxxxxxxxxxxxxxxxxxxxxxxxxxxxxxxxxxxxxxxxxxxxxxxxxxxxxxxxxxxxxxxxxxxxxxxxxxxxxxxxxxxxxxxxxxxxxxxxxxxxxxxxxxxxxxxxxxxxxxxxxxxxxxxxxxxxxxxxxxxxxxxxxxxxxxxxxxxxxxxxxxxxxxxxxxxxxxxxxxxxxxxxxxxxxxxxxxxxxxxxxxxxxxxxxxxxxxxxxxxxxxxxxxxxxxxxxxxxxxxxxxxxxxxxxxxxxxxxxxxxxxxxxxxxxxxxxxxxxxxxxxxxxxxxxxxxxxxxxxxxxxxxxxxxxxxxxxxxxxxxxxxxxxxxxxxxxxxxxxxxxxxxxxxxxxxxxxxxxxxxxxxxxxxxxxxxxxxxxxxxxxxxxxxxxxxxxxxxxxxxxxxxxxxxxxxxxxxxxxxxxxxxxxxxxxxxxxxxxxxxxxxxxxxxxxxxxxxxxxxxxxxxxxxxxxxxxxxxxxxxxxxxxxxxxxxxxxxxxxxxxxxxxxxxxxxxxxxxxxxxxxxxxxxxxxxxxxxxxxxxxxxxxxxxxxxxxxxxxxxxxxxxxxxxxxxxxxxxxxxxxxxxxxxxxxxxxxxxxxxxxxxxxxxxxxxxxxxxxxxxxxxxxxxxxxxxxxxxxxxxxxxxxxxxxxxxxxxxxxxxxxxxxxxxxxxxxxxxxxxxxxxxxxxxxxxxxxxxxxxxxxxxxxxxxxxxxxxxxxxxxxxxxxxxxxxxxxxxxxxxxxxxxxxxxxxxxxxxxxxxxxxxxxxxxxxxxxxxxxxxxxxxxxxxxxxxxxxxxxxxxxxxxxxxxxxxxxxxxxxxxxxxxxxxxxxxxxxxxxxxxxxxxxxxxxxxxxxxxxxxxxxxxxxxxxxxxxxxxxxxxxxxxxxxxxxxxxxxxxxxxxxxxxxxxxxxxxxxxxxxxxxxxxxxxxxxxxxxxxxxxxxxxxxxxxxxxxxxxxxxxxxxxxxxxxxxxxxxxxxxxxxxxxxxxxxxxxxxxxxxxxxxxxxxxxxxxxxxxxxxxxxxxxxxxxxxxxxxxxxxxxxxxxxxxxxxxxxxxxxxxxxxxxxxxxxxxxxxxxxxxxxxxxxxxxxxxxxxxxxxxxxxxxxxxxxxxxxxxxxxxxxxxxxxxxxxxxxxxxxxxxxxxxxxxxxxxxxxxxxxxxxxxxxxxxxxxxxxxxxxxxxxxxxxxxxxxxxxxxxxxxxxxxxxxxxxxxxxxxxxxxxxxxxxxxxxxxxxxxxxxxxxxxxxxxxxxxxxxxxxxxxxxxxxxxxxxxxxxxxxxxxxxxxxxxxxxxxxxxxxxxxxxxxxxxxxxxxxxxxxxxxxxxxxxxxxxxxxxxxxxxxxxxxxxxxxxxxxxxxxxxxxxxxxxxxxxxxxxxxxxxxxxxxxxxxxxxxxxxxxxxxxxxxxxxxxxxxxxxxxxxxxxxxxxxxxxxxxxxxxxxxxxxxxxxxxxxxxxxxxxxxxxxxxxxxxxxxxxxxxxxxxxxxxxxxxxxxxxxxxxxxxxxxxxxxxxxxxxxxxxxxxxxxxxxxxxxxxxxxxxxxxxxxxxxxxxxxxxxxxxxxxxxxxxxxxxxxxxxxxxxxxxxxxxxxxxxxxxxxxxxxxxxxxxxxxxxxxxxxxxxxxxxxxxxxxxxxxxxxxxxxxxxxxxxxxxxxxxxxxxxxxxxxxxxxxxxxxxxxxxxxxxxxxxxxxxxxxxxxxxxxxxxxxxxxxxxxxxxxxxxxxxxxxxxxxxxxxxxxxxxxxxxxxxxxxxxxxxxxxxxxxxxxxxxxxxxxxxxxxxxxxxxxxxxxxxxxxxxxxxxxxxxxxxxxxxxxxxxxxxxxxxxxxxxxxxxxxxxxxxxxxxxxxxxxxxxxxxxxxxxxxxxxxxxxxxxxxxxxxxxxxxxxxxxxxxxxxxxxxxxxxxxxxxxxxxxxxxxxxxxxxxxxxxxxxxxxxxxxxxxxxxxxxxxxxxxxxxxxxxxxxxxxxxxxxxxxxxxxxxxxxxxxxxxxxxxxxxxxxxxxxxxxxxxxxxxxxxxxxxxxxxxxxxxxxxxxxxxxxxxxxxxxxxxxxxxxxxxxxxxxxxxxxxxxxxxxxxxxxxxxxxxxxxxxxxxxxxxxxxxxxxxxxxxxxxxxxxxxxxxxxxxxxxxxxxxxxxxxxxxxxxxxxxxxxxxxxxxxxxxxxxxxxxxxxxxxxxxxxxxxxxxxxxxxxxxxxxxxxxxxxxxxxxxxxxxxxxxxxxxxxxxxxxxxxxxxxxxxxxxxxxxxxxxxxxxxxxxxxxxxxxxxxxxxxxxxxxxxxxxxxxxxxxxxxxxxxxxxxxxxxxxxxxxxxxxxxxxxxxxxxxxxxxxxxxxxxxxxxxxxxxxxxxxxxxxxxxxxxxxxxxxxxxxxxxxxxxxxxxxxxxxxxxxxxxxxxxxxxxxxxxxxxxxxxxxxxxxxxxxxxxxxxxxxxxxxxxxxxxxxxxxxxxxxxxxxxxxxxxxxxxxxxxxxxxxxxxxxxxxxxxxxxxxxxxxxxxxxxxxxxxxxxxxxxxxxxxxxxxxxxxxxxxxxxxxxxxxxxxxxxxxxxxxxxxxxxxxxxxxxxxxxxxxxxxxxxxxxxxxxxxxxxxxxxxxxxxxxxxxxxxxxxxxxxxxxxxxxxxxxxxxxxxxxxxxxxxxxxxxxxxxxxxxxxxxxxxxxxxxxxxxxxxxxxxxxxxxxxxxxxxxxxxxxxxxxxxxxxxxxxxxxxxxxxxxxxxxxxxxxxxxxxxxxxxxxxxxxxxxxxxxxxxxxxxxxxxxxxxxxxxxxxxxxxxxxxxxxxxxxxxxxxxxxxxxxxxxxxxxxxxxxxxxxxxxxxxxxxxxxxxxxxxxxxxxxxxxxxxxxxxxxxxxxxxxxxxxxxxxxxxxxxxxxxxxxxxxxxxxxxxxxxxxxxxxxxxxxxxxxxxxxxxxxxxxxxxxxxxxxxxxxxxxxxxxxxxxxxxxxxxxxxxxxxxxxxxxxxxxxxxxxxxxxxxxxxxxxxxxxxxxxxxxxxxxxxxxxxxxxxxxxxxxxxxxxxxxxxxxxxxxxxxxxxxxxxxxxxxxxxxxxxxxxxxxxxxxxxxxxxxxxxxxxxxxxxxxxxxxxxxxxxxxxxxxxxxxxxxxxxxxxxxxxxxxxxxxxxxxxx
begin
region 0xffffffffffffffff 3 00004
u32 0xfffffffffffffffd 00361
dump x
state
event 0x-1
table - 0x1
desc 1062 0 0 0 0
ready x x
state
state
0x
  sum
dump 0xfffffffffffffffe 0x100
dump 0x 121
table 0 0 0
memory 1048577
avail 99999999999999999999 99999999999999999999 99999999999999999999
question
sum
walk
memory 0x100001
G)4i<'8)oR-
begin
head
chain
ready 3
+6w.^[-7\B=b+/0
state
begin -
state
-
state
size 445
stop 0
table 7 0
valid
head
state
back
memory 2097152
dump 0x1E2 2
chain +1
# question
state
sum
memory 376
queue 4
table 0 -
table - 0
avail 64 0
used 0x50 0
ready 1
valid
region 72 20 0x54
state
put 0 2147483648
stop
desc 18446744073709551615 0x15b 6 22508 34803
used 0 -
used - 2147483648
readable
begin
bytes 348 1 128
valid
bytes 00125 19 225 16 131 0xa8 0xDB 00193 130 50 0xa2 0x4A 138
ready 0x1
back
next-used 2
u32 42 1089645877
table 0 0x80000000
fill 252 23 11
begin
begin
bytes 0x135 19
avail 0 2147483648
bytes 230 0x5b 0xda 33 81 161 0x00000000000000000039 0xA1 185 0x51 0x51
put 65533 33
bytes 0xd5 144
table 53 0
put 2 0x00000000000080000000
chain 3
writable
next
pop
question
u16 172 65534
pop
next
put 0 32
readable
writable
chain 0
writable
region 9223372036854775826 38 0x4e
u16 0xad 20707
begin
chain 0x2
next
readable
valid
pop
chain 64859
u16 284 0x22d4
pop
bytes 352 0x13 147 251 121 233 0xba 0x1 178 64 33 41 0x00000000000000000048
next-avail 2
sum
pop
bytes 0x15e 64 16 219 0x1B 0x61
desc 0x47ab8de6200fccab 9223372036854775808 4294967293 305 371
state
ready 0x1
head
chain 2
readable
dump 9223372036854775808 0x000000000000000000cc
walk
state
bytes 108 91 182 229 193 61 0x63 00122 1
begin
head
head
next
next
readable
head
head
next
head
u32 98 3274599804
state
region 0 9223372036854775808 0x00008000000000000000
chain 9
size 0xa738
bytes 78 236 234 161 0x64 156 182 0xff 255 255 0x7f 00003 0 1 0
u16 347 25888
bytes 78 14 0 00000 00000 0 0 1 0 0 0 1 0 00001 0
begin
state
u32 0x119 0x67d9e3c1
state
bytes 108 0x000000000000000000e0 139 12 0 0 0 0 0
chain 0xffff
readable
bytes 0x6c 00215 00069 0x0000000000000000008f 255 215 146 160 229
begin
reset
size 4
table 0 2147483648
avail 0 2147483648
used 0 0x80000000
ready 1
u32 2888279198953089551 2147483648
region 0x8000000000000000 0x8000000000000000 13544169838294110210
pop
region 317 9223372036854775808 17105543596847334360
region 0x86 0xfffffffffffffffd 0xfffffffffffffffe
state
state
begin
begin
begin
head
next
pop
question
pop
next
pop
begin
state
writable
bytes 0xa0 248 209 83 202 0x6b 0x59 40 11
u64 18446744073709551615 280
u16 9223372036854775808 65534
state
begin
state
chain 2
next
chain 0
next
used 0xfe142250 3646505732
u16 9223372036854775808 6
bytes 0x4e 11 0 0 0 0 0 0x0 0x10 0 0 3 0 1 0
pop
question
pop
readable
question
u32 9223372036854775808 4294967293
readable
chain 32768
u64 0x0000000000000000002e 241
u32 51 3487079236
next-used 0x8
begin
bytes 52 0x69 211 202 250 43 0x000000000000000000b0 50
put 0xFFFD 0x00000000000000000007
question
state
bytes 8 0xfd 0
begin
valid
desc 66 68 2147483648 32768 20652
u64 65 0x386da10283f41f0b
fill 199 23 75
reset
put 1 32
u16 349 4027
reset
size 4
table 0 0
avail 0 0
used 0 0x0
ready 0x1
begin
chain 0
u64 20 0x229b39a98d3eb32
readable
next-used 0xc352
sum
next-used 3
head
desc 0x0000d6749e9ab39c08d3 329 4294967294 279 0x174
u32 0x117 286
chain 0
u32 287 0x9008093a
bytes 153 0x73 97 0x89
size 48576
u64 9 9812581533281669104
begin
begin
bytes 18446744073709551615 23 39
begin
u64 18446744073709551614 9
u64 312 9322696464171355793
chain 0x4
next
walk
fill 338 0x14 0xe1
state
u16 317 44309
dump 10590079460670511873 00059
reset
size 4
table 0x0 -
table - 0
avail 0 0
used 0 0
ready 00001
question
reset
size 4
table 0 0
avail 0 0
used 0 0x0
ready 1
put 0 16909060
state
fill 205 22 0x5a
dump 4 6
state
sum
u16 16017473515619020362 0x00000000000000000063
valid
u32 00341 803050648
state
state
sum
memory 394
region 4294966752 0x18a 0
queue 2
table 0xfffffde0 0
avail 0xfffffe00 0
used 4294966796 0
ready 1
valid
next-avail 65530
u16 34 65530
next-used 0xfffa
event 1
state
pop
stop
put 1 0
state
put 1 2147483648
desc 0 0x87a10 512 0x2 0
u16 36 0
u16 34 0xfffb
u16 40 0xfffe
begin
head
head
bytes 51 8
head
head
head
head
head
writable
readable
walk
put 0 512
ask
pop
question
begin
head
head
head
head
ask
desc 0 140368 16 1 1
desc 16 227280 0x1 0 00000
u16 38 0
u16 34 0xFFFC
state
question
bytes 0 96 144 0 0 0x0 00000 0 0 1 0x0 0 0 3 0 1 0
desc 16 0xf1150 1 2 0
bytes 36 0 0
u16 34 0xfffd
dump 0 12
pop
walk
put 0 0x80000000
question
sum
desc 16 0xfb1e0 65536 0 0x0
u16 38 1
u16 34 65534
ask 99999999999999999999
valid
pop
walk
put 0 0
desc 16 18446744073709550034 4096 3 0x0
desc 0 18446744073709551257 4096 2 0
u16 36 1
u16 0x22 0xffff
begin
next
state
pop
put 1 16909060
desc 16 0x8b500 0 3 00000
desc 00000 0xef970 4096 2 0
u16 38 1
u16 34 0x0
begin
region 0 394 0
walk
next
readable
next
head
head
head
head
desc 0 0xfffffffffffff095 4096 1 1
desc 0x10 870992 0x200 0x0 00000
u16 36 0
u16 34 1
put 1 0
pop
next
next
put 0 1
question
state
desc 0 1020080 0x200 3 1
desc 0x10 0xa2f30 1 2 00000
u16 38 0
u16 34 2
desc 16 0x2f7e0 4096 0 0
u16 36 1
u16 34 0x3
u16 0x20 00001
chain 0
next
next
begin
bytes 7 186
next
next
writable
back
head
put 1 0
state
begin
head
head
bytes 8 255 255 255 255
desc 0x10 4262111492648844263 4096 0 0
u16 0x26 0x00000000000000000001
u16 34 4
bytes 24 1 0 0 0
bytes 24 1 0 0x00000000000000000000 0
put 0x0 0
put 1 4294967295
stop
begin
walk
bytes 31 1
head
next
next
back
walk
head
head
put 1 16909060
put 1 32
desc 0 8676490778583585921 65536 0x00000000000000000001 1
desc 16 16873234900302531075 512 0 0
u16 36 0
bytes 00034 5 0
pop
writable
put 0 32
question
next-avail 50158
u16 32 65535
question
begin
pop
pop
question
stop
pop
put 0 512
pop
pop
begin
dump 0x00000000000000000000 0x2
ask
sum
pop
next
begin
sum
pop
question
state
ask
chain 0
next
next
next
begin
desc 16 0xfffffffffffff073 0 3 0
desc 0 13218620696808308213 65536 2 0
bytes 38 1 0x0
u16 34 6
begin
pop
u16 34 50158
desc 0 18446744073709550451 0x10000 1 0x00000000000000000001
desc 0x00000000000000000010 513568 4096 2 0
u16 36 0
u16 34 50159
pop
writable
writable
put 0 16909060
question
u16 32 1
desc 16 1820970394225127336 1 3 0
desc 0 6819851355646180740 1 2 0
u16 38 0x1
u16 00034 50160
desc 16 15368912056187409244 0 2 0x0
u16 36 1
u16 34 0xC3F1
ask
begin
back
back
head
next
readable
head
head
head
put 1 0x1020304
put 1 16909060
desc 16 0xbe160 0x00000000000000000200 2 0x0
u16 38 1
u16 34 50162
begin
next
writable
head
head
desc 16 0xa8630 00016 0x0 0
bytes 36 1 0
u16 0x22 50163
next
next
next
desc 0 244112 0x1000 2 0x0
u16 38 0
u16 34 50164
head
next
head
head
question
put 1 0
state
pop
put 1 2147483648
pop
next
readable
put 0x0 0x1
state
sum
memory 798
region 4294966992 798 0
queue 0x00000000000000008000
size 8
table 0xfffffed0 0
avail 4294967152 0
used 4294967208 0
ready 1
valid
next-avail 1339
u16 162 1339
next-used 0x53b
begin
head
region 4294967142 798 0
bytes 00261 1
begin
desc 0x70 0xb67e0 0x200 0x1 4
desc 64 4692894852037729957 1 1 2
desc 0x20 14366512528563274318 512 0x3 5
desc 80 1039664 0 1 6
bytes 0x60 203 0xf2 255 0xff 255 0xff 0xff 255 0 16 0 0 2 0 0 0
u16 170 7
bytes 162 60 5
bytes 0x104 77
pop
next
next
put 7 0x00000000000001020304
state
u16 0x000000000000000000a2 0x53a
chain 4
writable
u16 162 1339
u16 170 9
u16 162 1340
u64 407 6320746520237115490
state
bytes 0xa8 83
begin
region 0 798 0
head
head
next
writable
head
fill 0x5a 11 112
head
head
head
pop
begin
next
next
desc 80 607680 4096 2 0x0
u16 0x000000000000000000ac 5
bytes 162 61 5
head
bytes 0x11A 8
bytes 58 2
desc 16 18446744073709549362 512 1 6
desc 0x60 11429043522306133999 512 1 0
desc 0 17933806590381979325 1 1 3
desc 48 526768 1 2 0
u16 174 1
u16 0xa2 1342
pop
next
next
put 5 0x1
u64 183 0xc87ae834c3d6f5c6
bytes 16 208 144 7 0 0 0 0x0 0x0 0 2 0 0 1 0 3 0
desc 48 274208 04096 1 5
bytes 80 48 0x4a 8 0 0 0 0 0 0 00000 1 0 0x00000000000000000003 0 2 0
desc 32 60672 4096 0x3 7
desc 112 0x16b30 0x10000 3 0
desc 0 3671223041764038919 65536 0 0
u16 176 1
u16 162 0x0000000000000000053f
desc 0 0xefb10 16 00003 7
desc 0x70 230112 16 3 2
desc 32 18446744073709550356 0x1000 3 0x5
desc 80 71808 0x00000000000000001000 2 0
u16 0xb2 00000
u16 162 1344
pop
next
writable
put 1 0
sum
desc 48 0x0000000000000007c5d0 0x00000000000000000200 0 0
u16 164 3
u16 0xa2 1345
desc 16 3543167688005029450 2147483648 3 5
 	
u16 180 1344
u16 162 1346
u64 0x122 0x2c9e179cef538424
begin
desc 48 0xb664de53f322499e 4096 1 2
desc 32 0xffffffffffffff01 0 3 5
desc 80 0xbfed0 512 3 00004
bytes 0x40 16 3 0x2 0 0 0 0 0 0 0 1 0x00000000000000000000 3 0x0 1 0
desc 16 0x76fd0 4096 3 0
desc 0 0x125d0 0 1 7
desc 0x70 638576 0 1 00006
desc 96 0xD99A977525179560 0x0 2 0
bytes 168 0x00000000000000000003 0
u16 00162 0x543
bytes 162 195
head
bytes 114 48
u16 162 1343
desc 32 18446744073709548730 0x10000 3 7
desc 112 0x1a9a6f7ef1e11b7a 0 3 3
desc 48 0xfd460 1 1 1
desc 16 664336 0 1 6
bytes 96 68 0xf6 00255 0xff 255 255 255 0xFF 0 0 0x00000000000000000001 0 0 0 0 00000
u16 178 2
u16 0xa2 0x540
readable
head
head
put 2 32
u16 164 2
u16 0xa2 1345
bytes 162 69 5
begin
walk
head
next
fill 0x241 0 0x000000000000000000b9
region 4294967136 40 194
bytes 249 11
writable
desc 0x60 634224 0x10000 1 3
desc 48 18446744073709551236 1 1 0x1
desc 16 15496257415297861843 512 1 0
desc 0 18446744073709550449 65536 1 5
desc 0x50 0x0000fffffffffffff8af 1 3 2
bytes 0x20 0x80 234 15 0 0 0 0x00000000000000000000 0 0x00000000000000000000 0 1 0 3 0 7 0
desc 112 786336 4096 0 0
u16 174 0x00000000000000000006
u16 00162 1350
head
put 0 4294967295
put 00003 0x00000000000000000200
state
state
sum
memory 0x10e
region 0 30 138
region 00030 2 0x000000000000000000a6
region 32 78 0x5e
region 00110 160 6
queue 4
table 0 0
avail 18 0
used 12 -
used - 0
ready 1
valid
begin
head
back
next
back
bytes 167 0xFC
head
head
u16 0x9e 0
desc 138 808208 0x1000 3 0
bytes 160 0 0
u16 0x9e 1
bytes 96 1
state
pop
next
writable
put 0 0x80000000
question
ask
u16 166 2
pop
question
bytes 0x000000000000000000a0 5
begin
head
next
back
head
pop
question
question
begin
head
back
head
head
head
writable
head
walk
put 2 0x200
u32 0x0000000000000000007d 0xb9092db8
bytes 164 8
desc 94 18446744073709551338 4294967295 2 3
u16 97 28274
u16 160 0x8000
u16 0x9e 1
bytes 154 128 205 6 0 0 0 0 0 0 2 0 0 3 0
bytes 0xa6 3 0
desc 0x6e 390016 0x1000 3 0
desc 138 0xfffffffffffffcb0 0x10 3 0
u16 160 1
u16 0x9e 1
bytes 0x00000000000000000064 0
begin
fill 208 00007 170
head
bytes 162 255 0xff 255 0xff
next
writable
sum
begin
head
bytes 0x99 2
begin
next
next
back
bytes 159 1
head
head
head
head
head
head
put 1 0x1
pop
question
bytes 103 12
u16 248 975
u16 0x000000000000000000a2 5
u16 0x9e 258
u16 0x9e 1
bytes 0x9a 0 255 9 0 0 0 0 0 16 0 0x0 0 3 0
bytes 166 1 0
bytes 160 0x1 0
u16 0x9e 1
state
begin
head
head
readable
writable
writable
head
walk
head
readable
head
head
u16 162 4
u16 158 2
begin
bytes 0xa2 255 255 255 255
next
head
head
readable
head
bytes 124 1
put 65535 0
state
desc 0x6e 798512 1 1 1
bytes 154 16 241 15 00000 0 0 0 0 0 0x0 1 0 3 0
bytes 0xa6 1 0
bytes 160 3 0x00000000000000000000
u16 0x9E 1
put 2 1
u16 158 6
pop
writable
put 1 1
desc 94 5019108464727645365 4294967294 3 1
state
bytes 154 0x000000000000000000c8 0xf2 255 255 255 255 0xFF 0xff 0 0 1 0 1 0
bytes 166 0x00000000000000000001 0
u16 166 1
u16 0x9e 0
state
u16 166 6
bytes 160 255 255
u16 158 1
pop
begin
head
back
head
head
head
bytes 164 65
state
u16 158 2
bytes 0x0000000000000000009a 238 0xfd 255 255 0xff 255 255 0xff 1 0 0 0 1 0
bytes 166 1 0
u16 166 1
bytes 158 0 0
state
sum
memory 418
queue 1
table 0x190 0
avail 0x50 0
used 152 -
used - 0
ready 0x00000000000000000001
valid
next-avail 0xfffe
u16 82 0xfffe
next-used 65534
event 1
begin
head
begin
next
head
next
head
head
head
u16 359 24565
next
head
pop
question
desc 0x190 10325648032581606660 512 2 0
u16 84 0
u16 82 65535
bytes 162 1
begin
writable
next
readable
bytes 157 0x00000000000000000073
next
next
next
writable
head
head
u16 0x00000000000000000054 1
u16 0x52 0
chain 65535
readable
begin
bytes 165 1
head
head
bytes 408 0 0 0 128
desc 400 18446744073709551426 0 2 0
u16 0x54 0
u16 82 1
head
put 00001 32
pop
walk
put 0x00000000000000000000 512
question
chain 0x0
next
back
bytes 155 0
bytes 0x190 00064 0x7c 11 0 0 0 0 0 1 0 0 0 170 0xe9 0 0
u16 86 0
u16 0x52 0xffff
chain 0x00000000000000000000
readable
chain 2
next
next
pop
question
u16 0x56 0x7ffe
u16 0x52 0
bytes 400 160 0 11 0 0 0 0 0 0 0 1 0 0 0x0 0 0
u16 84 0
u16 82 1
put 0 0x1
pop
put 0 4294967295
bytes 414 8
u16 0x54 0
u16 82 2
desc 400 0xfffffffffffff232 1 2 0
u16 0x54 0x00000000000000000000
u16 82 3
region 106 0x000000000000000001a2 0
begin
bytes 56 163
valid
ask
pop
begin
head
next
writable
pop
next
pop
question
state
begin
state
sum
memory 0x2EF
region 4294966950 0x0000000000000000001c 0
region 4294966692 140 00028
region 4294967294 88 168
region 4294967382 40 256
region 0x000000000000fffffe30 0x76 296
region 4294966978 266 414
region 4294967244 50 0x2a8
region 4294966672 20 0x2da
queue 16
size 8
table 4294966672 0
avail 4294966816 0
used 64 1
ready 0x00000000000000000001
valid
event 1
desc 72 18446744073709549502 16 1 6
desc 104 14997298338194705636 16 2 00000
u16 156 4
u16 154 1
u16 300 65535
region 1099511627776 0x2f1 0
desc 0x48 0xafc90 0 1 0
desc 0x2da 18446744073709548364 0 1 3
desc 56 160240 0 1 7
desc 120 0xf53e0 4096 0 0
u16 158 4
u16 154 2
u16 160 65535
u16 154 3
stop
u16 0x9a 0
valid
pop
bytes 260 58
u16 154 65534
bytes 620 00218 0x0000000000000000004a 0xa8 1 0xfb 97 0x51 185 0
bytes 0x00000000000000000048 107 163 113 24 210 41 0xc5 41 0 0 0 0 1 0 6 0
bytes 0x68 240 0xA6 12 00000 0 0 0 0 0 2 0 0 1 0 0 0
desc 730 0x0000fffffffffffff363 1 1 1
bytes 0x2ea 98 242 255 0xff
bytes 28 255 255 255 255 0x00000000000000000010 0 0 0 1 0 0x7 0
desc 120 8501342608129834334 4096 1 2
desc 40 6309183469392169477 16 00001 3
desc 56 0x0000000000000000ce70 512 0x0 0
u16 0x128 4
u16 154 65535
question
question
u16 154 0
desc 104 18446744073709548756 1 1 1
bytes 746 0x50 247 255 0xff
bytes 28 255 0xff 0xff 255 0 2 0 0 00001 0 0 0
desc 0x2da 983712 0x200 0x00000000000000000001 0x4
desc 72 677392 0x1000 1 2
desc 40 0xda050 1 1 3
desc 56 18446744073709549923 0x0 1 5
desc 0x58 88032 0 1 0x7
desc 120 944368 1 2 0
u16 0x9c 6
u16 154 1
put 3 0x1020304
bytes 279 32
begin
head
head
head
put 6 4294967295
bytes 96 0x00000000000000000000 0x0 0 0
pop
state
sum
memory 0x49a
queue 8
table 00000 0
avail 0xb0 0
used 00248 0
ready 0x1
valid
bytes 120 255 255 0xff 127
pop
question
walk
bytes 0 102 00236 174 31 179 180 153 195 255 255 255 255 0 0 0 0x0
state
bytes 24 1 0x00000000000000000000 0 0x0
next
bytes 64 130 0xf7 0xff 0xff 255 255 255 255 0 0x0 0 128 1 0 6 00000
desc 96 9920219500906425980 0x80000000 1 0
desc 0 13935023909069289109 0 3 5
desc 80 0xfe200 0 3 2
desc 32 18446744073709550381 0 3 3
desc 48 504736 0 0x3 7
desc 112 18446744073709550534 0 3 1
desc 16 0x20690 0 2 0
u16 180 4
u16 178 1
begin
head
bytes 120 0 0 0 0x80
head
put 0x00000000000000000004 0
pop
desc 0x50 0x6ba23de1f1d279e0 4294967294 3 0x1
bytes 16 192 77 2 0 0 0 0 0 0 0x0 00000 0 3 0 4 0x0
desc 64 883520 0 2 0
bytes 182 0x5 0
u16 178 2
begin
bytes 0xc1 0x1
bytes 00072 0x0 0 0 0
u64 0x46F 1397966851297962097
next
next
walk
chain 00004
readable
desc 0x70 938128 0x00000000000000000000 0x00000000000000000003 0
walk
desc 0x00000000000000000050 436176 2147483647 1 4
desc 64 18446744073709549266 0 1 1
desc 0x00000000000000000010 0xcc022390483f20f4 0x0 1 2
desc 32 10206073374271924414 2147483648 1 3
desc 48 1701047330539291648 0 3 0
desc 0 385200 2 2 0x0
u16 0xb8 5
u16 0xB2 3
chain 65535
next
next
bytes 57 8
bytes 00096 0 53 0x7 0 0 0x0 0 0 0 0 0 0 1 0 3 0
desc 48 2300599582400644784 1 1 00000
bytes 0 0x82 0xd6 156 0x000000000000000000aa 247 0xC8 87 0xda 0 0 0 0x80 1 0x0 1 0
desc 16 1027488 1 1 2
desc 32 0x8f0c0 0 1 4
desc 64 16984156822545572662 1 0x00000000000000000001 5
desc 80 0xfffffffffffff4b3 1 3 7
desc 112 0xfffffffffffffea4 0x7ffffffc 2 0
u16 186 0x6
u16 178 4
desc 32 18446744073709547714 2147483647 3 0
desc 0 485712 1 3 3
desc 48 906112 2147483648 0x3 4
bytes 64 240 47 9 0 0 0 0 0 0 0 0 0 2 0 0 0
u16 188 2
u16 0xb2 5
desc 0 4729366149512173915 2147483648 1 8
bytes 72 255 0xFF 255 255
chain 1
walk
chain 4
next
readable
chain 0
writable
bytes 120 0x1 0x0 0 0x0
begin
u32 373 4210835418
head
back
desc 80 3010371287663143435 0x80000000 0x00000000000000000001 0
desc 0 5284535558166964794 1073741824 1 3
desc 48 18446744073709549524 1073741825 3 6
desc 96 0xd5240 0 2 0
u16 0x000000000000000000be 5
u16 178 6
head
bytes 0x78 0 0 0 00000
bytes 95 1
region 190 1178 0
put 5 1
pop
chain 9
walk
state
chain 0x2
pop
state
readable
begin
chain 7
readable
chain 9
chain 7
next
begin
writable
state
chain 7
writable
next
next
walk
chain 2
next
writable
chain 7
next
begin
pop
chain 7
next
pop
question
chain 4
next
state
next
state
begin
pop
question
walk
writable
readable
next
begin
writable
next
chain 2
chain 1
walk
chain 0x00000000000000000002
readable
begin
chain 1
readable
chain 6
readable
next
writable
begin
chain 0x5
next
next
next
state
begin
begin
head
back
head
head
head
head
head
u32 1178 0
readable
next
state
sum
memory 0x5CA
region 0x10000015c 526 0
region 0xfffffe38 266 0x0000000000000000020e
region 4294966758 58 1330
region 4294966688 70 0x56C
queue 1
table 0xfffffda0 0
avail 4294966800 0
used 0xfffffe78 0
ready 1
valid
next-avail 0xfffd
u16 01374 65533
next-used 65533
event 1
begin
u64 0x5a2 9245885533921404984
bytes 599 16
head
head
head
next
state
avail - 00000
begin
head
head
head
head
head
head
head
avail 4294966800 -
desc 1388 376688 512 2 0x0
u16 1376 0
u16 1374 65534
u16 1378 65535
begin
head
head
next
walk
next
head
head
bytes 1375 0xbf
head
put 0x0 0x200
chain 2
readable
u16 0x00000000000000000562 0xffff
state
question
pop
u16 1378 65532
begin
walk
walk
next
back
head
bytes 0x574 1 0 0x0 0x0
head
head
put 0x00000000000000000000 0x00000000000000000001
u16 1372 0
desc 0x0000000000000000056c 18446744073709548625 1 0 0
u16 1376 0x0
bytes 1374 255 191
table 4294967296 3952936321
pop
question
put 0 512
dump 590 70
pop
put 0 0xffffffff
put 0 2147483648
question
u16 1374 65533
desc 1388 14699177462281811643 0 2 0
u16 1376 0
bytes 0x55e 0xfe 00255
chain 0
next
next
chain 0
walk
pop
readable
put 0x0 0x80000000
desc 1388 0x00000000000000011b10 4096 2 0
u16 1376 0
u16 1374 65535
begin
back
begin
state
sum
memory 36
region 0 8 4
region 14 14 14
region 8 00006 24
region 28 8 12
queue 0x4
table 16 -
table - 0
avail 16 0x0
used 36 0
ready 1
valid
next-avail 0x0000000000000000f904
u16 18 0xF904
next-used 63748
event 1
bytes 16 205 245 255 0xff 0xff 255 255 255 0 2 0x00000000000000000000 0x0
bytes 12 00003 00000 2 0
u16 26 0
u16 18 0
begin
put 3 2147483648
chain 1
begin
state
begin
state
begin
bytes 0x13 00205
state
pop
bytes 18 4 249
u16 20 2
u16 18 63749
bytes 16 215 254 0xff 255
bytes 16 33 00254 0xff 255 0xff 0xff 255 255 0 0 0 0
bytes 0xC 00001 0 3 0
u16 26 1
u16 18 0
u16 18 63746
pop
next
question
pop
next
question
u16 24 4
u16 18 63747
bytes 25 0x00000000000000000024
question
bytes 16 224 217 5 0 0 0 0 0 255 255 255 127
bytes 12 0 0 1 0x0
pop
u16 22 0x5
u16 00018 6
begin
u16 18 63748
bytes 16 109 245 0xff 0xFF
u16 26 3
u16 18 0
question
u16 18 63748
bytes 16 0x51 0xf8 255 255
bytes 16 5 245 255 255 255 255 255 0xff 0 16 0 0
bytes 0x0000000000000000000c 0 0 0 0
u16 26 1
u16 00018 0x00000000000000000000
pop
question
bytes 15 228
begin
state
question
u16 00018 63748
bytes 16 237 244 255 0xff 255 255 255 255 0 0 1 0
bytes 12 0x0 0 0 0
u16 26 0
bytes 18 0 0
bytes 00025 74 0xa 33 145 0x000000000000000000fb 0xba 0xd2 251 202 0x00000000000000000098 0xf9
pop
question
state
pop
u16 00018 63748
u16 20 2
u16 18 63749
pop
walk
next
put 2 2147483648
pop
question
put 3 512
bytes 00016 53 246 255 255
bytes 16 36 0x91 110 221 255 77 22 149 0 0 0x0 0
bytes 12 2 0 0 0
u16 24 3
u16 18 56687
begin
head
head
head
next
ask
sum
bytes 16 240 0x59 0x3 0
begin
u16 00026 4
u16 18 4
state
u16 18 63749
bytes 16 169 0xaf 0x65 140 43 162 00230 0xa0 0 0 0 0
bytes 12 3 0 1 0
bytes 16 144 0x000000000000000000af 0x8 0
u16 20 0
u16 18 9
bytes 25 1
u16 22 65535
u16 18 10
u16 0x00000000000000000012 63749
bytes 0x00000000000000000010 21 8 1 00115 0xfc 0x5e 0xCC 0xbc 0 0 0 0
bytes 12 3 0x0 3 0
bytes 16 160 141 11 0
u16 26 0
u16 18 12
fill 26 21 0x00000000000000000053
begin
next
back
head
writable
begin
begin
head
bytes 16 00224 45 14 0
bytes 16 105 39 00230 0x0000000000000000006f 0x5e 10 188 00094 0 00002 0 0
bytes 12 2 0 0 0
u16 24 2
u16 18 28647
ba#ck
begin
begin
head
pop
begin
begin
head
u16 18 63748
bytes 16 00240 0x0000000000000000005e 3 00000
bytes 16 46 0x6c 21 184 0xb3 1 251 00194 1 0 0 0
bytes 0xc 3 0 3 0
u16 22 1
u16 18 47126
head
next
next
head
head
bytes 18 23
bytes 24 2
head
bytes 14 4
begin
bytes 00029 176 33 82 161
u16 0x00000000000000000012 63748
bytes 16 0x000000000000000000e0 0x70 0x00000000000000000001 0 00000 0 0 0 00016 0 0 0x0
bytes 12 3 0 3 00000
bytes 16 36 241 0xff 0xFF
u16 26 0
u16 18 00000
begin
pop
question
pop
question
dump 0x10 0x14
pop
walk
bytes 0x18 0x00000000000000000000 0 0 0x80
pop
begin
next
next
walk
writable
next
head
head
u32 3 3461131763
back
begin
u16 00018 63747
bytes 16 64 237 5 0x0
u16 22 1
u16 18 6
u16 18 63747
bytes 16 192 161 9 0
u16 22 1
u16 18 10
u16 0x12 0xf908
fill 6 13 0x92
pop
question
begin
begin
head
head
u64 31 16840964686549768072
head
u16 18 63747
bytes 0x10 0x00000000000000000022 243 0xff 255 255 255 0xff 255 1 0 0 0
bytes 12 3 0 2 0
u16 00026 0
u16 18 0x0
readable
back
pop
u16 18 63748
stop
u16 00018 0xf903
begin
head
bytes 00019 123
writable
put 1 0x80000000
pop
u16 26 0x8000
u16 18 31492
bytes 18 7 249
state
pop
walk
put 32768 0x80000000
u16 26 0
u16 18 63752
bytes 0x00000000000000000010 208 0xdc 4 0 0 0 0x0 0 0x00000000000000000001 0 0 0
bytes 12 2 0 3 0x0
begin
begin
u16 20 5
u16 18 0x5
u16 18 63752
dump 16 2
u16 00018 63749
put 3 16909060
u16 22 00005
u16 18 0xf906
pop
next
writable
put 5 1
back
u16 0x18 5
u16 18 63751
bytes 0x00000000000000000017 58 208 0x61 0xc1 51 0x00000000000000000099
question
chain 1
walk
bytes 24 00001 0 0 0
state
state
sum
memory 394
region 136 30 0
region 0xa6 228 30
region 0 0x7a 258
region 122 14 380
queue 00002
table 0 0
avail 0x20 0
used 44 -
used - 0
ready 1
valid
table - 0
state
size 0x2
u16 0x124 0x8000
question
put 0 0x80000000
ask
u16 298 32769
u16 00292 3
desc 0x112 18446744073709549523 0x00000000000000001000 1 0
desc 258 0xb8940e4eb98869f1 4096 0x2 0
u16 0x128 1
u16 0x124 4
stop
u16 292 0
desc 274 17387798762898106669 0x1000 3 0
desc 258 14443622911792837379 16 2 0
u16 294 1
u16 292 00001
stop
pop
next
next
put 1 1
question
ready 1
put 1 2147483648
put 0 512
put 1 2147483648
desc 274 0xfffffffffffffa95 4096 2 0
u16 296 1
u16 292 2
ask
put 0 0x0
put 0xffff 512
put 1 2147483648
put 1 32
put 1 16909060
put 1 0
put 3 0x1020304
put 65535 2147483648
put 0 1
put 1 16909060
put 1 0
put 1 1
put 0 0xffffffff
put 1 0x00000000000080000000
put 0 32
put 65535 32
put 0 0x200
put 0 32
question
valid
u16 298 22
valid
put 2 32
u16 0x12a 20
question
put 1 4294967295
stop
u16 0x0000000000000000012a 18
put 0x1 2147483648
bytes 298 24 0
u16 0x12a 19
put 1 0
state
pop
readable
put 1 2147483648
question
put 65535 0
u16 0x12a 19
put 1 1
put 1 2147483648
put 3 1
put 0 16909060
put 0 32
put 0x1 4294967295
put 1 16909060
put 00000 32
put 65535 512
u16 0x12a 33
question
put 65535 1
stop
put 0 512
u16 298 31
question
u16 00298 28
ask
ask
stop
put 0x0 2147483648
bytes 298 32 00128
question
u16 298 0x00000000000000008020
u16 292 2
put 1 0x00000000000001020304
ask
state
u16 0x122 1
put 0 512
question
put 1 4294967295
desc 258 118816 4096 2 0x0
u16 0x126 0
u16 292 3
bytes 274 0x9e 0xae 0xf2 146 206 0xd2 60 175 1 0 0x0 0 2 0 0 0
u16 296 1
u16 0x124 4
question
ready 0
pop
u16 298 32802
u16 298 35
put 1 2147483648
put 2 32
u16 298 0x24
u16 292 0
u16 0x12a 0x8023
stop
put 0x1 32
u16 298 33
u16 292 0
pop
next
question
ask
u16 0x12a 37
put 00001 2147483648
state
ask
put 1 512
put 1 4294967295
put 1 0x00000000000000000001
put 1 00032
put 0x0 32
put 00000 32
put 00000 1
put 0 16909060
put 1 1
put 0 1
put 0 2147483648
dump 302 2
u16 00298 32817
dump 0x122 2
u16 0x12a 51
question
question
u16 292 1
state
put 1 2147483648
put 0x0 4294967295
u16 0x124 2
desc 0x112 7351558122410502056 0 1 0
desc 0x102 947296 1 0 0x0
bytes 0x126 1 0
u16 292 3
u16 298 0x36
put 0 0xffffffff
put 00001 32
stop
put 1 0
put 0 512
put 0 0x80000000
put 0x0 32
put 0x00000000000000000001 4294967295
put 0x00000000000000000001 32
put 0x0 4294967295
put 0 512
put 1 32
put 0 0x20
put 1 0x00000000000000000000
put 2 2147483648
put 0 16909060
put 3 0x1020304
put 0 4294967295
put 1 0x1020304
desc 0x102 18446744073709549807 512 1 0x00000000000000000001
desc 274 0xfffffffffffff458 0x10000 0 0
u16 296 0
u16 292 4
u16 00292 0
stop
question
state
sum
memory 380
region 336 0x17c 0
queue 8
size 1
table 336 -
table - 0
avail 00352 0
used 360 -
used - 0
ready 1
valid
next-avail 65530
u16 18 65530
next-used 65530
pop
avail - 0
pop
size 8
begin
next
head
next
next
head
bytes 00088 0 0 0 128
sum
dump 0 4
put 3 0x200
size 00000
valid
pop
question
event 0
ready 1
next-used 0xFFFB
size 16
question
chain 5
next
next
walk
size 0x00000000000000000008
used 352 0
size 65535
avail 320 -
dump 16 4
chain 5
next-avail 0xD30B
used 352 4294967295
sum
state
next-avail 0x0000000000000000ce9b
next-used 0x0000000000000000fffa
state
valid
state
used - 4294967295
begin
state
ready 0
chain 4
next
next
event 1
pop
avail 0 -
table 320 0
back
ready 1
put 8 4294967295
ready 00001
size 8
valid
back
state
state
question
ready 1
next-used 0x290f
put 0x9 512
put 6 0x1020304
next-avail 0
table 104113766 0
table 328 0
put 4 16909060
size 1
put 0 16909060
back
next-avail 0xe16c
chain 0
walk
event 1
state
pop
avail 0xffffffed 0
table 0x9b323961 -
used - 4294967295
begin
head
head
writable
head
back
back
head
head
head
head
state
state
begin
readable
avail 32 0
valid
next-used 1
sum
pop
\Z@*@h&$)=RL])i|GuSS@ql4.$P6&8OG
state
event 0
put 0 512
state
event 0
valid
pop
next
event 1
pop
put 0 1
table 0x7D038F05 1
begin
used - 0
pop
state
state
pop
question
next-used 2
begin
head
back
u16 333 5466
head
bytes 218 0xa2 0x48
back
walk
chain 1
next
ask
table 4294967240 0x0
size 8
ready 1
bytes
chain 8
next
used - 1
state
back
state
begin
begin
state
sum
state
begin
0
desc 9223372036854775808 0 0x0 0x0 0
state
next-used 53303
next-avail 65535
begin
begin
ready 1
state
size 16
state
pop
question
avail 0 -
event 1
state
pop
avail 4 -
avail 4 -
avail 4 0
pop
walk
state
state
valid
back
state
table 352 0
table - 0
sum
next-avail 1
next-used 0x2
valid
pop
put 5 2147483648
dump 16 4
ask
put 5 32
next-avail 65530
next-used 65530
avail - 0xffffffff
ready 1
used 0x140 1
avail 12 0
state
begin
pop
pop
next
next
state
used 322 1
state
valid
sum
state
used 322 -
chain 7
next
next
next
table 360 0
state
avail 4294967268 00000
state
sum
memory 944
queue 4
table 0 0
avail 0x80 0
used 208 -
used - 0
ready 1
valid
next-avail 0x00000000000000003569
u16 0x00000000000000000082 13673
next-used 65528
0x
back
desc 1521022431988548 18446744073709555711 1122316819 16832 5486
n>|KayS2.gF*~Myh
next-
desc 0x30 1032864 16 2 0
u16 00134 3
u16 0x82 13674
u16 0x8000000000000000 1
begin
head
head
put 0 0
desc 944 0 0 0 0
valid
state
put 65123 4294971391
pop
u8
region 0x10000000002 0x2 0xc6
valid
# state
rWl1L`o$yIARRX4Yp9WFY9YH2B[
used 4294967296 1185926300
state
{N(M [
pop
question
po#p
readable
reset 1
size 0x10000
bytes 0x3b1 0 0
stop
E9UH0[Ey|^OPBG`=+aCXVI5=9%\Nt9`8
state
pop
question
u32 18446744073709551615 0x0
state
head
put 12543 518
state
u8
desc 18446744073709551615 0x00000000000000000000 0x0 0 0
pop
question
desc 946 00000 00000 0 0x0
region 0 0 0x0
used - 0
pop
question
state
u32 9223372036854775808 0
# next
used 3265414121 -
used - 0xB2742CA1
bytes 0x3a8 00000 0
nothing xxxxxxxxxxxxxxxxxxxxxxxxxxxxxxxxxxxxxxxxxxxxxxxxxxxxxxxxxxxxxxxxxxxxxxxxxxxxxxxxxxxxxxxxxxxxxxxxxxxxxxxxxxxxxxxxxxxxxxxxxxxxxxxxxxxxxxxxxxxxxxxxxxxxxxxxxxxxxxxxxxxxxxxxxxxxxxxxxxxxxxxxxxxxxxxxxxxxxxxxxxxxxxxxxxxxxxxxxxxxxxxxxxxxxxxxxxxxxxxxxxxxxxxxxxxxxxxxxxxxxxxxxxxxxxxxxxxxxxxxxxxxxxxxxxxxxxxxxxxxxxxxxxxxxxxxxxxxxxxxxxxxxxxxxxxxxxxxxxxxxxxxxxxxxxxxxxxxxxxxxxxxxxxxxxxxxxxxxxxxxxxxxxxxxxxxxxxxxxxxxxxxxxxxxxxxxxxxxxxxxxxxxxxxxxxxxxxxxxxxxxxxxxxxxxxxxxxxxxxxxxxxxxxxxxxxxxxxxxxxxxxxxxxxxxxxxxxxxxxxxxxxxxxxxxxxxxxxxxxxxxxxxxxxxxxxxxxxxxxxxxxxxxxxxxxxxxxxxxxxxxxxxxxxxxxxxxxxxxxxxxxxxxxxxxxxxxxxxxxxxxxxxxxxxxxxxxxxxxxxxxxxxxxxxxxxxxxxxxxxxxxxxxxxxxxxxxxxxxxxxxxxxxxxxxxxxxxxxxxxxxxxxxxxxxxxxxxxxxxxxxxxxxxxxxxxxxxxxxxxxxxxxxxxxxxxxxxxxxxxxxxxxxxxxxxxxxxxxxxxxxxxxxxxxxxxxxxxxxxxxxxxxxxxxxxxxxxxxxxxxxxxxxxxxxxxxxxxxxxxxxxxxxxxxxxxxxxxxxxxxxxxxxxxxxxxxxxxxxxxxxxxxxxxxxxxxxxxxxxxxxxxxxxxxxxxxxxxxxxxxxxxxxxxxxxxxxxxxxxxxxxxxxxxxxxxxxxxxxxxxxxxxxxxxxxxxxxxxxxxxxxxxxxxxxxxxxxxxxxxxxxxxxxxxxxxxxxxxxxxxxxxxxxxxxxxxxxxxxxxxxxxxxxxxxxxxxxxxxxxxxxxxxxxxxxxxxxxxxxxxxxxxxxxxxxxxxxxxxxxxxxxxxxxxxxxxxxxxxxxxxxxxxxxxxxxxxxxxxxxxxxxxxxxxxxxxxxxxxxxxxxxxxxxxxxxxxxxxxxxxxxxxxxxxxxxxxxxxxxxxxxxxxxxxxxxxxxxxxxxxxxxxxxxxxxxxxxxxxxxxxxxxxxxxxxxxxxxxxxxxxxxxxxxxxxxxxxxxxxxxxxxxxxxxxxxxxxxxxxxxxxxxxxxxxxxxxxxxxxxxxxxxxxxxxxxxxxxxxxxxxxxxxxxxxxxxxxxxxxxxxxxxxxxxxxxxxxxxxxxxxxxxxxxxxxxxxxxxxxxxxxxxxxxxxxxxxxxxxxxxxxxxxxxxxxxxxxxxxxxxxxxxxxxxxxxxxxxxxxxxxxxxxxxxxxxxxxxxxxxxxxxxxxxxxxxxxxxxxxxxxxxxxxxxxxxxxxxxxxxxxxxxxxxxxxxxxxxxxxxxxxxxxxxxxxxxxxxxxxxxxxxxxxxxxxxxxxxxxxxxxxxxxxxxxxxxxxxxxxxxxxxxxxxxxxxxxxxxxxxxxxxxxxxxxxxxxxxxxxxxxxxxxxxxxxxxxxxxxxxxxxxxxxxxxxxxxxxxxxxxxxxxxxxxxxxxxxxxxxxxxxxxxxxxxxxxxxxxxxxxxxxxxxxxxxxxxxxxxxxxxxxxxxxxxxxxxxxxxxxxxxxxxxxxxxxxxxxxxxxxxxxxxxxxxxxxxxxxxxxxxxxxxxxxxxxxxxxxxxxxxxxxxxxxxxxxxxxxxxxxxxxxxxxxxxxxxxxxxxxxxxxxxxxxxxxxxxxxxxxxxxxxxxxxxxxxxxxxxxxxxxxxxxxxxxxxxxxxxxxxxxxxxxxxxxxxxxxxxxxxxxxxxxxxxxxxxxxxxxxxxxxxxxxxxxxxxxxxxxxxxxxxxxxxxxxxxxxxxxxxxxxxxxxxxxxxxxxxxxxxxxxxxxxxxxxxxxxxxxxxxxxxxxxxxxxxxxxxxxxxxxxxxxxxxxxxxxxxxxxxxxxxxxxxxxxxxxxxxxxxxxxxxxxxxxxxxxxxxxxxxxxxxxxxxxxxxxxxxxxxxxxxxxxxxxxxxxxxxxxxxxxxxxxxxxxxxxxxxxxxxxxxxxxxxxxxxxxxxxxxxxxxxxxxxxxxxxxxxxxxxxxxxxxxxxxxxxxxxxxxxxxxxxxxxxxxxxxxxxxxxxxxxxxxxxxxxxxxxxxxxxxxxxxxxxxxxxxxxxxxxxxxxxxxxxxxxxxxxxxxxxxxxxxxxxxxxxxxxxxxxxxxxxxxxxxxxxxxxxxxxxxxxxxxxxxxxxxxxxxxxxxxxxxxxxxxxxxxxxxxxxxxxxxxxxxxxxxxxxxxxxxxxxxxxxxxxxxxxxxxxxxxxxxxxxxxxxxxxxxxxxxxxxxxxxxxxxxxxxxxxxxxxxxxxxxxxxxxxxxxxxxxxxxxxxxxxxxxxxxxxxxxxxxxxxxxxxxxxxxxxxxxxxxxxxxxxxxxxxxxxxxxxxxxxxxxxxxxxxxxxxxxxxxxxxxxxxxxxxxxxxxxxxxxxxxxxxxxxxxxxxxxxxxxxxxxxxxxxxxxxxxxxxxxxxxxxxxxxxxxxxxxxxxxxxxxxxxxxxxxxxxxxxxxxxxxxxxxxxxxxxxxxxxxxxxxxxxxxxxxxxxxxxxxxxxxxxxxxxxxxxxxxxxxxxxxxxxxxxxxxxxxxxxxxxxxxxxxxxxxxxxxxxxxxxxxxxxxxxxxxxxxxxxxxxxxxxxxxxxxxxxxxxxxxxxxxxxxxxxxxxxxxxxxxxxxxxxxxxxxxxxxxxxxxxxxxxxxxxxxxxxxxxxxxxxxxxxxxxxxxxxxxxxxxxxxxxxxxxxxxxxxxxxxxxxxxxxxxxxxxxxxxxxxxxxxxxxxxxxxxxxxxxxxxxxxxxxxxxxxxxxxxxxxxxxxxxxxxxxxxxxxxxxxxxxxxxxxxxxxxxxxxxxxxxxxxxxxxxxxxxxxxxxxxxxxxxxxxxxxxxxxxxxxxxxxxxxxxxxxxxxxxxxxxxxxxxxxxxxxxxxxxxxxxxxxxxxxxxxxxxxxxxxxxxxxxxxxxxxxxxxxxxxxxxxxxxxxxxxxxxxxxxxxxxxxxxxxxxxxxxxxxxxxxxxxxxxxxxxxxxxxxxxxxxxxxxxxxxxxxxxxxxxxxxxxxxxxxxxxxxxxxxxxxxxxxxxxxxxxxxxxxxxxxxxxxxxxxxxxxxxxxxxxxxxxxxxxxxxxxxxxxxxxxxxxxxxxxxxxxxxxxxxxxxxxxxxxxxxxxxxxxxxxxxxxxxxxxxxxxxxxxxxxxxxxxxxxxxxxxxxxxxxxxxxxxxxxxxxxxxxxxxxxxxxxxxxxxxxxxxxxxxxxxxxxxxxxxxxxxxxxxxxxxxxxxxxxxxxxxxxxxxxxxxxxxxxxxxxxxxxxxxxxxxxxxxxxxxxxxxxxxxxxxxxxxxxxxxxxxxxxxxxxxxxxxxxxxxxxxxxxxxxxxxxxxxxxxxxxxxxxxxxxxxxxxxxxxxxxxxxxxxxxxxxxxxxxxxxxxxxxxxxxxxxxxxxxxxxxxxxxxxxxxxxxxxxxxxxxxxxxxxxxxxxxxxxxxxxxxxxxxxxxxxxxxxxxxxxxxxxxxxxxxxxxxxxxxxxxxxxxxxxxxxxxxxxxxxxxxxxxxxxxxxxxxxxxxxxxxxxxxxxxxxxxxxxxxxxxxxxxxxxxxxxxxxxxxxxxxxxxxxxxxxxxxxxxxxxxxxxxxxxxxxxxxxxxxxxxxxxxxxxxxxxxxxxxxxxxxxxxxxxxxxxxxxxxxxxxxxxxxxxxxxxxxxxxxxxxxxxxxxxxxxxxxxxxxxxxxxxxxxxxxxxxxxxxxxxxxxxxxxxxxxxxxxxxxxxxxxxxxxxxxxxxxxxxxxxxxxxxxxxxxxxxxxxxxxxxxxxxxxxxxxxxxxxxxxxxxxxxxxxxxxxxxxxxxxxxxxxxxxxxxxxxxxxxxxxxxxxxxxxxxxxxxxxxxxxxxxxxxxxxxxxxxxxxxxxxxxxxxxxxxxxxxxxxxxxxxxxxxxxx
# next
avail 99999999999999999999 99999999999999999999 99999999999999999999
sum
put:
next-avail 8
state
begin
bytes 946 0 0
begin
begin
head
bytes 581 2 243 0x00000000000000000091 24 0xdb
head
region 12858951906050965700 944 0
put 566 1
event 4097
u64 0
dump 12 4
pop
next
question
bytes
begin
writable
memory 8
bytes 0 0 0
begin
0x
state
dump 4 2
u8
state
# valid
memory 1048577
question
sum
state
dump 0 16
begin
region 0x10000000000 0x0000000000000000000a 0
sum
ask
region 0x10000000000000001 0x5e0e323fce274 0xc45d97fcd2647
size
memory 0x100001
valid
back
bytes 4 4 254
state
	pop	
head
begin
pop
question
ready 0
u16 9223372036854775808 1
head
pop 99999999999999999999
sum
back x
next-used 65537
-
state
state
u16 - - -
pop
walk
writable
u16 0xFFFFFFFFFFFFFFFD 2
0x
state
sum
ready 0x-1
state
pop
walk
question
state
sum
memory 1005
region 0 00010 0x1d8
region 10 70 436
region 80 00464 120
region 544 0x1cc 0xd6
queue 4
table 944 0
avail 112 0
used 0x000000000000000000b0 0
ready 1
valid
next-avail 10295
u16 0x9a 10295
next-used 0
bytes 0x000000000000000003e2 163 185 224 9 0x3 0x52 112
state
dump 0xd8 12
bytes 00662 48 0x8b 13 0 0 0 0x0 0 1 0 0x0 0
u16 695 34892
u16 0x0000000000000000009a 0x2838
region 0 1004 0
put 6 613
desc 630 888352 4096 1 2
desc 630 632304 0x0000000000007fffffff 2 2
u64 2371225588682340381 0x28d
dump 614 38
begin
region 136 1004 0
valid
pop
next
next
put 0 1
u16 280 59096
desc 646 18446744073709549244 0x1000 0 0
put 0x1 0x80000000
put 3 512
put 1 1
put 3 2147483648
put 5 32
put 2 1
put 4 0
put 1 0x1
put 3 32
put 65535 0x200
put 0 0
put 0 512
put 2 1
put 2 0
put 5 512
put 0 4294967295
put 1 0
dump 0x00000000000000000001 6
pop
pop
next
question
pop
question
desc 614 0x0000545f9799673aea3f 2147483648 45722 1
back
state
writable
region 112 0x3ec 0
valid
readable
chain 2
next
next
next
begin
head
writable
next
next
put 0 1
ask
avail 0x57 -
avail - 0
sum
u64 400 14360624382673882501
sum
region 203 525 10587901031016775440
dump 614 4
u64 00134 8094188844838755596
state
back
desc 0x286 998592 0 1 32768
walk
u16 0x9a 10299
event 1
question
ask
begin
desc 630 155756000518246481 0x00000000000000000001 16992 65535
u32 376 2147483648
put 0 4294967295
state
bytes 267 178 18 145 104
pop
next
next
put 0 2147483648
question
desc 0x286 0xfdc60 1 0x00000000000000000002 0x3
region 198 8 342
u32 0x8000000000000000 0x0000000000000000000f
fill 86 7 0x71
state
u16 154 0x283c
region 0xfffffffffffffffd 499 18446744073709551615
chain 0x2
next
next
state
bytes 154 56 40
sum
reset
size 4
table 944 0
avail 112 0x00000000000000000000
used 176 0
ready 1
used 6 0
ask
dump 0xd8 70
chain 0
readable
next
u64 0x376 0x526a7a19684251a4
back
u16 00476 59459
desc 0x276 668000 2147483647 0x00000000000000000003 3
event 1
dump 0x266 70
state
pop
pop
question
chain 1
next
next
u16 0x9a 0
back
u16 154 65533
desc 0x276 18446744073709551561 2147483648 0 4
region 948 0x3ec 0x00000000000000000000
state
fill 846 21 0xd3
pop
writable
question
chain 2
next
next
u16 0x9a 65533
ask
fill 0x33D 2 97
u16 154 65532
u16 981 37806
u16 154 0xFFFF
u16 154 2
desc 0x266 18446744073709550131 1 3 0
next-used 0x9BB9
chain 1
next
writable
state
u64 0x61 0x70238f83e014f448
head
put 0x2 1
event 1
bytes 18446744073709551615 128 8
head
u16 154 0
u32 91 0xeff6992c
begin
desc 00614 89264 0x7fffffff 0x61F8 3
chain 2
next
walk
desc 00630 734160 4294967295 2 4
pop
next
readable
put 0 1
question
desc 646 983536 2147483647 7026 0
u16 154 4
state
u64 573 12911914690365060177
desc 630 4331443543680489756 2147483648 2 1
bytes 0xED 00139 56 144 91 0x79 25 51 193 154 25 0x000000000000000000f0
state
bytes 0x296 249 253 255 255 0xff 0xff 0xff 0xff 0 0x0 0 0
pop
stop
valid
pop
question
u32 979 2463856749
dump 152 12
next
state
sum
memory 0x1B4
queue 00001
table 0 0x0
avail 16 0
used 24 0
ready 1
valid
next-avail 65530
bytes 18 250 255
next-used 0xfffa
event 1
u16 22 65533
begin
desc 0 2202602163756735423 16 00000 00000
u16 0x14 0
u16 18 65531
walk
head
next
writable
head
head
sum
back
begin
u16 18 0xfff9
desc 0 0x287a0 65536 0 0x0
u16 20 00000
u16 18 65530
put 0 1
begin
head
head
head
head
put 0 2147483648
state
dump 24 22
bytes 0x0 0x5e 246 0xff 255 0xff 255 255 255 0 2 0x0 0 2 0 0 0
u16 20 0
u16 18 0xfffb
pop
next
next
put 0 16909060
question
question
pop
begin
head
head
head
head
state
desc 0 0x11610 1 0x0 0
bytes 20 0 0x0
u16 18 65532
begin
bytes 2 2
pop
next
writable
put 0 1
question
state
event 0
pop
question
dump 0 38
state
chain 0
readable
state
desc 0 18446744073709549744 1 2 0x00000000000000000000
u16 20 0
u16 18 65533
stop
state
question
back
pop
question
chain 0
writable
question
state
pop
question
begin
u16 18 65531
desc 0 18446744073709550926 0x00000000000000000200 0x0 0
u16 20 0
u16 18 65532
begin
head
region 0 0x1b4 00000
bytes 0x86 171 0x48 33 59 00176 0xF8 0 0x52 33 0x42 161
head
readable
back
head
next
head
put 0x0 0x1020304
put 0 32
chain 0
next
readable
next
next
desc 0 17312 16 0x0 0
u16 20 0
u16 18 65533
u16 22 2
state
begin
next
bytes 22 12
begin
walk
head
next
next
walk
head
next
head
put 0 0x80000000
desc 0x0 0x4c670 0 0 0
u16 20 0
u16 18 65534
begin
u32 98 0xb0b7eb1
head
back
next
readable
head
put 0 0
pop
question
question
state
pop
stop
desc 0 0x000000000000000c86c0 1 0 0
u16 20 0x00000000000000000000
u16 0x12 65535
question
pop
next
walk
put 0 2147483648
bytes 0 36 00012 228 0x52 106 00163 170 94 16 0 0 0 0 0 0 0x0
u16 20 0
bytes 18 0 0
stop
begin
head
region 46 6 256
next
put 0 32
ask
begin
next
next
walk
next
head
head
state
state
sum
memory 430
queue 8
table 0 0
avail 128 0
used 152 0
valid
event 1
bytes 0x78 0 0 0x0 0x80
state
bytes 24 255 255 0xff 0xff
chain 6
writable
next
next
next
bytes 24 0xff 255 255 127
begin
head
head
head
head
head
head
next
readable
next
state
begin
bytes 40 255 00255 0xff 0xff
u16 130 8
bytes 0x92 253
pop
begin
pop
bytes 148 255 255
state
pop
question
sum
desc 0x10 745904 0x10000 3 2
desc 0x20 299120 0x200 3 00006
desc 96 0x864A0 1 0x3 0
desc 0 54768 0x00000000000000000010 3 0x5
desc 80 923728 0x10 3 0x7
desc 0x70 18446744073709549783 0x200 3 3
desc 48 0x98f5ca0db55ff034 0 2 0
u16 132 1
u16 130 00009
bytes 29 4
pop
pop
question
bytes 134 223
u16 130 0
desc 00048 51232 0x10000 0x1 5
desc 0x50 18446744073709551454 0 1 7
desc 112 11959072373838005591 16 1 6
desc 0x60 124464 16 1 1
desc 16 18446744073709548408 0x200 1 00000
desc 0 18446744073709548317 0 3 4
desc 64 0xd780702c72e26662 16 3 0x2
desc 00032 18446744073709549137 4096 2 0
bytes 132 3 0
u16 130 1
state
desc 96 0x84005b77d1d3a36e 4294967294 0 7
put 0 4294967295
begin
head
head
question
begin
question
fill 75 7 0x00000000000000000049
u16 134 0
u16 130 2
u16 130 0xfffe
state
u16 0x82 0
bytes 0 0 0x57 10 0 0 0 0 0 0 2 0 0 1 0 3 0
desc 0x30 14867603010316072451 00000 3 5
desc 80 0xc93b0 65536 3 4
desc 64 6292734965687904345 512 3 0x7
desc 0x70 285152 0 2 0
u16 132 0
u16 130 1
pop
question
desc 32 0xadee0 1 00001 5
desc 80 615904 0x00000000000000000010 1 3
desc 00048 18446744073709551134 16 1 0x4
desc 64 128288 16 2 0
u16 134 2
u16 130 0x00000000000000000002
begin
desc 32 950432 0xfffffffe 3 2
state
desc 0 13376432792599539536 0xfffffffe 0x1 3
begin
back
next
bytes 8 0 0x00000000000000000000 0 128
bytes 48 227 0x00000000000000000099 59
region 0 0x1ae 0
readable
head
head
head
ask
u16 130 32767
bytes 110 161 0x73 0x59 161 248
bytes 0x95 51
u16 0x82 65534
chain 0x1
next
next
writable
walk
bytes 0x8b 32
desc 0x60 18446744073709550084 0 35025 6
chain 5
next
writable
next
begin
bytes 179 1
state
desc 0 339216 512 1 5
bytes 80 122 240 0xff 0xff 255 255 255 255 0 0 0 0 1 0 4 0
desc 64 18446744073709549575 1 3 1
desc 00016 26368 4096 3 6
desc 0x60 18446744073709551160 1 3 7
desc 112 1389724848077594876 1 00002 0x0
u16 144 0
u16 130 65535
put 3 0x1020304
begin
put 5 0x0
u16 130 0xfffd
chain 7
u16 142 65535
u16 130 0x0000000000000000fffe
desc 0 0xc30f0 1 1 5
desc 80 464688 65536 1 1
desc 00016 18446744073709550876 0x1000 1 7
desc 0x70 754880 512 0x00000000000000000001 4
desc 64 3604183356963176958 00016 1 2
desc 32 0xfee222d93d565346 16 1 6
desc 0x60 0xca6a8b5b732df332 16 1 0x3
desc 48 184320 16 0 0
u16 0x90 0
u16 00130 65535
desc 00080 11034718874725439968 00512 3 7
desc 112 7481103922562798595 16 3 3
desc 48 64864 4096 3 00002
desc 32 13430278155728993992 0x1000 3 0
desc 00000 371680 0x10000 3 00004
desc 64 18446744073709549793 512 3 1
desc 16 0x97d0101d7b09d908 00512 2 0
u16 0x92 5
u16 130 0
begin
u16 0x84 32768
u16 130 1
u16 130 0x3
bytes 0x18 255 255 255 0xff
state
begin
head
head
pop
bytes 32 0x4a 0xdc 28 49 223 0xc8 0x0000000000000000002b 118 0 0 0 0 3 0 0x7 0
desc 112 0x40fc0 65536 00003 0x5
desc 80 0x67560 0x00000000000000000000 3 1
desc 16 452784 1 3 3
desc 48 7619238435440730677 4096 0x3 4
bytes 64 138 0x000000000000000000f4 0x000000000000000000ff 255 0xff 255 0x000000000000000000ff 255 0 2 0 0x0 2 0 0 0
u16 138 2
u16 130 0x4
u16 130 0xFFFE
bytes 0x55 0x67
valid
pop
question
state
sum
memory 298
queue 0x8000
size 8
table 32 0
avail 0x12 0x0
used 64 0
ready 1
valid
event 1
begin
bytes 34 128
pop
question
u16 22 2
bytes 20 1 0
begin
next
head
bytes 56 255 255 0xff 255
head
head
put 2 0x80000000
begin
writable
head
desc 32 0xd6a40 16 1 7
desc 144 18446744073709549312 0x1000 3 5
desc 00112 10370523409775715866 16 3 6
desc 128 18446744073709548649 512 0x00000000000000000003 4
desc 0x60 0xfffffffffffff0a4 512 3 1
desc 48 0x712b0 0x10000 3 3
desc 0x50 220144 512 3 00001
u16 24 0
u16 20 0x2
desc 48 559392 4096 1 5
desc 0x70 0xfffffffffffff341 0x1000 1 00000
desc 32 0xeda2506667603de2 1 1 3
desc 80 314608 16 1 2
desc 64 6633690531661616885 4096 1 7
desc 144 18446744073709547589 512 1 4
desc 96 25776 512 3 6
desc 128 15275467638202177811 65536 0x00000000000000000003 1
u16 26 1
u16 20 3
head
head
head
head
back
desc 0x00000000000000000090 1222381941423514271 1 1 1
desc 48 0xcc5b0 0x1000 1 0x0
desc 0x00000000000000000020 4464625237587585078 16 1 2
desc 64 0x0000fffffffffffffcbe 0x00000000000000010000 3 4
desc 96 18446744073709549973 0x0 00003 0x5
bytes 112 0xf5 243 255 0xff 0xff 255 0xff 0xff 00000 0 0 0 3 0 0 0
u16 00028 7
u16 20 4
desc 32 0xae097002a66443a8 1 1 4
desc 96 0xeb8f0 4096 1 7
desc 144 0xacdeb9cedb1a35f3 1 3 7
u16 30 0
u16 20 5
desc 48 221344 0 1 2
desc 64 18446744073709551321 0x10000 1 5
desc 112 650128 4096 0x00000000000000000003 1
u16 00032 1
u16 20 6
begin
walk
next
next
head
head
back
head
head
put 2 1
put 0 16909060
put 1 512
u16 34 4
u16 20 7
pop
next
next
next
put 7 2147483648
pop
next
next
walk
next
put 0 00000
back
put 0x2 2147483648
desc 64 0xfffffffffffff87f 4096 1 3
bytes 80 128 0x7c 14 0x0 0 0 0 0 0x0 16 0 0 1 0 4 0
desc 96 18446744073709549906 00000 1 1
desc 48 12839364846305341830 512 3 3
u16 36 2
u16 0x14 8
pop
writable
writable
put 0 16909060
bytes 26 3
begin
readable
back
head
bytes 107 1
head
head
put 0x00000000000000000000 0x20
put 1 0x20
chain 0
next
chain 0x6
bytes 0x2b 115 41 176 0xe0
chain 1
desc 144 0x8b460 0x1000 1 6
bytes 128 0x8e 32 0x84 0x4c 0x67 227 0x8e 163 0 16 0 0 1 0 1 0
desc 48 0x526780f8b67f6445 0x10000 1 0
bytes 32 0xe0 0x73 1 0 0 0 0 0 0x0 0x2 0 0x0 3 0 3 0
bytes 80 00048 0xf7 255 255 0xff 255 0xff 255 0 0 0 0 3 0 4 0
desc 96 0xc38b0 0 3 0x00000000000000000002
desc 64 0x707d0019d09d25f3 0 3 5
desc 112 77248 4096 3 1
u16 22 7
u16 20 9
bytes 00127 0x00000000000000000001
state
desc 80 18446744073709549279 1 0x1 0x00000000000000000000
desc 32 907920 16 1 6
desc 0x80 466992 1 1 5
desc 0x70 18446744073709551014 0 1 0
u16 24 3
u16 20 0x0000000000000000000a
pop
writable
put 0 1
bytes 98 0x89 160 0x000000000000000000d3 67 227 00043 24 121 195 25 41
desc 32 0x9180 4294967294 1 3
u16 20 8
desc 144 0x1ca80 65536 1 0
desc 32 7165174205390053322 65536 3 2
desc 64 547056 16 3 6
desc 128 7258222798706125436 65536 3 00001
desc 0x30 2368219204018016155 1 3 4
desc 0x60 0x67F0EEF51C0C4003 16 00003 0x00000000000000000002
u16 22 7
u16 20 9
begin
next
next
walk
next
head
put 7 00512
state
sum
memory 820
queue 4
table 0 -
table - 0
avail 128 00000
used 0x310 0
ready 1
valid
next-avail 65532
u16 130 65532
next-used 65532
desc 0x10 82736 0x1000 0 0
u16 132 1
u16 130 65533
u16 130 65534
bytes 0x00000000000000000088 0x00000000000000000005 0
u16 130 65535
chain 65535
next
pop
next
readable
next
put 00001 0x80000000
bytes 0x8C 64
desc 32 452736 0 1 1
desc 16 0xFFFFFFFFFFFFF346 0x10000 3 0
desc 0 18446744073709550550 1 3 3
desc 48 18446744073709549619 16 2 0x00000000000000000000
u16 00138 2
u16 0x82 0
dump 784 0x2
valid
u16 0x84 0xffff
bytes 130 1 0
bytes 28 0
state
begin
back
u32 604 1237042459
next
next
next
u16 130 65532
desc 0 616528 04096 2 0
u16 132 0
bytes 0x82 0xFD 255
next
bytes 197 0xb2 193 0x9b 9 201 34 24 123 162
head
put 0 0x200
u16 0x86 0x8000
u16 0x82 65534
chain 0x3
readable
fill 131 7 10
ask
ask
region 20 36 518
 	
state
pop
state
fill 0x27b 14 152
desc 0x212 18446744073709550200 2147483647 50872 32768
bytes 00540 68
begin
head
u16 0x31b 0xf1a8
head
head
head
next
head
back
state
begin
bytes 0x21a 23
bytes 530 00096 218 0x00000000000000000009 0 0 0 0 0 254 255 255 255 0 0 4 0
state
chain 3
walk
u16 0x236 45305
begin
begin
bytes 539 0x000000000000000000bf
pop
QUEUE 8
begin
head
u64 00151 0x5606eea29526a366
pop
question
begin
region 18 820 0
begin
put 2 32
state
begin
pop
question
begin
region 0xfffffffffffffff6 26 0xba
pop
question
stop
put 1 16909060
state
fill 0x170 00017 8
begin
begin
begin
begin
put 2 0x00000000000000000000
put 0 32
put 3 0x80000000
put 0 0x1020304
put 1 0x200
put 2 0
put 0x00000000000000000003 0x00000000000000000200
bytes 521 8
bytes 0x206 0 0 0 0 1 0 0 0 1 0 0x1 0
state
fill 386 11 18
put 00003 1
put 1 4294967295
put 00003 0xFFFFFFFF
put 3 0x000000000000ffffffff
put 0 2147483648
put 3 512
put 0 00000
put 2 2147483648
put 0 0
put 3 0x200
put 0 0x200
put 1 1
begin
begin
readable
writable
next
head
back
head
head
bytes 0x220 36
pop
question
state
begin
ask
begin
ask
question
pop
question
region 0 820 0
chain 1
next
next
desc 0x212 0x87232c64dc77e20d 2147483648 3 3
question
question
begin
begin
begin
head
head
bytes 522 0x00000000000000000000 0 0 0
bytes 0x21a 255 255 00255 0xff
state
question
pop
chain 3
readable
bytes 527 92
put 1 0x80000000
pop
question
begin
stop
bytes 0x00000000000000000222 176 136 0x00000000000000000009 0 0 0x0 0 0
stop
state
chain 0x2
writable
chain 0
walk
readable
readable
u32 146 210656786
begin
valid
bytes 546 178 221 188 227 229 0xd9 0x13 0x5B
state
sum
memory 491
region 0xffffffffffffffac 82 0x0
region 0 00408 82
queue 2
table 0 -
table - 0
avail 128 -
avail - 0
used 00236 -
used - 0
ready 1
valid
next-avail 13310
u16 212 0x000000000000000033fe
next-used 0x000000000000000033fe
event 1
bytes 111 38
bytes 108 1
begin
head
desc 82 41776 16 0 0
u16 0x000000000000000000d6 0
u16 212 13311
chain 0
next
next
next
bytes 87 240
desc 82 568912 0x000000000000ffffffff 2 0
begin
u32 0xaf 0x728c75e5
u16 188 25817
head
back
head
head
bytes 0x5A 255 255 255 0x7f
put 0 0x80000000
put 0 4294967295
state
bytes 00098 128 226 1 0x0 0x0 0 0 0 0 0x00000000000000000000 0x00000000000000000000 0 0 0x0 0 0
u16 212 0x00000000000000003402
begin
ask
state
pop
question
region 0 0x1ea 0
desc 98 18446744073709551128 00001 0 0
u16 214 1
u16 212 13315
u16 00212 0x3402
bytes 0x151 0x000000000000000000df
u16 212 46079
back
chain 1
writable
u16 216 0
bytes 0xd4 0 180
bytes 90 255 0xff 0xff 0x0000000000000000007f
u16 0xD6 1
u16 0x000000000000000000d4 46081
desc 0x62 0x7d40eb52b0817a60 0 63785 0
bytes 00216 255 255
u16 0xD4 46082
state
u16 0xd6 0x0
u16 212 0xb403
back
fill 281 19 232
state
begin
u16 212 13309
desc 82 18446744073709549016 65536 1 1
desc 0x62 5597037082309437000 00001 2 0
u16 216 0
u16 0xd4 0x33fe
desc 82 486400 00001 0xcb8 1
bytes 0xd4 252 51
desc 82 543904 0xfffffffe 3 0
u16 212 0x3400
pop
question
u16 212 13309
desc 0x62 0x00000000000000055120 16 3 0
desc 82 16979730354181871843 16 0 0
u16 0x000000000000000000d8 1
u16 212 0x33fe
desc 82 18446744073709549518 0x00000000000000000010 0 0
u16 214 0
u16 212 13311
u64 0x1c2 0x199c42a43627b4f3
begin
head
head
head
put 1 4294967295
put 00000 32
begin
head
head
head
head
u64 202 0x6f18978e6d93e5c3
head
head
head
desc 98 0xfb590 2147483647 2 1
begin
head
begin
head
head
bytes 0x5a 17
next
readable
head
pop
question
bytes 100 16
bytes 0x000000000000000000d8 0 0
u16 212 13312
bytes 337 0x0000000000000000001b
bytes 0x6a 112
pop
writable
put 0 32
question
pop
question
begin
readable
next
bytes 0x13e 1
bytes 95 0xac
bytes 0x6a 00000 0 0 128
bytes 106 1 0 0 0
head
u64 85 4732845899051008326
desc 98 987200 65536 0 0
u16 214 0x1
u16 212 0x3401
fill 449 0x17 128
u16 0xd4 0x000000000000000033ff
sum
u16 212 13312
desc 82 433216 0x1000 3 1
desc 98 4720220114809945719 4096 2 0
u16 0xd6 0
u16 212 13313
desc 00098 18446744073709551209 0 2 0x0
bytes 216 1 0x0
u16 0xd4 13314
begin
head
bytes 82 0x6a 99 0x41 00176 55 218 240 175 0x0 0 1 0 2 0 0 0
u16 214 0
u16 0xd4 13315
next
next
writable
next
head
readable
back
put 0 32
put 1 32
u16 212 46081
state
begin
pop
question
bytes 83 227
u16 67 0x9e08
u16 0xd4 13313
desc 82 0x90a2129c459c9932 512 1 1
desc 0x62 18446744073709551585 1 2 0
u16 216 0
u16 212 0x3402
bytes 98 193
u16 212 0x33ff
begin
bytes 106 255 255 255 127
head
walk
readable
next
readable
desc 98 18446744073709550401 0x10 3 0x0
desc 82 432560 0 2 0
bytes 00216 0x1 0
u16 212 13312
u16 212 13313
desc 98 0x0000000000000007b8e0 0x1000 0 0
u16 216 1
u16 0xd4 13314
bytes 327 64
put 1 0
begin
u64 0x0000000000000000012c 10392422946183386677
bytes 325 0x00000000000000000008
bytes 106 0x1 0 0x0 0
head
head
bytes 106 0 0 0 0x0
head
head
next
walk
next
put 1 2147483648
state
state
sum
memory 308
queue 2
table 0 0
avail 32 0
used 0x2C 0
ready 0x1
valid
next-avail 15950
u16 34 15950
next-used 0x13a7
begin
head
writable
head
next
walk
next
bytes 8 1 0 0 0
chain 0x00000000000000000000
walk
bytes 24 0 0 0 128
chain 0
chain 1
next
writable
desc 16 876080 0 3 0
chain 0x1
next
next
next
chain 0x00000000000000000001
readable
desc 16 0xf18e144271609e69 4294967295 0 0
bytes 36 1 0
u16 34 15951
chain 1
next
writable
begin
head
readable
next
head
head
head
head
walk
walk
head
next
put 1 0
desc 16 0xe9f2c7ed4ee845e6 0x0 1 65535
bytes 8 0 00000 0 0x80
pop
question
bytes 0 0xe2 0xd6 0x0000000000000000002e 00061 41 0xc8 246 0x18 255 255 255 255 0x2 0 0 0
u16 38 0
u16 0x22 15952
pop
next
readable
put 0 32
question
state
chain 65535
next
writable
writable
bytes 30 0
chain 0
state
desc 0 869600 4294967295 1 1
desc 16 18446744073709548845 0 2 0
u16 36 0
u16 34 15953
desc 0x0 836784 0x00000000000000000001 00003 1
desc 0x00000000000000000010 13405559900577170619 4294967294 2 0
u16 38 0x0
u16 34 15954
begin
head
desc 0 379456 0xffffffff 0 0x0
u16 36 0
u16 34 15955
head
put 0x0 4294967295
put 0 0
desc 0 0x0000869c1da28b4c5a0c 4294967294 0 0
u16 38 0
u16 34 15956
chain 2
next
next
next
readable
readable
state
pop
next
writable
put 0 0x1020304
desc 16 0xfffffffffffff925 4096 65259 0x1
chain 0
next
next
readable
pop
next
next
put 0 4294967295
question
desc 0x0 15868550976152682300 4294967295 0 0
u16 36 0
u16 34 15957
begin
head
bytes 8 1 0 0 0
head
back
u16 69 0x806a
put 0 2147483648
state
dump 44 0x46
chain 00000
readable
bytes 3 169
desc 0 0xfffffffffffffa17 2147483648 3 1
desc 0x10 738144 0x7fffffff 2 0
u16 38 0
u16 34 15958
state
chain 00000
readable
next
next
state
dump 44 22
desc 16 990464 2147483648 46938 0
begin
bytes 8 1 0 0 0
head
bytes 8 0xff 255 255 0x7f
desc 0 0xd07c0 4294967295 2 0x00000000000000000000
u16 36 0
u16 34 0x3e57
chain 1
next
walk
pop
next
next
put 0x00000000000000000000 16909060
chain 0
readable
chain 3
writable
next
state
pop
writable
readable
put 00000 32
next
writable
desc 0x00000000000000000010 0x8e290 0xfffffffe 0 1
chain 00001
next
next
sum
chain 0
readable
state
next
bytes 19 1
pop
question
desc 16 0x4af30 2147483648 1 65535
chain 1
next
walk
desc 0 18446744073709548127 4294967295 2 0
u16 38 00000
u16 34 15960
desc 0 0x6f2f0 2147483648 0x4cc9 1
next
chain 0
walk
desc 16 1112135177094675863 1 2 0x00000000000000000001
next
writable
bytes 8 00001 0 0 0
walk
desc 308 0 0 0 0
pop
next
next
walk
put 0 0xffffffff
question
desc 16 450304 0x1 1 0x0
desc 0 44480 4294967294 2 0
u16 36 1
bytes 34 0x00000000000000000059 62
bytes 61 29
walk
bytes 8 0 0 0 0
chain 0
walk
chain 1
chain 00001
next
writable
next
next
state
readable
next
desc 16 15110920286500846718 0xffffffff 0 0x0
u16 38 1
u16 34 15962
desc 16 0x0000ffffffffffffffe2 0x7FFFFFFF 3 1
desc 16 0xCC1D0 4294967294 1 0x00000000000000000000
readable
pop
next
writable
put 1 0x1020304
question
u64 -1 8456658924820980
chain 1
desc 16 919760 0 1 0
desc 00000 0xfffffffffffffe2e 4294967295 0 0
u16 0x24 0x00000000000000000001
u16 00034 15963
chain 2
next
walk
writable
bytes 3 0x000000000000000000c0
pop
put 1 4294967295
question
chain 0
readable
sum
desc 16 421056 4294967295 0 32768
begin
u64 124 12433595322456791874
walk
bytes 24 0x7F
state
sum
memory 318
region 976 50 0
region 1026 0x1A 50
region 0x00000000000000000438 0x00000000000000000022 104
region 1114 26 138
region 1140 24 164
region 1164 130 188
queue 1024
size 8
table 976 0x00000000000000000000
avail 1104 0
used 1128 0
ready 1
valid
next-avail 65533
u16 130 65533
next-used 65533
u16 128 65535
stop
desc 32 0x86ae0 2147483647 00001 6
bytes 104 0xff 255 255 0x3F 3 0 3 00000
desc 48 746720 0x40000000 3 4
bytes 64 144 221 12 0 0 0 0 0 0 0 0 0
desc 0 0xfffffffffffff94e 0 0x3 7
desc 0x00000000000000000070 951648 0 3 1
desc 16 164640 0 2 0
u16 0x8e 2
u16 130 65534
bytes 64 57 241 00255 255 00255 255 255 255 1 0 0 0
bytes 48 144 14 11 0 0 0 0 0x0 0 0 0 128 1 0 6 0
bytes 104 0 0x00000000000000000000 0 0 1 0 0 0
desc 0 0xfffffffffffff0c8 1 1 5
desc 32 50880 1 3 7
desc 112 765120 2147483643 2 0
u16 00144 4
bytes 130 255 255
bytes 64 16 0x0000000000000000001a 3 0 0 0x00000000000000000000 0x00000000000000000000 00000 255 0xff 255 255
bytes 0x68 1 0 0 0 1 0 2 0
desc 32 241088 0 1 0
desc 0 0xd3cc0 1 1 5
desc 48 2131205812726375456 0 2 0
u16 146 4
u16 130 0
valid
size 0
begin
head
head
desc 112 150128 4294967295 2 0
u16 0x84 00007
u16 00130 1
writable
readable
head
put 4 2147483648
put 4 512
pop
next
walk
put 0x7 32
question
begin
fill 286 00016 232
bytes 106 00209 00010 192 241 57 67 89 226
back
head
next
next
put 7 4294967295
stop
pop
state
pop
stop
pop
pop
next
bytes 0x68 0x00000000000000000000 0 0 0x80 1 0 1 00000
desc 0x00000000000000000010 0x2000f95ae44dd4f7 0 1 2
desc 32 500160 2147483646 0x3 0x5
desc 0 791200 0 3 7
desc 112 698752 0 3 00004
bytes 64 16 165 5 0 0 0 0 0 0 0 0 0
bytes 0x00000000000000000086 6 0
u16 0x82 2
state
pop
next
put 6 0
question
next-used 12a
question
ask
u16 0x1 0x 31080
valid
desc 0x70 405536 0x7FFFFFFF 1 6
bytes 0x68 0 0 00000 0 3 0x0 3 0
desc 00048 0x0000fffffffffffff6e7 0x7fffffff 2 0
u16 0x00000000000000000088 0x7
bytes 0x82 3 0
stop
pop
next
next
put 7 4294967295
question
u16 0x94 32770
bytes 0x94 2 0x80
begin
head
pop
desc 0 18446744073709548001 2147483648 1 6
bytes 0x68 255 255 255 127 2 0 0 0
u16 138 0
u16 130 4
sum
back
bytes 0x00000000000000000068 0 0 0 0x80 1 0 1 0
desc 0x10 13881130951823034664 2147483646 3 2
desc 32 716416 0 2 0
u16 140 6
u16 00130 5
desc 0 589792 4294967295 1 4
bytes 64 00090 98 64 81 0xc4 105 43 70 0 0 0 0
desc 48 12414674568874744478 0 0 0
u16 142 0
u16 130 6
pop
put 7 2147483648
question
stop
put 1 16909060
u16 148 3
pop
readable
put 0 0x00000000000000000000
question
bytes 0x30 170 0xf1 0xFF 255 255 255 0xff 0xFF 254 255 0xff 255 1 0 00004 0
bytes 64 80 0x4f 10 0 0 0 0 0 0 0 0 0
desc 0 0xf2030 0 1 5
desc 0x20 1197751958943663853 0 2 0
u16 144 3
u16 130 7
desc 00000 0xc7780 1 3 3
desc 48 10032 00000 3 0x6
bytes 0x68 0 0 0 0 3 0 0x4 0
bytes 64 0x50 0xe1 10 0 0 0 0 0 254 255 0x000000000000000000ff 255
u16 146 0
u16 130 8
pop
next
put 6 2147483648
question
back
put 0x2 32
state
sum
memory 1636
region 0xfffffffffffffa1e 24 0
region 0x0000fffffffffffffc34 586 0x00000000000000000018
region 18446744073709550134 510 610
region 18446744073709550018 92 0x5e0
region 18446744073709549978 0x00000000000000000028 0x63c
queue 2
table 4294965664 0xffffffff
avail 4294965776 4294967295
used 4294967272 4294967295
ready 1
valid
event 1
pop
desc 0x652 0xfffffffffffffcd0 0x1 3 00000
desc 0x642 13167268190024891635 1 2 0
u16 1586 1
u16 0x630 1
pop
put 1 32
question
bytes 1584 4 0
state
bytes 1631 138
u16 1584 1
desc 0x652 360912 65536 0 0
u16 01588 1
u16 0x630 2
question
begin
next
walk
bytes 0x62e 142
bytes 0x65E 0x00000000000000000002
next
back
head
bytes 1610 0 0 0 0
next
next
back
put 1 2147483648
pop
next
put 0x00000000000000000001 0x200
question
bytes 0x0000000000000000064a 0 0 0 0x80
pop
writable
put 1 0
desc 0x642 7756604330770269261 16 3 1
desc 0x652 0xfffffffffffff238 0 0x00000000000000000002 0
u16 01586 0
u16 0x630 0x00000000000000000003
u16 1588 0
u16 1584 4
region 18446744073709551610 48 424
pop
walk
put 0x0 16909060
pop
walk
put 0 2147483648
desc 1602 597584 4096 1 1
desc 01618 0xfb510 65536 0x0 0
u16 0x632 0
bytes 0x630 5 0
begin
head
writable
desc 1618 813616 0x00000000000000010000 3 0
desc 01602 0x9c980 16 2 0
bytes 0x634 1 0
u16 1584 6
next
put 0x0 512
pop
next
next
next
put 1 32
question
bytes 0x642 134 88 249 0xd6 220 0x0000000000000000003d 24 00055 0x1 0 0 0 2 0 0 0x0
u16 1586 00000
u16 1584 7
bytes 1588 0 0
u16 01584 8
state
desc 0x642 7499612169631318347 0 1080 0
pop
writable
put 0 16909060
pop
next
next
put 0 4294967295
question
desc 1618 0x0000000000000007e2d0 1 0 1
u16 1586 32768
u16 1584 9
bytes 1589 8
begin
head
readable
head
head
head
bytes 0x62e 143
bytes 1626 0 0 0 0
head
next
readable
head
put 32768 0x00000000000000000000
stop
begin
desc 1618 0x29430 16 0x00000000000000000001 0
desc 0x00000000000000000642 28368 1 2 00000
u16 1588 1
u16 0x00000000000000000630 10
bytes 422 227 65 00177 0x92 00192 232
writable
desc 1602 0x67d80 512 3 0x1
desc 0x00000000000000000652 7196730516347086694 512 2 0
u16 0x632 0
u16 1584 11
head
bytes 1617 00001
u64 345 23961905514385340
head
next
head
bytes 1588 159
begin
region 0xFFFFFFFFFFFFF9A0 1636 0
fill 0x000000000000000001ea 0 0x72
head
head
writable
bytes 1626 255 255 255 255
put 0x9f 16909060
put 0 0x00000000000000000200
begin
head
writable
desc 1602 18446744073709548901 512 3 1
desc 1618 0x3685c1b6feb4cd21 0x00000000000000000000 2 0
u16 1588 0
u16 1584 12
head
head
head
head
next
readable
desc 1602 0x7E930 512 1 1
desc 1618 16984960100100559247 512 0 0
u16 0x632 0
u16 1584 13
begin
u32 714 3091240280
state
state
bytes 1635 0 0
begin
head
bytes 1630 99
u32 603 3675546496
desc 1618 18446744073709551283 512 3 0x0
desc 0x642 0xb46b42d571f1e71e 16 2 0x0
u16 1588 1
u16 0x630 0xe
bytes 1617 0x20
walk
next
head
put 0x0 0xffffffff
bytes 1629 8
chain 0
writable
bytes 0x651 48
begin
next
next
head
bytes 0x64b 2
head
region 18446744073709550098 32 576
put 1 0x1020304
desc 0x652 16201950863606012329 4096 0 0
u16 1586 0x1
u16 0x630 15
u16 0x630 13
u16 1590 0x1
pop
question
u16 0x634 32768
u16 1584 14
state
sum
memory 0x3fd
region 16714650601862848 24 00000
region 16714650601862872 42 24
region 16714650601862914 00928 66
region 16714650601863842 26 0x3e2
queue 4
table 3685430976 3891682
avail 3685431056 0x000000000000003b61e2
used 0x000000000000dbab3aa0 0x3b61e2
ready 1
valid
next-avail 20212
u16 82 20212
next-used 0x4ef4
pop
used 4294967244 -
next-avail 64863
question
ask
put 3 1
u16 80 0
put 3 2147483648
u16 82 64863
desc 0 4659645132599621073 16 1 1
desc 16 342896 0 1 3
desc 48 58528 16 3 2
desc 32 0x1b68774e9b611bff 1 0x2 0
u16 90 0
u16 0x52 0xfd60
desc 32 0xfeff0 00000 1 3
desc 48 18446744073709551544 65536 00001 1
desc 16 0x68f00 65536 3 0
desc 0 0xf8a01d91d78c488f 4096 2 0
u16 84 2
u16 00082 64865
put 0x3 32
pop
writable
put 0 16909060
ask
stop
u16 0x52 64865
stop
valid
u16 92 20215
ask
put 1 0x80000000
ask
question
table 0xDBAB36C0 0
u16 86 2
u16 82 64866
u16 92 0x4ef7
put 3 4294967295
stop
put 1 0x0
avail 3685431058 3891682
u16 0x54 64864
u16 0x56 1
u16 00084 64865
question
put 2 16909060
next-avail 65535
u16 84 65535
u16 0x5c 0
u16 00084 0
u16 94 0x00000000000000004ef5
state
next-used 65531
question
put 0 0x200
put 3 2147483648
put 3 4294967295
ready 1
pop
readable
put 0x00000000000000000000 32
pop
question
put 3 0
state
avail - 0
ask
pop
state
put 0 2147483648
ask
stop
pop
next
question
put 2 0
pop
question
put 2 4294967295
ask
stop
state
ask
question
event 1
put 1 4294967295
pop
question
ask
put 2 512
put 0x1 00001
put 3 32
put 3 4294967295
put 1 512
put 2 16909060
put 2 1
put 2 32
put 2 0x80000000
put 3 4294967295
put 3 1
pop
put 1 0x1020304
question
put 2 00000
stop
put 0x2 32
put 3 512
put 0 1
put 3 1
ask
sum
put 2 1
state
question
put 1 512
valid
question
state
question
put 0x1 512
table 0xdbab36c8 -
put 0x00000000000000000000 512
sum
question
stop
state
question
put 2 0
put 0 2147483648
used 0xFFFFFFE6 -
put 1 0xffffffff
put 0 16909060
state
put 3 512
state
event 0x00000000000000000000
put 0 0x0
put 1 16909060
ask
question
avail - -
question
ask
put 3 0
ask
put 1 0x0
put 0 0
put 5 512
put 0 0x00000000000001020304
put 0 4294967295
put 2 512
put 2 0
put 1 16909060
put 2 16909060
put 65535 0
avail 0xc0967287 1
put 0xffff 0x200
put 1 1
put 0x0000000000000000ffff 4294967295
ask
state
state
question
put 3 32
put 00004 0x80000000
put 4 00032
ask
put 0x2 0x80000000
state
put 1 4294967295
ask
put 2 1
ask
question
state
stop
next-used 65533
put 1 0x200
put 1 0x00000000000000000001
ask
stop
ask
question
size 1
put 0 16909060
question
state
put 1 16909060
put 0 2147483648
put 0 16909060
put 0x00000000000000000000 2147483648
put 0 512
put 0x0 32
put 2 2147483648
put 0 4294967295
put 0 0
question
state
sum
pop
ask
state
sum
memory 460
queue 1
table 0xfffffff0 0xffffffff
avail 4294967288 0x000000000000ffffffff
used 0xd8 0
ready 0x1
valid
next-avail 65535
next-used 65535
event 0x1
question
chain 2
question
table - 0
size 1
size 0
avail 0xfffffffa 1
back
sum
d v@ ALvFnI+!YCCAK! RP5^bD;.0aj.9>
next-avail 65534
pop
next
next
question
used 00208 -
dump 208 12
ready 0
dump 0xd0 2
avail - 1
back
next-used 0xd68a
table 4294967280 -
sum
used 0 0
next-used 0xfff9
next-avail 65530
event 0
avail - 1
table - 4294967295
event 1
state
next-used 14931
dump 0 70
question
next-used 65527
dump 456 1
used 4294967293 0
next-avail 13577
state
valid
back
table 4294967281 4294967295
event 1
pop
next-used 0xfffd
question
next-used 0x83e2
begin
state
avail 0xffffffda -
reset
event 1
begin
state
pop
question
size 00001
size 1
state
table 1 0
table 8 1
back
sum
begin
head
head
next
head
head
head
head
next
pop
question
state
next-used 12345
ready 1
u16 4 0
u16 2 1
back
begin
bytes 4 0xff 255
u16 0x2 2
valid
next-used 0xfff8
chain 0
walk
put:
dump 0 22
size 2
used 4294967296 3178505
u16 458 1
dump 0 00004
dump 0x0 12
stop
chain 0
writable
event 1
u16 4 1
u16 2 3
dump 0 4
state
dump 0 22
begin
put 65535 0
begin
ready 1
ready 0
pop
pop
question
back
size 2
u16 4 0
u16 2 4
put 0 0x20
state
u16 4 2
u16 0x2 65530
next-avail 28631
state
avail 2632551337 -
valid
state
chain 0
next
next
back
table 8 1
next-avail 65527
pop
question
state
state
# valid
event 1
state
put 0 4294967295
next-used 0x1
pop
size 1
ask
avail - -
put 0x00000000000000000000 16909060
event 1
dump 0 00012
question
event 0x00000000000000000000
state
chain 0
size 0
state
sum
state
sum
put 0 0
begin
head
back
bytes 8 00000 0 0x00000000000000000000 0
dump 0 38
sum
state
state
put 0 32
put 0 0
event 1
stop
event 0
chain 0
state
event 0
state
valid
reset
size 1
table 0 0
avail 00000 0x0
used 0 0
ready 1
chain 0
next-used 2
event 0
state
sum
memory 1414
region 98 1142 0
region 0 24 1142
region 1240 0xae 01166
region 24 12 1402
queue 8
size 4
table 0 0
avail 112 -
avail - 0
used 0x000000000000000000b0 0
ready 0x1
valid
next-avail 30494
u16 16 0x0000000000000000771e
next-used 30494
pop
table 0xg 2751944825
valid
state
# question
pop
fill 0xffffffffffffffff 18446744073709551615 7
sum
dump 1
put 63962 4294967293
bytes 5002105881385304 0x-1 178 0x000000000000000000d8
begin
next
writable
head
writable
bytes 1403 1
stat
desc 0x585 0 0 0 0
pop
question
state
stat
u16 22 0x3
u16 16 30495
u32 1414 0
bytes 0x582 34 167 196 0x6f
u16 24 2
u16 16 0x7720
dump 18446744073709551616 00256
bytes 1416 0 0
next-used 1
sum 1
fill 1414 00016 0
region 1099511627776 2 1414
u64 - - -
head x
queue 6
su#m
dump 1142 0x46
fill 18446744073709551615 0x0000ffffffffffffffff 7
pop
next
next
put 3 0
question
sum
pop
next
put 2 0x1020304
state
region 1099511627776 0x588 0
pop
next
question
next-avail 1
walk
used 0 0 0
u16 16 0x1
bytes 1158 221 0xf0 255 255 255 0xff 0xff 255
bytes 01402 0x0 0 00001 00000 3 0x00000000000000000000 0 0x0
desc 0x476 307872 0 3 2
bytes 1410 0x31 241 0xFF 255
u16 20 1
u16 16 2
desc 0x476 5366214363741896769 0x00000000000000000010 1 0x00000000000000000001
bytes 1158 115 00193 249 236 0x00000000000000000052 251 143 0x88
bytes 1402 0x0 0 0 0 0x00000000000000000001 0 3 0
u16 22 0
u16 16 3
desc 1142 18446744073709549009 0x00000000000000000010 3 1
bytes 1158 0xe0 0x64 3 0 0x0 0 0 0
bytes 1402 0 0 1 0 0x3 0x0 2 0
bytes 0x582 144 0x0000000000000000001e 9 0
u16 0x18 0
u16 16 4
state
writable 1
su#m
sum
size 4
put 519 444
k.Az0VkSI#*BDL1$7T&+<xV
ready 1
state
next-avail 65528
pop
sum
pop
u16 1410 1
state
 B7(BDXPZ+VBG, $blZV8_.j/:3s_/C$C(@p5f.X
region 16 2 0xb8
u64 18446744073709551615 0
begin 0
state
state
begin
head
head
head
head
next
pop
desc 1142 1932814526318945933 0 1 3
u16 18 0
u16 16 0x00000000000000000005
begin
dump 78 22
state
state
ready - -
desc 0x00000000000000000588 0 0 0 00000
head
begin
next
pop
dump 0xe 4
state
begin
state
bytes 1414 0 0
0
used 00005 0
u16 16 65528
bytes 1410 0xb0 98 00010 0
desc 0x476 18446744073709548857 0 2 0
u16 18 2
u16 0x10 65529
valid
region 0xfffffffffffffffe 4 00000
put 0x00000000000000005b84 4294967297
bytes 0x582 176 132 00002 0
desc 1142 84650576887831331 0 1 3
u16 20 00002
u16 16 65530
u32 0x586 0
begin
next
head
walk
head
head
head
writable
head
next
next
head
put 0x2 32
put 2 0
pop
next
question
valid
size 1_000
next-avail 1 1
u64 0x00000000000000000585 0
valid 1
state
Z0)\gtbE@Sh8io8"ZT{</J
state
begin
next
next
u32 00231 2182808224
bytes 0x585 0x1
head
walk
head
next
head
back
state
sum
memory 0x00000000000000000034
queue 2
table 0 0
avail 32 0
used 0x00000000000000000014 0x00000000000000000000
ready 1
valid
valid
u16 00034 32768
u16 34 2
desc 0 18446744073709549297 0x80000000 3 0
sum
chain 32768
desc 16 11639608417338379440 4096 3 0
begin
head
bytes 8 0 0 0 0
head
head
head
back
bytes 42 00232 249 170 202 56 98
bytes 26 163
back
put 0 0x1020304
ready 1
pop
readable
put 0 1
chain 00006
sum
stop
put 1 2147483648
put 0x0 0xffffffff
put 0 0
put 0 0x00000000000000000200
put 0 32
put 1 2147483648
put 1 0x1
put 1 2147483648
put 1 0x00000000000080000000
put 0 0
put 0 32
put 65535 4294967295
next
desc 0x8 18446744073709551615 0x80000000 65534 30
put 0xFFFD 12
bytes 39 33 2
u16 34 2
put 1 0xffffffff
next-used 0
bytes 0x8 0x80 0x80
u16 34 1
dump 32 20
pop
u16 34 65535
desc 16 18446744073709547587 4294967295 1 1
fill 19 9 201
bytes 0 80 6 9 0 0 0 0 0 1 0 0 0 216 31 1 0
fill 0x16 0x00000000000000000005 59
pop
question
u16 34 4
u16 0x22 2
dump 32 2
bytes 34 0xff 255
state
chain 32768
u32 0 1717665467
begin
ready 0
pop
writable
state
pop
begin
bytes 34 1 0
u16 15 0x0000000000000000e266
memory 9223372036854775808
bytes 0x2 0x51 81 49 50
writable
state
u16 34 4
put 0 512
pop
readable
put 0 2147483648
back
pop
sum
pop
next
u64 47 0x741348bd8f85fd85
desc 0 269145035341453103 4294967294 2 2
fill 00030 20 155
state
put 1 1
ask
writable
begin
put 0 2147483648
back
avail 0xa66b6ea1 57495041
pop
question
back
fill 5 5 0x00000000000000000092
bytes 44 131 0xa1
desc 16 5005235874635807208 1 58168 0
state
put 0 0x1020304
u16 34 1
u64 18 0xdab8d4c77b06241f
state
pop
question
chain 0
u64 48 15957233006180755663
desc 16 18446744073709549049 0xffffffff 0 0x2
pop
next-used 8
u16 34 32766
bytes 0 0xE0 0xb0 6 00000 0 0 0 0 254 255 255 00255 0x42 156 00000 0
u16 34 0
sum
begin
fill 33 12 50
chain 1
begin
state
desc 0x0 236352 2147483648 2 0
next-avail 16
region 0 52 0
chain 00003
next
desc 0 5296224680440683422 0 3 3
size 0x27
u32 0xfffffffffffffffe 4294967295
begin
u64 19 7510567806389790306
pop
reset
size 2
table 0 -
table - 0
avail 32 -
avail - 0
used 20 -
used - 0
ready 1
u32 30 0xb2d7a27f
bytes 34 1 0
chain 1
head
region 0x2903d699bb0b02e8 0xffffffffffffffff 7
begin
desc 16 0x12220 4096 00000 0
u16 38 1
u16 34 2
next
next
head
head
head
next
back
bytes 8 0 0 0 128
head
put 0x3232 0x00000000000000000200
desc 16 0x00000000000000009320 0x000000000000fffffffe 0x00000000000000000000 1
state
fill 32 19 0x43
begin
put 1 32
sum
bytes 16 0xc0 0x7e 0 0x00000000000000000000 0 0 0 0 0 0 0 0x0 0x1 0 1 0
reset
state
sum
memory 0x14d
queue 8
table 0 -
table - 0
avail 128 0
used 152 0
ready 00001
valid
next-avail 65535
u16 130 65535
next-used 0xffff
event 1
ask
desc 16 5225409638505720366 4096 1 5
desc 80 895296 4096 1 4
desc 64 950048 512 0x1 0
desc 0 0xE7590 0 3 7
desc 112 18446744073709551334 65536 0x3 3
desc 48 32048 0x00000000000000010000 3 6
desc 96 301888 0 2 0
u16 146 1
u16 130 0
pop
put 00001 0x200
pop
question
begin
head
desc 0 1015994991375279252 512 3 0x5
desc 0x50 0x249b6a702bc5099b 16 2 0
u16 0x84 0x0
u16 0x82 1
bytes 166 33
bytes 68 0xF6
head
head
desc 80 0xbfa4f62a580185de 16 1 1
bytes 16 144 61 5 0x0 0 0 0x0 0 0x0 0 1 0 1 0 3 0
desc 48 0xfe1ac25a83cf0b71 0x00000000000000010000 3 00004
bytes 64 0 191 0 0 0 0x00000000000000000000 0 0 0 0 0 0x0 00003 0 0 0
desc 0 6444976834598815312 4096 3 6
desc 96 0xd97b0 4096 3 2
desc 00032 4323178113838635068 1 3 7
desc 112 0xfec10 0x00000000000000001000 2 0
u16 134 5
u16 130 2
chain 4
writable
event 00001
desc 0x60 15547718344203750287 512 1 3
desc 48 11124552927444424653 4096 1 5
desc 80 702400 65536 1 0x7
desc 112 0x341aa8b394edafdd 65536 0 0
u16 136 6
u16 0x82 3
begin
head
head
head
put 0 16909060
put 00005 16909060
put 6 0x0
begin
head
ready 1
begin
readable
bytes 96 177
head
walk
next
desc 0x60 18446744073709548178 512 3 2
desc 32 140240 16 3 3
desc 00048 18446744073709551401 65536 3 1
desc 16 0xc3390 0x0 0x3 0
desc 0 0xFFFFFFFFFFFFFDB7 512 2 00000
u16 138 0x6
u16 0x82 4
begin
back
region 14 16 4
back
head
writable
state
begin
head
back
head
back
writable
next
head
put 2 0xffffffff
state
pop
readable
walk
next
question
pop
question
state
state
put 4 0x00000000000000000020
pop
walk
question
begin
put 7 0
state
begin
head
chain 8
readable
pop
begin
head
walk
put 2 2147483648
pop
next
next
question
pop
pop
question
pop
question
state
begin
state
begin
sum
pop
sum
chain 0x4
readable
stop
begin
head
back
next
head
head
readable
writable
begin
question
ask
valid
sum
state
question
ask
pop
stop
valid
pop
state
put 1 16909060
pop
question
begin
back
state
begin
sum
state
put 7 32
pop
question
pop
question
state
begin
question
pop
begin
chain 2
next
state
event 1
pop
next
question
chain 65535
put 0 0xffffffff
stop
begin
sum
pop
question
question
pop
walk
readable
pop
question
question
ask
ask
pop
question
pop
walk
question
valid
chain 1
next
pop
question
state
sum
memory 0x39C
queue 1
table 0 0
avail 32 0
used 56 0x00000000000000000000
ready 1
valid
bytes 38 4
desc 0 305728 512 2 0
u16 36 0
u16 34 0x00000000000000000001
begin
head
head
region 0x00000000000000000020 924 0
walk
next
head
back
head
walk
head
put 0 0x1020304
put 0 32
u16 00002 1
u16 4 0
u16 2 2
begin
back
bytes 31 133
head
head
put 0 16909060
bytes 00030 64
question
state
u16 4 0
u16 2 3
u16 0x2 3
u16 4 2
u16 2 4
region 44 2 0xf2
u16 6 0xffff
put 0 0x80000000
u16 4 0x0
u16 2 0x00000000000000000005
u16 2 2
bytes 4 0 0
bytes 2 3 0
begin
head
head
head
head
writable
head
head
put 0 16909060
begin
head
head
head
back
head
put 0x0 16909060
u32 0x135 329312643
begin
walk
next
next
head
ask
bytes 4 4
u16 2 0x00000000000000008003
state
u16 4 32768
u16 2 0x8004
state
bytes 28 43
begin
next
head
head
u16 2 00003
u16 4 0
bytes 0x2 4 0
head
head
u64 739 6983537361697312802
pop
next
next
next
put 0 0
question
u16 0x4 0
u16 00002 5
chain 0x00000000000000000000
next
u16 2 4
pop
question
state
ask
state
dump 0x00000000000000000018 70
state
put 0x00000000000000000000 4294967295
ask
dump 24 0x26
ask
dump 24 0x46
chain 0x0
next
u16 4 0
u16 0x2 5
bytes 1 171
u16 0x00000000000000000004 0
u16 2 6
u16 6 32775
begin
head
head
readable
next
stop
u16 4 0x00000000000000000000
u16 2 7
bytes 33 106
u16 0x2 0x00000000000000000004
u16 4 0
u16 2 5
bytes 1 163
begin
next
head
head
walk
readable
put 0 00000
question
u16 0x000000000000000001b1 25095
u16 4 0
u16 2 6
u16 0x2 3
begin
head
readable
head
u16 00006 8
fill 0xc8 14 0xaa
pop
question
bytes 593 153 178 171 74 80 0xaa 121 48
begin
u16 2 00006
put 0 512
put 0x00000000000000000000 512
put 0x0 2147483648
put 0 512
put 00000 2147483648
put 2 16909060
put 00000 0
put 0x0 4294967295
put 0 1
put 0 0xFFFFFFFF
put 0 0x0
bytes 0x4 0 0
u16 2 7
u16 2 0x7
pop
begin
u16 0x6 21
bytes 4 255 0xFF
u16 2 8
bytes 32 64
u16 0x4 0xffff
u16 2 9
begin
begin
next
walk
writable
pop
question
state
begin
u16 4 0
u16 2 10
state
pop
question
state
state
sum
memory 00238
region 0 0x20 0xb4
region 32 8 202
region 40 40 0x78
region 80 22 78
region 0x66 0x0000000000000000001e 0x82
region 0x84 26 68
region 0x0000000000000000009e 26 26
region 0xb8 54 0x2c
queue 1
table 00000 0
avail 12 0
used 44 0x0
ready 1
valid
event 1
u16 198 32767
question
u16 194 0
ask
pop
question
begin
next
bytes 0xb7 1
begin
bytes 188 0xff 255 00255 0x7f
next
valid
desc 0xb4 0xe5fb0 4096 2 0
bytes 196 0 0
u16 0xc2 1
desc 180 0xfffffffffffffcb8 4294967294 30650 0
u16 194 2
fill 111 00008 3
u16 194 65534
u16 0xc2 0
desc 0xb4 380186600822546323 65536 0 0
u16 0xc4 0
u16 194 1
sum
put 0 512
pop
next
readable
put 00000 16909060
question
bytes 132 5
begin
bytes 0x000000000000000000b5 32
readable
u16 0xc6 0x5
pop
question
begin
desc 180 8412369786163465494 4096 0 0
u16 196 0
u16 194 1
u16 148 18620
head
head
readable
next
next
next
readable
writable
desc 0xb4 9915316713287867134 0x0 2 0x0
u16 196 0
u16 194 1
chain 0
u16 196 0
u16 194 2
stop
pop
next
next
put 0x0 0
question
pop
question
state
sum
memory 0x0000000000000000030e
region 116 12 0
region 76 40 12
region 00738 44 0x34
region 422 12 0x60
region 0x80 294 108
region 434 304 0x00000000000000000192
region 0x0 76 706
queue 2
size 2
table 0 0
avail 0x90 0
used 764 0
ready 1
valid
next-avail 0xfffb
u16 126 65531
next-used 1
state
u16 126 65532
bytes 0x2da 0 0 0 0x00000000000000000000
begin
head
desc 706 626048 0x00000000000000000001 1 1
desc 722 567600 0 3 1
u16 128 0
bytes 126 253 00255
back
bytes 0x2d9 243
chain 0x1
next
begin
head
bytes 0x2df 8
readable
next
fill 34 13 25
bytes 719 1
sum
bytes 708 0x8B
desc 706 587280 2147483648 0 1
desc 722 0xfd330 16 1 0x0
bytes 706 0xf8 252 0xff 0x000000000000000000ff 255 255 255 0x000000000000000000ff 16 0 0 0 3 0 00001 0
u16 0x82 0x00000000000000000001
u16 00126 65534
begin
u64 369 0x00004b2f89779aba7ccf
head
bytes 0x53 172
head
writable
bytes 722 223 240 255 0xff 255 255 0xff 255 0 2 0 0 0x3 0 0x1 0
u16 128 1
u16 0x7e 65535
bytes 714 0x1 0 0 0
next
bytes 0x2D2 208 136 12 0 0 0 0 0x00000000000000000000 0 0 1 0 3 0 1 0
u16 0x82 0x00000000000000000001
bytes 126 0 0
region 00760 0x30E 0
u16 0x7e 32766
u16 126 65534
desc 0x2C2 0xfffffffffffff21a 0 3 0
u16 128 0x0
u16 126 65535
desc 722 18446744073709549223 0 1 1
u16 0x82 1
bytes 126 0 0
begin
readable
head
head
head
readable
desc 0x000000000000000002d2 0x7e6c0 1 0x00000000000000000001 00000
bytes 706 00128 246 0xff 0xff 0x000000000000000000ff 0xFF 255 255 16 0 0 0 1 0 0x1 0
u16 0x80 0x00000000000000000001
u16 126 1
head
u16 130 0
u16 126 2
bytes 714 0 0 0 128
u16 126 65535
u16 130 0x00000000000000000001
u16 0x7e 00000
u16 128 3
u16 126 1
chain 00003
next
u16 130 1
u16 126 2
state
u16 132 0x8000
state
sum
memory 0x1d7
region 18446744073709551516 98 0
region 0 372 98
queue 16
size 4
table 4294967280 -
table - 4294967295
avail 0xfffffff4 4294967295
used 272 0
ready 0x00000000000000000001
valid
next-avail 63866
u16 90 0xf97a
next-used 65529
event 1
u32 0x126 0x000000000000bfc1df21
desc 98 349248 4294967295 3 1
state
valid
pop
chain 0
walk
begin
region 300 58 228
next
writable
readable
next
head
begin
head
bytes 397 128
head
bytes 00122 1 0 0 0x0
next
begin
head
bytes 84 00071 0x67 18 213 11 138 193 123 0x10 0 0 0 3 0
desc 98 778752 65536 3 2
desc 114 0x59380 16 2 0x00000000000000000000
u16 94 0
u16 90 31682
readable
head
next
readable
next
region 18446744073709551602 0x00000000000000000010 12
next
head
head
desc 114 18446744073709550915 1 2 1
region 0xfffffffffffffff4 6 00006
bytes 0x5f 0x1
bytes 00101 0x00000000000000000071
pop
question
state
u16 9223372036854775808 1
u64 187 0x815288770737aa78
state
begin
u16 98 65532
chain 1
next
begin
chain 5
state
u16 90 22469
bytes 402 178
pop
state
question
bytes 140 1
bytes 138 0x00000000000000000001 0x0 0 0
state
u16 0x0000000000000000005a 63866
desc 00114 18446744073709549332 16 0 0
u16 0x60 2
u16 0x0000000000000000005a 63867
u16 98 0x7ff8
desc 114 18446744073709548580 0 3 0
bytes 0x54 0x000000000000000000f0 0x000000000000000000f6 7 0 0 0 0 0 1 0x00000000000000000000 0 0 3 0
bytes 00098 0xe0 114 5 0 0 0 0 0 1 0 0x0 0 2 0 0 0
u16 92 2
u16 90 1
u16 94 0x4
u16 0x5a 0x2
pop
question
pop
question
question
pop
state
pop
question
bytes 138 1 0x00000000000000000000 00000 0
u16 0x5A 0xf97b
bytes 84 0x50 225 0 00000 0 0 0 0x0 0x1 0 0 0 1 0
desc 0x62 18446744073709551594 4096 1 2
desc 0x72 967152 1 1 3
desc 0x00000000000000000082 0xae680 1 2 0
u16 92 0
bytes 90 1 0
begin
u16 94 00003
u16 0x5a 2
begin
bytes 0x5a 122 249
bytes 114 0x30 0xdc 3 0 0 0 0 0 0 00000 0 0x0 1 0 3 0
desc 130 0xfffffffffffff845 0x0 1 0
bytes 84 128 230 0x0 0 0x00000000000000000000 0 0 0x0 0 2 0 0 1 0
desc 98 267984 4096 0 0
u16 0x5c 2
u16 90 1
dump 84 2
bytes 111 00001
bytes 84 0x60 0xfe 7 0 0 0 0 0x0 0 0 0x0 0 211 0x70
u16 00090 63866
valid
bytes 106 255 255 0xff 0x0000000000000000007f
valid
fill 00401 18 224
head
sum
sum
state
desc 98 18446744073709547956 0x200 3 0x3
desc 0x82 0xfd260 65536 0x00000000000000000002 0
u16 0x60 1
u16 90 63867
ask
put 2 4294967295
desc 114 6897633059335111507 0 0 0x0
state
bytes 0x5a 124 249
stop
u16 92 3
u16 0x5a 63869
pop
next
put 1 16909060
question
bytes 138 0xff 00255 255 0x000000000000000000ff
u64 21 0x0000a6d19a9b2b9f122a
pop
question
dump 0x172 38
u16 94 0
bytes 90 126 249
desc 0x72 0xb1340 4096 3 3
desc 130 0x82d774085f5edee 0x1000 3 0x0
bytes 0x54 224 67 0x0000000000000000000a 0 0x00000000000000000000 0 0 0 0 0 1 0 2 0
u16 0x5c 2
u16 90 1
ask
u16 90 63867
begin
head
head
readable
next
desc 0x72 964704 65536 0 0x0
u16 0x0000000000000000005a 63868
bytes 0x151 0xd3 43 0xba 00074 0x43 0x70 0x9b 40 152 153 203 74
head
begin
chain 0x00000000000000000003
writable
state
bytes 92 0 0 0 0x80
desc 98 0x536402650FA73EB 1 1 0
bytes 84 48 99 4 0 0 0 0 0 0x00000000000000000010 0 0 0 1 0
desc 0x82 0x0000174f2e89ec966644 1 3 2
bytes 0x72 00032 60 6 0 0x0 0 0 0 0 0 0 0x0 2 0x0 0 0
u16 0x5c 0x00000000000000000001
u16 90 1
u64 0x8C 18292035868261025241
u16 0x5E 0x4
u16 90 2
state
sum
memory 986
region 16214492743868672 98 0
region 16214492743868908 670 0x62
region 16214492743868770 0x8a 768
region 16214492743868592 0x50 906
queue 4
table 0xC83620B0 -
table - 3775230
avail 0xc8362140 -
avail - 0x399afe
used 3358990752 0x00000000000000399afe
ready 1
valid
readable
next
desc 0x3BA 18446744073709547731 4294967294 2 3
state
bytes 914 0 0 0 0
writable
next
state
back -
chain 0x2
writable
pop
question
begin
u64 776 3618409417466341407
head
bytes 914 255 00255 255 0x7f
head
head
bytes 00323 82 130 235 17 122 0x8b 81 0xab 42 18
desc 938 14806171338612929897 2147483647 1 3
desc 954 608256 2147483648 2 0
u16 68 2
u16 66 1
desc 0x3aa 715328 0x7fffffff 52465 2
bytes 0x3c2 255 255 255 255
chain 3
next
next
writable
desc 906 5101659389251690355 0x7fffffff 0 3
desc 0x3aa 817952 4096 0x0000000000000000ab7a 3
desc 0x3aa 1552724794480568460 0x7FFFFFFF 0x92 65535
desc 954 8572475670587010727 0xffffffff 0 0
sum
desc 0x39A 13091040197121215321 4294967295 2 0
u16 0x46 1
bytes 66 2 0
state
chain 3
next
writable
desc 906 4815781637053317251 0xffffffff 1 1
desc 922 5165031713221151832 0 3 2
desc 00938 0x74c20 0 3 3
desc 0x3ba 0x4ef55205c9250650 0 2 0x00000000000000000000
u16 72 0
u16 0x00000000000000000042 3
desc 954 18446744073709548163 0x00000000000080000000 0x00000000000000000001 1
bytes 0x39a 241 0xf5 255 255 255 255 255 0xFF 0 0 0 64 0x1 00000 2 0
bytes 938 240 17 9 0x0 0 0 0 0 0x00000000000000000000 0 0x00000000000000000000 0x00000000000000000040 1 0 0 0
desc 906 0x7806c815d939d5b2 0 0 0
u16 0x4a 00003
u16 0x42 4
dump 00064 4
bytes 938 176 243 1 0 0 0 0 0 00000 0 0x00000000000000000000 0 2 0 255 0xFF
begin
head
head
next
head
bytes 914 255 0x000000000000000000ff 255 00127
head
put 2 0x200
put 1 32
put 0 1
put 3 0x0
state
sum
memory 0x6c2
region 0 58 0
region 220 0x34 58
region 0x474 156 110
region 58 162 0x124
region 1322 408 0x1c6
region 272 868 862
queue 8
size 8
table 0 -
table - 0
avail 240 0x0
used 0x178 0
ready 1
valid
next-avail 65535
u16 80 0x0000000000000000ffff
next-used 65535
event 1
stop
desc 0x13a 0xcc580 0xFFFFFFFE 2 0
u16 0x60 0x00000000000000000005
u16 80 00000
begin
head
head
head
head
head
next
writable
bytes 0x12a 0x00000000000000000030 121 14 0 0 0 0x0 0 0xff 00255 0xff 127 1 0 6 0x0
desc 330 0x00006671562a44366133 2147483648 3 2
desc 32 0xD9280 0 3 3
bytes 48 208 249 255 255 255 255 00255 255 0 0
bytes 0x124 0 0 2 0 0 0
u16 82 4
u16 80 1
bytes 89 0x00000000000000000054
head
head
put 5 512
used 4149738135 4294971391
ask
desc 0x12a 23840 4294967294 2 0
u16 84 4
u16 0x50 2
chain 6
next
walk
state
size 4
used 3965197691 4294971391
chain 2
next
next
writable
desc 0 0x96e8c8a6d4ad8b07 0 3 1
bytes 16 70 251 208 183 243 183 76 158 255 255 0xff 00127 3 0 2 0
desc 32 18446744073709549647 0x3fffffff 3 3
bytes 48 56 240 0xff 255 255 0x000000000000000000ff 0xff 255 0 0
bytes 292 0 64 00002 0x00000000000000000000 0x00000000000000000000 0
u16 0x56 0
u16 0x50 3
begin
next
readable
next
walk
bytes 1719 227 178 48 0xf2 26 233 0x00000000000000000071 218 0x63 10 0xda
back
head
head
put 00004 0
state
sum
memory 657
region 4294967280 16 0x0
region 4294967296 0x280 16
queue 4
table 592 1
avail 0x70 1
used 192 0x00000000000000000001
ready 1
valid
next-avail 24816
u16 130 24816
next-used 0x60f0
u64 0x89 0x0000877233af782f08a7
bytes 225 00001
desc 640 0xc31a0 0x1 3 3
u16 132 2
u16 0x00000000000000000082 0x60f1
u16 130 0x000000000000000060ee
begin
u16 0x82 24816
desc 0x280 18446744073709550653 0 3 2
bytes 0x84 0x2 0
u16 130 24817
pop
readable
put 2 512
question
state
bytes 0x88 168
begin
head
head
head
back
head
put 2 2147483648
chain 3
bytes 624 80 201 00007 0 0 0x0 0 0 0x0 0 0 0x0 1 0 3 0
u16 130 24818
region 4294967418 32 0x0000000000000000019e
u16 136 0
u16 130 0x60f3
u16 0x82 24819
begin
head
put 0 0x80000000
begin
bytes 129 1
desc 0x260 462336 512 0x1 0x2
desc 640 862928 512 3 3
u16 138 0
u16 130 0x60f4
bytes 0x278 0 0 00000 128
u16 0x84 3
bytes 130 245 0x60
ask
state
u16 140 24815
bytes 0xe3 00000
bytes 610 242
bytes 651 8
bytes 134 0x50
u32 0x1bb 0xA0BE9B3B
bytes 0x271 193
begin
head
put 0 0x00000000000080000000
state
sum
memory 450
region 0 450 0
queue 0x2
table 0 -
table - 0x0
avail 00032 -
avail - 0x0
used 44 00000
ready 1
valid
next-avail 44731
u16 34 0xaebb
next-used 0xfffe
event 1
u16 40 32766
u16 34 44732
put 1 16909060
state
u16 34 44730
ask
question
u16 0x28 65533
question
u16 40 0xFFFB
ask
u16 40 65535
stop
put 0x0 1
stop
put 00000 0x20
u16 34 44730
used - -
put 0 512
state
u16 40 3
put 0x1 0x1020304
put 00000 0x200
put 0 0
put 2 512
put 3 0xffffffff
ask
u16 0x28 2
desc 16 836976 0 2 0
u16 36 1
u16 34 0xaebb
question
put 0 0x80000000
put 0 512
put 1 0
put 1 32
put 1 16909060
put 1 16909060
put 65535 32
put 0x0 0x1
put 1 2147483648
put 0 00512
put 0 1
put 1 32
pop
ask
put 0 0x0
question
desc 16 10397439761533340911 0 0x00000000000000000000 0
u16 38 1
u16 0x00000000000000000022 44732
ask
pop
next
next
put 1 0
question
ask
dump 0x0 22
u16 32 65535
put 0 32
dump 44 0x46
put 1 2147483648
question
u16 40 23
dump 32 4
put 0 0x200
state
sum
bytes 34 00191 174
question
question
u16 40 32788
pop
question
question
question
state
sum
memory 0x10000
queue 4
table 0xffffffe0 4294967295
avail 112 0
used 176 0
ready 1
valid
next-avail 0xfffe
u16 114 65534
next-used 65534
table 0 4294967295
used - 4294967295
reset
size 4
table 0 4294967295
avail 0x70 0
used 176 0xffffffff
ready 1
next-avail 0
pop
question
ready 1
begin
u16 120 0
u16 114 65535
region 0 0x10000 0
head
u16 0x7a 32768
u16 0x72 0
avail - 0xFFFFFFFF
avail 4294967250 -
back
table 0 1
next-used 33113
reset
size 4
table 0 1
avail 4294967250 -
avail - 4294967295
used 176 -
used - 0xffffffff
ready 1
put 1 1
state
put 3 4294967295
table 1 1
question
size 32768
begin
used 1_000 2605897585
size 0
next-avail 0xd132
size 1
state
event 0
question
state
chain 00000
next
writable
begin
head
head
head
head
next
writable
readable
head
valid
stop
ready 1
avail 4294967248 4294967295
table 2 -
next-avail 65535
next-avail 65527
size 4
avail 852445238 4294967295
state
state
event 1
sum
size 3
desc 65537 0x0 0x00000000000000000000 0 0x0
next-avail 2
question
size 6
chain 3
next
state
begin
begin
u64 0x132ac8946e92d 0x10000000000000001
table 0x8 0
next-avail 0x0
begin
head
head
writable
head
table 32 0
ask
size 8
size 32768
question
ready 1
state
ask
begin
state
state
event 1
avail 0x00000000000032cf4834 -
begin
readable
next
back
head
head
bytes 70 8
bytes 88 0 0 0 128
table 0x94164fee 0
next-avail 65530
begin
used - 4294967295
next-avail 0xfffa
event 1
used 177 0
sum
size 32768
stop
chain 0
next
next
stop
dump 32 70
avail 852445244 4294967295
back
state
size 32768
next-avail 65535
size 0x8
state
state
sum
memory 730
queue 1024
size 2
table 00000 -
table - 0
avail 0x2d2 -
avail - 0
used 0xcc 0x00000000000000000000
ready 1
valid
next-avail 57594
u16 724 57594
next-used 57594
sum
state
region 0x8000000000000000 0x8000000000000000 18446744073709551614
put:
u32 99999999999999999999
dump 0x000000000000000000cc 22
desc 0 588768 4096 3 1
desc 16 0x00000000000000058e00 1 0x00000000000000000002 0
u16 726 0
u16 724 0xe0fb
readable
desc 726 0x0 0 0x0 0
used 0x00000000000000000006 -
used - 0
state
walk
u64 0x2dc 0x00000000000000000000
state
state
ask
state #xxxxxxxxxxxxxxxxxxxxxxxxxxxxxxxxxxxxxxxxxxxxxxxxxxxxxxxxxxxxxxxxxxxxxxxxxxxxxxxxxxxxxxxxxxxxxxxxxxxxxxxxxxxxxxxxxxxxxxxxxxxxxxxxxxxxxxxxxxxxxxxxxxxxxxxxxxxxxxxxxxxxxxxxxxxxxxxxxxxxxxxxxxxxxxxxxxxxxxxxxxxxxxxxxxxxxxxxxxxxxxxxxxxxxxxxxxxxxxxxxxxxxxxxxxxxxxxxxxxxxxxxxxxxxxxxxxxxxxxxxxxxxxxxxxxxxxxxxxxxxxxxxxxxxxxxxxxxxxxxxxxxxxxxxxxxxxxxxxxxxxxxxxxxxxxxxxxxxxxxxxxxxxxxxxxxxxxxxxxxxxxxxxxxxxxxxxxxxxxxxxxxxxxxxxxxxxxxxxxxxxxxxxxxxxxxxxxxxxxxxxxxxxxxxxxxxxxxxxxxxxxxxxxxxxxxxxxxxxxxxxxxxxxxxxxxxxxxxxxxxxxxxxxxxxxxxxxxxxxxxxxxxxxxxxxxxxxxxxxxxxxxxxxxxxxxxxxxxxxxxxxxxxxxxxxxxxxxxxxxxxxxxxxxxxxxxxxxxxxxxxxxxxxxxxxxxxxxxxxxxxxxxxxxxxxxxxxxxxxxxxxxxxxxxxxxxxxxxxxxxxxxxxxxxxxxxxxxxxxxxxxxxxxxxxxxxxxxxxxxxxxxxxxxxxxxxxxxxxxxxxxxxxxxxxxxxxxxxxxxxxxxxxxxxxxxxxxxxxxxxxxxxxxxxxxxxxxxxxxxxxxxxxxxxxxxxxxxxxxxxxxxxxxxxxxxxxxxxxxxxxxxxxxxxxxxxxxxxxxxxxxxxxxxxxxxxxxxxxxxxxxxxxxxxxxxxxxxxxxxxxxxxxxxxxxxxxxxxxxxxxxxxxxxxxxxxxxxxxxxxxxxxxxxxxxxxxxxxxxxxxxxxxxxxxxxxxxxxxxxxxxxxxxxxxxxxxxxxxxxxxxxxxxxxxxxxxxxxxxxxxxxxxxxxxxxxxxxxxxxxxxxxxxxxxxxxxxxxxxxxxxxxxxxxxxxxxxxxxxxxxxxxxxxxxxxxxxxxxxxxxxxxxxxxxxxxxxxxxxxxxxxxxxxxxxxxxxxxxxxxxxxxxxxxxxxxxxxxxxxxxxxxxxxxxxxxxxxxxxxxxxxxxxxxxxxxxxxxxxxxxxxxxxxxxxxxxxxxxxxxxxxxxxxxxxxxxxxxxxxxxxxxxxxxxxxxxxxxxxxxxxxxxxxxxxxxxxxxxxxxxxxxxxxxxxxxxxxxxxxxxxxxxxxxxxxxxxxxxxxxxxxxxxxxxxxxxxxxxxxxxxxxxxxxxxxxxxxxxxxxxxxxxxxxxxxxxxxxxxxxxxxxxxxxxxxxxxxxxxxxxxxxxxxxxxxxxxxxxxxxxxxxxxxxxxxxxxxxxxxxxxxxxxxxxxxxxxxxxxxxxxxxxxxxxxxxxxxxxxxxxxxxxxxxxxxxxxxxxxxxxxxxxxxxxxxxxxxxxxxxxxxxxxxxxxxxxxxxxxxxxxxxxxxxxxxxxxxxxxxxxxxxxxxxxxxxxxxxxxxxxxxxxxxxxxxxxxxxxxxxxxxxxxxxxxxxxxxxxxxxxxxxxxxxxxxxxxxxxxxxxxxxxxxxxxxxxxxxxxxxxxxxxxxxxxxxxxxxxxxxxxxxxxxxxxxxxxxxxxxxxxxxxxxxxxxxxxxxxxxxxxxxxxxxxxxxxxxxxxxxxxxxxxxxxxxxxxxxxxxxxxxxxxxxxxxxxxxxxxxxxxxxxxxxxxxxxxxxxxxxxxxxxxxxxxxxxxxxxxxxxxxxxxxxxxxxxxxxxxxxxxxxxxxxxxxxxxxxxxxxxxxxxxxxxxxxxxxxxxxxxxxxxxxxxxxxxxxxxxxxxxxxxxxxxxxxxxxxxxxxxxxxxxxxxxxxxxxxxxxxxxxxxxxxxxxxxxxxxxxxxxxxxxxxxxxxxxxxxxxxxxxxxxxxxxxxxxxxxxxxxxxxxxxxxxxxxxxxxxxxxxxxxxxxxxxxxxxxxxxxxxxxxxxxxxxxxxxxxxxxxxxxxxxxxxxxxxxxxxxxxxxxxxxxxxxxxxxxxxxxxxxxxxxxxxxxxxxxxxxxxxxxxxxxxxxxxxxxxxxxxxxxxxxxxxxxxxxxxxxxxxxxxxxxxxxxxxxxxxxxxxxxxxxxxxxxxxxxxxxxxxxxxxxxxxxxxxxxxxxxxxxxxxxxxxxxxxxxxxxxxxxxxxxxxxxxxxxxxxxxxxxxxxxxxxxxxxxxxxxxxxxxxxxxxxxxxxxxxxxxxxxxxxxxxxxxxxxxxxxxxxxxxxxxxxxxxxxxxxxxxxxxxxxxxxxxxxxxxxxxxxxxxxxxxxxxxxxxxxxxxxxxxxxxxxxxxxxxxxxxxxxxxxxxxxxxxxxxxxxxxxxxxxxxxxxxxxxxxxxxxxxxxxxxxxxxxxxxxxxxxxxxxxxxxxxxxxxxxxxxxxxxxxxxxxxxxxxxxxxxxxxxxxxxxxxxxxxxxxxxxxxxxxxxxxxxxxxxxxxxxxxxxxxxxxxxxxxxxxxxxxxxxxxxxxxxxxxxxxxxxxxxxxxxxxxxxxxxxxxxxxxxxxxxxxxxxxxxxxxxxxxxxxxxxxxxxxxxxxxxxxxxxxxxxxxxxxxxxxxxxxxxxxxxxxxxxxxxxxxxxxxxxxxxxxxxxxxxxxxxxxxxxxxxxxxxxxxxxxxxxxxxxxxxxxxxxxxxxxxxxxxxxxxxxxxxxxxxxxxxxxxxxxxxxxxxxxxxxxxxxxxxxxxxxxxxxxxxxxxxxxxxxxxxxxxxxxxxxxxxxxxxxxxxxxxxxxxxxxxxxxxxxxxxxxxxxxxxxxxxxxxxxxxxxxxxxxxxxxxxxxxxxxxxxxxxxxxxxxxxxxxxxxxxxxxxxxxxxxxxxxxxxxxxxxxxxxxxxxxxxxxxxxxxxxxxxxxxxxxxxxxxxxxxxxxxxxxxxxxxxxxxxxxxxxxxxxxxxxxxxxxxxxxxxxxxxxxxxxxxxxxxxxxxxxxxxxxxxxxxxxxxxxxxxxxxxxxxxxxxxxxxxxxxxxxxxxxxxxxxxxxxxxxxxxxxxxxxxxxxxxxxxxxxxxxxxxxxxxxxxxxxxxxxxxxxxxxxxxxxxxxxxxxxxxxxxxxxxxxxxxxxxxxxxxxxxxxxxxxxxxxxxxxxxxxxxxxxxxxxxxxxxxxxxxxxxxxxxxxxxxxxxxxxxxxxxxxxxxxxxxxxxxxxxxxxxxxxxxxxxxxxxxxxxxxxxxxxxxxxxxxxxxxxxxxxxxxxxxxxxxxxxxxxxxxxxxxxxxxxxxxxxxxxxxxxxxxxxxxxxxxxxxxxxxxxxxxxxxxxxxxxxxxxxxxxxxxxxxxxxxxxxxxxxxxxxxxxxxxxxxxxxxxxxxxxxxxxxxxxxxxxxxxxxxxxxxxxxxxxxxxxxxxxxxxxxxxxxxxxxxxxxxxxxxxxxxxxxxxxxxxxxxxxxxxxxxxxxxxxxxxxxxxxxxxxxxxxxxxxxxxxxxxxxxxxxxxxxxxxxxxxxxxxxxxxxxxxxxxxxxxxxxxxxxxxxxxxxxxxxxxxxxxxxxxxxxxxxxxxxxxxxxxxxxxxxxxxxxxxxxxxxxxxxxxxxxxxxxxxxxxxxxxxxxxxxxxxxxxxxxxxxxxxxxxxxxxxxxxxxxxxxxxxxxxxxxxxxxxxxxxxxxxxxxxxxxxxxxxxxxxxxxxxxxxxxxxxxxxxxxxxxxxxxxxxxxxxxxxxxxxxxxxxxxxxxxxxxxxxxxxxxxxxxxxxxxxxxxxxxxxxxxxxxxxxxxxxxxxxxxxxxxxxxxxxxxxxxxxxxxxxxxxxxxxxxxxxxxxxxxxxxxxxxxxxxxxxxxxxxxxxxxxxxxxxxxxxxxxxxxxxxxxxxxxxxxxxxxxxxxxxxxxxxxxxxxxxxxxxxxxxxxxxxxxxxxxxxxxxxxxxxxxxxxxxxxxxxxxxxxxxxxxxxxxxxxxxxxxxxxxxxxxxxxxxxxxxxxxxxxxxxxxxxxxxxxxxxxxxxxxxxxxxxxxxxxxxxxxxxxxxxxxxxxxxxxxxxxxxxxxxxxxxxxxxxxxxxxxxxxxxxxx
pop
walk
readable
put 0 2147483648
question
ask
nextavail
walk
fill 728 0 0
valid
desc 2183341351800064 0x147e488b66c428 583270950 65537 55703
u64 0xb36556ab75142b16 82
 	
-l];zK'SrW-9_bt7 ?W<EA%51$u769.m]GTZR [
next-avail 0x10001
state
bytes 0 0 0 0 0 0 0 0 0 0 0 0 0 0 0 0 0 0 0 0 0 0 0 0 0 0 0 0 0 0 0 0 0 0 0 0 0 0 0 0 0 0 0 0 0 0 0 0 0 0 0 0 0 0 0 0 0 0 0 0 0 0 0 0 0 0 0
desc 1 1 1 1 1 1
valid
fill 18446744073709551615 16 0
queue 1 1
-
fill 12a 0x54cc4d61586cd 0x1e
desc 0 0x299542ea0eb464e5 0x10000 2 0
u16 728 0
u16 724 0xe0fc
region 14826095387442396999 0x8000000000000000 0x8
u16 99999999999999999999
bytes 0x00000000000000000010 0 22 0x00000000000000000004 0 0 0 0 00000 16 0 0 0 2 0 0 0
u16 726 1
u16 724 57597
begin
fill 0x274 15 128
readable
writable
back
head
put 1 2147483648
dump 204 38
state
dump 730 2
state
pop
writable
put 0 0
question
begin
head
desc 16 14687624468999976769 0 3 0
desc 00000 451712 4096 2 0
u16 0x2d8 1
u16 724 57598
bytes 00024 0x000000000000000000ff 255 255 255
dump 1843878497652412332 0
desc 16 0xF5460 1 3 00000
desc 0 0xFFFFFFFFFFFFFA74 0x00000000000000000000 0x2 0
u16 726 0x1
u16 724 0xe0ff
table 32 -
begin
readable
fill 251 23 75
walk
head
next
next
put 1 2147483648
valid
pop
put 0x1 0xffffffff
region 0x40 2 0x000000000000000002a8
QUEUE 8
state
region 16 2 508
head
walk
writable
dump 18446744073709551615 1
u32 18446744073709551615 0
stop 99999999999999999999
state
begin
pop
stop
next-used 1 1
state
chain
queue 5
u32 18446744073709551616 0x567d32b9
begin
head
head
readable
next
readable
bytes 605 00008 0x52 00096 176 155 17 155
head
ask
state
put:
queue - -
event 0
region 0x0 2 18446744073709551615
next-avail 65534
readable
fill 0xffffffffffffffff 0 0
next-avail 9
begin
pop
walk
state
stat
u32 0
begin
pop
question
begin
head
head
next
u64 0xe7 0x2b59dfea62c680cd
ready 1
bytes 730 0 0
u16 0x0000000668c2bafd5dd1 1e3
state
# xxxxxxxxxxxxxxxxxxxxxxxxxxxxxxxxxxxxxxxxxxxxxxxxxxxxxxxxxxxxxxxxxxxxxxxxxxxxxxxxxxxxxxxxxxxxxxxxxxxxxxxxxxxxxxxxxxxxxxxxxxxxxxxxxxxxxxxxxxxxxxxxxxxxxxxxxxxxxxxxxxxxxxxxxxxxxxxxxxxxxxxxxxxxxxxxxxxxxxxxxxxxxxxxxxxxxxxxxxxxxxxxxxxxxxxxxxxxxxxxxxxxxxxxxxxxxxxxxxxxxxxxxxxxxxxxxxxxxxxxxxxxxxxxxxxxxxxxxxxxxxxxxxxxxxxxxxxxxxxxxxxxxxxxxxxxxxxxxxxxxxxxxxxxxxxxxxxxxxxxxxxxxxxxxxxxxxxxxxxxxxxxxxxxxxxxxxxxxxxxxxxxxxxxxxxxxxxxxxxxxxxxxxxxxxxxxxxxxxxxxxxxxxxxxxxxxxxxxxxxxxxxxxxxxxxxxxxxxxxxxxxxxxxxxxxxxxxxxxxxxxxxxxxxxxxxxxxxxxxxxxxxxxxxxxxxxxxxxxxxxxxxxxxxxxxxxxxxxxxxxxxxxxxxxxxxxxxxxxxxxxxxxxxxxxxxxxxxxxxxxxxxxxxxxxxxxxxxxxxxxxxxxxxxxxxxxxxxxxxxxxxxxxxxxxxxxxxxxxxxxxxxxxxxxxxxxxxxxxxxxxxxxxxxxxxxxxxxxxxxxxxxxxxxxxxxxxxxxxxxxxxxxxxxxxxxxxxxxxxxxxxxxxxxxxxxxxxxxxxxxxxxxxxxxxxxxxxxxxxxxxxxxxxxxxxxxxxxxxxxxxxxxxxxxxxxxxxxxxxxxxxxxxxxxxxxxxxxxxxxxxxxxxxxxxxxxxxxxxxxxxxxxxxxxxxxxxxxxxxxxxxxxxxxxxxxxxxxxxxxxxxxxxxxxxxxxxxxxxxxxxxxxxxxxxxxxxxxxxxxxxxxxxxxxxxxxxxxxxxxxxxxxxxxxxxxxxxxxxxxxxxxxxxxxxxxxxxxxxxxxxxxxxxxxxxxxxxxxxxxxxxxxxxxxxxxxxxxxxxxxxxxxxxxxxxxxxxxxxxxxxxxxxxxxxxxxxxxxxxxxxxxxxxxxxxxxxxxxxxxxxxxxxxxxxxxxxxxxxxxxxxxxxxxxxxxxxxxxxxxxxxxxxxxxxxxxxxxxxxxxxxxxxxxxxxxxxxxxxxxxxxxxxxxxxxxxxxxxxxxxxxxxxxxxxxxxxxxxxxxxxxxxxxxxxxxxxxxxxxxxxxxxxxxxxxxxxxxxxxxxxxxxxxxxxxxxxxxxxxxxxxxxxxxxxxxxxxxxxxxxxxxxxxxxxxxxxxxxxxxxxxxxxxxxxxxxxxxxxxxxxxxxxxxxxxxxxxxxxxxxxxxxxxxxxxxxxxxxxxxxxxxxxxxxxxxxxxxxxxxxxxxxxxxxxxxxxxxxxxxxxxxxxxxxxxxxxxxxxxxxxxxxxxxxxxxxxxxxxxxxxxxxxxxxxxxxxxxxxxxxxxxxxxxxxxxxxxxxxxxxxxxxxxxxxxxxxxxxxxxxxxxxxxxxxxxxxxxxxxxxxxxxxxxxxxxxxxxxxxxxxxxxxxxxxxxxxxxxxxxxxxxxxxxxxxxxxxxxxxxxxxxxxxxxxxxxxxxxxxxxxxxxxxxxxxxxxxxxxxxxxxxxxxxxxxxxxxxxxxxxxxxxxxxxxxxxxxxxxxxxxxxxxxxxxxxxxxxxxxxxxxxxxxxxxxxxxxxxxxxxxxxxxxxxxxxxxxxxxxxxxxxxxxxxxxxxxxxxxxxxxxxxxxxxxxxxxxxxxxxxxxxxxxxxxxxxxxxxxxxxxxxxxxxxxxxxxxxxxxxxxxxxxxxxxxxxxxxxxxxxxxxxxxxxxxxxxxxxxxxxxxxxxxxxxxxxxxxxxxxxxxxxxxxxxxxxxxxxxxxxxxxxxxxxxxxxxxxxxxxxxxxxxxxxxxxxxxxxxxxxxxxxxxxxxxxxxxxxxxxxxxxxxxxxxxxxxxxxxxxxxxxxxxxxxxxxxxxxxxxxxxxxxxxxxxxxxxxxxxxxxxxxxxxxxxxxxxxxxxxxxxxxxxxxxxxxxxxxxxxxxxxxxxxxxxxxxxxxxxxxxxxxxxxxxxxxxxxxxxxxxxxxxxxxxxxxxxxxxxxxxxxxxxxxxxxxxxxxxxxxxxxxxxxxxxxxxxxxxxxxxxxxxxxxxxxxxxxxxxxxxxxxxxxxxxxxxxxxxxxxxxxxxxxxxxxxxxxxxxxxxxxxxxxxxxxxxxxxxxxxxxxxxxxxxxxxxxxxxxxxxxxxxxxxxxxxxxxxxxxxxxxxxxxxxxxxxxxxxxxxxxxxxxxxxxxxxxxxxxxxxxxxxxxxxxxxxxxxxxxxxxxxxxxxxxxxxxxxxxxxxxxxxxxxxxxxxxxxxxxxxxxxxxxxxxxxxxxxxxxxxxxxxxxxxxxxxxxxxxxxxxxxxxxxxxxxxxxxxxxxxxxxxxxxxxxxxxxxxxxxxxxxxxxxxxxxxxxxxxxxxxxxxxxxxxxxxxxxxxxxxxxxxxxxxxxxxxxxxxxxxxxxxxxxxxxxxxxxxxxxxxxxxxxxxxxxxxxxxxxxxxxxxxxxxxxxxxxxxxxxxxxxxxxxxxxxxxxxxxxxxxxxxxxxxxxxxxxxxxxxxxxxxxxxxxxxxxxxxxxxxxxxxxxxxxxxxxxxxxxxxxxxxxxxxxxxxxxxxxxxxxxxxxxxxxxxxxxxxxxxxxxxxxxxxxxxxxxxxxxxxxxxxxxxxxxxxxxxxxxxxxxxxxxxxxxxxxxxxxxxxxxxxxxxxxxxxxxxxxxxxxxxxxxxxxxxxxxxxxxxxxxxxxxxxxxxxxxxxxxxxxxxxxxxxxxxxxxxxxxxxxxxxxxxxxxxxxxxxxxxxxxxxxxxxxxxxxxxxxxxxxxxxxxxxxxxxxxxxxxxxxxxxxxxxxxxxxxxxxxxxxxxxxxxxxxxxxxxxxxxxxxxxxxxxxxxxxxxxxxxxxxxxxxxxxxxxxxxxxxxxxxxxxxxxxxxxxxxxxxxxxxxxxxxxxxxxxxxxxxxxxxxxxxxxxxxxxxxxxxxxxxxxxxxxxxxxxxxxxxxxxxxxxxxxxxxxxxxxxxxxxxxxxxxxxxxxxxxxxxxxxxxxxxxxxxxxxxxxxxxxxxxxxxxxxxxxxxxxxxxxxxxxxxxxxxxxxxxxxxxxxxxxxxxxxxxxxxxxxxxxxxxxxxxxxxxxxxxxxxxxxxxxxxxxxxxxxxxxxxxxxxxxxxxxxxxxxxxxxxxxxxxxxxxxxxxxxxxxxxxxxxxxxxxxxxxxxxxxxxxxxxxxxxxxxxxxxxxxxxxxxxxxxxxxxxxxxxxxxxxxxxxxxxxxxxxxxxxxxxxxxxxxxxxxxxxxxxxxxxxxxxxxxxxxxxxxxxxxxxxxxxxxxxxxxxxxxxxxxxxxxxxxxxxxxxxxxxxxxxxxxxxxxxxxxxxxxxxxxxxxxxxxxxxxxxxxxxxxxxxxxxxxxxxxxxxxxxxxxxxxxxxxxxxxxxxxxxxxxxxxxxxxxxxxxxxxxxxxxxxxxxxxxxxxxxxxxxxxxxxxxxxxxxxxxxxxxxxxxxxxxxxxxxxxxxxxxxxxxxxxxxxxxxxxxxxxxxxxxxxxxxxxxxxxxxxxxxxxxxxxxxxxxxxxxxxxxxxxxxxxxxxxxxxxxxxxxxxxxxxxxxxxxxxxxxxxxxxxxxxxxxxxxxxxxxxxxxxxxxxxxxxxxxxxxxxxxxxxxxxxxxxxxxxxxxxxxxxxxxxxxxxxxxxxxxxxxxxxxxxxxxxxxxxxxxxxxxxxxxxxxxxxxxxxxxxxxxxxxxxxxxxxxxxxxxxxxxxxxxxxxxxxxxxxxxxxxxxxxxxxxxxxxxxxxxxxxxxxxxxxxxxxxxxxxxxxxxxxxxxxxxxxxxxxxxxxxxxxxxxxxxxxxxxxxxxxxxxxxxxxxxxxxxxxxxxxxxxxxxxxxxxxxxxxxxxxxxxxxxxxxxxxxxxxxxxxxxxxxxxxxxxxxxxxxxxxxxxxxxxxxxxxxxxxxxxxxxxxxxxxxxxxxxxxxxxxxxxxxxxxxxxxxxxxxxxxxxxxxxxxxxxxxxxxxxxxxxxxxxxxxxxxxxxxxxx
region 18446744073709551615 732 0x0
state
begin
table 4294967233 0
walk 0
walk
begin
u16 730 1
head
 	
next-used 000000000000000000000000000000000000000000000000000000000000000000000000000000000000000000000000000000000000000000000000000000000000000000000000000000000000000000000000000000000000000000000000000000000000000000000000000000000000000000000000000000000000000000000000000000000000000000000000000000000000000000000000000000000000000000000000000000000000000000000000000000000000000000000000000000000000000000000000000000000000000000000000000000000000000000000000000000000000000000000000000000000000000000000000000000000000000000000000000000000000000000000000000000000000000000000000000000000000000000000000000000000000000000000000000000000000000000000000000000000000000000000000000000000000000000000000000000000000000000000000000000000000000000000000000000000000000000000000000000000000000000000000000000000000000000000000000000000000000000000000000000000000000000000000000000000000000000000000000000000000000000000000000000000000000000000000000000000000000000000000000000000000000000000000000000000000000000000000000000000000000000000000000000000000000000000000000000000000000000000000000000000000000000000000000000000000000000000000000000000000000000000000000000000000000000000000000000000000000000000000000000000000000000000000000000000000000000000000000000000000000000000000000000000000000000000000000000000000000000000000000000000000000000000000000000000000000000000000000000000000000000000000000000000000000000000000000000000000000000000000000000000000000000000000000000000000000000000000000000000000000000000000000000000000000000000000000000000000000000000000000000000000000000000000000000000000000000000000000000000000000000000000000000000000000000000000000000000000000000000000000000000000000000000000000000000000000000000000000000000000000000000000000000000000000000000000000000000000000000000000000000000000000000000000000000000000000000000000000000000000000000000000000000000000000000000000000000000000000000000000000000000000000000000000000000000000000000000000000000000000000000000000000000000000000000000000000000000000000000000000000000000000000000000000000000000000000000000000000000000000000000000000000000000000000000000000000000000000000000000000000000000000000000000000000000000000000000000000000000000000000000000000000000000000000000000000000000000000000000000000000000000000000000000000000000000000000000000000000000000000000000000000000000000000000000000000000000000000000000000000000000000000000000000000000000000000000000000000000000000000000000000000000000000000000000000000000000000000000000000000000000000000000000000000000000000000000000000000000000000000000000000000000000000000000000000000000000000000000000000000000000000000000000000000000000000000000000000000000000000000000000000000000000000000000000000000000000000000000000000000000000000000000000000000000000000000000000000000000000000000000000000000000000000000000000000000000000000000000000000000000000000000000000000000000000000000000000000000000000000000000000000000000000000000000000000000000000000000000000000000000000000000000000000000000000000000000000000000000000000000000000000000000000000000000000000000000000000000000000000000000000000000000000000000000000000000000000000000000000000000000000000000000000000000000000000000000000000000000000000000000000000000000000000000000000000000000000000000000000000000000000000000000000000000000000000000000000000000000000000000000000000000000000000000000000000000000000000000000000000000000000000000000000000000000000000000000000000000000000000000000000000000000000000000000000000000000000000000000000000000000000000000000000000000000000000000000000000000000000000000000000000000000000000000000000000000000000000000000000000000000000000000000000000000000000000000000000000000000000000000000000000000000000000000000000000000000000000000000000000000000000000000000000000000000000000000000000000000000000000000000000000000000000000000000000000000000000000000000000000000000000000000000000000000000000000000000000000000000000000000000000000000000000000000000000000000000000000000000000000000000000000000000000000000000000000000000000000000000000000000000000
error:
next-used 65530
next 0

begin
state
begin
head
head
u16 152 21312
head
next
back
back
head
back
ask
valid
queue 6
next-avail 0b1
put 32768 3
fill 730 0x0 0
sum x
-
begin
writable
begin
state
state 0
ask 1
dump 730 0x00000000000000000000
begin
head
head
walk
bytes 671 0xd1 64 0xb3 80 0x00000000000000000038 106
# state
pop
question
ready
stat
state
region 1174728619069076 0x10000000000000001 0x6ed1ea3f7d1ef
QUEUE 8
dump 730 2
u32 726 0
-
valid
walk
dump 12a 168
region 64 2 624
state
next-used 65534
size 65537
sum
state
begin
head
back
head
u64 660 10580716479171272849
next
head
state
sum
memory 0x15a
queue 1
size 1
table 0 0
avail 16 00000
used 24 0
ready 1
valid
event 1
dump 16 12
put 32768 3
u16 18 1
bytes 0x00000000000000000001 97 199
state
desc 0 5759265492252918517 2147483648 0 0
fill 0x85 0xB 49
begin
next
head
head
head
readable
head
bytes 27 1
head
head
back
put 0 32
region 6 346 0x0
bytes 12 0xFE 255
begin
back
u16 101 4930
u64 0x0000000000000000009d 0xb9440a6672de7b91
walk
fill 70 16 74
u16 12 65534
u16 12 0
bytes 0 0xff 255 1 0 0 0 0 0 0 0
ready 1
u32 342 0x3C31E4B8
chain 0
next
dump 0xa 4
question
sum
pop
next
put 0 1
question
u32 9223372036854775808 6
u16 88 0x589d
put 6 4294967295
u16 0x0000000000000000000c 0
begin
head
writable
head
bytes 2 0x0 00000 0 128
head
head
u16 334 62182
bytes 1 239
head
head
state
chain 0
readable
u16 313 2497
u16 12 2
size 322
pop
pop
state
dump 0x00000000000000000012 0x00000000000000000004
state
chain 0x0
next
writable
sum
dump 5 5
writable
state
table 4294967295 4294967295
dump 6 0
back
fill 48 20 0xb2
valid
region 0x000000000000000000b3 4 0x000019b0973bbc3ca400
u16 12 0
u16 12 0
state
readable
bytes 0x0 0x0 00000 0xff 00255 255 255 0x8 239 0x0 0
u64 6 104
region 26 14 0xa8
ask
begin
readable
pop
next
put 0x0 32
u16 12 32768
region 24 346 0
state
bytes 232 129 161 3
question
next-avail 7
state
u16 0x00000000000000000006 53
ask
u16 12 32775
state
fill 20 3 41
bytes 32 184 49
state
u32 10121478049399219872 8
chain 1
next
chain 00000
next
next
fill 91 16 96
chain 0
walk
next
u64 68 9727094372370455260
u32 6 136
put 0xfffd 0xda
next-used 1
back
writable
next-used 0x0000000000000000fffd
put 0 4294967295
chain 1047
put 0 0
u32 0x6c 0x24d262b6
region 12 346 0
u16 2 60313
chain 0x0
walk
pop
question
u16 12 6
back
state
sum
memory 0x4ac
queue 4
table 0 0
avail 160 0
used 272 0
ready 0x1
valid
next-avail 65534
u16 0xa2 65534
next-used 65534
begin
head
bytes 695 121
pop
state
desc 0x30 0xfffffffffffff13d 16 1 1
desc 16 0xd05c0 512 0x00000000000000000001 0x0
desc 0 712432 00512 0 0
u16 168 3
u16 0xA2 65535
state
pop
next
readable
put 0x3 0xffffffff
put 0x3 0xffffffff
pop
chain 1
next
next
put 0x00000000000000000002 4294967295
begin
desc 16 935728 512 1 0
desc 0 0xa8860 16 0x0 0
u16 170 1
u16 0xa2 0
region 160 58 0xb4
head
head
pop
put 0 0x200
question
event 1
u16 184 2
u16 182 1
pop
next
put 2 0xffffffff
begin
head
head
dump 0xb4 12
begin
head
head
u16 186 1
u16 0xB6 2
valid
begin
head
put 1 16909060
sum
u16 192 32769
u16 0xBC 1
bytes 182 3 0
pop
readable
put 1 2147483648
state
u16 190 0
u16 0xb6 4
put 4 16909060
u16 184 0x2
u16 182 5
u16 186 0x00000000000000000002
u16 0xb6 6
pop
put 0 0x80000000
question
begin
head
head
head
head
put 2 0x00000000000000000000
begin
head
u32 172 2779505893
next
next
head
fill 1176 2 89
walk
begin
back
head
head
put 2 1
state
ask
u16 0xbc 0
u16 182 7
begin
head
fill 0x158 4 144
put 0 0xffffffff
u16 190 2
u16 182 0x8
u16 0xC0 4
pop
writable
put 2 1
u16 184 1
u16 0xb6 9
ask
u16 186 3
u16 182 00010
pop
writable
put 1 2147483648
question
pop
next
writable
put 3 4294967295
question
valid
begin
head
u16 188 0
u16 0xb6 11
put 0x00000000000000000000 2147483648
u16 190 0x00000000000000000000
u16 0xb6 12
state
begin
head
head
head
head
put 0 16909060
put 0 16909060
bytes 0xb8 1 0
u16 0xb6 13
pop
put 1 512
question
u16 186 3
u16 00182 14
sum
question
u16 0xbc 2
u16 0xb6 15
begin
walk
head
head
next
head
next
head
head
put 2 16909060
begin
head
back
next
u16 190 1
bytes 182 16 0
chain 3
next
u16 0xb8 0x00000000000000000002
u16 182 17
put 3 0
begin
head
head
put 2 32
put 1 1
begin
head
next
u64 247 16790679997118124570
put 2 0
u16 00186 0
u16 182 18
u16 188 0
u16 0xb6 19
Memory
u16 0xBE 0
u16 182 20
region 1099511627776 2 18446744073709551615
begin
head
put 0x0 1
begin
fill 613 4 97
head
head
put 0 512
bytes 0xb8 1 0
u16 182 21
begin
head
walk
writable
pop
walk
question
valid
question
begin
next
readable
head
head
back
state
sum
memory 368
region 0 368 0
queue 8
table 0x00000000000000000000 0
avail 128 -
avail - 0
used 0x98 0
ready 1
valid
bytes 24 0 0 0 0
pop
readable
bytes 0x82 9 00000
desc 0x60 0x8e0ff99a92d41084 0 2 0
bytes 0x86 6 00000
u16 130 10
bytes 152 00073 248 0xe8 202 72 00146 146 0x41 106
u16 136 5
u16 00130 11
pop
question
u16 0x82 8
chain 0
writable
readable
readable
bytes 40 0 0 0 128
pop
put 0 2147483648
question
u16 148 65533
desc 0 900480 1 0x1 3
bytes 48 0x60 117 00010 0 0 0 0 0 0 0 0 0 1 0 4 0
desc 64 18446744073709550930 00001 3 6
desc 96 18446744073709551326 0x0 3 7
desc 0x70 18446744073709550479 0 3 0x00000000000000000001
desc 16 18446744073709550303 0x00000000000000000000 3 5
desc 0x50 18446744073709550446 1 2 0
u16 132 0
u16 130 9
stop
u16 130 9
bytes 0xa1 1
chain 8
next
bytes 10 58
bytes 0x82 9 0x00000000000000000000
bytes 107 0x10
begin
head
head
head
desc 00000 0x156a81778eb5d475 65536 1 1
desc 16 0xfffffffffffff16d 0x10 1 4
desc 64 280656 0x1000 3 7
desc 0x70 159072 0 3 5
desc 80 444896 512 2 0
u16 134 0
u16 130 10
next
writable
walk
head
head
head
u32 54 3477784801
u64 272 923340573732366503
put 6 0x00000000000001020304
put 0x00000000000000000005 0x20
put 0x0 0x80000000
put 0 512
put 0x00000000000000000000 0
begin
head
next
walk
u32 88 413740898
head
next
next
head
next
next
writable
put 0 0
put 0 0
put 65535 0
put 2 32
put 65535 2147483648
bytes 138 1
desc 16 0x3d6b0 16 1 0x00000000000000000000
desc 0 498656 0x1000 1 6
desc 96 467456 16 2 0
u16 0x88 00001
u16 130 11
desc 00000 6296536169709340089 0 0 8
state
desc 0x60 254624 1 3 0
desc 0 18446744073709550934 0x00000000000000010000 3 0x00000000000000000004
desc 64 0x0000e74d7431d3530ff0 0x200 3 2
desc 32 0x3d8c0 0x0 0x00000000000000000003 7
desc 112 18446744073709548450 512 3 5
desc 80 0xFFFFFFFFFFFFF7D2 512 3 3
desc 48 18446744073709548355 0 3 00001
desc 0x00000000000000000010 768944 1 2 0
u16 138 6
u16 130 12
begin
back
head
head
head
writable
head
head
head
head
put 1 0
put 6 32
bytes 9 1
begin
head
bytes 0x68 1 0x0 00000 0
walk
u16 302 35793
head
next
head
head
desc 48 0xace28ad34a010ab1 1 56168 2
chain 0x00000000000000000004
walk
pop
state
sum
memory 210
region 0xFFFFFFFFFFFFFFC4 14 0
region 18446744073709551536 20 14
region 18446744073709551570 42 34
region 18446744073709551402 134 76
queue 1
size 1
table 0xFFFFFF50 0xFFFFFFFF
avail 0xffffff58 -
avail - 0xffffffff
used 0xFFFFFF44 4294967295
ready 1
valid
next-avail 0x9ecc
u16 124 40652
next-used 40652
event 1
u16 0x7c 40653
bytes 122 0xff 0x000000000000000000ff 255 127
pop
question
u16 128 0x9ECB
chain 0
readable
next
next
walk
bytes 128 8
pop
question
u16 00124 0x9ecd
state
begin
head
head
put 0 2147483648
state
valid
pop
desc 0x72 9287119248381607453 1 1 0
u16 00126 0
u16 124 1
pop
question
u16 126 0
u16 124 2
u16 126 0
u16 124 3
bytes 119 122
bytes 126 32
bytes 0x0000000000000000007a 255 255 0xff 255
u16 126 0
u16 0x7c 0
begin
desc 0x00000000000000000072 18446744073709550645 0 3 0
bytes 0x0000000000000000007e 0 0
u16 124 1
pop
next
next
question
chain 0
walk
ask
pop
bytes 125 1
bytes 122 00000 0x0 0x0 0
u16 124 40653
bytes 114 152 0xF9 255 0xff 0xff 255 0xff 255 0 16 0 0x00000000000000000000 3 0x0 0x00000000000000000000 0
bytes 0x7E 0 0
u16 0x7c 0x00000000000000000001
state
sum
memory 993
queue 4
size 0x4
table 0 -
table - 0
avail 980 0
used 304 0
ready 1
valid
next-avail 0xfffa
u16 982 65530
next-used 0xfffe
event 1
begin
back
writable
head
put 0 4294967295
desc 16 17905336676276151136 0x1000 1 2
desc 32 0xfffffffffffff40c 1 1 3
desc 48 0xFFFFFFFFFFFFF0FA 1 2 0
u16 0x3dc 1
u16 982 65531
pop
readable
put 1 2147483648
question
chain 2
writable
pop
u16 982 32763
desc 48 0xde190 0 2 0
u16 982 65535
u32 237 545738716
stop
bytes 338 16
pop
walk
put 0 0
back
put 3 0
put 2 0x1020304
put 2 0xffffffff
put 2 0
put 3 4294967295
put 5 0x200
put 2 32
put 2 0x1020304
put 1 1
put 2 32
put 5 0
put 3 32
put 2 512
put 0x5 32
pop
next
put 0 0x80000000
question
desc 0x00000000000000000000 767104 1 2 0x0
u16 990 0
u16 0x3d6 0
bytes 0x3de 1
pop
put 0x00000000000000000000 1
desc 16 0xfffffffffffff0df 0xfffffffe 0x2843 1
u16 984 1
u16 982 1
u16 986 0xFFFF
u16 982 2
u16 0x000000000000000003d6 0xfffe
stop
bytes 57 189
begin
head
walk
next
put 65535 0xffffffff
state
desc 0x00000000000000000030 0xfffffffffffff5eb 0x200 0x1 1
desc 16 110304 1 1 2
desc 32 0xcd4e0 1 0 0
u16 0x3dc 3
u16 0x3d6 0xffff
bytes 16 64 221 13 0 0 0 0 0 0 16 0 0 3 0 1 0
pop
walk
put 3 1
begin
head
head
next
u16 542 00346
next
next
begin
head
desc 0x10 681040 0x1000 3 0
desc 0 255856 16 2 0x00000000000000000000
u16 990 1
u16 0x3D6 0
state
pop
next
put 1 1
pop
begin
readable
head
desc 48 18446744073709548336 16 1 2
desc 0x00000000000000000020 19856 0x200 1 00001
desc 16 6379651237685756457 0x00000000000000000001 0 0
u16 984 3
u16 0x3d6 1
desc 0 18446744073709549011 4096 1 3
desc 48 0xe516ec5570f45e15 512 3 1
desc 0x00000000000000000010 12720 65536 0x00000000000000000002 0
u16 986 0
u16 0x3d6 2
back
walk
bytes 8 0xff 00255 0xff 0x7f
pop
walk
writable
put 1 1
pop
writable
put 3 1
bytes 44 0
question
pop
walk
put 0 2147483648
pop
desc 16 18446744073709547838 4096 3 0x00000000000000000000
desc 0 568480 0 3 2
desc 32 12474487700130205591 1 3 0x00000000000000000003
desc 48 1864945696345981243 512 2 0
u16 988 1
u16 982 3
u16 0x3d9 0x10b6
bytes 26 1
bytes 984 19
u16 0x3d6 00004
bytes 21 0
dump 0x0 38
desc 0 0x335855ccf93a266e 0 3 0
desc 48 24928 65536 0x3 1
desc 16 622656 4096 3 2
desc 32 18446744073709551136 0 2 0
u16 984 3
u16 982 5
begin
next
head
desc 00048 0x8dc20 0 0x00000000000000000001 1
desc 16 715405785967836998 512 0 0
u16 0x3da 3
u16 0x3d6 6
head
head
head
head
next
bytes 0x130 128
put 1 0x80000000
put 1 16909060
put 3 4294967295
desc 16 0xEF3E0 512 1 0
desc 0 18446744073709551226 65536 2 0
u16 988 1
u16 0x3d6 7
bytes 314 0x0000000000000000000b
desc 0x20 18446744073709548761 16 0x1 0
desc 0 18446744073709549910 04096 0 0
u16 00990 00002
u16 982 8
bytes 0xD1 106 0x4a 11 99
dump 0x130 12
u16 992 32790
begin
desc 32 0x1e5d0 512 0x00000000000000000001 0
desc 0 18446744073709551360 1 0 0
u16 984 2
bytes 0x3d6 0x00000000000000000009 0
head
back
head
head
head
desc 48 435376 65536 1 1
desc 16 593072 0x1000 3 0
desc 0 0x6B690 512 3 2
desc 0x20 18446744073709549948 0x1000 2 0
u16 0x3da 3
u16 0x3d6 10
bytes 40 0 0 0 0x80
head
put 3 1
put 3 4294967295
put 1 512
bytes 338 0xfb
state
state
chain 4
desc 00000 18446744073709550491 512 0x1 1
bytes 16 0x80 4 2 0 0 0 0 0 16 00000 0 0x0 0 0x0 0 0
bytes 988 0 0
u16 982 00011
state
sum
memory 0x798
region 0xfffffffffffff864 10 0
region 0xfffffffffffff8ae 1870 10
region 18446744073709549678 64 0x00000000000000000758
queue 4
size 4
table 4294965360 -
table - 4294967295
avail 4294965536 0xffffffff
used 0xFFFFF9A0 4294967295
ready 1
valid
next-avail 52748
u16 126 52748
next-used 0xce0c
fill 1941 0 240
state
pop
walk
bytes 0x760 0x1
u16 126 0x0000000000000000ce0c
bytes 11 71
bytes 0x76f 16
bytes 0x78a 0xd0 175 3 0 0 0 0 0 254 0xff 00255 0xff 3 0
bytes 10 255 255
question
u16 128 4
u16 126 52749
begin
next
head
head
desc 1914 104640 4096 1 1
desc 1898 0xFFFFFFFFFFFFF47C 65536 0 0
u16 0x82 2
u16 126 52750
head
head
bytes 0x782 00000 0 0 0
state
u16 0x7E 19981
u16 126 52749
bytes 1930 192 0x8e 14 0 0 0 00000 0 16 0 0 0 1 0
bytes 10 1 0
desc 1898 454336 0x10000 1 2
bytes 1914 249 00145 137 0xc1 214 0x000000000000000000d1 100 244 0x10 0 0 0 0x1 0 0 0
desc 1882 0xc0ca0 65536 2 0
bytes 130 3 0
u16 0x7e 52750
state
begin
bytes 0x459 34 176 0x48 227 0x00000000000000000031 123 3 139 43 1
bytes 1930 24 109 0xc5 235 0x5 0x9b 00063 42 0 0 0 0 0 0
bytes 10 0 0
u16 132 3
u16 126 52751
head
put 3 1
stop
bytes 0x78a 0xeb 0xF2 255 255 255 255 255 0xFF 0 0 1 0 1 0
bytes 10 1 0
desc 0x76a 10430110315531802294 65536 2 0
u16 134 3
u16 126 0xce10
bytes 0x111 1
begin
bytes 0x792 1 0 0 0
desc 1898 0x17890 512 1 0
desc 1882 4113141540018190495 65536 1 3
bytes 0x78A 211 0xfc 255 255 0xff 255 255 255 16 0 0 0 2 0
bytes 10 0 0
u16 128 1
u16 0x7e 0xce11
readable
next
readable
head
walk
writable
head
put 3 0x1020304
put 3 0x1020304
u16 0x7e 52757
bytes 0x2be 0x81 169 0x79 240 33
bytes 0x799 0 00000
bytes 126 16 00206
desc 1914 13954831441425965993 512 1 00000
desc 0x75A 18446744073709548222 0x0 00001 1
desc 1898 0xfffffffffffffb86 0x200 2 0x0
u16 128 2
u16 126 52753
state
state
sum
memory 321
queue 4
size 4
table 0 -
table - 0
avail 64 0
used 80 0
ready 1
valid
bytes 56 0 0 0 128
next
walk
chain 1
desc 48 15431827758991116324 2147483647 2 32768
begin
head
chain 2
readable
next
begin
head
head
readable
next
u64 260 12948187343440694546
chain 1
next
next
next
chain 0
next
next
chain 1
walk
state
desc 48 17507703425060839944 0 1 1
desc 16 0xC9740 0x200 1 2
desc 32 2843363695147463148 0 3 0
desc 0 0xfffffffffffff1ee 0x00000000000000000010 2 0
bytes 68 3 0
u16 0x42 1
bytes 8 1 0 0 0
chain 2
next
next
desc 16 7347248356342036483 1 39928 0
state
bytes 40 255 255 255 0x7f
chain 0
writable
memory 18446744073709551615
desc 48 284672 2147483648 1 1
desc 0 0xbecb0 65536 0x00000000000000000003 1
desc 0x10 6039105919422288496 16 00003 3
desc 48 4447855895785766169 0 2 0
u16 70 0
u16 0x42 2
begin
walk
next
u32 196 0xBFBCAE83
head
region 0 320 0
next
next
writable
state
state
desc 32 12609729175781532955 65536 1 0
desc 0 0x8E970 0x10 0 0
u16 00072 2
u16 00066 3
chain 2
desc 16 0xfffffffffffffdce 0x1000 0xFAC1 1
chain 2
next
next
next
chain 0x5
next
sum
chain 1
writable
bytes 40 255 0xFF 255 0xff
chain 00003
walk
desc 00032 0x0000000000000005d7b0 1 0x00000000000000000000 0
u16 74 2
u16 66 0x4
chain 2
readable
desc 48 750288 2147483648 2 1
begin
next
back
readable
region 0x42 320 0
chain 0
next
walk
bytes 8 0 0 0 0x0
walk
pop
walk
writable
put 3 2147483648
bytes 40 255 255 255 0x7f
next
desc 48 18446744073709550557 65536 1 0
desc 0 0x28660 0 3 1
desc 16 18446744073709547780 16 2 0
u16 0x44 3
u16 66 5
chain 65535
next
desc 48 0xfffffffffffffb08 0 2 2
begin
head
bytes 0x136 42 0xa8 0xA 0xe8 0xeb 0x41 0xab 00043 0xe1
next
writable
put 0 1
pop
next
readable
readable
put 2 32
question
desc 0 222752 0x00000000000080000000 2 0x00000000000000000003
chain 0
next
next
state
sum
memory 412
region 1100 10 92
region 0x456 00022 102
region 1132 20 124
region 0x480 0x00000000000000000094 144
queue 1
size 1
table 0x3f0 0
avail 1024 -
avail - 0x0
used 1032 -
used - 0
ready 1
valid
next-avail 65531
next-used 65533
event 1
chain 0
next
pop
pop
put 0x00000000000000000000 4294967295
begin
question
question
chain 0
readable
pop
begin
state
pop
question
begin
head
pop
pop
question
begin
state
question
ask
pop
next
next
ask
pop
question
begin
pop
question
begin
sum
begin
begin
next
sum
put 1 1
begin
begin
begin
pop
begin
question
chain 0
writable
table - 4294967295
sum
begin
stop
sum
begin
begin
begin
state
begin
desc 1e3 4219980830077142 1288063272 13911 38363
pop
pop
question
pop
question
begin
begin
head
writable
head
question
pop
question
begin
begin
question
stop
pop
writable
back
state
pop
valid
begin
begin
state
put 1 4294967295
put 0 32
state
sum
ask
begin
pop
question
ask
valid
pop
next
next
question
back
begin
back
begin
pop
begin
next
walk
next
head
bytes 146 0xb0 0x62 0xe9 130 43 35 0x61
u32 0x69 3921365376
back
head
chain 0x0
next
walk
begin
pop
writable
question
question
pop
question
state
question
question
begin
begin
sum
pop
question
begin
stop
begin
question
pop
state
pop
ask
begin
pop
question
state
begin
head
head
head
head
head
head
head
fill 292 0x00000000000000000017 00121
back
pop
begin
pop
question
pop
question
pop
begin
pop
begin
pop
question
stop
pop
walk
next
pop
pop
question
begin
back
begin
pop
question
ask
pop
question
question
begin
stop
pop
chain 0xffff
begin
desc 1052856199852430 0xecd2c0a20abaf 0x000000000000bc31b8e4 0xg 30010
state
question
valid
question
chain 0
next
begin
begin
pop
question
chain 0
writable
next
state
sum
memory 420
region 410 0x0000000000000000000a 0
region 0x000000000000000000bc 0x3c 00010
region 248 162 70
region 0x6c 80 232
region 0 38 0x138
region 38 70 00350
event 1
queue 00004
table 0 0
avail 0x40 -
avail - 0
used 0x00000000000000000050 -
used - 0
ready 1
valid
next-avail 0xbbba
u16 378 48058
next-used 48058
event 1
fill 223 1 3
begin
head
head
walk
next
writable
next
next
bytes 336 1
walk
back
pop
next
walk
put 0x00000000000000000000 0x0
begin
head
fill 0xc3 13 26
back
back
question
question
begin
head
head
head
back
head
back
head
head
put 0 32
put 0 16909060
put 0 4294967295
put 0 4294967295
desc 344 916224 0x00000000000000000200 1 0x1
desc 328 18446744073709547550 1 1 0
bytes 0x138 0xf0 79 9 0 0 0 0 0x0 0 0 00000 0 1 0 3 0
desc 0x168 0x5ABC0 1 2 0
u16 384 2
u16 378 48059
desc 0x138 18446744073709550004 0xfffffffe 3 2
chain 1
question
chain 1
next
next
next
next
desc 0x158 0xdf400 0 2 0
u16 386 2
bytes 378 188 187
pop
put 2 0x20
pop
writable
next
put 2 512
bytes 347 142
put 0x3 16909060
u16 0x17C 4
u16 378 48061
u16 43 0x0000000000000000bf24
pop
next
put 4 1
question
begin
next
bytes 352 1 0 0 0
head
head
next
next
head
begin
bytes 0x16b 8
head
head
next
head
next
readable
fill 290 6 00072
writable
head
head
begin
head
head
bytes 320 1 0 0 0
head
region 0 0x1a4 0
back
head
head
head
region 0 0x1a4 0
put 4 0xffffffff
pop
question
begin
desc 312 896272 4096 1 2
bytes 344 160 52 0xE 0 0 0 0 0 0 2 0 0 1 0 3 0
bytes 00360 0xd3 0xc0 0xa2 244 0x42 0x00000000000000000087 0x70 22 00000 0 0 0 0 0 0 0
u16 0x17e 0
bytes 0x17a 190 187
head
bytes 388 193 187
bytes 320 1 0x0 0 0
begin
back
back
next
desc 360 500832 4096 3 1
desc 328 465520 16 3 2
desc 344 224080 0 2 0
u16 384 3
u16 0x0000000000000000017a 48063
region 18446744073709551612 0x1a4 0x00000000000000000000
begin
head
head
put 0x2 4294967295
u16 00386 0
u16 378 48064
pop
next
next
walk
put 0 0x1020304
bytes 336 1 0 0 0
chain 1
writable
begin
head
head
put 3 4294967295
put 00000 0
put 2 0x1020304
stop
desc 344 18446744073709551135 0 3 0
desc 0x138 940656 16 3 3
desc 360 135536 4096 2 0
u16 0x17C 2
u16 378 48065
back
begin
bytes 398 1
back
head
back
head
bytes 385 128
back
bytes 381 1
put 3 32
q;TCvZ )`9M\&gf=)Q:c7O/
bytes 00336 0x41
state
pop
readable
next
put 32771 0x200
question
begin
head
walk
next
u32 355 3279184985
next
fill 294 12 0x0000000000000000006b
next
writable
bytes 0x174 10
head
put 0 512
put 258 4294967295
u16 382 2
u16 378 48066
chain 2
desc 344 18446744073709549765 512 3 0
desc 312 234416 1 2 0
u16 384 0x2
u16 378 48067
put 3 32
u16 388 0xbbc6
bytes 386 0 0
u16 378 48068
desc 0x168 77248 0x10 0x2 0
u16 380 3
u16 378 48069
begin
head
desc 0x158 0x8b740 0x10000 2 0
u16 382 2
u16 378 48070
put 2 512
pop
next
put 2 512
question
bytes 0xf0 1
chain 2
# next
back
chain 0
next
pop
walk
put 00002 00001
begin
walk
u64 0x79 12156875316731474464
chain 3
next
desc 0x00000000000000000158 18446744073709551559 16 1 3
desc 360 6813619350511586343 1 00003 0x00000000000000000001
desc 328 0xfffffffffffff9c6 0x200 2 0
u16 384 2
u16 00378 48071
region 0x44 2 0x104
pop
next
put 0 2147483648
begin
head
u64 334 10847369619729816951
u64 354 0xc921bb248ffe2e0d
next
next
next
writable
head
bytes 388 199
head
put 3 512
put 2 0xffffffff
put 2 1
state
sum
memory 400
region 00000 400 0
queue 4
table 0 0
avail 00064 0
used 0x50 0
ready 1
valid
next-avail 0x613c
u16 0x42 24892
next-used 65532
event 00001
avail - 0
u16 64 1
put 3 0x1020304
put 1 0
state
u16 0x4c 65532
sum
state
next-used 65527
question
desc 32 7252306652495254292 4096 0 0x00000000000000000000
u16 0x44 2
u16 66 24893
u16 0x42 0x00000000000000006140
pop
next
walk
writable
put 2 32
put 1 512
valid
u16 66 0xe13d
pop
question
state
put 0 1
desc 48 9281947592599780638 65536 1 2
desc 32 105648 0x200 0 0
u16 70 3
u16 66 57662
stop
state
size 3
question
pop
put 2 512
put 2 0
put 2 1
u16 76 65530
u16 66 24894
sum
put 1 0
put 3 16909060
put 2 2147483648
table 4294967274 -
ask
stop
stop
u16 0x4C 3
pop
walk
next
next
put 3 4294967295
stop
u16 64 65535
put 2 0
put 2 0
put 3 0x00000000000080000000
u16 66 24895
question
u16 76 0
desc 16 0x8c890 65536 1 2
desc 32 335888 512 3 3
bytes 48 0x4F 250 255 255 0xFF 255 255 0xff 0 2 0 0 2 0 0 0
u16 0x4A 1
u16 66 0x6140
table 1 -
u16 64 0x1
question
state
u16 0x4c 0x4
pop
put 0 0x200
question
desc 32 0xFFFFFFFFFFFFFD7C 1 1 1
bytes 16 0x00000000000000000013 0xF5 0x000000000000000000ff 255 255 255 0xff 0xFF 0 2 0 0 1 0x0 0x3 0
desc 00048 0x1340 0 2 0
u16 0x00000000000000000044 2
u16 0x42 24897
ask
put 0 32
put 2 0x00000000000000000000
put 2 0xffffffff
put 0x0000000000000000ffff 512
put 3 0
put 00003 16909060
put 0 0
put 00003 4294967295
put 1 1
put 3 0
put 1 2147483648
put 0 0
put 3 0
put 0 16909060
put 4 1
put 2 32
question
u16 76 17
put 1 0x80000000
state
put 1 1
u16 76 18
stop
pop
readable
put 1 00001
state
sum
memory 0x74c
queue 8
table 4294967264 4294967295
avail 0xfffffff2 4294967295
used 184 0
ready 1
valid
next-avail 65530
next-used 65530
state
table - 4294967295
state
table 4294967264 0
pop
question
back
back
valid
used 0 1
begin
size 8
event 0
event 1
size 4
stop
ask
ready 1
put 3 512
begin
table 4294967292 -
next-avail 23557
avail - 0x1
size 8
next-avail 65534
next-avail 65533
reset
size 8
table 4294967264 0
avail 4294967282 -
avail - 1
used 0 -
used - 1
ready 1
ask
reset
size 8
table 0xffffffe0 -
table - 0
avail 4294967282 0x1
used 0 1
ready 00001
put 5 1
back
state
next-avail 65530
ready 1
put 0xffff 16909060
state
put 5 2147483648
desc 99999999999999999999 99999999999999999999 99999999999999999999 99999999999999999999
begin
bytes 0x116 136 75 0x79 211 241 19 234 18 0x93 90 81 218
head
used 16 -
next-avail 65529
ready 0
event 1
size 6
back
size 4
avail - 1
event 1
begin
back
back
head
chain 1
writable
readable
table 4294967281 1
question
size 8
used 2503218517 1
reset
size 8
table 4294967264 0
avail 0xfffffff2 1
used 16 -
used - 1
ready 0x1
state
sum
memory 1586
queue 32768
size 2
table 0 0
avail 80 0
used 0x8C 0
ready 1
valid
next-avail 0x1c7c
bytes 0x52 0x7c 28
next-used 36436
*fZ<;Nb,6mZ#-wk@X(4LM_J
begin
used -1 0xeac26c4d
event 0x00000000000000000001
readable
walk
next
put 1
pop
question
sum
state                                                                                                                                                                                                                                                                                                                                                                                                                                                                                                                                                                                                                                                                                                                                                                                                                                                                                                                                                                                                                                                                                                                                                                                                                                                                                                                                                                                                                                                                                                                                                                                                                                                                                                                                                                                                                                                                                                                                                                                                                                                                                                                                                                                                                                                                                                                                                                                                                                                                                                                                                                                                                                                                                                                                                                                                                                                                                                                                                                                                                                                                                                                                                                                                                                                                                                                                                                                                                                                                                                                                                                                                                                                                                                                                                                                                                                                                                                                                                                                                                                                                                                                                                                                                                                                                                                                                                                                                                                                                                                                                                                                                                                                                                                                                                                                                                                                                                                                                                                                                                                                                                                                                                                                                   
u32 12196915514667021366 4294967293
dump 13449769839058074093 6
u32 1588 0
desc 0x10 497936 00016 2 0
u16 84 1
u16 82 0x1c7d
pop -
walk
pop
writable
put 1 512
next# comment
region 1099511627776 2 18446744073709551614
memory 1_000
question
table 1
used 704 0
state
state
desc 16 11540560261751002368 00001 0x0 0
u16 0x56 1
u16 82 0x1c7e
back 0
state
ready 0
pop
question
used 704 -
pop
readable
question
u64 0x632 0
back
u16 1, 56924
pop
event 1
pop
fill 18446744073709551617 0x1b586a8f53dfc0 0x54
size 5
state
state
sum
memory 88
queue 8
table 32 00000
avail 32 0x0
used 4 -
used - 0
ready 1
valid
event 1
begin
fill 15 1 0xe2
question
table 9 0
begin
head
readable
next
head
head
next
next
head
begin
head
back
head
desc 64 780000 0x10000 1 3
bytes 0x50 16 0x46 0x7 0 0 0 0 0
u16 36 2
u16 34 1
head
head
put 0 16909060
chain 1
fill 86 00008 0x79
chain 9
next
u16 34 0xfffe
pop
bytes 0x00000000000000000022 0 0
event 1
chain 6
writable
put 5 0xffffffff
put 5 32
begin
bytes 75 0xf6
back
head
head
region 0 88 0
back
head
next
next
put 0 32
bytes 80 46 00145 209 60 115 0xE7 13 0x9a
put 0xffff 0
u16 34 0xfffe
writable
back
ready 1
put 3 0x00000000000000000200
pop
question
u16 34 0x00000000000000000007
region 28 30 12
region 0 0x00000000000000000058 0
region 62 0x00000000000000000034 18
valid
table 0x4c84b5d9 -
table - 289849443
u16 34 0xfffe
bytes 72 18 248 0x32 0xc8 186 49 0xd2 16 10 00193 195 242
ask
valid
bytes 9 0x00000000000000000004 9
pop
question
region 16 0x4e 0xA
put 66 4294967293
valid
chain 8
walk
question
pop
begin
state
chain 3
readable
next
put 65535 0
u32 72 0x55da5454
state
next-used 56442
state
pop
begin
table 76 0x0
u16 0x22 7
pop
next
put 0 32
state
sum
memory 452
region 384 0x1c4 0
stop
queue 2
table 0x180 0
avail 416 0
used 428 -
used - 0
ready 1
valid
next-avail 65532
u16 34 0x0000000000000000fffc
next-used 65534
desc 16 0xfffffffffffff24f 0x1000 1 0x0
desc 0 0xec879a0d1a98191a 4096 2 0
bytes 0x00000000000000000024 1 0
u16 34 0xfffd
ask
ask
pop
readable
put 1 4294967295
question
begin
next
head
head
head
head
head
head
head
next
desc 16 3802772781020083872 0x200 1 0
desc 0 567200 16 0 0
u16 38 1
u16 34 0xfffe
stop
stop
fill 99999999999999999999 99999999999999999999
state
chain 1
walk
state
desc 16 0xFFFFFFFFFFFFF721 0x200 2 0
u16 36 1
u16 34 0xffff
pop
next
put 0x1 4294967295
desc 0 311776 1 0x00000000000000000000 0
bytes 38 0 00000
u16 34 0
state
pop
writable
put 0x00000000000000000001 0xffffffff
question
begin
head
readable
next
readable
next
walk
readable
head
readable
head
put 0x0 1
begin
desc 00016 8669839305612409351 0 2 0
u16 36 1
u16 34 1
head
bytes 0xb1 114 152 122
bytes 0x00000000000000000012 63
bytes 0x1a 27
head
head
bytes 153 234 211 75 00043 233 0x50 234 234 112 0x0000000000000000002a
back
head
event 1
state
begin
head
head
next
walk
back
head
put 1 32
put 1 32
valid
desc 16 0xfffffffffffffe1c 00000 2 0
u16 38 0x00000000000000000001
u16 34 2
chain 1
next
writable
walk
state
chain 1
next
readable
valid
desc 0x0 0xc381149d8784757a 16 3 1
desc 00016 127376 4096 2 0
u16 36 0
u16 34 3
begin
desc 0 0xFFFFFFFFFFFFFB8A 0x10000 2 0x0
u16 0x00000000000000000026 0
bytes 34 4 0
u32 368 1251511367
readable
u16 00137 0xaf20
walk
back
bytes 16 215 0xf5 0x000000000000000000ff 255 0xff 255 255 255 0 16 0 0 2 0x0 0 0
u16 36 1
u16 00034 5
next
u16 34 0
desc 16 1519421842118312085 4096 0 0
u16 36 1
u16 34 1
state
sum
memory 0x000000000000000001cc
queue 1
table 00000 -
table - 0
avail 16 0
used 24 0
ready 00001
valid
next-avail 0x00000000000000005896
u16 18 22678
next-used 0x5896
u32 1
begin
next
head
next
u16 49 0x4d6e
bytes 8 0xff 255 255 255
bytes 8 255 255 0x000000000000000000ff 255
next
head
u16 22 22678
pop
u16 18 22678
chain 0
writable
bytes 12 16
question
bytes 0x2 1
bytes 15 254
put 0 1
state
bytes 26 182
state
desc 0 0xA13B88B87CBE0DE8 1 04778 32768
chain 0
state
dump 0x0 12
back
state
u16 18 22678
bytes 33 1
begin
head
head
head
bytes 82 42 0xF3
back
head
head
bytes 2 00174
put 0 512
put 0 16909060
sum
desc 0 547280 0 0 0
u16 0x00000000000000000014 0
u16 18 0x5897
begin
readable
next
head
head
next
walk
head
head
head
head
ask
desc 0 18446744073709549192 0x00000000000000010000 0 0
u16 20 0x00000000000000000000
u16 18 22680
u16 22 22679
u16 20 0
u16 18 0x5899
bytes 9 40
state
u16 0x00000000000000000012 22679
desc 0 725920 4096 0 0
u16 20 0
u16 18 0x5898
u16 0x16 22679
pop
walk
put 0 0x200
question
dump 24 22
ask
QUEUE 8
dump 24 12
bytes 8 1 0 0 0x0
bytes 0x00000000000000000000 0x94
bytes 8 0 0 0 128
desc 0 6109709322138476422 0x10000 0x0 0
u16 00020 0
u16 18 22681
fill 0x173 7 0xa2
state
begin
bytes 8 255 255 255 127
ask
desc 0 0xc948a4b83e86384c 4294967294 3 0
begin
head
head
head
head
next
next
back
head
next
next
writable
readable
put 0 0
put 0 16909060
desc 0 4773719185010212732 0 2 0
bytes 20 0 0
u16 18 22682
chain 0x00000000000000000000
next
begin
head
head
bytes 299 0xe2 242 24 0xaa 184 72 129 66 123 0xbb 0xd8 107
head
readable
put 00000 1
desc 0 18446744073709550784 2147483647 0x3 0
u16 20 0
u16 0x12 22683
state
back
stop
pop
next
pop
begin
region 0 460 0
readable
u16 18 22681
desc 0 21264 0x1000 0 0
u16 0x14 0
u16 18 22682
begin
bytes 37 93
next
next
desc 0 634592 0 0 0
bytes 18 153 216
begin
fill 437 17 145
u64 0x12d 0xd09f10d239ae187d
pop
question
u16 0x130 51253
question
pop
put 0x0 00512
u16 18 0x589b
bytes 25 0x80
bytes 3 1
chain 0
walk
put 0 4294967295
u16 0x00000000000000000012 0x5899
desc 0 849456 0x10000 0 0
u16 20 0
u16 18 0x0000000000000000589a
bytes 18 0x9a 88
desc 0 669248 2147483647 0 65535
state
pop
walk
put 0 0
question
fill 0x12e 22 0x00000000000000000010
u16 20 0x8000
u16 00018 22683
u16 22 22688
u16 20 65535
u16 18 0x589c
chain 0
walk
readable
dump 24 4
ask
u16 0x14 1
u16 0x00000000000000000012 22685
chain 0
valid
bytes 8 0 0 0 0x80
chain 0
next
walk
valid
pop
pop
question
pop
question
bytes 18 154 88
desc 0 16236733119642911430 0 00000 0
u16 20 0
u16 18 22683
pop
next
next
put 00000 0xffffffff
desc 0 392544 4294967294 0x2 0
chain 0
next
next
pop
question
pop
question
question
begin
desc 0 1020704 512 2 0
u16 0x00000000000000000014 0
u16 18 0x0000000000000000589c
back
next
head
put 0 0
state
sum
memory 00044
queue 0x8
table 0 -
table - 0
avail 66 0
used 20 0x0
ready 0x00000000000000000001
valid
back
begin
begin
sum
bytes 38 64
u16 29 0x8263
dump 20 12
chain 5
next
begin
begin
valid
pop
question
chain 5
writable
begin
state
valid
put 3 16909060
state
region 24 40 0
state
stop
pop
next
question
begin
begin
region 18446744073709551602 44 0
begin
valid
state
pop
question
fill 36 17 00235
sum
pop
question
question
state
pop
sum
question
chain 7
next
chain 65535
next
question
begin
walk
head
writable
head
head
next
fill 35 0 0xc9
head
head
chain 8
next
back
state
begin
u32 40 1242512786
state
ask
begin
state
sum
memory 728
region 0 42 0
region 42 00130 42
region 172 12 172
region 184 60 184
region 0x000000000000000000f4 0x000000000000000001e4 244
queue 01024
size 8
table 00000 0x00000000000000000000
avail 0x2c2 0
used 376 -
used - 0
ready 1
valid
next-avail 65531
bytes 708 251 255
next-used 65531
chain 4
next
walk
pop
question
begin
head
head
head
region 0 0x2d8 0
desc 0x50 0xea1f3d08a3c8c079 1 3 0
desc 0 960272 16 3 00002
desc 32 0xf3571ab64557e843 1 3 4
desc 64 0x18660 0x00000000000000010000 3 0x7
desc 112 180320 16 0x00000000000000000001 3
desc 48 0xfffffffffffffc2a 512 3 1
desc 16 0xfffffffffffff002 0x00000000000000000200 0 0
u16 716 0x5
u16 708 0xfffc
head
begin
next
next
head
head
bytes 40 255 255 255 127
begin
u64 18 0x00002670fbd0c7b4f27a
head
state
begin
head
head
next
desc 80 890160 2147483648 31425 7
begin
head
head
back
head
desc 16 18446744073709550330 4096 3 4
bytes 64 240 10 0 0 0 0x0 0 0 0 0 0 0 2 0 0 0
u16 718 1
u16 708 0xfffd
next
walk
head
head
readable
next
u16 720 0
u16 708 65534
bytes 0x20 0x98 254 255 255 0xff 0xff 255 255 0 0 1 00000 1 0 3 0
bytes 48 00176 0x9b 36 80 0x8b 0x89 20 18 16 0 0 0 3 0 7 0
desc 112 0xc25b0 0x200 3 5
desc 00080 9981493516274931460 4096 1 0
bytes 0 32 244 255 255 255 255 0xff 255 16 0 0 0 1 0 4 0
desc 64 0x74f90 16 3 6
desc 96 18446744073709550795 1 2 0
u16 722 2
u16 0x2c4 65535
state
put 4 16909060
bytes 39 0
pop
next
next
next
next
readable
put 1 512
desc 32 0x9abf0 16 3 5
desc 0x00000000000000000050 0xfffffffffffffa6b 512 3 7
desc 0x70 0x23160 16 00003 4
desc 64 18446744073709550838 0x1 0x00000000000000000001 0
desc 0 0x0000000000000003bf50 04096 0 0
u16 724 2
u16 708 0
state
sum
memory 0x39D
region 18446744073709551518 96 0
region 0x0 828 96
queue 32768
size 1
table 0 0
avail 820 -
avail - 0
used 248 0x00000000000000000000
ready 1
valid
next-avail 0x566C
bytes 0x396 108 0x56
next-used 0x0000000000000000566c
event 1
bytes 0x60 80 0x00000000000000000058 9 0 00000 0 0 0 0 2 0x00000000000000000000 0 0 0x00000000000000000000 0 0
u16 920 0
u16 0x396 22125
begin
head
back
head
bytes 0x160 0x0000000000000000001f
put 0 0x000000000000ffffffff
put 0x0 32
desc 0x60 4023052207930604894 1 1 00000
u32 0x215 3600517549
desc 0x60 0xff9b0 2147483647 0 0
bytes 0x68 0
bytes 0x6b 128
u16 920 0x0
u16 0x396 0x566e
chain 00000
next
next
readable
bytes 00923 16
begin
head
head
head
desc 96 215472 1 2 0
u16 0x00000000000000000398 0
bytes 918 0x6f 86
back
head
next
next
back
put 0 2147483648
put 0 0x1020304
valid
bytes 922 111 86
pop
u16 00918 0x0000000000000000566d
bytes 96 0xf0 221 2 0 0 0 0 00000 0x00000000000000000000 16 0 0x0 2 0 0x0 0
bytes 00920 0 0
u16 0x396 22126
put 0 4294967295
bytes 0x65 32
state
u16 00922 22128
pop
next
put 0 0
bytes 00481 33
pop
desc 96 18446744073709551375 0 2 0
bytes 920 0 0
u16 918 22127
begin
head
bytes 00104 255 255 255 255
put 0 0x80000000
desc 96 993296 1 0x0 0
u16 920 0
u16 918 22128
u16 922 54899
bytes 346 114
state
sum
memory 1695
queue 0x8
size 1
table 00000 -
table - 0x0
avail 0x50 0x0
used 152 0
ready 1
valid
next-avail 0x8132
u16 82 33074
next-used 65528
bytes 0x8 1 0x0 0 0
desc 0 18446744073709551076 4294967295 2 0
u16 84 0
bytes 82 51 129
desc 00000 0xc7480 2147483648 2 0
bytes 8 0 0 0 0x80
bytes 8 1 0 0x0 0
chain 00000
next
next
chain 0x00000000000000000000
writable
next
writable
begin
head
desc 0 450256 4294967294 0 0
u16 0x54 0
u16 82 0x8134
bytes 0x8 0x0 0 0x00000000000000000000 0x80
begin
head
back
head
put 00000 16909060
pop
state
writable
pop
pop
desc 0 633232 1 2 0
bytes 0x8 255 0xff 255 0xff
desc 0 18446744073709547789 0 03008 0
desc 0 14434099785723066327 0 3 2
bytes 8 0 0x00000000000000000000 00000 0x80
begin
bytes 1662 209 138 96 67 232 42 0xd2 0x21 0x6a 242 176 200
head
head
chain 0x0
next
next
chain 0
next
writable
state
desc 0 18446744073709551190 4096 3 0x0
bytes 8 0x000000000000000000ff 255 0xff 127
chain 00001
readable
bytes 8 1 0 0 0
desc 0 18446744073709548821 0x000000000000ffffffff 2 0
u16 84 0
u16 82 33077
pop
next
put 0x00000000000000000000 512
question
chain 0
next
writable
walk
state
chain 0
next
readable
next
next
walk
next
desc 0x0 310016 0xfffffffe 0 0
u16 84 0
u16 0x52 0x8136
chain 0
state
desc 0 0x5d460 2147483648 2 0
next
pop
readable
put 0x00000000000000000000 0x80000000
question
chain 0xffff
next
chain 0
next
walk
desc 0 0xb5f10 2147483648 2 0x00000000000000000000
bytes 0x8 00001 0 0 0
readable
begin
head
head
head
next
state
chain 0
next
readable
bytes 8 0 0 0 0
bytes 8 255 255 255 255
desc 0 890896 4294967295 2 0x0
bytes 84 00000 0
u16 82 0x8137
begin
next
bytes 861 75
writable
fill 1484 3 0x62
head
readable
put 0 0x0
chain 0
readable
desc 0 324768 0x7fffffff 2 0
bytes 155 0
next
desc 0 409980886755645533 0x000000000000ffffffff 0 0
u16 84 0
bytes 82 56 0x81
next
desc 0 0x990E0 2147483647 0x00000000000000000002 0
next
pop
put 0 16909060
question
next
next
state
desc 0x0 287792 1 3 00000
desc 0 0xfffffffffffff6eb 0xffffffff 0x0 0
u16 0x54 0
u16 0x52 33081
chain 0
readable
bytes 8 0 0x00000000000000000000 0x0 0x00000000000000000080
next
next
chain 0xFFFF
readable
next
desc 0 0xf8cad1d51e49e09a 4294967295 0 0
u16 84 0
u16 0x52 33082
bytes 0x00000000000000000008 255 255 255 0xff
pop
state
chain 0
chain 0
readable
begin
chain 0
writable
readable
begin
pop
chain 65535
desc 0 0xe2730 0xfffffffe 53482 32768
next
u16 82 33080
desc 0 0xf6b70 4294967295 2 0
bytes 84 0 0
u16 82 0x8139
bytes 0x00000000000000000007 32
chain 0
walk
next
chain 65535
next
desc 00000 327952 0xffffffff 0x1509 0
chain 0
next
next
next
chain 0
writable
next
next
chain 0
walk
chain 0
readable
desc 00000 0x48240 2147483648 0 0
desc 0 18446744073709548364 1 0 2
readable
state
desc 0 293888 0x80000000 2467 0
state
state
sum
memory 488
region 11742332537014672 10 0
region 11742332537014682 36 0xa
region 11742332537014718 56 46
region 0x29b796d7b409f6 00044 102
region 0x00000029b796d7b40a22 88 0x92
region 11742332537014906 118 00234
region 11742332537015024 0x44 352
region 11742332537015092 68 0x1a4
queue 8
table 3618900368 2733974
avail 3618900496 0x29B796
used 3618900520 2733974
ready 1
valid
next-avail 0xffff
u16 130 0xffff
next-used 0xFFFF
event 00001
put 7 0x1
pop
question
begin
head
pop
pop
begin
head
bytes 0x000000000000000000b8 0x000000000000000000bd
desc 96 0xeca90 0x200 3 7
desc 112 0x96E10 4096 2 0
u16 146 6
u16 130 0
head
writable
head
head
put 7 16909060
put 1 0x000000000000ffffffff
put 1 0x1020304
put 0x6 16909060
put 1 0
put 1 2147483648
put 3 512
put 0x6 1
put 4 32
put 1 0x20
put 4 1
put 5 512
put 5 0x1020304
put 0x7 1
desc 48 18446744073709548767 1 3 4
desc 64 0x896D0 0 2 0
u16 132 3
u16 0x82 1
pop
put 6 512
desc 80 18446744073709549812 16 00000 0
u16 134 5
bytes 130 2 0
begin
head
next
next
next
head
next
walk
writable
writable
put 3 4294967295
put 5 4294967295
state
sum
memory 0x328
region 18446744073709551384 0x4 0
region 18446744073709551410 48 4
region 18446744073709551458 154 00052
region 18446744073709550896 0x126 206
region 18446744073709550804 0x5c 0x1f4
region 18446744073709551388 22 00592
region 18446744073709551190 0xC2 0x266
queue 8
table 0xfffffce0 4294967295
avail 0xfffffd90 -
avail - 4294967295
used 4294966744 4294967295
ready 1
valid
u16 306 00004
u16 304 1
desc 544 0x0000fffffffffffff436 00000 3 2
begin
bytes 230 0 0x00000000000000000000 0 0
bytes 0x195 1
bytes 315 1
back
desc 0x00000000000000000220 0x1fda0 0xfffffffe 2 0xffff
desc 0xde 18446744073709550667 0 00001 7
desc 238 667152 1 00003 5
desc 0xce 0x6b21111ffea2f6a9 4294967295 2 0
u16 308 6
u16 00304 2
pop
writable
put 00000 1
fill 125 18 129
u16 304 4
pop
writable
put 4 32
question
sum
begin
head
head
u16 363 62278
head
bytes 0xe6 0xff 255 0xff 127
head
next
next
next
readable
desc 544 1678997890810460095 0x1 1 4
desc 0x240 0x6bb30 2147483646 0x1 0x0
desc 512 43504 2147483647 0x3 3
desc 560 1022912 0 3 6
desc 222 163984 0 00003 1
desc 528 0xfffffffffffff522 0 3 5
desc 00206 7102100857977649729 0 2 0
u16 314 2
u16 0x130 5
bytes 00584 255 255 255 127
put 6 0
put 0 16909060
bytes 551 24
valid
u16 00322 32772
put 1 0xffffffff
begin
head
head
put 2 0x1
u16 00316 9
u16 304 6
put 4 16909060
e$Y.JV7Rc%/?8
begin
head
head
back
next
next
u32 228 291134881
next
next
head
put 9 512
put 9 0x1020304
chain 2
next
readable
begin
bytes 0x218 1 0 0 0x0
head
readable
head
desc 222 513552 4294967295 0 0
u16 318 0x6
u16 304 7
bytes 522 0xFD
u16 304 7
pop
readable
put 6 32
question
begin
next
next
head
head
head
head
head
next
readable
back
bytes 230 00000 0x00000000000000000000 0 00000
u16 304 4
ask
bytes 00310 0xf1
ask
bytes 0x130 0x5
u16 304 6
desc 0x210 18446744073709548539 0x00000000000080000000 1 2
desc 544 212848 1073741824 1 4
bytes 576 48 132 5 0 0x0 0 0 0 0 0 0 64 1 0 3 0
desc 560 0x47f60 0 0 0
u16 318 1
u16 304 7
desc 0x200 18446744073709548015 4294967294 0x0 6
u16 00320 6
u16 0x130 8
pop
next
next
put 1 0x00000000000080000000
question
desc 206 975344 2147483647 00001 6
desc 222 42384 2147483647 0x1 2
desc 544 0x2e6a0 0 0 0
u16 0x132 5
u16 0x130 9
state
bytes 0x134 4 0
u16 0x130 10
pop
next
put 6 0x00000000000000000020
bytes 563 32
begin
head
bytes 0xe6 255 255 255 127
head
head
back
u32 422 80220730
bytes 0x17d 0x93
head
put 5 16909060
put 4 0x1020304
put 4 0xffffffff
state
sum
memory 0x000000000000000002ce
region 4294966768 18 0
region 4294966786 4 18
region 0xfffffe06 8 22
region 4294966798 0x22 30
region 4294966832 44 64
region 4294966876 594 108
region 4294967470 16 0x2be
queue 4
size 4
table 4294966768 0
avail 184 1
used 4294966848 -
used - 0
ready 1
valid
next-avail 0xfa97
u16 714 64151
next-used 65535
put 3 1
put 2 2147483648
question
u16 714 0xfa99
pop
state
ask
stop
u16 714 64150
put 0 1
table 4294966768 0
u16 0x2ca 64151
u16 714 64150
size 1
u16 714 64152
question
ask
question
pop
put 0 32
state
put 65535 512
put 0x0 512
table - 1
u16 716 0
u16 0x2ca 0xFA99
put 0 1
dump 80 70
put 0 0xffffffff
put 1 16909060
put 0x0 4294967295
put 0 0
put 0 0xffffffff
put 0 1
put 0 00032
sum
question
u16 0x2ca 64152
u16 712 0
u16 716 0
u16 714 0xfa99
pop
next
put 0 2147483648
question
put 0 0x80000000
valid
put 0x00000000000000000000 4294967295
event 0
u16 0x2ca 64153
u16 0x2CA 0xfa9a
put 0 32
dump 0x50 12
put 1 4294967295
put 0 2147483648
put 0 32
put 0 1
put 00000 00512
put 0 1
put 0x0 512
put 0 0xffffffff
put 0 32
put 0 0x200
put 0 4294967295
put 0 0x1
put 0 2147483648
put 0 0x0
ask
question
put 0 4294967295
pop
next
put 0 0x20
put 0 1
question
u16 0x000000000000000002ca 64155
ask
ask
pop
walk
put 0 0x200
u16 712 1
question
state
sum
memory 0x1c2
region 3720826110120928 0x1c2 0
put 5 7
queue 8
table 0x569093e0 866322
avail 1452315744 866322
used 1452315768 -
used - 0xd3812
ready 00001
valid
next-avail 65533
u16 130 65533
next-used 65528
avail 0x56909470 866322
chain 5
next-used 3
back
ask
next-avail 2
put 2 0x80000000
put 2 2147483648
put 4 0x200
put 3 0xFFFFFFFF
put 0 32
put 6 0x20
put 6 512
put 2 2147483648
size 32768
back
chain 2
readable
dump 0x90 22
sum
valid
valid
state
back
question
size 6
event 1
ready 1
state
chain 2
pop
table 677475273 0
pop
dump 144 12
used 1452315769 00000
ask
event 0
pop
question
used - 1
avail 1452315762 -
size 2
# sum
dump 0x92 4
used 535469113 0x
u16 0x96 1
u16 0x94 1
chain 1
next
next
event 1
next-avail 0xFFFF
ready 1
avail - 1
chain 0x0
walk
u64 1
size 8
event 0x1
avail 3966761910 -
stop
stop
avail - 1
ready 0
state
stop
begin
readable
next
writable
next
head
avail 0xE378AEF1 0
avail 3966761910 -
next-avail 65529
next-avail 65529
size 0x2
next-avail 65535
valid
state
table 1452315624 -
event 0
table - 4294967295
pop
question
state
next-used 0xfff8
pop
next-used 1
used 0xffffffd6 1
valid
avail 0xFFFFFFFA -
state
event 1
next-avail 65533
back
begin
back
question
chain 65535
writable
back
used - -
back
state
state
chain 0
next
put 1 0
state
sum
state
valid
table 1212319369 0x100000fff
event 0
ready 0
event 1
begin
ready 1
next-used 26579
used 1452315736 0
put 0 16909060
put 1 2147483648
put 0 00032
put 0 2147483648
put 1 32
put 00001 0xFFFFFFFF
put 1 32
put 1 4294967295
put 1 0x0
put 1 0
back
ask
valid
avail 4294967258 1
next-used 0x0000000000000000fffc
fill 446 0x00000000000000000002 0x0
avail - 0
avail - -
table 1452315632 -
avail 4294967242 -
begin
begin
ready 1
question
event 0x00000000000000000000
chain 0
next
used 1452315736 0
state
ask
table - 1
stop
begin
back
event 0x00000000000000000000
back
size 3
state
pop
used 0x57368ce5 0
table 1452315632 4294967295
event 0
event 0x1
put 1 32
used 1452315738 -
state
state
used 1452315728 4294967295
avail - 0
next-avail 65533
next-avail 23546
state
used - 0
ready 1
back
put 0xFFFF 1
avail 4294967234 -
put 0 0
event 1
table 0x569093E0 -
put 0 0xffffffff
table - 0x000000000000ffffffff
used 4294967273 -
back
chain 0x00000000000000000001
walk
state
valid
used 0x56909450 -
table - 4294967295
size 6
reset
head
pop
question
back
avail 0xe2d9fa47 0
sum
avail 4 0
table 4 -
chain 2
next
ask
state
size 0x2
pop
next
question
ready 0
reset
size 0x00000000000000000002
table 0x0 0
avail 4 0
used 0 0
ready 1
pop
table - 0
ready 1
next-avail 65529
put 1 0
put 0 1
put 00000 1
put 0 2147483648
put 0x0 00032
put 0 1
put 1 16909060
put 0 0x1020304
put 1 1
put 00000 32
put 1 32
put 0x0 1
put 0 0xffffffff
put 1 4294967295
put 00001 1
put 0 1
put 0 0x200
put 3 4294967295
state
sum
memory 1350
queue 16
size 0x00000000000000000008
table 0 -
table - 0x0
avail 176 00000
used 0xf8 0
valid
next-avail 18698
u16 0xb2 0x490a
next-used 18698
event 1
valid
event 1
state
dump 248 12
desc 16 0x546f0 0x0 3 0
desc 00000 41872 16 3 2
bytes 32 69 195 13 244 0xb3 9 97 128 0 0 0x00000000000000000001 0 3 0 6 0
desc 00096 546512 512 0x2 0
u16 184 1
u16 178 18699
desc 0 0x64b60 4096 3 2
bytes 0x20 208 244 5 0x0 0 0 0 0 0x00000000000000000000 16 0 0x0 00003 0 1 0x0
bytes 16 144 0xa2 0x00000000000000000007 0 0x0 0 0x0 0 1 0 0 0 0x2 0 0 0x00000000000000000000
u16 186 0x0
u16 178 18700
u64 -
begin
queue -1
size 0x
# valid
state
writable
dump 0x1 0x 00238
desc 4204251148976466 5074774102623978 0X1 0xe90d 0x0000000000000000228a
pop
region 18446744073709551614 4 0
memory 0x
pop
begin
u32 0x546 0
# state
queue
u32 1350 0
used 0x3ee4ed15 +1
region 1099511627776 1352 0
dump 18446744073709551615 0x100
table 0x91 00000
u32 18446744073709551615 0
fill 0x18675afd677de 18446744073709555711 0x3f
stop
chain -
heads
bytes 1346 0 0
next-used 0x1 0x
state
QUEUE 8
sum x
begin
bytes 0x78 00001 0x0 0 0x00000000000000000000
head
desc 0 0xfffffffffffff405 4096 1 3
desc 48 14823303067735378496 0x10000 0 0
u16 188 0
u16 0xb2 18701
head
head
region 0 0x546 0
valid x
head x
state
nextavail
dump 0 38
region 0 2 0xffffffffffffffff
readable
reset 99999999999999999999
valid
pop
question
valid
walk
readable
bytes 0xFFFFFFFFFFFFFFFF 0 0
state

u16 +1 58022
begin
state
size 2
memory 18446744073709555711
u32 18446744073709551616 0xfceec098
pop
next
begin
region 1099511627776 2 776
table 99999999999999999999
u64 1342 0
# back
c`cSZ)Xn'9)B%+N:$7>
bytes 1 1 1 1 1 1 1 1 1 1 1 1 1 1 1 1 1 1 1 1 1 1 1 1 1 1 1 1 1 1 1 1 1 1 1 1 1 1 1 1 1 1 1 1 1 1 1 1 1 1 1 1 1 1 1 1 1 1 1 1 1 1 1 1 1 1
pop
question
desc 0xF6A3B9EF898C1 - 0xC2928A44 0xda2f 4320
dump 99999999999999999999
pop
question
next-used 0xfffc
next
bytes 178 10 73
bytes 16 138 41 27 38 0xb6 202 0x6c 13 0 2 0 0 3 0 0 0
desc 00000 13845633680192552228 4096 2 0
u16 0xb4 1
u16 0xB2 0x490b
state
begin
# question
u64 0x8000000000000000 6
QUEUE 8
state
event 0
u16 117312851219230 x
used 250 0
state
event 1
next-
avail 2 0
pop
pop
next
writable
next
bytes 0x545 0 0
avail 0xfffffffd -
avail - 0xffffffff
put 186 2036808557
pop 0
size 0X1
dump 0x1 0x 114
pop
queue 32767
walk
queue 00003
u32 0x546 0
used 0x000000000000000000e8 -
desc 0x546 0 0 0x00000000000000000000 0
region 1099511627776 0x548 0
begin
next
head
head
head
head
head
next
next
head
region 1099511627776 2 92
u16 0x8000000000000000 1
ready 1_000
fill 9223372036854775808 18446744073709551615 7
state
memory 18446744073709551615
region 1099511627776 2 1350
sum
desc 1348 0 0 00000 0
bytes 99999999999999999999
state
u64 767 0xfffffffffffffffd
size 1,
writable
region 4219797124310170 0x1f4b048a5baf6c 0x10000000000000000
state
bytes - - - - - - - - - - - - - - - - - - - - - - - - - - - - - - - - - - - - - - - - - - - - - - - - - - - - - - - - - - - - - - - - - -
pop x
region 1099511627776 1352 0
valid
pop
u64 9223372036854775808 0
state
table - 0
bytes 18446744073709551615 0x0 0
nwgU4VZ-gO|j.14RH5a#_Dc
u64 +1 8105461712554026
begin 1
	next	
queue 5
state
region 00000 0x00000000000000000000 0xffffffffffffffff
chain 65536
dump 0x547 16
begin
dump 232 38
region 0xfffffffffffffffe 4 0
fill 0x00000000000000000536 18446744073709551615 7
event 0x00000000000000000001
event 0
desc 9 18446744073709551613 522 1 0x8000
head
pop
question
	state	
Gnx&@6+2ggE2n8!Ty+HL%vrf1P)7MS_#LLo
state
bytes 9 254 255
_0?I]U2{_,{*=\
readable
u8
pop
question
dump 0xe8 00038
next
head x
begin 0
u64 1342 0
}2:1*(gS&@nP|)IH/63S(o ?[D>"eI%i!h4,
u64 0b1 8415438032430313
spAZ=]iWxL1h[q`JQ 3?n$a!l'Z,*Ud)i"9S]Pt
state
@7]
state
desc 1351 0 0 0 0
pop
question
begin
pop
# valid
desc 01346 0 0 0 0
state
reset x
state
u32 18446744073709551615 0
avail 0x1 -
avail - 0
u16 4 0x490a
desc 0x0 0x7a59c669766099e3 00016 0 0
u16 8 0
u16 4 0xc66a
sum
pop
u32 2 8
walk
desc 0 494624 1 1 1
desc 16 0xcca30 4096 0 0
u16 6 0
bytes 0x00000000000000000004 1 0x00000000000000000000
0x
stat
pop
0x
bytes 4 10 73
desc 0 0xac7d9492808b7b9c 512 00003 1
desc 16 666080 0x10 0x2 0
u16 6 00000
bytes 4 147 148
sum
error:
fill 0 0
dump x x x
u64 1349 0
state
sum
memory 0x000000000000000001f6
queue 8
table 0 0
avail 0x00000000000000000080 -
avail - 0
used 152 0
ready 1
valid
next-avail 0xb1a4
u16 0x82 45476
next-used 45476
back
desc 96 738192 2147483648 2 32768
state
state
state
used 0x876f3b46 541179280
size 0x0000000000000000007c
bytes 0xc92a74f4f3595d75 101 0xfe
state
fill 0x61 00004 225
u16 281 2507
readable
u16 130 45483
desc 416 37 1 0x8000 480
u64 370 0xb38bbd7f725d11bc
u16 130 45479
state
begin
u64 0xb6 0x4ea5e5bfbab40776
head
u32 00260 2596609431
desc 0x60 389472 65536 3 7
desc 0x00000000000000000070 128448 0x00000000000000000200 2 0
u16 146 6
u16 130 45480
next
writable
head
head
head
put 0 0
put 0 0x200
put 0 0
bytes 67 0xb1 137 00251 50 41 147 00067 0x91 162 00024 240 17
bytes 253 0x0000000000000000004a 233 138
next-avail 33047
put 4 1
dump 128 0x26
region 0x82 0x30 40
table 1948343438 -
table - 0x21AEEABD
begin
u16 4 0x5a3f
chain 5
next
begin
u16 6 0xb59b
reset
size 0x8
table 0x0 -
table - 565111485
avail 128 0
used 152 00000
ready 1
state
state
sum
memory 384
region 816 0x180 0
u16 277 221
queue 1
table 0x00000000000000000330 -
table - 0
avail 832 0
used 00840 0
ready 1
valid
next-avail 65534
u16 18 65534
next-used 0xfffe
event 1
dump 24 4
desc 0 289664 512 2 0
u16 20 0
u16 18 65535
begin
head
state
memory 18446744073709551615
pop
pop
desc 0 18446744073709549323 512 0 0
u16 20 0
u16 0x00000000000000000012 0
begin
head
head
region 806 384 0x0
u64 39 14348100136364411217
writable
head
region 0 384 0
bytes 8 0 0 0 128
back
put 0 0x80000000
dump 24 0x4
back
u16 0x16 65534
pop
question
u16 18 65534
desc 0 462752 65536 0 0
bytes 00020 0 0x00000000000000000000
u16 00018 65535
ask
pop
walk
put 00000 32
question
begin
head
bytes 2 41
bytes 8 0 0 0x0 0
begin
desc 0 0x272a21706d5beb01 1 0 0
u16 0x14 0
bytes 18 0 0
head
head
head
next
state
put 0 32
question
u16 22 0
begin
head
head
head
head
walk
region 0x35a 72 0xda
next
head
begin
next
head
head
head
state
pop
u16 22 65533
state
pop
question
begin
bytes 8 0 0 00000 0
bytes 8 0 0 0 0
bytes 286 170 00104 51 56 00002 104 75 107 113 56 139
head
next
next
head
back
state
sum
memory 376
queue 16
size 8
table 0 0
avail 128 0
used 0x98 0
ready 0x1
valid
next-avail 0x00000000000000006fa0
u16 0x82 28576
next-used 3
event 1
pop
question
back 99999999999999999999
bytes 132 8 0
u16 130 0x6fa1
begin
head
bytes 0x5c 106
readable
head
walk
next
head
bytes 72 1 0 0 0x0
put 8 1
begin
head
walk
next
head
bytes 46 1
bytes 120 1 0 0 0
head
bytes 0x86 0xe2
put 7 0
fill 189 21 64
desc 64 18446744073709550276 1 1 0
desc 0x00000000000000000000 18446744073709551609 4096 3 6
desc 96 550576 4096 1 5
desc 80 18446744073709547570 1 2 0
u16 0x86 4
u16 130 28578
begin
head
region 0 00376 0
bytes 154 20
next
next
u64 243 9248730540246462612
walk
readable
put 4 0
state
dump 128 22
state
desc 32 256112 65536 3 1
desc 0x10 0xfffffffffffffc1b 0 1 6
desc 96 0x0000fffffffffffff59d 16 3 3
desc 0x30 154880 0x200 3 4
desc 64 10676023253261864843 0 3 7
desc 0x70 127552 1 0 0
u16 136 2
u16 130 28579
u16 138 4
u16 0x82 28580
begin
head
u16 38 0x2aaa
desc 00032 0x9a70 0 2 0
u16 0x8c 2
u16 130 0x6fa5
head
head
next
next
readable
head
put 2 00512
put 4 00001
bytes 134 6
chain 0x4
next
readable
chain 6
walk
next
bytes 40 1 0 0x0 0
bytes 0x58 0x00000000000000000002
desc 00032 0xf5ac0 0x1 1 5
desc 80 0xA4760 0x00000000000000010000 3 3
desc 48 574288 0 1 6
desc 0x60 18446744073709551457 4096 3 7
desc 0x70 207328 0x0 0x00000000000000000001 4
desc 0x00000000000000000040 0x318c5e184717451c 1 2 00000
u16 142 2
bytes 130 0xa6 111
pop
put 2 512
question
desc 64 0xf1f06283fa8a4992 0 00000 00004
pop
next
next
put 2 2147483648
bytes 0x00000000000000000002 0
region 182 68 0x88
desc 48 226597783579970827 1 2 0
u16 144 3
u16 130 0x6fa7
sum
bytes 141 0x00000000000000000040
pop
put 3 0x80000000
desc 32 0x0000e240ab5af677be8f 2147483648 0 65535
desc 0 360944 0 1 1
desc 16 0x65e0c3448113f530 512 0x1 0x5
desc 0x50 658160 0 0 0x00000000000000000000
u16 00146 0
u16 0x00000000000000000082 0x6fa8
valid
bytes 24 0x82
chain 1
next
desc 0x70 0x000000000000000fd980 00016 1 5
desc 80 18446744073709548414 0 2 0
u16 132 7
u16 130 0x6fa9
begin
head
head
head
u64 9 12302087366318976552
readable
head
bytes 91 219
head
head
put 0 1
put 7 00032
state
put 0 2147483648
question
u16 130 28593
bytes 0x18 00000 00000 0x0 0
begin
walk
writable
bytes 0x78 00255 0xff 0xff 127
bytes 0x78 1 0x0 0 0
next
readable
back
walk
head
region 18 376 0
head
put 7 2147483648
put 6 0x80000000
ask
u16 0x82 61354
state
u16 130 28594
valid
pop
walk
put 0x2 4294967295
question
pop
writable
put 4 4294967295
question
bytes 40 0 0 0 0x80
fill 17 17 00082
begin
head
bytes 72 0 0 0 128
head
u64 89 2127969780241780741
next
readable
head
head
head
head
next
next
put 16386 00512
put 3 1
put 0 0x200
put 7 0x200
put 6 0x80000000
back
bytes 284 121 0xa0 74 27 96 0x8
state
desc 80 18446744073709549343 512 3 7
desc 0x70 18446744073709550708 0 0x3 6
desc 0x60 18446744073709550127 0x10000 3 1
bytes 16 0x90 00167 12 0x0 0 0x00000000000000000000 0 0 0 0 0x00000000000000000001 0 3 0 3 0
desc 48 18446744073709550660 4096 3 0
desc 0 0xE0CF0 4096 2 0
u16 136 5
u16 130 28595
desc 32 0xfffffffffffff724 1 0x1 7
desc 112 0x0000fffffffffffffadb 16 3 3
desc 48 743152 0x1000 0x3 4
desc 64 18446744073709549387 0 1 1
desc 16 531328 00001 2 0
u16 0x8a 00002
u16 0x82 0x6fb4
stop
begin
back
head
head
bytes 00218 45
head
head
back
next
next
next
readable
u16 0x61 37746
put 0x7 512
put 6 4294967295
put 5 0
u16 140 0x8000
u16 130 28597
begin
head
head
head
u16 0x00000000000000000044 0x5e7a
bytes 1 44
region 0 38 218
desc 48 15375115281646364030 16 2 0
u16 142 3
u16 0x82 28598
bytes 0x94 16
put 2 2147483648
put 32768 512
state
sum
memory 134
queue 4
table 0 0
avail 0x42 0
used 0x00000000000000000000 0
ready 1
valid
next-avail 8494
u16 0x44 0x212E
next-used 8494
u16 83 44218
dump 0 4
chain 0
next
next
begin
u16 0x5a 0xC819
head
bytes 0x8 0x1 0 0 0
back
head
bytes 0x31 1
back
put 0 0xffffffff
ask
desc 0 2501843010614325325 1 0x1 0x00000000000000000001
desc 16 8151767122197239755 512 0 0
u16 00074 0
u16 0x44 8495
pop
next
writable
writable
put 0 16909060
state
begin
head
head
head
region 64 4 36
head
next
put 0 1
chain 4
next
readable
state
begin
begin
u32 0x5e 0x862e02bc
begin
pop
valid
put 3 0
chain 5
writable
state
question
chain 1
next
writable
question
pop
state
put 1 1
put 2 2147483648
put 4 32
put 0 512
put 3 16909060
put 2 32
put 0x3 16909060
put 2 32
state
u16 0 1468
state
u16 61 55717
pop
question
bytes 38 0x00000000000000000001
begin
state
pop
pop
writable
question
state

sum
pop
question
begin
begin
u64 42 9533785377533525941
state
u64 0x85 0
stop
pop
pop
question
chain 2
chain 2
readable
pop
stop
chain 2
walk
u32 135 0xe049c8a3
begin
begin
put 00001 4294967295
chain 5
next
valid
fill 54 0x1 130
begin
valid
state
state
back
pop
next
pop
question
ask
state
sum
memory 689
region 7094435933406704 688 0
queue 2
table 0x15b145f0 0x19345a
avail 0x15B14650 0x19345a
used 363939980 1651802
ready 0x00000000000000000001
valid
next-avail 65535
u16 0x62 0xffff
next-used 0
event 1
put 1 32
pop
walk
state
u16 98 65535
begin
back
desc 16 0x00005a15aa5d6f0d17b9 4096 1 0
desc 0 735088 512 0x2 00000
u16 102 1
u16 98 0
region 7094435933407362 00028 200
head
desc 16 0x496b0 16 0x1 0
desc 0 0x6e910 1 2 0x0
u16 100 1
u16 0x62 1
next
readable
next
head
head
put 0 0
begin
head
bytes 8 0 0x0 00000 0
put 1 16909060
bytes 97 128
dump 668 21
bytes 99 1
bytes 0x62 0 0
desc 00000 3517260250154975703 0x200 2 0x00000000000000000000
u16 100 0
u16 98 1
desc 0 0xe2817003ee2c772f 0x00000000000000010000 3 1
desc 16 595824 00016 00002 0
u16 0x66 0
u16 98 2
u16 0x00000000000000000062 1
u16 0x68 4
pop
next
next
put 00000 0
question
desc 0 646208 0x1 3 0x1
bytes 0x66 1 0
u16 98 0x2
u16 0x64 0x0
u16 98 3
chain 00003
next
u16 98 2
bytes 29 1
state
question
state
put 0x0 0xffffffff
put 1 512
put 0 512
put 0 32
put 1 2147483648
put 0x1 0x00000000000001020304
put 1 16909060
put 0 1
put 1 1
put 1 0x1020304
put 0 1
put 0 1
put 0x00000000000000000000 16909060
put 1 0x200
bytes 16 113
desc 0 8633097505571641332 65536 3 1
desc 16 18446744073709550211 0x200 0 00000
u16 0x64 0
u16 0x62 3
ask
question
state
desc 0 0x80d60 4294967294 0 0x0
ask
pop
put 1 4294967295
question
valid
begin
back
writable
chain 0
next
next
readable
readable
question
pop
walk
put 1 512
question
pop
next
walk
put 0 0
pop
bytes 24 180
desc 16 634384 0x0 0 0
u16 102 1
u16 0x62 4
pop
next
next
put 00001 0
question
pop
desc 0 0x80d50 512 3 1
bytes 16 208 0xDE 9 0 0 0 0 0 0 16 0 0 0 0 0 0
u16 0x64 0
u16 98 5
chain 3
next
bytes 687 128
u16 102 65535
u16 0x62 6
ask
bytes 0x18 0x00000000000000000001
u16 0x68 18
desc 16 0xc7a4422ed0867c94 2147483647 1 2
u16 98 0x8004
state
u16 100 2
u16 0x00000000000000000062 0x8005
u16 0x62 4
desc 16 0x7a70 1 0 0
u16 100 1
u16 0x62 0x5
u16 98 6
u16 0x62 5
begin
head
put 00001 1
pop
desc 16 18446744073709549643 0x200 0 0
u16 102 1
u16 98 00006
bytes 27 1
pop
next
next
put 0x1 1
bytes 15 1
bytes 99 1
sum
u16 98 6
desc 16 0x56d60 65536 1 0x0
desc 0x00000000000000000000 0xbb5c0 1 00002 0
u16 100 1
u16 0x62 7
desc 16 0xfffffffffffff37b 4096 2 0
u16 0x66 1
bytes 0x62 8 0
pop
next
next
next
put 1 32
question
begin
bytes 8 0x000000000000000000ff 255 255 255
desc 0 18446744073709547915 16 2 0x0
u16 100 0
u16 98 9
head
head
head
head
put 1 2147483648
begin
head
head
head
bytes 0x18 0x0 0 0 0x80
head
region 7094435933407400 0x0000000000000000002e 466
head
put 0 16909060
u64 0x183 0x91fd3c53ec4318f8
pop
question
begin
head
chain 0
next
next
begin
fill 554 0x00000000000000000014 41
bytes 00685 0x40
head
head
walk
head
head
u16 0x268 37052
head
next
state
sum
memory 1168
region 18446744073709551500 0x72 0
region 0 0x41e 0x72
queue 1
size 1
table 0xfffffff0 0xffffffff
avail 80 -
avail - 0
used 152 0x00000000000000000000
ready 1
valid
bytes 0xc8 0 128
bytes 0x64 130 0xf9 255 255 255 255 0xff 255 1 0 0 0 2 0
u16 0x000000000000000000c6 0
u16 0x000000000000000000c4 1
begin
head
u64 0x469 6767965263743713396
bytes 100 65 227 82 121 0x27 215 0xaa 126 1 0 0 0x0 0 0
u16 198 0
u16 0xc4 2
readable
head
next
head
head
head
head
put 0x00000000000000000000 0
bytes 199 2
pop
next
readable
put 512 16909060
put 0 0xffffffff
pop
bytes 111 1
bytes 100 208 116 1 0 0 0 0 0 0 2 0 0 2 0
u16 0xc6 0
u16 0xc4 3
put 1 0x80000000
begin
bytes 0x6c 0x00000000000000000000 0 0 00000
u64 0x12D 8774834139639376417
head
head
head
head
back
head
bytes 108 255 0xff 255 127
next
put 0 2147483648
begin
head
bytes 108 0
head
bytes 108 255 255 255 127
head
head
bytes 100 84 65 143 34 104 12 133 0x000000000000000000ac 0 2 0 0 2 0
bytes 198 0 0
u16 0xc4 4
head
back
begin
begin
u16 1086 61797
back
dump 194 22
stop
question
put 0 0
question
u16 0xc6 0
u16 196 5
bytes 100 144 98 0 0 0 0x0 0 0 0 16 0 0 0 0
u16 0x000000000000000000c6 0x00000000000000000000
u16 0xC4 0x6
pop
question
bytes 318 34 130
chain 0
next
begin
state
put 0 1
chain 0
next
next
bytes 100 80 0x93 4 0 0 0 0 0 0 0 1 0 2 0
u16 0xC6 0
u16 196 7
u16 196 1
bytes 0x00000000000000000064 21 177 9 219 48 188 133 0x61 0 16 0 0 0 0x0
u16 198 0
u16 0xc4 2
pop
readable
put 0 00512
bytes 0x117 8
pop
state
bytes 268 7
pop
u16 198 65535
u16 0xc4 3
pop
next
put 65535 0
bytes 100 152 109 36 51 131 0x80 0x0000000000000000000f 76 0 2 0 0x0 0 0
u16 0xc6 0
u16 196 00004
question
dump 266 0x46
u16 0xC4 4
pop
next
put 0 1
question
bytes 100 175 50 0xcc 0x7d 0xaa 0x97 0x71 00168 00000 16 0 0 0 0
bytes 198 0 0
u16 0xc4 5
chain 0
next
readable
state
bytes 0x6d 80
bytes 0x6b 0xA9
dump 0x0000000000000000010a 4
u16 0xc6 00001
u16 0x000000000000000000c4 6
u16 0xc4 4
dump 266 0x26
pop
question
pop
question
ask
begin
head
u16 0xc8 8
begin
head
head
head
head
back
back
walk
bytes 100 202 0xF8 255 0xff 255 255 0xFF 255 0 16 0 0 0 0x00000000000000000000
u16 00198 0
u16 0xc4 5
bytes 0x6c 255 255 255 127
u16 00196 2
bytes 1086 24 75 179 48 72 203 0x00000000000000000029 35 0x78 0x8b 123
u16 0xc6 65535
u16 00196 3
begin
bytes 268 150
pop
next
put 65535 0
question
u16 198 2
u16 0xc4 4
put 0 0
u16 0x491 1
region 12 44 0x394
u16 198 0
u16 0xc4 5
u16 196 32771
bytes 200 7 0
state
state
sum
memory 0x1ec
queue 0x4
table 0 0
avail 64 0
used 80 0
ready 0x1
valid
desc 0 18446744073709550967 0x7FFFFFFF 53498 5
chain 1
writable
begin
head
head
head
head
head
head
desc 0 17415619566774750315 4294967294 1 00003
desc 48 254160 0 00001 2
desc 32 0xa45e220e698f018d 0 2 0
u16 68 0
u16 0x42 1
next
chain 3
desc 48 236480 0x7fffffff 1 1
desc 16 69408 0x80000002 1 0
bytes 00000 0x16 241 0xff 255 255 255 0xff 0x000000000000000000ff 0 0 0 0 0 0 0 0
u16 70 0x00000000000000000003
bytes 66 2 0
desc 00016 11206327508696229536 0 1 3
state
chain 2
next
writable
state
desc 48 151440 4096 1 3
chain 2
readable
walk
chain 00001
next
next
readable
chain 0
next
next
pop
next
put 0x0 32
question
desc 16 0x382e105970da00d 0 3 0
desc 0 18446744073709549590 0xffffffff 2 0
u16 0x48 1
u16 0x00000000000000000042 3
begin
head
back
u32 104 0x19918e98
put 3 4294967295
next
next
readable
pop
next
readable
put 3 0xffffffff
question
bytes 0x20 161 183 93 180 99 0x33 77 151 0xFE 0x000000000000000000ff 255 255 2 0x0 255 255
readable
desc 32 513920 0x7fffffff 0xDD88 00002
next
desc 48 581104 1 2 32768
next
chain 2
readable
next
next
walk
bytes 40 255 255 0xff 255
state
begin
next
next
head
put 1 16909060
desc 32 263632 0xffffffff 1 1
desc 0x10 8155142662703271546 0 1 3
desc 48 18446744073709550488 0 0 0
u16 0x4a 0x00000000000000000002
bytes 0x42 4 0
readable
state
desc 0x00000000000000000030 8220424947939832434 1 40408 3
bytes 0x18 255 255 255 127
chain 3
next
next
desc 0 857200 4294967295 1 00002
bytes 32 176 0x91 5 0 0 0 0 0 2 0 0 0 2 0 0 00000
u16 00068 0
u16 66 5
desc 32 18446744073709550803 0xffffffff 3 3
desc 48 0xFFFFFFFFFFFFF702 2 2 0
u16 70 2
u16 0x42 0x6
bytes 0x45 1
desc 32 0xf0dc51e0ab5d69f3 0 1 1
desc 16 13535021879697214072 0x00000000000000000000 1 0
desc 0 0xc0780 0xffffffff 2 0
u16 0x48 2
u16 00066 7
chain 0x0000000000000000ffff
desc 0 13766766806935580797 4294967295 0 1
pop
put 2 0
begin
head
head
head
put 2 0
put 2 1
desc 32 18446744073709549295 2147483648 3 0
chain 4
next
begin
region 0 492 0x00000000000000000000
next
bytes 24 255 255 255 127
next
next
back
chain 00004
next
begin
walk
chain 0x00000000000000000001
readable
begin
head
bytes 175 155
put 2 1
desc 0 18446744073709550236 2147483647 1 1
desc 16 581888 2147483648 1 2
desc 32 771280 0 1 3
desc 48 664032 1 0x0 0
u16 74 0
bytes 66 8 0
writable
desc 0x0 0xee8d0 4294967295 2 00000
u16 0x44 0
bytes 66 9 0
desc 32 12812709355686373760 2147483648 1 3
desc 48 7481800985146183566 0 1 1
desc 16 0x4b160 0 1 0
desc 0 0xFFFFFFFFFFFFFEB0 2147483647 00002 0
u16 70 2
u16 0x42 10
desc 0 18446744073709548335 4096 3 3
state
pop
put 0 0x200
question
state
sum
memory 482
region 10460947656727812 190 0
region 10460947656727520 32 190
region 10460947656727564 0x5c 222
region 0x252A2D2D17DC00 8 0x0000000000000000013a
region 10460947656727656 156 322
region 10460947656727560 4 478
queue 16
size 8
table 756538336 -
table - 0x252A2D
avail 756538464 2435629
used 0x2d17dc78 0x252A2D
ready 1
valid
next-avail 65534
u16 0x134 0x0000000000000000fffe
next-used 65534
event 1
pop
question
pop
question
pop
question
begin
head
back
head
head
head
put 0x0 32
pop
question
state
pop
question
question
state
begin
head
head
head
head
walk
dump 0xbe 12
pop
question
pop
u16 0x0000000000000000014e 65535
desc 0xe2 18446744073709549966 1 3 00000
desc 0xbe 321088 0x10000 3 7
desc 290 0xfffffffffffff618 0 3 5
bytes 0x102 95 0xf4 255 0xff 255 255 0xff 0xff 0 0 1 0 3 0 6 0
desc 0x112 4636806205476600343 0x10000 3 0x00000000000000000001
desc 0xCE 0x90d20 1 3 2
bytes 314 240 204 00006 0 0 0 0 0
bytes 0x000000000000000001de 1 0 0 0
bytes 222 2 0 0 0x0
u16 330 3
u16 308 0xffff
u16 00334 0x1
desc 206 1000928 16 1 5
desc 0x102 942656 512 1 0x2
bytes 0x13A 128 0xf2 255 0xFF 255 255 255 255
bytes 478 1 0 0 0x00000000000000000000
bytes 222 1 0 4 0
desc 0xF2 732464 512 1 6
desc 0x112 0xA9A60 0 0 0
u16 332 1
u16 308 0
state
bytes 314 144 135 1 0 0 0x00000000000000000000 0 0
bytes 0x1de 16 0 0x0 0
bytes 222 1 0x00000000000000000000 0x0 0
desc 190 842016 16 1 1
desc 0xCE 18446744073709550688 0x10000 1 3
desc 226 17150904972528987906 16 1 7
desc 0x122 0xfffffffffffff5df 16 1 6
desc 274 415072 512 3 5
desc 258 659312 0x0 3 4
desc 242 966176 512 2 0
u16 310 2
u16 0x134 1
stop
pop
put 3 0x0
question
begin
head
bytes 204 234
bytes 198 0 0 0 128
head
u32 163 823149737
bytes 341 0x00000000000000000001
bytes 0xd6 1 0 0x00000000000000000000 0
back
head
desc 0xce 671120 0x10 2 0
u16 0x138 1
u16 0x134 2
put 1 32
put 0x00000000000000000002 0
put 2 512
pop
put 1 0x200
stop
state
pop
pop
question
begin
head
head
head
head
head
next
writable
next
writable
next
head
u16 0x14e 7
ask
bytes 314 96 25 0x0 0 0 0 00000 0
bytes 478 00000 0x0 1 0
bytes 00222 1 0 7 0x0
desc 290 436848 4096 3 5
desc 258 7094628507926868957 1 2 0
u16 322 2
u16 0x134 3
pop
next
writable
put 2 4294967295
question
bytes 314 16 00068 5 0 0 0 0 0
bytes 478 0 0x10 0 0x00000000000000000000
bytes 222 1 0 7 0
desc 0x122 0x000000000000000bbe60 16 0 0
u16 324 2
u16 308 00004
ask
desc 290 714896 0 1 6
desc 0x112 825792 512 1 2
bytes 314 0xa4 45 63 0x83 175 215 00033 0x60
bytes 0x1de 0 00016 0 0
bytes 222 2 0 0 00000
bytes 326 7 0
u16 308 5
u16 334 32773
begin
head
head
put 2 16909060
put 7 2147483648
question
state
desc 242 330464 4096 1 0x00000000000000000006
desc 274 798448 0x00000000000000000000 1 00005
desc 0x102 957408 0x10000 0x3 7
desc 290 988736 0 3 3
desc 226 18446744073709549735 65536 2 0x0
u16 0x148 00004
u16 308 0x6
size 17
u16 334 0x4
u16 0x14e 5
begin
region 10460947656727696 8 284
readable
pop
walk
put 0x4 0x00000000000000000020
state
sum
memory 572
region 144 0x0000000000000000001c 0
region 172 38 28
region 210 78 0x42
region 288 12 144
region 300 26 156
region 326 202 182
region 0x210 128 0x180
region 0x290 60 512
queue 2
table 0x90 -
table - 0
avail 0xb0 -
avail - 0
used 188 0
ready 1
valid
next-avail 0x5aae
u16 34 23214
next-used 0x9303
event 1
desc 0x10 0x62ba5bf187c66533 0 3 0
desc 0 1037024 512 0x3 0
u16 36 0x00000000000000000001
bytes 34 00175 90
pop
readable
readable
put 1 0
question
state
u64 0x48 16503983359849272645
state
begin
head
head
head
desc 0x10 0x314F197AE5E245F5 0 1 0
desc 0 53120 0 3 0
u16 38 1
u16 34 0x00000000000000005ab0
bytes 18 0xc2
bytes 38 3
back
back
head
put 3 32
bytes 62 00001
bytes 0x00000000000000000011 0x46
question
u16 36 0x3
u16 34 23217
bytes 35 26
u16 34 23214
desc 16 18446744073709551343 16 0x00000000000000000003 1
u16 36 1
u16 34 23215
pop
put 0x1 512
pop
begin
back
head
u32 00497 3248481459
head
head
next
walk
put 1 0
pop
writable
bytes 39 1
u16 34 0x5ab0
fill 280 19 0xA3
region 128 48 500
u16 00036 1
u16 34 23217
u16 38 0xffff
u16 34 23218
u16 34 23215
desc 16 0xfffffffffffff830 1 3 1
u16 38 00001
u16 34 0x00000000000000005ab0
bytes 32 1
bytes 0xf 64
pop
writable
put 1 0x20
bytes 40 1
desc 16 18446744073709551043 0 2 0
bytes 61 52
u16 36 1
u16 34 23217
begin
walk
next
next
head
head
next
writable
readable
writable
next
next
bytes 62 0x1
head
put 1 0
pop
pop
question
state
chain 0
next
next
bytes 23 106 0x80 112 0x93 59 1 130 74 241 226 0x6b
u16 34 23217
bytes 24 0xff 255 255 127
ask
u16 38 0x2
u16 34 23218
bytes 13 1
chain 1
question
head
bytes 30 250
0
state
bytes 31 0xf2
u16 00036 3
u16 34 23219
begin
bytes 24 0
head
writable
next
walk
head
put 2 1
put 0x3 2147483648
chain 1
writable
u16 34 23221
begin
back
next
region 0x00000000000000000000 572 0
u32 81 3316743071
head
head
u64 508 9074204656592024434
back
head
put 0x2 0x1020304
put 2 0
pop
next
put 3 16909060
ask
pop
question
dump 0x00000000000000000000 0x4
bytes 272 170 56 171 48 57 0xc0
question
bytes 00016 178
pop
question
u16 34 23221
begin
next
head
head
pop
ask
begin
head
begin
bytes 559 171 186 202 43 0x00000000000000000029 0xc8 130 89 0xD8 240 1
head
bytes 0x8 0 0x0 0 128
desc 16 30992 0x10000 0x00000000000000000003 1
u16 38 0x1
bytes 34 182 90
head
u32 294 0x000000000000b01b65ee
begin
head
head
head
fill 91 7 0xc8
head
region 160 572 0
put 0x1 0x0
pop
question
state
chain 0
readable
bytes 0x37 0x9e
question
desc 0 0xfffffffffffff528 0 3 0
question
pop
u16 34 23224
put 0 0
u16 36 1
u16 0x22 0x5ab9
fill 191 00011 3
u16 40 37639
pop
u16 0x00000000000000000022 0x5AB4
begin
question
chain 0x0
readable
pop
question
u16 34 23222
desc 0 762752 65536 3 1
desc 16 18446744073709548946 00000 3 1
bytes 36 0 0
u16 34 23223
dump 0 70
bytes 35 0x5b
pop
pop
question
pop
next
next
desc 0x00000000000000000010 2273460791780027870 0x10000 1 1
u16 38 1
u16 34 0x5bb8
sum
fill 161 20 0x4b
bytes 52 171
u16 0x103 0x00000000000000007911
u16 34 0x5ab6
desc 0 0xcee40 00001 1 00000
u16 36 00000
u16 34 23223
desc 0 0xa7e9fcac41906dd3 1 3 0
u16 0x26 0
u16 00034 0x5ab8
state
pop
walk
put 0 0x00000000000000000000
question
desc 16 8388167552788362884 0x10000 3 1
u16 36 1
u16 34 23225
state
sum
memory 0x2E4
region 18446744073709551514 100 0
region 0 640 0x64
queue 32768
size 8
table 0 -
table - 0
avail 0xC0 0
used 280 0x0
ready 1
valid
next-avail 771
u16 0x126 00771
next-used 0x303
event 0x1
u16 312 0x00000000000000000304
desc 0xc4 187296 65536 1 7
bytes 212 16 0x43 10 0 0 0 0 0 0 2 0 0 1 0 0x00000000000000000005 0
desc 0x000000000000000000b4 10108869431058066529 0 1 4
desc 164 510192 0x1000 1 3
desc 0x94 0xfffffffffffffa24 65536 2 0x0
u16 00302 6
u16 294 772
u16 294 0x30B
u16 0x138 0x00000000000000000306
u16 312 772
u16 312 773
u16 292 0
put 6 0x1020304
question
pop
writable
put 0x6 0x200
question
question
u16 312 771
sum
question
question
stop
u16 00292 0x0
ask
desc 00148 0xcff40 512 00000 0
u16 302 3
u16 00294 780
ask
state
put 4 16909060
state
dump 100 2
question
table - -
question
u16 292 1
put 00007 2147483648
bytes 0x126 2 3
question
u16 0x126 0x304
bytes 148 177 176 189 27 173 45 0xEF 215 16 0x00000000000000000000 0 0 2 0 0 0
u16 304 3
bytes 0x126 5 0x00000000000000000003
u16 292 1
u16 0x138 773
pop
readable
put 3 2147483648
u16 294 772
put 2 16909060
put 1 32
put 8 0
put 1 512
put 0x7 1
bytes 00312 10 00003
dump 380 12
question
u16 00312 0x0000000000000000830b
state
stop
u16 0x138 777
question
pop
u16 312 777
put 4 0x20
ask
pop
question
put 8 2147483648
put 6 512
put 65535 32
put 2 1
put 0x00000000000000000006 0
put 9 4294967295
put 0 512
put 0 2147483648
put 9 4294967295
put 5 0
put 6 32
put 0 0
put 7 0
u16 0x126 781
state
sum
memory 0x1C8
region 9501418808629692 156 0
region 9501418808629528 00164 156
region 9501418808629392 136 320
queue 1024
size 4
table 1962104976 0x21c17d
avail 1962105040 2212221
used 1962105056 -
used - 2212221
ready 1
valid
next-avail 0xfffe
u16 0x182 65534
next-used 0xfff7
ready 1
sum
event 1
table - -
u16 392 0xffff
u16 0x182 65535
next-used 65529
size 0
valid
ready 1
ready 1
used 0x74f358e4 0
put 1 4294967295
next-used 65529
table 0x74f35894 0
put 3 4294967295
table 1962104980 -
next-used 56092
next-avail 0x00000000000000000003
valid
valid
event 0
u16 394 1
u16 386 0
sum
size 0x8
valid
dump 320 22
pop
writable
walk
question
table 803346623 0
used 4294967233 1
u16 388 7
u16 386 1
pop
u16 0x00000000000000000186 65535
u16 0x182 2
used 0x0 -
used 4294967267 0x0
put 9 32
back
dump 384 38
avail 1962105041 -
state
u16 392 9
bytes 0x00000000000000000182 3 0x0
back
ready 1
event 0x1
used - 4294967295
size 00003
sum
size 1
put 0 4294967295
put 0 512
put 0 4294967295
put 0 4294967295
put 0 1
put 0 2147483648
put 0 32
put 0 4294967295
put 0 2147483648
begin
put 0 0
event 1
next-used 65534
put 0 32
u16 388 00002
u16 00386 0x4
size 1024
state
chain 0x401
next
size 3
used 16 4294967295
begin
head
head
u32 0x129 3399174704
put 65535 0
chain 0x3f4
writable
question
put 488 00000
dump 0x140 12
begin
head
head
head
next
writable
next
head
back
head
put 1 16909060
ask
pop
u16 396 32768
u16 386 5
memory
ask
event 1
memory 0x0000ffffffffffffffff
next-used 0xfffe
reset
size 1024
table 0x74f35890 0x21c17d
avail 1962105040 2212221
used 16 4294967295
ready 1
ready 1
u16 0x18e 01025
bytes 0x182 6 0
reset
size 1024
table 1962104976 2212221
avail 1962105040 2212221
used 16 4294967295
ready 00001
chain 816
state
u16 0x190 213
u16 386 7
pop
next
next
put 0x00000000000000000002 00032
question
size 1024
state
used - 0xffffffff
begin
back
head
head
head
next
readable
next
put 2 16909060
event 1
next-used 60542
avail 0x74f358d0 -
state
avail 0x74f358d2 -
begin
sum
u16 394 0x401
u16 0x00000000000000000184 3
bytes 396 37 0x00000000000000000001
u16 388 4
used 0 0xFFFFFFFF
state
sum
memory 0x3d8
region 0x2d0 12 0
region 732 12 12
region 0x2e8 24 24
region 768 0x36 48
region 0x336 6 102
region 0x33c 544 0x0000000000000000006c
region 0x55c 0x12a 0x28c
region 1670 34 0x3b6
queue 0x00000000000000000010
size 1
table 720 0
avail 0x00000000000000000310 0
used 0x348 0
ready 1
valid
next-avail 23139
u16 66 23139
next-used 0xFFF9
event 00001
table 0 0
u16 68 0
u16 0x42 23140
walk
fill 5152023436310007 695067867726037 0X1
u64 984 0
memory 1,
u16 9223372036854775808 0x00000000000000000001
begin
head
head
next
next
next
next
readable
head
head
head
fill 2450749670091682 2248330672029424 1,
region 0 2 364
size 65537
avail 4294971391 469416342
dump 64 2
state
u16 68 0
u16 66 23141
avail 0x0 2147483648
begin
state
dump 0xfffffffffffffffe 8
  question
sum 1
head
queue
used 1
region 1099511627776 2 0x3d8

pop
writable
u64 4097510800734331 x
u16 0 5
table 12a 1421208310
put:
readable
event
bytes 986 0 0
put 0xffff 1
u64 0x000000000000000003d6 0
fill x x
state
u32 984 00000
sum
put 00806 0x80000000
state
sum
