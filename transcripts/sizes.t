# Sizes

Inputs of the greatest size are accepted too; memory doesn't run out.

## Atoms

65,536 atoms at the same position: `start` prints a state that is read back unchanged, and whose frame starts the same
state. No pair has a force.

  $ printf 'full\n65536\n' > head
  $ yes '    1AR      AR    1   0.500   0.000   0.000' | head -n 65536 > lines
  $ printf '   2.00000   2.00000   2.00000\n' > box
  $ cat head lines box > most
  $ pairmd start job most > full
  $ head -c 208 full
  pairmd state 1
  title full
  step 0
  atoms 65536
  box 200000 200000 200000
      1AR      AR 1073741824 0 0 1073741824 0 0
      1AR      AR 1073741824 0 0 1073741824 0 0
      1AR      AR 1073741824 0 0 1073741824 0 0
  $ pairmd run job full --steps 0 > again
  $ cmp again full
  $ pairmd back job full --steps 0 --workers 64 > again
  $ cmp again full
  $ pairmd frame full > shown
  $ pairmd start job shown > again
  $ cmp again full

The frame numbers its atoms from 1 to 65,536; numbers wrap around at 100,000.

  $ head -c 146 shown
  full
  65536
      1AR      AR    1   0.500   0.000   0.000
      1AR      AR    2   0.500   0.000   0.000
      1AR      AR    3   0.500   0.000   0.000

One more atom is too many, in a GRO file and in a state.

  $ printf 'full\n65537\n' > head
  $ printf '    1AR      AR    1   0.500   0.000   0.000\n' > one
  $ cat head lines one box > more
  $ pairmd start job more
  pairmd: G7 TooManyAtoms 2
  [1]
  $ with full 4 'atoms 65537' pairmd frame full
  pairmd: S1 BadLine 4
  [1]

Of three frames of this size, each can be selected.

  $ cat most most gro > three
  $ pairmd start job three --frame 2 > again
  $ cmp again full
  $ pairmd start job three --frame 3 > again
  $ cmp again state
  $ pairmd start job three --frame 4
  pairmd: G8 NoSuchFrame
  [1]

## A job

8 parameters, 16 globals and 64 types. The last type has the greatest derivative: its parameter h, 63, times the other's
and twice the global q.

  $ cat > greatest << END
  > pairmd job 1
  > energy h1*h2*q*r
  > core 0.2
  > cutoff 0.9
  > dt 2
  > slices 64
  > parameter a
  > parameter b
  > parameter c
  > parameter d
  > parameter e
  > parameter f
  > parameter g
  > parameter h
  > global i 2
  > global j 2
  > global k 2
  > global l 2
  > global m 2
  > global n 2
  > global o 2
  > global p 2
  > global q 2
  > global s 2
  > global t 2
  > global u 2
  > global v 2
  > global w 2
  > global x 2
  > global y 2
  > type A 1 0 0 0 0 0 0 0 0
  > type B 1 0 0 0 0 0 0 0 1
  > type C 1 0 0 0 0 0 0 0 2
  > type D 1 0 0 0 0 0 0 0 3
  > type E 1 0 0 0 0 0 0 0 4
  > type F 1 0 0 0 0 0 0 0 5
  > type G 1 0 0 0 0 0 0 0 6
  > type H 1 0 0 0 0 0 0 0 7
  > type I 1 0 0 0 0 0 0 0 8
  > type J 1 0 0 0 0 0 0 0 9
  > type K 1 0 0 0 0 0 0 0 10
  > type L 1 0 0 0 0 0 0 0 11
  > type M 1 0 0 0 0 0 0 0 12
  > type N 1 0 0 0 0 0 0 0 13
  > type O 1 0 0 0 0 0 0 0 14
  > type P 1 0 0 0 0 0 0 0 15
  > type Q 1 0 0 0 0 0 0 0 16
  > type R 1 0 0 0 0 0 0 0 17
  > type S 1 0 0 0 0 0 0 0 18
  > type T 1 0 0 0 0 0 0 0 19
  > type U 1 0 0 0 0 0 0 0 20
  > type V 1 0 0 0 0 0 0 0 21
  > type W 1 0 0 0 0 0 0 0 22
  > type X 1 0 0 0 0 0 0 0 23
  > type Y 1 0 0 0 0 0 0 0 24
  > type Z 1 0 0 0 0 0 0 0 25
  > type a 1 0 0 0 0 0 0 0 26
  > type b 1 0 0 0 0 0 0 0 27
  > type c 1 0 0 0 0 0 0 0 28
  > type d 1 0 0 0 0 0 0 0 29
  > type e 1 0 0 0 0 0 0 0 30
  > type f 1 0 0 0 0 0 0 0 31
  > type g 1 0 0 0 0 0 0 0 32
  > type h 1 0 0 0 0 0 0 0 33
  > type i 1 0 0 0 0 0 0 0 34
  > type j 1 0 0 0 0 0 0 0 35
  > type k 1 0 0 0 0 0 0 0 36
  > type l 1 0 0 0 0 0 0 0 37
  > type m 1 0 0 0 0 0 0 0 38
  > type n 1 0 0 0 0 0 0 0 39
  > type o 1 0 0 0 0 0 0 0 40
  > type p 1 0 0 0 0 0 0 0 41
  > type q 1 0 0 0 0 0 0 0 42
  > type r 1 0 0 0 0 0 0 0 43
  > type s 1 0 0 0 0 0 0 0 44
  > type t 1 0 0 0 0 0 0 0 45
  > type u 1 0 0 0 0 0 0 0 46
  > type v 1 0 0 0 0 0 0 0 47
  > type w 1 0 0 0 0 0 0 0 48
  > type x 1 0 0 0 0 0 0 0 49
  > type y 1 0 0 0 0 0 0 0 50
  > type z 1 0 0 0 0 0 0 0 51
  > type 0 1 0 0 0 0 0 0 0 52
  > type 1 1 0 0 0 0 0 0 0 53
  > type 2 1 0 0 0 0 0 0 0 54
  > type 3 1 0 0 0 0 0 0 0 55
  > type 4 1 0 0 0 0 0 0 0 56
  > type 5 1 0 0 0 0 0 0 0 57
  > type 6 1 0 0 0 0 0 0 0 58
  > type 7 1 0 0 0 0 0 0 0 59
  > type 8 1 0 0 0 0 0 0 0 60
  > type 9 1 0 0 0 0 0 0 0 61
  > type + 1 0 0 0 0 0 0 0 62
  > type - 1 0 0 0 0 0 0 0 63
  > END
  $ pairmd check greatest
  accepted: steps 7, bound 34093450395648

## Cells

A box of 15 nm has 16 cells along each side, 4,096 in all. Ten pairs 0.4 nm apart, most of them across the edges of
cells and of the box, are the only atoms in their cells.

  $ cat > grid << END
  > pairmd state 1
  > title ten pairs
  > step 0
  > atoms 20
  > box 1500000 1500000 1500000
  >     1AR      AR 4237701065 0 0 4237701065 0 0
  >     1AR      AR 57266231 0 0 57266231 0 0
  >     1AR      AR 3758096384 748040137 2032951187 3758096384 748040137 2032951187
  >     1AR      AR 3758096384 862572599 2032951187 3758096384 862572599 2032951187
  >     1AR      AR 2147483648 2147483648 2090217417 2147483648 2147483648 2090217417
  >     1AR      AR 2147483648 2147483648 2204749879 2147483648 2147483648 2204749879
  >     1AR      AR 910533067 4220521196 343597384 910533067 4220521196 343597384
  >     1AR      AR 979252543 17179869 343597384 979252543 17179869 343597384
  >     1AR      AR 222622472 268435456 234075718 222622472 268435456 234075718
  >     1AR      AR 314248440 268435456 302795194 314248440 268435456 302795194
  >     1AR      AR 4280650738 4246291000 4234837754 4280650738 4246291000 4234837754
  >     1AR      AR 4280650738 20043181 31496427 4280650738 20043181 31496427
  >     1AR      AR 2863311531 14316558 3378707606 2863311531 14316558 3378707606
  >     1AR      AR 2977843992 14316558 3378707606 2977843992 14316558 3378707606
  >     1AR      AR 783974697 2655435114 1563368096 783974697 2655435114 1563368096
  >     1AR      AR 825206383 2710410695 1654994065 825206383 2710410695 1654994065
  >     1AR      AR 3490376756 1775253149 2863312 3490376756 1775253149 2863312
  >     1AR      AR 3490376756 1889785610 2863312 3490376756 1889785610 2863312
  >     1AR      AR 1431655765 858993459 3702261809 1431655765 858993459 3702261809
  >     1AR      AR 1431655765 858993459 3816794270 1431655765 858993459 3816794270
  > END
  $ returns pairmd run job grid --steps 30
  pairmd state 1
  title ten pairs
  step 30
  atoms 20
  box 1500000 1500000 1500000
      1AR      AR 4223933947 4293761506 4292134148 4223064570 4293697035 4291970198
      1AR      AR 67806364 105012 4294584828 68492335 110188 4294556740
      1AR      AR 3758096384 744980475 2032951187 3758096384 744773306 2032951187
      1AR      AR 3758096384 865632261 2032951187 3758096384 865839430 2032951187
      1AR      AR 2147483648 2147483648 2087157755 2147483648 2147483648 2086950586
      1AR      AR 2147483648 2147483648 2207809541 2147483648 2147483648 2208016710
      1AR      AR 908697236 4218073431 343597384 908572935 4217907694 343597384
      1AR      AR 981088374 19627634 343597384 981212675 19793371 343597384
      1AR      AR 220174707 268435456 232239887 220008970 268435456 232115586
      1AR      AR 316696205 268435456 304631025 316861942 268435456 304755326
      1AR      AR 4280727777 4240197129 4227147008 4280735392 4239799281 4226645573
      1AR      AR 4283800662 27237784 42402868 4283976449 27694922 43096344
      1AR      AR 2860251869 14316558 3378707606 2860044700 14316558 3378707606
      1AR      AR 2980903654 14316558 3378707606 2981110823 14316558 3378707606
      1AR      AR 782873191 2653966486 1560920331 782798608 2653867045 1560754594
      1AR      AR 826307889 2711879323 1657441830 826382472 2711978764 1657607567
      1AR      AR 3490376756 1772193487 2863312 3490376756 1771986318 2863312
      1AR      AR 3490376756 1892845272 2863312 3490376756 1893052441 2863312
      1AR      AR 1431655765 858993459 3699202147 1431655765 858993459 3698994978
      1AR      AR 1431655765 858993459 3819853932 1431655765 858993459 3820061101

## Steps

100,000 steps of two atoms, then 100,000 back.

  $ pairmd run job state --steps 100000 > after
  $ cat after
  pairmd state 1
  title two atoms
  step 100000
  atoms 2
  box 200000 200000 200000
      1AR      AR 369633261 0 0 373463804 0 0
      1AR      AR 2851592211 0 0 2847761668 0 0
  $ pairmd back job after --steps 100000 > again
  $ cmp again state

## Frames, titles and blanks

Of ten frames of a thousand atoms and one frame of two, each can be selected.

  $ printf 'thousand\n1000\n' > head
  $ yes '    1AR      AR    1   0.500   0.000   0.000' | head -n 1000 > lines
  $ cat head lines box > thousand
  $ cat thousand thousand thousand thousand thousand thousand thousand thousand thousand thousand gro > eleven
  $ pairmd start job eleven --frame 11 > again
  $ cmp again state
  $ pairmd start job thousand > first
  $ pairmd start job eleven --frame 10 > again
  $ cmp again first
  $ pairmd start job eleven --frame 12
  pairmd: G8 NoSuchFrame
  [1]
  $ cat gro gro gro gro gro gro gro gro gro gro > ten
  $ cat ten ten ten ten ten ten ten ten ten ten > hundred
  $ pairmd start job hundred --frame 100 > again
  $ cmp again state
  $ pairmd start job hundred --frame 101
  pairmd: G8 NoSuchFrame
  [1]

A title of 10,000 bytes is copied from a GRO file into the state, through steps, and back into a GRO file.

  $ printf 'title, 10 ' > title10
  $ cat title10 title10 title10 title10 title10 title10 title10 title10 title10 title10 > title100
  $ cat title100 title100 title100 title100 title100 title100 title100 title100 title100 title100 > title1000
  $ cat title1000 title1000 title1000 title1000 title1000 title1000 title1000 title1000 title1000 title1000 > title
  $ sed '1d' gro > rest
  $ printf '\n' > line
  $ cat title line rest > titled
  $ pairmd start job titled > begun
  $ printf 'pairmd state 1\ntitle ' > head
  $ printf 'step 0\natoms 2\nbox 200000 200000 200000\n    1AR      AR 1073741824 0 0 1073741824 0 0\n    1AR      AR 2147483648 0 0 2147483648 0 0\n' > rest
  $ cat head title line rest > wanted
  $ cmp begun wanted
  $ pairmd frame begun > shown
  $ cmp shown titled
  $ printf 'step 1\natoms 2\nbox 200000 200000 200000\n    1AR      AR 1073741824 0 0 1073707464 0 0\n    1AR      AR 2147483648 0 0 2147518008 0 0\n' > rest
  $ cat head title line rest > wanted
  $ pairmd run job begun --steps 1 > after
  $ cmp after wanted
  $ pairmd back job after --steps 1 > again
  $ cmp again begun

262,144 blanks in an energy, before and after the slash of 1/r, and a job of 262,144 comments and blank lines.

  $ printf '        ' > blanks
  $ cat blanks blanks blanks blanks blanks blanks blanks blanks > blanks64
  $ cat blanks64 blanks64 blanks64 blanks64 blanks64 blanks64 blanks64 blanks64 > blanks512
  $ cat blanks512 blanks512 blanks512 blanks512 blanks512 blanks512 blanks512 blanks512 > blanks4096
  $ cat blanks4096 blanks4096 blanks4096 blanks4096 blanks4096 blanks4096 blanks4096 blanks4096 > blanks32768
  $ cat blanks32768 blanks32768 blanks32768 blanks32768 blanks32768 blanks32768 blanks32768 blanks32768 > blanks262144
  $ printf 'pairmd job 1\nenergy 1' > top
  $ printf '/' > slash
  $ printf 'r\ncore 0.2\ncutoff 0.9\ndt 2\ntype AR 1\n' > end
  $ cat top blanks262144 slash blanks262144 end > blank
  $ pairmd energy blank state
  energy 8589934592
  $ pairmd forces blank state
      1AR      AR -17179869184 0 0
      1AR      AR 17179869184 0 0
  $ yes '# a comment' | head -n 262144 > comments
  $ yes '' | head -n 262144 > empty
  $ cat job comments empty > commented
  $ pairmd energy commented state
  energy 8589934592

## Locals

64 definitions, each the next one times r + 0.5, except the last, which is r. At 0.5 nm all have the value 0.5, and the
derivative of each is the derivative of the next plus 0.5. The first definition has the derivative 32.5, and so has its
square. The code keeps the values and derivatives of all. An atom of 0.00005 u moves by 32.5 * 2^32 grid units in steps
of 10 fs.

  $ printf ';a0=a1*(r+0.5);a1=a2*(r+0.5);a2=a3*(r+0.5);a3=a4*(r+0.5);a4=a5*(r+0.5);a5=a6*(r+0.5);a6=a7*(r+0.5);a7=a8*(r+0.5)' > defined0
  $ printf ';a8=a9*(r+0.5);a9=a10*(r+0.5);a10=a11*(r+0.5);a11=a12*(r+0.5);a12=a13*(r+0.5);a13=a14*(r+0.5);a14=a15*(r+0.5);a15=a16*(r+0.5)' > defined1
  $ printf ';a16=a17*(r+0.5);a17=a18*(r+0.5);a18=a19*(r+0.5);a19=a20*(r+0.5);a20=a21*(r+0.5);a21=a22*(r+0.5);a22=a23*(r+0.5);a23=a24*(r+0.5)' > defined2
  $ printf ';a24=a25*(r+0.5);a25=a26*(r+0.5);a26=a27*(r+0.5);a27=a28*(r+0.5);a28=a29*(r+0.5);a29=a30*(r+0.5);a30=a31*(r+0.5);a31=a32*(r+0.5)' > defined3
  $ printf ';a32=a33*(r+0.5);a33=a34*(r+0.5);a34=a35*(r+0.5);a35=a36*(r+0.5);a36=a37*(r+0.5);a37=a38*(r+0.5);a38=a39*(r+0.5);a39=a40*(r+0.5)' > defined4
  $ printf ';a40=a41*(r+0.5);a41=a42*(r+0.5);a42=a43*(r+0.5);a43=a44*(r+0.5);a44=a45*(r+0.5);a45=a46*(r+0.5);a46=a47*(r+0.5);a47=a48*(r+0.5)' > defined5
  $ printf ';a48=a49*(r+0.5);a49=a50*(r+0.5);a50=a51*(r+0.5);a51=a52*(r+0.5);a52=a53*(r+0.5);a53=a54*(r+0.5);a54=a55*(r+0.5);a55=a56*(r+0.5)' > defined6
  $ printf ';a56=a57*(r+0.5);a57=a58*(r+0.5);a58=a59*(r+0.5);a59=a60*(r+0.5);a60=a61*(r+0.5);a61=a62*(r+0.5);a62=a63*(r+0.5);a63=r' > defined7
  $ printf 'pairmd job 1\nenergy a0*a0' > top
  $ printf '\ncore 0.5\ncutoff 0.5000000002\ndt 10\ntype AR 0.00005\n' > end
  $ cat top defined0 defined1 defined2 defined3 defined4 defined5 defined6 defined7 end > defined
  $ returns pairmd run defined state --steps 1
  pairmd state 1
  title two atoms
  step 1
  atoms 2
  box 200000 200000 200000
      1AR      AR 1073741824 0 0 3221225472 0 0
      1AR      AR 2147483648 0 0 0 0 0

A listing that keeps a 1 in each of its 256 locals and adds them all up.

  $ printf 'pairmd code 1\n' > head
  $ printf 'push 1\nkeep 0\npush 1\nkeep 1\npush 1\nkeep 2\npush 1\nkeep 3\npush 1\nkeep 4\npush 1\nkeep 5\npush 1\nkeep 6\npush 1\nkeep 7\npush 1\nkeep 8\npush 1\nkeep 9\npush 1\nkeep 10\npush 1\nkeep 11\npush 1\nkeep 12\npush 1\nkeep 13\npush 1\nkeep 14\npush 1\nkeep 15\npush 1\nkeep 16\npush 1\nkeep 17\npush 1\nkeep 18\npush 1\nkeep 19\npush 1\nkeep 20\npush 1\nkeep 21\npush 1\nkeep 22\npush 1\nkeep 23\npush 1\nkeep 24\npush 1\nkeep 25\npush 1\nkeep 26\npush 1\nkeep 27\npush 1\nkeep 28\npush 1\nkeep 29\npush 1\nkeep 30\npush 1\nkeep 31\n' > keeps0
  $ printf 'push 1\nkeep 32\npush 1\nkeep 33\npush 1\nkeep 34\npush 1\nkeep 35\npush 1\nkeep 36\npush 1\nkeep 37\npush 1\nkeep 38\npush 1\nkeep 39\npush 1\nkeep 40\npush 1\nkeep 41\npush 1\nkeep 42\npush 1\nkeep 43\npush 1\nkeep 44\npush 1\nkeep 45\npush 1\nkeep 46\npush 1\nkeep 47\npush 1\nkeep 48\npush 1\nkeep 49\npush 1\nkeep 50\npush 1\nkeep 51\npush 1\nkeep 52\npush 1\nkeep 53\npush 1\nkeep 54\npush 1\nkeep 55\npush 1\nkeep 56\npush 1\nkeep 57\npush 1\nkeep 58\npush 1\nkeep 59\npush 1\nkeep 60\npush 1\nkeep 61\npush 1\nkeep 62\npush 1\nkeep 63\n' > keeps1
  $ printf 'push 1\nkeep 64\npush 1\nkeep 65\npush 1\nkeep 66\npush 1\nkeep 67\npush 1\nkeep 68\npush 1\nkeep 69\npush 1\nkeep 70\npush 1\nkeep 71\npush 1\nkeep 72\npush 1\nkeep 73\npush 1\nkeep 74\npush 1\nkeep 75\npush 1\nkeep 76\npush 1\nkeep 77\npush 1\nkeep 78\npush 1\nkeep 79\npush 1\nkeep 80\npush 1\nkeep 81\npush 1\nkeep 82\npush 1\nkeep 83\npush 1\nkeep 84\npush 1\nkeep 85\npush 1\nkeep 86\npush 1\nkeep 87\npush 1\nkeep 88\npush 1\nkeep 89\npush 1\nkeep 90\npush 1\nkeep 91\npush 1\nkeep 92\npush 1\nkeep 93\npush 1\nkeep 94\npush 1\nkeep 95\n' > keeps2
  $ printf 'push 1\nkeep 96\npush 1\nkeep 97\npush 1\nkeep 98\npush 1\nkeep 99\npush 1\nkeep 100\npush 1\nkeep 101\npush 1\nkeep 102\npush 1\nkeep 103\npush 1\nkeep 104\npush 1\nkeep 105\npush 1\nkeep 106\npush 1\nkeep 107\npush 1\nkeep 108\npush 1\nkeep 109\npush 1\nkeep 110\npush 1\nkeep 111\npush 1\nkeep 112\npush 1\nkeep 113\npush 1\nkeep 114\npush 1\nkeep 115\npush 1\nkeep 116\npush 1\nkeep 117\npush 1\nkeep 118\npush 1\nkeep 119\npush 1\nkeep 120\npush 1\nkeep 121\npush 1\nkeep 122\npush 1\nkeep 123\npush 1\nkeep 124\npush 1\nkeep 125\npush 1\nkeep 126\npush 1\nkeep 127\n' > keeps3
  $ printf 'push 1\nkeep 128\npush 1\nkeep 129\npush 1\nkeep 130\npush 1\nkeep 131\npush 1\nkeep 132\npush 1\nkeep 133\npush 1\nkeep 134\npush 1\nkeep 135\npush 1\nkeep 136\npush 1\nkeep 137\npush 1\nkeep 138\npush 1\nkeep 139\npush 1\nkeep 140\npush 1\nkeep 141\npush 1\nkeep 142\npush 1\nkeep 143\npush 1\nkeep 144\npush 1\nkeep 145\npush 1\nkeep 146\npush 1\nkeep 147\npush 1\nkeep 148\npush 1\nkeep 149\npush 1\nkeep 150\npush 1\nkeep 151\npush 1\nkeep 152\npush 1\nkeep 153\npush 1\nkeep 154\npush 1\nkeep 155\npush 1\nkeep 156\npush 1\nkeep 157\npush 1\nkeep 158\npush 1\nkeep 159\n' > keeps4
  $ printf 'push 1\nkeep 160\npush 1\nkeep 161\npush 1\nkeep 162\npush 1\nkeep 163\npush 1\nkeep 164\npush 1\nkeep 165\npush 1\nkeep 166\npush 1\nkeep 167\npush 1\nkeep 168\npush 1\nkeep 169\npush 1\nkeep 170\npush 1\nkeep 171\npush 1\nkeep 172\npush 1\nkeep 173\npush 1\nkeep 174\npush 1\nkeep 175\npush 1\nkeep 176\npush 1\nkeep 177\npush 1\nkeep 178\npush 1\nkeep 179\npush 1\nkeep 180\npush 1\nkeep 181\npush 1\nkeep 182\npush 1\nkeep 183\npush 1\nkeep 184\npush 1\nkeep 185\npush 1\nkeep 186\npush 1\nkeep 187\npush 1\nkeep 188\npush 1\nkeep 189\npush 1\nkeep 190\npush 1\nkeep 191\n' > keeps5
  $ printf 'push 1\nkeep 192\npush 1\nkeep 193\npush 1\nkeep 194\npush 1\nkeep 195\npush 1\nkeep 196\npush 1\nkeep 197\npush 1\nkeep 198\npush 1\nkeep 199\npush 1\nkeep 200\npush 1\nkeep 201\npush 1\nkeep 202\npush 1\nkeep 203\npush 1\nkeep 204\npush 1\nkeep 205\npush 1\nkeep 206\npush 1\nkeep 207\npush 1\nkeep 208\npush 1\nkeep 209\npush 1\nkeep 210\npush 1\nkeep 211\npush 1\nkeep 212\npush 1\nkeep 213\npush 1\nkeep 214\npush 1\nkeep 215\npush 1\nkeep 216\npush 1\nkeep 217\npush 1\nkeep 218\npush 1\nkeep 219\npush 1\nkeep 220\npush 1\nkeep 221\npush 1\nkeep 222\npush 1\nkeep 223\n' > keeps6
  $ printf 'push 1\nkeep 224\npush 1\nkeep 225\npush 1\nkeep 226\npush 1\nkeep 227\npush 1\nkeep 228\npush 1\nkeep 229\npush 1\nkeep 230\npush 1\nkeep 231\npush 1\nkeep 232\npush 1\nkeep 233\npush 1\nkeep 234\npush 1\nkeep 235\npush 1\nkeep 236\npush 1\nkeep 237\npush 1\nkeep 238\npush 1\nkeep 239\npush 1\nkeep 240\npush 1\nkeep 241\npush 1\nkeep 242\npush 1\nkeep 243\npush 1\nkeep 244\npush 1\nkeep 245\npush 1\nkeep 246\npush 1\nkeep 247\npush 1\nkeep 248\npush 1\nkeep 249\npush 1\nkeep 250\npush 1\nkeep 251\npush 1\nkeep 252\npush 1\nkeep 253\npush 1\nkeep 254\npush 1\nkeep 255\n' > keeps7
  $ printf 'get 0\nget 1\nadd\nget 2\nadd\nget 3\nadd\nget 4\nadd\nget 5\nadd\nget 6\nadd\nget 7\nadd\nget 8\nadd\nget 9\nadd\nget 10\nadd\nget 11\nadd\nget 12\nadd\nget 13\nadd\nget 14\nadd\nget 15\nadd\nget 16\nadd\nget 17\nadd\nget 18\nadd\nget 19\nadd\nget 20\nadd\nget 21\nadd\nget 22\nadd\nget 23\nadd\nget 24\nadd\nget 25\nadd\nget 26\nadd\nget 27\nadd\nget 28\nadd\nget 29\nadd\nget 30\nadd\nget 31\nadd\n' > gets0
  $ printf 'get 32\nadd\nget 33\nadd\nget 34\nadd\nget 35\nadd\nget 36\nadd\nget 37\nadd\nget 38\nadd\nget 39\nadd\nget 40\nadd\nget 41\nadd\nget 42\nadd\nget 43\nadd\nget 44\nadd\nget 45\nadd\nget 46\nadd\nget 47\nadd\nget 48\nadd\nget 49\nadd\nget 50\nadd\nget 51\nadd\nget 52\nadd\nget 53\nadd\nget 54\nadd\nget 55\nadd\nget 56\nadd\nget 57\nadd\nget 58\nadd\nget 59\nadd\nget 60\nadd\nget 61\nadd\nget 62\nadd\nget 63\nadd\n' > gets1
  $ printf 'get 64\nadd\nget 65\nadd\nget 66\nadd\nget 67\nadd\nget 68\nadd\nget 69\nadd\nget 70\nadd\nget 71\nadd\nget 72\nadd\nget 73\nadd\nget 74\nadd\nget 75\nadd\nget 76\nadd\nget 77\nadd\nget 78\nadd\nget 79\nadd\nget 80\nadd\nget 81\nadd\nget 82\nadd\nget 83\nadd\nget 84\nadd\nget 85\nadd\nget 86\nadd\nget 87\nadd\nget 88\nadd\nget 89\nadd\nget 90\nadd\nget 91\nadd\nget 92\nadd\nget 93\nadd\nget 94\nadd\nget 95\nadd\n' > gets2
  $ printf 'get 96\nadd\nget 97\nadd\nget 98\nadd\nget 99\nadd\nget 100\nadd\nget 101\nadd\nget 102\nadd\nget 103\nadd\nget 104\nadd\nget 105\nadd\nget 106\nadd\nget 107\nadd\nget 108\nadd\nget 109\nadd\nget 110\nadd\nget 111\nadd\nget 112\nadd\nget 113\nadd\nget 114\nadd\nget 115\nadd\nget 116\nadd\nget 117\nadd\nget 118\nadd\nget 119\nadd\nget 120\nadd\nget 121\nadd\nget 122\nadd\nget 123\nadd\nget 124\nadd\nget 125\nadd\nget 126\nadd\nget 127\nadd\n' > gets3
  $ printf 'get 128\nadd\nget 129\nadd\nget 130\nadd\nget 131\nadd\nget 132\nadd\nget 133\nadd\nget 134\nadd\nget 135\nadd\nget 136\nadd\nget 137\nadd\nget 138\nadd\nget 139\nadd\nget 140\nadd\nget 141\nadd\nget 142\nadd\nget 143\nadd\nget 144\nadd\nget 145\nadd\nget 146\nadd\nget 147\nadd\nget 148\nadd\nget 149\nadd\nget 150\nadd\nget 151\nadd\nget 152\nadd\nget 153\nadd\nget 154\nadd\nget 155\nadd\nget 156\nadd\nget 157\nadd\nget 158\nadd\nget 159\nadd\n' > gets4
  $ printf 'get 160\nadd\nget 161\nadd\nget 162\nadd\nget 163\nadd\nget 164\nadd\nget 165\nadd\nget 166\nadd\nget 167\nadd\nget 168\nadd\nget 169\nadd\nget 170\nadd\nget 171\nadd\nget 172\nadd\nget 173\nadd\nget 174\nadd\nget 175\nadd\nget 176\nadd\nget 177\nadd\nget 178\nadd\nget 179\nadd\nget 180\nadd\nget 181\nadd\nget 182\nadd\nget 183\nadd\nget 184\nadd\nget 185\nadd\nget 186\nadd\nget 187\nadd\nget 188\nadd\nget 189\nadd\nget 190\nadd\nget 191\nadd\n' > gets5
  $ printf 'get 192\nadd\nget 193\nadd\nget 194\nadd\nget 195\nadd\nget 196\nadd\nget 197\nadd\nget 198\nadd\nget 199\nadd\nget 200\nadd\nget 201\nadd\nget 202\nadd\nget 203\nadd\nget 204\nadd\nget 205\nadd\nget 206\nadd\nget 207\nadd\nget 208\nadd\nget 209\nadd\nget 210\nadd\nget 211\nadd\nget 212\nadd\nget 213\nadd\nget 214\nadd\nget 215\nadd\nget 216\nadd\nget 217\nadd\nget 218\nadd\nget 219\nadd\nget 220\nadd\nget 221\nadd\nget 222\nadd\nget 223\nadd\n' > gets6
  $ printf 'get 224\nadd\nget 225\nadd\nget 226\nadd\nget 227\nadd\nget 228\nadd\nget 229\nadd\nget 230\nadd\nget 231\nadd\nget 232\nadd\nget 233\nadd\nget 234\nadd\nget 235\nadd\nget 236\nadd\nget 237\nadd\nget 238\nadd\nget 239\nadd\nget 240\nadd\nget 241\nadd\nget 242\nadd\nget 243\nadd\nget 244\nadd\nget 245\nadd\nget 246\nadd\nget 247\nadd\nget 248\nadd\nget 249\nadd\nget 250\nadd\nget 251\nadd\nget 252\nadd\nget 253\nadd\nget 254\nadd\nget 255\nadd\n' > gets7
  $ cat head keeps0 keeps1 keeps2 keeps3 keeps4 keeps5 keeps6 keeps7 gets0 gets1 gets2 gets3 gets4 gets5 gets6 gets7 > locals
  $ pairmd check job --code locals
  accepted: steps 1023, bound 256
  $ cat head keeps0 keeps1 keeps2 keeps3 keeps4 keeps5 keeps6 gets0 gets1 gets2 gets3 gets4 gets5 gets6 gets7 > locals
  $ pairmd check job --code locals
  pairmd: V1 Malformed 895
  [3]

## Names

A name is printed exactly as in the text, with capitals and to its last letter.

  $ with job 2 'energy r+Pa_ULIvonWeizsaecker_andhiscolleaguesandtheirstudentsandtheirassistantsandtheirfriendswholikedlongnamesmorethanshortones1' pairmd check job
  pairmd: E04 UnknownName Pa_ULIvonWeizsaecker_andhiscolleaguesandtheirstudentsandtheirassistantsandtheirfriendswholikedlongnamesmorethanshortones1
  [3]
