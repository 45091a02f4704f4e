# States that are accepted, and their meaning

A run of 0 steps prints the same state.

  $ pairmd run job state --steps 0 > again
  $ cmp again state
  $ pairmd frame state
  two atoms
      2
      1AR      AR    1   0.500   0.000   0.000
      1AR      AR    2   1.000   0.000   0.000
     2.00000   2.00000   2.00000

Every form of a line is kept.

  $ sed '2c title ' state > other
  $ pairmd run job other --steps 0 > again
  $ cmp again other
  $ sed '2c title  a\rtitle, \xc3\xa9 ' state > other
  $ pairmd run job other --steps 0 > again
  $ cmp again other
  $ sed '2c title \x00\xff\t title \r ' state > other
  $ pairmd run job other --steps 0 > again
  $ cmp again other
  $ sed '3c step -9223372036854775808' state > other
  $ pairmd run job other --steps 0 > again
  $ cmp again other
  $ sed '3c step 9223372036854775807' state > other
  $ pairmd run job other --steps 0 > again
  $ cmp again other
  $ sed '3c step -1' state > other
  $ pairmd run job other --steps 0 > again
  $ cmp again other
  $ sed '6c -9999A B C   AR 0 1 2 3 4 4294967295' state > other
  $ pairmd run job other --steps 0 > again
  $ cmp again other
  $ sed '6c 99999        AR 4294967295 0 0 0 0 0' state > other
  $ pairmd run job other --steps 0 > again
  $ cmp again other
  $ sed '6c     0ABCDE   AR 1 10 100 1000 10000 100000' state > other
  $ pairmd run job other --steps 0 > again
  $ cmp again other

A box with a side of 10^-5 nm is wide enough for a cutoff below half the side.

  $ printf 'pairmd job 1\nenergy r\ncore 0\ncutoff 4.9e-6\ndt 2\ntype AR 1\n' > narrow
  $ sed '5c box 1 2 16000000' state > other
  $ pairmd run narrow other --steps 0 > again
  $ cmp again other
  $ printf 'pairmd state 1\ntitle \nstep -7\natoms 0\nbox 1 2 3\n' > other
  $ pairmd run narrow other --steps 0 > again
  $ cmp again other

A name with inner blanks and an empty name match no type. A frame shows such names, and the positions to a picometre.

  $ with state 6 '-9999AR     x y 0 1 2 3 4 4294967295' pairmd frame state
  two atoms
      2
  -9999AR     x y    1   0.000   0.000   2.000
      1AR      AR    2   1.000   0.000   0.000
     2.00000   2.00000   2.00000
  $ with state 6 '99999A  BCD  EF 4294967295 0 0 0 0 0' pairmd frame state
  two atoms
      2
  99999A  BCD  EF    1   0.000   0.000   0.000
      1AR      AR    2   1.000   0.000   0.000
     2.00000   2.00000   2.00000
  $ with state 6 '    0           0 0 0 0 0 0' pairmd frame state
  two atoms
      2
      0              1   0.000   0.000   0.000
      1AR      AR    2   1.000   0.000   0.000
     2.00000   2.00000   2.00000
  $ with state 6 '    1        AR 7 7 7 0 0 0' pairmd frame state
  two atoms
      2
      1        AR    1   0.000   0.000   0.000
      1AR      AR    2   1.000   0.000   0.000
     2.00000   2.00000   2.00000
  $ with state 6 '-9999AR     x y 0 1 2 3 4 4294967295' pairmd run job state --steps 0
  pairmd: A1 UnknownType 1
  [1]
  $ with state 7 '    0           0 0 0 0 0 0' pairmd run job state --steps 0
  pairmd: A1 UnknownType 2
  [1]

Names with every byte from 33 to 126, for types, residues and atoms.

  $ cat > named << END
  > pairmd job 1
  > energy 1/r
  > core 0.2
  > cutoff 0.9
  > dt 2
  > slices 1
  > type !"#$% 1
  > type &'()* 1
  > type +,-./ 1
  > type 01234 1
  > type 56789 1
  > type :;<=> 1
  > type ?@ABC 1
  > type DEFGH 1
  > type IJKLM 1
  > type NOPQR 1
  > type STUVW 1
  > type XYZ[\ 1
  > type ]^_`a 1
  > type bcdef 1
  > type ghijk 1
  > type lmnop 1
  > type qrstu 1
  > type vwxyz 1
  > type {|}~ 1
  > END
  $ cat > atoms << END
  > pairmd state 1
  > title names
  > step 0
  > atoms 19
  > box 200000 200000 200000
  >     1!"#$%!"#$% 0 0 0 0 0 0
  >     2&'()*&'()* 0 0 0 0 0 0
  >     3+,-./+,-./ 0 0 0 0 0 0
  >     40123401234 0 0 0 0 0 0
  >     55678956789 0 0 0 0 0 0
  >     6:;<=>:;<=> 0 0 0 0 0 0
  >     7?@ABC?@ABC 0 0 0 0 0 0
  >     8DEFGHDEFGH 0 0 0 0 0 0
  >     9IJKLMIJKLM 0 0 0 0 0 0
  >    10NOPQRNOPQR 0 0 0 0 0 0
  >    11STUVWSTUVW 0 0 0 0 0 0
  >    12XYZ[\XYZ[\ 0 0 0 0 0 0
  >    13]^_`a]^_`a 0 0 0 0 0 0
  >    14bcdefbcdef 0 0 0 0 0 0
  >    15ghijkghijk 0 0 0 0 0 0
  >    16lmnoplmnop 0 0 0 0 0 0
  >    17qrstuqrstu 0 0 0 0 0 0
  >    18vwxyzvwxyz 0 0 0 0 0 0
  >    19{|}~  {|}~ 0 0 0 0 0 0
  > END
  $ pairmd run named atoms --steps 0 > again
  $ cmp again atoms
  $ pairmd frame atoms
  names
     19
      1!"#$%!"#$%    1   0.000   0.000   0.000
      2&'()*&'()*    2   0.000   0.000   0.000
      3+,-./+,-./    3   0.000   0.000   0.000
      40123401234    4   0.000   0.000   0.000
      55678956789    5   0.000   0.000   0.000
      6:;<=>:;<=>    6   0.000   0.000   0.000
      7?@ABC?@ABC    7   0.000   0.000   0.000
      8DEFGHDEFGH    8   0.000   0.000   0.000
      9IJKLMIJKLM    9   0.000   0.000   0.000
     10NOPQRNOPQR   10   0.000   0.000   0.000
     11STUVWSTUVW   11   0.000   0.000   0.000
     12XYZ[\XYZ[\   12   0.000   0.000   0.000
     13]^_`a]^_`a   13   0.000   0.000   0.000
     14bcdefbcdef   14   0.000   0.000   0.000
     15ghijkghijk   15   0.000   0.000   0.000
     16lmnoplmnop   16   0.000   0.000   0.000
     17qrstuqrstu   17   0.000   0.000   0.000
     18vwxyzvwxyz   18   0.000   0.000   0.000
     19{|}~  {|}~   19   0.000   0.000   0.000
     2.00000   2.00000   2.00000

A state of a thousand atoms.

  $ printf 'pairmd state 1\ntitle many\nstep 0\natoms 1000\nbox 200000 200000 200000\n' > head
  $ yes '    1AR      AR 1073741824 0 0 1073741824 0 0' | head -n 1000 > lines
  $ cat head lines > other
  $ pairmd run job other --steps 0 > again
  $ cmp again other

If the output fails it holds the beginning of the text.

  $ with job 6 'slices 1' outputs pairmd run job state --steps 0
  0-162: a beginning, pairmd: O2 CannotWrite [5]
  163: all
  $ outputs pairmd frame state
  0-136: a beginning, pairmd: O2 CannotWrite [5]
  137: all

If an allocation fails, the only output is the error.

  $ requests pairmd frame state
  pairmd: Memory [4]
  all
