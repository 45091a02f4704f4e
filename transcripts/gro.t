# GRO files that are accepted

`start` copies title, box, numbers and names, and rounds each position to the nearest grid coordinate.

  $ pairmd start job gro
  pairmd state 1
  title two atoms
  step 0
  atoms 2
  box 200000 200000 200000
      1AR      AR 1073741824 0 0 1073741824 0 0
      1AR      AR 2147483648 0 0 2147483648 0 0
  $ pairmd start job gro > start
  $ cmp start state

Lines may end in CR LF, or in more CRs. A title keeps the CRs inside it.

  $ printf 'Water\r\n    1\r\n    1SOL     OW    1  -0.001   0.000   0.000\r\n   1.86206   1.86206   1.86206\r\n' > water
  $ pairmd start job water
  pairmd state 1
  title Water
  step 0
  atoms 1
  box 186206 186206 186206
      1SOL     OW 4292660728 0 0 4292660728 0 0
  $ printf 'a\rb\r\r\n0\r\n1 2 3\r' > other
  $ pairmd start job other > start
  $ printf 'pairmd state 1\ntitle a\rb\nstep 0\natoms 0\nbox 100000 200000 300000\n' > expected
  $ cmp start expected

Frames follow one another and are counted from 1.

  $ cat gro water > both
  $ pairmd start job both > start
  $ cmp start state
  $ pairmd start job both --frame 1 > start
  $ cmp start state
  $ pairmd start job both --frame 2
  pairmd state 1
  title Water
  step 0
  atoms 1
  box 186206 186206 186206
      1SOL     OW 4292660728 0 0 4292660728 0 0
  $ pairmd start job both --frame 3
  pairmd: G8 NoSuchFrame
  [1]
  $ pairmd start job both --frame 18446744073709551615
  pairmd: G8 NoSuchFrame
  [1]
  $ cat gro gro > both
  $ pairmd start job both --frame 2 > start
  $ cmp start state

A file ends when only spaces, CR and LF remain.

  $ printf '\n' > blanks
  $ cat water blanks > other
  $ pairmd start job other
  pairmd state 1
  title Water
  step 0
  atoms 1
  box 186206 186206 186206
      1SOL     OW 4292660728 0 0 4292660728 0 0
  $ pairmd start job other > expected
  $ pairmd start job other --frame 2
  pairmd: G8 NoSuchFrame
  [1]
  $ printf ' \r\n\n  ' > blanks
  $ cat water blanks > other
  $ pairmd start job other > start
  $ cmp start expected
  $ pairmd start job other --frame 2
  pairmd: G8 NoSuchFrame
  [1]
  $ printf '\r\r' > blanks
  $ cat water blanks > other
  $ pairmd start job other > start
  $ cmp start expected
  $ pairmd start job other --frame 2
  pairmd: G8 NoSuchFrame
  [1]
  $ printf '   ' > blanks
  $ cat water blanks > other
  $ pairmd start job other > start
  $ cmp start expected
  $ pairmd start job other --frame 2
  pairmd: G8 NoSuchFrame
  [1]

A velocity sets the previous position, one time step of 2 fs earlier. A blank velocity is zero.

  $ with gro 3 '    1AR      AR    1   0.500   0.000   0.000' pairmd start job gro > start
  $ cmp start state
  $ with gro 3 '    1AR      AR    1   0.500   0.000   0.000       ' pairmd start job gro > start
  $ cmp start state
  $ with gro 3 '    1AR      AR    1   0.500   0.000   0.000                              ' pairmd start job gro > start
  $ cmp start state
  $ with gro 3 '    1AR      AR    1   0.500   0.000   0.000  0.5000 -0.5000  0.0000' pairmd start job gro
  pairmd state 1
  title two atoms
  step 0
  atoms 2
  box 200000 200000 200000
      1AR      AR 1071594340 2147484 0 1073741824 0 0
      1AR      AR 2147483648 0 0 2147483648 0 0
  $ with gro 3 '    1AR      AR    1   0.500   0.000   0.000999.9999-99.9999 -0.0000   ' pairmd start job gro
  pairmd state 1
  title two atoms
  step 0
  atoms 2
  box 200000 200000 200000
      1AR      AR 1073742253 429496300 0 1073741824 0 0
      1AR      AR 2147483648 0 0 2147483648 0 0

Fields may fill their columns and touch. The atom number is ignored.

  $ with gro 3 '99999ABCDEFGHIJ99999-999.9999999.999   0.001' pairmd start job gro
  pairmd state 1
  title two atoms
  step 0
  atoms 2
  box 200000 200000 200000
  99999ABCDEFGHIJ 2147484 4292819812 2147484 2147484 4292819812 2147484
      1AR      AR 2147483648 0 0 2147483648 0 0
  $ with gro 3 '-9999A B C     00000  -0.000   0.100  10.000' pairmd start job gro
  pairmd state 1
  title two atoms
  step 0
  atoms 2
  box 200000 200000 200000
  -9999A B C      0 214748365 0 0 214748365 0
      1AR      AR 2147483648 0 0 2147483648 0 0
  $ with gro 3 ' 0007  X    y  *****   1.234  -5.678   9.012' pairmd start job gro
  pairmd state 1
  title two atoms
  step 0
  atoms 2
  box 200000 200000 200000
      7X        y 2649994822 691489735 2173253452 2649994822 691489735 2173253452
      1AR      AR 2147483648 0 0 2147483648 0 0
  $ with gro 3 '-0   SOL    OW     1   0.000   0.000   0.000' pairmd start job gro
  pairmd state 1
  title two atoms
  step 0
  atoms 2
  box 200000 200000 200000
      0SOL     OW 0 0 0 0 0 0
      1AR      AR 2147483648 0 0 2147483648 0 0

The number of atoms consists of digits, with optional spaces around them.

  $ with gro 2 '2' pairmd start job gro > start
  $ cmp start state
  $ with gro 2 '  2  ' pairmd start job gro > start
  $ cmp start state
  $ with gro 2 '00000000000000000000000002' pairmd start job gro > start
  $ cmp start state
  $ with gro 2 '    2' pairmd start job gro > start
  $ cmp start state

Box values are separated by spaces or tabs. Values after the third must be zero.

  $ with gro 5 '   2.00000   3.00000   4.00000' pairmd start job gro
  pairmd state 1
  title two atoms
  step 0
  atoms 2
  box 200000 300000 400000
      1AR      AR 1073741824 0 0 1073741824 0 0
      1AR      AR 2147483648 0 0 2147483648 0 0
  $ with gro 5 '2 3 4' pairmd start job gro
  pairmd state 1
  title two atoms
  step 0
  atoms 2
  box 200000 300000 400000
      1AR      AR 1073741824 0 0 1073741824 0 0
      1AR      AR 2147483648 0 0 2147483648 0 0
  $ with gro 5 '\t1.5\t0.00001  160.00000 \t' pairmd start job gro
  pairmd state 1
  title two atoms
  step 0
  atoms 2
  box 150000 1 16000000
      1AR      AR 1431655765 0 0 1431655765 0 0
      1AR      AR 2863311531 0 0 2863311531 0 0
  $ with gro 5 '000000000002 2.0 2.00000' pairmd start job gro
  pairmd state 1
  title two atoms
  step 0
  atoms 2
  box 200000 200000 200000
      1AR      AR 1073741824 0 0 1073741824 0 0
      1AR      AR 2147483648 0 0 2147483648 0 0
  $ with gro 5 '2 2 2 0' pairmd start job gro > start
  $ cmp start state
  $ with gro 5 '   2.00000   2.00000   2.00000   0.00000   0.00000  -0.00000   0.00000   0.00000   0.00000' pairmd start job gro > start
  $ cmp start state

A box that is read may still be impossible for a run.

  $ with gro 5 '0 0 0' pairmd start job gro
  pairmd: B1 NoBox
  [1]
  $ with gro 5 '-0.00000 0 0.0' pairmd start job gro
  pairmd: B1 NoBox
  [1]
  $ with gro 5 '-0.00000 -1 1.2' pairmd start job gro
  pairmd: B2 SideRange
  [1]
  $ with gro 5 '\t1.5\t-0.00001  999999999999.99999 ' pairmd start job gro
  pairmd: B2 SideRange
  [1]
  $ with gro 5 '1 1 160.00001' pairmd start job gro
  pairmd: B2 SideRange
  [1]
  $ with gro 5 '0 0.00001 0.00001' pairmd start job gro
  pairmd: B2 SideRange
  [1]
  $ with gro 5 '0.00001 -0.00001 0.00001' pairmd start job gro
  pairmd: B2 SideRange
  [1]

Output of GROMACS tools with three decimals: `solvate`, `trjconv` with velocities, and `editconf` with numbers that have
wrapped around.

  $ cat > solvated << END
  > Generated by gmx solvate
  >     3
  >     1SOL     OW    1   0.230   0.628   0.113
  >     1SOL    HW1    2   0.137   0.626   0.150
  >     1SOL    HW2    3   0.231   0.589   0.021
  >    1.86206   1.86206   1.86206
  > END
  $ pairmd start job solvated
  pairmd state 1
  title Generated by gmx solvate
  step 0
  atoms 3
  box 186206 186206 186206
      1SOL     OW 530510552 1448524463 260642141 530510552 1448524463 260642141
      1SOL    HW1 315999763 1443911328 345985142 315999763 1443911328 345985142
      1SOL    HW2 532817119 1358568326 48437920 532817119 1358568326 48437920
  $ cat > moving << END
  > Argon t=   0.00000 step= 0
  >     1
  >     1AR      AR    1   0.500   0.000   0.000  0.1234 -0.1234  0.0000
  >    2.00000   2.00000   2.00000
  > END
  $ pairmd start job moving
  pairmd state 1
  title Argon t=   0.00000 step= 0
  step 0
  atoms 1
  box 200000 200000 200000
      1AR      AR 1073211825 529999 0 1073741824 0 0
  $ printf '\xf0\x9f\x92\xa7 in a box\n    1\n    0SOL     OW    0  12.345   6.789  10.111\n  16.00000  16.00000 160.00000\n' > other
  $ pairmd start job other > start
  $ printf 'pairmd state 1\ntitle \xf0\x9f\x92\xa7 in a box\nstep 0\natoms 1\nbox 1600000 1600000 16000000\n    0SOL     OW 3313835704 1822408311 271415090 3313835704 1822408311 271415090\n' > expected
  $ cmp start expected
  $ printf '\n0\n   1.00000   1.00000   1.00000\n' > other
  $ pairmd start job other > start
  $ printf 'pairmd state 1\ntitle \nstep 0\natoms 0\nbox 100000 100000 100000\n' > expected
  $ cmp start expected

`start` and then `frame` reproduce a file that `frame` could have written, byte for byte.

  $ pairmd start job gro > start
  $ pairmd frame start > again
  $ cmp again gro
  $ pairmd start job solvated > start
  $ pairmd frame start > again
  $ cmp again solvated
  $ printf '\n    0\n   1.00000 160.00000   0.00001\n' > other
  $ pairmd start job other > start
  $ pairmd frame start > again
  $ cmp again other
  $ printf 'full \r columns\n    1\n-9999ABCDEFGHIJ    1   0.000 159.999  99.999\n 160.00000 160.00000 100.00000\n' > other
  $ pairmd start job other > start
  $ pairmd frame start > again
  $ cmp again other

`frame` omits velocities, numbers the atoms from 1, and maps positions into the box.

  $ printf 't\r\n1\r\n    1SOL     OW 4711  -0.001   0.000   0.000  0.1234 -0.1234  0.0000\r\n1.86206 1 2 0 0\r\n' > other
  $ pairmd start job other > start
  $ pairmd frame start
  t
      1
      1SOL     OW    1   1.861   0.000   0.000
     1.86206   1.00000   2.00000

`start` if the output fails, and if an allocation fails.

  $ outputs pairmd start job gro
  0-162: a beginning, pairmd: O2 CannotWrite [5]
  163: all
  $ requests pairmd start job gro
  pairmd: Memory [4]
  all
  $ requests pairmd start job both --frame 2
  pairmd: Memory [4]
  all
