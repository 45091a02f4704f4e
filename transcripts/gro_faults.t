# GRO files that are rejected: lines are checked from the top, and the first error is reported

A truncated file is rejected. Only a box value that is cut within its digits isn't noticed.

  $ beginnings gro pairmd start job gro
  0-10: pairmd: G1 Truncated [1]
  11-14: pairmd: G2 BadCount 2 [1]
  15-129: pairmd: G1 Truncated [1]
  130: pairmd state 1
  title two atoms
  step 0
  atoms 2
  box 200000 200000 200000
      1AR      AR 1073741824 0 0 1073741824 0 0
      1AR      AR 2147483648 0 0 2147483648 0 0
  131: pairmd: G5 BadBox 5 [1]
  132-137: pairmd state 1
  title two atoms
  step 0
  atoms 2
  box 200000 200000 200000
      1AR      AR 1073741824 0 0 1073741824 0 0
      1AR      AR 2147483648 0 0 2147483648 0 0
  $ printf '\n' > other
  $ pairmd start job other
  pairmd: G1 Truncated
  [1]
  $ printf '\n0\n2 x' > other
  $ pairmd start job other
  pairmd: G1 Truncated
  [1]
  $ printf '\n0\n2 2 x' > other
  $ pairmd start job other
  pairmd: G5 BadBox 3
  [1]
  $ sed '5d' gro > other
  $ pairmd start job other
  pairmd: G1 Truncated
  [1]

The number of atoms.

  $ with gro 2 '' pairmd start job gro
  pairmd: G2 BadCount 2
  [1]
  $ with gro 2 '   ' pairmd start job gro
  pairmd: G2 BadCount 2
  [1]
  $ with gro 2 '-2' pairmd start job gro
  pairmd: G2 BadCount 2
  [1]
  $ with gro 2 '+2' pairmd start job gro
  pairmd: G2 BadCount 2
  [1]
  $ with gro 2 '2 2' pairmd start job gro
  pairmd: G2 BadCount 2
  [1]
  $ with gro 2 '2.' pairmd start job gro
  pairmd: G2 BadCount 2
  [1]
  $ with gro 2 'two' pairmd start job gro
  pairmd: G2 BadCount 2
  [1]
  $ with gro 2 '2\t' pairmd start job gro
  pairmd: G2 BadCount 2
  [1]
  $ printf '\n\n' > other
  $ pairmd start job other
  pairmd: G2 BadCount 2
  [1]
  $ printf '\n\n\n\n' > other
  $ pairmd start job other
  pairmd: G2 BadCount 2
  [1]
  $ printf ' \n\r\n  ' > other
  $ pairmd start job other
  pairmd: G2 BadCount 2
  [1]
  $ with gro 2 '65537' pairmd start job gro
  pairmd: G7 TooManyAtoms 2
  [1]
  $ with gro 2 '18446744073709551618' pairmd start job gro
  pairmd: G7 TooManyAtoms 2
  [1]
  $ with gro 2 '99999999999999999999999999' pairmd start job gro
  pairmd: G7 TooManyAtoms 2
  [1]

If the count is too high, the box line is read as an atom. If the count is too low, an atom line is read as the box.

  $ with gro 2 '65536' pairmd start job gro
  pairmd: G3 BadColumns 5
  [1]
  $ with gro 2 '3' pairmd start job gro
  pairmd: G3 BadColumns 5
  [1]
  $ with gro 2 '1' pairmd start job gro
  pairmd: G5 BadBox 4
  [1]

Positions have three decimals: the first two points are 8 columns apart.

  $ with gro 3 '    1AR      AR    1   0.5000   0.0000   0.0000' pairmd start job gro
  pairmd: G4 Precision 3
  [1]
  $ with gro 4 '    1AR      AR    2   1.0000   0.0000   0.0000' pairmd start job gro
  pairmd: G4 Precision 4
  [1]
  $ with gro 3 '    1AR      AR    1   0.50   0.00   0.00' pairmd start job gro
  pairmd: G4 Precision 3
  [1]
  $ with gro 3 '    1AR      AR    1  0.5  .' pairmd start job gro
  pairmd: G4 Precision 3
  [1]
  $ with gro 3 '    1AR      AR    1  0.500    0.000   0.000' pairmd start job gro
  pairmd: G4 Precision 3
  [1]

An atom line has two points, and its three coordinates are in their columns.

  $ with gro 3 '    1AR      AR    1   0.500' pairmd start job gro
  pairmd: G3 BadColumns 3
  [1]
  $ with gro 3 '    1AR      AR    1   0.500   0.000' pairmd start job gro
  pairmd: G3 BadColumns 3
  [1]
  $ with gro 3 '    1AR      AR    1    .500   0.000   0.000' pairmd start job gro
  pairmd: G3 BadColumns 3
  [1]
  $ with gro 3 '    1AR      AR    1   -.500   0.000   0.000' pairmd start job gro
  pairmd: G3 BadColumns 3
  [1]
  $ with gro 3 '    1AR      AR    1   0.5 0   0.000   0.000' pairmd start job gro
  pairmd: G3 BadColumns 3
  [1]
  $ with gro 3 '    1AR      AR    1   0.500   0.000    .000' pairmd start job gro
  pairmd: G3 BadColumns 3
  [1]
  $ with gro 3 '    1AR      AR    1   0.500   0.000   +.000' pairmd start job gro
  pairmd: G3 BadColumns 3
  [1]
  $ with gro 3 '    1AR      AR    1   0.500   0.000  --.000' pairmd start job gro
  pairmd: G3 BadColumns 3
  [1]
  $ with gro 3 '    1AR      AR    1   0.500   0.000 - 0.000' pairmd start job gro
  pairmd: G3 BadColumns 3
  [1]
  $ with gro 3 '    1AR      AR    1   0.500   0.000   0,000' pairmd start job gro
  pairmd: G3 BadColumns 3
  [1]
  $ with gro 3 '    1AR      AR    1   0.500   0.000  +0.000' pairmd start job gro
  pairmd: G3 BadColumns 3
  [1]
  $ with gro 3 '    1AR      AR    1   0.500   0.000 --0.000' pairmd start job gro
  pairmd: G3 BadColumns 3
  [1]
  $ with gro 3 '' pairmd start job gro
  pairmd: G3 BadColumns 3
  [1]

Bytes outside 32 to 126 are rejected (G3) before the points are checked (G4).

  $ with gro 3 '    1AR\t     AR    1   0.5000   0.0000   0.0000' pairmd start job gro
  pairmd: G3 BadColumns 3
  [1]
  $ with gro 3 '    1AR      AR    1   0.500   0.000   0.000\t' pairmd start job gro
  pairmd: G3 BadColumns 3
  [1]
  $ with gro 3 '    1\xc3\xa9R     AR    1   0.500   0.000   0.000' pairmd start job gro
  pairmd: G3 BadColumns 3
  [1]
  $ with gro 3 '    1AR\x7f     AR    1   0.5000   0.0000   0.0000' pairmd start job gro
  pairmd: G3 BadColumns 3
  [1]
  $ with gro 3 '    1AR\x1f     AR    1   0.5000   0.0000   0.0000' pairmd start job gro
  pairmd: G3 BadColumns 3
  [1]

The residue number.

  $ with gro 3 '     AR      AR    1   0.500   0.000   0.000' pairmd start job gro
  pairmd: G3 BadColumns 3
  [1]
  $ with gro 3 '  1 2AR      AR    1   0.500   0.000   0.000' pairmd start job gro
  pairmd: G3 BadColumns 3
  [1]
  $ with gro 3 '   +1AR      AR    1   0.500   0.000   0.000' pairmd start job gro
  pairmd: G3 BadColumns 3
  [1]
  $ with gro 3 '  - 1AR      AR    1   0.500   0.000   0.000' pairmd start job gro
  pairmd: G3 BadColumns 3
  [1]
  $ with gro 3 '   1.AR      AR    1   0.500   0.000   0.000' pairmd start job gro
  pairmd: G3 BadColumns 3
  [1]
  $ with gro 3 '    -AR      AR    1   0.500   0.000   0.000' pairmd start job gro
  pairmd: G3 BadColumns 3
  [1]

After the position come three velocities with four decimals or spaces, and then only spaces.

  $ with gro 3 '    1AR      AR    1   0.500   0.000   0.000x' pairmd start job gro
  pairmd: G3 BadColumns 3
  [1]
  $ with gro 3 '    1AR      AR    1   0.500   0.000   0.000  0.5000 -0.5000' pairmd start job gro
  pairmd: G3 BadColumns 3
  [1]
  $ with gro 3 '    1AR      AR    1   0.500   0.000   0.000   0.500  -0.500   0.000' pairmd start job gro
  pairmd: G3 BadColumns 3
  [1]
  $ with gro 3 '    1AR      AR    1   0.500   0.000   0.000  0.5000 -0.5000  0.0000x' pairmd start job gro
  pairmd: G3 BadColumns 3
  [1]
  $ with gro 3 '    1AR      AR    1   0.500   0.000   0.000                        x' pairmd start job gro
  pairmd: G3 BadColumns 3
  [1]
  $ with gro 3 '    1AR      AR    1   0.500   0.000   0.000  0.5000' pairmd start job gro
  pairmd: G3 BadColumns 3
  [1]

A box has 3 to 9 values, each with at most 12 digits and 5 decimals.

  $ with gro 5 '' pairmd start job gro
  pairmd: G5 BadBox 5
  [1]
  $ with gro 5 '2 2' pairmd start job gro
  pairmd: G5 BadBox 5
  [1]
  $ with gro 5 '2 2 2.' pairmd start job gro
  pairmd: G5 BadBox 5
  [1]
  $ with gro 5 '2 2 .5' pairmd start job gro
  pairmd: G5 BadBox 5
  [1]
  $ with gro 5 '2 2 2.123456' pairmd start job gro
  pairmd: G5 BadBox 5
  [1]
  $ with gro 5 '2 2 1234567890123' pairmd start job gro
  pairmd: G5 BadBox 5
  [1]
  $ with gro 5 '2 2 +2' pairmd start job gro
  pairmd: G5 BadBox 5
  [1]
  $ with gro 5 '2 2 --2' pairmd start job gro
  pairmd: G5 BadBox 5
  [1]
  $ with gro 5 '2 2 2e0' pairmd start job gro
  pairmd: G5 BadBox 5
  [1]
  $ with gro 5 '2 2 2 x' pairmd start job gro
  pairmd: G5 BadBox 5
  [1]
  $ with gro 5 '2 2 2 0 0 0 0 0 0 0' pairmd start job gro
  pairmd: G5 BadBox 5
  [1]
  $ with gro 5 '2 2 2 1 x' pairmd start job gro
  pairmd: G5 BadBox 5
  [1]
  $ with gro 5 '2 2 -' pairmd start job gro
  pairmd: G5 BadBox 5
  [1]

A box is rectangular.

  $ with gro 5 '   2.00000   2.00000   2.00000   0.10000   0.00000   0.00000   0.00000   0.00000   0.00000' pairmd start job gro
  pairmd: G6 Triclinic 5
  [1]
  $ with gro 5 '2 2 2 0 0 0 0 0 -0.00001' pairmd start job gro
  pairmd: G6 Triclinic 5
  [1]
  $ with gro 5 '2 2 2 1' pairmd start job gro
  pairmd: G6 Triclinic 5
  [1]

Lines are counted through all frames, and all frames are checked before one is used.

  $ printf 'Water\r\n    1\r\n    1SOL     OW    1  -0.001   0.000   0.000\r\n   1.86206   1.86206   1.86206\r\n' > water
  $ printf '\t' > end
  $ cat gro water end > other
  $ pairmd start job other
  pairmd: G1 Truncated
  [1]
  $ printf '\t\n1x\n' > end
  $ cat gro water end > other
  $ pairmd start job other
  pairmd: G2 BadCount 11
  [1]
  $ printf 'many\n 1000\n' > head
  $ yes '    1AR      AR    1   0.500   0.000   0.000' | head -n 1000 > lines
  $ printf '2 2 2 1\n' > box
  $ cat head lines box > other
  $ pairmd start job other
  pairmd: G6 Triclinic 1003
  [1]
  $ cat gro head lines box > other
  $ pairmd start job other
  pairmd: G6 Triclinic 1008
  [1]
