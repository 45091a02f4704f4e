# Rejected starts

Errors of `start` in a GRO file. Lines are counted from 1 through the whole file.

The number of atoms.

  $ with gro 2 'two' pairmd start job gro
  pairmd: G2 BadCount 2
  [1]
  $ with gro 2 '' pairmd start job gro
  pairmd: G2 BadCount 2
  [1]
  $ with gro 2 '+2' pairmd start job gro
  pairmd: G2 BadCount 2
  [1]
  $ with gro 2 '65537' pairmd start job gro
  pairmd: G7 TooManyAtoms 2
  [1]
  $ with gro 2 '    1' pairmd start job gro
  pairmd: G5 BadBox 4
  [1]
  $ with gro 2 '    3' pairmd start job gro
  pairmd: G3 BadColumns 5
  [1]

Positions without exactly three decimals.

  $ with gro 3 '    1AR      AR    1   0.5000   0.0000   0.0000' pairmd start job gro
  pairmd: G4 Precision 3
  [1]
  $ with gro 3 '    1AR      AR    1   0.50   0.00   0.00' pairmd start job gro
  pairmd: G4 Precision 3
  [1]

Fields outside their columns, and bytes that aren't allowed.

  $ with gro 3 '    1AR      AR    1    .500   0.000   0.000' pairmd start job gro
  pairmd: G3 BadColumns 3
  [1]
  $ with gro 3 '    1AR      AR    1   0.5e0   0.000   0.000' pairmd start job gro
  pairmd: G3 BadColumns 3
  [1]
  $ with gro 3 '     AR      AR    1   0.500   0.000   0.000' pairmd start job gro
  pairmd: G3 BadColumns 3
  [1]
  $ with gro 3 '     1AR      AR    1   0.500   0.000   0.000' pairmd start job gro
  pairmd: G3 BadColumns 3
  [1]
  $ with gro 3 '    1AR      AR    1   0.500   0.000' pairmd start job gro
  pairmd: G3 BadColumns 3
  [1]
  $ with gro 3 '    1AR      AR    1   0.500   0.000   0.000  0.5000  0.0000' pairmd start job gro
  pairmd: G3 BadColumns 3
  [1]
  $ with gro 3 '    1AR      AR    1   0.500   0.000   0.000   0.500   0.000   0.000' pairmd start job gro
  pairmd: G3 BadColumns 3
  [1]
  $ with gro 3 '    1AR      AR    1   0.500   0.000   0.000 ;argon' pairmd start job gro
  pairmd: G3 BadColumns 3
  [1]
  $ with gro 3 '    1AR\t     AR    1   0.500   0.000   0.000' pairmd start job gro
  pairmd: G3 BadColumns 3
  [1]
  $ with gro 3 '    1ÅR     AR    1   0.500   0.000   0.000' pairmd start job gro
  pairmd: G3 BadColumns 3
  [1]

The box.

  $ with gro 5 '2.00000 2.00000' pairmd start job gro
  pairmd: G5 BadBox 5
  [1]
  $ with gro 5 '2.000000 2.00000 2.00000' pairmd start job gro
  pairmd: G5 BadBox 5
  [1]
  $ with gro 5 '2e0 2.00000 2.00000' pairmd start job gro
  pairmd: G5 BadBox 5
  [1]
  $ with gro 5 '2 2 2 0 0 0 0 0 0 0' pairmd start job gro
  pairmd: G5 BadBox 5
  [1]
  $ with gro 5 '2.00000 2.00000 2.00000 0.10000 0.00000 0.00000 0.00000 0.00000 0.00000' pairmd start job gro
  pairmd: G6 Triclinic 5
  [1]
  $ with gro 5 '0 0.00000 -0' pairmd start job gro
  pairmd: B1 NoBox
  [1]
  $ with gro 5 '2 160.00001 2' pairmd start job gro
  pairmd: B2 SideRange
  [1]

Prefixes of a file. The last side may be cut anywhere after its first digit: a box value cut within its digits can't be
noticed.

  $ beginnings gro pairmd start job gro
  0-10: pairmd: G1 Truncated [1]
  11-14: pairmd: G2 BadCount 2 [1]
  15-129: pairmd: G1 Truncated [1]
  130: pairmd state 1
  title two atoms
  step 0
  atoms 2
  box 200000 200000 200000
      1AR      AR 1073741824 0 0 1073741824 0 0
      1AR      AR 2147483648 0 0 2147483648 0 0
  131: pairmd: G5 BadBox 5 [1]
  132-137: pairmd state 1
  title two atoms
  step 0
  atoms 2
  box 200000 200000 200000
      1AR      AR 1073741824 0 0 1073741824 0 0
      1AR      AR 2147483648 0 0 2147483648 0 0

The job is read before the GRO file, and both are read before either is checked.

  $ printf '' > empty
  $ pairmd start empty empty
  pairmd: J1 BadLine 1
  [1]
  $ pairmd start empty missing
  pairmd: O1 CannotRead missing
  [5]
  $ pairmd start lost missing
  pairmd: O1 CannotRead lost
  [5]

A truncated state has no frame.

  $ head -c 100 state > cut
  $ pairmd frame cut
  pairmd: S2 Truncated
  [1]
