# `start` and `frame`

`start` turns a frame of a GRO file into a state, and `frame` prints a state as a GRO file.

Two atoms at rest. Their frame is the original file. In one step they move by less than half a picometre.

  $ pairmd start job gro
  pairmd state 1
  title two atoms
  step 0
  atoms 2
  box 200000 200000 200000
      1AR      AR 1073741824 0 0 1073741824 0 0
      1AR      AR 2147483648 0 0 2147483648 0 0
  $ pairmd start job gro > begun
  $ pairmd frame begun
  two atoms
      2
      1AR      AR    1   0.500   0.000   0.000
      1AR      AR    2   1.000   0.000   0.000
     2.00000   2.00000   2.00000
  $ workers pairmd run job state --steps 1 > after
  $ pairmd frame after
  two atoms
      2
      1AR      AR    1   0.500   0.000   0.000
      1AR      AR    2   1.000   0.000   0.000
     2.00000   2.00000   2.00000

One atom.

  $ cat > one << END
  > one atom
  >     1
  >     1AR      AR    1   0.500   0.000   0.000
  >    2.00000   2.00000   2.00000
  > END
  $ pairmd start job one
  pairmd state 1
  title one atom
  step 0
  atoms 1
  box 200000 200000 200000
      1AR      AR 1073741824 0 0 1073741824 0 0
  $ pairmd start job one > begun
  $ pairmd frame begun
  one atom
      1
      1AR      AR    1   0.500   0.000   0.000
     2.00000   2.00000   2.00000
  $ pairmd start job one --frame 2
  pairmd: G8 NoSuchFrame
  [1]

`--frame` selects a frame by its number, from 1.

  $ cat gro gro > twice
  $ pairmd start job twice --frame 1
  pairmd state 1
  title two atoms
  step 0
  atoms 2
  box 200000 200000 200000
      1AR      AR 1073741824 0 0 1073741824 0 0
      1AR      AR 2147483648 0 0 2147483648 0 0
  $ pairmd start job twice --frame 2
  pairmd state 1
  title two atoms
  step 0
  atoms 2
  box 200000 200000 200000
      1AR      AR 1073741824 0 0 1073741824 0 0
      1AR      AR 2147483648 0 0 2147483648 0 0
  $ pairmd start job twice --frame +2
  pairmd state 1
  title two atoms
  step 0
  atoms 2
  box 200000 200000 200000
      1AR      AR 1073741824 0 0 1073741824 0 0
      1AR      AR 2147483648 0 0 2147483648 0 0
  $ pairmd start job twice --frame 02
  pairmd state 1
  title two atoms
  step 0
  atoms 2
  box 200000 200000 200000
      1AR      AR 1073741824 0 0 1073741824 0 0
      1AR      AR 2147483648 0 0 2147483648 0 0
  $ pairmd start --frame 3 job twice
  pairmd: G8 NoSuchFrame
  [1]
  $ pairmd start --frame 18446744073709551615 job twice
  pairmd: G8 NoSuchFrame
  [1]
  $ pairmd start job twice --frame 0
  error: invalid value '0' for '--frame <k>': 0 is not in 1..18446744073709551615
  
  For more information, try '--help'.
  [2]
  $ pairmd start job twice --frame 18446744073709551616
  error: invalid value '18446744073709551616' for '--frame <k>': number too large to fit in target type
  
  For more information, try '--help'.
  [2]
  $ pairmd start job twice --frame -1
  error: unexpected argument '-1' found
  
    tip: to pass '-1' as a value, use '-- -1'
  
  Usage: pairmd start [OPTIONS] <JOB> <GRO>
  
  For more information, try '--help'.
  [2]
  $ pairmd start job twice --frame 1.0
  error: invalid value '1.0' for '--frame <k>': invalid digit found in string
  
  For more information, try '--help'.
  [2]
  $ pairmd start job twice --frame ''
  error: invalid value '' for '--frame <k>': cannot parse integer from empty string
  
  For more information, try '--help'.
  [2]
  $ with one 1 'the first' cat one > seven
  $ cat seven gro gro gro gro gro one gro > eight
  $ pairmd start job eight
  pairmd state 1
  title the first
  step 0
  atoms 1
  box 200000 200000 200000
      1AR      AR 1073741824 0 0 1073741824 0 0
  $ pairmd start job eight --frame 7
  pairmd state 1
  title one atom
  step 0
  atoms 1
  box 200000 200000 200000
      1AR      AR 1073741824 0 0 1073741824 0 0

After the last frame only spaces and line endings are allowed.

  $ printf '' > blank
  $ printf ' \r\n\n  ' > blanks
  $ printf '\n' > line
  $ cat gro blank > longer
  $ pairmd start job longer
  pairmd state 1
  title two atoms
  step 0
  atoms 2
  box 200000 200000 200000
      1AR      AR 1073741824 0 0 1073741824 0 0
      1AR      AR 2147483648 0 0 2147483648 0 0
  $ cat gro blanks > longer
  $ pairmd start job longer
  pairmd state 1
  title two atoms
  step 0
  atoms 2
  box 200000 200000 200000
      1AR      AR 1073741824 0 0 1073741824 0 0
      1AR      AR 2147483648 0 0 2147483648 0 0
  $ cat gro line > longer
  $ pairmd start job longer
  pairmd state 1
  title two atoms
  step 0
  atoms 2
  box 200000 200000 200000
      1AR      AR 1073741824 0 0 1073741824 0 0
      1AR      AR 2147483648 0 0 2147483648 0 0

Atoms with and without velocities. A velocity sets the previous position.

  $ with gro 3 '    1AR      AR    1   0.500   0.000   0.000  0.5000  0.0000  0.0000' pairmd start job gro
  pairmd state 1
  title two atoms
  step 0
  atoms 2
  box 200000 200000 200000
      1AR      AR 1071594340 0 0 1073741824 0 0
      1AR      AR 2147483648 0 0 2147483648 0 0
  $ with gro 3 '    1AR      AR    1   0.500   0.000   0.000 -0.5000  0.0000  0.0000' pairmd start job gro
  pairmd state 1
  title two atoms
  step 0
  atoms 2
  box 200000 200000 200000
      1AR      AR 1075889308 0 0 1073741824 0 0
      1AR      AR 2147483648 0 0 2147483648 0 0

Positions may be outside the box.

  $ with gro 3 '    1AR      AR    1  -0.001   0.000   0.000' pairmd start job gro
  pairmd state 1
  title two atoms
  step 0
  atoms 2
  box 200000 200000 200000
      1AR      AR 4292819812 0 0 4292819812 0 0
      1AR      AR 2147483648 0 0 2147483648 0 0
  $ with gro 3 '    1AR      AR    1   4.500  -2.000 200.000' pairmd start job gro
  pairmd state 1
  title two atoms
  step 0
  atoms 2
  box 200000 200000 200000
      1AR      AR 1073741824 0 0 1073741824 0 0
      1AR      AR 2147483648 0 0 2147483648 0 0

Fields that touch.

  $ with gro 3 '99999RESIDATOMS999999999.999-999.999-000.500' pairmd start job gro
  pairmd state 1
  title two atoms
  step 0
  atoms 2
  box 200000 200000 200000
  99999RESIDATOMS 4292819812 2147484 3221225472 4292819812 2147484 3221225472
      1AR      AR 2147483648 0 0 2147483648 0 0

A negative residue number; a residue number that has wrapped around, without an atom number; names at the other ends of
their columns; no names.

  $ with gro 3 '   -7AR      AR12345   0.000   0.000   0.000' pairmd start job gro
  pairmd state 1
  title two atoms
  step 0
  atoms 2
  box 200000 200000 200000
     -7AR      AR 0 0 0 0 0 0
      1AR      AR 2147483648 0 0 2147483648 0 0
  $ with gro 3 '    0AR      AR        0.000   0.000   0.000      ' pairmd start job gro
  pairmd state 1
  title two atoms
  step 0
  atoms 2
  box 200000 200000 200000
      0AR      AR 0 0 0 0 0 0
      1AR      AR 2147483648 0 0 2147483648 0 0
  $ with gro 3 '00001   ARAR   what?   0.000   0.000   0.000' pairmd start job gro
  pairmd state 1
  title two atoms
  step 0
  atoms 2
  box 200000 200000 200000
      1AR      AR 0 0 0 0 0 0
      1AR      AR 2147483648 0 0 2147483648 0 0
  $ with gro 3 '    1              1   0.000   0.000   0.000' pairmd start job gro
  pairmd state 1
  title two atoms
  step 0
  atoms 2
  box 200000 200000 200000
      1           0 0 0 0 0 0
      1AR      AR 2147483648 0 0 2147483648 0 0

A water molecule near a corner, in a file with CR LF.

  $ printf 'water\r\n 1\r\n    1SOL     OW    1  -0.001   0.000   0.000\r\n   1.86206   1.86206   1.86206\r\n' > water
  $ pairmd start job water
  pairmd state 1
  title water
  step 0
  atoms 1
  box 186206 186206 186206
      1SOL     OW 4292660728 0 0 4292660728 0 0
  $ pairmd start job water > begun
  $ pairmd frame begun
  water
      1
      1SOL     OW    1   1.861   0.000   0.000
     1.86206   1.86206   1.86206

Two waters of a solvated box, with a title by `gmx trjconv`, velocities, and a box of nine values. In the frame each
atom is inside the box and has no velocity. The state of this frame has the same frame.

  $ cat > solvated << END
  > Wasser — H₂O t=   0.00000 step= 0
  >     6
  >     1SOL     OW    1   0.230   0.628   0.113  0.1518 -0.1221  0.5250
  >     1SOL    HW1    2   0.137   0.626   0.150  0.4000 -0.0331  1.1501
  >     1SOL    HW2    3   0.231   0.589   0.021  0.6210 -0.7110  0.7720
  >     2SOL     OW    4   0.225   0.275  -0.866  0.0000  0.0000  0.0000
  >     2SOL    HW1    5   0.260   0.258  -0.774  0.0000  0.0000  0.0000
  >     2SOL    HW2    6   0.137   0.230  -0.878  0.0000  0.0000  0.0000
  >    1.86206   1.86206   1.86206   0.00000   0.00000   0.00000   0.00000  -0.00000   0.00000
  > END
  $ pairmd start job solvated > begun
  $ pairmd frame begun
  Wasser — H₂O t=   0.00000 step= 0
      6
      1SOL     OW    1   0.230   0.628   0.113
      1SOL    HW1    2   0.137   0.626   0.150
      1SOL    HW2    3   0.231   0.589   0.021
      2SOL     OW    4   0.225   0.275   0.996
      2SOL    HW1    5   0.260   0.258   1.088
      2SOL    HW2    6   0.137   0.230   0.984
     1.86206   1.86206   1.86206
  $ pairmd frame begun > framed
  $ pairmd start job framed > again
  $ pairmd frame again > same
  $ cmp framed same
