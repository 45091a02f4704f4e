# States that `start` makes, and frames of states

The velocity of an oxygen sets its previous position, one time step of 2 fs earlier.

  $ cat > oxygen << END
  > water
  >     1
  >     7SOL     OW    1   0.500   0.000   0.000  0.5000  0.0000  0.0000
  > 2.00000 2.00000 2.00000
  > END
  $ pairmd start job oxygen
  pairmd state 1
  title water
  step 0
  atoms 1
  box 200000 200000 200000
      7SOL     OW 1071594340 0 0 1073741824 0 0
  $ with oxygen 3 '    7SOL     OW    1   0.500   0.000   0.000 -0.5000  0.0000  0.0000' pairmd start job oxygen
  pairmd state 1
  title water
  step 0
  atoms 1
  box 200000 200000 200000
      7SOL     OW 1075889308 0 0 1073741824 0 0
  $ with oxygen 3 '    7SOL     OW    1   0.500   0.000   0.000  0.0000  0.5000 -0.5000' pairmd start job oxygen
  pairmd state 1
  title water
  step 0
  atoms 1
  box 200000 200000 200000
      7SOL     OW 1073741824 4292819812 2147484 1073741824 0 0

Positions outside the box are mapped into it periodically. Sides may differ.

  $ with oxygen 3 '    7SOL     OW    1  -0.001   0.000   0.000  0.0000  0.0000  0.0000' with oxygen 4 '1.86206 1.86206 1.86206' pairmd start job oxygen
  pairmd state 1
  title water
  step 0
  atoms 1
  box 186206 186206 186206
      7SOL     OW 4292660728 0 0 4292660728 0 0
  $ with oxygen 3 '    7SOL     OW    1   2.500  -1.000   1.000  0.0000  0.0000  0.0000' with oxygen 4 '2.00000 4.00000 1.00000' pairmd start job oxygen
  pairmd state 1
  title water
  step 0
  atoms 1
  box 200000 400000 100000
      7SOL     OW 1073741824 3221225472 0 1073741824 3221225472 0

`start` needs a box with sides from 0.00001 to 160 nm. The longest time step is 1000 fs.

  $ with job 5 'dt 1000' with oxygen 3 '    7SOL     OW    1   0.000   0.000   0.000  0.0000  0.0000  0.0000' with oxygen 4 '0.00000 0.00000 0.00000' pairmd start job oxygen
  pairmd: B1 NoBox
  [1]
  $ with job 5 'dt 1000' with oxygen 3 '    7SOL     OW    1   0.000   0.000   0.000  0.0000  0.0000  0.0000' with oxygen 4 '0.00000 0.00001 0.00001' pairmd start job oxygen
  pairmd: B2 SideRange
  [1]
  $ with job 5 'dt 1000' with oxygen 3 '    7SOL     OW    1   0.000   0.000   0.000  0.0000  0.0000  0.0000' with oxygen 4 '0.00001 0.00001 160.00001' pairmd start job oxygen
  pairmd: B2 SideRange
  [1]
  $ with job 5 'dt 1000' with oxygen 3 '    7SOL     OW    1   0.000   0.000   0.000  0.0000  0.0000  0.0000' with oxygen 4 '0.00001 -0.00001 0.00001' pairmd start job oxygen
  pairmd: B2 SideRange
  [1]
  $ with job 5 'dt 1000' with oxygen 3 '    7SOL     OW    1   0.000   0.000   0.000  0.0000  0.0000  0.0000' with oxygen 4 '0.00001 160.00000 0.00001' pairmd start job oxygen
  pairmd state 1
  title water
  step 0
  atoms 1
  box 1 16000000 1
      7SOL     OW 0 0 0 0 0 0
  $ with job 5 'dt 1000' with oxygen 3 '    7SOL     OW    1   0.001 159.999  -0.001  0.0001-99.9999999.9999' with oxygen 4 '0.00001 160.00000 0.00001' pairmd start job oxygen
  pairmd state 1
  title water
  step 0
  atoms 1
  box 1 16000000 1
      7SOL     OW 0 2684325032 0 0 4294940452 0

`frame` prints the picometre nearest to each grid coordinate, a half upward, so a position may equal the side. Previous
positions aren't shown.

  $ cat > stepped << END
  > pairmd state 1
  > title two atoms
  > step 1
  > atoms 2
  > box 200000 200000 100
  >     1AR      AR 1073741824 0 0 1073707464 0 2147483648
  >     2SOL     OW 2147483648 0 0 2147518008 4294967295 2147483647
  > END
  $ pairmd frame stepped
  two atoms
      2
      1AR      AR    1   0.500   0.000   0.001
      2SOL     OW    2   1.000   2.000   0.000
     2.00000   2.00000   0.00100
  $ pairmd run job state --steps 1 > after
  $ pairmd frame after > again
  $ cmp again gro

A frame lies in its box, even if it began outside.

  $ with oxygen 3 '    7SOL     OW    1  -0.001   0.000   1.862  0.0000  0.0000  0.0000' with oxygen 4 '1.86206 1.86206 1.86206' pairmd start job oxygen > start
  $ cat start
  pairmd state 1
  title water
  step 0
  atoms 1
  box 186206 186206 186206
      7SOL     OW 4292660728 0 4294828902 4292660728 0 4294828902
  $ pairmd frame start
  water
      1
      7SOL     OW    1   1.861   0.000   1.862
     1.86206   1.86206   1.86206

Both commands if the output fails, and if an allocation fails.

  $ with oxygen 3 '    7SOL     OW    1  -0.001   0.000   1.862  0.0000  0.0000  0.0000' with oxygen 4 '1.86206 1.86206 1.86206' outputs pairmd start job oxygen
  0-130: a beginning, pairmd: O2 CannotWrite [5]
  131: all
  $ outputs pairmd frame start
  0-87: a beginning, pairmd: O2 CannotWrite [5]
  88: all
  $ requests pairmd start job oxygen
  pairmd: Memory [4]
  all
  $ requests pairmd frame start
  pairmd: Memory [4]
  all
