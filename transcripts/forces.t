# Forces and displacements after one step

## Forces

The force has the magnitude of the derivative and acts along the line between the atoms. Atoms that repel each other
move apart, in either order of their lines.

  $ pairmd run job state --steps 1
  pairmd state 1
  title two atoms
  step 1
  atoms 2
  box 200000 200000 200000
      1AR      AR 1073741824 0 0 1073707464 0 0
      1AR      AR 2147483648 0 0 2147518008 0 0
  $ with state 6 '    1AR      AR 2147483648 0 0 2147483648 0 0' with state 7 '    1AR      AR 1073741824 0 0 1073741824 0 0' pairmd run job state --steps 1
  pairmd state 1
  title two atoms
  step 1
  atoms 2
  box 200000 200000 200000
      1AR      AR 2147483648 0 0 2147518008 0 0
      1AR      AR 1073741824 0 0 1073707464 0 0

Across the edge of the box at 0.1 nm, the force is the force at the core. At the same position and beyond the cutoff the
force is 0.

  $ with state 6 '    1AR      AR 0 0 0 0 0 0' with state 7 '    1AR      AR 4080218931 0 0 4080218931 0 0' pairmd run job state --steps 1
  pairmd state 1
  title two atoms
  step 1
  atoms 2
  box 200000 200000 200000
      1AR      AR 0 0 0 214748 0 0
      1AR      AR 4080218931 0 0 4080004183 0 0
  $ with state 7 '    1AR      AR 1073741824 0 0 1073741824 0 0' pairmd run job state --steps 1
  pairmd state 1
  title two atoms
  step 1
  atoms 2
  box 200000 200000 200000
      1AR      AR 1073741824 0 0 1073741824 0 0
      1AR      AR 1073741824 0 0 1073741824 0 0
  $ with state 6 '    1AR      AR 0 0 0 0 0 0' pairmd run job state --steps 1
  pairmd state 1
  title two atoms
  step 1
  atoms 2
  box 200000 200000 200000
      1AR      AR 0 0 0 0 0 0
      1AR      AR 2147483648 0 0 2147483648 0 0

Each component of the force on the first atom is rounded down, and the second atom gets its negative. With the
derivative -17179869201 the components are -10307921519 and -13743895363.

  $ with state 6 '    1AR      AR 0 0 0 0 0 0' with state 7 '    1AR      AR 644245094 858993459 0 644245094 858993459 0' pairmd run job state --steps 1
  pairmd state 1
  title two atoms
  step 1
  atoms 2
  box 200000 200000 200000
      1AR      AR 0 0 0 4294946680 4294939808 0
      1AR      AR 644245094 858993459 0 644265710 859020947 0

With masses of 0.00005 u, steps of 10 fs and a side of 2 nm, an atom moves by one grid unit per 2^-32 kJ/mol/nm of
force. Grid coordinates are periodic, so the step shows these forces exactly, modulo 2^32.

  $ cat > units << END
  > pairmd job 1
  > energy 1/r
  > core 0.2
  > cutoff 0.9
  > dt 10
  > type AR 0.00005
  > END
  $ with state 6 '    1AR      AR 0 0 0 0 0 0' with state 7 '    1AR      AR 644245094 858993459 0 644245094 858993459 0' pairmd run units state --steps 1
  pairmd state 1
  title two atoms
  step 1
  atoms 2
  box 200000 200000 200000
      1AR      AR 0 0 0 2576980369 3435973821 0
      1AR      AR 644245094 858993459 0 2362232021 1717986934 0
  $ with state 6 '    1AR      AR 644245094 858993459 0 644245094 858993459 0' with state 7 '    1AR      AR 0 0 0 0 0 0' pairmd run units state --steps 1
  pairmd state 1
  title two atoms
  step 1
  atoms 2
  box 200000 200000 200000
      1AR      AR 644245094 858993459 0 2362232020 1717986933 0
      1AR      AR 0 0 0 2576980370 3435973822 0
  $ with state 6 '    1AR      AR 0 0 0 0 0 0' with state 7 '    1AR      AR 4080218931 0 0 4080218931 0 0' pairmd run units state --steps 1
  pairmd state 1
  title two atoms
  step 1
  atoms 2
  box 200000 200000 200000
      1AR      AR 0 0 0 526 0 0
      1AR      AR 4080218931 0 0 4080218405 0 0

## Printed forces

`forces` prints the same forces as integers in units of 2^-32 kJ/mol/nm, one line per atom. The second atom's force is
the negative of the first atom's force.

  $ pairmd forces job state
      1AR      AR -17179869184 0 0
      1AR      AR 17179869184 0 0
  $ with state 6 '    1AR      AR 0 0 0 0 0 0' with state 7 '    1AR      AR 644245094 858993459 0 644245094 858993459 0' pairmd forces job state
      1AR      AR -10307921519 -13743895363 0
      1AR      AR 10307921519 13743895363 0
  $ with state 6 '    1AR      AR 644245094 858993459 0 644245094 858993459 0' with state 7 '    1AR      AR 0 0 0 0 0 0' pairmd forces job state
      1AR      AR 10307921518 13743895362 0
      1AR      AR -10307921518 -13743895362 0
  $ with state 6 '    1AR      AR 0 0 0 0 0 0' with state 7 '    1AR      AR 4080218931 0 0 4080218931 0 0' pairmd forces job state
      1AR      AR 107374182926 0 0
      1AR      AR -107374182926 0 0

The forces depend only on the current frame, not on the previous frame. At the same position and beyond the cutoff they
are 0.

  $ with state 6 '    1AR      AR 7 7 7 1073741824 0 0' pairmd forces job state
      1AR      AR -17179869184 0 0
      1AR      AR 17179869184 0 0
  $ with state 7 '    1AR      AR 1073741824 0 0 1073741824 0 0' pairmd forces job state
      1AR      AR 0 0 0
      1AR      AR 0 0 0
  $ with state 6 '    1AR      AR 0 0 0 0 0 0' pairmd forces job state
      1AR      AR 0 0 0
      1AR      AR 0 0 0

An atom between two others on a line has the sum of both forces. Residues and names come from the state. A single atom
has no force, and a state without atoms prints no line.

  $ cat > line << END
  > pairmd state 1
  > title line
  > step 7
  > atoms 3
  > box 200000 200000 200000
  >   -12ARGON   AR 0 0 0 0 0 0
  > 99999A        B 1073741824 0 0 1073741824 0 0
  >     1        AR 2147483648 0 0 2147483648 0 0
  > END
  $ with job 7 'type AR 1\ntype B 2' pairmd forces job line
    -12ARGON   AR -17179869184 0 0
  99999A        B 0 0 0
      1        AR 17179869184 0 0
  $ cat > point << END
  > pairmd state 1
  > title point
  > step 0
  > atoms 1
  > box 200000 200000 200000
  >     1AR      AR 0 0 0 0 0 0
  > END
  $ pairmd forces job point
      1AR      AR 0 0 0
  $ cat > nothing << END
  > pairmd state 1
  > title nothing
  > step 5
  > atoms 0
  > box 200000 200000 200000
  > END
  $ pairmd forces job nothing

With other fraction bits the unit is 2^-24 or 2^-40 kJ/mol/nm.

  $ with job 6 'bits 24' pairmd start job gro > begun
  $ with job 6 'bits 24' pairmd forces job begun
      1AR      AR -67108864 0 0
      1AR      AR 67108864 0 0
  $ with job 6 'bits 40' pairmd start job gro > finer
  $ with job 6 'bits 40' pairmd forces job finer
      1AR      AR -4398046511104 0 0
      1AR      AR 4398046511104 0 0

`forces` rejects every job and state that `run` rejects, except for the number of steps.

  $ with job 4 'cutoff 1.5' pairmd forces job state
  pairmd: A2 CutoffTooLong
  [1]
  $ with job 2 'energy 1/(r-0.2)' pairmd forces job state
  pairmd: V2 Fault AR AR r 858993459 pc 12 F2 ZeroDivisor
  [3]
  $ with job 6 'bits 24' pairmd forces job state
  pairmd: A6 BitsDiffer
  [1]
  $ with state 3 'step 9223372036854775807' pairmd forces job state
      1AR      AR -17179869184 0 0
      1AR      AR 17179869184 0 0
  $ pairmd forces job later
  pairmd: O1 CannotRead later
  [5]
  $ outputs pairmd forces job point
  0-21: a beginning, pairmd: O2 CannotWrite [5]
  22: all
  $ requests pairmd forces job state
  pairmd: Memory [4]
  all

## Displacements

A displacement is rounded to the nearest grid unit, a half upward: 0.5 to 1 and -0.5 to 0, 1.5 to 2 and -1.5 to -1. Grid
coordinates wrap around, so 2^32 - 1 comes below 0.

  $ with job 2 'energy 5.82076609e-5*r' pairmd run job state --steps 1
  pairmd state 1
  title two atoms
  step 1
  atoms 2
  box 200000 200000 200000
      1AR      AR 1073741824 0 0 1073741825 0 0
      1AR      AR 2147483648 0 0 2147483648 0 0
  $ with job 2 'energy 1.746229827e-4*r' pairmd run job state --steps 1
  pairmd state 1
  title two atoms
  step 1
  atoms 2
  box 200000 200000 200000
      1AR      AR 1073741824 0 0 1073741826 0 0
      1AR      AR 2147483648 0 0 2147483647 0 0
  $ with job 2 'energy 1.746229827e-4*r' with state 6 '    1AR      AR 3221225472 0 0 3221225472 0 0' with state 7 '    1AR      AR 0 0 0 0 0 0' pairmd run job state --steps 1
  pairmd state 1
  title two atoms
  step 1
  atoms 2
  box 200000 200000 200000
      1AR      AR 3221225472 0 0 3221225474 0 0
      1AR      AR 0 0 0 4294967295 0 0
