# Steps by hand

Single steps forward and back of two atoms at rest in a box of 2 nm, computed by hand.

A repulsion.

  $ returns pairmd run job state --steps 1
  pairmd state 1
  title two atoms
  step 1
  atoms 2
  box 200000 200000 200000
      1AR      AR 1073741824 0 0 1073707464 0 0
      1AR      AR 2147483648 0 0 2147518008 0 0

Half a grid unit is rounded upward for both atoms.

  $ with job 2 'energy 5.82076609e-5*r' returns pairmd run job state --steps 1
  pairmd state 1
  title two atoms
  step 1
  atoms 2
  box 200000 200000 200000
      1AR      AR 1073741824 0 0 1073741825 0 0
      1AR      AR 2147483648 0 0 2147483648 0 0

A pair across the edge of the box, closer than the core.

  $ with state 6 '    1AR      AR 0 0 0 0 0 0' with state 7 '    1AR      AR 4080218931 0 0 4080218931 0 0' returns pairmd run job state --steps 1
  pairmd state 1
  title two atoms
  step 1
  atoms 2
  box 200000 200000 200000
      1AR      AR 0 0 0 214748 0 0
      1AR      AR 4080218931 0 0 4080004183 0 0

Two atoms at the same position.

  $ with state 7 '    1AR      AR 1073741824 0 0 1073741824 0 0' returns pairmd run job state --steps 1
  pairmd state 1
  title two atoms
  step 1
  atoms 2
  box 200000 200000 200000
      1AR      AR 1073741824 0 0 1073741824 0 0
      1AR      AR 1073741824 0 0 1073741824 0 0

Half a box apart, beyond the cutoff.

  $ with state 6 '    1AR      AR 0 0 0 0 0 0' returns pairmd run job state --steps 1
  pairmd state 1
  title two atoms
  step 1
  atoms 2
  box 200000 200000 200000
      1AR      AR 0 0 0 0 0 0
      1AR      AR 2147483648 0 0 2147483648 0 0

An oblique pair.

  $ with state 6 '    1AR      AR 0 0 0 0 0 0' with state 7 '    1AR      AR 644245094 858993459 0 644245094 858993459 0' returns pairmd run job state --steps 1
  pairmd state 1
  title two atoms
  step 1
  atoms 2
  box 200000 200000 200000
      1AR      AR 0 0 0 4294946680 4294939808 0
      1AR      AR 644245094 858993459 0 644265710 859020947 0

A constant energy, whose derivative is 0.

  $ with job 2 'energy -2147483647' returns pairmd run job state --steps 1
  pairmd state 1
  title two atoms
  step 1
  atoms 2
  box 200000 200000 200000
      1AR      AR 1073741824 0 0 1073741824 0 0
      1AR      AR 2147483648 0 0 2147483648 0 0

Two steps one by one and at once, and 0 steps; each the same way back.

  $ returns pairmd run job state --steps 0
  pairmd state 1
  title two atoms
  step 0
  atoms 2
  box 200000 200000 200000
      1AR      AR 1073741824 0 0 1073741824 0 0
      1AR      AR 2147483648 0 0 2147483648 0 0
  $ returns pairmd run job state --steps 1 > first
  $ cat first
  pairmd state 1
  title two atoms
  step 1
  atoms 2
  box 200000 200000 200000
      1AR      AR 1073741824 0 0 1073707464 0 0
      1AR      AR 2147483648 0 0 2147518008 0 0
  $ returns pairmd run job first --steps 1 > second
  $ cat second
  pairmd state 1
  title two atoms
  step 2
  atoms 2
  box 200000 200000 200000
      1AR      AR 1073707464 0 0 1073638749 0 0
      1AR      AR 2147518008 0 0 2147586723 0 0
  $ returns pairmd run job state --steps 2
  pairmd state 1
  title two atoms
  step 2
  atoms 2
  box 200000 200000 200000
      1AR      AR 1073707464 0 0 1073638749 0 0
      1AR      AR 2147518008 0 0 2147586723 0 0
  $ returns pairmd back job second --steps 2
  pairmd state 1
  title two atoms
  step 0
  atoms 2
  box 200000 200000 200000
      1AR      AR 1073741824 0 0 1073741824 0 0
      1AR      AR 2147483648 0 0 2147483648 0 0
  $ returns pairmd back job second --steps 1
  pairmd state 1
  title two atoms
  step 1
  atoms 2
  box 200000 200000 200000
      1AR      AR 1073741824 0 0 1073707464 0 0
      1AR      AR 2147483648 0 0 2147518008 0 0
  $ returns pairmd back job first --steps 1
  pairmd state 1
  title two atoms
  step 0
  atoms 2
  box 200000 200000 200000
      1AR      AR 1073741824 0 0 1073741824 0 0
      1AR      AR 2147483648 0 0 2147483648 0 0

A state without atoms.

  $ cat > nothing << END
  > pairmd state 1
  > title nothing
  > step 0
  > atoms 0
  > box 200000 200000 200000
  > END
  $ workers pairmd run job nothing --steps 5
  pairmd state 1
  title nothing
  step 5
  atoms 0
  box 200000 200000 200000

The derivative is a numeral. In a box of 100 nm, with steps of 1 ps, an atom of 0.01 u moves one grid unit per 2^-32
kJ/mol/nm of its force.

  $ cat > unit << END
  > pairmd job 1
  > energy 1/r
  > core 0.2
  > cutoff 50
  > dt 1000
  > type AR 0.01
  > END
  $ cat > wide << END
  > pairmd state 1
  > title two atoms
  > step 0
  > atoms 2
  > box 10000000 10000000 10000000
  >     1AR      AR 0 0 0 0 0 0
  >     1AR      AR 21474836 0 0 21474836 0 0
  > END
  $ with unit 2 'energy 1e-10*r' workers pairmd run unit wide --steps 1
  pairmd state 1
  title two atoms
  step 1
  atoms 2
  box 10000000 10000000 10000000
      1AR      AR 0 0 0 0 0 0
      1AR      AR 21474836 0 0 21474836 0 0
  $ with unit 2 'energy 2e-10*r' workers pairmd run unit wide --steps 1
  pairmd state 1
  title two atoms
  step 1
  atoms 2
  box 10000000 10000000 10000000
      1AR      AR 0 0 0 1 0 0
      1AR      AR 21474836 0 0 21474835 0 0
  $ with unit 2 'energy 3.12e-2*r' workers pairmd run unit wide --steps 1
  pairmd state 1
  title two atoms
  step 1
  atoms 2
  box 10000000 10000000 10000000
      1AR      AR 0 0 0 134002980 0 0
      1AR      AR 21474836 0 0 4182439152 0 0
  $ with unit 2 'energy 0.5*r' workers pairmd run unit wide --steps 1
  pairmd state 1
  title two atoms
  step 1
  atoms 2
  box 10000000 10000000 10000000
      1AR      AR 0 0 0 2147483648 0 0
      1AR      AR 21474836 0 0 2168958484 0 0

In a box of 160 nm, with steps of 1 fs, an atom of 1000 u moves one grid unit per 160,000,000,000 units of its force.

  $ cat > heavy << END
  > pairmd job 1
  > energy 2147483647*r
  > core 0.2
  > cutoff 80
  > dt 1
  > type AR 1000
  > END
  $ cat > widest << END
  > pairmd state 1
  > title two atoms
  > step 0
  > atoms 2
  > box 16000000 16000000 16000000
  >     1AR      AR 0 0 0 0 0 0
  >     1AR      AR 13421772 0 0 13421772 0 0
  > END
  $ workers pairmd run heavy widest --steps 1
  pairmd state 1
  title two atoms
  step 1
  atoms 2
  box 16000000 16000000 16000000
      1AR      AR 0 0 0 57646075 0 0
      1AR      AR 13421772 0 0 4250742993 0 0
