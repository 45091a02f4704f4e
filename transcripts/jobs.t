# Jobs that are accepted, and their meaning

The stored job. Both atoms have the same position and the energy is the distance, so `energy` prints the core.

  $ with job 2 'energy r' with state 7 '    1AR      AR 1073741824 0 0 1073741824 0 0' pairmd energy job state
  energy 858993459

Code that returns the distance has the last distance below the cutoff as its bound. In code that subtracts the distance
from itself, each operand covers the whole slice. Its bound is therefore one less than the width of the widest slice.

  $ listing 'input 0' pairmd check job --code listing
  accepted: steps 1, bound 3865470565
  $ listing 'input 0, input 0, sub' pairmd check job --code listing
  accepted: steps 3, bound 46976204

A job has 64 slices unless it has a line `slices`.

  $ with job 6 '' listing 'input 0, input 0, sub' pairmd check job --code listing
  accepted: steps 3, bound 46976204
  $ with job 6 'slices 1' listing 'input 0, input 0, sub' pairmd check job --code listing
  accepted: steps 3, bound 3006477106
  $ with job 6 'slices 01000' listing 'input 0, input 0, sub' pairmd check job --code listing
  accepted: steps 3, bound 3006477

A velocity of 0.5 nm/ps sets the previous position, one time step of 1 to 1000 fs earlier.

  $ with gro 3 '    1AR      AR    1   0.500   0.000   0.000  0.5000  0.0000  0.0000' pairmd start job gro
  pairmd state 1
  title two atoms
  step 0
  atoms 2
  box 200000 200000 200000
      1AR      AR 1071594340 0 0 1073741824 0 0
      1AR      AR 2147483648 0 0 2147483648 0 0
  $ with job 5 'dt 1' with gro 3 '    1AR      AR    1   0.500   0.000   0.000  0.5000  0.0000  0.0000' pairmd start job gro
  pairmd state 1
  title two atoms
  step 0
  atoms 2
  box 200000 200000 200000
      1AR      AR 1072668082 0 0 1073741824 0 0
      1AR      AR 2147483648 0 0 2147483648 0 0
  $ with job 5 'dt 1000' with gro 3 '    1AR      AR    1   0.500   0.000   0.000  0.5000  0.0000  0.0000' pairmd start job gro
  pairmd state 1
  title two atoms
  step 0
  atoms 2
  box 200000 200000 200000
      1AR      AR 0 0 0 1073741824 0 0
      1AR      AR 2147483648 0 0 2147483648 0 0

A heavier atom moves less in one step. Masses are from 0.00001 to 1000 u.

  $ pairmd run job state --steps 1
  pairmd state 1
  title two atoms
  step 1
  atoms 2
  box 200000 200000 200000
      1AR      AR 1073741824 0 0 1073707464 0 0
      1AR      AR 2147483648 0 0 2147518008 0 0
  $ with job 7 'type AR 001.00000' pairmd run job state --steps 1
  pairmd state 1
  title two atoms
  step 1
  atoms 2
  box 200000 200000 200000
      1AR      AR 1073741824 0 0 1073707464 0 0
      1AR      AR 2147483648 0 0 2147518008 0 0
  $ with job 7 'type AR 39.948' pairmd run job state --steps 1
  pairmd state 1
  title two atoms
  step 1
  atoms 2
  box 200000 200000 200000
      1AR      AR 1073741824 0 0 1073740964 0 0
      1AR      AR 2147483648 0 0 2147484508 0 0
  $ with job 7 'type AR 1000' pairmd run job state --steps 1
  pairmd state 1
  title two atoms
  step 1
  atoms 2
  box 200000 200000 200000
      1AR      AR 1073741824 0 0 1073741790 0 0
      1AR      AR 2147483648 0 0 2147483682 0 0
  $ with job 7 'type AR 1000.00000' pairmd run job state --steps 1
  pairmd state 1
  title two atoms
  step 1
  atoms 2
  box 200000 200000 200000
      1AR      AR 1073741824 0 0 1073741790 0 0
      1AR      AR 2147483648 0 0 2147483682 0 0
  $ with job 7 'type AR 0.00001' pairmd run job state --steps 1
  pairmd state 1
  title two atoms
  step 1
  atoms 2
  box 200000 200000 200000
      1AR      AR 1073741824 0 0 1932735283 0 0
      1AR      AR 2147483648 0 0 1288490189 0 0

Lines may come in any order, end in LF or CR LF, and have blanks around their words. Blank lines and comments are
skipped, and a comment may contain any bytes. The last line may lack its LF. The cutoff is rounded to 80 nm.

  $ printf 'pairmd job 1\r\n# \xff a comment\r\n\r\n \t \n\ttype\t#  1000 \r\ndt 0001000\r\ncutoff 80.0000000001\n  core 0\nenergy\t  1/r ; a=\r1 \t\r\nslices 65536' > forms
  $ listing 'input 0, input 0, sub' pairmd check forms --code listing
  accepted: steps 3, bound 5242879
  $ with forms 10 'slices 1' listing 'input 0' pairmd check forms --code listing
  accepted: steps 1, bound 343597383679
  $ pairmd check forms
  pairmd: V2 Fault # # r 0 pc 8 F2 ZeroDivisor
  [3]
  $ with gro 3 '    1AR      AR    1   0.500   0.000   0.000  0.0001  0.0000  0.0000' pairmd start forms gro
  pairmd state 1
  title two atoms
  step 0
  atoms 2
  box 200000 200000 200000
      1AR      AR 1073527076 0 0 1073741824 0 0
      1AR      AR 2147483648 0 0 2147483648 0 0

Two atoms of the type `#` of this job attract each other with 1 kJ/mol/nm in a box of 160 nm.

  $ sed '9c energy r' forms > pull
  $ sed '10c slices 1' pull > pull
  $ cat > far << END
  > pairmd state 1
  > title far
  > step 0
  > atoms 2
  > box 16000000 16000000 16000000
  >     1AR       # 0 0 0 0 0 0
  >     1AR       # 13421773 0 0 13421773 0 0
  > END
  $ pairmd run pull far --steps 1
  pairmd state 1
  title far
  step 1
  atoms 2
  box 16000000 16000000 16000000
      1AR       # 0 0 0 26844 0 0
      1AR       # 13421773 0 0 13394929 0 0

The text of an energy runs from the first non-blank byte to the end of its line, without one CR at the end. The byte
offsets in these errors show the bytes that the text contains.

  $ with job 2 'energy\t  1/r ; a=\r1 \t)\r' pairmd check job
  pairmd: E03 UnexpectedToken 12
  [3]
  $ with job 2 'energy \t1+ \t' pairmd check job
  pairmd: E03 UnexpectedToken 4
  [3]
  $ with job 2 'energy 1+ \t\r' pairmd check job
  pairmd: E03 UnexpectedToken 4
  [3]
  $ with job 2 'energy 1+ \r\r' pairmd check job
  pairmd: E03 UnexpectedToken 4
  [3]

Parameters, globals and two types. The energy of the pair shows the value of each.

  $ cat > mixed << END
  > pairmd job 1
  > type AR 39.948 0.34 -0.5
  > parameter sigma
  > global k -0
  > energy r
  > global _2 1e-9
  > cutoff 1
  > parameter epsilon
  > core .5
  > dt 1
  > type X 0.00001 1 2.
  > END
  $ sed '7c     1X        X 1610612736 0 0 1610612736 0 0' state > pair
  $ pairmd check mixed
  accepted: steps 1, bound 4294967296
  $ pairmd energy mixed pair
  energy 2147483648
  $ with mixed 5 'energy k' pairmd energy mixed pair
  energy 0
  $ with mixed 5 'energy _2' pairmd energy mixed pair
  energy 4
  $ with mixed 5 'energy sigma1' pairmd energy mixed pair
  energy 1460288881
  $ with mixed 5 'energy sigma2' pairmd energy mixed pair
  energy 4294967296
  $ with mixed 5 'energy epsilon1' pairmd energy mixed pair
  energy -2147483648
  $ with mixed 5 'energy epsilon2' pairmd energy mixed pair
  energy 8589934592
  $ listing 'input 0, input 0, sub' pairmd check mixed --code listing
  accepted: steps 3, bound 33554431
  $ listing 'input 0' pairmd check mixed --code listing
  accepted: steps 1, bound 4294967295

Atoms move according to their own masses. The step is 1 fs and the energy 1/r; the distance 0.25 nm is below the core,
so the derivative is the derivative at the core.

  $ with mixed 5 'energy 1/r' pairmd run mixed pair --steps 1
  pairmd state 1
  title two atoms
  step 1
  atoms 2
  box 200000 200000 200000
      1AR      AR 1073741824 0 0 1073741609 0 0
      1X        X 1610612736 0 0 2469606195 0 0

A global may have the lowest possible value and the name of a parameter. A value may be 2^-32, or round to 0.

  $ with job 2 'energy g' with job 6 'global g -2147483647' pairmd energy job state
  energy -9223372032559808512
  $ with job 2 'energy g' with job 6 'global g 2e-10' pairmd energy job state
  energy 1
  $ with job 2 'energy g' with job 6 'global g -1e-10' pairmd energy job state
  energy 0
  $ with job 6 'global g -2147483647' with job 7 'parameter g' pairmd check job
  accepted: steps 9, bound 0

A type's name is the whole name of its atoms, from 1 to 5 bytes.

  $ with job 7 'type A 1' pairmd run job state --steps 0
  pairmd: A1 UnknownType 1
  [1]
  $ with job 7 'type ARX 1' pairmd run job state --steps 0
  pairmd: A1 UnknownType 1
  [1]
  $ with state 7 '    1AR      Ar 2147483648 0 0 2147483648 0 0' pairmd run job state --steps 0
  pairmd: A1 UnknownType 2
  [1]
  $ with job 7 'type ABCDE 1' pairmd check job
  accepted: steps 9, bound 107374182926

Names of parameters and globals.

  $ with job 7 'parameter _' pairmd check job
  accepted: steps 9, bound 0
  $ with job 7 'parameter sigma1' pairmd check job
  accepted: steps 9, bound 0
  $ with job 7 'parameter C6_ab' pairmd check job
  accepted: steps 9, bound 0
  $ with job 7 'parameter Z9' pairmd check job
  accepted: steps 9, bound 0
  $ with job 7 'parameter r' pairmd check job
  accepted: steps 9, bound 0
  $ with job 2 'energy _' with job 6 'global _ 1' pairmd energy job state
  energy 4294967296
  $ with job 2 'energy sigma1' with job 6 'global sigma1 1' pairmd energy job state
  energy 4294967296
  $ with job 2 'energy C6_ab' with job 6 'global C6_ab 1' pairmd energy job state
  energy 4294967296
  $ with job 2 'energy Z9' with job 6 'global Z9 1' pairmd energy job state
  energy 4294967296

The greatest numbers of parameters, globals and types.

  $ printf 'parameter a\nparameter b\nparameter c\nparameter d\nparameter e\nparameter f\nparameter g\nparameter h\n' > eight
  $ cat job eight > full
  $ with full 7 'type AR 1 1 2 3 4 5 6 7 8' with full 2 'energy h2' pairmd energy full state
  energy 34359738368
  $ printf 'global a 1\nglobal b 2\nglobal c 3\nglobal d 4\nglobal e 5\nglobal f 6\nglobal g 7\nglobal h 8\n' > lower
  $ printf 'global A 1\nglobal B 2\nglobal C 3\nglobal D 4\nglobal E 5\nglobal F 6\nglobal G 7\nglobal H 9\n' > upper
  $ cat job lower upper > full
  $ with full 2 'energy H' pairmd energy full state
  energy 38654705664
  $ printf 'type A0 1\ntype A1 1\ntype A2 1\ntype A3 1\ntype A4 1\ntype A5 1\ntype A6 1\ntype AR 1\n' > typesA
  $ printf 'type B0 1\ntype B1 1\ntype B2 1\ntype B3 1\ntype B4 1\ntype B5 1\ntype B6 1\ntype B7 1\n' > typesB
  $ printf 'type C0 1\ntype C1 1\ntype C2 1\ntype C3 1\ntype C4 1\ntype C5 1\ntype C6 1\ntype C7 1\n' > typesC
  $ printf 'type D0 1\ntype D1 1\ntype D2 1\ntype D3 1\ntype D4 1\ntype D5 1\ntype D6 1\ntype D7 1\n' > typesD
  $ printf 'type E0 1\ntype E1 1\ntype E2 1\ntype E3 1\ntype E4 1\ntype E5 1\ntype E6 1\ntype E7 1\n' > typesE
  $ printf 'type F0 1\ntype F1 1\ntype F2 1\ntype F3 1\ntype F4 1\ntype F5 1\ntype F6 1\ntype F7 1\n' > typesF
  $ printf 'type G0 1\ntype G1 1\ntype G2 1\ntype G3 1\ntype G4 1\ntype G5 1\ntype G6 1\ntype G7 1\n' > typesG
  $ printf 'type H0 1\ntype H1 1\ntype H2 1\ntype H3 1\ntype H4 1\ntype H5 1\ntype H6 1\ntype H7 1\n' > typesH
  $ cat typesA typesB typesC typesD typesE typesF typesG typesH > types
  $ sed '7d' job > none
  $ cat none types > full
  $ with full 6 'slices 1' pairmd check full
  accepted: steps 9, bound 107374182926
  $ with full 6 'slices 1' pairmd energy full state
  energy 8589934592
  $ pairmd check none
  accepted: steps 9, bound 0

If an allocation fails, the only output is the error.

  $ requests pairmd check job
  pairmd: Memory [4]
  all
  $ requests pairmd start mixed gro
  pairmd: Memory [4]
  all

## Lines in runs

A comment begins in the first column of its line. With a blank before the `#`, the line is malformed.

  $ with job 6 '#x' returns pairmd run job state --steps 1
  pairmd state 1
  title two atoms
  step 1
  atoms 2
  box 200000 200000 200000
      1AR      AR 1073741824 0 0 1073707464 0 0
      1AR      AR 2147483648 0 0 2147518008 0 0
  $ with job 6 ' # x' pairmd run job state --steps 1
  pairmd: J1 BadLine 6
  [1]
  $ with job 6 'slices 0' pairmd run job state --steps 1
  pairmd: J4 Range slices
  [1]
  $ with job 7 'type AR 1.' pairmd run job state --steps 1
  pairmd: J1 BadLine 7
  [1]

A negative global and a negative parameter. The derivative is -2, so each atom moves by 2 * 40000 / 20000000000 of 2^32
grid units, which are 17179.87.

  $ with job 2 'energy g*r' with job 6 'global g -2' returns pairmd run job state --steps 1
  pairmd state 1
  title two atoms
  step 1
  atoms 2
  box 200000 200000 200000
      1AR      AR 1073741824 0 0 1073724644 0 0
      1AR      AR 2147483648 0 0 2147500828 0 0
  $ with job 2 'energy p1*r' with job 6 'parameter p' with job 7 'type AR 1 -2' returns pairmd run job state --steps 1
  pairmd state 1
  title two atoms
  step 1
  atoms 2
  box 200000 200000 200000
      1AR      AR 1073741824 0 0 1073724644 0 0
      1AR      AR 2147483648 0 0 2147500828 0 0
