# Pairs at the limits of their range, and jobs of the greatest size, in runs

A pair interacts if it is closer than the cutoff; below the core, the distance is raised to the core. With masses of
0.00005 u, steps of 10 fs and a side of 2 nm, an atom moves one grid unit per 2^-32 kJ/mol/nm of force. Grid coordinates
are periodic. A grid unit is 2^-31 nm.

## At the cutoff

The cutoff is 3865470566 units of 2^-32 nm. A pair 1932735283 grid units apart is at the cutoff and doesn't interact.
One grid unit closer, it interacts.

  $ cat > pairs << END
  > pairmd job 1
  > energy 1/r
  > core 0.2
  > cutoff 0.9
  > dt 10
  > bits 32
  > type A 0.00005
  > END
  $ cat > pair << END
  > pairmd state 1
  > title a pair
  > step 0
  > atoms 2
  > box 200000 200000 200000
  >     1A        A 0 0 0 0 0 0
  >     2A        A 0 0 0 0 0 0
  > END
  $ with pair 7 '    2A        A 1932735283 0 0 1932735283 0 0' returns pairmd run pairs pair --steps 1
  pairmd state 1
  title a pair
  step 1
  atoms 2
  box 200000 200000 200000
      1A        A 0 0 0 0 0 0
      2A        A 1932735283 0 0 1932735283 0 0
  $ with pair 7 '    2A        A 1932735282 0 0 1932735282 0 0' returns pairmd run pairs pair --steps 1
  pairmd state 1
  title a pair
  step 1
  atoms 2
  box 200000 200000 200000
      1A        A 0 0 0 3287505824 0 0
      2A        A 1932735282 0 0 2940196754 0 0
  $ with pair 7 '    2A        A 1932735284 0 0 1932735284 0 0' returns pairmd run pairs pair --steps 1
  pairmd state 1
  title a pair
  step 1
  atoms 2
  box 200000 200000 200000
      1A        A 0 0 0 0 0 0
      2A        A 1932735284 0 0 1932735284 0 0

The same pairs across the edge of the box, and along the other sides.

  $ with pair 7 '    2A        A 2362232013 0 0 2362232013 0 0' returns pairmd run pairs pair --steps 1
  pairmd state 1
  title a pair
  step 1
  atoms 2
  box 200000 200000 200000
      1A        A 0 0 0 0 0 0
      2A        A 2362232013 0 0 2362232013 0 0
  $ with pair 7 '    2A        A 2362232014 0 0 2362232014 0 0' returns pairmd run pairs pair --steps 1
  pairmd state 1
  title a pair
  step 1
  atoms 2
  box 200000 200000 200000
      1A        A 0 0 0 1007461472 0 0
      2A        A 2362232014 0 0 1354770542 0 0
  $ with pair 7 '    2A        A 0 1932735283 0 0 1932735283 0' returns pairmd run pairs pair --steps 1
  pairmd state 1
  title a pair
  step 1
  atoms 2
  box 200000 200000 200000
      1A        A 0 0 0 0 0 0
      2A        A 0 1932735283 0 0 1932735283 0
  $ with pair 7 '    2A        A 0 1932735282 0 0 1932735282 0' returns pairmd run pairs pair --steps 1
  pairmd state 1
  title a pair
  step 1
  atoms 2
  box 200000 200000 200000
      1A        A 0 0 0 0 3287505824 0
      2A        A 0 1932735282 0 0 2940196754 0
  $ with pair 7 '    2A        A 0 0 2362232013 0 0 2362232013' returns pairmd run pairs pair --steps 1
  pairmd state 1
  title a pair
  step 1
  atoms 2
  box 200000 200000 200000
      1A        A 0 0 0 0 0 0
      2A        A 0 0 2362232013 0 0 2362232013
  $ with pair 7 '    2A        A 0 0 2362232014 0 0 2362232014' returns pairmd run pairs pair --steps 1
  pairmd state 1
  title a pair
  step 1
  atoms 2
  box 200000 200000 200000
      1A        A 0 0 0 0 0 1007461472
      2A        A 0 0 2362232014 0 0 1354770542

A cutoff of 3865470567 is one unit greater than the distance of these pairs.

  $ with pairs 4 'cutoff 0.9000000001' with pair 7 '    2A        A 1932735283 0 0 1932735283 0 0' returns pairmd run pairs pair --steps 1
  pairmd state 1
  title a pair
  step 1
  atoms 2
  box 200000 200000 200000
      1A        A 0 0 0 3287505830 0 0
      2A        A 1932735283 0 0 2940196749 0 0
  $ with pairs 4 'cutoff 0.9000000001' with pair 7 '    2A        A 1932735284 0 0 1932735284 0 0' returns pairmd run pairs pair --steps 1
  pairmd state 1
  title a pair
  step 1
  atoms 2
  box 200000 200000 200000
      1A        A 0 0 0 0 0 0
      2A        A 1932735284 0 0 1932735284 0 0

A right triangle with the sides 3 : 4 : 5, whose distance 3865470560 is the cutoff. Then one grid unit less along each
side.

  $ with pairs 4 'cutoff 0.8999999985' with pair 7 '    2A        A 1159641168 1546188224 0 1159641168 1546188224 0' returns pairmd run pairs pair --steps 1
  pairmd state 1
  title a pair
  step 1
  atoms 2
  box 200000 200000 200000
      1A        A 0 0 0 0 0 0
      2A        A 1159641168 1546188224 0 1159641168 1546188224 0
  $ with pairs 4 'cutoff 0.8999999985' with pair 7 '    2A        A 1159641167 1546188224 0 1159641167 1546188224 0' returns pairmd run pairs pair --steps 1
  pairmd state 1
  title a pair
  step 1
  atoms 2
  box 200000 200000 200000
      1A        A 0 0 0 1113510026 53024266 0
      2A        A 1159641167 1546188224 0 46131141 1493163958 0
  $ with pairs 4 'cutoff 0.8999999985' with pair 7 '    2A        A 1159641168 1546188223 0 1159641168 1546188223 0' returns pairmd run pairs pair --steps 1
  pairmd state 1
  title a pair
  step 1
  atoms 2
  box 200000 200000 200000
      1A        A 0 0 0 1113510023 53024268 0
      2A        A 1159641168 1546188223 0 46131145 1493163955 0
  $ with pairs 4 'cutoff 0.8999999985' with pair 7 '    2A        A 0 1546188224 1159641168 0 1546188224 1159641168' returns pairmd run pairs pair --steps 1
  pairmd state 1
  title a pair
  step 1
  atoms 2
  box 200000 200000 200000
      1A        A 0 0 0 0 0 0
      2A        A 0 1546188224 1159641168 0 1546188224 1159641168
  $ with pairs 4 'cutoff 0.8999999985' with pair 7 '    2A        A 0 1546188224 1159641167 0 1546188224 1159641167' returns pairmd run pairs pair --steps 1
  pairmd state 1
  title a pair
  step 1
  atoms 2
  box 200000 200000 200000
      1A        A 0 0 0 0 53024266 1113510026
      2A        A 0 1546188224 1159641167 0 1493163958 46131141

A distance is rounded down before it is compared with the cutoff. With one grid unit along y the square of this distance
is greater, but its root in whole units is the same.

  $ with pair 7 '    2A        A 1932735282 1 0 1932735282 1 0' returns pairmd run pairs pair --steps 1
  pairmd state 1
  title a pair
  step 1
  atoms 2
  box 200000 200000 200000
      1A        A 0 0 0 3287505824 4294967293 0
      2A        A 1932735282 1 0 2940196754 4 0
  $ with pair 7 '    2A        A 1932735282 60000 0 1932735282 60000 0' returns pairmd run pairs pair --steps 1
  pairmd state 1
  title a pair
  step 1
  atoms 2
  box 200000 200000 200000
      1A        A 0 0 0 3287505829 4294802686 0
      2A        A 1932735282 60000 0 2940196749 224610 0
  $ with pair 7 '    2A        A 1932735282 70000 0 1932735282 70000 0' returns pairmd run pairs pair --steps 1
  pairmd state 1
  title a pair
  step 1
  atoms 2
  box 200000 200000 200000
      1A        A 0 0 0 0 0 0
      2A        A 1932735282 70000 0 1932735282 70000 0

At 24 bits a unit is 128 grid units, and the cutoff is 15099494. An atom moves by 256 grid units per unit of its force.

  $ with pairs 6 'bits 24' with pair 1 'pairmd state 2' with pair 3 'step 0\nbits 24' with pair 8 '    2A        A 1932735232 0 0 1932735232 0 0' returns pairmd run pairs pair --steps 1
  pairmd state 2
  title a pair
  step 1
  bits 24
  atoms 2
  box 200000 200000 200000
      1A        A 0 0 0 0 0 0
      2A        A 1932735232 0 0 1932735232 0 0
  $ with pairs 6 'bits 24' with pair 1 'pairmd state 2' with pair 3 'step 0\nbits 24' with pair 8 '    2A        A 1932735231 0 0 1932735231 0 0' returns pairmd run pairs pair --steps 1
  pairmd state 2
  title a pair
  step 1
  bits 24
  atoms 2
  box 200000 200000 200000
      1A        A 0 0 0 3287504640 0 0
      2A        A 1932735231 0 0 2940197887 0 0
  $ with pairs 6 'bits 24' with pair 1 'pairmd state 2' with pair 3 'step 0\nbits 24' with pair 8 '    2A        A 1932735104 0 0 1932735104 0 0' returns pairmd run pairs pair --steps 1
  pairmd state 2
  title a pair
  step 1
  bits 24
  atoms 2
  box 200000 200000 200000
      1A        A 0 0 0 3287504640 0 0
      2A        A 1932735104 0 0 2940197760 0 0
  $ with pairs 6 'bits 24' with pair 1 'pairmd state 2' with pair 3 'step 0\nbits 24' with pair 8 '    2A        A 1932735103 0 0 1932735103 0 0' returns pairmd run pairs pair --steps 1
  pairmd state 2
  title a pair
  step 1
  bits 24
  atoms 2
  box 200000 200000 200000
      1A        A 0 0 0 3287503872 0 0
      2A        A 1932735103 0 0 2940198527 0 0

At 40 bits a grid unit is 512 units, and this cutoff is 1932735283 grid units. An atom moves by one grid unit per 256
units of its force.

  $ with pairs 6 'bits 40' with pairs 4 'cutoff 0.89999999990686774' with pair 1 'pairmd state 2' with pair 3 'step 0\nbits 40' with pair 8 '    2A        A 1932735283 0 0 1932735283 0 0' returns pairmd run pairs pair --steps 1
  pairmd state 2
  title a pair
  step 1
  bits 40
  atoms 2
  box 200000 200000 200000
      1A        A 0 0 0 0 0 0
      2A        A 1932735283 0 0 1932735283 0 0
  $ with pairs 6 'bits 40' with pairs 4 'cutoff 0.89999999990686774' with pair 1 'pairmd state 2' with pair 3 'step 0\nbits 40' with pair 8 '    2A        A 1932735282 0 0 1932735282 0 0' returns pairmd run pairs pair --steps 1
  pairmd state 2
  title a pair
  step 1
  bits 40
  atoms 2
  box 200000 200000 200000
      1A        A 0 0 0 3287505825 0 0
      2A        A 1932735282 0 0 2940196753 0 0

## At the core

The core is 858993459. Pairs at 858993458 units or less have the force at the core; a pair at 858993460 has its own
force. At the same position there is no force, also with a core of 0.

  $ with pair 7 '    2A        A 429496729 0 0 429496729 0 0' returns pairmd run pairs pair --steps 1
  pairmd state 1
  title a pair
  step 1
  atoms 2
  box 200000 200000 200000
      1A        A 0 0 0 4294966770 0 0
      2A        A 429496729 0 0 429497255 0 0
  $ with pair 7 '    2A        A 429496730 0 0 429496730 0 0' returns pairmd run pairs pair --steps 1
  pairmd state 1
  title a pair
  step 1
  atoms 2
  box 200000 200000 200000
      1A        A 0 0 0 99 0 0
      2A        A 429496730 0 0 429496631 0 0
  $ with pair 7 '    2A        A 214748364 0 0 214748364 0 0' returns pairmd run pairs pair --steps 1
  pairmd state 1
  title a pair
  step 1
  atoms 2
  box 200000 200000 200000
      1A        A 0 0 0 4294966770 0 0
      2A        A 214748364 0 0 214748890 0 0
  $ with pair 7 '    2A        A 1 0 0 1 0 0' returns pairmd run pairs pair --steps 1
  pairmd state 1
  title a pair
  step 1
  atoms 2
  box 200000 200000 200000
      1A        A 0 0 0 4294966770 0 0
      2A        A 1 0 0 527 0 0
  $ with pair 7 '    2A        A 0 0 4294967295 0 0 4294967295' returns pairmd run pairs pair --steps 1
  pairmd state 1
  title a pair
  step 1
  atoms 2
  box 200000 200000 200000
      1A        A 0 0 0 0 0 526
      2A        A 0 0 4294967295 0 0 4294966769
  $ with pair 7 '    2A        A 1 2 3 1 2 3' returns pairmd run pairs pair --steps 1
  pairmd state 1
  title a pair
  step 1
  atoms 2
  box 200000 200000 200000
      1A        A 0 0 0 1367795288 2735590576 4103385864
      2A        A 1 2 3 2927172009 1559376722 191581435
  $ with pair 7 '    2A        A 0 0 0 0 0 0' returns pairmd run pairs pair --steps 1
  pairmd state 1
  title a pair
  step 1
  atoms 2
  box 200000 200000 200000
      1A        A 0 0 0 0 0 0
      2A        A 0 0 0 0 0 0

This energy rises by 0.75 per nm, so it has a value at 0 too. Its derivative is constant.

  $ with pairs 2 'energy 0.75*r' with pairs 3 'core 0' with pair 7 '    2A        A 0 0 0 0 0 0' returns pairmd run pairs pair --steps 1
  pairmd state 1
  title a pair
  step 1
  atoms 2
  box 200000 200000 200000
      1A        A 0 0 0 0 0 0
      2A        A 0 0 0 0 0 0
  $ with pairs 2 'energy 0.75*r' with pairs 3 'core 0' with pair 7 '    2A        A 1 0 0 1 0 0' returns pairmd run pairs pair --steps 1
  pairmd state 1
  title a pair
  step 1
  atoms 2
  box 200000 200000 200000
      1A        A 0 0 0 3221225472 0 0
      2A        A 1 0 0 1073741825 0 0
  $ with pairs 2 'energy 0.75*r' with pairs 3 'core 0' with pair 7 '    2A        A 1 1 0 1 1 0' returns pairmd run pairs pair --steps 1
  pairmd state 1
  title a pair
  step 1
  atoms 2
  box 200000 200000 200000
      1A        A 0 0 0 2277756112 2277756112 0
      2A        A 1 1 0 2017211185 2017211185 0
  $ with pairs 2 'energy 0.75*r' with pairs 3 'core 0' with pair 7 '    2A        A 3 0 4294967292 3 0 4294967292' returns pairmd run pairs pair --steps 1
  pairmd state 1
  title a pair
  step 1
  atoms 2
  box 200000 200000 200000
      1A        A 0 0 0 1932735283 0 1717986918
      2A        A 3 0 4294967292 2362232016 0 2576980374
  $ with pairs 2 'energy 0.75*r' with pairs 3 'core 0' with pair 7 '    2A        A 1932735282 0 0 1932735282 0 0' returns pairmd run pairs pair --steps 1
  pairmd state 1
  title a pair
  step 1
  atoms 2
  box 200000 200000 200000
      1A        A 0 0 0 3221225472 0 0
      2A        A 1932735282 0 0 3006477106 0 0
  $ with pairs 2 'energy 0.75*r' with pairs 3 'core 0' with pair 7 '    2A        A 1932735283 0 0 1932735283 0 0' returns pairmd run pairs pair --steps 1
  pairmd state 1
  title a pair
  step 1
  atoms 2
  box 200000 200000 200000
      1A        A 0 0 0 0 0 0
      2A        A 1932735283 0 0 1932735283 0 0

## Parameters, globals and types

Eight parameters, of which the energy uses the first and the last: 0.75 * 1.5 * 0.125 is 603979776 in units of 2^-32. A
ninth is rejected, even if each type has a value for it.

  $ with pair 7 '    2A        A 1073741824 0 0 1073741824 0 0' cat pair > apart
  $ cat > eight << END
  > pairmd job 1
  > energy 0.75*r*a1*h2
  > core 0.2
  > cutoff 0.9
  > dt 10
  > parameter a
  > parameter b
  > parameter c
  > parameter d
  > parameter e
  > parameter f
  > parameter g
  > parameter h
  > type A 0.00005 1.5 2 3 4 5 6 7 0.125
  > END
  $ returns pairmd run eight apart --steps 1
  pairmd state 1
  title a pair
  step 1
  atoms 2
  box 200000 200000 200000
      1A        A 0 0 0 603979776 0 0
      2A        A 1073741824 0 0 469762048 0 0
  $ with eight 14 'parameter i\ntype A 0.00005 1.5 2 3 4 5 6 7 0.125 9' workers pairmd run eight apart --steps 1
  pairmd: J4 Range parameter
  [1]
  $ with eight 14 'type A 0.00005 1.5 2 3 4 5 6 7 0.125 9' workers pairmd run eight apart --steps 1
  pairmd: J1 BadLine 14
  [1]
  $ with eight 14 'type A 0.00005 1.5 2 3 4 5 6 7' workers pairmd run eight apart --steps 1
  pairmd: J1 BadLine 14
  [1]

The parameter of the first atom and of the second: 0.75 * 1.5 - 0.125 if the first is an A, and 0.75 * 0.125 - 1.5 if it
is a B.

  $ cat > mixed << END
  > pairmd job 1
  > energy (0.75*q1-q2)*r
  > core 0.2
  > cutoff 0.9
  > dt 10
  > parameter q
  > type A 0.00005 1.5
  > type B 0.00005 0.125
  > END
  $ with apart 6 '    1A        A 0 0 0 0 0 0' with apart 7 '    2A        B 1073741824 0 0 1073741824 0 0' returns pairmd run mixed apart --steps 1
  pairmd state 1
  title a pair
  step 1
  atoms 2
  box 200000 200000 200000
      1A        A 0 0 0 0 0 0
      2A        B 1073741824 0 0 1073741824 0 0
  $ with apart 6 '    1A        B 0 0 0 0 0 0' with apart 7 '    2A        A 1073741824 0 0 1073741824 0 0' returns pairmd run mixed apart --steps 1
  pairmd state 1
  title a pair
  step 1
  atoms 2
  box 200000 200000 200000
      1A        B 0 0 0 2550136832 0 0
      2A        A 1073741824 0 0 2818572288 0 0
  $ with apart 6 '    1A        A 0 0 0 0 0 0' with apart 7 '    2A        A 1073741824 0 0 1073741824 0 0' returns pairmd run mixed apart --steps 1
  pairmd state 1
  title a pair
  step 1
  atoms 2
  box 200000 200000 200000
      1A        A 0 0 0 2684354560 0 0
      2A        A 1073741824 0 0 2684354560 0 0
  $ with apart 6 '    1A        B 0 0 0 0 0 0' with apart 7 '    2A        B 1073741824 0 0 1073741824 0 0' returns pairmd run mixed apart --steps 1
  pairmd state 1
  title a pair
  step 1
  atoms 2
  box 200000 200000 200000
      1A        B 0 0 0 4160749568 0 0
      2A        B 1073741824 0 0 1207959552 0 0

Sixteen globals, of which the energy uses the first and the last: 0.75 * 1.5 * 0.125. A seventeenth is rejected.

  $ printf 'pairmd job 1\nenergy 0.75*r*a*p\ncore 0.2\ncutoff 0.9\ndt 10\ntype A 0.00005\n' > globals
  $ printf 'global a 1.5\nglobal b 2\nglobal c 3\nglobal d 4\nglobal e 5\nglobal f 6\nglobal g 7\nglobal h 8\n' > lower
  $ printf 'global i 9\nglobal j 10\nglobal k 11\nglobal l 12\nglobal m 13\nglobal n 14\nglobal o 15\nglobal p 0.125\n' > upper
  $ printf 'global q 17\n' > last
  $ cat globals lower upper > sixteen
  $ returns pairmd run sixteen apart --steps 1
  pairmd state 1
  title a pair
  step 1
  atoms 2
  box 200000 200000 200000
      1A        A 0 0 0 603979776 0 0
      2A        A 1073741824 0 0 469762048 0 0
  $ cat globals lower upper last > seventeen
  $ workers pairmd run seventeen apart --steps 1
  pairmd: J4 Range global
  [1]

Sixty-four types; the atoms have the first and the last. The first moves by 0.75, and the last, with twice its mass, by
half as much. A sixty-fifth type is rejected.

  $ printf 'pairmd job 1\nenergy 0.75*r\ncore 0.2\ncutoff 0.9\ndt 10\ntype A 0.00005\n' > types
  $ printf 'type T0 1\ntype T1 1\ntype T2 1\ntype T3 1\ntype T4 1\ntype T5 1\ntype T6 1\ntype T7 1\n' > types0
  $ printf 'type T8 1\ntype T9 1\ntype T10 1\ntype T11 1\ntype T12 1\ntype T13 1\ntype T14 1\ntype T15 1\n' > types1
  $ printf 'type T16 1\ntype T17 1\ntype T18 1\ntype T19 1\ntype T20 1\ntype T21 1\ntype T22 1\ntype T23 1\n' > types2
  $ printf 'type T24 1\ntype T25 1\ntype T26 1\ntype T27 1\ntype T28 1\ntype T29 1\ntype T30 1\ntype T31 1\n' > types3
  $ printf 'type T32 1\ntype T33 1\ntype T34 1\ntype T35 1\ntype T36 1\ntype T37 1\ntype T38 1\ntype T39 1\n' > types4
  $ printf 'type T40 1\ntype T41 1\ntype T42 1\ntype T43 1\ntype T44 1\ntype T45 1\ntype T46 1\ntype T47 1\n' > types5
  $ printf 'type T48 1\ntype T49 1\ntype T50 1\ntype T51 1\ntype T52 1\ntype T53 1\ntype T54 1\ntype T55 1\n' > types6
  $ printf 'type T56 1\ntype T57 1\ntype T58 1\ntype T59 1\ntype T60 1\ntype T61 1\ntype Z 0.0001\n' > types7
  $ printf 'type Y 1\n' > last
  $ cat types types0 types1 types2 types3 types4 types5 types6 types7 > most
  $ with apart 7 '    2A        Z 1073741824 0 0 1073741824 0 0' returns pairmd run most apart --steps 1
  pairmd state 1
  title a pair
  step 1
  atoms 2
  box 200000 200000 200000
      1A        A 0 0 0 3221225472 0 0
      2A        Z 1073741824 0 0 3758096384 0 0
  $ cat most last > more
  $ workers pairmd run more apart --steps 1
  pairmd: J4 Range type
  [1]
