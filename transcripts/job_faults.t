# Jobs that are rejected: the first error is reported

The first line is exactly `pairmd job 1`.

  $ printf '' > other
  $ pairmd check other
  pairmd: J1 BadLine 1
  [1]
  $ printf 'pairmd job 1\r' > other
  $ pairmd check other
  pairmd: J1 BadLine 1
  [1]
  $ with job 1 ' pairmd job 1' pairmd check job
  pairmd: J1 BadLine 1
  [1]
  $ with job 1 'pairmd job 2' pairmd check job
  pairmd: J1 BadLine 1
  [1]
  $ with job 1 'pairmd job 1 ' pairmd check job
  pairmd: J1 BadLine 1
  [1]

A malformed line.

  $ with job 2 'energy' pairmd check job
  pairmd: J1 BadLine 2
  [1]
  $ with job 2 ' # a' pairmd check job
  pairmd: J1 BadLine 2
  [1]
  $ with job 2 'Energy r' pairmd check job
  pairmd: J1 BadLine 2
  [1]
  $ with job 2 '\rdt 1' pairmd check job
  pairmd: J1 BadLine 2
  [1]
  $ with job 2 'dt 1\r\r' pairmd check job
  pairmd: J1 BadLine 2
  [1]
  $ with job 2 'core -1' pairmd check job
  pairmd: J1 BadLine 2
  [1]
  $ with job 2 'core 1 2' pairmd check job
  pairmd: J1 BadLine 2
  [1]
  $ with job 2 'dt' pairmd check job
  pairmd: J1 BadLine 2
  [1]
  $ with job 2 'dt 1 2' pairmd check job
  pairmd: J1 BadLine 2
  [1]
  $ with job 2 'type ABCDEF 1' pairmd check job
  pairmd: J1 BadLine 2
  [1]
  $ with job 2 'type A 1.000000' pairmd check job
  pairmd: J1 BadLine 2
  [1]
  $ with job 2 'type A 1.' pairmd check job
  pairmd: J1 BadLine 2
  [1]
  $ with job 2 'type A .5' pairmd check job
  pairmd: J1 BadLine 2
  [1]
  $ with job 2 'type A' pairmd check job
  pairmd: J1 BadLine 2
  [1]
  $ with job 2 'type A -1' pairmd check job
  pairmd: J1 BadLine 2
  [1]
  $ with job 2 'global 1g 1' pairmd check job
  pairmd: J1 BadLine 2
  [1]
  $ with job 2 'global g --1' pairmd check job
  pairmd: J1 BadLine 2
  [1]
  $ with job 2 'global g +1' pairmd check job
  pairmd: J1 BadLine 2
  [1]
  $ with job 2 'global g' pairmd check job
  pairmd: J1 BadLine 2
  [1]
  $ with job 2 'global g 1 2' pairmd check job
  pairmd: J1 BadLine 2
  [1]
  $ with job 2 'type A 0 3e9 x' pairmd check job
  pairmd: J1 BadLine 2
  [1]
  $ with job 2 'type A 1 1..2' pairmd check job
  pairmd: J1 BadLine 2
  [1]
  $ with job 2 'type A\x7f 1' pairmd check job
  pairmd: J1 BadLine 2
  [1]
  $ with job 2 'type \xc3\xa9 1' pairmd check job
  pairmd: J1 BadLine 2
  [1]
  $ with job 2 'cutoff .' pairmd check job
  pairmd: J1 BadLine 2
  [1]
  $ with job 2 'core 1e100' pairmd check job
  pairmd: J1 BadLine 2
  [1]
  $ printf 'pairmd job 1\ndt 1\r' > other
  $ pairmd check other
  pairmd: J1 BadLine 2
  [1]
  $ with job 3 'dt +1' pairmd check job
  pairmd: J1 BadLine 3
  [1]

Names of parameters and globals begin with a letter or `_` and consist of letters, digits and `_`.

  $ with job 7 'parameter ' pairmd check job
  pairmd: J1 BadLine 7
  [1]
  $ with job 7 'global  1' pairmd check job
  pairmd: J1 BadLine 7
  [1]
  $ with job 7 'parameter 2r' pairmd check job
  pairmd: J1 BadLine 7
  [1]
  $ with job 7 'global 2r 1' pairmd check job
  pairmd: J1 BadLine 7
  [1]
  $ with job 7 'parameter a-b' pairmd check job
  pairmd: J1 BadLine 7
  [1]
  $ with job 7 'global a-b 1' pairmd check job
  pairmd: J1 BadLine 7
  [1]
  $ with job 7 'parameter a b' pairmd check job
  pairmd: J1 BadLine 7
  [1]
  $ with job 7 'global a b 1' pairmd check job
  pairmd: J1 BadLine 7
  [1]
  $ with job 7 'parameter caf\xc3\xa9' pairmd check job
  pairmd: J1 BadLine 7
  [1]
  $ with job 7 'global caf\xc3\xa9 1' pairmd check job
  pairmd: J1 BadLine 7
  [1]

Lines are checked from the top. On each line, malformed text comes first, then repetition, then ranges.

  $ with job 2 'energy ' with job 5 'dt 0' pairmd check job
  pairmd: J1 BadLine 2
  [1]
  $ with job 2 'dt 0' with job 3 'energy ' pairmd check job
  pairmd: J4 Range dt
  [1]
  $ with job 2 'dt 1' with job 3 'dt 0' pairmd check job
  pairmd: J3 Repeated dt
  [1]
  $ with job 2 'dt 1' with job 3 'dt x' pairmd check job
  pairmd: J1 BadLine 3
  [1]
  $ with job 6 'global g 1' with job 7 'global g 3e9' pairmd check job
  pairmd: J3 Repeated g
  [1]
  $ with job 6 'type A 1' with job 7 'type A 0' pairmd check job
  pairmd: J5 RepeatedType A
  [1]
  $ with job 6 'type A 1' with job 7 'type A x' pairmd check job
  pairmd: J1 BadLine 7
  [1]

A second line of a key that is allowed once, or a second line of the same name.

  $ with job 3 'energy 1/r' pairmd check job
  pairmd: J3 Repeated energy
  [1]
  $ with job 4 'core 0.2' pairmd check job
  pairmd: J3 Repeated core
  [1]
  $ with job 5 'cutoff 0.9' pairmd check job
  pairmd: J3 Repeated cutoff
  [1]
  $ with job 6 'dt 2' pairmd check job
  pairmd: J3 Repeated dt
  [1]
  $ with job 7 'slices 64' pairmd check job
  pairmd: J3 Repeated slices
  [1]
  $ with job 6 'parameter p' with job 7 'parameter p' pairmd check job
  pairmd: J3 Repeated p
  [1]

A number out of its range.

  $ with job 2 'dt 0' pairmd check job
  pairmd: J4 Range dt
  [1]
  $ with job 2 'dt 1001' pairmd check job
  pairmd: J4 Range dt
  [1]
  $ with job 2 'dt 99999999999999999999999' pairmd check job
  pairmd: J4 Range dt
  [1]
  $ with job 2 'slices 0' pairmd check job
  pairmd: J4 Range slices
  [1]
  $ with job 2 'slices 65537' pairmd check job
  pairmd: J4 Range slices
  [1]
  $ with job 2 'core 3e9' pairmd check job
  pairmd: J4 Range core
  [1]
  $ with job 2 'cutoff 0' pairmd check job
  pairmd: J4 Range cutoff
  [1]
  $ with job 2 'cutoff 80.001' pairmd check job
  pairmd: J4 Range cutoff
  [1]
  $ with job 2 'cutoff 1e-10' pairmd check job
  pairmd: J4 Range cutoff
  [1]
  $ with job 2 'type A 0' pairmd check job
  pairmd: J4 Range type
  [1]
  $ with job 2 'type A 0.00000' pairmd check job
  pairmd: J4 Range type
  [1]
  $ with job 2 'type A 1000.00001' pairmd check job
  pairmd: J4 Range type
  [1]
  $ with job 2 'type A 99999999999999999999' pairmd check job
  pairmd: J4 Range type
  [1]
  $ with job 2 'type A 1 3e9' pairmd check job
  pairmd: J4 Range type
  [1]
  $ with job 2 'global g -2147483648' pairmd check job
  pairmd: J4 Range global
  [1]
  $ with job 2 'global g 3e9' pairmd check job
  pairmd: J4 Range global
  [1]

One parameter, global or type too many is rejected. A repeated name is reported first.

  $ printf 'parameter a\nparameter b\nparameter c\nparameter d\nparameter e\nparameter f\nparameter g\nparameter h\n' > eight
  $ cat > ninth << END
  > parameter i
  > END
  $ cat job eight ninth > other
  $ pairmd check other
  pairmd: J4 Range parameter
  [1]
  $ printf 'parameter a\n' > ninth
  $ cat job eight ninth > other
  $ pairmd check other
  pairmd: J3 Repeated a
  [1]
  $ printf 'global a 1\nglobal b 2\nglobal c 3\nglobal d 4\nglobal e 5\nglobal f 6\nglobal g 7\nglobal h 8\n' > lower
  $ printf 'global A 1\nglobal B 2\nglobal C 3\nglobal D 4\nglobal E 5\nglobal F 6\nglobal G 7\nglobal H 8\n' > upper
  $ printf 'global i 1\n' > last
  $ cat job lower upper last > other
  $ pairmd check other
  pairmd: J4 Range global
  [1]
  $ printf 'type A0 1\ntype A1 1\ntype A2 1\ntype A3 1\ntype A4 1\ntype A5 1\ntype A6 1\ntype A7 1\n' > typesA
  $ printf 'type B0 1\ntype B1 1\ntype B2 1\ntype B3 1\ntype B4 1\ntype B5 1\ntype B6 1\ntype B7 1\n' > typesB
  $ printf 'type C0 1\ntype C1 1\ntype C2 1\ntype C3 1\ntype C4 1\ntype C5 1\ntype C6 1\ntype C7 1\n' > typesC
  $ printf 'type D0 1\ntype D1 1\ntype D2 1\ntype D3 1\ntype D4 1\ntype D5 1\ntype D6 1\ntype D7 1\n' > typesD
  $ printf 'type E0 1\ntype E1 1\ntype E2 1\ntype E3 1\ntype E4 1\ntype E5 1\ntype E6 1\ntype E7 1\n' > typesE
  $ printf 'type F0 1\ntype F1 1\ntype F2 1\ntype F3 1\ntype F4 1\ntype F5 1\ntype F6 1\ntype F7 1\n' > typesF
  $ printf 'type G0 1\ntype G1 1\ntype G2 1\ntype G3 1\ntype G4 1\ntype G5 1\ntype G6 1\ntype G7 1\n' > typesG
  $ printf 'type H0 1\ntype H1 1\ntype H2 1\ntype H3 1\ntype H4 1\ntype H5 1\ntype H6 1\ntype H7 1\n' > typesH
  $ cat job typesA typesB typesC typesD typesE typesF typesG typesH > other
  $ pairmd check other
  pairmd: J4 Range type
  [1]

Checks of the whole job come after all lines, in this order: a missing key, a cutoff that isn't above the core, the
number of values per type.

  $ printf 'pairmd job 1' > other
  $ pairmd check other
  pairmd: J2 Missing energy
  [1]
  $ printf 'pairmd job 1\r\n' > other
  $ pairmd check other
  pairmd: J2 Missing energy
  [1]
  $ with job 2 '' pairmd check job
  pairmd: J2 Missing energy
  [1]
  $ with job 3 '' with job 4 '' pairmd check job
  pairmd: J2 Missing core
  [1]
  $ with job 4 '' with job 5 '' pairmd check job
  pairmd: J2 Missing cutoff
  [1]
  $ with job 3 'core 0.9' with job 5 '' pairmd check job
  pairmd: J2 Missing dt
  [1]
  $ with job 3 'core 0.9' pairmd check job
  pairmd: J4 Range cutoff
  [1]
  $ with job 3 'core 1' pairmd check job
  pairmd: J4 Range cutoff
  [1]
  $ with job 3 'core 0.9' with job 7 'type AR 1 1' pairmd check job
  pairmd: J4 Range cutoff
  [1]
  $ with job 7 'type AR 1 1' pairmd check job
  pairmd: J1 BadLine 7
  [1]
  $ cat > other << END
  > pairmd job 1
  > energy r
  > cutoff 1
  > core 0
  > dt 1
  > type A 1 1
  > type B 1
  > type C 1 1 1
  > parameter p
  > END
  $ pairmd check other
  pairmd: J1 BadLine 7
  [1]
  $ with other 7 'type B 1 1' pairmd check other
  pairmd: J1 BadLine 8
  [1]
