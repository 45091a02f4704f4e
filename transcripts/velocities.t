# Velocities of the last time step

At rest, and after steps. The atoms repel each other along x. An atom that moves d grid units of a side of 2 nm in 2 fs
has the velocity d * 2 / 2^32 / 0.002 nm/ps.

  $ pairmd velocities job state
      1AR      AR 0 0 0 0.000000 0.000000 0.000000
      1AR      AR 0 0 0 0.000000 0.000000 0.000000
  $ pairmd run job state --steps 1 > later
  $ pairmd velocities job later
      1AR      AR -34360 0 0 -0.008000 0.000000 0.000000
      1AR      AR 34360 0 0 0.008000 0.000000 0.000000
  $ pairmd run job state --steps 100 > later
  $ pairmd velocities job later
      1AR      AR -2887855 0 0 -0.672381 0.000000 0.000000
      1AR      AR 2887855 0 0 0.672381 0.000000 0.000000

The displacement is along the shorter way around the box: from -2^31 to 2^31 - 1 grid units, along each side.

  $ with state 6 '    1AR      AR 4294967295 0 2147483648 0 4294967295 0' pairmd velocities job state
      1AR      AR 1 -1 -2147483648 0.000000 0.000000 -500.000000
      1AR      AR 0 0 0 0.000000 0.000000 0.000000
  $ with state 6 '    1AR      AR 0 0 0 2147483647 2147483648 2147483649' pairmd velocities job state
      1AR      AR 2147483647 -2147483648 -2147483647 500.000000 -500.000000 -500.000000
      1AR      AR 0 0 0 0.000000 0.000000 0.000000

A velocity is the nearest number of six decimals, and halves round up: with sides of 131.072 nm and dt 1000 the velocity
is d * 131.072 / 2^32, so 2^21 grid units are 0.064 nm/ps, 2^14 are 0.0005, and 2^11 are 0.0000625.

  $ with job 5 'dt 1000' with state 5 'box 13107200 13107200 13107200' with state 6 '    1AR      AR 0 0 0 2097152 16384 2048' pairmd velocities job state
      1AR      AR 2097152 16384 2048 0.064000 0.000500 0.000063
      1AR      AR 0 0 0 0.000000 0.000000 0.000000
  $ with job 5 'dt 1000' with state 5 'box 13107200 13107200 13107200' with state 6 '    1AR      AR 2097152 16384 2048 0 0 0' pairmd velocities job state
      1AR      AR -2097152 -16384 -2048 -0.064000 -0.000500 -0.000062
      1AR      AR 0 0 0 0.000000 0.000000 0.000000

Sides of a box may differ. The greatest velocities: half a side of 160 nm in 1 fs.

  $ with job 5 'dt 1' with state 5 'box 16000000 200000 400000' with state 6 '    1AR      AR 0 0 0 2147483648 2147483648 2147483648' pairmd velocities job state
      1AR      AR -2147483648 -2147483648 -2147483648 -80000.000000 -1000.000000 -2000.000000
      1AR      AR 0 0 0 0.000000 0.000000 0.000000
  $ with job 5 'dt 1' with state 5 'box 16000000 200000 400000' with state 6 '99999ABCDEFGHIJ 0 0 0 2147483647 1 4294967295' with state 7 '-9999A    FGHIJ 0 0 0 0 0 0' with job 7 'type FGHIJ 1' pairmd velocities job state
  99999ABCDEFGHIJ 2147483647 1 -1 79999.999963 0.000000 -0.000001
  -9999A    FGHIJ 0 0 0 0.000000 0.000000 0.000000

States of 24 bits; no atoms. The state, the job and both together are judged as in `forces`.

  $ with job 6 'bits 24' pairmd start job gro > begun
  $ with job 6 'bits 24' pairmd velocities job begun
      1AR      AR 0 0 0 0.000000 0.000000 0.000000
      1AR      AR 0 0 0 0.000000 0.000000 0.000000
  $ printf 'pairmd state 1\ntitle none\nstep 0\natoms 0\nbox 300000 300000 300000\n' > none
  $ pairmd velocities job none
  $ pairmd velocities job begun
  pairmd: A6 BitsDiffer
  [1]
  $ with state 6 '    1AR      KR 1073741824 0 0 1073741824 0 0' pairmd velocities job state
  pairmd: A1 UnknownType 1
  [1]
  $ with state 5 'box 179999 200000 200000' pairmd velocities job state
  pairmd: A2 CutoffTooLong
  [1]
  $ with job 2 'energy 1/(r-r)' pairmd velocities job state
  pairmd: V2 Fault AR AR r 858993459 pc 12 F2 ZeroDivisor
  [3]
  $ with job 2 'energy 1/' pairmd velocities job state
  pairmd: E03 UnexpectedToken 2
  [3]
  $ with state 3 'step' pairmd velocities job state
  pairmd: S1 BadLine 3
  [1]
  $ with job 4 'cutoff' with state 3 'step' pairmd velocities job state
  pairmd: J1 BadLine 4
  [1]
  $ outputs pairmd velocities job later
  0-111: a beginning, pairmd: O2 CannotWrite [5]
  112: all
  $ requests pairmd velocities job later
  pairmd: Memory [4]
  all
