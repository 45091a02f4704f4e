# Rejected runs

Errors of `run` in a job, in a state, and in both together, with any number of workers.

A malformed line.

  $ with job 1 'pairmd job 2' workers pairmd run job state --steps 1
  pairmd: J1 BadLine 1
  [1]
  $ with job 2 'energy ' workers pairmd run job state --steps 1
  pairmd: J1 BadLine 2
  [1]
  $ with job 3 'core 0,2' workers pairmd run job state --steps 1
  pairmd: J1 BadLine 3
  [1]
  $ with job 6 'tiles 64' workers pairmd run job state --steps 1
  pairmd: J1 BadLine 6
  [1]
  $ with job 7 'type AR 1.000001' workers pairmd run job state --steps 1
  pairmd: J1 BadLine 7
  [1]
  $ with job 7 'type AR 1 2' workers pairmd run job state --steps 1
  pairmd: J1 BadLine 7
  [1]
  $ with job 7 'type ARGONS 1' workers pairmd run job state --steps 1
  pairmd: J1 BadLine 7
  [1]

A missing line.

  $ with job 2 '' workers pairmd run job state --steps 1
  pairmd: J2 Missing energy
  [1]
  $ with job 3 '# none' workers pairmd run job state --steps 1
  pairmd: J2 Missing core
  [1]
  $ with job 4 '' workers pairmd run job state --steps 1
  pairmd: J2 Missing cutoff
  [1]
  $ with job 5 '' workers pairmd run job state --steps 1
  pairmd: J2 Missing dt
  [1]

A repeated line.

  $ with job 2 'energy 1/r\nenergy 1/r' workers pairmd run job state --steps 1
  pairmd: J3 Repeated energy
  [1]
  $ with job 4 'cutoff 0.9\ncutoff 0.9' workers pairmd run job state --steps 1
  pairmd: J3 Repeated cutoff
  [1]
  $ with job 5 'dt 2\ndt 2000' workers pairmd run job state --steps 1
  pairmd: J3 Repeated dt
  [1]
  $ with job 6 'slices 1\nslices 1' workers pairmd run job state --steps 1
  pairmd: J3 Repeated slices
  [1]

A number out of its range.

  $ with job 3 'core 2147483648' workers pairmd run job state --steps 1
  pairmd: J4 Range core
  [1]
  $ with job 4 'cutoff 80.0000001' workers pairmd run job state --steps 1
  pairmd: J4 Range cutoff
  [1]
  $ with job 4 'cutoff 0.2' workers pairmd run job state --steps 1
  pairmd: J4 Range cutoff
  [1]
  $ with job 5 'dt 0' workers pairmd run job state --steps 1
  pairmd: J4 Range dt
  [1]
  $ with job 5 'dt 1001' workers pairmd run job state --steps 1
  pairmd: J4 Range dt
  [1]
  $ with job 6 'slices 65537' workers pairmd run job state --steps 1
  pairmd: J4 Range slices
  [1]
  $ with job 7 'type AR 0' workers pairmd run job state --steps 1
  pairmd: J4 Range type
  [1]
  $ with job 7 'type AR 1000.00001' workers pairmd run job state --steps 1
  pairmd: J4 Range type
  [1]

Parameters, globals and types.

  $ with job 6 'parameter q' workers pairmd run job state --steps 1
  pairmd: J1 BadLine 7
  [1]
  $ with job 6 'parameter q\nparameter q' workers pairmd run job state --steps 1
  pairmd: J3 Repeated q
  [1]
  $ with job 6 'global k 0.5\nglobal k 1' workers pairmd run job state --steps 1
  pairmd: J3 Repeated k
  [1]
  $ with job 6 'global k 3e9' workers pairmd run job state --steps 1
  pairmd: J4 Range global
  [1]
  $ with job 6 'parameter a\nparameter b\nparameter c\nparameter d\nparameter e\nparameter f\nparameter g\nparameter h\nparameter i' workers pairmd run job state --steps 1
  pairmd: J4 Range parameter
  [1]
  $ with job 7 'type AR 1\ntype AR 1' workers pairmd run job state --steps 1
  pairmd: J5 RepeatedType AR
  [1]

A state that is truncated, or has trailing text.

  $ sed '7d' state > cut
  $ workers pairmd run job cut --steps 1
  pairmd: S2 Truncated
  [1]
  $ with state 4 'atoms 3' workers pairmd run job state --steps 1
  pairmd: S2 Truncated
  [1]
  $ with state 7 '    1AR      AR 0 0 0 0 0 0\n' workers pairmd run job state --steps 1
  pairmd: S3 Trailing
  [1]
  $ with state 4 'atoms 1' workers pairmd run job state --steps 1
  pairmd: S3 Trailing
  [1]

A malformed line of a state.

  $ with state 1 'pairmd state 3' workers pairmd run job state --steps 1
  pairmd: S1 BadLine 1
  [1]
  $ with state 3 'step 01' workers pairmd run job state --steps 1
  pairmd: S1 BadLine 3
  [1]
  $ with state 5 'box 1 1 16000001' workers pairmd run job state --steps 1
  pairmd: S1 BadLine 5
  [1]
  $ with state 6 '    1AR      AR 0 0 0 0 0 0 0' workers pairmd run job state --steps 1
  pairmd: S1 BadLine 6
  [1]

An atom without a type, and a box that is too short for the cutoff.

  $ with state 7 '    1AR       X 0 0 0 0 0 0' workers pairmd run job state --steps 1
  pairmd: A1 UnknownType 2
  [1]
  $ with state 5 'box 170000 170000 170000' workers pairmd run job state --steps 1
  pairmd: A2 CutoffTooLong
  [1]
  $ with state 5 'box 200000 200000 170000' workers pairmd run job state --steps 1
  pairmd: A2 CutoffTooLong
  [1]
  $ with state 5 'box 200000 179999 200000' workers pairmd run job state --steps 1
  pairmd: A2 CutoffTooLong
  [1]

Sides of exactly two cutoffs are long enough.

  $ with state 5 'box 180000 180000 180000' workers pairmd run job state --steps 0
  pairmd state 1
  title two atoms
  step 0
  atoms 2
  box 180000 180000 180000
      1AR      AR 1073741824 0 0 1073741824 0 0
      1AR      AR 2147483648 0 0 2147483648 0 0

The first error is reported, in the order: job, state, energy, names of atoms, box, code, step counter.

  $ with job 5 'dt 0' with state 3 'step 01' workers pairmd run job state --steps 1
  pairmd: J4 Range dt
  [1]
  $ with job 2 'energy s' with state 3 'step 01' workers pairmd run job state --steps 1
  pairmd: S1 BadLine 3
  [1]
  $ with job 2 'energy s' with state 7 '    1AR       X 0 0 0 0 0 0' workers pairmd run job state --steps 1
  pairmd: E04 UnknownName s
  [3]
  $ with job 4 'cutoff 1.5' with state 7 '    1AR       X 0 0 0 0 0 0' workers pairmd run job state --steps 1
  pairmd: A1 UnknownType 2
  [1]
  $ with job 4 'cutoff 1.5' with state 3 'step 9223372036854775807' workers pairmd run job state --steps 1
  pairmd: A2 CutoffTooLong
  [1]
  $ with job 2 'energy r/0' with state 3 'step 9223372036854775807' workers pairmd run job state --steps 1
  pairmd: V2 Fault AR AR r 858993459 pc 2 F2 ZeroDivisor
  [3]

Files are read before any is checked, in the order of the arguments. The error names a missing file as the argument
does.

  $ printf 'no job and no state' > 'a job'
  $ printf 'no job and no state' > 'a state'
  $ pairmd run 'a job' 'no state' --steps 1
  pairmd: O1 CannotRead no state
  [5]
  $ pairmd run 'no job' 'a state' --steps 1
  pairmd: O1 CannotRead no job
  [5]
  $ pairmd run 'no job' 'no state' --steps 1
  pairmd: O1 CannotRead no job
  [5]
  $ printf '' > empty
  $ pairmd run empty 'no state' --steps 1
  pairmd: O1 CannotRead no state
  [5]
  $ pairmd run 'no job' empty --steps 1
  pairmd: O1 CannotRead no job
  [5]

Each command names its first file that can't be read.

  $ pairmd start 'no job' gro
  pairmd: O1 CannotRead no job
  [5]
  $ pairmd start job 'no gro'
  pairmd: O1 CannotRead no gro
  [5]
  $ pairmd start 'no job' 'no gro'
  pairmd: O1 CannotRead no job
  [5]
  $ pairmd back 'no job' state --steps 1
  pairmd: O1 CannotRead no job
  [5]
  $ pairmd back job 'no state' --steps 1
  pairmd: O1 CannotRead no state
  [5]
  $ pairmd trajectory 'no job' state --steps 1 --every 1
  pairmd: O1 CannotRead no job
  [5]
  $ pairmd trajectory job 'no state' --steps 1 --every 1
  pairmd: O1 CannotRead no state
  [5]
  $ pairmd states 'no job' state --steps 1 --every 1
  pairmd: O1 CannotRead no job
  [5]
  $ pairmd states job 'no state' --steps 1 --every 1
  pairmd: O1 CannotRead no state
  [5]
  $ pairmd observe 'no job' state
  pairmd: O1 CannotRead no job
  [5]
  $ pairmd observe job 'no state'
  pairmd: O1 CannotRead no state
  [5]
  $ pairmd observe 'no job' 'no state'
  pairmd: O1 CannotRead no job
  [5]
  $ pairmd observe 'no job' state --each
  pairmd: O1 CannotRead no job
  [5]
  $ pairmd observe job 'no state' --each
  pairmd: O1 CannotRead no state
  [5]
  $ pairmd frame 'no state'
  pairmd: O1 CannotRead no state
  [5]
  $ pairmd frame state --each 'no job'
  pairmd: O1 CannotRead no job
  [5]
  $ pairmd frame 'no state' --each job
  pairmd: O1 CannotRead no state
  [5]
  $ pairmd frame 'no state' --each 'no job'
  pairmd: O1 CannotRead no job
  [5]
  $ pairmd energy 'no job' state
  pairmd: O1 CannotRead no job
  [5]
  $ pairmd energy job 'no state'
  pairmd: O1 CannotRead no state
  [5]
  $ pairmd energy 'no job' 'no state' --each
  pairmd: O1 CannotRead no job
  [5]
  $ pairmd forces 'no job' state
  pairmd: O1 CannotRead no job
  [5]
  $ pairmd forces job 'no state'
  pairmd: O1 CannotRead no state
  [5]
  $ pairmd forces job 'no state' --each
  pairmd: O1 CannotRead no state
  [5]
  $ pairmd velocities 'no job' state
  pairmd: O1 CannotRead no job
  [5]
  $ pairmd velocities job 'no state'
  pairmd: O1 CannotRead no state
  [5]
  $ pairmd velocities job 'no state' --each
  pairmd: O1 CannotRead no state
  [5]
  $ pairmd check 'no job'
  pairmd: O1 CannotRead no job
  [5]
  $ pairmd check 'no job' --code 'no listing'
  pairmd: O1 CannotRead no job
  [5]
  $ pairmd check job --code 'no listing'
  pairmd: O1 CannotRead no listing
  [5]
  $ pairmd code 'no job'
  pairmd: O1 CannotRead no job
  [5]
  $ pairmd curve 'no job'
  pairmd: O1 CannotRead no job
  [5]

A directory can't be read as a file.

  $ pairmd run . . --steps 1
  pairmd: O1 CannotRead .
  [5]
  $ pairmd run job . --steps 1
  pairmd: O1 CannotRead .
  [5]

The force on an atom always fits 64 bits with five atoms under a strong repulsion; with six it might not.

  $ sed '2c energy 2e7/r' job > strong
  $ cat > five << END
  > pairmd state 1
  > title five atoms
  > step 0
  > atoms 5
  > box 200000 200000 200000
  >     1AR      AR 0 0 0 0 0 0
  >     1AR      AR 500000000 0 0 500000000 0 0
  >     1AR      AR 1000000000 0 0 1000000000 0 0
  >     1AR      AR 1500000000 0 0 1500000000 0 0
  >     1AR      AR 2000000000 0 0 2000000000 0 0
  > END
  $ cat > six << END
  > pairmd state 1
  > title six atoms
  > step 0
  > atoms 6
  > box 200000 200000 200000
  >     1AR      AR 0 0 0 0 0 0
  >     1AR      AR 500000000 0 0 500000000 0 0
  >     1AR      AR 1000000000 0 0 1000000000 0 0
  >     1AR      AR 1500000000 0 0 1500000000 0 0
  >     1AR      AR 2000000000 0 0 2000000000 0 0
  >     1AR      AR 2500000000 0 0 2500000000 0 0
  > END
  $ pairmd run strong five --steps 0
  pairmd state 1
  title five atoms
  step 0
  atoms 5
  box 200000 200000 200000
      1AR      AR 0 0 0 0 0 0
      1AR      AR 500000000 0 0 500000000 0 0
      1AR      AR 1000000000 0 0 1000000000 0 0
      1AR      AR 1500000000 0 0 1500000000 0 0
      1AR      AR 2000000000 0 0 2000000000 0 0
  $ pairmd run strong six --steps 0
  pairmd: A3 ForceRange
  [1]
