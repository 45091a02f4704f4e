# Energies of states

The energy of a state is an integer of 2^-32 kJ/mol: for two atoms apart, at the same position, and beyond the cutoff;
and for no atoms.

  $ pairmd energy job state
  energy 8589934592
  $ with state 7 '    1AR      AR 1073741824 0 0 1073741824 0 0' pairmd energy job state
  energy 21474836485
  $ with state 6 '    1AR      AR 0 0 0 0 0 0' pairmd energy job state
  energy 0
  $ cat > nothing << END
  > pairmd state 1
  > title nothing
  > step 5
  > atoms 0
  > box 200000 200000 200000
  > END
  $ pairmd energy job nothing
  energy 0

The derivative omits a constant whose value overflows, but the energy needs it.

  $ with job 2 'energy 1/r+(2000000000+2000000000)' pairmd run job state --steps 1
  pairmd state 1
  title two atoms
  step 1
  atoms 2
  box 200000 200000 200000
      1AR      AR 1073741824 0 0 1073707464 0 0
      1AR      AR 2147483648 0 0 2147518008 0 0
  $ with job 2 'energy 1/r+(2000000000+2000000000)' pairmd energy job state
  pairmd: V2 Fault AR AR r 858993459 pc 5 F1 Overflow
  [3]

File names may contain blanks.

  $ cat job > 'a job'
  $ cat state > 'a state'
  $ pairmd energy 'a job' 'a state'
  energy 8589934592
