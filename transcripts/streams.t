# Streams of states

`--each` reads the texts of states one after another, as `states` prints them, and prints for each what the command
prints for it alone. One run gives all outputs.

  $ pairmd states job state --steps 4 --every 2 > run

The table is that of the run itself, in decimals and integers.

  $ pairmd observe job state --steps 4 --every 2 > table
  $ pairmd observe job run --each > rows
  $ cmp table rows
  $ pairmd observe job run --each
  # step time/ps potential/(kJ/mol) kinetic/(kJ/mol) total/(kJ/mol) temperature/K pressure/bar momentum-x/(u.nm/ps) momentum-y momentum-z nearest/nm core-pairs
  0 0.000 2.000000 0.000032 2.000032 0.003 1.384 0.000000 0.000000 0.000000 0.500000 0
  2 0.004 1.999616 0.000416 2.000032 0.033 1.384 0.000000 0.000000 0.000000 0.500096 0
  4 0.008 1.998721 0.001311 2.000032 0.105 1.385 0.000000 0.000000 0.000000 0.500320 0
  $ pairmd observe --exact job state --steps 4 --every 2 > table
  $ pairmd observe --exact job --each run > rows
  $ cmp table rows

The frames are those of `trajectory`.

  $ pairmd trajectory job state --steps 4 --every 2 > frames
  $ pairmd frame run --each job > each
  $ cmp frames each

Energies, forces and velocities follow a line with the step. Each is what the command prints of this state alone.

  $ pairmd energy job run --each
  step 0
  energy 8589934592
  step 2
  energy 8588285708
  step 4
  energy 8584441594
  $ pairmd forces job run --each
  step 0
      1AR      AR -17179869184 0 0
      1AR      AR 17179869184 0 0
  step 2
      1AR      AR -17173274293 0 0
      1AR      AR 17173274293 0 0
  step 4
      1AR      AR -17157904231 0 0
      1AR      AR 17157904231 0 0
  $ pairmd velocities job run --each
  step 0
      1AR      AR 0 0 0 0.000000 0.000000 0.000000
      1AR      AR 0 0 0 0.000000 0.000000 0.000000
  step 2
      1AR      AR -68715 0 0 -0.015999 0.000000 0.000000
      1AR      AR 68715 0 0 0.015999 0.000000 0.000000
  step 4
      1AR      AR -137395 0 0 -0.031990 0.000000 0.000000
      1AR      AR 137395 0 0 0.031990 0.000000 0.000000
  $ pairmd run job state --steps 4 > fourth
  $ pairmd energy job fourth
  energy 8584441594
  $ pairmd forces job fourth
      1AR      AR -17157904231 0 0
      1AR      AR 17157904231 0 0
  $ pairmd velocities job fourth
      1AR      AR -137395 0 0 -0.031990 0.000000 0.000000
      1AR      AR 137395 0 0 0.031990 0.000000 0.000000

## At the limits

One state is a stream of one. A file without a state is no stream.

  $ pairmd energy job state --each
  step 0
  energy 8589934592
  $ pairmd observe job state > alone
  $ pairmd observe job state --each > each
  $ cmp alone each
  $ printf '' > none
  $ pairmd observe job none --each
  pairmd: S2 Truncated in state 1
  [1]
  $ pairmd frame none --each job
  pairmd: S2 Truncated in state 1
  [1]

The third state is broken: the first two are printed. A line is counted in its own state.

  $ sed '20c     1AR      AR 1 2 3 4 5' run > broken
  $ pairmd energy job broken --each
  step 0
  energy 8589934592
  step 2
  energy 8588285708
  pairmd: S1 BadLine 6 in state 3
  [1]
  $ sed '15c pairmd state 3' run > broken
  $ pairmd frame broken --each job
  two atoms t=   0.00000 step= 0
      2
      1AR      AR    1   0.500   0.000   0.000
      1AR      AR    2   1.000   0.000   0.000
     2.00000   2.00000   2.00000
  two atoms t=   0.00400 step= 2
      2
      1AR      AR    1   0.500   0.000   0.000
      1AR      AR    2   1.000   0.000   0.000
     2.00000   2.00000   2.00000
  pairmd: S1 BadLine 1 in state 3
  [1]
  $ sed '16c titel two atoms' run > broken
  $ pairmd forces job broken --each
  step 0
      1AR      AR -17179869184 0 0
      1AR      AR 17179869184 0 0
  step 2
      1AR      AR -17173274293 0 0
      1AR      AR 17173274293 0 0
  pairmd: S1 BadLine 2 in state 3
  [1]
  $ sed '17c step x' run > broken
  $ pairmd energy job broken --each
  step 0
  energy 8589934592
  step 2
  energy 8588285708
  pairmd: S1 BadLine 3 in state 3
  [1]
  $ sed '18c atoms 3' run > broken
  $ pairmd energy job broken --each
  step 0
  energy 8589934592
  step 2
  energy 8588285708
  pairmd: S2 Truncated in state 3
  [1]
  $ sed '18c atoms two' run > broken
  $ pairmd energy job broken --each
  step 0
  energy 8589934592
  step 2
  energy 8588285708
  pairmd: S1 BadLine 4 in state 3
  [1]
  $ sed '18c atoms 1' run > broken
  $ pairmd energy job broken --each
  step 0
  energy 8589934592
  step 2
  energy 8588285708
  step 4
  energy 0
  pairmd: S1 BadLine 1 in state 4
  [1]
  $ sed '11c atoms 1' run > broken
  $ pairmd energy job broken --each
  step 0
  energy 8589934592
  step 2
  energy 0
  pairmd: S1 BadLine 1 in state 3
  [1]
  $ sed '19c box 0 1 1' run > broken
  $ pairmd energy job broken --each
  step 0
  energy 8589934592
  step 2
  energy 8588285708
  pairmd: S1 BadLine 5 in state 3
  [1]

  $ sed '17c step x' run > broken
  $ pairmd observe job broken --each
  # step time/ps potential/(kJ/mol) kinetic/(kJ/mol) total/(kJ/mol) temperature/K pressure/bar momentum-x/(u.nm/ps) momentum-y momentum-z nearest/nm core-pairs
  0 0.000 2.000000 0.000032 2.000032 0.003 1.384 0.000000 0.000000 0.000000 0.500000 0
  2 0.004 1.999616 0.000416 2.000032 0.033 1.384 0.000000 0.000000 0.000000 0.500096 0
  pairmd: S1 BadLine 3 in state 3
  [1]
  $ pairmd velocities job broken --each
  step 0
      1AR      AR 0 0 0 0.000000 0.000000 0.000000
      1AR      AR 0 0 0 0.000000 0.000000 0.000000
  step 2
      1AR      AR -68715 0 0 -0.015999 0.000000 0.000000
      1AR      AR 68715 0 0 0.015999 0.000000 0.000000
  pairmd: S1 BadLine 3 in state 3
  [1]

A stream that ends within a state is truncated, and after the last LF of a state it is whole. Text behind the last state
is the beginning of another one.

  $ beginnings run pairmd energy job run --each
  0-162: pairmd: S2 Truncated in state 1 [1]
  163: step 0
  energy 8589934592
  164-325: step 0
  energy 8589934592
  pairmd: S2 Truncated in state 2 [1]
  326: step 0
  energy 8589934592
  step 2
  energy 8588285708
  327-488: step 0
  energy 8589934592
  step 2
  energy 8588285708
  pairmd: S2 Truncated in state 3 [1]
  489: step 0
  energy 8589934592
  step 2
  energy 8588285708
  step 4
  energy 8584441594
  $ pairmd states job state --steps 4 --every 2 > run
  $ printf 'pairmd' > more
  $ cat run more > longer
  $ pairmd energy job longer --each
  step 0
  energy 8589934592
  step 2
  energy 8588285708
  step 4
  energy 8584441594
  pairmd: S2 Truncated in state 4
  [1]
  $ printf '\n' > more
  $ cat run more > longer
  $ pairmd energy job longer --each
  step 0
  energy 8589934592
  step 2
  energy 8588285708
  step 4
  energy 8584441594
  pairmd: S1 BadLine 1 in state 4
  [1]

States of other bits, atoms or boxes are each judged under the job.

  $ with job 6 'bits 24' pairmd start job gro > other
  $ cat state other state > mixed
  $ pairmd energy job mixed --each
  step 0
  energy 8589934592
  pairmd: A6 BitsDiffer in state 2
  [1]
  $ pairmd energy job other --each
  pairmd: A6 BitsDiffer in state 1
  [1]
  $ sed '6c     1AR      KR 1073741824 0 0 1073741824 0 0' state > foreign
  $ cat state foreign > mixed
  $ pairmd observe job mixed --each
  # step time/ps potential/(kJ/mol) kinetic/(kJ/mol) total/(kJ/mol) temperature/K pressure/bar momentum-x/(u.nm/ps) momentum-y momentum-z nearest/nm core-pairs
  0 0.000 2.000000 0.000032 2.000032 0.003 1.384 0.000000 0.000000 0.000000 0.500000 0
  pairmd: A1 UnknownType 1 in state 2
  [1]
  $ sed '5c box 100000 200000 200000' state > narrow
  $ cat state state narrow > mixed
  $ pairmd velocities job mixed --each
  step 0
      1AR      AR 0 0 0 0.000000 0.000000 0.000000
      1AR      AR 0 0 0 0.000000 0.000000 0.000000
  step 0
      1AR      AR 0 0 0 0.000000 0.000000 0.000000
      1AR      AR 0 0 0 0.000000 0.000000 0.000000
  pairmd: A2 CutoffTooLong in state 3
  [1]
  $ printf 'pairmd state 1\ntitle none\nstep -3\natoms 0\nbox 300000 300000 300000\n' > empty
  $ printf 'pairmd state 1\ntitle one\nstep 7\natoms 1\nbox 400000 300000 300000\n    1AR      AR 5 0 0 9 0 0\n' > single
  $ cat state empty single state > mixed
  $ pairmd observe job mixed --each
  # step time/ps potential/(kJ/mol) kinetic/(kJ/mol) total/(kJ/mol) temperature/K pressure/bar momentum-x/(u.nm/ps) momentum-y momentum-z nearest/nm core-pairs
  0 0.000 2.000000 0.000032 2.000032 0.003 1.384 0.000000 0.000000 0.000000 0.500000 0
  -3 -0.006 0.000000 0.000000 0.000000 - 0.000 0.000000 0.000000 0.000000 - 0
  7 0.014 0.000000 0.000000 0.000000 - 0.000 0.000002 0.000000 0.000000 - 0
  0 0.000 2.000000 0.000032 2.000032 0.003 1.384 0.000000 0.000000 0.000000 0.500000 0
  $ pairmd energy job mixed --each
  step 0
  energy 8589934592
  step -3
  energy 0
  step 7
  energy 0
  step 0
  energy 8589934592
  $ pairmd forces job mixed --each
  step 0
      1AR      AR -17179869184 0 0
      1AR      AR 17179869184 0 0
  step -3
  step 7
      1AR      AR 0 0 0
  step 0
      1AR      AR -17179869184 0 0
      1AR      AR 17179869184 0 0
  $ pairmd frame mixed --each job
  two atoms t=   0.00000 step= 0
      2
      1AR      AR    1   0.500   0.000   0.000
      1AR      AR    2   1.000   0.000   0.000
     2.00000   2.00000   2.00000
  none t=  -0.00600 step= -3
      0
     3.00000   3.00000   3.00000
  one t=   0.01400 step= 7
      1
      1AR      AR    1   0.000   0.000   0.000
     4.00000   3.00000   3.00000
  two atoms t=   0.00000 step= 0
      2
      1AR      AR    1   0.500   0.000   0.000
      1AR      AR    2   1.000   0.000   0.000
     2.00000   2.00000   2.00000

The job's text is judged first, then the first state, then the code.

  $ pairmd energy none run --each
  pairmd: J1 BadLine 1
  [1]
  $ pairmd energy none none --each
  pairmd: J1 BadLine 1
  [1]
  $ with job 2 'energy 1/(r-r)' pairmd energy job run --each
  pairmd: V2 Fault AR AR r 858993459 pc 12 F2 ZeroDivisor
  [3]
  $ with job 2 'energy 1/(r-r)' pairmd energy job broken --each
  pairmd: V2 Fault AR AR r 858993459 pc 12 F2 ZeroDivisor
  [3]
  $ with job 2 'energy 1/(r-r)' pairmd energy job none --each
  pairmd: S2 Truncated in state 1
  [1]
  $ with job 2 'energy step(r-0.5)/(r-0.5)' pairmd forces job run --each
  pairmd: V2 Fault AR AR r 2147418113 pc 20 F2 ZeroDivisor
  [3]
  $ with job 2 'energy 0*sqrt(r-0.5)' pairmd observe job run --each
  pairmd: V2 Fault AR AR r 858993459 pc 8 F3 NegativeRoot
  [3]

Files.

  $ pairmd energy job missing --each
  pairmd: O1 CannotRead missing
  [5]
  $ pairmd energy missing run --each
  pairmd: O1 CannotRead missing
  [5]
  $ pairmd frame run --each missing
  pairmd: O1 CannotRead missing
  [5]

## Outputs that fail, memory that runs out

  $ outputs pairmd observe job run --each
  0-412: a beginning, pairmd: O2 CannotWrite [5]
  413: all
  $ outputs pairmd frame run --each job
  0-473: a beginning, pairmd: O2 CannotWrite [5]
  474: all
  $ outputs pairmd energy job run --each
  0-74: a beginning, pairmd: O2 CannotWrite [5]
  75: all
  $ outputs pairmd forces job run --each
  0-215: a beginning, pairmd: O2 CannotWrite [5]
  216: all
  $ outputs pairmd velocities job run --each
  0-336: a beginning, pairmd: O2 CannotWrite [5]
  337: all
  $ requests pairmd observe job run --each
  pairmd: Memory [4]
  all
  # step time/ps potential/(kJ/mol) kinetic/(kJ/mol) total/(kJ/mol) temperature/K pressure/bar momentum-x/(u.nm/ps) momentum-y momentum-z nearest/nm core-pairs
  0 0.000 2.000000 0.000032 2.000032 0.003 1.384 0.000000 0.000000 0.000000 0.500000 0
  pairmd: Memory [4]
  # step time/ps potential/(kJ/mol) kinetic/(kJ/mol) total/(kJ/mol) temperature/K pressure/bar momentum-x/(u.nm/ps) momentum-y momentum-z nearest/nm core-pairs
  0 0.000 2.000000 0.000032 2.000032 0.003 1.384 0.000000 0.000000 0.000000 0.500000 0
  2 0.004 1.999616 0.000416 2.000032 0.033 1.384 0.000000 0.000000 0.000000 0.500096 0
  pairmd: Memory [4]
  $ requests pairmd frame run --each job
  pairmd: Memory [4]
  all
  two atoms t=   0.00000 step= 0
      2
      1AR      AR    1   0.500   0.000   0.000
      1AR      AR    2   1.000   0.000   0.000
     2.00000   2.00000   2.00000
  pairmd: Memory [4]
  two atoms t=   0.00000 step= 0
      2
      1AR      AR    1   0.500   0.000   0.000
      1AR      AR    2   1.000   0.000   0.000
     2.00000   2.00000   2.00000
  two atoms t=   0.00400 step= 2
      2
      1AR      AR    1   0.500   0.000   0.000
      1AR      AR    2   1.000   0.000   0.000
     2.00000   2.00000   2.00000
  pairmd: Memory [4]
  $ requests pairmd energy job run --each
  pairmd: Memory [4]
  all
  step 0
  energy 8589934592
  pairmd: Memory [4]
  step 0
  energy 8589934592
  step 2
  energy 8588285708
  pairmd: Memory [4]
  $ requests pairmd forces job run --each
  pairmd: Memory [4]
  all
  step 0
      1AR      AR -17179869184 0 0
      1AR      AR 17179869184 0 0
  pairmd: Memory [4]
  step 0
      1AR      AR -17179869184 0 0
      1AR      AR 17179869184 0 0
  step 2
      1AR      AR -17173274293 0 0
      1AR      AR 17173274293 0 0
  pairmd: Memory [4]
  $ requests pairmd velocities job run --each
  pairmd: Memory [4]
  all
  step 0
      1AR      AR 0 0 0 0.000000 0.000000 0.000000
      1AR      AR 0 0 0 0.000000 0.000000 0.000000
  pairmd: Memory [4]
  step 0
      1AR      AR 0 0 0 0.000000 0.000000 0.000000
      1AR      AR 0 0 0 0.000000 0.000000 0.000000
  step 2
      1AR      AR -68715 0 0 -0.015999 0.000000 0.000000
      1AR      AR 68715 0 0 0.015999 0.000000 0.000000
  pairmd: Memory [4]
  $ requests pairmd energy job broken --each
  pairmd: Memory [4]
  all
  step 0
  energy 8589934592
  pairmd: Memory [4]
  step 0
  energy 8589934592
  step 2
  energy 8588285708
  pairmd: Memory [4]

## Words

`observe --each` makes no steps. The number 0 may be given.

  $ pairmd observe job run --each > rows
  $ pairmd observe job run --each --steps 0 > each
  $ cmp rows each
  $ pairmd observe job run --steps 0 --every 5 --back --each --progress --workers 3 > each
  $ cmp rows each
  $ pairmd observe job run --each --steps 2
  error: the argument '--each' cannot be used with '--steps <n>'
  
  Usage: pairmd observe [OPTIONS] <JOB> <STATE>
  
  For more information, try '--help'.
  [2]
  $ pairmd observe job run --steps=1 --each --exact
  error: the argument '--each' cannot be used with '--steps <n>'
  
  Usage: pairmd observe [OPTIONS] <JOB> <STATE>
  
  For more information, try '--help'.
  [2]
  $ pairmd observe job run --each --every 0
  error: invalid value '0' for '--every <k>': not a number from 1 to 1000000000000, such as 50 or 1e3
  
  Usage: pairmd observe [OPTIONS] <JOB> <STATE>
  
  For more information, try '--help'.
  [2]
  $ pairmd frame run --each
  error: a value is required for '--each <JOB>' but none was supplied
  
  For more information, try '--help'.
  [2]
  $ pairmd energy job run --each job
  error: unexpected argument 'job' found
  
  Usage: pairmd energy [OPTIONS] <JOB> <STATE>
  
  For more information, try '--help'.
  [2]
  $ pairmd run job run --each --steps 1
  error: unexpected argument '--each' found
  
    tip: to pass '--each' as a value, use '-- --each'
  
  Usage: pairmd run --steps <n> <JOB> <STATE>
  
  For more information, try '--help'.
  [2]
  $ pairmd energy job run --each --each
  error: the argument '--each' cannot be used multiple times
  
  Usage: pairmd energy [OPTIONS] <JOB> <STATE>
  
  For more information, try '--help'.
  [2]
