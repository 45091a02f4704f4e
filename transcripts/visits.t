# States of a run

The whole states after 0, 1 and 2 steps, with any number of workers. `run` prints the same states after these numbers of
steps.

  $ workers pairmd states job state --steps 2 --every 1
  pairmd state 1
  title two atoms
  step 0
  atoms 2
  box 200000 200000 200000
      1AR      AR 1073741824 0 0 1073741824 0 0
      1AR      AR 2147483648 0 0 2147483648 0 0
  pairmd state 1
  title two atoms
  step 1
  atoms 2
  box 200000 200000 200000
      1AR      AR 1073741824 0 0 1073707464 0 0
      1AR      AR 2147483648 0 0 2147518008 0 0
  pairmd state 1
  title two atoms
  step 2
  atoms 2
  box 200000 200000 200000
      1AR      AR 1073707464 0 0 1073638749 0 0
      1AR      AR 2147518008 0 0 2147586723 0 0
  $ pairmd run job state --steps 50 > fifty
  $ pairmd run job state --steps 100 > hundred
  $ cat state fifty hundred > all
  $ workers pairmd states job state --steps 100 --every 50 > states
  $ cmp states all

Steps after the last state change nothing. The last state may come before the last step.

  $ pairmd states job state --steps 149 --every 50 > longer
  $ cmp states longer
  $ pairmd states job state --steps 99 --every 50 > shorter
  $ cat state fifty > two
  $ cmp two shorter
  $ pairmd states job state --steps 49 --every 50 > one
  $ cmp state one
  $ pairmd states job state --steps 0 --every 1000000000000 > one
  $ cmp state one

Forward and back print the same states, in reverse order.

  $ cat hundred fifty state > home
  $ workers pairmd states job hundred --steps 100 --every 50 --back > back
  $ cmp home back
  $ pairmd states --back --every=+50 job --steps=+100 hundred > again
  $ cmp home again

States with other bits are of version 2.

  $ with job 6 'bits 24' pairmd start job gro > begun
  $ with job 6 'bits 24' pairmd run job begun --steps 3 > third
  $ cat begun third > both
  $ with job 6 'bits 24' pairmd states job begun --steps 5 --every 3 > states
  $ cmp states both

Progress counts the steps up to the last state.

  $ pairmd states job state --steps 5 --every 2 --progress
  pairmd state 1
  title two atoms
  step 0
  atoms 2
  box 200000 200000 200000
      1AR      AR 1073741824 0 0 1073741824 0 0
      1AR      AR 2147483648 0 0 2147483648 0 0
  pairmd state 1
  title two atoms
  step 2
  atoms 2
  box 200000 200000 200000
      1AR      AR 1073707464 0 0 1073638749 0 0
      1AR      AR 2147518008 0 0 2147586723 0 0
  pairmd state 1
  title two atoms
  step 4
  atoms 2
  box 200000 200000 200000
      1AR      AR 1073535687 0 0 1073398292 0 0
      1AR      AR 2147689785 0 0 2147827180 0 0
  pairmd: 1 of 4 steps
  pairmd: 2 of 4 steps
  pairmd: 3 of 4 steps
  pairmd: 4 of 4 steps

The step counter must have room for all steps. `states` rejects every job and state that `run` rejects.

  $ with state 3 'step 9223372036854775806' pairmd states job state --steps 2 --every 2
  pairmd: A4 StepRange
  [1]
  $ with state 3 'step 9223372036854775807' pairmd states job state --steps 1 --every 2
  pairmd: A4 StepRange
  [1]
  $ with job 4 'cutoff 1.5' pairmd states job state --steps 2 --every 2
  pairmd: A2 CutoffTooLong
  [1]

If the output fails it holds the beginning of the states. If an allocation fails the output holds whole states.

  $ cat > point << END
  > pairmd state 1
  > title point
  > step 0
  > atoms 1
  > box 200000 200000 200000
  >     1AR      AR 0 0 0 0 0 0
  > END
  $ outputs pairmd states job point --steps 1 --every 1
  0-189: a beginning, pairmd: O2 CannotWrite [5]
  190: all
  $ requests pairmd states job state --steps 2 --every 1
  pairmd: Memory [4]
  all
  pairmd state 1
  title two atoms
  step 0
  atoms 2
  box 200000 200000 200000
      1AR      AR 1073741824 0 0 1073741824 0 0
      1AR      AR 2147483648 0 0 2147483648 0 0
  pairmd: Memory after 0 steps [4]
  pairmd state 1
  title two atoms
  step 0
  atoms 2
  box 200000 200000 200000
      1AR      AR 1073741824 0 0 1073741824 0 0
      1AR      AR 2147483648 0 0 2147483648 0 0
  pairmd state 1
  title two atoms
  step 1
  atoms 2
  box 200000 200000 200000
      1AR      AR 1073741824 0 0 1073707464 0 0
      1AR      AR 2147483648 0 0 2147518008 0 0
  pairmd: Memory after 1 steps [4]

Both numbers must be given and be in range.

  $ pairmd states job state --steps 1
  error: the following required arguments were not provided:
    --every <k>
  
  Usage: pairmd states --steps <n> --every <k> <JOB> <STATE>
  
  For more information, try '--help'.
  [2]
  $ pairmd states job state --every 1
  error: the following required arguments were not provided:
    --steps <n>
  
  Usage: pairmd states --steps <n> --every <k> <JOB> <STATE>
  
  For more information, try '--help'.
  [2]
  $ pairmd states job state --steps 1 --every 0
  error: invalid value '0' for '--every <k>': not a number from 1 to 1000000000000, such as 50 or 1e3
  
  Usage: pairmd states [OPTIONS] --steps <n> --every <k> <JOB> <STATE>
  
  For more information, try '--help'.
  [2]
