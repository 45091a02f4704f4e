# Trajectories

The frames after 0, 50 and 100 steps of 2 fs, one after another, with any number of workers. The title ends with the
time in ps and the step.

  $ workers pairmd trajectory job state --steps 100 --every 50
  two atoms t=   0.00000 step= 0
      2
      1AR      AR    1   0.500   0.000   0.000
      1AR      AR    2   1.000   0.000   0.000
     2.00000   2.00000   2.00000
  two atoms t=   0.10000 step= 50
      2
      1AR      AR    1   0.480   0.000   0.000
      1AR      AR    2   1.020   0.000   0.000
     2.00000   2.00000   2.00000
  two atoms t=   0.20000 step= 100
      2
      1AR      AR    1   0.426   0.000   0.000
      1AR      AR    2   1.074   0.000   0.000
     2.00000   2.00000   2.00000

Except for its title, each frame is the frame of the state that `run` prints.

  $ pairmd run job state --steps 50 > fifty
  $ pairmd run job state --steps 100 > hundred
  $ pairmd frame state > frame0
  $ pairmd frame fifty > frame50
  $ pairmd frame hundred > frame100
  $ sed '1c two atoms t=   0.00000 step= 0' frame0 > film0
  $ sed '1c two atoms t=   0.10000 step= 50' frame50 > film50
  $ sed '1c two atoms t=   0.20000 step= 100' frame100 > film100
  $ cat film0 film50 film100 > frames
  $ pairmd trajectory job state --steps 100 --every 50 > film
  $ cmp film frames

Steps after the last frame change nothing. The last frame may come before the last step.

  $ pairmd trajectory job state --steps 149 --every 50 > longer
  $ cmp film longer
  $ pairmd trajectory job state --steps 99 --every 50 > shorter
  $ cat film0 film50 > two
  $ cmp two shorter
  $ pairmd trajectory job state --steps 49 --every 50 > one
  $ cmp film0 one
  $ pairmd trajectory job state --steps 0 --every 1000000000000 > one
  $ cmp film0 one

`start` accepts each of these frames.

  $ pairmd start job film --frame 1 > begun
  $ pairmd start job film0 > alone
  $ cmp begun alone
  $ pairmd start job film --frame 2 > begun
  $ pairmd start job film50 > alone
  $ cmp begun alone
  $ pairmd start job film --frame 3 > begun
  $ pairmd start job film100 > alone
  $ cmp begun alone
  $ pairmd start job film --frame 4
  pairmd: G8 NoSuchFrame
  [1]

Running back from the last state prints the same frames in reverse order.

  $ workers pairmd trajectory job hundred --steps 100 --every 50 --back > home
  $ cat film100 film50 film0 > frames
  $ cmp home frames
  $ pairmd trajectory --back --every=+50 job --steps=+100 hundred > again
  $ cmp home again
  $ workers pairmd trajectory job state --steps 2 --every 1 --back
  two atoms t=   0.00000 step= 0
      2
      1AR      AR    1   0.500   0.000   0.000
      1AR      AR    2   1.000   0.000   0.000
     2.00000   2.00000   2.00000
  two atoms t=  -0.00200 step= -1
      2
      1AR      AR    1   0.500   0.000   0.000
      1AR      AR    2   1.000   0.000   0.000
     2.00000   2.00000   2.00000
  two atoms t=  -0.00400 step= -2
      2
      1AR      AR    1   0.500   0.000   0.000
      1AR      AR    2   1.000   0.000   0.000
     2.00000   2.00000   2.00000

Twelve atoms in oblique rows. A run that stops at each frame and continues from there has the same frames.

  $ cat > rows << END
  > pairmd state 1
  > title rows
  > step 40
  > atoms 12
  > box 200000 200000 200000
  >     1AR      AR 0 0 0 0 0 0
  >     1AR      AR 0 1073741824 134217728 0 1073741824 134217728
  >     1AR      AR 0 2147483648 268435456 0 2147483648 268435456
  >     1AR      AR 1073741824 0 268435456 1073741824 0 268435456
  >     1AR      AR 1073741824 1073741824 402653184 1073741824 1073741824 402653184
  >     1AR      AR 1073741824 2147483648 536870912 1073741824 2147483648 536870912
  >     1AR      AR 2147483648 0 536870912 2147483648 0 536870912
  >     1AR      AR 2147483648 1073741824 671088640 2147483648 1073741824 671088640
  >     1AR      AR 2147483648 2147483648 805306368 2147483648 2147483648 805306368
  >     1AR      AR 3221225472 0 805306368 3221225472 0 805306368
  >     1AR      AR 3221225472 1073741824 939524096 3221225472 1073741824 939524096
  >     1AR      AR 3221225472 2147483648 1073741824 3221225472 2147483648 1073741824
  > END
  $ pairmd run job rows --steps 100 > rows140
  $ pairmd run job rows140 --steps 100 > rows240
  $ pairmd run job rows240 --steps 100 > rows340
  $ pairmd frame rows > frame40
  $ sed '1c rows t=   0.08000 step= 40' frame40 > film40
  $ pairmd frame rows140 > frame140
  $ sed '1c rows t=   0.28000 step= 140' frame140 > film140
  $ pairmd frame rows240 > frame240
  $ sed '1c rows t=   0.48000 step= 240' frame240 > film240
  $ pairmd frame rows340 > frame340
  $ sed '1c rows t=   0.68000 step= 340' frame340 > film340
  $ cat film40 film140 film240 film340 > frames
  $ workers pairmd trajectory job rows --steps 300 --every 100 > film
  $ cmp film frames
  $ cat film340 film240 film140 film40 > frames
  $ workers pairmd trajectory job rows340 --steps 300 --every 100 --back > film
  $ cmp film frames

Times are integers of fs.

  $ cat > point << END
  > pairmd state 1
  > title point
  > step 0
  > atoms 1
  > box 200000 200000 200000
  >     1AR      AR 0 0 0 0 0 0
  > END
  $ with job 5 'dt 1' with point 3 'step 999999999' pairmd trajectory job point --steps 1 --every 1
  point t= 999999.99900 step= 999999999
      1
      1AR      AR    1   0.000   0.000   0.000
     2.00000   2.00000   2.00000
  point t= 1000000.00000 step= 1000000000
      1
      1AR      AR    1   0.000   0.000   0.000
     2.00000   2.00000   2.00000
  $ with job 5 'dt 1000' with point 3 'step -9223372036854775808' pairmd trajectory job point --steps 0 --every 1
  point t= -9223372036854775808.00000 step= -9223372036854775808
      1
      1AR      AR    1   0.000   0.000   0.000
     2.00000   2.00000   2.00000
  $ with job 5 'dt 999' with point 3 'step 9223372036854775807' pairmd trajectory job point --steps 0 --every 1
  point t= 9214148664817921031.19300 step= 9223372036854775807
      1
      1AR      AR    1   0.000   0.000   0.000
     2.00000   2.00000   2.00000
  $ with job 5 'dt 7' with point 3 'step -1' pairmd trajectory job point --steps 1 --every 1
  point t=  -0.00700 step= -1
      1
      1AR      AR    1   0.000   0.000   0.000
     2.00000   2.00000   2.00000
  point t=   0.00000 step= 0
      1
      1AR      AR    1   0.000   0.000   0.000
     2.00000   2.00000   2.00000

The state's own title is printed up to the first ` t= ` in it.

  $ with point 2 'title liquid t=   5.00000 step= 3' pairmd trajectory job point --steps 0 --every 1
  liquid t=   0.00000 step= 0
      1
      1AR      AR    1   0.000   0.000   0.000
     2.00000   2.00000   2.00000
  $ with point 2 'title a t= b t= c' pairmd trajectory job point --steps 0 --every 1
  a t=   0.00000 step= 0
      1
      1AR      AR    1   0.000   0.000   0.000
     2.00000   2.00000   2.00000
  $ with point 2 'title a t=b t c at= d t=' pairmd trajectory job point --steps 0 --every 1
  a t=b t c at= d t= t=   0.00000 step= 0
      1
      1AR      AR    1   0.000   0.000   0.000
     2.00000   2.00000   2.00000
  $ with point 2 'title  t= ' pairmd trajectory job point --steps 0 --every 1
   t=   0.00000 step= 0
      1
      1AR      AR    1   0.000   0.000   0.000
     2.00000   2.00000   2.00000
  $ with point 2 'title ' pairmd trajectory job point --steps 0 --every 1
   t=   0.00000 step= 0
      1
      1AR      AR    1   0.000   0.000   0.000
     2.00000   2.00000   2.00000

`trajectory` rejects every job and state that `run` rejects. The step counter must have room for all steps, also after
the last frame.

  $ with job 2 'energy 1/x' pairmd trajectory job state --steps 2 --every 1
  pairmd: E04 UnknownName x
  [3]
  $ with job 2 'energy 1/(r-0.5)' pairmd trajectory job state --steps 2 --every 1
  pairmd: V2 Fault AR AR r 2147390967 pc 12 F1 Overflow
  [3]
  $ with point 3 'step 9223372036854775805' pairmd trajectory job point --steps 3 --every 2
  pairmd: A4 StepRange
  [1]
  $ with point 3 'step -9223372036854775806' pairmd trajectory job point --steps 3 --every 2 --back
  pairmd: A4 StepRange
  [1]
  $ pairmd trajectory job 'no file' --steps 3 --every 2
  pairmd: O1 CannotRead no file
  [5]

Arguments that don't specify a trajectory.

  $ pairmd trajectory job state --steps 3 --every 0
  error: invalid value '0' for '--every <k>': not a number from 1 to 1000000000000, such as 50 or 1e3
  
  Usage: pairmd trajectory [OPTIONS] --steps <n> --every <k> <JOB> <STATE>
  
  For more information, try '--help'.
  [2]
  $ pairmd trajectory job state --steps 3
  error: the following required arguments were not provided:
    --every <k>
  
  Usage: pairmd trajectory --steps <n> --every <k> <JOB> <STATE>
  
  For more information, try '--help'.
  [2]
  $ pairmd trajectory job state --steps 3 --every 1000000000001
  error: invalid value '1000000000001' for '--every <k>': not a number from 1 to 1000000000000, such as 50 or 1e3
  
  Usage: pairmd trajectory [OPTIONS] --steps <n> --every <k> <JOB> <STATE>
  
  For more information, try '--help'.
  [2]
  $ pairmd trajectory job state --steps 3 --every 1 --back --back
  error: the argument '--back' cannot be used multiple times
  
  Usage: pairmd trajectory [OPTIONS] --steps <n> --every <k> <JOB> <STATE>
  
  For more information, try '--help'.
  [2]
  $ pairmd run job state --steps 3 --back
  error: unexpected argument '--back' found
  
    tip: to pass '--back' as a value, use '-- --back'
  
  Usage: pairmd run --steps <n> <JOB> <STATE>
  
  For more information, try '--help'.
  [2]

If the output fails it holds the beginning of the frames.

  $ outputs pairmd trajectory job state --steps 2 --every 1
  0-473: a beginning, pairmd: O2 CannotWrite [5]
  474: all
  $ outputs pairmd trajectory job state --steps 2 --every 1 --back --workers 3
  0-475: a beginning, pairmd: O2 CannotWrite [5]
  476: all

If an allocation fails the output holds whole frames. The error prints the number of steps completed.

  $ requests pairmd trajectory job point --steps 2 --every 1
  pairmd: Memory [4]
  all
  pairmd: Memory after 0 steps [4]
  point t=   0.00000 step= 0
      1
      1AR      AR    1   0.000   0.000   0.000
     2.00000   2.00000   2.00000
  pairmd: Memory after 0 steps [4]
  point t=   0.00000 step= 0
      1
      1AR      AR    1   0.000   0.000   0.000
     2.00000   2.00000   2.00000
  pairmd: Memory after 1 steps [4]
  point t=   0.00000 step= 0
      1
      1AR      AR    1   0.000   0.000   0.000
     2.00000   2.00000   2.00000
  point t=   0.00200 step= 1
      1
      1AR      AR    1   0.000   0.000   0.000
     2.00000   2.00000   2.00000
  pairmd: Memory after 1 steps [4]
  point t=   0.00000 step= 0
      1
      1AR      AR    1   0.000   0.000   0.000
     2.00000   2.00000   2.00000
  point t=   0.00200 step= 1
      1
      1AR      AR    1   0.000   0.000   0.000
     2.00000   2.00000   2.00000
  pairmd: Memory after 2 steps [4]
  $ requests pairmd trajectory job state --steps 3 --every 2 --back --workers 4
  pairmd: Memory [4]
  all
  pairmd: Memory after 0 steps [4]
  two atoms t=   0.00000 step= 0
      2
      1AR      AR    1   0.500   0.000   0.000
      1AR      AR    2   1.000   0.000   0.000
     2.00000   2.00000   2.00000
  pairmd: Memory after 0 steps [4]
  two atoms t=   0.00000 step= 0
      2
      1AR      AR    1   0.500   0.000   0.000
      1AR      AR    2   1.000   0.000   0.000
     2.00000   2.00000   2.00000
  pairmd: Memory after 1 steps [4]
  two atoms t=   0.00000 step= 0
      2
      1AR      AR    1   0.500   0.000   0.000
      1AR      AR    2   1.000   0.000   0.000
     2.00000   2.00000   2.00000
  pairmd: Memory after 2 steps [4]
