# Progress

With `--progress`, a line on standard error follows each step that completes another hundredth of all steps, for any
number of workers. Standard output is the same as without it.

0, 1 and 7 steps.

  $ workers pairmd run job state --steps 0 --progress > told
  $ cmp told state
  $ workers pairmd run job state --steps 1 --progress > told
  pairmd: 1 of 1 steps
  $ pairmd run job state --steps 1 > one
  $ cmp told one
  $ workers pairmd run job state --steps 7 --progress > seven
  pairmd: 1 of 7 steps
  pairmd: 2 of 7 steps
  pairmd: 3 of 7 steps
  pairmd: 4 of 7 steps
  pairmd: 5 of 7 steps
  pairmd: 6 of 7 steps
  pairmd: 7 of 7 steps
  $ pairmd run job state --steps 7 > told
  $ cmp told seven

Back from the state after 7 steps, and on from it: each run counts its own steps.

  $ workers pairmd back job seven --steps 7 --progress > told
  pairmd: 1 of 7 steps
  pairmd: 2 of 7 steps
  pairmd: 3 of 7 steps
  pairmd: 4 of 7 steps
  pairmd: 5 of 7 steps
  pairmd: 6 of 7 steps
  pairmd: 7 of 7 steps
  $ cmp told state
  $ workers pairmd back --progress job --steps=2 seven > told
  pairmd: 1 of 2 steps
  pairmd: 2 of 2 steps
  $ pairmd back job seven --steps 2 > five
  $ cmp told five
  $ pairmd run --progress job seven --steps 3 > told
  pairmd: 1 of 3 steps
  pairmd: 2 of 3 steps
  pairmd: 3 of 3 steps
  $ pairmd run job state --steps 10 > ten
  $ cmp told ten
  $ returns pairmd run job state --steps 2 --progress
  pairmd state 1
  title two atoms
  step 2
  atoms 2
  box 200000 200000 200000
      1AR      AR 1073707464 0 0 1073638749 0 0
      1AR      AR 2147518008 0 0 2147586723 0 0
  pairmd: 1 of 2 steps
  pairmd: 2 of 2 steps

With 100 steps there is a line for each step.

  $ pairmd run job state --steps 100 --progress > told
  pairmd: 1 of 100 steps
  pairmd: 2 of 100 steps
  pairmd: 3 of 100 steps
  pairmd: 4 of 100 steps
  pairmd: 5 of 100 steps
  pairmd: 6 of 100 steps
  pairmd: 7 of 100 steps
  pairmd: 8 of 100 steps
  pairmd: 9 of 100 steps
  pairmd: 10 of 100 steps
  pairmd: 11 of 100 steps
  pairmd: 12 of 100 steps
  pairmd: 13 of 100 steps
  pairmd: 14 of 100 steps
  pairmd: 15 of 100 steps
  pairmd: 16 of 100 steps
  pairmd: 17 of 100 steps
  pairmd: 18 of 100 steps
  pairmd: 19 of 100 steps
  pairmd: 20 of 100 steps
  pairmd: 21 of 100 steps
  pairmd: 22 of 100 steps
  pairmd: 23 of 100 steps
  pairmd: 24 of 100 steps
  pairmd: 25 of 100 steps
  pairmd: 26 of 100 steps
  pairmd: 27 of 100 steps
  pairmd: 28 of 100 steps
  pairmd: 29 of 100 steps
  pairmd: 30 of 100 steps
  pairmd: 31 of 100 steps
  pairmd: 32 of 100 steps
  pairmd: 33 of 100 steps
  pairmd: 34 of 100 steps
  pairmd: 35 of 100 steps
  pairmd: 36 of 100 steps
  pairmd: 37 of 100 steps
  pairmd: 38 of 100 steps
  pairmd: 39 of 100 steps
  pairmd: 40 of 100 steps
  pairmd: 41 of 100 steps
  pairmd: 42 of 100 steps
  pairmd: 43 of 100 steps
  pairmd: 44 of 100 steps
  pairmd: 45 of 100 steps
  pairmd: 46 of 100 steps
  pairmd: 47 of 100 steps
  pairmd: 48 of 100 steps
  pairmd: 49 of 100 steps
  pairmd: 50 of 100 steps
  pairmd: 51 of 100 steps
  pairmd: 52 of 100 steps
  pairmd: 53 of 100 steps
  pairmd: 54 of 100 steps
  pairmd: 55 of 100 steps
  pairmd: 56 of 100 steps
  pairmd: 57 of 100 steps
  pairmd: 58 of 100 steps
  pairmd: 59 of 100 steps
  pairmd: 60 of 100 steps
  pairmd: 61 of 100 steps
  pairmd: 62 of 100 steps
  pairmd: 63 of 100 steps
  pairmd: 64 of 100 steps
  pairmd: 65 of 100 steps
  pairmd: 66 of 100 steps
  pairmd: 67 of 100 steps
  pairmd: 68 of 100 steps
  pairmd: 69 of 100 steps
  pairmd: 70 of 100 steps
  pairmd: 71 of 100 steps
  pairmd: 72 of 100 steps
  pairmd: 73 of 100 steps
  pairmd: 74 of 100 steps
  pairmd: 75 of 100 steps
  pairmd: 76 of 100 steps
  pairmd: 77 of 100 steps
  pairmd: 78 of 100 steps
  pairmd: 79 of 100 steps
  pairmd: 80 of 100 steps
  pairmd: 81 of 100 steps
  pairmd: 82 of 100 steps
  pairmd: 83 of 100 steps
  pairmd: 84 of 100 steps
  pairmd: 85 of 100 steps
  pairmd: 86 of 100 steps
  pairmd: 87 of 100 steps
  pairmd: 88 of 100 steps
  pairmd: 89 of 100 steps
  pairmd: 90 of 100 steps
  pairmd: 91 of 100 steps
  pairmd: 92 of 100 steps
  pairmd: 93 of 100 steps
  pairmd: 94 of 100 steps
  pairmd: 95 of 100 steps
  pairmd: 96 of 100 steps
  pairmd: 97 of 100 steps
  pairmd: 98 of 100 steps
  pairmd: 99 of 100 steps
  pairmd: 100 of 100 steps
  $ pairmd run job state --steps 100 > hundred
  $ cmp told hundred

With 101 steps the first step completes no hundredth, and each other step completes one.

  $ workers pairmd run job state --steps 101 --progress > told
  pairmd: 2 of 101 steps
  pairmd: 3 of 101 steps
  pairmd: 4 of 101 steps
  pairmd: 5 of 101 steps
  pairmd: 6 of 101 steps
  pairmd: 7 of 101 steps
  pairmd: 8 of 101 steps
  pairmd: 9 of 101 steps
  pairmd: 10 of 101 steps
  pairmd: 11 of 101 steps
  pairmd: 12 of 101 steps
  pairmd: 13 of 101 steps
  pairmd: 14 of 101 steps
  pairmd: 15 of 101 steps
  pairmd: 16 of 101 steps
  pairmd: 17 of 101 steps
  pairmd: 18 of 101 steps
  pairmd: 19 of 101 steps
  pairmd: 20 of 101 steps
  pairmd: 21 of 101 steps
  pairmd: 22 of 101 steps
  pairmd: 23 of 101 steps
  pairmd: 24 of 101 steps
  pairmd: 25 of 101 steps
  pairmd: 26 of 101 steps
  pairmd: 27 of 101 steps
  pairmd: 28 of 101 steps
  pairmd: 29 of 101 steps
  pairmd: 30 of 101 steps
  pairmd: 31 of 101 steps
  pairmd: 32 of 101 steps
  pairmd: 33 of 101 steps
  pairmd: 34 of 101 steps
  pairmd: 35 of 101 steps
  pairmd: 36 of 101 steps
  pairmd: 37 of 101 steps
  pairmd: 38 of 101 steps
  pairmd: 39 of 101 steps
  pairmd: 40 of 101 steps
  pairmd: 41 of 101 steps
  pairmd: 42 of 101 steps
  pairmd: 43 of 101 steps
  pairmd: 44 of 101 steps
  pairmd: 45 of 101 steps
  pairmd: 46 of 101 steps
  pairmd: 47 of 101 steps
  pairmd: 48 of 101 steps
  pairmd: 49 of 101 steps
  pairmd: 50 of 101 steps
  pairmd: 51 of 101 steps
  pairmd: 52 of 101 steps
  pairmd: 53 of 101 steps
  pairmd: 54 of 101 steps
  pairmd: 55 of 101 steps
  pairmd: 56 of 101 steps
  pairmd: 57 of 101 steps
  pairmd: 58 of 101 steps
  pairmd: 59 of 101 steps
  pairmd: 60 of 101 steps
  pairmd: 61 of 101 steps
  pairmd: 62 of 101 steps
  pairmd: 63 of 101 steps
  pairmd: 64 of 101 steps
  pairmd: 65 of 101 steps
  pairmd: 66 of 101 steps
  pairmd: 67 of 101 steps
  pairmd: 68 of 101 steps
  pairmd: 69 of 101 steps
  pairmd: 70 of 101 steps
  pairmd: 71 of 101 steps
  pairmd: 72 of 101 steps
  pairmd: 73 of 101 steps
  pairmd: 74 of 101 steps
  pairmd: 75 of 101 steps
  pairmd: 76 of 101 steps
  pairmd: 77 of 101 steps
  pairmd: 78 of 101 steps
  pairmd: 79 of 101 steps
  pairmd: 80 of 101 steps
  pairmd: 81 of 101 steps
  pairmd: 82 of 101 steps
  pairmd: 83 of 101 steps
  pairmd: 84 of 101 steps
  pairmd: 85 of 101 steps
  pairmd: 86 of 101 steps
  pairmd: 87 of 101 steps
  pairmd: 88 of 101 steps
  pairmd: 89 of 101 steps
  pairmd: 90 of 101 steps
  pairmd: 91 of 101 steps
  pairmd: 92 of 101 steps
  pairmd: 93 of 101 steps
  pairmd: 94 of 101 steps
  pairmd: 95 of 101 steps
  pairmd: 96 of 101 steps
  pairmd: 97 of 101 steps
  pairmd: 98 of 101 steps
  pairmd: 99 of 101 steps
  pairmd: 100 of 101 steps
  pairmd: 101 of 101 steps
  $ pairmd run job state --steps 101 > without
  $ cmp told without

With 250 steps a hundredth is 2.5 steps.

  $ workers pairmd run job state --steps 250 --progress > told
  pairmd: 3 of 250 steps
  pairmd: 5 of 250 steps
  pairmd: 8 of 250 steps
  pairmd: 10 of 250 steps
  pairmd: 13 of 250 steps
  pairmd: 15 of 250 steps
  pairmd: 18 of 250 steps
  pairmd: 20 of 250 steps
  pairmd: 23 of 250 steps
  pairmd: 25 of 250 steps
  pairmd: 28 of 250 steps
  pairmd: 30 of 250 steps
  pairmd: 33 of 250 steps
  pairmd: 35 of 250 steps
  pairmd: 38 of 250 steps
  pairmd: 40 of 250 steps
  pairmd: 43 of 250 steps
  pairmd: 45 of 250 steps
  pairmd: 48 of 250 steps
  pairmd: 50 of 250 steps
  pairmd: 53 of 250 steps
  pairmd: 55 of 250 steps
  pairmd: 58 of 250 steps
  pairmd: 60 of 250 steps
  pairmd: 63 of 250 steps
  pairmd: 65 of 250 steps
  pairmd: 68 of 250 steps
  pairmd: 70 of 250 steps
  pairmd: 73 of 250 steps
  pairmd: 75 of 250 steps
  pairmd: 78 of 250 steps
  pairmd: 80 of 250 steps
  pairmd: 83 of 250 steps
  pairmd: 85 of 250 steps
  pairmd: 88 of 250 steps
  pairmd: 90 of 250 steps
  pairmd: 93 of 250 steps
  pairmd: 95 of 250 steps
  pairmd: 98 of 250 steps
  pairmd: 100 of 250 steps
  pairmd: 103 of 250 steps
  pairmd: 105 of 250 steps
  pairmd: 108 of 250 steps
  pairmd: 110 of 250 steps
  pairmd: 113 of 250 steps
  pairmd: 115 of 250 steps
  pairmd: 118 of 250 steps
  pairmd: 120 of 250 steps
  pairmd: 123 of 250 steps
  pairmd: 125 of 250 steps
  pairmd: 128 of 250 steps
  pairmd: 130 of 250 steps
  pairmd: 133 of 250 steps
  pairmd: 135 of 250 steps
  pairmd: 138 of 250 steps
  pairmd: 140 of 250 steps
  pairmd: 143 of 250 steps
  pairmd: 145 of 250 steps
  pairmd: 148 of 250 steps
  pairmd: 150 of 250 steps
  pairmd: 153 of 250 steps
  pairmd: 155 of 250 steps
  pairmd: 158 of 250 steps
  pairmd: 160 of 250 steps
  pairmd: 163 of 250 steps
  pairmd: 165 of 250 steps
  pairmd: 168 of 250 steps
  pairmd: 170 of 250 steps
  pairmd: 173 of 250 steps
  pairmd: 175 of 250 steps
  pairmd: 178 of 250 steps
  pairmd: 180 of 250 steps
  pairmd: 183 of 250 steps
  pairmd: 185 of 250 steps
  pairmd: 188 of 250 steps
  pairmd: 190 of 250 steps
  pairmd: 193 of 250 steps
  pairmd: 195 of 250 steps
  pairmd: 198 of 250 steps
  pairmd: 200 of 250 steps
  pairmd: 203 of 250 steps
  pairmd: 205 of 250 steps
  pairmd: 208 of 250 steps
  pairmd: 210 of 250 steps
  pairmd: 213 of 250 steps
  pairmd: 215 of 250 steps
  pairmd: 218 of 250 steps
  pairmd: 220 of 250 steps
  pairmd: 223 of 250 steps
  pairmd: 225 of 250 steps
  pairmd: 228 of 250 steps
  pairmd: 230 of 250 steps
  pairmd: 233 of 250 steps
  pairmd: 235 of 250 steps
  pairmd: 238 of 250 steps
  pairmd: 240 of 250 steps
  pairmd: 243 of 250 steps
  pairmd: 245 of 250 steps
  pairmd: 248 of 250 steps
  pairmd: 250 of 250 steps
  $ pairmd run job state --steps 250 > without
  $ cmp told without

A trajectory counts the steps up to its last frame, here 8 of 10. If the interval is longer than the run, the only frame
is the first.

  $ workers pairmd trajectory job state --steps 10 --every 4 --progress > told
  pairmd: 1 of 8 steps
  pairmd: 2 of 8 steps
  pairmd: 3 of 8 steps
  pairmd: 4 of 8 steps
  pairmd: 5 of 8 steps
  pairmd: 6 of 8 steps
  pairmd: 7 of 8 steps
  pairmd: 8 of 8 steps
  $ pairmd trajectory job state --steps 10 --every 4 > without
  $ cmp told without
  $ workers pairmd trajectory job ten --steps 10 --every 5 --back --progress > told
  pairmd: 1 of 10 steps
  pairmd: 2 of 10 steps
  pairmd: 3 of 10 steps
  pairmd: 4 of 10 steps
  pairmd: 5 of 10 steps
  pairmd: 6 of 10 steps
  pairmd: 7 of 10 steps
  pairmd: 8 of 10 steps
  pairmd: 9 of 10 steps
  pairmd: 10 of 10 steps
  $ pairmd trajectory job ten --steps 10 --every 5 --back > without
  $ cmp told without
  $ workers pairmd trajectory job state --steps 3 --every 4 --progress > told
  $ pairmd trajectory job state --steps 0 --every 1 > without
  $ cmp told without
  $ workers pairmd trajectory job state --steps 0 --every 1 --progress > told
  $ cmp told without
  $ workers pairmd trajectory job state --steps 210 --every 100 --progress > told
  pairmd: 2 of 200 steps
  pairmd: 4 of 200 steps
  pairmd: 6 of 200 steps
  pairmd: 8 of 200 steps
  pairmd: 10 of 200 steps
  pairmd: 12 of 200 steps
  pairmd: 14 of 200 steps
  pairmd: 16 of 200 steps
  pairmd: 18 of 200 steps
  pairmd: 20 of 200 steps
  pairmd: 22 of 200 steps
  pairmd: 24 of 200 steps
  pairmd: 26 of 200 steps
  pairmd: 28 of 200 steps
  pairmd: 30 of 200 steps
  pairmd: 32 of 200 steps
  pairmd: 34 of 200 steps
  pairmd: 36 of 200 steps
  pairmd: 38 of 200 steps
  pairmd: 40 of 200 steps
  pairmd: 42 of 200 steps
  pairmd: 44 of 200 steps
  pairmd: 46 of 200 steps
  pairmd: 48 of 200 steps
  pairmd: 50 of 200 steps
  pairmd: 52 of 200 steps
  pairmd: 54 of 200 steps
  pairmd: 56 of 200 steps
  pairmd: 58 of 200 steps
  pairmd: 60 of 200 steps
  pairmd: 62 of 200 steps
  pairmd: 64 of 200 steps
  pairmd: 66 of 200 steps
  pairmd: 68 of 200 steps
  pairmd: 70 of 200 steps
  pairmd: 72 of 200 steps
  pairmd: 74 of 200 steps
  pairmd: 76 of 200 steps
  pairmd: 78 of 200 steps
  pairmd: 80 of 200 steps
  pairmd: 82 of 200 steps
  pairmd: 84 of 200 steps
  pairmd: 86 of 200 steps
  pairmd: 88 of 200 steps
  pairmd: 90 of 200 steps
  pairmd: 92 of 200 steps
  pairmd: 94 of 200 steps
  pairmd: 96 of 200 steps
  pairmd: 98 of 200 steps
  pairmd: 100 of 200 steps
  pairmd: 102 of 200 steps
  pairmd: 104 of 200 steps
  pairmd: 106 of 200 steps
  pairmd: 108 of 200 steps
  pairmd: 110 of 200 steps
  pairmd: 112 of 200 steps
  pairmd: 114 of 200 steps
  pairmd: 116 of 200 steps
  pairmd: 118 of 200 steps
  pairmd: 120 of 200 steps
  pairmd: 122 of 200 steps
  pairmd: 124 of 200 steps
  pairmd: 126 of 200 steps
  pairmd: 128 of 200 steps
  pairmd: 130 of 200 steps
  pairmd: 132 of 200 steps
  pairmd: 134 of 200 steps
  pairmd: 136 of 200 steps
  pairmd: 138 of 200 steps
  pairmd: 140 of 200 steps
  pairmd: 142 of 200 steps
  pairmd: 144 of 200 steps
  pairmd: 146 of 200 steps
  pairmd: 148 of 200 steps
  pairmd: 150 of 200 steps
  pairmd: 152 of 200 steps
  pairmd: 154 of 200 steps
  pairmd: 156 of 200 steps
  pairmd: 158 of 200 steps
  pairmd: 160 of 200 steps
  pairmd: 162 of 200 steps
  pairmd: 164 of 200 steps
  pairmd: 166 of 200 steps
  pairmd: 168 of 200 steps
  pairmd: 170 of 200 steps
  pairmd: 172 of 200 steps
  pairmd: 174 of 200 steps
  pairmd: 176 of 200 steps
  pairmd: 178 of 200 steps
  pairmd: 180 of 200 steps
  pairmd: 182 of 200 steps
  pairmd: 184 of 200 steps
  pairmd: 186 of 200 steps
  pairmd: 188 of 200 steps
  pairmd: 190 of 200 steps
  pairmd: 192 of 200 steps
  pairmd: 194 of 200 steps
  pairmd: 196 of 200 steps
  pairmd: 198 of 200 steps
  pairmd: 200 of 200 steps
  $ pairmd trajectory job state --steps 210 --every 100 > without
  $ cmp told without

An error before the first step prints no progress.

  $ with job 2 'energy 1/x' pairmd run job state --steps 7 --progress
  pairmd: E04 UnknownName x
  [3]
  $ with job 2 'energy 1/(r-0.5)' pairmd back job state --steps 7 --progress
  pairmd: V2 Fault AR AR r 2147390967 pc 12 F1 Overflow
  [3]
  $ with state 3 'step 9223372036854775805' pairmd run job state --steps 3 --progress
  pairmd: A4 StepRange
  [1]
  $ with state 3 'step 9223372036854775805' pairmd trajectory job state --steps 3 --every 2 --progress
  pairmd: A4 StepRange
  [1]
  $ with state 4 'atoms x' pairmd trajectory job state --steps 3 --every 2 --progress
  pairmd: S1 BadLine 4
  [1]
  $ pairmd run job 'no file' --steps 3 --progress
  pairmd: O1 CannotRead no file
  [5]

`--progress` for a command without steps, given twice, and with a value.

  $ pairmd energy job state --progress
  error: unexpected argument '--progress' found
  
    tip: to pass '--progress' as a value, use '-- --progress'
  
  Usage: pairmd energy <JOB> <STATE>
  
  For more information, try '--help'.
  [2]
  $ pairmd run job state --steps 1 --progress --progress
  error: the argument '--progress' cannot be used multiple times
  
  Usage: pairmd run [OPTIONS] --steps <n> <JOB> <STATE>
  
  For more information, try '--help'.
  [2]
  $ pairmd run job state --steps 1 --progress=1
  error: unexpected value '1' for '--progress' found; no more were expected
  
  Usage: pairmd run --steps <n> --progress <JOB> <STATE>
  
  For more information, try '--help'.
  [2]

If an allocation fails during a run, the progress printed so far comes before the error's line.

  $ cat > point << END
  > pairmd state 1
  > title point
  > step 0
  > atoms 1
  > box 200000 200000 200000
  >     1AR      AR 0 0 0 0 0 0
  > END
  $ requests pairmd run job state --steps 3 --progress --workers 4
  pairmd: Memory [4]
  all
  pairmd: Memory after 0 steps [4]
  pairmd: 1 of 3 steps
  pairmd: Memory after 1 steps [4]
  pairmd: 1 of 3 steps
  pairmd: 2 of 3 steps
  pairmd: Memory after 2 steps [4]

  $ requests pairmd trajectory job point --steps 2 --every 1 --progress
  pairmd: Memory [4]
  all
  pairmd: Memory after 0 steps [4]
  point t=   0.00000 step= 0
      1
      1AR      AR    1   0.000   0.000   0.000
     2.00000   2.00000   2.00000
  pairmd: Memory after 0 steps [4]
  point t=   0.00000 step= 0
      1
      1AR      AR    1   0.000   0.000   0.000
     2.00000   2.00000   2.00000
  pairmd: 1 of 2 steps
  pairmd: Memory after 1 steps [4]
  point t=   0.00000 step= 0
      1
      1AR      AR    1   0.000   0.000   0.000
     2.00000   2.00000   2.00000
  point t=   0.00200 step= 1
      1
      1AR      AR    1   0.000   0.000   0.000
     2.00000   2.00000   2.00000
  pairmd: 1 of 2 steps
  pairmd: Memory after 1 steps [4]
  point t=   0.00000 step= 0
      1
      1AR      AR    1   0.000   0.000   0.000
     2.00000   2.00000   2.00000
  point t=   0.00200 step= 1
      1
      1AR      AR    1   0.000   0.000   0.000
     2.00000   2.00000   2.00000
  pairmd: 1 of 2 steps
  pairmd: 2 of 2 steps
  pairmd: Memory after 2 steps [4]

If the output fails, progress has been printed for all steps of a run. A trajectory has printed progress up to the frame
that couldn't be written in full.

  $ outputs pairmd run job state --steps 2 --progress
  0-162: a beginning, pairmd: 1 of 2 steps
  pairmd: 2 of 2 steps
  pairmd: O2 CannotWrite [5]
  163: all
  $ outputs pairmd trajectory job state --steps 2 --every 1 --progress
  0-157: a beginning, pairmd: O2 CannotWrite [5]
  158-315: a beginning, pairmd: 1 of 2 steps
  pairmd: O2 CannotWrite [5]
  316-473: a beginning, pairmd: 1 of 2 steps
  pairmd: 2 of 2 steps
  pairmd: O2 CannotWrite [5]
  474: all

If standard error fails, the run is unchanged, and standard error holds each line as far as it was written.

  $ errors pairmd run job state --steps 7 --progress
  0-146: each line as far as it is taken
  147: all
  $ errors pairmd trajectory job seven --steps 8 --every 3 --back --progress --workers 3
  0-125: each line as far as it is taken
  126: all

## Verification

`check` counts the slices of all ordered pairs of types, and `curve` the slices of both codes and the rows. A line
follows each slice or row that completes another hundredth of them. Standard output is the same as without it.

  $ with job 6 'slices 1' pairmd check job --progress
  accepted: steps 9, bound 107374182926
  pairmd: 1 of 1 slices
  $ with job 6 'slices 4' pairmd check --progress job
  accepted: steps 9, bound 107374182926
  pairmd: 1 of 4 slices
  pairmd: 2 of 4 slices
  pairmd: 3 of 4 slices
  pairmd: 4 of 4 slices
  $ with job 6 'slices 200' pairmd check job --progress > told
  pairmd: 2 of 200 slices
  pairmd: 4 of 200 slices
  pairmd: 6 of 200 slices
  pairmd: 8 of 200 slices
  pairmd: 10 of 200 slices
  pairmd: 12 of 200 slices
  pairmd: 14 of 200 slices
  pairmd: 16 of 200 slices
  pairmd: 18 of 200 slices
  pairmd: 20 of 200 slices
  pairmd: 22 of 200 slices
  pairmd: 24 of 200 slices
  pairmd: 26 of 200 slices
  pairmd: 28 of 200 slices
  pairmd: 30 of 200 slices
  pairmd: 32 of 200 slices
  pairmd: 34 of 200 slices
  pairmd: 36 of 200 slices
  pairmd: 38 of 200 slices
  pairmd: 40 of 200 slices
  pairmd: 42 of 200 slices
  pairmd: 44 of 200 slices
  pairmd: 46 of 200 slices
  pairmd: 48 of 200 slices
  pairmd: 50 of 200 slices
  pairmd: 52 of 200 slices
  pairmd: 54 of 200 slices
  pairmd: 56 of 200 slices
  pairmd: 58 of 200 slices
  pairmd: 60 of 200 slices
  pairmd: 62 of 200 slices
  pairmd: 64 of 200 slices
  pairmd: 66 of 200 slices
  pairmd: 68 of 200 slices
  pairmd: 70 of 200 slices
  pairmd: 72 of 200 slices
  pairmd: 74 of 200 slices
  pairmd: 76 of 200 slices
  pairmd: 78 of 200 slices
  pairmd: 80 of 200 slices
  pairmd: 82 of 200 slices
  pairmd: 84 of 200 slices
  pairmd: 86 of 200 slices
  pairmd: 88 of 200 slices
  pairmd: 90 of 200 slices
  pairmd: 92 of 200 slices
  pairmd: 94 of 200 slices
  pairmd: 96 of 200 slices
  pairmd: 98 of 200 slices
  pairmd: 100 of 200 slices
  pairmd: 102 of 200 slices
  pairmd: 104 of 200 slices
  pairmd: 106 of 200 slices
  pairmd: 108 of 200 slices
  pairmd: 110 of 200 slices
  pairmd: 112 of 200 slices
  pairmd: 114 of 200 slices
  pairmd: 116 of 200 slices
  pairmd: 118 of 200 slices
  pairmd: 120 of 200 slices
  pairmd: 122 of 200 slices
  pairmd: 124 of 200 slices
  pairmd: 126 of 200 slices
  pairmd: 128 of 200 slices
  pairmd: 130 of 200 slices
  pairmd: 132 of 200 slices
  pairmd: 134 of 200 slices
  pairmd: 136 of 200 slices
  pairmd: 138 of 200 slices
  pairmd: 140 of 200 slices
  pairmd: 142 of 200 slices
  pairmd: 144 of 200 slices
  pairmd: 146 of 200 slices
  pairmd: 148 of 200 slices
  pairmd: 150 of 200 slices
  pairmd: 152 of 200 slices
  pairmd: 154 of 200 slices
  pairmd: 156 of 200 slices
  pairmd: 158 of 200 slices
  pairmd: 160 of 200 slices
  pairmd: 162 of 200 slices
  pairmd: 164 of 200 slices
  pairmd: 166 of 200 slices
  pairmd: 168 of 200 slices
  pairmd: 170 of 200 slices
  pairmd: 172 of 200 slices
  pairmd: 174 of 200 slices
  pairmd: 176 of 200 slices
  pairmd: 178 of 200 slices
  pairmd: 180 of 200 slices
  pairmd: 182 of 200 slices
  pairmd: 184 of 200 slices
  pairmd: 186 of 200 slices
  pairmd: 188 of 200 slices
  pairmd: 190 of 200 slices
  pairmd: 192 of 200 slices
  pairmd: 194 of 200 slices
  pairmd: 196 of 200 slices
  pairmd: 198 of 200 slices
  pairmd: 200 of 200 slices
  $ with job 6 'slices 200' pairmd check job > without
  $ cmp told without
  $ with job 6 'slices 1' pairmd curve job --points 3 --progress
  # AR AR
  # r/nm energy/(kJ/mol) energy-error slope/(kJ/mol/nm) slope-error
  0.199999999953 5.000000001164 5.83e-9 -25.000000122469 2.13e-7
  0.433333333116 2.307692308677 1.25e-9 -5.325443796813 1.34e-8
  0.666666666279 1.500000000698 5.25e-10 -2.250000003492 3.13e-9
  0.899999999674 1.111111111473 2.89e-10 -1.234567902284 1.23e-9
  # greatest energy-error 5.83e-9 at 0.199999999953, slope-error 2.13e-7 at 0.199999999953
  pairmd: 1 of 6 parts
  pairmd: 2 of 6 parts
  pairmd: 3 of 6 parts
  pairmd: 4 of 6 parts
  pairmd: 5 of 6 parts
  pairmd: 6 of 6 parts
  $ with job 6 'slices 4' pairmd curve job --points 1 --slope --progress
  # AR AR
  # r/nm slope/(kJ/mol/nm) slope-error
  0.199999999953 -25.000000122469 2.17e-7
  0.899999999674 -1.234567902284 1.23e-9
  # greatest slope-error 2.17e-7 at 0.199999999953
  pairmd: 1 of 10 parts
  pairmd: 2 of 10 parts
  pairmd: 3 of 10 parts
  pairmd: 4 of 10 parts
  pairmd: 5 of 10 parts
  pairmd: 6 of 10 parts
  pairmd: 7 of 10 parts
  pairmd: 8 of 10 parts
  pairmd: 9 of 10 parts
  pairmd: 10 of 10 parts
  $ with job 6 'slices 50' pairmd curve job --progress > told
  pairmd: 3 of 201 parts
  pairmd: 5 of 201 parts
  pairmd: 7 of 201 parts
  pairmd: 9 of 201 parts
  pairmd: 11 of 201 parts
  pairmd: 13 of 201 parts
  pairmd: 15 of 201 parts
  pairmd: 17 of 201 parts
  pairmd: 19 of 201 parts
  pairmd: 21 of 201 parts
  pairmd: 23 of 201 parts
  pairmd: 25 of 201 parts
  pairmd: 27 of 201 parts
  pairmd: 29 of 201 parts
  pairmd: 31 of 201 parts
  pairmd: 33 of 201 parts
  pairmd: 35 of 201 parts
  pairmd: 37 of 201 parts
  pairmd: 39 of 201 parts
  pairmd: 41 of 201 parts
  pairmd: 43 of 201 parts
  pairmd: 45 of 201 parts
  pairmd: 47 of 201 parts
  pairmd: 49 of 201 parts
  pairmd: 51 of 201 parts
  pairmd: 53 of 201 parts
  pairmd: 55 of 201 parts
  pairmd: 57 of 201 parts
  pairmd: 59 of 201 parts
  pairmd: 61 of 201 parts
  pairmd: 63 of 201 parts
  pairmd: 65 of 201 parts
  pairmd: 67 of 201 parts
  pairmd: 69 of 201 parts
  pairmd: 71 of 201 parts
  pairmd: 73 of 201 parts
  pairmd: 75 of 201 parts
  pairmd: 77 of 201 parts
  pairmd: 79 of 201 parts
  pairmd: 81 of 201 parts
  pairmd: 83 of 201 parts
  pairmd: 85 of 201 parts
  pairmd: 87 of 201 parts
  pairmd: 89 of 201 parts
  pairmd: 91 of 201 parts
  pairmd: 93 of 201 parts
  pairmd: 95 of 201 parts
  pairmd: 97 of 201 parts
  pairmd: 99 of 201 parts
  pairmd: 101 of 201 parts
  pairmd: 103 of 201 parts
  pairmd: 105 of 201 parts
  pairmd: 107 of 201 parts
  pairmd: 109 of 201 parts
  pairmd: 111 of 201 parts
  pairmd: 113 of 201 parts
  pairmd: 115 of 201 parts
  pairmd: 117 of 201 parts
  pairmd: 119 of 201 parts
  pairmd: 121 of 201 parts
  pairmd: 123 of 201 parts
  pairmd: 125 of 201 parts
  pairmd: 127 of 201 parts
  pairmd: 129 of 201 parts
  pairmd: 131 of 201 parts
  pairmd: 133 of 201 parts
  pairmd: 135 of 201 parts
  pairmd: 137 of 201 parts
  pairmd: 139 of 201 parts
  pairmd: 141 of 201 parts
  pairmd: 143 of 201 parts
  pairmd: 145 of 201 parts
  pairmd: 147 of 201 parts
  pairmd: 149 of 201 parts
  pairmd: 151 of 201 parts
  pairmd: 153 of 201 parts
  pairmd: 155 of 201 parts
  pairmd: 157 of 201 parts
  pairmd: 159 of 201 parts
  pairmd: 161 of 201 parts
  pairmd: 163 of 201 parts
  pairmd: 165 of 201 parts
  pairmd: 167 of 201 parts
  pairmd: 169 of 201 parts
  pairmd: 171 of 201 parts
  pairmd: 173 of 201 parts
  pairmd: 175 of 201 parts
  pairmd: 177 of 201 parts
  pairmd: 179 of 201 parts
  pairmd: 181 of 201 parts
  pairmd: 183 of 201 parts
  pairmd: 185 of 201 parts
  pairmd: 187 of 201 parts
  pairmd: 189 of 201 parts
  pairmd: 191 of 201 parts
  pairmd: 193 of 201 parts
  pairmd: 195 of 201 parts
  pairmd: 197 of 201 parts
  pairmd: 199 of 201 parts
  pairmd: 201 of 201 parts
  $ with job 6 'slices 50' pairmd curve job > without
  $ cmp told without

Two types with parameters of their own: each pair of types has its slices. A type with the values of an earlier one is
not verified again; the slices of its pairs are complete at once.

  $ cat > types << END
  > pairmd job 1
  > energy a1*a2/r
  > core 0.2
  > cutoff 0.9
  > dt 2
  > slices 3
  > parameter a
  > type AR 1 2
  > type KR 1 3
  > END
  $ pairmd check types --progress
  accepted: steps 11, bound 966367646326
  pairmd: 1 of 12 slices
  pairmd: 2 of 12 slices
  pairmd: 3 of 12 slices
  pairmd: 4 of 12 slices
  pairmd: 5 of 12 slices
  pairmd: 6 of 12 slices
  pairmd: 7 of 12 slices
  pairmd: 8 of 12 slices
  pairmd: 9 of 12 slices
  pairmd: 10 of 12 slices
  pairmd: 11 of 12 slices
  pairmd: 12 of 12 slices
  $ with types 9 'type KR 1 2' pairmd check types --progress
  accepted: steps 11, bound 429496731701
  pairmd: 1 of 12 slices
  pairmd: 2 of 12 slices
  pairmd: 3 of 12 slices
  pairmd: 4 of 12 slices
  pairmd: 5 of 12 slices
  pairmd: 6 of 12 slices
  pairmd: 7 of 12 slices
  pairmd: 8 of 12 slices
  pairmd: 9 of 12 slices
  pairmd: 10 of 12 slices
  pairmd: 11 of 12 slices
  pairmd: 12 of 12 slices
  $ with types 6 'slices 60' with types 9 'type KR 1 2' pairmd check types --progress > told
  pairmd: 3 of 240 slices
  pairmd: 5 of 240 slices
  pairmd: 8 of 240 slices
  pairmd: 10 of 240 slices
  pairmd: 12 of 240 slices
  pairmd: 15 of 240 slices
  pairmd: 17 of 240 slices
  pairmd: 20 of 240 slices
  pairmd: 22 of 240 slices
  pairmd: 24 of 240 slices
  pairmd: 27 of 240 slices
  pairmd: 29 of 240 slices
  pairmd: 32 of 240 slices
  pairmd: 34 of 240 slices
  pairmd: 36 of 240 slices
  pairmd: 39 of 240 slices
  pairmd: 41 of 240 slices
  pairmd: 44 of 240 slices
  pairmd: 46 of 240 slices
  pairmd: 48 of 240 slices
  pairmd: 51 of 240 slices
  pairmd: 53 of 240 slices
  pairmd: 56 of 240 slices
  pairmd: 58 of 240 slices
  pairmd: 60 of 240 slices
  pairmd: 63 of 240 slices
  pairmd: 65 of 240 slices
  pairmd: 68 of 240 slices
  pairmd: 70 of 240 slices
  pairmd: 72 of 240 slices
  pairmd: 75 of 240 slices
  pairmd: 77 of 240 slices
  pairmd: 80 of 240 slices
  pairmd: 82 of 240 slices
  pairmd: 84 of 240 slices
  pairmd: 87 of 240 slices
  pairmd: 89 of 240 slices
  pairmd: 92 of 240 slices
  pairmd: 94 of 240 slices
  pairmd: 96 of 240 slices
  pairmd: 99 of 240 slices
  pairmd: 101 of 240 slices
  pairmd: 104 of 240 slices
  pairmd: 106 of 240 slices
  pairmd: 108 of 240 slices
  pairmd: 111 of 240 slices
  pairmd: 113 of 240 slices
  pairmd: 116 of 240 slices
  pairmd: 118 of 240 slices
  pairmd: 120 of 240 slices
  pairmd: 123 of 240 slices
  pairmd: 125 of 240 slices
  pairmd: 128 of 240 slices
  pairmd: 130 of 240 slices
  pairmd: 132 of 240 slices
  pairmd: 135 of 240 slices
  pairmd: 137 of 240 slices
  pairmd: 140 of 240 slices
  pairmd: 142 of 240 slices
  pairmd: 144 of 240 slices
  pairmd: 147 of 240 slices
  pairmd: 149 of 240 slices
  pairmd: 152 of 240 slices
  pairmd: 154 of 240 slices
  pairmd: 156 of 240 slices
  pairmd: 159 of 240 slices
  pairmd: 161 of 240 slices
  pairmd: 164 of 240 slices
  pairmd: 166 of 240 slices
  pairmd: 168 of 240 slices
  pairmd: 171 of 240 slices
  pairmd: 173 of 240 slices
  pairmd: 176 of 240 slices
  pairmd: 178 of 240 slices
  pairmd: 180 of 240 slices
  pairmd: 183 of 240 slices
  pairmd: 185 of 240 slices
  pairmd: 188 of 240 slices
  pairmd: 190 of 240 slices
  pairmd: 192 of 240 slices
  pairmd: 195 of 240 slices
  pairmd: 197 of 240 slices
  pairmd: 200 of 240 slices
  pairmd: 202 of 240 slices
  pairmd: 204 of 240 slices
  pairmd: 207 of 240 slices
  pairmd: 209 of 240 slices
  pairmd: 212 of 240 slices
  pairmd: 214 of 240 slices
  pairmd: 216 of 240 slices
  pairmd: 219 of 240 slices
  pairmd: 221 of 240 slices
  pairmd: 224 of 240 slices
  pairmd: 226 of 240 slices
  pairmd: 228 of 240 slices
  pairmd: 231 of 240 slices
  pairmd: 233 of 240 slices
  pairmd: 236 of 240 slices
  pairmd: 238 of 240 slices
  pairmd: 240 of 240 slices
  $ pairmd curve types --points 1 --energy --types AR KR --progress
  # AR KR
  # r/nm energy/(kJ/mol) energy-error
  0.199999999953 30.000000006985 3.50e-8
  0.899999999674 6.666666669073 1.73e-9
  # greatest energy-error 3.50e-8 at 0.199999999953
  pairmd: 1 of 26 parts
  pairmd: 2 of 26 parts
  pairmd: 3 of 26 parts
  pairmd: 4 of 26 parts
  pairmd: 5 of 26 parts
  pairmd: 6 of 26 parts
  pairmd: 7 of 26 parts
  pairmd: 8 of 26 parts
  pairmd: 9 of 26 parts
  pairmd: 10 of 26 parts
  pairmd: 11 of 26 parts
  pairmd: 12 of 26 parts
  pairmd: 13 of 26 parts
  pairmd: 14 of 26 parts
  pairmd: 15 of 26 parts
  pairmd: 16 of 26 parts
  pairmd: 17 of 26 parts
  pairmd: 18 of 26 parts
  pairmd: 19 of 26 parts
  pairmd: 20 of 26 parts
  pairmd: 21 of 26 parts
  pairmd: 22 of 26 parts
  pairmd: 23 of 26 parts
  pairmd: 24 of 26 parts
  pairmd: 25 of 26 parts
  pairmd: 26 of 26 parts
  $ pairmd curve types --points 1 --energy --progress
  # AR AR
  # r/nm energy/(kJ/mol) energy-error
  0.199999999953 20.000000004657 2.33e-8
  0.899999999674 4.444444445893 1.16e-9
  # greatest energy-error 2.33e-8 at 0.199999999953
  
  
  # AR KR
  # KR AR
  # r/nm energy/(kJ/mol) energy-error
  0.199999999953 30.000000006985 3.50e-8
  0.899999999674 6.666666669073 1.73e-9
  # greatest energy-error 3.50e-8 at 0.199999999953
  
  
  # KR KR
  # r/nm energy/(kJ/mol) energy-error
  0.199999999953 45.000000010477 5.24e-8
  0.899999999674 10.000000003492 2.59e-9
  # greatest energy-error 5.24e-8 at 0.199999999953
  pairmd: 1 of 32 parts
  pairmd: 2 of 32 parts
  pairmd: 3 of 32 parts
  pairmd: 4 of 32 parts
  pairmd: 5 of 32 parts
  pairmd: 6 of 32 parts
  pairmd: 7 of 32 parts
  pairmd: 8 of 32 parts
  pairmd: 9 of 32 parts
  pairmd: 10 of 32 parts
  pairmd: 11 of 32 parts
  pairmd: 12 of 32 parts
  pairmd: 13 of 32 parts
  pairmd: 14 of 32 parts
  pairmd: 15 of 32 parts
  pairmd: 16 of 32 parts
  pairmd: 17 of 32 parts
  pairmd: 18 of 32 parts
  pairmd: 19 of 32 parts
  pairmd: 20 of 32 parts
  pairmd: 21 of 32 parts
  pairmd: 22 of 32 parts
  pairmd: 23 of 32 parts
  pairmd: 24 of 32 parts
  pairmd: 25 of 32 parts
  pairmd: 26 of 32 parts
  pairmd: 27 of 32 parts
  pairmd: 28 of 32 parts
  pairmd: 29 of 32 parts
  pairmd: 30 of 32 parts
  pairmd: 31 of 32 parts
  pairmd: 32 of 32 parts

A listing.

  $ with job 6 'slices 2' listing 'push -3' pairmd check job --code listing --progress
  accepted: steps 1, bound 3
  pairmd: 1 of 2 slices
  pairmd: 2 of 2 slices
  $ with types 6 'slices 1' listing 'push -3' pairmd check types --code listing --progress
  accepted: steps 1, bound 3
  pairmd: 1 of 4 slices
  pairmd: 2 of 4 slices
  pairmd: 3 of 4 slices
  pairmd: 4 of 4 slices

Lines of the slices before a rejected one come before the error. The distances of slices 1 to 4 are 0.2 to 0.9 nm.

  $ with job 2 'energy 1/(r-0.2)' with job 6 'slices 4' pairmd check job --progress
  pairmd: V2 Fault AR AR r 858993459 pc 12 F2 ZeroDivisor
  [3]
  $ with job 2 'energy 1/(r-0.5)' with job 6 'slices 4' pairmd check job --progress
  pairmd: 1 of 4 slices
  pairmd: V2 Fault AR AR r 2147390972 pc 12 F1 Overflow
  [3]
  $ with job 2 'energy 1/(r-0.8)' with job 6 'slices 4' pairmd check job --progress
  pairmd: 1 of 4 slices
  pairmd: 2 of 4 slices
  pairmd: 3 of 4 slices
  pairmd: V2 Fault AR AR r 3435881175 pc 12 F1 Overflow
  [3]
  $ with job 2 'energy 1/(r-0.8)' with job 6 'slices 4' pairmd curve job --progress
  pairmd: 2 of 109 parts
  pairmd: 3 of 109 parts
  pairmd: V2 Fault AR AR r 3435881175 pc 12 F1 Overflow
  [3]
  $ with job 6 'slices 4' listing 'push 1, input 0, push 2147483648, sub, div' pairmd check job --code listing --progress
  pairmd: 1 of 4 slices
  pairmd: V3 Undecided AR AR 2147483619 2147483663 pc 4 F2 ZeroDivisor
  [3]
  $ with types 2 'energy r/(a2-3)' pairmd check types --progress
  pairmd: 1 of 12 slices
  pairmd: 2 of 12 slices
  pairmd: 3 of 12 slices
  pairmd: V2 Fault AR KR r 858993459 pc 4 F2 ZeroDivisor
  [3]

The slope of this energy is accepted, and the energy itself isn't: a sum of two constants doesn't fit.

  $ with job 2 'energy 1/r+a; a=2000000000+2000000000' with job 6 'slices 2' pairmd check job --progress
  accepted: steps 11, bound 107374182926
  pairmd: 1 of 2 slices
  pairmd: 2 of 2 slices
  $ with job 2 'energy 1/r+a; a=2000000000+2000000000' with job 6 'slices 2' pairmd curve job --progress
  pairmd: 2 of 105 parts
  pairmd: V2 Fault AR AR r 858993459 pc 2 F1 Overflow
  [3]

No line comes before an error of the arguments, the job, its energy or a listing.

  $ with job 2 'energy 1/x' pairmd check job --progress
  pairmd: E04 UnknownName x
  [3]
  $ with job 2 'energy 1/x' pairmd curve job --progress
  pairmd: E04 UnknownName x
  [3]
  $ with job 4 'cutoff 0.1' pairmd check job --progress
  pairmd: J4 Range cutoff
  [1]
  $ listing 'walk' pairmd check job --code listing --progress
  pairmd: C1 BadLine 2
  [1]
  $ listing 'add' pairmd check job --code listing --progress
  pairmd: V1 Malformed 0
  [3]
  $ pairmd curve job --types AR KR --progress
  pairmd: J6 NoSuchType KR
  [1]
  $ pairmd check 'no file' --progress
  pairmd: O1 CannotRead no file
  [5]
  $ pairmd check job --code 'no file' --progress
  pairmd: O1 CannotRead no file
  [5]
  $ pairmd curve 'no file' --progress
  pairmd: O1 CannotRead no file
  [5]
  $ pairmd check job --progress --progress
  error: the argument '--progress' cannot be used multiple times
  
  Usage: pairmd check [OPTIONS] <JOB>
  
  For more information, try '--help'.
  [2]
  $ pairmd code job --progress
  error: unexpected argument '--progress' found
  
    tip: to pass '--progress' as a value, use '-- --progress'
  
  Usage: pairmd code <JOB>
  
  For more information, try '--help'.
  [2]

If an allocation fails, the progress printed so far comes before the error's line.

  $ with job 6 'slices 2' requests pairmd check job --progress
  pairmd: Memory [4]
  all
  pairmd: 1 of 2 slices
  pairmd: Memory [4]
  pairmd: 1 of 2 slices
  pairmd: 2 of 2 slices
  pairmd: Memory [4]
  $ with job 6 'slices 2' listing 'push -3' requests pairmd check job --code listing --progress
  pairmd: Memory [4]
  all
  pairmd: 1 of 2 slices
  pairmd: Memory [4]
  pairmd: 1 of 2 slices
  pairmd: 2 of 2 slices
  pairmd: Memory [4]
  $ with job 6 'slices 1' requests pairmd curve job --points 2 --progress
  pairmd: Memory [4]
  all
  pairmd: 1 of 5 parts
  pairmd: Memory [4]
  pairmd: 1 of 5 parts
  pairmd: 2 of 5 parts
  pairmd: Memory [4]
  pairmd: 1 of 5 parts
  pairmd: 2 of 5 parts
  pairmd: 3 of 5 parts
  pairmd: Memory [4]
  pairmd: 1 of 5 parts
  pairmd: 2 of 5 parts
  pairmd: 3 of 5 parts
  pairmd: 4 of 5 parts
  pairmd: Memory [4]
  pairmd: 1 of 5 parts
  pairmd: 2 of 5 parts
  pairmd: 3 of 5 parts
  pairmd: 4 of 5 parts
  pairmd: 5 of 5 parts
  pairmd: Memory [4]
  $ with job 2 'energy 1/(r-0.8)' with job 6 'slices 2' requests pairmd check job --progress
  pairmd: Memory [4]
  all
  pairmd: 1 of 2 slices
  pairmd: Memory [4]

If the output fails, all progress of a single table has been printed. If standard error fails, the output is unchanged.

  $ with job 6 'slices 2' outputs pairmd check job --progress
  0-37: a beginning, pairmd: 1 of 2 slices
  pairmd: 2 of 2 slices
  pairmd: O2 CannotWrite [5]
  38: all
  $ with job 6 'slices 1' outputs pairmd curve job --points 1 --progress
  0-288: a beginning, pairmd: 1 of 4 parts
  pairmd: 2 of 4 parts
  pairmd: 3 of 4 parts
  pairmd: 4 of 4 parts
  pairmd: O2 CannotWrite [5]
  289: all
  $ with job 6 'slices 2' errors pairmd check job --progress
  0-43: each line as far as it is taken
  44: all
  $ with job 6 'slices 1' errors pairmd curve job --points 1 --progress
  0-83: each line as far as it is taken
  84: all

A table is printed as soon as its rows are there, so the output may fail after some of the progress.

  $ with job 6 'slices 1' with job 7 'type AR 1\ntype KR 1' outputs pairmd curve job --points 1 --energy --progress
  0-170: a beginning, pairmd: 1 of 16 parts
  pairmd: 2 of 16 parts
  pairmd: 3 of 16 parts
  pairmd: 4 of 16 parts
  pairmd: 5 of 16 parts
  pairmd: 6 of 16 parts
  pairmd: 7 of 16 parts
  pairmd: 8 of 16 parts
  pairmd: 9 of 16 parts
  pairmd: 10 of 16 parts
  pairmd: O2 CannotWrite [5]
  171-351: a beginning, pairmd: 1 of 16 parts
  pairmd: 2 of 16 parts
  pairmd: 3 of 16 parts
  pairmd: 4 of 16 parts
  pairmd: 5 of 16 parts
  pairmd: 6 of 16 parts
  pairmd: 7 of 16 parts
  pairmd: 8 of 16 parts
  pairmd: 9 of 16 parts
  pairmd: 10 of 16 parts
  pairmd: 11 of 16 parts
  pairmd: 12 of 16 parts
  pairmd: 13 of 16 parts
  pairmd: 14 of 16 parts
  pairmd: O2 CannotWrite [5]
  352-524: a beginning, pairmd: 1 of 16 parts
  pairmd: 2 of 16 parts
  pairmd: 3 of 16 parts
  pairmd: 4 of 16 parts
  pairmd: 5 of 16 parts
  pairmd: 6 of 16 parts
  pairmd: 7 of 16 parts
  pairmd: 8 of 16 parts
  pairmd: 9 of 16 parts
  pairmd: 10 of 16 parts
  pairmd: 11 of 16 parts
  pairmd: 12 of 16 parts
  pairmd: 13 of 16 parts
  pairmd: 14 of 16 parts
  pairmd: 15 of 16 parts
  pairmd: 16 of 16 parts
  pairmd: O2 CannotWrite [5]
  525: all
