# Explanations of errors

An explanation prints the forms of the error, its exit status, its meaning, an example and advice.

  $ pairmd explain V3
  V3 Undecided T U LO HI pc PC FAULT
  Status 3.
  
  For atoms of the types T and U, somewhere between the distances LO and HI, the
  instruction PC may meet FAULT. At LO and at HI the code has a value; distances
  in between weren't tried, since a slice is halved a limited number of times.
  LO and HI are multiples of 2^-bits nm. All pairs of types before T and U, in the
  job's order, are accepted.
  The code computes the slope, dU/dr, and `pairmd code JOB` prints it. `energy`,
  `observe` and `curve` also verify the energy's own code: their line is about
  that code if `pairmd check` accepts the job. `pairmd code JOB --energy` prints
  it.
  
  Example: a narrow well, of a job with `slices 1`
      energy -0.001/(r^2-r+0.25001)
      pairmd: V3 Undecided AR AR 2137595856 2137596034 pc 26 F2 ZeroDivisor
  
  What to do: take more `slices`. V3 can't occur if every slice has at most 2^24
  distances: at 32 bits that is one slice for each 0.0039 nm. Or write each
  variable as rarely as possible: `(r-0.5)^2` in place of `r^2-r+0.25`.
  $ pairmd explain J3
  J3 Repeated KEY
  J3 Repeated NAME
  Status 1.
  
  With a KEY: the job has a second line `energy`, `core`, `cutoff`, `dt`, `bits`
  or `slices`. Each of these keys may occur only once.
  With a NAME: a second `parameter` line, or a second `global` line, has this
  name.
  
  Example: the lines of a job
      parameter q
      parameter q
      pairmd: J3 Repeated q
  
  What to do: delete one of the two lines, or rename the parameter or the global.
  $ pairmd explain Memory
  Memory
  Memory after K steps
  Status 4.
  
  Memory ran out: an allocation failed.
  `Memory`: before the first step, in `replay`, or in a command without steps.
  `curve` may have printed whole tables; with `--each` and in `replay`, results
  of some states or segments may be printed.
  `Memory` can also replace another error whose line needs memory.
  `Memory after K steps`: after K whole steps, K from 0. `run` and `back` print
  nothing. `trajectory`, `states` and `observe` have printed whole frames, states
  or rows up to there, maybe without the one after exactly K steps. What they
  printed is correct and can be used.
  No command changes a file.
  
  Example: a trajectory of one step, while the system has no memory left
      pairmd: Memory after 0 steps
  
  What to do: give the process more memory, or use `--workers 1`, which needs the
  least memory.
  $ pairmd explain F3
  F3 NegativeRoot
  Status 3, in a line of V2 or V3.
  
  The argument of a square root is below 0.
  
  Example: the core is 0.2 nm
      energy sqrt(r-1)
      pairmd: V2 Fault AR AR r 858993459 pc 7 F3 NegativeRoot
  
  What to do: choose with `select`, and put the root into its branch, not into a
  definition. `sqrt(max(r-1, 0))` also guards the root, but the slope of a root
  divides by zero at 0.
  $ pairmd explain A6
  A6 BitsDiffer
  Status 1.
  
  The job and the state have different numbers of fraction bits.
  
  Example: a line of a job, which is used with a state of 32 bits
      bits 24
      pairmd: A6 BitsDiffer
  
  What to do: give the state's `bits` in the job. A state of 24 or 40 bits has a
  line `bits`, a state of 32 bits has none. Or change the state, whose coordinates
  don't depend on the bits. For 24 or 40 bits its first line is `pairmd state 2`,
  and the line `bits` comes after the line `step`. For 32 bits its first line is
  `pairmd state 1`, and it has no line `bits`.
  $ pairmd explain S3
  S3 Trailing
  Status 1.
  
  The state has text after the line of its last atom; an empty line counts. Or the
  state has more atoms than its line `atoms` states.
  
  Example: line 4 of a state of two atoms
      atoms 1
      pairmd: S3 Trailing
  
  What to do: delete the text, or correct the number of atoms. If the file has
  several states, as `states` prints them, add `--each`: `observe`, `frame`,
  `energy`, `forces` and `velocities` read all states then. For other commands
  split the file: docs/FORMATS.md, section Command line.

Case doesn't matter in codes.

  $ pairmd explain S3 > expected
  $ pairmd explain s3 > printed
  $ cmp expected printed
  $ pairmd explain V3 > expected
  $ pairmd explain v3 > printed
  $ cmp expected printed
  $ pairmd explain MEMORY > printed
  $ pairmd explain Memory > expected
  $ cmp expected printed

A pasted line is explained by its code, the first word except `pairmd:`. The line may be several arguments or one, and
spaces around words don't matter.

  $ pairmd explain V3 > expected
  $ pairmd explain pairmd: V3 Undecided AR AR 2137595856 2137596034 pc 26 F2 ZeroDivisor > printed
  $ cmp expected printed
  $ pairmd explain 'pairmd: V3 Undecided AR AR 2137595856 2137596034 pc 26 F2 ZeroDivisor' > printed
  $ cmp expected printed
  $ pairmd explain V3 Undecided AR AR 2137595856 2137596034 pc 26 F2 ZeroDivisor > printed
  $ cmp expected printed
  $ pairmd explain 'V3 Undecided AR AR 2137595856 2137596034 pc 26 F2 ZeroDivisor' > printed
  $ cmp expected printed
  $ pairmd explain '  pairmd:  v3  Undecided' > printed
  $ cmp expected printed
  $ pairmd explain pairmd: '' ' V3 ' V2 > printed
  $ cmp expected printed
  $ pairmd explain Memory > expected
  $ pairmd explain Memory after 5 steps > printed
  $ cmp expected printed
  $ pairmd explain 'pairmd: Memory' > printed
  $ cmp expected printed

Without a code all codes are listed.

  $ pairmd explain
  pairmd explain CODE prints the meaning of an error, an example and what to do.
  
  O1      a file can't be read
  O2      standard output can't be written
  Memory  memory ran out
  J1      a line of the job is malformed
  J2      the job lacks a line that it needs
  J3      a key, parameter or global of the job occurs twice
  J4      a number of the job is out of range, or a line too many
  J5      two types of the job have the same name
  J6      the job has no type of this name
  S1      a line of the state is malformed or out of range
  S2      the state is cut off
  S3      the state has text after its last atom
  G1      the GRO file is cut off
  G2      the second line of a GRO frame isn't a number of atoms
  G3      a line of the GRO file isn't an atom line
  G4      positions in the GRO file don't have three decimals
  G5      the box of a GRO frame is malformed
  G6      the box of a GRO frame isn't rectangular
  G7      a GRO frame has more than 65,536 atoms
  G8      the GRO file has no frame of this number
  B1      the GRO frame has no box: all sides are 0
  B2      a side of the box is out of range
  E01     the energy has an unknown character
  E02     a number in the energy is malformed
  E03     the energy has a syntax error
  E04     the energy uses an unknown name
  E05     a function has the wrong number of arguments
  E06     an exponent isn't an integer of magnitude 1 to 32
  E07     a number in the energy is too large
  E08     two definitions of the energy have the same name
  E09     a name is reserved or already used
  E10     the energy, its slope or its code is too large
  E11     the energy uses an unsupported function, such as exp
  C1      a line of the listing is malformed
  C2      a jump of the listing leads backwards or past the end
  C3      the listing has more than 16,384 instructions
  V1      the listing misuses its stack, locals or inputs
  V2      the code has no value for two types at a distance
  V3      the verifier could not decide a range of distances
  V4      the listing puts more than 64 values on its stack
  F1      in V2 or V3: a number doesn't fit 64 bits
  F2      in V2 or V3: a divisor is 0
  F3      in V2 or V3: the argument of a square root is below 0
  A1      an atom of the state has no type in the job
  A2      a side of the box is shorter than two cutoffs
  A3      the force on an atom might not fit 64 bits
  A4      the step counter would leave 64 bits
  A6      the job and the state have different fraction bits
  A7      a stream of states isn't of one run
  $ pairmd explain > expected
  $ pairmd explain pairmd: > printed
  $ cmp expected printed
  $ pairmd explain '' > printed
  $ cmp expected printed
  $ pairmd explain ' ' ' pairmd: ' > printed
  $ cmp expected printed

An unknown code is misuse. The words after it are ignored.

  $ pairmd explain V5
  error: invalid value 'V5' for '[CODE]...'
  
    tip: 'pairmd explain' lists the codes
  
  Usage: pairmd explain [CODE]...
  
  For more information, try '--help'.
  [2]
  $ pairmd explain x9 V3
  error: invalid value 'x9' for '[CODE]...'
  
    tip: 'pairmd explain' lists the codes
  
  Usage: pairmd explain [CODE]...
  
  For more information, try '--help'.
  [2]
  $ pairmd explain 'V3,' V2
  error: invalid value 'V3,' for '[CODE]...'
  
    tip: 'pairmd explain' lists the codes
  
  Usage: pairmd explain [CODE]...
  
  For more information, try '--help'.
  [2]
  $ pairmd explain V 3
  error: invalid value 'V' for '[CODE]...'
  
    tip: 'pairmd explain' lists the codes
  
  Usage: pairmd explain [CODE]...
  
  For more information, try '--help'.
  [2]
  $ pairmd explain PAIRMD: V3
  error: invalid value 'PAIRMD:' for '[CODE]...'
  
    tip: 'pairmd explain' lists the codes
  
  Usage: pairmd explain [CODE]...
  
  For more information, try '--help'.
  [2]
  $ pairmd explain pairmd V3
  error: invalid value 'pairmd' for '[CODE]...'
  
    tip: 'pairmd explain' lists the codes
  
  Usage: pairmd explain [CODE]...
  
  For more information, try '--help'.
  [2]
  $ pairmd explain Undecided
  error: invalid value 'Undecided' for '[CODE]...'
  
    tip: 'pairmd explain' lists the codes
  
  Usage: pairmd explain [CODE]...
  
  For more information, try '--help'.
  [2]

After an argument that doesn't begin with `-`, no argument is an option: a pasted line may have words that look like one.

  $ pairmd explain V3 > expected
  $ pairmd explain V3 --all > printed
  $ cmp expected printed
  $ pairmd explain V3 --help > printed
  $ cmp expected printed
  $ pairmd explain pairmd: V3 -- -h -V > printed
  $ cmp expected printed
  $ pairmd explain J5 > expected
  $ pairmd explain J5 RepeatedType -x > printed
  $ cmp expected printed
  $ pairmd explain pairmd: J5 RepeatedType -x > printed
  $ cmp expected printed
  $ pairmd explain 'pairmd: J5' RepeatedType -x > printed
  $ cmp expected printed
  $ pairmd explain O1 > expected
  $ pairmd explain O1 CannotRead --help > printed
  $ cmp expected printed
  $ pairmd explain pairmd: O1 CannotRead --help > printed
  $ cmp expected printed
  $ pairmd explain pairmd: O1 CannotRead -- > printed
  $ cmp expected printed
  $ pairmd explain '' O1 --help > printed
  $ cmp expected printed

Such a word can be the first that counts as a code.

  $ pairmd explain pairmd: --help
  error: invalid value '--help' for '[CODE]...'
  
    tip: 'pairmd explain' lists the codes
  
  Usage: pairmd explain [CODE]...
  
  For more information, try '--help'.
  [2]
  $ pairmd explain pairmd: -- V3
  error: invalid value '--' for '[CODE]...'
  
    tip: 'pairmd explain' lists the codes
  
  Usage: pairmd explain [CODE]...
  
  For more information, try '--help'.
  [2]

If the first argument begins with `-`, options are options, and a code is an argument after `--`.

  $ pairmd explain -1 V3
  error: unexpected argument '-1' found
  
    tip: to pass '-1' as a value, use '-- -1'
  
  Usage: pairmd explain [CODE]...
  
  For more information, try '--help'.
  [2]
  $ pairmd explain -- -1
  error: invalid value '-1' for '[CODE]...'
  
    tip: 'pairmd explain' lists the codes
  
  Usage: pairmd explain [CODE]...
  
  For more information, try '--help'.
  [2]
  $ pairmd explain V3 > expected
  $ pairmd explain -- V3 > printed
  $ cmp expected printed
  $ pairmd explain --help
  Explains the code of an error, or lists all codes
  
  Usage: pairmd explain [CODE]...
  
  Arguments:
    [CODE]...  Code of an error, such as V3 or v3, or its whole line
  
  Options:
    -h, --help  Print help
  
  Without a code, 'pairmd explain' lists all codes.
  $ pairmd help explain > printed
  $ pairmd explain --help > expected
  $ cmp expected printed
  $ pairmd explain --help V3 > printed
  $ cmp expected printed

The command allocates no memory. If the output fails it holds the beginning of the text.

  $ requests pairmd explain S3
  all
  $ outputs pairmd explain S3
  0-516: a beginning, pairmd: O2 CannotWrite [5]
  517: all
  $ requests pairmd explain
  all

These examples of explanations occur in no other transcript.

  $ pairmd run job later --steps 1
  pairmd: O1 CannotRead later
  [5]
  $ with job 2 'energy 1/(r-0.2)' pairmd check job
  pairmd: V2 Fault AR AR r 858993459 pc 12 F2 ZeroDivisor
  [3]
  $ with job 2 'energy -0.001/(r^2-r+0.25001)' with job 6 'slices 1' pairmd check job
  pairmd: V3 Undecided AR AR 2137595856 2137596034 pc 26 F2 ZeroDivisor
  [3]
  $ with job 2 'energy (1/r)^14' pairmd check job
  pairmd: V2 Fault AR AR r 858993459 pc 13 F1 Overflow
  [3]
  $ with job 2 'energy sqrt(r-1)' pairmd check job
  pairmd: V2 Fault AR AR r 858993459 pc 7 F3 NegativeRoot
  [3]

## Advice

What an explanation advises helps: a command that fails, and the same command after the change. `tools/explanations.py`
finds the words after a code in what that code's text says to do.

A2: shorten the cutoff

  $ with job 4 'cutoff 1.5' pairmd energy job state
  pairmd: A2 CutoffTooLong
  [1]
  $ with job 4 'cutoff 1' pairmd energy job state > printed

A3: raise the core
A3: use fewer atoms
A3: `bits 24` leaves more room

  $ sed '2c energy 2e7/r' job > strong
  $ cat > six << END
  > pairmd state 1
  > title six atoms
  > step 0
  > atoms 6
  > box 200000 200000 200000
  >     1AR      AR 0 0 0 0 0 0
  >     1AR      AR 500000000 0 0 500000000 0 0
  >     1AR      AR 1000000000 0 0 1000000000 0 0
  >     1AR      AR 1500000000 0 0 1500000000 0 0
  >     1AR      AR 2000000000 0 0 2000000000 0 0
  >     1AR      AR 2500000000 0 0 2500000000 0 0
  > END
  $ pairmd run strong six --steps 1
  pairmd: A3 ForceRange
  [1]
  $ with strong 3 'core 0.22' pairmd run strong six --steps 1 > printed
  $ sed '11d' six > five
  $ with five 4 'atoms 5' pairmd run strong five --steps 1 > printed
  $ with strong 6 'bits 24' with six 3 'step 0\nbits 24' with six 1 'pairmd state 2' pairmd run strong six --steps 1 > printed

A4: request fewer steps

  $ with state 3 'step 9223372036854775806' pairmd run job state --steps 2
  pairmd: A4 StepRange
  [1]
  $ with state 3 'step 9223372036854775806' pairmd run job state --steps 1 > printed

A6: give the state's `bits` in the job

  $ with state 3 'step 0\nbits 24' with state 1 'pairmd state 2' pairmd energy job state
  pairmd: A6 BitsDiffer
  [1]
  $ with job 6 'bits 24' with state 3 'step 0\nbits 24' with state 1 'pairmd state 2' pairmd energy job state > printed

A6: Or change the state, whose coordinates don't depend on the bits.
A6: For 24 or 40 bits its first line is `pairmd state 2`, and the line `bits` comes after the line `step`.
A6: For 32 bits its first line is `pairmd state 1`, and it has no line `bits`.

The changed state has the bytes of the start of a run with these bits.

  $ pairmd start job gro > of_32
  $ with job 6 'bits 24' pairmd start job gro > of_24
  $ with job 6 'bits 40' pairmd start job gro > of_40
  $ sed '3c step 0\nbits 24' of_32 > longer
  $ sed '1c pairmd state 2' longer > changed
  $ cmp of_24 changed
  $ sed '3c step 0\nbits 40' of_32 > longer
  $ sed '1c pairmd state 2' longer > changed
  $ cmp of_40 changed
  $ sed '4d' of_40 > shorter
  $ sed '1c pairmd state 1' shorter > changed
  $ cmp of_32 changed

C2: let the jump lead forwards

  $ listing 'push 0, jump 0' pairmd check job --code listing
  pairmd: C2 BadTarget 3
  [1]
  $ listing 'push 0, jump 2' pairmd check job --code listing > printed

E04: define the name after a semicolon

  $ with job 2 'energy eps/r' pairmd check job
  pairmd: E04 UnknownName eps
  [3]
  $ with job 2 'energy eps/r; eps=1' pairmd check job > printed

E06: a root: `sqrt(r)`

  $ with job 2 'energy r^0.5' pairmd check job
  pairmd: E06 BadExponent 1
  [3]
  $ with job 2 'energy sqrt(r)' pairmd check job > printed

E07: a line `bits 24`

  $ with job 2 'energy 3e9/r' pairmd check job
  pairmd: E07 NumberRange 0
  [3]
  $ with job 2 'energy 3e9/r' with job 6 'bits 24' pairmd check job > printed

J1: A mass in u has at most five decimals

  $ with job 7 'type AR 39.948000' pairmd check job
  pairmd: J1 BadLine 7
  [1]
  $ with job 7 'type AR 39.94800' pairmd check job > printed

S3: add `--each`

  $ pairmd states job state --steps 1 --every 1 > both
  $ pairmd energy job both
  pairmd: S3 Trailing
  [1]
  $ pairmd energy job both --each > printed

V2: raise the core
F2: raise the core

  $ with job 2 'energy 1/(r-0.2)' pairmd check job
  pairmd: V2 Fault AR AR r 858993459 pc 12 F2 ZeroDivisor
  [3]
  $ with job 2 'energy 1/(r-0.2)' with job 3 'core 0.3' pairmd check job > printed

V3: take more `slices`

Then the fault is found: the square of r^2 - r + 0.25001 is below 2^-32 from 0.49770676 nm on.

  $ with job 2 'energy -0.001/(r^2-r+0.25001)' with job 6 'slices 1' pairmd check job
  pairmd: V3 Undecided AR AR 2137595856 2137596034 pc 26 F2 ZeroDivisor
  [3]
  $ with job 2 'energy -0.001/(r^2-r+0.25001)' with job 6 'slices 2048' pairmd check job
  pairmd: V2 Fault AR AR r 2137634479 pc 26 F2 ZeroDivisor
  [3]

F1: raise the core
F1: take `bits 24`

  $ with job 2 'energy (1/r)^14' pairmd check job
  pairmd: V2 Fault AR AR r 858993459 pc 13 F1 Overflow
  [3]
  $ with job 2 'energy (1/r)^14' with job 3 'core 0.3' pairmd check job > printed
  $ with job 2 'energy (1/r)^14' with job 6 'bits 24' pairmd check job > printed

A7: replay with the job of the run

  $ pairmd states job state --steps 2 --every 1 > steps
  $ with job 5 'dt 4' pairmd replay job steps
  0 1 differs: atom 1 x
  1 2 differs: atom 1 x
  pairmd: A7 NotOneRun 2
  [1]
  $ pairmd replay job steps > printed

A7: `pairmd run` makes it again from the state before it

  $ pairmd states job state --steps 1 --every 1 > pair
  $ sed '14c     1AR      AR 2147483648 0 0 0 0 0' pair > edited
  $ pairmd replay job edited
  0 1 differs: atom 2 x
  pairmd: A7 NotOneRun 1
  [1]
  $ pairmd run job state --steps 1 > first
  $ cat state first > mended
  $ pairmd replay job mended > printed
