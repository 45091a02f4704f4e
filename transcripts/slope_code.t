# Code of derivatives and energies

`code` prints the code that computes the derivative (slope) of the energy. With `--energy` it prints the code that
computes the energy. Neither is verified, so the code may fault.

## Energies

  $ with job 2 'energy 2-3-4' pairmd code job
  pairmd code 1
  push 0
  $ with job 2 'energy r' pairmd code job
  pairmd code 1
  push 4294967296
  $ with job 2 'energy 1/r' pairmd code job
  pairmd code 1
  push 4294967296
  push 4294967296
  mul
  neg
  input 0
  keep 0
  get 0
  sq
  div
  $ with job 2 'energy -2147483647*.5/(r - 5.e-1)\r\t' pairmd code job
  pairmd code 1
  push 9223372032559808512
  neg
  push 2147483648
  mul
  push 4294967296
  push 0
  sub
  mul
  neg
  input 0
  push 2147483648
  sub
  keep 0
  get 0
  sq
  div

## Definitions that aren't needed are omitted

A definition is kept if the derivative uses it, directly or through another definition: its value, its derivative or
both.

  $ with job 2 'energy r; a=r*r' pairmd code job
  pairmd code 1
  push 4294967296
  $ with job 2 'energy b; a=r; b=r*2' pairmd code job
  pairmd code 1
  push 4294967296
  push 8589934592
  mul
  keep 2
  get 2
  $ with job 2 'energy a+r; a=1/0' pairmd code job
  pairmd code 1
  push 0
  push 4294967296
  add
  $ with job 2 'energy step(a)+r; a=r' pairmd code job
  pairmd code 1
  push 0
  push 4294967296
  add
  $ with job 2 'energy a*r; a=b; b=1.5' pairmd code job
  pairmd code 1
  push 6442450944
  keep 3
  get 3
  keep 2
  get 2
  push 4294967296
  mul
  $ with job 2 'energy a*a; a=b; b=r' pairmd code job
  pairmd code 1
  input 0
  keep 5
  get 5
  keep 4
  push 4294967296
  keep 3
  get 3
  keep 2
  get 2
  get 4
  mul
  get 4
  get 2
  mul
  add
  $ with job 2 'energy b+1; a=1/0; b=c+1; c=r' pairmd code job
  pairmd code 1
  push 4294967296
  keep 3
  get 3
  push 0
  add
  keep 2
  get 2
  push 0
  add
  $ with job 2 'energy a; c=1/a; a=b*2; b=r' pairmd code job
  pairmd code 1
  push 4294967296
  keep 3
  get 3
  push 8589934592
  mul
  keep 2
  get 2

## Choices jump

The code of a choice computes the derivative of one branch. The code of an absolute value computes the derivative of its
argument once, times one or minus one.

  $ with job 2 'energy select(r-0.5,3,r*r)' pairmd code job
  pairmd code 1
  input 0
  push 2147483648
  sub
  jumpifzero 6
  push 0
  jump 13
  push 4294967296
  input 0
  mul
  input 0
  push 4294967296
  mul
  add
  $ with job 2 'energy abs(r-3)' pairmd code job
  pairmd code 1
  input 0
  push 12884901888
  sub
  step
  jumpifzero 7
  push 4294967296
  jump 8
  push -4294967296
  push 4294967296
  push 0
  sub
  mul

## Code of the energy itself

  $ with job 2 'energy 1/r' pairmd code job --energy
  pairmd code 1
  push 4294967296
  input 0
  div
  $ with job 2 'energy r' pairmd code --energy job
  pairmd code 1
  input 0
  $ with job 2 'energy 2-3-4' pairmd code job --energy
  pairmd code 1
  push 8589934592
  push 12884901888
  sub
  push 17179869184
  sub
  $ with job 2 'energy select(r-0.5,3,r*r)' pairmd code job --energy
  pairmd code 1
  input 0
  push 2147483648
  sub
  jumpifzero 6
  push 12884901888
  jump 9
  input 0
  input 0
  mul
  $ with job 2 'energy 1/0' pairmd code job --energy
  pairmd code 1
  push 4294967296
  push 0
  div

The parameters of the first atom come before the parameters of the second, then the globals.

  $ cat > mixture << END
  > pairmd job 1
  > energy k*q1-q2/r
  > core 0.2
  > cutoff 0.9
  > dt 2
  > global k 0.5
  > parameter q
  > type AR 1 3
  > type X 1 0.25
  > END
  $ pairmd code mixture --energy
  pairmd code 1
  input 3
  input 1
  mul
  input 2
  input 0
  div
  sub

A definition that isn't used isn't computed, and the definitions that are used are computed once, the last one first.

  $ with job 2 'energy b+1; a=1/0; b=c+1; c=r' pairmd code job --energy
  pairmd code 1
  input 0
  keep 4
  get 4
  push 4294967296
  add
  keep 3
  get 3
  push 4294967296
  add
  $ with job 2 'energy a*a; a=b; b=r' pairmd code job --energy
  pairmd code 1
  input 0
  keep 3
  get 3
  keep 2
  get 2
  get 2
  mul

The verdict on this listing is the one that `energy` and `curve` report if the slope's code is accepted.

  $ with job 2 'energy 2147483647+2147483647+r' pairmd check job
  accepted: steps 3, bound 4294967296
  $ with job 2 'energy 2147483647+2147483647+r' pairmd energy job state
  pairmd: V2 Fault AR AR r 858993459 pc 2 F1 Overflow
  [3]
  $ with job 2 'energy 2147483647+2147483647+r' pairmd code job --energy > own
  $ cat own
  pairmd code 1
  push 9223372032559808512
  push 9223372032559808512
  add
  input 0
  add
  $ pairmd check job --code own
  pairmd: V2 Fault AR AR r 858993459 pc 2 F1 Overflow
  [3]

Errors are the same as without `--energy`, except that the energy's own code has to have at most 16,384 instructions.

  $ with job 2 'energy 1/x' pairmd code job --energy
  pairmd: E04 UnknownName x
  [3]
  $ with job 1 'pairmd job 2' pairmd code job --energy
  pairmd: J1 BadLine 1
  [1]
  $ pairmd code missing --energy
  pairmd: O1 CannotRead missing
  [5]
