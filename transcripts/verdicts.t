# Verdicts

Verdicts of `check` on code: on listings by hand, and on the compiled derivatives of energies.

Accepted code. The bound is the greatest magnitude of its result, and the steps are the instructions on a longest path.

  $ listing 'push -4294967296, input 0, sq, div' pairmd check job --code listing
  accepted: steps 4, bound 107374182926
  $ listing 'input 0, jumpifzero 4, push 1, jump 5, push 2' pairmd check job --code listing
  accepted: steps 4, bound 1
  $ listing 'jump 2, add, push 7' pairmd check job --code listing
  accepted: steps 2, bound 7
  $ listing 'push 0' pairmd check job --code listing
  accepted: steps 1, bound 0

Code that lacks an operand or a local, or doesn't end with exactly one value; a quotient by 0; jumps to invalid targets.

  $ listing 'add' pairmd check job --code listing
  pairmd: V1 Malformed 0
  [3]
  $ printf 'pairmd code 1\n' > none
  $ pairmd check job --code none
  pairmd: V1 Malformed 0
  [3]
  $ listing 'push 0, push 0' pairmd check job --code listing
  pairmd: V1 Malformed 2
  [3]
  $ listing 'input 0, jumpifzero 4, push 1, keep 0, get 0' pairmd check job --code listing
  pairmd: V1 Malformed 4
  [3]
  $ listing 'input 0, jumpifzero 3, push 1' pairmd check job --code listing
  pairmd: V1 Malformed 3
  [3]
  $ listing 'input 0, push 0, div' pairmd check job --code listing
  pairmd: V2 Fault AR AR r 858993459 pc 2 F2 ZeroDivisor
  [3]
  $ listing 'jump 3, push 0' pairmd check job --code listing
  pairmd: C2 BadTarget 2
  [1]
  $ listing 'push 0, jump 0' pairmd check job --code listing
  pairmd: C2 BadTarget 3
  [1]
  $ listing 'jump 4294967295' pairmd check job --code listing
  pairmd: C2 BadTarget 2
  [1]

A 65th value, and more than 16,384 instructions.

  $ yes 'push 0' | head -n 65 > pushes
  $ cat none pushes > long
  $ pairmd check job --code long
  pairmd: V4 DepthOver64 64
  [3]
  $ yes 'push 0' | head -n 16385 > pushes
  $ cat none pushes > long
  $ pairmd check job --code long
  pairmd: C3 TooLong
  [1]

Prefixes of a listing.

  $ printf 'pairmd code 1\npush 0\n' > zero
  $ beginnings zero pairmd check job --code zero
  0-13: pairmd: C1 BadLine 1 [1]
  14: pairmd: V1 Malformed 0 [3]
  15-20: pairmd: C1 BadLine 2 [1]
  21: accepted: steps 1, bound 0

If the job can be read, neither its energy nor a clash of names matters to a listing.

  $ with job 2 'energy nothing + $' pairmd check job --code zero
  accepted: steps 1, bound 0
  $ with job 2 'energy nothing + $' pairmd check job
  pairmd: E01 BadCharacter 10
  [3]
  $ with job 6 'global r 1' pairmd check job --code zero
  accepted: steps 1, bound 0
  $ with job 6 'global r 1' pairmd check job
  pairmd: E09 ReservedName r
  [3]

Derivatives that fault: a pole, at a distance at which the square is 1 and the quotient overflows; a power that is 0,
and its square; a root of a negative number; a quotient by 0.

  $ with job 2 'energy 1/(r-0.5)' with job 6 'slices 256' pairmd check job
  pairmd: V2 Fault AR AR r 2147390967 pc 12 F1 Overflow
  [3]
  $ with job 2 'energy 1/r^32' with job 6 'slices 64' pairmd check job
  pairmd: V2 Fault AR AR r 858993459 pc 33 F2 ZeroDivisor
  [3]
  $ with job 2 'energy sqrt(r-0.4)' with job 6 'slices 64' pairmd check job
  pairmd: V2 Fault AR AR r 858993459 pc 7 F3 NegativeRoot
  [3]
  $ with job 2 'energy r/0' with job 6 'slices 1' pairmd check job
  pairmd: V2 Fault AR AR r 858993459 pc 2 F2 ZeroDivisor
  [3]

Accepted derivatives. The same choice is accepted with 64 slices and with one, which the verifier bisects where a fault
is possible.

  $ with job 2 'energy 1/r' with job 6 'slices 64' pairmd check job
  accepted: steps 9, bound 107374182926
  $ with job 2 'energy select(step(r-0.5), sqrt(r-0.4), 0)' with job 6 'slices 64' pairmd check job
  accepted: steps 16, bound 6955925718
  $ with job 2 'energy select(step(r-0.5), sqrt(r-0.4), 0)' with job 6 'slices 1' pairmd check job
  accepted: steps 16, bound 8589934584
  $ with job 2 'energy a1; a1=a2+a2; a2=a3+a3; a3=a4+a4; a4=a5+a5; a5=a6+a6; a6=a7+a7; a7=a8+a8; a8=a9+a9; a9=a10+a10; a10=a11+a11; a11=a12+a12; a12=a13+a13; a13=a14+a14; a14=a15+a15; a15=a16+a16; a16=a17+a17; a17=a18+a18; a18=a19+a19; a19=a20+a20; a20=r' with job 6 'slices 64' pairmd check job
  accepted: steps 79, bound 2251799813685248
  $ with job 2 'energy 1/r+a; a=2000000000+2000000000' with job 6 'slices 64' pairmd check job
  accepted: steps 11, bound 107374182926
  $ with job 2 'energy 5' with job 6 'slices 64' pairmd check job
  accepted: steps 1, bound 0

The verdict on the output of `code` is the verdict on the job's own code, also if parameters are mixed by the
Lorentz-Berthelot rules.

  $ pairmd code job > own
  $ pairmd check job --code own
  accepted: steps 9, bound 107374182926
  $ pairmd check job
  accepted: steps 9, bound 107374182926
  $ cat > mixture << END
  > pairmd job 1
  > energy 4*epsilon*((sigma/r)^12-(sigma/r)^6); sigma=0.5*(sigma1+sigma2); epsilon=sqrt(epsilon1*epsilon2)
  > core 0.2
  > cutoff 0.9
  > dt 2
  > parameter sigma
  > parameter epsilon
  > type AR 39.948 0.34 0.996
  > type X 1 0.3 0
  > END
  $ pairmd code mixture > own
  $ pairmd check mixture --code own
  accepted: steps 61, bound 589624715715112
  $ pairmd check mixture
  accepted: steps 61, bound 589624715715112
