# Verdicts on code: slices, types, and undecided code

The verifier checks code for all pairs of types of a job, at every distance from the core to the cutoff, slice by slice.
The stored job has one type and distances from 0.2 to 0.9 nm, as integers 858993459 to 3865470565. For accepted code the
verdict prints the number of instructions on the longest path. The bound is the greatest magnitude of the interval ends
of its value.

  $ listing 'push -3' pairmd check job --code listing
  accepted: steps 1, bound 3

## Operations without a value

In this listing of 1/r^32 the power is 0 at the core. A run rejects such an energy too.

  $ listing 'push 4294967296, input 0, sq, sq, sq, sq, sq, div' pairmd check job --code listing
  pairmd: V2 Fault AR AR r 858993459 pc 7 F2 ZeroDivisor
  [3]
  $ with job 2 'energy 1/r^32' workers pairmd run job state --steps 1
  pairmd: V2 Fault AR AR r 858993459 pc 33 F2 ZeroDivisor
  [3]

The square of r - 0.5 is 0 near 0.5. The verifier bisects a slice on which an operation might fault, and so finds the
least distance with a fault. At that distance the square is 1, and the quotient overflows.

  $ with job 6 'slices 256' listing 'push -4294967296, input 0, push 2147483648, sub, sq, div' pairmd check job --code listing
  pairmd: V2 Fault AR AR r 2147390967 pc 5 F1 Overflow
  [3]

## Branches

The root of r - 0.4 is computed only from 0.5 on. The verifier proves this on each of 64 slices, and by bisection on a
single slice. The greatest value is the root of 0.5, at the last distance.

  $ with job 6 'slices 64' listing 'input 0, push 2147483648, sub, step, jumpifzero 10, input 0, push 1717986918, sub, sqrt, jump 11, push 0' pairmd check job --code listing
  accepted: steps 10, bound 3037000499
  $ with job 6 'slices 1' listing 'input 0, push 2147483648, sub, step, jumpifzero 10, input 0, push 1717986918, sub, sqrt, jump 11, push 0' pairmd check job --code listing
  accepted: steps 10, bound 3037000499

## Undecided code

A slice is bisected at most 24 times. Here r - r + 1 is always 1, but on two or more distances its interval contains 0.
The error prints the first part that remains: 180 distances with one slice, 90 with two slices, 3 with 64 slices.

  $ with job 6 'slices 1' listing 'push 1, input 0, input 0, sub, push 1, add, div' pairmd check job --code listing
  pairmd: V3 Undecided AR AR 858993459 858993638 pc 6 F2 ZeroDivisor
  [3]
  $ with job 6 'slices 2' listing 'push 1, input 0, input 0, sub, push 1, add, div' pairmd check job --code listing
  pairmd: V3 Undecided AR AR 858993459 858993548 pc 6 F2 ZeroDivisor
  [3]
  $ with job 6 'slices 64' listing 'push 1, input 0, input 0, sub, push 1, add, div' pairmd check job --code listing
  pairmd: V3 Undecided AR AR 858993459 858993461 pc 6 F2 ZeroDivisor
  [3]

## Types

Pairs of types are checked in the order of the job, with the type of the first particle first. The parameters are 5, 8
and 11, and the globals 3 and -6. p1 - p2 - 3 is first 0 for the second type with the first, and p1 - p2 + 6 for the
first with the third. p1 + p2 - 22 has a root only for the third type with itself, so the first type with itself is
reported.

  $ cat > three << END
  > pairmd job 1
  > energy 1/r
  > core 0.2
  > cutoff 0.9
  > dt 2
  > parameter p
  > global a 3
  > global b -6
  > type A 1 5
  > type B 1 8
  > type C 1 11
  > END
  $ listing 'push 1, input 1, input 2, sub, input 3, sub, div' pairmd check three --code listing
  pairmd: V2 Fault B A r 858993459 pc 6 F2 ZeroDivisor
  [3]
  $ listing 'push 1, input 1, input 2, sub, input 4, sub, div' pairmd check three --code listing
  pairmd: V2 Fault A C r 858993459 pc 6 F2 ZeroDivisor
  [3]
  $ listing 'input 1, input 2, add, push 94489280512, sub, sqrt' pairmd check three --code listing
  pairmd: V2 Fault A A r 858993459 pc 5 F3 NegativeRoot
  [3]

An undecided verdict also names a pair of types in order. The root is computed only if the first particle is an A and
the second a B. Its radicand is 4 at all distances, but on 6 or more distances its interval contains negative numbers.

  $ cat > root << END
  > pairmd job 1
  > energy select(q1*(1-q2), sqrt(r-r+1e-9), 0)
  > core 0.2
  > cutoff 0.9
  > dt 2
  > slices 1
  > parameter q
  > type A 1 1
  > type B 1 0
  > END
  $ pairmd check root
  pairmd: V3 Undecided A B 858993459 858993638 pc 17 F3 NegativeRoot
  [3]
  $ with root 2 'energy select(q2*(1-q1), sqrt(r-r+1e-9), 0)' pairmd check root
  pairmd: V3 Undecided B A 858993459 858993638 pc 17 F3 NegativeRoot
  [3]

The derivative of the Lennard-Jones energy by hand, for argon and for atoms without a well. Local 0 is the mean of two
sigmas, local 1 the root of two epsilons, and local 2 sigma/r. Local 3 is the square of local 2, and local 4 its sixth
power. The derivative is (24 epsilon x^6 - 48 epsilon x^12) / r.

  $ cat > two << END
  > pairmd job 1
  > energy 4*epsilon*((sigma/r)^12-(sigma/r)^6); sigma=0.5*(sigma1+sigma2); epsilon=sqrt(epsilon1*epsilon2)
  > core 0.2
  > cutoff 0.9
  > dt 2
  > slices 64
  > parameter sigma
  > parameter epsilon
  > type AR 39.948 0.34 0.996
  > type X 1 0.3 0
  > END
  $ cat > slope << END
  > pairmd code 1
  > input 1
  > input 3
  > add
  > push 2147483648
  > mul
  > keep 0
  > input 2
  > input 4
  > mul
  > sqrt
  > keep 1
  > get 0
  > input 0
  > div
  > keep 2
  > get 2
  > sq
  > keep 3
  > get 3
  > get 3
  > sq
  > mul
  > keep 4
  > push 103079215104
  > get 1
  > mul
  > get 4
  > mul
  > push 206158430208
  > get 1
  > mul
  > get 4
  > sq
  > mul
  > sub
  > input 0
  > div
  > END
  $ pairmd check two --code slope
  accepted: steps 37, bound 589157929488805

## Failed allocations

If an allocation fails, the only output is the error; otherwise the verdict is unchanged. This holds for accepted,
rejected and undecided code.

  $ with two 6 'slices 3' requests pairmd check two --code slope
  pairmd: Memory [4]
  all
  $ with job 6 'slices 1' listing 'push -4294967296, input 0, push 2147483648, sub, sq, div' requests pairmd check job --code listing
  pairmd: Memory [4]
  all
  $ with job 6 'slices 1' listing 'push 1, input 0, input 0, sub, push 1, add, div' requests pairmd check job --code listing
  pairmd: Memory [4]
  all
  $ with job 6 'slices 1' listing 'input 0, push 2147483648, sub, step, jumpifzero 10, input 0, push 1717986918, sub, sqrt, jump 11, push 0' requests pairmd check job --code listing
  pairmd: Memory [4]
  all
  $ listing 'input 0, jumpifzero 3, push 1' requests pairmd check job --code listing
  pairmd: Memory [4]
  all
  $ with job 2 'energy 2*epsilon' requests pairmd energy job state
  pairmd: Memory [4]
  all
