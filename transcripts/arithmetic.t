# Arithmetic: numerals, and operations of fixed-point numbers

A fixed-point number is an integer count of 2^-32, from -2^63 to 2^63 - 1. Below, "one" is 4294967296, so 1.0.

## Numerals

A numeral is rounded to the nearest fixed-point number, a half upward. If the energy is only a numeral, `energy` prints
that number for two atoms.

  $ with job 2 'energy 1e-10' pairmd energy job state
  energy 0
  $ with job 2 'energy 2e-10' pairmd energy job state
  energy 1
  $ with job 2 'energy 3.12e-2' pairmd energy job state
  energy 134002980
  $ with job 2 'energy 0.5' pairmd energy job state
  energy 2147483648
  $ with job 2 'energy .5' pairmd energy job state
  energy 2147483648
  $ with job 2 'energy 5.' pairmd energy job state
  energy 21474836480
  $ with job 2 'energy 5E+0' pairmd energy job state
  energy 21474836480
  $ with job 2 'energy 2147483647' pairmd energy job state
  energy 9223372032559808512
  $ with job 2 'energy 000000000000000001' pairmd energy job state
  energy 4294967296
  $ with job 2 'energy 5.82076609e-5' pairmd energy job state
  energy 250000
  $ with job 2 'energy 5e-1' pairmd energy job state
  energy 2147483648
  $ with job 2 'energy 0e99' pairmd energy job state
  energy 0
  $ with job 2 'energy 999999999999999999e-99' pairmd energy job state
  energy 0
  $ with job 2 'energy 0.4' pairmd energy job state
  energy 1717986918

A numeral without digits, with more than 18 digits, two points, an exponent without digits or above 99, or another byte
is malformed (E02). A number of 2^31 or more is out of range (E07). Both errors print the byte offset at which the
numeral begins in the energy.

  $ with job 2 'energy .' pairmd energy job state
  pairmd: E02 BadNumber 0
  [3]
  $ with job 2 'energy 1e' pairmd energy job state
  pairmd: E02 BadNumber 0
  [3]
  $ with job 2 'energy 1e+' pairmd energy job state
  pairmd: E02 BadNumber 0
  [3]
  $ with job 2 'energy 1e100' pairmd energy job state
  pairmd: E02 BadNumber 0
  [3]
  $ with job 2 'energy 1.5.' pairmd energy job state
  pairmd: E02 BadNumber 0
  [3]
  $ with job 2 'energy 1..5' pairmd energy job state
  pairmd: E02 BadNumber 0
  [3]
  $ with job 2 'energy 0000000000000000001' pairmd energy job state
  pairmd: E02 BadNumber 0
  [3]
  $ with job 2 'energy r + 1e' pairmd energy job state
  pairmd: E02 BadNumber 4
  [3]
  $ with job 2 'energy 2147483648' pairmd energy job state
  pairmd: E07 NumberRange 0
  [3]
  $ with job 2 'energy 3e9' pairmd energy job state
  pairmd: E07 NumberRange 0
  [3]
  $ with job 2 'energy 1e99' pairmd energy job state
  pairmd: E07 NumberRange 0
  [3]
  $ with job 2 'energy r + 3e9' pairmd energy job state
  pairmd: E07 NumberRange 4
  [3]

The same rules hold for numbers of a job. Both atoms have the same position, so their distance is raised to the core,
which `energy r` prints.

  $ cat > together << END
  > pairmd state 1
  > title two atoms
  > step 0
  > atoms 2
  > box 200000 200000 200000
  >     1AR      AR 0 0 0 0 0 0
  >     1AR      AR 0 0 0 0 0 0
  > END
  $ with job 2 'energy r' with job 3 'core 2e-10' pairmd energy job together
  energy 1
  $ with job 2 'energy r' with job 3 'core 3.12e-2' pairmd energy job together
  energy 134002980
  $ with job 2 'energy r' with job 3 'core .5' pairmd energy job together
  energy 2147483648
  $ with job 2 'energy r' with job 3 'core 5e-1' pairmd energy job together
  energy 2147483648
  $ with job 2 'energy r' with job 3 'core 0e99' pairmd energy job together
  energy 0
  $ with job 2 'energy r' with job 3 'core 0.4' pairmd energy job together
  energy 1717986918
  $ with job 3 'core' pairmd energy job together
  pairmd: J1 BadLine 3
  [1]
  $ with job 3 'core .' pairmd energy job together
  pairmd: J1 BadLine 3
  [1]
  $ with job 3 'core e5' pairmd energy job together
  pairmd: J1 BadLine 3
  [1]
  $ with job 3 'core 1e' pairmd energy job together
  pairmd: J1 BadLine 3
  [1]
  $ with job 3 'core 1e+' pairmd energy job together
  pairmd: J1 BadLine 3
  [1]
  $ with job 3 'core 1e100' pairmd energy job together
  pairmd: J1 BadLine 3
  [1]
  $ with job 3 'core 1.5.' pairmd energy job together
  pairmd: J1 BadLine 3
  [1]
  $ with job 3 'core 1..5' pairmd energy job together
  pairmd: J1 BadLine 3
  [1]
  $ with job 3 'core -1' pairmd energy job together
  pairmd: J1 BadLine 3
  [1]
  $ with job 3 'core +1' pairmd energy job together
  pairmd: J1 BadLine 3
  [1]
  $ with job 3 'core 0000000000000000001' pairmd energy job together
  pairmd: J1 BadLine 3
  [1]
  $ with job 3 'core 0x1' pairmd energy job together
  pairmd: J1 BadLine 3
  [1]
  $ with job 3 'core 1e1.5' pairmd energy job together
  pairmd: J1 BadLine 3
  [1]
  $ with job 3 'core 2147483648' pairmd energy job together
  pairmd: J4 Range core
  [1]
  $ with job 3 'core 3e9' pairmd energy job together
  pairmd: J4 Range core
  [1]
  $ with job 3 'core 1e99' pairmd energy job together
  pairmd: J4 Range core
  [1]

## Powers

A power is computed by squaring; a negative exponent divides one by the positive power. 0.2 to the power 32 rounds to 0,
so its reciprocal divides by 0.

  $ with job 2 'energy (-2)^3' pairmd energy job state
  energy -34359738368
  $ with job 2 'energy 2^-2' pairmd energy job state
  energy 1073741824
  $ with job 2 'energy 0.2^32' pairmd energy job state
  energy 0
  $ with job 2 'energy 0.2^-32' pairmd energy job state
  pairmd: V2 Fault AR AR r 858993459 pc 9 F2 ZeroDivisor
  [3]
  $ with job 2 'energy 2^32' pairmd energy job state
  pairmd: V2 Fault AR AR r 858993459 pc 7 F1 Overflow
  [3]

The derivative of r^-32 contains r^33. At a distance of 2 nm this power exceeds the largest number, so the code
overflows.

  $ with job 2 'energy r^-32' with job 3 'core 2' with job 4 'cutoff 2.0000000002' pairmd check job
  pairmd: V2 Fault AR AR r 8589934592 pc 10 F1 Overflow
  [3]

## Operations

With a core of 0 and a cutoff of 2^-32 nm the only distance is 0. The bound of a listing is therefore the magnitude of
its value. The sign is visible too: `max` with 0 keeps a positive value, and `min` with 0 keeps a negative value.

  $ cat > job << END
  > pairmd job 1
  > energy r
  > core 0
  > cutoff 2e-10
  > dt 2
  > type AR 1
  > END

Sums, differences and negations are exact.

  $ listing 'push 9223372036854775807, push -9223372036854775808, add, push 0, min' pairmd check job --code listing
  accepted: steps 5, bound 1
  $ listing 'push 3, push 5, sub, push 0, min' pairmd check job --code listing
  accepted: steps 5, bound 2
  $ listing 'push 9223372036854775807, neg, push 0, min' pairmd check job --code listing
  accepted: steps 4, bound 9223372036854775807
  $ listing 'push -7, abs, push 0, max' pairmd check job --code listing
  accepted: steps 4, bound 7
  $ listing 'push -9223372036854775808, push 0, min' pairmd check job --code listing
  accepted: steps 3, bound 9223372036854775808

Products, quotients and roots are rounded down.

  $ listing 'push 1431655765, push 12884901888, mul, push 0, max' pairmd check job --code listing
  accepted: steps 5, bound 4294967295
  $ listing 'push 12884901888, push 2147483648, mul, push 0, max' pairmd check job --code listing
  accepted: steps 5, bound 6442450944
  $ listing 'push -1, push 1, mul, push 0, min' pairmd check job --code listing
  accepted: steps 5, bound 1
  $ listing 'push -92681, sq, push 0, max' pairmd check job --code listing
  accepted: steps 4, bound 1
  $ listing 'push -4294967296, push 12884901888, div, push 0, min' pairmd check job --code listing
  accepted: steps 5, bound 1431655766
  $ listing 'push -1, push 12884901888, div, push 0, min' pairmd check job --code listing
  accepted: steps 5, bound 1
  $ listing 'push -9223372036854775808, push 4294967296, div, push 0, min' pairmd check job --code listing
  accepted: steps 5, bound 9223372036854775808
  $ listing 'push 0, sqrt' pairmd check job --code listing
  accepted: steps 2, bound 0
  $ listing 'push 1, sqrt, push 0, max' pairmd check job --code listing
  accepted: steps 4, bound 65536
  $ listing 'push 8589934592, sqrt, push 0, max' pairmd check job --code listing
  accepted: steps 4, bound 6074000999
  $ listing 'push 9223372036854775807, sqrt, push 0, max' pairmd check job --code listing
  accepted: steps 4, bound 199032864766430

`min` and `max` of two numbers; `step`, which is 0 below 0 and else one; `delta`, which is one at 0 and else 0.

  $ listing 'push -1, push 1, min, push 0, min' pairmd check job --code listing
  accepted: steps 5, bound 1
  $ listing 'push -1, push 1, max, push 0, max' pairmd check job --code listing
  accepted: steps 5, bound 1
  $ listing 'push 0, step, push 0, max' pairmd check job --code listing
  accepted: steps 4, bound 4294967296
  $ listing 'push -1, step' pairmd check job --code listing
  accepted: steps 2, bound 0
  $ listing 'push 0, delta, push 0, max' pairmd check job --code listing
  accepted: steps 4, bound 4294967296
  $ listing 'push 1, delta' pairmd check job --code listing
  accepted: steps 2, bound 0

`floor` is the greatest multiple of one that isn't above a number, and `ceil` the least that isn't below.

  $ listing 'push -2147483648, floor, push 0, min' pairmd check job --code listing
  accepted: steps 4, bound 4294967296
  $ listing 'push 9223372034707292160, floor, push 0, max' pairmd check job --code listing
  accepted: steps 4, bound 9223372032559808512
  $ listing 'push -9223372036854775808, floor, push 0, min' pairmd check job --code listing
  accepted: steps 4, bound 9223372036854775808
  $ listing 'push 858993459, ceil, push 0, max' pairmd check job --code listing
  accepted: steps 4, bound 4294967296
  $ listing 'push -2147483648, ceil' pairmd check job --code listing
  accepted: steps 2, bound 0

## Faults

A result below -2^63 or above 2^63 - 1 overflows.

  $ listing 'push 9223372036854775807, push 1, add' pairmd check job --code listing
  pairmd: V2 Fault AR AR r 0 pc 2 F1 Overflow
  [3]
  $ listing 'push -9223372036854775808, push 1, sub' pairmd check job --code listing
  pairmd: V2 Fault AR AR r 0 pc 2 F1 Overflow
  [3]
  $ listing 'push -9223372036854775808, neg' pairmd check job --code listing
  pairmd: V2 Fault AR AR r 0 pc 1 F1 Overflow
  [3]
  $ listing 'push -9223372036854775808, abs' pairmd check job --code listing
  pairmd: V2 Fault AR AR r 0 pc 1 F1 Overflow
  [3]
  $ listing 'push 9223372036854775807, push 9223372036854775807, mul' pairmd check job --code listing
  pairmd: V2 Fault AR AR r 0 pc 2 F1 Overflow
  [3]
  $ listing 'push 9223372036854775807, sq' pairmd check job --code listing
  pairmd: V2 Fault AR AR r 0 pc 1 F1 Overflow
  [3]
  $ listing 'push 4294967296, push 1, div' pairmd check job --code listing
  pairmd: V2 Fault AR AR r 0 pc 2 F1 Overflow
  [3]
  $ listing 'push -9223372036854775808, push -4294967296, div' pairmd check job --code listing
  pairmd: V2 Fault AR AR r 0 pc 2 F1 Overflow
  [3]
  $ listing 'push 9223372034707292160, ceil' pairmd check job --code listing
  pairmd: V2 Fault AR AR r 0 pc 1 F1 Overflow
  [3]

A division by 0 and a root of a negative number fault.

  $ listing 'push 4294967296, push 0, div' pairmd check job --code listing
  pairmd: V2 Fault AR AR r 0 pc 2 F2 ZeroDivisor
  [3]
  $ listing 'push 0, push 0, div' pairmd check job --code listing
  pairmd: V2 Fault AR AR r 0 pc 2 F2 ZeroDivisor
  [3]
  $ listing 'push -1, sqrt' pairmd check job --code listing
  pairmd: V2 Fault AR AR r 0 pc 1 F3 NegativeRoot
  [3]
