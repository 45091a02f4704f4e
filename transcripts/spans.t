# Intervals (`Span`): results of operations on intervals

With one slice, code is verified on the interval of all distances from core to cutoff. The bound is then the greatest
magnitude of the ends of the value's interval. After subtracting the end of greater magnitude, the bound is the length
of the interval. With a core of 0 the distances are 0 to one unit below the cutoff, in units of 2^-32 nm.

  $ cat > range << END
  > pairmd job 1
  > energy r
  > core 0
  > cutoff 5e-10
  > dt 2
  > slices 1
  > type AR 1
  > END

## One operand

The squares of -1.5 to 0.5 are 0 to 2.25.

  $ with range 4 'cutoff 2.0000000002' listing 'input 0, push 6442450944, sub, sq' pairmd check range --code listing
  accepted: steps 4, bound 9663676416
  $ with range 4 'cutoff 2.0000000002' listing 'input 0, push 6442450944, sub, sq, push 9663676416, sub' pairmd check range --code listing
  accepted: steps 6, bound 9663676416

The roots of 0 to 1 unit are 0 to 65,536 units.

  $ with range 4 'cutoff 5e-10' listing 'input 0, sqrt' pairmd check range --code listing
  accepted: steps 2, bound 65536
  $ with range 4 'cutoff 5e-10' listing 'input 0, sqrt, push 65536, sub' pairmd check range --code listing
  accepted: steps 4, bound 65536

`step` of -1 to 0 units is 0 to one.

  $ with range 4 'cutoff 5e-10' listing 'input 0, push 1, sub, step' pairmd check range --code listing
  accepted: steps 4, bound 4294967296
  $ with range 4 'cutoff 5e-10' listing 'input 0, push 1, sub, step, push 4294967296, sub' pairmd check range --code listing
  accepted: steps 6, bound 4294967296

`delta`: 1 to 7 contains no 0, 0 to 0 contains only 0, and -1 to 0 contains 0 and other numbers.

  $ with range 4 'cutoff 16e-10' listing 'input 0, push 1, add, delta' pairmd check range --code listing
  accepted: steps 4, bound 0
  $ with range 4 'cutoff 2e-10' listing 'input 0, delta' pairmd check range --code listing
  accepted: steps 2, bound 4294967296
  $ with range 4 'cutoff 2e-10' listing 'input 0, delta, push 4294967296, sub' pairmd check range --code listing
  accepted: steps 4, bound 0
  $ with range 4 'cutoff 5e-10' listing 'input 0, push 1, sub, delta' pairmd check range --code listing
  accepted: steps 4, bound 4294967296
  $ with range 4 'cutoff 5e-10' listing 'input 0, push 1, sub, delta, push 4294967296, sub' pairmd check range --code listing
  accepted: steps 6, bound 4294967296

`floor` of -0.5 to 1 unit, and `ceil` of -0.5 to 0.2.

  $ with range 4 'cutoff 0.5000000005' listing 'input 0, push 2147483648, sub, floor' pairmd check range --code listing
  accepted: steps 4, bound 4294967296
  $ with range 4 'cutoff 0.5000000005' listing 'input 0, push 2147483648, sub, floor, push -4294967296, sub' pairmd check range --code listing
  accepted: steps 6, bound 4294967296
  $ with range 4 'cutoff 0.7000000002' listing 'input 0, push 2147483648, sub, ceil' pairmd check range --code listing
  accepted: steps 4, bound 4294967296
  $ with range 4 'cutoff 0.7000000002' listing 'input 0, push 2147483648, sub, ceil, push 4294967296, sub' pairmd check range --code listing
  accepted: steps 6, bound 4294967296

## Two operands

Half of -3 to -1 units, and a third of -1 to 1, rounded down.

  $ with range 4 'cutoff 7e-10' listing 'input 0, push 3, sub, push 2147483648, mul' pairmd check range --code listing
  accepted: steps 5, bound 2
  $ with range 4 'cutoff 7e-10' listing 'input 0, push 3, sub, push 2147483648, mul, push -2, sub' pairmd check range --code listing
  accepted: steps 7, bound 1
  $ with range 4 'cutoff 7e-10' listing 'input 0, push 1, sub, push 12884901888, div' pairmd check range --code listing
  accepted: steps 5, bound 1
  $ with range 4 'cutoff 7e-10' listing 'input 0, push 1, sub, push 12884901888, div, push -1, sub' pairmd check range --code listing
  accepted: steps 7, bound 1

The sum of -3 to -1 and 2 to 5, and their difference. Both depend on the same distance, but the verifier treats them as
independent.

  $ with range 4 'cutoff 1e-9' listing 'input 0, push 2, min, push 3, sub, input 0, push 2, add, add' pairmd check range --code listing
  accepted: steps 9, bound 4
  $ with range 4 'cutoff 1e-9' listing 'input 0, push 2, min, push 3, sub, input 0, push 2, add, add, push 4, sub' pairmd check range --code listing
  accepted: steps 11, bound 5
  $ with range 4 'cutoff 1e-9' listing 'input 0, push 2, min, push 3, sub, input 0, push 2, add, sub' pairmd check range --code listing
  accepted: steps 9, bound 8
  $ with range 4 'cutoff 1e-9' listing 'input 0, push 2, min, push 3, sub, input 0, push 2, add, sub, push -8, sub' pairmd check range --code listing
  accepted: steps 11, bound 5

`min` and `max` of -3 to 4 and 0 to 1.

  $ with range 4 'cutoff 19e-10' listing 'input 0, push 3, sub, input 0, push 1, min, min' pairmd check range --code listing
  accepted: steps 7, bound 3
  $ with range 4 'cutoff 19e-10' listing 'input 0, push 3, sub, input 0, push 1, min, min, push -3, sub' pairmd check range --code listing
  accepted: steps 9, bound 4
  $ with range 4 'cutoff 19e-10' listing 'input 0, push 3, sub, input 0, push 1, min, max' pairmd check range --code listing
  accepted: steps 7, bound 4
  $ with range 4 'cutoff 19e-10' listing 'input 0, push 3, sub, input 0, push 1, min, max, push 4, sub' pairmd check range --code listing
  accepted: steps 9, bound 4

Where branches meet, the interval is the smallest that contains both: -3 to 0 and 1 to 4 become -3 to 4.

  $ with range 4 'cutoff 1e-9' listing 'input 0, jumpifzero 6, input 0, push 3, sub, jump 9, input 0, push 1, add' pairmd check range --code listing
  accepted: steps 6, bound 4
  $ with range 4 'cutoff 1e-9' listing 'input 0, jumpifzero 6, input 0, push 3, sub, jump 9, input 0, push 1, add, push 4, sub' pairmd check range --code listing
  accepted: steps 8, bound 7

## Faults

An interval that may fault is bisected until one distance with a fault is found: the least, from the left.

  $ with range 4 'cutoff 16e-10' listing 'input 0, push 1, sub, sqrt' pairmd check range --code listing
  pairmd: V2 Fault AR AR r 0 pc 3 F3 NegativeRoot
  [3]
  $ with range 4 'cutoff 5e-10' listing 'push -9223372036854775807, input 0, sub, neg' pairmd check range --code listing
  pairmd: V2 Fault AR AR r 1 pc 3 F1 Overflow
  [3]
  $ with range 4 'cutoff 5e-10' listing 'push -9223372036854775807, input 0, sub, abs' pairmd check range --code listing
  pairmd: V2 Fault AR AR r 1 pc 3 F1 Overflow
  [3]
  $ with range 4 'cutoff 5e-10' listing 'push 9223372032559808512, input 0, add, ceil' pairmd check range --code listing
  pairmd: V2 Fault AR AR r 1 pc 3 F1 Overflow
  [3]
  $ with range 4 'cutoff 7e-10' listing 'push 0, input 0, push 1, sub, div' pairmd check range --code listing
  pairmd: V2 Fault AR AR r 1 pc 4 F2 ZeroDivisor
  [3]
  $ with range 4 'cutoff 7e-10' listing 'push -9223372036854775808, input 0, push 1, sub, div' pairmd check range --code listing
  pairmd: V2 Fault AR AR r 0 pc 4 F1 Overflow
  [3]
