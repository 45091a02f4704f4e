# Listings: accepted and rejected code

## Instructions

Each instruction with both ends of its operand's range, under a job with 33 inputs: 8 parameters per particle and 16
globals. All lines are read, and the error is on a path: the second conditional jump finds an empty stack.

  $ cat > many << END
  > pairmd job 1
  > energy r
  > core 0
  > cutoff 2e-10
  > dt 2
  > parameter a
  > parameter b
  > parameter c
  > parameter d
  > parameter e
  > parameter f
  > parameter g
  > parameter h
  > global g17 17
  > global g18 18
  > global g19 19
  > global g20 20
  > global g21 21
  > global g22 22
  > global g23 23
  > global g24 24
  > global g25 25
  > global g26 26
  > global g27 27
  > global g28 28
  > global g29 29
  > global g30 30
  > global g31 31
  > global g32 32
  > type AR 1 1 2 3 4 5 6 7 8
  > END
  $ listing 'push 0, push -1, push 4294967296, push -9223372036854775808, push 9223372036854775807, input 0, input 32, keep 0, keep 255, get 0, get 255, add, sub, mul, div, min, max, neg, sq, sqrt, abs, step, delta, floor, ceil, jumpifzero 26, jumpifzero 30, jump 28, jump 30, jump 30' pairmd check many --code listing
  pairmd: V1 Malformed 26
  [3]
  $ listing 'input 0' pairmd check many --code listing
  accepted: steps 1, bound 0
  $ listing 'input 1' pairmd check many --code listing
  accepted: steps 1, bound 4294967296
  $ listing 'input 8' pairmd check many --code listing
  accepted: steps 1, bound 34359738368
  $ listing 'input 9' pairmd check many --code listing
  accepted: steps 1, bound 4294967296
  $ listing 'input 16' pairmd check many --code listing
  accepted: steps 1, bound 34359738368
  $ listing 'input 17' pairmd check many --code listing
  accepted: steps 1, bound 73014444032
  $ listing 'input 32' pairmd check many --code listing
  accepted: steps 1, bound 137438953472

`check` reads the output of `code`, and its verdict is the verdict on the job's own energy. The code of this energy uses
every instruction.

  $ cat > rich << END
  > pairmd job 1
  > energy select(step(r-0.5), min(r, a1)*sqrt(r), max(r, a2)*abs(g))*floor(r*4)*ceil(r) + delta(r-0.3)*r^2 - 1/(r+2)
  > core 0.2
  > cutoff 0.9
  > dt 2
  > parameter a
  > global g -3
  > type AR 1 0.5
  > type KR 1 0.25
  > END
  $ pairmd code rich > printed
  $ pairmd check rich > own
  $ pairmd check rich --code printed > read
  $ cmp own read
  $ pairmd check job
  accepted: steps 9, bound 107374182926
  $ pairmd code job > printed
  $ cat printed
  pairmd code 1
  push 4294967296
  push 4294967296
  mul
  neg
  input 0
  keep 0
  get 0
  sq
  div
  $ pairmd check job --code printed
  accepted: steps 9, bound 107374182926

## Lines

A line that isn't an instruction is rejected with its number, even if earlier code lacks operands and jumps backwards.
Each case replaces line 4 of this listing.

  $ cat > other << END
  > pairmd code 1
  > add
  > jump 0
  > push 0
  > push 0
  > END
  $ with other 4 '' pairmd check job --code other
  pairmd: C1 BadLine 4
  [1]
  $ with other 4 ' ' pairmd check job --code other
  pairmd: C1 BadLine 4
  [1]
  $ with other 4 'push' pairmd check job --code other
  pairmd: C1 BadLine 4
  [1]
  $ with other 4 'push ' pairmd check job --code other
  pairmd: C1 BadLine 4
  [1]
  $ with other 4 'push  0' pairmd check job --code other
  pairmd: C1 BadLine 4
  [1]
  $ with other 4 'push 007' pairmd check job --code other
  pairmd: C1 BadLine 4
  [1]
  $ with other 4 'push 00' pairmd check job --code other
  pairmd: C1 BadLine 4
  [1]
  $ with other 4 'push -0' pairmd check job --code other
  pairmd: C1 BadLine 4
  [1]
  $ with other 4 'push +1' pairmd check job --code other
  pairmd: C1 BadLine 4
  [1]
  $ with other 4 'push 0 ' pairmd check job --code other
  pairmd: C1 BadLine 4
  [1]
  $ with other 4 ' push 0' pairmd check job --code other
  pairmd: C1 BadLine 4
  [1]
  $ with other 4 'push 0\r' pairmd check job --code other
  pairmd: C1 BadLine 4
  [1]
  $ with other 4 'push\t0' pairmd check job --code other
  pairmd: C1 BadLine 4
  [1]
  $ with other 4 'push 1.0' pairmd check job --code other
  pairmd: C1 BadLine 4
  [1]
  $ with other 4 'push 9223372036854775808' pairmd check job --code other
  pairmd: C1 BadLine 4
  [1]
  $ with other 4 'push -9223372036854775809' pairmd check job --code other
  pairmd: C1 BadLine 4
  [1]
  $ with other 4 'Push 0' pairmd check job --code other
  pairmd: C1 BadLine 4
  [1]
  $ with other 4 'input 33' pairmd check job --code other
  pairmd: C1 BadLine 4
  [1]
  $ with other 4 'input -1' pairmd check job --code other
  pairmd: C1 BadLine 4
  [1]
  $ with other 4 'input 00' pairmd check job --code other
  pairmd: C1 BadLine 4
  [1]
  $ with other 4 'keep 256' pairmd check job --code other
  pairmd: C1 BadLine 4
  [1]
  $ with other 4 'get 256' pairmd check job --code other
  pairmd: C1 BadLine 4
  [1]
  $ with other 4 'get' pairmd check job --code other
  pairmd: C1 BadLine 4
  [1]
  $ with other 4 'add 0' pairmd check job --code other
  pairmd: C1 BadLine 4
  [1]
  $ with other 4 'add ' pairmd check job --code other
  pairmd: C1 BadLine 4
  [1]
  $ with other 4 'add\r' pairmd check job --code other
  pairmd: C1 BadLine 4
  [1]
  $ with other 4 ' add' pairmd check job --code other
  pairmd: C1 BadLine 4
  [1]
  $ with other 4 'adds' pairmd check job --code other
  pairmd: C1 BadLine 4
  [1]
  $ with other 4 'ad' pairmd check job --code other
  pairmd: C1 BadLine 4
  [1]
  $ with other 4 'pow' pairmd check job --code other
  pairmd: C1 BadLine 4
  [1]
  $ with other 4 'halt' pairmd check job --code other
  pairmd: C1 BadLine 4
  [1]
  $ with other 4 'ceiling' pairmd check job --code other
  pairmd: C1 BadLine 4
  [1]
  $ with other 4 'jump' pairmd check job --code other
  pairmd: C1 BadLine 4
  [1]
  $ with other 4 'jump -1' pairmd check job --code other
  pairmd: C1 BadLine 4
  [1]
  $ with other 4 'jump 4294967296' pairmd check job --code other
  pairmd: C1 BadLine 4
  [1]
  $ with other 4 'jumpifzero' pairmd check job --code other
  pairmd: C1 BadLine 4
  [1]
  $ with other 4 'jumpifzero  2' pairmd check job --code other
  pairmd: C1 BadLine 4
  [1]
  $ with other 4 'jumpifzero 02' pairmd check job --code other
  pairmd: C1 BadLine 4
  [1]
  $ with other 4 'jump2' pairmd check job --code other
  pairmd: C1 BadLine 4
  [1]

The same errors in line 2, and in the last line, which must end in LF.

  $ cat > two << END
  > pairmd code 1
  > push 0
  > push 0
  > END
  $ with two 2 '' pairmd check job --code two
  pairmd: C1 BadLine 2
  [1]
  $ with two 2 'push 007' pairmd check job --code two
  pairmd: C1 BadLine 2
  [1]
  $ with two 2 'push 0\r' pairmd check job --code two
  pairmd: C1 BadLine 2
  [1]
  $ with two 2 'add 0' pairmd check job --code two
  pairmd: C1 BadLine 2
  [1]
  $ with two 2 'jump' pairmd check job --code two
  pairmd: C1 BadLine 2
  [1]
  $ printf 'pairmd code 1\npush 0\npush 0' > endless
  $ pairmd check job --code endless
  pairmd: C1 BadLine 3
  [1]

Other first lines, and texts without a first line.

  $ with two 1 '' pairmd check job --code two
  pairmd: C1 BadLine 1
  [1]
  $ with two 1 'pairmd code 1\r' pairmd check job --code two
  pairmd: C1 BadLine 1
  [1]
  $ with two 1 'pairmd code 2' pairmd check job --code two
  pairmd: C1 BadLine 1
  [1]
  $ with two 1 ' pairmd code 1' pairmd check job --code two
  pairmd: C1 BadLine 1
  [1]
  $ with two 1 'pairmd code 1 ' pairmd check job --code two
  pairmd: C1 BadLine 1
  [1]
  $ with two 1 'pairmd state 1' pairmd check job --code two
  pairmd: C1 BadLine 1
  [1]
  $ with two 1 'push 0' pairmd check job --code two
  pairmd: C1 BadLine 1
  [1]
  $ with two 1 '\npairmd code 1' pairmd check job --code two
  pairmd: C1 BadLine 1
  [1]
  $ printf 'pairmd code 1' > headless
  $ pairmd check job --code headless
  pairmd: C1 BadLine 1
  [1]
  $ printf '' > empty
  $ pairmd check job --code empty
  pairmd: C1 BadLine 1
  [1]

Prefixes of a listing, by length. The first 14 bytes are code without instructions.

  $ cat > short << END
  > pairmd code 1
  > push 0
  > END
  $ beginnings short pairmd check job --code short
  0-13: pairmd: C1 BadLine 1 [1]
  14: pairmd: V1 Malformed 0 [3]
  15-20: pairmd: C1 BadLine 2 [1]
  21: accepted: steps 1, bound 0

## Targets

A jump goes forward, at most to the end. The error prints the first line with a bad target, after all lines are read.

  $ listing 'jump 3, push 0' pairmd check job --code listing
  pairmd: C2 BadTarget 2
  [1]
  $ listing 'push 0, jump 0' pairmd check job --code listing
  pairmd: C2 BadTarget 3
  [1]
  $ listing 'jump 0' pairmd check job --code listing
  pairmd: C2 BadTarget 2
  [1]
  $ listing 'jumpifzero 0' pairmd check job --code listing
  pairmd: C2 BadTarget 2
  [1]
  $ listing 'jumpifzero 2' pairmd check job --code listing
  pairmd: C2 BadTarget 2
  [1]
  $ listing 'jump 4294967295' pairmd check job --code listing
  pairmd: C2 BadTarget 2
  [1]
  $ listing 'push 0, jumpifzero 1' pairmd check job --code listing
  pairmd: C2 BadTarget 3
  [1]
  $ listing 'jump 1, jump 2, jump 2, jump 9' pairmd check job --code listing
  pairmd: C2 BadTarget 4
  [1]
  $ listing 'jump 1' pairmd check job --code listing
  pairmd: V1 Malformed 1
  [3]
  $ listing 'jump 2, add, push 7' pairmd check job --code listing
  accepted: steps 2, bound 7
  $ listing 'input 0, jumpifzero 4, push 1, jump 5, push 2' pairmd check job --code listing
  accepted: steps 4, bound 1

## Length

Code has at most 16,384 instructions. A malformed line is reported before the length, and the length before a bad
target.

  $ printf 'pairmd code 1\n' > head
  $ yes 'push 0' | head -n 16384 > most
  $ cat head most > long
  $ pairmd check job --code long
  pairmd: V4 DepthOver64 64
  [3]
  $ printf 'push 0\n' > push
  $ cat head most push > longer
  $ pairmd check job --code longer
  pairmd: C3 TooLong
  [1]
  $ printf 'jump 0\n' > jump
  $ cat head most jump > backwards
  $ pairmd check job --code backwards
  pairmd: C3 TooLong
  [1]
  $ printf 'push 0' > unended
  $ cat head most jump unended > worse
  $ pairmd check job --code worse
  pairmd: C1 BadLine 16387
  [1]

## Memory

A failed allocation is reported as an error, both when a listing is read and when it is printed.

  $ listing 'input 0, push 1, add' requests pairmd check job --code listing
  pairmd: Memory [4]
  all
  $ requests pairmd code job
  pairmd: Memory [4]
  all
