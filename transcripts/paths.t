# Paths of code: the longest path, and conditions on every path

A path may take each conditional jump either way, whatever the values. Under this job the only input is the distance.

## The longest path

The steps of accepted code are the number of instructions on its longest path. The bound depends on the values, and the
distance is never 0 here.

  $ listing 'push 0' pairmd check job --code listing
  accepted: steps 1, bound 0
  $ listing 'push 3, keep 255, get 255, get 255, add' pairmd check job --code listing
  accepted: steps 5, bound 6
  $ listing 'push -4294967296, input 0, sq, div' pairmd check job --code listing
  accepted: steps 4, bound 107374182926

The longer branch has 4 instructions, the other 3. In the second listing the branch that jumps is longer.

  $ listing 'input 0, jumpifzero 4, push 1, jump 5, push 2' pairmd check job --code listing
  accepted: steps 4, bound 1
  $ listing 'input 0, jumpifzero 4, push 1, jump 7, push 2, neg, neg' pairmd check job --code listing
  accepted: steps 5, bound 1

Unreachable instructions that lack operands or a local; a jump to the next instruction; a local that both branches set.

  $ listing 'jump 2, add, push 7' pairmd check job --code listing
  accepted: steps 2, bound 7
  $ listing 'push 7, jump 4, add, get 3' pairmd check job --code listing
  accepted: steps 2, bound 7
  $ listing 'push 5, input 0, jumpifzero 3' pairmd check job --code listing
  accepted: steps 3, bound 5
  $ listing 'input 0, jumpifzero 5, push 1, keep 0, jump 7, push 2, keep 0, get 0' pairmd check job --code listing
  accepted: steps 6, bound 1

The longest code.

  $ printf 'pairmd code 1\n' > head
  $ printf 'push 0\n' > push
  $ yes 'neg' | head -n 16383 > negatives
  $ cat head push negatives > longest
  $ pairmd check job --code longest
  accepted: steps 16384, bound 0

## Missing operands and results

Code without instructions ends without a value.

  $ pairmd check job --code head
  pairmd: V1 Malformed 0
  [3]

A missing operand, local or input.

  $ listing 'add' pairmd check job --code listing
  pairmd: V1 Malformed 0
  [3]
  $ listing 'push 0, add' pairmd check job --code listing
  pairmd: V1 Malformed 1
  [3]
  $ listing 'neg' pairmd check job --code listing
  pairmd: V1 Malformed 0
  [3]
  $ listing 'keep 0' pairmd check job --code listing
  pairmd: V1 Malformed 0
  [3]
  $ listing 'jumpifzero 1' pairmd check job --code listing
  pairmd: V1 Malformed 0
  [3]
  $ listing 'get 0' pairmd check job --code listing
  pairmd: V1 Malformed 0
  [3]
  $ listing 'push 0, get 3' pairmd check job --code listing
  pairmd: V1 Malformed 1
  [3]
  $ listing 'push 0, keep 1, get 0' pairmd check job --code listing
  pairmd: V1 Malformed 2
  [3]
  $ listing 'input 1' pairmd check job --code listing
  pairmd: V1 Malformed 0
  [3]
  $ listing 'input 2' pairmd check job --code listing
  pairmd: V1 Malformed 0
  [3]

Two values at the end, and no value.

  $ listing 'push 0, push 0' pairmd check job --code listing
  pairmd: V1 Malformed 2
  [3]
  $ listing 'push 0, keep 0' pairmd check job --code listing
  pairmd: V1 Malformed 2
  [3]

A local that only one branch sets.

  $ listing 'input 0, jumpifzero 4, push 1, keep 0, get 0' pairmd check job --code listing
  pairmd: V1 Malformed 4
  [3]

Branches that meet at the end with one value and with no value. Then branches that meet earlier with stacks of different
heights, after which no operand is missing.

  $ listing 'input 0, jumpifzero 3, push 1' pairmd check job --code listing
  pairmd: V1 Malformed 3
  [3]
  $ listing 'input 0, jumpifzero 4, push 1, neg, push 2' pairmd check job --code listing
  pairmd: V1 Malformed 4
  [3]

The lowest instruction index is reported, and a malformed instruction is reported before any fault.

  $ listing 'input 0, jumpifzero 3, push 1, add, get 5' pairmd check job --code listing
  pairmd: V1 Malformed 3
  [3]
  $ listing 'input 0, jumpifzero 4, push 1, get 5, add' pairmd check job --code listing
  pairmd: V1 Malformed 3
  [3]
  $ listing 'input 0, push 0, div, add' pairmd check job --code listing
  pairmd: V1 Malformed 3
  [3]
  $ listing 'input 0, push 0, div' pairmd check job --code listing
  pairmd: V2 Fault AR AR r 858993459 pc 2 F2 ZeroDivisor
  [3]

## Depth

A stack holds 64 values, and 64 values can be added up. The 65th is rejected with its instruction index, but a missing
local or input there is reported first.

  $ yes 'push 0' | head -n 64 > pushes
  $ yes 'add' | head -n 63 > sums
  $ cat head pushes sums > full
  $ pairmd check job --code full
  accepted: steps 127, bound 0
  $ cat head pushes push > deep
  $ pairmd check job --code deep
  pairmd: V4 DepthOver64 64
  [3]
  $ printf 'input 0\n' > distance
  $ cat head pushes distance > deeper
  $ pairmd check job --code deeper
  pairmd: V4 DepthOver64 64
  [3]
  $ printf 'input 1\n' > parameter
  $ cat head pushes parameter > deeper
  $ pairmd check job --code deeper
  pairmd: V1 Malformed 64
  [3]
  $ printf 'get 0\n' > local
  $ cat head pushes local > deeper
  $ pairmd check job --code deeper
  pairmd: V1 Malformed 64
  [3]
