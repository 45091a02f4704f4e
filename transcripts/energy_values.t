# Values of energies

Each operation returns the exact result, rounded down to a multiple of 2^-32. The type parameter q is 3 for the first
particle and 1 for the second; the global k is 0.5. Both atoms have the same position, so their distance is raised to
the core 1.5.

  $ cat > charges << END
  > pairmd job 1
  > energy r
  > parameter q
  > global k 0.5
  > core 1.5
  > cutoff 1.5000000002
  > dt 2
  > type A 1 3
  > type B 1 1
  > END
  $ cat > pair << END
  > pairmd state 1
  > title a pair
  > step 0
  > atoms 2
  > box 1600000 1600000 1600000
  >     1A        A 0 0 0 0 0 0
  >     1B        B 0 0 0 0 0 0
  > END

## Operations

  $ with charges 2 'energy -2^2' pairmd energy charges pair
  energy -17179869184
  $ with charges 2 'energy 2-3-4' pairmd energy charges pair
  energy -21474836480
  $ with charges 2 'energy 1/3*3' pairmd energy charges pair
  energy 4294967295
  $ with charges 2 'energy -1/3' pairmd energy charges pair
  energy -1431655766
  $ with charges 2 'energy 2^-2' pairmd energy charges pair
  energy 1073741824
  $ with charges 2 'energy 2^(3)' pairmd energy charges pair
  energy 34359738368
  $ with charges 2 'energy r' pairmd energy charges pair
  energy 6442450944
  $ with charges 2 'energy r-2*r' pairmd energy charges pair
  energy -6442450944
  $ with charges 2 'energy 1/(r-r)' pairmd energy charges pair
  pairmd: V2 Fault A A r 6442450944 pc 12 F2 ZeroDivisor
  [3]
  $ with charges 2 'energy 1/(k-k)' pairmd energy charges pair
  pairmd: V2 Fault A A r 6442450944 pc 4 F2 ZeroDivisor
  [3]
  $ with charges 2 'energy 2147483647+1' pairmd energy charges pair
  pairmd: V2 Fault A A r 6442450944 pc 2 F1 Overflow
  [3]
  $ with charges 2 'energy 0^-2' pairmd energy charges pair
  pairmd: V2 Fault A A r 6442450944 pc 5 F2 ZeroDivisor
  [3]

## Functions

  $ with charges 2 'energy sqrt(2)' pairmd energy charges pair
  energy 6074000999
  $ with charges 2 'energy sqrt(-1)' pairmd energy charges pair
  pairmd: V2 Fault A A r 6442450944 pc 2 F3 NegativeRoot
  [3]
  $ with charges 2 'energy abs(-1)' pairmd energy charges pair
  energy 4294967296
  $ with charges 2 'energy step(0)' pairmd energy charges pair
  energy 4294967296
  $ with charges 2 'energy step(-1)' pairmd energy charges pair
  energy 0
  $ with charges 2 'energy delta(0)' pairmd energy charges pair
  energy 4294967296
  $ with charges 2 'energy delta(2)' pairmd energy charges pair
  energy 0
  $ with charges 2 'energy floor(-0.5)' pairmd energy charges pair
  energy -4294967296
  $ with charges 2 'energy floor(2147483647.5)' pairmd energy charges pair
  energy 9223372032559808512
  $ with charges 2 'energy ceil(0.2)' pairmd energy charges pair
  energy 4294967296
  $ with charges 2 'energy ceil(2147483647.5)' pairmd energy charges pair
  pairmd: V2 Fault A A r 6442450944 pc 1 F1 Overflow
  [3]
  $ with charges 2 'energy min(2,abs(-3))' pairmd energy charges pair
  energy 8589934592
  $ with charges 2 'energy max(2,abs(-3))' pairmd energy charges pair
  energy 12884901888

## Choices

`select` computes only the branch that it selects.

  $ with charges 2 'energy select(0,1,2)' pairmd energy charges pair
  energy 8589934592
  $ with charges 2 'energy select(1,1,1/0)' pairmd energy charges pair
  energy 4294967296
  $ with charges 2 'energy select(0,1/0,5)' pairmd energy charges pair
  energy 21474836480
  $ with charges 2 'energy select(r,5,1/0)' pairmd energy charges pair
  energy 21474836480
  $ with charges 2 'energy select(r,1/0,5)' pairmd energy charges pair
  pairmd: V2 Fault A A r 6442450944 pc 4 F2 ZeroDivisor
  [3]
  $ with charges 2 'energy select(sqrt(-1),1,2)' pairmd energy charges pair
  pairmd: V2 Fault A A r 6442450944 pc 2 F3 NegativeRoot
  [3]

## Definitions

A definition that isn't used isn't computed. A definition that is used is computed even if the branch that uses it isn't
selected.

  $ with charges 2 'energy a*r; a=k*(q1-q2)' pairmd energy charges pair
  energy 6442450944
  $ with charges 2 'energy a+b; b=2*a; a=3' pairmd energy charges pair
  energy 38654705664
  $ with charges 2 'energy a; a=b*b; b=c*c; c=q1' pairmd energy charges pair
  energy 347892350976
  $ with charges 2 'energy q1-q; q=k' pairmd energy charges pair
  energy 10737418240
  $ with charges 2 'energy q2; a=1/0' pairmd energy charges pair
  energy 4294967296
  $ with charges 2 'energy b+1; a=1/0; b=c+1; c=r' pairmd energy charges pair
  energy 15032385536
  $ with charges 2 'energy select(0,a,1); a=1/0' pairmd energy charges pair
  pairmd: V2 Fault A A r 6442450944 pc 2 F2 ZeroDivisor
  [3]

The energy is (r - p1)^2 / k if the global k is above 0, else -1. The distance r is 7 and the parameter p1 is 1.

  $ cat > parabola << END
  > pairmd job 1
  > energy select(step(-k),-1,a); a=b^2/k; b=r-p1
  > parameter p
  > global k 3
  > core 7
  > cutoff 7.0000000002
  > dt 2
  > type A 1 1
  > type B 1 9
  > END
  $ pairmd energy parabola pair
  energy 51539607552
  $ with parabola 4 'global k -3' pairmd energy parabola pair
  energy -4294967296

If k is 0 the definition divides by 0. Inside the branch the quotient isn't computed, so the second text has a value.

  $ with parabola 4 'global k 0' pairmd energy parabola pair
  pairmd: V2 Fault A A r 30064771072 pc 16 F2 ZeroDivisor
  [3]
  $ with parabola 4 'global k 0' with parabola 2 'energy select(step(-k),-1,(r-p1)^2/k)' pairmd energy parabola pair
  energy -4294967296
