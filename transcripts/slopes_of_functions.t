# Derivatives of functions, choices and definitions

The cutoff of each job is the next number above its core, so there is only one distance. The bound that `check` prints
is therefore the magnitude of the derivative at that distance. The energy of each test case comes before `+ z*r` if its
derivative isn't negative, and before `- z*r` if it is. The derivative of `z*r` is 10000000000000 in units of 2^-32. The
bound is the sum of this number and the magnitude of the derivative of the case's own energy. The global k is 0.25.

  $ cat > at_0.5 << END
  > pairmd job 1
  > energy r
  > global k 0.25
  > global z 2328.30643653869629
  > core 0.5
  > cutoff 0.5000000002
  > dt 2
  > type AR 1
  > END
  $ sed '5c core 1' at_0.5 > one
  $ sed '6c cutoff 1.0000000002' one > at_1
  $ sed '5c core 1.75' at_0.5 > more
  $ sed '6c cutoff 1.7500000002' more > at_1.75

## Roots

  $ with at_0.5 2 'energy sqrt(r) + z*r' pairmd check at_0.5
  accepted: steps 10, bound 10003037000500
  $ with at_1 2 'energy sqrt(r) + z*r' pairmd check at_1
  accepted: steps 10, bound 10002147483648
  $ with at_1.75 2 'energy sqrt(r) + z*r' pairmd check at_1.75
  accepted: steps 10, bound 10001623345050
  $ with at_0.5 2 'energy sqrt(r*r+1) + z*r' pairmd check at_0.5
  accepted: steps 22, bound 10001920767767
  $ with at_1 2 'energy sqrt(r*r+1) + z*r' pairmd check at_1
  accepted: steps 22, bound 10003037000500
  $ with at_1.75 2 'energy sqrt(r*r+1) + z*r' pairmd check at_1.75
  accepted: steps 22, bound 10003729075900
  $ with at_0.5 2 'energy sqrt(abs(-4))*r + z*r' pairmd check at_0.5
  accepted: steps 10, bound 10008589934592
  $ with at_1 2 'energy sqrt(abs(-4))*r + z*r' pairmd check at_1
  accepted: steps 10, bound 10008589934592
  $ with at_1.75 2 'energy sqrt(abs(-4))*r + z*r' pairmd check at_1.75
  accepted: steps 10, bound 10008589934592
  $ with at_0.5 2 'energy sqrt(-4)*r + z*r' pairmd check at_0.5
  pairmd: V2 Fault AR AR r 2147483648 pc 2 F3 NegativeRoot
  [3]
  $ with at_1 2 'energy sqrt(-4)*r + z*r' pairmd check at_1
  pairmd: V2 Fault AR AR r 4294967296 pc 2 F3 NegativeRoot
  [3]
  $ with at_1.75 2 'energy sqrt(-4)*r + z*r' pairmd check at_1.75
  pairmd: V2 Fault AR AR r 7516192768 pc 2 F3 NegativeRoot
  [3]
  $ with at_0.5 2 'energy 0*sqrt(r-5) + z*r' pairmd check at_0.5
  pairmd: V2 Fault AR AR r 2147483648 pc 8 F3 NegativeRoot
  [3]
  $ with at_1 2 'energy 0*sqrt(r-5) + z*r' pairmd check at_1
  pairmd: V2 Fault AR AR r 4294967296 pc 8 F3 NegativeRoot
  [3]
  $ with at_1.75 2 'energy 0*sqrt(r-5) + z*r' pairmd check at_1.75
  pairmd: V2 Fault AR AR r 7516192768 pc 8 F3 NegativeRoot
  [3]

## Minimum and maximum

If both arguments are equal, the derivative is the derivative of the first.

  $ with at_0.5 2 'energy min(r,1) + z*r' pairmd check at_0.5
  accepted: steps 11, bound 10004294967296
  $ with at_1 2 'energy min(r,1) + z*r' pairmd check at_1
  accepted: steps 11, bound 10004294967296
  $ with at_1.75 2 'energy min(r,1) + z*r' pairmd check at_1.75
  accepted: steps 11, bound 10000000000000
  $ with at_0.5 2 'energy min(1,r) + z*r' pairmd check at_0.5
  accepted: steps 11, bound 10004294967296
  $ with at_1 2 'energy min(1,r) + z*r' pairmd check at_1
  accepted: steps 11, bound 10000000000000
  $ with at_1.75 2 'energy min(1,r) + z*r' pairmd check at_1.75
  accepted: steps 11, bound 10000000000000
  $ with at_0.5 2 'energy min(1/r,2) - z*r' pairmd check at_0.5
  accepted: steps 21, bound 10017179869184
  $ with at_1 2 'energy min(1/r,2) - z*r' pairmd check at_1
  accepted: steps 21, bound 10004294967296
  $ with at_1.75 2 'energy min(1/r,2) - z*r' pairmd check at_1.75
  accepted: steps 21, bound 10001402438301
  $ with at_0.5 2 'energy min(2,1/r) + z*r' pairmd check at_0.5
  accepted: steps 20, bound 10000000000000
  $ with at_1 2 'energy min(2,1/r) - z*r' pairmd check at_1
  accepted: steps 20, bound 10004294967296
  $ with at_1.75 2 'energy min(2,1/r) - z*r' pairmd check at_1.75
  accepted: steps 20, bound 10001402438301
  $ with at_0.5 2 'energy max(r,1) + z*r' pairmd check at_0.5
  accepted: steps 11, bound 10000000000000
  $ with at_1 2 'energy max(r,1) + z*r' pairmd check at_1
  accepted: steps 11, bound 10004294967296
  $ with at_1.75 2 'energy max(r,1) + z*r' pairmd check at_1.75
  accepted: steps 11, bound 10004294967296
  $ with at_0.5 2 'energy max(1,r) + z*r' pairmd check at_0.5
  accepted: steps 11, bound 10000000000000
  $ with at_1 2 'energy max(1,r) + z*r' pairmd check at_1
  accepted: steps 11, bound 10000000000000
  $ with at_1.75 2 'energy max(1,r) + z*r' pairmd check at_1.75
  accepted: steps 11, bound 10004294967296
  $ with at_0.5 2 'energy max(1/r,2) - z*r' pairmd check at_0.5
  accepted: steps 21, bound 10017179869184
  $ with at_1 2 'energy max(1/r,2) + z*r' pairmd check at_1
  accepted: steps 21, bound 10000000000000
  $ with at_1.75 2 'energy max(1/r,2) + z*r' pairmd check at_1.75
  accepted: steps 21, bound 10000000000000
  $ with at_0.5 2 'energy min(1,1/(r-1)) - z*r' pairmd check at_0.5
  accepted: steps 26, bound 10017179869184
  $ with at_1 2 'energy min(1,1/(r-1)) + z*r' pairmd check at_1
  pairmd: V2 Fault AR AR r 4294967296 pc 4 F2 ZeroDivisor
  [3]
  $ with at_1.75 2 'energy min(1,1/(r-1)) + z*r' pairmd check at_1.75
  accepted: steps 26, bound 10000000000000
  $ with at_0.5 2 'energy min(r+2000000000,-2000000000) + z*r' pairmd check at_0.5
  pairmd: V2 Fault AR AR r 2147483648 pc 5 F1 Overflow
  [3]
  $ with at_1 2 'energy min(r+2000000000,-2000000000) + z*r' pairmd check at_1
  pairmd: V2 Fault AR AR r 4294967296 pc 5 F1 Overflow
  [3]
  $ with at_1.75 2 'energy min(r+2000000000,-2000000000) + z*r' pairmd check at_1.75
  pairmd: V2 Fault AR AR r 7516192768 pc 5 F1 Overflow
  [3]

## Absolute values

  $ with at_0.5 2 'energy abs(r-0.5) + z*r' pairmd check at_0.5
  accepted: steps 15, bound 10004294967296
  $ with at_1 2 'energy abs(r-0.5) + z*r' pairmd check at_1
  accepted: steps 15, bound 10004294967296
  $ with at_1.75 2 'energy abs(r-0.5) + z*r' pairmd check at_1.75
  accepted: steps 15, bound 10004294967296
  $ with at_0.5 2 'energy abs(r-0.75) - z*r' pairmd check at_0.5
  accepted: steps 15, bound 10004294967296
  $ with at_1 2 'energy abs(r-0.75) + z*r' pairmd check at_1
  accepted: steps 15, bound 10004294967296
  $ with at_1.75 2 'energy abs(r-0.75) + z*r' pairmd check at_1.75
  accepted: steps 15, bound 10004294967296
  $ with at_0.5 2 'energy abs(abs(0.75-r)) - z*r' pairmd check at_0.5
  accepted: steps 24, bound 10004294967296
  $ with at_1 2 'energy abs(abs(0.75-r)) + z*r' pairmd check at_1
  accepted: steps 24, bound 10004294967296
  $ with at_1.75 2 'energy abs(abs(0.75-r)) + z*r' pairmd check at_1.75
  accepted: steps 24, bound 10004294967296

## Step functions and rounding to integers

Their derivative is 0, whether or not their argument has a value.

  $ with at_0.5 2 'energy step(r)*r + z*r' pairmd check at_0.5
  accepted: steps 12, bound 10004294967296
  $ with at_1 2 'energy step(r)*r + z*r' pairmd check at_1
  accepted: steps 12, bound 10004294967296
  $ with at_1.75 2 'energy step(r)*r + z*r' pairmd check at_1.75
  accepted: steps 12, bound 10004294967296
  $ with at_0.5 2 'energy delta(r)+r + z*r' pairmd check at_0.5
  accepted: steps 7, bound 10004294967296
  $ with at_1 2 'energy delta(r)+r + z*r' pairmd check at_1
  accepted: steps 7, bound 10004294967296
  $ with at_1.75 2 'energy delta(r)+r + z*r' pairmd check at_1.75
  accepted: steps 7, bound 10004294967296
  $ with at_0.5 2 'energy floor(r) + z*r' pairmd check at_0.5
  accepted: steps 5, bound 10000000000000
  $ with at_1 2 'energy floor(r) + z*r' pairmd check at_1
  accepted: steps 5, bound 10000000000000
  $ with at_1.75 2 'energy floor(r) + z*r' pairmd check at_1.75
  accepted: steps 5, bound 10000000000000
  $ with at_0.5 2 'energy floor(r*r) + z*r' pairmd check at_0.5
  accepted: steps 5, bound 10000000000000
  $ with at_1 2 'energy floor(r*r) + z*r' pairmd check at_1
  accepted: steps 5, bound 10000000000000
  $ with at_1.75 2 'energy floor(r*r) + z*r' pairmd check at_1.75
  accepted: steps 5, bound 10000000000000
  $ with at_0.5 2 'energy floor(4*r)/r - z*r' pairmd check at_0.5
  accepted: steps 19, bound 10034359738368
  $ with at_1 2 'energy floor(4*r)/r - z*r' pairmd check at_1
  accepted: steps 19, bound 10017179869184
  $ with at_1.75 2 'energy floor(4*r)/r - z*r' pairmd check at_1.75
  accepted: steps 19, bound 10009817068106
  $ with at_0.5 2 'energy ceil(r)*r + z*r' pairmd check at_0.5
  accepted: steps 12, bound 10004294967296
  $ with at_1 2 'energy ceil(r)*r + z*r' pairmd check at_1
  accepted: steps 12, bound 10004294967296
  $ with at_1.75 2 'energy ceil(r)*r + z*r' pairmd check at_1.75
  accepted: steps 12, bound 10008589934592
  $ with at_0.5 2 'energy step(1/(r-1)) + z*r' pairmd check at_0.5
  accepted: steps 5, bound 10000000000000
  $ with at_1 2 'energy step(1/(r-1)) + z*r' pairmd check at_1
  accepted: steps 5, bound 10000000000000
  $ with at_1.75 2 'energy step(1/(r-1)) + z*r' pairmd check at_1.75
  accepted: steps 5, bound 10000000000000
  $ with at_0.5 2 'energy floor(1/(r-1)) + z*r' pairmd check at_0.5
  accepted: steps 5, bound 10000000000000
  $ with at_1 2 'energy floor(1/(r-1)) + z*r' pairmd check at_1
  accepted: steps 5, bound 10000000000000
  $ with at_1.75 2 'energy floor(1/(r-1)) + z*r' pairmd check at_1.75
  accepted: steps 5, bound 10000000000000

## Choices

  $ with at_0.5 2 'energy select(step(r-0.5),1/r,0) - z*r' pairmd check at_0.5
  accepted: steps 19, bound 10017179869184
  $ with at_1 2 'energy select(step(r-0.5),1/r,0) - z*r' pairmd check at_1
  accepted: steps 19, bound 10004294967296
  $ with at_1.75 2 'energy select(step(r-0.5),1/r,0) - z*r' pairmd check at_1.75
  accepted: steps 19, bound 10001402438301
  $ with at_0.5 2 'energy select(step(r-0.6),1/r,0) + z*r' pairmd check at_0.5
  accepted: steps 19, bound 10000000000000
  $ with at_1 2 'energy select(step(r-0.6),1/r,0) - z*r' pairmd check at_1
  accepted: steps 19, bound 10004294967296
  $ with at_1.75 2 'energy select(step(r-0.6),1/r,0) - z*r' pairmd check at_1.75
  accepted: steps 19, bound 10001402438301
  $ with at_0.5 2 'energy select(step(r-0.75),r^-1,0) + z*r' pairmd check at_0.5
  accepted: steps 19, bound 10000000000000
  $ with at_1 2 'energy select(step(r-0.75),r^-1,0) - z*r' pairmd check at_1
  accepted: steps 19, bound 10004294967296
  $ with at_1.75 2 'energy select(step(r-0.75),r^-1,0) - z*r' pairmd check at_1.75
  accepted: steps 19, bound 10001402438300
  $ with at_0.5 2 'energy select(r-0.5,3,r*r) + z*r' pairmd check at_0.5
  accepted: steps 15, bound 10004294967296
  $ with at_1 2 'energy select(r-0.5,3,r*r) + z*r' pairmd check at_1
  accepted: steps 15, bound 10000000000000
  $ with at_1.75 2 'energy select(r-0.5,3,r*r) + z*r' pairmd check at_1.75
  accepted: steps 15, bound 10000000000000
  $ with at_0.5 2 'energy select(r-1,5,7) + z*r' pairmd check at_0.5
  accepted: steps 10, bound 10000000000000
  $ with at_1 2 'energy select(r-1,5,7) + z*r' pairmd check at_1
  accepted: steps 10, bound 10000000000000
  $ with at_1.75 2 'energy select(r-1,5,7) + z*r' pairmd check at_1.75
  accepted: steps 10, bound 10000000000000
  $ with at_0.5 2 'energy select(1/(r-1),5,7) + z*r' pairmd check at_0.5
  accepted: steps 12, bound 10000000000000
  $ with at_1 2 'energy select(1/(r-1),5,7) + z*r' pairmd check at_1
  pairmd: V2 Fault AR AR r 4294967296 pc 4 F2 ZeroDivisor
  [3]
  $ with at_1.75 2 'energy select(1/(r-1),5,7) + z*r' pairmd check at_1.75
  accepted: steps 12, bound 10000000000000

## Definitions

  $ with at_0.5 2 'energy a*a + z*r; a=r+1; b=r' pairmd check at_0.5
  accepted: steps 19, bound 10012884901888
  $ with at_1 2 'energy a*a + z*r; a=r+1; b=r' pairmd check at_1
  accepted: steps 19, bound 10017179869184
  $ with at_1.75 2 'energy a*a + z*r; a=r+1; b=r' pairmd check at_1.75
  accepted: steps 19, bound 10023622320128
  $ with at_0.5 2 'energy b+a + z*r; a=b^2; b=c*r; c=3' pairmd check at_0.5
  accepted: steps 25, bound 10051539607552
  $ with at_1 2 'energy b+a + z*r; a=b^2; b=c*r; c=3' pairmd check at_1
  accepted: steps 25, bound 10090194313216
  $ with at_1.75 2 'energy b+a + z*r; a=b^2; b=c*r; c=3' pairmd check at_1.75
  accepted: steps 25, bound 10148176371712
  $ with at_0.5 2 'energy r-1/0 + z*r; a=r' pairmd check at_0.5
  accepted: steps 7, bound 10004294967296
  $ with at_1 2 'energy r-1/0 + z*r; a=r' pairmd check at_1
  accepted: steps 7, bound 10004294967296
  $ with at_1.75 2 'energy r-1/0 + z*r; a=r' pairmd check at_1.75
  accepted: steps 7, bound 10004294967296
  $ with at_0.5 2 'energy a+r + z*r; a=1/0' pairmd check at_0.5
  accepted: steps 7, bound 10004294967296
  $ with at_1 2 'energy a+r + z*r; a=1/0' pairmd check at_1
  accepted: steps 7, bound 10004294967296
  $ with at_1.75 2 'energy a+r + z*r; a=1/0' pairmd check at_1.75
  accepted: steps 7, bound 10004294967296
