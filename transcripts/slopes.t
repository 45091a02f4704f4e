# Derivatives of sums, products, quotients and powers

The cutoff of each job is the next number above its core, so there is only one distance. The bound that `check` prints
is therefore the magnitude of the derivative at that distance. The energy of each test case comes before `+ z*r` if its
derivative isn't negative, and before `- z*r` if it is. The derivative of `z*r` is 10000000000000 in units of 2^-32. The
bound is the sum of this number and the magnitude of the derivative of the case's own energy. The global k is 0.25.

  $ cat > at_0.5 << END
  > pairmd job 1
  > energy r
  > global k 0.25
  > global z 2328.30643653869629
  > core 0.5
  > cutoff 0.5000000002
  > dt 2
  > type AR 1
  > END
  $ sed '5c core 1' at_0.5 > one
  $ sed '6c cutoff 1.0000000002' one > at_1
  $ sed '5c core 1.75' at_0.5 > more
  $ sed '6c cutoff 1.7500000002' more > at_1.75

## Sums and differences

  $ with at_0.5 2 'energy 3 + z*r' pairmd check at_0.5
  accepted: steps 5, bound 10000000000000
  $ with at_1 2 'energy 3 + z*r' pairmd check at_1
  accepted: steps 5, bound 10000000000000
  $ with at_1.75 2 'energy 3 + z*r' pairmd check at_1.75
  accepted: steps 5, bound 10000000000000
  $ with at_0.5 2 'energy r + z*r' pairmd check at_0.5
  accepted: steps 5, bound 10004294967296
  $ with at_1 2 'energy r + z*r' pairmd check at_1
  accepted: steps 5, bound 10004294967296
  $ with at_1.75 2 'energy r + z*r' pairmd check at_1.75
  accepted: steps 5, bound 10004294967296
  $ with at_0.5 2 'energy k + z*r' pairmd check at_0.5
  accepted: steps 5, bound 10000000000000
  $ with at_1 2 'energy k + z*r' pairmd check at_1
  accepted: steps 5, bound 10000000000000
  $ with at_1.75 2 'energy k + z*r' pairmd check at_1.75
  accepted: steps 5, bound 10000000000000
  $ with at_0.5 2 'energy r+1 + z*r' pairmd check at_0.5
  accepted: steps 7, bound 10004294967296
  $ with at_1 2 'energy r+1 + z*r' pairmd check at_1
  accepted: steps 7, bound 10004294967296
  $ with at_1.75 2 'energy r+1 + z*r' pairmd check at_1.75
  accepted: steps 7, bound 10004294967296
  $ with at_0.5 2 'energy r-r + z*r' pairmd check at_0.5
  accepted: steps 7, bound 10000000000000
  $ with at_1 2 'energy r-r + z*r' pairmd check at_1
  accepted: steps 7, bound 10000000000000
  $ with at_1.75 2 'energy r-r + z*r' pairmd check at_1.75
  accepted: steps 7, bound 10000000000000
  $ with at_0.5 2 'energy -r - z*r' pairmd check at_0.5
  accepted: steps 6, bound 10004294967296
  $ with at_1 2 'energy -r - z*r' pairmd check at_1
  accepted: steps 6, bound 10004294967296
  $ with at_1.75 2 'energy -r - z*r' pairmd check at_1.75
  accepted: steps 6, bound 10004294967296

## Products

  $ with at_0.5 2 'energy k*k + z*r' pairmd check at_0.5
  accepted: steps 5, bound 10000000000000
  $ with at_1 2 'energy k*k + z*r' pairmd check at_1
  accepted: steps 5, bound 10000000000000
  $ with at_1.75 2 'energy k*k + z*r' pairmd check at_1.75
  accepted: steps 5, bound 10000000000000
  $ with at_0.5 2 'energy k*r + z*r' pairmd check at_0.5
  accepted: steps 7, bound 10001073741824
  $ with at_1 2 'energy k*r + z*r' pairmd check at_1
  accepted: steps 7, bound 10001073741824
  $ with at_1.75 2 'energy k*r + z*r' pairmd check at_1.75
  accepted: steps 7, bound 10001073741824
  $ with at_0.5 2 'energy 3*r + z*r' pairmd check at_0.5
  accepted: steps 7, bound 10012884901888
  $ with at_1 2 'energy 3*r + z*r' pairmd check at_1
  accepted: steps 7, bound 10012884901888
  $ with at_1.75 2 'energy 3*r + z*r' pairmd check at_1.75
  accepted: steps 7, bound 10012884901888
  $ with at_0.5 2 'energy r*3 + z*r' pairmd check at_0.5
  accepted: steps 7, bound 10012884901888
  $ with at_1 2 'energy r*3 + z*r' pairmd check at_1
  accepted: steps 7, bound 10012884901888
  $ with at_1.75 2 'energy r*3 + z*r' pairmd check at_1.75
  accepted: steps 7, bound 10012884901888
  $ with at_0.5 2 'energy 0*r + z*r' pairmd check at_0.5
  accepted: steps 7, bound 10000000000000
  $ with at_1 2 'energy 0*r + z*r' pairmd check at_1
  accepted: steps 7, bound 10000000000000
  $ with at_1.75 2 'energy 0*r + z*r' pairmd check at_1.75
  accepted: steps 7, bound 10000000000000
  $ with at_0.5 2 'energy r*0 + z*r' pairmd check at_0.5
  accepted: steps 7, bound 10000000000000
  $ with at_1 2 'energy r*0 + z*r' pairmd check at_1
  accepted: steps 7, bound 10000000000000
  $ with at_1.75 2 'energy r*0 + z*r' pairmd check at_1.75
  accepted: steps 7, bound 10000000000000
  $ with at_0.5 2 'energy r*r + z*r' pairmd check at_0.5
  accepted: steps 11, bound 10004294967296
  $ with at_1 2 'energy r*r + z*r' pairmd check at_1
  accepted: steps 11, bound 10008589934592
  $ with at_1.75 2 'energy r*r + z*r' pairmd check at_1.75
  accepted: steps 11, bound 10015032385536
  $ with at_0.5 2 'energy (r+1)*r + z*r' pairmd check at_0.5
  accepted: steps 15, bound 10008589934592
  $ with at_1 2 'energy (r+1)*r + z*r' pairmd check at_1
  accepted: steps 15, bound 10012884901888
  $ with at_1.75 2 'energy (r+1)*r + z*r' pairmd check at_1.75
  accepted: steps 15, bound 10019327352832
  $ with at_0.5 2 'energy k^2*r + z*r' pairmd check at_0.5
  accepted: steps 10, bound 10000268435456
  $ with at_1 2 'energy k^2*r + z*r' pairmd check at_1
  accepted: steps 10, bound 10000268435456
  $ with at_1.75 2 'energy k^2*r + z*r' pairmd check at_1.75
  accepted: steps 10, bound 10000268435456

## Quotients

  $ with at_0.5 2 'energy r/3 + z*r' pairmd check at_0.5
  accepted: steps 7, bound 10001431655765
  $ with at_1 2 'energy r/3 + z*r' pairmd check at_1
  accepted: steps 7, bound 10001431655765
  $ with at_1.75 2 'energy r/3 + z*r' pairmd check at_1.75
  accepted: steps 7, bound 10001431655765
  $ with at_0.5 2 'energy 3/r - z*r' pairmd check at_0.5
  accepted: steps 13, bound 10051539607552
  $ with at_1 2 'energy 3/r - z*r' pairmd check at_1
  accepted: steps 13, bound 10012884901888
  $ with at_1.75 2 'energy 3/r - z*r' pairmd check at_1.75
  accepted: steps 13, bound 10004207314903
  $ with at_0.5 2 'energy 1/r - z*r' pairmd check at_0.5
  accepted: steps 13, bound 10017179869184
  $ with at_1 2 'energy 1/r - z*r' pairmd check at_1
  accepted: steps 13, bound 10004294967296
  $ with at_1.75 2 'energy 1/r - z*r' pairmd check at_1.75
  accepted: steps 13, bound 10001402438301
  $ with at_0.5 2 'energy (r+1)/r - z*r' pairmd check at_0.5
  accepted: steps 20, bound 10017179869184
  $ with at_1 2 'energy (r+1)/r - z*r' pairmd check at_1
  accepted: steps 20, bound 10004294967296
  $ with at_1.75 2 'energy (r+1)/r - z*r' pairmd check at_1.75
  accepted: steps 20, bound 10001402438301

## Powers

  $ with at_0.5 2 'energy r^1 + z*r' pairmd check at_0.5
  accepted: steps 5, bound 10004294967296
  $ with at_1 2 'energy r^1 + z*r' pairmd check at_1
  accepted: steps 5, bound 10004294967296
  $ with at_1.75 2 'energy r^1 + z*r' pairmd check at_1.75
  accepted: steps 5, bound 10004294967296
  $ with at_0.5 2 'energy (r+1)^1 + z*r' pairmd check at_0.5
  accepted: steps 7, bound 10004294967296
  $ with at_1 2 'energy (r+1)^1 + z*r' pairmd check at_1
  accepted: steps 7, bound 10004294967296
  $ with at_1.75 2 'energy (r+1)^1 + z*r' pairmd check at_1.75
  accepted: steps 7, bound 10004294967296
  $ with at_0.5 2 'energy r^2 + z*r' pairmd check at_0.5
  accepted: steps 11, bound 10004294967296
  $ with at_1 2 'energy r^2 + z*r' pairmd check at_1
  accepted: steps 11, bound 10008589934592
  $ with at_1.75 2 'energy r^2 + z*r' pairmd check at_1.75
  accepted: steps 11, bound 10015032385536
  $ with at_0.5 2 'energy r^5 + z*r' pairmd check at_0.5
  accepted: steps 13, bound 10001342177280
  $ with at_1 2 'energy r^5 + z*r' pairmd check at_1
  accepted: steps 13, bound 10021474836480
  $ with at_1.75 2 'energy r^5 + z*r' pairmd check at_1.75
  accepted: steps 13, bound 10201410478080
  $ with at_0.5 2 'energy (r*r)^3 + z*r' pairmd check at_0.5
  accepted: steps 20, bound 10000805306368
  $ with at_1 2 'energy (r*r)^3 + z*r' pairmd check at_1
  accepted: steps 20, bound 10025769803776
  $ with at_1.75 2 'energy (r*r)^3 + z*r' pairmd check at_1.75
  accepted: steps 20, bound 10422962003968
  $ with at_0.5 2 'energy r^-1 - z*r' pairmd check at_0.5
  accepted: steps 13, bound 10017179869184
  $ with at_1 2 'energy r^-1 - z*r' pairmd check at_1
  accepted: steps 13, bound 10004294967296
  $ with at_1.75 2 'energy r^-1 - z*r' pairmd check at_1.75
  accepted: steps 13, bound 10001402438300
  $ with at_0.5 2 'energy r^-3 - z*r' pairmd check at_0.5
  accepted: steps 14, bound 10206158430208
  $ with at_1 2 'energy r^-3 - z*r' pairmd check at_1
  accepted: steps 14, bound 10012884901888
  $ with at_1.75 2 'energy r^-3 - z*r' pairmd check at_1.75
  accepted: steps 14, bound 10001373817110
  $ with at_0.5 2 'energy (r*r)^-2 - z*r' pairmd check at_0.5
  accepted: steps 23, bound 10549755813888
  $ with at_1 2 'energy (r*r)^-2 - z*r' pairmd check at_1
  accepted: steps 23, bound 10017179869184
  $ with at_1.75 2 'energy (r*r)^-2 - z*r' pairmd check at_1.75
  accepted: steps 23, bound 10001046717798
  $ with at_0.5 2 'energy r^-32 + z*r' pairmd check at_0.5
  pairmd: V2 Fault AR AR r 2147483648 pc 13 F2 ZeroDivisor
  [3]
  $ with at_1 2 'energy r^-32 - z*r' pairmd check at_1
  accepted: steps 19, bound 10137438953472
  $ with at_1.75 2 'energy r^-32 - z*r' pairmd check at_1.75
  accepted: steps 19, bound 10000000001311

## Parts without a value

A part that doesn't depend on the distance has derivative 0, whether or not it has a value. As a factor, its value is
needed.

  $ with at_0.5 2 'energy 1/0*r + z*r' pairmd check at_0.5
  pairmd: V2 Fault AR AR r 2147483648 pc 2 F2 ZeroDivisor
  [3]
  $ with at_1 2 'energy 1/0*r + z*r' pairmd check at_1
  pairmd: V2 Fault AR AR r 4294967296 pc 2 F2 ZeroDivisor
  [3]
  $ with at_1.75 2 'energy 1/0*r + z*r' pairmd check at_1.75
  pairmd: V2 Fault AR AR r 7516192768 pc 2 F2 ZeroDivisor
  [3]
  $ with at_0.5 2 'energy 1/0+r + z*r' pairmd check at_0.5
  accepted: steps 7, bound 10004294967296
  $ with at_1 2 'energy 1/0+r + z*r' pairmd check at_1
  accepted: steps 7, bound 10004294967296
  $ with at_1.75 2 'energy 1/0+r + z*r' pairmd check at_1.75
  accepted: steps 7, bound 10004294967296
