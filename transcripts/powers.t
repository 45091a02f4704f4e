# Powers

A power is computed by repeated squaring, rounded down after each multiplication. The first power is the number itself,
an even power is the square of its half, and an odd power is the even power below times the number. The power of a
negative exponent is the reciprocal of the positive power. The number x is 6000000000 in units of 2^-32.

  $ cat > power << END
  > pairmd job 1
  > energy x
  > global x 1.39698386192321777
  > core 0.2
  > cutoff 0.9
  > dt 2
  > type AR 1
  > END
  $ with power 2 'energy x^1' pairmd energy power state
  energy 6000000000
  $ with power 2 'energy x^2' pairmd energy power state
  energy 8381903171
  $ with power 2 'energy x^3' pairmd energy power state
  energy 11709383462
  $ with power 2 'energy x^4' pairmd energy power state
  energy 16357819728
  $ with power 2 'energy x^5' pairmd energy power state
  energy 22851610176
  $ with power 2 'energy x^6' pairmd energy power state
  energy 31923330635
  $ with power 2 'energy x^7' pairmd energy power state
  energy 44596377715
  $ with power 2 'energy x^8' pairmd energy power state
  energy 62300419959
  $ with power 2 'energy x^9' pairmd energy power state
  energy 87032681273
  $ with power 2 'energy x^10' pairmd energy power state
  energy 121583251197
  $ with power 2 'energy x^11' pairmd energy power state
  energy 169849839802
  $ with power 2 'energy x^12' pairmd energy power state
  energy 237277485158
  $ with power 2 'energy x^13' pairmd energy power state
  energy 331472817563
  $ with power 2 'energy x^14' pairmd energy power state
  energy 463062176783
  $ with power 2 'energy x^15' pairmd energy power state
  energy 646890388032
  $ with power 2 'energy x^16' pairmd energy power state
  energy 903695432252
  $ with power 2 'energy x^17' pairmd energy power state
  energy 1262447934949
  $ with power 2 'energy x^18' pairmd energy power state
  energy 1763619391612
  $ with power 2 'energy x^19' pairmd energy power state
  energy 2463747828656
  $ with power 2 'energy x^20' pairmd energy power state
  energy 3441815956410
  $ with power 2 'energy x^21' pairmd energy power state
  energy 4808161346814
  $ with power 2 'energy x^22' pairmd energy power state
  energy 6716923806994
  $ with power 2 'energy x^23' pairmd energy power state
  energy 9383434160138
  $ with power 2 'energy x^24' pairmd energy power state
  energy 13108506091615
  $ with power 2 'energy x^25' pairmd energy power state
  energy 18312371463908
  $ with power 2 'energy x^26' pairmd energy power state
  energy 25582087408554
  $ with power 2 'energy x^27' pairmd energy power state
  energy 35737763264059
  $ with power 2 'energy x^28' pairmd energy power state
  energy 49925078537084
  $ with power 2 'energy x^29' pairmd energy power state
  energy 69744529021555
  $ with power 2 'energy x^30' pairmd energy power state
  energy 97431981500282
  $ with power 2 'energy x^31' pairmd energy power state
  energy 136110905791095
  $ with power 2 'energy x^32' pairmd energy power state
  energy 190144738711679
  $ with power 2 'energy x^-1' pairmd energy power state
  energy 3074457345
  $ with power 2 'energy x^-2' pairmd energy power state
  energy 2200782292
  $ with power 2 'energy x^-3' pairmd energy power state
  energy 1575381328
  $ with power 2 'energy x^-4' pairmd energy power state
  energy 1127701880
  $ with power 2 'energy x^-5' pairmd energy power state
  energy 807240449
  $ with power 2 'energy x^-6' pairmd energy power state
  energy 577845221
  $ with power 2 'energy x^-7' pairmd energy power state
  energy 413637721
  $ with power 2 'energy x^-8' pairmd energy power state
  energy 296093414
  $ with power 2 'energy x^-9' pairmd energy power state
  energy 211951922
  $ with power 2 'energy x^-10' pairmd energy power state
  energy 151721095
  $ with power 2 'energy x^-11' pairmd energy power state
  energy 108606190
  $ with power 2 'energy x^-12' pairmd energy power state
  energy 77743339
  $ with power 2 'energy x^-13' pairmd energy power state
  energy 55650850
  $ with power 2 'energy x^-14' pairmd energy power state
  energy 39836430
  $ with power 2 'energy x^-15' pairmd energy power state
  energy 28516027
  $ with power 2 'energy x^-16' pairmd energy power state
  energy 20412567
  $ with power 2 'energy x^-17' pairmd energy power state
  energy 14611885
  $ with power 2 'energy x^-18' pairmd energy power state
  energy 10459594
  $ with power 2 'energy x^-19' pairmd energy power state
  energy 7487269
  $ with power 2 'energy x^-20' pairmd energy power state
  energy 5359596
  $ with power 2 'energy x^-21' pairmd energy power state
  energy 3836548
  $ with power 2 'energy x^-22' pairmd energy power state
  energy 2746308
  $ with power 2 'energy x^-23' pairmd energy power state
  energy 1965884
  $ with power 2 'energy x^-24' pairmd energy power state
  energy 1407234
  $ with power 2 'energy x^-25' pairmd energy power state
  energy 1007337
  $ with power 2 'energy x^-26' pairmd energy power state
  energy 721080
  $ with power 2 'energy x^-27' pairmd energy power state
  energy 516169
  $ with power 2 'energy x^-28' pairmd energy power state
  energy 369488
  $ with power 2 'energy x^-29' pairmd energy power state
  energy 264490
  $ with power 2 'energy x^-30' pairmd energy power state
  energy 189329
  $ with power 2 'energy x^-31' pairmd energy power state
  energy 135527
  $ with power 2 'energy x^-32' pairmd energy power state
  energy 97014
