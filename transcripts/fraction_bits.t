# Fraction bits

Jobs and states whose numbers have 24, 32 or 40 fraction bits. Grid coordinates, energies and bounds were computed
outside the program.

## The stored example at 24 bits

The state has a line `bits` between its step and its atoms. Its grid coordinates, before and after a step, are the same
as at 32 bits.

  $ with job 6 'bits 24' pairmd start job gro
  pairmd state 2
  title two atoms
  step 0
  bits 24
  atoms 2
  box 200000 200000 200000
      1AR      AR 1073741824 0 0 1073741824 0 0
      1AR      AR 2147483648 0 0 2147483648 0 0
  $ with job 6 'bits 24' pairmd start job gro > begun
  $ with job 6 'bits 24' returns pairmd run job begun --steps 1
  pairmd state 2
  title two atoms
  step 1
  bits 24
  atoms 2
  box 200000 200000 200000
      1AR      AR 1073741824 0 0 1073707464 0 0
      1AR      AR 2147483648 0 0 2147518008 0 0
  $ with job 6 'bits 24' pairmd energy job begun
  energy 33554432
  $ pairmd frame begun > file
  $ cmp file gro
  $ with job 6 'bits 40' pairmd start job gro > finer
  $ with job 6 'bits 40' returns pairmd run job finer --steps 1
  pairmd state 2
  title two atoms
  step 1
  bits 40
  atoms 2
  box 200000 200000 200000
      1AR      AR 1073741824 0 0 1073707464 0 0
      1AR      AR 2147483648 0 0 2147518008 0 0
  $ with job 6 'bits 40' pairmd energy job finer
  energy 2199023255552

A state of 32 bits has no line `bits`, even if the job has one.

  $ with job 6 'bits 32' pairmd start job gro > same
  $ cmp same state
  $ with job 6 'bits 32' pairmd energy job state
  energy 8589934592

## A job and a state of different bits

  $ with job 6 'bits 24' workers pairmd run job state --steps 1
  pairmd: A6 BitsDiffer
  [1]
  $ with job 6 'bits 24' workers pairmd back job state --steps 0
  pairmd: A6 BitsDiffer
  [1]
  $ with job 6 'bits 24' pairmd energy job state
  pairmd: A6 BitsDiffer
  [1]
  $ workers pairmd run job begun --steps 1
  pairmd: A6 BitsDiffer
  [1]
  $ with job 6 'bits 24' pairmd energy job finer
  pairmd: A6 BitsDiffer
  [1]

Errors in the energy's text are reported before A6. Unknown types, a cutoff that is too long, and faults of the code
come after A6.

  $ with job 6 'bits 24' with job 2 'energy x' pairmd run job state --steps 1
  pairmd: E04 UnknownName x
  [3]
  $ with job 6 'bits 24' with job 7 'type KR 1' pairmd run job state --steps 1
  pairmd: A6 BitsDiffer
  [1]
  $ with job 6 'bits 24' with job 4 'cutoff 1.1' pairmd run job state --steps 1
  pairmd: A6 BitsDiffer
  [1]
  $ with job 6 'bits 24' with job 2 'energy 1/(r-0.5)' pairmd run job state --steps 1
  pairmd: A6 BitsDiffer
  [1]

The side is compared with twice the cutoff at the job's bits. A cutoff of 1 nm fits the side of 2 nm; one unit more is
too long.

  $ with job 6 'bits 24' with job 4 'cutoff 1' pairmd energy job begun
  energy 33554432
  $ with job 6 'bits 24' with job 4 'cutoff 1.0000001' pairmd energy job begun
  pairmd: A2 CutoffTooLong
  [1]
  $ with job 6 'bits 40' with job 4 'cutoff 1' pairmd energy job finer
  energy 2199023255552
  $ with job 6 'bits 40' with job 4 'cutoff 1.000000000001' pairmd energy job finer
  pairmd: A2 CutoffTooLong
  [1]

## The line `bits` of a job

  $ with job 6 'bits 28' pairmd check job
  pairmd: J4 Range bits
  [1]
  $ with job 6 'bits 0' pairmd check job
  pairmd: J4 Range bits
  [1]
  $ with job 6 'bits 41' pairmd check job
  pairmd: J4 Range bits
  [1]
  $ with job 6 'bits 18446744073709551640' pairmd check job
  pairmd: J4 Range bits
  [1]
  $ with job 6 'bits' pairmd check job
  pairmd: J1 BadLine 6
  [1]
  $ with job 6 'bits 24 24' pairmd check job
  pairmd: J1 BadLine 6
  [1]
  $ with job 6 'bits -24' pairmd check job
  pairmd: J1 BadLine 6
  [1]
  $ with job 6 'bits 24.0' pairmd check job
  pairmd: J1 BadLine 6
  [1]
  $ with job 6 'Bits 24' pairmd check job
  pairmd: J1 BadLine 6
  [1]
  $ with job 6 'bits 24\nbits 24' pairmd check job
  pairmd: J3 Repeated bits
  [1]
  $ with job 6 'bits 24\nbits 28' pairmd check job
  pairmd: J3 Repeated bits
  [1]
  $ with job 6 'bits 28\nbits 24' pairmd check job
  pairmd: J4 Range bits
  [1]
  $ with job 6 'bits 24\nbits x' pairmd check job
  pairmd: J1 BadLine 7
  [1]
  $ with job 6 ' bits\t024 ' pairmd check job
  accepted: steps 9, bound 419430801

## Numerals

All numerals of a job are read at its bits, also above the line `bits`. Both atoms have the same position, so their
distance is raised to the core.

  $ cat > charges << END
  > pairmd job 1
  > energy k*q1
  > parameter q
  > global k 0.1
  > core 1.5
  > cutoff 1.6
  > dt 2
  > type A 1 0.3
  > type B 1 0.3
  > bits 40
  > END
  $ cat > pair << END
  > pairmd state 2
  > title a pair
  > step 0
  > bits 40
  > atoms 2
  > box 1600000 1600000 1600000
  >     1A        A 0 0 0 0 0 0
  >     1B        B 0 0 0 0 0 0
  > END
  $ pairmd energy charges pair
  energy 32985348833
  $ with charges 10 'bits 24' with pair 4 'bits 24' pairmd energy charges pair
  energy 503316
  $ with charges 2 'energy r' pairmd energy charges pair
  energy 1649267441664
  $ with charges 2 'energy 1/3' pairmd energy charges pair
  energy 366503875925
  $ with charges 2 'energy 1/3' with charges 10 'bits 24' with pair 4 'bits 24' pairmd energy charges pair
  energy 5592405
  $ with charges 2 'energy 8388607' pairmd energy charges pair
  energy 9223370937343148032
  $ with charges 2 'energy 8388608' pairmd energy charges pair
  pairmd: E07 NumberRange 0
  [3]
  $ with charges 2 'energy 2147483648' with charges 10 'bits 24' with pair 4 'bits 24' pairmd energy charges pair
  energy 36028797018963968
  $ with charges 2 'energy 549755813888' with charges 10 'bits 24' with pair 4 'bits 24' pairmd energy charges pair
  pairmd: E07 NumberRange 0
  [3]

Numerals of the job itself, above and below the line `bits`.

  $ with job 3 'core 8388608' with job 6 'bits 40' pairmd check job
  pairmd: J4 Range core
  [1]
  $ with job 6 'global k 8388608\nbits 40' pairmd check job
  pairmd: J4 Range global
  [1]
  $ with job 6 'bits 24\nglobal k 549755813887' pairmd check job
  accepted: steps 9, bound 419430801
  $ with job 6 'global k 2147483648' pairmd check job
  pairmd: J4 Range global
  [1]

A line `bits` that is out of range doesn't determine how numerals are read.

  $ with job 6 'global k 2147483648\nbits 28\nbits 24' pairmd check job
  pairmd: J4 Range bits
  [1]

The cutoff is at most 80 nm, rounded to the job's bits.

  $ with job 6 'bits 24' with job 4 'cutoff 80' pairmd check job
  accepted: steps 9, bound 419430801
  $ with job 6 'bits 24' with job 4 'cutoff 80.0000001' pairmd check job
  pairmd: J4 Range cutoff
  [1]
  $ with job 6 'bits 40' with job 4 'cutoff 80' pairmd check job
  accepted: steps 9, bound 27487790695051
  $ with job 6 'bits 40' with job 4 'cutoff 80.000000000001' pairmd check job
  pairmd: J4 Range cutoff
  [1]

## Verdicts

Verdicts on the compiled derivative and on a listing by hand. A listing has no version per bits; the job determines
them.

  $ with job 6 'bits 24' pairmd check job
  accepted: steps 9, bound 419430801
  $ with job 6 'bits 32' pairmd check job
  accepted: steps 9, bound 107374182926
  $ with job 6 'bits 40' pairmd check job
  accepted: steps 9, bound 27487790695051
  $ listing 'input 0,sq' with job 6 'bits 24' pairmd check job --code listing
  accepted: steps 2, bound 13589542
  $ listing 'input 0,sq' with job 6 'bits 32' pairmd check job --code listing
  accepted: steps 2, bound 3478923507
  $ listing 'input 0,sq' with job 6 'bits 40' pairmd check job --code listing
  accepted: steps 2, bound 890604418496

The derivative of a steep energy fits 64 bits only at 24 fraction bits.

  $ with job 2 'energy (1/r)^12' with job 6 'bits 24' pairmd check job
  accepted: steps 24, bound 245760396093933753
  $ with job 2 'energy (1/r)^12' with job 6 'bits 32' pairmd check job
  pairmd: V2 Fault AR AR r 858993459 pc 23 F1 Overflow
  [3]
  $ with job 2 'energy (1/r)^12' with job 6 'bits 40' pairmd check job
  pairmd: V2 Fault AR AR r 219902325555 pc 10 F1 Overflow
  [3]

## States

  $ with begun 4 'bits 32' pairmd frame begun
  pairmd: S1 BadLine 4
  [1]
  $ with begun 4 'bits 28' pairmd frame begun
  pairmd: S1 BadLine 4
  [1]
  $ with begun 4 'bits 024' pairmd frame begun
  pairmd: S1 BadLine 4
  [1]
  $ with begun 4 'bits 24 ' pairmd frame begun
  pairmd: S1 BadLine 4
  [1]
  $ sed '4d' begun > changed
  $ pairmd frame changed
  pairmd: S1 BadLine 4
  [1]
  $ with begun 1 'pairmd state 1' pairmd frame begun
  pairmd: S1 BadLine 4
  [1]
  $ with begun 1 'pairmd state 3' pairmd frame begun
  pairmd: S1 BadLine 1
  [1]
  $ with state 1 'pairmd state 2' pairmd frame state
  pairmd: S1 BadLine 4
  [1]
  $ with begun 5 'atoms 02' pairmd frame begun
  pairmd: S1 BadLine 5
  [1]
  $ with begun 6 'box 200000 200000' pairmd frame begun
  pairmd: S1 BadLine 6
  [1]
  $ with begun 8 '    1AR      AR 0 0 0 0 0' pairmd frame begun
  pairmd: S1 BadLine 8
  [1]
  $ with begun 5 'atoms 1' pairmd frame begun
  pairmd: S3 Trailing
  [1]
  $ beginnings begun pairmd frame begun
  0-170: pairmd: S2 Truncated [1]
  171: two atoms
      2
      1AR      AR    1   0.500   0.000   0.000
      1AR      AR    2   1.000   0.000   0.000
     2.00000   2.00000   2.00000

## Argon

Five atoms of argon at rest with the Lennard-Jones energy. A hundred steps forward and back run with 1, 2, 3 and 64
workers, a thousand with 1, 2 and 3 workers.

  $ cat > argon << END
  > pairmd job 1
  > energy 4*epsilon*((sigma/r)^12-(sigma/r)^6)
  > global sigma 0.34
  > global epsilon 0.996
  > core 0.25
  > cutoff 0.9
  > dt 2
  > type AR 39.948
  > bits 24
  > END
  $ cat > five << END
  > pairmd state 2
  > title five argon atoms
  > step 0
  > bits 24
  > atoms 5
  > box 200000 200000 200000
  >     1AR      AR 214748364 1073741824 2147483648 214748364 1073741824 2147483648
  >     2AR      AR 1052266987 1095216660 2190433320 1052266987 1095216660 2190433320
  >     3AR      AR 1890000000 1030792151 2104533975 1890000000 1030792151 2104533975
  >     4AR      AR 644245094 1846835937 2169958484 644245094 1846835937 2169958484
  >     5AR      AR 1460288880 1825361100 2126008811 1460288880 1825361100 2126008811
  > END
  $ pairmd energy argon five
  energy -111951407
  $ returns pairmd run argon five --steps 100
  pairmd state 2
  title five argon atoms
  step 100
  bits 24
  atoms 5
  box 200000 200000 200000
      1AR      AR 222396128 1080307577 2147827197 222545190 1080437781 2147833836
      2AR      AR 1052086592 1102372910 2189438501 1052082149 1102505475 2189419821
      3AR      AR 1881585219 1037934294 2105172535 1881419379 1038077587 2105185009
      4AR      AR 643380140 1835710246 2169905229 643363662 1835493017 2169903945
      5AR      AR 1462101059 1815622837 2126074614 1462138751 1815434014 2126075465
  $ pairmd run argon five --steps 1000 > after
  $ cat after
  pairmd state 2
  title five argon atoms
  step 1000
  bits 24
  atoms 5
  box 200000 200000 200000
      1AR      AR 226768086 1093768394 2142753201 226848976 1093585275 2142746698
      2AR      AR 1055084124 1093986213 2197469211 1055005254 1093770983 2197481788
      3AR      AR 1871291022 1059275879 2102555017 1871360514 1059067003 2102547205
      4AR      AR 645525408 1824113520 2171480195 645607056 1824455951 2171482200
      5AR      AR 1462865542 1800797775 2124163217 1462712346 1801062550 2124162954
  $ pairmd run argon five --steps 1000 --workers 2 > again
  $ cmp again after
  $ pairmd run argon five --steps 1000 --workers 3 > again
  $ cmp again after
  $ pairmd back argon after --steps 1000 --workers 3 > again
  $ cmp again five
  $ with argon 9 'bits 40' with five 4 'bits 40' pairmd energy argon five
  energy -7336847735615
  $ with argon 9 'bits 40' with five 4 'bits 40' returns pairmd run argon five --steps 100
  pairmd state 2
  title five argon atoms
  step 100
  bits 40
  atoms 5
  box 200000 200000 200000
      1AR      AR 222396128 1080307577 2147827197 222545190 1080437781 2147833836
      2AR      AR 1052086592 1102372910 2189438501 1052082149 1102505475 2189419821
      3AR      AR 1881585219 1037934294 2105172535 1881419379 1038077587 2105185009
      4AR      AR 643380093 1835710255 2169905229 643363614 1835493027 2169903945
      5AR      AR 1462101059 1815622897 2126074614 1462138751 1815434075 2126075465
  $ with argon 9 'bits 40' with five 4 'bits 40' pairmd run argon five --steps 1000 > after
  $ cat after
  pairmd state 2
  title five argon atoms
  step 1000
  bits 40
  atoms 5
  box 200000 200000 200000
      1AR      AR 226767486 1093769299 2142753201 226848378 1093586182 2142746698
      2AR      AR 1055083580 1093986911 2197469771 1055004709 1093771683 2197482349
      3AR      AR 1871290344 1059277078 2102555017 1871359835 1059068203 2102547205
      4AR      AR 645524290 1824114288 2171480195 645605939 1824456720 2171482200
      5AR      AR 1462864333 1800798674 2124163654 1462711130 1801063446 2124163392
  $ with argon 9 'bits 40' with five 4 'bits 40' pairmd run argon five --steps 1000 --workers 2 > again
  $ cmp again after
  $ with argon 9 'bits 40' with five 4 'bits 40' pairmd run argon five --steps 1000 --workers 3 > again
  $ cmp again after
  $ with argon 9 'bits 40' with five 4 'bits 40' pairmd back argon after --steps 1000 --workers 3 > again
  $ with argon 9 'bits 40' with five 4 'bits 40' cmp again five
