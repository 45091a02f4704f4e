# Geometry: grid coordinates, boxes, distances and cells

## Grid coordinates

A position is rounded to the nearest of 2^32 grid points along a periodic side. On a side of 2 nm the position 2 nm is
grid coordinate 0.

  $ with gro 3 '    1AR      AR    1   0.000   0.500   1.900' with gro 4 '    1AR      AR    2   0.300   0.400   2.000' pairmd start job gro
  pairmd state 1
  title two atoms
  step 0
  atoms 2
  box 200000 200000 200000
      1AR      AR 0 1073741824 4080218931 0 1073741824 4080218931
      1AR      AR 644245094 858993459 0 644245094 858993459 0

On a side of 1.86206 nm the position -0.001 nm equals 1.86106 nm. The picometre nearest to its grid coordinate is 1.861.

  $ with gro 3 '    1AR      AR    1  -0.001   0.000   0.000' with gro 5 '   1.86206   1.86206   1.86206' pairmd start job gro
  pairmd state 1
  title two atoms
  step 0
  atoms 2
  box 186206 186206 186206
      1AR      AR 4292660728 0 0 4292660728 0 0
      1AR      AR 2306567617 0 0 2306567617 0 0
  $ with state 5 'box 186206 186206 186206' with state 6 '    1AR      AR 4292660728 0 0 4292660728 0 0' pairmd frame state
  two atoms
      2
      1AR      AR    1   1.861   0.000   0.000
      1AR      AR    2   0.931   0.000   0.000
     1.86206   1.86206   1.86206

The grid coordinate 2^32 - 1 is nearest to the side itself.

  $ with state 6 '    1AR      AR 4294967295 0 0 4294967295 0 0' pairmd frame state
  two atoms
      2
      1AR      AR    1   2.000   0.000   0.000
      1AR      AR    2   1.000   0.000   0.000
     2.00000   2.00000   2.00000

## Boxes

A side is from 0.00001 to 160 nm.

  $ with gro 5 '   0.00001 160.00000   0.00005' pairmd start job gro
  pairmd state 1
  title two atoms
  step 0
  atoms 2
  box 1 16000000 5
      1AR      AR 0 0 0 0 0 0
      1AR      AR 0 0 0 0 0 0
  $ with gro 5 '   0.00000   0.00000   0.00000' pairmd start job gro
  pairmd: B1 NoBox
  [1]
  $ with gro 5 '   0.00001   0.00000   0.00001' pairmd start job gro
  pairmd: B2 SideRange
  [1]
  $ with gro 5 '  -0.00001   0.00001   0.00001' pairmd start job gro
  pairmd: B2 SideRange
  [1]
  $ with gro 5 '   0.00001   0.00001 160.00001' pairmd start job gro
  pairmd: B2 SideRange
  [1]

## Distances

The energy of a pair is its distance, or the core if that is greater. A pair whose distance isn't below the cutoff adds
0. The core of the job `near` is 0.

  $ cat > taken << END
  > pairmd job 1
  > energy r
  > core 0.2
  > cutoff 0.9
  > dt 2
  > type AR 1
  > END
  $ cat > near << END
  > pairmd job 1
  > energy r
  > core 0
  > cutoff 0.9
  > dt 2
  > type AR 1
  > END

The distance is 0.5 nm.

  $ pairmd energy near state
  energy 2147483648
  $ pairmd energy taken state
  energy 2147483648

Across the edge of the box, inside the core: 0.0 and 1.9 nm.

  $ with state 6 '    1AR      AR 0 0 0 0 0 0' with state 7 '    1AR      AR 4080218931 0 0 4080218931 0 0' pairmd energy near state
  energy 429496730
  $ with state 6 '    1AR      AR 0 0 0 0 0 0' with state 7 '    1AR      AR 4080218931 0 0 4080218931 0 0' pairmd energy taken state
  energy 858993459

Both atoms have the same position.

  $ with state 7 '    1AR      AR 1073741824 0 0 1073741824 0 0' pairmd energy near state
  energy 0
  $ with state 7 '    1AR      AR 1073741824 0 0 1073741824 0 0' pairmd energy taken state
  energy 858993459

Half a side apart the distance isn't below a cutoff of 1 nm. One grid unit less is below.

  $ with state 6 '    1AR      AR 0 0 0 0 0 0' pairmd energy near state
  energy 0
  $ with state 6 '    1AR      AR 0 0 0 0 0 0' pairmd energy taken state
  energy 0
  $ with near 4 'cutoff 1' with state 6 '    1AR      AR 0 0 0 0 0 0' with state 7 '    1AR      AR 2147483648 0 0 2147483648 0 0' pairmd energy near state
  energy 0
  $ with near 4 'cutoff 1' with state 6 '    1AR      AR 0 0 0 0 0 0' with state 7 '    1AR      AR 2147483647 0 0 2147483647 0 0' pairmd energy near state
  energy 4294967294
  $ with near 4 'cutoff 1' with state 6 '    1AR      AR 0 0 0 0 0 0' with state 7 '    1AR      AR 2147483649 0 0 2147483649 0 0' pairmd energy near state
  energy 4294967294

Along two axes, 0.3 and 0.4 nm. Both grid coordinates are rounded down, so the distance is below 0.5 nm.

  $ with state 6 '    1AR      AR 0 0 0 0 0 0' with state 7 '    1AR      AR 644245094 858993459 0 644245094 858993459 0' pairmd energy near state
  energy 2147483647
  $ with state 6 '    1AR      AR 0 0 0 0 0 0' with state 7 '    1AR      AR 644245094 858993459 0 644245094 858993459 0' pairmd energy taken state
  energy 2147483647

On sides of 2, 4 and 16 nm a grid unit is 2, 4 and 16 units of 2^-32 nm. Distances are rounded down to 2^-32 nm.

  $ with state 5 'box 200000 400000 1600000' with state 6 '    1AR      AR 0 0 0 0 0 0' with state 7 '    1AR      AR 3 0 0 3 0 0' pairmd energy near state
  energy 6
  $ with state 5 'box 200000 400000 1600000' with state 6 '    1AR      AR 0 0 0 0 0 0' with state 7 '    1AR      AR 0 3 0 0 3 0' pairmd energy near state
  energy 12
  $ with state 5 'box 200000 400000 1600000' with state 6 '    1AR      AR 0 0 0 0 0 0' with state 7 '    1AR      AR 0 0 3 0 0 3' pairmd energy near state
  energy 48
  $ with state 5 'box 200000 400000 1600000' with state 6 '    1AR      AR 0 0 0 0 0 0' with state 7 '    1AR      AR 6 4 0 6 4 0' pairmd energy near state
  energy 20
  $ with state 5 'box 200000 400000 1600000' with state 6 '    1AR      AR 4294967295 4294967295 4294967295 4294967295 4294967295 4294967295' with state 7 '    1AR      AR 0 0 0 0 0 0' pairmd energy near state
  energy 16

## Cells

Each side is divided into 2, 4, 8 or 16 cells that aren't shorter than the cutoff. The engine visits only pairs within a
cell or in neighbouring cells. With a cutoff of 0.9 nm, sides of 2, 4 and 16 nm have 2, 4 and 16 cells. The energy 1
counts the interacting pairs: all pairs closer than the cutoff.

  $ cat > count << END
  > pairmd job 1
  > energy 1
  > core 0.2
  > cutoff 0.9
  > dt 2
  > type AR 1
  > END

Eight atoms around the corner of the box are in eight cells, which are neighbours across the edges. Every pair
interacts: the farthest atoms are 0.866 nm apart.

  $ cat > corner << END
  > pairmd state 1
  > title cells
  > step 0
  > atoms 8
  > box 200000 400000 1600000
  >     1AR      AR 536870912 268435456 67108864 536870912 268435456 67108864
  >     1AR      AR 536870912 268435456 4227858432 536870912 268435456 4227858432
  >     1AR      AR 536870912 4026531840 67108864 536870912 4026531840 67108864
  >     1AR      AR 536870912 4026531840 4227858432 536870912 4026531840 4227858432
  >     1AR      AR 3758096384 268435456 67108864 3758096384 268435456 67108864
  >     1AR      AR 3758096384 268435456 4227858432 3758096384 268435456 4227858432
  >     1AR      AR 3758096384 4026531840 67108864 3758096384 4026531840 67108864
  >     1AR      AR 3758096384 4026531840 4227858432 3758096384 4026531840 4227858432
  > END
  $ pairmd energy count corner
  energy 120259084288

At 0.3 nm from each side, atoms that differ on all three axes are 1.039 nm apart and don't interact. Atoms that differ
on two axes are 0.849 nm apart.

  $ cat > wider << END
  > pairmd state 1
  > title cells
  > step 0
  > atoms 8
  > box 200000 400000 1600000
  >     1AR      AR 644245094 322122547 80530637 644245094 322122547 80530637
  >     1AR      AR 644245094 322122547 4214436659 644245094 322122547 4214436659
  >     1AR      AR 644245094 3972844749 80530637 644245094 3972844749 80530637
  >     1AR      AR 644245094 3972844749 4214436659 644245094 3972844749 4214436659
  >     1AR      AR 3650722202 322122547 80530637 3650722202 322122547 80530637
  >     1AR      AR 3650722202 322122547 4214436659 3650722202 322122547 4214436659
  >     1AR      AR 3650722202 3972844749 80530637 3650722202 3972844749 80530637
  >     1AR      AR 3650722202 3972844749 4214436659 3650722202 3972844749 4214436659
  > END
  $ pairmd energy count wider
  energy 103079215104

In a row of 32 atoms, 0.5 nm apart, each atom interacts with the next, also across the edge.

  $ cat > row << END
  > pairmd state 1
  > title cells
  > step 0
  > atoms 32
  > box 200000 400000 1600000
  >     1AR      AR 0 0 0 0 0 0
  >     1AR      AR 0 0 134217728 0 0 134217728
  >     1AR      AR 0 0 268435456 0 0 268435456
  >     1AR      AR 0 0 402653184 0 0 402653184
  >     1AR      AR 0 0 536870912 0 0 536870912
  >     1AR      AR 0 0 671088640 0 0 671088640
  >     1AR      AR 0 0 805306368 0 0 805306368
  >     1AR      AR 0 0 939524096 0 0 939524096
  >     1AR      AR 0 0 1073741824 0 0 1073741824
  >     1AR      AR 0 0 1207959552 0 0 1207959552
  >     1AR      AR 0 0 1342177280 0 0 1342177280
  >     1AR      AR 0 0 1476395008 0 0 1476395008
  >     1AR      AR 0 0 1610612736 0 0 1610612736
  >     1AR      AR 0 0 1744830464 0 0 1744830464
  >     1AR      AR 0 0 1879048192 0 0 1879048192
  >     1AR      AR 0 0 2013265920 0 0 2013265920
  >     1AR      AR 0 0 2147483648 0 0 2147483648
  >     1AR      AR 0 0 2281701376 0 0 2281701376
  >     1AR      AR 0 0 2415919104 0 0 2415919104
  >     1AR      AR 0 0 2550136832 0 0 2550136832
  >     1AR      AR 0 0 2684354560 0 0 2684354560
  >     1AR      AR 0 0 2818572288 0 0 2818572288
  >     1AR      AR 0 0 2952790016 0 0 2952790016
  >     1AR      AR 0 0 3087007744 0 0 3087007744
  >     1AR      AR 0 0 3221225472 0 0 3221225472
  >     1AR      AR 0 0 3355443200 0 0 3355443200
  >     1AR      AR 0 0 3489660928 0 0 3489660928
  >     1AR      AR 0 0 3623878656 0 0 3623878656
  >     1AR      AR 0 0 3758096384 0 0 3758096384
  >     1AR      AR 0 0 3892314112 0 0 3892314112
  >     1AR      AR 0 0 4026531840 0 0 4026531840
  >     1AR      AR 0 0 4160749568 0 0 4160749568
  > END
  $ pairmd energy count row
  energy 137438953472

In a row of 40 atoms, 0.4 nm apart, each atom interacts with the next two.

  $ cat > closer << END
  > pairmd state 1
  > title cells
  > step 0
  > atoms 40
  > box 200000 400000 1600000
  >     1AR      AR 0 0 0 0 0 0
  >     1AR      AR 0 0 107374182 0 0 107374182
  >     1AR      AR 0 0 214748365 0 0 214748365
  >     1AR      AR 0 0 322122547 0 0 322122547
  >     1AR      AR 0 0 429496730 0 0 429496730
  >     1AR      AR 0 0 536870912 0 0 536870912
  >     1AR      AR 0 0 644245094 0 0 644245094
  >     1AR      AR 0 0 751619277 0 0 751619277
  >     1AR      AR 0 0 858993459 0 0 858993459
  >     1AR      AR 0 0 966367642 0 0 966367642
  >     1AR      AR 0 0 1073741824 0 0 1073741824
  >     1AR      AR 0 0 1181116006 0 0 1181116006
  >     1AR      AR 0 0 1288490189 0 0 1288490189
  >     1AR      AR 0 0 1395864371 0 0 1395864371
  >     1AR      AR 0 0 1503238554 0 0 1503238554
  >     1AR      AR 0 0 1610612736 0 0 1610612736
  >     1AR      AR 0 0 1717986918 0 0 1717986918
  >     1AR      AR 0 0 1825361101 0 0 1825361101
  >     1AR      AR 0 0 1932735283 0 0 1932735283
  >     1AR      AR 0 0 2040109466 0 0 2040109466
  >     1AR      AR 0 0 2147483648 0 0 2147483648
  >     1AR      AR 0 0 2254857830 0 0 2254857830
  >     1AR      AR 0 0 2362232013 0 0 2362232013
  >     1AR      AR 0 0 2469606195 0 0 2469606195
  >     1AR      AR 0 0 2576980378 0 0 2576980378
  >     1AR      AR 0 0 2684354560 0 0 2684354560
  >     1AR      AR 0 0 2791728742 0 0 2791728742
  >     1AR      AR 0 0 2899102925 0 0 2899102925
  >     1AR      AR 0 0 3006477107 0 0 3006477107
  >     1AR      AR 0 0 3113851290 0 0 3113851290
  >     1AR      AR 0 0 3221225472 0 0 3221225472
  >     1AR      AR 0 0 3328599654 0 0 3328599654
  >     1AR      AR 0 0 3435973837 0 0 3435973837
  >     1AR      AR 0 0 3543348019 0 0 3543348019
  >     1AR      AR 0 0 3650722202 0 0 3650722202
  >     1AR      AR 0 0 3758096384 0 0 3758096384
  >     1AR      AR 0 0 3865470566 0 0 3865470566
  >     1AR      AR 0 0 3972844749 0 0 3972844749
  >     1AR      AR 0 0 4080218931 0 0 4080218931
  >     1AR      AR 0 0 4187593114 0 0 4187593114
  > END
  $ pairmd energy count closer
  energy 343597383680

Sides of 16 nm have 16 cells each: eight atoms around the corner, and eight around the middle.

  $ cat > wide << END
  > pairmd state 1
  > title cells
  > step 0
  > atoms 16
  > box 1600000 1600000 1600000
  >     1AR      AR 67108864 67108864 67108864 67108864 67108864 67108864
  >     1AR      AR 67108864 67108864 4227858432 67108864 67108864 4227858432
  >     1AR      AR 67108864 4227858432 67108864 67108864 4227858432 67108864
  >     1AR      AR 67108864 4227858432 4227858432 67108864 4227858432 4227858432
  >     1AR      AR 4227858432 67108864 67108864 4227858432 67108864 67108864
  >     1AR      AR 4227858432 67108864 4227858432 4227858432 67108864 4227858432
  >     1AR      AR 4227858432 4227858432 67108864 4227858432 4227858432 67108864
  >     1AR      AR 4227858432 4227858432 4227858432 4227858432 4227858432 4227858432
  >     1AR      AR 2080374784 2080374784 2080374784 2080374784 2080374784 2080374784
  >     1AR      AR 2080374784 2080374784 2214592512 2080374784 2080374784 2214592512
  >     1AR      AR 2080374784 2214592512 2080374784 2080374784 2214592512 2080374784
  >     1AR      AR 2080374784 2214592512 2214592512 2080374784 2214592512 2214592512
  >     1AR      AR 2214592512 2080374784 2080374784 2214592512 2080374784 2080374784
  >     1AR      AR 2214592512 2080374784 2214592512 2214592512 2080374784 2214592512
  >     1AR      AR 2214592512 2214592512 2080374784 2214592512 2214592512 2080374784
  >     1AR      AR 2214592512 2214592512 2214592512 2214592512 2214592512 2214592512
  > END
  $ pairmd energy count wide
  energy 240518168576
