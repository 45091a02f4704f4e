# Replays of streams

`replay` makes the steps from each state of a stream to the next, forward or back, and compares every byte. Two
neighbouring states are a segment. A line for each segment has the counters of its states, and `same` or the first
difference, in the order of a state's text.

## Streams of one run

What `states` prints is of one run, every two steps or every step, forward or back.

  $ pairmd states job state --steps 4 --every 2 > run
  $ pairmd replay job run
  0 2 same
  2 4 same
  $ pairmd states job state --steps 3 --every 1 > each
  $ pairmd replay job each
  0 1 same
  1 2 same
  2 3 same
  $ pairmd run job state --steps 4 > fourth
  $ pairmd states job fourth --steps 4 --every 2 --back > back
  $ pairmd replay job back
  4 2 same
  2 0 same
  $ cat state fourth state state > ways
  $ pairmd replay job ways
  0 4 same
  4 0 same
  0 0 same
  $ workers pairmd replay job ways
  0 4 same
  4 0 same
  0 0 same

One state has no segment.

  $ pairmd replay job state

The number of fraction bits is that of the job.

  $ with job 6 'bits 24' pairmd start job gro > low
  $ with job 6 'bits 24' pairmd states job low --steps 2 --every 1 > run24
  $ with job 6 'bits 24' pairmd replay job run24
  0 1 same
  1 2 same
  $ with job 6 'bits 40' pairmd start job gro > high
  $ with job 6 'bits 40' pairmd states job high --steps 2 --every 1 > run40
  $ with job 6 'bits 40' pairmd replay job run40
  0 1 same
  1 2 same

An atom alone moves by 4 grid units each step: from 5 and 9 before and at step 7 to 17 and 21 at step 10.

  $ printf 'pairmd state 1\ntitle one\nstep 7\natoms 1\nbox 400000 300000 300000\n    1AR      AR 5 0 0 9 0 0\n' > seventh
  $ printf 'pairmd state 1\ntitle one\nstep 10\natoms 1\nbox 400000 300000 300000\n    1AR      AR 17 0 0 21 0 0\n' > tenth
  $ printf 'pairmd state 1\ntitle one\nstep 12\natoms 1\nbox 400000 300000 300000\n    1AR      AR 25 0 0 29 0 0\n' > twelfth
  $ printf 'pairmd state 1\ntitle one\nstep 9\natoms 1\nbox 400000 300000 300000\n    1AR      AR 13 0 0 17 0 0\n' > ninth
  $ printf 'pairmd state 1\ntitle one\nstep -3\natoms 1\nbox 400000 300000 300000\n    1AR      AR 4294967261 0 0 4294967265 0 0\n' > before
  $ cat seventh tenth twelfth ninth before > path
  $ pairmd replay job path
  7 10 same
  10 12 same
  12 9 same
  9 -3 same

A state without atoms stays as it is.

  $ printf 'pairmd state 1\ntitle none\nstep 0\natoms 0\nbox 300000 300000 300000\n' > empty
  $ printf 'pairmd state 1\ntitle none\nstep 1000\natoms 0\nbox 300000 300000 300000\n' > later
  $ cat empty later > still
  $ pairmd replay job still
  0 1000 same

## Differences

A difference is in the title, the number of atoms, the box, or a part of an atom: its residue or name, its previous
coordinates, its current coordinates. The error follows all lines, with the number of segments that differ.

  $ printf 'pairmd state 1\ntitle two\nstep 10\natoms 1\nbox 400000 300000 300000\n    1AR      AR 17 0 0 21 0 0\n' > edited
  $ cat seventh edited > pair
  $ pairmd replay job pair
  7 10 differs: title
  pairmd: A7 NotOneRun 1
  [1]
  $ printf 'pairmd state 1\ntitle one \nstep 10\natoms 1\nbox 400000 300000 300000\n    1AR      AR 17 0 0 21 0 0\n' > edited
  $ cat seventh edited > pair
  $ pairmd replay job pair
  7 10 differs: title
  pairmd: A7 NotOneRun 1
  [1]
  $ printf 'pairmd state 1\ntitle one\nstep 10\natoms 0\nbox 400000 300000 300000\n' > edited
  $ cat seventh edited > pair
  $ pairmd replay job pair
  7 10 differs: atoms
  pairmd: A7 NotOneRun 1
  [1]
  $ printf 'pairmd state 1\ntitle one\nstep 10\natoms 1\nbox 400000 300000 300001\n    1AR      AR 17 0 0 21 0 0\n' > edited
  $ cat seventh edited > pair
  $ pairmd replay job pair
  7 10 differs: box
  pairmd: A7 NotOneRun 1
  [1]
  $ printf 'pairmd state 1\ntitle one\nstep 10\natoms 1\nbox 400000 300000 300000\n    2AR      AR 17 0 0 21 0 0\n' > edited
  $ cat seventh edited > pair
  $ pairmd replay job pair
  7 10 differs: atom 1 name
  pairmd: A7 NotOneRun 1
  [1]
  $ printf 'pairmd state 1\ntitle one\nstep 10\natoms 1\nbox 400000 300000 300000\n    1Ar      AR 17 0 0 21 0 0\n' > edited
  $ cat seventh edited > pair
  $ pairmd replay job pair
  7 10 differs: atom 1 name
  pairmd: A7 NotOneRun 1
  [1]
  $ printf 'pairmd state 1\ntitle one\nstep 10\natoms 1\nbox 400000 300000 300000\n    1AR      AR 18 0 0 21 0 0\n' > edited
  $ cat seventh edited > pair
  $ pairmd replay job pair
  7 10 differs: atom 1 previous x
  pairmd: A7 NotOneRun 1
  [1]
  $ printf 'pairmd state 1\ntitle one\nstep 10\natoms 1\nbox 400000 300000 300000\n    1AR      AR 17 1 0 21 0 0\n' > edited
  $ cat seventh edited > pair
  $ pairmd replay job pair
  7 10 differs: atom 1 previous y
  pairmd: A7 NotOneRun 1
  [1]
  $ printf 'pairmd state 1\ntitle one\nstep 10\natoms 1\nbox 400000 300000 300000\n    1AR      AR 17 0 4294967295 21 0 0\n' > edited
  $ cat seventh edited > pair
  $ pairmd replay job pair
  7 10 differs: atom 1 previous z
  pairmd: A7 NotOneRun 1
  [1]
  $ printf 'pairmd state 1\ntitle one\nstep 10\natoms 1\nbox 400000 300000 300000\n    1AR      AR 17 0 0 20 0 0\n' > edited
  $ cat seventh edited > pair
  $ pairmd replay job pair
  7 10 differs: atom 1 x
  pairmd: A7 NotOneRun 1
  [1]
  $ printf 'pairmd state 1\ntitle one\nstep 10\natoms 1\nbox 400000 300000 300000\n    1AR      AR 17 0 0 21 1 0\n' > edited
  $ cat seventh edited > pair
  $ pairmd replay job pair
  7 10 differs: atom 1 y
  pairmd: A7 NotOneRun 1
  [1]
  $ printf 'pairmd state 1\ntitle one\nstep 10\natoms 1\nbox 400000 300000 300000\n    1AR      AR 17 0 0 21 0 1\n' > edited
  $ cat seventh edited > pair
  $ pairmd replay job pair
  7 10 differs: atom 1 z
  pairmd: A7 NotOneRun 1
  [1]

The first difference is named, whatever comes after it.

  $ printf 'pairmd state 1\ntitle two\nstep 10\natoms 0\nbox 1000000 300000 300000\n' > edited
  $ cat seventh edited > pair
  $ pairmd replay job pair
  7 10 differs: title
  pairmd: A7 NotOneRun 1
  [1]
  $ printf 'pairmd state 1\ntitle one\nstep 10\natoms 0\nbox 1000000 300000 300000\n' > edited
  $ cat seventh edited > pair
  $ pairmd replay job pair
  7 10 differs: atoms
  pairmd: A7 NotOneRun 1
  [1]
  $ printf 'pairmd state 1\ntitle one\nstep 10\natoms 1\nbox 1000000 300000 300000\n    2AR      AR 1 2 3 4 5 6\n' > edited
  $ cat seventh edited > pair
  $ pairmd replay job pair
  7 10 differs: box
  pairmd: A7 NotOneRun 1
  [1]
  $ printf 'pairmd state 1\ntitle one\nstep 10\natoms 1\nbox 400000 300000 300000\n    2AR      AR 1 2 3 4 5 6\n' > edited
  $ cat seventh edited > pair
  $ pairmd replay job pair
  7 10 differs: atom 1 name
  pairmd: A7 NotOneRun 1
  [1]
  $ printf 'pairmd state 1\ntitle one\nstep 10\natoms 1\nbox 400000 300000 300000\n    1AR      AR 17 2 3 4 5 6\n' > edited
  $ cat seventh edited > pair
  $ pairmd replay job pair
  7 10 differs: atom 1 previous y
  pairmd: A7 NotOneRun 1
  [1]
  $ printf 'pairmd state 1\ntitle one\nstep 10\natoms 1\nbox 400000 300000 300000\n    1AR      AR 17 0 0 21 5 6\n' > edited
  $ cat seventh edited > pair
  $ pairmd replay job pair
  7 10 differs: atom 1 y
  pairmd: A7 NotOneRun 1
  [1]

Atoms are counted from 1. Line 21 of the stream is atom 2 of the third state. Its first coordinate moves.

  $ sed '21c     1AR      AR 0 0 0 0 0 0' run > broken
  $ pairmd replay job broken
  0 2 same
  2 4 differs: atom 2 previous x
  pairmd: A7 NotOneRun 1
  [1]
  $ sed '21c     1AR      XR 0 0 0 0 0 0' run > broken
  $ with job 6 'type XR 1' pairmd replay job broken
  0 2 same
  2 4 differs: atom 2 name
  pairmd: A7 NotOneRun 1
  [1]

A changed counter asks for another number of steps: the state of step 4 isn't that of step 5.

  $ sed '17c step 5' run > broken
  $ pairmd replay job broken
  0 2 same
  2 5 differs: atom 1 previous x
  pairmd: A7 NotOneRun 1
  [1]

A state that was changed differs from the run to it, and the run from it differs from the next state.

  $ printf 'pairmd state 1\ntitle one\nstep 10\natoms 1\nbox 400000 300000 300000\n    1AR      AR 17 0 0 22 0 0\n' > edited
  $ cat seventh edited twelfth ninth > broken
  $ pairmd replay job broken
  7 10 differs: atom 1 x
  10 12 differs: atom 1 previous x
  12 9 same
  pairmd: A7 NotOneRun 2
  [1]
  $ workers pairmd replay job broken
  7 10 differs: atom 1 x
  10 12 differs: atom 1 previous x
  12 9 same
  pairmd: A7 NotOneRun 2
  [1]
  $ cat seventh twelfth tenth seventh seventh > ways
  $ sed '2c title two' seventh > other
  $ cat other ways other > joined
  $ pairmd replay job joined
  7 7 differs: title
  7 12 same
  12 10 same
  10 7 same
  7 7 same
  7 7 differs: title
  pairmd: A7 NotOneRun 2
  [1]

The job determines the run. With another time step the first step ends elsewhere, from a state at rest.

  $ with job 5 'dt 4' pairmd replay job each
  0 1 differs: atom 1 x
  1 2 differs: atom 1 x
  2 3 differs: atom 1 x
  pairmd: A7 NotOneRun 3
  [1]
  $ with job 2 'energy 2/r' pairmd replay job run
  0 2 differs: atom 1 previous x
  2 4 differs: atom 1 previous x
  pairmd: A7 NotOneRun 2
  [1]

## A range of counters

Only segments with both counters in the range are replayed, both ends included.

  $ pairmd replay job path --from 9
  10 12 same
  12 9 same
  $ pairmd replay job path --from 10
  10 12 same
  $ pairmd replay job path --from 11
  $ pairmd replay job path --to 10
  7 10 same
  9 -3 same
  $ pairmd replay job path --to 9
  9 -3 same
  $ pairmd replay job path --to 8
  $ pairmd replay job path --from 7 --to 10
  7 10 same
  $ pairmd replay job path --from=7 --to=+12
  7 10 same
  10 12 same
  12 9 same
  $ pairmd replay job path --from 12 --to 9
  $ pairmd replay job path --from=-3
  7 10 same
  10 12 same
  12 9 same
  9 -3 same
  $ pairmd replay job path --from=-2
  7 10 same
  10 12 same
  12 9 same
  $ pairmd replay job path --from=-9223372036854775808 --to 9223372036854775807
  7 10 same
  10 12 same
  12 9 same
  9 -3 same
  $ pairmd replay job broken --from 11
  $ pairmd replay job broken --from 9
  10 12 differs: atom 1 previous x
  12 9 same
  pairmd: A7 NotOneRun 1
  [1]
  $ pairmd replay job broken --to 7

The whole stream is read all the same.

  $ printf 'pairmd' > more
  $ cat path more > longer
  $ pairmd replay job longer --from 10
  10 12 same
  pairmd: S2 Truncated in state 6
  [1]
  $ sed '6c     1KR      KR 1 1 1 1 1 1' seventh > foreign
  $ cat path foreign > longer
  $ pairmd replay job longer --from 100
  pairmd: A1 UnknownType 1 in state 6
  [1]

## Parts of a stream

Part i of n has the segments i, i + n, i + 2n, .. of the stream, counted from 1.

  $ pairmd replay job path --part 1/1
  7 10 same
  10 12 same
  12 9 same
  9 -3 same
  $ pairmd replay job path --part 1/2
  7 10 same
  12 9 same
  $ pairmd replay job path --part 2/2
  10 12 same
  9 -3 same
  $ pairmd replay job path --part 1/3
  7 10 same
  9 -3 same
  $ pairmd replay job path --part 3/3
  12 9 same
  $ pairmd replay job path --part 4/4
  9 -3 same
  $ pairmd replay job path --part 5/5
  $ pairmd replay job path --part=02/18446744073709551615
  10 12 same
  $ pairmd replay job path --part 18446744073709551615/18446744073709551615

Segments are counted before those in the range are chosen. Only those that are replayed count for the error.

  $ pairmd replay job path --part 1/2 --from 9
  12 9 same
  $ pairmd replay job path --part 2/2 --from 9
  10 12 same
  $ pairmd replay job broken --part 1/2
  7 10 differs: atom 1 x
  12 9 same
  pairmd: A7 NotOneRun 1
  [1]
  $ pairmd replay job broken --part 2/2
  10 12 differs: atom 1 previous x
  pairmd: A7 NotOneRun 1
  [1]
  $ pairmd replay job broken --part 3/3
  12 9 same

## Streams that are rejected

A file without a state is no stream. A stream ends with the last LF of a state. The lines before the error are printed,
and the error isn't A7, although a segment differs.

  $ printf '' > none
  $ pairmd replay job none
  pairmd: S2 Truncated in state 1
  [1]
  $ head -c 162 run > cut
  $ pairmd replay job cut
  pairmd: S2 Truncated in state 1
  [1]
  $ head -c 163 run > cut
  $ pairmd replay job cut
  $ head -c 164 run > cut
  $ pairmd replay job cut
  pairmd: S2 Truncated in state 2
  [1]
  $ head -c 325 run > cut
  $ pairmd replay job cut
  pairmd: S2 Truncated in state 2
  [1]
  $ head -c 326 run > cut
  $ pairmd replay job cut
  0 2 same
  $ head -c 488 run > cut
  $ pairmd replay job cut
  0 2 same
  pairmd: S2 Truncated in state 3
  [1]
  $ cat broken more > longer
  $ pairmd replay job longer
  7 10 differs: atom 1 x
  10 12 differs: atom 1 previous x
  12 9 same
  pairmd: S2 Truncated in state 5
  [1]
  $ sed '17c step x' run > wrong
  $ pairmd replay job wrong
  0 2 same
  pairmd: S1 BadLine 3 in state 3
  [1]

Each state must fit the job. Its fraction bits are compared before any step.

  $ cat state low state > mixed
  $ pairmd replay job mixed
  pairmd: A6 BitsDiffer in state 2
  [1]
  $ with job 6 'bits 24' pairmd replay job run
  pairmd: A6 BitsDiffer in state 1
  [1]
  $ cat seventh foreign tenth > mixed
  $ pairmd replay job mixed
  pairmd: A1 UnknownType 1 in state 2
  [1]
  $ sed '5c box 100000 200000 200000' state > narrow
  $ cat state fourth narrow > mixed
  $ pairmd replay job mixed
  0 4 same
  pairmd: A2 CutoffTooLong in state 3
  [1]

The job's text is judged first, then the first state, then the code.

  $ pairmd replay none run
  pairmd: J1 BadLine 1
  [1]
  $ with job 2 'energy 1/(r-r)' pairmd replay job run
  pairmd: V2 Fault AR AR r 858993459 pc 12 F2 ZeroDivisor
  [3]
  $ with job 2 'energy 1/(r-r)' pairmd replay job none
  pairmd: S2 Truncated in state 1
  [1]

Only the derivative's code is needed, not that of the energy itself.

  $ with job 2 'energy 1/r+1/0' pairmd states job state --steps 2 --every 1 > free
  $ with job 2 'energy 1/r+1/0' pairmd replay job free
  0 1 same
  1 2 same

## Progress

With `--progress` each replayed segment has progress of its own: a line on standard error for each step that completes
another hundredth of the segment's steps.

  $ workers pairmd replay job path --progress
  7 10 same
  10 12 same
  12 9 same
  9 -3 same
  pairmd: 1 of 3 steps
  pairmd: 2 of 3 steps
  pairmd: 3 of 3 steps
  pairmd: 1 of 2 steps
  pairmd: 2 of 2 steps
  pairmd: 1 of 3 steps
  pairmd: 2 of 3 steps
  pairmd: 3 of 3 steps
  pairmd: 1 of 12 steps
  pairmd: 2 of 12 steps
  pairmd: 3 of 12 steps
  pairmd: 4 of 12 steps
  pairmd: 5 of 12 steps
  pairmd: 6 of 12 steps
  pairmd: 7 of 12 steps
  pairmd: 8 of 12 steps
  pairmd: 9 of 12 steps
  pairmd: 10 of 12 steps
  pairmd: 11 of 12 steps
  pairmd: 12 of 12 steps
  $ pairmd replay job still --progress
  0 1000 same
  pairmd: 10 of 1000 steps
  pairmd: 20 of 1000 steps
  pairmd: 30 of 1000 steps
  pairmd: 40 of 1000 steps
  pairmd: 50 of 1000 steps
  pairmd: 60 of 1000 steps
  pairmd: 70 of 1000 steps
  pairmd: 80 of 1000 steps
  pairmd: 90 of 1000 steps
  pairmd: 100 of 1000 steps
  pairmd: 110 of 1000 steps
  pairmd: 120 of 1000 steps
  pairmd: 130 of 1000 steps
  pairmd: 140 of 1000 steps
  pairmd: 150 of 1000 steps
  pairmd: 160 of 1000 steps
  pairmd: 170 of 1000 steps
  pairmd: 180 of 1000 steps
  pairmd: 190 of 1000 steps
  pairmd: 200 of 1000 steps
  pairmd: 210 of 1000 steps
  pairmd: 220 of 1000 steps
  pairmd: 230 of 1000 steps
  pairmd: 240 of 1000 steps
  pairmd: 250 of 1000 steps
  pairmd: 260 of 1000 steps
  pairmd: 270 of 1000 steps
  pairmd: 280 of 1000 steps
  pairmd: 290 of 1000 steps
  pairmd: 300 of 1000 steps
  pairmd: 310 of 1000 steps
  pairmd: 320 of 1000 steps
  pairmd: 330 of 1000 steps
  pairmd: 340 of 1000 steps
  pairmd: 350 of 1000 steps
  pairmd: 360 of 1000 steps
  pairmd: 370 of 1000 steps
  pairmd: 380 of 1000 steps
  pairmd: 390 of 1000 steps
  pairmd: 400 of 1000 steps
  pairmd: 410 of 1000 steps
  pairmd: 420 of 1000 steps
  pairmd: 430 of 1000 steps
  pairmd: 440 of 1000 steps
  pairmd: 450 of 1000 steps
  pairmd: 460 of 1000 steps
  pairmd: 470 of 1000 steps
  pairmd: 480 of 1000 steps
  pairmd: 490 of 1000 steps
  pairmd: 500 of 1000 steps
  pairmd: 510 of 1000 steps
  pairmd: 520 of 1000 steps
  pairmd: 530 of 1000 steps
  pairmd: 540 of 1000 steps
  pairmd: 550 of 1000 steps
  pairmd: 560 of 1000 steps
  pairmd: 570 of 1000 steps
  pairmd: 580 of 1000 steps
  pairmd: 590 of 1000 steps
  pairmd: 600 of 1000 steps
  pairmd: 610 of 1000 steps
  pairmd: 620 of 1000 steps
  pairmd: 630 of 1000 steps
  pairmd: 640 of 1000 steps
  pairmd: 650 of 1000 steps
  pairmd: 660 of 1000 steps
  pairmd: 670 of 1000 steps
  pairmd: 680 of 1000 steps
  pairmd: 690 of 1000 steps
  pairmd: 700 of 1000 steps
  pairmd: 710 of 1000 steps
  pairmd: 720 of 1000 steps
  pairmd: 730 of 1000 steps
  pairmd: 740 of 1000 steps
  pairmd: 750 of 1000 steps
  pairmd: 760 of 1000 steps
  pairmd: 770 of 1000 steps
  pairmd: 780 of 1000 steps
  pairmd: 790 of 1000 steps
  pairmd: 800 of 1000 steps
  pairmd: 810 of 1000 steps
  pairmd: 820 of 1000 steps
  pairmd: 830 of 1000 steps
  pairmd: 840 of 1000 steps
  pairmd: 850 of 1000 steps
  pairmd: 860 of 1000 steps
  pairmd: 870 of 1000 steps
  pairmd: 880 of 1000 steps
  pairmd: 890 of 1000 steps
  pairmd: 900 of 1000 steps
  pairmd: 910 of 1000 steps
  pairmd: 920 of 1000 steps
  pairmd: 930 of 1000 steps
  pairmd: 940 of 1000 steps
  pairmd: 950 of 1000 steps
  pairmd: 960 of 1000 steps
  pairmd: 970 of 1000 steps
  pairmd: 980 of 1000 steps
  pairmd: 990 of 1000 steps
  pairmd: 1000 of 1000 steps

A segment without steps has none, nor has one that isn't replayed, or a single state.

  $ pairmd replay job ways --progress
  7 12 same
  12 10 same
  10 7 same
  7 7 same
  pairmd: 1 of 5 steps
  pairmd: 2 of 5 steps
  pairmd: 3 of 5 steps
  pairmd: 4 of 5 steps
  pairmd: 5 of 5 steps
  pairmd: 1 of 2 steps
  pairmd: 2 of 2 steps
  pairmd: 1 of 3 steps
  pairmd: 2 of 3 steps
  pairmd: 3 of 3 steps
  $ pairmd replay --progress job path --part 2/2
  10 12 same
  9 -3 same
  pairmd: 1 of 2 steps
  pairmd: 2 of 2 steps
  pairmd: 1 of 12 steps
  pairmd: 2 of 12 steps
  pairmd: 3 of 12 steps
  pairmd: 4 of 12 steps
  pairmd: 5 of 12 steps
  pairmd: 6 of 12 steps
  pairmd: 7 of 12 steps
  pairmd: 8 of 12 steps
  pairmd: 9 of 12 steps
  pairmd: 10 of 12 steps
  pairmd: 11 of 12 steps
  pairmd: 12 of 12 steps
  $ pairmd replay --progress job path --from 9
  10 12 same
  12 9 same
  pairmd: 1 of 2 steps
  pairmd: 2 of 2 steps
  pairmd: 1 of 3 steps
  pairmd: 2 of 3 steps
  pairmd: 3 of 3 steps
  $ pairmd replay --progress job path --from 100
  $ pairmd replay --progress job path --part 5/5
  $ pairmd replay --progress job state

All progress comes before the error of a stream that isn't of one run, and that of the segments before any other error.

  $ pairmd replay job broken --progress --part 1/2
  7 10 differs: atom 1 x
  12 9 same
  pairmd: 1 of 3 steps
  pairmd: 2 of 3 steps
  pairmd: 3 of 3 steps
  pairmd: 1 of 3 steps
  pairmd: 2 of 3 steps
  pairmd: 3 of 3 steps
  pairmd: A7 NotOneRun 1
  [1]
  $ cat path more > longer
  $ pairmd replay job longer --progress --from 10
  10 12 same
  pairmd: 1 of 2 steps
  pairmd: 2 of 2 steps
  pairmd: S2 Truncated in state 6
  [1]
  $ cat state low state > mixed
  $ pairmd replay job mixed --progress
  pairmd: A6 BitsDiffer in state 2
  [1]
  $ with job 2 'energy 1/(r-r)' pairmd replay job run --progress
  pairmd: V2 Fault AR AR r 858993459 pc 12 F2 ZeroDivisor
  [3]
  $ pairmd replay missing run --progress
  pairmd: O1 CannotRead missing
  [5]

A state that doesn't fit the job is rejected after the steps to it, if they are made.

  $ sed '6c     1KR      KR 17 0 0 21 0 0' tenth > foreign
  $ cat seventh foreign > mixed
  $ pairmd replay job mixed --progress
  pairmd: 1 of 3 steps
  pairmd: 2 of 3 steps
  pairmd: 3 of 3 steps
  pairmd: A1 UnknownType 1 in state 2
  [1]
  $ pairmd replay job mixed --progress --from 8
  pairmd: A1 UnknownType 1 in state 2
  [1]

The progress of a segment comes before its line. If standard error fails, the output is unchanged.

  $ outputs pairmd replay job run --progress
  0-8: a beginning, pairmd: 1 of 2 steps
  pairmd: 2 of 2 steps
  pairmd: O2 CannotWrite [5]
  9-17: a beginning, pairmd: 1 of 2 steps
  pairmd: 2 of 2 steps
  pairmd: 1 of 2 steps
  pairmd: 2 of 2 steps
  pairmd: O2 CannotWrite [5]
  18: all
  $ errors pairmd replay job run --progress
  0-83: each line as far as it is taken
  84: all
  $ requests pairmd replay job run --progress
  pairmd: Memory [4]
  all
  pairmd: 1 of 2 steps
  pairmd: Memory [4]
  0 2 same
  pairmd: 1 of 2 steps
  pairmd: 2 of 2 steps
  pairmd: Memory [4]
  0 2 same
  pairmd: 1 of 2 steps
  pairmd: 2 of 2 steps
  pairmd: 1 of 2 steps
  pairmd: Memory [4]

## Files, outputs and memory

  $ pairmd replay job missing
  pairmd: O1 CannotRead missing
  [5]
  $ pairmd replay missing run
  pairmd: O1 CannotRead missing
  [5]
  $ pairmd replay missing missed
  pairmd: O1 CannotRead missing
  [5]
  $ outputs pairmd replay job run
  0-17: a beginning, pairmd: O2 CannotWrite [5]
  18: all
  $ cat edited twelfth > pair
  $ outputs pairmd replay job pair
  0-32: a beginning, pairmd: O2 CannotWrite [5]
  33: all, pairmd: A7 NotOneRun 1 [1]
  $ requests pairmd replay job run
  pairmd: Memory [4]
  all
  0 2 same
  pairmd: Memory [4]

## Misuse

  $ pairmd help replay
  Compares each state of a stream with the run of the state before it
  
  Usage: pairmd replay [OPTIONS] <JOB> <STATES>
  
  Arguments:
    <JOB>     Job file: energy, core, cutoff, time step, atom types
    <STATES>  Stream of states, as 'states' prints them
  
  Options:
    -w, --workers <w>  Number of threads, from 1 to 64 [default: 1]
        --from <s>     Replay only between states whose counter is at least s, as --from=-500
        --to <s>       Replay only between states whose counter is at most s
        --part <i/n>   Replay only segments i, i + n, i + 2n, .. of the stream, with i from 1 to n [default: 1/1]
        --progress     Report progress on standard error
    -h, --help         Print help
  $ pairmd replay job
  error: the following required arguments were not provided:
    <STATES>
  
  Usage: pairmd replay <JOB> <STATES>
  
  For more information, try '--help'.
  [2]
  $ pairmd replay job run --steps 2
  error: unexpected argument '--steps' found
  
    tip: to pass '--steps' as a value, use '-- --steps'
  
  Usage: pairmd replay <JOB> <STATES>
  
  For more information, try '--help'.
  [2]
  $ pairmd replay job run --workers 0
  error: invalid value '0' for '--workers <w>': 0 is not in 1..=64
  
  For more information, try '--help'.
  [2]
  $ pairmd replay job run --workers 65
  error: invalid value '65' for '--workers <w>': 65 is not in 1..=64
  
  For more information, try '--help'.
  [2]
  $ pairmd replay job run --from -1
  error: unexpected argument '-1' found
  
    tip: to pass '-1' as a value, use '-- -1'
  
  Usage: pairmd replay [OPTIONS] <JOB> <STATES>
  
  For more information, try '--help'.
  [2]
  $ pairmd replay job run --from 1e3
  error: invalid value '1e3' for '--from <s>': invalid digit found in string
  
  For more information, try '--help'.
  [2]
  $ pairmd replay job run --from=-9223372036854775809
  error: invalid value '-9223372036854775809' for '--from <s>': number too small to fit in target type
  
  For more information, try '--help'.
  [2]
  $ pairmd replay job run --to 9223372036854775808
  error: invalid value '9223372036854775808' for '--to <s>': number too large to fit in target type
  
  For more information, try '--help'.
  [2]
  $ pairmd replay job run --part 0/2
  error: invalid value '0/2' for '--part <i/n>': not a part i of n, from 1/n to n/n, such as 2/8
  
  Usage: pairmd replay [OPTIONS] <JOB> <STATES>
  
  For more information, try '--help'.
  [2]
  $ pairmd replay job run --part 3/2
  error: invalid value '3/2' for '--part <i/n>': not a part i of n, from 1/n to n/n, such as 2/8
  
  Usage: pairmd replay [OPTIONS] <JOB> <STATES>
  
  For more information, try '--help'.
  [2]
  $ pairmd replay job run --part 0/0
  error: invalid value '0/0' for '--part <i/n>': not a part i of n, from 1/n to n/n, such as 2/8
  
  Usage: pairmd replay [OPTIONS] <JOB> <STATES>
  
  For more information, try '--help'.
  [2]
  $ pairmd replay job run --part 2
  error: invalid value '2' for '--part <i/n>': not a part i of n, from 1/n to n/n, such as 2/8
  
  Usage: pairmd replay [OPTIONS] <JOB> <STATES>
  
  For more information, try '--help'.
  [2]
  $ pairmd replay job run --part 1/2/3
  error: invalid value '1/2/3' for '--part <i/n>': not a part i of n, from 1/n to n/n, such as 2/8
  
  Usage: pairmd replay [OPTIONS] <JOB> <STATES>
  
  For more information, try '--help'.
  [2]
  $ pairmd replay job run --part +1/2
  error: invalid value '+1/2' for '--part <i/n>': not a part i of n, from 1/n to n/n, such as 2/8
  
  Usage: pairmd replay [OPTIONS] <JOB> <STATES>
  
  For more information, try '--help'.
  [2]
  $ pairmd replay job run --part 1/
  error: invalid value '1/' for '--part <i/n>': not a part i of n, from 1/n to n/n, such as 2/8
  
  Usage: pairmd replay [OPTIONS] <JOB> <STATES>
  
  For more information, try '--help'.
  [2]
  $ pairmd replay job run --part 1/18446744073709551616
  error: invalid value '1/18446744073709551616' for '--part <i/n>': not a part i of n, from 1/n to n/n, such as 2/8
  
  Usage: pairmd replay [OPTIONS] <JOB> <STATES>
  
  For more information, try '--help'.
  [2]
