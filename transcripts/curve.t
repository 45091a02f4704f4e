# Tables of a potential

`curve` prints for each pair of types a table of the potential as the program computes it. Beside the energy and its
slope are bounds on their distance from the formula over exact numbers.

## Rows

Rows are from the core to the last distance below the cutoff, and the distances of a row reach up to the next row's. A
numeral that is a multiple of 2^-32 has no error. The exact distance is up to a unit greater than the computed one.

  $ with job 2 'energy 2' pairmd curve job --points 2
  # AR AR
  # r/nm energy/(kJ/mol) energy-error slope/(kJ/mol/nm) slope-error
  0.199999999953 2.000000000000 0 0.000000000000 0
  0.549999999814 2.000000000000 0 0.000000000000 0
  0.899999999674 2.000000000000 0 0.000000000000 0
  # greatest energy-error 0 at 0.199999999953, slope-error 0 at 0.199999999953
  $ with job 2 'energy r' pairmd curve job --points 2
  # AR AR
  # r/nm energy/(kJ/mol) energy-error slope/(kJ/mol/nm) slope-error
  0.199999999953 0.199999999953 2.33e-10 1.000000000000 0
  0.549999999814 0.549999999814 2.33e-10 1.000000000000 0
  0.899999999674 0.899999999674 2.33e-10 1.000000000000 0
  # greatest energy-error 2.33e-10 at 0.199999999953, slope-error 0 at 0.199999999953
  $ with job 2 'energy 1/r' pairmd curve job --points 4
  # AR AR
  # r/nm energy/(kJ/mol) energy-error slope/(kJ/mol/nm) slope-error
  0.199999999953 5.000000001164 5.83e-9 -25.000000122469 2.17e-7
  0.374999999767 2.666666668141 1.66e-9 -7.111111123115 2.19e-8
  0.549999999814 1.818181818584 7.71e-10 -3.305785126751 5.80e-9
  0.724999999627 1.379310345510 4.44e-10 -1.902497029863 2.45e-9
  0.899999999674 1.111111111473 2.89e-10 -1.234567902284 1.23e-9
  # greatest energy-error 5.83e-9 at 0.199999999953, slope-error 2.17e-7 at 0.199999999953
  $ with job 2 'energy 1/r' pairmd curve job --points 1
  # AR AR
  # r/nm energy/(kJ/mol) energy-error slope/(kJ/mol/nm) slope-error
  0.199999999953 5.000000001164 5.83e-9 -25.000000122469 2.17e-7
  0.899999999674 1.111111111473 2.89e-10 -1.234567902284 1.23e-9
  # greatest energy-error 5.83e-9 at 0.199999999953, slope-error 2.17e-7 at 0.199999999953

There are two distances from the core to the cutoff. Rows that share one repeat it.

  $ with job 2 'energy r' with job 4 'cutoff 0.2000000005' pairmd curve job --points 1
  # AR AR
  # r/nm energy/(kJ/mol) energy-error slope/(kJ/mol/nm) slope-error
  0.199999999953 0.199999999953 2.33e-10 1.000000000000 0
  0.200000000186 0.200000000186 2.33e-10 1.000000000000 0
  # greatest energy-error 2.33e-10 at 0.199999999953, slope-error 0 at 0.199999999953
  $ with job 2 'energy r' with job 4 'cutoff 0.2000000005' pairmd curve job --points 3
  # AR AR
  # r/nm energy/(kJ/mol) energy-error slope/(kJ/mol/nm) slope-error
  0.199999999953 0.199999999953 2.33e-10 1.000000000000 0
  0.199999999953 0.199999999953 2.33e-10 1.000000000000 0
  0.199999999953 0.199999999953 2.33e-10 1.000000000000 0
  0.200000000186 0.200000000186 2.33e-10 1.000000000000 0
  # greatest energy-error 2.33e-10 at 0.199999999953, slope-error 0 at 0.199999999953

The default is 100 rows after the first; there is a most.

  $ with job 2 'energy 0' with job 4 'cutoff 0.2000000005' pairmd curve job --points 0
  error: invalid value '0' for '--points <n>': 0 is not in 1..=1000000
  
  For more information, try '--help'.
  [2]
  $ with job 2 'energy 0' with job 4 'cutoff 0.2000000005' pairmd curve job --points 1000001
  error: invalid value '1000001' for '--points <n>': 1000001 is not in 1..=1000000
  
  For more information, try '--help'.
  [2]

## Operations

  $ with job 2 'energy r+2' pairmd curve job --points 1
  # AR AR
  # r/nm energy/(kJ/mol) energy-error slope/(kJ/mol/nm) slope-error
  0.199999999953 2.199999999953 2.33e-10 1.000000000000 0
  0.899999999674 2.899999999674 2.33e-10 1.000000000000 0
  # greatest energy-error 2.33e-10 at 0.199999999953, slope-error 0 at 0.199999999953
  $ with job 2 'energy -r' pairmd curve job --points 1
  # AR AR
  # r/nm energy/(kJ/mol) energy-error slope/(kJ/mol/nm) slope-error
  0.199999999953 -0.199999999953 2.33e-10 -1.000000000000 0
  0.899999999674 -0.899999999674 2.33e-10 -1.000000000000 0
  # greatest energy-error 2.33e-10 at 0.199999999953, slope-error 0 at 0.199999999953
  $ with job 2 'energy r*r' pairmd curve job --points 1
  # AR AR
  # r/nm energy/(kJ/mol) energy-error slope/(kJ/mol/nm) slope-error
  0.199999999953 0.039999999804 6.53e-10 0.399999999907 4.66e-10
  0.899999999674 0.809999999357 6.53e-10 1.799999999348 4.66e-10
  # greatest energy-error 6.53e-10 at 0.199999999953, slope-error 4.66e-10 at 0.199999999953
  $ with job 2 'energy r^2' pairmd curve job --points 1
  # AR AR
  # r/nm energy/(kJ/mol) energy-error slope/(kJ/mol/nm) slope-error
  0.199999999953 0.039999999804 6.53e-10 0.399999999907 4.66e-10
  0.899999999674 0.809999999357 6.53e-10 1.799999999348 4.66e-10
  # greatest energy-error 6.53e-10 at 0.199999999953, slope-error 4.66e-10 at 0.199999999953
  $ with job 2 'energy r^3' pairmd curve job --points 1
  # AR AR
  # r/nm energy/(kJ/mol) energy-error slope/(kJ/mol/nm) slope-error
  0.199999999953 0.007999999914 1.01e-9 0.119999999413 1.96e-9
  0.899999999674 0.728999999119 1.01e-9 2.429999998072 1.96e-9
  # greatest energy-error 1.01e-9 at 0.199999999953, slope-error 1.96e-9 at 0.199999999953
  $ with job 2 'energy r^-6' pairmd curve job --points 1
  # AR AR
  # r/nm energy/(kJ/mol) energy-error slope/(kJ/mol/nm) slope-error
  0.199999999953 15625.051553967642 5.93e-2 -468754.957271486986 1.08e1
  0.899999999674 1.881676427787 6.04e-9 -12.544509525876 4.96e-8
  # greatest energy-error 5.93e-2 at 0.199999999953, slope-error 1.08e1 at 0.199999999953
  $ with job 2 'energy 3/r^2' pairmd curve job --points 1
  # AR AR
  # r/nm energy/(kJ/mol) energy-error slope/(kJ/mol/nm) slope-error
  0.199999999953 75.000000366708 6.18e-7 -750.000073341886 1.26e-4
  0.899999999674 3.703703706618 2.99e-9 -8.230452686315 1.65e-8
  # greatest energy-error 6.18e-7 at 0.199999999953, slope-error 1.26e-4 at 0.199999999953
  $ with job 2 'energy sqrt(r)' pairmd curve job --points 1
  # AR AR
  # r/nm energy/(kJ/mol) energy-error slope/(kJ/mol/nm) slope-error
  0.199999999953 0.447213595267 4.94e-10 1.118033989100 1.24e-9
  0.899999999674 0.948683297727 3.56e-10 0.527046276722 2.33e-10
  # greatest energy-error 4.94e-10 at 0.199999999953, slope-error 1.24e-9 at 0.199999999953

The numeral 0.1 is read as 429496730 multiples of 2^-32, which is too much by 0.4 of them, the slope's error.

  $ with job 2 'energy 0.1*r' pairmd curve job --points 1
  # AR AR
  # r/nm energy/(kJ/mol) energy-error slope/(kJ/mol/nm) slope-error
  0.199999999953 0.019999999786 2.39e-10 0.100000000093 9.37e-11
  0.899999999674 0.089999999851 1.73e-10 0.100000000093 9.37e-11
  # greatest energy-error 2.39e-10 at 0.199999999953, slope-error 9.37e-11 at 0.199999999953

## Jumps

In a row in which the energy jumps, the jump is a part of the bound: any distance in the row may be on either side.

  $ with job 2 'energy step(r-0.5)' pairmd curve job --points 7
  # AR AR
  # r/nm energy/(kJ/mol) energy-error slope/(kJ/mol/nm) slope-error
  0.199999999953 0.000000000000 0 0.000000000000 0
  0.299999999814 0.000000000000 0 0.000000000000 0
  0.399999999674 0.000000000000 0 0.000000000000 0
  0.499999999767 0.000000000000 1.00e0 0.000000000000 0 # jump energy-error
  0.599999999627 1.000000000000 0 0.000000000000 0
  0.699999999721 1.000000000000 0 0.000000000000 0
  0.799999999581 1.000000000000 0 0.000000000000 0
  0.899999999674 1.000000000000 0 0.000000000000 0
  # greatest energy-error 1.00e0 at 0.499999999767, slope-error 0 at 0.199999999953
  $ with job 2 'energy floor(2*r)' pairmd curve job --points 2
  # AR AR
  # r/nm energy/(kJ/mol) energy-error slope/(kJ/mol/nm) slope-error
  0.199999999953 0.000000000000 1.00e0 0.000000000000 0 # jump energy-error
  0.549999999814 1.000000000000 0 0.000000000000 0
  0.899999999674 1.000000000000 0 0.000000000000 0
  # greatest energy-error 1.00e0 at 0.199999999953, slope-error 0 at 0.199999999953
  $ with job 2 'energy ceil(2*r)' pairmd curve job --points 2
  # AR AR
  # r/nm energy/(kJ/mol) energy-error slope/(kJ/mol/nm) slope-error
  0.199999999953 1.000000000000 1.00e0 0.000000000000 0 # jump energy-error
  0.549999999814 2.000000000000 0 0.000000000000 0
  0.899999999674 2.000000000000 0 0.000000000000 0
  # greatest energy-error 1.00e0 at 0.199999999953, slope-error 0 at 0.199999999953
  $ with job 2 'energy delta(r-0.5)' pairmd curve job --points 2
  # AR AR
  # r/nm energy/(kJ/mol) energy-error slope/(kJ/mol/nm) slope-error
  0.199999999953 0.000000000000 1.00e0 0.000000000000 0 # jump energy-error
  0.549999999814 0.000000000000 0 0.000000000000 0
  0.899999999674 0.000000000000 0 0.000000000000 0
  # greatest energy-error 1.00e0 at 0.199999999953, slope-error 0 at 0.199999999953
  $ with job 2 'energy select(step(r-0.5), 2*r, 3*r)' pairmd curve job --points 2
  # AR AR
  # r/nm energy/(kJ/mol) energy-error slope/(kJ/mol/nm) slope-error
  0.199999999953 0.599999999860 5.01e-1 3.000000000000 1.00e0 # jump energy-error slope-error
  0.549999999814 1.099999999627 4.66e-10 2.000000000000 0
  0.899999999674 1.799999999348 4.66e-10 2.000000000000 0
  # greatest energy-error 5.01e-1 at 0.199999999953, slope-error 1.00e0 at 0.199999999953

Where the operands meet, the slope jumps.

  $ with job 2 'energy abs(r-0.5)' pairmd curve job --points 2
  # AR AR
  # r/nm energy/(kJ/mol) energy-error slope/(kJ/mol/nm) slope-error
  0.199999999953 0.300000000047 2.33e-10 -1.000000000000 2.00e0 # jump slope-error
  0.549999999814 0.049999999814 2.33e-10 1.000000000000 0
  0.899999999674 0.399999999674 2.33e-10 1.000000000000 0
  # greatest energy-error 2.33e-10 at 0.199999999953, slope-error 2.00e0 at 0.199999999953
  $ with job 2 'energy min(r, 0.5)' pairmd curve job --points 2
  # AR AR
  # r/nm energy/(kJ/mol) energy-error slope/(kJ/mol/nm) slope-error
  0.199999999953 0.199999999953 2.33e-10 1.000000000000 1.00e0 # jump slope-error
  0.549999999814 0.500000000000 0 0.000000000000 0
  0.899999999674 0.500000000000 0 0.000000000000 0
  # greatest energy-error 2.33e-10 at 0.199999999953, slope-error 1.00e0 at 0.199999999953
  $ with job 2 'energy max(r, 0.5)' pairmd curve job --points 2
  # AR AR
  # r/nm energy/(kJ/mol) energy-error slope/(kJ/mol/nm) slope-error
  0.199999999953 0.500000000000 2.33e-10 0.000000000000 1.00e0 # jump slope-error
  0.549999999814 0.549999999814 2.33e-10 1.000000000000 0
  0.899999999674 0.899999999674 2.33e-10 1.000000000000 0
  # greatest energy-error 2.33e-10 at 0.199999999953, slope-error 1.00e0 at 0.199999999953

## Open choices

Near 0.5 the computed and the exact distance may take different branches. Both uses of a definition take the same one, so
their slopes cancel. Two choices without a definition are open one by one: a slope of 1 may meet a slope of 0.

  $ with job 2 'energy y-y; y=min(r, 0.5)' pairmd curve job --points 2
  # AR AR
  # r/nm energy/(kJ/mol) energy-error slope/(kJ/mol/nm) slope-error
  0.199999999953 0.000000000000 2.33e-10 0.000000000000 0 # large energy-error
  0.549999999814 0.000000000000 0 0.000000000000 0
  0.899999999674 0.000000000000 0 0.000000000000 0
  # greatest energy-error 2.33e-10 at 0.199999999953, slope-error 0 at 0.199999999953
  $ with job 2 'energy min(r, 0.5)-min(r, 0.5)' pairmd curve job --points 2
  # AR AR
  # r/nm energy/(kJ/mol) energy-error slope/(kJ/mol/nm) slope-error
  0.199999999953 0.000000000000 2.33e-10 0.000000000000 2.00e0 # jump slope-error # large energy-error
  0.549999999814 0.000000000000 0 0.000000000000 0
  0.899999999674 0.000000000000 0 0.000000000000 0
  # greatest energy-error 2.33e-10 at 0.199999999953, slope-error 2.00e0 at 0.199999999953

At the minimum of a Lennard-Jones potential, which is kept from there on, the slopes of both branches are nearly 0.

  $ with job 2 'energy 4*(x^2-x); x=max(0.5, (0.4/r)^6)' with job 3 'core 0.44' pairmd curve job --points 2
  # AR AR
  # r/nm energy/(kJ/mol) energy-error slope/(kJ/mol/nm) slope-error
  0.439999999944 -0.983372450806 1.66e-8 -3.970238398761 4.10e-7
  0.669999999693 -1.000000000000 9.32e-10 0.000000000000 0
  0.899999999674 -1.000000000000 9.32e-10 0.000000000000 0
  # greatest energy-error 1.66e-8 at 0.439999999944, slope-error 4.10e-7 at 0.439999999944

Three choices are walked with both branches. A fourth one isn't: the slope 0 or 2 of w is in the range from 0 to 2, with
errors from -2 to 2. So the slope of w-w is from -2 to 2, with errors from -4 to 4, and exactly from -6 to 6. Of several
walks any computed slope may meet any exact one, so the bound is 8.

  $ with job 2 'energy x-x+(y-y)+(z-z); x=max(r, 0.5); y=abs(r-0.5); z=select(step(r-0.5), r, 0.5)' pairmd curve job --points 2
  # AR AR
  # r/nm energy/(kJ/mol) energy-error slope/(kJ/mol/nm) slope-error
  0.199999999953 0.000000000000 6.99e-10 0.000000000000 0 # large energy-error
  0.549999999814 0.000000000000 6.99e-10 0.000000000000 0 # large energy-error
  0.899999999674 0.000000000000 6.99e-10 0.000000000000 0 # large energy-error
  # greatest energy-error 6.99e-10 at 0.199999999953, slope-error 0 at 0.199999999953
  $ with job 2 'energy w-w+(x-x)+(y-y)+(z-z); w=max(2*r, 1); x=max(r, 0.5); y=abs(r-0.5); z=select(step(r-0.5), r, 0.5)' pairmd curve job --points 2
  # AR AR
  # r/nm energy/(kJ/mol) energy-error slope/(kJ/mol/nm) slope-error
  0.199999999953 0.000000000000 1.17e-9 0.000000000000 8.00e0 # jump slope-error # large energy-error
  0.549999999814 0.000000000000 1.17e-9 0.000000000000 0 # large energy-error
  0.899999999674 0.000000000000 1.17e-9 0.000000000000 0 # large energy-error
  # greatest energy-error 1.17e-9 at 0.199999999953, slope-error 8.00e0 at 0.199999999953

## Marks

A row is marked if a bound exceeds a thousandth of its value. A jump of 1 is a thousandth of 1000.

  $ with job 2 'energy 1000+step(r-0.5)' pairmd curve job --points 2
  # AR AR
  # r/nm energy/(kJ/mol) energy-error slope/(kJ/mol/nm) slope-error
  0.199999999953 1000.000000000000 1.00e0 0.000000000000 0
  0.549999999814 1001.000000000000 0 0.000000000000 0
  0.899999999674 1001.000000000000 0 0.000000000000 0
  # greatest energy-error 1.00e0 at 0.199999999953, slope-error 0 at 0.199999999953
  $ with job 2 'energy 999+step(r-0.5)' pairmd curve job --points 2
  # AR AR
  # r/nm energy/(kJ/mol) energy-error slope/(kJ/mol/nm) slope-error
  0.199999999953 999.000000000000 1.00e0 0.000000000000 0 # jump energy-error
  0.549999999814 1000.000000000000 0 0.000000000000 0
  0.899999999674 1000.000000000000 0 0.000000000000 0
  # greatest energy-error 1.00e0 at 0.199999999953, slope-error 0 at 0.199999999953

A large bound is a jump if it is far above the bounds 1024 distances to both sides. With one column only that column is
marked.

  $ with job 2 'energy select(step(r-0.5), 2*r, 3*r)' pairmd curve job --points 1 --energy
  # AR AR
  # r/nm energy/(kJ/mol) energy-error
  0.199999999953 0.599999999860 5.01e-1 # jump energy-error
  0.899999999674 1.799999999348 4.66e-10
  # greatest energy-error 5.01e-1 at 0.199999999953
  $ with job 2 'energy select(step(r-0.5), 2*r, 3*r)' pairmd curve job --points 1 --slope
  # AR AR
  # r/nm slope/(kJ/mol/nm) slope-error
  0.199999999953 3.000000000000 1.00e0 # jump slope-error
  0.899999999674 2.000000000000 0
  # greatest slope-error 1.00e0 at 0.199999999953

The computed energy is 0 from the kink on, so its bound is as large as before the kink. The slope jumps there.

  $ with job 2 'energy max(0, 0.1-0.2*r)' with job 3 'core 0.499999' pairmd curve job --points 2
  # AR AR
  # r/nm energy/(kJ/mol) energy-error slope/(kJ/mol/nm) slope-error
  0.499998999992 0.000000200234 3.98e-10 -0.199999999953 2.01e-1 # jump slope-error # large energy-error
  0.699999499833 0.000000000000 0 0.000000000000 0
  0.899999999674 0.000000000000 0 0.000000000000 0
  # greatest energy-error 3.98e-10 at 0.499998999992, slope-error 2.01e-1 at 0.499998999992

The core has no distance below it, so a jump at the core is only large.

  $ with job 2 'energy step(r-0.2)' pairmd curve job --points 2
  # AR AR
  # r/nm energy/(kJ/mol) energy-error slope/(kJ/mol/nm) slope-error
  0.199999999953 1.000000000000 1.00e0 0.000000000000 0 # large energy-error
  0.549999999814 1.000000000000 0 0.000000000000 0
  0.899999999674 1.000000000000 0 0.000000000000 0
  # greatest energy-error 1.00e0 at 0.199999999953, slope-error 0 at 0.199999999953

## Rows without a bound

The computed divisor is at least 128849 units. The exact one may be 0: 0.2 is read as a fifth of a unit less, and the
factor turns that into 200000 units. The energy's slope has the divisor too.

  $ with job 2 'energy 0.000000001/(1000000*(r-0.2)+0.00003)' with job 4 'cutoff 0.2001' pairmd curve job --points 2
  # AR AR
  # r/nm energy/(kJ/mol) energy-error slope/(kJ/mol/nm) slope-error
  0.199999999953 0.000031044008 - -1333333.333333333489 -
  0.200049999868 0.000000000000 2.35e-10 -0.000000372762 2.77e-8 # large energy-error slope-error
  0.200099999784 0.000000000000 2.34e-10 -0.000000093365 6.92e-9 # large energy-error slope-error
  # no energy-error from 0.199999999953
  # no slope-error from 0.199999999953
  # greatest energy-error 2.35e-10 at 0.200049999868 (1 row without), slope-error 2.77e-8 at 0.200049999868 (1 row without)

Each row without a bound has a line for each of its columns. The greatest bounds are those of the other rows.

  $ with job 2 'energy 0.000000001/(1000000*(r-0.2)+0.00003)' with job 4 'cutoff 0.2000000005' pairmd curve job --points 3
  # AR AR
  # r/nm energy/(kJ/mol) energy-error slope/(kJ/mol/nm) slope-error
  0.199999999953 0.000031044008 - -1333333.333333333489 -
  0.199999999953 0.000031044008 - -1333333.333333333489 -
  0.199999999953 0.000031044008 - -1333333.333333333489 -
  0.200000000186 0.000003543217 2.75e-6 -13513.513513513608 4.91e4 # large energy-error slope-error
  # no energy-error from 0.199999999953
  # no slope-error from 0.199999999953
  # no energy-error from 0.199999999953
  # no slope-error from 0.199999999953
  # no energy-error from 0.199999999953
  # no slope-error from 0.199999999953
  # greatest energy-error 2.75e-6 at 0.200000000186 (3 rows without), slope-error 4.91e4 at 0.200000000186 (3 rows without)

The thirteenth power of 0.25 is 64 units, of which errors of its factors are a part: the slope's error passes 2^54 units.

  $ with job 2 'energy 0.000001*r^-12' with job 3 'core 0.25' pairmd curve job --points 4
  # AR AR
  # r/nm energy/(kJ/mol) energy-error slope/(kJ/mol/nm) slope-error
  0.250000000000 16.777343750000 6.67e-2 -805.312500000000 - # large energy-error
  0.412499999860 0.041201807093 7.52e-7 -1.198604651261 5.22e-5
  0.574999999721 0.000765577424 6.57e-9 -0.015977273462 1.45e-7
  0.737499999581 0.000038624043 3.20e-10 -0.000628460897 5.45e-9
  0.899999999674 0.000003540656 2.08e-10 -0.000047209905 6.21e-10
  # no slope-error from 0.250000000000
  # greatest energy-error 6.67e-2 at 0.250000000000, slope-error 5.22e-5 at 0.412499999860 (1 row without)

## Types

The first type is the type of the atom with the lower number. Parameters, globals and names follow the job.

  $ cat > mixture << END
  > pairmd job 1
  > energy k*q1-q2/r
  > core 0.2
  > cutoff 0.9
  > dt 2
  > global k 0.5
  > parameter q
  > type AR 1 3
  > type X 1 0.25
  > END
  $ pairmd curve mixture --points 1
  # AR AR
  # r/nm energy/(kJ/mol) energy-error slope/(kJ/mol/nm) slope-error
  0.199999999953 -13.500000003492 1.75e-8 75.000000366941 6.50e-7
  0.899999999674 -1.833333334420 8.64e-10 3.703703706851 3.22e-9
  # greatest energy-error 1.75e-8 at 0.199999999953, slope-error 6.50e-7 at 0.199999999953
  
  
  # AR X
  # r/nm energy/(kJ/mol) energy-error slope/(kJ/mol/nm) slope-error
  0.199999999953 0.249999999767 1.46e-9 6.250000030734 5.44e-8
  0.899999999674 1.222222222248 2.33e-10 0.308641975746 4.83e-10
  # greatest energy-error 1.46e-9 at 0.199999999953, slope-error 5.44e-8 at 0.199999999953
  
  
  # X AR
  # r/nm energy/(kJ/mol) energy-error slope/(kJ/mol/nm) slope-error
  0.199999999953 -14.875000003492 1.77e-8 75.000000366941 6.50e-7
  0.899999999674 -3.208333334420 1.10e-9 3.703703706851 3.22e-9
  # greatest energy-error 1.77e-8 at 0.199999999953, slope-error 6.50e-7 at 0.199999999953
  
  
  # X X
  # r/nm energy/(kJ/mol) energy-error slope/(kJ/mol/nm) slope-error
  0.199999999953 -1.125000000233 1.69e-9 6.250000030734 5.44e-8
  0.899999999674 -0.152777777752 3.06e-10 0.308641975746 4.83e-10
  # greatest energy-error 1.69e-9 at 0.199999999953, slope-error 5.44e-8 at 0.199999999953

Two types have one table for both orders if its lines are the same in both. Otherwise the table of the other order
follows. The energy of these types depends on their order, unless they have the same parameter.

  $ cat > three << END
  > pairmd job 1
  > energy q1-q2+1/r
  > core 0.2
  > cutoff 0.9
  > dt 2
  > parameter q
  > type AR 1 3
  > type X 1 0.25
  > type Y 1 3
  > END
  $ pairmd curve three --points 1
  # AR AR
  # r/nm energy/(kJ/mol) energy-error slope/(kJ/mol/nm) slope-error
  0.199999999953 5.000000001164 5.83e-9 -25.000000122469 2.17e-7
  0.899999999674 1.111111111473 2.89e-10 -1.234567902284 1.23e-9
  # greatest energy-error 5.83e-9 at 0.199999999953, slope-error 2.17e-7 at 0.199999999953
  
  
  # AR X
  # r/nm energy/(kJ/mol) energy-error slope/(kJ/mol/nm) slope-error
  0.199999999953 7.750000001164 5.83e-9 -25.000000122469 2.17e-7
  0.899999999674 3.861111111473 2.89e-10 -1.234567902284 1.23e-9
  # greatest energy-error 5.83e-9 at 0.199999999953, slope-error 2.17e-7 at 0.199999999953
  
  
  # X AR
  # r/nm energy/(kJ/mol) energy-error slope/(kJ/mol/nm) slope-error
  0.199999999953 2.250000001164 5.83e-9 -25.000000122469 2.17e-7
  0.899999999674 -1.638888888527 2.89e-10 -1.234567902284 1.23e-9
  # greatest energy-error 5.83e-9 at 0.199999999953, slope-error 2.17e-7 at 0.199999999953
  
  
  # AR Y
  # Y AR
  # r/nm energy/(kJ/mol) energy-error slope/(kJ/mol/nm) slope-error
  0.199999999953 5.000000001164 5.83e-9 -25.000000122469 2.17e-7
  0.899999999674 1.111111111473 2.89e-10 -1.234567902284 1.23e-9
  # greatest energy-error 5.83e-9 at 0.199999999953, slope-error 2.17e-7 at 0.199999999953
  
  
  # X X
  # r/nm energy/(kJ/mol) energy-error slope/(kJ/mol/nm) slope-error
  0.199999999953 5.000000001164 5.83e-9 -25.000000122469 2.17e-7
  0.899999999674 1.111111111473 2.89e-10 -1.234567902284 1.23e-9
  # greatest energy-error 5.83e-9 at 0.199999999953, slope-error 2.17e-7 at 0.199999999953
  
  
  # X Y
  # r/nm energy/(kJ/mol) energy-error slope/(kJ/mol/nm) slope-error
  0.199999999953 2.250000001164 5.83e-9 -25.000000122469 2.17e-7
  0.899999999674 -1.638888888527 2.89e-10 -1.234567902284 1.23e-9
  # greatest energy-error 5.83e-9 at 0.199999999953, slope-error 2.17e-7 at 0.199999999953
  
  
  # Y X
  # r/nm energy/(kJ/mol) energy-error slope/(kJ/mol/nm) slope-error
  0.199999999953 7.750000001164 5.83e-9 -25.000000122469 2.17e-7
  0.899999999674 3.861111111473 2.89e-10 -1.234567902284 1.23e-9
  # greatest energy-error 5.83e-9 at 0.199999999953, slope-error 2.17e-7 at 0.199999999953
  
  
  # Y Y
  # r/nm energy/(kJ/mol) energy-error slope/(kJ/mol/nm) slope-error
  0.199999999953 5.000000001164 5.83e-9 -25.000000122469 2.17e-7
  0.899999999674 1.111111111473 2.89e-10 -1.234567902284 1.23e-9
  # greatest energy-error 5.83e-9 at 0.199999999953, slope-error 2.17e-7 at 0.199999999953

The lines are compared as they are printed: the slope is the same for all pairs.

  $ pairmd curve three --points 1 --slope
  # AR AR
  # r/nm slope/(kJ/mol/nm) slope-error
  0.199999999953 -25.000000122469 2.17e-7
  0.899999999674 -1.234567902284 1.23e-9
  # greatest slope-error 2.17e-7 at 0.199999999953
  
  
  # AR X
  # X AR
  # r/nm slope/(kJ/mol/nm) slope-error
  0.199999999953 -25.000000122469 2.17e-7
  0.899999999674 -1.234567902284 1.23e-9
  # greatest slope-error 2.17e-7 at 0.199999999953
  
  
  # AR Y
  # Y AR
  # r/nm slope/(kJ/mol/nm) slope-error
  0.199999999953 -25.000000122469 2.17e-7
  0.899999999674 -1.234567902284 1.23e-9
  # greatest slope-error 2.17e-7 at 0.199999999953
  
  
  # X X
  # r/nm slope/(kJ/mol/nm) slope-error
  0.199999999953 -25.000000122469 2.17e-7
  0.899999999674 -1.234567902284 1.23e-9
  # greatest slope-error 2.17e-7 at 0.199999999953
  
  
  # X Y
  # Y X
  # r/nm slope/(kJ/mol/nm) slope-error
  0.199999999953 -25.000000122469 2.17e-7
  0.899999999674 -1.234567902284 1.23e-9
  # greatest slope-error 2.17e-7 at 0.199999999953
  
  
  # Y Y
  # r/nm slope/(kJ/mol/nm) slope-error
  0.199999999953 -25.000000122469 2.17e-7
  0.899999999674 -1.234567902284 1.23e-9
  # greatest slope-error 2.17e-7 at 0.199999999953
  $ pairmd curve three --points 1 --energy --types Y AR
  # Y AR
  # r/nm energy/(kJ/mol) energy-error
  0.199999999953 5.000000001164 5.83e-9
  0.899999999674 1.111111111473 2.89e-10
  # greatest energy-error 5.83e-9 at 0.199999999953

Without types there is no table.

  $ with job 7 '' pairmd curve job --points 1

## Columns

With `--energy` there are only the columns of the energy, with `--slope` only the columns of the slope. With both there
are all, as with neither.

  $ with job 2 'energy r^2' pairmd curve job --points 1 --energy
  # AR AR
  # r/nm energy/(kJ/mol) energy-error
  0.199999999953 0.039999999804 6.53e-10
  0.899999999674 0.809999999357 6.53e-10
  # greatest energy-error 6.53e-10 at 0.199999999953
  $ with job 2 'energy r^2' pairmd curve job --points 1 --slope
  # AR AR
  # r/nm slope/(kJ/mol/nm) slope-error
  0.199999999953 0.399999999907 4.66e-10
  0.899999999674 1.799999999348 4.66e-10
  # greatest slope-error 4.66e-10 at 0.199999999953
  $ with job 2 'energy r^2' pairmd curve --slope --energy job --points 1
  # AR AR
  # r/nm energy/(kJ/mol) energy-error slope/(kJ/mol/nm) slope-error
  0.199999999953 0.039999999804 6.53e-10 0.399999999907 4.66e-10
  0.899999999674 0.809999999357 6.53e-10 1.799999999348 4.66e-10
  # greatest energy-error 6.53e-10 at 0.199999999953, slope-error 4.66e-10 at 0.199999999953

A bound that isn't found is missing only in its own columns.

  $ with job 2 'energy 0.000001*r^-12' with job 3 'core 0.25' pairmd curve job --points 1 --energy
  # AR AR
  # r/nm energy/(kJ/mol) energy-error
  0.250000000000 16.777343750000 6.67e-2 # large energy-error
  0.899999999674 0.000003540656 2.08e-10
  # greatest energy-error 6.67e-2 at 0.250000000000
  $ with job 2 'energy 0.000001*r^-12' with job 3 'core 0.25' pairmd curve job --points 1 --slope
  # AR AR
  # r/nm slope/(kJ/mol/nm) slope-error
  0.250000000000 -805.312500000000 -
  0.899999999674 -0.000047209905 6.21e-10
  # no slope-error from 0.250000000000
  # greatest slope-error 6.21e-10 at 0.899999999674 (1 row without)

With more types, each table has these columns.

  $ pairmd curve mixture --points 1 --slope
  # AR AR
  # r/nm slope/(kJ/mol/nm) slope-error
  0.199999999953 75.000000366941 6.50e-7
  0.899999999674 3.703703706851 3.22e-9
  # greatest slope-error 6.50e-7 at 0.199999999953
  
  
  # AR X
  # r/nm slope/(kJ/mol/nm) slope-error
  0.199999999953 6.250000030734 5.44e-8
  0.899999999674 0.308641975746 4.83e-10
  # greatest slope-error 5.44e-8 at 0.199999999953
  
  
  # X AR
  # r/nm slope/(kJ/mol/nm) slope-error
  0.199999999953 75.000000366941 6.50e-7
  0.899999999674 3.703703706851 3.22e-9
  # greatest slope-error 6.50e-7 at 0.199999999953
  
  
  # X X
  # r/nm slope/(kJ/mol/nm) slope-error
  0.199999999953 6.250000030734 5.44e-8
  0.899999999674 0.308641975746 4.83e-10
  # greatest slope-error 5.44e-8 at 0.199999999953

The codes of both are verified whatever the columns. The slope of this energy has a value everywhere, the energy has
none.

  $ with job 2 'energy 2147483647+2147483647+r' pairmd curve job --slope
  pairmd: V2 Fault AR AR r 858993459 pc 2 F1 Overflow
  [3]
  $ with job 2 'energy select(step(r-0.5), 3, 1/(r-0.2)-1/(r-0.2))' pairmd curve job --energy
  pairmd: V2 Fault AR AR r 858993459 pc 19 F2 ZeroDivisor
  [3]

## The grid

`--grid` adds what a slope changes over a unit: 2^-32 times the second derivative, in error units, rounded up. Of 1/r it
is 2^-31 / r^3. The second derivative of r^2 is 2, and no spelling has a slope with a lesser bound.

  $ with job 2 'energy 1/r' pairmd curve job --points 4 --grid
  # AR AR
  # r/nm energy/(kJ/mol) energy-error slope/(kJ/mol/nm) slope-error slope-grid
  0.199999999953 5.000000001164 5.83e-9 -25.000000122469 2.17e-7 5.83e-8
  0.374999999767 2.666666668141 1.66e-9 -7.111111123115 2.19e-8 8.84e-9
  0.549999999814 1.818181818584 7.71e-10 -3.305785126751 5.80e-9 2.80e-9
  0.724999999627 1.379310345510 4.44e-10 -1.902497029863 2.45e-9 1.23e-9
  0.899999999674 1.111111111473 2.89e-10 -1.234567902284 1.23e-9 6.40e-10
  # greatest energy-error 5.83e-9 at 0.199999999953, slope-error 2.17e-7 at 0.199999999953
  $ with job 2 'energy r^2' pairmd curve job --points 1 --grid
  # AR AR
  # r/nm energy/(kJ/mol) energy-error slope/(kJ/mol/nm) slope-error slope-grid
  0.199999999953 0.039999999804 6.53e-10 0.399999999907 4.66e-10 4.66e-10
  0.899999999674 0.809999999357 6.53e-10 1.799999999348 4.66e-10 4.66e-10
  # greatest energy-error 6.53e-10 at 0.199999999953, slope-error 4.66e-10 at 0.199999999953
  $ with job 2 'energy r' pairmd curve job --points 1 --grid
  # AR AR
  # r/nm energy/(kJ/mol) energy-error slope/(kJ/mol/nm) slope-error slope-grid
  0.199999999953 0.199999999953 2.33e-10 1.000000000000 0 0
  0.899999999674 0.899999999674 2.33e-10 1.000000000000 0 0
  # greatest energy-error 2.33e-10 at 0.199999999953, slope-error 0 at 0.199999999953

Of a Lennard-Jones energy it is 2^-32 4.4 (156 0.34^12 / r^14 - 42 0.34^6 / r^8).

  $ with job 2 'energy 4*1.1*((0.34/r)^12-(0.34/r)^6)' pairmd curve job --points 2 --slope --grid
  # AR AR
  # r/nm slope/(kJ/mol/nm) slope-error slope-grid
  0.199999999953 -150626.112897295039 3.87e-3 2.31e-3
  0.549999999814 2.379793193890 4.37e-8 6.30e-9
  0.899999999674 0.084771071095 8.58e-9 1.53e-10
  # greatest slope-error 3.87e-3 at 0.199999999953

At a kink the second derivatives of both sides count. The marks follow. A jump of the slope isn't part of the grid's.

  $ with job 2 'energy abs(r-0.55)*r' pairmd curve job --points 2 --grid
  # AR AR
  # r/nm energy/(kJ/mol) energy-error slope/(kJ/mol/nm) slope-error slope-grid
  0.199999999953 0.069999999832 3.06e-10 0.150000000140 5.13e-10 4.66e-10
  0.549999999814 0.000000000000 5.67e-10 -0.549999999581 1.15e0 1.40e-9 # jump slope-error # large energy-error
  0.899999999674 0.314999999478 5.67e-10 1.249999999302 5.13e-10 4.66e-10
  # greatest energy-error 5.67e-10 at 0.549999999814, slope-error 1.15e0 at 0.549999999814
  $ with job 2 'energy abs(r-0.55)' pairmd curve job --points 2 --slope --grid
  # AR AR
  # r/nm slope/(kJ/mol/nm) slope-error slope-grid
  0.199999999953 -1.000000000000 0 0
  0.549999999814 -1.000000000000 2.00e0 0 # jump slope-error
  0.899999999674 1.000000000000 0 0
  # greatest slope-error 2.00e0 at 0.549999999814

The second derivative has no approximation if it has no value: (r - 0.1999)^4 is 0 at the core.

  $ with job 2 'energy 1e-4/(r-0.1999)' pairmd curve job --points 2 --grid
  # AR AR
  # r/nm energy/(kJ/mol) energy-error slope/(kJ/mol/nm) slope-error slope-grid
  0.199999999953 1.000000000000 1.88e-6 -10226.119047619170 2.56e2 - # large slope-error
  0.549999999814 0.000285632676 1.83e-10 -0.000815860927 7.56e-10 1.82e-12
  0.899999999674 0.000142836710 1.44e-10 -0.000204023672 3.64e-10 9.10e-13
  # greatest energy-error 1.88e-6 at 0.199999999953, slope-error 2.56e2 at 0.199999999953

At 40 bits a unit is a 256th.

  $ with job 6 'slices 64\nbits 40' with job 2 'energy 1/r' pairmd curve job --points 1 --slope --grid
  # AR AR
  # r/nm slope/(kJ/mol/nm) slope-error slope-grid
  0.19999999999982 -25.00000000059208 8.47e-10 2.28e-10
  0.89999999999873 -1.23456790123873 4.80e-12 2.50e-12
  # greatest slope-error 8.47e-10 at 0.19999999999982

The energy has no such column.

  $ with job 2 'energy 1/r' pairmd curve job --energy --grid
  error: the argument '--grid' cannot be used with '--energy'
  
  Usage: pairmd curve [OPTIONS] <JOB>
  
  For more information, try '--help'.
  [2]
  $ with job 2 'energy 1/r' pairmd curve job --grid --slope --energy
  error: the argument '--grid' cannot be used with '--energy'
  
  Usage: pairmd curve [OPTIONS] <JOB>
  
  For more information, try '--help'.
  [2]
## One pair of types

`--types A B` selects the table of A and B. A is the type of the atom with the lower number.

  $ pairmd curve mixture --points 1 --types AR X
  # AR X
  # r/nm energy/(kJ/mol) energy-error slope/(kJ/mol/nm) slope-error
  0.199999999953 0.249999999767 1.46e-9 6.250000030734 5.44e-8
  0.899999999674 1.222222222248 2.33e-10 0.308641975746 4.83e-10
  # greatest energy-error 1.46e-9 at 0.199999999953, slope-error 5.44e-8 at 0.199999999953
  $ pairmd curve --types X AR mixture --points 1
  # X AR
  # r/nm energy/(kJ/mol) energy-error slope/(kJ/mol/nm) slope-error
  0.199999999953 -14.875000003492 1.77e-8 75.000000366941 6.50e-7
  0.899999999674 -3.208333334420 1.10e-9 3.703703706851 3.22e-9
  # greatest energy-error 1.77e-8 at 0.199999999953, slope-error 6.50e-7 at 0.199999999953
  $ pairmd curve mixture --points 1 --types X X --energy
  # X X
  # r/nm energy/(kJ/mol) energy-error
  0.199999999953 -1.125000000233 1.69e-9
  0.899999999674 -0.152777777752 3.06e-10
  # greatest energy-error 1.69e-9 at 0.199999999953
  $ pairmd curve mixture --points 1 --slope --types X AR
  # X AR
  # r/nm slope/(kJ/mol/nm) slope-error
  0.199999999953 75.000000366941 6.50e-7
  0.899999999674 3.703703706851 3.22e-9
  # greatest slope-error 6.50e-7 at 0.199999999953

The first of 64 types and the last.

  $ printf 'pairmd job 1\nenergy q1\ncore 0.2\ncutoff 0.9\ndt 2\nparameter q\n' > top
  $ printf 'type A 1 1\ntype B 1 2\ntype C 1 3\ntype D 1 4\ntype E 1 5\ntype F 1 6\ntype G 1 7\ntype H 1 8\n' > one
  $ printf 'type a 1 11\ntype b 1 12\ntype c 1 13\ntype d 1 14\ntype e 1 15\ntype f 1 16\ntype g 1 17\ntype h 1 18\n' > two
  $ printf 'type A3 1 0\ntype B3 1 0\ntype C3 1 0\ntype D3 1 0\ntype E3 1 0\ntype F3 1 0\ntype G3 1 0\ntype H3 1 0\n' > three
  $ printf 'type A4 1 0\ntype B4 1 0\ntype C4 1 0\ntype D4 1 0\ntype E4 1 0\ntype F4 1 0\ntype G4 1 0\ntype H4 1 0\n' > four
  $ printf 'type A5 1 0\ntype B5 1 0\ntype C5 1 0\ntype D5 1 0\ntype E5 1 0\ntype F5 1 0\ntype G5 1 0\ntype H5 1 0\n' > five
  $ printf 'type A6 1 0\ntype B6 1 0\ntype C6 1 0\ntype D6 1 0\ntype E6 1 0\ntype F6 1 0\ntype G6 1 0\ntype H6 1 0\n' > six
  $ printf 'type A7 1 0\ntype B7 1 0\ntype C7 1 0\ntype D7 1 0\ntype E7 1 0\ntype F7 1 0\ntype G7 1 0\ntype H7 1 0\n' > seven
  $ printf 'type A8 1 0\ntype B8 1 0\ntype C8 1 0\ntype D8 1 0\ntype E8 1 0\ntype F8 1 0\ntype G8 1 0\ntype last! 1 64\n' > eight
  $ cat top one two three four five six seven eight > full
  $ pairmd curve full --points 1 --energy --types last! A
  # last! A
  # r/nm energy/(kJ/mol) energy-error
  0.199999999953 64.000000000000 0
  0.899999999674 64.000000000000 0
  # greatest energy-error 0 at 0.199999999953
  $ pairmd curve full --points 1 --energy --types A last!
  # A last!
  # r/nm energy/(kJ/mol) energy-error
  0.199999999953 1.000000000000 0
  0.899999999674 1.000000000000 0
  # greatest energy-error 0 at 0.199999999953
  $ pairmd curve full --points 1 --energy --types h b
  # h b
  # r/nm energy/(kJ/mol) energy-error
  0.199999999953 18.000000000000 0
  0.899999999674 18.000000000000 0
  # greatest energy-error 0 at 0.199999999953

The first name that is no type's is reported. Capitals and each byte count.

  $ pairmd curve mixture --types ar X
  pairmd: J6 NoSuchType ar
  [1]
  $ pairmd curve mixture --types X A
  pairmd: J6 NoSuchType A
  [1]
  $ pairmd curve mixture --types KR XE
  pairmd: J6 NoSuchType KR
  [1]
  $ pairmd curve mixture --types AR ARX
  pairmd: J6 NoSuchType ARX
  [1]
  $ pairmd curve mixture --types 'AR X' AR
  pairmd: J6 NoSuchType AR X
  [1]
  $ pairmd curve mixture --types AR ''
  pairmd: J6 NoSuchType 
  [1]
  $ with job 7 '' pairmd curve job --types AR AR
  pairmd: J6 NoSuchType AR
  [1]
  $ pairmd curve job --types AR KR
  pairmd: J6 NoSuchType KR
  [1]
  $ requests pairmd curve job --types AR KR
  pairmd: Memory [4]
  all

The names come after the job, and before its energy and codes.

  $ with job 1 'pairmd job 2' pairmd curve job --types KR AR
  pairmd: J1 BadLine 1
  [1]
  $ with job 7 'type AR 1\ntype AR 1' pairmd curve job --types KR AR
  pairmd: J5 RepeatedType AR
  [1]
  $ with job 2 'energy q' pairmd curve job --types KR AR
  pairmd: J6 NoSuchType KR
  [1]
  $ with job 2 'energy q' pairmd curve job --types AR AR
  pairmd: E04 UnknownName q
  [3]
  $ with job 2 'energy 1/(r-0.2)' pairmd curve job --types AR KR
  pairmd: J6 NoSuchType KR
  [1]
  $ with job 2 'energy 1/(r-0.2)' pairmd curve job --types AR AR
  pairmd: V2 Fault AR AR r 858993459 pc 12 F2 ZeroDivisor
  [3]
  $ pairmd curve missing --types KR AR
  pairmd: O1 CannotRead missing
  [5]

## Fraction bits

At 40 bits a unit is less than the twelfth decimal, so values have 14. A bound of one error unit, 2^-48, has three
digits too.

  $ with job 6 'slices 64\nbits 24' with job 2 'energy 1/r' pairmd curve job --points 1
  # AR AR
  # r/nm energy/(kJ/mol) energy-error slope/(kJ/mol/nm) slope-error
  0.199999988079 5.000000298023 1.50e-6 -25.000023901463 5.56e-5
  0.899999916553 1.111111164093 7.39e-8 -1.234568178654 3.15e-7
  # greatest energy-error 1.50e-6 at 0.199999988079, slope-error 5.56e-5 at 0.199999988079
  $ with job 6 'slices 64\nbits 40' with job 2 'energy 1/r' pairmd curve job --points 1
  # AR AR
  # r/nm energy/(kJ/mol) energy-error slope/(kJ/mol/nm) slope-error
  0.19999999999982 5.00000000000455 2.28e-11 -25.00000000059208 8.47e-10
  0.89999999999873 1.11111111111222 1.13e-12 -1.23456790123873 4.80e-12
  # greatest energy-error 2.28e-11 at 0.19999999999982, slope-error 8.47e-10 at 0.19999999999982
  $ with job 6 'slices 64\nbits 40' with job 2 'energy 0.500000000000001' pairmd curve job --points 1
  # AR AR
  # r/nm energy/(kJ/mol) energy-error slope/(kJ/mol/nm) slope-error
  0.19999999999982 0.50000000000000 3.56e-15 0.00000000000000 0
  0.89999999999873 0.50000000000000 3.56e-15 0.00000000000000 0
  # greatest energy-error 3.56e-15 at 0.19999999999982, slope-error 0 at 0.19999999999982
  $ with job 6 'slices 64\nbits 24' with job 3 'core 0' with job 2 'energy r^2-1' pairmd curve job --points 1
  # AR AR
  # r/nm energy/(kJ/mol) energy-error slope/(kJ/mol/nm) slope-error
  0.000000000000 -1.000000000000 1.67e-7 0.000000000000 1.20e-7 # large slope-error
  0.899999916553 -0.190000176430 1.67e-7 1.799999833107 1.20e-7
  # greatest energy-error 1.67e-7 at 0.000000000000, slope-error 1.20e-7 at 0.000000000000

## Refusals

The slope's code comes first, then the code of the energy itself.

  $ pairmd curve
  error: the following required arguments were not provided:
    <JOB>
  
  Usage: pairmd curve <JOB>
  
  For more information, try '--help'.
  [2]
  $ pairmd curve missing
  pairmd: O1 CannotRead missing
  [5]
  $ with job 1 'pairmd job 2' pairmd curve job
  pairmd: J1 BadLine 1
  [1]
  $ with job 2 'energy q' pairmd curve job
  pairmd: E04 UnknownName q
  [3]
  $ with job 2 'energy 1/(r-0.2)' pairmd curve job
  pairmd: V2 Fault AR AR r 858993459 pc 12 F2 ZeroDivisor
  [3]
  $ with job 2 'energy select(step(r-0.5), 3, 1/(r-0.2)-1/(r-0.2))' pairmd curve job
  pairmd: V2 Fault AR AR r 858993459 pc 19 F2 ZeroDivisor
  [3]
  $ with job 2 'energy 1000000*1000000*1000' pairmd curve job
  pairmd: V2 Fault AR AR r 858993459 pc 2 F1 Overflow
  [3]
