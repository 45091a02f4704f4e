# Steps under many energies

Single steps forward and back of two atoms at rest, 0.5 nm apart, under energies that use the whole language. The grid
coordinates were computed outside the program.

A repulsion, as a quotient and as a power.

  $ with job 2 'energy 1/r' returns pairmd run job state --steps 1
  pairmd state 1
  title two atoms
  step 1
  atoms 2
  box 200000 200000 200000
      1AR      AR 1073741824 0 0 1073707464 0 0
      1AR      AR 2147483648 0 0 2147518008 0 0
  $ with job 2 'energy r^-1' returns pairmd run job state --steps 1
  pairmd state 1
  title two atoms
  step 1
  atoms 2
  box 200000 200000 200000
      1AR      AR 1073741824 0 0 1073707464 0 0
      1AR      AR 2147483648 0 0 2147518008 0 0

Choices.

  $ with job 2 'energy select(step(r-0.5), 1/r, 0)' returns pairmd run job state --steps 1
  pairmd state 1
  title two atoms
  step 1
  atoms 2
  box 200000 200000 200000
      1AR      AR 1073741824 0 0 1073707464 0 0
      1AR      AR 2147483648 0 0 2147518008 0 0
  $ with job 2 'energy select(step(r-0.6), 1/r, 0)' returns pairmd run job state --steps 1
  pairmd state 1
  title two atoms
  step 1
  atoms 2
  box 200000 200000 200000
      1AR      AR 1073741824 0 0 1073741824 0 0
      1AR      AR 2147483648 0 0 2147483648 0 0
  $ with job 2 'energy min(1/r, 2)' returns pairmd run job state --steps 1
  pairmd state 1
  title two atoms
  step 1
  atoms 2
  box 200000 200000 200000
      1AR      AR 1073741824 0 0 1073707464 0 0
      1AR      AR 2147483648 0 0 2147518008 0 0
  $ with job 2 'energy min(2, 1/r)' returns pairmd run job state --steps 1
  pairmd state 1
  title two atoms
  step 1
  atoms 2
  box 200000 200000 200000
      1AR      AR 1073741824 0 0 1073741824 0 0
      1AR      AR 2147483648 0 0 2147483648 0 0
  $ with job 2 'energy max(1/r, 2)' returns pairmd run job state --steps 1
  pairmd state 1
  title two atoms
  step 1
  atoms 2
  box 200000 200000 200000
      1AR      AR 1073741824 0 0 1073707464 0 0
      1AR      AR 2147483648 0 0 2147518008 0 0
  $ with job 2 'energy abs(r-0.5)' returns pairmd run job state --steps 1
  pairmd state 1
  title two atoms
  step 1
  atoms 2
  box 200000 200000 200000
      1AR      AR 1073741824 0 0 1073750414 0 0
      1AR      AR 2147483648 0 0 2147475058 0 0

Roots and rounding to integers.

  $ with job 2 'energy sqrt(abs(-4))*r' returns pairmd run job state --steps 1
  pairmd state 1
  title two atoms
  step 1
  atoms 2
  box 200000 200000 200000
      1AR      AR 1073741824 0 0 1073759004 0 0
      1AR      AR 2147483648 0 0 2147466468 0 0
  $ with job 2 'energy floor(4*r)/r' returns pairmd run job state --steps 1
  pairmd state 1
  title two atoms
  step 1
  atoms 2
  box 200000 200000 200000
      1AR      AR 1073741824 0 0 1073673105 0 0
      1AR      AR 2147483648 0 0 2147552367 0 0
  $ with job 2 'energy floor(r)' returns pairmd run job state --steps 1
  pairmd state 1
  title two atoms
  step 1
  atoms 2
  box 200000 200000 200000
      1AR      AR 1073741824 0 0 1073741824 0 0
      1AR      AR 2147483648 0 0 2147483648 0 0
  $ with job 2 'energy ceil(r)*r' returns pairmd run job state --steps 1
  pairmd state 1
  title two atoms
  step 1
  atoms 2
  box 200000 200000 200000
      1AR      AR 1073741824 0 0 1073750414 0 0
      1AR      AR 2147483648 0 0 2147475058 0 0
  $ with job 2 'energy delta(r-0.5)*r' returns pairmd run job state --steps 1
  pairmd state 1
  title two atoms
  step 1
  atoms 2
  box 200000 200000 200000
      1AR      AR 1073741824 0 0 1073750414 0 0
      1AR      AR 2147483648 0 0 2147475058 0 0

Sums and products.

  $ with job 2 'energy 1/r^2+r^3' returns pairmd run job state --steps 1
  pairmd state 1
  title two atoms
  step 1
  atoms 2
  box 200000 200000 200000
      1AR      AR 1073741824 0 0 1073610827 0 0
      1AR      AR 2147483648 0 0 2147614645 0 0
  $ with job 2 'energy min(r^2,r)*max(r,0.25)' returns pairmd run job state --steps 1
  pairmd state 1
  title two atoms
  step 1
  atoms 2
  box 200000 200000 200000
      1AR      AR 1073741824 0 0 1073748266 0 0
      1AR      AR 2147483648 0 0 2147477206 0 0

Definitions: one without a value, which the derivative doesn't need, and twenty, each twice the next.

  $ with job 2 'energy 1/r+a; a=2000000000+2000000000' returns pairmd run job state --steps 1
  pairmd state 1
  title two atoms
  step 1
  atoms 2
  box 200000 200000 200000
      1AR      AR 1073741824 0 0 1073707464 0 0
      1AR      AR 2147483648 0 0 2147518008 0 0
  $ with job 2 'energy a1; a1=a2+a2; a2=a3+a3; a3=a4+a4; a4=a5+a5; a5=a6+a6; a6=a7+a7; a7=a8+a8; a8=a9+a9; a9=a10+a10; a10=a11+a11; a11=a12+a12; a12=a13+a13; a13=a14+a14; a14=a15+a15; a15=a16+a16; a16=a17+a17; a17=a18+a18; a18=a19+a19; a19=a20+a20; a20=r' returns pairmd run job state --steps 1
  pairmd state 1
  title two atoms
  step 1
  atoms 2
  box 200000 200000 200000
      1AR      AR 1073741824 0 0 1282374155 0 0
      1AR      AR 2147483648 0 0 1938851317 0 0

A spring whose constant is half the difference of the charges: the first particle's charge minus the second's.

  $ cat > charged << END
  > pairmd job 1
  > energy a*r^2; a=k*(q1-q2)
  > core 0.2
  > cutoff 0.9
  > dt 2
  > global k 0.5
  > parameter q
  > type AR 1 1010
  > type X 1 10
  > END
  $ with state 7 '    1AR       X 2147483648 0 0 2147483648 0 0' returns pairmd run charged state --steps 1
  pairmd state 1
  title two atoms
  step 1
  atoms 2
  box 200000 200000 200000
      1AR      AR 1073741824 0 0 1078036791 0 0
      1AR       X 2147483648 0 0 2143188681 0 0
  $ with state 6 '    1AR       X 1073741824 0 0 1073741824 0 0' returns pairmd run charged state --steps 1
  pairmd state 1
  title two atoms
  step 1
  atoms 2
  box 200000 200000 200000
      1AR       X 1073741824 0 0 1069446857 0 0
      1AR      AR 2147483648 0 0 2151778615 0 0

A Lennard-Jones energy with parameters mixed by the Lorentz-Berthelot rules. The second type has no well.

  $ cat > lennard_jones << END
  > pairmd job 1
  > energy 4*epsilon*((sigma/r)^12-(sigma/r)^6); sigma=0.5*(sigma1+sigma2); epsilon=sqrt(epsilon1*epsilon2)
  > core 0.2
  > cutoff 0.9
  > dt 2
  > parameter sigma
  > parameter epsilon
  > type AR 39.948 0.34 0.996
  > type X 1 0.3 0
  > END
  $ returns pairmd run lennard_jones state --steps 1
  pairmd state 1
  title two atoms
  step 1
  atoms 2
  box 200000 200000 200000
      1AR      AR 1073741824 0 0 1073742639 0 0
      1AR      AR 2147483648 0 0 2147482833 0 0
  $ with state 7 '    1AR       X 2147483648 0 0 2147483648 0 0' returns pairmd run lennard_jones state --steps 1
  pairmd state 1
  title two atoms
  step 1
  atoms 2
  box 200000 200000 200000
      1AR      AR 1073741824 0 0 1073741824 0 0
      1AR       X 2147483648 0 0 2147483648 0 0

The code of the derivative of `1/r`: a constant divided by a variable.

  $ pairmd code job
  pairmd code 1
  push 4294967296
  push 4294967296
  mul
  neg
  input 0
  keep 0
  get 0
  sq
  div
  $ with job 2 'energy 1/x' pairmd code job
  pairmd: E04 UnknownName x
  [3]

The derivative of the distance is 1. A job without types has code too.

  $ cat > plain << END
  > pairmd job 1
  > energy r
  > core 0.2
  > cutoff 0.9
  > dt 2
  > END
  $ pairmd code plain
  pairmd code 1
  push 4294967296
  $ with plain 2 'energy q' pairmd code plain
  pairmd: E04 UnknownName q
  [3]
