# Definitions and names of energies

The type parameter q is 3 for the first particle and 1 for the second; the global k is 0.5. Both atoms have the same
position, so their distance is raised to the core 1.5, which is 6442450944 in units of 2^-32. The printed value shows
how the text was parsed.

  $ cat > charges << END
  > pairmd job 1
  > energy r
  > parameter q
  > global k 0.5
  > core 1.5
  > cutoff 1.5000000002
  > dt 2
  > type A 1 3
  > type B 1 1
  > END
  $ cat > pair << END
  > pairmd state 1
  > title a pair
  > step 0
  > atoms 2
  > box 1600000 1600000 1600000
  >     1A        A 0 0 0 0 0 0
  >     1B        B 0 0 0 0 0 0
  > END

## Accepted texts

A definition that isn't used is parsed and checked, but not computed.

  $ with charges 2 'energy a*r^2; a=k*(q1-q2)' pairmd energy charges pair
  energy 9663676416
  $ with charges 2 'energy a+b; b=2*a; a=3' pairmd energy charges pair
  energy 38654705664
  $ with charges 2 'energy r;' pairmd energy charges pair
  energy 6442450944
  $ with charges 2 'energy r; ;;a=1; ;' pairmd energy charges pair
  energy 6442450944
  $ with charges 2 'energy q; q=2' pairmd energy charges pair
  energy 8589934592
  $ with charges 2 'energy r; q1q=1; p1=2' pairmd energy charges pair
  energy 6442450944
  $ with charges 2 'energy r; a=b; b=1' pairmd energy charges pair
  energy 6442450944
  $ with charges 2 'energy r; a=1/0' pairmd energy charges pair
  energy 6442450944
  $ with charges 2 'energy b+k; a=q2; b=a2; a2=1' pairmd energy charges pair
  energy 6442450944
  $ with charges 2 'energy r; R=1; r1=2; exp2=3; _=4' pairmd energy charges pair
  energy 6442450944

## Tokens, grammar, exponents and functions

  $ with charges 2 'energy ;' pairmd check charges
  pairmd: E03 UnexpectedToken 0
  [3]
  $ with charges 2 'energy ; a=1' pairmd check charges
  pairmd: E03 UnexpectedToken 0
  [3]
  $ with charges 2 'energy 1+; a=1' pairmd check charges
  pairmd: E03 UnexpectedToken 2
  [3]
  $ with charges 2 'energy (r; a=1' pairmd check charges
  pairmd: E03 UnexpectedToken 2
  [3]
  $ with charges 2 'energy min(1;2)' pairmd check charges
  pairmd: E03 UnexpectedToken 5
  [3]
  $ with charges 2 'energy r; a=' pairmd check charges
  pairmd: E03 UnexpectedToken 5
  [3]
  $ with charges 2 'energy r; a=;b=1' pairmd check charges
  pairmd: E03 UnexpectedToken 5
  [3]
  $ with charges 2 'energy r; a' pairmd check charges
  pairmd: E03 UnexpectedToken 4
  [3]
  $ with charges 2 'energy r; a b=1' pairmd check charges
  pairmd: E03 UnexpectedToken 5
  [3]
  $ with charges 2 'energy r; f(x)=1' pairmd check charges
  pairmd: E03 UnexpectedToken 4
  [3]
  $ with charges 2 'energy r; 1' pairmd check charges
  pairmd: E03 UnexpectedToken 3
  [3]
  $ with charges 2 'energy r; =1' pairmd check charges
  pairmd: E03 UnexpectedToken 3
  [3]
  $ with charges 2 'energy r; a=1 b=2' pairmd check charges
  pairmd: E03 UnexpectedToken 7
  [3]
  $ with charges 2 'energy r; a=1=2' pairmd check charges
  pairmd: E03 UnexpectedToken 6
  [3]
  $ with charges 2 'energy r; r=1; a=1; a=2; +' pairmd check charges
  pairmd: E03 UnexpectedToken 18
  [3]
  $ with charges 2 'energy r^; a=1' pairmd check charges
  pairmd: E06 BadExponent 1
  [3]
  $ with charges 2 'energy r; a=r^33' pairmd check charges
  pairmd: E06 BadExponent 6
  [3]
  $ with charges 2 'energy r; a=min(r)' pairmd check charges
  pairmd: E05 WrongArgumentCount min
  [3]
  $ with charges 2 'energy r; a=exp(r)' pairmd check charges
  pairmd: E11 LeftOutFunction exp
  [3]
  $ with charges 2 'energy r; a=$' pairmd check charges
  pairmd: E01 BadCharacter 5
  [3]

## Unknown names

A definition may use only definitions to its right. Variables and definitions can't be called, and case matters.

  $ with charges 2 'energy a(2); a=1' pairmd check charges
  pairmd: E04 UnknownName a
  [3]
  $ with charges 2 'energy q1(2)' pairmd check charges
  pairmd: E04 UnknownName q1
  [3]
  $ with charges 2 'energy q' pairmd check charges
  pairmd: E04 UnknownName q
  [3]
  $ with charges 2 'energy a; a=a' pairmd check charges
  pairmd: E04 UnknownName a
  [3]
  $ with charges 2 'energy a; b=1; a=b' pairmd check charges
  pairmd: E04 UnknownName b
  [3]
  $ with charges 2 'energy c; a=d' pairmd check charges
  pairmd: E04 UnknownName c
  [3]
  $ with charges 2 'energy r; a=d; b=c' pairmd check charges
  pairmd: E04 UnknownName d
  [3]
  $ with charges 2 'energy eps' pairmd check charges
  pairmd: E04 UnknownName eps
  [3]
  $ with charges 2 'energy R' pairmd check charges
  pairmd: E04 UnknownName R
  [3]
  $ with job 2 'energy r1' pairmd check job
  pairmd: E04 UnknownName r1
  [3]

## Reserved and repeated names

The names of variables and functions are reserved, including the names of unsupported functions. The error names the
first definition from the left whose name is reserved (E09) or already defined (E08).

  $ with charges 2 'energy r; r=1' pairmd check charges
  pairmd: E09 ReservedName r
  [3]
  $ with charges 2 'energy r; sqrt=1' pairmd check charges
  pairmd: E09 ReservedName sqrt
  [3]
  $ with charges 2 'energy r; atan2=1' pairmd check charges
  pairmd: E09 ReservedName atan2
  [3]
  $ with charges 2 'energy r; q1=1' pairmd check charges
  pairmd: E09 ReservedName q1
  [3]
  $ with charges 2 'energy r; k=1; k=2' pairmd check charges
  pairmd: E09 ReservedName k
  [3]
  $ with charges 2 'energy r; a=1; a=2' pairmd check charges
  pairmd: E08 RepeatedDefinition a
  [3]
  $ with charges 2 'energy b; a=1; a=2; r=3' pairmd check charges
  pairmd: E08 RepeatedDefinition a
  [3]
  $ with charges 2 'energy b; r=1; a=1; a=2' pairmd check charges
  pairmd: E09 ReservedName r
  [3]
  $ with charges 2 'energy r; max=1' pairmd check charges
  pairmd: E09 ReservedName max
  [3]
  $ with charges 2 'energy r; exp=1' pairmd check charges
  pairmd: E09 ReservedName exp
  [3]

## Variables of a job

A parameter defines two variables, one per particle. A variable's name must be neither reserved nor the name of another
variable. Parameters are checked before globals.

  $ cat > clash << END
  > pairmd job 1
  > energy r
  > parameter q
  > global g 1
  > global h 1
  > core 0.2
  > cutoff 0.9
  > dt 2
  > type AR 1 1
  > END
  $ with clash 3 'parameter atan' with clash 4 'global r 1' pairmd check clash
  pairmd: E09 ReservedName atan2
  [3]
  $ with clash 5 'global q2 1\nglobal r 1' with clash 4 'global q 1' pairmd check clash
  pairmd: E09 ReservedName q2
  [3]
  $ with clash 4 'global r 1' with clash 5 'global q2 1' pairmd check clash
  pairmd: E09 ReservedName r
  [3]
  $ with clash 4 'global erfc 1' pairmd check clash
  pairmd: E09 ReservedName erfc
  [3]
  $ with clash 4 'global select 1' pairmd check clash
  pairmd: E09 ReservedName select
  [3]
  $ with clash 4 'global q 1' pairmd check clash
  accepted: steps 1, bound 4294967296

The distance is input 0. Then come the parameters of the first particle, of the second particle, and the globals, each
in the job's order.

  $ cat > named << END
  > pairmd job 1
  > energy r*sigma1 + r*eps1 + r*sigma2 + r*eps2 + r*cutoff + r*sigma
  > parameter sigma
  > parameter eps
  > global cutoff 0.9
  > global sigma 0.5
  > core 0.2
  > cutoff 0.9
  > dt 2
  > type AR 1 0.3 0.9
  > END
  $ pairmd code named
  pairmd code 1
  push 4294967296
  input 1
  mul
  push 4294967296
  input 2
  mul
  add
  push 4294967296
  input 3
  mul
  add
  push 4294967296
  input 4
  mul
  add
  push 4294967296
  input 5
  mul
  add
  push 4294967296
  input 6
  mul
  add
  $ with named 2 'energy r*eps' pairmd code named
  pairmd: E04 UnknownName eps
  [3]

A job has at most 8 parameters and 16 globals, so at most 33 inputs.

  $ cat > many << END
  > pairmd job 1
  > energy r*h2 + r*p
  > parameter a
  > parameter b
  > parameter c
  > parameter d
  > parameter e
  > parameter f
  > parameter g
  > parameter h
  > global a 1
  > global b 1
  > global c 1
  > global d 1
  > global e 1
  > global f 1
  > global g 1
  > global h 1
  > global i 1
  > global j 1
  > global k 1
  > global l 1
  > global m 1
  > global n 1
  > global o 1
  > global p 1
  > core 0.2
  > cutoff 0.9
  > dt 2
  > type AR 1 1 2 3 4 5 6 7 8
  > END
  $ pairmd code many
  pairmd code 1
  push 4294967296
  input 16
  mul
  push 4294967296
  input 32
  mul
  add
