# Texts of energies: accepted and rejected

The type parameter q is 3 for the first particle and 1 for the second; the global k is 0.5. Both atoms have the same
position, so their distance is raised to the core 1.5, which is 6442450944 in units of 2^-32. The printed value shows
how the text was parsed.

  $ cat > charges << END
  > pairmd job 1
  > energy r
  > parameter q
  > global k 0.5
  > core 1.5
  > cutoff 1.5000000002
  > dt 2
  > type A 1 3
  > type B 1 1
  > END
  $ cat > pair << END
  > pairmd state 1
  > title a pair
  > step 0
  > atoms 2
  > box 1600000 1600000 1600000
  >     1A        A 0 0 0 0 0 0
  >     1B        B 0 0 0 0 0 0
  > END

## Accepted texts

Differences group to the left. A leading minus binds tighter than a product or quotient, and a power binds tighter than
the minus. Exponents are integers from -32 to 32, with or without parentheses.

  $ with charges 2 'energy 2-3-4' pairmd energy charges pair
  energy -21474836480
  $ with charges 2 'energy -2147483647*.5/(r - 5.e-1)\r\t' pairmd energy charges pair
  energy -4611686016279904256
  $ with charges 2 'energy r^32' pairmd energy charges pair
  energy 1853020188851841
  $ with charges 2 'energy r^02' pairmd energy charges pair
  energy 9663676416
  $ with charges 2 'energy r^-32' pairmd energy charges pair
  energy 9954
  $ with charges 2 'energy r^(2)' pairmd energy charges pair
  energy 9663676416
  $ with charges 2 'energy r^( - 2)' pairmd energy charges pair
  energy 1908874353
  $ with charges 2 'energy -r^2*3^-1' pairmd energy charges pair
  energy -3221225472
  $ with charges 2 'energy select(step(r - 0.5), min(r, 1), max(r, 2)) + abs(floor(ceil(delta(sqrt(r)))))' pairmd energy charges pair
  energy 4294967296
  $ with charges 2 'energy 2-3-r' pairmd energy charges pair
  energy -10737418240
  $ with charges 2 'energy -0.3*0.3' pairmd energy charges pair
  energy -386547057
  $ with charges 2 'energy -0.3*0.3+0.3*0.3' pairmd energy charges pair
  energy -1
  $ with charges 2 'energy -r/7' pairmd energy charges pair
  energy -920350135
  $ with charges 2 'energy -(r/7)' pairmd energy charges pair
  energy -920350134

## Tokens

  $ with charges 2 'energy 1 + $' pairmd check charges
  pairmd: E01 BadCharacter 4
  [3]
  $ with charges 2 'energy 1 + \xff' pairmd check charges
  pairmd: E01 BadCharacter 4
  [3]
  $ with charges 2 'energy 3e9 $' pairmd check charges
  pairmd: E07 NumberRange 0
  [3]
  $ with charges 2 'energy r r .' pairmd check charges
  pairmd: E02 BadNumber 4
  [3]
  $ with charges 2 'energy 1e5.' pairmd check charges
  pairmd: E02 BadNumber 3
  [3]
  $ with charges 2 'energy 1.0e5.5' pairmd check charges
  pairmd: E02 BadNumber 0
  [3]
  $ with charges 2 'energy 1.2.3' pairmd check charges
  pairmd: E02 BadNumber 0
  [3]
  $ with charges 2 'energy r+1e+' pairmd check charges
  pairmd: E02 BadNumber 2
  [3]
  $ with charges 2 'energy 1e5e' pairmd check charges
  pairmd: E02 BadNumber 0
  [3]
  $ with charges 2 'energy 1e100' pairmd check charges
  pairmd: E02 BadNumber 0
  [3]
  $ with charges 2 'energy 1234567890123456789' pairmd check charges
  pairmd: E02 BadNumber 0
  [3]
  $ with charges 2 'energy r^99999999999999' pairmd check charges
  pairmd: E07 NumberRange 2
  [3]
  $ with charges 2 'energy 2147483648' pairmd check charges
  pairmd: E07 NumberRange 0
  [3]
  $ with charges 2 'energy -2147483648' pairmd check charges
  pairmd: E07 NumberRange 1
  [3]

## Grammar

The error of a text that ends too early is at its end.

  $ with charges 2 'energy \r\r' pairmd check charges
  pairmd: E03 UnexpectedToken 1
  [3]
  $ with charges 2 'energy 1e5.5' pairmd check charges
  pairmd: E03 UnexpectedToken 3
  [3]
  $ with charges 2 'energy 1e5e3' pairmd check charges
  pairmd: E03 UnexpectedToken 3
  [3]
  $ with charges 2 'energy 1 + ' pairmd check charges
  pairmd: E03 UnexpectedToken 4
  [3]
  $ with charges 2 'energy (r' pairmd check charges
  pairmd: E03 UnexpectedToken 2
  [3]
  $ with charges 2 'energy r)' pairmd check charges
  pairmd: E03 UnexpectedToken 1
  [3]
  $ with charges 2 'energy r, r' pairmd check charges
  pairmd: E03 UnexpectedToken 1
  [3]
  $ with charges 2 'energy r = 1' pairmd check charges
  pairmd: E03 UnexpectedToken 2
  [3]
  $ with charges 2 'energy +r' pairmd check charges
  pairmd: E03 UnexpectedToken 0
  [3]
  $ with charges 2 'energy b + )' pairmd check charges
  pairmd: E03 UnexpectedToken 4
  [3]
  $ with charges 2 'energy r^2^3' pairmd check charges
  pairmd: E03 UnexpectedToken 3
  [3]
  $ with charges 2 'energy r^(2' pairmd check charges
  pairmd: E03 UnexpectedToken 4
  [3]
  $ with charges 2 'energy r^(2 r' pairmd check charges
  pairmd: E03 UnexpectedToken 5
  [3]
  $ with charges 2 'energy r^(2)(r)' pairmd check charges
  pairmd: E03 UnexpectedToken 5
  [3]
  $ with charges 2 'energy min(1,)' pairmd check charges
  pairmd: E03 UnexpectedToken 6
  [3]
  $ with charges 2 'energy min(1,2,3 4)' pairmd check charges
  pairmd: E03 UnexpectedToken 10
  [3]
  $ with charges 2 'energy min(1,2' pairmd check charges
  pairmd: E03 UnexpectedToken 7
  [3]

## Exponents

  $ with charges 2 'energy r^33' pairmd check charges
  pairmd: E06 BadExponent 1
  [3]
  $ with charges 2 'energy r^1.5' pairmd check charges
  pairmd: E06 BadExponent 1
  [3]
  $ with charges 2 'energy r^2.0' pairmd check charges
  pairmd: E06 BadExponent 1
  [3]
  $ with charges 2 'energy r^2e0' pairmd check charges
  pairmd: E06 BadExponent 1
  [3]
  $ with charges 2 'energy 1+r ^ 0' pairmd check charges
  pairmd: E06 BadExponent 4
  [3]
  $ with charges 2 'energy r^' pairmd check charges
  pairmd: E06 BadExponent 1
  [3]
  $ with charges 2 'energy r^r' pairmd check charges
  pairmd: E06 BadExponent 1
  [3]
  $ with charges 2 'energy r^()' pairmd check charges
  pairmd: E06 BadExponent 1
  [3]
  $ with charges 2 'energy r^--2' pairmd check charges
  pairmd: E06 BadExponent 1
  [3]
  $ with charges 2 'energy r^99999999' pairmd check charges
  pairmd: E06 BadExponent 1
  [3]
  $ with charges 2 'energy r^+2' pairmd check charges
  pairmd: E06 BadExponent 1
  [3]

## Functions and their arguments

  $ with charges 2 'energy min(r)' pairmd check charges
  pairmd: E05 WrongArgumentCount min
  [3]
  $ with charges 2 'energy sqrt()' pairmd check charges
  pairmd: E05 WrongArgumentCount sqrt
  [3]
  $ with charges 2 'energy sqrt(r, r)' pairmd check charges
  pairmd: E05 WrongArgumentCount sqrt
  [3]
  $ with charges 2 'energy max(1, 2, 3)' pairmd check charges
  pairmd: E05 WrongArgumentCount max
  [3]
  $ with charges 2 'energy select(1, 2)' pairmd check charges
  pairmd: E05 WrongArgumentCount select
  [3]
  $ with charges 2 'energy select(1, 2, 3, 4, 5)' pairmd check charges
  pairmd: E05 WrongArgumentCount select
  [3]
  $ with charges 2 'energy delta(r, r)' pairmd check charges
  pairmd: E05 WrongArgumentCount delta
  [3]
  $ with charges 2 'energy exp(r)' pairmd check charges
  pairmd: E11 LeftOutFunction exp
  [3]
  $ with charges 2 'energy 1 + (atan2(r))' pairmd check charges
  pairmd: E11 LeftOutFunction atan2
  [3]
  $ with charges 2 'energy b + erfc(r)' pairmd check charges
  pairmd: E11 LeftOutFunction erfc
  [3]
  $ with charges 2 'energy sqrt(tan(' pairmd check charges
  pairmd: E11 LeftOutFunction tan
  [3]

## Names

  $ with charges 2 'energy 2*b + c' pairmd check charges
  pairmd: E04 UnknownName b
  [3]
  $ with charges 2 'energy sqrt' pairmd check charges
  pairmd: E04 UnknownName sqrt
  [3]
  $ with charges 2 'energy foo(r)' pairmd check charges
  pairmd: E04 UnknownName foo
  [3]
  $ with charges 2 'energy r(2)' pairmd check charges
  pairmd: E04 UnknownName r
  [3]
  $ with charges 2 'energy atan2' pairmd check charges
  pairmd: E04 UnknownName atan2
  [3]
