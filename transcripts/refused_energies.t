# Rejected energies

Energies that `run` and `back` reject, with any number of workers. A rejected energy ends with status 3.

Tokens.

  $ with job 2 'energy 1 + $' workers pairmd run job state --steps 0
  pairmd: E01 BadCharacter 4
  [3]
  $ with job 2 'energy 1 + $' workers pairmd back job state --steps 0
  pairmd: E01 BadCharacter 4
  [3]
  $ with job 2 'energy 1.2.3*r' workers pairmd run job state --steps 0
  pairmd: E02 BadNumber 0
  [3]
  $ with job 2 'energy 1.2.3*r' workers pairmd back job state --steps 0
  pairmd: E02 BadNumber 0
  [3]
  $ with job 2 'energy 2147483648*r' workers pairmd run job state --steps 0
  pairmd: E07 NumberRange 0
  [3]
  $ with job 2 'energy 2147483648*r' workers pairmd back job state --steps 0
  pairmd: E07 NumberRange 0
  [3]
  $ with job 2 'energy 3e9*r' workers pairmd run job state --steps 0
  pairmd: E07 NumberRange 0
  [3]
  $ with job 2 'energy 3e9*r' workers pairmd back job state --steps 0
  pairmd: E07 NumberRange 0
  [3]
  $ with job 2 'energy r*3e9' workers pairmd run job state --steps 0
  pairmd: E07 NumberRange 2
  [3]
  $ with job 2 'energy r*3e9' workers pairmd back job state --steps 0
  pairmd: E07 NumberRange 2
  [3]

The grammar: the text ends too early, or no rule accepts the token.

  $ with job 2 'energy 1 +' workers pairmd run job state --steps 0
  pairmd: E03 UnexpectedToken 3
  [3]
  $ with job 2 'energy 1 +' workers pairmd back job state --steps 0
  pairmd: E03 UnexpectedToken 3
  [3]
  $ with job 2 'energy (r' workers pairmd run job state --steps 0
  pairmd: E03 UnexpectedToken 2
  [3]
  $ with job 2 'energy (r' workers pairmd back job state --steps 0
  pairmd: E03 UnexpectedToken 2
  [3]
  $ with job 2 'energy +r' workers pairmd run job state --steps 0
  pairmd: E03 UnexpectedToken 0
  [3]
  $ with job 2 'energy +r' workers pairmd back job state --steps 0
  pairmd: E03 UnexpectedToken 0
  [3]
  $ with job 2 'energy r^2^3' workers pairmd run job state --steps 0
  pairmd: E03 UnexpectedToken 3
  [3]
  $ with job 2 'energy r^2^3' workers pairmd back job state --steps 0
  pairmd: E03 UnexpectedToken 3
  [3]
  $ with job 2 'energy r; f(r)=1' workers pairmd run job state --steps 0
  pairmd: E03 UnexpectedToken 4
  [3]
  $ with job 2 'energy r; f(r)=1' workers pairmd back job state --steps 0
  pairmd: E03 UnexpectedToken 4
  [3]
  $ with job 2 'energy 1+; a=1' workers pairmd run job state --steps 0
  pairmd: E03 UnexpectedToken 2
  [3]
  $ with job 2 'energy 1+; a=1' workers pairmd back job state --steps 0
  pairmd: E03 UnexpectedToken 2
  [3]
  $ with job 2 'energy b; a=1 2' workers pairmd run job state --steps 0
  pairmd: E03 UnexpectedToken 7
  [3]
  $ with job 2 'energy b; a=1 2' workers pairmd back job state --steps 0
  pairmd: E03 UnexpectedToken 7
  [3]

Exponents.

  $ with job 2 'energy r^33' workers pairmd run job state --steps 0
  pairmd: E06 BadExponent 1
  [3]
  $ with job 2 'energy r^33' workers pairmd back job state --steps 0
  pairmd: E06 BadExponent 1
  [3]
  $ with job 2 'energy r^1.5' workers pairmd run job state --steps 0
  pairmd: E06 BadExponent 1
  [3]
  $ with job 2 'energy r^1.5' workers pairmd back job state --steps 0
  pairmd: E06 BadExponent 1
  [3]
  $ with job 2 'energy r^0' workers pairmd run job state --steps 0
  pairmd: E06 BadExponent 1
  [3]
  $ with job 2 'energy r^0' workers pairmd back job state --steps 0
  pairmd: E06 BadExponent 1
  [3]
  $ with job 2 'energy r^r' workers pairmd run job state --steps 0
  pairmd: E06 BadExponent 1
  [3]
  $ with job 2 'energy r^r' workers pairmd back job state --steps 0
  pairmd: E06 BadExponent 1
  [3]
  $ with job 2 'energy r^33; a' workers pairmd run job state --steps 0
  pairmd: E06 BadExponent 1
  [3]
  $ with job 2 'energy r^33; a' workers pairmd back job state --steps 0
  pairmd: E06 BadExponent 1
  [3]

One minus sign too many.

  $ with job 2 'energy -----------------------------------------------------------------r' workers pairmd run job state --steps 0
  pairmd: E10 TooLarge
  [3]
  $ with job 2 'energy -----------------------------------------------------------------r' workers pairmd back job state --steps 0
  pairmd: E10 TooLarge
  [3]

Functions.

  $ with job 2 'energy min(r)' workers pairmd run job state --steps 0
  pairmd: E05 WrongArgumentCount min
  [3]
  $ with job 2 'energy min(r)' workers pairmd back job state --steps 0
  pairmd: E05 WrongArgumentCount min
  [3]
  $ with job 2 'energy select(r, 1)' workers pairmd run job state --steps 0
  pairmd: E05 WrongArgumentCount select
  [3]
  $ with job 2 'energy select(r, 1)' workers pairmd back job state --steps 0
  pairmd: E05 WrongArgumentCount select
  [3]
  $ with job 2 'energy delta()' workers pairmd run job state --steps 0
  pairmd: E05 WrongArgumentCount delta
  [3]
  $ with job 2 'energy delta()' workers pairmd back job state --steps 0
  pairmd: E05 WrongArgumentCount delta
  [3]
  $ with job 2 'energy exp(r)' workers pairmd run job state --steps 0
  pairmd: E11 LeftOutFunction exp
  [3]
  $ with job 2 'energy exp(r)' workers pairmd back job state --steps 0
  pairmd: E11 LeftOutFunction exp
  [3]
  $ with job 2 'energy 1 + erfc(r)' workers pairmd run job state --steps 0
  pairmd: E11 LeftOutFunction erfc
  [3]
  $ with job 2 'energy 1 + erfc(r)' workers pairmd back job state --steps 0
  pairmd: E11 LeftOutFunction erfc
  [3]
  $ with job 2 'energy select(r, sin(r))' workers pairmd run job state --steps 0
  pairmd: E11 LeftOutFunction sin
  [3]
  $ with job 2 'energy select(r, sin(r))' workers pairmd back job state --steps 0
  pairmd: E11 LeftOutFunction sin
  [3]

Unknown names.

  $ with job 2 'energy 2*b + c' workers pairmd run job state --steps 0
  pairmd: E04 UnknownName b
  [3]
  $ with job 2 'energy 2*b + c' workers pairmd back job state --steps 0
  pairmd: E04 UnknownName b
  [3]
  $ with job 2 'energy a; b=1; a=b' workers pairmd run job state --steps 0
  pairmd: E04 UnknownName b
  [3]
  $ with job 2 'energy a; b=1; a=b' workers pairmd back job state --steps 0
  pairmd: E04 UnknownName b
  [3]
  $ with job 2 'energy a(2); a=1' workers pairmd run job state --steps 0
  pairmd: E04 UnknownName a
  [3]
  $ with job 2 'energy a(2); a=1' workers pairmd back job state --steps 0
  pairmd: E04 UnknownName a
  [3]
  $ with job 2 'energy sqrt' workers pairmd run job state --steps 0
  pairmd: E04 UnknownName sqrt
  [3]
  $ with job 2 'energy sqrt' workers pairmd back job state --steps 0
  pairmd: E04 UnknownName sqrt
  [3]

Definitions with a name that is already used. The first error is reported.

  $ with job 2 'energy a; a=1; a=2' workers pairmd run job state --steps 0
  pairmd: E08 RepeatedDefinition a
  [3]
  $ with job 2 'energy a; a=1; a=2' workers pairmd back job state --steps 0
  pairmd: E08 RepeatedDefinition a
  [3]
  $ with job 2 'energy r; r=1' workers pairmd run job state --steps 0
  pairmd: E09 ReservedName r
  [3]
  $ with job 2 'energy r; r=1' workers pairmd back job state --steps 0
  pairmd: E09 ReservedName r
  [3]
  $ with job 2 'energy r; sqrt=1' workers pairmd run job state --steps 0
  pairmd: E09 ReservedName sqrt
  [3]
  $ with job 2 'energy r; sqrt=1' workers pairmd back job state --steps 0
  pairmd: E09 ReservedName sqrt
  [3]
  $ with job 2 'energy r; erf=1' workers pairmd run job state --steps 0
  pairmd: E09 ReservedName erf
  [3]
  $ with job 2 'energy r; erf=1' workers pairmd back job state --steps 0
  pairmd: E09 ReservedName erf
  [3]
  $ with job 2 'energy b; a=1; a=2; r=1' workers pairmd run job state --steps 0
  pairmd: E08 RepeatedDefinition a
  [3]
  $ with job 2 'energy b; a=1; a=2; r=1' workers pairmd back job state --steps 0
  pairmd: E08 RepeatedDefinition a
  [3]

Parameters and globals whose names clash: with an unsupported function, the distance, functions, and the parameter of
the second particle.

  $ sed '7c type AR 1 1' job > named
  $ with named 6 'parameter atan\nglobal k 1' workers pairmd run named state --steps 0
  pairmd: E09 ReservedName atan2
  [3]
  $ with named 6 'parameter q\nglobal r 1' workers pairmd run named state --steps 0
  pairmd: E09 ReservedName r
  [3]
  $ with named 6 'parameter q\nglobal floor 1' workers pairmd run named state --steps 0
  pairmd: E09 ReservedName floor
  [3]
  $ with named 6 'parameter q\nglobal exp 1' workers pairmd run named state --steps 0
  pairmd: E09 ReservedName exp
  [3]
  $ with named 6 'parameter q\nglobal q2 1' workers pairmd run named state --steps 0
  pairmd: E09 ReservedName q2
  [3]
