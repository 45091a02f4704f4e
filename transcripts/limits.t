# Limits of energies

A text has at most 4,096 tokens and 64 definitions. At most 64 parentheses and minus signs may be open around an
operand. The code of a derivative has at most 16,384 instructions. The texts are assembled from parts. The job has only
one distance, 0.5 nm, and the atoms of the stored state are 0.5 nm apart.

  $ head -c 20 job > top
  $ printf '\ncore 0.5\ncutoff 0.5000000002\ndt 2\ntype AR 1\n' > end

## Tokens

  $ printf '+1+1+1+1+1+1+1+1' > ones
  $ cat ones ones ones ones ones ones ones ones > ones64
  $ cat ones64 ones64 ones64 ones64 ones64 ones64 ones64 ones64 > ones512
  $ cat ones512 ones512 ones512 ones512 > ones2048
  $ head -c 4094 ones2048 > ones2047
  $ printf '+r+r+r+r+r+r+r+r' > ways
  $ cat ways ways ways ways ways ways ways ways > ways64
  $ cat ways64 ways64 ways64 ways64 ways64 ways64 ways64 ways64 > ways512
  $ cat ways512 ways512 ways512 ways512 > ways2048
  $ head -c 4094 ways2048 > ways2047
  $ printf '1' > one
  $ printf 'r' > way
  $ cat top one ones2047 end > long
  $ pairmd check long
  accepted: steps 1, bound 0
  $ cat top one ones2048 end > long
  $ pairmd check long
  pairmd: E10 TooLarge
  [3]
  $ cat top way ways2047 end > long
  $ pairmd check long
  accepted: steps 4095, bound 8796093022208

## Nesting

At a depth above 64 an operand, a function or a minus sign makes the text too large (E10). A token that can't begin an
operand is still unexpected (E03) there.

  $ printf '(' > open
  $ printf ')' > close
  $ printf '((((((((' > open8
  $ printf '))))))))' > close8
  $ cat open8 open8 open8 open8 open8 open8 open8 open8 > open64
  $ cat close8 close8 close8 close8 close8 close8 close8 close8 > close64
  $ head -c 63 open64 > open63
  $ head -c 63 close64 > close63
  $ cat open64 open > open65
  $ cat close64 close > close65
  $ printf 'r' > inner
  $ cat top open64 inner close64 end > long
  $ pairmd energy long state
  energy 2147483648
  $ printf 'r' > inner
  $ cat top open65 inner close65 end > long
  $ pairmd check long
  pairmd: E10 TooLarge
  [3]
  $ cat top open65 close65 end > long
  $ pairmd check long
  pairmd: E03 UnexpectedToken 65
  [3]
  $ printf '-r' > inner
  $ cat top open64 inner close64 end > long
  $ pairmd check long
  pairmd: E10 TooLarge
  [3]
  $ printf 'sqrt(r)' > inner
  $ cat top open65 inner close65 end > long
  $ pairmd check long
  pairmd: E10 TooLarge
  [3]
  $ printf 'exp(r)' > inner
  $ cat top open65 inner close65 end > long
  $ pairmd check long
  pairmd: E10 TooLarge
  [3]
  $ printf 'sqrt(r)' > inner
  $ cat top open63 inner close63 end > long
  $ pairmd energy long state
  energy 3037000499
  $ printf 'sqrt(r)' > inner
  $ cat top open64 inner close64 end > long
  $ pairmd check long
  pairmd: E10 TooLarge
  [3]
  $ printf 'sqrt()' > inner
  $ cat top open64 inner close64 end > long
  $ pairmd check long
  pairmd: E05 WrongArgumentCount sqrt
  [3]
  $ printf 'r^(-2)' > inner
  $ cat top open63 inner close63 end > long
  $ pairmd energy long state
  energy 17179869184
  $ printf 'r^-2' > inner
  $ cat top open64 inner close64 end > long
  $ pairmd energy long state
  energy 17179869184
  $ printf 'r^(-2)' > inner
  $ cat top open64 inner close64 end > long
  $ pairmd check long
  pairmd: E10 TooLarge
  [3]
  $ printf 'r^()' > inner
  $ cat top open64 inner close64 end > long
  $ pairmd check long
  pairmd: E06 BadExponent 65
  [3]

## Definitions

A text may have 64 definitions. After the 64th, a token that can't begin a definition is reported before the number of
definitions.

  $ printf ';a0=1;a1=1;a2=1;a3=1;a4=1;a5=1;a6=1;a7=1' > a
  $ printf ';b0=1;b1=1;b2=1;b3=1;b4=1;b5=1;b6=1;b7=1' > b
  $ printf ';c0=1;c1=1;c2=1;c3=1;c4=1;c5=1;c6=1;c7=1' > c
  $ printf ';d0=1;d1=1;d2=1;d3=1;d4=1;d5=1;d6=1;d7=1' > d
  $ printf ';e0=1;e1=1;e2=1;e3=1;e4=1;e5=1;e6=1;e7=1' > e
  $ printf ';f0=1;f1=1;f2=1;f3=1;f4=1;f5=1;f6=1;f7=1' > f
  $ printf ';g0=1;g1=1;g2=1;g3=1;g4=1;g5=1;g6=1;g7=1' > g
  $ printf ';h0=1;h1=1;h2=1;h3=1;h4=1;h5=1;h6=1;h7=1' > h
  $ cat way a b c d e f g h > named
  $ cat top named end > long
  $ pairmd check long
  accepted: steps 1, bound 4294967296
  $ printf ';;' > more
  $ cat top named more end > long
  $ pairmd check long
  accepted: steps 1, bound 4294967296
  $ printf ';i=1' > more
  $ cat top named more end > long
  $ pairmd check long
  pairmd: E10 TooLarge
  [3]
  $ printf '; i' > more
  $ cat top named more end > long
  $ pairmd check long
  pairmd: E10 TooLarge
  [3]
  $ printf '; 1' > more
  $ cat top named more end > long
  $ pairmd check long
  pairmd: E03 UnexpectedToken 323
  [3]
  $ printf '; i=)' > more
  $ cat top named more end > long
  $ pairmd check long
  pairmd: E10 TooLarge
  [3]

## Definitions and their derivatives

Each definition and its derivative are computed once, even if they are used often. Doubled 19 times, the distance has
the derivative 2^19.

  $ printf 'a;a=b+b;b=c+c;c=d+d;d=e+e;e=f+f;f=g+g;g=h+h;h=i+i;i=j+j;j=k+k;k=l+l;l=m+m;m=n+n;n=o+o;o=p+p;p=q+q;q=s+s;s=t+t;t=u+u;u=r' > doubled
  $ cat top doubled end > long
  $ pairmd check long
  accepted: steps 79, bound 2251799813685248
  $ pairmd energy long state
  energy 1125899906842624

A text with 64 definitions, each the square of the next. The code keeps the values and derivatives of all 64.

  $ printf ';a0=a1*a1;a1=a2*a2;a2=a3*a3;a3=a4*a4;a4=a5*a5;a5=a6*a6;a6=a7*a7;a7=a8*a8' > squares0
  $ printf ';a8=a9*a9;a9=a10*a10;a10=a11*a11;a11=a12*a12;a12=a13*a13;a13=a14*a14;a14=a15*a15;a15=a16*a16' > squares1
  $ printf ';a16=a17*a17;a17=a18*a18;a18=a19*a19;a19=a20*a20;a20=a21*a21;a21=a22*a22;a22=a23*a23;a23=a24*a24' > squares2
  $ printf ';a24=a25*a25;a25=a26*a26;a26=a27*a27;a27=a28*a28;a28=a29*a29;a29=a30*a30;a30=a31*a31;a31=a32*a32' > squares3
  $ printf ';a32=a33*a33;a33=a34*a34;a34=a35*a35;a35=a36*a36;a36=a37*a37;a37=a38*a38;a38=a39*a39;a39=a40*a40' > squares4
  $ printf ';a40=a41*a41;a41=a42*a42;a42=a43*a43;a43=a44*a44;a44=a45*a45;a45=a46*a46;a46=a47*a47;a47=a48*a48' > squares5
  $ printf ';a48=a49*a49;a49=a50*a50;a50=a51*a51;a51=a52*a52;a52=a53*a53;a53=a54*a54;a54=a55*a55;a55=a56*a56' > squares6
  $ printf ';a56=a57*a57;a57=a58*a58;a58=a59*a59;a59=a60*a60;a60=a61*a61;a61=a62*a62;a62=a63*a63;a63=r' > squares7
  $ printf 'a0*a0' > square
  $ cat top square squares0 squares1 squares2 squares3 squares4 squares5 squares6 squares7 end > long
  $ pairmd check long
  accepted: steps 767, bound 0

The derivative of the argument of `abs` appears once in the code. Otherwise 40 nested calls would need 2^40 copies.

  $ printf 'abs(abs(abs(abs(abs(abs(abs(abs(' > absolute
  $ printf 'r-3' > inner
  $ printf ' - 1000*r' > less
  $ head -c 40 close64 > close40
  $ cat top absolute absolute absolute absolute absolute inner close40 less end > long
  $ pairmd check long
  accepted: steps 1107, bound 4299262263296

## Instructions

A term `r^31` needs 17 instructions in the code of the derivative, a term `r` one. Each sum or minus needs one more.

  $ printf '+r^31+r^31+r^31+r^31+r^31+r^31+r^31+r^31' > terms
  $ cat terms terms terms terms terms terms terms terms > terms64
  $ cat terms64 terms64 terms64 terms64 terms64 terms64 terms64 terms64 > terms512
  $ cat terms512 terms512 > terms1024
  $ head -c 4545 terms1024 > terms909
  $ printf '-' > minus
  $ printf 'r^31' > term
  $ printf '+r+r' > two
  $ cat top minus term terms909 two end > long
  $ pairmd check long
  accepted: steps 16384, bound 8590047184
  $ cat top minus minus term terms909 two end > long
  $ pairmd check long
  pairmd: E10 TooLarge
  [3]

In the code of the energy itself, a term `r^31` needs 15 instructions. Its value at 0.5 nm is two units. 910 terms, two
terms `r`, 911 sums and two minus signs.

  $ pairmd code long
  pairmd: E10 TooLarge
  [3]
  $ pairmd code long --energy > own
  $ pairmd check long --code own
  accepted: steps 14565, bound 4294969116

A text of 4,096 tokens whose energy code has 16,384 instructions; its derivative is 0.

  $ printf '+k^31+k^31+k^31+k^31+k^31+k^31+k^31+k^31' > root
  $ cat root root root root root root root root > roots64
  $ cat roots64 roots64 roots64 roots64 roots64 roots64 roots64 roots64 > roots512
  $ cat roots512 roots512 > roots1024
  $ head -c 5115 roots1024 > roots1023
  $ printf '-k^31' > first
  $ printf '\nglobal k 1.5' > global
  $ cat top first roots1023 global end > long
  $ pairmd energy long state
  energy 1262524422004387668

## Depth

Operations nested 64 deep on the right, and then on the left, with different numbers.

  $ printf '1+(1.07+(1.14+(1.21+(1.28+(1.35+(1.42+(1.49+(' > right
  $ cat right right right right right right right right > right64
  $ cat top right64 way close64 end > long
  $ pairmd energy long state
  energy 344370477792
  $ printf '+1+1.07+1.14+1.21+1.28+1.35+1.42+1.49' > left
  $ cat left left left left left left left left > left64
  $ cat top way left64 end > long
  $ pairmd energy long state
  energy 344370477792
  $ printf '1-(1.07-(1.14-(1.21-(1.28-(1.35-(1.42-(1.49-(' > right
  $ cat right right right right right right right right > right64
  $ cat top right64 way close64 end > long
  $ pairmd energy long state
  energy -7473243104
  $ printf '-1-1.07-1.14-1.21-1.28-1.35-1.42-1.49' > left
  $ cat left left left left left left left left > left64
  $ cat top way left64 end > long
  $ pairmd energy long state
  energy -340075510496
  $ printf '1*(1.07*(1.14*(1.21*(1.28*(1.35*(1.42*(1.49*(' > right
  $ cat right right right right right right right right > right64
  $ cat top right64 way close64 end > long
  $ pairmd energy long state
  energy 1544075981324289
  $ printf '*1*1.07*1.14*1.21*1.28*1.35*1.42*1.49' > left
  $ cat left left left left left left left left > left64
  $ cat top way left64 end > long
  $ pairmd energy long state
  energy 1544075980845020
  $ printf '1/(1.07/(1.14/(1.21/(1.28/(1.35/(1.42/(1.49/(' > right
  $ cat right right right right right right right right > right64
  $ cat top right64 way close64 end > long
  $ pairmd energy long state
  energy 344859108
  $ printf '/1/1.07/1.14/1.21/1.28/1.35/1.42/1.49' > left
  $ cat left left left left left left left left > left64
  $ cat top way left64 end > long
  $ pairmd energy long state
  energy 2985
  $ printf 'min(1,min(1.07,min(1.14,min(1.21,min(1.28,min(1.35,min(1.42,min(1.49,' > right
  $ cat right right right right right right right right > right64
  $ cat top right64 way close64 end > long
  $ pairmd energy long state
  energy 2147483648
  $ printf 'min(min(min(min(min(min(min(min(' > left
  $ cat left left left left left left left left > left64
  $ printf ',1),1.07),1.14),1.21),1.28),1.35),1.42),1.49)' > ends
  $ cat ends ends ends ends ends ends ends ends > ends64
  $ cat top left64 way ends64 end > long
  $ pairmd energy long state
  energy 2147483648
  $ printf 'max(1,max(1.07,max(1.14,max(1.21,max(1.28,max(1.35,max(1.42,max(1.49,' > right
  $ cat right right right right right right right right > right64
  $ cat top right64 way close64 end > long
  $ pairmd energy long state
  energy 6399501271
  $ printf 'max(max(max(max(max(max(max(max(' > left
  $ cat left left left left left left left left > left64
  $ printf ',1),1.07),1.14),1.21),1.28),1.35),1.42),1.49)' > ends
  $ cat ends ends ends ends ends ends ends ends > ends64
  $ cat top left64 way ends64 end > long
  $ pairmd energy long state
  energy 6399501271

A difference of 513 terms.

  $ printf '-1-1.07-1.14-1.21-1.28-1.35-1.42-1.49' > left
  $ cat left left left left left left left left > left64
  $ cat left64 left64 left64 left64 left64 left64 left64 left64 > left512
  $ cat top way left512 end > long
  $ pairmd energy long state
  energy -2735636469504
