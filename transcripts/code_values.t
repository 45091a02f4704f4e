# Values of code

If the cutoff is 2^-32 nm above the core there is only one distance, so the bound of a listing is the magnitude of its
value. The sign is visible too: `max` with 0 keeps a positive value, and `min` with 0 keeps a negative value. The
distance is the core of this job, in line 3.

  $ cat > at << END
  > pairmd job 1
  > energy r
  > core 0.5
  > cutoff 0.5000000002
  > dt 2
  > type AR 1
  > END

The derivative of 1/r, instructions that a jump skips, branches, and locals.

  $ listing 'push -4294967296, input 0, sq, div, push 0, min' pairmd check at --code listing
  accepted: steps 6, bound 17179869184
  $ listing 'jump 2, add, push 7, push 0, max' pairmd check at --code listing
  accepted: steps 4, bound 7
  $ with at 3 'core 0' with at 4 'cutoff 2e-10' listing 'input 0, jumpifzero 4, push 1, jump 5, push 2, push 0, max' pairmd check at --code listing
  accepted: steps 6, bound 2
  $ with at 3 'core 0.0000000028' with at 4 'cutoff 0.000000003' listing 'input 0, jumpifzero 4, push 1, jump 5, push 2, push 0, max' pairmd check at --code listing
  accepted: steps 6, bound 1
  $ listing 'push 3, keep 255, get 255, get 255, add, push 0, max' pairmd check at --code listing
  accepted: steps 7, bound 6

Operations.

  $ listing 'push 8589934592, sqrt, push 0, max' pairmd check at --code listing
  accepted: steps 4, bound 6074000999
  $ listing 'push -2147483648, floor, push 0, min' pairmd check at --code listing
  accepted: steps 4, bound 4294967296
  $ listing 'push 858993459, ceil, push 0, max' pairmd check at --code listing
  accepted: steps 4, bound 4294967296
  $ listing 'push 0, delta, push 0, max' pairmd check at --code listing
  accepted: steps 4, bound 4294967296
  $ listing 'push -1, step' pairmd check at --code listing
  accepted: steps 2, bound 0
  $ listing 'push -3, abs, neg, push 2, min, push -9, max, push 0, min' pairmd check at --code listing
  accepted: steps 9, bound 3
  $ listing 'push 12884901888, push 2147483648, mul, push 0, max' pairmd check at --code listing
  accepted: steps 5, bound 6442450944

The code of select(step(r - 0.5), sqrt(r - 0.4), 0).

  $ listing 'input 0, push 2147483648, sub, step, jumpifzero 10, input 0, push 1717986918, sub, sqrt, jump 11, push 0' pairmd check job --code listing
  accepted: steps 10, bound 3037000499
  $ listing 'input 0, push 2147483648, sub, step, jumpifzero 10, input 0, push 1717986918, sub, sqrt, jump 11, push 0, push 0, max' pairmd check at --code listing
  accepted: steps 12, bound 1358187913
  $ with at 3 'core 0.2328306453' with at 4 'cutoff 0.2328306455' listing 'input 0, push 2147483648, sub, step, jumpifzero 10, input 0, push 1717986918, sub, sqrt, jump 11, push 0' pairmd check at --code listing
  accepted: steps 10, bound 0
  $ with at 3 'core 0.8999999997' with at 4 'cutoff 0.9' listing 'input 0, push 2147483648, sub, step, jumpifzero 10, input 0, push 1717986918, sub, sqrt, jump 11, push 0, push 0, max' pairmd check at --code listing
  accepted: steps 12, bound 3037000499

The code of r r + r.

  $ with at 3 'core 0.2328306453' with at 4 'cutoff 0.2328306455' listing 'input 0, keep 7, get 7, get 7, mul, get 7, add, push 0, max' pairmd check at --code listing
  accepted: steps 9, bound 1232830653
  $ listing 'input 0, keep 7, get 7, get 7, mul, get 7, add, push 0, max' pairmd check at --code listing
  accepted: steps 9, bound 3221225472

Code with operations of every kind.

  $ with at 3 'core 0.2' with at 4 'cutoff 0.2000000002' listing 'input 0, neg, abs, keep 0, get 0, sqrt, get 0, sq, max, get 0, min, push 2, input 0, step, add, get 0, floor, delta, add, get 0, ceil, mul, sub, input 0, div, push 0, min' pairmd check at --code listing
  accepted: steps 27, bound 38654705685
  $ with at 3 'core 0.8999999997' with at 4 'cutoff 0.9' listing 'input 0, neg, abs, keep 0, get 0, sqrt, get 0, sq, max, get 0, min, push 2, input 0, step, add, get 0, floor, delta, add, get 0, ceil, mul, sub, input 0, div, push 0, min' pairmd check at --code listing
  accepted: steps 27, bound 5249404479

r (r + 2^-31), computed from locals that are kept at the same time.

  $ with at 3 'core 0.2' with at 4 'cutoff 0.2000000002' listing 'push 2, input 0, add, keep 1, input 0, neg, keep 2, get 2, neg, get 1, mul, push 0, max' pairmd check at --code listing
  accepted: steps 13, bound 171798692
  $ with at 3 'core 0.2328306453' with at 4 'cutoff 0.2328306455' listing 'push 2, input 0, add, keep 1, input 0, neg, keep 2, get 2, neg, get 1, mul, push 0, max' pairmd check at --code listing
  accepted: steps 13, bound 232830647
  $ listing 'push 2, input 0, add, keep 1, input 0, neg, keep 2, get 2, neg, get 1, mul, push 0, max' pairmd check at --code listing
  accepted: steps 13, bound 1073741825
  $ with at 3 'core 0.8999999997' with at 4 'cutoff 0.9' listing 'push 2, input 0, add, keep 1, input 0, neg, keep 2, get 2, neg, get 1, mul, push 0, max' pairmd check at --code listing
  accepted: steps 13, bound 3478923509

## Inputs

Input 0 is the distance. Then come the parameters of the first particle, of the second particle, and the globals. The
divisor is a value minus a number. So the error names the first pair of types for which the value equals that number. A
with B comes before B with A.

  $ cat > two << END
  > pairmd job 1
  > energy r
  > core 0.5
  > cutoff 0.5000000002
  > dt 2
  > parameter p
  > parameter q
  > global g 5
  > type A 1 10 11
  > type B 1 20 21
  > END
  $ listing 'push 0, input 1, push 42949672960, sub, div' pairmd check two --code listing
  pairmd: V2 Fault A A r 2147483648 pc 4 F2 ZeroDivisor
  [3]
  $ listing 'push 0, input 1, push 85899345920, sub, div' pairmd check two --code listing
  pairmd: V2 Fault B A r 2147483648 pc 4 F2 ZeroDivisor
  [3]
  $ listing 'push 0, input 2, push 47244640256, sub, div' pairmd check two --code listing
  pairmd: V2 Fault A A r 2147483648 pc 4 F2 ZeroDivisor
  [3]
  $ listing 'push 0, input 2, push 90194313216, sub, div' pairmd check two --code listing
  pairmd: V2 Fault B A r 2147483648 pc 4 F2 ZeroDivisor
  [3]
  $ listing 'push 0, input 3, push 42949672960, sub, div' pairmd check two --code listing
  pairmd: V2 Fault A A r 2147483648 pc 4 F2 ZeroDivisor
  [3]
  $ listing 'push 0, input 3, push 85899345920, sub, div' pairmd check two --code listing
  pairmd: V2 Fault A B r 2147483648 pc 4 F2 ZeroDivisor
  [3]
  $ listing 'push 0, input 4, push 47244640256, sub, div' pairmd check two --code listing
  pairmd: V2 Fault A A r 2147483648 pc 4 F2 ZeroDivisor
  [3]
  $ listing 'push 0, input 4, push 90194313216, sub, div' pairmd check two --code listing
  pairmd: V2 Fault A B r 2147483648 pc 4 F2 ZeroDivisor
  [3]
  $ listing 'push 0, input 5, push 21474836480, sub, div' pairmd check two --code listing
  pairmd: V2 Fault A A r 2147483648 pc 4 F2 ZeroDivisor
  [3]

The four parameters of A with B as two digits each, then the four parameters of B with B. Input 6 doesn't exist.

  $ listing 'push 0, input 1, push 429496729600, mul, input 2, add, push 429496729600, mul, input 3, add, push 429496729600, mul, input 4, add, push 43430799491465216, sub, div' pairmd check two --code listing
  pairmd: V2 Fault A B r 2147483648 pc 16 F2 ZeroDivisor
  [3]
  $ listing 'push 0, input 1, push 429496729600, mul, input 2, add, push 429496729600, mul, input 3, add, push 429496729600, mul, input 4, add, push 86809969181065216, sub, div' pairmd check two --code listing
  pairmd: V2 Fault B B r 2147483648 pc 16 F2 ZeroDivisor
  [3]
  $ with two 3 'core 0.000000023' with two 4 'cutoff 0.0000000233' listing 'input 0' pairmd check two --code listing
  accepted: steps 1, bound 99
  $ listing 'input 5' pairmd check two --code listing
  accepted: steps 1, bound 21474836480
  $ listing 'input 6' pairmd check two --code listing
  pairmd: V1 Malformed 0
  [3]

A global directly after the distance. A job without types has no pair to verify, so the bound is 0.

  $ with at 6 'type AR 1\nglobal g 0.0000000012' with at 3 'core 0.0000000028' with at 4 'cutoff 0.000000003' listing 'input 0, input 1, sub, push 0, max' pairmd check at --code listing
  accepted: steps 5, bound 7
  $ with at 6 '' listing 'push 7' pairmd check at --code listing
  accepted: steps 1, bound 0

(p1 - q2) r + g for each pair of types. The numbers of the job are 1288490188 and 3000000000, -858993459 and 7000000001,
and 12884901893.

  $ cat > uneven << END
  > pairmd job 1
  > energy r
  > core 0.5
  > cutoff 0.5000000002
  > dt 2
  > parameter p
  > parameter q
  > global g 3.0000000012
  > type A 1 0.2999999998 0.698491931
  > type B 1 -0.2 1.6298145058
  > END
  $ listing 'push 0, input 1, input 4, sub, input 0, mul, input 5, add, push 12029146987, sub, div' pairmd check uneven --code listing
  pairmd: V2 Fault A A r 2147483648 pc 10 F2 ZeroDivisor
  [3]
  $ listing 'push 0, input 1, input 4, sub, input 0, mul, input 5, add, push 10029146986, sub, div' pairmd check uneven --code listing
  pairmd: V2 Fault A B r 2147483648 pc 10 F2 ZeroDivisor
  [3]
  $ listing 'push 0, input 1, input 4, sub, input 0, mul, input 5, add, push 10955405163, sub, div' pairmd check uneven --code listing
  pairmd: V2 Fault B A r 2147483648 pc 10 F2 ZeroDivisor
  [3]
  $ with uneven 3 'core 0.8999999997' with uneven 4 'cutoff 0.9' listing 'push 0, input 1, input 4, sub, input 0, mul, input 5, add, push 5811807781, sub, div' pairmd check uneven --code listing
  pairmd: V2 Fault B B r 3865470565 pc 10 F2 ZeroDivisor
  [3]
  $ listing 'input 1, input 4, sub, input 0, mul, input 5, add' pairmd check uneven --code listing
  accepted: steps 7, bound 12029146987

r - min(r, p2) is 0 if p2 is at least r, else r - p2.

  $ with uneven 3 'core 0.2' with uneven 4 'cutoff 0.2000000002' listing 'push 0, input 0, input 3, keep 7, input 0, get 7, min, sub, push 0, sub, div' pairmd check uneven --code listing
  pairmd: V2 Fault A A r 858993459 pc 10 F2 ZeroDivisor
  [3]
  $ with uneven 3 'core 0.2328306453' with uneven 4 'cutoff 0.2328306455' listing 'push 0, input 0, input 3, keep 7, input 0, get 7, min, sub, push 1858993466, sub, div' pairmd check uneven --code listing
  pairmd: V2 Fault A B r 1000000007 pc 10 F2 ZeroDivisor
  [3]
