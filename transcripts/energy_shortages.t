# Failed allocations while an energy is parsed, differentiated and compiled

Each allocation fails in turn, for accepted texts and for rejected texts.

  $ cat > short << END
  > pairmd job 1
  > energy r
  > parameter q
  > global k 1
  > core 0.5
  > cutoff 0.5000000002
  > dt 2
  > type AR 1 2
  > END
  $ with short 2 'energy -(r+2)*3' requests pairmd check short
  pairmd: Memory [4]
  all
  $ with short 2 'energy name' requests pairmd check short
  pairmd: Memory [4]
  all
  $ with short 2 'energy name(1)' requests pairmd check short
  pairmd: Memory [4]
  all
  $ with short 2 'energy min(1)' requests pairmd check short
  pairmd: Memory [4]
  all
  $ with short 2 'energy exp(1)' requests pairmd check short
  pairmd: Memory [4]
  all
  $ with short 2 'energy select(abs(r), r^2, min(1, r))' requests pairmd check short
  pairmd: Memory [4]
  all
  $ with short 2 'energy a+b; b=2*a; a=r*k' requests pairmd check short
  pairmd: Memory [4]
  all
  $ with short 2 'energy r; a=1; a=2' requests pairmd check short
  pairmd: Memory [4]
  all
  $ with short 2 'energy r; k=1' requests pairmd check short
  pairmd: Memory [4]
  all
  $ with short 2 'energy r*r' requests pairmd check short
  pairmd: Memory [4]
  all
  $ with short 2 'energy a^-31; a=r' requests pairmd check short
  pairmd: Memory [4]
  all

An energy that contains every kind of expression.

  $ sed '2c energy select(step(r-0.7), a^-3, min(b, 4)*q1) + max(abs(b), delta(r)) - floor(r)/ceil(k); b=-a*2; a=sqrt(r+q2)' short > whole
  $ pairmd energy whole state
  energy -13581879130
  $ pairmd check whole
  accepted: steps 63, bound 2716375826
  $ requests pairmd check whole
  pairmd: Memory [4]
  all
  $ requests pairmd energy whole state
  pairmd: Memory [4]
  all
