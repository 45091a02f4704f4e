# Outputs that fail, and memory that runs out

The output fails after each number of bytes, one write at a time. It then holds the beginning of what the command
prints. An output that doesn't fail holds all of it.

  $ outputs pairmd start job gro
  0-162: a beginning, pairmd: O2 CannotWrite [5]
  163: all
  $ outputs pairmd run job state --steps 2
  0-162: a beginning, pairmd: O2 CannotWrite [5]
  163: all
  $ outputs pairmd run job state --steps 3 --workers 4
  0-162: a beginning, pairmd: O2 CannotWrite [5]
  163: all
  $ outputs pairmd back job state --steps 2 --workers 2
  0-163: a beginning, pairmd: O2 CannotWrite [5]
  164: all
  $ outputs pairmd frame state
  0-136: a beginning, pairmd: O2 CannotWrite [5]
  137: all
  $ outputs pairmd energy job state
  0-17: a beginning, pairmd: O2 CannotWrite [5]
  18: all
  $ outputs pairmd check job
  0-37: a beginning, pairmd: O2 CannotWrite [5]
  38: all
  $ outputs pairmd curve job --points 1
  0-288: a beginning, pairmd: O2 CannotWrite [5]
  289: all
  $ outputs pairmd curve job --points 1 --slope --types AR AR
  0-172: a beginning, pairmd: O2 CannotWrite [5]
  173: all
  $ outputs pairmd code job
  0-81: a beginning, pairmd: O2 CannotWrite [5]
  82: all
  $ outputs pairmd code job --energy
  0-41: a beginning, pairmd: O2 CannotWrite [5]
  42: all

Help goes to standard output too.

  $ outputs pairmd --help
  0-1491: a beginning, pairmd: O2 CannotWrite [5]
  1492: all

Each allocation fails in turn. A command prints its whole answer, or only an error, and frees all its memory. If the
allocation belongs to a step of a run, the error prints the number of whole steps completed.

  $ requests pairmd start job gro
  pairmd: Memory [4]
  all
  $ requests pairmd run job state --steps 2
  pairmd: Memory [4]
  all
  pairmd: Memory after 0 steps [4]
  pairmd: Memory after 1 steps [4]
  $ requests pairmd run job state --steps 3 --workers 4
  pairmd: Memory [4]
  all
  pairmd: Memory after 0 steps [4]
  pairmd: Memory after 1 steps [4]
  pairmd: Memory after 2 steps [4]
  $ requests pairmd back job state --steps 2 --workers 2
  pairmd: Memory [4]
  all
  pairmd: Memory after 0 steps [4]
  pairmd: Memory after 1 steps [4]
  $ requests pairmd frame state
  pairmd: Memory [4]
  all
  $ requests pairmd energy job state
  pairmd: Memory [4]
  all
  $ requests pairmd check job
  pairmd: Memory [4]
  all
  $ requests pairmd curve job --points 1
  pairmd: Memory [4]
  all
  $ requests pairmd curve job --points 1 --slope --grid
  pairmd: Memory [4]
  all
  $ requests pairmd curve job --points 1 --energy --types AR AR
  pairmd: Memory [4]
  all
  $ with job 7 'type AR 1\ntype KR 1' requests pairmd curve job --points 1 --energy
  pairmd: Memory [4]
  all
  # AR AR
  # r/nm energy/(kJ/mol) energy-error
  0.199999999953 5.000000001164 5.83e-9
  0.899999999674 1.111111111473 2.89e-10
  # greatest energy-error 5.83e-9 at 0.199999999953
  pairmd: Memory [4]
  # AR AR
  # r/nm energy/(kJ/mol) energy-error
  0.199999999953 5.000000001164 5.83e-9
  0.899999999674 1.111111111473 2.89e-10
  # greatest energy-error 5.83e-9 at 0.199999999953
  
  
  # AR KR
  # KR AR
  # r/nm energy/(kJ/mol) energy-error
  0.199999999953 5.000000001164 5.83e-9
  0.899999999674 1.111111111473 2.89e-10
  # greatest energy-error 5.83e-9 at 0.199999999953
  pairmd: Memory [4]
  $ requests pairmd code job
  pairmd: Memory [4]
  all
  $ requests pairmd code job --energy
  pairmd: Memory [4]
  all

The allocation for the line of an error may fail too.

  $ requests pairmd frame 'a path of no file'
  pairmd: Memory [4]
  all
  $ requests pairmd check job --code 'a path of no file'
  pairmd: Memory [4]
  all

Several workers need more allocations than one: a list of scratch buffers and a scratch buffer per worker. Each step
also needs the words that all workers add to, and two more blocks for the table of these words.

  $ memory pairmd run job state --steps 2
  2 workers: 8 requests more
  3 workers: 1 requests more
  $ memory pairmd back job state --steps 2
  2 workers: 8 requests more
  3 workers: 1 requests more
  $ memory pairmd trajectory job state --steps 2 --every 2
  2 workers: 8 requests more
  3 workers: 1 requests more
  $ memory pairmd trajectory job state --steps 2 --every 2 --back
  2 workers: 8 requests more
  3 workers: 1 requests more

The workers start again after each frame, and after each progress line, with the scratch buffers that they had.

  $ memory pairmd trajectory job state --steps 2 --every 1
  2 workers: 8 requests more
  3 workers: 1 requests more
  $ memory pairmd run job state --steps 2 --progress
  2 workers: 8 requests more
  3 workers: 1 requests more
  $ memory pairmd back job state --steps 2 --progress
  2 workers: 8 requests more
  3 workers: 1 requests more
  $ memory pairmd trajectory job state --steps 2 --every 2 --progress
  2 workers: 8 requests more
  3 workers: 1 requests more
  $ pairmd states job state --steps 2 --every 2 > segment
  $ memory pairmd replay job segment
  2 workers: 8 requests more
  3 workers: 1 requests more
