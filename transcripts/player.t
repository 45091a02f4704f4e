# The programs of transcripts

This transcript shows the errors of wrong commands. `must_differ` shows that test cases are compared at all: each of its
cases has an error.

## Arguments and files

  $ walk
  no such command
  [1]
  $ cmp job job
  $ cmp job state
  job state differ
  [1]
  $ cmp job missing
  no file missing
  [1]
  $ cmp missing job
  no file missing
  [1]
  $ cat job missing
  no file missing
  [1]
  $ sed '2d' missing
  no file missing
  [1]
  $ head -c 6 missing
  no file missing
  [1]
  $ beginnings missing pairmd frame missing
  no such file
  [1]

Files that differ in their last byte, in their length, and in a line ending.

  $ printf 'abc' > one
  $ printf 'abd' > other
  $ cmp one other
  one other differ
  [1]
  $ printf 'ab' > other
  $ cmp one other
  one other differ
  [1]
  $ printf 'abc\n' > other
  $ cmp one other
  one other differ
  [1]
  $ printf 'abc' > other
  $ cmp one other

`with` restores the file after the command, also if it changed one file twice.

  $ cat job > before
  $ with job 2 'energy r' with job 2 'energy r*r' with job 5 'dt 0' pairmd check job
  pairmd: J4 Range dt
  [1]
  $ cmp job before

## Repeated commands

A command whose outcome changes with `--workers`, and a command whose output doesn't lead back to its state.

  $ workers pairmd code job
  another outcome by 1 workers
  [1]
  $ returns pairmd frame state
  it does not return
  [1]

Neighbours with the same outcome share one line.

  $ printf '1' > one
  $ beginnings one pairmd frame one
  0-1: pairmd: S2 Truncated [1]
