# States that are rejected: lines are checked from the top, and the first error is reported

A truncated state is rejected, wherever it is cut.

  $ beginnings state pairmd frame state
  0-162: pairmd: S2 Truncated [1]
  163: two atoms
      2
      1AR      AR    1   0.500   0.000   0.000
      1AR      AR    2   1.000   0.000   0.000
     2.00000   2.00000   2.00000

The first line, and the title.

  $ with state 1 'pairmd state 3' pairmd frame state
  pairmd: S1 BadLine 1
  [1]
  $ with state 1 'pairmd state 1\r' pairmd frame state
  pairmd: S1 BadLine 1
  [1]
  $ with state 1 'pairmd state 1 ' pairmd frame state
  pairmd: S1 BadLine 1
  [1]
  $ with state 1 ' pairmd state 1' pairmd frame state
  pairmd: S1 BadLine 1
  [1]
  $ with state 1 '' pairmd frame state
  pairmd: S1 BadLine 1
  [1]
  $ with state 2 'title' pairmd frame state
  pairmd: S1 BadLine 2
  [1]
  $ with state 2 'titletwo atoms' pairmd frame state
  pairmd: S1 BadLine 2
  [1]
  $ with state 2 'title two atoms\r' pairmd frame state
  pairmd: S1 BadLine 2
  [1]
  $ with state 2 'title \r' pairmd frame state
  pairmd: S1 BadLine 2
  [1]
  $ with state 2 'Title two atoms' pairmd frame state
  pairmd: S1 BadLine 2
  [1]

Each number has only one spelling.

  $ with state 3 'step 007' pairmd frame state
  pairmd: S1 BadLine 3
  [1]
  $ with state 3 'step -0' pairmd frame state
  pairmd: S1 BadLine 3
  [1]
  $ with state 3 'step +1' pairmd frame state
  pairmd: S1 BadLine 3
  [1]
  $ with state 3 'step  0' pairmd frame state
  pairmd: S1 BadLine 3
  [1]
  $ with state 3 'step 0 ' pairmd frame state
  pairmd: S1 BadLine 3
  [1]
  $ with state 3 'step ' pairmd frame state
  pairmd: S1 BadLine 3
  [1]
  $ with state 3 'step -' pairmd frame state
  pairmd: S1 BadLine 3
  [1]
  $ with state 3 'step -07' pairmd frame state
  pairmd: S1 BadLine 3
  [1]
  $ with state 3 'step 1.0' pairmd frame state
  pairmd: S1 BadLine 3
  [1]
  $ with state 3 'step 9223372036854775808' pairmd frame state
  pairmd: S1 BadLine 3
  [1]
  $ with state 3 'step -9223372036854775809' pairmd frame state
  pairmd: S1 BadLine 3
  [1]
  $ with state 3 'step' pairmd frame state
  pairmd: S1 BadLine 3
  [1]
  $ with state 4 'atoms 02' pairmd frame state
  pairmd: S1 BadLine 4
  [1]
  $ with state 4 'atoms -2' pairmd frame state
  pairmd: S1 BadLine 4
  [1]
  $ with state 4 'atoms 65537' pairmd frame state
  pairmd: S1 BadLine 4
  [1]
  $ with state 4 'atoms ' pairmd frame state
  pairmd: S1 BadLine 4
  [1]
  $ with state 4 'atoms 007' pairmd frame state
  pairmd: S1 BadLine 4
  [1]
  $ with state 4 'atoms +1' pairmd frame state
  pairmd: S1 BadLine 4
  [1]
  $ with state 4 'atoms -1' pairmd frame state
  pairmd: S1 BadLine 4
  [1]
  $ with state 4 'atoms  1' pairmd frame state
  pairmd: S1 BadLine 4
  [1]
  $ with state 4 'atoms 1 ' pairmd frame state
  pairmd: S1 BadLine 4
  [1]
  $ with state 4 'atoms 18446744073709551616' pairmd frame state
  pairmd: S1 BadLine 4
  [1]

A box has three sides of 1 to 16,000,000.

  $ with state 5 'box 200000 200000 16000001' pairmd frame state
  pairmd: S1 BadLine 5
  [1]
  $ with state 5 'box 200000 0 200000' pairmd frame state
  pairmd: S1 BadLine 5
  [1]
  $ with state 5 'box 200000  200000 200000' pairmd frame state
  pairmd: S1 BadLine 5
  [1]
  $ with state 5 'box 200000 200000' pairmd frame state
  pairmd: S1 BadLine 5
  [1]
  $ with state 5 'box 200000 200000 200000 200000' pairmd frame state
  pairmd: S1 BadLine 5
  [1]
  $ with state 5 'box 200000 200000 200000 ' pairmd frame state
  pairmd: S1 BadLine 5
  [1]
  $ with state 5 'box 16000001 1 1' pairmd frame state
  pairmd: S1 BadLine 5
  [1]
  $ with state 5 'box 1 -1 1' pairmd frame state
  pairmd: S1 BadLine 5
  [1]
  $ with state 5 'box 1 1 01' pairmd frame state
  pairmd: S1 BadLine 5
  [1]
  $ with state 5 'box ' pairmd frame state
  pairmd: S1 BadLine 5
  [1]
  $ with state 5 'box\t1 1 1' pairmd frame state
  pairmd: S1 BadLine 5
  [1]

An atom's line has fixed columns and six grid coordinates below 2^32.

  $ with state 6 '    1AR      AR 4294967296 0 0 1 0 0' pairmd frame state
  pairmd: S1 BadLine 6
  [1]
  $ with state 6 '    1AR      AR 1073741824 0 0 1 0' pairmd frame state
  pairmd: S1 BadLine 6
  [1]
  $ with state 6 '    1AR      AR 1073741824 0 0 1 0 0 ' pairmd frame state
  pairmd: S1 BadLine 6
  [1]
  $ with state 6 '    1AR      AR 1073741824 0 0 1 0 00' pairmd frame state
  pairmd: S1 BadLine 6
  [1]
  $ with state 6 '    1AR      AR\t1073741824 0 0 1 0 0' pairmd frame state
  pairmd: S1 BadLine 6
  [1]
  $ with state 6 '    1AR      AR  1073741824 0 0 1 0 0' pairmd frame state
  pairmd: S1 BadLine 6
  [1]
  $ with state 6 '    1AR      AR 1073741824 0 0 1 0 0 0' pairmd frame state
  pairmd: S1 BadLine 6
  [1]
  $ with state 6 '    1AR      AR 0 0 0 0 0 4294967296' pairmd frame state
  pairmd: S1 BadLine 6
  [1]
  $ with state 6 '    1AR      AR 0 0 0 -1 0 0' pairmd frame state
  pairmd: S1 BadLine 6
  [1]
  $ with state 6 '    1   AR   AR 1073741824 0 0 1 0 0' pairmd frame state
  pairmd: S1 BadLine 6
  [1]
  $ with state 6 '    1AR   AR    1073741824 0 0 1 0 0' pairmd frame state
  pairmd: S1 BadLine 6
  [1]
  $ with state 6 '1    AR      AR 1073741824 0 0 1 0 0' pairmd frame state
  pairmd: S1 BadLine 6
  [1]
  $ with state 6 '00001AR      AR 1073741824 0 0 1 0 0' pairmd frame state
  pairmd: S1 BadLine 6
  [1]
  $ with state 6 '-0001AR      AR 1073741824 0 0 1 0 0' pairmd frame state
  pairmd: S1 BadLine 6
  [1]
  $ with state 6 '   -0AR      AR 1073741824 0 0 1 0 0' pairmd frame state
  pairmd: S1 BadLine 6
  [1]
  $ with state 6 '     AR      AR 1073741824 0 0 1 0 0' pairmd frame state
  pairmd: S1 BadLine 6
  [1]
  $ with state 6 '    1AR' pairmd frame state
  pairmd: S1 BadLine 6
  [1]
  $ with state 6 '' pairmd frame state
  pairmd: S1 BadLine 6
  [1]
  $ with state 6 '    1AR      AR 1 2 3 4 5 6\r' pairmd frame state
  pairmd: S1 BadLine 6
  [1]
  $ with state 7 '' pairmd frame state
  pairmd: S1 BadLine 7
  [1]

A name consists of bytes from 32 to 126, without blanks at its ends.

  $ with state 6 '   42\x00x      \x00x 0 0 0 0 0 0' pairmd frame state
  pairmd: S1 BadLine 6
  [1]
  $ with state 6 '   42\x09x      \x09x 0 0 0 0 0 0' pairmd frame state
  pairmd: S1 BadLine 6
  [1]
  $ with state 6 '   42\x0ax      \x0ax 0 0 0 0 0 0' pairmd frame state
  pairmd: S1 BadLine 6
  [1]
  $ with state 6 '   42\x0dx      \x0dx 0 0 0 0 0 0' pairmd frame state
  pairmd: S1 BadLine 6
  [1]
  $ with state 6 '   42\x1fx      \x1fx 0 0 0 0 0 0' pairmd frame state
  pairmd: S1 BadLine 6
  [1]
  $ with state 6 '   42\x20x      \x20x 0 0 0 0 0 0' pairmd frame state
  pairmd: S1 BadLine 6
  [1]
  $ with state 6 '   42\x7fx      \x7fx 0 0 0 0 0 0' pairmd frame state
  pairmd: S1 BadLine 6
  [1]
  $ with state 6 '   42\x80x      \x80x 0 0 0 0 0 0' pairmd frame state
  pairmd: S1 BadLine 6
  [1]
  $ with state 6 '   42\xffx      \xffx 0 0 0 0 0 0' pairmd frame state
  pairmd: S1 BadLine 6
  [1]
  $ with state 6 '   42x\xc3\xa9       x 0 0 0 0 0 0' pairmd frame state
  pairmd: S1 BadLine 6
  [1]
  $ with state 6 '   42x       \x7f 0 0 0 0 0 0' pairmd frame state
  pairmd: S1 BadLine 6
  [1]
  $ with state 6 '   42x       x\t 0 0 0 0 0 0' pairmd frame state
  pairmd: S1 BadLine 6
  [1]

If a required line has no end, this error comes before errors in the line, but after errors in earlier lines.

  $ printf 'pairmd state 2' > other
  $ pairmd frame other
  pairmd: S2 Truncated
  [1]
  $ printf 'pairmd state 1\ntitle \nstep 007' > other
  $ pairmd frame other
  pairmd: S2 Truncated
  [1]
  $ printf 'pairmd state 1\ntitle \nstep 007\n' > other
  $ pairmd frame other
  pairmd: S1 BadLine 3
  [1]
  $ printf 'pairmd state 1\ntitle \nstep 007\natoms 07\n' > other
  $ pairmd frame other
  pairmd: S1 BadLine 3
  [1]
  $ printf 'pairmd state 1\ntitle \nstep 7\natoms 1\nbox 1 2 3\n' > other
  $ pairmd frame other
  pairmd: S2 Truncated
  [1]
  $ sed '7d' state > other
  $ pairmd frame other
  pairmd: S2 Truncated
  [1]

After the last atom no bytes are allowed.

  $ printf 'pairmd state 1\ntitle \nstep 7\natoms 0\nbox 1 2 3\n\n' > other
  $ pairmd frame other
  pairmd: S3 Trailing
  [1]
  $ printf 'pairmd state 1\ntitle \nstep 7\natoms 0\nbox 1 2 3\n ' > other
  $ pairmd frame other
  pairmd: S3 Trailing
  [1]
  $ printf '\n' > end
  $ cat state end > other
  $ pairmd frame other
  pairmd: S3 Trailing
  [1]
  $ with state 4 'atoms 1' pairmd frame state
  pairmd: S3 Trailing
  [1]
  $ with state 4 'atoms 3' pairmd frame state
  pairmd: S2 Truncated
  [1]
  $ with state 4 'atoms 65536' pairmd frame state
  pairmd: S2 Truncated
  [1]

The last line of a thousand atoms.

  $ printf 'pairmd state 1\ntitle many\nstep 0\natoms 1000\nbox 200000 200000 200000\n' > head
  $ yes '    1AR      AR 1073741824 0 0 1073741824 0 0' | head -n 999 > lines
  $ printf '    1AR      AR 1073741824 0 0 1073741824 0\n' > last
  $ cat head lines last > other
  $ pairmd frame other
  pairmd: S1 BadLine 1005
  [1]
  $ cat head lines > other
  $ pairmd frame other
  pairmd: S2 Truncated
  [1]
