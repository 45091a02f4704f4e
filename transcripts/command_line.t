# The command line

Help is printed on standard output, and the exit status is 0.

  $ pairmd --help
  Bit-reversible molecular dynamics of pair potentials
  
  Usage: pairmd <COMMAND>
  
  Commands:
    start       Prints the state that starts at a frame of a GRO file
    run         Prints the state n steps later
    back        Prints the state n steps earlier
    trajectory  Prints a GRO frame every k steps
    states      Prints a whole state every k steps
    replay      Compares each state of a stream with the run of the state before it
    observe     Prints a table of energies, temperature and pressure every k steps
    frame       Prints the current frame of a state as a GRO file
    energy      Prints the potential energy of a state
    forces      Prints the force on each atom of a state
    velocities  Prints the velocity of each atom of a state
    check       Verifies the job's compiled derivative
    code        Prints the job's compiled derivative as a listing
    curve       Prints the potential of each pair of types, with bounds on its errors
    explain     Explains the code of an error, or lists all codes
    help        Print this message or the help of the given subcommand(s)
  
  Options:
    -h, --help     Print help
    -V, --version  Print version
  
  Exit statuses:
    0  done
    1  job, GRO file, state, listing or run rejected
    2  misuse of the command line
    3  energy or its code rejected
    4  out of memory
    5  a file or the output failed
  
  Example:
    pairmd run argon.job start --steps 1000 --workers 4 > later
  
  'pairmd explain CODE' explains the code of an error. The manual is 'man pairmd'.
  $ pairmd help
  Bit-reversible molecular dynamics of pair potentials
  
  Usage: pairmd <COMMAND>
  
  Commands:
    start       Prints the state that starts at a frame of a GRO file
    run         Prints the state n steps later
    back        Prints the state n steps earlier
    trajectory  Prints a GRO frame every k steps
    states      Prints a whole state every k steps
    replay      Compares each state of a stream with the run of the state before it
    observe     Prints a table of energies, temperature and pressure every k steps
    frame       Prints the current frame of a state as a GRO file
    energy      Prints the potential energy of a state
    forces      Prints the force on each atom of a state
    velocities  Prints the velocity of each atom of a state
    check       Verifies the job's compiled derivative
    code        Prints the job's compiled derivative as a listing
    curve       Prints the potential of each pair of types, with bounds on its errors
    explain     Explains the code of an error, or lists all codes
    help        Print this message or the help of the given subcommand(s)
  
  Options:
    -h, --help     Print help
    -V, --version  Print version
  
  Exit statuses:
    0  done
    1  job, GRO file, state, listing or run rejected
    2  misuse of the command line
    3  energy or its code rejected
    4  out of memory
    5  a file or the output failed
  
  Example:
    pairmd run argon.job start --steps 1000 --workers 4 > later
  
  'pairmd explain CODE' explains the code of an error. The manual is 'man pairmd'.
  $ pairmd run --help
  Prints the state n steps later
  
  Usage: pairmd run [OPTIONS] --steps <n> <JOB> <STATE>
  
  Arguments:
    <JOB>    Job file: energy, core, cutoff, time step, atom types
    <STATE>  State file, as 'start' or 'run' prints it
  
  Options:
    -n, --steps <n>    Number of steps, from 0 to 1000000000000
    -w, --workers <w>  Number of threads, from 1 to 64 [default: 1]
        --progress     Report progress on standard error
    -h, --help         Print help
  $ pairmd help run
  Prints the state n steps later
  
  Usage: pairmd run [OPTIONS] --steps <n> <JOB> <STATE>
  
  Arguments:
    <JOB>    Job file: energy, core, cutoff, time step, atom types
    <STATE>  State file, as 'start' or 'run' prints it
  
  Options:
    -n, --steps <n>    Number of steps, from 0 to 1000000000000
    -w, --workers <w>  Number of threads, from 1 to 64 [default: 1]
        --progress     Report progress on standard error
    -h, --help         Print help
  $ pairmd help start
  Prints the state that starts at a frame of a GRO file
  
  Usage: pairmd start [OPTIONS] <JOB> <GRO>
  
  Arguments:
    <JOB>  Job file: energy, core, cutoff, time step, atom types
    <GRO>  GRO file
  
  Options:
        --frame <k>  Number of the frame in the GRO file, from 1 [default: 1]
    -h, --help       Print help
  $ pairmd help trajectory
  Prints a GRO frame every k steps
  
  Usage: pairmd trajectory [OPTIONS] --steps <n> --every <k> <JOB> <STATE>
  
  Arguments:
    <JOB>    Job file: energy, core, cutoff, time step, atom types
    <STATE>  State file, as 'start' or 'run' prints it
  
  Options:
    -n, --steps <n>    Number of steps, from 0 to 1000000000000
    -w, --workers <w>  Number of threads, from 1 to 64 [default: 1]
        --progress     Report progress on standard error
    -k, --every <k>    Interval between outputs, in steps, from 1 to 1000000000000
        --back         Step backwards
    -h, --help         Print help
  $ pairmd frame --help
  Prints the current frame of a state as a GRO file
  
  Usage: pairmd frame [OPTIONS] <STATE>
  
  Arguments:
    <STATE>  State file, as 'start' or 'run' prints it
  
  Options:
        --each <JOB>  Print a frame of each state of STATE, with its time under JOB
    -h, --help        Print help
  $ pairmd help check
  Verifies the job's compiled derivative
  
  Usage: pairmd check [OPTIONS] <JOB>
  
  Arguments:
    <JOB>  Job file: energy, core, cutoff, time step, atom types
  
  Options:
        --code <LISTING>  Listing to verify instead of the job's own code
        --progress        Report progress on standard error
    -h, --help            Print help
  $ pairmd help code
  Prints the job's compiled derivative as a listing
  
  Usage: pairmd code [OPTIONS] <JOB>
  
  Arguments:
    <JOB>  Job file: energy, core, cutoff, time step, atom types
  
  Options:
        --energy  Print the compiled energy instead of its derivative
    -h, --help    Print help
  $ pairmd help curve
  Prints the potential of each pair of types, with bounds on its errors
  
  Usage: pairmd curve [OPTIONS] <JOB>
  
  Arguments:
    <JOB>  Job file: energy, core, cutoff, time step, atom types
  
  Options:
        --points <n>     Number of rows after the first, from 1 to 1000000 [default: 100]
        --energy         Print only the energy and its error
        --slope          Print only the slope and its error
        --grid           Print also a bound on the part of the slope's error that comes from rounding the distance
        --types <A> <B>  Print only the table of types A and B; A is of the atom with the lower index
        --progress       Report progress on standard error
    -h, --help           Print help
  
  An error is a bound, proved for all distances from a row's up to the next row's:
  energy and slope are at most that far from the formula over exact numbers.
    -        no bound was found; a line '# no ..' names the row
    # large  a bound exceeds a thousandth of its value
    # jump   a large bound, because the energy or the slope jumps

The version is printed in the same way. `--version` is an option of the program, not of a command.

  $ pairmd --version
  pairmd 1.8.1
  $ pairmd -V
  pairmd 1.8.1
  $ pairmd --version run job
  pairmd 1.8.1
  $ outputs pairmd --version
  0-12: a beginning, pairmd: O2 CannotWrite [5]
  13: all
  $ requests pairmd --version
  pairmd: Memory [4]
  all
  $ pairmd run --version
  error: unexpected argument '--version' found
  
    tip: to pass '--version' as a value, use '-- --version'
  
  Usage: pairmd run [OPTIONS] --steps <n> <JOB> <STATE>
  
  For more information, try '--help'.
  [2]
  $ pairmd version
  error: unrecognized subcommand 'version'
  
  Usage: pairmd <COMMAND>
  
  For more information, try '--help'.
  [2]

Unknown commands and unknown options are misuse: standard output stays empty, and the exit status is 2.

  $ pairmd
  error: 'pairmd' requires a subcommand but one was not provided
    [subcommands: start, run, back, trajectory, states, replay, observe, frame, energy, forces, velocities, check, code, curve, explain, help]
  
  Usage: pairmd <COMMAND>
  
  For more information, try '--help'.
  [2]
  $ pairmd walk
  error: unrecognized subcommand 'walk'
  
  Usage: pairmd <COMMAND>
  
  For more information, try '--help'.
  [2]
  $ pairmd start job gro --steps 1
  error: unexpected argument '--steps' found
  
    tip: to pass '--steps' as a value, use '-- --steps'
  
  Usage: pairmd start <JOB> <GRO>
  
  For more information, try '--help'.
  [2]
  $ pairmd energy job state --workers 1
  error: unexpected argument '--workers' found
  
    tip: to pass '--workers' as a value, use '-- --workers'
  
  Usage: pairmd energy <JOB> <STATE>
  
  For more information, try '--help'.
  [2]

Missing arguments, one argument too many, and repeated options are misuse.

  $ pairmd run
  error: the following required arguments were not provided:
    --steps <n>
    <JOB>
    <STATE>
  
  Usage: pairmd run --steps <n> <JOB> <STATE>
  
  For more information, try '--help'.
  [2]
  $ pairmd run job state
  error: the following required arguments were not provided:
    --steps <n>
  
  Usage: pairmd run --steps <n> <JOB> <STATE>
  
  For more information, try '--help'.
  [2]
  $ pairmd run job --steps 1
  error: the following required arguments were not provided:
    <STATE>
  
  Usage: pairmd run --steps <n> <JOB> <STATE>
  
  For more information, try '--help'.
  [2]
  $ pairmd start job
  error: the following required arguments were not provided:
    <GRO>
  
  Usage: pairmd start <JOB> <GRO>
  
  For more information, try '--help'.
  [2]
  $ pairmd frame
  error: the following required arguments were not provided:
    <STATE>
  
  Usage: pairmd frame <STATE>
  
  For more information, try '--help'.
  [2]
  $ pairmd energy job
  error: the following required arguments were not provided:
    <STATE>
  
  Usage: pairmd energy <JOB> <STATE>
  
  For more information, try '--help'.
  [2]
  $ pairmd back job state more --steps 1
  error: unexpected argument 'more' found
  
  Usage: pairmd back [OPTIONS] --steps <n> <JOB> <STATE>
  
  For more information, try '--help'.
  [2]
  $ pairmd check job listing
  error: unexpected argument 'listing' found
  
  Usage: pairmd check [OPTIONS] <JOB>
  
  For more information, try '--help'.
  [2]
  $ pairmd run job state --steps 1 --steps 2
  error: the argument '--steps <n>' cannot be used multiple times
  
  Usage: pairmd run [OPTIONS] --steps <n> <JOB> <STATE>
  
  For more information, try '--help'.
  [2]
  $ pairmd run job state -n 1 --steps 2
  error: the argument '--steps <n>' cannot be used multiple times
  
  Usage: pairmd run [OPTIONS] --steps <n> <JOB> <STATE>
  
  For more information, try '--help'.
  [2]
  $ pairmd run job state -n
  error: a value is required for '--steps <n>' but none was supplied
  
  For more information, try '--help'.
  [2]
  $ pairmd run job state -k 1 -n 1
  error: unexpected argument '-k' found
  
    tip: to pass '-k' as a value, use '-- -k'
  
  Usage: pairmd run [OPTIONS] --steps <n> <JOB> <STATE>
  
  For more information, try '--help'.
  [2]
  $ pairmd run job state -n1w2
  error: invalid value '1w2' for '--steps <n>': not a number from 0 to 1000000000000, such as 5000 or 1e6
  
  Usage: pairmd run [OPTIONS] --steps <n> <JOB> <STATE>
  
  For more information, try '--help'.
  [2]
  $ pairmd states job state -n 1
  error: the following required arguments were not provided:
    --every <k>
  
  Usage: pairmd states --steps <n> --every <k> <JOB> <STATE>
  
  For more information, try '--help'.
  [2]
  $ pairmd curve job --energy --energy
  error: the argument '--energy' cannot be used multiple times
  
  Usage: pairmd curve [OPTIONS] <JOB>
  
  For more information, try '--help'.
  [2]
  $ pairmd code job --energy --energy
  error: the argument '--energy' cannot be used multiple times
  
  Usage: pairmd code [OPTIONS] <JOB>
  
  For more information, try '--help'.
  [2]
  $ pairmd code job --slope
  error: unexpected argument '--slope' found
  
    tip: to pass '--slope' as a value, use '-- --slope'
  
  Usage: pairmd code <JOB>
  
  For more information, try '--help'.
  [2]

`--types` takes two names, once. A name can't begin with a minus sign, unless it is only that.

  $ pairmd curve job --types
  error: a value is required for '--types <A> <B>' but none was supplied
  
  For more information, try '--help'.
  [2]
  $ pairmd curve job --types AR
  error: 2 values required for '--types <A> <B>' but 1 was provided
  
  Usage: pairmd curve [OPTIONS] <JOB>
  
  For more information, try '--help'.
  [2]
  $ pairmd curve job --types=AR AR
  error: 2 values required for '--types <A> <B>' but 1 was provided
  
  Usage: pairmd curve [OPTIONS] <JOB>
  
  For more information, try '--help'.
  [2]
  $ pairmd curve job --types AR AR AR
  error: unexpected argument 'AR' found
  
  Usage: pairmd curve [OPTIONS] <JOB>
  
  For more information, try '--help'.
  [2]
  $ pairmd curve job --types AR AR --types AR AR
  error: the argument '--types <A> <B>' cannot be used multiple times
  
  Usage: pairmd curve [OPTIONS] <JOB>
  
  For more information, try '--help'.
  [2]
  $ pairmd curve job --types AR -
  pairmd: J6 NoSuchType -
  [1]
  $ pairmd curve job --types -A AR
  error: unexpected argument '-A' found
  
    tip: to pass '-A' as a value, use '-- -A'
  
  Usage: pairmd curve [OPTIONS] <JOB>
  
  For more information, try '--help'.
  [2]

A number of steps may have an exponent of 10, of at most 12.

  $ pairmd run job state --steps 100 > later
  $ pairmd run job state --steps 1e2 > again
  $ cmp later again
  $ pairmd back job later -n +10E1
  pairmd state 1
  title two atoms
  step 0
  atoms 2
  box 200000 200000 200000
      1AR      AR 1073741824 0 0 1073741824 0 0
      1AR      AR 2147483648 0 0 2147483648 0 0
  $ pairmd states job state --steps 0e12 --every 1e0 > one
  $ cmp state one
  $ pairmd run job job --steps 1e12
  pairmd: S1 BadLine 1
  [1]
  $ pairmd run job job --steps 1000000000000e0
  pairmd: S1 BadLine 1
  [1]
  $ pairmd run job state --steps 1e13
  error: invalid value '1e13' for '--steps <n>': not a number from 0 to 1000000000000, such as 5000 or 1e6
  
  Usage: pairmd run [OPTIONS] --steps <n> <JOB> <STATE>
  
  For more information, try '--help'.
  [2]
  $ pairmd run job state --steps 10e12
  error: invalid value '10e12' for '--steps <n>': not a number from 0 to 1000000000000, such as 5000 or 1e6
  
  Usage: pairmd run [OPTIONS] --steps <n> <JOB> <STATE>
  
  For more information, try '--help'.
  [2]
  $ pairmd run job state --steps 0e13
  error: invalid value '0e13' for '--steps <n>': not a number from 0 to 1000000000000, such as 5000 or 1e6
  
  Usage: pairmd run [OPTIONS] --steps <n> <JOB> <STATE>
  
  For more information, try '--help'.
  [2]
  $ pairmd run job state --steps 1e
  error: invalid value '1e' for '--steps <n>': not a number from 0 to 1000000000000, such as 5000 or 1e6
  
  Usage: pairmd run [OPTIONS] --steps <n> <JOB> <STATE>
  
  For more information, try '--help'.
  [2]
  $ pairmd run job state --steps e3
  error: invalid value 'e3' for '--steps <n>': not a number from 0 to 1000000000000, such as 5000 or 1e6
  
  Usage: pairmd run [OPTIONS] --steps <n> <JOB> <STATE>
  
  For more information, try '--help'.
  [2]
  $ pairmd run job state --steps 1e+2
  error: invalid value '1e+2' for '--steps <n>': not a number from 0 to 1000000000000, such as 5000 or 1e6
  
  Usage: pairmd run [OPTIONS] --steps <n> <JOB> <STATE>
  
  For more information, try '--help'.
  [2]
  $ pairmd run job state --steps 1.5e3
  error: invalid value '1.5e3' for '--steps <n>': not a number from 0 to 1000000000000, such as 5000 or 1e6
  
  Usage: pairmd run [OPTIONS] --steps <n> <JOB> <STATE>
  
  For more information, try '--help'.
  [2]
  $ pairmd run job state --steps 1e2e1
  error: invalid value '1e2e1' for '--steps <n>': not a number from 0 to 1000000000000, such as 5000 or 1e6
  
  Usage: pairmd run [OPTIONS] --steps <n> <JOB> <STATE>
  
  For more information, try '--help'.
  [2]
  $ pairmd observe job state --steps 1e1 --every 0e3
  error: invalid value '0e3' for '--every <k>': not a number from 1 to 1000000000000, such as 50 or 1e3
  
  Usage: pairmd observe [OPTIONS] <JOB> <STATE>
  
  For more information, try '--help'.
  [2]
  $ pairmd back job state --steps two
  error: invalid value 'two' for '--steps <n>': not a number from 0 to 1000000000000, such as 5000 or 1e6
  
  Usage: pairmd back [OPTIONS] --steps <n> <JOB> <STATE>
  
  For more information, try '--help'.
  [2]
  $ pairmd states job state --steps 1 --every 1000000000001
  error: invalid value '1000000000001' for '--every <k>': not a number from 1 to 1000000000000, such as 50 or 1e3
  
  Usage: pairmd states [OPTIONS] --steps <n> --every <k> <JOB> <STATE>
  
  For more information, try '--help'.
  [2]

Malformed numbers and numbers out of range are misuse.

  $ pairmd run job state --steps x
  error: invalid value 'x' for '--steps <n>': not a number from 0 to 1000000000000, such as 5000 or 1e6
  
  Usage: pairmd run [OPTIONS] --steps <n> <JOB> <STATE>
  
  For more information, try '--help'.
  [2]
  $ pairmd run job state --steps -1
  error: unexpected argument '-1' found
  
    tip: to pass '-1' as a value, use '-- -1'
  
  Usage: pairmd run [OPTIONS] --steps <n> <JOB> <STATE>
  
  For more information, try '--help'.
  [2]
  $ pairmd run job state --steps=-1
  error: invalid value '-1' for '--steps <n>': not a number from 0 to 1000000000000, such as 5000 or 1e6
  
  Usage: pairmd run [OPTIONS] --steps <n> <JOB> <STATE>
  
  For more information, try '--help'.
  [2]
  $ pairmd run job state --steps 1000000000001
  error: invalid value '1000000000001' for '--steps <n>': not a number from 0 to 1000000000000, such as 5000 or 1e6
  
  Usage: pairmd run [OPTIONS] --steps <n> <JOB> <STATE>
  
  For more information, try '--help'.
  [2]
  $ pairmd run job state --steps 1 --workers 0
  error: invalid value '0' for '--workers <w>': 0 is not in 1..=64
  
  For more information, try '--help'.
  [2]
  $ pairmd back job state --steps 1 --workers 65
  error: invalid value '65' for '--workers <w>': 65 is not in 1..=64
  
  For more information, try '--help'.
  [2]
  $ pairmd run job state --steps 1 --workers two
  error: invalid value 'two' for '--workers <w>': invalid digit found in string
  
  For more information, try '--help'.
  [2]
  $ pairmd start job gro --frame 0
  error: invalid value '0' for '--frame <k>': 0 is not in 1..18446744073709551615
  
  For more information, try '--help'.
  [2]
  $ pairmd start job gro --frame 18446744073709551616
  error: invalid value '18446744073709551616' for '--frame <k>': number too large to fit in target type
  
  For more information, try '--help'.
  [2]

Options may come before, between and after the files. File names may contain blanks.

  $ cat job > 'a job'
  $ cat state > 'a state'
  $ cat gro > 'a file'
  $ printf 'pairmd code 1\npush 7\n' > 'a listing'
  $ pairmd run --steps 0 'a job' 'a state'
  pairmd state 1
  title two atoms
  step 0
  atoms 2
  box 200000 200000 200000
      1AR      AR 1073741824 0 0 1073741824 0 0
      1AR      AR 2147483648 0 0 2147483648 0 0
  $ pairmd back --steps 0 'a job' 'a state'
  pairmd state 1
  title two atoms
  step 0
  atoms 2
  box 200000 200000 200000
      1AR      AR 1073741824 0 0 1073741824 0 0
      1AR      AR 2147483648 0 0 2147483648 0 0
  $ pairmd start job 'a file'
  pairmd state 1
  title two atoms
  step 0
  atoms 2
  box 200000 200000 200000
      1AR      AR 1073741824 0 0 1073741824 0 0
      1AR      AR 2147483648 0 0 2147483648 0 0
  $ pairmd frame 'a state'
  two atoms
      2
      1AR      AR    1   0.500   0.000   0.000
      1AR      AR    2   1.000   0.000   0.000
     2.00000   2.00000   2.00000
  $ pairmd energy 'a job' 'a state'
  energy 8589934592
  $ pairmd check 'a job'
  accepted: steps 9, bound 107374182926
  $ pairmd check --code 'a listing' 'a job'
  accepted: steps 1, bound 7
  $ pairmd check 'a job' '--code=a listing'
  accepted: steps 1, bound 7
  $ pairmd code 'a job'
  pairmd code 1
  push 4294967296
  push 4294967296
  mul
  neg
  input 0
  keep 0
  get 0
  sq
  div

The number of workers (threads) is 1 unless `--workers` sets it.

  $ pairmd run job --workers 1 state --steps 1
  pairmd state 1
  title two atoms
  step 1
  atoms 2
  box 200000 200000 200000
      1AR      AR 1073741824 0 0 1073707464 0 0
      1AR      AR 2147483648 0 0 2147518008 0 0
  $ pairmd run job --workers 2 state --steps 1
  pairmd state 1
  title two atoms
  step 1
  atoms 2
  box 200000 200000 200000
      1AR      AR 1073741824 0 0 1073707464 0 0
      1AR      AR 2147483648 0 0 2147518008 0 0
  $ pairmd run job --workers 64 state --steps 1
  pairmd state 1
  title two atoms
  step 1
  atoms 2
  box 200000 200000 200000
      1AR      AR 1073741824 0 0 1073707464 0 0
      1AR      AR 2147483648 0 0 2147518008 0 0

The greatest number of steps would move the step counter just out of its range.

  $ with state 3 'step 9223371036854775808' pairmd run job --steps 1000000000000 state
  pairmd: A4 StepRange
  [1]
  $ with state 3 'step -9223371036854775809' pairmd back job --steps 1000000000000 state
  pairmd: A4 StepRange
  [1]

The default is frame 1, the first; `--frame` selects another. Each of these seven frames has its own title.

  $ sed '1c frame 1' gro > frame_1
  $ sed '1c frame 2' gro > frame_2
  $ sed '1c frame 3' gro > frame_3
  $ sed '1c frame 4' gro > frame_4
  $ sed '1c frame 5' gro > frame_5
  $ sed '1c frame 6' gro > frame_6
  $ sed '1c frame 7' gro > frame_7
  $ cat frame_1 frame_2 frame_3 frame_4 frame_5 frame_6 frame_7 > 'a file'
  $ pairmd start job 'a file'
  pairmd state 1
  title frame 1
  step 0
  atoms 2
  box 200000 200000 200000
      1AR      AR 1073741824 0 0 1073741824 0 0
      1AR      AR 2147483648 0 0 2147483648 0 0
  $ pairmd start job --frame 7 'a file'
  pairmd state 1
  title frame 7
  step 0
  atoms 2
  box 200000 200000 200000
      1AR      AR 1073741824 0 0 1073741824 0 0
      1AR      AR 2147483648 0 0 2147483648 0 0
  $ pairmd start --frame=8 job 'a file'
  pairmd: G8 NoSuchFrame
  [1]
  $ pairmd start --frame=18446744073709551615 job 'a file'
  pairmd: G8 NoSuchFrame
  [1]

An argument that isn't UTF-8 is misuse.

  $ pairmd $'\xff'
  error: a word of the command line is not UTF-8 text
  [2]
