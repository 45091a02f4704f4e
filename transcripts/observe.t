# Tables of runs

## Table rows

Two atoms at rest, 0.5 nm apart: 1/r is 2 kJ/mol, and each force is 4 kJ/mol/nm. The next step moves the atoms apart, so
there is kinetic energy at once. Any number of workers prints the same table rows.

  $ workers pairmd observe job state --steps 2 --every 1
  # step time/ps potential/(kJ/mol) kinetic/(kJ/mol) total/(kJ/mol) temperature/K pressure/bar momentum-x/(u.nm/ps) momentum-y momentum-z nearest/nm core-pairs
  0 0.000 2.000000 0.000032 2.000032 0.003 1.384 0.000000 0.000000 0.000000 0.500000 0
  1 0.002 1.999872 0.000160 2.000032 0.013 1.384 0.000000 0.000000 0.000000 0.500032 0
  2 0.004 1.999616 0.000416 2.000032 0.033 1.384 0.000000 0.000000 0.000000 0.500096 0
  $ workers pairmd observe job state --steps 2 --every 1 --exact
  # step time/fs potential/(2^-bits.kJ/mol) squares-x/(1e-5.u.place^2) squares-y squares-z virial-x/(2^-bits.kJ/mol/nm.place) virial-y virial-z momentum-x/(1e-5.u.place) momentum-y momentum-z nearest/(2^-bits.nm) core-pairs
  0 0 8589934592 236121920000000 0 0 18446744073709551616 0 0 0 0 0 2147483648 0
  1 2 8589384867 1180472165000000 0 0 18445563556071896928 0 0 0 0 0 2147621088 0
  2 4 8588285708 3068705413800000 0 0 18443203133913632382 0 0 0 0 0 2147895948 0
  $ pairmd energy job state
  energy 8589934592
  $ pairmd forces job state
      1AR      AR -17179869184 0 0
      1AR      AR 17179869184 0 0

A single atom moves an eighth of the side, 0.25 nm, in each step of 2 fs. At 125 nm/ps it has a momentum of 125 u nm/ps
and a kinetic energy of 7812.5 kJ/mol. The pressure is 15625 kJ/mol divided by 3 V = 24 nm^3, which is 10810.8 bar. The
temperature and the nearest distance are undefined.

  $ cat > point << END
  > pairmd state 1
  > title point
  > step -7
  > atoms 1
  > box 200000 200000 200000
  >     1AR      AR 4026531840 0 0 268435456 0 0
  > END
  $ workers pairmd observe job point --steps 1 --every 1
  # step time/ps potential/(kJ/mol) kinetic/(kJ/mol) total/(kJ/mol) temperature/K pressure/bar momentum-x/(u.nm/ps) momentum-y momentum-z nearest/nm core-pairs
  -7 -0.014 0.000000 7812.500000 7812.500000 - 10810.801 125.000000 0.000000 0.000000 - 0
  -6 -0.012 0.000000 7812.500000 7812.500000 - 10810.801 125.000000 0.000000 0.000000 - 0
  $ pairmd observe job point --steps 1 --every 1 --exact
  # step time/fs potential/(2^-bits.kJ/mol) squares-x/(1e-5.u.place^2) squares-y squares-z virial-x/(2^-bits.kJ/mol/nm.place) virial-y virial-z momentum-x/(1e-5.u.place) momentum-y momentum-z nearest/(2^-bits.nm) core-pairs
  -7 -14 0 57646075230342348800000 0 0 0 0 0 53687091200000 0 0 - 0
  -6 -12 0 57646075230342348800000 0 0 0 0 0 53687091200000 0 0 - 0
  $ with job 7 'type AR 0.00001' with point 6 '    1AR      AR 0 0 0 0 4294967295 1' pairmd observe job point --steps 0 --every 1
  # step time/ps potential/(kJ/mol) kinetic/(kJ/mol) total/(kJ/mol) temperature/K pressure/bar momentum-x/(u.nm/ps) momentum-y momentum-z nearest/nm core-pairs
  -7 -0.014 0.000000 0.000000 0.000000 - 0.000 0.000000 0.000000 0.000000 - 0
  $ with job 7 'type AR 0.00001' with point 6 '    1AR      AR 0 0 0 0 4294967295 1' pairmd observe job point --steps 0 --every 1 --exact
  # step time/fs potential/(2^-bits.kJ/mol) squares-x/(1e-5.u.place^2) squares-y squares-z virial-x/(2^-bits.kJ/mol/nm.place) virial-y virial-z momentum-x/(1e-5.u.place) momentum-y momentum-z nearest/(2^-bits.nm) core-pairs
  -7 -14 0 0 2 2 0 0 0 0 -1 1 - 0

With `--tensor` the components of the pressure tensor follow. Those of a motion and of forces along x are 0, except for
the first, which is three times the pressure.

  $ workers pairmd observe job state --tensor
  # step time/ps potential/(kJ/mol) kinetic/(kJ/mol) total/(kJ/mol) temperature/K pressure/bar momentum-x/(u.nm/ps) momentum-y momentum-z nearest/nm core-pairs pressure-xx/bar pressure-yy pressure-zz pressure-xy pressure-xz pressure-yz
  0 0.000 2.000000 0.000032 2.000032 0.003 1.384 0.000000 0.000000 0.000000 0.500000 0 4.151 0.000 0.000 0.000 0.000 0.000
  $ pairmd observe job point --tensor
  # step time/ps potential/(kJ/mol) kinetic/(kJ/mol) total/(kJ/mol) temperature/K pressure/bar momentum-x/(u.nm/ps) momentum-y momentum-z nearest/nm core-pairs pressure-xx/bar pressure-yy pressure-zz pressure-xy pressure-xz pressure-yz
  -7 -0.014 0.000000 7812.500000 7812.500000 - 10810.801 125.000000 0.000000 0.000000 - 0 32432.404 0.000 0.000 0.000 0.000 0.000

In a box of three sides, the force along x times the separation along y isn't the force along y times the separation
along x: lengths are in grid units. The first three components add up to three times the pressure.

  $ cat > aslant << END
  > pairmd state 1
  > title aslant
  > step 0
  > atoms 2
  > box 200000 250000 300000
  >     1AR      AR 0 0 0 1000000 3000000 0
  >     1AR      AR 644245094 687194767 4294000000 644245094 687194767 4294967000
  > END
  $ workers pairmd observe job aslant --tensor
  # step time/ps potential/(kJ/mol) kinetic/(kJ/mol) total/(kJ/mol) temperature/K pressure/bar momentum-x/(u.nm/ps) momentum-y momentum-z nearest/nm core-pairs pressure-xx/bar pressure-yy pressure-zz pressure-xy pressure-xz pressure-yz
  0 0.000 2.006726 0.461956 2.468683 37.040 1.081 0.232831 0.873115 0.337721 0.498324 0 0.861 2.257 0.126 1.289 0.001 0.001
  $ workers pairmd observe job aslant --exact --tensor
  # step time/fs potential/(2^-bits.kJ/mol) squares-x/(1e-5.u.place^2) squares-y squares-z virial-x/(2^-bits.kJ/mol/nm.place) virial-y virial-z momentum-x/(1e-5.u.place) momentum-y momentum-z nearest/(2^-bits.nm) core-pairs products-xy/(1e-5.u.place^2) products-xz products-yz virial-xy/(2^-bits.kJ/mol/nm.place) virial-yx virial-xz virial-zx virial-yz virial-zy
  0 0 8618823571 195928061452800000 1786828223491200000 187017800000000000 6687246764476261504 9457228745614287407 2123800 100000000000 300000000000 96700000000 2140285611 0 591642767174400000 2010586400000000 2138617200000000 7112964070103486272 8891205087881305574 -3077248564736 -4615283549450 -4091436888616 -4909097453225
  $ pairmd observe job aslant --tensor --each
  # step time/ps potential/(kJ/mol) kinetic/(kJ/mol) total/(kJ/mol) temperature/K pressure/bar momentum-x/(u.nm/ps) momentum-y momentum-z nearest/nm core-pairs pressure-xx/bar pressure-yy pressure-zz pressure-xy pressure-xz pressure-yz
  0 0.000 2.006726 0.461956 2.468683 37.040 1.081 0.232831 0.873115 0.337721 0.498324 0 0.861 2.257 0.126 1.289 0.001 0.001

A state without atoms has energy 0 and pressure 0.

  $ printf 'pairmd state 1\ntitle nothing\nstep 1000\natoms 0\nbox 200000 200000 300000\n' > nothing
  $ pairmd observe job nothing --steps 2 --every 2
  # step time/ps potential/(kJ/mol) kinetic/(kJ/mol) total/(kJ/mol) temperature/K pressure/bar momentum-x/(u.nm/ps) momentum-y momentum-z nearest/nm core-pairs
  1000 2.000 0.000000 0.000000 0.000000 - 0.000 0.000000 0.000000 0.000000 - 0
  1002 2.004 0.000000 0.000000 0.000000 - 0.000 0.000000 0.000000 0.000000 - 0
  $ pairmd observe job nothing --steps 2 --every 2 --exact
  # step time/fs potential/(2^-bits.kJ/mol) squares-x/(1e-5.u.place^2) squares-y squares-z virial-x/(2^-bits.kJ/mol/nm.place) virial-y virial-z momentum-x/(1e-5.u.place) momentum-y momentum-z nearest/(2^-bits.nm) core-pairs
  1000 2000 0 0 0 0 0 0 0 0 0 0 - 0
  1002 2004 0 0 0 0 0 0 0 0 0 0 - 0

Two atoms that approach each other have a temperature. Beyond the cutoff the potential energy is 0 and there is no
nearest pair.

  $ with state 6 '    1AR      AR 0 0 0 4294967 0 0' with state 7 '    1AR      AR 2147483648 0 0 2143188681 0 0' pairmd observe job state --steps 0 --every 1
  # step time/ps potential/(kJ/mol) kinetic/(kJ/mol) total/(kJ/mol) temperature/K pressure/bar momentum-x/(u.nm/ps) momentum-y momentum-z nearest/nm core-pairs
  0 0.000 0.000000 1.000000 1.000000 80.182 1.384 0.000000 0.000000 0.000000 - 0
  $ with state 6 '    1AR      AR 0 0 0 4294967 0 0' with state 7 '    1AR      AR 2147483648 0 0 2143188681 0 0' pairmd observe job state --steps 0 --every 1 --exact
  # step time/fs potential/(2^-bits.kJ/mol) squares-x/(1e-5.u.place^2) squares-y squares-z virial-x/(2^-bits.kJ/mol/nm.place) virial-y virial-z momentum-x/(1e-5.u.place) momentum-y momentum-z nearest/(2^-bits.nm) core-pairs
  0 0 0 7378696612435600000 0 0 0 0 0 0 0 0 - 0

At the same position the energy is the energy at the core, the force 0 and the distance 0. A pair across the edge of the
box is near too.

  $ with state 7 '    1AR      AR 1073741824 0 0 1073741824 0 0' pairmd observe job state --steps 1 --every 1
  # step time/ps potential/(kJ/mol) kinetic/(kJ/mol) total/(kJ/mol) temperature/K pressure/bar momentum-x/(u.nm/ps) momentum-y momentum-z nearest/nm core-pairs
  0 0.000 5.000000 0.000000 5.000000 0.000 0.000 0.000000 0.000000 0.000000 0.000000 1
  1 0.002 5.000000 0.000000 5.000000 0.000 0.000 0.000000 0.000000 0.000000 0.000000 1
  $ with state 7 '    1AR      AR 1073741824 0 0 1073741824 0 0' pairmd observe job state --steps 1 --every 1 --exact
  # step time/fs potential/(2^-bits.kJ/mol) squares-x/(1e-5.u.place^2) squares-y squares-z virial-x/(2^-bits.kJ/mol/nm.place) virial-y virial-z momentum-x/(1e-5.u.place) momentum-y momentum-z nearest/(2^-bits.nm) core-pairs
  0 0 21474836485 0 0 0 0 0 0 0 0 0 0 1
  1 2 21474836485 0 0 0 0 0 0 0 0 0 0 1
  $ with state 6 '    1AR      AR 0 0 0 0 0 0' with state 7 '    1AR      AR 3221225472 0 0 3221225472 0 0' pairmd observe job state --steps 0 --every 1 --exact
  # step time/fs potential/(2^-bits.kJ/mol) squares-x/(1e-5.u.place^2) squares-y squares-z virial-x/(2^-bits.kJ/mol/nm.place) virial-y virial-z momentum-x/(1e-5.u.place) momentum-y momentum-z nearest/(2^-bits.nm) core-pairs
  0 0 8589934592 236121920000000 0 0 18446744073709551616 0 0 0 0 0 2147483648 0

A pair is nearer than the core if its distance, rounded down as for forces, is below the core: 0.25 nm isn't, one grid
unit of 2^-31 nm less is. Of the pairs of three atoms at the edge of the box all are nearer, of two at a core of 0 none.

  $ with job 3 'core 0.25' with state 7 '    1AR      AR 1610612736 0 0 1610612736 0 0' pairmd observe job state --exact
  # step time/fs potential/(2^-bits.kJ/mol) squares-x/(1e-5.u.place^2) squares-y squares-z virial-x/(2^-bits.kJ/mol/nm.place) virial-y virial-z momentum-x/(1e-5.u.place) momentum-y momentum-z nearest/(2^-bits.nm) core-pairs
  0 0 17179869184 3777895744200000 0 0 36893488147419103232 0 0 0 0 0 1073741824 0
  $ with job 3 'core 0.25' with state 7 '    1AR      AR 1610612735 0 0 1610612735 0 0' pairmd observe job state --exact
  # step time/fs potential/(2^-bits.kJ/mol) squares-x/(1e-5.u.place^2) squares-y squares-z virial-x/(2^-bits.kJ/mol/nm.place) virial-y virial-z momentum-x/(1e-5.u.place) momentum-y momentum-z nearest/(2^-bits.nm) core-pairs
  0 0 17179869184 3777895744200000 0 0 36893488078699626496 0 0 0 0 0 1073741822 1
  $ with job 3 'core 0.25' with job 6 'bits 24' with state 7 '    1AR      AR 1610612736 0 0 1610612736 0 0' with state 3 'step 0\nbits 24' with state 1 'pairmd state 2' pairmd observe job state --exact
  # step time/fs potential/(2^-bits.kJ/mol) squares-x/(1e-5.u.place^2) squares-y squares-z virial-x/(2^-bits.kJ/mol/nm.place) virial-y virial-z momentum-x/(1e-5.u.place) momentum-y momentum-z nearest/(2^-bits.nm) core-pairs
  0 0 67108864 3777895744200000 0 0 144115188075855872 0 0 0 0 0 4194304 0
  $ with job 3 'core 0.25' with job 6 'bits 24' with state 7 '    1AR      AR 1610612735 0 0 1610612735 0 0' with state 3 'step 0\nbits 24' with state 1 'pairmd state 2' pairmd observe job state --exact
  # step time/fs potential/(2^-bits.kJ/mol) squares-x/(1e-5.u.place^2) squares-y squares-z virial-x/(2^-bits.kJ/mol/nm.place) virial-y virial-z momentum-x/(1e-5.u.place) momentum-y momentum-z nearest/(2^-bits.nm) core-pairs
  0 0 67108864 3777895744200000 0 0 144115187807420416 0 0 0 0 0 4194303 1
  $ with job 3 'core 0.25' with job 6 'bits 40' with state 7 '    1AR      AR 1610612736 0 0 1610612736 0 0' with state 3 'step 0\nbits 40' with state 1 'pairmd state 2' pairmd observe job state --exact
  # step time/fs potential/(2^-bits.kJ/mol) squares-x/(1e-5.u.place^2) squares-y squares-z virial-x/(2^-bits.kJ/mol/nm.place) virial-y virial-z momentum-x/(1e-5.u.place) momentum-y momentum-z nearest/(2^-bits.nm) core-pairs
  0 0 4398046511104 3777895744200000 0 0 9444732965739290427392 0 0 0 0 0 274877906944 0
  $ with job 3 'core 0.25' with job 6 'bits 40' with state 7 '    1AR      AR 1610612735 0 0 1610612735 0 0' with state 3 'step 0\nbits 40' with state 1 'pairmd state 2' pairmd observe job state --exact
  # step time/fs potential/(2^-bits.kJ/mol) squares-x/(1e-5.u.place^2) squares-y squares-z virial-x/(2^-bits.kJ/mol/nm.place) virial-y virial-z momentum-x/(1e-5.u.place) momentum-y momentum-z nearest/(2^-bits.nm) core-pairs
  0 0 4398046511104 3777895744200000 0 0 9444732948147104382976 0 0 0 0 0 274877906432 1
  $ cat > close << END
  > pairmd state 1
  > title three atoms
  > step 0
  > atoms 3
  > box 200000 200000 200000
  >     1AR      AR 0 0 0 0 0 0
  >     2AR      AR 4294967295 0 0 4294967295 0 0
  >     3AR      AR 100 0 0 100 0 0
  > END
  $ workers pairmd observe job close --steps 1 --every 1
  # step time/ps potential/(kJ/mol) kinetic/(kJ/mol) total/(kJ/mol) temperature/K pressure/bar momentum-x/(u.nm/ps) momentum-y momentum-z nearest/nm core-pairs
  0 0.000 15.000000 0.005000 15.005000 0.200 0.007 0.000000 0.000000 0.000000 0.000000 3
  1 0.002 15.000000 0.025000 15.025000 1.002 0.048 0.000000 0.000000 0.000000 0.000200 3
  $ pairmd observe job close --exact
  # step time/fs potential/(2^-bits.kJ/mol) squares-x/(1e-5.u.place^2) squares-y squares-z virial-x/(2^-bits.kJ/mol/nm.place) virial-y virial-z momentum-x/(1e-5.u.place) momentum-y momentum-z nearest/(2^-bits.nm) core-pairs
  0 0 64424509455 36893534601800000 0 0 21689584951052 0 0 0 0 0 2 3
  $ with job 2 'energy r' with job 3 'core 0' with state 7 '    1AR      AR 1073741824 0 0 1073741824 0 0' pairmd observe job state
  # step time/ps potential/(kJ/mol) kinetic/(kJ/mol) total/(kJ/mol) temperature/K pressure/bar momentum-x/(u.nm/ps) momentum-y momentum-z nearest/nm core-pairs
  0 0.000 0.000000 0.000000 0.000000 0.000 0.000 0.000000 0.000000 0.000000 0.000000 0

Three atoms of two masses in a box with three different sides.

  $ cat > three << END
  > pairmd state 1
  > title three
  > step 12
  > atoms 3
  > box 200000 250000 300000
  >     1AR      AR 4294960000 5 17 9000 4294960000 100
  >     2B        B 1000000000 4294000000 7 1000004000 4294002000 7
  >     3AR      AR 4000000000 1000000000 9 3999990000 999980000 12
  > END
  $ with job 7 'type AR 39.948\ntype B 4.0026' workers pairmd observe job three --steps 40 --every 20
  # step time/ps potential/(kJ/mol) kinetic/(kJ/mol) total/(kJ/mol) temperature/K pressure/bar momentum-x/(u.nm/ps) momentum-y momentum-z nearest/nm core-pairs
  12 0.024 5.012170 0.001152 5.013322 0.046 1.850 0.062288 -0.315082 0.001200 0.465659 0
  32 0.064 5.005379 0.007944 5.013322 0.318 1.853 0.062296 -0.315035 0.001200 0.466810 0
  52 0.104 4.984190 0.029132 5.013322 1.168 1.861 0.062284 -0.315057 0.001200 0.470360 0
  $ with job 7 'type AR 39.948\ntype B 4.0026' workers pairmd observe job three --steps 40 --every 20 --exact
  # step time/fs potential/(2^-bits.kJ/mol) squares-x/(1e-5.u.place^2) squares-y squares-z virial-x/(2^-bits.kJ/mol/nm.place) virial-y virial-z momentum-x/(1e-5.u.place) momentum-y momentum-z nearest/(2^-bits.nm) core-pairs
  12 24 21527108257 2951566272891840 3551149138834560 55112260800 26309740469860456088 15935498035263497360 365681 26752300800 -108261514800 343552800 1999991434 0
  32 64 21497936987 53101870958211300 3527979774663300 55112260800 26268354034943742003 15918491312312955188 130603069 26756140680 -108245355180 343552800 2004933547 0
  52 104 21406932800 200368945981589400 9335957478173400 55112260800 26126423751735264506 15875691536030575899 487286481 26750784420 -108252639300 343552800 2020181314 0

## Bits, steps and times

With 24 and with 40 fraction bits.

  $ with job 6 'bits 24' pairmd start job gro > begun
  $ with job 6 'bits 24' pairmd observe job begun --steps 1 --every 1
  # step time/ps potential/(kJ/mol) kinetic/(kJ/mol) total/(kJ/mol) temperature/K pressure/bar momentum-x/(u.nm/ps) momentum-y momentum-z nearest/nm core-pairs
  0 0.000 2.000000 0.000032 2.000032 0.003 1.384 0.000000 0.000000 0.000000 0.500000 0
  1 0.002 1.999872 0.000160 2.000032 0.013 1.384 0.000000 0.000000 0.000000 0.500032 0
  $ with job 6 'bits 24' pairmd observe job begun --steps 1 --every 1 --exact
  # step time/fs potential/(2^-bits.kJ/mol) squares-x/(1e-5.u.place^2) squares-y squares-z virial-x/(2^-bits.kJ/mol/nm.place) virial-y virial-z momentum-x/(1e-5.u.place) momentum-y momentum-z nearest/(2^-bits.nm) core-pairs
  0 0 33554432 236121920000000 0 0 72057594037927936 0 0 0 0 0 8388608 0
  1 2 33552288 1180472165000000 0 0 72052998907457760 0 0 0 0 0 8389144 0
  $ with job 6 'bits 40' pairmd start job gro > begun
  $ with job 6 'bits 40' pairmd observe job begun --steps 1 --every 1
  # step time/ps potential/(kJ/mol) kinetic/(kJ/mol) total/(kJ/mol) temperature/K pressure/bar momentum-x/(u.nm/ps) momentum-y momentum-z nearest/nm core-pairs
  0 0.000 2.000000 0.000032 2.000032 0.003 1.384 0.000000 0.000000 0.000000 0.500000 0
  1 0.002 1.999872 0.000160 2.000032 0.013 1.384 0.000000 0.000000 0.000000 0.500032 0
  $ with job 6 'bits 40' pairmd observe job begun --steps 1 --every 1 --exact
  # step time/fs potential/(2^-bits.kJ/mol) squares-x/(1e-5.u.place^2) squares-y squares-z virial-x/(2^-bits.kJ/mol/nm.place) virial-y virial-z momentum-x/(1e-5.u.place) momentum-y momentum-z nearest/(2^-bits.nm) core-pairs
  0 0 2199023255552 236121920000000 0 0 4722366482869645213696 0 0 0 0 0 549755813888 0
  1 2 2198882525998 1180472165000000 0 0 4722064268472015729936 0 0 0 0 0 549790998528 0

Steps of 1000 fs and of 1 fs. In 1 ps, 4 kJ/mol/nm move an atom of 1 u by 4 nm, twice around the box, so the atom seems
at rest.

  $ with job 5 'dt 1000' pairmd observe job state --steps 2 --every 1
  # step time/ps potential/(kJ/mol) kinetic/(kJ/mol) total/(kJ/mol) temperature/K pressure/bar momentum-x/(u.nm/ps) momentum-y momentum-z nearest/nm core-pairs
  0 0.000 2.000000 0.000000 2.000000 0.000 1.384 0.000000 0.000000 0.000000 0.500000 0
  1 1.000 2.000000 0.000000 2.000000 0.000 1.384 0.000000 0.000000 0.000000 0.500000 0
  2 2.000 2.000000 0.000000 2.000000 0.000 1.384 0.000000 0.000000 0.000000 0.500000 0
  $ with job 5 'dt 1000' pairmd observe job state --steps 2 --every 1 --exact
  # step time/fs potential/(2^-bits.kJ/mol) squares-x/(1e-5.u.place^2) squares-y squares-z virial-x/(2^-bits.kJ/mol/nm.place) virial-y virial-z momentum-x/(1e-5.u.place) momentum-y momentum-z nearest/(2^-bits.nm) core-pairs
  0 0 8589934592 0 0 0 18446744073709551616 0 0 0 0 0 2147483648 0
  1 1000 8589934592 0 0 0 18446744073709551616 0 0 0 0 0 2147483648 0
  2 2000 8589934592 0 0 0 18446744073709551616 0 0 0 0 0 2147483648 0
  $ with job 5 'dt 1000' with job 7 'type AR 39.948' workers pairmd observe job state --steps 2 --every 1
  # step time/ps potential/(kJ/mol) kinetic/(kJ/mol) total/(kJ/mol) temperature/K pressure/bar momentum-x/(u.nm/ps) momentum-y momentum-z nearest/nm core-pairs
  0 0.000 2.000000 0.200260 2.200260 16.057 1.661 0.000000 0.000000 0.000000 0.500000 0
  1 1.000 1.428040 0.656768 2.084808 52.661 1.897 0.000000 0.000000 0.000000 0.700260 0
  2 2.000 0.000000 0.913015 0.913015 73.207 1.263 0.000000 0.000000 0.000000 - 0
  $ with job 5 'dt 1' pairmd observe job state --steps 2 --every 2
  # step time/ps potential/(kJ/mol) kinetic/(kJ/mol) total/(kJ/mol) temperature/K pressure/bar momentum-x/(u.nm/ps) momentum-y momentum-z nearest/nm core-pairs
  0 0.000 2.000000 0.000008 2.000008 0.001 1.384 0.000000 0.000000 0.000000 0.500000 0
  2 0.002 1.999904 0.000104 2.000008 0.008 1.384 0.000000 0.000000 0.000000 0.500024 0

At both ends of the step counter, times still have three decimals.

  $ with job 5 'dt 1000' with state 3 'step 9223372036854775807' pairmd observe job state --steps 0 --every 1
  # step time/ps potential/(kJ/mol) kinetic/(kJ/mol) total/(kJ/mol) temperature/K pressure/bar momentum-x/(u.nm/ps) momentum-y momentum-z nearest/nm core-pairs
  9223372036854775807 9223372036854775807.000 2.000000 0.000000 2.000000 0.000 1.384 0.000000 0.000000 0.000000 0.500000 0
  $ with job 5 'dt 999' with state 3 'step -9223372036854775808' pairmd observe job state --steps 0 --every 1
  # step time/ps potential/(kJ/mol) kinetic/(kJ/mol) total/(kJ/mol) temperature/K pressure/bar momentum-x/(u.nm/ps) momentum-y momentum-z nearest/nm core-pairs
  -9223372036854775808 -9214148664817921032.192 2.000000 0.000032 2.000032 0.003 1.384 0.000000 0.000000 0.000000 0.500000 0
  $ with job 5 'dt 999' with state 3 'step -9223372036854775808' pairmd observe job state --steps 0 --every 1 --exact
  # step time/fs potential/(2^-bits.kJ/mol) squares-x/(1e-5.u.place^2) squares-y squares-z virial-x/(2^-bits.kJ/mol/nm.place) virial-y virial-z momentum-x/(1e-5.u.place) momentum-y momentum-z nearest/(2^-bits.nm) core-pairs
  -9223372036854775808 -9214148664817921032192 8589934592 58970564499168200000 0 0 18446744073709551616 0 0 0 0 0 2147483648 0

Forward and back print the same table rows.

  $ pairmd run job state --steps 100 > hundred
  $ workers pairmd observe job state --steps 100 --every 50
  # step time/ps potential/(kJ/mol) kinetic/(kJ/mol) total/(kJ/mol) temperature/K pressure/bar momentum-x/(u.nm/ps) momentum-y momentum-z nearest/nm core-pairs
  0 0.000 2.000000 0.000032 2.000032 0.003 1.384 0.000000 0.000000 0.000000 0.500000 0
  50 0.100 1.852700 0.147323 2.000024 11.813 1.486 0.000000 0.000000 0.000000 0.539753 0
  100 0.200 1.544697 0.455316 2.000013 36.508 1.699 0.000000 0.000000 0.000000 0.647376 0
  $ workers pairmd observe job hundred --steps 100 --every 50 --back
  # step time/ps potential/(kJ/mol) kinetic/(kJ/mol) total/(kJ/mol) temperature/K pressure/bar momentum-x/(u.nm/ps) momentum-y momentum-z nearest/nm core-pairs
  100 0.200 1.544697 0.455316 2.000013 36.508 1.699 0.000000 0.000000 0.000000 0.647376 0
  50 0.100 1.852700 0.147323 2.000024 11.813 1.486 0.000000 0.000000 0.000000 0.539753 0
  0 0.000 2.000000 0.000032 2.000032 0.003 1.384 0.000000 0.000000 0.000000 0.500000 0
  $ workers pairmd observe job hundred --steps 100 --every 50 --back --exact
  # step time/fs potential/(2^-bits.kJ/mol) squares-x/(1e-5.u.place^2) squares-y squares-z virial-x/(2^-bits.kJ/mol/nm.place) virial-y virial-z momentum-x/(1e-5.u.place) momentum-y momentum-z nearest/(2^-bits.nm) core-pairs
  100 200 6634421592 3359642408045200000 0 0 14247311891477460992 0 0 0 0 0 2780460032 0
  50 100 7957287031 1087054425778600000 0 0 17088143790057160912 0 0 0 0 0 2318220268 0
  0 0 8589934592 236121920000000 0 0 18446744073709551616 0 0 0 0 0 2147483648 0

Steps after the last table row change nothing, and options may come in any order.

  $ pairmd observe job state --steps 100 --every 50 > table
  $ pairmd observe --every=+50 job --steps=+149 state > longer
  $ cmp table longer
  $ pairmd observe job state --exact --steps 0 --every 1000000000000
  # step time/fs potential/(2^-bits.kJ/mol) squares-x/(1e-5.u.place^2) squares-y squares-z virial-x/(2^-bits.kJ/mol/nm.place) virial-y virial-z momentum-x/(1e-5.u.place) momentum-y momentum-z nearest/(2^-bits.nm) core-pairs
  0 0 8589934592 236121920000000 0 0 18446744073709551616 0 0 0 0 0 2147483648 0

Short options mean the same. By default there is one row, and with steps a row for each step.

  $ pairmd observe job state -n 100 -k50 -w=2 > short
  $ cmp table short
  $ pairmd observe job state --exact
  # step time/fs potential/(2^-bits.kJ/mol) squares-x/(1e-5.u.place^2) squares-y squares-z virial-x/(2^-bits.kJ/mol/nm.place) virial-y virial-z momentum-x/(1e-5.u.place) momentum-y momentum-z nearest/(2^-bits.nm) core-pairs
  0 0 8589934592 236121920000000 0 0 18446744073709551616 0 0 0 0 0 2147483648 0
  $ pairmd observe job state -n 3 > each
  $ pairmd observe job state --steps 3 --every 1 > every
  $ cmp each every
  $ pairmd observe job state --every 50 > one
  $ pairmd observe job state > row
  $ cmp one row

Progress counts the steps up to the last table row.

  $ pairmd observe job state --steps 5 --every 2 --progress
  # step time/ps potential/(kJ/mol) kinetic/(kJ/mol) total/(kJ/mol) temperature/K pressure/bar momentum-x/(u.nm/ps) momentum-y momentum-z nearest/nm core-pairs
  0 0.000 2.000000 0.000032 2.000032 0.003 1.384 0.000000 0.000000 0.000000 0.500000 0
  2 0.004 1.999616 0.000416 2.000032 0.033 1.384 0.000000 0.000000 0.000000 0.500096 0
  4 0.008 1.998721 0.001311 2.000032 0.105 1.385 0.000000 0.000000 0.000000 0.500320 0
  pairmd: 1 of 4 steps
  pairmd: 2 of 4 steps
  pairmd: 3 of 4 steps
  pairmd: 4 of 4 steps
  $ pairmd observe job state --steps 5 --every 2 --progress --exact
  # step time/fs potential/(2^-bits.kJ/mol) squares-x/(1e-5.u.place^2) squares-y squares-z virial-x/(2^-bits.kJ/mol/nm.place) virial-y virial-z momentum-x/(1e-5.u.place) momentum-y momentum-z nearest/(2^-bits.nm) core-pairs
  0 0 8589934592 236121920000000 0 0 18446744073709551616 0 0 0 0 0 2147483648 0
  2 4 8588285708 3068705413800000 0 0 18443203133913632382 0 0 0 0 0 2147895948 0
  4 8 8584441594 9672410709200000 0 0 18434947963323825128 0 0 0 0 0 2148857776 0
  pairmd: 1 of 4 steps
  pairmd: 2 of 4 steps
  pairmd: 3 of 4 steps
  pairmd: 4 of 4 steps

## Errors

`observe` rejects an energy whose value faults, although `run` and `states` accept its derivative. The fault is reported
before a step counter out of range.

  $ with job 2 'energy 2147483647+1' pairmd states job state --steps 0 --every 1
  pairmd state 1
  title two atoms
  step 0
  atoms 2
  box 200000 200000 200000
      1AR      AR 1073741824 0 0 1073741824 0 0
      1AR      AR 2147483648 0 0 2147483648 0 0
  $ with job 2 'energy 2147483647+1' pairmd energy job state
  pairmd: V2 Fault AR AR r 858993459 pc 2 F1 Overflow
  [3]
  $ with job 2 'energy 2147483647+1' pairmd observe job state --steps 0 --every 1
  pairmd: V2 Fault AR AR r 858993459 pc 2 F1 Overflow
  [3]
  $ with job 2 'energy 2147483647+1' with state 3 'step 9223372036854775807' pairmd observe job state --steps 1 --every 1 --progress
  pairmd: V2 Fault AR AR r 858993459 pc 2 F1 Overflow
  [3]
  $ with job 2 'energy 1/(r-0.5)' pairmd observe job state --steps 0 --every 1
  pairmd: V2 Fault AR AR r 2147390967 pc 12 F1 Overflow
  [3]

The step counter must have room for all steps. `observe` rejects every job and state that `run` rejects.

  $ with state 3 'step 9223372036854775806' pairmd observe job state --steps 2 --every 2
  pairmd: A4 StepRange
  [1]
  $ with state 3 'step -9223372036854775807' pairmd observe job state --steps 2 --every 3 --back
  pairmd: A4 StepRange
  [1]
  $ with job 4 'cutoff 1.5' pairmd observe job state --steps 2 --every 2
  pairmd: A2 CutoffTooLong
  [1]
  $ with job 7 'type B 1' pairmd observe job state --steps 2 --every 2
  pairmd: A1 UnknownType 1
  [1]
  $ with state 1 'pairmd state 9' pairmd observe job state --steps 2 --every 2
  pairmd: S1 BadLine 1
  [1]
  $ pairmd observe nowhere state --steps 2 --every 2
  pairmd: O1 CannotRead nowhere
  [5]
  $ pairmd observe job nowhere --steps 2 --every 2
  pairmd: O1 CannotRead nowhere
  [5]

If the output fails it holds the beginning of the table. If an allocation fails the output holds whole table rows.
A step after a row uses the forces that were found for the row, so with one worker it allocates nothing.

  $ outputs pairmd observe job point --steps 1 --every 1
  0-333: a beginning, pairmd: O2 CannotWrite [5]
  334: all
  $ outputs pairmd observe job point --steps 1 --every 1 --exact
  0-353: a beginning, pairmd: O2 CannotWrite [5]
  354: all
  $ requests pairmd observe job state --steps 2 --every 1
  pairmd: Memory [4]
  all
  pairmd: Memory after 0 steps [4]
  # step time/ps potential/(kJ/mol) kinetic/(kJ/mol) total/(kJ/mol) temperature/K pressure/bar momentum-x/(u.nm/ps) momentum-y momentum-z nearest/nm core-pairs
  0 0.000 2.000000 0.000032 2.000032 0.003 1.384 0.000000 0.000000 0.000000 0.500000 0
  pairmd: Memory after 1 steps [4]
  # step time/ps potential/(kJ/mol) kinetic/(kJ/mol) total/(kJ/mol) temperature/K pressure/bar momentum-x/(u.nm/ps) momentum-y momentum-z nearest/nm core-pairs
  0 0.000 2.000000 0.000032 2.000032 0.003 1.384 0.000000 0.000000 0.000000 0.500000 0
  1 0.002 1.999872 0.000160 2.000032 0.013 1.384 0.000000 0.000000 0.000000 0.500032 0
  pairmd: Memory after 2 steps [4]
  $ requests pairmd observe job state --steps 1 --every 1 --exact --workers 3
  pairmd: Memory [4]
  all
  pairmd: Memory after 0 steps [4]
  # step time/fs potential/(2^-bits.kJ/mol) squares-x/(1e-5.u.place^2) squares-y squares-z virial-x/(2^-bits.kJ/mol/nm.place) virial-y virial-z momentum-x/(1e-5.u.place) momentum-y momentum-z nearest/(2^-bits.nm) core-pairs
  0 0 8589934592 236121920000000 0 0 18446744073709551616 0 0 0 0 0 2147483648 0
  pairmd: Memory after 0 steps [4]
  # step time/fs potential/(2^-bits.kJ/mol) squares-x/(1e-5.u.place^2) squares-y squares-z virial-x/(2^-bits.kJ/mol/nm.place) virial-y virial-z momentum-x/(1e-5.u.place) momentum-y momentum-z nearest/(2^-bits.nm) core-pairs
  0 0 8589934592 236121920000000 0 0 18446744073709551616 0 0 0 0 0 2147483648 0
  pairmd: Memory after 1 steps [4]
  $ memory pairmd observe job state --steps 2 --every 2
  2 workers: 5 requests more
  3 workers: 1 requests more

## Arguments

  $ pairmd help observe
  Prints a table of energies, temperature and pressure every k steps
  
  Usage: pairmd observe [OPTIONS] <JOB> <STATE>
  
  Arguments:
    <JOB>    Job file: energy, core, cutoff, time step, atom types
    <STATE>  State file, as 'start' or 'run' prints it
  
  Options:
    -n, --steps <n>    Number of steps, from 0 to 1000000000000 [default: 0]
    -w, --workers <w>  Number of threads, from 1 to 64 [default: 1]
        --progress     Report progress on standard error
    -k, --every <k>    Interval between outputs, in steps, from 1 to 1000000000000 [default: 1]
        --back         Step backwards
        --exact        Print integers instead of decimals
        --tensor       Print the components of the pressure tensor, too
        --each         Print the row of each state of STATE, a stream of states
    -h, --help         Print help
  $ pairmd observe job state --steps 1
  # step time/ps potential/(kJ/mol) kinetic/(kJ/mol) total/(kJ/mol) temperature/K pressure/bar momentum-x/(u.nm/ps) momentum-y momentum-z nearest/nm core-pairs
  0 0.000 2.000000 0.000032 2.000032 0.003 1.384 0.000000 0.000000 0.000000 0.500000 0
  1 0.002 1.999872 0.000160 2.000032 0.013 1.384 0.000000 0.000000 0.000000 0.500032 0
  $ pairmd observe job state --every 1
  # step time/ps potential/(kJ/mol) kinetic/(kJ/mol) total/(kJ/mol) temperature/K pressure/bar momentum-x/(u.nm/ps) momentum-y momentum-z nearest/nm core-pairs
  0 0.000 2.000000 0.000032 2.000032 0.003 1.384 0.000000 0.000000 0.000000 0.500000 0
  $ pairmd observe job state --steps 1 --every 0
  error: invalid value '0' for '--every <k>': not a number from 1 to 1000000000000, such as 50 or 1e3
  
  Usage: pairmd observe [OPTIONS] <JOB> <STATE>
  
  For more information, try '--help'.
  [2]
  $ pairmd observe job state --steps 1 --every 1 --exact=1
  error: unexpected value '1' for '--exact' found; no more were expected
  
  Usage: pairmd observe --steps <n> --exact <JOB> <STATE>
  
  For more information, try '--help'.
  [2]
  $ pairmd states job state --steps 1 --every 1 --exact
  error: unexpected argument '--exact' found
  
    tip: to pass '--exact' as a value, use '-- --exact'
  
  Usage: pairmd states --steps <n> --every <k> <JOB> <STATE>
  
  For more information, try '--help'.
  [2]
