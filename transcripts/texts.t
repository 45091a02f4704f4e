# Texts that a run copies

A run copies these texts unchanged.

A title with every byte except LF.

  $ sed '2c title \x00\x01\x02\x03\x04\x05\x06\x07\x08\x09\x0b\x0c\x0d\x0e\x0f\x10\x11\x12\x13\x14\x15\x16\x17\x18\x19\x1a\x1b\x1c\x1d\x1e\x1f !"#$%&\x27()*+,-./0123456789:;<=>?@ABCDEFGHIJKLMNOPQRSTUVWXYZ[\x5c]^_`abcdefghijklmnopqrstuvwxyz{|}~\x7f\x80\x81\x82\x83\x84\x85\x86\x87\x88\x89\x8a\x8b\x8c\x8d\x8e\x8f\x90\x91\x92\x93\x94\x95\x96\x97\x98\x99\x9a\x9b\x9c\x9d\x9e\x9f\xa0\xa1\xa2\xa3\xa4\xa5\xa6\xa7\xa8\xa9\xaa\xab\xac\xad\xae\xaf\xb0\xb1\xb2\xb3\xb4\xb5\xb6\xb7\xb8\xb9\xba\xbb\xbc\xbd\xbe\xbf\xc0\xc1\xc2\xc3\xc4\xc5\xc6\xc7\xc8\xc9\xca\xcb\xcc\xcd\xce\xcf\xd0\xd1\xd2\xd3\xd4\xd5\xd6\xd7\xd8\xd9\xda\xdb\xdc\xdd\xde\xdf\xe0\xe1\xe2\xe3\xe4\xe5\xe6\xe7\xe8\xe9\xea\xeb\xec\xed\xee\xef\xf0\xf1\xf2\xf3\xf4\xf5\xf6\xf7\xf8\xf9\xfa\xfb\xfc\xfd\xfe\xff' state > titled
  $ returns pairmd run job titled --steps 1 > after
  $ with after 2 'title two atoms' cat after
  pairmd state 1
  title two atoms
  step 1
  atoms 2
  box 200000 200000 200000
      1AR      AR 1073741824 0 0 1073707464 0 0
      1AR      AR 2147483648 0 0 2147518008 0 0
  $ returns pairmd run job state --steps 1 > plain
  $ with plain 2 'title \x00\x01\x02\x03\x04\x05\x06\x07\x08\x09\x0b\x0c\x0d\x0e\x0f\x10\x11\x12\x13\x14\x15\x16\x17\x18\x19\x1a\x1b\x1c\x1d\x1e\x1f !"#$%&\x27()*+,-./0123456789:;<=>?@ABCDEFGHIJKLMNOPQRSTUVWXYZ[\x5c]^_`abcdefghijklmnopqrstuvwxyz{|}~\x7f\x80\x81\x82\x83\x84\x85\x86\x87\x88\x89\x8a\x8b\x8c\x8d\x8e\x8f\x90\x91\x92\x93\x94\x95\x96\x97\x98\x99\x9a\x9b\x9c\x9d\x9e\x9f\xa0\xa1\xa2\xa3\xa4\xa5\xa6\xa7\xa8\xa9\xaa\xab\xac\xad\xae\xaf\xb0\xb1\xb2\xb3\xb4\xb5\xb6\xb7\xb8\xb9\xba\xbb\xbc\xbd\xbe\xbf\xc0\xc1\xc2\xc3\xc4\xc5\xc6\xc7\xc8\xc9\xca\xcb\xcc\xcd\xce\xcf\xd0\xd1\xd2\xd3\xd4\xd5\xd6\xd7\xd8\xd9\xda\xdb\xdc\xdd\xde\xdf\xe0\xe1\xe2\xe3\xe4\xe5\xe6\xe7\xe8\xe9\xea\xeb\xec\xed\xee\xef\xf0\xf1\xf2\xf3\xf4\xf5\xf6\xf7\xf8\xf9\xfa\xfb\xfc\xfd\xfe\xff' cmp after plain

Names with every allowed byte at their ends, for each type and each atom; the residues have a space inside. The atoms
have the same position, so no force acts.

  $ cat > job_1 << END
  > pairmd job 1
  > energy r
  > core 0.2
  > cutoff 0.9
  > dt 2
  > slices 1
  > type !x! 1
  > type "x" 1
  > type #x# 1
  > type $x$ 1
  > type %x% 1
  > type &x& 1
  > type 'x' 1
  > type (x( 1
  > type )x) 1
  > type *x* 1
  > type +x+ 1
  > type ,x, 1
  > type -x- 1
  > type .x. 1
  > type /x/ 1
  > type 0x0 1
  > type 1x1 1
  > type 2x2 1
  > type 3x3 1
  > type 4x4 1
  > type 5x5 1
  > type 6x6 1
  > type 7x7 1
  > type 8x8 1
  > type 9x9 1
  > type :x: 1
  > type ;x; 1
  > type <x< 1
  > type =x= 1
  > type >x> 1
  > type ?x? 1
  > type @x@ 1
  > type AxA 1
  > type BxB 1
  > type CxC 1
  > type DxD 1
  > type ExE 1
  > type FxF 1
  > type GxG 1
  > type HxH 1
  > type IxI 1
  > type JxJ 1
  > type KxK 1
  > type LxL 1
  > type MxM 1
  > type NxN 1
  > type OxO 1
  > END
  $ cat > state_1 << END
  > pairmd state 1
  > title names
  > step 0
  > atoms 47
  > box 200000 200000 200000
  > -9999! !    !x! 1 2 4294967295 1 2 4294967295
  > -9999" "    "x" 1 2 4294967295 1 2 4294967295
  > -9999# #    #x# 1 2 4294967295 1 2 4294967295
  > -9999$ $    $x$ 1 2 4294967295 1 2 4294967295
  > -9999% %    %x% 1 2 4294967295 1 2 4294967295
  > -9999& &    &x& 1 2 4294967295 1 2 4294967295
  > -9999' '    'x' 1 2 4294967295 1 2 4294967295
  > -9999( (    (x( 1 2 4294967295 1 2 4294967295
  > -9999) )    )x) 1 2 4294967295 1 2 4294967295
  > -9999* *    *x* 1 2 4294967295 1 2 4294967295
  > -9999+ +    +x+ 1 2 4294967295 1 2 4294967295
  > -9999, ,    ,x, 1 2 4294967295 1 2 4294967295
  > -9999- -    -x- 1 2 4294967295 1 2 4294967295
  > -9999. .    .x. 1 2 4294967295 1 2 4294967295
  > -9999/ /    /x/ 1 2 4294967295 1 2 4294967295
  > -99990 0    0x0 1 2 4294967295 1 2 4294967295
  > -99991 1    1x1 1 2 4294967295 1 2 4294967295
  > -99992 2    2x2 1 2 4294967295 1 2 4294967295
  > -99993 3    3x3 1 2 4294967295 1 2 4294967295
  > -99994 4    4x4 1 2 4294967295 1 2 4294967295
  > -99995 5    5x5 1 2 4294967295 1 2 4294967295
  > -99996 6    6x6 1 2 4294967295 1 2 4294967295
  > -99997 7    7x7 1 2 4294967295 1 2 4294967295
  > -99998 8    8x8 1 2 4294967295 1 2 4294967295
  > -99999 9    9x9 1 2 4294967295 1 2 4294967295
  > -9999: :    :x: 1 2 4294967295 1 2 4294967295
  > -9999; ;    ;x; 1 2 4294967295 1 2 4294967295
  > -9999< <    <x< 1 2 4294967295 1 2 4294967295
  > -9999= =    =x= 1 2 4294967295 1 2 4294967295
  > -9999> >    >x> 1 2 4294967295 1 2 4294967295
  > -9999? ?    ?x? 1 2 4294967295 1 2 4294967295
  > -9999@ @    @x@ 1 2 4294967295 1 2 4294967295
  > -9999A A    AxA 1 2 4294967295 1 2 4294967295
  > -9999B B    BxB 1 2 4294967295 1 2 4294967295
  > -9999C C    CxC 1 2 4294967295 1 2 4294967295
  > -9999D D    DxD 1 2 4294967295 1 2 4294967295
  > -9999E E    ExE 1 2 4294967295 1 2 4294967295
  > -9999F F    FxF 1 2 4294967295 1 2 4294967295
  > -9999G G    GxG 1 2 4294967295 1 2 4294967295
  > -9999H H    HxH 1 2 4294967295 1 2 4294967295
  > -9999I I    IxI 1 2 4294967295 1 2 4294967295
  > -9999J J    JxJ 1 2 4294967295 1 2 4294967295
  > -9999K K    KxK 1 2 4294967295 1 2 4294967295
  > -9999L L    LxL 1 2 4294967295 1 2 4294967295
  > -9999M M    MxM 1 2 4294967295 1 2 4294967295
  > -9999N N    NxN 1 2 4294967295 1 2 4294967295
  > -9999O O    OxO 1 2 4294967295 1 2 4294967295
  > END
  $ returns pairmd run job_1 state_1 --steps 1 > after_1
  $ with state_1 3 'step 1' cmp after_1 state_1
  $ cat > job_2 << END
  > pairmd job 1
  > energy r
  > core 0.2
  > cutoff 0.9
  > dt 2
  > slices 1
  > type PxP 1
  > type QxQ 1
  > type RxR 1
  > type SxS 1
  > type TxT 1
  > type UxU 1
  > type VxV 1
  > type WxW 1
  > type XxX 1
  > type YxY 1
  > type ZxZ 1
  > type [x[ 1
  > type \x\ 1
  > type ]x] 1
  > type ^x^ 1
  > type _x_ 1
  > type `x` 1
  > type axa 1
  > type bxb 1
  > type cxc 1
  > type dxd 1
  > type exe 1
  > type fxf 1
  > type gxg 1
  > type hxh 1
  > type ixi 1
  > type jxj 1
  > type kxk 1
  > type lxl 1
  > type mxm 1
  > type nxn 1
  > type oxo 1
  > type pxp 1
  > type qxq 1
  > type rxr 1
  > type sxs 1
  > type txt 1
  > type uxu 1
  > type vxv 1
  > type wxw 1
  > type xxx 1
  > type yxy 1
  > type zxz 1
  > type {x{ 1
  > type |x| 1
  > type }x} 1
  > type ~x~ 1
  > END
  $ cat > state_2 << END
  > pairmd state 1
  > title names
  > step 0
  > atoms 47
  > box 200000 200000 200000
  > -9999P P    PxP 1 2 4294967295 1 2 4294967295
  > -9999Q Q    QxQ 1 2 4294967295 1 2 4294967295
  > -9999R R    RxR 1 2 4294967295 1 2 4294967295
  > -9999S S    SxS 1 2 4294967295 1 2 4294967295
  > -9999T T    TxT 1 2 4294967295 1 2 4294967295
  > -9999U U    UxU 1 2 4294967295 1 2 4294967295
  > -9999V V    VxV 1 2 4294967295 1 2 4294967295
  > -9999W W    WxW 1 2 4294967295 1 2 4294967295
  > -9999X X    XxX 1 2 4294967295 1 2 4294967295
  > -9999Y Y    YxY 1 2 4294967295 1 2 4294967295
  > -9999Z Z    ZxZ 1 2 4294967295 1 2 4294967295
  > -9999[ [    [x[ 1 2 4294967295 1 2 4294967295
  > -9999\ \    \x\ 1 2 4294967295 1 2 4294967295
  > -9999] ]    ]x] 1 2 4294967295 1 2 4294967295
  > -9999^ ^    ^x^ 1 2 4294967295 1 2 4294967295
  > -9999_ _    _x_ 1 2 4294967295 1 2 4294967295
  > -9999` `    `x` 1 2 4294967295 1 2 4294967295
  > -9999a a    axa 1 2 4294967295 1 2 4294967295
  > -9999b b    bxb 1 2 4294967295 1 2 4294967295
  > -9999c c    cxc 1 2 4294967295 1 2 4294967295
  > -9999d d    dxd 1 2 4294967295 1 2 4294967295
  > -9999e e    exe 1 2 4294967295 1 2 4294967295
  > -9999f f    fxf 1 2 4294967295 1 2 4294967295
  > -9999g g    gxg 1 2 4294967295 1 2 4294967295
  > -9999h h    hxh 1 2 4294967295 1 2 4294967295
  > -9999i i    ixi 1 2 4294967295 1 2 4294967295
  > -9999j j    jxj 1 2 4294967295 1 2 4294967295
  > -9999k k    kxk 1 2 4294967295 1 2 4294967295
  > -9999l l    lxl 1 2 4294967295 1 2 4294967295
  > -9999m m    mxm 1 2 4294967295 1 2 4294967295
  > -9999n n    nxn 1 2 4294967295 1 2 4294967295
  > -9999o o    oxo 1 2 4294967295 1 2 4294967295
  > -9999p p    pxp 1 2 4294967295 1 2 4294967295
  > -9999q q    qxq 1 2 4294967295 1 2 4294967295
  > -9999r r    rxr 1 2 4294967295 1 2 4294967295
  > -9999s s    sxs 1 2 4294967295 1 2 4294967295
  > -9999t t    txt 1 2 4294967295 1 2 4294967295
  > -9999u u    uxu 1 2 4294967295 1 2 4294967295
  > -9999v v    vxv 1 2 4294967295 1 2 4294967295
  > -9999w w    wxw 1 2 4294967295 1 2 4294967295
  > -9999x x    xxx 1 2 4294967295 1 2 4294967295
  > -9999y y    yxy 1 2 4294967295 1 2 4294967295
  > -9999z z    zxz 1 2 4294967295 1 2 4294967295
  > -9999{ {    {x{ 1 2 4294967295 1 2 4294967295
  > -9999| |    |x| 1 2 4294967295 1 2 4294967295
  > -9999} }    }x} 1 2 4294967295 1 2 4294967295
  > -9999~ ~    ~x~ 1 2 4294967295 1 2 4294967295
  > END
  $ returns pairmd run job_2 state_2 --steps 1 > after_2
  $ with state_2 3 'step 1' cmp after_2 state_2

A job with its lines in another order, ended by CR LF, among comments and blank lines.

  $ printf 'pairmd job 1\r\n# argon\r\n\r\ntype\tAR  1.0\r\n \t\r\ndt 02\r\ncutoff 9.e-1\r\ncore .2\r\nenergy \t1 / r\t\r\n# last' > other
  $ workers pairmd run job state --steps 7 > plain
  $ workers pairmd run other state --steps 7 > same
  $ cmp plain same
  $ cat plain
  pairmd state 1
  title two atoms
  step 7
  atoms 2
  box 200000 200000 200000
      1AR      AR 1073020576 0 0 1072780303 0 0
      1AR      AR 2148204896 0 0 2148445169 0 0
