#!/bin/bash
# checked.sh CLONE OUT: the module whose assumptions are checked, run at -O1
cd /work/h/slices-tc; R=$1; O=$2; rm -f keep2/*; H=/opt/rattle; CL=$H/on/x86_64/toolchain/bin/clang
$H/on/x86_64/bin/rattle-cases --toolchain /work/h/slices-tc/tc2 --stdin /dev/null /work/h/slices-tc/main/src/main.rt --crate-name trial --lib std=$H/libs/std/src/lib.rt --lib hashing=$R/crates/hashing/src/lib.rt --lib ring=$R/crates/ring/src/lib.rt --lib exchange=$R/crates/exchange/src/lib.rt --lib io=$H/libs/io/src/lib.rt --lib libc=$H/libs/libc/src/lib.rt > $O/checked.log 2>&1
$CL --target=x86_64-unknown-linux-gnu -march=x86-64 -x ir keep2/module2.bc -S -emit-llvm -O0 -Xclang -disable-llvm-passes -o $O/k.ll || exit 1
python3 - $O/k.ll > $O/kw.ll <<'P'
import sys,re
t=open(sys.argv[1]).read()
t=re.sub(r'define internal void @"trial::main"\(\) #\d+ \{.*?\n\}\n','',t,flags=re.S)
t=re.sub(r'define i32 @main\(\) #\d+ \{.*?\n\}\n','',t,flags=re.S)
i=t.index('!llvm.ident')
print(t[:i]+open('/work/h/slices-tc/wrap.ll').read()+t[i:])
P
$CL --target=x86_64-unknown-linux-gnu -march=x86-64 -c -x ir $O/kw.ll -o $O/kw.o -fPIE -O1 || exit 1
$H/on/x86_64/bin/rattle-link --target x86_64-unknown-linux-gnu --toolchain $H/on/x86_64/toolchain -o $O/k $O/h.o $O/kw.o >/dev/null || exit 1
for l in 1 3 5; do $O/k $l 4; echo "rc $?"; done
