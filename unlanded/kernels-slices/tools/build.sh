#!/bin/bash
# build.sh CLONE OUT
cd /work/h/slices-tc; R=$1; O=$2; mkdir -p $O
CL=/opt/rattle/on/x86_64/toolchain/bin/clang
./emit.sh $R > $O/emit.log 2>&1; [ -f keep/module.bc ] || { grep -v '^ok' $O/emit.log | head -40; exit 1; }
F="--target=x86_64-unknown-linux-gnu -march=x86-64 -ffunction-sections -fdata-sections -mllvm -trap-unreachable -mllvm -no-trap-after-noreturn --no-default-config -no-canonical-prefixes -fintegrated-cc1 -fno-crash-diagnostics"
$CL --target=x86_64-unknown-linux-gnu -march=x86-64 -x ir keep/module.bc -S -emit-llvm -O0 -Xclang -disable-llvm-passes -o $O/m.ll || exit 1
python3 - $O/m.ll > $O/w.ll <<'P'
import sys,re
t=open(sys.argv[1]).read()
t=re.sub(r'define internal void @"trial::main"\(\) #0 \{.*?\n\}\n','',t,flags=re.S)
t=re.sub(r'define i32 @main\(\) #0 \{.*?\n\}\n','',t,flags=re.S)
i=t.index('!llvm.ident')
print(t[:i]+open('/work/h/slices-tc/wrap.ll').read()+t[i:])
P
$CL $F -c -x ir $O/w.ll -o $O/w.o -fPIE -O3 -Xclang -fmerge-functions -mllvm -mergefunc-use-aliases || exit 1
cd $R; $CL --target=x86_64-unknown-linux-gnu -std=c11 -O2 -nostdinc -isystem host/libc -I include -c -o $O/h.o /work/h/slices-tc/h.c || exit 1
/opt/rattle/on/x86_64/bin/rattle-link --target x86_64-unknown-linux-gnu --toolchain /opt/rattle/on/x86_64/toolchain -o $O/p $O/h.o $O/w.o || exit 1
echo built
