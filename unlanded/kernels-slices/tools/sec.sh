#!/bin/bash
# sec.sh OUT: sites on secrets
O=/work/h/slices-tc/$1; kit=/opt/rattle/on/x86_64; cd /work/h/slices
$kit/toolchain/bin/clang --target=x86_64-unknown-linux-gnu -std=gnu11 -O2 -nostdinc -isystem host/libc -I include -I host -c -o $O/sec.o /work/h/slices-tc/sec.c || exit 1
$kit/bin/rattle-link --target x86_64-unknown-linux-gnu --toolchain $kit/toolchain -o $O/sec $O/sec.o $O/w.o >/dev/null || exit 1
valgrind --tool=memcheck --num-callers=1 --error-limit=no --leak-check=no --log-file=$O/sec.log $O/sec || echo rc $?
awk '/Conditional jump or move depends on/ { kind = "jump" }
        /Use of uninitialised value/ { kind = "address" }
        kind != "" && $2 == "at" { sub(/.* at 0x[0-9A-F]*: /, ""); sub(/ \(.*/, ""); print kind, $0; kind = "" }' $O/sec.log | sort | uniq -c | awk '{ $1 = $1; print }'
