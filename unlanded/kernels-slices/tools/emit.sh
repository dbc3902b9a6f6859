#!/bin/bash
# emit.sh CLONE: writes keep/*.ll
R=$1; K=/work/h/slices-tc/keep; rm -rf $K; mkdir -p $K
H=/opt/rattle
$H/on/x86_64/bin/rattle-cases --toolchain /work/h/slices-tc/tc --stdin /dev/null /work/h/slices-tc/main/src/main.rt --crate-name trial --lib std=$H/libs/std/src/lib.rt --lib hashing=$R/crates/hashing/src/lib.rt --lib ring=$R/crates/ring/src/lib.rt --lib exchange=$R/crates/exchange/src/lib.rt --lib io=$H/libs/io/src/lib.rt --lib libc=$H/libs/libc/src/lib.rt
