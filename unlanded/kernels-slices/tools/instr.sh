#!/bin/bash
# instr.sh OUT LEVEL FN : per-instruction counts of a function
O=$1; kit=/opt/rattle/on/x86_64
L="$kit/toolchain/lib/ld-linux-x86-64.so.2 --library-path $kit/toolchain/lib"
export GLIBC_TUNABLES=glibc.cpu.x86_rep_movsb_threshold=1000000000:glibc.cpu.x86_rep_stosb_threshold=1000000000
valgrind --tool=callgrind --dump-instr=yes --callgrind-out-file=$O/ci.$2 --log-file=$O/vg.log $L $O/p $2
