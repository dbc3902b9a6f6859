#!/bin/bash
# count.sh OUT LEVELS..
O=$1; shift
kit=/opt/rattle/on/x86_64
L="$kit/toolchain/lib/ld-linux-x86-64.so.2 --library-path $kit/toolchain/lib"
export GLIBC_TUNABLES=glibc.cpu.x86_rep_movsb_threshold=1000000000:glibc.cpu.x86_rep_stosb_threshold=1000000000
for l in "$@"; do
 $L $O/p $l 4
 valgrind --tool=callgrind --callgrind-out-file=$O/cg.$l --log-file=$O/vg.log $L $O/p $l
 callgrind_annotate --inclusive=yes --threshold=100 $O/cg.$l 2>/dev/null | grep -E ":bike_(make_key|wrap|open) " | sed -E "s|^ *([0-9,]+) .*:(bike_[a-z_]*) .*|  \1 \2|"
done
