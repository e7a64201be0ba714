#!/bin/sh
# Seeds for fuzz/text.c: sh fuzz/text-seeds.sh COMMAND EXAMPLES FOLDER. The first byte of a seed says which reader it is for.
set -eu
command=$1 examples=$2 out=$3
seed() {
    { printf '%b' "\\00$1"; cat; } > "$out/$2"
}
"$command" assemble capture "$examples/difference.capture.txt" -o "$out/../c" > /dev/null
"$command" assemble sheet "$examples/all-kinds.sheet.txt" -o "$out/../s" > /dev/null
"$command" play "$out/../s" -o "$out/../r" > /dev/null
"$command" build "$out/../s" -o "$out/../h" > /dev/null
head -c 6000 "$examples/difference.capture.txt" | seed 0 capture
printf 'capture fill=5 whole=1\nstate mode=2\nquadword 3 1 2 3 4\ninstruction 5 6\nentry 0 path=2 PRIM 1\nstart channel=1\nrun\nend\n' | seed 0 capture-lines
seed 0 capture-vif0 < "$examples/vif0.capture.txt"
seed 0 capture-paths < "$examples/paths.capture.txt"
printf 'capture\nset unit=0 register=row3 value=-1\nstart\nset register=8 value=0x3F800000\nrun allowance=2\nset unit=2 register=col1 value=7\nrun\nend\n' | seed 0 capture-sets
printf 'capture main-bytes=32\nwhy\nstart\nrun allowance=2\nwhy word1=5 word2=-1 word3=0x7\nrun\nwhy\nend qwc=1\nNOP\nSTMOD mode=3\n' | seed 0 capture-whys
printf 'capture log-entries=7 log-rest=2\nentry 0 path=3 PRIM 1\nentry 1 MSCNT 0\nstart\nrun\nend\n' | seed 0 capture-log
printf 'capture vif0.data-words=8 vif0.code-bytes=16 fill=5\nstate channel=0 vif0.waiting=MPG vif0.due=2 vif0.count=1\nstart\nrun\nend\n' | seed 0 case-vif0
"$command" dump "$out/../r" | seed 1 result
printf 'result parts=data+log answer=0 log-numbers=64\nentry 0 MSCAL 5\nquadword 9 -1 0x7 3 4\n' | seed 1 parts
printf 'result parts=log+data0+code0\nvif0.quadword 255 1 2 3 4\nvif0.instruction 511 5\n' | seed 1 parts-vif0
seed 2 sheet < "$examples/all-kinds.sheet.txt"
seed 2 sheet-groups < "$examples/groups.sheet.txt"
printf 'edition 2\ngroup repeat=255 members=3\ngs\nwrite 5 6\ngroup repeat=0\nbyte 1 2\nend\nend\nstart addr=2047\n' | seed 2 sheet-members
"$command" dump chain "$out/../h" | seed 3 chain
seed 3 chain-supplier < "$examples/supplier.chain.txt"
printf 'state channel=1 waiting=UNPACK due=2 count=1 format=V4-32 path2.place=data path2.format=IMAGE\n' | seed 4 state
rm -f "$out/../t"
"$command" totals "$out/../t" add --new "$out/../r" "$out/../c" > /dev/null
"$command" dump "$out/../t" | seed 5 totals
head -c 2000 "$out/../c" | seed 6 capture-file
head -c 2000 "$out/../r" | seed 7 result-file
seed 10 totals-file < "$out/../t"
