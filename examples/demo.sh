#!/bin/sh
# The main jobs of the bench, as a person does them: sh examples/demo.sh COMMAND FOLDER
set -eu
tejborun=$1
out=$2
here=$(dirname "$0")
mkdir -p "$out"
rm -f "$out"/*

# Shows a command and what it prints.
show() {
    echo "\$ $*"
    "$@"
    echo
}

# The same for one that has to find a difference: exit status 1.
show_different() {
    echo "\$ $*"
    status=0
    "$@" || status=$?
    echo "exit status $status"
    echo
    test "$status" = 1
}

echo "1. A test sheet: its chain does on the board what the sheet says."
echo
show "$tejborun" assemble sheet "$here/all-kinds.sheet.txt" -o "$out/all-kinds.sheet"
show "$tejborun" build "$out/all-kinds.sheet" -o "$out/all-kinds.chain"
show "$tejborun" play "$out/all-kinds.sheet" -o "$out/played.result"
show "$tejborun" meaning "$out/all-kinds.sheet" -o "$out/meaning.result"
show "$tejborun" compare "$out/meaning.result" "$out/played.result"

echo "   A sheet of the second edition: groups, built and played as their records repeated."
echo
show "$tejborun" assemble sheet "$here/groups.sheet.txt" -o "$out/groups.sheet"
show "$tejborun" build "$out/groups.sheet" -o "$out/groups.chain"
show "$tejborun" play "$out/groups.sheet" -o "$out/groups.result"
show "$tejborun" meaning "$out/groups.sheet" -o "$out/groups-meaning.result"
show "$tejborun" compare "$out/groups-meaning.result" "$out/groups.result"

echo "2. A capture in difference mode: 256 vectors, each added to the one before."
echo
show "$tejborun" assemble capture "$here/difference.capture.txt" -o "$out/difference.capture"
show "$tejborun" run "$out/difference.capture" -o "$out/difference.result"

echo "3. A board whose vectors each come out one count low in X: the difference 15 where the capture has 16. Its result stands in for a board's."
echo
echo "\$ sed 's/^    word 16 /    word 15 /' $here/difference.capture.txt > $out/board.capture.txt"
sed 's/^    word 16 /    word 15 /' "$here/difference.capture.txt" > "$out/board.capture.txt"
echo
"$tejborun" assemble capture "$out/board.capture.txt" -o "$out/board.capture"
"$tejborun" run "$out/board.capture" -o "$out/board.result" > /dev/null
show_different "$tejborun" compare "$out/difference.result" "$out/board.result"

echo "4. The count is carried on: the last vector is 256 counts low, 16 pixels at the screen."
echo
echo "\$ $tejborun compare $out/difference.result $out/board.result --all | sed -n '/quadword 255 /,/  W /p'"
"$tejborun" compare "$out/difference.result" "$out/board.result" --all > "$out/all-differences.txt" || test $? = 1
sed -n '/quadword 255 /,/  W /p' "$out/all-differences.txt"
echo
grep -q '^    X .* -256 counts$' "$out/all-differences.txt"
echo "5. A rack: a board's own dumps and the one that is low, compared at once and reported on a page."
echo
"$tejborun" export "$out/difference.result" --data "$out/vu.bin" --code "$out/micro.bin" --log "$out/log.bin"
show "$tejborun" import --data "$out/vu.bin" --code "$out/micro.bin" --log "$out/log.bin" -o "$out/dumped.result"
show_different "$tejborun" compare "$out/difference.result" "$out/dumped.result" "$out/board.result"
show_different "$tejborun" report "$out/difference.result" "$out/dumped.result" "$out/board.result" -o "$out/report.html"

echo "6. The small unit: a capture on channel 0, and a board's own dumps of VIF0's memories compared with it."
echo
show "$tejborun" assemble capture "$here/vif0.capture.txt" -o "$out/vif0.capture"
show "$tejborun" run "$out/vif0.capture" -o "$out/vif0.result"
"$tejborun" export "$out/vif0.result" --data0 "$out/vu0.bin" --code0 "$out/micro0.bin" --log "$out/log0.bin"
show "$tejborun" import --data0 "$out/vu0.bin" --code0 "$out/micro0.bin" --log "$out/log0.bin" -o "$out/vif0-board.result"
show "$tejborun" compare "$out/vif0.result" "$out/vif0-board.result" --only data0,code0,log

echo "7. Two channels over one log: each entry says which path wrote it. A board that made the writes of channel 2 by path 2 is different in the path alone."
echo
show "$tejborun" assemble capture "$here/paths.capture.txt" -o "$out/paths.capture"
show "$tejborun" run "$out/paths.capture" -o "$out/paths.result"
"$tejborun" dump "$out/paths.result" | sed 's/ path=3 / path=2 /' > "$out/paths.txt"
"$tejborun" assemble result "$out/paths.txt" -o "$out/path-2.result"
show_different "$tejborun" compare "$out/paths.result" "$out/path-2.result" --only log --all

echo "8. A supplier's chain for the sheet of the beginning, shorter than ours; and one that keeps the first of two writes to a quadword in place of the second."
echo
show "$tejborun" assemble chain "$here/supplier.chain.txt" -o "$out/supplier.chain"
show "$tejborun" check "$out/all-kinds.sheet" "$out/supplier.chain"
sed 's/word 0 0x3F800000 0 0x3F800000/word 0x3F800000 0 0 0/' "$here/supplier.chain.txt" > "$out/late.chain.txt"
"$tejborun" assemble chain "$out/late.chain.txt" -o "$out/late.chain"
show_different "$tejborun" check "$out/all-kinds.sheet" "$out/late.chain"
show_different "$tejborun" check "$out/all-kinds.sheet" "$out/all-kinds.chain" "$out/supplier.chain" "$out/late.chain"

echo "9. The month's totals: the runs of the captures and of the sheet that were played here, added at once."
echo
show "$tejborun" totals "$out/month.totals" add --new "$out/played.result" "$out/difference.capture" "$out/vif0.capture" "$out/paths.capture"
show "$tejborun" totals "$out/month.totals"

echo "Shown: a sheet's chain leaves what the sheet means, and a board that loses one count a vector is caught at its first vector."
