#!/bin/sh
# Tests of the command: sh host/test.sh COMMAND SECOND PROGRAMS [EVERY]
# COMMAND is the command, SECOND the second program, PROGRAMS the folder where the proved program replay lies; test-forms lies beside the command. Of the generated captures every EVERYth
# one is tried, the 10th where it is not given, and of the sheets five times as many. Prints what it did and stops at the first thing that is wrong.
# TESTS=NAMES in the environment makes those tests alone: layout first, and of the older ones those that leave the files needed.
# shellcheck disable=SC2046
set -u
command=$1
second=$2
replay=$3/replay
every=${4:-10}
work=$(mktemp -d)
trap 'rm -rf "$work"' EXIT
case $command in /*) ;; *) command=$PWD/$command ;; esac
case $second in /*) ;; *) second=$PWD/$second ;; esac
case $replay in /*) ;; *) replay=$PWD/$replay ;; esac
here=$(cd "$(dirname "$0")" && pwd)
forms=$(dirname "$command")/test-forms
for program in "$command" "$second" "$replay" "$forms"; do
    test -x "$program" || { echo "$program is not there" >&2; exit 1; }
done
cd "$work" || exit 1

fail() {
    echo "host/test.sh: $*" >&2
    exit 1
}

# expect STATUS WORDS..: runs the command with the words; its output goes to out and err.
expect() {
    wanted=$1
    shift
    "$command" "$@" > out 2> err
    got=$?
    test "$got" = "$wanted" || { cat out err >&2; fail "exit status $got, not $wanted: tejborun $*"; }
    if test "$wanted" = 2 && ! test -s err; then fail "no message: tejborun $*"; fi
}

# says FILE TEXT: the file has the text.
says() {
    grep -qF -- "$2" "$1" || { cat "$1" >&2; fail "not said: $2"; }
}

absent() {
    for file in "$@"; do
        if test -e "$file"; then fail "$file was left behind"; fi
    done
    nothing_partial
}

# No file that was being written is left here.
nothing_partial() {
    if find . -name '*partial*' ! -name another.partial | grep . >&2; then fail 'a file was left behind'; fi
}

same() {
    cmp -s "$1" "$2" || fail "$1 and $2 differ${3:+: $3}"
}

# slice FILE OFFSET COUNT: so many bytes from an offset on.
slice() {
    tail -c +$(($2 + 1)) "$1" | head -c "$3"
}

# words FILE OFFSET COUNT: so many words from an offset on, in decimal.
words() {
    od -An -v -tu4 -j "$2" -N $(($3 * 4)) "$1"
}

# word NUMBER: the four bytes of a word.
word() {
    printf '%b' "$(printf '\\0%o' $(($1 & 255)) $(($1 >> 8 & 255)) $(($1 >> 16 & 255)) $(($1 >> 24 & 255)))"
}

# numbers NUMBER..: the eight bytes of each number, which is below 2^63.
numbers() {
    for number in "$@"; do
        word "$number"
        word $((number >> 32))
    done
}

# The layout of files, from what the command itself writes: the bytes of a state block, the lengths of the memories and of the longest log, and the numbers of
# a log entry. The head of a capture before the state block has 56 bytes, that of a test case and of a sheet case 48; a result has 104 before and 8 behind it. What a
# run says before its state block, in a result of replay's and behind the mark of a result file, has 100: the answer and twelve counts.
layout() {
    echo 'state channel=1' > reset.txt
    echo capture > empty.txt
    expect 0 assemble state reset.txt -o reset.state
    expect 0 assemble capture empty.txt -o empty.capture
    block_bytes=$(($(wc -c < reset.state)))
    head_bytes=56 case_head=48 run_head=100
    calls_at=$((head_bytes + block_bytes)) case_calls_at=$((case_head + block_bytes)) sheet_at=$((48 + block_bytes)) result_head=$((4 + run_head + block_bytes + 8))
    set -- $(words empty.capture 12 5)
    data_words=$1 code_bytes=$2 data0_words=$3 code0_bytes=$4 log_numbers=$5
    memory_bytes=$((4 * data_words + code_bytes)) quadwords=$((data_words / 4)) instructions=$((code_bytes / 8))
    memory0_bytes=$((4 * data0_words + code0_bytes)) quadwords0=$((data0_words / 4)) instructions0=$((code0_bytes / 8))
    entries=65536
    entry_numbers=$((log_numbers / entries))
    echo "layout: a state block of $((block_bytes / 4)) words; VIF1 $data_words words, $code_bytes bytes; VIF0 $data0_words words, $code0_bytes bytes;" \
        "$entries entries of $entry_numbers numbers"
}

# round KIND FILE: text and back gives the same bytes.
round() {
    "$command" dump "$1" "$2" > round.txt 2> err || fail "dump $1 $2: $(cat err)"
    "$command" assemble "$1" round.txt -o round.out 2> err || fail "assemble $1 of $2: $(cat err)"
    same "$2" round.out "$1 to text and back"
}

# as_sheet NAME BYTES: a sheet file of bytes in printf's octal.
as_sheet() {
    # shellcheck disable=SC2059
    printf "$2" > "$1"
}

# run_words FILE OFFSET: the counts at an offset as they are printed after the answer: steps, packets, VIF words, NOPs, QWC by tag.
run_words() {
    words "$1" "$2" 24 | tr '\n' ' ' | awk '
        function many(n, one) { return n == 1 ? n " " one : n " " one "s" }
        {
            for (i = 0; i < 12; i++) n[i] = $(2 * i + 1) + $(2 * i + 2) * 4294967296
            split("refe cnt next ref refs call ret end", name, " ")
            text = many(n[0], "step") "; " (n[1] == 0 ? "no packet closed" : many(n[1], "packet") " closed")
            text = text "; " (n[2] == 0 ? "no VIF word" : many(n[2], "VIF word") ", " (n[3] == 0 ? "no NOP" : many(n[3], "NOP"))) "; QWC "
            between = ""
            for (i = 4; i < 12; i++) if (n[i] > 0) { text = text between name[i - 3] " " n[i]; between = ", " }
            print text (between == "" ? "0" : "")
        }'
}

# packets_words NUMBER: so many packets as they are printed.
packets_words() {
    case $1 in 0) echo 'no packet closed' ;; 1) echo '1 packet closed' ;; *) echo "$1 packets closed" ;; esac
}

# give FIELD WORDS: adds the field to state.txt, its words numbered on from the last.
give() {
    if test "$2" = 1; then value=$next; else value=$((next | (next + 1) << 32)); fi
    echo "state $1=$value" >> state.txt
    next=$((next + $2))
}

# give_unit PREFIX, give_path PREFIX: the fields of a unit or a path block.
give_unit() {
    for field in cl wl ofst base tops top itops itop dbf mode mskpath3 mark mask row0 row1 row2 row3 col0 col1 col2 col3; do give "$1$field" 1; done
    for field in waiting irq due address count format usn m held0 held1 held2; do give "$1$field" 1; done
}

give_path() {
    for field in q place format nloop eop nreg; do give "$1$field" 1; done
    give "$1descriptors" 2
    give "$1due" 1
}

# Every field of the state block, in the order of docs/FORMATS.md: the text gives each word a number of its own.
state_words() {
    next=1000
    : > state.txt
    for field in channel tadr tte ended depth stack0 stack1 tag-words tag-word-at payload-words payload-at; do give $field 1; done
    give used 2
    give_unit ''
    give_path path2.
    give_path path3.
    give_unit vif0.
    expect 0 assemble state state.txt -o state
    words state 0 $((block_bytes / 4)) | tr -s ' ' '\n' | sed '/^$/d' > got
    seq 1000 $((next - 1)) > wanted
    same got wanted 'the words of the state block'
    round state state
    echo "state block: every word under its field's name, to text and back"
}

usage() {
    expect 0 --help
    says out 'tejborun build SHEET -o CHAIN'
    for name in build steps salvage meaning run why play check set compare report totals dump assemble; do
        expect 0 "$name" --help
        says out "usage: tejborun $name"
        expect 2 "$name"
        says err "usage: tejborun $name"
        expect 2 "$name" --nonsense
        says err 'unknown option --nonsense'
        case $name in run) says err '; known are -o, --output, --allowance, --from, --no-start, --why' ;; esac
        expect 2 "$name" a b c d
    done
    expect 2
    expect 2 nonsense
    says err 'no such command; known are build, steps, salvage, meaning, run, why, play, check, set, compare, report, totals, import, export, dump, assemble'
    expect 2 build a.sheet
    says err 'say with -o where to write'
    expect 2 build a.sheet -o
    says err 'nothing after -o'
    expect 2 build a.sheet -o b -o c
    says err 'given twice'
    expect 2 steps a.sheet -o b
    expect 2 run a -o b --allowance 12a
    says err 'no allowance'
    expect 2 run a -o b --allowance 0x10000000000000000
    expect 2 run a -o b --allowance -1
    expect 2 steps missing.sheet
    says err 'missing.sheet: cannot be opened'
    expect 2 steps .
    expect 2 dump nonsense err
    says err 'give sheet, chain, state, capture, result or totals'
    expect 2 assemble nonsense err -o x
    absent b c x
    echo "usage: help, options and missing words"
}

bench_points() {
    : > empty.sheet
    expect 0 build empty.sheet -o empty.chain
    as_sheet wanted '\0\0\0\160\0\0\0\0\0\0\0\0\0\0\0\0'
    same empty.chain wanted
    expect 0 steps empty.sheet
    says out '1 step'
    as_sheet start.sheet '\236\121\4\0\5\0'
    expect 0 build start.sheet -o start.chain
    as_sheet wanted '\1\0\0\20\0\0\0\0\0\0\0\0\0\0\0\0\0\0\0\0\0\0\0\0\0\0\0\0\5\0\0\24\0\0\0\160\0\0\0\0\0\0\0\0\0\0\0\0'
    same start.chain wanted
    expect 0 steps start.sheet
    says out '6 steps'
    expect 0 play start.sheet -o start.result
    says out 'answer 0, done; 6 steps'
    says out 'log: 1 entry added, first 0, last 0'
    expect 0 dump start.result
    says out 'entry 0 path=0 MSCAL 0x0000000000000005'
    printf 'data addr=1023\nvector 1 2 3 4\nvector 5 6 7 8\n' > two.txt
    expect 0 assemble sheet two.txt -o two.sheet
    expect 0 build two.sheet -o two.chain
    says out '80 bytes, 5 quadwords, 14 steps'
    expect 0 play two.sheet -o two.result
    says out '2 quadwords changed, first 0, last 1023'
    echo "bench points: the empty sheet, a start, data that wraps"
}

# Every answer of the scope document has a meaning in words.
meanings() {
    for answer in 0 1 2 3 4 5 10 11 12 13 14 20 21 22 23 24 25 26 30 31 40 41 42 43 44 45 46 47 49 50 51 52 54 55 56 60 90 91; do
        echo "result answer=$answer" > meaning.txt
        expect 0 assemble result meaning.txt -o meaning.result
        expect 0 dump meaning.result
        head -n 1 out >> meanings.txt
    done
    if grep -F 'without a meaning' meanings.txt >&2; then fail 'an answer without a meaning'; fi
    if sed 's/.*#//' meanings.txt | sort | uniq -d | grep . >&2; then fail 'a meaning that two answers have'; fi
    says meanings.txt '# main memory has length 0, no multiple of 16 or more than 1,048,576 bytes'
    says meanings.txt '# data memory is not 4,096 words, of VIF0 (channel 0) not 1,024'
    says meanings.txt '# UNPACK with IMM bit 15 (TOPS) on VIF0'
    says meanings.txt "# the log's length is no multiple of 3, above 196,608 numbers or below three times the entries used"
    says meanings.txt "# a state block that is not $((block_bytes / 4)) words, totals that are not 11 numbers, or counts or a result with too few"
    echo 'result answer=92' > meaning.txt
    expect 0 assemble result meaning.txt -o meaning.result
    expect 0 dump meaning.result
    says out '# a number without a meaning'
    echo "meanings: each answer's, in words"
}

# refused_sheet NUMBER OFFSET FILE: every command refuses the sheet and leaves nothing behind.
refused_sheet() {
    for name in build meaning play; do
        expect 1 "$name" "$3" -o refused.out
        says err "$3: refused $1 at offset $2: "
        absent refused.out
    done
    head -c 16 /dev/zero > refused.chain
    expect 1 check "$3" refused.chain -o refused.out
    says err "$3: refused $1 at offset $2: "
    absent refused.out
    expect 1 steps "$3"
    says err "refused $1 at offset $2: "
    expect 1 dump sheet "$3"
    says err "refused $1 at offset $2: "
    if test "$1" != 46; then
        mv out refused.txt
        expect 0 assemble sheet refused.txt -o refused.out
        same "$3" refused.out "refused $1"
        rm refused.out
    fi
}

refused_sheets() {
    as_sheet s '\236\121\4\0\5' && refused_sheet 44 0 s
    as_sheet s '\236\121\4\0\5\0\236\122\4\0\5\0' && refused_sheet 40 6 s
    as_sheet s '\236\121\6\0\5\0' && refused_sheet 41 0 s
    as_sheet s '\236\121\4\0\5\0\236\121\5\0\5\0' && refused_sheet 41 6 s
    as_sheet s '\236\121\4\1\5\0' && refused_sheet 42 0 s
    as_sheet s '\236\121\1\0\5\0' && refused_sheet 42 0 s
    as_sheet s '\236\121\4\0\0\10' && refused_sheet 43 0 s
    as_sheet s '\236\121\2\1\5\0\1\2\3\4\5\6\7' && refused_sheet 44 0 s
    as_sheet s '\236\121\3\1\0\0\1\2\3\4\5\6\7\0\5\0\0\0\0\0\0\1' && refused_sheet 45 0 s
    head -c 131073 /dev/zero > s && refused_sheet 46 0 s
    head -c 131072 /dev/zero > s && refused_sheet 40 0 s
    as_sheet kept 'kept'
    cp kept before
    expect 1 build s -o kept
    same kept before 'an output that stood before'
    head -c 20000000 /dev/zero > s
    expect 2 steps s
    says err 'larger than'
    echo "refused sheets: 40 to 46 by every command, shown as text and put together again, no output left"
}

# expanded_gs TEXT: the GS records of a sheet's expansion, a packet each.
expanded_gs() {
    awk 'BEGIN { depth = 0; times[0] = 1 } $1 == "group" { depth++; times[depth] = times[depth - 1] * substr($2, 8) } $1 == "end" { depth-- }
        $1 == "gs" { count += times[depth] } END { print count + 0 }' "$1"
}

# one_sheet FILE RESULTS: the chain, the steps and the refusal are the second program's; the chain leaves what the sheet means.
one_sheet() {
    set -- "$1" "$2" $(words "$2" 0 2)
    case $3 in
    4[0-69] | 52)
        refused_sheet "$3" "$4" "$1"
        return
        ;;
    esac
    expect 0 build "$1" -o chain
    if test "$3" = 0; then
        slice "$2" 12 "$4" > wanted
        same chain wanted "the chain of $1"
    fi
    round sheet "$1"
    records=$(expanded_gs round.txt)
    round chain chain
    expect 0 play "$1" -o played
    says out "; $(packets_words "$records")"
    in_sheets=$((in_sheets + records))
    expect 0 meaning "$1" -o meant
    expect 0 compare meant played
    says out 'equal'
    expect 0 check "$1" chain -o checked
    says out "chain: accepted: it leaves what $1 means"
    same checked played 'what the run of a chain left'
}

# salvaged FILE: salvages a sheet. What is kept is a sheet that the builder takes; what is dropped is a list of ranges in order and apart; together they are
# the input, and a sheet of which nothing is dropped comes back as it is. The exit status says which.
salvaged() {
    "$command" salvage "$1" -o kept.sheet --ranges ranges > out 2> err
    got=$?
    test $got = 0 || test $got = 1 || { cat err >&2; fail "exit status $got: salvage $1"; }
    expect_kept=$(wc -c < kept.sheet)
    "$command" build kept.sheet -o kept.chain > said 2> err || fail "a salvaged sheet is not built: $(cat err)"
    at_input=0 at_kept=0 end=-1 dropped=0
    : > together
    while read -r offset length; do
        test "$offset" -gt "$end" || fail "ranges that touch or are not in order: $offset after $end"
        test "$length" -gt 0 || fail 'an empty range'
        { slice kept.sheet $at_kept $((offset - at_input)); slice "$1" "$offset" "$length"; } >> together
        at_kept=$((at_kept + offset - at_input)) at_input=$((offset + length)) end=$at_input dropped=$((dropped + length))
    done < ranges
    tail -c +$((at_kept + 1)) kept.sheet >> together
    same together "$1" 'kept and dropped together'
    test $((expect_kept + dropped)) = $(($(wc -c < "$1"))) || fail 'kept and dropped are not the input'
    count=$(($(wc -l < ranges)))
    if test $count = 0; then
        test $got = 0 || fail "exit status $got where nothing is dropped"
        same kept.sheet "$1" 'a valid sheet'
        says out ', nothing dropped'
    else
        test $got = 1 || fail "exit status $got where something is dropped"
        says out ", $dropped byte$(test $dropped = 1 || echo s) dropped in $count range$(test $count = 1 || echo s)"
    fi
}

# The sheets of the second program's cases, cut out of their file.
generated_sheets() {
    "$second" generate-sheet 1 200 > sheets || fail 'generate-sheet'
    size=$(wc -c < sheets)
    step=$(((every + 4) / 5))
    at=0 number=0 tried=0 in_sheets=0 second_editions=0
    while test $at -lt "$size"; do
        length=$(words sheets $((at + 4)) 1)
        whole=$((sheet_at + (length + 3) / 4 * 4))
        if test $((number % step)) = 0; then
            slice sheets $at $whole > case
            slice case "$sheet_at" $((length)) > "sheet"
            "$second" sheet < case > results || fail "second sheet, case $number"
            one_sheet sheet results
            case $(head -c 6 sheet | od -An -tx1) in ' 9e 51 00 02 00 00') second_editions=$((second_editions + 1)) ;; esac
            if test $((length)) -le 131072; then salvaged sheet; fi
            tried=$((tried + 1))
        fi
        at=$((at + whole)) number=$((number + 1))
    done
    test $in_sheets -gt 0 || fail 'no GS record in the sheets'
    test $second_editions -gt 0 || fail 'no sheet of the second edition'
    echo "generated sheets: $tried of $number, $second_editions of the second edition, built as the second program builds them, to text and back, played as they are meant, salvaged; $in_sheets packets, one for each GS record of an expansion"
}

# replayed: reads the results of the case for its calls; sets where the last state block, the last run, each unit's memories and the log are, the exit status
# that the calls have (3 where the last run stopped before the end or there is none, else 1 where a call was refused), and whether none did anything; the file runs
# has answer and counts of each run in words, the file counted the counts, the file whys the sentence of each why, the file given the state block that the case gives, with the registers set.
# The lengths: VIF1's data and code memory, the log, VIF0's data and code memory, the number of calls.
replayed() {
    data=$1 code=$2 log=$3 data0=$4 code0=$5 calls=$6
    at=0 block=none run=none memories=none memories0=none log_at=none any_refused=0 last=90 idle=1
    channel=$(($(words case "$case_head" 1)))
    : > runs
    : > counted
    : > whys
    slice case "$case_head" "$block_bytes" > given
    for call in $(seq 0 $((calls - 1))); do
        kind=$(($(words case $((case_calls_at + 16 * call)) 1)))
        set -- $(words results $at 7)
        if test "$kind" = 4; then
            why_sentence $(($1)) $(($2)) $(($3)) $(($4 + ($5 << 32))) $(($6 + ($7 << 32))) >> whys
            at=$((at + 28))
            continue
        fi
        answer=$1
        case $kind$answer in
        30)
            set_given $(words case $((case_calls_at + 16 * call + 4)) 3)
            with_sets=$((with_sets + 1))
            ;;
        10) idle=0 ;;
        ?0 | ?90 | ?91) ;;
        *) any_refused=1 ;;
        esac
        if test "$kind" = 2 && test "$2 $3" != '0 0'; then idle=0; fi
        if test "$kind" != 2; then
            block=$((at + 4))
            at=$((at + 4 + block_bytes))
        else
            run=$at last=$answer block=$((at + run_head))
            echo "$answer $(run_words results $((at + 4)))" >> runs
            words results $((at + 4)) 24 | tr '\n' ' ' >> counted
            echo >> counted
            replayed_memories $((at + run_head + block_bytes))
            at=$((log_at + 8 * log))
        fi
        channel=$(($(words results "$block" 1)))
    done
    test "$at" = $(($(wc -c < results))) || fail 'results of another length'
    case $last in
    90 | 91) status=3 ;;
    *) status=$any_refused ;;
    esac
}

# why_sentence KIND REFUSAL ADDRESS FIRST SECOND: what is said of these numbers of a why, on the channel; of an entry without its words.
why_sentence() {
    case $1 in
    0) echo 'no complaint' ;;
    1) echo 'the chain has ended' ;;
    2) echo "refused at the entry, $2" ;;
    *) echo "refused $2 at $(printf '0x%08X' "$3"): $(step_sentence "$2" "$4" "$5")" ;;
    esac
}

step_sentence() {
    case $1 in
    10) printf 'TADR 0x%X lies outside main memory' "$2" ;;
    11) printf 'ADDR 0x%X of the tag is no multiple of 16' "$2" ;;
    12) echo "SPR $2 in a tag that uses ADDR" ;;
    13) echo "call with $2 addresses on the stack" ;;
    14) case $3 in 1) echo "a tag with QWC $2 where 1 quadword fits" ;; *) echo "a tag with QWC $2 where $3 quadwords fit" ;; esac ;;
    20) case $channel in 0) unit=0 ;; *) unit=1 ;; esac; printf 'a VIF code with CMD 0x%02X, which VIF%s does not have' "$2" "$unit" ;;
    21) echo "UNPACK with vl 3 and vn $2" ;;
    22) echo "UNPACK with WL $2" ;;
    23) echo "STMOD with mode $2" ;;
    24) echo "DIRECT payload is due and the next word is word $2 of its quadword, not word 0" ;;
    25) echo "the first payload word of an MPG is due and the next word is word $2 of its quadword" ;;
    26) echo "UNPACK with IMM bit 15 (TOPS) $2 on VIF0" ;;
    30) echo "GIF descriptor $2 (B) is met at its data" ;;
    31) case $2 in 1) echo "the log lacks room: 1 entry free, $3 needed" ;; *) echo "the log lacks room: $2 entries free, $3 needed" ;; esac ;;
    *) fail "a why with refusal $1" ;;
    esac
}

# whys_said: what the run of the case says of its whys is replay's; each refused run has its sentence; why exits as the run does and says the last one.
whys_said() {
    sed -n 's/^call [0-9]*, why: //p' said | sed 's/^\(refused at the entry, [0-9]*\): .*/\1/' > got
    same got whys "what is said of the whys of capture $number"
    with_whys=$((with_whys + $(wc -l < whys)))
    grep -A 1 '^call [0-9]*, run .*: answer [0-9]*, refused: ' said | sed -n 's/^  refused at the entry, \([0-9]*\): .*/\1/p;s/^  refused \([0-9]*\) at 0x.*/\1/p' > got
    sed -n 's/^call [0-9]*, run .*: answer \([0-9]*\), refused: .*/\1/p' said > refusals
    same got refusals "the sentences of the refused runs of capture $number"
    expect "$status" why case
    sed -n 's/^refused at the entry, \([0-9]*\): .*/\1/p;s/^refused \([0-9]*\) at 0x.*/\1/p;s/^the chain has ended$/0/p;s/^no complaint$/none/p' out > got
    test "$(wc -l < got)" = 1 || fail "why says not one sentence of capture $number"
    case $run$last in
    none* | *90 | *91) ;;
    *) test "$(cat got)" = "$last" || fail "why says $(cat got), not $last of capture $number" ;;
    esac
}

# set_given UNIT NUMBER VALUE: sets a register in the state block given.
set_given() {
    patched given $(($(registers_at "$1") + 4 * $2)) "$3"
    mv broken given
}

# registers_at UNIT: the place of ROW 0 in a state block; ROW 1 to 3 and COL 0 to 3 follow.
registers_at() {
    case $1 in 0) echo $((4 * (63 + 13))) ;; *) echo $((4 * (13 + 13))) ;; esac
}

# replayed_memories OFFSET: the memories of a run, VIF0's where the channel before it was 0.
replayed_memories() {
    if test "$channel" = 0; then
        memories0=$1
        log_at=$(($1 + 4 * data0 + (code0 + 3) / 4 * 4))
    else
        memories=$1
        log_at=$(($1 + 4 * data + (code + 3) / 4 * 4))
    fi
}

# wanted_memories OFFSET BYTES DATA CODE: a unit's memories from the results, or, where no run was lent them, as the case begins.
wanted_memories() {
    if test "$1" != none; then
        slice results "$1" "$2"
    else
        expect 0 export case "--$3" wanted.data "--$4" wanted.code
        cat wanted.data wanted.code
    fi
}

# wanted_result FILE OFFSET: what the run of the case has to leave, from the results, with the state block of a file.
wanted_result() {
    printf 'TRE6'
    if test "$run" = none; then head -c "$run_head" /dev/zero; else slice results "$run" "$run_head"; fi
    slice "$1" "$2" "$block_bytes"
    slice case 20 4
    printf '\37\0\0\0'
    if test "$run" = none; then return; fi
    wanted_memories "$memories" "$memory_bytes" data code
    wanted_memories "$memories0" "$memory0_bytes" data0 code0
    slice results "$log_at" $((8 * log))
}

# one_capture: the case to text and back, and run; its result is replay's.
one_capture() {
    set -- $(words case 4 11)
    round capture case
    slice case "$case_head" "$block_bytes" > state
    round state state
    if test "$2" -gt 0 && test $(($2 % 4)) = 0 && test "$2" -le 262144; then
        slice case $((case_calls_at + 16 * $9)) $((4 * $2)) > main
        round chain main
    fi
    { slice case 0 32; printf '\1\0\0\0'; tail -c +37 case; } > whole
    "$replay" < whole > results || fail 'replay'
    replayed "$3" "$4" "$5" "${10}" "${11}" "$9"
    rm -f result
    if test "$3 $4 ${10} ${11}" != "$data_words $code_bytes $data0_words $code0_bytes" || test $(($5 % entry_numbers)) != 0 || test "$5" -gt "$log_numbers"; then
        expect 2 run case -o result
        says err 'not written'
        absent result
        return
    fi
    if test $block = none; then wanted_result case "$case_head" > wanted; else wanted_result results "$block" > wanted; fi
    expect "$status" run case -o result
    cp out said
    if test $run = none; then head -c "$result_head" result > part; else cp result part; fi
    # A refusal and a run without a step change no block: then the words that mean nothing may stand as they were given, where replay writes zero.
    if test $idle = 1 && ! cmp -s part wanted; then wanted_result given 0 > wanted; fi
    same part wanted "capture $number"
    sed -n 's/^call .*, run .*: answer \([0-9]*\), .*; \([0-9]* steps*; \)/\1 \2/p' said > got
    same got runs "what is said of the runs of capture $number"
    whys_said
    with_packets=$((with_packets + $(grep -vc 'no packet closed' runs)))
    case $memories0 in none) ;; *) on_vif0=$((on_vif0 + 1)) ;; esac
    round result result
    totals_of_case
}

# totals_of_case: the totals of the case are the sums of replay's counts.
totals_of_case() {
    rm -f sums
    expect 0 totals sums add case --new
    awk '{ for (i = 1; i < 12; i++) sum[i] += $(2 * i + 1) + $(2 * i + 2) * 4294967296 } END { for (i = 1; i < 12; i++) print sum[i] + 0; print NR }' counted > wanted
    words sums 4 24 | tr '\n' ' ' | awk '{ for (i = 0; i < 12; i++) print $(2 * i + 1) + $(2 * i + 2) * 4294967296 }' > got
    same got wanted "the totals of capture $number"
}

generated_captures() {
    "$second" generate-capture 2 100 > captures || fail 'generate-capture'
    size=$(wc -c < captures)
    at_case=0 number=0 tried=0 on_vif0=0 with_packets=0 with_sets=0 with_whys=0
    while test $at_case -lt "$size"; do
        set -- $(words captures $((at_case + 8)) 8)
        length=$((case_calls_at + 16 * $8 + 4 * $1))
        if test $((number % every)) = 0; then
            slice captures $at_case $length > case
            one_capture
            tried=$((tried + 1))
        fi
        at_case=$((at_case + length)) number=$((number + 1))
    done
    test $with_whys -gt 0 || fail 'no why in the captures'
    echo "generated captures: $tried of $number to text and back (capture, state, main memory, result), run and added as replay runs them; $on_vif0 with a run on VIF0," \
        "$with_packets runs that closed packets, $with_sets registers set, $with_whys whys"
}

examples() {
    for name in all-kinds.sheet groups.sheet difference.capture vif0.capture paths.capture; do
        kind=${name#*.}
        expect 0 assemble "$kind" "$here/../examples/$name.txt" -o "$name"
        expect 0 dump "$name"
        round "$kind" "$name"
    done
    expect 0 run difference.capture -o difference.result
    says out 'answer 0, done; 1042 steps; no packet closed'
    says out '256 quadwords changed, first 0, last 255'
    expect 0 play all-kinds.sheet
    says out 'answer 0, done; 66 steps; 1 packet closed'
    expect 0 play groups.sheet
    says out 'answer 0, done; 12815 steps; 800 packets closed'
    expect 3 run difference.capture -o some.result --allowance 100
    says out 'answer 90, the step allowance is used; 100 steps'
    expect 3 run difference.capture -o none.result --allowance 0x0
    says out 'answer 90, the step allowance is used; 0 steps'
    says out 'data memory: nothing changed'
    expect 0 run difference.capture -o enough.result --allowance 0x412
    says out 'answer 0, done; 1042 steps'
    same difference.result enough.result
    sed 's/^  NOP/  NOP irq=1/' "$here/../examples/difference.capture.txt" > mark.txt
    expect 0 assemble capture mark.txt -o mark.capture
    expect 3 run mark.capture -o mark.result
    says out 'answer 91, stopped at an interrupt mark; 4 steps'
    sed 's/mode=2/mode=3/' "$here/../examples/difference.capture.txt" > refused.txt
    expect 0 assemble capture refused.txt -o refused.capture
    expect 1 run refused.capture -o refused.result
    says out 'answer 23, refused: STMOD with mode 3; 2 steps'
    expect 0 dump refused.result
    says out 'result answer=23 steps=2 packets=0 '
    sh "$here/../examples/demo.sh" "$command" demo > out 2> err || fail "the demonstration: $(cat err)"
    says out '-1 count'
    echo "examples: assembled, run with allowances, an interrupt mark and a refusal; the demonstration"
}

# edited TEXT FROM TO: the result of the text with an edit, as board.
edited() {
    sed "$2" "$1" > edited.txt
    if cmp -s "$1" edited.txt; then fail "no edit: $2"; fi
    expect 0 assemble result edited.txt -o board
}

comparisons() {
    expect 0 play all-kinds.sheet -o a
    cp a b
    expect 0 compare a b
    says out 'equal'
    "$command" dump a > a.txt
    edited a.txt 's/^quadword 1023 0x00000001/quadword 1023 0x00000000/'
    expect 1 compare a board
    says out 'data memory: 1 quadword differs, the first is 1023'
    says out 'X  0x00000001           1  1.40129846e-45   0x00000000           0  0                -1 count'
    says out 'Y  0xFFFFFFFE          -2  nan'
    says out '       a                                        board                                    board - result'
    says out 'different'
    edited a.txt 's/ 0x80000000$/ 0x7FFFFFFE/'
    expect 1 compare a board
    says out 'W  0x80000000 -2147483648  -0               0x7FFFFFFE  2147483646  nan              -2 counts'
    edited a.txt 's/^instruction 1 0x8000033C400002FF/instruction 2000 0xFF/'
    expect 1 compare a board
    says out 'code memory: 2 instructions differ, the first is 1'
    says out 'instruction 1 (0x1)'
    says out 'a      0x8000033C400002FF'
    says out 'board  0x0000000000000000'
    expect 1 compare a board --all
    says out 'instruction 2000 (0x7D0)'
    says out 'board  0x00000000000000FF'
    edited a.txt 's/^entry 3 path=2 TEST_1 .*/entry 3 path=2 0xFE 0x10/'
    expect 1 compare a board
    says out 'log: 1 entry differs, the first is 3'
    says out 'a      path 2, register 0x47 TEST_1, value 0x000000000005000D'
    says out 'board  path 2, register 0xFE (no name), value 0x0000000000000010 (16)'
    edited a.txt 's/used=7/used=5/'
    expect 1 compare a board
    says out 'log: the same, 5 entries compared'
    says out 'a has 7 entries, board 5; only a has 5 to 6'
    says out 'a      path 0, register 0x100 MSCAL, value 0x00000000000007FF'
    expect 1 compare board a
    says out 'only a has 5 to 6'
    edited a.txt "s/used=7/used=$((entries + 1))/"
    expect 1 compare a board
    says err 'refused 4: '
    expect 2 compare a missing
    expect 2 compare a a.txt
    says err 'a.txt: no result, but text; assemble it first: tejborun assemble result a.txt -o FILE'
    echo "comparisons: equal; a field, an instruction, a log entry, the number of entries; refused; every difference"
}

# damaged KIND FILE COMMAND..: the file cut short, with a byte more, and without its mark is not read.
damaged() {
    kind=$1 file=$2
    shift 2
    size=$(wc -c < "$file")
    for length in 0 1 3 4 39 40 55 56 100 $((block_bytes - 1)) $((result_head - 1)) $((calls_at - 1)) $((size / 2)) $((size - 1)); do
        test "$length" -lt "$size" || continue
        head -c "$length" "$file" > broken
        expect 2 dump "$kind" broken
        test $# = 0 || expect 2 "$@"
    done
    { cat "$file"; printf x; } > broken
    expect 2 dump "$kind" broken
    test $# = 0 || expect 2 "$@"
    { printf x; tail -c +2 "$file"; } > broken
    test $# = 0 || { expect 2 dump "$kind" broken; expect 2 "$@"; says err 'does not begin with the mark'; }
    absent broken.out
}

# patched FILE OFFSET NUMBER: the file with another word at an offset, as broken.
patched() {
    { slice "$1" 0 "$2"; word "$3"; tail -c +$(($2 + 5)) "$1"; } > broken
}

# limit OFFSET NUMBER: a capture with this word in its head is not read.
limit() {
    patched difference.capture "$1" "$2"
    expect 2 dump broken
    expect 2 run broken -o broken.out
    says err 'damaged capture'
    absent broken.out
}

damaged_files() {
    damaged capture difference.capture run broken -o broken.out
    damaged result difference.result compare difference.result broken
    expect 2 dump broken
    limit 4 $((1048576 + 33))
    limit 8 $((8192 / 4 + 1))
    limit 12 $((data_words + 5))
    limit 16 $((code_bytes + 9))
    limit 20 $((data0_words + 5))
    limit 24 $((code0_bytes + 9))
    limit 28 $((log_numbers + 9))
    for at in 32 36 40 44; do limit $at 2; done
    limit 48 1
    limit 40 $((data0_words + 4))
    limit 52 65536
    limit "$calls_at" 0
    limit "$calls_at" 5
    says err 'call 0 is of kind 5; 1 is a start, 2 a run, 3 a set, 4 a why'
    sed 's/^capture/capture fill=0/' "$here/../examples/difference.capture.txt" > test-case.txt
    expect 0 assemble capture test-case.txt -o test-case
    patched test-case 32 2
    expect 2 run broken -o broken.out
    says err 'damaged capture: 2 for whole memories; the most is 1'
    cat difference.capture difference.capture > broken
    expect 2 run broken -o broken.out
    says err 'give a capture of one case'
    slice difference.capture "$head_bytes" "$block_bytes" > state
    damaged state state
    for length in 0 1 3 17 100; do
        head -c $length difference.capture > broken
        expect 2 dump chain broken
        says err 'no chain'
    done
    head -c 1048592 /dev/zero > broken
    expect 2 dump chain broken
    head -c 1048576 /dev/zero > broken
    round chain broken
    expect 2 dump state
    expect 2 dump broken
    says err 'begins with no mark; give its kind'
    expect 2 build all-kinds.sheet -o missing-folder/x
    says err 'missing-folder/x: cannot be written'
    mkdir folder
    expect 2 build all-kinds.sheet -o folder
    expect 0 build all-kinds.sheet -o /dev/null
    test -c /dev/null || fail '/dev/null was replaced'
    if test -c /dev/full; then
        expect 2 build all-kinds.sheet -o /dev/full
        "$command" dump all-kinds.sheet > /dev/full 2> err
        test $? = 2 || fail 'standard output full'
    fi
    # A write that fails halfway, at a limit of 512 bytes for a file, leaves the file that stood there and nothing else.
    cp kept limited
    (trap '' XFSZ && ulimit -f 1 && "$command" play all-kinds.sheet -o limited > /dev/null 2>&1)
    test $? = 2 || fail 'a write that fails halfway'
    same kept limited
    absent broken.out missing-folder
    if test -e limited.partial; then fail 'limited.partial was left behind'; fi
    echo "damaged files: cut, longer, without mark, beyond each limit; outputs that cannot be written"
}

# earlier KIND MARK BYTES WHICH COMMAND..: a file of so many bytes with a mark of an earlier layout is told to be one.
earlier() {
    kind=$1 mark=$2 bytes=$3 which=$4
    shift 4
    { printf '%s' "$mark"; head -c $((bytes - 4)) /dev/zero; } > broken
    for words in "dump broken" "dump $kind broken" "$*"; do
        # shellcheck disable=SC2086
        expect 2 $words
        says err "broken: a $kind from before $which; dump it with the version that wrote it, and assemble the text here"
        if grep -q damaged err; then fail 'said to be damaged'; fi
    done
    absent broken.out
}

# A result as it was written before packets were counted, two words shorter; its text without packets makes the result of today.
earlier_of_run() {
    { printf 'TRE3'; slice difference.result 4 12; tail -c +105 difference.result; } > broken
    expect 2 compare difference.result broken
    says err "broken: a result from before $before_packets; "
    "$command" dump difference.result > today.txt
    says today.txt ' packets=0 words=1040 nops=6 qwc.cnt=259 qwc.end=1 '
    sed 's/ words=[0-9]*//;s/ nops=[0-9]*//;s/ qwc.[a-z]*=[0-9]*//g' today.txt > without.txt
    sed 's/ packets=0//' without.txt > earlier.txt
    if grep -e packets -e words= -e nops= -e qwc earlier.txt; then fail 'counts in the text'; fi
    { slice difference.result 0 24; head -c 80 /dev/zero; tail -c +105 difference.result; } > wanted
    for text in without earlier; do
        expect 0 assemble result $text.txt -o earlier.result
        same earlier.result wanted 'text from before'
    done
}

# Results as they were written before the totals, without words, NOPs and QWC.
earlier_of_totals() {
    before_totals='the totals: it has no counts of VIF words, NOPs and QWC'
    earlier result TRE5 $((412 + 16384)) "$before_totals" compare difference.result broken
    earlier result TRE5 412 "$before_totals" run difference.capture --from broken -o broken.out
    earlier result TRE5 8 "$before_totals" totals month add broken --new
    { printf 'TRE5'; slice difference.result 4 20; tail -c +105 difference.result; } > broken
    expect 2 compare difference.result broken
    says err "broken: a result from before $before_totals; "
    absent month
}

# Files as they were written before entries had a path; their text makes those of today.
earlier_of_paths() {
    before_paths='log entries had a path: they have 2 numbers, here they have 3'
    earlier capture TCA3 $((436 + 64)) "$before_paths" run broken -o broken.out
    earlier capture TCP2 428 "$before_paths" export broken --main broken.out
    earlier result TRE4 $((412 + 16384)) "$before_paths" compare difference.result broken
    earlier result TRE4 412 "$before_paths" run difference.capture --from broken -o broken.out
    earlier result TRE4 8 "$before_paths" report difference.result broken -o page.html
    says err 'assemble the text here, with a path for each write of the GIF'
    { printf 'TCA3'; slice difference.capture 4 24; word 64; tail -c +33 difference.capture; } > broken
    expect 2 run broken -o broken.out
    says err "broken: a capture from before $before_paths; "
    for kind in capture result; do
        "$command" dump difference.$kind | sed 's/log-entries=32/log-numbers=64/;s/^\(entry [0-9]*\) path=0/\1/' > earlier.txt
        if grep -q -e path= -e log-entries earlier.txt || ! grep -q 'log-numbers=64' earlier.txt; then fail "the text of a $kind from before"; fi
        expect 0 assemble $kind earlier.txt -o earlier.out
        same earlier.out difference.$kind "the text of a $kind from before"
    done
    absent broken.out
}

# another_kind FILE KIND COMMAND..: the file is told by its mark to be of a kind.
another_kind() {
    file=$1 kind=$2
    shift 2
    expect 2 "$@"
    says err "$file: no "
    says err "that of a $kind"
}

other_layouts() {
    before_vif0='VIF0: its state has 63 words, here it has 95'
    before_packets='packets were counted: it has no number of packets closed'
    earlier capture TCAP 292 "$before_vif0" run broken -o broken.out
    earlier capture TCA2 292 "$before_vif0" export broken --main broken.out
    earlier result TRES $((272 + 2 * 16384)) "$before_vif0" compare difference.result broken
    earlier result TRE2 $((276 + 16384)) "$before_vif0" run difference.capture --from broken -o broken.out
    earlier result TRE3 $((404 + 16384)) "$before_packets" compare difference.result broken
    earlier result TRE3 404 "$before_packets" report difference.result broken -o page.html
    earlier result TRE3 8 "$before_packets" export broken --data broken.out
    earlier_of_run
    earlier_of_paths
    earlier_of_totals
    head -c 252 /dev/zero > broken
    expect 2 dump state broken
    says err 'broken: a state from before VIF0: its state has 63 words'
    numbers=$(($(words difference.result $((result_head - 8)) 1)))
    patched difference.result $((result_head - 8)) $((numbers + 1))
    expect 2 dump broken
    says err "broken: damaged result: its log has $((numbers + 1)) numbers"
    head -c 8 /dev/zero >> broken
    expect 2 dump broken
    says err "broken: a result of another layout: its log has $((numbers + 1)) numbers"
    another_kind difference.result result run difference.result -o broken.out
    another_kind difference.capture capture compare difference.result difference.capture
    another_kind all-kinds.sheet sheet run all-kinds.sheet -o broken.out
    expect 2 dump state difference.capture
    says err 'no state: '
    says err 'it begins with the mark of a capture'
    absent broken.out
    echo "other layouts: files from before VIF0, before packets were counted and before entries had a path, a log of no whole entries, another kind of file: each named"
}

# bad_text KIND LINE MESSAGE TEXT: the text is not assembled; the message names the line.
bad_text() {
    printf '%b' "$4" > bad.txt
    expect 2 assemble "$1" bad.txt -o bad.out
    says err "bad.txt${2:+:$2}: $3"
    absent bad.out
}

bad_texts() {
    bad_text sheet 1 "'nonsense' is no line of a sheet" 'nonsense\n'
    bad_text sheet 2 "'vector' belongs to a record 'data'" 'gs\nvector 1 2 3 4\n'
    bad_text sheet 1 "'write' belongs to a record 'gs'" 'write 1 2\n'
    bad_text sheet 3 "after 'vector' come four words" '# one\ndata addr=1\nvector 1 2 3\n'
    bad_text sheet 2 "'4294967296' is no word" 'data addr=1\nvector 1 2 3 4294967296\n'
    bad_text sheet 2 "'-2147483649' is no word" 'data addr=1\nvector 1 2 3 -2147483649\n'
    bad_text sheet 1 'addr=65536: the field has 16 bits' 'data addr=65536\n'
    bad_text sheet 1 "'data' has no field 'adr'; it has addr" 'data adr=5\n'
    bad_text sheet 1 "'addr' is given twice" 'data addr=5 addr=5\n'
    bad_text sheet 1 "'5' after 'data': expected field=value" 'data 5\n'
    bad_text sheet 2 "'NAME' is no register: give a number or one of PRIM, RGBAQ, " 'gs\nwrite NAME 1\n'
    bad_text sheet 2 'register MSCAL has no place in a byte' 'gs\nwrite MSCAL 1\n'
    bad_text sheet 2 "'0x10000000000000000' is no number of 64 bits" 'code addr=0\ninstruction 0x10000000000000000\n'
    bad_text sheet 1 "'256' is no number of 8 bits" 'byte 1 256\n'
    bad_text sheet 1 'more than 64 items' "byte $(seq -s ' ' 1 64)\n"
    bad_text sheet 257 'a record counts at most 255' "data addr=0\n$(yes 'vector 1 2 3 4' | head -n 256)\n"
    bad_text sheet '' 'no text: it has a zero byte' 'start addr=5\n\0000'
    bad_text chain 2 "'cnt' at 0x4: it begins at a multiple of 16" 'NOP\ncnt qwc=1\n'
    bad_text chain 2 "'NOP' at 0x1: it begins at a multiple of 4" 'byte 1\nNOP\n'
    bad_text chain 1 'qwc=65536: the field has 16 bits' 'cnt qwc=65536\n'
    bad_text chain 1 'format=V5-32: the field has 4 bits' 'UNPACK format=V5-32\n'
    says err 'or one of S-32, S-16, S-8, V2-32, V2-16, V2-8, V3-32, V3-16, V3-8, V4-32, V4-16, V4-8, V4-5'
    bad_text chain 2 'at 0x4: the lines before reach 0x10 already' 'end\nat 4\n'
    bad_text chain 1 'at 0xFFFFFFFFFFFFFFFF: main memory ends' 'at 0xFFFFFFFFFFFFFFFF\n'
    bad_text chain 1 "'vector' is no tag (refe, cnt, next, ref, refs, call, ret, end), code (NOP, STCYCL, " 'vector 1 2 3 4\n'
    bad_text capture 2 "'vector' is no tag (refe, " 'capture\nvector 1 2 3 4\n'
    says err ', giftag, word, byte or at, and no capture, state, quadword, instruction, vif0.quadword, vif0.instruction, entry, start, run, set or why'
    bad_text chain '' 'makes 4 bytes; a chain is whole quadwords' 'NOP\n'
    bad_text chain '' 'makes 0 bytes' '\n# nothing\n'
    bad_text chain '' 'makes 1048592 bytes' 'at 0x100010\n'
    bad_text state 1 "'channel=1': a state's lines begin with state" 'channel=1\n'
    bad_text state 2 "'cl' is given twice" 'state cl=1\nstate cl=1\n'
    bad_text state '' 'has no line that begins with state' ''
    bad_text capture '' "has no line 'capture'" 'state channel=1\n'
    bad_text capture 2 "'capture' is given twice" 'capture\ncapture\n'
    bad_text capture '' "damaged capture: $((data_words + 5)) words of VIF1's data memory; the most is $((data_words + 4))" "capture data-words=$((data_words + 5))\n"
    bad_text capture '' "damaged capture: $((data0_words + 5)) words of VIF0's data memory; the most is $((data0_words + 4))" "capture vif0.data-words=$((data0_words + 5))\n"
    bad_text capture '' "damaged capture: $((code0_bytes + 9)) bytes of VIF0's code memory; the most is $((code0_bytes + 8))" "capture vif0.code-bytes=$((code0_bytes + 9))\n"
    bad_text capture '' 'damaged capture: 4 words given of main memory; the most is 3' 'capture main-bytes=15\nend\n'
    bad_text capture '' 'makes 1 bytes of main memory; give whole words' 'capture\nbyte 1\n'
    bad_text capture 2 "'start' has no field 'allowance'" 'capture\nstart allowance=1\n'
    bad_text capture 2 "'set' has a register and a value: register=row0 value=0x3F800000" 'capture\nset\n'
    bad_text capture 2 "'set' has a register and a value" 'capture\nset unit=0 register=row0\n'
    bad_text capture 2 "'set' has a register and a value" 'capture\nset value=5\n'
    bad_text capture 2 'register=row4: the field has 32 bits; give a number as 12 or 0x1F, or one of row0, row1, row2, row3, col0, col1, col2, col3' 'capture\nset register=row4 value=1\n'
    bad_text capture 2 'value=0x100000000: the field has 32 bits' 'capture\nset register=row0 value=0x100000000\n'
    bad_text capture 2 "'set' has no field 'row'; it has unit, register, value" 'capture\nset row=0 value=1\n'
    bad_text result 1 "'state': the first line is 'result'" 'state channel=1\nresult\n'
    bad_text result 2 "quadword $quadwords: the last is $((quadwords - 1))" "result\nquadword $quadwords 1 2 3 4\n"
    bad_text result 2 "instruction $instructions: the last is $((instructions - 1))" "result\ninstruction $instructions 1\n"
    bad_text result 2 "vif0.quadword $quadwords0: the last is $((quadwords0 - 1))" "result\nvif0.quadword $quadwords0 1 2 3 4\n"
    bad_text result 2 "vif0.instruction $instructions0: the last is $((instructions0 - 1))" "result\nvif0.instruction $instructions0 1\n"
    bad_text result 2 "'vif1.quadword' is no line of a result: result, state, quadword, instruction, vif0.quadword" "result\nvif1.quadword 1 1 2 3 4\n"
    bad_text result 2 "entry $entries: the last is $((entries - 1))" "result\nentry $entries path=2 1 1\n"
    bad_text result 2 'entry 2: the log has 2 entries' 'result log-entries=2\nentry 2 path=2 1 1\n'
    bad_text result '' "has no line 'result'" ''
    printf 'start addr=5\r\n\tstart addr=6 # no line end' > good.txt
    expect 0 assemble sheet good.txt -o good.sheet
    as_sheet wanted '\236\121\4\0\5\0\236\121\4\0\6\0'
    same good.sheet wanted
    echo "texts: each kind of mistake with its line, no output left"
}

# result_of NAME TEXT, capture_of NAME TEXT: the file of a text.
result_of() {
    printf '%b' "$2" > "$1.txt"
    expect 0 assemble result "$1.txt" -o "$1"
}

capture_of() {
    printf '%b' "$2" > "$1.txt"
    expect 0 assemble capture "$1.txt" -o "$1"
}

# The entries used are the entries given, where no state line says how many.
entries_used() {
    result_of five 'result\nentry 0 MSCAL 5\n'
    result_of nine 'result\nentry 0 MSCAL 9\n'
    expect 1 compare five nine
    says out 'log: 1 entry differs, the first is 0'
    result_of both 'result\nentry 1 MSCAL 5\nentry 0 MSCAL 5\n'
    expect 0 dump both
    says out ' used=2'
    expect 1 compare five both
    says out 'only both has 1 to 1'
    bad_text result '' 'has entry 2 and no entry 1' 'result\nentry 0 MSCAL 5\nentry 2 MSCAL 5\n'
    result_of none 'result\nstate used=0\nentry 0 MSCAL 5\nentry 2 MSCAL 5\n'
    expect 0 dump none
    says out ' used=0'
    round result none
    result_of empty 'result\n'
    expect 0 compare empty none
    echo "entries used: those given, without a gap, or as many as a state line says"
}

# A verdict is given on a finished expectation alone, unless it is asked for.
unfinished() {
    result_of ended 'result\n'
    for answer in 5 22 90 91; do
        result_of stopped "result answer=$answer\n"
        expect 3 compare stopped ended
        says err "ended: no verdict: stopped is unfinished, its answer is $answer: "
        if grep -q equal out; then fail 'a verdict'; fi
        expect 0 compare stopped ended --unfinished
        says out 'equal to an unfinished result'
        expect 0 compare ended stopped
    done
    result_of other 'result answer=22\nquadword 3 1 2 3 4\n'
    expect 1 compare other ended --unfinished
    says out 'different from an unfinished result'
    printf 'capture\nrun allowance=%s\nend\n' 0 > a.txt
    expect 0 assemble capture a.txt -o a.capture
    expect 3 run a.capture -o a
    capture_of b.capture 'capture\nstart channel=1\nrun allowance=0\nrun\nend\n'
    expect 0 run b.capture -o b
    says out 'answer 90, '
    says out 'answer 0, done; 1 step'
    capture_of c.capture 'capture\nstart channel=3\nrun allowance=0\nend\n'
    expect 3 run c.capture -o c
    capture_of d.capture 'capture\nstart channel=3\nrun\nend\n'
    expect 1 run d.capture -o d
    capture_of e.capture 'capture\nstart channel=1\nend\n'
    expect 3 run e.capture -o e
    for name in '' build steps meaning run play compare report import export dump assemble; do
        # shellcheck disable=SC2086
        expect 0 $name --help
        says out '0 done or equal, 1 a refusal or a difference, 2 bad usage or file, 3 stopped before the end (90, 91) or'
    done
    echo "unfinished: no verdict unless it is asked for; exit status 3, and of several the worst in the order 2, 3, 1, 0"
}

# What a capture begins with: zeros, lines, raw files, a result; and a fill, as in test cases.
beginnings() {
    capture_of zero.capture 'capture\nstart channel=1\nrun\nend\n'
    expect 0 run zero.capture -o zero.result
    expect 0 dump zero.result
    if grep -e '^quadword' -e '^instruction' -e '^entry' out; then fail 'a memory that is not zero at first'; fi
    capture_of filled.capture 'capture fill=0 log-entries=4\nstart channel=1\nrun\nend\n'
    test "$(head -c 4 filled.capture)" = TCP3 || fail 'the mark of a test case'
    "$replay" < filled.capture > results || fail 'a test case for replay'
    test "$(head -c 4 zero.capture)" = TCA4 || fail 'the mark of a capture'
    expect 0 run filled.capture -o filled.result
    expect 0 dump filled.result
    says out "quadword 1 0x"
    round capture filled.capture
    capture_of given.capture 'capture log-entries=32\nquadword 3 1 -2 3 4\ninstruction 7 0x123\nentry 0 path=0 MSCAL 5\nentry 1 path=2 PRIM 0\nstart channel=1\nrun\nend\n'
    round capture given.capture
    expect 0 run given.capture -o given.result
    says out 'log: nothing added, 2 used'
    expect 0 dump given.result
    says out 'quadword 3 0x00000001 0xFFFFFFFE 0x00000003 0x00000004'
    says out 'instruction 7 0x0000000000000123'
    says out 'entry 0 path=0 MSCAL 0x0000000000000005'
    says out 'entry 1 path=2 PRIM 0x0000000000000000'
    capture_of zeros.capture 'capture\nstate used=1\nquadword 9 0 0 0 0\ninstruction 9 0\nentry 3 path=0 PRIM 0\n'
    round capture zeros.capture
    bad_text capture '' "has 'fill=' and gives a memory" 'capture fill=0\nquadword 1 1 2 3 4\n'
    bad_text capture '' "has 'whole=' without 'fill='" 'capture whole=1\n'
    bad_text capture '' "damaged capture: 8 words given of VIF1's data memory; the most is 4" 'capture data-words=4\nquadword 1 1 2 3 4\n'
    capture_of run.capture 'capture\nrun\n'
    words run.capture "$calls_at" 4 | grep -q '^ *2 4294967295 4294967295 *0$' || fail 'a run without allowance'
    words run.capture "$head_bytes" 1 | grep -q '^ *1$' || fail 'no state line: reset'
    raw_beginnings
    continued
    echo "beginnings: zeros, lines, raw files, a result; a fill as before; a run that goes on where one stopped"
}

raw_beginnings() {
    head -c $((4 * data_words)) "$command" > raw.data
    head -c "$code_bytes" "$second" > raw.code
    numbers 0 256 7 > raw.log
    { word 0x70000000; word 0; word 0; word 0; } > raw.main
    printf 'capture\nstart channel=1\nrun\n' > raw.txt
    expect 0 assemble capture raw.txt -o raw.capture --main raw.main --data raw.data --code raw.code --log raw.log
    round capture raw.capture
    expect 0 run raw.capture -o raw.result
    slice raw.result "$result_head" $((4 * data_words)) > got
    same got raw.data
    slice raw.result $((result_head + 4 * data_words)) "$code_bytes" > got
    same got raw.code
    expect 0 dump raw.result
    says out ' used=1'
    says out 'entry 0 path=0 MSCAL 0x0000000000000007'
    printf x >> raw.data
    expect 2 assemble capture raw.txt -o bad.out --data raw.data
    says err "raw.data: no dump of VIF1's data memory: $((4 * data_words + 1)) bytes; it has $((4 * data_words))"
    printf x >> raw.log
    expect 2 assemble capture raw.txt -o bad.out --log raw.log
    says err 'raw.log: no dump of a log'
    printf 'capture data-words=100000\n' > long.txt
    head -c 400000 /dev/zero > raw.data
    expect 2 assemble capture long.txt -o bad.out --data raw.data
    expect 2 assemble sheet raw.txt -o bad.out --data raw.data
    expect 2 assemble capture given.capture.txt -o bad.out --code raw.code
    says err 'has lines for this memory already'
    absent bad.out
}

# A capture, what it leaves and what half of it leaves.
halves() {
    expect 0 assemble capture "$here/../examples/difference.capture.txt" -o whole.capture
    expect 0 run whole.capture -o whole.result
    expect 3 run whole.capture -o half.result --allowance 500
}

continued() {
    halves
    expect 0 run whole.capture --from half.result --no-start -o rest.result
    says out 'answer 0, done; 542 steps'
    expect 0 compare whole.result rest.result
    expect 2 run given.capture --from half.result -o bad.out
    says err 'has a state or memories of its own'
    expect 2 run filled.capture --from half.result -o bad.out
    expect 2 run whole.capture --from missing -o bad.out
    absent bad.out
}

# One file given twice, an output that is an input.
one_file() {
    halves
    result_of x 'result\n'
    cp x y
    ln -s x link
    ln x hard
    for other in x ./x link hard; do
        expect 2 compare x "$other"
        says err 'the same file'
    done
    expect 2 compare - - < x
    expect 0 compare x y
    printf 'start addr=5\n' > sheet.txt
    expect 0 assemble sheet sheet.txt -o a
    cp a before
    ln -s a to-a
    for other in a ./a to-a; do
        expect 2 build a -o "$other"
        says err 'is an input and the output'
        same a before
    done
    expect 2 run whole.capture --from half.result -o half.result
    expect 2 assemble sheet sheet.txt -o sheet.txt
    expect 0 build a -o sheet
    echo "one file: compared with itself, or an input and the output, under any name"
}

# Links are followed, modes kept, others' files kept, nothing left behind.
outputs() {
    printf 'start addr=5\n' > sheet.txt
    expect 0 assemble sheet sheet.txt -o a
    expect 0 build a -o wanted
    echo old > target
    ln -s target through
    mkdir -p sub
    ln -s ../new-target sub/through
    expect 0 build a -o through
    expect 0 build a -o sub/through
    test -h through && test -h sub/through || fail 'a symbolic link was replaced'
    same target wanted
    same new-target wanted
    ln -s round-1 round-2
    ln -s round-2 round-1
    expect 2 build a -o round-1
    echo old > moded
    chmod 640 moded
    expect 0 build a -o moded
    same moded wanted
    test "$(stat -c %a moded)" = 640 || fail 'the mode was not kept'
    (umask 027 && "$command" build a -o fresh > /dev/null)
    test "$(stat -c %a fresh)" = 640 || fail 'the umask was not heeded'
    echo mine > another.partial
    cp another.partial kept.partial
    expect 0 build a -o another
    same another.partial kept.partial
    rm kept.partial
    capture_of refused.capture 'capture\nstart channel=3\nrun\nend\n'
    expect 2 run refused.capture -o missing-folder/x
    cp wanted limited
    (ulimit -f 1 && "$command" play a -o limited > /dev/null 2> err)
    test $? = 2 || fail 'SIGXFSZ'
    same limited wanted
    nothing_partial
    interrupted
    echo "outputs: links followed, modes kept, others' files kept; nothing left behind by signals, limits or folders that are not there"
}

# A signal at the worst moment, just before the rename, and a disk that is full after ten bytes: by a library that is loaded first.
interrupted() {
    cat > signal.c <<'END'
#define _GNU_SOURCE
#include <dlfcn.h>
#include <signal.h>
#include <errno.h>
#include <stdlib.h>
#include <sys/types.h>
ssize_t write(int file, const void *bytes, size_t count)
{
    ssize_t (*real)(int, const void *, size_t) = (ssize_t (*)(int, const void *, size_t))dlsym(RTLD_NEXT, "write");
    if (file <= 2 || getenv("DISK_FULL_AFTER") == NULL)
        return real(file, bytes, count);
    size_t room = strtoul(getenv("DISK_FULL_AFTER"), NULL, 10);
    setenv("DISK_FULL_AFTER", "0", 1);
    errno = ENOSPC;
    return room == 0 ? -1 : real(file, bytes, count < room ? count : room);
}
/* Whatever started the tests may have the signal ignored (nohup, a job in the background): the command begins without. */
__attribute__((constructor)) static void begin(void)
{
    if (getenv("SIGNAL_AT_RENAME") != NULL)
        signal(atoi(getenv("SIGNAL_AT_RENAME")), SIG_DFL);
}
int rename(const char *from, const char *to)
{
    int (*real)(const char *, const char *) = (int (*)(const char *, const char *))dlsym(RTLD_NEXT, "rename");
    raise(atoi(getenv("SIGNAL_AT_RENAME")));
    return real(from, to);
}
END
    cc -w -shared -fPIC -o signal.so signal.c -ldl || fail 'signal.c'
    for number in 1 2 3 15; do
        mkdir -p clean
        SIGNAL_AT_RENAME=$number ASAN_OPTIONS=verify_asan_link_order=0:detect_leaks=0 LD_PRELOAD=$work/signal.so "$command" build a -o clean/x > /dev/null 2> err
        test $? = $((128 + number)) || fail "signal $number: $(cat err)"
        test "$(ls -A clean)" = x || fail "left behind by signal $number: $(ls -A clean)"
        same clean/x wanted
        rm -r clean
    done
    cp a full
    DISK_FULL_AFTER=10 ASAN_OPTIONS=verify_asan_link_order=0:detect_leaks=0 LD_PRELOAD=$work/signal.so "$command" build a -o full > out 2> err
    test $? = 2 || fail 'a full disk'
    says err 'full: cannot be written: No space left on device'
    same full a
    nothing_partial
}

# A file - is standard input or output, and nothing else is written there.
dashes() {
    halves
    printf 'start addr=5\n' > sheet.txt
    expect 0 assemble sheet sheet.txt -o a
    expect 0 build a -o wanted
    "$command" build - -o - < a > got 2> err || fail 'build - -o -'
    same got wanted
    says err '48 bytes'
    "$command" assemble sheet - -o - < sheet.txt > got || fail 'assemble - -o -'
    same got a
    expect 0 play a -o a.result
    "$command" play a -o - > got 2> err || fail 'play -o -'
    same got a.result
    says err 'answer 0, done'
    "$command" meaning a -o - > meant 2> err || fail 'meaning -o -'
    "$command" compare a.result - < meant > out || fail 'compare with standard input'
    says out 'equal'
    "$command" dump - < a.result > out || fail 'dump -'
    "$command" run - -o - < whole.capture > got 2> err || fail 'run -'
    same got whole.result
    "$command" assemble sheet sheet.txt -o - > /dev/full 2> err
    test $? = 2 || fail 'standard output full'
    echo "dashes: standard input and output, and nothing else written there"
}

# well_formed FORM FILE: the file is json or a page.
well_formed() {
    "$forms" "$1" < "$2" 2> err || fail "$2: $(cat err)"
}

# A rack: an equal board, a different one, one with a shorter log, one that is refused, one that is no result, one that is not there.
boards() {
    result_of expected 'result steps=6 packets=3\nquadword 0 1 2 3 4\nquadword 9 1 2 3 4\ninstruction 5 7\nentry 0 MSCAL 5\nentry 1 path=2 PRIM 6\n'
    cp expected good
    result_of low 'result\nquadword 0 1 2 3 4\nquadword 9 0 2 3 4\ninstruction 5 8\nentry 0 MSCAL 5\nentry 1 path=2 PRIM 7\n'
    result_of short 'result\nquadword 0 1 2 3 4\nquadword 9 1 2 3 4\ninstruction 5 7\nentry 0 MSCAL 5\n'
    result_of refused "result\nstate used=$((entries + 1))\n"
    odd=$(printf 'na"m\\e\t<&>\377')
    cp good "$odd"
}

rack() {
    boards
    expect 1 compare expected good low short
    test "$(head -n 1 out)" = 'expected: answer 0, done; 6 steps; 3 packets closed' || fail "the result of a rack: $(head -n 1 out)"
    says out 'board     verdict       first difference      how many'
    says out 'good      equal'
    says out 'low       different     quadword 9            1 quadword, 1 instruction, 1 entry'
    says out "short     different     log's length 1, not 2"
    says out '3 boards beside expected: 1 equal, 2 different'
    cp good again
    expect 0 compare expected good again
    says out '2 boards beside expected: 2 equal'
    expect 2 compare expected good refused low.txt missing
    says out 'refused   refused'
    says out 'low.txt   not read'
    says out '4 boards beside expected: 1 equal, 1 refused, 2 not read'
    expect 1 compare expected good refused
    result_of stopped 'result answer=90\n'
    expect 3 compare stopped good low
    says out '2 boards beside stopped: 2 no verdict'
    expect 2 compare expected good good
    expect 2 compare expected good low --all
    expect 0 compare expected good again --quiet
    test ! -s out || fail '--quiet says something'
    expect 1 compare expected good low --quiet
    test ! -s out || fail '--quiet says something'
    expect 2 compare expected good missing --quiet
    rack_json
    echo "rack: a row a board, the summary, the worst status; quiet; JSON, well formed with any file name"
}

rack_json() {
    for words in 'good' 'good low short' 'low --all' 'good low short --all'; do
        # shellcheck disable=SC2086
        "$command" compare expected $words --json > out 2> err
        well_formed json out
    done
    says out '"result": {"file": "expected", "answer": 0, "steps": 6, "packets": 3, "words": 0, "nops": 0, "nop_share": {"nops": 0, "words": 1}, "qwc": {"refe": 0, '
    says out '"data": {"compared": 1024, "different": 1, "differences": ['
    says out '{"number": 9, "result": ["0x00000001", "0x00000002", "0x00000003", "0x00000004"], "board": ["0x00000000", "0x00000002", "0x00000003", "0x00000004"]}'
    says out '{"number": 1, "path_alone": false, "result": {"path": 2, "register": 0, "value": "0x0000000000000006"}, "board": {"path": 2, "register": 0, "value": "0x0000000000000007"}}'
    says out '"result_entries": 2, "board_entries": 1'
    says out '"summary": {"boards": 3, "equal": 1, "equal_in_parts": 0, "different": 2, "refused": 0, "no_verdict": 0, "not_read": 0}'
    says out '"status": 1'
    expect 2 compare expected "$odd" refused missing --json
    well_formed json out
    says out '"na\"m\\e\u0009<&>\uFFFD"'
    says out '"verdict": "refused", "status": 1, "has": "VIF1'"'"'s data memory, VIF1'"'"'s code memory, VIF0'"'"'s data memory, VIF0'"'"'s code memory and log", "refusal": 4'
    says out '"verdict": "not read", "status": 2'
    "$command" compare stopped good --unfinished --json > out 2> err
    well_formed json out
    says out '"verdict": "different from an unfinished result"'
}

# refused_value WORDS TEXT: a capture of the text is refused with 5, which names the fields.
refused_value() {
    capture_of five.capture "capture\n$2\nend\n"
    "$command" run five.capture -o five > out 2> err
    says out "  out of its range: $1"
}

messages() {
    refused_value 'start channel=3' 'start channel=3\nrun'
    refused_value 'start channel=2, or start tte=1' 'start channel=2 tte=1'
    refused_value 'start tadr=0x8' 'start channel=1 tadr=8'
    refused_value 'state mode=3' 'state mode=3\nrun'
    refused_value 'state mode=3' 'state mode=3\nstart channel=1'
    refused_value 'state waiting=UNPACK' 'state waiting=UNPACK due=1\nrun'
    refused_value "more than one field of 'state'" 'state mode=3 dbf=2\nrun'
    expect 2 run "$here/../examples/difference.capture.txt" -o unwritten
    says err 'no capture, but text; assemble it first: tejborun assemble capture '
    for name in build meaning play; do
        expect 1 "$name" "$here/../examples/all-kinds.sheet.txt" -o unwritten
        says err 'it is text; assemble it first: tejborun assemble sheet '
    done
    expect 2 dump "$here/../examples/all-kinds.sheet.txt"
    says err 'it is text already'
    printf '\357\273\277start addr=5\n' > marked.txt
    printf 'start addr=5\n' > plain.txt
    expect 0 assemble sheet marked.txt -o marked
    expect 0 assemble sheet plain.txt -o plain
    same marked plain
    absent unwritten
    echo "messages: the fields of refusal 5, text in place of a file, a byte order mark"
}

# Runs of several slices; an endless chain, stopped by Ctrl-C, that goes on afterwards.
long_runs() {
    printf 'start channel=1\nrun allowance=2500000\nnext addr=0\n' > endless.txt
    { echo 'capture fill=7 whole=1 main-bytes=16 log-entries=4'; cat endless.txt; } > case.txt
    expect 0 assemble capture case.txt -o case
    "$replay" < case > results || fail 'replay'
    replayed "$data_words" "$code_bytes" $((4 * entry_numbers)) "$data0_words" "$code0_bytes" 2
    expect 3 run case -o result
    says out 'answer 90, the step allowance is used; 2500000 steps'
    wanted_result results "$block" > wanted
    same result wanted 'a run of 2,500,000 steps'
    capture_of packets.capture 'capture\nstart channel=2\nrun allowance=2500000\nnext qwc=1 addr=0\ngiftag nloop=0 eop=1\n'
    expect 3 run packets.capture
    says out 'answer 90, the step allowance is used; 2500000 steps; 1250000 packets closed'
    { printf 'capture\n'; sed 's/ allowance.*//' endless.txt; } > endless.capture.txt
    expect 0 assemble capture endless.capture.txt -o endless.capture
    timeout --foreground --preserve-status -k 20 -s INT 1 "$command" run endless.capture -o stopped.result > out 2> err
    test $? = 3 || fail "Ctrl-C: $(cat err)"
    grep -q 'run without limit: interrupted after [0-9]* steps; no packet closed; no VIF word; QWC 0$' out || fail "Ctrl-C: $(cat out)"
    test ! -s err || fail 'progress where there is no terminal'
    expect 0 dump stopped.result
    says out 'result answer=90'
    expect 3 run endless.capture --from stopped.result --no-start -o further.result --allowance 100
    says out 'answer 90, the step allowance is used; 100 steps'
    expect 3 compare stopped.result further.result
    expect 3 run endless.capture --allowance 5
    printf 'start addr=5\n' > sheet.txt
    expect 0 assemble sheet sheet.txt -o a
    expect 0 play a
    progress_shown
    echo "long runs: several slices are one run; Ctrl-C stops an endless chain, which goes on from what it left; progress on a terminal alone"
}

# On a terminal steps and rate are shown; script, where it is there, gives one.
progress_shown() {
    command -v script > /dev/null || return 0
    timeout -k 20 60 script -qec "$command run endless.capture -o shown.result --allowance 20000000" typescript > /dev/null 2>&1 < /dev/null
    grep -q ' steps, [0-9.]* million a second; Ctrl-C stops' typescript || fail 'no progress on a terminal'
}

# The forms of options, help and version.
conventions() {
    printf 'start addr=5\n' > sheet.txt
    expect 0 assemble sheet sheet.txt -o a
    expect 0 build a -o wanted
    expect 0 build a -ochain-1
    expect 0 build -o chain-2 a
    expect 0 build a --output chain-3
    expect 0 build a --output=chain-4
    expect 0 build -ochain-5 -- a
    for i in 1 2 3 4 5; do same chain-$i wanted; done
    halves
    expect 3 run whole.capture --allowance=500 -ohalf-2
    same half.result half-2
    expect 2 run whole.capture --no-start=1
    says err '--no-start takes no value'
    expect 2 build a -o x --output y
    says err '--output is given twice'
    expect 2 build a --output
    for words in -h --help help; do
        expect 0 $words
        says out 'tejborun build SHEET -o CHAIN'
    done
    for words in 'run -h' 'run --help' 'help run'; do
        # shellcheck disable=SC2086
        expect 0 $words
        says out 'usage: tejborun run CAPTURE'
    done
    expect 2 help nonsense
    expect 0 --version
    version=$(sed -n 's/^#define TEJBORUN_VERSION "\(.*\)"/\1/p' "$here/tejborun.h")
    says out "tejborun $version"
    says out 'library: SHA-256 '
    says "$here/../CHANGELOG.md" "## "
    installed
    echo "conventions: each form of an option, help, version; installed: command, library, headers, manual, completion"
}

# What make install puts where, and a program that is built with it.
installed() {
    make -s -C "$here/.." install DESTDIR="$work/root" PREFIX=/opt/bench > out 2> err || fail "make install: $(cat err)"
    root=$work/root/opt/bench
    "$root/bin/tejborun" --version > out || fail 'the command installed'
    says out "tejborun $version"
    says "$root/share/man/man1/tejborun.1" "tejborun $version"
    says "$root/lib/pkgconfig/tejborun.pc" 'prefix=/opt/bench'
    cat > user.c <<'END'
#include <stdio.h>
#include <tejborun.h>
int main(void)
{
    struct tejborun_state state;
    return tejborun_reset((uint32_t *)&state, TEJBORUN_BLOCK_WORDS) != TEJBORUN_DONE || tejborun_used(&state) != 0 || puts(tejborun_message(90)) < 0;
}
END
    cc -o user user.c -I"$root/include/tejborun" -L"$root/lib" -ltejborun && ./user > out || fail 'a program with the library installed'
    says out 'the step allowance is used'
    if command -v bash > /dev/null; then bash -n "$root/share/bash-completion/completions/tejborun" || fail 'the completion'; fi
    make -s -C "$here/.." uninstall DESTDIR="$work/root" PREFIX=/opt/bench || fail 'make uninstall'
    if find root -type f | grep . >&2; then fail 'left behind by make uninstall'; fi
}

# The page: well formed with any file name, its numbers those of compare --json, its sums those of sha256sum.
report() {
    boards
    expect 2 report expected good low short refused "$odd" missing -o page.html
    well_formed page page.html
    says page.html 'na&quot;m\e'
    says page.html '&lt;&amp;&gt;'
    says page.html '<td class="verdict good">equal</td>'
    says page.html '<td class="verdict bad">not read</td>'
    for file in expected good low short; do says page.html "<td class=\"sum\">$(sha256sum < "$file" | cut -d ' ' -f 1)</td>"; done
    says page.html "tejborun $(sed -n 's/^#define TEJBORUN_VERSION "\(.*\)"/\1/p' "$here/tejborun.h")"
    says page.html '<td class="answer">answer 0, done; 6 steps; 3 packets closed</td>'
    says page.html 'the result has <span class="number">2</span>, the board <span class="number">1</span>.'
    "$command" compare expected good low short refused "$odd" missing --json > out 2> err
    sed -n 's/.*"different": \([0-9]*\), .*differences.*/\1/p' out > wanted
    grep '^<tr><td>' page.html | grep -o '<td class="number">[0-9][0-9]*</td>' | tr -dc '0-9\n' > got
    test "$(wc -l < wanted)" = 20 || fail 'numbers of compare --json'
    same got wanted 'the numbers of the page'
    test "$(grep -c '<rect class="different"' page.html)" = 2 || fail 'what differs in the maps'
    expect 1 report expected low -o page.html --from short
    well_formed page page.html
    "$command" report expected good -o - > page.html 2> err || fail 'report -o -'
    well_formed page page.html
    result_of stopped 'result answer=90\n'
    expect 3 report stopped good -o page.html
    says page.html 'no verdict'
    well_formed page page.html
    expect 2 report missing good -o none.html
    expect 2 report expected good -o good
    absent none.html
    echo "report: a page of each kind of verdict, well formed, with the numbers of compare --json and the sums of sha256sum"
}

# A board's own dumps: into a result and back, any of the five.
dumps() {
    halves
    dump_files
    expect 0 import --data vu.bin --code micro.bin --data0 vu0.bin --code0 micro0.bin --log log.bin -o board.result
    says out "board.result: VIF1's data memory, VIF1's code memory, VIF0's data memory, VIF0's code memory and log"
    expect 0 compare all.result board.result
    test "$(tail -n 1 out)" = equal || fail 'whole results that are equal'
    for parts in data code log data0 code0 'data code' 'data log' 'code log' 'data code log' 'log data0' 'data0 code0' 'log data0 code0' 'code code0' \
        'data code data0 code0' 'data code log data0' 'code log data0 code0'; do
        one_import
    done
    wrong_dumps
    expect 0 export whole.capture --main main.bin --data zeros.bin
    expect 0 assemble capture --main main.bin -o again.capture - < calls.txt
    expect 0 run again.capture -o again.result
    expect 0 compare whole.result again.result
    head -c $((4 * data_words)) /dev/zero > wanted
    same zeros.bin wanted
    partial_files
    absent lacking.result x.bin
    echo "dumps: any of the five into a result and back, main memory out of a capture and into one; what is lacking is named, sizes too"
}

# A result with something in each part, and its dumps.
dump_files() {
    printf 'capture main-bytes=8192 log-entries=32\nstart channel=1\nrun\n' > calls.txt
    expect 0 assemble capture calls.txt -o again.capture
    expect 0 assemble sheet "$here/../examples/all-kinds.sheet.txt" -o all.sheet
    expect 0 play all.sheet -o all.result
    "$command" dump all.result > all.txt
    printf 'vif0.quadword 255 1 2 3 4\nvif0.instruction 511 5\nvif0.instruction 0 6\n' >> all.txt
    expect 0 assemble result all.txt -o all.result
    expect 0 export all.result --data vu.bin --code micro.bin --data0 vu0.bin --code0 micro0.bin --log log.bin
    at=$result_head
    for dump in "vu.bin $((4 * data_words))" "micro.bin $code_bytes" "vu0.bin $((4 * data0_words))" "micro0.bin $code0_bytes" "log.bin $((8 * 7 * entry_numbers))"; do
        slice all.result "$at" "${dump#* }" > wanted
        same "${dump% *}" wanted
        at=$((at + ${dump#* }))
    done
}

# One import of some parts: its text, its dumps, the verdict over these parts; which runs may begin with it.
one_import() {
    set --
    lacking=
    for part in data code log data0 code0; do
        case " $parts " in
        *" $part "*) ;;
        *) lacking=$part && continue ;;
        esac
        set -- "$@" "--$part" "$(echo "$part" | sed 's/data/vu/;s/code/micro/').bin"
    done
    expect 0 import "$@" -o part.result
    words=$(sed -n 's/^part.result: //p' out)
    round result part.result
    expect 0 dump part.result
    says out "parts=$(echo "$parts" | tr ' ' '+')"
    one_verdict
    for part in data code log data0 code0; do
        case " $parts " in
        *" $part "*) expect 0 export part.result --$part back.bin ;;
        *) expect 2 export part.result --$part lacking.bin ;;
        esac
    done
    case $parts in
    'data code log'*) expect 0 run again.capture --from part.result -o from.result && expect 0 dump from.result && says out "parts=$(echo "$parts" | tr ' ' '+')" ;;
    *) expect 2 run again.capture --from part.result -o lacking.result && says err "part.result: has $words: this run begins with VIF1's data memory, VIF1's code memory and log" ;;
    esac
    absent lacking.bin lacking.result
}

# The verdict on part.result, which has these parts and lacks one.
one_verdict() {
    for side in 'all.result part.result' 'part.result all.result'; do
        # shellcheck disable=SC2086
        expect 0 compare $side
        test "$(tail -n 1 out)" = "equal in $words" || fail "the verdict over $parts: $(tail -n 1 out)"
        # shellcheck disable=SC2086
        expect 0 compare $side --only "$(echo "$parts" | tr ' ' ',')"
        test "$(tail -n 1 out)" = "equal in $words" || fail "the verdict over $parts alone: $(tail -n 1 out)"
        # shellcheck disable=SC2086
        expect 3 compare $side --only "$lacking"
        says err 'no verdict: asked for '
        if grep -q -e equal -e different out; then fail 'a verdict over a part that is lacking'; fi
    done
    expect 0 compare all.result board.result part.result
    says out "part.result   equal in $words"
    says out '2 boards beside all.result: 1 equal, 1 equal in parts'
    expect 0 compare all.result part.result --json
    well_formed json out
    says out "\"verdict\": \"equal in $words\", \"status\": 0"
}

wrong_dumps() {
    expect 2 import -o lacking.result
    says err 'give a dump'
    head -c 100 vu.bin > cut.bin
    expect 2 import --data cut.bin -o lacking.result
    says err "cut.bin: no dump of VIF1's data memory: 100 bytes; it has 16384"
    expect 2 import --log cut.bin -o lacking.result
    expect 2 import --data vu0.bin -o lacking.result
    says err "vu0.bin: no dump of VIF1's data memory: 4096 bytes; it has 16384, and VIF0's data memory has 4096: --data0"
    expect 2 import --code0 micro.bin -o lacking.result
    says err "micro.bin: no dump of VIF0's code memory: 16384 bytes; it has 4096, and VIF1's code memory has 16384: --code"
    expect 2 import --data0 cut.bin -o lacking.result
    says err "cut.bin: no dump of VIF0's data memory: 100 bytes; it has 4096"
    expect 2 import --data vu.bin -o vu.bin
    says err 'is an input and the output'
    expect 2 export all.result
    expect 2 export all.result --data x.bin --code x.bin
    says err 'x.bin is given for two dumps'
    expect 2 export all.result --data x.bin --code0 x.bin
    expect 2 export all.result --data all.result
    expect 2 export all.result --main x.bin
    expect 0 import --data vu.bin --code micro.bin -o data.result
    expect 0 import --data0 vu0.bin --code0 micro0.bin -o data0.result
    expect 3 compare data.result data0.result
    says err "data0.result: no verdict: data.result has VIF1's data memory and VIF1's code memory, data0.result VIF0's data memory and VIF0's code memory; they have nothing in common"
    for words in nonsense 'data,' '' data+log 'data,,log'; do
        expect 2 compare all.result board.result --only "$words"
        says err 'is no part: give some of data, code, data0, code0 and log'
    done
    expect 0 compare all.result board.result --only log,code0,data0,code,data
    test "$(tail -n 1 out)" = equal || fail 'all parts named'
}

# A range of quadwords: two boards that differ in quadword 9 of VIF1, 200 of VIF0 and an instruction.
range_of_quadwords() {
    result_of wanted9 'result\nquadword 9 1 2 3 4\nquadword 1023 1 1 1 1\nvif0.quadword 200 5 6 7 8\ninstruction 5 7\n'
    result_of board9 'result\nquadword 9 1 2 3 5\nquadword 1023 1 1 1 1\nvif0.quadword 200 5 6 7 9\ninstruction 5 8\n'
    for words in "0-8 quadwords 0 to 8" "0x0A-1023 quadwords 10 to 1023" "10-0x3FF quadwords 10 to 1023" "8 quadword 8" "0xA quadword 10" "0-0 quadword 0"; do
        expect 0 compare wanted9 board9 --quadwords "${words%% *}"
        test "$(tail -n 1 out)" = "equal in ${words#* } of VIF1's data memory" || fail "the verdict over $words: $(tail -n 1 out)"
        expect 0 compare wanted9 board9 "--quadwords=${words%% *}" --quiet
    done
    for words in "0-9 quadwords 0 to 9" "9 quadword 9" "9-9 quadword 9" "0-1023 quadwords 0 to 1023"; do
        expect 1 compare wanted9 board9 --quadwords "${words%% *}"
        test "$(tail -n 1 out)" = "different; compared in ${words#* } of VIF1's data memory" || fail "the verdict over $words: $(tail -n 1 out)"
        says out "VIF1's data memory: 1 quadword differs, the first is 9"
    done
    expect 0 compare wanted9 board9 --only data0 --quadwords 0-199
    test "$(tail -n 1 out)" = "equal in quadwords 0 to 199 of VIF0's data memory" || fail 'the verdict over VIF0'
    expect 1 compare wanted9 board9 --quadwords 0-200 --only data0 --all
    says out '  VIF0 quadword 200 (0xC8)'
    expect 0 compare wanted9 board9 --only data,data0 --quadwords 10-199
    test "$(tail -n 1 out)" = "equal in quadwords 10 to 199 of VIF1's data memory and VIF0's data memory" || fail 'the verdict over both'
    expect 0 compare wanted9 board9 --only data,code0,log --quadwords 0-8
    test "$(tail -n 1 out)" = "equal in VIF0's code memory and log and in quadwords 0 to 8 of VIF1's data memory" || fail 'the verdict beside other parts'
    expect 1 compare wanted9 board9 --only data,code --quadwords 0-8
    says out "different; compared in VIF1's code memory and in quadwords 0 to 8 of VIF1's data memory"
    shown_ranges
    wrong_ranges
    echo "quadwords: a range of data memory in one board, a rack, JSON and a page; the verdict names it"
}

# The same in a rack, as JSON and as a page; of whole results never equal alone; no verdict where the data memory is lacking.
shown_ranges() {
    cp wanted9 same9
    expect 0 compare wanted9 same9 board9 --quadwords 0-8
    says out "board9    equal in quadwords 0 to 8 of VIF1's data memory"
    says out '2 boards beside wanted9: 2 equal in parts'
    expect 1 compare wanted9 same9 board9 --quadwords 5-12
    says out "1 quadword; compared in quadwords 5 to 12 of VIF1's data memory"
    expect 1 compare wanted9 board9 --quadwords 5-12 --json
    well_formed json out
    says out '"compared": ["data"], "quadwords": {"first": 5, "last": 12}'
    says out '"data": {"compared": 8, "different": 1, "differences": ['
    says out '{"number": 9, '
    expect 1 report wanted9 board9 -o page9.html --quadwords 5-12
    says page9.html 'compared in quadwords 5 to 12 of VIF1'
    says page9.html 'by quadword, those not compared too'
    expect 0 compare wanted9 same9 --only data,code,data0,code0,log --quadwords 0-255
    says out "equal in VIF1's code memory, VIF0's code memory and log and in quadwords 0 to 255 of VIF1's data memory and VIF0's data memory"
    expect 0 export wanted9 --code micro9.bin
    expect 0 import --code micro9.bin -o code9.result
    expect 3 compare wanted9 code9.result --quadwords 0-8
    says err "no verdict: asked for VIF1's data memory; wanted9 has"
}

# Ranges that are none, that the memory has not, or of no data memory: bad usage.
wrong_ranges() {
    for words in '' - 1- -1 8-7 0x 1-2-3 0-x 'a' '1 2' 18446744073709551616 0-18446744073709551616 11111111111111111111111111111111111111111-2; do
        expect 2 compare wanted9 board9 --quadwords "$words"
        says err "are no quadwords: give the first and the last, as 0-15 or 0x10-0x1F, or one alone"
    done
    expect 2 compare wanted9 board9 --quadwords 0-1024
    says err "--quadwords 0-1024: VIF1's data memory has quadwords 0 to 1023"
    expect 2 compare wanted9 board9 --only data0 --quadwords 256
    says err "--quadwords 256: VIF0's data memory has quadwords 0 to 255"
    expect 2 compare wanted9 board9 --only data,data0 --quadwords 0-300
    says err "--quadwords 0-300: VIF0's data memory has quadwords 0 to 255"
    expect 2 compare wanted9 board9 --only code,log --quadwords 0-3
    says err '--quadwords are of data memory: --only code,log names none'
    expect 2 compare wanted9 board9 --quadwords 1 --quadwords 2
    says err '--quadwords is given twice'
}

partial_files() {
    expect 0 import --data vu.bin -o part.result
    damaged result part.result compare all.result broken
    for parts in 0 32 4294967295; do
        patched part.result $((result_head - 4)) $parts
        expect 2 dump broken
        says err "damaged result: its parts are $parts"
    done
    patched part.result $((result_head - 8)) 2
    expect 2 dump broken
    says err 'damaged result: it has no log, and 2 numbers of one'
    bad_text result 1 'parts=0' 'result parts=0\n'
    bad_text result 1 'parts=32' 'result parts=32\n'
    bad_text result 1 'parts=log+data: the field has 32 bits' 'result parts=log+data\n'
    bad_text result 2 "'quadword': the result has log alone" 'result parts=log\nquadword 1 1 2 3 4\n'
    bad_text result 2 "'vif0.quadword': the result has VIF1's data memory alone" 'result parts=data\nvif0.quadword 1 1 2 3 4\n'
    result_of all 'result parts=data+code+log+data0+code0\n'
    result_of plain 'result\n'
    same all plain
}

# VIF0: a run on channel 0, its text, its refusals, what a run is lent, what it begins with; VIF1 beside it.
vif0() {
    expect 0 assemble capture "$here/../examples/vif0.capture.txt" -o vif0.capture
    round capture vif0.capture
    expect 0 run vif0.capture -o vif0.result
    says out 'start on channel 0 at 0x0'
    says out 'answer 0, done; 26 steps; no packet closed'
    says out "VIF0's data memory: 2 quadwords changed, first 0, last 255"
    says out "VIF0's code memory: 2 instructions changed, first 0, last 511"
    says out 'log: 1 entry added, first 0, last 0'
    if grep "VIF1" out; then fail 'VIF1 on channel 0'; fi
    round result vif0.result
    expect 0 dump vif0.result
    says out 'state channel=0 tadr=0x70 tte=0 ended=1 used=1'
    says out 'state vif0.cl=1 vif0.wl=1 vif0.itops=7 vif0.itop=7 vif0.mark=1'
    says out 'vif0.quadword 255 0x00000001 0x00000002 0x00000003 0x00000004'
    says out 'vif0.quadword 0 0x00000005 0x00000006 0x00000007 0x00000008'
    says out 'vif0.instruction 511 0x8000033C000002FF'
    says out 'vif0.instruction 0 0x8000033C400002FF'
    says out 'entry 0 path=0 MSCAL 0x0000000000000005'
    if grep -e '^quadword' -e '^instruction' out; then fail "VIF1's memories on channel 0"; fi
    vif0_refusals
    vif0_lent
    vif0_states
    vif0_compared
    echo "VIF0: run, refused with 20, 22, 26, 2, 3 and 5, lent by the channel, stopped and gone on; its text, dumps and pages beside VIF1's"
}

# vif0_refused ANSWER STEPS CODES: a chain of the codes on channel 0 is refused; on channel 1 it is not with this number.
vif0_refused() {
    capture_of small.capture "capture main-bytes=48\nstart channel=0\nrun\nend qwc=2\n$3"
    round capture small.capture
    expect 1 run small.capture
    says out "answer $1, refused: "
    says out "; $2 step"
    expect 0 dump small.capture
    cp out small.txt
    sed 's/channel=0/channel=1/' small.capture.txt > other.txt
    expect 0 assemble capture other.txt -o other.capture
    "$command" run other.capture > out 2> err
    if test "$1" != 22 && grep "answer $1" out; then fail "$3 on channel 1"; fi
}

vif0_refusals() {
    for code in '02 OFFSET ofst=3' '03 BASE base=3' '06 MSKPATH3 mask=1' '11 FLUSH' '13 FLUSHA' '15 MSCALF imm=3' '50 DIRECT imm=1' '51 DIRECTHL imm=1'; do
        vif0_refused 20 2 "NOP\n${code#* }\n"
        grep -q "^  word 0x${code%% *}.*  # no code of VIF0: CMD ${code%% *}$" small.txt || fail "${code#* } as a code of VIF0: $(cat small.txt)"
        expect 0 dump other.capture
        says out "  ${code#* }"
    done
    for channel in 0 1; do
        capture_of tag.capture "capture\nstart channel=$channel tte=1\nrun\nend qwc=0 word2=0x4000007 word3=0x50000001\n"
        round capture tag.capture
        expect 0 dump tag.capture
        says out '; word2 as a code: ITOP itop=7'
        test "$(grep -c 'word3 as a code: DIRECT imm=1' out)" = $channel || fail "the tag words on channel $channel"
    done
    vif0_refused 26 2 'STCYCL cl=1 wl=1\nUNPACK format=V4-32 num=1 addr=3 tops=1\n'
    says small.txt 'UNPACK format=V4-32 num=1 addr=3 tops=1'
    vif0_refused 22 1 'UNPACK format=V4-32 num=1 addr=3 tops=1\n'
    for code in FLUSHE 'MARK mark=9' 'ITOP itop=1023' 'STMOD mode=2' MSCNT 'MSCAL imm=9'; do
        capture_of small.capture "capture main-bytes=32\nstart channel=0\nrun\nend qwc=1\n$code\n"
        expect 0 run small.capture
        says out 'answer 0, done; 5 steps'
    done
}

# What a run is lent: by the channel in the state before it.
vif0_lent() {
    chain='cnt qwc=2\nSTCYCL cl=1 wl=1\nSTMOD\nNOP\nUNPACK format=V4-32 num=1 addr=300\nword 1 2 3 4\nend qwc=0\n'
    capture_of both.capture "capture main-bytes=256\nquadword 9 1 1 1 1\nvif0.quadword 9 2 2 2 2\nvif0.instruction 3 4\nstart\nrun\nstart channel=0\nrun\n$chain"
    round capture both.capture
    words both.capture "$calls_at" 4 | grep -q '^ *1 *1 *0 *0$' || fail 'a start without a channel'
    expect 0 run both.capture -o both.result
    says out "VIF1's data memory: 1 quadword changed, first 300, last 300"
    says out "VIF0's data memory: 1 quadword changed, first 44, last 44"
    expect 0 dump both.result
    for line in 'quadword 9 0x00000001' 'quadword 300 0x00000001' 'vif0.quadword 9 0x00000002' 'vif0.quadword 44 0x00000001' 'vif0.instruction 3 0x0000000000000004'; do
        says out "$line"
    done
    for length in vif0.data-words=1023 vif0.data-words=4096 vif0.code-bytes=4095 vif0.code-bytes=16384; do vif0_length $length 0 1; done
    for length in data-words=4095 data-words=1024 code-bytes=16383 code-bytes=4096; do vif0_length $length 1 0; done
}

# vif0_length LENGTH CHANNEL OTHER: a run on the channel is refused with the length, one on the other is not; no result keeps it.
vif0_length() {
    case $1 in *data*4096 | *code*16384) longer=yes ;; *) longer= ;; esac
    if test -n "$longer" && test "${1#vif0}" != "$1"; then
        bad_text capture '' 'damaged capture: ' "capture $1\n"
        return
    fi
    capture_of wrong.capture "capture main-bytes=256 $1\nstart channel=$2\nrun\n$chain"
    round capture wrong.capture
    expect 1 run wrong.capture
    case $1 in *data*) says out 'answer 2, refused: data memory is not ' ;; *) says out 'answer 3, refused: code memory is not ' ;; esac
    says out "VIF$2's memories and log: untouched, with these lengths every run is refused"
    capture_of wrong.capture "capture main-bytes=256 $1\nstart channel=$3\nrun\n$chain"
    expect 0 run wrong.capture
    expect 2 run wrong.capture -o wrong.result
    says err 'wrong.result: not written: a result keeps '
    says err "of VIF$2's "
    absent wrong.result
}

# States of VIF0: what is out of range, a code that waits, a run that goes on; main memory by VIF0's rules.
vif0_states() {
    for field in ofst base tops top dbf mskpath3; do
        refused_value "state vif0.$field=1" "state vif0.$field=1\nrun"
        refused_value "state vif0.$field=1" "state channel=0 vif0.$field=1\nrun"
    done
    refused_value 'state vif0.mode=3' 'state vif0.mode=3\nstart channel=0'
    refused_value 'state vif0.waiting=DIRECT' 'state vif0.waiting=DIRECT vif0.due=1\nrun'
    refused_value 'start channel=3' 'start channel=3\nrun'
    expect 3 run vif0.capture --allowance 6 -o half.result
    expect 0 dump half.result
    says out 'state vif0.waiting=UNPACK vif0.due=7 vif0.address=255 vif0.count=2 vif0.format=V4-32 vif0.held2=0x1'
    says out 'state waiting=none'
    expect 0 run vif0.capture --from half.result --no-start -o rest.result
    says out 'answer 0, done; 20 steps'
    expect 0 compare vif0.result rest.result
    capture_of pending.capture "capture main-bytes=32\nstate channel=0 ended=1 payload-words=4 vif0.waiting=STROW vif0.due=4\nrun\nword 0x5000001 2 3 4\n"
    expect 0 run pending.capture -o pending.result
    expect 0 dump pending.capture
    says out '    word 0x05000001 0x00000002 0x00000003 0x00000004'
    round capture pending.capture
    expect 0 dump pending.result
    says out 'state vif0.row0=0x5000001 vif0.row1=0x2 vif0.row2=0x3 vif0.row3=0x4'
    capture_of filled.capture 'capture fill=0x100000000 log-entries=4\nstart channel=0\nrun\nend\n'
    round capture filled.capture
    expect 0 export filled.capture --data0 filled.data --code0 filled.code
    words filled.data 0 2 | grep -q "^ *5 $((0x7F4A7C15 + 5))\$" || fail "the fill of VIF0's data memory: $(words filled.data 0 2)"
    test "$(od -An -tu1 -N 2 filled.code | tr -s ' ')" = " 6 $((0x15 + 6))" || fail "the fill of VIF0's code memory"
}

# VIF0's memories compared, imported, shown and drawn.
vif0_compared() {
    "$command" dump vif0.result > vif0.txt
    edited vif0.txt 's/^vif0.quadword 255 0x00000001/vif0.quadword 255 0x00000000/'
    expect 1 compare vif0.result board
    says out "VIF0's data memory: 1 quadword differs, the first is 255"
    says out '  VIF0 quadword 255 (0xFF)'
    says out "VIF1's data memory: the same, 1024 quadwords compared"
    test "$(tail -n 1 out)" = different || fail 'different'
    expect 0 compare vif0.result board --only data,code,code0,log
    test "$(tail -n 1 out)" = "equal in VIF1's data memory, VIF1's code memory, VIF0's code memory and log" || fail "$(tail -n 1 out)"
    expect 1 compare vif0.result board --only data0,log
    test "$(tail -n 1 out)" = "different; compared in VIF0's data memory and log" || fail "$(tail -n 1 out)"
    if grep "VIF1" out; then fail 'a part that was not asked for'; fi
    cp vif0.result good.result
    expect 1 compare vif0.result board good.result
    says out 'board        different     VIF0 quadword 255     1 VIF0 quadword'
    expect 1 compare vif0.result board good.result --only data0
    says out "board        different     VIF0 quadword 255     1 VIF0 quadword; compared in VIF0's data memory"
    says out "good.result  equal in VIF0's data memory"
    says out '2 boards beside vif0.result: 1 equal in parts, 1 different'
    expect 1 compare vif0.result board --json
    well_formed json out
    says out '"compared": ["data", "code", "data0", "code0", "log"]'
    says out '"data0": {"compared": 256, "different": 1, "differences": ['
    says out '"code0": {"compared": 512, "different": 0, "differences": []}'
    expect 1 report vif0.result board -o page.html
    well_formed page page.html
    says page.html "<figcaption>VIF0&#39;s data memory by quadword</figcaption>"
    says page.html "<figcaption>VIF0&#39;s code memory by instruction</figcaption>"
    test "$(grep -c '<rect class="different"' page.html)" = 1 || fail 'what differs in the maps'
    vif0_dumps
}

vif0_dumps() {
    expect 0 export vif0.result --data0 vu0.bin --code0 micro0.bin --log log0.bin
    expect 0 import --data0 vu0.bin --code0 micro0.bin --log log0.bin -o part.result
    expect 0 compare vif0.result part.result
    test "$(tail -n 1 out)" = "equal in VIF0's data memory, VIF0's code memory and log" || fail "$(tail -n 1 out)"
    expect 0 report vif0.result part.result -o page.html
    well_formed page page.html
    says page.html "<td class=\"verdict good\">equal in VIF0&#39;s data memory, VIF0&#39;s code memory and log</td>"
    says page.html "<figcaption>VIF0&#39;s data memory by quadword</figcaption>"
    if grep "VIF1&#39;s data memory by" page.html; then fail 'a map of a part that is lacking'; fi
    expect 0 run vif0.capture --from part.result -o from.result
    expect 0 dump from.result
    says out 'parts=log+data0+code0'
    expect 2 run both.capture --from part.result
    expect 2 report vif0.result good.result -o none.html --from part.result
    says err "part.result: has VIF0's data memory, VIF0's code memory and log: the transfer began with VIF1's data memory"
    printf 'capture main-bytes=16\nstart channel=0\nrun\nend\n' > raw0.txt
    expect 0 assemble capture raw0.txt -o raw0.capture --data0 vu0.bin --code0 micro0.bin
    round capture raw0.capture
    expect 0 run raw0.capture -o raw0.result
    expect 0 compare raw0.result vif0.result --only data0,code0
    expect 2 assemble capture raw0.txt -o none.html --data vu0.bin
    expect 2 assemble state raw0.txt -o none.html --data0 vu0.bin
    says err 'takes no raw memories: --main, --data, --code, --data0, --code0 and --log belong to a capture'
    absent none.html
}

# The GIF quadwords of the packets that are counted, and how many have been closed after each.
gif_lines='giftag nloop=0 eop=1
giftag nloop=0 eop=0
giftag nloop=1 eop=1 nreg=1 regs=0xE
word 1 0 5 0
giftag nloop=2 eop=1 nreg=1 regs=0xF
word 1 2 3 4
word 1 2 3 4
giftag nloop=1 eop=1 flg=REGLIST nreg=3 regs=0x555
word 1 2 3 4
word 5 6 7 8
giftag nloop=2 eop=1 flg=IMAGE
word 1 2 3 4
word 1 2 3 4
giftag nloop=1 eop=0 nreg=1 regs=0xE
word 1 0 5 0'
closed_after='1 1 1 2 2 2 3 3 3 4 4 4 5 5 5'

# Packets closed: printed, kept, shown and read back; of each run its own.
packets() {
    printf 'gs\nwrite PRIM 6\nstart addr=5\ngs\nwrite PRIM 6\nwrite FINISH 0\ngs\nwrite PRIM 6\n' > three.txt
    expect 0 assemble sheet three.txt -o three.sheet
    expect 0 play three.sheet -o three.result
    says out 'answer 0, done; 28 steps; 3 packets closed'
    words three.result 8 4 | grep -q '^ *28 *0 *3 *0$' || fail 'the packets in the result file'
    expect 0 dump three.result
    says out "result answer=0 steps=28 packets=3 "
    says out " log-entries=$entries "
    round result three.result
    expect 0 meaning three.sheet -o three.meaning
    expect 0 dump three.meaning
    says out 'result answer=0 steps=28 packets=0 '
    packets_by_path 2 1 "end qwc=15\n$gif_lines"
    packets_by_path 1 5 "end qwc=16\nNOP\nNOP\nNOP\nDIRECT imm=15\n$gif_lines"
    packets_of_stops
    packets_of_runs
    packets_as_text
    packets_compared
    echo "packets: each way to close one, on both paths, with every allowance; of stopped and refused runs, of each run of several; text, JSON, page and rack"
}

# packets_by_path CHANNEL FIRST CHAIN: the quadwords after so many steps on a channel, with every allowance.
packets_by_path() {
    capture_of gif.capture "capture main-bytes=512\nstart channel=$1\nrun\n$3\n"
    round capture gif.capture
    expect 0 run gif.capture -o "gif$1.result"
    says out "run without limit: answer 0, done; $(($2 + 15)) steps; 5 packets closed"
    step=$2
    expect 3 run gif.capture --allowance "$step"
    says out "answer 90, the step allowance is used; $step step"
    says out '; no packet closed'
    for closed in $closed_after; do
        step=$((step + 1))
        "$command" run gif.capture --allowance $step -o "gif.$step.result" > out 2> err
        says out "; $step steps; $(packets_words "$closed")"
        words "gif.$step.result" 16 2 | grep -q "^ *$closed *0\$" || fail "the packets after $step steps on channel $1"
    done
}

# Runs that stop at a mark, are refused after a packet, by a quadword that would close another, or at the entry.
packets_of_stops() {
    capture_of stop.capture 'capture\nstart\nrun\nend qwc=2\nNOP\nNOP\nNOP\nDIRECT imm=1 irq=1\ngiftag nloop=0 eop=1\n'
    expect 3 run stop.capture
    says out 'answer 91, stopped at an interrupt mark; 6 steps; 1 packet closed'
    capture_of stop.capture 'capture\nstart channel=2\nrun\nend qwc=3\ngiftag nloop=0 eop=1\ngiftag nloop=1 eop=1 nreg=1 regs=0xB\nword 1 2 3 4\n'
    expect 1 run stop.capture -o stop.result
    says out 'answer 30, refused: '
    says out '; 3 steps; 1 packet closed'
    expect 0 dump stop.result
    says out 'result answer=30 steps=3 packets=1 '
    expect 3 compare stop.result gif2.result
    expect 1 compare stop.result gif2.result --unfinished
    grep -q '^stop.result: answer 30, .*; 3 steps; 1 packet closed$' out || fail 'the packets of an unfinished result'
    says out 'gif2.result: answer 0, done; 16 steps; 5 packets closed'
    capture_of stop.capture 'capture log-entries=0\nstart channel=2\nrun\nend qwc=2\ngiftag nloop=1 eop=1 flg=IMAGE\nword 1 2 3 4\n'
    expect 1 run stop.capture
    says out 'answer 31, refused: '
    says out '; 2 steps; no packet closed'
    capture_of stop.capture 'capture main-bytes=8\nstart channel=2\nrun\n'
    expect 1 run stop.capture
    says out '; 0 steps; no packet closed'
}

# Several runs: each tells its own packets, a quadword counts in the run that completes it, and the result has those of the last run.
packets_of_runs() {
    capture_of runs.capture "capture main-bytes=512\nstart channel=2\nrun allowance=7\nrun allowance=0\nrun\nrun\nstart channel=2\nrun allowance=2\nend qwc=15\n$gif_lines\n"
    expect 3 run runs.capture -o runs.result
    cat > wanted <<'END'
call 1, run with allowance 7: answer 90, the step allowance is used; 7 steps; 2 packets closed; no VIF word; QWC end 15
call 2, run with allowance 0: answer 90, the step allowance is used; 0 steps; no packet closed; no VIF word; QWC 0
call 3, run without limit: answer 0, done; 9 steps; 3 packets closed; no VIF word; QWC 0
call 4, run without limit: answer 0, done; 0 steps; no packet closed; no VIF word; QWC 0
call 6, run with allowance 2: answer 90, the step allowance is used; 2 steps; 1 packet closed; no VIF word; QWC end 15
END
    grep ', run ' out > got
    same got wanted 'the packets of each run'
    expect 0 dump runs.result
    says out 'result answer=90 steps=2 packets=1 '
    capture_of gif.capture "capture main-bytes=512\nstart channel=2\nrun\nend qwc=15\n$gif_lines\n"
    expect 3 run gif.capture --allowance 7 -o half.result
    expect 0 run gif.capture --from half.result --no-start -o rest.result
    says out 'answer 0, done; 9 steps; 3 packets closed'
    expect 0 compare gif2.result rest.result
    says out 'gif2.result: answer 0, done; 16 steps; 5 packets closed'
    says out 'rest.result: answer 0, done; 9 steps; 3 packets closed'
}

packets_as_text() {
    result_of most 'result steps=1 packets=18446744073709551615\n'
    words most 16 2 | grep -q '^ *4294967295 *4294967295$' || fail 'the most packets'
    round result most
    result_of none 'result steps=1\n'
    result_of zero 'result steps=1 packets=0\n'
    same none zero
    result_of some 'result packets=0x3 parts=data\n'
    round result some
    expect 0 dump some
    says out 'result answer=0 steps=0 packets=3 log-entries=0 parts=data'
    bad_text result 1 "packets=0x10000000000000000: the field has 64 bits" 'result packets=0x10000000000000000\n'
    bad_text result 1 "'result' has no field 'packet'; it has answer, steps, packets, words, nops, qwc.refe, qwc.cnt, qwc.next, qwc.ref, qwc.refs, qwc.call, qwc.ret, qwc.end, log-entries, parts" 'result packet=3\n'
}

# Packets have no part in the verdict, and a result without says nothing of them; JSON has the number always.
packets_compared() {
    boards
    sed 's/packets=3/packets=9/' expected.txt > nine.txt
    expect 0 assemble result nine.txt -o nine
    expect 0 compare expected nine
    test "$(tail -n 1 out)" = equal || fail 'packets in the verdict'
    says out 'expected: answer 0, done; 6 steps; 3 packets closed'
    says out 'nine: answer 0, done; 6 steps; 9 packets closed'
    result_of one 'result steps=6 packets=1\n'
    expect 0 compare one none
    grep -qx 'one: answer 0, done; 6 steps; 1 packet closed' out || fail 'one packet'
    grep -qx 'none: answer 0, done; 1 step' out || fail 'a result without packets'
    expect 0 compare none one --json
    says out '"result": {"file": "none", "answer": 0, "steps": 1, "packets": 0, "words": '
    expect 0 report none one -o page.html
    says page.html '<td class="answer">answer 0, done; 1 step</td>'
    expect 0 compare three.meaning three.result
    grep -qx 'three.meaning: answer 0, done; 28 steps' out || fail "a sheet's meaning with packets"
    says out 'three.result: answer 0, done; 28 steps; 3 packets closed'
}

# Which path wrote it: in logs of sheets and captures, as text, of today and of before, in raw files, compared.
paths() {
    expect 0 assemble capture "$here/../examples/paths.capture.txt" -o paths.capture
    round capture paths.capture
    expect 0 run paths.capture -o paths.result
    says out 'log: 8 entries added, first 0, last 7'
    round result paths.result
    capture_of plain.capture 'capture\n'
    paths_logged
    paths_of_sheets
    log_lengths
    paths_as_text
    log_lengths_as_text
    paths_raw
    paths_compared
    echo "paths: 2, 3 and 0 in one log, in a sheet's meaning, in files of $entry_numbers numbers an entry; text of today and of before, raw logs; differences in the path alone"
}

# entries_are FILE LINE..: the entries that a result has as text.
entries_are() {
    file=$1
    shift
    expect 0 dump "$file"
    grep '^entry' out > got
    printf 'entry %s\n' "$@" > wanted
    same got wanted "the entries of $file"
}

# A capture over channels 1, 2 and 0: PRE's write, each format, each program start.
paths_logged() {
    entries_are paths.result '0 path=0 MSCAL 0x0000000000000005' '1 path=2 PRIM 0x0000000000000006' '2 path=2 TEST_1 0x000000000005000D' \
        '3 path=2 FINISH 0x0000000000000000' '4 path=0 MSCNT 0x0000000000000000' '5 path=3 PRIM 0x0000000000000006' \
        '6 path=3 TEST_1 0x000000000005000D' '7 path=3 FINISH 0x0000000000000000'
    quads='giftag nloop=1 eop=1 flg=REGLIST nreg=2 regs=0x51\nword 1 0 2 0\ngiftag nloop=1 eop=1 flg=IMAGE\nword 3 0 4 0\n'
    capture_of mixed.capture "capture\nstart channel=2 tadr=0x60\nrun\nstart channel=1\nrun\nstart channel=0 tadr=0xB0\nrun\nend qwc=5\nMSCALF imm=9\nNOP\nNOP\nDIRECTHL imm=4\n${quads}end qwc=4\n${quads}end qwc=1\nMSCAL imm=1\nMSCNT\n"
    round capture mixed.capture
    expect 0 run mixed.capture -o mixed.result
    entries_are mixed.result '0 path=3 RGBAQ 0x0000000000000001' '1 path=3 XYZ2 0x0000000000000002' '2 path=3 HWREG 0x0000000000000003' \
        '3 path=3 HWREG 0x0000000000000004' '4 path=0 MSCALF 0x0000000000000009' '5 path=2 RGBAQ 0x0000000000000001' '6 path=2 XYZ2 0x0000000000000002' \
        '7 path=2 HWREG 0x0000000000000003' '8 path=2 HWREG 0x0000000000000004' '9 path=0 MSCAL 0x0000000000000001' '10 path=0 MSCNT 0x0000000000000000'
    round result mixed.result
}

# The bench point, and a sheet with GS entries and starts: three numbers in its meaning, as played, and in the longest log.
paths_of_sheets() {
    as_sheet five.sheet '\236\121\4\0\5\0'
    numbers 0 256 5 > point
    expect 0 assemble sheet "$here/../examples/all-kinds.sheet.txt" -o all.sheet
    for name in play meaning; do
        expect 0 $name five.sheet -o five.result
        expect 0 export five.result --log got
        same got point "the bench point by $name"
        test $(($(words five.result $((result_head - 8)) 1))) = 196608 || fail "the log's length by $name"
        test $(($(wc -c < five.result))) = $((result_head + memory_bytes + memory0_bytes + 8 * 196608)) || fail "the file's length by $name"
        expect 0 $name all.sheet -o all.result
        entries_are all.result '0 path=2 PRIM 0x0000000000000006' '1 path=2 RGBAQ 0x3F80000080402010' '2 path=2 XYZ2 0x0000000080008000' \
            '3 path=2 TEST_1 0x000000000005000D' '4 path=2 FINISH 0x0000000000000000' '5 path=0 MSCAL 0x00000000000007FF' '6 path=0 MSCAL 0x0000000000000000'
    done
}

# Refusals 4 and 31 count three numbers an entry; a capture's log has 196,608 where it says nothing.
log_lengths() {
    test $(($(words plain.capture 28 1))) = 196608 || fail "a capture's log"
    for words in 'log-entries=7 log-rest=1' 'log-entries=7 log-rest=2' 'log-entries=65536 log-rest=1' 'log-entries=65537' 'log-entries=65538 log-rest=2' \
        'log-numbers=15' 'log-numbers=131073' 'log-numbers=131074' 'log-numbers=131077'; do
        capture_of four.capture "capture $words\nstart\nrun\nend\n"
        round capture four.capture
        expect 1 run four.capture
        says out "answer 4, refused: the log's length is no multiple of 3, above 196,608 numbers or below three times the entries used; 0 steps"
        expect 2 run four.capture -o four.result
        says err 'not written: a result keeps a log of whole entries, 3 numbers each, up to 196608 numbers'
    done
    for used in 8 6148914691236517205 6148914691236517206 18446744073709551615; do
        capture_of four.capture "capture log-entries=7\nstate used=$used\nstart\nrun\nend\n"
        expect 1 run four.capture
        says out 'answer 4, refused: '
    done
    for entries_given in 0 1 2 3; do
        capture_of room.capture "capture log-entries=$entries_given\nstart channel=2\nrun\nend qwc=3\ngiftag nloop=2 eop=1 pre=1 prim=6 nreg=1 regs=0xE\nword 1 0 5 0\nword 2 0 5 0\n"
        if test $entries_given = 3; then status=0 answer=0; else status=1 answer=31; fi
        expect $status run room.capture -o room.result
        says out "answer $answer, "
        expect 0 dump room.result
        test "$(grep -c '^entry .* path=3 ' out)" = $entries_given || fail "$entries_given entries"
    done
    capture_of full.capture 'capture\nstart channel=2\nrun\nnext qwc=2 addr=0\ngiftag nloop=1 eop=1 flg=IMAGE\nword 1 0 2 0\n'
    expect 1 run full.capture -o full.result
    says out 'answer 31, refused: '
    says out "log: $entries entries added, first 0, last $((entries - 1))"
    expect 0 dump full.result
    says out "entry $((entries - 1)) path=3 HWREG 0x0000000000000002"
    round result full.result
}

# An entry has its path; text of before has it for program starts alone, and nothing is guessed.
paths_as_text() {
    result_of today 'result\nentry 0 path=0 MSCAL 5\nentry 1 path=0x0 0x101 6\nentry 2 path=0 MSCNT 0\n'
    result_of before 'result\nentry 0 MSCAL 5\nentry 1 257 6\nentry 2 0x102 0\n'
    same today before 'program starts without a path'
    for register in PRIM 0 0x54 255 0xFF 259 0x200 18446744073709551615; do
        bad_text result 3 "entry 1 has no path: write 'entry 1 path=2 $register 0x6', or path=3 where path 3 wrote it; only MSCAL, MSCALF and MSCNT go without" \
            "result\nentry 0 MSCAL 5\nentry 1 $register 0x6\n"
        bad_text capture 2 'entry 0 has no path: ' "capture\nentry 0 $register 6\n"
        result_of given "result\nentry 0 path=3 $register 0x6\n"
        round result given
    done
    result_of odd 'result\nentry 0 path=18446744073709551615 PRIM 1\nentry 1 path=7 MSCAL 2\nentry 2 path=0 PRIM 3\nentry 3 path=1 LABEL 4\n'
    round result odd
    entries_are odd '0 path=18446744073709551615 PRIM 0x0000000000000001' '1 path=7 MSCAL 0x0000000000000002' '2 path=0 PRIM 0x0000000000000003' \
        '3 path=1 LABEL 0x0000000000000004'
    for path in 'path=' 'path=two' 'path=-1' 'path=18446744073709551616' 'path=2,3'; do
        bad_text result 2 "'$path': a path is 2 or 3 for a write of the GIF, 0 for a program start; give a number" "result\nentry 0 $path PRIM 6\n"
    done
    for rest in '' '5' 'path=2' 'path=2 PRIM' 'path=2 PRIM 6 7' 'PRIM 6 path=2' 'PRIM 6 7' '2 PRIM 6'; do
        bad_text result 2 "after 'entry' come " "result\nentry 0 $rest\n"
        says err 'its number, path=P, a register and a value'
    done
    bad_text result 2 "'NAME' is no register" 'result\nentry 0 path=2 NAME 6\n'
}

# The length of a log: entries, and numbers beyond them; in text of before numbers, two an entry.
log_lengths_as_text() {
    for words in ' 65536' 'log-entries=32 32' 'log-numbers=64 32' 'log-numbers=131072 65536' 'log-numbers=0 0' 'log-entries=0 0' 'log-numbers=0x10 8'; do
        result_of length "result ${words% *}\n"
        test $(($(words length $((result_head - 8)) 1))) = $((3 * ${words##* })) || fail "a result's log by '$words'"
        expect 0 dump length
        says out " log-entries=${words##* }"
        if grep 'log-numbers' out; then fail 'the word of before'; fi
        capture_of length.capture "capture ${words% *}\n"
        test $(($(words length.capture 28 1))) = $((3 * ${words##* })) || fail "a capture's log by '$words'"
        capture_of length.case "capture fill=1 ${words% *}\n"
        test $(($(words length.case 20 1))) = $((3 * ${words##* })) || fail "a test case's log by '$words'"
    done
    for words in 'log-entries=2 log-rest=1 7' 'log-rest=2 196610' 'log-numbers=5 7' 'log-numbers=131073 196609'; do
        capture_of length.capture "capture ${words% *}\n"
        test $(($(words length.capture 28 1))) = "${words##* }" || fail "a capture's log by '$words'"
        round capture length.capture
        says round.txt ' log-rest='
    done
    for words in 'log-entries=3 log-numbers=6' 'log-numbers=6 log-entries=3' 'log-numbers=6 log-rest=0'; do
        bad_text capture 1 "'log-numbers' is of text from before, 2 an entry: leave it out" "capture $words\n"
    done
    bad_text result 1 "'log-numbers' is of text from before" 'result log-numbers=4 log-entries=2\n'
    bad_text capture 1 "log-rest=3: the numbers beyond whole entries are less than an entry's 3" 'capture log-rest=3\n'
    bad_text result 1 "'result' has no field 'log-rest'" 'result log-rest=1\n'
    bad_text result 1 'log-numbers=5: a result keeps a log of whole entries' 'result log-numbers=5\n'
    bad_text capture 1 '65539 entries of the log are 196617 numbers; the most is 196616' 'capture log-entries=65539\n'
    bad_text capture 1 '65539 entries of the log are 196617 numbers; the most is 196616' 'capture log-numbers=131078\n'
    bad_text capture 1 '1431655766 entries of the log are 4294967298 numbers; the most is 196616' 'capture log-entries=1431655766\n'
    bad_text result 1 '65537 entries of the log are 196611 numbers; the most is 196608' 'result log-entries=65537\n'
    bad_text result 1 '1431655766 entries of the log are 4294967298 numbers; the most is 196608' 'result log-entries=1431655766\n'
    bad_text capture 1 'log-entries=4294967296: the field has 32 bits' 'capture log-entries=4294967296\n'
    bad_text capture '' 'damaged capture: 6 numbers given of the log; the most is 3' 'capture log-entries=1\nentry 0 MSCAL 1\nentry 1 MSCAL 1\n'
}

# told_two FILE ENTRIES: the raw log is told to have two numbers an entry.
told_two() {
    expect 2 import --log "$1" -o bad.out
    case $2 in 1) told='1 entry' ;; *) told="$2 entries" ;; esac
    says err "$1: no dump of a log: $((16 * $2)) bytes, which read as $told from before the path was logged, 2 numbers each, register and value; here an entry has 24 bytes, 3 numbers each, path, register and value"
    expect 2 assemble capture plain.capture.txt -o bad.out --log "$1"
    says err "$1: no dump of a log: $((16 * $2)) bytes, which read as $told from before the path was logged"
    absent bad.out
}

# Raw logs: three numbers an entry, out and in; what is no whole entry, and what has two numbers an entry, is refused with the width.
paths_raw() {
    expect 0 export paths.result --log paths.log
    numbers 0 256 5 2 0 6 2 71 327693 2 97 0 0 258 0 3 0 6 3 71 327693 3 97 0 > wanted
    same paths.log wanted 'an exported log'
    expect 0 import --log paths.log -o board.result
    says out 'board.result: log'
    says out '  log: 8 entries of 3 numbers: path, register and value'
    expect 0 compare paths.result board.result
    expect 0 assemble capture plain.capture.txt -o logged.capture --log paths.log
    expect 0 export logged.capture --log got
    same got paths.log 'the log of a capture'
    for bytes in 1 8 23 25 40 191 193; do
        head -c $bytes "$second" > cut.log
        expect 2 import --log cut.log -o bad.out
        says err "cut.log: no dump of a log: $bytes bytes; a log is whole entries of 24 bytes, 3 numbers each, path, register and value, at most 1572864 bytes"
    done
    numbers 2 0 6 2 71 > cut.log
    expect 2 import --log cut.log -o bad.out
    says err 'cut.log: no dump of a log: 40 bytes; a log is whole entries of 24 bytes, 3 numbers each'
    numbers 0 6 256 5 > two.log && told_two two.log 2
    numbers 256 5 > two.log && told_two two.log 1
    numbers 0 6 71 327693 256 5 > two.log && told_two two.log 3
    numbers 256 5 257 6 258 0 > two.log && told_two two.log 3
    numbers 300 5 > cut.log
    expect 2 import --log cut.log -o bad.out
    says err 'cut.log: no dump of a log: 16 bytes; a log is whole entries of 24 bytes'
    : > none.log
    expect 0 import --log none.log -o none.result
    says out '  log: 0 entries of 3 numbers'
    numbers 0 256 5 > one.log
    expect 0 import --log one.log -o one.result
    says out '  log: 1 entry of 3 numbers'
    for kept in '0 256 5 0 258 0' '2 256 5 1 256 5' '3 0 6 3 0 6' '2 1 999 77 5 1' '9 300 999 7 301 999'; do
        numbers $kept > kept.log
        expect 0 import --log kept.log -o kept.result
        expect 0 export kept.result --log got
        same got kept.log 'a raw log to a result and back'
    done
    absent bad.out
}

# Boards whose logs differ in the path alone, and in more.
paths_compared() {
    "$command" dump paths.result > paths.txt
    edited paths.txt 's/^entry 5 path=3/entry 5 path=2/'
    cp board one
    expect 1 compare paths.result one
    says out 'log: 1 entry differs (in the path alone), the first is 5'
    says out '  log entry 5, in the path alone'
    says out '    paths.result  path 3, register 0x00 PRIM, value 0x0000000000000006 (6)'
    says out '    one           path 2, register 0x00 PRIM, value 0x0000000000000006 (6)'
    test "$(tail -n 1 out)" = different || fail 'a path in the verdict'
    expect 0 compare paths.result one --only data,code,data0,code0
    edited paths.txt 's/^entry 2 path=2 TEST_1.*/entry 2 path=3 TEST_1 1/;s/^entry 5 path=3/entry 5 path=0/;s/^entry 4 path=0/entry 4 path=2/'
    cp board three
    expect 1 compare paths.result three --all
    says out 'log: 3 entries differ (2 in the path alone), the first is 2'
    grep -qx '  log entry 2' out || fail 'a value that differs too'
    says out '  log entry 4, in the path alone'
    says out '    three         path 2, register 0x102 MSCNT, value 0x0000000000000000 (0)'
    edited paths.txt 's/^entry 7 path=3 FINISH/entry 7 path=2 SIGNAL/'
    cp board other
    expect 1 compare paths.result other
    says out 'log: 1 entry differs, the first is 7'
    cp paths.result good.result
    expect 1 compare paths.result one three other good.result
    says out 'one          different     entry 5: path 2, not 3  1 entry (in the path alone)'
    says out 'three        different     entry 2               3 entries (2 in the path alone)'
    says out 'other        different     entry 7               1 entry'
    says out 'good.result  equal'
    expect 1 compare paths.result one three other --json --all
    well_formed json out
    says out '"log": {"compared": 8, "different": 1, "path_alone": 1, "result_entries": 8, "board_entries": 8, "differences": ['
    says out '"log": {"compared": 8, "different": 3, "path_alone": 2, '
    says out '"log": {"compared": 8, "different": 1, "path_alone": 0, '
    says out '{"number": 5, "path_alone": true, "result": {"path": 3, "register": 0, "value": "0x0000000000000006"}, "board": {"path": 2, "register": 0, "value": "0x0000000000000006"}}'
    says out '{"number": 7, "path_alone": false, "result": {"path": 3, "register": 97, '
    expect 1 report paths.result one three other -o page.html
    well_formed page page.html
    says page.html 'entry 5<br/>in the path alone</td><td class="hex">path 3, 0x00 PRIM 0x0000000000000006</td><td class="hex">path 2, 0x00 PRIM 0x0000000000000006</td>'
    says page.html 'the board <span class="number">8</span>. Different in the path alone: <span class="number">2</span>.</p>'
    says page.html 'entry 7</td><td class="hex">path 3, 0x61 FINISH'
    test "$(grep -c 'in the path alone: ' page.html)" = 2 || fail 'a page of a board whose paths are the same'
    sed 's/used=8/used=5/' paths.txt > short.txt
    expect 0 assemble result short.txt -o short
    expect 1 compare paths.result short
    says out '    paths.result  path 3, register 0x00 PRIM'
}

# ROW and COL set: by the command in a state, a capture and a result, and by a capture's calls; one word of the block and no other.
registers() {
    set_usage
    set_each
    set_refused
    set_in_files
    set_calls
    set_calls_refused
    set_and_stopped
    echo "registers: ROW and COL of both units set in states, captures and results and between runs; 50, 51 and 5; seen by the runs; stopped and gone on"
}

set_usage() {
    expect 2 set reset.state -o bad.out
    says err 'say with --row or --col what is set, as --row 0=0x3F800000'
    expect 2 set reset.state --row 0=1
    says err 'say with -o where to write'
    for wrong in 4=1 -1=1 0 0= =1 0x0=1 00=1 0=x 0=0x100000000 0=-2147483649 '' 0:1; do
        for option in --row --col; do
            expect 2 set reset.state -o bad.out $option "$wrong"
            says err "$option $wrong: give its number, 0 to 3, and a word, as 0=0x3F800000 or 3=-1"
        done
    done
    for wrong in 2 -1 '' VIF1 0x100000000 18446744073709551616; do
        expect 2 set reset.state -o bad.out --row 0=1 --unit "$wrong"
        says err "'$wrong' is no unit: give 0 for VIF0 or 1 for VIF1"
    done
    expect 2 set reset.state -o bad.out --row 0=1 --col 0=1 --row 0=2
    says err '--row 0 is given twice'
    expect 2 set reset.state -o bad.out --unit 1 --unit 1 --row 0=1
    says err '--unit is given twice'
    expect 2 set reset.state -o reset.state --row 0=1
    says err 'reset.state is an input and the output'
    expect 2 run reset.state --row 0=1
    says err 'unknown option --row'
    absent bad.out
}

# Each of the eight, of each unit, where ROW and COL hold 100 to 107 of VIF0 and 200 to 207 of VIF1; then all of them at once.
set_each() {
    echo 'state channel=1 tadr=0x40 used=9 cl=3 mask=0x12345678 path2.q=5 path3.q=6 vif0.cl=3 vif0.mask=7' > held.txt
    for number in 0 1 2 3; do
        echo "state vif0.row$number=$((100 + number)) vif0.col$number=$((104 + number)) row$number=$((200 + number)) col$number=$((204 + number))" >> held.txt
    done
    expect 0 assemble state held.txt -o held
    for unit in 0 1; do
        number=0 all=''
        for register in row:0 row:1 row:2 row:3 col:0 col:1 col:2 col:3; do
            name=${register%:*} i=${register#*:}
            for value in 0 1 0x3F800000 4294967295; do
                expect 0 set held --unit $unit "--$name" "$i=$value" -o new
                says out "new: VIF$unit's $(echo "$name" | tr rowcl ROWCL) $i is $(printf '0x%08X' $((value))), was $(printf '0x%08X' $((100 + 100 * unit + number)))"
                patched held $(($(registers_at $unit) + 4 * number)) $((value))
                same new broken "unit $unit, $name $i=$value"
            done
            all="$all --$name=$i=$((number + 5))" number=$((number + 1))
        done
        # shellcheck disable=SC2086
        expect 0 set held --unit=$unit $all -o new
        test "$(wc -l < out)" = 8 || fail 'not a line a register'
        cp held one
        for number in 0 1 2 3 4 5 6 7; do
            patched one $(($(registers_at $unit) + 4 * number)) $((number + 5))
            mv broken one
        done
        same new one "all of unit $unit"
    done
    expect 0 set reset.state --row 3=-1 -o new
    expect 0 dump state new
    says out 'state row0=0x0 row1=0x0 row2=0x0 row3=0xFFFFFFFF'
    round state new
    expect 0 set reset.state --unit 0 --col 2=7 -o new
    expect 0 dump state new
    says out 'state vif0.col2=0x7'
}

# not_set STATE ANSWER UNIT WORDS: the state of the text is refused and nothing written.
not_set() {
    echo "$1" > waits.txt
    expect 0 assemble state waits.txt -o waits
    expect 1 set waits --unit "$3" --col 1=5 -o bad.out
    says err "waits: VIF$3's COL 1: refused $2: $4"
    absent bad.out
}

# A code that waits, of this unit and of the other; a block that is no state's, whose fields are named; what is out of range alone is left to the run.
set_refused() {
    for code in 'STMASK due=1' 'STROW due=4' 'STCOL due=1' 'MPG due=2 count=1' 'DIRECT due=1' 'DIRECTHL due=9' 'UNPACK due=2 count=1 format=V4-32'; do
        not_set "state waiting=$code" 51 1 'a code of this unit waits for payload'
        expect 0 set waits --unit 0 --col 1=5 -o new
        patched waits $(($(registers_at 0) + 20)) 5
        same new broken
    done
    not_set 'state vif0.waiting=STROW vif0.due=4' 51 0 'a code of this unit waits for payload'
    expect 0 set waits --col 1=5 -o new
    for unit in 0 1; do
        not_set 'state tte=2' 5 $unit 'a state or start value is outside the range of its field'
        says out '  out of its range: state tte=2'
        not_set 'state mode=3 waiting=8' 5 $unit ''
        says out '  out of its range: state waiting=8'
        not_set 'state depth=3 path3.place=2' 5 $unit ''
        says out "  out of its range: more than one field of 'state'"
        echo 'state mode=3 cl=256 stack0=5 irq=7 channel=9' > waits.txt
        expect 0 assemble state waits.txt -o waits
        expect 0 set waits --unit $unit --col 1=5 -o new
        patched waits $(($(registers_at $unit) + 20)) 5
        same new broken 'words that mean nothing'
    done
}

# set_in FILE OFFSET: two registers of the state block at an offset are set, and no other byte; the file is still one of its kind.
set_in() {
    expect 0 set "$1" --row 1=0x11223344 --col 3=9 -o new
    patched "$1" $(($2 + $(registers_at 1) + 4)) $((0x11223344))
    mv broken one
    patched one $(($2 + $(registers_at 1) + 28)) 9
    same new broken "$1"
    expect 0 dump new
    says out ' row1=0x11223344 '
    "$command" set - --row 1=0x11223344 --col 3=9 -o - < "$1" > got 2> err || fail "set - -o -: $(cat err)"
    same got new
    says err "-: VIF1's ROW 1 is 0x11223344, was 0x"
}

# What else holds a state: captures, test cases and results; and files that hold none.
set_in_files() {
    capture_of small.capture 'capture main-bytes=16\nquadword 3 1 2 3 4\nstart\nrun\nend\n'
    capture_of small.case 'capture fill=7 whole=1 main-bytes=16\nstart\nrun\nend\n'
    expect 0 run small.capture -o small.result
    result_of small.part 'result parts=log\nentry 0 MSCAL 5\n'
    set_in small.capture "$head_bytes"
    set_in small.case "$case_head"
    set_in small.result $((4 + run_head))
    set_in small.part $((4 + run_head))
    as_sheet small.sheet '\236\121\4\0\5\0'
    expect 2 set small.sheet --row 0=1 -o bad.out
    says err 'small.sheet: no state: it begins with the mark of a sheet'
    expect 2 set waits.txt --row 0=1 -o bad.out
    says err 'waits.txt: no state, but text; assemble it first: tejborun assemble state waits.txt -o FILE'
    expect 2 set small.capture.txt --row 0=1 -o bad.out
    head -c $((block_bytes - 1)) reset.state > cut
    expect 2 set cut --row 0=1 -o bad.out
    says err "no state: $((block_bytes - 1)) bytes; a state has $block_bytes"
    for file in small.capture small.result; do
        head -c $(($(wc -c < $file) - 1)) $file > cut
        expect 2 set cut --row 0=1 -o bad.out
        says err 'damaged '
    done
    { printf TCA3; head -c 600 /dev/zero; } > cut
    expect 2 set cut --row 0=1 -o bad.out
    says err 'from before log entries had a path'
    expect 2 set missing --row 0=1 -o bad.out
    absent bad.out
}

# Quadwords of main memory that write ROW to quadword 0 and COL 0 to 3 to the next ones, by mask codes 1 and 2.
masked='end qwc=7\nSTCYCL cl=4 wl=4\nSTMASK\nword 0x55555555\nUNPACK format=V4-32 num=1 addr=0 m=1\nword 9 9 9 9\nSTMASK\nword 0xAAAAAAAA\n'
masked="$masked"'UNPACK format=V4-32 num=4 addr=1 m=1\nword 9 9 9 9 9 9 9 9\nword 9 9 9 9 9 9 9 9\nNOP\n'

# rows_and_cols FILE UNIT: the result has 1 to 4 as ROW and 5 to 8 as COL in the unit's memory.
rows_and_cols() {
    expect 0 dump "$1"
    case $2 in 0) prefix=vif0. ;; *) prefix= ;; esac
    says out "${prefix}quadword 0 0x00000001 0x00000002 0x00000003 0x00000004"
    for i in 1 2 3 4; do says out "${prefix}quadword $i 0x0000000$((i + 4)) 0x0000000$((i + 4)) 0x0000000$((i + 4)) 0x0000000$((i + 4))"; done
    says out "state ${prefix}row0=0x1 ${prefix}row1=0x2 ${prefix}row2=0x3 ${prefix}row3=0x4"
}

# A capture that sets them, before the start and after it, and a capture whose state they are set in.
set_calls() {
    for unit in 0 1; do
        sets=''
        for i in 0 1 2 3; do sets="${sets}set unit=$unit register=row$i value=$((i + 1))\nset unit=$unit register=$((i + 4)) value=0x$((i + 5))\n"; done
        capture_of before.capture "capture main-bytes=128\n${sets}start channel=$unit\nrun\n$masked"
        capture_of after.capture "capture main-bytes=128\nstart channel=$unit\n${sets}run\n$masked"
        capture_of without.capture "capture main-bytes=128\nstart channel=$unit\nrun\n$masked"
        for name in before after; do
            round capture $name.capture
            says round.txt "set unit=$unit register=row0 value=0x1"
            says round.txt "set unit=$unit register=col3 value=0x8"
            says round.txt '  UNPACK format=V4-32 num=1 addr=0 m=1'
            expect 0 run $name.capture -o $name.result
            says out "set VIF$unit's ROW 0 to 0x00000001: answer 0, set"
            says out "set VIF$unit's COL 3 to 0x00000008: answer 0, set"
            says out 'answer 0, done; 29 steps'
            rows_and_cols $name.result $unit
            round result $name.result
        done
        same before.result after.result
        expect 0 run without.capture -o without.result
        expect 1 compare before.result without.result
        expect 0 set without.capture --unit $unit --row 0=1 --row 1=2 --row 2=3 --row 3=4 --col 0=5 --col 1=6 --col 2=7 --col 3=8 -o with.capture
        expect 0 run with.capture -o with.result
        same with.result before.result
        capture_of twice.capture "capture main-bytes=128\n${sets}start channel=$unit\nrun\nset unit=$unit register=row2 value=-1\nset unit=$((1 - unit)) register=col0 value=3\nstart channel=$unit\nrun\n$masked"
        expect 0 run twice.capture -o twice.result
        expect 1 compare before.result twice.result
        says out '1 quadword differs, the first is 0'
        says out 'Z  0x00000003           3  4.20389539e-45   0xFFFFFFFF'
    done
    capture_of further.capture 'capture main-bytes=32\nset register=row0 value=1\nstart tadr=0x10\nrun\nword 0x10000001 0 0 0\nend\n'
    round capture further.capture
    says round.txt 'word 0x10000001'
    capture_of plain.capture 'capture\nset register=row1 value=5\n'
    round capture plain.capture
    says round.txt 'set unit=1 register=row1 value=0x5'
    set -- $(words plain.capture "$calls_at" 4)
    test "$*" = '3 1 1 5' || fail "the words of a set: $*"
    expect 3 run plain.capture -o plain.result
    says out "call 0, set VIF1's ROW 1 to 0x00000005: answer 0, set"
    expect 0 dump plain.result
    says out 'state row0=0x0 row1=0x5 row2=0x0 row3=0x0'
}

# refused_set ANSWER WORDS CALL WHAT [STATE]: a capture with this set goes on after the refusal, with exit status 1, and leaves what it leaves without it.
refused_set() {
    capture_of refused.capture "capture main-bytes=128\n${5:-}$3\nstart\nrun\n$masked"
    capture_of plain.capture "capture main-bytes=128\n${5:-}start\nrun\n$masked"
    round capture refused.capture
    "$command" run plain.capture -o plain.result > said 2> err
    expect 1 run refused.capture -o refused.result
    says out "call 0, set $4: answer $1, refused: $2"
    same refused.result plain.result
}

set_calls_refused() {
    refused_set 50 "the register's number is above 7; 0 to 3 are ROW, 4 to 7 are COL" 'set register=8 value=1' "VIF1's register 8 to 0x00000001"
    refused_set 50 "the register's number" 'set unit=4294967295 register=4294967295 value=1' "unit 4294967295's register 4294967295 to 0x00000001"
    refused_set 5 'a state or start value is outside the range of its field' 'set unit=2 register=row0 value=1' "unit 2's ROW 0 to 0x00000001"
    says out '  out of its range: set unit=2'
    refused_set 50 'the register' 'set unit=2 register=8 value=1' "unit 2's register 8 to 0x00000001" 'state waiting=MPG due=2 count=1\n'
    refused_set 51 'a code of this unit waits for payload' 'set register=col3 value=1' "VIF1's COL 3 to 0x00000001" 'state waiting=STROW due=2\n'
    refused_set 51 'a code of this unit waits for payload' 'set unit=0 register=row0 value=1' "VIF0's ROW 0 to 0x00000001" 'state vif0.waiting=STROW vif0.due=2\n'
    refused_set 5 'a state or start value' 'set register=row0 value=1' "VIF1's ROW 0 to 0x00000001" 'state tte=2\n'
    says out '  out of its range: state tte=2'
    # Between the code and its payload: after STMASK, and after it once it is done.
    capture_of between.capture "capture main-bytes=128\nstart\nrun allowance=3\nset register=row0 value=1\nrun allowance=1\nset register=row0 value=2\nrun\n$masked"
    expect 1 run between.capture -o between.result
    says out "call 2, set VIF1's ROW 0 to 0x00000001: answer 51, refused: a code of this unit waits for payload"
    says out "call 4, set VIF1's ROW 0 to 0x00000002: answer 0, set"
    expect 0 dump between.result
    says out 'quadword 0 0x00000002 0x00000000 0x00000000 0x00000000'
}

# A run stopped and gone on with leaves what one run leaves: the sets before it are not made again.
set_and_stopped() {
    difference="STMOD mode=2\nSTCYCL cl=1 wl=1\nUNPACK format=V4-32 num=3 addr=0\nword 1 1 1 1\nword 1 1 1 1\nword 1 1 1 1\nNOP\n"
    capture_of sums.capture "capture main-bytes=80\nset register=row0 value=100\nstart\nrun\nend qwc=4\n$difference"
    expect 0 run sums.capture -o sums.result
    expect 0 dump sums.result
    says out 'quadword 2 0x00000067 0x00000003 0x00000003 0x00000003'
    for allowance in 1 3 4 8 9 12; do
        expect 3 run sums.capture -o half.result --allowance $allowance
        expect 0 run sums.capture -o rest.result --from half.result --no-start
        if grep -q ', set ' out; then fail 'a set made again'; fi
        expect 0 compare sums.result rest.result
    done
    # In between it is set by the command, where no code waits.
    expect 3 run sums.capture -o half.result --allowance 3
    expect 0 set half.result --row 0=200 -o changed.result
    expect 0 run sums.capture -o rest.result --from changed.result --no-start
    expect 0 dump rest.result
    says out 'quadword 2 0x000000CB 0x00000003 0x00000003 0x00000003'
    expect 3 run sums.capture -o half.result --allowance 6
    expect 1 set half.result --row 0=200 -o bad.out
    says err "half.result: VIF1's ROW 0: refused 51"
    absent bad.out
}

# Damaged sheets: one, many, what is dropped of them as a table, as text and as JSON; what is no sheet; where they are written.
salvages() {
    mkdir -p salvages && cd salvages || fail 'no folder for the sheets'
    expect 0 assemble sheet "$here/../examples/all-kinds.sheet.txt" -o whole.sheet
    salvage_usage
    salvage_one
    salvage_damages
    salvage_others
    salvage_dashes
    salvage_many
    salvage_many_json
    salvage_three_hundred
    salvage_shown
    cd .. || fail 'no way back'
    echo "salvages: valid sheets as they are, damaged ones kept in their records; tables, ranges, rows and JSON; 300 at once; text, other kinds and 46; progress"
}

salvage_usage() {
    expect 2 salvage whole.sheet
    says err 'say with -o where to write'
    cp whole.sheet before
    ln -sf whole.sheet to-whole
    for other in whole.sheet ./whole.sheet to-whole; do
        expect 2 salvage whole.sheet -o "$other"
        says err 'is an input and the output'
        expect 2 salvage whole.sheet -o bad.out --ranges "$other"
        says err 'is an input and the output'
    done
    same whole.sheet before
    expect 2 salvage whole.sheet -o bad.out --ranges bad.out
    says err 'bad.out is to have the sheet and the ranges'
    expect 2 salvage whole.sheet before -o missing-folder
    says err 'missing-folder is no folder: several sheets are written to one, which has to be there'
    expect 2 salvage whole.sheet before -o before
    expect 2 salvage whole.sheet before -o -
    expect 2 salvage whole.sheet whole.sheet -o .
    says err 'the same file'
    expect 2 salvage missing.sheet -o bad.out
    says err 'missing.sheet: cannot be opened'
    expect 2 salvage whole.sheet -o missing-folder/x
    says err 'missing-folder/x: cannot be written'
    expect 2 salvage whole.sheet -o good.out --ranges missing-folder/x
    says err 'missing-folder/x: cannot be written'
    absent bad.out missing-folder
}

salvage_one() {
    salvaged whole.sheet
    expect 0 salvage whole.sheet -o new.sheet
    same new.sheet whole.sheet
    test "$(cat out)" = "new.sheet: $(($(wc -c < whole.sheet))) bytes kept in 7 records, nothing dropped" || fail "what is said of a valid sheet: $(cat out)"
    : > empty.sheet
    salvaged empty.sheet
    says out '0 bytes kept in 0 records, nothing dropped'
    # Three bytes, a start, two bytes, a start, a byte.
    as_sheet junk.sheet '\1\2\3\236\121\4\0\5\0\1\2\236\121\4\0\6\0\3'
    salvaged junk.sheet
    as_sheet wanted '\236\121\4\0\5\0\236\121\4\0\6\0'
    same kept.sheet wanted
    printf '0 3\n9 2\n17 1\n' > wanted
    same ranges wanted
    cat > wanted <<'END'
dropped of junk.sheet, 18 bytes:
  offset           length
  0x00000       0       3
  0x00009       9       2
  0x00011      17       1
kept.sheet: 12 bytes kept in 2 records, 6 bytes dropped in 3 ranges
END
    same out wanted 'the table of what was dropped'
    expect 1 salvage junk.sheet -o new.sheet --quiet
    test ! -s out || fail '--quiet says something'
    same new.sheet kept.sheet
    expect 0 salvage whole.sheet -o new.sheet --quiet
    test ! -s out || fail '--quiet says something'
    cp kept.sheet kept.wanted
    mkdir -p one-folder
    expect 1 salvage ./junk.sheet -o one-folder/
    says out 'one-folder/junk.sheet: 12 bytes kept in 2 records'
    same one-folder/junk.sheet kept.sheet
    salvaged one-folder/junk.sheet
}

# A sheet with every kind of damage: bytes put in, taken out and broken, at every place; a record inside a broken one's body; the longest.
salvage_damages() {
    size=$(($(wc -c < whole.sheet)))
    for at in 0 1 5 6 7 37 38 39 60 100 $((size - 7)) $((size - 1)); do
        { slice whole.sheet 0 $at; printf 'bad'; tail -c +$((at + 1)) whole.sheet; } > d.sheet
        salvaged d.sheet
        { slice whole.sheet 0 $at; tail -c +$((at + 2)) whole.sheet; } > d.sheet
        salvaged d.sheet
        { slice whole.sheet 0 $at; printf '\377'; tail -c +$((at + 2)) whole.sheet; } > d.sheet
        salvaged d.sheet
        slice whole.sheet 0 $at > d.sheet
        salvaged d.sheet
    done
    # The body of a code record of two, cut, has a start in it.
    as_sheet d.sheet '\236\121\2\2\0\0\236\121\4\0\5\0\1\2\3\4'
    salvaged d.sheet
    as_sheet wanted '\236\121\4\0\5\0'
    same kept.sheet wanted 'a record inside a broken one'
    printf '0 6\n12 4\n' > wanted
    same ranges wanted
    # Kinds 0 and 5 are damage.
    as_sheet d.sheet '\236\121\0\2\0\0\236\121\5\2\1\0\236\121\4\0\5\0'
    salvaged d.sheet
    printf '0 12\n' > wanted
    same ranges wanted
    # Bad sectors of 512 bytes in a long sheet, of zeros and of FFh.
    { for _ in $(seq 1 400); do cat whole.sheet; done; } | head -c 83999 > long.sheet
    for filler in '\0' '\377'; do
        { slice long.sheet 0 5120; head -c 512 /dev/zero | tr '\0' "$filler"; slice long.sheet 5632 40960; head -c 1024 /dev/zero | tr '\0' "$filler"
            tail -c +47617 long.sheet; } > d.sheet
        salvaged d.sheet
        test "$count" -ge 2 || fail 'bad sectors that are not dropped'
    done
    # The longest sheet, of marks alone, in a moment.
    yes "$(printf '\236\121')" | tr -d '\n' | head -c 131072 > d.sheet
    timeout 10 "$command" salvage d.sheet -o new.sheet --ranges ranges > out 2> err
    test $? = 1 || fail 'a sheet of marks takes long'
    test "$(cat ranges)" = '0 131072' || fail "what is dropped of marks: $(cat ranges)"
    test ! -s new.sheet || fail 'something kept of marks'
    head -c 512 /dev/zero | tr '\0' '\377' > d.sheet
    salvaged d.sheet
}

# What is no sheet.
salvage_others() {
    expect 2 salvage "$here/../examples/all-kinds.sheet.txt" -o bad.out --ranges bad.ranges
    says err 'it is text; assemble it first: tejborun assemble sheet '
    capture_of other.capture 'capture\nrun\n'
    result_of other.result 'result\n'
    for kind in capture result; do
        expect 2 salvage other.$kind -o bad.out
        says err "other.$kind: no sheet: it begins with the mark of a $kind"
    done
    head -c 131073 /dev/zero > d.sheet
    expect 1 salvage d.sheet -o bad.out --ranges bad.ranges
    says err 'd.sheet: refused 46 at offset 0: the sheet is longer than 131,072 bytes'
    test ! -s out || fail 'something said of a refused sheet'
    expect 1 salvage d.sheet -o bad.out --json
    well_formed json out
    says out '{"file": "d.sheet", "verdict": "refused", "status": 1, "refusal": 46}'
    head -c 131072 /dev/zero > d.sheet
    salvaged d.sheet
    head -c 20000000 /dev/zero > d.sheet
    expect 2 salvage d.sheet -o bad.out
    says err 'larger than'
    absent bad.out bad.ranges
}

salvage_dashes() {
    "$command" salvage - -o - < junk.sheet > got 2> err
    test $? = 1 || fail 'salvage - -o -'
    same got one-folder/junk.sheet
    says err '-: 12 bytes kept in 2 records, 6 bytes dropped in 3 ranges'
    "$command" salvage - -o - --json < junk.sheet > got 2> err
    same got one-folder/junk.sheet
    cp err said
    well_formed json said
    "$command" salvage junk.sheet -o new.sheet --ranges - > got 2> err
    printf '0 3\n9 2\n17 1\n' > wanted
    same got wanted
    says err 'new.sheet: 12 bytes kept'
    expect 2 salvage junk.sheet -o - --ranges -
    says err '- is to have the sheet and the ranges'
    expect 2 salvage - -o one-folder
    says err 'standard input has no name in one-folder: give -o a file'
    "$command" salvage whole.sheet -o - > /dev/full 2> err
    test $? = 2 || fail 'standard output full'
}

# Many: a row a sheet, the summary, the worst status; names that meet in the folder.
salvage_many() {
    mkdir -p old new
    cp whole.sheet old/a
    cp junk.sheet old/b
    : > old/c
    head -c 131073 /dev/zero > old/long
    expect 1 salvage old/a old/b old/c -o new
    cat > wanted <<'END'
sheet     verdict         kept  records  dropped  ranges  first dropped
old/a     valid            210        7        0       0
old/b     damaged           12        2        6       3  0x00000       0
old/c     valid              0        0        0       0
3 sheets: 2 valid, 1 damaged; 222 bytes kept in 9 records, 6 bytes dropped in 3 ranges
END
    same out wanted 'the rows of three sheets'
    same new/a old/a
    same new/b kept.wanted
    same new/c old/c
    rm new/*
    expect 0 salvage old/a old/c -o new/
    says out '2 sheets: 2 valid; 210 bytes kept in 7 records, nothing dropped'
    expect 2 salvage old/a missing old/b old/long other.capture -o new
    says out 'missing        not read'
    says out 'old/long       refused 46'
    says out 'other.capture  not read'
    says out '5 sheets: 1 valid, 1 damaged, 1 refused, 2 not read; 222 bytes kept in 9 records, 6 bytes dropped in 3 ranges'
    absent new/missing new/long new/other.capture
    expect 1 salvage old/a old/long -o new
    expect 1 salvage old/a old/b -o new --quiet
    test ! -s out || fail '--quiet says something'
    expect 2 salvage old/a old/b -o new --ranges bad.out
    says err '--ranges takes one sheet; --json has the ranges of several'
    expect 2 salvage old/a old/b -o old
    says err 'old/a is an input and the output'
    ln -sf ../old/b new/a
    expect 2 salvage old/a old/b -o new
    says err 'old/b is an input and the output'
    rm new/a
    mkdir -p other
    cp junk.sheet other/a
    expect 2 salvage old/a other/a -o new
    says err 'old/a and other/a would both be written to new/a'
    absent new/a
    mkdir new/a
    expect 2 salvage old/a old/b -o new
    says out 'old/a     not written'
    says out '2 sheets: 1 damaged, 1 not written; 12 bytes kept'
    rmdir new/a
    same old/a whole.sheet
    same old/b junk.sheet
    absent bad.out
}

salvage_many_json() {
    odd=$(printf 'old/na"m\\e\t<&>\377')
    cp junk.sheet "$odd"
    expect 2 salvage old/a old/b "$odd" old/long missing -o new --json
    well_formed json out
    says out '{"file": "old/a", "verdict": "valid", "status": 0, "output": "new/a", "bytes": 210, "kept": 210, "records": 7, "dropped": 0, "ranges": []}'
    says out '{"file": "old/b", "verdict": "damaged", "status": 1, "output": "new/b", "bytes": 18, "kept": 12, "records": 2, "dropped": 6, "ranges": ['
    says out '{"offset": 9, "length": 2},'
    says out '"old/na\"m\\e\u0009<&>\uFFFD"'
    says out '{"file": "old/long", "verdict": "refused", "status": 1, "refusal": 46}'
    says out '{"file": "missing", "verdict": "not read", "status": 2}'
    says out '"summary": {"sheets": 5, "valid": 1, "damaged": 2, "refused": 1, "not_read": 1, "not_written": 0, "kept": 234, "records": 11, "dropped": 12, "ranges": 6}'
    says out '"status": 2'
    for words in 'old/a' 'old/b' 'old/a old/c'; do
        # shellcheck disable=SC2086
        "$command" salvage $words -o new --json > out 2> err
        well_formed json out
    done
}

# 300 sheets at once, every third one damaged.
salvage_three_hundred() {
    rm -rf drive saved
    mkdir drive saved
    for number in $(seq 1 300); do
        case $((number % 3)) in 0) cp junk.sheet drive/$number ;; *) cp whole.sheet drive/$number ;; esac
    done
    expect 1 salvage drive/* -o saved
    says out '300 sheets: 200 valid, 100 damaged; 43200 bytes kept in 1600 records, 600 bytes dropped in 300 ranges'
    test "$(wc -l < out)" = 302 || fail 'not a row a sheet'
    for number in $(seq 1 300); do
        case $((number % 3)) in 0) same saved/$number kept.wanted ;; *) same saved/$number whole.sheet ;; esac
    done
    expect 0 salvage saved/* -o drive
    says out '300 sheets: 300 valid; 43200 bytes kept in 1600 records, nothing dropped'
}

# On a terminal it is shown how many have been done; a pipe that gives its sheet late makes it last.
salvage_shown() {
    command -v script > /dev/null || return 0
    rm -f late
    mkfifo late
    { sleep 2; cat whole.sheet; } > late &
    timeout -k 20 60 script -qec "$command salvage old/a late old/b -o new" typescript > /dev/null 2>&1 < /dev/null
    wait $!
    grep -q '2 of 3 sheets' typescript || fail 'no progress on a terminal'
    grep -q '3 sheets: 2 valid, 1 damaged' typescript || fail 'salvage on a terminal'
    same new/late whole.sheet
}

# Why it stopped: each refusal in a sentence with its numbers, by the command, by a run and by a capture's calls; nothing is changed.
whys() {
    why_of_tags
    why_of_words
    why_of_quadwords
    why_at_entry
    why_unrefused
    why_of_last_run
    why_calls
    why_options
    echo "whys: each refusal of a tag, a VIF word, a GIF quadword and at the entry in a sentence; ended, no complaint; by why, run, run --why and calls; nothing changed"
}

# why_told STATUS SENTENCE TEXT: of the capture of the text why says the sentence, and so does run --why in the end; a run that is refused says it by itself.
why_told() {
    capture_of why.capture "$3"
    expect "$1" why why.capture
    test "$(head -n 1 out)" = "$2" || { cat out >&2; fail "why does not say: $2"; }
    test ! -s err || fail "why complains: $(cat err)"
    cp out alone
    expect "$1" run why.capture
    case $1 in
    1) grep -qxF -- "  $2" out || { cat out >&2; fail "run does not say: $2"; } ;;
    *) if grep -q '^  refused' out; then fail 'a sentence where no run was refused'; fi ;;
    esac
    cp out without
    expect "$1" run why.capture --why
    cat without alone > wanted
    same out wanted 'run --why'
}

# why_step REFUSAL ADDRESS WORDS HEAD CHAIN: a run from address 0, with this head and start, is refused so.
why_step() {
    why_told 1 "refused $1 at $2: $3" "capture $4\nrun\n$5\n"
}

why_of_tags() {
    small='main-bytes=32\nstart'
    why_step 10 0x00000020 'TADR 0x20 lies outside main memory' "$small" 'next addr=0x20'
    why_step 10 0x7FFFFFF0 'TADR 0x7FFFFFF0 lies outside main memory' 'main-bytes=32\nstart channel=2' 'next addr=0x7FFFFFF0'
    why_step 11 0x00000010 'ADDR 0x18 of the tag is no multiple of 16' "$small" 'cnt\nref addr=0x18 spr=1'
    why_step 11 0x00000000 'ADDR 0x7FFFFFFF of the tag is no multiple of 16' 'main-bytes=32\nstart channel=0' 'call addr=0x7FFFFFFF'
    why_step 12 0x00000010 'SPR 1 in a tag that uses ADDR' "$small" 'cnt\nrefs addr=0x10 spr=1'
    why_step 13 0x00000000 'call with 2 addresses on the stack' "$small" 'call addr=0'
    why_step 14 0x00000040 'a tag with QWC 300 where 12 quadwords fit' 'main-bytes=272\nstart' 'cnt\ncnt\ncnt\ncnt\nend qwc=300'
    why_step 14 0x00000000 'a tag with QWC 2 where 1 quadword fits' "$small" 'cnt qwc=2'
    why_step 14 0x00000010 'a tag with QWC 65535 where 0 quadwords fit' "$small" 'cnt\nrefe qwc=65535 addr=0x20'
}

why_of_words() {
    for unit in 0 1; do
        small="main-bytes=32\nstart channel=$unit"
        why_step 20 0x00000014 "a VIF code with CMD 0x08, which VIF$unit does not have" "$small" 'end qwc=1\nNOP\nword 0x08000000'
        why_step 20 0x00000008 "a VIF code with CMD 0x5F, which VIF$unit does not have" "$small tte=1" 'end word2=0xDFFFFFFF'
        for vn in 0 1 2; do
            why_step 21 0x0000001C "UNPACK with vl 3 and vn $vn" "$small" "end qwc=1\nNOP\nNOP\nNOP\nword $(((99 + 4 * vn) << 24))"
        done
        why_step 22 0x00000A30 'UNPACK with WL 0' "main-bytes=4096\nstart channel=$unit tadr=0xA20" 'at 0xA20\nend qwc=1\nUNPACK format=V4-32 num=1'
        why_step 23 0x00000014 'STMOD with mode 3' "$small" 'end qwc=1\nNOP\nSTMOD mode=3 rest=5'
        why_step 25 0x00000014 'the first payload word of an MPG is due and the next word is word 1 of its quadword' "$small" 'end qwc=1\nMPG num=1'
        why_step 25 0x0000001C 'the first payload word of an MPG is due and the next word is word 3 of its quadword' "$small" 'end qwc=1\nNOP\nNOP\nMPG num=1'
        why_step 31 0x00000010 'the log lacks room: 0 entries free, 1 needed' "log-entries=0 $small" 'end qwc=1\nMSCAL imm=5'
        why_step 31 0x00000018 'the log lacks room: 0 entries free, 1 needed' "log-entries=2 $small" 'end qwc=1\nMSCAL\nMSCNT\nMSCNT'
    done
    for code in OFFSET:02 BASE:03 MSKPATH3:06 FLUSH:11 FLUSHA:13 MSCALF:15 DIRECT:50 DIRECTHL:51; do
        why_step 20 0x00000010 "a VIF code with CMD 0x${code#*:}, which VIF0 does not have" 'main-bytes=32\nstart channel=0' "end qwc=1\n${code%:*}"
    done
    why_step 26 0x00000014 'UNPACK with IMM bit 15 (TOPS) 1 on VIF0' 'main-bytes=32\nstart channel=0' 'end qwc=1\nSTCYCL cl=1 wl=1\nUNPACK format=V4-32 num=1 tops=1'
    nops=''
    for word in 1 2 3; do
        why_step 24 "$(printf '0x%08X' $((16 + 4 * word)))" \
            "DIRECT payload is due and the next word is word $word of its quadword, not word 0" 'main-bytes=32\nstart' "end qwc=1\n${nops}DIRECT imm=1"
        nops="${nops}NOP\n"
    done
}

# why_quadword REFUSAL WORDS ENTRIES TAG PLACE: the GIF tag or its data (PLACE 0 or 1) is refused so, by DIRECT and on channel 2.
why_quadword() {
    why_step "$1" "0x000000$((1 + $5))0" "$2" "log-entries=$3 main-bytes=64\nstart channel=2" "end qwc=2\n$4\nword 1 2 3 4"
    why_step "$1" "0x000000$((2 + $5))0" "$2" "log-entries=$3 main-bytes=64\nstart" "end qwc=3\nNOP\nNOP\nNOP\nDIRECT imm=2\n$4\nword 1 2 3 4"
}

why_of_quadwords() {
    why_quadword 30 'GIF descriptor 11 (B) is met at its data' 9 'giftag nloop=1 eop=1 nreg=1 regs=0xB' 1
    why_quadword 30 'GIF descriptor 11 (B) is met at its data' 0 'giftag nloop=1 eop=1 flg=REGLIST nreg=2 regs=0xB1' 1
    why_quadword 31 'the log lacks room: 0 entries free, 1 needed' 0 'giftag nloop=1 eop=1 nreg=1 regs=0xE' 1
    why_quadword 31 'the log lacks room: 0 entries free, 1 needed' 0 'giftag nloop=1 eop=1 pre=1 prim=6 nreg=1 regs=0xE' 0
    why_quadword 31 'the log lacks room: 0 entries free, 1 needed' 1 'giftag nloop=1 eop=1 pre=1 prim=6 nreg=1 regs=0xE' 1
    why_quadword 31 'the log lacks room: 1 entry free, 2 needed' 1 'giftag nloop=1 eop=1 flg=IMAGE' 1
    why_quadword 31 'the log lacks room: 0 entries free, 2 needed' 0 'giftag nloop=1 eop=1 flg=REGLIST nreg=2 regs=0x51' 1
}

# A refusal at the entry comes first, also on a chain that has ended, and has no address; 14 there is another than that of a tag; 5 names the fields.
why_at_entry() {
    for state in '' 'state ended=1\n'; do
        why_told 1 'refused at the entry, 1: main memory has length 0, no multiple of 16 or more than 1,048,576 bytes' "capture main-bytes=8\n${state}run\n"
        why_told 1 'refused at the entry, 2: data memory is not 4,096 words, of VIF0 (channel 0) not 1,024' "capture data-words=8\n${state}run\n"
        why_told 1 'refused at the entry, 2: data memory is not 4,096 words, of VIF0 (channel 0) not 1,024' "capture vif0.data-words=8\n${state}state channel=0\nrun\n"
        why_told 1 'refused at the entry, 3: code memory is not 16,384 bytes, of VIF0 (channel 0) not 4,096' "capture code-bytes=8\n${state}run\n"
        why_told 1 "refused at the entry, 4: the log's length is no multiple of 3, above 196,608 numbers or below three times the entries used" \
            "capture log-entries=1\n${state}state used=2\nrun\n"
        why_told 1 'refused at the entry, 5: a state or start value is outside the range of its field' "capture\n${state}state mode=3\nrun\n"
        test "$(tail -n 1 alone)" = '  out of its range: state mode=3' || fail 'the field of 5'
        why_told 1 'refused at the entry, 14: payload or pending words lie outside main memory' "capture main-bytes=32\n${state}state payload-words=8 payload-at=0x10\nrun\n"
    done
}

# The chain has ended, with nothing pending; no complaint after an allowance or a mark, unless the next step is refused. Without a run it is said of the next step.
why_unrefused() {
    why_told 0 'the chain has ended' 'capture\nstart\nrun\nend\n'
    why_told 0 'the chain has ended' 'capture\nstate ended=1\nrun\n'
    why_told 3 'the chain has ended' 'capture\nstate ended=1\n'
    why_told 3 'no complaint' 'capture main-bytes=32\nstate ended=1 payload-words=4 payload-at=0x10\n'
    why_told 3 'refused 20 at 0x00000010: a VIF code with CMD 0x08, which VIF1 does not have' \
        'capture main-bytes=32\nstate ended=1 payload-words=4 payload-at=0x10\nend\nword 0x08000000\n'
    why_told 3 'no complaint' 'capture\nstart\nrun allowance=0\nend\n'
    why_told 3 'no complaint' 'capture main-bytes=32\nstart\nrun\nend qwc=1\nNOP irq=1\n'
    why_told 3 'refused 23 at 0x00000014: STMOD with mode 3' 'capture main-bytes=32\nstart\nrun\nend qwc=1\nNOP irq=1\nSTMOD mode=3\n'
    why_told 3 'refused 23 at 0x00000014: STMOD with mode 3' 'capture main-bytes=32\nstart\nrun allowance=2\nend qwc=1\nNOP\nSTMOD mode=3\n'
    why_told 3 'no complaint' 'capture\n'
    why_told 3 'refused 12 at 0x00000000: SPR 1 in a tag that uses ADDR' 'capture\nstart\nref spr=1\n'
    why_told 3 'refused at the entry, 5: a state or start value is outside the range of its field' 'capture\nstate mode=3\n'
    test "$(tail -n 1 alone)" = '  out of its range: state mode=3' || fail 'the field of 5 without a run'
}

# Of several runs the last; what follows it is not asked about. A start and a set that are refused are said.
why_of_last_run() {
    why_told 0 'the chain has ended' 'capture main-bytes=32\nstart\nrun\nstart tadr=0x10\nend\nref spr=1\n'
    capture_of why.capture 'capture main-bytes=32\nstart tadr=0x10\nrun\nstart\nrun\nend\nref spr=1\n'
    expect 1 why why.capture
    test "$(cat out)" = 'the chain has ended' || fail 'not the last run'
    expect 1 run why.capture --why
    says out '  refused 12 at 0x00000010: SPR 1 in a tag that uses ADDR'
    test "$(tail -n 1 out)" = 'the chain has ended' || fail 'not the last run, by run --why'
    capture_of why.capture 'capture main-bytes=16\nset register=8 value=1\nstart channel=3\nstart\nrun\nend\n'
    expect 1 why why.capture
    says out "call 0, set VIF1's register 8 to 0x00000001: answer 50, refused: "
    says out 'call 1, start on channel 3 at 0x0, TTE 0: answer 5, refused: '
    test "$(wc -l < out)" = 4 || fail 'more than the refusals is said'
    test "$(tail -n 1 out)" = 'the chain has ended' || fail 'a sentence after refusals'
}

# A why among the calls: said where it stands, and nothing else changes; as text and back with all its words.
why_calls() {
    chain='end qwc=1\nNOP\nMSCAL imm=5\nSTMOD mode=3\n'
    capture_of with.capture "capture main-bytes=32\nwhy\nstart\nwhy\nrun allowance=3\nwhy\nset register=row0 value=7\nrun\nwhy\n$chain"
    capture_of without.capture "capture main-bytes=32\nstart\nrun allowance=3\nset register=row0 value=7\nrun\n$chain"
    round capture with.capture
    expect 1 run with.capture -o with.result
    sed -n 's/^call [0-9]*, why: //p' out > got
    printf '%s\n' 'no complaint' 'no complaint' 'refused 23 at 0x00000018: STMOD with mode 3' 'refused 23 at 0x00000018: STMOD with mode 3' > wanted
    same got wanted 'the whys of a capture'
    says out 'call 4, why: refused 23'
    cp out said
    expect 1 run without.capture -o without.result
    same with.result without.result 'a why changes nothing'
    grep -v ', why: ' said | sed 's/^call [0-9]*//' > got
    sed 's/^call [0-9]*//' out > wanted
    same got wanted 'all else that is said'
    expect 1 why with.capture
    test "$(cat out)" = 'refused 23 at 0x00000018: STMOD with mode 3' || fail 'whys among the calls of why'
    set -- $(words with.capture "$calls_at" 4)
    test "$*" = '4 0 0 0' || fail "the words of a why: $*"
    capture_of words.capture 'capture\nwhy word1=1 word2=0xFFFFFFFF word3=3\nwhy word3=1\n'
    round capture words.capture
    says round.txt 'why word1=0x1 word2=0xFFFFFFFF word3=0x3'
    expect 3 run words.capture
    says out 'call 0, why: no complaint'
    capture_of five.capture 'capture\nstate mode=3\nwhy\n'
    expect 3 run five.capture
    says out 'call 0, why: refused at the entry, 5: '
    says out '  out of its range: state mode=3'
    bad_text capture 2 "'why' has no field 'allowance'; it has word1, word2, word3" 'capture\nwhy allowance=1\n'
    why_of_channels
}

# A why is of the unit of the channel that the state holds: of VIF0's memories on channel 0.
why_of_channels() {
    capture_of channels.capture 'capture main-bytes=32 vif0.data-words=8\nwhy\nstart channel=0\nwhy\nstart channel=2\nwhy\nend\n'
    expect 3 run channels.capture
    sed -n 's/^call [0-9]*, why: //p' out > got
    printf '%s\n' 'no complaint' 'refused at the entry, 2: data memory is not 4,096 words, of VIF0 (channel 0) not 1,024' 'no complaint' > wanted
    same got wanted 'whys on three channels'
}

why_options() {
    chain='end qwc=1\nNOP\nNOP\nSTMOD mode=3\n'
    capture_of why.capture "capture main-bytes=32\nstart\nwhy\nrun\n$chain"
    expect 3 why why.capture --allowance 2
    test "$(cat out)" = 'no complaint' || fail 'why --allowance'
    expect 3 why why.capture --allowance=3
    test "$(cat out)" = 'refused 23 at 0x00000018: STMOD with mode 3' || fail 'why before a refused step'
    expect 3 run why.capture --allowance 2 -o half.result
    expect 1 why why.capture --from half.result --no-start
    test "$(cat out)" = 'refused 23 at 0x00000018: STMOD with mode 3' || fail 'why --from'
    expect 1 run why.capture --from half.result --no-start --why
    says out 'call 1, why: no complaint'
    test "$(tail -n 1 out)" = 'refused 23 at 0x00000018: STMOD with mode 3' || fail 'run --from --why'
    expect 1 run why.capture --why -o why.result
    expect 1 run why.capture -o plain.result
    same why.result plain.result 'run --why'
    "$command" run why.capture --why -o - > got 2> err
    same got plain.result 'run --why to standard output'
    says err 'refused 23 at 0x00000018: STMOD with mode 3'
    "$command" why - < why.capture > out 2> err
    test "$?$(cat out)" = '1refused 23 at 0x00000018: STMOD with mode 3' || fail 'why of standard input'
    expect 2 why why.capture -o bad.out
    says err 'unknown option -o; known are --allowance, --from, --no-start'
    expect 2 why why.capture --why
    expect 2 run why.capture --why=1
    says err '--why takes no value'
    expect 2 why missing.capture
    expect 2 why plain.result
    absent bad.out
    head -c $((4 * data_words)) /dev/zero > zero.data
    expect 0 import --data zero.data -o lacks.result
    for words in 'why start' 'run why'; do
        capture_of lacks.capture "capture main-bytes=32\n${words#* }\nend\n"
        expect 2 "${words% *}" lacks.capture --from lacks.result
        says err "lacks.result: has VIF1's data memory: this run begins with VIF1's data memory, VIF1's code memory and log"
    done
    capture_of endless.capture 'capture\nstart\nrun\nnext addr=0\n'
    timeout --foreground --preserve-status -k 20 -s INT 1 "$command" why endless.capture > out 2> err
    test "$?$(cat out)" = '3no complaint' || fail "Ctrl-C: $(cat out err)"
}

# sheet_of FILE TEXT: a sheet of a text in printf's form.
sheet_of() {
    printf '%b' "$2" > of.txt
    expect 0 assemble sheet of.txt -o "$1"
}

# stands_for TEXT TEXT: two sheets with one chain and one meaning, which the chain leaves.
stands_for() {
    sheet_of one.sheet "$1"
    sheet_of other.sheet "$2"
    round sheet one.sheet
    for file in one other; do
        expect 0 build $file.sheet -o $file.chain
        expect 0 meaning $file.sheet -o $file.meant
        expect 0 play $file.sheet -o $file.played
        expect 0 compare $file.meant $file.played
        says out 'equal'
    done
    same one.chain other.chain 'a chain and that of the expansion'
    same one.meant other.meant 'a meaning and that of the expansion'
    same one.played other.played 'a run and that of the expansion'
}

# nested DEPTH REPEAT INSIDE: the text of groups in groups.
nested() {
    if test "$1" = 0; then
        printf '%s' "$3"
    else
        printf 'group repeat=%s\\n%s\\nend' "$2" "$(nested $(($1 - 1)) "$2" "$3")"
    fi
}

# there_and_back FILE: what dump prints of a sheet, valid or refused, is the sheet again.
there_and_back() {
    "$command" dump sheet "$1" > there.txt 2> err
    got=$?
    test $got = 0 || test $got = 1 || fail "exit status $got: dump sheet $1"
    expect 0 assemble sheet there.txt -o back.sheet
    same "$1" back.sheet 'a damaged sheet to text and back'
}

# Groups: the second edition of the sheet.
groups() {
    stands_for 'edition 2\n' ''
    stands_for 'edition 2\nstart addr=1\n' 'start addr=1\n'
    stands_for 'edition 2\ngroup repeat=1\nstart addr=1\nend\n' 'start addr=1\n'
    stands_for 'edition 2\nstart addr=1\ngroup repeat=2\ndata addr=5\nvector 1 2 3 4\ngroup repeat=2\nstart addr=3\ngs\nwrite PRIM 6\nend\nend\nstart addr=4\n' \
        'start addr=1
data addr=5\nvector 1 2 3 4\nstart addr=3\ngs\nwrite PRIM 6\nstart addr=3\ngs\nwrite PRIM 6
data addr=5\nvector 1 2 3 4\nstart addr=3\ngs\nwrite PRIM 6\nstart addr=3\ngs\nwrite PRIM 6\nstart addr=4\n'
    stands_for "edition 2\\n$(nested 8 1 'start addr=7')\\n" 'start addr=7\n'
    stands_for "edition 2\\n$(nested 8 2 'start addr=7')\\n" "$(seq 256 | sed 's/.*/start addr=7\\n/')"
    group_sizes
    group_refusals
    group_damage
    group_texts
    echo "groups: their chains and meanings those of the expansion, eight deep; sizes said; refused with 40 to 45, 49 and 52; damaged at every byte, to text and back; $damaged sheets"
}

# What steps, build and dump say of a sheet of the second edition, and do not say of one of the first.
group_sizes() {
    expect 0 assemble sheet "$here/../examples/groups.sheet.txt" -o groups.sheet
    sizes='6 records and 2 groups in the sheet, 1602 records in its expansion'
    expect 0 steps groups.sheet
    printf '%s\n' '12815 steps' "  $sizes" '  a chain of 89696 bytes, 5606 quadwords' > wanted
    same out wanted 'the steps of groups'
    expect 0 build groups.sheet -o groups.chain
    printf '%s\n' 'groups.chain: a chain of 89696 bytes, 5606 quadwords, 12815 steps' "  $sizes" > wanted
    same out wanted 'what build says of groups'
    test "$(wc -c < groups.chain)" = 89696 || fail 'the chain has another length'
    expect 0 dump groups.sheet
    head -n 3 out > got
    printf '%s\n' "# sheet, $(($(wc -c < groups.sheet))) bytes, 12815 steps" "# $sizes" '# a chain of 89696 bytes, 5606 quadwords' > wanted
    same got wanted 'what dump says of groups'
    sed 's/ *#.*//;/^$/d;s/\(^ *[a-z]*\).*/\1/' out > got
    sed 's/ *#.*//;/^$/d;s/\(^ *[a-z]*\).*/\1/' "$here/../examples/groups.sheet.txt" > wanted
    same got wanted 'the lines of groups, indented'
    sheet_of plain.sheet 'start addr=1\n'
    expect 0 steps plain.sheet
    test "$(cat out)" = '6 steps' || fail 'steps of a sheet of the first edition'
    sheet_of longest.sheet "edition 2\\ngroup repeat=255\\ndata addr=7\\n$(seq 255 | sed 's/.*/vector & 0 0 0\\n/')end\\n"
    expect 0 build longest.sheet -o longest.chain
    says out 'a chain of 1048576 bytes, 65536 quadwords, 261376 steps'
    says out '1 record and 1 group in the sheet, 255 records in its expansion'
    round sheet longest.sheet
    expect 0 play longest.sheet
    says out 'answer 0, done; 261376 steps'
}

# Every refusal that groups have, by every command.
group_refusals() {
    edition='\236\121\0\2\0\0' start='\236\121\4\0\5\0' once='\236\121\5\1\1\0'
    as_sheet s '\236\121\0\3\0\0' && refused_sheet 42 0 s
    as_sheet s '\236\121\0\2\1\0' && refused_sheet 43 0 s
    as_sheet s "$edition$edition" && refused_sheet 41 6 s
    as_sheet s "$edition$once$edition" && refused_sheet 41 12 s
    as_sheet s "$once$start" && refused_sheet 41 0 s
    as_sheet s "$edition$start\236\121\5\0\0\0" && refused_sheet 42 12 s
    as_sheet s "$edition$start\236\121\5\1\0\0" && refused_sheet 43 12 s
    as_sheet s "$edition\236\121\5\377\2\0$start" && refused_sheet 44 18 s
    as_sheet s "$edition\236\121\5\377\2\0$start\236\121" && refused_sheet 44 18 s
    as_sheet s "$edition$once\236\121\5\377\2\0${start}xx" && refused_sheet 44 24 s
    as_sheet s "$edition$once\236\121\5\377\2\0${start}xxxxxx" && refused_sheet 40 24 s
    sheet_of s "edition 2\\n$(nested 9 1 'start addr=7')\\n" && refused_sheet 52 54 s
    sheet_of s "edition 2\\nstart addr=1\\n$(nested 8 255 'start addr=7')\\n" && refused_sheet 49 0 s
    expect 1 dump s
    says out 'refused 49 at offset 0: the chain of the sheet, its groups expanded, is longer than 1,048,576 bytes'
    test "$(grep -c '^ *group repeat=255  # offset' out)" = 8 || fail 'the groups of a sheet refused with 49'
    sheet_of s "edition 2\\ngroup repeat=255\\ndata addr=7\\n$(seq 255 | sed 's/.*/vector & 0 0 0\\n/')end\\nstart addr=0\\n" && refused_sheet 49 0 s
}

# A sheet with groups cut at every byte and broken at every byte, to text and back; and salvaged: the records inside are kept once.
group_damage() {
    sheet_of whole.sheet "edition 2\\nstart addr=1\\ngroup repeat=2\\ncode addr=5\\ninstruction 9\\n$(nested 2 3 'gs\nwrite 1 2\nstart addr=3')\\nend\\n"
    length=$(($(wc -c < whole.sheet))) damaged=0
    for at in $(seq 0 $((length - 1))); do
        slice whole.sheet 0 "$at" > damaged.sheet
        there_and_back damaged.sheet
        for byte in '\0' '\5' '\377'; do
            { slice whole.sheet 0 "$at"; printf '%b' "$byte"; tail -c +$((at + 2)) whole.sheet; } > damaged.sheet
            there_and_back damaged.sheet
        done
        damaged=$((damaged + 4))
    done
    slice whole.sheet 0 $((length - 6)) > damaged.sheet
    expect 1 dump damaged.sheet
    says out 'group repeat=2 members=2  # offset 12, 2 records inside, not all here'
    expect 0 dump whole.sheet
    says out 'group repeat=2  # offset 12, 2 records inside'
    if grep -F 'members=' out >&2; then fail 'members of a whole group'; fi
    salvaged whole.sheet
    sheet_of inside.sheet 'start addr=1\ncode addr=5\ninstruction 9\ngs\nwrite 1 2\nstart addr=3\n'
    same kept.sheet inside.sheet 'the records inside groups, kept once'
    test "$(cat ranges)" = "$(printf '0 6\n12 6\n32 12')" || fail "ranges of a sheet with groups: $(cat ranges)"
}

# Texts that are wrong, and what each is told.
group_texts() {
    bad_text sheet 1 "a group belongs to the second edition: write 'edition 2' as the first line" 'group repeat=2\nstart addr=1\nend\n'
    bad_text sheet 1 "'edition 1': write edition 2; a sheet of the first edition has no such line" 'edition 1\nstart addr=1\n'
    bad_text sheet 1 "'edition 3': write edition 2" 'edition 3\n'
    bad_text sheet 1 "after 'edition' come its number, 2; here are 0" 'edition\n'
    bad_text sheet 2 "'edition' is the first line of a sheet" 'start addr=1\nedition 2\n'
    bad_text sheet 2 "'edition' is the first line of a sheet" 'edition 2\nedition 2\n'
    bad_text sheet 2 'how often? give it as group repeat=200' 'edition 2\ngroup\nend\n'
    bad_text sheet 2 'repeat=256: the field has 8 bits' 'edition 2\ngroup repeat=256\nend\n'
    bad_text sheet 2 'members=65536: the field has 16 bits' 'edition 2\ngroup repeat=1 members=65536\nend\n'
    bad_text sheet 2 "'group' has no field 'addr'; it has repeat, members" 'edition 2\ngroup addr=2\nend\n'
    bad_text sheet 3 "the group that begins here has no 'end'" 'edition 2\ngroup repeat=2\ngroup repeat=2\nstart addr=1\n'
    bad_text sheet 5 "'end' without a group" 'edition 2\ngroup repeat=2\nstart addr=1\nend\nend\n'
    bad_text sheet 3 "after 'end' come no items; here are 1" 'edition 2\ngroup repeat=2\nend 2\n'
    bad_text sheet 3 "'vector' belongs to a record 'data'" 'edition 2\ngroup repeat=2\nvector 1 2 3 4\n'
    bad_text sheet 6 "'vector' belongs to a record 'data'" 'edition 2\ngroup repeat=2\ndata addr=1\nvector 1 2 3 4\nend\nvector 1 2 3 4\n'
    { printf 'edition 2\ngroup repeat=1\n'; yes 'start addr=1' | head -n 65535; } > many.txt
    { cat many.txt; echo end; } > most.txt
    expect 0 assemble sheet most.txt -o most.sheet
    test "$(slice most.sheet 10 2 | od -An -tu2)" -eq 65535 || fail 'the members of the largest group'
    { cat many.txt; printf 'start addr=1\nend\n'; } > more.txt
    expect 2 assemble sheet more.txt -o bad.out
    says err 'more.txt:65538: a group has at most 65535 records: end it, and begin another'
    absent bad.out
    { echo 'edition 2'; yes 'group repeat=1' | head -n 100000; yes end | head -n 100000; } > deep.txt
    expect 0 assemble sheet deep.txt -o deep.sheet
    expect 1 steps deep.sheet
    says err 'refused 46'
    sheet_of given.sheet 'edition 2\ngroup repeat=2 members=7\nstart addr=1\nbyte 1 2\nend\n'
    refused_sheet 44 18 given.sheet
}

# chain_of NAME SCRIPT: the supplier's chain with an edit of its text.
chain_of() {
    sed "$2" "$here/../examples/supplier.chain.txt" > edited.txt
    if test -n "$2" && cmp -s edited.txt "$here/../examples/supplier.chain.txt"; then fail "an edit that changes nothing: $2"; fi
    expect 0 assemble chain edited.txt -o "$1"
}

# checked_so STATUS SCRIPT VERDICT LINE..: the supplier's chain with an edit has the verdict, and these lines are said of it.
checked_so() {
    chain_of edited.chain "$2"
    expect "$1" check all.sheet edited.chain
    test "$(head -n 1 out)" = "edited.chain: $3" || fail "the verdict is '$(head -n 1 out)', not '$3'"
    shift 3
    for line in "$@"; do says out "$line"; done
}

# A supplier's chains beside a sheet: accepted, each kind of difference with both values, no verdict, refused; many at once.
checks() {
    expect 0 assemble sheet "$here/../examples/all-kinds.sheet.txt" -o all.sheet
    expect 0 build all.sheet -o ours.chain
    chain_of short.chain ''
    round chain short.chain
    expect 0 check all.sheet short.chain
    printf '%s\n' 'short.chain: accepted: it leaves what all.sheet means' "  224 bytes, 208 shorter than our chain's 432" \
        "  35 steps, 31 fewer than our chain's 66; 1 packet closed; 28 VIF words, 3 NOPs; QWC end 13" > wanted
    same out wanted 'what is said of a chain that is accepted'
    expect 0 check all.sheet ours.chain
    printf '%s\n' 'ours.chain: accepted: it leaves what all.sheet means' '  432 bytes, as long as our chain' '  66 steps, as many as our chain; 1 packet closed; 52 VIF words, 17 NOPs; QWC cnt 19' > wanted
    same out wanted 'what is said of our own chain'
    check_differences
    check_stops
    check_files
    check_starts
    check_results
    check_rack
    echo "checks: chains accepted, each difference with both values, stopped, refused, beyond their files; memories before; results kept; rows, quiet, JSON"
}

# Each kind of difference, and of several the first.
check_differences() {
    checked_so 1 's/word 0 0x3F800000 0 0x3F800000/word 0x3F800000 0 0 0/' 'different: quadword 16 differs' '  quadword 16 (0x10)' \
        'all.sheet                                edited.chain                             chain - sheet' \
        '    X  0x00000000           0  0                0x3F800000  1065353216  1                +1065353216 counts' \
        '    Y  0x3F800000  1065353216  1                0x00000000           0  0                -1065353216 counts' \
        "  224 bytes, 208 shorter than our chain's 432" "  35 steps, 31 fewer than our chain's 66; 1 packet closed"
    checked_so 1 's/word 5 6 7 8/word 5 6 7 9/' 'different: quadword 0 differs' '+1 count'
    checked_so 1 's/addr=1023/addr=1022/' 'different: quadword 0 differs'
    checked_so 1 's/addr=2047/addr=2046/' 'different: instruction 0 differs' '  instruction 0 (0x0)' '    all.sheet     0x00000000000002FF' \
        '    edited.chain  0x8000033C400002FF'
    checked_so 1 's/0x0005000D/0x0005000C/' 'different: log entry 3 differs' '  log entry 3' \
        '    all.sheet     path 2, register 0x47 TEST_1, value 0x000000000005000D (327693)' \
        '    edited.chain  path 2, register 0x47 TEST_1, value 0x000000000005000C (327692)'
    checked_so 1 's/MSCAL imm=0/NOP/' 'different: the run logged 6 entries, the sheet means 7' \
        'log: all.sheet has 7 entries, edited.chain 6; only all.sheet has 6 to 6, the first of them' \
        '    all.sheet     path 0, register 0x100 MSCAL, value 0x0000000000000000 (0)'
    checked_so 1 '$s/NOP/MSCNT/' 'different: the run logged 8 entries, the sheet means 7' '    edited.chain  path 0, register 0x102 MSCNT, value 0x0000000000000000 (0)'
    checked_so 1 's/eop=1/eop=0/;s/MSCAL imm=0/NOP/;s/0x0005000D/5/;s/addr=2047/addr=5/' 'different: instruction 0 differs' '; no packet closed'
    checked_so 1 's/MSCAL imm=0/NOP/;s/0x0005000D/5/' 'different: log entry 3 differs'
    check_answers
}

# Runs that do not end with done: refused, with the address and the number at fault.
check_answers() {
    checked_so 1 's/STCYCL cl=1 wl=1/STCYCL cl=1 wl=0/' "different: the run's answer is 22: UNPACK with WL 0" '  refused 22 at 0x00000014: UNPACK with WL 0' \
        "  224 bytes, 208 shorter than our chain's 432"
    test "$(tail -n 1 out)" = '  2 steps; no packet closed; 1 VIF word, no NOP; QWC end 13' || fail "the steps of a refused run: $(tail -n 1 out)"
    checked_so 1 '/^  NOP$/{N;s/\(.*\)\n\(.*\)/\2\n\1/;}' "different: the run's answer is 24: $(message 24)" '  refused 24 at 0x0000006C: '
    checked_so 1 's/qwc=13/qwc=12/' "different: the run logged 5 entries, the sheet means 7"
    checked_so 1 's/qwc=13/qwc=14/' "different: the run's answer is 14: payload or pending words lie outside main memory" \
        '  refused 14 at 0x00000000: a tag with QWC 14 where 13 quadwords fit'
    checked_so 1 's/end qwc=13/cnt qwc=13/' "different: the run's answer is 10: TADR lies outside main memory" '  refused 10 at 0x000000E0: TADR 0xE0 lies outside main memory'
}

# message ANSWER: its words.
message() {
    echo "result answer=$1" > message.txt
    "$command" assemble result message.txt -o message.result && "$command" dump message.result | sed -n '1s/.*# //p'
}

# Runs that stop before their end: at an interrupt mark different, by the allowance no verdict.
check_stops() {
    checked_so 1 's/MSCAL imm=2047/MSCAL imm=2047 irq=1/' "different: the run's answer is 91: stopped at an interrupt mark" '  32 steps; 1 packet closed'
    expect 0 check all.sheet short.chain --allowance 35
    for form in '--allowance 34' --allowance=34; do
        # shellcheck disable=SC2086
        expect 3 check all.sheet short.chain $form
        printf '%s\n' "short.chain: no verdict: the run's answer is 90: the step allowance is used" '  the allowance was 34 steps; --allowance gives another' \
            "  224 bytes, 208 shorter than our chain's 432" '  34 steps; 1 packet closed; 27 VIF words, 2 NOPs; QWC end 13' > wanted
        same out wanted 'what is said of a used allowance'
    done
    expect 3 check all.sheet short.chain --allowance 0
    printf 'next addr=0\n' > endless.txt
    expect 0 assemble chain endless.txt -o endless.chain
    expect 3 check all.sheet endless.chain
    says out '  the allowance was 10000000 steps; --allowance gives another'
    expect 2 check all.sheet short.chain --allowance x
}

# What is no chain: a file of a length that no main memory has, text, other files. A chain that is cut is not accepted.
check_files() {
    : > none
    slice ours.chain 0 24 > cut
    head -c 1048592 /dev/zero > long
    for file in none cut long; do
        expect 1 check all.sheet $file -o bad.out
        says err "$file: $(($(wc -c < $file))) bytes, refused 1: main memory has length 0, no multiple of 16 or more than 1,048,576 bytes"
        test ! -s out || fail 'something is said of a chain that is refused'
        absent bad.out
    done
    slice ours.chain 0 416 > cut
    expect 1 check all.sheet cut
    says out "cut: different: the run's answer is 10: TADR lies outside main memory"
    for at in $(seq 0 16 416); do
        slice ours.chain 0 "$at" > cut
        expect 1 check all.sheet cut
    done
    head -c 1048576 /dev/zero > long
    : > none.sheet
    expect 0 check none.sheet long
    says out "long: accepted: it leaves what none.sheet means"
    says out "  1048576 bytes, 1048560 longer than our chain's 16"
    says out '  1 step, as many as our chain; no packet closed'
    expect 2 check all.sheet "$here/../examples/supplier.chain.txt"
    says err 'no chain, but text; assemble it first: tejborun assemble chain '
    echo capture > kind.txt
    expect 0 assemble capture kind.txt -o kind.capture
    expect 2 check all.sheet kind.capture
    says err 'kind.capture: no chain: it begins with the mark of a capture'
    expect 2 check all.sheet missing
    expect 2 check missing short.chain
    expect 2 check all.sheet short.chain short.chain
    expect 2 check all.sheet all.sheet
    expect 2 check all.sheet
    says err 'too few words'
    expect 1 check "$here/../examples/all-kinds.sheet.txt" short.chain
    says err 'it is text; assemble it first: tejborun assemble sheet '
    expect 1 check short.chain all.sheet
    says err 'short.chain: refused 40 at offset 0: '
    as_sheet bad.sheet '\236\121\4\0\5\0\236\121\6\0\5\0'
    expect 1 check bad.sheet none
    says err 'none: 0 bytes, refused 1: '
    expect 1 check bad.sheet short.chain ours.chain
    test "$(grep -c 'bad.sheet: refused 41 at offset 6: ' err)" = 1 || fail 'a refused sheet is to be said once'
    says out 'short.chain  refused 41'
    says out '2 chains beside bad.sheet: 2 refused'
    expect 0 check all.sheet - < short.chain
    says out '-: accepted: it leaves what all.sheet means'
    expect 0 check - short.chain < all.sheet
}

# The memories that a run begins with: what the sheet leaves as it was has to be left.
check_starts() {
    head -c $((4 * data_words)) /dev/urandom > before.data
    head -c "$code_bytes" /dev/urandom > before.code
    expect 0 check all.sheet short.chain ours.chain --data before.data --code=before.code
    expect 0 check all.sheet short.chain --data before.data
    expect 0 check all.sheet short.chain --code before.code
    printf 'end qwc=2\nSTCYCL cl=1 wl=1\nUNPACK format=V4-32 num=1 addr=9\nword 0 0 0 0\nNOP\nNOP\n' > zero.txt
    expect 0 assemble chain zero.txt -o zero.chain
    : > none.sheet
    expect 0 check none.sheet zero.chain
    head -c $((4 * data_words)) /dev/zero | tr '\0' '\1' > before.data
    expect 1 check none.sheet zero.chain --data before.data
    says out 'zero.chain: different: quadword 9 differs'
    says out '    X  0x01010101    16843009'
    expect 2 check all.sheet short.chain --data before.code.missing
    slice before.data 0 16 > small.data
    expect 2 check all.sheet short.chain --data small.data
    says err "small.data: no dump of VIF1's data memory"
    expect 2 check all.sheet short.chain --data0 before.data
}

# What the run left is what a run of a capture leaves whose main memory is the chain.
check_results() {
    for name in short ours edited; do
        test $name != edited || chain_of edited.chain 's/STCYCL cl=1 wl=1/STCYCL cl=1 wl=0/'
        printf 'capture main-bytes=%d\nstart\nrun\n' $(($(wc -c < $name.chain))) > of.txt
        expect 0 assemble capture of.txt --main $name.chain -o of.capture
        if test $name = edited; then status=1; else status=0; fi
        expect $status run of.capture -o run.result
        expect $status check all.sheet $name.chain -o left.result
        same left.result run.result 'what the run left'
        expect $status check all.sheet $name.chain -o - > /dev/null
        same out run.result 'what the run left, on standard output'
        says err "$name.chain: "
    done
    expect 3 check all.sheet short.chain --allowance 34 -o left.result
    expect 0 dump left.result
    says out 'result answer=90 steps=34 packets=1'
    expect 2 check all.sheet short.chain ours.chain -o several.result
    says err '-o takes what the run of one chain left; here are 2'
    absent several.result
    expect 2 check all.sheet short.chain -o short.chain
    expect 2 check all.sheet short.chain -o missing/left.result
    says out 'short.chain: accepted'
}

# Many: a row a chain, the summary, the worst status; quiet; JSON.
check_rack() {
    chain_of late.chain 's/word 0 0x3F800000 0 0x3F800000/word 0x3F800000 0 0 0/'
    chain_of mark.chain 's/MSCAL imm=2047/MSCAL imm=2047 irq=1/'
    chain_of refused.chain 's/STCYCL cl=1 wl=1/STCYCL cl=1 wl=0/'
    chain_of fewer.chain 's/MSCAL imm=0/NOP/'
    : > none
    expect 1 check all.sheet short.chain ours.chain late.chain refused.chain fewer.chain
    printf '%s\n' 'all.sheet: our chain has 432 bytes and takes 66 steps' \
        'chain          verdict         bytes     - ours      steps     - ours  first difference' \
        'short.chain    accepted          224       -208         35        -31' \
        'ours.chain     accepted          432          0         66          0' \
        'late.chain     different         224       -208         35        -31  quadword 16 differs' \
        "refused.chain  different         224       -208          2             the run's answer is 22: UNPACK with WL 0" \
        'fewer.chain    different         224       -208         35        -31  the run logged 6 entries, the sheet means 7' \
        '5 chains beside all.sheet: 2 accepted, 3 different' > wanted
    same out wanted 'the rows of chains'
    expect 0 check all.sheet short.chain ours.chain
    says out '2 chains beside all.sheet: 2 accepted'
    expect 1 check all.sheet short.chain mark.chain late.chain
    says out '3 chains beside all.sheet: 1 accepted, 2 different'
    expect 3 check all.sheet short.chain endless.chain late.chain --allowance 100
    says out '3 chains beside all.sheet: 1 accepted, 1 different, 1 no verdict'
    expect 2 check all.sheet short.chain mark.chain none missing
    says out 'none         refused 1'
    says out 'missing      not read'
    says out '4 chains beside all.sheet: 1 accepted, 1 different, 1 refused, 1 not read'
    for words in '0 short.chain' '1 late.chain' '1 short.chain none' '1 mark.chain late.chain' '3 endless.chain late.chain' '2 missing late.chain'; do
        set -- $words
        wanted=$1
        shift
        expect "$wanted" check all.sheet "$@" --quiet
        test ! -s out || fail '--quiet says something'
    done
    odd=$(printf 'na"m\\e\t<&>\377')
    cp short.chain "$odd"
    expect 2 check all.sheet "$odd" late.chain refused.chain fewer.chain mark.chain none missing --json
    well_formed json out
    says out '"sheet": {"file": "all.sheet", "chain_bytes": 432, "chain_steps": 66, "entries": 7},'
    says out '"na\"m\\e\u0009<&>\uFFFD", "verdict": "accepted", "status": 0, "bytes": 224, "entries": 7, "steps": 35, "packets": 1, "words": 28, "nops": 3, "nop_share": {"nops": 3, "words": 28}, "qwc": {"refe": 0, "cnt": 0, "next": 0, "ref": 0, "refs": 0, "call": 0, "ret": 0, "end": 13, "all": 13}}'
    says out '"difference": {"kind": "quadword", "number": 16, "words": "quadword 16 differs", "expected": ["0x00000000", "0x3F800000", "0x00000000", "0x3F800000"], "found": ["0x3F800000", "0x00000000", "0x00000000", "0x00000000"]}}'
    says out '"difference": {"kind": "answer", "number": 22, "words": "the run'"'"'s answer is 22: UNPACK with WL 0", "why": "refused 22 at 0x00000014: UNPACK with WL 0"}}'
    says out '"difference": {"kind": "entries", "number": 6, "words": "the run logged 6 entries, the sheet means 7"}}'
    says out '"verdict": "different", "status": 1, "bytes": 224, "entries": 6, "steps": 32, "packets": 1, "words": 25, "nops": 1, '
    says out '"difference": {"kind": "answer", "number": 91, "words": "the run'"'"'s answer is 91: stopped at an interrupt mark"}}'
    says out '"verdict": "refused", "status": 1, "refusal": 1, "offset": 0}'
    says out '"verdict": "not read", "status": 2}'
    says out '"summary": {"chains": 7, "accepted": 1, "different": 4, "no_verdict": 0, "refused": 1, "not_read": 1},'
    expect 1 check bad.sheet short.chain --json
    well_formed json out
    says out '"sheet": {"file": "bad.sheet"},'
    says out '"verdict": "refused", "status": 1, "refusal": 41, "offset": 6}'
    expect 0 check all.sheet short.chain --json -o left.result
    well_formed json out
}

# total FILE FIELD: a field of totals as text, 0 where it is not there.
total() {
    "$command" dump totals "$1" | tr ' ' '\n' | sed -n "s/^$2=//p" | grep . || echo 0
}

# totals_are FILE LINE: the totals as text.
totals_are() {
    "$command" dump totals "$1" | sed 's/  #.*//' > got
    echo "totals $2" > wanted
    same got wanted "the totals of $1"
}

# Totals of many runs: from results and captures, as a table, JSON and text; all or nothing.
totals() {
    expect 0 assemble sheet "$here/../examples/all-kinds.sheet.txt" -o all.sheet
    expect 0 play all.sheet -o played.result
    says out 'answer 0, done; 66 steps; 1 packet closed; 52 VIF words, 17 NOPs; QWC cnt 19'
    expect 0 dump played.result
    says out 'result answer=0 steps=66 packets=1 words=52 nops=17 qwc.cnt=19 log-entries='
    totals_shown
    totals_of_captures
    totals_kept
    totals_full
    totals_many
    counts_shown
    echo "totals: of results and of each run of captures, a hundred files; QWC, VIF words, NOPs, packets and the NOP share; 54 and bad files leave them as they were; text, JSON, page"
}

totals_shown() {
    rm -f month
    expect 0 totals month add played.result --new
    says out 'month: 1 run of 1 file added, 1 in all'
    expect 0 totals month
    printf '%s\n' 'month: 1 run' '  QWC refe                         0' '  QWC cnt                         19' '  QWC next                         0' \
        '  QWC ref                          0' '  QWC refs                         0' '  QWC call                         0' \
        '  QWC ret                          0' '  QWC end                          0' '  QWC in all                      19' \
        '  VIF words                       52' '  NOPs                            17' '  packets                          1' '  NOP share     17/52' > wanted
    same out wanted 'totals as a table'
    test "$(wc -c < month)" -eq 100 || fail 'a totals file has 100 bytes'
    test "$(slice month 0 4)" = TTL1 || fail 'the mark of a totals file'
    totals_are month 'runs=1 packets=1 words=52 nops=17 qwc.cnt=19'
    round totals month
    expect 0 totals month --json
    well_formed json out
    says out '"file": "month", "runs": 1,'
    says out '"packets": 1, "words": 52, "nops": 17, "nop_share": {"nops": 17, "words": 52}, "qwc": {"refe": 0, "cnt": 19, "next": 0, "ref": 0, "refs": 0, "call": 0, "ret": 0, "end": 0, "all": 19}'
    expect 0 totals - < month
    says out '-: 1 run'
    expect 0 totals new-month add --new
    says out 'new-month: 0 runs of 0 files added, 0 in all'
    expect 0 totals new-month
    says out '  NOP share     0/1'
    totals_are new-month 'runs=0 packets=0 words=0 nops=0'
    for words in '10 4 2/5' '7 0 0/1' '0 0 0/1' '6 6 1/1'; do
        set -- $words
        echo "totals words=$1 nops=$2" > share.txt
        expect 0 assemble totals share.txt -o share
        expect 0 totals share
        says out "  NOP share     $3"
    done
    echo 'totals qwc.refe=0xFFFFFFFFFFFFFFFF qwc.cnt=0xFFFFFFFFFFFFFFFF qwc.next=0xFFFFFFFFFFFFFFFF qwc.ref=0xFFFFFFFFFFFFFFFF qwc.refs=0xFFFFFFFFFFFFFFFF qwc.call=0xFFFFFFFFFFFFFFFF qwc.ret=0xFFFFFFFFFFFFFFFF qwc.end=0xFFFFFFFFFFFFFFFF' > most.txt
    expect 0 assemble totals most.txt -o most
    round totals most
    expect 0 totals most
    says out '  QWC in all   147573952589676412920'
    says out '  QWC end       18446744073709551615'
    totals_texts
}

totals_texts() {
    bad_text totals 1 "'result': the line is 'totals'" 'result\n'
    bad_text totals 2 "'totals': totals are one line" 'totals\ntotals\n'
    bad_text totals 1 "'totals' has no field 'steps'; it has runs, packets, words, nops, qwc.refe, qwc.cnt, qwc.next, qwc.ref, qwc.refs, qwc.call, qwc.ret, qwc.end" 'totals steps=1\n'
    bad_text result 1 "words=0x10000000000000000: the field has 64 bits" 'result words=0x10000000000000000\n'
    : > nothing.txt
    expect 2 assemble totals nothing.txt -o bad.out
    says err "nothing.txt: has no line 'totals'"
}

# A capture of several runs, stopped, refused and on each channel: each is added. The same runs one after another, as results, give the same.
totals_of_captures() {
    cat > several.txt <<'END'
capture
start
run allowance=3
run
start channel=2 tadr=0x40
run
start channel=0 tadr=0x80
run
start channel=7
run
end qwc=2
  NOP
  STROW
    word 0 0
    word 0 0
  NOP irq=1
  STMOD mode=3
at 0x40
end qwc=1
giftag nloop=0 eop=1
at 0x80
cnt qwc=1
  NOP
  NOP num=5
  ITOP itop=1
  NOP
end qwc=0
END
    expect 0 assemble capture several.txt -o several.capture
    expect 1 run several.capture -o several.result
    says out 'call 1, run with allowance 3: answer 90, the step allowance is used; 3 steps; no packet closed; 2 VIF words, 1 NOP; QWC end 2'
    says out 'call 2, run without limit: answer 91, stopped at an interrupt mark; 5 steps; no packet closed; 5 VIF words, 1 NOP; QWC 0'
    says out 'call 4, run without limit: answer 0, done; 2 steps; 1 packet closed; no VIF word; QWC end 1'
    says out 'call 6, run without limit: answer 0, done; 6 steps; no packet closed; 4 VIF words, 3 NOPs; QWC cnt 1'
    says out 'call 8, run without limit: answer 0, done; 0 steps; no packet closed; no VIF word; QWC 0'
    rm -f month
    expect 0 totals month add several.capture --new
    test "$(cat out)" = 'month: 5 runs of 1 file added, 5 in all' || fail "what is said of a capture that is added: $(cat out)"
    test ! -s err || fail "said of a capture that is added: $(cat err)"
    totals_are month 'runs=5 packets=1 words=11 nops=5 qwc.cnt=1 qwc.end=3'
    expect 0 totals month add several.capture --allowance 1
    totals_are month 'runs=10 packets=1 words=13 nops=7 qwc.cnt=2 qwc.end=6'
    expect 0 totals month add several.result played.result
    says out 'month: 2 runs of 2 files added, 12 in all'
    totals_are month 'runs=12 packets=2 words=65 nops=24 qwc.cnt=21 qwc.end=6'
    expect 0 assemble capture "$here/../examples/paths.capture.txt" -o paths.capture
    rm -f month
    expect 0 totals month add paths.capture --new
    totals_are month 'runs=2 packets=2 words=8 nops=5 qwc.end=8'
    expect 0 meaning all.sheet -o meant
    cp month before
    expect 0 totals month add meant
    test "$(total month runs)" = 3 && test "$(total month words)" = "$(total before words)" || fail "a sheet's meaning is added"
    printf 'capture\nstart\nrun\nnext addr=0\n' > endless.txt
    expect 0 assemble capture endless.txt -o endless.capture
    cp month before
    timeout --foreground --preserve-status -k 20 -s INT 1 "$command" totals month add played.result endless.capture > out 2> err
    test $? = 3 || fail "Ctrl-C: $(cat err)"
    says err 'endless.capture: interrupted'
    same month before 'totals where a capture is interrupted'
}

# Nothing is added where a file is bad, given twice, or the totals themselves.
totals_kept() {
    rm -f month
    expect 2 totals month add played.result
    says err 'month: cannot be opened: No such file or directory; --new begins new totals'
    says err 'nothing is added to month'
    absent month
    expect 2 totals month
    expect 0 totals month add played.result --new
    expect 2 totals month add several.result --new
    says err 'month: is there already: leave --new out to add to it'
    cp month before
    cp played.result again.result
    ln -sf played.result link.result
    head -c 500 played.result > cut.result
    for words in 'played.result played.result' 'played.result link.result' 'played.result missing' 'played.result cut.result again.result' 'month' 'played.result all.sheet' \
        'played.result before' 'several.txt' 'played.result reset.state' ''; do
        # shellcheck disable=SC2086
        expect 2 totals month add $words
        same month before "totals where '$words' is added"
    done
    expect 2 totals month add played.result before
    says err 'before: no result and no capture: it begins with the mark of totals'
    expect 2 totals month add several.txt
    says err 'several.txt: it is text; assemble it first: '
    expect 2 totals month add played.result link.result
    says err 'are the same file'
    expect 2 totals month add
    says err 'say what is added'
    expect 2 totals month plus played.result
    says err "'plus': after the totals comes add, or nothing"
    expect 2 totals month --new
    expect 2 totals month --allowance 5
    expect 2 totals - add played.result --new
    expect 2 totals missing/month add played.result --new
    slice month 0 99 > cut
    { cat month; printf x; } > longer
    for file in cut longer; do
        cp $file broken
        expect 2 totals broken
        says err "broken: damaged totals: $(($(wc -c < $file))) bytes; they have 100"
        expect 2 totals broken add played.result
        same broken $file 'damaged totals'
    done
    expect 2 totals played.result
    says err 'played.result: no totals: it does not begin with the mark TTL1, but with that of a result'
    expect 2 compare played.result month
    says err 'month: no result: '
    same month before
}

# 54: each sum alone, by a result and by a run of a capture; the file stays byte for byte, also where other files went before.
totals_full() {
    for field in packets words nops qwc.refe qwc.cnt qwc.next qwc.ref qwc.refs qwc.call qwc.ret qwc.end; do
        printf 'totals runs=7 %s=18446744073709551614\n' $field > full.txt
        expect 0 assemble totals full.txt -o full
        result_of one "result steps=18446744073709551615 $field=1"
        result_of two "result $field=2"
        cp full before
        expect 1 totals full add one two
        says err 'two: refused 54: a total would pass 2^64 - 1'
        says err 'nothing is added to full'
        test ! -s out || fail 'something is said of totals that are refused'
        same full before "totals refused with 54 by $field"
        expect 0 totals full add one
        test "$(total full $field)" = 0xFFFFFFFFFFFFFFFF || fail "the most of $field"
        test "$(total full runs)" = 8 || fail 'the runs that were added'
        cp full before
        expect 1 totals full add one
        same full before "totals refused with 54 by $field"
    done
    echo 'totals nops=18446744073709551611' > full.txt
    expect 0 assemble totals full.txt -o full
    cp full before
    expect 1 totals full add played.result several.capture
    says err 'played.result: refused 54: '
    expect 1 totals full add several.capture
    says err 'several.capture: refused 54: '
    same full before 'totals refused with 54 at the last run of a capture'
    echo 'totals runs=18446744073709551615' > full.txt
    expect 0 assemble totals full.txt -o full
    cp full before
    expect 1 totals full add played.result
    says err 'the number of runs would pass 2^64 - 1'
    same full before
}

# A hundred files at once.
totals_many() {
    mkdir -p month-of
    for i in $(seq 100); do
        if test $((i % 2)) = 0; then cp played.result month-of/$i; else cp several.capture month-of/$i; fi
    done
    rm -f month
    expect 0 totals month add --new month-of/*
    says out 'month: 300 runs of 100 files added, 300 in all'
    totals_are month 'runs=300 packets=100 words=3150 nops=1100 qwc.cnt=1000 qwc.end=150'
    expect 0 totals month
    says out '  NOP share     22/63'
    cp month before
    printf x > month-of/99
    expect 2 totals month add month-of/*
    same month before 'totals where the last of a hundred is bad'
}

# The counts in JSON and on the page; a result without has none there.
counts_shown() {
    expect 0 meaning all.sheet -o meant
    expect 0 compare played.result meant --json
    well_formed json out
    says out '"answer": 0, "steps": 66, "packets": 1, "words": 52, "nops": 17, "nop_share": {"nops": 17, "words": 52}, "qwc": {"refe": 0, "cnt": 19,'
    expect 0 report played.result meant -o page.html
    well_formed page page.html
    says page.html '1 packet closed; 52 VIF words, 17 NOPs; QWC cnt 19'
    says page.html '17/52'
    expect 0 report meant played.result -o page.html
    well_formed page page.html
    if grep -F 'NOP share' page.html >&2; then fail 'the NOP share of a meaning'; fi
}

# What is given twice; and every one of 65,536 differences shown in a moment.
repeated() {
    bad_text result 3 'quadword 10 is given twice' 'result\nquadword 10 1 2 3 4\nquadword 10 1 2 3 4\n'
    bad_text result 3 'instruction 2047 is given twice' 'result\ninstruction 2047 1\ninstruction 0x7FF 1\n'
    bad_text result 3 'entry 0 is given twice' 'result\nentry 0 path=3 1 1\nentry 0 path=3 1 2\n'
    bad_text capture 3 'quadword 10 is given twice' 'capture\nquadword 10 1 2 3 4\nquadword 10 1 2 3 4\n'
    echo result > long.txt
    cp long.txt other.txt
    seq 0 $((entries - 1)) | sed 's/.*/entry & path=3 1 1/' >> long.txt
    seq 0 $((entries - 1)) | sed 's/.*/entry & path=3 1 2/' >> other.txt
    expect 0 assemble result long.txt -o long
    expect 0 assemble result other.txt -o other
    timeout 10 "$command" compare long other --all > out 2> err
    test $? = 1 || fail 'compare --all takes long'
    test "$(grep -c 'log entry' out)" = $entries || fail 'differences left out'
    echo "repeated: places given twice; $entries differences shown"
}

for name in ${TESTS:-layout state_words usage bench_points meanings refused_sheets examples comparisons damaged_files other_layouts bad_texts entries_used \
    unfinished beginnings one_file outputs dashes repeated rack range_of_quadwords messages long_runs conventions report dumps vif0 packets paths registers whys groups checks totals salvages generated_sheets generated_captures}; do
    "$name"
done
echo "host/test.sh: all as it has to be"
