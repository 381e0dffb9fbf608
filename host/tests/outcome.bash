# bench outcome. Sourced by tests/host, after list.bash, whose `top` and `exception` it takes.

# Writes a listing file with these bytes, and names it.
file() { # NAME HEX..
    bytes "${@:2}" >"$scratch/$1"
    echo "$scratch/$1"
}

# Two tests: a file is an error that names it, and nothing is printed.
not_taken() { # NAME FILE REASON COMMAND..
    local name=$1 file=$2 reason=$3
    shift 3
    gives "$name" 1 '' "$@"
    says "$name" "bench: $file: $reason"
}

gives 'one file' 0 "card         0     1     2          3
status    good  good  good  arbitrary
sender 0  -120  -120  -120       -120
sender 1     -     -     -          -  not set
sender 2     -     -     -          -  not set
sender 3     -     -     -          -  not set
good columns equal
bound held
" "$bench" outcome examples/document.omx
says 'one file' ''
gives 'one card' 0 $'card         0\nstatus    good\nsender 0     7\ngood columns equal\nbound held\n' \
    "$bench" outcome "$(file one "$(top 01 00 00 $good 00000007 0000)")"

# Senders in turn, the third with the longest word, the sender 1 twice; card 1 tells each card another word.
two=00010000000000000000
zero=$(file zero "$(top 03 00 00 $two 00000005 0000)")
one=$(file one "$(top 03 00 01 $two 00000000 0003)" '0000 00 00000006' '0000 01 FFFFFFFF' '0000 02 00000006')
other=$(file other "$(top 03 00 01 $two 00000000 0002)" '0000 00 00000007' '0000 02 FFFFFFF9')
last=$(file last "$(top 03 00 02 $two C4653601 0000)")
head=$'card               0           1           2\nstatus          good   arbitrary        good\n'
gives 'three senders' 0 "${head}sender 0           5           5           5
sender 1           6          -1           6
sender 2  -999999999  -999999999  -999999999
good columns equal
bound not held
" "$bench" outcome "$zero" "$one" "$last"
says 'three senders' ''
differ="${head}sender 0           5           5           5
sender 1           7           -          -7
sender 2  -999999999  -999999999  -999999999
good columns differ: card 0 and card 2 in row 1
bound not held
"
gives 'a row that is set again, and in another order' 0 "$differ" "$bench" outcome "$last" "$one" "$zero" "$other"
gives 'standard input among the files' 0 "$differ" "$bench" outcome "$zero" - "$last" <"$other"
gives 'a slow pipe' 0 "$differ" "$bench" outcome "$zero" "$last" - < <(slowly <"$other")
gives 'a row that is set back' 0 "card         0          1     2
status    good  arbitrary  good
sender 0     -          -     -  not set
sender 1     6         -1     6
sender 2     -          -     -  not set
good columns equal
bound not held
" "$bench" outcome "$one" "$other" "$one"
both=01010000000000000000
gives 'no card is good' 0 "card              0          1
status    arbitrary  arbitrary
sender 0          -          6
sender 1          7          -
good columns equal
bound not held
" "$bench" outcome "$(file of0 "$(top 02 00 00 $both 00000000 0001)" '0000 01 00000006')" \
    "$(file of1 "$(top 02 00 01 $both 00000000 0001)" '0000 00 00000007')"

# Ten cards with faulty ones of each kind, within the bound: arbitrary 1, symmetric 4, manifest 8. Each is sender in turn.
kinds=00010000020000000300
senders=() due=''
for t in {9..0}; do
    words=''
    # the sender's own words, and what the faulty relays 1 and 4 say
    for slot in 0 2 5; do
        for p in {0..9}; do words+=$(printf '%04X %02X %08X' "$slot" "$p" $((slot * 100 + t * 10 + p % 3))); done
    done
    senders+=("$(file "by$t" "$(top 0A 03 "0$t" $kinds "000003E$t" 001E)" "$words")")
    due="sender $t $("$bench" list "${senders[-1]}" 2>/dev/null | sed '/^[0-9]/!d; s/.* //' | paste -s -d ' ')"$'\n'$due
done
table=$("$bench" outcome "${senders[@]}" 2>/dev/null)
equal 'each row has the answers of its listing' "$due" "$(grep ^sender <<<"$table" | tr -s ' ')"$'\n'
match 'a good, a symmetric and a manifest sender among them' \
    *'sender 3 995 995 995 '*'sender 4 40 40 40 '*'sender 8 - - - '* "$due"
equal 'the columns of ten cards' 'card 0 1 2 3 4 5 6 7 8 9
status good arbitrary good good symmetric good good good manifest good' "$(head -n 2 <<<"$table" | tr -s ' ')"
equal 'the columns of ten cards are aligned' 1 "$(head -n 12 <<<"$table" | awk '{ print length }' | sort -u | wc -l)"
equal 'ten cards, below the table' $'good columns equal\nbound held' "$(tail -n +13 <<<"$table")"

# Files of another rack than the first: what differs, and both values.
rest='the files are not of one rack'
four=$(file four "$(top 04 00 00 $two 00000005 0000)")
round=$(file round "$(top 03 01 00 $two 00000005 0000)")
worse=$(file worse "$(top 03 00 00 00010200000000000000 00000005 0000)")
not_taken 'another n' "$four" "N is 4, but 3 in $zero: $rest" "$bench" outcome "$zero" "$four"
not_taken 'another m' "$round" "M is 1, but 0 in $zero: $rest" "$bench" outcome "$zero" "$one" "$round" "$last"
not_taken 'another status' "$worse" "card 2 is symmetric, but good in $zero: $rest" "$bench" outcome "$zero" "$worse"
not_taken 'the other way round' "$zero" "card 2 is good, but symmetric in $worse: $rest" "$bench" outcome "$worse" "$zero"
not_taken 'another n, m and status: the first of them' "$scratch/example" "N is 4, but 3 in standard input: $rest" \
    "$bench" outcome - "$scratch/example" <"$zero"
not_taken 'another rack on standard input' 'standard input' "N is 4, but 3 in $zero: $rest" "$bench" outcome "$zero" - <"$four"

# Refused files, the first or a later one, also of another rack: with the number and the reason that `bench list` tells.
while read -r hex; do
    spoiled=$(file spoiled "$hex")
    "$bench" list "$spoiled" >/dev/null 2>"$scratch/listed"
    reason=$(sed 's/^bench: //' "$scratch/listed")
    not_taken "a first file that is $reason" "$spoiled" "$reason" "$bench" outcome "$spoiled" "$zero"
    not_taken "a later file that is $reason" "$spoiled" "$reason" "$bench" outcome "$zero" "$spoiled"
done <<FILES
${example%??}
${example/4F4D58/4F4D48}
${example/0001/0102}
$(top 02 00 00 $good 00000007 0041) $(many 65 0456 | tr '\n' ' ')
$(top 0B 00 00 $good 00000007 0000)
$(top 02 02 00 $good 00000007 0000)
$(top 02 00 02 $good 00000007 0000)
$(top 02 00 00 04000000000000000000 00000007 0000)
$(top 02 00 00 $good 3B9ACA00 0000)
$(top 02 00 00 $good 00000007 0001) $(exception 1111 0)
FILES
not_taken 'standard input twice' 'standard input' "refused 9: the listing file's length is 0, under 24 bytes" \
    "$bench" outcome - - <"$zero"

# Notes name their file.
gives 'exceptions without effect' 0 $'card         0\nstatus    good\nsender 0     7\ngood columns equal\nbound held\n' \
    "$bench" outcome "$(file plain "$(top 01 00 00 $good 00000008 0000)")" \
    "$(file noted "$(top 01 00 00 $good 00000007 0001)" "$(exception 0 0)")"
says 'exceptions without effect' \
    "bench: $scratch/noted: note: exception 1, slot 0, receiver 0, has no effect: card 0 sends on this path, and is good"

misused 'outcome without a file' 'outcome takes one argument or more: FILE..' "$bench" outcome
misused 'an option of outcome' "outcome has no option '--file'" "$bench" outcome --file "$zero"
wrong 'a file that is called as an option is' '--help: No such file or directory' "$bench" outcome "$zero" -- --help
wrong 'a file that is not there' "$scratch/none: No such file or directory" "$bench" outcome "$zero" "$scratch/none" "$one"
wrong 'a directory' "$scratch: Is a directory" "$bench" outcome "$scratch" "$zero"
wrong 'closed standard input' 'standard input: Bad file descriptor' bash -c '"$0" outcome "$1" - <&-' "$bench" "$zero"
wrong 'a full disk' 'standard output: No space left on device' bash -c '"$0" outcome "$1" >/dev/full' "$bench" "$zero"

# The help's example, as it stands there.
mapfile -t shown < <("$bench" outcome --help | sed -n 's/^  bench outcome /outcome /p')
equal 'the help shows one command' 1 ${#shown[@]}
gives "the help's example" 0 "$(<examples/turns_inside/outcome.txt)"$'\n' bash -c "\"\$0\" ${shown[0]}" "$bench"
