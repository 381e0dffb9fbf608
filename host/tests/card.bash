# bench card. Sourced by tests/host.

# A frame of exchange 0 and sender 0 for card 3, in hex.
frame() { # LEVEL Q1 Q2 Q3 WORD
    "$bench" frame make 0 0 "$1" "$2" "$3" "$4" 3 "$5"
}

# Document 01's cases: n 4, m 1, the sender tells the cards 1, 2, 3 different words. This is card 3.
{ frame 0 - - - 30; frame 1 1 - - 10; frame 1 2 - - 20; } >"$scratch/differ"
{ frame 0 - - - 30; frame 1 1 - - 10; frame 1 2 - - 10; } >"$scratch/agree"
differ=$'answer -\naccepted\nanswer 30\naccepted\nanswer -\naccepted\n'
agree=$'answer -\naccepted\nanswer 30\naccepted\nanswer -\naccepted\nanswer 10\n'

gives 'the sender tells 10, 20, 30' 0 "$differ" "$bench" card 4 1 0 3 <"$scratch/differ"
says 'the sender tells 10, 20, 30' ''
gives 'the sender tells 10, 10, 30' 0 "$agree" "$bench" card 4 1 0 3 0 <"$scratch/agree"
gives 'the frames that README shows' 0 "$agree" "$bench" card 4 1 0 3 <host/tests/agreeing.frames
gives 'frames in a slow pipe' 0 "$agree" "$bench" card 4 1 0 3 < <(slowly <"$scratch/agree")
gives 'no frame' 0 $'answer -\n' "$bench" card 4 1 0 3 </dev/null
gives 'no LF at the end' 0 $'answer -\naccepted\nanswer 30\n' "$bench" card 4 1 0 3 < <(printf '%s' "$(frame 0 - - - 30)")
gives 'remarks, blank lines and CR LF' 0 $'answer -\naccepted\nanswer 30\naccepted\nanswer -\n' \
    "$bench" card 4 1 0 3 < <(printf '# first\r\n\r\n %s \r\n \t\n#%s\n  # last\n%s' \
        "$(frame 0 - - - 30)" "$(frame 0 - - - 9)" "$(frame 1 1 - - 10)")
for word in 1000000001 -1000000000 2000000000 1000000009; do
    gives "the sender's word $word" 0 $'answer -\naccepted\n' "$bench" card 4 0 0 3 < <(frame 0 - - - "$word")
done
for word in 999999999 -999999999; do
    gives "the sender's word $word" 0 $'answer -\naccepted\nanswer '"$word"$'\n' "$bench" card 4 0 0 3 < <(frame 0 - - - "$word")
done

# Each refusal that a frame can meet, with the field that is wrong, and lines that are not hex: the session goes on.
gives 'frames that are refused' 1 "answer -
refused 9 line 1: the frame's length is 1, not 17 bytes
refused 10 line 2: the mark is 4F4D58, not 4F4D48
refused 11 line 3: the version is 2, not 1
refused 14 line 4 path 0: Q1 is 0, not 255, and level 0 does not use it
refused 12 line 5 path 0: EXCHANGE is 32768, old by 32767: the current is 65535
refused 13 line 6 path 0: EXCHANGE is 32767, ahead by 32768: the current is 65535
refused 13 line 7 path 0 1: EXCHANGE is 0, ahead by 1: the current is 65535
refused 15 line 8 path 1: SENDER is 1, the book's is 0
refused 15 line 9 path 0: RECEIVER is 2, the book's is 3
garbled line 10 column 6: 'n' is no hex digit
garbled line 11 column 5: a byte has two hex digits, here is one
garbled line 13 column 1: a byte has two hex digits, here is one
refused 8 line 14 path 0 2 2 1: level 3 is over M, which is 2
refused 8 line 15 path 0 1 4: card 4 relays, and the last card is 3
refused 8 line 16 path 0 0: card 0 relays, and is the sender
refused 8 line 17 path 0 3: card 3 relays, and is the receiver
refused 8 line 18 path 0 2 2: card 2 relays twice
accepted
answer 30
" "$bench" card 4 2 0 3 65535 <<'FRAMES'
4F
4F4D58 0001 FFFF 00 00 FFFFFF 03 0000001E
4F4D48 0002 FFFF 00 00 FFFFFF 03 0000001E
4F4D48 0001 FFFF 00 00 00FFFF 03 0000001E
4F4D48 0001 8000 00 00 FFFFFF 03 0000001E
4F4D48 0001 7FFF 00 00 FFFFFF 03 0000001E
4F4D48 0001 0000 00 01 01FFFF 03 0000001E
4F4D48 0001 FFFF 01 00 FFFFFF 02 0000001E
4F4D48 0001 FFFF 00 00 FFFFFF 02 0000001E
4F4D no
4F4D4
# passed over
4 F4D
4F4D48 0001 FFFF 00 03 020201 03 0000001E
4F4D48 0001 FFFF 00 02 0104FF 03 0000001E
4F4D48 0001 FFFF 00 01 00FFFF 03 0000001E
4F4D48 0001 FFFF 00 01 03FFFF 03 0000001E
4F4D48 0001 FFFF 00 02 0202FF 03 0000001E
4F4D48 0001 FFFF 00 00 FFFFFF 03 0000001E
FRAMES
says 'frames that are refused' ''
gives 'the sender receives no relays' 1 $'answer -\nrefused 8 line 1 path 3 1: card 3 is the sender, and receives no relays\n' \
    "$bench" card 4 1 3 3 <<<'4F4D48 0001 0000 03 01 01FFFF 03 0000001E'
gives 'a garbled line alone, without its LF' 1 $'answer -\ngarbled line 1 column 3: the byte 00 is no hex digit\n' \
    "$bench" card 4 1 0 3 < <(printf '4F\0')

# What card 3 of n 4, m 1 at exchange 257, with a book for the senders below this number, makes of 17 bytes, written here again.
entering() { # SENDERS LINE BYTE.. as numbers
    local senders=$1 fields age exchange sender level q1 receiver
    shift
    fields=$(reading "${@:2}")
    [[ $fields == EXCHANGE* ]] || { refusal "$fields" "$@"; return; }
    read -r _ exchange _ sender _ level _ q1 _ _ _ _ _ receiver _ <<<"${fields//$'\n'/ }"
    age=$(((257 - exchange) & 65535))
    if ((age > 0)); then
        refusal $((age < 32768 ? 12 : 13)) "$@"
    elif ((sender >= senders || receiver != 3)); then
        refusal 15 "$@"
    elif ((level > 1 || (level == 1 && (sender == 3 || q1 == sender || q1 >= 3)))); then
        refusal 8 "$@"
    else
        echo accepted
    fi
}

due='' due_all='' line=0
while read -r -a numbers; do
    line=$((line + 1))
    due+=$(entering 1 "$line" "${numbers[@]}")$'\n'
    due_all+=$(entering 4 "$line" "${numbers[@]}")$'\n'
    printf '%02X' "${numbers[@]}"
    echo
done < <(damaged 4F4D4800010101000102FFFF0300000005) >"$scratch/damaged"
# What a card makes of them, without the answers, the contradictions and the reasons.
damaged_for() { # T
    "$bench" card 4 1 "$1" 3 257 <"$scratch/damaged" | sed '/^answer/d; /^contradicted/d; s/: .*//'
    echo "status ${PIPESTATUS[0]}"
}
match 'damaged frames, some of which are accepted' *accepted*$'\n' "$due"
equal 'damaged frames' "${due}status 1" "$(damaged_for 0)"
equal 'damaged frames for all books' "${due_all}status 1" "$(damaged_for all)"
equal 'damaged frames of which another book takes one' yes "$([[ $due != "$due_all" ]] && echo yes)"

refused 'no card' '1: N is 0, not 1 to 10' '' "$bench" card 0 0 0 0 </dev/null
refused 'eleven cards' '1: N is 11, not 1 to 10' '' "$bench" card 11 0 0 0 </dev/null
refused 'four rounds' '2: M is 4, over 3' '' "$bench" card 10 4 0 0 </dev/null
refused 'as many rounds as cards' '2: M is 3, not below N, which is 3' '' "$bench" card 3 3 0 0 </dev/null
refused 'a sender that is not there' '3: T is 4, not below N, which is 4' '' "$bench" card 4 1 4 0 </dev/null
refused 'an own card that is not there' '4: P is 18446744073709551615, not below N, which is 4' '' \
    "$bench" card 4 1 0 18446744073709551615 </dev/null

misused 'card with three numbers' 'card takes four or five arguments: N M T P \[EXCHANGE\] or N M all P \[EXCHANGE\]' \
    "$bench" card 4 1 0
misused 'card with six numbers' 'card takes four or five arguments: *' "$bench" card 4 1 0 3 0 0
misused 'N is no number' "N is a number from 0 to *, not 'four'" "$bench" card four 1 0 3
misused 'M is negative' "M is a number from 0 to *, not '-1'" "$bench" card 4 -1 0 3
misused 'T is too large' "T is a number from 0 to *, not '18446744073709551616'" "$bench" card 4 1 18446744073709551616 3
misused 'another word than all' "T is a number from 0 to *, not 'ALL'" "$bench" card 4 1 ALL 3
misused 'P is all' "P is a number from 0 to *, not 'all'" "$bench" card 4 1 0 all
misused 'P is empty' "P is a number from 0 to *, not ''" "$bench" card 4 1 0 ''
misused 'an option of a card' "card has no option '--exchange'" "$bench" card 4 1 0 3 --exchange 5
gives 'leading zeros' 0 $'answer -\n' "$bench" card 04 001 00 03 00000000000000000000007 </dev/null
misused 'EXCHANGE is too large' "EXCHANGE is a number from 0 to 65535, not '65536'" "$bench" card 4 1 0 3 65536

# A line of any length, in the memory that a short one takes: of digits, of blanks around a frame, of no digits, a remark.
long() { # BYTE: ten million of it
    head -c 10000000 /dev/zero | tr '\0' "$1"
}
gives 'lines of ten million bytes' 1 "answer -
refused 9 line 1: the frame's length is 5000000, not 17 bytes
accepted
answer 30
garbled line 3 column 10000001: 'x' is no hex digit
garbled line 5 column 1: 'x' is no hex digit
accepted
answer -
" small card 4 1 0 3 < <(
    long 0; echo
    long ' '; frame 0 - - - 30
    long ' '; echo x
    echo -n '#'; long '#'; echo
    long x; echo
    frame 1 1 - - 31)
gives 'closed standard input' 2 $'answer -\n' bash -c '"$0" card 4 1 0 3 <&-' "$bench"
says 'closed standard input' 'bench: standard input: Bad file descriptor'
wrong 'a full disk' 'standard output: No space left on device' bash -c '"$0" card 4 1 0 3 >/dev/full' "$bench" <"$scratch/agree"

# An answer is there as soon as its frame is: a reader can wait for it before sending the next.
mkfifo "$scratch/to" "$scratch/from"
"$bench" card 4 1 0 3 <"$scratch/to" >"$scratch/from" &
exec {to}>"$scratch/to" {from}<"$scratch/from"
said=''
while IFS= read -r hex; do
    IFS= read -r -t 10 line <&"$from"
    said+="$line "
    (echo "$hex" >&"$to")      # a subshell, as a broken pipe would end this one
    IFS= read -r -t 10 line <&"$from"
    said+="$line "
done <"$scratch/agree"
exec {to}>&- {from}<&-
wait $!
equal 'answers are not held back' 'answer - accepted answer 30 accepted answer - accepted ' "$said"

# ---- two different words on one path

# Two tests: what card 3 of n 6, m 3 tells of these frames, in the sender's book alone and among all.
tells() { # NAME OUTPUT FRAME.., a frame as the words that `frame` takes
    local name=$1 output=$2 words
    shift 2
    for words; do frame $words; done >"$scratch/frames"
    gives "$name" 0 $'answer -\n'"$output" "$bench" card 6 3 0 3 <"$scratch/frames"
    gives "$name, among all books" 0 "${output//answer /answer 0 }" "$bench" card 6 3 all 3 <"$scratch/frames"
}
tells 'a second word of the sender, and a third' \
    $'accepted\nanswer 30\naccepted\ncontradicted 0: 30, then -31\nanswer -\naccepted\n' \
    '0 - - - 30' '0 - - - -31' '0 - - - 7'
tells 'a second word by one relay, which changes the answer' \
    $'accepted\nanswer 30\naccepted\nanswer -\naccepted\ncontradicted 0 1: 10, then 20\nanswer 30\naccepted\n' \
    '0 - - - 30' '1 1 - - 10' '1 1 - - 20' '1 1 - - 10'
tells 'a second word by one relay, which changes no answer' \
    $'accepted\nanswer 30\naccepted\naccepted\naccepted\ncontradicted 0 1: 30, then 31\n' \
    '0 - - - 30' '1 1 - - 30' '1 2 - - 30' '1 1 - - 31'
tells 'a second word by two relays, which changes the answer' \
    $'accepted\nanswer 30\naccepted\nanswer -\naccepted\nanswer 30\naccepted\nanswer -\naccepted\nanswer 10\n'\
$'accepted\ncontradicted 0 1 2: 10, then 11\nanswer -\n' \
    '0 - - - 30' '1 1 - - 20' '2 1 2 - 10' '2 1 4 - 10' '1 2 - - 10' '2 1 2 - 11'
tells 'a second word by two relays, which changes no answer' $'accepted\nanswer 30\naccepted\naccepted\ncontradicted 0 4 1: 8, then 9\n' \
    '0 - - - 30' '2 4 1 - 8' '2 4 1 - 9'
tells 'a second word by three relays' $'accepted\naccepted\ncontradicted 0 5 4 1: -8, then -9\n' '3 5 4 1 -8' '3 5 4 1 -9'
tells 'E after a word' $'accepted\nanswer 30\naccepted\ncontradicted 0: 30, then -\nanswer -\naccepted\n' \
    '0 - - - 30' '0 - - - -' '0 - - - 30'
tells 'a word after E' $'accepted\naccepted\naccepted\nanswer 30\n' '0 - - - -' '0 - - - -' '0 - - - 30'
tells 'the same words again' $'accepted\nanswer 30\naccepted\naccepted\naccepted\naccepted\naccepted\n' \
    '0 - - - 30' '0 - - - 30' '1 2 - - 2000000000' '1 2 - - 2000000000' '2 1 2 - 1000000001' '2 1 2 - 1000000001'
tells 'two bad words, both of which read as missing' $'accepted\naccepted\ncontradicted 0 2: 2000000000, then -2147483648\n' \
    '1 2 - - 2000000000' '1 2 - - -2147483648'
tells 'two wrapped words' $'accepted\naccepted\ncontradicted 0 2 1: 1000000001, then 1000000002\n' \
    '2 2 1 - 1000000001' '2 2 1 - 1000000002'
tells 'the word 1000000009, first' $'accepted\naccepted\naccepted\naccepted\n' \
    '0 - - - 1000000009' '0 - - - 1000000009' '0 - - - 30' '0 - - - -'
tells 'the word 1000000009, second' \
    $'accepted\nanswer 30\naccepted\ncontradicted 0: 30, then 1000000009\nanswer -\naccepted\n' \
    '0 - - - 30' '0 - - - 1000000009' '0 - - - 30'
gives "a card's own word" 0 $'answer -\naccepted\nanswer 5\naccepted\ncontradicted 3: 5, then 6\nanswer -\n' \
    "$bench" card 4 1 3 3 < <(for word in 5 6; do "$bench" frame make 0 3 0 - - - 3 $word; done)
gives 'a different word in a frame that is refused' 1 \
    $'answer -\naccepted\nanswer 30\nrefused 13 line 2 path 0: EXCHANGE is 1, ahead by 1: the current is 0\naccepted\n' \
    "$bench" card 4 1 0 3 < <(frame 0 - - - 30; "$bench" frame make 1 0 0 - - - 3 31; frame 0 - - - 30)
gives 'the frames that README shows, with a contradiction' 0 \
    "$agree"$'accepted\ncontradicted 0 1: 10, then 20\nanswer -\n' "$bench" card 4 1 0 3 <host/tests/contradicting.frames

# ---- all books

# A frame of exchange 0 for card 3, in hex.
frame_of() { # SENDER LEVEL Q1 WORD
    "$bench" frame make 0 "$1" "$2" "$3" - - 3 "$4"
}

gives 'all books and no frame' 0 '' "$bench" card 4 1 all 3 </dev/null
says 'all books and no frame' ''

# Document 01's two cases again, by the senders 0 and 2 in turn, and the card's own word; sender 1 is not heard.
{
    frame_of 0 0 - 30; frame_of 2 0 - 30; frame_of 3 0 - -7
    frame_of 0 1 1 10; frame_of 2 1 0 10
    frame_of 0 1 2 20; frame_of 2 1 1 10; frame_of 0 1 2 20
} >"$scratch/turns"
turns=$'accepted\nanswer 0 30\naccepted\nanswer 2 30\naccepted\nanswer 3 -7\n'
turns+=$'accepted\nanswer 0 -\naccepted\nanswer 2 -\naccepted\naccepted\nanswer 2 10\naccepted\n'
gives 'senders in turn' 0 "$turns" "$bench" card 4 1 all 3 <"$scratch/turns"
says 'senders in turn' ''
gives 'senders in turn, from a slow pipe, in little memory' 0 "$turns" small card 4 1 all 3 0 < <(slowly <"$scratch/turns")
gives 'one sender contradicts itself, another does not' 0 \
    $'accepted\nanswer 0 30\naccepted\nanswer 2 30\naccepted\ncontradicted 0: 30, then 31\nanswer 0 -\naccepted\n' \
    "$bench" card 4 1 all 3 < <(frame_of 0 0 - 30; frame_of 2 0 - 30; frame_of 0 0 - 31; frame_of 2 0 - 30)
gives 'frames one after the other, as the help shows' 0 $'accepted\nanswer 0 30\naccepted\nanswer 1 45\n' \
    bash -c "$("$bench" card --help | sed -n '/^  { bench/,/^      bench/p' | sed 's|bench |"$0" |g')" "$bench"

# Among all books each is as it would be alone: words of every kind, on all paths of two rounds, in an order that goes through the senders.
words=(30 -5 30 - 1000000001 30 -5 2000000000 30 7 30)
for i in {0..99}; do
    t=$((i % 5)) q1=$((i / 5 % 5)) q2=$((i / 7 % 5)) word=${words[i / 9 % 11]}
    case $((i % 3)) in
        0) "$bench" frame make 9 $t 0 - - - 4 "$word" ;;
        1) "$bench" frame make 9 $t 1 $q1 - - 4 "$word" ;;
        2) "$bench" frame make 9 $t 2 $q1 $q2 - 4 "$word" ;;
    esac
done >"$scratch/mixed"
told=$("$bench" card 5 2 all 4 9 <"$scratch/mixed")
for t in {0..4}; do
    alone=$(grep -i "^.\{14\}0$t" "$scratch/mixed" | "$bench" card 5 2 $t 4 9 |
        sed -n "2,\$s/^answer /answer $t /p; /^contradicted/p")
    match "sender $t has answers" *"answer $t *"$'\n'* "$alone"
    match "sender $t has contradictions" *"contradicted $t"* "$alone"
    equal "the answers of sender $t among all" "$alone" "$(grep -e "^answer $t " -e "^contradicted $t[ :]" <<<"$told")"
done

# Every sender of ten has an opened book: its word alone is the answer, for the first card and for the last.
for p in 0 9; do
    for t in {0..9}; do "$bench" frame make 65535 $t 0 - - - $p $((t - 5)); done >"$scratch/ten"
    gives "ten senders tell card $p" 0 "$(for t in {0..9}; do printf 'accepted\nanswer %s %s\n' $t $((t - 5)); done)"$'\n' \
        "$bench" card 10 3 all $p 65535 <"$scratch/ten"
done

gives 'frames that all books refuse' 1 "refused 9 line 1: the frame's length is 8, not 17 bytes
refused 10 line 2: the mark is 4F4D58, not 4F4D48
refused 11 line 3: the version is 2, not 1
refused 14 line 4 path 10: SENDER is 10, over 9
refused 12 line 5 path 4: EXCHANGE is 65535, old by 1: the current is 0
refused 13 line 6 path 4: EXCHANGE is 1, ahead by 1: the current is 0
refused 15 line 7 path 4: SENDER is 4, and the last card is 3
refused 15 line 8 path 9 4: SENDER is 9, and the last card is 3
refused 15 line 9 path 2: RECEIVER is 2, the book's is 3
refused 8 line 10 path 2 2: card 2 relays, and is the sender
refused 8 line 11 path 3 1: card 3 is the sender, and receives no relays
garbled line 12 column 5: a byte has two hex digits, here is one
accepted
answer 2 30
" "$bench" card 4 1 all 3 <<'FRAMES'
4F4D48 0001 0000 02
4F4D58 0001 0000 02 00 FFFFFF 03 0000001E
4F4D48 0002 0000 02 00 FFFFFF 03 0000001E
4F4D48 0001 0000 0A 00 FFFFFF 03 0000001E
4F4D48 0001 FFFF 04 00 FFFFFF 03 0000001E
4F4D48 0001 0001 04 00 FFFFFF 03 0000001E
4F4D48 0001 0000 04 00 FFFFFF 03 0000001E
4F4D48 0001 0000 09 01 04FFFF 02 0000001E
4F4D48 0001 0000 02 00 FFFFFF 02 0000001E
4F4D48 0001 0000 02 01 02FFFF 03 0000001E
4F4D48 0001 0000 03 01 01FFFF 03 0000001E
4F4D4
4F4D48 0001 0000 02 00 FFFFFF 03 0000001E
FRAMES
says 'frames that all books refuse' ''
refused 'a sender that is no card of the rack' '15 line 1 path 4: SENDER is 4, and the last card is 3' $'answer -\n' \
    "$bench" card 4 1 0 3 <<<'4F4D48 0001 0000 04 00 FFFFFF 03 0000001E'

refused 'all books of no card' '1: N is 0, not 1 to 10' '' "$bench" card 0 0 all 0 </dev/null
refused 'all books of eleven cards' '1: N is 11, not 1 to 10' '' "$bench" card 11 0 all 0 </dev/null
refused 'all books, four rounds' '2: M is 4, over 3' '' "$bench" card 10 4 all 0 </dev/null
refused 'all books of a card that is not there' '4: P is 4, not below N, which is 4' '' "$bench" card 4 1 all 4 </dev/null
