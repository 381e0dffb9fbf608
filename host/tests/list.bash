# bench list. Sourced by tests/host.

# Document 01's example.
example='4F4D58 0001 04 01 00 00000001000000000000 FFFFFF88 0002 0004 01 000001F4 0004 02 000002BC'
example_lines=$'0 0 -120\n1 0 -120\n2 0 -120\n3 1 -120\nbound held\n'
bytes "$example" >"$scratch/example"

equal "the example's length" 38 "$(stat -c %s "$scratch/example")"
gives "document 01's example, a file" 0 "$example_lines" "$bench" list "$scratch/example"
says "document 01's example, a file" ''
gives "document 01's example, standard input" 0 "$example_lines" "$bench" list - <"$scratch/example"
gives "document 01's example, a slow pipe" 0 "$example_lines" "$bench" list - < <(slowly <"$scratch/example")

# Lists a file with these bytes.
list() { # HEX..
    bytes "$@" >"$scratch/file"
    "$bench" list "$scratch/file"
}

# A file's first 24 bytes.
top() { # N M T STATUSES X NUMBER
    echo "4F4D58 0001 $*"
}

good=00000000000000000000
gives 'one card' 0 $'0 0 7\nbound held\n' list "$(top 01 00 00 $good 00000007 0000)"
gives 'ten cards and the longest text' 0 \
    "$(for card in {0..9}; do echo "$card 0 -999999999"; done)"$'\nbound held\n' \
    list "$(top 0A 03 09 $good C4653601 0000)"
gives 'a manifest sender, the bound not held' 0 $'0 3 -\n1 0 -\nbound not held\n' \
    list "$(top 02 01 00 03000000000000000000 00000007 0000)"
gives 'cards that differ, the sender arbitrary and no relay' 0 $'0 1 4\n1 0 5\n2 0 -6\nbound not held\n' \
    list "$(top 03 00 00 01000000000000000000 00000007 0003)" '0000 00 00000004' '0000 01 00000005' '0000 02 FFFFFFFA'
says 'cards that differ, the sender arbitrary and no relay' ''
gives 'a later exception replaces an earlier one' 0 $'0 2 9\n1 0 9\nbound not held\n' \
    list "$(top 02 00 00 02000000000000000000 00000007 0002)" '0000 00 00000008' '0000 00 00000009'

# So many exceptions for one slot.
many() { # NUMBER SLOT
    local i
    for ((i = 0; i < $1; i++)); do echo "$2 09 00000000"; done
}
gives '64 exceptions' 0 $'0 0 7\n1 0 7\nbound held\n' list "$(top 02 00 00 $good 00000007 0040)" "$(many 64 0456)"

# An exception.
exception() { # SLOT RECEIVER
    printf '%04X %02X 00000005 ' "$1" "$2"
}

# Two tests: an exception of an accepted file changes nothing, and has this note.
noted() { # NAME REASON TOP SLOT RECEIVER
    local text
    text=$(list "$3 0000")
    gives "$1" 0 "$text"$'\n' list "$3 0001" "$(exception "$4" "$5")"
    says "$1" "bench: note: exception 1, slot $4, receiver $5, has no effect: $2"
}

# Six cards and two rounds: card 0 arbitrary, the sender 1 symmetric, card 2 manifest, 3 good, 4 symmetric, 5 arbitrary.
six='06 02 01 01020300020100000000 00000007'
noted 'a level over m' 'level 3 is over M, which is 2' "$(top $six)" 134 2
noted 'a relay that is not there' 'card 6 relays, and the last card is 5' "$(top $six)" 7 0
noted 'a relay that is the sender' 'card 1 relays, and is the sender' "$(top $six)" 2 0
noted 'a relay that is named twice' 'card 5 relays twice' "$(top $six)" 66 0
noted "a good card's" 'card 3 sends on this path, and is good' "$(top $six)" 4 0
noted "a manifest card's" 'card 2 sends on this path, and is manifest' "$(top $six)" 3 0
noted "a symmetric card's for another than receiver 0" \
    'card 1 sends on this path, and is symmetric: all receive the word for receiver 0' "$(top $six)" 0 2
noted 'a receiver that is not there' 'the receiver is not there: the last card is 5' "$(top $six)" 1 6
noted 'a receiver that relays' 'card 4 relays, and is the receiver' "$(top $six)" 51 4
noted 'a receiver that is the sender' 'card 1 is the sender, and receives no relays' "$(top $six)" 51 1
noted 'a path that leaves no card' 'no card is left to receive on this path' \
    "$(top 02 01 00 00020000000000000000 00000007)" 2 0
gives 'exceptions that are replaced' 0 $'0 2 5\n1 0 5\nbound not held\n' \
    list "$(top 02 00 00 02000000000000000000 00000007 0003)" "$(exception 0 0)$(exception 0 0)$(exception 0 0)"
says 'exceptions that are replaced' "$(for i in 1 2; do
    echo "bench: note: exception $i, slot 0, receiver 0, has no effect: exception $((i + 1)) replaces it"
done)"

# Whether one of those six receives the table's word on this path, written here again.
received() { # RECEIVER RELAY..
    local receiver=$1 relay card=1 path=' '
    shift
    for relay; do
        ((relay < 6 && relay != 1)) && [[ $path != *" $relay "* ]] || return 1
        path+="$relay "
        card=$relay
    done
    case $card in
        0 | 5) ((receiver < 6 && receiver != 1)) && [[ $path != *" $receiver "* ]] ;;
        1 | 4) ((receiver == 0)) ;;
        *) return 1 ;;
    esac
}

# Receiver, slot and relays of every path by up to two of the cards 0 to 6, to each of these cards.
places() {
    local p q r
    for p in {0..6}; do
        echo "$p 0"
        for q in {0..6}; do
            echo "$p $((1 + q)) $q"
            for r in {0..6}; do echo "$p $((11 + 10 * q + r)) $q $r"; done
        done
    done
}
due='' got=''
while mapfile -t -n 64 batch && ((${#batch[@]} > 0)); do
    exceptions='' number=0
    for place in "${batch[@]}"; do
        read -r receiver slot relays <<<"$place"
        exceptions+=$(exception "$slot" "$receiver")
        number=$((number + 1))
        received "$receiver" $relays || due+="exception $number, slot $slot, receiver $receiver"$'\n'
    done
    list "$(top $six "$(printf '%04X' "$number")")" "$exceptions" 2>"$scratch/said" >/dev/null
    got+=$(sed 's/^bench: note: \(.*\), has no effect: ..*/\1/' "$scratch/said")$'\n'
done < <(places)
equal 'a note for each exception that no card receives' "$due" "$got"

# Each refusal, with the field that is wrong.
not_listed '65 exceptions' 16 'the listing file has 65 exceptions, over 64' \
    list "$(top 02 00 00 $good 00000007 0041)" "$(many 65 0456)"
not_listed 'a slot over 1,110' 16 'exception 2 has slot 1111, over 1110' \
    list "$(top 02 00 00 $good 00000007 0002)" '0456 09 00000000' '0457 00 00000000'
not_listed 'a receiver over 9' 16 'exception 1 has receiver 10, over 9' \
    list "$(top 02 00 00 $good 00000007 0001)" '0456 0A 00000000'
not_listed 'an empty file' 9 "the listing file's length is 0, under 24 bytes" "$bench" list /dev/null
not_listed 'a file of 23 bytes' 9 "the listing file's length is 23, under 24 bytes" \
    "$bench" list - < <(bytes "$(top 02 00 00 $good 00000007 00)")
not_listed 'a byte too many' 9 "the listing file's length is 39, not the 38 bytes of one with 2 exceptions" list "$example" 00
not_listed 'a byte too few' 9 "the listing file's length is 37, not the 38 bytes of one with 2 exceptions" list "${example%??}"
not_listed 'another mark' 10 "the listing file's mark is 4F4D48, not 4F4D58" list "${example/4F4D58/4F4D48}"
not_listed 'another version' 11 "the listing file's version is 258, not 1" list "${example/0001/0102}"
not_listed 'no card' 1 'N is 0, not 1 to 10' list "$(top 00 00 00 $good 00000007 0000)"
not_listed 'as many rounds as cards' 2 'M is 2, not below N, which is 2' list "$(top 02 02 00 $good 00000007 0000)"
not_listed 'a sender that is not there' 3 'T is 2, not below N, which is 2' list "$(top 02 00 02 $good 00000007 0000)"
not_listed 'a status over 3' 7 'card 1 has status 4, over 3' list "$(top 02 00 00 03040000000000000100 00000007 0000)"
not_listed 'a status from card n up' 7 'card 8 has status 1, not 0, and the last card is 1' \
    list "$(top 02 00 00 03000000000000000100 00000007 0000)"
not_listed 'a value that is not ordinary' 6 'X is -1000000000, not -999999999 to 999999999' \
    list "$(top 02 00 00 $good C4653600 0000)"
not_listed 'zeros in a slow pipe' 10 '*' "$bench" list - < <(for i in {1..20}; do printf '%02000d' 0; sleep 0.01; done)

# A file of any length is read to its end, in the memory that a short one takes.
not_listed 'a file of 100 MB' 9 "the listing file's length is 100000038, not the 38 bytes of one with 2 exceptions" \
    small list - < <(bytes "$example"; head -c 100000000 /dev/zero)
not_listed 'a byte more than the longest' 9 "the listing file's length is 473, not the 472 bytes of one with 64 exceptions" \
    list "$(top 02 00 00 $good 00000007 0040)" "$(many 64 0456)" 00

misused 'list without a file' 'list takes one argument: FILE' "$bench" list
misused 'list with two files' 'list takes one argument: FILE' "$bench" list a b
misused 'an option of list' "list has no option '--file'" "$bench" list --file
wrong 'a file that is called as an option is' '--help: No such file or directory' "$bench" list -- --help
wrong 'a file that is called --' '--: No such file or directory' "$bench" list -- --
wrong 'a file that is not there' "$scratch/none: No such file or directory" "$bench" list "$scratch/none"
wrong 'a directory' "$scratch: Is a directory" "$bench" list "$scratch"
wrong 'closed standard input' 'standard input: Bad file descriptor' bash -c '"$0" list - <&-' "$bench"
wrong 'a full disk' 'standard output: No space left on device' bash -c '"$0" list "$1" >/dev/full' "$bench" "$scratch/example"
wrong 'closed standard output' 'standard output: Bad file descriptor' bash -c '"$0" list "$1" >&-' "$bench" "$scratch/example"
