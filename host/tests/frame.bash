# bench frame. Sourced by tests/host.

# What `bench frame show` prints for eight fields.
table() { # EXCHANGE SENDER LEVEL Q1 Q2 Q3 RECEIVER WORD
    printf '%-8s  %s\n' EXCHANGE "$1" SENDER "$2" LEVEL "$3" Q1 "$4" Q2 "$5" Q3 "$6" RECEIVER "$7" WORD "$8"
}

# Made, and shown again as it was given.
made_and_shown() { # HEX FIELD..
    local hex=$1
    shift
    gives "frame make $*" 0 "$hex"$'\n' "$bench" frame make "$@"
    says "frame make $*" ''
    gives "frame show $hex" 0 "$(table "$@")"$'\n' "$bench" frame show "$hex"
    says "frame show $hex" ''
}

made_and_shown 4F4D48000100000000FFFFFF0000000000 0 0 0 - - - 0 0
made_and_shown 4F4D4800010003000102FFFF01FFFFFF88 3 0 1 2 - - 1 -120
made_and_shown 4F4D480001FFFF09020702FF097FFFFFFF 65535 9 2 7 2 - 9 2147483647
made_and_shown 4F4D480001010001030702090880000000 256 1 3 7 2 9 8 -2147483648
made_and_shown 4F4D48000100010503050505053B9ACA03 1 5 3 5 5 5 5 1000000003
made_and_shown 4F4D48000100000000FFFFFF033B9ACA00 0 0 0 - - - 3 -

gives 'an unused relay as 255' 0 $'4F4D4800010003000102FFFF01FFFFFF88\n' "$bench" frame make 3 0 1 2 255 255 1 -120
gives 'the word E as a number' 0 $'4F4D48000100000000FFFFFF033B9ACA00\n' "$bench" frame make 0 0 0 - - - 3 1000000000
gives 'leading zeros' 0 $'4F4D4800010003000102FFFF01FFFFFF88\n' "$bench" frame make 003 00 01 002 0255 - 01 -00120
gives 'minus 0' 0 $'4F4D48000100000000FFFFFF0300000000\n' "$bench" frame make 0 0 0 - - - 3 -0
gives 'fields after --' 0 $'4F4D4800010003000102FFFF01FFFFFF88\n' "$bench" frame make -- 3 0 1 2 - - 1 -120
gives 'bytes with blanks, in one argument' 0 "$(table 3 0 1 2 - - 1 -120)"$'\n' \
    "$bench" frame show ' 4f4d48 0001  0003 00 01 02ffff01 ffffff88 '
gives 'bytes in several arguments' 0 "$(table 3 0 1 2 - - 1 -120)"$'\n' \
    "$bench" frame show 4F4D48 0001 0003 00 01 02FFFF 01 FFFFFF88

# Each field that is not well formed, in making and in reading.
refused 'a sender over 9' '14 path 10: SENDER is 10, over 9' '' "$bench" frame make 0 10 0 - - - 0 0
refused 'a level over 3' '14 path 0 1 2 3: LEVEL is 4, over 3' '' "$bench" frame make 0 0 4 1 2 3 0 0
refused 'a relay over 9' '14 path 0 10: Q1 is 10, over 9, and level 1 uses it' '' "$bench" frame make 0 0 1 10 - - 0 0
refused 'a relay that is missing' '14 path 0 1 255: Q2 is 255, over 9, and level 2 uses it' '' \
    "$bench" frame make 0 0 2 1 - - 0 0
refused 'a relay too many' '14 path 0 1: Q3 is 2, not 255, and level 1 does not use it' '' "$bench" frame make 0 0 1 1 - 2 0 0
refused 'a receiver over 9' '14 path 0: RECEIVER is 255, over 9' '' "$bench" frame make 0 0 0 - - - 255 0
refused 'no bytes' "9: the frame's length is 0, not 17 bytes" '' "$bench" frame show ''
refused '16 bytes' "9: the frame's length is 16, not 17 bytes" '' "$bench" frame show 4F4D4800010003000102FFFF01FFFFFF
refused '18 bytes' "9: the frame's length is 18, not 17 bytes" '' "$bench" frame show 4F4D4800010003000102FFFF01FFFFFF8800
refused 'many bytes' "9: the frame's length is 10000, not 17 bytes" '' "$bench" frame show "$(printf '%020000d' 0)"
refused 'another mark' '10: the mark is 4F4D58, not 4F4D48' '' "$bench" frame show 4F4D5800010003000102FFFF01FFFFFF88
refused 'another version' '11: the version is 256, not 1' '' "$bench" frame show 4F4D4801000003000102FFFF01FFFFFF88
refused 'a form that is wrong' '14 path 0 2: Q3 is 0, not 255, and level 1 does not use it' '' \
    "$bench" frame show 4F4D4800010003000102FF0001FFFFFF88

# Document 01's reading of 17 bytes, written here again: the refusal's number, or the table.
reading() { # BYTE.. as numbers
    local -a byte=("$@") relay
    local i
    ((byte[0] == 0x4F && byte[1] == 0x4D && byte[2] == 0x48)) || { echo 10; return; }
    ((byte[3] == 0 && byte[4] == 1)) || { echo 11; return; }
    ((byte[7] <= 9 && byte[8] <= 3 && byte[12] <= 9)) || { echo 14; return; }
    for ((i = 0; i < 3; i++)); do
        relay[i]=${byte[9 + i]}
        if ((i < byte[8])); then
            ((relay[i] <= 9)) || { echo 14; return; }
        else
            ((relay[i] == 255)) || { echo 14; return; }
            relay[i]=-
        fi
    done
    local exchange=$((byte[5] << 8 | byte[6]))
    local word=$((byte[13] << 24 | byte[14] << 16 | byte[15] << 8 | byte[16]))
    ((word < 1 << 31)) || ((word -= 1 << 32))
    table "$exchange" "${byte[7]}" "${byte[8]}" "${relay[@]}" "${byte[12]}" "$word"
}

# What is printed of a refused frame before the colon.
refusal() { # NUMBER LINE BYTE.. as numbers
    local -a byte=("${@:3}")
    local i
    printf 'refused %s line %s' "$1" "$2"
    if (($1 != 10 && $1 != 11)); then
        printf ' path %s' "${byte[7]}"
        for ((i = 0; i < byte[8] && i < 3; i++)); do printf ' %s' "${byte[9 + i]}"; done
    fi
    echo
}

# Each frame that differs from this one in one bit, or in all bits of one byte: a line of numbers each.
damaged() { # HEX
    local -a byte changed
    local i bits
    for ((i = 0; i < 17; i++)); do byte[i]=$((16#${1:2 * i:2})); done
    for ((i = 0; i < 17; i++)); do
        for bits in 1 2 4 8 16 32 64 128 255; do
            changed=("${byte[@]}")
            ((changed[i] ^= bits))
            echo "${changed[@]}"
        done
    done
}

# Frames of standard input: a damaged frame to a line, an empty line between what is shown of them.
due='' line=0
while read -r -a numbers; do
    line=$((line + 1))
    outcome=$(reading "${numbers[@]}")
    [[ $outcome == EXCHANGE* ]] || outcome=$(refusal "$outcome" "$line" "${numbers[@]}")
    due+=$outcome$'\n\n'
    printf '%02X' "${numbers[@]}"
    echo
done < <(damaged 4F4D480001010001020702FF0880000001) >"$scratch/damaged"
equal 'damaged frames are shown or refused' "${due%$'\n'}status 1" \
    "$("$bench" frame show <"$scratch/damaged" | sed 's/: .*//'; echo "status ${PIPESTATUS[0]}")"

shown=$(table 3 0 1 2 - - 1 -120)$'\n'
gives 'a frame from a pipe is shown as one that is named' 0 "$shown" \
    "$bench" frame show < <("$bench" frame make 3 0 1 2 - - 1 -120)
gives 'no frames' 0 '' "$bench" frame show </dev/null
gives 'garbled lines among frames' 1 "$shown
garbled line 4 column 3: 'x' is no hex digit

refused 9 line 6: the frame's length is 1, not 17 bytes

$shown" "$bench" frame show <<'FRAMES'
# two frames

4F4D48 0001 0003 00 01 02FFFF 01 FFFFFF88
  x 4F
#
4F
4f4d4800010003000102ffff01ffffff88
FRAMES
says 'garbled lines among frames' ''
wrong 'frames that cannot be read' 'standard input: Is a directory' "$bench" frame show <"$scratch"

# A number that its place cannot hold, or that is none.
not_a_number() { # NAME RANGE FIELD..
    local name=$1 range=$2
    shift 2
    misused "frame make $*" "$name is a number from $range, not '*'" "$bench" frame make "$@"
}

not_a_number EXCHANGE '0 to 65535' 65536 0 0 - - - 0 0
not_a_number EXCHANGE '0 to 65535' - 0 0 - - - 0 0
not_a_number SENDER '0 to 255' 0 256 0 - - - 0 0
not_a_number SENDER '0 to 255' 0 -1 0 - - - 0 0
not_a_number LEVEL '0 to 255' 0 0 0x1 - - - 0 0
not_a_number Q1 '0 to 255' 0 0 1 '' - - 0 0
not_a_number Q2 '0 to 255' 0 0 2 1 ' 2' - 0 0
not_a_number Q3 '0 to 255' 0 0 3 1 2 '3 ' 0 0
not_a_number RECEIVER '0 to 255' 0 0 0 - - - 18446744073709551616 0
not_a_number WORD '-2147483648 to 2147483647 or - for E' 0 0 0 - - - 0 2147483648
not_a_number WORD '-2147483648 to 2147483647 or - for E' 0 0 0 - - - 0 -2147483649
not_a_number WORD '-2147483648 to 2147483647 or - for E' 0 0 0 - - - 0 -99999999999999999999
not_a_number WORD '-2147483648 to 2147483647 or - for E' 0 0 0 - - - 0 +1
not_a_number WORD '-2147483648 to 2147483647 or - for E' 0 0 0 - - - 0 1.5

misused 'frame alone' 'frame is followed by make or show' "$bench" frame
misused 'frame with another word' 'frame is followed by make or show' "$bench" frame read 00
misused 'frame make with seven fields' 'frame make takes eight arguments: *' "$bench" frame make 0 0 0 - - - 0
misused 'frame make with nine fields' 'frame make takes eight arguments: *' "$bench" frame make 0 0 0 - - - 0 0 0
misused 'a letter that is no digit' "HEX, column 4: 'G' is no hex digit" "$bench" frame show '4F G0'
misused 'a second digit that is none' "HEX, column 2: 'x' is no hex digit" "$bench" frame show 0x4F
misused 'a control character' 'HEX, column 3: the byte 0A is no hex digit' "$bench" frame show $'4F\n4D'
misused 'half a byte at the end' 'HEX, column 3: a byte has two hex digits, here is one' "$bench" frame show 4F4
misused 'half a byte before a blank' 'HEX, column 1: a byte has two hex digits, here is one' "$bench" frame show '4 F4D'
wrong 'a frame that cannot be written' 'standard output: No space left on device' \
    bash -c '"$0" frame make 0 0 0 - - - 0 0 >/dev/full' "$bench"
