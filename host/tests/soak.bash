# bench soak. Sourced by tests/host.

# A pattern for the whole output of a soak without failures.
summary() { # SEED EXCHANGES
    printf 'seed %s\nexchanges         %12s\n' "$1" "$2"
    printf '%-16s  *\n' 'within the bound' enterings contradictions refusals
    printf 'failures                     0\nstatus 0'
}

# Runs a soak; its output with the status in a last line.
soak() { # OPTION..
    "$bench" soak "$@" 2>"$scratch/said"
    echo "status $?"
}

got=$(soak --seed 1 --count 10000 --progress)
match 'a soak' "$(summary 1 10000)" "$got"
says 'the progress of a soak' '*10000 of 10000 exchanges'
[[ $got =~ within\ the\ bound\ +([0-9]+) ]] && within=${BASH_REMATCH[1]}
match 'a soak has exchanges within the bound and others' yes "$( ((5000 < within && within < 10000)) && echo yes)"
[[ $got =~ enterings\ +([0-9]+).*contradictions\ +([0-9]+) ]] && enterings=${BASH_REMATCH[1]} contradictions=${BASH_REMATCH[2]}
match 'a soak has contradictions, and more words that are none' yes \
    "$( ((10000 < contradictions && contradictions < enterings / 2)) && echo yes)"

first=$(soak --seed 2 --count 50)
match 'a short soak' "$(summary 2 50)" "$first"
says 'no progress where standard error is no terminal' ''
equal 'a seed repeats' "$first" "$(soak --count 50 --seed 2)"
other=$(soak --seed 3 --count 50)
equal 'another seed is another soak' yes "$([[ ${first#*within} != "${other#*within}" ]] && echo yes)"
match 'a seed from the clock' "$(summary '*' '[ ]*10')" "$(soak --count 10)"

# Two parts of a soak have what the whole has.
counts() { # OPTION..
    soak "$@" | while read -r -a line; do
        [[ ${line[0]} =~ ^(exchanges|within|enterings|contradictions|refusals)$ ]] && echo "${line[-1]}"
    done
}
mapfile -t whole < <(counts --seed 2 --count 50)
mapfile -t one < <(counts --seed 2 --count 20)
mapfile -t two < <(counts --seed 2 --first 21 --count 30)
for i in 0 1 2 3 4; do
    equal 'a soak in two parts' "${whole[i]}" $((one[i] + two[i]))
done

equal 'options with =' "$first" "$(soak --count=50 --seed=2)"
equal 'leading zeros, and an end of options' "$first" "$(soak --count 050 --seed 02 --)"
misused 'an unknown option' "soak has no option '--cuont'" "$bench" soak --cuont 5
misused 'an unknown option with =' "soak has no option '--coun=5'" "$bench" soak --coun=5
misused 'an option without its number' '--seed takes a number' "$bench" soak --count 5 --seed
misused 'an option with a number that it does not take' '--progress takes no number' "$bench" soak --progress=1
misused 'an argument' 'soak takes options alone' "$bench" soak 5
misused 'an argument after --' 'soak takes options alone' "$bench" soak -- --seed
most=18446744073709551615
misused 'a seed that is no number' "--seed is a number from 0 to $most, not '0x1'" "$bench" soak --seed 0x1
misused 'a seed of no digits' "--seed is a number from 0 to $most, not ''" "$bench" soak --seed=
misused 'a seed that is too large' "--seed is a number from 0 to $most, not '18446744073709551616'" \
    "$bench" soak --seed 18446744073709551616
misused 'a count of 0' "--count is a number from 1 to $most, not '0'" "$bench" soak --count 0
misused 'a count below 0' "--count is a number from 1 to $most, not '-1'" "$bench" soak --count -1
misused 'a first of 0' "--first is a number from 1 to $most, not '0'" "$bench" soak --first 0
misused 'a count past the last exchange' \
    "exchanges go up to $most: with --first ${most%5}4 --count is at most 2, not 3" "$bench" soak --first ${most%5}4 --count 3
misused 'the usual count past the last exchange' '* --count is at most 1, not 10000' "$bench" soak --first $most
match 'the last two exchanges' "$(summary 1 2)" "$(soak --seed 1 --first ${most%5}4 --count 2)"
match 'the largest numbers' "$(summary $most 1)" "$(soak --seed $most --first $most --count 1)"

# A soak finds each impostor, and finds it again when its exchange is repeated.
gives 'no impostor' 0 "$("$bench" soak --seed 4 --count 300)"$'\n' "$build/impostors" soak --seed 4 --count 300
found=$'seed 4\nfailed in exchange *\nn *, m *, t *, x *, statuses *\nto repeat it: bench soak *\n'
found+=$'exchanges *\nfailures                     1\nstatus 1'
while IFS= read -r line; do
    [[ $line =~ is\(\"(.*)\"\) ]] || continue
    export IMPOSTOR="${BASH_REMATCH[1]}"
    got=$("$build/impostors" soak --seed 4 --count 300; echo "status $?")
    match "the impostor: $IMPOSTOR" "$found" "$got"
    [[ $got =~ (failed[^$'\n']*).*to\ repeat\ it:\ bench\ ([^$'\n']*) ]] || continue
    failure=${BASH_REMATCH[1]}
    # The command's words.
    read -r -a again <<<"${BASH_REMATCH[2]}"
    match "the impostor again: $IMPOSTOR" "*$failure*" "$("$build/impostors" "${again[@]}")"
done <host/tests/impostors.c
unset IMPOSTOR
