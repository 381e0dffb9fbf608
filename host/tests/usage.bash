# Help texts and the choice of a command. Sourced by tests/host.

# A help text: on standard output, in lines of at most 80 columns, and nothing is done.
helps() { # FIRST-LINE COMMAND..
    local first=$1 name="${*:2}" text line
    shift
    text=$("$bench" "$@" 2>"$scratch/said" </dev/null; echo "status $?")
    match "bench $name" "$first"$'\n'*$'\n'"status 0" "$text"
    says "bench $name" ''
    while IFS= read -r line; do
        [ ${#line} -le 80 ] || equal "bench $name, a line's length" 80 ${#line}
    done <<<"$text"
}

helps 'usage: bench COMMAND *' --help
helps 'usage: bench list FILE' list --help
helps 'usage: bench outcome FILE..' outcome --help
helps 'usage: bench frame make EXCHANGE SENDER LEVEL Q1 Q2 Q3 RECEIVER WORD' frame --help
helps 'usage: bench frame make EXCHANGE SENDER LEVEL Q1 Q2 Q3 RECEIVER WORD' frame make --help
helps 'usage: bench frame make EXCHANGE SENDER LEVEL Q1 Q2 Q3 RECEIVER WORD' frame show 4F --help
helps $'usage: bench card N M T P \\[EXCHANGE\\]\n       bench card N M all P \\[EXCHANGE\\]' card --help
helps 'usage: bench soak \[--seed S\] \[--count C\] \[--first F\] \[--progress\]' soak --help
helps 'usage: bench soak *' soak --count 5 --help
for command in list outcome frame card soak; do
    match "bench --help names $command" *$'\n'"  $command "* "$("$bench" --help)"
done

gives 'the version' 0 "bench $(sed -n 's/^#define OMH_VERSION "\(.*\)"$/\1/p' host/omh.h)"$'\n' "$bench" --version
match 'the version has three numbers' 'bench [0-9]*.[0-9]*.[0-9]*' "$("$bench" --version)"
wrong 'no command' $'no command is given\nbench: try \'bench --help\'' "$bench"
wrong 'an unknown command' $'there is no command \'lists\'\nbench: try \'bench --help\'' "$bench" lists
wrong 'a command of no letters' $'there is no command \'\'\nbench: try \'bench --help\'' "$bench" ''
wrong 'help that cannot be written' 'standard output: No space left on device' \
    bash -c '"$0" --help >/dev/full' "$bench"
