# The man pages say what the help texts say: the same usage lines, commands, options and arguments. Sourced by tests/tools.

# A page as plain text, with `== ` before a heading and `usage: ` before each line that begins with \fB.
plain() { # PAGE
    sed -e '/^\.TH/d' -e 's/^\.S[HS] */== /' -e 's/^\.[A-Z][A-Za-z]* *//' -e '/^\./d' -e 's/^\\fB/usage: /' -e 's/\\f[BIRP]//g' -e 's/\\-/-/g' -e 's/"//g' "install/$1.1.in"
}

# The part of a page under its headings that match, without the headings.
under() { # PAGE HEADINGS
    plain "$1" | awk -v wanted="^($2)\$" '/^== / { on = substr($0, 4) ~ wanted; next } on'
}

usages() { sed -n '/^$/q; s/^usage: //; s/^       //; p'; }
names() { grep -o -w -e '--[a-z]*' -e '[A-Z][A-Z0-9]*' | sort -u; }

# Two tests: a help text and the page under these headings.
same() { # NAME HELP PAGE HEADINGS
    local part
    part=$(under "$3" "$4")
    equal "$1: the usage lines of the man page" "$(usages <<<"$2")" "$(sed -n 's/^usage: //p' <<<"$part")"
    equal "$1: the names in the man page" "$(names <<<"$2")" "$(names <<<"$part")"
}

bench=host/build/bench
help=$("$bench" --help)
commands=$(sed -n '/^Commands:/,/^$/s/^  \([a-z]*\) .*/\1/p' <<<"$help")
equal 'the commands of the man page' "$commands" "$(plain bench | sed -n 's/^== \([a-z].*\)/\1/p')"
same 'bench --help' "$help" bench 'NAME|SYNOPSIS|DESCRIPTION|EXIT STATUS|SEE ALSO'
for command in $commands; do
    same "bench $command --help" "$("$bench" "$command" --help)" bench "$command"
done
same 'omh-listing --help' "$(sh install/omh-listing.in --help)" omh-listing '.*'

if command -v groff >/dev/null; then
    for page in bench omh-listing; do
        equal "groff has nothing against the page $page" '' "$(groff -man -ww -z "install/$page.1.in" 2>&1)"
    done
else
    echo 'groff is not on this machine: it is not asked what it has against the man pages'
fi
