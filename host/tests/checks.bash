# What the host's tests share: running a command and comparing what it did. Sourced by tests/host.

passed=0 failed=0

# One test: two texts are equal.
equal() { # NAME EXPECTED GOT
    if [[ $2 == "$3" ]]; then
        passed=$((passed + 1))
    else
        failed=$((failed + 1))
        printf 'FAILED: %s: expected %q, got %q\n' "$1" "$2" "$3"
    fi
}

# One test: a text matches a pattern of the shell, which so stands unquoted.
match() { # NAME PATTERN GOT
    if [[ $3 == $2 ]]; then
        passed=$((passed + 1))
    else
        failed=$((failed + 1))
        printf 'FAILED: %s: expected a match of %q, got %q\n' "$1" "$2" "$3"
    fi
}

# One test: the command prints exactly this on standard output and ends with this status.
# What it says on standard error is kept for `says`.
gives() { # NAME STATUS OUTPUT COMMAND..
    local name=$1 status=$2 output=$3
    shift 3
    equal "$name" "${output}status $status" "$("$@" 2>"$scratch/said"; echo "status $?")"
}

# One test: what the last command of `gives` said on standard error.
says() { # NAME PATTERN
    match "$1, standard error" "$2" "$(<"$scratch/said")"
}

# Two tests: wrong usage of a command, whose help is then named.
misused() { # NAME PATTERN BENCH COMMAND ARGUMENT..
    local name=$1 pattern=$2 command=$4
    shift 2
    gives "$name" 2 '' "$@"
    says "$name" "bench: $pattern"$'\n'"bench: try 'bench $command --help'"
}

# Two tests: a file that cannot be read or written.
wrong() { # NAME PATTERN COMMAND..
    local name=$1 pattern=$2
    shift 2
    gives "$name" 2 '' "$@"
    says "$name" "bench: $pattern"
}

# Two tests: a refusal of settings or a frame, with what is printed before it; all of it on standard output.
refused() { # NAME LINE OUTPUT COMMAND..
    local name=$1 line=$2 output=$3
    shift 3
    gives "$name" 1 "${output}refused $line"$'\n' "$@"
    says "$name" ''
}

# Two tests: a listing file is refused, and standard error says why.
not_listed() { # NAME NUMBER REASON COMMAND..
    local name=$1 number=$2 reason=$3
    shift 3
    gives "$name" 1 "refused $number"$'\n' "$@"
    says "$name" "bench: refused $number: $reason"
}

# Runs the bench with 16 MB of memory; the sanitizers' build would take more.
small() { # ARGUMENT..
    bash -c 'ulimit -v 16000 && exec "$@"' small "$build/bench" "$@"
}

# Writes the bytes that are given as hex, blanks between them or not.
bytes() { # HEX..
    local hex i text=''
    hex=$(printf '%s' "$@")
    hex=${hex//[[:space:]]/}
    for ((i = 0; i < ${#hex}; i += 2)); do
        text+="\\x${hex:i:2}"
    done
    printf "$text"
}

# Passes standard input on byte by byte, slowly.
slowly() {
    local byte
    while IFS= read -r byte; do
        printf "\\x$byte"
        sleep 0.005
    done < <(od -An -v -tx1 -w1 | tr -d ' ')
}
