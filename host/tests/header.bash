# omh.h and the archive have the same functions, for C and for C++. Sourced by tests/host.

declared=$(
    while IFS= read -r line; do
        if [[ $line =~ ^[a-z0-9_]+\ (omh_[a-z0-9_]+)\( ]]; then
            echo "${BASH_REMATCH[1]}"
        fi
    done <host/omh.h | sort
)
exported=$(
    nm -g --defined-only "$archive" | while read -r _ kind name; do
        [ -n "$kind" ] && echo "$name"
    done | sort
)
match 'omh.h declares functions' '*omh_open*' "$declared"
equal 'the archive exports what omh.h declares, and nothing else' "$declared" "$exported"
equal 'tests/header.c has every function' "$declared" "$("$build/header-c" | sort)"
equal 'tests/header.cc has every function' "$declared" "$("$build/header-cc" | sort)"

if command -v clang >/dev/null && command -v clang++ >/dev/null; then
    gives 'clang compiles the host and its header tests' 0 '' \
        make -s -C host BUILD=build/clang CC=clang CXX=clang++ bench headers
    says 'clang compiles the host and its header tests' ''
    equal 'tests/header.c by clang has every function' "$declared" "$("$build/clang/header-c" | sort)"
    equal 'tests/header.cc by clang++ has every function' "$declared" "$("$build/clang/header-cc" | sort)"
else
    echo 'clang is not on this machine: the header is tried with gcc and g++ only'
fi
