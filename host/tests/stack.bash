# Every function keeps to the stack that omh.h promises for it, and so does a refused file. Sourced by tests/host.

"$build/draw" 1 20000 >"$scratch/drawn"
"$build/stack" <"$scratch/drawn" >"$scratch/used"
status=$?
equal 'every function keeps to the stack that omh.h promises' 'status 0' "$(grep needs "$scratch/used")status $status"
equal 'tests/stack.c tells of every function, and of a refused file' \
    "$(printf '%s\n' "$declared" omh_list:refused | sort)" "$(cut -d ' ' -f 1 "$scratch/used" | sort)"

# With fewer bytes than its calls took, a function is found out.
while read -r name took of _; do
    [ "$of" = of ] || continue
    less=$(((took - 1) / 16 * 16))
    gives "$name on $less bytes of stack" 1 "$name needs more than $less bytes of stack"$'\n' \
        "$build/stack" "$name" "$less" <"$scratch/drawn"
done <"$scratch/used"
gives 'a function that is not there' 2 '' "$build/stack" omh_none 512 </dev/null
says 'a function that is not there' 'usage: stack \[NAME BYTES\]'
