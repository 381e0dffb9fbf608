# What is proved when, by one run at a time, and what is said meanwhile. Sourced by tests/tools.

listed=$(<examples/document.txt)$'\n'
file=$PWD/examples/document.omx

# The toolchain with tools/tests/rt in the place of rt.
kit=$scratch/kit/bin
mkdir -p "$kit"
cp tools/tests/rt "$kit"
ln -s "$(dirname "$(dirname "$(readlink -f "$(command -v rt)")")")/toolchain" "$scratch/kit"
cp target/bin/listing "$kit/program"
cp target/staticlib/libomh.a "$kit/archive"
rt version >"$kit/version"
: >"$kit/refused"

# Tests of one command over that toolchain: its status, its text, what it says, and what it asks of rt.
run() { # NAME STATUS OUTPUT SAID CALLS COMMAND..
    local name=$1 status=$2 output=$3 said=$4 calls=$5
    shift 5
    : >"$kit/calls"
    PATH=$kit:$PATH gives "$name" "$status" "$output" "$@" <"$file"
    says "$name" "$said"
    equal "$name, calls of rt" "$calls" "$(tr '\n' ';' <"$kit/calls")"
}

# ---- this tree, where nothing is left to do

run 'a listing with nothing to do' 0 "$listed" '' '' tools/program listing
run 'an archive with nothing to do' 0 '' '' '' tools/archive
run 'make run with nothing to do' 0 $'the text of examples/document.omx: card, status, answer\n'"$listed" '' '' make -s run EXAMPLE=document
closed() { tools/program --build listing <&- >&-; }
run 'closed descriptors' 0 '' '' '' closed

# A copy that cannot be written. Root could, so there it is nobody who runs it.
mkdir "$scratch/sealed"
find crates crates.txt tools target/bin target/made -path 'crates/*/out' -prune -o -type f -exec cp --parents -t "$scratch/sealed" {} +
chmod -R a-w "$scratch/sealed"
nobody=()
[ "$(id -u)" -ne 0 ] || nobody=(setpriv --reuid=65534 --regid=65534 --clear-groups)
run 'the sealed tree is sealed' 1 '' '' '' "${nobody[@]}" test -w "$scratch/sealed/target/made/listing"
run 'a listing in a tree that cannot be written' 0 "$listed" '' '' "${nobody[@]}" "$scratch/sealed/tools/program" listing
run 'something to prove in a tree that cannot be written' 2 '' '*/tools/archive: omh_c has to be proved, and target/ cannot be written' '' \
    "${nobody[@]}" "$scratch/sealed/tools/archive"

# ---- a small tree

tree=$scratch/tree
mkdir "$tree"
cp -R tools "$tree"
for crate in low middle aside listing omh_c; do
    mkdir -p "$tree/crates/$crate/src" "$tree/crates/$crate/must-fail"
    touch "$tree/crates/$crate/src/main.rt"
done
printf '%s\n' '# in any order' 'listing: middle anyhow' 'aside: low' 'middle: low' 'omh_c staticlib: middle' 'low:' >"$tree/crates.txt"
program=("$tree/tools/program" listing)
archive=("$tree/tools/archive")
change() { echo '// more' >>"$tree/crates/$1/src/main.rt"; } # CRATE

run 'a first run' 0 "$listed" $'proving low (1 of 3): [0-9] s\nproving middle (2 of 3): [0-9] s\nproving listing (3 of 3): [0-9] s' \
    'lib low;lib middle;run listing --cpu=x86-64;' "${program[@]}"
run 'nothing changed' 0 "$listed" '' '' "${program[@]}"
touch "$tree"/crates/*/src/main.rt
run 'times changed' 0 "$listed" '' '' "${program[@]}"
rm -r "$tree"/crates/*/out
run 'what rt made removed, as by the gate' 0 "$listed" '' '' "${program[@]}"
change aside
echo more >"$tree/crates/low/must-fail/one.edit"
run 'what it does not rest on changed' 0 "$listed" '' '' "${program[@]}"
mkdir "$tree/crates/middle/proofs"
echo more >"$tree/crates/middle/proofs/Law.antt"
run 'a file more' 0 "$listed" $'proving middle (1 of 2): [0-9] s\nproving listing (2 of 2): [0-9] s' 'lib middle;run listing --cpu=x86-64;' "${program[@]}"
rm "$tree/crates/middle/proofs/Law.antt"
run 'a file less' 0 "$listed" 'proving middle *' 'lib middle;run listing --cpu=x86-64;' "${program[@]}"
echo '# more' >>"$tree/crates.txt"
run 'crates.txt changed' 0 "$listed" 'proving low *' 'lib low;lib middle;run listing --cpu=x86-64;' "${program[@]}"
echo another >"$kit/version"
run 'another toolchain' 0 "$listed" 'proving low *' 'lib low;lib middle;run listing --cpu=x86-64;' "${program[@]}"
rm -r "$tree/target/made"
touch "$kit/unchanged"
run 'what rt has proved already' 0 "$listed" $'proving low (1 of 3): unchanged\nproving middle (2 of 3): unchanged\nproving listing (3 of 3): unchanged' \
    'lib low;lib middle;run listing --cpu=x86-64;' "${program[@]}"
rm "$kit/unchanged"
echo more >>"$tree/target/bin/listing"
run 'another program in its place' 0 "$listed" 'proving listing (1 of 1): [0-9] s' 'run listing --cpu=x86-64;' "${program[@]}"

run 'an archive' 0 '' 'proving omh_c (1 of 1): [0-9] s' 'lib omh_c --cpu=x86-64;' "${archive[@]}"
run 'an archive, nothing changed' 0 '' '' '' "${archive[@]}"
echo more >>"$tree/target/staticlib/libomh.a"
run 'another archive in its place' 0 '' 'proving omh_c *' 'lib omh_c --cpu=x86-64;' "${archive[@]}"
run 'the archive' 0 '' '' '' cmp "$kit/archive" "$tree/target/staticlib/libomh.a"

# On Arm a card's archive is made too, by the same proof; a program runs only under an emulator.
cp -R "$tree" "$scratch/arm"
mkdir "$scratch/machine"
printf '%s\n' '#!/bin/sh' 'echo aarch64' >"$scratch/machine/uname"
chmod +x "$scratch/machine/uname"
arm() { PATH=$scratch/machine:$PATH "$scratch/arm/tools/$1" "${@:2}"; }
run 'an archive on Arm' 0 '' $'proving low *\nproving omh_c (3 of 3): [0-9] s\nproving omh_c (for aarch64): [0-9] s' \
    'lib low;lib middle;lib omh_c --cpu=x86-64;lib omh_c --target aarch64-unknown-linux-gnu;' arm archive
run "a card's archive on Arm" 0 '' '' '' cmp "$kit/archive" "$scratch/arm/target/card/libomh.a"
run 'an archive on Arm, nothing changed' 0 '' '' '' arm archive
if [ ! -x "$scratch/kit/toolchain/bin/qemu-x86_64" ]; then
    run 'a listing on Arm, with no emulator' 2 '' $'proving listing *\ntools/run: on aarch64 a program runs under the Rattle toolchain\'s emulator, and this toolchain has none' \
        'run listing --cpu=x86-64;' arm program listing
fi

change middle
echo middle >"$kit/refused"
for turn in first second; do
    run "a crate that is not proved, the $turn time" 1 '' $'proving middle (1 of 2): FAILED\nrt: middle NOT PROVED' 'lib middle;' "${program[@]}"
done
: >"$kit/refused"
run 'a crate that is proved now' 0 "$listed" 'proving middle *' 'lib middle;run listing --cpu=x86-64;' "${program[@]}"

for words in '' 'a b' '--build'; do
    run "program with the words '$words'" 2 '' 'usage: tools/program \[--build\] NAME' '' "${program[0]}" $words
done
run 'program with no program' 2 '' "*: there is no program 'high' in crates.txt and crates/" '' "${program[0]}" high
run 'archive with a word' 2 '' 'usage: tools/archive' '' "${archive[@]}" omh

# ---- one run at a time

# Starts a command over that toolchain, which proves no more than half as long as `hold` is there.
start() { # NAME COMMAND..
    local name=$1
    shift
    : >"$scratch/$name-said"
    PATH=$kit:$PATH "$@" <"$file" >"$scratch/$name" 2>"$scratch/$name-said" &
}

# One test: how a started command ends, and its text.
ends() { # TEST EXPECTED PROCESS NAME
    wait "$3"
    equal "$1" "$2" "$? $(<"$scratch/$4")"
}

# Waits until a file has a text, ten seconds at most.
comes() { # FILE TEXT
    for _ in {1..200}; do
        ! grep -q -e "$2" "$1" 2>/dev/null || return
        sleep 0.05
    done
}

# Tests of two runs at once: both succeed, and the second waits, says so and finds the work done.
together() { # NAME OUTPUT CALL COMMAND..
    local name=$1 output=$2 call=$3 one two
    shift 3
    : >"$kit/calls"
    touch "$kit/hold"
    start one "$@"
    one=$!
    comes "$kit/calls" "$call"
    start two "$@"
    two=$!
    comes "$scratch/two-said" waiting
    rm "$kit/hold"
    ends "$name, the first" "0 $output" "$one" one
    ends "$name, the second" "0 $output" "$two" two
    match "$name, what the second says" '*: waiting for another run to end' "$(<"$scratch/two-said")"
    equal "$name, calls of rt" "$call" "$(<"$kit/calls")"
}
change listing
together 'two listings at once' "${listed%?}" 'run listing --cpu=x86-64' "${program[@]}"
change omh_c
together 'two archives at once' '' 'lib omh_c --cpu=x86-64' "${archive[@]}"

# The gate holds the same lock while rt removes what is in out/ and proves everything.
equal 'the gate holds the lock' '    flock . rt ci | tee ' "$(sed "s/#.*//; s/'[^']*'//g; s/\"[^\"]*\"//g" .ci/run | grep 'rt ci')"
touch "$kit/hold"
flock "$tree" sh -c 'echo held >"$0/gate"; while [ -e "$0/kit/bin/hold" ]; do sleep 0.05; done' "$scratch" &
comes "$scratch/gate" held
run 'a listing beside the gate, nothing changed' 0 "$listed" '' '' "${program[@]}"
change listing
start one "${program[@]}"
comes "$scratch/one-said" waiting
rm "$kit/hold"
ends 'a listing beside the gate' "0 ${listed%?}" $! one
match 'a listing beside the gate, what it says' $'*: waiting for another run to end\nproving listing (1 of 1): [0-9] s' "$(<"$scratch/one-said")"

# The lock is for making: a program that runs holds none, however long its input takes.
change listing
mkfifo "$scratch/input"
file=$scratch/input start one "${program[@]}"
exec {input}>"$scratch/input"
comes "$scratch/one-said" ' s$'
gives 'a listing that reads holds no lock' 0 '' flock -w 3 "$tree" true
exec {input}>&-
ends 'a listing that reads' '0 refused 9' $! one

# What changes while it is proved is proved again.
change listing
: >"$kit/calls"
touch "$kit/hold"
start one "${program[@]}"
comes "$kit/calls" run
change listing
rm "$kit/hold"
ends 'a change meanwhile' "0 ${listed%?}" $! one
run 'after a change meanwhile' 0 "$listed" 'proving listing *' 'run listing --cpu=x86-64;' "${program[@]}"

# An interrupted run stops what it started, leaves no lock and nothing temporary, and what was made before is as it was; what it was to make is made by the next.
mkdir "$scratch/tmp"
cp "$tree/crates/listing/src/main.rt" "$scratch/before"
change listing
: >"$kit/calls"
touch "$kit/hold"
TMPDIR=$scratch/tmp start one "${program[@]}"
comes "$kit/calls" run
kill $!
ends 'an interrupted run' '1 ' $! one
equal 'an interrupted run, what it says' 'proving listing (1 of 1): interrupted' "$(<"$scratch/one-said")"
gives 'an interrupted run leaves no lock' 0 '' flock -w 3 "$tree" true
equal 'an interrupted run leaves nothing temporary' '' "$(ls "$scratch/tmp")"
rm "$kit/hold"
rmdir "$kit/busy"
cp "$tree/crates/listing/src/main.rt" "$scratch/after"
cp "$scratch/before" "$tree/crates/listing/src/main.rt"
run 'after an interrupted run, the sources as before' 0 "$listed" '' '' "${program[@]}"
cp "$scratch/after" "$tree/crates/listing/src/main.rt"
run 'after an interrupted run' 0 "$listed" 'proving listing (1 of 1): [0-9] s' 'run listing --cpu=x86-64;' "${program[@]}"

# Without flock what is made runs, and nothing else is tried.
mkdir "$scratch/few"
for command in awk cat dirname find grep mktemp readlink rm rt sed setsid sha256sum sort uname; do
    ln -s "$(PATH=$kit:$PATH command -v "$command")" "$scratch/few"
done
run 'a listing without flock' 0 "$listed" '' '' env PATH="$scratch/few" "${program[@]}"
change listing
run 'something to prove without flock' 2 '' '*/tools/program: the command flock (of util-linux) must be on the PATH' '' env PATH="$scratch/few" "${program[@]}"
rm "$scratch/few/rt"
run 'a listing without rt' 2 '' "*/tools/program: the Rattle toolchain's command rt must be on the PATH" '' env PATH="$scratch/few" "${program[@]}"
