# What `make install` puts in place, what `make uninstall` leaves, and the other targets. Sourced by tests/tools.

version=$(sed -n 's/^#define OMH_VERSION "\(.*\)"/\1/p' host/omh.h)
installed='bin/bench
bin/omh-listing
include/omh.h
lib/libomh.a
lib/pkgconfig/omh.pc
libexec/omh/listing
libexec/omh/run
share/man/man1/bench.1
share/man/man1/omh-listing.1'
files() { (cd "$1" && find . -type f | sed 's,^\./,,' | sort); } # FOLDER

prefix=$scratch/usr
pc=$prefix/lib/pkgconfig/omh.pc
gives 'make install' 0 '' make -s install PREFIX="$prefix" >/dev/null
says 'make install' ''
equal 'the installed files' "$installed" "$(files "$prefix")"
equal "the version in pkg-config's file" "$version" "$(sed -n 's/^Version: //p' "$pc")"
equal 'the newest version in CHANGELOG.md' "$version" "$(sed -n 's/^## //p' CHANGELOG.md | head -n 1)"
equal 'nothing is left to fill in' '' "$(grep -r -I -l '@[A-Z]*@' "$prefix")"

# What pkg-config says of the library; without pkg-config, the file read as it would read it.
flags() {
    if command -v pkg-config >/dev/null; then
        PKG_CONFIG_PATH=${pc%/*} pkg-config --cflags --libs omh
    else
        (eval "$(grep '^[a-z]*=' "$pc")" && eval "echo $(sed -n 's/^Cflags: //p; s/^Libs: //p' "$pc" | tr '\n' ' ')")
    fi
}
cat >"$scratch/first.c" <<'C'
#include <omh.h>
#include <stdio.h>

int main(void)
{
    printf("%s %d\n", OMH_VERSION, (int)omh_read_at(0, 2000000000));
    return omh_wrap(OMH_E) == OMH_E;
}
C
compile() { gcc -Wall -Werror -o "$scratch/first" "$scratch/first.c" $(flags); }
gives 'a C program against what is installed, compiled' 0 '' compile
says 'a C program against what is installed, compiled' ''
gives 'a C program against what is installed, run' 0 "$version 1000000000"$'\n' "$scratch/first"

# The commands, in another folder than the tree.
at() (cd / && exec "$@")
text=$(<examples/document.txt)$'\n'
gives 'the installed bench' 0 "$text" at "$prefix/bin/bench" list - <examples/document.omx
gives 'bench --version' 0 "bench $version"$'\n' "$prefix/bin/bench" --version
gives 'the installed listing program' 0 "$text" at "$prefix/bin/omh-listing" <examples/document.omx
says 'the installed listing program' ''
gives 'the installed listing program, of a refused file' 0 $'refused 9\n' at "$prefix/bin/omh-listing" </dev/null
gives 'the installed listing program, of a directory' 1 '' at "$prefix/bin/omh-listing" </
says 'the installed listing program, of a directory' 'listing: standard input cannot be read'
ln -s "$prefix/bin/omh-listing" "$scratch/link"
gives 'the installed listing program, by a link' 0 "$text" "$scratch/link" <examples/document.omx
gives 'omh-listing --version' 0 "omh-listing $version"$'\n' "$prefix/bin/omh-listing" --version
for words in --helps '--help me' FILE; do
    gives "omh-listing $words" 2 '' "$prefix/bin/omh-listing" $words
    says "omh-listing $words" 'omh-listing: the listing file comes on standard input; see omh-listing --help'
done

# What others have put there stays.
touch "$prefix/bin/other" "$prefix/libexec/omh/other"
gives 'make uninstall' 0 '' make -s uninstall PREFIX="$prefix"
equal 'what make uninstall leaves' $'bin/other\nlibexec/omh/other' "$(files "$prefix")"

stage='a stage'
gives 'make install, staged' 0 '' make -s install DESTDIR="$scratch/$stage" PREFIX=/opt/omh >/dev/null
equal 'the staged files' "$installed" "$(files "$scratch/$stage/opt/omh")"
match 'the staged prefix' 'prefix=/opt/omh'$'\n*' "$(<"$scratch/$stage/opt/omh/lib/pkgconfig/omh.pc")"
gives 'make uninstall, staged' 0 '' make -s uninstall DESTDIR="$scratch/$stage" PREFIX=/opt/omh
equal 'what make uninstall leaves, staged' '' "$(files "$scratch/$stage")"
gives 'make uninstall, of nothing' 0 '' make -s uninstall DESTDIR="$scratch/$stage" PREFIX=/opt/omh
gives 'a folder of its own is removed' 1 '' test -d "$scratch/$stage/opt/omh/libexec/omh"
gives 'a PREFIX that is no full path' 2 '' make -s install PREFIX=usr
says 'a PREFIX that is no full path' "*PREFIX is the full path of a folder, not 'usr'*"

# The other targets.
targets=$(sed -n 's/^\.PHONY: //p' Makefile | tr ' ' '\n')
equal 'make help has every target' "$targets" "$(make -s help | sed -n 's/^\([a-z]*\)  *[a-z].*/\1/p')"
equal 'every target is declared' "$targets" "$(sed -n 's/^\([a-z]*\):.*/\1/p' Makefile)"
mkdir -p "$scratch"/clean/{target,host/build,second/target,crates/low/out}
cp Makefile "$scratch/clean"
touch "$scratch"/clean/{target,host,host/build,second,second/target,crates/low,crates/low/out}/file
gives 'make clean' 0 '' make -s -C "$scratch/clean" clean
equal 'what make clean leaves' $'Makefile\ncrates/low/file\nhost/file\nsecond/file' "$(files "$scratch/clean")"
