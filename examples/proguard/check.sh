#!/bin/sh
# examples/proguard/check.sh CONFIG [PROGRAM]: shrinks by CONFIG, has ProGuard shrink the same input under the same new
# names, both without optimisation, and checks ProGuard's output. PROGRAM is bin/cixorradde, or what is given. It prints what check says, and ends
# with its status; 70 where ProGuard or a JDK isn't there. Call it in the folder from which CONFIG's paths are taken.
#
# It works in a new folder, which it names: ours/ is what the program wrote, theirs/ what ProGuard wrote.
set -u

top=$(cd "$(dirname "$0")/../.." && pwd)
config=${1:?usage: examples/proguard/check.sh CONFIG [PROGRAM]}
program=${2:-$top/bin/cixorradde}

fail() {
    echo "check.sh: $*" >&2
    exit 70
}

for tool in proguard java jimage; do command -v "$tool" >/dev/null || fail "$tool isn't on the PATH (Debian: proguard-cli, a JDK)"; done
room=$(mktemp -d)
echo "in $room" >&2

# The config without what it reads and writes, which the program and ProGuard have each for themselves.
awk '/^[ \t]*-(injars|outjars|printmapping|printseeds|printusage|libraryjars|verbose|dontwarn)/ { next } { print }' "$config" >"$room/rules.pro"
input=$(awk '$1 == "-injars" { print $2; exit }' "$config")
[ -d "$input" ] || fail "-injars of $config names no directory here: $input"

{
    printf -- '-injars %s\n-outjars %s/ours\n-printmapping %s/map.txt\n' "$input" "$room" "$room"
    printf -- '-dontoptimize\n'
    cat "$room/rules.pro"
} >"$room/ours.pro"
"$program" shrink "$room/ours.pro" "$room/wit.txt" >&2 || exit

# The classes of the library as ProGuard 6 reads them: those of the JDK, of which only the version is told anew.
modules=$(dirname "$(dirname "$(readlink -f "$(command -v java)")")")/lib/modules
(cd "$room" && jimage extract --dir jdk --include 'regex:/java.base/java/(lang|io)/[A-Za-z]*.class' "$modules") || fail "the JDK's classes can't be read"
find "$room/jdk" -name '*.class' | while read -r file; do printf '\0\0\0\064' | dd of="$file" bs=1 seek=4 conv=notrunc 2>/dev/null; done

# No optimisation, and the names of the mapping, in which methods of two results may share one. ProGuard takes paths from the
# folder of the config.
{
    printf -- '-injars %s\n-outjars %s/theirs\n-libraryjars %s/jdk/java.base\n' "$(cd "$input" && pwd)" "$room" "$room"
    printf -- '-dontoptimize\n-dontnote\n-dontwarn\n-applymapping %s/map.txt\n-printmapping %s/their-map.txt\n' "$room" "$room"
    printf -- '-keeppackagenames\n-overloadaggressively\n'
    cat "$room/rules.pro"
} >"$room/theirs.pro"
proguard "@$room/theirs.pro" >"$room/proguard.log" 2>&1 || fail "ProGuard failed: $room/proguard.log"

{ printf -- '-injars %s\n-outjars %s/theirs\n-printmapping %s/their-map.txt\n' "$input" "$room" "$room"; cat "$room/rules.pro"; } >"$room/check.pro"
"$program" check "$room/check.pro" "$room/wit.txt"
