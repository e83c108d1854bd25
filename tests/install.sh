#!/usr/bin/env bash
# Installs into build/prefix, compares the calls that archive, header and manual have, with their arguments and questions, compiles the examples and the code
# that the README and the manual show by what pkg-config says alone, runs them and the program, and uninstalls: no file may be left, nor any touched that was
# there before.
set -euo pipefail
cd "$(dirname "$0")/.."
scripts/need python3:python3 nm:binutils
prefix=$PWD/build/prefix
rm -rf "$prefix"
mkdir -p "$prefix/lib" "$prefix/share/man/man3"
echo "not ours" | tee "$prefix/lib/other.a" "$prefix/share/man/man3/other.3" >/dev/null

MAKEFLAGS= make --no-print-directory install PREFIX="$prefix" >build/install.log 2>&1 || { cat build/install.log; exit 1; }
installed=$(find "$prefix" -type f ! -name 'other.*' | wc -l)

# Archive, header and manual have the same calls, one by one: none is left from before, and none is missing.
names() { grep -o 'balluchaw_[a-z]*' | grep -v '^balluchaw_reply$' | sort; }
calls=$(nm -g --defined-only "$prefix/lib/libballuchaw.a" | grep ' T ' | names)
grep -o '^[a-z].* balluchaw_[a-z]*(' "$prefix/include/balluchaw.h" | names | diff <(echo "$calls") -
sed -n '/^\.SH NAME/,/^\.SH SYNOPSIS/p' "$prefix/share/man/man3/balluchaw.3" | names | diff <(echo "$calls") -
sed -n '/^\.SH SYNOPSIS/,/^\.SH DESCRIPTION/p' "$prefix/share/man/man3/balluchaw.3" | names | diff <(echo "$calls") -

# Header and manual declare each call and macro alike, say of each call the same questions in the same order, and tell of the same numbers, each of which
# some call asks.
python3 - "$prefix/include/balluchaw.h" "$prefix/share/man/man3/balluchaw.3" <<'PY'
import re, shlex, sys
header, manual = (open(name).read() for name in sys.argv[1:])
synopsis = manual[manual.index(".SH SYNOPSIS"):manual.index(".SH DESCRIPTION")]
synopsis = "".join("".join(shlex.split(line[4:])) + "\n" for line in synopsis.splitlines() if line.startswith(".BI "))
result = r"(?:uint32_t|balluchaw_reply) balluchaw_\w+"

def declared(text, macro):
    calls = re.findall(result + r"\([^)]*\);", re.sub(r"\s+", " ", text))
    return sorted(calls + re.findall(macro + r"(BALLUCHAW_\w+\([^)]*\))", text))

def asked(pairs):
    return {name: re.findall(r"\d+", re.search(r"\bAsks [^.]*\.", text)[0]) for name, text in pairs}

in_header = asked((name, text) for text, name in re.findall(r"/\*((?:(?!\*/).)*)\*/\n(?=" + result + r")\w+ (\w+)", header, re.S))
in_manual = asked(re.findall(r"^\.BR (balluchaw_\w+) \(\)\n(.*?)^\.(?:TP|SH)", manual, re.S | re.M))
numbers = re.findall(r"^ \*  +(\d+)  ", header, re.M)
pairs = {
    "declarations": (declared(header, "#define "), declared(synopsis, "size_t ")),
    "questions": (in_header, in_manual),
    "calls with questions": (sorted(in_header), sorted(re.findall(r"(\w+)\(", " ".join(re.findall(result + r"\(", header))))),
    "numbers": (numbers, re.findall(r"^ ?([1-9]\d*)  ", manual, re.M)),
    "numbers that are asked": (set(numbers), {number for asks in in_header.values() for number in asks}),
}
for what, (one, other) in pairs.items():
    if one != other or not one:
        sys.exit(f"{what}: {one} in the header, {other} beside it")
PY

cc=${CC:-cc}
strict=(-std=c11 -O2 -Wall -Wextra -Werror)
export PKG_CONFIG_PATH=$prefix/lib/pkgconfig
read -ra flags <<<"$(pkg-config --cflags balluchaw)"
read -ra libraries <<<"$(pkg-config --libs balluchaw)"
mkdir -p build/kit
kit=$PWD/build/kit
compile() { # compile NAME ..: the program of the first name, from the sources of all; outside the repository's folders, so that no other header is met
    (cd "$prefix" && "$cc" "${strict[@]}" "${flags[@]}" "${@/%/.c}" "${libraries[@]}" -o "$1")
}

# What people copy: the example, the README's code and the manual's. First with the machine's random seeds; then with a first one of ten times 2^31 - 1,
# which make turns down, and another whose numbers are allowed only because each fourth byte is masked.
cat > "$kit/chance.c" <<'C'
#include <string.h>
#include <sys/random.h>
ssize_t getrandom(void *bytes, size_t length, unsigned flags) {
    static int calls;
    (void)flags;
    memset(bytes, calls++ == 0 ? 0xff : 0xa5, length);
    return (ssize_t)length;
}
C
cp examples/gateway.c "$kit/"
sed -n '/^```c$/,/^```$/p' README.md | sed '/^```/d' >"$kit/readme.c"
sed -n '/^\.EX/,/^\.EE/p' man/balluchaw.3 | sed '/^\.E[XE]/d; s/\\e/\\/g; s/\\-/-/g' >"$kit/manual.c"
for chance in '' "$kit/chance"; do
    for name in gateway readme manual; do compile "$kit/$name" ${chance:+"$chance"}; done
    timeout 20 "$kit/gateway" "$kit/orders.table" | diff examples/gateway.out -
    timeout 20 "$kit/readme" | diff <(echo "4711: 100 of 500 displayed, at 995") -
    timeout 20 "$kit/manual" | diff <(printf '%s\n' "100 of 500 displayed, at 995" "4711: 400 in reserve" "4720: 600 in reserve") -
done

# The ways down that the kit's descents write, beside those of the reader in Python, which searches by docs/format.md: in the gateway's file, and in tables
# of both versions whose partitions have many chunks. There the way to each order has to give its quantities and its price too.
cp examples/way.c "$kit/"
compile "$kit/way"
ways() { "$kit/way" "$@" | sed 's/;.*//'; }
read_ways() { for key in "${@:2}"; do echo "$key: $(examples/reader.py "$1" path "$key")"; done; }
tried=0
for version in 1 2; do
    if [ $version = 1 ]; then priced=(); else priced=(priced); fi
    build/reference/release/sample 10 2 400 400 80 "${priced[@]}" >"$kit/sample.table"
    examples/reader.py "$kit/sample.table" >"$kit/orders"
    read -ra held <<<"$(cut -d ' ' -f 1 "$kit/orders" | tr '\n' ' ')"
    "$kit/way" "$kit/sample.table" "${held[@]}" | sed 's/^\(.*\): .*; \(.*\) of \(.*\) displayed/\1 \3 \2/; s/, at / /' | diff "$kit/orders" -
    [ ${#held[@]} -eq 400 ]
    [ "$(wc -w <"$kit/orders")" -eq $((400 * (2 + version))) ]
    some=(1 2147483646)
    for i in 0 57 114 171 228 285 342 399; do some+=("${held[i]}" $((held[i] - 1)) $((held[i] + 1))); done
    ways "$kit/sample.table" "${some[@]}" | diff <(read_ways "$kit/sample.table" "${some[@]}") -
    tried=$((tried + ${#some[@]}))
done
ways "$kit/orders.table" 4711 4712 4716 | diff <(read_ways "$kit/orders.table" 4711 4712 4716) -

# The header by itself and its macros, as C and as C++, old and newer; and the gateway as C++.
cat > "$kit/lengths.c" <<'C'
#include <balluchaw.h>
typedef char right[BALLUCHAW_LENGTH(1, 2, 4) == 181 && BALLUCHAW_LENGTH(2, 2, 4) == 213 && BALLUCHAW_ROW(1) == 12 && BALLUCHAW_ROW(2) == 16 ? 1 : -1];
size_t longest(uint32_t version, uint32_t nodes, int blocks);
size_t longest(uint32_t version, uint32_t nodes, int blocks) { return BALLUCHAW_LENGTH(version, nodes, blocks) + BALLUCHAW_ROW(version); }
C
for language in "c -std=c99" "c -std=c11" "c++ -std=c++11" "c++ -std=c++17"; do
    read -ra words <<<"$language"
    clang -x "${words[@]}" -Wall -Wextra -Wpedantic -Wconversion -Werror "${flags[@]}" -fsyntax-only "$kit/lengths.c"
done
clang -x c++ -std=c++11 -Wall -Wextra -Wpedantic -Werror "${flags[@]}" -fsyntax-only "$kit/gateway.c"

# A damaged file and a short one are turned down.
printf '\377' | dd of="$kit/orders.table" bs=1 seek=60 conv=notrunc status=none
must_refuse() { if "$@" >/dev/null 2>&1; then echo "accepted: $*"; exit 1; fi; }
cat > "$kit/checks.c" <<'C'
#include <balluchaw.h>
#include <stdio.h>
int main(void) {
    static uint8_t bytes[1 << 20];
    return balluchaw_check(bytes, fread(bytes, 1, sizeof bytes, stdin)) == 0 ? 0 : 4;
}
C
compile "$kit/checks"
must_refuse "$kit/checks" <"$kit/orders.table"
"$kit/gateway" "$kit/orders.table" >/dev/null
"$kit/checks" <"$kit/orders.table"
head -c 1000 "$kit/orders.table" >"$kit/short.table"
must_refuse "$kit/checks" <"$kit/short.table"

# The program's manual: its commands, with the lines that it shows as typed.
sed -n '/^\.EX/,/^\.EE/p' man/balluchaw.1 | sed '/^\.E[XE]/d; s/\\-/-/g' >"$kit/session"
grep '^[a-z]' "$kit/session" | PATH=$prefix/bin:$PATH bash -euc "$(sed -n 's/^\$ //p' "$kit/session")" | diff <(grep '^[0-9]' "$kit/session") -

MAKEFLAGS= make --no-print-directory --silent uninstall PREFIX="$prefix"
left=$(find "$prefix" ! -type d ! -name 'other.*')
[ -z "$left" ] || { echo "left behind: $left"; exit 1; }
[ "$(cat "$prefix"/lib/other.a "$prefix"/share/man/man3/other.3)" = $'not ours\nnot ours' ]
echo "install: $installed files put in place, $(wc -l <<<"$calls") calls in archive, header and manual, the examples compiled with pkg-config and run, $tried ways down as the reader finds them, all $installed files taken away again"
