#!/usr/bin/env bash
# Times the program on texts of 20,000 and 200,000 lines, half of them `register` and half `call`,
# over few names; on one call whose native asks 10,000 and 100,000 others; on texts of wide and deep
# values of 0.3 and 3 MB, which are read, passed to natives, and printed; on 10,000 and 100,000 calls
# of a name with three overloads; on as many calls that find a native with parameters of any type;
# on 1,000 and 10,000 calls with seventeen arguments that aren't found; on 10,000 and 100,000 imports
# that are pushed and popped, as many declarations that are indexed, joined with others, and put over by
# a small module a thousand times; on 1,000 calls over 100
# and 1,000 libraries, imports and static modules; and on 1,000 and 10,000 calls into an environment, and the
# module of a file of 10,000 and 100,000 lines. Prints the seconds of both sizes and their ratio,
# which is near 10 where it is linear, and how many of them that is in a second.
#
# tools/bench.sh [TWIN]: where another program of the same words is given, it is timed beside this one
# on the texts that its words `gen-run KIND COUNT SEED` print, of the kinds whose lines stand.
set -eu
top=$(cd "$(dirname "$0")/.." && pwd)
work=$(mktemp -d)
trap 'rm -rf "$work"' EXIT
"$top/rhd" run </dev/null >/dev/null

text() {
    awk -v lines="$1" 'BEGIN {
        for (i = 0; i < lines / 2; i++) {
            print "register f" (i % 8) " " (i % 3)
            print "call f" ((i * 5) % 9) " " i
        }
    }'
}

# The seconds of a program, this one if none is named, on a text.
seconds() {
    local start end
    start=$(date +%s%N)
    "${2:-$top/rhd}" run <"$1" >"$work/out"
    end=$(date +%s%N)
    awk -v ns=$((end - start)) 'BEGIN { printf "%.3f", ns / 1e9 }'
}

best() {
    local least='' i now
    for i in 1 2 3 4 5; do
        now=$(seconds "$@")
        least=$(awk -v a="${least:-$now}" -v b="$now" 'BEGIN { print (a < b) ? a : b }')
    done
    echo "$least"
}

asked() {
    printf 'register g 0\nregister h 13\ncall h "g" %s\n' "$1"
}

values() {
    awk -v lines="$1" 'BEGIN {
        for (i = 0; i < 100; i++) wide = wide " " i " \"t\\n" i "\" {b [true ()] a !%" i "}"
        for (i = 0; i < 40; i++) deep = deep (i % 2 ? "{a " : "[")
        deep = deep "1"
        for (i = 39; i >= 0; i--) deep = deep (i % 2 ? "}" : "]")
        print "register s 9"
        print "register p 8"
        for (i = 0; i < lines / 2; i++) {
            print "ref s [" wide "]"
            print "method p [" deep " [" wide "]]"
        }
    }'
}

overloads() {
    awk -v calls="$1" 'BEGIN {
        print "register f 1\nregister f 6\nregister f 9"
        for (i = 0; i < calls; i++) print "call f " (i % 3 ? (i % 3 == 1 ? "\"t" i "\"" : "[" i "]") : i)
    }'
}

any_type() {
    awk -v calls="$1" 'BEGIN {
        print "register f 4\nregister f 5\nregister f 17"
        for (i = 0; i < calls; i++) print "call f " (i % 3 ? (i % 3 == 1 ? "true \047c\047" : i " true") : "() ()")
    }'
}

not_found() {
    awk -v calls="$1" 'BEGIN {
        print "register f 14"
        for (i = 0; i < 16; i++) ints = ints " 1"
        for (i = 0; i < calls; i++) print "call f" ints " \047a\047"
    }'
}

imports() {
    awk -v times="$1" 'BEGIN {
        print "module\nnative 0 f 1"
        for (i = 0; i < times; i++) print "import a 0"
        for (i = 0; i < times; i++) print "pop-import"
    }'
}

indexed() {
    awk -v times="$1" 'BEGIN {
        print "module\nmodule"
        for (i = 0; i < times; i++) print "native 0 f" i " 1"
        print "submodule 1 a 0\nindex 1\nimport b 1\nqual b::a f0 1"
    }'
}

# Two modules of so many declarations, half of them under keys of both, joined by each of four commands.
joined() {
    awk -v times="$1" 'BEGIN {
        print "module\nmodule\nmodule\nmodule\nmodule"
        for (i = 0; i < times; i++) print "native 0 f" i " 1"
        for (i = 0; i < times; i++) print "native 1 f" (i + times / 2) " 2"
        print "combine 0 1\ncombine-flatten 2 0\nfill 3 0\nmerge 4 0\ncount 4"
    }'
}

# A module of twenty declarations, a variable and a submodule put over one of so many declarations and
# variables, a thousand times.
put_over() {
    awk -v times="$1" 'BEGIN {
        print "module\nmodule\nmodule"
        for (i = 0; i < times; i++) print "native 0 f" i " 1\nvar 0 v" i " 1"
        for (i = 0; i < 20; i++) print "native 1 g" i " 2"
        print "var 1 w 1\nsubmodule 1 s 2"
        for (i = 0; i < 1000; i++) print "combine 0 1"
    }'
}

# Modules that are put in by lines of this form, and 1,000 calls that ask each of them.
layers() {
    awk -v line="$1\n" -v times="$2" 'BEGIN {
        print "module\nnative 0 f 1"
        for (i = 0; i < times; i++) printf line, i
        for (i = 0; i < 1000; i++) print "call g 1"
    }'
}

# Calls of a function of a file's module, which enter its environment, over 1,000 libraries.
entered() {
    awk -v times="$1" 'BEGIN {
        print "file m.rhai \"fn f () 0\\nfn g () 0 private\\nimport k g () 0\"\nbody\nret 1\nmodule"
        for (i = 0; i < 1000; i++) print "lib 0"
        print "import-path m m"
        for (i = 0; i < times; i++) print "qual m f"
    }'
}

# A module of a file whose text has so many lines, each under a name of its own.
loaded() {
    awk -v times="$1" 'BEGIN {
        printf "file m.rhai \""
        for (i = 0; i < times; i += 4) printf "fn f%d (a b) 0\\nvar (v%d) 1\\nimport k%d f () 0\\nimport k0 g%d () 0\\n", i, i, i, i
        print "\"\nimport-path m m\nqual m f0 1 2"
    }'
}

compare() {
    local small large
    small=$(best "$work/small")
    large=$(best "$work/large")
    printf '%-40s %8s s\n' "$1, $2" "$small" "$1, $3" "$large"
    awk -v a="$small" -v b="$large" 'BEGIN { printf "%-40s %8.2f\n", "ratio", b / a }'
    awk -v n="${3//,/}" -v b="$large" 'BEGIN { printf "%-40s %8d\n", "in a second", n / b }'
}

# Compares the texts of two counts that a command makes.
measure() {
    local label=$1 small=$2 large=$3
    shift 3
    "$@" "${small//,/}" >"$work/small"
    "$@" "${large//,/}" >"$work/large"
    compare "$label" "$small" "$large"
}

measure lines 20,000 200,000 text
measure 'calls asked by one native' 10,000 100,000 asked
measure 'lines of values' 100 1,000 values
measure 'calls of three overloads' 10,000 100,000 overloads
measure 'calls of natives for any type' 10,000 100,000 any_type
measure 'calls of 17 arguments not found' 1,000 10,000 not_found
measure 'imports pushed and popped' 10,000 100,000 imports
measure 'declarations indexed' 10,000 100,000 indexed
measure 'declarations joined' 10,000 100,000 joined
measure 'declarations a small module is put over' 10,000 100,000 put_over
measure 'libraries asked by 1,000 calls' 100 1,000 layers 'lib 0'
measure 'imports asked by 1,000 calls' 100 1,000 layers 'import a%d 0'
measure 'static modules asked by 1,000 calls' 100 1,000 layers 'static a%d 0'
measure 'calls into an environment over 1,000 libraries' 1,000 10,000 entered
measure 'lines of a module text' 10,000 100,000 loaded

# Times both programs on a kind of text, of two counts. Lines of forms that don't stand yet are left out, and so are files
# and imports by their paths, whose modules the twin keeps.
beside() {
    local kind=$1 small=$2 large=$3 ours_small ours_large twin_small twin_large
    "$twin" gen-run "$kind" "$small" 1 | grep -v '^file \|^import-path \|^signatures\|^materialize' >"$work/small"
    "$twin" gen-run "$kind" "$large" 1 | grep -v '^file \|^import-path \|^signatures\|^materialize' >"$work/large"
    ours_small=$(best "$work/small" "$program")
    twin_small=$(best "$work/small" "$twin")
    ours_large=$(best "$work/large" "$program")
    twin_large=$(best "$work/large" "$twin")
    printf '%-10s %8s %8s s, the twin %8s %8s s\n' "$kind" "$ours_small" "$ours_large" "$twin_small" "$twin_large"
    awk -v a="$ours_small" -v b="$ours_large" -v c="$twin_small" -v d="$twin_large" \
        'BEGIN { printf "%-10s %8.2f growth, %8.2f times the twin, which grows %.2f\n", "", b / a, b / d, d / c }'
}

if [ $# -gt 0 ]; then
    twin=$1
    program=$top/crates/rhd/out/rhd
    beside calls 20000 200000
    beside values 3000 30000
    beside modules 20000 200000
    beside register 20000 200000
    beside manifest 20000 200000
fi
