#!/bin/sh
# That no chain of casts, calls, indices, commas, suffixes, stars, operators, statements or typedef names overflows a stack of
# 2 MiB, nor one of them within as many operators or blocks as may stand in one another: each is built, and evaluated, with 100
# links, with 1000, and with as many as a source of 4 MiB has room for. The longest is built or refused as it stands beside each,
# and a shorter one so or built; the status is never that of a signal. It is told beside the time of the build in milliseconds.
# It is no part of the gate.
set -eu
top=$(CDPATH= cd -- "$(dirname -- "$0")/.." && pwd)
program=$("$top/tools/program")
work=$(mktemp -d)
trap 'rm -rf "$work"' EXIT
ulimit -s 2048
SOURCE=4194304

# as many of them as stand in one another, in a row
many() { # TEXT
    awk -v text="$1" 'BEGIN { for (i = 0; i < 190; i++) printf "%s", text }'
}
# a row of as many typedef names as may stand in one another
row() {
    awk 'BEGIN { printf "typedef int t0;"; for (i = 0; i < 250; i++) printf " typedef t%d *t%d;", i, i + 1 }'
}
fail() { # WHAT
    echo "$name, $links links: $1"
    exit 1
}
# what the longest is, as an extended expression: built, or what stands in the line that refuses it; name, front, link and end
# as formats (of the link's number and the next one, and of the last one), and how long a link is at most
chain() {
    expected=$1
    name=$2
    length=${6:-$(printf '%s' "$4" | wc -c)}
    longest=$(((SOURCE - $(printf '%s%s' "$3" "$5" | wc -c) - 8) / length))
    for links in 100 1000 "$longest"; do
        awk -v front="$3" -v link="$4" -v end="$5" -v links="$links" \
            'BEGIN {
                printf "%s", front
                for (i = 0; i < links; i++) printf link, i, i + 1
                printf end "\n", links
            }' > "$work/chain.c"
        before=$(date +%s%N)
        status=0
        "$program" build "$work/chain.c" "$work/chain.img" > "$work/out" 2> "$work/err" || status=$?
        after=$(date +%s%N)
        evaluated=0
        "$program" eval "$work/chain.c" > /dev/null 2>&1 || evaluated=$?
        said=$(head -n 1 "$work/err" | sed "s|.*/chain.c||" | cut -c 1-60)
        printf '%-16s %7s links: status %3s, %6s ms: %s\n' "$name" "$links" "$status" "$(((after - before) / 1000000))" "$said"
        if [ "$status" -ge 128 ] || [ "$evaluated" -ge 128 ]; then fail "stopped by a signal"; fi
        [ "$status" -ne 0 ] || said=built
        wanted=$expected
        [ "$links" -gt 1000 ] || wanted="built|$expected"
        printf '%s\n' "$said" | grep -Eq "$wanted" || fail "$wanted is missing"
    done
}

F='int f(int a) { return a; }'
chain built casts 'int main(void) { return ' '(int)' '7; }'
chain 'built|code ' casts-narrow 'int a; int main(void) { return ' '(char)(int)' 'a; }'
chain built casts-void 'int main(void) { ' '(void)' '7; return 7; }'
chain built casts-sized 'int main(void) { return sizeof((char)' '(int)' '7); }'
chain built casts-static 'int a = ' '(int)' '7; int main(void) { return a; }'
chain built casts-counted 'enum { a = ' '(int)' '7 }; int main(void) { return a; }'
chain built casts-length 'int a[' '(int)' '7]; int main(void) { return 7; }'
chain built casts-case 'int main(void) { switch (7) { case ' '(int)' '7: return 7; } return 8; }'
chain 'rule 19' calls "$F int main(void) { return f(7)" '()' '; }'
chain 'rule 19' arguments "$F int main(void) { return f(7" ',7' '); }'
chain 'rule 20|dimensions' indices 'int main(void) { int a = 0; return a' '[0]' '; }'
chain 'built|code ' commas 'int main(void) { return 7' ', 7' '; }'
chain 'built|code ' commas-stores 'int a; int main(void) { return a' ', a = 7' '; }'
chain 'built|code ' commas-calls "$F int main(void) { return 7" ', f(7)' '; }'
chain 'built|code ' commas-tested 'int main(void) { if (7' ', 7' ') return 7; return 8; }'
chain 'built|code ' commas-looped 'int main(void) { for (7' ', 7' '; 0; ) ; return 7; }'
chain 'built|code ' commas-pointed 'int a = 7; int main(void) { int *p = &a; return *(p' ', p' '); }'
chain 'built|code ' choices 'int main(void) { return 1 ? 7' ', 7' ' : 7; }'
chain 'built|code ' choices-listed 'int main(void) { int a[] = { 1 ? 7' ', 7' ' : 7 }; return a[0]; }'
chain 'rule 15' choices-counted 'enum { a = 1 ? 7' ', 7' ' : 7 }; int main(void) { return 7; }'
chain 'built|code ' choices-given "$F int main(void) { return f(1 ? 7" ', 7' ' : 7); }'
chain dimensions suffixes 'int a' '[1]' '; int main(void) { return 7; }'
chain 'rule 9' functions 'int a' '()' '; int main(void) { return 7; }'
chain dimensions suffixes-sized 'int main(void) { return sizeof(int' '[1]' '); }'
chain dimensions suffixes-given 'int f(int a' '[1]' ') { return 7; } int main(void) { return 7; }'
chain dimensions suffixes-kept 'struct s { int a' '[1]' '; }; int main(void) { return 7; }'
chain dimensions suffixes-local 'int main(void) { int a' '[1]' '; return 7; }'
chain nesting stars 'int main(void) { int ' '*' 'a; return 7; }'
chain nesting minus 'int main(void) { return ' '- ' '7; }'
chain nesting sums 'int main(void) { return 7' '+7' '; }'
chain nesting members 'struct s { struct s *a; } s; int main(void) { return s.a' '->a' ' == 0; }'
chain nesting else 'int main(void) { ' 'if (0) ; else ' '; return 7; }'
chain 'nesting|syntax' blocks 'int main(void) { ' '{' '; return 7; }'
chain built statements 'int main(void) { ' ';' ' return 7; }'
chain built names 'int a' ', a' '; int main(void) { return 7; }'
chain 'rule 3' enumerators 'enum { a' ', b' '}; int main(void) { return 7; }'
chain 'rule 16' elements 'int a[7] = { 7' ', 7' ' }; int main(void) { return 7; }'
chain derivations typedefs 'typedef int t0;' ' typedef t%d *t%d;' ' t%d last; int main(void) { return 7; }' 26
chain derivations arrays 'typedef int t0;' ' typedef t%d t%d[1];' ' t%d last; int main(void) { return 7; }' 28
chain dimensions typedef-suffixes 'typedef int t' '[1]' '; int main(void) { return 7; }'
chain dimensions row-suffixes "$(row) t250 a" '[1]' '; int main(void) { return 7; }'
chain dimensions row-stars "$(row) t250 $(many '*')a" '[1]' '; int main(void) { return 7; }'
chain built minus-casts "int main(void) { return $(many '- ')" '(int)' '7; }'
chain 'rule 19' minus-calls "$F int main(void) { return $(many '- ')f(7)" '()' '; }'
chain 'rule 20|dimensions' minus-indices "int a[2]; int main(void) { return $(many '- ')a" '[0]' '; }'
chain 'built|code ' minus-commas "int main(void) { return $(many '- ')(7" ', 7' '); }'
chain built ifs-casts "int main(void) { $(many 'if (0) ; else ')return " '(int)' '7; }'
chain 'built|code ' ifs-commas "int main(void) { $(many 'if (0) ; else ')return 7" ', 7' '; }'
chain 'rule 20|dimensions' ifs-indices "int a[2]; int main(void) { $(many 'if (0) ; else ')return a" '[0]' '; }'
chain built blocks-casts "int main(void) { $(many '{ ')return " '(int)' "7; $(many '} ')}"
chain 'rule 3' blocks-names "int main(void) { $(many '{ ')int a" ', a' "; $(many '} ')}"
