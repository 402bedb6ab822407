#!/usr/bin/env bash
# Times and memory of the built programs. Run `rt ci` first, or `rt run` in the crates of the programs.
set -eu
cd "$(dirname "$0")/.."
work=$(mktemp -d)
trap 'rm -rf "$work"' EXIT
engine=crates/pquotient/out/pquotient
measured=crates/pq_bench/out/pq_bench

# seconds COMMAND..: the least of five runs
seconds() {
    for _ in 1 2 3 4 5; do
        /usr/bin/time -f '%e' -o "$work/time" "$@" >/dev/null
        cat "$work/time"
    done | sort -n | head -1
}

# kilobytes COMMAND..: the peak memory
kilobytes() {
    /usr/bin/time -f '%M' -o "$work/memory" "$@" >/dev/null
    cat "$work/memory"
}

ratio() {
    awk -v a="$1" -v b="$2" 'BEGIN { printf "%.2f\n", a / (b > 0.005 ? b : 0.005) }'
}

reader() {
    # 4,095 relators of 1,023 bytes and 509 letters each
    awk 'BEGIN { print "generators x y"; for (i = 0; i < 4095; i++) { line = "fixed x"; for (k = 0; k < 254; k++) line = line "*y*x"; print line } }' >"$work/long"
    # one line of blanks
    head -c 4194304 /dev/zero | tr '\0' ' ' >"$work/blanks"
    # one relator of 65,536 letters, and a name of a mebibyte
    awk 'BEGIN { line = "fixed x"; for (k = 1; k < 65536; k++) line = line "*x"; print "generators x"; print line }' >"$work/letters"
    awk 'BEGIN { name = "x"; for (k = 0; k < 20; k++) name = name name; print "generators x"; print "fixed " name }' >"$work/name"
    for text in long blanks letters name; do
        bytes=$(wc -c <"$work/$text")
        words=$(seconds wc -w "$work/$text")
        read=$(seconds sh -c "$engine quotient 2 1 <'$work/$text' || true")
        peak=$(kilobytes sh -c "$engine quotient 2 1 <'$work/$text' || true")
        echo "reader $text: $bytes bytes, $read s, wc -w $words s, ratio $(ratio "$read" "$words"), peak $peak kB"
    done
}

# texts on which a reader may take long: at most a second each, and 12 bytes for each byte and 4 for each letter
texts() {
    mkdir "$work/texts"
    python3 bench/reader_texts.py "$work/texts" | while read -r family letters; do
        text=$work/texts/$family
        bytes=$(wc -c <"$text")
        read=$(seconds sh -c "$engine quotient 2 1 <'$text' || true")
        peak=$(kilobytes sh -c "$engine quotient 2 1 <'$text' || true")
        echo "texts $family: $bytes bytes, $letters letters, $read s, peak $peak kB of $(((12 * bytes + 4 * letters) / 1024)) kB"
        rm "$text"
    done
}

rows() {
    rustc -O -o "$work/rows" bench/rows.rs
    ours=$(seconds "$measured" rows 1000000)
    theirs=$(seconds "$work/rows" 1000000)
    echo "rows: 10^6 sums of width 5,082 modulo 7 in $ours s, rustc -O $theirs s, ratio $(ratio "$ours" "$theirs")"
}

basis() {
    echo "basis: 2,000 rows of width 2,000 modulo 3 in $(seconds "$measured" basis 2000) s, peak $(kilobytes "$measured" basis 2000) kB (rows and coefficients are 7,813 kB)"
}

# per_second COUNT SECONDS
per_second() {
    awk -v n="$1" -v s="$2" 'BEGIN { printf "%.0f\n", n / (s > 0.005 ? s : 0.005) }'
}

products() {
    rustc -O -o "$work/products" bench/products.rs
    for group in "8 3" "14 2" "8 5" "6 7"; do
        # shellcheck disable=SC2086
        set -- $group
        plain=$(seconds "$measured" plain_products "$1" "$2" 20000)
        stack=$(seconds "$measured" stack_products "$1" "$2" 20000)
        theirs=$(seconds "$work/products" "$1" "$2" 20000)
        echo "products: unitriangular matrices of size $1 modulo $2, $(per_second 20000 "$stack") a second from the stack, $(per_second 20000 "$plain") by recursion, rustc -O $(per_second 20000 "$theirs"), ratio $(ratio "$stack" "$theirs")"
    done
}

# start: the smallest input, in milliseconds a run
start() {
    printf 'generators x\n' >"$work/smallest"
    from=$(date +%s%N)
    for _ in $(seq 100); do
        "$engine" quotient 2 1 <"$work/smallest" >/dev/null
    done
    to=$(date +%s%N)
    echo "start: quotient 2 1 on one generator in $(awk -v n="$((to - from))" 'BEGIN { printf "%.2f\n", n / 1e8 }') ms"
}

# user_seconds COMMAND..: the least of three runs
user_seconds() {
    for _ in 1 2 3; do
        /usr/bin/time -f '%U' -o "$work/time" "$@" >/dev/null
        cat "$work/time"
    done | sort -n | head -1
}

# growth: what the classes from one to the next of these take, and from 50 on by which power of the class that grew since 30
growth() {
    for group in "dihedral 2" "triangle_three_three_three 3"; do
        # shellcheck disable=SC2086
        set -- $group
        for class in 20 30 40 50 60; do
            echo "$class $(user_seconds sh -c "$engine quotient $2 $class <examples/$1.txt")"
        done | awk -v name="$1" '
            { took[$1] = $2 }
            $1 > 20 { printf "growth %s: classes %d to %d in %.2f s\n", name, $1 - 9, $1, took[$1] - took[$1 - 10] }
            END {
                early = took[40] - took[30]; late = took[60] - took[50]
                printf "growth %s: power of the class %.1f\n", name, log(late / (early > 0.005 ? early : 0.005)) / log(55.5 / 35.5)
            }'
    done
}

reader
texts
rows
basis
products
start
growth
