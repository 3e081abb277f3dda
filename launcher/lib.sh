# What ./tempo, dist/make and dist/check have in common. `root` is the top of the repository.

built=$root/crates/tempo/out/tempo

say() {
    echo "tempo: $*" >&2
}

# Whether the program was built here, or the one given, and no source is newer. Folders count too, so that a file taken
# away is noticed.
is_built() {
    local program=${1:-$built} newer
    [ -x "$program" ] || return 1
    newer=$(cd "$root" && find crates.txt crates/*/src crates/*/specs crates/*/proofs -newer "$program" -print -quit) || return 1
    [ -z "$newer" ]
}

sum_of() {
    sha256sum <"$1" | cut -d ' ' -f 1
}

# One number for crates.txt and each src/: the sum of the sums of their files, in order of their names.
sources_sum() {
    (cd "$root" && find crates.txt crates/*/src \( -name '*.rt' -o -name crates.txt \) -type f -exec sha256sum {} +) |
        LC_ALL=C sort -k 2 | sha256sum | cut -d ' ' -f 1
}

# What dist/built-from says of sources, program, kit or machine.
recorded() {
    sed -n "s/^$1: //p" "$root/dist/built-from" 2>/dev/null
}

# Whether the program of dist/ was built from crates.txt and src/ as they are.
dist_is_of_sources() {
    [ -f "$root/dist/tempo.gz" ] && [ "$(recorded sources)" = "$(sources_sum)" ]
}

# Unpacks the program of dist/ as the file given, and returns whether it is the recorded one.
unpack_dist() {
    gzip -dc "$root/dist/tempo.gz" >"$1" 2>/dev/null && [ "$(sum_of "$1")" = "$(recorded program)" ] && chmod 755 "$1"
}

# Whether the processor has the instructions for which the program is compiled, those of x86-64-v2; also where Linux does
# not say which it has.
has_instructions() {
    local flags flag
    flags=$(sed -n '/^flags/{p;q}' /proc/cpuinfo 2>/dev/null)
    [ -n "$flags" ] || return 0
    for flag in cx16 lahf_lm popcnt sse4_1 sse4_2 ssse3; do
        [[ " ${flags#*:} " == *" $flag "* ]] || return 1
    done
}

# Whether a program runs on this machine at all.
runs_here() {
    has_instructions && "$1" --mode explain --query 'stream s(v int); s' </dev/null >/dev/null 2>&1
}
