# Sourced by tools/answers, tools/archive, tools/library and tools/check, with the repository's folder in root: messages, runs of rt with short
# progress, and what they make, put into target/.
# shellcheck shell=sh disable=SC2154

say() { printf '%s: %s\n' "${0##*/}" "$*" >&2; }
die() { say "$*"; exit 2; }

# Ends the tool unless all of these commands are installed.
need() {
    for command in "$@"; do
        command -v "$command" >/dev/null || die "$command is not installed (rt comes with the Rattle kit)"
    done
}

# Of what rt prints: a line for each crate that is proved and was not before, and rt's own lines on what it does not do.
rt_lines() {
    while IFS= read -r line; do
        case $line in
        'crate '*': modules loaded='*)
            crate=${line#crate }
            crate=${crate%%:*}
            checked=${line##*=}
            ;;
        'logic=proved '*) [ "${checked:-0}" = 0 ] || printf 'rt: %s proved\n' "$crate" ;;
        'rt: chose '* | 'rt: running '* | 'rt: rt '* | 'rt: nothing has changed '* | 'rt: '*': begins with what a check kept '*) ;;
        'rt: '*) printf '%s\n' "$line" ;;
        esac
    done
}

# Runs rt in the folder of a crate: the crate, then rt's words. Ends the tool with rt's status where that is not 0.
run_rt() {
    of=$1
    shift
    mkdir -p "$root/target/log" || exit 2
    rt_status=$(cd "$root/crates/$of" && { { rt "$@" </dev/null 2>&1 3>&-; echo "$?" >&3; } | tee "$root/target/log/$of.out" | rt_lines >&2; } 3>&1)
    [ "$rt_status" = 0 ] && return
    say "rt $* failed in crates/$of; target/log/$of.out has all that the prover said"
    exit "${rt_status:-2}"
}

# Copies what rt made to its place in target/, where it is not there yet: from, to.
put() {
    cmp -s "$root/$1" "$root/target/$2" && return
    mkdir -p "$root/target/${2%/*}" && cp "$root/$1" "$root/target/$2.new" && mv "$root/target/$2.new" "$root/target/$2" || exit 2
}

# Proves a static library and puts its archive into target/staticlib: the crate, and the archive's name there.
make_archive() {
    run_rt "$1" lib
    put "crates/$1/out/lib$1.a" "staticlib/lib$2.a"
}

# Proves and builds the program, and puts it into target/bin. rt runs it once, with no book and no question.
make_engine() {
    run_rt engine run
    put crates/engine/out/engine bin/engine
}
