# Read by the scripts that prove and build, after common.sh: the lock, what a built file was made of, and the way to the prover.
# shellcheck shell=sh

need_kit() {
    need rt
    kit=$(rt version 2>&1) || die "the Rattle kit does not work: $kit"
    need_x86_64
}

# The kit compiles for x86-64 alone.
need_x86_64() {
    [ "$(uname -m)" = x86_64 ] || die "the Rattle kit compiles for x86-64 alone, and this machine is $(uname -m)"
}

# One build at a time in a checkout, and none beside the gate. The lock is on the checkout's folder. The prover inherits it, so that it lasts
# as long as either lives; target/builder has the number of the script that took it.
lock() {
    [ -z "${locked-}" ] || return 0
    need flock setsid sha256sum
    builder=$home/target/builder
    mkdir -p "$home/target" 2>/dev/null && true 2>/dev/null 9>>"$builder" || die "$home/target can't be written, so that nothing can be built there"
    exec 9<"$home"
    waited=0
    until flock -n 9; do
        [ $? -eq 1 ] || die "$home can't be locked"
        number=$(cat "$builder" 2>/dev/null)
        [ $((waited % 9)) -ne 0 ] || say "another build is going on in this checkout${number:+ (process $number)}; waiting"
        waited=$((waited + 1))
        sleep 1
    done
    echo $$ >"$builder"
    locked=yes
}

unlock() {
    exec 9<&-
    locked=
}

# The checksum of all that is proved, and of the scripts, which say how it is built; of what rt keeps in crates/NAME/out nothing.
sources() { (cd "$home" && find crates crates.txt scripts -path 'crates/*/out' -prune -o -type f -exec sha256sum {} + | sort | sha256sum); }

# What a built file was made of: the kit, the machine, the sources and, so that no other file is taken for it, its own bytes.
made_of() { # FILE KIT
    printf 'kit %s\nmachine %s\nsources %s\nfile %s\n' "$2" "$(uname -m)" "$(sources)" "$(sha256sum <"$1")"
}

# Whether a file was built of these sources by this kit. Dates say nothing. Where there is no kit, the one that built it will do.
current() { # FILE
    [ -f "$1" ] && [ -f "$1.made" ] || return 1
    kit=$(rt version 2>/dev/null) || kit=$(sed -n 's/^kit //p' "$1.made")
    [ "$(made_of "$1" "$kit")" = "$(cat "$1.made")" ]
}

# Builds a file by a function that proves, where that has not been done.
build() { # FILE WHAT FUNCTION
    current "$1" && return
    need_kit
    lock
    # another build may have made it meanwhile
    current "$1" && return
    before=$(sources)
    what=$2
    "$3" "$1"
    [ -f "$1" ] || die "$what was proved, but $1 was not made"
    [ "$before" = "$(sources)" ] || die "a source was changed while it was proved; start this again"
    made_of "$1" "$kit" >"$1.made" || die "$1.made can't be written"
    say "$what is proved and built"
}

# How many crates have to be proved for one: those that it reaches in crates.txt, and itself.
crates_of() { # NAME
    awk -v name="$1" '
        function visit(n,    a, k, m) {
            if (n in seen || !(n in uses)) return
            seen[n] = 1
            count++
            m = split(uses[n], a, " ")
            for (k = 1; k <= m; k++) visit(a[k])
        }
        { sub(/#.*/, "") }
        split($0, part, ":") == 2 { split(part[1], word, " "); uses[word[1]] = part[2] }
        END { visit(name); print count + 0 }' "$home/crates.txt"
}

# Runs rt in a crate's folder. Ends the script where the proof failed.
prove() { # COMMAND CRATE
    total=$(crates_of "$2")
    say "proving $what: $total crates, less those that are proved already; from nothing that takes long"
    start env "TMPDIR=$rooms" sh -c 'cd "$0" && said=$1 && shift && exec "$@" >"$said" 2>&1' "$home/crates/$2" "$scratch/said" rt "$1" </dev/null
    follow
    finish || not_proved "$?"
}

# What rt built of a proved crate, put where this checkout's scripts look for it.
keep() { # FROM TO
    [ -f "$1" ] || die "$what was proved, but $1 was not made"
    mkdir -p "$(dirname "$2")" && cp "$1" "$2" || die "$2 can't be written"
}

# Says how far the prover is until it ends.
follow() {
    began=$(date +%s)
    now=$began spoke=$began told=0
    while kill -0 "$child" 2>/dev/null; do
        sleep 1
        now=$(date +%s)
        tell_crates
        [ -t 2 ] && [ $((now - spoke)) -ge 9 ] || continue
        say "still proving after $((now - began)) s"
        spoke=$now
    done
    tell_crates
}

# Says of each crate that was proved since the last time how many are proved, and when. Of one that rt has kept nothing is said.
tell_crates() {
    awk '/^crate [a-z_0-9]+: / { crate = substr($2, 1, length($2) - 1) } /^logic=proved / { print crate }' "$scratch/said" |
        tail -n "+$((told + 1))" >"$scratch/news"
    while read -r told_of; do
        told=$((told + 1))
        say "$told_of is proved, after $((now - began)) s"
        spoke=$now
    done <"$scratch/news"
}

# A proof that failed is one thing, and a prover that could not do its work another. What rt said stays in target/said.
not_proved() { # STATUS
    cp "$scratch/said" "$home/target/said"
    if grep -q '^rt: running ' "$scratch/said"; then
        die "$what was proved, but ended with status $1 on empty input"
    fi
    grep -E "(^|: )error(\\[|:)|^(fn|struct|enum) .*: (not |no )|^rt: .*(not|mend)" "$scratch/said" | head -n 20 >&2
    case $1 in
    1 | 3) die "$what is NOT PROVED; $home/target/said has all that the prover said" ;;
    *) die "the prover failed with status $1, which says nothing of the proof; $home/target/said has what it said" ;;
    esac
}

# The program that answers card files.
terminal=$home/target/bin/terminal

# rt runs a program that it has built: this one on empty input.
make_terminal() { # FILE
    prove run terminal
    keep "$home/crates/terminal/out/terminal" "$1"
}
