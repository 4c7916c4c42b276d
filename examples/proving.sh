# Sourced by the programs of this folder: proves a crate with all that it stands on, and tells on standard error how far it is. The one that
# sources it has set `self`, the name that it goes by, and calls `prove` in the repository's folder.

tell() { printf '%s: %s\n' "$self" "$*" >&2; }

stop() {
    tell "$*"
    exit 2
}

readable() { [ -r "$1" ] && [ ! -d "$1" ]; } # FILE

# The name of a file or folder from the root on.
absolute() { # NAME
    case $1 in
    /*) printf '%s' "$1" ;;
    *) printf '%s' "$PWD/$1" ;;
    esac
}

# Whether what was built from crates is there, and no source, definition or proof is newer.
is_built() { # FILE
    [ -f "$1" ] && [ -z "$(find crates.txt crates/*/src crates/*/specs crates/*/proofs -newer "$1")" ]
}

# How many crates stand below a crate and are not the toolchain's, and itself.
crates_to_prove() { # CRATE
    awk -F: -v crate="$1" '
        /^#/ { next }
        { sub(/ .*/, "", $1); below[$1] = $2 }
        END {
            n = split(below[crate], names, " ")
            for (i = 1; i <= n; i++) count += names[i] in below
            print count + 1
        }' crates.txt
}

tell_proved() { # NAME
    proved=$((proved + 1))
    tell "$proved of $count proved: $1"
}

# Tells of the crate whose check a line of the prover ends. The prover names it a line or two before, and of a crate that is unchanged since
# it was last proved it says nothing.
tell_of() { # LINE
    case $1 in
    'crate '*': modules '*) name=${1#crate } name=${name%%: *} ;;
    'logic=proved '*) tell_proved "$name" ;;
    'logic=not-proved'*) tell "NOT proved: ${name-a crate}" ;;
    esac
}

progress() {
    proved=0
    while IFS= read -r line; do tell_of "$line"; done
}

give_up() {
    tell "the proof failed. $log ends with:"
    tail -n 10 "$log" >&2
    exit 2
}

# prove CRATE COMMAND..: by the command, whose status goes round the pipe on a descriptor of its own.
prove() {
    command -v rt > /dev/null || stop "the Rattle toolchain is needed, and there is no rt"
    mkdir -p target || stop "no folder target can be made"
    crate=$1
    shift
    log=target/prove-$crate.log
    count=$(crates_to_prove "$crate")
    tell "proving $crate, $count crates: some ten minutes from nothing, seconds where all is proved already"
    status=$({ { "$@" 2>&1; echo $? >&3; } | tee "$log" | progress; } 3>&1)
    [ "$status" = 0 ] || give_up
    tell "$crate is proved, and all that it stands on"
}
