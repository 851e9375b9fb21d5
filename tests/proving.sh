# For the scripts that need rt, at the repository's root: `prove run NAME` makes the program crates/NAME/out/NAME and `prove lib NAME`
# the static library crates/NAME/out/libNAME.a, and both show how far rt is; `prove_archive NAME` is the second, but only where
# something has changed.

# Runs rt in the crate's folder; says on standard error which crate it proves, of how many, and its last words where it fails.
prove() { # rt's command, a crate
    local log=target/rt-$1-$2.log
    mkdir -p target
    # shellcheck disable=SC2046
    in_crate "$@" | tee "$log" | show_progress $(crates_below "$2") || { tail -n 20 "$log" >&2; return 1; }
}

# What rt says, and not what a program prints that it runs.
in_crate() { # rt's command, a crate
    cd "crates/$2" || return
    case $1 in
    run) rt run </dev/null 2>&1 >/dev/null ;;
    *) rt "$1" 2>&1 ;;
    esac
}

# As `prove lib`, unless the archive was written by the same rt from the same files, and is as it was written.
prove_archive() { # a crate
    local sum=target/$1.sum
    if [ ! -f "crates/$1/out/lib$1.a" ] || [ ! -f "$sum" ] || [ "$(cat "$sum")" != "$(sum_of_archive "$1")" ]; then
        prove lib "$1" || return
        sum_of_archive "$1" >"$sum"
    fi
}

# Prints a sum of rt, the archive and all that it is made from.
sum_of_archive() { # a crate
    local crate
    {
        rt version
        for crate in $(crates_below "$1"); do
            echo "$crate"
            find "crates/$crate" -path "crates/$crate/out" -prune -o -type f -print | sort | xargs sha256sum
        done
        sha256sum "crates/$1/out/lib$1.a"
    } | sha256sum
}

# Prints a crate's name and those of the crates that it needs, as crates.txt has them, in rt's order: what is needed first.
crates_below() { # a crate
    sed 's/#.*//' crates.txt | awk -F: -v crate="$1" '
        function add(name,    count, i, used) {
            if (name in added || !(name in uses)) return
            added[name]
            count = split(uses[name], used, " ")
            for (i = 1; i <= count; i++) add(used[i])
            print name
        }
        NF > 1 { split($1, word, " "); uses[word[1]] = $2 }
        END { add(crate) }'
}

# Reads what rt says. A crate that rt has begun is named once it takes longer than a second, so that proved ones go by in silence.
show_progress() { # the crates in order
    local crate="" said="" status line place
    while true; do
        status=0
        read -r -t 1 line || status=$?
        if [ $status -eq 0 ]; then
            if [[ $line =~ ^rt:\ chose\ --jobs\ [0-9]+\ for\ ([a-z0-9_]+)$ ]]; then crate=${BASH_REMATCH[1]}; fi
            if [[ $line =~ ^logic= ]]; then crate=""; fi
        elif [ $status -le 128 ]; then
            return
        else
            [ -n "$crate" ] && [ "$crate" != "$said" ] || continue
            said=$crate
            place=$(printf '%s\n' "$@" | grep -nxF "$crate" | cut -d: -f1)
            echo "run: proving crate $place of $#, $crate .." >&2
        fi
    done
}
