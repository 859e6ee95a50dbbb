# Sourced by tools/kit.sh: has rt prove a crate, one caller at a time, and shows how far it is.

# Has rt make a result, in the crate's folder: all that it says goes to the log, which is shown only if
# it fails. Two at once would each show the other's wait: so the second waits here, and where the
# first has made the result, that is all.
prove() { # RESULT CRATE COMMAND..
    local result=$1 turn status=0
    exec {turn}<crates.txt # the lock, held by whoever proves; nothing is left behind
    take_turn "$turn"
    if ! is_built "$result"; then
        announce "$2"
        : >"$work/begun"
        (cd "crates/$2" && "${@:3}") </dev/null 2>&1 | tee "$work/log" | show_progress $(crates_below "$2")
        status=${PIPESTATUS[0]}
        # A source that was edited meanwhile is newer than the result.
        [ "$status" -ne 0 ] || touch -r "$work/begun" "$result" || status=$?
    fi
    exec {turn}<&-
    [ "$status" -eq 0 ] && return
    cat "$work/log" >&2
    fail "proving and building $2 failed: ${*:3}"
}

take_turn() { # DESCRIPTOR
    command -v flock >/dev/null || return 0
    flock -n "$1" && return
    printf '%s: another command proves here; this one waits for it\n' "$name" >&2
    flock "$1"
}

# Where rt kept work of earlier checks, only what has changed is proved again.
announce() { # CRATE
    compgen -G 'crates/*/out/incremental' >/dev/null ||
        printf '%s: %s is proved and built first, which takes minutes\n' "$name" "$1" >&2
}

# A crate after all that it needs, in the order in which rt builds them: what its line of crates.txt
# names, each after what that needs.
crates_below() { # CRATE
    sed 's/#.*//; s/:/ /' crates.txt | awk -v crate="$1" '
        function visit(name, word, n, k) {
            if (name in seen || !(name in line)) return
            seen[name] = 1
            n = split(line[name], word)
            for (k = 2; k <= n; k++) visit(word[k])
            print name
        }
        NF { line[$1] = $0 }
        END { visit(crate) }'
}

# Reads what rt says, and tells on standard error which crate is at hand and which remain: one line
# that is rewritten on a terminal, else a line when that changes. Where nothing has to be proved rt
# has ended before the first is told.
show_progress() { # CRATE..
    local all=$# left=" $* " line part='' told='' began=$SECONDS
    while :; do
        IFS= read -r -t 1 line
        case $? in
        0)
            line=$part$line part=''
            case $line in
            'rt: chose --jobs '*' for '*) reach "${line##* }" ;;
            'logic=proved '*) left=" ${left#* * }" ;; # the crate at hand
            esac
            ;;
        1) break ;;
        *) part+=$line ;; # a second has passed
        esac
        [ $((SECONDS - began)) -lt 2 ] || [ "$left" = ' ' ] || tell_progress
    done
    [ -z "$told" ] || [ ! -t 2 ] || printf '\r\033[K' >&2
}

# Takes the crates before the one that rt begins off `left` of show_progress: they were built before.
reach() { # CRATE
    case $left in *" $1 "*) left=" $1 ${left#* $1 }" ;; esac
}

# Sets `told` of show_progress, and sees its other variables.
tell_progress() {
    local at=${left# } then now count
    then=${at#* } at=${at%% *} count=$(wc -w <<<"$left")
    then=${then% }
    now="$name: proving $at${then:+, then $then}"
    if [ -t 2 ]; then
        printf '\r%.78s\033[K' "$now ($((all - count)) of $all proved, $((SECONDS - began)) s)" >&2
    elif [ "$now" != "$told" ]; then
        printf '%s\n' "$now" >&2
    fi
    told=$now
}
