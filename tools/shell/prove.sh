# Proves what the program needs, and no more, and builds it. A line on the standard error tells of each crate that is
# through, and one each minute of those that are still being proved.
#
# NOMVAL_PROVE=all (where none is given) leaves it to one run of the prover, which first reads all crates for some minutes.
# NOMVAL_PROVE=each proves crate by crate, those first that the longest chain of others waits for, as many side by side as
# there are cores and memory for. The prover locks each crate below the one that it works on, so each of these lanes works
# in a copy of the sources, and takes the libraries that the other lanes built. It was tried on small repositories alone.
# NOMVAL_JOBS=N is how many cores are used.

# The largest crate's check takes up to 5.5 GB, that of most others below 3.
LARGEST_KB=5500000
OTHER_KB=3000000
home=$top/crates/nomval_cli
log=$home/out/build.log

newer_source() {
    find "$top/crates.txt" "$top"/crates/*/src "$top"/crates/*/specs "$top"/crates/*/proofs \
        -type f -newer "$program" -print 2>/dev/null | head -n 1
}

cores() {
    echo "${NOMVAL_JOBS:-$(nproc 2>/dev/null || echo 1)}"
}

lanes() {
    awk -v cores="$(cores)" -v largest="$LARGEST_KB" -v other="$OTHER_KB" '
        /^MemAvailable:/ { room = $2 < largest ? 1 : 1 + int(($2 - largest) / other) }
        END { most = (NR && room < cores) ? room : cores; print (most >= 1) ? most : 1 }' /proc/meminfo 2>/dev/null || cores
}

# The crates that nomval_cli needs, itself the last: a line each of its priority (the lines of code and proof on the
# longest chain from it upward), its name, and the crates that it waits for.
needed_crates() {
    for folder in "$top"/crates/*/; do
        name=$(basename "$folder")
        echo "lines $name $(cat "$folder"src/*.rt "$folder"proofs/*.antt "$folder"proofs/*/*.antt 2>/dev/null | wc -l)"
    done | cat - "$top/crates.txt" | awk '
        $1 == "lines" { lines[$2] = $3; next }
        { sub(/#.*/, "") }
        /^[a-z]/ { name = $1; sub(/:$/, "", name); deps[name] = ""; for (i = 2; i <= NF; i++) deps[name] = deps[name] " " $i }
        function visit(name,    i, n, words) {
            if (name in seen) return
            seen[name] = 1
            n = split(deps[name], words, " ")
            for (i = 1; i <= n; i++) if (words[i] in deps) visit(words[i])
            order[++count] = name
        }
        END {
            visit("nomval_cli")
            for (k = count; k >= 1; k--) {
                name = order[k]
                rank[name] += lines[name]
                n = split(deps[name], words, " ")
                for (i = 1; i <= n; i++) if (words[i] in deps && rank[words[i]] < rank[name]) rank[words[i]] = rank[name]
            }
            for (k = 1; k <= count; k++) {
                line = rank[order[k]] " " order[k]
                n = split(deps[order[k]], words, " ")
                for (i = 1; i <= n; i++) if (words[i] in deps) line = line " " words[i]
                print line
            }
        }'
}

say() {
    echo "nomval: $*" >&2
}

since() {
    echo "$((($(date +%s) - $1) / 60)) min $((($(date +%s) - $1) % 60)) s"
}

# ---- One run of the prover over all.

tell_crates() {
    awk -v all="$1" '/^== / && $2 != "summary" { done++; printf "nomval: %s is through, %d of %d crates\n", $2, done, all; fflush() }'
}

prove_by_all() {
    (cd "$home" && PYTHONUNBUFFERED=1 rt all check --jobs "$(lanes)" 2>&1) | tee -a "$log" | tell_crates "$1" >&2 &
    all_pid=$!
    trap 'kill $all_pid 2>/dev/null' INT TERM
    begun=$(date +%s)
    while kill -0 "$all_pid" 2>/dev/null; do
        sleep 1
        [ $((($(date +%s) - begun) % 60)) -ne 59 ] || { say "proving since $(since "$begun")"; sleep 1; }
    done
    wait "$all_pid"
}

# ---- Crate by crate. In $work: `needed` (as above), and for each crate NAME the files NAME.lane (it is being proved, in
# that lane and since when), NAME.pid (of its prover), NAME.status (it ended so), NAME.log, and NAME.through.

fresh_lane() (
    mkdir -p "$1/crates" && cp "$top/crates.txt" "$1/" || return 1
    [ ! -f "$top/HANDLES" ] || cp "$top/HANDLES" "$1/"
    for folder in "$top"/crates/*/; do
        name=$(basename "$folder")
        mkdir -p "$1/crates/$name" || return 1
        for part in src specs proofs; do
            [ ! -d "$folder$part" ] || cp -R "$folder$part" "$1/crates/$name/" || return 1
        done
    done
)

# Starts a crate: start_crate NAME LANE JOBS. The program itself is built in its own place.
start_crate() {
    folder=$work/lane$2/crates/$1
    verb=lib
    [ "$1" != nomval_cli ] || folder=$home verb=run
    [ -d "$folder" ] || fresh_lane "$work/lane$2" || return 1
    echo "$2 $(date +%s)" >"$work/$1.lane"
    (
        cd "$folder" || exit
        rt "$verb" --jobs "$3" >"$work/$1.log" 2>&1 &
        echo $! >"$work/$1.pid"
        wait $!
        echo $? >"$work/$1.part"
        mv "$work/$1.part" "$work/$1.status"
    ) &
}

# The names of the crates that can start, the most urgent first.
ready_crates() {
    while read -r rank name waits; do
        [ ! -e "$work/$name.lane" ] || continue
        for below in $waits; do
            [ -e "$work/$below.through" ] || continue 2
        done
        echo "$rank $name"
    done <"$work/needed" | sort -rn | cut -d ' ' -f 2
}

free_lane() {
    lane=1
    while [ "$lane" -le "$lane_count" ]; do
        grep -qs "^$lane " "$work"/*.lane || { echo "$lane"; return; }
        lane=$((lane + 1))
    done
}

# Each crate gets its share of the cores that are free.
start_ready() {
    ready=$(ready_crates)
    waiting=$(echo "$ready" | grep -c .)
    for name in $ready; do
        lane=$(free_lane)
        [ -n "$lane" ] || return 0
        jobs=$(((lane_count - running) / waiting))
        start_crate "$name" "$lane" "$((jobs > 1 ? jobs : 1))" || return 1
        running=$((running + 1))
        waiting=$((waiting - 1))
    done
}

# Whether a crate that ended is through. The program ends with 64, since it is run without words; one whose prover was
# killed is tried once more.
is_through() {
    status=$(cat "$work/$1.status")
    case $1 in nomval_cli) [ -x "$program" ] && return 0 ;; esac
    [ "$status" -ne 0 ] || return 0
    if { [ "$status" -ge 128 ] || grep -q 'was killed' "$work/$1.log"; } && [ ! -e "$work/$1.again" ]; then
        say "$1 was stopped, most likely for memory: once more"
        : >"$work/$1.again"
        rm "$work/$1.status" "$work/$1.lane"
    fi
    return 1
}

# Looks which crates have ended; fails where one isn't proved.
gather() {
    for file in "$work"/*.status; do
        [ -e "$file" ] || continue
        name=$(basename "$file" .status)
        read -r _ begun <"$work/$name.lane"
        running=$((running - 1))
        cat "$work/$name.log" >>"$log"
        if is_through "$name"; then
            through=$((through + 1))
            rm "$work/$name.status"
            echo "- $begun" >"$work/$name.lane"
            : >"$work/$name.through"
            say "$name is through, $through of $1 crates ($(since "$begun"))"
        elif [ -e "$work/$name.status" ]; then
            say "$name is not proved:"
            tail -n 5 "$work/$name.log" >&2
            return 1
        fi
    done
}

tell_running() {
    for file in "$work"/*.lane; do
        read -r lane begun <"$file"
        [ "$lane" = - ] || printf '%s (%s), ' "$(basename "$file" .lane)" "$(since "$begun")"
    done | sed 's/, $//'
}

stop_proving() {
    for file in "$work"/*.pid; do
        name=$(basename "$file" .pid)
        [ ! -e "$file" ] || [ -e "$work/$name.through" ] || [ -e "$work/$name.status" ] || kill "$(cat "$file")" 2>/dev/null
    done
    wait
    rm -rf "$work"
}

prove_by_each() {
    work=$top/.git/nomval-proof.$$
    [ -d "$top/.git" ] || work=$(mktemp -d) || return 1
    mkdir -p "$work" || return 1
    running=0 through=0 lane_count=$(lanes)
    trap 'stop_proving; exit 130' INT TERM HUP
    needed_crates >"$work/needed"
    told=$(date +%s)
    while [ "$through" -lt "$1" ]; do
        before=$through
        gather "$1" && start_ready || { stop_proving; return 1; }
        [ "$through" = "$before" ] || told=$(date +%s)
        if [ $(($(date +%s) - told)) -ge 50 ]; then
            say "still proving $(tell_running); $through of $1 crates are through"
            told=$(date +%s)
        fi
        [ "$through" -ge "$1" ] || sleep 1
    done
    trap - INT TERM HUP
    rm -rf "$work"
}

prove_and_build() {
    count=$(needed_crates | wc -l)
    say "proving $count crates, which takes some minutes; all that the prover says is kept in $log"
    begun_all=$(date +%s)
    case ${NOMVAL_PROVE:-all} in
    each) prove_by_each "$count" ;;
    *) prove_by_all "$count" ;;
    esac || return 1
    # The command also runs the program, without words, and so ends with the status of a wrong use.
    [ -x "$program" ] || (cd "$home" && rt run) >>"$log" 2>&1
    [ ! -x "$program" ] || say "the program is built, after $(since "$begun_all")"
}

prove_where_needed() {
    if [ -x "$program" ] && [ -z "$(newer_source)" ]; then
        return
    fi
    if ! command -v rt >/dev/null; then
        say 'the program must be proved first, and rt, the prover, is not on the path'
        exit 70
    fi
    mkdir -p "$home/out" || exit 70
    rm -f "$program"
    : >"$log"
    prove_and_build
    if [ ! -x "$program" ]; then
        say "the program was not built; see $log"
        exit 70
    fi
    touch "$program"
}
