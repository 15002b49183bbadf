# What `nomval help`, `--help`, `-h` and `--version` say, and the form of each command.

COMMANDS='solve solve-flat replay replay-flat check check-flat flat make'

form_of() {
    case $1 in
    solve) echo 'solve NET SCN CDF RES OUT [--tol n] [--boxes n]' ;;
    solve-flat) echo 'solve-flat PROBLEM OUT [--tol n] [--boxes n]' ;;
    replay) echo 'replay NET SCN CDF RES SETTING [--tol n]' ;;
    replay-flat) echo 'replay-flat PROBLEM SETTING [--tol n]' ;;
    check) echo 'check NET SCN CDF RES TREE' ;;
    check-flat) echo 'check-flat PROBLEM TREE' ;;
    flat) echo 'flat NET SCN CDF RES OUT' ;;
    make) echo 'make N OUT' ;;
    *) return 1 ;;
    esac
}

# How many words for files, or numbers, stand after the command.
words_of() {
    set -- $(form_of "$1" | sed 's/ \[.*//')
    echo $(($# - 1))
}

example_of() {
    case $1 in
    solve) echo 'nomval solve examples/network.net examples/scenario.scn examples/decisions.cdf examples/resistances.csv out.json' ;;
    solve-flat) echo 'nomval solve-flat examples/flow_of_three.flat out.json --tol 0' ;;
    replay) echo 'nomval replay examples/network.net examples/scenario.scn none examples/resistances.csv out.json' ;;
    replay-flat) echo 'nomval replay-flat examples/flow_of_three.flat examples/flow_of_three.json --tol 0' ;;
    check) echo 'nomval check n.net s.scn none r.csv out.tree' ;;
    check-flat) echo 'nomval check-flat examples/drop_of_nine.flat examples/drop_of_nine.tree' ;;
    flat) echo 'nomval flat examples/network.net examples/scenario.scn none examples/resistances.csv problem.flat' ;;
    make) echo 'nomval make 200 line.flat' ;;
    esac
}

about() {
    case $1 in
    solve | solve-flat) cat <<'TEXT' ;;
Searches for a setting that carries the nomination, or for a tree that shows that nothing does.
OUT holds the setting where it says `accepted`, else the tree: whole where it says `rejected`, with open boxes where it
says `undecided`. --tol is the tolerance of a pipe's and a resistor's law in Pa^2, 0 to 10^16, 10^8 where none is given.
--boxes is how many boxes may be split, 1 to 16,384, 256 where none is given: more boxes may decide what was left open.
TEXT
    replay | replay-flat) cat <<'TEXT' ;;
Says whether a setting carries the nomination within the tolerance (`kept`), or the first law that it breaks (`broken`).
Settings are what `solve` writes, or your own in that form.
TEXT
    check | check-flat) cat <<'TEXT' ;;
Says whether a text is a tree that refutes the nomination (`passes`), or its first line at fault (`not refutation`).
Who hears `passes` knows that nothing carries the nomination, whoever made the tree.
TEXT
    flat) cat <<'TEXT' ;;
Joins the four files to one text, a flat problem, for the commands with `-flat`.
TEXT
    make) cat <<'TEXT' ;;
Makes a problem of N nodes in a line (1 to 2,000), searches it, and says what is found. OUT holds its flat text.
TEXT
    esac
}

tell_files() {
    cat <<'TEXT'
NET, SCN and CDF are GasLib's network, scenario and decision files (CDF is the word `none` where there is none), RES is
the table of resistances, which `tools/resistances` writes. PROBLEM is a flat problem.
TEXT
}

tell_all() {
    echo 'nomval tests whether a gas network can carry a nomination, with an answer that anybody can check.'
    echo
    for command in $COMMANDS; do
        echo "  nomval $(form_of "$command")"
        about "$command" | sed -n '1{s/^/      /;p;}'
        echo "      Example: $(example_of "$command")"
    done
    echo "  nomval help [COMMAND] | --version"
    echo
    tell_files
    cat <<'TEXT'

Options:
  --tol n      tolerance in Pa^2, 0 to 10^16 (10^8)
  --boxes n    boxes that may be split, 1 to 16,384 (256)

Exit codes:
  0   accepted, kept, passes, written, made ..     65  bad .., too long ..: a file stands for nothing
  1   rejected                                     66  read fault: a file can't be read
  2   undecided ..                                 71  no memory
  3   broken .., not refutation ..                 72  the words can't be had
  64  usage word N: the words aren't a command     74  OUT, or the line, can't be written
  70  (the script) the program isn't there, or couldn't be built
TEXT
}

tell_help() {
    if [ -z "$1" ]; then
        tell_all
        return
    fi
    if ! form_of "$1" >/dev/null; then
        echo "nomval: no command $1; there are: $COMMANDS" >&2
        return 64
    fi
    echo "nomval $(form_of "$1")"
    echo
    about "$1"
    tell_files
    echo
    echo "Example: $(example_of "$1")"
}

tell_version() {
    if [ -f "$top/crates.txt" ]; then
        rt version 2>/dev/null || echo 'rt is not on the path'
        echo "commit $(git -C "$top" rev-parse HEAD 2>/dev/null || echo unknown)"
    else
        cat "$shell/../version"
    fi
}
