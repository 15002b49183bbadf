# One sentence on the standard error after an exit status of 64, 65, 66, 71, 72 or 74: what was wrong, in which word or
# file, and what to do next.

hint() {
    printf 'nomval: %s\n' "$*"
}

# The file that a name in the program's line means: file_for NAME COMMAND WORDS..
file_for() {
    name=$1
    command=$2
    shift 2
    case $name in
    net | problem) printf '%s' "${1-}" ;;
    scn) printf '%s' "${2-}" ;;
    cdf) printf '%s' "${3-}" ;;
    res) printf '%s' "${4-}" ;;
    setting | tree) case $command in *-flat) printf '%s' "${2-}" ;; *) printf '%s' "${5-}" ;; esac ;;
    esac
}

# Line and column of a place in a file, both from 1.
place_in() {
    head -c "$2" "$1" 2>/dev/null | awk '
        { column = length($0); line = NR }
        END { print (NR ? line : 1), column + 1 }'
}

hint_usage() {
    at=$1
    shift
    if [ $# -eq 0 ]; then
        hint 'no command was given; `nomval help` lists them'
    elif ! form=$(form_of "$1"); then
        hint "\"$1\" is no command; \`nomval help\` lists them"
    elif [ "$at" -ge $# ]; then
        hint "more words are needed after \"$(last_word "$@")\": nomval $form"
    else
        place=$at
        first=$1
        while [ "$place" -gt 0 ]; do
            shift
            place=$((place - 1))
        done
        hint "word $at, \"$1\", $(what_is_wrong "$1" "$at" "$(words_of "$first")"): nomval $form"
    fi
}

last_word() {
    while [ $# -gt 1 ]; do shift; done
    printf '%s' "$1"
}

what_is_wrong() {
    case $1 in
    --tol=* | --boxes=*) echo 'has its number behind a "="; it is a word of its own' ;;
    --tol | --boxes) echo 'stands where it may not, or stands twice' ;;
    -*) [ "$2" -gt "$3" ] && echo 'is no option of this command' || echo 'begins with "-", and no file word may' ;;
    '') echo 'is empty' ;;
    *) [ "$2" -gt "$3" ] && echo 'is more than the command takes, or no number within its limits' \
        || echo 'is no number within its limits' ;;
    esac
}

hint_read() {
    command=$1
    shift
    count=$(words_of "$command")
    case $command in
    solve | solve-flat | flat) count=$((count - 1)) ;;
    esac
    number=0
    for word in "$@"; do
        number=$((number + 1))
        [ "$number" -le "$count" ] || break
        [ "$word" = none ] && [ "$number" = 3 ] && continue
        if [ ! -e "$word" ]; then
            hint "$word isn't there; look at the name, and at the folder that you are in"
            return
        elif [ -d "$word" ] || [ ! -r "$word" ]; then
            hint "$word $([ -d "$word" ] && echo 'is a folder' || echo "can't be read by you")"
            return
        fi
    done
    hint 'a file could not be read to its end; try again, and look at its disk'
}

# A place in a file that is no outline: hint_outline FILE FAULT..
hint_outline() {
    file=$1
    shift
    place=$(place_in "$file" "${*##* }")
    case $* in
    not\ utf8*) why='is no UTF-8 there; save it as UTF-8' ;;
    doctype*) why='has a DOCTYPE there; take it out' ;;
    cdata*) why='has a CDATA section there; write its text plainly' ;;
    too\ deep*) why='has more than 64 elements within one another there' ;;
    *) why="is no whole XML there: a tag is broken or isn't closed, or the file ends too early" ;;
    esac
    hint "$file, line ${place% *}, column ${place#* }: the file $why"
}

units_for() {
    case $1 in
    *[fF]low*) echo '1000m_cube_per_hour and m_cube_per_hour' ;;
    *) echo 'bar, barg and Pa' ;;
    esac
}

# A network, scenario or decision file that stands for nothing: hint_file FILE NAME FAULT..
hint_file() {
    file=$1
    sort=$2
    shift 2
    case $* in
    *\ at\ [0-9]*) hint_outline "$file" "$@" ;;
    wrong\ root) hint "$file: its first element isn't that of a $(sort_of "$sort"); look whether the words stand in the order NET SCN CDF RES" ;;
    missing\ *\ nodes | missing\ *\ scenario) hint "$file: no element $3 in $2; look whether the words stand in the order NET SCN CDF RES" ;;
    missing\ *\ id | missing\ *\ from | missing\ *\ to | missing\ *\ type | missing\ *\ bound | missing\ *\ mode) hint "$file: $2 has no attribute $3" ;;
    missing\ *) hint "$file: $2 has no $3; where a $3 is there, its attribute value or unit is what is missing" ;;
    bad\ unit\ *) hint "$file: the unit of $4 of $3 isn't read; the units that are read there are $(units_for "$4")" ;;
    bad\ value\ *) hint "$file: $4 of $3 is no decimal, or no id; write digits with at most one point, and no \"&\" in an id" ;;
    too\ large\ *) hint "$file: $4 of $3 is past what is taken: pressures from 0 to 1,000 bar, flows to 1,000,000 in 1000m_cube_per_hour" ;;
    bad\ word\ *) hint "$file: $4 isn't read where it stands, in $3; docs/formats.md lists the words" ;;
    unknown\ attribute\ *) hint "$file: $3 has the attribute $4, which isn't read and could change the decision; rewrite it without" ;;
    *) hint "$file: $*" ;;
    esac
}

# hint_bad FILE NAME FAULT..
hint_bad() {
    file=$1
    sort=$2
    shift 2
    case $sort in
    net | scn | cdf) hint_file "$file" "$sort" "$@" ;;
    res) hint "$file, record $2: $(record_of "$file" "$2"); wanted is pipe,ID,LO,HI,DEN or resistor,ID,LO,HI,DEN or station,ID,NUM,DEN,RISE, in whole numbers" ;;
    join) hint_join "$@" ;;
    problem) hint_problem "$file" "$@" ;;
    setting) hint_setting "$file" "$@" ;;
    esac
}

sort_of() {
    case $1 in
    scn) echo 'scenario file (boundaryValue)' ;;
    cdf) echo 'decision file (combinedDecisions)' ;;
    *) echo 'network file' ;;
    esac
}

record_of() {
    awk -v wanted="$2" 'NF { n++; if (n == wanted) { print "it is \"" substr($0, 1, 100) "\""; found = 1; exit } }
        END { if (!found) print "it isn'"'"'t on a line of its own" }' "$1" 2>/dev/null
}

hint_join() {
    case "$*" in
    no\ such\ node\ *) hint "the four files don't fit: ${*#no such node } is named, and the network has no such node" ;;
    wrong\ type\ *) hint "the four files don't fit: ${*#wrong type } is of another kind in the network than where it is named" ;;
    twice\ nominated\ *) hint "the scenario nominates ${*#twice nominated } twice; keep one" ;;
    no\ resistance\ *) hint "the table has no record for ${*#no resistance }; \`tools/resistances\` writes one for each pipe" ;;
    no\ station\ *) hint "the table has no record station,${*#no station },NUM,DEN,RISE" ;;
    twice\ row\ *) hint "record ${*#twice row } of the table is for an element that has one already" ;;
    unused\ row\ *) hint "record ${*#unused row } of the table is for no element of the network; take it out, or mend its id" ;;
    *) hint "the four files don't fit: $*; docs/model.md has the limits" ;;
    esac
}

hint_problem() {
    file=$1
    shift
    case "$*" in
    'line '* | 'over limit line '*)
        line=${*##* }
        text=$(sed -n "${line}{p;q;}" "$file" 2>/dev/null | cut -c 1-100)
        case $* in
        over*) hint "$file, line $line: a number or id of \"$text\" is past its limits; docs/model.md has them" ;;
        *) hint "$file, line $line: \"$text\" is no line of a flat problem there (one space between words, a line feed at each end, \`end\` last); docs/formats.md has the form" ;;
        esac
        ;;
    *) hint "$file: $*; docs/model.md says what a problem must keep" ;;
    esac
}

hint_setting() {
    file=$1
    shift
    case "$*" in
    'not json') hint "$file is no JSON; a setting is what \`solve\` writes where it says accepted" ;;
    'not setting whole') hint "$file is JSON, but no object with just the keys arcs, decisions and nodes" ;;
    not\ setting\ *) hint "$file: the list ${*##* } doesn't have the problem's entries in its order; was it made for another problem?" ;;
    *) hint "$file: a number in ${*##* } isn't whole, or is past its limits" ;;
    esac
}

hint_write() {
    command=$1
    shift
    out=
    case $command in
    solve | flat) out=${5-} ;;
    solve-flat | make) out=${2-} ;;
    esac
    folder=$(dirname "${out:-.}")
    if [ -n "$out" ] && [ ! -d "$folder" ]; then
        hint "the folder $folder isn't there; make it first"
    elif [ -n "$out" ] && [ -d "$out" ]; then
        hint "$out is a folder; name a file"
    elif [ -n "$out" ] && { [ -e "$out" ] && [ ! -w "$out" ] || [ ! -w "$folder" ]; }; then
        hint "$out can't be written by you"
    else
        hint "${out:+$out or }the standard output could not be written; is its disk full, or its reader gone? ${out:+$out is no result}"
    fi
}

# give_hint STATUS LINE WORDS..
give_hint() {
    status_told=$1
    said=$2
    shift 2
    case $status_told in
    64) hint_usage "${said##* }" "$@" ;;
    65)
        command=$1
        shift
        case $said in
        too\ long\ *) hint "$(file_for "${said#too long }" "$command" "$@") is longer than 67,108,864 bytes" ;;
        bad\ *)
            fault=${said#bad }
            name=${fault%% *}
            # The fault's words are split at spaces on purpose.
            set -f
            hint_bad "$(file_for "$name" "$command" "$@")" "$name" ${fault#* }
            set +f
            ;;
        esac
        ;;
    66) hint_read "$@" ;;
    71) hint 'memory ran out; give fewer boxes (--boxes), or a machine with more memory' ;;
    72) hint 'the words of the command line could not be had' ;;
    74) hint_write "$@" ;;
    esac
}
