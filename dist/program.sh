# shellcheck shell=bash disable=SC2034,SC2154
# What ./sixel, ./prove, ./install and ./package share. They set `here`, the top of the repository, and read this file.
#
# There are two programs: the one that was proved and built in this checkout, and the one that came with it. Beside each
# stands a file with two lines: a sum of the sources that it was built from, and its own.

built=$here/crates/sixel/out/sixel
dist=$here/dist/sixel
# What the last look found. git ignores it, so no clone has it.
looked=$here/dist/looked

# Ends the script: there is no program, for the reason that is given.
give_up() {
    echo "sixel: $1" >&2
    exit 125
}

# The repository's crates that the program is built from, each after those that it uses, as crates.txt has them.
list_uses() {
    awk -F ': *' '
        function visit(crate, used, count, i) {
            if (!(crate in uses) || seen[crate]++) return
            count = split(uses[crate], used, " ")
            for (i = 1; i <= count; i++) visit(used[i])
            print crate ": " uses[crate]
        }
        { uses[$1] = $2 }
        END { visit("sixel") }' "$here/crates.txt"
}

list_crates() {
    list_uses | cut -d : -f 1
}

# `find` in the folders of these crates, by names below the top: a sum doesn't depend on where the repository is.
find_in_crates() (
    cd -P -- "$here" || return
    mapfile -t crates < <(list_crates)
    [[ ${#crates[@]} -gt 0 ]] && find "${crates[@]/#/crates/}" -name out -prune -o "$@"
)

# The sum of the lines of crates.txt and of the sources.
sum_sources() (
    cd -P -- "$here" && {
        list_uses && find_in_crates -path '*/must-fail' -prune -o -type f \( -name '*.rt' -o -name '*.antt' \) -print0 |
            LC_ALL=C sort -z | xargs -0 sha256sum
    } | sha256sum | cut -d ' ' -f 1
)

# Why they have no sum.
tell_unread() {
    local errors
    errors=$(sum_sources 2>&1 > /dev/null) || true
    errors=${errors%%$'\n'*}
    echo "the program's sources can't all be read${errors:+: $errors}"
}

sum_program() {
    { sha256sum < "$1"; } 2> /dev/null | cut -d ' ' -f 1
}

# Writes a file whole, or leaves it as it is.
keep() {
    local file=$1 text=$2
    if { printf '%s\n' "$text" > "$file.$$" && mv -f -T -- "$file.$$" "$file"; } 2> /dev/null; then
        return
    fi
    rm -f -- "$file.$$" 2> /dev/null
    return 1
}

# The sums beside a program.
read_sums() {
    [[ -r $1.built ]] && printf '%s\n' "$(< "$1.built")"
}

# Whether the sums beside a program have its own.
has_its_sum() {
    local sums sum
    sums=$(read_sums "$1") && sum=$(sum_program "$1") && [[ $sums == *$'\n'"$sum" ]]
}

# Whether the sums beside a program are those of the sources and of the program. The sum of the sources may be given.
has_its_sums() {
    local kept sum sources=${2:-}
    kept=$(read_sums "$1") && sum=$(sum_program "$1") || return 1
    [[ -n $sources ]] || sources=$(sum_sources 2> /dev/null) || return 1
    [[ $kept == "$sources"$'\n'"$sum" ]]
}

# A program for another machine, or one that needs a newer C library, doesn't.
starts() {
    [[ -x $1 ]] && "$1" --version > /dev/null 2>&1
}

# The places whose change may make another program the right one, by names below the top. A source that is new or gone
# changes its folder.
list_places() (
    cd -P -- "$here" || return
    for place in crates.txt dist/{program.sh,sixel,sixel.built} crates/sixel/out{,/sixel,/sixel.built}; do
        [[ ! -e $place ]] || printf '%s\n' "$place"
    done
    find_in_crates -path '*/must-fail' -prune -o \( -type d -o -name '*.rt' -o -name '*.antt' \) -print
)

# What the file system tells of the places that are read, a line each. One process takes as many as it can.
stat_places() (
    cd -P -- "$here" && LC_ALL=C exec xargs -d '\n' -s 1000000 stat -L --printf "$1\n" -- 2> /dev/null
)

# A sum of which files they are, of their sizes, and of when they were last written and last changed in any way. No program
# can set back the last of these.
sum_places() {
    stat_places '%i %s %.9Y %.9Z' | sha256sum 2> /dev/null
}

# The second that it is by the clock of the file system, if something can be written beside dist/sixel.
tell_second() {
    local file=$looked.$$ status=0
    { true > "$file" && stat --printf '%Z\n' -- "$file"; } 2> /dev/null || status=$?
    rm -f -- "$file" 2> /dev/null || true
    return "$status"
}

# Keeps for the next call which program is the right one, and the sum of the places before anything was read. A change
# in the second of that sum could leave it as it is, if the file system counts in seconds: then nothing is kept.
keep_look() {
    local second=$1 state=$2 places=$3 last
    last=$(printf '%s\n' "$places" | stat_places %Z | sort -n | tail -n 1) && [[ $last -lt $second ]] &&
        keep "$looked" "$state"$'\n'"${program#"$here/"}"$'\n'"$places"
}

# Sets `program` to the one that the last look found, if no place has changed since.
recall_program() {
    local state name now
    { read -r state && read -r name && now=$(sum_places); } 2> /dev/null < "$looked" || return 1
    program=$here/$name
    [[ $now == "$state" ]] && starts "$program"
}

# Sets `program` to one that has the sum of the sources: that which was built here, else that in dist/. Without crates/
# there are no sources that dist/sixel could be older than.
look_for_program() {
    local places second state= sources
    program=$dist
    if [[ ! -e $here/crates ]]; then
        has_its_sum "$dist" && starts "$dist"
        return
    fi
    places=$(list_places 2> /dev/null) && second=$(tell_second) &&
        state=$(printf '%s\n' "$places" | sum_places) || state=
    sources=$(sum_sources 2> /dev/null) || return 1
    for program in "$built" "$dist"; do
        if has_its_sums "$program" "$sources" && starts "$program"; then
            [[ -z $state ]] || keep_look "$second" "$state" "$places" || true
            return
        fi
    done
    return 1
}

# Why dist/sixel isn't run.
tell_why() {
    local sources
    if [[ $(uname -sm) != "Linux x86_64" ]]; then
        echo "dist/sixel is for Linux on x86-64, and this is $(uname -sm)"
    elif [[ ! -e $dist ]]; then
        echo "there is no dist/sixel (\`git checkout dist\` brings it back)"
    elif ! has_its_sum "$dist"; then
        echo "dist/sixel is damaged, or isn't the program of dist/sixel.built (\`git checkout dist\` brings both back)"
    elif [[ -e $here/crates ]] && ! sources=$(sum_sources 2> /dev/null); then
        tell_unread
    elif [[ -e $here/crates ]] && ! has_its_sums "$dist" "$sources"; then
        echo "dist/sixel is older than the sources"
    elif [[ ! -x $dist ]]; then
        echo "dist/sixel can't be executed"
    else
        echo "dist/sixel doesn't start here: $("$dist" --version 2>&1 | head -n 1)"
    fi
}

# What rt is at, by its log.
tell_step() {
    awk -v crates="$(list_crates)" '
        BEGIN { count = split(crates, names); step = "looking over the sources" }
        /^rt: waiting for another rt / { step = "waiting for another rt" }
        /^rt: chose --jobs / {
            for (i = 1; i <= count; i++) if (names[i] == $NF) crate = $NF ", crate " i " of " count
            step = "proving " crate
        }
        /^so far: / { step = "proving " crate ": " $3 " of " $5 " functions" }
        /^logic=proved / { step = "compiling " crate }
        END { print step }' "$1"
}

# A line that tells the step and the time so far: on a terminal the same line each second, elsewhere a line for a step
# but for the counts. An up-to-date program is built before the first.
show_progress() {
    local log=$1 why=${2:+$2, so the program is proved and built once} step last=
    # A pause may outlast the build. It holds no stream open for whoever reads what is written here.
    sleep 3 2> /dev/null
    echo "sixel: ${why:-proving and building the program once}, about 20 minutes on 4 cores; the log is $log" >&2
    while kill -0 $$ 2> /dev/null; do
        step=$(tell_step "$log")
        if [[ -t 2 ]]; then
            printf '\r\033[Ksixel: %s, %d:%02d' "$step" $((SECONDS / 60)) $((SECONDS % 60)) >&2
        elif [[ ${step%%:*} != "$last" ]]; then
            last=${step%%:*}
            printf 'sixel: %s, %d:%02d\n' "$last" $((SECONDS / 60)) $((SECONDS % 60)) >&2
        fi
        sleep 1 2> /dev/null
    done
}

# Proves and builds the program, over what is kept of earlier builds, or ends the script. The words say why, if that
# isn't known yet.
build() {
    local why=${1:+$1, and } log sources sum progress status=0
    [[ -e $here/crates ]] || give_up "${why}there are no sources to build it from"
    command -v rt > /dev/null ||
        give_up "${why}the command rt of the Rattle kit, which proves and builds it, is not on the PATH"
    [[ -w $here/crates/sixel ]] || give_up "${why}the program can't be built: $here can't be written"
    log=$(mktemp 2> /dev/null) || give_up "${why}the program can't be built: no file can be made in ${TMPDIR:-/tmp}"
    sources=$(sum_sources 2> /dev/null) || give_up "$(tell_unread)"
    show_progress "$log" "${1:-}" > /dev/null &
    progress=$!
    # The kit has no command that builds a program and doesn't run it, so it is asked for its help. Its other compiler's
    # program isn't the proved one.
    (cd -P -- "$here/crates/sixel" && env -u RT_BACKEND rt run -- --help) > "$log" 2>&1 < /dev/null || status=$?
    kill "$progress"
    wait "$progress" 2> /dev/null || true
    [[ ! -t 2 ]] || printf '\r\033[K' >&2
    if [[ $status -ne 0 ]] || ! sum=$(sum_program "$built"); then
        tail -n 20 -- "$log" >&2
        give_up "the program could not be built; all that rt wrote is in $log"
    fi
    keep "$built.built" "$sources"$'\n'"$sum" || give_up "the program's sums can't be written beside $built"
    rm -f -- "$log"
}

# Ends the script if a command is missing without which nothing can be summed.
want_sums() {
    local name
    for name in awk cut find sha256sum sort uname xargs; do
        command -v "$name" > /dev/null ||
            give_up "the command $name is missing, so nothing tells which program is that of these sources"
    done
}

# Proves and builds the program, whatever is there.
prove() {
    want_sums
    build
    has_its_sums "$built" || give_up "the sources have changed while the program was built"
}

# Sets `program` to that of this checkout's sources, proved and built here or brought along, or builds it.
find_program() {
    if recall_program; then
        return
    fi
    want_sums
    if ! look_for_program; then
        build "$(tell_why)"
        program=$built
    fi
}
