# What ./screen and ./drop_empty_adds share: both run a script through a program. Where the program is not built yet, or a file that it is made of is newer,
# the toolchain proves and builds it first. The one that reads this file has set `name`, its own and its program's, and `root`, the repository's folder, and
# has a function `usage`.

program=$root/target/bin/$name

say() { printf '%s: %s\n' "$name" "$*" >&2; }

fail() {
    say "$*"
    exit 1
}

wrong() {
    # a name with a line break in it would make two lines
    say "$(printf '%s' "$*" | tr '\n' '?')"
    exit 2
}

# The crates that the program is made of, in the order in which they are proved.
crates() {
    for crate in $(sed -n "s/^$name: *//p" "$root/crates.txt") "$name"; do
        [ ! -d "$root/crates/$crate" ] || echo "$crate"
    done
}

# Whether the program is there and nothing that it is made of is newer. A copy without crates/ has nothing newer. What the toolchain makes is in the folders out
# of the crates, and changes the time of a crate's own folder.
is_built() {
    [ -x "$program" ] || return 1
    [ -f "$root/crates.txt" ] || return 0
    newer=$(cd "$root" && find crates.txt $(crates | sed 's|^|crates/|') \
        -path 'crates/*/out' -prune -o \( -path 'crates/*/*' -o -name crates.txt \) -newer "$program" -print | head -n 1)
    [ -z "$newer" ]
}

# Proves a crate; the program's own comes last, and is built.
prove() {
    if [ "$1" = "$name" ]; then
        "$root/tools/build" "$name"
    else
        cd "$root/crates/$1" && rt lib
    fi
}

build() {
    log=$root/target/$name.log
    # one for both programs, which share crates
    lock=$root/target/build.lock
    mkdir -p "$root/target" 2>/dev/null && (: >"$lock") 2>/dev/null || fail "the program is to be built, and $root/target cannot be written"
    # one build at a time
    exec 9>"$lock"
    if command -v flock >/dev/null; then
        flock -n 9 || { say 'another run builds a program: waiting for it'; flock 9; }
    fi
    if ! is_built; then
        say 'proving and building the program, about three minutes in all where nothing is proved yet; later runs start at once'
        started=$root/target/$name.started
        : >"$started"
        count=$(crates | wc -l)
        n=0
        for crate in $(crates); do
            n=$((n + 1))
            say "proving $crate ($n of $count)"
            (prove "$crate" </dev/null 9>&-) >"$log" 2>&1 || {
                tail -n 20 "$log" >&2
                fail "$crate was not proved; target/$name.log has all that the toolchain said"
            }
        done
        touch -r "$started" "$program"
    fi
    exec 9>&-
}

# Tests the arguments, and sets `file`, the script's name, or - for standard input.
take_script() {
    file=-
    case ${1-} in
    --help) usage; exit ;;
    --) shift ;;
    -) ;;
    -*) wrong "no option $1; ./$name --help says what there is" ;;
    esac
    [ $# -le 1 ] || wrong "more than one file; ./$name --help says what there is"
    if [ $# -eq 0 ]; then
        [ ! -t 0 ] || wrong "no file; ./$name --help says what there is"
    else
        file=$1
    fi
    if [ "$file" != - ]; then
        [ -e "$file" ] || wrong "$file: there is no such file"
        [ ! -d "$file" ] || wrong "$file: this is a directory"
        [ -r "$file" ] || wrong "$file: this file cannot be read"
    fi
}

# Runs the program on `file`, and exits.
run_program() {
    if ! is_built; then
        if command -v rt >/dev/null; then
            build
        elif [ -x "$program" ]; then
            say 'the program is older than the files in crates/, and there is no toolchain `rt` to build it anew: it is run as it is'
        else
            fail 'the program is not built, and there is no toolchain `rt` to build it'
        fi
    fi
    (: 3>&1) 2>/dev/null || fail 'standard output is closed'
    # The program has no exit status: it says on standard error what it could not do.
    status=0
    run() { said=$("$program" 2>&1 >&3 3>&-) || status=$?; }
    if [ "$file" = - ]; then run 3>&1; else run 3>&1 <"$file"; fi
    if [ -n "$said" ]; then
        printf '%s\n' "$said" >&2
        [ $status -ne 0 ] || status=1
    fi
    exit $status
}
