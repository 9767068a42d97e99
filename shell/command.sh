# Sourced first by every command, with `root` set: how a command fails, and the words that all of them know. The comment at a
# command's head is its help, and the first line of that its usage.

self=$(realpath --relative-to "$root" "$(readlink -f "$0")")

fail() {
    echo "FAILED: $*"
    exit 1
}

print_help() {
    awk 'NR > 1 { if (!sub(/^# ?/, "")) exit; print }' "$root/$self"
}

print_version() {
    local version commit=
    version=$(sed -n 's/^version = "\(.*\)"$/\1/p' "$root/rust/host/Cargo.toml")
    # a copy that is no checkout may lie inside another's
    [ ! -e "$root/.git" ] || commit=$(git -C "$root" rev-parse --short HEAD 2>/dev/null) || commit=
    echo "$self of Damsonpouch $version${commit:+, commit $commit}"
}

# wrong_usage WHAT: says what was wrong, how the command is called, and where more is said
wrong_usage() {
    {
        echo "$self: $1"
        print_help | head -n 1
        echo "$self --help says more"
    } >&2
    exit 1
}

# usage_alone: of a command whose tests hold it to saying no more
usage_alone() {
    print_help | head -n 1 >&2
    exit 1
}

# known_words WORDS..: -h, --help and --version among them are done, and end the command
known_words() {
    local word
    for word in "$@"; do
        case $word in
        -h | --help)
            print_help
            exit
            ;;
        --version)
            print_version
            exit
            ;;
        esac
    done
}

# no_options WORDS..: for a command whose words are names
no_options() {
    local word
    known_words "$@"
    for word in "$@"; do
        case $word in '' | -*) wrong_usage "there is no option $word" ;; esac
    done
}

# no_words WORDS..: for a command that takes none but those
no_words() {
    known_words "$@"
    [ $# -eq 0 ] || wrong_usage "it takes no words, and was given: $*"
}

# count_word NAME [WORD]: for a command that takes a number, which may be left out
count_word() {
    local name=$1
    shift
    known_words "$@"
    [ $# -le 1 ] || wrong_usage "it takes one word at most, and was given: $*"
    case ${1-1} in '' | 0* | *[!0-9]*) wrong_usage "$name is a number from 1, and not: $1" ;; esac
}

# file_word WORD: a word that is no option is the one FILE of the command, $file
file=
file_word() {
    case $1 in
    '') wrong_usage "a FILE has a name, and one is empty" ;;
    -*) wrong_usage "there is no option $1" ;;
    esac
    [ -z "$file" ] || wrong_usage "it takes one FILE, and was given $file and $1"
    file=$1
}

# reads_from FILE, once the output goes to 3: FILE, or standard input where it is empty, becomes the input, unless it cannot be read
# or is what the output goes to
reads_from() {
    if [ -n "$1" ]; then
        [ ! -d "$1" ] || fail "$1 is a directory"
        [ -r "$1" ] || fail "cannot read $1"
        exec <"$1"
    fi
    if [ -f /dev/stdin ] && [ /dev/stdin -ef /dev/fd/3 ]; then
        fail "${1:-standard input} is the file to be read: the output would go into it"
    fi
}
