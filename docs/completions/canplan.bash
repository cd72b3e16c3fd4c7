# Made by tools/completions.py of the help of canplan. Source this file, or put it into the folder of bash completions.

# Completes the word by those of a list.
_canplan_words() {
    mapfile -t COMPREPLY < <(compgen -W "$1" -- "$word")
}

# Completes the last part of a list with commas.
_canplan_list() {
    local before=""
    [[ $word == *,* ]] && before="${word%,*},"
    mapfile -t COMPREPLY < <(compgen -P "$before" -W "$1" -- "${word##*,}")
}

# Completes the word by files (-f) or folders (-d).
_canplan_files() {
    compopt -o filenames 2> /dev/null
    mapfile -t COMPREPLY < <(compgen "$1" -- "$word")
}

_canplan() {
    local word="${COMP_WORDS[COMP_CWORD]}" before="${COMP_WORDS[COMP_CWORD - 1]}" sub="${COMP_WORDS[1]}" place=1 at it
    COMPREPLY=()
    # A word `--rate=5` comes as three.
    if [[ $word == "=" ]]; then
        word=""
    elif [[ $before == "=" ]]; then
        before="${COMP_WORDS[COMP_CWORD - 2]}"
    fi
    if ((COMP_CWORD == 1)); then
        _canplan_words "test plan room check boot verify nmt scan read write run judge report export tidy init diff watch explain help --help --version"
        return
    fi
    # The value of an option.
    case "$sub $before" in
    "test --rate" | "nmt --rate" | "scan --rate" | "read --rate" | "write --rate" | "init --rate")
        _canplan_words "10 20 50 125 250 500 800 1000"
        return
        ;;
    "plan --setup" | "room --setup" | "check --setup" | "boot --setup" | "boot --port" | "boot --report" | "verify --setup" | "verify --port" | "nmt --port" | "scan --port" | "read --port" | "read --eds" | "write --port" | "write --eds" | "run --setup" | "judge --setup" | "report --setup" | "report --trace" | "report --log" | "export --setup" | "init --port" | "watch --setup" | "watch --port" | "watch --csv")
        _canplan_files -f
        return
        ;;
    "plan --rates" | "room --rates" | "check --rates" | "boot --rates" | "verify --rates" | "run --rates" | "judge --rates" | "report --rates" | "export --rates" | "tidy --rates" | "watch --rates")
        _canplan_list "10 20 50 125 250 500 800 1000"
        return
        ;;
    "room --anew" | "boot --seed" | "boot --only" | "boot --boot-limit" | "boot --watch" | "boot --limit" | "boot --title" | "boot --date" | "verify --only" | "verify --gently" | "verify --limit" | "nmt --limit" | "scan --up-to" | "scan --gently" | "scan --limit" | "read --limit" | "write --limit" | "run --seed" | "run --until" | "report --title" | "report --date" | "report --error" | "report --drift" | "report --channel" | "export --manager" | "init --up-to" | "init --gently" | "init --limit" | "watch --for" | "watch --error" | "watch --drift" | "watch --channel")
        :
        return
        ;;
    "scan --eds")
        _canplan_files -d
        return
        ;;
    "read --type" | "write --type")
        _canplan_words "BOOLEAN INTEGER8 INTEGER16 INTEGER32 INTEGER64 UNSIGNED8 UNSIGNED16 UNSIGNED32 UNSIGNED64 REAL32 REAL64 VISIBLE_STRING OCTET_STRING DOMAIN"
        return
        ;;
    "tidy --access")
        _canplan_words "ro wo rw rwr rww const"
        return
        ;;
    "tidy --unlisted")
        _canplan_words "add leave"
        return
        ;;
    esac
    if [[ $word == -* ]]; then
        case "$sub" in
        test) _canplan_words "--rate --strict --json --explain --help" ;;
        plan) _canplan_words "--setup --rates --margin --as-is --explain --json --strict --help" ;;
        room) _canplan_words "--setup --rates --margin --explain --json --anew --help" ;;
        check) _canplan_words "--setup --rates --margin --explain --json --strict --help" ;;
        boot) _canplan_words "--setup --rates --margin --explain --json --seed --port --take-over --no-identity --only --no-start --boot-limit --restore --store --watch --limit --report --title --date --help" ;;
        verify) _canplan_words "--setup --rates --margin --explain --json --port --only --gently --limit --help" ;;
        nmt) _canplan_words "--all --port --rate --limit --explain --help" ;;
        scan) _canplan_words "--port --rate --up-to --gently --eds --limit --explain --json --help" ;;
        read) _canplan_words "--port --rate --type --eds --limit --explain --json --help" ;;
        write) _canplan_words "--port --rate --type --eds --limit --explain --json --help" ;;
        run) _canplan_words "--setup --rates --margin --explain --seed --until --help" ;;
        judge) _canplan_words "--setup --rates --margin --explain --json --help" ;;
        report) _canplan_words "--setup --rates --margin --explain --trace --log --title --date --error --drift --channel --delta --help" ;;
        export) _canplan_words "--manager --margin --setup --rates --explain --help" ;;
        tidy) _canplan_words "--check --explain --octal --decimal --access --unlisted --rates --help" ;;
        init) _canplan_words "--port --rate --up-to --gently --limit --explain --help" ;;
        diff) _canplan_words "--explain --json --help" ;;
        watch) _canplan_words "--setup --rates --margin --explain --json --port --for --error --drift --channel --delta --csv --help" ;;
        explain) _canplan_words "--all --help" ;;
        esac
        return
    fi
    # An argument: its place is that behind those that are there.
    for ((at = 2; at < COMP_CWORD; at++)); do
        it="${COMP_WORDS[at]}"
        case "$sub $it" in
        "test --rate" | "plan --setup" | "plan --rates" | "room --setup" | "room --rates" | "room --anew" | "check --setup" | "check --rates" | "boot --setup" | "boot --rates" | "boot --seed" | "boot --port" | "boot --only" | "boot --boot-limit" | "boot --watch" | "boot --limit" | "boot --report" | "boot --title" | "boot --date" | "verify --setup" | "verify --rates" | "verify --port" | "verify --only" | "verify --gently" | "verify --limit" | "nmt --port" | "nmt --rate" | "nmt --limit" | "scan --port" | "scan --rate" | "scan --up-to" | "scan --gently" | "scan --eds" | "scan --limit" | "read --port" | "read --rate" | "read --type" | "read --eds" | "read --limit" | "write --port" | "write --rate" | "write --type" | "write --eds" | "write --limit" | "run --setup" | "run --rates" | "run --seed" | "run --until" | "judge --setup" | "judge --rates" | "report --setup" | "report --rates" | "report --trace" | "report --log" | "report --title" | "report --date" | "report --error" | "report --drift" | "report --channel" | "export --manager" | "export --setup" | "export --rates" | "tidy --access" | "tidy --unlisted" | "tidy --rates" | "init --port" | "init --rate" | "init --up-to" | "init --gently" | "init --limit" | "watch --setup" | "watch --rates" | "watch --port" | "watch --for" | "watch --error" | "watch --drift" | "watch --channel" | "watch --csv") [[ ${COMP_WORDS[at + 1]} == "=" ]] && ((at++)); ((at++)) ;;
        *" -"?*) ;;
        *) ((place++)) ;;
        esac
    done
    case "$sub $place" in
    "test 1" | "plan 1" | "plan 2" | "plan 3" | "room 1" | "room 2" | "check 1" | "check 2" | "check 3" | "boot 1" | "boot 2" | "verify 1" | "verify 2" | "run 1" | "run 2" | "run 3" | "judge 1" | "judge 2" | "judge 3" | "report 1" | "report 2" | "report 3" | "export 2" | "export 3" | "export 4" | "tidy 1" | "tidy 2" | "init 2" | "watch 1" | "watch 2" | "watch 3")
        _canplan_files -f
        ;;
    "nmt 1")
        _canplan_words "start stop preop reset reset-communication"
        ;;
    "export 1")
        _canplan_words "dbc cdcf"
        ;;
    "init 1" | "diff 1" | "diff 2")
        _canplan_files -d
        ;;
    "help 1")
        _canplan_words "test plan room check boot verify nmt scan read write run judge report export tidy init diff watch explain"
        ;;
    esac
}
complete -F _canplan canplan
