# The words of nvm for bash: source this file. Made by tools/dev/manual --completion.
_nvm() {
    case $COMP_CWORD in
    1) mapfile -t COMPREPLY < <(compgen -W "mem --help --version --proved --rule --refused --result --status" -- "$2"; compgen -f -- "$2") ;;
    2) mapfile -t COMPREPLY < <(compgen -W "play run check dump soak uds" -- "$2") ;;
    esac
}
complete -o filenames -F _nvm nvm ./nvm

# The options of the tools; any other word is a file.
_nvm_tool() {
    COMPREPLY=()
    local options
    case ${1##*/} in
    lint | nvm-lint) options="-h --help --run --strict --line --plain --names --json" ;;
    sweep | nvm-sweep) options="-h --help --quiet --jobs --json --junit" ;;
    cuts | nvm-cuts) options="-h --help --keep --every --jobs --json --junit" ;;
    timeline | nvm-timeline) options="-h --help --history --text --summary --json" ;;
    picture | nvm-picture) options="-h --help --second --text --values --other --check --json" ;;
    plan | nvm-plan) options="-h --help --writes --endurance --turn-ms --json" ;;
    provision | nvm-provision) options="-h --help --second --replace --json" ;;
    header | nvm-header) options="-h --help --include --det --all-done --bswm --line" ;;
    arxml | nvm-arxml) options="-h --help --from-unit --into --replace --values --elf --flash --package --strict --anyway --definitions --json" ;;
    judge | nvm-judge) options="-h --help --image --second --json" ;;
    build | nvm-build) options="-h --help --unproved" ;;
    take | nvm-take) options="-h --help --rooms" ;;
    release | nvm-release) options="-h --help --proof --unproved --archive --kit --maintainer" ;;
    esac
    if [[ $2 == -* ]]; then mapfile -t COMPREPLY < <(compgen -W "$options" -- "$2"); fi
}
complete -o default -F _nvm_tool tools/lint ./tools/lint nvm-lint tools/sweep ./tools/sweep nvm-sweep tools/cuts ./tools/cuts nvm-cuts tools/timeline ./tools/timeline nvm-timeline tools/picture ./tools/picture nvm-picture tools/plan ./tools/plan nvm-plan tools/provision ./tools/provision nvm-provision tools/header ./tools/header nvm-header tools/arxml ./tools/arxml nvm-arxml tools/judge ./tools/judge nvm-judge tools/build ./tools/build nvm-build tools/take ./tools/take nvm-take tools/release ./tools/release nvm-release
