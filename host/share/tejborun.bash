# Completion of tejborun's words for bash.
_tejborun() {
    local word=${COMP_WORDS[COMP_CWORD]} command=${COMP_WORDS[1]}
    local commands='build steps salvage meaning run why play check set compare report totals import export dump assemble help'
    local kinds='sheet chain state capture result totals'
    local parts='data code data0 code0 log'
    local registers='0= 1= 2= 3='
    local options='--help'
    case $command in
    build | meaning | play) options='-o --output --help' ;;
    run) options='-o --output --allowance --from --no-start --why --help' ;;
    why) options='--allowance --from --no-start --help' ;;
    check) options='-o --output --data --code --allowance --quiet --json --help' ;;
    salvage) options='-o --output --ranges --quiet --json --help' ;;
    set) options='-o --output --unit --row --col --help' ;;
    compare) options='--only --quadwords --all --unfinished --quiet --json --help' ;;
    totals) options='--new --allowance --json --help' ;;
    report) options='-o --output --from --only --quadwords --unfinished --help' ;;
    import) options='-o --output --data --code --data0 --code0 --log --help' ;;
    export) options='--main --data --code --data0 --code0 --log --help' ;;
    assemble) options='-o --output --main --data --code --data0 --code0 --log --help' ;;
    esac
    if test "$COMP_CWORD" = 1; then
        mapfile -t COMPREPLY < <(compgen -W "$commands --help --version" -- "$word")
    elif test "$COMP_CWORD" = 2 && test "$command" = help; then
        mapfile -t COMPREPLY < <(compgen -W "$commands" -- "$word")
    elif test "$COMP_CWORD" = 2 && { test "$command" = dump || test "$command" = assemble; }; then
        mapfile -t COMPREPLY < <(compgen -W "$kinds" -- "$word"; compgen -f -- "$word")
    elif test "$COMP_CWORD" = 3 && test "$command" = totals && test "${word#-}" = "$word"; then
        mapfile -t COMPREPLY < <(compgen -W 'add' -- "$word")
    elif test "${COMP_WORDS[COMP_CWORD - 1]}" = --only; then
        mapfile -t COMPREPLY < <(compgen -W "$parts" -- "$word")
    elif test "${COMP_WORDS[COMP_CWORD - 1]}" = --unit; then
        mapfile -t COMPREPLY < <(compgen -W '0 1' -- "$word")
    elif test "${COMP_WORDS[COMP_CWORD - 1]}" = --row || test "${COMP_WORDS[COMP_CWORD - 1]}" = --col; then
        mapfile -t COMPREPLY < <(compgen -W "$registers" -- "$word")
    elif test "${word#-}" != "$word"; then
        mapfile -t COMPREPLY < <(compgen -W "$options" -- "$word")
    else
        mapfile -t COMPREPLY < <(compgen -f -- "$word")
    fi
}
complete -o filenames -F _tejborun tejborun
