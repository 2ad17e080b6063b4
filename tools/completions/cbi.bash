# What bash offers behind cbi, cbi-hunt, cbi-show, cbi-explain and cbi-port. To have it: . cbi.bash, in ~/.bashrc.

# _cbi_offer WORDS: those of the words that begin as the word at the cursor; files too, where there are no words.
_cbi_offer() {
    if [ -n "$1" ]; then
        COMPREPLY=($(compgen -W "$1" -- "${COMP_WORDS[COMP_CWORD]}"))
    else
        COMPREPLY=($(compgen -f -- "${COMP_WORDS[COMP_CWORD]}"))
    fi
}

# _cbi_value OPTION: what the option takes, in the variable value; it fails where the option takes nothing.
_cbi_value() {
    value=
    case $1 in
    --mode) value='plain full sampled' ;;
    --schemes) value='branches returns pairs branches,returns branches,pairs returns,pairs branches,returns,pairs' ;;
    --policy) value='all failing relabel' ;;
    --hangs) value='neither fail' ;;
    --status | --changed) value='ignore fail' ;;
    --format) value='text html sarif quickfix' ;;
    --memory) value='auto cells bytes flat' ;;
    --values) value='none some all' ;;
    --rate) value='1 2 5 10 20 50 100 1000' ;;
    --part | --parts | --turns | --run | --runs | --first | --count | --seed | --stream | --jobs | --oracle | --oracle-shell | --oracle-timeout | --mutate | --neighbours | --most | --apart | --also | --args | -D | -U) value=' ' ;;
    --bank | --input | --expect | --report | --program | --whole | --inputs | --keep | --hunt | --html | --farm | --cbi | --source | --lines | --cards | --pairs | --reports | --output | --sites | --tool | --since | -I | -include | -o) ;;
    *) return 1 ;;
    esac
}

# _cbi_options OPTIONS: the options, or what the one before the cursor takes, or files.
_cbi_options() {
    local value
    if _cbi_value "${COMP_WORDS[COMP_CWORD - 1]}"; then
        _cbi_offer "$value"
    elif [[ ${COMP_WORDS[COMP_CWORD]} == -* ]]; then
        _cbi_offer "$1"
    else
        _cbi_offer ''
    fi
}

_cbi() {
    if [ "$COMP_CWORD" -eq 1 ]; then
        _cbi_offer 'transform run bank collect runs rank pairs lines bugs cards session widen study'
        return
    fi
    case ${COMP_WORDS[1]} in
    transform) _cbi_options '--mode --schemes --part' ;;
    run) _cbi_options '--bank --input --expect --turns --run --report' ;;
    bank) _cbi_options '--rate --count --seed --stream' ;;
    collect) _cbi_options '--program' ;;
    runs) _cbi_options '--inputs --expect --rate --seed --first --turns' ;;
    rank) _cbi_options '--policy' ;;
    pairs | cards) _cbi_options '' ;;
    lines) _cbi_options '--most --apart' ;;
    bugs) _cbi_options '--most --also' ;;
    session) _cbi_options '--program --policy' ;;
    widen) _cbi_options '--whole --part' ;;
    study) _cbi_options '--runs --seed --rate --turns --policy' ;;
    esac
}

_cbi_hunt() {
    _cbi_options '--inputs -I -D -U -include --memory --stderr --args --wrap --values --cflags --no-check --expect --oracle --oracle-shell --oracle-timeout --hangs --status --since --changed --minimize --mutate --neighbours --rate --runs --seed --turns --schemes --jobs --policy --keep --all --html --farm --parts --cbi --version --help'
}

_cbi_show() {
    _cbi_options '--hunt --source --lines --program --cards --pairs --reports --cbi --format --all --output --sites --version --help'
}

_cbi_explain() {
    _cbi_options '--program --table --all --version --help'
}

_cbi_port() {
    _cbi_options '-I -D -U -include -o --args --file --stderr --memory --wrap --values --quiet --dump-typed --check --cflags --inputs --tool --turns --version --help'
}

complete -o filenames -F _cbi cbi
complete -o filenames -F _cbi_hunt cbi-hunt
complete -o filenames -F _cbi_show cbi-show
complete -o filenames -F _cbi_explain cbi-explain
complete -o filenames -F _cbi_port cbi-port
