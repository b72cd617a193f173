# Completions of lx for bash, made by completions/make.
_lx() {
    local word=$2 before=$3 words=
    COMPREPLY=()
    if [ "$COMP_CWORD" -eq 1 ]; then
        words="gen up scan run check explain show import flex lex -h --help -V --version"
    else
        case "${COMP_WORDS[1]} $before" in
        "gen -o") return ;;
        "gen --prefix") compopt +o default; return ;;
        "gen --include") return ;;
        "up -o") return ;;
        "up --prefix") compopt +o default; return ;;
        "up --include") return ;;
        "scan -j") compopt +o default; return ;;
        "scan -b") compopt +o default; return ;;
        "scan --only") compopt +o default; return ;;
        "scan --format") words="text json" ;;
        "scan --first") compopt +o default; return ;;
        "scan --files-from") return ;;
        "run -j") compopt +o default; return ;;
        "run -b") compopt +o default; return ;;
        "run --only") compopt +o default; return ;;
        "run --format") words="text json" ;;
        "run --first") compopt +o default; return ;;
        "run --files-from") return ;;
        "check -W") words="all error condition-word never-entered unused-definition never-chosen eof-rule interval lazy letter-escape long-hex many-bytes curly-quotes class-outside wide-range dead-statement skipped-rule skipped-line far-ahead unread-bytes no-condition-word no-never-entered no-unused-definition no-never-chosen no-eof-rule no-interval no-lazy no-letter-escape no-long-hex no-many-bytes no-curly-quotes no-class-outside no-wide-range no-dead-statement no-skipped-rule no-skipped-line no-far-ahead no-unread-bytes" ;;
        "check --most") compopt +o default; return ;;
        "import -o") return ;;
        "import -c") return ;;
        "import --prefix") compopt +o default; return ;;
        "gen "*)
            [ "${word#-}" = "$word" ] || words="-o --c --header --prefix --include --direct -h --help"
            ;;
        "up "*)
            [ "${word#-}" = "$word" ] || words="-o --c --header --prefix --include --direct -h --help"
            ;;
        "scan "*)
            [ "${word#-}" = "$word" ] || words="-j -b --stream --names --only --no-text --format --first --files-from -0 -h --help"
            ;;
        "run "*)
            [ "${word#-}" = "$word" ] || words="-j -b --stream --names --only --no-text --format --first --files-from -0 -h --help"
            ;;
        "check "*)
            [ "${word#-}" = "$word" ] || words="--flex -q -W --most --json -h --help"
            ;;
        "explain "*)
            words="E01 E02 indented-percent rules-as-definitions E03 group-open comment-open action-open action-comment-open brace-hidden E04 byte-order-mark wide-text tables-given rule-before-percent option-word option-form top-group size-form group-closes conditions-comma conditions-form percent-word c-line name-alone name-form E05 E06 E10 eof-rule all-conditions prefix-operator prefix-blank prefix-name scope pattern-missing comment-line too-long nothing-but-anchors definition-anchor definition-blank definition-equals look-ahead slash caret-inside dollar-inside quote-empty quote-inside quote-open set-operator interval-backwards interval-large interval-low interval-form name-hyphen brace-open brackets-open class-negated class-unknown class-range range-shared range-backwards long-collation escape-large escape-end group-option repeat-behind-interval nothing-to-repeat empty-alternative group-not-open parenthesis-open E11 condition-as-name E12 E13 tag begin-variable E20 blank-in-pattern quote-splits no-blank bar-not-alone semicolon return-alone return-expression return-string return-number constant-form begin-form flex-call flex-variable group-as-action brace-not-open comment-hash carriage-return code E21 E30 E31 E40 E41 B01 newer-tables specification-given carriage-returns cut-tables warning condition-word never-entered unused-definition never-chosen interval lazy letter-escape long-hex many-bytes curly-quotes class-outside wide-range dead-statement skipped-rule skipped-line far-ahead unread-bytes"
            [ "${word#-}" = "$word" ] || words="-h --help"
            ;;
        "show "*)
            [ "${word#-}" = "$word" ] || words="--all -h --help"
            ;;
        "import "*)
            [ "${word#-}" = "$word" ] || words="-o -c --prefix --lossy -h --help"
            ;;
        "flex "*)
            [ "${word#-}" = "$word" ] || words="-t --stdout -o --outfile -P --prefix --header-file -i --case-insensitive -l --lex-compat -X --posix-compat -s --nodefault -d --debug -R --reentrant --bison-bridge --bison-locations --yylineno --array --stack --main --noyywrap --always-interactive --never-interactive --read -Cr -f -F --form=states --form=rows -D -L --noline -b --backup -v --verbose -w --nowarn -V --version -h --help -Ce -Cm -7 -8 -B -C -I -T -c -n -p"
            ;;
        "lex "*)
            [ "${word#-}" = "$word" ] || words="-t --stdout -o --outfile -P --prefix --header-file -i --case-insensitive -l --lex-compat -X --posix-compat -s --nodefault -d --debug -R --reentrant --bison-bridge --bison-locations --yylineno --array --stack --main --noyywrap --always-interactive --never-interactive --read -Cr -f -F --form=states --form=rows -D -L --noline -b --backup -v --verbose -w --nowarn -V --version -h --help -Ce -Cm -7 -8 -B -C -I -T -c -n -p"
            ;;
        esac
    fi
    [ -z "$words" ] || mapfile -t COMPREPLY < <(compgen -W "$words" -- "$word")
}
complete -o default -F _lx lx
