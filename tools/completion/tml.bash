# Completion for tml and its companions in bash: `. tools/completion/tml.bash`, or let an installed package load it.
# Where a file is asked for, nothing is offered here, and readline offers the names of files.

_tml_commands=(spans check dates solve ask relations canon verify drill renew join possible matrix reduce score seconds confirm)
_tml_relations=(
    BEFORE AFTER INCLUDES IS_INCLUDED DURING DURING_INV SIMULTANEOUS IDENTITY
    IBEFORE IAFTER BEGINS BEGUN_BY ENDS ENDED_BY OVERLAPS OVERLAPPED_BY
)

# Offers those of some words that begin with the word at the cursor, and no names of files.
_tml_offer() {
    local word
    compopt +o bashdefault +o default 2>/dev/null
    for word; do
        [[ $word != "${COMP_WORDS[COMP_CWORD]}"* ]] || COMPREPLY+=("$word")
    done
}

# A word of the command line without its quotes. Nothing is expanded but ~/ at the beginning.
_tml_plain() {
    local word=$1 plain='' quote='' letter
    if [[ $word == \~/* ]]; then
        plain=$HOME/ word=${word:2}
    fi
    while [[ $word ]]; do
        letter=${word:0:1} word=${word:1}
        case $quote$letter in
            \' | \") quote=$letter ;;
            "''" | '""') quote='' ;;
            \\ | \"\\) plain+=${word:0:1} word=${word:1} ;;
            *) plain+=$letter ;;
        esac
    done
    printf '%s' "$plain"
}

# Offers the names of the intervals of a document; none where tml does not accept it. No standard input is read.
_tml_offer_intervals() {
    local program document word name names=()
    program=$(_tml_plain "${COMP_WORDS[0]}")
    document=$(_tml_plain "$1")
    if [[ -f $document ]]; then
        while read -r word _ name; do
            [[ $word != interval ]] || names+=("$name")
        done < <("$program" check "$document" </dev/null 2>/dev/null)
    fi
    _tml_offer "${names[@]}"
}

# Completes the words of tml.
_tml() {
    COMPREPLY=()
    case ${COMP_WORDS[1]}:$COMP_CWORD in
        *:1) _tml_offer "${_tml_commands[@]}" ;;
        ask:[35] | possible:[34]) _tml_offer_intervals "${COMP_WORDS[2]}" ;;
        ask:4) _tml_offer "${_tml_relations[@]}" ;;
        spans:2 | check:2 | dates:2 | solve:2 | ask:2 | relations:2 | canon:2 | verify:[23] | renew:2 | join:[23] | possible:2 | matrix:2 | reduce:2 | score:[23] | seconds:2 | confirm:[23]) ;;
        *) _tml_offer ;;
    esac
}

_tml_warnings=(
    version-mark tag-as-text nested-tag misspelled-attribute unknown-attribute value-form free-date contradicting-word
    far-date two-creation-times date-with-points empty-tag self-link repeated-link opposed-instances part-of-day
    fiscal-value event-without-instance unlinked-instance no-creation-time
)

# Completes the words of tml-corpus: its commands, their options, and the values of these.
_tml_corpus() {
    local options=(--help) asked=(--config --tml --library --no-library --jobs)
    local shared=(--format --more --touching --stdin-name --quiet --watch --glob "${asked[@]}" --cluster)
    COMPREPLY=()
    case ${COMP_WORDS[1]} in
        check)
            options+=(--explain --no-explain --clashes "${shared[@]}")
            options+=(--lint --ignore --warn --strict --baseline --write-baseline)
            ;;
        fix) options+=(--diff --write --unsafe --from --glob "${asked[@]}") ;;
        tags) options+=(--glob "${asked[@]}") ;;
        clashes) options+=(--evidence --repair "${shared[@]}") ;;
        timeline) options+=(--output -o --touching --seconds --asserted --text-order --bare --width --rows --around --between --no-context --config --tml) ;;
        matrix | seconds) options+=(--format --touching --config --tml) ;;
        open) options+=(--limit --pairs --touching --config --tml --jobs) ;;
        agree) options+=(--links --format --touching --glob "${asked[@]}" --cluster) ;;
        report) options+=(--output -o --more --glob "${asked[@]}") ;;
        serve) options+=(--config --tml) ;;
    esac
    case ${COMP_WORDS[COMP_CWORD - 1]}:$COMP_CWORD:${COMP_WORDS[COMP_CWORD]} in
        *:1:*) _tml_offer check fix tags clashes timeline matrix seconds open agree report serve --help --version ;;
        --format:*)
            case ${COMP_WORDS[1]} in
                matrix) _tml_offer text csv html ;;
                seconds) _tml_offer text json csv ics ;;
                agree) _tml_offer text json jsonl csv ;;
                *) _tml_offer text json jsonl junit github ;;
            esac
            ;;
        --ignore:* | --warn:*) _tml_offer "${_tml_warnings[@]}" ;;
        --more:* | --stdin-name:* | --glob:* | --jobs:* | --cluster:* | --limit:* | --pairs:*) _tml_offer ;;
        *:-*) _tml_offer "${options[@]}" ;;
    esac
}

# Completes the options of the small programs.
_tml_tools() {
    local options=(--help --version)
    COMPREPLY=()
    case ${COMP_WORDS[0]##*/} in
        tml-edit) options+=(--rename --unwrap --value --iso --instances --links --name --drop-links --overlaps --touching-dates --write --glob --config --tml) ;;
        tml-redundant-links) options+=(--glob --config --tml --library --no-library --jobs) ;;
    esac
    case ${COMP_WORDS[COMP_CWORD - 1]}:${COMP_WORDS[COMP_CWORD]} in
        --rename:* | --unwrap:* | --value:* | --name:* | --drop-links:* | --glob:* | --jobs:*) _tml_offer ;;
        *:-*) _tml_offer "${options[@]}" ;;
    esac
}

complete -o bashdefault -o default -F _tml tml
complete -o bashdefault -o default -F _tml_corpus tml-corpus
complete -o bashdefault -o default -F _tml_tools tml-edit tml-redundant-links tml-from-tempeval2 tml-html-entities
