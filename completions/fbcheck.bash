# Completions of fbcheck for bash, made by completions/make: don't edit.

# Takes what stands there already, and what that excludes, from the options. Behind -- there are none.
_fbcheck_left() { # WORD..
    local word
    for word; do
        case $word in
        -s*) word=--schema ;;
        -r*) word=--root ;;
        -p*) word=--path ;;
        -q) word=--quiet ;;
        -j) word=--json ;;
        -H) word=--with-filename ;;
        esac
        case $word in
        --) left= ;;
        --ident) left=${left/ --schema-ident / } ;;&
        --schema-ident) left=${left/ --ident / } ;;&
        --path) left=${left/ --filter / } ;;
        --bare) left=${left/ --delimited / } left=${left/ --delimited-be / } ;;&
        --delimited) left=${left/ --bare / } left=${left/ --delimited-be / } ;;&
        --delimited-be) left=${left/ --bare / } left=${left/ --delimited / } ;;&
        --quiet) left=${left/ --csv / } ;;&
        --filter) left=${left/ --path / } left=${left/ --csv / } ;;&
        --json) left=${left/ --csv / } ;;&
        --csv) left=${left/ --json / } left=${left/ --filter / } left=${left/ --quiet / } ;;&
        *) left=${left/ "$word" / } ;;
        esac
    done
}

_fbcheck() {
    local word=${COMP_WORDS[COMP_CWORD]} before=${COMP_WORDS[COMP_CWORD - 1]}
    local left=" --schema --root --ident --schema-ident --path --max-depth --max-tables --max-reads --reads-per-byte \
--max-bytes --skip --limit --max-bad --bare --delimited --delimited-be --no-alignment --inline-size --strict \
--plain-bytes --known-fields --utf8 --quiet --filter --summary --names --json --csv --rejects --with-filename \
--files0-from --help --version "
    COMPREPLY=()
    # An equals sign is a word of its own.
    [ "$before" != = ] || before=${COMP_WORDS[COMP_CWORD - 2]}
    [ "$word" != = ] || word=
    case $before in
    -s | --schema)
        compopt -o filenames 2>/dev/null
        mapfile -t COMPREPLY < <(compgen -d -- "$word"; compgen -f -X '!*.bfbs' -- "$word")
        ;;
    --rejects)
        compopt -o filenames 2>/dev/null
        mapfile -t COMPREPLY < <(compgen -f -- "$word")
        ;;
    --files0-from)
        compopt -o filenames 2>/dev/null
        mapfile -t COMPREPLY < <(compgen -f -- "$word")
        ;;
    -r | --root | --ident | -p | --path | --max-depth | --max-tables | --max-reads | --reads-per-byte | --max-bytes | --skip | --limit | --max-bad) ;;
    *)
        _fbcheck_left "${COMP_WORDS[@]:1:COMP_CWORD-1}"
        mapfile -t COMPREPLY < <(compgen -W "$left" -- "$word")
        [[ $word == -* && $left ]] || {
            compopt -o filenames 2>/dev/null
            mapfile -t COMPREPLY < <(compgen -f -- "$word")
        }
        ;;
    esac
}

complete -F _fbcheck fbcheck
