# Completion of dicomdir(1), dicomdir-parallel(1) and dicomdir-slurm(1) for bash. docs/generate makes its block of
# options.
# shellcheck shell=bash disable=SC2053 # _dicomdir_valued, _dicomdir_filed and _dicomdir_foldered are patterns

# BEGIN Options
_dicomdir_commands='index merge withdraw stage publish check list help'
_dicomdir_valued='@(--files0-from|--from|--hosts|--id|--last-options|--max-bytes|--part-options|--per-task|--resume|--uid|-j)'
_dicomdir_filed='@(--files0-from|--hosts)'
_dicomdir_foldered='@(--from|--resume)'

_dicomdir_options()
{
    case $1 in
        '') echo '-h --help -V --version' ;;
        index) echo '--id --uid --max-bytes --strict --dry-run --quiet --verbose --json --files0-from -k --keep-going -h --help' ;;
        merge) echo '--id --uid --max-bytes --strict --dry-run --quiet --verbose --json --files0-from --link -h --help' ;;
        withdraw) echo '--id --uid --max-bytes --strict --dry-run --quiet --verbose --json -h --help' ;;
        stage) echo '--quiet --verbose --json --files0-from --from -k --keep-going -h --help' ;;
        publish) echo '--id --uid --max-bytes --strict --dry-run --quiet --verbose --json --files0-from --link --from -h --help' ;;
        check) echo '--keys --strict --quiet --verbose --json -h --help' ;;
        list) echo '--long --verbose --json -h --help' ;;
        dicomdir-parallel) echo '-j --hosts --resume' ;;
        dicomdir-slurm) echo '-j --per-task --wait --resume --part-options --last-options' ;;
    esac
}
# END

# Offers the paths that begin so: -d folders, -f files and folders. Each has the third word in front.
_dicomdir_paths()
{
    compopt -o filenames 2>/dev/null
    mapfile -t COMPREPLY < <(compgen "$1" -P "${3:-}" -- "$2")
}

_dicomdir()
{
    local word current command='' own='' value='' ended='' before='' paths=0 words=()
    COMPREPLY=()

    # These take the words of index, and more options.
    case ${COMP_WORDS[0]##*/} in
        dicomdir-parallel | dicomdir-slurm) command=index own=$(_dicomdir_options "${COMP_WORDS[0]##*/}") ;;
    esac

    # Bash splits words at = and : too. Here they are whole.
    for word in "${COMP_WORDS[@]:0:COMP_CWORD+1}"; do
        if [[ ${#words[@]} != 0 && ($word == [=:]* || $before == [=:]*) ]]; then
            words[${#words[@]} - 1]+=$word
        else
            words+=("$word")
        fi
        before=$word
    done
    current=${words[${#words[@]} - 1]}

    for word in "${words[@]:1:${#words[@]}-2}"; do
        if [[ $value ]]; then
            value=
        elif [[ ! $ended && $word == -- ]]; then
            ended=1
        elif [[ ! $ended && $word == $_dicomdir_valued ]]; then
            value=$word
        elif [[ ! $ended && $word == -?* ]]; then
            :
        elif [[ ! $command ]]; then
            command=$word
        else
            ((paths += 1))
        fi
    done

    local choice=''
    if [[ $value == $_dicomdir_filed ]]; then _dicomdir_paths -f "$current"; fi
    if [[ $value == $_dicomdir_foldered ]]; then _dicomdir_paths -d "$current"; fi
    case $value:$command:$paths in
        -*) ;;
        ::* | :help:0) choice=$_dicomdir_commands ;;
        :index:0 | :stage:0 | :merge:* | :publish:* | :withdraw:[01] | :check:0 | :list:0)
            _dicomdir_paths -d "$current"
            ;;
        :index:* | :stage:*) _dicomdir_paths -f "$current" ;;
    esac
    if [[ ! $value && ! $ended && $current == -* ]]; then
        choice="$own $(_dicomdir_options "$command")"
        if [[ $current == $_dicomdir_filed=* || $current == $_dicomdir_foldered=* ]]; then
            word=-f
            [[ $current == $_dicomdir_filed=* ]] || word=-d
            [[ " $choice " != *" ${current%%=*} "* ]] || _dicomdir_paths "$word" "${current#*=}" "${current%%=*}="
            choice=''
        fi
    fi
    [[ ! $choice ]] || mapfile -t COMPREPLY < <(compgen -W "$choice" -- "$current")

    # Bash completes only what follows the last = or :.
    word=${COMP_WORDS[COMP_CWORD]}
    [[ $word != [=:]* ]] || word=
    COMPREPLY=("${COMPREPLY[@]#"${current%"$word"}"}")
}

complete -F _dicomdir dicomdir dicomdir-parallel dicomdir-slurm
