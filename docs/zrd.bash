# Completion of the words of `zrd` for bash: source this file. An option is offered behind its command until it stands
# there, and none where its value is wanted.

_zrd() {
    # words are counted by spaces, since bash parts an address at its colon
    local line=${COMP_LINE:0:COMP_POINT} before words word
    read -ra before <<<"${line% *}"
    case ${before[1]-} in
    '') words=' net serve make help --help --version ' ;;
    net) words=' --summary --explain --threads --help ' ;;
    serve) words=' --id --listen --log --rules --explain --admin --help ' ;;
    make) words=' --number --routers --clients --messages --help ' ;;
    help) words=' net serve make ' ;;
    *) words= ;;
    esac
    case ${before[-1]-} in
    --id | --listen | --threads | --number | --routers | --clients | --messages) words= ;;
    esac
    for word in "${before[@]:2}"; do
        words=${words/ ${word%%=*} / }
        if [[ $word == -- ]]; then words=; fi
    done
    mapfile -t COMPREPLY < <(compgen -W "$words" -- "${line##* }")
}

complete -F _zrd zrd
