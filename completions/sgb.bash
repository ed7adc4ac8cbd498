# Completion of sgb for bash: commands, options, and the names of an expression's forms.
#
#   source completions/sgb.bash
#
# `make install` puts it where bash-completion looks for it. An expression stands in quotes, since a shell takes
# parentheses for its own: sgb list comp<TAB> begins with one. After a form's parenthesis the names of graphs are
# offered where a graph is wanted. Where a number is, a second <TAB> shows what it is, with the whole form, and
# completes nothing. After a parenthesis without a quote bash takes what follows for another command, and does not ask
# here.

_sgb_forms=(
    'stdin'
    'board(n1,n2,n3,n4,piece,wrap,directed)'
    'simplex(n,n0,n1,n2,n3,n4,directed)'
    'subsets(n,n0,n1,n2,n3,n4,size_bits,directed)'
    'complete(n)'
    'transitive(n)'
    'empty(n)'
    'circuit(n)'
    'cycle(n)'
    'disjoint_subsets(n,k)'
    'petersen()'
    'complement(EXPR,copy,self_loops,directed)'
    'gunion(EXPR,EXPR,multi,directed)'
    'intersection(EXPR,EXPR,multi,directed)'
    'lines(EXPR,directed)'
    'product(EXPR,EXPR,type,directed)'
    'induced(EXPR,[..],self_loops,multi,directed)'
    'bi_complete(n1,n2,directed)'
    'wheel(n,n1,directed)'
)

_sgb() {
    local word=$2 command='' has_expression='' has_option='' number last words quote is_escaped
    COMPREPLY=()
    _sgb_split
    last=$((${#words[@]} - 1))
    # what the words before the last one are, which is under way
    for ((number = 1; number < last; number++)); do
        case ${words[number]} in
            --after | --skip) has_option=1 number=$((number + 1)) ;;
            --after=* | --skip=*) has_option=1 ;;
            *) if [[ -z $command ]]; then command=${words[number]}; else has_expression=1; fi ;;
        esac
    done
    # what an option is followed by is not known here
    if [[ $number -gt $last || ${words[last]} == --*=* ]]; then return 0; fi
    case ${command:-none} in
        none) _sgb_offer "$word" names list save queen flip ;;
        names | list)
            if [[ ${words[last]} != -* ]]; then [[ -n $has_expression ]] || _sgb_expression "$word" "${_sgb_forms[@]}"
            elif [[ -z $has_option ]]; then _sgb_offer "$word" --after --skip
            fi ;;
        save) [[ -n $has_expression ]] || _sgb_expression "$word" "${_sgb_forms[@]}" ;;
        flip) [[ -n $has_expression ]] || _sgb_expression "$word" 'flip(start,skip,count,m)' ;;
    esac
}

# The words of the line up to the cursor, without their quotes and backslashes, into `words`; which quote the last one
# is in, and whether it has a backslash. Bash's own words end at a parenthesis, a colon and an equals sign too.
_sgb_split() {
    local line=${COMP_LINE:0:COMP_POINT} under_way='' is_begun='' place character
    words=() quote='' is_escaped=''
    for ((place = 0; place < ${#line}; place++)); do
        character=${line:place:1}
        case $quote$character in
            ' ' | $'\t' | $'\n')
                [[ -z $is_begun ]] || words+=("$under_way")
                under_way='' is_begun='' is_escaped='' ;;
            [\"\']) quote=$character is_begun=1 ;;
            '""' | "''") quote='' ;;
            \\)
                place=$((place + 1)) is_escaped=1 is_begun=1
                under_way+=${line:place:1} ;;
            *) under_way+=$character is_begun=1 ;;
        esac
    done
    words+=("$under_way")
}

# The words after the first that begin with it.
_sgb_offer() {
    local begun=$1 word
    shift
    for word in "$@"; do
        [[ $word == "$begun"* ]] && COMPREPLY+=("$word")
    done
}

# What may stand at the end of the expression under way, which has these forms, in the place of the first word.
_sgb_expression() {
    local word=$1 begun='' wanted='' form_of_place='' is_nested='' is_whole=''
    shift
    _sgb_place "${words[last]}" "$@"
    [[ $word == *"$begun" ]] || return 0
    case $wanted in
        EXPR) _sgb_names "$word" "$@" ;;
        # two, so that the bracket is followed by no quote
        '[..]') [[ -n $begun ]] || COMPREPLY=("$word[" "$word[..]") ;;
        '') [[ -z $is_whole || -z $quote ]] || COMPREPLY=("$word") ;;
        *) _sgb_hint ;;
    esac
    [[ -n $is_whole ]] || compopt -o nospace 2> /dev/null
}

# Where the text ends: in the name or number that is begun there; what is wanted in its place, which is EXPR, the name
# of a number, [..] or nothing; which form that is an argument of, if any; whether the text is a whole expression.
_sgb_place() {
    local text=$1 depth=0 place character form
    local -a left=(EXPR) forms=('')
    shift
    for ((place = 0; place < ${#text}; place++)); do
        character=${text:place:1}
        case $character in
            '(')
                depth=$((depth + 1)) left[depth]='' forms[depth]=''
                for form in "$@"; do
                    [[ $form != "$begun("* ]] || forms[depth]=$form
                done
                form=${forms[depth]#*\(}
                left[depth]=${form%\)} begun='' ;;
            '[')
                # each entry of a list is a number or an expression
                form=''
                [[ ${left[depth]} != '[..]'* ]] || form=EXPR,..
                depth=$((depth + 1)) left[depth]=$form forms[depth]='' begun='' ;;
            ',')
                begun=''
                case ${left[depth]} in
                    EXPR,..) ;;
                    *,*) left[depth]=${left[depth]#*,} ;;
                    *) left[depth]='' ;;
                esac ;;
            [\)\]])
                depth=$((depth - 1)) begun=$character
                ((depth >= 0)) || return 0 ;;
            *) begun+=$character ;;
        esac
    done
    form_of_place=${forms[depth]} wanted=${left[depth]%%,*}
    [[ $depth -eq 0 ]] || is_nested=1
    if [[ $begun == [\)\]]* ]]; then
        wanted=''
        [[ $depth -ne 0 || $begun != ')' ]] || is_whole=1
    fi
}

# What a number that is wanted stands for, with its whole form: two that begin in different ways, so that they complete
# nothing. They are shown, and not offered to the commands of readline that put what is offered into the line.
_sgb_hint() {
    [[ ${COMP_TYPE:-9} != @(37|42) ]] || return 0
    [[ $begun =~ ^-?[0-9]*$ || ( $wanted == size_bits && $begun =~ ^0x[0-9a-fA-F]*$ ) ]] || return 0
    COMPREPLY=("<$wanted>" "$form_of_place")
}

# The forms whose names begin as the one under way does, in place of the first word. A form alone is offered with its
# parenthesis and with its arguments: so no space and no closing quote come after the parenthesis.
_sgb_names() {
    local before=${1%"$begun"} form name quoted=''
    local -a found=()
    shift
    for form in "$@"; do
        [[ $form == "$begun"* ]] && found+=("$form")
    done
    [[ -n $quote || -n $is_nested || -n $is_escaped ]] || quoted='"'
    for form in "${found[@]}"; do
        name=${form%%(*}
        if [[ ${#found[@]} -ne 1 ]]; then COMPREPLY+=("$quoted$before$form")
        elif [[ $form != stdin && $form != *'()' ]]; then COMPREPLY+=("$quoted$before$name(" "$quoted$before$form")
        elif [[ -n $is_nested ]]; then COMPREPLY+=("$before$form" "$before$form,")
        else COMPREPLY+=("$quoted$before$form$quoted") is_whole=1
        fi
    done
    [[ -z $is_escaped ]] || _sgb_escape
}

# Parentheses behind backslashes, in a word without quotes that has one.
_sgb_escape() {
    local number reply
    for number in "${!COMPREPLY[@]}"; do
        reply=${COMPREPLY[number]//\\/}
        reply=${reply//\(/\\\(}
        COMPREPLY[number]=${reply//\)/\\\)}
    done
}

complete -F _sgb sgb
