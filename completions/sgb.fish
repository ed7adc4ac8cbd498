# Completion of sgb for fish: commands, options, and the names of an expression's forms, with their arguments.
#
#   source completions/sgb.fish
#
# `make install` puts it where fish looks for it. An expression stands in quotes, since fish takes parentheses for its own;
# what it completes without a quote has backslashes. A form is offered with its parenthesis and with its arguments.

set -g __sgb_forms \
    'stdin' \
    'board(n1,n2,n3,n4,piece,wrap,directed)' \
    'simplex(n,n0,n1,n2,n3,n4,directed)' \
    'subsets(n,n0,n1,n2,n3,n4,size_bits,directed)' \
    'complete(n)' \
    'transitive(n)' \
    'empty(n)' \
    'circuit(n)' \
    'cycle(n)' \
    'disjoint_subsets(n,k)' \
    'petersen()' \
    'complement(EXPR,copy,self_loops,directed)' \
    'gunion(EXPR,EXPR,multi,directed)' \
    'intersection(EXPR,EXPR,multi,directed)' \
    'lines(EXPR,directed)' \
    'product(EXPR,EXPR,type,directed)' \
    'induced(EXPR,[..],self_loops,multi,directed)' \
    'bi_complete(n1,n2,directed)' \
    'wheel(n,n1,directed)'

# What may stand in the place of the word under way.
function __sgb_offers
    set -l command
    set -l has_expression no
    set -l has_option no
    set -l is_value no
    set -l before (commandline -opc)
    for word in $before[2..]
        if test $is_value = yes
            set is_value no
        else if string match -qr -- '^--(after|skip)(=|$)' $word
            set has_option yes
            string match -q -- '*=*' $word; or set is_value yes
        else if test -z "$command"
            set command $word
        else
            set has_expression yes
        end
    end
    set -l word (commandline -ct)
    # what an option is followed by is not known here
    if test $is_value = yes; or string match -q -- '--*=*' $word
        return
    end
    switch "$command"
        case ''
            printf '%s\n' names list save queen flip
        case names list save
            if string match -q -- '-*' $word
                test $has_option = no -a $command != save; and printf '%s\n' --after --skip
            else if test $has_expression = no
                __sgb_expression "$word" $__sgb_forms
            end
        case flip
            test $has_expression = no; and __sgb_expression "$word" 'flip(start,skip,count,m)'
    end
end

# What may stand at the end of the expression under way, which has these forms.
function __sgb_expression
    set -l text (string replace -r '^["\']' '' -- $argv[1] | string replace -a '\\' '')
    set -l forms $argv[2..]
    # what is closed has no part in where the text ends
    set -l open $text
    while string match -qr '\([^][()]*\)|\[[^][()]*\]' -- $open
        set open (string replace -ar '\([^][()]*\)|\[[^][()]*\]' '' -- $open)
    end
    set -l wanted EXPR
    set -l found (string match -r '([a-z_]*)\(([^][()]*)$' -- $open)
    if test (count $found) -gt 0
        # the form whose parenthesis is open, and which of its arguments is under way
        set -l form (string match -- "$found[2](*" $forms)
        set -l arguments (string replace -r '^[^(]*\((.*)\)$' '$1' -- $form | string split ,)
        set wanted $arguments[(count (string split , -- "$found[3]"))]
    end
    set -l begun (string match -r '[^[(,]*$' -- $text)
    set -l before (string replace -r '[^[(,]*$' '' -- $text)
    if test "$wanted" = '[..]' -a -z "$begun"
        printf '%s\n' "$before"'[' "$before"'[..]'
    else if test "$wanted" = EXPR
        for form in (string match -- "$begun*" $forms)
            if string match -qr '^stdin$|\(\)$' -- $form
                printf '%s\n' $before$form
                test -z "$before"; or printf '%s\n' $before$form,
            else
                printf '%s\n' $before(string replace -r '\(.*' '(' -- $form) $before$form
            end
        end
    end
end

complete -c sgb -f -a '(__sgb_offers)'
