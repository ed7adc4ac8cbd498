#!/usr/bin/env bash
# What the function of sgb.bash offers for lines that are under way: completions/sgb_test.bash
#
# sgb_test.py beside it types lines in a terminal. Here the function is called as bash calls it, also by other ways to
# complete.
set -u
cd "$(dirname "$0")" || exit 1
source ./sgb.bash
passed=0 failed=0 COMP_TYPE=9

# offered WORDS.. = OFFERS..: the last of the words is under way; a quote at its beginning is not part of what is
# completed. COMP_TYPE is the way to complete: 9 for a tab, 37 where what is offered is put into the line in turn.
offered() {
    local wanted
    COMP_WORDS=()
    while [[ $1 != = ]]; do
        COMP_WORDS+=("$1")
        shift
    done
    shift
    wanted="$*"
    COMP_CWORD=$((${#COMP_WORDS[@]} - 1))
    COMP_LINE="${COMP_WORDS[*]}"
    COMP_POINT=${#COMP_LINE}
    local under_way=${COMP_WORDS[COMP_CWORD]}
    _sgb sgb "${under_way#[\"\']}" "${COMP_WORDS[COMP_CWORD - 1]}"
    if [[ ${COMPREPLY[*]-} == "$wanted" ]]; then
        passed=$((passed + 1))
    else
        failed=$((failed + 1))
        echo "${COMP_WORDS[*]}: offered '${COMPREPLY[*]-}', and not '$wanted'"
    fi
}

offered sgb '' = names list save queen flip
offered sgb li = list
offered sgb x =
offered sgb list '"boa' = 'board(' 'board(n1,n2,n3,n4,piece,wrap,directed)'
offered sgb list "'boa" = 'board(' 'board(n1,n2,n3,n4,piece,wrap,directed)'
offered sgb names whe = '"wheel(' '"wheel(n,n1,directed)'
offered sgb names pet = '"petersen()"'
offered sgb save '"std' = stdin
offered sgb save '"pet' = 'petersen()'
offered sgb save '"b' = 'board(n1,n2,n3,n4,piece,wrap,directed)' 'bi_complete(n1,n2,directed)'
offered sgb save '"board(' = '<n1>' 'board(n1,n2,n3,n4,piece,wrap,directed)'
offered sgb save '"board(3,' = '<n2>' 'board(n1,n2,n3,n4,piece,wrap,directed)'
COMP_TYPE=37
offered sgb save '"board(3,' =
offered sgb save '"whe' = 'wheel(' 'wheel(n,n1,directed)'
COMP_TYPE=9
offered sgb list '"complement(pet' = 'complement(petersen()' 'complement(petersen(),'
offered sgb list '"gunion(circuit(3),tr' = 'gunion(circuit(3),transitive(' 'gunion(circuit(3),transitive(n)'
offered sgb list '"induced(complete(2),[1,cir' = \
    'induced(complete(2),[1,circuit(' 'induced(complete(2),[1,circuit(n)'
offered sgb list '"induced(complete(2),[lin' = \
    'induced(complete(2),[lines(' 'induced(complete(2),[lines(EXPR,directed)'
offered sgb list '"complete(2),x' =
offered sgb list '"petersen()"' - = --after --skip
offered sgb list '"petersen()"' --s = --skip
offered sgb list '"petersen()"' --after x --s =
offered sgb list '"petersen()"' --after '' =
offered sgb list --after 0 '"pet' = 'petersen()'
offered sgb list '"petersen()"' '' =
offered sgb save '"petersen()"' - =
offered sgb queen '' =
offered sgb flip '"' = 'flip(' 'flip(start,skip,count,m)'
offered sgb flip '"boa' =
# each form is offered where nothing is written yet
offered sgb list '"' = "${_sgb_forms[@]}"
# a word that bash has cut at a parenthesis
COMP_LINE='sgb list board(' COMP_POINT=15
COMP_WORDS=(sgb list board '(' '') COMP_CWORD=4
_sgb sgb '' '('
[[ ${COMPREPLY[*]-} == "<n1> ${_sgb_forms[1]}" ]] || { echo "cut: offered '${COMPREPLY[*]-}'"; failed=$((failed + 1)); }
[[ $(complete -p sgb) == 'complete -F _sgb sgb' ]] || { echo "not registered"; failed=$((failed + 1)); }
echo "$passed passed, $failed failed"
[[ $failed -eq 0 ]]
