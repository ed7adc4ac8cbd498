# Completion of sgb for PowerShell, commands, options and forms with their arguments: . .\sgb.ps1
# An expression gets double quotes where it has none. Where nothing is offered, PowerShell offers files.
$global:SgbForms = 'stdin', 'board(n1,n2,n3,n4,piece,wrap,directed)', 'simplex(n,n0,n1,n2,n3,n4,directed)',
    'subsets(n,n0,n1,n2,n3,n4,size_bits,directed)', 'complete(n)', 'transitive(n)', 'empty(n)', 'circuit(n)', 'cycle(n)',
    'disjoint_subsets(n,k)', 'petersen()', 'complement(EXPR,copy,self_loops,directed)', 'gunion(EXPR,EXPR,multi,directed)',
    'intersection(EXPR,EXPR,multi,directed)', 'lines(EXPR,directed)', 'product(EXPR,EXPR,type,directed)',
    'induced(EXPR,[..],self_loops,multi,directed)', 'bi_complete(n1,n2,directed)', 'wheel(n,n1,directed)'

# What may stand in the place of the expression under way, which has these forms.
function global:Get-SgbExpression([string] $Text, [string[]] $Forms) {
    # what is closed has no part in where the text ends
    $open, $closed, $wanted = $Text, '\([^\[\]()]*\)|\[[^\[\]()]*\]', 'EXPR'
    while ($open -match $closed) { $open = $open -replace $closed }
    if ($open -match '([a-z_]*)\(([^\[\]()]*)$') {
        # the form whose parenthesis is open, and which of its arguments is under way
        $name, $place = ($Matches[1] + '('), $Matches[2].Split(',').Count
        $form = [string] ($Forms | Where-Object { $_.StartsWith($name, 'Ordinal') })
        $wanted = ($form -replace '^[^(]*\(|\)$').Split(',')[$place - 1]
    }
    $null = $Text -match '[^\[(,]*$'
    $begun, $before = $Matches[0], $Text.Substring(0, $Text.Length - $Matches[0].Length)
    if ($wanted -eq '[..]' -and -not $begun) { "$before[", "$before[..]" }
    foreach ($form in @($Forms | Where-Object { $wanted -eq 'EXPR' -and $_.StartsWith($begun, 'Ordinal') })) {
        if ($form -notmatch '[^(]\)$') { "$before$form" } else { "$before$($form.Split('(')[0])(", "$before$form" }
    }
}

Register-ArgumentCompleter -Native -CommandName sgb, sgb.exe -ScriptBlock {
    param($Word, $Ast, $Cursor)
    $text, $command, $hasExpression, $hasOption, $isValue, $found, $quote = '', '', $false, $false, $false, @(), ''
    foreach ($part in @($Ast.CommandElements | Select-Object -Skip 1)) {
        $own, $start = $part.Extent.Text, $part.Extent.StartOffset
        if ($start -lt $Cursor -and $part.Extent.EndOffset -ge $Cursor) { $text = $own.Substring(0, $Cursor - $start) }
        elseif ($start -ge $Cursor) { break } elseif ($isValue) { $isValue = $false }
        elseif ($own -match '^--(after|skip)(=|$)') { $isValue, $hasOption = ($own -notmatch '='), $true }
        elseif (-not $command) { $command = $own } else { $hasExpression = $true }
    }
    if ($isValue -or $text -like '--*=*') { return }
    $begun = $text.Trim([char[]] "`"'").Replace('`', '')
    if (-not $command) { $found = 'names', 'list', 'save', 'queen', 'flip' }
    elseif ($text -like '-*') { if ($command -in 'names', 'list' -and -not $hasOption) { $found = '--after', '--skip' } }
    elseif ($command -in 'names', 'list', 'save', 'flip' -and -not $hasExpression) {
        $quote = if ($text -like "'*") { "'" } else { '"' }
        $found = Get-SgbExpression $begun $(if ($command -eq 'flip') { 'flip(start,skip,count,m)' } else { $SgbForms })
    }
    foreach ($one in @($found) | Where-Object { $_.StartsWith($begun, 'Ordinal') }) {
        $end = if ($one -match '^stdin$|^petersen\(\)$') { $quote }
        [Management.Automation.CompletionResult]::new("$quote$one$end", $one, 'ParameterValue', $one)
    }
}
