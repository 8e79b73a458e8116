# Contracts at the edge of the limits and beyond them. `accepts` takes a contract and its canonical
# text, `refuses` a contract and why it is refused.

many() { # TEXT COUNT
    local count=$2
    while [ $((count--)) -gt 0 ]; do printf '%s' "$1"; done
}

# Terms one under another.
accepts "{A:! 1 @ x} $(many 'A:' 63)withdraw A" "{A:! 1 @ x} $(many 'A : ' 63)withdraw A"
refuses "{A:! 1 @ x} $(many 'A:' 64)withdraw A" 'limit Depth 140'
refuses "{A:! 1 @ x} reveal a if $(many 'not ' 64)true . withdraw A" 'limit Depth 280'

# Branches of one choice, and the script of their output.
three='{A:! 1 @ x | B:! 1 @ y | C:! 1 @ z}'
four='{A:! 1 @ x | B:! 1 @ y | C:! 1 @ z | D:! 1 @ w}'
choice_of_32="($(many 'withdraw A + ' 31)withdraw A)"
accepts "$three $choice_of_32" "$three $choice_of_32"
refuses "$four $choice_of_32" 'limit Script r'
refuses "$three ($(many 'withdraw A + ' 32)withdraw A)" 'limit Choice 453'

# Branches of a whole contract.
parts_of_32=$(many "1 -> $choice_of_32, " 15)
choice_of_31="($(many 'withdraw A + ' 30)withdraw A)"
accepts "{A:! 16 @ x} split [${parts_of_32}1 -> $choice_of_31]" "{A:! 16 @ x} split [${parts_of_32}1 -> $choice_of_31]"
refuses "{A:! 16 @ x} split [${parts_of_32}1 -> $choice_of_32]" 'limit Branches 6759'

# Parts of a split.
refuses "{A:! 1 @ x} split [$(many '0 -> withdraw A, ' 64)0 -> withdraw A]" 'limit Split 1107'

# Entries of the precondition. The last deposit or secret that may stand comes to the check.
refuses "{$(many 'A:? 1 @ x | ' 31)A:! 1 @ x} withdraw A" 'fault 1 NameRepeated pre 1'
refuses "{$(many 'A:? 1 @ x | ' 32)A:!" 'limit Deposits 385'
refuses "{$(many 'A:! 1 @ x | ' 32)A:: 1 @ x} withdraw A" 'syntax 387'
refuses "{$(many 'A: secret a | ' 32)A:! 1 @ x} withdraw A" 'fault 1 NameRepeated pre 1'
refuses "{$(many 'A: secret a | ' 32)A: secret a} withdraw A" 'limit Secrets 449'
parties=$(for number in {1..16}; do printf 'P%s:! 1 @ x%s | ' "$number" "$number"; done)
refuses "{${parties}P17:! 1 @ x17} withdraw P1" 'limit Participants 17'

# Bytes of the text.
refuses "$(printf '%1048576s' '')" 'syntax 1048576'
refuses "$(printf '%1048577s' '')" 'limit Text 1048576'
