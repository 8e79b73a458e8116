#!/usr/bin/env bash
# Plays deals from their keys to the payouts on a private test chain of its own. In the first the deposits are of keys; in the others they
# are coins of the node's own wallets, and payouts go to fresh addresses of theirs. One has a coin that a branch puts, and one is called
# off. Branches are signed by a signer whose keys everybody has. At each step `state` has to say that exactly what the node takes can come.
# It needs a node with Bitcoin Core's rules, litecoind; where there is none it says so and ends well. BITML_DEAL names another program.
set -euo pipefail
top=$(dirname "$(dirname "$(readlink -f "${BASH_SOURCE[0]}")")")
if ! command -v litecoind >/dev/null || ! command -v litecoin-cli >/dev/null; then
    echo 'play_deal: litecoind is not installed, so no deal is played'
    exit 0
fi

folder=$(mktemp -d)
port=$((20000 + $$ % 20000))
options=(-regtest -datadir="$folder/node" -rpcport="$port")
node() { litecoin-cli "${options[@]}" "$@"; }
# Stops the node that was started here, and no other.
leave() {
    node stop >/dev/null 2>&1 || true
    [ -z "${pid-}" ] || wait "$pid" 2>/dev/null || true
    rm -rf "$folder"
}
trap leave EXIT

mkdir "$folder/node"
litecoind "${options[@]}" -listen=0 -connect=0 -dnsseed=0 -fallbackfee=0.0001 >"$folder/log" 2>&1 &
pid=$!
node -rpcwait getblockcount >/dev/null
node createwallet bank >/dev/null
bank() { node -rpcwallet=bank "$@"; }
mine() { bank generatetoaddress "$1" "$reward" >/dev/null; }
reward=$(bank getnewaddress)
mine 101

# ---- the deal
seed="play deal"
signer() { python3 "$top/tools/test_signer.py" "$@"; }
deal() {
    # shellcheck disable=SC2086
    if [ -n "${BITML_DEAL-}" ]; then $BITML_DEAL "$@"; else "$top/bitml" deal "$@"; fi
}
say() { printf '\n%s\n' "-- $*"; }
cd "$folder"
# The example's contract, with a lock that this chain reaches, and the first block that can have a transaction of the deal.
lock=110 first=102
sed "s/after [0-9]* /after $lock /" "$top/examples/deals/timed_commitment/contract.bitml" >contract

say 'the lines that the deal file needs, and keys for them'
deal keys contract >template
signer keys "$seed" <template | grep -v ' \.\.' >deal_file
cat template

say 'each deposit is paid to wsh(pk(KEY)), by any wallet'
descriptor() { node getdescriptorinfo "wsh(pk($1))" | sed -n 's/.*"descriptor": "\(.*\)",/\1/p'; }
address() { node deriveaddresses "$(descriptor "$1")" | grep -o 'rltc[a-z0-9]*'; }
while read -r name party coins; do
    key=$(awk -v l="D:$party" '$1 == "key" && $2 == l { print $3 }' deal_file)
    txid=$(bank sendtoaddress "$(address "$key")" "$coins")
    vout=$(bank gettransaction "$txid" | sed -n 's/.*"vout": \([0-9]*\),/\1/p' | head -n 1)
    printf 'deposit %s %s %s\n' "$name" "$txid" "$vout" | tee -a deal_file
done <<<'x A 0.00100000
y B 0.00020000'
mine 1
deal plan contract deal_file >plan

# Each deposit has to be there, of the value and to the script that the plan has.
deposits_are_there() {
    local name txid vout value script there
    while read -r _ name txid vout value script _; do
        there=$(node gettxout "$txid" "$vout")
        printf '%s %s\n' "$name" "$value"
        grep -q "\"hex\": \"$script\"" <<<"$there"
        [ "$(sed -n 's/.*"value": \([0-9.]*\),/\1/p' <<<"$there")" = "$(printf '%d.%08d' $((value / 100000000)) $((value % 100000000)))" ]
    done < <(grep '^deposit ' plan)
}
say 'the deposits are there, of the value and to the script that the plan has'
deposits_are_there

# Whether the node would take a transaction now; `said` has what it answers.
takes() { # FILE
    node testmempoolaccept "[\"$(cat "$1")\"]" >said
    grep -q '"allowed": true' said
}

# Where the deal stands goes to `now`. It says the same by whole blocks and by the deal's transactions alone. Of what can be finished with
# `now` as file of secrets, exactly what can come is taken by the node.
look() { # [SECRETS]
    local which
    "$top/tools/chain_file.py" "$first" litecoin-cli "${options[@]}" >blocks
    "$top/tools/chain_file.py" --of plan --of deal_file "$first" litecoin-cli "${options[@]}" >chain
    deal state contract deal_file blocks signatures "$@" >now
    deal state contract deal_file chain signatures "$@" | cmp - now
    sed -n '/^height/,$p' now
    while read -r which; do
        if ! deal finish contract deal_file "$which" signatures now >tried.hex; then
            ! grep -qx "can $which" now || { echo "$which can come, and isn't finished"; exit 1; }
        elif grep -qx "can $which" now; then
            takes tried.hex || { cat said; echo "$which can come, and the node refuses it"; exit 1; }
        else
            ! takes tried.hex || { echo "the node takes $which, which isn't said to come"; exit 1; }
        fi
    done < <(awk '$1 == "tx" { print $2 }' plan)
}
# A line has to be in `now`.
stands() { # LINE
    grep -qx "$1" now || { cat now; echo "state doesn't write: $1"; exit 1; }
}

say 'both endorse, and each verifies what the other gave'
deal psbt contract deal_file >psbts
for party in A B; do signer sign "$seed" $party endorse plan psbts; done >signatures
deal held contract deal_file signatures | signer verify
deal missing contract deal_file signatures | tee missing
[ "$(tail -n 1 missing)" = 'init may be signed' ]

say 'nobody has signed the beginning, and the deal waits for both'
look 2>/dev/null
stands 'needs signature init 0 D:A init'
stands 'waits B'

say "both sign the beginning, A by the node's own wallet, B by the signer"
node -named createwallet wallet_name=alice >/dev/null
alice() { node -rpcwallet=alice "$@"; }
alice importmulti "[{\"desc\": \"$(node getdescriptorinfo "wsh(pk($(signer wif "$seed" D:A)))" |
    sed -n 's/.*"checksum": "\(.*\)",/\1/p' | sed "s/^/wsh(pk($(signer wif "$seed" D:A)))#/")\", \"timestamp\": 0}]" >imported
grep -q '"success": true' imported
alice walletprocesspsbt "$(deal psbt contract deal_file init)" | sed -n 's/.*"psbt": "\(.*\)",/\1/p' >>signatures
signer sign "$seed" B init plan psbts >>signatures

# Hands a transaction to the node, which has to take it, and mines it.
send() { # WHICH [SECRETS]
    deal finish contract deal_file "$1" signatures ${2+"$2"} >"$1.hex"
    printf '%s %s\n' "$1" "$(node sendrawtransaction "$(cat "$1.hex")")"
    mine 1
}
say 'the deal can begin, and begins'
look 2>/dev/null
stands 'can init'
send init

# What the node would say of a transaction that was finished.
says() { # FILE WORDS
    if takes "$1"; then echo "the node takes $1"; exit 1; fi
    grep -E 'reject-reason' said
    grep -q "\"$2\"" said
}
say "A can show its secret, and B can't be paid before its block"
signer secrets "$seed" a >secrets
if deal finish contract deal_file r.0 signatures; then echo 'finished without its secret'; exit 1; fi
look 2>/dev/null
stands 'needs secret a of A'
stands "needs height $lock"
look secrets
stands 'can r.0'
mine $((lock - 1 - $(node getblockcount)))
look secrets
stands "needs height $lock"
deal finish contract deal_file r.1 signatures >r.1.hex
says r.1.hex non-final

say 'in the block behind its lock B can be paid, and A still'
mine 1
look secrets
stands 'can r.0'
stands 'can r.1'

say 'A shows its secret, which the chain has then, and is paid'
send r.0 secrets
look
stands 'step reveal 0 A a'
stands "$(cat secrets)"
send r.0.0
look
grep '^paid ' now
if grep -q '^can' now; then echo 'something can come behind the end'; exit 1; fi

say 'the payout is a plain deposit of A again'
txid=$(awk '$1 == "tx" && $2 == "r.0.0" { print $3 }' plan)
node gettxout "$txid" 0 | grep '"value"'
alice listunspent | grep -q "$txid" && echo "it is in A's wallet"

say "B's way is as closed as A's, since the contract's output is spent"
says r.0.hex missing-inputs
says r.1.hex missing-inputs

# ---- the second deal: coins of two wallets of the node

mkdir "$folder/second"
cd "$folder/second"
say 'a second deal: two wallets, each with some coins of its own'
for party in a b; do
    node -named createwallet wallet_name=$party >/dev/null
    bank sendtoaddress "$(node -rpcwallet=$party getnewaddress '' bech32)" 0.01 >/dev/null
done
mine 1
wallet() { node -rpcwallet="$1" "${@:2}"; }
lock=$(($(node getblockcount) + 10))
sed "s/after [0-9]* /after $lock /" "$top/examples/deals/timed_commitment/contract.bitml" >contract

say 'what is to be paid, before there is anything'
printf 'network rltc\n' >deal_file
deal fund contract deal_file | tee funds
grep -qx 'deposit x .. .. 100000 ..' funds

say 'payouts go to fresh addresses, and the keys of branches and the hash are there'
for party in A B; do printf 'pay %s %s\n' $party "$(wallet ${party,} getnewaddress '' bech32)"; done | tee -a deal_file
deal keys contract | signer keys "$seed" | grep '^key B:' >>deal_file
signer secrets "$seed" a >secrets
deal hashes contract secrets | tee -a deal_file
deal fund contract deal_file

say 'each pays to an address of its own, one of a key and one of two keys, and locks the coin in its wallet'
# The address of an own wallet that needs signatures of two of its keys.
of_two_keys() {
    wallet b addmultisigaddress 2 "[\"$(wallet b getnewaddress)\", \"$(wallet b getnewaddress)\"]" '' bech32 | sed -n 's/.*"address": "\(.*\)",/\1/p'
}
brings() { # DEPOSIT WALLET ADDRESS COINS
    local txid vout
    txid=$(wallet "$2" sendtoaddress "$3" "$4")
    vout=$(wallet "$2" listunspent 0 9999999 "[\"$3\"]" | sed -n 's/.*"vout": \([0-9]*\),/\1/p')
    wallet "$2" lockunspent false "[{\"txid\": \"$txid\", \"vout\": $vout}]" >/dev/null
    printf 'deposit %s %s %s %s\n' "$1" "$txid" "$vout" "$3" | tee -a deal_file
}
brings x a "$(wallet a getnewaddress '' bech32)" 0.00100000
brings y b "$(of_two_keys)" 0.00020000
mine 1
first=$(node getblockcount)
deal plan contract deal_file >plan
deposits_are_there
deal fund contract deal_file | while read -r line; do grep -qxF "$line" plan; done
deal warn contract deal_file secrets
[ "$(deal warn contract deal_file secrets)" = 'warnings 0' ]

# Whether `init` may be signed: the last line, and the status.
readiness() { # STATUS LINE
    local status=0
    deal ready contract deal_file signatures secrets >ready || status=$?
    cat ready
    [ $status -eq "$1" ] && [ "$(tail -n 1 ready)" = "$2" ]
}
say 'no key of a deposit is asked for; before both have endorsed nobody may sign the beginning'
deal endorse contract deal_file A >to_endorse
: >signatures
readiness 16 'init not endorsed r.0 A'
signer sign "$seed" A endorse plan to_endorse >>signatures
readiness 16 'init not endorsed r.0 B'
deal endorse contract deal_file B >to_endorse
signer sign "$seed" B endorse plan to_endorse >>signatures
readiness 0 'init may be signed'
look 2>/dev/null
stands 'needs signature init 0 W:x init'
stands 'needs signature init 1 W:y init'
stands 'waits B'

say 'each wallet signs its own input of the beginning and finishes it'
for party in a b; do
    wallet $party walletprocesspsbt "$(deal psbt contract deal_file init)" true ALL | sed -n 's/.*"psbt": "\(.*\)",/\1/p' >>signatures
done
deal missing contract deal_file signatures
deal held contract deal_file signatures | grep '^held' | signer verify >verified
grep -qx 'good init 0 W:x init' verified
deal held contract deal_file signatures | grep '^witness init 1 W:y init - ' >/dev/null
look 2>/dev/null
stands 'can init'
send init

say 'A stays silent, and B is paid from the block behind its lock on'
look
stands 'needs secret a of A'
stands "needs height $lock"
deal finish contract deal_file r.1 signatures >r.1.hex
says r.1.hex non-final
mine $((lock - $(node getblockcount)))
look
stands 'can r.1'
send r.1
look
grep '^paid ' now

say "the payout is a coin of B's wallet, which pays on with it"
txid=$(awk '$1 == "tx" && $2 == "r.1" { print $3 }' plan)
paid=$(wallet b listunspent 1 9999999 "[\"$(awk '$1 == "pay" && $2 == "B" { print $3 }' deal_file)\"]")
grep -q "\"txid\": \"$txid\"" <<<"$paid"
grep -q '"spendable": true' <<<"$paid"
wallet b -named sendtoaddress "address=$reward" amount=0.00110000 subtractfeefromamount=true >/dev/null
say 'and a branch that was to be is closed'
deal finish contract deal_file r.0 signatures secrets >r.0.hex
says r.0.hex missing-inputs

# ---- the third deal: a wallet's coin that a branch puts, and a deal that is called off

mkdir "$folder/third"
cd "$folder/third"
say 'a third deal: Alice sells a key to Bob, who may add a coin of his wallet'
lock=$(($(node getblockcount) + 20))
sed "s/after [0-9]* /after $lock /" "$top/examples/deals/wallet_sale/contract.bitml" >contract
signer secrets "$seed" key >secrets
{
    printf 'network rltc\npay Alice %s\npay Bob %s\n' "$(wallet a getnewaddress '' bech32)" "$(wallet b getnewaddress '' bech32)"
    deal keys contract | signer keys "$seed" | grep '^key B:'
    deal hashes contract secrets
} >deal_file
brings x a "$(wallet a getnewaddress '' bech32)" 0.00050000
brings y b "$(of_two_keys)" 0.00100000
brings z b "$(wallet b getnewaddress '' bech32)" 0.00030000
mine 1
first=$(node getblockcount)
deal plan contract deal_file >plan
deposits_are_there
for party in Alice Bob; do
    deal endorse contract deal_file $party >to_endorse
    signer sign "$seed" $party endorse plan to_endorse
done >signatures
readiness 16 'init not endorsed r.1 Bob'

say "Bob's wallet signs for its coin, and Alice looks whether the key of that signature is the coin's"
wallet b walletprocesspsbt "$(deal psbt contract deal_file r.1)" true ALL | sed -n 's/.*"psbt": "\(.*\)",/\1/p' >>signatures
readiness 16 'init may be signed once the unverified are checked'
read -r _ _ _ _ _ key _ < <(deal held contract deal_file signatures | grep '^held r.1 1 W:z endorse ')
shown=$(node deriveaddresses "$(node getdescriptorinfo "wpkh($key)" | sed -n 's/.*"descriptor": "\(.*\)",/\1/p')" | grep -o 'rltc[a-z0-9]*')
grep -q "^deposit z .* $shown\$" deal_file
for party in a b; do
    wallet $party walletprocesspsbt "$(deal psbt contract deal_file init)" true ALL | sed -n 's/.*"psbt": "\(.*\)",/\1/p' >>signatures
done
look 2>/dev/null
stands 'can init'
stands 'unverified r.1 1 W:z endorse'
send init

say 'nobody puts the coin until Bob wants it'
look secrets
stands 'can r.0'
stands 'needs signature r.1 0 B:0:r.1:Bob authorise'
deal psbt contract deal_file >psbts
signer sign "$seed" Bob authorise:r.1 plan psbts >>signatures
look secrets
stands 'can r.1'
send r.1 secrets
look
stands 'can r.1.0'
send r.1.0
look
grep '^paid ' now
txid=$(awk '$1 == "tx" && $2 == "r.1.0" { print $3 }' plan)
wallet a listunspent >unspent
grep -q "$txid" unspent
echo 'it is in the wallet of Alice'

say 'the same deal with other coins is called off: Bob spends his coin elsewhere'
grep -v '^deposit' deal_file >again
mv again deal_file
brings x a "$(wallet a getnewaddress '' bech32)" 0.00050000
brings y b "$(wallet b getnewaddress '' bech32)" 0.00100000
brings z b "$(wallet b getnewaddress '' bech32)" 0.00030000
mine 1
first=$(node getblockcount)
deal plan contract deal_file >plan
for party in Alice Bob; do
    deal endorse contract deal_file $party >to_endorse
    signer sign "$seed" $party endorse plan to_endorse
done >signatures
for call in 'b r.1' 'a init' 'b init'; do
    wallet "${call% *}" walletprocesspsbt "$(deal psbt contract deal_file "${call#* }")" true ALL | sed -n 's/.*"psbt": "\(.*\)",/\1/p' >>signatures
done
look 2>/dev/null
stands 'can init'
read -r _ _ txid vout _ < <(grep '^deposit y' deal_file)
coin="[{\"txid\": \"$txid\", \"vout\": $vout}]"
wallet b lockunspent true "$coin" >/dev/null
elsewhere=$(wallet b createrawtransaction "$coin" "{\"$(wallet b getnewaddress '' bech32)\": 0.00099}")
node sendrawtransaction "$(wallet b signrawtransactionwithwallet "$elsewhere" | sed -n 's/.*"hex": "\(.*\)",/\1/p')" >/dev/null
mine 1
look 2>/dev/null
stands 'needs deposit y'
deal finish contract deal_file init signatures >init.hex
says init.hex missing-inputs
echo
echo 'play_deal: the deals were played to their ends'
