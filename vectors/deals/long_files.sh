# Each file of a deal, of as many empty lines as it may have bytes, and of a byte more.
answers() { # TEXT STATUS WORD..
    printf '%s\n' "$1" >"$folder/text"
    writes "$folder/text" "$2" ./bitml deal "${@:3}"
}
bet=vectors/deals/bet
head -c 8388608 /dev/zero | tr '\0' '\n' >"$folder/further"
answers 'deal refused missing key D:A' 13 plan $bet.bitml "$folder/further"
answers $'deposit x .. .. 100000 ..\ndeposit y .. .. 20000 ..\npay A ..\npay B ..' 0 fund $bet.bitml "$folder/further"
answers 'refused endorsement r.0 A' 16 finish $bet.bitml $bet.deal init "$folder/further"
answers $'warnings 0\ninit not endorsed r.0 A' 16 ready $bet.bitml $bet.deal "$folder/further"
answers $'height 0\ncan init' 0 state $bet.bitml $bet.deal "$folder/further" ${bet}_all.signatures
printf '\n' >>"$folder/further"
answers 'deal refused size' 13 plan $bet.bitml "$folder/further"
answers 'deal refused size' 13 fund $bet.bitml "$folder/further"
answers 'signatures refused size' 14 missing $bet.bitml $bet.deal "$folder/further"
answers 'chain refused size' 17 state $bet.bitml $bet.deal "$folder/further" ${bet}_all.signatures
head -c 1048576 "$folder/further" >"$folder/strings"
answers 'refused secret a' 16 finish $bet.bitml $bet.deal r.0 ${bet}_all.signatures "$folder/strings"
printf '\n' >>"$folder/strings"
answers 'secrets refused size' 15 finish $bet.bitml $bet.deal r.0 ${bet}_all.signatures "$folder/strings"
answers 'secrets refused size' 15 hashes $bet.bitml "$folder/strings"
