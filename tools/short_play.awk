# Writes the text of `play` a line an event: its number, the event, and behind a colon its path, where it has one, and what came of it.
# The variable `contracts` is the number of contracts; where there are several, a path has its contract's number before it.

# A word of more than 24 characters is cut: what is long is hexadecimal.
function cut(word) { return length(word) > 24 ? substr(word, 1, 22) ".." : word }

# The path of a branch of a contract output.
function path(output, branch) { return output in at ? at[output] "." branch : "" }

# A path as it is shown, of the contract output whose branch it is.
function named(output, branch) {
    if (!(output in at)) return ""
    return (contracts > 1 ? of[output] " " : "") path(output, branch)
}

function write_event() {
    if (event != "") print event ":" (where != "" ? " " where : "") (came != "" ? " " came : "")
    event = ""
}

$1 == "event" {
    write_event()
    event = $2
    for (i = 3; i <= NF; i++) event = event " " cut($i)
    where = came = ""
    if ($3 == "fire") where = $4 == "init" ? (contracts > 1 ? $5 " " : "") "init" : named($4, $5)
    if ($3 == "authorise") where = named($5, $6)
    next
}
# What collides before the first event is alone.
event == "" { if ($1 == "collided") print $1, cut($2), cut($3); next }
$1 == "done" { came = "done" }
$1 == "refused" || $1 == "guessed" || $1 == "collided" {
    came = $1
    for (i = 2; i <= NF; i++) came = came " " cut($i)
}
# What it spends and its lock are left out: the event says the first, and the contract the second.
$1 == "accepted" {
    came = "accepted"
    for (i = 2; i <= NF && $i != "lock"; i++) if (came ~ / makes/ || $i == "makes") came = came " " $i
}
$1 == "step" && $2 == "init" { at[$5] = "r"; of[$5] = $3; if (where == "") where = (contracts > 1 ? $3 " " : "") "init" }
$1 == "step" && ($2 == "putreveal" || $2 == "withdraw" || $2 == "split") {
    if (where == "") where = named($3, $4)
    if ($2 == "putreveal") { at[$6] = path($3, $4); of[$6] = of[$3] }
    if ($2 == "split") for (i = 6; i <= NF; i++) { at[$i] = path($3, $4) "/" (i - 6); of[$i] = of[$3] }
}
$1 == "end" { write_event() }
END { write_event() }
