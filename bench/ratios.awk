# Prints of each kind of work how much one of it takes, in the round where it took least, beside the same of another
# program, and how many times as long ours takes. Reads lines WHO WHAT CAME AMOUNT, where WHO is `ours` or the other, CAME
# is what came of the work, which both must agree on, and AMOUNT nanoseconds, or bytes of memory, of `count` of them.
function figure(what, amount) {
    if (what ~ /^memory/) return sprintf("%.0f bytes", amount)
    if (amount >= 10000) return sprintf("%.0f µs", amount / 1000)
    return sprintf(amount < 10 ? "%.1f ns" : "%.0f ns", amount)
}
{
    if ($1 != "ours") other = $1
    else if (!(($1, $2) in least)) order[++kinds] = $2
    if (!(($1, $2) in least) || $4 + 0 < least[$1, $2]) least[$1, $2] = $4 + 0
    came[$1, $2] = $3
}
END {
    for (i = 1; i <= kinds; i++) {
        what = order[i]
        if (came["ours", what] != came[other, what]) {
            print what ": ours came to " came["ours", what] ", " other " to " came[other, what]
            status = 1
            continue
        }
        ours = least["ours", what] / count
        its = least[other, what] / count
        printf "%-22s  ours %-10s  %s %-10s  ratio %.2f\n", what, figure(what, ours), other, figure(what, its), ours / its
    }
    exit status
}
