# Joins what the programs print, first the file of ours and then the peer's, into one table: of each call the
# least number. The peer has one make of table and one of link, so each of ours stands beside that.

function beside(edges) {
    return sprintf(" | %9.1f %9.1f %7.2f", ours[edges, row], peer[edges, other], ours[edges, row] / peer[edges, other])
}

BEGIN { FS = ": " }
/ edges$/ { edges = $1 + 0; next }
/^  [^ ]/ { make = substr($0, 3); next }
{ name = make ", " substr($1, 5); key = edges SUBSEP name; took = $2 + 0 }
NR == FNR {
    if (!(name in known)) { known[name]; rows[++count] = name }
    if (!(key in ours) || took < ours[key]) ours[key] = took
    next
}
{ if (!(key in peer) || took < peer[key]) peer[key] = took }

END {
    printf "%-38s | %-27s | %-27s\n", "nanoseconds", "500 edges", "50 edges"
    printf "%-38s", ""
    for (k = 0; k < 2; k++) printf " | %9s %9s %7s", "ours", "peer", "ratio"
    print ""
    for (k = 1; k <= count; k++) {
        row = other = rows[k]
        sub(/^(rows|pairs),/, "table,", other)
        sub(/^(ring|packed),/, "link,", other)
        printf "%-38s%s%s\n", row, beside(500), beside(50)
    }
    kept = "policy, closure of a user"
    printf "closures that the peer's policy keeps, looked up: %.1f at 500 edges, %.1f at 50\n", peer[500, kept], peer[50, kept]
}
