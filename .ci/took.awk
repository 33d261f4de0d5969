# What the gate took, as a table. Reads the lines of `rt ci`, each behind the seconds until it came, and the gate's own,
# `part SECONDS NAME`; passes over every other line. Crates are proved several at a time, so a crate has here the second at which it
# was done, and "kept" if an earlier run on this machine had proved it.
function crate(name) {
    if (!(name in known)) {
        known[name] = 1
        crates[++count] = name
    }
    return name
}

/^[0-9]+ rt: [a-z0-9_]+ proved$/ { proof[crate($3)] = $1; proofs++ }

/^[0-9]+ rt: [a-z0-9_]+ is kept: / { proof[crate($3)] = "kept" }

/^[0-9]+ rt: must-fail [a-z0-9_]+\/.*: refused, / {
    split($4, name, "/")
    edits[crate(name[1])]++
    tried++
}

/^[0-9]+ rt: [a-z0-9_]+ ran, / { programs++ }

/^part [0-9]+ / {
    took[++parts] = $2
    part[parts] = substr($0, length($1 $2) + 3)
}

END {
    row = "%-24s %12s %14s\n"
    printf row, "crate", "proved at s", "edits refused"
    for (i = 1; i <= count; i++) {
        c = crates[i]
        printf row, c, c in proof ? proof[c] : "-", edits[c] + 0
    }
    printf row, "all " count, proofs + 0 " new", tried + 0
    printf "programs run: %d\n\n%-24s %12s\n", programs, "part", "seconds"
    for (i = 1; i <= parts; i++)
        printf "%-24s %12s\n", part[i], took[i]
}
