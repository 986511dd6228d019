BEGIN { print "names and sums" }
FILENAME == "table.txt" && NF == 3 {
    sum[$1] += $2 * $3
    next
}
FILENAME != "table.txt" { letters += gsub(/[a-z]/, "&") }
END {
    for (name in sum)
        printf "%-6s %8.2f\n", name, sum[name] >"made.txt"
    close("made.txt")
    while ((getline line <"made.txt") > 0)
        lines[++n] = line
    for (i = 1; i <= n; i++)
        for (k = i + 1; k <= n; k++)
            if (lines[k] < lines[i]) {
                line = lines[i]
                lines[i] = lines[k]
                lines[k] = line
            }
    for (i = 1; i <= n; i++)
        print i ": " lines[i]
    print letters, "small letters", substr("flat files", 6), match("bFLT", /[A-Z]+/), RSTART, RLENGTH
    print sin(1), exp(1), int(-3.7), 2 ^ 31, length("twelve bytes")
}
