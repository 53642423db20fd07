# The medians over all layouts of what speed.rs prints: name, microseconds of the library and, where it is compared, of Rust, by tabs.

# the k-th lowest of the values that are filed under a name
function ranked(values, name, count, k,    i, j, low, sorted) {
    for (i = 1; i <= count; i++) {
        low = values[name, i] + 0
        for (j = i; j > 1 && sorted[j - 1] > low; j--)
            sorted[j] = sorted[j - 1]
        sorted[j] = low
    }
    return sorted[k]
}

{
    if (!($1 in count))
        names[++lines] = $1
    k = ++count[$1]
    library[$1, k] = $2
    if (NF == 3) {
        compared[$1] = 1
        rust[$1, k] = $3
        ratio[$1, k] = $3 / $2
    }
}

END {
    printf "%-50s %10s %10s %7s   %s\n", "median of nine layouts, microseconds a call", "library", "Rust", "ratio", "lowest, highest"
    for (i = 1; i <= lines; i++) {
        name = names[i]
        n = count[name]
        half = int((n + 1) / 2)
        printf "%-50s %10.2f", name, ranked(library, name, n, half)
        if (name in compared)
            printf " %10.2f %7.2f   %.2f, %.2f", ranked(rust, name, n, half), ranked(ratio, name, n, half), ranked(ratio, name, n, 1), ranked(ratio, name, n, n)
        printf "\n"
    }
}
