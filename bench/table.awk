# Prints the table of the rows in the results of the four programs: group|what|bytes|restored|third|best and median of
# library, plain C and the third. A time is the best of all rounds of the four programs; beside it stands the ratio by
# medians: the median of the programs' medians. A move is the difference of two times, so it is taken within each
# program, and of the four the median.
BEGIN { FS = "|"; LIBRARY = 6; PLAIN = 8; THIRD = 10; MOVES = 10 }

{
    row = $1 "|" $2 "|" $3
    if (!(row in seen)) { order[++rows] = row; group[row] = $1; what[row] = $2; bytes[row] = $3; restored[row] = $4; third[row] = $5 }
    seen[row]++
    for (i = LIBRARY; i <= THIRD + 1; i++) value[row, seen[row], i] = $i
}

function best(row, column,    i, least) {
    for (i = 1; i <= seen[row]; i++)
        if (i == 1 || value[row, i, column] < least) least = value[row, i, column]
    return least
}

function median(v, n,    i, j, t) {
    for (i = 1; i <= n; i++)
        for (j = i + 1; j <= n; j++)
            if (v[j] < v[i]) { t = v[i]; v[i] = v[j]; v[j] = t }
    return n % 2 ? v[(n + 1) / 2] : (v[n / 2] + v[n / 2 + 1]) / 2
}

# The median over the programs of the medians, which stand behind the bests.
function middle(row, column,    i, v) {
    for (i = 1; i <= seen[row]; i++) v[i] = value[row, i, column + 1]
    return median(v, seen[row])
}

# The least and the greatest ratio of two bests in one program.
function range(row, x, y,    i, r, low, high) {
    for (i = 1; i <= seen[row]; i++) {
        r = value[row, i, x] / value[row, i, y]
        if (i == 1 || r < low) low = r
        if (i == 1 || r > high) high = r
    }
    return sprintf("%.2f to %.2f", low, high)
}

function shown(ns) {
    return ns >= 1e6 ? sprintf("%.2f ms", ns / 1e6) : ns >= 1e4 ? sprintf("%.1f us", ns / 1e3) : sprintf("%.2f us", ns / 1e3)
}

function size_of(bytes) {
    return bytes >= 1e6 ? bytes / 1e6 " MB" : bytes == 65536 ? "64 KB" : bytes / 1e3 " KB"
}

function section(name, title, beside,    i, row, l, p, t) {
    printf "\n%s\n\n", title
    printf "| What | Size | Restored | Library | Plain C | %s | / C | / C, medians | / C, over programs | / %s |\n|---|---|---|---|---|---|---|---|---|---|\n", beside, beside
    for (i = 1; i <= rows; i++) {
        row = order[i]
        if (group[row] != name || third[row] != beside) continue
        l = best(row, LIBRARY); p = best(row, PLAIN); t = best(row, THIRD)
        printf "| %s | %s | %s | %s | %s | %s | %.2f | %.2f | %s | %.2f |\n", what[row], size_of(bytes[row]), restored[row], shown(l), shown(p), shown(t), l / p, middle(row, LIBRARY) / middle(row, PLAIN), range(row, LIBRARY, PLAIN), l / t
    }
}

# One move in program i: the list with the moves less the one without them.
function move(row, i, column,    still) {
    still = row
    sub("^moving", "still", still)
    return (value[row, i, column] - value[still, i, column]) / MOVES
}

# The median over the programs: of a move, of memmove, and of one to the other.
function middle_move(row, column,    i, v) {
    for (i = 1; i <= seen[row]; i++) v[i] = move(row, i, column)
    return median(v, seen[row])
}

function middle_memmove(row,    i, v) {
    for (i = 1; i <= seen[row]; i++) v[i] = value[row, i, THIRD] / MOVES
    return median(v, seen[row])
}

function to_memmove(row, column,    i, v) {
    for (i = 1; i <= seen[row]; i++) v[i] = move(row, i, column) * MOVES / value[row, i, THIRD]
    return median(v, seen[row])
}

function moves(    i, row) {
    printf "\nThe move alone\n\n"
    printf "| What | Size | Library | Plain C | memmove | Library / memmove | Plain C / memmove |\n|---|---|---|---|---|---|---|\n"
    for (i = 1; i <= rows; i++) {
        row = order[i]
        if (group[row] == "moving")
            printf "| %s | %s | %s | %s | %s | %.2f | %.2f |\n", what[row], size_of(bytes[row]), shown(middle_move(row, LIBRARY)), shown(middle_move(row, PLAIN)), shown(middle_memmove(row)), to_memmove(row, LIBRARY), to_memmove(row, PLAIN)
    }
}

function growth(    i, row) {
    printf "\nHow the whole-file test grows with the file, in ns a byte\n\n| Size | Library | Plain C | memcpy | / C |\n|---|---|---|---|---|\n"
    for (i = 1; i <= rows; i++) {
        row = order[i]
        if (group[row] == "growth")
            printf "| %s | %.3f | %.3f | %.3f | %.2f |\n", size_of(bytes[row]), best(row, LIBRARY) / bytes[row], best(row, PLAIN) / bytes[row], best(row, THIRD) / bytes[row], best(row, LIBRARY) / best(row, PLAIN)
    }
}

function target(text, ratio, most) { printf "| %s | %.2f | %.1f | %s |\n", text, ratio, most, ratio <= most ? "met" : "missed" }

function targets(    size, row) {
    printf "\nTargets\n\n| Target | Ratio | At most | |\n|---|---|---|---|\n"
    for (size = 1000000; size <= 100000000; size *= 100) {
        row = "files|whole-file test|" size
        target("whole-file test / plain C, " size_of(size), best(row, LIBRARY) / best(row, PLAIN), 1.1)
        row = "files|whole-file test, by the service|" size
        target("whole-file test by the service / plain C, " size_of(size), best(row, LIBRARY) / best(row, PLAIN), 1.1)
    }
    for (size = 1000000; size <= 100000000; size *= 100) {
        row = "moving|move up by 8|" size
        target("move up by 8 / memmove, " size_of(size), to_memmove(row, LIBRARY), 1.2)
        row = "moving|move down by a read, end zeroed|" size
        target("move down by a read, end zeroed / memmove and memset, " size_of(size), to_memmove(row, LIBRARY), 1.2)
    }
    for (size = 1000000; size <= 100000000; size *= 100) {
        row = "lists|1000 records|" size
        target("list of 1,000 sorted clip corrections / one whole-file test, " size_of(size), best(row, LIBRARY) / best(row, THIRD), 1.5)
    }
}

END {
    section("files", "Files", "memcpy")
    section("files", "Corrections that move the rest of the file", "memmove")
    moves()
    section("lists", "Lists of sorted clip corrections, beside one whole-file test of the library", "one test")
    growth()
    section("filters", "Filters", "memcpy")
    targets()
}
