# Joins the tables of several places of the code: of each row the mean times, their ratio, and the lowest and the
# highest ratio at a place.
function in_brackets(names) {
    return names == "" ? "" : " (" substr(names, 2) ")"
}

$6 == "to" {
    if (!($1 in tables)) {
        order[++rows] = $1
        lowest[$1] = highest[$1] = $4
    }
    tables[$1]++
    library[$1] += $2
    second[$1] += $3
    if ($4 < lowest[$1]) lowest[$1] = $4
    if ($4 > highest[$1]) highest[$1] = $4
}

/unsteady$/ { unsteady[$1] = "  unsteady" }

END {
    printf "%-18s %10s %10s %6s  %s\n", "row", "library", "second", "ratio", "at each place"
    for (i = 1; i <= rows; i++) {
        name = order[i]
        ratio = sprintf("%.2f", library[name] / second[name]) + 0 # as it is printed
        printf "%-18s %10.1f %10.1f %6.2f  %.2f to %.2f%s\n", name, library[name] / tables[name],
            second[name] / tables[name], ratio, lowest[name], highest[name], unsteady[name]
        if (ratio > 1.05) { far++; far_names = far_names " " name }
        else if (ratio > 1.00) { near++; near_names = near_names " " name }
    }
    printf "\n%d of %d rows have a ratio above 1.00: %d above 1.05%s, %d up to 1.05%s\n", far + near, rows, far,
        in_brackets(far_names), near, in_brackets(near_names)
}
