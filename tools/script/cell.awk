# Finds the cell of a refused file at which it fell short, with text.awk and advice.awk before it:
#
#   od -An -v -tu1 FILE | LC_ALL=C awk -v number=9 -v at=4 -f text.awk -f advice.awk -f cell.awk
#
# number and at are what the program printed behind R. The first line that is printed is the place, with what stood there; a second one, if
# there is anything to say, what to do about it. The place is sought as the question asks: row by row, code by code from the left.

END {
    first_row = 2 + (text[2, 1] == "V")
    n = text[1, 2] + 0
    m = text[1, 3] + 0
    if (number == 1) of_length()
    else if (number == 2) place = "the file is empty"
    else if (number == 3 || number == 15 || number == 4) of_first_line()
    else if (number == 16) of_weights()
    else if (number >= 5 && number <= 10) of_row(at - first_row + 1)
    else if (number == 17) of_branch(at - first_row - n + 2)
    else if (number == 11) of_rest()
    else if (number == 14) of_tree()
    print place
    if (advice != "") print advice
}

# the first piece of advice that there is
function first_of(a, b, c, d) {
    return a != "" ? a : b != "" ? b : c != "" ? c : d
}

# the name of a row's line, for reading
function row_at(l,    row) {
    row = "row " (l - first_row + 1)
    return text[l, 1] == "" || fields[l] == 1 ? row : row " (" cut(text[l, 1], 20) ")"
}

# 1
function of_length() {
    place = "the file has more than 45,000 bytes"
    advice = of_file()
}

# 3, 15 and 4: line 1
function of_first_line(    i, most) {
    most = text[1, 1] == "F" ? 3 : 4
    if (number == 15) {
        place = "field 4, the order of placing: " quoted(text[1, 4])
        advice = first_of(of_carriage(1), of_padding(1, 3), of_order(text[1, 4]))
    } else if (number == 4) {
        i = n < 1 || n > 64 ? 2 : 3
        place = "number of " (i == 2 ? "taxa" : "characters") ": " quoted(text[1, i])
    } else if (lines == 0 && fields[1] >= 3 && fields[1] <= most && !carriages && of_file() == "") {
        place = quoted_line(1)
        advice = "The line is not ended by a line feed: press return at its end."
    } else if (fields[1] < 3 || fields[1] > most || text[1, 1] !~ /^[WF]$/) {
        place = quoted_line(1)
        advice = first_of(of_file(), of_carriage(1), of_parting(1), of_no_first_line(most))
    } else {
        i = number_form(text[1, 2]) ? 3 : 2
        place = "number of " (i == 2 ? "taxa" : "characters") ": " quoted(text[1, i])
        advice = first_of(of_file(), of_carriage(1), of_count(text[1, i]))
    }
}

# line 1 is none
function of_no_first_line(most,    kind, i, codes) {
    kind = text[1, 1]
    if (is_empty(1)) return "The line is empty: take it out."
    if (kind == "w" || kind == "f") return "Write the letter as a capital."
    if (kind ~ /^"[WF]"$/) return "Quotation marks stand around the letter: take them out."
    if (kind == "W" || kind == "F") {
        if (of_padding(1, 3) != "") return of_padding(1, 3)
        if (fields[1] < 3) return "A field is missing."
        if (kind == "F" && fields[1] == 4) return "An F file places nothing, so it has no order: take the fourth field out."
        return "The line has too many fields."
    }
    for (i = 2; i <= fields[1]; i++) codes += code_form(text[1, i])
    if (codes && codes == fields[1] - 1)
        return "This looks like a row. Write line 1 before the rows: W, the number of taxa, the number of characters, parted by tabs."
    return "This looks like a row of column names. Put in its place: W, the number of taxa, the number of characters, parted by tabs."
}

# a number of taxa or characters whose form is wrong
function of_count(shown) {
    if (shown == "") return "The number is missing."
    if (shown ~ / /) return "A blank stands in it: take it out."
    if (shown ~ /^0[0-9]/) return "Take the zeros in front out."
    return "It is a whole number, in digits alone."
}

# a fourth field that is no order
function of_order(shown,    small) {
    small = tolower(shown)
    gsub(/^[ "]+|[ "]+$/, "", small)
    if (small == "advance" || small == "closest") return "Write " small ", in small letters with nothing beside it."
    return ""
}

# 16: the weights
function of_weights(    i) {
    for (i = 2; i <= fields[2] && text[2, i] ~ /^[1-9]$/; i++) continue
    if (fields[2] - 1 == m && i <= fields[2]) {
        place = "the V line, weight " (i - 1) ": " quoted(text[2, i])
        advice = first_of(of_carriage(2), text[2, i] == "" ? "The cell is empty: write 1 for a character that counts once." : "")
    } else if (fields[2] - 1 != m) {
        place = "the V line has " counted(fields[2] - 1, "weight") ", and line 1 says " counted(m, "character") ": " quoted_line(2)
        advice = first_of(of_carriage(2), of_padding(2, m + 1))
    } else {
        place = "the V line: " quoted_line(2)
        advice = "The line is not ended by a line feed: press return at its end."
    }
}

# so many things in words
function counted(k, thing) {
    return k " " (k == 1 ? thing : thing == "taxon" ? "taxa" : thing "s")
}

# that there are so many, in words
function are(k, thing) {
    return (k == 1 ? "is " : "are ") counted(k, thing)
}

# how many taxa there should be, by line 1
function line_1_says() {
    return "Line 1 says " counted(n, "taxon") ", the ancestor among them"
}

# how many C lines there should be
function c_lines() {
    return "An F file of " counted(n, "taxon") " has " counted(n < 2 ? 0 : 2 * n - 3, "C line")
}

# 5 to 10: row k
function of_row(k,    i, l) {
    l = at
    if (number == 5 && l in last) {
        place = row_at(l) ": " quoted_line(l)
        advice = first_of(of_carriage(l), "The last line is not ended by a line feed: press return at its end.")
    } else if (number == 5) {
        place = "the file ends before row " k
        advice = line_1_says() ", and there " are(k - 1, "row") "."
    } else if (number == 8) {
        of_field_count(l)
    } else if (number == 6) {
        place = "row " k ", name: " quoted(text[l, 1])
        advice = first_of(of_header_row(l), of_name(text[l, 1], size[l, 1]))
    } else if (number == 7) {
        for (i = first_row; text[i, 1] != text[l, 1]; i++) continue
        place = "row " k ", name: " quoted(text[l, 1]) ", as row " (i - first_row + 1)
    } else {
        for (i = 2; i < fields[l]; i++) if (!code_form(text[l, i]) || (number == 10 && !in_range(text[l, i]))) break
        place = row_at(l) ", code " (i - 1) ": " quoted(text[l, i])
        advice = first_of(i == fields[l] ? of_carriage(l) : "", of_header_row(l), of_code(text[l, i]))
    }
}

# 8: a row of too few fields or too many
function of_field_count(l,    i, same, rows) {
    place = row_at(l) " has " counted(fields[l] - 1, "code") ", and line 1 says " counted(m, "character") ": " quoted_line(l)
    if (is_empty(l)) {
        place = "row " (l - first_row + 1) " is an empty line"
        advice = "Take the line out."
        return
    }
    advice = first_of(of_parting(l), of_padding(l, m + 1), of_header_row(l))
    if (advice != "") return
    for (i = 1; i <= fields[l]; i++)
        if (text[l, i] ~ /[0-9] +-?[0-9]/ || (i == 1 && text[l, i] ~ / -?[0-9]+$/))
            advice = "A blank stands where a tab is wanted: " quoted(text[l, i]) "."
    for (i = first_row; i < first_row + n && i <= lines; i++) {
        rows++
        same += fields[i] == fields[l]
    }
    if (advice == "" && rows > 1 && same == rows) advice = "All rows have so many: is it line 1 that should say " (fields[l] - 1) "?"
}

# 17: the C line of node v
function of_branch(v) {
    place = "the C line of node " v ": " quoted_line(at)
    if (at > lines && !(at in last)) {
        place = "the file ends before the C line of node " v
        advice = c_lines() ", and there " are(v - 2, "line") "."
    } else if (at > lines) {
        advice = first_of(of_carriage(at), "The last line is not ended by a line feed: press return at its end.")
    } else if (is_empty(at)) {
        advice = "Take the empty line out."
    } else if (text[at, 1] != "C") {
        advice = fields[at] == m + 1 ? "This looks like a row. " line_1_says() "." : ""
        advice = first_of(of_carriage(at), of_parting(at), advice)
    } else if (fields[at] != 3) {
        advice = of_padding(at, 3)
    } else {
        advice = number_form(text[at, 2]) && text[at, 2] != v ? "The C lines go by rising number of the node, and none is left out." : ""
        advice = first_of(of_carriage(at), advice)
    }
}

# 11: more stands behind the last line
function of_rest(    i, more) {
    for (i = at; i <= lines + 1; i++) if (i in last) more++
    place = "behind the last line: " quoted_line(at)
    if (!more) advice = "Take the empty " (lines > at ? "lines" : "line") " at the end out."
    else if (text[1, 1] == "F") advice = c_lines() "."
    else if (text[at, 1] == "C" && fields[at] == 3 && m != 2) advice = "C lines belong to a file that begins with F."
    else advice = line_1_says() ", and there " are(more, "line") " more."
}

# 14: the C lines are no branching
function of_tree(    v, nodes, below, said, want, steps) {
    nodes = n == 1 ? 1 : 2 * n - 2
    for (v = 2; v <= nodes; v++) {
        above[v] = text[first_row + n + v - 2, 3] + 0
        below[above[v]]++
        said[above[v]] = said[above[v]] (said[above[v]] == "" ? "" : ", ") v
        place = "the C line of node " v ": " quoted_line(first_row + n + v - 2)
        if (above[v] < 1 || above[v] > nodes) {
            advice = "The nodes are 1 to " nodes ", the first " n " of them the taxa."
            return
        }
        if (above[v] == v) {
            advice = "The node stands right above itself."
            return
        }
    }
    for (v = 1; v <= nodes; v++) {
        want = v == 1 ? 1 : v <= n ? 0 : 2
        if (below[v] + 0 == want) continue
        place = "node " v " stands right above " counted(below[v] + 0, "node") (below[v] ? ": " said[v] : "")
        if (v == 1) advice = "The ancestor stands right above one node."
        else advice = v <= n ? "A taxon other than the ancestor stands above none." : "An inner node stands right above two."
        return
    }
    for (v = 2; v <= nodes; v++) {
        want = v
        for (steps = 0; steps < nodes && want != 1; steps++) want = above[want]
        if (want == 1) continue
        place = "going up from node " v " one never comes to node 1"
        advice = "Some inner nodes stand above each other in a ring."
        return
    }
}
