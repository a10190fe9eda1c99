# What a cell or a line looks like that fell short, and what to do about it. Each function gives a sentence, or nothing if it knows none.

# the file as a whole is of another kind
function of_file() {
    if (head[1] == 80 && head[2] == 75 && head[3] == 3 && head[4] == 4)
        return "This is a spreadsheet or a packed file. Save the sheet as tab-separated text."
    if (bytes < 2) return ""
    if ((head[1] == 255 && head[2] == 254) || (head[1] == 254 && head[2] == 255) || (head[1] > 0) != (head[2] > 0))
        return "The text is UTF-16, two bytes a letter. Save it as plain text in ASCII or UTF-8, or: iconv -f UTF-16 -t UTF-8 < FILE > NEW"
    if (head[1] == 239 && head[2] == 187 && head[3] == 191)
        return "The file begins with a byte order mark. Save it as UTF-8 without one, or: tail -c +4 < FILE > NEW"
    if (toupper(text[1, 1]) ~ /^#NEXUS/)
        return "This is a NEXUS file, which is not read. Write W, the number of taxa and the number of characters into line 1, " \
            "and then the rows of its matrix, parted by tabs."
    return ""
}

# a line ends with a carriage return, or the file has no other line ends
function of_carriage(l) {
    if (!carriages) return ""
    if (lines == 0 && (carriages > 1 || last[1] == 13))
        return "The lines end with a carriage return alone, as on an old Macintosh. Save with line feeds, or: tr '\\r' '\\n' < FILE > NEW"
    if (last[l] == 13)
        return "A carriage return stands at the end of the line, as Windows writes it. " \
            "Save with line feeds alone, or: tr -d '\\r' < FILE > NEW"
    return ""
}

# a line without a tab has something else between its fields
function of_parting(l,    shown) {
    shown = text[l, 1]
    if (fields[l] > 1) return ""
    if (shown ~ /;/)
        return "The fields are parted by ; where one tab is wanted. Save as tab-separated text, or: tr ';' '\\t' < FILE > NEW"
    if (shown ~ /, / || (shown ~ /,/ && shown !~ / /))
        return "The fields are parted by , where one tab is wanted. Save as tab-separated text, or: tr ',' '\\t' < FILE > NEW"
    if (shown ~ /[^ ] +[^ ]/)
        return "The fields are parted by blanks where one tab is wanted. Write tabs, or: tr -s ' ' '\\t' < FILE > NEW"
    return ""
}

# empty cells stand behind the last of so many fields
function of_padding(l, wanted,    i) {
    if (fields[l] <= wanted) return ""
    for (i = wanted + 1; i <= fields[l]; i++) if (text[l, i] != "") return ""
    return "Empty cells stand behind the last one, as a spreadsheet pads lines. " \
        "Take the tabs at the ends of lines out: sed \"s/$(printf '\\t')*\\$//\" < FILE > NEW"
}

# the first row has the names of columns
function of_header_row(l,    i, named) {
    if (l != first_row) return ""
    for (i = 2; i <= fields[l]; i++) {
        if (text[l, i] ~ /^[-+]?[0-9]/ || text[l, i] == "?") return ""
        if (text[l, i] ~ /[A-Za-z]/) named = 1
    }
    if (!named) return ""
    return "This looks like a row of column names. Take it out: line 1 says how many taxa and characters there are, and the rows follow it."
}

# a decimal number, and how it could be written
function of_decimal(shown,    whole) {
    if (shown ~ /[.,]0+$/) {
        sub(/[.,]0+$/, "", shown)
        return "This is a decimal number, and codes are whole numbers: write " shown "."
    }
    whole = shown
    gsub(/[.,+]/, "", whole)
    while (whole ~ /^-?0[0-9]/) sub(/0/, "", whole)
    whole = code_form(whole) && in_range(whole) ? ", as " whole " for " shown : ""
    return "This is a decimal number, and codes are whole numbers. Take a smaller unit for this character in all rows" whole "."
}

# a code that falls short
function of_code(shown) {
    if (shown == "" || shown == "<CR>")
        return "The cell is empty, and no code may be missing. Give it one, or leave the character out in all rows, or the taxon."
    if (shown == "?" || shown == "-" || shown == "." || shown ~ /^[Nn]\/?[Aa]$/)
        return "A missing code is not provided for. Give one, or leave the character out in all rows, or the taxon."
    if (shown ~ /^["'].*["']$/) return "Quotation marks stand around the code: take them out."
    if (shown ~ /^ / || shown ~ / $/) return "A blank stands beside the code: take it out."
    if (shown ~ /<U\+2212>/ || shown ~ /<U\+201[0-5]>/) return "The minus is another sign than the hyphen: write -."
    if (shown ~ /<U\+00A0>/) return "A blank that cannot be seen stands there, U+00A0: take it out."
    if (shown ~ /^[-+]?[0-9]*[.,][0-9]+$/) return of_decimal(shown)
    if (shown == "-0") return "Write 0."
    if (shown ~ /^\+[0-9]+$/) return "Take the plus out."
    if (shown ~ /^-?0[0-9]+$/) return "Take the zeros in front out."
    if (shown ~ /^-?[0-9]+$/) return "Take a larger unit for this character in all rows, or count it from a middle value."
    if (shown ~ /^[0-9]+ *(\.\.|[-\/&|]|or|to) *[0-9]+$/ || shown ~ /^[({[]/)
        return "Several states in one cell are not provided for: a code is one whole number."
    if (shown ~ /[0-9] +-?[0-9]/) return "A blank stands where a tab is wanted."
    if (shown ~ /<(NUL|CR|0x..|U\+[0-9A-F]+)>/) return "A sign stands there that is no digit and no minus: take it out."
    if (shown ~ /^[A-Za-z]+$/) return "Give each state of the character a whole number, and write that."
    return ""
}

# a name that falls short
function of_name(shown, bytes_there,    other, joined) {
    if (shown == "") return "The name is missing."
    if (shown ~ /^["'].*["']$/) return "Quotation marks stand around the name: take them out."
    if (shown ~ / /) {
        joined = shown
        gsub(/^ +| +$/, "", joined)
        gsub(/ +/, "_", joined)
        if (name_form(joined)) return "A blank stands in the name: write " joined "."
        return "A blank stands in the name. Write _ in its place, and at most 16 letters, digits or _."
    }
    if (shown ~ /<U\+/) return "A name has the letters A to Z and a to z alone, with no accents, and no other alphabet."
    if (shown ~ /^[0-9_]/) return "Begin the name with a letter."
    if (match(shown, /[^A-Za-z0-9_]/)) {
        other = substr(shown, RSTART)
        other = other ~ /^</ && index(other, ">") ? substr(other, 1, index(other, ">")) : substr(other, 1, 1)
        return "The sign " other " is not one for names: write _ or leave it out."
    }
    if (bytes_there > 16) return "The name has " bytes_there " letters: shorten it to 16."
    return ""
}
