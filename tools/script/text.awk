# Reads a file's bytes, as `od -An -v -tu1` prints them, into lines and fields that can be shown.
#
#   text[l, i]   field i of line l: ASCII as it stands, the rest named, as <CR>, <NUL>, <U+00E9>, <0x8A>; of a long field the first signs
#   size[l, i]   how many bytes the field has
#   fields[l]    how many fields line l has
#   last[l]      the last byte of line l, the line feed not counted; there is none if the line is empty
#   lines        how many lines are ended by a line feed; what stands behind the last line feed is line lines + 1
#   head[k]      byte k of the file, for the first eight
#   carriages    how many carriage returns the file has

BEGIN {
    longest = 80
    line = field = fields[1] = 1
    for (code = 32; code < 127; code++) sign[code] = sprintf("%c", code)
    sign[0] = "<NUL>"
    sign[13] = "<CR>"
}

{
    for (column = 1; column <= NF; column++) take($column + 0)
}

END {
    break_off()
    lines = line - 1
}

# the next byte of the file
function take(byte) {
    if (++bytes <= 8) head[bytes] = byte
    if (byte == 13) carriages++
    if (byte == 10) {
        break_off()
        line++
        field = fields[line] = 1
        return
    }
    last[line] = byte
    if (byte == 9) {
        break_off()
        fields[line] = ++field
        return
    }
    size[line, field]++
    if (to_come && byte >= 128 && byte < 192) {
        value = value * 64 + byte - 128
        parts = parts sprintf("<0x%02X>", byte)
        if (--to_come == 0) show(sprintf("<U+%04X>", value))
        return
    }
    break_off()
    if (byte >= 194 && byte < 245) {
        to_come = byte < 224 ? 1 : byte < 240 ? 2 : 3
        value = byte - (byte < 224 ? 192 : byte < 240 ? 224 : 240)
        parts = sprintf("<0x%02X>", byte)
        return
    }
    show(byte in sign ? sign[byte] : sprintf("<0x%02X>", byte))
}

# a character of several bytes that breaks off is shown as the bytes that there are
function break_off() {
    if (to_come) show(parts)
    to_come = 0
}

# puts a sign behind the text of the field
function show(shown) {
    if (length(text[line, field]) < longest) text[line, field] = text[line, field] shown
}

# a text cut to so many signs
function cut(shown, most) {
    return length(shown) > most ? substr(shown, 1, most) ".." : shown
}

# a text as it is quoted
function quoted(shown) {
    return "\"" cut(shown, 40) "\""
}

# a line as it is quoted
function quoted_line(l,    i, whole) {
    whole = text[l, 1]
    for (i = 2; i <= fields[l] && length(whole) < longest; i++) whole = whole "<TAB>" text[l, i]
    return quoted(whole)
}

# whether nothing stands in a line
function is_empty(l) {
    return fields[l] == 1 && text[l, 1] == ""
}

# the form of the numbers n and m: 1 to 6 digits, no leading zero
function number_form(shown) {
    return shown ~ /^[0-9]+$/ && length(shown) <= 6 && shown !~ /^0./
}

# the form of a code: an optional minus, then such a number; no -0
function code_form(shown) {
    return shown ~ /^-/ ? shown != "-0" && number_form(substr(shown, 2)) : number_form(shown)
}

# whether a code of this form is from -999 to 999
function in_range(shown) {
    return shown + 0 >= -999 && shown + 0 <= 999
}

# the form of a name: 1 to 16 bytes, a letter first, then letters, digits or _
function name_form(shown) {
    return shown ~ /^[A-Za-z][A-Za-z0-9_]*$/ && length(shown) <= 16
}
