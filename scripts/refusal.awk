# Finds out why a sheet was refused. Given are its bytes as decimal numbers, and the refusal's `number` and `line`.
# Prints the line's text, made visible, and the reason; nothing where the number does not fit the line.

BEGIN {
    KEPT = 65536    # as many bytes as are given at most: what follows is not known
    HELD = 300      # as many characters of a line are held: a right line has at most 23
    for (b = 0; b < 256; b++) shape[b] = sprintf("\\x%02x", b)
    for (b = 32; b < 127; b++) shape[b] = sprintf("%c", b)
    shape[0] = "<NUL>"; shape[9] = "<tab>"; shape[13] = "<carriage return>"
    # These two have a meaning above.
    shape[60] = "\\x3c"; shape[92] = "\\x5c"

    form["paths N"] = "a sheet begins with 'paths N', as 'paths 3'"
    form["path"] = "a path line is 'label width', as 'A9 3'"
    form["guards G"] = "after the paths comes 'guards G', as 'guards 2', or 'guards 0'"
    form["guard"] = "a guard line is 'label label guard', as '417 A9 2'"
    form["starts N"] = "after the guards the sheet ends, or 'starts N' follows"
    form["start"] = "a starts line is 'label start', as 'A9 1'"
    form["left over"] = "nothing follows the last starts line"
    word["paths N"] = "paths"; word["guards G"] = "guards"; word["starts N"] = "starts"
}

{ for (i = 1; i <= NF; i++) take($i + 0) }

END {
    whole = rows + 0    # so many lines have their line feed
    if (bytes[rows + 1] > 0) rows++
    paths = is_count(text[1], "paths") ? field[2] : -1
    guards = is_count(text[paths + 2], "guards") ? field[2] : -1
    kind = kind_of(line)
    why = reason()
    if (why != "") print (line <= rows ? ", \"" shown(text[line]) "\"" : "") ": " why
}

# Puts a byte down, each line in its visible form.
function take(b) {
    total++
    if (total <= 4) first[total] = b
    if (b == 10) { rows++; return }
    bytes[rows + 1]++
    if (length(text[rows + 1]) < HELD) text[rows + 1] = text[rows + 1] shape[b]
}

# --- what stands in a line; each of these leaves the line's fields in `field`

function fields(s) { return split(s, field, / /) }

# Labels are compared byte by byte; awk alone would take 0417 and 417 for equal numbers.
function same(a, b) { return a "" == b "" }

function is_label(s) { return s ~ /^[-0-9A-Z]+$/ && length(s) <= 8 }

function is_number(s) { return s ~ /^(0|[1-9][0-9]*)$/ && length(s) <= 5 }

function is_count(s, w) { return fields(s) == 2 && field[1] == w && is_number(field[2]) }

function is_path(s) { return fields(s) == 2 && is_label(field[1]) && is_number(field[2]) }

function is_guard(s) {
    return fields(s) == 3 && is_label(field[1]) && is_label(field[2]) && is_number(field[3])
}

function begins(s, w) { fields(s); return same(field[1], w) }

# What the two counts say that line l is; nothing where they do not tell.
function kind_of(l) {
    if (l == 1) return "paths N"
    if (paths < 1 || paths > 128) return ""
    if (l <= paths + 1) return "path"
    if (l == paths + 2) return "guards G"
    if (guards < 0 || guards > 2000) return ""
    if (l <= paths + guards + 2) return "guard"
    if (l == paths + guards + 3) return "starts N"
    if (l <= 2 * paths + guards + 3) return "start"
    return l == 2 * paths + guards + 4 ? "left over" : ""
}

function is_right(s) {
    if (kind in word) return is_count(s, word[kind])
    return kind == "guard" ? is_guard(s) : is_path(s)
}

function is_blank(s) { return s ~ /^ *$/ }

# Whether the line may go on after the bytes that are given.
function is_cut() { return line > whole && total >= KEPT }

# --- what is shown

function shown(s,    n) {
    n = (is_cut() ? "over " : "") bytes[line] + 0 " bytes"
    sub(/^\\xef\\xbb\\xbf|^\\xff\\xfe|^\\xfe\\xff/, "<byte order mark>", s)
    if (s ~ / $/) s = substr(s, 1, length(s) - 1) "<space>"
    return length(s) <= 60 ? s : clipped(s, 50) ".. (cut; " n ")"
}

# The first so many characters, and no part of a byte's name.
function clipped(s, n) {
    s = substr(s, 1, n)
    sub(/(<[A-Za-z ]*|\\x?[0-9a-f]?)$/, "", s)
    return s
}

function short(s) { return length(s) <= 20 ? s : clipped(s, 16) ".." }

function many(n, what) { return n " " what (n == 1 ? "" : "s") }

# --- the reasons

function reason() {
    if (kind == "") return ""
    if (number == 11) return wrong_form()
    if (line > whole || !is_right(text[line])) return ""
    if (number == 1) return wrong_count(field[2])
    if (number == 3 && kind == "path") return outside("the width", field[2], 1, 64)
    if (number == 4 && kind == "guard") return wrong_guard(field[3])
    if (number == 7 && kind == "start") return outside("the start", field[2], 1, 16384)
    if (number == 12 && kind == "path") return label_twice(field[1])
    if (number == 13 && kind == "guard") return bad_pair(field[1], field[2])
    if (number == 13 && kind == "start") return other_label(field[1])
    if (number == 14 && kind == "guard") return pair_twice(field[1], field[2])
    return ""
}

function outside(what, n, low, high) {
    return n < low || n > high ? what " is " n ", and must be " low " to " high : ""
}

function wrong_count(n) {
    if (kind == "paths N") return outside("the number of paths", n, 1, 128)
    if (kind == "guards G") return outside("the number of guards", n, 0, 2000)
    if (kind == "starts N" && n != paths)
        return "the sheet has " many(paths, "path") ", so the line is 'starts " paths "'"
    return ""
}

function wrong_guard(g) {
    return outside("the guard", g, 0, 32) (g == 255 ? "; a pair with no conflict has no line" : "")
}

# The path line, before a line, that has a label; 0 where there is none.
function path_line(label, before,    l) {
    for (l = 2; l < before && l <= paths + 1; l++) {
        fields(text[l])
        if (same(field[1], label)) return l
    }
    return 0
}

function label_twice(label,    l) {
    l = path_line(label, line)
    return l ? "the label " label " is given twice, first at line " l : ""
}

function bad_pair(a, b) {
    if (!path_line(a, line)) return "no path has the label " a likely(a)
    if (!path_line(b, line)) return "no path has the label " b likely(b)
    return same(a, b) ? "the path " a " is paired with itself" : ""
}

# The label that is the same but for zeros at its beginning.
function likely(label,    l) {
    for (l = 2; l <= paths + 1; l++) {
        fields(text[l])
        if (same(without_zeros(field[1]), without_zeros(label)))
            return "; is " field[1] " meant (line " l ")? Labels are compared byte by byte"
    }
    return ""
}

function without_zeros(s) { sub(/^0+/, "", s); return s }

function other_label(label,    l) {
    l = line - (paths + guards + 2)
    fields(text[l])
    if (same(field[1], label)) return ""
    return "the starts are in the order of the paths, so the label here is " field[1] " (line " l ")"
}

function pair_twice(a, b,    l) {
    for (l = paths + 3; l < line; l++) {
        fields(text[l])
        if (same(field[1], a) && same(field[2], b)) return "the pair is given twice, first at line " l
        if (same(field[1], b) && same(field[2], a))
            return "the pair is given twice, first at line " l ", the other way round"
    }
    return ""
}

# --- 11: what is wrong in the line, and what it should look like

function wrong_form(    why) {
    why = line > rows ? ends_early() : wrong_line(text[line])
    return why == "" ? "" : why "; " form[kind]
}

function wrong_line(s,    why) {
    why = wrong_file(s)
    if (why == "" && line > whole && is_right(s) && !is_cut()) why = "the line feed at its end is missing"
    if (why == "") why = wrong_place(s)
    if (why == "") why = wrong_bytes(s)
    if (why == "") why = kind in word ? wrong_count_line(s, word[kind]) : wrong_fields(s)
    return why
}

function ends_early() {
    if (kind == "paths N") return "the sheet is empty"
    if (kind == "path") return says("path", paths) "ends after " many(line - 2, "path line")
    if (kind == "guards G") return "the sheet ends after its paths"
    if (kind == "guard") return says("guard", guards) "ends after " many(line - paths - 3, "guard line")
    if (kind == "start") return says("start", paths) "ends after " many(line - paths - guards - 4, "starts line")
    return ""
}

function says(what, n) { return "the sheet says " many(n, what) ", and " }

# A file that was saved in another way.
function wrong_file(s,    l) {
    if (is_wide()) return "the sheet is in UTF-16; save it as plain text (ASCII)"
    if (line == 1 && s ~ /^\\xef\\xbb\\xbf/) return "the sheet begins with a byte order mark; save it without one"
    if (whole == 0 && s ~ /<carriage return>./) return "the sheet has carriage returns where line feeds must stand"
    if (s !~ /<carriage return>$/) return ""
    for (l = 1; l <= whole; l++)
        if (text[l] !~ /<carriage return>$/) return "a carriage return stands at its end (a Windows line end)"
    return "the sheet has Windows line ends (carriage returns); save it with line feeds alone"
}

# Two bytes a character: the byte order mark of that, or every other byte 0.
function is_wide() {
    if (first[1] == 255 && first[2] == 254 || first[1] == 254 && first[2] == 255) return 1
    if (total < 4) return 0
    return first[1] && !first[2] && first[3] && !first[4] || !first[1] && first[2] && !first[3] && first[4]
}

# A line of another section, or one too many. `field` may be changed.
function wrong_place(s,    l) {
    if (kind == "left over") return is_blank(s) ? "a blank line is left over" : "this line is left over"
    if (is_blank(s)) return "the line is blank"
    if (kind == "paths N" && s ~ /^refused [0-9]+ line [0-9]+$/) return "this is no sheet, but the refusal of one"
    if (kind == "paths N" && s ~ /^order [0-9]+$/) return "this is an order sheet, and no sheet of paths"
    if (kind in word && begins(tolower(s), word[kind])) return ""
    if (kind == "paths N" && is_path(s)) return "the line 'paths N' is missing"
    if (kind == "path" && begins(s, "guards")) return says("path", paths) "line " line " already begins the guards"
    if (kind == "guards G" && begins(s, "starts")) return "the guards are missing"
    if (kind == "guards G" && is_guard(s)) return "the line 'guards G' is missing"
    if (kind == "guards G" && is_path(s)) {
        for (l = line; is_path(text[l]); l++);
        return says("path", paths) many(l - 2, "path line") " stand here"
    }
    if (kind == "guard" && begins(s, "starts"))
        return says("guard", guards) "line " line " already begins the starts"
    if (kind == "starts N" && is_path(s)) return "the line 'starts N' is missing"
    if (kind == "starts N" && is_guard(s)) {
        for (l = line; is_guard(text[l]); l++);
        return says("guard", guards) many(l - paths - 3, "guard line") " stand here"
    }
    return ""
}

# Something between the fields that is not one space, or a byte that no sheet has.
function wrong_bytes(s) {
    if (s ~ /<tab>/) return "a tab stands where one space must stand"
    if (s ~ /<carriage return>/) return "a carriage return stands in it"
    if (s ~ /<NUL>/) return "a byte of 0 (NUL) stands in it"
    if (match(s, /\\x[0-9a-f][0-9a-f]/)) return "a byte that no sheet has (" substr(s, RSTART, 4) ") stands in it"
    if (s ~ /^ /) return "it begins with a space"
    if (s ~ / $/) return "a space stands at its end"
    if (s ~ /  /) return "two spaces stand together"
    if (s ~ /,/) return "a comma stands in it; one space parts the fields"
    if (s ~ /;/) return "a semicolon stands in it; one space parts the fields"
    return ""
}

function wrong_count_line(s, w,    n) {
    n = fields(s)
    if (field[1] == w) return n == 2 ? wrong_number(field[2]) : "it has " many(n, "field") ", not 2"
    if (tolower(field[1]) == w) return "the word is '" w "', in small letters"
    return "it does not begin with '" w "'"
}

function wrong_fields(s,    n, due, k, why) {
    due = kind == "guard" ? 3 : 2
    n = fields(s)
    if (n != due) return "it has " many(n, "field") ", not " due
    for (k = 1; k < due && why == ""; k++) why = wrong_label(field[k])
    return why == "" ? wrong_number(field[due]) : why
}

function wrong_label(s) {
    if (is_label(s)) return ""
    if (s ~ /^[-0-9A-Z]+$/) return "the label " short(s) " has more than 8 characters"
    if (s ~ /^[-0-9A-Za-z]+$/) return "the label " short(s) " has small letters, and only capitals are taken"
    match(s, /[^-0-9A-Za-z]/)
    return "the label " short(s) " has '" substr(s, RSTART, 1) "', and only digits, capitals and hyphens are taken"
}

function wrong_number(s) {
    if (is_number(s)) return ""
    if (s ~ /^[0-9]+$/ && s ~ /^0/) return "the number " short(s) " begins with 0"
    if (s ~ /^[0-9]+$/) return "the number " short(s) " has more than 5 digits"
    if (s ~ /^[-+][0-9]+$/) return "the number " short(s) " has a sign"
    if (s ~ /^[0-9]*[.][0-9]*$/) return "the number " short(s) " is not whole"
    return "'" short(s) "' is not a number"
}
