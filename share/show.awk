# The answer for people. First come the tables, then, as name=value, what the proved program says and what stands in the file at the
# place that it names (share/show.sh). Run in the C locale, where a character is a byte.
BEGIN {
    FS = "\t"
    WIDTH = 64       # bytes of the line that are shown at most
    BEFORE = 32      # of them before the place
    STATED_MOST = 10 # untrue statements that are shown
    WORD = 40        # bytes of a field that are told
    CUT = "[..]"
    BAR = 124
    CR = 13
    LF = 10
    file = ENVIRON["SHOW_NAME"]
    gsub(/[\001-\037\177]/, "?", file) # a name can hold anything, a terminal should not obey it
    language = ENVIRON["SHOW_LANGUAGE"] == "pt" ? 3 : 2
    letters = ENVIRON["SHOW_LETTERS"]
}

table == "words" { words[$1] = $language; next }
table == "refusals" { meaning[$1] = $language; next }
table == "rows" { fields[$1] = $2; level[$1] = $3; most[$1] = $4; parent[$1] = $5; next }
table == "fields" { name[$1, $2] = $3; type[$1, $2] = $4; size[$1, $2] = $5; decimals[$1, $2] = $6; role[$1, $2] = $7; next }
$1 == "stated" { statements++; stated_line[statements] = $2; stated_code[statements] = $3; stated_number[statements] = $4; next }
{
    key = substr($0, 1, index($0, "=") - 1)
    value[key] = substr($0, index($0, "=") + 1)
    number[key] = value[key] + 0
    if (key ~ /^open /) open_row[++opened] = substr(key, 6)
}

END {
    if (file == "-") file = said("input")
    if (value["result"] == "accepted") print said("accepted", file, value["lines"], value["bytes"])
    else refused(value["refusal"], line_code(value["code"]))
    if (ENVIRON["SHOW_BLOCKS"] != "") blocks()
}

# The words of a key, with what stands for {1} to {4}. A value may hold any byte, so nothing is replaced by a pattern.
function said(key, a, b, c, d,    text) {
    text = words[key]
    text = put(put(put(put(text, "{4}", d), "{3}", c), "{2}", b), "{1}", a)
    return text
}

function put(text, mark, by,    at) {
    at = index(text, mark)
    return at ? substr(text, 1, at - 1) by substr(text, at + length(mark)) : text
}

# A byte as it is shown: files are ISO 8859-1, whose letters are printed where the terminal has them, as UTF-8.
function shown(n) {
    if (n >= 32 && n <= 126) return sprintf("%c", n)
    if (letters == "" || n <= 160 || n == 173) return "."
    return sprintf("%c%c", n < 192 ? 194 : 195, n < 192 ? n : n - 64)
}

# Bytes that are listed as numbers.
function field_text(numbers,    n, byte, i, text) {
    n = split(numbers, byte, " ")
    text = ""
    for (i = 1; i <= n; i++) text = text shown(byte[i] + 0)
    return text
}

# The line's code: four bytes, and a bar right after them.
function line_code(numbers,    n, byte) {
    n = split(numbers, byte, " ")
    return n == 5 && byte[5] == BAR ? substr(field_text(numbers), 1, 4) : ""
}

# A field's bytes, as many as are told, or a word for none.
function told(text) {
    if (text == "") return said("empty")
    return length(text) > WORD ? substr(text, 1, WORD) CUT : text
}

# What is told below the line stands apart from it.
function note(key, a, b, c, d) {
    if (!notes++) print ""
    print said(key, a, b, c, d)
}

function refused(rule, code,    place) {
    print said("refused", file, rule, meaning[rule])
    place = number["byte"] > 0 ? "byte" : number["field"] > 0 ? "field" : "line"
    print said(place, value["line"], value["field"], value["byte"])
    if (value["hidden"] != "") note(value["hidden"], value["kept"])
    else line()
    if (number["field"] > 0) field(code, value["field"])
    beside(rule, code)
}

# The line, whole or cut around the place, and the caret under it. Places are counted from the first byte at hand; a long line starts
# before it.
function line(    n, listed, i, end, from, to, text) {
    n = split(value["text"], listed, " ")
    for (i = 1; i <= n; i++) byte[i - 1] = listed[i] + 0
    end = line_end(n)
    if (end == number["starts"]) { note("ends"); return }
    from = number["starts"]
    to = end
    if (end - from > WIDTH) {
        if (number["at"] - BEFORE > from) from = number["at"] - BEFORE
        if (from + WIDTH < end) to = from + WIDTH
        else from = end - WIDTH
    }
    text = from > number["starts"] ? CUT : ""
    for (i = from; i < to; i++) text = text shown(byte[i])
    print ""
    print "    " text (to < end ? CUT : "")
    caret(4 + (from > number["starts"] ? length(CUT) : 0) + number["at"] - from, to)
}

function is_end(at) { return byte[at] == LF || byte[at] == CR && byte[at + 1] == LF }

# Where the shown bytes end: after an LF that is refused, before the CR LF or LF past the judged bytes, or with the bytes at hand.
function line_end(all,    at) {
    if (number["stops"] < all && byte[number["stops"]] == LF) return number["stops"] + 1
    for (at = number["stops"] + 1; at < all; at++) if (is_end(at)) return at
    return all
}

# The caret under the byte that is named, or under a field's first byte; the rest of a field is underlined, up to the bar.
function caret(blanks, to,    at, mark) {
    mark = sprintf("%" blanks "s^", "")
    if (number["field"] > 0 && number["byte"] == 0 && in_field(number["at"]))
        for (at = number["at"] + 1; at < to && in_field(at); at++) mark = mark "~"
    print mark
}

function in_field(at) { return byte[at] != BAR && byte[at] != CR && byte[at] != LF }

function field(code, place) {
    if (!(code in fields)) return
    if (!((code, place) in name)) { note("has", code, fields[code]); return }
    if (name[code, place] == "-") note("unnamed", place, code, kind(code, place))
    else note("is", place, code, name[code, place], kind(code, place))
}

function kind(code, place,    places) {
    if (role[code, place] != "-") return said("kind " role[code, place])
    places = size[code, place]
    if (type[code, place] == "C" && places == 0) return said("kind empty")
    if (type[code, place] == "C" && places == 1) return said("kind byte")
    if (type[code, place] == "C") return said("kind text", places == "-" ? 255 : places)
    if (decimals[code, place] != "-") return said("kind decimals", decimals[code, place])
    if (places == "-") return said("kind number")
    return places == 1 ? said("kind digit") : said("kind digits", places)
}

# What else a refusal asks for. The code is known where the line is shown and has one of the layout.
function beside(rule, code) {
    if (rule == 4 && code in fields) stands(code)
    if (rule == 4 || rule == 5) open_lines()
    if (!(code in fields)) return
    if (rule == 6) note("most", code, parent[code], most[code])
    if (rule == 7) note("has", code, fields[code])
    if (rule == 11) note("size", sprintf("%.0f", number["stops"] - number["at"]))
    if (rule == 13) note("count", told(field_text(value["word"])), due(code))
    if (rule == 23) statements_untrue()
}

function stands(code,    letter) {
    letter = substr(code, 1, 1)
    if (level[code] > 1) note("parent", code, parent[code])
    else if (code == "0000") note("first")
    else if (code == "9999") note("last")
    else note(code ~ /001$/ ? "opening" : "closing", code, letter, letter "001")
}

# The program names the last line first.
function open_lines(    i, text, row) {
    row = open_row[1]
    if (opened == 0) { note("none"); return }
    if (row ~ /990$/) { note("closed", value["open " row], row); return }
    for (i = opened; i > 0; i--) {
        row = open_row[i]
        text = text (text == "" ? "" : ", ") said("open line", value["open " row], row)
    }
    note("open", text)
}

# What a closing, or 9999, counts: the lines ended and itself; block 9 has 9999 still to come.
function due(code) {
    if (code == "9999") return number["lines"] + 1
    return number["block " substr(code, 1, 1)] + (code == "9990" ? 2 : 1)
}

# How often a code occurs in the file: 9999, which has not ended, too.
function occurs(code) { return number["row " code] + (code == "9999" ? 1 : 0) }

# Values are compared as texts, since a number may have any number of digits.
function untrue(digits, count) {
    if (digits == "") return 1
    sub(/^0+/, "", digits)
    return digits "" != (count == 0 ? "" : count "")
}

function statements_untrue(    i, found, code) {
    for (i = 1; i <= statements; i++) {
        if (!untrue(stated_number[i], occurs(stated_code[i])) || found++ >= STATED_MOST) continue
        code = stated_code[i]
        gsub(/[^ -~]/, ".", code)
        note("stated", stated_line[i], told(code), told(stated_number[i]), occurs(stated_code[i]))
    }
    if (found > STATED_MOST) note("more", found - STATED_MOST)
}

function blocks(    i, n, letter) {
    n = split("0 C E F G H 8 9", letter, " ")
    for (i = 1; i <= n; i++) print said("block", letter[i], value["block " letter[i]])
}
