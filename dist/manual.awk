# Makes the manual page (section 3) of a header: the comment and the declaration of each call, in the header's order.
#   awk -f manual.awk include/fotsgure_gcm.h > fotsgure_gcm.3
# A comment begins a line; what follows it up to an empty line is what it is on.

function escaped(line) {
    gsub(/\\/, "\\e", line)
    gsub(/-/, "\\-", line)
    return line ~ /^[.']/ ? "\\&" line : line
}
# Prints a comment: an item of a list, an example that is indented further, the end of a paragraph, or a line of it.
function print_comment(lines, count,    i, line) {
    for (i = 1; i <= count; i++) {
        line = lines[i]
        if (line ~ /^ - /) {
            is_item = 1
            print ".IP \\(bu 2\n" escaped(substr(line, 4))
        } else if (line ~ /^  / && !is_item) {
            print ".br\n" escaped(line)
        } else if (line == "") {
            is_item = 0
            print ".PP"
        } else {
            sub(/^ */, "", line)
            print escaped(line)
        }
    }
    is_item = 0
}
# Prints a declaration without what only compilers read, and of an inline function no body.
function print_code(lines, count,    i, line) {
    print ".PP\n.nf\n.RS"
    for (i = 1; i <= count && lines[i] != "{"; i++) {
        line = lines[i]
        gsub(/FOTSGURE_[A-Z]+_(CHECK|ALONE) |static inline | FOTSGURE_[A-Z]+_NOEXCEPT/, "", line)
        print escaped(line)
    }
    print ".RE\n.fi"
}
# Prints the block that has ended, unless it is for compilers alone.
function end_block() {
    if (comments > 0 && code[1] !~ /not_null/) {
        if (codes > 0 && code[1] !~ /^#i/)
            print_code(code, codes)
        print ".PP"
        print_comment(comment, comments)
    }
    comments = codes = 0
}

FNR == 1 {
    name = FILENAME
    gsub(/.*\/|\.h$/, "", name)
    # What it is and the names of all calls come first, so the file is read twice.
    what = substr($0, 4)
    sub(/ ?[(,].*/, "", what)
    while ((getline line < FILENAME) > 0) {
        if (line ~ /_VERSION_TEXT "/) {
            split(line, parts, "\"")
            version = parts[2]
        }
        if (line ~ /^[A-Za-z].*[ *]fotsgure_[a-z_]*\(/ && line !~ /not_null/) {
            match(line, /fotsgure_[a-z]*_[a-z_]*\(/)
            calls = calls (calls ? ", " : "") substr(line, RSTART, RLENGTH - 1)
        }
    }
    print ".TH " toupper(name) " 3 \"\" \"Fotsgure " version "\" \"Library Functions Manual\"\n.nh\n.ad l"
    print ".SH NAME\n" calls " \\- " what ", proved"
    print ".SH SYNOPSIS\n.nf\n.B #include <" name ".h>\n.PP\ncc program.c \\-l" name " \\-Wl,\\-z,now\n.fi\n.SH DESCRIPTION"
}
/^\/\*/ { is_comment = 1; end_block() }
is_comment {
    is_last = /\*\/$/
    sub(/^(\/\*| \*)/, "")
    sub(/ ?\*\/$/, "")
    sub(/^ /, "")
    comment[++comments] = $0
    is_comment = !is_last
    next
}
/^$/ { end_block(); next }
comments > 0 { code[++codes] = $0 }
