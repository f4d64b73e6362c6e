# The help pages, the overview first, as one man page. The first lines of a page are its use; a line that is indented is kept as it is; others are filled.
function plain(text) {
    gsub(/\\/, "\\e", text)
    gsub(/-/, "\\-", text)
    gsub(/`/, "\\(ga", text)
    gsub(/'/, "\\(aq", text)
    return text ~ /^\./ ? "\\&" text : text
}
function kept(yes) { # whether lines are kept as they are from here on
    if (yes != keeping) print yes ? ".nf" : ".fi"
    keeping = yes
}
function heading(kind, text) {
    kept(0)
    print kind " " text
}
BEGIN {
    print ".TH HAZE 1 \"\" \"haze " version "\" \"User commands\""
    print ".SH NAME"
    print "haze \\- removes haze from camera frames, and adds it"
}
FNR == 1 {
    topic = FILENAME
    sub(/.*\//, "", topic)
    sub(/\.txt$/, "", topic)
    heading(".SH", topic == "haze" ? "SYNOPSIS" : toupper(topic))
    use = 1
}
use && $0 == "" {
    use = 0
    if (topic == "haze") heading(".SH", "DESCRIPTION")
    else heading(".PP", "")
    next
}
$0 == "" { heading(".PP", ""); next }
$0 == "Examples" || $0 == "What to do when" { heading(".SS", plain($0)); next }
{
    kept(use || $0 ~ /^ /)
    sub(/^  /, "")
    print plain($0)
}
END { kept(0) }
