# The help pages of host/help, given as files, as the entries of the table in host/tool/pages.c.
function end_page() { if (topic != "") print "}," }
FNR == 1 {
    end_page()
    topic = FILENAME
    sub(/.*\//, "", topic)
    sub(/\.txt$/, "", topic)
    printf "{\"%s\",", topic
}
{
    gsub(/\\/, "&&")
    gsub(/"/, "\\\"")
    printf "\n \"%s\\n\"", $0
}
END { end_page() }
