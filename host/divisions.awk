# Puts a count before each division of a module of LLVM text, integer or not, whose divisor is no constant: the global haze_divisions goes up by one,
# or by the number of lanes. Quotient and rest of the same two numbers in one block count once.
/^[^ ]*:/ || /^define / { delete seen }
/ = (udiv|sdiv|urem|srem|fdiv) .*, %[^,]*$/ {
    pair = $0
    sub(/^.* = (udiv|sdiv|urem|srem|fdiv) /, "", pair)
    sub(/^(exact|fast|nnan|ninf|nsz|arcp|contract|afn|reassoc) /, "", pair)
    if (!(pair in seen)) {
        seen[pair] = 1
        lanes = 1
        if (match(pair, /^<[0-9]+ x/)) lanes = substr(pair, 2, RLENGTH - 3) + 0
        n++
        print "  %divisions.old." n " = load i64, ptr @haze_divisions"
        print "  %divisions.new." n " = add i64 %divisions.old." n ", " lanes
        print "  store i64 %divisions.new." n ", ptr @haze_divisions"
    }
}
{ print }
END { print "@haze_divisions = external global i64" }
