# Puts a count before each comparison of two samples in the LLVM text of the library, before it is optimised: in the crates of the window minimum, each call of
# std's `min` of two samples, of 16 or of 32 bits. The global haze_compared goes up by one. Ends with status 1 where one of these crates
# compares anything but places in memory, of 64 bits, by itself.
/^define / { inside = $0 ~ /@"(windows|columns)::/ }
inside && / = icmp / && !/ = icmp [a-z]+ i64 / { print "comparisons.awk: compared without a count: " $0 >"/dev/stderr"; bad = 1 }
inside && /call .*@"core::int::u(16|32)::min"/ {
    n++
    print "  %compared.old." n " = load i64, ptr @haze_compared"
    print "  %compared.new." n " = add i64 %compared.old." n ", 1"
    print "  store i64 %compared.new." n ", ptr @haze_compared"
}
{ print }
END {
    print "@haze_compared = external global i64"
    if (!n) { print "comparisons.awk: no comparison was found" >"/dev/stderr"; bad = 1 }
    exit bad
}
