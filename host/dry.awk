# The LLVM text of the library with the wiping of the work area left out, and its names of C under another: what the calls cost beside it. For measuring alone.
/^define .*@"planes::wipe"/ { print; print "  ret void"; left_out = 1; next }
left_out && /^}/ { left_out = 0; found = 1 }
left_out { next }
{ gsub(/@haze_/, "@dry_haze_"); print }
END { if (!found) { print "dry.awk: no planes::wipe was found" >"/dev/stderr"; exit 1 } }
