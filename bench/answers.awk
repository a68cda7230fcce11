# What SQLite prints for the answers of a script: kind and value of a read that finds something, the lines of a list, and,
# unless it is told them, slots and commit times.
/^[QR]/ { if ($3 == "erased") print "1 "; else if ($3 != "none") print "0 " $3 }
/^[0-9]/ { if ($2 == 1) print $1, "1 "; else print }
!told && /^[WEC]/ && !/^C 0 0$/ { print $3 }
