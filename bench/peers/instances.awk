# mawk -f instances.awk FILE: tells when a device comes for the third time.
BEGIN { FS = "," }
FNR > 1 && ++seen[$2] == 3 { print substr($1 "000000000", 1, index($1, ".") + 9) " trigger_1 \"the third time\"" }
