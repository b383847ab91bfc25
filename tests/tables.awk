# Takes names and prefixes out of the columns of crates/symbols/src/unit_table.rt and prefix_table.rt. Cells stay strings: a key of eight
# letters is above what a floating number holds. Prints a line "name KEY CODE" for each name and "prefix CODE POWER" for each prefix, in the
# table's order, codes in hexadecimal.
/^static [A-Z_]+: \[/ { column = $2; sub(/:$/, "", column); next }
/^\];/ { column = ""; next }
column != "" { cell = $1; sub(/,$/, "", cell); gsub(/_/, "", cell); cells[column, count[column]++] = cell }
END {
    for (i = 0; i < count["NAME_KEYS"]; i++)
        print "name", cells["NAME_KEYS", i], cells["NAME_CODES", i]
    for (i = 0; i < count["PREFIX_CODES"]; i++)
        print "prefix", cells["PREFIX_CODES", i], cells["PREFIX_POWERS", i]
}
