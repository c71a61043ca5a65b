# What the measurements share, for bench/run and bench/program to read: the machine in words, and the page that results
# are put into.

page=../docs/PERFORMANCE.md

field_of() { sed -n "s/^$1[[:space:]]*:[[:space:]]*//p" "$2" | head -1; }

# row NAME VALUE: a row of the machine's table.
row() { echo "| $1 | $2 |"; }

# The rows that every measurement has; its own follow.
machine_rows() {
    echo "| | |"
    echo "|---|---|"
    row date "$(date -u +'%-d %B %Y')"
    row processor "$(field_of 'model name' /proc/cpuinfo), $(nproc) cores"
    row memory "$(awk '/^MemTotal/ { printf "%.0f GiB", $2 / 1048576 }' /proc/meminfo)"
    row 'load before' "$(cut -d' ' -f1 /proc/loadavg) (one minute)"
    row system "$(uname -sr)"
    row library "$(rt version 2>/dev/null || echo 'kit unknown')"
}

# write_page NAME FILE: puts the lines of a file between the page's two markers of that name.
write_page() {
    local new
    new=$(mktemp)
    awk -v name="$1" -v results="$2" '
        $0 == "<!-- " name " end -->" { inside = 0 }
        !inside { print }
        $0 == "<!-- " name " begin -->" { inside = 1; while ((getline line < results) > 0) print line }
    ' "$page" >"$new"
    cat "$new" >"$page"
    rm -f "$new"
}
