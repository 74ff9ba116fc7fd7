# mawk -f two_files.awk TEMPERATURES HUMIDITIES: at each second of the rows the mean of a minute's temperatures, the last
# humidity, and how often a device came.

function advance(file) { # the next row of a file, if it has one
    more[file] = (getline line < file) > 0
    if (more[file]) {
        split(line, fields, ",")
        time[file] = fields[1]
        value[file] = fields[2]
        temperature[file] = fields[3]
    }
}

function second() { # the deadline, if it is one, and what leaves the window behind it; at the start the first pane ends
    if (next_second > start && count > 0 && int(sum / count) >= 224 && last_humidity > 60 && seen["d0"] % 2 == 0)
        printf "%d.000000000 trigger_1 \"warm and damp\"\n", next_second
    next_second++
    pane = next_second % 60
    count -= counts[pane]
    sum -= sums[pane]
    counts[pane] = sums[pane] = 0
}

BEGIN {
    getline < ARGV[1] # the headings
    getline < ARGV[2]
    advance(ARGV[1])
    advance(ARGV[2])
    next_second = start = time[ARGV[1]] + 0
    pane = next_second % 60
    while (more[ARGV[1]] || more[ARGV[2]]) {
        file = !more[ARGV[2]] || more[ARGV[1]] && time[ARGV[1]] + 0 <= time[ARGV[2]] + 0 ? ARGV[1] : ARGV[2]
        now = time[file] + 0
        while (next_second < now) second()
        if (file == ARGV[1]) {
            seen[value[file]]++
            counts[pane]++
            sums[pane] += temperature[file]
            count++
            sum += temperature[file]
        } else last_humidity = value[file] + 0
        advance(file)
    }
    if (next_second <= now) second()
}
