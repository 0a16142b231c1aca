# Makes rows.txt from the text of the five data sheets, the documents 000 to 004 in this order:
#
#     awk -f rows.awk 000.txt 001.txt 002.txt 003.txt 004.txt > rows.txt
#
# A row of a summary table is a line whose second cell is an address and whose third is a type; cells are separated by tabs. Its
# last cell is the default. The cells between are the fields from bit 7 down to bit 0, but the text has lost or added empty cells,
# so that no column can be trusted: fields are counted from bit 0 up by their widths. crates/rows/src/lib.rt says what is written.
BEGIN {
    FS = "\t"
    split("0 1 4 2 3", members, " ")
    split("ChipEN 1 MaxLineNum 4 DataRefMode 2 PWMFre 1 SWBLK 1 PWMScaleMode 1 PWMPhaseShift 1 CSONShift 1 LODremoval 1 LSDremoval 1 " \
        "LODremove 1 LSDremove 1 CompGroup1 2 CompGroup2 2 CompGroup3 2 DownDeghost 2 UpDeghost 2 MaximumCurrent 3 UpDeghostenable 1 " \
        "CCGroup1 7 CCGroup2 7 CCGroup3 7 PWMGlobal 8 PWMGroup1 8 PWMGroup2 8 PWMGroup3 8 GlobalLOD 1 GlobalLSD 1 LODClear 4 " \
        "LSDClear 4 Reset 8 复位 8", words, " ")
    for (i = 1; i in words; i += 2)
        width[words[i]] = words[i + 1]
    # the LP5867's sinks, by where document 004 has them in its group, switch and current registers
    split("R0 0 G0 1 B0 8 R1 9 G1 16 B1 17", words, " ")
    for (i = 1; i in words; i += 2)
        sink_of[words[i]] = words[i + 1]
}

# What a cell names, without blanks, underscores and marks of bold type.
function bare(cell) {
    gsub(/<b>|<\/b>|[ _]/, "", cell)
    return cell
}

function is_reserved(cell) {
    return cell == "Reserved" || cell == "保留"
}

# The dot in a text, as LINE.SINK; "-" where there is none. The LP5861T has one line, which document 001 does not write.
function dot_in(text,    line, sink) {
    if (!match(text, /CS[RGB]?[0-9]+/))
        return "-"
    sink = substr(text, RSTART + 2, RLENGTH - 2)
    line = 0
    if (match(text, /L[0-9]+-CS/))
        line = substr(text, RSTART + 1, RLENGTH - 4)
    return line "." (sink in sink_of ? sink_of[sink] : sink)
}

# What the register's name says that it holds.
function holds_of(name) {
    if (name ~ /^Dotgrpsel/) return "group"
    if (name ~ /^Dotonoff/) return "switch"
    if (name ~ /^Dotlod/) return "open"
    if (name ~ /^Dot[lLI]sd/) return "short"
    if (name ~ /^DC[0-9]/) return "current"
    if (name ~ /^pwmbri/) return "pwm"
    return "plain"
}

# The reserved bits of a register without dots: the fields' widths say where they lie. A reserved field takes what the named ones
# leave; of two apart, the lower one has one bit (002h and 004h of the LP5861T, by document 001's page of each register).
function plain_mask(    i, named, upper, lower, low) {
    for (i = 1; i <= cells; i++) {
        if (!is_reserved(cell[i])) {
            if (!(cell[i] in width)) {
                print FILENAME ":" FNR ": unknown field " cell[i] > "/dev/stderr"
                failed = 1
            }
            named += width[cell[i]]
        } else if (named == 0)
            upper = 1
        else
            lower = 1
    }
    low = lower ? (upper ? 1 : 8 - named) : 0
    return (upper ? 256 - 2 ^ (named + low) : 0) + 2 ^ low - 1
}

# The dots of bit 0 up to bit 7, each field of so many bits; what is left above them is reserved.
function bit_dots(bits,    i, bit, words) {
    for (i = cells; 1 <= i && !is_reserved(cell[i]); i--) {
        words = words " " dot_in(cell[i]) (bits == 2 ? " " dot_in(cell[i]) : "")
        bit += bits
    }
    mask = 256 - 2 ^ bit
    for (; bit < 8; bit++)
        words = words " -"
    return words
}

# The dots whose 8 bits, low byte of 16 and high byte of 16 the register has.
function level_dots(    parts, count, i, level) {
    level[1] = level[2] = level[3] = "-"
    count = split(cell[1], parts, /OR|或/)
    for (i = 1; i <= count; i++)
        level[parts[i] !~ /16-bit|16位/ ? 1 : parts[i] ~ /lower|低/ ? 2 : 3] = dot_in(parts[i])
    return " " level[1] " " level[2] " " level[3]
}

# The cells of a row that are not empty; the last one is taken for its default.
function read_cells(    i, text) {
    cells = 0
    for (i = 4; i <= NF; i++) {
        text = bare($i)
        if (text != "")
            cell[++cells] = text
    }
    if (cell[cells] ~ /^[0-9A-F][0-9A-F]h$/)
        return substr(cell[cells--], 1, 2)
    return "--"
}

FNR == 1 {
    member = members[++documents]
}

{
    address = bare($2)
    type = bare($3)
}

# Document 004 has its table twice; the first one is taken.
address ~ /^[0-9A-F][0-9A-F][0-9A-F]h$/ && type ~ /^(R\/W|R|W)$/ && !seen[member, address]++ {
    default_value = read_cells()
    holds = holds_of(bare($1))
    mask = 0
    dots = ""
    if (cells == 1 && is_reserved(cell[1])) {
        holds = "plain"
        mask = 255
    } else if (holds == "plain")
        mask = plain_mask()
    else if (holds == "current")
        dots = " " dot_in(cell[1])
    else if (holds == "pwm")
        dots = level_dots()
    else
        dots = bit_dots(holds == "group" ? 2 : 1)
    sub(/\//, "", type)
    printf "%d %s %s %s %02X %s%s\n", member, substr(address, 1, 3), type, default_value, mask, holds, dots
}

END {
    exit failed
}
