# Leaves commands by others out of scripts, by what `hurd learn` printed of them:
# awk -v user=USER -v outputs=FOLDER -v reduced=FOLDER -v control=1 -f tests/leave-out.awk NAME.hurd..
# Reads outputs/NAME.out. A stretch is a longest run of commands in which none by others teaches the user anything.
# For each, writes the script up to its end, without the commands by others in it, as reduced/NAME-1.hurd and so on.
# What `hurd learn` must then print is NAME-1.wanted.
# With control set, it also writes NAME-control.hurd: from the middle one of the commands that teach something, it lacks all commands by others.
# Its .wanted is what would be printed if none of them had taught anything.
# Prints how many stretches there are, how many commands are left out in them, and how many of the user's commands come after those.
# If an output is not as it should be, it prints which one, with status 1.

BEGIN {
    lesson = "  " user " learns: "
    for (argument = 1; argument < ARGC; argument++) {
        name = ARGV[argument]
        sub(/.*\//, "", name)
        sub(/\.hurd$/, "", name)
        read_script(ARGV[argument])
        if (!read_output(outputs "/" name ".out")) {
            print name ": the output lacks a command's line, or doesn't end with the count"
            exit 1
        }
        leave_stretches_out()
        if (control) leave_more_out()
    }
    print stretches + 0, left_out + 0, compared + 0
}

# the users' lines, and of each command its line, its line in the output, and whether it is the user's own
function read_script(file, text) {
    users = ""
    commands = 0
    while ((getline text <file) > 0) {
        if (text ~ /^ *$/ || text ~ /^#/) continue
        if (text ~ /^ *user /) { users = users text "\n"; continue }
        script_line[++commands] = text
        sub(/^ */, "", text)
        sub(/ *$/, "", text)
        own[commands] = index(text, user " ") == 1
        header[commands] = header_of(text)
    }
    close(file)
}

function header_of(text, end) {
    end = index(text, " ")
    return substr(text, 1, end - 1) "$ " rest_of(substr(text, end))
}

function rest_of(text) {
    sub(/^ */, "", text)
    return text
}

# of each command its paragraph, and whether it taught something; returns whether all are there
function read_output(file, text, at, last) {
    at = taught = others = 0
    last = ""
    while ((getline text <file) > 0) {
        if (at < commands && text == header[at + 1]) {
            part[++at] = ""
            teaches[at] = 0
        } else if (at == 0) {
            last = text
            break
        }
        if (!own[at] && index(text, lesson) == 1) teaches[at] = 1
        last = text
        part[at] = part[at] text "\n"
    }
    close(file)
    if (at != commands) return 0
    if (at > 0) part[at] = substr(part[at], 1, length(part[at]) - length(last) - 1)
    return last == last_line(commands)
}

# the last line of a script of so many commands
function last_line(count, i, taught, others) {
    taught = others = 0
    for (i = 1; i <= count; i++) if (!own[i]) { others++; taught += teaches[i] }
    return user " learned from " taught " of " others " command" (others == 1 ? "" : "s") " by others"
}

function leave_stretches_out(first, last, number) {
    number = 0
    for (first = 1; first <= commands; first = last + 2) {
        last = first - 1
        while (last < commands && !teaches[last + 1]) last++
        if (count_left(first, last)) write_reduced(name "-" (++number), first, last)
    }
}

# counts what a stretch leaves out, if a command of the user's comes after it
function count_left(first, last, i, left, later) {
    left = later = 0
    for (i = first; i <= last; i++) {
        if (!own[i]) left++
        else if (left) later++
    }
    if (!later) return 0
    stretches++
    left_out += left
    compared += later
    return 1
}

# from the middle one of the commands that teach something, all by others
function leave_more_out(i, teaching, at) {
    teaching = 0
    for (i = 1; i <= commands; i++) if (teaches[i]) at[++teaching] = i
    if (teaching) write_reduced(name "-control", at[int((teaching + 1) / 2)], commands)
}

# the commands before the first of these, and the user's own among these
function write_reduced(new, first, last, i, script, wanted) {
    script = reduced "/" new ".hurd"
    wanted = reduced "/" new ".wanted"
    printf "%s", users >script
    for (i = 1; i <= last; i++) if (i < first || own[i]) {
        print script_line[i] >script
        printf "%s", part[i] >wanted
    }
    print last_line(first - 1) >wanted
    close(script)
    close(wanted)
}
