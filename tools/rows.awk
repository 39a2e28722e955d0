# Writes the calls of tables of rows into a folder, for tools/test: awk -v data=FOLDER -v cases=FOLDER -f tools/rows.awk TABLE ..
#
# crates/rows_rtlsim/data/values.txt tells at its head how a row is written. Of each row that a program can make it writes, under
# a number of its own, NUMBER (the standard input), NUMBER.args (a word a line), NUMBER.stdout, and NUMBER.stderr or, where texts
# must stand somewhere in that, NUMBER.part1 and so on; and a line to the standard output: the number, that of the input and of the
# output, the status, the table, and the call as it is written. A row of `run` is also one of `run --levels`, which prints the same
# and tells the bound in place of the delta cycles.
BEGIN {
    for (at = 1; at < ARGC; at++) {
        table = ARGV[at]
        rows = 0
        while ((getline line < (data "/" table)) > 0) {
            if (substr(line, 1, 1) == "$" && begun) end_row()
            if (substr(line, 1, 1) == "$") {
                begun = 1
                call = substr(line, 2)
                gsub(/^[ \t]+|[ \t]+$/, "", call)
                lines = 0
            } else if (begun)
                row[++lines] = line
        }
        close(data "/" table)
        if (begun) end_row()
    }
}

function end_row(   at, ways, kind) {
    begun = 0
    ways = "files"
    for (at = 1; at <= lines; at++)
        if (substr(row[at], 1, 3) == "by ") ways = substr(row[at], 4)
    ways = " " ways " "
    if (ways !~ / (files|line|crlf) /) return
    number = sprintf("%04d", ++count)
    input = cases "/" number
    length_of_input = mark = status = parts = 0
    error = progress = ""
    printf "" > input
    printf "" > (input ".stdout")
    words = call
    if (ways !~ / files / && call != "") {
        put_input(call (ways ~ / line / ? "\n" : "\r\n"))
        words = ""
    }
    for (at = 1; at <= lines; at++) {
        kind = row[at]
        sub(/ .*/, "", kind)
        take(kind, substr(row[at], length(kind) + 2))
    }
    close(input)
    close(input ".stdout")
    put_call(number, words, "")
    if (words ~ /^run( |$)/ && words !~ / -/) {
        sub(/^run/, "run --levels", words)
        put_call(number "l", words, index(error, " deltas ") ? substr(error, 1, index(error, " deltas ") - 1) " bound " : "")
    }
}

function put_input(text) {
    length_of_input += length(text)
    printf "%s", text >> input
}

function take(kind, text,   at, spaces, size) {
    if (kind == "<" || kind == "<-") {
        at = index(text, "^")
        if (at) {
            mark = length_of_input + at - 1
            text = substr(text, 1, at - 1) substr(text, at + 1)
        }
        put_input(text (kind == "<" ? "\n" : ""))
    } else if (kind == "<<") {
        close(input)
        system("cat '" data "/" text "' >>'" input "'")
        size = "wc -c <'" data "/" text "'"
        size | getline at
        close(size)
        length_of_input += at
    } else if (kind == "<*") {
        spaces = sprintf("%1024s", "")
        for (at = text + 0; at >= 1024; at -= 1024) put_input(spaces)
        put_input(substr(spaces, 1, at))
    } else if (kind == ">" || kind == ">-")
        printf "%s", text (kind == ">" ? "\n" : "") >> (input ".stdout")
    else if (kind == "*")
        repeat(text)
    else if (kind == "!") {
        at = index(text, "^")
        if (at) text = substr(text, 1, at - 1) mark substr(text, at + 1)
        error = error text "\n"
    } else if (kind == "!|")
        error = error text "\n"
    else if (kind == "!\\r")
        progress = progress "\r" text
    else if (kind == "!\\n")
        progress = progress "\n"
    else if (kind == "!~")
        part[++parts] = text
    else if (kind == "=")
        status = text + 0
    else if (kind != "" && kind != "#" && kind != "by") {
        print "test: " table ": no kind of line: " kind " " text > "/dev/stderr"
        exit 1
    }
}

# COUNT FIRST STEP KIND TEXT: lines of one kind with numbers in place of `%`.
function repeat(text,   field, kind, turn, number, at, line, rest, next_line) {
    for (at = 1; at <= 4; at++) {
        field[at] = text
        sub(/ .*/, "", field[at])
        text = substr(text, length(field[at]) + 2)
    }
    kind = field[4]
    for (turn = 0; turn < field[1] + 0; turn++) {
        rest = text
        gsub(/%/, sprintf("%d", field[2] + turn * field[3]), rest)
        while ((next_line = index(rest, " / ")) > 0) {
            take(kind, substr(rest, 1, next_line - 1))
            rest = substr(rest, next_line + 3)
        }
        take(kind, rest)
    }
}

# Writes what a call is made of; `told`, where it isn't empty, must stand in what it tells.
function put_call(name, words, told,   file, at, list, many) {
    file = cases "/" name
    many = split(words, list, " ")
    printf "" > (file ".args")
    for (at = 1; at <= many; at++) print list[at] > (file ".args")
    close(file ".args")
    if (told != "") {
        printf "%s", told > (file ".part1")
        close(file ".part1")
    } else if (parts) {
        for (at = 1; at <= parts; at++) {
            printf "%s", part[at] > (file ".part" at)
            close(file ".part" at)
        }
    } else {
        printf "%s", progress error > (file ".stderr")
        close(file ".stderr")
    }
    print name, number, status, table ": " (words == "" ? call : words)
}
