# Makes of a configuration in C, as the C preprocessor leaves it, one for `board`. A task and a handler are named by their
# functions there, and begin in start.S, at task_ID, handler_LINE, cyclic_ID and alarm_ID. A value may be an expression of
# C: what isn't one name, number, or several with | between them goes to the compiler. Variables:
#
#   main       the configuration's name: each of its lines stands where it stands there, so that what `board` says of a
#              line is right; lines of included files are joined to the line before
#   expressions  where to put the expressions, as C that prints their values: `@@NUMBER VALUE` (the first time), or
#   values     where those values are (the second time)
#   entries    where to put what start.S has to know (the second time)
BEGIN {
    if (values != "") {
        while ((getline line < values) > 0)
            if (split(line, words, " ") == 2 && words[1] ~ /^@@[0-9]+$/)
                value[substr(words[1], 3)] = words[2]
    } else {
        print "#include \"itron.h\"\nvoid board_values(void);\nvoid board_values(void)\n{" > expressions
    }
    if (entries != "")
        printf "" > entries
}

/^# [0-9]+ / {
    here = $2 + 0
    inside = $3 == "\"" main "\""
    next
}

{
    while (inside && at < here) {
        put(at > 0 ? "\n" : "")
        at++
    }
    if (!inside)
        read(" ")
    read($0)
    here++
}

END {
    put(word "\n")
    if (values == "")
        print "}" > expressions
}

# Characters of the configuration: names and parentheses of a statement, and between them its values.
function read(text,    i, character) {
    for (i = 1; i <= length(text); i++) {
        character = substr(text, i, 1)
        if (depth == 0)
            outside(character)
        else if (depth > 1 || (character != "," && character != ")" && character != "{" && character != "}"))
            value_grows(character)
        else
            value_ends(character)
    }
}

function outside(character) {
    put(character)
    if (character ~ /[A-Za-z0-9_]/) {
        word = word character
    } else if (character == "(") {
        depth = 1
        statement = word
        count = 0
        word = ""
    } else {
        word = ""
    }
}

function value_grows(character) {
    depth += (character == "(") - (character == ")")
    word = word character
}

function value_ends(character,    before, after) {
    before = word
    sub(/[^ \t].*$/, "", before)
    after = word
    sub(/^.*[^ \t]/, "", after)
    gsub(/^[ \t]+|[ \t]+$/, "", word)
    if (word != "" || character == ",")
        field[count++] = word = evaluated(word)
    else
        after = ""
    put(before renamed() after character)
    word = ""
    if (character == ")") {
        depth = 0
        if (entries != "")
            enter()
        count = 0
    }
}

# What stands for a value in the configuration of `board`.
function renamed() {
    if (word != "" && count == 4 && statement == "CRE_TSK")
        return "task_" field[0]
    if (word != "" && count == 4 && statement == "CRE_CYC")
        return "cyclic_" field[0]
    if (word != "" && count == 4 && statement == "CRE_ALM")
        return "alarm_" field[0]
    if (word != "" && count == 3 && statement == "DEF_INH")
        return "handler_" field[0]
    return word
}

function evaluated(text,    number, joined) {
    joined = text
    gsub(/[ \t]*[|][ \t]*/, "", joined)
    if (joined !~ /[^A-Za-z0-9_]/)
        return text
    number = ++expression_count
    if (values == "") {
        printf "# %d \"%s\"\n    __asm__ volatile(\"@@%d %%0\" : : \"i\"(%s));\n", here, main, number, text > expressions
        return text
    }
    number = value[number]
    if (number ~ /^-/)
        return sprintf("%.0f", number + 4294967296)
    if (number !~ /^[A-Za-z0-9_]+$/) {
        printf "%s:%d: '%s' is no number, nor the name of a place in the program\n", main, here, text > "/dev/stderr"
        exit 1
    }
    return number
}

# For start.S.
function enter() {
    if (statement == "BOARD" && count == 2)
        print "entry_board " field[1] > entries
    else if (statement == "CRE_TSK" && count == 7)
        print "entry_task " field[0] ", " field[3] ", " field[5] ", " field[6] > entries
    else if (statement == "CRE_MPF" && count == 5)
        print "entry_pool " field[2] ", " field[3] ", " field[4] > entries
    else if (statement == "DEF_INH" && count == 3)
        print "entry_handler handler_" field[0] ", " field[0] ", " field[2] > entries
    else if (statement == "CRE_CYC" && count == 6)
        print "entry_handler cyclic_" field[0] ", " 30 + 2 * number_of(field[0]) ", " field[3] > entries
    else if (statement == "CRE_ALM" && count == 4)
        print "entry_handler alarm_" field[0] ", " 31 + 2 * number_of(field[0]) ", " field[3] > entries
}

# What a number is that may be hexadecimal.
function number_of(text,    i, number) {
    if (text !~ /^0[xX]/)
        return text + 0
    number = 0
    for (i = 3; i <= length(text); i++)
        number = 16 * number + index("0123456789abcdef", tolower(substr(text, i, 1))) - 1
    return number
}

function put(text) {
    if (values != "")
        printf "%s", text
}
