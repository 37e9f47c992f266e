# Takes the examples out of the comments of mill.h: lines indented by five blanks or more. An example belongs to the call whose
# declaration follows its comment. Functions that it defines come out as they are; the rest is the body of `example_CALL`.
# `EXAMPLES` names all of them.

function fail(what) {
    print "examples.awk: " FILENAME ":" FNR ": " what >"/dev/stderr"
    failed = 1
    exit 1
}

# A function goes from behind a blank line, over a line `{`, to a line `}`.
function mark_functions(   i, first, last) {
    for (i = 1; i <= count; i++)
        if (code[i] == "{") {
            first = last = i
            while (first > 1 && code[first - 1] != "") first--
            while (last <= count && code[last] != "}") last++
            if (last > count) fail("a function without its end")
            for (; first <= last; first++) in_function[first] = 1
            i = last
        }
}

# The lines of functions, or all others; where a piece begins, its place in the header is told.
function lines(of_functions,   i, told, last) {
    for (i = 1; i <= count; i++)
        if (code[i] != "" && (i in in_function) == of_functions) {
            if (last != at[i] - 1) told = told "#line " at[i] " \"include/mill.h\"\n"
            told = told code[i] "\n"
            last = at[i]
        }
    return told
}

function add(text) {
    code[++count] = text
    at[count] = FNR
}

/^\/\*/ { if (count) fail("no call follows the example before") }

/^\*\*     / { add(substr($0, 8)) }
/^\*\*$/ { if (count) add("") }

/^[a-z0-9_]+ mill_[a-z0-9_]+\(/ && count {
    name = $2
    sub(/\(.*/, "", name)
    mark_functions()
    functions = functions lines(1)
    bodies = bodies "static int example_" name "(void)\n{\n" lines(0)
    bodies = bodies "#ifdef AFTER_" name "\n    AFTER_" name "\n#endif\n    return 0;\n}\n"
    names = names " EXAMPLE(" name ")"
    split("", code)
    split("", in_function)
    count = 0
}

END {
    if (failed) exit 1
    if (count) fail("no call follows the last example")
    printf "%s%s#define EXAMPLES%s\n", functions, bodies, names
}
