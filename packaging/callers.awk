# Writes a main that calls each function that the library exports, so that `rt try` makes the code of all: for tools/unproved.sh. It
# reads the sources of hc_c; `at` is their folder. No call is ever made: the first argument of each ends the program.
function path(file) {
    sub(at "/", "", file)
    sub(/\.rt$/, "", file)
    gsub("/", "::", file)
    return "crate::" file
}
/^pub struct / {
    match($3, /^[A-Za-z]+/)
    home[substr($3, 1, RLENGTH)] = path(FILENAME)
}
/^pub extern "C" fn / { signature = "" ; inside = 1 }
inside { signature = signature " " $0 }
inside && /\)/ {
    inside = 0
    name = signature
    sub(/.* fn /, "", name)
    sub(/\(.*/, "", name)
    sub(/^[^(]*\(/, "", signature)
    sub(/\).*/, "", signature)
    count = split(signature, parts, ",")
    body = given = ""
    for (i = 1; i <= count; i++) {
        if (parts[i] !~ /:/) continue
        type = parts[i]
        sub(/^[^:]*: */, "", type)
        reference = type ~ /^&mut / ? "&mut " : type ~ /^&/ ? "&" : ""
        sub(/^&(mut )?/, "", type)
        if (type ~ /^\[/) type = substr(type, 1, length(type) - 1) "; 4]"
        word = type
        gsub(/[^A-Za-z]/, " ", word)
        split(word, words, " ")
        used[words[1]] = 1
        body = body (reference == "&mut " ? "let mut a" : "let a") i ": " type " = never(); "
        given = given (given ? ", " : "") reference "a" i
    }
    calls[++made] = "fn call" made "() { " body "let _r = " path(FILENAME) "::" name "(" given "); }"
}
END {
    for (word in used) if (word in home) print "use " home[word] "::" word ";"
    print "use std::alloc::Global;"
    print "fn never<T>() -> T { unreachable!() }"
    for (i = 1; i <= made; i++) print calls[i]
    print "fn main() {"
    for (i = 1; i <= made; i++) print "    call" i "();"
    print "}"
}
