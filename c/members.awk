# Writes the structs of a C header, of crates or of a Rust file, each on a line with its members' names and widths in their order, in the same words:
#   adr_trail: filemarks u32, marker u32
# A line of a struct that is not understood is written as it is, so that it agrees with no other. A crate's struct crosses to C if it is marked so; any other is passed over.

# AdrReadReplied and ReadReplied as adr_read_replied.
function c_name(name) {
    if (name ~ /^adr_/)
        return name
    sub(/^Adr/, "", name)
    gsub(/[A-Z]/, "_&", name)
    return "adr" tolower(name)
}

# uint8_t as u8; a struct by its name.
function width(type) {
    if (type ~ /^uint[0-9]+_t$/) {
        gsub(/int|_t/, "", type)
        return type
    }
    return type ~ /^u[0-9]+$/ ? type : c_name(type)
}

# '[u8; 64]' as 'u8[64]'.
function rust_width(type,    part) {
    if (type !~ /^\[/)
        return width(type)
    split(substr(type, 2, length(type) - 2), part, "; ")
    return width(part[1]) "[" part[2] "]"
}

# 'pub marks: [u8; 64],' and 'uint8_t marks[64];' as 'marks u8[64]'.
function member(line,    word, bracket) {
    if (line ~ /^pub [a-z_]+: .*,$/) {
        split(substr(line, 5, length(line) - 5), word, ": ")
        return word[1] " " rust_width(word[2])
    }
    if (line ~ /^(struct )?[a-z0-9_]+ [a-z_]+(\[[0-9]+\])?;$/) {
        sub(/^struct /, "", line)
        sub(/;$/, "", line)
        split(line, word, " ")
        bracket = index(word[2], "[")
        if (bracket == 0)
            return word[2] " " width(word[1])
        return substr(word[2], 1, bracket - 1) " " width(word[1]) substr(word[2], bracket)
    }
    return line
}

# The line without comments; 'commented' while one goes on behind it.
function bare(line,    kept, place) {
    while (place = index(line, commented ? "*/" : "/*")) {
        if (!commented)
            kept = kept substr(line, 1, place - 1)
        line = substr(line, place + 2)
        commented = !commented
    }
    if (!commented)
        kept = kept line
    sub(/\/\/.*/, "", kept)
    gsub(/^[ \t]+|[ \t]+$/, "", kept)
    return kept
}

{
    $0 = bare($0)
}

/^#\[repr\(C\)\]$/ {
    marked = 1
    next
}

/^(pub )?struct [A-Za-z_]+ \{$/ {
    name = marked || FILENAME !~ /\.rt$/ ? $(NF - 1) : ""
    members = ""
    marked = 0
    next
}

name != "" && /^\};?$/ {
    print c_name(name) ":" members
    name = ""
    next
}

name != "" && $0 != "" {
    members = members (members == "" ? " " : ", ") member($0)
}
