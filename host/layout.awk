# The layout of the structs that cross to C, from their declarations, by the rules of repr(C): a line for each struct (name, size,
# alignment) and for each field (offset, size, name, type). Padding, and a type that is not laid out so, are errors.
function fail(why) { print "host/layout.awk: " why > "/dev/stderr"; failed = 1; exit 1 }

# the number that a count is, which may be a constant
function count_of(text) {
    if (text ~ /^[0-9]+$/) return text + 0
    if (!(text in constant)) fail("no constant " text)
    return constant[text]
}

# an array is split at its last semicolon
function element(type, at) { at = match(type, /; [A-Za-z0-9_]+\]$/); return substr(type, 2, at - 2) }
function entries(type, at) { at = match(type, /; [A-Za-z0-9_]+\]$/); return count_of(substr(type, at + 2, RLENGTH - 3)) }

function size(type) {
    if (type in width) return width[type]
    if (type ~ /^\[/) return size(element(type)) * entries(type)
    fail("no layout of " type)
}

function alignment(type) {
    if (type in align) return align[type]
    return alignment(element(type))
}

BEGIN {
    for (n = 1; n <= 8; n *= 2) width["u" 8 * n] = align["u" 8 * n] = n
}

/^pub const [A-Z]+: usize = [0-9]+;/ { constant[substr($3, 1, length($3) - 1)] = $6 + 0 }
/^pub struct [A-Za-z]+\(pub [a-z0-9]+\);/ && c {
    split($0, part, /[ ()]+/)
    width[part[3]] = size(part[5])
    align[part[3]] = alignment(part[5])
}
/^pub struct [A-Za-z]+ \{/ && c { name = $3; at = 0; most = 1; fields = "" }
/^    pub [a-z_]+: .*,$/ && name {
    field = substr($2, 1, length($2) - 1)
    type = substr($0, index($0, ": ") + 2)
    sub(/,$/, "", type)
    if (at % alignment(type)) fail("padding before " name "." field)
    fields = fields "  " at " " size(type) " " field " " type "\n"
    at += size(type)
    if (alignment(type) > most) most = alignment(type)
}
name && !/^    pub [a-z_]+: .*,$|^pub struct|^}|^    \/\// { fail("no field of " name ": " $0) }
/^}/ && name {
    if (at % most) fail("padding at the end of " name)
    width[name] = at
    align[name] = most
    printf "%s %d %d\n%s", name, at, most, fields
    name = ""
}
{ c = /^#\[repr\(C\)\]/ || c && /^#\[/ } # other attributes may stand between
END { if (failed) exit 1 }
