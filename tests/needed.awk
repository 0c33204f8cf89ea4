# Of crates.txt: the crate `top` and those that it needs, a line each, lowest first, as rt takes them; the kit's own libraries are left out.
# awk -v top=NAME -f tests/needed.awk crates.txt
function visit(name,    list, count, i) {
    if (!(name in needs) || name in seen) return
    seen[name]
    count = split(needs[name], list, " ")
    for (i = 1; i <= count; i++) visit(list[i])
    print name
}
{ sub(/#.*/, "") }
at = index($0, ":") { split($0, words, /[ \t:]+/); needs[words[1]] = substr($0, at + 1) }
END { visit(top) }
