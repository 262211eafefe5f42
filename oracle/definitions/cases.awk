# Writes the oracle's cases as equations, twenty to a file of the folder `dir`, each proved by computing both sides.
# `cited` is the crate of the definitions, methods or solve.
function start() {
    file = dir "/C" files++ ".antt"
    print "pub mod C" (files - 1) >> (dir "/Lib.antt")
    print "use Rattle.std.specs.Prelude.{◌≡◌, refl, [], ◌∷◌}" > file
    print "use Rattle.std.specs.Float.Ieee.{add, sub, mul, div, lt, eq, neg, is_nan}" > file
    if (cited == "methods") {
        print "use Rattle.methods.specs.declared.method.Method.TheVariants.{Gmw81, Se}" > file
        print "use Rattle.methods.specs.declared.schnabel_eskow.Variant.TheVariants.{Se90, Se99}" > file
    }
    print "use Rattle.cases.specs.Bits.{answer}" > file
}

# fields from .. to, written as a list
function list(from, to, sign,   i, out) {
    for (i = from; i <= to; i++) out = out sign $i " ∷ "
    return out
}

function factored(   n, a, p) {
    n = $2
    a = 9 + $8
    p = a + n * n
    return method[$1] " (" list(9, a - 1, "") "[]) " n " (" list(a, p - 1, "0x") "[]) ≡ " $5 " ∷ " $6 " ∷ " $3 " ∷ " $4 " ∷ " $7 " ∷ " list(p, p + n - 1, "") list(p + n, NF, "0x") "[]"
}

function solved(   p, b, y, answer) {
    p = 9 + $5
    b = p + $6
    y = b + $7
    answer = y + $8
    return $1 " (" list(9, p - 1, "0x") "[]) (" list(p, b - 1, "") "[]) (" list(b, y - 1, "0x") "[]) (" list(y, answer - 1, "0x") "[]) ≡ " list(2, 4, "") list(answer, NF, "0x") "[]"
}

BEGIN {
    method[1] = "Gmw81"
    method[2] = "(Se Se90)"
    method[3] = "(Se Se99)"
    print "pub mod Bits" > (dir "/Lib.antt")
}

{
    if ((NR - 1) % 20 == 0) start()
    name = "c" ((NR - 1) % 20)
    print "" > file
    print name " : answer " (cited == "solve" ? solved() : factored()) > file
    print "unfolding answer add sub mul div lt eq neg is_nan" > file
    print name " = refl" > file
}

END { print NR " cases" > "/dev/stderr" }
