# The key that law.lp gives, of what clingo prints: with all settings counted, then the one chosen. The sections of A and B lines are
# taken from the key under test, which is read first: which path is shown is free, and law.lp finds the faults of one.
function row(letter, a, b, c, d) { printf "%s%5s%5s%5s%5s\n", letter, a, b, c, d }
function arguments(atom) { sub(/^[^(]*\(/, "", atom); sub(/\)$/, "", atom); return atom }
function list(letter, l, n, k) { for (k = 1; k <= n; k++) row(letter, train[l], section[letter, k]) }
FNR == NR { if (/^[AB]/) section[substr($0, 1, 1), ++shown[substr($0, 1, 1)]] = substr($0, 7, 5) + 0; next }
/^Answer:/ { getline answer }
/^Models / && models == "" { models = $3 + 0 }
END {
    split(answer, atoms, " ")
    for (k in atoms) {
        split(arguments(atoms[k]), of, ",")
        if (atoms[k] ~ /^danger/) danger = 1
        else if (atoms[k] ~ /^entries/) entries = of[1]
        else if (atoms[k] ~ /^looks/) looks = of[1]
        else if (atoms[k] ~ /^meeting/) meeting = of[1]
        else if (atoms[k] ~ /^names/) train[of[1]] = of[2]
        else if (atoms[k] ~ /^proceed/) proceed = of[1]
        else if (atoms[k] ~ /^setting/) { state[of[1]] = of[2]; elements++ }
        else print atoms[k]
    }
    if (proceed != "" || models == 0) {
        row("Q", models > 0, models, proceed + 0)
        for (k = 1; k <= elements; k++) row("E", k, state[k])
    } else {
        if (models != 1) print models " answers"
        row("V", danger + 0, entries, looks, meeting)
        list("A", 1, shown["A"])
        list("B", 2, shown["B"])
    }
}
