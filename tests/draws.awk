# Numbers drawn one after another from `state`, the same by every awk: for the programs that make random scripts and lists.

# a number below n
function below(n) {
    state = state * 16807 % 2147483647
    return int(n * (state / 2147483647))
}

# whether something is so that is so n times of a hundred
function often(n) { return below(100) < n }

# one of some words
function one(list, words, n) {
    n = split(list, words, " ")
    return words[below(n) + 1]
}
