# Writes random scripts of what root, alice, bob and carol do: awk -v folder=FOLDER -v scripts=200 -f tests/draws.awk -f tests/random-scripts.awk
# The numbers are those of tests/draws.awk, made one at a time, so that every awk writes the same scripts: FOLDER/001.hurd and so on.

BEGIN {
    for (script = 1; script <= scripts; script++) {
        file = sprintf("%s/%03d.hurd", folder, script)
        state = script * 1000003
        made = 0
        write_users()
        write_beginning()
        for (left = 18 + below(12); left > 0; left--) write_command()
        close(file)
    }
}

function line(words) { print words >file }

function write_users() {
    line("user alice 1000 1000,100")
    line("user bob 1001 1001,100")
    line("user carol 1002 1002")
}

# homes, a directory for all, and carol's box
function write_beginning() {
    line("root mkdir /tmp")
    line("root chmod " one("1777 1777 777") " /tmp")
    line("root mkdir /home")
    line("root mkdir /home/alice")
    line("root chown 1000 1000 /home/alice")
    line("alice chmod " one("700 755 777 1777") " /home/alice")
    line("root mkdir /home/bob")
    line("root chown 1001 1001 /home/bob")
    line("bob chmod " one("700 700 700 700 711 733 755 777 600") " /home/bob")
    line("root mkdir /box")
    line("root chmod " one("700 700 733 733 777 1777 711") " /box")
    line("root chown 1002 " one("0 100 1002") " /box")
}

# what somebody does: alice looks about more than others
function write_command() {
    who = one("alice alice alice alice alice alice alice bob bob bob bob bob bob carol carol carol carol root root")
    if (who == "alice")
        act(one("cat cat cat cat cat ls ls ls ls ls stat stat stat stat put put mkdir rmdir rm mv ln chmod settrans showtrans fsysopts"))
    else
        act(one("put put put put put put cat ls stat mkdir mkdir mkdir rmdir rm rm mv mv ln chmod chmod chmod chown settrans settrans settrans " \
        "showtrans fsysopts"))
}

function act(action, path, other) {
    if (action == "put") { path = often(50) ? fresh("a b c") : old(); keep(path); line(who " put " path " " text()) }
    else if (action == "ls") { path = often(60) ? directory() : old(); line(who " ls " path) }
    else if (action == "stat") { path = old(); line(who " ls -d " path) }
    else if (action == "mkdir") { path = fresh("d e f"); keep(path); line(who " mkdir " path) }
    else if (action == "mv") { path = old(); other = often(70) ? fresh("a b c d") : old(); forget(path); keep(other); line(who " mv " path " " other) }
    else if (action == "ln") { path = old(); other = fresh("a b c"); keep(other); line(who " ln " path " " other) }
    else if (action == "chmod") { path = often(30) ? directory() : old(); line(who " chmod " one("700 711 733 755 777 600 644 1777") " " path) }
    else if (action == "chown") { path = often(20) ? directory() : old(); other = ids(); line(who " chown " other " " path) }
    else if (action == "settrans") translate()
    else if (action == "fsysopts" && often(60)) { path = old(); line(who " fsysopts " path (often(60) ? " --contents=" text() : " --size=" size())) }
    else {
        path = old()
        if (action ~ /^rm/) forget(path)
        line(who " " action " " path)
    }
}

# a server, active or waiting, or none any more
function translate(flags, path, words) {
    flags = one("-c -c -c -c -ac -ac -ac -a -k -x -g -ag -o -f")
    path = index(flags, "c") && often(60) ? fresh("a b c") : old()
    keep(path)
    words = flags ~ /[gof]/ ? "" : server()
    line(who " settrans " flags " " path words)
}

function server(kind) {
    kind = one("hello hello hello null zero tmpfs tmpfs tmpfs symlink symlink symlink firmlink firmlink union drip fifo magic")
    if (kind == "hello" && often(60)) return " /hurd/hello --contents=" text()
    if (kind == "tmpfs" && often(60)) return " /hurd/tmpfs --size=" size()
    if (kind == "symlink") return " /hurd/symlink " old()
    if (kind == "firmlink") return " /hurd/firmlink " (often(50) ? old() : directory())
    if (kind == "drip") return " /hurd/drip " one("0 1 3 20")
    if (kind == "magic") return " /hurd/magic fd"
    if (kind == "union") return " /hurd/union " directory() " " directory()
    return " /hurd/" kind
}

# a limit for a tree: some texts fit
function size() { return one("0 1 3 4 6 9 12 20 50") }

# where somebody is at home: carol lives in the box
function home() { return who == "carol" ? "/box" : "/home/" who }

# one of the directories in which all is: bob and carol are at home more often
function place() {
    if ((who == "bob" || who == "carol") && often(65)) return home()
    return one("/tmp /home/alice /home/bob /box")
}

# such a directory, or one that some command may have made
function directory(path) {
    path = place()
    if (often(40)) path = old()
    return path ~ /[def]$/ ? path : place()
}

# a path that may be new, with one of these names
function fresh(names, path) {
    path = directory()
    return path "/" one(names)
}

# a path that some command may have made, or one at a port of the task's own below it, as a magical link has them
function old(path) {
    path = made_before()
    return often(4) ? path "/" one("1 2 3") : path
}

# a path that some command may have made: for bob and carol sooner one at home
function made_before(path, try) {
    if (made == 0 || often(6)) {
        path = place()
        return path "/" one("a b c d e f")
    }
    for (try = 1; try <= 4; try++) {
        path = paths[below(made) + 1]
        if (who == "alice" || who == "root" || index(path, home() "/") == 1) break
    }
    return path
}

# A path may be there from now on, where somebody may write in its directory as far as is known here.
function keep(path) {
    if (path ~ /^\/(tmp|box)\// || who == "root" || index(path, home() "/") == 1) paths[++made] = path
}

# One that was taken away is taken out, once.
function forget(path, i) {
    for (i = 1; i <= made; i++) if (paths[i] == path) {
        paths[i] = paths[made--]
        return
    }
}

function ids(owner, group) {
    if (who != "root") return one("1001 1002") " 100"
    owner = one("1000 1001 1002")
    group = one("100 1000 1001")
    return owner " " group
}

function text() { return one("one two three dear\\sbob a\\nb\\n line\\n") }
