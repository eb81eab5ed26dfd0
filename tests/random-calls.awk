# Writes random lists of calls of four tasks or more: awk -v folder=FOLDER -v lists=1000 -v calls=100 -f tests/draws.awk -f tests/random-calls.awk
# The numbers are those of tests/draws.awk, made one at a time, so that every awk writes the same lists: FOLDER/0001.calls and so on.
# It keeps an account of what each task may hold, and of what may stand where. That is a guess, so that most calls find what they ask for: replies are not known here.

BEGIN {
    verbs = "port_deallocate port_send port_receive auth_makeauth io_read io_write io_seek io_stat io_readable io_get_openmodes io_set_all_openmodes io_duplicate " \
        "io_reauthenticate io_restrict_auth io_identity file_chmod file_chown file_set_size file_check_access file_set_translator file_get_translator " \
        "file_get_translator_cntl file_getcontrol fsys_startup start_failed fsys_getroot fsys_goaway fsys_get_options fsys_set_options dir_lookup dir_readdir " \
        "dir_mkdir dir_mkfile dir_rmdir dir_unlink dir_link dir_rename"
    rare = " auth_makeauth port_deallocate fsys_goaway start_failed "
    for (list = 1; list <= lists; list++) {
        file = sprintf("%s/%04d.calls", folder, list)
        state = list * 1000003
        below(below(9) + 9)
        forget_all()
        write_tasks()
        write_beginning()
        for (left = calls; left > 0; left--) write_call()
        close(file)
    }
}

function forget_all() {
    split("", sort)
    split("", place)
    split("", next_port)
    split("", sent)
    split("", to_start)
    split("", uids)
    split("", is_there)
    split("", owner)
    split("", on_it)
    split("", waits)
    split("", paths)
    made = 0
}

# root, alice, bob, somebody with no ids, and up to three more
function write_tasks() {
    print "task 0 0\ntask 1000 1000,100\ntask 1001 1001,100\ntask - -" >file
    tasks = 4 + below(4)
    uids[0] = 0; uids[1] = 1000; uids[2] = 1001; uids[3] = "-"
    for (who = 4; who < tasks; who++) print "task " (uids[who] = some_ids()) " " some_ids() >file
    for (who = 0; who < tasks; who++) {
        next_port[who] = 3
        hold(1, "d", "")
        hold(2, "d", "")
    }
}

# a directory for all, and in it for each of three tasks a file, a node with a server, a right to control that, and a node where words wait
function write_beginning() {
    who = 0
    say("dir_mkdir 1 =t 777")
    keep("/t", "d")
    for (who = 0; who < tasks; who++) gain("dir_lookup 1 =t - 0", "d", "/t")
    for (who = 0; who < 3; who++) {
        gain("dir_lookup 3 =f" who " READ,WRITE,CREATE 644", "g", keep("/t/f" who, "f"))
        gain("dir_lookup 3 =s" who " NOTRANS,CREATE 644", "s", keep("/t/s" who, "f"))
        say("file_set_translator 5 - SET - box" seat("/t/s" who, server()))
        gain("file_get_translator_cntl 5", "c", "/t/s" who)
        gain("dir_lookup 3 =w" who " NOTRANS,CREATE 644", "s", keep("/t/w" who, "f"))
        say("file_set_translator 7 SET - -" seat("/t/w" who, server()))
        waits["/t/w" who] = 1
    }
}

# The call of the task `who`, on its line. What ports are is kept by letters: `d` on a directory, `e` the same to be read, `f` on a file to be read, `g` also to be
# written, `r` on a root to be read, `s` on a node that is open for nothing, `w` on any with weaker ids, and `c` to control a server.
function say(words) { print who " " words >file }

# A call that is to give a port: what it is on, and where.
function gain(words, kind, path) {
    say(words)
    hold(next_port[who]++, kind, path)
}

function hold(port, kind, path) {
    sort[who, port] = kind
    place[who, port] = path
}

# A node may be there from now on, of the task's own.
function keep(path, kind) {
    if (!(path in is_there)) paths[++made] = path
    is_there[path] = kind
    owner[path] = who
    return path
}

# One that was taken away.
function forget(path, i) {
    delete is_there[path]
    for (i = 1; i <= made; i++) if (paths[i] == path) {
        paths[i] = paths[made--]
        return
    }
}

# What is active on a node from now on.
function seat(path, words) {
    on_it[path] = words
    return words
}

# a port of the task's own of one of these kinds, sooner on a node of its own; or any number
function port(kinds, mine, try, p) {
    if (often(3)) return below(next_port[who] + 2)
    for (try = 1; try <= 12; try++) {
        p = 1 + below(next_port[who] - 1)
        if (sort[who, p] != "" && index(kinds, sort[who, p]) && (!mine || is_own(place[who, p]) || often(3))) return p
    }
    return p
}

function is_own(path) { return who == 0 || ((path in owner) && owner[path] == who) }

# whether the task may make something in a directory, as far as is known here
function may_make(dir) { return uids[who] != "-" && (dir == "/t" || is_own(dir)) }

# what stands in a directory, sooner of this kind and of the task's own; its name
function entry(dir, kind, mine, try, path) {
    for (try = 1; try <= 12; try++) {
        path = paths[1 + below(made)]
        if (parent(path) == dir && (try > 9 || ((kind == "" || is_there[path] == kind) && (!mine || is_own(path))))) return name_of(path)
    }
    return fresh()
}

function parent(path) { sub(/\/[^\/]*$/, "", path); return path }

function name_of(path) { sub(/.*\//, "", path); return path }

# a name that may be new; some are long, or no names
function fresh() {
    if (often(2)) return one(". .. x/y \\xe9\\s\\\\ - d/")
    if (often(2)) return long_name(100 + 155 * below(2))
    return one("a b c d e f g h") below(30)
}

function long_name(length_of, name) {
    for (name = "n"; length(name) < length_of; ) name = name name
    return substr(name, 1, length_of)
}

function some_ids(many, ids) {
    if (often(20)) return "-"
    ids = one("1000 1001 1002 100 0 7")
    for (many = often(20) ? below(31) : below(3); many > 0; many--) ids = ids "," 2000 + below(4000)
    return ids
}

# ids that the task holds, as far as is known here
function own_ids() { return who == 0 ? some_ids() : who == 1 ? one("1000 -") : who == 2 ? one("1001 -") : "-" }

function text(many, words) {
    words = one("one two \\x00\\xff a\\nb\\n")
    for (many = often(5) ? below(40) : below(3); many > 0; many--) words = words "\\sand\\smore"
    return words
}

function offset() { return often(70) ? -1 : one("0 1 2 7 100 1000 -2") }

# words that make a server of some kind
function server(kind) {
    kind = one("tmpfs tmpfs tmpfs hello hello null zero symlink firmlink magic drip fifo union")
    if (kind == "hello" && often(60)) return " =/hurd/hello =--contents=" text()
    if (kind == "tmpfs" && often(50)) return " =/hurd/tmpfs =--size=" one("0 1 3 5 9 20 100")
    if (kind == "symlink") return " =/hurd/symlink =" one("t /t f0 t/f1 . /none")
    if (kind == "firmlink") return " =/hurd/firmlink =" aim()
    if (kind == "magic") return " =/hurd/magic =fd"
    if (kind == "drip") return " =/hurd/drip =" one("0 1 3 1000")
    if (kind == "union") return " =/hurd/union =/t" (often(50) ? " =/" : "")
    return " =/hurd/" kind
}

function aim() { return often(80) ? one("/t /t/f0 /t/f1 / /t/f2") : one("/none /t/s0 /t/s1/x") }

function mode() { return one("644 755 777 700 1777 600 37777777777") }

# What somebody does. Where nothing else is said, the call takes a port alone.
function write_call(verb) {
    who = often(2) ? 60 : below(tasks)
    if (who == 60) next_port[who] = 9
    verb = one(verbs)
    if (index(rare, " " verb " ") && often(60)) verb = one("dir_lookup dir_lookup dir_mkdir io_read io_write file_set_translator")
    if (!(ports_call(verb) || io_call(verb) || file_call(verb) || translator_call(verb) || server_call(verb) || lookup_call(verb) || entry_call(verb)))
        say(verb " " port(verb == "dir_readdir" ? "e" : verb == "io_readable" ? "fgr" : "defgsrw"))
}

# Calls on ports as such, and on ids.
function ports_call(verb, p, q, n) {
    if (verb == "port_deallocate") { p = port("defgscrw"); if (p > 3) sort[who, p] = ""; say(verb " " p) }
    else if (verb == "port_send") {
        p = port("defgscrw")
        q = often(5) ? 60 : below(tasks)
        sent[q] = sent[q] " " sort[who, p] ":" place[who, p]
        say(verb " " p " " q)
    } else if (verb == "port_receive") {
        n = split(sent[who], rights, " ")
        if (n == 0 && often(80)) return ports_call("port_send")
        split(rights[1], right, ":")
        if (n > 0) { sent[who] = substr(sent[who], length(rights[1]) + 2); gain(verb, right[1], right[2]) }
        else say(verb)
    } else if (verb == "auth_makeauth") say(verb " " (often(80) ? own_ids() : some_ids()) " -")
    else if (verb ~ /^io_(duplicate|reauthenticate)$/) { p = port("defgsr"); gain(verb " " p, sort[who, p], place[who, p]) }
    else if (verb == "io_restrict_auth") { p = port("defgsrw"); gain(verb " " p " " own_ids() " " own_ids(), "w", place[who, p]) }
    else if (verb == "io_identity") say(verb " " port("defgsrw") " " port("defgsrw"))
    else return 0
    return 1
}

# Calls on what a port has open.
function io_call(verb) {
    if (verb == "io_read") say(verb " " port("fgr") " " one("0 1 5 100 1000 65536 18446744073709551615") " " offset())
    else if (verb == "io_write") say(verb " " port("g") " =" (often(95) ? text() : "") " " offset())
    else if (verb == "io_seek") say(verb " " port("defgrs") " " (often(90) ? one("0 1 5 1000") : one("-1 9223372036854775807")) " " one("Set Current End"))
    else if (verb == "io_set_all_openmodes") say(verb " " port("defgrs") " " one("- APPEND READ,APPEND"))
    else return 0
    return 1
}

# Calls on the attributes of a node.
function file_call(verb, p) {
    if (verb == "file_chmod") { p = port("defgs", 1); say(verb " " p " " (sort[who, p] ~ /[de]/ ? one("755 777 1777") : mode())) }
    else if (verb == "file_chown") say(verb " " port("fgs", 1) " " (who == 0 ? one("0 1000 1001") " " one("0 100") : (often(90) ? uids[who] + 0 : 1000) " 100"))
    else if (verb == "file_set_size") say(verb " " port("g") " " (often(95) ? one("0 1 3 700 1000") : one("100000 16777217")))
    else return 0
    return 1
}

# Calls on the translators of a node.
function translator_call(verb, p, words) {
    p = port("s", verb != "file_get_translator")
    while (verb == "file_get_translator" && !waits[place[who, p]] && !often(10)) p = port("s")
    if (verb == "file_set_translator") {
        words = server()
        if (often(30)) {
            say(verb " " p " - SET" one(" ,ORPHAN ,ORPHAN ,EXCL") " " one("FORCE FORCE NOSYNC,NOWAIT -") (often(80) ? " box" seat(place[who, p], words) : seat(place[who, p], "")))
            waits[place[who, p]] = 0
        }
        else if (often(70)) {
            say(verb " " p " SET SET,ORPHAN -" seat(place[who, p], words))
            waits[place[who, p]] = 1
        }
        else say(verb " " p " - - -")
    } else if (verb == "file_get_translator_cntl" || verb == "file_getcontrol") {
        if (verb == "file_getcontrol" && who == 0) p = port("defgsr")
        if (verb ~ /cntl/ ? on_it[place[who, p]] != "" : who == 0) gain(verb " " p, "c", place[who, p])
        else if (often(30)) say(verb " " p)
        else return lookup_call("dir_lookup")
    } else return 0
    return 1
}

# Calls on a server, and on the start of one.
function server_call(verb, p) {
    p = port("c")
    if (verb == "fsys_startup") {
        if (to_start[who] == "") look_up(1, "", "t/w" below(3))
        if (to_start[who] == "" && often(90)) return 1
        say(verb " box" (to_start[who] == "" || often(10) ? server() : to_start[who]))
        for (p in waits) if (on_it[p] == to_start[who]) waits[p] = 0
        to_start[who] = ""
    } else if (verb == "start_failed") {
        if (to_start[who] == "") look_up(1, "", "t/w" below(3))
        if (to_start[who] == "" && often(80)) return 1
        say(verb)
        to_start[who] = ""
    } else if (verb == "fsys_getroot") gain(verb " " p " " port("de") " " one("- READ READ READ NOTRANS,CREATE,EXCL"), on_it[place[who, p]] ~ /tmpfs|union/ ? "e" : "r", "")
    else if (verb == "fsys_goaway") say(verb " " p " " one("- FORCE NOSYNC,NOWAIT"))
    else if (verb == "fsys_get_options") say(verb " " p)
    else if (verb == "fsys_set_options") say(verb " " p (on_it[place[who, p]] ~ /hello/ || often(10) ? " =--contents=" text() : on_it[place[who, p]] ~ /tmpfs/ || often(10) ? " =--size=" one("0 2 4 8 30") : ""))
    else return 0
    return 1
}

# A lookup of what is there, of what is to be made, or along several names.
function lookup_call(verb, p, name, path) {
    if (verb !~ /^dir_(lookup|mkfile)$/) return 0
    p = port("de")
    if (verb == "dir_mkfile" && may_make(place[who, p])) gain(verb " " p " " one("READ,WRITE READ,WRITE,APPEND") " " mode(), "g", "")
    else if (verb == "dir_mkfile" && often(10)) say(verb " " p " - 644")
    else if (often(10)) gain("dir_lookup 1 =" one("t t /t/ t/./ .//t/../t") " " one("READ READ,DIRECTORY") " 0", "e", "/t")
    else if (often(10)) gain("dir_lookup 2 =" one("/ . .. t/.. ./t/.. ../..") " READ 0", "e", "")
    else if (often(25) && may_make(place[who, p])) { name = fresh(); gain("dir_lookup " p " =" name " READ,WRITE,CREATE" one(" ,EXCL ,APPEND") " 644", "g", keep(place[who, p] "/" name, "f")) }
    else look_up(p, place[who, p], entry(place[who, p], ""))
    return 1
}

# A lookup of a name in the directory of a path: its node itself, or what is crossed there.
function look_up(p, dir, name, path, kind) {
    path = dir "/" name
    kind = on_it[path]
    if (!(path in is_there)) say("dir_lookup " p " =" name " - 0")
    else if (is_there[path] == "d") gain("dir_lookup " p " =" name " READ 0", "e", path)
    else if (kind == "" || often(40)) {
        if (often(60)) gain("dir_lookup " p " =" name " NOTRANS 0", "s", path)
        else if (is_own(path)) gain("dir_lookup " p " =" name " NOTRANS,READ,WRITE 0", "g", path)
        else gain("dir_lookup " p " =" name " NOTRANS,READ 0", "f", path)
    } else {
        say("dir_lookup " p " =" name " READ 0")
        if (waits[path]) to_start[who] = kind
        else if (kind !~ /magic|symlink =\//) hold(next_port[who]++, kind ~ /tmpfs|union/ ? "e" : "r", kind ~ /symlink/ ? dir : kind ~ /tmpfs/ ? path : "/t")
    }
}

# Calls on entries of a directory.
function entry_call(verb, p, q, name, new) {
    for (p = port("de"); !may_make(place[who, p]) && !often(10); p = port("de")) if (uids[who] == "-") who = below(3)
    if (verb == "dir_mkdir") { name = fresh(); keep(place[who, p] "/" name, "d"); say(verb " " p " =" name " " one("755 777 1777 700")) }
    else if (verb == "dir_rmdir" || verb == "dir_unlink") {
        name = entry(place[who, p], verb == "dir_rmdir" ? "d" : "f", 1)
        if (name != "t") forget(place[who, p] "/" name)
        say(verb " " p " =" name)
    } else if (verb == "dir_link") { name = fresh(); say(verb " " p " =" name " " port("fgs")); keep(place[who, p] "/" name, "f") }
    else if (verb == "dir_rename") {
        q = often(60) ? p : port("de")
        name = entry(place[who, p], "f", 1)
        new = often(70) ? fresh() : entry(place[who, q], "")
        say(verb " " p " =" name " " q " =" new)
        if (name != "t") { forget(place[who, p] "/" name); keep(place[who, q] "/" new, "f") }
    } else return 0
    return 1
}
