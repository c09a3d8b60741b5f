# The inputs of bench/run.sh and bench/instructions.sh, which source this. Each is an awk program that writes two files of the folder
# `room`: `input`, and `wanted`, what the program is to write for it. They need `seed`, a number from 1 to 2147483646.

# What the inputs share. The numbers are those of Park and Miller: the next one is 16807 times the one before, modulo
# 2^31 - 1. The root keys below `moved` go from partition 0 to partition 1; where that is 0 nothing moves.
shared='
function random(below) { state = (state * 16807) % 2147483647; return state % below }
function step(line, answer) {
    print line > input
    print answer > wanted
}
function header(moved, sizes,   end) {
    end = "4294967296"
    print "old {\"version\":1,\"partitions\":2,\"ranges\":[[0," end ",0]]}" > input
    if (moved > 0)
        print "new {\"version\":1,\"partitions\":2,\"ranges\":[[0," moved ",1],[" moved "," end ",0]]}" > input
    else
        print "new {\"version\":1,\"partitions\":2,\"ranges\":[[0," end ",0]]}" > input
    print "config " sizes > input
}
function rows(roots,   root) {
    for (root = 0; root < roots; root++) {
        number[root] = random(most_number)
        print "row " root " 0 0 " number[root] " -" > input
    }
}
function start() {
    step("prepare 0", "ok")
    step("prepare 1", "ok")
    step("start", "ok")
}
# Adds an operation to `asked`, and its answer to `answers`.
function operate(root,   kind, more) {
    kind = random(3)
    if (kind == 0) {
        asked = asked " get 0 0"
        answers = answers " " number[root] "/-"
    } else if (kind == 1) {
        more = random(1000)
        number[root] += more
        asked = asked " add 0 0 " more
        answers = answers " " number[root]
    } else {
        number[root] = random(1000000)
        asked = asked " put 0 0 " number[root] " -"
        answers = answers " ok"
    }
}
# Writes the line of a transaction and gives its answer. It has one operation, and one in fifty has from 2 to 9.
function transaction(part, id, root,   count) {
    logged[root]++
    asked = ""
    answers = ""
    count = random(50) == 0 ? 2 + random(8) : 1
    while (count-- > 0) operate(root)
    print "txn " part " " id " " root asked > input
    return "commit " id answers
}
function take(chunk) {
    step("cut 0 1", "cut " chunk)
    step("push 0 1", "ok")
    step("pop 0 1", "ok")
    step("load 0 1", "load " chunk)
}
function finish() {
    step("report 1", "ok")
    step("finish", "ok")
    print "end ended" > wanted
}
function dump(part, from, to,   root) {
    for (root = from; root < to; root++)
        print "at " part " " root " " (logged[root] + 0) " 0.0=" number[root] "/-" > wanted
}'

# generate PROGRAM NAME=VALUE..: runs an awk program over these, which writes the files `input` and `wanted`.
generate() {
    local program=$1 setting settings=()
    shift
    for setting in "$@"; do settings+=(-v "$setting"); done
    awk -v state="$seed" -v input="$room/input" -v wanted="$room/wanted" -v most_number=1000000 ${settings[@]+"${settings[@]}"} "$shared $program"
}

# Transactions over root keys, as many as are named.
transactions='
BEGIN {
    header(roots, "65536 1048576 8")
    rows(roots)
    for (id = 0; id < count; id++) print transaction(0, id, random(roots)) > wanted
    print "end idle" > wanted
    dump(0, 0, roots)
}'

# A move of `roots` root keys, each with a note of 100 bytes, in segments of 8,192 keys and in chunks of 65,536 bytes. A family
# has 156 bytes, so a chunk holds 420 of them.
chunks='
function hexadecimal(words,   text) {
    text = ""
    while (words-- > 0) text = text sprintf("%08x", random(2147483647))
    return text
}
BEGIN {
    width = 256
    most = 420
    header(roots, width " 65536 8")
    for (root = 0; root < roots; root++) {
        row[root] = random(1000000)
        note = hexadecimal(25)
        print "row " root " 0 0 " row[root] " " note > input
        row[root] = row[root] "/" note
    }
    start()
    chunk = 0
    segment = 0
    for (low = 0; low < roots; low = high) {
        high = low + 32 * width
        if (high > roots) high = roots
        pull = 2 * segment
        step("claim " segment " 1 " pull, "ok")
        step("begin " segment " 1 " pull, "ok")
        for (at = low; at < high; at = to) {
            to = high - at > most ? at + most : high
            take(chunk++ " " segment " 1 " at " " to " " (to == high ? "last" : "more") " " (to - at))
        }
        step("complete " segment " 1 " pull, "ok")
        segment++
    }
    finish()
    for (root = 0; root < roots; root++) print "at 1 " root " 0 0.0=" row[root] > wanted
}'

# A move one by one: each of 224 segments of 224 keys is split into its 32 leaves, these are moved one after another, and
# a chunk has room for one family.
one_by_one='
BEGIN {
    segments = 224
    width = 7
    roots = segments * 32 * width
    header(roots, width " 64 8")
    rows(roots)
    start()
    chunk = 0
    low = 0
    for (segment = 0; segment < segments; segment++) {
        for (node = 1; node < 32; node++) step("split " segment " " node, "ok")
        for (node = 32; node < 64; node++) {
            pull = 2 * chunk
            step("claim " segment " " node " " pull, "ok")
            step("begin " segment " " node " " pull, "ok")
            for (high = low + width; low < high; low++)
                take(chunk++ " " segment " " node " " low " " (low + 1) " " (low + 1 == high ? "last" : "more") " 1")
            step("complete " segment " " node " " pull, "ok")
            step("status " segment " " node, "is complete " pull " complete")
        }
    }
    finish()
    dump(1, 0, roots)
}'

# As many transactions as can wait, 1,024 on the 1,024 root keys of a segment, then the move of the segment, and then
# they are resumed. So it is with each of `segments` segments.
resumes='
BEGIN {
    width = 32
    waiting = 1024
    keys = 32 * width
    roots = segments * keys
    header(roots, width " 1048576 8")
    rows(roots)
    start()
    id = 0
    for (segment = 0; segment < segments; segment++) {
        low = segment * keys
        pull = 2 * segment + 1
        for (i = 0; i < waiting; i++) {
            key = random(keys)
            print "waits " id " " segment " " int(key / width) > wanted
            answer[i] = transaction(1, id++, low + key)
        }
        step("claim " segment " 1 " pull, "ok")
        step("begin " segment " 1 " pull, "ok")
        take(segment " " segment " 1 " low " " (low + keys) " last " keys)
        step("complete " segment " 1 " pull, "ok")
        for (i = 0; i < waiting; i++) step("resume 1", answer[i])
        step("resume 1", "refused 223")
    }
    finish()
    dump(1, 0, roots)
}'

# As many families as an input has lines for, each made by one transaction and changed by nine more. Their logs are
# folded, or an empty line stands there.
folds='
BEGIN {
    roots = 99999
    header(0, "65536 1048576 8")
    start()
    step("finish", "ok")
    for (id = 0; id < roots; id++) {
        number[id] = random(most_number)
        step("txn 0 " id " " id " put 0 0 " number[id] " -", "commit " id " ok")
    }
    for (; id < 10 * roots; id++) {
        root = id % roots
        number[root] += id % 7
        step("txn 0 " id " " root " add 0 0 " id % 7, "commit " id " " number[root])
    }
    if (fold) step("fold 0", "ok")
    else step("", "refused 230")
    print "end ended" > wanted
    for (root = 0; root < roots; root++)
        print "at 0 " root " " (fold ? 0 : 10) " 0.0=" number[root] "/-" > wanted
}'

# A root key with its root row and as many rows of another table as are named, which come in no order; where `writes` is
# set a write of its root row, before which the rows that its log starts from are copied; and then transactions of so many
# operations each on any of its rows as are named.
rows_of_one='
function shuffled(at) { return (at * 7919 + 13) % many }
BEGIN {
    header(0, "65536 1048576 8")
    print "row 0 0 0 0 -" > input
    for (at = 0; at < many; at++) {
        number[shuffled(at)] = at % 10
        print "row 0 1 " shuffled(at) " " at % 10 " -" > input
    }
    if (writes) step("txn 0 0 0 put 0 0 1 -", "commit 0 ok")
    for (id = 1; id <= count; id++) {
        asked = answers = ""
        for (i = 0; i < operations; i++) {
            sub_key = random(many)
            if ((id + i) % 2 == 0) {
                asked = asked " get 1 " sub_key
                answers = answers " " number[sub_key] "/-"
            } else {
                number[sub_key] = i % 10
                asked = asked " put 1 " sub_key " " i % 10 " -"
                answers = answers " ok"
            }
        }
        step("txn 0 " id " 0" asked, "commit " id answers)
    }
    print "end idle" > wanted
    printf "at 0 0 %d 0.0=%d/-", writes + count, writes > wanted
    for (at = 0; at < many; at++) printf " 1.%d=%d/-", at, number[at] > wanted
    print "" > wanted
}'

# Empty lines, up to the most lines that an input has.
empty_lines='
BEGIN {
    header(8, "1 64 1")
    for (i = 3; i < 1000000; i++) step("", "refused 230")
    print "end idle" > wanted
}'

# A database of `roots` families, half of them at each end of the move, of which the `moved` in the middle move in chunks
# of one family each.
growing_chunks='
BEGIN {
    end = "4294967296"
    low = (roots - moved) / 2
    high = low + moved
    print "old {\"version\":1,\"partitions\":2,\"ranges\":[[0," low ",1],[" low "," end ",0]]}" > input
    print "new {\"version\":1,\"partitions\":2,\"ranges\":[[0," high ",1],[" high "," end ",0]]}" > input
    print "config 4096 64 8" > input
    rows(roots)
    if (count > 0) {
        start()
        step("claim 0 1 0", "ok")
        step("begin 0 1 0", "ok")
    }
    for (at = low; at < low + count; at++)
        take((at - low) " 0 1 " at " " (at + 1) " " (at + 1 == high ? "last" : "more") " 1")
    print (count > 0 ? "end moving" : "end idle") > wanted
    if (count > 0) {
        dump(0, high, roots)
        dump(1, 0, high)
    } else {
        dump(0, low, roots)
        dump(1, 0, low)
    }
}'

# Jobs of a live run, as many as are named, on root keys that all go from their partition to the next one meanwhile.
jobs='
BEGIN {
    end = "4294967296"
    each = roots / parts
    old = new = ""
    for (part = 0; part < parts; part++) {
        extent = "[" part * each "," (part + 1) * each ","
        old = old extent part "],"
        new = new extent (part + 1) % parts "],"
    }
    print "old {\"version\":1,\"partitions\":" parts ",\"ranges\":[" old "[" roots "," end ",0]]}" > input
    print "new {\"version\":1,\"partitions\":" parts ",\"ranges\":[" new "[" roots "," end ",0]]}" > input
    print "config 8 4096 8" > input
    rows(roots)
    for (id = 0; id < count; id++) {
        root = random(roots)
        transaction(int(root / each), id, root)
    }
    print "sound " roots " families " count " committed" > wanted
}'
