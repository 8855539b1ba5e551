# Writes a large script: entities and edges in two rounds, and then rounds that ask while a batch is published.
#
#   awk -f examples/large.awk | unicorn serve
#   awk -v entities=200000 -v edges=1000000 -v publishes=50 -v changes=100 -v asks=10000 -v sessions=64 -v separate=1 -f examples/large.awk
#
# With `separate` the changes and the asks stand in rounds of their own, so that the answers are the same at each run.
function draw(below) { seed = (seed * 48271) % 2147483647; return seed % below }
function user() { return 1 + draw(users) }
function photo() { return users + 1 + draw(entities - users) }
function edge(  kind) {
    kind = draw(20)
    if (kind < 9) return "friend " user() " " user()
    if (kind < 13) return "lives city" draw(200) " " user()
    if (kind < 18) return "tagged " user() " " photo()
    return "likes " user() " " user()
}
function audience(  kind) { kind = draw(20); return kind < 17 ? "public" : (kind < 19 ? "in:friend:" user() : "only") }
function question(  kind, one) {
    kind = draw(6); one = user()
    if (kind == 0) return "friend:" one
    if (kind == 1) return "(and friend:" one " lives:city" draw(200) ")"
    if (kind == 2) return "(or friend:" one " friend:" user() ")"
    if (kind == 3) return "(apply friend: friend:" one ")"
    if (kind == 4) return "(apply tagged: friend:" one ")"
    return "(weak-and (term friend:" one " :optional-hits 5) lives:city" draw(200) ")"
}
function change() { if (draw(2)) print "entity user " user() " " draw(1000); else print "edge " edge() " " audience() }
BEGIN {
    if (!entities) entities = 200000
    if (!edges) edges = 1000000
    if (!publishes) publishes = 50
    if (!changes) changes = 100
    if (!asks) asks = 10000
    if (!sessions) sessions = 64
    seed = 1; users = int(entities * 0.8)
    print "unicorn 1\nvertical user 8 2\nvertical photo 4 2"
    print "type friend user user both index\ntype lives word user target index\ntype tagged user photo source index\ntype likes user user source index\nbegin"
    for (i = 1; i <= entities; i++) print "entity " (i <= users ? "user " : "photo ") i " " draw(1000)
    print "publish\ngo"
    for (i = 1; i <= edges; i++) { print "edge " edge() " " audience(); if (i % 900000 == 0) print "publish\ngo" }
    print "publish\ngo"
    for (p = 1; p <= publishes; p++) {
        for (i = 1; i <= changes / 2; i++) change()
        if (separate) { for (; i <= changes; i++) change(); print "publish\ngo" }
        for (a = 1; a <= asks / publishes; a++) {
            print "ask " user() " " 1 + draw(sessions) " 20 " question()
            if (!separate && a == int(asks / publishes / 2)) print "publish"
        }
        if (!separate) for (; i <= changes; i++) change()
        print "go"
    }
}
