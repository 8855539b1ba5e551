# Writes a script that asks one kind of query many times. The table is that of the mode bench: `people`
# entities in four shards of two replicas, `friends` edges for each and a word, a quarter of which are shown
# to owners alone. With many=N each of the first `askers` people has N friends in place of that. Then `asks`
# queries, for at most 100 hits each, of the first `askers` people in turn, 500 of them in a round:
#     kind=term       friend:P
#     kind=friends    (apply friend: friend:P)
#     kind=weak       (weak-and (term friend:P :optional-hits 2) lives:c1)
# Usage: awk -v people=100000 -v askers=2000 -v asks=20000 -v kind=term [-v many=100] -f examples/asks.awk
function below(n) { seed = (seed * 16807) % 2147483647; return seed % n }
function query(person) {
    if (kind == "friends") return "(apply friend: friend:" person ")"
    if (kind == "weak") return "(weak-and (term friend:" person " :optional-hits 2) lives:c1)"
    return "friend:" person
}
BEGIN {
    seed = 1
    if (!friends) friends = 4
    print "unicorn 1"
    print "vertical user 4 2"
    print "type friend user user both index"
    print "type lives word user target index"
    print "begin"
    for (id = 1; id <= people; id++) print "entity user", id, below(1000)
    for (id = 1; id <= people; id++) {
        count = many && id <= askers ? many : friends
        for (edge = 0; edge < count; edge++) print "edge friend", id, 1 + below(people), "public"
        place = below(10)
        print "edge lives c" place, id, below(4) ? "public" : "only"
    }
    print "publish"
    print "go"
    for (ask = 0; ask < asks; ask++) {
        person = 1 + ask % askers
        print "ask", person, 1, 100, query(person)
        if (ask % 500 == 499) print "go"
    }
}
