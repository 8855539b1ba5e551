# Writes a script of one vertical: `people` entities, four edges for each, and ten rounds that change
# ranks, publish, and then ask nine queries. The edges come in the order of their sources, or with
# mixed=1 in no order. Usage: awk -v people=100000 [-v mixed=1] -f examples/load.awk
function below(n) { seed = (seed * 16807) % 2147483647; return seed % n }
function publish() { print "publish"; print "go" }
BEGIN {
    seed = 1
    print "unicorn 1"
    print "vertical user 1 1"
    print "type friend user user both index"
    print "begin"
    for (id = 1; id <= people; id++) print "entity user", id, below(1000)
    for (edge = 0; edge < 4 * people; edge++)
        print "edge friend", 1 + (mixed ? below(people) : int(edge / 4)), 1 + below(people), "public"
    publish()
    for (round = 0; round < 10; round++) {
        for (change = 0; change < people / 10; change++)
            print "entity user", 1 + below(people), below(1000)
        publish()
        for (query = 0; query < 9; query++) {
            viewer = 1 + below(people)
            print "ask", viewer, 1 + query % 4, 100, "friend:" viewer
        }
        print "go"
    }
}
