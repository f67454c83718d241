# Writes what a play of full-log-of-waits.json prints. The page waits 199 times and then frames itself, so each document makes
# 201 entries: its commit, its waits and its frame. The log stops at 39,997 entries, since four more would pass 40,000.
function document(place) { return 2 * int((place - 1) / 201) + 1 }
function step(place) { return (place - 1) % 201 - 1 }
BEGIN {
    print "log 39997"
    print "0 - - open n0 d0 g0 home=0 origin=opaque:0 name=\"\" opener=- flags=- navigator=- load=d1 lhome=0 lorigin=https://a.test lurl=\"https://a.test/\""
    for (place = 1; place <= 39996; place++) {
        doc = document(place)
        window = int(doc / 2)
        if (step(place) < 0)
            print place " r0 - commit n" window " d" doc " begin=" (place - 1)
        else if (step(place) < 199)
            print place " r0 d" doc " sync"
        else
            print place " r0 d" doc " frame n" (window + 1) " d" (doc + 1) " home=0 origin=https://a.test name=\"\" flags=- load=d" (doc + 2) " lhome=0 lorigin=https://a.test lurl=\"https://a.test/\""
    }
    print "record 0 39996"
    for (place = 1; place <= 39996; place++) {
        doc = document(place)
        if (step(place) < 0)
            print (place + 1) " task commit " place
        else if (step(place) < 199)
            print (place + 1) " d" doc " s" step(place) " sync -> undefined"
        else
            print (place + 1) " d" doc " s199 frame -> window n" (int(doc / 2) + 1)
    }
    print "status 5 logfull 39997"
}
