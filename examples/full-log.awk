# Writes what a play of full-log.json prints. The page frames itself, so each document makes two entries: its commit and
# its frame. The log stops at 39,997 entries, since four more would pass 40,000.
BEGIN {
    print "log 39997"
    print "0 - - open n0 d0 g0 home=0 origin=opaque:0 name=\"\" opener=- flags=- navigator=- load=d1 lhome=0 lorigin=https://a.test lurl=\"https://a.test/\""
    for (place = 1; place <= 39996; place++) {
        window = int((place - 1) / 2)
        doc = 2 * window + 1
        if (place % 2 == 1)
            print place " r0 - commit n" window " d" doc " begin=" (place - 1)
        else
            print place " r0 d" doc " frame n" (window + 1) " d" (doc + 1) " home=0 origin=https://a.test name=\"\" flags=- load=d" (doc + 2) " lhome=0 lorigin=https://a.test lurl=\"https://a.test/\""
    }
    print "record 0 39996"
    for (place = 1; place <= 39996; place++) {
        window = int((place - 1) / 2)
        doc = 2 * window + 1
        if (place % 2 == 1)
            print (place + 1) " task commit " place
        else
            print (place + 1) " d" doc " s0 frame -> window n" (window + 1)
    }
    print "status 5 logfull 39997"
}
