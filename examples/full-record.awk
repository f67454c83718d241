# Writes what a play of full-record.json prints. The page writes a value 199 times and then frames itself, so each document
# makes 201 acts: its commit, its values and its frame. Two of them are entries of the log. The record stops at 40,000 acts:
# 199 documents, and the commit of the next.
BEGIN {
    print "log 400"
    print "0 - - open n0 d0 g0 home=0 origin=opaque:0 name=\"\" opener=- flags=- navigator=- load=d1 lhome=0 lorigin=https://a.test lurl=\"https://a.test/\""
    for (place = 1; place < 400; place++) {
        window = int((place - 1) / 2)
        doc = 2 * window + 1
        if (place % 2 == 1)
            print place " r0 - commit n" window " d" doc " begin=" (place - 1)
        else
            print place " r0 d" doc " frame n" (window + 1) " d" (doc + 1) " home=0 origin=https://a.test name=\"\" flags=- load=d" (doc + 2) " lhome=0 lorigin=https://a.test lurl=\"https://a.test/\""
    }
    print "record 0 40000"
    for (act = 0; act < 40000; act++) {
        window = int(act / 201)
        doc = 2 * window + 1
        step = act % 201 - 1
        if (step < 0)
            print (2 * window + 2) " task commit " (2 * window + 1)
        else if (step < 199)
            print (2 * window + 2) " d" doc " s" step " let -> 0"
        else
            print (2 * window + 3) " d" doc " s199 frame -> window n" (window + 1)
    }
    print "status 6 actsfull r0"
}
