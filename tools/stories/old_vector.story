1 r0 tick 0
  sends log-mod r1 at 2: view 0 vector 0,0,0 commit 0 start 0 keys
  sends log-mod r2 at 2: view 0 vector 0,0,0 commit 0 start 0 keys
1 c0 tick 1000
  send c0 1 put a 1
  sends request p0 at 2: num 1 command put a 1
2 r0 tick 0
  sends log-mod r1 at 3: view 0 vector 0,0,0 commit 0 start 0 keys
  sends log-mod r2 at 3: view 0 vector 0,0,0 commit 0 start 0 keys
2 r1 deliver log-mod r0
  sends sync-report r0 at 3: view 0 synced 0
2 r2 deliver log-mod r0
  sends sync-report r0 at 3: view 0 synced 0
2 p0 deliver request c0
  sends timed r0 at 3: sent 2000 deadline 12500 id c0/1
  sends timed r1 at 3: sent 2000 deadline 12500 id c0/1
  sends timed r2 at 3: sent 2000 deadline 12500 id c0/1
3 r0 tick 0
  sends log-mod r1 at 4: view 0 vector 0,0,0 commit 0 start 0 keys
  sends log-mod r2 at 4: view 0 vector 0,0,0 commit 0 start 0 keys
3 r1 deliver log-mod r0
  sends sync-report r0 at 4: view 0 synced 0
3 r2 deliver log-mod r0
  sends sync-report r0 at 4: view 0 synced 0
3 r0 deliver sync-report r1
3 r0 deliver sync-report r2
3 r0 deliver timed p0
  now normal view 0 vector 0,0,0 synced 0 commit 0 early +12500/c0/1
3 r1 deliver timed p0
  now normal view 0 vector 0,0,0 synced 0 commit 0 early +12500/c0/1
3 r2 deliver timed p0
  now normal view 0 vector 0,0,0 synced 0 commit 0 early +12500/c0/1
4 r0 tick 0
  sends log-mod r1 at 5: view 0 vector 0,0,0 commit 0 start 0 keys
  sends log-mod r2 at 5: view 0 vector 0,0,0 commit 0 start 0 keys
4 r1 deliver log-mod r0
  sends sync-report r0 at 5: view 0 synced 0
4 r2 deliver log-mod r0
  sends sync-report r0 at 5: view 0 synced 0
4 r0 deliver sync-report r1
4 r0 deliver sync-report r2
5 r0 tick 0
  sends log-mod r1 at 6: view 0 vector 0,0,0 commit 0 start 0 keys
  sends log-mod r2 at 6: view 0 vector 0,0,0 commit 0 start 0 keys
5 r1 deliver log-mod r0
  sends sync-report r0 at 6: view 0 synced 0
5 r2 deliver log-mod r0
  sends sync-report r0 at 6: view 0 synced 0
5 r0 deliver sync-report r1
5 r0 deliver sync-report r2
6 r0 tick 0
  sends log-mod r1 at 7: view 0 vector 0,0,0 commit 0 start 0 keys
  sends log-mod r2 at 7: view 0 vector 0,0,0 commit 0 start 0 keys
6 r1 deliver log-mod r0
  sends sync-report r0 at 7: view 0 synced 0
6 r2 deliver log-mod r0
  sends sync-report r0 at 7: view 0 synced 0
6 r0 deliver sync-report r1
6 r0 deliver sync-report r2
7 r0 tick 0
  sends log-mod r1 at 8: view 0 vector 0,0,0 commit 0 start 0 keys
  sends log-mod r2 at 8: view 0 vector 0,0,0 commit 0 start 0 keys
7 r1 deliver log-mod r0
  sends sync-report r0 at 8: view 0 synced 0
7 r2 deliver log-mod r0
  sends sync-report r0 at 8: view 0 synced 0
7 r0 deliver sync-report r1
7 r0 deliver sync-report r2
8 r0 tick 0
  sends log-mod r1 at 9: view 0 vector 0,0,0 commit 0 start 0 keys
  sends log-mod r2 at 9: view 0 vector 0,0,0 commit 0 start 0 keys
8 r1 deliver log-mod r0
  sends sync-report r0 at 9: view 0 synced 0
8 r2 deliver log-mod r0
  sends sync-report r0 at 9: view 0 synced 0
8 r0 deliver sync-report r1
8 r0 deliver sync-report r2
9 r0 tick 0
  sends log-mod r1 at 10: view 0 vector 0,0,0 commit 0 start 0 keys
  sends log-mod r2 at 10: view 0 vector 0,0,0 commit 0 start 0 keys
9 r1 deliver log-mod r0
  sends sync-report r0 at 10: view 0 synced 0
9 r2 deliver log-mod r0
  sends sync-report r0 at 10: view 0 synced 0
9 r0 deliver sync-report r1
9 r0 deliver sync-report r2
10 r0 tick 0
  sends log-mod r1 at 11: view 0 vector 0,0,0 commit 0 start 0 keys
  sends log-mod r2 at 11: view 0 vector 0,0,0 commit 0 start 0 keys
10 r1 deliver log-mod r0
  sends sync-report r0 at 11: view 0 synced 0
10 r2 deliver log-mod r0
  sends sync-report r0 at 11: view 0 synced 0
10 r0 deliver sync-report r1
10 r0 deliver sync-report r2
11 r0 tick 0
  sends log-mod r1 at 12: view 0 vector 0,0,0 commit 0 start 0 keys
  sends log-mod r2 at 12: view 0 vector 0,0,0 commit 0 start 0 keys
11 r1 deliver log-mod r0
  sends sync-report r0 at 12: view 0 synced 0
11 r2 deliver log-mod r0
  sends sync-report r0 at 12: view 0 synced 0
11 r0 deliver sync-report r1
11 r0 deliver sync-report r2
12 r0 tick 0
  sends log-mod r1 at 13: view 0 vector 0,0,0 commit 0 start 0 keys
  sends log-mod r2 at 13: view 0 vector 0,0,0 commit 0 start 0 keys
12 r1 deliver log-mod r0
  sends sync-report r0 at 13: view 0 synced 0
12 r2 deliver log-mod r0
  sends sync-report r0 at 13: view 0 synced 0
12 r0 deliver sync-report r1
12 r0 deliver sync-report r2
13 r0 tick 0
  sends log-mod r1 at 14: view 0 vector 0,0,0 commit 0 start 0 keys
  sends log-mod r2 at 14: view 0 vector 0,0,0 commit 0 start 0 keys
13 r1 tick 13000
  now normal view 0 vector 0,0,0 synced 0 commit 0 log +12500/c0/1
  sends fast-reply p0 at 14: view 0 id c0/1 digest 67a78bbee5eb7bbd613220a92e03218955332dee vector 0,0,0 delay 1000
13 r2 tick 13000
  now normal view 0 vector 0,0,0 synced 0 commit 0 log +12500/c0/1
  sends fast-reply p0 at 34: view 0 id c0/1 digest 67a78bbee5eb7bbd613220a92e03218955332dee vector 0,0,0 delay 1000
13 r1 deliver log-mod r0
  sends sync-report r0 at 14: view 0 synced 0
13 r2 deliver log-mod r0
  sends sync-report r0 at 14: view 0 synced 0
13 r0 deliver sync-report r1
13 r0 deliver sync-report r2
14 r0 tick 0
  sends log-mod r1 at 15: view 0 vector 0,0,0 commit 0 start 0 keys
  sends log-mod r2 at 15: view 0 vector 0,0,0 commit 0 start 0 keys
14 r1 deliver log-mod r0
  sends sync-report r0 at 15: view 0 synced 0
14 r2 deliver log-mod r0
  sends sync-report r0 at 15: view 0 synced 0
14 p0 deliver fast-reply r1
14 r0 deliver sync-report r1
14 r0 deliver sync-report r2
15 r2 crash
  now down
15 r0 tick 0
  sends log-mod r1 at 16: view 0 vector 0,0,0 commit 0 start 0 keys
  sends log-mod r2 at 16: view 0 vector 0,0,0 commit 0 start 0 keys
15 r1 deliver log-mod r0
  sends sync-report r0 at 16: view 0 synced 0
15 r2 deliver log-mod r0
15 r0 deliver sync-report r1
15 r0 deliver sync-report r2
16 r2 restart 1
  now rejoining vectors collected 0 view 0 vector 0,0,0 synced 0 commit 0
  sends vector-ask r0 at 17: nonce 1
  sends vector-ask r1 at 17: nonce 1
16 r0 tick 0
  sends log-mod r1 at 17: view 0 vector 0,0,0 commit 0 start 0 keys
  sends log-mod r2 at 17: view 0 vector 0,0,0 commit 0 start 0 keys
16 r1 deliver log-mod r0
  sends sync-report r0 at 17: view 0 synced 0
16 r2 deliver log-mod r0
16 r0 deliver sync-report r1
17 r0 tick 0
  sends log-mod r1 at 18: view 0 vector 0,0,0 commit 0 start 0 keys
  sends log-mod r2 at 18: view 0 vector 0,0,0 commit 0 start 0 keys
17 r0 deliver vector-ask r2
  sends vector-tell r2 at 18: nonce 1 vector 0,0,0
17 r1 deliver vector-ask r2
  sends vector-tell r2 at 18: nonce 1 vector 0,0,0
17 r1 deliver log-mod r0
  sends sync-report r0 at 18: view 0 synced 0
17 r2 deliver log-mod r0
17 r0 deliver sync-report r1
18 r0 tick 0
  sends log-mod r1 at 19: view 0 vector 0,0,0 commit 0 start 0 keys
  sends log-mod r2 at 19: view 0 vector 0,0,0 commit 0 start 0 keys
18 r1 deliver log-mod r0
  sends sync-report r0 at 19: view 0 synced 0
18 r2 deliver log-mod r0
18 r2 deliver vector-tell r0
  now rejoining vectors collected 1 view 0 vector 0,0,0 synced 0 commit 0
18 r2 deliver vector-tell r1
  now rejoining views collected 0 view 0 vector 0,0,1 synced 0 commit 0
  sends rejoin-ask r0 at 19: nonce 1 vector 0,0,1
  sends rejoin-ask r1 at 19: nonce 1 vector 0,0,1
18 r0 deliver sync-report r1
19 r0 tick 0
  sends log-mod r1 at 20: view 0 vector 0,0,0 commit 0 start 0 keys
  sends log-mod r2 at 20: view 0 vector 0,0,0 commit 0 start 0 keys
19 r1 deliver log-mod r0
  sends sync-report r0 at 20: view 0 synced 0
19 r2 deliver log-mod r0
19 r0 deliver sync-report r1
19 r0 deliver rejoin-ask r2
  now normal view 0 vector 0,0,1 synced 0 commit 0
  sends rejoin-tell r2 at 20: nonce 1 view 0 vector 0,0,1
19 r1 deliver rejoin-ask r2
  now normal view 0 vector 0,0,1 synced 0 commit 0
  sends rejoin-tell r2 at 20: nonce 1 view 0 vector 0,0,1
20 r0 tick 0
  sends log-mod r1 at 21: view 0 vector 0,0,1 commit 0 start 0 keys
  sends log-mod r2 at 21: view 0 vector 0,0,1 commit 0 start 0 keys
20 r1 deliver log-mod r0
  sends sync-report r0 at 21: view 0 synced 0
20 r2 deliver log-mod r0
20 r0 deliver sync-report r1
20 r2 deliver rejoin-tell r0
  now rejoining views collected 1 view 0 vector 0,0,1 synced 0 commit 0
20 r2 deliver rejoin-tell r1
  now rejoining log view 0 vector 0,0,1 synced 0 commit 0
  sends state-ask r0 at 21: nonce 1 view 0 vector 0,0,1
21 r0 tick 1000
  sends log-mod r1 at 22: view 0 vector 0,0,1 commit 0 start 0 keys
  sends log-mod r2 at 22: view 0 vector 0,0,1 commit 0 start 0 keys
21 r1 deliver log-mod r0
  sends sync-report r0 at 22: view 0 synced 0
21 r2 deliver log-mod r0
21 r0 deliver sync-report r1
21 r0 deliver state-ask r2
  sends state-tell r2 at 22: nonce 1 view 0 vector 0,0,1 commit 0 entries 0
22 r0 tick 2000
  sends log-mod r1 at 23: view 0 vector 0,0,1 commit 0 start 0 keys
  sends log-mod r2 at 23: view 0 vector 0,0,1 commit 0 start 0 keys
22 r1 deliver log-mod r0
  sends sync-report r0 at 23: view 0 synced 0
22 r2 deliver log-mod r0
22 r0 deliver sync-report r1
22 r2 deliver state-tell r0
  now normal view 0 vector 0,0,1 synced 0 commit 0
23 r0 tick 3000
  sends log-mod r1 at 24: view 0 vector 0,0,1 commit 0 start 0 keys
  sends log-mod r2 at 24: view 0 vector 0,0,1 commit 0 start 0 keys
23 r1 deliver log-mod r0
  sends sync-report r0 at 24: view 0 synced 0
23 r2 deliver log-mod r0
  sends sync-report r0 at 24: view 0 synced 0
23 r0 deliver sync-report r1
24 r0 tick 4000
  sends log-mod r1 at 25: view 0 vector 0,0,1 commit 0 start 0 keys
  sends log-mod r2 at 25: view 0 vector 0,0,1 commit 0 start 0 keys
24 r1 deliver log-mod r0
  sends sync-report r0 at 25: view 0 synced 0
24 r2 deliver log-mod r0
  sends sync-report r0 at 25: view 0 synced 0
24 r0 deliver sync-report r1
24 r0 deliver sync-report r2
25 r0 tick 5000
  sends log-mod r1 at 26: view 0 vector 0,0,1 commit 0 start 0 keys
  sends log-mod r2 at 26: view 0 vector 0,0,1 commit 0 start 0 keys
25 r1 deliver log-mod r0
  sends sync-report r0 at 26: view 0 synced 0
25 r2 deliver log-mod r0
  sends sync-report r0 at 26: view 0 synced 0
25 r0 deliver sync-report r1
25 r0 deliver sync-report r2
26 r0 tick 6000
  sends log-mod r1 at 27: view 0 vector 0,0,1 commit 0 start 0 keys
  sends log-mod r2 at 27: view 0 vector 0,0,1 commit 0 start 0 keys
26 r1 deliver log-mod r0
  sends sync-report r0 at 27: view 0 synced 0
26 r2 deliver log-mod r0
  sends sync-report r0 at 27: view 0 synced 0
26 r0 deliver sync-report r1
26 r0 deliver sync-report r2
27 r0 tick 7000
  sends log-mod r1 at 28: view 0 vector 0,0,1 commit 0 start 0 keys
  sends log-mod r2 at 28: view 0 vector 0,0,1 commit 0 start 0 keys
27 r1 deliver log-mod r0
  sends sync-report r0 at 28: view 0 synced 0
27 r2 deliver log-mod r0
  sends sync-report r0 at 28: view 0 synced 0
27 r0 deliver sync-report r1
27 r0 deliver sync-report r2
28 r0 tick 8000
  sends log-mod r1 at 29: view 0 vector 0,0,1 commit 0 start 0 keys
  sends log-mod r2 at 29: view 0 vector 0,0,1 commit 0 start 0 keys
28 r1 deliver log-mod r0
  sends sync-report r0 at 29: view 0 synced 0
28 r2 deliver log-mod r0
  sends sync-report r0 at 29: view 0 synced 0
28 r0 deliver sync-report r1
28 r0 deliver sync-report r2
29 r0 tick 9000
  sends log-mod r1 at 30: view 0 vector 0,0,1 commit 0 start 0 keys
  sends log-mod r2 at 30: view 0 vector 0,0,1 commit 0 start 0 keys
29 r1 deliver log-mod r0
  sends sync-report r0 at 30: view 0 synced 0
29 r2 deliver log-mod r0
  sends sync-report r0 at 30: view 0 synced 0
29 r0 deliver sync-report r1
29 r0 deliver sync-report r2
30 r0 tick 10000
  sends log-mod r1 at 31: view 0 vector 0,0,1 commit 0 start 0 keys
  sends log-mod r2 at 31: view 0 vector 0,0,1 commit 0 start 0 keys
30 r1 deliver log-mod r0
  sends sync-report r0 at 31: view 0 synced 0
30 r2 deliver log-mod r0
  sends sync-report r0 at 31: view 0 synced 0
30 r0 deliver sync-report r1
30 r0 deliver sync-report r2
31 r0 tick 11000
  sends log-mod r1 at 32: view 0 vector 0,0,1 commit 0 start 0 keys
  sends log-mod r2 at 32: view 0 vector 0,0,1 commit 0 start 0 keys
31 c0 tick 31000
  sends request p0 at 32: num 1 command put a 1
31 r1 deliver log-mod r0
  sends sync-report r0 at 32: view 0 synced 0
31 r2 deliver log-mod r0
  sends sync-report r0 at 32: view 0 synced 0
31 r0 deliver sync-report r1
31 r0 deliver sync-report r2
32 r0 tick 12000
  sends log-mod r1 at 33: view 0 vector 0,0,1 commit 0 start 0 keys
  sends log-mod r2 at 33: view 0 vector 0,0,1 commit 0 start 0 keys
32 r1 deliver log-mod r0
  sends sync-report r0 at 33: view 0 synced 0
32 r2 deliver log-mod r0
  sends sync-report r0 at 33: view 0 synced 0
32 p0 deliver request c0
  sends timed r0 at 33: sent 32000 deadline 42500 id c0/1
  sends timed r1 at 33: sent 32000 deadline 42500 id c0/1
  sends timed r2 at 33: sent 32000 deadline 42500 id c0/1
32 r0 deliver sync-report r1
32 r0 deliver sync-report r2
33 r0 tick 13000
  now normal view 0 vector 0,0,1 synced 1 commit 0 log +12500/c0/1
  sends fast-reply p0 at 34: view 0 id c0/1 digest 67a78bbee5eb7bbd613220a92e03218955332dee vector 0,0,1 delay 0 answer done
  sends log-mod r1 at 34: view 0 vector 0,0,1 commit 0 start 0 keys 12500/c0/1
  sends log-mod r2 at 34: view 0 vector 0,0,1 commit 0 start 0 keys 12500/c0/1
33 r1 deliver log-mod r0
  sends sync-report r0 at 34: view 0 synced 0
33 r2 deliver log-mod r0
  sends sync-report r0 at 34: view 0 synced 0
33 r0 deliver sync-report r1
33 r0 deliver sync-report r2
33 r0 deliver timed p0
  sends fast-reply p0 at 34: view 0 id c0/1 digest 67a78bbee5eb7bbd613220a92e03218955332dee vector 0,0,1 delay 0 answer done
33 r1 deliver timed p0
  sends fast-reply p0 at 34: view 0 id c0/1 digest 67a78bbee5eb7bbd613220a92e03218955332dee vector 0,0,1 delay 1000
33 r2 deliver timed p0
  now normal view 0 vector 0,0,1 synced 0 commit 0 early +42500/c0/1
34 r0 tick 14000
  sends log-mod r1 at 35: view 0 vector 0,0,1 commit 0 start 0 keys 12500/c0/1
  sends log-mod r2 at 35: view 0 vector 0,0,1 commit 0 start 0 keys 12500/c0/1
34 p0 deliver fast-reply r2
34 p0 deliver fast-reply r0
34 r1 deliver log-mod r0
  now normal view 0 vector 0,0,1 synced 1 commit 0
  sends slow-reply p0 at 35: view 0 id c0/1 delay 1000
  sends sync-report r0 at 35: view 0 synced 1
34 r2 deliver log-mod r0
  now normal view 0 vector 0,0,1 synced 1 commit 0 log +12500/c0/1
  sends slow-reply p0 at 35: view 0 id c0/1 delay 1000
  sends sync-report r0 at 35: view 0 synced 1
34 r0 deliver sync-report r1
34 r0 deliver sync-report r2
34 p0 deliver fast-reply r0
34 p0 deliver fast-reply r1
35 r0 tick 15000
  sends log-mod r1 at 36: view 0 vector 0,0,1 commit 0 start 0 keys 12500/c0/1
  sends log-mod r2 at 36: view 0 vector 0,0,1 commit 0 start 0 keys 12500/c0/1
35 r1 deliver log-mod r0
  sends sync-report r0 at 36: view 0 synced 1
35 r2 deliver log-mod r0
  sends sync-report r0 at 36: view 0 synced 1
35 p0 deliver slow-reply r1
  sends answer c0 at 36: num 1 answer done path slow
35 r0 deliver sync-report r1
  now normal view 0 vector 0,0,1 synced 1 commit 1
35 p0 deliver slow-reply r2
35 r0 deliver sync-report r2
36 r0 tick 16000
  sends log-mod r1 at 37: view 0 vector 0,0,1 commit 1 start 1 keys
  sends log-mod r2 at 37: view 0 vector 0,0,1 commit 1 start 1 keys
36 r1 deliver log-mod r0
  sends sync-report r0 at 37: view 0 synced 1
36 r2 deliver log-mod r0
  sends sync-report r0 at 37: view 0 synced 1
36 r0 deliver sync-report r1
36 r0 deliver sync-report r2
36 c0 deliver answer p0
  accept c0 1 done slow
37 r0 tick 17000
  sends log-mod r1 at 38: view 0 vector 0,0,1 commit 1 start 1 keys
  sends log-mod r2 at 38: view 0 vector 0,0,1 commit 1 start 1 keys
37 r1 deliver log-mod r0
  now normal view 0 vector 0,0,1 synced 1 commit 1
  sends sync-report r0 at 38: view 0 synced 1
37 r2 deliver log-mod r0
  now normal view 0 vector 0,0,1 synced 1 commit 1
  sends sync-report r0 at 38: view 0 synced 1
37 r0 deliver sync-report r1
37 r0 deliver sync-report r2
38 r0 tick 18000
  sends log-mod r1 at 39: view 0 vector 0,0,1 commit 1 start 1 keys
  sends log-mod r2 at 39: view 0 vector 0,0,1 commit 1 start 1 keys
38 r1 deliver log-mod r0
  sends sync-report r0 at 39: view 0 synced 1
38 r2 deliver log-mod r0
  sends sync-report r0 at 39: view 0 synced 1
38 r0 deliver sync-report r1
38 r0 deliver sync-report r2
39 r0 tick 19000
  sends log-mod r1 at 40: view 0 vector 0,0,1 commit 1 start 1 keys
  sends log-mod r2 at 40: view 0 vector 0,0,1 commit 1 start 1 keys
39 r1 deliver log-mod r0
  sends sync-report r0 at 40: view 0 synced 1
39 r2 deliver log-mod r0
  sends sync-report r0 at 40: view 0 synced 1
39 r0 deliver sync-report r1
39 r0 deliver sync-report r2
40 r0 tick 20000
  sends log-mod r1 at 41: view 0 vector 0,0,1 commit 1 start 1 keys
  sends log-mod r2 at 41: view 0 vector 0,0,1 commit 1 start 1 keys
40 r1 deliver log-mod r0
  sends sync-report r0 at 41: view 0 synced 1
40 r2 deliver log-mod r0
  sends sync-report r0 at 41: view 0 synced 1
40 r0 deliver sync-report r1
40 r0 deliver sync-report r2
41 r0 tick 21000
  sends log-mod r1 at 42: view 0 vector 0,0,1 commit 1 start 1 keys
  sends log-mod r2 at 42: view 0 vector 0,0,1 commit 1 start 1 keys
41 r1 deliver log-mod r0
  sends sync-report r0 at 42: view 0 synced 1
41 r2 deliver log-mod r0
  sends sync-report r0 at 42: view 0 synced 1
41 r0 deliver sync-report r1
41 r0 deliver sync-report r2
42 r0 tick 22000
  sends log-mod r1 at 43: view 0 vector 0,0,1 commit 1 start 1 keys
  sends log-mod r2 at 43: view 0 vector 0,0,1 commit 1 start 1 keys
42 r1 deliver log-mod r0
  sends sync-report r0 at 43: view 0 synced 1
42 r2 deliver log-mod r0
  sends sync-report r0 at 43: view 0 synced 1
42 r0 deliver sync-report r1
42 r0 deliver sync-report r2
43 r0 tick 23000
  sends log-mod r1 at 44: view 0 vector 0,0,1 commit 1 start 1 keys
  sends log-mod r2 at 44: view 0 vector 0,0,1 commit 1 start 1 keys
43 r1 deliver log-mod r0
  sends sync-report r0 at 44: view 0 synced 1
43 r2 deliver log-mod r0
  sends sync-report r0 at 44: view 0 synced 1
43 r0 deliver sync-report r1
43 r0 deliver sync-report r2
44 r0 tick 24000
  sends log-mod r1 at 45: view 0 vector 0,0,1 commit 1 start 1 keys
  sends log-mod r2 at 45: view 0 vector 0,0,1 commit 1 start 1 keys
44 r1 deliver log-mod r0
  sends sync-report r0 at 45: view 0 synced 1
44 r2 deliver log-mod r0
  sends sync-report r0 at 45: view 0 synced 1
44 r0 deliver sync-report r1
44 r0 deliver sync-report r2
45 r0 tick 25000
  sends log-mod r1 at 46: view 0 vector 0,0,1 commit 1 start 1 keys
  sends log-mod r2 at 46: view 0 vector 0,0,1 commit 1 start 1 keys
45 r1 deliver log-mod r0
  sends sync-report r0 at 46: view 0 synced 1
45 r2 deliver log-mod r0
  sends sync-report r0 at 46: view 0 synced 1
45 r0 deliver sync-report r1
45 r0 deliver sync-report r2
46 r0 tick 26000
  sends log-mod r1 at 47: view 0 vector 0,0,1 commit 1 start 1 keys
  sends log-mod r2 at 47: view 0 vector 0,0,1 commit 1 start 1 keys
46 r1 deliver log-mod r0
  sends sync-report r0 at 47: view 0 synced 1
46 r2 deliver log-mod r0
  sends sync-report r0 at 47: view 0 synced 1
46 r0 deliver sync-report r1
46 r0 deliver sync-report r2
47 r0 tick 27000
  sends log-mod r1 at 48: view 0 vector 0,0,1 commit 1 start 1 keys
  sends log-mod r2 at 48: view 0 vector 0,0,1 commit 1 start 1 keys
47 r1 deliver log-mod r0
  sends sync-report r0 at 48: view 0 synced 1
47 r2 deliver log-mod r0
  sends sync-report r0 at 48: view 0 synced 1
47 r0 deliver sync-report r1
47 r0 deliver sync-report r2
48 r0 tick 28000
  sends log-mod r1 at 49: view 0 vector 0,0,1 commit 1 start 1 keys
  sends log-mod r2 at 49: view 0 vector 0,0,1 commit 1 start 1 keys
48 r1 deliver log-mod r0
  sends sync-report r0 at 49: view 0 synced 1
48 r2 deliver log-mod r0
  sends sync-report r0 at 49: view 0 synced 1
48 r0 deliver sync-report r1
48 r0 deliver sync-report r2
49 r0 tick 29000
  sends log-mod r1 at 50: view 0 vector 0,0,1 commit 1 start 1 keys
  sends log-mod r2 at 50: view 0 vector 0,0,1 commit 1 start 1 keys
49 r1 deliver log-mod r0
  sends sync-report r0 at 50: view 0 synced 1
49 r2 deliver log-mod r0
  sends sync-report r0 at 50: view 0 synced 1
49 r0 deliver sync-report r1
49 r0 deliver sync-report r2
50 r0 tick 30000
  sends log-mod r1 at 51: view 0 vector 0,0,1 commit 1 start 1 keys
  sends log-mod r2 at 51: view 0 vector 0,0,1 commit 1 start 1 keys
50 r1 deliver log-mod r0
  sends sync-report r0 at 51: view 0 synced 1
50 r2 deliver log-mod r0
  sends sync-report r0 at 51: view 0 synced 1
50 r0 deliver sync-report r1
50 r0 deliver sync-report r2
51 r0 tick 31000
  sends log-mod r1 at 52: view 0 vector 0,0,1 commit 1 start 1 keys
  sends log-mod r2 at 52: view 0 vector 0,0,1 commit 1 start 1 keys
51 r1 deliver log-mod r0
  sends sync-report r0 at 52: view 0 synced 1
51 r2 deliver log-mod r0
  sends sync-report r0 at 52: view 0 synced 1
51 r0 deliver sync-report r1
51 r0 deliver sync-report r2
52 r0 tick 32000
  sends log-mod r1 at 53: view 0 vector 0,0,1 commit 1 start 1 keys
  sends log-mod r2 at 53: view 0 vector 0,0,1 commit 1 start 1 keys
52 r1 deliver log-mod r0
  sends sync-report r0 at 53: view 0 synced 1
52 r2 deliver log-mod r0
  sends sync-report r0 at 53: view 0 synced 1
52 r0 deliver sync-report r1
52 r0 deliver sync-report r2
53 r0 tick 33000
  sends log-mod r1 at 54: view 0 vector 0,0,1 commit 1 start 1 keys
  sends log-mod r2 at 54: view 0 vector 0,0,1 commit 1 start 1 keys
53 r1 deliver log-mod r0
  sends sync-report r0 at 54: view 0 synced 1
53 r2 deliver log-mod r0
  sends sync-report r0 at 54: view 0 synced 1
53 r0 deliver sync-report r1
53 r0 deliver sync-report r2
54 r0 tick 34000
  sends log-mod r1 at 55: view 0 vector 0,0,1 commit 1 start 1 keys
  sends log-mod r2 at 55: view 0 vector 0,0,1 commit 1 start 1 keys
54 r1 deliver log-mod r0
  sends sync-report r0 at 55: view 0 synced 1
54 r2 deliver log-mod r0
  sends sync-report r0 at 55: view 0 synced 1
54 r0 deliver sync-report r1
54 r0 deliver sync-report r2
55 r0 tick 35000
  sends log-mod r1 at 56: view 0 vector 0,0,1 commit 1 start 1 keys
  sends log-mod r2 at 56: view 0 vector 0,0,1 commit 1 start 1 keys
55 r1 deliver log-mod r0
  sends sync-report r0 at 56: view 0 synced 1
55 r2 deliver log-mod r0
  sends sync-report r0 at 56: view 0 synced 1
55 r0 deliver sync-report r1
55 r0 deliver sync-report r2
56 r0 tick 36000
  sends log-mod r1 at 57: view 0 vector 0,0,1 commit 1 start 1 keys
  sends log-mod r2 at 57: view 0 vector 0,0,1 commit 1 start 1 keys
56 r1 deliver log-mod r0
  sends sync-report r0 at 57: view 0 synced 1
56 r2 deliver log-mod r0
  sends sync-report r0 at 57: view 0 synced 1
56 r0 deliver sync-report r1
56 r0 deliver sync-report r2
57 r0 tick 37000
  sends log-mod r1 at 58: view 0 vector 0,0,1 commit 1 start 1 keys
  sends log-mod r2 at 58: view 0 vector 0,0,1 commit 1 start 1 keys
57 r1 deliver log-mod r0
  sends sync-report r0 at 58: view 0 synced 1
57 r2 deliver log-mod r0
  sends sync-report r0 at 58: view 0 synced 1
57 r0 deliver sync-report r1
57 r0 deliver sync-report r2
58 r0 tick 38000
  sends log-mod r1 at 59: view 0 vector 0,0,1 commit 1 start 1 keys
  sends log-mod r2 at 59: view 0 vector 0,0,1 commit 1 start 1 keys
58 r1 deliver log-mod r0
  sends sync-report r0 at 59: view 0 synced 1
58 r2 deliver log-mod r0
  sends sync-report r0 at 59: view 0 synced 1
58 r0 deliver sync-report r1
58 r0 deliver sync-report r2
59 r0 tick 39000
  sends log-mod r1 at 60: view 0 vector 0,0,1 commit 1 start 1 keys
  sends log-mod r2 at 60: view 0 vector 0,0,1 commit 1 start 1 keys
59 r1 deliver log-mod r0
  sends sync-report r0 at 60: view 0 synced 1
59 r2 deliver log-mod r0
  sends sync-report r0 at 60: view 0 synced 1
59 r0 deliver sync-report r1
59 r0 deliver sync-report r2
60 r0 tick 40000
  sends log-mod r1 at 61: view 0 vector 0,0,1 commit 1 start 1 keys
  sends log-mod r2 at 61: view 0 vector 0,0,1 commit 1 start 1 keys
60 r1 deliver log-mod r0
  sends sync-report r0 at 61: view 0 synced 1
60 r2 deliver log-mod r0
  sends sync-report r0 at 61: view 0 synced 1
60 r0 deliver sync-report r1
60 r0 deliver sync-report r2
text
send c0 1 put a 1
accept c0 1 done slow
at 1 c0 1 put a 1 gives done
end
