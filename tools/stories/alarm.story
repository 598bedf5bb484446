1 r0 tick 1000
  sends log-mod r1 at 2: view 0 vector 0,0,0 commit 0 start 0 keys
  sends log-mod r2 at 2: view 0 vector 0,0,0 commit 0 start 0 keys
1 c0 tick 1000
  send c0 1 put a 1
  sends request p0 at 2: num 1 command put a 1
2 r0 tick 2000
  sends log-mod r1 at 3: view 0 vector 0,0,0 commit 0 start 0 keys
  sends log-mod r2 at 3: view 0 vector 0,0,0 commit 0 start 0 keys
2 r1 deliver log-mod r0
  sends sync-report r0 at 3: view 0 synced 0
2 r2 deliver log-mod r0
  sends sync-report r0 at 3: view 0 synced 0
2 p0 deliver request c0
  sends timed r0 at 3: sent 2000 deadline 12500 id c0/1
  sends timed r1 at 3: sent 2000 deadline 12500 id c0/1
  sends timed r2 at 3: sent 2000 deadline 12500 id c0/1
3 r0 tick 3000
  sends log-mod r1 at 4: view 0 vector 0,0,0 commit 0 start 0 keys
  sends log-mod r2 at 4: view 0 vector 0,0,0 commit 0 start 0 keys
3 r1 deliver log-mod r0
  sends sync-report r0 at 4: view 0 synced 0
3 r2 deliver log-mod r0
  sends sync-report r0 at 4: view 0 synced 0
3 r0 deliver sync-report r1
3 r0 deliver sync-report r2
3 r0 deliver timed p0
  now normal view 0 vector 0,0,0 synced 0 commit 0 early +12500/c0/1
3 r1 deliver timed p0
  now normal view 0 vector 0,0,0 synced 0 commit 0 early +12500/c0/1
3 r2 deliver timed p0
  now normal view 0 vector 0,0,0 synced 0 commit 0 early +12500/c0/1
4 r0 tick 4000
  sends log-mod r1 at 5: view 0 vector 0,0,0 commit 0 start 0 keys
  sends log-mod r2 at 5: view 0 vector 0,0,0 commit 0 start 0 keys
4 r1 deliver log-mod r0
  sends sync-report r0 at 5: view 0 synced 0
4 r2 deliver log-mod r0
  sends sync-report r0 at 5: view 0 synced 0
4 r0 deliver sync-report r1
4 r0 deliver sync-report r2
5 r0 tick 5000
  sends log-mod r1 at 6: view 0 vector 0,0,0 commit 0 start 0 keys
  sends log-mod r2 at 6: view 0 vector 0,0,0 commit 0 start 0 keys
5 r1 deliver log-mod r0
  sends sync-report r0 at 6: view 0 synced 0
5 r2 deliver log-mod r0
  sends sync-report r0 at 6: view 0 synced 0
5 r0 deliver sync-report r1
5 r0 deliver sync-report r2
6 r0 tick 6000
  sends log-mod r1 at 7: view 0 vector 0,0,0 commit 0 start 0 keys
  sends log-mod r2 at 7: view 0 vector 0,0,0 commit 0 start 0 keys
6 r1 deliver log-mod r0
  sends sync-report r0 at 7: view 0 synced 0
6 r2 deliver log-mod r0
  sends sync-report r0 at 7: view 0 synced 0
6 r0 deliver sync-report r1
6 r0 deliver sync-report r2
7 r0 tick 7000
  sends log-mod r1 at 8: view 0 vector 0,0,0 commit 0 start 0 keys
  sends log-mod r2 at 8: view 0 vector 0,0,0 commit 0 start 0 keys
7 r1 deliver log-mod r0
  sends sync-report r0 at 8: view 0 synced 0
7 r2 deliver log-mod r0
  sends sync-report r0 at 8: view 0 synced 0
7 r0 deliver sync-report r1
7 r0 deliver sync-report r2
8 r0 tick 8000
  sends log-mod r1 at 9: view 0 vector 0,0,0 commit 0 start 0 keys
  sends log-mod r2 at 9: view 0 vector 0,0,0 commit 0 start 0 keys
8 r1 deliver log-mod r0
  sends sync-report r0 at 9: view 0 synced 0
8 r2 deliver log-mod r0
  sends sync-report r0 at 9: view 0 synced 0
8 r0 deliver sync-report r1
8 r0 deliver sync-report r2
9 r0 tick 9000
  sends log-mod r1 at 10: view 0 vector 0,0,0 commit 0 start 0 keys
  sends log-mod r2 at 10: view 0 vector 0,0,0 commit 0 start 0 keys
9 r1 deliver log-mod r0
  sends sync-report r0 at 10: view 0 synced 0
9 r2 deliver log-mod r0
  sends sync-report r0 at 10: view 0 synced 0
9 r0 deliver sync-report r1
9 r0 deliver sync-report r2
10 r0 tick 10000
  sends log-mod r1 at 11: view 0 vector 0,0,0 commit 0 start 0 keys
  sends log-mod r2 at 11: view 0 vector 0,0,0 commit 0 start 0 keys
10 r1 deliver log-mod r0
  sends sync-report r0 at 11: view 0 synced 0
10 r2 deliver log-mod r0
  sends sync-report r0 at 11: view 0 synced 0
10 r0 deliver sync-report r1
10 r0 deliver sync-report r2
11 r0 tick 11000
  sends log-mod r1 at 12: view 0 vector 0,0,0 commit 0 start 0 keys
  sends log-mod r2 at 12: view 0 vector 0,0,0 commit 0 start 0 keys
11 r1 deliver log-mod r0
  sends sync-report r0 at 12: view 0 synced 0
11 r2 deliver log-mod r0
  sends sync-report r0 at 12: view 0 synced 0
11 r0 deliver sync-report r1
11 r0 deliver sync-report r2
12 r0 tick 12000
  sends log-mod r1 at 13: view 0 vector 0,0,0 commit 0 start 0 keys
  sends log-mod r2 at 13: view 0 vector 0,0,0 commit 0 start 0 keys
12 r1 deliver log-mod r0
  sends sync-report r0 at 13: view 0 synced 0
12 r2 deliver log-mod r0
  sends sync-report r0 at 13: view 0 synced 0
12 r0 deliver sync-report r1
12 r0 deliver sync-report r2
13 r0 tick 13000
  now normal view 0 vector 0,0,0 synced 1 commit 0 log +12500/c0/1
  sends fast-reply p0 at 14: view 0 id c0/1 digest 67a78bbee5eb7bbd613220a92e03218955332dee vector 0,0,0 delay 1000 answer done
  sends log-mod r1 at 14: view 0 vector 0,0,0 commit 0 start 0 keys 12500/c0/1
  sends log-mod r2 at 14: view 0 vector 0,0,0 commit 0 start 0 keys 12500/c0/1
13 r1 tick 13000
  now normal view 0 vector 0,0,0 synced 0 commit 0 log +12500/c0/1
  sends fast-reply p0 at 14: view 0 id c0/1 digest 67a78bbee5eb7bbd613220a92e03218955332dee vector 0,0,0 delay 1000
13 r2 tick 13000
  now normal view 0 vector 0,0,0 synced 0 commit 0 log +12500/c0/1
  sends fast-reply p0 at 14: view 0 id c0/1 digest 67a78bbee5eb7bbd613220a92e03218955332dee vector 0,0,0 delay 1000
13 r1 deliver log-mod r0
  sends sync-report r0 at 14: view 0 synced 0
13 r2 deliver log-mod r0
  sends sync-report r0 at 14: view 0 synced 0
13 r0 deliver sync-report r1
13 r0 deliver sync-report r2
14 r0 tick 14000
  sends log-mod r1 at 15: view 0 vector 0,0,0 commit 0 start 0 keys 12500/c0/1
  sends log-mod r2 at 15: view 0 vector 0,0,0 commit 0 start 0 keys 12500/c0/1
14 p0 deliver fast-reply r0
14 r1 deliver log-mod r0
  now normal view 0 vector 0,0,0 synced 1 commit 0
  sends slow-reply p0 at 15: view 0 id c0/1 delay 1000
  sends sync-report r0 at 15: view 0 synced 1
14 r2 deliver log-mod r0
  now normal view 0 vector 0,0,0 synced 1 commit 0
  sends slow-reply p0 at 15: view 0 id c0/1 delay 1000
  sends sync-report r0 at 15: view 0 synced 1
14 p0 deliver fast-reply r1
14 p0 deliver fast-reply r2
  sends answer c0 at 15: num 1 answer done path fast
14 r0 deliver sync-report r1
14 r0 deliver sync-report r2
15 r0 tick 15000
  sends log-mod r1 at 16: view 0 vector 0,0,0 commit 0 start 0 keys 12500/c0/1
  sends log-mod r2 at 16: view 0 vector 0,0,0 commit 0 start 0 keys 12500/c0/1
15 r1 deliver log-mod r0
  sends sync-report r0 at 16: view 0 synced 1
15 r2 deliver log-mod r0
  sends sync-report r0 at 16: view 0 synced 1
15 p0 deliver slow-reply r1
15 r0 deliver sync-report r1
  now normal view 0 vector 0,0,0 synced 1 commit 1
15 p0 deliver slow-reply r2
15 r0 deliver sync-report r2
15 c0 deliver answer p0
  accept c0 1 done fast
16 r0 tick 16000
  sends log-mod r1 at 17: view 0 vector 0,0,0 commit 1 start 1 keys
  sends log-mod r2 at 17: view 0 vector 0,0,0 commit 1 start 1 keys
16 r1 deliver log-mod r0
  sends sync-report r0 at 17: view 0 synced 1
16 r2 deliver log-mod r0
  sends sync-report r0 at 17: view 0 synced 1
16 r0 deliver sync-report r1
16 r0 deliver sync-report r2
17 r0 tick 17000
  sends log-mod r1 at 18: view 0 vector 0,0,0 commit 1 start 1 keys
  sends log-mod r2 at 18: view 0 vector 0,0,0 commit 1 start 1 keys
17 r1 deliver log-mod r0
  now normal view 0 vector 0,0,0 synced 1 commit 1
  sends sync-report r0 at 18: view 0 synced 1
17 r2 deliver log-mod r0
  now normal view 0 vector 0,0,0 synced 1 commit 1
  sends sync-report r0 at 18: view 0 synced 1
17 r0 deliver sync-report r1
17 r0 deliver sync-report r2
18 r0 tick 18000
  sends log-mod r1 at 19: view 0 vector 0,0,0 commit 1 start 1 keys
  sends log-mod r2 at 19: view 0 vector 0,0,0 commit 1 start 1 keys
18 r1 deliver log-mod r0
  sends sync-report r0 at 19: view 0 synced 1
18 r2 deliver log-mod r0
  sends sync-report r0 at 19: view 0 synced 1
18 r0 deliver sync-report r1
18 r0 deliver sync-report r2
19 r0 tick 19000
  sends log-mod r1 at 20: view 0 vector 0,0,0 commit 1 start 1 keys
  sends log-mod r2 at 20: view 0 vector 0,0,0 commit 1 start 1 keys
19 r1 deliver log-mod r0
  sends sync-report r0 at 20: view 0 synced 1
19 r2 deliver log-mod r0
  sends sync-report r0 at 20: view 0 synced 1
19 r0 deliver sync-report r1
19 r0 deliver sync-report r2
20 r1 alarm
  now view-change collected 0 view 1 vector 0,0,0 synced 1 commit 1
  sends view-ask r0 at 21: view 1
  sends view-ask r2 at 21: view 1
20 r0 tick 20000
  sends log-mod r1 at 21: view 0 vector 0,0,0 commit 1 start 1 keys
  sends log-mod r2 at 21: view 0 vector 0,0,0 commit 1 start 1 keys
20 r1 deliver log-mod r0
20 r2 deliver log-mod r0
  sends sync-report r0 at 21: view 0 synced 1
20 r0 deliver sync-report r1
20 r0 deliver sync-report r2
21 r0 tick 21000
  sends log-mod r1 at 22: view 0 vector 0,0,0 commit 1 start 1 keys
  sends log-mod r2 at 22: view 0 vector 0,0,0 commit 1 start 1 keys
21 r0 deliver view-ask r1
  now view-change collected 0 view 1 vector 0,0,0 synced 1 commit 1
  sends view-ask r1 at 22: view 1
  sends view-ask r2 at 22: view 1
  sends view-change r1 at 22: view 1 last 0 vector 0,0,0 synced 1 commit 1 entries 1
21 r2 deliver view-ask r1
  now view-change collected 0 view 1 vector 0,0,0 synced 1 commit 1
  sends view-ask r0 at 22: view 1
  sends view-ask r1 at 22: view 1
  sends view-change r1 at 22: view 1 last 0 vector 0,0,0 synced 1 commit 1 entries 1
21 r1 deliver log-mod r0
21 r2 deliver log-mod r0
21 r0 deliver sync-report r2
22 r1 deliver log-mod r0
22 r2 deliver log-mod r0
22 r1 deliver view-ask r0
22 r2 deliver view-ask r0
22 r1 deliver view-change r0
  now normal view 1 vector 0,0,0 synced 1 commit 1
  sends start-view r0 at 23: view 1 vector 0,0,0 commit 1 entries 1
  sends start-view r2 at 23: view 1 vector 0,0,0 commit 1 entries 1
22 r0 deliver view-ask r2
22 r1 deliver view-ask r2
22 r1 deliver view-change r2
  sends start-view r2 at 23: view 1 vector 0,0,0 commit 1 entries 1
23 r1 tick 23000
  sends log-mod r0 at 24: view 1 vector 0,0,0 commit 1 start 0 keys 12500/c0/1
  sends log-mod r2 at 24: view 1 vector 0,0,0 commit 1 start 0 keys 12500/c0/1
23 r0 deliver start-view r1
  now normal view 1 vector 0,0,0 synced 1 commit 1
23 r2 deliver start-view r1
  now normal view 1 vector 0,0,0 synced 1 commit 1
23 r2 deliver start-view r1
24 r1 tick 24000
  sends log-mod r0 at 25: view 1 vector 0,0,0 commit 1 start 0 keys 12500/c0/1
  sends log-mod r2 at 25: view 1 vector 0,0,0 commit 1 start 0 keys 12500/c0/1
24 r0 deliver log-mod r1
  sends sync-report r1 at 25: view 1 synced 1
24 r2 deliver log-mod r1
  sends sync-report r1 at 25: view 1 synced 1
25 r1 tick 25000
  sends log-mod r0 at 26: view 1 vector 0,0,0 commit 1 start 0 keys 12500/c0/1
  sends log-mod r2 at 26: view 1 vector 0,0,0 commit 1 start 0 keys 12500/c0/1
25 r0 deliver log-mod r1
  sends sync-report r1 at 26: view 1 synced 1
25 r2 deliver log-mod r1
  sends sync-report r1 at 26: view 1 synced 1
25 r1 deliver sync-report r0
25 r1 deliver sync-report r2
26 r1 tick 26000
  sends log-mod r0 at 27: view 1 vector 0,0,0 commit 1 start 1 keys
  sends log-mod r2 at 27: view 1 vector 0,0,0 commit 1 start 1 keys
26 r0 deliver log-mod r1
  sends sync-report r1 at 27: view 1 synced 1
26 r2 deliver log-mod r1
  sends sync-report r1 at 27: view 1 synced 1
26 r1 deliver sync-report r0
26 r1 deliver sync-report r2
27 r1 tick 27000
  sends log-mod r0 at 28: view 1 vector 0,0,0 commit 1 start 1 keys
  sends log-mod r2 at 28: view 1 vector 0,0,0 commit 1 start 1 keys
27 r0 deliver log-mod r1
  sends sync-report r1 at 28: view 1 synced 1
27 r2 deliver log-mod r1
  sends sync-report r1 at 28: view 1 synced 1
27 r1 deliver sync-report r0
27 r1 deliver sync-report r2
28 r1 tick 28000
  sends log-mod r0 at 29: view 1 vector 0,0,0 commit 1 start 1 keys
  sends log-mod r2 at 29: view 1 vector 0,0,0 commit 1 start 1 keys
28 r0 deliver log-mod r1
  sends sync-report r1 at 29: view 1 synced 1
28 r2 deliver log-mod r1
  sends sync-report r1 at 29: view 1 synced 1
28 r1 deliver sync-report r0
28 r1 deliver sync-report r2
29 r1 tick 29000
  sends log-mod r0 at 30: view 1 vector 0,0,0 commit 1 start 1 keys
  sends log-mod r2 at 30: view 1 vector 0,0,0 commit 1 start 1 keys
29 r0 deliver log-mod r1
  sends sync-report r1 at 30: view 1 synced 1
29 r2 deliver log-mod r1
  sends sync-report r1 at 30: view 1 synced 1
29 r1 deliver sync-report r0
29 r1 deliver sync-report r2
30 r1 tick 30000
  sends log-mod r0 at 31: view 1 vector 0,0,0 commit 1 start 1 keys
  sends log-mod r2 at 31: view 1 vector 0,0,0 commit 1 start 1 keys
30 c0 tick 30000
  send c0 2 get a
  sends request p0 at 31: num 2 command get a
30 r0 deliver log-mod r1
  sends sync-report r1 at 31: view 1 synced 1
30 r2 deliver log-mod r1
  sends sync-report r1 at 31: view 1 synced 1
30 r1 deliver sync-report r0
30 r1 deliver sync-report r2
31 r1 tick 31000
  sends log-mod r0 at 32: view 1 vector 0,0,0 commit 1 start 1 keys
  sends log-mod r2 at 32: view 1 vector 0,0,0 commit 1 start 1 keys
31 r0 deliver log-mod r1
  sends sync-report r1 at 32: view 1 synced 1
31 r2 deliver log-mod r1
  sends sync-report r1 at 32: view 1 synced 1
31 p0 deliver request c0
  sends timed r0 at 32: sent 31000 deadline 32500 id c0/2
  sends timed r1 at 32: sent 31000 deadline 32500 id c0/2
  sends timed r2 at 32: sent 31000 deadline 32500 id c0/2
31 r1 deliver sync-report r0
31 r1 deliver sync-report r2
32 r1 tick 32000
  sends log-mod r0 at 33: view 1 vector 0,0,0 commit 1 start 1 keys
  sends log-mod r2 at 33: view 1 vector 0,0,0 commit 1 start 1 keys
32 r0 deliver log-mod r1
  sends sync-report r1 at 33: view 1 synced 1
32 r2 deliver log-mod r1
  sends sync-report r1 at 33: view 1 synced 1
32 r1 deliver sync-report r0
32 r1 deliver sync-report r2
32 r0 deliver timed p0
  now normal view 1 vector 0,0,0 synced 1 commit 1 early +32500/c0/2
32 r1 deliver timed p0
  now normal view 1 vector 0,0,0 synced 1 commit 1 early +32500/c0/2
32 r2 deliver timed p0
  now normal view 1 vector 0,0,0 synced 1 commit 1 early +32500/c0/2
33 r0 tick 33000
  now normal view 1 vector 0,0,0 synced 1 commit 1 log +32500/c0/2
  sends fast-reply p0 at 34: view 1 id c0/2 digest cde7a72e5ee4745f40de9597f2384c283f9c51ed vector 0,0,0 delay 1000
33 r1 tick 33000
  now normal view 1 vector 0,0,0 synced 2 commit 1 log +32500/c0/2
  sends fast-reply p0 at 34: view 1 id c0/2 digest cde7a72e5ee4745f40de9597f2384c283f9c51ed vector 0,0,0 delay 1000 answer value 1
  sends log-mod r0 at 34: view 1 vector 0,0,0 commit 1 start 1 keys 32500/c0/2
  sends log-mod r2 at 34: view 1 vector 0,0,0 commit 1 start 1 keys 32500/c0/2
33 r2 tick 33000
  now normal view 1 vector 0,0,0 synced 1 commit 1 log +32500/c0/2
  sends fast-reply p0 at 34: view 1 id c0/2 digest cde7a72e5ee4745f40de9597f2384c283f9c51ed vector 0,0,0 delay 1000
33 r0 deliver log-mod r1
  sends sync-report r1 at 34: view 1 synced 1
33 r2 deliver log-mod r1
  sends sync-report r1 at 34: view 1 synced 1
33 r1 deliver sync-report r0
33 r1 deliver sync-report r2
34 r1 tick 34000
  sends log-mod r0 at 35: view 1 vector 0,0,0 commit 1 start 1 keys 32500/c0/2
  sends log-mod r2 at 35: view 1 vector 0,0,0 commit 1 start 1 keys 32500/c0/2
34 p0 deliver fast-reply r0
34 p0 deliver fast-reply r1
34 r0 deliver log-mod r1
  now normal view 1 vector 0,0,0 synced 2 commit 1
  sends slow-reply p0 at 35: view 1 id c0/2 delay 1000
  sends sync-report r1 at 35: view 1 synced 2
34 r2 deliver log-mod r1
  now normal view 1 vector 0,0,0 synced 2 commit 1
  sends slow-reply p0 at 35: view 1 id c0/2 delay 1000
  sends sync-report r1 at 35: view 1 synced 2
34 p0 deliver fast-reply r2
  sends answer c0 at 35: num 2 answer value 1 path fast
34 r1 deliver sync-report r0
34 r1 deliver sync-report r2
35 r1 tick 35000
  sends log-mod r0 at 36: view 1 vector 0,0,0 commit 1 start 1 keys 32500/c0/2
  sends log-mod r2 at 36: view 1 vector 0,0,0 commit 1 start 1 keys 32500/c0/2
35 r0 deliver log-mod r1
  sends sync-report r1 at 36: view 1 synced 2
35 r2 deliver log-mod r1
  sends sync-report r1 at 36: view 1 synced 2
35 p0 deliver slow-reply r0
35 r1 deliver sync-report r0
  now normal view 1 vector 0,0,0 synced 2 commit 2
35 p0 deliver slow-reply r2
35 r1 deliver sync-report r2
35 c0 deliver answer p0
  accept c0 2 value 1 fast
36 r1 tick 36000
  sends log-mod r0 at 37: view 1 vector 0,0,0 commit 2 start 2 keys
  sends log-mod r2 at 37: view 1 vector 0,0,0 commit 2 start 2 keys
36 r0 deliver log-mod r1
  sends sync-report r1 at 37: view 1 synced 2
36 r2 deliver log-mod r1
  sends sync-report r1 at 37: view 1 synced 2
36 r1 deliver sync-report r0
36 r1 deliver sync-report r2
37 r1 tick 37000
  sends log-mod r0 at 38: view 1 vector 0,0,0 commit 2 start 2 keys
  sends log-mod r2 at 38: view 1 vector 0,0,0 commit 2 start 2 keys
37 r0 deliver log-mod r1
  now normal view 1 vector 0,0,0 synced 2 commit 2
  sends sync-report r1 at 38: view 1 synced 2
37 r2 deliver log-mod r1
  now normal view 1 vector 0,0,0 synced 2 commit 2
  sends sync-report r1 at 38: view 1 synced 2
37 r1 deliver sync-report r0
37 r1 deliver sync-report r2
38 r1 tick 38000
  sends log-mod r0 at 39: view 1 vector 0,0,0 commit 2 start 2 keys
  sends log-mod r2 at 39: view 1 vector 0,0,0 commit 2 start 2 keys
38 r0 deliver log-mod r1
  sends sync-report r1 at 39: view 1 synced 2
38 r2 deliver log-mod r1
  sends sync-report r1 at 39: view 1 synced 2
38 r1 deliver sync-report r0
38 r1 deliver sync-report r2
39 r1 tick 39000
  sends log-mod r0 at 40: view 1 vector 0,0,0 commit 2 start 2 keys
  sends log-mod r2 at 40: view 1 vector 0,0,0 commit 2 start 2 keys
39 r0 deliver log-mod r1
  sends sync-report r1 at 40: view 1 synced 2
39 r2 deliver log-mod r1
  sends sync-report r1 at 40: view 1 synced 2
39 r1 deliver sync-report r0
39 r1 deliver sync-report r2
40 r1 tick 40000
  sends log-mod r0 at 41: view 1 vector 0,0,0 commit 2 start 2 keys
  sends log-mod r2 at 41: view 1 vector 0,0,0 commit 2 start 2 keys
40 r0 deliver log-mod r1
  sends sync-report r1 at 41: view 1 synced 2
40 r2 deliver log-mod r1
  sends sync-report r1 at 41: view 1 synced 2
40 r1 deliver sync-report r0
40 r1 deliver sync-report r2
41 r1 tick 41000
  sends log-mod r0 at 42: view 1 vector 0,0,0 commit 2 start 2 keys
  sends log-mod r2 at 42: view 1 vector 0,0,0 commit 2 start 2 keys
41 r0 deliver log-mod r1
  sends sync-report r1 at 42: view 1 synced 2
41 r2 deliver log-mod r1
  sends sync-report r1 at 42: view 1 synced 2
41 r1 deliver sync-report r0
41 r1 deliver sync-report r2
42 r1 tick 42000
  sends log-mod r0 at 43: view 1 vector 0,0,0 commit 2 start 2 keys
  sends log-mod r2 at 43: view 1 vector 0,0,0 commit 2 start 2 keys
42 r0 deliver log-mod r1
  sends sync-report r1 at 43: view 1 synced 2
42 r2 deliver log-mod r1
  sends sync-report r1 at 43: view 1 synced 2
42 r1 deliver sync-report r0
42 r1 deliver sync-report r2
43 r1 tick 43000
  sends log-mod r0 at 44: view 1 vector 0,0,0 commit 2 start 2 keys
  sends log-mod r2 at 44: view 1 vector 0,0,0 commit 2 start 2 keys
43 r0 deliver log-mod r1
  sends sync-report r1 at 44: view 1 synced 2
43 r2 deliver log-mod r1
  sends sync-report r1 at 44: view 1 synced 2
43 r1 deliver sync-report r0
43 r1 deliver sync-report r2
44 r1 tick 44000
  sends log-mod r0 at 45: view 1 vector 0,0,0 commit 2 start 2 keys
  sends log-mod r2 at 45: view 1 vector 0,0,0 commit 2 start 2 keys
44 r0 deliver log-mod r1
  sends sync-report r1 at 45: view 1 synced 2
44 r2 deliver log-mod r1
  sends sync-report r1 at 45: view 1 synced 2
44 r1 deliver sync-report r0
44 r1 deliver sync-report r2
45 r1 tick 45000
  sends log-mod r0 at 46: view 1 vector 0,0,0 commit 2 start 2 keys
  sends log-mod r2 at 46: view 1 vector 0,0,0 commit 2 start 2 keys
45 r0 deliver log-mod r1
  sends sync-report r1 at 46: view 1 synced 2
45 r2 deliver log-mod r1
  sends sync-report r1 at 46: view 1 synced 2
45 r1 deliver sync-report r0
45 r1 deliver sync-report r2
46 r1 tick 46000
  sends log-mod r0 at 47: view 1 vector 0,0,0 commit 2 start 2 keys
  sends log-mod r2 at 47: view 1 vector 0,0,0 commit 2 start 2 keys
46 r0 deliver log-mod r1
  sends sync-report r1 at 47: view 1 synced 2
46 r2 deliver log-mod r1
  sends sync-report r1 at 47: view 1 synced 2
46 r1 deliver sync-report r0
46 r1 deliver sync-report r2
47 r1 tick 47000
  sends log-mod r0 at 48: view 1 vector 0,0,0 commit 2 start 2 keys
  sends log-mod r2 at 48: view 1 vector 0,0,0 commit 2 start 2 keys
47 r0 deliver log-mod r1
  sends sync-report r1 at 48: view 1 synced 2
47 r2 deliver log-mod r1
  sends sync-report r1 at 48: view 1 synced 2
47 r1 deliver sync-report r0
47 r1 deliver sync-report r2
48 r1 tick 48000
  sends log-mod r0 at 49: view 1 vector 0,0,0 commit 2 start 2 keys
  sends log-mod r2 at 49: view 1 vector 0,0,0 commit 2 start 2 keys
48 r0 deliver log-mod r1
  sends sync-report r1 at 49: view 1 synced 2
48 r2 deliver log-mod r1
  sends sync-report r1 at 49: view 1 synced 2
48 r1 deliver sync-report r0
48 r1 deliver sync-report r2
49 r1 tick 49000
  sends log-mod r0 at 50: view 1 vector 0,0,0 commit 2 start 2 keys
  sends log-mod r2 at 50: view 1 vector 0,0,0 commit 2 start 2 keys
49 r0 deliver log-mod r1
  sends sync-report r1 at 50: view 1 synced 2
49 r2 deliver log-mod r1
  sends sync-report r1 at 50: view 1 synced 2
49 r1 deliver sync-report r0
49 r1 deliver sync-report r2
50 r1 tick 50000
  sends log-mod r0 at 51: view 1 vector 0,0,0 commit 2 start 2 keys
  sends log-mod r2 at 51: view 1 vector 0,0,0 commit 2 start 2 keys
50 r0 deliver log-mod r1
  sends sync-report r1 at 51: view 1 synced 2
50 r2 deliver log-mod r1
  sends sync-report r1 at 51: view 1 synced 2
50 r1 deliver sync-report r0
50 r1 deliver sync-report r2
51 r1 tick 51000
  sends log-mod r0 at 52: view 1 vector 0,0,0 commit 2 start 2 keys
  sends log-mod r2 at 52: view 1 vector 0,0,0 commit 2 start 2 keys
51 r0 deliver log-mod r1
  sends sync-report r1 at 52: view 1 synced 2
51 r2 deliver log-mod r1
  sends sync-report r1 at 52: view 1 synced 2
51 r1 deliver sync-report r0
51 r1 deliver sync-report r2
52 r1 tick 52000
  sends log-mod r0 at 53: view 1 vector 0,0,0 commit 2 start 2 keys
  sends log-mod r2 at 53: view 1 vector 0,0,0 commit 2 start 2 keys
52 r0 deliver log-mod r1
  sends sync-report r1 at 53: view 1 synced 2
52 r2 deliver log-mod r1
  sends sync-report r1 at 53: view 1 synced 2
52 r1 deliver sync-report r0
52 r1 deliver sync-report r2
53 r1 tick 53000
  sends log-mod r0 at 54: view 1 vector 0,0,0 commit 2 start 2 keys
  sends log-mod r2 at 54: view 1 vector 0,0,0 commit 2 start 2 keys
53 r0 deliver log-mod r1
  sends sync-report r1 at 54: view 1 synced 2
53 r2 deliver log-mod r1
  sends sync-report r1 at 54: view 1 synced 2
53 r1 deliver sync-report r0
53 r1 deliver sync-report r2
54 r1 tick 54000
  sends log-mod r0 at 55: view 1 vector 0,0,0 commit 2 start 2 keys
  sends log-mod r2 at 55: view 1 vector 0,0,0 commit 2 start 2 keys
54 r0 deliver log-mod r1
  sends sync-report r1 at 55: view 1 synced 2
54 r2 deliver log-mod r1
  sends sync-report r1 at 55: view 1 synced 2
54 r1 deliver sync-report r0
54 r1 deliver sync-report r2
55 r1 tick 55000
  sends log-mod r0 at 56: view 1 vector 0,0,0 commit 2 start 2 keys
  sends log-mod r2 at 56: view 1 vector 0,0,0 commit 2 start 2 keys
55 r0 deliver log-mod r1
  sends sync-report r1 at 56: view 1 synced 2
55 r2 deliver log-mod r1
  sends sync-report r1 at 56: view 1 synced 2
55 r1 deliver sync-report r0
55 r1 deliver sync-report r2
56 r1 tick 56000
  sends log-mod r0 at 57: view 1 vector 0,0,0 commit 2 start 2 keys
  sends log-mod r2 at 57: view 1 vector 0,0,0 commit 2 start 2 keys
56 r0 deliver log-mod r1
  sends sync-report r1 at 57: view 1 synced 2
56 r2 deliver log-mod r1
  sends sync-report r1 at 57: view 1 synced 2
56 r1 deliver sync-report r0
56 r1 deliver sync-report r2
57 r1 tick 57000
  sends log-mod r0 at 58: view 1 vector 0,0,0 commit 2 start 2 keys
  sends log-mod r2 at 58: view 1 vector 0,0,0 commit 2 start 2 keys
57 r0 deliver log-mod r1
  sends sync-report r1 at 58: view 1 synced 2
57 r2 deliver log-mod r1
  sends sync-report r1 at 58: view 1 synced 2
57 r1 deliver sync-report r0
57 r1 deliver sync-report r2
58 r1 tick 58000
  sends log-mod r0 at 59: view 1 vector 0,0,0 commit 2 start 2 keys
  sends log-mod r2 at 59: view 1 vector 0,0,0 commit 2 start 2 keys
58 r0 deliver log-mod r1
  sends sync-report r1 at 59: view 1 synced 2
58 r2 deliver log-mod r1
  sends sync-report r1 at 59: view 1 synced 2
58 r1 deliver sync-report r0
58 r1 deliver sync-report r2
59 r1 tick 59000
  sends log-mod r0 at 60: view 1 vector 0,0,0 commit 2 start 2 keys
  sends log-mod r2 at 60: view 1 vector 0,0,0 commit 2 start 2 keys
59 r0 deliver log-mod r1
  sends sync-report r1 at 60: view 1 synced 2
59 r2 deliver log-mod r1
  sends sync-report r1 at 60: view 1 synced 2
59 r1 deliver sync-report r0
59 r1 deliver sync-report r2
60 r1 tick 60000
  sends log-mod r0 at 61: view 1 vector 0,0,0 commit 2 start 2 keys
  sends log-mod r2 at 61: view 1 vector 0,0,0 commit 2 start 2 keys
60 r0 deliver log-mod r1
  sends sync-report r1 at 61: view 1 synced 2
60 r2 deliver log-mod r1
  sends sync-report r1 at 61: view 1 synced 2
60 r1 deliver sync-report r0
60 r1 deliver sync-report r2
text
send c0 1 put a 1
accept c0 1 done fast
send c0 2 get a
accept c0 2 value 1 fast
at 1 c0 1 put a 1 gives done
at 2 c0 2 get a gives value 1
end
