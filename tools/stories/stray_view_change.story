1 r0 tick 1000
  sends log-mod r1 at 2: view 0 vector 0,0,0,0,0 commit 0 start 0 keys
  sends log-mod r2 at 2: view 0 vector 0,0,0,0,0 commit 0 start 0 keys
  sends log-mod r3 at 2: view 0 vector 0,0,0,0,0 commit 0 start 0 keys
  sends log-mod r4 at 2: view 0 vector 0,0,0,0,0 commit 0 start 0 keys
1 c0 tick 1000
  send c0 1 put a 1
  sends request p0 at 2: num 1 command put a 1
2 r0 tick 2000
  sends log-mod r1 at 3: view 0 vector 0,0,0,0,0 commit 0 start 0 keys
  sends log-mod r2 at 3: view 0 vector 0,0,0,0,0 commit 0 start 0 keys
  sends log-mod r3 at 3: view 0 vector 0,0,0,0,0 commit 0 start 0 keys
  sends log-mod r4 at 3: view 0 vector 0,0,0,0,0 commit 0 start 0 keys
2 r1 deliver log-mod r0
  sends sync-report r0 at 3: view 0 synced 0
2 r2 deliver log-mod r0
  sends sync-report r0 at 3: view 0 synced 0
2 r3 deliver log-mod r0
  sends sync-report r0 at 3: view 0 synced 0
2 r4 deliver log-mod r0
  sends sync-report r0 at 3: view 0 synced 0
2 p0 deliver request c0
  sends timed r0 at 3: sent 2000 deadline 12500 id c0/1
  sends timed r1 at 3: sent 2000 deadline 12500 id c0/1
  sends timed r2 at 3: sent 2000 deadline 12500 id c0/1
  sends timed r3 at 3: sent 2000 deadline 12500 id c0/1
  sends timed r4 at 3: sent 2000 deadline 12500 id c0/1
3 r0 tick 3000
  sends log-mod r1 at 4: view 0 vector 0,0,0,0,0 commit 0 start 0 keys
  sends log-mod r2 at 4: view 0 vector 0,0,0,0,0 commit 0 start 0 keys
  sends log-mod r3 at 4: view 0 vector 0,0,0,0,0 commit 0 start 0 keys
  sends log-mod r4 at 4: view 0 vector 0,0,0,0,0 commit 0 start 0 keys
3 r1 deliver log-mod r0
  sends sync-report r0 at 4: view 0 synced 0
3 r2 deliver log-mod r0
  sends sync-report r0 at 4: view 0 synced 0
3 r3 deliver log-mod r0
  sends sync-report r0 at 4: view 0 synced 0
3 r4 deliver log-mod r0
  sends sync-report r0 at 4: view 0 synced 0
3 r0 deliver sync-report r1
3 r0 deliver sync-report r2
3 r0 deliver sync-report r3
3 r0 deliver sync-report r4
3 r0 deliver timed p0
  now normal view 0 vector 0,0,0,0,0 synced 0 commit 0 early +12500/c0/1
3 r1 deliver timed p0
  now normal view 0 vector 0,0,0,0,0 synced 0 commit 0 early +12500/c0/1
3 r2 deliver timed p0
  now normal view 0 vector 0,0,0,0,0 synced 0 commit 0 early +12500/c0/1
3 r3 deliver timed p0
  now normal view 0 vector 0,0,0,0,0 synced 0 commit 0 early +12500/c0/1
3 r4 deliver timed p0
  now normal view 0 vector 0,0,0,0,0 synced 0 commit 0 early +12500/c0/1
4 r0 tick 4000
  sends log-mod r1 at 5: view 0 vector 0,0,0,0,0 commit 0 start 0 keys
  sends log-mod r2 at 5: view 0 vector 0,0,0,0,0 commit 0 start 0 keys
  sends log-mod r3 at 5: view 0 vector 0,0,0,0,0 commit 0 start 0 keys
  sends log-mod r4 at 5: view 0 vector 0,0,0,0,0 commit 0 start 0 keys
4 r1 deliver log-mod r0
  sends sync-report r0 at 5: view 0 synced 0
4 r2 deliver log-mod r0
  sends sync-report r0 at 5: view 0 synced 0
4 r3 deliver log-mod r0
  sends sync-report r0 at 5: view 0 synced 0
4 r4 deliver log-mod r0
  sends sync-report r0 at 5: view 0 synced 0
4 r0 deliver sync-report r1
4 r0 deliver sync-report r2
4 r0 deliver sync-report r3
4 r0 deliver sync-report r4
5 r0 tick 5000
  sends log-mod r1 at 6: view 0 vector 0,0,0,0,0 commit 0 start 0 keys
  sends log-mod r2 at 6: view 0 vector 0,0,0,0,0 commit 0 start 0 keys
  sends log-mod r3 at 6: view 0 vector 0,0,0,0,0 commit 0 start 0 keys
  sends log-mod r4 at 6: view 0 vector 0,0,0,0,0 commit 0 start 0 keys
5 r1 deliver log-mod r0
  sends sync-report r0 at 6: view 0 synced 0
5 r2 deliver log-mod r0
  sends sync-report r0 at 6: view 0 synced 0
5 r3 deliver log-mod r0
  sends sync-report r0 at 6: view 0 synced 0
5 r4 deliver log-mod r0
  sends sync-report r0 at 6: view 0 synced 0
5 r0 deliver sync-report r1
5 r0 deliver sync-report r2
5 r0 deliver sync-report r3
5 r0 deliver sync-report r4
6 r0 tick 6000
  sends log-mod r1 at 7: view 0 vector 0,0,0,0,0 commit 0 start 0 keys
  sends log-mod r2 at 7: view 0 vector 0,0,0,0,0 commit 0 start 0 keys
  sends log-mod r3 at 7: view 0 vector 0,0,0,0,0 commit 0 start 0 keys
  sends log-mod r4 at 7: view 0 vector 0,0,0,0,0 commit 0 start 0 keys
6 r1 deliver log-mod r0
  sends sync-report r0 at 7: view 0 synced 0
6 r2 deliver log-mod r0
  sends sync-report r0 at 7: view 0 synced 0
6 r3 deliver log-mod r0
  sends sync-report r0 at 7: view 0 synced 0
6 r4 deliver log-mod r0
  sends sync-report r0 at 7: view 0 synced 0
6 r0 deliver sync-report r1
6 r0 deliver sync-report r2
6 r0 deliver sync-report r3
6 r0 deliver sync-report r4
7 r0 tick 7000
  sends log-mod r1 at 8: view 0 vector 0,0,0,0,0 commit 0 start 0 keys
  sends log-mod r2 at 8: view 0 vector 0,0,0,0,0 commit 0 start 0 keys
  sends log-mod r3 at 8: view 0 vector 0,0,0,0,0 commit 0 start 0 keys
  sends log-mod r4 at 8: view 0 vector 0,0,0,0,0 commit 0 start 0 keys
7 r1 deliver log-mod r0
  sends sync-report r0 at 8: view 0 synced 0
7 r2 deliver log-mod r0
  sends sync-report r0 at 8: view 0 synced 0
7 r3 deliver log-mod r0
  sends sync-report r0 at 8: view 0 synced 0
7 r4 deliver log-mod r0
  sends sync-report r0 at 8: view 0 synced 0
7 r0 deliver sync-report r1
7 r0 deliver sync-report r2
7 r0 deliver sync-report r3
7 r0 deliver sync-report r4
8 r0 tick 8000
  sends log-mod r1 at 9: view 0 vector 0,0,0,0,0 commit 0 start 0 keys
  sends log-mod r2 at 9: view 0 vector 0,0,0,0,0 commit 0 start 0 keys
  sends log-mod r3 at 9: view 0 vector 0,0,0,0,0 commit 0 start 0 keys
  sends log-mod r4 at 9: view 0 vector 0,0,0,0,0 commit 0 start 0 keys
8 r1 deliver log-mod r0
  sends sync-report r0 at 9: view 0 synced 0
8 r2 deliver log-mod r0
  sends sync-report r0 at 9: view 0 synced 0
8 r3 deliver log-mod r0
  sends sync-report r0 at 9: view 0 synced 0
8 r4 deliver log-mod r0
  sends sync-report r0 at 9: view 0 synced 0
8 r0 deliver sync-report r1
8 r0 deliver sync-report r2
8 r0 deliver sync-report r3
8 r0 deliver sync-report r4
9 r0 tick 9000
  sends log-mod r1 at 10: view 0 vector 0,0,0,0,0 commit 0 start 0 keys
  sends log-mod r2 at 10: view 0 vector 0,0,0,0,0 commit 0 start 0 keys
  sends log-mod r3 at 10: view 0 vector 0,0,0,0,0 commit 0 start 0 keys
  sends log-mod r4 at 10: view 0 vector 0,0,0,0,0 commit 0 start 0 keys
9 r1 deliver log-mod r0
  sends sync-report r0 at 10: view 0 synced 0
9 r2 deliver log-mod r0
  sends sync-report r0 at 10: view 0 synced 0
9 r3 deliver log-mod r0
  sends sync-report r0 at 10: view 0 synced 0
9 r4 deliver log-mod r0
  sends sync-report r0 at 10: view 0 synced 0
9 r0 deliver sync-report r1
9 r0 deliver sync-report r2
9 r0 deliver sync-report r3
9 r0 deliver sync-report r4
10 r0 tick 10000
  sends log-mod r1 at 11: view 0 vector 0,0,0,0,0 commit 0 start 0 keys
  sends log-mod r2 at 11: view 0 vector 0,0,0,0,0 commit 0 start 0 keys
  sends log-mod r3 at 11: view 0 vector 0,0,0,0,0 commit 0 start 0 keys
  sends log-mod r4 at 11: view 0 vector 0,0,0,0,0 commit 0 start 0 keys
10 r1 deliver log-mod r0
  sends sync-report r0 at 11: view 0 synced 0
10 r2 deliver log-mod r0
  sends sync-report r0 at 11: view 0 synced 0
10 r3 deliver log-mod r0
  sends sync-report r0 at 11: view 0 synced 0
10 r4 deliver log-mod r0
  sends sync-report r0 at 11: view 0 synced 0
10 r0 deliver sync-report r1
10 r0 deliver sync-report r2
10 r0 deliver sync-report r3
10 r0 deliver sync-report r4
11 r0 tick 11000
  sends log-mod r1 at 12: view 0 vector 0,0,0,0,0 commit 0 start 0 keys
  sends log-mod r2 at 12: view 0 vector 0,0,0,0,0 commit 0 start 0 keys
  sends log-mod r3 at 12: view 0 vector 0,0,0,0,0 commit 0 start 0 keys
  sends log-mod r4 at 12: view 0 vector 0,0,0,0,0 commit 0 start 0 keys
11 r1 deliver log-mod r0
  sends sync-report r0 at 12: view 0 synced 0
11 r2 deliver log-mod r0
  sends sync-report r0 at 12: view 0 synced 0
11 r3 deliver log-mod r0
  sends sync-report r0 at 12: view 0 synced 0
11 r4 deliver log-mod r0
  sends sync-report r0 at 12: view 0 synced 0
11 r0 deliver sync-report r1
11 r0 deliver sync-report r2
11 r0 deliver sync-report r3
11 r0 deliver sync-report r4
12 r0 tick 12000
  sends log-mod r1 at 13: view 0 vector 0,0,0,0,0 commit 0 start 0 keys
  sends log-mod r2 at 13: view 0 vector 0,0,0,0,0 commit 0 start 0 keys
  sends log-mod r3 at 13: view 0 vector 0,0,0,0,0 commit 0 start 0 keys
  sends log-mod r4 at 13: view 0 vector 0,0,0,0,0 commit 0 start 0 keys
12 r1 deliver log-mod r0
  sends sync-report r0 at 13: view 0 synced 0
12 r2 deliver log-mod r0
  sends sync-report r0 at 13: view 0 synced 0
12 r3 deliver log-mod r0
  sends sync-report r0 at 13: view 0 synced 0
12 r4 deliver log-mod r0
  sends sync-report r0 at 13: view 0 synced 0
12 r0 deliver sync-report r1
12 r0 deliver sync-report r2
12 r0 deliver sync-report r3
12 r0 deliver sync-report r4
13 r0 tick 13000
  now normal view 0 vector 0,0,0,0,0 synced 1 commit 0 log +12500/c0/1
  sends fast-reply p0 at 14: view 0 id c0/1 digest 67a78bbee5eb7bbd613220a92e03218955332dee vector 0,0,0,0,0 delay 1000 answer done
  sends log-mod r1 at 14: view 0 vector 0,0,0,0,0 commit 0 start 0 keys 12500/c0/1
  sends log-mod r2 at 14: view 0 vector 0,0,0,0,0 commit 0 start 0 keys 12500/c0/1
  sends log-mod r3 at 14: view 0 vector 0,0,0,0,0 commit 0 start 0 keys 12500/c0/1
  sends log-mod r4 at 14: view 0 vector 0,0,0,0,0 commit 0 start 0 keys 12500/c0/1
13 r1 tick 13000
  now normal view 0 vector 0,0,0,0,0 synced 0 commit 0 log +12500/c0/1
  sends fast-reply p0 at 14: view 0 id c0/1 digest 67a78bbee5eb7bbd613220a92e03218955332dee vector 0,0,0,0,0 delay 1000
13 r2 tick 13000
  now normal view 0 vector 0,0,0,0,0 synced 0 commit 0 log +12500/c0/1
  sends fast-reply p0 at 14: view 0 id c0/1 digest 67a78bbee5eb7bbd613220a92e03218955332dee vector 0,0,0,0,0 delay 1000
13 r3 tick 13000
  now normal view 0 vector 0,0,0,0,0 synced 0 commit 0 log +12500/c0/1
  sends fast-reply p0 at 14: view 0 id c0/1 digest 67a78bbee5eb7bbd613220a92e03218955332dee vector 0,0,0,0,0 delay 1000
13 r4 tick 13000
  now normal view 0 vector 0,0,0,0,0 synced 0 commit 0 log +12500/c0/1
  sends fast-reply p0 at 14: view 0 id c0/1 digest 67a78bbee5eb7bbd613220a92e03218955332dee vector 0,0,0,0,0 delay 1000
13 r1 deliver log-mod r0
  sends sync-report r0 at 14: view 0 synced 0
13 r2 deliver log-mod r0
  sends sync-report r0 at 14: view 0 synced 0
13 r3 deliver log-mod r0
  sends sync-report r0 at 14: view 0 synced 0
13 r4 deliver log-mod r0
  sends sync-report r0 at 14: view 0 synced 0
13 r0 deliver sync-report r1
13 r0 deliver sync-report r2
13 r0 deliver sync-report r3
13 r0 deliver sync-report r4
14 r0 tick 14000
  sends log-mod r1 at 15: view 0 vector 0,0,0,0,0 commit 0 start 0 keys 12500/c0/1
  sends log-mod r2 at 15: view 0 vector 0,0,0,0,0 commit 0 start 0 keys 12500/c0/1
  sends log-mod r3 at 15: view 0 vector 0,0,0,0,0 commit 0 start 0 keys 12500/c0/1
  sends log-mod r4 at 15: view 0 vector 0,0,0,0,0 commit 0 start 0 keys 12500/c0/1
14 p0 deliver fast-reply r0
14 r1 deliver log-mod r0
  now normal view 0 vector 0,0,0,0,0 synced 1 commit 0
  sends slow-reply p0 at 15: view 0 id c0/1 delay 1000
  sends sync-report r0 at 15: view 0 synced 1
14 r2 deliver log-mod r0
  now normal view 0 vector 0,0,0,0,0 synced 1 commit 0
  sends slow-reply p0 at 15: view 0 id c0/1 delay 1000
  sends sync-report r0 at 15: view 0 synced 1
14 r3 deliver log-mod r0
  now normal view 0 vector 0,0,0,0,0 synced 1 commit 0
  sends slow-reply p0 at 15: view 0 id c0/1 delay 1000
  sends sync-report r0 at 15: view 0 synced 1
14 r4 deliver log-mod r0
  now normal view 0 vector 0,0,0,0,0 synced 1 commit 0
  sends slow-reply p0 at 15: view 0 id c0/1 delay 1000
  sends sync-report r0 at 15: view 0 synced 1
14 p0 deliver fast-reply r1
14 p0 deliver fast-reply r2
14 p0 deliver fast-reply r3
  sends answer c0 at 15: num 1 answer done path fast
14 p0 deliver fast-reply r4
14 r0 deliver sync-report r1
14 r0 deliver sync-report r2
14 r0 deliver sync-report r3
14 r0 deliver sync-report r4
15 r0 tick 15000
  sends log-mod r1 at 16: view 0 vector 0,0,0,0,0 commit 0 start 0 keys 12500/c0/1
  sends log-mod r2 at 16: view 0 vector 0,0,0,0,0 commit 0 start 0 keys 12500/c0/1
  sends log-mod r3 at 16: view 0 vector 0,0,0,0,0 commit 0 start 0 keys 12500/c0/1
  sends log-mod r4 at 16: view 0 vector 0,0,0,0,0 commit 0 start 0 keys 12500/c0/1
15 r1 deliver log-mod r0
  sends sync-report r0 at 16: view 0 synced 1
15 r2 deliver log-mod r0
  sends sync-report r0 at 16: view 0 synced 1
15 r3 deliver log-mod r0
  sends sync-report r0 at 16: view 0 synced 1
15 r4 deliver log-mod r0
  sends sync-report r0 at 16: view 0 synced 1
15 p0 deliver slow-reply r1
15 r0 deliver sync-report r1
15 p0 deliver slow-reply r2
15 r0 deliver sync-report r2
  now normal view 0 vector 0,0,0,0,0 synced 1 commit 1
15 p0 deliver slow-reply r3
15 r0 deliver sync-report r3
15 p0 deliver slow-reply r4
15 r0 deliver sync-report r4
15 c0 deliver answer p0
  accept c0 1 done fast
16 r0 tick 16000
  sends log-mod r1 at 17: view 0 vector 0,0,0,0,0 commit 1 start 1 keys
  sends log-mod r2 at 17: view 0 vector 0,0,0,0,0 commit 1 start 1 keys
  sends log-mod r3 at 17: view 0 vector 0,0,0,0,0 commit 1 start 1 keys
  sends log-mod r4 at 17: view 0 vector 0,0,0,0,0 commit 1 start 1 keys
16 r1 deliver log-mod r0
  sends sync-report r0 at 17: view 0 synced 1
16 r2 deliver log-mod r0
  sends sync-report r0 at 17: view 0 synced 1
16 r3 deliver log-mod r0
  sends sync-report r0 at 17: view 0 synced 1
16 r4 deliver log-mod r0
  sends sync-report r0 at 17: view 0 synced 1
16 r0 deliver sync-report r1
16 r0 deliver sync-report r2
16 r0 deliver sync-report r3
16 r0 deliver sync-report r4
17 r0 tick 17000
  sends log-mod r1 at 18: view 0 vector 0,0,0,0,0 commit 1 start 1 keys
  sends log-mod r2 at 18: view 0 vector 0,0,0,0,0 commit 1 start 1 keys
  sends log-mod r3 at 18: view 0 vector 0,0,0,0,0 commit 1 start 1 keys
  sends log-mod r4 at 18: view 0 vector 0,0,0,0,0 commit 1 start 1 keys
17 r1 deliver log-mod r0
  now normal view 0 vector 0,0,0,0,0 synced 1 commit 1
  sends sync-report r0 at 18: view 0 synced 1
17 r2 deliver log-mod r0
  now normal view 0 vector 0,0,0,0,0 synced 1 commit 1
  sends sync-report r0 at 18: view 0 synced 1
17 r3 deliver log-mod r0
  now normal view 0 vector 0,0,0,0,0 synced 1 commit 1
  sends sync-report r0 at 18: view 0 synced 1
17 r4 deliver log-mod r0
  now normal view 0 vector 0,0,0,0,0 synced 1 commit 1
  sends sync-report r0 at 18: view 0 synced 1
17 r0 deliver sync-report r1
17 r0 deliver sync-report r2
17 r0 deliver sync-report r3
17 r0 deliver sync-report r4
18 r0 tick 18000
  sends log-mod r1 at 19: view 0 vector 0,0,0,0,0 commit 1 start 1 keys
  sends log-mod r2 at 19: view 0 vector 0,0,0,0,0 commit 1 start 1 keys
  sends log-mod r3 at 19: view 0 vector 0,0,0,0,0 commit 1 start 1 keys
  sends log-mod r4 at 19: view 0 vector 0,0,0,0,0 commit 1 start 1 keys
18 r1 deliver log-mod r0
  sends sync-report r0 at 19: view 0 synced 1
18 r2 deliver log-mod r0
  sends sync-report r0 at 19: view 0 synced 1
18 r3 deliver log-mod r0
  sends sync-report r0 at 19: view 0 synced 1
18 r4 deliver log-mod r0
  sends sync-report r0 at 19: view 0 synced 1
18 r0 deliver sync-report r1
18 r0 deliver sync-report r2
18 r0 deliver sync-report r3
18 r0 deliver sync-report r4
19 r0 tick 19000
  sends log-mod r1 at 20: view 0 vector 0,0,0,0,0 commit 1 start 1 keys
  sends log-mod r2 at 20: view 0 vector 0,0,0,0,0 commit 1 start 1 keys
  sends log-mod r3 at 20: view 0 vector 0,0,0,0,0 commit 1 start 1 keys
  sends log-mod r4 at 20: view 0 vector 0,0,0,0,0 commit 1 start 1 keys
19 r1 deliver log-mod r0
  sends sync-report r0 at 20: view 0 synced 1
19 r2 deliver log-mod r0
  sends sync-report r0 at 20: view 0 synced 1
19 r3 deliver log-mod r0
  sends sync-report r0 at 20: view 0 synced 1
19 r4 deliver log-mod r0
  sends sync-report r0 at 20: view 0 synced 1
19 r0 deliver sync-report r1
19 r0 deliver sync-report r2
19 r0 deliver sync-report r3
19 r0 deliver sync-report r4
20 r3 alarm
  now view-change collected 0 view 1 vector 0,0,0,0,0 synced 1 commit 1
  sends view-ask r0 lost: view 1
  sends view-ask r1 lost: view 1
  sends view-ask r2 lost: view 1
  sends view-ask r4 lost: view 1
  sends view-change r1 at 61: view 1 last 0 vector 0,0,0,0,0 synced 1 commit 1 entries 1
20 r0 tick 20000
  sends log-mod r1 at 21: view 0 vector 0,0,0,0,0 commit 1 start 1 keys
  sends log-mod r2 at 21: view 0 vector 0,0,0,0,0 commit 1 start 1 keys
  sends log-mod r3 at 21: view 0 vector 0,0,0,0,0 commit 1 start 1 keys
  sends log-mod r4 at 21: view 0 vector 0,0,0,0,0 commit 1 start 1 keys
20 r1 deliver log-mod r0
  sends sync-report r0 at 21: view 0 synced 1
20 r2 deliver log-mod r0
  sends sync-report r0 at 21: view 0 synced 1
20 r3 deliver log-mod r0
20 r4 deliver log-mod r0
  sends sync-report r0 at 21: view 0 synced 1
20 r0 deliver sync-report r1
20 r0 deliver sync-report r2
20 r0 deliver sync-report r3
20 r0 deliver sync-report r4
21 r0 tick 21000
  sends log-mod r1 at 22: view 0 vector 0,0,0,0,0 commit 1 start 1 keys
  sends log-mod r2 at 22: view 0 vector 0,0,0,0,0 commit 1 start 1 keys
  sends log-mod r3 at 22: view 0 vector 0,0,0,0,0 commit 1 start 1 keys
  sends log-mod r4 at 22: view 0 vector 0,0,0,0,0 commit 1 start 1 keys
21 r1 deliver log-mod r0
  sends sync-report r0 at 22: view 0 synced 1
21 r2 deliver log-mod r0
  sends sync-report r0 at 22: view 0 synced 1
21 r3 deliver log-mod r0
21 r4 deliver log-mod r0
  sends sync-report r0 at 22: view 0 synced 1
21 r0 deliver sync-report r1
21 r0 deliver sync-report r2
21 r0 deliver sync-report r4
22 r0 tick 22000
  sends log-mod r1 at 23: view 0 vector 0,0,0,0,0 commit 1 start 1 keys
  sends log-mod r2 at 23: view 0 vector 0,0,0,0,0 commit 1 start 1 keys
  sends log-mod r3 at 23: view 0 vector 0,0,0,0,0 commit 1 start 1 keys
  sends log-mod r4 at 23: view 0 vector 0,0,0,0,0 commit 1 start 1 keys
22 r1 deliver log-mod r0
  sends sync-report r0 at 23: view 0 synced 1
22 r2 deliver log-mod r0
  sends sync-report r0 at 23: view 0 synced 1
22 r3 deliver log-mod r0
22 r4 deliver log-mod r0
  sends sync-report r0 at 23: view 0 synced 1
22 r0 deliver sync-report r1
22 r0 deliver sync-report r2
22 r0 deliver sync-report r4
23 r0 tick 23000
  sends log-mod r1 at 24: view 0 vector 0,0,0,0,0 commit 1 start 1 keys
  sends log-mod r2 at 24: view 0 vector 0,0,0,0,0 commit 1 start 1 keys
  sends log-mod r3 at 24: view 0 vector 0,0,0,0,0 commit 1 start 1 keys
  sends log-mod r4 at 24: view 0 vector 0,0,0,0,0 commit 1 start 1 keys
23 r1 deliver log-mod r0
  sends sync-report r0 at 24: view 0 synced 1
23 r2 deliver log-mod r0
  sends sync-report r0 at 24: view 0 synced 1
23 r3 deliver log-mod r0
23 r4 deliver log-mod r0
  sends sync-report r0 at 24: view 0 synced 1
23 r0 deliver sync-report r1
23 r0 deliver sync-report r2
23 r0 deliver sync-report r4
24 r3 crash
  now down
24 r0 tick 24000
  sends log-mod r1 at 25: view 0 vector 0,0,0,0,0 commit 1 start 1 keys
  sends log-mod r2 at 25: view 0 vector 0,0,0,0,0 commit 1 start 1 keys
  sends log-mod r3 at 25: view 0 vector 0,0,0,0,0 commit 1 start 1 keys
  sends log-mod r4 at 25: view 0 vector 0,0,0,0,0 commit 1 start 1 keys
24 r1 deliver log-mod r0
  sends sync-report r0 at 25: view 0 synced 1
24 r2 deliver log-mod r0
  sends sync-report r0 at 25: view 0 synced 1
24 r3 deliver log-mod r0
24 r4 deliver log-mod r0
  sends sync-report r0 at 25: view 0 synced 1
24 r0 deliver sync-report r1
24 r0 deliver sync-report r2
24 r0 deliver sync-report r4
25 r3 restart 1
  now rejoining vectors collected 0 view 0 vector 0,0,0,0,0 synced 0 commit 0
  sends vector-ask r0 at 26: nonce 1
  sends vector-ask r1 at 26: nonce 1
  sends vector-ask r2 at 26: nonce 1
  sends vector-ask r4 at 26: nonce 1
25 r0 tick 25000
  sends log-mod r1 at 26: view 0 vector 0,0,0,0,0 commit 1 start 1 keys
  sends log-mod r2 at 26: view 0 vector 0,0,0,0,0 commit 1 start 1 keys
  sends log-mod r3 at 26: view 0 vector 0,0,0,0,0 commit 1 start 1 keys
  sends log-mod r4 at 26: view 0 vector 0,0,0,0,0 commit 1 start 1 keys
25 r1 deliver log-mod r0
  sends sync-report r0 at 26: view 0 synced 1
25 r2 deliver log-mod r0
  sends sync-report r0 at 26: view 0 synced 1
25 r3 deliver log-mod r0
25 r4 deliver log-mod r0
  sends sync-report r0 at 26: view 0 synced 1
25 r0 deliver sync-report r1
25 r0 deliver sync-report r2
25 r0 deliver sync-report r4
26 r0 tick 26000
  sends log-mod r1 at 27: view 0 vector 0,0,0,0,0 commit 1 start 1 keys
  sends log-mod r2 at 27: view 0 vector 0,0,0,0,0 commit 1 start 1 keys
  sends log-mod r3 at 27: view 0 vector 0,0,0,0,0 commit 1 start 1 keys
  sends log-mod r4 at 27: view 0 vector 0,0,0,0,0 commit 1 start 1 keys
26 r0 deliver vector-ask r3
  sends vector-tell r3 at 27: nonce 1 vector 0,0,0,0,0
26 r1 deliver vector-ask r3
  sends vector-tell r3 at 27: nonce 1 vector 0,0,0,0,0
26 r2 deliver vector-ask r3
  sends vector-tell r3 at 27: nonce 1 vector 0,0,0,0,0
26 r4 deliver vector-ask r3
  sends vector-tell r3 at 27: nonce 1 vector 0,0,0,0,0
26 r1 deliver log-mod r0
  sends sync-report r0 at 27: view 0 synced 1
26 r2 deliver log-mod r0
  sends sync-report r0 at 27: view 0 synced 1
26 r3 deliver log-mod r0
26 r4 deliver log-mod r0
  sends sync-report r0 at 27: view 0 synced 1
26 r0 deliver sync-report r1
26 r0 deliver sync-report r2
26 r0 deliver sync-report r4
27 r0 tick 27000
  sends log-mod r1 at 28: view 0 vector 0,0,0,0,0 commit 1 start 1 keys
  sends log-mod r2 at 28: view 0 vector 0,0,0,0,0 commit 1 start 1 keys
  sends log-mod r3 at 28: view 0 vector 0,0,0,0,0 commit 1 start 1 keys
  sends log-mod r4 at 28: view 0 vector 0,0,0,0,0 commit 1 start 1 keys
27 r1 deliver log-mod r0
  sends sync-report r0 at 28: view 0 synced 1
27 r2 deliver log-mod r0
  sends sync-report r0 at 28: view 0 synced 1
27 r3 deliver log-mod r0
27 r4 deliver log-mod r0
  sends sync-report r0 at 28: view 0 synced 1
27 r3 deliver vector-tell r0
  now rejoining vectors collected 1 view 0 vector 0,0,0,0,0 synced 0 commit 0
27 r3 deliver vector-tell r1
  now rejoining vectors collected 2 view 0 vector 0,0,0,0,0 synced 0 commit 0
27 r3 deliver vector-tell r2
  now rejoining views collected 0 view 0 vector 0,0,0,1,0 synced 0 commit 0
  sends rejoin-ask r0 at 28: nonce 1 vector 0,0,0,1,0
  sends rejoin-ask r1 at 28: nonce 1 vector 0,0,0,1,0
  sends rejoin-ask r2 at 28: nonce 1 vector 0,0,0,1,0
  sends rejoin-ask r4 at 28: nonce 1 vector 0,0,0,1,0
27 r3 deliver vector-tell r4
27 r0 deliver sync-report r1
27 r0 deliver sync-report r2
27 r0 deliver sync-report r4
28 r0 tick 28000
  sends log-mod r1 at 29: view 0 vector 0,0,0,0,0 commit 1 start 1 keys
  sends log-mod r2 at 29: view 0 vector 0,0,0,0,0 commit 1 start 1 keys
  sends log-mod r3 at 29: view 0 vector 0,0,0,0,0 commit 1 start 1 keys
  sends log-mod r4 at 29: view 0 vector 0,0,0,0,0 commit 1 start 1 keys
28 r1 deliver log-mod r0
  sends sync-report r0 at 29: view 0 synced 1
28 r2 deliver log-mod r0
  sends sync-report r0 at 29: view 0 synced 1
28 r3 deliver log-mod r0
28 r4 deliver log-mod r0
  sends sync-report r0 at 29: view 0 synced 1
28 r0 deliver sync-report r1
28 r0 deliver sync-report r2
28 r0 deliver sync-report r4
28 r0 deliver rejoin-ask r3
  now normal view 0 vector 0,0,0,1,0 synced 1 commit 1
  sends rejoin-tell r3 at 29: nonce 1 view 0 vector 0,0,0,1,0
28 r1 deliver rejoin-ask r3
  now normal view 0 vector 0,0,0,1,0 synced 1 commit 1
  sends rejoin-tell r3 at 29: nonce 1 view 0 vector 0,0,0,1,0
28 r2 deliver rejoin-ask r3
  now normal view 0 vector 0,0,0,1,0 synced 1 commit 1
  sends rejoin-tell r3 at 29: nonce 1 view 0 vector 0,0,0,1,0
28 r4 deliver rejoin-ask r3
  now normal view 0 vector 0,0,0,1,0 synced 1 commit 1
  sends rejoin-tell r3 at 29: nonce 1 view 0 vector 0,0,0,1,0
29 r0 tick 29000
  sends log-mod r1 at 30: view 0 vector 0,0,0,1,0 commit 1 start 1 keys
  sends log-mod r2 at 30: view 0 vector 0,0,0,1,0 commit 1 start 1 keys
  sends log-mod r3 at 30: view 0 vector 0,0,0,1,0 commit 1 start 1 keys
  sends log-mod r4 at 30: view 0 vector 0,0,0,1,0 commit 1 start 1 keys
29 r1 deliver log-mod r0
  sends sync-report r0 at 30: view 0 synced 1
29 r2 deliver log-mod r0
  sends sync-report r0 at 30: view 0 synced 1
29 r3 deliver log-mod r0
29 r4 deliver log-mod r0
  sends sync-report r0 at 30: view 0 synced 1
29 r0 deliver sync-report r1
29 r0 deliver sync-report r2
29 r0 deliver sync-report r4
29 r3 deliver rejoin-tell r0
  now rejoining views collected 1 view 0 vector 0,0,0,1,0 synced 0 commit 0
29 r3 deliver rejoin-tell r1
  now rejoining views collected 2 view 0 vector 0,0,0,1,0 synced 0 commit 0
29 r3 deliver rejoin-tell r2
  now rejoining log view 0 vector 0,0,0,1,0 synced 0 commit 0
  sends state-ask r0 at 30: nonce 1 view 0 vector 0,0,0,1,0
29 r3 deliver rejoin-tell r4
30 r0 tick 30000
  sends log-mod r1 at 31: view 0 vector 0,0,0,1,0 commit 1 start 1 keys
  sends log-mod r2 at 31: view 0 vector 0,0,0,1,0 commit 1 start 1 keys
  sends log-mod r3 at 31: view 0 vector 0,0,0,1,0 commit 1 start 1 keys
  sends log-mod r4 at 31: view 0 vector 0,0,0,1,0 commit 1 start 1 keys
30 r1 deliver log-mod r0
  sends sync-report r0 at 31: view 0 synced 1
30 r2 deliver log-mod r0
  sends sync-report r0 at 31: view 0 synced 1
30 r3 deliver log-mod r0
30 r4 deliver log-mod r0
  sends sync-report r0 at 31: view 0 synced 1
30 r0 deliver sync-report r1
30 r0 deliver sync-report r2
30 r0 deliver sync-report r4
30 r0 deliver state-ask r3
  sends state-tell r3 at 31: nonce 1 view 0 vector 0,0,0,1,0 commit 1 entries 1
31 r0 tick 31000
  sends log-mod r1 at 32: view 0 vector 0,0,0,1,0 commit 1 start 1 keys
  sends log-mod r2 at 32: view 0 vector 0,0,0,1,0 commit 1 start 1 keys
  sends log-mod r3 at 32: view 0 vector 0,0,0,1,0 commit 1 start 1 keys
  sends log-mod r4 at 32: view 0 vector 0,0,0,1,0 commit 1 start 1 keys
31 r1 deliver log-mod r0
  sends sync-report r0 at 32: view 0 synced 1
31 r2 deliver log-mod r0
  sends sync-report r0 at 32: view 0 synced 1
31 r3 deliver log-mod r0
31 r4 deliver log-mod r0
  sends sync-report r0 at 32: view 0 synced 1
31 r0 deliver sync-report r1
31 r0 deliver sync-report r2
31 r0 deliver sync-report r4
31 r3 deliver state-tell r0
  now normal view 0 vector 0,0,0,1,0 synced 1 commit 1 log +12500/c0/1
32 r0 tick 32000
  sends log-mod r1 at 33: view 0 vector 0,0,0,1,0 commit 1 start 1 keys
  sends log-mod r2 at 33: view 0 vector 0,0,0,1,0 commit 1 start 1 keys
  sends log-mod r3 at 33: view 0 vector 0,0,0,1,0 commit 1 start 1 keys
  sends log-mod r4 at 33: view 0 vector 0,0,0,1,0 commit 1 start 1 keys
32 r1 deliver log-mod r0
  sends sync-report r0 at 33: view 0 synced 1
32 r2 deliver log-mod r0
  sends sync-report r0 at 33: view 0 synced 1
32 r3 deliver log-mod r0
  sends sync-report r0 at 33: view 0 synced 1
32 r4 deliver log-mod r0
  sends sync-report r0 at 33: view 0 synced 1
32 r0 deliver sync-report r1
32 r0 deliver sync-report r2
32 r0 deliver sync-report r4
33 r0 tick 33000
  sends log-mod r1 at 34: view 0 vector 0,0,0,1,0 commit 1 start 1 keys
  sends log-mod r2 at 34: view 0 vector 0,0,0,1,0 commit 1 start 1 keys
  sends log-mod r3 at 34: view 0 vector 0,0,0,1,0 commit 1 start 1 keys
  sends log-mod r4 at 34: view 0 vector 0,0,0,1,0 commit 1 start 1 keys
33 r1 deliver log-mod r0
  sends sync-report r0 at 34: view 0 synced 1
33 r2 deliver log-mod r0
  sends sync-report r0 at 34: view 0 synced 1
33 r3 deliver log-mod r0
  sends sync-report r0 at 34: view 0 synced 1
33 r4 deliver log-mod r0
  sends sync-report r0 at 34: view 0 synced 1
33 r0 deliver sync-report r1
33 r0 deliver sync-report r2
33 r0 deliver sync-report r3
33 r0 deliver sync-report r4
34 r0 tick 34000
  sends log-mod r1 at 35: view 0 vector 0,0,0,1,0 commit 1 start 1 keys
  sends log-mod r2 at 35: view 0 vector 0,0,0,1,0 commit 1 start 1 keys
  sends log-mod r3 at 35: view 0 vector 0,0,0,1,0 commit 1 start 1 keys
  sends log-mod r4 at 35: view 0 vector 0,0,0,1,0 commit 1 start 1 keys
34 r1 deliver log-mod r0
  sends sync-report r0 at 35: view 0 synced 1
34 r2 deliver log-mod r0
  sends sync-report r0 at 35: view 0 synced 1
34 r3 deliver log-mod r0
  sends sync-report r0 at 35: view 0 synced 1
34 r4 deliver log-mod r0
  sends sync-report r0 at 35: view 0 synced 1
34 r0 deliver sync-report r1
34 r0 deliver sync-report r2
34 r0 deliver sync-report r3
34 r0 deliver sync-report r4
35 r0 tick 35000
  sends log-mod r1 at 36: view 0 vector 0,0,0,1,0 commit 1 start 1 keys
  sends log-mod r2 at 36: view 0 vector 0,0,0,1,0 commit 1 start 1 keys
  sends log-mod r3 at 36: view 0 vector 0,0,0,1,0 commit 1 start 1 keys
  sends log-mod r4 at 36: view 0 vector 0,0,0,1,0 commit 1 start 1 keys
35 r1 deliver log-mod r0
  sends sync-report r0 at 36: view 0 synced 1
35 r2 deliver log-mod r0
  sends sync-report r0 at 36: view 0 synced 1
35 r3 deliver log-mod r0
  sends sync-report r0 at 36: view 0 synced 1
35 r4 deliver log-mod r0
  sends sync-report r0 at 36: view 0 synced 1
35 r0 deliver sync-report r1
35 r0 deliver sync-report r2
35 r0 deliver sync-report r3
35 r0 deliver sync-report r4
36 r0 tick 36000
  sends log-mod r1 at 37: view 0 vector 0,0,0,1,0 commit 1 start 1 keys
  sends log-mod r2 at 37: view 0 vector 0,0,0,1,0 commit 1 start 1 keys
  sends log-mod r3 at 37: view 0 vector 0,0,0,1,0 commit 1 start 1 keys
  sends log-mod r4 at 37: view 0 vector 0,0,0,1,0 commit 1 start 1 keys
36 r1 deliver log-mod r0
  sends sync-report r0 at 37: view 0 synced 1
36 r2 deliver log-mod r0
  sends sync-report r0 at 37: view 0 synced 1
36 r3 deliver log-mod r0
  sends sync-report r0 at 37: view 0 synced 1
36 r4 deliver log-mod r0
  sends sync-report r0 at 37: view 0 synced 1
36 r0 deliver sync-report r1
36 r0 deliver sync-report r2
36 r0 deliver sync-report r3
36 r0 deliver sync-report r4
37 r0 tick 37000
  sends log-mod r1 at 38: view 0 vector 0,0,0,1,0 commit 1 start 1 keys
  sends log-mod r2 at 38: view 0 vector 0,0,0,1,0 commit 1 start 1 keys
  sends log-mod r3 at 38: view 0 vector 0,0,0,1,0 commit 1 start 1 keys
  sends log-mod r4 at 38: view 0 vector 0,0,0,1,0 commit 1 start 1 keys
37 r1 deliver log-mod r0
  sends sync-report r0 at 38: view 0 synced 1
37 r2 deliver log-mod r0
  sends sync-report r0 at 38: view 0 synced 1
37 r3 deliver log-mod r0
  sends sync-report r0 at 38: view 0 synced 1
37 r4 deliver log-mod r0
  sends sync-report r0 at 38: view 0 synced 1
37 r0 deliver sync-report r1
37 r0 deliver sync-report r2
37 r0 deliver sync-report r3
37 r0 deliver sync-report r4
38 r0 tick 38000
  sends log-mod r1 at 39: view 0 vector 0,0,0,1,0 commit 1 start 1 keys
  sends log-mod r2 at 39: view 0 vector 0,0,0,1,0 commit 1 start 1 keys
  sends log-mod r3 at 39: view 0 vector 0,0,0,1,0 commit 1 start 1 keys
  sends log-mod r4 at 39: view 0 vector 0,0,0,1,0 commit 1 start 1 keys
38 r1 deliver log-mod r0
  sends sync-report r0 at 39: view 0 synced 1
38 r2 deliver log-mod r0
  sends sync-report r0 at 39: view 0 synced 1
38 r3 deliver log-mod r0
  sends sync-report r0 at 39: view 0 synced 1
38 r4 deliver log-mod r0
  sends sync-report r0 at 39: view 0 synced 1
38 r0 deliver sync-report r1
38 r0 deliver sync-report r2
38 r0 deliver sync-report r3
38 r0 deliver sync-report r4
39 r0 tick 39000
  sends log-mod r1 at 40: view 0 vector 0,0,0,1,0 commit 1 start 1 keys
  sends log-mod r2 at 40: view 0 vector 0,0,0,1,0 commit 1 start 1 keys
  sends log-mod r3 at 40: view 0 vector 0,0,0,1,0 commit 1 start 1 keys
  sends log-mod r4 at 40: view 0 vector 0,0,0,1,0 commit 1 start 1 keys
39 r1 deliver log-mod r0
  sends sync-report r0 at 40: view 0 synced 1
39 r2 deliver log-mod r0
  sends sync-report r0 at 40: view 0 synced 1
39 r3 deliver log-mod r0
  sends sync-report r0 at 40: view 0 synced 1
39 r4 deliver log-mod r0
  sends sync-report r0 at 40: view 0 synced 1
39 r0 deliver sync-report r1
39 r0 deliver sync-report r2
39 r0 deliver sync-report r3
39 r0 deliver sync-report r4
40 r0 tick 40000
  sends log-mod r1 at 41: view 0 vector 0,0,0,1,0 commit 1 start 1 keys
  sends log-mod r2 at 41: view 0 vector 0,0,0,1,0 commit 1 start 1 keys
  sends log-mod r3 at 41: view 0 vector 0,0,0,1,0 commit 1 start 1 keys
  sends log-mod r4 at 41: view 0 vector 0,0,0,1,0 commit 1 start 1 keys
40 r1 deliver log-mod r0
  sends sync-report r0 at 41: view 0 synced 1
40 r2 deliver log-mod r0
  sends sync-report r0 at 41: view 0 synced 1
40 r3 deliver log-mod r0
  sends sync-report r0 at 41: view 0 synced 1
40 r4 deliver log-mod r0
  sends sync-report r0 at 41: view 0 synced 1
40 r0 deliver sync-report r1
40 r0 deliver sync-report r2
40 r0 deliver sync-report r3
40 r0 deliver sync-report r4
41 r0 tick 41000
  sends log-mod r1 at 42: view 0 vector 0,0,0,1,0 commit 1 start 1 keys
  sends log-mod r2 at 42: view 0 vector 0,0,0,1,0 commit 1 start 1 keys
  sends log-mod r3 at 42: view 0 vector 0,0,0,1,0 commit 1 start 1 keys
  sends log-mod r4 at 42: view 0 vector 0,0,0,1,0 commit 1 start 1 keys
41 r1 deliver log-mod r0
  sends sync-report r0 at 42: view 0 synced 1
41 r2 deliver log-mod r0
  sends sync-report r0 at 42: view 0 synced 1
41 r3 deliver log-mod r0
  sends sync-report r0 at 42: view 0 synced 1
41 r4 deliver log-mod r0
  sends sync-report r0 at 42: view 0 synced 1
41 r0 deliver sync-report r1
41 r0 deliver sync-report r2
41 r0 deliver sync-report r3
41 r0 deliver sync-report r4
42 r0 tick 42000
  sends log-mod r1 at 43: view 0 vector 0,0,0,1,0 commit 1 start 1 keys
  sends log-mod r2 at 43: view 0 vector 0,0,0,1,0 commit 1 start 1 keys
  sends log-mod r3 at 43: view 0 vector 0,0,0,1,0 commit 1 start 1 keys
  sends log-mod r4 at 43: view 0 vector 0,0,0,1,0 commit 1 start 1 keys
42 r1 deliver log-mod r0
  sends sync-report r0 at 43: view 0 synced 1
42 r2 deliver log-mod r0
  sends sync-report r0 at 43: view 0 synced 1
42 r3 deliver log-mod r0
  sends sync-report r0 at 43: view 0 synced 1
42 r4 deliver log-mod r0
  sends sync-report r0 at 43: view 0 synced 1
42 r0 deliver sync-report r1
42 r0 deliver sync-report r2
42 r0 deliver sync-report r3
42 r0 deliver sync-report r4
43 r0 tick 43000
  sends log-mod r1 at 44: view 0 vector 0,0,0,1,0 commit 1 start 1 keys
  sends log-mod r2 at 44: view 0 vector 0,0,0,1,0 commit 1 start 1 keys
  sends log-mod r3 at 44: view 0 vector 0,0,0,1,0 commit 1 start 1 keys
  sends log-mod r4 at 44: view 0 vector 0,0,0,1,0 commit 1 start 1 keys
43 r1 deliver log-mod r0
  sends sync-report r0 at 44: view 0 synced 1
43 r2 deliver log-mod r0
  sends sync-report r0 at 44: view 0 synced 1
43 r3 deliver log-mod r0
  sends sync-report r0 at 44: view 0 synced 1
43 r4 deliver log-mod r0
  sends sync-report r0 at 44: view 0 synced 1
43 r0 deliver sync-report r1
43 r0 deliver sync-report r2
43 r0 deliver sync-report r3
43 r0 deliver sync-report r4
44 r0 tick 44000
  sends log-mod r1 at 45: view 0 vector 0,0,0,1,0 commit 1 start 1 keys
  sends log-mod r2 at 45: view 0 vector 0,0,0,1,0 commit 1 start 1 keys
  sends log-mod r3 at 45: view 0 vector 0,0,0,1,0 commit 1 start 1 keys
  sends log-mod r4 at 45: view 0 vector 0,0,0,1,0 commit 1 start 1 keys
44 r1 deliver log-mod r0
  sends sync-report r0 at 45: view 0 synced 1
44 r2 deliver log-mod r0
  sends sync-report r0 at 45: view 0 synced 1
44 r3 deliver log-mod r0
  sends sync-report r0 at 45: view 0 synced 1
44 r4 deliver log-mod r0
  sends sync-report r0 at 45: view 0 synced 1
44 r0 deliver sync-report r1
44 r0 deliver sync-report r2
44 r0 deliver sync-report r3
44 r0 deliver sync-report r4
45 r0 tick 45000
  sends log-mod r1 at 46: view 0 vector 0,0,0,1,0 commit 1 start 1 keys
  sends log-mod r2 at 46: view 0 vector 0,0,0,1,0 commit 1 start 1 keys
  sends log-mod r3 at 46: view 0 vector 0,0,0,1,0 commit 1 start 1 keys
  sends log-mod r4 at 46: view 0 vector 0,0,0,1,0 commit 1 start 1 keys
45 r1 deliver log-mod r0
  sends sync-report r0 at 46: view 0 synced 1
45 r2 deliver log-mod r0
  sends sync-report r0 at 46: view 0 synced 1
45 r3 deliver log-mod r0
  sends sync-report r0 at 46: view 0 synced 1
45 r4 deliver log-mod r0
  sends sync-report r0 at 46: view 0 synced 1
45 r0 deliver sync-report r1
45 r0 deliver sync-report r2
45 r0 deliver sync-report r3
45 r0 deliver sync-report r4
46 r0 tick 46000
  sends log-mod r1 at 47: view 0 vector 0,0,0,1,0 commit 1 start 1 keys
  sends log-mod r2 at 47: view 0 vector 0,0,0,1,0 commit 1 start 1 keys
  sends log-mod r3 at 47: view 0 vector 0,0,0,1,0 commit 1 start 1 keys
  sends log-mod r4 at 47: view 0 vector 0,0,0,1,0 commit 1 start 1 keys
46 r1 deliver log-mod r0
  sends sync-report r0 at 47: view 0 synced 1
46 r2 deliver log-mod r0
  sends sync-report r0 at 47: view 0 synced 1
46 r3 deliver log-mod r0
  sends sync-report r0 at 47: view 0 synced 1
46 r4 deliver log-mod r0
  sends sync-report r0 at 47: view 0 synced 1
46 r0 deliver sync-report r1
46 r0 deliver sync-report r2
46 r0 deliver sync-report r3
46 r0 deliver sync-report r4
47 r0 tick 47000
  sends log-mod r1 at 48: view 0 vector 0,0,0,1,0 commit 1 start 1 keys
  sends log-mod r2 at 48: view 0 vector 0,0,0,1,0 commit 1 start 1 keys
  sends log-mod r3 at 48: view 0 vector 0,0,0,1,0 commit 1 start 1 keys
  sends log-mod r4 at 48: view 0 vector 0,0,0,1,0 commit 1 start 1 keys
47 r1 deliver log-mod r0
  sends sync-report r0 at 48: view 0 synced 1
47 r2 deliver log-mod r0
  sends sync-report r0 at 48: view 0 synced 1
47 r3 deliver log-mod r0
  sends sync-report r0 at 48: view 0 synced 1
47 r4 deliver log-mod r0
  sends sync-report r0 at 48: view 0 synced 1
47 r0 deliver sync-report r1
47 r0 deliver sync-report r2
47 r0 deliver sync-report r3
47 r0 deliver sync-report r4
48 r0 tick 48000
  sends log-mod r1 at 49: view 0 vector 0,0,0,1,0 commit 1 start 1 keys
  sends log-mod r2 at 49: view 0 vector 0,0,0,1,0 commit 1 start 1 keys
  sends log-mod r3 at 49: view 0 vector 0,0,0,1,0 commit 1 start 1 keys
  sends log-mod r4 at 49: view 0 vector 0,0,0,1,0 commit 1 start 1 keys
48 r1 deliver log-mod r0
  sends sync-report r0 at 49: view 0 synced 1
48 r2 deliver log-mod r0
  sends sync-report r0 at 49: view 0 synced 1
48 r3 deliver log-mod r0
  sends sync-report r0 at 49: view 0 synced 1
48 r4 deliver log-mod r0
  sends sync-report r0 at 49: view 0 synced 1
48 r0 deliver sync-report r1
48 r0 deliver sync-report r2
48 r0 deliver sync-report r3
48 r0 deliver sync-report r4
49 r0 tick 49000
  sends log-mod r1 at 50: view 0 vector 0,0,0,1,0 commit 1 start 1 keys
  sends log-mod r2 at 50: view 0 vector 0,0,0,1,0 commit 1 start 1 keys
  sends log-mod r3 at 50: view 0 vector 0,0,0,1,0 commit 1 start 1 keys
  sends log-mod r4 at 50: view 0 vector 0,0,0,1,0 commit 1 start 1 keys
49 r1 deliver log-mod r0
  sends sync-report r0 at 50: view 0 synced 1
49 r2 deliver log-mod r0
  sends sync-report r0 at 50: view 0 synced 1
49 r3 deliver log-mod r0
  sends sync-report r0 at 50: view 0 synced 1
49 r4 deliver log-mod r0
  sends sync-report r0 at 50: view 0 synced 1
49 r0 deliver sync-report r1
49 r0 deliver sync-report r2
49 r0 deliver sync-report r3
49 r0 deliver sync-report r4
50 r0 tick 50000
  sends log-mod r1 at 51: view 0 vector 0,0,0,1,0 commit 1 start 1 keys
  sends log-mod r2 at 51: view 0 vector 0,0,0,1,0 commit 1 start 1 keys
  sends log-mod r3 at 51: view 0 vector 0,0,0,1,0 commit 1 start 1 keys
  sends log-mod r4 at 51: view 0 vector 0,0,0,1,0 commit 1 start 1 keys
50 r1 deliver log-mod r0
  sends sync-report r0 at 51: view 0 synced 1
50 r2 deliver log-mod r0
  sends sync-report r0 at 51: view 0 synced 1
50 r3 deliver log-mod r0
  sends sync-report r0 at 51: view 0 synced 1
50 r4 deliver log-mod r0
  sends sync-report r0 at 51: view 0 synced 1
50 r0 deliver sync-report r1
50 r0 deliver sync-report r2
50 r0 deliver sync-report r3
50 r0 deliver sync-report r4
51 r0 tick 51000
  sends log-mod r1 at 52: view 0 vector 0,0,0,1,0 commit 1 start 1 keys
  sends log-mod r2 at 52: view 0 vector 0,0,0,1,0 commit 1 start 1 keys
  sends log-mod r3 at 52: view 0 vector 0,0,0,1,0 commit 1 start 1 keys
  sends log-mod r4 at 52: view 0 vector 0,0,0,1,0 commit 1 start 1 keys
51 r1 deliver log-mod r0
  sends sync-report r0 at 52: view 0 synced 1
51 r2 deliver log-mod r0
  sends sync-report r0 at 52: view 0 synced 1
51 r3 deliver log-mod r0
  sends sync-report r0 at 52: view 0 synced 1
51 r4 deliver log-mod r0
  sends sync-report r0 at 52: view 0 synced 1
51 r0 deliver sync-report r1
51 r0 deliver sync-report r2
51 r0 deliver sync-report r3
51 r0 deliver sync-report r4
52 r0 tick 52000
  sends log-mod r1 at 53: view 0 vector 0,0,0,1,0 commit 1 start 1 keys
  sends log-mod r2 at 53: view 0 vector 0,0,0,1,0 commit 1 start 1 keys
  sends log-mod r3 at 53: view 0 vector 0,0,0,1,0 commit 1 start 1 keys
  sends log-mod r4 at 53: view 0 vector 0,0,0,1,0 commit 1 start 1 keys
52 r1 deliver log-mod r0
  sends sync-report r0 at 53: view 0 synced 1
52 r2 deliver log-mod r0
  sends sync-report r0 at 53: view 0 synced 1
52 r3 deliver log-mod r0
  sends sync-report r0 at 53: view 0 synced 1
52 r4 deliver log-mod r0
  sends sync-report r0 at 53: view 0 synced 1
52 r0 deliver sync-report r1
52 r0 deliver sync-report r2
52 r0 deliver sync-report r3
52 r0 deliver sync-report r4
53 r0 tick 53000
  sends log-mod r1 at 54: view 0 vector 0,0,0,1,0 commit 1 start 1 keys
  sends log-mod r2 at 54: view 0 vector 0,0,0,1,0 commit 1 start 1 keys
  sends log-mod r3 at 54: view 0 vector 0,0,0,1,0 commit 1 start 1 keys
  sends log-mod r4 at 54: view 0 vector 0,0,0,1,0 commit 1 start 1 keys
53 r1 deliver log-mod r0
  sends sync-report r0 at 54: view 0 synced 1
53 r2 deliver log-mod r0
  sends sync-report r0 at 54: view 0 synced 1
53 r3 deliver log-mod r0
  sends sync-report r0 at 54: view 0 synced 1
53 r4 deliver log-mod r0
  sends sync-report r0 at 54: view 0 synced 1
53 r0 deliver sync-report r1
53 r0 deliver sync-report r2
53 r0 deliver sync-report r3
53 r0 deliver sync-report r4
54 r0 tick 54000
  sends log-mod r1 at 55: view 0 vector 0,0,0,1,0 commit 1 start 1 keys
  sends log-mod r2 at 55: view 0 vector 0,0,0,1,0 commit 1 start 1 keys
  sends log-mod r3 at 55: view 0 vector 0,0,0,1,0 commit 1 start 1 keys
  sends log-mod r4 at 55: view 0 vector 0,0,0,1,0 commit 1 start 1 keys
54 r1 deliver log-mod r0
  sends sync-report r0 at 55: view 0 synced 1
54 r2 deliver log-mod r0
  sends sync-report r0 at 55: view 0 synced 1
54 r3 deliver log-mod r0
  sends sync-report r0 at 55: view 0 synced 1
54 r4 deliver log-mod r0
  sends sync-report r0 at 55: view 0 synced 1
54 r0 deliver sync-report r1
54 r0 deliver sync-report r2
54 r0 deliver sync-report r3
54 r0 deliver sync-report r4
55 r0 tick 55000
  sends log-mod r1 at 56: view 0 vector 0,0,0,1,0 commit 1 start 1 keys
  sends log-mod r2 at 56: view 0 vector 0,0,0,1,0 commit 1 start 1 keys
  sends log-mod r3 at 56: view 0 vector 0,0,0,1,0 commit 1 start 1 keys
  sends log-mod r4 at 56: view 0 vector 0,0,0,1,0 commit 1 start 1 keys
55 r1 deliver log-mod r0
  sends sync-report r0 at 56: view 0 synced 1
55 r2 deliver log-mod r0
  sends sync-report r0 at 56: view 0 synced 1
55 r3 deliver log-mod r0
  sends sync-report r0 at 56: view 0 synced 1
55 r4 deliver log-mod r0
  sends sync-report r0 at 56: view 0 synced 1
55 r0 deliver sync-report r1
55 r0 deliver sync-report r2
55 r0 deliver sync-report r3
55 r0 deliver sync-report r4
56 r0 tick 56000
  sends log-mod r1 at 57: view 0 vector 0,0,0,1,0 commit 1 start 1 keys
  sends log-mod r2 at 57: view 0 vector 0,0,0,1,0 commit 1 start 1 keys
  sends log-mod r3 at 57: view 0 vector 0,0,0,1,0 commit 1 start 1 keys
  sends log-mod r4 at 57: view 0 vector 0,0,0,1,0 commit 1 start 1 keys
56 r1 deliver log-mod r0
  sends sync-report r0 at 57: view 0 synced 1
56 r2 deliver log-mod r0
  sends sync-report r0 at 57: view 0 synced 1
56 r3 deliver log-mod r0
  sends sync-report r0 at 57: view 0 synced 1
56 r4 deliver log-mod r0
  sends sync-report r0 at 57: view 0 synced 1
56 r0 deliver sync-report r1
56 r0 deliver sync-report r2
56 r0 deliver sync-report r3
56 r0 deliver sync-report r4
57 r0 tick 57000
  sends log-mod r1 at 58: view 0 vector 0,0,0,1,0 commit 1 start 1 keys
  sends log-mod r2 at 58: view 0 vector 0,0,0,1,0 commit 1 start 1 keys
  sends log-mod r3 at 58: view 0 vector 0,0,0,1,0 commit 1 start 1 keys
  sends log-mod r4 at 58: view 0 vector 0,0,0,1,0 commit 1 start 1 keys
57 r1 deliver log-mod r0
  sends sync-report r0 at 58: view 0 synced 1
57 r2 deliver log-mod r0
  sends sync-report r0 at 58: view 0 synced 1
57 r3 deliver log-mod r0
  sends sync-report r0 at 58: view 0 synced 1
57 r4 deliver log-mod r0
  sends sync-report r0 at 58: view 0 synced 1
57 r0 deliver sync-report r1
57 r0 deliver sync-report r2
57 r0 deliver sync-report r3
57 r0 deliver sync-report r4
58 r0 tick 58000
  sends log-mod r1 at 59: view 0 vector 0,0,0,1,0 commit 1 start 1 keys
  sends log-mod r2 at 59: view 0 vector 0,0,0,1,0 commit 1 start 1 keys
  sends log-mod r3 at 59: view 0 vector 0,0,0,1,0 commit 1 start 1 keys
  sends log-mod r4 at 59: view 0 vector 0,0,0,1,0 commit 1 start 1 keys
58 r1 deliver log-mod r0
  sends sync-report r0 at 59: view 0 synced 1
58 r2 deliver log-mod r0
  sends sync-report r0 at 59: view 0 synced 1
58 r3 deliver log-mod r0
  sends sync-report r0 at 59: view 0 synced 1
58 r4 deliver log-mod r0
  sends sync-report r0 at 59: view 0 synced 1
58 r0 deliver sync-report r1
58 r0 deliver sync-report r2
58 r0 deliver sync-report r3
58 r0 deliver sync-report r4
59 r0 tick 59000
  sends log-mod r1 at 60: view 0 vector 0,0,0,1,0 commit 1 start 1 keys
  sends log-mod r2 at 60: view 0 vector 0,0,0,1,0 commit 1 start 1 keys
  sends log-mod r3 at 60: view 0 vector 0,0,0,1,0 commit 1 start 1 keys
  sends log-mod r4 at 60: view 0 vector 0,0,0,1,0 commit 1 start 1 keys
59 r1 deliver log-mod r0
  sends sync-report r0 at 60: view 0 synced 1
59 r2 deliver log-mod r0
  sends sync-report r0 at 60: view 0 synced 1
59 r3 deliver log-mod r0
  sends sync-report r0 at 60: view 0 synced 1
59 r4 deliver log-mod r0
  sends sync-report r0 at 60: view 0 synced 1
59 r0 deliver sync-report r1
59 r0 deliver sync-report r2
59 r0 deliver sync-report r3
59 r0 deliver sync-report r4
60 r0 tick 60000
  sends log-mod r1 at 61: view 0 vector 0,0,0,1,0 commit 1 start 1 keys
  sends log-mod r2 at 61: view 0 vector 0,0,0,1,0 commit 1 start 1 keys
  sends log-mod r3 at 61: view 0 vector 0,0,0,1,0 commit 1 start 1 keys
  sends log-mod r4 at 61: view 0 vector 0,0,0,1,0 commit 1 start 1 keys
60 r1 deliver log-mod r0
  sends sync-report r0 at 61: view 0 synced 1
60 r2 deliver log-mod r0
  sends sync-report r0 at 61: view 0 synced 1
60 r3 deliver log-mod r0
  sends sync-report r0 at 61: view 0 synced 1
60 r4 deliver log-mod r0
  sends sync-report r0 at 61: view 0 synced 1
60 r0 deliver sync-report r1
60 r0 deliver sync-report r2
60 r0 deliver sync-report r3
60 r0 deliver sync-report r4
61 r0 tick 61000
  sends log-mod r1 at 62: view 0 vector 0,0,0,1,0 commit 1 start 1 keys
  sends log-mod r2 at 62: view 0 vector 0,0,0,1,0 commit 1 start 1 keys
  sends log-mod r3 at 62: view 0 vector 0,0,0,1,0 commit 1 start 1 keys
  sends log-mod r4 at 62: view 0 vector 0,0,0,1,0 commit 1 start 1 keys
61 r1 deliver view-change r3
61 r1 deliver log-mod r0
  sends sync-report r0 at 62: view 0 synced 1
61 r2 deliver log-mod r0
  sends sync-report r0 at 62: view 0 synced 1
61 r3 deliver log-mod r0
  sends sync-report r0 at 62: view 0 synced 1
61 r4 deliver log-mod r0
  sends sync-report r0 at 62: view 0 synced 1
61 r0 deliver sync-report r1
61 r0 deliver sync-report r2
61 r0 deliver sync-report r3
61 r0 deliver sync-report r4
62 r0 tick 62000
  sends log-mod r1 at 63: view 0 vector 0,0,0,1,0 commit 1 start 1 keys
  sends log-mod r2 at 63: view 0 vector 0,0,0,1,0 commit 1 start 1 keys
  sends log-mod r3 at 63: view 0 vector 0,0,0,1,0 commit 1 start 1 keys
  sends log-mod r4 at 63: view 0 vector 0,0,0,1,0 commit 1 start 1 keys
62 r1 deliver log-mod r0
  sends sync-report r0 at 63: view 0 synced 1
62 r2 deliver log-mod r0
  sends sync-report r0 at 63: view 0 synced 1
62 r3 deliver log-mod r0
  sends sync-report r0 at 63: view 0 synced 1
62 r4 deliver log-mod r0
  sends sync-report r0 at 63: view 0 synced 1
62 r0 deliver sync-report r1
62 r0 deliver sync-report r2
62 r0 deliver sync-report r3
62 r0 deliver sync-report r4
63 r0 tick 63000
  sends log-mod r1 at 64: view 0 vector 0,0,0,1,0 commit 1 start 1 keys
  sends log-mod r2 at 64: view 0 vector 0,0,0,1,0 commit 1 start 1 keys
  sends log-mod r3 at 64: view 0 vector 0,0,0,1,0 commit 1 start 1 keys
  sends log-mod r4 at 64: view 0 vector 0,0,0,1,0 commit 1 start 1 keys
63 r1 deliver log-mod r0
  sends sync-report r0 at 64: view 0 synced 1
63 r2 deliver log-mod r0
  sends sync-report r0 at 64: view 0 synced 1
63 r3 deliver log-mod r0
  sends sync-report r0 at 64: view 0 synced 1
63 r4 deliver log-mod r0
  sends sync-report r0 at 64: view 0 synced 1
63 r0 deliver sync-report r1
63 r0 deliver sync-report r2
63 r0 deliver sync-report r3
63 r0 deliver sync-report r4
64 r0 tick 64000
  sends log-mod r1 at 65: view 0 vector 0,0,0,1,0 commit 1 start 1 keys
  sends log-mod r2 at 65: view 0 vector 0,0,0,1,0 commit 1 start 1 keys
  sends log-mod r3 at 65: view 0 vector 0,0,0,1,0 commit 1 start 1 keys
  sends log-mod r4 at 65: view 0 vector 0,0,0,1,0 commit 1 start 1 keys
64 r1 deliver log-mod r0
  sends sync-report r0 at 65: view 0 synced 1
64 r2 deliver log-mod r0
  sends sync-report r0 at 65: view 0 synced 1
64 r3 deliver log-mod r0
  sends sync-report r0 at 65: view 0 synced 1
64 r4 deliver log-mod r0
  sends sync-report r0 at 65: view 0 synced 1
64 r0 deliver sync-report r1
64 r0 deliver sync-report r2
64 r0 deliver sync-report r3
64 r0 deliver sync-report r4
65 r0 tick 65000
  sends log-mod r1 at 66: view 0 vector 0,0,0,1,0 commit 1 start 1 keys
  sends log-mod r2 at 66: view 0 vector 0,0,0,1,0 commit 1 start 1 keys
  sends log-mod r3 at 66: view 0 vector 0,0,0,1,0 commit 1 start 1 keys
  sends log-mod r4 at 66: view 0 vector 0,0,0,1,0 commit 1 start 1 keys
65 r1 deliver log-mod r0
  sends sync-report r0 at 66: view 0 synced 1
65 r2 deliver log-mod r0
  sends sync-report r0 at 66: view 0 synced 1
65 r3 deliver log-mod r0
  sends sync-report r0 at 66: view 0 synced 1
65 r4 deliver log-mod r0
  sends sync-report r0 at 66: view 0 synced 1
65 r0 deliver sync-report r1
65 r0 deliver sync-report r2
65 r0 deliver sync-report r3
65 r0 deliver sync-report r4
66 r0 tick 66000
  sends log-mod r1 at 67: view 0 vector 0,0,0,1,0 commit 1 start 1 keys
  sends log-mod r2 at 67: view 0 vector 0,0,0,1,0 commit 1 start 1 keys
  sends log-mod r3 at 67: view 0 vector 0,0,0,1,0 commit 1 start 1 keys
  sends log-mod r4 at 67: view 0 vector 0,0,0,1,0 commit 1 start 1 keys
66 r1 deliver log-mod r0
  sends sync-report r0 at 67: view 0 synced 1
66 r2 deliver log-mod r0
  sends sync-report r0 at 67: view 0 synced 1
66 r3 deliver log-mod r0
  sends sync-report r0 at 67: view 0 synced 1
66 r4 deliver log-mod r0
  sends sync-report r0 at 67: view 0 synced 1
66 r0 deliver sync-report r1
66 r0 deliver sync-report r2
66 r0 deliver sync-report r3
66 r0 deliver sync-report r4
67 r0 tick 67000
  sends log-mod r1 at 68: view 0 vector 0,0,0,1,0 commit 1 start 1 keys
  sends log-mod r2 at 68: view 0 vector 0,0,0,1,0 commit 1 start 1 keys
  sends log-mod r3 at 68: view 0 vector 0,0,0,1,0 commit 1 start 1 keys
  sends log-mod r4 at 68: view 0 vector 0,0,0,1,0 commit 1 start 1 keys
67 r1 deliver log-mod r0
  sends sync-report r0 at 68: view 0 synced 1
67 r2 deliver log-mod r0
  sends sync-report r0 at 68: view 0 synced 1
67 r3 deliver log-mod r0
  sends sync-report r0 at 68: view 0 synced 1
67 r4 deliver log-mod r0
  sends sync-report r0 at 68: view 0 synced 1
67 r0 deliver sync-report r1
67 r0 deliver sync-report r2
67 r0 deliver sync-report r3
67 r0 deliver sync-report r4
68 r0 tick 68000
  sends log-mod r1 at 69: view 0 vector 0,0,0,1,0 commit 1 start 1 keys
  sends log-mod r2 at 69: view 0 vector 0,0,0,1,0 commit 1 start 1 keys
  sends log-mod r3 at 69: view 0 vector 0,0,0,1,0 commit 1 start 1 keys
  sends log-mod r4 at 69: view 0 vector 0,0,0,1,0 commit 1 start 1 keys
68 r1 deliver log-mod r0
  sends sync-report r0 at 69: view 0 synced 1
68 r2 deliver log-mod r0
  sends sync-report r0 at 69: view 0 synced 1
68 r3 deliver log-mod r0
  sends sync-report r0 at 69: view 0 synced 1
68 r4 deliver log-mod r0
  sends sync-report r0 at 69: view 0 synced 1
68 r0 deliver sync-report r1
68 r0 deliver sync-report r2
68 r0 deliver sync-report r3
68 r0 deliver sync-report r4
69 r0 tick 69000
  sends log-mod r1 at 70: view 0 vector 0,0,0,1,0 commit 1 start 1 keys
  sends log-mod r2 at 70: view 0 vector 0,0,0,1,0 commit 1 start 1 keys
  sends log-mod r3 at 70: view 0 vector 0,0,0,1,0 commit 1 start 1 keys
  sends log-mod r4 at 70: view 0 vector 0,0,0,1,0 commit 1 start 1 keys
69 r1 deliver log-mod r0
  sends sync-report r0 at 70: view 0 synced 1
69 r2 deliver log-mod r0
  sends sync-report r0 at 70: view 0 synced 1
69 r3 deliver log-mod r0
  sends sync-report r0 at 70: view 0 synced 1
69 r4 deliver log-mod r0
  sends sync-report r0 at 70: view 0 synced 1
69 r0 deliver sync-report r1
69 r0 deliver sync-report r2
69 r0 deliver sync-report r3
69 r0 deliver sync-report r4
70 r0 tick 70000
  sends log-mod r1 at 71: view 0 vector 0,0,0,1,0 commit 1 start 1 keys
  sends log-mod r2 at 71: view 0 vector 0,0,0,1,0 commit 1 start 1 keys
  sends log-mod r3 at 71: view 0 vector 0,0,0,1,0 commit 1 start 1 keys
  sends log-mod r4 at 71: view 0 vector 0,0,0,1,0 commit 1 start 1 keys
70 r1 deliver log-mod r0
  sends sync-report r0 at 71: view 0 synced 1
70 r2 deliver log-mod r0
  sends sync-report r0 at 71: view 0 synced 1
70 r3 deliver log-mod r0
  sends sync-report r0 at 71: view 0 synced 1
70 r4 deliver log-mod r0
  sends sync-report r0 at 71: view 0 synced 1
70 r0 deliver sync-report r1
70 r0 deliver sync-report r2
70 r0 deliver sync-report r3
70 r0 deliver sync-report r4
71 r0 tick 71000
  sends log-mod r1 at 72: view 0 vector 0,0,0,1,0 commit 1 start 1 keys
  sends log-mod r2 at 72: view 0 vector 0,0,0,1,0 commit 1 start 1 keys
  sends log-mod r3 at 72: view 0 vector 0,0,0,1,0 commit 1 start 1 keys
  sends log-mod r4 at 72: view 0 vector 0,0,0,1,0 commit 1 start 1 keys
71 r1 deliver log-mod r0
  sends sync-report r0 at 72: view 0 synced 1
71 r2 deliver log-mod r0
  sends sync-report r0 at 72: view 0 synced 1
71 r3 deliver log-mod r0
  sends sync-report r0 at 72: view 0 synced 1
71 r4 deliver log-mod r0
  sends sync-report r0 at 72: view 0 synced 1
71 r0 deliver sync-report r1
71 r0 deliver sync-report r2
71 r0 deliver sync-report r3
71 r0 deliver sync-report r4
72 r0 tick 72000
  sends log-mod r1 at 73: view 0 vector 0,0,0,1,0 commit 1 start 1 keys
  sends log-mod r2 at 73: view 0 vector 0,0,0,1,0 commit 1 start 1 keys
  sends log-mod r3 at 73: view 0 vector 0,0,0,1,0 commit 1 start 1 keys
  sends log-mod r4 at 73: view 0 vector 0,0,0,1,0 commit 1 start 1 keys
72 r1 deliver log-mod r0
  sends sync-report r0 at 73: view 0 synced 1
72 r2 deliver log-mod r0
  sends sync-report r0 at 73: view 0 synced 1
72 r3 deliver log-mod r0
  sends sync-report r0 at 73: view 0 synced 1
72 r4 deliver log-mod r0
  sends sync-report r0 at 73: view 0 synced 1
72 r0 deliver sync-report r1
72 r0 deliver sync-report r2
72 r0 deliver sync-report r3
72 r0 deliver sync-report r4
73 r0 tick 73000
  sends log-mod r1 at 74: view 0 vector 0,0,0,1,0 commit 1 start 1 keys
  sends log-mod r2 at 74: view 0 vector 0,0,0,1,0 commit 1 start 1 keys
  sends log-mod r3 at 74: view 0 vector 0,0,0,1,0 commit 1 start 1 keys
  sends log-mod r4 at 74: view 0 vector 0,0,0,1,0 commit 1 start 1 keys
73 r1 deliver log-mod r0
  sends sync-report r0 at 74: view 0 synced 1
73 r2 deliver log-mod r0
  sends sync-report r0 at 74: view 0 synced 1
73 r3 deliver log-mod r0
  sends sync-report r0 at 74: view 0 synced 1
73 r4 deliver log-mod r0
  sends sync-report r0 at 74: view 0 synced 1
73 r0 deliver sync-report r1
73 r0 deliver sync-report r2
73 r0 deliver sync-report r3
73 r0 deliver sync-report r4
74 r0 tick 74000
  sends log-mod r1 at 75: view 0 vector 0,0,0,1,0 commit 1 start 1 keys
  sends log-mod r2 at 75: view 0 vector 0,0,0,1,0 commit 1 start 1 keys
  sends log-mod r3 at 75: view 0 vector 0,0,0,1,0 commit 1 start 1 keys
  sends log-mod r4 at 75: view 0 vector 0,0,0,1,0 commit 1 start 1 keys
74 r1 deliver log-mod r0
  sends sync-report r0 at 75: view 0 synced 1
74 r2 deliver log-mod r0
  sends sync-report r0 at 75: view 0 synced 1
74 r3 deliver log-mod r0
  sends sync-report r0 at 75: view 0 synced 1
74 r4 deliver log-mod r0
  sends sync-report r0 at 75: view 0 synced 1
74 r0 deliver sync-report r1
74 r0 deliver sync-report r2
74 r0 deliver sync-report r3
74 r0 deliver sync-report r4
75 r0 tick 75000
  sends log-mod r1 at 76: view 0 vector 0,0,0,1,0 commit 1 start 1 keys
  sends log-mod r2 at 76: view 0 vector 0,0,0,1,0 commit 1 start 1 keys
  sends log-mod r3 at 76: view 0 vector 0,0,0,1,0 commit 1 start 1 keys
  sends log-mod r4 at 76: view 0 vector 0,0,0,1,0 commit 1 start 1 keys
75 r1 deliver log-mod r0
  sends sync-report r0 at 76: view 0 synced 1
75 r2 deliver log-mod r0
  sends sync-report r0 at 76: view 0 synced 1
75 r3 deliver log-mod r0
  sends sync-report r0 at 76: view 0 synced 1
75 r4 deliver log-mod r0
  sends sync-report r0 at 76: view 0 synced 1
75 r0 deliver sync-report r1
75 r0 deliver sync-report r2
75 r0 deliver sync-report r3
75 r0 deliver sync-report r4
76 r0 tick 76000
  sends log-mod r1 at 77: view 0 vector 0,0,0,1,0 commit 1 start 1 keys
  sends log-mod r2 at 77: view 0 vector 0,0,0,1,0 commit 1 start 1 keys
  sends log-mod r3 at 77: view 0 vector 0,0,0,1,0 commit 1 start 1 keys
  sends log-mod r4 at 77: view 0 vector 0,0,0,1,0 commit 1 start 1 keys
76 r1 deliver log-mod r0
  sends sync-report r0 at 77: view 0 synced 1
76 r2 deliver log-mod r0
  sends sync-report r0 at 77: view 0 synced 1
76 r3 deliver log-mod r0
  sends sync-report r0 at 77: view 0 synced 1
76 r4 deliver log-mod r0
  sends sync-report r0 at 77: view 0 synced 1
76 r0 deliver sync-report r1
76 r0 deliver sync-report r2
76 r0 deliver sync-report r3
76 r0 deliver sync-report r4
77 r0 tick 77000
  sends log-mod r1 at 78: view 0 vector 0,0,0,1,0 commit 1 start 1 keys
  sends log-mod r2 at 78: view 0 vector 0,0,0,1,0 commit 1 start 1 keys
  sends log-mod r3 at 78: view 0 vector 0,0,0,1,0 commit 1 start 1 keys
  sends log-mod r4 at 78: view 0 vector 0,0,0,1,0 commit 1 start 1 keys
77 r1 deliver log-mod r0
  sends sync-report r0 at 78: view 0 synced 1
77 r2 deliver log-mod r0
  sends sync-report r0 at 78: view 0 synced 1
77 r3 deliver log-mod r0
  sends sync-report r0 at 78: view 0 synced 1
77 r4 deliver log-mod r0
  sends sync-report r0 at 78: view 0 synced 1
77 r0 deliver sync-report r1
77 r0 deliver sync-report r2
77 r0 deliver sync-report r3
77 r0 deliver sync-report r4
78 r0 tick 78000
  sends log-mod r1 at 79: view 0 vector 0,0,0,1,0 commit 1 start 1 keys
  sends log-mod r2 at 79: view 0 vector 0,0,0,1,0 commit 1 start 1 keys
  sends log-mod r3 at 79: view 0 vector 0,0,0,1,0 commit 1 start 1 keys
  sends log-mod r4 at 79: view 0 vector 0,0,0,1,0 commit 1 start 1 keys
78 r1 deliver log-mod r0
  sends sync-report r0 at 79: view 0 synced 1
78 r2 deliver log-mod r0
  sends sync-report r0 at 79: view 0 synced 1
78 r3 deliver log-mod r0
  sends sync-report r0 at 79: view 0 synced 1
78 r4 deliver log-mod r0
  sends sync-report r0 at 79: view 0 synced 1
78 r0 deliver sync-report r1
78 r0 deliver sync-report r2
78 r0 deliver sync-report r3
78 r0 deliver sync-report r4
79 r0 tick 79000
  sends log-mod r1 at 80: view 0 vector 0,0,0,1,0 commit 1 start 1 keys
  sends log-mod r2 at 80: view 0 vector 0,0,0,1,0 commit 1 start 1 keys
  sends log-mod r3 at 80: view 0 vector 0,0,0,1,0 commit 1 start 1 keys
  sends log-mod r4 at 80: view 0 vector 0,0,0,1,0 commit 1 start 1 keys
79 r1 deliver log-mod r0
  sends sync-report r0 at 80: view 0 synced 1
79 r2 deliver log-mod r0
  sends sync-report r0 at 80: view 0 synced 1
79 r3 deliver log-mod r0
  sends sync-report r0 at 80: view 0 synced 1
79 r4 deliver log-mod r0
  sends sync-report r0 at 80: view 0 synced 1
79 r0 deliver sync-report r1
79 r0 deliver sync-report r2
79 r0 deliver sync-report r3
79 r0 deliver sync-report r4
80 r0 tick 80000
  sends log-mod r1 at 81: view 0 vector 0,0,0,1,0 commit 1 start 1 keys
  sends log-mod r2 at 81: view 0 vector 0,0,0,1,0 commit 1 start 1 keys
  sends log-mod r3 at 81: view 0 vector 0,0,0,1,0 commit 1 start 1 keys
  sends log-mod r4 at 81: view 0 vector 0,0,0,1,0 commit 1 start 1 keys
80 r1 deliver log-mod r0
  sends sync-report r0 at 81: view 0 synced 1
80 r2 deliver log-mod r0
  sends sync-report r0 at 81: view 0 synced 1
80 r3 deliver log-mod r0
  sends sync-report r0 at 81: view 0 synced 1
80 r4 deliver log-mod r0
  sends sync-report r0 at 81: view 0 synced 1
80 r0 deliver sync-report r1
80 r0 deliver sync-report r2
80 r0 deliver sync-report r3
80 r0 deliver sync-report r4
81 r0 tick 81000
  sends log-mod r1 at 82: view 0 vector 0,0,0,1,0 commit 1 start 1 keys
  sends log-mod r2 at 82: view 0 vector 0,0,0,1,0 commit 1 start 1 keys
  sends log-mod r3 at 82: view 0 vector 0,0,0,1,0 commit 1 start 1 keys
  sends log-mod r4 at 82: view 0 vector 0,0,0,1,0 commit 1 start 1 keys
81 r1 deliver log-mod r0
  sends sync-report r0 at 82: view 0 synced 1
81 r2 deliver log-mod r0
  sends sync-report r0 at 82: view 0 synced 1
81 r3 deliver log-mod r0
  sends sync-report r0 at 82: view 0 synced 1
81 r4 deliver log-mod r0
  sends sync-report r0 at 82: view 0 synced 1
81 r0 deliver sync-report r1
81 r0 deliver sync-report r2
81 r0 deliver sync-report r3
81 r0 deliver sync-report r4
82 r0 tick 82000
  sends log-mod r1 at 83: view 0 vector 0,0,0,1,0 commit 1 start 1 keys
  sends log-mod r2 at 83: view 0 vector 0,0,0,1,0 commit 1 start 1 keys
  sends log-mod r3 at 83: view 0 vector 0,0,0,1,0 commit 1 start 1 keys
  sends log-mod r4 at 83: view 0 vector 0,0,0,1,0 commit 1 start 1 keys
82 r1 deliver log-mod r0
  sends sync-report r0 at 83: view 0 synced 1
82 r2 deliver log-mod r0
  sends sync-report r0 at 83: view 0 synced 1
82 r3 deliver log-mod r0
  sends sync-report r0 at 83: view 0 synced 1
82 r4 deliver log-mod r0
  sends sync-report r0 at 83: view 0 synced 1
82 r0 deliver sync-report r1
82 r0 deliver sync-report r2
82 r0 deliver sync-report r3
82 r0 deliver sync-report r4
83 r0 tick 83000
  sends log-mod r1 at 84: view 0 vector 0,0,0,1,0 commit 1 start 1 keys
  sends log-mod r2 at 84: view 0 vector 0,0,0,1,0 commit 1 start 1 keys
  sends log-mod r3 at 84: view 0 vector 0,0,0,1,0 commit 1 start 1 keys
  sends log-mod r4 at 84: view 0 vector 0,0,0,1,0 commit 1 start 1 keys
83 r1 deliver log-mod r0
  sends sync-report r0 at 84: view 0 synced 1
83 r2 deliver log-mod r0
  sends sync-report r0 at 84: view 0 synced 1
83 r3 deliver log-mod r0
  sends sync-report r0 at 84: view 0 synced 1
83 r4 deliver log-mod r0
  sends sync-report r0 at 84: view 0 synced 1
83 r0 deliver sync-report r1
83 r0 deliver sync-report r2
83 r0 deliver sync-report r3
83 r0 deliver sync-report r4
84 r0 tick 84000
  sends log-mod r1 at 85: view 0 vector 0,0,0,1,0 commit 1 start 1 keys
  sends log-mod r2 at 85: view 0 vector 0,0,0,1,0 commit 1 start 1 keys
  sends log-mod r3 at 85: view 0 vector 0,0,0,1,0 commit 1 start 1 keys
  sends log-mod r4 at 85: view 0 vector 0,0,0,1,0 commit 1 start 1 keys
84 r1 deliver log-mod r0
  sends sync-report r0 at 85: view 0 synced 1
84 r2 deliver log-mod r0
  sends sync-report r0 at 85: view 0 synced 1
84 r3 deliver log-mod r0
  sends sync-report r0 at 85: view 0 synced 1
84 r4 deliver log-mod r0
  sends sync-report r0 at 85: view 0 synced 1
84 r0 deliver sync-report r1
84 r0 deliver sync-report r2
84 r0 deliver sync-report r3
84 r0 deliver sync-report r4
85 r0 tick 85000
  sends log-mod r1 at 86: view 0 vector 0,0,0,1,0 commit 1 start 1 keys
  sends log-mod r2 at 86: view 0 vector 0,0,0,1,0 commit 1 start 1 keys
  sends log-mod r3 at 86: view 0 vector 0,0,0,1,0 commit 1 start 1 keys
  sends log-mod r4 at 86: view 0 vector 0,0,0,1,0 commit 1 start 1 keys
85 r1 deliver log-mod r0
  sends sync-report r0 at 86: view 0 synced 1
85 r2 deliver log-mod r0
  sends sync-report r0 at 86: view 0 synced 1
85 r3 deliver log-mod r0
  sends sync-report r0 at 86: view 0 synced 1
85 r4 deliver log-mod r0
  sends sync-report r0 at 86: view 0 synced 1
85 r0 deliver sync-report r1
85 r0 deliver sync-report r2
85 r0 deliver sync-report r3
85 r0 deliver sync-report r4
86 r0 tick 86000
  sends log-mod r1 at 87: view 0 vector 0,0,0,1,0 commit 1 start 1 keys
  sends log-mod r2 at 87: view 0 vector 0,0,0,1,0 commit 1 start 1 keys
  sends log-mod r3 at 87: view 0 vector 0,0,0,1,0 commit 1 start 1 keys
  sends log-mod r4 at 87: view 0 vector 0,0,0,1,0 commit 1 start 1 keys
86 r1 deliver log-mod r0
  sends sync-report r0 at 87: view 0 synced 1
86 r2 deliver log-mod r0
  sends sync-report r0 at 87: view 0 synced 1
86 r3 deliver log-mod r0
  sends sync-report r0 at 87: view 0 synced 1
86 r4 deliver log-mod r0
  sends sync-report r0 at 87: view 0 synced 1
86 r0 deliver sync-report r1
86 r0 deliver sync-report r2
86 r0 deliver sync-report r3
86 r0 deliver sync-report r4
87 r0 tick 87000
  sends log-mod r1 at 88: view 0 vector 0,0,0,1,0 commit 1 start 1 keys
  sends log-mod r2 at 88: view 0 vector 0,0,0,1,0 commit 1 start 1 keys
  sends log-mod r3 at 88: view 0 vector 0,0,0,1,0 commit 1 start 1 keys
  sends log-mod r4 at 88: view 0 vector 0,0,0,1,0 commit 1 start 1 keys
87 r1 deliver log-mod r0
  sends sync-report r0 at 88: view 0 synced 1
87 r2 deliver log-mod r0
  sends sync-report r0 at 88: view 0 synced 1
87 r3 deliver log-mod r0
  sends sync-report r0 at 88: view 0 synced 1
87 r4 deliver log-mod r0
  sends sync-report r0 at 88: view 0 synced 1
87 r0 deliver sync-report r1
87 r0 deliver sync-report r2
87 r0 deliver sync-report r3
87 r0 deliver sync-report r4
88 r0 tick 88000
  sends log-mod r1 at 89: view 0 vector 0,0,0,1,0 commit 1 start 1 keys
  sends log-mod r2 at 89: view 0 vector 0,0,0,1,0 commit 1 start 1 keys
  sends log-mod r3 at 89: view 0 vector 0,0,0,1,0 commit 1 start 1 keys
  sends log-mod r4 at 89: view 0 vector 0,0,0,1,0 commit 1 start 1 keys
88 r1 deliver log-mod r0
  sends sync-report r0 at 89: view 0 synced 1
88 r2 deliver log-mod r0
  sends sync-report r0 at 89: view 0 synced 1
88 r3 deliver log-mod r0
  sends sync-report r0 at 89: view 0 synced 1
88 r4 deliver log-mod r0
  sends sync-report r0 at 89: view 0 synced 1
88 r0 deliver sync-report r1
88 r0 deliver sync-report r2
88 r0 deliver sync-report r3
88 r0 deliver sync-report r4
89 r0 tick 89000
  sends log-mod r1 at 90: view 0 vector 0,0,0,1,0 commit 1 start 1 keys
  sends log-mod r2 at 90: view 0 vector 0,0,0,1,0 commit 1 start 1 keys
  sends log-mod r3 at 90: view 0 vector 0,0,0,1,0 commit 1 start 1 keys
  sends log-mod r4 at 90: view 0 vector 0,0,0,1,0 commit 1 start 1 keys
89 r1 deliver log-mod r0
  sends sync-report r0 at 90: view 0 synced 1
89 r2 deliver log-mod r0
  sends sync-report r0 at 90: view 0 synced 1
89 r3 deliver log-mod r0
  sends sync-report r0 at 90: view 0 synced 1
89 r4 deliver log-mod r0
  sends sync-report r0 at 90: view 0 synced 1
89 r0 deliver sync-report r1
89 r0 deliver sync-report r2
89 r0 deliver sync-report r3
89 r0 deliver sync-report r4
90 r0 tick 90000
  sends log-mod r1 at 91: view 0 vector 0,0,0,1,0 commit 1 start 1 keys
  sends log-mod r2 at 91: view 0 vector 0,0,0,1,0 commit 1 start 1 keys
  sends log-mod r3 at 91: view 0 vector 0,0,0,1,0 commit 1 start 1 keys
  sends log-mod r4 at 91: view 0 vector 0,0,0,1,0 commit 1 start 1 keys
90 c0 tick 90000
  send c0 2 get a
  sends request p0 at 91: num 2 command get a
90 r1 deliver log-mod r0
  sends sync-report r0 at 91: view 0 synced 1
90 r2 deliver log-mod r0
  sends sync-report r0 at 91: view 0 synced 1
90 r3 deliver log-mod r0
  sends sync-report r0 at 91: view 0 synced 1
90 r4 deliver log-mod r0
  sends sync-report r0 at 91: view 0 synced 1
90 r0 deliver sync-report r1
90 r0 deliver sync-report r2
90 r0 deliver sync-report r3
90 r0 deliver sync-report r4
91 r0 tick 91000
  sends log-mod r1 at 92: view 0 vector 0,0,0,1,0 commit 1 start 1 keys
  sends log-mod r2 at 92: view 0 vector 0,0,0,1,0 commit 1 start 1 keys
  sends log-mod r3 at 92: view 0 vector 0,0,0,1,0 commit 1 start 1 keys
  sends log-mod r4 at 92: view 0 vector 0,0,0,1,0 commit 1 start 1 keys
91 r1 deliver log-mod r0
  sends sync-report r0 at 92: view 0 synced 1
91 r2 deliver log-mod r0
  sends sync-report r0 at 92: view 0 synced 1
91 r3 deliver log-mod r0
  sends sync-report r0 at 92: view 0 synced 1
91 r4 deliver log-mod r0
  sends sync-report r0 at 92: view 0 synced 1
91 p0 deliver request c0
  sends timed r0 at 92: sent 91000 deadline 92500 id c0/2
  sends timed r1 at 92: sent 91000 deadline 92500 id c0/2
  sends timed r2 at 92: sent 91000 deadline 92500 id c0/2
  sends timed r3 at 92: sent 91000 deadline 92500 id c0/2
  sends timed r4 at 92: sent 91000 deadline 92500 id c0/2
91 r0 deliver sync-report r1
91 r0 deliver sync-report r2
91 r0 deliver sync-report r3
91 r0 deliver sync-report r4
92 r0 tick 92000
  sends log-mod r1 at 93: view 0 vector 0,0,0,1,0 commit 1 start 1 keys
  sends log-mod r2 at 93: view 0 vector 0,0,0,1,0 commit 1 start 1 keys
  sends log-mod r3 at 93: view 0 vector 0,0,0,1,0 commit 1 start 1 keys
  sends log-mod r4 at 93: view 0 vector 0,0,0,1,0 commit 1 start 1 keys
92 r1 deliver log-mod r0
  sends sync-report r0 at 93: view 0 synced 1
92 r2 deliver log-mod r0
  sends sync-report r0 at 93: view 0 synced 1
92 r3 deliver log-mod r0
  sends sync-report r0 at 93: view 0 synced 1
92 r4 deliver log-mod r0
  sends sync-report r0 at 93: view 0 synced 1
92 r0 deliver sync-report r1
92 r0 deliver sync-report r2
92 r0 deliver sync-report r3
92 r0 deliver sync-report r4
92 r0 deliver timed p0
  now normal view 0 vector 0,0,0,1,0 synced 1 commit 1 early +92500/c0/2
92 r1 deliver timed p0
  now normal view 0 vector 0,0,0,1,0 synced 1 commit 1 early +92500/c0/2
92 r2 deliver timed p0
  now normal view 0 vector 0,0,0,1,0 synced 1 commit 1 early +92500/c0/2
92 r3 deliver timed p0
  now normal view 0 vector 0,0,0,1,0 synced 1 commit 1 early +92500/c0/2
92 r4 deliver timed p0
  now normal view 0 vector 0,0,0,1,0 synced 1 commit 1 early +92500/c0/2
93 r0 tick 93000
  now normal view 0 vector 0,0,0,1,0 synced 2 commit 1 log +92500/c0/2
  sends fast-reply p0 at 94: view 0 id c0/2 digest 7bf7d5b69d0cab1fa03c6e781407afb9d53eca55 vector 0,0,0,1,0 delay 1000 answer value 1
  sends log-mod r1 at 94: view 0 vector 0,0,0,1,0 commit 1 start 1 keys 92500/c0/2
  sends log-mod r2 at 94: view 0 vector 0,0,0,1,0 commit 1 start 1 keys 92500/c0/2
  sends log-mod r3 at 94: view 0 vector 0,0,0,1,0 commit 1 start 1 keys 92500/c0/2
  sends log-mod r4 at 94: view 0 vector 0,0,0,1,0 commit 1 start 1 keys 92500/c0/2
93 r1 tick 93000
  now normal view 0 vector 0,0,0,1,0 synced 1 commit 1 log +92500/c0/2
  sends fast-reply p0 at 94: view 0 id c0/2 digest 7bf7d5b69d0cab1fa03c6e781407afb9d53eca55 vector 0,0,0,1,0 delay 1000
93 r2 tick 93000
  now normal view 0 vector 0,0,0,1,0 synced 1 commit 1 log +92500/c0/2
  sends fast-reply p0 at 94: view 0 id c0/2 digest 7bf7d5b69d0cab1fa03c6e781407afb9d53eca55 vector 0,0,0,1,0 delay 1000
93 r3 tick 93000
  now normal view 0 vector 0,0,0,1,0 synced 1 commit 1 log +92500/c0/2
  sends fast-reply p0 at 94: view 0 id c0/2 digest 7bf7d5b69d0cab1fa03c6e781407afb9d53eca55 vector 0,0,0,1,0 delay 1000
93 r4 tick 93000
  now normal view 0 vector 0,0,0,1,0 synced 1 commit 1 log +92500/c0/2
  sends fast-reply p0 at 94: view 0 id c0/2 digest 7bf7d5b69d0cab1fa03c6e781407afb9d53eca55 vector 0,0,0,1,0 delay 1000
93 r1 deliver log-mod r0
  sends sync-report r0 at 94: view 0 synced 1
93 r2 deliver log-mod r0
  sends sync-report r0 at 94: view 0 synced 1
93 r3 deliver log-mod r0
  sends sync-report r0 at 94: view 0 synced 1
93 r4 deliver log-mod r0
  sends sync-report r0 at 94: view 0 synced 1
93 r0 deliver sync-report r1
93 r0 deliver sync-report r2
93 r0 deliver sync-report r3
93 r0 deliver sync-report r4
94 r0 tick 94000
  sends log-mod r1 at 95: view 0 vector 0,0,0,1,0 commit 1 start 1 keys 92500/c0/2
  sends log-mod r2 at 95: view 0 vector 0,0,0,1,0 commit 1 start 1 keys 92500/c0/2
  sends log-mod r3 at 95: view 0 vector 0,0,0,1,0 commit 1 start 1 keys 92500/c0/2
  sends log-mod r4 at 95: view 0 vector 0,0,0,1,0 commit 1 start 1 keys 92500/c0/2
94 p0 deliver fast-reply r0
94 r1 deliver log-mod r0
  now normal view 0 vector 0,0,0,1,0 synced 2 commit 1
  sends slow-reply p0 at 95: view 0 id c0/2 delay 1000
  sends sync-report r0 at 95: view 0 synced 2
94 r2 deliver log-mod r0
  now normal view 0 vector 0,0,0,1,0 synced 2 commit 1
  sends slow-reply p0 at 95: view 0 id c0/2 delay 1000
  sends sync-report r0 at 95: view 0 synced 2
94 r3 deliver log-mod r0
  now normal view 0 vector 0,0,0,1,0 synced 2 commit 1
  sends slow-reply p0 at 95: view 0 id c0/2 delay 1000
  sends sync-report r0 at 95: view 0 synced 2
94 r4 deliver log-mod r0
  now normal view 0 vector 0,0,0,1,0 synced 2 commit 1
  sends slow-reply p0 at 95: view 0 id c0/2 delay 1000
  sends sync-report r0 at 95: view 0 synced 2
94 p0 deliver fast-reply r1
94 p0 deliver fast-reply r2
94 p0 deliver fast-reply r3
  sends answer c0 at 95: num 2 answer value 1 path fast
94 p0 deliver fast-reply r4
94 r0 deliver sync-report r1
94 r0 deliver sync-report r2
94 r0 deliver sync-report r3
94 r0 deliver sync-report r4
95 r0 tick 95000
  sends log-mod r1 at 96: view 0 vector 0,0,0,1,0 commit 1 start 1 keys 92500/c0/2
  sends log-mod r2 at 96: view 0 vector 0,0,0,1,0 commit 1 start 1 keys 92500/c0/2
  sends log-mod r3 at 96: view 0 vector 0,0,0,1,0 commit 1 start 1 keys 92500/c0/2
  sends log-mod r4 at 96: view 0 vector 0,0,0,1,0 commit 1 start 1 keys 92500/c0/2
95 r1 deliver log-mod r0
  sends sync-report r0 at 96: view 0 synced 2
95 r2 deliver log-mod r0
  sends sync-report r0 at 96: view 0 synced 2
95 r3 deliver log-mod r0
  sends sync-report r0 at 96: view 0 synced 2
95 r4 deliver log-mod r0
  sends sync-report r0 at 96: view 0 synced 2
95 p0 deliver slow-reply r1
95 r0 deliver sync-report r1
95 p0 deliver slow-reply r2
95 r0 deliver sync-report r2
  now normal view 0 vector 0,0,0,1,0 synced 2 commit 2
95 p0 deliver slow-reply r3
95 r0 deliver sync-report r3
95 p0 deliver slow-reply r4
95 r0 deliver sync-report r4
95 c0 deliver answer p0
  accept c0 2 value 1 fast
96 r0 tick 96000
  sends log-mod r1 at 97: view 0 vector 0,0,0,1,0 commit 2 start 2 keys
  sends log-mod r2 at 97: view 0 vector 0,0,0,1,0 commit 2 start 2 keys
  sends log-mod r3 at 97: view 0 vector 0,0,0,1,0 commit 2 start 2 keys
  sends log-mod r4 at 97: view 0 vector 0,0,0,1,0 commit 2 start 2 keys
96 r1 deliver log-mod r0
  sends sync-report r0 at 97: view 0 synced 2
96 r2 deliver log-mod r0
  sends sync-report r0 at 97: view 0 synced 2
96 r3 deliver log-mod r0
  sends sync-report r0 at 97: view 0 synced 2
96 r4 deliver log-mod r0
  sends sync-report r0 at 97: view 0 synced 2
96 r0 deliver sync-report r1
96 r0 deliver sync-report r2
96 r0 deliver sync-report r3
96 r0 deliver sync-report r4
97 r0 tick 97000
  sends log-mod r1 at 98: view 0 vector 0,0,0,1,0 commit 2 start 2 keys
  sends log-mod r2 at 98: view 0 vector 0,0,0,1,0 commit 2 start 2 keys
  sends log-mod r3 at 98: view 0 vector 0,0,0,1,0 commit 2 start 2 keys
  sends log-mod r4 at 98: view 0 vector 0,0,0,1,0 commit 2 start 2 keys
97 r1 deliver log-mod r0
  now normal view 0 vector 0,0,0,1,0 synced 2 commit 2
  sends sync-report r0 at 98: view 0 synced 2
97 r2 deliver log-mod r0
  now normal view 0 vector 0,0,0,1,0 synced 2 commit 2
  sends sync-report r0 at 98: view 0 synced 2
97 r3 deliver log-mod r0
  now normal view 0 vector 0,0,0,1,0 synced 2 commit 2
  sends sync-report r0 at 98: view 0 synced 2
97 r4 deliver log-mod r0
  now normal view 0 vector 0,0,0,1,0 synced 2 commit 2
  sends sync-report r0 at 98: view 0 synced 2
97 r0 deliver sync-report r1
97 r0 deliver sync-report r2
97 r0 deliver sync-report r3
97 r0 deliver sync-report r4
98 r0 tick 98000
  sends log-mod r1 at 99: view 0 vector 0,0,0,1,0 commit 2 start 2 keys
  sends log-mod r2 at 99: view 0 vector 0,0,0,1,0 commit 2 start 2 keys
  sends log-mod r3 at 99: view 0 vector 0,0,0,1,0 commit 2 start 2 keys
  sends log-mod r4 at 99: view 0 vector 0,0,0,1,0 commit 2 start 2 keys
98 r1 deliver log-mod r0
  sends sync-report r0 at 99: view 0 synced 2
98 r2 deliver log-mod r0
  sends sync-report r0 at 99: view 0 synced 2
98 r3 deliver log-mod r0
  sends sync-report r0 at 99: view 0 synced 2
98 r4 deliver log-mod r0
  sends sync-report r0 at 99: view 0 synced 2
98 r0 deliver sync-report r1
98 r0 deliver sync-report r2
98 r0 deliver sync-report r3
98 r0 deliver sync-report r4
99 r0 tick 99000
  sends log-mod r1 at 100: view 0 vector 0,0,0,1,0 commit 2 start 2 keys
  sends log-mod r2 at 100: view 0 vector 0,0,0,1,0 commit 2 start 2 keys
  sends log-mod r3 at 100: view 0 vector 0,0,0,1,0 commit 2 start 2 keys
  sends log-mod r4 at 100: view 0 vector 0,0,0,1,0 commit 2 start 2 keys
99 r1 deliver log-mod r0
  sends sync-report r0 at 100: view 0 synced 2
99 r2 deliver log-mod r0
  sends sync-report r0 at 100: view 0 synced 2
99 r3 deliver log-mod r0
  sends sync-report r0 at 100: view 0 synced 2
99 r4 deliver log-mod r0
  sends sync-report r0 at 100: view 0 synced 2
99 r0 deliver sync-report r1
99 r0 deliver sync-report r2
99 r0 deliver sync-report r3
99 r0 deliver sync-report r4
100 r0 tick 100000
  sends log-mod r1 at 101: view 0 vector 0,0,0,1,0 commit 2 start 2 keys
  sends log-mod r2 at 101: view 0 vector 0,0,0,1,0 commit 2 start 2 keys
  sends log-mod r3 at 101: view 0 vector 0,0,0,1,0 commit 2 start 2 keys
  sends log-mod r4 at 101: view 0 vector 0,0,0,1,0 commit 2 start 2 keys
100 r1 deliver log-mod r0
  sends sync-report r0 at 101: view 0 synced 2
100 r2 deliver log-mod r0
  sends sync-report r0 at 101: view 0 synced 2
100 r3 deliver log-mod r0
  sends sync-report r0 at 101: view 0 synced 2
100 r4 deliver log-mod r0
  sends sync-report r0 at 101: view 0 synced 2
100 r0 deliver sync-report r1
100 r0 deliver sync-report r2
100 r0 deliver sync-report r3
100 r0 deliver sync-report r4
101 r0 tick 101000
  sends log-mod r1 at 102: view 0 vector 0,0,0,1,0 commit 2 start 2 keys
  sends log-mod r2 at 102: view 0 vector 0,0,0,1,0 commit 2 start 2 keys
  sends log-mod r3 at 102: view 0 vector 0,0,0,1,0 commit 2 start 2 keys
  sends log-mod r4 at 102: view 0 vector 0,0,0,1,0 commit 2 start 2 keys
101 r1 deliver log-mod r0
  sends sync-report r0 at 102: view 0 synced 2
101 r2 deliver log-mod r0
  sends sync-report r0 at 102: view 0 synced 2
101 r3 deliver log-mod r0
  sends sync-report r0 at 102: view 0 synced 2
101 r4 deliver log-mod r0
  sends sync-report r0 at 102: view 0 synced 2
101 r0 deliver sync-report r1
101 r0 deliver sync-report r2
101 r0 deliver sync-report r3
101 r0 deliver sync-report r4
102 r0 tick 102000
  sends log-mod r1 at 103: view 0 vector 0,0,0,1,0 commit 2 start 2 keys
  sends log-mod r2 at 103: view 0 vector 0,0,0,1,0 commit 2 start 2 keys
  sends log-mod r3 at 103: view 0 vector 0,0,0,1,0 commit 2 start 2 keys
  sends log-mod r4 at 103: view 0 vector 0,0,0,1,0 commit 2 start 2 keys
102 r1 deliver log-mod r0
  sends sync-report r0 at 103: view 0 synced 2
102 r2 deliver log-mod r0
  sends sync-report r0 at 103: view 0 synced 2
102 r3 deliver log-mod r0
  sends sync-report r0 at 103: view 0 synced 2
102 r4 deliver log-mod r0
  sends sync-report r0 at 103: view 0 synced 2
102 r0 deliver sync-report r1
102 r0 deliver sync-report r2
102 r0 deliver sync-report r3
102 r0 deliver sync-report r4
103 r0 tick 103000
  sends log-mod r1 at 104: view 0 vector 0,0,0,1,0 commit 2 start 2 keys
  sends log-mod r2 at 104: view 0 vector 0,0,0,1,0 commit 2 start 2 keys
  sends log-mod r3 at 104: view 0 vector 0,0,0,1,0 commit 2 start 2 keys
  sends log-mod r4 at 104: view 0 vector 0,0,0,1,0 commit 2 start 2 keys
103 r1 deliver log-mod r0
  sends sync-report r0 at 104: view 0 synced 2
103 r2 deliver log-mod r0
  sends sync-report r0 at 104: view 0 synced 2
103 r3 deliver log-mod r0
  sends sync-report r0 at 104: view 0 synced 2
103 r4 deliver log-mod r0
  sends sync-report r0 at 104: view 0 synced 2
103 r0 deliver sync-report r1
103 r0 deliver sync-report r2
103 r0 deliver sync-report r3
103 r0 deliver sync-report r4
104 r0 tick 104000
  sends log-mod r1 at 105: view 0 vector 0,0,0,1,0 commit 2 start 2 keys
  sends log-mod r2 at 105: view 0 vector 0,0,0,1,0 commit 2 start 2 keys
  sends log-mod r3 at 105: view 0 vector 0,0,0,1,0 commit 2 start 2 keys
  sends log-mod r4 at 105: view 0 vector 0,0,0,1,0 commit 2 start 2 keys
104 r1 deliver log-mod r0
  sends sync-report r0 at 105: view 0 synced 2
104 r2 deliver log-mod r0
  sends sync-report r0 at 105: view 0 synced 2
104 r3 deliver log-mod r0
  sends sync-report r0 at 105: view 0 synced 2
104 r4 deliver log-mod r0
  sends sync-report r0 at 105: view 0 synced 2
104 r0 deliver sync-report r1
104 r0 deliver sync-report r2
104 r0 deliver sync-report r3
104 r0 deliver sync-report r4
105 r0 tick 105000
  sends log-mod r1 at 106: view 0 vector 0,0,0,1,0 commit 2 start 2 keys
  sends log-mod r2 at 106: view 0 vector 0,0,0,1,0 commit 2 start 2 keys
  sends log-mod r3 at 106: view 0 vector 0,0,0,1,0 commit 2 start 2 keys
  sends log-mod r4 at 106: view 0 vector 0,0,0,1,0 commit 2 start 2 keys
105 r1 deliver log-mod r0
  sends sync-report r0 at 106: view 0 synced 2
105 r2 deliver log-mod r0
  sends sync-report r0 at 106: view 0 synced 2
105 r3 deliver log-mod r0
  sends sync-report r0 at 106: view 0 synced 2
105 r4 deliver log-mod r0
  sends sync-report r0 at 106: view 0 synced 2
105 r0 deliver sync-report r1
105 r0 deliver sync-report r2
105 r0 deliver sync-report r3
105 r0 deliver sync-report r4
106 r0 tick 106000
  sends log-mod r1 at 107: view 0 vector 0,0,0,1,0 commit 2 start 2 keys
  sends log-mod r2 at 107: view 0 vector 0,0,0,1,0 commit 2 start 2 keys
  sends log-mod r3 at 107: view 0 vector 0,0,0,1,0 commit 2 start 2 keys
  sends log-mod r4 at 107: view 0 vector 0,0,0,1,0 commit 2 start 2 keys
106 r1 deliver log-mod r0
  sends sync-report r0 at 107: view 0 synced 2
106 r2 deliver log-mod r0
  sends sync-report r0 at 107: view 0 synced 2
106 r3 deliver log-mod r0
  sends sync-report r0 at 107: view 0 synced 2
106 r4 deliver log-mod r0
  sends sync-report r0 at 107: view 0 synced 2
106 r0 deliver sync-report r1
106 r0 deliver sync-report r2
106 r0 deliver sync-report r3
106 r0 deliver sync-report r4
107 r0 tick 107000
  sends log-mod r1 at 108: view 0 vector 0,0,0,1,0 commit 2 start 2 keys
  sends log-mod r2 at 108: view 0 vector 0,0,0,1,0 commit 2 start 2 keys
  sends log-mod r3 at 108: view 0 vector 0,0,0,1,0 commit 2 start 2 keys
  sends log-mod r4 at 108: view 0 vector 0,0,0,1,0 commit 2 start 2 keys
107 r1 deliver log-mod r0
  sends sync-report r0 at 108: view 0 synced 2
107 r2 deliver log-mod r0
  sends sync-report r0 at 108: view 0 synced 2
107 r3 deliver log-mod r0
  sends sync-report r0 at 108: view 0 synced 2
107 r4 deliver log-mod r0
  sends sync-report r0 at 108: view 0 synced 2
107 r0 deliver sync-report r1
107 r0 deliver sync-report r2
107 r0 deliver sync-report r3
107 r0 deliver sync-report r4
108 r0 tick 108000
  sends log-mod r1 at 109: view 0 vector 0,0,0,1,0 commit 2 start 2 keys
  sends log-mod r2 at 109: view 0 vector 0,0,0,1,0 commit 2 start 2 keys
  sends log-mod r3 at 109: view 0 vector 0,0,0,1,0 commit 2 start 2 keys
  sends log-mod r4 at 109: view 0 vector 0,0,0,1,0 commit 2 start 2 keys
108 r1 deliver log-mod r0
  sends sync-report r0 at 109: view 0 synced 2
108 r2 deliver log-mod r0
  sends sync-report r0 at 109: view 0 synced 2
108 r3 deliver log-mod r0
  sends sync-report r0 at 109: view 0 synced 2
108 r4 deliver log-mod r0
  sends sync-report r0 at 109: view 0 synced 2
108 r0 deliver sync-report r1
108 r0 deliver sync-report r2
108 r0 deliver sync-report r3
108 r0 deliver sync-report r4
109 r0 tick 109000
  sends log-mod r1 at 110: view 0 vector 0,0,0,1,0 commit 2 start 2 keys
  sends log-mod r2 at 110: view 0 vector 0,0,0,1,0 commit 2 start 2 keys
  sends log-mod r3 at 110: view 0 vector 0,0,0,1,0 commit 2 start 2 keys
  sends log-mod r4 at 110: view 0 vector 0,0,0,1,0 commit 2 start 2 keys
109 r1 deliver log-mod r0
  sends sync-report r0 at 110: view 0 synced 2
109 r2 deliver log-mod r0
  sends sync-report r0 at 110: view 0 synced 2
109 r3 deliver log-mod r0
  sends sync-report r0 at 110: view 0 synced 2
109 r4 deliver log-mod r0
  sends sync-report r0 at 110: view 0 synced 2
109 r0 deliver sync-report r1
109 r0 deliver sync-report r2
109 r0 deliver sync-report r3
109 r0 deliver sync-report r4
110 r0 tick 110000
  sends log-mod r1 at 111: view 0 vector 0,0,0,1,0 commit 2 start 2 keys
  sends log-mod r2 at 111: view 0 vector 0,0,0,1,0 commit 2 start 2 keys
  sends log-mod r3 at 111: view 0 vector 0,0,0,1,0 commit 2 start 2 keys
  sends log-mod r4 at 111: view 0 vector 0,0,0,1,0 commit 2 start 2 keys
110 r1 deliver log-mod r0
  sends sync-report r0 at 111: view 0 synced 2
110 r2 deliver log-mod r0
  sends sync-report r0 at 111: view 0 synced 2
110 r3 deliver log-mod r0
  sends sync-report r0 at 111: view 0 synced 2
110 r4 deliver log-mod r0
  sends sync-report r0 at 111: view 0 synced 2
110 r0 deliver sync-report r1
110 r0 deliver sync-report r2
110 r0 deliver sync-report r3
110 r0 deliver sync-report r4
111 r0 tick 111000
  sends log-mod r1 at 112: view 0 vector 0,0,0,1,0 commit 2 start 2 keys
  sends log-mod r2 at 112: view 0 vector 0,0,0,1,0 commit 2 start 2 keys
  sends log-mod r3 at 112: view 0 vector 0,0,0,1,0 commit 2 start 2 keys
  sends log-mod r4 at 112: view 0 vector 0,0,0,1,0 commit 2 start 2 keys
111 r1 deliver log-mod r0
  sends sync-report r0 at 112: view 0 synced 2
111 r2 deliver log-mod r0
  sends sync-report r0 at 112: view 0 synced 2
111 r3 deliver log-mod r0
  sends sync-report r0 at 112: view 0 synced 2
111 r4 deliver log-mod r0
  sends sync-report r0 at 112: view 0 synced 2
111 r0 deliver sync-report r1
111 r0 deliver sync-report r2
111 r0 deliver sync-report r3
111 r0 deliver sync-report r4
112 r0 tick 112000
  sends log-mod r1 at 113: view 0 vector 0,0,0,1,0 commit 2 start 2 keys
  sends log-mod r2 at 113: view 0 vector 0,0,0,1,0 commit 2 start 2 keys
  sends log-mod r3 at 113: view 0 vector 0,0,0,1,0 commit 2 start 2 keys
  sends log-mod r4 at 113: view 0 vector 0,0,0,1,0 commit 2 start 2 keys
112 r1 deliver log-mod r0
  sends sync-report r0 at 113: view 0 synced 2
112 r2 deliver log-mod r0
  sends sync-report r0 at 113: view 0 synced 2
112 r3 deliver log-mod r0
  sends sync-report r0 at 113: view 0 synced 2
112 r4 deliver log-mod r0
  sends sync-report r0 at 113: view 0 synced 2
112 r0 deliver sync-report r1
112 r0 deliver sync-report r2
112 r0 deliver sync-report r3
112 r0 deliver sync-report r4
113 r0 tick 113000
  sends log-mod r1 at 114: view 0 vector 0,0,0,1,0 commit 2 start 2 keys
  sends log-mod r2 at 114: view 0 vector 0,0,0,1,0 commit 2 start 2 keys
  sends log-mod r3 at 114: view 0 vector 0,0,0,1,0 commit 2 start 2 keys
  sends log-mod r4 at 114: view 0 vector 0,0,0,1,0 commit 2 start 2 keys
113 r1 deliver log-mod r0
  sends sync-report r0 at 114: view 0 synced 2
113 r2 deliver log-mod r0
  sends sync-report r0 at 114: view 0 synced 2
113 r3 deliver log-mod r0
  sends sync-report r0 at 114: view 0 synced 2
113 r4 deliver log-mod r0
  sends sync-report r0 at 114: view 0 synced 2
113 r0 deliver sync-report r1
113 r0 deliver sync-report r2
113 r0 deliver sync-report r3
113 r0 deliver sync-report r4
114 r0 tick 114000
  sends log-mod r1 at 115: view 0 vector 0,0,0,1,0 commit 2 start 2 keys
  sends log-mod r2 at 115: view 0 vector 0,0,0,1,0 commit 2 start 2 keys
  sends log-mod r3 at 115: view 0 vector 0,0,0,1,0 commit 2 start 2 keys
  sends log-mod r4 at 115: view 0 vector 0,0,0,1,0 commit 2 start 2 keys
114 r1 deliver log-mod r0
  sends sync-report r0 at 115: view 0 synced 2
114 r2 deliver log-mod r0
  sends sync-report r0 at 115: view 0 synced 2
114 r3 deliver log-mod r0
  sends sync-report r0 at 115: view 0 synced 2
114 r4 deliver log-mod r0
  sends sync-report r0 at 115: view 0 synced 2
114 r0 deliver sync-report r1
114 r0 deliver sync-report r2
114 r0 deliver sync-report r3
114 r0 deliver sync-report r4
115 r0 tick 115000
  sends log-mod r1 at 116: view 0 vector 0,0,0,1,0 commit 2 start 2 keys
  sends log-mod r2 at 116: view 0 vector 0,0,0,1,0 commit 2 start 2 keys
  sends log-mod r3 at 116: view 0 vector 0,0,0,1,0 commit 2 start 2 keys
  sends log-mod r4 at 116: view 0 vector 0,0,0,1,0 commit 2 start 2 keys
115 r1 deliver log-mod r0
  sends sync-report r0 at 116: view 0 synced 2
115 r2 deliver log-mod r0
  sends sync-report r0 at 116: view 0 synced 2
115 r3 deliver log-mod r0
  sends sync-report r0 at 116: view 0 synced 2
115 r4 deliver log-mod r0
  sends sync-report r0 at 116: view 0 synced 2
115 r0 deliver sync-report r1
115 r0 deliver sync-report r2
115 r0 deliver sync-report r3
115 r0 deliver sync-report r4
116 r0 tick 116000
  sends log-mod r1 at 117: view 0 vector 0,0,0,1,0 commit 2 start 2 keys
  sends log-mod r2 at 117: view 0 vector 0,0,0,1,0 commit 2 start 2 keys
  sends log-mod r3 at 117: view 0 vector 0,0,0,1,0 commit 2 start 2 keys
  sends log-mod r4 at 117: view 0 vector 0,0,0,1,0 commit 2 start 2 keys
116 r1 deliver log-mod r0
  sends sync-report r0 at 117: view 0 synced 2
116 r2 deliver log-mod r0
  sends sync-report r0 at 117: view 0 synced 2
116 r3 deliver log-mod r0
  sends sync-report r0 at 117: view 0 synced 2
116 r4 deliver log-mod r0
  sends sync-report r0 at 117: view 0 synced 2
116 r0 deliver sync-report r1
116 r0 deliver sync-report r2
116 r0 deliver sync-report r3
116 r0 deliver sync-report r4
117 r0 tick 117000
  sends log-mod r1 at 118: view 0 vector 0,0,0,1,0 commit 2 start 2 keys
  sends log-mod r2 at 118: view 0 vector 0,0,0,1,0 commit 2 start 2 keys
  sends log-mod r3 at 118: view 0 vector 0,0,0,1,0 commit 2 start 2 keys
  sends log-mod r4 at 118: view 0 vector 0,0,0,1,0 commit 2 start 2 keys
117 r1 deliver log-mod r0
  sends sync-report r0 at 118: view 0 synced 2
117 r2 deliver log-mod r0
  sends sync-report r0 at 118: view 0 synced 2
117 r3 deliver log-mod r0
  sends sync-report r0 at 118: view 0 synced 2
117 r4 deliver log-mod r0
  sends sync-report r0 at 118: view 0 synced 2
117 r0 deliver sync-report r1
117 r0 deliver sync-report r2
117 r0 deliver sync-report r3
117 r0 deliver sync-report r4
118 r0 tick 118000
  sends log-mod r1 at 119: view 0 vector 0,0,0,1,0 commit 2 start 2 keys
  sends log-mod r2 at 119: view 0 vector 0,0,0,1,0 commit 2 start 2 keys
  sends log-mod r3 at 119: view 0 vector 0,0,0,1,0 commit 2 start 2 keys
  sends log-mod r4 at 119: view 0 vector 0,0,0,1,0 commit 2 start 2 keys
118 r1 deliver log-mod r0
  sends sync-report r0 at 119: view 0 synced 2
118 r2 deliver log-mod r0
  sends sync-report r0 at 119: view 0 synced 2
118 r3 deliver log-mod r0
  sends sync-report r0 at 119: view 0 synced 2
118 r4 deliver log-mod r0
  sends sync-report r0 at 119: view 0 synced 2
118 r0 deliver sync-report r1
118 r0 deliver sync-report r2
118 r0 deliver sync-report r3
118 r0 deliver sync-report r4
119 r0 tick 119000
  sends log-mod r1 at 120: view 0 vector 0,0,0,1,0 commit 2 start 2 keys
  sends log-mod r2 at 120: view 0 vector 0,0,0,1,0 commit 2 start 2 keys
  sends log-mod r3 at 120: view 0 vector 0,0,0,1,0 commit 2 start 2 keys
  sends log-mod r4 at 120: view 0 vector 0,0,0,1,0 commit 2 start 2 keys
119 r1 deliver log-mod r0
  sends sync-report r0 at 120: view 0 synced 2
119 r2 deliver log-mod r0
  sends sync-report r0 at 120: view 0 synced 2
119 r3 deliver log-mod r0
  sends sync-report r0 at 120: view 0 synced 2
119 r4 deliver log-mod r0
  sends sync-report r0 at 120: view 0 synced 2
119 r0 deliver sync-report r1
119 r0 deliver sync-report r2
119 r0 deliver sync-report r3
119 r0 deliver sync-report r4
120 r0 tick 120000
  sends log-mod r1 at 121: view 0 vector 0,0,0,1,0 commit 2 start 2 keys
  sends log-mod r2 at 121: view 0 vector 0,0,0,1,0 commit 2 start 2 keys
  sends log-mod r3 at 121: view 0 vector 0,0,0,1,0 commit 2 start 2 keys
  sends log-mod r4 at 121: view 0 vector 0,0,0,1,0 commit 2 start 2 keys
120 r1 deliver log-mod r0
  sends sync-report r0 at 121: view 0 synced 2
120 r2 deliver log-mod r0
  sends sync-report r0 at 121: view 0 synced 2
120 r3 deliver log-mod r0
  sends sync-report r0 at 121: view 0 synced 2
120 r4 deliver log-mod r0
  sends sync-report r0 at 121: view 0 synced 2
120 r0 deliver sync-report r1
120 r0 deliver sync-report r2
120 r0 deliver sync-report r3
120 r0 deliver sync-report r4
text
send c0 1 put a 1
accept c0 1 done fast
send c0 2 get a
accept c0 2 value 1 fast
at 1 c0 1 put a 1 gives done
at 2 c0 2 get a gives value 1
end
