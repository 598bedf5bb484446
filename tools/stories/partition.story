1 r0 tick 1000
  sends log-mod r1 at 2: view 0 vector 0,0,0 commit 0 start 0 keys
  sends log-mod r2 at 2: view 0 vector 0,0,0 commit 0 start 0 keys
1 c0 tick 1000
  send c0 1 put a 1
  sends request p0 at 2: num 1 command put a 1
2 r0 tick 2000
  sends log-mod r1 at 3: view 0 vector 0,0,0 commit 0 start 0 keys
  sends log-mod r2 at 3: view 0 vector 0,0,0 commit 0 start 0 keys
2 r1 deliver log-mod r0
  sends sync-report r0 at 3: view 0 synced 0
2 r2 deliver log-mod r0
  sends sync-report r0 at 3: view 0 synced 0
2 p0 deliver request c0
  sends timed r0 at 3: sent 2000 deadline 12500 id c0/1
  sends timed r1 at 3: sent 2000 deadline 12500 id c0/1
  sends timed r2 at 3: sent 2000 deadline 12500 id c0/1
3 r0 tick 3000
  sends log-mod r1 at 4: view 0 vector 0,0,0 commit 0 start 0 keys
  sends log-mod r2 at 4: view 0 vector 0,0,0 commit 0 start 0 keys
3 r1 deliver log-mod r0
  sends sync-report r0 at 4: view 0 synced 0
3 r2 deliver log-mod r0
  sends sync-report r0 at 4: view 0 synced 0
3 r0 deliver sync-report r1
3 r0 deliver sync-report r2
3 r0 deliver timed p0
  now normal view 0 vector 0,0,0 synced 0 commit 0 early +12500/c0/1
3 r1 deliver timed p0
  now normal view 0 vector 0,0,0 synced 0 commit 0 early +12500/c0/1
3 r2 deliver timed p0
  now normal view 0 vector 0,0,0 synced 0 commit 0 early +12500/c0/1
4 r0 tick 4000
  sends log-mod r1 at 5: view 0 vector 0,0,0 commit 0 start 0 keys
  sends log-mod r2 at 5: view 0 vector 0,0,0 commit 0 start 0 keys
4 r1 deliver log-mod r0
  sends sync-report r0 at 5: view 0 synced 0
4 r2 deliver log-mod r0
  sends sync-report r0 at 5: view 0 synced 0
4 r0 deliver sync-report r1
4 r0 deliver sync-report r2
5 r0 tick 5000
  sends log-mod r1 at 6: view 0 vector 0,0,0 commit 0 start 0 keys
  sends log-mod r2 at 6: view 0 vector 0,0,0 commit 0 start 0 keys
5 r1 deliver log-mod r0
  sends sync-report r0 at 6: view 0 synced 0
5 r2 deliver log-mod r0
  sends sync-report r0 at 6: view 0 synced 0
5 r0 deliver sync-report r1
5 r0 deliver sync-report r2
6 r0 tick 6000
  sends log-mod r1 at 7: view 0 vector 0,0,0 commit 0 start 0 keys
  sends log-mod r2 at 7: view 0 vector 0,0,0 commit 0 start 0 keys
6 r1 deliver log-mod r0
  sends sync-report r0 at 7: view 0 synced 0
6 r2 deliver log-mod r0
  sends sync-report r0 at 7: view 0 synced 0
6 r0 deliver sync-report r1
6 r0 deliver sync-report r2
7 r0 tick 7000
  sends log-mod r1 at 8: view 0 vector 0,0,0 commit 0 start 0 keys
  sends log-mod r2 at 8: view 0 vector 0,0,0 commit 0 start 0 keys
7 r1 deliver log-mod r0
  sends sync-report r0 at 8: view 0 synced 0
7 r2 deliver log-mod r0
  sends sync-report r0 at 8: view 0 synced 0
7 r0 deliver sync-report r1
7 r0 deliver sync-report r2
8 r0 tick 8000
  sends log-mod r1 at 9: view 0 vector 0,0,0 commit 0 start 0 keys
  sends log-mod r2 at 9: view 0 vector 0,0,0 commit 0 start 0 keys
8 r1 deliver log-mod r0
  sends sync-report r0 at 9: view 0 synced 0
8 r2 deliver log-mod r0
  sends sync-report r0 at 9: view 0 synced 0
8 r0 deliver sync-report r1
8 r0 deliver sync-report r2
9 r0 tick 9000
  sends log-mod r1 at 10: view 0 vector 0,0,0 commit 0 start 0 keys
  sends log-mod r2 at 10: view 0 vector 0,0,0 commit 0 start 0 keys
9 r1 deliver log-mod r0
  sends sync-report r0 at 10: view 0 synced 0
9 r2 deliver log-mod r0
  sends sync-report r0 at 10: view 0 synced 0
9 r0 deliver sync-report r1
9 r0 deliver sync-report r2
10 r0 tick 10000
  sends log-mod r1 at 11: view 0 vector 0,0,0 commit 0 start 0 keys
  sends log-mod r2 at 11: view 0 vector 0,0,0 commit 0 start 0 keys
10 r1 deliver log-mod r0
  sends sync-report r0 at 11: view 0 synced 0
10 r2 deliver log-mod r0
  sends sync-report r0 at 11: view 0 synced 0
10 r0 deliver sync-report r1
10 r0 deliver sync-report r2
11 r0 tick 11000
  sends log-mod r1 at 12: view 0 vector 0,0,0 commit 0 start 0 keys
  sends log-mod r2 at 12: view 0 vector 0,0,0 commit 0 start 0 keys
11 r1 deliver log-mod r0
  sends sync-report r0 at 12: view 0 synced 0
11 r2 deliver log-mod r0
  sends sync-report r0 at 12: view 0 synced 0
11 r0 deliver sync-report r1
11 r0 deliver sync-report r2
12 r0 tick 12000
  sends log-mod r1 at 13: view 0 vector 0,0,0 commit 0 start 0 keys
  sends log-mod r2 at 13: view 0 vector 0,0,0 commit 0 start 0 keys
12 r1 deliver log-mod r0
  sends sync-report r0 at 13: view 0 synced 0
12 r2 deliver log-mod r0
  sends sync-report r0 at 13: view 0 synced 0
12 r0 deliver sync-report r1
12 r0 deliver sync-report r2
13 r0 tick 13000
  now normal view 0 vector 0,0,0 synced 1 commit 0 log +12500/c0/1
  sends fast-reply p0 at 14: view 0 id c0/1 digest 67a78bbee5eb7bbd613220a92e03218955332dee vector 0,0,0 delay 1000 answer done
  sends log-mod r1 at 14: view 0 vector 0,0,0 commit 0 start 0 keys 12500/c0/1
  sends log-mod r2 at 14: view 0 vector 0,0,0 commit 0 start 0 keys 12500/c0/1
13 r1 tick 13000
  now normal view 0 vector 0,0,0 synced 0 commit 0 log +12500/c0/1
  sends fast-reply p0 at 14: view 0 id c0/1 digest 67a78bbee5eb7bbd613220a92e03218955332dee vector 0,0,0 delay 1000
13 r2 tick 13000
  now normal view 0 vector 0,0,0 synced 0 commit 0 log +12500/c0/1
  sends fast-reply p0 at 14: view 0 id c0/1 digest 67a78bbee5eb7bbd613220a92e03218955332dee vector 0,0,0 delay 1000
13 r1 deliver log-mod r0
  sends sync-report r0 at 14: view 0 synced 0
13 r2 deliver log-mod r0
  sends sync-report r0 at 14: view 0 synced 0
13 r0 deliver sync-report r1
13 r0 deliver sync-report r2
14 r0 tick 14000
  sends log-mod r1 at 15: view 0 vector 0,0,0 commit 0 start 0 keys 12500/c0/1
  sends log-mod r2 at 15: view 0 vector 0,0,0 commit 0 start 0 keys 12500/c0/1
14 p0 deliver fast-reply r0
14 r1 deliver log-mod r0
  now normal view 0 vector 0,0,0 synced 1 commit 0
  sends slow-reply p0 at 15: view 0 id c0/1 delay 1000
  sends sync-report r0 at 15: view 0 synced 1
14 r2 deliver log-mod r0
  now normal view 0 vector 0,0,0 synced 1 commit 0
  sends slow-reply p0 at 15: view 0 id c0/1 delay 1000
  sends sync-report r0 at 15: view 0 synced 1
14 p0 deliver fast-reply r1
14 p0 deliver fast-reply r2
  sends answer c0 at 15: num 1 answer done path fast
14 r0 deliver sync-report r1
14 r0 deliver sync-report r2
15 r0 tick 15000
  sends log-mod r1 lost: view 0 vector 0,0,0 commit 0 start 0 keys 12500/c0/1
  sends log-mod r2 lost: view 0 vector 0,0,0 commit 0 start 0 keys 12500/c0/1
15 r1 deliver log-mod r0
  sends sync-report r0 lost: view 0 synced 1
15 r2 deliver log-mod r0
  sends sync-report r0 lost: view 0 synced 1
15 p0 deliver slow-reply r1
15 r0 deliver sync-report r1
  now normal view 0 vector 0,0,0 synced 1 commit 1
15 p0 deliver slow-reply r2
15 r0 deliver sync-report r2
15 c0 deliver answer p0
  accept c0 1 done fast
16 r0 tick 16000
  sends log-mod r1 lost: view 0 vector 0,0,0 commit 1 start 1 keys
  sends log-mod r2 lost: view 0 vector 0,0,0 commit 1 start 1 keys
17 r0 tick 17000
  sends log-mod r1 lost: view 0 vector 0,0,0 commit 1 start 1 keys
  sends log-mod r2 lost: view 0 vector 0,0,0 commit 1 start 1 keys
18 r0 tick 18000
  sends log-mod r1 lost: view 0 vector 0,0,0 commit 1 start 1 keys
  sends log-mod r2 lost: view 0 vector 0,0,0 commit 1 start 1 keys
19 r0 tick 19000
  sends log-mod r1 lost: view 0 vector 0,0,0 commit 1 start 1 keys
  sends log-mod r2 lost: view 0 vector 0,0,0 commit 1 start 1 keys
20 r0 tick 20000
  sends log-mod r1 lost: view 0 vector 0,0,0 commit 1 start 1 keys
  sends log-mod r2 lost: view 0 vector 0,0,0 commit 1 start 1 keys
20 c0 tick 20000
  send c0 2 put b 2
  sends request p0 at 21: num 2 command put b 2
21 r0 tick 21000
  sends log-mod r1 lost: view 0 vector 0,0,0 commit 1 start 1 keys
  sends log-mod r2 lost: view 0 vector 0,0,0 commit 1 start 1 keys
21 p0 deliver request c0
  sends timed r0 lost: sent 21000 deadline 22500 id c0/2
  sends timed r1 at 22: sent 21000 deadline 22500 id c0/2
  sends timed r2 at 22: sent 21000 deadline 22500 id c0/2
22 r0 tick 22000
  sends log-mod r1 lost: view 0 vector 0,0,0 commit 1 start 1 keys
  sends log-mod r2 lost: view 0 vector 0,0,0 commit 1 start 1 keys
22 r1 deliver timed p0
  now normal view 0 vector 0,0,0 synced 1 commit 0 early +22500/c0/2
22 r2 deliver timed p0
  now normal view 0 vector 0,0,0 synced 1 commit 0 early +22500/c0/2
23 r0 tick 23000
  sends log-mod r1 lost: view 0 vector 0,0,0 commit 1 start 1 keys
  sends log-mod r2 lost: view 0 vector 0,0,0 commit 1 start 1 keys
23 r1 tick 23000
  now normal view 0 vector 0,0,0 synced 1 commit 0 log +22500/c0/2
  sends fast-reply p0 at 24: view 0 id c0/2 digest 018322be4c6a8b3368288e7293edeedb1de46203 vector 0,0,0 delay 1000
23 r2 tick 23000
  now normal view 0 vector 0,0,0 synced 1 commit 0 log +22500/c0/2
  sends fast-reply p0 at 24: view 0 id c0/2 digest 018322be4c6a8b3368288e7293edeedb1de46203 vector 0,0,0 delay 1000
24 r0 tick 24000
  sends log-mod r1 lost: view 0 vector 0,0,0 commit 1 start 1 keys
  sends log-mod r2 lost: view 0 vector 0,0,0 commit 1 start 1 keys
24 p0 deliver fast-reply r1
24 p0 deliver fast-reply r2
25 r0 tick 25000
  sends log-mod r1 lost: view 0 vector 0,0,0 commit 1 start 1 keys
  sends log-mod r2 lost: view 0 vector 0,0,0 commit 1 start 1 keys
26 r0 tick 26000
  sends log-mod r1 lost: view 0 vector 0,0,0 commit 1 start 1 keys
  sends log-mod r2 lost: view 0 vector 0,0,0 commit 1 start 1 keys
27 r0 tick 27000
  sends log-mod r1 lost: view 0 vector 0,0,0 commit 1 start 1 keys
  sends log-mod r2 lost: view 0 vector 0,0,0 commit 1 start 1 keys
28 r0 tick 28000
  sends log-mod r1 lost: view 0 vector 0,0,0 commit 1 start 1 keys
  sends log-mod r2 lost: view 0 vector 0,0,0 commit 1 start 1 keys
29 r0 tick 29000
  sends log-mod r1 lost: view 0 vector 0,0,0 commit 1 start 1 keys
  sends log-mod r2 lost: view 0 vector 0,0,0 commit 1 start 1 keys
30 r0 tick 30000
  sends log-mod r1 lost: view 0 vector 0,0,0 commit 1 start 1 keys
  sends log-mod r2 lost: view 0 vector 0,0,0 commit 1 start 1 keys
31 r0 tick 31000
  sends log-mod r1 lost: view 0 vector 0,0,0 commit 1 start 1 keys
  sends log-mod r2 lost: view 0 vector 0,0,0 commit 1 start 1 keys
32 r0 tick 32000
  sends log-mod r1 lost: view 0 vector 0,0,0 commit 1 start 1 keys
  sends log-mod r2 lost: view 0 vector 0,0,0 commit 1 start 1 keys
33 r0 tick 33000
  sends log-mod r1 lost: view 0 vector 0,0,0 commit 1 start 1 keys
  sends log-mod r2 lost: view 0 vector 0,0,0 commit 1 start 1 keys
34 r0 tick 34000
  sends log-mod r1 lost: view 0 vector 0,0,0 commit 1 start 1 keys
  sends log-mod r2 lost: view 0 vector 0,0,0 commit 1 start 1 keys
35 r0 tick 35000
  sends log-mod r1 lost: view 0 vector 0,0,0 commit 1 start 1 keys
  sends log-mod r2 lost: view 0 vector 0,0,0 commit 1 start 1 keys
35 r1 tick 35000
  now view-change collected 0 view 1 vector 0,0,0 synced 1 commit 0
  sends view-ask r0 lost: view 1
  sends view-ask r2 at 36: view 1
35 r2 tick 35000
  now view-change collected 0 view 1 vector 0,0,0 synced 1 commit 0
  sends view-ask r0 lost: view 1
  sends view-ask r1 at 36: view 1
  sends view-change r1 at 36: view 1 last 0 vector 0,0,0 synced 1 commit 0 entries 2
36 r0 tick 36000
  sends log-mod r1 lost: view 0 vector 0,0,0 commit 1 start 1 keys
  sends log-mod r2 lost: view 0 vector 0,0,0 commit 1 start 1 keys
36 r2 deliver view-ask r1
36 r1 deliver view-ask r2
36 r1 deliver view-change r2
  now normal view 1 vector 0,0,0 synced 2 commit 0
  sends start-view r0 lost: view 1 vector 0,0,0 commit 0 entries 2
  sends start-view r2 at 37: view 1 vector 0,0,0 commit 0 entries 2
37 r0 tick 37000
  sends log-mod r1 lost: view 0 vector 0,0,0 commit 1 start 1 keys
  sends log-mod r2 lost: view 0 vector 0,0,0 commit 1 start 1 keys
37 r1 tick 37000
  sends log-mod r0 lost: view 1 vector 0,0,0 commit 0 start 0 keys 12500/c0/1 22500/c0/2
  sends log-mod r2 at 38: view 1 vector 0,0,0 commit 0 start 0 keys 12500/c0/1 22500/c0/2
37 r2 deliver start-view r1
  now normal view 1 vector 0,0,0 synced 2 commit 0
38 r0 tick 38000
  sends log-mod r1 lost: view 0 vector 0,0,0 commit 1 start 1 keys
  sends log-mod r2 lost: view 0 vector 0,0,0 commit 1 start 1 keys
38 r1 tick 38000
  sends log-mod r0 lost: view 1 vector 0,0,0 commit 0 start 0 keys 12500/c0/1 22500/c0/2
  sends log-mod r2 at 39: view 1 vector 0,0,0 commit 0 start 0 keys 12500/c0/1 22500/c0/2
38 r2 deliver log-mod r1
  sends sync-report r1 at 39: view 1 synced 2
39 r0 tick 39000
  sends log-mod r1 lost: view 0 vector 0,0,0 commit 1 start 1 keys
  sends log-mod r2 lost: view 0 vector 0,0,0 commit 1 start 1 keys
39 r1 tick 39000
  sends log-mod r0 lost: view 1 vector 0,0,0 commit 0 start 0 keys 12500/c0/1 22500/c0/2
  sends log-mod r2 at 40: view 1 vector 0,0,0 commit 0 start 0 keys 12500/c0/1 22500/c0/2
39 r2 deliver log-mod r1
  sends sync-report r1 at 40: view 1 synced 2
39 r1 deliver sync-report r2
  now normal view 1 vector 0,0,0 synced 2 commit 2
40 r0 tick 40000
  sends log-mod r1 lost: view 0 vector 0,0,0 commit 1 start 1 keys
  sends log-mod r2 lost: view 0 vector 0,0,0 commit 1 start 1 keys
40 r1 tick 40000
  sends log-mod r0 lost: view 1 vector 0,0,0 commit 2 start 0 keys 12500/c0/1 22500/c0/2
  sends log-mod r2 at 41: view 1 vector 0,0,0 commit 2 start 2 keys
40 r2 deliver log-mod r1
  sends sync-report r1 at 41: view 1 synced 2
40 r1 deliver sync-report r2
41 r0 tick 41000
  sends log-mod r1 lost: view 0 vector 0,0,0 commit 1 start 1 keys
  sends log-mod r2 lost: view 0 vector 0,0,0 commit 1 start 1 keys
41 r1 tick 41000
  sends log-mod r0 lost: view 1 vector 0,0,0 commit 2 start 0 keys 12500/c0/1 22500/c0/2
  sends log-mod r2 at 42: view 1 vector 0,0,0 commit 2 start 2 keys
41 r2 deliver log-mod r1
  now normal view 1 vector 0,0,0 synced 2 commit 2
  sends sync-report r1 at 42: view 1 synced 2
41 r1 deliver sync-report r2
42 r0 tick 42000
  sends log-mod r1 lost: view 0 vector 0,0,0 commit 1 start 1 keys
  sends log-mod r2 lost: view 0 vector 0,0,0 commit 1 start 1 keys
42 r1 tick 42000
  sends log-mod r0 lost: view 1 vector 0,0,0 commit 2 start 0 keys 12500/c0/1 22500/c0/2
  sends log-mod r2 at 43: view 1 vector 0,0,0 commit 2 start 2 keys
42 r2 deliver log-mod r1
  sends sync-report r1 at 43: view 1 synced 2
42 r1 deliver sync-report r2
43 r0 tick 43000
  sends log-mod r1 lost: view 0 vector 0,0,0 commit 1 start 1 keys
  sends log-mod r2 lost: view 0 vector 0,0,0 commit 1 start 1 keys
43 r1 tick 43000
  sends log-mod r0 lost: view 1 vector 0,0,0 commit 2 start 0 keys 12500/c0/1 22500/c0/2
  sends log-mod r2 at 44: view 1 vector 0,0,0 commit 2 start 2 keys
43 r2 deliver log-mod r1
  sends sync-report r1 at 44: view 1 synced 2
43 r1 deliver sync-report r2
44 r0 tick 44000
  sends log-mod r1 lost: view 0 vector 0,0,0 commit 1 start 1 keys
  sends log-mod r2 lost: view 0 vector 0,0,0 commit 1 start 1 keys
44 r1 tick 44000
  sends log-mod r0 lost: view 1 vector 0,0,0 commit 2 start 0 keys 12500/c0/1 22500/c0/2
  sends log-mod r2 at 45: view 1 vector 0,0,0 commit 2 start 2 keys
44 r2 deliver log-mod r1
  sends sync-report r1 at 45: view 1 synced 2
44 r1 deliver sync-report r2
45 r0 tick 45000
  sends log-mod r1 lost: view 0 vector 0,0,0 commit 1 start 1 keys
  sends log-mod r2 lost: view 0 vector 0,0,0 commit 1 start 1 keys
45 r1 tick 45000
  sends log-mod r0 lost: view 1 vector 0,0,0 commit 2 start 0 keys 12500/c0/1 22500/c0/2
  sends log-mod r2 at 46: view 1 vector 0,0,0 commit 2 start 2 keys
45 r2 deliver log-mod r1
  sends sync-report r1 at 46: view 1 synced 2
45 r1 deliver sync-report r2
46 r0 tick 46000
  sends log-mod r1 lost: view 0 vector 0,0,0 commit 1 start 1 keys
  sends log-mod r2 lost: view 0 vector 0,0,0 commit 1 start 1 keys
46 r1 tick 46000
  sends log-mod r0 lost: view 1 vector 0,0,0 commit 2 start 0 keys 12500/c0/1 22500/c0/2
  sends log-mod r2 at 47: view 1 vector 0,0,0 commit 2 start 2 keys
46 r2 deliver log-mod r1
  sends sync-report r1 at 47: view 1 synced 2
46 r1 deliver sync-report r2
47 r0 tick 47000
  sends log-mod r1 lost: view 0 vector 0,0,0 commit 1 start 1 keys
  sends log-mod r2 lost: view 0 vector 0,0,0 commit 1 start 1 keys
47 r1 tick 47000
  sends log-mod r0 lost: view 1 vector 0,0,0 commit 2 start 0 keys 12500/c0/1 22500/c0/2
  sends log-mod r2 at 48: view 1 vector 0,0,0 commit 2 start 2 keys
47 r2 deliver log-mod r1
  sends sync-report r1 at 48: view 1 synced 2
47 r1 deliver sync-report r2
48 r0 tick 48000
  sends log-mod r1 lost: view 0 vector 0,0,0 commit 1 start 1 keys
  sends log-mod r2 lost: view 0 vector 0,0,0 commit 1 start 1 keys
48 r1 tick 48000
  sends log-mod r0 lost: view 1 vector 0,0,0 commit 2 start 0 keys 12500/c0/1 22500/c0/2
  sends log-mod r2 at 49: view 1 vector 0,0,0 commit 2 start 2 keys
48 r2 deliver log-mod r1
  sends sync-report r1 at 49: view 1 synced 2
48 r1 deliver sync-report r2
49 r0 tick 49000
  sends log-mod r1 lost: view 0 vector 0,0,0 commit 1 start 1 keys
  sends log-mod r2 lost: view 0 vector 0,0,0 commit 1 start 1 keys
49 r1 tick 49000
  sends log-mod r0 lost: view 1 vector 0,0,0 commit 2 start 0 keys 12500/c0/1 22500/c0/2
  sends log-mod r2 at 50: view 1 vector 0,0,0 commit 2 start 2 keys
49 r2 deliver log-mod r1
  sends sync-report r1 at 50: view 1 synced 2
49 r1 deliver sync-report r2
50 r0 tick 50000
  sends log-mod r1 lost: view 0 vector 0,0,0 commit 1 start 1 keys
  sends log-mod r2 lost: view 0 vector 0,0,0 commit 1 start 1 keys
50 r1 tick 50000
  sends log-mod r0 lost: view 1 vector 0,0,0 commit 2 start 0 keys 12500/c0/1 22500/c0/2
  sends log-mod r2 at 51: view 1 vector 0,0,0 commit 2 start 2 keys
50 c0 tick 50000
  sends request p0 at 51: num 2 command put b 2
50 r2 deliver log-mod r1
  sends sync-report r1 at 51: view 1 synced 2
50 r1 deliver sync-report r2
51 r0 tick 51000
  sends log-mod r1 lost: view 0 vector 0,0,0 commit 1 start 1 keys
  sends log-mod r2 lost: view 0 vector 0,0,0 commit 1 start 1 keys
51 r1 tick 51000
  sends log-mod r0 lost: view 1 vector 0,0,0 commit 2 start 0 keys 12500/c0/1 22500/c0/2
  sends log-mod r2 at 52: view 1 vector 0,0,0 commit 2 start 2 keys
51 r2 deliver log-mod r1
  sends sync-report r1 at 52: view 1 synced 2
51 p0 deliver request c0
  sends timed r0 lost: sent 51000 deadline 52500 id c0/2
  sends timed r1 at 52: sent 51000 deadline 52500 id c0/2
  sends timed r2 at 52: sent 51000 deadline 52500 id c0/2
51 r1 deliver sync-report r2
52 r0 tick 52000
  sends log-mod r1 lost: view 0 vector 0,0,0 commit 1 start 1 keys
  sends log-mod r2 lost: view 0 vector 0,0,0 commit 1 start 1 keys
52 r1 tick 52000
  sends log-mod r0 lost: view 1 vector 0,0,0 commit 2 start 0 keys 12500/c0/1 22500/c0/2
  sends log-mod r2 at 53: view 1 vector 0,0,0 commit 2 start 2 keys
52 r2 deliver log-mod r1
  sends sync-report r1 at 53: view 1 synced 2
52 r1 deliver sync-report r2
52 r1 deliver timed p0
  sends fast-reply p0 at 53: view 1 id c0/2 digest 018322be4c6a8b3368288e7293edeedb1de46203 vector 0,0,0 delay 1000 answer done
52 r2 deliver timed p0
  sends slow-reply p0 at 53: view 1 id c0/2 delay 1000
53 r0 tick 53000
  sends log-mod r1 lost: view 0 vector 0,0,0 commit 1 start 1 keys
  sends log-mod r2 lost: view 0 vector 0,0,0 commit 1 start 1 keys
53 r1 tick 53000
  sends log-mod r0 lost: view 1 vector 0,0,0 commit 2 start 0 keys 12500/c0/1 22500/c0/2
  sends log-mod r2 at 54: view 1 vector 0,0,0 commit 2 start 2 keys
53 r2 deliver log-mod r1
  sends sync-report r1 at 54: view 1 synced 2
53 r1 deliver sync-report r2
53 p0 deliver fast-reply r1
53 p0 deliver slow-reply r2
  sends answer c0 at 54: num 2 answer done path slow
54 r0 tick 54000
  sends log-mod r1 lost: view 0 vector 0,0,0 commit 1 start 1 keys
  sends log-mod r2 lost: view 0 vector 0,0,0 commit 1 start 1 keys
54 r1 tick 54000
  sends log-mod r0 lost: view 1 vector 0,0,0 commit 2 start 0 keys 12500/c0/1 22500/c0/2
  sends log-mod r2 at 55: view 1 vector 0,0,0 commit 2 start 2 keys
54 r2 deliver log-mod r1
  sends sync-report r1 at 55: view 1 synced 2
54 r1 deliver sync-report r2
54 c0 deliver answer p0
  accept c0 2 done slow
55 r0 tick 55000
  sends log-mod r1 lost: view 0 vector 0,0,0 commit 1 start 1 keys
  sends log-mod r2 lost: view 0 vector 0,0,0 commit 1 start 1 keys
55 r1 tick 55000
  sends log-mod r0 lost: view 1 vector 0,0,0 commit 2 start 0 keys 12500/c0/1 22500/c0/2
  sends log-mod r2 at 56: view 1 vector 0,0,0 commit 2 start 2 keys
55 r2 deliver log-mod r1
  sends sync-report r1 at 56: view 1 synced 2
55 r1 deliver sync-report r2
56 r0 tick 56000
  sends log-mod r1 lost: view 0 vector 0,0,0 commit 1 start 1 keys
  sends log-mod r2 lost: view 0 vector 0,0,0 commit 1 start 1 keys
56 r1 tick 56000
  sends log-mod r0 lost: view 1 vector 0,0,0 commit 2 start 0 keys 12500/c0/1 22500/c0/2
  sends log-mod r2 at 57: view 1 vector 0,0,0 commit 2 start 2 keys
56 r2 deliver log-mod r1
  sends sync-report r1 at 57: view 1 synced 2
56 r1 deliver sync-report r2
57 r0 tick 57000
  sends log-mod r1 lost: view 0 vector 0,0,0 commit 1 start 1 keys
  sends log-mod r2 lost: view 0 vector 0,0,0 commit 1 start 1 keys
57 r1 tick 57000
  sends log-mod r0 lost: view 1 vector 0,0,0 commit 2 start 0 keys 12500/c0/1 22500/c0/2
  sends log-mod r2 at 58: view 1 vector 0,0,0 commit 2 start 2 keys
57 r2 deliver log-mod r1
  sends sync-report r1 at 58: view 1 synced 2
57 r1 deliver sync-report r2
58 r0 tick 58000
  sends log-mod r1 lost: view 0 vector 0,0,0 commit 1 start 1 keys
  sends log-mod r2 lost: view 0 vector 0,0,0 commit 1 start 1 keys
58 r1 tick 58000
  sends log-mod r0 lost: view 1 vector 0,0,0 commit 2 start 0 keys 12500/c0/1 22500/c0/2
  sends log-mod r2 at 59: view 1 vector 0,0,0 commit 2 start 2 keys
58 r2 deliver log-mod r1
  sends sync-report r1 at 59: view 1 synced 2
58 r1 deliver sync-report r2
59 r0 tick 59000
  sends log-mod r1 lost: view 0 vector 0,0,0 commit 1 start 1 keys
  sends log-mod r2 lost: view 0 vector 0,0,0 commit 1 start 1 keys
59 r1 tick 59000
  sends log-mod r0 lost: view 1 vector 0,0,0 commit 2 start 0 keys 12500/c0/1 22500/c0/2
  sends log-mod r2 at 60: view 1 vector 0,0,0 commit 2 start 2 keys
59 r2 deliver log-mod r1
  sends sync-report r1 at 60: view 1 synced 2
59 r1 deliver sync-report r2
60 r0 tick 60000
  sends log-mod r1 lost: view 0 vector 0,0,0 commit 1 start 1 keys
  sends log-mod r2 lost: view 0 vector 0,0,0 commit 1 start 1 keys
60 r1 tick 60000
  sends log-mod r0 lost: view 1 vector 0,0,0 commit 2 start 0 keys 12500/c0/1 22500/c0/2
  sends log-mod r2 at 61: view 1 vector 0,0,0 commit 2 start 2 keys
60 r2 deliver log-mod r1
  sends sync-report r1 at 61: view 1 synced 2
60 r1 deliver sync-report r2
61 r0 tick 61000
  sends log-mod r1 at 62: view 0 vector 0,0,0 commit 1 start 1 keys
  sends log-mod r2 at 62: view 0 vector 0,0,0 commit 1 start 1 keys
61 r1 tick 61000
  sends log-mod r0 at 62: view 1 vector 0,0,0 commit 2 start 0 keys 12500/c0/1 22500/c0/2
  sends log-mod r2 at 62: view 1 vector 0,0,0 commit 2 start 2 keys
61 r2 deliver log-mod r1
  sends sync-report r1 at 62: view 1 synced 2
61 r1 deliver sync-report r2
62 r0 tick 62000
  sends log-mod r1 at 63: view 0 vector 0,0,0 commit 1 start 1 keys
  sends log-mod r2 at 63: view 0 vector 0,0,0 commit 1 start 1 keys
62 r1 tick 62000
  sends log-mod r0 at 63: view 1 vector 0,0,0 commit 2 start 0 keys 12500/c0/1 22500/c0/2
  sends log-mod r2 at 63: view 1 vector 0,0,0 commit 2 start 2 keys
62 r1 deliver log-mod r0
62 r2 deliver log-mod r0
62 r0 deliver log-mod r1
  now view-change collected 0 view 1 vector 0,0,0 synced 1 commit 1
  sends view-ask r1 at 63: view 1
  sends view-ask r2 at 63: view 1
  sends view-change r1 at 63: view 1 last 0 vector 0,0,0 synced 1 commit 1 entries 1
62 r2 deliver log-mod r1
  sends sync-report r1 at 63: view 1 synced 2
62 r1 deliver sync-report r2
63 r1 tick 63000
  sends log-mod r0 at 64: view 1 vector 0,0,0 commit 2 start 0 keys 12500/c0/1 22500/c0/2
  sends log-mod r2 at 64: view 1 vector 0,0,0 commit 2 start 2 keys
63 r1 deliver log-mod r0
63 r2 deliver log-mod r0
63 r0 deliver log-mod r1
63 r2 deliver log-mod r1
  sends sync-report r1 at 64: view 1 synced 2
63 r1 deliver view-ask r0
63 r2 deliver view-ask r0
63 r1 deliver view-change r0
  sends start-view r0 at 64: view 1 vector 0,0,0 commit 2 entries 2
63 r1 deliver sync-report r2
64 r1 tick 64000
  sends log-mod r0 at 65: view 1 vector 0,0,0 commit 2 start 0 keys 12500/c0/1 22500/c0/2
  sends log-mod r2 at 65: view 1 vector 0,0,0 commit 2 start 2 keys
64 r0 deliver log-mod r1
64 r2 deliver log-mod r1
  sends sync-report r1 at 65: view 1 synced 2
64 r1 deliver sync-report r2
64 r0 deliver start-view r1
  now normal view 1 vector 0,0,0 synced 2 commit 2 log +22500/c0/2
65 r1 tick 65000
  sends log-mod r0 at 66: view 1 vector 0,0,0 commit 2 start 0 keys 12500/c0/1 22500/c0/2
  sends log-mod r2 at 66: view 1 vector 0,0,0 commit 2 start 2 keys
65 r0 deliver log-mod r1
  sends sync-report r1 at 66: view 1 synced 2
65 r2 deliver log-mod r1
  sends sync-report r1 at 66: view 1 synced 2
65 r1 deliver sync-report r2
66 r1 tick 66000
  sends log-mod r0 at 67: view 1 vector 0,0,0 commit 2 start 0 keys 12500/c0/1 22500/c0/2
  sends log-mod r2 at 67: view 1 vector 0,0,0 commit 2 start 2 keys
66 r0 deliver log-mod r1
  sends sync-report r1 at 67: view 1 synced 2
66 r2 deliver log-mod r1
  sends sync-report r1 at 67: view 1 synced 2
66 r1 deliver sync-report r0
66 r1 deliver sync-report r2
67 r1 tick 67000
  sends log-mod r0 at 68: view 1 vector 0,0,0 commit 2 start 2 keys
  sends log-mod r2 at 68: view 1 vector 0,0,0 commit 2 start 2 keys
67 r0 deliver log-mod r1
  sends sync-report r1 at 68: view 1 synced 2
67 r2 deliver log-mod r1
  sends sync-report r1 at 68: view 1 synced 2
67 r1 deliver sync-report r0
67 r1 deliver sync-report r2
68 r1 tick 68000
  sends log-mod r0 at 69: view 1 vector 0,0,0 commit 2 start 2 keys
  sends log-mod r2 at 69: view 1 vector 0,0,0 commit 2 start 2 keys
68 r0 deliver log-mod r1
  sends sync-report r1 at 69: view 1 synced 2
68 r2 deliver log-mod r1
  sends sync-report r1 at 69: view 1 synced 2
68 r1 deliver sync-report r0
68 r1 deliver sync-report r2
69 r1 tick 69000
  sends log-mod r0 at 70: view 1 vector 0,0,0 commit 2 start 2 keys
  sends log-mod r2 at 70: view 1 vector 0,0,0 commit 2 start 2 keys
69 r0 deliver log-mod r1
  sends sync-report r1 at 70: view 1 synced 2
69 r2 deliver log-mod r1
  sends sync-report r1 at 70: view 1 synced 2
69 r1 deliver sync-report r0
69 r1 deliver sync-report r2
70 r1 tick 70000
  sends log-mod r0 at 71: view 1 vector 0,0,0 commit 2 start 2 keys
  sends log-mod r2 at 71: view 1 vector 0,0,0 commit 2 start 2 keys
70 r0 deliver log-mod r1
  sends sync-report r1 at 71: view 1 synced 2
70 r2 deliver log-mod r1
  sends sync-report r1 at 71: view 1 synced 2
70 r1 deliver sync-report r0
70 r1 deliver sync-report r2
71 r1 tick 71000
  sends log-mod r0 at 72: view 1 vector 0,0,0 commit 2 start 2 keys
  sends log-mod r2 at 72: view 1 vector 0,0,0 commit 2 start 2 keys
71 r0 deliver log-mod r1
  sends sync-report r1 at 72: view 1 synced 2
71 r2 deliver log-mod r1
  sends sync-report r1 at 72: view 1 synced 2
71 r1 deliver sync-report r0
71 r1 deliver sync-report r2
72 r1 tick 72000
  sends log-mod r0 at 73: view 1 vector 0,0,0 commit 2 start 2 keys
  sends log-mod r2 at 73: view 1 vector 0,0,0 commit 2 start 2 keys
72 r0 deliver log-mod r1
  sends sync-report r1 at 73: view 1 synced 2
72 r2 deliver log-mod r1
  sends sync-report r1 at 73: view 1 synced 2
72 r1 deliver sync-report r0
72 r1 deliver sync-report r2
73 r1 tick 73000
  sends log-mod r0 at 74: view 1 vector 0,0,0 commit 2 start 2 keys
  sends log-mod r2 at 74: view 1 vector 0,0,0 commit 2 start 2 keys
73 r0 deliver log-mod r1
  sends sync-report r1 at 74: view 1 synced 2
73 r2 deliver log-mod r1
  sends sync-report r1 at 74: view 1 synced 2
73 r1 deliver sync-report r0
73 r1 deliver sync-report r2
74 r1 tick 74000
  sends log-mod r0 at 75: view 1 vector 0,0,0 commit 2 start 2 keys
  sends log-mod r2 at 75: view 1 vector 0,0,0 commit 2 start 2 keys
74 r0 deliver log-mod r1
  sends sync-report r1 at 75: view 1 synced 2
74 r2 deliver log-mod r1
  sends sync-report r1 at 75: view 1 synced 2
74 r1 deliver sync-report r0
74 r1 deliver sync-report r2
75 r1 tick 75000
  sends log-mod r0 at 76: view 1 vector 0,0,0 commit 2 start 2 keys
  sends log-mod r2 at 76: view 1 vector 0,0,0 commit 2 start 2 keys
75 r0 deliver log-mod r1
  sends sync-report r1 at 76: view 1 synced 2
75 r2 deliver log-mod r1
  sends sync-report r1 at 76: view 1 synced 2
75 r1 deliver sync-report r0
75 r1 deliver sync-report r2
76 r1 tick 76000
  sends log-mod r0 at 77: view 1 vector 0,0,0 commit 2 start 2 keys
  sends log-mod r2 at 77: view 1 vector 0,0,0 commit 2 start 2 keys
76 r0 deliver log-mod r1
  sends sync-report r1 at 77: view 1 synced 2
76 r2 deliver log-mod r1
  sends sync-report r1 at 77: view 1 synced 2
76 r1 deliver sync-report r0
76 r1 deliver sync-report r2
77 r1 tick 77000
  sends log-mod r0 at 78: view 1 vector 0,0,0 commit 2 start 2 keys
  sends log-mod r2 at 78: view 1 vector 0,0,0 commit 2 start 2 keys
77 r0 deliver log-mod r1
  sends sync-report r1 at 78: view 1 synced 2
77 r2 deliver log-mod r1
  sends sync-report r1 at 78: view 1 synced 2
77 r1 deliver sync-report r0
77 r1 deliver sync-report r2
78 r1 tick 78000
  sends log-mod r0 at 79: view 1 vector 0,0,0 commit 2 start 2 keys
  sends log-mod r2 at 79: view 1 vector 0,0,0 commit 2 start 2 keys
78 r0 deliver log-mod r1
  sends sync-report r1 at 79: view 1 synced 2
78 r2 deliver log-mod r1
  sends sync-report r1 at 79: view 1 synced 2
78 r1 deliver sync-report r0
78 r1 deliver sync-report r2
79 r1 tick 79000
  sends log-mod r0 at 80: view 1 vector 0,0,0 commit 2 start 2 keys
  sends log-mod r2 at 80: view 1 vector 0,0,0 commit 2 start 2 keys
79 r0 deliver log-mod r1
  sends sync-report r1 at 80: view 1 synced 2
79 r2 deliver log-mod r1
  sends sync-report r1 at 80: view 1 synced 2
79 r1 deliver sync-report r0
79 r1 deliver sync-report r2
80 r1 tick 80000
  sends log-mod r0 at 81: view 1 vector 0,0,0 commit 2 start 2 keys
  sends log-mod r2 at 81: view 1 vector 0,0,0 commit 2 start 2 keys
80 r0 deliver log-mod r1
  sends sync-report r1 at 81: view 1 synced 2
80 r2 deliver log-mod r1
  sends sync-report r1 at 81: view 1 synced 2
80 r1 deliver sync-report r0
80 r1 deliver sync-report r2
81 r1 tick 81000
  sends log-mod r0 at 82: view 1 vector 0,0,0 commit 2 start 2 keys
  sends log-mod r2 at 82: view 1 vector 0,0,0 commit 2 start 2 keys
81 r0 deliver log-mod r1
  sends sync-report r1 at 82: view 1 synced 2
81 r2 deliver log-mod r1
  sends sync-report r1 at 82: view 1 synced 2
81 r1 deliver sync-report r0
81 r1 deliver sync-report r2
82 r1 tick 82000
  sends log-mod r0 at 83: view 1 vector 0,0,0 commit 2 start 2 keys
  sends log-mod r2 at 83: view 1 vector 0,0,0 commit 2 start 2 keys
82 r0 deliver log-mod r1
  sends sync-report r1 at 83: view 1 synced 2
82 r2 deliver log-mod r1
  sends sync-report r1 at 83: view 1 synced 2
82 r1 deliver sync-report r0
82 r1 deliver sync-report r2
83 r1 tick 83000
  sends log-mod r0 at 84: view 1 vector 0,0,0 commit 2 start 2 keys
  sends log-mod r2 at 84: view 1 vector 0,0,0 commit 2 start 2 keys
83 r0 deliver log-mod r1
  sends sync-report r1 at 84: view 1 synced 2
83 r2 deliver log-mod r1
  sends sync-report r1 at 84: view 1 synced 2
83 r1 deliver sync-report r0
83 r1 deliver sync-report r2
84 r1 tick 84000
  sends log-mod r0 at 85: view 1 vector 0,0,0 commit 2 start 2 keys
  sends log-mod r2 at 85: view 1 vector 0,0,0 commit 2 start 2 keys
84 r0 deliver log-mod r1
  sends sync-report r1 at 85: view 1 synced 2
84 r2 deliver log-mod r1
  sends sync-report r1 at 85: view 1 synced 2
84 r1 deliver sync-report r0
84 r1 deliver sync-report r2
85 r1 tick 85000
  sends log-mod r0 at 86: view 1 vector 0,0,0 commit 2 start 2 keys
  sends log-mod r2 at 86: view 1 vector 0,0,0 commit 2 start 2 keys
85 r0 deliver log-mod r1
  sends sync-report r1 at 86: view 1 synced 2
85 r2 deliver log-mod r1
  sends sync-report r1 at 86: view 1 synced 2
85 r1 deliver sync-report r0
85 r1 deliver sync-report r2
86 r1 tick 86000
  sends log-mod r0 at 87: view 1 vector 0,0,0 commit 2 start 2 keys
  sends log-mod r2 at 87: view 1 vector 0,0,0 commit 2 start 2 keys
86 r0 deliver log-mod r1
  sends sync-report r1 at 87: view 1 synced 2
86 r2 deliver log-mod r1
  sends sync-report r1 at 87: view 1 synced 2
86 r1 deliver sync-report r0
86 r1 deliver sync-report r2
87 r1 tick 87000
  sends log-mod r0 at 88: view 1 vector 0,0,0 commit 2 start 2 keys
  sends log-mod r2 at 88: view 1 vector 0,0,0 commit 2 start 2 keys
87 r0 deliver log-mod r1
  sends sync-report r1 at 88: view 1 synced 2
87 r2 deliver log-mod r1
  sends sync-report r1 at 88: view 1 synced 2
87 r1 deliver sync-report r0
87 r1 deliver sync-report r2
88 r1 tick 88000
  sends log-mod r0 at 89: view 1 vector 0,0,0 commit 2 start 2 keys
  sends log-mod r2 at 89: view 1 vector 0,0,0 commit 2 start 2 keys
88 r0 deliver log-mod r1
  sends sync-report r1 at 89: view 1 synced 2
88 r2 deliver log-mod r1
  sends sync-report r1 at 89: view 1 synced 2
88 r1 deliver sync-report r0
88 r1 deliver sync-report r2
89 r1 tick 89000
  sends log-mod r0 at 90: view 1 vector 0,0,0 commit 2 start 2 keys
  sends log-mod r2 at 90: view 1 vector 0,0,0 commit 2 start 2 keys
89 r0 deliver log-mod r1
  sends sync-report r1 at 90: view 1 synced 2
89 r2 deliver log-mod r1
  sends sync-report r1 at 90: view 1 synced 2
89 r1 deliver sync-report r0
89 r1 deliver sync-report r2
90 r1 tick 90000
  sends log-mod r0 at 91: view 1 vector 0,0,0 commit 2 start 2 keys
  sends log-mod r2 at 91: view 1 vector 0,0,0 commit 2 start 2 keys
90 c0 tick 90000
  send c0 3 get b
  sends request p0 at 91: num 3 command get b
90 r0 deliver log-mod r1
  sends sync-report r1 at 91: view 1 synced 2
90 r2 deliver log-mod r1
  sends sync-report r1 at 91: view 1 synced 2
90 r1 deliver sync-report r0
90 r1 deliver sync-report r2
91 r1 tick 91000
  sends log-mod r0 at 92: view 1 vector 0,0,0 commit 2 start 2 keys
  sends log-mod r2 at 92: view 1 vector 0,0,0 commit 2 start 2 keys
91 r0 deliver log-mod r1
  sends sync-report r1 at 92: view 1 synced 2
91 r2 deliver log-mod r1
  sends sync-report r1 at 92: view 1 synced 2
91 p0 deliver request c0
  sends timed r0 at 92: sent 91000 deadline 92500 id c0/3
  sends timed r1 at 92: sent 91000 deadline 92500 id c0/3
  sends timed r2 at 92: sent 91000 deadline 92500 id c0/3
91 r1 deliver sync-report r0
91 r1 deliver sync-report r2
92 r1 tick 92000
  sends log-mod r0 at 93: view 1 vector 0,0,0 commit 2 start 2 keys
  sends log-mod r2 at 93: view 1 vector 0,0,0 commit 2 start 2 keys
92 r0 deliver log-mod r1
  sends sync-report r1 at 93: view 1 synced 2
92 r2 deliver log-mod r1
  sends sync-report r1 at 93: view 1 synced 2
92 r1 deliver sync-report r0
92 r1 deliver sync-report r2
92 r0 deliver timed p0
  now normal view 1 vector 0,0,0 synced 2 commit 2 early +92500/c0/3
92 r1 deliver timed p0
  now normal view 1 vector 0,0,0 synced 2 commit 2 early +92500/c0/3
92 r2 deliver timed p0
  now normal view 1 vector 0,0,0 synced 2 commit 2 early +92500/c0/3
93 r0 tick 93000
  now normal view 1 vector 0,0,0 synced 2 commit 2 log +92500/c0/3
  sends fast-reply p0 at 94: view 1 id c0/3 digest a4bf657ff1fc95a72afb6f25b1a3f7fd0ddb9c1d vector 0,0,0 delay 1000
93 r1 tick 93000
  now normal view 1 vector 0,0,0 synced 3 commit 2 log +92500/c0/3
  sends fast-reply p0 at 94: view 1 id c0/3 digest a4bf657ff1fc95a72afb6f25b1a3f7fd0ddb9c1d vector 0,0,0 delay 1000 answer value 2
  sends log-mod r0 at 94: view 1 vector 0,0,0 commit 2 start 2 keys 92500/c0/3
  sends log-mod r2 at 94: view 1 vector 0,0,0 commit 2 start 2 keys 92500/c0/3
93 r2 tick 93000
  now normal view 1 vector 0,0,0 synced 2 commit 2 log +92500/c0/3
  sends fast-reply p0 at 94: view 1 id c0/3 digest a4bf657ff1fc95a72afb6f25b1a3f7fd0ddb9c1d vector 0,0,0 delay 1000
93 r0 deliver log-mod r1
  sends sync-report r1 at 94: view 1 synced 2
93 r2 deliver log-mod r1
  sends sync-report r1 at 94: view 1 synced 2
93 r1 deliver sync-report r0
93 r1 deliver sync-report r2
94 r1 tick 94000
  sends log-mod r0 at 95: view 1 vector 0,0,0 commit 2 start 2 keys 92500/c0/3
  sends log-mod r2 at 95: view 1 vector 0,0,0 commit 2 start 2 keys 92500/c0/3
94 p0 deliver fast-reply r0
94 p0 deliver fast-reply r1
94 r0 deliver log-mod r1
  now normal view 1 vector 0,0,0 synced 3 commit 2
  sends slow-reply p0 at 95: view 1 id c0/3 delay 1000
  sends sync-report r1 at 95: view 1 synced 3
94 r2 deliver log-mod r1
  now normal view 1 vector 0,0,0 synced 3 commit 2
  sends slow-reply p0 at 95: view 1 id c0/3 delay 1000
  sends sync-report r1 at 95: view 1 synced 3
94 p0 deliver fast-reply r2
  sends answer c0 at 95: num 3 answer value 2 path fast
94 r1 deliver sync-report r0
94 r1 deliver sync-report r2
95 r1 tick 95000
  sends log-mod r0 at 96: view 1 vector 0,0,0 commit 2 start 2 keys 92500/c0/3
  sends log-mod r2 at 96: view 1 vector 0,0,0 commit 2 start 2 keys 92500/c0/3
95 r0 deliver log-mod r1
  sends sync-report r1 at 96: view 1 synced 3
95 r2 deliver log-mod r1
  sends sync-report r1 at 96: view 1 synced 3
95 p0 deliver slow-reply r0
95 r1 deliver sync-report r0
  now normal view 1 vector 0,0,0 synced 3 commit 3
95 p0 deliver slow-reply r2
95 r1 deliver sync-report r2
95 c0 deliver answer p0
  accept c0 3 value 2 fast
96 r1 tick 96000
  sends log-mod r0 at 97: view 1 vector 0,0,0 commit 3 start 3 keys
  sends log-mod r2 at 97: view 1 vector 0,0,0 commit 3 start 3 keys
96 r0 deliver log-mod r1
  sends sync-report r1 at 97: view 1 synced 3
96 r2 deliver log-mod r1
  sends sync-report r1 at 97: view 1 synced 3
96 r1 deliver sync-report r0
96 r1 deliver sync-report r2
97 r1 tick 97000
  sends log-mod r0 at 98: view 1 vector 0,0,0 commit 3 start 3 keys
  sends log-mod r2 at 98: view 1 vector 0,0,0 commit 3 start 3 keys
97 r0 deliver log-mod r1
  now normal view 1 vector 0,0,0 synced 3 commit 3
  sends sync-report r1 at 98: view 1 synced 3
97 r2 deliver log-mod r1
  now normal view 1 vector 0,0,0 synced 3 commit 3
  sends sync-report r1 at 98: view 1 synced 3
97 r1 deliver sync-report r0
97 r1 deliver sync-report r2
98 r1 tick 98000
  sends log-mod r0 at 99: view 1 vector 0,0,0 commit 3 start 3 keys
  sends log-mod r2 at 99: view 1 vector 0,0,0 commit 3 start 3 keys
98 r0 deliver log-mod r1
  sends sync-report r1 at 99: view 1 synced 3
98 r2 deliver log-mod r1
  sends sync-report r1 at 99: view 1 synced 3
98 r1 deliver sync-report r0
98 r1 deliver sync-report r2
99 r1 tick 99000
  sends log-mod r0 at 100: view 1 vector 0,0,0 commit 3 start 3 keys
  sends log-mod r2 at 100: view 1 vector 0,0,0 commit 3 start 3 keys
99 r0 deliver log-mod r1
  sends sync-report r1 at 100: view 1 synced 3
99 r2 deliver log-mod r1
  sends sync-report r1 at 100: view 1 synced 3
99 r1 deliver sync-report r0
99 r1 deliver sync-report r2
100 r1 tick 100000
  sends log-mod r0 at 101: view 1 vector 0,0,0 commit 3 start 3 keys
  sends log-mod r2 at 101: view 1 vector 0,0,0 commit 3 start 3 keys
100 r0 deliver log-mod r1
  sends sync-report r1 at 101: view 1 synced 3
100 r2 deliver log-mod r1
  sends sync-report r1 at 101: view 1 synced 3
100 r1 deliver sync-report r0
100 r1 deliver sync-report r2
101 r1 tick 101000
  sends log-mod r0 at 102: view 1 vector 0,0,0 commit 3 start 3 keys
  sends log-mod r2 at 102: view 1 vector 0,0,0 commit 3 start 3 keys
101 r0 deliver log-mod r1
  sends sync-report r1 at 102: view 1 synced 3
101 r2 deliver log-mod r1
  sends sync-report r1 at 102: view 1 synced 3
101 r1 deliver sync-report r0
101 r1 deliver sync-report r2
102 r1 tick 102000
  sends log-mod r0 at 103: view 1 vector 0,0,0 commit 3 start 3 keys
  sends log-mod r2 at 103: view 1 vector 0,0,0 commit 3 start 3 keys
102 r0 deliver log-mod r1
  sends sync-report r1 at 103: view 1 synced 3
102 r2 deliver log-mod r1
  sends sync-report r1 at 103: view 1 synced 3
102 r1 deliver sync-report r0
102 r1 deliver sync-report r2
103 r1 tick 103000
  sends log-mod r0 at 104: view 1 vector 0,0,0 commit 3 start 3 keys
  sends log-mod r2 at 104: view 1 vector 0,0,0 commit 3 start 3 keys
103 r0 deliver log-mod r1
  sends sync-report r1 at 104: view 1 synced 3
103 r2 deliver log-mod r1
  sends sync-report r1 at 104: view 1 synced 3
103 r1 deliver sync-report r0
103 r1 deliver sync-report r2
104 r1 tick 104000
  sends log-mod r0 at 105: view 1 vector 0,0,0 commit 3 start 3 keys
  sends log-mod r2 at 105: view 1 vector 0,0,0 commit 3 start 3 keys
104 r0 deliver log-mod r1
  sends sync-report r1 at 105: view 1 synced 3
104 r2 deliver log-mod r1
  sends sync-report r1 at 105: view 1 synced 3
104 r1 deliver sync-report r0
104 r1 deliver sync-report r2
105 r1 tick 105000
  sends log-mod r0 at 106: view 1 vector 0,0,0 commit 3 start 3 keys
  sends log-mod r2 at 106: view 1 vector 0,0,0 commit 3 start 3 keys
105 r0 deliver log-mod r1
  sends sync-report r1 at 106: view 1 synced 3
105 r2 deliver log-mod r1
  sends sync-report r1 at 106: view 1 synced 3
105 r1 deliver sync-report r0
105 r1 deliver sync-report r2
106 r1 tick 106000
  sends log-mod r0 at 107: view 1 vector 0,0,0 commit 3 start 3 keys
  sends log-mod r2 at 107: view 1 vector 0,0,0 commit 3 start 3 keys
106 r0 deliver log-mod r1
  sends sync-report r1 at 107: view 1 synced 3
106 r2 deliver log-mod r1
  sends sync-report r1 at 107: view 1 synced 3
106 r1 deliver sync-report r0
106 r1 deliver sync-report r2
107 r1 tick 107000
  sends log-mod r0 at 108: view 1 vector 0,0,0 commit 3 start 3 keys
  sends log-mod r2 at 108: view 1 vector 0,0,0 commit 3 start 3 keys
107 r0 deliver log-mod r1
  sends sync-report r1 at 108: view 1 synced 3
107 r2 deliver log-mod r1
  sends sync-report r1 at 108: view 1 synced 3
107 r1 deliver sync-report r0
107 r1 deliver sync-report r2
108 r1 tick 108000
  sends log-mod r0 at 109: view 1 vector 0,0,0 commit 3 start 3 keys
  sends log-mod r2 at 109: view 1 vector 0,0,0 commit 3 start 3 keys
108 r0 deliver log-mod r1
  sends sync-report r1 at 109: view 1 synced 3
108 r2 deliver log-mod r1
  sends sync-report r1 at 109: view 1 synced 3
108 r1 deliver sync-report r0
108 r1 deliver sync-report r2
109 r1 tick 109000
  sends log-mod r0 at 110: view 1 vector 0,0,0 commit 3 start 3 keys
  sends log-mod r2 at 110: view 1 vector 0,0,0 commit 3 start 3 keys
109 r0 deliver log-mod r1
  sends sync-report r1 at 110: view 1 synced 3
109 r2 deliver log-mod r1
  sends sync-report r1 at 110: view 1 synced 3
109 r1 deliver sync-report r0
109 r1 deliver sync-report r2
110 r1 tick 110000
  sends log-mod r0 at 111: view 1 vector 0,0,0 commit 3 start 3 keys
  sends log-mod r2 at 111: view 1 vector 0,0,0 commit 3 start 3 keys
110 r0 deliver log-mod r1
  sends sync-report r1 at 111: view 1 synced 3
110 r2 deliver log-mod r1
  sends sync-report r1 at 111: view 1 synced 3
110 r1 deliver sync-report r0
110 r1 deliver sync-report r2
111 r1 tick 111000
  sends log-mod r0 at 112: view 1 vector 0,0,0 commit 3 start 3 keys
  sends log-mod r2 at 112: view 1 vector 0,0,0 commit 3 start 3 keys
111 r0 deliver log-mod r1
  sends sync-report r1 at 112: view 1 synced 3
111 r2 deliver log-mod r1
  sends sync-report r1 at 112: view 1 synced 3
111 r1 deliver sync-report r0
111 r1 deliver sync-report r2
112 r1 tick 112000
  sends log-mod r0 at 113: view 1 vector 0,0,0 commit 3 start 3 keys
  sends log-mod r2 at 113: view 1 vector 0,0,0 commit 3 start 3 keys
112 r0 deliver log-mod r1
  sends sync-report r1 at 113: view 1 synced 3
112 r2 deliver log-mod r1
  sends sync-report r1 at 113: view 1 synced 3
112 r1 deliver sync-report r0
112 r1 deliver sync-report r2
113 r1 tick 113000
  sends log-mod r0 at 114: view 1 vector 0,0,0 commit 3 start 3 keys
  sends log-mod r2 at 114: view 1 vector 0,0,0 commit 3 start 3 keys
113 r0 deliver log-mod r1
  sends sync-report r1 at 114: view 1 synced 3
113 r2 deliver log-mod r1
  sends sync-report r1 at 114: view 1 synced 3
113 r1 deliver sync-report r0
113 r1 deliver sync-report r2
114 r1 tick 114000
  sends log-mod r0 at 115: view 1 vector 0,0,0 commit 3 start 3 keys
  sends log-mod r2 at 115: view 1 vector 0,0,0 commit 3 start 3 keys
114 r0 deliver log-mod r1
  sends sync-report r1 at 115: view 1 synced 3
114 r2 deliver log-mod r1
  sends sync-report r1 at 115: view 1 synced 3
114 r1 deliver sync-report r0
114 r1 deliver sync-report r2
115 r1 tick 115000
  sends log-mod r0 at 116: view 1 vector 0,0,0 commit 3 start 3 keys
  sends log-mod r2 at 116: view 1 vector 0,0,0 commit 3 start 3 keys
115 r0 deliver log-mod r1
  sends sync-report r1 at 116: view 1 synced 3
115 r2 deliver log-mod r1
  sends sync-report r1 at 116: view 1 synced 3
115 r1 deliver sync-report r0
115 r1 deliver sync-report r2
116 r1 tick 116000
  sends log-mod r0 at 117: view 1 vector 0,0,0 commit 3 start 3 keys
  sends log-mod r2 at 117: view 1 vector 0,0,0 commit 3 start 3 keys
116 r0 deliver log-mod r1
  sends sync-report r1 at 117: view 1 synced 3
116 r2 deliver log-mod r1
  sends sync-report r1 at 117: view 1 synced 3
116 r1 deliver sync-report r0
116 r1 deliver sync-report r2
117 r1 tick 117000
  sends log-mod r0 at 118: view 1 vector 0,0,0 commit 3 start 3 keys
  sends log-mod r2 at 118: view 1 vector 0,0,0 commit 3 start 3 keys
117 r0 deliver log-mod r1
  sends sync-report r1 at 118: view 1 synced 3
117 r2 deliver log-mod r1
  sends sync-report r1 at 118: view 1 synced 3
117 r1 deliver sync-report r0
117 r1 deliver sync-report r2
118 r1 tick 118000
  sends log-mod r0 at 119: view 1 vector 0,0,0 commit 3 start 3 keys
  sends log-mod r2 at 119: view 1 vector 0,0,0 commit 3 start 3 keys
118 r0 deliver log-mod r1
  sends sync-report r1 at 119: view 1 synced 3
118 r2 deliver log-mod r1
  sends sync-report r1 at 119: view 1 synced 3
118 r1 deliver sync-report r0
118 r1 deliver sync-report r2
119 r1 tick 119000
  sends log-mod r0 at 120: view 1 vector 0,0,0 commit 3 start 3 keys
  sends log-mod r2 at 120: view 1 vector 0,0,0 commit 3 start 3 keys
119 r0 deliver log-mod r1
  sends sync-report r1 at 120: view 1 synced 3
119 r2 deliver log-mod r1
  sends sync-report r1 at 120: view 1 synced 3
119 r1 deliver sync-report r0
119 r1 deliver sync-report r2
120 r1 tick 120000
  sends log-mod r0 at 121: view 1 vector 0,0,0 commit 3 start 3 keys
  sends log-mod r2 at 121: view 1 vector 0,0,0 commit 3 start 3 keys
120 r0 deliver log-mod r1
  sends sync-report r1 at 121: view 1 synced 3
120 r2 deliver log-mod r1
  sends sync-report r1 at 121: view 1 synced 3
120 r1 deliver sync-report r0
120 r1 deliver sync-report r2
text
send c0 1 put a 1
accept c0 1 done fast
send c0 2 put b 2
accept c0 2 done slow
send c0 3 get b
accept c0 3 value 2 fast
at 1 c0 1 put a 1 gives done
at 2 c0 2 put b 2 gives done
at 3 c0 3 get b gives value 2
end
