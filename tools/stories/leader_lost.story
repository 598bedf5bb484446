1 r0 tick 1000
  sends log-mod r1 at 2: view 0 vector 0,0,0 commit 0 start 0 keys
  sends log-mod r2 at 2: view 0 vector 0,0,0 commit 0 start 0 keys
1 c0 tick 1000
  send c0 1 put a 1
  sends request p0 at 2: num 1 command put a 1
2 r0 tick 2000
  sends log-mod r1 at 3: view 0 vector 0,0,0 commit 0 start 0 keys
  sends log-mod r2 at 3: view 0 vector 0,0,0 commit 0 start 0 keys
2 r1 deliver log-mod r0
  sends sync-report r0 at 3: view 0 synced 0
2 r2 deliver log-mod r0
  sends sync-report r0 at 3: view 0 synced 0
2 p0 deliver request c0
  sends timed r0 at 3: sent 2000 deadline 12500 id c0/1
  sends timed r1 at 3: sent 2000 deadline 12500 id c0/1
  sends timed r2 at 3: sent 2000 deadline 12500 id c0/1
3 r0 tick 3000
  sends log-mod r1 at 4: view 0 vector 0,0,0 commit 0 start 0 keys
  sends log-mod r2 at 4: view 0 vector 0,0,0 commit 0 start 0 keys
3 r1 deliver log-mod r0
  sends sync-report r0 at 4: view 0 synced 0
3 r2 deliver log-mod r0
  sends sync-report r0 at 4: view 0 synced 0
3 r0 deliver sync-report r1
3 r0 deliver sync-report r2
3 r0 deliver timed p0
  now normal view 0 vector 0,0,0 synced 0 commit 0 early +12500/c0/1
3 r1 deliver timed p0
  now normal view 0 vector 0,0,0 synced 0 commit 0 early +12500/c0/1
3 r2 deliver timed p0
  now normal view 0 vector 0,0,0 synced 0 commit 0 early +12500/c0/1
4 r0 tick 4000
  sends log-mod r1 at 5: view 0 vector 0,0,0 commit 0 start 0 keys
  sends log-mod r2 at 5: view 0 vector 0,0,0 commit 0 start 0 keys
4 r1 deliver log-mod r0
  sends sync-report r0 at 5: view 0 synced 0
4 r2 deliver log-mod r0
  sends sync-report r0 at 5: view 0 synced 0
4 r0 deliver sync-report r1
4 r0 deliver sync-report r2
5 r0 tick 5000
  sends log-mod r1 at 6: view 0 vector 0,0,0 commit 0 start 0 keys
  sends log-mod r2 at 6: view 0 vector 0,0,0 commit 0 start 0 keys
5 r1 deliver log-mod r0
  sends sync-report r0 at 6: view 0 synced 0
5 r2 deliver log-mod r0
  sends sync-report r0 at 6: view 0 synced 0
5 r0 deliver sync-report r1
5 r0 deliver sync-report r2
6 r0 tick 6000
  sends log-mod r1 at 7: view 0 vector 0,0,0 commit 0 start 0 keys
  sends log-mod r2 at 7: view 0 vector 0,0,0 commit 0 start 0 keys
6 r1 deliver log-mod r0
  sends sync-report r0 at 7: view 0 synced 0
6 r2 deliver log-mod r0
  sends sync-report r0 at 7: view 0 synced 0
6 r0 deliver sync-report r1
6 r0 deliver sync-report r2
7 r0 tick 7000
  sends log-mod r1 at 8: view 0 vector 0,0,0 commit 0 start 0 keys
  sends log-mod r2 at 8: view 0 vector 0,0,0 commit 0 start 0 keys
7 r1 deliver log-mod r0
  sends sync-report r0 at 8: view 0 synced 0
7 r2 deliver log-mod r0
  sends sync-report r0 at 8: view 0 synced 0
7 r0 deliver sync-report r1
7 r0 deliver sync-report r2
8 r0 tick 8000
  sends log-mod r1 at 9: view 0 vector 0,0,0 commit 0 start 0 keys
  sends log-mod r2 at 9: view 0 vector 0,0,0 commit 0 start 0 keys
8 r1 deliver log-mod r0
  sends sync-report r0 at 9: view 0 synced 0
8 r2 deliver log-mod r0
  sends sync-report r0 at 9: view 0 synced 0
8 r0 deliver sync-report r1
8 r0 deliver sync-report r2
9 r0 tick 9000
  sends log-mod r1 at 10: view 0 vector 0,0,0 commit 0 start 0 keys
  sends log-mod r2 at 10: view 0 vector 0,0,0 commit 0 start 0 keys
9 r1 deliver log-mod r0
  sends sync-report r0 at 10: view 0 synced 0
9 r2 deliver log-mod r0
  sends sync-report r0 at 10: view 0 synced 0
9 r0 deliver sync-report r1
9 r0 deliver sync-report r2
10 r0 tick 10000
  sends log-mod r1 at 11: view 0 vector 0,0,0 commit 0 start 0 keys
  sends log-mod r2 at 11: view 0 vector 0,0,0 commit 0 start 0 keys
10 r1 deliver log-mod r0
  sends sync-report r0 at 11: view 0 synced 0
10 r2 deliver log-mod r0
  sends sync-report r0 at 11: view 0 synced 0
10 r0 deliver sync-report r1
10 r0 deliver sync-report r2
11 r0 tick 11000
  sends log-mod r1 at 12: view 0 vector 0,0,0 commit 0 start 0 keys
  sends log-mod r2 at 12: view 0 vector 0,0,0 commit 0 start 0 keys
11 r1 deliver log-mod r0
  sends sync-report r0 at 12: view 0 synced 0
11 r2 deliver log-mod r0
  sends sync-report r0 at 12: view 0 synced 0
11 r0 deliver sync-report r1
11 r0 deliver sync-report r2
12 r0 tick 12000
  sends log-mod r1 at 13: view 0 vector 0,0,0 commit 0 start 0 keys
  sends log-mod r2 at 13: view 0 vector 0,0,0 commit 0 start 0 keys
12 r1 deliver log-mod r0
  sends sync-report r0 at 13: view 0 synced 0
12 r2 deliver log-mod r0
  sends sync-report r0 at 13: view 0 synced 0
12 r0 deliver sync-report r1
12 r0 deliver sync-report r2
13 r0 tick 13000
  now normal view 0 vector 0,0,0 synced 1 commit 0 log +12500/c0/1
  sends fast-reply p0 at 14: view 0 id c0/1 digest 67a78bbee5eb7bbd613220a92e03218955332dee vector 0,0,0 delay 1000 answer done
  sends log-mod r1 at 14: view 0 vector 0,0,0 commit 0 start 0 keys 12500/c0/1
  sends log-mod r2 at 14: view 0 vector 0,0,0 commit 0 start 0 keys 12500/c0/1
13 r1 tick 13000
  now normal view 0 vector 0,0,0 synced 0 commit 0 log +12500/c0/1
  sends fast-reply p0 at 14: view 0 id c0/1 digest 67a78bbee5eb7bbd613220a92e03218955332dee vector 0,0,0 delay 1000
13 r2 tick 13000
  now normal view 0 vector 0,0,0 synced 0 commit 0 log +12500/c0/1
  sends fast-reply p0 at 14: view 0 id c0/1 digest 67a78bbee5eb7bbd613220a92e03218955332dee vector 0,0,0 delay 1000
13 r1 deliver log-mod r0
  sends sync-report r0 at 14: view 0 synced 0
13 r2 deliver log-mod r0
  sends sync-report r0 at 14: view 0 synced 0
13 r0 deliver sync-report r1
13 r0 deliver sync-report r2
14 r0 tick 14000
  sends log-mod r1 at 15: view 0 vector 0,0,0 commit 0 start 0 keys 12500/c0/1
  sends log-mod r2 at 15: view 0 vector 0,0,0 commit 0 start 0 keys 12500/c0/1
14 p0 deliver fast-reply r0
14 r1 deliver log-mod r0
  now normal view 0 vector 0,0,0 synced 1 commit 0
  sends slow-reply p0 at 15: view 0 id c0/1 delay 1000
  sends sync-report r0 at 15: view 0 synced 1
14 r2 deliver log-mod r0
  now normal view 0 vector 0,0,0 synced 1 commit 0
  sends slow-reply p0 at 15: view 0 id c0/1 delay 1000
  sends sync-report r0 at 15: view 0 synced 1
14 p0 deliver fast-reply r1
14 p0 deliver fast-reply r2
  sends answer c0 at 15: num 1 answer done path fast
14 r0 deliver sync-report r1
14 r0 deliver sync-report r2
15 r0 tick 15000
  sends log-mod r1 at 16: view 0 vector 0,0,0 commit 0 start 0 keys 12500/c0/1
  sends log-mod r2 at 16: view 0 vector 0,0,0 commit 0 start 0 keys 12500/c0/1
15 r1 deliver log-mod r0
  sends sync-report r0 at 16: view 0 synced 1
15 r2 deliver log-mod r0
  sends sync-report r0 at 16: view 0 synced 1
15 p0 deliver slow-reply r1
15 r0 deliver sync-report r1
  now normal view 0 vector 0,0,0 synced 1 commit 1
15 p0 deliver slow-reply r2
15 r0 deliver sync-report r2
15 c0 deliver answer p0
  accept c0 1 done fast
  send c0 2 put b 2
  sends request p0 at 16: num 2 command put b 2
16 r0 crash
  now down
16 r1 deliver log-mod r0
  sends sync-report r0 at 17: view 0 synced 1
16 r2 deliver log-mod r0
  sends sync-report r0 at 17: view 0 synced 1
16 r0 deliver sync-report r1
16 r0 deliver sync-report r2
16 p0 deliver request c0
  sends timed r0 at 17: sent 16000 deadline 17500 id c0/2
  sends timed r1 at 17: sent 16000 deadline 17500 id c0/2
  sends timed r2 at 17: sent 16000 deadline 17500 id c0/2
17 r0 deliver sync-report r1
17 r0 deliver sync-report r2
17 r0 deliver timed p0
17 r1 deliver timed p0
  now normal view 0 vector 0,0,0 synced 1 commit 0 early +17500/c0/2
17 r2 deliver timed p0
  now normal view 0 vector 0,0,0 synced 1 commit 0 early +17500/c0/2
18 r1 tick 18000
  now normal view 0 vector 0,0,0 synced 1 commit 0 log +17500/c0/2
  sends fast-reply p0 at 19: view 0 id c0/2 digest dbfba85b5f323314505ef9c8fd4f6e82d47896c5 vector 0,0,0 delay 1000
18 r2 tick 18000
  now normal view 0 vector 0,0,0 synced 1 commit 0 log +17500/c0/2
  sends fast-reply p0 at 19: view 0 id c0/2 digest dbfba85b5f323314505ef9c8fd4f6e82d47896c5 vector 0,0,0 delay 1000
19 p0 deliver fast-reply r1
19 p0 deliver fast-reply r2
36 r1 tick 36000
  now view-change collected 0 view 1 vector 0,0,0 synced 1 commit 0
  sends view-ask r0 at 37: view 1
  sends view-ask r2 at 37: view 1
36 r2 tick 36000
  now view-change collected 0 view 1 vector 0,0,0 synced 1 commit 0
  sends view-ask r0 at 37: view 1
  sends view-ask r1 at 37: view 1
  sends view-change r1 at 37: view 1 last 0 vector 0,0,0 synced 1 commit 0 entries 2
37 r0 deliver view-ask r1
37 r2 deliver view-ask r1
37 r0 deliver view-ask r2
37 r1 deliver view-ask r2
37 r1 deliver view-change r2
  now normal view 1 vector 0,0,0 synced 2 commit 0
  sends start-view r0 at 38: view 1 vector 0,0,0 commit 0 entries 2
  sends start-view r2 at 38: view 1 vector 0,0,0 commit 0 entries 2
38 r1 tick 38000
  sends log-mod r0 at 39: view 1 vector 0,0,0 commit 0 start 0 keys 12500/c0/1 17500/c0/2
  sends log-mod r2 at 39: view 1 vector 0,0,0 commit 0 start 0 keys 12500/c0/1 17500/c0/2
38 r0 deliver start-view r1
38 r2 deliver start-view r1
  now normal view 1 vector 0,0,0 synced 2 commit 0
39 r1 tick 39000
  sends log-mod r0 at 40: view 1 vector 0,0,0 commit 0 start 0 keys 12500/c0/1 17500/c0/2
  sends log-mod r2 at 40: view 1 vector 0,0,0 commit 0 start 0 keys 12500/c0/1 17500/c0/2
39 r0 deliver log-mod r1
39 r2 deliver log-mod r1
  sends sync-report r1 at 40: view 1 synced 2
40 r1 tick 40000
  sends log-mod r0 at 41: view 1 vector 0,0,0 commit 0 start 0 keys 12500/c0/1 17500/c0/2
  sends log-mod r2 at 41: view 1 vector 0,0,0 commit 0 start 0 keys 12500/c0/1 17500/c0/2
40 r0 deliver log-mod r1
40 r2 deliver log-mod r1
  sends sync-report r1 at 41: view 1 synced 2
40 r1 deliver sync-report r2
  now normal view 1 vector 0,0,0 synced 2 commit 2
41 r1 tick 41000
  sends log-mod r0 at 42: view 1 vector 0,0,0 commit 2 start 0 keys 12500/c0/1 17500/c0/2
  sends log-mod r2 at 42: view 1 vector 0,0,0 commit 2 start 2 keys
41 r0 deliver log-mod r1
41 r2 deliver log-mod r1
  sends sync-report r1 at 42: view 1 synced 2
41 r1 deliver sync-report r2
42 r1 tick 42000
  sends log-mod r0 at 43: view 1 vector 0,0,0 commit 2 start 0 keys 12500/c0/1 17500/c0/2
  sends log-mod r2 at 43: view 1 vector 0,0,0 commit 2 start 2 keys
42 r0 deliver log-mod r1
42 r2 deliver log-mod r1
  now normal view 1 vector 0,0,0 synced 2 commit 2
  sends sync-report r1 at 43: view 1 synced 2
42 r1 deliver sync-report r2
43 r1 tick 43000
  sends log-mod r0 at 44: view 1 vector 0,0,0 commit 2 start 0 keys 12500/c0/1 17500/c0/2
  sends log-mod r2 at 44: view 1 vector 0,0,0 commit 2 start 2 keys
43 r0 deliver log-mod r1
43 r2 deliver log-mod r1
  sends sync-report r1 at 44: view 1 synced 2
43 r1 deliver sync-report r2
44 r1 tick 44000
  sends log-mod r0 at 45: view 1 vector 0,0,0 commit 2 start 0 keys 12500/c0/1 17500/c0/2
  sends log-mod r2 at 45: view 1 vector 0,0,0 commit 2 start 2 keys
44 r0 deliver log-mod r1
44 r2 deliver log-mod r1
  sends sync-report r1 at 45: view 1 synced 2
44 r1 deliver sync-report r2
45 r1 tick 45000
  sends log-mod r0 at 46: view 1 vector 0,0,0 commit 2 start 0 keys 12500/c0/1 17500/c0/2
  sends log-mod r2 at 46: view 1 vector 0,0,0 commit 2 start 2 keys
45 c0 tick 45000
  sends request p0 at 46: num 2 command put b 2
45 r0 deliver log-mod r1
45 r2 deliver log-mod r1
  sends sync-report r1 at 46: view 1 synced 2
45 r1 deliver sync-report r2
46 r1 tick 46000
  sends log-mod r0 at 47: view 1 vector 0,0,0 commit 2 start 0 keys 12500/c0/1 17500/c0/2
  sends log-mod r2 at 47: view 1 vector 0,0,0 commit 2 start 2 keys
46 r0 deliver log-mod r1
46 r2 deliver log-mod r1
  sends sync-report r1 at 47: view 1 synced 2
46 p0 deliver request c0
  sends timed r0 at 47: sent 46000 deadline 47500 id c0/2
  sends timed r1 at 47: sent 46000 deadline 47500 id c0/2
  sends timed r2 at 47: sent 46000 deadline 47500 id c0/2
46 r1 deliver sync-report r2
47 r1 tick 47000
  sends log-mod r0 at 48: view 1 vector 0,0,0 commit 2 start 0 keys 12500/c0/1 17500/c0/2
  sends log-mod r2 at 48: view 1 vector 0,0,0 commit 2 start 2 keys
47 r0 deliver log-mod r1
47 r2 deliver log-mod r1
  sends sync-report r1 at 48: view 1 synced 2
47 r1 deliver sync-report r2
47 r0 deliver timed p0
47 r1 deliver timed p0
  sends fast-reply p0 at 48: view 1 id c0/2 digest dbfba85b5f323314505ef9c8fd4f6e82d47896c5 vector 0,0,0 delay 1000 answer done
47 r2 deliver timed p0
  sends slow-reply p0 at 48: view 1 id c0/2 delay 1000
48 r1 tick 48000
  sends log-mod r0 at 49: view 1 vector 0,0,0 commit 2 start 0 keys 12500/c0/1 17500/c0/2
  sends log-mod r2 at 49: view 1 vector 0,0,0 commit 2 start 2 keys
48 r0 deliver log-mod r1
48 r2 deliver log-mod r1
  sends sync-report r1 at 49: view 1 synced 2
48 r1 deliver sync-report r2
48 p0 deliver fast-reply r1
48 p0 deliver slow-reply r2
  sends answer c0 at 49: num 2 answer done path slow
49 r1 tick 49000
  sends log-mod r0 at 50: view 1 vector 0,0,0 commit 2 start 0 keys 12500/c0/1 17500/c0/2
  sends log-mod r2 at 50: view 1 vector 0,0,0 commit 2 start 2 keys
49 r0 deliver log-mod r1
49 r2 deliver log-mod r1
  sends sync-report r1 at 50: view 1 synced 2
49 r1 deliver sync-report r2
49 c0 deliver answer p0
  accept c0 2 done slow
  send c0 3 get a
  sends request p0 at 50: num 3 command get a
50 r1 tick 50000
  sends log-mod r0 at 51: view 1 vector 0,0,0 commit 2 start 0 keys 12500/c0/1 17500/c0/2
  sends log-mod r2 at 51: view 1 vector 0,0,0 commit 2 start 2 keys
50 r0 deliver log-mod r1
50 r2 deliver log-mod r1
  sends sync-report r1 at 51: view 1 synced 2
50 r1 deliver sync-report r2
50 p0 deliver request c0
  sends timed r0 at 51: sent 50000 deadline 51500 id c0/3
  sends timed r1 at 51: sent 50000 deadline 51500 id c0/3
  sends timed r2 at 51: sent 50000 deadline 51500 id c0/3
51 r1 tick 51000
  sends log-mod r0 at 52: view 1 vector 0,0,0 commit 2 start 0 keys 12500/c0/1 17500/c0/2
  sends log-mod r2 at 52: view 1 vector 0,0,0 commit 2 start 2 keys
51 r0 deliver log-mod r1
51 r2 deliver log-mod r1
  sends sync-report r1 at 52: view 1 synced 2
51 r1 deliver sync-report r2
51 r0 deliver timed p0
51 r1 deliver timed p0
  now normal view 1 vector 0,0,0 synced 2 commit 2 early +51500/c0/3
51 r2 deliver timed p0
  now normal view 1 vector 0,0,0 synced 2 commit 2 early +51500/c0/3
52 r1 tick 52000
  now normal view 1 vector 0,0,0 synced 3 commit 2 log +51500/c0/3
  sends fast-reply p0 at 53: view 1 id c0/3 digest 76e6b944a768d9d34c38af32dcf801cbf4aeb141 vector 0,0,0 delay 1000 answer value 1
  sends log-mod r0 at 53: view 1 vector 0,0,0 commit 2 start 0 keys 12500/c0/1 17500/c0/2 51500/c0/3
  sends log-mod r2 at 53: view 1 vector 0,0,0 commit 2 start 2 keys 51500/c0/3
52 r2 tick 52000
  now normal view 1 vector 0,0,0 synced 2 commit 2 log +51500/c0/3
  sends fast-reply p0 at 53: view 1 id c0/3 digest 76e6b944a768d9d34c38af32dcf801cbf4aeb141 vector 0,0,0 delay 1000
52 r0 deliver log-mod r1
52 r2 deliver log-mod r1
  sends sync-report r1 at 53: view 1 synced 2
52 r1 deliver sync-report r2
53 r1 tick 53000
  sends log-mod r0 at 54: view 1 vector 0,0,0 commit 2 start 0 keys 12500/c0/1 17500/c0/2 51500/c0/3
  sends log-mod r2 at 54: view 1 vector 0,0,0 commit 2 start 2 keys 51500/c0/3
53 p0 deliver fast-reply r1
53 r0 deliver log-mod r1
53 r2 deliver log-mod r1
  now normal view 1 vector 0,0,0 synced 3 commit 2
  sends slow-reply p0 at 54: view 1 id c0/3 delay 1000
  sends sync-report r1 at 54: view 1 synced 3
53 p0 deliver fast-reply r2
53 r1 deliver sync-report r2
54 r1 tick 54000
  sends log-mod r0 at 55: view 1 vector 0,0,0 commit 2 start 0 keys 12500/c0/1 17500/c0/2 51500/c0/3
  sends log-mod r2 at 55: view 1 vector 0,0,0 commit 2 start 2 keys 51500/c0/3
54 r0 deliver log-mod r1
54 r2 deliver log-mod r1
  sends sync-report r1 at 55: view 1 synced 3
54 p0 deliver slow-reply r2
  sends answer c0 at 55: num 3 answer value 1 path slow
54 r1 deliver sync-report r2
  now normal view 1 vector 0,0,0 synced 3 commit 3
55 r1 tick 55000
  sends log-mod r0 at 56: view 1 vector 0,0,0 commit 3 start 0 keys 12500/c0/1 17500/c0/2 51500/c0/3
  sends log-mod r2 at 56: view 1 vector 0,0,0 commit 3 start 3 keys
55 r0 deliver log-mod r1
55 r2 deliver log-mod r1
  sends sync-report r1 at 56: view 1 synced 3
55 r1 deliver sync-report r2
55 c0 deliver answer p0
  accept c0 3 value 1 slow
56 r1 tick 56000
  sends log-mod r0 at 57: view 1 vector 0,0,0 commit 3 start 0 keys 12500/c0/1 17500/c0/2 51500/c0/3
  sends log-mod r2 at 57: view 1 vector 0,0,0 commit 3 start 3 keys
56 r0 deliver log-mod r1
56 r2 deliver log-mod r1
  now normal view 1 vector 0,0,0 synced 3 commit 3
  sends sync-report r1 at 57: view 1 synced 3
56 r1 deliver sync-report r2
57 r1 tick 57000
  sends log-mod r0 at 58: view 1 vector 0,0,0 commit 3 start 0 keys 12500/c0/1 17500/c0/2 51500/c0/3
  sends log-mod r2 at 58: view 1 vector 0,0,0 commit 3 start 3 keys
57 r0 deliver log-mod r1
57 r2 deliver log-mod r1
  sends sync-report r1 at 58: view 1 synced 3
57 r1 deliver sync-report r2
58 r1 tick 58000
  sends log-mod r0 at 59: view 1 vector 0,0,0 commit 3 start 0 keys 12500/c0/1 17500/c0/2 51500/c0/3
  sends log-mod r2 at 59: view 1 vector 0,0,0 commit 3 start 3 keys
58 r0 deliver log-mod r1
58 r2 deliver log-mod r1
  sends sync-report r1 at 59: view 1 synced 3
58 r1 deliver sync-report r2
59 r1 tick 59000
  sends log-mod r0 at 60: view 1 vector 0,0,0 commit 3 start 0 keys 12500/c0/1 17500/c0/2 51500/c0/3
  sends log-mod r2 at 60: view 1 vector 0,0,0 commit 3 start 3 keys
59 r0 deliver log-mod r1
59 r2 deliver log-mod r1
  sends sync-report r1 at 60: view 1 synced 3
59 r1 deliver sync-report r2
60 r1 tick 60000
  sends log-mod r0 at 61: view 1 vector 0,0,0 commit 3 start 0 keys 12500/c0/1 17500/c0/2 51500/c0/3
  sends log-mod r2 at 61: view 1 vector 0,0,0 commit 3 start 3 keys
60 r0 deliver log-mod r1
60 r2 deliver log-mod r1
  sends sync-report r1 at 61: view 1 synced 3
60 r1 deliver sync-report r2
61 r1 tick 61000
  sends log-mod r0 at 62: view 1 vector 0,0,0 commit 3 start 0 keys 12500/c0/1 17500/c0/2 51500/c0/3
  sends log-mod r2 at 62: view 1 vector 0,0,0 commit 3 start 3 keys
61 r0 deliver log-mod r1
61 r2 deliver log-mod r1
  sends sync-report r1 at 62: view 1 synced 3
61 r1 deliver sync-report r2
62 r1 tick 62000
  sends log-mod r0 at 63: view 1 vector 0,0,0 commit 3 start 0 keys 12500/c0/1 17500/c0/2 51500/c0/3
  sends log-mod r2 at 63: view 1 vector 0,0,0 commit 3 start 3 keys
62 r0 deliver log-mod r1
62 r2 deliver log-mod r1
  sends sync-report r1 at 63: view 1 synced 3
62 r1 deliver sync-report r2
63 r1 tick 63000
  sends log-mod r0 at 64: view 1 vector 0,0,0 commit 3 start 0 keys 12500/c0/1 17500/c0/2 51500/c0/3
  sends log-mod r2 at 64: view 1 vector 0,0,0 commit 3 start 3 keys
63 r0 deliver log-mod r1
63 r2 deliver log-mod r1
  sends sync-report r1 at 64: view 1 synced 3
63 r1 deliver sync-report r2
64 r1 tick 64000
  sends log-mod r0 at 65: view 1 vector 0,0,0 commit 3 start 0 keys 12500/c0/1 17500/c0/2 51500/c0/3
  sends log-mod r2 at 65: view 1 vector 0,0,0 commit 3 start 3 keys
64 r0 deliver log-mod r1
64 r2 deliver log-mod r1
  sends sync-report r1 at 65: view 1 synced 3
64 r1 deliver sync-report r2
65 r1 tick 65000
  sends log-mod r0 at 66: view 1 vector 0,0,0 commit 3 start 0 keys 12500/c0/1 17500/c0/2 51500/c0/3
  sends log-mod r2 at 66: view 1 vector 0,0,0 commit 3 start 3 keys
65 r0 deliver log-mod r1
65 r2 deliver log-mod r1
  sends sync-report r1 at 66: view 1 synced 3
65 r1 deliver sync-report r2
66 r1 tick 66000
  sends log-mod r0 at 67: view 1 vector 0,0,0 commit 3 start 0 keys 12500/c0/1 17500/c0/2 51500/c0/3
  sends log-mod r2 at 67: view 1 vector 0,0,0 commit 3 start 3 keys
66 r0 deliver log-mod r1
66 r2 deliver log-mod r1
  sends sync-report r1 at 67: view 1 synced 3
66 r1 deliver sync-report r2
67 r1 tick 67000
  sends log-mod r0 at 68: view 1 vector 0,0,0 commit 3 start 0 keys 12500/c0/1 17500/c0/2 51500/c0/3
  sends log-mod r2 at 68: view 1 vector 0,0,0 commit 3 start 3 keys
67 r0 deliver log-mod r1
67 r2 deliver log-mod r1
  sends sync-report r1 at 68: view 1 synced 3
67 r1 deliver sync-report r2
68 r1 tick 68000
  sends log-mod r0 at 69: view 1 vector 0,0,0 commit 3 start 0 keys 12500/c0/1 17500/c0/2 51500/c0/3
  sends log-mod r2 at 69: view 1 vector 0,0,0 commit 3 start 3 keys
68 r0 deliver log-mod r1
68 r2 deliver log-mod r1
  sends sync-report r1 at 69: view 1 synced 3
68 r1 deliver sync-report r2
69 r1 tick 69000
  sends log-mod r0 at 70: view 1 vector 0,0,0 commit 3 start 0 keys 12500/c0/1 17500/c0/2 51500/c0/3
  sends log-mod r2 at 70: view 1 vector 0,0,0 commit 3 start 3 keys
69 r0 deliver log-mod r1
69 r2 deliver log-mod r1
  sends sync-report r1 at 70: view 1 synced 3
69 r1 deliver sync-report r2
70 r1 tick 70000
  sends log-mod r0 at 71: view 1 vector 0,0,0 commit 3 start 0 keys 12500/c0/1 17500/c0/2 51500/c0/3
  sends log-mod r2 at 71: view 1 vector 0,0,0 commit 3 start 3 keys
70 r0 deliver log-mod r1
70 r2 deliver log-mod r1
  sends sync-report r1 at 71: view 1 synced 3
70 r1 deliver sync-report r2
71 r1 tick 71000
  sends log-mod r0 at 72: view 1 vector 0,0,0 commit 3 start 0 keys 12500/c0/1 17500/c0/2 51500/c0/3
  sends log-mod r2 at 72: view 1 vector 0,0,0 commit 3 start 3 keys
71 r0 deliver log-mod r1
71 r2 deliver log-mod r1
  sends sync-report r1 at 72: view 1 synced 3
71 r1 deliver sync-report r2
72 r1 tick 72000
  sends log-mod r0 at 73: view 1 vector 0,0,0 commit 3 start 0 keys 12500/c0/1 17500/c0/2 51500/c0/3
  sends log-mod r2 at 73: view 1 vector 0,0,0 commit 3 start 3 keys
72 r0 deliver log-mod r1
72 r2 deliver log-mod r1
  sends sync-report r1 at 73: view 1 synced 3
72 r1 deliver sync-report r2
73 r1 tick 73000
  sends log-mod r0 at 74: view 1 vector 0,0,0 commit 3 start 0 keys 12500/c0/1 17500/c0/2 51500/c0/3
  sends log-mod r2 at 74: view 1 vector 0,0,0 commit 3 start 3 keys
73 r0 deliver log-mod r1
73 r2 deliver log-mod r1
  sends sync-report r1 at 74: view 1 synced 3
73 r1 deliver sync-report r2
74 r1 tick 74000
  sends log-mod r0 at 75: view 1 vector 0,0,0 commit 3 start 0 keys 12500/c0/1 17500/c0/2 51500/c0/3
  sends log-mod r2 at 75: view 1 vector 0,0,0 commit 3 start 3 keys
74 r0 deliver log-mod r1
74 r2 deliver log-mod r1
  sends sync-report r1 at 75: view 1 synced 3
74 r1 deliver sync-report r2
75 r1 tick 75000
  sends log-mod r0 at 76: view 1 vector 0,0,0 commit 3 start 0 keys 12500/c0/1 17500/c0/2 51500/c0/3
  sends log-mod r2 at 76: view 1 vector 0,0,0 commit 3 start 3 keys
75 r0 deliver log-mod r1
75 r2 deliver log-mod r1
  sends sync-report r1 at 76: view 1 synced 3
75 r1 deliver sync-report r2
76 r1 tick 76000
  sends log-mod r0 at 77: view 1 vector 0,0,0 commit 3 start 0 keys 12500/c0/1 17500/c0/2 51500/c0/3
  sends log-mod r2 at 77: view 1 vector 0,0,0 commit 3 start 3 keys
76 r0 deliver log-mod r1
76 r2 deliver log-mod r1
  sends sync-report r1 at 77: view 1 synced 3
76 r1 deliver sync-report r2
77 r1 tick 77000
  sends log-mod r0 at 78: view 1 vector 0,0,0 commit 3 start 0 keys 12500/c0/1 17500/c0/2 51500/c0/3
  sends log-mod r2 at 78: view 1 vector 0,0,0 commit 3 start 3 keys
77 r0 deliver log-mod r1
77 r2 deliver log-mod r1
  sends sync-report r1 at 78: view 1 synced 3
77 r1 deliver sync-report r2
78 r1 tick 78000
  sends log-mod r0 at 79: view 1 vector 0,0,0 commit 3 start 0 keys 12500/c0/1 17500/c0/2 51500/c0/3
  sends log-mod r2 at 79: view 1 vector 0,0,0 commit 3 start 3 keys
78 r0 deliver log-mod r1
78 r2 deliver log-mod r1
  sends sync-report r1 at 79: view 1 synced 3
78 r1 deliver sync-report r2
79 r1 tick 79000
  sends log-mod r0 at 80: view 1 vector 0,0,0 commit 3 start 0 keys 12500/c0/1 17500/c0/2 51500/c0/3
  sends log-mod r2 at 80: view 1 vector 0,0,0 commit 3 start 3 keys
79 r0 deliver log-mod r1
79 r2 deliver log-mod r1
  sends sync-report r1 at 80: view 1 synced 3
79 r1 deliver sync-report r2
80 r1 tick 80000
  sends log-mod r0 at 81: view 1 vector 0,0,0 commit 3 start 0 keys 12500/c0/1 17500/c0/2 51500/c0/3
  sends log-mod r2 at 81: view 1 vector 0,0,0 commit 3 start 3 keys
80 r0 deliver log-mod r1
80 r2 deliver log-mod r1
  sends sync-report r1 at 81: view 1 synced 3
80 r1 deliver sync-report r2
text
send c0 1 put a 1
accept c0 1 done fast
send c0 2 put b 2
accept c0 2 done slow
send c0 3 get a
accept c0 3 value 1 slow
at 1 c0 1 put a 1 gives done
at 2 c0 2 put b 2 gives done
at 3 c0 3 get a gives value 1
end
