1 r0 tick 1000
  sends log-mod r1 at 2: view 0 vector 0,0,0 commit 0 start 0 keys
  sends log-mod r2 at 2: view 0 vector 0,0,0 commit 0 start 0 keys
1 c0 tick 1000
  send c0 1 put a 1
  sends request p0 at 2: num 1 command put a 1
2 r0 tick 2000
  sends log-mod r1 at 3: view 0 vector 0,0,0 commit 0 start 0 keys
  sends log-mod r2 at 3: view 0 vector 0,0,0 commit 0 start 0 keys
2 r1 deliver log-mod r0
  sends sync-report r0 at 3: view 0 synced 0
2 r2 deliver log-mod r0
  sends sync-report r0 at 3: view 0 synced 0
2 p0 deliver request c0
  sends timed r0 at 3: sent 2000 deadline 12500 id c0/1
  sends timed r1 at 3: sent 2000 deadline 12500 id c0/1
  sends timed r2 at 3: sent 2000 deadline 12500 id c0/1
3 r0 tick 3000
  sends log-mod r1 at 4: view 0 vector 0,0,0 commit 0 start 0 keys
  sends log-mod r2 at 4: view 0 vector 0,0,0 commit 0 start 0 keys
3 r1 deliver log-mod r0
  sends sync-report r0 at 4: view 0 synced 0
3 r2 deliver log-mod r0
  sends sync-report r0 at 4: view 0 synced 0
3 r0 deliver sync-report r1
3 r0 deliver sync-report r2
3 r0 deliver timed p0
  now normal view 0 vector 0,0,0 synced 0 commit 0 early +12500/c0/1
3 r1 deliver timed p0
  now normal view 0 vector 0,0,0 synced 0 commit 0 early +12500/c0/1
3 r2 deliver timed p0
  now normal view 0 vector 0,0,0 synced 0 commit 0 early +12500/c0/1
4 r0 tick 4000
  sends log-mod r1 at 5: view 0 vector 0,0,0 commit 0 start 0 keys
  sends log-mod r2 at 5: view 0 vector 0,0,0 commit 0 start 0 keys
4 r1 deliver log-mod r0
  sends sync-report r0 at 5: view 0 synced 0
4 r2 deliver log-mod r0
  sends sync-report r0 at 5: view 0 synced 0
4 r0 deliver sync-report r1
4 r0 deliver sync-report r2
5 r0 tick 5000
  sends log-mod r1 at 6: view 0 vector 0,0,0 commit 0 start 0 keys
  sends log-mod r2 at 6: view 0 vector 0,0,0 commit 0 start 0 keys
5 r1 deliver log-mod r0
  sends sync-report r0 at 6: view 0 synced 0
5 r2 deliver log-mod r0
  sends sync-report r0 at 6: view 0 synced 0
5 r0 deliver sync-report r1
5 r0 deliver sync-report r2
6 r0 tick 6000
  sends log-mod r1 at 7: view 0 vector 0,0,0 commit 0 start 0 keys
  sends log-mod r2 at 7: view 0 vector 0,0,0 commit 0 start 0 keys
6 r1 deliver log-mod r0
  sends sync-report r0 at 7: view 0 synced 0
6 r2 deliver log-mod r0
  sends sync-report r0 at 7: view 0 synced 0
6 r0 deliver sync-report r1
6 r0 deliver sync-report r2
7 r0 tick 7000
  sends log-mod r1 at 8: view 0 vector 0,0,0 commit 0 start 0 keys
  sends log-mod r2 at 8: view 0 vector 0,0,0 commit 0 start 0 keys
7 r1 deliver log-mod r0
  sends sync-report r0 at 8: view 0 synced 0
7 r2 deliver log-mod r0
  sends sync-report r0 at 8: view 0 synced 0
7 r0 deliver sync-report r1
7 r0 deliver sync-report r2
8 r0 tick 8000
  sends log-mod r1 at 9: view 0 vector 0,0,0 commit 0 start 0 keys
  sends log-mod r2 at 9: view 0 vector 0,0,0 commit 0 start 0 keys
8 r1 deliver log-mod r0
  sends sync-report r0 at 9: view 0 synced 0
8 r2 deliver log-mod r0
  sends sync-report r0 at 9: view 0 synced 0
8 r0 deliver sync-report r1
8 r0 deliver sync-report r2
9 r0 tick 9000
  sends log-mod r1 at 10: view 0 vector 0,0,0 commit 0 start 0 keys
  sends log-mod r2 at 10: view 0 vector 0,0,0 commit 0 start 0 keys
9 r1 deliver log-mod r0
  sends sync-report r0 at 10: view 0 synced 0
9 r2 deliver log-mod r0
  sends sync-report r0 at 10: view 0 synced 0
9 r0 deliver sync-report r1
9 r0 deliver sync-report r2
10 r0 tick 10000
  sends log-mod r1 at 11: view 0 vector 0,0,0 commit 0 start 0 keys
  sends log-mod r2 at 11: view 0 vector 0,0,0 commit 0 start 0 keys
10 r1 deliver log-mod r0
  sends sync-report r0 at 11: view 0 synced 0
10 r2 deliver log-mod r0
  sends sync-report r0 at 11: view 0 synced 0
10 r0 deliver sync-report r1
10 r0 deliver sync-report r2
11 r0 tick 11000
  sends log-mod r1 at 12: view 0 vector 0,0,0 commit 0 start 0 keys
  sends log-mod r2 at 12: view 0 vector 0,0,0 commit 0 start 0 keys
11 r1 deliver log-mod r0
  sends sync-report r0 at 12: view 0 synced 0
11 r2 deliver log-mod r0
  sends sync-report r0 at 12: view 0 synced 0
11 r0 deliver sync-report r1
11 r0 deliver sync-report r2
12 r0 tick 12000
  sends log-mod r1 at 13: view 0 vector 0,0,0 commit 0 start 0 keys
  sends log-mod r2 at 13: view 0 vector 0,0,0 commit 0 start 0 keys
12 r1 deliver log-mod r0
  sends sync-report r0 at 13: view 0 synced 0
12 r2 deliver log-mod r0
  sends sync-report r0 at 13: view 0 synced 0
12 r0 deliver sync-report r1
12 r0 deliver sync-report r2
13 r0 tick 13000
  now normal view 0 vector 0,0,0 synced 1 commit 0 log +12500/c0/1
  sends fast-reply p0 at 14: view 0 id c0/1 digest 67a78bbee5eb7bbd613220a92e03218955332dee vector 0,0,0 delay 1000 answer done
  sends log-mod r1 at 14: view 0 vector 0,0,0 commit 0 start 0 keys 12500/c0/1
  sends log-mod r2 at 14: view 0 vector 0,0,0 commit 0 start 0 keys 12500/c0/1
13 r1 tick 13000
  now normal view 0 vector 0,0,0 synced 0 commit 0 log +12500/c0/1
  sends fast-reply p0 at 14: view 0 id c0/1 digest 67a78bbee5eb7bbd613220a92e03218955332dee vector 0,0,0 delay 1000
13 r2 tick 13000
  now normal view 0 vector 0,0,0 synced 0 commit 0 log +12500/c0/1
  sends fast-reply p0 at 14: view 0 id c0/1 digest 67a78bbee5eb7bbd613220a92e03218955332dee vector 0,0,0 delay 1000
13 r1 deliver log-mod r0
  sends sync-report r0 at 14: view 0 synced 0
13 r2 deliver log-mod r0
  sends sync-report r0 at 14: view 0 synced 0
13 r0 deliver sync-report r1
13 r0 deliver sync-report r2
14 r0 tick 14000
  sends log-mod r1 at 15: view 0 vector 0,0,0 commit 0 start 0 keys 12500/c0/1
  sends log-mod r2 at 15: view 0 vector 0,0,0 commit 0 start 0 keys 12500/c0/1
14 p0 deliver fast-reply r0
14 r1 deliver log-mod r0
  now normal view 0 vector 0,0,0 synced 1 commit 0
  sends slow-reply p0 at 15: view 0 id c0/1 delay 1000
  sends sync-report r0 at 15: view 0 synced 1
14 r2 deliver log-mod r0
  now normal view 0 vector 0,0,0 synced 1 commit 0
  sends slow-reply p0 at 15: view 0 id c0/1 delay 1000
  sends sync-report r0 at 15: view 0 synced 1
14 p0 deliver fast-reply r1
14 p0 deliver fast-reply r2
  sends answer c0 at 15: num 1 answer done path fast
14 r0 deliver sync-report r1
14 r0 deliver sync-report r2
15 r0 tick 15000
  sends log-mod r1 at 16: view 0 vector 0,0,0 commit 0 start 0 keys 12500/c0/1
  sends log-mod r2 at 16: view 0 vector 0,0,0 commit 0 start 0 keys 12500/c0/1
15 r1 deliver log-mod r0
  sends sync-report r0 at 16: view 0 synced 1
15 r2 deliver log-mod r0
  sends sync-report r0 at 16: view 0 synced 1
15 p0 deliver slow-reply r1
15 r0 deliver sync-report r1
  now normal view 0 vector 0,0,0 synced 1 commit 1
15 p0 deliver slow-reply r2
15 r0 deliver sync-report r2
15 c0 deliver answer p0
  accept c0 1 done fast
16 r0 tick 16000
  sends log-mod r1 at 17: view 0 vector 0,0,0 commit 1 start 1 keys
  sends log-mod r2 at 17: view 0 vector 0,0,0 commit 1 start 1 keys
16 r1 deliver log-mod r0
  sends sync-report r0 at 17: view 0 synced 1
16 r2 deliver log-mod r0
  sends sync-report r0 at 17: view 0 synced 1
16 r0 deliver sync-report r1
16 r0 deliver sync-report r2
17 r0 tick 17000
  sends log-mod r1 at 18: view 0 vector 0,0,0 commit 1 start 1 keys
  sends log-mod r2 at 18: view 0 vector 0,0,0 commit 1 start 1 keys
17 r1 deliver log-mod r0
  now normal view 0 vector 0,0,0 synced 1 commit 1
  sends sync-report r0 at 18: view 0 synced 1
17 r2 deliver log-mod r0
  now normal view 0 vector 0,0,0 synced 1 commit 1
  sends sync-report r0 at 18: view 0 synced 1
17 r0 deliver sync-report r1
17 r0 deliver sync-report r2
18 r0 tick 18000
  sends log-mod r1 at 19: view 0 vector 0,0,0 commit 1 start 1 keys
  sends log-mod r2 at 19: view 0 vector 0,0,0 commit 1 start 1 keys
18 r1 deliver log-mod r0
  sends sync-report r0 at 19: view 0 synced 1
18 r2 deliver log-mod r0
  sends sync-report r0 at 19: view 0 synced 1
18 r0 deliver sync-report r1
18 r0 deliver sync-report r2
19 r0 tick 19000
  sends log-mod r1 at 20: view 0 vector 0,0,0 commit 1 start 1 keys
  sends log-mod r2 at 20: view 0 vector 0,0,0 commit 1 start 1 keys
19 r1 deliver log-mod r0
  sends sync-report r0 at 20: view 0 synced 1
19 r2 deliver log-mod r0
  sends sync-report r0 at 20: view 0 synced 1
19 r0 deliver sync-report r1
19 r0 deliver sync-report r2
20 r0 crash
  now down
20 r1 crash
  now down
20 r2 crash
  now down
20 r1 deliver log-mod r0
20 r2 deliver log-mod r0
20 r0 deliver sync-report r1
20 r0 deliver sync-report r2
25 r0 restart 1
  now rejoining vectors collected 0 view 0 vector 0,0,0 synced 0 commit 0
  sends vector-ask r1 at 26: nonce 1
  sends vector-ask r2 at 26: nonce 1
25 r1 restart 2
  now rejoining vectors collected 0 view 0 vector 0,0,0 synced 0 commit 0
  sends vector-ask r0 at 26: nonce 2
  sends vector-ask r2 at 26: nonce 2
25 r2 restart 3
  now rejoining vectors collected 0 view 0 vector 0,0,0 synced 0 commit 0
  sends vector-ask r0 at 26: nonce 3
  sends vector-ask r1 at 26: nonce 3
26 r1 deliver vector-ask r0
26 r2 deliver vector-ask r0
26 r0 deliver vector-ask r1
26 r2 deliver vector-ask r1
26 r0 deliver vector-ask r2
26 r1 deliver vector-ask r2
29 r0 tick 29000
  sends vector-ask r1 at 30: nonce 1
  sends vector-ask r2 at 30: nonce 1
29 r1 tick 29000
  sends vector-ask r0 at 30: nonce 2
  sends vector-ask r2 at 30: nonce 2
29 r2 tick 29000
  sends vector-ask r0 at 30: nonce 3
  sends vector-ask r1 at 30: nonce 3
30 c0 tick 30000
  send c0 2 put b 2
  sends request p0 at 31: num 2 command put b 2
30 r1 deliver vector-ask r0
30 r2 deliver vector-ask r0
30 r0 deliver vector-ask r1
30 r2 deliver vector-ask r1
30 r0 deliver vector-ask r2
30 r1 deliver vector-ask r2
31 p0 deliver request c0
  sends timed r0 at 32: sent 31000 deadline 32500 id c0/2
  sends timed r1 at 32: sent 31000 deadline 32500 id c0/2
  sends timed r2 at 32: sent 31000 deadline 32500 id c0/2
32 r0 deliver timed p0
32 r1 deliver timed p0
32 r2 deliver timed p0
34 r0 tick 34000
  sends vector-ask r1 at 35: nonce 1
  sends vector-ask r2 at 35: nonce 1
34 r1 tick 34000
  sends vector-ask r0 at 35: nonce 2
  sends vector-ask r2 at 35: nonce 2
34 r2 tick 34000
  sends vector-ask r0 at 35: nonce 3
  sends vector-ask r1 at 35: nonce 3
35 r1 deliver vector-ask r0
35 r2 deliver vector-ask r0
35 r0 deliver vector-ask r1
35 r2 deliver vector-ask r1
35 r0 deliver vector-ask r2
35 r1 deliver vector-ask r2
39 r0 tick 39000
  sends vector-ask r1 at 40: nonce 1
  sends vector-ask r2 at 40: nonce 1
39 r1 tick 39000
  sends vector-ask r0 at 40: nonce 2
  sends vector-ask r2 at 40: nonce 2
39 r2 tick 39000
  sends vector-ask r0 at 40: nonce 3
  sends vector-ask r1 at 40: nonce 3
40 r1 deliver vector-ask r0
40 r2 deliver vector-ask r0
40 r0 deliver vector-ask r1
40 r2 deliver vector-ask r1
40 r0 deliver vector-ask r2
40 r1 deliver vector-ask r2
44 r0 tick 44000
  sends vector-ask r1 at 45: nonce 1
  sends vector-ask r2 at 45: nonce 1
44 r1 tick 44000
  sends vector-ask r0 at 45: nonce 2
  sends vector-ask r2 at 45: nonce 2
44 r2 tick 44000
  sends vector-ask r0 at 45: nonce 3
  sends vector-ask r1 at 45: nonce 3
45 r1 deliver vector-ask r0
45 r2 deliver vector-ask r0
45 r0 deliver vector-ask r1
45 r2 deliver vector-ask r1
45 r0 deliver vector-ask r2
45 r1 deliver vector-ask r2
49 r0 tick 49000
  sends vector-ask r1 at 50: nonce 1
  sends vector-ask r2 at 50: nonce 1
49 r1 tick 49000
  sends vector-ask r0 at 50: nonce 2
  sends vector-ask r2 at 50: nonce 2
49 r2 tick 49000
  sends vector-ask r0 at 50: nonce 3
  sends vector-ask r1 at 50: nonce 3
50 r1 deliver vector-ask r0
50 r2 deliver vector-ask r0
50 r0 deliver vector-ask r1
50 r2 deliver vector-ask r1
50 r0 deliver vector-ask r2
50 r1 deliver vector-ask r2
54 r0 tick 54000
  sends vector-ask r1 at 55: nonce 1
  sends vector-ask r2 at 55: nonce 1
54 r1 tick 54000
  sends vector-ask r0 at 55: nonce 2
  sends vector-ask r2 at 55: nonce 2
54 r2 tick 54000
  sends vector-ask r0 at 55: nonce 3
  sends vector-ask r1 at 55: nonce 3
55 r1 deliver vector-ask r0
55 r2 deliver vector-ask r0
55 r0 deliver vector-ask r1
55 r2 deliver vector-ask r1
55 r0 deliver vector-ask r2
55 r1 deliver vector-ask r2
59 r0 tick 59000
  sends vector-ask r1 at 60: nonce 1
  sends vector-ask r2 at 60: nonce 1
59 r1 tick 59000
  sends vector-ask r0 at 60: nonce 2
  sends vector-ask r2 at 60: nonce 2
59 r2 tick 59000
  sends vector-ask r0 at 60: nonce 3
  sends vector-ask r1 at 60: nonce 3
60 c0 tick 60000
  sends request p0 at 61: num 2 command put b 2
60 r1 deliver vector-ask r0
60 r2 deliver vector-ask r0
60 r0 deliver vector-ask r1
60 r2 deliver vector-ask r1
60 r0 deliver vector-ask r2
60 r1 deliver vector-ask r2
61 p0 deliver request c0
  sends timed r0 at 62: sent 61000 deadline 62500 id c0/2
  sends timed r1 at 62: sent 61000 deadline 62500 id c0/2
  sends timed r2 at 62: sent 61000 deadline 62500 id c0/2
62 r0 deliver timed p0
62 r1 deliver timed p0
62 r2 deliver timed p0
64 r0 tick 64000
  sends vector-ask r1 at 65: nonce 1
  sends vector-ask r2 at 65: nonce 1
64 r1 tick 64000
  sends vector-ask r0 at 65: nonce 2
  sends vector-ask r2 at 65: nonce 2
64 r2 tick 64000
  sends vector-ask r0 at 65: nonce 3
  sends vector-ask r1 at 65: nonce 3
65 r1 deliver vector-ask r0
65 r2 deliver vector-ask r0
65 r0 deliver vector-ask r1
65 r2 deliver vector-ask r1
65 r0 deliver vector-ask r2
65 r1 deliver vector-ask r2
69 r0 tick 69000
  sends vector-ask r1 at 70: nonce 1
  sends vector-ask r2 at 70: nonce 1
69 r1 tick 69000
  sends vector-ask r0 at 70: nonce 2
  sends vector-ask r2 at 70: nonce 2
69 r2 tick 69000
  sends vector-ask r0 at 70: nonce 3
  sends vector-ask r1 at 70: nonce 3
70 r1 deliver vector-ask r0
70 r2 deliver vector-ask r0
70 r0 deliver vector-ask r1
70 r2 deliver vector-ask r1
70 r0 deliver vector-ask r2
70 r1 deliver vector-ask r2
74 r0 tick 74000
  sends vector-ask r1 at 75: nonce 1
  sends vector-ask r2 at 75: nonce 1
74 r1 tick 74000
  sends vector-ask r0 at 75: nonce 2
  sends vector-ask r2 at 75: nonce 2
74 r2 tick 74000
  sends vector-ask r0 at 75: nonce 3
  sends vector-ask r1 at 75: nonce 3
75 r1 deliver vector-ask r0
75 r2 deliver vector-ask r0
75 r0 deliver vector-ask r1
75 r2 deliver vector-ask r1
75 r0 deliver vector-ask r2
75 r1 deliver vector-ask r2
79 r0 tick 79000
  sends vector-ask r1 at 80: nonce 1
  sends vector-ask r2 at 80: nonce 1
79 r1 tick 79000
  sends vector-ask r0 at 80: nonce 2
  sends vector-ask r2 at 80: nonce 2
79 r2 tick 79000
  sends vector-ask r0 at 80: nonce 3
  sends vector-ask r1 at 80: nonce 3
80 r1 deliver vector-ask r0
80 r2 deliver vector-ask r0
80 r0 deliver vector-ask r1
80 r2 deliver vector-ask r1
80 r0 deliver vector-ask r2
80 r1 deliver vector-ask r2
84 r0 tick 84000
  sends vector-ask r1 at 85: nonce 1
  sends vector-ask r2 at 85: nonce 1
84 r1 tick 84000
  sends vector-ask r0 at 85: nonce 2
  sends vector-ask r2 at 85: nonce 2
84 r2 tick 84000
  sends vector-ask r0 at 85: nonce 3
  sends vector-ask r1 at 85: nonce 3
85 r1 deliver vector-ask r0
85 r2 deliver vector-ask r0
85 r0 deliver vector-ask r1
85 r2 deliver vector-ask r1
85 r0 deliver vector-ask r2
85 r1 deliver vector-ask r2
89 r0 tick 89000
  sends vector-ask r1 at 90: nonce 1
  sends vector-ask r2 at 90: nonce 1
89 r1 tick 89000
  sends vector-ask r0 at 90: nonce 2
  sends vector-ask r2 at 90: nonce 2
89 r2 tick 89000
  sends vector-ask r0 at 90: nonce 3
  sends vector-ask r1 at 90: nonce 3
90 c0 tick 90000
  sends request p0 at 91: num 2 command put b 2
90 r1 deliver vector-ask r0
90 r2 deliver vector-ask r0
90 r0 deliver vector-ask r1
90 r2 deliver vector-ask r1
90 r0 deliver vector-ask r2
90 r1 deliver vector-ask r2
91 p0 deliver request c0
  sends timed r0 at 92: sent 91000 deadline 92500 id c0/2
  sends timed r1 at 92: sent 91000 deadline 92500 id c0/2
  sends timed r2 at 92: sent 91000 deadline 92500 id c0/2
92 r0 deliver timed p0
92 r1 deliver timed p0
92 r2 deliver timed p0
94 r0 tick 94000
  sends vector-ask r1 at 95: nonce 1
  sends vector-ask r2 at 95: nonce 1
94 r1 tick 94000
  sends vector-ask r0 at 95: nonce 2
  sends vector-ask r2 at 95: nonce 2
94 r2 tick 94000
  sends vector-ask r0 at 95: nonce 3
  sends vector-ask r1 at 95: nonce 3
95 r1 deliver vector-ask r0
95 r2 deliver vector-ask r0
95 r0 deliver vector-ask r1
95 r2 deliver vector-ask r1
95 r0 deliver vector-ask r2
95 r1 deliver vector-ask r2
99 r0 tick 99000
  sends vector-ask r1 at 100: nonce 1
  sends vector-ask r2 at 100: nonce 1
99 r1 tick 99000
  sends vector-ask r0 at 100: nonce 2
  sends vector-ask r2 at 100: nonce 2
99 r2 tick 99000
  sends vector-ask r0 at 100: nonce 3
  sends vector-ask r1 at 100: nonce 3
100 r1 deliver vector-ask r0
100 r2 deliver vector-ask r0
100 r0 deliver vector-ask r1
100 r2 deliver vector-ask r1
100 r0 deliver vector-ask r2
100 r1 deliver vector-ask r2
text
send c0 1 put a 1
accept c0 1 done fast
send c0 2 put b 2
open c0 2
at 1 c0 1 put a 1 gives done
end
