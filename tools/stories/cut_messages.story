1 r0 tick 1000
  sends log-mod r1 at 2: view 0 vector 0,0,0 commit 0 start 0 keys
  sends log-mod r2 at 2: view 0 vector 0,0,0 commit 0 start 0 keys
1 c0 tick 1000
  send c0 1 put a 1
  sends request p0 at 2: num 1 command put a 1
2 r0 tick 2000
  sends log-mod r1 at 3: view 0 vector 0,0,0 commit 0 start 0 keys
  sends log-mod r2 at 3: view 0 vector 0,0,0 commit 0 start 0 keys
2 r1 deliver log-mod r0
  sends sync-report r0 at 3: view 0 synced 0
2 r2 deliver log-mod r0
  sends sync-report r0 at 3: view 0 synced 0
2 p0 deliver request c0
  sends timed r0 at 3: sent 2000 deadline 12500 id c0/1
  sends timed r1 at 3: sent 2000 deadline 12500 id c0/1
  sends timed r2 at 3 cut 0: sent 2000 deadline 12500 id c0/1
3 r0 tick 3000
  sends log-mod r1 at 4: view 0 vector 0,0,0 commit 0 start 0 keys
  sends log-mod r2 at 4: view 0 vector 0,0,0 commit 0 start 0 keys
3 r1 deliver log-mod r0
  sends sync-report r0 at 4: view 0 synced 0
3 r2 deliver log-mod r0
  sends sync-report r0 at 4: view 0 synced 0
3 r0 deliver sync-report r1
3 r0 deliver sync-report r2
3 r0 deliver timed p0
  now normal view 0 vector 0,0,0 synced 0 commit 0 early +12500/c0/1
3 r1 deliver timed p0
  now normal view 0 vector 0,0,0 synced 0 commit 0 early +12500/c0/1
3 r2 cut timed p0 0
4 r0 tick 4000
  sends log-mod r1 at 5: view 0 vector 0,0,0 commit 0 start 0 keys
  sends log-mod r2 at 5: view 0 vector 0,0,0 commit 0 start 0 keys
4 r1 deliver log-mod r0
  sends sync-report r0 at 5: view 0 synced 0
4 r2 deliver log-mod r0
  sends sync-report r0 at 5: view 0 synced 0
4 r0 deliver sync-report r1
4 r0 deliver sync-report r2
5 r0 tick 5000
  sends log-mod r1 at 6: view 0 vector 0,0,0 commit 0 start 0 keys
  sends log-mod r2 at 6: view 0 vector 0,0,0 commit 0 start 0 keys
5 r1 deliver log-mod r0
  sends sync-report r0 at 6: view 0 synced 0
5 r2 deliver log-mod r0
  sends sync-report r0 at 6: view 0 synced 0
5 r0 deliver sync-report r1
5 r0 deliver sync-report r2
6 r0 tick 6000
  sends log-mod r1 at 7: view 0 vector 0,0,0 commit 0 start 0 keys
  sends log-mod r2 at 7: view 0 vector 0,0,0 commit 0 start 0 keys
6 r1 deliver log-mod r0
  sends sync-report r0 at 7: view 0 synced 0
6 r2 deliver log-mod r0
  sends sync-report r0 at 7: view 0 synced 0
6 r0 deliver sync-report r1
6 r0 deliver sync-report r2
7 r0 tick 7000
  sends log-mod r1 at 8: view 0 vector 0,0,0 commit 0 start 0 keys
  sends log-mod r2 at 8: view 0 vector 0,0,0 commit 0 start 0 keys
7 r1 deliver log-mod r0
  sends sync-report r0 at 8: view 0 synced 0
7 r2 deliver log-mod r0
  sends sync-report r0 at 8: view 0 synced 0
7 r0 deliver sync-report r1
7 r0 deliver sync-report r2
8 r0 tick 8000
  sends log-mod r1 at 9: view 0 vector 0,0,0 commit 0 start 0 keys
  sends log-mod r2 at 9: view 0 vector 0,0,0 commit 0 start 0 keys
8 r1 deliver log-mod r0
  sends sync-report r0 at 9: view 0 synced 0
8 r2 deliver log-mod r0
  sends sync-report r0 at 9: view 0 synced 0
8 r0 deliver sync-report r1
8 r0 deliver sync-report r2
9 r0 tick 9000
  sends log-mod r1 at 10: view 0 vector 0,0,0 commit 0 start 0 keys
  sends log-mod r2 at 10: view 0 vector 0,0,0 commit 0 start 0 keys
9 r1 deliver log-mod r0
  sends sync-report r0 at 10: view 0 synced 0
9 r2 deliver log-mod r0
  sends sync-report r0 at 10: view 0 synced 0
9 r0 deliver sync-report r1
9 r0 deliver sync-report r2
10 r0 tick 10000
  sends log-mod r1 at 11: view 0 vector 0,0,0 commit 0 start 0 keys
  sends log-mod r2 at 11: view 0 vector 0,0,0 commit 0 start 0 keys
10 r1 deliver log-mod r0
  sends sync-report r0 at 11: view 0 synced 0
10 r2 deliver log-mod r0
  sends sync-report r0 at 11: view 0 synced 0
10 r0 deliver sync-report r1
10 r0 deliver sync-report r2
11 r0 tick 11000
  sends log-mod r1 at 12: view 0 vector 0,0,0 commit 0 start 0 keys
  sends log-mod r2 at 12: view 0 vector 0,0,0 commit 0 start 0 keys
11 r1 deliver log-mod r0
  sends sync-report r0 at 12: view 0 synced 0
11 r2 deliver log-mod r0
  sends sync-report r0 at 12: view 0 synced 0
11 r0 deliver sync-report r1
11 r0 deliver sync-report r2
12 r0 tick 12000
  sends log-mod r1 at 13: view 0 vector 0,0,0 commit 0 start 0 keys
  sends log-mod r2 at 13: view 0 vector 0,0,0 commit 0 start 0 keys
12 r1 deliver log-mod r0
  sends sync-report r0 at 13: view 0 synced 0
12 r2 deliver log-mod r0
  sends sync-report r0 at 13: view 0 synced 0
12 r0 deliver sync-report r1
12 r0 deliver sync-report r2
13 r0 tick 13000
  now normal view 0 vector 0,0,0 synced 1 commit 0 log +12500/c0/1
  sends fast-reply p0 at 14: view 0 id c0/1 digest 67a78bbee5eb7bbd613220a92e03218955332dee vector 0,0,0 delay 1000 answer done
  sends log-mod r1 at 14: view 0 vector 0,0,0 commit 0 start 0 keys 12500/c0/1
  sends log-mod r2 at 14: view 0 vector 0,0,0 commit 0 start 0 keys 12500/c0/1
13 r1 tick 13000
  now normal view 0 vector 0,0,0 synced 0 commit 0 log +12500/c0/1
  sends fast-reply p0 at 14 cut 63: view 0 id c0/1 digest 67a78bbee5eb7bbd613220a92e03218955332dee vector 0,0,0 delay 1000
13 r1 deliver log-mod r0
  sends sync-report r0 at 14: view 0 synced 0
13 r2 deliver log-mod r0
  sends sync-report r0 at 14: view 0 synced 0
13 r0 deliver sync-report r1
13 r0 deliver sync-report r2
14 r0 tick 14000
  sends log-mod r1 at 15: view 0 vector 0,0,0 commit 0 start 0 keys 12500/c0/1
  sends log-mod r2 at 15: view 0 vector 0,0,0 commit 0 start 0 keys 12500/c0/1
14 p0 deliver fast-reply r0
14 r1 deliver log-mod r0
  now normal view 0 vector 0,0,0 synced 1 commit 0
  sends slow-reply p0 at 15: view 0 id c0/1 delay 1000
  sends sync-report r0 at 15: view 0 synced 1
14 r2 deliver log-mod r0
  sends fetch r0 at 15: view 0 ids c0/1
  sends sync-report r0 at 15: view 0 synced 0
14 p0 cut fast-reply r1 63
14 r0 deliver sync-report r1
14 r0 deliver sync-report r2
15 r0 tick 15000
  sends log-mod r1 at 16: view 0 vector 0,0,0 commit 0 start 0 keys 12500/c0/1
  sends log-mod r2 at 16: view 0 vector 0,0,0 commit 0 start 0 keys 12500/c0/1
15 r1 deliver log-mod r0
  sends sync-report r0 at 16: view 0 synced 1
15 r2 deliver log-mod r0
  sends fetch r0 at 16: view 0 ids c0/1
  sends sync-report r0 at 16: view 0 synced 0
15 p0 deliver slow-reply r1
  sends answer c0 at 16: num 1 answer done path slow
15 r0 deliver sync-report r1
  now normal view 0 vector 0,0,0 synced 1 commit 1
15 r0 deliver fetch r2
  sends fetch-reply r2 at 16: view 0 entries 1
15 r0 deliver sync-report r2
16 r0 tick 16000
  sends log-mod r1 at 17: view 0 vector 0,0,0 commit 1 start 1 keys
  sends log-mod r2 at 17: view 0 vector 0,0,0 commit 1 start 0 keys 12500/c0/1
16 r1 deliver log-mod r0
  sends sync-report r0 at 17: view 0 synced 1
16 r2 deliver log-mod r0
  sends fetch r0 at 17: view 0 ids c0/1
  sends sync-report r0 at 17: view 0 synced 0
16 r0 deliver sync-report r1
16 r0 deliver fetch r2
  sends fetch-reply r2 at 17: view 0 entries 1
16 r0 deliver sync-report r2
16 c0 deliver answer p0
  accept c0 1 done slow
16 r2 deliver fetch-reply r0
  now normal view 0 vector 0,0,0 synced 0 commit 0 late +12500/c0/1
17 r0 tick 17000
  sends log-mod r1 at 18: view 0 vector 0,0,0 commit 1 start 1 keys
  sends log-mod r2 at 18: view 0 vector 0,0,0 commit 1 start 0 keys 12500/c0/1
17 r1 deliver log-mod r0
  now normal view 0 vector 0,0,0 synced 1 commit 1
  sends sync-report r0 at 18: view 0 synced 1
17 r2 deliver log-mod r0
  now normal view 0 vector 0,0,0 synced 1 commit 1 log +12500/c0/1
  sends sync-report r0 at 18: view 0 synced 1
17 r0 deliver sync-report r1
17 r0 deliver fetch r2
  sends fetch-reply r2 at 18: view 0 entries 1
17 r0 deliver sync-report r2
17 r2 deliver fetch-reply r0
18 r0 tick 18000
  sends log-mod r1 at 19: view 0 vector 0,0,0 commit 1 start 1 keys
  sends log-mod r2 at 19: view 0 vector 0,0,0 commit 1 start 0 keys 12500/c0/1
18 r1 deliver log-mod r0
  sends sync-report r0 at 19: view 0 synced 1
18 r2 deliver log-mod r0
  sends sync-report r0 at 19: view 0 synced 1
18 r0 deliver sync-report r1
18 r0 deliver sync-report r2
18 r2 deliver fetch-reply r0
19 r0 tick 19000
  sends log-mod r1 at 20: view 0 vector 0,0,0 commit 1 start 1 keys
  sends log-mod r2 at 20: view 0 vector 0,0,0 commit 1 start 1 keys
19 r1 deliver log-mod r0
  sends sync-report r0 at 20: view 0 synced 1
19 r2 deliver log-mod r0
  sends sync-report r0 at 20: view 0 synced 1
19 r0 deliver sync-report r1
19 r0 deliver sync-report r2
20 r0 tick 20000
  sends log-mod r1 at 21: view 0 vector 0,0,0 commit 1 start 1 keys
  sends log-mod r2 at 21: view 0 vector 0,0,0 commit 1 start 1 keys
20 r1 deliver log-mod r0
  sends sync-report r0 at 21: view 0 synced 1
20 r2 deliver log-mod r0
  sends sync-report r0 at 21: view 0 synced 1
20 r0 deliver sync-report r1
20 r0 deliver sync-report r2
21 r0 tick 21000
  sends log-mod r1 at 22: view 0 vector 0,0,0 commit 1 start 1 keys
  sends log-mod r2 at 22: view 0 vector 0,0,0 commit 1 start 1 keys
21 r1 deliver log-mod r0
  sends sync-report r0 at 22: view 0 synced 1
21 r2 deliver log-mod r0
  sends sync-report r0 at 22: view 0 synced 1
21 r0 deliver sync-report r1
21 r0 deliver sync-report r2
22 r0 tick 22000
  sends log-mod r1 at 23: view 0 vector 0,0,0 commit 1 start 1 keys
  sends log-mod r2 at 23: view 0 vector 0,0,0 commit 1 start 1 keys
22 r1 deliver log-mod r0
  sends sync-report r0 at 23: view 0 synced 1
22 r2 deliver log-mod r0
  sends sync-report r0 at 23: view 0 synced 1
22 r0 deliver sync-report r1
22 r0 deliver sync-report r2
23 r0 tick 23000
  sends log-mod r1 at 24: view 0 vector 0,0,0 commit 1 start 1 keys
  sends log-mod r2 at 24: view 0 vector 0,0,0 commit 1 start 1 keys
23 r1 deliver log-mod r0
  sends sync-report r0 at 24: view 0 synced 1
23 r2 deliver log-mod r0
  sends sync-report r0 at 24: view 0 synced 1
23 r0 deliver sync-report r1
23 r0 deliver sync-report r2
24 r0 tick 24000
  sends log-mod r1 at 25: view 0 vector 0,0,0 commit 1 start 1 keys
  sends log-mod r2 at 25: view 0 vector 0,0,0 commit 1 start 1 keys
24 r1 deliver log-mod r0
  sends sync-report r0 at 25: view 0 synced 1
24 r2 deliver log-mod r0
  sends sync-report r0 at 25: view 0 synced 1
24 r0 deliver sync-report r1
24 r0 deliver sync-report r2
25 r0 tick 25000
  sends log-mod r1 at 26: view 0 vector 0,0,0 commit 1 start 1 keys
  sends log-mod r2 at 26: view 0 vector 0,0,0 commit 1 start 1 keys
25 r1 deliver log-mod r0
  sends sync-report r0 at 26: view 0 synced 1
25 r2 deliver log-mod r0
  sends sync-report r0 at 26: view 0 synced 1
25 r0 deliver sync-report r1
25 r0 deliver sync-report r2
26 r0 tick 26000
  sends log-mod r1 at 27: view 0 vector 0,0,0 commit 1 start 1 keys
  sends log-mod r2 at 27: view 0 vector 0,0,0 commit 1 start 1 keys
26 r1 deliver log-mod r0
  sends sync-report r0 at 27: view 0 synced 1
26 r2 deliver log-mod r0
  sends sync-report r0 at 27: view 0 synced 1
26 r0 deliver sync-report r1
26 r0 deliver sync-report r2
27 r0 tick 27000
  sends log-mod r1 at 28: view 0 vector 0,0,0 commit 1 start 1 keys
  sends log-mod r2 at 28: view 0 vector 0,0,0 commit 1 start 1 keys
27 r1 deliver log-mod r0
  sends sync-report r0 at 28: view 0 synced 1
27 r2 deliver log-mod r0
  sends sync-report r0 at 28: view 0 synced 1
27 r0 deliver sync-report r1
27 r0 deliver sync-report r2
28 r0 tick 28000
  sends log-mod r1 at 29: view 0 vector 0,0,0 commit 1 start 1 keys
  sends log-mod r2 at 29: view 0 vector 0,0,0 commit 1 start 1 keys
28 r1 deliver log-mod r0
  sends sync-report r0 at 29: view 0 synced 1
28 r2 deliver log-mod r0
  sends sync-report r0 at 29: view 0 synced 1
28 r0 deliver sync-report r1
28 r0 deliver sync-report r2
29 r0 tick 29000
  sends log-mod r1 at 30: view 0 vector 0,0,0 commit 1 start 1 keys
  sends log-mod r2 at 30: view 0 vector 0,0,0 commit 1 start 1 keys
29 r1 deliver log-mod r0
  sends sync-report r0 at 30: view 0 synced 1
29 r2 deliver log-mod r0
  sends sync-report r0 at 30: view 0 synced 1
29 r0 deliver sync-report r1
29 r0 deliver sync-report r2
30 r0 tick 30000
  sends log-mod r1 at 31: view 0 vector 0,0,0 commit 1 start 1 keys
  sends log-mod r2 at 31: view 0 vector 0,0,0 commit 1 start 1 keys
30 r1 deliver log-mod r0
  sends sync-report r0 at 31: view 0 synced 1
30 r2 deliver log-mod r0
  sends sync-report r0 at 31: view 0 synced 1
30 r0 deliver sync-report r1
30 r0 deliver sync-report r2
text
send c0 1 put a 1
accept c0 1 done slow
at 1 c0 1 put a 1 gives done
end
