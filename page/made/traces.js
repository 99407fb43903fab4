// What the engine prints of the classic examples, by make_traces.js: for the links of the pages made from docs/.

export const EXAMPLES = `
failed-tries              coarse      two adds of one key: the second's tries of the lock fail
full                      coarse      an add beyond its thread's quota; a remove gives no slot back
hand-over-hand            fine        a remover waits for an adder before it, then goes hand over hand
same-gap                  optimistic  two adds into one gap: the second sees the changed link and walks again
stale-pred                optimistic  pred is taken out after the walk: the second walk does not find it
marked-in-chain           lazy        contains answers false, and the key's node is still in the chain
marked-pred               lazy        pred is marked after the walk: its link gives it away
read-in-anothers-step     lazy        contains takes effect in a step of the thread that removed its key
ceiling-in-anothers-step  lazy        the answer of ceiling fits after steps of the other thread, and after none of its own
opens-with-keys           lazy        two opening keys take no slot, and the remove of one gives none back
two-removers              lock-free   two removes of one key: one marks, the other walks again and answers false
snip                      lock-free   an add takes out the node that a remove has marked
tries-again               lock-free   an exchange fails, and the add walks again with the same slot
left-in-chain             lock-free   a remove has ended, and its node is still in the chain: contains answers false
ceiling-meets-mark        lock-free   the node at which ceiling stops is marked: it walks again and answers nothing
ceiling-left-in-chain     lock-free   ceiling stops at the node of a remove that has ended: it may not answer that key
behind-the-walk           lock-free   a key comes in behind the walk of ceiling, which answers the key above it
nothing-in-anothers-step  lock-free   ceiling answers nothing, and a key is there just after each of its own steps
`.slice(1);

export const TRACES = {
  "failed-tries": `
listset-trace 1
list coarse
threads 2
quota 4
event 1 line 5 thread 0 begin add 5 call 0 pc 1
event 2 line 6 thread 1 begin add 5 call 1 pc 1
event 3 line 7 thread 0 exchange list.lock from free to t0 saw free pc 2
event 4 line 8 thread 1 exchange list.lock from free to t1 saw t0 pc 1
event 5 line 8 thread 1 exchange list.lock from free to t1 saw t0 pc 1
event 6 line 8 thread 1 exchange list.lock from free to t1 saw t0 pc 1
event 7 line 9 thread 0 load head.link saw tail pc 3 curr tail
event 8 line 9 thread 0 load tail.key saw +inf pc 5 ckey +inf
event 9 line 9 thread 0 store n2.key 5 pc 6
event 10 line 9 thread 0 store n2.link tail pc 7
event 11 line 9 thread 0 store head.link n2 pc 10 used 1 reply true put 5
event 12 line 9 thread 0 store list.lock free pc 0 answer true call 0 at 11
event 13 line 10 thread 1 exchange list.lock from free to t1 saw free pc 2
event 14 line 10 thread 1 load head.link saw n2 pc 3 curr n2
event 15 line 10 thread 1 load n2.key saw 5 pc 10 ckey 5 reply false
event 16 line 10 thread 1 store list.lock free pc 0 answer false call 1 at 11
end
`.slice(1),
  "full": `
listset-trace 1
list coarse
threads 1
quota 1
event 1 line 5 thread 0 begin add 5 call 0 pc 1
event 2 line 6 thread 0 exchange list.lock from free to t0 saw free pc 2
event 3 line 6 thread 0 load head.link saw tail pc 3 curr tail
event 4 line 6 thread 0 load tail.key saw +inf pc 5 ckey +inf
event 5 line 6 thread 0 store n2.key 5 pc 6
event 6 line 6 thread 0 store n2.link tail pc 7
event 7 line 6 thread 0 store head.link n2 pc 10 used 1 reply true put 5
event 8 line 6 thread 0 store list.lock free pc 0 answer true call 0 at 7
event 9 line 7 thread 0 begin remove 5 call 1 pc 1
event 10 line 8 thread 0 exchange list.lock from free to t0 saw free pc 2
event 11 line 8 thread 0 load head.link saw n2 pc 3 curr n2
event 12 line 8 thread 0 load n2.key saw 5 pc 8 ckey 5
event 13 line 8 thread 0 load n2.link saw tail pc 9 succ tail
event 14 line 8 thread 0 store head.link tail pc 10 reply true took 5
event 15 line 8 thread 0 store list.lock free pc 0 answer true call 1 at 14
event 16 line 9 thread 0 begin add 7 call 2 pc 1
event 17 line 10 thread 0 exchange list.lock from free to t0 saw free pc 2
event 18 line 10 thread 0 load head.link saw tail pc 3 curr tail
event 19 line 10 thread 0 load tail.key saw +inf pc 10 ckey +inf reply full
event 20 line 10 thread 0 store list.lock free pc 0 answer full call 2 at 16
end
`.slice(1),
  "hand-over-hand": `
listset-trace 1
list fine
threads 2
quota 4
event 1 line 5 thread 1 begin add 9 call 0 pc 1
event 2 line 6 thread 1 exchange head.lock from free to t1 saw free pc 2
event 3 line 6 thread 1 load head.link saw tail pc 3 curr tail
event 4 line 6 thread 1 exchange tail.lock from free to t1 saw free pc 4
event 5 line 6 thread 1 load tail.key saw +inf pc 7 ckey +inf
event 6 line 6 thread 1 store n6.key 9 pc 8
event 7 line 6 thread 1 store n6.link tail pc 9
event 8 line 6 thread 1 store head.link n6 pc 12 used 1 reply true put 9
event 9 line 6 thread 1 store tail.lock free pc 13
event 10 line 6 thread 1 store head.lock free pc 0 answer true call 0 at 8
event 11 line 7 thread 0 begin add 5 call 1 pc 1
event 12 line 8 thread 1 begin remove 9 call 2 pc 1
event 13 line 9 thread 0 exchange head.lock from free to t0 saw free pc 2
event 14 line 9 thread 0 load head.link saw n6 pc 3 curr n6
event 15 line 9 thread 0 exchange n6.lock from free to t0 saw free pc 4
event 16 line 9 thread 0 load n6.key saw 9 pc 7 ckey 9
event 17 line 10 thread 1 exchange head.lock from free to t1 saw t0 pc 1
event 18 line 10 thread 1 exchange head.lock from free to t1 saw t0 pc 1
event 19 line 11 thread 0 store n2.key 5 pc 8
event 20 line 11 thread 0 store n2.link n6 pc 9
event 21 line 11 thread 0 store head.link n2 pc 12 used 1 reply true put 5
event 22 line 11 thread 0 store n6.lock free pc 13
event 23 line 11 thread 0 store head.lock free pc 0 answer true call 1 at 21
event 24 line 12 thread 1 exchange head.lock from free to t1 saw free pc 2
event 25 line 12 thread 1 load head.link saw n2 pc 3 curr n2
event 26 line 12 thread 1 exchange n2.lock from free to t1 saw free pc 4
event 27 line 12 thread 1 load n2.key saw 5 pc 5 ckey 5
event 28 line 12 thread 1 store head.lock free pc 6
event 29 line 12 thread 1 load n2.link saw n6 pc 3 pred n2 curr n6
event 30 line 12 thread 1 exchange n6.lock from free to t1 saw free pc 4
event 31 line 12 thread 1 load n6.key saw 9 pc 10 ckey 9
event 32 line 12 thread 1 load n6.link saw tail pc 11 succ tail
event 33 line 12 thread 1 store n2.link tail pc 12 reply true took 9
event 34 line 12 thread 1 store n6.lock free pc 13
event 35 line 12 thread 1 store n2.lock free pc 0 answer true call 2 at 33
end
`.slice(1),
  "same-gap": `
listset-trace 1
list optimistic
threads 2
quota 4
event 1 line 5 thread 0 begin add 5 call 0 pc 1
event 2 line 6 thread 1 begin add 7 call 1 pc 1
event 3 line 7 thread 0 load head.link saw tail pc 2 curr tail
event 4 line 7 thread 0 load tail.key saw +inf pc 4 ckey +inf
event 5 line 8 thread 1 load head.link saw tail pc 2 curr tail
event 6 line 8 thread 1 load tail.key saw +inf pc 4 ckey +inf
event 7 line 9 thread 1 exchange head.lock from free to t1 saw free pc 5
event 8 line 9 thread 1 exchange tail.lock from free to t1 saw free pc 8
event 9 line 9 thread 1 load head.link saw tail pc 9
event 10 line 9 thread 1 store n6.key 7 pc 10
event 11 line 9 thread 1 store n6.link tail pc 11
event 12 line 9 thread 1 store head.link n6 pc 14 used 1 reply true put 7
event 13 line 9 thread 1 store head.lock free pc 15
event 14 line 9 thread 1 store tail.lock free pc 0 answer true call 1 at 12
event 15 line 10 thread 0 exchange head.lock from free to t0 saw free pc 5
event 16 line 10 thread 0 exchange tail.lock from free to t0 saw free pc 8
event 17 line 10 thread 0 load head.link saw n6 pc 14
event 18 line 10 thread 0 store head.lock free pc 15
event 19 line 10 thread 0 store tail.lock free pc 1
event 20 line 10 thread 0 load head.link saw n6 pc 2 curr n6
event 21 line 10 thread 0 load n6.key saw 7 pc 4 ckey 7
event 22 line 10 thread 0 exchange head.lock from free to t0 saw free pc 5
event 23 line 10 thread 0 exchange n6.lock from free to t0 saw free pc 8
event 24 line 10 thread 0 load head.link saw n6 pc 9
event 25 line 10 thread 0 store n2.key 5 pc 10
event 26 line 10 thread 0 store n2.link n6 pc 11
event 27 line 10 thread 0 store head.link n2 pc 14 used 1 reply true put 5
event 28 line 10 thread 0 store head.lock free pc 15
event 29 line 10 thread 0 store n6.lock free pc 0 answer true call 0 at 27
end
`.slice(1),
  "stale-pred": `
listset-trace 1
list optimistic
threads 2
quota 4
event 1 line 5 thread 1 begin add 3 call 0 pc 1
event 2 line 6 thread 1 load head.link saw tail pc 2 curr tail
event 3 line 6 thread 1 load tail.key saw +inf pc 4 ckey +inf
event 4 line 6 thread 1 exchange head.lock from free to t1 saw free pc 5
event 5 line 6 thread 1 exchange tail.lock from free to t1 saw free pc 8
event 6 line 6 thread 1 load head.link saw tail pc 9
event 7 line 6 thread 1 store n6.key 3 pc 10
event 8 line 6 thread 1 store n6.link tail pc 11
event 9 line 6 thread 1 store head.link n6 pc 14 used 1 reply true put 3
event 10 line 6 thread 1 store head.lock free pc 15
event 11 line 6 thread 1 store tail.lock free pc 0 answer true call 0 at 9
event 12 line 7 thread 0 begin add 5 call 1 pc 1
event 13 line 8 thread 0 load head.link saw n6 pc 2 curr n6
event 14 line 8 thread 0 load n6.key saw 3 pc 3 ckey 3
event 15 line 8 thread 0 load n6.link saw tail pc 2 pred n6 curr tail pkey 3
event 16 line 8 thread 0 load tail.key saw +inf pc 4 ckey +inf
event 17 line 9 thread 1 begin remove 3 call 2 pc 1
event 18 line 10 thread 1 load head.link saw n6 pc 2 curr n6
event 19 line 10 thread 1 load n6.key saw 3 pc 4 ckey 3
event 20 line 10 thread 1 exchange head.lock from free to t1 saw free pc 5
event 21 line 10 thread 1 exchange n6.lock from free to t1 saw free pc 8
event 22 line 10 thread 1 load head.link saw n6 pc 12
event 23 line 10 thread 1 load n6.link saw tail pc 13 succ tail
event 24 line 10 thread 1 store head.link tail pc 14 reply true took 3
event 25 line 10 thread 1 store head.lock free pc 15
event 26 line 10 thread 1 store n6.lock free pc 0 answer true call 2 at 24
event 27 line 11 thread 0 exchange n6.lock from free to t0 saw free pc 5
event 28 line 11 thread 0 exchange tail.lock from free to t0 saw free pc 6
event 29 line 11 thread 0 load head.link saw tail pc 7 node tail
event 30 line 11 thread 0 load tail.key saw +inf pc 14
event 31 line 11 thread 0 store n6.lock free pc 15
event 32 line 11 thread 0 store tail.lock free pc 1
event 33 line 11 thread 0 load head.link saw tail pc 2 pred head pkey -inf
event 34 line 11 thread 0 load tail.key saw +inf pc 4
event 35 line 11 thread 0 exchange head.lock from free to t0 saw free pc 5
event 36 line 11 thread 0 exchange tail.lock from free to t0 saw free pc 8 node head
event 37 line 11 thread 0 load head.link saw tail pc 9
event 38 line 11 thread 0 store n2.key 5 pc 10
event 39 line 11 thread 0 store n2.link tail pc 11
event 40 line 11 thread 0 store head.link n2 pc 14 used 1 reply true put 5
event 41 line 11 thread 0 store head.lock free pc 15
event 42 line 11 thread 0 store tail.lock free pc 0 answer true call 1 at 40
end
`.slice(1),
  "marked-in-chain": `
listset-trace 1
list lazy
threads 2
quota 4
event 1 line 5 thread 1 begin add 5 call 0 pc 1
event 2 line 6 thread 1 load head.link saw tail pc 2 curr tail
event 3 line 6 thread 1 load tail.key saw +inf pc 4 ckey +inf
event 4 line 6 thread 1 exchange head.lock from free to t1 saw free pc 5
event 5 line 6 thread 1 exchange tail.lock from free to t1 saw free pc 6
event 6 line 6 thread 1 load head.link saw tail pc 7
event 7 line 6 thread 1 load tail.link saw tail pc 8 succ tail
event 8 line 6 thread 1 store n6.key 5 pc 9
event 9 line 6 thread 1 store n6.link tail pc 10
event 10 line 6 thread 1 store head.link n6 pc 13 used 1 reply true put 5
event 11 line 6 thread 1 store tail.lock free pc 14
event 12 line 6 thread 1 store head.lock free pc 0 answer true call 0 at 10
event 13 line 7 thread 1 begin remove 5 call 1 pc 1
event 14 line 8 thread 1 load head.link saw n6 pc 2 curr n6
event 15 line 8 thread 1 load n6.key saw 5 pc 4 ckey 5
event 16 line 8 thread 1 exchange head.lock from free to t1 saw free pc 5
event 17 line 8 thread 1 exchange n6.lock from free to t1 saw free pc 6
event 18 line 8 thread 1 load head.link saw n6 pc 7
event 19 line 8 thread 1 load n6.link saw tail pc 11 succ tail
event 20 line 8 thread 1 store n6.link tail* pc 12 took 5
event 21 line 9 thread 0 begin contains 5 call 2 pc 20
event 22 line 10 thread 0 load head.link saw n6 pc 21 curr n6
event 23 line 10 thread 0 load n6.key saw 5 pc 22
event 24 line 10 thread 0 load n6.link saw tail* pc 0 answer false call 2 at 21
event 25 line 11 thread 1 store head.link tail pc 13 reply true
event 26 line 11 thread 1 store n6.lock free pc 14
event 27 line 11 thread 1 store head.lock free pc 0 answer true call 1 at 20
end
`.slice(1),
  "marked-pred": `
listset-trace 1
list lazy
threads 2
quota 4
event 1 line 5 thread 1 begin add 3 call 0 pc 1
event 2 line 6 thread 1 load head.link saw tail pc 2 curr tail
event 3 line 6 thread 1 load tail.key saw +inf pc 4 ckey +inf
event 4 line 6 thread 1 exchange head.lock from free to t1 saw free pc 5
event 5 line 6 thread 1 exchange tail.lock from free to t1 saw free pc 6
event 6 line 6 thread 1 load head.link saw tail pc 7
event 7 line 6 thread 1 load tail.link saw tail pc 8 succ tail
event 8 line 6 thread 1 store n6.key 3 pc 9
event 9 line 6 thread 1 store n6.link tail pc 10
event 10 line 6 thread 1 store head.link n6 pc 13 used 1 reply true put 3
event 11 line 6 thread 1 store tail.lock free pc 14
event 12 line 6 thread 1 store head.lock free pc 0 answer true call 0 at 10
event 13 line 7 thread 0 begin add 5 call 1 pc 1
event 14 line 8 thread 0 load head.link saw n6 pc 2 curr n6
event 15 line 8 thread 0 load n6.key saw 3 pc 3 ckey 3
event 16 line 8 thread 0 load n6.link saw tail pc 2 pred n6 curr tail
event 17 line 8 thread 0 load tail.key saw +inf pc 4 ckey +inf
event 18 line 9 thread 1 begin remove 3 call 2 pc 1
event 19 line 10 thread 1 load head.link saw n6 pc 2 curr n6
event 20 line 10 thread 1 load n6.key saw 3 pc 4 ckey 3
event 21 line 10 thread 1 exchange head.lock from free to t1 saw free pc 5
event 22 line 10 thread 1 exchange n6.lock from free to t1 saw free pc 6
event 23 line 10 thread 1 load head.link saw n6 pc 7
event 24 line 10 thread 1 load n6.link saw tail pc 11 succ tail
event 25 line 10 thread 1 store n6.link tail* pc 12 took 3
event 26 line 10 thread 1 store head.link tail pc 13 reply true
event 27 line 10 thread 1 store n6.lock free pc 14
event 28 line 10 thread 1 store head.lock free pc 0 answer true call 2 at 25
event 29 line 11 thread 0 exchange n6.lock from free to t0 saw free pc 5
event 30 line 11 thread 0 exchange tail.lock from free to t0 saw free pc 6
event 31 line 11 thread 0 load n6.link saw tail* pc 13
event 32 line 11 thread 0 store tail.lock free pc 14
event 33 line 11 thread 0 store n6.lock free pc 1
event 34 line 11 thread 0 load head.link saw tail pc 2 pred head
event 35 line 11 thread 0 load tail.key saw +inf pc 4
event 36 line 11 thread 0 exchange head.lock from free to t0 saw free pc 5
event 37 line 11 thread 0 exchange tail.lock from free to t0 saw free pc 6
event 38 line 11 thread 0 load head.link saw tail pc 7
event 39 line 11 thread 0 load tail.link saw tail pc 8 succ tail
event 40 line 11 thread 0 store n2.key 5 pc 9
event 41 line 11 thread 0 store n2.link tail pc 10
event 42 line 11 thread 0 store head.link n2 pc 13 used 1 reply true put 5
event 43 line 11 thread 0 store tail.lock free pc 14
event 44 line 11 thread 0 store head.lock free pc 0 answer true call 1 at 42
end
`.slice(1),
  "read-in-anothers-step": `
listset-trace 1
list lazy
threads 2
quota 4
event 1 line 5 thread 1 begin add 5 call 0 pc 1
event 2 line 6 thread 1 load head.link saw tail pc 2 curr tail
event 3 line 6 thread 1 load tail.key saw +inf pc 4 ckey +inf
event 4 line 6 thread 1 exchange head.lock from free to t1 saw free pc 5
event 5 line 6 thread 1 exchange tail.lock from free to t1 saw free pc 6
event 6 line 6 thread 1 load head.link saw tail pc 7
event 7 line 6 thread 1 load tail.link saw tail pc 8 succ tail
event 8 line 6 thread 1 store n6.key 5 pc 9
event 9 line 6 thread 1 store n6.link tail pc 10
event 10 line 6 thread 1 store head.link n6 pc 13 used 1 reply true put 5
event 11 line 6 thread 1 store tail.lock free pc 14
event 12 line 6 thread 1 store head.lock free pc 0 answer true call 0 at 10
event 13 line 7 thread 0 begin contains 5 call 1 pc 20
event 14 line 8 thread 0 load head.link saw n6 pc 21 curr n6
event 15 line 8 thread 0 load n6.key saw 5 pc 22
event 16 line 9 thread 1 begin remove 5 call 2 pc 1
event 17 line 10 thread 1 load head.link saw n6 pc 2 curr n6
event 18 line 10 thread 1 load n6.key saw 5 pc 4 ckey 5
event 19 line 10 thread 1 exchange head.lock from free to t1 saw free pc 5
event 20 line 10 thread 1 exchange n6.lock from free to t1 saw free pc 6
event 21 line 10 thread 1 load head.link saw n6 pc 7
event 22 line 10 thread 1 load n6.link saw tail pc 11 succ tail
event 23 line 10 thread 1 store n6.link tail* pc 12 took 5
event 24 line 10 thread 1 store head.link tail pc 13 reply true
event 25 line 10 thread 1 store n6.lock free pc 14
event 26 line 10 thread 1 store head.lock free pc 0 answer true call 2 at 23
event 27 line 11 thread 1 begin add 5 call 3 pc 1
event 28 line 12 thread 1 load head.link saw tail pc 2 curr tail
event 29 line 12 thread 1 load tail.key saw +inf pc 4 ckey +inf
event 30 line 12 thread 1 exchange head.lock from free to t1 saw free pc 5
event 31 line 12 thread 1 exchange tail.lock from free to t1 saw free pc 6
event 32 line 12 thread 1 load head.link saw tail pc 7
event 33 line 12 thread 1 load tail.link saw tail pc 8 succ tail
event 34 line 12 thread 1 store n7.key 5 pc 9
event 35 line 12 thread 1 store n7.link tail pc 10
event 36 line 12 thread 1 store head.link n7 pc 13 used 2 reply true put 5
event 37 line 12 thread 1 store tail.lock free pc 14
event 38 line 12 thread 1 store head.lock free pc 0 answer true call 3 at 36
event 39 line 13 thread 0 load n6.link saw tail* pc 0 answer false call 1 at 23
end
`.slice(1),
  "ceiling-in-anothers-step": `
listset-trace 1
list lazy
threads 2
quota 2
opening 5
event 1 line 6 thread 0 begin ceiling 6 call 0 pc 23
event 2 line 7 thread 0 load head.link saw n6 pc 24 curr n6
event 3 line 7 thread 0 load n6.key saw 5 pc 23 ckey 5
event 4 line 8 thread 1 begin add 9 call 1 pc 1
event 5 line 9 thread 1 load head.link saw n6 pc 2 curr n6
event 6 line 9 thread 1 load n6.key saw 5 pc 3 ckey 5
event 7 line 9 thread 1 load n6.link saw tail pc 2 pred n6 curr tail
event 8 line 9 thread 1 load tail.key saw +inf pc 4 ckey +inf
event 9 line 9 thread 1 exchange n6.lock from free to t1 saw free pc 5
event 10 line 9 thread 1 exchange tail.lock from free to t1 saw free pc 6
event 11 line 9 thread 1 load n6.link saw tail pc 7
event 12 line 9 thread 1 load tail.link saw tail pc 8 succ tail
event 13 line 9 thread 1 store n4.key 9 pc 9
event 14 line 9 thread 1 store n4.link tail pc 10
event 15 line 9 thread 1 store n6.link n4 pc 13 used 1 reply true put 9
event 16 line 9 thread 1 store tail.lock free pc 14
event 17 line 9 thread 1 store n6.lock free pc 0 answer true call 1 at 15
event 18 line 10 thread 1 begin remove 5 call 2 pc 1
event 19 line 11 thread 1 load head.link saw n6 pc 2 curr n6
event 20 line 11 thread 1 load n6.key saw 5 pc 4 ckey 5
event 21 line 11 thread 1 exchange head.lock from free to t1 saw free pc 5
event 22 line 11 thread 1 exchange n6.lock from free to t1 saw free pc 6
event 23 line 11 thread 1 load head.link saw n6 pc 7
event 24 line 11 thread 1 load n6.link saw n4 pc 11 succ n4
event 25 line 11 thread 1 store n6.link n4* pc 12 took 5
event 26 line 11 thread 1 store head.link n4 pc 13 reply true
event 27 line 11 thread 1 store n6.lock free pc 14
event 28 line 11 thread 1 store head.lock free pc 0 answer true call 2 at 25
event 29 line 12 thread 1 begin add 7 call 3 pc 1
event 30 line 13 thread 1 load head.link saw n4 pc 2 curr n4
event 31 line 13 thread 1 load n4.key saw 9 pc 4 ckey 9
event 32 line 13 thread 1 exchange head.lock from free to t1 saw free pc 5
event 33 line 13 thread 1 exchange n4.lock from free to t1 saw free pc 6
event 34 line 13 thread 1 load head.link saw n4 pc 7
event 35 line 13 thread 1 load n4.link saw tail pc 8 succ tail
event 36 line 13 thread 1 store n5.key 7 pc 9
event 37 line 13 thread 1 store n5.link n4 pc 10
event 38 line 13 thread 1 store head.link n5 pc 13 used 2 reply true put 7
event 39 line 13 thread 1 store n4.lock free pc 14
event 40 line 13 thread 1 store head.lock free pc 0 answer true call 3 at 38
event 41 line 14 thread 0 load n6.link saw n4* pc 24 curr n4
event 42 line 14 thread 0 load n4.key saw 9 pc 25 ckey 9
event 43 line 14 thread 0 load n4.link saw tail pc 0 answer at-9 call 0 at 15
end
`.slice(1),
  "opens-with-keys": `
listset-trace 1
list lazy
threads 1
quota 1
opening 5
opening 9
event 1 line 7 thread 0 begin remove 5 call 0 pc 1
event 2 line 8 thread 0 load head.link saw n3 pc 2 curr n3
event 3 line 8 thread 0 load n3.key saw 5 pc 4 ckey 5
event 4 line 8 thread 0 exchange head.lock from free to t0 saw free pc 5
event 5 line 8 thread 0 exchange n3.lock from free to t0 saw free pc 6
event 6 line 8 thread 0 load head.link saw n3 pc 7
event 7 line 8 thread 0 load n3.link saw n4 pc 11 succ n4
event 8 line 8 thread 0 store n3.link n4* pc 12 took 5
event 9 line 8 thread 0 store head.link n4 pc 13 reply true
event 10 line 8 thread 0 store n3.lock free pc 14
event 11 line 8 thread 0 store head.lock free pc 0 answer true call 0 at 8
event 12 line 9 thread 0 begin ceiling 0 call 1 pc 23
event 13 line 10 thread 0 load head.link saw n4 pc 24 curr n4
event 14 line 10 thread 0 load n4.key saw 9 pc 25 ckey 9
event 15 line 10 thread 0 load n4.link saw tail pc 0 answer at-9 call 1 at 12
event 16 line 11 thread 0 begin add 7 call 2 pc 1
event 17 line 12 thread 0 load head.link saw n4 pc 2 curr n4
event 18 line 12 thread 0 load n4.key saw 9 pc 4 ckey 9
event 19 line 12 thread 0 exchange head.lock from free to t0 saw free pc 5
event 20 line 12 thread 0 exchange n4.lock from free to t0 saw free pc 6
event 21 line 12 thread 0 load head.link saw n4 pc 7
event 22 line 12 thread 0 load n4.link saw tail pc 8 succ tail
event 23 line 12 thread 0 store n2.key 7 pc 9
event 24 line 12 thread 0 store n2.link n4 pc 10
event 25 line 12 thread 0 store head.link n2 pc 13 used 1 reply true put 7
event 26 line 12 thread 0 store n4.lock free pc 14
event 27 line 12 thread 0 store head.lock free pc 0 answer true call 2 at 25
event 28 line 13 thread 0 begin add 8 call 3 pc 1
event 29 line 14 thread 0 load head.link saw n2 pc 2 curr n2
event 30 line 14 thread 0 load n2.key saw 7 pc 3 ckey 7
event 31 line 14 thread 0 load n2.link saw n4 pc 2 pred n2 curr n4
event 32 line 14 thread 0 load n4.key saw 9 pc 4 ckey 9
event 33 line 14 thread 0 exchange n2.lock from free to t0 saw free pc 5
event 34 line 14 thread 0 exchange n4.lock from free to t0 saw free pc 6
event 35 line 14 thread 0 load n2.link saw n4 pc 7
event 36 line 14 thread 0 load n4.link saw tail pc 13 succ tail reply full
event 37 line 14 thread 0 store n4.lock free pc 14
event 38 line 14 thread 0 store n2.lock free pc 0 answer full call 3 at 28
end
`.slice(1),
  "two-removers": `
listset-trace 1
list lock-free
threads 2
quota 4
event 1 line 5 thread 0 begin add 5 call 0 pc 1
event 2 line 6 thread 0 load head.link saw tail pc 2 curr tail
event 3 line 6 thread 0 load tail.link saw tail pc 4 succ tail
event 4 line 6 thread 0 load tail.key saw +inf pc 5
event 5 line 6 thread 0 store n2.key 5 pc 6
event 6 line 6 thread 0 store n2.link tail pc 7
event 7 line 6 thread 0 exchange head.link from tail to n2 saw tail pc 0 used 1 put 5 answer true call 0 at 7
event 8 line 7 thread 0 begin remove 5 call 1 pc 1
event 9 line 8 thread 1 begin remove 5 call 2 pc 1
event 10 line 9 thread 0 load head.link saw n2 pc 2 curr n2
event 11 line 9 thread 0 load n2.link saw tail pc 4 succ tail
event 12 line 9 thread 0 load n2.key saw 5 pc 8
event 13 line 9 thread 0 load n2.link saw tail pc 9
event 14 line 10 thread 1 load head.link saw n2 pc 2 curr n2
event 15 line 10 thread 1 load n2.link saw tail pc 4 succ tail
event 16 line 10 thread 1 load n2.key saw 5 pc 8
event 17 line 10 thread 1 load n2.link saw tail pc 9
event 18 line 11 thread 1 exchange n2.link from tail to tail* saw tail pc 10 took 5
event 19 line 11 thread 1 exchange head.link from n2 to tail saw n2 pc 0 answer true call 2 at 18
event 20 line 12 thread 0 exchange n2.link from tail to tail* saw tail* pc 1
event 21 line 12 thread 0 load head.link saw tail pc 2 curr tail
event 22 line 12 thread 0 load tail.link saw tail pc 4
event 23 line 12 thread 0 load tail.key saw +inf pc 0 reply false answer false call 1 at 18
end
`.slice(1),
  "snip": `
listset-trace 1
list lock-free
threads 2
quota 4
event 1 line 5 thread 0 begin add 5 call 0 pc 1
event 2 line 6 thread 0 load head.link saw tail pc 2 curr tail
event 3 line 6 thread 0 load tail.link saw tail pc 4 succ tail
event 4 line 6 thread 0 load tail.key saw +inf pc 5
event 5 line 6 thread 0 store n2.key 5 pc 6
event 6 line 6 thread 0 store n2.link tail pc 7
event 7 line 6 thread 0 exchange head.link from tail to n2 saw tail pc 0 used 1 put 5 answer true call 0 at 7
event 8 line 7 thread 0 begin remove 5 call 1 pc 1
event 9 line 8 thread 0 load head.link saw n2 pc 2 curr n2
event 10 line 8 thread 0 load n2.link saw tail pc 4 succ tail
event 11 line 8 thread 0 load n2.key saw 5 pc 8
event 12 line 8 thread 0 load n2.link saw tail pc 9
event 13 line 8 thread 0 exchange n2.link from tail to tail* saw tail pc 10 took 5
event 14 line 9 thread 1 begin add 7 call 2 pc 1
event 15 line 10 thread 1 load head.link saw n2 pc 2 curr n2
event 16 line 10 thread 1 load n2.link saw tail* pc 3 succ tail
event 17 line 10 thread 1 exchange head.link from n2 to tail saw n2 pc 2 curr tail
event 18 line 10 thread 1 load tail.link saw tail pc 4
event 19 line 10 thread 1 load tail.key saw +inf pc 5
event 20 line 10 thread 1 store n6.key 7 pc 6
event 21 line 10 thread 1 store n6.link tail pc 7
event 22 line 10 thread 1 exchange head.link from tail to n6 saw tail pc 0 used 1 put 7 answer true call 2 at 22
event 23 line 11 thread 0 exchange head.link from n2 to tail saw n6 pc 0 answer true call 1 at 13
end
`.slice(1),
  "tries-again": `
listset-trace 1
list lock-free
threads 2
quota 4
event 1 line 5 thread 0 begin add 5 call 0 pc 1
event 2 line 6 thread 1 begin add 7 call 1 pc 1
event 3 line 7 thread 0 load head.link saw tail pc 2 curr tail
event 4 line 7 thread 0 load tail.link saw tail pc 4 succ tail
event 5 line 7 thread 0 load tail.key saw +inf pc 5
event 6 line 7 thread 0 store n2.key 5 pc 6
event 7 line 7 thread 0 store n2.link tail pc 7
event 8 line 8 thread 1 load head.link saw tail pc 2 curr tail
event 9 line 8 thread 1 load tail.link saw tail pc 4 succ tail
event 10 line 8 thread 1 load tail.key saw +inf pc 5
event 11 line 8 thread 1 store n6.key 7 pc 6
event 12 line 8 thread 1 store n6.link tail pc 7
event 13 line 8 thread 1 exchange head.link from tail to n6 saw tail pc 0 used 1 put 7 answer true call 1 at 13
event 14 line 9 thread 0 exchange head.link from tail to n2 saw n6 pc 1
event 15 line 9 thread 0 load head.link saw n6 pc 2 curr n6
event 16 line 9 thread 0 load n6.link saw tail pc 4
event 17 line 9 thread 0 load n6.key saw 7 pc 5
event 18 line 9 thread 0 store n2.key 5 pc 6
event 19 line 9 thread 0 store n2.link n6 pc 7
event 20 line 9 thread 0 exchange head.link from n6 to n2 saw n6 pc 0 used 1 put 5 answer true call 0 at 20
end
`.slice(1),
  "left-in-chain": `
listset-trace 1
list lock-free
threads 2
quota 4
event 1 line 5 thread 0 begin add 5 call 0 pc 1
event 2 line 6 thread 0 load head.link saw tail pc 2 curr tail
event 3 line 6 thread 0 load tail.link saw tail pc 4 succ tail
event 4 line 6 thread 0 load tail.key saw +inf pc 5
event 5 line 6 thread 0 store n2.key 5 pc 6
event 6 line 6 thread 0 store n2.link tail pc 7
event 7 line 6 thread 0 exchange head.link from tail to n2 saw tail pc 0 used 1 put 5 answer true call 0 at 7
event 8 line 7 thread 0 begin add 3 call 1 pc 1
event 9 line 8 thread 0 load head.link saw n2 pc 2 curr n2
event 10 line 8 thread 0 load n2.link saw tail pc 4 succ tail
event 11 line 8 thread 0 load n2.key saw 5 pc 5
event 12 line 8 thread 0 store n3.key 3 pc 6
event 13 line 8 thread 0 store n3.link n2 pc 7
event 14 line 9 thread 1 begin remove 5 call 2 pc 1
event 15 line 10 thread 1 load head.link saw n2 pc 2 curr n2
event 16 line 10 thread 1 load n2.link saw tail pc 4 succ tail
event 17 line 10 thread 1 load n2.key saw 5 pc 8
event 18 line 10 thread 1 load n2.link saw tail pc 9
event 19 line 10 thread 1 exchange n2.link from tail to tail* saw tail pc 10 took 5
event 20 line 11 thread 0 exchange head.link from n2 to n3 saw n2 pc 0 used 2 put 3 answer true call 1 at 20
event 21 line 12 thread 1 exchange head.link from n2 to tail saw n3 pc 0 answer true call 2 at 19
event 22 line 13 thread 0 begin contains 5 call 3 pc 20
event 23 line 14 thread 0 load head.link saw n3 pc 21 curr n3
event 24 line 14 thread 0 load n3.key saw 3 pc 20
event 25 line 14 thread 0 load n3.link saw n2 pc 21 curr n2
event 26 line 14 thread 0 load n2.key saw 5 pc 22
event 27 line 14 thread 0 load n2.link saw tail* pc 0 answer false call 3 at 22
end
`.slice(1),
  "ceiling-meets-mark": `
listset-trace 1
list lock-free
threads 2
quota 4
event 1 line 5 thread 1 begin add 5 call 0 pc 1
event 2 line 6 thread 1 load head.link saw tail pc 2 curr tail
event 3 line 6 thread 1 load tail.link saw tail pc 4 succ tail
event 4 line 6 thread 1 load tail.key saw +inf pc 5
event 5 line 6 thread 1 store n6.key 5 pc 6
event 6 line 6 thread 1 store n6.link tail pc 7
event 7 line 6 thread 1 exchange head.link from tail to n6 saw tail pc 0 used 1 put 5 answer true call 0 at 7
event 8 line 7 thread 0 begin ceiling 3 call 1 pc 23
event 9 line 8 thread 0 load head.link saw n6 pc 24 curr n6
event 10 line 8 thread 0 load n6.key saw 5 pc 25 ckey 5
event 11 line 9 thread 1 begin remove 5 call 2 pc 1
event 12 line 10 thread 1 load head.link saw n6 pc 2 curr n6
event 13 line 10 thread 1 load n6.link saw tail pc 4 succ tail
event 14 line 10 thread 1 load n6.key saw 5 pc 8
event 15 line 10 thread 1 load n6.link saw tail pc 9
event 16 line 10 thread 1 exchange n6.link from tail to tail* saw tail pc 10 took 5
event 17 line 10 thread 1 exchange head.link from n6 to tail saw n6 pc 0 answer true call 2 at 16
event 18 line 11 thread 0 load n6.link saw tail* pc 23 curr head
event 19 line 11 thread 0 load head.link saw tail pc 24 curr tail
event 20 line 11 thread 0 load tail.key saw +inf pc 0 ckey +inf answer nothing call 1 at 16
end
`.slice(1),
  "ceiling-left-in-chain": `
listset-trace 1
list lock-free
threads 2
quota 4
event 1 line 5 thread 0 begin add 5 call 0 pc 1
event 2 line 6 thread 0 load head.link saw tail pc 2 curr tail
event 3 line 6 thread 0 load tail.link saw tail pc 4 succ tail
event 4 line 6 thread 0 load tail.key saw +inf pc 5
event 5 line 6 thread 0 store n2.key 5 pc 6
event 6 line 6 thread 0 store n2.link tail pc 7
event 7 line 6 thread 0 exchange head.link from tail to n2 saw tail pc 0 used 1 put 5 answer true call 0 at 7
event 8 line 7 thread 0 begin add 3 call 1 pc 1
event 9 line 8 thread 0 load head.link saw n2 pc 2 curr n2
event 10 line 8 thread 0 load n2.link saw tail pc 4 succ tail
event 11 line 8 thread 0 load n2.key saw 5 pc 5
event 12 line 8 thread 0 store n3.key 3 pc 6
event 13 line 8 thread 0 store n3.link n2 pc 7
event 14 line 9 thread 1 begin remove 5 call 2 pc 1
event 15 line 10 thread 1 load head.link saw n2 pc 2 curr n2
event 16 line 10 thread 1 load n2.link saw tail pc 4 succ tail
event 17 line 10 thread 1 load n2.key saw 5 pc 8
event 18 line 10 thread 1 load n2.link saw tail pc 9
event 19 line 10 thread 1 exchange n2.link from tail to tail* saw tail pc 10 took 5
event 20 line 11 thread 0 exchange head.link from n2 to n3 saw n2 pc 0 used 2 put 3 answer true call 1 at 20
event 21 line 12 thread 1 exchange head.link from n2 to tail saw n3 pc 0 answer true call 2 at 19
event 22 line 13 thread 0 begin ceiling 4 call 3 pc 23
event 23 line 14 thread 0 load head.link saw n3 pc 24 curr n3
event 24 line 14 thread 0 load n3.key saw 3 pc 23 ckey 3
event 25 line 14 thread 0 load n3.link saw n2 pc 24 curr n2
event 26 line 14 thread 0 load n2.key saw 5 pc 25 ckey 5
event 27 line 14 thread 0 load n2.link saw tail* pc 23 curr head
event 28 line 15 thread 1 begin add 7 call 4 pc 1
event 29 line 16 thread 1 load head.link saw n3 pc 2 curr n3
event 30 line 16 thread 1 load n3.link saw n2 pc 4 succ n2
event 31 line 16 thread 1 load n3.key saw 3 pc 2 pred n3 curr n2
event 32 line 16 thread 1 load n2.link saw tail* pc 3 succ tail
event 33 line 16 thread 1 exchange n3.link from n2 to tail saw n2 pc 2 curr tail
event 34 line 16 thread 1 load tail.link saw tail pc 4
event 35 line 16 thread 1 load tail.key saw +inf pc 5
event 36 line 16 thread 1 store n6.key 7 pc 6
event 37 line 16 thread 1 store n6.link tail pc 7
event 38 line 16 thread 1 exchange n3.link from tail to n6 saw tail pc 0 used 1 put 7 answer true call 4 at 38
event 39 line 17 thread 0 load head.link saw n3 pc 24 curr n3
event 40 line 17 thread 0 load n3.key saw 3 pc 23 ckey 3
event 41 line 17 thread 0 load n3.link saw n6 pc 24 curr n6
event 42 line 17 thread 0 load n6.key saw 7 pc 25 ckey 7
event 43 line 17 thread 0 load n6.link saw tail pc 0 answer at-7 call 3 at 38
end
`.slice(1),
  "behind-the-walk": `
listset-trace 1
list lock-free
threads 2
quota 4
event 1 line 5 thread 1 begin add 9 call 0 pc 1
event 2 line 6 thread 1 load head.link saw tail pc 2 curr tail
event 3 line 6 thread 1 load tail.link saw tail pc 4 succ tail
event 4 line 6 thread 1 load tail.key saw +inf pc 5
event 5 line 6 thread 1 store n6.key 9 pc 6
event 6 line 6 thread 1 store n6.link tail pc 7
event 7 line 6 thread 1 exchange head.link from tail to n6 saw tail pc 0 used 1 put 9 answer true call 0 at 7
event 8 line 7 thread 0 begin ceiling 3 call 1 pc 23
event 9 line 8 thread 0 load head.link saw n6 pc 24 curr n6
event 10 line 9 thread 1 begin add 5 call 2 pc 1
event 11 line 10 thread 1 load head.link saw n6 pc 2 curr n6
event 12 line 10 thread 1 load n6.link saw tail pc 4 succ tail
event 13 line 10 thread 1 load n6.key saw 9 pc 5
event 14 line 10 thread 1 store n7.key 5 pc 6
event 15 line 10 thread 1 store n7.link n6 pc 7
event 16 line 10 thread 1 exchange head.link from n6 to n7 saw n6 pc 0 used 2 put 5 answer true call 2 at 16
event 17 line 11 thread 0 load n6.key saw 9 pc 25 ckey 9
event 18 line 11 thread 0 load n6.link saw tail pc 0 answer at-9 call 1 at 8
end
`.slice(1),
  "nothing-in-anothers-step": `
listset-trace 1
list lock-free
threads 2
quota 1
opening 5
opening 7
event 1 line 7 thread 0 begin ceiling 6 call 0 pc 23
event 2 line 8 thread 0 load head.link saw n4 pc 24 curr n4
event 3 line 8 thread 0 load n4.key saw 5 pc 23 ckey 5
event 4 line 9 thread 1 begin remove 7 call 1 pc 1
event 5 line 10 thread 1 load head.link saw n4 pc 2 curr n4
event 6 line 10 thread 1 load n4.link saw n5 pc 4 succ n5
event 7 line 10 thread 1 load n4.key saw 5 pc 2 pred n4 curr n5
event 8 line 10 thread 1 load n5.link saw tail pc 4 succ tail
event 9 line 10 thread 1 load n5.key saw 7 pc 8
event 10 line 10 thread 1 load n5.link saw tail pc 9
event 11 line 10 thread 1 exchange n5.link from tail to tail* saw tail pc 10 took 7
event 12 line 10 thread 1 exchange n4.link from n5 to tail saw n5 pc 0 answer true call 1 at 11
event 13 line 11 thread 1 begin remove 5 call 2 pc 1
event 14 line 12 thread 1 load head.link saw n4 pc 2 curr n4
event 15 line 12 thread 1 load n4.link saw tail pc 4 succ tail
event 16 line 12 thread 1 load n4.key saw 5 pc 8
event 17 line 12 thread 1 load n4.link saw tail pc 9
event 18 line 12 thread 1 exchange n4.link from tail to tail* saw tail pc 10 took 5
event 19 line 12 thread 1 exchange head.link from n4 to tail saw n4 pc 0 answer true call 2 at 18
event 20 line 13 thread 1 begin add 7 call 3 pc 1
event 21 line 14 thread 1 load head.link saw tail pc 2 curr tail
event 22 line 14 thread 1 load tail.link saw tail pc 4 succ tail
event 23 line 14 thread 1 load tail.key saw +inf pc 5
event 24 line 14 thread 1 store n3.key 7 pc 6
event 25 line 14 thread 1 store n3.link tail pc 7
event 26 line 14 thread 1 exchange head.link from tail to n3 saw tail pc 0 used 1 put 7 answer true call 3 at 26
event 27 line 15 thread 0 load n4.link saw tail* pc 24 curr tail
event 28 line 15 thread 0 load tail.key saw +inf pc 0 ckey +inf answer nothing call 0 at 11
end
`.slice(1),
};
