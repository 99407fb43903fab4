// What docs/CLASSIC.md says, by page/build: of each example its question, the answer, the events that decide it, what goes
// wrong without it, and which lists of its kind lack that check; and the kind of each list that lacks one.

export const CLASSICS = {
 "failed-tries": {
  "question": "Two threads add one key at the same time. Which of them adds it?",
  "turnsOn": "The thread that takes the lock first. A failed attempt is a step too, but the thread stays at its row. Thread 1 stays at row 1 until the lock is released, and then finds the key.",
  "without": "Both threads read the same old link, and the second write loses the node of the first (lock).",
  "turns": [
   4,
   15
  ],
  "lacks": [
   "lock"
  ]
 },
 "full": {
  "question": "A thread with one slot adds 5, removes 5 and adds 7. Is there a slot for 7?",
  "turnsOn": "No: each slot (node) is used once, so no thread ever reaches a node whose key has changed. The reply full is correct from the call's start on.",
  "without": "If a slot is used again, the key of a node changes while other threads can be at that node (new-slot).",
  "turns": [
   14,
   19
  ],
  "lacks": []
 },
 "hand-over-hand": {
  "question": "Thread 0 has locked the head and 9, to add 5 between them. Thread 1 wants to remove 9. How far does thread 1 get?",
  "turnsOn": "Not even to the head, until thread 0 releases the head's lock. Then thread 1 goes hand over hand: it releases the head's lock only when it holds the lock of 5.",
  "without": "A walk that holds no lock can be at an unlinked node, and a key added after that node is lost (hand-over-hand). A remove that locks only pred can make a concurrent add lose its key too (second-lock).",
  "turns": [
   17,
   28
  ],
  "lacks": [
   "hand-over-hand",
   "second-lock"
  ]
 },
 "same-gap": {
  "question": "Both threads have walked without locks to the gap between head and tail. Thread 1 adds its key first. What does thread 0 do once it has both locks?",
  "turnsOn": "Thread 0 checks the link of pred again: the head now points to the node of 7. So thread 0 releases its locks and walks again.",
  "without": "If the validation finds pred but does not compare its link, the add links 5 to the tail, and 7 is lost.",
  "turns": [
   12,
   17
  ],
  "lacks": []
 },
 "stale-pred": {
  "question": "Thread 0 has found pred = 3 and curr = tail. Thread 1 removes 3, whose node still points to the tail. May thread 0 write?",
  "turnsOn": "No: an unlinked node keeps its link. Thread 0 walks once more from the head, and passes the key of pred without reaching pred.",
  "without": "5 is added after an unlinked node (second-walk). A walk that looks for the key of pred, and not for the node, can find another node with that key (same-node).",
  "turns": [
   24,
   30
  ],
  "lacks": [
   "second-walk",
   "same-node"
  ]
 },
 "marked-in-chain": {
  "question": "Thread 1 has marked the node of 5 and has not unlinked it yet. Thread 0 walks to that node. What does its contains(5) return?",
  "turnsOn": "false: the mark removes the key from the set. It does not matter that the node is still in the chain. contains reads the node's link without a lock, and sees the mark.",
  "without": "A contains that ignores the mark returns true, which is correct at no moment of the call (mark-in-contains). But the remove is still pending, and an order with the contains before the remove explains both. In every known history of that broken list, some order explains the calls.",
  "turns": [
   20,
   24
  ],
  "lacks": [
   "mark-in-contains"
  ]
 },
 "marked-pred": {
  "question": "Thread 0's pred is removed, and LazyList has no second walk. What warns thread 0?",
  "turnsOn": "The mark in the link of pred, which a remove sets before it unlinks the node. One load does the work of OptimisticList's second walk.",
  "without": "5 is added after the node of 3, which was unlinked (marks-in-validation).",
  "turns": [
   25,
   31
  ],
  "lacks": [
   "marks-in-validation"
  ]
 },
 "read-in-anothers-step": {
  "question": "Just after each of thread 0's own events, 5 is in the set. Its contains(5) returns false. Is that correct?",
  "turnsOn": "Yes: between two events of thread 0, thread 1 removed 5, and added it again in another node. The call takes effect at event 23, a step of thread 1.",
  "without": "A proof that looks for the linearization point among the call's own steps finds none, though the list is correct. check refuses the order that puts the contains last.",
  "turns": [
   23,
   36,
   39
  ],
  "lacks": []
 },
 "ceiling-in-anothers-step": {
  "question": "Just after each of thread 0's own events, the smallest key from 6 on is 7, or there is no such key. Its ceiling(6) returns 9. Is that correct?",
  "turnsOn": "Yes: the smallest such key was 9 from event 15 to event 38, and all events between them are steps of thread 1. The walk was at the node of 5 when that node was unlinked, and the node still points to 9.",
  "without": "A ceiling that restarted at each mark would return 7 here, which is no better, and removes of smaller keys could make it restart.",
  "turns": [
   15,
   38,
   43
  ],
  "lacks": []
 },
 "opens-with-keys": {
  "question": "Two keys are present at the start, one is removed, one is added. Why does the last add return full?",
  "turnsOn": "The thread's one slot is n2. The opening keys have nodes of their own and count as no thread's adds, and a remove frees no slot.",
  "without": "If opening keys counted as adds, the add of 7 would return full. If slots were used again, 8 would be added. check refuses either reply.",
  "turns": [
   25,
   36
  ],
  "lacks": []
 },
 "two-removers": {
  "question": "Two threads have found the node of 5 unmarked, and want to remove 5. Which of them does?",
  "turnsOn": "The thread whose exchange sets the mark. The other thread's exchange compares link and mark together, and fails. That thread walks again and returns false.",
  "without": "A remove that marks a marked node returns true too, and 5 is removed twice (mark-in-remove).",
  "turns": [
   18,
   20
  ],
  "lacks": [
   "mark-in-remove"
  ]
 },
 "snip": {
  "question": "Thread 0 has marked the node of 5 and stops. Thread 1 wants to add 7 after that node. Does thread 1 have to wait?",
  "turnsOn": "No: thread 1 unlinks the marked node itself. Then thread 0's exchange fails, and thread 0 still returns true, since it has set the mark.",
  "without": "An add that ignores the mark links 7 after the node of 5, and 7 is unlinked with it (mark-in-add). Without marks no add could know that 5 was removed (mark).",
  "turns": [
   17,
   23
  ],
  "lacks": [
   "mark-in-add",
   "mark"
  ]
 },
 "tries-again": {
  "question": "Both threads are at the gap between head and tail, each with a node ready. Thread 1 is first. What happens to thread 0's node?",
  "turnsOn": "The exchange of thread 0 expects the tail, sees the node of 7, and fails. Thread 0 walks again and writes the same slot anew: no other thread has seen the slot, so it is not used up.",
  "without": "With a store in place of the exchange, the head would point to 5, and 7 would be lost.",
  "turns": [
   14,
   20
  ],
  "lacks": []
 },
 "left-in-chain": {
  "question": "Thread 1's remove of 5 has returned. Which nodes are in the chain, and what does a contains(5) return if it starts only now?",
  "turnsOn": "The nodes of 3 and 5: the head pointed to 3 when thread 1 tried to unlink the marked node of 5. The next add or remove that reaches the node unlinks it. contains sees the mark and returns false.",
  "without": "A contains that ignores the mark returns true (mark-at-key). The remove had ended before, and 5 is not added again, so no order explains these calls.",
  "turns": [
   21,
   27
  ],
  "lacks": [
   "mark-at-key"
  ]
 },
 "ceiling-meets-mark": {
  "question": "Thread 0's ceiling(3) has come to the node of 5. Before it looks at the mark, thread 1 removes 5. What does the ceiling return, and when is that correct?",
  "turnsOn": "The ceiling looks at the mark last (row 25). It finds a mark, starts again at the head, and comes to the tail. It returns nothing, which is correct once the mark is set.",
  "without": "The reply 5 would be correct here too, since the remove began after the ceiling. In the next example 5 would be wrong.",
  "turns": [
   18,
   20
  ],
  "lacks": []
 },
 "ceiling-left-in-chain": {
  "question": "The remove of 5 has ended, and its node is still in the chain. What may a ceiling(4) return, and how often can it walk?",
  "turnsOn": "Not 5: the ceiling returns to the head each time it reaches the marked node. Thread 1's walk unlinks the node. The second walk of the ceiling finds 7, which was added after the call had begun.",
  "without": "A ceiling that ignores the mark returns 5 after the remove of 5, so no order explains these calls. LazyList's ceiling must check the mark too (mark-in-ceiling).",
  "turns": [
   27,
   33,
   43
  ],
  "lacks": []
 },
 "behind-the-walk": {
  "question": "Thread 0 has read the link of the head, which points to 9. Then thread 1 adds 5. May the ceiling(3) of thread 0 return 9?",
  "turnsOn": "Yes: when thread 0 read the link, the set had no key from 3 to 8. The call takes effect at its start, before the add, although the add ended first.",
  "without": "No broken list lacks this. Each node that the walk reached was in the chain, with the link that was read, at some moment of the call. Along other links, the walk could miss a key that was always present.",
  "turns": [
   9,
   16
  ],
  "lacks": []
 },
 "nothing-in-anothers-step": {
  "question": "Just after each of thread 0's own events, 7 is in the set. Its ceiling(6) returns nothing. Is that correct?",
  "turnsOn": "Yes: between two events of thread 0, thread 1 removed 7 and then 5, and added 7 again. The node of 5 pointed to the tail when it was marked, and no exchange changes a marked link.",
  "without": "No broken list lacks this either: the marked link was in the chain during the call.",
  "turns": [
   11,
   28
  ],
  "lacks": []
 }
};

export const LACKING = {
 "lock": "coarse",
 "second-lock": "fine",
 "hand-over-hand": "fine",
 "second-walk": "optimistic",
 "same-node": "optimistic",
 "marks-in-validation": "lazy",
 "mark-in-contains": "lazy",
 "mark-in-ceiling": "lazy",
 "mark": "lock-free",
 "mark-in-add": "lock-free",
 "mark-in-remove": "lock-free",
 "mark-at-key": "lock-free",
 "new-slot": "lock-free"
};
