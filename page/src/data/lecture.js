// The slides of the lecture, #lecture=1 and so on. A slide consists of its duration in minutes, a title, the address of what it shows, a question for the class,
// and the answer.
/** @type {[number, string, string, string, string][]} */
export const LECTURE = [
  [4, "Lose a number", "#story=2&view=lecture", "No lock. Let the class call out A or B until a number is lost.",
    "Both walk to the arrow of 3, and then both link: the later write overwrites the earlier one."],
  [3, "One lock", "#story=3&view=lecture", "A has the lock and is stopped. How far does B get? Let the class guess.",
    "Not one step: contains takes the lock too, and one stopped thread stops all."],
  [5, "FineList: hand over hand", "#story=4.3&view=lecture", "A has locked 3 and 7. How far does B get now? From here on B follows A, node by node.",
    "Up to A: B locks the head and waits for 3. No thread overtakes another."],
  [5, "A walk without locks", "#story=5&view=lecture", "Both lock what they change, and 5 gets lost all the same. Let the class find the order.",
    "A walks until its pred is 3, B removes 3, then A locks, checks pred.next and links 5 behind a removed node."],
  [5, "Why a second walk", "#ask=stale-pred&view=lecture", "Is it safe for A to write? Then the same on a list without this check: 5 is lost.",
    "No: an unlinked node keeps its arrow. In OptimisticList only a new walk from the head shows it."],
  [5, "LazyList: a mark", "#story=7&view=lecture", "Press B: it marks 5, and the node is still in the chain. What does A answer?",
    "false: with the mark, 5 has left the set. contains reads the mark and takes no lock."],
  [4, "In another thread’s step", "#ask=read-in-anothers-step&view=lecture", "A will return false. When is that correct?",
    "From B’s mark to B’s link, 5 is not in the set, and A’s call is pending: it takes effect in B’s marking step."],
  [3, "Who waits?", "#sides=coarse.lazy&quota=4&calls=0.add.5,1.contains.5&turns=0.0.0.0.1.1.1&view=lecture", "A is stopped. In which list does B wait for A?",
    "CoarseList: B waits. LazyList: contains takes no lock."],
  [4, "LockFreeList: compare-and-set", "#story=9.2&view=lecture", "Two removes of 5, no lock. Who comes first? Let the class decide, by A and B.",
    "The first CAS sets the mark, and its call returns true. The other CAS fails; its call walks again and returns false."],
  [4, "Helping", "#ask=snip&view=lecture", "A has marked 5 and stops. Does B have to wait?",
    "No: B unlinks 5 itself and links 7. A’s own attempt to unlink fails later, and A still returns true."],
  [3, "Everybody judges", "#seed=lock-free.2.3.1.5&judge&view=lecture",
    "Three calls of LockFreeList. If the page is on a web server, everybody opens the address on the slide, and states what each call returns, and when it takes effect.",
    "In this run contains returns false, add and remove return true. One order explains these replies: contains, add, remove."],
];

export const slideAddress = (number) => `#lecture=${number}`;
