// Seven more questions, about `ceiling` (which returns the smallest key that is at least k) and about a thread's quota (how many adds can succeed).
export const APPENDIX = [
  {
    name: "ceiling-in-anothers-step", list: "lazy", title: "ceiling, in another’s step", opening: [5],
    lines: ["begin 0 ceiling 6", "go 0 2", "begin 1 add 9", "go 1 out", "begin 1 remove 5", "go 1 out", "begin 1 add 7", "go 1 out"],
    rest: ["go 0 out"],
    question: "A asked for the smallest number from 6 on, and was paused. Now it is 7. A is going to return 9. Is that correct?",
    options: [
      { text: "No: 7 is there", says: "It is, now. But the call has been pending for a while." },
      { text: "Yes", right: true, says: "" },
    ],
    why: "<b>Yes.</b> From B’s add of 9 to its add of 7 the smallest number from 6 on was 9. A’s walk continues from the node of 5, which is out of the chain but still points to 9.",
  },
  {
    name: "ceiling-meets-mark", list: "lock-free", title: "ceiling meets a mark", opening: [5],
    lines: ["begin 0 ceiling 3", "go 0 2", "begin 1 remove 5", "go 1 out"], rest: ["go 0 out"],
    question: "A’s ceiling(3) has reached the node of 5. Before A reads the mark, B removes 5. What does A answer?",
    options: [
      { text: "5: A was there first", says: "A reads the mark last of all, and finds one." },
      { text: "That there is none", right: true, says: "" },
    ],
    why: "<b>None.</b> A finds the mark, starts again at the head, and reaches the end. From the mark on, that is correct.",
  },
  {
    name: "ceiling-left-in-chain", list: "lock-free", title: "ceiling, and a node left behind", opening: [5],
    lines: ["begin 0 add 3", "go 0 to 7", "begin 1 remove 5", "go 1 to 10", "go 0 out", "go 1 out", "begin 0 ceiling 4", "go 0 3"],
    rest: ["go 0 2", "begin 1 add 7", "go 1 out", "go 0 out"],
    question: "The remove of 5 has ended, and its node is still in the chain. Can ceiling(4) return 5?",
    options: [
      { text: "Yes: it is in the chain", says: "In this list the mark counts, not the chain." },
      { text: "No: it starts again", right: true, says: "" },
      { text: "No: it answers that there is none", says: "It knows that only when it has reached the end." },
    ],
    why: "<b>It starts again.</b> The mark sends it back to the head, each time. B’s walk unlinks the node, and A finds B’s 7, which was added while A’s call was pending.",
  },
  {
    name: "behind-the-walk", list: "lock-free", title: "Behind the walk", opening: [9],
    lines: ["begin 0 ceiling 3", "go 0 1", "begin 1 add 5", "go 1 out"], rest: ["go 0 out"],
    question: "A’s ceiling(3) has read the arrow of the head, to 9. B adds 5 in between, and its call returns. Can A return 9?",
    options: [
      { text: "Yes", right: true, says: "" },
      { text: "No: 5 is smaller, and is in", says: "It was added while A’s call was pending." },
    ],
    why: "<b>Yes.</b> When A read that arrow, nothing was in between. Its call takes effect there, before the add, although the add has ended first.",
  },
  {
    name: "nothing-in-anothers-step", list: "lock-free", title: "Nothing there", opening: [5, 7],
    lines: ["begin 0 ceiling 6", "go 0 2", "begin 1 remove 7", "go 1 out", "begin 1 remove 5", "go 1 out", "begin 1 add 7", "go 1 out"],
    rest: ["go 0 out"],
    question: "Whenever A took a step, 7 was in the set. Its ceiling(6) is going to return that there is none. Is that correct?",
    options: [
      { text: "No", says: "Look at the time while A was paused." },
      { text: "Yes", right: true, says: "" },
    ],
    why: "<b>Yes.</b> Between two steps of A, B removed 7 and then 5, and added 7 again. The arrow of 5 led to the end when it was marked, and no thread changes an arrow with a mark.",
  },
  {
    name: "full", list: "coarse", title: "No node left", opening: [], threads: 1, quota: 1,
    lines: ["begin 0 add 5", "go 0 out", "begin 0 remove 5", "go 0 out", "begin 0 add 7", "go 0 3"], rest: ["go 0 out"],
    question: "A can make one node. It has added 5, and removed it. Now it wants to add 7. Does it get the node of 5 again?",
    options: [
      { text: "Yes: 5 is gone", says: "Another thread could still be at that node." },
      { text: "No", right: true, says: "" },
    ],
    why: "<b>No: add answers full.</b> Each node is used once, so no thread ever meets a node with a changed number.",
  },
  {
    name: "opens-with-keys", list: "lazy", title: "Numbers from the start", opening: [5, 9], threads: 1, quota: 1,
    lines: ["begin 0 remove 5", "go 0 out", "begin 0 add 7"], rest: ["go 0 out", "begin 0 add 8", "go 0 out"],
    question: "5 and 9 were there from the start. A can make one node. It has removed 5. How many numbers can it add?",
    options: [
      { text: "None: 5 and 9 are two", says: "What was there from the start counts as no thread’s add." },
      { text: "One", right: true, says: "" },
      { text: "Two: it has removed one", says: "A remove frees no node." },
    ],
    why: "<b>One.</b> 7 takes A’s only node, and the add of 8 answers full.",
  },
];
