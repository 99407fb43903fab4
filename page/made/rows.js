// The rows of the step tables, from docs/TABLES.md by page/build: for show alone, no state is computed from them.

export const LISTS = {
 "coarse": {
  "name": "CoarseList",
  "registers": [
   "pred",
   "curr",
   "succ",
   "ckey"
  ],
  "adds": 5,
  "removes": 8,
  "calls": {
   "add": {
    "rows": [
     1,
     2,
     3,
     4,
     5,
     6,
     7,
     10
    ],
    "registers": [
     "pred",
     "curr",
     "ckey"
    ]
   },
   "remove": {
    "rows": [
     1,
     2,
     3,
     4,
     8,
     9,
     10
    ],
    "registers": [
     "pred",
     "curr",
     "succ",
     "ckey"
    ]
   },
   "contains": {
    "rows": [
     1,
     2,
     3,
     4,
     10
    ],
    "registers": [
     "pred",
     "curr",
     "ckey"
    ]
   },
   "ceiling": {
    "rows": [
     1,
     2,
     3,
     4,
     10
    ],
    "registers": [
     "pred",
     "curr",
     "ckey"
    ]
   }
  },
  "rows": {
   "1": {
    "step": "try list.lock",
    "then": "2",
    "book": "lock the list"
   },
   "2": {
    "step": "load head.link",
    "then": "pred = head, curr = next(s); 3",
    "book": "pred is the head, curr its next"
   },
   "3": {
    "step": "load curr.key",
    "then": "ckey = s; below K: 4; else decide",
    "book": "test of the loop, then of the key",
    "below": 4
   },
   "4": {
    "step": "load curr.link",
    "then": "pred = curr, curr = next(s); 3",
    "book": "one node further"
   },
   "5": {
    "step": "store K in own.key",
    "then": "6",
    "book": "the new node's key"
   },
   "6": {
    "step": "store curr in own.link",
    "then": "7",
    "book": "its next"
   },
   "7": {
    "step": "store own in pred.link",
    "then": "+k, reply true; 10",
    "book": "link it in"
   },
   "8": {
    "step": "load curr.link",
    "then": "succ = next(s); 9",
    "book": "read curr's next"
   },
   "9": {
    "step": "store succ in pred.link",
    "then": "-k, reply true; 10",
    "book": "unlink curr"
   },
   "10": {
    "step": "store 0 in list.lock",
    "then": "answers",
    "book": "unlock the list"
   }
  }
 },
 "fine": {
  "name": "FineList",
  "registers": [
   "pred",
   "curr",
   "succ",
   "ckey"
  ],
  "adds": 7,
  "removes": 10,
  "calls": {
   "add": {
    "rows": [
     1,
     2,
     3,
     4,
     5,
     6,
     7,
     8,
     9,
     12,
     13
    ],
    "registers": [
     "pred",
     "curr",
     "ckey"
    ]
   },
   "remove": {
    "rows": [
     1,
     2,
     3,
     4,
     5,
     6,
     10,
     11,
     12,
     13
    ],
    "registers": [
     "pred",
     "curr",
     "succ",
     "ckey"
    ]
   },
   "contains": {
    "rows": [
     1,
     2,
     3,
     4,
     5,
     6,
     12,
     13
    ],
    "registers": [
     "pred",
     "curr",
     "ckey"
    ]
   },
   "ceiling": {
    "rows": [
     1,
     2,
     3,
     4,
     5,
     6,
     12,
     13
    ],
    "registers": [
     "pred",
     "curr",
     "ckey"
    ]
   }
  },
  "rows": {
   "1": {
    "step": "try head.lock",
    "then": "pred = head; 2",
    "book": "lock the head"
   },
   "2": {
    "step": "load head.link",
    "then": "curr = next(s); 3",
    "book": "curr is its next"
   },
   "3": {
    "step": "try curr.lock",
    "then": "4",
    "book": "lock curr, with pred still locked"
   },
   "4": {
    "step": "load curr.key",
    "then": "ckey = s; below K: 5; else decide",
    "book": "test of the loop, then of the key",
    "below": 5
   },
   "5": {
    "step": "store 0 in pred.lock",
    "then": "6",
    "book": "unlock pred: hand over hand"
   },
   "6": {
    "step": "load curr.link",
    "then": "pred = curr, curr = next(s); 3",
    "book": "one node further"
   },
   "7": {
    "step": "store K in own.key",
    "then": "8",
    "book": "the new node's key"
   },
   "8": {
    "step": "store curr in own.link",
    "then": "9",
    "book": "its next"
   },
   "9": {
    "step": "store own in pred.link",
    "then": "+k, reply true; 12",
    "book": "link it in"
   },
   "10": {
    "step": "load curr.link",
    "then": "succ = next(s); 11",
    "book": "read curr's next"
   },
   "11": {
    "step": "store succ in pred.link",
    "then": "-k, reply true; 12",
    "book": "unlink curr"
   },
   "12": {
    "step": "store 0 in curr.lock",
    "then": "13",
    "book": "unlock curr"
   },
   "13": {
    "step": "store 0 in pred.lock",
    "then": "answers",
    "book": "unlock pred"
   }
  }
 },
 "optimistic": {
  "name": "OptimisticList",
  "registers": [
   "pred",
   "curr",
   "succ",
   "node",
   "pkey",
   "ckey"
  ],
  "adds": 9,
  "removes": 12,
  "calls": {
   "add": {
    "rows": [
     1,
     2,
     3,
     4,
     5,
     6,
     7,
     8,
     9,
     10,
     11,
     14,
     15
    ],
    "registers": [
     "pred",
     "curr",
     "node",
     "pkey",
     "ckey"
    ]
   },
   "remove": {
    "rows": [
     1,
     2,
     3,
     4,
     5,
     6,
     7,
     8,
     12,
     13,
     14,
     15
    ],
    "registers": [
     "pred",
     "curr",
     "succ",
     "node",
     "pkey",
     "ckey"
    ]
   },
   "contains": {
    "rows": [
     1,
     2,
     3,
     4,
     5,
     6,
     7,
     8,
     14,
     15
    ],
    "registers": [
     "pred",
     "curr",
     "node",
     "pkey",
     "ckey"
    ]
   },
   "ceiling": {
    "rows": [
     1,
     2,
     3,
     4,
     5,
     6,
     7,
     8,
     14,
     15
    ],
    "registers": [
     "pred",
     "curr",
     "node",
     "pkey",
     "ckey"
    ]
   }
  },
  "rows": {
   "1": {
    "step": "load head.link",
    "then": "pred = head, pkey = 0, curr = next(s); 2",
    "book": "start of an attempt"
   },
   "2": {
    "step": "load curr.key",
    "then": "ckey = s; below K: 3; else 4",
    "book": "test of the loop",
    "below": 3
   },
   "3": {
    "step": "load curr.link",
    "then": "pred = curr, pkey = ckey, curr = next(s); 2",
    "book": "one node further"
   },
   "4": {
    "step": "try pred.lock",
    "then": "5",
    "book": "lock pred"
   },
   "5": {
    "step": "try curr.lock",
    "then": "node = head; if pred is the head: 8; else 6",
    "book": "lock curr; validate from the head"
   },
   "6": {
    "step": "load node.link",
    "then": "node = next(s); 7",
    "book": "one node further"
   },
   "7": {
    "step": "load node.key",
    "then": "above pkey: reply none, 14; node is pred: 8; else 6",
    "book": "has the walk reached or passed pred",
    "invalid": 14
   },
   "8": {
    "step": "load pred.link",
    "then": "it leads to curr: decide on ckey; else reply none, 14",
    "book": "does pred still lead to curr",
    "invalid": 14
   },
   "9": {
    "step": "store K in own.key",
    "then": "10",
    "book": "the new node's key"
   },
   "10": {
    "step": "store curr in own.link",
    "then": "11",
    "book": "its next"
   },
   "11": {
    "step": "store own in pred.link",
    "then": "+k, reply true; 14",
    "book": "link it in"
   },
   "12": {
    "step": "load curr.link",
    "then": "succ = next(s); 13",
    "book": "read curr's next"
   },
   "13": {
    "step": "store succ in pred.link",
    "then": "-k, reply true; 14",
    "book": "unlink curr"
   },
   "14": {
    "step": "store 0 in pred.lock",
    "then": "15",
    "book": "unlock pred"
   },
   "15": {
    "step": "store 0 in curr.lock",
    "then": "without a reply: 1; else answers",
    "book": "unlock curr; if not valid, try again",
    "again": 1
   }
  }
 },
 "lazy": {
  "name": "LazyList",
  "registers": [
   "pred",
   "curr",
   "succ",
   "ckey"
  ],
  "adds": 8,
  "removes": 11,
  "calls": {
   "add": {
    "rows": [
     1,
     2,
     3,
     4,
     5,
     6,
     7,
     8,
     9,
     10,
     13,
     14
    ],
    "registers": [
     "pred",
     "curr",
     "succ",
     "ckey"
    ]
   },
   "remove": {
    "rows": [
     1,
     2,
     3,
     4,
     5,
     6,
     7,
     11,
     12,
     13,
     14
    ],
    "registers": [
     "pred",
     "curr",
     "succ",
     "ckey"
    ]
   },
   "contains": {
    "rows": [
     20,
     21,
     22
    ],
    "registers": [
     "curr"
    ]
   },
   "ceiling": {
    "rows": [
     23,
     24,
     25
    ],
    "registers": [
     "curr",
     "ckey"
    ]
   }
  },
  "rows": {
   "1": {
    "step": "load head.link",
    "then": "pred = head, curr = next(s); 2",
    "book": "start of an attempt"
   },
   "2": {
    "step": "load curr.key",
    "then": "ckey = s; below K: 3; else 4",
    "book": "test of the loop",
    "below": 3
   },
   "3": {
    "step": "load curr.link",
    "then": "pred = curr, curr = next(s); 2",
    "book": "one node further"
   },
   "4": {
    "step": "try pred.lock",
    "then": "5",
    "book": "lock pred"
   },
   "5": {
    "step": "try curr.lock",
    "then": "6",
    "book": "lock curr"
   },
   "6": {
    "step": "load pred.link",
    "then": "curr, unmarked: 7; else reply none, 13",
    "book": "pred is not marked, leads to curr",
    "invalid": 13
   },
   "7": {
    "step": "load curr.link",
    "then": "marked: reply none, 13; else succ = next(s), decide on ckey",
    "book": "curr is not marked",
    "invalid": 13
   },
   "8": {
    "step": "store K in own.key",
    "then": "9",
    "book": "the new node's key"
   },
   "9": {
    "step": "store curr in own.link",
    "then": "10",
    "book": "its next"
   },
   "10": {
    "step": "store own in pred.link",
    "then": "+k, reply true; 13",
    "book": "link it in"
   },
   "11": {
    "step": "store succ* in curr.link",
    "then": "-k; 12",
    "book": "mark curr: it is removed"
   },
   "12": {
    "step": "store succ in pred.link",
    "then": "reply true; 13",
    "book": "unlink curr"
   },
   "13": {
    "step": "store 0 in curr.lock",
    "then": "14",
    "book": "unlock curr"
   },
   "14": {
    "step": "store 0 in pred.lock",
    "then": "without a reply: 1; else answers",
    "book": "unlock pred; if not valid, try again",
    "again": 1
   },
   "20": {
    "step": "load curr.link",
    "then": "curr = next(s); 21",
    "book": "one node further, marked or not"
   },
   "21": {
    "step": "load curr.key",
    "then": "below K: 20; K: 22; else answers false",
    "book": "test of the loop, then of the key",
    "below": 20
   },
   "22": {
    "step": "load curr.link",
    "then": "marked: answers false; else answers true",
    "book": "is the node of the key marked"
   },
   "23": {
    "step": "load curr.link",
    "then": "curr = next(s); 24",
    "book": "one node further, marked or not"
   },
   "24": {
    "step": "load curr.key",
    "then": "ckey = s; below K: 23; the tail's: answers that there is none; else 25",
    "book": "stop at the first key not below K",
    "below": 23
   },
   "25": {
    "step": "load curr.link",
    "then": "marked: curr = head, 23; else answers the key of ckey",
    "book": "if marked, start again",
    "again": 23
   }
  }
 },
 "lock-free": {
  "name": "LockFreeList",
  "registers": [
   "pred",
   "curr",
   "succ",
   "ckey"
  ],
  "adds": 5,
  "removes": 8,
  "calls": {
   "add": {
    "rows": [
     1,
     2,
     3,
     4,
     5,
     6,
     7
    ],
    "registers": [
     "pred",
     "curr",
     "succ"
    ]
   },
   "remove": {
    "rows": [
     1,
     2,
     3,
     4,
     8,
     9,
     10
    ],
    "registers": [
     "pred",
     "curr",
     "succ"
    ]
   },
   "contains": {
    "rows": [
     20,
     21,
     22
    ],
    "registers": [
     "curr"
    ]
   },
   "ceiling": {
    "rows": [
     23,
     24,
     25
    ],
    "registers": [
     "curr",
     "ckey"
    ]
   }
  },
  "rows": {
   "1": {
    "step": "load head.link",
    "then": "pred = head, curr = next(s); 2",
    "book": "start of find"
   },
   "2": {
    "step": "load curr.link",
    "then": "succ = next(s); marked: 3; else 4",
    "book": "read next and mark together"
   },
   "3": {
    "step": "exchange pred.link from curr to succ",
    "then": "success: curr = succ, 2; else 1",
    "book": "snip the marked curr; if that fails, start again",
    "again": 1
   },
   "4": {
    "step": "load curr.key",
    "then": "below K: pred = curr, curr = succ, 2; else decide",
    "book": "test of the loop, then of the key",
    "below": 2
   },
   "5": {
    "step": "store K in own.key",
    "then": "6",
    "book": "the new node's key"
   },
   "6": {
    "step": "store curr in own.link",
    "then": "7",
    "book": "its next"
   },
   "7": {
    "step": "exchange pred.link from curr to own",
    "then": "success: +k, answers true; else 1",
    "book": "link it in; if that fails, start again, with the same slot",
    "again": 1
   },
   "8": {
    "step": "load curr.link",
    "then": "succ = next(s); 9",
    "book": "read curr's next"
   },
   "9": {
    "step": "exchange curr.link from succ to succ*",
    "then": "success: -k, 10; else 1",
    "book": "mark curr: it is removed; if that fails, start again",
    "again": 1
   },
   "10": {
    "step": "exchange pred.link from curr to succ",
    "then": "answers true whatever was seen",
    "book": "one try to unlink it; else a later find does it"
   },
   "20": {
    "step": "load curr.link",
    "then": "curr = next(s); 21",
    "book": "one node further, marked or not"
   },
   "21": {
    "step": "load curr.key",
    "then": "below K: 20; K: 22; else answers false",
    "book": "test of the loop, then of the key",
    "below": 20
   },
   "22": {
    "step": "load curr.link",
    "then": "marked: answers false; else answers true",
    "book": "is the node of the key marked"
   },
   "23": {
    "step": "load curr.link",
    "then": "curr = next(s); 24",
    "book": "one node further, marked or not"
   },
   "24": {
    "step": "load curr.key",
    "then": "ckey = s; below K: 23; the tail's: answers that there is none; else 25",
    "book": "stop at the first key not below K",
    "below": 23
   },
   "25": {
    "step": "load curr.link",
    "then": "marked: curr = head, 23; else answers the key of ckey",
    "book": "if marked, start again",
    "again": 23
   }
  }
 }
};
