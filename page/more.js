// The modules of src/ and made/ in one script, by page/build: nothing else of the page is global.
"use strict";

var MORE=(()=>{var o=Object.defineProperty;var t=Object.getOwnPropertyDescriptor;var n=Object.getOwnPropertyNames;var c=Object.prototype.hasOwnProperty;var i=(l,e)=>{for(var a in e)o(l,a,{get:e[a],enumerable:!0})},d=(l,e,a,s)=>{if(e&&typeof e=="object"||typeof e=="function")for(let r of n(e))!c.call(l,r)&&r!==a&&o(l,r,{get:()=>e[r],enumerable:!(s=t(e,r))||s.enumerable});return l};var u=l=>d(o({},"__esModule",{value:!0}),l);var f={};i(f,{CODE:()=>p,CODE_OF:()=>w});var p={"crates/lset_loops/src/coarse.rt":[{name:"walk",first:15,steps:[{line:23,rows:[2]},{line:25,rows:[3]},{line:29,rows:[4]}],calls:[],text:`
/// Walks from the head to the first key that is not smaller than the call's key. Returns that key's node and the node
/// before it, or \`None\` after \`N::MOST\` rounds.
fn walk<P: Pause, N: Rounds>(caller: &Caller<CoarseList, P>, place: &mut TableSeat) -> Option<Found>
    requires { AtHead caller.now.origin caller.now.slots place.old }
    ensures { IfSome result (λ f. StopsAt caller.now.origin caller.now.slots f place.new) }
{
    let key = caller.key;
    let mut pred = Node::head();
    let mut curr = Node::behind(caller.load_link(place, pred)); // row 2
    for round in 0..N::MOST {
        let word = caller.load_key(place, curr); // row 3
        if word >= key {
            return Some(Found { pred, curr, word });
        }
        let link = caller.load_link(place, curr); // row 4
        pred = curr;
        curr = Node::behind(link);
    }
    None
}`},{name:"act",first:36,steps:[{line:48,rows:[5,6,7]},{line:52,rows:[8]},{line:53,rows:[9]}],calls:[],text:`
/// Makes the change that \`decide\` returns: links a new node between the two nodes in \`found\`, unlinks \`found.curr\`, or
/// changes nothing. The call must hold the list's lock.
fn act<P: Pause>(
    caller: &Caller<CoarseList, P>,
    place: &mut TableSeat,
    found: Found,
) -> (OwnSlots, Reply)
    requires { StopsAt caller.now.origin caller.now.slots found place.old }
    ensures { Leaves caller.now.origin result place.new }
{
    match decide(caller.call, found.word, caller.slots) {
        Decision::PutIn => {
            caller.put_in(place, found); // rows 5, 6, 7
            (one_more(caller.slots), Reply::True)
        }
        Decision::TakeOut => {
            let link = caller.load_link(place, found.curr); // row 8
            caller.store_link(place, found.pred, Link::To(Node::behind(link))); // row 9
            (caller.slots, Reply::True)
        }
        Decision::Answer(reply) => (caller.slots, reply),
    }
}`},{name:"coarse_within",first:60,steps:[{line:76,rows:[1]},{line:79,rows:[10]}],calls:[[77,"walk"],[78,"act"]],text:`
/// Executes a whole call on a CoarseList: takes the list's lock, walks to the key, adds or removes the key if needed,
/// and releases the lock. This is Herlihy and Shavit's coarse-grained list.
///
/// Returns the thread's slots (nodes reserved for its adds) after the call, and the reply. Returns \`None\` if a loop has
/// made \`N::MOST\` rounds and not ended. The call is then still pending, and keeps the locks that it holds.
pub fn coarse_within<P: Pause, N: Rounds>(
    table: &Words<CoarseList>,
    place: &mut TableSeat,
    slots: OwnSlots,
    call: Call,
    pause: &P,
) -> Option<(OwnSlots, Reply)>
    requires { MayCall coarse table.now.table_id table.now.key slots place.old }
    ensures { IfSome result (λ r. HasCalled coarse call place.old r place.new) }
{
    let caller = Caller::new(table, place, slots, call, pause);
    caller.begin_locked::<N>(place, LOCK)?; // row 1
    let found = walk::<P, N>(&caller, place)?;
    let answer = act(&caller, place, found);
    caller.release_last(place, LOCK); // row 10
    Some(answer)
}`}],"crates/lset_loops/src/fine.rt":[{name:"walk",first:16,steps:[{line:24,rows:[2]},{line:26,rows:[3]},{line:27,rows:[4]},{line:31,rows:[5]},{line:32,rows:[6]}],calls:[],text:`
/// Walks from the locked head to the first key that is not smaller than the call's key, and locks each node before it
/// releases the previous node. Returns the last two nodes, still locked, or \`None\` if a loop has made \`N::MOST\` rounds.
fn walk<P: Pause, N: Rounds>(caller: &Caller<FineList, P>, place: &mut TableSeat) -> Option<Found>
    requires { AtHead caller.now.origin caller.now.slots place.old }
    ensures { IfSome result (λ f. StopsAt caller.now.origin caller.now.slots f place.new) }
{
    let key = caller.key;
    let mut pred = Node::head();
    let mut curr = Node::behind(caller.load_link(place, pred)); // row 2
    for round in 0..N::MOST {
        caller.lock::<N>(place, curr)?; // row 3
        let word = caller.load_key(place, curr); // row 4
        if word >= key {
            return Some(Found { pred, curr, word });
        }
        caller.unlock(place, pred); // row 5
        let link = caller.load_link(place, curr); // row 6
        pred = curr;
        curr = Node::behind(link);
    }
    None
}`},{name:"act",first:39,steps:[{line:51,rows:[7,8,9]},{line:55,rows:[10]},{line:56,rows:[11]}],calls:[],text:`
/// Makes the change that \`decide\` returns: links a new node between the two nodes in \`found\`, unlinks \`found.curr\`, or
/// changes nothing. The call must hold the locks of both nodes.
fn act<P: Pause>(
    caller: &Caller<FineList, P>,
    place: &mut TableSeat,
    found: Found,
) -> (OwnSlots, Reply)
    requires { StopsAt caller.now.origin caller.now.slots found place.old }
    ensures { Leaves caller.now.origin found result place.new }
{
    match decide(caller.call, found.word, caller.slots) {
        Decision::PutIn => {
            caller.put_in(place, found); // rows 7, 8, 9
            (one_more(caller.slots), Reply::True)
        }
        Decision::TakeOut => {
            let link = caller.load_link(place, found.curr); // row 10
            caller.store_link(place, found.pred, Link::To(Node::behind(link))); // row 11
            (caller.slots, Reply::True)
        }
        Decision::Answer(reply) => (caller.slots, reply),
    }
}`},{name:"fine_within",first:63,steps:[{line:79,rows:[1]},{line:82,rows:[12]},{line:83,rows:[13]}],calls:[[80,"walk"],[81,"act"]],text:`
/// Executes a whole call on a FineList: walks to the key, locking each node before it releases the previous node, adds
/// or removes the key if needed, and releases both locks. This is Herlihy and Shavit's fine-grained list.
///
/// Returns the thread's slots (nodes reserved for its adds) after the call, and the reply. Returns \`None\` if a loop has
/// made \`N::MOST\` rounds and not ended. The call is then still pending, and keeps the locks that it holds.
pub fn fine_within<P: Pause, N: Rounds>(
    table: &Words<FineList>,
    place: &mut TableSeat,
    slots: OwnSlots,
    call: Call,
    pause: &P,
) -> Option<(OwnSlots, Reply)>
    requires { MayCall fine table.now.table_id table.now.key slots place.old }
    ensures { IfSome result (λ r. HasCalled fine call place.old r place.new) }
{
    let caller = Caller::new(table, place, slots, call, pause);
    caller.begin_locked::<N>(place, lock_index(HEAD))?; // row 1
    let found = walk::<P, N>(&caller, place)?;
    let answer = act(&caller, place, found);
    caller.unlock(place, found.curr); // row 12
    caller.unlock_last(place, found.pred); // row 13
    Some(answer)
}`}],"crates/lset_loops/src/optimistic.rt":[{name:"walk",first:22,steps:[{line:38,rows:[2]},{line:43,rows:[3]}],calls:[],text:`
/// Walks from \`first\`, the node after the head, to the first key that is not smaller than the call's key. Returns that
/// key's node and the node before it, or \`None\` after \`N::MOST\` rounds.
#[inline(always)]
fn walk<P: Pause, N: Rounds>(
    caller: &Caller<OptimisticList, P>,
    place: &mut TableSeat,
    first: Node,
) -> Option<Stopped>
    requires { AtKey caller.now.origin caller.now.slots 0 first.number 0 place.old }
    ensures { IfSome result (λ f. StopsAt caller.now.origin caller.now.slots f place.new) }
{
    let key = caller.key;
    let mut pred = Node::head();
    let mut before = 0;
    let mut curr = first;
    for round in 0..N::MOST {
        let word = caller.load_key(place, curr); // row 2
        if word >= key {
            let found = Found { pred, curr, word };
            return Some(Stopped { found, before });
        }
        let link = caller.load_link(place, curr); // row 3
        pred = curr;
        before = word;
        curr = Node::behind(link);
    }
    None
}`},{name:"reaches",first:51,steps:[{line:69,rows:[6]},{line:71,rows:[7]}],calls:[],text:`
/// Walks from the head a second time, and returns whether this walk reaches the node \`pred\` that the first walk found
/// before it meets a key greater than the key of \`pred\`. Returns \`None\` after \`N::MOST\` rounds.
#[inline(always)]
fn reaches<P: Pause, N: Rounds>(
    caller: &Caller<OptimisticList, P>,
    place: &mut TableSeat,
    stopped: Stopped,
) -> Option<bool>
    requires { HasLocked caller.now.origin caller.now.slots stopped place.old }
    ensures { IfSome result (λ r. HasReached caller.now.origin caller.now.slots stopped.found r place.new) }
{
    let pred = stopped.found.pred.number;
    let before = stopped.before;
    if pred == HEAD {
        return Some(true);
    }
    let mut node = Node::head();
    for round in 0..N::MOST {
        let link = caller.load_link(place, node); // row 6
        node = Node::behind(link);
        let word = caller.load_key(place, node); // row 7
        if word > before {
            return Some(false);
        }
        if node.number == pred {
            return Some(true);
        }
    }
    None
}`},{name:"validate",first:82,steps:[{line:96,rows:[8]}],calls:[[93,"reaches"]],text:`
/// Returns whether the node \`pred\` that the walk found is still in the list and its link points to \`curr\`. Returns
/// \`None\` if the second walk has made \`N::MOST\` rounds. Both nodes must be locked.
fn validate<P: Pause, N: Rounds>(
    caller: &Caller<OptimisticList, P>,
    place: &mut TableSeat,
    stopped: Stopped,
) -> Option<bool>
    requires { HasLocked caller.now.origin caller.now.slots stopped place.old }
    ensures { IfSome result (λ r. HasValidated caller.now.origin caller.now.slots stopped.found r place.new) }
{
    let found = stopped.found;
    if !reaches::<P, N>(caller, place, stopped)? {
        return Some(false);
    }
    let link = caller.load_link(place, found.pred); // row 8
    if link / 2 != found.curr.number {
        return Some(false);
    }
    Some(true)
}`},{name:"act",first:103,steps:[{line:115,rows:[9,10,11]},{line:119,rows:[12]},{line:120,rows:[13]}],calls:[],text:`
/// Makes the change that \`decide\` returns: links a new node between the two nodes in \`found\`, unlinks \`found.curr\`, or
/// changes nothing. The call must hold the locks of both nodes.
fn act<P: Pause>(
    caller: &Caller<OptimisticList, P>,
    place: &mut TableSeat,
    found: Found,
) -> (OwnSlots, Reply)
    requires { AreNeighbours caller.now.origin caller.now.slots found place.old }
    ensures { Leaves caller.now.origin found result place.new }
{
    match decide(caller.call, found.word, caller.slots) {
        Decision::PutIn => {
            caller.put_in(place, found); // rows 9, 10, 11
            (one_more(caller.slots), Reply::True)
        }
        Decision::TakeOut => {
            let link = caller.load_link(place, found.curr); // row 12
            caller.store_link(place, found.pred, Link::To(Node::behind(link))); // row 13
            (caller.slots, Reply::True)
        }
        Decision::Answer(reply) => (caller.slots, reply),
    }
}`},{name:"optimistic_within",first:127,steps:[{line:145,rows:[1],begins:!0,answers:!1},{line:149,rows:[4]},{line:150,rows:[5]},{line:153,rows:[14],begins:!1,answers:!0},{line:154,rows:[15],begins:!1,answers:!0},{line:157,rows:[14],begins:!1,answers:!1},{line:158,rows:[15],begins:!1,answers:!1},{line:159,rows:[1],begins:!1,answers:!1}],calls:[[147,"walk"],[151,"validate"],[152,"act"]],text:`
/// Executes a whole call on an OptimisticList. Walks to the key without locks, locks the two nodes around the key, and
/// checks with a second walk that they are still neighbours in the list. If they are, adds or removes the key if
/// needed and releases both locks; otherwise releases both locks and starts over. This is Herlihy and Shavit's
/// optimistic list.
///
/// Returns the thread's slots (nodes reserved for its adds) after the call, and the reply. Returns \`None\` if a loop has
/// made \`N::MOST\` rounds and not ended. The call is then still pending, and keeps the locks that it holds.
pub fn optimistic_within<P: Pause, N: Rounds>(
    table: &Words<OptimisticList>,
    place: &mut TableSeat,
    slots: OwnSlots,
    call: Call,
    pause: &P,
) -> Option<(OwnSlots, Reply)>
    requires { MayCall optimistic table.now.table_id table.now.key slots place.old }
    ensures { IfSome result (λ r. HasCalled optimistic call place.old r place.new) }
{
    let caller = Caller::new(table, place, slots, call, pause);
    let mut link = caller.begin_at_head(place); // row 1
    for round in 0..N::MOST {
        let stopped = walk::<P, N>(&caller, place, Node::behind(link))?;
        let found = stopped.found;
        caller.lock::<N>(place, found.pred)?; // row 4
        caller.lock::<N>(place, found.curr)?; // row 5
        if validate::<P, N>(&caller, place, stopped)? {
            let answer = act(&caller, place, found);
            caller.unlock(place, found.pred); // row 14
            caller.unlock_last(place, found.curr); // row 15
            return Some(answer);
        }
        caller.unlock(place, found.pred); // row 14
        caller.unlock(place, found.curr); // row 15
        link = caller.load_link(place, Node::head()); // row 1
    }
    None
}`}],"crates/lset_loops/src/lazy.rt":[{name:"walk",first:17,steps:[{line:32,rows:[2]},{line:36,rows:[3]}],calls:[],text:`
/// Walks from \`first\`, the node after the head, to the first key that is not smaller than the call's key. Returns that
/// key's node and the node before it, or \`None\` after \`N::MOST\` rounds.
#[inline(always)]
fn walk<P: Pause, N: Rounds>(
    caller: &Caller<LazyList, P>,
    place: &mut TableSeat,
    first: Node,
) -> Option<Found>
    requires { AtKey caller.now.origin caller.now.slots 0 first.number place.old }
    ensures { IfSome result (λ f. StopsAt caller.now.origin caller.now.slots f place.new) }
{
    let key = caller.key;
    let mut pred = Node::head();
    let mut curr = first;
    for round in 0..N::MOST {
        let word = caller.load_key(place, curr); // row 2
        if word >= key {
            return Some(Found { pred, curr, word });
        }
        let link = caller.load_link(place, curr); // row 3
        pred = curr;
        curr = Node::behind(link);
    }
    None
}`},{name:"validate",first:43,steps:[{line:53,rows:[6]},{line:57,rows:[7]}],calls:[],text:`
/// Returns the node after \`curr\` if \`pred\` leads to \`curr\` and neither is marked, otherwise \`None\`. Both nodes must be
/// locked.
fn validate<P: Pause>(
    caller: &Caller<LazyList, P>,
    place: &mut TableSeat,
    found: Found,
) -> Option<Node>
    requires { HasLocked caller.now.origin caller.now.slots found place.old }
    ensures { HasValidated caller.now.origin caller.now.slots found result place.new }
{
    let before = caller.load_link(place, found.pred); // row 6
    if before != 2 * found.curr.number {
        return None;
    }
    let after = caller.load_link(place, found.curr); // row 7
    if after % 2 != 0 {
        return None;
    }
    Some(Node::behind(after))
}`},{name:"act",first:64,steps:[{line:77,rows:[8,9,10]},{line:81,rows:[11]},{line:82,rows:[12]}],calls:[],text:`
/// Makes the change that \`decide\` returns: links a new node between the two nodes in \`found\`, marks and unlinks
/// \`found.curr\`, or changes nothing. The call must hold the locks of both nodes; \`succ\` is the node after \`found.curr\`.
fn act<P: Pause>(
    caller: &Caller<LazyList, P>,
    place: &mut TableSeat,
    found: Found,
    succ: Node,
) -> (OwnSlots, Reply)
    requires { AreNeighbours caller.now.origin caller.now.slots found succ place.old }
    ensures { Leaves caller.now.origin found result place.new }
{
    match decide(caller.call, found.word, caller.slots) {
        Decision::PutIn => {
            caller.put_in(place, found); // rows 8, 9, 10
            (one_more(caller.slots), Reply::True)
        }
        Decision::TakeOut => {
            caller.store_link(place, found.curr, Link::Marked(succ)); // row 11
            caller.store_link(place, found.pred, Link::To(succ)); // row 12
            (caller.slots, Reply::True)
        }
        Decision::Answer(reply) => (caller.slots, reply),
    }
}`},{name:"lazy_change_within",first:89,steps:[{line:108,rows:[1],begins:!0,answers:!1},{line:111,rows:[4]},{line:112,rows:[5]},{line:116,rows:[13],begins:!1,answers:!0},{line:117,rows:[14],begins:!1,answers:!0},{line:121,rows:[13],begins:!1,answers:!1},{line:122,rows:[14],begins:!1,answers:!1},{line:123,rows:[1],begins:!1,answers:!1}],calls:[[110,"walk"],[113,"validate"],[115,"act"]],text:`
/// Executes a whole \`add\` or \`remove\` on a LazyList. Walks to the key without locks, locks the two nodes around the
/// key, and checks that they are still neighbours in the list. If they are, adds or removes the key if needed and
/// releases both locks; otherwise releases both locks and starts over. This is Herlihy and Shavit's lazy list, after
/// Heller and others.
///
/// Returns the thread's slots (nodes reserved for its adds) after the call, and the reply. Returns \`None\` if a loop has
/// made \`N::MOST\` rounds and not ended. The call is then still pending, and keeps the locks that it holds.
pub fn lazy_change_within<P: Pause, N: Rounds>(
    table: &Words<LazyList>,
    place: &mut TableSeat,
    slots: OwnSlots,
    call: Call,
    pause: &P,
) -> Option<(OwnSlots, Reply)>
    requires may { MayCall lazy table.now.table_id table.now.key slots place.old }
    requires changes { first_row call ≡ 1 }
    ensures { IfSome result (λ r. HasCalled lazy call place.old r place.new) }
{
    let caller = Caller::new(table, place, slots, call, pause);
    let mut link = caller.begin_at_head(place); // row 1
    for round in 0..N::MOST {
        let found = walk::<P, N>(&caller, place, Node::behind(link))?;
        caller.lock::<N>(place, found.pred)?; // row 4
        caller.lock::<N>(place, found.curr)?; // row 5
        match validate(&caller, place, found) {
            Some(succ) => {
                let answer = act(&caller, place, found, succ);
                caller.unlock(place, found.curr); // row 13
                caller.unlock_last(place, found.pred); // row 14
                return Some(answer);
            }
            None => {
                caller.unlock(place, found.curr); // row 13
                caller.unlock(place, found.pred); // row 14
                link = caller.load_link(place, Node::head()); // row 1
            }
        }
    }
    None
}`}],"crates/lset_loops/src/reads.rt":[{name:"contains_on",first:43,steps:[{line:61,rows:[20],begins:!0,answers:!1},{line:63,rows:[21]},{line:69,rows:[22]},{line:72,rows:[20],begins:!1,answers:!1}],calls:[],text:`
/// Executes a whole \`contains\` of \`key\`: walks to the first key that is not smaller than \`key\`, and replies according
/// to the mark of its node. This is Herlihy and Shavit's wait-free \`contains\`.
///
/// \`place\` is an idle seat (per-thread handle) on the words \`table\`, and \`slots\` are the slots of its thread (nodes for
/// keys that it adds). Returns the slots and the reply. \`pause\` is called after each step that does not end the call.
/// Does not block, and always returns.
pub fn contains_on<M: ReadsByRows, P: Pause>(
    table: &Words<M>,
    place: &mut TableSeat,
    slots: OwnSlots,
    key: Key,
    pause: &P,
) -> (OwnSlots, Reply)
    requires { MayCall M.table table.now.table_id table.now.key slots place.old }
    ensures { HasCalled M.table (Contains key) place.old result place.new }
{
    let caller = Caller::new(table, place, slots, Call::Contains(key), pause);
    let target = caller.key;
    let mut curr = Node::behind(caller.begin_at_head(place)); // row 20
    loop {
        let word = caller.look_at_key(place, curr); // row 21
        if word > target {
            return (caller.slots, Reply::False);
        }
        caller.goes_on();
        if word == target {
            let mark = caller.look_at_link(place, curr); // row 22
            return (caller.slots, reply_by_mark(mark));
        }
        let link = caller.look_at_link(place, curr); // row 20
        caller.goes_on();
        curr = Node::behind(link);
    }
}`}],"crates/lset_loops/src/lock_free.rt":[{name:"find",first:17,steps:[{line:32,rows:[2]},{line:35,rows:[3]},{line:41,rows:[1],begins:!1,answers:!1},{line:44,rows:[4]}],calls:[],text:`
/// Walks from \`first\`, the node after the head, to the first key that is not smaller than the call's key, and unlinks
/// marked nodes on the way (Herlihy and Shavit's \`find\`). Returns that key's node and the node before it, or \`None\`
/// after \`N::MOST\` rounds.
fn find<P: Pause, N: Rounds>(
    caller: &Caller<LockFreeList, P>,
    place: &mut TableSeat,
    first: Node,
) -> Option<Found>
    requires { AtLink caller.now.origin caller.now.slots 0 first.number place.old }
    ensures { IfSome result (λ f. StopsAt caller.now.origin caller.now.slots f place.new) }
{
    let key = caller.key;
    let mut pred = Node::head();
    let mut curr = first;
    for round in 0..N::MOST {
        let link = caller.load_link(place, curr); // row 2
        let succ = Node::behind(link);
        if link % 2 != 0 {
            if caller.exchange(place, pred, Link::To(curr), Link::To(succ)) { // row 3
                caller.goes_on();
                curr = succ;
                continue;
            }
            pred = Node::head();
            curr = Node::behind(caller.load_link(place, pred)); // row 1
            continue;
        }
        let word = caller.look_at_key(place, curr); // row 4
        if word >= key {
            return Some(Found { pred, curr, word });
        }
        caller.goes_on();
        pred = curr;
        curr = succ;
    }
    None
}`},{name:"attempt",first:55,steps:[{line:68,rows:[5,6]},{line:69,rows:[7]},{line:76,rows:[8]},{line:77,rows:[9]},{line:81,rows:[10]}],calls:[],text:`
/// Makes the change that \`decide\` returns: links a new node between the two nodes in \`found\`, marks \`found.curr\` and
/// attempts to unlink it, or changes nothing. Returns \`None\` if a link has changed since the walk.
fn attempt<P: Pause>(
    caller: &Caller<LockFreeList, P>,
    place: &mut TableSeat,
    found: Found,
) -> Option<(OwnSlots, Reply)>
    requires { StopsAt caller.now.origin caller.now.slots found place.old }
    ensures { HasTried caller.now.origin caller.now.slots result place.new }
{
    match decide(caller.call, found.word, caller.slots) {
        Decision::PutIn => {
            caller.goes_on();
            let node = caller.fill_slot(place, found.curr); // rows 5, 6
            if !caller.exchange(place, found.pred, Link::To(found.curr), Link::To(node)) { // row 7
                return None;
            }
            Some((one_more(caller.slots), Reply::True))
        }
        Decision::TakeOut => {
            caller.goes_on();
            let succ = Node::behind(caller.load_link(place, found.curr)); // row 8
            if !caller.exchange(place, found.curr, Link::To(succ), Link::Marked(succ)) { // row 9
                return None;
            }
            caller.goes_on();
            caller.exchange_last(place, found.pred, Link::To(found.curr), Link::To(succ)); // row 10
            Some((caller.slots, Reply::True))
        }
        Decision::Answer(reply) => Some((caller.slots, reply)),
    }
}`},{name:"lock_free_change_within",first:88,steps:[{line:106,rows:[1],begins:!0,answers:!1},{line:111,rows:[1],begins:!1,answers:!1}],calls:[[108,"find"],[109,"attempt"]],text:`
/// Executes a whole \`add\` or \`remove\` on a LockFreeList. Walks to the key. Then an \`add\` links the thread's next slot
/// (an unused node) into the list, and a \`remove\` marks the node and attempts once to unlink it. Starts over if a link
/// has changed since the walk. This is Herlihy and Shavit's lock-free list.
///
/// Returns the thread's slots (nodes reserved for its adds) after the call, and the reply. Returns \`None\` if a loop has
/// made \`N::MOST\` rounds and not ended. The call is then still pending.
pub fn lock_free_change_within<P: Pause, N: Rounds>(
    table: &Words<LockFreeList>,
    place: &mut TableSeat,
    slots: OwnSlots,
    call: Call,
    pause: &P,
) -> Option<(OwnSlots, Reply)>
    requires may { MayCall lock_free table.now.table_id table.now.key slots place.old }
    requires changes { first_row call ≡ 1 }
    ensures { IfSome result (λ r. HasCalled lock_free call place.old r place.new) }
{
    let caller = Caller::new(table, place, slots, call, pause);
    let mut link = caller.begin_at_head(place); // row 1
    for round in 0..N::MOST {
        let found = find::<P, N>(&caller, place, Node::behind(link))?;
        match attempt(&caller, place, found) {
            Some(answer) => return Some(answer),
            None => link = caller.load_link(place, Node::head()), // row 1
        }
    }
    None
}`}]},w={coarse:["crates/lset_loops/src/coarse.rt"],fine:["crates/lset_loops/src/fine.rt"],optimistic:["crates/lset_loops/src/optimistic.rt"],lazy:["crates/lset_loops/src/lazy.rt","crates/lset_loops/src/reads.rt"],"lock-free":["crates/lset_loops/src/lock_free.rt","crates/lset_loops/src/reads.rt"]};return u(f);})();
