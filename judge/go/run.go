package judge

import (
	"errors"
	"fmt"
	"math/rand"
	"os"
	"runtime"
	"sort"
	"strings"
	"sync"
	"sync/atomic"
	"time"
	"unsafe"
)

// The replies of a call.
const (
	no uint32 = iota
	yes
	unknown
)

// The progress of a run.
const (
	waiting uint32 = iota
	going
	over
	failed
	unmade
)

// slot is a recorded call. The calling goroutine writes the record when the call begins, and completes it when the call
// ends. After a call with an unknown outcome, the goroutine continues under a new thread number.
type slot struct {
	begin, end               uint32 // begin is 0 until the call begins, end until the call ends
	thread, call, key, reply uint32
}

// text is a text in shared memory.
type text struct {
	length uint32
	bytes  [1000]byte
}

func (t *text) set(to string) { t.length = uint32(copy(t.bytes[:], to)) }

func (t *text) String() string { return string(t.bytes[:t.length]) }

// saved describes how much of a run is in the file: the length of the file, and the value of tickets at the last save.
// The file contains all calls that had begun by the last save.
type saved struct {
	length int64
	moment uint32
}

// head has the numbers that describe a run and its progress. A process that performs the run can share the head with a
// process that watches the run.
type head struct {
	seed  int64
	saves [2]saved
	save  uint32 // the index of the valid element of saves: changing the index replaces the element's two numbers in one step
	size
	tickets, there, done, begun uint32
	at, isStopping, isBusy      uint32
	alert, ended                uint32 // for partners: the number plus 1 of a goroutine that polls, and how often a block of calls has ended
	isHere                      uint32 // whether a child process has reached the test's Check
	file, why                   text   // the path of the recording, and why the run failed
}

// area is the memory of a run, with the calls that have not been saved in the file yet. Processes can share the memory.
type area struct {
	options Options
	source  source
	memory  []byte
	*head   // in memory, the slots follow the head
	slots   []slot

	isInterrupted bool // whether goroutines are stopped during their calls by a timer of their own
}

func newArea(options Options, source source) *area {
	a := &area{options: options, source: source}
	words := make([]uint64, a.bytes()/8+1) // (words, so that the memory is aligned)
	a.lay(unsafe.Slice((*byte)(unsafe.Pointer(&words[0])), a.bytes()))
	return a
}

func (a *area) bytes() int { return int(unsafe.Sizeof(head{})) + manyPart*int(unsafe.Sizeof(slot{})) }

// lay lays out the area of a run in memory: the head, then the slots.
func (a *area) lay(memory []byte) {
	a.memory, a.head = memory, (*head)(unsafe.Pointer(&memory[0]))
	a.slots = unsafe.Slice((*slot)(unsafe.Pointer(&memory[unsafe.Sizeof(head{})])), manyPart)
}

func (a *area) saved() saved { return a.saves[atomic.LoadUint32(&a.save)] }

// lines returns the lines of the calls that have not been saved, and the pending calls, both sorted by start.
// Goroutines can begin and end calls while lines runs: a call that begins meanwhile is left out, and a call that ends
// meanwhile is pending.
func (a *area) lines() (lines string, underWay []slot) {
	now, since, of, begins := atomic.LoadUint32(&a.tickets), a.saved().moment, map[uint32]string{}, []uint32{}
	for i := range a.slots[:a.threads*a.rows()] {
		s := &a.slots[i]
		end, begin := atomic.LoadUint32(&s.end), atomic.LoadUint32(&s.begin)
		if end > now || end < begin { // (the slot of a pending call can still contain the end of an earlier call)
			end = 0
		}
		if begin > since && begin <= now {
			of[begin], begins = s.line(end, uint32(a.times)), append(begins, begin)
			if end == 0 {
				underWay = append(underWay, slot{begin: begin, thread: s.thread, call: s.call, key: s.key})
			}
		}
	}
	sort.Slice(begins, func(i, j int) bool { return begins[i] < begins[j] })
	var text strings.Builder
	for _, begin := range begins {
		text.WriteString(of[begin])
	}
	sort.Slice(underWay, func(i, j int) bool { return underWay[i].begin < underWay[j].begin })
	return text.String(), underWay
}

var words = []string{"add", "remove", "contains"}

// line returns the line of a call in the recording. The key in the line is the call's key number multiplied by times.
func (s *slot) line(end, times uint32) string {
	if end == 0 || s.reply == unknown {
		return fmt.Sprintf("call %d %s %d %d - -\n", s.thread, words[s.call], s.key*times, s.begin)
	}
	return fmt.Sprintf("call %d %s %d %d %d %t\n", s.thread, words[s.call], s.key*times, s.begin, end, s.reply == yes)
}

// ---- for the process that watches a run

// caller performs runs.
type caller interface {
	begin()          // must be called when the memory of a run is ready
	hasEnded() bool  // whether the run has ended
	trouble() string // the error, if the run has ended with an error
	stop()           // stops the run, and ends the child process if there is one
	close()          // frees the memory of the runs
}

// here performs runs in the current process. Goroutines that hang keep running.
type here struct{ *area }

func (h *here) begin() { go h.callAll() }

func (h *here) hasEnded() bool { return atomic.LoadUint32(&h.at) >= over }

func (h *here) trouble() string { return "" }

func (h *here) stop() { atomic.StoreUint32(&h.isStopping, 1) }

func (h *here) close() { h.stop() }

// made performs the run with the given seed. If the run was cut short, trouble is the reason. Unless until is zero, the
// run is cut short at the time until. The time between two polls counts as at most five milliseconds, so that a run
// that gets no processor time does not count as hung.
func (a *area) made(seed int64, s size, file string, by caller, until time.Time) (trouble string, err error) {
	for i := range a.memory {
		a.memory[i] = 0
	}
	a.head.seed, a.head.size = seed, s
	a.file.set(file)
	atomic.StoreUint32(&a.at, going)
	by.begin()
	last, seen, waited := time.Now(), uint32(0), time.Duration(0)
	for ; !by.hasEnded() && trouble == ""; time.Sleep(300 * time.Microsecond) {
		passed := time.Since(last)
		if longest := 5 * time.Millisecond; passed > longest {
			passed = longest
		}
		last, waited = time.Now(), waited+passed
		if now := atomic.LoadUint32(&a.tickets); now != seen {
			seen, waited = now, 0
		}
		if waited > time.Duration(a.options.Seconds)*time.Second || !until.IsZero() && last.After(until) {
			trouble = fmt.Sprintf(sayHung, a.options.Seconds)
		}
	}
	if trouble == "" {
		trouble = by.trouble()
	}
	at, isBegun := atomic.LoadUint32(&a.at), atomic.LoadUint32(&a.tickets) > 0
	if at >= failed {
		trouble = a.why.String()
	}
	if at == unmade {
		err = errors.New(trouble)
	} else if trouble != "" && !isBegun {
		err = fmt.Errorf(sayNotMade, trouble)
	}
	if trouble != "" {
		by.stop() // (otherwise a set that hung could continue while its run is judged)
	}
	return trouble, err
}

// ---- for the process that performs a run

// fail recovers from a panic and stores the panic's text. Only the text of the run's first panic is kept.
func (a *area) fail(as uint32, words string) {
	if why := recover(); why != nil && atomic.CompareAndSwapUint32(&a.isStopping, 0, 1) {
		a.why.set(fmt.Sprintf(words, fmt.Sprint(why)+place()))
		atomic.StoreUint32(&a.at, as)
	}
}

// place returns the place of a panic: the innermost call that is neither in Go's runtime nor in package judge.
func place() string {
	_, own, _, _ := runtime.Caller(0)
	folder := own[:strings.LastIndex(own, "/")+1]
	callers := make([]uintptr, 100)
	for frames := runtime.CallersFrames(callers[:runtime.Callers(2, callers)]); ; {
		frame, isMore := frames.Next()
		isOwn := strings.HasPrefix(frame.File, folder) && !strings.HasSuffix(frame.File, "_test.go")
		if frame.Function != "" && !strings.HasPrefix(frame.Function, "runtime.") && !isOwn {
			return fmt.Sprintf(" (%s:%d, in %s)", frame.File, frame.Line, frame.Function)
		}
		if !isMore {
			return ""
		}
	}
}

// waits waits until isDone returns true: polls awake times, then sleeps between polls. Returns false if the run was
// stopped.
func (a *area) waits(awake int, isDone func() bool) bool {
	for looks := 0; !isDone() && atomic.LoadUint32(&a.isStopping) == 0; looks++ {
		if looks >= awake {
			time.Sleep(20 * time.Microsecond)
		}
	}
	return atomic.LoadUint32(&a.isStopping) == 0
}

// meet waits until all goroutines have called meet, so that they continue at the same time. Polls without sleeping if
// there is a processor for each goroutine, unless an earlier call of meet lasted too long.
func (a *area) meet() bool {
	awake, count, looks := manyLongest, uint32(a.threads), 0
	if a.threads <= runtime.NumCPU() && atomic.LoadUint32(&a.isBusy) == 0 {
		awake = manyAwake
	}
	all := (atomic.AddUint32(&a.there, 1)-1)/count*count + count
	areThere := a.waits(awake, func() bool {
		looks++
		return atomic.LoadUint32(&a.there) >= all
	})
	if looks > awake+manyLongest {
		atomic.StoreUint32(&a.isBusy, 1)
	}
	return areThere
}

// stage has the set that the goroutines call. The race detector cannot tell from the numbers in shared memory that a
// set is created before it is called, but it sees the lock.
type stage struct {
	lock sync.Mutex
	set  Set
}

func (s *stage) put(set Set) {
	s.lock.Lock()
	defer s.lock.Unlock()
	s.set = set
}

func (s *stage) get() Set {
	s.lock.Lock()
	defer s.lock.Unlock()
	return s.set
}

// callAll creates the sets of a run, and makes the calls of all goroutines to them.
func (a *area) callAll() {
	var all sync.WaitGroup
	on := &stage{}
	for thread := 0; thread < a.threads; thread++ {
		all.Add(1)
		go func(thread int) {
			defer all.Done()
			defer a.fail(failed, sayThrew)
			a.callInRounds(on, thread)
		}(thread)
	}
	a.lead(on)
	all.Wait()
	atomic.CompareAndSwapUint32(&a.at, going, over)
}

func (a *area) newSet() (set Set) {
	defer a.fail(unmade, sayNotMade)
	if set = a.source.newSet(); set == nil {
		panic("it is nil")
	}
	return set
}

// lead creates the sets one after another. The goroutines call each set in parts, and after each part, lead saves the
// part's calls in the file.
func (a *area) lead(on *stage) {
	defer a.fail(failed, sayThrew)
	file, err := os.OpenFile(a.file.String(), os.O_WRONLY, 0)
	if err != nil {
		panic(err)
	}
	defer file.Close()
	left, isEndKnown := "", true
	a.saveLines(file, "listset-calls 1\n")
	for round := 0; round < a.rounds(); round++ {
		if round%a.parts() == 0 {
			set := a.newSet()
			if on.put(set); set == nil {
				return
			}
			if a.options.OpensWithKeys && !a.saveOpening(file, on.set, round) {
				return
			}
		}
		atomic.StoreUint32(&a.begun, uint32(round+1))
		if !a.waits(manyLongest, func() bool { return atomic.LoadUint32(&a.done) == uint32((round+1)*a.threads) }) {
			return
		}
		if (round+1)%a.parts() == 0 {
			lines, areKnown := a.linesOfKeys("key", on.set, round)
			left, isEndKnown = left+lines, isEndKnown && areKnown
		}
		if atomic.LoadUint32(&a.isStopping) != 0 { // (the run was cut short)
			return
		}
		lines, _ := a.lines()
		a.saveLines(file, lines)
	}
	if !isEndKnown {
		left = "cut\n"
	} else {
		left += "end\n"
	}
	a.write(file, left) // (these lines are not marked as saved, because the run can still be cut short)
}

func (a *area) write(file *os.File, lines string) {
	if _, err := file.WriteString(lines); err != nil {
		panic(err)
	}
}

// saveLines appends lines to the file and marks all calls so far as saved. No call is pending while saveLines runs.
func (a *area) saveLines(file *os.File, lines string) {
	a.write(file, lines)
	other := 1 - atomic.LoadUint32(&a.save)
	a.saves[other] = saved{a.saved().length + int64(len(lines)), atomic.LoadUint32(&a.tickets)}
	atomic.StoreUint32(&a.save, other) // (if the process ends before this step, its last calls are only in memory)
}

func (a *area) saveOpening(file *os.File, set Set, round int) bool {
	lines, areKnown := a.linesOfKeys("opening", set, round)
	if areKnown {
		a.saveLines(file, lines)
		return true
	}
	defer a.fail(unmade, sayNotMade)
	panic(fmt.Sprintf(sayNoOpening, mostAsked))
}

// number converts the index of a key to the number that is passed to the set.
func (a *area) number(key int) uint32 {
	if a.source.isOwn {
		return uint32(key)
	}
	return uint32(key * a.times)
}

// mostAsked is the maximum number of Contains calls made to find out whether a key is in the set at the start or at the
// end. A call is repeated while its outcome is unknown.
const mostAsked = 100

// linesOfKeys calls Contains for each key, and calls it again if the outcome is unknown. Returns a line for each key
// found, and whether the outcome became known for each key.
func (a *area) linesOfKeys(word string, set Set, round int) (lines string, areKnown bool) {
	areKnown = true
	for key := 0; key < a.keys; key++ {
		found := uint32(unknown)
		for asked := 0; found == unknown && asked < mostAsked; asked++ {
			found = reply(set, 2, a.number(key))
		}
		if found == yes {
			lines += fmt.Sprintf("%s %d\n", word, (round/a.parts()*a.keys+key)*a.times)
		}
		areKnown = areKnown && found != unknown
		atomic.AddUint32(&a.tickets, 1)
	}
	return lines, areKnown
}

// callInRounds makes the calls of one goroutine to the sets, part by part. A part consists of the calls between two
// saves.
func (a *area) callInRounds(on *stage, thread int) {
	draw, number, rows := rand.New(rand.NewSource(a.seed*64+int64(thread))), uint32(thread), a.rows()
	others, own := newPartners(a, thread), newStops(a, thread, a.isInterrupted)
	defer own.close()
	for round := 0; round < a.rounds(); round++ {
		if !a.waits(manyLongest, func() bool { return atomic.LoadUint32(&a.begun) > uint32(round) }) {
			return
		}
		set, mine := on.get(), a.slots[thread*rows:(thread+1)*rows]
		if left := a.calls - round%a.parts()*rows; left < rows {
			mine = mine[:left]
		}
		for i := range mine {
			if i%manyMeet == 0 {
				others.beginBlock()
			}
			if isMet := i > 0 && (i%manyMeet > 0 || a.meetsOnce); !isMet && !a.meet() {
				return
			}
			a.call(set, &mine[i], round/a.parts()*a.keys, &number, draw, others, own)
			if i+1 == len(mine) || (i+1)%manyMeet == 0 {
				others.endBlock()
			}
		}
		atomic.AddUint32(&a.done, 1)
	}
}

func (a *area) call(set Set, s *slot, ofSet int, number *uint32, draw *rand.Rand, others *partners, own *stops) {
	o := &a.options
	key, at := draw.Intn(a.keys), draw.Intn(o.Adds+o.Removes+o.Finds)
	if a.keys > 2*manyHot && draw.Intn(2) == 0 {
		key = draw.Intn(manyHot)
	}
	key = others.keyOr(key)
	s.thread, s.call, s.key = *number, 2, uint32(ofSet+key)
	if at < o.Adds {
		s.call = 0
	} else if at < o.Adds+o.Removes {
		s.call = 1
	}
	pause := 0
	if draw.Intn(100) < o.Pauses {
		pause = draw.Intn(manyLongest)
	}
	isMet := others.meet()
	for ; pause > 0 && !isMet; pause-- {
		atomic.LoadUint32(&a.tickets)
	}
	if !isMet {
		own.beforeCall(least(a.sets*a.calls, manyStopsPer))
	}
	atomic.StoreUint32(&s.begin, atomic.AddUint32(&a.tickets, 1))
	if isMet {
		others.delay()
	}
	s.reply = own.inCall(func() uint32 { return reply(set, s.call, a.number(key)) })
	atomic.StoreUint32(&s.end, atomic.AddUint32(&a.tickets, 1))
	if s.reply == unknown {
		*number += uint32(a.threads)
	}
}

func reply(set Set, call, key uint32) (answer uint32) {
	defer func() {
		if why := recover(); why == NotKnown {
			answer = unknown
		} else if why != nil {
			panic(why)
		}
	}()
	if call == 0 && set.Add(key) || call == 1 && set.Remove(key) || call == 2 && set.Contains(key) {
		return yes
	}
	return no
}
