// Package judge tests whether your own concurrent set is linearizable, in one line of a test:
//
//	func TestIsLinearizable(t *testing.T) { judge.Check(t, NewMySet) }
//
// MySet has Add, Remove and Contains. Goroutines call new sets, and the start and the end of each call are recorded. A
// judge decides whether some order of the calls explains their replies.
//
// The judge is liblistset in a test with the tag `listset` (requires cgo and pkg-config). Otherwise it is the program
// named by the environment variable LISTSET or, if that is not set, `listset` in PATH. If LISTSET names a listset.js,
// node runs the file. If LISTSET is `skip`, the test is skipped.
//
// On Unix, Check starts a separate process for the set. The process runs this test again up to Check. If the set
// crashes or hangs in the process, the calls so far are judged.
package judge

import (
	"errors"
	"fmt"
	"math"
	"os"
	"runtime"
	"strconv"
	"strings"
	"sync"
	"time"
)

// SetOf is a set with keys of type K that many goroutines call at the same time. A call panics with NotKnown if its
// outcome is unknown, for example after a timeout.
type SetOf[K any] interface {
	Add(key K) bool
	Remove(key K) bool
	Contains(key K) bool
}

// Set is a set of numbers.
type Set = SetOf[uint32]

type notKnown struct{}

// NotKnown is the value of the panic if the outcome of a call is unknown.
var NotKnown any = notKnown{}

// Options are the options of a test. All of them are checked before the first set is created. The runs of a test cycle
// through seven presets (built-in numbers of threads, calls and keys).
type Options struct {
	Threads       int    // the number of goroutines that call a set at the same time: 1 to 64; 0 selects the preset's number
	Calls         int    // the number of calls of each goroutine: at least 1, at most 1,000,000,000 for all together; 0 selects the preset's number. After every 20,000 calls, all goroutines wait until these calls are in the file
	Keys          int    // the number of keys: 1 to 1,048,576; 0 selects the preset's number; with more than eight keys, half of the calls use the first four
	Pauses        int    // how often a goroutine pauses before a call for a few microseconds, in percent: 0 to 100. Unless 0, goroutines in the set's own process are also stopped during calls, on Linux by the signal SIGRTMAX
	Runs          int    // the number of runs: 1 to 1,000,000; a run calls one set, or several new sets one after another
	Seed          int64  // the random seed for the calls, keys and pauses of the first run. Each later run uses the next seed. If the first seed is not 1, no further runs follow a refusal
	Seconds       int    // if no call begins or ends for this many seconds, a run is considered hung and is cut short: 1 to 3,600
	Within        int    // after this many seconds, the test begins no new run: 1 to 604,800
	AtLeast       int    // the test fails if less than this percentage of the calls overlap a call that adds or removes the same key
	Adds          int    // the relative frequency of Add among the calls
	Removes       int    // the relative frequency of Remove among the calls
	Finds         int    // the relative frequency of Contains among the calls
	InProcess     bool   // calls sets in this process, and crashes or hangs with a set; useful for debuggers and coverage
	OpensWithKeys bool   // calls Contains for each key before all other calls to record the opening keys
	Record        string // the folder for the recordings of all runs. If empty, only the recording of a failed run is kept, in the folder that LISTSET_RECORD names, or else in the folder for temporary files
}

// DefaultOptions returns the options for 20 runs with the presets (numbers of threads, sets, calls and keys).
func DefaultOptions() Options {
	return Options{Pauses: 20, Runs: 20, Seed: 1, Seconds: 30, Within: manyWithin, Adds: 1, Removes: 1, Finds: 1}
}

func (o Options) check() error {
	or1 := func(given int) int {
		if given == 0 {
			return 1
		}
		return given
	}
	shares := o.Adds + o.Removes + o.Finds
	if o.Adds < 0 || o.Removes < 0 || o.Finds < 0 {
		shares = -1
	}
	given := []int{or1(o.Threads), or1(o.Threads) * or1(o.Calls), or1(o.Keys), o.Pauses, o.Runs, o.Seconds, o.Within, o.AtLeast, shares}
	for i, its := range ranges {
		if given[i] < its.least || given[i] > its.most {
			return fmt.Errorf(sayRange, its.name, given[i], its.least, its.most)
		}
	}
	return nil
}

// byEnvironment applies the environment variables. If LISTSET_SECONDS is set, runs are repeated for that many seconds,
// with seeds that count up from the current time. LISTSET_SEED is the first seed.
func (o Options) byEnvironment() (Options, error) {
	seconds, err := numberOf("LISTSET_SECONDS", 0, 1, int64(ranges[6].most))
	if seconds > 0 {
		o.Within, o.Runs, o.Seed = int(seconds), ranges[4].most, time.Now().Unix()
	}
	if err == nil {
		o.Seed, err = numberOf("LISTSET_SEED", o.Seed, 0, math.MaxUint32)
	}
	return o, err
}

// numberOf returns the number in an environment variable, or other if the variable is not set.
func numberOf(variable string, other, least, most int64) (int64, error) {
	text := os.Getenv(variable)
	if text == "" {
		return other, nil
	}
	found, err := strconv.ParseInt(text, 10, 64)
	if err != nil || found < least || found > most {
		return other, fmt.Errorf(sayNumber, variable, text, least, most)
	}
	return found, nil
}

// shape has the name and the sizes of a run's preset, as modified by the options.
type shape struct {
	name string
	size
}

// size has the sizes of a run: the number of goroutines, of new sets used one after another, of calls per goroutine and
// set, and of keys. The keys are the multiples of times. Goroutines wait for each other after every manyMeet calls or,
// if meetsOnce, only at the beginning.
type size struct {
	threads, sets, calls, keys, times int
	meetsOnce                         bool
}

// longer returns the sizes of a run with manyLonger times as many calls. A run of several sets gets more sets.
func (s shape) longer() shape {
	if s.sets > 1 {
		s.sets *= manyLonger
	} else {
		s.calls *= manyLonger
	}
	return s
}

// rows returns the maximum number of calls of a goroutine between two saves of the recording.
func (s size) rows() int {
	if most := manyPart / s.threads; most < s.calls {
		return most
	}
	return s.calls
}

func (s size) parts() int { return (s.calls-1)/s.rows() + 1 }

func (s size) rounds() int { return s.sets * s.parts() }

func (s size) allCalls() int { return s.threads * s.sets * s.calls }

type limits struct {
	name        string
	least, most int
}

// shapeOf returns the preset that belongs to seed, modified by the options.
func (o Options) shapeOf(seed int64) shape {
	count := int64(len(presets))
	s := presets[((seed-1)%count+count)%count]
	if o.Threads > 0 {
		s.threads = o.Threads
	}
	if o.Keys > 0 {
		s.keys, s.times = o.Keys, 1
	}
	if o.Calls > 0 {
		s.calls, s.sets = o.Calls, 1
	}
	if o.OpensWithKeys {
		s.calls, s.sets = s.sets*s.calls, 1
	}
	return s
}

// madeHarder returns the part of the message about a run whose sizes were changed because few calls overlapped. Returns
// an empty string if the run has the sizes of its preset.
func (o Options) madeHarder(seed int64, s size) string {
	first := o.shapeOf(seed)
	if s.threads == first.threads && s.calls == first.calls && s.keys == first.keys {
		return ""
	}
	return sayMadeHarder
}

// harder returns the sizes of a run with more overlapping calls: more goroutines (possibly more than processors), fewer
// keys, and twice as many calls in total. Does not change numbers that the options set. The goroutines wait for each
// other only at the beginning, because on a busy machine a waiting goroutine is not interrupted during a call.
func (o Options) harder(s shape) shape {
	before := s.threads
	if o.Threads == 0 {
		s.threads = least(most(2*s.threads, runtime.NumCPU()+2), 64)
	}
	if o.Calls == 0 {
		s.calls = 2*s.calls*before/s.threads + 1
	}
	if o.Keys == 0 && s.keys > 1 {
		s.keys /= 2
	}
	s.meetsOnce = true
	return s
}

func least(a, b int) int {
	if a < b {
		return a
	}
	return b
}

func most(a, b int) int {
	if a > b {
		return a
	}
	return b
}

// most returns the largest value that the function of returns for the sizes of a preset, as modified by the options.
func (o Options) most(of func(size) int) (most int) {
	for i := range presets {
		if its := of(o.shapeOf(int64(i + 1)).size); its > most {
			most = its
		}
	}
	return most
}

// Verdict is the result of a successful test: some order explains each run. Overlapped is the number of calls that
// overlapped a change of their key, as counted by the judge. Judge is the judge's name, and whether the judge states
// that it is proved. FewerRuns is the part of the text about runs that were not performed because of the option Within;
// it is empty if all runs were performed. String formats the verdict.
type Verdict struct {
	Calls, Overlapped int
	Judge             string
	FewerRuns         string
}

func isFew(overlapped, calls int) bool { return overlapped*100 < calls*manyEnough }

func (v Verdict) String() string {
	if v.Judge == "" {
		return saySkipped
	}
	text := sayOk
	if isFew(v.Overlapped, v.Calls) {
		text = sayFew
	}
	return fmt.Sprintf(text, v.Calls, v.Overlapped) + v.FewerRuns + "; judge: " + v.Judge
}

// Failed is a failed run: its preset, the judge's output, the file with the run's recording, the judge, and the complete
// message.
type Failed struct {
	Seed                          int64
	Name, Said, File, Judge, Text string
}

func (f *Failed) Error() string { return f.Text }

// NotLinearizable is the error if no order explains a run. CutShort is the error if the set crashed, hung or panicked in a
// run; the run's earlier calls were judged. Any other error means that nothing is known about the set: an option is out of
// range, no set could be created, too few calls overlapped, or no judge was found.
type NotLinearizable struct{ Failed }

type CutShort struct{ Failed }

// Skipped is the error that Judge returns if LISTSET is `skip`.
var Skipped = errors.New(saySkipped)

// Test has the methods of *testing.T that Check needs.
type Test interface {
	Helper()
	Name() string
	Cleanup(func())
	Log(...any)
	Skip(...any)
	Fatal(...any)
}

// Check judges the sets that newSet creates. Fails the test if no order explains a run, or if the set crashes or hangs.
// Uses DefaultOptions unless options contains an Options. The set gets a separate process. The process runs the test
// from its beginning up to the call to Check, and skips earlier calls to Check.
func Check[S Set](t Test, newSet func() S, options ...Options) {
	t.Helper()
	check(t, func(int) (source, error) { return numbers(newSet), nil }, options)
}

// CheckKeys is like Check, but for a set with keys of type K. key must return a different key for each number.
func CheckKeys[K comparable, S SetOf[K]](t Test, newSet func() S, key func(uint32) K, options ...Options) {
	t.Helper()
	check(t, func(keys int) (source, error) { return ofKeys(newSet, key, keys) }, options)
}

// Judge judges the sets that newSet creates, in the current process.
func Judge[S Set](newSet func() S, options Options) (Verdict, error) {
	return judged(options, func(int) (source, error) { return numbers(newSet), nil }, "", nil)
}

func check(t Test, of func(keys int) (source, error), options []Options) {
	t.Helper()
	name := nameOf(t)
	if mine, isChild := os.LookupEnv(checkName); isChild && mine != name {
		return
	}
	options = append(options, DefaultOptions())
	if options[0].InProcess {
		name = ""
	}
	limited, _ := t.(interface{ Deadline() (time.Time, bool) })
	verdict, err := judged(options[0], of, name, limited)
	if len(options) > 2 {
		err = fmt.Errorf("Check takes one Options, and was given %d", len(options)-1)
	}
	if err == Skipped {
		t.Skip(err)
	} else if err != nil {
		t.Fatal(err)
	} else {
		t.Log(verdict)
	}
}

// checkName is an environment variable of a child process: the name of the call to Check that started the process.
const checkName = "LISTSET_CHECK"

var (
	checks = map[string]int{} // the number of Checks of each running test
	lock   sync.Mutex
)

// nameOf returns the name of the test, and the number of the current call to Check in the test.
func nameOf(t Test) string {
	lock.Lock()
	defer lock.Unlock()
	name := t.Name()
	if checks[name]++; checks[name] == 1 {
		t.Cleanup(func() {
			lock.Lock()
			defer lock.Unlock()
			delete(checks, name)
		})
	}
	return fmt.Sprintf("%s#%d", name, checks[name])
}

// source creates sets of numbers, and describes the key that belongs to a number.
type source struct {
	newSet func() Set
	shown  func(number uint32) string
	isOwn  bool // whether the test has a function that converts numbers to keys
}

func numbers[S Set](newSet func() S) source {
	return source{func() Set { return newSet() }, func(n uint32) string { return fmt.Sprint(n) }, false}
}

// keyed is a set with keys of type K that is called with numbers, and converts the numbers to keys.
type keyed[K any] struct {
	set  SetOf[K]
	keys []K
}

func (k keyed[K]) Add(number uint32) bool      { return k.set.Add(k.keys[number]) }
func (k keyed[K]) Remove(number uint32) bool   { return k.set.Remove(k.keys[number]) }
func (k keyed[K]) Contains(number uint32) bool { return k.set.Contains(k.keys[number]) }

func ofKeys[K comparable, S SetOf[K]](newSet func() S, key func(uint32) K, count int) (source, error) {
	keys, seen := make([]K, count), map[K]int{}
	shown := func(n uint32) string { return fmt.Sprintf("%#v", keys[n]) }
	for number := range keys {
		keys[number] = key(uint32(number))
		if old, is := seen[keys[number]]; is {
			return source{}, fmt.Errorf(sayTwice, shown(uint32(number)), old, number)
		}
		seen[keys[number]] = number
	}
	return source{func() Set { return keyed[K]{newSet(), keys} }, shown, true}, nil
}

// tester is the state of a test. Runs are judged one after another. No run starts after the time until.
type tester struct {
	options Options
	area    *area
	caller  caller
	by      *judgeFound
	until   time.Time
}

// endsBefore shortens a test so that it ends before go test would stop it: a minute earlier or, if that is later, after
// three quarters of the remaining time.
func (o Options) endsBefore(limited interface{ Deadline() (time.Time, bool) }) Options {
	if limited == nil {
		return o
	}
	if end, isLimited := limited.Deadline(); isLimited {
		left := int(time.Until(end).Seconds())
		if usable := most(1, most(left-60, left*3/4)); usable < o.Within {
			fmt.Fprintf(os.Stderr, "listset: makes runs for %d s, not for %d s, because go test stops in %d s: use go test -timeout 0\n", usable, o.Within, left)
			o.Within = usable
		}
	}
	return o
}

// judged judges one run after another, in a child process for the call to Check named name, or in the current process
// if name is empty. If limited is not nil, the runs end before its deadline.
func judged(options Options, of func(keys int) (source, error), name string, limited interface{ Deadline() (time.Time, bool) }) (verdict Verdict, err error) {
	if err = options.check(); err != nil {
		return verdict, err
	}
	if os.Getenv("LISTSET") == "skip" && os.Getenv("CI") != "" {
		return verdict, errors.New(sayNotInCi)
	} else if os.Getenv("LISTSET") == "skip" {
		return verdict, Skipped
	}
	if options, err = options.byEnvironment(); err != nil {
		return verdict, err
	}
	options = options.endsBefore(limited)
	its, err := of(options.most(func(s size) int { return s.keys }))
	if err != nil {
		return verdict, err
	}
	t := &tester{options: options, area: newArea(options, its)}
	t.caller = &here{t.area}
	if name != "" {
		if t.caller, err = inChild(name, t.area); err != nil {
			return verdict, err
		}
	}
	defer t.caller.close()
	if t.by, err = findJudge(); err != nil {
		return verdict, err
	}
	return t.all()
}

// all performs the requested runs, each up to three times, and then more runs as long as few calls have overlapped
// other calls.
func (t *tester) all() (verdict Verdict, err error) {
	verdict.Judge = t.by.String()
	began, o := time.Now(), t.options
	t.until = began.Add(time.Duration(o.Within) * time.Second)
	run := func(seed int64, s shape) (isFewMet bool) {
		var met int
		met, err = t.judgedRun(seed, s)
		verdict.Calls, verdict.Overlapped = verdict.Calls+s.allCalls(), verdict.Overlapped+met
		return err == nil && isFew(met, s.allCalls())
	}
	seed := o.Seed
	for ; err == nil && seed < o.Seed+int64(o.Runs) && (seed == o.Seed || isWithin(began, o.Within)); seed++ {
		s := o.shapeOf(seed)
		for tries := 0; run(seed, s) && tries < manyHarder && isWithin(began, manyPatience); tries++ {
			s = o.harder(s)
		}
	}
	made := seed - o.Seed
	for end := time.Now(); err == nil && isFew(verdict.Overlapped, verdict.Calls) && isWithin(began, o.Within) && isWithin(end, manyPatience); seed++ {
		run(seed, o.harder(o.harder(o.shapeOf(seed))))
	}
	if err != nil {
		return verdict, err
	}
	verdict.FewerRuns = o.fewerRuns(made)
	if isFew(verdict.Overlapped, verdict.Calls) {
		fmt.Fprintln(os.Stderr, verdict) // (go test can hide the log of a test that passes)
	}
	if verdict.Overlapped*100 < verdict.Calls*o.AtLeast {
		err = fmt.Errorf(sayTooFew, verdict.Overlapped, verdict.Calls, o.AtLeast)
	}
	return verdict, err
}

func isWithin(since time.Time, seconds int) bool {
	return time.Since(since) < time.Duration(seconds)*time.Second
}

// fewerRuns returns the part of the message about runs that were not performed because time ran out. Returns an empty
// string if all runs were performed, or if LISTSET_SECONDS is set (the number of runs is then not fixed).
func (o Options) fewerRuns(made int64) string {
	if made == int64(o.Runs) || os.Getenv("LISTSET_SECONDS") != "" {
		return ""
	}
	return fmt.Sprintf(sayFewerRuns, made, o.Runs, o.Within)
}

// passedBefore returns the part of the message that names the presets of the earlier runs, which all passed.
func (o Options) passedBefore(seed int64) string {
	var names []string
	for it := o.Seed; it < seed && len(names) < len(presets); it++ {
		names = append(names, o.shapeOf(it).name)
	}
	if names == nil {
		return ""
	}
	return fmt.Sprintf(sayPassedBefore, strings.Join(names, ", "))
}

// judgedRun performs a run and judges its recording. Returns the number of calls that overlapped a change of their key.
func (t *tester) judgedRun(seed int64, s shape) (int, error) {
	overlapped, first, err := t.outcome(seed, s, time.Time{})
	if first == nil {
		return overlapped, err
	}
	best, refusedOf := first, ""
	if !first.isCutShort {
		best, refusedOf = t.clearest(first, s)
	}
	failed := t.failed(best, s, seed, refusedOf)
	best.close()
	if best.isCutShort {
		return 0, &CutShort{failed}
	}
	return 0, &NotLinearizable{failed}
}

// outcome performs a run and judges its recording. Returns the number of calls that overlapped a change of their key,
// or the failed run with its recording still open. Unless until is zero, the run is cut short at the time until.
func (t *tester) outcome(seed int64, s shape, until time.Time) (overlapped int, failed *failedRun, err error) {
	r, err := newRecording(seed, t.options.Record)
	if err != nil {
		return 0, nil, err
	}
	defer func() {
		if failed == nil {
			r.close()
		}
	}()
	if t.area.source.isOwn {
		s.times = 1
	}
	trouble, err := t.area.made(seed, s.size, r.file.Name(), t.caller, until)
	if err != nil {
		return 0, nil, err
	}
	return r.judged(t.by, t.area, trouble)
}

// isReplay returns whether the test repeats a run: its seed is from LISTSET_SEED, or the option Seed is not 1.
func (o Options) isReplay() bool {
	return os.Getenv("LISTSET_SEED") != "" || o.Seed != DefaultOptions().Seed && os.Getenv("LISTSET_SECONDS") == ""
}

// clearest performs longer runs with the preset of a refused run and later seeds, until a run cannot be completed. The
// longer runs begin and end within manyFurtherFor seconds, or within manyFurtherMost seconds while the best refusal
// reports fewer than manyClear contradictions. Both times are shorter if the test's own time limits are short. It
// returns the run whose refusal reports the most contradictions, and the part of the message that counts the refused
// runs.
func (t *tester) clearest(first *failedRun, s shape) (*failedRun, string) {
	if _, isHere := t.caller.(*here); isHere || t.options.isReplay() {
		return first, ""
	}
	tenths := least(10*manyFurtherFor, least(t.options.Seconds, t.options.Within))
	begun, most := time.Now(), time.Duration(tenths)*time.Second/10
	best, refused, runs := first, 1, 1
	for runs <= manyFurther {
		end := begun.Add(most)
		if best.contradictions() < manyClear {
			end = begun.Add(most * manyFurtherMost / manyFurtherFor)
		}
		if end.After(t.until) {
			end = t.until
		}
		if !time.Now().Before(end) {
			break
		}
		_, next, err := t.outcome(first.seed+int64(runs*len(presets)), s.longer(), end)
		if next != nil && next.isCutShort {
			next.close()
			break
		}
		if err != nil {
			break
		}
		runs++
		if next == nil {
			continue
		}
		refused++
		if next.contradictions() > best.contradictions() {
			best, next = next, best
		}
		next.close()
	}
	if runs == 1 {
		return best, ""
	}
	return best, fmt.Sprintf(sayRefusedOf, refused, runs)
}
