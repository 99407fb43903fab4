package judge

import (
	"errors"
	"fmt"
	"math/rand"
	"os"
	"runtime"
	"strconv"
	"strings"
	"sync"
	"sync/atomic"
	"testing"
	"time"
)

// right is a map with a lock.
type right[K comparable] struct {
	lock sync.Mutex
	keys map[K]bool
}

func newRight[K comparable]() *right[K] { return &right[K]{keys: map[K]bool{}} }

func newMySet() *right[uint32] { return newRight[uint32]() }

func (r *right[K]) turned(key K, to bool) bool {
	r.lock.Lock()
	defer r.lock.Unlock()
	was := r.keys[key]
	r.keys[key] = to
	return was != to
}

func (r *right[K]) Add(key K) bool    { return r.turned(key, true) }
func (r *right[K]) Remove(key K) bool { return r.turned(key, false) }
func (r *right[K]) Contains(key K) bool {
	r.lock.Lock()
	defer r.lock.Unlock()
	return r.keys[key]
}

// fault returns the name of the set's bug in the variable SET. `E later` stands for the bug E if the file `judged`
// exists, otherwise for `finds all`.
func fault() string {
	name := os.Getenv("SET")
	if !strings.HasSuffix(name, " later") {
		return name
	}
	if _, err := os.Stat("judged"); err != nil {
		return "finds all"
	}
	return strings.TrimSuffix(name, " later")
}

// set is a set that is correct except for the bug that fault returns.
type set struct {
	*right[uint32]
	is    string
	calls int32
	parts sync.Map
}

func newSet() *set {
	made := &set{right: newMySet(), is: fault()}
	if made.is == "opens" {
		made.keys[1], made.keys[3] = true, true
	} else if made.is == "not made" {
		panic("no room")
	} else if made.is == "ends" {
		time.AfterFunc(time.Duration(rand.New(rand.NewSource(time.Now().UnixNano())).Intn(40000))*time.Microsecond, func() { os.Exit(3) })
	}
	return made
}

// part returns the set that contains key: the whole set or, with the bug "first use", a set for key alone. The first
// call with key creates the set for key, and two overlapping calls can both create one.
func (s *set) part(key uint32) *right[uint32] {
	if s.is != "first use" {
		return s.right
	}
	if found, is := s.parts.Load(key); is {
		return found.(*right[uint32])
	}
	made := newMySet()
	s.parts.Store(key, made)
	return made
}

// place returns the key that the set uses instead of key. With "collides", the set uses the remainder modulo 64, so
// some different keys are treated as one key.
func (s *set) place(key uint32) uint32 {
	if s.is == "collides" {
		return key % 64
	}
	return key
}

// called makes a call. With "not known" or "again", loses one reply in fifty. With "not known", the outcome of the call
// is then unknown; with "again", the call is repeated.
func (s *set) called(call func(uint32) bool, key uint32) bool {
	reply := call(s.place(key))
	if s.is != "not known" && s.is != "again" || atomic.AddInt32(&s.calls, 1)%50 > 0 {
		return reply
	}
	if s.is == "not known" {
		panic(NotKnown)
	}
	return call(key)
}

// stop hangs, crashes, exits, panics or naps in a late remove, while the lock is held. The variable SET selects which.
func (s *set) stop() {
	s.lock.Lock()
	defer s.lock.Unlock()
	s.calls++
	switch {
	case s.is == "hangs" && s.calls == 30:
		select {}
	case s.is == "exits" && s.calls == 30:
		os.Exit(3)
	case s.is == "throws" && s.calls == 30:
		panic("no memory")
	case s.is == "naps" && s.calls == 30:
		time.Sleep(1200 * time.Millisecond)
	case s.is == "crashes" && s.calls == 30 || s.is == "crashes late" && s.calls == 10000:
		new(sync.Mutex).Unlock()
	}
}

func (s *set) Add(key uint32) bool {
	if s.is == "check then act" {
		isNew := !s.Contains(key)
		runtime.Gosched()
		return isNew && (s.right.Add(key) || true)
	}
	return s.called(s.part(key).Add, key)
}

func (s *set) Remove(key uint32) bool {
	if s.is != "not known" && s.is != "again" && s.is != "finds all late" {
		s.stop()
	}
	return s.called(s.part(key).Remove, key)
}

func (s *set) Contains(key uint32) bool {
	if s.is == "loses contains" {
		panic(NotKnown)
	}
	if s.is == "finds all" || s.is == "finds all late" && atomic.AddInt32(&s.calls, 1) > 8000 {
		return true
	}
	return s.part(key).Contains(s.place(key))
}

// told replaces methods of *testing.T with methods that print the kind and the text of a test's result.
type told struct{ *testing.T }

func (told) Log(verdict ...any) { fmt.Printf("verdict: ok\n%v\n", verdict[0]) }

func (told) Skip(why ...any) { fmt.Printf("verdict: skipped\n%v\n", why[0]) }

func (told) Fatal(why ...any) {
	kind, err := "none", why[0].(error)
	var refused *NotLinearizable
	var cut *CutShort
	if errors.As(err, &refused) {
		kind = "refused"
	} else if errors.As(err, &cut) {
		kind = "cut short"
	} else if strings.Contains(err.Error(), "at_least") && !strings.HasPrefix(err.Error(), "at_least") {
		kind = "too few"
	}
	fmt.Printf("verdict: %s\n%v\n", kind, err)
}

func howOf(words string) Options {
	how := DefaultOptions()
	seed, ownProcess, opens := int(how.Seed), 1, 0
	numbers := map[string]*int{"threads": &how.Threads, "calls": &how.Calls, "keys": &how.Keys, "pauses": &how.Pauses, "runs": &how.Runs,
		"seed": &seed, "seconds": &how.Seconds, "within": &how.Within, "at_least": &how.AtLeast, "adds": &how.Adds, "removes": &how.Removes, "finds": &how.Finds,
		"own_process": &ownProcess, "opens_with_keys": &opens}
	for _, word := range strings.Fields(words) {
		if name, given, _ := strings.Cut(word, "="); name == "record" {
			how.Record = given
		} else {
			*numbers[name], _ = strconv.Atoi(given)
		}
	}
	how.Seed, how.InProcess, how.OpensWithKeys = int64(seed), ownProcess == 0, opens == 1
	return how
}

// TestSet judges the set that the variable SET names, with the options in HOW, such as "threads=4 runs=2", once or
// TESTS times.
func TestSet(t *testing.T) {
	how := howOf(os.Getenv("HOW"))
	switch os.Getenv("SET") {
	case "texts":
		CheckKeys(told{t}, newRight[string], func(n uint32) string { return fmt.Sprint("key ", n) }, how)
	case "twice":
		CheckKeys(told{t}, newRight[string], func(n uint32) string { return fmt.Sprint("key ", n/2) }, how)
	default:
		Check(told{t}, newSet, how)
		for tests, _ := strconv.Atoi(os.Getenv("TESTS")); tests > 1; tests-- {
			Check(told{t}, newSet, how)
		}
	}
}

func TestACheckThatIsNotComeToAgain(t *testing.T) {
	if os.Getenv(checkName) == "" {
		Check(told{t}, newMySet)
	}
}
