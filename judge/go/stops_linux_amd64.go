//go:build !listset

package judge

import (
	"math/rand"
	"sync/atomic"
	"syscall"
	"unsafe"
)

// stopped has the fields that the signal handler onTimer reads and writes. onTimer is written in assembly, because Go
// would run a handler written in Go on another thread, which cannot stop this one. onTimer knows the offsets of the
// fields.
type stopped struct {
	isInCall uint32 // whether the goroutine is in a call to the set; if not, a signal only sets isMissed
	isMissed uint32
	looks    uint32  // the maximum number of sleeps
	many     uint32  // by how much tickets must increase to end the sleep
	tickets  *uint32 // counts the starts and ends of all calls
	sleep    syscall.Timespec
}

// threadStops has an element for each goroutine. A signal can arrive after the end of a run, so elements are never freed.
var threadStops [64]stopped

// stops stops the thread of a goroutine during some calls, with a timer that sends a signal. The stopped thread sleeps
// for a microsecond. On a busy machine, it sleeps repeatedly, at most manyPatient times, until other goroutines have
// made calls. If the signal arrives between two calls, it has no effect, and the timer is started again.
type stops struct {
	*area
	its    *stopped
	timers map[int]int32 // a timer for each thread that the goroutine has had
	isOn   bool
	draw   *rand.Rand
}

const signalOfTimer = 64 // (SIGRTMAX: Go's own handler for it only notifies os/signal)

func onTimer()

func afterSignal()

func handlers() (handler, restorer uintptr)

// newStops returns the stops for a goroutine. They stop the goroutine's thread only if isAsked is true.
func newStops(a *area, thread int, isAsked bool) *stops {
	s := &stops{area: a, its: &threadStops[thread], timers: map[int]int32{}, draw: rand.New(rand.NewSource(a.seed*64 + int64(thread)))}
	s.its.many, s.its.tickets, s.its.sleep = manyMany, &a.tickets, syscall.Timespec{Nsec: 1000}
	handler, restorer := handlers()
	const onStack, restart, hasRestorer, hasInfo = 0x08000000, 0x10000000, 0x04000000, 4
	action := [4]uintptr{handler, onStack | restart | hasRestorer | hasInfo, restorer, ^uintptr(0)}
	if isAsked {
		_, _, err := syscall.RawSyscall6(syscall.SYS_RT_SIGACTION, signalOfTimer, uintptr(unsafe.Pointer(&action)), 0, 8, 0, 0)
		s.isOn = err == 0
	}
	return s
}

// timer returns the timer of the goroutine's current thread.
func (s *stops) timer() (timer int32, isMade bool) {
	thread := syscall.Gettid()
	if timer, isMade = s.timers[thread]; isMade {
		return timer, true
	}
	event := struct {
		value                  *stopped
		signal, notify, thread int32
		rest                   [11]int32
	}{s.its, signalOfTimer, 4, int32(thread), [11]int32{}} // (4 is SIGEV_THREAD_ID)
	_, _, err := syscall.RawSyscall(syscall.SYS_TIMER_CREATE, 1, uintptr(unsafe.Pointer(&event)), uintptr(unsafe.Pointer(&timer))) // (1 is CLOCK_MONOTONIC)
	if err == 0 {
		s.timers[thread] = timer
	}
	return timer, err == 0
}

// beforeCall starts the timer before about manyStops of calls calls. After a signal that arrived between two calls, it
// starts the timer before one call in manyAgain instead. It must be called before each of the calls calls.
func (s *stops) beforeCall(calls int) {
	if !s.isOn {
		return
	}
	starts := manyStops
	if atomic.LoadUint32(&s.its.isMissed) == 1 {
		starts = most(calls/manyAgain, manyStops)
	}
	if s.draw.Intn(calls) >= starts {
		return
	}
	atomic.StoreUint32(&s.its.isMissed, 0)
	s.its.looks = 1
	if atomic.LoadUint32(&s.isBusy) == 1 {
		s.its.looks = manyPatient
	} else if s.meetsOnce {
		s.its.looks = manyPatient / 4
	}
	in := [4]int64{0, 0, 0, int64(1 + s.draw.Intn(manySoon))}
	if timer, isMade := s.timer(); isMade {
		syscall.RawSyscall6(syscall.SYS_TIMER_SETTIME, uintptr(timer), 0, uintptr(unsafe.Pointer(&in)), 0, 0, 0)
	}
}

// inCall makes a call to the set. A signal stops the thread only during inCall.
func (s *stops) inCall(call func() uint32) uint32 {
	atomic.StoreUint32(&s.its.isInCall, 1)
	defer atomic.StoreUint32(&s.its.isInCall, 0) // (the call can panic)
	return call()
}

func (s *stops) close() {
	for _, timer := range s.timers {
		syscall.RawSyscall(syscall.SYS_TIMER_DELETE, uintptr(timer), 0, 0)
	}
}

// canStop reports whether stops works on this platform.
const canStop = true
