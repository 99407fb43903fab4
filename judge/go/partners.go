package judge

import (
	"math/rand"
	"runtime"
	"sync/atomic"
	"time"
)

// partners lets two goroutines begin calls at the same time, to catch races that last only nanoseconds. On a busy
// machine, two goroutines seldom run at the same time. Therefore a goroutine polls for a partner before a call, and
// both goroutines continue when the partner polls too. Half of the calls then use two neighboring keys. The two keys
// change after every manyMeet calls. Only runs with an odd seed have partners, and only if Pauses is not 0.
type partners struct {
	*area
	thread                  int
	isOn                    bool
	draw, common            *rand.Rand // all goroutines draw the same numbers from common
	tries, blocks, firstKey int
	near                    int // the length of the delay before a call
}

func newPartners(a *area, thread int) *partners {
	p := &partners{area: a, thread: thread, tries: manyTries}
	p.draw, p.common = rand.New(rand.NewSource(^(a.seed*64 + int64(thread)))), rand.New(rand.NewSource(a.seed))
	p.isOn = a.pairs() && a.options.Pauses > 0
	return p
}

// pairs returns whether two goroutines begin their calls at the same time in this run.
func (a *area) pairs() bool {
	return a.seed%2 == 1 && !a.meetsOnce && a.threads > 1 && runtime.NumCPU() > 1
}

func (p *partners) beginBlock() { p.firstKey = p.common.Intn(p.keys) }

func (p *partners) endBlock() {
	p.blocks++
	atomic.AddUint32(&p.ended, 1)
}

// isAlone returns whether all other goroutines have completed the current block of calls.
func (p *partners) isAlone() bool {
	return int(atomic.LoadUint32(&p.ended)) >= (p.blocks+1)*p.threads-1
}

func (p *partners) keyOr(other int) int {
	if p.isOn && p.draw.Intn(2) == 0 {
		return (p.firstKey + p.draw.Intn(2)) % p.keys
	}
	return other
}

// polls waits for at most manyAlert microseconds, and returns whether a second goroutine polled at the same time.
// Never sleeps, because a sleeping goroutine would wake up too late.
func (p *partners) polls() bool {
	mine := uint32(p.thread + 1)
	if other := atomic.LoadUint32(&p.alert); other != 0 {
		return atomic.CompareAndSwapUint32(&p.alert, other, 0)
	}
	if !atomic.CompareAndSwapUint32(&p.alert, 0, mine) {
		return false
	}
	for until := time.Now().Add(manyAlert * time.Microsecond); time.Now().Before(until); {
		for looks := 0; looks < manyLongest; looks++ {
			if atomic.LoadUint32(&p.alert) != mine {
				return true
			}
		}
	}
	return !atomic.CompareAndSwapUint32(&p.alert, mine, 0)
}

// meet waits for a partner. A goroutine stops waiting for partners after manyTries waits without one. Returns whether
// two goroutines can now begin their calls.
func (p *partners) meet() bool {
	if p.isOn {
		p.near = p.draw.Intn(manyNear)
	}
	for p.isOn && p.tries > 0 && !p.isAlone() && atomic.LoadUint32(&p.isStopping) == 0 {
		if p.polls() {
			return true
		}
		p.tries--
		time.Sleep(20 * time.Microsecond)
	}
	return false
}

// delay delays a call by up to some hundred nanoseconds. Without the delay, the same one of two partners would always
// begin first.
func (p *partners) delay() {
	for left := p.near; left > 0; left-- {
		atomic.LoadUint32(&p.isStopping)
	}
}
