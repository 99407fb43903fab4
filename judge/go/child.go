//go:build linux || darwin || freebsd || netbsd || openbsd

package judge

import (
	"bytes"
	"errors"
	"fmt"
	"io"
	"math/rand"
	"os"
	"os/exec"
	"regexp"
	"runtime"
	"strings"
	"sync/atomic"
	"syscall"
	"time"
)

// fileName is the variable that names the file with the shared memory of a run.
const fileName = "LISTSET_AREA"

// child is a process that runs a test again up to its call to Check, and then performs the runs of that call.
type child struct {
	*area
	process *exec.Cmd
	errors  bytes.Buffer
	over    chan bool
}

// inChild starts a child process for the call to Check named name, and returns a caller that performs runs in the child
// process. In the child process, inChild itself performs the runs and never returns.
func inChild(name string, a *area) (caller, error) {
	c := &child{area: a, over: make(chan bool)}
	if os.Getenv(checkName) == name {
		c.serve()
	}
	file, err := os.CreateTemp("", "listset-")
	if err == nil {
		defer os.Remove(file.Name())
		defer file.Close()
		err = file.Truncate(int64(a.bytes()))
	}
	if err == nil {
		err = c.share(file)
	}
	if err != nil {
		return c, fmt.Errorf(sayNoMemory+": %v", err)
	}
	return c, c.start(name, file.Name())
}

// share maps the file into memory, and uses the mapped memory for the runs.
func (c *child) share(file *os.File) error {
	memory, err := syscall.Mmap(int(file.Fd()), 0, c.bytes(), syscall.PROT_READ|syscall.PROT_WRITE, syscall.MAP_SHARED)
	if err == nil {
		c.lay(memory)
	}
	return err
}

// start starts the child process and waits until it has reached the call to Check.
func (c *child) start(name, file string) error {
	pieces := strings.Split(name[:strings.LastIndex(name, "#")], "/")
	for i, piece := range pieces {
		pieces[i] = "^" + regexp.QuoteMeta(piece) + "$"
	}
	c.process = exec.Command(os.Args[0], "-test.run="+strings.Join(pieces, "/"))
	c.process.Env = append(os.Environ(), checkName+"="+name, fileName+"="+file)
	c.process.Stderr = io.MultiWriter(&c.errors, os.Stderr) // (a child that panics prints its stacks)
	_, err := c.process.StdinPipe()                         // (this process has the write end: the child ends with this process)
	if err == nil {
		err = c.process.Start()
	}
	if err != nil {
		return fmt.Errorf(sayNoProcess, err)
	}
	go func() {
		c.process.Wait()
		close(c.over)
	}()
	for atomic.LoadUint32(&c.isHere) == 0 {
		if c.isOver() {
			return errors.New(sayNotAgain)
		}
		time.Sleep(300 * time.Microsecond)
	}
	return nil
}

func (c *child) begin() {}

func (c *child) isOver() bool {
	select {
	case <-c.over:
		return true
	default:
		return false
	}
}

func (c *child) hasEnded() bool { return atomic.LoadUint32(&c.at) >= over || c.isOver() }

func (c *child) trouble() string {
	if atomic.LoadUint32(&c.at) >= over {
		return ""
	}
	for _, line := range strings.Split(c.errors.String(), "\n") {
		if strings.HasPrefix(line, "fatal error: ") || strings.HasPrefix(line, "panic: ") {
			return fmt.Sprintf(sayCrashed, line)
		}
	}
	if status := c.process.ProcessState; status.Exited() {
		return fmt.Sprintf(sayEndedSo, status.ExitCode())
	}
	return fmt.Sprintf(sayCrashed, c.process.ProcessState)
}

func (c *child) stop() {
	c.process.Process.Kill()
	<-c.over
}

func (c *child) close() {
	c.stop()
	syscall.Munmap(c.memory)
}

// serve performs the runs that the parent process requests, until the parent ends.
func (c *child) serve() {
	file, err := os.OpenFile(os.Getenv(fileName), os.O_RDWR, 0)
	if err != nil || c.share(file) != nil {
		os.Exit(1)
	}
	go func() {
		io.Copy(io.Discard, os.Stdin)
		os.Exit(1)
	}()
	atomic.StoreUint32(&c.isHere, 1)
	for ; ; time.Sleep(100 * time.Microsecond) {
		if atomic.LoadUint32(&c.at) == going {
			if most := c.threads + 1; runtime.GOMAXPROCS(0) < most {
				runtime.GOMAXPROCS(most) // (so that all goroutines can run at the same time)
			}
			isOver := make(chan bool)
			c.isInterrupted = canStop && c.options.Pauses > 0
			if !canStop && c.options.Pauses > 0 && !c.pairs() {
				go interrupt(c.seed, isOver)
			}
			c.callAll()
			close(isOver)
		}
	}
}

// interrupt briefly stops all goroutines during their calls, again and again, by reading the memory statistics. After
// each stop, the goroutines continue in a different order. It is used if stops cannot stop single goroutines.
func interrupt(seed int64, isOver chan bool) {
	var stats runtime.MemStats
	for draw := rand.New(rand.NewSource(seed)); ; runtime.ReadMemStats(&stats) {
		select {
		case <-isOver:
			return
		case <-time.After(time.Duration(draw.Intn(manyApart)) * time.Microsecond):
		}
	}
}
