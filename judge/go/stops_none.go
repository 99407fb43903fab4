//go:build !(linux && amd64) || listset

package judge

// stops has no effect on this platform, or if the judge is the library: a package with C code cannot have assembly.
type stops struct{}

func newStops(*area, int, bool) *stops { return nil }

func (*stops) beforeCall(int) {}

func (*stops) inCall(call func() uint32) uint32 { return call() }

func (*stops) close() {}

// canStop reports whether stops works on this platform.
const canStop = false
