//go:build !(linux || darwin || freebsd || netbsd || openbsd)

package judge

// inChild returns a caller that performs runs in the current process, because on this platform a child process cannot
// share its memory.
func inChild(_ string, a *area) (caller, error) { return &here{a}, nil }
