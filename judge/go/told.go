package judge

import (
	"bytes"
	"fmt"
	"io"
	"os"
	"os/exec"
	"path/filepath"
	"regexp"
	"strconv"
	"strings"
)

// recording is the file with the recorded calls of a run. The file grows during the run.
type recording struct {
	seed   int64
	file   *os.File
	isKept bool
}

func newRecording(seed int64, record string) (*recording, error) {
	r, folder, fault, err := &recording{seed: seed, isKept: record != ""}, record, sayNoFolder, error(nil)
	if r.isKept {
		if err = os.MkdirAll(folder, 0o777); err == nil {
			r.file, err = os.Create(filepath.Join(folder, fmt.Sprintf("seed-%d.calls", seed)))
		}
	} else {
		fault = sayNoRecord
		if folder = os.Getenv("LISTSET_RECORD"); folder == "" {
			folder, fault = os.TempDir(), sayNoTemporary
		}
		os.MkdirAll(folder, 0o777)
		r.file, err = os.CreateTemp(folder, fmt.Sprintf("listset-seed-%d-*.calls", seed))
	}
	if err != nil {
		return nil, fmt.Errorf(fault, folder)
	}
	return r, nil
}

// failedRun is a failed run: its recording; the judge's output, preceded by the reason if the run was cut short; and
// the key that the judge names.
type failedRun struct {
	*recording
	said, key  string
	isCutShort bool
}

// judged returns the number of calls that overlapped a change of their key, or the failed run. If the run was cut
// short, trouble is the reason.
func (r *recording) judged(by *judgeFound, a *area, trouble string) (int, *failedRun, error) {
	underWay, lines := []slot(nil), ""
	if trouble != "" {
		lines, underWay = a.lines()
		length := a.saved().length
		r.file.Truncate(length)
		r.file.WriteAt([]byte(lines+"cut\n"), length)
	}
	overlapped, refused, err := by.judged(r.file)
	if err != nil || refused == "" && trouble == "" {
		return overlapped, nil, err
	}
	f := &failedRun{r, refused, "", trouble != ""}
	if key := ofKey.FindStringSubmatch(refused); key != nil {
		f.key = key[1]
	}
	if f.isCutShort && refused == "" {
		f.said = sayExplained
	}
	if f.isCutShort {
		f.said = fmt.Sprintf(sayUnderWay, trouble, pending(a, underWay), f.said)
	}
	return 0, f, nil
}

// contradictions returns the number of contradictions in the judge's output, or 0 if the output contains no number.
func (f *failedRun) contradictions() (number int) {
	if found := ofContradictions.FindStringSubmatch(f.said); found != nil {
		number, _ = strconv.Atoi(found[1])
	}
	return number
}

// failed returns the failed run f with the complete message, and keeps the run's recording. first is the seed of the
// first failed run, and refusedOf is the part of the message that counts the refused runs.
func (t *tester) failed(f *failedRun, s shape, first int64, refusedOf string) Failed {
	f.isKept = true
	notes, small := t.options.madeHarder(f.seed, s.size)+refusedOf+t.options.passedBefore(first), ""
	if f.key != "" {
		number, _ := strconv.Atoi(f.key)
		notes, small = notes+keyLine(t.area, number), f.alone(t.by, f.key)
	}
	text := fmt.Sprintf(sayFailedRun, f.said, f.seed, s.name, s.threads, notes, f.file.Name(), small, t.by)
	return Failed{f.seed, s.name, f.said, f.file.Name(), t.by.String(), text}
}

// ofContradictions matches the number of contradictions in the judge's output.
var ofContradictions = regexp.MustCompile(`(\d+) (?:contradiction|of its )`)

// ofKey matches the key in the judge's output.
var ofKey = regexp.MustCompile(`of key (\d+) `)

// mostShown is the maximum number of pending calls in the message.
const mostShown = 16

// pending returns a line for each pending call, at most mostShown.
func pending(a *area, calls []slot) (lines string) {
	for i, s := range calls {
		if i == mostShown {
			return lines + fmt.Sprintf(sayAndMore, len(calls)-i)
		}
		name, of, number := a.nameOf(int(s.key)), a.inSet(int(s.key)), strconv.Itoa(int(s.key)*a.times)
		if name != number {
			of = fmt.Sprintf(sayIsKey, number) + of
		}
		lines += fmt.Sprintf(sayPendingCall, s.thread, words[s.call], name, of, s.begin)
	}
	if lines == "" {
		return " no call"
	}
	return lines
}

// nameOf returns the key that the set receives for a key number of the run, as text.
func (a *area) nameOf(number int) string { return a.source.shown(a.number(number % a.keys)) }

// inSet returns the part of the message that names the set of a key if the run has several sets.
func (a *area) inSet(number int) string {
	if a.sets == 1 {
		return ""
	}
	return fmt.Sprintf(sayInSet, number/a.keys+1)
}

// keyLine describes the key whose number in the recording is number and, if the run has several sets, the key's set.
// Returns an empty string if the key is the number and the run has a single set.
func keyLine(a *area, number int) string {
	if a.sets == 1 && !a.source.isOwn {
		return ""
	}
	key := number / a.times
	return fmt.Sprintf(sayKeyIs, number, a.nameOf(key)) + a.inSet(key)
}

// alone writes a small file beside the recording, with calls on one key that no order explains. Returns the part of the
// message that names the file.
func (r *recording) alone(by *judgeFound, key string) string {
	if by.command == nil {
		return ""
	}
	status, text := ran(append(by.command, "judge", "--only", key, r.file.Name()), io.Discard)
	small := strings.TrimSuffix(r.file.Name(), ".calls") + "-key-" + key + ".calls"
	if status != 0 || os.WriteFile(small, []byte(text+"\n"), 0o666) != nil {
		return ""
	}
	return fmt.Sprintf(sayAlone, small)
}

func (r *recording) close() {
	r.file.Close()
	if !r.isKept {
		os.Remove(r.file.Name())
	}
}

// ---- the judge

// judgeFound is the judge of a test: its name, whether it states that it is proved, and how to call it.
type judgeFound struct {
	name, proof string
	answer      func(recording *os.File) (status int, said string)
	command     []string // empty if the judge is the library
}

// library is liblistset if the test is built with the tag `listset` (library.go), otherwise nil.
var library *judgeFound

func (j *judgeFound) String() string { return j.name + ", " + j.proof }

func findJudge() (*judgeFound, error) {
	if library != nil {
		return library, nil
	}
	name := os.Getenv("LISTSET")
	if name == "" {
		name = "listset"
	}
	if found, err := os.Stat(name); err == nil && found.IsDir() {
		return nil, fmt.Errorf(sayIsFolder, name)
	}
	command, shown, fault := []string{name}, io.Writer(os.Stderr), sayNoJudge // (the stderr of a program is shown: ./listset first builds the judge and prints its progress there)
	isScript := strings.HasSuffix(name, ".js")
	if isScript {
		command, shown, fault = []string{"node", name}, io.Discard, sayNoNode
		if path, err := filepath.Abs(name); err == nil && !isFile(path) {
			return nil, fmt.Errorf(sayNoScript, name, path)
		}
	}
	status, version := ran(append(command, "--version", "--long"), shown)
	if status == 127 {
		return nil, fmt.Errorf(fault, name)
	}
	if isScript && status != 0 {
		if err := checkNode(name); err != nil {
			return nil, err
		}
	}
	ask := func(recording *os.File) (int, string) {
		return ran(append(command, "judge", recording.Name()), io.Discard)
	}
	return &judgeFound{name, proofIn(version), ask, command}, nil
}

func isFile(path string) bool {
	_, err := os.Stat(path)
	return err == nil
}

// checkNode returns an error if node is too old.
func checkNode(name string) error {
	_, version := ran([]string{"node", "--version"}, io.Discard)
	major := 0
	if _, err := fmt.Sscanf(version, "v%d.", &major); err == nil && major < 18 {
		return fmt.Errorf(sayOldNode, version, name)
	}
	return nil
}

// proofIn returns the line of version that states whether the judge is proved.
func proofIn(version string) string {
	if found := regexp.MustCompile("(?m)^proof .*$").FindString(version); found != "" {
		return found
	}
	return "proof unknown"
}

// ran runs a command. Returns the exit status (127 if the command cannot be run) and the output, or the error output if
// there is no output.
func ran(words []string, shown io.Writer) (int, string) {
	var out, errs bytes.Buffer
	made := exec.Command(words[0], words[1:]...)
	made.Stdout, made.Stderr = &out, io.MultiWriter(&errs, shown)
	if err := made.Run(); made.ProcessState == nil {
		return 127, err.Error()
	}
	if out.Len() == 0 {
		out = errs
	}
	return made.ProcessState.ExitCode(), strings.TrimSpace(out.String())
}

// judged judges a recording. Returns the number of calls that overlapped a change of their key, or the judge's output
// if no order explains the calls.
func (j *judgeFound) judged(recording *os.File) (overlapped int, refused string, err error) {
	status, said := j.answer(recording)
	if _, err := fmt.Sscanf(said, "ok %d calls\n%d of them", new(int), &overlapped); status == 0 && err == nil {
		return overlapped, "", nil
	}
	if status == 1 && strings.HasPrefix(said, "not linearizable") {
		return 0, said, nil
	}
	first := strings.SplitN(said, "\n", 2)[0]
	if first == "" {
		first = "nothing"
	}
	return 0, "", fmt.Errorf(sayNoVerdict, j.name, first)
}
