//go:build listset

package judge

// #cgo pkg-config: listset
// #include <listset.h>
import "C"

import (
	"os"
	"strings"
	"unsafe"
)

func init() {
	library = &judgeFound{"liblistset", proofIn(C.GoString(C.listset_version())), inLibrary, nil}
}

func inLibrary(recording *os.File) (int, string) {
	var status C.uint8_t
	room := make([]byte, 8192)
	recording.Seek(0, 0)
	length := C.listset_judge_from(C.int32_t(recording.Fd()), (*C.char)(unsafe.Pointer(&room[0])), C.size_t(len(room)), &status)
	return int(status), strings.TrimSpace(string(room[:length]))
}
