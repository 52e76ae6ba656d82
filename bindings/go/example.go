// Formats the policies of standard input: go run bindings/go/example.go < policy.cedar
// Of a text that is refused it prints the faults, each as LINE:COLUMN: MESSAGE, and the bracket that it leaves open.
package main

// #cgo CFLAGS: -I${SRCDIR}/../../include
// #cgo LDFLAGS: ${SRCDIR}/../out/libcedar_formatter.a
// #include "cedar_formatter.h"
import "C"
import (
	"fmt"
	"io"
	"os"
	"unsafe"
)

// start is the first byte of some bytes; of none it is nil.
func start(bytes []byte) *C.char {
	if len(bytes) == 0 {
		return nil
	}
	return (*C.char)(unsafe.Pointer(&bytes[0]))
}

// format lays a text out at 80 columns per line and 2 per level. The kind is 0, or says why there is no result.
func format(text []byte) ([]byte, uint32) {
	var answer C.struct_cedar_answer
	for room := 2*len(text) + 64; ; room = int(answer.number) {
		out := make([]byte, room)
		C.cedar_format(start(text), C.size_t(len(text)), 80, 2, start(out), C.size_t(room), &answer)
		if answer.kind == C.CEDAR_RESULT {
			return out[:answer.number], 0
		}
		if answer.kind != C.CEDAR_NO_ROOM {
			return nil, uint32(answer.kind)
		}
	}
}

// most is how many faults are printed.
const most = 100

// printAt prints what is said of a byte, after its line and its column.
func printAt(text []byte, at C.size_t, said string) {
	var place C.struct_cedar_place_answer
	C.cedar_place(start(text), C.size_t(len(text)), at, &place)
	fmt.Fprintf(os.Stderr, "%d:%d: %s\n", place.line, place.column, said)
}

// unclosed is the bracket that a fault of a text leaves open; nil if there is none.
func unclosed(text []byte, fault *C.struct_cedar_fault_answer) []byte {
	if fault.unclosed_end == 0 {
		return nil
	}
	return text[fault.unclosed_start:fault.unclosed_end]
}

// printFaults prints the faults of a text, and returns whether there are any.
func printFaults(text []byte) bool {
	var fault C.struct_cedar_fault_answer
	message := make([]byte, 1000)
	for count := 0; count < most; count++ {
		C.cedar_next_fault(start(text), C.size_t(len(text)), fault.next, start(message), C.size_t(len(message)), &fault)
		if fault.kind == C.CEDAR_RESULT || fault.kind > C.CEDAR_TOO_DEEP {
			return count > 0
		}
		// (what is missing at the end is missing after the last token)
		at := fault.start
		if int(fault.at) == len(text) {
			at = fault.end
		}
		said := message
		if int(fault.length) <= len(message) {
			said = message[:fault.length]
		}
		printAt(text, at, string(said))
		if bracket := unclosed(text, &fault); bracket != nil {
			printAt(text, fault.unclosed_start, fmt.Sprintf("this '%s' is not closed", bracket))
		}
	}
	return true
}

func main() {
	text, err := io.ReadAll(os.Stdin)
	if err != nil {
		fmt.Fprintln(os.Stderr, err)
		os.Exit(1)
	}
	layout, kind := format(text)
	if kind != 0 {
		if !printFaults(text) {
			fmt.Fprintf(os.Stderr, "refused: kind %d\n", kind)
		}
		os.Exit(1)
	}
	os.Stdout.Write(layout)
}
