package rtfilter

// #include <rtfilter.h>
import "C"

import (
	"errors"
	"fmt"
)

// A Code is why a call failed.
type Code int

// The codes of an Error.
const (
	BadSetting   Code = C.RTFILTER_BAD_SETTING   // a setting is out of range
	BadTable     Code = C.RTFILTER_BAD_TABLE     // the table is faulty: see the Fault
	BadFile      Code = C.RTFILTER_BAD_FILE      // the file can't be opened or read: see the Cause
	NoMemory     Code = C.RTFILTER_NO_MEMORY     // out of memory; the sessions can still be used
	BadQuery     Code = C.RTFILTER_BAD_QUERY     // the query at an index is invalid
	Misuse       Code = C.RTFILTER_MISUSE        // the session is closed
	BadProcessor Code = C.RTFILTER_BAD_PROCESSOR // the processor isn't an x86-64-v2
)

// A FaultKind is what is wrong with a table.
type FaultKind uint32

// The kinds of a Fault.
const (
	TooMany     FaultKind = C.RTFILTER_TOO_MANY      // there are MaxEntries boxes before this record
	FieldCount  FaultKind = C.RTFILTER_FIELD_COUNT   // neither five nor six fields; Field is how many there are
	NotNumber   FaultKind = C.RTFILTER_NOT_NUMBER    // the field isn't a whole number
	OutOfRange  FaultKind = C.RTFILTER_OUT_OF_RANGE  // the field is out of its range
	MinAboveMax FaultKind = C.RTFILTER_MIN_ABOVE_MAX // a minimum is above its maximum; Field is that of the minimum
	Repeated    FaultKind = C.RTFILTER_REPEATED      // an earlier record has the same id
)

// A Fault is the first fault of a table. Records and fields are counted from 1, a header included; Field is 0 if none is named.
type Fault struct {
	Kind   FaultKind
	Record uint32
	Field  uint64
}

func (it Fault) String() string {
	own := C.rtfilter_fault{kind: C.uint32_t(it.Kind), record: C.uint32_t(it.Record), field: C.uint64_t(it.Field)}
	var text [128]C.char
	C.rtfilter_fault_message(&own, &text[0], C.size_t(len(text)))
	return C.GoString(&text[0])
}

// ErrInUse is the error of a Close while the session is in a call.
var ErrInUse = errors.New("rtfilter: the session is in a call of another goroutine")

// An Error is why a call failed.
type Error struct {
	Code  Code
	Fault Fault  // of a faulty table
	Query int    // the index of an invalid query
	Why   string // the query is invalid
	Cause error  // the file can't be read
}

func (it *Error) Error() string {
	text := "rtfilter: " + C.GoString(C.rtfilter_message(C.int(it.Code)))
	switch it.Code {
	case BadTable:
		return "rtfilter: " + it.Fault.String()
	case BadQuery:
		return fmt.Sprintf("%s %d: %s", text, it.Query, it.Why)
	case BadFile:
		return fmt.Sprintf("%s: %v", text, it.Cause)
	}
	return text
}

// Unwrap returns the cause, for errors.Is.
func (it *Error) Unwrap() error { return it.Cause }

// The error of a code, without what it is about.
func failure(code C.int) error {
	if code == C.RTFILTER_OK {
		return nil
	}
	return &Error{Code: Code(code)}
}
