// Package rtfilter is exact spatial search over a table of boxes, in memory: librtfilter from Go. rtfilter.h has the meaning of
// each call. Sides are always in the order minX, maxX, minY, maxY. Boxes that only touch overlap.
package rtfilter

/*
#cgo pkg-config: rtfilter
#include <rtfilter.h>
#include <stdlib.h>

// The structs that have pointers are made here: Go passes no pointer to memory that has pointers of its own.
typedef int measure(rtfilter_session *, const rtfilter_queries *, uint64_t *, size_t *);

static int find(rtfilter_session *session, const rtfilter_query *queries, size_t len, const rtfilter_point *vertices,
                size_t vertex_len, size_t skip, int64_t *ids, rtfilter_score *scores, size_t capacity, size_t *ends,
                size_t *done, size_t *found)
{
    const rtfilter_queries all = {queries, len, vertices, vertex_len};
    rtfilter_answers answers = {ids, scores, capacity, ends, 0, 0};
    const int code = rtfilter_find(session, &all, skip, &answers);
    *done = answers.done;
    *found = answers.found;
    return code;
}

static int measured_by(int call, rtfilter_session *session, const rtfilter_query *queries, size_t len,
                       const rtfilter_point *vertices, size_t vertex_len, uint64_t *measured, size_t *done)
{
    static measure *const calls[] = {rtfilter_count, rtfilter_cost_of_find, rtfilter_cost_of_count};
    const rtfilter_queries all = {queries, len, vertices, vertex_len};
    return calls[call](session, &all, measured, done);
}

static const char *why(const rtfilter_query *queries, size_t len, const rtfilter_point *vertices, size_t vertex_len, size_t index)
{
    const rtfilter_queries all = {queries, len, vertices, vertex_len};
    return rtfilter_query_message(&all, index);
}
*/
import "C"

import (
	"runtime"
	"strings"
	"sync/atomic"
	"syscall"
	"unsafe"
)

// Capacity for answers that a call begins with, in all or for each query, and the most that a session keeps for the next call.
const (
	firstCapacity   = 256
	capacityOfQuery = 32
	mostKept        = 4096
)

// Session is an open session, for one goroutine at a time: a call panics if the session is in a call of another one. Share opens
// one more on the same table. It is freed by Close, or once nothing refers to it.
type Session struct {
	_       noCopy
	session C.rtfilter_session
	place   uintptr // the address at which this session was opened: a copy has another
	inUse   int32
	buffer  []int64 // the answers of Find, before it knows how many there are
}

// What `go vet` doesn't let be copied.
type noCopy struct{}

func (*noCopy) Lock()   {}
func (*noCopy) Unlock() {}

func (it *Session) isOwn() bool { return it.place == uintptr(unsafe.Pointer(it)) }

func (it *Session) begin() {
	if !it.isOwn() {
		panic("rtfilter: this session wasn't opened: it is a copy, or a zero Session")
	}
	if !atomic.CompareAndSwapInt32(&it.inUse, 0, 1) {
		panic("rtfilter: the session is in a call of another goroutine; open one more by Share")
	}
}

func (it *Session) end() { atomic.StoreInt32(&it.inUse, 0) }

// An open session, or the error of a code.
func open(call func(*C.rtfilter_session, *C.rtfilter_fault) (C.int, error)) (*Session, error) {
	it, fault := &Session{}, C.rtfilter_fault{}
	it.place = uintptr(unsafe.Pointer(it))
	switch code, cause := call(&it.session, &fault); code {
	case C.RTFILTER_OK:
		runtime.SetFinalizer(it, func(it *Session) { C.rtfilter_close(&it.session) })
		return it, nil
	case C.RTFILTER_BAD_TABLE:
		return nil, &Error{Code: BadTable, Fault: Fault{FaultKind(fault.kind), uint32(fault.record), uint64(fault.field)}}
	case C.RTFILTER_BAD_FILE:
		return nil, &Error{Code: BadFile, Cause: cause}
	default:
		return nil, failure(code)
	}
}

// OpenBytes opens a session on a CSV table in memory.
func OpenBytes(table []byte, settings Settings) (*Session, error) {
	own := settings.inC()
	return open(func(session *C.rtfilter_session, fault *C.rtfilter_fault) (C.int, error) {
		return C.rtfilter_open_bytes(session, at(table), C.size_t(len(table)), &own, fault), nil
	})
}

// OpenFile opens a session on a CSV file.
func OpenFile(name string, settings Settings) (*Session, error) {
	if strings.IndexByte(name, 0) >= 0 {
		return nil, &Error{Code: BadFile, Cause: syscall.EINVAL}
	}
	own, path := settings.inC(), C.CString(name)
	defer C.free(unsafe.Pointer(path))
	return open(func(session *C.rtfilter_session, fault *C.rtfilter_fault) (C.int, error) {
		code, cause := C.rtfilter_open_file(session, path, &own, fault)
		return code, cause
	})
}

// OpenColumns opens a session on boxes in slices. It panics if these aren't of one length.
func OpenColumns(boxes Columns, settings Settings) (*Session, error) {
	n := len(boxes.IDs)
	for _, column := range [][]int32{boxes.MinX, boxes.MaxX, boxes.MinY, boxes.MaxY} {
		if len(column) != n {
			panic("rtfilter: columns of different lengths")
		}
	}
	if len(boxes.Layers) != n && boxes.Layers != nil {
		panic("rtfilter: columns of different lengths")
	}
	own := settings.inC()
	return open(func(session *C.rtfilter_session, fault *C.rtfilter_fault) (C.int, error) {
		return C.rtfilter_open_arrays(session, C.size_t(n), (*C.int64_t)(at(boxes.IDs)), (*C.int32_t)(at(boxes.MinX)),
			(*C.int32_t)(at(boxes.MaxX)), (*C.int32_t)(at(boxes.MinY)), (*C.int32_t)(at(boxes.MaxY)),
			(*C.uint8_t)(at(boxes.Layers)), &own, fault), nil
	})
}

// Share opens one more session on the same table, for another goroutine.
func (it *Session) Share() (*Session, error) {
	it.begin()
	defer it.end()
	return open(func(session *C.rtfilter_session, _ *C.rtfilter_fault) (C.int, error) {
		return C.rtfilter_share(&it.session, session), nil
	})
}

// Close frees the session. A nil one and a closed one are left as they are. It fails with ErrInUse while the session is in a call.
func (it *Session) Close() error {
	if it == nil || !it.isOwn() {
		return nil
	}
	if !atomic.CompareAndSwapInt32(&it.inUse, 0, 1) {
		return ErrInUse
	}
	defer it.end()
	runtime.SetFinalizer(it, nil)
	C.rtfilter_close(&it.session)
	return nil
}

// Info describes the table.
func (it *Session) Info() (Info, error) {
	it.begin()
	defer it.end()
	info := Info{}
	code := C.rtfilter_info_of(&it.session, (*C.rtfilter_info)(unsafe.Pointer(&info)))
	return info, failure(code)
}

// Ask answers query lines, which are numbered from 1, byte for byte as the program does. A faulty line is no error.
func (it *Session) Ask(lines []byte) (reply []byte, isFaulty bool, err error) {
	it.begin()
	defer it.end()
	reply = make([]byte, 4096)
	var whole, copied C.size_t
	code := C.rtfilter_ask(&it.session, (*C.char)(at(lines)), C.size_t(len(lines)), (*C.char)(at(reply)), 4096, &whole)
	if code != C.RTFILTER_FAULTY_LINE && code != C.RTFILTER_OK {
		return nil, false, failure(code)
	}
	if whole > 4096 {
		reply = make([]byte, whole)
		C.rtfilter_reply(&it.session, 0, (*C.char)(at(reply)), whole, &copied)
	}
	return reply[:whole], code == C.RTFILTER_FAULTY_LINE, nil
}

// Forget frees the reply that the session keeps for Ask.
func (it *Session) Forget() {
	it.begin()
	defer it.end()
	C.rtfilter_forget(&it.session)
}

// Find returns the ids of the answers of a query that is no polygon.
func (it *Session) Find(query Query) ([]int64, error) {
	it.begin()
	defer it.end()
	found, err := it.findInto(query, nil, it.buffer)
	if err != nil {
		return nil, err
	}
	if cap(found) > mostKept {
		return found, nil
	}
	it.buffer = found
	return append(make([]int64, 0, len(found)), found...), nil
}

// FindInto returns the same in the memory of a slice, as far as that has room. A polygon has its vertices among these.
func (it *Session) FindInto(query Query, vertices []Point, ids []int64) ([]int64, error) {
	it.begin()
	defer it.end()
	return it.findInto(query, vertices, ids)
}

func (it *Session) findInto(query Query, vertices []Point, ids []int64) ([]int64, error) {
	queries, ends := [1]Query{query}, [1]uint64{}
	all := Answers{IDs: ids[:0], Ends: ends[:]}
	err := it.put(queries[:], vertices, &all, false)
	return all.IDs, err
}

// FindEach returns the answers of several queries, whose polygons have these vertices.
func (it *Session) FindEach(queries []Query, vertices []Point) (Answers, error) {
	it.begin()
	defer it.end()
	all := Answers{Ends: make([]uint64, len(queries))}
	if err := it.put(queries, vertices, &all, true); err != nil {
		return Answers{}, err
	}
	return all, nil
}

// Appends the answers of queries, and the end of those of each.
func (it *Session) put(queries []Query, vertices []Point, all *Answers, hasScores bool) error {
	capacity := cap(all.IDs)
	if least := capacityOfQuery * len(queries); capacity < least || capacity < firstCapacity {
		if capacity = firstCapacity; capacity < least {
			capacity = least
		}
	}
	first, skip := 0, C.size_t(0)
	for {
		found := len(all.IDs)
		all.IDs = grown(all.IDs, capacity)
		var scores unsafe.Pointer
		if hasScores {
			all.Scores = grown(all.Scores, capacity)
			scores = at(all.Scores[found:])
		}
		rest, ends := queries[first:], all.Ends[first:]
		var done, more C.size_t
		code := C.find(&it.session, (*C.rtfilter_query)(at(rest)), C.size_t(len(rest)), (*C.rtfilter_point)(at(vertices)),
			C.size_t(len(vertices)), skip, (*C.int64_t)(at(all.IDs[found:])), (*C.rtfilter_score)(scores),
			C.size_t(len(all.IDs)-found), (*C.size_t)(at(ends)), &done, &more)
		if all.IDs = all.IDs[:found+int(more)]; hasScores {
			all.Scores = all.Scores[:len(all.IDs)]
		}
		// What is there of the answers of a query that has more: as rtfilter_continue has it.
		if skip += more; done > 0 {
			skip = more - C.size_t(ends[done-1])
		}
		for i := range ends[:done] {
			ends[i] += uint64(found)
		}
		if first += int(done); code != C.RTFILTER_FULL {
			return failed(code, queries, vertices, first)
		}
		left, err := it.left(queries, vertices, first)
		if err != nil {
			return err
		}
		capacity = left - int(skip)
	}
}

// A slice with this many more items.
func grown[Item any](slice []Item, more int) []Item {
	if cap(slice)-len(slice) >= more {
		return slice[:len(slice)+more]
	}
	return append(slice, make([]Item, more)...)
}

// How many answers the queries from an index on have in all.
func (it *Session) left(queries []Query, vertices []Point, first int) (int, error) {
	counts, err := it.measured(0, queries[first:], vertices)
	if fault, ok := err.(*Error); ok && fault.Code == BadQuery {
		fault.Query += first
	}
	if err != nil {
		return 0, err
	}
	sum := uint64(0)
	for i, count := range counts {
		if limit := queries[first+i].Limit; count > limit {
			count = limit
		}
		sum += count
	}
	return int(sum), nil
}

// Count returns how many boxes a query that is no polygon accepts, whatever its limit.
func (it *Session) Count(query Query) (uint64, error) {
	counts, err := it.CountEach([]Query{query}, nil)
	if err != nil {
		return 0, err
	}
	return counts[0], nil
}

// CountEach returns how many boxes each query accepts, whatever its limit.
func (it *Session) CountEach(queries []Query, vertices []Point) ([]uint64, error) {
	return it.measure(0, queries, vertices)
}

// CostOfFind returns how many nodes of the tree a find of each query opens.
func (it *Session) CostOfFind(queries []Query, vertices []Point) ([]uint64, error) {
	return it.measure(1, queries, vertices)
}

// CostOfCount returns how many nodes of the tree a count of each query opens.
func (it *Session) CostOfCount(queries []Query, vertices []Point) ([]uint64, error) {
	return it.measure(2, queries, vertices)
}

func (it *Session) measure(call C.int, queries []Query, vertices []Point) ([]uint64, error) {
	it.begin()
	defer it.end()
	return it.measured(call, queries, vertices)
}

func (it *Session) measured(call C.int, queries []Query, vertices []Point) ([]uint64, error) {
	measured, done := make([]uint64, len(queries)), C.size_t(0)
	code := C.measured_by(call, &it.session, (*C.rtfilter_query)(at(queries)), C.size_t(len(queries)),
		(*C.rtfilter_point)(at(vertices)), C.size_t(len(vertices)), (*C.uint64_t)(at(measured)), &done)
	if code != C.RTFILTER_OK {
		return nil, failed(code, queries, vertices, int(done))
	}
	return measured, nil
}

// The error for a code of a call about queries, of which `done` are done.
func failed(code C.int, queries []Query, vertices []Point, done int) error {
	if code != C.RTFILTER_BAD_QUERY {
		return failure(code)
	}
	text := C.why((*C.rtfilter_query)(at(queries)), C.size_t(len(queries)), (*C.rtfilter_point)(at(vertices)),
		C.size_t(len(vertices)), C.size_t(done))
	return &Error{Code: BadQuery, Query: done, Why: C.GoString(text)}
}

// The address of a slice's items, or nil if there are none.
func at[Item any](slice []Item) unsafe.Pointer {
	if len(slice) == 0 {
		return nil
	}
	return unsafe.Pointer(&slice[0])
}
