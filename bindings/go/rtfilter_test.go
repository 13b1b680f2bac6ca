package rtfilter

import (
	"errors"
	"fmt"
	"math"
	"os"
	"path/filepath"
	"reflect"
	"runtime"
	"strings"
	"sync"
	"testing"
	"time"
)

const table = "1,0,10,0,10,3\n2,5,15,5,15\n3,20,30,0,10,3\n4,-5,-1,-5,-1,0\n5,12,12,12,12,63\n"

func expect(t *testing.T, found, expected any) {
	t.Helper()
	if !reflect.DeepEqual(found, expected) {
		t.Errorf("found %v, expected %v", found, expected)
	}
}

func opened(t *testing.T, table string, settings Settings) *Session {
	t.Helper()
	it, err := OpenBytes([]byte(table), settings)
	if err != nil {
		t.Fatal(err)
	}
	t.Cleanup(func() { expect(t, it.Close(), nil) })
	return it
}

// So many points on a line.
func points(t *testing.T, n int) (*Session, []int64) {
	t.Helper()
	ids, sides := make([]int64, n), make([]int32, n)
	for i := range ids {
		ids[i], sides[i] = int64(i), int32(i)
	}
	session, err := OpenColumns(Columns{ids, sides, sides, sides, sides, nil}, Settings{Fanout: 2})
	if err != nil {
		t.Fatal(err)
	}
	t.Cleanup(func() { expect(t, session.Close(), nil) })
	return session, ids
}

func answer(t *testing.T, session *Session) {
	covering, smallest, near, layers := Covers(5, 5, 5, 5), All(), All(), All()
	covering.Order, covering.Limit = OrderSmallest, 1
	smallest.Order = OrderSmallest
	near.Order, near.NearX, near.NearY = OrderNear, 12, 12
	layers.Layers = 1<<3 | 1<<63
	for _, it := range []struct {
		query Query
		ids   []int64
	}{
		{Window(0, 10, 0, 10), []int64{1, 2}}, {Inside(0, 15, 0, 15), []int64{1, 2, 5}}, {covering, []int64{1}},
		{smallest, []int64{5, 4, 1, 2, 3}}, {near, []int64{2, 5, 1, 3, 4}}, {Circle(0, 0, 2), []int64{1, 4}},
		{layers, []int64{1, 3, 5}}, {Window(99, 99, 0, 0), []int64{}},
	} {
		ids, err := session.Find(it.query)
		expect(t, err, nil)
		expect(t, ids, it.ids)
	}
	all, err := session.FindEach([]Query{Nearest(18, 4, 2), Polygon(1, 3)}, []Point{{9, 9}, {0, 0}, {30, 0}, {0, 30}})
	expect(t, err, nil)
	expect(t, all, Answers{[]int64{3, 2, 1, 2, 3, 5}, []Score{{4, 0}, {10, 0}, {}, {}, {}, {}}, []uint64{2, 6}})
	ids, scores := all.Of(0)
	expect(t, ids, []int64{3, 2})
	expect(t, scores[0].Less(scores[1]) && !scores[1].Less(scores[0]), true)
	counts, err := session.CountEach([]Query{All(), Window(0, 10, 0, 10)}, nil)
	expect(t, err, nil)
	expect(t, counts, []uint64{5, 2})
	reply, isFaulty, err := session.Ask([]byte("find window 0 10 0 10\nbad"))
	expect(t, err, nil)
	expect(t, fmt.Sprint(string(reply), isFaulty), "1 0\n2 0\nok 1 2\nerror 2 Q2 unknown verb\ntrue")
	session.Forget()
	_, isFaulty, err = session.Ask(nil)
	expect(t, isFaulty || err != nil, false)
}

func TestAnswers(t *testing.T) {
	session := opened(t, table, Settings{})
	answer(t, session)
	first, err := session.Find(All())
	expect(t, err, nil)
	_, err = session.Find(Window(20, 30, 0, 10))
	expect(t, err, nil)
	expect(t, first, []int64{1, 2, 3, 4, 5})
	info, err := session.Info()
	expect(t, err, nil)
	sizes := [25]uint32{5, 1}
	expect(t, info, Info{Boxes: 5, Levels: 2, LevelSizes: sizes, MinX: -5, MaxX: 30, MinY: -5, MaxY: 15})
}

// A find and a count open different numbers of nodes: each cost is that of its own call.
func TestCosts(t *testing.T) {
	session := opened(t, table, Settings{Fanout: 2})
	queries := []Query{All(), Nearest(12, 12, 2), Nearest(12, 12, 0)}
	opened, err := session.CostOfFind(queries, nil)
	expect(t, err, nil)
	expect(t, opened, []uint64{6, 3, 0})
	opened, err = session.CostOfCount(queries, nil)
	expect(t, err, nil)
	expect(t, opened, []uint64{1, 1, 1})
}

func TestSettingsAndLayers(t *testing.T) {
	name := filepath.Join(t.TempDir(), "boxes.csv")
	text := "id,min_x,max_x,min_y,max_y,layer\n1,0,1,0,1,0\n2,5,6,5,6,7\n"
	if err := os.WriteFile(name, []byte(text), 0o600); err != nil {
		t.Fatal(err)
	}
	some := All()
	some.Layers = 1 << 7
	session, err := OpenFile(name, Settings{Header: true, MaxEntries: 2})
	expect(t, err, nil)
	ids, err := session.Find(some)
	expect(t, err, nil)
	expect(t, ids, []int64{2})
	expect(t, session.Close(), nil)
	var it *Error
	_, err = OpenFile(name, Settings{Header: true, MaxEntries: 1})
	expect(t, errors.As(err, &it) && it.Fault == Fault{TooMany, 3, 0}, true)
	_, err = OpenFile(name, Settings{})
	expect(t, errors.As(err, &it) && it.Fault == Fault{NotNumber, 1, 1}, true)
	sides := []int32{0, 0}
	columns, err := OpenColumns(Columns{[]int64{1, 2}, sides, sides, sides, sides, []uint8{0, 7}}, Settings{})
	expect(t, err, nil)
	ids, err = columns.Find(some)
	expect(t, err, nil)
	expect(t, ids, []int64{2})
	expect(t, columns.Close(), nil)
}

func TestGoroutines(t *testing.T) {
	session := opened(t, table, Settings{})
	var all sync.WaitGroup
	for i := 0; i < 4; i++ {
		own, err := session.Share()
		expect(t, err, nil)
		all.Add(1)
		go func() {
			answer(t, own)
			expect(t, own.Close(), nil)
			all.Done()
		}()
	}
	expect(t, session.Close(), nil)
	all.Wait()
}

// What a call panics with.
func panicOf(call func()) (text string) {
	defer func() { text, _ = recover().(string) }()
	call()
	return ""
}

// One session in two goroutines panics with words, and ends no process; so does a copy. Close waits for nobody.
func TestMisuse(t *testing.T) {
	session := opened(t, table, Settings{})
	session.begin()
	for _, call := range []func(){
		func() { session.Find(All()) }, func() { session.CountEach(nil, nil) }, func() { session.Ask(nil) },
		func() { session.Share() }, func() { session.Info() }, func() { session.Forget() },
	} {
		expect(t, strings.Contains(panicOf(call), "in a call of another goroutine"), true)
	}
	expect(t, session.Close(), ErrInUse)
	session.end()
	answer(t, session)
	copied := reflect.New(reflect.TypeOf(session).Elem())
	copied.Elem().Set(reflect.ValueOf(session).Elem())
	it := copied.Interface().(*Session)
	expect(t, strings.Contains(panicOf(func() { it.Find(All()) }), "copy"), true)
	expect(t, it.Close(), nil)
	answer(t, session)
	var none *Session
	expect(t, none.Close(), nil)
	expect(t, new(Session).Close(), nil)
}

// Answers that don't fit into the first arrays, of several queries, of a limit, and behind such.
func TestLongListsAndReplies(t *testing.T) {
	session, ids := points(t, 1000)
	nearest := Nearest(0, 0, 500)
	all, err := session.FindEach([]Query{All(), Window(0, 9, 0, 9), nearest}, nil)
	expect(t, err, nil)
	expect(t, all.Ends, []uint64{1000, 1010, 1510})
	expect(t, all.IDs, append(append(append([]int64{}, ids...), ids[:10]...), ids[:500]...))
	_, scores := all.Of(2)
	for i, it := range scores {
		expect(t, it, Score{Low: 2 * uint64(i) * uint64(i)})
	}
	text := strings.Builder{}
	for _, id := range ids {
		fmt.Fprintf(&text, "%d 0\n", id)
	}
	reply, _, err := session.Ask([]byte("find all"))
	expect(t, err, nil)
	expect(t, string(reply), text.String()+"ok 1 1000\n")
	buffer := make([]int64, 0, 2000)
	found, err := session.FindInto(All(), nil, buffer)
	expect(t, err, nil)
	expect(t, &found[0] == &buffer[:1][0] && reflect.DeepEqual(found, ids), true)
}

func TestGreatestScore(t *testing.T) {
	side := []int32{math.MaxInt32}
	session, err := OpenColumns(Columns{[]int64{1}, side, side, side, side, nil}, Settings{})
	expect(t, err, nil)
	all, err := session.FindEach([]Query{Nearest(math.MinInt32, math.MinInt32, 1)}, nil)
	expect(t, err, nil)
	expect(t, all.Scores[0].Big().String(), "36893488130239234050")
	expect(t, (Score{Low: math.MaxUint64}).Less(all.Scores[0]), true)
	expect(t, session.Close(), nil)
}

// The memory of this process, in kB.
func kilobytes(t *testing.T) int {
	text, err := os.ReadFile("/proc/self/statm")
	if err != nil {
		t.Fatal(err)
	}
	var size, resident int
	fmt.Sscan(string(text), &size, &resident)
	return 4 * resident
}

// A session is freed by Close, or, if that is forgotten, once nothing refers to it. Twenty tables that are freed take less
// memory than ten that are there: the C library keeps some for later.
func TestFreed(t *testing.T) {
	n := 100_000
	ids, sides := make([]int64, n), make([]int32, n)
	for i := range ids {
		ids[i] = int64(i)
	}
	open := func() *Session {
		session, err := OpenColumns(Columns{ids, sides, sides, sides, sides, nil}, Settings{})
		expect(t, err, nil)
		return session
	}
	expect(t, open().Close(), nil)
	before, kept := kilobytes(t), open()
	most := before + 10*(kilobytes(t)-before)
	expect(t, kept.Close(), nil)
	for i := 0; i < 20; i++ {
		expect(t, open().Close(), nil)
	}
	expect(t, kilobytes(t) < most, true)
	for i := 0; i < 20; i++ {
		open()
		runtime.GC()
		time.Sleep(10 * time.Millisecond)
	}
	for until := time.Now().Add(20 * time.Second); kilobytes(t) > most && time.Now().Before(until); {
		runtime.GC()
		time.Sleep(10 * time.Millisecond)
	}
	expect(t, kilobytes(t) < most, true)
}

func TestFailures(t *testing.T) {
	var it *Error
	_, err := OpenBytes([]byte("1,0,1,0,1\n2,9,0,0,0\n"), Settings{})
	expect(t, errors.As(err, &it) && it.Code == BadTable && it.Fault == Fault{MinAboveMax, 2, 2}, true)
	expect(t, err.Error(), "rtfilter: table record 2: minimum above maximum in x")
	_, err = OpenFile("/nowhere", Settings{})
	expect(t, errors.Is(err, os.ErrNotExist), true)
	expect(t, err.Error(), "rtfilter: cannot read file: no such file or directory")
	_, err = OpenFile("/dev/null\x00more", Settings{})
	expect(t, errors.As(err, &it) && it.Code == BadFile, true)
	_, err = OpenBytes(nil, Settings{Fanout: 1})
	expect(t, errors.As(err, &it) && it.Code == BadSetting, true)
	_, err = opened(t, table, Settings{}).FindEach([]Query{All(), Window(1, 0, 0, 0)}, nil)
	expect(t, errors.As(err, &it) && it.Code == BadQuery && it.Query == 1, true)
	expect(t, err.Error(), "rtfilter: invalid query 1: minimum above maximum")
	many, _ := points(t, 1000)
	queries := []Query{Window(0, 9, 0, 9), All(), Window(1, 0, 0, 0)}
	_, err = many.FindEach(queries, nil)
	expect(t, errors.As(err, &it) && it.Code == BadQuery && it.Query == 2, true)
	_, err = many.CountEach(queries, nil)
	expect(t, errors.As(err, &it) && it.Code == BadQuery && it.Query == 2, true)
	closed := opened(t, table, Settings{})
	expect(t, closed.Close(), nil)
	_, err = closed.Find(All())
	expect(t, errors.As(err, &it) && it.Code == Misuse, true)
	expect(t, closed.Close(), nil)
}

func ExampleSession_Find() {
	session, err := OpenBytes([]byte("1,0,10,0,10\n2,5,15,5,15\n3,20,30,0,10\n"), Settings{})
	if err != nil {
		fmt.Println(err)
		return
	}
	defer session.Close()
	fmt.Println(session.Find(Window(0, 10, 0, 10))) // minX, maxX, minY, maxY
	fmt.Println(session.Find(Nearest(18, 4, 2)))
	// Output:
	// [1 2] <nil>
	// [3 2] <nil>
}

func ExampleSession_FindEach() {
	session, err := OpenBytes([]byte("1,0,10,0,10\n2,5,15,5,15\n3,20,30,0,10\n"), Settings{})
	if err != nil {
		fmt.Println(err)
		return
	}
	defer session.Close()
	triangle := []Point{{15, 0}, {40, 0}, {40, 9}}
	all, err := session.FindEach([]Query{Nearest(18, 4, 2), Polygon(0, 3)}, triangle)
	if err != nil {
		fmt.Println(err)
		return
	}
	for query := range all.Ends {
		fmt.Println(all.Of(query))
	}
	// Output:
	// [3 2] [{4 0} {10 0}]
	// [3] [{0 0}]
}

func ExampleError() {
	_, err := OpenBytes([]byte("1,9,0,0,0\n"), Settings{})
	var fault *Error
	if errors.As(err, &fault) && fault.Code == BadTable {
		fmt.Println(fault.Fault.Record, fault)
	}
	// Output:
	// 1 rtfilter: table record 1: minimum above maximum in x
}
