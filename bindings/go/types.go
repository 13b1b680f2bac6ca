package rtfilter

// #include <rtfilter.h>
import "C"

import (
	"math"
	"math/big"
	"unsafe"
)

// Settings are how a table is read and packed. A zero stands for the default.
type Settings struct {
	Header     bool   // skip the first record of a CSV table
	Fanout     uint8  // the most children of a node of the tree, 2 to 64; 16
	MaxEntries uint32 // the most boxes, 1 to 16777216; 16777216
}

func (it Settings) inC() C.rtfilter_settings {
	own := C.rtfilter_settings{header: C.bool(it.Header), fanout: 16, max_entries: 16777216}
	if it.Fanout != 0 {
		own.fanout = C.uint8_t(it.Fanout)
	}
	if it.MaxEntries != 0 {
		own.max_entries = C.uint32_t(it.MaxEntries)
	}
	return own
}

// Columns are boxes, with a slice for each field. Layers may be nil: all boxes are then on layer 0.
type Columns struct {
	IDs                    []int64
	MinX, MaxX, MinY, MaxY []int32
	Layers                 []uint8
}

// Info is what a table holds.
type Info struct {
	Boxes, Levels          uint32
	LevelSizes             [25]uint32 // the number of boxes or nodes of each level, from that of the boxes up; the rest is 0
	MinX, MaxX, MinY, MaxY int32      // the least box around all boxes; all 0 if there are none
	_                      [9]uint32
}

// A Point is a vertex of a polygon.
type Point struct{ X, Y int32 }

// A Score is High * 2^64 + Low. The greatest score has 65 bits, so that High is 0 or 1.
type Score struct{ Low, High uint64 }

// Less says whether a score is below another one.
func (it Score) Less(other Score) bool {
	return it.High < other.High || it.High == other.High && it.Low < other.Low
}

// Big returns the score as one number.
func (it Score) Big() *big.Int {
	high := new(big.Int).SetUint64(it.High)
	return high.Add(high.Lsh(high, 64), new(big.Int).SetUint64(it.Low))
}

// A Region says which boxes a query accepts.
type Region uint32

// The regions of a Query. A box is accepted if ..
const (
	RegionAll     Region = C.RTFILTER_ALL     // always
	RegionWindow  Region = C.RTFILTER_WINDOW  // it overlaps the box of the query
	RegionInside  Region = C.RTFILTER_INSIDE  // it lies within the box of the query
	RegionCovers  Region = C.RTFILTER_COVERS  // the box of the query lies within it
	RegionCircle  Region = C.RTFILTER_CIRCLE  // its distance from (X, Y) is at most Radius
	RegionPolygon Region = C.RTFILTER_POLYGON // it overlaps the convex polygon
)

// An Order is that of answers: by score, the lowest first, and at equal scores by id.
type Order uint32

// The orders of a Query.
const (
	OrderByID     Order = C.RTFILTER_BY_ID    // all scores are 0
	OrderNear     Order = C.RTFILTER_NEAR     // the score is the square of the distance from (NearX, NearY)
	OrderSmallest Order = C.RTFILTER_SMALLEST // the score is the area
)

// A Query has the members of rtfilter_query. The zero Query has no layer, and is invalid: begin with All, or a function below.
type Query struct {
	Region                 Region
	Order                  Order
	MinX, MaxX, MinY, MaxY int32
	X, Y                   int32
	Radius                 uint32
	NearX, NearY           int32
	FirstVertex, Vertices  uint32
	_                      uint32
	Layers, Limit          uint64
}

// All accepts all boxes, by id.
func All() Query { return Query{Layers: math.MaxUint64, Limit: math.MaxUint64} }

// Window accepts the boxes that overlap a window, by id.
func Window(minX, maxX, minY, maxY int32) Query {
	it := All()
	it.Region, it.MinX, it.MaxX, it.MinY, it.MaxY = RegionWindow, minX, maxX, minY, maxY
	return it
}

// Inside accepts the boxes that lie within a window, by id.
func Inside(minX, maxX, minY, maxY int32) Query {
	it := Window(minX, maxX, minY, maxY)
	it.Region = RegionInside
	return it
}

// Covers accepts the boxes within which a window lies, by id.
func Covers(minX, maxX, minY, maxY int32) Query {
	it := Window(minX, maxX, minY, maxY)
	it.Region = RegionCovers
	return it
}

// Circle accepts the boxes at most radius from (x, y), the nearest first.
func Circle(x, y int32, radius uint32) Query {
	it := Nearest(x, y, math.MaxUint64)
	it.Region, it.X, it.Y, it.Radius = RegionCircle, x, y, radius
	return it
}

// Polygon accepts the boxes that overlap a convex polygon, by id: the vertices of the call from an index on.
func Polygon(firstVertex, vertices uint32) Query {
	it := All()
	it.Region, it.FirstVertex, it.Vertices = RegionPolygon, firstVertex, vertices
	return it
}

// Nearest accepts the k boxes nearest to (x, y), the nearest first.
func Nearest(x, y int32, k uint64) Query {
	it := All()
	it.Order, it.NearX, it.NearY, it.Limit = OrderNear, x, y, k
	return it
}

// Answers are those of several queries, one after the other.
type Answers struct {
	IDs    []int64
	Scores []Score
	Ends   []uint64 // for each query the index behind its last answer
}

// Of returns the ids and scores of the query at an index.
func (it Answers) Of(query int) ([]int64, []Score) {
	first, end := uint64(0), it.Ends[query]
	if query > 0 {
		first = it.Ends[query-1]
	}
	return it.IDs[first:end], it.Scores[first:end]
}

// The structs that go to C have the sizes that they have there.
var (
	_ = [1]struct{}{}[uintptr(C.sizeof_rtfilter_query)-unsafe.Sizeof(Query{})]
	_ = [1]struct{}{}[uintptr(C.sizeof_rtfilter_info)-unsafe.Sizeof(Info{})]
	_ = [1]struct{}{}[uintptr(C.sizeof_rtfilter_score)-unsafe.Sizeof(Score{})]
)
