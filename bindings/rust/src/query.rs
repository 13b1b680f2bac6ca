//! Queries in numbers.

/// A point, for example a vertex of a polygon.
#[repr(C)]
#[derive(Clone, Copy, Debug, Default, PartialEq, Eq, Hash)]
pub struct Point {
    pub x: i32,
    pub y: i32,
}

impl From<(i32, i32)> for Point {
    fn from((x, y): (i32, i32)) -> Point {
        Point { x, y }
    }
}

/// A box without an id. Touching counts: its sides belong to it.
#[derive(Clone, Copy, Debug, PartialEq, Eq, Hash)]
pub struct Bounds {
    pub min_x: i32,
    pub max_x: i32,
    pub min_y: i32,
    pub max_y: i32,
}

/// Which boxes a query accepts.
#[derive(Clone, Copy, Debug, PartialEq, Eq, Hash)]
#[non_exhaustive]
pub enum Region {
    /// All boxes.
    All,
    /// Those that overlap these bounds.
    Window(Bounds),
    /// Those that lie within these bounds.
    Inside(Bounds),
    /// Those within which these bounds lie.
    Covers(Bounds),
    /// Those at most `radius` from a point.
    Circle { centre: Point, radius: u32 },
    /// Those that overlap a convex polygon of 3 to 16 vertices, in order round it: those of the call from an index on.
    Polygon { first_vertex: u32, vertices: u32 },
}

/// The order of answers: by score, the lowest first, and at equal scores by id.
#[derive(Clone, Copy, Debug, PartialEq, Eq, Hash)]
#[non_exhaustive]
pub enum Order {
    /// All scores are 0.
    ById,
    /// The score is the square of the distance from a point.
    Near(Point),
    /// The score is the area.
    Smallest,
}

/// A query: a region, an order, layers and a limit.
///
/// ```
/// use rtfilter::{Order, Query};
///
/// let query = Query::window(0, 10, 0, 10).on(1 << 3).order(Order::Smallest).first(5);
/// assert_eq!(query, Query::window(0, 10, 0, 10).on(1 << 3).smallest().first(5));
/// ```
#[repr(C)]
#[derive(Clone, Copy, Debug, PartialEq, Eq, Hash)]
pub struct Query {
    region: u32,
    order: u32,
    min_x: i32,
    max_x: i32,
    min_y: i32,
    max_y: i32,
    x: i32,
    y: i32,
    radius: u32,
    near_x: i32,
    near_y: i32,
    first_vertex: u32,
    vertices: u32,
    reserved: u32,
    layers: u64,
    pub(crate) limit: u64,
}

impl Query {
    /// All boxes, by id.
    pub const ALL: Query = Query {
        region: 0,
        order: 0,
        min_x: 0,
        max_x: 0,
        min_y: 0,
        max_y: 0,
        x: 0,
        y: 0,
        radius: 0,
        near_x: 0,
        near_y: 0,
        first_vertex: 0,
        vertices: 0,
        reserved: 0,
        layers: u64::MAX,
        limit: u64::MAX,
    };

    /// The boxes of a region, by id, on all layers, without a limit.
    pub fn new(region: Region) -> Query {
        match region {
            Region::All => Query::ALL,
            Region::Window(it) => Query::of_bounds(1, it),
            Region::Inside(it) => Query::of_bounds(2, it),
            Region::Covers(it) => Query::of_bounds(3, it),
            Region::Circle { centre, radius } => Query { region: 4, x: centre.x, y: centre.y, radius, ..Query::ALL },
            Region::Polygon { first_vertex, vertices } => Query { region: 5, first_vertex, vertices, ..Query::ALL },
        }
    }

    fn of_bounds(region: u32, it: Bounds) -> Query {
        Query { region, min_x: it.min_x, max_x: it.max_x, min_y: it.min_y, max_y: it.max_y, ..Query::ALL }
    }

    /// The boxes that overlap a window, by id.
    pub fn window(min_x: i32, max_x: i32, min_y: i32, max_y: i32) -> Query {
        Query::new(Region::Window(Bounds { min_x, max_x, min_y, max_y }))
    }

    /// The boxes that lie within a window, by id.
    pub fn inside(min_x: i32, max_x: i32, min_y: i32, max_y: i32) -> Query {
        Query::new(Region::Inside(Bounds { min_x, max_x, min_y, max_y }))
    }

    /// The boxes within which a window lies, by id.
    pub fn covers(min_x: i32, max_x: i32, min_y: i32, max_y: i32) -> Query {
        Query::new(Region::Covers(Bounds { min_x, max_x, min_y, max_y }))
    }

    /// The boxes at most `radius` from (x, y), the nearest first.
    pub fn circle(x: i32, y: i32, radius: u32) -> Query {
        Query::new(Region::Circle { centre: Point { x, y }, radius }).near(x, y)
    }

    /// The boxes that overlap a convex polygon, by id: the vertices of the call from an index on.
    pub fn polygon(first_vertex: u32, vertices: u32) -> Query {
        Query::new(Region::Polygon { first_vertex, vertices })
    }

    /// The k boxes nearest to (x, y), the nearest first.
    pub fn nearest(x: i32, y: i32, k: u64) -> Query {
        Query::ALL.near(x, y).first(k)
    }

    /// The same in another order.
    pub fn order(self, order: Order) -> Query {
        match order {
            Order::ById => Query { order: 0, ..self },
            Order::Near(it) => Query { order: 1, near_x: it.x, near_y: it.y, ..self },
            Order::Smallest => Query { order: 2, ..self },
        }
    }

    /// The same, the nearest to (x, y) first.
    pub fn near(self, x: i32, y: i32) -> Query {
        self.order(Order::Near(Point { x, y }))
    }

    /// The same, the smallest first.
    pub fn smallest(self) -> Query {
        self.order(Order::Smallest)
    }

    /// The same on the layers whose bits are set, at least one.
    pub fn on(self, layers: u64) -> Query {
        Query { layers, ..self }
    }

    /// The same query with a limit on the number of answers.
    pub fn first(self, limit: u64) -> Query {
        Query { limit, ..self }
    }
}
