"""Finds boxes in this process, exactly: complete answers, in order.

    from rtfilter import Rtfilter, Window

    boxes = Rtfilter("boxes.csv")
    boxes.find(Window(0, 10, 0, 10))  # min_x, max_x, min_y, max_y: a list of ids

A table is in the memory of this process, and any number of threads may query it. `Client` queries a table that a service
holds; `Tables` queries several tables as one, and `rtfilter.dask` those of a cluster. `rtfilter.geometry` has a tree of
geometries, `rtfilter.zones` points in polygons, `rtfilter.index` rtree's calls.
"""

from . import _engine
from .client import Client as Client
from .errors import (
    Disconnected as Disconnected,
    QueryError as QueryError,
    RtfilterError as RtfilterError,
    TableError as TableError,
    TimedOut as TimedOut,
)
from .regions import (
    All as All,
    Circle as Circle,
    Covers as Covers,
    Inside as Inside,
    Layers as Layers,
    Near as Near,
    Order as Order,
    Polygon as Polygon,
    Region as Region,
    Smallest as Smallest,
    Window as Window,
)
from .replies import (
    Answers as Answers,
    Reply as Reply,
)
from .table import Rtfilter as Rtfilter
from .tables import Tables as Tables

__version__ = _engine.version
