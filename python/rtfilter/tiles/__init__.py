"""A map of a table of boxes, as a page and as vector tiles: the command rtfilter-tiles, whose page is docs/tiles.md."""
