// GEOS's STR-packed tree with 16 children a node, which the C++ header names as unstable. It finds one nearest item, not k:
// a window grows until enough boxes lie within its half width.
#include "peer.hpp"
#include <cmath>
#include <geos/geom/Envelope.h>
#include <geos/index/strtree/TemplateSTRtree.h>
#include <memory>

class Geos {
    using Envelope = geos::geom::Envelope;

    const Table &table;
    mutable geos::index::strtree::TemplateSTRtree<uint32_t> tree;
    int64_t reach;  // half the side of a square of about ten boxes, if they are uniform

    static Envelope envelope(const Box &b) {
        return Envelope(static_cast<double>(b.min_x), static_cast<double>(b.max_x),
                        static_cast<double>(b.min_y), static_cast<double>(b.max_y));
    }
    template <class Visit> void window(const Box &around, Visit visit) const {
        tree.query(envelope(around), [&](uint32_t at) { visit(at); });
    }

public:
    explicit Geos(const Table &table) : table(table), tree(16, table.boxes.size()) {
        Envelope all;
        for (size_t at = 0; at < table.boxes.size(); at++) {
            tree.insert(envelope(table.boxes[at]), static_cast<uint32_t>(at));
            all.expandToInclude(envelope(table.boxes[at]));
        }
        tree.build();
        reach = static_cast<int64_t>(std::sqrt(10 * all.getArea() / static_cast<double>(table.boxes.size() + 1)) / 2) + 1;
    }

    // For another thread: once it is built, no search changes it.
    static std::shared_ptr<Geos> shared(const std::shared_ptr<Geos> &it) { return it; }

    template <class Visit> void search(const Query &q, Visit visit) const { window(q.around, visit); }

    void nearest(const Query &q, std::vector<Hit> &hits) const {
        for (int64_t half = reach; hits.size() < q.limit; half *= 2) {
            hits.clear();
            u128 half2 = static_cast<u128>(half) * static_cast<u128>(half);
            window(box_around(q.place, half), [&](size_t at) {
                u128 score = near2(q.place, table.boxes[at]);
                if (score <= half2 && accepts(q, table, at)) hits.push_back({score, table.ids[at]});
            });
            if (half > INT64_C(1) << 33) return;  // no box of the plane is farther
        }
    }
};

PEER(Geos)
