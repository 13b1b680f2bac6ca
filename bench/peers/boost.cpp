// Boost.Geometry's R-tree, filled by its packing constructor, with 16 children a node. Its coordinates are floating point,
// which holds 32 bits exactly: differences of whole numbers run over in it.
#include "peer.hpp"
#include <boost/geometry.hpp>
#include <boost/geometry/index/rtree.hpp>
#include <boost/iterator/function_output_iterator.hpp>
#include <memory>

namespace geometry = boost::geometry;
namespace rtree = boost::geometry::index;

class Boost {
    using Corner = geometry::model::point<double, 2, geometry::cs::cartesian>;
    using Rectangle = geometry::model::box<Corner>;
    using Value = std::pair<Rectangle, uint32_t>;

    const Table &table;
    rtree::rtree<Value, rtree::rstar<16>> tree;

    static Rectangle rectangle(const Box &b) {
        return {Corner(b.min_x, b.min_y), Corner(b.max_x, b.max_y)};
    }

    static std::vector<Value> values(const Table &table) {
        std::vector<Value> values;
        values.reserve(table.boxes.size());
        for (size_t at = 0; at < table.boxes.size(); at++) values.emplace_back(rectangle(table.boxes[at]), at);
        return values;
    }

public:
    explicit Boost(const Table &table) : table(table), tree(values(table)) {}

    // For another thread: no search changes it.
    static std::shared_ptr<Boost> shared(const std::shared_ptr<Boost> &it) { return it; }

    template <class Visit> void search(const Query &q, Visit visit) const {
        auto each = boost::make_function_output_iterator([&](const Value &value) { visit(value.second); });
        if (q.region == Query::Covers) tree.query(rtree::covers(rectangle(q.around)), each);
        else tree.query(rtree::intersects(rectangle(q.around)), each);
    }

    // It measures distances in floating point: so more are asked for until all others are surely farther than the last.
    void nearest(const Query &q, std::vector<Hit> &hits) const {
        Corner centre(static_cast<double>(q.place.x), static_cast<double>(q.place.y));
        auto fits = rtree::satisfies([&](const Value &value) { return accepts(q, table, value.second); });
        for (uint64_t wanted = q.limit + 4;; wanted *= 2) {
            hits.clear();
            wanted = std::min<uint64_t>(wanted, tree.size());
            if (wanted == 0) return;
            tree.query(rtree::nearest(centre, static_cast<unsigned>(wanted)) && fits,
                       boost::make_function_output_iterator([&](const Value &value) {
                           hits.push_back({near2(q.place, table.boxes[value.second]), table.ids[value.second]});
                       }));
            if (hits.size() < wanted || wanted == tree.size() || q.limit == 0) return;
            std::vector<u128> scores;
            for (const Hit &hit : hits) scores.push_back(hit.score);
            std::sort(scores.begin(), scores.end());
            if (scores.back() - (scores.back() >> 40) > scores[q.limit - 1]) return;
        }
    }
};

PEER(Boost)
