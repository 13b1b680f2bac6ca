// libspatialindex's R-tree in memory, filled by its STR bulk load, with 16 children a node. Its coordinates are floating
// point, which holds 32 bits exactly.
#include "peer.hpp"
#include <memory>
#include <spatialindex/SpatialIndex.h>

namespace library = SpatialIndex;

class Boxes : public library::IDataStream {
    const Table &table;
    size_t at = 0;

public:
    explicit Boxes(const Table &table) : table(table) {}

    static library::Region region(const Box &b) {
        double low[] = {static_cast<double>(b.min_x), static_cast<double>(b.min_y)};
        double high[] = {static_cast<double>(b.max_x), static_cast<double>(b.max_y)};
        return library::Region(low, high, 2);
    }
    library::IData *getNext() override {
        library::Region sides = region(table.boxes[at]);
        return new library::RTree::Data(0, nullptr, sides, static_cast<library::id_type>(at++));
    }
    bool hasNext() override { return at < table.boxes.size(); }
    uint32_t size() override { return static_cast<uint32_t>(table.boxes.size()); }
    void rewind() override { at = 0; }
};

template <class Take> class Visitor : public library::IVisitor {
    Take take;

public:
    explicit Visitor(Take take) : take(take) {}
    void visitNode(const library::INode &) override {}
    void visitData(const library::IData &data) override { take(static_cast<size_t>(data.getIdentifier())); }
    void visitData(std::vector<const library::IData *> &) override {}
};

class Spatialindex {
    const Table &table;
    std::unique_ptr<library::IStorageManager> storage;
    std::unique_ptr<library::ISpatialIndex> tree;

public:
    // A capacity of 17 filled to 0.95 gives 16 children: a fill of 1 is refused.
    explicit Spatialindex(const Table &table)
        : table(table), storage(library::StorageManager::createNewMemoryStorageManager()) {
        if (table.boxes.empty()) return;
        Boxes boxes(table);
        library::id_type id;
        tree.reset(library::RTree::createAndBulkLoadNewRTree(library::RTree::BLM_STR, boxes, *storage, 0.95, 17, 17, 2,
                                                              library::RTree::RV_RSTAR, id));
    }

    // For another thread: none, since a search changes what its storage and its pools of nodes hold.
    static std::shared_ptr<Spatialindex> shared(const std::shared_ptr<Spatialindex> &) { return nullptr; }

    template <class Visit> void search(const Query &q, Visit visit) const {
        Visitor<Visit> visitor(visit);
        if (tree) tree->intersectsWithQuery(Boxes::region(q.around), visitor);
    }

    // It measures distances in floating point: so more are asked for until all others are surely farther than the last.
    void nearest(const Query &q, std::vector<Hit> &hits) const {
        double place[] = {static_cast<double>(q.place.x), static_cast<double>(q.place.y)};
        library::Point point(place, 2);
        for (uint64_t wanted = q.limit + 4; tree && q.limit > 0; wanted *= 2) {
            hits.clear();
            u128 farthest = 0;
            auto take = [&](size_t at) {
                u128 score = near2(q.place, table.boxes[at]);
                farthest = std::max(farthest, score);
                if (accepts(q, table, at)) hits.push_back({score, table.ids[at]});
            };
            Visitor<decltype(take)> visitor(take);
            tree->nearestNeighborQuery(static_cast<uint32_t>(std::min<uint64_t>(wanted, table.ids.size())), point, visitor);
            if (wanted >= table.ids.size()) return;
            if (hits.size() < q.limit) continue;
            std::vector<u128> scores;
            for (const Hit &hit : hits) scores.push_back(hit.score);
            std::nth_element(scores.begin(), scores.begin() + static_cast<std::ptrdiff_t>(q.limit - 1), scores.end());
            if (farthest - (farthest >> 40) > scores[q.limit - 1]) return;
        }
    }
};

PEER(Spatialindex)
