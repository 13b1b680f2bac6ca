// No index: each query looks at every box.
#include "peer.hpp"

class Scan {
    const Table &table;

public:
    explicit Scan(const Table &table) : table(table) {}

    template <class Visit> void search(const Query &q, Visit visit) const {
        for (size_t at = 0; at < table.boxes.size(); at++)
            if (overlaps(table.boxes[at], q.around)) visit(at);
    }
    void nearest(const Query &q, std::vector<Hit> &hits) const {
        for (size_t at = 0; at < table.boxes.size(); at++)
            if (accepts(q, table, at)) hits.push_back({near2(q.place, table.boxes[at]), table.ids[at]});
    }
};

PEER(Scan)
