// An engine that keeps what hipac has to keep: rows that never change, each counted by those that hold it, in any
// thread; a view over a store of ordered maps, whose reads are recorded and whose writes can be undone; and the tree of
// all firings, with the row of each operation, to the end of the run.
#include "engine.h"

#include <atomic>
#include <map>
#include <set>

namespace {

struct KeptRow {
    std::atomic<uint32_t> holders;
    uint32_t count;
    Value values[1];

    Value value(int place, Kind) const { return values[place]; }
    void set(int place, Value given) { values[place] = given; }
};

KeptRow *hold(KeptRow *row) {
    if (row) row->holders.fetch_add(1, std::memory_order_relaxed);
    return row;
}

void let_go(KeptRow *row) {
    if (row && row->holders.fetch_sub(1, std::memory_order_acq_rel) == 1) free(row);
}

// ---- the view of a unit

// An object that the unit has read or written: its row now, and the one beneath if the unit has read it.
struct Seen {
    int class_number;
    bool is_written;
    int64_t key;
    KeptRow *now, *beneath;
};

using Rows = std::map<int64_t, KeptRow *>;

// What a unit has read and written, found by a hash table.
class View {
public:
    std::vector<Seen> cells;

    // The number of an object's cell. A cell that isn't there yet is read from the store.
    int cell(int class_number, int64_t key, const Rows &store) {
        size_t at = first_slot(class_number, key);
        for (; slots[at] >= 0; at = (at + 1) & (slots.size() - 1)) {
            const Seen &seen = cells[slots[at]];
            if (seen.key == key && seen.class_number == class_number) return slots[at];
        }
        return read(class_number, key, at, store);
    }

    void clear() {
        for (Seen &seen : cells) {
            let_go(seen.now);
            let_go(seen.beneath);
        }
        cells.clear();
        slots.assign(slots.size() > MOST_KEPT ? FEWEST : slots.size(), -1);
    }

private:
    static const size_t FEWEST = 64, MOST_KEPT = 256;
    std::vector<int> slots = std::vector<int>(FEWEST, -1);

    size_t first_slot(int class_number, int64_t key) const {
        uint64_t both = static_cast<uint64_t>(key) ^ static_cast<uint64_t>(class_number) << 56;
        return (both * 0x9E3779B97F4A7C15 >> 20) & (slots.size() - 1);
    }

    int read(int class_number, int64_t key, size_t at, const Rows &store) {
        auto found = store.find(key);
        KeptRow *row = found == store.end() ? nullptr : found->second;
        int number = static_cast<int>(cells.size());
        slots[at] = number;
        cells.push_back({class_number, false, key, hold(row), hold(row)});
        if (2 * cells.size() > slots.size()) grow();
        return number;
    }

    void grow() {
        slots.assign(2 * slots.size(), -1);
        for (size_t number = 0; number < cells.size(); number++) {
            size_t at = first_slot(cells[number].class_number, cells[number].key);
            while (slots[at] >= 0) at = (at + 1) & (slots.size() - 1);
            slots[at] = static_cast<int>(number);
        }
    }
};

// ---- the tree

enum class Item : uint8_t { Write, Emit, Enter, Leave };

// A node's items stand between its beginning and its end.
struct TreeItem {
    Item item;
    Part part;
    // How the node ended.
    int end;
    // The class of what was written, or the rule of a node.
    int number;
    int64_t key;
    // The row that was written, the value that was emitted, or the place of the node's end.
    union {
        KeptRow *row;
        const Value *value;
        size_t last;
    };
};

class KeptStore {
public:
    using Row = KeptRow;
    using Cell = int;
    using Node = size_t;
    struct Mark {
        size_t writes;
    };

    Cell find(int class_number, int64_t key) { return view.cell(class_number, key, tables[class_number]); }
    Row *now(Cell cell) { return view.cells[cell].now; }

    Row *copy(int class_number, const Row *before) {
        uint32_t count = static_cast<uint32_t>(script.classes[class_number].fields.size());
        auto *made = static_cast<Row *>(malloc(sizeof(Row) + count * sizeof(Value)));
        if (!made) fail("no memory");
        new (&made->holders) std::atomic<uint32_t>(1);
        made->count = count;
        for (uint32_t place = 0; before && place < count; place++) made->values[place] = before->values[place];
        return made;
    }

    // The list of writes holds the row before.
    void write(int class_number, int64_t key, Cell cell, Row *row) {
        Seen &seen = view.cells[cell];
        writes.push_back({cell, seen.is_written, seen.now});
        seen.now = row;
        seen.is_written = true;
        tree.push_back({Item::Write, Part::Sub, 0, class_number, key, {hold(row)}});
    }

    template <class Function> int for_each(int class_number, Function function) {
        std::set<int64_t> keys;
        for (auto &row : tables[class_number]) keys.insert(row.first);
        for (const Seen &seen : view.cells)
            if (seen.class_number == class_number) keys.insert(seen.key);
        for (int64_t key : keys)
            if (Row *row = now(find(class_number, key)))
                if (int end = function(key, row)) return end;
        return 0;
    }

    Row *share(Row *row) { return hold(row); }
    void drop(Row *row) { let_go(row); }

    Node enter(Part part, int rule) {
        tree.push_back({Item::Enter, part, 0, rule, 0, {nullptr}});
        return tree.size() - 1;
    }

    void leave(Node node, int end) {
        tree[node].end = end;
        tree[node].last = tree.size();
        tree.push_back({Item::Leave, Part::Sub, end, 0, 0, {nullptr}});
    }

    void emit(Value value) {
        Value *kept = lasting_memory.many<Value>(1);
        *kept = value;
        tree.push_back({Item::Emit, Part::Sub, 0, 0, 0, {nullptr}});
        tree.back().value = kept;
    }

    // The values of those nodes that weren't aborted.
    void add_emits(std::string &text) {
        for (size_t at = first; at < tree.size(); at++) {
            if (tree[at].item == Item::Enter && tree[at].end) at = tree[at].last;
            else if (tree[at].item == Item::Emit) {
                add_value(text += "emit ", *tree[at].value);
                text += '\n';
            }
        }
    }

    Mark mark() const { return {writes.size()}; }

    void undo_to(const Mark &mark) {
        for (; writes.size() > mark.writes; writes.pop_back()) {
            const Write &last = writes.back();
            Seen &seen = view.cells[last.cell];
            let_go(seen.now);
            seen.now = last.before;
            seen.is_written = last.was_written;
        }
    }

    void end_unit() {
        for (const Seen &seen : view.cells)
            if (seen.is_written) commit(seen);
        for (const Write &write : writes) let_go(write.before);
        writes.clear();
        view.clear();
        first = tree.size();
    }

    void add_objects(std::string &text) {
        for (size_t number = 0; number < tables.size(); number++)
            for (auto &row : tables[number]) add_object(text, script.classes[number], row.first, *row.second);
    }

private:
    struct Write {
        Cell cell;
        bool was_written;
        Row *before;
    };

    std::vector<Rows> tables = std::vector<Rows>(script.classes.size());
    View view;
    std::vector<Write> writes;
    std::vector<TreeItem> tree;
    // The place of the unit's first item in the tree.
    size_t first = 0;

    void commit(const Seen &seen) {
        Rows &rows = tables[seen.class_number];
        auto found = rows.find(seen.key);
        if (found != rows.end()) {
            let_go(found->second);
            if (seen.now) found->second = hold(seen.now);
            else rows.erase(found);
        } else if (seen.now) {
            rows.emplace(seen.key, hold(seen.now));
        }
    }
};

}  // namespace

int main() { run_program<KeptStore>(); }
