// An engine that changes objects in place. Beside them it keeps what an abort needs, and nothing else: an object is
// found by one probe of a hash table, and a row is written by one store of a pointer.
#include "engine.h"

#include <algorithm>
#include <cstring>

namespace {

// The words of a row; its class says of which kinds they are.
struct InPlaceRow {
    int64_t words[1];

    Value value(int place, Kind kind) const { return {kind, words[place]}; }
    void set(int place, Value given) { words[place] = given.word; }
};

// An object that there is or was.
struct Object {
    int64_t key;
    // Its row now, or null if there is no such object.
    InPlaceRow *now;
    int class_number;
    // The unit that has last written it.
    uint32_t unit;
    // Its row between units.
    InPlaceRow kept;
};

size_t size_of(int class_number) { return script.classes[class_number].fields.size() * sizeof(int64_t); }

// The objects of a class: a hash table with linear probing, and a list by rising keys.
class Table {
public:
    Object *find(int64_t key) const {
        if (slots.empty()) return nullptr;
        size_t at = first_slot(key);
        while (slots[at] && slots[at]->key != key) at = (at + 1) & (slots.size() - 1);
        return slots[at];
    }

    Object *add(int class_number, int64_t key) {
        if (2 * (sorted.size() + 1) >= slots.size()) grow();
        auto *made = static_cast<Object *>(lasting_memory.piece(sizeof(Object) + size_of(class_number)));
        *made = {key, nullptr, class_number, 0, {}};
        place(made);
        is_sorted = is_sorted && (sorted.empty() || sorted.back()->key < key);
        sorted.push_back(made);
        return made;
    }

    const std::vector<Object *> &by_key() {
        auto has_lower_key = [](const Object *one, const Object *other) { return one->key < other->key; };
        if (!is_sorted) std::sort(sorted.begin(), sorted.end(), has_lower_key);
        is_sorted = true;
        return sorted;
    }

private:
    std::vector<Object *> slots, sorted;
    bool is_sorted = true;

    size_t first_slot(int64_t key) const {
        return (static_cast<uint64_t>(key) * 0x9E3779B97F4A7C15 >> 20) & (slots.size() - 1);
    }

    void place(Object *given) {
        size_t at = first_slot(given->key);
        while (slots[at]) at = (at + 1) & (slots.size() - 1);
        slots[at] = given;
    }

    void grow() {
        slots.assign(slots.empty() ? 16 : 2 * slots.size(), nullptr);
        for (Object *object : sorted) place(object);
    }
};

class InPlaceStore {
public:
    using Row = InPlaceRow;
    using Cell = Object *;
    struct Node {};
    struct Mark {
        size_t writes, emits;
    };

    Cell find(int class_number, int64_t key) { return tables[class_number].find(key); }
    Row *now(Cell cell) { return cell ? cell->now : nullptr; }

    Row *copy(int class_number, const Row *before) {
        size_t size = size_of(class_number);
        auto *made = static_cast<Row *>(transaction_memory.piece(size));
        if (before) memcpy(made, before, size);
        return made;
    }

    void write(int class_number, int64_t key, Cell cell, Row *row) {
        if (!cell) cell = tables[class_number].add(class_number, key);
        writes.push_back({cell, cell->now});
        if (cell->unit != unit) written.push_back(cell);
        cell->unit = unit;
        cell->now = row;
    }

    template <class Function> int for_each(int class_number, Function function) {
        for (Object *object : tables[class_number].by_key())
            if (object->now)
                if (int end = function(object->key, object->now)) return end;
        return 0;
    }

    Row *share(Row *row) { return row; }
    void drop(const Row *) {}
    Node enter(Part, int) { return {}; }
    void leave(Node, int) {}
    void emit(Value value) { emits.push_back(value); }

    void add_emits(std::string &text) {
        for (Value value : emits) {
            add_value(text += "emit ", value);
            text += '\n';
        }
    }

    Mark mark() const { return {writes.size(), emits.size()}; }

    void undo_to(const Mark &mark) {
        for (; writes.size() > mark.writes; writes.pop_back()) writes.back().object->now = writes.back().before;
        emits.resize(mark.emits);
    }

    void end_unit() {
        for (Object *object : written) {
            if (!object->now || object->now == &object->kept) continue;
            memcpy(&object->kept, object->now, size_of(object->class_number));
            object->now = &object->kept;
        }
        written.clear();
        writes.clear();
        emits.clear();
        unit++;
    }

    void add_objects(std::string &text) {
        for (size_t number = 0; number < tables.size(); number++)
            for (Object *object : tables[number].by_key())
                if (object->now) add_object(text, script.classes[number], object->key, *object->now);
    }

private:
    struct Write {
        Object *object;
        Row *before;
    };

    std::vector<Table> tables = std::vector<Table>(script.classes.size());
    std::vector<Write> writes;
    std::vector<Object *> written;
    std::vector<Value> emits;
    uint32_t unit = 1;
};

}  // namespace

int main() { run_program<InPlaceStore>(); }
