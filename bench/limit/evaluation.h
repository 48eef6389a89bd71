// The value of an expression over rows. `Row` says how a row keeps its values.
#pragma once

#include "script.h"

namespace {

enum class Event : uint8_t { Create, Update, Delete, Signal, Commit, Fire };

inline bool has_object(Event event) { return event <= Event::Delete; }

template <class Row> struct Occurrence {
    Event event;
    // The class of an object's event, the object's key and its rows. A row that there isn't is null.
    int class_number;
    int64_t key;
    Row *before, *after;
    // Of a signal.
    const Value *arguments;
    int count;

    // An occurrence of these engines has one part, and that of `fire` has none.
    int parts() const { return event == Event::Fire ? 0 : 1; }
};

template <class Row> struct Binding {
    int64_t key;
    Row *row;
};

template <class Row> struct Answer {
    Binding<Row> *rows;
    int count;
};

// What a body or an expression may ask for.
template <class Row> struct Frame {
    const Occurrence<Row> *occurrence;
    Binding<Row> *slots;
    Answer<Row> *answers;
    int rule, depth;
};

template <class Row> Value field_of_occurrence(const Expression &given, const Frame<Row> &frame) {
    const Occurrence<Row> *from = frame.occurrence;
    if (!from || given.part >= from->parts() || !has_object(from->event)) return fault(NOT_IN_OCCURRENCE);
    const Row *row = given.op == Operator::New ? from->after : from->before;
    if (!row) return fault(NOT_IN_OCCURRENCE);
    int place = script.place(given.name, from->class_number);
    if (place < 0) return fault(WRONG_KIND);
    return row->value(place, script.classes[from->class_number].kinds[place]);
}

template <class Row> Value id_or_argument(const Expression &given, const Frame<Row> &frame) {
    const Occurrence<Row> *from = frame.occurrence;
    if (!from || given.part >= from->parts()) return fault(NOT_IN_OCCURRENCE);
    if (given.op == Operator::Id) return has_object(from->event) ? integer(from->key) : fault(NOT_IN_OCCURRENCE);
    bool has_argument = from->event == Event::Signal && given.slot < from->count;
    return has_argument ? from->arguments[given.slot] : fault(NOT_IN_OCCURRENCE);
}

Value negated(Value given) {
    if (given.kind == Kind::Fault) return given;
    if (given.kind != Kind::Integer) return fault(WRONG_KIND);
    return given.word == INT64_MIN ? fault(OUT_OF_RANGE) : integer(-given.word);
}

Value inverse(Value given) {
    if (given.kind == Kind::Fault) return given;
    return given.kind == Kind::Boolean ? boolean(!given.word) : fault(WRONG_KIND);
}

Value calculated(Operator op, Value left, Value right) {
    if (left.kind != Kind::Integer || right.kind != Kind::Integer) return fault(WRONG_KIND);
    int64_t x = left.word, y = right.word, found;
    switch (op) {
    case Operator::Add: return __builtin_add_overflow(x, y, &found) ? fault(OUT_OF_RANGE) : integer(found);
    case Operator::Subtract: return __builtin_sub_overflow(x, y, &found) ? fault(OUT_OF_RANGE) : integer(found);
    case Operator::Multiply: return __builtin_mul_overflow(x, y, &found) ? fault(OUT_OF_RANGE) : integer(found);
    default: break;
    }
    if (y == 0) return fault(DIVISION_BY_ZERO);
    if (x == INT64_MIN && y == -1) return fault(OUT_OF_RANGE);
    return integer(op == Operator::Divide ? x / y : x % y);
}

Value compared(Operator op, Value left, Value right) {
    if (left.kind != right.kind) return fault(WRONG_KIND);
    if (op == Operator::Equal) return boolean(left.word == right.word);
    if (op == Operator::Unequal) return boolean(left.word != right.word);
    if (left.kind == Kind::Boolean) return fault(WRONG_KIND);
    int64_t x = left.word, y = right.word;
    if (left.kind == Kind::Text) {
        x = script.texts[x].compare(script.texts[y]);
        y = 0;
    }
    switch (op) {
    case Operator::Less: return boolean(x < y);
    case Operator::AtMost: return boolean(x <= y);
    case Operator::Greater: return boolean(x > y);
    default: return boolean(x >= y);
    }
}

template <class Row> Value evaluate(const Expression *given, const Frame<Row> &frame);

// `and` and `or`: the right side counts only if the left one doesn't decide.
template <class Row> Value decided(const Expression &given, const Frame<Row> &frame) {
    Value left = evaluate(given.left, frame);
    if (left.kind == Kind::Fault) return left;
    if (left.kind != Kind::Boolean) return fault(WRONG_KIND);
    if ((left.word != 0) == (given.op == Operator::Or)) return left;
    Value right = evaluate(given.right, frame);
    return right.kind == Kind::Boolean || right.kind == Kind::Fault ? right : fault(WRONG_KIND);
}

// A value, or a fault.
template <class Row> Value evaluate(const Expression *given, const Frame<Row> &frame) {
    switch (given->op) {
    case Operator::Constant: return given->constant;
    case Operator::Field:
        if (given->field < 0) return fault(WRONG_KIND);
        return frame.slots[given->slot].row->value(given->field, given->kind);
    case Operator::Key: return integer(frame.slots[given->slot].key);
    case Operator::New:
    case Operator::Old: return field_of_occurrence(*given, frame);
    case Operator::Id:
    case Operator::Argument: return id_or_argument(*given, frame);
    case Operator::Time: return fault(NOT_IN_OCCURRENCE);
    case Operator::Count:
        return frame.occurrence ? integer(frame.occurrence->parts()) : fault(NOT_IN_OCCURRENCE);
    case Operator::Negate: return negated(evaluate(given->left, frame));
    case Operator::Not: return inverse(evaluate(given->left, frame));
    case Operator::And:
    case Operator::Or: return decided(*given, frame);
    default: break;
    }
    Value left = evaluate(given->left, frame);
    if (left.kind == Kind::Fault) return left;
    Value right = evaluate(given->right, frame);
    if (right.kind == Kind::Fault) return right;
    return given->op < Operator::Equal ? calculated(given->op, left, right) : compared(given->op, left, right);
}

}  // namespace
