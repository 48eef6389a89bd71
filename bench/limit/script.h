// What a script is once it is loaded: each name is a number, and each variable a slot of a frame.
#pragma once

#include <cstdint>
#include <string>
#include <string_view>
#include <unordered_map>
#include <vector>

namespace {

// ---- values

enum class Kind : uint32_t { Integer, Boolean, Text, Fault };

// A value in 16 bytes. The word of a text is its number, and that of a fault is the number of its cause.
struct Value {
    Kind kind;
    int64_t word;
};

// The causes A1 to A8 by their numbers.
enum Cause {
    ALREADY_THERE = 1, NOT_THERE, WRONG_KIND, OUT_OF_RANGE, DIVISION_BY_ZERO, NOT_IN_OCCURRENCE, TOO_DEEP, ABORTED,
};

inline Value integer(int64_t word) { return {Kind::Integer, word}; }
inline Value boolean(bool word) { return {Kind::Boolean, word}; }
inline Value fault(Cause cause) { return {Kind::Fault, cause}; }

// ---- expressions

enum class Operator : uint8_t {
    Constant, Field, Key, New, Old, Id, Argument, Time, Count, Negate, Not, And, Or,
    Add, Subtract, Multiply, Divide, Remainder, Equal, Unequal, Less, AtMost, Greater, AtLeast,
};

struct Expression {
    Operator op;
    // Of `Field`: the field's kind, its place in its class (or -1), and the slot of the row. Of `Argument`: its number.
    Kind kind;
    int16_t field;
    uint16_t slot;
    // Of what asks the occurrence: the part, and the number of the field's name.
    uint16_t part;
    int32_t name;
    Expression *left, *right;
    Value constant;
};

// ---- statements and rules

enum class Form : uint8_t {
    Create, Update, Delete, Signal, Emit, If, Each, For, With, Sub, Abort, Veto, Install, Enable, Disable, Remove, Fire,
};

struct Statement;

struct Body {
    Statement *statements;
    int count;
};

struct Assignment {
    int field;
    Kind kind;
    Expression *value;
};

struct Query {
    std::string_view name;
    int class_number, slot;
    Expression *predicate;
    // The key that the predicate asks for first, if it begins by comparing the row's key; or else null.
    Expression *key;
};

struct Statement {
    Form form;
    uint16_t slot;
    // The number of the class, the signal or the rule.
    int target;
    // The key, the value that is emitted, or the test.
    Expression *value;
    Assignment *assignments;
    Expression **arguments;
    // How many assignments or arguments there are.
    int count;
    // Of `Each`: its query. Of `For`: the number of the rule's query.
    Query *query;
    int answer;
    Body body, otherwise;
};

enum class Mode : uint8_t { Immediate, Deferred };

struct Rule {
    std::string_view name;
    Mode condition_mode, action_mode;
    std::vector<Query> queries;
    Body action;
    int slots;
};

enum class Status : uint8_t { Absent, Enabled, Disabled };

struct Class {
    std::string_view name;
    std::vector<std::string_view> fields;
    std::vector<Kind> kinds;
    // The rules that hear of created, updated and deleted objects, in the order of the library.
    std::vector<int> on_create, on_update, on_delete;
};

struct Transaction {
    Body body;
    int slots;
};

// ---- the script

using Numbers = std::unordered_map<std::string_view, int>;

struct Script {
    int depth_limit = 8;
    std::vector<Class> classes;
    std::vector<Rule> rules;
    std::vector<Transaction> transactions;
    // The rules that hear of each signal, and of a commit.
    std::vector<std::vector<int>> on_signal;
    std::vector<int> on_commit;
    std::vector<std::string> texts;
    Numbers class_numbers, rule_numbers, signal_numbers, field_numbers;
    std::unordered_map<std::string, int> text_numbers;
    // The place of a field in a class, or -1: at the number of its name times the number of classes, plus the class.
    std::vector<int16_t> places;

    int place(int name, int class_number) const { return places[name * classes.size() + class_number]; }
};

Script script;

}  // namespace
