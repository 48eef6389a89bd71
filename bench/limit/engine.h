// Runs a script over a store. Both engines are this code, each with a store of its own.
//
// A store has, besides the types Row, Cell, Node and Mark:
//   find, now          the cell of an object, and its row now, or null if there is no such object
//   copy, write        a row like another one or, for null, without values; makes a row an object's, null deletes it
//   for_each           passes the objects of a class to a function, by rising keys, until it answers other than 0
//   share, drop        count who holds a row
//   enter, leave       the beginning and the end of a firing or of a subtransaction
//   emit, add_emits    keeps a value; writes those of the unit
//   mark, undo_to      undoes what was written and emitted since a mark
//   end_unit           makes what is written the state from which the next unit begins
//   add_objects        writes the objects by class and key
#pragma once

#include <alloca.h>
#include <unistd.h>

#include "evaluation.h"
#include "loading.h"
#include "text.h"

namespace {

// How a statement or a firing ended: 0 if it is done, the number of a cause, `VETOES` plus the rule that vetoes with
// its action, or `VETOED` plus the rule by which the transaction around it is aborted.
using End = int;
const End VETOES = 1 << 20, VETOED = 1 << 21;

inline bool is_veto(End end) { return end >= VETOES && end < VETOED; }

enum class Part : uint8_t { Sub, Action, Unsatisfied };

template <class Store> class Engine {
public:
    // Runs all transactions and writes the report.
    void run(std::string &text) {
        int number = 0;
        for (const Transaction &given : script.transactions) run_unit(given, ++number, text);
        text += "final\n";
        store.add_objects(text);
        for (size_t rule = 0; rule < script.rules.size(); rule++) add_rule(text, script.rules[rule], statuses[rule]);
        text += "end\n";
    }

private:
    using Row = typename Store::Row;
    using Cell = typename Store::Cell;
    using OccurrenceOf = Occurrence<Row>;
    using BindingOf = Binding<Row>;
    using AnswerOf = Answer<Row>;
    using FrameOf = Frame<Row>;

    // What is left for the end of a transaction: a whole firing, or its action.
    struct Task {
        int rule;
        bool is_action;
        int depth;
        OccurrenceOf occurrence;
        AnswerOf *answers;
    };

    struct Change {
        int rule;
        Status before;
    };

    struct Mark {
        typename Store::Mark store;
        size_t changes, tasks;
    };

    Store store;
    std::vector<Status> statuses = std::vector<Status>(script.rules.size(), Status::Absent);
    std::vector<Change> changes;
    std::vector<Task> tasks, round;
    std::vector<BindingOf> found;

    // ---- what can be undone

    Mark mark() { return {store.mark(), changes.size(), tasks.size()}; }

    void undo_to(const Mark &mark) {
        store.undo_to(mark.store);
        for (; changes.size() > mark.changes; changes.pop_back()) statuses[changes.back().rule] = changes.back().before;
        for (; tasks.size() > mark.tasks; tasks.pop_back()) drop(tasks.back().occurrence);
    }

    void set_status(int rule, Status status) {
        changes.push_back({rule, statuses[rule]});
        statuses[rule] = status;
    }

    void drop(const OccurrenceOf &given) {
        store.drop(given.before);
        store.drop(given.after);
    }

    void drop(const AnswerOf *answers, size_t count) {
        for (size_t number = 0; number < count; number++)
            for (int row = 0; row < answers[number].count; row++) store.drop(answers[number].rows[row].row);
    }

    void leave_for_later(int rule, bool is_action, int depth, const OccurrenceOf &occurrence, AnswerOf *answers) {
        store.share(occurrence.before);
        store.share(occurrence.after);
        tasks.push_back({rule, is_action, depth, occurrence, answers});
    }

    // ---- queries

    // Adds a row to those found if the predicate holds of it. 0, or a cause.
    End test(const Query &query, FrameOf &frame, int64_t key, Row *row) {
        frame.slots[query.slot] = {key, row};
        Value holds = evaluate(query.predicate, frame);
        if (holds.kind == Kind::Fault) return static_cast<End>(holds.word);
        if (holds.kind != Kind::Boolean) return WRONG_KIND;
        if (holds.word) found.push_back({key, store.share(row)});
        return 0;
    }

    End test_each(const Query &query, FrameOf &frame) {
        Value key{Kind::Fault, 0};
        if (query.key) key = evaluate(query.key, frame);
        if (key.kind != Kind::Integer)
            return store.for_each(query.class_number,
                                  [&](int64_t of, Row *row) { return test(query, frame, of, row); });
        Row *row = store.now(store.find(query.class_number, key.word));
        return row ? test(query, frame, key.word, row) : 0;
    }

    // The rows of a class for which the predicate holds, by rising keys. 0, or a cause.
    End select(const Query &query, FrameOf &frame, AnswerOf &answer) {
        found.clear();
        End end = test_each(query, frame);
        answer.count = static_cast<int>(found.size());
        answer.rows = transaction_memory.many<BindingOf>(found.size());
        for (int number = 0; number < answer.count; number++) answer.rows[number] = found[number];
        if (end) drop(&answer, 1);
        return end;
    }

    // ---- firings

    End act(int number, int depth, const OccurrenceOf *occurrence, AnswerOf *answers) {
        const Rule &rule = script.rules[number];
        auto *slots = static_cast<BindingOf *>(alloca(rule.slots * sizeof(BindingOf)));
        FrameOf frame{occurrence, slots, answers, number, depth};
        for (size_t query = 0; query < rule.queries.size(); query++) slots[query] = answers[query].rows[0];
        Mark before = mark();
        auto node = store.enter(Part::Action, number);
        End end = run(rule.action, frame);
        store.leave(node, end);
        drop(answers, rule.queries.size());
        if (!end) return 0;
        undo_to(before);
        return is_veto(end) ? end - VETOES + VETOED : 0;
    }

    // Whether the condition holds, with the answers of its queries. A fault counts as no.
    bool is_satisfied(int number, int depth, const OccurrenceOf *occurrence, AnswerOf *answers) {
        const Rule &rule = script.rules[number];
        auto *slots = static_cast<BindingOf *>(alloca(rule.slots * sizeof(BindingOf)));
        FrameOf frame{occurrence, slots, answers, number, depth};
        for (size_t query = 0; query < rule.queries.size(); query++) {
            if (select(rule.queries[query], frame, answers[query]) || answers[query].count == 0) {
                drop(answers, query);
                store.leave(store.enter(Part::Unsatisfied, number), 0);
                return false;
            }
            slots[query] = answers[query].rows[0];
        }
        return true;
    }

    End fire(int number, int depth, const OccurrenceOf *occurrence) {
        const Rule &rule = script.rules[number];
        AnswerOf *answers = nullptr;
        if (!rule.queries.empty()) {
            answers = transaction_memory.many<AnswerOf>(rule.queries.size());
            if (!is_satisfied(number, depth, occurrence, answers)) return 0;
        }
        if (rule.action_mode == Mode::Immediate) return act(number, depth, occurrence, answers);
        leave_for_later(number, true, depth, *occurrence, answers);
        return 0;
    }

    // Fires the enabled rules that hear of an occurrence.
    End signal(const std::vector<int> &hearers, const OccurrenceOf &occurrence, int depth) {
        if (hearers.empty()) return 0;
        int *immediate = static_cast<int *>(alloca(hearers.size() * sizeof(int)));
        size_t enabled = 0, count = 0;
        for (int rule : hearers) enabled += statuses[rule] == Status::Enabled;
        if (!enabled) return 0;
        if (depth >= script.depth_limit) return TOO_DEEP;
        for (int rule : hearers) {
            if (statuses[rule] != Status::Enabled) continue;
            if (script.rules[rule].condition_mode == Mode::Immediate) immediate[count++] = rule;
            else leave_for_later(rule, false, depth + 1, occurrence, nullptr);
        }
        for (size_t number = 0; number < count; number++)
            if (End end = fire(immediate[number], depth + 1, &occurrence)) return end;
        return 0;
    }

    // ---- statements

    // A key, or the end by a fault.
    End key_of(const Statement &given, FrameOf &frame, int64_t &key) {
        Value found = evaluate(given.value, frame);
        if (found.kind == Kind::Fault) return static_cast<End>(found.word);
        key = found.word;
        return found.kind == Kind::Integer ? 0 : WRONG_KIND;
    }

    // Creates or updates an object. The values come first, then the kinds are checked, then the object.
    End assign(const Statement &given, FrameOf &frame) {
        Value key = evaluate(given.value, frame);
        if (key.kind == Kind::Fault) return static_cast<End>(key.word);
        Value *values = static_cast<Value *>(alloca(given.count * sizeof(Value)));
        for (int number = 0; number < given.count; number++) {
            values[number] = evaluate(given.assignments[number].value, frame);
            if (values[number].kind == Kind::Fault) return static_cast<End>(values[number].word);
        }
        if (key.kind != Kind::Integer) return WRONG_KIND;
        for (int number = 0; number < given.count; number++)
            if (values[number].kind != given.assignments[number].kind) return WRONG_KIND;
        Cell cell = store.find(given.target, key.word);
        Row *before = store.now(cell);
        bool is_new = given.form == Form::Create;
        if (is_new == (before != nullptr)) return is_new ? ALREADY_THERE : NOT_THERE;
        Row *after = store.copy(given.target, before);
        for (int number = 0; number < given.count; number++)
            after->set(given.assignments[number].field, values[number]);
        store.write(given.target, key.word, cell, after);
        Event event = is_new ? Event::Create : Event::Update;
        return signal_object(event, given.target, key.word, before, after, frame.depth);
    }

    End remove(const Statement &given, FrameOf &frame) {
        int64_t key = 0;
        if (End end = key_of(given, frame, key)) return end;
        Cell cell = store.find(given.target, key);
        Row *before = store.now(cell);
        if (!before) return NOT_THERE;
        store.write(given.target, key, cell, nullptr);
        return signal_object(Event::Delete, given.target, key, before, nullptr, frame.depth);
    }

    End signal_object(Event event, int class_number, int64_t key, Row *before, Row *after, int depth) {
        const Class &of = script.classes[class_number];
        auto &hearers = event == Event::Create ? of.on_create : event == Event::Update ? of.on_update : of.on_delete;
        if (hearers.empty()) return 0;
        OccurrenceOf made{event, class_number, key, store.share(before), store.share(after), nullptr, 0};
        End end = signal(hearers, made, depth);
        drop(made);
        return end;
    }

    End signal_named(const Statement &given, FrameOf &frame) {
        Value *arguments = transaction_memory.many<Value>(given.count);
        for (int number = 0; number < given.count; number++) {
            arguments[number] = evaluate(given.arguments[number], frame);
            if (arguments[number].kind == Kind::Fault) return static_cast<End>(arguments[number].word);
        }
        OccurrenceOf made{Event::Signal, 0, 0, nullptr, nullptr, arguments, given.count};
        return signal(script.on_signal[given.target], made, frame.depth);
    }

    End emit(const Statement &given, FrameOf &frame) {
        Value value = evaluate(given.value, frame);
        if (value.kind == Kind::Fault) return static_cast<End>(value.word);
        store.emit(value);
        return 0;
    }

    End choose(const Statement &given, FrameOf &frame) {
        Value test = evaluate(given.value, frame);
        if (test.kind == Kind::Fault) return static_cast<End>(test.word);
        if (test.kind != Kind::Boolean) return WRONG_KIND;
        return run(test.word ? given.body : given.otherwise, frame);
    }

    End run_for(const Statement &given, const AnswerOf &rows, FrameOf &frame) {
        End end = 0;
        for (int number = 0; !end && number < rows.count; number++) {
            frame.slots[given.slot] = rows.rows[number];
            end = run(given.body, frame);
        }
        return end;
    }

    End run_each(const Statement &given, FrameOf &frame) {
        AnswerOf rows;
        if (End end = select(*given.query, frame, rows)) return end;
        End end = run_for(given, rows, frame);
        drop(&rows, 1);
        return end;
    }

    End run_with(const Statement &given, FrameOf &frame) {
        int64_t key = 0;
        if (End end = key_of(given, frame, key)) return end;
        Row *row = store.now(store.find(given.target, key));
        if (!row) return NOT_THERE;
        frame.slots[given.slot] = {key, store.share(row)};
        End end = run(given.body, frame);
        store.drop(row);
        return end;
    }

    End run_sub(const Statement &given, FrameOf &frame) {
        Mark before = mark();
        auto node = store.enter(Part::Sub, 0);
        End end = run(given.body, frame);
        store.leave(node, end);
        if (!end) return 0;
        undo_to(before);
        return is_veto(end) ? end : run(given.otherwise, frame);
    }

    End change_rule(const Statement &given) {
        Status status = statuses[given.target];
        bool is_switch = given.form == Form::Enable || given.form == Form::Disable;
        if (is_switch && status == Status::Absent) return NOT_THERE;
        if (given.form == Form::Install && status != Status::Absent) return 0;
        Status wanted = given.form == Form::Disable  ? Status::Disabled
                        : given.form == Form::Remove ? Status::Absent
                                                     : Status::Enabled;
        if (status != wanted) set_status(given.target, wanted);
        return 0;
    }

    End fire_named(const Statement &given, FrameOf &frame) {
        if (statuses[given.target] == Status::Absent) return NOT_THERE;
        if (frame.depth >= script.depth_limit) return TOO_DEEP;
        OccurrenceOf made{Event::Fire, 0, 0, nullptr, nullptr, nullptr, 0};
        if (script.rules[given.target].condition_mode == Mode::Immediate)
            return fire(given.target, frame.depth + 1, &made);
        leave_for_later(given.target, false, frame.depth + 1, made, nullptr);
        return 0;
    }

    End step(const Statement &given, FrameOf &frame) {
        switch (given.form) {
        case Form::Create:
        case Form::Update: return assign(given, frame);
        case Form::Delete: return remove(given, frame);
        case Form::Signal: return signal_named(given, frame);
        case Form::Emit: return emit(given, frame);
        case Form::If: return choose(given, frame);
        case Form::Each: return run_each(given, frame);
        case Form::For: return run_for(given, frame.answers[given.answer], frame);
        case Form::With: return run_with(given, frame);
        case Form::Sub: return run_sub(given, frame);
        case Form::Abort: return ABORTED;
        case Form::Veto: return VETOES + frame.rule;
        case Form::Fire: return fire_named(given, frame);
        default: return change_rule(given);
        }
    }

    End run(const Body &body, FrameOf &frame) {
        for (int number = 0; number < body.count; number++)
            if (End end = step(body.statements[number], frame)) return end;
        return 0;
    }

    // ---- units

    // What is left for the end of the transaction, round by round.
    End run_rounds() {
        End end = 0;
        while (!end && !tasks.empty()) {
            round.clear();
            round.swap(tasks);
            for (Task &task : round) {
                if (!end && task.is_action) end = act(task.rule, task.depth, &task.occurrence, task.answers);
                else if (!end) end = fire(task.rule, task.depth, &task.occurrence);
                drop(task.occurrence);
            }
        }
        return end;
    }

    void run_unit(const Transaction &given, int number, std::string &text) {
        auto *slots = static_cast<BindingOf *>(alloca(given.slots * sizeof(BindingOf)));
        FrameOf frame{nullptr, slots, nullptr, -1, 0};
        Mark before = mark();
        End end = run(given.body, frame);
        OccurrenceOf commit{Event::Commit, 0, 0, nullptr, nullptr, nullptr, 0};
        if (!end) end = signal(script.on_commit, commit, 0);
        if (!end) end = run_rounds();
        add_integer(text += "unit ", number);
        if (end) {
            undo_to(before);
            add_integer(text += " aborted A", end >= VETOED ? 9 : end);
            if (end >= VETOED) (text += ' ') += script.rules[end - VETOED].name;
            text += '\n';
        } else {
            text += " committed\n";
            store.add_emits(text);
        }
        store.end_unit();
        changes.clear();
        transaction_memory.clear();
    }
};

// ---- the program

std::string all_of_input() {
    std::string given(1 << 20, '\0');
    size_t length = 0;
    ssize_t count;
    while ((count = read(0, &given[length], given.size() - length)) > 0) {
        length += count;
        if (length == given.size()) given.resize(2 * length);
    }
    given.resize(length);
    given.reserve(length + simdjson::SIMDJSON_PADDING);
    return given;
}

// Reads a script and writes its report. It ends without freeing what it has, as its process ends.
template <class Store> [[noreturn]] void run_program() {
    std::string given = all_of_input();
    simdjson::dom::parser parser;
    Json whole;
    if (parser.parse(given.data(), given.size(), false).get(whole)) fail("the input is no JSON");
    load_script(whole);
    Engine<Store> engine;
    std::string text;
    engine.run(text);
    for (size_t at = 0; at < text.size();) {
        ssize_t count = write(1, text.data() + at, text.size() - at);
        if (count <= 0) _exit(4);
        at += count;
    }
    _exit(0);
}

}  // namespace
