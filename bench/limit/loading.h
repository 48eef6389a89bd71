// From JSON to a script. What is unknown, or isn't in these engines, ends the program.
#pragma once

#include <simdjson.h>

#include <algorithm>
#include <utility>

#include "memory.h"
#include "script.h"

namespace {

using Json = simdjson::dom::element;

// ---- parts of JSON

simdjson::dom::array list_of(const Json &given) {
    simdjson::dom::array found;
    if (given.get(found)) fail("a list is missing");
    return found;
}

std::string_view text_of(const Json &given) {
    std::string_view found;
    if (given.get(found)) fail("a text is missing");
    return found;
}

int number_of(const Json &given) {
    int64_t found;
    if (given.get(found)) fail("a number is missing");
    return static_cast<int>(found);
}

// The items of a short list.
class Parts {
public:
    explicit Parts(const Json &given) {
        for (Json item : list_of(given)) {
            if (count == MOST) fail("a form has too many parts");
            items[count++] = item;
        }
    }

    const Json &operator[](int number) const {
        if (number >= count) fail("a part of a form is missing");
        return items[number];
    }

private:
    static const int MOST = 8;
    Json items[MOST];
    int count = 0;
};

int known(const Numbers &numbers, std::string_view name) {
    auto found = numbers.find(name);
    if (found == numbers.end()) fail("an unknown name");
    return found->second;
}

int signal_number(std::string_view name) {
    auto added = script.signal_numbers.emplace(name, static_cast<int>(script.signal_numbers.size()));
    if (added.second) script.on_signal.emplace_back();
    return added.first->second;
}

int text_number(std::string_view text) {
    auto added = script.text_numbers.emplace(std::string(text), static_cast<int>(script.texts.size()));
    if (added.second) script.texts.emplace_back(text);
    return added.first->second;
}

int place_in(int class_number, std::string_view field) {
    auto &fields = script.classes[class_number].fields;
    auto found = std::find(fields.begin(), fields.end(), field);
    return found == fields.end() ? -1 : static_cast<int>(found - fields.begin());
}

// ---- variables

struct Variable {
    std::string_view name;
    int slot, class_number;
};

// The variables that a body or an expression may use, the innermost last.
class Scope {
public:
    const Rule *rule = nullptr;
    int most = 0;

    int add(std::string_view name, int class_number) {
        int slot = static_cast<int>(variables.size());
        variables.push_back({name, slot, class_number});
        most = std::max(most, slot + 1);
        return slot;
    }

    void remove_last() { variables.pop_back(); }

    const Variable &named(std::string_view name) const {
        for (auto it = variables.rbegin(); it != variables.rend(); ++it)
            if (it->name == name) return *it;
        fail("an unknown variable");
    }

private:
    std::vector<Variable> variables;
};

// ---- expressions

const std::unordered_map<std::string_view, Operator> OPERATORS = {
    {"+", Operator::Add}, {"-", Operator::Subtract}, {"*", Operator::Multiply}, {"/", Operator::Divide},
    {"%", Operator::Remainder}, {"neg", Operator::Negate}, {"not", Operator::Not}, {"and", Operator::And},
    {"or", Operator::Or}, {"=", Operator::Equal}, {"!=", Operator::Unequal}, {"<", Operator::Less},
    {"<=", Operator::AtMost}, {">", Operator::Greater}, {">=", Operator::AtLeast}, {"of", Operator::Field},
    {"key", Operator::Key}, {"new", Operator::New}, {"old", Operator::Old}, {"id", Operator::Id},
    {"arg", Operator::Argument}, {"time", Operator::Time}, {"count", Operator::Count},
};

Expression *load_expression(const Json &given, const Scope &scope);

// The parts of an expression whose operator is set.
void load_operands(Expression &made, const Parts &parts, const Scope &scope) {
    switch (made.op) {
    case Operator::Field: {
        const Variable &row = scope.named(text_of(parts[1]));
        made.slot = row.slot;
        made.field = place_in(row.class_number, text_of(parts[2]));
        if (made.field >= 0) made.kind = script.classes[row.class_number].kinds[made.field];
        break;
    }
    case Operator::Key: made.slot = scope.named(text_of(parts[1])).slot; break;
    case Operator::New:
    case Operator::Old:
        made.part = number_of(parts[1]);
        made.name = known(script.field_numbers, text_of(parts[2]));
        break;
    case Operator::Id:
    case Operator::Time: made.part = number_of(parts[1]); break;
    case Operator::Argument:
        made.part = number_of(parts[1]);
        made.slot = number_of(parts[2]);
        break;
    case Operator::Count: break;
    default:
        made.left = load_expression(parts[1], scope);
        if (made.op != Operator::Negate && made.op != Operator::Not) made.right = load_expression(parts[2], scope);
    }
}

Expression *load_expression(const Json &given, const Scope &scope) {
    Expression *made = new (lasting_memory.many<Expression>(1)) Expression{};
    switch (given.type()) {
    case simdjson::dom::element_type::INT64: made->constant = integer(int64_t(given)); return made;
    case simdjson::dom::element_type::BOOL: made->constant = boolean(bool(given)); return made;
    case simdjson::dom::element_type::STRING:
        made->constant = {Kind::Text, text_number(text_of(given))};
        return made;
    default: break;
    }
    Parts parts(given);
    auto found = OPERATORS.find(text_of(parts[0]));
    if (found == OPERATORS.end()) fail("an unknown operator");
    made->op = found->second;
    load_operands(*made, parts, scope);
    return made;
}

// ---- queries

bool asks_row(const Expression *given, int slot) {
    if (!given) return false;
    bool is_of_row = given->op == Operator::Field || given->op == Operator::Key;
    if (is_of_row && given->slot == slot) return true;
    return asks_row(given->left, slot) || asks_row(given->right, slot);
}

// The key that a predicate asks for first: it begins with `=`, the row's key and what doesn't ask the row.
Expression *key_in(const Expression *predicate, int slot) {
    while (predicate->op == Operator::And) predicate = predicate->left;
    if (predicate->op != Operator::Equal) return nullptr;
    Expression *left = predicate->left, *right = predicate->right;
    for (auto [side, other] : {std::pair(left, right), std::pair(right, left)})
        if (side->op == Operator::Key && side->slot == slot && !asks_row(other, slot)) return other;
    return nullptr;
}

// A query for a variable; the scope has the variable from here on.
Query load_query(std::string_view name, const Json &class_name, const Json &predicate, Scope &scope) {
    Query made{name, known(script.class_numbers, text_of(class_name)), 0, nullptr, nullptr};
    made.slot = scope.add(name, made.class_number);
    made.predicate = load_expression(predicate, scope);
    made.key = key_in(made.predicate, made.slot);
    return made;
}

// ---- statements

Body load_body(const Json &given, Scope &scope);

void load_assignments(Statement &made, const Json &given, const Scope &scope) {
    auto pairs = list_of(given);
    made.assignments = lasting_memory.many<Assignment>(pairs.size());
    for (Json pair : pairs) {
        Parts parts(pair);
        int field = place_in(made.target, text_of(parts[0]));
        if (field < 0) fail("an unknown field");
        Kind kind = script.classes[made.target].kinds[field];
        made.assignments[made.count++] = {field, kind, load_expression(parts[1], scope)};
    }
}

void load_signal(Statement &made, const Parts &parts, const Scope &scope) {
    made.target = signal_number(text_of(parts[1]));
    auto given = list_of(parts[2]);
    made.arguments = lasting_memory.many<Expression *>(given.size());
    for (Json argument : given) made.arguments[made.count++] = load_expression(argument, scope);
}

void load_each(Statement &made, const Parts &parts, Scope &scope) {
    made.query = new Query(load_query(text_of(parts[1]), parts[2], parts[3], scope));
    made.slot = made.query->slot;
    made.body = load_body(parts[4], scope);
    scope.remove_last();
}

void load_with(Statement &made, const Parts &parts, Scope &scope) {
    made.target = known(script.class_numbers, text_of(parts[2]));
    made.value = load_expression(parts[3], scope);
    made.slot = scope.add(text_of(parts[1]), made.target);
    made.body = load_body(parts[4], scope);
    scope.remove_last();
}

void load_for(Statement &made, const Parts &parts, Scope &scope) {
    if (!scope.rule) fail("`for` outside a rule");
    std::string_view name = text_of(parts[1]);
    const std::vector<Query> &queries = scope.rule->queries;
    while (made.answer < static_cast<int>(queries.size()) && queries[made.answer].name != name) made.answer++;
    if (made.answer == static_cast<int>(queries.size())) fail("an unknown query");
    made.slot = scope.add(name, queries[made.answer].class_number);
    made.body = load_body(parts[2], scope);
    scope.remove_last();
}

const std::unordered_map<std::string_view, Form> FORMS = {
    {"create", Form::Create}, {"update", Form::Update}, {"delete", Form::Delete}, {"signal", Form::Signal},
    {"emit", Form::Emit}, {"if", Form::If}, {"each", Form::Each}, {"for", Form::For}, {"with", Form::With},
    {"sub", Form::Sub}, {"abort", Form::Abort}, {"veto", Form::Veto}, {"install", Form::Install},
    {"enable", Form::Enable}, {"disable", Form::Disable}, {"remove", Form::Remove}, {"fire", Form::Fire},
};

void load_statement(Statement &made, const Json &given, Scope &scope) {
    Parts parts(given);
    auto found = FORMS.find(text_of(parts[0]));
    if (found == FORMS.end()) fail("an unknown statement");
    made.form = found->second;
    switch (made.form) {
    case Form::Create:
    case Form::Update:
    case Form::Delete:
        made.target = known(script.class_numbers, text_of(parts[1]));
        made.value = load_expression(parts[2], scope);
        if (made.form != Form::Delete) load_assignments(made, parts[3], scope);
        break;
    case Form::Signal: load_signal(made, parts, scope); break;
    case Form::Emit: made.value = load_expression(parts[1], scope); break;
    case Form::If:
        made.value = load_expression(parts[1], scope);
        made.body = load_body(parts[2], scope);
        made.otherwise = load_body(parts[3], scope);
        break;
    case Form::Each: load_each(made, parts, scope); break;
    case Form::For: load_for(made, parts, scope); break;
    case Form::With: load_with(made, parts, scope); break;
    case Form::Sub:
        made.body = load_body(parts[1], scope);
        made.otherwise = load_body(parts[2], scope);
        break;
    case Form::Abort:
    case Form::Veto: break;
    default: made.target = known(script.rule_numbers, text_of(parts[1]));
    }
}

Body load_body(const Json &given, Scope &scope) {
    auto statements = list_of(given);
    size_t size = statements.size() * sizeof(Statement);
    bool is_short = size <= Arena::SIZE / 4;
    Body made{static_cast<Statement *>(is_short ? lasting_memory.piece(size) : malloc(size)), 0};
    for (Json statement : statements) {
        Statement *next = new (made.statements + made.count++) Statement{};
        load_statement(*next, statement, scope);
    }
    return made;
}

// ---- rules

Mode load_mode(const Json &given) {
    std::string_view name = text_of(given);
    if (name == "immediate") return Mode::Immediate;
    if (name == "deferred") return Mode::Deferred;
    fail("a mode that isn't here");
}

// Adds a rule to those that hear of an event. It hears once of what both sides of an `or` name.
void add_hearer(std::vector<int> &hearers, int rule) {
    if (hearers.empty() || hearers.back() != rule) hearers.push_back(rule);
}

void load_event(const Json &given, int rule) {
    Parts parts(given);
    std::string_view word = text_of(parts[0]);
    if (word == "commit") return add_hearer(script.on_commit, rule);
    if (word == "signal") return add_hearer(script.on_signal[signal_number(text_of(parts[1]))], rule);
    if (word == "or") {
        load_event(parts[1], rule);
        load_event(parts[2], rule);
        return;
    }
    if (word != "create" && word != "update" && word != "delete") fail("an event that isn't here");
    Class &heard = script.classes[known(script.class_numbers, text_of(parts[1]))];
    add_hearer(word == "create" ? heard.on_create : word == "update" ? heard.on_update : heard.on_delete, rule);
}

void load_rule(const Json &given, int number) {
    Parts parts(given);
    Rule &made = script.rules[number];
    Scope scope;
    scope.rule = &made;
    load_event(parts[1], number);
    made.condition_mode = load_mode(parts[2]);
    made.action_mode = load_mode(parts[4]);
    for (Json query : list_of(parts[3])) {
        Parts of_query(query);
        made.queries.push_back(load_query(text_of(of_query[0]), of_query[1], of_query[2], scope));
    }
    made.action = load_body(parts[5], scope);
    made.slots = scope.most;
}

// ---- the script

Kind kind_of(std::string_view name) {
    return name == "int" ? Kind::Integer : name == "bool" ? Kind::Boolean : Kind::Text;
}

void load_classes(const Json &given) {
    for (Json one : list_of(given)) {
        Parts parts(one);
        script.class_numbers[text_of(parts[0])] = static_cast<int>(script.classes.size());
        Class made;
        made.name = text_of(parts[0]);
        for (Json field : list_of(parts[1])) {
            Parts of_field(field);
            made.fields.push_back(text_of(of_field[0]));
            made.kinds.push_back(kind_of(text_of(of_field[1])));
            script.field_numbers.emplace(made.fields.back(), static_cast<int>(script.field_numbers.size()));
        }
        script.classes.push_back(made);
    }
    size_t count = script.classes.size();
    script.places.assign(script.field_numbers.size() * count, -1);
    for (size_t number = 0; number < count; number++)
        for (size_t field = 0; field < script.classes[number].fields.size(); field++)
            script.places[script.field_numbers[script.classes[number].fields[field]] * count + number] = field;
}

void load_script(const Json &given) {
    int64_t depth;
    if (!given["depth"].get(depth)) script.depth_limit = static_cast<int>(depth);
    load_classes(given["classes"]);
    auto rules = list_of(given["rules"]);
    script.rules.resize(rules.size());
    int number = 0;
    for (Json rule : rules) {
        script.rules[number].name = text_of(Parts(rule)[0]);
        script.rule_numbers[script.rules[number].name] = number;
        number++;
    }
    number = 0;
    for (Json rule : rules) load_rule(rule, number++);
    for (Json item : list_of(given["items"])) {
        Parts parts(item);
        if (text_of(parts[0]) != "tx") fail("an item that isn't here");
        Scope scope;
        Body body = load_body(parts[1], scope);
        script.transactions.push_back({body, scope.most});
    }
}

}  // namespace
