// Parts of a report's text.
#pragma once

#include "script.h"

namespace {

void add_integer(std::string &text, int64_t given) {
    char digits[24];
    char *at = digits + sizeof digits;
    uint64_t left = given < 0 ? 0 - static_cast<uint64_t>(given) : given;
    do *--at = static_cast<char>('0' + left % 10);
    while (left /= 10);
    if (given < 0) *--at = '-';
    text.append(at, digits + sizeof digits - at);
}

void add_quoted(std::string &text, const std::string &given) {
    const std::string from = "\"\\\n\t\r\b\f", to = "\"\\ntrbf";
    text += '"';
    for (unsigned char byte : given) {
        size_t at = from.find(byte);
        char number[8];
        if (at != std::string::npos) {
            (text += '\\') += to[at];
        } else if (byte < 32) {
            snprintf(number, sizeof number, "\\u%04x", byte);
            text += number;
        } else {
            text += byte;
        }
    }
    text += '"';
}

void add_value(std::string &text, Value given) {
    switch (given.kind) {
    case Kind::Integer: return add_integer(text, given.word);
    case Kind::Boolean: text += given.word ? "true" : "false"; return;
    default: add_quoted(text, script.texts[given.word]);
    }
}

template <class Row> void add_object(std::string &text, const Class &of, int64_t key, const Row &row) {
    (text += "object ") += of.name;
    add_integer(text += ' ', key);
    for (size_t place = 0; place < of.fields.size(); place++) {
        ((text += ' ') += of.fields[place]) += '=';
        add_value(text, row.value(place, of.kinds[place]));
    }
    text += '\n';
}

void add_rule(std::string &text, const Rule &rule, Status status) {
    ((text += "rule ") += rule.name) += ' ';
    text += status == Status::Absent ? "absent\n" : status == Status::Enabled ? "enabled\n" : "disabled\n";
}

}  // namespace
