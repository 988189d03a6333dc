// A board in plain C++: the four scales, the two tables, and board text with the checks of docs/TEXT.md.
#pragma once
#include <cstddef>
#include <cstdint>
#include <cstring>
#include <optional>
#include <vector>

struct Percent {
    using Grade = uint8_t;
    static Grade lowest() { return 0; }
    static Grade join(Grade a, Grade b) { return a > b ? a : b; }
    static Grade meet(Grade a, Grade b) { return a < b ? a : b; }
    static Grade blend(Grade a, Grade b) { return unsigned(a) * b / 100; }
    static bool below(Grade a, Grade b) { return a <= b; }
    static unsigned code(Grade a) { return a; }
    static std::optional<Grade> decode(unsigned c) {
        if (c > 100) return std::nullopt;
        return Grade(c);
    }
};

// The codes of false, unknown, inconsistent and true are two bits: join and meet are those of the bits.
struct Verdict {
    using Grade = uint8_t;
    static Grade lowest() { return 0; }
    static Grade join(Grade a, Grade b) { return a | b; }
    static Grade meet(Grade a, Grade b) { return a & b; }
    static Grade blend(Grade a, Grade b) { return a & b; }
    static bool below(Grade a, Grade b) { return (a & b) == a; }
    static unsigned code(Grade a) { return a; }
    static std::optional<Grade> decode(unsigned c) {
        if (c > 3) return std::nullopt;
        return Grade(c);
    }
};

struct Suppliers {
    using Grade = uint16_t;
    static Grade lowest() { return 0; }
    static Grade join(Grade a, Grade b) { return a | b; }
    static Grade meet(Grade a, Grade b) { return a & b; }
    static Grade blend(Grade a, Grade b) { return a & b; }
    static bool below(Grade a, Grade b) { return (a & b) == a; }
    static unsigned code(Grade a) { return a; }
    static std::optional<Grade> decode(unsigned c) {
        if (c > 65535) return std::nullopt;
        return Grade(c);
    }
};

struct Belief {
    struct Grade {
        uint8_t belief, doubt;
    };
    static Grade lowest() { return {0, 100}; }
    static Grade join(Grade a, Grade b) {
        return {Percent::join(a.belief, b.belief), Percent::meet(a.doubt, b.doubt)};
    }
    static Grade meet(Grade a, Grade b) {
        return {Percent::meet(a.belief, b.belief), Percent::join(a.doubt, b.doubt)};
    }
    static Grade blend(Grade a, Grade b) {
        return {Percent::blend(a.belief, b.belief), Percent::join(a.doubt, b.doubt)};
    }
    static bool below(Grade a, Grade b) { return a.belief <= b.belief && b.doubt <= a.doubt; }
    static unsigned code(Grade a) { return 256u * a.belief + a.doubt; }
    static std::optional<Grade> decode(unsigned c) {
        if (c / 256 > 100 || c % 256 > 100) return std::nullopt;
        return Grade{uint8_t(c / 256), uint8_t(c % 256)};
    }
};

enum class Mark : uint8_t { Unopened, Quiet, Active };
enum class Form : uint8_t { All, Any, Chain };

template <class S> struct Statement {
    typename S::Grade grade = S::lowest();
    Mark mark = Mark::Unopened;
};

template <class S> struct Rule {
    uint16_t head = 0;
    Form form = Form::All;
    typename S::Grade weight = S::lowest();
    uint16_t bodies[4] = {0, 0, 0, 0};
};

template <class S> struct Board {
    std::vector<Statement<S>> statements;
    std::vector<Rule<S>> rules;
};

// The first fault of a text; number 0 is none.
struct Fault {
    int number = 0;
    char layer = ' ';
    size_t line = 0, column = 0;
};

// A number in five columns.
inline bool number_in(const char *field, uint32_t &n) {
    int i = 0;
    while (i < 4 && field[i] == ' ') ++i;
    if (field[i] == '0' && i < 4) return false;
    uint32_t value = 0;
    for (; i < 5; ++i) {
        unsigned digit = unsigned(field[i]) - '0';
        if (digit > 9) return false;
        value = value * 10 + digit;
    }
    n = value;
    return true;
}

template <class S> struct Row {
    uint16_t mark;
    Rule<S> rule;
};

// One rule's line, which has its 38 bytes.
template <class S> Fault read_rule(const char *text, size_t line, uint32_t last, uint32_t statements, uint32_t places, Row<S> &row) {
    uint32_t mark, head, code;
    if (text[0] != 'R') return {11, 'l', line, 1};
    if (!number_in(text + 1, mark)) return {12, 'f', line, 2};
    if (mark == 0 || mark > places) return {4, 'b', line, 2};
    if (mark <= last) return {15, 'b', line, 2};
    if (!number_in(text + 6, head)) return {12, 'f', line, 7};
    if (head == 0 || head > statements) return {3, 'b', line, 7};
    Form form;
    switch (text[11]) {
    case 'A': form = Form::All; break;
    case 'O': form = Form::Any; break;
    case 'L': form = Form::Chain; break;
    default: return {11, 'f', line, 12};
    }
    if (!number_in(text + 12, code)) return {12, 'f', line, 13};
    auto weight = S::decode(code);
    if (!weight) return {13, 'f', line, 13};
    row.mark = uint16_t(mark);
    row.rule.head = uint16_t(head);
    row.rule.form = form;
    row.rule.weight = *weight;
    bool absent = false;
    for (size_t i = 0; i < 4; ++i) {
        uint32_t body;
        if (!number_in(text + 17 + 5 * i, body)) return {12, 'f', line, 18 + 5 * i};
        if (body > statements) return {3, 'b', line, 18 + 5 * i};
        if (body != 0 && absent) return {7, 'b', line, 18 + 5 * i};
        absent = body == 0;
        row.rule.bodies[i] = uint16_t(body);
    }
    return {};
}

// Reads the text into a board with tables of these lengths; a refused text leaves the board as it was.
template <class S> Fault load(const char *text, size_t length, Board<S> &board, std::vector<Row<S>> &rows) {
    size_t statements = board.statements.size(), places = board.rules.size();
    if (statements < 1 || statements > 1024 || places < 1 || places > 4096) return {1, 'b', 0, 0};
    if (length < 12 || text[11] != '\n') return {10, 'l', 1, 1};
    uint32_t total, count;
    if (text[0] != 'B') return {11, 'l', 1, 1};
    if (!number_in(text + 1, total)) return {12, 'f', 1, 2};
    if (total != statements) return {14, 'b', 1, 2};
    if (!number_in(text + 6, count)) return {12, 'f', 1, 7};
    if (count > places) return {14, 'b', 1, 7};
    rows.resize(count);
    size_t at = 12;
    uint32_t last = 0;
    for (uint32_t i = 0; i < count; ++i, at += 38) {
        size_t line = i + 2;
        if (length - at < 38 || text[at + 37] != '\n') return {10, 'l', line, 1};
        Fault fault = read_rule(text + at, line, last, uint32_t(statements), uint32_t(places), rows[i]);
        if (fault.number) return fault;
        last = rows[i].mark;
    }
    if (at < length) return {14, 'b', count + 2, 1};
    board.statements.assign(statements, Statement<S>());
    board.rules.assign(places, Rule<S>());
    for (const Row<S> &row : rows) board.rules[row.mark - 1] = row.rule;
    return {};
}

inline void write_number(uint32_t n, char *out) {
    for (int i = 4; i >= 0; --i) {
        out[i] = (n > 0 || i == 4) ? char('0' + n % 10) : ' ';
        n /= 10;
    }
}

// Writes the board's text and answers its length, or 0 where the buffer is too short.
template <class S> size_t write(const Board<S> &board, char *out, size_t room) {
    size_t held = 0;
    for (const Rule<S> &rule : board.rules) held += rule.head != 0;
    size_t length = 12 + 38 * held;
    if (room < length) return 0;
    out[0] = 'B';
    write_number(uint32_t(board.statements.size()), out + 1);
    write_number(uint32_t(held), out + 6);
    out[11] = '\n';
    char *line = out + 12;
    for (size_t k = 0; k < board.rules.size(); ++k) {
        const Rule<S> &rule = board.rules[k];
        if (rule.head == 0) continue;
        line[0] = 'R';
        write_number(uint32_t(k + 1), line + 1);
        write_number(rule.head, line + 6);
        line[11] = "AOL"[int(rule.form)];
        write_number(S::code(rule.weight), line + 12);
        for (int i = 0; i < 4; ++i) write_number(rule.bodies[i], line + 17 + 5 * i);
        line[37] = '\n';
        line += 38;
    }
    return length;
}
