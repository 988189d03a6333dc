// The calls of a board in plain C++, timed as the program times its own: a worklist with adjacency lists and a bit set.
//
//     worklist finish FILE N SCALE      a finish of the cleared board with all statements wanted
//     worklist withdraw FILE N SCALE    a withdraw of the last place's rule, after that finish
//     worklist text FILE N SCALE        a load and a write
//     worklist tables FILE SCALE        the tables after the finish, and again after the withdraw
#include "board.hpp"
#include <chrono>
#include <cstdio>
#include <cstdlib>
#include <fstream>
#include <iterator>
#include <string>

constexpr size_t most_statements = 1024, most_places = 4096;

// For each statement the items that belong to it, one after the other: those of s stand from start[s] up to start[s + 1].
template <class Item, size_t most> struct Lists {
    uint16_t start[most_statements + 2];
    Item items[most];
};

// The calls, with the room that they work in. Statement s is bit s of a set, and at[s].
template <class S> struct Worker {
    Lists<Rule<S>, most_places> rules_of;      // the rules with the statement as head, in rising marks
    Lists<uint16_t, 4 * most_places> users_of; // the heads of the rules with the statement as body
    uint64_t active[most_statements / 64 + 1];

    void index(const std::vector<Rule<S>> &rules, size_t count) {
        uint16_t *heads = rules_of.start, *bodies = users_of.start;
        std::memset(heads, 0, (count + 2) * sizeof *heads);
        std::memset(bodies, 0, (count + 2) * sizeof *bodies);
        for (const Rule<S> &rule : rules) {
            if (rule.head == 0) continue;
            ++heads[rule.head];
            for (int i = 0; i < 4 && rule.bodies[i]; ++i) ++bodies[rule.bodies[i]];
        }
        // Sums up to and with s; filling from the back then takes each down to its start.
        for (size_t s = 1; s <= count + 1; ++s) heads[s] += heads[s - 1], bodies[s] += bodies[s - 1];
        for (size_t k = rules.size(); k-- > 0;) {
            const Rule<S> &rule = rules[k];
            if (rule.head == 0) continue;
            rules_of.items[--heads[rule.head]] = rule;
            for (int i = 0; i < 4 && rule.bodies[i]; ++i) users_of.items[--bodies[rule.bodies[i]]] = rule.head;
        }
    }

    // Under the stored grades; unopened bodies become active on the way.
    typename S::Grade value(const Rule<S> &rule, Statement<S> *at) {
        if (rule.bodies[0] == 0) return rule.weight;
        typename S::Grade first = body(rule.bodies[0], at);
        if (rule.form == Form::Chain) {
            typename S::Grade grade = S::blend(rule.weight, first);
            for (int i = 1; i < 4 && rule.bodies[i]; ++i) grade = S::blend(grade, body(rule.bodies[i], at));
            return grade;
        }
        if (rule.form == Form::All)
            for (int i = 1; i < 4 && rule.bodies[i]; ++i) first = S::meet(first, body(rule.bodies[i], at));
        else
            for (int i = 1; i < 4 && rule.bodies[i]; ++i) first = S::join(first, body(rule.bodies[i], at));
        return S::blend(rule.weight, first);
    }

    size_t lowest_word = 0; // no word of the set below it has a bit

    void wake(uint16_t s, Statement<S> *at) {
        at[s].mark = Mark::Active;
        active[s / 64] |= uint64_t(1) << s % 64;
        if (s / 64u < lowest_word) lowest_word = s / 64;
    }

    typename S::Grade body(uint16_t s, Statement<S> *at) {
        if (at[s].mark == Mark::Unopened) wake(s, at);
        return at[s].grade;
    }

    uint64_t finish(const std::vector<typename S::Grade> &survey, Board<S> &board) {
        size_t count = board.statements.size(), words = count / 64 + 1;
        Statement<S> *at = board.statements.data() - 1;
        index(board.rules, count);
        std::memset(active, 0, words * sizeof *active);
        for (size_t s = 1; s <= count; ++s)
            if (at[s].mark == Mark::Active) active[s / 64] |= uint64_t(1) << s % 64;
        uint64_t evaluations = 0;
        lowest_word = 0;
        while (lowest_word < words) {
            uint64_t bits = active[lowest_word];
            if (bits == 0) {
                ++lowest_word;
                continue;
            }
            active[lowest_word] = bits & (bits - 1);
            uint16_t s = uint16_t(64 * lowest_word + size_t(__builtin_ctzll(bits)));
            at[s].mark = Mark::Quiet;
            typename S::Grade worth = s <= survey.size() ? survey[s - 1] : S::lowest(), old = at[s].grade;
            for (size_t k = rules_of.start[s]; k < rules_of.start[s + 1]; ++k)
                worth = S::join(worth, value(rules_of.items[k], at));
            ++evaluations;
            if (!S::below(old, worth) || S::below(worth, old)) continue;
            at[s].grade = worth;
            for (size_t k = users_of.start[s]; k < users_of.start[s + 1]; ++k)
                if (at[users_of.items[k]].mark == Mark::Quiet) wake(users_of.items[k], at);
        }
        return evaluations;
    }

    void index_users(const std::vector<Rule<S>> &rules, size_t count) {
        uint16_t *bodies = users_of.start;
        std::memset(bodies, 0, (count + 2) * sizeof *bodies);
        for (const Rule<S> &rule : rules)
            if (rule.head)
                for (int i = 0; i < 4 && rule.bodies[i]; ++i) ++bodies[rule.bodies[i]];
        for (size_t s = 1; s <= count + 1; ++s) bodies[s] += bodies[s - 1];
        for (const Rule<S> &rule : rules)
            if (rule.head)
                for (int i = 0; i < 4 && rule.bodies[i]; ++i) users_of.items[--bodies[rule.bodies[i]]] = rule.head;
    }

    // The open statements that lead to the rule's head fall to the lowest grade and wake.
    void withdraw(Board<S> &board, size_t mark) {
        size_t count = board.statements.size();
        Statement<S> *at = board.statements.data() - 1;
        index_users(board.rules, count);
        uint64_t seen[most_statements / 64 + 1] = {};
        uint16_t found[most_statements];
        size_t end = 0;
        uint16_t head = board.rules[mark - 1].head;
        found[end++] = head;
        seen[head / 64] |= uint64_t(1) << head % 64;
        for (size_t next = 0; next < end; ++next) {
            uint16_t s = found[next];
            if (at[s].mark != Mark::Unopened) at[s] = {S::lowest(), Mark::Active};
            for (size_t k = users_of.start[s]; k < users_of.start[s + 1]; ++k) {
                uint16_t user = users_of.items[k];
                uint64_t bit = uint64_t(1) << user % 64;
                if (seen[user / 64] & bit) continue;
                seen[user / 64] |= bit;
                found[end++] = user;
            }
        }
        board.rules[mark - 1] = Rule<S>();
    }
};

[[noreturn]] void stop(const std::string &why) {
    std::fprintf(stderr, "worklist: %s\n", why.c_str());
    std::exit(1);
}

using Clock = std::chrono::steady_clock;

long long nanos(Clock::duration time) { return std::chrono::duration_cast<std::chrono::nanoseconds>(time).count(); }

// The board that the text spells, on tables as long as its first line says.
template <class S> Board<S> loaded(const std::string &text) {
    uint32_t statements = 1, places = 1;
    if (text.size() >= 12) number_in(text.data() + 1, statements), number_in(text.data() + 6, places);
    Board<S> board;
    board.statements.resize(statements);
    board.rules.resize(places ? places : 1);
    std::vector<Row<S>> rows;
    Fault fault = load(text.data(), text.size(), board, rows);
    if (fault.number)
        stop("load: refused " + std::to_string(fault.number) + " at line " + std::to_string(fault.line) + " column " +
             std::to_string(fault.column));
    return board;
}

template <class S> void want_all(Board<S> &board) {
    for (Statement<S> &statement : board.statements) statement.mark = Mark::Active;
}

template <class S> void time_finish(Board<S> board, int turns) {
    static Worker<S> worker;
    std::vector<typename S::Grade> survey;
    want_all(board);
    const auto wanted = board.statements;
    Clock::duration total{};
    uint64_t count = 0;
    for (int turn = 0; turn < turns; ++turn) {
        board.statements = wanted;
        auto start = Clock::now();
        count = worker.finish(survey, board);
        total += Clock::now() - start;
    }
    std::printf("finish: %llu evaluations, %lld ns per finish\n", (unsigned long long)count, nanos(total) / turns);
}

template <class S> void time_withdraw(Board<S> board, int turns) {
    static Worker<S> worker;
    want_all(board);
    worker.finish({}, board);
    const Board<S> finished = board;
    Clock::duration total{};
    for (int turn = 0; turn < turns; ++turn) {
        board.statements = finished.statements;
        board.rules = finished.rules;
        auto start = Clock::now();
        worker.withdraw(board, board.rules.size());
        total += Clock::now() - start;
    }
    std::printf("withdraw: %lld ns per withdraw\n", nanos(total) / turns);
}

template <class S> void time_text(Board<S> board, const std::string &text, int turns) {
    std::vector<Row<S>> rows;
    std::string buffer(text.size(), '\0');
    Clock::duration loads{}, writes{};
    for (int turn = 0; turn < turns; ++turn) {
        auto start = Clock::now();
        Fault fault = load(text.data(), text.size(), board, rows);
        loads += Clock::now() - start;
        start = Clock::now();
        size_t length = write(board, buffer.data(), buffer.size());
        writes += Clock::now() - start;
        if (fault.number || length != text.size()) stop("text: refused");
    }
    if (buffer != text) stop("text: what was written is not what was read");
    std::printf("text: %zu bytes, %lld ns per load, %lld ns per write\n", text.size(), nanos(loads) / turns, nanos(writes) / turns);
}

template <class S> void print_tables(const Board<S> &board) {
    const char *names[] = {"unopened", "quiet", "active"};
    for (size_t s = 0; s < board.statements.size(); ++s)
        std::printf("s %zu %u %s\n", s + 1, S::code(board.statements[s].grade), names[int(board.statements[s].mark)]);
    for (size_t k = 0; k < board.rules.size(); ++k) {
        const Rule<S> &r = board.rules[k];
        if (r.head)
            std::printf("p %zu %u %c %u %u %u %u %u\n", k + 1, r.head, "AOL"[int(r.form)], S::code(r.weight), r.bodies[0], r.bodies[1],
                        r.bodies[2], r.bodies[3]);
    }
}

template <class S> void tables(Board<S> board) {
    static Worker<S> worker;
    want_all(board);
    worker.finish({}, board);
    print_tables(board);
    worker.withdraw(board, board.rules.size());
    print_tables(board);
}

template <class S> void run(const std::string &what, const std::string &text, int turns) {
    Board<S> board = loaded<S>(text);
    if (what == "finish") time_finish(board, turns);
    else if (what == "withdraw") time_withdraw(board, turns);
    else if (what == "text") time_text(board, text, turns);
    else if (what == "tables") tables(board);
    else stop("finish, withdraw, text or tables");
}

int main(int count, char **words) {
    bool shown = count == 4 && std::string(words[1]) == "tables";
    if (count != 5 && !shown) stop("expected finish|withdraw|text FILE N SCALE, or tables FILE SCALE");
    std::ifstream file(words[2], std::ios::binary);
    if (!file) stop(std::string(words[2]) + ": cannot be read");
    std::string text{std::istreambuf_iterator<char>(file), std::istreambuf_iterator<char>()};
    int turns = shown ? 1 : std::atoi(words[3]);
    std::string scale = words[count - 1];
    if (turns < 1) stop("N is at least 1");
    if (scale == "percent") run<Percent>(words[1], text, turns);
    else if (scale == "verdict") run<Verdict>(words[1], text, turns);
    else if (scale == "suppliers") run<Suppliers>(words[1], text, turns);
    else if (scale == "belief") run<Belief>(words[1], text, turns);
    else stop("no such scale");
}
