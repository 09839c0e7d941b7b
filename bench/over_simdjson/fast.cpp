// What one who knows simdjson would write by hand, for speed, for each query of the table. simdjson checks a
// line and lays it out as a tape, with no allocation for a line; code that knows the query walks the tape,
// and patterns are matched by hand. It prints and refuses what by_hand does.
//
//     over_simdjson [--workers N] [--output nodes|values|lines] QUERY < documents.jsonl
//
// Each of N workers takes a block of whole lines from standard input, answers it, and writes when its turn
// has come. One document is never shared out among workers.
#include <thread>
#include "walk.hpp"

// [A-M][A-Z]-[0-9]{3}[02468], as a whole
static bool is_even_sku(string_view t) {
    return t.size() == 7 && t[0] >= 'A' && t[0] <= 'M' && t[1] >= 'A' && t[1] <= 'Z' && t[2] == '-' &&
           digit(t[3]) && digit(t[4]) && digit(t[5]) && digit(t[6]) && !(t[6] & 1);
}

// (error|timeout|refused) [0-9]{3}, anywhere: a space before a digit is rare, so it is sought first.
static bool has_trouble(string_view t) {
    const char *begin = t.data(), *end = begin + t.size();
    for (const char *q = begin; (q = find_pair(q, end, ' ', '0', '9')) < end; q++) {
        string_view before(begin, q - begin);
        auto ends_in = [&](string_view word) {
            return before.size() >= word.size() && before.substr(before.size() - word.size()) == word;
        };
        if (end - q > 3 && digit(q[1]) && digit(q[2]) && digit(q[3]) &&
            (ends_in("error") || ends_in("timeout") || ends_in("refused")))
            return true;
    }
    return false;
}

using Query = void (*)(Walk &, size_t);
struct Case {
    string_view text;
    Query query;
    string_view form = "nodes";
};

template <size_t N> static auto printing(Walk &w, const char (&name)[N]) {
    return [&](size_t i) { w.at_member(i, name, [&](size_t j) { w.node(j); }); };
}

static const Case CASES[] = {
    {"$.id", [](Walk &w, size_t i) { printing(w, "id")(i); }},
    {"$.user.id", [](Walk &w, size_t i) { w.at_member(i, "user", printing(w, "id")); }},
    {"$.trace.spans[1].attrs.host",
     [](Walk &w, size_t i) {
         w.at_member(i, "trace", [&](size_t i) {
             w.at_member(i, "spans", [&](size_t i) {
                 if (size_t second = w.item(i, 1))
                     w.at_index(1, [&] { w.at_member(second, "attrs", printing(w, "host")); });
             });
         });
     }},
    {"$..*", [](Walk &w, size_t i) { w.all<true>(i); }},
    {"$..*", [](Walk &w, size_t i) { w.all<false>(i); }, "values"},
    {"$..id", [](Walk &w, size_t i) { w.descend(i, printing(w, "id")); }},
    {"$.items[*].price",
     [](Walk &w, size_t i) {
         w.at_member(i, "items", [&](size_t i) { w.at_children(i, printing(w, "price")); });
     }},
    {"$.items[*].price",
     [](Walk &w, size_t i) {
         w.for_children(w.member(i, "items"), [&](size_t j) {
             if (size_t price = w.member(j, "price")) w.print_value(price);
         });
     },
     "values"},
    {"$.items[?@.price>5000].name",
     [](Walk &w, size_t i) {
         auto test = [&](size_t j) { return w.above(w.member(j, "price"), 5000); };
         w.at_member(i, "items", [&](size_t i) { w.at_kept(i, test, printing(w, "name")); });
     }},
    {"$.items[?match(@.sku,'[A-M][A-Z]-[0-9]{3}[02468]')].qty",
     [](Walk &w, size_t i) {
         auto test = [&](size_t j) { return w.is_text(j = w.member(j, "sku")) && is_even_sku(w.text(j)); };
         w.at_member(i, "items", [&](size_t i) { w.at_kept(i, test, printing(w, "qty")); });
     }},
    {"$.items[?@.recalled].id",
     [](Walk &w, size_t i) {
         auto test = [&](size_t j) { return w.member(j, "recalled") != 0; };
         w.at_member(i, "items", [&](size_t i) { w.at_kept(i, test, printing(w, "id")); });
     }},
    {"$.paragraphs[?search(@,'(error|timeout|refused) [0-9]{3}')]",
     [](Walk &w, size_t i) {
         auto test = [&](size_t j) { return w.is_text(j) && has_trouble(w.text(j)); };
         w.at_member(i, "paragraphs", [&](size_t i) { w.at_kept(i, test, [&](size_t j) { w.node(j); }); });
     }},
    {"$[*]", [](Walk &w, size_t i) { w.at_children(i, [&](size_t j) { w.node(j); }); }},
    {"$[?@.v>990000].k",
     [](Walk &w, size_t i) {
         auto test = [&](size_t j) { return w.above(w.member(j, "v"), 990000); };
         w.at_kept(i, test, printing(w, "k"));
     }},
    {"$[?$.level==\"error\"]",
     [](Walk &w, size_t i) {
         size_t level = w.member(i, "level");
         if (w.is_text(level) && w.text(level) == "error") w.print_line();
     },
     "lines"},
};

int main(int argc, char **argv) {
    int workers = 1, at = 1;
    string_view form = "nodes";
    for (; at + 2 < argc; at += 2) {
        string_view option = argv[at];
        if (option == "--workers") workers = atoi(argv[at + 1]);
        else if (option == "--output") form = argv[at + 1];
        else stop(64, "command line");
    }
    if (at + 1 != argc || workers < 1 || workers > 64) stop(64, "command line");
    const Case *chosen = nullptr;
    for (const Case &c : CASES)
        if (c.text == argv[at] && c.form == form) chosen = &c;
    if (!chosen) stop(2, "this query is not written by hand");
    Ends ends;
    auto work = [&] { Walk(ends).run(chosen->query); };
    std::vector<std::thread> others;
    for (int i = 1; i < workers; i++) others.emplace_back(work);
    work();
    for (auto &t : others) t.join();
}
